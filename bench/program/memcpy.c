/*
 * memcpy for both sides. The C library has several and picks one by the processor; with this one a count is the same on every machine.
 * It makes the largest moves that fit, the last of them over bytes already copied, as good libraries do: a slow one would cost
 * both sides the same and so hide the difference between them.
 */
#include <stddef.h>
#include <stdint.h>

void *memcpy(void *restrict to, const void *restrict from, size_t size);

/* one move at a place of both areas, which need no alignment */
#define MOVE(type, to, from, at)                               \
    do {                                                       \
        type moved;                                            \
        __builtin_memcpy(&moved, (from) + (at), sizeof moved); \
        __builtin_memcpy((to) + (at), &moved, sizeof moved);   \
    } while (0)

struct sixteen {
    uint64_t halves[2];
};

static void copy_short(uint8_t *to, const uint8_t *from, size_t size)
{
    if (size >= 8) {
        MOVE(uint64_t, to, from, 0);
        MOVE(uint64_t, to, from, size - 8);
    } else if (size >= 4) {
        MOVE(uint32_t, to, from, 0);
        MOVE(uint32_t, to, from, size - 4);
    } else if (size >= 2) {
        MOVE(uint16_t, to, from, 0);
        MOVE(uint16_t, to, from, size - 2);
    } else if (size == 1) {
        *to = *from;
    }
}

void *memcpy(void *restrict to, const void *restrict from, size_t size)
{
    uint8_t *target = to;
    const uint8_t *source = from;
    if (size < 16) {
        copy_short(target, source, size);
        return to;
    }
    for (size_t at = 0; at < size - 16; at += 16)
        MOVE(struct sixteen, target, source, at);
    MOVE(struct sixteen, target, source, size - 16);
    return to;
}
