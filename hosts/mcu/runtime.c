/*
 * runtime.c: what compiled code asks of a run-time library on a 32-bit Arm or RISC-V, so that the archive asks a linker for nothing. All of it
 * is weak: where a product has its own library, that one is taken. It copies and fills; nothing that multiplies or divides is asked for.
 *
 * It is compiled with -ffreestanding, or a compiler would see memcpy in a loop that copies and call the function from itself.
 */
#include <stddef.h>
#include <stdint.h>

#define WEAK __attribute__((weak))

WEAK void *memcpy(void *restrict to, const void *restrict from, size_t count)
{
    uint8_t *t = to;
    const uint8_t *f = from;
    while (count--)
        *t++ = *f++;
    return to;
}

WEAK void *memmove(void *to, const void *from, size_t count)
{
    uint8_t *t = to;
    const uint8_t *f = from;
    if (t > f)
        while (count--)
            t[count] = f[count];
    else
        while (count--)
            *t++ = *f++;
    return to;
}

WEAK void *memset(void *to, int byte, size_t count)
{
    uint8_t *t = to;
    while (count--)
        *t++ = (uint8_t)byte;
    return to;
}

#ifdef __ARM_EABI__

/* The names of the Arm run-time ABI. A 4 or 8 at the end promises an alignment; memset takes the count before the byte. */
#define COPIES(name, function) \
    WEAK void name(void *to, const void *from, size_t count); \
    WEAK void name(void *to, const void *from, size_t count) { function(to, from, count); }
COPIES(__aeabi_memcpy, memcpy)
COPIES(__aeabi_memcpy4, memcpy)
COPIES(__aeabi_memcpy8, memcpy)
COPIES(__aeabi_memmove, memmove)
COPIES(__aeabi_memmove4, memmove)
COPIES(__aeabi_memmove8, memmove)

#define SETS(name) \
    WEAK void name(void *to, size_t count, int byte); \
    WEAK void name(void *to, size_t count, int byte) { memset(to, byte, count); }
SETS(__aeabi_memset)
SETS(__aeabi_memset4)
SETS(__aeabi_memset8)

#define CLEARS(name) \
    WEAK void name(void *to, size_t count); \
    WEAK void name(void *to, size_t count) { memset(to, 0, count); }
CLEARS(__aeabi_memclr)
CLEARS(__aeabi_memclr4)
CLEARS(__aeabi_memclr8)

#endif
