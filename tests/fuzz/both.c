#include <stdio.h>
#include <stdlib.h>
#include <string.h>
#include <sys/mman.h>
#include "both.h"

enum { GUARD = 64, GUARD_BYTE = 0x5A };

size_t lengths[BOTH_BUFFERS];
static uint8_t *ends[SIDES][BOTH_BUFFERS]; /* where each buffer of each side ends */
static const char *const *buffer_names;
static unsigned buffers;
static int (*each_came_up)(void);

static void print_counts(void)
{
    if (!each_came_up())
        printf("a kind with 0 above never came up\n");
}

static uint8_t *room_before_a_closed_page(void)
{
    uint8_t *room = mmap(0, 2 * BOTH_ROOM, PROT_READ | PROT_WRITE, MAP_PRIVATE | MAP_ANONYMOUS, -1, 0);
    if (room == MAP_FAILED || mprotect(room + BOTH_ROOM, BOTH_ROOM, PROT_NONE)) {
        perror("fuzz");
        exit(1);
    }
    return room + BOTH_ROOM;
}

void both_start(const char *const *names, unsigned count, int (*came_up)(void))
{
    buffer_names = names;
    buffers = count;
    each_came_up = came_up;
    atexit(print_counts);
    for (enum side side = CORE; side < SIDES; side++)
        for (unsigned buffer = 0; buffer < count; buffer++)
            ends[side][buffer] = names[buffer] ? room_before_a_closed_page() : 0;
}

uint8_t *lent(enum side side, unsigned buffer)
{
    return ends[side][buffer] - lengths[buffer];
}

void lend(unsigned buffer, size_t length, const uint8_t *bytes, size_t count)
{
    lengths[buffer] = length;
    for (enum side side = CORE; side < SIDES; side++) {
        uint8_t *start = lent(side, buffer);
        memset(start - GUARD, GUARD_BYTE, GUARD);
        memset(start, 0, length);
        memcpy(start, bytes, count < length ? count : length);
    }
}

void must_be(int holds, const char *what)
{
    if (holds)
        return;
    fprintf(stderr, "fuzz: %s\n", what);
    abort();
}

static void same(unsigned buffer)
{
    const uint8_t *ours = lent(CORE, buffer), *theirs = lent(REFERENCE, buffer);
    must_be(!memcmp(ours - GUARD, theirs - GUARD, GUARD + lengths[buffer]), buffer_names[buffer]);
    for (int i = 1; i <= GUARD; i++)
        must_be(ours[-i] == GUARD_BYTE, "a guard byte");
}

void same_everywhere(void)
{
    for (unsigned buffer = 0; buffer < buffers; buffer++)
        if (buffer_names[buffer])
            same(buffer);
}
