/*
 * runtime.c: hosts/mcu/runtime.c against slower ways of the same. The module asks for few of these functions today; a compiler may ask for
 * another tomorrow. Prints the number of comparisons.
 */
#include <stddef.h>
#include "host.h"
#include "start.h"

void *memcpy(void *restrict to, const void *restrict from, size_t count);
void *memmove(void *to, const void *from, size_t count);
void *memset(void *to, int byte, size_t count);
void __aeabi_memset(void *to, size_t count, int byte);
void __aeabi_memclr(void *to, size_t count);

enum { SIZE = 24 };

static uint8_t seen[SIZE], expected[SIZE];
static uint32_t comparisons;

static void expect(int holds)
{
    comparisons++;
    if (!holds)
        halt();
}

static void start_anew(void)
{
    for (int i = 0; i < SIZE; i++)
        seen[i] = expected[i] = (uint8_t)(i + 1);
}

static void compare(void)
{
    for (int i = 0; i < SIZE; i++)
        expect(seen[i] == expected[i]);
}

static void copies(int to, int from, int count)
{
    int apart = to + count <= from || from + count <= to;
    for (int overlap_allowed = !apart; overlap_allowed < 2; overlap_allowed++) {
        start_anew();
        for (int i = 0; i < count; i++)
            expected[to + i] = (uint8_t)(from + i + 1);
        expect((overlap_allowed ? memmove : memcpy)(seen + to, seen + from, (size_t)count) == seen + to);
        compare();
    }
}

static void fills(int to, int count, int byte)
{
    start_anew();
    for (int i = 0; i < count; i++)
        expected[to + i] = (uint8_t)byte;
    expect(memset(seen + to, byte, (size_t)count) == seen + to);
    compare();
    start_anew();
    for (int i = 0; i < count; i++)
        expected[to + i] = (uint8_t)byte;
    if (byte)
        __aeabi_memset(seen + to, (size_t)count, byte);
    else
        __aeabi_memclr(seen + to, (size_t)count);
    compare();
}

int main(void)
{
    for (int to = 0; to < 12; to++)
        for (int count = 0; count < 12; count++) {
            for (int from = 0; from < 12; from++)
                copies(to, from, count);
            fills(to, count, 0);
            fills(to, count, 0x1A5);
        }
    host_print_number(comparisons);
    host_exit(1);
}
