/*
 * stack.c: CALLS calls of a random stream on a Cortex-M, before each of which the free stack is painted. Prints the most bytes that a
 * call of ENTRY, an entry point, took of it. It is linked with --wrap=ENTRY.
 */
#include "host.h"
#include "player.h"
#include "start.h"

#ifndef ENTRY
#error "ENTRY is given on the command line"
#endif
#define JOINED(front, name) front##name
#define NAME(front, name) JOINED(front, name)
#define QUOTED(name) #name
#define TEXT(name) QUOTED(name)

enum { PAINT = 0x5AFE57AC, WORDS = 512 /* painted: more than a call takes, and less than the room for the stack */ };

extern uint32_t bss_end[]; /* mcu.ld: the stack must stay above */

/* the stack pointer as ENTRY found it, or 0 where it was not called; and where the paint begins */
uint32_t *found;
static uint32_t *bottom;

uint32_t NAME(__wrap_, ENTRY)(void);

/* Notes the stack pointer and goes on into ENTRY, whose arguments stay where they are. */
__attribute__((naked)) uint32_t NAME(__wrap_, ENTRY)(void)
{
    __asm__("push {r0, r1}\n"
            "add r1, sp, #8\n"
            "ldr r0, =found\n"
            "str r1, [r0]\n"
            "ldr r0, =" TEXT(NAME(__real_, ENTRY)) "\n"
            "mov ip, r0\n"
            "pop {r0, r1}\n"
            "bx ip\n"
            ".ltorg\n");
}

__attribute__((noinline)) static void paint(void)
{
    uint32_t *top;
    __asm__ volatile("mov %0, sp" : "=r"(top));
    bottom = top - WORDS;
    if (bottom < bss_end)
        halt();
    for (volatile uint32_t *word = bottom; word < top; word++)
        *word = PAINT;
}

/* the bytes below what ENTRY found that are painted over */
static uint32_t depth(void)
{
    const volatile uint32_t *word = bottom;
    while (*word == PAINT)
        word++;
    return (uint32_t)(found - word) * sizeof *word;
}

int main(void)
{
    uint32_t most = 0;
    player_start(SEED);
    for (uint32_t i = 0; i < CALLS; i++) {
        player_next();
        found = 0;
        paint();
        player_call();
        uint32_t bytes = found ? depth() : 0;
        if (bytes > most)
            most = bytes;
    }
    host_print_number(most);
    host_exit(1);
}
