#include "counting.h"
#include <stdio.h>
#include <stdlib.h>
#include <string.h>
#include <ucontext.h>

#define PAINT 0xA5

struct lent before, lent;
static struct lent after;

static int on_own_stack;
static uint8_t stack[1 << 16];
static ucontext_t here, there;

/* the call that runs on its own stack: a context takes no arguments but ints */
static struct {
    row_call *call;
    enum side side;
    const void *row;
    uint32_t reply;
} pending;

void demand(int holds, const char *function, const char *name)
{
    if (holds)
        return;
    fprintf(stderr, "bench: %s, %s: not what the row says\n", function, name);
    exit(1);
}

void measure_stack(void)
{
    on_own_stack = 1;
}

static void make_pending(void)
{
    pending.reply = pending.call(pending.side, pending.row);
}

/* Makes the pending call on a painted stack and counts the paint that is gone. */
static unsigned stack_used(void)
{
    memset(stack, PAINT, sizeof stack);
    getcontext(&there);
    there.uc_stack.ss_sp = stack;
    there.uc_stack.ss_size = sizeof stack;
    there.uc_link = &here;
    makecontext(&there, make_pending, 0);
    swapcontext(&here, &there);
    unsigned free = 0;
    while (free < sizeof stack && stack[free] == PAINT)
        free++;
    return sizeof stack - free;
}

void count_row(const char *function, const char *name, const char *records, row_call *call, const void *row, uint32_t reply)
{
    printf("%s\t%s\t%s", function, name, records);
    for (enum side side = EMPTY; side < SIDES; side++) {
        lent = before;
        pending.call = call, pending.side = side, pending.row = row;
        if (on_own_stack)
            printf("\t%u", stack_used());
        else
            make_pending();
        demand(side == EMPTY || pending.reply == reply, function, name);
        if (side == CORE)
            after = lent;
    }
    putchar('\n');
    demand(!memcmp(&after, &lent, sizeof lent), function, name);
}
