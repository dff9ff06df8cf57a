/* The program of the benchmark: makes the call of each row. The plugin counts; with the word `stack` the program tells stack by itself. */
#include <string.h>
#include "counting.h"

typedef uint32_t known_function(uint32_t);
known_function empty_number, straight_10, loop_22;

static uint32_t call_known(enum side side, const void *row)
{
    static known_function *const known[SIDES] = {empty_number, straight_10, loop_22};
    known_function *function = known[side];
    (void)row;
    mark_begin();
    uint32_t reply = function(0);
    mark_end();
    return reply;
}

int main(int argc, char **argv)
{
    if (argc > 1 && !strcmp(argv[1], "stack"))
        measure_stack();
    count_row("known", "10 and 22", "-", call_known, NULL, 0);
    step_rows();
    table_rows();
    codec_rows();
    line_rows();
    collect_rows();
    return 0;
}
