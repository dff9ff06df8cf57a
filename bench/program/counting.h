/* A row of the benchmark: one call, made of an empty function, of the core and of plain C, each time with the same buffers and contents. */
#ifndef COUNTING_H
#define COUNTING_H

#include "sds_host.h"

enum side { EMPTY, CORE, PLAIN, SIDES };

/* everything that a call may alter */
struct lent {
    uint8_t store[SDS_STORE_MOST];
    uint8_t work[SDS_WORK];
    uint8_t out[SDS_OUT];
    uint8_t message[SDS_MESSAGE];
    uint8_t record[SDS_RECORD];
    uint8_t line[SDS_LINE_ROOM];
    uint8_t collected[SDS_COLLECT_WORK];    /* the collector's work area */
    uint8_t value[SDS_VALUE];
    struct sds_tally tally;
};

/* What a row lends, and the buffers that are lent: each call finds `before` in `lent`, at the same addresses. */
extern struct lent before, lent;

/* a function that makes one buffer of another: the codec's two, and those of captures; the empty one */
typedef uint32_t buffer_function(const uint8_t *from, uint64_t from_len, uint8_t *to, uint64_t to_len);
buffer_function empty_codec;

/* Makes the call of a row to the function of a side, between the two marks. */
typedef uint32_t row_call(enum side side, const void *row);

/* the plugin counts the instructions from the one to the other */
void mark_begin(void);
void mark_end(void);

/*
 * Makes the call of each side and prints the row: its function, name and table records, as columns. The core and plain C must both
 * give this reply and leave equal buffers; otherwise the row measures something else than it says, and the program ends.
 */
void count_row(const char *function, const char *name, const char *records, row_call *call, const void *row, uint32_t reply);

/* From now on rows run on a stack of their own and are printed with the bytes of it that each side used. */
void measure_stack(void);

/* Ends the program unless this holds. */
void demand(int holds, const char *function, const char *name);

/* the rows, by file */
void step_rows(void);
void codec_rows(void);
void table_rows(void);
void line_rows(void);
void collect_rows(void);

#endif
