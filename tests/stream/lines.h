/*
 * lines.h: random calls of the two entry points of sds_host.h, the same on every machine for the same seed.
 *
 *     static struct lines l;
 *     lines_start(&l, seed);
 *     lines_next_import(&l);    l.areas has the next line, and l.line_len and l.record_len are the lengths of its call
 *     lines_next_export(&l);    the same for the next record
 *
 * Lines are good ones in the full width of 02's grammar, good but for one or two places, too long, noise or empty. A line is made from a frame, so what a
 * good one stands for is known. What is behind a line's end is what earlier ones left there, or what was cut off from it. Records are of any content. All
 * buffers come in other lengths too.
 */
#ifndef LINES_H
#define LINES_H

#include "chance.h"
#include "sds_host.h"

/* Bytes behind each buffer, which no call may alter; and how many bytes too many make a length that is right in its lowest byte. */
enum { LINES_SLACK = 16, LINES_WRAP = 256 };

/* Most bytes of a line and of a record, with LINES_WRAP too many; and of a record and of a buffer for a line where that is not so. */
enum { LINES_LINE_MOST = 2 * LINES_WRAP, LINES_RECORD_MOST = SDS_RECORD + LINES_WRAP, LINES_FEW_RECORD_BYTES = 20, LINES_FEW_LINE_BYTES = 64 };

/* AT_LIMIT has 127 to 130 bytes, LONGER has more; WRAPPED has LINES_WRAP bytes behind a line that is not too long. */
enum form { WHOLE_WIDTH, AT_LIMIT, LONGER, WRAPPED, NOISE, EMPTY, FORMS };

/* What is done to a line that was good. Alone, the first row is refused with 2, the second with 3, the third with 4; of the fourth it depends. */
enum damage {
    NO_SECONDS, SIGN, FIVE_MICROS, SEVEN_MICROS, INTERFACE_OF_0, INTERFACE_OF_16,
    INTERFACE_LAST, TWO_DIGITS, FOUR_DIGITS, EIGHT_DIGITS, OVER_7FF, NO_HASH,
    TWO_HASHES, CAN_FD, ODD_DIGIT, NINE_BYTES, SMALL_R, R9, R12, DIRECTION_FLAG, CR_AT_END,
    INTERFACE_BYTE, SPACE_DOUBLED, SPACE_REMOVED, CUT_SHORT, BYTE_REPLACED, BYTE_INSERTED, BYTE_REMOVED, DAMAGES
};

/* where the parts of a line begin, and where its time has its point and its end */
enum mark { POINT, TIME_END, INTERFACE, IDENTIFIER, DATA, MARKS };

struct line_areas {
    uint8_t line[LINES_LINE_MOST + LINES_SLACK];
    uint8_t record[LINES_RECORD_MOST + LINES_SLACK];
};

struct lines {
    struct chance chance;
    struct line_areas areas;
    uint32_t line_len, record_len;
    /* of a line */
    enum form form;
    uint32_t damages; /* how many it has, and which, in the order in which they were done */
    enum damage damage[2];
    uint32_t marks[MARKS];
    uint8_t meant[SDS_RECORD]; /* what the frame's record is, before the line is damaged */
};

void lines_start(struct lines *l, uint64_t seed);
void lines_next_import(struct lines *l);
void lines_next_export(struct lines *l);

/* what an import must answer, since the line is made so; LINES_UNKNOWN where that is not known. With 0 the record is the one that was meant. */
enum { LINES_UNKNOWN = 255 };
uint32_t lines_expected(const struct lines *l);

#endif
