/* The host's side of a long Read, reference in C11: frames of guests into values (02, "2026-07 The host's side of a long read"). */
#ifndef COLLECT_H
#define COLLECT_H

#include <stdint.h>

/* 02: "Refusals, in this order"; the first is that of a value that is not eight bytes long, too, which 02 does not have */
enum {
    REF_COLLECTED, REF_COLLECT_BAD_LENGTHS, REF_COLLECT_MALFORMED, REF_COLLECT_NO_RESPONSE, REF_COLLECT_TOTAL_0, REF_COLLECT_BAD_SHAPE,
    REF_COLLECT_OUT_OF_ORDER
};

/* The bytes of a value: what is handed over, whose it is, and where; the place is two bytes, low byte first */
enum { REF_VALUE_KIND, REF_VALUE_GUEST, REF_VALUE_OBJECT, REF_VALUE_ID, REF_VALUE_LENGTH, REF_VALUE_UNUSED, REF_VALUE_PLACE, REF_VALUE_SIZE = 8 };
enum { REF_VALUE_NONE, REF_VALUE_IN_RECORD, REF_VALUE_IN_WORK }; /* the kinds */

/* 02: "frames seen, values finished and messages dropped" */
struct ref_tally {
    uint32_t seen, finished, dropped;
};

/* One frame: 0 when it is kept or handed over, and then all bytes of value are set, else the number of the refusal, and then they stay. Buffers do not
   overlap. */
uint32_t ref_collect(const uint8_t *record, uint64_t record_len, uint8_t *work, uint64_t work_len, uint8_t *value, uint64_t value_len,
                     struct ref_tally *tally);

#endif
