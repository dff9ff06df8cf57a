/*
 * The host's side of a long Read, reference in C11. 02 is the requests for changes, here "2026-07 The host's side of a long read"; 01 is the scope page,
 * 000 the application layer. It is written from their text and shares nothing with the core but what 02 leaves open: the bytes of a value, that its length
 * is asked with the work area's, the width of the tally, and that a value in one frame is finished too.
 */
#include "collect.h"

#include <string.h>

/* 01, "Frame record"; 000, figures 3.13 and 3.15: the bytes of a record, then the fields of bytes 0, 1 and 2 */
enum { FRAME_ADDRESS, FRAME_CONTROL, FRAME_SPECIFIERS, FRAME_ID, FRAME_DATA, FRAME_NUMBER = 4, FRAME_TOTAL, FRAME_FRAGMENT_DATA, FRAME_SIZE = 10 };
enum { FROM_SOURCE = 0x80, ADDRESS_MASK = 0x7F, ADDRESS_MAX = 125 };
enum { SERVICE_SHIFT = 5, REMOTE = 0x10, DLC_MASK = 0x0F, DLC_MAX = 8 };
enum { ROLE_SHIFT = 6, FRAGMENTED = 0x20, OBJECT_MASK = 0x1F };
enum { WHOLE_HEAD = 2, FRAGMENT_HEAD = 4, FRAGMENT_DATA_MAX = 4 }; /* the parts of the DLC that are not data */

/* 000, figure 3.6: the first long service that is read, and Read; figure 3.8: Request/Response */
enum { FIRST_SERVICE = 4, READ = 5 };
enum { SUCCESSFUL = 1 };

/* 01, "Work area": the bytes of a record and its status; 02: "byte 259 now holds the object", "One 260-byte work record per guest, 126 of them" */
enum { JOIN_STATUS, JOIN_ID, JOIN_TOTAL, JOIN_NEXT, JOIN_DATA, JOIN_OBJECT = 259, JOIN_SIZE };
enum { STATUS_IDLE, STATUS_FILLING };
enum { GUESTS = 126, WORK_SIZE = GUESTS * JOIN_SIZE };

static uint32_t guest_of(const uint8_t *record) { return record[FRAME_ADDRESS] & ADDRESS_MASK; }
static uint32_t service_of(const uint8_t *record) { return (uint32_t)record[FRAME_CONTROL] >> SERVICE_SHIFT; }
static uint32_t dlc_of(const uint8_t *record) { return record[FRAME_CONTROL] & DLC_MASK; }

/* These three only for a DLC of 2 up: 01, "Bytes beyond the DLC are not read" */
static uint32_t role_of(const uint8_t *record) { return (uint32_t)record[FRAME_SPECIFIERS] >> ROLE_SHIFT; }
static uint32_t object_of(const uint8_t *record) { return record[FRAME_SPECIFIERS] & OBJECT_MASK; }
static int is_fragment(const uint8_t *record) { return (record[FRAME_SPECIFIERS] & FRAGMENTED) != 0; }

/* Of a fragment: where its data stand in the message */
static uint32_t start_of(const uint8_t *record) { return FRAGMENT_DATA_MAX * (uint32_t)record[FRAME_NUMBER]; }

/* 01, "Served fragment": whether a fragment is the last, "4n + 4 at least total" */
static int is_last(const uint8_t *record) { return start_of(record) + FRAGMENT_DATA_MAX >= record[FRAME_TOTAL]; }

/* 02: "Each number stops at its largest value" */
static void count(uint32_t *number) {
    if (*number != UINT32_MAX)
        ++*number;
}

/* 02: "malformed frame (the codec refuses it)"; 01, "Frame record", the codec's refusals 1, 3, 5 and 8 */
static int is_malformed(const uint8_t *record, uint64_t record_len) {
    if (record_len != FRAME_SIZE)
        return 1;
    if ((record[FRAME_CONTROL] & REMOTE) != 0 || dlc_of(record) > DLC_MAX || guest_of(record) > ADDRESS_MAX)
        return 1;
    if (dlc_of(record) == 0)
        return 0; /* the short form, which has a service of its own and nothing else */
    if (dlc_of(record) < WHOLE_HEAD || service_of(record) < FIRST_SERVICE)
        return 1;
    return is_fragment(record) && dlc_of(record) < FRAGMENT_HEAD;
}

/* 02: "frames with Dir/Pri 1, service Read, Successful"; of a frame that is not malformed. The short form's code 5 is Write ON and no Read */
static int is_read_response(const uint8_t *record) {
    if (dlc_of(record) == 0)
        return 0;
    return (record[FRAME_ADDRESS] & FROM_SOURCE) != 0 && service_of(record) == READ && role_of(record) == SUCCESSFUL;
}

/* 02: "bad shape"; of a fragment 01's check 12, "number n with 4n not below total, or data not min(4, total - 4n) bytes"; a whole frame "without data" */
static int has_bad_shape(const uint8_t *record) {
    if (!is_fragment(record))
        return dlc_of(record) == WHOLE_HEAD;
    uint32_t start = start_of(record), total = record[FRAME_TOTAL];
    if (start >= total)
        return 1;
    uint32_t due = total - start < FRAGMENT_DATA_MAX ? total - start : FRAGMENT_DATA_MAX;
    return dlc_of(record) - FRAGMENT_HEAD != due;
}

/* 02: the refusals before "out of order", none of which looks at the work area */
static uint32_t early_refusal(const uint8_t *record, uint64_t record_len, uint64_t work_len, uint64_t value_len) {
    if (work_len != WORK_SIZE || value_len != REF_VALUE_SIZE)
        return REF_COLLECT_BAD_LENGTHS;
    if (is_malformed(record, record_len))
        return REF_COLLECT_MALFORMED;
    if (!is_read_response(record))
        return REF_COLLECT_NO_RESPONSE;
    if (is_fragment(record) && record[FRAME_TOTAL] == 0)
        return REF_COLLECT_TOTAL_0;
    return has_bad_shape(record) ? REF_COLLECT_BAD_SHAPE : REF_COLLECTED;
}

/* 01, "Work area": "A record is filling if status is 1, k is at least 1 and 4k is less than the total", otherwise idle */
static int is_filling(const uint8_t *join) {
    return join[JOIN_STATUS] == STATUS_FILLING && join[JOIN_NEXT] >= 1 && FRAGMENT_DATA_MAX * join[JOIN_NEXT] < join[JOIN_TOTAL];
}

/* 01, check 14, which is "out of order"; 02: "a later fragment from another object" is, too. Number 0 begins anew and never is */
static int is_out_of_order(const uint8_t *record, const uint8_t *join) {
    if (record[FRAME_NUMBER] == 0)
        return 0;
    return !is_filling(join) || join[JOIN_ID] != record[FRAME_ID] || join[JOIN_OBJECT] != object_of(record) ||
           join[JOIN_TOTAL] != record[FRAME_TOTAL] || join[JOIN_NEXT] != record[FRAME_NUMBER];
}

/* 02: "hands over each complete value with guest, object and ID", which are the frame's */
static void hand_over(uint8_t *value, const uint8_t *record, uint32_t kind, uint32_t place, uint32_t length, struct ref_tally *tally) {
    value[REF_VALUE_KIND] = (uint8_t)kind;
    value[REF_VALUE_GUEST] = (uint8_t)guest_of(record);
    value[REF_VALUE_OBJECT] = (uint8_t)object_of(record);
    value[REF_VALUE_ID] = record[FRAME_ID];
    value[REF_VALUE_LENGTH] = (uint8_t)length;
    value[REF_VALUE_UNUSED] = 0;
    value[REF_VALUE_PLACE] = (uint8_t)place;
    value[REF_VALUE_PLACE + 1] = (uint8_t)(place >> 8);
    count(&tally->finished);
}

/* 01, "Served fragment", of one that is not the last: it "sets status 1, ID, total, next number"; 02: the object "where the ID is" */
static void keep(uint8_t *join, const uint8_t *record) {
    join[JOIN_STATUS] = STATUS_FILLING;
    join[JOIN_ID] = record[FRAME_ID];
    join[JOIN_TOTAL] = record[FRAME_TOTAL];
    join[JOIN_NEXT] = (uint8_t)(record[FRAME_NUMBER] + 1);
    join[JOIN_OBJECT] = (uint8_t)object_of(record);
}

/* A fragment of good shape. 02: "each filling record lost, to a new number 0 too," counts "as dropped"; "the last fragment's bytes are stored too" */
static uint32_t collect_fragment(const uint8_t *record, uint8_t *work, uint8_t *value, struct ref_tally *tally) {
    uint32_t place = JOIN_SIZE * guest_of(record);
    uint8_t *join = work + place;
    int out_of_order = is_out_of_order(record, join);
    if (is_filling(join) && (out_of_order || record[FRAME_NUMBER] == 0))
        count(&tally->dropped);
    if (out_of_order) {
        join[JOIN_STATUS] = STATUS_IDLE;
        return REF_COLLECT_OUT_OF_ORDER;
    }
    memcpy(join + JOIN_DATA + start_of(record), record + FRAME_FRAGMENT_DATA, dlc_of(record) - FRAGMENT_HEAD);
    if (is_last(record)) {
        join[JOIN_STATUS] = STATUS_IDLE;
        hand_over(value, record, REF_VALUE_IN_WORK, place + JOIN_DATA, record[FRAME_TOTAL], tally);
    } else {
        keep(join, record);
        memset(value, 0, REF_VALUE_SIZE);
    }
    return REF_COLLECTED;
}

/* 02: "every call counts as a frame seen"; "A whole frame is handed over at once and doesn't disturb a filling record" */
uint32_t ref_collect(const uint8_t *record, uint64_t record_len, uint8_t *work, uint64_t work_len, uint8_t *value, uint64_t value_len,
                     struct ref_tally *tally) {
    count(&tally->seen);
    uint32_t refusal = early_refusal(record, record_len, work_len, value_len);
    if (refusal != REF_COLLECTED)
        return refusal;
    if (is_fragment(record))
        return collect_fragment(record, work, value, tally);
    hand_over(value, record, REF_VALUE_IN_RECORD, FRAME_DATA, dlc_of(record) - WHOLE_HEAD, tally);
    return REF_COLLECTED;
}
