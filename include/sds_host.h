/*
 * sds_host.h: what a host uses beside the device of sds.h, in an archive of its own, libsds_host.a. It needs nothing of libsds.a, and both link into
 * one program. Like sds.h's functions these have no state, ask nothing of what you lend but what sds.h says (buffers that do not overlap, each as
 * long as you say; a null pointer only with a length of 0), and every call ends.
 *
 * Captures from candump: a line of a can-utils log as a record of sds.h, and back. A line is
 *
 *     (seconds.micros) interface ID#data
 *
 * with one space between the parts. Seconds are decimal digits, at least one, micros six; the interface is 1 to 15 bytes of 21 to 7E hex; the ID is
 * three hex digits up to 7FF; the data are up to eight bytes of two hex digits each, or R (a capital) for a remote frame (RTR), behind which a digit
 * up to 8 may stand, its DLC. Hex digits are of either case. A record's first byte and its service are the ID. The line's end is no part of it: a
 * line that ends in CR and LF has the CR as its last byte, and is refused for it. So is one with a direction behind the data, ` R` or ` T`, as
 * `candump -x` and other tools write it.
 *
 *     uint8_t record[SDS_RECORD];
 *     if (sds_import_line(line, length, record, sizeof record) == SDS_LINE_IMPORTED)
 *         reply = sds_device_step(&device, record, sizeof record);
 */
#ifndef SDS_HOST_H
#define SDS_HOST_H

#include "sds.h"

#ifdef __cplusplus
extern "C" {
#endif

#define SDS_LINE_MOST 128    /* most bytes of a line that is imported, without its end */
#define SDS_LINE_ROOM 36     /* bytes of the longest line that is written, and least bytes of a buffer for one */

/* What sds_import_line answers. The first whose condition holds is given; 5 is asked before the others. */
enum sds_import {
    SDS_LINE_IMPORTED = 0,
    SDS_LINE_TOO_LONG = 1,         /* over SDS_LINE_MOST bytes */
    SDS_LINE_BAD_FRONT = 2,        /* a malformed time or interface; the interface stands up to the next space or the line's end */
    SDS_LINE_BAD_IDENTIFIER = 3,   /* no # behind the interface, or before it not three hex digits up to 7FF */
    SDS_LINE_BAD_DATA = 4,         /* behind # neither up to eight whole bytes nor R with at most a digit up to 8 */
    SDS_LINE_NO_RECORD = 5         /* the record buffer is not SDS_RECORD bytes */
};

/*
 * The record of a line. Gives 0, and then all bytes of `record` are set: under RTR its data bytes are 0, as are those beyond the DLC. On a refusal
 * `record` stays as it was. Nothing alters `line`.
 */
uint32_t sds_import_line(const uint8_t *line, uint64_t line_len, uint8_t *record, uint64_t record_len);

/* What sds_export_record answers is a number, the first whose condition holds, and the length of the line, 0 where it is refused. */
#define SDS_LINE_NUMBER(answer) ((answer) & 255u)
#define SDS_LINE_LENGTH(answer) ((answer) >> 8)

enum sds_export {
    SDS_RECORD_EXPORTED = 0,
    SDS_RECORD_BAD_LENGTH = 1,    /* the record is not SDS_RECORD bytes */
    SDS_RECORD_BAD_DLC = 2,       /* its DLC is over 8 */
    SDS_RECORD_NO_LINE = 3        /* the buffer for the line is under SDS_LINE_ROOM bytes, however long this line is */
};

/*
 * The line of a record, as `(0.000000) can0 04C#030A2C01`: digits above 9 in capitals, RTR as R and its DLC, no line end. It stands at the front of
 * `line`; the bytes behind it stay as they were, and all of them on a refusal. Every record with a DLC up to 8 has one, also where sds_read refuses
 * it. Importing the line gives the record with the bytes beyond its DLC cleared, and under RTR all eight data bytes. Nothing alters `record`.
 */
uint32_t sds_export_record(const uint8_t *record, uint64_t record_len, uint8_t *line, uint64_t line_len);

/*
 * The host's side of a long Read: what guests answer, frame by frame, becomes whole values. Give sds_collect every frame that is heard, of all guests
 * and in the order of the wire; it takes the answers to Reads and refuses the others.
 *
 *     static uint8_t work[SDS_COLLECT_WORK];                       zeros: it must begin so
 *     static struct sds_tally tally;
 *     struct sds_value value;
 *
 *     if (sds_collect_frame(record, work, &value, &tally) == SDS_COLLECTED && value.kind != SDS_VALUE_NONE)
 *         show(value.guest, value.object, value.id, sds_value_bytes(&value, record, work), value.length);
 *
 * A work area has a record of SDS_WORK_RECORD bytes for each guest, at SDS_WORK_RECORD times its address. An answer in one frame is handed over at once,
 * as a part of the record, and leaves what is half joined as it is; one in fragments with its last, as a part of the work area, and holds until the next
 * call with a frame of that guest. An Error or a Wait from a guest does not drop what is half joined of it: a host that waits needs a clock of its own.
 */
#define SDS_GUESTS (SDS_ADDRESS_MOST + 1)                      /* guests, from address 0 */
#define SDS_COLLECT_WORK (SDS_GUESTS * SDS_WORK_RECORD)        /* bytes of the work area */
#define SDS_VALUE 8                                            /* bytes of a value */

/* What sds_collect answers, the first whose condition holds. 6 drops what is half joined of its guest; 1 to 5 alter nothing but the tally. */
enum sds_collected {
    SDS_COLLECTED = 0,               /* a value is handed over, or a fragment is kept */
    SDS_COLLECT_BAD_LENGTH = 1,      /* a work area not of SDS_COLLECT_WORK bytes, or a value not of SDS_VALUE */
    SDS_COLLECT_BAD_FRAME = 2,       /* sds_read refuses the record, also for its length */
    SDS_COLLECT_NO_ANSWER = 3,       /* no Successful answer of a guest to a Read: the short form, sent to a guest, another service, a Request, Error or Wait */
    SDS_COLLECT_NO_TOTAL = 4,        /* a fragment of a message of 0 bytes */
    SDS_COLLECT_BAD_SHAPE = 5,       /* a fragment that begins at or behind the total, or of another length than its place asks for; an answer without data */
    SDS_COLLECT_OUT_OF_ORDER = 6     /* a fragment that does not follow the one before it from that guest: another object, ID, total or number */
};

/* Which bytes are handed over, and whose they are. All fields are 0 where a fragment was kept. */
struct sds_value {
    uint8_t kind;        /* enum sds_value_kind */
    uint8_t guest;       /* its address */
    uint8_t object;
    uint8_t id;          /* of the attribute */
    uint8_t length;      /* 1 to 255 bytes, of an answer in one frame at most 6 */
    uint8_t zero;
    uint8_t place[2];    /* where they begin in the record or in the work area, low byte first */
};
enum sds_value_kind { SDS_VALUE_NONE = 0, SDS_VALUE_IN_RECORD = 1, SDS_VALUE_IN_WORK = 2 };

/* Counts, which you clear when you like. Each stays at its largest value. */
struct sds_tally {
    uint32_t seen;        /* every call, also one that is refused */
    uint32_t finished;    /* values handed over, whether in one frame or joined */
    uint32_t dropped;     /* half-joined messages lost: to a fragment out of order, or to a number 0 that begins anew */
};

/*
 * One frame. Gives 0, and then all bytes of `value`, a struct sds_value, are set; on a refusal they stay. Fragments that are kept or complete a message
 * alter `work`, and so does 6; every call alters `tally`, which must not be null. Nothing alters `record`.
 */
uint32_t sds_collect(const uint8_t *record, uint64_t record_len, uint8_t *work, uint64_t work_len, uint8_t *value, uint64_t value_len,
                     struct sds_tally *tally);

static inline uint32_t sds_collect_frame(const uint8_t record[SDS_RECORD], uint8_t work[SDS_COLLECT_WORK], struct sds_value *value,
                                         struct sds_tally *tally)
{
    return sds_collect(record, SDS_RECORD, work, SDS_COLLECT_WORK, (uint8_t *)value, sizeof *value, tally);
}

/* The bytes that are handed over, of the record and the work area that the value is of. */
static inline const uint8_t *sds_value_bytes(const struct sds_value *value, const uint8_t *record, const uint8_t *work)
{
    return (value->kind == SDS_VALUE_IN_WORK ? work : record) + value->place[0] + 256u * value->place[1];
}

/* As in sds.h. */
typedef char sds_value_has_no_gaps[sizeof(struct sds_value) == SDS_VALUE ? 1 : -1];
typedef char sds_tally_has_no_gaps[sizeof(struct sds_tally) == 12 ? 1 : -1];

#ifdef __cplusplus
}
#endif

#endif
