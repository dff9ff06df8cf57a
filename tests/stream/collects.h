/*
 * collects.h: random calls of sds_collect, the same on every machine for the same seed.
 *
 *     static struct collects c;
 *     collects_start(&c, seed, twin);
 *     collects_next(&c);    c.areas has the next call's buffers, and c.record_len, c.work_len and c.value_len are their lengths
 *
 * The stream goes in scenes. In each a few guests answer Reads by turns, in fragments and in one frame, and some begin anew before they are done; between
 * them comes what is no answer to a Read, and noise. A part of all calls is harmed: a fragment is lost, repeated or comes too early, a field of the frame is
 * another, a buffer has another length, a byte of the work area or a count is set. What was harmed is sent once more at times, so that a message goes on
 * behind it. The work area is carried on from call to call and from scene to scene; at times a scene begins with garbage in its guests' records, much of it
 * such as one of its messages goes on from. The stream looks at no result, so it is the same for whatever collects.
 */
#ifndef COLLECTS_H
#define COLLECTS_H

#include "chance.h"
#include "sds_host.h"

/* Bytes behind each buffer, which no call may alter; and how many bytes too many or too few make a length that is right in its lowest byte. */
enum { COLLECTS_SLACK = 16, COLLECTS_WRAP = 256 };

/* Most bytes of each buffer; and of a record and of a value where they are not COLLECTS_WRAP too long. */
enum { COLLECTS_RECORD_MOST = SDS_RECORD + COLLECTS_WRAP, COLLECTS_VALUE_MOST = SDS_VALUE + COLLECTS_WRAP, COLLECTS_FEW_BYTES = 20 };
enum { COLLECTS_WORK_MOST = SDS_COLLECT_WORK + COLLECTS_WRAP };

/* HEARD is an answer but for one of its fields, and BESIDE a fragment of a message of 0 bytes or behind a message's last; with neither does the guest's
   message move on. */
enum sent { NEXT_FRAGMENT, BEGUN_ANEW, WHOLE_ANSWER, HEARD, BESIDE, NOISE, SENTS };

/* The first row is done to the order in which fragments come, the second to a frame's fields, the last to what the call lends. */
enum harm {
    NO_HARM, LOST, REPEATED, TOO_EARLY,
    FLAG, OBJECT, ID, TOTAL, NUMBER, DLC, RTR, SERVICE, RESPONSE, DIRECTION, NO_ADDRESS, OTHER_GUEST, ONE_BIT, ONE_BYTE,
    RECORD_LENGTH, WORK_LENGTH, VALUE_LENGTH, WORK_BYTE, COUNTER, HARMS
};

struct collect_areas {
    uint8_t record[COLLECTS_RECORD_MOST + COLLECTS_SLACK];
    uint8_t value[COLLECTS_VALUE_MOST + COLLECTS_SLACK];
    struct sds_tally tally;
    uint8_t behind_tally[COLLECTS_SLACK];
    uint8_t work[COLLECTS_WORK_MOST + COLLECTS_SLACK]; /* it stands last, because of its size */
};

/* a guest and the message that it sends */
struct answer {
    uint8_t guest, object, id, total, next;
    uint8_t early; /* the fragment behind the next has been sent */
};
enum { COLLECTS_ANSWERS = 6 };

struct collects {
    struct chance chance;
    struct collect_areas areas;
    uint8_t *twin; /* another work area, into which the stream writes what it writes into its own */
    uint32_t record_len, work_len, value_len;
    enum sent sent;
    uint32_t harms; /* how many the call has, and which */
    enum harm harm[2];
    struct answer answers[COLLECTS_ANSWERS];
    uint32_t answering; /* how many of them are in this scene */
    uint32_t left;      /* calls to come in this scene */
    uint32_t roughness; /* harmed calls among 256 */
};

/* `twin` is COLLECTS_WORK_MOST + COLLECTS_SLACK bytes, and becomes as the stream's own work area */
void collects_start(struct collects *c, uint64_t seed, uint8_t *twin);
void collects_next(struct collects *c);

#endif
