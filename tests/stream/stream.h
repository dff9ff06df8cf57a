/*
 * stream.h: random calls of the six entry points of sds.h, the same on every machine for the same seed.
 *
 *     static struct stream s;
 *     stream_start(&s, seed);
 *     for (;;) {
 *         stream_next(&s);                    s.call and s.areas are the next call
 *         uint32_t result = stream_call(&s);  it is made, and alters s.areas
 *     }
 *
 * The stream goes in scenes. A scene is a device: an address, a table, a store, a work area cleared or full of garbage. Senders send fragmented Writes to
 * many of its objects by turns, whole Writes, Reads, frames of the short form and noise, and a part of all calls is disturbed in one place: a bit of the
 * frame, a byte of the table or of the work area, a length, the address. It looks at no result, so it is the same stream for whatever serves it.
 */
#ifndef STREAM_H
#define STREAM_H

#include "chance.h"
#include "sds.h"

#ifdef STREAM_SMALL /* fits a part with 16 KiB of memory */
#define STREAM_STORE 1024
#define STREAM_RECORDS 64
#else
#define STREAM_STORE SDS_STORE_MOST
#define STREAM_RECORDS SDS_ATTRIBUTES
#endif

/* Bytes behind each buffer. They let a length be too large, and no call may alter those beyond the length given. */
#define STREAM_SLACK 16

enum entry { STEP, READ, WRITE, TABLE_CHECK, DESCRIPTOR_SIZE, ERROR_CODE, ENTRIES };
enum frame { NEXT_FRAGMENT, FIRST_FRAGMENT, WHOLE_WRITE, PLAIN_READ, SHORT_FORM, STRANGER, NOISE, FRAMES };
enum disturbance {
    NONE, ONE_BIT, ONE_BYTE, OTHER_DLC, OTHER_NUMBER, OTHER_TOTAL, TABLE_BYTE, WORK_BYTE,
    RECORD_LENGTH, TABLE_LENGTH, STORE_LENGTH, WORK_LENGTH, OUT_LENGTH, OWN_ADDRESS, MESSAGE_BYTE, MESSAGE_LENGTH, DISTURBANCES
};

struct areas {
    uint8_t record[SDS_RECORD + STREAM_SLACK];
    uint8_t message[SDS_MESSAGE + STREAM_SLACK];
    uint8_t table[SDS_TABLE_RECORD * STREAM_RECORDS + STREAM_SLACK];
    uint8_t store[STREAM_STORE + STREAM_SLACK];
    uint8_t work[SDS_WORK + STREAM_SLACK];
    uint8_t out[SDS_OUT + STREAM_SLACK];
};

struct call {
    enum entry entry;
    enum frame frame;
    enum disturbance disturbance;
    uint32_t own, descriptor, refusal;
    uint32_t record_len, message_len, table_len, store_len, work_len, out_len;
};

/* who sends a fragmented Write to one object: the record of the table that it writes, and the number of its next fragment */
struct sender {
    uint16_t place;
    uint8_t next, busy;
};

struct stream {
    struct chance chance;
    struct areas areas;
    struct call call;
    struct call device; /* the scene's own address and lengths */
    struct sender senders[SDS_OBJECTS];
    uint32_t left;      /* calls to come in this scene */
    uint32_t roughness; /* disturbed calls among 256 */
    uint32_t damaged;   /* a place of the table, and the byte that belongs there */
    uint8_t undamaged;
};

/* the six entry points of whoever is called */
struct entry_points {
    uint32_t (*step)(const uint8_t *record, uint64_t record_len, uint32_t own, const uint8_t *table, uint64_t table_len, uint8_t *store,
                     uint64_t store_len, uint8_t *work, uint64_t work_len, uint8_t *out, uint64_t out_len);
    uint32_t (*read)(const uint8_t *record, uint64_t record_len, uint8_t *message, uint64_t message_len);
    uint32_t (*write)(const uint8_t *message, uint64_t message_len, uint8_t *record, uint64_t record_len);
    uint32_t (*descriptor_size)(uint32_t descriptor);
    uint32_t (*table_check)(const uint8_t *table, uint64_t table_len, uint64_t store_len);
    uint32_t (*error_code)(uint32_t number);
};

void stream_start(struct stream *s, uint64_t seed);
void stream_next(struct stream *s);

/* makes a call of these entry points on these areas */
uint32_t stream_call_of(const struct entry_points *points, const struct call *call, struct areas *areas);

/* makes the stream's call of sds.h's entry points on the stream's areas */
uint32_t stream_call(struct stream *s);

/* A hash of all calls so far, this one's result and the bytes that it may have altered mixed in; all bytes of all areas at times. */
uint32_t stream_hash(const struct stream *s, uint32_t hash, uint32_t result);

#endif
