/* SDS guest core, reference in C11. 01 is the scope page, 02 the requests for changes, 000 the application layer, 001 the component models. */
#ifndef REFERENCE_H
#define REFERENCE_H

#include <stdint.h>

/* 01, "One frame, one reply": the numbers of the checks, which the codec uses too */
enum {
    REF_SERVED, REF_BAD_LENGTHS, REF_BAD_TABLE, REF_BAD_FRAME, REF_NOT_ADDRESSED, REF_NOT_SERVABLE, REF_NOT_REQUEST, /* 0 to 6 */
    REF_ACTION_OR_EVENT, REF_BAD_FORM, REF_NO_ATTRIBUTE, REF_NO_ACCESS, REF_WRONG_LENGTH,                            /* 7 to 11 */
    REF_BAD_FRAGMENT, REF_OUT_OF_SEQUENCE = 14,                               /* 12 and 14; 02, 2026-05: 13 "is not used again" */
    REF_PER_FRAME = 256 /* a step answers its number plus this for each frame put */
};

/* 01, "Frame record": the bytes of a decoded message, a byte that its kind does not use being 0; the role is Request/Response */
enum {
    REF_KIND, REF_DIRECTION, REF_ADDRESS, REF_SERVICE, REF_ROLE, REF_OBJECT, REF_ID, REF_NUMBER, REF_TOTAL, REF_DATA_LENGTH,
    REF_DATA, REF_MESSAGE_SIZE = 16
};
enum { REF_SHORT, REF_WHOLE, REF_FRAGMENT }; /* the kinds */

/* One frame into the device: number plus 256 times the count of frames put at the front of out. Buffers do not overlap. */
uint32_t ref_step(const uint8_t *record, uint64_t record_len, uint32_t own,
                  const uint8_t *table, uint64_t table_len, uint8_t *store, uint64_t store_len,
                  uint8_t *work, uint64_t work_len, uint8_t *out, uint64_t out_len);

/* The codec: 0 when done, else the number of the refusal, and then nothing is altered. */
uint32_t ref_read(const uint8_t *record, uint64_t record_len, uint8_t *message, uint64_t message_len);
uint32_t ref_write(const uint8_t *message, uint64_t message_len, uint8_t *record, uint64_t record_len);

/* The bytes that a data descriptor stands for, 0 where it is refused. */
uint32_t ref_descriptor_size(uint32_t descriptor);

/* 02, 2026-06: the code that the error frame of this refusal carries, 0 for a number that puts no error frame. */
uint32_t ref_error_code(uint32_t number);

/* What checks 1 and 2 say of a table and of a store of that length. */
uint32_t ref_table_check(const uint8_t *table, uint64_t table_len, uint64_t store_len);

#endif
