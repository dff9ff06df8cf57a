/* sds_read and sds_write: each form, and each refusal. */
#include <string.h>
#include "counting.h"
#include "reference.h"

static buffer_function *const readers[SIDES] = {empty_codec, sds_read, ref_read};
static buffer_function *const writers[SIDES] = {empty_codec, sds_write, ref_write};

struct codec_row {
    const char *name;
    uint8_t number;          /* the reply */
    uint8_t from_len;
    uint8_t from[SDS_MESSAGE];
};

static const struct codec_row reads[] = {
    {"short form", 0, SDS_RECORD, {9, 0x80}},
    {"whole, 2 bytes", 0, SDS_RECORD, {9, 0x84, 3, 10, 1, 2}},
    {"whole, 6 bytes", 0, SDS_RECORD, {9, 0x88, 3, 10, 1, 2, 3, 4, 5, 6}},
    {"fragment, 4 bytes", 0, SDS_RECORD, {9, 0x88, 0x23, 10, 3, 32, 1, 2, 3, 4}},
    {"refusal 1, 9 bytes", 1, SDS_RECORD - 1, {9, 0x84, 3, 10, 1, 2}},
    {"refusal 3, address 126", 3, SDS_RECORD, {126, 0x84, 3, 10, 1, 2}},
    {"refusal 5, service 3", 5, SDS_RECORD, {9, 0x64, 3, 10, 1, 2}},
    {"refusal 8, fragment, DLC 3", 8, SDS_RECORD, {9, 0x83, 0x23, 10, 1}},
};

static const struct codec_row writes[] = {
    {"short form", 0, SDS_MESSAGE, {0, 0, 9, 4}},
    {"whole, 2 bytes", 0, SDS_MESSAGE, {1, 0, 9, 4, 0, 3, 10, 0, 0, 2, 1, 2}},
    {"whole, 6 bytes", 0, SDS_MESSAGE, {1, 0, 9, 4, 0, 3, 10, 0, 0, 6, 1, 2, 3, 4, 5, 6}},
    {"fragment, 4 bytes", 0, SDS_MESSAGE, {2, 0, 9, 4, 0, 3, 10, 3, 32, 4, 1, 2, 3, 4}},
    {"refusal 1, 15 bytes", 1, SDS_MESSAGE - 1, {1, 0, 9, 4, 0, 3, 10, 0, 0, 2, 1, 2}},
    {"refusal 3, kind 3", 3, SDS_MESSAGE, {3, 0, 9, 4, 0, 3, 10, 0, 0, 2, 1, 2}},
    {"refusal 3, object 32", 3, SDS_MESSAGE, {1, 0, 9, 4, 0, 32, 10, 0, 0, 2, 1, 2}},
    {"refusal 3, a byte beyond the data", 3, SDS_MESSAGE, {1, 0, 9, 4, 0, 3, 10, 0, 0, 2, 1, 2, 0, 0, 0, 1}},
};

/* the direction that is counted: whom it calls, and the buffer that it fills */
static const struct direction {
    const char *name;
    buffer_function *const *sides;
    uint8_t *to;
    uint64_t to_len;
} reading = {"sds_read", readers, lent.message, sizeof lent.message}, writing = {"sds_write", writers, lent.record, sizeof lent.record}, *direction;

static uint32_t call_codec(enum side side, const void *row)
{
    const struct codec_row *call = row;
    buffer_function *function = direction->sides[side];
    mark_begin();
    uint32_t reply = function(call->from, call->from_len, direction->to, direction->to_len);
    mark_end();
    return reply;
}

static void count_rows(const struct direction *counted, const struct codec_row *rows, size_t count)
{
    direction = counted;
    for (size_t i = 0; i < count; i++)
        count_row(counted->name, rows[i].name, "-", call_codec, &rows[i], rows[i].number);
}

void codec_rows(void)
{
    memset(&before, 0xEE, sizeof before);
    count_rows(&reading, reads, sizeof reads / sizeof reads[0]);
    count_rows(&writing, writes, sizeof writes / sizeof writes[0]);
}
