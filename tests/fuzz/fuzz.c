/*
 * The entry points under a coverage-guided fuzzer (libFuzzer). Each input is a device and a conversation with it:
 *
 *     0      own address; 255 stands for 265
 *     1      bits 2..0: the length that is wrong (see enum length); bit 6: each work record begins with the first four bytes of the first frame;
 *            bit 7: the offsets of the table are set right, so that well-formed tables are found
 *     2      the wrong length's difference, signed
 *     3      r, records of the table (mod 32)
 *     4, 5   the store's length (mod SDS_STORE_MOST + STORE_OVER), low byte first
 *     6..    r records of the table, then records of frames; a rest is a record of that length
 *
 * Each frame goes to the core and to the reference. Results and all buffers must be equal afterwards (both.h). At the end, what came up of the short form
 * is counted.
 */
#include <string.h>
#include "both.h"
#include "reference.h"
#include "sds.h"
#include "short.h"

enum { FRONT = 6, STORE_OVER = 16 };
enum length { RIGHT, RECORD, TABLE, STORE, WORK, OUT, MESSAGE, LENGTHS };
enum knob { WRONG_LENGTH = 7, WORK_GARBAGE = 0x40, RIGHT_OFFSETS = 0x80 };

/* the fuzzer keeps an input that sets another of these, as one that reaches another line */
static uint8_t found[NOT_LOOKED_FOR + 1] __attribute__((used, section("__libfuzzer_extra_counters")));

static void step_both(uint32_t own)
{
    const size_t *n = lengths;
    const struct sds_device core = {
        .address = own,
        .table = {lent(CORE, TABLE), n[TABLE]},
        .store = {lent(CORE, STORE), n[STORE]},
        .work = {lent(CORE, WORK), n[WORK]},
        .out = {lent(CORE, OUT), n[OUT]},
    };
    uint32_t ours = sds_device_step(&core, lent(CORE, RECORD), n[RECORD]);
    uint32_t theirs = ref_step(lent(REFERENCE, RECORD), n[RECORD], own, lent(REFERENCE, TABLE), n[TABLE], lent(REFERENCE, STORE), n[STORE],
                               lent(REFERENCE, WORK), n[WORK], lent(REFERENCE, OUT), n[OUT]);
    must_be(ours == theirs, "the reply of sds_step");
    same_everywhere();
    found[short_count(&core, lent(CORE, RECORD), ours)] = 1;
}

/* the record read into the message and written back; the record's first bytes are tried as a message too */
static void codec_both(void)
{
    const size_t *n = lengths;
    must_be(sds_read(lent(CORE, RECORD), n[RECORD], lent(CORE, MESSAGE), n[MESSAGE]) ==
            ref_read(lent(REFERENCE, RECORD), n[RECORD], lent(REFERENCE, MESSAGE), n[MESSAGE]), "the result of sds_read");
    same_everywhere();
    must_be(sds_write(lent(CORE, MESSAGE), n[MESSAGE], lent(CORE, RECORD), n[RECORD]) ==
            ref_write(lent(REFERENCE, MESSAGE), n[MESSAGE], lent(REFERENCE, RECORD), n[RECORD]), "the result of sds_write");
    same_everywhere();
    must_be(sds_write(lent(CORE, OUT), SDS_MESSAGE, lent(CORE, RECORD), n[RECORD]) ==
            ref_write(lent(REFERENCE, OUT), SDS_MESSAGE, lent(REFERENCE, RECORD), n[RECORD]), "the result of sds_write of any bytes");
    same_everywhere();
}

/* offsets that follow one another, so that only the rest of a table is for the fuzzer to find */
static void set_offsets(struct sds_attribute *records, size_t count)
{
    for (size_t i = 0, end = 0; i < count; end += records[i].length, i++) {
        records[i].offset[0] = (uint8_t)end;
        records[i].offset[1] = (uint8_t)(end >> 8);
    }
}

static size_t length_of(enum length buffer, size_t right, const uint8_t *front)
{
    size_t wrong = right + (size_t)(int8_t)front[2];
    return (front[1] & WRONG_LENGTH) == buffer && wrong < BOTH_ROOM / 2 ? wrong : right;
}

static void converse(uint32_t own, const uint8_t *front, const uint8_t *frames, size_t size)
{
    for (size_t at = 0; at < size; at += SDS_RECORD) {
        size_t rest = size - at, right = rest < SDS_RECORD ? rest : SDS_RECORD;
        lend(RECORD, length_of(RECORD, right, front), frames + at, right);
        step_both(own);
        codec_both();
    }
}

int LLVMFuzzerInitialize(int *argc, char ***argv)
{
    static const char *const names[LENGTHS] = {0, "record", "table", "store", "work area", "output", "message"};
    (void)argc, (void)argv;
    both_start(names, LENGTHS, short_came_up);
    return 0;
}

static void start_work_records(const uint8_t *bytes, size_t count)
{
    for (enum side side = CORE; side < SIDES; side++)
        for (size_t at = 0; at + count <= lengths[WORK]; at += SDS_WORK_RECORD)
            memcpy(lent(side, WORK) + at, bytes, count);
}

static void lend_all(const uint8_t *front, const uint8_t *table, size_t table_size, const uint8_t *frames, size_t size)
{
    size_t store_size = (front[4] | (size_t)front[5] << 8) % (SDS_STORE_MOST + STORE_OVER);
    lend(TABLE, length_of(TABLE, table_size, front), table, table_size);
    for (enum side side = CORE; side < SIDES && front[1] & RIGHT_OFFSETS; side++)
        set_offsets((struct sds_attribute *)lent(side, TABLE), lengths[TABLE] / SDS_TABLE_RECORD);
    lend(STORE, length_of(STORE, store_size, front), front, 0);
    lend(WORK, length_of(WORK, SDS_WORK, front), front, 0);
    if (front[1] & WORK_GARBAGE)
        start_work_records(frames, size < 4 ? size : 4);
    lend(OUT, length_of(OUT, SDS_OUT, front), frames, size < SDS_MESSAGE ? size : SDS_MESSAGE);
    lend(MESSAGE, length_of(MESSAGE, SDS_MESSAGE, front), front, 0);
}

int LLVMFuzzerTestOneInput(const uint8_t *input, size_t size)
{
    if (size < FRONT || size - FRONT < SDS_TABLE_RECORD * (input[3] % 32u))
        return 0;
    size_t table_size = SDS_TABLE_RECORD * (input[3] % 32u), at = FRONT + table_size;
    lend_all(input, input + FRONT, table_size, input + at, size - at);
    must_be(sds_table_check(lent(CORE, TABLE), lengths[TABLE], lengths[STORE]) == ref_table_check(lent(CORE, TABLE), lengths[TABLE], lengths[STORE]),
            "the result of sds_table_check");
    uint32_t descriptor = input[4] | (uint32_t)input[5] << 8;
    must_be(sds_descriptor_size(descriptor) == ref_descriptor_size(descriptor), "the result of sds_descriptor_size");
    must_be(sds_error_code(descriptor) == ref_error_code(descriptor), "the result of sds_error_code");
    converse(input[0] == 255 ? 265 : input[0], input, input + at, size - at);
    return 0;
}
