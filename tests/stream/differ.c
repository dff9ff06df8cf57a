/*
 * differ FRAMES [SEED]: plays the random stream into the archive and into the reference, and compares each result and every byte of every buffer. Ends when
 * that many frames have gone through sds_step. Counts what came up, and fails where something that can come up never did.
 */
#include <string.h>
#include "differ.h"
#include "reference.h"
#include "short.h"
#include "stream.h"
#include "tally.h"

static const struct entry_points core = {sds_step, sds_read, sds_write, sds_descriptor_size, sds_table_check, sds_error_code};
static const struct entry_points reference = {ref_step, ref_read, ref_write, ref_descriptor_size, ref_table_check, ref_error_code};

static struct stream stream;
static struct areas theirs;
static uint8_t record[sizeof theirs.record], message[sizeof theirs.message]; /* as they were before the call */

/* ---- what came up */

enum { BY_ENTRY, BY_NUMBER, BY_SERVED, BY_FRAME, BY_DISTURBANCE, BY_READ, BY_CODE_READ, BY_WRITTEN, BY_CODE_WRITTEN, BY_TABLE, BY_SIZE, BY_ERROR_CODE, TALLIES };
enum served { READ_PLAIN, READ_IN_FRAGMENTS, WRITTEN_WHOLE, KEPT, COMPLETED, COMPLETED_ALONE, SET_OFF, SET_ON };

static struct tally tallies[TALLIES] = {
    [BY_ENTRY] = TALLY("calls", "step", "read", "write", "table_check", "descriptor_size", "error_code"),
    /* 13 cannot: there is no such check (02, 2026-05) */
    [BY_NUMBER] = TALLY("step", "0", "1", "2", "3", "4", "5", "6", "7", "8", "9", "10", "11", "12", 0, "14"),
    [BY_SERVED] = TALLY("served", "Read, one frame", "Read, fragments", "whole Write", "fragment kept", "last of several", "only fragment", "short Write OFF",
                        "short Write ON"),
    [BY_FRAME] = TALLY("frames", "next fragment", "first fragment", "whole Write", "Read", "short form", "stranger", "noise"),
    [BY_DISTURBANCE] = TALLY("disturbed", "not", "bit", "byte", "DLC", "number", "total", "table byte", "work byte", "record length", "table length",
                             "store length", "work length", "output length", "own address", "message byte", "message length"),
    [BY_READ] = TALLY("read", "short", "whole", "fragment", "refused 1", "refused 3", "refused 5", "refused 8"),
    [BY_CODE_READ] = TALLY("read, short", SHORT_CODE_NAMES),
    [BY_WRITTEN] = TALLY("write", "short", "whole", "fragment", "refused 1", "refused 3"),
    [BY_CODE_WRITTEN] = TALLY("write, short", SHORT_CODE_NAMES),
    [BY_TABLE] = TALLY("table_check", "0", "1", "2"),
    [BY_SIZE] = TALLY("descriptor_size", "refused", "1", "2", "3", "4", "other"),
    /* of 000's codes those that name a refusal of ours, and 14, which is our own */
    [BY_ERROR_CODE] = TALLY("error_code", "none", "1", "2", 0, 0, 0, 0, 0, 0, "9", 0, 0, 0, 0, "14"),
};

static void count(unsigned tally, unsigned place)
{
    tallies[tally].counts[place]++;
}

static enum served served_as(const uint8_t *frame, uint32_t answers)
{
    struct sds_message request;
    sds_message_read(frame, &request);
    if (request.kind == SDS_KIND_SHORT)
        return request.service == SDS_SHORT_WRITE_ON ? SET_ON : SET_OFF;
    if (request.service == SDS_SERVICE_READ)
        return answers > 1 ? READ_IN_FRAGMENTS : READ_PLAIN;
    if (request.kind == SDS_KIND_WHOLE)
        return WRITTEN_WHOLE;
    return answers == 0 ? KEPT : request.number ? COMPLETED : COMPLETED_ALONE;
}

static struct sds_device device_of(const struct call *c, struct areas *a)
{
    return (struct sds_device){
        .address = c->own,
        .table = {a->table, c->table_len},
        .store = {a->store, c->store_len},
        .work = {a->work, c->work_len},
        .out = {a->out, c->out_len},
    };
}

static void count_step(uint32_t reply)
{
    const struct sds_device device = device_of(&stream.call, &theirs);
    short_count(&device, record, reply);
    count(BY_NUMBER, SDS_NUMBER(reply));
    count(BY_FRAME, stream.call.frame);
    count(BY_DISTURBANCE, stream.call.disturbance);
    if (SDS_NUMBER(reply) == SDS_SERVED)
        count(BY_SERVED, served_as(record, SDS_COUNT(reply)));
}

/* what the codec did with a message: the refusal, or the message's kind, and its code where that is the short form */
static void count_message(unsigned tally, unsigned code_tally, uint32_t result, const uint8_t *bytes)
{
    static const uint8_t places_of_refusals[] = {[SDS_BAD_LENGTH] = 3, [SDS_BAD_FRAME] = 4, [SDS_BAD_SERVICE] = 5, [SDS_BAD_FORM] = 6};
    const struct sds_message *m = (const struct sds_message *)bytes;
    count(tally, result ? places_of_refusals[result] : m->kind);
    if (result == SDS_SERVED && m->kind == SDS_KIND_SHORT)
        count(code_tally, m->service);
}

static void count_call(uint32_t result)
{
    count(BY_ENTRY, stream.call.entry);
    switch (stream.call.entry) {
    case STEP: count_step(result); break;
    case READ: count_message(BY_READ, BY_CODE_READ, result, theirs.message); break;
    case WRITE: count_message(BY_WRITTEN, BY_CODE_WRITTEN, result, message); break;
    case TABLE_CHECK: count(BY_TABLE, result); break;
    case DESCRIPTOR_SIZE: count(BY_SIZE, result < 5 ? result : 5); break;
    default: count(BY_ERROR_CODE, result); break;
    }
}

/* prints all counts; gives whether each kind came up */
static int all_came_up(void)
{
    int all = tally_print(tallies, TALLIES);
    return short_came_up() && all;
}

/* ---- the comparison */

static void print_difference(uint32_t ours, uint32_t reference_says)
{
    const struct call *c = &stream.call;
    const uint8_t *a = (const uint8_t *)&stream.areas, *b = (const uint8_t *)&theirs;
    printf("DIFFERS at entry point %d: archive %u, reference %u\n", c->entry, ours, reference_says);
    printf("own %u, descriptor %u, refusal %u, lengths: record %u, message %u, table %u, store %u, work %u, out %u\n", c->own, c->descriptor, c->refusal,
           c->record_len, c->message_len, c->table_len, c->store_len, c->work_len, c->out_len);
    print_bytes("record", record, sizeof record);
    print_bytes("message", message, sizeof message);
    print_bytes("table", theirs.table, c->table_len < 256 ? c->table_len : 256);
    for (size_t i = 0, shown = 0; i < sizeof theirs && shown < 16; i++)
        if (a[i] != b[i])
            shown++, printf("byte %zu of the areas: archive %02X, reference %02X\n", i, a[i], b[i]);
}

static int same_call(void)
{
    stream_next(&stream);
    memcpy(record, stream.areas.record, sizeof record);
    memcpy(message, stream.areas.message, sizeof message);
    theirs = stream.areas;
    uint32_t expected = stream_call_of(&reference, &stream.call, &theirs), result = stream_call_of(&core, &stream.call, &stream.areas);
    if (result != expected || memcmp(&stream.areas, &theirs, sizeof theirs)) {
        print_difference(result, expected);
        return 0;
    }
    count_call(result);
    return 1;
}

/* every descriptor, and as many numbers beyond */
static int same_sizes(void)
{
    for (uint32_t descriptor = 0; descriptor < 0x20000; descriptor++)
        if (sds_descriptor_size(descriptor) != ref_descriptor_size(descriptor)) {
            printf("DIFFERS: size of descriptor %05X: archive %u, reference %u\n", descriptor, sds_descriptor_size(descriptor), ref_descriptor_size(descriptor));
            return 0;
        }
    return 1;
}

/* every number of 17 bits, and the lowest 16 with each bit above */
static int same_codes(void)
{
    enum { ALL = 0x20000, LOWEST = 16, ABOVE = 15 };
    for (uint32_t i = 0; i < ALL + LOWEST * ABOVE; i++) {
        uint32_t beyond = i - ALL, number = i < ALL ? i : (uint32_t)ALL << beyond / LOWEST | beyond % LOWEST;
        if (sds_error_code(number) != ref_error_code(number)) {
            printf("DIFFERS: code of refusal %u: archive %u, reference %u\n", number, sds_error_code(number), ref_error_code(number));
            return 0;
        }
    }
    return 1;
}

/* a descriptor's size by the rule before 02's 2026-04: that of a Boolean of undefined size by the decoding table of 001, 5.2 */
static uint32_t size_by_decoding_table(uint32_t descriptor)
{
    enum { BOOLEAN_OF_UNDEFINED_SIZE = 0x0100, COUNT = 0x001F, COUNT_IO_AND_NEXT = 0xC000 | COUNT, BYTE = 1, WORD = 2, LONG = 4 };
    uint32_t count_field = descriptor & COUNT;
    if ((descriptor & ~(uint32_t)COUNT_IO_AND_NEXT) != BOOLEAN_OF_UNDEFINED_SIZE)
        return ref_descriptor_size(descriptor);
    if (count_field < 8) /* "if(Count<8) Write Byte" */
        return BYTE;
    if (count_field < 16) /* "if(Count<16) Write Word" */
        return WORD;
    return LONG; /* "if(Count<32) Write Long" */
}

/* 02, 2026-04: three bytes where the table has four, for eight values of N (17 to 24) and four of I/O and Next; every other size stayed */
static int sizes_changed_as_asked(void)
{
    enum { DESCRIPTORS = 0x10000, TO_CHANGE = 8 * 4 };
    uint32_t descriptor = 0, changed = 0;
    for (; descriptor < DESCRIPTORS; descriptor++) {
        uint32_t now = sds_descriptor_size(descriptor), before = size_by_decoding_table(descriptor);
        if (now != before && (now != 3 || before != 4)) {
            printf("DIFFERS: size of descriptor %04X: archive %u, by the decoding table of 5.2 %u\n", descriptor, now, before);
            return 0;
        }
        changed += now != before;
    }
    printf("descriptor sizes: %u compared, %u other than by the decoding table of 5.2\n", descriptor, changed);
    if (changed != TO_CHANGE)
        printf("DIFFERS: sizes other than by the decoding table of 5.2: archive %u, by 2026-04 %d\n", changed, TO_CHANGE);
    return changed == TO_CHANGE;
}

int main(int argc, char **argv)
{
    struct asked asked = asked_for("differ", "FRAMES", argc, argv);
    stream_start(&stream, asked.seed);
    while (tallies[BY_ENTRY].counts[STEP] < asked.count)
        if (!same_call())
            return 1;
    if (!same_sizes() || !sizes_changed_as_asked() || !same_codes())
        return 1;
    if (!all_came_up()) {
        printf("a kind with 0 above never came up, or one came up that cannot\n");
        return 1;
    }
    printf("differ: %llu frames, no difference\n", asked.count);
    return 0;
}
