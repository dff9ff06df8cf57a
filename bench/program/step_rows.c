/* sds_step: what is served and what is refused, with tables of several sizes. */
#include <stdio.h>
#include <string.h>
#include "counting.h"
#include "reference.h"
#include "tables.h"

#define OWN 9

typedef uint32_t step_function(const uint8_t *record, uint64_t record_len, uint32_t own, const uint8_t *table, uint64_t table_len,
                               uint8_t *store, uint64_t store_len, uint8_t *work, uint64_t work_len, uint8_t *out, uint64_t out_len);
step_function empty_step;
static step_function *const steps[SIDES] = {empty_step, sds_step, ref_step};

enum oddity { NONE, OWN_TOO_HIGH, SHORT_STORE, NO_SUCH_ID };

struct step_row {
    const char *name;
    uint8_t number, frames;        /* the reply */
    uint8_t length, access;        /* of the attribute that is asked for; a length of 0: none matters, so the table may be empty */
    uint8_t record[SDS_RECORD];    /* object and ID are put in, which a short form leaves unused */
    uint8_t total, next;           /* what the object's work record waits for; a total of 0: nothing */
    enum oddity oddity;
};

/* Where several conditions lead to a refusal, the one that the paper names last. */
static const struct step_row rows[] = {
    {"Read, 2 bytes", 0, 1, 2, 3, {OWN, 0xA2}, 0, 0, NONE},
    {"Read, 255 bytes in 64 frames", 0, 64, 255, 3, {OWN, 0xA2}, 0, 0, NONE},
    {"Write, 2 bytes", 0, 1, 2, 3, {OWN, 0x84, 0, 0, 1, 2}, 0, 0, NONE},
    {"Write, 6 bytes", 0, 1, 6, 3, {OWN, 0x88, 0, 0, 1, 2, 3, 4, 5, 6}, 0, 0, NONE},
    {"fragment 0 of 32 bytes, kept", 0, 0, 32, 3, {OWN, 0x88, 0x20, 0, 0, 32, 1, 2, 3, 4}, 0, 0, NONE},
    {"fragment 3 of 32 bytes, kept", 0, 0, 32, 3, {OWN, 0x88, 0x20, 0, 3, 32, 1, 2, 3, 4}, 32, 3, NONE},
    {"last fragment of 32 bytes", 0, 1, 32, 3, {OWN, 0x88, 0x20, 0, 7, 32, 1, 2, 3, 4}, 32, 7, NONE},
    {"last fragment of 255 bytes", 0, 1, 255, 3, {OWN, 0x87, 0x20, 0, 63, 255, 1, 2, 3}, 255, 63, NONE},
    {"short Write ON", 0, 1, 1, 7, {OWN, 0xA0}, 0, 0, NONE},
    {"refusal 1, own address 126", 1, 0, 0, 0, {OWN, 0xA2}, 0, 0, OWN_TOO_HIGH},
    {"refusal 2, store a byte short", 2, 0, 2, 3, {OWN, 0xA2}, 0, 0, SHORT_STORE},
    {"refusal 3, address 126", 3, 0, 0, 0, {126, 0xA2}, 0, 0, NONE},
    {"refusal 4, address 10", 4, 0, 0, 0, {OWN + 1, 0xA2}, 0, 0, NONE},
    {"refusal 5, service 3", 5, 0, 0, 0, {OWN, 0x62}, 0, 0, NONE},
    {"refusal 5, short Write, no such record", 5, 0, 0, 0, {OWN, 0xA0}, 0, 0, NONE},
    {"refusal 6, a response", 6, 0, 0, 0, {OWN, 0xA2, 0x40}, 0, 0, NONE},
    {"refusal 7, Event", 7, 1, 0, 0, {OWN, 0xE2}, 0, 0, NONE},
    {"refusal 8, fragment of a Write, DLC 3", 8, 1, 0, 0, {OWN, 0x83, 0x20, 0, 1}, 0, 0, NONE},
    {"refusal 9, no such ID", 9, 1, 0, 0, {OWN, 0xA2}, 0, 0, NO_SUCH_ID},
    {"refusal 10, Write of a read-only one", 10, 1, 2, 1, {OWN, 0x84, 0, 0, 1, 2}, 0, 0, NONE},
    {"refusal 11, fragment with total 31", 11, 1, 32, 3, {OWN, 0x88, 0x20, 0, 0, 31, 1, 2, 3, 4}, 0, 0, NONE},
    {"refusal 12, fragment of 3 bytes", 12, 1, 32, 3, {OWN, 0x87, 0x20, 0, 3, 32, 1, 2, 3}, 32, 3, NONE},
    {"refusal 14, fragment 3 where 2 is next", 14, 1, 32, 3, {OWN, 0x88, 0x20, 0, 3, 32, 1, 2, 3, 4}, 32, 2, NONE},
};

struct step_call {
    uint8_t record[SDS_RECORD];
    uint32_t own;
    struct table table;
};

static uint32_t make_call(enum side side, const void *row)
{
    const struct step_call *call = row;
    struct sds_table table = lent_table(&call->table);
    step_function *step = steps[side];
    mark_begin();
    uint32_t reply = step(call->record, SDS_RECORD, call->own, table.bytes, table.length, lent.store, call->table.store, lent.work,
                          sizeof lent.work, lent.out, sizeof lent.out);
    mark_end();
    return reply;
}

/*
 * The store's first byte is neither ON nor OFF, so that a short Write shows. The work area holds what is left of older messages, and the object's
 * record waits for a fragment if the row says so.
 */
static void fill_lent(const struct step_row *row, uint8_t object, uint8_t id)
{
    for (unsigned i = 0; i < sizeof before.store; i++)
        before.store[i] = (uint8_t)(7 * i + 2);
    for (unsigned i = 0; i < sizeof before.work; i++)
        before.work[i] = i % SDS_WORK_RECORD ? (uint8_t)(3 * i + 2) : 0;
    memset(before.out, 0xEE, sizeof before.out);
    if (row->total)
        memcpy(before.work + SDS_WORK_RECORD * object, (const uint8_t[]){1, id, row->total, row->next}, 4);
}

static int is_read(const struct step_row *row)
{
    return row->record[1] == 0xA2;
}

static int is_short(const struct step_row *row)
{
    return (row->record[1] & 15) == 0;    /* DLC 0 */
}

/* Where the attribute stands that a row asks for: first or last. A short Write asks for one of object 0's, so the last of those. */
static unsigned wanted_place(const struct step_row *row, const struct table *table, int first)
{
    if (first)
        return 0;
    return (is_short(row) ? records_of_0(table) : table->records) - 1;
}

/*
 * One row with a table whose last record, or first one, is the attribute that is asked for. A short Write finds object 0's first network data, so
 * object 0 has no other.
 */
static void count_step(const struct step_row *row, unsigned records, int first)
{
    static struct step_call call;
    struct table *table = &call.table;
    make_table(table, records, is_short(row) ? MIXED_BEHIND_0 : MIXED);
    if (row->length)
        set_wanted(table, wanted_place(row, table, first), row->length, row->access);
    struct sds_table made = lent_table(table);
    demand(sds_table_check(made.bytes, made.length, table->store) == SDS_SERVED, "sds_step", row->name);
    if (row->oddity == SHORT_STORE)
        table->store--;
    if (row->oddity == NO_SUCH_ID)
        table->object = SDS_OBJECTS - 1, table->id = 255;
    call.own = row->oddity == OWN_TOO_HIGH ? SDS_ADDRESS_MOST + 1 : OWN;
    memcpy(call.record, row->record, SDS_RECORD);
    call.record[2] |= table->object;
    call.record[3] = table->id;
    fill_lent(row, table->object, table->id);

    char name[64], size[16];
    snprintf(name, sizeof name, "%s%s", row->name, first ? ", first record" : "");
    snprintf(size, sizeof size, "%u", records);
    count_row("sds_step", name, size, make_call, &call, row->number + (uint32_t)REF_PER_FRAME * row->frames);
}

/* One row with tables of all sizes that have what it asks for. */
static void count_sizes(const struct step_row *row, int first)
{
    static const unsigned sizes[] = {0, 4, 64, SDS_ATTRIBUTES};
    for (unsigned i = 0; i < sizeof sizes / sizeof sizes[0]; i++)
        if (sizes[i] || !row->length)
            count_step(row, sizes[i], first);
}

void step_rows(void)
{
    for (unsigned i = 0; i < sizeof rows / sizeof rows[0]; i++) {
        const struct step_row *row = &rows[i];
        count_sizes(row, 0);
        if (row->number == SDS_SERVED && is_read(row))
            count_step(row, SDS_ATTRIBUTES, 1);
        if (row->number == SDS_SERVED && is_short(row))
            count_sizes(row, 1);    /* in front is where a device of one point has it */
    }
}
