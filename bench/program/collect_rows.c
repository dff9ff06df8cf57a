/* sds_collect: answers in one frame and in fragments, over an idle record and a filling one, and each refusal. */
#include <string.h>
#include "collect.h"
#include "counting.h"

enum { GUEST = 32, FROM = 128 | GUEST, ID = 56 };    /* of 000's worked Read */

typedef uint32_t collect_function(const uint8_t *record, uint64_t record_len, uint8_t *work, uint64_t work_len, uint8_t *value,
                                  uint64_t value_len, struct sds_tally *tally);
collect_function empty_collect;

/* plain C has a tally of its own, of the same three numbers in the same order */
static collect_function *const collects[SIDES] = {empty_collect, sds_collect, (collect_function *)ref_collect};

enum oddity { NONE, SHORT_RECORD, SHORT_WORK, SHORT_VALUE };

struct collect_row {
    const char *name;
    uint8_t number;                /* the reply */
    uint8_t record[SDS_RECORD];
    uint8_t total, next;           /* what the guest's work record waits for, of object 0; a total of 0: nothing */
    enum oddity oddity;
};

/* Lines of one name are one row: 000's worked Read, 5.3.1. Where several conditions lead to a refusal, several have a row: what they cost is far apart. */
static const struct collect_row rows[] = {
    {"whole, 1 byte", 0, {FROM, 0xA3, 0x40, ID, 1}, 0, 0, NONE},
    {"whole, 6 bytes", 0, {FROM, 0xA8, 0x40, ID, 1, 2, 3, 4, 5, 6}, 0, 0, NONE},
    {"whole, 6 bytes, amid a message", 0, {FROM, 0xA8, 0x40, ID, 1, 2, 3, 4, 5, 6}, 255, 31, NONE},
    {"fragment 0 of 255 bytes, kept", 0, {FROM, 0xA8, 0x60, ID, 0, 255, 1, 2, 3, 4}, 0, 0, NONE},
    {"fragment 0 of 255 bytes, another lost", 0, {FROM, 0xA8, 0x60, ID, 0, 255, 1, 2, 3, 4}, 255, 31, NONE},
    {"fragment 31 of 255 bytes, kept", 0, {FROM, 0xA8, 0x60, ID, 31, 255, 1, 2, 3, 4}, 255, 31, NONE},
    {"last fragment of 255 bytes", 0, {FROM, 0xA7, 0x60, ID, 63, 255, 1, 2, 3}, 255, 63, NONE},
    {"only fragment, of 4 bytes", 0, {FROM, 0xA8, 0x60, ID, 0, 4, 1, 2, 3, 4}, 0, 0, NONE},
    {"only fragment, of 4 bytes, another lost", 0, {FROM, 0xA8, 0x60, ID, 0, 4, 1, 2, 3, 4}, 255, 31, NONE},
    {"GATE SENSOR, its three fragments", 0, {FROM, 0xA8, 0x60, ID, 0, 11, 'G', 'A', 'T', 'E'}, 0, 0, NONE},
    {"GATE SENSOR, its three fragments", 0, {FROM, 0xA8, 0x60, ID, 1, 11, ' ', 'S', 'E', 'N'}, 11, 1, NONE},
    {"GATE SENSOR, its three fragments", 0, {FROM, 0xA7, 0x60, ID, 2, 11, 'S', 'O', 'R'}, 11, 2, NONE},
    {"refusal 1, work area a byte short", 1, {FROM, 0xA8, 0x40, ID, 1, 2, 3, 4, 5, 6}, 0, 0, SHORT_WORK},
    {"refusal 1, value of 7 bytes", 1, {FROM, 0xA8, 0x40, ID, 1, 2, 3, 4, 5, 6}, 0, 0, SHORT_VALUE},
    {"refusal 2, record of 9 bytes", 2, {FROM, 0xA8, 0x40, ID, 1, 2, 3, 4, 5, 6}, 0, 0, SHORT_RECORD},
    {"refusal 2, fragment, DLC 3", 2, {FROM, 0xA3, 0x60, ID, 1}, 0, 0, NONE},
    {"refusal 3, short form", 3, {FROM, 0xA0}, 0, 0, NONE},
    {"refusal 3, Read sent to a guest", 3, {GUEST, 0xA2, 0x00, ID}, 0, 0, NONE},
    {"refusal 3, Error, 1 byte", 3, {FROM, 0xA3, 0x80, ID, 1}, 0, 0, NONE},
    {"refusal 3, fragment of a Write", 3, {GUEST, 0x88, 0x20, ID, 0, 255, 1, 2, 3, 4}, 0, 0, NONE},
    {"refusal 4, fragment with total 0", 4, {FROM, 0xA8, 0x60, ID, 0, 0, 1, 2, 3, 4}, 0, 0, NONE},
    {"refusal 5, whole, no data", 5, {FROM, 0xA2, 0x40, ID}, 0, 0, NONE},
    {"refusal 5, fragment 64", 5, {FROM, 0xA8, 0x60, ID, 64, 255, 1, 2, 3, 4}, 255, 63, NONE},
    {"refusal 5, fragment 31 of 3 bytes", 5, {FROM, 0xA7, 0x60, ID, 31, 255, 1, 2, 3}, 255, 31, NONE},
    {"refusal 6, fragment 31, nothing begun", 6, {FROM, 0xA8, 0x60, ID, 31, 255, 1, 2, 3, 4}, 0, 0, NONE},
    {"refusal 6, fragment 31 where 30 is next", 6, {FROM, 0xA8, 0x60, ID, 31, 255, 1, 2, 3, 4}, 255, 30, NONE},
    {"refusal 6, fragment 31 of another object", 6, {FROM, 0xA8, 0x61, ID, 31, 255, 1, 2, 3, 4}, 255, 31, NONE},
};

static uint32_t call_collect(enum side side, const void *row)
{
    const struct collect_row *call = row;
    collect_function *function = collects[side];
    uint64_t record_len = SDS_RECORD - (call->oddity == SHORT_RECORD), work_len = SDS_COLLECT_WORK - (call->oddity == SHORT_WORK);
    uint64_t value_len = SDS_VALUE - (call->oddity == SHORT_VALUE);
    mark_begin();
    uint32_t reply = function(call->record, record_len, lent.collected, work_len, lent.value, value_len, &lent.tally);
    mark_end();
    return reply;
}

/* The work area holds what is left of older messages, and the guest's record waits for a fragment if the row says so. No count is at its largest value. */
static void fill_lent(const struct collect_row *row)
{
    uint8_t *record = before.collected + SDS_WORK_RECORD * GUEST;
    for (unsigned i = 0; i < sizeof before.collected; i++)
        before.collected[i] = i % SDS_WORK_RECORD ? (uint8_t)(3 * i + 2) : 0;
    if (row->total) {
        memcpy(record, (const uint8_t[]){1, ID, row->total, row->next}, 4);
        record[SDS_WORK_RECORD - 1] = 0;
    }
    memset(before.value, 0xEE, sizeof before.value);
    before.tally = (struct sds_tally){1000, 100, 10};
}

void collect_rows(void)
{
    for (size_t i = 0; i < sizeof rows / sizeof rows[0]; i++) {
        fill_lent(&rows[i]);
        count_row("sds_collect", rows[i].name, "-", call_collect, &rows[i], rows[i].number);
    }
}
