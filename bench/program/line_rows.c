/* sds_import_line and sds_export_record: short and long lines, and each refusal. */
#include <string.h>
#include "candump.h"
#include "counting.h"

static buffer_function *const importers[SIDES] = {empty_codec, sds_import_line, ref_import_line};
static buffer_function *const exporters[SIDES] = {empty_codec, sds_export_record, ref_export_record};

struct import_row {
    const char *name;
    uint32_t number;    /* the reply */
    const char *line;
};

static const struct import_row imports[] = {
    {"no data", 0, "(0.000000) can0 125#"},
    {"4 bytes, as exported", 0, "(0.000000) can0 04C#030A2C01"},
    {"4 bytes, as candump writes it", 0, "(1713859202.902882) can0 04C#030A2C01"},
    {"8 bytes, as candump writes it", 0, "(1713859202.902882) can0 04C#2338000B53445320"},
    {"remote frame", 0, "(1713859202.902882) can0 04C#R4"},
    {"refusal 1, 130 bytes", 1,
     "(1713859202.902882) can0 04C#0000000000000000000000000000000000000000000000000000000000000000000000000000000000000000000000000000"
     "0"},
    {"refusal 2, five digits of micros", 2, "(1713859202.90288) can0 04C#2338000B53445320"},
    {"refusal 3, 800", 3, "(1713859202.902882) can0 800#2338000B53445320"},
    {"refusal 4, a direction behind", 4, "(1713859202.902882) can0 04C#2338000B53445320 R"},
};

struct export_row {
    const char *name;
    uint32_t reply;
    uint8_t record_len;
    uint8_t record[SDS_RECORD];
};

static const struct export_row exports[] = {
    {"no data", 20 << 8, SDS_RECORD, {0x24, 0xA0}},
    {"4 bytes", 28 << 8, SDS_RECORD, {9, 0x84, 3, 10, 0x2C, 1}},
    {"8 bytes", 36 << 8, SDS_RECORD, {9, 0x88, 0x23, 56, 0, 11, 'S', 'D', 'S', ' '}},
    {"remote frame", 22 << 8, SDS_RECORD, {9, 0x94, 3, 10, 0x2C, 1}},
    {"refusal 1, 9 bytes", 1, SDS_RECORD - 1, {9, 0x84, 3, 10, 0x2C, 1}},
    {"refusal 2, DLC 9", 2, SDS_RECORD, {9, 0x89, 3, 10, 0x2C, 1}},
};

static uint32_t call_import(enum side side, const void *row)
{
    const struct import_row *call = row;
    buffer_function *function = importers[side];
    size_t length = strlen(call->line);
    mark_begin();
    uint32_t reply = function((const uint8_t *)call->line, length, lent.record, sizeof lent.record);
    mark_end();
    return reply;
}

static uint32_t call_export(enum side side, const void *row)
{
    const struct export_row *call = row;
    buffer_function *function = exporters[side];
    mark_begin();
    uint32_t reply = function(call->record, call->record_len, lent.line, sizeof lent.line);
    mark_end();
    return reply;
}

void line_rows(void)
{
    memset(&before, 0xEE, sizeof before);
    for (size_t i = 0; i < sizeof imports / sizeof imports[0]; i++)
        count_row("sds_import_line", imports[i].name, "-", call_import, &imports[i], imports[i].number);
    for (size_t i = 0; i < sizeof exports / sizeof exports[0]; i++)
        count_row("sds_export_record", exports[i].name, "-", call_export, &exports[i], exports[i].reply);
}
