/* sds_table_check over tables of several sizes and contents; sds_descriptor_size by type, and sds_error_code. */
#include <stdio.h>
#include "counting.h"
#include "reference.h"
#include "tables.h"

typedef uint32_t check_function(const uint8_t *table, uint64_t table_len, uint64_t store_len);
typedef uint32_t number_function(uint32_t number);
check_function empty_check;
number_function empty_number;
static check_function *const checks[SIDES] = {empty_check, sds_table_check, ref_table_check};
static number_function *const sizes[SIDES] = {empty_number, sds_descriptor_size, ref_descriptor_size};
static number_function *const codes[SIDES] = {empty_number, sds_error_code, ref_error_code};

struct number_row {
    const char *function, *name;
    number_function *const *sides;
    uint32_t number, reply;
};

static const struct number_row number_rows[] = {
    {"sds_descriptor_size", "Boolean, size undefined", sizes, 0x0100, 1},
    {"sds_descriptor_size", "Boolean, a word", sizes, 0x014F, 2},
    {"sds_descriptor_size", "integer, a word", sizes, 0x0040, 2},
    {"sds_descriptor_size", "Real", sizes, 0x0660, 4},
    {"sds_descriptor_size", "32 characters", sizes, 0x073F, 32},
    {"sds_descriptor_size", "32 extended characters", sizes, 0x055F, 64},
    {"sds_descriptor_size", "refused, type 2", sizes, 0x0200, 0},
    {"sds_descriptor_size", "refused, over 65,535", sizes, 0x10100, 0},
    {"sds_error_code", "7", codes, 7, 1},
    {"sds_error_code", "12", codes, 12, 9},
    {"sds_error_code", "14", codes, 14, 14},
    {"sds_error_code", "6, which has none", codes, 6, 0},
};

static uint32_t call_check(enum side side, const void *row)
{
    const struct table *table = row;
    struct sds_table made = lent_table(table);
    check_function *check = checks[side];
    mark_begin();
    uint32_t reply = check(made.bytes, made.length, table->store);
    mark_end();
    return reply;
}

static uint32_t call_number(enum side side, const void *row)
{
    const struct number_row *call = row;
    number_function *function = call->sides[side];
    mark_begin();
    uint32_t reply = function(call->number);
    mark_end();
    return reply;
}

static void count_check(const char *name, enum mix mix, unsigned records)
{
    static struct table table;
    char size[16];
    make_table(&table, records, mix);
    snprintf(size, sizeof size, "%u", records);
    count_row("sds_table_check", name, size, call_check, &table, 0);
}

void table_rows(void)
{
    static const unsigned lengths[] = {0, 4, 64, SDS_ATTRIBUTES};
    for (unsigned i = 0; i < sizeof lengths / sizeof lengths[0]; i++)
        count_check("mixed records", MIXED, lengths[i]);
    count_check("plain records", ALL_PLAIN, SDS_ATTRIBUTES);
    count_check("Boolean records", ALL_BOOLEAN, SDS_ATTRIBUTES);
    for (unsigned i = 0; i < sizeof number_rows / sizeof number_rows[0]; i++)
        count_row(number_rows[i].function, number_rows[i].name, "-", call_number, &number_rows[i], number_rows[i].reply);
}
