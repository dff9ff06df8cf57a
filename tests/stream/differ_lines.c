/*
 * differ_lines LINES [SEED]: plays random lines and half as many random records into the archive of sds_host.h and into the reference, and compares each
 * answer and every byte of every buffer. Where a line is made so that its answer is known, it must be that, and what was exported must come back. Counts
 * what came up, and fails where something that can come up never did.
 */
#include <string.h>
#include "candump.h"
#include "captures.h"
#include "differ.h"
#include "lines.h"
#include "sds_can.h"
#include "tally.h"

static const struct entry_points {
    captures_function *import_line, *export_record;
} core = {sds_import_line, sds_export_record}, reference = {ref_import_line, ref_export_record};

static struct lines lines;
static struct line_areas before, theirs;

/* ---- what came up */

enum { BY_FORM, BY_DAMAGES, BY_DAMAGE, BY_LENGTH, BY_LONG, BY_RECORD_ROOM, BY_RECORD, BY_DLC, BY_REMOTE_DLC, BY_LINE_ROOM, BY_CONDITIONS, TALLIES };

#define LENGTH_NAMES "0", "1", "2", "3", "4", "5", "6", "7", "8", "9", "10", "11", "12", "13", "14", "15", "16", "17", "18", "19", "20", "266"
#define DLC_NAMES "0", "1", "2", "3", "4", "5", "6", "7", "8", "9", "10", "11", "12", "13", "14", "15"

static struct tally tallies[TALLIES] = {
    [BY_FORM] = TALLY("lines", "whole width", "127 to 130 bytes", "longer", "256 more", "noise", "empty"),
    [BY_DAMAGES] = TALLY("damaged", "not", "once", "twice"),
    [BY_DAMAGE] = TALLY("damaged once", "no seconds", "a sign", "five micros", "seven micros", "interface of 0", "of 16 up", "no ID", "ID of two digits",
                        "of four", "of eight", "over 7FF", "no #", "two #", "##", "odd digit", "nine bytes", "r", "R9", "R12", "direction", "CR",
                        "interface byte", "space doubled", "space removed", "cut short", "byte replaced", "byte inserted", "byte removed"),
    [BY_LENGTH] = TALLY("good but for the length", "up to 126", "127", "128", "129", "130", "longer", "256 more"),
    [BY_LONG] = TALLY("too long", "else good", "damaged"),
    [BY_RECORD_ROOM] = TALLY("bytes for a record", LENGTH_NAMES),
    [BY_RECORD] = TALLY("bytes of a record", LENGTH_NAMES),
    [BY_DLC] = TALLY("DLC", DLC_NAMES),
    [BY_REMOTE_DLC] = TALLY("DLC under RTR", DLC_NAMES),
    [BY_LINE_ROOM] = TALLY("bytes for a line", "under 34", "34", "35", "36", "37", "38", "39 to 64", "256 more"),
    [BY_CONDITIONS] = TALLY("refusals that hold", "none", "1", "2", "1 and 2", "3", "1 and 3", "2 and 3", "all"),
};

static void count(unsigned tally, unsigned place)
{
    tallies[tally].counts[place]++;
}

/* 0 for what is under the first length, then each up to the last, then what is longer, then what is a good length by its lowest byte alone */
static uint32_t place_of_length(uint32_t length, uint32_t first, uint32_t last, int wrapped)
{
    if (wrapped)
        return last - first + 3;
    return length < first ? 0 : length > last ? last - first + 2 : length - first + 1;
}

static uint32_t place_of_record_length(void)
{
    return lines.record_len <= LINES_FEW_RECORD_BYTES ? lines.record_len : LINES_FEW_RECORD_BYTES + 1;
}

static void count_import(uint32_t number)
{
    captures_count_import(lines.areas.line, lines.line_len, lines.areas.record, number);
    count(BY_FORM, lines.form);
    count(BY_DAMAGES, lines.damages);
    count(BY_RECORD_ROOM, place_of_record_length());
    if (lines.damages == 1)
        count(BY_DAMAGE, lines.damage[0]);
    if (lines.damages == 0 && lines.record_len == SDS_RECORD && lines.form < NOISE)
        count(BY_LENGTH, place_of_length(lines.line_len, SDS_LINE_MOST - 1, SDS_LINE_MOST + 2, lines.form == WRAPPED));
    if (number == SDS_LINE_TOO_LONG)
        count(BY_LONG, lines.damages != 0);
}

/* a bit for each refusal that the record or the buffers give cause for */
static uint32_t conditions(const uint8_t *record)
{
    uint32_t bad_dlc = lines.record_len > 1 && sds_can_dlc(record) > SDS_CAN_DATA;
    return (lines.record_len != SDS_RECORD) | bad_dlc << 1 | (uint32_t)(lines.line_len < SDS_LINE_ROOM) << 2;
}

static void count_export(uint32_t answer)
{
    const uint8_t *record = lines.areas.record;
    captures_count_export(record, answer);
    count(BY_RECORD, place_of_record_length());
    count(BY_CONDITIONS, conditions(record));
    count(BY_LINE_ROOM, place_of_length(lines.line_len, SDS_LINE_ROOM - 2, SDS_LINE_ROOM + 2, lines.line_len > LINES_FEW_LINE_BYTES));
    if (lines.record_len == SDS_RECORD)
        count(sds_can_rtr(record) ? BY_REMOTE_DLC : BY_DLC, sds_can_dlc(record));
}

/* ---- the comparison */

/* prints the lengths and the buffers, each with its slack; gives 0 */
static int print_difference(const char *what, uint32_t ours, uint32_t expected)
{
    printf("DIFFERS at %s: archive %u, expected %u; line of %u bytes, record of %u\n", what, ours, expected, lines.line_len, lines.record_len);
    size_t line_shown = lines.line_len + LINES_SLACK, record_shown = lines.record_len + LINES_SLACK;
    print_bytes("line before", before.line, line_shown);
    print_bytes("line, archive", lines.areas.line, line_shown);
    print_bytes("line, reference", theirs.line, line_shown);
    print_bytes("record before", before.record, record_shown);
    print_bytes("record, archive", lines.areas.record, record_shown);
    print_bytes("record, reference", theirs.record, record_shown);
    return 0;
}

/* a buffer of no bytes is none */
static uint8_t *lent(uint8_t *bytes, uint32_t length)
{
    return length ? bytes : 0;
}

static uint32_t import_by(const struct entry_points *points, struct line_areas *a)
{
    return points->import_line(lent(a->line, lines.line_len), lines.line_len, lent(a->record, lines.record_len), lines.record_len);
}

static uint32_t export_by(const struct entry_points *points, struct line_areas *a)
{
    return points->export_record(lent(a->record, lines.record_len), lines.record_len, lent(a->line, lines.line_len), lines.line_len);
}

static int same_import(void)
{
    lines_next_import(&lines);
    before = theirs = lines.areas;
    uint32_t expected = import_by(&reference, &theirs), result = import_by(&core, &lines.areas), known = lines_expected(&lines);
    if (result != expected || memcmp(&lines.areas, &theirs, sizeof theirs) || memcmp(theirs.line, before.line, sizeof before.line))
        return print_difference("sds_import_line", result, expected);
    if (known != LINES_UNKNOWN && (result != known || (known == SDS_LINE_IMPORTED && memcmp(theirs.record, lines.meant, SDS_RECORD))))
        return print_difference("a line that is made for its answer", result, known);
    count_import(result);
    return 1;
}

/* whether the line that was exported gives its record back, to either side */
static int comes_back(uint32_t length)
{
    const uint8_t *line = lines.areas.line;
    uint8_t cleared[SDS_RECORD], ours[SDS_RECORD], their[SDS_RECORD];
    captures_clear(cleared, lines.areas.record);
    uint32_t result = sds_import_line(line, length, ours, sizeof ours), expected = ref_import_line(line, length, their, sizeof their);
    if (result || expected || memcmp(ours, cleared, sizeof cleared) || memcmp(their, cleared, sizeof cleared))
        return print_difference("the way back", result, expected);
    return 1;
}

static int same_export(void)
{
    lines_next_export(&lines);
    before = theirs = lines.areas;
    uint32_t expected = export_by(&reference, &theirs), result = export_by(&core, &lines.areas);
    if (result != expected || memcmp(&lines.areas, &theirs, sizeof theirs) || memcmp(theirs.record, before.record, sizeof before.record))
        return print_difference("sds_export_record", result, expected);
    count_export(result);
    return SDS_LINE_NUMBER(result) != SDS_RECORD_EXPORTED || comes_back(SDS_LINE_LENGTH(result));
}

int main(int argc, char **argv)
{
    struct asked asked = asked_for("differ_lines", "LINES", argc, argv);
    lines_start(&lines, asked.seed);
    for (unsigned long long i = 0; i < asked.count; i++)
        if (!same_import() || (i % 2 && !same_export()))
            return 1;
    int all = tally_print(tallies, TALLIES);
    if (!captures_came_up() || !all) {
        printf("a kind with 0 above never came up, or one came up that cannot\n");
        return 1;
    }
    printf("differ_lines: %llu lines, %llu records, no difference\n", asked.count, asked.count / 2);
    return 0;
}
