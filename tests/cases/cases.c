/*
 * Plays cases from standard input into the device or the collector and prints a line for each. After each frame the number, the count or the tally, and
 * every byte of store, work area, output and value are compared, those behind their ends too; so are table and record, which must not alter. The status is 0
 * if nothing differs.
 *
 * A case is rows of text. Numbers are decimal, bytes two hex digits each.
 *   case NAME         a new case: the scope page's sample device with 67 bytes of store, a work area, an output with room for a frame more than
 *                     the most, and the collector's value, each byte of them 5A, and its tally, all 0
 *   address N         the own address
 *   Store N B         a store of N bytes, each of them B; Table, Work, Output and Value go the same way
 *   store P B B ..    these bytes, from place P of the store on; table, work, output and value go the same way
 *   tally S F D       frames seen, values finished and messages dropped
 *   frame B B ..      the record that is to be sent. The rows behind it say what is wanted of store, work, output and value, where it is not what was lent
 *   reply N C         the number and the count of frames that are wanted of the device: the record is sent to it, and all is compared. Then the output is
 *                     all 5A again
 *   collected N S F D the number and the tally that are wanted of the collector, likewise. Then the value is all 5A again
 *   # ..              nothing, as an empty row
 */
#include <stdio.h>
#include <stdlib.h>
#include <string.h>
#include "sds_host.h"

enum { ROOM = 40000, STAYS = 0x5A };    /* more than the longest area, a store that is one byte too long; what an area holds that has to stay */

struct area {
    const char *name;
    size_t length;
    uint8_t lent[ROOM], wanted[ROOM];    /* STAYS behind the length */
};
static struct area table = {.name = "table"}, store = {.name = "store"}, work = {.name = "work"}, output = {.name = "output"}, value = {.name = "value"},
                   record = {.name = "frame"};
static struct area *const areas[] = {&table, &store, &work, &output, &value, &record};    /* a row may lay the bytes of all but the last */
enum { AREAS = sizeof areas / sizeof *areas };

static uint32_t own;
static struct sds_tally tally;
static int row_number, awaited;          /* awaited: a frame has come, and its reply has not */
static int cases, frames, frames_here, failed, failed_here;

static void malformed(const char *why)
{
    fprintf(stderr, "cases: row %d: %s\n", row_number, why);
    exit(2);
}

static unsigned long number_up_to(unsigned long most, char **text)
{
    char *end;
    unsigned long n = strtoul(*text, &end, 10);
    if (end == *text || n > most)
        malformed("a number is expected");
    *text = end;
    return n;
}

static unsigned long number(char **text) { return number_up_to(ROOM - 1, text); }

static struct sds_tally counts(char **text)
{
    struct sds_tally t;
    t.seen = (uint32_t)number_up_to(UINT32_MAX, text);
    t.finished = (uint32_t)number_up_to(UINT32_MAX, text);
    t.dropped = (uint32_t)number_up_to(UINT32_MAX, text);
    return t;
}

/* a blank and two digits; -1 at the end of the row */
static int byte(char **text)
{
    char digits[3] = {0}, *end;
    if (**text == 0)
        return -1;
    if (**text != ' ' || !(*text)[1] || !(*text)[2])
        malformed("bytes of two digits are expected");
    memcpy(digits, *text + 1, 2);
    long b = strtol(digits, &end, 16);
    if (*end || b < 0 || digits[0] == ' ' || digits[0] == '-' || digits[0] == '+')
        malformed("hex digits are expected");
    *text += 3;
    return (int)b;
}

static void fill(struct area *a, size_t length, int b)
{
    memset(a->lent, STAYS, ROOM);
    memset(a->lent, b, length);
    memcpy(a->wanted, a->lent, ROOM);
    a->length = length;
}

static void lay(struct area *a, size_t place, char *text)
{
    for (int b; (b = byte(&text)) >= 0; place++) {
        if (place >= a->length)
            malformed("bytes behind the area's end");
        a->wanted[place] = (uint8_t)b;
        if (!awaited)
            a->lent[place] = (uint8_t)b;
    }
}

static void end_case(void)
{
    if (!cases)
        return;
    if (awaited || !frames_here)
        malformed("the case before sends nothing, or has a frame without a reply");
    printf(failed_here ? "" : ": ok\n");
    failed |= failed_here;
}

static void begin_case(const char *name)
{
    static const uint8_t sample[] = {
#include "sample_table.h"
    };
    end_case();
    printf("%s", name);
    cases++, frames_here = failed_here = 0, own = 9, tally = (struct sds_tally){0};
    fill(&store, 67, STAYS), fill(&work, SDS_WORK, STAYS), fill(&output, SDS_OUT + SDS_RECORD, STAYS), fill(&table, sizeof sample, 0);
    fill(&value, SDS_VALUE, STAYS);
    memcpy(table.lent, sample, sizeof sample);
    memcpy(table.wanted, sample, sizeof sample);
}

static void differs(const char *what)
{
    printf("%s%s, row %d", failed_here ? "" : ": DIFFERS in ", what, row_number);
    putchar('\n');
    failed_here = 1;
}

/* what the device and the collector have alike: the number and the areas, of which the answer's is all STAYS again */
static void compare(unsigned long answered, unsigned long wanted_number, struct area *answer)
{
    frames++, frames_here++, awaited = 0;
    if (answered != wanted_number)
        differs("the number");
    for (size_t i = 0; i < AREAS; i++) {
        if (memcmp(areas[i]->lent, areas[i]->wanted, ROOM))
            differs(areas[i]->name);
    }
    fill(answer, answer->length, STAYS);
}

static void send(unsigned long wanted_number, unsigned long wanted_count)
{
    const struct sds_device device = {
        .address = own,
        .table = {table.lent, table.length},
        .store = {store.lent, store.length},
        .work = {work.lent, work.length},
        .out = {output.lent, output.length},
    };
    uint32_t reply = sds_device_step(&device, record.lent, record.length);
    if (SDS_COUNT(reply) != wanted_count)
        differs("the count");
    compare(SDS_NUMBER(reply), wanted_number, &output);
}

static void collect(unsigned long wanted_number, struct sds_tally wanted)
{
    uint32_t answer = sds_collect(record.lent, record.length, work.lent, work.length, value.lent, value.length, &tally);
    if (tally.seen != wanted.seen || tally.finished != wanted.finished || tally.dropped != wanted.dropped)
        differs("the tally");
    compare(answer, wanted_number, &value);
}

static int is(const char *word, size_t length, const char *name) { return length == strlen(name) && !memcmp(word, name, length); }

static void take_frame(char *rest)
{
    if (awaited)
        malformed("the frame before has no reply");
    fill(&record, strlen(rest) / 3, 0);
    lay(&record, 0, rest);
    awaited = 1;
}

/* a row of an area: all of it where the name has a capital, bytes from a place on where not */
static void lay_area(const char *row, size_t length, char *rest)
{
    for (size_t i = 0; i < AREAS - 1; i++) {
        if (is(row + 1, length - 1, areas[i]->name + 1) && (row[0] | 32) == areas[i]->name[0]) {
            size_t n = number(&rest);
            if (row[0] == areas[i]->name[0])
                lay(areas[i], n, rest);
            else
                fill(areas[i], n, byte(&rest));
            return;
        }
    }
    malformed("a word that is none");
}

static void play(char *row)
{
    size_t length = strcspn(row, " ");
    char *rest = row + length;
    int replies = is(row, length, "reply"), collects = is(row, length, "collected");
    if (is(row, length, "case")) {
        begin_case(rest + 1);
        return;
    }
    if (!cases)
        malformed("no case has begun");
    if ((replies || collects) && !awaited)
        malformed("no frame has come");
    if (is(row, length, "address")) {
        own = (uint32_t)number(&rest);
    } else if (is(row, length, "tally")) {
        tally = counts(&rest);
    } else if (is(row, length, "frame")) {
        take_frame(rest);
    } else if (replies || collects) {
        unsigned long n = number(&rest);
        if (replies)
            send(n, number(&rest));
        else
            collect(n, counts(&rest));
    } else {
        lay_area(row, length, rest);
    }
}

int main(void)
{
    static char row[8192];
    while (fgets(row, sizeof row, stdin)) {
        row_number++;
        row[strcspn(row, "\n")] = 0;
        if (row[0] && row[0] != '#')
            play(row);
    }
    end_case();
    printf("%d cases, %d frames: %s\n", cases, frames, failed ? "FAILED" : "nothing differs");
    return failed || !cases;
}
