/*
 * differ_collect CALLS [SEED]: plays random frames into sds_collect of the archive and into the reference, and compares each answer, the tallies and every
 * byte of every buffer. Counts what came up, and fails where something that can come up never did. Then plays some thousand frames more into the archive,
 * mixed and guest by guest, and compares what comes of them.
 */
#include <stddef.h>
#include <string.h>
#include "collect.h"
#include "collects.h"
#include "differ.h"
#include "tally.h"

static struct collects calls;
static struct collect_areas theirs; /* the reference's; its work area is the twin of the stream's */

/* as it was before the call: all but the work area, of which the record of the frame's guest, if it has one */
static uint8_t before_bytes[offsetof(struct collect_areas, work)];
static const uint8_t *const record = before_bytes + offsetof(struct collect_areas, record);
static struct sds_tally tally;
static uint8_t join[SDS_WORK_RECORD];

/* ---- the frame and its guest's record, by 01's layouts */

enum { JOIN_STATUS, JOIN_ID, JOIN_TOTAL, JOIN_NEXT, JOIN_OBJECT = SDS_WORK_RECORD - 1 };

static uint32_t dlc(void) { return record[1] & 15; }
static uint32_t service(void) { return record[1] >> 5; }
static uint32_t address(void) { return record[0] & 127; }
static uint32_t response(void) { return record[2] >> 6; }
static uint32_t object(void) { return record[2] & 31; }
static int is_fragment(void) { return (record[2] & 32) != 0; }
static uint32_t number(void) { return record[4]; }
static uint32_t total(void) { return record[5]; }

/* what a record of the work area is: idle in one of four ways, or filling */
enum state { IDLE, STATUS_2_UP, NUMBER_0, NUMBER_TOO_HIGH, FILLING };
#define IDLE_NAMES "status 0", "2 to 255", "1 with number 0", "1 with too high a number"

static enum state state(void)
{
    if (join[JOIN_STATUS] != 1)
        return join[JOIN_STATUS] ? STATUS_2_UP : IDLE;
    if (join[JOIN_NEXT] == 0)
        return NUMBER_0;
    return 4 * join[JOIN_NEXT] < join[JOIN_TOTAL] ? FILLING : NUMBER_TOO_HIGH;
}

/* ---- what came up */

enum {
    BY_ANSWER, BY_SENT, BY_HARM, BY_RECORD_LENGTH, BY_WORK_LENGTH, BY_VALUE_LENGTH, BY_LENGTHS, BY_DLC, BY_MALFORMED, BY_RESPONSE, BY_NO_RESPONSE, BY_TOTAL_0,
    BY_SHAPE, BY_ORDER, BY_STATE_AT_6, BY_COLLECTED, BY_WHOLE, BY_WHOLE_STATE, BY_TOTAL, BY_NUMBER, BY_RUN, BY_JOINED_GUEST, BY_STATE_AT_0, BY_LOST, BY_LARGEST,
    TALLIES
};
enum malformed { LENGTH, REMOTE, DLC_OVER_8, ADDRESS, DLC_1, SERVICE_BELOW_4, FLAG_WITHOUT_ROOM };
enum collected { KEPT, WHOLE, JOINED_ALONE, JOINED };

/* a work area is never lent a few bytes too long, and the others have fewer than 256 */
#define LONG_LENGTH_NAMES "none", "fewer", "256 too few", "one too few", "right", "one too many", 0, "256 too many"
#define SHORT_LENGTH_NAMES "none", "fewer", 0, "one too few", "right", "one too many", "more", "256 too many"

static struct tally tallies[TALLIES] = {
    [BY_ANSWER] = TALLY("answers", "0", "1", "2", "3", "4", "5", "6"),
    [BY_SENT] = TALLY("frames", "next fragment", "begun anew", "whole", "no answer to a Read", "of 0 bytes or behind the last", "noise"),
    [BY_HARM] = TALLY("harmed", "not", "lost", "repeated", "too early", "flag", "object", "ID", "total", "number", "DLC", "RTR", "service", "response",
                      "direction", "no address", "another guest", "bit", "byte", "record length", "work length", "value length", "work byte", "count"),
    [BY_RECORD_LENGTH] = TALLY("bytes of a record", SHORT_LENGTH_NAMES),
    [BY_WORK_LENGTH] = TALLY("bytes of a work area", LONG_LENGTH_NAMES),
    [BY_VALUE_LENGTH] = TALLY("bytes of a value", SHORT_LENGTH_NAMES),
    [BY_LENGTHS] = TALLY("wrong lengths", "none", "one", "two"),
    [BY_DLC] = TALLY("DLC", "0", "1", "2", "3", "4", "5", "6", "7", "8", "9", "10", "11", "12", "13", "14", "15"),
    [BY_MALFORMED] = TALLY("2 for", "the length", "RTR", "DLC over 8", "the address", "DLC 1", "a service below 4", "the flag with DLC 2 or 3"),
    [BY_RESPONSE] = TALLY("3 for", "the short form", "the direction alone", "the service alone", "a Request alone", "an Error alone", "a Wait alone", "more"),
    [BY_NO_RESPONSE] = TALLY("3 with the guest's record filling", "short form", "Dir/Pri 0", "another service", "Request", "Error", "Wait"),
    [BY_TOTAL_0] = TALLY("4", "number 0 over idle", "number 0 over filling", "another over idle", "another over filling"),
    [BY_SHAPE] = TALLY("5 for", "a place behind the total", "too few bytes", "too many", "these where 6 would hold", "a number above 63", "no data over idle",
                       "no data over filling"),
    [BY_ORDER] = TALLY("6 for", "an idle record alone", "the object alone", "the ID alone", "the total alone", "the number alone", "more"),
    [BY_STATE_AT_6] = TALLY("6 over", IDLE_NAMES, "filling"),
    [BY_COLLECTED] = TALLY("collected", "kept", "whole", "joined of one", "joined of more"),
    [BY_WHOLE] = TALLY("whole, bytes", "1", "2", "3", "4", "5", "6"),
    [BY_WHOLE_STATE] = TALLY("whole over", IDLE_NAMES, "filling"),
    [BY_TOTAL] = TALLY("joined, bytes", "1", "2", "3", "4", "5", "6", "7", "8", "9 to 252", "253 to 255"),
    [BY_NUMBER] = TALLY("fragments in order, number", "0", "1", "2", "3 to 62", "63"),
    [BY_RUN] = TALLY("joined of 64 fragments", "0 to 63 one after another"),
    [BY_JOINED_GUEST] = TALLY("joined, guest", "0", "1 to 124", "125"),
    [BY_STATE_AT_0] = TALLY("number 0 over", IDLE_NAMES, "filling"),
    [BY_LOST] = TALLY("lost to", "6", "a number 0 that is kept", "a number 0 that is the last"),
    [BY_LARGEST] = TALLY("at its largest", "seen", "finished", "dropped"),
};

static void count(unsigned row, unsigned place)
{
    tallies[row].counts[place]++;
}

static void count_length(unsigned row, uint32_t length, uint32_t right)
{
    enum { EMPTY, FEWER, WRAP_TOO_FEW, ONE_TOO_FEW, RIGHT, ONE_TOO_MANY, MORE, WRAP_TOO_MANY };
    if (length + 1 >= right && length <= right + 1)
        count(row, RIGHT + length - right);
    else if (length < right)
        count(row, length == 0 ? EMPTY : length + COLLECTS_WRAP == right ? WRAP_TOO_FEW : FEWER);
    else
        count(row, length == right + COLLECTS_WRAP ? WRAP_TOO_MANY : MORE);
}

static void count_call(void)
{
    count(BY_SENT, calls.sent);
    count_length(BY_RECORD_LENGTH, calls.record_len, SDS_RECORD);
    count_length(BY_WORK_LENGTH, calls.work_len, SDS_COLLECT_WORK);
    count_length(BY_VALUE_LENGTH, calls.value_len, SDS_VALUE);
    count(BY_LENGTHS, 0u + (calls.record_len != SDS_RECORD) + (calls.work_len != SDS_COLLECT_WORK) + (calls.value_len != SDS_VALUE));
    count(BY_DLC, dlc());
    if (calls.harms == 0)
        count(BY_HARM, NO_HARM);
    for (uint32_t i = 0; i < calls.harms; i++)
        count(BY_HARM, calls.harm[i]);
}

static enum malformed malformed_by(void)
{
    if (calls.record_len != SDS_RECORD)
        return LENGTH;
    if (record[1] & 16)
        return REMOTE;
    if (dlc() > 8)
        return DLC_OVER_8;
    if (address() > SDS_ADDRESS_MOST)
        return ADDRESS;
    return dlc() == 1 ? DLC_1 : service() < 4 ? SERVICE_BELOW_4 : FLAG_WITHOUT_ROOM;
}

static void count_no_response(void)
{
    uint32_t to_guest = record[0] < 128, other_service = service() != SDS_SERVICE_READ, no_success = dlc() && response() != SDS_SUCCESSFUL;
    uint32_t places_of_responses[] = {[SDS_REQUEST] = 3, [SDS_ERROR] = 4, [SDS_WAIT] = 5};
    unsigned place = dlc() == 0 ? 0 : to_guest ? 1 : other_service ? 2 : places_of_responses[response()];
    count(BY_RESPONSE, dlc() == 0 || to_guest + other_service + no_success == 1 ? place : 6);
    if (state() == FILLING)
        count(BY_NO_RESPONSE, place);
}

/* a bit for each cause that a fragment is out of order: idle, object, ID, total, number */
static uint32_t disorder(void)
{
    return (state() != FILLING) | (uint32_t)(object() != join[JOIN_OBJECT]) << 1 | (uint32_t)(record[3] != join[JOIN_ID]) << 2 |
           (uint32_t)(total() != join[JOIN_TOTAL]) << 3 | (uint32_t)(number() != join[JOIN_NEXT]) << 4;
}

static void count_shape(void)
{
    enum { BEHIND, TOO_FEW, TOO_MANY, OUT_OF_ORDER_TOO, ABOVE_63, NO_DATA, NO_DATA_FILLING };
    if (!is_fragment()) {
        count(BY_SHAPE, state() == FILLING ? NO_DATA_FILLING : NO_DATA);
        return;
    }
    uint32_t rest = total() - 4 * number();
    count(BY_SHAPE, 4 * number() >= total() ? BEHIND : dlc() - 4 < (rest < 4 ? rest : 4) ? TOO_FEW : TOO_MANY);
    if (number() && disorder())
        count(BY_SHAPE, OUT_OF_ORDER_TOO);
    if (number() > 63)
        count(BY_SHAPE, ABOVE_63);
}

static void count_disorder(void)
{
    static const uint8_t places[17] = {[1] = 0, [2] = 1, [4] = 2, [8] = 3, [16] = 4};
    uint32_t causes = disorder();
    count(BY_ORDER, (causes & (causes - 1)) ? 5 : places[causes]);
    count(BY_STATE_AT_6, state());
}

/* whether the call lost a half-joined message, which is counted too */
static int count_lost(uint32_t answer)
{
    int begins = answer == SDS_COLLECTED && is_fragment() && number() == 0;
    if (begins)
        count(BY_STATE_AT_0, state());
    if (state() != FILLING || (answer != SDS_COLLECT_OUT_OF_ORDER && !begins))
        return 0;
    count(BY_LOST, !begins ? 0 : total() > 4 ? 1 : 2);
    return 1;
}

/* how many fragments of each guest came in order, up to this one */
static uint8_t runs[SDS_GUESTS];

static void count_run(void)
{
    uint8_t *run = &runs[address()];
    *run = (uint8_t)(number() ? *run + 1 : 1);
    count(BY_NUMBER, number() < 3 ? number() : number() < 63 ? 3 : 4);
    if (*run == 64)
        count(BY_RUN, 0);
}

static void count_joined(void)
{
    uint32_t joined = total();
    count(BY_TOTAL, joined < 9 ? joined - 1 : joined < 253 ? 8 : 9);
    count(BY_JOINED_GUEST, address() == 0 ? 0 : address() < SDS_ADDRESS_MOST ? 1 : 2);
}

static void count_collected(void)
{
    enum collected as = !is_fragment() ? WHOLE : 4 * number() + 4 < total() ? KEPT : number() ? JOINED : JOINED_ALONE;
    count(BY_COLLECTED, as);
    if (is_fragment())
        count_run();
    if (as == WHOLE) {
        count(BY_WHOLE, dlc() - 3);
        count(BY_WHOLE_STATE, state());
    } else if (as != KEPT) {
        count_joined();
    }
    if (as != KEPT && tally.finished == UINT32_MAX)
        count(BY_LARGEST, 1);
}

static void count_answer(uint32_t answer)
{
    count_call();
    count(BY_ANSWER, answer);
    if (tally.seen == UINT32_MAX)
        count(BY_LARGEST, 0);
    switch (answer) {
    case SDS_COLLECTED: count_collected(); break;
    case SDS_COLLECT_BAD_LENGTH: break;
    case SDS_COLLECT_BAD_FRAME: count(BY_MALFORMED, malformed_by()); break;
    case SDS_COLLECT_NO_ANSWER: count_no_response(); break;
    case SDS_COLLECT_NO_TOTAL: count(BY_TOTAL_0, 2u * (number() != 0) + (state() == FILLING)); break;
    case SDS_COLLECT_BAD_SHAPE: count_shape(); break;
    default: count_disorder(); break;
    }
    if (count_lost(answer) && tally.dropped == UINT32_MAX)
        count(BY_LARGEST, 2);
}

/* ---- the comparison */

/* prints the call; gives 0 */
static int print_difference(uint32_t ours, uint32_t expected)
{
    const uint8_t *a = (const uint8_t *)&calls.areas, *b = (const uint8_t *)&theirs;
    const struct sds_tally *t = &calls.areas.tally, *u = &theirs.tally;
    printf("DIFFERS: archive %u, reference %u; lengths: record %u, work %u, value %u\n", ours, expected, calls.record_len, calls.work_len, calls.value_len);
    print_bytes("record", record, calls.record_len < SDS_RECORD ? SDS_RECORD : calls.record_len);
    print_bytes("guest's work record before", join, sizeof join);
    print_bytes("value, archive", calls.areas.value, SDS_VALUE);
    print_bytes("value, reference", theirs.value, SDS_VALUE);
    printf("tally before %u %u %u, archive %u %u %u, reference %u %u %u\n", tally.seen, tally.finished, tally.dropped, t->seen, t->finished, t->dropped,
           u->seen, u->finished, u->dropped);
    for (size_t i = 0, shown = 0; i < sizeof theirs && shown < 16; i++)
        if (a[i] != b[i])
            shown++, printf("byte %zu of the areas, which begin with record, value, tally and work area at 0, %zu, %zu and %zu: archive %02X, reference %02X\n",
                            i, offsetof(struct collect_areas, value), offsetof(struct collect_areas, tally), offsetof(struct collect_areas, work), a[i], b[i]);
    return 0;
}

static void keep_before(void)
{
    uint32_t guest = calls.areas.record[0] & 127u;
    memcpy(before_bytes, &calls.areas, sizeof before_bytes);
    memcpy(&theirs, before_bytes, sizeof before_bytes);
    tally = calls.areas.tally;
    memset(join, 0, sizeof join);
    if (guest < SDS_GUESTS)
        memcpy(join, calls.areas.work + SDS_WORK_RECORD * guest, sizeof join);
}

/* a buffer of no bytes is none */
static uint8_t *lent(uint8_t *bytes, uint32_t length)
{
    return length ? bytes : 0;
}

static uint32_t by_archive(struct collect_areas *a)
{
    return sds_collect(lent(a->record, calls.record_len), calls.record_len, lent(a->work, calls.work_len), calls.work_len,
                       lent(a->value, calls.value_len), calls.value_len, &a->tally);
}

static uint32_t by_reference(struct collect_areas *a)
{
    struct ref_tally counts = {a->tally.seen, a->tally.finished, a->tally.dropped};
    uint32_t answer = ref_collect(lent(a->record, calls.record_len), calls.record_len, lent(a->work, calls.work_len), calls.work_len,
                                  lent(a->value, calls.value_len), calls.value_len, &counts);
    a->tally = (struct sds_tally){counts.seen, counts.finished, counts.dropped};
    return answer;
}

/* whether the header shows a value that was handed over where it is: in the frame behind its ID, or in its guest's record behind the head */
static int is_shown(uint32_t answer)
{
    const struct collect_areas *a = &calls.areas;
    const struct sds_value *value = (const struct sds_value *)a->value;
    if (answer != SDS_COLLECTED || value->kind == SDS_VALUE_NONE)
        return 1;
    return sds_value_bytes(value, a->record, a->work) == (is_fragment() ? a->work + SDS_WORK_RECORD * address() + 4 : a->record + 4);
}

static int same_call(void)
{
    collects_next(&calls);
    keep_before();
    uint32_t expected = by_reference(&theirs), answer = by_archive(&calls.areas);
    if (answer != expected || memcmp(&calls.areas, &theirs, sizeof theirs) || memcmp(record, theirs.record, sizeof theirs.record) || !is_shown(answer))
        return print_difference(answer, expected);
    count_answer(answer);
    return 1;
}

/* ---- 02: "Mixing guests' frames gives the same result as guest by guest" */

enum { MIXED = 4096 };

/* a frame, and what came of it when frames were mixed; a value begins as the frame's first bytes, so that it is seen whether it was set */
static struct heard {
    uint8_t record[SDS_RECORD], value[SDS_VALUE];
    uint32_t answer;
} heard[MIXED];

/* a work area, which begins as the stream left its own, and a tally */
struct host {
    uint8_t work[SDS_COLLECT_WORK];
    struct sds_tally tally;
};
static struct host mixed, apart;

static uint32_t hear(struct host *host, const uint8_t *frame, uint8_t value[SDS_VALUE])
{
    memcpy(value, frame, SDS_VALUE);
    return sds_collect_frame(frame, host->work, (struct sds_value *)value, &host->tally);
}

static int hears_alike(const struct heard *h)
{
    uint8_t value[SDS_VALUE];
    uint32_t answer = hear(&apart, h->record, value);
    if (answer == h->answer && !memcmp(value, h->value, sizeof value))
        return 1;
    printf("DIFFERS: mixed %u, guest by guest %u\n", h->answer, answer);
    print_bytes("record", h->record, sizeof h->record);
    return 0;
}

static int same_guest_by_guest(void)
{
    memcpy(mixed.work, calls.areas.work, sizeof mixed.work);
    apart = mixed;
    for (struct heard *h = heard; h < heard + MIXED; h++) {
        collects_next(&calls);
        memcpy(h->record, calls.areas.record, sizeof h->record);
        h->answer = hear(&mixed, h->record, h->value);
    }
    for (unsigned guest = 0; guest < 128; guest++)
        for (const struct heard *h = heard; h < heard + MIXED; h++)
            if ((h->record[0] & 127) == guest && !hears_alike(h))
                return 0;
    if (memcmp(&mixed, &apart, sizeof mixed)) {
        printf("DIFFERS: work area or tally, where frames are mixed and where they come guest by guest\n");
        return 0;
    }
    printf("mixed and guest by guest: %d frames, %u values, %u dropped\n", MIXED, apart.tally.finished, apart.tally.dropped);
    return 1;
}

int main(int argc, char **argv)
{
    struct asked asked = asked_for("differ_collect", "CALLS", argc, argv);
    collects_start(&calls, asked.seed, theirs.work);
    for (unsigned long long i = 0; i < asked.count; i++)
        if (!same_call())
            return 1;
    if (!same_guest_by_guest())
        return 1;
    if (!tally_print(tallies, TALLIES)) {
        printf("a kind with 0 above never came up, or one came up that cannot\n");
        return 1;
    }
    printf("differ_collect: %llu calls, no difference\n", asked.count);
    return 0;
}
