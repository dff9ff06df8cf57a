/*
 * The collector under a coverage-guided fuzzer (libFuzzer). Each input is what a host hears:
 *
 *     0      bits 1..0: the length that is wrong (see enum buffer)
 *     1      the wrong length's difference, signed
 *     2      0 where the tally begins with zeros; otherwise its counts begin this less 1 below their largest value
 *     3..6   how each guest's record of the work area begins
 *     7      its last byte, the object
 *     8..    records of frames; a rest is a record of that length
 *
 * Each frame goes to the core and to the reference. Answers and all buffers, of which the tally is one, must be equal afterwards (both.h). At the end, what
 * came up is counted.
 */
#include <string.h>
#include "both.h"
#include "collect.h"
#include "sds_host.h"
#include "tally.h"

enum { FRONT = 8, HEAD = 4 };
enum buffer { RIGHT, RECORD, WORK, VALUE, COUNTS, BUFFERS };
enum { WRONG_LENGTH = 3 };

/* ---- what came up */

enum { BY_ANSWER, BY_COLLECTED, BY_LOST, BY_LARGEST, TALLIES };
enum collected { KEPT, WHOLE, JOINED_ALONE, JOINED };

static struct tally tallies[TALLIES] = {
    [BY_ANSWER] = TALLY("collect, answers", "0", "1", "2", "3", "4", "5", "6"),
    [BY_COLLECTED] = TALLY("collected", "kept", "whole", "joined of one", "joined of more"),
    [BY_LOST] = TALLY("collect, lost to", "6", "a number 0 that is kept", "a number 0 that is the last"),
    [BY_LARGEST] = TALLY("collect, at its largest", "seen", "finished", "dropped"),
};

/* the fuzzer keeps an input that sets another of these, as one that reaches another line */
enum { PLACES = 8 };
static uint8_t found[TALLIES * PLACES] __attribute__((used, section("__libfuzzer_extra_counters")));

static void count(unsigned row, unsigned place)
{
    tallies[row].counts[place]++;
    found[PLACES * row + place] = 1;
}

static int each_came_up(void)
{
    return tally_print(tallies, TALLIES);
}

/* whether the frame's guest, if it has one, has a half-joined message (01, "Work area") */
static int is_filling(void)
{
    const uint8_t *record = lent(CORE, RECORD), *join = lent(CORE, WORK);
    if (lengths[RECORD] != SDS_RECORD || lengths[WORK] != SDS_COLLECT_WORK || (record[0] & 127) >= SDS_GUESTS)
        return 0;
    join += SDS_WORK_RECORD * (record[0] & 127u);
    return join[0] == 1 && join[3] >= 1 && 4 * join[3] < join[2];
}

static enum collected collected_as(const uint8_t *record, const struct sds_value *value)
{
    if (value->kind != SDS_VALUE_IN_WORK)
        return value->kind == SDS_VALUE_IN_RECORD ? WHOLE : KEPT;
    return record[4] ? JOINED : JOINED_ALONE;
}

/* what a call that was not refused, or with 6, did; `filling` is from before it, as are the counts */
static void count_fragment(uint32_t answer, int filling, const struct sds_tally *before)
{
    const uint8_t *record = lent(CORE, RECORD);
    enum collected as = collected_as(record, (const struct sds_value *)lent(CORE, VALUE));
    int lost = filling && (answer == SDS_COLLECT_OUT_OF_ORDER || (as != WHOLE && record[4] == 0));
    if (answer == SDS_COLLECTED)
        count(BY_COLLECTED, as);
    if (lost)
        count(BY_LOST, answer ? 0 : as == KEPT ? 1 : 2);
    if (answer == SDS_COLLECTED && as != KEPT && before->finished == UINT32_MAX)
        count(BY_LARGEST, 1);
    if (lost && before->dropped == UINT32_MAX)
        count(BY_LARGEST, 2);
}

/* ---- the calls */

static void collect_both(void)
{
    const size_t *n = lengths;
    const struct sds_tally before = *(const struct sds_tally *)lent(CORE, COUNTS);
    int filling = is_filling();
    uint32_t ours = sds_collect(lent(CORE, RECORD), n[RECORD], lent(CORE, WORK), n[WORK], lent(CORE, VALUE), n[VALUE],
                                (struct sds_tally *)lent(CORE, COUNTS));
    uint32_t theirs = ref_collect(lent(REFERENCE, RECORD), n[RECORD], lent(REFERENCE, WORK), n[WORK], lent(REFERENCE, VALUE), n[VALUE],
                                  (struct ref_tally *)lent(REFERENCE, COUNTS));
    must_be(ours == theirs, "the answer of sds_collect");
    same_everywhere();
    count(BY_ANSWER, ours);
    if (before.seen == UINT32_MAX)
        count(BY_LARGEST, 0);
    if (ours == SDS_COLLECTED || ours == SDS_COLLECT_OUT_OF_ORDER)
        count_fragment(ours, filling, &before);
}

static size_t length_of(enum buffer buffer, size_t right, const uint8_t *front)
{
    size_t wrong = right + (size_t)(int8_t)front[1];
    return (front[0] & WRONG_LENGTH) == buffer && wrong <= SDS_COLLECT_WORK + INT8_MAX ? wrong : right;
}

static void lend_work(const uint8_t *front)
{
    lend(WORK, length_of(WORK, SDS_COLLECT_WORK, front), front, 0);
    for (enum side side = CORE; side < SIDES; side++)
        for (uint8_t *record = lent(side, WORK), *end = record + lengths[WORK]; record + SDS_WORK_RECORD <= end; record += SDS_WORK_RECORD) {
            memcpy(record, front + 3, HEAD);
            record[SDS_WORK_RECORD - 1] = front[3 + HEAD];
        }
}

static void lend_counts(uint8_t below)
{
    uint32_t start = below ? UINT32_MAX - (below - 1u) : 0;
    const struct sds_tally counts = {start, start, start};
    lend(COUNTS, sizeof counts, (const uint8_t *)&counts, sizeof counts);
}

int LLVMFuzzerInitialize(int *argc, char ***argv)
{
    static const char *const names[BUFFERS] = {0, "record", "work area", "value", "tally"};
    (void)argc, (void)argv;
    both_start(names, BUFFERS, each_came_up);
    return 0;
}

int LLVMFuzzerTestOneInput(const uint8_t *input, size_t size)
{
    if (size < FRONT)
        return 0;
    lend_work(input);
    lend_counts(input[2]);
    for (size_t at = FRONT; at < size; at += SDS_RECORD) {
        size_t rest = size - at, right = rest < SDS_RECORD ? rest : SDS_RECORD;
        lend(RECORD, length_of(RECORD, right, input), input + at, right);
        lend(VALUE, length_of(VALUE, SDS_VALUE, input), input + at, right);
        collect_both();
    }
    return 0;
}
