/*
 * Sweeps sds_step: every number, total and DLC of a fragment, as a Write to an attribute whose length is that total; once where the work record of its object
 * is idle, and once where that record waits for just this number. The numbers below follow from 01's rules and 02, 2026-05, alone; the run has to find them.
 *
 * Totals 1 to 255 (an attribute has no other length), 256 numbers, DLC 4 to 8 (5): 255 * 256 * 5 = 326,400 fragments. The total is the attribute's length, so
 * none is refused with 11.
 *   12: of a total t those numbers n pass that have 4n below t, each with the one DLC that has min(4, t - 4n) data bytes: as many as t / 4, rounded up. So
 *      the totals 1 to 252, in fours, have 4 * (1 + 2 + .. + 63) = 8,064 that pass, and 253 to 255 have 3 * 64 = 192: 8,256 in all. The other
 *      326,400 - 8,256 = 318,144 are refused with 12. The highest number that passes is 63, whose place, 252, is below 253, 254 and 255.
 *   14: to an idle record all that pass 12 but number 0, which each of the 255 totals has: 8,256 - 255 = 8,001. To a record that waits for them none.
 *   served: the rest, 255 and 8,256. No number but these is answered.
 */
#include <stdio.h>
#include <string.h>
#include "sds.h"

enum { IDLE = 0, FILLING = 1, ID = 1, WRITE = SDS_SERVICE_WRITE << 5, FRAGMENTED = 0x20 };

struct counts {
    unsigned numbers[256], highest;    /* by the number of the reply; and the highest fragment number that check 12 let pass */
};

static uint32_t step(uint8_t status, uint8_t number, uint8_t total, uint8_t dlc)
{
    static uint8_t store[255], work[SDS_WORK], out[SDS_OUT];
    const uint8_t table[SDS_TABLE_RECORD] = {0, ID, SDS_ACCESS_READ | SDS_ACCESS_WRITE, total};
    const uint8_t record[SDS_RECORD] = {9, (uint8_t)(WRITE | dlc), FRAGMENTED, ID, number, total};
    const uint8_t head[] = {status, ID, total, number};
    memcpy(work, head, sizeof head);
    return sds_step(record, sizeof record, 9, table, sizeof table, store, sizeof store, work, sizeof work, out, sizeof out);
}

static void sweep(const char *label, uint8_t status)
{
    struct counts c = {0};
    unsigned other = 0;
    for (unsigned total = 1; total < 256; total++)
        for (unsigned number = 0; number < 256; number++)
            for (unsigned dlc = 4; dlc <= 8; dlc++) {
                uint32_t answer = SDS_NUMBER(step(status, (uint8_t)number, (uint8_t)total, (uint8_t)dlc));
                c.numbers[answer]++;
                if (answer != SDS_BAD_FRAGMENT && c.highest < number)
                    c.highest = number;
            }
    for (unsigned n = 0; n < 256; n++)
        other += n == SDS_SERVED || n == SDS_BAD_FRAGMENT || n == SDS_OUT_OF_ORDER ? 0 : c.numbers[n];
    printf("%s: served %u refused 12: %u 14: %u other: %u highest that passes 12: %u\n", label, c.numbers[SDS_SERVED], c.numbers[SDS_BAD_FRAGMENT],
           c.numbers[SDS_OUT_OF_ORDER], other, c.highest);
}

int main(void)
{
    sweep("fragments to an idle record", IDLE);
    sweep("fragments to a record that waits for them", FILLING);
    return 0;
}
