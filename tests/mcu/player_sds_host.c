#include "collects.h"
#include "mix.h"
#include "player.h"

static struct collects collects;
static uint8_t twin[COLLECTS_WORK_MOST + COLLECTS_SLACK]; /* which the stream writes, and nobody reads */

void player_start(uint64_t seed) { collects_start(&collects, seed, twin); }
void player_next(void) { collects_next(&collects); }

uint32_t player_call(void)
{
    struct collect_areas *a = &collects.areas;
    return sds_collect(a->record, collects.record_len, a->work, collects.work_len, a->value, collects.value_len, &a->tally);
}

static uint32_t mix_tally(uint32_t hash, const struct sds_tally *tally)
{
    hash = mix_number(hash, tally->seen);
    hash = mix_number(hash, tally->finished);
    return mix_number(hash, tally->dropped);
}

/* The work area is long: the record of the frame's guest after every call, and all of it, with all else, at the end of a scene. */
uint32_t player_hash(uint32_t hash, uint32_t result)
{
    const struct collect_areas *a = &collects.areas;
    uint32_t guest = a->record[0] & 127u;
    hash = mix_number(hash, result);
    hash = mix_tally(hash, &a->tally);
    hash = mix(hash, a->record, SDS_RECORD + COLLECTS_SLACK);
    hash = mix(hash, a->value, SDS_VALUE + COLLECTS_SLACK);
    if (guest < SDS_GUESTS)
        hash = mix(hash, a->work + SDS_WORK_RECORD * guest, SDS_WORK_RECORD);
    return collects.left ? hash : mix(hash, a, sizeof *a);
}
