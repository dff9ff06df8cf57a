#include <string.h>
#include "collects.h"

enum { FLAG_BIT = 0x20, RTR_BIT = 0x10, FROM_GUEST = 0x80, FRAGMENT_BYTES = 4 };

/* places in a record of the work area */
enum { JOIN_STATUS, JOIN_ID, JOIN_TOTAL, JOIN_NEXT, JOIN_DATA, JOIN_OBJECT = SDS_WORK_RECORD - 1 };

static void set_work(struct collects *c, uint32_t place, uint32_t byte)
{
    c->areas.work[place] = c->twin[place] = (uint8_t)byte;
}

/* ---- a scene: some guests, and what their records of the work area hold */

static uint32_t any_guest(struct collects *c)
{
    if (one_in(c, 4))
        return one_in(c, 2) ? 0 : SDS_ADDRESS_MOST;
    return below(c, SDS_GUESTS);
}

static uint32_t any_total(struct collects *c)
{
    switch (below(c, 16)) {
    case 0: return 1 + below(c, 255);
    case 1: return 253 + below(c, 3);
    case 2:
    case 3:
    case 4: return 1 + below(c, 4);
    case 5:
    case 6: return 17 + below(c, 48);
    default: return 5 + below(c, 12);
    }
}

/* another message of the same guest, or the same message once more */
static void begin_message(struct collects *c, struct answer *a, int same)
{
    a->next = a->early = 0;
    if (same)
        return;
    a->object = (uint8_t)below(c, SDS_OBJECTS);
    a->id = (uint8_t)(one_in(c, 2) ? 0x38 : below(c, 256)); /* 56, a tag */
    a->total = (uint8_t)any_total(c);
}

/* the number of a message's last fragment */
static uint32_t last_of(const struct answer *a)
{
    return (a->total - 1u) / FRAGMENT_BYTES;
}

/* a record of any bytes, in which the status, the number and the total are such that many records are nearly filling */
static void put_garbage(struct collects *c, uint32_t place)
{
    static const uint8_t statuses[8] = {0, 1, 1, 1, 1, 2, 3, 255}, numbers[8] = {0, 1, 2, 3, 63, 64, 65, 255};
    for (uint32_t i = 0; i < SDS_WORK_RECORD; i++)
        set_work(c, place + i, draw(c) >> 13);
    set_work(c, place + JOIN_STATUS, statuses[below(c, sizeof statuses)]);
    set_work(c, place + JOIN_NEXT, one_in(c, 2) ? numbers[below(c, sizeof numbers)] : below(c, 64));
    if (one_in(c, 2))
        set_work(c, place + JOIN_TOTAL, any_total(c));
}

/* garbage, at times such that the guest's message goes on from it, but for its status at times; the message begins at whichever fragment */
static void put_record(struct collects *c, struct answer *a, uint32_t place)
{
    a->next = (uint8_t)below(c, last_of(a) + 1);
    put_garbage(c, place);
    if (one_in(c, 2))
        return;
    if (!one_in(c, 4))
        set_work(c, place + JOIN_STATUS, 1);
    set_work(c, place + JOIN_ID, a->id);
    set_work(c, place + JOIN_TOTAL, a->total);
    set_work(c, place + JOIN_NEXT, a->next);
    set_work(c, place + JOIN_OBJECT, a->object);
}

/* a count that begins anew, somewhere, or where few are left up to its largest value */
static uint32_t any_count(struct collects *c)
{
    switch (below(c, 4)) {
    case 0: return draw(c);
    case 1: return UINT32_MAX - below(c, 4);
    default: return 0;
    }
}

static void set_counter(struct collects *c)
{
    uint32_t *const counters[] = {&c->areas.tally.seen, &c->areas.tally.finished, &c->areas.tally.dropped};
    uint32_t which = below(c, 3);
    *counters[which] = any_count(c);
}

static void new_scene(struct collects *c)
{
    static const uint8_t roughnesses[8] = {0, 0, 0, 0, 16, 32, 64, 128};
    c->answering = 1 + below(c, COLLECTS_ANSWERS);
    for (uint32_t i = 0; i < c->answering; i++) {
        struct answer *a = &c->answers[i];
        uint32_t guest = any_guest(c);
        a->guest = i && one_in(c, 8) ? a[-1].guest : (uint8_t)guest; /* two messages of one guest disturb each other */
        begin_message(c, a, 0);
        if (one_in(c, 2))
            put_record(c, a, SDS_WORK_RECORD * a->guest);
    }
    c->roughness = roughnesses[below(c, sizeof roughnesses)];
    c->left = 16 + below(c, 512);
    set_counter(c);
}

/* ---- a frame. What a form leaves unused stays the garbage that it was. */

static struct answer *any_answer(struct collects *c)
{
    return &c->answers[below(c, c->answering)];
}

static void put_answer(struct collects *c, const struct answer *a, uint32_t flag, uint32_t dlc)
{
    uint8_t *record = c->areas.record;
    fill(c, record, SDS_RECORD);
    record[0] = FROM_GUEST | a->guest;
    record[1] = (uint8_t)(SDS_SERVICE_READ << 5 | dlc);
    record[2] = (uint8_t)(SDS_SUCCESSFUL << 6 | flag | a->object);
    record[3] = a->id;
}

/* fragment `number` of a message, which has as many */
static void put_fragment(struct collects *c, const struct answer *a, uint32_t number)
{
    uint32_t rest = a->total - FRAGMENT_BYTES * number;
    put_answer(c, a, FLAG_BIT, 4 + (rest < FRAGMENT_BYTES ? rest : FRAGMENT_BYTES));
    c->areas.record[4] = (uint8_t)number;
    c->areas.record[5] = a->total;
}

static void put_whole(struct collects *c, const struct answer *a)
{
    uint32_t length = below(c, 7);
    put_answer(c, a, 0, 2 + length);
    if (one_in(c, 2))
        c->areas.record[3] = (uint8_t)below(c, 256);
}

/* moves a message on; behind its last fragment another begins */
static void move_on(struct collects *c, struct answer *a)
{
    uint32_t sent = 1 + a->early;
    a->early = 0;
    if (a->next + sent > last_of(a))
        begin_message(c, a, one_in(c, 4));
    else
        a->next = (uint8_t)(a->next + sent);
}

static int is_harmed(const struct collects *c, enum harm harm)
{
    return (c->harms > 0 && c->harm[0] == harm) || (c->harms > 1 && c->harm[1] == harm);
}

/* the next fragment, or what the harm makes of its turn; what is harmed otherwise is sent once more at times */
static void put_next(struct collects *c, struct answer *a)
{
    uint32_t again = c->harms && one_in(c, 2);
    if (is_harmed(c, LOST) && a->next < last_of(a) && !a->early) {
        a->next++;
        again = 0;
    }
    if (is_harmed(c, TOO_EARLY) && a->next < last_of(a) && !a->early) {
        put_fragment(c, a, a->next + 1u);
        a->early = 1;
        return;
    }
    put_fragment(c, a, a->next);
    if (!again)
        move_on(c, a);
}

/* an answer, whole or the next fragment, but from no guest, of another service, no success or of the short form */
static void put_heard(struct collects *c, const struct answer *a)
{
    uint8_t *record = c->areas.record;
    uint32_t service = below(c, 8), short_service = below(c, 8), response = below(c, 3);
    if (one_in(c, 2))
        put_whole(c, a);
    else
        put_fragment(c, a, a->next);
    switch (below(c, 8)) {
    case 0: record[0] = a->guest; break;
    case 1: record[1] = (uint8_t)((record[1] & 15) | service << 5); break;
    case 2: record[1] = (uint8_t)(short_service << 5); break;
    case 3: record[1] = SDS_SHORT_WRITE_ON << 5; break; /* whose number is that of Read */
    default: record[2] = (uint8_t)((record[2] & 63) | (response + (response > 0)) << 6); break;
    }
}

/* a fragment of a message of 0 bytes; or one behind a message's last, as it may come, without data, from a guest whose total is a multiple of four */
static void put_beside(struct collects *c, const struct answer *a)
{
    uint32_t length = one_in(c, 2) ? 0 : below(c, 5), number = one_in(c, 2) ? below(c, 3) : a->next, behind = one_in(c, 2);
    put_answer(c, a, FLAG_BIT, 4 + length);
    c->areas.record[4] = (uint8_t)(behind ? last_of(a) + 1 : number);
    c->areas.record[5] = behind ? a->total : 0;
}

static void put_frame(struct collects *c)
{
    static const uint8_t chances[16] = {BEGUN_ANEW, WHOLE_ANSWER, WHOLE_ANSWER, WHOLE_ANSWER, HEARD, HEARD, NOISE};
    struct answer *a = any_answer(c);
    c->sent = chances[below(c, sizeof chances)];
    if (c->sent == BEGUN_ANEW && c->roughness == 0) /* so that the longest messages come to their end */
        c->sent = NEXT_FRAGMENT;
    if (c->sent == NOISE && one_in(c, 2))
        c->sent = BESIDE;
    if (is_harmed(c, REPEATED))
        return;
    switch (c->sent) {
    case WHOLE_ANSWER: put_whole(c, a); break;
    case HEARD: put_heard(c, a); break;
    case BESIDE: put_beside(c, a); break;
    case NOISE: fill(c, c->areas.record, SDS_RECORD); break;
    case BEGUN_ANEW: begin_message(c, a, one_in(c, 3)); /* fall through */
    default: put_next(c, a); break;
    }
}

/* ---- harm to what a frame is and what a call lends */

/* a number or a total near the right one, at a limit, or any */
static uint32_t other_byte(struct collects *c, uint32_t right)
{
    static const uint8_t limits[8] = {0, 1, 3, 4, 63, 64, 128, 255};
    uint32_t near = right + 4 - below(c, 9), limit = limits[below(c, sizeof limits)], any = below(c, 256);
    switch (below(c, 8)) {
    case 0: return limit;
    case 1: return any;
    case 2: return right + 64; /* whose place is 256 too far */
    case 3: return right + 1;
    default: return near;
    }
}

static void harm_header(struct collects *c, enum harm harm)
{
    uint8_t *record = c->areas.record;
    uint32_t any = below(c, 256), few = below(c, 16), guest = c->answers[below(c, c->answering)].guest;
    switch (harm) {
    case DLC: record[1] = (uint8_t)((record[1] & 0xF0) | few); break;
    case RTR: record[1] |= RTR_BIT; break;
    case SERVICE: record[1] = (uint8_t)((record[1] & 0x1F) | (any & 0xE0)); break;
    case RESPONSE: record[2] = (uint8_t)((record[2] & 0x3F) | (any & 0xC0)); break;
    case DIRECTION: record[0] ^= FROM_GUEST; break;
    case NO_ADDRESS: record[0] = (uint8_t)(FROM_GUEST | (SDS_ADDRESS_MOST + 1 + few % 2)); break;
    case OTHER_GUEST: record[0] = (uint8_t)(FROM_GUEST | guest); break;
    case ONE_BIT: record[any % 6] ^= (uint8_t)(1u << few % 8); break;
    default: record[few % SDS_RECORD] = (uint8_t)any; break;
    }
}

static void harm_message(struct collects *c, enum harm harm)
{
    uint8_t *record = c->areas.record;
    uint32_t number = other_byte(c, record[4]), total = other_byte(c, record[5]), bit = 1u << below(c, 5);
    switch (harm) {
    case FLAG: record[2] ^= FLAG_BIT; break;
    case OBJECT: record[2] ^= (uint8_t)bit; break;
    case ID: record[3] ^= (uint8_t)(one_in(c, 2) ? bit : 0x80); break;
    case TOTAL: record[5] = (uint8_t)total; break;
    case NUMBER: record[4] = (uint8_t)number; break;
    default: break;
    }
}

/* a length other than the right one: beside it, right in its lowest byte alone, or up to `few` */
static uint32_t other_length(struct collects *c, uint32_t right, uint32_t few)
{
    uint32_t any = below(c, few + 1);
    switch (below(c, 8)) {
    case 0: return right + COLLECTS_WRAP;
    case 1: return right >= COLLECTS_WRAP ? right - COLLECTS_WRAP : right - 1;
    case 2:
    case 3: return right - 1;
    case 4:
    case 5: return right + 1;
    default: return any == right || one_in(c, 4) ? 0 : any;
    }
}

/* mostly of what is compared, in the record of the frame's guest */
static void harm_work(struct collects *c)
{
    static const uint16_t places[8] = {JOIN_STATUS, JOIN_STATUS, JOIN_ID, JOIN_TOTAL, JOIN_NEXT, JOIN_NEXT, JOIN_OBJECT, JOIN_DATA};
    uint32_t guest = (c->areas.record[0] & 127u) % SDS_GUESTS, place = SDS_WORK_RECORD * guest + places[below(c, 8)];
    uint32_t few = below(c, 4), any = below(c, 256), near = c->areas.work[place] + 2 - few;
    set_work(c, place, one_in(c, 4) ? any : one_in(c, 2) ? few : near);
}

static void do_harm(struct collects *c, enum harm harm)
{
    switch (harm) {
    case NO_HARM:
    case LOST:
    case REPEATED:
    case TOO_EARLY: break; /* done where the frame was put */
    case RECORD_LENGTH: c->record_len = other_length(c, SDS_RECORD, COLLECTS_FEW_BYTES); break;
    case WORK_LENGTH: c->work_len = other_length(c, SDS_COLLECT_WORK, SDS_WORK); break; /* SDS_WORK is a device's */
    case VALUE_LENGTH: c->value_len = other_length(c, SDS_VALUE, COLLECTS_FEW_BYTES); break;
    case WORK_BYTE: harm_work(c); break;
    case COUNTER: set_counter(c); break;
    default:
        if (harm <= NUMBER)
            harm_message(c, harm);
        else
            harm_header(c, harm);
        break;
    }
}

/* ---- the stream */

void collects_start(struct collects *c, uint64_t seed, uint8_t *twin)
{
    memset(c, 0, sizeof *c);
    chance_start(&c->chance, seed);
    fill(c, c->areas.record, sizeof c->areas.record);
    fill(c, c->areas.value, sizeof c->areas.value);
    fill(c, c->areas.behind_tally, sizeof c->areas.behind_tally);
    fill(c, c->areas.work + SDS_COLLECT_WORK, sizeof c->areas.work - SDS_COLLECT_WORK);
    c->twin = twin;
    memcpy(twin, c->areas.work, sizeof c->areas.work);
}

void collects_next(struct collects *c)
{
    if (c->left == 0)
        new_scene(c);
    c->left--;
    c->record_len = SDS_RECORD;
    c->work_len = SDS_COLLECT_WORK;
    c->value_len = SDS_VALUE;
    fill(c, c->areas.value, SDS_VALUE + COLLECTS_SLACK);
    c->harms = below(c, 256) < c->roughness ? 1 + one_in(c, 4) : 0;
    for (uint32_t i = 0; i < c->harms; i++)
        c->harm[i] = 1 + below(c, HARMS - 1);
    put_frame(c);
    for (uint32_t i = 0; i < c->harms; i++)
        do_harm(c, c->harm[i]);
}
