#include <string.h>
#include "mix.h"
#include "short.h"
#include "stream.h"

/* ---- a scene: one device */

/* a descriptor of the component model (001, figure 11), and the bytes that it describes */
static uint32_t any_descriptor(struct stream *s, uint32_t *length)
{
    enum { SIGNED = 0, BOOLEAN = 1, UNSIGNED = 4, EXTENDED_CHARACTER = 5, CHARACTER = 7 };
    uint32_t count = below(s, 32), flags = below(s, 4) << 14, size = below(s, 4);
    switch (below(s, 4)) {
    case 0:
        *length = count + 1;
        return flags | CHARACTER << 8 | size << 5 | count;
    case 1:
        *length = 2 * (count + 1);
        return flags | EXTENDED_CHARACTER << 8 | size << 5 | count;
    case 2:
        size = 1 + below(s, 3);
        *length = 1u << (size - 1);
        return flags | (uint32_t)(one_in(s, 2) ? SIGNED : UNSIGNED) << 8 | size << 5 | count;
    default: /* of undefined size: as many bytes as hold count + 1 points (001, 5.1.2.5) */
        *length = count / 8 + 1;
        return flags | BOOLEAN << 8 | count;
    }
}

/* a single Boolean of one byte, which a short Write sets (02, 2026-01), or what is nearly one: not single, not of one byte or no Boolean */
static uint32_t point_descriptor(struct stream *s, uint32_t *length)
{
    static const struct {
        uint16_t descriptor;
        uint8_t length;
    } points[] = {{0x0100, 1}, {0x0120, 1}, {0x0101, 1}, {0x0121, 1}, {0x0140, 2}, {0x0160, 4}, {0x0020, 1}, {0x0420, 1}, {0x0700, 1}};
    uint32_t flags = below(s, 4) << 14, place = one_in(s, 2) ? below(s, 2) : below(s, sizeof points / sizeof *points);
    *length = points[place].length;
    return flags | points[place].descriptor;
}

static struct sds_attribute *attribute_at(struct stream *s, uint32_t place)
{
    return (struct sds_attribute *)(s->areas.table + SDS_TABLE_RECORD * place);
}

/* what an attribute is: no network data, any network data, or a single Boolean of one byte, or nearly one */
enum nature { PLAIN, NETWORK, POINT };

static enum nature any_nature(struct stream *s, uint32_t object)
{
    if (one_in(s, object ? 16 : 2)) /* the short form is for object 0 */
        return POINT;
    return one_in(s, 2) ? PLAIN : NETWORK;
}

/* one record of a table, at this offset; gives the attribute's length */
static uint32_t put_record(struct stream *s, struct sds_attribute *record, uint32_t object, uint32_t id, uint32_t offset, enum nature nature)
{
    static const uint8_t usual[8] = {1, 2, 4, 6, 7, 8, 32, 255};
    uint32_t length = one_in(s, 2) ? usual[below(s, 8)] : 1 + below(s, 255);
    uint32_t access = one_in(s, 4) ? below(s, 4) : SDS_ACCESS_READ | SDS_ACCESS_WRITE, descriptor = 0;
    if (nature != PLAIN) {
        descriptor = nature == POINT ? point_descriptor(s, &length) : any_descriptor(s, &length);
        access |= SDS_ACCESS_NETWORK;
    }
    *record = (struct sds_attribute){
        .object = (uint8_t)object,
        .id = (uint8_t)id,
        .access = (uint8_t)access,
        .length = (uint8_t)length,
        .offset = {(uint8_t)offset, (uint8_t)(offset >> 8)},
        .descriptor = {(uint8_t)descriptor, (uint8_t)(descriptor >> 8)},
    };
    return length;
}

static uint32_t any_count(struct stream *s)
{
    switch (below(s, 16)) {
    case 0: return 0;
    case 1: return STREAM_RECORDS;
    case 2: return below(s, STREAM_RECORDS);
    default: return 1 + below(s, 12);
    }
}

/* a well-formed table; gives the length of the store that it needs */
static uint32_t put_table(struct stream *s)
{
    uint32_t count = any_count(s), object = one_in(s, 4) ? below(s, 4) : 0, id = below(s, 32), end = 0, i = 0;
    uint32_t front = one_in(s, 2) ? below(s, 6) : 0; /* the first object's records before one that may be network data */
    uint32_t stay = count > SDS_OBJECTS ? 64 : 2;    /* so that many records get a place among the objects */
    for (; i < count && object < SDS_OBJECTS; i++) {
        enum nature nature = i < front ? PLAIN : any_nature(s, object);
        uint32_t length = put_record(s, attribute_at(s, i), object, id, end, nature);
        if (end + length > STREAM_STORE)
            break;
        end += length;
        id += 1 + below(s, 4);
        if ((i >= front && one_in(s, stay)) || id > 255) {
            object += 1 + below(s, 2);
            id = below(s, 32);
        }
    }
    s->device.table_len = SDS_TABLE_RECORD * i;
    return end;
}

/* garbage, in which many a record waits for some fragment */
static void waiting_garbage(struct stream *s)
{
    for (uint32_t object = 0; object < SDS_OBJECTS; object++) {
        uint8_t *record = s->areas.work + SDS_WORK_RECORD * object;
        record[0] = (uint8_t)below(s, 3);
        record[3] = (uint8_t)below(s, 10);
    }
}

static void new_scene(struct stream *s)
{
    static const uint8_t roughnesses[4] = {0, 4, 16, 128};
    fill(s, (uint8_t *)&s->areas, sizeof s->areas);
    memset(s->senders, 0, sizeof s->senders);
    uint32_t end = put_table(s), room = STREAM_STORE - end;
    s->device.store_len = end + (one_in(s, 3) ? below(s, room + 1) : 0);
    s->device.own = below(s, SDS_ADDRESS_MOST + 1);
    s->device.record_len = SDS_RECORD;
    s->device.message_len = SDS_MESSAGE;
    s->device.work_len = SDS_WORK;
    s->device.out_len = SDS_OUT + below(s, STREAM_SLACK);
    if (one_in(s, 3))
        waiting_garbage(s);
    else
        memset(s->areas.work, 0, SDS_WORK);
    s->roughness = roughnesses[below(s, 4)];
    s->left = 16 + below(s, 512);
    s->damaged = 0;
    s->undamaged = s->areas.table[0];
}

/* ---- a frame. What a form leaves unused stays the garbage that it was. */

enum { FLAG = 0x20 }; /* of a fragment */

/* what a frame of either form has */
static void put_start(struct stream *s, uint32_t service, uint32_t dlc)
{
    fill(s, s->areas.record, SDS_RECORD);
    s->areas.record[0] = (uint8_t)s->device.own;
    s->areas.record[1] = (uint8_t)(service << 5 | dlc);
}

static void put_header(struct stream *s, uint32_t service, uint32_t dlc, uint32_t flag, uint32_t object, uint32_t id)
{
    put_start(s, service, dlc);
    s->areas.record[2] = (uint8_t)(flag | object);
    s->areas.record[3] = (uint8_t)id;
}

/* how many records the scene's table has */
static uint32_t records(const struct stream *s)
{
    return s->device.table_len / SDS_TABLE_RECORD;
}

/* an attribute of the table that a request may be for; a table without records has none */
static const struct sds_attribute *any_attribute(struct stream *s)
{
    static const struct sds_attribute nobody = {.object = 3, .id = 10, .access = SDS_ACCESS_READ | SDS_ACCESS_WRITE, .length = 32};
    uint32_t count = records(s);
    return count ? attribute_at(s, below(s, count)) : &nobody;
}

/* the next fragment of the message under way to an object, begun anew where there is none or where it is asked for */
static void put_fragment(struct stream *s, int anew)
{
    const struct sds_attribute *attribute = any_attribute(s);
    struct sender *sender = &s->senders[attribute->object % SDS_OBJECTS];
    if (records(s) && (anew || !sender->busy))
        *sender = (struct sender){(uint16_t)(attribute - attribute_at(s, 0)), 0, 1};
    if (records(s))
        attribute = attribute_at(s, sender->place);
    uint32_t total = attribute->length, rest = total - 4u * sender->next, count = rest < 4 ? rest : 4;
    put_header(s, SDS_SERVICE_WRITE, 4 + count, FLAG, attribute->object, attribute->id);
    s->areas.record[4] = sender->next;
    s->areas.record[5] = (uint8_t)total;
    sender->next++;
    sender->busy = rest > 4;
    if (!sender->busy)
        sender->next = 0;
}

static void put_whole_write(struct stream *s)
{
    const struct sds_attribute *attribute = any_attribute(s);
    for (int tries = 0; attribute->length > 6 && tries < 8; tries++)
        attribute = any_attribute(s);
    uint32_t length = one_in(s, 8) ? below(s, 7) : attribute->length < 6 ? attribute->length : 6;
    put_header(s, SDS_SERVICE_WRITE, 2 + length, 0, attribute->object, attribute->id);
}

/* one of the eight codes of the short form, a Write ON or OFF most times */
static void put_short(struct stream *s)
{
    put_start(s, one_in(s, 2) ? below(s, SHORT_CODES) : one_in(s, 2) ? SDS_SHORT_WRITE_ON : SDS_SHORT_WRITE_OFF, 0);
}

static void put_stranger(struct stream *s)
{
    uint32_t service = below(s, 8), dlc = below(s, 9), flag = one_in(s, 2) ? FLAG : 0, object = below(s, SDS_OBJECTS), id = below(s, 256);
    put_header(s, service, dlc, flag, object, id);
}

static void put_frame(struct stream *s)
{
    static const uint8_t chances[16] = {NEXT_FRAGMENT, NEXT_FRAGMENT, NEXT_FRAGMENT, NEXT_FRAGMENT, NEXT_FRAGMENT, NEXT_FRAGMENT, NEXT_FRAGMENT,
                                        NEXT_FRAGMENT, SHORT_FORM, FIRST_FRAGMENT, WHOLE_WRITE, WHOLE_WRITE, PLAIN_READ, PLAIN_READ, STRANGER, NOISE};
    s->call.frame = chances[below(s, 16)];
    if (s->call.frame == FIRST_FRAGMENT && !one_in(s, 4))
        s->call.frame = NEXT_FRAGMENT;
    switch (s->call.frame) {
    case NEXT_FRAGMENT:
    case FIRST_FRAGMENT:
        put_fragment(s, s->call.frame == FIRST_FRAGMENT);
        break;
    case WHOLE_WRITE:
        put_whole_write(s);
        break;
    case PLAIN_READ: {
        const struct sds_attribute *attribute = any_attribute(s);
        put_header(s, SDS_SERVICE_READ, 2, 0, attribute->object, attribute->id);
        break;
    }
    case SHORT_FORM:
        put_short(s);
        break;
    case STRANGER:
        put_stranger(s);
        break;
    default:
        fill(s, s->areas.record, SDS_RECORD);
        break;
    }
}

/* ---- a message for sds_write: in range and tidy, before it is disturbed */

static void put_message(struct stream *s)
{
    struct sds_message *m = (struct sds_message *)s->areas.message;
    memset(m, 0, sizeof *m);
    m->kind = (uint8_t)below(s, 3);
    m->from_guest = (uint8_t)below(s, 2);
    m->address = (uint8_t)below(s, SDS_ADDRESS_MOST + 1);
    m->service = (uint8_t)below(s, 8);
    if (m->kind == SDS_KIND_SHORT)
        return;
    m->service |= 4; /* one of the long form */
    m->response = (uint8_t)below(s, 4);
    m->object = (uint8_t)below(s, SDS_OBJECTS);
    m->id = (uint8_t)below(s, 256);
    if (m->kind == SDS_KIND_FRAGMENT) {
        fill(s, &m->number, 1);
        fill(s, &m->total, 1);
    }
    m->length = (uint8_t)below(s, m->kind == SDS_KIND_FRAGMENT ? 5 : 7);
    fill(s, m->data, m->length);
}

/* ---- one disturbance */

/* a length other than the right one, up to the slack beyond the most that the buffer is meant for */
static uint32_t other_length(struct stream *s, uint32_t right, uint32_t most)
{
    uint32_t length = one_in(s, 2) ? below(s, most + STREAM_SLACK + 1) : most + below(s, STREAM_SLACK + 1);
    return length == right ? right - 1 : length;
}

static uint32_t other_address(struct stream *s)
{
    switch (below(s, 4)) {
    case 0: return SDS_ADDRESS_MOST + 1 + below(s, 2);
    case 1: return s->device.own + 256;
    case 2: return draw(s);
    default: return below(s, SDS_ADDRESS_MOST + 1);
    }
}

static void disturb_bytes(struct stream *s)
{
    struct areas *a = &s->areas;
    uint32_t place = below(s, 16), bit = 1u << below(s, 8), any = draw(s) >> 13, few = below(s, 9), table_len = s->device.table_len;
    switch (s->call.disturbance) {
    case ONE_BIT: a->record[place % 4] ^= (uint8_t)bit; break;
    case ONE_BYTE: a->record[place % SDS_RECORD] = (uint8_t)any; break;
    case OTHER_DLC: a->record[1] = (uint8_t)((a->record[1] & 0xE0) | place); break;
    case OTHER_NUMBER: a->record[4] = (uint8_t)(a->record[4] + 4 - few); break;
    case OTHER_TOTAL: a->record[5] = (uint8_t)(a->record[5] + 4 - few); break;
    case MESSAGE_BYTE: a->message[place] = (uint8_t)(one_in(s, 2) ? any : few); break;
    case WORK_BYTE: a->work[SDS_WORK_RECORD * (a->record[2] % SDS_OBJECTS) + place % 4] = (uint8_t)few; break;
    case TABLE_BYTE:
        s->damaged = table_len ? below(s, table_len) : 0;
        s->undamaged = a->table[s->damaged];
        a->table[s->damaged] = (uint8_t)(one_in(s, 2) ? any : s->undamaged ^ bit);
        break;
    default: break;
    }
}

static void disturb(struct stream *s)
{
    struct call *c = &s->call;
    c->disturbance = 1 + below(s, DISTURBANCES - 1);
    switch (c->disturbance) {
    case RECORD_LENGTH: c->record_len = other_length(s, SDS_RECORD, SDS_RECORD); break;
    case MESSAGE_LENGTH: c->message_len = other_length(s, SDS_MESSAGE, SDS_MESSAGE); break;
    case TABLE_LENGTH: c->table_len = other_length(s, c->table_len, one_in(s, 2) ? SDS_TABLE_RECORD * STREAM_RECORDS : c->table_len); break;
    case STORE_LENGTH: c->store_len = other_length(s, c->store_len, one_in(s, 2) ? STREAM_STORE : c->store_len); break;
    case WORK_LENGTH: c->work_len = other_length(s, SDS_WORK, SDS_WORK); break;
    case OUT_LENGTH: c->out_len = below(s, SDS_OUT + STREAM_SLACK + 1); break;
    case OWN_ADDRESS: c->own = other_address(s); break;
    default: disturb_bytes(s); break;
    }
}

/* ---- the stream */

void stream_start(struct stream *s, uint64_t seed)
{
    memset(s, 0, sizeof *s);
    chance_start(&s->chance, seed);
}

void stream_next(struct stream *s)
{
    s->areas.table[s->damaged] = s->undamaged;
    if (s->left == 0)
        new_scene(s);
    s->left--;
    s->call = s->device;
    s->call.entry = one_in(s, 8) ? 1 + below(s, ENTRIES - 1) : STEP;
    s->call.disturbance = NONE;
    s->call.descriptor = one_in(s, 16) ? draw(s) : below(s, 65536) & 0xCF7F;
    s->call.refusal = one_in(s, 16) ? draw(s) : below(s, 16);
    if (s->call.entry == WRITE)
        put_message(s);
    else
        put_frame(s);
    if (below(s, 256) < s->roughness || (s->call.entry != STEP && one_in(s, 2)))
        disturb(s);
}

uint32_t stream_call_of(const struct entry_points *points, const struct call *c, struct areas *a)
{
    switch (c->entry) {
    case STEP:
        return points->step(a->record, c->record_len, c->own, a->table, c->table_len, a->store, c->store_len, a->work, c->work_len, a->out, c->out_len);
    case READ: return points->read(a->record, c->record_len, a->message, c->message_len);
    case WRITE: return points->write(a->message, c->message_len, a->record, c->record_len);
    case TABLE_CHECK: return points->table_check(a->table, c->table_len, c->store_len);
    case DESCRIPTOR_SIZE: return points->descriptor_size(c->descriptor);
    default: return points->error_code(c->refusal);
    }
}

uint32_t stream_call(struct stream *s)
{
    static const struct entry_points core = {sds_step, sds_read, sds_write, sds_descriptor_size, sds_table_check, sds_error_code};
    return stream_call_of(&core, &s->call, &s->areas);
}

uint32_t stream_hash(const struct stream *s, uint32_t hash, uint32_t result)
{
    const struct areas *a = &s->areas;
    hash = mix_number(hash, result);
    hash = mix(hash, a->record, sizeof a->record);
    hash = mix(hash, a->message, sizeof a->message);
    hash = mix(hash, a->out, 2 * SDS_RECORD);
    return s->left % 32 ? hash : mix(hash, a, sizeof *a);
}
