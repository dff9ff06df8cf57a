#include "sds_can.h"
#include "short.h"
#include "tally.h"

enum { POINT_OBJECT = 0, BOOLEAN = 1 };

/* what may come with a short Write: around the point that it sets, behind what is none, in object 0's work record, and with the next frame */
enum scenery { OTHERS_IN_FRONT, OFFSET_OVER_255, NOT_READABLE, POINT_BEHIND, FILLING, NEXT_FRAGMENT };

enum { BY_NUMBER, BY_CODE_WITH, BY_CODE_WITHOUT, BY_FIND, BY_SCENERY, TALLIES };

static struct tally tallies[TALLIES] = {
    [BY_NUMBER] = TALLY("short Write", "0", 0, "2", "3", "4", "5"), /* with 1 there may be no frame to look at */
    [BY_CODE_WITH] = TALLY("short form, a point", SHORT_CODE_NAMES),
    [BY_CODE_WITHOUT] = TALLY("short form, no point", SHORT_CODE_NAMES),
    [BY_FIND] = TALLY("short Write finds", "0100", "0120", "4100", "4120", "8100", "8120", "C100", "C120", "no object 0", "no network data", "no Boolean",
                      "N over 1", "two bytes", "four bytes", "no write access"),
    [BY_SCENERY] = TALLY("short Write and", "others in front", "offset over 255", "no read access", "a point behind what is none", "object 0 filling",
                         "then its next fragment"),
};

static void count(unsigned tally, unsigned place)
{
    tallies[tally].counts[place]++;
}

static uint32_t code_of(const uint8_t *frame)
{
    return sds_can_identifier(frame) % SHORT_CODES;
}

static int is_short_write(const uint8_t *frame)
{
    return sds_can_dlc(frame) == 0 && (code_of(frame) == SDS_SHORT_WRITE_OFF || code_of(frame) == SDS_SHORT_WRITE_ON);
}

/* the first network record of object 0 from this one on; the table's end where there is none */
static const struct sds_attribute *network_record(const struct sds_attribute *from, const struct sds_attribute *end)
{
    while (from < end && (from->object != POINT_OBJECT || !(from->access & SDS_ACCESS_NETWORK)))
        from++;
    return from;
}

static enum short_find find_in(const struct sds_attribute *record)
{
    uint32_t flags = record->descriptor[1] >> 6, size_given = record->descriptor[0] >> 5 & 1;
    if (record->descriptor[1] % 16 != BOOLEAN)
        return NO_BOOLEAN;
    if (record->descriptor[0] % 32 != 0)
        return NOT_SINGLE;
    if (record->length > 1)
        return record->length == 2 ? TWO_BYTES : FOUR_BYTES;
    return record->access & SDS_ACCESS_WRITE ? (enum short_find)(2 * flags + size_given) : NOT_WRITABLE;
}

/* what a short Write finds at the network record that it came to */
static enum short_find find_at(const struct sds_attribute *record, const struct sds_attribute *table, const struct sds_attribute *end)
{
    if (record < end)
        return find_in(record);
    return table < end && table->object == POINT_OBJECT ? NO_NETWORK_DATA : NO_OBJECT;
}

/* 01, "Work area": whether object 0's record is filling */
static int is_filling(const struct sds_device *device)
{
    const uint8_t *work = device->work.bytes + SDS_WORK_RECORD * POINT_OBJECT;
    return work[0] == 1 && work[3] >= 1 && 4 * work[3] < work[2];
}

static void count_scenery(const struct sds_device *device, const struct sds_attribute *point, const struct sds_attribute *table)
{
    if (point > table)
        count(BY_SCENERY, OTHERS_IN_FRONT);
    if (point->offset[1])
        count(BY_SCENERY, OFFSET_OVER_255);
    if (!(point->access & SDS_ACCESS_READ))
        count(BY_SCENERY, NOT_READABLE);
    if (is_filling(device))
        count(BY_SCENERY, FILLING);
}

/* whether some network record of object 0 from this one on is a point */
static int has_point(const struct sds_attribute *record, const struct sds_attribute *end)
{
    for (record = network_record(record, end); record < end; record = network_record(record + 1, end))
        if (find_in(record) < POINTS)
            return 1;
    return 0;
}

/* a frame of the short form that came as far as check 5, so the table is well formed */
static enum short_find count_judged(const struct sds_device *device, const uint8_t *frame)
{
    const struct sds_attribute *table = (const struct sds_attribute *)device->table.bytes, *end = table + device->table.length / SDS_TABLE_RECORD;
    const struct sds_attribute *record = network_record(table, end);
    enum short_find find = find_at(record, table, end);
    count(find < POINTS ? BY_CODE_WITH : BY_CODE_WITHOUT, code_of(frame));
    if (!is_short_write(frame))
        return NOT_LOOKED_FOR;
    count(BY_FIND, find);
    if (find < POINTS)
        count_scenery(device, record, table);
    else if (has_point(record, end))
        count(BY_SCENERY, POINT_BEHIND);
    return find;
}

/* whether it is a fragment of object 0 that goes on with a message */
static int goes_on(const uint8_t *frame)
{
    struct sds_message message;
    return sds_message_read(frame, &message) == 0 && message.kind == SDS_KIND_FRAGMENT && message.object == POINT_OBJECT && message.number != 0;
}

/* what comes right behind a short Write to a device whose object 0 was filling */
static void count_next_fragment(const struct sds_device *device, const uint8_t *frame, int served)
{
    static int awaited;
    if (awaited && served && goes_on(frame))
        count(BY_SCENERY, NEXT_FRAGMENT);
    awaited = served && is_short_write(frame) && is_filling(device);
}

enum short_find short_count(const struct sds_device *device, const uint8_t *frame, uint32_t reply)
{
    uint32_t number = SDS_NUMBER(reply);
    if (number == SDS_BAD_LENGTH)
        return NOT_LOOKED_FOR;
    count_next_fragment(device, frame, number == SDS_SERVED);
    if (is_short_write(frame))
        count(BY_NUMBER, number);
    return sds_can_dlc(frame) == 0 && (number == SDS_SERVED || number == SDS_BAD_SERVICE) ? count_judged(device, frame) : NOT_LOOKED_FOR;
}

int short_came_up(void)
{
    return tally_print(tallies, TALLIES);
}
