#include "tables.h"
#include <string.h>

#define PER_OBJECT (SDS_ATTRIBUTES / SDS_OBJECTS)    /* so that the longest table uses all objects */

struct kind {
    uint8_t access, length;
    uint16_t descriptor;
};

enum { PLAIN = SDS_ACCESS_READ | SDS_ACCESS_WRITE, NETWORK = PLAIN | SDS_ACCESS_NETWORK };

/* a plain word, a Boolean, an integer word and a name of 32 characters */
enum { WORD, BOOLEAN, INTEGER, NAME, KINDS };
static const struct kind kinds[KINDS] = {{PLAIN, 2, 0}, {NETWORK, 1, 0x0100}, {NETWORK, 2, 0x0040}, {NETWORK, 32, 0x073F}};

static const struct kind *kind_at(unsigned place, enum mix mix)
{
    if (mix == ALL_BOOLEAN)
        return &kinds[BOOLEAN];
    if (mix == ALL_PLAIN || (mix == MIXED_BEHIND_0 && place < PER_OBJECT))
        return &kinds[WORD];
    return &kinds[place % KINDS];
}

static void put_descriptor(struct sds_attribute *attribute, uint16_t descriptor)
{
    attribute->descriptor[0] = (uint8_t)descriptor;
    attribute->descriptor[1] = (uint8_t)(descriptor >> 8);
}

static void place_behind(struct table *table)
{
    unsigned end = 0;
    for (unsigned i = 0; i < table->records; i++) {
        struct sds_attribute *attribute = &table->attributes[i];
        attribute->offset[0] = (uint8_t)end;
        attribute->offset[1] = (uint8_t)(end >> 8);
        end += attribute->length;
    }
    table->store = end;
}

void make_table(struct table *table, unsigned records, enum mix mix)
{
    memset(table, 0, sizeof *table);
    table->records = records;
    for (unsigned i = 0; i < records; i++) {
        const struct kind *kind = kind_at(i, mix);
        table->attributes[i] = (struct sds_attribute){
            .object = (uint8_t)(i / PER_OBJECT),
            .id = (uint8_t)(i % PER_OBJECT),
            .access = kind->access,
            .length = kind->length,
        };
        put_descriptor(&table->attributes[i], kind->descriptor);
    }
    place_behind(table);
}

unsigned records_of_0(const struct table *table)
{
    return table->records < PER_OBJECT ? table->records : PER_OBJECT;
}

void set_wanted(struct table *table, unsigned place, uint8_t length, uint8_t access)
{
    struct sds_attribute *attribute = &table->attributes[place];
    attribute->access = access;
    attribute->length = length;
    put_descriptor(attribute, access & SDS_ACCESS_NETWORK ? kinds[BOOLEAN].descriptor : 0);
    place_behind(table);
    table->object = attribute->object;
    table->id = attribute->id;
}
