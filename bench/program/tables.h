/* Tables of attributes, well formed, of any number of records. */
#ifndef TABLES_H
#define TABLES_H

#include "sds.h"

struct table {
    struct sds_attribute attributes[SDS_ATTRIBUTES];
    unsigned records;          /* how many of them it has */
    unsigned store;            /* bytes of the store that it asks for */
    uint8_t object, id;        /* of the attribute that a row asks for */
};

/* What the records are: plain ones and ones of network data by turns; the same, but for object 0, whose records are plain; or of one kind. */
enum mix { MIXED, MIXED_BEHIND_0, ALL_PLAIN, ALL_BOOLEAN };

/* as it is lent */
static inline struct sds_table lent_table(const struct table *table)
{
    return (struct sds_table){(const uint8_t *)table->attributes, SDS_TABLE_RECORD * table->records};
}

void make_table(struct table *table, unsigned records, enum mix mix);

/* how many of its records, the first ones, are object 0's */
unsigned records_of_0(const struct table *table);

/*
 * Gives the record at a place another length and access and makes it the one that is asked for; all behind it moves along. With network access
 * it is a Boolean.
 */
void set_wanted(struct table *table, unsigned place, uint8_t length, uint8_t access);

#endif
