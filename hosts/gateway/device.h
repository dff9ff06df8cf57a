/*
 * device.h: one device, with its table and store from files and all the buffers that the core is lent.
 *
 * What was given and is wrong ends the program with one line on stderr and status 2; a store that cannot be saved ends it with status 1.
 */
#ifndef DEVICE_H
#define DEVICE_H

#include <stdbool.h>
#include <stddef.h>
#include "sds.h"

struct device {
    uint32_t address;
    const char *table_path, *store_path;
    size_t table_length, store_length;
    uint8_t table[SDS_TABLE_MOST + 1], store[SDS_STORE_MOST + 1];    /* a byte more, which shows that a file is too long */
    uint8_t work[SDS_WORK], out[SDS_OUT];

    /* the store on disk: its folder, its name there, that of the file that is to replace it, and what it holds */
    int folder;
    char *name, *new_name;
    uint8_t saved[SDS_STORE_MOST];
};

/* A device is all zero at the start; these three fill it, in this order. */
void device_set_address(struct device *device, const char *text);
void device_load_table(struct device *device, const char *path);
void device_load_store(struct device *device, const char *path, bool make);    /* where the file is missing, `make` makes it as below */

/* In place of a file: a store of zeros, as long as the table needs. */
void device_make_store(struct device *device);

/* sds_device_step; the answers stand in `out`. */
uint32_t device_step(struct device *device, const uint8_t record[SDS_RECORD]);

/* What the steps have altered is on disk afterwards. */
void device_save(struct device *device);

#endif
