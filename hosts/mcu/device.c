/*
 * device.c: a guest on a bare Cortex-M. Copy it for a product, and put your own address, table and length of the store in place of the
 * sample's.
 */
#include "mailbox.h"
#include "start.h"
#include "store.h"

enum { ADDRESS = 9, STORE = 67 };

/* struct sds_attribute of sds.h, byte after byte; the sample's are those of captures/sample.table */
static const uint8_t table[] = {
#include "sample_table.h"
};

static uint8_t store[STORE], work[SDS_WORK], out[SDS_OUT];
static uint8_t kept[STORE];    /* the store as store_changed saw it last */

static const struct sds_device device = {
    .address = ADDRESS,
    .table = {table, sizeof table},
    .store = {store, sizeof store},
    .work = {work, sizeof work},
    .out = {out, sizeof out},
};

__attribute__((weak)) void store_open(uint8_t *bytes, uint32_t length)
{
    (void)bytes, (void)length;
}

__attribute__((weak)) void store_changed(const uint8_t *bytes, uint32_t length)
{
    (void)bytes, (void)length;
}

/* Whether the store is another than the one kept, which is then the same. */
static int keep_store(void)
{
    int altered = 0;
    for (uint32_t i = 0; i < sizeof store; i++) {
        altered |= kept[i] != store[i];
        kept[i] = store[i];
    }
    return altered;
}

static void serve(const uint8_t record[SDS_RECORD])
{
    uint32_t reply = sds_device_step(&device, record, SDS_RECORD);
    if (keep_store())
        store_changed(store, sizeof store);
    for (uint32_t i = 0; i < SDS_COUNT(reply); i++)
        mailbox_send(out + SDS_RECORD * i);
}

/* a cleared work area, as at the start */
static void drop_half_joined(void)
{
    for (uint32_t i = 0; i < sizeof work; i++)
        work[i] = 0;
}

int main(void)
{
    uint8_t record[SDS_RECORD];
    if (sds_table_check(table, sizeof table, sizeof store) != SDS_SERVED)
        halt(); /* rather than be a device that answers nothing */
    store_open(store, sizeof store);
    keep_store();
    mailbox_open();
    for (;;)
        switch (mailbox_receive(record)) {
        case MAILBOX_FRAME: serve(record); break;
        case MAILBOX_LOST: drop_half_joined(); break;
        case MAILBOX_EMPTY: break;
        }
}
