/*
 * calls.c: a mailbox and a store for a device on an emulated board, which list their calls in order, each with its bytes. The bus is the file
 * `frames`, behind the acceptance filter that mailbox.h names for ADDRESS; unused bytes of a record stay as they are there. At the end of the
 * frames the emulation ends.
 */
#include "host.h"
#include "mailbox.h"
#include "store.h"

#ifndef ADDRESS
#error "ADDRESS is given on the command line"
#endif

static int frames;

static void list(const char *call, const uint8_t *bytes, uint32_t count)
{
    static const char digits[] = "0123456789ABCDEF";
    host_print(call);
    for (uint32_t i = 0; i < count; i++) {
        const char text[] = {' ', digits[bytes[i] >> 4], digits[bytes[i] & 15], '\0'};
        host_print(text);
    }
    host_print("\n");
}

/* what was kept: an attribute that no Write reaches, and else zeros */
void store_open(uint8_t *store, uint32_t length)
{
    store[0] = 0xA5;
    list("store opened ", store, length);
}

void store_changed(const uint8_t *store, uint32_t length)
{
    list("store changed", store, length);
}

void mailbox_open(void)
{
    frames = host_open("frames", HOST_READ);
    if (frames < 0) {
        host_print("the file frames cannot be opened\n");
        host_exit(0);
    }
}

enum mailbox mailbox_receive(uint8_t record[SDS_RECORD])
{
    if (host_read(frames, record, SDS_RECORD) != SDS_RECORD)
        host_exit(1);
    if ((sds_can_identifier(record) & 0x7F8) != 8 * ADDRESS)
        return MAILBOX_EMPTY;
    list("received     ", record, SDS_RECORD);
    return MAILBOX_FRAME;
}

void mailbox_send(const uint8_t record[SDS_RECORD])
{
    list("sent         ", record, SDS_RECORD);
}
