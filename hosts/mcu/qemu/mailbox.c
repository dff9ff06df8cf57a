/*
 * The mailbox of an emulated board: the bus is the file `frames`, and what the device sends goes to the file `answers`, both as records.
 * Ten bytes FF, which are no frame of CAN, stand for lost ones. At the end of the frames the emulation ends. A record is first taken apart
 * into what a controller's registers hold, so that a port's way is the one tested.
 */
#include "host.h"
#include "mailbox.h"

static int frames, answers;

void mailbox_open(void)
{
    frames = host_open("frames", HOST_READ);
    answers = host_open("answers", HOST_WRITE);
    if (frames < 0 || answers < 0) {
        host_print("the files frames and answers cannot be opened\n");
        host_exit(0);
    }
}

static void by_registers(uint8_t to[SDS_RECORD], const uint8_t from[SDS_RECORD])
{
    uint32_t identifier = sds_can_identifier(from), rtr = sds_can_rtr(from), dlc = sds_can_dlc(from);
    sds_can_record(to, identifier, rtr, dlc, sds_can_data(from));
}

static int is_loss(const uint8_t raw[SDS_RECORD])
{
    uint32_t i = 0;
    while (i < SDS_RECORD && raw[i] == 0xFF)
        i++;
    return i == SDS_RECORD;
}

enum mailbox mailbox_receive(uint8_t record[SDS_RECORD])
{
    uint8_t raw[SDS_RECORD];
    if (host_read(frames, raw, SDS_RECORD) != SDS_RECORD)
        host_exit(1);
    if (is_loss(raw))
        return MAILBOX_LOST;
    by_registers(record, raw);
    return MAILBOX_FRAME;
}

void mailbox_send(const uint8_t record[SDS_RECORD])
{
    uint8_t raw[SDS_RECORD];
    by_registers(raw, record);
    host_write(answers, raw, SDS_RECORD);
}
