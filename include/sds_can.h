/*
 * sds_can.h: CAN frames as records of sds.h and back, from and to what a controller's registers or a driver's struct hold: the 11-bit
 * identifier, RTR, the DLC as on the wire (0 to 15) and the data bytes. Frames with 29-bit identifiers have no record.
 */
#ifndef SDS_CAN_H
#define SDS_CAN_H

#include "sds.h"

#define SDS_CAN_DATA 8    /* data bytes of a record; a frame has as many as its DLC says, but none under RTR and never more than these */

static inline uint32_t sds_can_identifier(const uint8_t record[SDS_RECORD])
{
    return (uint32_t)record[0] << 3 | record[1] >> 5;
}

static inline uint32_t sds_can_rtr(const uint8_t record[SDS_RECORD])
{
    return record[1] >> 4 & 1;
}

static inline uint32_t sds_can_dlc(const uint8_t record[SDS_RECORD])
{
    return record[1] & 15;
}

static inline const uint8_t *sds_can_data(const uint8_t record[SDS_RECORD])
{
    return record + 2;
}

/*
 * The record of a frame. RTR is set where `rtr` is not 0. Of `data` only the frame's bytes are read; the rest of the record is cleared. What a
 * device refuses, RTR and a DLC over 8 among it, is passed on for it to refuse.
 */
static inline void sds_can_record(uint8_t record[SDS_RECORD], uint32_t identifier, uint32_t rtr, uint32_t dlc, const uint8_t *data)
{
    uint32_t count = rtr ? 0 : dlc;
    record[0] = (uint8_t)(identifier >> 3);
    record[1] = (uint8_t)((identifier & 7) << 5 | (rtr ? 1u : 0u) << 4 | (dlc & 15));
    for (uint32_t i = 0; i < SDS_CAN_DATA; i++)
        record[2 + i] = i < count ? data[i] : 0;
}

#endif
