/* short.h: the short form, and counts of what came up of it (02, 2026-01) in a test that plays frames into devices. */
#ifndef SHORT_H
#define SHORT_H

#include "sds.h"

/* 000, figure 3.4: how many services the short form has (enum sds_short_service), and their names here, in its order */
enum { SHORT_CODES = 8 };
#define SHORT_CODE_NAMES "COS OFF", "COS ON", "COS OFF ACK", "COS ON ACK", "Write OFF", "Write ON", "Write OFF ACK", "Write ON ACK"

/*
 * What a short Write finds. 02 has it for "the first network record of object 0", "if that record is a single Boolean (N = 1, one byte) and may be
 * written": here that is a point. There are as many as a descriptor's free bits (I/O, Next, and size byte in place of undefined) let there be.
 */
enum short_find { POINTS = 8, NO_OBJECT = POINTS, NO_NETWORK_DATA, NO_BOOLEAN, NOT_SINGLE, TWO_BYTES, FOUR_BYTES, NOT_WRITABLE, NOT_LOOKED_FOR };

/*
 * Counts a frame, of whichever form, that was given to this device and got this reply. Gives what it found; a frame that is no short Write, or that is
 * refused before check 5, did not look for a point.
 */
enum short_find short_count(const struct sds_device *device, const uint8_t *frame, uint32_t reply);

/* prints the counts; gives whether each kind came up */
int short_came_up(void);

#endif
