/*
 * both.h: what the fuzz targets share. Buffers are lent to the core and to the reference, the same bytes to both. Each ends where an unreadable page begins
 * and stands behind guard bytes, so that a byte read or written outside one shows.
 */
#ifndef BOTH_H
#define BOTH_H

#include <stddef.h>
#include <stdint.h>

enum side { CORE, REFERENCE, SIDES };
enum { BOTH_BUFFERS = 8, BOTH_ROOM = 1 << 16 }; /* most buffers, and most bytes of one with its guard bytes */

extern size_t lengths[BOTH_BUFFERS]; /* of each buffer, as it was lent last */

/* Makes room for a buffer of each name; a name of 0 is a number without a buffer. When the fuzzer ends, `came_up` prints what was counted and gives whether
   each kind came up. */
void both_start(const char *const *names, unsigned count, int (*came_up)(void));

uint8_t *lent(enum side side, unsigned buffer);

/* the first bytes of a buffer, and zeros behind them */
void lend(unsigned buffer, size_t length, const uint8_t *bytes, size_t count);

void must_be(int holds, const char *what);

/* that the two sides' buffers are equal, and all guard bytes are there */
void same_everywhere(void);

#endif
