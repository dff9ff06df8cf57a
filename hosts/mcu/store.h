/*
 * store.h: for a device that keeps its attributes while it has no current. Both functions are weak and do nothing; a port that has
 * non-volatile memory defines them.
 */
#ifndef STORE_H
#define STORE_H

#include <stdint.h>

/* Once, before the first frame: puts back what was kept. The store is all 0 before. */
void store_open(uint8_t *store, uint32_t length);

/*
 * After each frame that has altered a byte of the store, by whichever kind of Write, and before its answer: a host that sees the answer may cut
 * the current. A Write of the bytes that are there alters nothing: the device compares the store with a copy of it.
 */
void store_changed(const uint8_t *store, uint32_t length);

#endif
