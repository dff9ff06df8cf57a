/*
 * player.h: a random stream of calls, for the programs that play one: hash.c and stack.c. Linked with player_sds.c it is the device's, tests/stream/stream.h,
 * and with player_sds_host.c the collector's, tests/stream/collects.h.
 */
#ifndef PLAYER_H
#define PLAYER_H

#include <stdint.h>

#if !defined CALLS || !defined SEED
#error "CALLS and SEED are given on the command line"
#endif

void player_start(uint64_t seed);

/* readies the next call, and makes it */
void player_next(void);
uint32_t player_call(void);

/* A hash of all calls so far, this one's result and the bytes that it may have altered mixed in; all bytes of all buffers at times. */
uint32_t player_hash(uint32_t hash, uint32_t result);

#endif
