#include "player.h"
#include "stream.h"

static struct stream stream;

void player_start(uint64_t seed) { stream_start(&stream, seed); }
void player_next(void) { stream_next(&stream); }
uint32_t player_call(void) { return stream_call(&stream); }
uint32_t player_hash(uint32_t hash, uint32_t result) { return stream_hash(&stream, hash, result); }
