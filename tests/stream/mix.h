/* mix.h: bytes mixed into a hash, FNV-1a, the same on every machine. */
#ifndef MIX_H
#define MIX_H

#include <stdint.h>

static inline uint32_t mix(uint32_t hash, const void *bytes, uint32_t count)
{
    const uint8_t *byte = bytes;
    for (uint32_t i = 0; i < count; i++)
        hash = (hash ^ byte[i]) * 16777619u;
    return hash;
}

/* the same of a number, whatever the order of its bytes in memory */
static inline uint32_t mix_number(uint32_t hash, uint32_t number)
{
    const uint8_t bytes[4] = {(uint8_t)number, (uint8_t)(number >> 8), (uint8_t)(number >> 16), (uint8_t)(number >> 24)};
    return mix(hash, bytes, 4);
}

#endif
