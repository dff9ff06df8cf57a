/*
 * chance.h: random numbers that are the same on every machine for the same seed. The generator is sfc32, which needs neither 64 bits nor a division.
 * Whoever draws has a struct chance as its member `chance`. Never two draws in one expression: C leaves their order to the compiler.
 */
#ifndef CHANCE_H
#define CHANCE_H

#include <stdint.h>

struct chance {
    uint32_t random[4];
};

#define draw(drawer) chance_draw(&(drawer)->chance)                              /* 32 bits */
#define below(drawer, n) chance_below(&(drawer)->chance, n)                      /* 0 to n-1, for n up to 65,536 */
#define one_in(drawer, n) (chance_below(&(drawer)->chance, n) == 0)
#define fill(drawer, bytes, count) chance_fill(&(drawer)->chance, bytes, count)

static inline uint32_t chance_draw(struct chance *c)
{
    uint32_t *r = c->random, sum = r[0] + r[1] + r[3]++;
    r[0] = r[1] ^ r[1] >> 9;
    r[1] = r[2] + (r[2] << 3);
    r[2] = (r[2] << 21 | r[2] >> 11) + sum;
    return sum;
}

static inline uint32_t chance_below(struct chance *c, uint32_t n)
{
    return (chance_draw(c) >> 16) * n >> 16;
}

static inline void chance_fill(struct chance *c, uint8_t *bytes, uint32_t count)
{
    for (uint32_t i = 0; i < count; i++)
        bytes[i] = (uint8_t)(chance_draw(c) >> 13);
}

static inline void chance_start(struct chance *c, uint64_t seed)
{
    *c = (struct chance){{(uint32_t)seed, (uint32_t)(seed >> 32), 0, 1}};
    for (int i = 0; i < 16; i++)
        chance_draw(c);
}

#endif
