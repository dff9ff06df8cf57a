/*
 * hash.c: CALLS calls of a random stream from SEED, and the hash of all that came of them. The same source runs on x86-64 and on each
 * microcontroller; all must print the same line.
 */
#include "host.h"
#include "player.h"

/* FNV's beginning. Initialised data, so that the copying of start.c is tested too; volatile, or a compiler would keep it out of there. */
static volatile uint32_t hash = 2166136261u;

int main(void)
{
    player_start(SEED);
    for (uint32_t i = 0; i < CALLS; i++) {
        player_next();
        uint32_t result = player_call();
        hash = player_hash(hash, result);
    }
    host_print_number(hash);
    host_exit(1);
}
