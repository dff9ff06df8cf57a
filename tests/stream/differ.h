/* differ.h: what the programs that compare share: what they are asked for, and bytes in print. */
#ifndef DIFFER_H
#define DIFFER_H

#include <stdio.h>
#include <stdlib.h>
#include <time.h>

struct asked {
    unsigned long long count, seed;
};

/* what stands behind the program's name: COUNT [SEED], where no seed is the time. It is printed, so that the run can be repeated. */
static inline struct asked asked_for(const char *program, const char *count, int argc, char **argv)
{
    if (argc < 2 || argc > 3) {
        fprintf(stderr, "usage: %s %s [SEED]\n", program, count);
        exit(2);
    }
    struct asked asked = {strtoull(argv[1], 0, 10), argc == 3 ? strtoull(argv[2], 0, 10) : (unsigned long long)time(0)};
    printf("%s %llu %llu\n", program, asked.count, asked.seed);
    fflush(stdout);
    return asked;
}

static inline void print_bytes(const char *name, const unsigned char *bytes, size_t length)
{
    printf("%s", name);
    for (size_t i = 0; i < length; i++)
        printf(" %02X", bytes[i]);
    printf("\n");
}

#endif
