/* tally.h: counts of what came up in a test, each with its name. */
#ifndef TALLY_H
#define TALLY_H

#include <stdio.h>

/* a row of counts, with the names of its places; a name of 0 is something that cannot come up */
struct tally {
    const char *title;
    const char *const *names;
    unsigned places;
    unsigned long long *counts;
};

#define TALLY(title, ...) {title, (const char *const[]){__VA_ARGS__}, sizeof((const char *const[]){__VA_ARGS__}) / sizeof(char *), \
                           (unsigned long long[sizeof((const char *const[]){__VA_ARGS__}) / sizeof(char *)]){0}}

/* prints these rows; gives whether each kind came up, and nothing that cannot */
static inline int tally_print(const struct tally *rows, unsigned count)
{
    int all = 1;
    for (const struct tally *row = rows; row < rows + count; row++) {
        printf("%s:", row->title);
        for (unsigned place = 0; place < row->places; place++) {
            const char *name = row->names[place];
            int came_up = row->counts[place] != 0;
            all &= came_up == (name != 0);
            if (name || came_up)
                printf("%s %s %llu", place ? "," : "", name ? name : "WHAT CANNOT COME UP", row->counts[place]);
        }
        printf("\n");
    }
    return all;
}

#endif
