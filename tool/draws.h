/* The test load of a table and a seed, as far as it is asked for. */
#ifndef DRAWS_H
#define DRAWS_H

#include <burst.h>
#include <stddef.h>

struct draws {
    struct burst_table table;
    uint32_t seed;
    uint16_t *blocks;
    size_t length;
};

/* The first blocks, so many of them. What is refused, the seed 0, ends the program here. */
void draws_start(struct draws *draws, struct burst_table table, uint32_t seed, size_t length);

/* To this length at least. What is there stays, since a shorter load is the beginning of a longer one. */
void draws_reach(struct draws *draws, size_t length);

#endif
