/* A started decoder and the blocks that it takes. */
#ifndef RELAY_H
#define RELAY_H

#include <burst.h>

#include "command.h"
#include "input.h"

struct relay {
    struct burst_table table;
    size_t count; /* of its words */
    uint64_t words[BURST_DECODER_WORDS(BURST_MOST_SPAN, BURST_MOST_DEPTH)];
    struct input input;
    uint16_t blocks[MOST_BLOCKS]; /* the last that were read */
};

void relay_start(struct relay *relay, const struct options *options);

/* Takes the whole input by batches, and hands on the entries of each before more input is waited for. */
void relay_run(struct relay *relay, void (*deliver)(const uint32_t *entries, size_t length));

/* Where nothing was delivered, says why. */
void relay_end(const struct relay *relay);

#endif
