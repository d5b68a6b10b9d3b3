#include "draws.h"

#include <stdlib.h>

#include "output.h"
#include "say.h"

/* The whole load anew, since it is drawn in one call from its first block on. */
static void fill(struct draws *d, size_t length)
{
    uint64_t refused;

    free(d->blocks);
    d->length = length;
    d->blocks = length < SIZE_MAX / sizeof *d->blocks ? malloc((length + 1) * sizeof *d->blocks) : NULL;
    if (d->blocks == NULL) {
        flush();
        give_up(FAILED, NULL, "not enough memory for %zu blocks of the load", length);
    }
    refused = burst_load(&d->table, d->seed, d->blocks, length);
    if (refused != BURST_NOT_REFUSED) {
        give_up(REFUSED, NULL, "seed %u: refused %llu: %s", (unsigned)d->seed, (unsigned long long)refused,
                burst_refusal_text(refused));
    }
}

void draws_start(struct draws *d, struct burst_table table, uint32_t seed, size_t length)
{
    *d = (struct draws){table, seed, NULL, 0};
    fill(d, length);
}

/* By doubling, each block is drawn twice on average. */
void draws_reach(struct draws *d, size_t length)
{
    while (d->length < length) {
        fill(d, 2 * d->length);
    }
}
