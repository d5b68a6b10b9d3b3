/*
 * A station codes water levels by the batch, a fade damages a burst of m blocks on the way, and a relay decodes them by
 * the batch, as many as it has room for. One block comes as a number that is no block: a batch ends before it, and the
 * relay hands in 0 for it.
 * Prints each batch and its deliveries, and fails if the levels delivered are not those that were sent, all of them.
 */
#include <inttypes.h>
#include <stdio.h>

#include "burst.h"

enum {
    SYMBOLS = 4,                       /* n: three bits of information and the parity */
    DEPTH = 3,                         /* m: a fade of three blocks meets each stream once */
    SPAN = 2 * SYMBOLS,                /* N of a made table */
    DELAY = BURST_DELAY(SPAN, DEPTH),  /* how many blocks a block waits in the decoder */
    CODER_WORDS = BURST_CODER_WORDS(DEPTH),
    DECODER_WORDS = BURST_DECODER_WORDS(SPAN, DEPTH),
    LEVELS = 34,
    BLOCKS = LEVELS + DELAY,           /* zeros after the last level push it through the delay */
    FADE = 2,                          /* the first damaged block */
    LOST = FADE + DEPTH + DELAY,       /* the block that is none, after the right ones that bursts must have between */
    ROOM = 16                          /* the relay's entries */
};

static const uint16_t infos[BLOCKS] = {3, 3, 4, 4, 5, 5, 6, 7, 7, 6, 6, 5, 4, 4, 3, 2, 2, 1, 1, 1, 0, 0, 1, 1, 2,
                                       2, 3, 4, 4, 5, 5, 4, 3, 3}; /* and zeros */
static const uint16_t damage[DEPTH] = {5, 8, 15};

/* Prints the deliveries of a batch whose first block is block number `first`; returns how many of them are wrong. */
static int print_entries(const uint32_t *entries, size_t taken, size_t first)
{
    int wrong = 0;
    size_t i;
    for (i = 0; i < taken; i++) {
        uint32_t info = BURST_ENTRY_INFO(entries[i]);
        uint32_t mark = BURST_ENTRY_MARK(entries[i]);
        if (mark != BURST_NOTHING_YET) {
            printf("%d %" PRIu32 " %s\n", (int)(first + i) - DELAY, info, burst_mark_text(mark));
            wrong += first + i < DELAY || info != infos[first + i - DELAY];
        } else {
            wrong += first + i >= DELAY;
        }
    }
    return wrong;
}

int main(void)
{
    struct burst_table table;
    uint64_t coder[CODER_WORDS];
    uint64_t decoder[DECODER_WORDS];
    uint32_t sent[BLOCKS];
    uint16_t received[BLOCKS];
    uint32_t entries[ROOM];
    size_t done = 0;
    int wrong = 0;
    int i;

    if (burst_make(SYMBOLS, DEPTH, &table) != BURST_NOT_REFUSED
        || burst_start_coder(&table, coder, CODER_WORDS) != BURST_NOT_REFUSED
        || burst_start_decoder(&table, decoder, DECODER_WORDS) != BURST_NOT_REFUSED
        || burst_code_batch(&table, coder, CODER_WORDS, infos, BLOCKS, sent, BLOCKS) != BLOCKS) {
        fprintf(stderr, "not started, or not all coded\n");
        return 2;
    }
    for (i = 0; i < BLOCKS; i++) {
        received[i] = (uint16_t)sent[i];
    }
    for (i = 0; i < DEPTH; i++) {
        received[FADE + i] = (uint16_t)(received[FADE + i] ^ damage[i]);
    }
    received[LOST] = 0xffff; /* what this receiver says of a block that it did not hear */

    while (done < BLOCKS) {
        size_t taken =
            burst_decode_batch(&table, decoder, DECODER_WORDS, received + done, BLOCKS - done, entries, ROOM);

        printf("blocks %d to %d taken\n", (int)done, (int)(done + taken) - 1);
        wrong += print_entries(entries, taken, done);
        done += taken;
        if (done < BLOCKS && taken < ROOM) {
            /* It ended early, with room left: the single call of the next block says why, and writes nothing. */
            uint64_t number = burst_decode(&table, decoder, DECODER_WORDS, received[done]).refused;

            printf("block %d refused %" PRIu64 "\n", (int)done, number);
            if (number != BURST_REFUSED_BLOCK) {
                return 2; /* of the table or the memory: no other block would help */
            }
            received[done] = 0; /* a wrong block, which the decoder corrects; left out, it would shift all later ones */
        }
    }
    if (wrong != 0) {
        fprintf(stderr, "%d deliveries are wrong\n", wrong);
        return 1;
    }
    return 0;
}
