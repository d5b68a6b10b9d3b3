/*
 * A station codes water levels, a fade damages a burst of m blocks on the way, and a relay decodes them.
 * Prints what was delivered, and fails if a call is refused or the levels delivered are not those that were sent, all
 * of them.
 */
#include <inttypes.h>
#include <stdio.h>

#include "burst.h"

enum {
    SYMBOLS = 4,                       /* n: three bits of information and the parity */
    DEPTH = 3,                         /* m: a fade of three blocks meets each stream once */
    SPAN = 2 * SYMBOLS,                /* N of a made table */
    DELAY = BURST_DELAY(SPAN, DEPTH),  /* how many steps a block waits in the decoder */
    CODER_WORDS = BURST_CODER_WORDS(DEPTH),
    DECODER_WORDS = BURST_DECODER_WORDS(SPAN, DEPTH),
    LEVELS = 18,
    FADE = 7                           /* the first damaged block */
};

static const uint16_t levels[LEVELS] = {3, 3, 4, 4, 5, 5, 6, 7, 7, 6, 6, 5, 4, 4, 3, 2, 2, 1};
static const uint16_t damage[DEPTH] = {5, 8, 15};

static int refused(const char *call, uint64_t number)
{
    if (number != BURST_NOT_REFUSED) {
        fprintf(stderr, "%s: %s\n", call, burst_refusal_text(number));
    }
    return number != BURST_NOT_REFUSED;
}

int main(void)
{
    struct burst_table table;
    uint64_t coder[CODER_WORDS];
    uint64_t decoder[DECODER_WORDS];
    int delivered = 0;
    int wrong = 0;
    int block;

    if (refused("make", burst_make(SYMBOLS, DEPTH, &table))
        || refused("start coder", burst_start_coder(&table, coder, CODER_WORDS))
        || refused("start decoder", burst_start_decoder(&table, decoder, DECODER_WORDS))) {
        return 2;
    }
    printf("block info mark error\n");
    /* Zeros after the last level push it through the decoder's delay. */
    for (block = 0; block < LEVELS + DELAY; block++) {
        struct burst_coded sent = burst_code(&table, coder, CODER_WORDS, block < LEVELS ? levels[block] : 0);
        struct burst_decoded got;
        uint16_t received = (uint16_t)sent.block;

        if (refused("code", sent.refused)) {
            return 2;
        }
        if (block >= FADE && block < FADE + DEPTH) {
            received = (uint16_t)(received ^ damage[block - FADE]);
        }
        got = burst_decode(&table, decoder, DECODER_WORDS, received);
        if (refused("decode", got.refused)) {
            return 2;
        }
        if (got.mark != BURST_NOTHING_YET) {
            printf("%d %" PRIu64 " %s %" PRIu64 "\n", block - DELAY, got.info, burst_mark_text(got.mark), got.error);
            delivered++;
            wrong += block < DELAY || got.info != levels[block - DELAY];
        }
    }
    if (delivered != LEVELS || wrong != 0) {
        fprintf(stderr, "%d levels sent, %d delivered, %d of them wrong\n", LEVELS, delivered, wrong);
        return 1;
    }
    return 0;
}
