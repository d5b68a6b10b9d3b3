/*
 * An Iwadare-Massey station and its relay: codes levels in mm, each as seven blocks of two bits, damages ten bits in a
 * row as a fade does, and decodes them.
 * Prints a line a level, and fails if a call is refused or a level comes back wrong.
 */
#include <stdio.h>

#include "burst.h"

enum {
    LEVELS = 6,
    BLOCKS_A_LEVEL = 7,
    BLOCKS = LEVELS * BLOCKS_A_LEVEL,
    DELAY = BURST_IWADARE_DELAY,
    CODER_WORDS = BURST_IWADARE_CODER_WORDS,
    DECODER_WORDS = BURST_IWADARE_DECODER_WORDS
};

static const uint16_t levels[LEVELS] = {1225, 1232, 1240, 1249, 1258, 1266};

/* Bits 50 to 59 are wrong, counted from 0 as they are sent, three a block: those of blocks 16 to 19. */
static uint16_t damaged(uint64_t block, int place)
{
    uint16_t error = 0;
    int symbol;
    for (symbol = 0; symbol < 3; symbol++) {
        int bit = 3 * place + symbol;
        if (bit >= 50 && bit < 60) {
            error |= (uint16_t)(1 << symbol);
        }
    }
    return (uint16_t)(block ^ error);
}

/* The low bits of a level come first; past the last level come the blocks that deliver it. */
static uint16_t info_at(int place)
{
    if (place >= BLOCKS) {
        return 0;
    }
    return levels[place / BLOCKS_A_LEVEL] >> 2 * (place % BLOCKS_A_LEVEL) & 3;
}

int main(void)
{
    uint64_t coder[CODER_WORDS];
    uint64_t decoder[DECODER_WORDS];
    unsigned level = 0;
    int place;

    if (burst_iwadare_start_coder(coder, CODER_WORDS) != BURST_NOT_REFUSED
        || burst_iwadare_start_decoder(decoder, DECODER_WORDS) != BURST_NOT_REFUSED) {
        return 2;
    }
    for (place = 0; place < BLOCKS + DELAY; place++) {
        struct burst_coded sent = burst_iwadare_code(coder, CODER_WORDS, info_at(place));
        struct burst_iwadare_decoded taken =
            burst_iwadare_decode(decoder, DECODER_WORDS, damaged(sent.block, place));
        int of = place - DELAY;
        if (sent.refused != BURST_NOT_REFUSED || taken.refused != BURST_NOT_REFUSED
            || taken.delivered != (of >= 0)) {
            return 2;
        }
        if (of < 0) {
            continue;
        }
        level |= (unsigned)taken.info << 2 * (of % BLOCKS_A_LEVEL);
        if (of % BLOCKS_A_LEVEL == BLOCKS_A_LEVEL - 1) {
            printf("%u\n", level);
            if (level != levels[of / BLOCKS_A_LEVEL]) {
                fprintf(stderr, "level %d came back wrong\n", of / BLOCKS_A_LEVEL);
                return 1;
            }
            level = 0;
        }
    }
    return 0;
}
