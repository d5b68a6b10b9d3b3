/*
 * A bench test that any office can repeat: fills blocks with the test load of a table and a seed, decodes them by the
 * batch, and counts the marks. The load is the all-zero message as received, with fades that the decoder corrects.
 * Prints how many blocks came wrong and how many entries have each mark, and fails if a delivery is not 0, or doubtful.
 */
#include <stdio.h>

#include "burst.h"

enum {
    SYMBOLS = 4,                       /* n: three bits of information and the parity */
    DEPTH = 3,                         /* m: a fade of the load is of three blocks at most */
    SPAN = 2 * SYMBOLS,                /* N of a made table */
    DECODER_WORDS = BURST_DECODER_WORDS(SPAN, DEPTH),
    MARKS = BURST_PARITY + 1,          /* nothing yet among them */
    BLOCKS = 1000,
    SEED = 1                           /* any but 0 */
};

int main(void)
{
    static uint16_t blocks[BLOCKS];
    static uint32_t entries[BLOCKS];
    struct burst_table table;
    uint64_t decoder[DECODER_WORDS];
    int counts[MARKS] = {0};
    int errors = 0;
    int wrong = 0;
    int i;

    if (burst_make(SYMBOLS, DEPTH, &table) != BURST_NOT_REFUSED
        || burst_load(&table, SEED, blocks, BLOCKS) != BURST_NOT_REFUSED
        || burst_start_decoder(&table, decoder, DECODER_WORDS) != BURST_NOT_REFUSED
        || burst_decode_batch(&table, decoder, DECODER_WORDS, blocks, BLOCKS, entries, BLOCKS) != BLOCKS) {
        fprintf(stderr, "not filled, or not all taken\n");
        return 2;
    }
    for (i = 0; i < BLOCKS; i++) {
        uint32_t info = BURST_ENTRY_INFO(entries[i]);
        uint32_t mark = BURST_ENTRY_MARK(entries[i]);
        errors += blocks[i] != 0;
        counts[mark]++;
        wrong += info != 0 || mark == BURST_DOUBTFUL;
    }
    printf("%d of %d blocks wrong\n", errors, (int)BLOCKS);
    for (i = 0; i < MARKS; i++) {
        printf("%d %s\n", counts[i], burst_mark_text((uint64_t)i));
    }
    if (wrong != 0) {
        fprintf(stderr, "%d deliveries are wrong or doubtful\n", wrong);
        return 1;
    }
    return 0;
}
