/*
 * The C interface, called: the header's layouts, names and sizes; 01's examples T1 to T6, T8 for n = 5, and T9 to T12,
 * and each refusal's number with what it leaves unwritten; T10 to T12 by the batch too, and each way that a batch ends;
 * T1 and T8 written; test loads; a run of the Iwadare-Massey stations; last, that the header's sizes and names are the
 * archive's.
 * Prints one line a call, and one for all of the last. What it prints is held to interface.stdout; that the functions
 * do this on every input is proved.
 */
#include <inttypes.h>
#include <stddef.h>
#include <stdio.h>
#include <string.h>

#include "burst.h"

static const struct burst_table table_z = {2, 4, 1, {10}};
static struct burst_table table;
static uint64_t words[32];
static uint64_t before[32];
static int held;

/* Counts what holds of two numbers, and prints what does not. */
static void hold(int holds, const char *what, uint64_t first, uint64_t second)
{
    if (holds) {
        held++;
    } else {
        printf("does not hold: %s, %" PRIu64 " and %" PRIu64 "\n", what, first, second);
    }
}

static void answers(uint64_t answered, uint64_t named)
{
    hold(answered == named, "an answer and its name", answered, named);
}

static void numbers(const uint64_t *at, int count)
{
    int i;
    for (i = 0; i < count; i++) {
        printf(" %" PRIu64, at[i]);
    }
    printf("\n");
}

/* What stands in the table's numbers before they are written. */
static void scribble(void)
{
    int i;
    table.symbols = 1;
    table.span = 2;
    table.depth = 3;
    for (i = 0; i < 15; i++) {
        table.rows[i] = (uint64_t)(i + 4);
    }
}

static void table_numbers(void)
{
    printf(" %" PRIu64 " %" PRIu64 " %" PRIu64, table.symbols, table.span, table.depth);
    numbers(table.rows, 15);
}

#define AT(structure, field) ((int)offsetof(struct structure, field))

/* That of a station's answer is printed with the stations. */
static void layouts(void)
{
    printf("struct burst_table: %d bytes, symbols at %d, span at %d, depth at %d, rows at %d\n",
           (int)sizeof(struct burst_table), AT(burst_table, symbols), AT(burst_table, span), AT(burst_table, depth),
           AT(burst_table, rows));
    printf("struct burst_reading: %d bytes, refused at %d, place at %d, l at %d, e0 at %d, e1 at %d\n",
           (int)sizeof(struct burst_reading), AT(burst_reading, refused), AT(burst_reading, place),
           AT(burst_reading, l), AT(burst_reading, e0), AT(burst_reading, e1));
    printf("struct burst_written: %d bytes, refused at %d, length at %d, l at %d, e0 at %d, e1 at %d\n",
           (int)sizeof(struct burst_written), AT(burst_written, refused), AT(burst_written, length),
           AT(burst_written, l), AT(burst_written, e0), AT(burst_written, e1));
    printf("struct burst_coded: %d bytes, refused at %d, block at %d\n", (int)sizeof(struct burst_coded),
           AT(burst_coded, refused), AT(burst_coded, block));
    printf("struct burst_decoded: %d bytes, refused at %d, info at %d, mark at %d, error at %d\n",
           (int)sizeof(struct burst_decoded), AT(burst_decoded, refused), AT(burst_decoded, info),
           AT(burst_decoded, mark), AT(burst_decoded, error));
}

/* A refusal's or a mark's name, number and text. */
#define REFUSAL(name) printf("%s = %d: %s\n", #name, (int)(name), burst_refusal_text(name))
#define MARK(name) printf("%s = %d: %s\n", #name, (int)(name), burst_mark_text(name))

static void names(void)
{
    REFUSAL(BURST_NOT_REFUSED);
    REFUSAL(BURST_REFUSED_KIND_DUE);
    REFUSAL(BURST_REFUSED_KIND);
    REFUSAL(BURST_REFUSED_BODY_CUT);
    REFUSAL(BURST_REFUSED_SIZES_PLACE);
    REFUSAL(BURST_REFUSED_SIZES_RANGE);
    REFUSAL(BURST_REFUSED_ROW_NUMBER);
    REFUSAL(BURST_REFUSED_ROW_RANGE);
    REFUSAL(BURST_REFUSED_ROW_MISSING);
    REFUSAL(BURST_REFUSED_BYTES_AFTER_END);
    REFUSAL(BURST_REFUSED_UNSUITABLE);
    REFUSAL(BURST_REFUSED_MAKE_RANGE);
    REFUSAL(BURST_REFUSED_TABLE);
    REFUSAL(BURST_REFUSED_MEMORY_LENGTH);
    REFUSAL(BURST_REFUSED_MEMORY);
    REFUSAL(BURST_REFUSED_BLOCK);
    REFUSAL(BURST_REFUSED_ROOM);
    REFUSAL(BURST_REFUSED_SEED);
    printf("refusals 18, 2^32 and 2^64 - 1: %s, %s, %s\n", burst_refusal_text(18),
           burst_refusal_text((uint64_t)1 << 32), burst_refusal_text(UINT64_MAX));
    MARK(BURST_NOTHING_YET);
    MARK(BURST_CLEAN);
    MARK(BURST_HELD);
    MARK(BURST_CORRECTED);
    MARK(BURST_DOUBTFUL);
    MARK(BURST_PARITY);
    printf("marks 6, 2^32 and 2^64 - 1: %s, %s, %s\n", burst_mark_text(6), burst_mark_text((uint64_t)1 << 32),
           burst_mark_text(UINT64_MAX));
}

/* Of expressions too, since an argument of a macro may be one. */
static void sizes(void)
{
    printf("coder's words: %d of depth 1, %d of 2 | 1, %d of 64\n", BURST_CODER_WORDS(1), BURST_CODER_WORDS(2 | 1),
           BURST_CODER_WORDS(64));
    printf("decoder's words: %d of span 2 and depth 1, %d of 5 | 2 and 2 | 1, %d of 64 and 64\n",
           BURST_DECODER_WORDS(2, 1), BURST_DECODER_WORDS(5 | 2, 2 | 1), BURST_DECODER_WORDS(64, 64));
    printf("delay: %d of span 2 and depth 1, %d of 5 | 2 and 2 | 1, %d of 64 and 64\n", BURST_DELAY(2, 1),
           BURST_DELAY(5 | 2, 2 | 1), BURST_DELAY(64, 64));
    printf("table's bytes: %d of 2 symbols, %d of 4 | 1, %d of 16\n", BURST_TABLE_BYTES(2), BURST_TABLE_BYTES(4 | 1),
           BURST_TABLE_BYTES(16));
    printf("a station's words and delay: %d, %d, %d\n", BURST_IWADARE_CODER_WORDS, BURST_IWADARE_DECODER_WORDS,
           BURST_IWADARE_DELAY);
}

static void reading(const char *what, const uint8_t *bytes, size_t length, uint64_t named)
{
    struct burst_reading r;
    scribble();
    r = burst_read(bytes, length, &table);
    printf("read %s: %" PRIu64 " place %" PRIu64 " triple %" PRIu64 " %" PRIu64 " %" PRIu64 "; table", what, r.refused,
           r.place, r.l, r.e0, r.e1);
    table_numbers();
    answers(r.refused, named);
}

/* What several triples show unsuitable is refused with the first: T9, and the row 1. */
static void unsuitable(void)
{
    static const uint64_t rows[] = {976, 904, 772, 514};
    static const uint8_t row_one[] = {1, 2, 4, 1, 2, 1, 1, 0, 0, 0, 0, 0, 0, 0, 0};
    uint8_t bytes[4 + 4 * 10 + 1] = {1, 5, 10, 1};
    int j;
    for (j = 0; j < 4; j++) {
        bytes[4 + 10 * j] = 2;
        bytes[5 + 10 * j] = (uint8_t)(j + 1);
        bytes[6 + 10 * j] = (uint8_t)(rows[j] & 255);
        bytes[7 + 10 * j] = (uint8_t)(rows[j] >> 8);
    }
    reading("T9, unsuitable", bytes, sizeof bytes, BURST_REFUSED_UNSUITABLE);
    reading("row 1, unsuitable", row_one, sizeof row_one, BURST_REFUSED_UNSUITABLE);
}

/* The bytes are two more than the room, and are printed all, those that were not written as a dash. */
static void writing(const char *what, size_t room)
{
    uint8_t bytes[64];
    struct burst_written w;
    size_t i;
    memset(bytes, 0xff, sizeof bytes);
    w = burst_write(&table, bytes, room);
    printf("write %s, room %d: %" PRIu64 " length %" PRIu64 " triple %" PRIu64 " %" PRIu64 " %" PRIu64 "; bytes", what,
           (int)room, w.refused, w.length, w.l, w.e0, w.e1);
    for (i = 0; i < room + 2; i++) {
        if (bytes[i] == 0xff) {
            printf(" -");
        } else {
            printf(" %d", bytes[i]);
        }
    }
    printf("\n");
}

/* With the table Z: the order of 12, 10 and 16, too. */
static void writings(void)
{
    writing("Z", 15);
    writing("Z", 17);
    writing("Z", 14);
    writing("Z", 0);
    table.rows[1] = UINT64_MAX; /* row 2, which a table of two symbols has not */
    writing("Z and a row more", 15);
    table.rows[0] = 2;
    writing("T6, unsuitable", 15);
    writing("T6, unsuitable", 0);
    table.rows[0] = 16;
    writing("a row of five bits", 15);
    writing("a row of five bits", 0);
    table.symbols = UINT64_MAX;
    writing("no such symbols", 15);
    burst_make(5, 2, &table);
    writing("T8", 46);
    table = table_z;
}

static void make(uint64_t n, uint64_t m)
{
    uint64_t refused;
    scribble();
    refused = burst_make(n, m, &table);
    printf("make %" PRIu64 " %" PRIu64 ": %" PRIu64 "; table", n, m, refused);
    table_numbers();
}

static void start_coder(size_t count)
{
    memset(words, 0xff, sizeof words);
    printf("start coder, %d words: %" PRIu64 "; words", (int)count, burst_start_coder(&table, words, count));
    numbers(words, (int)count);
}

static void start_decoder(size_t count)
{
    memset(words, 0xff, sizeof words);
    printf("start decoder, %d words: %" PRIu64 "; words", (int)count, burst_start_decoder(&table, words, count));
    numbers(words, (int)count);
}

static void code(size_t count, uint16_t info)
{
    struct burst_coded c;
    memcpy(before, words, sizeof words);
    c = burst_code(&table, words, count, info);
    printf("code %d: %" PRIu64 " block %" PRIu64 "; %s", info, c.refused, c.block,
           memcmp(before, words, sizeof words) ? "words" : "unchanged");
    numbers(words, (int)count);
}

static void decode(size_t count, uint16_t received)
{
    struct burst_decoded d;
    memcpy(before, words, sizeof words);
    d = burst_decode(&table, words, count, received);
    printf("decode %d: %" PRIu64 " info %" PRIu64 " mark %" PRIu64 " error %" PRIu64 "; %s", received, d.refused,
           d.info, d.mark, d.error, memcmp(before, words, sizeof words) ? "words" : "unchanged");
    numbers(words, (int)count);
}

typedef size_t batch_call(const struct burst_table *table, uint64_t *words, size_t count, const uint16_t *blocks,
                          size_t length, uint32_t *entries, size_t room);

/* The entries are two more than the room, and are printed all, those that were not written as a dash. */
static void batch(const char *what, batch_call *call, size_t count, const uint16_t *blocks, size_t length, size_t room)
{
    uint32_t entries[10];
    size_t taken;
    size_t i;
    memset(entries, 0xff, sizeof entries);
    memcpy(before, words, sizeof words);
    taken = call(&table, words, count, blocks, length, entries, room);
    printf("%s batch of %d, room %d: %d; entries", what, (int)length, (int)room, (int)taken);
    for (i = 0; i < room + 2; i++) {
        if (entries[i] == UINT32_MAX) {
            printf(" -");
        } else {
            printf(" %" PRIu32, entries[i]);
        }
    }
    printf("; %s", memcmp(before, words, sizeof words) ? "words" : "unchanged");
    numbers(words, (int)count);
}

/* With the table Z. */
static void batches(const uint16_t t10[5], const uint16_t t11[4])
{
    static const uint16_t zeros[8] = {0};
    static const uint16_t large_info[] = {1, 0, 2, 0};
    static const uint16_t large_block[] = {0, 0, 0, 4, 0};

    start_coder(2);
    batch("code T10,", burst_code_batch, 2, t10, 5, 5);
    batch("code", burst_code_batch, 2, t10, 5, 0);
    batch("code", burst_code_batch, 2, t10, 0, 3);
    batch("code", burst_code_batch, 2, t10, 5, 2);
    batch("code", burst_code_batch, 2, t10 + 2, 3, 6);
    batch("code", burst_code_batch, 2, large_info, 4, 4);
    batch("code", burst_code_batch, 2, large_info + 2, 2, 4);
    batch("code", burst_code_batch, 3, t10, 5, 5);
    words[1] = 8;
    batch("code", burst_code_batch, 2, t10, 5, 5);
    start_decoder(7);
    batch("decode T11,", burst_decode_batch, 7, t11, 4, 4);
    start_decoder(7);
    words[1] = 3;
    words[2] = 4;
    batch("decode T12,", burst_decode_batch, 7, zeros, 7, 8);
    words[4] = words[6] = 1;
    batch("decode", burst_decode_batch, 7, large_block, 5, 5);
    batch("decode", burst_decode_batch, 7, large_block + 3, 2, 5);
    batch("decode", burst_decode_batch, 6, zeros, 2, 2);
    words[1] = 4;
    batch("decode", burst_decode_batch, 7, zeros, 2, 2);
}

/* The blocks are two more than the length, and are printed all, those that were not written as a dash. */
static void load(const char *what, uint32_t seed, size_t length)
{
    uint16_t blocks[33];
    size_t i;
    memset(blocks, 0xff, sizeof blocks);
    printf("load of %s, seed %" PRIu32 ", length %d: %" PRIu64 "; blocks", what, seed, (int)length,
           burst_load(&table, seed, blocks, length));
    for (i = 0; i < length + 2; i++) {
        if (blocks[i] == UINT16_MAX) {
            printf(" -");
        } else {
            printf(" %d", blocks[i]);
        }
    }
    printf("\n");
}

/* A first seed and a last one, blocks of 16 bits, a load cut short; then the order of 12 and 17. */
static void loads(void)
{
    burst_make(16, 64, &table);
    load("16 symbols", 1, 6);
    burst_make(2, 3, &table);
    load("2 symbols", 1, 31);
    load("2 symbols", 1, 17);
    load("2 symbols", 1, 1);
    load("2 symbols", 1, 0);
    load("2 symbols", UINT32_MAX, 31);
    load("2 symbols", 0, 3);
    load("2 symbols", 0, 0);
    table.rows[1] = UINT64_MAX; /* row 2, which a table of two symbols has not */
    load("2 symbols and a row more", 1, 17);
    table.rows[0] = 2;
    load("an unsuitable table", 1, 17);
    table.rows[0] = 16;
    load("a row of five bits", 1, 3);
    load("a row of five bits", 0, 3);
    load("a row of five bits", 0, 0);
    table.symbols = UINT64_MAX;
    load("no such symbols", 1, 3);
}

typedef uint64_t start_call(uint64_t *words, size_t count);

/* The words are one more than those lent. */
static void station_start(const char *what, start_call *call, size_t count)
{
    memset(words, 0xff, sizeof words);
    printf("start a station's %s, %d words: %" PRIu64 "; words", what, (int)count, call(words, count));
    numbers(words, (int)count + 1);
}

static uint16_t station_code(size_t count, uint16_t info)
{
    struct burst_coded c;
    memcpy(before, words, sizeof words);
    c = burst_iwadare_code(words, count, info);
    printf("a station codes %d: %" PRIu64 " block %" PRIu64 "; %s", info, c.refused, c.block,
           memcmp(before, words, sizeof words) ? "words" : "unchanged");
    numbers(words, (int)count);
    return (uint16_t)c.block;
}

static void station_decode(size_t count, uint16_t received)
{
    struct burst_iwadare_decoded d;
    memcpy(before, words, sizeof words);
    d = burst_iwadare_decode(words, count, received);
    printf("a station decodes %d: %" PRIu64 " delivered %" PRIu64 " info %" PRIu64 "; %s", received, d.refused,
           d.delivered, d.info, memcmp(before, words, sizeof words) ? "words" : "unchanged");
    numbers(words, (int)count);
}

/* 1, 2, 3 and zeros; the first block is received with both symbols wrong. Then the order of 13, 14 and 15. */
static void stations(void)
{
    static const uint16_t infos[22] = {1, 2, 3};
    uint16_t sent[22];
    int i;
    printf("struct burst_iwadare_decoded: %d bytes, refused at %d, delivered at %d, info at %d\n",
           (int)sizeof(struct burst_iwadare_decoded), (int)offsetof(struct burst_iwadare_decoded, refused),
           (int)offsetof(struct burst_iwadare_decoded, delivered), (int)offsetof(struct burst_iwadare_decoded, info));
    station_start("coder", burst_iwadare_start_coder, 1);
    for (i = 0; i < 22; i++) {
        sent[i] = station_code(1, infos[i]);
    }
    station_code(1, 4);
    words[0] = (uint64_t)1 << 18;
    station_code(1, 0);
    station_code(1, 4);
    station_code(2, 4);
    station_code(0, 4);
    station_start("coder", burst_iwadare_start_coder, 0);
    station_start("coder", burst_iwadare_start_coder, 2);

    station_start("decoder", burst_iwadare_start_decoder, 21);
    for (i = 0; i < 22; i++) {
        station_decode(21, i == 0 ? (uint16_t)(sent[i] ^ 3) : sent[i]);
    }
    station_decode(21, 8);
    words[20] = 4;
    station_decode(21, 0);
    station_decode(21, 8);
    station_decode(20, 8);
    station_decode(22, 8);
    words[20] = 0;
    words[0] = 19;
    station_decode(21, 0);
    station_start("decoder", burst_iwadare_start_decoder, 20);
    station_start("decoder", burst_iwadare_start_decoder, 22);
}

static uint64_t lent[BURST_DECODER_WORDS(64, 64) + 1];

/* Those that reading answers are held where it is called. */
static void named_refusals(void)
{
    static const struct burst_table none = {0, 0, 0, {0}};
    struct burst_table made;
    uint8_t bytes[BURST_TABLE_BYTES(2)];
    uint16_t block;
    const size_t count = BURST_CODER_WORDS(1);

    answers(burst_make(1, 1, &made), BURST_REFUSED_MAKE_RANGE);
    answers(burst_start_coder(&none, lent, count), BURST_REFUSED_TABLE);
    answers(burst_start_coder(&table_z, lent, count - 1), BURST_REFUSED_MEMORY_LENGTH);
    answers(burst_start_coder(&table_z, lent, count), BURST_NOT_REFUSED);
    answers(burst_code(&table_z, lent, count, 2).refused, BURST_REFUSED_BLOCK);
    lent[0] = 1;
    answers(burst_code(&table_z, lent, count, 0).refused, BURST_REFUSED_MEMORY);
    answers(burst_write(&table_z, bytes, sizeof bytes - 1).refused, BURST_REFUSED_ROOM);
    answers(burst_load(&table_z, 0, &block, 1), BURST_REFUSED_SEED);
}

/* The mark of the first delivery, by the single call and by the batch. */
static void mark_of(const uint16_t blocks[4], uint64_t named)
{
    const size_t count = BURST_DECODER_WORDS(4, 1);
    struct burst_decoded got;
    uint32_t entries[4];
    int i;
    burst_start_decoder(&table_z, lent, count);
    for (i = 0; i < BURST_DELAY(4, 1); i++) {
        answers(burst_decode(&table_z, lent, count, blocks[i]).mark, BURST_NOTHING_YET);
    }
    got = burst_decode(&table_z, lent, count, blocks[i]);
    answers(got.mark, named);
    burst_start_decoder(&table_z, lent, count);
    burst_decode_batch(&table_z, lent, count, blocks, 4, entries, 4);
    answers(BURST_ENTRY_MARK(entries[3]), named);
    hold(BURST_ENTRY_INFO(entries[3]) == got.info, "an entry's information", BURST_ENTRY_INFO(entries[3]), got.info);
}

static void named_marks(void)
{
    static const uint16_t clean[4] = {0, 0, 0, 0};
    static const uint16_t sent[4] = {1, 2, 0, 2}; /* the coded blocks of 1 and zeros */
    static const uint16_t later[4] = {0, 0, 0, 2};
    static const uint16_t information[4] = {1, 0, 0, 0};
    static const uint16_t two[4] = {2, 2, 0, 0};
    static const uint16_t parity[4] = {2, 0, 0, 0};
    mark_of(clean, BURST_CLEAN);
    mark_of(sent, BURST_CLEAN);
    mark_of(later, BURST_HELD);
    mark_of(information, BURST_CORRECTED);
    mark_of(two, BURST_DOUBTFUL);
    mark_of(parity, BURST_PARITY);
}

/* What is accepted at the most, and refused above it. */
static void limits(void)
{
    struct burst_table of = {2, BURST_MOST_SPAN, BURST_MOST_DEPTH, {1}};
    struct burst_table made;
    const size_t count = BURST_CODER_WORDS(BURST_MOST_DEPTH);
    answers(burst_make(BURST_MOST_SYMBOLS, BURST_MOST_DEPTH, &made), BURST_NOT_REFUSED);
    answers(burst_make(BURST_MOST_SYMBOLS + 1, 1, &made), BURST_REFUSED_MAKE_RANGE);
    answers(burst_make(2, BURST_MOST_DEPTH + 1, &made), BURST_REFUSED_MAKE_RANGE);
    answers(burst_start_coder(&of, lent, count), BURST_NOT_REFUSED);
    of.span = BURST_MOST_SPAN + 1;
    answers(burst_start_coder(&of, lent, count), BURST_REFUSED_TABLE);
}

typedef uint64_t start_table_call(const struct burst_table *table, uint64_t *words, size_t count);

/* It starts a memory of this many words, and none of one less or one more. */
static void starts(const char *what, start_table_call *start, const struct burst_table *of, size_t count)
{
    hold(start(of, lent, count - 1) == BURST_REFUSED_MEMORY_LENGTH, what, of->span, of->depth);
    hold(start(of, lent, count + 1) == BURST_REFUSED_MEMORY_LENGTH, what, of->span, of->depth);
    hold(start(of, lent, count) == BURST_NOT_REFUSED, what, of->span, of->depth);
}

/* Of a started decoder, taking zeros by the batch. */
static void delays(const struct burst_table *of)
{
    static const uint16_t zeros[BURST_DELAY(64, 64) + 1] = {0};
    static uint32_t entries[BURST_DELAY(64, 64) + 1];
    const size_t delay = BURST_DELAY(of->span, of->depth);
    const size_t count = BURST_DECODER_WORDS(of->span, of->depth);
    size_t taken = burst_decode_batch(of, lent, count, zeros, delay + 1, entries, delay + 1);
    size_t first = 0;
    while (first < taken && BURST_ENTRY_MARK(entries[first]) == BURST_NOTHING_YET) {
        first++;
    }
    hold(taken == delay + 1 && first == delay, "delay of span and depth", of->span, of->depth);
}

/* A start asks nothing of the rows but that they fit, and a step no more: any span can be tried. */
static void memories(void)
{
    struct burst_table of = {2, 0, 0, {1}};
    for (of.span = 2; of.span <= 64; of.span++) {
        for (of.depth = 1; of.depth <= 64; of.depth++) {
            starts("coder's words of span and depth", burst_start_coder, &of, BURST_CODER_WORDS(of.depth));
            starts("decoder's words of span and depth", burst_start_decoder, &of,
                   BURST_DECODER_WORDS(of.span, of.depth));
            delays(&of);
        }
    }
}

/* A 1 and zeros are coded and taken: the 1 is the first delivered, after exactly the delay. */
static void made_delay(const struct burst_table *made)
{
    uint64_t coder[BURST_CODER_WORDS(64)];
    const size_t words_in = BURST_CODER_WORDS(made->depth);
    const size_t words_out = BURST_DECODER_WORDS(made->span, made->depth);
    const uint64_t delay = BURST_DELAY(made->span, made->depth);
    struct burst_decoded got = {0, 0, 0, 0};
    uint64_t taken = 0;
    burst_start_coder(made, coder, words_in);
    burst_start_decoder(made, lent, words_out);
    while (got.mark == BURST_NOTHING_YET && taken <= delay) {
        struct burst_coded sent = burst_code(made, coder, words_in, taken == 0);
        got = burst_decode(made, lent, words_out, (uint16_t)sent.block);
        taken++;
    }
    hold(taken == delay + 1 && got.mark == BURST_CLEAN && got.info == 1, "made table's delay", made->symbols,
         made->depth);
}

static void made_bytes(const struct burst_table *made)
{
    uint8_t bytes[BURST_TABLE_BYTES(16)];
    const size_t length = BURST_TABLE_BYTES(made->symbols);
    struct burst_written written = burst_write(made, bytes, length);
    hold(written.refused == BURST_NOT_REFUSED && written.length == length, "made table's bytes", made->symbols,
         made->depth);
    written = burst_write(made, bytes, length - 1);
    hold(written.refused == BURST_REFUSED_ROOM && written.length == 0, "made table's room", made->symbols,
         made->depth);
}

/* Below bit n, row j of a made table has bit n - j alone; rows past n - 1 are 0. */
static void made_rows(const struct burst_table *made)
{
    const uint64_t n = made->symbols;
    uint64_t j;
    for (j = 1; j <= 15; j++) {
        uint64_t low = made->rows[j - 1] & (((uint64_t)1 << n) - 1);
        hold(j < n ? low == (uint64_t)1 << (n - j) : made->rows[j - 1] == 0, "made table's row, of n and j", n, j);
    }
}

static void made_tables(void)
{
    struct burst_table made;
    uint64_t n;
    uint64_t m;
    for (n = 2; n <= 16; n++) {
        for (m = 1; m <= 64; m++) {
            hold(burst_make(n, m, &made) == BURST_NOT_REFUSED && made.symbols == n && made.span == 2 * n
                     && made.depth == m,
                 "made table's fields", n, m);
            made_rows(&made);
            made_delay(&made);
            made_bytes(&made);
        }
    }
}

static void station_starts(const char *what, start_call *start, size_t count)
{
    hold(start(lent, count - 1) == BURST_REFUSED_MEMORY_LENGTH, what, count, 0);
    hold(start(lent, count + 1) == BURST_REFUSED_MEMORY_LENGTH, what, count, 0);
    hold(start(lent, count) == BURST_NOT_REFUSED, what, count, 0);
}

/* Leaves a started decoder, which then takes zeros. */
static void station_sizes(void)
{
    int i;
    station_starts("a station's coder's words", burst_iwadare_start_coder, BURST_IWADARE_CODER_WORDS);
    station_starts("a station's decoder's words", burst_iwadare_start_decoder, BURST_IWADARE_DECODER_WORDS);
    for (i = 0; i <= BURST_IWADARE_DELAY; i++) {
        struct burst_iwadare_decoded got = burst_iwadare_decode(lent, BURST_IWADARE_DECODER_WORDS, 0);
        hold(got.refused == BURST_NOT_REFUSED && got.delivered == (i == BURST_IWADARE_DELAY), "a station's delay",
             (uint64_t)i, got.delivered);
    }
}

int main(void)
{
    static const uint8_t z[] = {1, 2, 4, 1, 2, 1, 10, 0, 0, 0, 0, 0, 0, 0, 0, 0};
    static const uint8_t end[] = {0};
    static const uint8_t kind[] = {3};
    static const uint8_t large[] = {1, 17, 4, 1};
    static const uint8_t row_two[] = {1, 2, 4, 1, 2, 2, 10, 0, 0, 0, 0, 0, 0, 0};
    static const uint8_t high_row[] = {1, 2, 4, 1, 2, 1, 16, 0, 0, 0, 0, 0, 0, 0};
    static const uint8_t no_row[] = {1, 2, 4, 1, 0};
    static const uint8_t t6[] = {1, 2, 4, 1, 2, 1, 2, 0, 0, 0, 0, 0, 0, 0, 0};
    static const uint16_t t10[] = {1, 1, 0, 0, 0};
    static const uint16_t t11[] = {2, 2, 0, 0};
    uint64_t kept;
    int i;

    layouts();
    names();
    sizes();

    reading("T2, nothing", z, 0, BURST_REFUSED_KIND_DUE);
    reading("T4, a kind alone", z, 1, BURST_REFUSED_BODY_CUT);
    reading("T3, the end alone", end, sizeof end, BURST_REFUSED_SIZES_PLACE);
    reading("an unknown kind", kind, sizeof kind, BURST_REFUSED_KIND);
    reading("T5, 17 symbols", large, sizeof large, BURST_REFUSED_SIZES_RANGE);
    reading("row 2 of two symbols", row_two, sizeof row_two, BURST_REFUSED_ROW_NUMBER);
    reading("a row of five bits", high_row, sizeof high_row, BURST_REFUSED_ROW_RANGE);
    reading("no row", no_row, sizeof no_row, BURST_REFUSED_ROW_MISSING);
    reading("a byte after the end", z, sizeof z, BURST_REFUSED_BYTES_AFTER_END);
    reading("T6, unsuitable", t6, sizeof t6, BURST_REFUSED_UNSUITABLE);
    unsuitable();

    make(1, 1);
    make(2, 65);
    make(UINT64_MAX, 1);
    make(3, (uint64_t)1 << 32 | 1);
    make(5, 2);
    make(16, 64);

    reading("T1, Z", z, sizeof z - 1, BURST_NOT_REFUSED);
    writings();
    start_coder(2);
    for (i = 0; i < 5; i++) {
        code(2, t10[i]);
    }
    code(2, 2);
    code(3, 0);
    words[0] = 1;
    code(2, 0);
    start_coder(1);
    start_decoder(7);
    for (i = 0; i < 4; i++) {
        decode(7, t11[i]);
    }
    decode(7, 4);
    decode(6, 0);
    start_decoder(7);
    words[1] = 3;
    words[2] = 4;
    for (i = 0; i < 7; i++) {
        decode(7, 0);
    }
    words[4] = 2;
    decode(7, 0);
    start_decoder(8);
    batches(t10, t11);

    kept = table.symbols;
    table.symbols = UINT64_MAX;
    start_coder(2);
    start_decoder(7);
    code(2, 0);
    decode(7, 0);
    batch("code", burst_code_batch, 2, t10, 5, 5);
    batch("decode", burst_decode_batch, 7, t11, 4, 4);
    table.symbols = kept;
    table.rows[1] = UINT64_MAX; /* row 2, which a table of two symbols has not */
    start_decoder(7);
    decode(7, 0);
    batch("decode", burst_decode_batch, 7, t11, 4, 4);
    table.rows[0] = 16;
    decode(7, 0);
    batch("decode", burst_decode_batch, 7, t11, 4, 4);
    loads();
    stations();

    named_refusals();
    named_marks();
    limits();
    memories();
    made_tables();
    station_sizes();
    printf("%d sizes and names of the header are the archive's\n", held);
    return 0;
}
