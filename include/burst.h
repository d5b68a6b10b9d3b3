/*
 * The relay's burst codec for C99 and C++: tables, a coder and a decoder, by the block and by the batch, and a test
 * load for them. Below them stand coder and decoder of the Iwadare-Massey stations: their code is fixed, so that they
 * have no table, and they have no batch and no load. "The code", "Memory" and "Batches" below are of the codes with a
 * table.
 *
 * Link with libburst, -lburst (make install; pkg-config knows it as burst), which is for x86-64 Linux and needs memcpy,
 * memmove and memset of the C library. Nothing here keeps a state of its own, allocates, or calls back: a caller lends
 * all memory, and a call writes only what its comment says. What the comments say of answers and memory is proved, for
 * every value of every argument, and so is that every call ends; docs/ASSURANCE.md of the source has the statements.
 * That this header fits the library is tested, and so are the two functions at the end that put numbers into words:
 * these are C.
 *
 * Preconditions. A pointer is not null, not even with a length of 0, is aligned for its type, and has behind it as many
 * elements as the number after it says, a length, a count or a room (one table for a table). What a call writes
 * overlaps nothing else that it is handed. Until it returns no other thread writes what it is handed, nor reads what it
 * writes. A block is a uint16_t: C cuts a number above 65,535 to its low 16 bits before the call, so that it is not
 * itself refused. A seed, a uint32_t, is cut to its low 32 bits in the same way, so that 2^32 is the seed 0.
 *
 * The code. A block has n symbols (bits): n - 1 of information, symbol j with weight 2^(j-1), and above them the
 * parity, symbol n. N is the decoding span, m the depth: blocks are dealt in turn to m streams. n is 2 to 16, N is 2 to
 * 64, m is 1 to 64. Row j, 1 to n - 1, is a number below 2^N whose bit k is the coefficient of D^k in generator j; row
 * n is 1 always. In one stream the parity of block t is the exclusive or, over j from 1 to n - 1 and all k, of bit k of
 * row j times symbol j of block t - k; blocks before the start are 0.
 *
 * An error block is below 2^n and has a one for each wrong symbol. Its image is the exclusive or of the rows of its
 * ones. The image shifted by l is the image times 2^l, bits N and above dropped. A table is unsuitable if for some l
 * from 1 to N - 1 the image of some error block e0 that is not 0 is the image of some error block e1, 0 allowed,
 * shifted by l.
 *
 * A table is a struct burst_table: n, its symbols, N, its span, m, its depth, and rows 1 to 15, row j at rows[j - 1].
 * Of a table that is handed in, rows past n - 1 do not matter. Of a table that is given back they are 0. It is a plain
 * value: it may be copied and kept.
 *
 * Memory. A coder's words, BURST_CODER_WORDS(m) of them, are the turn, then a pending word for each stream. A
 * decoder's, BURST_DECODER_WORDS(N, m), are the turn, the fill, then for each stream its pending word, its syndrome
 * word, and N - 1 delayed blocks, the information as received, oldest first. The turn, 0 to m - 1, is the stream of the
 * next block; the fill grows by one a step to m * (N - 1) and stays. Once started, bit k of a pending word is what past
 * blocks of the stream (in a decoder, as received) add to the parity k blocks after its next one. A step writes the
 * turn, a decoder's fill, and the words of the turn's stream, and no others. What is said of several steps is of steps
 * with one table.
 *
 * Batches. A batch is the steps of a list of blocks, one after another, each on the memory as the last left it, with an
 * entry for each. It ends where no block is left, where its room is filled, and before the first block whose step would
 * be refused, of which nothing is written. What is said of steps holds of those of batches, and of both mixed.
 *
 * Refusals. A call that refuses returns the number of the first reason that applies, and 0 means that it did not
 * refuse. A batch returns how many blocks it took instead. If that is its length or its room, it took all that it
 * could. If not, the next block is one that the single call refuses, and that call returns the number.
 *
 *   reading a table, records left to right (place: the offset of the record's first byte)
 *      1  the bytes end where a kind byte is due (place: there, which is their length)
 *      2  the kind is not 0, 1 or 2
 *      3  the body is cut short
 *      4  the sizes are not the first record, or come again
 *      5  n, N or m is out of range
 *      6  the row number is not 1 to n - 1, or was given
 *      7  the row has a one at bit N or above
 *      8  the end comes before every row was given
 *      9  bytes follow the end (place: the first of them)
 *     10  the table is unsuitable; l, e0 and e1 show it, the first that do: the least l, for this l the least e0, and
 *         for these two the least e1; there is no place. If e1 is 0, l is 1, and the rows of the ones of e0 sum to 0
 *   making a table
 *     11  n or m is out of range
 *   starting and stepping, in this order
 *     12  n, N or m of the table is out of range, or one of its rows 1 to n - 1 is 2^N or more
 *     13  the lent memory has not exactly the length that is asked for
 *     14  a step: a word of the lent memory is out of range: the turn is m or more, the fill exceeds m * (N - 1), or
 *         in the turn's stream a pending or syndrome word is 2^(N-1) or more or a delayed block 2^(n-1) or more.
 *         Start such a memory again. A memory that was started, and then written only by steps with one table, is
 *         never refused so
 *     15  a step: the block is 2^(n-1) or more (information) or 2^n or more (received)
 *   writing a table: 12, then 10 (with the same l, e0 and e1), then
 *     16  the lent bytes are fewer than 10n - 5
 *   filling a test load: 12, then
 *     17  the seed is 0
 *   the Iwadare-Massey stations, in this order
 *     13  the lent memory has not exactly the length that is asked for
 *     14  a step: a word of the lent memory is out of range; the ranges are given with these stations below. Start
 *         such a memory again. A memory that was started, and then written only by steps, is never refused so
 *     15  a step: the block is 4 or more (information) or 8 or more (received)
 *
 * A call that refuses writes nothing that it is lent, so a sequence goes on as if the call had not come.
 */
#ifndef BURST_H
#define BURST_H

#include <stddef.h>
#include <stdint.h>

#ifdef __cplusplus
extern "C" {
#endif

#define BURST_VERSION "0.9.0"

/* The most that n, N and m are. */
#define BURST_MOST_SYMBOLS 16
#define BURST_MOST_SPAN 64
#define BURST_MOST_DEPTH 64

/* The words of a coder's and of a decoder's memory; how many blocks a block waits in a decoder, which is also how many
   right ones the promise asks for between two bursts; the bytes of a written table. Constant expressions if the
   arguments are. */
#define BURST_CODER_WORDS(depth) (1 + (depth))
#define BURST_DECODER_WORDS(span, depth) (2 + (depth) * ((span) + 1))
#define BURST_DELAY(span, depth) ((depth) * ((span) - 1))
#define BURST_TABLE_BYTES(symbols) (10 * (symbols) - 5)

/* What an entry of burst_decode_batch has. */
#define BURST_ENTRY_INFO(entry) ((entry) & 0xffff)
#define BURST_ENTRY_MARK(entry) ((entry) >> 16)

/* The words of an Iwadare-Massey station, and its delay. */
#define BURST_IWADARE_CODER_WORDS 1
#define BURST_IWADARE_DECODER_WORDS 21
#define BURST_IWADARE_DELAY 18

struct burst_table {
    uint64_t symbols;                      /* n, 2 to 16 */
    uint64_t span;                         /* N, 2 to 64 */
    uint64_t depth;                        /* m, 1 to 64 */
    uint64_t rows[BURST_MOST_SYMBOLS - 1]; /* row j at rows[j - 1], below 2^N */
};

/* What a decoder found of a block that it delivers. */
enum burst_mark {
    BURST_NOTHING_YET = 0, /* no block is delivered */
    BURST_CLEAN = 1,
    BURST_HELD = 2,
    BURST_CORRECTED = 3,
    BURST_DOUBTFUL = 4,
    BURST_PARITY = 5
};

/* Why a call refused: the list above. */
enum burst_refusal {
    BURST_NOT_REFUSED = 0,
    BURST_REFUSED_KIND_DUE = 1,
    BURST_REFUSED_KIND = 2,
    BURST_REFUSED_BODY_CUT = 3,
    BURST_REFUSED_SIZES_PLACE = 4,
    BURST_REFUSED_SIZES_RANGE = 5,
    BURST_REFUSED_ROW_NUMBER = 6,
    BURST_REFUSED_ROW_RANGE = 7,
    BURST_REFUSED_ROW_MISSING = 8,
    BURST_REFUSED_BYTES_AFTER_END = 9,
    BURST_REFUSED_UNSUITABLE = 10,
    BURST_REFUSED_MAKE_RANGE = 11,
    BURST_REFUSED_TABLE = 12,
    BURST_REFUSED_MEMORY_LENGTH = 13,
    BURST_REFUSED_MEMORY = 14,
    BURST_REFUSED_BLOCK = 15,
    BURST_REFUSED_ROOM = 16,
    BURST_REFUSED_SEED = 17
};

/* What reading a table says. What does not apply is 0. */
struct burst_reading {
    uint64_t refused; /* 0: accepted; else 1 to 10 */
    uint64_t place;   /* of refusals 1 to 9: the offset into the bytes */
    uint64_t l;       /* of refusal 10: the least shift, 1 to N - 1, that shows it, */
    uint64_t e0;      /* the least error block, below 2^n and not 0, that shows it with l, */
    uint64_t e1;      /* and the least error block, perhaps 0, whose image shifted by l is that of e0 */
};

/* What writing a table says. What does not apply is 0. */
struct burst_written {
    uint64_t refused; /* 0: written; else 12, 10 or 16 */
    uint64_t length;  /* how many bytes were written: 10n - 5, at most 155 */
    uint64_t l;       /* of refusal 10: the shift and the two error blocks, as in struct burst_reading */
    uint64_t e0;
    uint64_t e1;
};

/* What a coder's step says. */
struct burst_coded {
    uint64_t refused; /* 0, or 12 to 15; of an Iwadare-Massey station 0, or 13 to 15 */
    uint64_t block;   /* the coded block, the information and its parity, below 2^n (of such a station below 8), and so
                         a uint16_t; 0 if refused */
};

/* What a decoder's step says: all 0 but its number if it is refused, all 0 if nothing is delivered yet. */
struct burst_decoded {
    uint64_t refused; /* 0, or 12 to 15 */
    uint64_t info;    /* the information of the block taken m * (N - 1) blocks before, corrected if the mark is 3 */
    uint64_t mark;    /* an enum burst_mark: 0 nothing yet, 1 clean, 2 held, 3 corrected, 4 doubtful, 5 parity */
    uint64_t error;   /* the error block that was removed, below 2^n, where the mark is 3 or 5; else 0 */
};

/* What a decoder's step of the Iwadare-Massey stations says: all 0 but its number if it is refused, all 0 if nothing is
   delivered yet. */
struct burst_iwadare_decoded {
    uint64_t refused;   /* 0, or 13 to 15 */
    uint64_t delivered; /* 1 if a block is delivered, else 0 */
    uint64_t info;      /* its information, below 4: that of the block taken 18 blocks before, with its flips */
};

/*
 * Reads a table from bytes: records of one byte of kind and a body. Kind 1, sizes: three bytes n, N, m. Kind 2, row:
 * one byte j, then eight bytes of row j, low byte first. Kind 0, end: no body. Sizes come first, rows in any order, end
 * last. Any bytes may be handed in.
 *
 * Accepted, the table has the sizes and rows of the records, and is suitable. Refused, 1 to 10, it stays as it
 * was. The bytes are only read.
 */
struct burst_reading burst_read(const uint8_t *bytes, size_t length, struct burst_table *table);

/*
 * Writes a table into lent bytes, room of them: the records that burst_read reads, sizes first, rows 1 to n - 1 in this
 * order, end last, which is 10n - 5 bytes. 155 are enough for any table.
 *
 * Written, burst_read of the first 10n - 5 bytes accepts them, and gives the same n, N, m and rows 1 to n - 1. Two
 * tables have the same bytes exactly if they have the same n, N, m and rows 1 to n - 1. The bytes of a table that was
 * read are those of its file with the rows sorted. Bytes past the first 10n - 5 stay as they were.
 *
 * Refused, 12, 10 or 16, no byte is written: nothing that burst_read would refuse is ever written. The table is only
 * read. Its suitability is tested at each call, also of a table that was read or made.
 */
struct burst_written burst_write(const struct burst_table *table, uint8_t *bytes, size_t room);

/*
 * Makes the table of Berlekamp and Preparata for n symbols, with N = 2n and depth m. It is suitable.
 *
 * Returns 0; or 11, if n is not 2 to 16 or m is not 1 to 64, and then the table stays as it was.
 */
uint64_t burst_make(uint64_t n, uint64_t m, struct burst_table *table);

/*
 * Starts a coder's memory of 1 + m words, at most 65: every word becomes 0.
 *
 * Returns 0; or 12 or 13, and then no word is written. The table is only read.
 */
uint64_t burst_start_coder(const struct burst_table *table, uint64_t *words, size_t count);

/*
 * Starts a decoder's memory of 2 + m * (N + 1) words, at most 4,162: every word becomes 0.
 *
 * Returns 0; or 12 or 13, and then no word is written. The table is only read.
 */
uint64_t burst_start_decoder(const struct burst_table *table, uint64_t *words, size_t count);

/*
 * Codes one block of information, which is below 2^(n-1), on a coder's memory of 1 + m words: adds its parity and
 * advances the turn.
 *
 * Test signals may be added. With one table, from started memories and where no step is refused, the coded blocks of
 * the exclusive or of two equally long messages are the exclusive or of theirs, block by block. Changing symbol j of
 * one information block, its bit j - 1, changes exactly 1 + (ones in row j) coded bits, if at least m * (N - 1) blocks
 * follow it and no step is refused: that bit, and the parity k * m blocks later for each bit k of row j that is 1.
 *
 * Refused, 12 to 15, it writes no word. The table is only read, and its suitability is not tested.
 */
struct burst_coded burst_code(const struct burst_table *table, uint64_t *words, size_t count, uint16_t info);

/*
 * Takes one received block, which is below 2^n, on a decoder's memory of 2 + m * (N + 1) words, and delivers the oldest
 * delayed block of its stream, corrected: the one that was taken m * (N - 1) steps before, counting steps that were not
 * refused. The first m * (N - 1) of these on a started memory deliver nothing; to get the last blocks, m * (N - 1) more
 * are coded and taken.
 *
 * A term of the syndrome is the parity of the received information, exclusive or the received parity. The register is
 * the stream's syndrome word with the new term as bit N - 1; once started, the last N terms of the stream since the
 * word was last cleared, and 0 before them. If the register is the image of an error block, the least such block is
 * removed from what is delivered and the word is cleared; if not, the word is the register halved, its bit 0 dropped.
 * The mark tells what was found: clean, the register is 0; corrected, it is not 0 and is the image of an error block;
 * parity, and not corrected, where that block is 2^(n-1), the parity alone, so that the information stays as it was
 * received; held, it is the image of none and its bit 0 is 0; doubtful, it is the image of none and its bit 0 is 1.
 *
 * Let one table, read or made, be used throughout. Let both memories be started, and then written by steps alone. Let
 * every coded block be taken, in order, and let wrong blocks come only in bursts within m blocks, with at least
 * m * (N - 1) right blocks between. Then every block delivered is right, and none is doubtful. From any other memory,
 * and after any other damage, that holds once 2 * m * (N - 1) right blocks in a row were taken. What the steps that
 * take the last m of these deliver is right already, and is marked clean or parity. Earlier steps may be marked so too,
 * and that tells nothing. Of the 2 * m * (N - 1), the last 2 * m need not be right, if bursts keep to the rule from
 * there on: what comes after all of them is right, though those last m steps may not be. A doubtful block may be wrong,
 * and so may any other, where bursts were longer or closer than this. A block that was not received is a wrong one: any
 * block below 2^n, such as 0, is handed in for it. One that is left out, or refused, shifts all later ones by a place.
 *
 * Deliveries are not linear. With n = 2, N = 4, m = 1 and row 10 the blocks 2, 2, 0, 0 and 2, 0, 0, 2 deliver 0 each
 * from a start, and their exclusive or, 0, 2, 0, 2, delivers 1. The terms of the syndrome, which no call returns, do
 * add: of equally long lists with one table, from started memories and where no step is refused.
 *
 * Refused, 12 to 15, it writes no word. The table is only read, and its suitability is not tested.
 */
struct burst_decoded burst_decode(const struct burst_table *table, uint64_t *words, size_t count, uint16_t received);

/*
 * Codes a list of blocks, each as burst_code does, on the memory as the block before it left it. Entry i is the coded
 * block of infos[i], below 2^n.
 *
 * Returns how many blocks it took, which are the first of the list, and as many entries are filled. That is length or
 * room, whichever is less, unless burst_code would refuse an earlier block: then it is how many stand before that one.
 * The words are those after as many calls of burst_code, and entries past those filled keep what they held; where the
 * result is 0 nothing is written. The table and the list are only read, and the table's suitability is not tested.
 *
 * A caller that gets back less than length and less than room has, in infos[result], a block that is refused.
 * burst_code of it says by which number, and writes nothing. A caller that got back its room, and less than length,
 * goes on from infos[result].
 */
size_t burst_code_batch(const struct burst_table *table, uint64_t *words, size_t count, const uint16_t *infos,
                        size_t length, uint32_t *entries, size_t room);

/*
 * Takes a list of received blocks, each as burst_decode does, on the memory as the block before it left it. Entry i is
 * what the call of received[i] delivers: its low 16 bits are the information, and the bits above them the mark, 0
 * nothing yet, 1 clean, 2 held, 3 corrected, 4 doubtful, 5 parity. An entry of nothing yet is 0. The error block that
 * was removed is not in it; where the mark is parity it is 2^(n-1).
 *
 * Returns how many blocks it took, and fills as many entries, as burst_code_batch does, with burst_decode for
 * burst_code and received for infos: all of the list, or its room, or those before the first block that burst_decode
 * would refuse. Entries past those filled keep what they held, where the result is 0 nothing is written, the table and
 * the list are only read, and the table's suitability is not tested. A caller learns in the same way why it ended. As a
 * block that is left out shifts all later ones by a place, one that is refused for 15 is handed in again as any block
 * below 2^n.
 */
size_t burst_decode_batch(const struct burst_table *table, uint64_t *words, size_t count, const uint16_t *received,
                          size_t length, uint32_t *entries, size_t room);

/*
 * Fills lent blocks, length of them, with the test load of a table and a seed: the all-zero message as it is received
 * over a fading channel, the same wherever it is asked for. Zeros were sent, so that each block, below 2^n, is its own
 * error block, 0 for a right one. The seed, n, N and m decide it, and the rows do not.
 *
 * Draws are those of Marsaglia's xorshift32. Its state is 32 bits, at the start the seed. A draw changes it three
 * times, each time to the exclusive or of itself and itself shifted: left by 13, right by 17, left by 5, bits past
 * the 32 dropped. The number drawn is the new state; seed 1 draws 270369 first. With d a fresh draw each time, a
 * round draws the length of a burst, 1 + (d mod m), then an error d mod 2^n, perhaps 0, for each block of it, then
 * the length of a gap, m * (N - 1) + (d mod 16). Its blocks are these errors, and then the gap, that many zeros. The
 * load is round after round, cut at length, so that a shorter one is the beginning of a longer one.
 *
 * With a table that was read or made, a started decoder that takes a load of it from the first block on refuses no
 * step, and every block that it delivers has the information 0 and is not doubtful; the error told with it, 0 where the
 * mark is clean or held, is that block of the load. To have the first k of its blocks delivered, k + m * (N - 1) are
 * taken. The same errors may be added, by exclusive or, to the coded blocks of any message from a started coder, block
 * by block from the first: then too such a decoder refuses no step, what it delivers is that message, as far as its
 * blocks are delivered, and no block is doubtful.
 *
 * Returns 0; or 12 or 17, and then no block is written. The table is only read, and its suitability is not tested.
 */
uint64_t burst_load(const struct burst_table *table, uint32_t seed, uint16_t *blocks, size_t length);

/*
 * The Iwadare-Massey stations. A block has three symbols, sent in this order: 0 and 1, the information, with weights 1
 * and 2, and 2, the parity, with weight 4. The generators are D^7 + D^18 for symbol 0 and D^3 + D^15 for symbol 1: the
 * parity of block t is the exclusive or of symbol 0 of blocks t - 7 and t - 18 and symbol 1 of blocks t - 3 and t - 15;
 * blocks before the start are 0.
 *
 * A coder's memory is 1 word: the pending word, below 2^18. A decoder's is 21 words: the fill, 0 to 18; the pending
 * word, below 2^18; the last 12 terms of the syndrome, below 2^12, the newest in bit 11; and 18 delayed blocks, the
 * information as received and flipped since, each below 4, oldest first. A step writes any of them.
 */

/*
 * Starts a coder's memory of 1 word: it becomes 0.
 *
 * Returns 0; or 13, and then no word is written.
 */
uint64_t burst_iwadare_start_coder(uint64_t *words, size_t count);

/*
 * Starts a decoder's memory of 21 words: every word becomes 0.
 *
 * Returns 0; or 13, and then no word is written.
 */
uint64_t burst_iwadare_start_decoder(uint64_t *words, size_t count);

/*
 * Codes one block of information, which is below 4, on a coder's memory of 1 word: adds its parity.
 *
 * Refused, 13 to 15, it writes no word.
 */
struct burst_coded burst_iwadare_code(uint64_t *words, size_t count, uint16_t info);

/*
 * Takes one received block, which is below 8, on a decoder's memory of 21 words, and delivers the oldest delayed block:
 * the one that was taken 18 steps before, counting steps that were not refused. The first 18 of these on a started
 * memory deliver nothing; to get the last blocks, 18 more are coded and taken.
 *
 * The newest term of the syndrome is the parity of the received information, exclusive or the received parity. If it is
 * 1 and the one 12 before it is 1, symbol 1 of the block 15 back is flipped. If it is 1, the one 11 before it is 1, and
 * the one 12 before it is 0, symbol 0 of the block 18 back is flipped, which is the one that is delivered. A flip sets
 * the two ones that it matched to 0. A word of the memory is flipped also where no block was taken for it yet.
 *
 * Let both memories be started, and then written by steps alone. Let every coded block be taken, in order, and let
 * wrong bits, counted as they are sent, come only in bursts within 10 consecutive bits, with at least 56 right bits
 * between. Then every block delivered is right. From any other memory within the bounds, and after any other damage,
 * that holds once 30 right blocks in a row were taken, bursts keeping to the rule from there on; while all blocks are
 * right it holds from the 22nd of them on. There is no mark: where bursts are longer or closer, nothing tells a wrong
 * block. A block that was not received is handed in as any block below 8, and those of its bits that differ are wrong
 * ones. One that is left out, or refused, shifts all later ones by a place.
 *
 * Refused, 13 to 15, it writes no word.
 */
struct burst_iwadare_decoded burst_iwadare_decode(uint64_t *words, size_t count, uint16_t received);

/*
 * A sentence for a refusal, without its first capital and its full stop, to stand after a colon; "not refused" for 0,
 * and "no refusal has this number" for any other number. It is constant, and not to be freed.
 */
const char *burst_refusal_text(uint64_t refused);

/*
 * The word for a mark: clean, held, corrected, doubtful or parity; "nothing yet" for 0, and "no mark" for any other
 * number. It is constant, and not to be freed.
 */
const char *burst_mark_text(uint64_t mark);

#ifdef __cplusplus
}
#endif

#endif
