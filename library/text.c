/* Refusals and marks in words, in the order of their numbers in burst.h. Nothing else in the library is C. */
#include "burst.h"

static const char *const refusals[] = {
    "not refused",
    "the bytes end where a record's kind is due",
    "the record's kind is not 0, 1 or 2",
    "the record's body is cut short",
    "the sizes are not the first record, or come again",
    "n, N or m is out of range: n is 2 to 16, N is 2 to 64, m is 1 to 64",
    "the row's number is not 1 to n - 1, or was given before",
    "the row has a one at bit N or above",
    "the end comes before every row was given",
    "bytes follow the end",
    "the table is unsuitable: two error patterns that must differ look alike",
    "n or m is out of range: n is 2 to 16, m is 1 to 64",
    "n, N or m of the table is out of range, or one of its rows 1 to n - 1 has a one at bit N or above",
    "the lent memory has not exactly the length that is asked for",
    "the lent memory is not as a start, and then steps with one table, leave it",
    "the block is too large: 2^(n-1) or more for information, 2^n or more for a received block",
    "the lent bytes are fewer than 10n - 5",
    "the seed is 0",
};

static const char *const marks[] = {"nothing yet", "clean", "held", "corrected", "doubtful", "parity"};

const char *burst_refusal_text(uint64_t refused)
{
    return refused < sizeof refusals / sizeof *refusals ? refusals[refused] : "no refusal has this number";
}

const char *burst_mark_text(uint64_t mark)
{
    return mark < sizeof marks / sizeof *marks ? marks[mark] : "no mark";
}
