/* burst write: reads a table, as bytes or as numbers, and writes its bytes. */
#include "bytes.h"
#include "command.h"
#include "say.h"
#include "scan.h"
#include "table.h"

enum {
    ROWS = BURST_MOST_SYMBOLS - 1,
    NUMBERS = 3 + ROWS, /* of the largest table */
    MOST_TEXT = 4096    /* its numbers, and blanks to spare */
};

/* The numbers of a text, at most those of the largest table; how many they are. */
static size_t numbers_of(const char *name, const char *text, size_t length, uint64_t numbers[NUMBERS])
{
    struct scan s = {0, false};
    size_t count = 0;
    size_t i;

    for (i = 0; i < length; i++) {
        enum scanned found = scan(&s, (unsigned char)text[i], UINT64_MAX);

        if (found == SCAN_FAULT || (found == SCAN_NUMBER && count == NUMBERS)) {
            give_up(REFUSED, name, "byte %zu: not the numbers of a table: n, N, m and n - 1 rows below 2^64", i);
        }
        if (found == SCAN_NUMBER) {
            numbers[count++] = s.value;
        }
    }
    if (length == MOST_TEXT || s.begun) {
        give_up(REFUSED, name, "the text is %s", length == MOST_TEXT ? "too long for a table" : "cut within a number");
    }
    return count;
}

static struct burst_table table_of_text(const char *file)
{
    char text[MOST_TEXT];
    uint64_t numbers[NUMBERS] = {0};
    struct burst_table table;
    const char *name = name_of(file);
    int descriptor = open_input(file);
    size_t length = read_all(descriptor, name, text, sizeof text);
    size_t count = numbers_of(name, text, length, numbers);
    size_t j;

    close_input(descriptor);
    table.symbols = numbers[0];
    table.span = numbers[1];
    table.depth = numbers[2];
    for (j = 0; j < ROWS; j++) {
        table.rows[j] = numbers[3 + j];
    }
    /* Of other n the library says what is wrong; of these, no number is made up and none is left out. */
    if (count < 3 || (table.symbols >= 2 && table.symbols <= BURST_MOST_SYMBOLS && count != table.symbols + 2)) {
        give_up(REFUSED, name, "%zu numbers are no table, which has n, N, m and n - 1 rows", count);
    }
    return table;
}

static void write_table(const struct options *o)
{
    const char *file = o->operand_count > 0 ? o->operands[0] : NULL;
    struct burst_table table = o->text ? table_of_text(file) : read_table(file);

    put_table(&table, name_of(file));
}

const struct command write_command = {
    "write",
    " [--text] [FILE]",
    "Reads a table and writes it, its rows in order. With --text it reads the numbers that burst make --text writes.\n",
    HAS_TEXT,
    0,
    1,
    write_table,
};
