/* burst make: the table of Berlekamp and Preparata. */
#include "command.h"
#include "output.h"
#include "table.h"

static void put_text(const struct burst_table *table)
{
    put_number(table->symbols);
    put_byte(' ');
    put_number(table->span);
    put_byte(' ');
    put_number(table->depth);
    put_rows(table);
    put_byte('\n');
    flush();
}

static void make(const struct options *o)
{
    struct burst_table table = make_table(number_of(o->operands[0], "n"), number_of(o->operands[1], "m"));

    if (o->text) {
        put_text(&table);
    } else {
        put_table(&table, NULL);
    }
}

const struct command make_command = {
    "make",
    " [--text] n m",
    "Writes the table that is made for n symbols, 2 to 16, and depth m, 1 to 64, as bytes,\n"
    "or with --text as a line of numbers: n, N, m and the rows.\n",
    HAS_TEXT,
    2,
    2,
    make,
};
