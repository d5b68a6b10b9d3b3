/* burst check: reads a table, and tells what it is. */
#include "bytes.h"
#include "command.h"
#include "output.h"
#include "table.h"

static void put_named(const char *before, uint64_t number)
{
    put_word(before);
    put_number(number);
}

static void check(const struct options *o)
{
    const char *file = o->operand_count > 0 ? o->operands[0] : NULL;
    struct burst_table table = read_table(file);
    uint64_t delay = BURST_DELAY(table.span, table.depth);

    put_word(name_of(file));
    put_named(": suitable: n = ", table.symbols);
    put_named(", N = ", table.span);
    put_named(", m = ", table.depth);
    put_word(", rows");
    put_rows(&table);
    put_named("\nlongest burst that is corrected, in blocks: ", table.depth);
    put_named("; right blocks between bursts: ", delay);
    put_named("; delay: ", delay);
    put_byte('\n');
    flush();
}

const struct command check_command = {
    "check",
    " [FILE]",
    "Reads a table and tells its sizes and rows, or why it is refused, with the place or the error blocks.\n",
    0,
    0,
    1,
    check,
};
