/* burst load: the test load of a table and a seed. */
#include "command.h"
#include "draws.h"
#include "output.h"
#include "table.h"

static struct draws draws;

static void load(const struct options *o)
{
    uint32_t seed = seed_of(o->operands[0]);
    size_t count = number_of(o->operands[1], "a count of blocks");
    size_t i;

    draws_start(&draws, table_of(o), seed, count);
    for (i = 0; i < count; i++) {
        put_block(draws.blocks[i], o->text);
    }
    flush();
}

const struct command load_command = {
    "load",
    " TABLE [--text] SEED COUNT",
    "Writes the first COUNT blocks of the table's test load for SEED, 1 to 4294967295: zeros as they are received\n"
    "over a fading channel, which a decoder of that table corrects completely.\n"
    "Blocks are two bytes, low first, or with --text decimal numbers.\n",
    HAS_TABLE | HAS_TEXT,
    2,
    2,
    load,
};
