/* burst fade: a channel. Coded blocks in, the same with errors out. */
#include <limits.h>

#include "command.h"
#include "draws.h"
#include "input.h"
#include "output.h"
#include "say.h"
#include "table.h"

static struct input input;
static struct draws draws;
static uint16_t blocks[MOST_BLOCKS];
static uint16_t every_symbol;

enum { FIRST_DRAWS = 1 << 15 }; /* blocks of the load, which then doubles */

static bool is_in_burst(const struct options *o, uint64_t place)
{
    size_t i;

    for (i = 0; i < o->burst_count; i++) {
        if (place >= o->bursts[i].place) {
            uint64_t past = place - o->bursts[i].place;

            if ((o->period != 0 ? past % o->period : past) < o->bursts[i].length) {
                return true;
            }
        }
    }
    return false;
}

/* The next block of the load that is not 0, so that each block of a stated burst is wrong. */
static uint16_t next_error(void)
{
    static size_t at;

    do {
        at++;
        draws_reach(&draws, at);
    } while (draws.blocks[at - 1] == 0);
    return draws.blocks[at - 1];
}

static uint16_t error_at(const struct options *o, uint64_t place)
{
    if (o->burst_count == 0) {
        draws_reach(&draws, place + 1);
        return draws.blocks[place];
    }
    if (!is_in_burst(o, place)) {
        return 0;
    }
    return o->seeded ? next_error() : every_symbol;
}

static void fade(const struct options *o)
{
    struct burst_table table;
    size_t length;

    if (o->burst_count == 0 && o->period != 0) {
        give_up(USAGE, NULL, "--every=PERIOD needs a burst, --burst=PLACE:LENGTH; --help says more");
    }
    if (o->burst_count == 0 && !o->seeded) {
        give_up(USAGE, NULL, "a seed or a burst is needed: --seed=SEED, or --burst=PLACE:LENGTH; --help says more");
    }
    table = table_of(o);
    if (o->seeded) {
        draws_start(&draws, table, o->seed, FIRST_DRAWS);
    }
    every_symbol = (uint16_t)((1u << table.symbols) - 1);
    input_start(&input, o->operands, o->operand_count, o->text);
    while ((length = input_next(&input, blocks)) > 0) {
        size_t i;

        for (i = 0; i < length; i++) {
            put_block(blocks[i] ^ error_at(o, input.before + i), o->text);
        }
        flush();
    }
    input_end(&input);
}

const struct command fade_command = {
    "fade",
    " TABLE [--text] [--seed=SEED] [--burst=PLACE:LENGTH]... [--every=PERIOD] [FILE]...",
    "Damages coded blocks: by the errors of the table's test load for SEED (-s), or in each burst (-b) of LENGTH\n"
    "blocks from block PLACE on, counted from 0, and again every PERIOD blocks. There each symbol is wrong, or with a\n"
    "seed the errors are drawn. Blocks are two bytes, low first, or with --text decimal numbers.\n",
    HAS_TABLE | HAS_TEXT | HAS_SEED | HAS_BURSTS,
    0,
    INT_MAX,
    fade,
};
