/* burst code: information in, coded blocks out. */
#include <limits.h>

#include "command.h"
#include "input.h"
#include "output.h"
#include "table.h"

static struct input input;
static uint16_t infos[MOST_BLOCKS];
static uint32_t entries[MOST_BLOCKS];
static uint64_t words[BURST_CODER_WORDS(BURST_MOST_DEPTH)];

/* Codes the first blocks of the list; how many. */
static size_t code_blocks(const struct options *o, const struct burst_table *table, size_t length)
{
    size_t count = BURST_CODER_WORDS(table->depth);
    size_t taken = burst_code_batch(table, words, count, infos, length, entries, length);
    size_t i;

    for (i = 0; i < taken; i++) {
        put_block((uint16_t)entries[i], o->text);
    }
    flush();
    return taken;
}

static void code(const struct options *o)
{
    struct burst_table table = table_of(o);
    size_t count = BURST_CODER_WORDS(table.depth);
    size_t length;

    burst_start_coder(&table, words, count); /* is not refused: the table is suitable, the length is its own */
    input_start(&input, o->operands, o->operand_count, o->text);
    while ((length = input_next(&input, infos)) > 0) {
        size_t taken = code_blocks(o, &table, length);

        if (taken < length) {
            input_refused(&input, infos, taken, burst_code(&table, words, count, infos[taken]).refused);
        }
    }
    input_end(&input);
    if (o->tail) {
        size_t i;

        length = BURST_DELAY(table.span, table.depth);
        for (i = 0; i < length; i++) {
            infos[i] = 0;
        }
        code_blocks(o, &table, length);
    }
}

const struct command code_command = {
    "code",
    " TABLE [--text] [--tail] [FILE]...",
    "Codes information, below 2^(n-1). With --tail zeros follow, so that a decoder delivers all of it.\n"
    "Blocks are two bytes, low first, or with --text decimal numbers.\n",
    HAS_TABLE | HAS_TEXT | HAS_TAIL,
    0,
    INT_MAX,
    code,
};
