/* burst stats: received blocks in, counts of the marks out, and of what is right. */
#include <limits.h>

#include "command.h"
#include "output.h"
#include "relay.h"

enum { MARKS = BURST_PARITY + 1 };

static struct relay relay;
static uint64_t counts[MARKS];

/* What was sent, where it is known. */
static struct {
    bool is_known;
    char *file;
    struct input input;
    uint16_t infos[MOST_BLOCKS];
    size_t length;
    size_t at;
    uint64_t right;
    uint64_t wrong;
    uint64_t past; /* deliveries past its end */
} sent;

static void compare(uint16_t info)
{
    if (sent.at == sent.length) {
        sent.length = input_next(&sent.input, sent.infos);
        sent.at = 0;
    }
    if (sent.length == 0) {
        sent.past++;
    } else if (sent.infos[sent.at++] == info) {
        sent.right++;
    } else {
        sent.wrong++;
    }
}

static void count(const uint32_t *entries, size_t length)
{
    size_t i;

    for (i = 0; i < length; i++) {
        uint32_t mark = BURST_ENTRY_MARK(entries[i]);

        counts[mark]++;
        if (sent.is_known && mark != BURST_NOTHING_YET) {
            compare((uint16_t)BURST_ENTRY_INFO(entries[i]));
        }
    }
}

static void put_count(const char *what, uint64_t number)
{
    put_word(what);
    put_byte(' ');
    put_number(number);
    put_byte('\n');
}

/* Counts are put once the whole input was taken: those of a part would look like those of all. */
static void stats(const struct options *o)
{
    uint64_t mark;

    relay_start(&relay, o);
    if (o->sent != NULL) {
        sent.is_known = true;
        sent.file = o->sent;
        input_start(&sent.input, &sent.file, 1, o->text);
        sent.length = input_next(&sent.input, sent.infos); /* also where nothing is delivered: it may be no file */
    }
    relay_run(&relay, count);
    while (sent.length > 0) { /* what is damaged is told, wherever it stands */
        sent.length = input_next(&sent.input, sent.infos);
    }
    put_count("taken", relay.input.before);
    for (mark = 0; mark < MARKS; mark++) {
        put_count(burst_mark_text(mark), counts[mark]);
    }
    if (sent.is_known) {
        put_count("right", sent.right);
        put_count("wrong", sent.wrong);
        put_count("past the end", sent.past);
    }
    flush();
}

const struct command stats_command = {
    "stats",
    " TABLE [--text] [--sent=FILE] [FILE]...",
    "Decodes received blocks and counts the marks; with the information that was sent, also the deliveries that are\n"
    "right and wrong. Blocks are two bytes, low first, or with --text decimal numbers.\n",
    HAS_TABLE | HAS_TEXT | HAS_SENT,
    0,
    INT_MAX,
    stats,
};
