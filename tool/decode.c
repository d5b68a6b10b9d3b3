/* burst decode: received blocks in, delivered information out, or the listing of it. */
#include <limits.h>

#include "command.h"
#include "output.h"
#include "relay.h"

static struct relay relay;
static bool as_text;

static void put_infos(const uint32_t *entries, size_t length)
{
    size_t i;

    for (i = 0; i < length; i++) {
        if (BURST_ENTRY_MARK(entries[i]) != BURST_NOTHING_YET) {
            put_block((uint16_t)BURST_ENTRY_INFO(entries[i]), as_text);
        }
    }
    flush();
}

static void put_line(uint64_t number, struct burst_decoded delivery)
{
    begin_whole();
    put_number(number);
    put_byte(' ');
    put_number(delivery.info);
    put_byte(' ');
    put_word(burst_mark_text(delivery.mark));
    put_byte(' ');
    put_number(delivery.error);
    put_byte('\n');
}

/* An entry of a batch has no error block, so the listing takes each block by the single call. */
static void list(struct relay *r)
{
    uint64_t number = 0;
    size_t length;

    put_word("block info mark error\n");
    flush();
    while ((length = input_next(&r->input, r->blocks)) > 0) {
        size_t i;

        for (i = 0; i < length; i++) {
            struct burst_decoded delivery = burst_decode(&r->table, r->words, r->count, r->blocks[i]);

            if (delivery.refused != BURST_NOT_REFUSED) {
                flush();
                input_refused(&r->input, r->blocks, i, delivery.refused);
            }
            if (delivery.mark != BURST_NOTHING_YET) {
                put_line(number++, delivery);
            }
        }
        flush();
    }
    relay_end(r);
}

static void decode(const struct options *o)
{
    relay_start(&relay, o);
    as_text = o->text;
    if (o->marks) {
        list(&relay);
    } else {
        relay_run(&relay, put_infos);
    }
}

const struct command decode_command = {
    "decode",
    " TABLE [--text] [--marks] [FILE]...",
    "Decodes received blocks, below 2^n, and writes the information that is delivered, or with --marks a line for\n"
    "each delivery: its number, its information, the decoder's mark and the error block that was removed.\n"
    "Blocks are two bytes, low first, or with --text decimal numbers.\n",
    HAS_TABLE | HAS_TEXT | HAS_MARKS,
    0,
    INT_MAX,
    decode,
};
