#include "relay.h"

#include "say.h"
#include "table.h"

void relay_start(struct relay *r, const struct options *o)
{
    r->table = table_of(o);
    r->count = BURST_DECODER_WORDS(r->table.span, r->table.depth);
    burst_start_decoder(&r->table, r->words, r->count); /* is not refused: a suitable table, and its own length */
    input_start(&r->input, o->operands, o->operand_count, o->text);
}

void relay_run(struct relay *r, void (*deliver)(const uint32_t *entries, size_t length))
{
    static uint32_t entries[MOST_BLOCKS];
    size_t length;

    while ((length = input_next(&r->input, r->blocks)) > 0) {
        size_t taken = burst_decode_batch(&r->table, r->words, r->count, r->blocks, length, entries, length);

        deliver(entries, taken);
        if (taken < length) {
            uint64_t refused = burst_decode(&r->table, r->words, r->count, r->blocks[taken]).refused;

            input_refused(&r->input, r->blocks, taken, refused);
        }
    }
    relay_end(r);
}

void relay_end(const struct relay *r)
{
    uint64_t taken = r->input.before;
    uint64_t delay = BURST_DELAY(r->table.span, r->table.depth);

    input_end(&r->input);
    if (taken > 0 && taken <= delay) {
        note(input_name(&r->input), "none delivered of %llu: deliveries begin with block %llu, counted from 0",
             (unsigned long long)taken, (unsigned long long)delay);
    }
}
