#include "input.h"

#include <burst.h>

#include "bytes.h"
#include "say.h"

static char standard_input[] = "-";
static char *const standard_files[] = {standard_input};

void input_start(struct input *in, char *const *files, int count, bool text)
{
    *in = (struct input){.files = count > 0 ? files : standard_files, .left = count > 0 ? count : 1, .text = text};
    in->is_one = in->left == 1;
}

static void open_next(struct input *in)
{
    in->descriptor = open_input(*in->files);
    in->name = name_of(*in->files);
    in->is_open = true;
    in->in_file = 0;
    in->line = 1;
    in->files++;
    in->left--;
}

/* The end of a file is not the end of a block or a number: two files that were cut are not made one. */
static void close_last(struct input *in)
{
    if (in->has_half) {
        give_up(REFUSED, in->name, "odd byte: half a block at the end");
    }
    if (in->scan.begun) {
        give_up(REFUSED, in->name, "line %llu: the text ends within a number", (unsigned long long)in->line);
    }
    close_input(in->descriptor);
    in->is_open = false;
}

static size_t blocks_of_bytes(struct input *in, size_t length, uint16_t *blocks)
{
    size_t count = 0;
    size_t i = 0;

    if (in->has_half && length > 0) {
        blocks[count++] = (uint16_t)(in->half | in->bytes[i++] << 8);
        in->has_half = false;
    }
    for (; i + 1 < length; i += 2) {
        blocks[count++] = (uint16_t)(in->bytes[i] | in->bytes[i + 1] << 8);
    }
    if (i < length) {
        in->half = in->bytes[i];
        in->has_half = true;
    }
    return count;
}

static size_t blocks_of_text(struct input *in, size_t length, uint16_t *blocks)
{
    size_t count = 0;
    size_t i;

    for (i = 0; i < length; i++) {
        enum scanned found = scan(&in->scan, in->bytes[i], UINT16_MAX);

        if (found == SCAN_FAULT) {
            in->is_damaged = true; /* told once the blocks before it were taken */
            return count;
        }
        if (found == SCAN_NUMBER) {
            blocks[count++] = (uint16_t)in->scan.value;
        }
        in->line += in->bytes[i] == '\n';
    }
    return count;
}

size_t input_next(struct input *in, uint16_t blocks[MOST_BLOCKS])
{
    in->before += in->given;
    in->in_file += in->given;
    in->given = 0;
    while (in->given == 0) {
        size_t length;

        if (in->is_damaged) {
            give_up(REFUSED, in->name, "line %llu: not a number from 0 to 65535", (unsigned long long)in->line);
        }
        if (!in->is_open) {
            if (in->left == 0) {
                break;
            }
            open_next(in);
        }
        length = read_some(in->descriptor, in->name, in->bytes, sizeof in->bytes);
        if (length == 0) {
            close_last(in);
            continue;
        }
        in->given = in->text ? blocks_of_text(in, length, blocks) : blocks_of_bytes(in, length, blocks);
        in->bytes_read += length;
        progress(in->bytes_read);
    }
    return in->given;
}

const char *input_name(const struct input *in)
{
    return in->is_one ? in->name : NULL;
}

void input_end(const struct input *in)
{
    if (in->before == 0) {
        note(input_name(in), "no block");
    }
}

void input_refused(const struct input *in, const uint16_t *blocks, size_t i, uint64_t refused)
{
    give_up(REFUSED, in->name, "block %llu is %d: refused %llu: %s", (unsigned long long)(in->in_file + i), blocks[i],
            (unsigned long long)refused, burst_refusal_text(refused));
}
