/* Blocks, from files one after another as one sequence, in either form. What is damaged ends the program. */
#ifndef INPUT_H
#define INPUT_H

#include <stdbool.h>
#include <stddef.h>
#include <stdint.h>

#include "scan.h"

enum {
    READ_BYTES = 1 << 16,             /* the most that one read gives */
    MOST_BLOCKS = READ_BYTES / 2 + 1  /* a block has two bytes, in a text too; one may wait for its second */
};

struct input {
    char *const *files; /* those not opened yet */
    int left;
    bool text;
    bool is_open;
    int descriptor;
    const char *name;    /* of the last one opened */
    bool is_one;         /* file in all */
    uint64_t before;     /* blocks before those of the last call */
    uint64_t in_file;    /* of these, in the same file */
    size_t given;        /* blocks of the last call */
    uint64_t bytes_read; /* of all files */
    bool has_half;       /* of a block: its low byte waits */
    unsigned char half;
    struct scan scan;
    uint64_t line;
    bool is_damaged; /* the text, after the blocks of the last call */
    unsigned char bytes[READ_BYTES];
};

/* Standard input where there is no file. */
void input_start(struct input *input, char *const *files, int count, bool text);

/* The blocks of the next read that completes one, from one file; 0 at the end. */
size_t input_next(struct input *input, uint16_t blocks[MOST_BLOCKS]);

/* The file's name, where it is one. */
const char *input_name(const struct input *input);

/* Says it where there was no block. */
void input_end(const struct input *input);

/* The end, where a call refused block i of the last ones. */
_Noreturn void input_refused(const struct input *input, const uint16_t *blocks, size_t i, uint64_t refused);

#endif
