/* A command of burst, and what its command line says. One source file a command. */
#ifndef COMMAND_H
#define COMMAND_H

#include <stdbool.h>
#include <stddef.h>
#include <stdint.h>

/* The options that a command may have. */
enum {
    HAS_TABLE = 1, /* -n and -m, or --table; one of the two is needed */
    HAS_TEXT = 2,
    HAS_TAIL = 4,
    HAS_MARKS = 8,
    HAS_SEED = 16,
    HAS_BURSTS = 32, /* --burst and --every */
    HAS_SENT = 64
};

struct burst {
    uint64_t place; /* of its first block */
    uint64_t length;
};

struct options {
    bool has_symbols;
    bool has_depth;
    uint64_t symbols; /* of a made table */
    uint64_t depth;
    const char *table; /* the file of one that is read, or null */
    bool text;
    bool tail;
    bool marks;
    bool seeded;
    uint32_t seed;
    struct burst *bursts;
    size_t burst_count;
    uint64_t period; /* 0: each burst comes once */
    char *sent;
    char **operands;
    int operand_count;
};

struct command {
    const char *name;
    const char *usage; /* what follows the name */
    const char *help;
    unsigned has;
    int least; /* operands */
    int most;
    void (*run)(const struct options *options); /* returns if it is done, and gives up if not */
};

extern const struct command make_command, check_command, write_command, code_command, decode_command, load_command,
    fade_command, stats_command;

/* How to call a command, and how to name its table. */
void put_usage(const struct command *command);
extern const char table_help[];

/* Numbers of a command line; what is none is wrong usage. */
uint64_t number_of(const char *word, const char *what);
uint32_t seed_of(const char *word);

/* What a command line says, its first word the command's name. Asked for help, it prints that and ends. */
struct options options_of(const struct command *command, int count, char **words);

#endif
