#include <getopt.h>
#include <stdlib.h>
#include <string.h>

#include "bytes.h"
#include "command.h"
#include "output.h"
#include "say.h"
#include "scan.h"

/* Options of one letter are that letter. */
enum { TEXT = 256, TAIL, MARKS, EVERY, SENT, HELP };

static const struct option long_options[] = {
    {"table", required_argument, NULL, 't'},   {"text", no_argument, NULL, TEXT},
    {"tail", no_argument, NULL, TAIL},         {"marks", no_argument, NULL, MARKS},
    {"seed", required_argument, NULL, 's'},    {"burst", required_argument, NULL, 'b'},
    {"every", required_argument, NULL, EVERY}, {"sent", required_argument, NULL, SENT},
    {"help", no_argument, NULL, HELP},         {NULL, 0, NULL, 0},
};

uint64_t number_of(const char *word, const char *what)
{
    uint64_t value;

    if (!scan_word(word, UINT64_MAX, &value)) {
        give_up(USAGE, NULL, "%s is a decimal number below 2^64, not '%s'", what, word);
    }
    return value;
}

uint32_t seed_of(const char *word)
{
    uint64_t value;

    if (!scan_word(word, UINT32_MAX, &value)) {
        give_up(USAGE, NULL, "a seed is a number from 1 to 4294967295, not '%s'", word);
    }
    return (uint32_t)value;
}

/* PLACE:LENGTH joins the bursts. */
static void add_burst(struct options *o, char *word)
{
    char *colon = strchr(word, ':');
    struct burst *bursts = realloc(o->bursts, (o->burst_count + 1) * sizeof *bursts);

    if (bursts == NULL) {
        give_up(FAILED, NULL, "not enough memory for the bursts");
    }
    if (colon == NULL) {
        give_up(USAGE, NULL, "a burst is PLACE:LENGTH, not '%s'", word);
    }
    *colon = '\0';
    o->bursts = bursts;
    bursts[o->burst_count].place = number_of(word, "the place of a burst");
    bursts[o->burst_count].length = number_of(colon + 1, "the length of a burst");
    o->burst_count++;
}

/* Takes an option, and returns its bit of those that a command may have. */
static unsigned take(struct options *o, int option, char *value)
{
    switch (option) {
    case 'n':
        o->symbols = number_of(value, "n");
        o->has_symbols = true;
        return HAS_TABLE;
    case 'm':
        o->depth = number_of(value, "m");
        o->has_depth = true;
        return HAS_TABLE;
    case 't':
        o->table = value;
        return HAS_TABLE;
    case TEXT:
        o->text = true;
        return HAS_TEXT;
    case TAIL:
        o->tail = true;
        return HAS_TAIL;
    case MARKS:
        o->marks = true;
        return HAS_MARKS;
    case 's':
        o->seed = seed_of(value);
        o->seeded = true;
        return HAS_SEED;
    case 'b':
        add_burst(o, value);
        return HAS_BURSTS;
    case EVERY:
        o->period = number_of(value, "a period");
        if (o->period == 0) {
            give_up(USAGE, NULL, "a period is 1 or more");
        }
        return HAS_BURSTS;
    default:
        o->sent = value;
        return HAS_SENT;
    }
}

const char table_help[] = "TABLE is -n n -m m for the table that is made for them, or --table=FILE (-t FILE).\n";

void put_usage(const struct command *command)
{
    put_word("burst ");
    put_word(command->name);
    put_word(command->usage);
    put_byte('\n');
}

static _Noreturn void help(const struct command *command)
{
    put_usage(command);
    put_byte('\n');
    put_word(command->help);
    if (command->has & HAS_TABLE) {
        put_word(table_help);
    }
    put_word("burst(1) says more.\n");
    flush();
    close_output();
    exit(DONE);
}

/* What one reader takes of standard input another one lacks. */
static int uses_of_standard_input(const struct command *command, const struct options *o)
{
    int uses = (o->table != NULL && is_standard(o->table)) + (o->sent != NULL && is_standard(o->sent));
    int i;

    if (o->operand_count == 0 && command->most > 0) {
        uses++;
    }
    for (i = 0; i < o->operand_count; i++) {
        uses += is_standard(o->operands[i]);
    }
    return uses;
}

/* One table, made or read, where the command needs one; and as many operands as it takes. */
static void judge(const struct command *command, const struct options *o)
{
    if (command->has & HAS_TABLE) {
        bool is_made = o->has_symbols && o->has_depth;

        if (o->has_symbols != o->has_depth || is_made == (o->table != NULL)) {
            give_up(USAGE, NULL, "a table is needed, and one only: -n n -m m, or --table=FILE; --help says more");
        }
    }
    if (o->operand_count < command->least || o->operand_count > command->most) {
        give_up(USAGE, NULL, "usage: burst %s%s", command->name, command->usage);
    }
    if (uses_of_standard_input(command, o) > 1) {
        give_up(USAGE, NULL, "standard input is asked for twice");
    }
}

/* What getopt does not know: a letter, perhaps among others, or a name that is none, is cut too short, or has a value. */
static _Noreturn void unknown(const char *word)
{
    if (optopt != 0 && optopt < 256) {
        give_up(USAGE, NULL, "it does not take '-%c'; --help says more", optopt);
    }
    give_up(USAGE, NULL, "it does not take '%s'; --help says more", word);
}

static _Noreturn void not_for_this(int option)
{
    size_t i;

    for (i = 0; long_options[i].name != NULL; i++) {
        if (long_options[i].val == option) {
            give_up(USAGE, NULL, "it does not take '--%s'; --help says more", long_options[i].name);
        }
    }
    give_up(USAGE, NULL, "it does not take '-%c'; --help says more", option);
}

struct options options_of(const struct command *command, int count, char **words)
{
    struct options o = {0};
    int option;

    opterr = 0;
    while ((option = getopt_long(count, words, ":n:m:t:s:b:h", long_options, NULL)) != -1) {
        if (option == 'h' || option == HELP) {
            help(command);
        }
        if (option == ':') {
            give_up(USAGE, NULL, "the option '%s' needs a value; --help says more", words[optind - 1]);
        }
        if (option == '?') {
            unknown(words[optind - 1]);
        }
        if (!(take(&o, option, optarg) & command->has)) {
            not_for_this(option);
        }
    }
    o.operands = words + optind;
    o.operand_count = count - optind;
    judge(command, &o);
    return o;
}
