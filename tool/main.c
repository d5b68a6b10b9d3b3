/* burst: the relay's burst codec on the command line. The library decides; this moves bytes to it and from it. */
#include <signal.h>
#include <string.h>

#include <burst.h>

#include "bytes.h"
#include "command.h"
#include "output.h"
#include "say.h"

static const struct command *const commands[] = {
    &make_command, &check_command, &write_command, &code_command,
    &decode_command, &load_command, &fade_command, &stats_command,
};

enum { COMMANDS = sizeof commands / sizeof *commands };

static void put_help(void)
{
    size_t i;

    put_word("Codes and decodes blocks for a channel that fades.\n\n");
    for (i = 0; i < COMMANDS; i++) {
        put_usage(commands[i]);
    }
    put_word("burst [COMMAND] --help\nburst --version\n\n");
    put_word(table_help);
    put_word("Exit status: 0 done, 1 refused or damaged, 2 wrong usage, 3 input or output failed.\n"
             "burst(1) says more.\n");
}

static const struct command *command_named(const char *name)
{
    size_t i;

    for (i = 0; i < COMMANDS; i++) {
        if (strcmp(commands[i]->name, name) == 0) {
            return commands[i];
        }
    }
    give_up(USAGE, NULL, "there is no command '%s'; burst --help has them", name);
}

static bool is_either(const char *word, const char *letter, const char *name)
{
    return strcmp(word, letter) == 0 || strcmp(word, name) == 0;
}

int main(int count, char **words)
{
    hold_standard_descriptors();
    /* A reader that went away, or a limit on the size of files, is told as any other output that fails. */
    signal(SIGPIPE, SIG_IGN);
    signal(SIGXFSZ, SIG_IGN);
    if (count < 2) {
        give_up(USAGE, NULL, "a command is needed; burst --help has them");
    }
    if (is_either(words[1], "-h", "--help")) {
        put_help();
    } else if (is_either(words[1], "-V", "--version")) {
        put_word("burst " BURST_VERSION "\n");
    } else {
        const struct command *command = command_named(words[1]);
        static struct options options; /* what it points to is there to the end */

        called = command->name;
        options = options_of(command, count - 1, words + 1);
        command->run(&options);
    }
    flush();
    close_output();
    progress_done();
    return DONE;
}
