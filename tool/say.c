#include "say.h"

#include <errno.h>
#include <stdarg.h>
#include <stdbool.h>
#include <stdio.h>
#include <stdlib.h>
#include <string.h>
#include <unistd.h>

enum { STEP = 16 << 20 }; /* bytes of input from one line of progress to the next: a shorter input shows none */

const char *called = "";

static bool is_shown;

/* One write a line, so that the lines of a pipeline's commands do not mix. If it fails there is nobody to tell. */
static void put_line(const char *line, size_t length)
{
    ssize_t put = write(STDERR_FILENO, line, length);
    (void)put;
}

static void say(const char *file, const char *format, va_list values)
{
    char line[8192];
    char cause[1024];
    int length;
    int i;

    progress_done();
    vsnprintf(cause, sizeof cause, format, values);
    length = snprintf(line, sizeof line, "burst%s%s: %.6000s%s%s", *called ? " " : "", called, file ? file : "",
                      file ? ": " : "", cause);
    for (i = 0; i < length; i++) {
        if ((unsigned char)line[i] < ' ' || line[i] == 127) {
            line[i] = '?'; /* of a file's name or a word: one line stays one */
        }
    }
    line[length] = '\n';
    put_line(line, (size_t)length + 1);
}

void note(const char *file, const char *format, ...)
{
    va_list values;

    va_start(values, format);
    say(file, format, values);
    va_end(values);
}

void give_up(enum status status, const char *file, const char *format, ...)
{
    va_list values;

    va_start(values, format);
    say(file, format, values);
    va_end(values);
    exit(status);
}

void give_up_errno(const char *file)
{
    give_up(FAILED, file, "%s", strerror(errno));
}

void progress(uint64_t bytes)
{
    static uint64_t next = STEP;
    char line[128];
    int length;

    if (bytes < next) {
        return;
    }
    next = bytes + STEP;
    if (!isatty(STDERR_FILENO) || isatty(STDOUT_FILENO)) {
        return;
    }
    is_shown = true;
    length = snprintf(line, sizeof line, "\rburst %s: %llu MB\033[K", called, (unsigned long long)(bytes / 1000000));
    put_line(line, (size_t)length);
}

void progress_done(void)
{
    static const char erase[] = "\r\033[K";

    if (is_shown) {
        put_line(erase, sizeof erase - 1);
        is_shown = false;
    }
}
