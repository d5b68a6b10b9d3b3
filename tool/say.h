/* What is told on standard error, and the exit statuses. */
#ifndef SAY_H
#define SAY_H

#include <stdint.h>

enum status {
    DONE = 0,
    REFUSED = 1, /* by the library, or the input is damaged */
    USAGE = 2,
    FAILED = 3 /* input, output or memory */
};

/* The command that was called, which each line names; empty until it is known. */
extern const char *called;

/* A line; the file may be null. */
__attribute__((format(printf, 2, 3))) void note(const char *file, const char *format, ...);

/* A line, and the end. */
__attribute__((format(printf, 3, 4))) _Noreturn void give_up(enum status status, const char *file, const char *format,
                                                             ...);

/* The end, with a line that tells errno. */
_Noreturn void give_up_errno(const char *file);

/* How far a long input is, where somebody looks on: standard error is a terminal, and standard output is not. */
void progress(uint64_t bytes);
void progress_done(void);

#endif
