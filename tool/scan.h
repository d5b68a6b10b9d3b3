/* Decimal numbers, from characters as they come: each is ended by a blank or an end of line. */
#ifndef SCAN_H
#define SCAN_H

#include <stdbool.h>
#include <stdint.h>

struct scan {
    uint64_t value;
    bool begun; /* within a number */
};

enum scanned {
    SCAN_ON,     /* more characters are needed */
    SCAN_NUMBER, /* value is a whole number */
    SCAN_FAULT   /* neither a digit nor a blank, or the number is above the most */
};

static inline enum scanned scan(struct scan *s, unsigned char c, uint64_t most)
{
    if (c >= '0' && c <= '9') {
        uint64_t digit = (uint64_t)(c - '0');
        uint64_t before = s->begun ? s->value : 0;

        if (before > most / 10 || 10 * before > most - digit) {
            return SCAN_FAULT;
        }
        s->value = 10 * before + digit;
        s->begun = true;
        return SCAN_ON;
    }
    if (c == ' ' || c == '\t' || c == '\n' || c == '\r') {
        bool is_ended = s->begun;

        s->begun = false;
        return is_ended ? SCAN_NUMBER : SCAN_ON;
    }
    return SCAN_FAULT;
}

/* The whole of a word of the command line; false if it is no number up to the most. */
bool scan_word(const char *word, uint64_t most, uint64_t *value);

#endif
