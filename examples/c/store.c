/*
 * Stores a table that was read from a radio: reads it, writes it into a buffer, and reads that back.
 * Prints the stored bytes, a record a line, and fails if a call is refused or the table that comes back is another one.
 */
#include <stdio.h>
#include <string.h>

#include "burst.h"

/* n = 3, N = 6, m = 1, and rows 2 and 1, which are 34 and 56 (Massey, example 2). */
static const uint8_t radio[] = {1, 3, 6, 1, 2, 2, 34, 0, 0, 0, 0, 0, 0, 0, 2, 1, 56, 0, 0, 0, 0, 0, 0, 0, 0};

static int refused(const char *call, uint64_t number)
{
    if (number != BURST_NOT_REFUSED) {
        fprintf(stderr, "%s: %s\n", call, burst_refusal_text(number));
    }
    return number != BURST_NOT_REFUSED;
}

/* A record: a byte of kind, and then as many as the kind has. */
static size_t print_record(const uint8_t *record)
{
    static const size_t sizes[] = {1, 4, 10};
    size_t i;
    for (i = 0; i < sizes[record[0]]; i++) {
        printf(i == 0 ? "%02x" : " %02x", record[i]);
    }
    printf("\n");
    return i;
}

int main(void)
{
    struct burst_table table;
    struct burst_table again;
    uint8_t stored[BURST_TABLE_BYTES(BURST_MOST_SYMBOLS)]; /* enough for any table */
    struct burst_reading read = burst_read(radio, sizeof radio, &table);
    struct burst_written written;
    size_t at = 0;

    if (refused("read", read.refused)) {
        return 2;
    }
    written = burst_write(&table, stored, sizeof stored);
    if (refused("write", written.refused)) {
        return 2;
    }
    while (at < written.length) {
        at += print_record(stored + at);
    }
    read = burst_read(stored, (size_t)written.length, &again);
    if (refused("read again", read.refused)) {
        return 2;
    }
    if (memcmp(&table, &again, sizeof table) != 0) {
        fprintf(stderr, "another table came back\n");
        return 1;
    }
    return 0;
}
