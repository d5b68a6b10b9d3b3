#include "table.h"

#include "bytes.h"
#include "output.h"
#include "say.h"

/*
 * More than reading looks at: records that it accepts have 155 bytes at most, and the next one has 10, so that of a
 * longer file its refusal is that of these bytes.
 */
enum { MOST_BYTES = 4096 };

static _Noreturn void unsuitable(const char *file, uint64_t l, uint64_t e0, uint64_t e1)
{
    give_up(REFUSED, file,
            "refused %d: %s, l = %llu, e0 = %llu, e1 = %llu (the image of e1 shifted by l is that of e0)",
            BURST_REFUSED_UNSUITABLE, burst_refusal_text(BURST_REFUSED_UNSUITABLE), (unsigned long long)l,
            (unsigned long long)e0, (unsigned long long)e1);
}

struct burst_table read_table(const char *file)
{
    unsigned char bytes[MOST_BYTES];
    struct burst_table table;
    const char *name = name_of(file);
    int descriptor = open_input(file);
    size_t length = read_all(descriptor, name, bytes, sizeof bytes);
    struct burst_reading reading = burst_read(bytes, length, &table);

    close_input(descriptor);
    if (reading.refused == BURST_REFUSED_UNSUITABLE) {
        unsuitable(name, reading.l, reading.e0, reading.e1);
    }
    if (reading.refused != BURST_NOT_REFUSED) {
        give_up(REFUSED, name, "refused %llu at byte %llu: %s", (unsigned long long)reading.refused,
                (unsigned long long)reading.place, burst_refusal_text(reading.refused));
    }
    return table;
}

struct burst_table make_table(uint64_t symbols, uint64_t depth)
{
    struct burst_table table;
    uint64_t refused = burst_make(symbols, depth, &table);

    if (refused != BURST_NOT_REFUSED) {
        give_up(REFUSED, NULL, "n = %llu, m = %llu: refused %llu: %s", (unsigned long long)symbols,
                (unsigned long long)depth, (unsigned long long)refused, burst_refusal_text(refused));
    }
    return table;
}

struct burst_table table_of(const struct options *o)
{
    return o->table != NULL ? read_table(o->table) : make_table(o->symbols, o->depth);
}

void put_rows(const struct burst_table *table)
{
    uint64_t j;

    for (j = 1; j < table->symbols; j++) {
        put_byte(' ');
        put_number(table->rows[j - 1]);
    }
}

void put_table(const struct burst_table *table, const char *file)
{
    unsigned char bytes[BURST_TABLE_BYTES(BURST_MOST_SYMBOLS)];
    struct burst_written written = burst_write(table, bytes, sizeof bytes);

    if (written.refused == BURST_REFUSED_UNSUITABLE) {
        unsuitable(file, written.l, written.e0, written.e1);
    }
    if (written.refused != BURST_NOT_REFUSED) {
        give_up(REFUSED, file, "refused %llu: %s", (unsigned long long)written.refused,
                burst_refusal_text(written.refused));
    }
    write_all(bytes, written.length);
}
