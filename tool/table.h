/* Tables, made or read, and what is refused of them. What is refused ends the program. */
#ifndef TABLE_H
#define TABLE_H

#include <burst.h>

#include "command.h"

struct burst_table read_table(const char *file);
struct burst_table make_table(uint64_t symbols, uint64_t depth);

/* The table that the options name. */
struct burst_table table_of(const struct options *options);

/* Its rows in decimal, a blank before each. */
void put_rows(const struct burst_table *table);

/* Its bytes, to standard output. The file is what a refusal names, or null. */
void put_table(const struct burst_table *table, const char *file);

#endif
