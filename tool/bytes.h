/* Reading and writing descriptors. What fails ends the program. */
#ifndef BYTES_H
#define BYTES_H

#include <stdbool.h>
#include <stddef.h>

/* Standard input is meant by "-" and by null. */
bool is_standard(const char *file);
int open_input(const char *file);
const char *name_of(const char *file);
void close_input(int descriptor);

/* What one read gives, after a wait where it must wait; 0 at the end. */
size_t read_some(int descriptor, const char *name, void *bytes, size_t room);

/* Until the room is full or the input ends. */
size_t read_all(int descriptor, const char *name, void *bytes, size_t room);

/* To standard output. */
void write_all(const void *bytes, size_t length);

/* Standard output is complete; a file system may tell only here that it is not. */
void close_output(void);

/* A standard descriptor that is closed stays one that fails, and does not become the next file that is opened. */
void hold_standard_descriptors(void);

#endif
