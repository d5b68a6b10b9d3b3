/* Standard output: blocks in either form, numbers and words, gathered and written by flush. */
#ifndef OUTPUT_H
#define OUTPUT_H

#include <stdbool.h>
#include <stdint.h>

/* Before a line or a block: it is not written in two parts. */
void begin_whole(void);

void put_byte(unsigned char byte);
void put_word(const char *word);
void put_number(uint64_t number);

/* Two bytes, low first, or a line of text. */
void put_block(uint16_t block, bool as_text);

void flush(void);

#endif
