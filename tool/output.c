#include "output.h"

#include "bytes.h"

enum { LONGEST = 64 }; /* line of blocks or deliveries, or more */

static unsigned char gathered[1 << 16];
static size_t filled;

void flush(void)
{
    write_all(gathered, filled);
    filled = 0;
}

void begin_whole(void)
{
    if (filled > sizeof gathered - LONGEST) {
        flush();
    }
}

void put_byte(unsigned char byte)
{
    if (filled == sizeof gathered) {
        flush();
    }
    gathered[filled++] = byte;
}

void put_word(const char *word)
{
    for (; *word != '\0'; word++) {
        put_byte((unsigned char)*word);
    }
}

void put_number(uint64_t number)
{
    char digits[21];
    char *first = digits + sizeof digits - 1;

    *first = '\0';
    do {
        *--first = (char)('0' + number % 10);
        number /= 10;
    } while (number != 0);
    put_word(first);
}

void put_block(uint16_t block, bool as_text)
{
    begin_whole();
    if (as_text) {
        put_number(block);
        put_byte('\n');
    } else {
        put_byte((unsigned char)(block & 0xff));
        put_byte((unsigned char)(block >> 8));
    }
}
