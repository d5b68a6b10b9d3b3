#include "scan.h"

#include <stddef.h>

bool scan_word(const char *word, uint64_t most, uint64_t *value)
{
    struct scan s = {0, false};
    size_t i;

    for (i = 0; word[i] != '\0'; i++) {
        if (scan(&s, (unsigned char)word[i], most) != SCAN_ON || !s.begun) {
            return false;
        }
    }
    *value = s.value;
    return s.begun;
}
