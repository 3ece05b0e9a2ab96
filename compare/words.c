/* Numbers given to a program as words. */
#include "words.h"

#include <inttypes.h>
#include <stdio.h>
#include <stdlib.h>

uint64_t number_given(const char *program, const char *what, const char *word, uint64_t low, uint64_t high)
{
    uint64_t number = 0;
    const char *at = word;
    for (; *at >= '0' && *at <= '9' && number <= high; at++)
        number = 10 * number + (uint64_t)(*at - '0');
    if (at == word || *at || number < low || number > high) {
        fprintf(stderr, "%s: %s is a whole number from %" PRIu64 " to %" PRIu64 ", not '%s'\n", program, what, low, high,
                word);
        exit(2);
    }
    return number;
}
