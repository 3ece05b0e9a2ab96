/* Numbers given to a program as words. */
#ifndef WORDS_H
#define WORDS_H

#include <stdint.h>

#define MOST_SEED UINT32_MAX

/* The number that the word says: digits alone, from `low` to `high`, below 2^32. Of another word the program says what it
   should have been, and ends with status 2. */
uint64_t number_given(const char *program, const char *what, const char *word, uint64_t low, uint64_t high);

#endif
