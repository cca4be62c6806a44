/* Numbers in words and back. */
#ifndef WORDS_H
#define WORDS_H

#include <stdbool.h>
#include <stdint.h>

void put_number(uint64_t number);
void put_signed(int64_t number);

/* Takes ` NUMBER` from the start of the words, which then start after it; false where there is none, or one of more than 64 bits. */
bool take_number(const uint8_t **words, const uint8_t *end, uint64_t *number);

#endif
