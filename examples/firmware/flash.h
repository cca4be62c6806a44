/* A flash page of words: an erase sets every bit, a write clears bits. */
#ifndef FLASH_H
#define FLASH_H

#include <stdint.h>

enum { FLASH_WORDS = 1026 };

void flash_erase(void);
void flash_write(uint32_t at, uint32_t word);
uint32_t flash_word(uint32_t at);

#endif
