/* A machine with an operating system. */
#include "machine.h"
#include <stdio.h>

void put_text(const char *words) { fputs(words, stdout); }

void count_instructions(void) {}

uint32_t instructions(void) { return 0; }
