/* WebAssembly: what is printed goes to the program that runs it. */
#include "machine.h"

__attribute__((import_name("put_text"))) void put_text_outside(const char *words);

void put_text(const char *words) { put_text_outside(words); }

void count_instructions(void) {}

uint32_t instructions(void) { return 0; }
