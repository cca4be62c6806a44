/* What the programs here ask of the machine that they run on. */
#ifndef MACHINE_H
#define MACHINE_H

#include <stdint.h>

void put_text(const char *words);

/* Starts to count instructions, and gives those counted since, some 500,000 at most; 0 where they are not counted. */
void count_instructions(void);
uint32_t instructions(void);

#endif
