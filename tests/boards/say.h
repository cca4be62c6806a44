/* Numbers in words. */
#ifndef SAY_H
#define SAY_H

#include "machine.h"

void say_number(uint32_t number);
void say_hexadecimal(uint32_t number);

#endif
