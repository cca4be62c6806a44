/* Arm's semihosting, by which a board's program asks the emulator, or a debugger, to print and to end; RISC-V has the same calls. */
#ifndef SEMIHOSTING_H
#define SEMIHOSTING_H

#include <stdint.h>

/* A call of this number, made in the way of the machine. */
void semihosting(uint32_t number, const void *argument);

/* Ends the program; failed unless the status is 0. */
_Noreturn void end(int status);

#endif
