/* What the start-up of tests/boards asks of a program beside its main: where words go, and what becomes of a fault. */
#include "board.h"
#include "machine.h"
#include "semihosting.h"
#include "uart.h"

#define APPLICATION_INTERRUPT_AND_RESET ((volatile uint32_t *)0xe000ed0c)

_Noreturn void restart(void) {
    *LAMP = 0;
    *APPLICATION_INTERRUPT_AND_RESET = 0x05fa0004; /* the key, and the request */
    for (;;) {
    }
}

void put_text(const char *words) {
    while (*words != 0) uart_put((uint8_t)*words++);
}

_Noreturn void end(int status) {
    (void)status;
    restart();
}
