/* An APB UART of Arm's CMSDK. Its interrupt wakes the processor and is not taken, so that no code runs beside the panel's. */
#include "uart.h"
#include "board.h"

enum { DATA, STATE, CONTROL, INTERRUPT, DIVIDER };
enum { FULL_TO_SEND = 1, FULL_TAKEN = 2, SENDS = 1, TAKES = 2, TELLS_OF_TAKEN = 8, TAKEN = 2 };

void uart_start(void) {
    __asm__ volatile("cpsid i");
    UART[DIVIDER] = 217; /* 115,200 baud at 25 MHz */
    UART[CONTROL] = SENDS | TAKES | TELLS_OF_TAKEN;
    INTERRUPTS_ON[0] = UART_INTERRUPT;
    (void)UART[DATA]; /* a byte that came before belongs to no line */
}

void uart_put(uint8_t byte) {
    while ((UART[STATE] & FULL_TO_SEND) != 0) {
    }
    UART[DATA] = byte;
}

uint8_t uart_take(void) {
    while ((UART[STATE] & FULL_TAKEN) == 0) __asm__ volatile("wfi");
    const uint8_t byte = (uint8_t)UART[DATA];
    UART[INTERRUPT] = TAKEN;
    INTERRUPTS_WAITING[0] = UART_INTERRUPT;
    return byte;
}
