/* The UART, a byte at a time. */
#ifndef UART_H
#define UART_H

#include <stdint.h>

void uart_start(void);
void uart_put(uint8_t byte);

/* Waits for the next byte. */
uint8_t uart_take(void);

#endif
