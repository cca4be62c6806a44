/* Where things stand on the board mps2-an386: what a panel of another make changes first. */
#ifndef BOARD_H
#define BOARD_H

#include <stdint.h>

/* The UART by which the panel is loaded and asked, an APB UART of Arm's CMSDK. */
#define UART ((volatile uint32_t *)0x40004000)
#define UART_INTERRUPT ((uint32_t)1 << 0)

/* The processor's interrupts: a bit written here lets one come, and there forgets one that came. */
#define INTERRUPTS_ON ((volatile uint32_t *)0xe000e100)
#define INTERRUPTS_WAITING ((volatile uint32_t *)0xe000e280)

/* The memory that stands for a flash page; what it holds outlives the power. */
#define PAGE ((volatile uint32_t *)0x21000000)

/* The lamp: 1 is green, 0 is out. */
#define LAMP ((volatile uint8_t *)0x21002000)

/* When the power goes, for the tests: after how many words of the page, 0 for never, and which bits of the last one still change. */
#define POWER ((volatile uint32_t *)0x21002004)

/* Starts anew, as when the power comes back: the start-up sets all memory that the program uses but the page. */
_Noreturn void restart(void);

#endif
