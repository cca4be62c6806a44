/* A Cortex-M board from its reset: memory, main, and the instructions counted by SysTick. A fault ends the program. */
#include "machine.h"
#include "semihosting.h"

extern uint32_t data_start[], data_end[], data_loaded[], bss_start[], bss_end[], stack_top[];
int main(void);

void semihosting(uint32_t number, const void *argument) {
    register uint32_t r0 __asm__("r0") = number;
    register const void *r1 __asm__("r1") = argument;
    __asm__ volatile("bkpt 0xab" : "+r"(r0) : "r"(r1) : "memory");
}

#define SYSTICK ((volatile uint32_t *)0xe000e010)
#define COPROCESSORS ((volatile uint32_t *)0xe000ed88)

static void reset(void) {
#if defined(__ARM_FP)
    /* floating point on: the compiler moves numbers of 64 bits by its registers */
    COPROCESSORS[0] |= 0xf << 20;
#endif
    for (uint32_t *to = data_start, *from = data_loaded; to != data_end;) *to++ = *from++;
    for (uint32_t *to = bss_start; to != bss_end;) *to++ = 0;
    end(main());
}

/* SysTick counts down, in 24 bits, at the board's clock, and the emulator is told to take 1,024 ns for each instruction. */
void count_instructions(void) {
    SYSTICK[0] = 0;
    SYSTICK[1] = 0xffffff;
    SYSTICK[2] = 0;
    SYSTICK[0] = 5; /* on, at the processor's clock */
}

uint32_t instructions(void) { return (uint32_t)((uint64_t)(0xffffff - SYSTICK[2]) * (1000000000 / CLOCK_IN_KHZ) / 1024000); }

static void fault(void) {
    put_text("fault\n");
    end(1);
}

__attribute__((section(".vectors"), used)) static void *const vectors[16] = {
    stack_top, (void *)reset, (void *)fault, (void *)fault, (void *)fault, (void *)fault, (void *)fault,
};
