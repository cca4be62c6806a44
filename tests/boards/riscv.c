/* The RISC-V board from its reset: memory, main, and the instructions that the processor counts. A fault ends the program. */
#include "machine.h"
#include "semihosting.h"

extern uint32_t bss_start[], bss_end[];
int main(void);

/* The three instructions by which the emulator knows the call. */
void semihosting(uint32_t number, const void *argument) {
    register uint32_t a0 __asm__("a0") = number;
    register const void *a1 __asm__("a1") = argument;
    __asm__ volatile(".option push\n.option norvc\n.balign 16\nslli x0, x0, 0x1f\nebreak\nsrai x0, x0, 7\n.option pop"
                     : "+r"(a0)
                     : "r"(a1)
                     : "memory");
}

static uint32_t counted(void) {
    uint32_t count;
    __asm__ volatile("csrr %0, minstret" : "=r"(count));
    return count;
}

static uint32_t first_count;

void count_instructions(void) { first_count = counted(); }

uint32_t instructions(void) { return counted() - first_count; }

__attribute__((used)) static void started(void) {
    for (uint32_t *to = bss_start; to != bss_end;) *to++ = 0;
    end(main());
}

__attribute__((used)) static void fault(void) {
    put_text("fault\n");
    end(1);
}

__asm__(".section .reset, \"ax\"\n.global reset\nreset:\nla sp, stack_top\nla t0, trap\ncsrw mtvec, t0\nj started\n.balign 4\ntrap:\nj fault\n");
