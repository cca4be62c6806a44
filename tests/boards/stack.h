/* The stack that each call takes, where this is looked at: on the Arm and RISC-V boards. */
#ifndef STACK_H
#define STACK_H

#include <stdint.h>

enum call {
    READ, WRITE, LOAD, LAYOUT, VERDICT, FIND, BUILD, READING,
    PANEL_POWER_ON, PANEL_LOAD, PANEL_BEGIN, PANEL_LINE, PANEL_END, PANEL_STATUS, PANEL_READING, PANEL_GAUGE,
    CALLS
};

/* Whether the next calls are looked at. */
void look_at_stack(int looks);
void paint_stack(uint32_t stack_pointer);
void see_stack(enum call call, uint32_t stack_pointer);

/* The deepest of each call, from the caller's stack pointer down. */
extern uint32_t deepest[CALLS];

#if defined(__arm__)
#define STACK_POINTER(pointer) __asm__ volatile("mov %0, sp" : "=r"(pointer))
#elif defined(__riscv)
#define STACK_POINTER(pointer) __asm__ volatile("mv %0, sp" : "=r"(pointer))
#endif

#if defined(STACK_POINTER)
#define LOOKED_AT(call, ...) \
    uint32_t call##_pointer; \
    STACK_POINTER(call##_pointer); \
    paint_stack(call##_pointer); \
    __VA_ARGS__; \
    see_stack(call, call##_pointer)
#else
#define LOOKED_AT(call, ...) __VA_ARGS__
#endif

#endif
