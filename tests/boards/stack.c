/* The stack painted before a call, and afterwards the lowest byte that is no longer painted. What painting itself takes, 64 bytes, is
 * not painted, so that a call that takes less is seen as 64 or less. */
#include "stack.h"

enum { PAINT = 0x5aa55aa5, UNPAINTED = 64, ROOM = 6 * 1024 };

uint32_t deepest[CALLS];
static int looking;

void look_at_stack(int looks) { looking = looks; }

__attribute__((noinline)) void paint_stack(uint32_t stack_pointer) {
    if (!looking) return;
    for (uint32_t at = stack_pointer - ROOM; at < stack_pointer - UNPAINTED; at += 4) *(volatile uint32_t *)(uintptr_t)at = PAINT;
}

__attribute__((noinline)) void see_stack(enum call call, uint32_t stack_pointer) {
    if (!looking) return;
    uint32_t at = stack_pointer - ROOM;
    while (at < stack_pointer - UNPAINTED && *(volatile uint32_t *)(uintptr_t)at == PAINT) at += 4;
    if (deepest[call] < stack_pointer - at) deepest[call] = stack_pointer - at;
}
