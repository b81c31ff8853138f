/* Paints a stack, runs work on it, and tells how deep the paint is gone. */
#define _GNU_SOURCE
#include "stack.h"

#include <stdint.h>
#include <string.h>
#include <ucontext.h>

enum { ROOM = 1 << 18, PAINT = 0xA5 };

static uint8_t stack[ROOM];

size_t stack_taken(void (*work)(void))
{
    ucontext_t here, there;
    memset(stack, PAINT, ROOM);
    getcontext(&there);
    there.uc_stack.ss_sp = stack;
    there.uc_stack.ss_size = ROOM;
    there.uc_link = &here;
    makecontext(&there, work, 0);
    swapcontext(&here, &there);
    size_t untouched = 0;
    while (untouched < ROOM && stack[untouched] == PAINT)
        untouched++;
    return ROOM - untouched;
}
