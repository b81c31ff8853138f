/* How much stack a piece of work takes: it runs on a stack of its own, painted before and looked over after. */
#ifndef STACK_H
#define STACK_H

#include <stddef.h>

size_t stack_taken(void (*work)(void));

#endif
