/* Marks about one point, at any size: the least closed set that holds it, whole, with a bad mark, and short of one point. */
#ifndef CLOSED_H
#define CLOSED_H

#include "calls.h"

/* For points of every spacing, on each border and inside. */
void compare_closed_sets(uint32_t m);

void compare_corner_marks(uint32_t m);

#endif
