/* Exact geometry on whole numbers: orientation by determinants, and the f32 that a fraction is. */
#ifndef EXACT_H
#define EXACT_H

#include <stdint.h>

typedef struct { int x, y; } point;
typedef struct { point l, a, r; } triangle;
typedef struct { int64_t over, under; } fraction;

/* Twice the area of a, b, c: above zero where they turn counter-clockwise, zero on one line. */
int64_t orientation(point a, point b, point c);

/* The bits of the f32 that equals the fraction, plus zero for zero; ends the program where no f32 does. */
uint32_t float_bits(fraction value);

#endif
