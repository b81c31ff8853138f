/* The grids that the bench measures on: windows of real surveys, and made ones. */
#ifndef INPUTS_H
#define INPUTS_H

#include <stddef.h>
#include <stdint.h>

enum { SMALLEST_MEASURED = 3, LARGEST_MEASURED = 7 };
enum { MOST_SAMPLES = ((1 << LARGEST_MEASURED) + 1) * ((1 << LARGEST_MEASURED) + 1), MOST_TRIANGLES = 2 << 2 * LARGEST_MEASURED };

typedef enum { REAL, SMOOTH, FLAT, NOISY, PEAKS, HOLES, MOSTLY_VOID, ALL_VOID } ground;

typedef struct {
    const char *name;
    uint32_t m, tolerance;
    int16_t survey[MOST_SAMPLES];
} input;

size_t samples_of(uint32_t m);

/* A survey of one size: big-endian heights, row by row from the south-west. Ends the program where it can't be read. */
void read_input(input *in, const char *path, uint32_t m, uint32_t tolerance);

/* The real survey is of the largest size. */
void make_input(input *in, ground kind, const input *real, uint32_t m, uint32_t tolerance);

/* The next number of a fixed row of numbers below the limit, which all seem drawn at random. */
uint32_t drawn(uint32_t *state, uint32_t limit);

#endif
