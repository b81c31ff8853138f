/* Each call made twice, by the library and by the reference, on lent buffers between guards; answers and whole buffers are compared. */
#ifndef CALLS_H
#define CALLS_H

#include <stdbool.h>

#include "reference.h"

/* One size more than the library takes; what a length loses that is cut to 16 bits; room for the longest wrong length, which is longer
 * than the right one by that much. */
enum { SIZE_BEYOND = LARGEST_SIZE + 1, CUT_OFF = 1 << 16 };
enum { LARGEST_SIDE = (1 << LARGEST_SIZE) + 1, MOST_SAMPLES = LARGEST_SIDE * LARGEST_SIDE + CUT_OFF };

/* A buffer in two copies of `len` entries. */
typedef struct { const char *name; size_t width, len; uint8_t *library, *reference; } lent;

extern lent survey, marks, heights, places, strip;

/* What is compared now, for the description of a difference. */
extern const char *under_way;
extern uint64_t under_way_seed;
extern uint64_t cases;

/* (N+1)^2, for a size up to the one beyond. */
size_t samples_of(uint32_t m);

bool is_corner(uint32_t m, size_t place);

void make_buffers(void);

/* Lays the content, or where there is none the pattern alone, into both copies. */
void lend(lent *buffer, const void *content, size_t len);

/* Writes one entry of both copies. */
void set_mark(size_t place, uint8_t mark);
void set_height(size_t place, int16_t height);

/* What the library left. */
const uint8_t *marks_left(void);
const int16_t *heights_left(void);
const uint16_t *places_left(void);
const uint16_t *strip_left(void);

/* Each compares one call on what is lent; a difference ends the program. */
mosskirtle_selection compare_select(uint32_t m, uint32_t tolerance);
mosskirtle_mesh compare_triangles(uint32_t m);
mosskirtle_strip_answer compare_strip(uint32_t m);
mosskirtle_height_answer compare_height(uint32_t m, uint32_t x, uint32_t y);
void compare_plane(uint32_t m, uint32_t x, uint32_t y);

/* Describes the case and ends the program with status 1. */
_Noreturn void differs(const char *call, const char *what);

#endif
