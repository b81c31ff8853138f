/* Probes of the marks and heights that are lent: rooms for the list and the strip, points for the queries, damage. */
#ifndef PROBES_H
#define PROBES_H

#include "calls.h"

#define COUNT(array) (sizeof(array) / sizeof *(array))

enum { GOOD_MARKS = 5 };
extern const uint8_t good_marks[GOOD_MARKS];

/* For a size that the library takes: marks that keep the grid corners alone, into what is lent and long enough, or lent anew; heights at
 * random. */
void set_bare_marks(uint32_t m);
void lend_bare_marks(uint32_t m);
void lend_random_heights(uint32_t m);

/* Rooms for the list and the strip, from too small to more than enough; the last, that of the answer, leaves a whole list and no more
 * in the places. */
mosskirtle_mesh compare_rooms(uint32_t m);

/* Rooms for the strip alone; it is read back against the list that the library left in the places, answered with that mesh. */
void compare_strip_rooms(uint32_t m, mosskirtle_mesh mesh);

/* Both queries: on and beyond every border of a square of that many quarter cells; at every point; at random; at and about a sample. */
void compare_borders(uint32_t m, uint32_t last);
void compare_everywhere(uint32_t m);
void compare_somewhere(uint32_t m, int times);
void compare_near(uint32_t m, size_t place);

/* Damages marks and heights here and there, a few at a time, and leaves both as they were. */
void compare_damaged(uint32_t m, int times);

#endif
