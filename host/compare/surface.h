/* The list and the query are one surface: by brute force over every triangle and every quarter-cell point. */
#ifndef SURFACE_H
#define SURFACE_H

#include "mosskirtle.h"

extern uint64_t surfaces;

/* Takes the marks and heights of an accepted selection and the places of its list, as the library left them: the list is accepted,
 * every triangle that contains a point gives the height and the origin answered there, and the triangles cover the square once. */
void compare_surface(uint32_t m, mosskirtle_mesh mesh);

#endif
