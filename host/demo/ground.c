/* What is asked of a mesh, of its corners and of the library about it. */
#include "ground.h"

#include <stdio.h>

uint32_t cells(const ground *g)
{
    return (uint32_t)1 << g->m;
}

point corner(const ground *g, uint16_t place)
{
    uint32_t side = cells(g) + 1;
    return (point){place % side, place / side};
}

/* A quarter of l, half of a and a quarter of r, in quarter cells: whole at every size of triangle. */
point inside(const ground *g, uint32_t triangle)
{
    const uint16_t *places = g->places + 3 * triangle;
    point l = corner(g, places[0]), a = corner(g, places[1]), r = corner(g, places[2]);
    return (point){l.x + 2 * a.x + r.x, l.y + 2 * a.y + r.y};
}

mosskirtle_height_answer height_at(const ground *g, point at)
{
    return mosskirtle_height(g->marks, g->samples, g->heights, g->samples, g->m, at.x, at.y);
}

mosskirtle_plane_answer plane_at(const ground *g, point at)
{
    return mosskirtle_plane(g->marks, g->samples, g->heights, g->samples, g->m, at.x, at.y);
}

const char *counted(uint32_t number, char text[8])
{
    if (number < 1000)
        snprintf(text, 8, "%u", number);
    else
        snprintf(text, 8, "%u,%03u", number / 1000 % 1000, number % 1000);
    return text;
}
