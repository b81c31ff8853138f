/* The mesh of one survey, as the calls of Mosskirtle left it. */
#ifndef GROUND_H
#define GROUND_H

#include "mosskirtle.h"

enum {
    MOST_CELLS = 1 << 7, /* each way, at the largest size */
    MOST_SAMPLES = (MOST_CELLS + 1) * (MOST_CELLS + 1),
    MOST_TRIANGLES = 2 * MOST_CELLS * MOST_CELLS,
    ROOM = MOST_SAMPLES + 1, /* so that a survey that is too long is seen to be */
    FILLED_CORNER = 6        /* the mark of a void that is kept */
};

typedef struct {
    char **source; /* lines that tell where the survey is from, null after the last */
    uint32_t m, tolerance, filled_corners, filled_triangles;
    size_t samples;
    int16_t survey[ROOM], heights[ROOM];
    uint8_t marks[ROOM];
    uint16_t places[3 * MOST_TRIANGLES], filled[MOST_TRIANGLES]; /* filled: the triangles with a filled corner */
    uint16_t strip_places[2 * MOST_TRIANGLES];
    mosskirtle_selection selection;
    mosskirtle_mesh mesh;
    mosskirtle_strip_answer strip;
} ground;

/* A point: in quarter cells where a height is asked for, in cells where it is a corner. */
typedef struct { uint32_t x, y; } point;

/* N: the cells each way. */
uint32_t cells(const ground *g);

point corner(const ground *g, uint16_t place);

/* A point strictly inside a triangle, in quarter cells, so that each of its corners weighs there. */
point inside(const ground *g, uint32_t triangle);

mosskirtle_height_answer height_at(const ground *g, point at);
mosskirtle_plane_answer plane_at(const ground *g, point at);

/* The number with a comma between its thousands; it has to be below a million. */
const char *counted(uint32_t number, char text[8]);

#endif
