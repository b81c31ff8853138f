/* A picture of a mesh. */
#ifndef PICTURE_H
#define PICTURE_H

#include <stdbool.h>
#include <stdio.h>

#include "ground.h"

/* Writes the mesh as seen from above, north up, as a standalone SVG; with the strip's path over it where that is wanted. */
void draw(const ground *g, bool with_strip, FILE *out);

#endif
