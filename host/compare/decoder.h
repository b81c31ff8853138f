/* Strips read back: by the usual rule, from what the library wrote, without the reference. */
#ifndef DECODER_H
#define DECODER_H

#include "mosskirtle.h"

extern uint64_t strips;

/* Takes the answers of the list and of the strip for the same marks, each with room enough, and what the library left in both: the
 * strip is refused as the list is, or gives the list's triangles in their order, turning the same way, in at most two places each, and
 * repeats a place only where a turn needs it. */
void read_back(mosskirtle_mesh mesh, mosskirtle_strip_answer answer);

#endif
