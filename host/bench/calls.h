/* The calls by one maker, so that each can be measured in the same way. */
#ifndef CALLS_H
#define CALLS_H

#include "mosskirtle.h"

typedef struct {
    mosskirtle_selection (*select)(const int16_t *, size_t, uint32_t, uint32_t, uint8_t *, size_t, int16_t *, size_t);
    mosskirtle_mesh (*triangles)(const uint8_t *, size_t, uint32_t, uint16_t *, size_t);
    mosskirtle_height_answer (*height)(const uint8_t *, size_t, const int16_t *, size_t, uint32_t, uint32_t, uint32_t);
    mosskirtle_plane_answer (*plane)(const uint8_t *, size_t, const int16_t *, size_t, uint32_t, uint32_t, uint32_t);
    mosskirtle_strip_answer (*strip)(const uint8_t *, size_t, uint32_t, uint16_t *, size_t);
} calls;

/* There is no plain strip. None does nothing: what it takes is what measuring takes. */
extern const calls ours, plain, none;

#endif
