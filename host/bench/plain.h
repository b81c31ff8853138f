/* The calls of mosskirtle.h once more, by a plain C program of the same algorithms: what the proved ones are measured against. */
#ifndef PLAIN_H
#define PLAIN_H

#include "mosskirtle.h"

mosskirtle_selection plain_select(const int16_t *survey, size_t survey_len, uint32_t m, uint32_t tolerance,
                                  uint8_t *marks, size_t marks_len, int16_t *heights, size_t heights_len);
mosskirtle_mesh plain_triangles(const uint8_t *marks, size_t marks_len, uint32_t m, uint16_t *places, size_t places_len);
mosskirtle_height_answer plain_height(const uint8_t *marks, size_t marks_len, const int16_t *heights, size_t heights_len,
                                      uint32_t m, uint32_t x, uint32_t y);
mosskirtle_plane_answer plain_plane(const uint8_t *marks, size_t marks_len, const int16_t *heights, size_t heights_len,
                                    uint32_t m, uint32_t x, uint32_t y);

#endif
