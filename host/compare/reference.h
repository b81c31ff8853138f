/* The independent reference: a twin of each call of mosskirtle.h, written for obviousness; and the numbers that the rules name. */
#ifndef REFERENCE_H
#define REFERENCE_H

#include "mosskirtle.h"

enum { LARGEST_SIZE = 7, LARGEST_TOLERANCE = 65535, LARGEST_HEIGHT = 32767, QUARTERS = 4 };

/* Marks: one of the first four, and WAS_VOID more where the sample was void. */
enum { LEFT_OUT = 0, OWN = 1, DEPENDENT = 2, CORNER = 3, WAS_VOID = 4 };

mosskirtle_selection reference_select(const int16_t *survey, size_t survey_len, uint32_t m, uint32_t tolerance,
                                      uint8_t *marks, size_t marks_len, int16_t *heights, size_t heights_len);
mosskirtle_mesh reference_triangles(const uint8_t *marks, size_t marks_len, uint32_t m, uint16_t *places, size_t places_len);
mosskirtle_strip_answer reference_strip(const uint8_t *marks, size_t marks_len, uint32_t m, uint16_t *places, size_t places_len);
mosskirtle_height_answer reference_height(const uint8_t *marks, size_t marks_len, const int16_t *heights, size_t heights_len,
                                          uint32_t m, uint32_t x, uint32_t y);
mosskirtle_plane_answer reference_plane(const uint8_t *marks, size_t marks_len, const int16_t *heights, size_t heights_len,
                                        uint32_t m, uint32_t x, uint32_t y);

/* Keeps all that kept points depend on: with one point kept beside the grid corners, the least closed set that holds it. */
void reference_close(uint8_t *marks, uint32_t m);

/* |2h - (sum of its ends' heights)| for a sample that is no grid corner: thresholds are looked for there. */
uint32_t reference_doubled_error(const int16_t *heights, uint32_t m, size_t place);

#endif
