/* The proved calls, the plain ones, and empty ones. */
#include "calls.h"

#include "plain.h"

static mosskirtle_selection no_select(const int16_t *survey, size_t survey_len, uint32_t m, uint32_t tolerance,
                                      uint8_t *marks, size_t marks_len, int16_t *heights, size_t heights_len)
{
    (void)survey, (void)survey_len, (void)m, (void)tolerance, (void)marks, (void)marks_len, (void)heights, (void)heights_len;
    return (mosskirtle_selection){0};
}

static mosskirtle_mesh no_triangles(const uint8_t *marks, size_t marks_len, uint32_t m, uint16_t *places, size_t places_len)
{
    (void)marks, (void)marks_len, (void)m, (void)places, (void)places_len;
    return (mosskirtle_mesh){0};
}

static mosskirtle_height_answer no_height(const uint8_t *marks, size_t marks_len, const int16_t *heights, size_t heights_len,
                                          uint32_t m, uint32_t x, uint32_t y)
{
    (void)marks, (void)marks_len, (void)heights, (void)heights_len, (void)m, (void)x, (void)y;
    return (mosskirtle_height_answer){0};
}

static mosskirtle_plane_answer no_plane(const uint8_t *marks, size_t marks_len, const int16_t *heights, size_t heights_len,
                                        uint32_t m, uint32_t x, uint32_t y)
{
    (void)marks, (void)marks_len, (void)heights, (void)heights_len, (void)m, (void)x, (void)y;
    return (mosskirtle_plane_answer){0};
}

static mosskirtle_strip_answer no_strip(const uint8_t *marks, size_t marks_len, uint32_t m, uint16_t *places, size_t places_len)
{
    (void)marks, (void)marks_len, (void)m, (void)places, (void)places_len;
    return (mosskirtle_strip_answer){0};
}

const calls ours = {mosskirtle_select, mosskirtle_triangles, mosskirtle_height, mosskirtle_plane, mosskirtle_strip};
const calls plain = {plain_select, plain_triangles, plain_height, plain_plane, NULL};
const calls none = {no_select, no_triangles, no_height, no_plane, no_strip};
