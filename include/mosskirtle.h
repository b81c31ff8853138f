/* Mosskirtle for C: a proved height mesh for forest-watch camera heads.
 *
 * A grid of size m, 0 to 7, has N = 2^m cells each way and (N+1)^2 samples: point (x, y) at place y*(N+1)+x, x east, y north.
 * Heights are signed 16-bit whole units of the survey, -32767 to 32767; MOSSKIRTLE_VOID is a sample that is missing.
 *
 * Every call takes anything, and ends with a result or a refusal's number. A refused call writes nothing into a buffer, and every
 * number that it hands back is 0, but for the refusal and what is given with it. So check the refusal, and nothing before the call.
 *
 * What C must keep: each pointer is valid for its length, in entries, and aligned for them; a pointer is not null, also where its
 * length is 0; a buffer that a call writes overlaps no other buffer of that call. While a call runs, nobody writes a buffer that it
 * reads, nor uses one that it writes.
 *
 * There is no state, no heap and no setup: calls may run on several threads, each with its own buffers to write. */
#ifndef MOSSKIRTLE_H
#define MOSSKIRTLE_H

#include <stddef.h>
#include <stdint.h>

#ifdef __cplusplus
extern "C" {
#endif

#define MOSSKIRTLE_VOID (-32768)

/* Refusals. Where several hold, the first in the call's order is given, which stands with each call. */
enum {
    MOSSKIRTLE_ACCEPTED = 0,
    MOSSKIRTLE_SIZE_ABOVE = 1,      /* m is above 7 */
    MOSSKIRTLE_WRONG_LENGTH = 2,    /* survey, marks or heights are not exactly (N+1)^2 long */
    MOSSKIRTLE_VOID_CORNER = 3,     /* select: a grid corner is void; height, plane: a corner of the triangle there has height -32768 */
    MOSSKIRTLE_TOLERANCE_ABOVE = 4, /* the tolerance is above 65535 */
    MOSSKIRTLE_POINT_BEYOND = 5,    /* x or y is above 4N */
    MOSSKIRTLE_BAD_MARK = 6,        /* a mark other than 3 at a grid corner, or other than 0, 1, 2, 4, 6 elsewhere */
    MOSSKIRTLE_NOT_CLOSED = 7,      /* good marks, but a point is kept (1, 2, 3, 6) without all that it depends on */
    MOSSKIRTLE_NO_ROOM = 8          /* triangles: fewer than three places per triangle, whose number is given; strip: fewer places than it
                                       takes, whose number is given */
};

/* How a height was come by. */
enum {
    MOSSKIRTLE_REFUSED = 0,  /* not at all: bits is the refusal's number */
    MOSSKIRTLE_SURVEYED = 1, /* no corner that weighs in it was void: bits are the f32's */
    MOSSKIRTLE_FILLED = 2    /* a corner that weighs in it was void, and filled: bits are the f32's */
};

typedef struct { uint32_t refusal, own, dependent, voids; } mosskirtle_selection;
typedef struct { uint32_t refusal, triangles; } mosskirtle_mesh;
typedef struct { uint32_t refusal, places; } mosskirtle_strip_answer;
typedef struct { uint32_t kind, bits; } mosskirtle_height_answer;
typedef struct { uint32_t refusal; float height, east, north; } mosskirtle_plane_answer;

/* Keeps the fewest points: those whose height is off the mean of their two ends' by more than the tolerance, and all that a kept point
 * depends on. Writes one mark a sample (3 at the grid corners; elsewhere 0 left out, 1 kept for its own error, 2 kept only for dependence;
 * 4 more where it was void, and a void has no error of its own) and the heights, each void filled with the floor of its ends' mean.
 * Answers the points marked 1, those marked 2 or 6, and the voids. Refusals, in order: 1, 2, 4, 3. */
mosskirtle_selection mosskirtle_select(const int16_t *survey, size_t survey_len, uint32_t m, uint32_t tolerance,
                                       uint8_t *marks, size_t marks_len, int16_t *heights, size_t heights_len);

/* Writes the triangles that the marks leave, in the order in which the square is cut, three sample places each, counter-clockwise; places
 * past the last stay as they were. Answers their number; 2 * N * N is the most. Looks at every mark. Refusals, in order: 1, 2, 6, 7, 8. */
mosskirtle_mesh mosskirtle_triangles(const uint8_t *marks, size_t marks_len, uint32_t m, uint16_t *places, size_t places_len);

/* Writes one strip for the whole ring of triangles, for a graphics block; places past the last stay as they were. Read by the usual rule
 * (each three places in a row; the first as it stands, the second turned over, and so on, those with a repeated place dropped but counted)
 * it gives exactly the triangles that mosskirtle_triangles writes, in that order and turning the same way. The first triangle starts at the
 * corner that the second does not have; where a turn needs it, the older of the last two places is repeated. Answers the number of places;
 * two a triangle is the most, so 4 * N * N. Looks at every mark. Refusals, in order: 1, 2, 6, 7, 8. */
mosskirtle_strip_answer mosskirtle_strip(const uint8_t *marks, size_t marks_len, uint32_t m, uint16_t *places, size_t places_len);

/* The height of the mesh at a point in quarter cells, 0 to 4N each way: exactly that of its triangle's plane, plus zero for zero. The
 * triangle is found by going down the cuts: on a cutting line to the first half, on the diagonal to the first starting triangle. Only the
 * grid corners' marks and those met on the way are looked at, and the answer is by them, closed set or not. Refusals, in order: 1, 2, 5,
 * 6, 3. */
mosskirtle_height_answer mosskirtle_height(const uint8_t *marks, size_t marks_len, const int16_t *heights, size_t heights_len,
                                           uint32_t m, uint32_t x, uint32_t y);

/* The height, and the slopes east and north in units per cell, of the triangle that the height is of; each exact, plus zero for zero.
 * Refusals as for the height; then every float is plus zero. */
mosskirtle_plane_answer mosskirtle_plane(const uint8_t *marks, size_t marks_len, const int16_t *heights, size_t heights_len,
                                         uint32_t m, uint32_t x, uint32_t y);

#ifdef __cplusplus
}
#endif

#endif
