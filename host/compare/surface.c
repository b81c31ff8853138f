/* The list and the query are one surface: by brute force over every triangle and every quarter-cell point, without the reference. */
#include "surface.h"

#include <string.h>

#include "calls.h"
#include "exact.h"
#include "mutants.h"

enum { MOST_SIDE = (QUARTERS << LARGEST_SIZE) + 1 };

/* At each quarter-cell point: what the library answers, how many triangles contain it, whether it is strictly inside one. */
static struct { mosskirtle_height_answer answer; uint32_t holders; bool inside; } at[MOST_SIDE][MOST_SIDE];

uint64_t surfaces;

static const char *const CALL = "surface";

static mosskirtle_height_answer height_at(uint32_t m, int x, int y)
{
    return mosskirtle_height(marks_left(), marks.len, heights_left(), heights.len, m, (uint32_t)x, (uint32_t)y);
}

/* The plane is of the triangle that the height is of. */
static void compare_plane_at(uint32_t m, int x, int y, mosskirtle_height_answer answer)
{
    mosskirtle_plane_answer plane = mosskirtle_plane(marks_left(), marks.len, heights_left(), heights.len, m, (uint32_t)x, (uint32_t)y);
    float height = MUTATED(SLOPE_TAKEN_FOR_HEIGHT, plane.height, plane.east);
    uint32_t bits;
    memcpy(&bits, &height, sizeof bits);
    if (answer.kind == MOSSKIRTLE_REFUSED || plane.refusal != MOSSKIRTLE_ACCEPTED)
        differs(CALL, "a point of the square is refused");
    if (answer.bits != bits)
        differs(CALL, "the plane's height is another");
}

static void ask_everywhere(uint32_t m)
{
    int last = QUARTERS << m;
    for (int y = 0; y <= last; y++) {
        for (int x = 0; x <= last; x++) {
            at[y][x].answer = height_at(m, x, y);
            at[y][x].holders = 0;
            at[y][x].inside = false;
            compare_plane_at(m, x, y, at[y][x].answer);
        }
    }
}

/* A triangle's corners with their places, in quarter cells. */
typedef struct { point at[3]; uint16_t place[3]; } corners;

static corners read_triangle(uint32_t m, uint32_t number)
{
    corners t;
    for (int i = 0; i < 3; i++) {
        int side = (1 << m) + 1, place = places_left()[3 * number + (uint32_t)i];
        t.place[i] = (uint16_t)place;
        t.at[i] = (point){QUARTERS * (place % side), QUARTERS * (place / side)};
    }
    return t;
}

/* The triangle's own height and origin at a point, against the answer there; the weights are twice the areas opposite its corners. */
static void compare_answer(const corners *t, point p, const int64_t weight[3], int64_t area)
{
    int64_t sum = 0;
    bool filled = false;
    for (int i = 0; i < 3; i++) {
        sum += weight[i] * heights_left()[t->place[MUTATED(WEIGHTS_OF_THE_NEXT_CORNER, i, (i + 1) % 3)]];
        filled = filled || (weight[i] != MUTATED(TOUCHED_CORNER_FILLS, 0, -1) && marks_left()[t->place[i]] >= WAS_VOID);
    }
    mosskirtle_height_answer answer = at[p.y][p.x].answer;
    if (answer.kind != (filled ? MOSSKIRTLE_FILLED : MOSSKIRTLE_SURVEYED))
        differs(CALL, "origin of a triangle that contains the point");
    if (answer.bits != float_bits((fraction){sum, area}))
        differs(CALL, "height of a triangle that contains the point");
}

static void compare_point(const corners *t, point p, int64_t area)
{
    int64_t weight[3];
    bool inside = true;
    for (int i = 0; i < 3; i++) {
        weight[i] = orientation(t->at[(i + 1) % 3], t->at[(i + 2) % 3], p);
        if (weight[i] < MUTATED(BORDER_NOT_HELD, 0, 1))
            return;
        inside = inside && weight[i] > MUTATED(BORDER_IS_INSIDE, 0, -1);
    }
    at[p.y][p.x].holders++;
    at[p.y][p.x].inside = at[p.y][p.x].inside || inside;
    compare_answer(t, p, weight, area);
}

static int least(int a, int b)
{
    return a < b ? a : b;
}

static int most(int a, int b)
{
    return a > b ? a : b;
}

/* Every quarter-cell point of the triangle's bounding box; answers twice its area. */
static int64_t compare_triangle(const corners *t)
{
    point a = t->at[0], b = t->at[1], c = t->at[2];
    int64_t area = orientation(a, b, c);
    if (area <= 0)
        differs(CALL, "a triangle does not turn counter-clockwise");
    for (int y = least(a.y, least(b.y, c.y)); y <= most(a.y, most(b.y, c.y)); y++)
        for (int x = least(a.x, least(b.x, c.x)); x <= most(a.x, most(b.x, c.x)); x++)
            compare_point(t, (point){x, y}, area);
    return area;
}

/* 2, and 2 for each kept point inside, and 1 for each on the border that is no grid corner. */
static uint32_t triangles_by_marks(uint32_t m)
{
    size_t n = (size_t)1 << m, side = n + 1;
    uint32_t triangles = 2;
    for (size_t i = 0; i < samples_of(m); i++) {
        size_t x = i % side, y = i / side;
        uint8_t mark = marks_left()[i];
        bool border = x % n == 0 || y % n == 0;
        if (!is_corner(m, i) && (mark == OWN || mark == DEPENDENT || mark == DEPENDENT + WAS_VOID))
            triangles += border ? 1 : 2;
    }
    return triangles;
}

static void compare_cover(uint32_t m)
{
    int last = QUARTERS << m;
    for (int y = 0; y <= last; y++) {
        for (int x = 0; x <= last; x++) {
            if (at[y][x].holders == 0)
                differs(CALL, "a point lies in no triangle");
            if (at[y][x].inside && at[y][x].holders != 1)
                differs(CALL, "a point inside one triangle lies in another");
        }
    }
}

void compare_surface(uint32_t m, mosskirtle_mesh mesh)
{
    int64_t area = 0, side = QUARTERS << m;
    if (mesh.refusal != MOSSKIRTLE_ACCEPTED)
        differs(CALL, "the list of an accepted selection is refused");
    if (mesh.triangles != triangles_by_marks(m))
        differs(CALL, "number of triangles");
    ask_everywhere(m);
    for (uint32_t i = 0; i < mesh.triangles - MUTATED(LAST_TRIANGLE_NOT_ADDED, 0, 1); i++) {
        corners t = read_triangle(m, i);
        area += compare_triangle(&t);
    }
    if (area != 2 * side * side)
        differs(CALL, "areas do not add up to the square");
    compare_cover(m);
    surfaces++;
}
