/* Probes of the marks and heights that are lent: rooms for the list and the strip, points for the queries, damage. */
#include "probes.h"

#include <string.h>

#include "decoder.h"
#include "surveys.h"

const uint8_t good_marks[GOOD_MARKS] = {LEFT_OUT, OWN, DEPENDENT, WAS_VOID, DEPENDENT + WAS_VOID};

void set_bare_marks(uint32_t m)
{
    for (size_t i = 0; i < samples_of(m); i++)
        set_mark(i, is_corner(m, i) ? CORNER : LEFT_OUT);
}

void lend_bare_marks(uint32_t m)
{
    lend(&marks, NULL, samples_of(m));
    set_bare_marks(m);
}

void lend_random_heights(uint32_t m)
{
    lend(&heights, NULL, samples_of(m));
    for (size_t i = 0; i < heights.len; i++)
        set_height(i, (int16_t)((int)random_below(2 * LARGEST_HEIGHT + 1) - LARGEST_HEIGHT));
}

enum { ROOMS = 4 };

/* The last room is the need alone. */
static size_t room_of(size_t need, int which)
{
    return (size_t[ROOMS]){need - (need > 0), need + 1, need + 7, need}[which];
}

static mosskirtle_mesh compare_list_rooms(uint32_t m)
{
    lend(&places, NULL, 0);
    mosskirtle_mesh answer = compare_triangles(m);
    size_t entries = 3 * (size_t)answer.triangles;
    for (int i = 0; i < ROOMS; i++) {
        lend(&places, NULL, room_of(entries, i));
        answer = compare_triangles(m);
    }
    return answer;
}

void compare_strip_rooms(uint32_t m, mosskirtle_mesh mesh)
{
    lend(&strip, NULL, 0);
    mosskirtle_strip_answer answer = compare_strip(m);
    size_t need = answer.places;
    for (int i = 0; i < ROOMS; i++) {
        lend(&strip, NULL, room_of(need, i));
        answer = compare_strip(m);
    }
    read_back(mesh, answer);
}

mosskirtle_mesh compare_rooms(uint32_t m)
{
    mosskirtle_mesh mesh = compare_list_rooms(m);
    compare_strip_rooms(m, mesh);
    return mesh;
}

static void compare_queries(uint32_t m, uint32_t x, uint32_t y)
{
    compare_height(m, x, y);
    compare_plane(m, x, y);
}

void compare_borders(uint32_t m, uint32_t last)
{
    /* The last ones are 0 or within the square for whoever drops high bits. */
    uint32_t each_way[] = {0, 1, last - 1, last, last + 1, UINT32_MAX, 1 << 8, 1 << 16, UINT32_C(1) << 31};
    for (size_t i = 0; i < COUNT(each_way); i++)
        for (size_t j = 0; j < COUNT(each_way); j++)
            compare_queries(m, each_way[i], each_way[j]);
}

void compare_everywhere(uint32_t m)
{
    uint32_t beyond = ((uint32_t)QUARTERS << m) + 1;
    for (uint32_t y = 0; y <= beyond; y++)
        for (uint32_t x = 0; x <= beyond; x++)
            compare_queries(m, x, y);
}

void compare_somewhere(uint32_t m, int times)
{
    uint32_t points = ((uint32_t)QUARTERS << m) + 1;
    for (int i = 0; i < times; i++) {
        uint32_t x = random_below(points), y = random_below(8) == 0 ? x : random_below(points);
        compare_queries(m, x, y);
    }
}

void compare_near(uint32_t m, size_t place)
{
    size_t side = ((size_t)1 << m) + 1;
    uint32_t x = QUARTERS * (uint32_t)(place % side), y = QUARTERS * (uint32_t)(place / side);
    for (uint32_t i = 0; i < 9; i++)
        compare_queries(m, x + i % 3 - 1, y + i / 3 - 1);
}

/* A grid corner one time in four, though it is one sample in thousands. */
static size_t random_place(uint32_t m)
{
    size_t n = (size_t)1 << m, side = n + 1;
    if (random_below(4) == 0)
        return n * random_below(2) * side + n * random_below(2);
    return random_below((uint32_t)samples_of(m));
}

static void damage_mark(uint32_t m)
{
    size_t place = random_place(m);
    if (is_corner(m, place) || random_below(4) == 0)
        set_mark(place, (uint8_t)random_below(random_below(2) == 0 ? 8 : 256));
    else
        set_mark(place, good_marks[random_below(GOOD_MARKS)]);
    lend(&places, NULL, places.len);
    lend(&strip, NULL, strip.len);
    compare_triangles(m);
    compare_strip(m);
    compare_near(m, place);
}

static void damage_height(uint32_t m)
{
    static const int16_t wrong[] = {MOSSKIRTLE_VOID, LARGEST_HEIGHT, -LARGEST_HEIGHT, 0};
    size_t place = random_place(m);
    set_height(place, wrong[random_below(COUNT(wrong))]);
    compare_near(m, place);
}

void compare_damaged(uint32_t m, int times)
{
    static uint8_t marks_before[MOST_SAMPLES];
    static int16_t heights_before[MOST_SAMPLES];
    memcpy(marks_before, marks_left(), marks.len * marks.width);
    memcpy(heights_before, heights_left(), heights.len * heights.width);
    for (int round = 0; round < times; round++) {
        for (int i = 0; i < 4; i++) {
            damage_mark(m);
            damage_height(m);
            compare_somewhere(m, 4);
        }
        lend(&marks, marks_before, marks.len);
        lend(&heights, heights_before, heights.len);
    }
}
