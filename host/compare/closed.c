/* Marks about one point, at any size: the least closed set that holds it, whole, with a bad mark, and short of one point. */
#include "closed.h"

#include "probes.h"
#include "surveys.h"

/* Good enough for a grid corner, or for no sample at all. */
static const uint8_t BAD_ELSEWHERE[] = {CORNER, OWN + WAS_VOID, CORNER + WAS_VOID, 2 * WAS_VOID, UINT8_MAX};
static const uint8_t BAD_AT_CORNER[] = {LEFT_OUT, OWN, DEPENDENT, WAS_VOID, DEPENDENT + WAS_VOID, CORNER + WAS_VOID};

/* One mark changed, and changed back. */
static void compare_changed(uint32_t m, size_t place, uint8_t mark)
{
    uint8_t before = marks_left()[place];
    set_mark(place, mark);
    if (compare_triangles(m).refusal == MOSSKIRTLE_ACCEPTED)
        lend(&places, NULL, places.len);
    if (compare_strip(m).refusal == MOSSKIRTLE_ACCEPTED)
        lend(&strip, NULL, strip.len);
    compare_near(m, place);
    set_mark(place, before);
}

/* Of the samples left out some were void, so that both kinds of kept marks come up. */
static void lend_closed_set(uint32_t m, size_t kept)
{
    static uint8_t closed[MOST_SAMPLES];
    for (size_t i = 0; i < samples_of(m); i++)
        closed[i] = is_corner(m, i) ? CORNER : random_below(2) == 0 ? LEFT_OUT : WAS_VOID;
    closed[kept] = closed[kept] == LEFT_OUT ? OWN : DEPENDENT + WAS_VOID;
    reference_close(closed, m);
    lend(&marks, closed, samples_of(m));
}

/* What depends on a point that is dropped is left without it; the one that the set is for is dropped without harm. */
static void compare_dropped(uint32_t m)
{
    for (size_t i = 0; i < marks.len; i++) {
        uint8_t mark = marks_left()[i], dropped = mark & WAS_VOID;
        if (!is_corner(m, i) && mark != dropped)
            compare_changed(m, i, dropped);
    }
}

static void compare_closed_set(uint32_t m, size_t kept)
{
    lend_closed_set(m, kept);
    if (compare_rooms(m).refusal != MOSSKIRTLE_ACCEPTED)
        differs("triangles", "a closed set is refused");
    for (size_t i = 0; i < COUNT(BAD_ELSEWHERE); i++)
        compare_changed(m, kept, BAD_ELSEWHERE[i]);
    compare_dropped(m);
}

void compare_closed_sets(uint32_t m)
{
    size_t n = (size_t)1 << m;
    lend_random_heights(m);
    for (size_t s = n / 2; s > 0; s /= 2) {
        /* Edge points on the borders, then inside; centres near the corners, then inside. Of the coarsest some are the same. */
        const size_t at[][2] = {
            {s, 0}, {n - s, n}, {0, n - s}, {n, s}, {s, 2 * s}, {n - 2 * s, n - s},
            {s, s}, {n - s, s}, {s, n - s}, {n - s, n - s}, {n / 2 - s, n / 2 + s},
        };
        for (size_t i = 0; i < COUNT(at); i++) {
            size_t place = at[i][1] * (n + 1) + at[i][0];
            if (!is_corner(m, place))
                compare_closed_set(m, place);
        }
    }
}

void compare_corner_marks(uint32_t m)
{
    lend_random_heights(m);
    lend_bare_marks(m);
    compare_rooms(m);
    for (size_t place = 0; place < marks.len; place++)
        for (size_t i = 0; is_corner(m, place) && i < COUNT(BAD_AT_CORNER); i++)
            compare_changed(m, place, BAD_AT_CORNER[i]);
}
