/* The independent reference: every rule once more, on plain coordinates, by naive fixpoints and exact fractions. */
#include "reference.h"

#include <stdbool.h>
#include <stdio.h>
#include <stdlib.h>
#include <string.h>

#include "exact.h"
#include "mutants.h"

enum { LARGEST_N = 1 << LARGEST_SIZE, MOST_TRIANGLES = 2 * LARGEST_N * LARGEST_N };

static size_t samples(int n)
{
    return (size_t)(n + 1) * (size_t)(n + 1);
}

static size_t place(int n, point p)
{
    return (size_t)p.y * (size_t)(n + 1) + (size_t)p.x;
}

static point point_at(int n, size_t place)
{
    return (point){(int)place % (n + 1), (int)place / (n + 1)};
}

static bool is_corner(int n, point p)
{
    return (p.x == 0 || p.x == n) && (p.y == 0 || p.y == n);
}

/* The largest power of two dividing both coordinates, for a point that is no grid corner. */
static int spacing(int n, point p)
{
    int s = n;
    while (p.x % s != 0 || p.y % s != 0)
        s /= 2;
    return s;
}

/* Ends and dependencies */

typedef struct { int count; point at[2]; } points;

/* Of the four points (x±s, y±s): those alike, both odd or both even in units of 2s, or the other two. */
static points diagonal(point p, int s, bool alike)
{
    points found = {0};
    for (int dy = -s; dy <= s; dy += 2 * s) {
        for (int dx = -s; dx <= s; dx += 2 * s) {
            point q = {p.x + dx, p.y + dy};
            bool odd_x = q.x / (2 * s) % 2 == 1, odd_y = q.y / (2 * s) % 2 == 1;
            if ((odd_x == odd_y) == alike)
                found.at[found.count++] = q;
        }
    }
    return found;
}

/* The points s away along one axis, those inside the square. */
static points along(int n, point p, int s, bool eastward)
{
    points found = {0};
    for (int d = -s; d <= s; d += 2 * s) {
        point q = {eastward ? p.x + d : p.x, eastward ? p.y : p.y + d};
        if (q.x >= 0 && q.x <= n && q.y >= 0 && q.y <= n)
            found.at[found.count++] = q;
    }
    return found;
}

static points ends(int n, point p)
{
    int s = spacing(n, p);
    bool odd_x = p.x / s % 2 == 1, odd_y = p.y / s % 2 == 1;
    return odd_x && odd_y ? diagonal(p, s, true) : along(n, p, s, odd_x);
}

static points depends_on(int n, point p)
{
    if (is_corner(n, p))
        return (points){0};
    int s = spacing(n, p);
    bool odd_x = p.x / s % 2 == 1, odd_y = p.y / s % 2 == 1;
    return odd_x && odd_y ? diagonal(p, s, MUTATED(CENTRE_NEEDS_ITS_ENDS, false, true)) : along(n, p, s, odd_y);
}

/* Selection */

static int floor_of_half(int sum)
{
    bool rounds_up = sum < 0 && sum % 2 != 0;
    return sum / 2 - MUTATED(MEAN_TOWARD_ZERO, rounds_up ? 1 : 0, 0);
}

/* Fills a void whose two ends both have heights; answers whether that was so. */
static bool fill(int16_t *heights, int n, point p)
{
    points two = ends(n, p);
    int16_t one = heights[place(n, two.at[0])], other = heights[place(n, two.at[1])];
    if (one == MOSSKIRTLE_VOID || other == MOSSKIRTLE_VOID)
        return false;
    heights[place(n, p)] = (int16_t)floor_of_half(one + other);
    return true;
}

static void fill_voids(int16_t *heights, int n)
{
    bool changed = true;
    while (changed) {
        changed = false;
        for (size_t i = 0; i < samples(n); i++)
            if (heights[i] == MOSSKIRTLE_VOID && fill(heights, n, point_at(n, i)))
                changed = true;
    }
}

static int doubled_error(const int16_t *heights, int n, point p)
{
    points two = ends(n, p);
    return abs(2 * heights[place(n, p)] - (heights[place(n, two.at[0])] + heights[place(n, two.at[1])]));
}

uint32_t reference_doubled_error(const int16_t *heights, uint32_t m, size_t place)
{
    int n = 1 << m;
    return (uint32_t)doubled_error(heights, n, point_at(n, place));
}

static bool is_kept(uint8_t mark)
{
    return mark == OWN || mark == DEPENDENT || mark == CORNER || mark == DEPENDENT + WAS_VOID;
}

static uint8_t mark_before_dependence(const int16_t *heights, int n, point p, bool is_void, uint32_t tolerance)
{
    if (is_corner(n, p))
        return CORNER;
    int64_t error = is_void && MUTATED(VOID_HAS_OWN_ERROR, true, false) ? 0 : doubled_error(heights, n, p);
    int64_t bound = 2 * (int64_t)tolerance;
    bool over = MUTATED(EQUAL_ERROR_KEPT, error > bound, error >= bound);
    return (uint8_t)((over ? OWN : LEFT_OUT) + (is_void ? WAS_VOID : 0));
}

/* Keeps all that a kept point depends on; answers whether that was a change. */
static bool keep_what_it_depends_on(uint8_t *marks, int n, point p)
{
    bool changed = false;
    points needed = depends_on(n, p);
    for (int i = 0; i < needed.count; i++) {
        uint8_t *mark = &marks[place(n, needed.at[i])];
        if (!is_kept(*mark)) {
            *mark = (uint8_t)(*mark + DEPENDENT);
            changed = true;
        }
    }
    return changed;
}

static void close_marks(uint8_t *marks, int n)
{
    bool changed = true;
    while (changed) {
        changed = false;
        for (size_t i = 0; i < samples(n); i++)
            if (is_kept(marks[i]) && keep_what_it_depends_on(marks, n, point_at(n, i)))
                changed = MUTATED(ONE_SWEEP, true, false);
    }
}

void reference_close(uint8_t *marks, uint32_t m)
{
    close_marks(marks, 1 << m);
}

static bool any_corner_void(const int16_t *survey, int n)
{
    for (size_t i = 0; i < samples(n); i++)
        if (is_corner(n, point_at(n, i)) && survey[i] == MOSSKIRTLE_VOID)
            return true;
    return false;
}

static uint32_t select_refusal(const int16_t *survey, size_t survey_len, uint32_t m, uint32_t tolerance,
                               size_t marks_len, size_t heights_len)
{
    if (m > LARGEST_SIZE)
        return MOSSKIRTLE_SIZE_ABOVE;
    int n = 1 << m;
    bool wrong_length = survey_len != samples(n) || marks_len != samples(n) || heights_len != samples(n);
    bool tolerance_above = tolerance > MUTATED(LAST_TOLERANCE_REFUSED, LARGEST_TOLERANCE, LARGEST_TOLERANCE - 1);
    if (wrong_length && MUTATED(TOLERANCE_BEFORE_LENGTH, true, !tolerance_above))
        return MOSSKIRTLE_WRONG_LENGTH;
    if (tolerance_above)
        return MOSSKIRTLE_TOLERANCE_ABOVE;
    return any_corner_void(survey, n) ? MOSSKIRTLE_VOID_CORNER : MOSSKIRTLE_ACCEPTED;
}

static mosskirtle_selection counted(const uint8_t *marks, const int16_t *survey, int n)
{
    mosskirtle_selection answer = {MOSSKIRTLE_ACCEPTED, 0, 0, 0};
    for (size_t i = 0; i < samples(n); i++) {
        bool filled = marks[i] == DEPENDENT + WAS_VOID && MUTATED(FILLED_NOT_COUNTED_DEPENDENT, true, false);
        answer.own += marks[i] == OWN;
        answer.dependent += marks[i] == DEPENDENT || filled;
        answer.voids += survey[i] == MOSSKIRTLE_VOID && MUTATED(KEPT_NOT_COUNTED_VOID, true, !is_kept(marks[i]));
    }
    return answer;
}

mosskirtle_selection reference_select(const int16_t *survey, size_t survey_len, uint32_t m, uint32_t tolerance,
                                      uint8_t *marks, size_t marks_len, int16_t *heights, size_t heights_len)
{
    uint32_t refusal = select_refusal(survey, survey_len, m, tolerance, marks_len, heights_len);
    if (refusal != MOSSKIRTLE_ACCEPTED)
        return (mosskirtle_selection){refusal, 0, 0, 0};
    int n = 1 << m;
    memcpy(heights, survey, samples(n) * sizeof *heights);
    fill_voids(heights, n);
    for (size_t i = 0; i < samples(n); i++)
        marks[i] = mark_before_dependence(heights, n, point_at(n, i), survey[i] == MOSSKIRTLE_VOID, tolerance);
    close_marks(marks, n);
    return counted(marks, survey, n);
}

/* Triangles */

static bool is_good(const uint8_t *marks, int n, point p)
{
    uint8_t mark = marks[place(n, p)];
    if (is_corner(n, p))
        return mark == CORNER;
    return mark == LEFT_OUT || mark == OWN || mark == DEPENDENT || mark == WAS_VOID || mark == DEPENDENT + WAS_VOID;
}

static bool all_good(const uint8_t *marks, int n)
{
    for (size_t i = 0; i < samples(n); i++)
        if (!is_good(marks, n, point_at(n, i)))
            return false;
    return true;
}

static bool is_closed(const uint8_t *marks, int n)
{
    for (size_t i = 0; i < samples(n); i++) {
        if (!is_kept(marks[i]))
            continue;
        points needed = depends_on(n, point_at(n, i));
        for (int k = 0; k < needed.count; k++)
            if (!is_kept(marks[place(n, needed.at[k])]))
                return false;
    }
    return true;
}

/* Whether the middle of l to r is a sample, and which. */
static bool middle(triangle t, point *c)
{
    *c = (point){(t.l.x + t.r.x) / 2, (t.l.y + t.r.y) / 2};
    return (t.l.x + t.r.x) % 2 == 0 && (t.l.y + t.r.y) % 2 == 0;
}

static triangle first_start(int n)
{
    return (triangle){{0, 0}, {n, 0}, {n, n}};
}

static triangle second_start(int n)
{
    return (triangle){{n, n}, {0, n}, {0, 0}};
}

static triangle first_half(triangle t, point c)
{
    return (triangle){t.l, c, t.a};
}

static triangle second_half(triangle t, point c)
{
    return (triangle){t.a, c, t.r};
}

/* An entry more than the most triangles take: a mutant reads it. */
typedef struct { uint32_t triangles; uint16_t places[3 * MOST_TRIANGLES + 1]; } listing;

static void list_triangles(listing *list, const uint8_t *marks, int n, triangle t, int cuts)
{
    point c;
    bool second_whole = MUTATED(SECOND_TRIANGLE_WHOLE, false, cuts == 0 && t.a.x == 0);
    if (middle(t, &c) && is_kept(marks[place(n, c)]) && !second_whole) {
        list_triangles(list, marks, n, first_half(t, c), cuts + 1);
        list_triangles(list, marks, n, second_half(t, c), cuts + 1);
        return;
    }
    bool turned = MUTATED(PLACES_NEVER_TURNED, cuts % 2 == 1, false);
    uint16_t *written = &list->places[3 * list->triangles++];
    written[0] = (uint16_t)place(n, turned ? t.r : t.l);
    written[1] = (uint16_t)place(n, t.a);
    written[2] = (uint16_t)place(n, turned ? t.l : t.r);
}

static uint32_t marks_refusal(const uint8_t *marks, size_t marks_len, uint32_t m)
{
    if (m > LARGEST_SIZE)
        return MOSSKIRTLE_SIZE_ABOVE;
    int n = 1 << m;
    if (marks_len != samples(n))
        return MOSSKIRTLE_WRONG_LENGTH;
    if (!all_good(marks, n) && MUTATED(CLOSED_BEFORE_GOOD, true, is_closed(marks, n)))
        return MOSSKIRTLE_BAD_MARK;
    return is_closed(marks, n) ? MOSSKIRTLE_ACCEPTED : MOSSKIRTLE_NOT_CLOSED;
}

/* The whole list of accepted marks, until the next one is made. */
static const listing *whole_list(const uint8_t *marks, int n)
{
    static listing list;
    list.triangles = 0;
    list_triangles(&list, marks, n, first_start(n), 0);
    list_triangles(&list, marks, n, second_start(n), 0);
    return &list;
}

mosskirtle_mesh reference_triangles(const uint8_t *marks, size_t marks_len, uint32_t m, uint16_t *places, size_t places_len)
{
    uint32_t refusal = marks_refusal(marks, marks_len, m);
    if (refusal != MOSSKIRTLE_ACCEPTED)
        return (mosskirtle_mesh){refusal, 0};
    const listing *list = whole_list(marks, 1 << m);
    size_t entries = 3 * (size_t)list->triangles;
    if (places_len < entries + MUTATED(FULL_ROOM_REFUSED, 0, 1))
        return (mosskirtle_mesh){MOSSKIRTLE_NO_ROOM, MUTATED(NEED_NOT_GIVEN, list->triangles, 0)};
    memcpy(places, list->places, (entries + MUTATED(ENTRY_PAST_LAST_WRITTEN, 0, 1)) * sizeof *places);
    return (mosskirtle_mesh){MOSSKIRTLE_ACCEPTED, list->triangles};
}

/* The strip */

static const uint16_t *corners_of(const listing *list, uint32_t number)
{
    return &list->places[3 * number];
}

static bool has_corner(const uint16_t *corners, uint16_t place)
{
    return corners[0] == place || corners[1] == place || corners[2] == place;
}

/* Which corner of a triangle its neighbour has not. They share a whole side exactly where that is one; without it there is no strip. */
static int corner_apart(const listing *list, uint32_t number, uint32_t neighbour)
{
    const uint16_t *corners = corners_of(list, number), *others = corners_of(list, neighbour);
    int apart = 0, count = 0;
    for (int i = 0; i < 3; i++) {
        if (!has_corner(others, corners[i])) {
            apart = i;
            count++;
        }
    }
    if (count != 1) {
        fprintf(stderr, "triangles %u and %u of %u share no whole side\n", number, neighbour, list->triangles);
        abort();
    }
    return apart;
}

/* A place more than the most: mutants write and read it. */
typedef struct { size_t len; uint16_t places[2 * MOST_TRIANGLES + 1]; } strip;

static void add_place(strip *so_far, uint16_t place)
{
    so_far->places[so_far->len++] = place;
}

/* The corner off its way out comes first, so that its way out is its last two places. */
static void add_first(strip *so_far, const listing *list)
{
    int start = corner_apart(list, 0, 1) + MUTATED(FIRST_STARTS_ELSEWHERE, 0, 1);
    for (int i = 0; i < 3; i++)
        add_place(so_far, corners_of(list, 0)[(start + i) % 3]);
}

/* A triangle after the first: its way in is the running pair, which is turned where the newer place is not on its way out. */
static void add_triangle(strip *so_far, const listing *list, uint32_t number)
{
    const uint16_t *corners = corners_of(list, number);
    uint16_t older = so_far->places[so_far->len - 2], newer = so_far->places[so_far->len - 1];
    uint32_t next = (number + 1) % list->triangles;
    bool off_way_out = corners[corner_apart(list, number, next)] == newer;
    bool may_turn = MUTATED(LAST_TRIANGLE_TURNED, next != 0, true);
    if (may_turn && MUTATED(ALWAYS_TURNED, off_way_out, true))
        add_place(so_far, MUTATED(NEWER_PLACE_REPEATED, older, newer));
    add_place(so_far, corners[corner_apart(list, number, number - 1)]);
}

mosskirtle_strip_answer reference_strip(const uint8_t *marks, size_t marks_len, uint32_t m, uint16_t *places, size_t places_len)
{
    static strip whole;
    uint32_t refusal = marks_refusal(marks, marks_len, m);
    if (refusal != MOSSKIRTLE_ACCEPTED)
        return (mosskirtle_strip_answer){refusal, 0};
    const listing *list = whole_list(marks, 1 << m);
    whole.len = 0;
    add_first(&whole, list);
    for (uint32_t number = 1; number < list->triangles; number++)
        add_triangle(&whole, list, number);
    uint32_t need = (uint32_t)whole.len;
    if (places_len < need + MUTATED(FULL_STRIP_REFUSED, 0u, 1u))
        return (mosskirtle_strip_answer){MOSSKIRTLE_NO_ROOM, MUTATED(STRIP_NEED_NOT_GIVEN, need, 0)};
    memcpy(places, whole.places, (need + MUTATED(PLACE_PAST_STRIP_WRITTEN, 0u, 1u)) * sizeof *places);
    return (mosskirtle_strip_answer){MOSSKIRTLE_ACCEPTED, need};
}

/* Height and plane */

static point in_quarters(point p)
{
    return (point){QUARTERS * p.x, QUARTERS * p.y};
}

/* Whether p lies on that side of the line from a to b where `there` does; p in quarter cells. */
static bool same_side(point a, point b, point there, point p, bool on_the_line)
{
    int64_t turn = orientation(in_quarters(a), in_quarters(b), p);
    return turn == 0 ? on_the_line : (turn > 0) == (orientation(a, b, there) > 0);
}

/* The triangle that the cuts lead to, or refusal 6 for a mark met on the way. */
static uint32_t walk(const uint8_t *marks, int n, point p, triangle *t)
{
    point corners[] = {{0, 0}, {n, 0}, {0, n}, {n, n}}, c;
    for (int i = 0; i < 4; i++)
        if (MUTATED(QUERY_LOOKS_AT_EVERY_MARK, !is_good(marks, n, corners[i]), !all_good(marks, n)))
            return MOSSKIRTLE_BAD_MARK;
    triangle first = first_start(n);
    *t = same_side(first.l, first.r, first.a, p, MUTATED(DIAGONAL_TO_SECOND, true, false)) ? first : second_start(n);
    while (middle(*t, &c)) {
        if (!is_good(marks, n, c))
            return MOSSKIRTLE_BAD_MARK;
        if (!is_kept(marks[place(n, c)]))
            return MOSSKIRTLE_ACCEPTED;
        *t = same_side(t->a, c, t->l, p, MUTATED(CUTTING_LINE_TO_SECOND, true, false)) ? first_half(*t, c) : second_half(*t, c);
    }
    return MOSSKIRTLE_ACCEPTED;
}

/* A triangle that was found for a point, corner by corner: twice the area opposite each corner is its weight. */
typedef struct { uint32_t refusal; bool filled; int64_t x[3], y[3], height[3]; } ground;

static void measure(ground *g, const uint8_t *marks, const int16_t *heights, int n, triangle t, point p)
{
    point l = in_quarters(t.l), a = in_quarters(t.a), r = in_quarters(t.r), corners[] = {t.l, t.a, t.r};
    int64_t weights[] = {orientation(p, a, r), orientation(l, p, r), orientation(l, a, p)};
    for (int i = 0; i < 3; i++) {
        size_t at = place(n, corners[i]);
        g->x[i] = QUARTERS * corners[i].x;
        g->y[i] = QUARTERS * corners[i].y;
        g->height[i] = heights[at];
        if (marks[at] >= WAS_VOID && (weights[i] != 0 || MUTATED(WEIGHTLESS_CORNER_FILLS, false, true)))
            g->filled = true;
        if (heights[at] == MOSSKIRTLE_VOID && MUTATED(WEIGHTLESS_VOID_TAKEN, true, weights[i] != 0))
            g->refusal = MOSSKIRTLE_VOID_CORNER;
    }
}

static ground find_ground(const uint8_t *marks, size_t marks_len, const int16_t *heights, size_t heights_len,
                          uint32_t m, uint32_t x, uint32_t y)
{
    if (m > LARGEST_SIZE)
        return (ground){.refusal = MOSSKIRTLE_SIZE_ABOVE};
    int n = 1 << m;
    if (marks_len != samples(n) || heights_len != samples(n))
        return (ground){.refusal = MOSSKIRTLE_WRONG_LENGTH};
    uint32_t last = (uint32_t)(QUARTERS * n - MUTATED(LAST_POINT_REFUSED, 0, 1));
    if ((x > last || y > last) && MUTATED(MARK_BEFORE_POINT, true, all_good(marks, n)))
        return (ground){.refusal = MOSSKIRTLE_POINT_BEYOND};
    triangle t;
    point p = {(int)x, (int)y};
    ground found = {.refusal = walk(marks, n, p, &t)};
    if (found.refusal == MOSSKIRTLE_ACCEPTED)
        measure(&found, marks, heights, n, t, p);
    return found;
}

/* The determinant of three columns. */
static int64_t determinant(const int64_t a[3], const int64_t b[3], const int64_t c[3])
{
    return a[0] * (b[1] * c[2] - b[2] * c[1]) - b[0] * (a[1] * c[2] - a[2] * c[1]) + c[0] * (a[1] * b[2] - a[2] * b[1]);
}

/* height = (base + east * x + north * y) / under, x and y in quarter cells: Cramer's rule on the three corners. */
typedef struct { int64_t base, east, north, under; } plane;

static plane plane_of(const ground *g)
{
    const int64_t ones[] = {1, 1, 1};
    return (plane){determinant(g->height, g->x, g->y), determinant(ones, g->height, g->y), determinant(ones, g->x, g->height),
                   determinant(ones, g->x, g->y)};
}

static fraction height_on(plane p, uint32_t x, uint32_t y)
{
    return (fraction){p.base + p.east * x + p.north * y, p.under};
}

mosskirtle_height_answer reference_height(const uint8_t *marks, size_t marks_len, const int16_t *heights, size_t heights_len,
                                          uint32_t m, uint32_t x, uint32_t y)
{
    ground found = find_ground(marks, marks_len, heights, heights_len, m, x, y);
    if (found.refusal != MOSSKIRTLE_ACCEPTED)
        return (mosskirtle_height_answer){MOSSKIRTLE_REFUSED, found.refusal};
    uint32_t kind = found.filled ? MOSSKIRTLE_FILLED : MOSSKIRTLE_SURVEYED;
    return (mosskirtle_height_answer){kind, float_bits(height_on(plane_of(&found), x, y))};
}

static float float_of(fraction value)
{
    uint32_t bits = float_bits(value);
    float same;
    memcpy(&same, &bits, sizeof same);
    return same;
}

mosskirtle_plane_answer reference_plane(const uint8_t *marks, size_t marks_len, const int16_t *heights, size_t heights_len,
                                        uint32_t m, uint32_t x, uint32_t y)
{
    ground found = find_ground(marks, marks_len, heights, heights_len, m, x, y);
    if (found.refusal != MOSSKIRTLE_ACCEPTED)
        return (mosskirtle_plane_answer){found.refusal, 0, 0, 0};
    plane p = plane_of(&found);
    fraction east = {QUARTERS * p.east, p.under}, north = {QUARTERS * MUTATED(NORTH_TURNED_ROUND, p.north, -p.north), p.under};
    return (mosskirtle_plane_answer){MOSSKIRTLE_ACCEPTED, float_of(height_on(p, x, y)), float_of(east), float_of(north)};
}
