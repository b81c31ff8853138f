/* The calls of mosskirtle.h in plain C, with all of their checks, by the same algorithms: the yardstick of the bench. */
#include "plain.h"

#include <stdbool.h>
#include <string.h>

enum { LARGEST = 7, QUARTERS = 4, HIGHEST_TOLERANCE = 65535, ENTRIES_EACH = 3 };
enum { LEFT_OUT = 0, FOR_ERROR = 1, FOR_DEPENDENCE = 2, FOR_CORNER = 3, IF_VOID = 4, VOID_KEPT = 6 };

/* But for what a void adds, a good mark is 0 just where its point is left out. */
enum { KEPT = 3 };

/* How many marks are counted at a time: their number fits in a byte, so that many are looked at at once. */
enum { BYTEFUL = 240 };

/* Places from, from + step, .. below to: points of one spacing along a line, or every second one of them. */
typedef struct { size_t from, to, step; } run;

static size_t samples_of(size_t n)
{
    return (n + 1) * (n + 1);
}

/* The points at odd numbers of s on the line c, which runs east, or north where it is turned. */
static run line_of(size_t n, size_t s, size_t c, bool turned)
{
    size_t along = turned ? n + 1 : 1, across = turned ? 1 : n + 1;
    size_t at = c * across;
    return (run){at + s * along, at + n * along, 2 * s * along};
}

/* Of the centres of row y, every second one: the first ones, or the others. */
static run centres_of(size_t n, size_t s, size_t y, bool others)
{
    size_t at = y * (n + 1);
    return (run){at + (others ? 3 * s : s), at + n, 4 * s};
}

/* How far the ends of a row's first centres lie, or of its others: one diagonal of the square around a centre, or the other. */
static size_t diagonal_of(size_t n, size_t s, size_t y, bool others)
{
    bool rising = (y / s / 2 % 2 == 0) != others;
    return rising ? s * (n + 1) + s : s * (n + 1) - s;
}

static void fill_run(int16_t *heights, run at, size_t reach)
{
    for (size_t i = at.from; i < at.to; i += at.step)
        if (heights[i] == MOSSKIRTLE_VOID)
            heights[i] = (int16_t)((heights[i - reach] + heights[i + reach]) >> 1);
}

/* Ends lie at coarser spacings, so these come first. */
static void fill(size_t n, int16_t *heights)
{
    for (size_t s = n / 2; s > 0; s /= 2) {
        for (size_t y = s; y < n; y += 2 * s) {
            fill_run(heights, centres_of(n, s, y, false), diagonal_of(n, s, y, false));
            fill_run(heights, centres_of(n, s, y, true), diagonal_of(n, s, y, true));
        }
        for (size_t c = 0; c <= n; c += 2 * s) {
            fill_run(heights, line_of(n, s, c, false), s);
            fill_run(heights, line_of(n, s, c, true), s * (n + 1));
        }
    }
}

/* No early way out, and a mask in place of 1, so that many heights are looked at at once. */
static bool any_void(const int16_t *survey, size_t samples)
{
    int16_t found = 0;
    for (size_t i = 0; i < samples; i++)
        found |= -(survey[i] == MOSSKIRTLE_VOID);
    return found;
}

typedef struct {
    size_t n;
    uint32_t limit;
    const int16_t *survey, *heights;
    uint8_t *marks;
} sweep;

/* Error and limit together are from 0 to twice the limit where the error is within it, and below 0 they wrap to far more. */
static inline bool exceeds(uint32_t limit, int32_t h, int32_t a, int32_t b)
{
    return limit + 2 * (uint32_t)h - (uint32_t)(a + b) > 2 * limit;
}

/* Of the finest edge points, on which nothing depends. A height that is no void is the survey's. */
static void mark_finest(sweep w, run at, size_t reach)
{
    for (size_t i = at.from; i < at.to; i += at.step) {
        int16_t h = w.survey[i];
        if (h == MOSSKIRTLE_VOID)
            w.marks[i] = IF_VOID;
        else
            w.marks[i] = exceeds(w.limit, h, w.heights[i - reach], w.heights[i + reach]) ? FOR_ERROR : LEFT_OUT;
    }
}

/* How many places on the four dependents lie. */
typedef struct { ptrdiff_t first, second, third, fourth; } dependents;

static inline bool some_kept(const uint8_t *mark, dependents d)
{
    return (mark[d.first] | mark[d.second] | mark[d.third] | mark[d.fourth]) & KEPT;
}

/* Dependents are looked at only where they decide. */
static void mark_run(sweep w, run at, size_t reach, dependents d)
{
    for (size_t i = at.from; i < at.to; i += at.step) {
        uint8_t *mark = w.marks + i;
        int16_t h = w.survey[i];
        if (h == MOSSKIRTLE_VOID)
            *mark = some_kept(mark, d) ? VOID_KEPT : IF_VOID;
        else if (exceeds(w.limit, h, w.heights[i - reach], w.heights[i + reach]))
            *mark = FOR_ERROR;
        else
            *mark = some_kept(mark, d) ? FOR_DEPENDENCE : LEFT_OUT;
    }
}

/* A dependent outside is stood for by the one across the line. */
static void mark_line(sweep w, size_t s, size_t c, bool turned)
{
    size_t n = w.n;
    ptrdiff_t along = turned ? (ptrdiff_t)n + 1 : 1, across = turned ? 1 : (ptrdiff_t)n + 1;
    run at = line_of(n, s, c, turned);
    if (s == 1) {
        mark_finest(w, at, (size_t)along);
        return;
    }
    ptrdiff_t half = (ptrdiff_t)s / 2;
    ptrdiff_t before = (c > 0 ? -half : half) * across, after = (c < n ? half : -half) * across;
    dependents d = {before - half * along, before + half * along, after - half * along, after + half * along};
    mark_run(w, at, s * (size_t)along, d);
}

static void mark_centres(sweep w, size_t s, size_t y)
{
    ptrdiff_t east = (ptrdiff_t)s, north = (ptrdiff_t)(s * (w.n + 1));
    dependents d = {-north, -east, east, north};
    mark_run(w, centres_of(w.n, s, y, false), diagonal_of(w.n, s, y, false), d);
    mark_run(w, centres_of(w.n, s, y, true), diagonal_of(w.n, s, y, true), d);
}

/* Dependents have finer spacings, or are edge points of a centre's own, so these come first. */
static void mark_all(sweep w)
{
    size_t n = w.n;
    w.marks[0] = w.marks[n] = w.marks[n * (n + 1)] = w.marks[n * (n + 2)] = FOR_CORNER;
    for (size_t s = 1; s < n; s *= 2) {
        for (size_t c = 0; c <= n; c += 2 * s) {
            mark_line(w, s, c, false);
            mark_line(w, s, c, true);
        }
        for (size_t y = s; y < n; y += 2 * s)
            mark_centres(w, s, y);
    }
}

static void count_on(mosskirtle_selection *sum, const uint8_t *marks, size_t from, size_t to)
{
    uint8_t own = 0, dependent = 0, voids = 0;
    for (size_t i = from; i < to; i++) {
        own += marks[i] == FOR_ERROR;
        dependent += (marks[i] & KEPT) == FOR_DEPENDENCE;
        voids += marks[i] >= IF_VOID;
    }
    sum->own += own;
    sum->dependent += dependent;
    sum->voids += voids;
}

static mosskirtle_selection counted(size_t samples, const uint8_t *marks)
{
    mosskirtle_selection sum = {0};
    size_t from = 0;
    for (; from + BYTEFUL <= samples; from += BYTEFUL)
        count_on(&sum, marks, from, from + BYTEFUL);
    count_on(&sum, marks, from, samples);
    return sum;
}

static bool corner_void(size_t n, const int16_t *heights)
{
    return heights[0] == MOSSKIRTLE_VOID || heights[n] == MOSSKIRTLE_VOID || heights[n * (n + 1)] == MOSSKIRTLE_VOID ||
           heights[n * (n + 2)] == MOSSKIRTLE_VOID;
}

mosskirtle_selection plain_select(const int16_t *survey, size_t survey_len, uint32_t m, uint32_t tolerance,
                                  uint8_t *marks, size_t marks_len, int16_t *heights, size_t heights_len)
{
    if (m > LARGEST)
        return (mosskirtle_selection){.refusal = MOSSKIRTLE_SIZE_ABOVE};
    size_t n = (size_t)1 << m, samples = samples_of(n);
    if (survey_len != samples || marks_len != samples || heights_len != samples)
        return (mosskirtle_selection){.refusal = MOSSKIRTLE_WRONG_LENGTH};
    if (tolerance > HIGHEST_TOLERANCE)
        return (mosskirtle_selection){.refusal = MOSSKIRTLE_TOLERANCE_ABOVE};
    if (corner_void(n, survey))
        return (mosskirtle_selection){.refusal = MOSSKIRTLE_VOID_CORNER};
    memcpy(heights, survey, samples * sizeof *heights);
    if (any_void(survey, samples))
        fill(n, heights);
    mark_all((sweep){n, 2 * tolerance, survey, heights, marks});
    return counted(samples, marks);
}

static bool corners_good(size_t n, const uint8_t *marks)
{
    return marks[0] == FOR_CORNER && marks[n] == FOR_CORNER && marks[n * (n + 1)] == FOR_CORNER && marks[n * (n + 2)] == FOR_CORNER;
}

static inline bool good(uint8_t mark)
{
    return (mark == LEFT_OUT) | (mark == FOR_ERROR) | (mark == FOR_DEPENDENCE) | (mark == IF_VOID) | (mark == VOID_KEPT);
}

/* No early way out, so that many marks are looked at at once. */
static bool good_between(const uint8_t *marks, size_t from, size_t to)
{
    uint8_t bad = 0;
    for (size_t i = from; i < to; i++)
        bad |= !good(marks[i]);
    return !bad;
}

static bool good_marks(size_t n, const uint8_t *marks)
{
    size_t north = n * (n + 1);
    return corners_good(n, marks) && good_between(marks, 1, n) && good_between(marks, n + 1, north) &&
           good_between(marks, north + 1, north + n);
}

static bool backed(const uint8_t *marks, run at, size_t before, size_t after)
{
    for (size_t i = at.from; i < at.to; i += at.step)
        if ((marks[i] & KEPT) && !((marks[i - before] & KEPT) && (marks[i + after] & KEPT)))
            return false;
    return true;
}

/* A point outside is stood for by the sample itself, which is kept. */
static bool line_closed(size_t n, size_t s, size_t c, bool turned, const uint8_t *marks)
{
    size_t across = turned ? s : s * (n + 1);
    return backed(marks, line_of(n, s, c, turned), c > 0 ? across : 0, c < n ? across : 0);
}

/* A centre depends on the diagonal that is not its ends'. */
static bool centres_closed(size_t n, size_t s, size_t y, bool others, const uint8_t *marks)
{
    size_t reach = diagonal_of(n, s, y, !others);
    return backed(marks, centres_of(n, s, y, others), reach, reach);
}

static bool closed(size_t n, const uint8_t *marks)
{
    for (size_t s = 1; s < n; s *= 2) {
        for (size_t c = 0; c <= n; c += 2 * s)
            if (!line_closed(n, s, c, false, marks) || !line_closed(n, s, c, true, marks))
                return false;
        for (size_t y = s; y < n; y += 2 * s)
            if (!centres_closed(n, s, y, false, marks) || !centres_closed(n, s, y, true, marks))
                return false;
    }
    return true;
}

/* At most a row's, so that their number fits in a byte. */
static uint32_t kept_between(const uint8_t *marks, size_t from, size_t to)
{
    uint8_t kept = 0;
    for (size_t i = from; i < to; i++)
        kept += (marks[i] & KEPT) != 0;
    return kept;
}

static inline uint32_t one_if_kept(uint8_t mark)
{
    return (mark & KEPT) != 0;
}

/* Of a row that is not outermost the ends are border points. Counted with the west end its marks are a power of two: no rest is left. */
static uint32_t number(size_t n, const uint8_t *marks)
{
    size_t row = n + 1, north = n * row;
    uint32_t triangles = 2 + kept_between(marks, 1, n) + kept_between(marks, north + 1, north + n);
    for (size_t at = row; at < north; at += row)
        triangles += 2 * kept_between(marks, at, at + n) + one_if_kept(marks[at + n]) - one_if_kept(marks[at]);
    return triangles;
}

static uint16_t *put(uint16_t *next, size_t p, size_t q, size_t w)
{
    next[0] = (uint16_t)p;
    next[1] = (uint16_t)q;
    next[2] = (uint16_t)w;
    return next + ENTRIES_EACH;
}

static uint16_t *cut_at_edge(const uint8_t *marks, uint32_t size, size_t l, size_t c, size_t r, size_t a, uint16_t *next);

/* Cut at c, the centre of a block of that size: its halves, each cut at an edge midpoint or written. */
static uint16_t *cut_at_centre(const uint8_t *marks, uint32_t size, size_t l, size_t c, size_t r, size_t a, uint16_t *next)
{
    size_t first = (l + a) / 2, second = (a + r) / 2;
    next = marks[first] & KEPT ? cut_at_edge(marks, size, l, first, a, c, next) : put(next, a, c, l);
    return marks[second] & KEPT ? cut_at_edge(marks, size, a, second, r, c, next) : put(next, r, c, a);
}

/* (l, a, r) with one cut left, made or not. */
static inline uint16_t *last_cut(const uint8_t *marks, size_t l, size_t a, size_t r, uint16_t *next)
{
    size_t c = (l + r) / 2;
    return marks[c] & KEPT ? put(put(next, l, c, a), a, c, r) : put(next, r, a, l);
}

/* Cut at c with two cuts left, as most cut triangles have: made here, they take no calls. */
static inline uint16_t *last_cuts(const uint8_t *marks, size_t l, size_t c, size_t r, size_t a, uint16_t *next)
{
    return last_cut(marks, a, c, r, last_cut(marks, l, c, a, next));
}

/* Cut at c, an edge midpoint: its halves, each cut at a block centre or written. A single cell has no centre. */
static uint16_t *cut_at_edge(const uint8_t *marks, uint32_t size, size_t l, size_t c, size_t r, size_t a, uint16_t *next)
{
    if (size == 1)
        return put(put(next, l, c, a), a, c, r);
    size_t first = (l + a) / 2, second = (a + r) / 2;
    if (size == 2) {
        next = marks[first] & KEPT ? last_cuts(marks, l, first, a, c, next) : put(next, l, c, a);
        return marks[second] & KEPT ? last_cuts(marks, a, second, r, c, next) : put(next, a, c, r);
    }
    next = marks[first] & KEPT ? cut_at_centre(marks, size - 1, l, first, a, c, next) : put(next, l, c, a);
    return marks[second] & KEPT ? cut_at_centre(marks, size - 1, a, second, r, c, next) : put(next, a, c, r);
}

static uint16_t *start_cutting(const uint8_t *marks, uint32_t m, size_t l, size_t a, size_t r, uint16_t *next)
{
    size_t c = (l + r) / 2;
    return m > 0 && marks[c] & KEPT ? cut_at_centre(marks, m, l, c, r, a, next) : put(next, l, a, r);
}

mosskirtle_mesh plain_triangles(const uint8_t *marks, size_t marks_len, uint32_t m, uint16_t *places, size_t places_len)
{
    if (m > LARGEST)
        return (mosskirtle_mesh){MOSSKIRTLE_SIZE_ABOVE, 0};
    uint32_t n = (uint32_t)1 << m;
    if (marks_len != samples_of(n))
        return (mosskirtle_mesh){MOSSKIRTLE_WRONG_LENGTH, 0};
    if (!good_marks(n, marks))
        return (mosskirtle_mesh){MOSSKIRTLE_BAD_MARK, 0};
    if (!closed(n, marks))
        return (mosskirtle_mesh){MOSSKIRTLE_NOT_CLOSED, 0};
    uint32_t triangles = number(n, marks);
    if (places_len < ENTRIES_EACH * (size_t)triangles)
        return (mosskirtle_mesh){MOSSKIRTLE_NO_ROOM, triangles};
    uint32_t nw = n * (n + 1), ne = nw + n;
    places = start_cutting(marks, m, 0, n, ne, places);
    start_cutting(marks, m, ne, nw, 0, places);
    return (mosskirtle_mesh){MOSSKIRTLE_ACCEPTED, triangles};
}

/* The triangle (l, a, r) that a walk has come to: the places of its corners, the point's weights at them, and the cuts left. */
typedef struct { uint32_t l, a, r, wl, wa, wr, left; } reached;

static reached start(uint32_t m, uint32_t x, uint32_t y)
{
    uint32_t n = (uint32_t)1 << m, nw = n * (n + 1), ne = nw + n, most = QUARTERS * n;
    if (y <= x)
        return (reached){0, n, ne, most - x, x - y, y, 2 * m};
    return (reached){ne, nw, 0, x, y - x, most - y, 2 * m};
}

static inline bool within(uint32_t set, uint8_t mark)
{
    return mark <= VOID_KEPT && (set >> mark & 1);
}

/* Each midpoint met is looked at, the one that ends the walk too. Answers whether all were good. */
static bool walk(const uint8_t *marks, reached *at)
{
    enum { GOOD_AND_OUT = 1 << LEFT_OUT | 1 << IF_VOID, GOOD_AND_KEPT = 1 << FOR_ERROR | 1 << FOR_DEPENDENCE | 1 << VOID_KEPT };
    uint32_t l = at->l, a = at->a, r = at->r, wl = at->wl, wa = at->wa, wr = at->wr, left = at->left;
    bool all_good = true;
    for (; left > 0; left--) {
        uint32_t c = (l + r) / 2, other = wa;
        if (!within(GOOD_AND_KEPT, marks[c])) {
            all_good = within(GOOD_AND_OUT, marks[c]);
            break;
        }
        if (wr <= wl) {
            wl -= wr, wa = 2 * wr, wr = other;
            r = a;
        } else {
            wr -= wl, wa = 2 * wl, wl = other;
            l = a;
        }
        a = c;
    }
    *at = (reached){l, a, r, wl, wa, wr, left};
    return all_good;
}

typedef struct {
    const uint8_t *marks;
    size_t marks_len;
    const int16_t *heights;
    size_t heights_len;
} mesh;

static uint32_t find(mesh of, uint32_t m, uint32_t x, uint32_t y, reached *t)
{
    if (m > LARGEST)
        return MOSSKIRTLE_SIZE_ABOVE;
    uint32_t n = (uint32_t)1 << m;
    if (of.marks_len != samples_of(n) || of.heights_len != samples_of(n))
        return MOSSKIRTLE_WRONG_LENGTH;
    if (x > QUARTERS * n || y > QUARTERS * n)
        return MOSSKIRTLE_POINT_BEYOND;
    *t = start(m, x, y);
    if (!corners_good(n, of.marks) || !walk(of.marks, t))
        return MOSSKIRTLE_BAD_MARK;
    const int16_t *heights = of.heights;
    if (heights[t->l] == MOSSKIRTLE_VOID || heights[t->a] == MOSSKIRTLE_VOID || heights[t->r] == MOSSKIRTLE_VOID)
        return MOSSKIRTLE_VOID_CORNER;
    return MOSSKIRTLE_ACCEPTED;
}

static float height_in(uint32_t m, const int16_t *heights, reached t)
{
    int32_t weighted = (int32_t)t.wl * heights[t.l] + (int32_t)t.wa * heights[t.a] + (int32_t)t.wr * heights[t.r];
    return (float)weighted / (float)((uint32_t)QUARTERS << m);
}

/* A corner that weighs nothing does not count. */
static bool filled_in(const uint8_t *marks, reached t)
{
    return (t.wl != 0 && marks[t.l] >= IF_VOID) || (t.wa != 0 && marks[t.a] >= IF_VOID) || (t.wr != 0 && marks[t.r] >= IF_VOID);
}

mosskirtle_height_answer plain_height(const uint8_t *marks, size_t marks_len, const int16_t *heights, size_t heights_len,
                                      uint32_t m, uint32_t x, uint32_t y)
{
    reached t;
    uint32_t refusal = find((mesh){marks, marks_len, heights, heights_len}, m, x, y, &t);
    if (refusal != MOSSKIRTLE_ACCEPTED)
        return (mosskirtle_height_answer){MOSSKIRTLE_REFUSED, refusal};
    float height = height_in(m, heights, t);
    mosskirtle_height_answer answer = {filled_in(marks, t) ? MOSSKIRTLE_FILLED : MOSSKIRTLE_SURVEYED, 0};
    memcpy(&answer.bits, &height, sizeof height);
    return answer;
}

/* How steeply the plane through three heights rises along one axis, by their coordinates along the other, times the doubled area. */
static int32_t tilt(int32_t hp, int32_t hq, int32_t hw, uint32_t cp, uint32_t cq, uint32_t cw)
{
    return hp * (int32_t)(cq - cw) + hq * (int32_t)(cw - cp) + hw * (int32_t)(cp - cq);
}

/* After an odd number of cuts (l, a, r) turns clockwise. 2 to the cuts left is the triangle's doubled area. */
mosskirtle_plane_answer plain_plane(const uint8_t *marks, size_t marks_len, const int16_t *heights, size_t heights_len,
                                    uint32_t m, uint32_t x, uint32_t y)
{
    reached t;
    uint32_t refusal = find((mesh){marks, marks_len, heights, heights_len}, m, x, y, &t);
    if (refusal != MOSSKIRTLE_ACCEPTED)
        return (mosskirtle_plane_answer){.refusal = refusal};
    bool odd = t.left % 2 == 1;
    uint32_t row = ((uint32_t)1 << m) + 1, p = odd ? t.r : t.l, q = t.a, w = odd ? t.l : t.r;
    int32_t hp = heights[p], hq = heights[q], hw = heights[w];
    float area = (float)((uint32_t)1 << t.left);
    return (mosskirtle_plane_answer){
        .refusal = MOSSKIRTLE_ACCEPTED,
        .height = height_in(m, heights, t),
        .east = (float)tilt(hp, hq, hw, p / row, q / row, w / row) / area,
        .north = (float)tilt(hw, hq, hp, w % row, q % row, p % row) / area,
    };
}
