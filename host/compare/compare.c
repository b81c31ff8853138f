/* Compares the library with the reference, case by case: the small grids whole, lengths, then marks and surveys of many kinds at every
 * size. Prints the number of cases that passed, or the first difference. The argument says how often to go through the surveys. */
#include <inttypes.h>
#include <stdio.h>
#include <stdlib.h>
#include <string.h>

#include "closed.h"
#include "decoder.h"
#include "probes.h"
#include "surface.h"
#include "surveys.h"

static int16_t content[MOST_SAMPLES];

static void begin(const char *what, uint64_t seed)
{
    under_way = what;
    under_way_seed = seed;
    seed_random(seed);
}

/* Lends the first samples of the content, and what a selection writes. */
static void lend_selection(size_t survey_len, size_t marks_len, size_t heights_len)
{
    lend(&survey, content, survey_len);
    lend(&marks, NULL, marks_len);
    lend(&heights, NULL, heights_len);
}

/* Lengths, right and wrong, and the order of refusals */

/* The last ones are a size that is taken for whoever drops high bits. */
static const uint32_t SIZES[] = {0, 1, 2, 3, 4, 5, 6, 7, 8, 9, 31, 32, 33, 64, 255, 256, 65536, UINT32_C(1) << 31, UINT32_MAX};

enum { MOST_LENGTHS = 6 };

typedef struct { size_t count, at[MOST_LENGTHS]; } lengths;

static lengths lengths_of(uint32_t m)
{
    if (m > LARGEST_SIZE)
        return (lengths){5, {0, samples_of(0), samples_of(1), samples_of(LARGEST_SIZE), samples_of(SIZE_BEYOND)}};
    size_t right = samples_of(m);
    if (m == 0)
        return (lengths){5, {0, right - 1, right, right + 1, samples_of(m + 1)}};
    return (lengths){6, {0, samples_of(m - 1), right - 1, right, right + 1, samples_of(m + 1)}};
}

static void compare_select_lengths(uint32_t m, size_t survey_len, size_t marks_len, size_t heights_len)
{
    static const uint32_t tolerances[] = {0, LARGEST_TOLERANCE, LARGEST_TOLERANCE + 1, UINT32_C(1) << 31, UINT32_MAX};
    for (size_t t = 0; t < COUNT(tolerances); t++) {
        for (int void_corner = 0; void_corner < 2; void_corner++) {
            content[0] = void_corner ? MOSSKIRTLE_VOID : 0;
            lend_selection(survey_len, marks_len, heights_len);
            compare_select(m, tolerances[t]);
        }
    }
}

/* Marks that keep the grid corners alone where m is taken and the length is enough, with one that is bad or none. */
static void lend_marks(uint32_t m, size_t len, bool bad)
{
    lend(&marks, NULL, len);
    if (m <= LARGEST_SIZE && len >= samples_of(m))
        set_bare_marks(m);
    if (bad && len > 0)
        set_mark(0, LEFT_OUT);
}

/* The queries by marks and heights that are lent. */
static void compare_square(uint32_t m)
{
    compare_borders(m, (uint32_t)QUARTERS << (m > LARGEST_SIZE ? 0 : m));
}

static void compare_marks_lengths(uint32_t m, size_t marks_len)
{
    lengths of = lengths_of(m);
    for (int bad = 0; bad < 2; bad++) {
        lend_marks(m, marks_len, bad);
        for (size_t room = 0; room < 9; room++) {
            lend(&places, NULL, room);
            lend(&strip, NULL, room);
            compare_triangles(m);
            compare_strip(m);
        }
        for (size_t j = 0; j < of.count; j++) {
            lend(&heights, NULL, of.at[j]);
            compare_square(m);
        }
    }
}

/* One buffer longer than it seems to whoever cuts lengths to 16 bits, the others right. */
static void compare_cut_lengths(uint32_t m)
{
    size_t right = samples_of(m), longer = right + CUT_OFF;
    compare_select_lengths(m, longer, right, right);
    compare_select_lengths(m, right, longer, right);
    compare_select_lengths(m, right, right, longer);
    lend_marks(m, right, false);
    lend(&places, NULL, CUT_OFF);
    lend(&strip, NULL, CUT_OFF);
    compare_triangles(m);
    compare_strip(m);
    lend(&heights, NULL, longer);
    compare_square(m);
    lend_marks(m, longer, false);
    compare_triangles(m);
    compare_strip(m);
    lend(&heights, NULL, right);
    compare_square(m);
}

static void compare_void_corners(void)
{
    begin("one void grid corner", 0);
    memset(content, 0, sizeof content);
    for (uint32_t m = 0; m <= LARGEST_SIZE; m++) {
        for (size_t place = 0; place < samples_of(m); place++) {
            if (!is_corner(m, place))
                continue;
            content[place] = MOSSKIRTLE_VOID;
            lend_selection(samples_of(m), samples_of(m), samples_of(m));
            compare_select(m, 0);
            content[place] = 0;
        }
    }
}

static void compare_lengths(void)
{
    begin("lengths", 0);
    memset(content, 0, sizeof content);
    for (size_t s = 0; s < COUNT(SIZES); s++) {
        uint32_t m = SIZES[s];
        lengths of = lengths_of(m);
        for (size_t i = 0; i < of.count; i++) {
            compare_marks_lengths(m, of.at[i]);
            for (size_t j = 0; j < of.count; j++)
                for (size_t k = 0; k < of.count; k++)
                    compare_select_lengths(m, of.at[i], of.at[j], of.at[k]);
        }
        if (m <= LARGEST_SIZE)
            compare_cut_lengths(m);
    }
}

/* Small grids, whole */

/* The content from a number: each sample one of the corner's values or of the others', as digits. */
typedef struct { const int16_t *corner; uint32_t corners; const int16_t *other; uint32_t others; } digits;

static void content_of_number(uint32_t m, uint32_t number, digits values)
{
    for (size_t i = 0; i < samples_of(m); i++) {
        bool corner = is_corner(m, i);
        uint32_t count = corner ? values.corners : values.others;
        content[i] = (corner ? values.corner : values.other)[number % count];
        number /= count;
    }
}

static void compare_all_of_size_0(void)
{
    static const int16_t corner[] = {-2, -1, 0, 1, 3, MOSSKIRTLE_VOID};
    static const uint32_t tolerances[] = {0, LARGEST_TOLERANCE, LARGEST_TOLERANCE + 1};
    begin("every small survey of size 0", 0);
    for (uint32_t number = 0; number < 6 * 6 * 6 * 6; number++) {
        content_of_number(0, number, (digits){corner, COUNT(corner), NULL, 0});
        for (size_t t = 0; t < COUNT(tolerances); t++) {
            lend_selection(samples_of(0), samples_of(0), samples_of(0));
            compare_select(0, tolerances[t]);
        }
        lend_bare_marks(0);
        lend(&heights, content, samples_of(0));
        compare_rooms(0);
        compare_everywhere(0);
    }
}

static void compare_all_of_size_1(void)
{
    enum { SURVEYS = 3 * 3 * 3 * 3 * 5 * 5 * 5 * 5 * 5, WHOLE_EVERY = 499, TOLERANCES = 3 };
    static const int16_t corner[] = {-3, 0, 1}, other[] = {-2, -1, 0, 3, MOSSKIRTLE_VOID};
    begin("every small survey of size 1", 0);
    for (uint32_t number = 0; number < SURVEYS; number++) {
        content_of_number(1, number, (digits){corner, COUNT(corner), other, COUNT(other)});
        for (uint32_t tolerance = 0; tolerance < TOLERANCES; tolerance++) {
            lend_selection(samples_of(1), samples_of(1), samples_of(1));
            compare_select(1, tolerance);
            if (number % WHOLE_EVERY == 0) {
                compare_surface(1, compare_rooms(1));
                compare_everywhere(1);
            }
        }
    }
}

enum { GOOD_PATTERNS = GOOD_MARKS * GOOD_MARKS * GOOD_MARKS * GOOD_MARKS * GOOD_MARKS };

/* Marks from a number: each sample but the grid corners one of the values, as digits. */
static void lend_marks_of_number(uint32_t m, uint32_t number, uint32_t count, const uint8_t *values)
{
    lend_bare_marks(m);
    for (size_t i = 0; i < marks.len; i++) {
        if (is_corner(m, i))
            continue;
        set_mark(i, values[number % count]);
        number /= count;
    }
}

static void compare_all_marks_of_size_1(void)
{
    begin("all good marks of size 1", 0);
    for (uint32_t number = 0; number < GOOD_PATTERNS; number++) {
        lend_marks_of_number(1, number, GOOD_MARKS, good_marks);
        lend_random_heights(1);
        compare_rooms(1);
        compare_everywhere(1);
        compare_damaged(1, 1);
    }
}

static void compare_each_mark_of_size_1(void)
{
    begin("each mark at each sample of size 1", 0);
    for (uint32_t number = 0; number < 9 * 256; number++) {
        lend_marks_of_number(1, random_below(GOOD_PATTERNS), GOOD_MARKS, good_marks);
        lend_random_heights(1);
        set_mark(number % 9, (uint8_t)(number / 9));
        compare_rooms(1);
        compare_everywhere(1);
    }
}

/* Every set of kept points: closed ones are cut and made a strip, the others refused. */
static void compare_all_sets_of_size_2(void)
{
    enum { SETS = 1 << (5 * 5 - 4), MOST_TRIANGLES = 2 * 4 * 4 };
    static const uint8_t kept_or_not[] = {LEFT_OUT, OWN};
    begin("every set of kept points of size 2", 0);
    lend(&places, NULL, 3 * MOST_TRIANGLES);
    for (uint32_t number = 0; number < SETS; number++) {
        lend_marks_of_number(2, number, COUNT(kept_or_not), kept_or_not);
        mosskirtle_mesh mesh = compare_triangles(2);
        if (mesh.refusal != MOSSKIRTLE_ACCEPTED) {
            compare_strip(2);
            continue;
        }
        compare_strip_rooms(2, mesh);
        lend(&places, NULL, places.len);
        lend(&strip, NULL, strip.len);
    }
}

/* Marks and surveys at every size */

/* Up to this size there are few enough points and thresholds to try all. */
enum { WHOLE_SIZE = 3, WHOLE_SIDE = (1 << WHOLE_SIZE) + 1, WHOLE_SAMPLES = WHOLE_SIDE * WHOLE_SIDE };

static void compare_marks(void)
{
    for (uint32_t m = 0; m <= LARGEST_SIZE; m++) {
        begin("marks about one point", m);
        compare_corner_marks(m);
        compare_closed_sets(m);
    }
}

static void compare_random_marks(uint32_t m, uint64_t seed)
{
    begin("random marks", seed);
    uint32_t sparse = 1 + random_below(8);
    lend_bare_marks(m);
    lend_random_heights(m);
    for (size_t i = 0; i < marks.len; i++)
        if (!is_corner(m, i) && random_below(sparse) == 0)
            set_mark(i, good_marks[random_below(GOOD_MARKS)]);
    compare_rooms(m);
    compare_borders(m, (uint32_t)QUARTERS << m);
    compare_somewhere(m, 64);
    if (m <= WHOLE_SIZE)
        compare_everywhere(m);
    compare_damaged(m, 2);
}

/* A tolerance where a sample of this survey is just not kept, or with one less just kept. */
static uint32_t threshold(uint32_t m, size_t place, uint32_t less)
{
    uint32_t error = is_corner(m, place) ? 0 : reference_doubled_error(heights_left(), m, place) / 2;
    return error < less ? 0 : error - less;
}

static uint32_t some_threshold(uint32_t m)
{
    return threshold(m, random_below((uint32_t)samples_of(m)), random_below(2));
}

/* Every threshold of the survey, by selection alone. */
static void compare_thresholds(uint32_t m)
{
    uint32_t tolerances[2 * WHOLE_SAMPLES];
    size_t count = 0;
    for (size_t i = 0; i < 2 * samples_of(m); i++) {
        uint32_t tolerance = threshold(m, i / 2, i % 2);
        size_t same = 0;
        while (same < count && tolerances[same] != tolerance)
            same++;
        tolerances[same] = tolerance;
        count += same == count;
    }
    for (size_t i = 0; i < count; i++) {
        lend_selection(samples_of(m), samples_of(m), samples_of(m));
        compare_select(m, tolerances[i]);
    }
}

static void compare_selection(uint32_t m, uint32_t tolerance)
{
    lend_selection(samples_of(m), samples_of(m), samples_of(m));
    if (compare_select(m, tolerance).refusal != MOSSKIRTLE_ACCEPTED)
        return;
    mosskirtle_mesh mesh = compare_rooms(m);
    compare_borders(m, (uint32_t)QUARTERS << m);
    compare_somewhere(m, 32);
    if (m <= 4 || random_below(8) == 0)
        compare_surface(m, mesh);
    compare_damaged(m, 1);
}

static void compare_survey(const survey_kind *kind, uint32_t m, uint64_t seed)
{
    begin(kind->name, seed);
    make_survey(kind, m, seed, content);
    lend_selection(samples_of(m), samples_of(m), samples_of(m));
    bool accepted = compare_select(m, LARGEST_TOLERANCE).refusal == MOSSKIRTLE_ACCEPTED;
    uint32_t one = accepted ? some_threshold(m) : 0, other = accepted ? some_threshold(m) : 0;
    if (accepted && m <= WHOLE_SIZE)
        compare_thresholds(m);
    uint32_t tolerances[] = {0, 1, 2 + random_below(8), one, other, random_below(1000), random_below(LARGEST_TOLERANCE),
                             LARGEST_TOLERANCE, LARGEST_TOLERANCE + 1, UINT32_MAX};
    for (size_t i = 0; i < COUNT(tolerances); i++)
        compare_selection(m, tolerances[i]);
}

static void compare_surveys(uint64_t times)
{
    static const uint64_t rounds[LARGEST_SIZE + 1] = {4, 8, 64, 32, 16, 4, 2, 1};
    for (uint32_t m = 0; m <= LARGEST_SIZE; m++) {
        for (uint64_t round = 0; round < times * rounds[m]; round++) {
            for (size_t k = 0; k < survey_kinds_len; k++) {
                uint64_t seed = (round * survey_kinds_len + k) * (LARGEST_SIZE + 1) + m;
                compare_survey(&survey_kinds[k], m, seed);
                compare_random_marks(m, seed);
            }
        }
    }
}

int main(int argc, char **argv)
{
    char *end = NULL;
    unsigned long long times = argc == 2 ? strtoull(argv[1], &end, 10) : 0;
    if (times == 0 || *end != '\0') {
        fprintf(stderr, "say how often to go through the surveys, once or more\n");
        return 2;
    }
    make_buffers();
    compare_all_of_size_0();
    compare_all_of_size_1();
    compare_all_marks_of_size_1();
    compare_each_mark_of_size_1();
    compare_all_sets_of_size_2();
    compare_lengths();
    compare_void_corners();
    compare_marks();
    compare_surveys(times);
    printf("%" PRIu64 " cases passed, %" PRIu64 " surfaces whole, %" PRIu64 " strips read back\n", cases, surfaces, strips);
    return 0;
}
