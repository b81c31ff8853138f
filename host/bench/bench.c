/* The bench: instructions of the proved calls beside those of plain C, on the same grids; what stack they take. Prints tables.
 * Arguments: the counter, the real survey, then pairs of a further survey and its size. */
#define _GNU_SOURCE
#include "calls.h"
#include "inputs.h"
#include "stack.h"

#include <fcntl.h>
#include <stdbool.h>
#include <stdio.h>
#include <stdlib.h>
#include <string.h>
#include <unistd.h>

enum { POINTS = 4096, QUARTERS = 4, TOLERANCE = 5, SIZES = LARGEST_MEASURED - SMALLEST_MEASURED + 1 };

/* Each is measured at every size, and shown by the tables of costs at every size or at the largest. */
static const struct { ground kind; uint32_t tolerance; bool every_size; } made[] = {
    {REAL, TOLERANCE, true}, {SMOOTH, TOLERANCE, true}, {ALL_VOID, TOLERANCE, false}, {REAL, 0, false}, {FLAT, TOLERANCE, false},
    {NOISY, TOLERANCE, false}, {PEAKS, 0, false}, {HOLES, TOLERANCE, false}, {MOSTLY_VOID, TOLERANCE, false},
};
enum { MADE = sizeof made / sizeof *made };

/* What two makers take for one thing. */
typedef struct { uint64_t ours, plain; } cost;

/* Every query's answer is kept, so that it can be compared. */
typedef struct {
    mosskirtle_selection selected;
    mosskirtle_mesh refused, meshed;
    mosskirtle_strip_answer stripped;
    uint8_t marks[MOST_SAMPLES];
    int16_t heights[MOST_SAMPLES];
    uint16_t places[3 * MOST_TRIANGLES];
    mosskirtle_height_answer height[POINTS];
    mosskirtle_plane_answer plane[POINTS];
} answers;

/* What every call takes in all: the room that the list of triangles needs is lacking first, and lent then. */
typedef struct { uint64_t select, refused, triangles, height, plane; } taken;

/* The strip is ours alone: with room for two places a triangle, and with just the places that it takes. */
typedef struct { cost select, refused, triangles, height, plane; uint64_t strip, strip_tight; uint32_t written, places; } row;

/* The made ones by kind and size, then the further surveys. */
static input *inputs;
static row *rows;
static int inputs_len;

static answers answered[2];
static uint32_t points[POINTS][2];
static int counter;

static void fail(const char *what, const input *in)
{
    fprintf(stderr, "%s: %s, m = %u, tolerance %u\n", what, in->name, in->m, in->tolerance);
    exit(1);
}

static uint64_t executed(void)
{
    uint64_t number;
    if (pread(counter, &number, sizeof number, 0) != sizeof number) {
        fprintf(stderr, "nobody counts: host/bench/run starts the bench\n");
        exit(1);
    }
    return number;
}

static void do_select(const calls *by, const input *in, answers *to)
{
    size_t samples = samples_of(in->m);
    to->selected = by->select(in->survey, samples, in->m, in->tolerance, to->marks, samples, to->heights, samples);
}

static void do_refused(const calls *by, const input *in, answers *to)
{
    to->refused = by->triangles(to->marks, samples_of(in->m), in->m, to->places, 0);
}

static void do_triangles(const calls *by, const input *in, answers *to)
{
    to->meshed = by->triangles(to->marks, samples_of(in->m), in->m, to->places, 3 * MOST_TRIANGLES);
}

static void do_heights(const calls *by, const input *in, answers *to)
{
    size_t samples = samples_of(in->m);
    for (int i = 0; i < POINTS; i++)
        to->height[i] = by->height(to->marks, samples, to->heights, samples, in->m, points[i][0], points[i][1]);
}

static void do_planes(const calls *by, const input *in, answers *to)
{
    size_t samples = samples_of(in->m);
    for (int i = 0; i < POINTS; i++)
        to->plane[i] = by->plane(to->marks, samples, to->heights, samples, in->m, points[i][0], points[i][1]);
}

static void do_strip(const calls *by, const input *in, answers *to)
{
    to->stripped = by->strip(to->marks, samples_of(in->m), in->m, to->places, 2 * MOST_TRIANGLES);
}

/* After `do_strip`. */
static void do_strip_tight(const calls *by, const input *in, answers *to)
{
    to->stripped = by->strip(to->marks, samples_of(in->m), in->m, to->places, to->stripped.places);
}

typedef void (*work)(const calls *by, const input *in, answers *to);

static uint64_t counted(work what, const calls *by, const input *in, answers *to)
{
    uint64_t start = executed();
    what(by, in, to);
    return executed() - start;
}

static taken call_all(const calls *by, const input *in, answers *to)
{
    taken spent;
    spent.select = counted(do_select, by, in, to);
    spent.refused = counted(do_refused, by, in, to);
    spent.triangles = counted(do_triangles, by, in, to);
    spent.height = counted(do_heights, by, in, to);
    spent.plane = counted(do_planes, by, in, to);
    return spent;
}

static void draw_points(uint32_t m)
{
    uint32_t state = m, most = (uint32_t)QUARTERS << m;
    for (int i = 0; i < POINTS; i++) {
        points[i][0] = drawn(&state, most + 1);
        points[i][1] = drawn(&state, most + 1);
    }
}

static void compare(const input *in)
{
    const answers *a = &answered[0], *b = &answered[1];
    if (memcmp(a, b, sizeof *a) != 0)
        fail("the proved and the plain calls differ", in);
    if (a->selected.refusal != MOSSKIRTLE_ACCEPTED || a->refused.refusal != MOSSKIRTLE_NO_ROOM || a->meshed.refusal != MOSSKIRTLE_ACCEPTED)
        fail("refused", in);
}

static cost less(uint64_t by_ours, uint64_t by_plain, uint64_t by_none)
{
    return (cost){by_ours - by_none, by_plain - by_none};
}

static void measure_strip(const input *in, row *of)
{
    answers *to = &answered[0];
    of->strip = counted(do_strip, &ours, in, to);
    of->places = to->stripped.places;
    of->strip_tight = counted(do_strip_tight, &ours, in, to);
    if (to->stripped.refusal != MOSSKIRTLE_ACCEPTED || to->stripped.places != of->places)
        fail("refused", in);
    of->strip -= counted(do_strip, &none, in, to);
    of->strip_tight -= counted(do_strip_tight, &none, in, to);
}

static row measure(const input *in)
{
    draw_points(in->m);
    memset(answered, 0, sizeof answered);
    taken by_ours = call_all(&ours, in, &answered[0]), by_plain = call_all(&plain, in, &answered[1]);
    compare(in);
    uint32_t written = answered[0].meshed.triangles;
    taken by_none = call_all(&none, in, &answered[1]);
    row measured = {
        .select = less(by_ours.select, by_plain.select, by_none.select),
        .refused = less(by_ours.refused, by_plain.refused, by_none.refused),
        .triangles = less(by_ours.triangles, by_plain.triangles, by_none.triangles),
        .height = less(by_ours.height, by_plain.height, by_none.height),
        .plane = less(by_ours.plane, by_plain.plane, by_none.plane),
        .written = written,
    };
    measure_strip(in, &measured);
    return measured;
}

static void print_cost(cost of, uint64_t things)
{
    double by_ours = (double)of.ours, by_plain = (double)of.plain, number = (double)things;
    printf(" %.1f | %.1f | %.2f |", by_ours / number, by_plain / number, by_ours / by_plain);
}

static bool shown(int i)
{
    return i >= MADE * SIZES || made[i / SIZES].every_size || inputs[i].m == LARGEST_MEASURED;
}

static void print_input(const input *in)
{
    printf("| %s, t = %u | %u |", in->name, in->tolerance, in->m);
}

static void print_selection(void)
{
    printf("Selection, instructions a sample:\n\n| grid | m | ours | C | ratio |\n|---|---|---|---|---|\n");
    for (int i = 0; i < inputs_len; i++) {
        if (!shown(i))
            continue;
        print_input(&inputs[i]);
        print_cost(rows[i].select, samples_of(inputs[i].m));
        printf("\n");
    }
}

static void print_triangles(void)
{
    printf("\nTriangles: the look at the marks, instructions a sample; then the list, instructions a triangle:\n\n");
    printf("| grid | m | triangles | marks, ours | C | ratio | list, ours | C | ratio |\n|---|---|---|---|---|---|---|---|---|\n");
    for (int i = 0; i < inputs_len; i++) {
        if (!shown(i))
            continue;
        const row *r = &rows[i];
        cost list = {r->triangles.ours - r->refused.ours, r->triangles.plain - r->refused.plain};
        print_input(&inputs[i]);
        printf(" %u |", r->written);
        print_cost(r->refused, samples_of(inputs[i].m));
        print_cost(list, r->written);
        printf("\n");
    }
}

static void print_strip(void)
{
    printf("\nThe strip, instructions a triangle, the look at the marks included; and the list so counted:\n\n");
    printf("| grid | m | triangles | places | with room for two a triangle | with just its places | the list |\n|---|---|---|---|---|---|---|\n");
    for (int i = 0; i < inputs_len; i++) {
        if (!shown(i))
            continue;
        const row *r = &rows[i];
        double each = r->written;
        print_input(&inputs[i]);
        printf(" %u | %u | %.1f | %.1f | %.1f |\n", r->written, r->places, (double)r->strip / each, (double)r->strip_tight / each,
               (double)r->triangles.ours / each);
    }
}

static void print_queries(void)
{
    printf("\nHeight and plane, instructions a query, the mean over %d points:\n\n", POINTS);
    printf("| grid | m | height, ours | C | ratio | plane, ours | C | ratio |\n|---|---|---|---|---|---|---|---|\n");
    for (int i = 0; i < inputs_len; i++) {
        if (!shown(i))
            continue;
        print_input(&inputs[i]);
        print_cost(rows[i].height, POINTS);
        print_cost(rows[i].plane, POINTS);
        printf("\n");
    }
}

static const row *row_of(int kind, uint32_t m)
{
    return &rows[kind * SIZES + (int)m - SMALLEST_MEASURED];
}

static int made_of(ground kind)
{
    for (int i = 0; i < MADE; i++)
        if (made[i].kind == kind && made[i].tolerance == TOLERANCE)
            return i;
    abort();
}

static void print_sizes(const char *what)
{
    printf(" %s, m = %d |", what, SMALLEST_MEASURED);
    for (int m = SMALLEST_MEASURED + 1; m <= LARGEST_MEASURED; m++)
        printf(" %d |", m);
}

static void print_ratio(cost of)
{
    printf(" %.2f |", (double)of.ours / (double)of.plain);
}

static void print_ratios(void)
{
    printf("\nOurs against C by size: selection, and triangles as a whole, in one call with room:\n\n| grid |");
    print_sizes("selection");
    print_sizes("triangles");
    printf("\n|---|");
    for (int i = 0; i < 2 * SIZES; i++)
        printf("---|");
    for (int kind = 0; kind < MADE; kind++) {
        printf("\n| %s, t = %u |", inputs[kind * SIZES].name, made[kind].tolerance);
        for (uint32_t m = SMALLEST_MEASURED; m <= LARGEST_MEASURED; m++)
            print_ratio(row_of(kind, m)->select);
        for (uint32_t m = SMALLEST_MEASURED; m <= LARGEST_MEASURED; m++)
            print_ratio(row_of(kind, m)->triangles);
    }
    printf("\n");
}

static void print_voids(void)
{
    printf("\nSelection of nothing but voids beside the corners, against the full real grid:\n\n| m | ours | C |\n|---|---|---|\n");
    for (uint32_t m = SMALLEST_MEASURED; m <= LARGEST_MEASURED; m++) {
        const row *empty = row_of(made_of(ALL_VOID), m), *full = row_of(made_of(REAL), m);
        printf("| %u | %.2f | %.2f |\n", m, (double)empty->select.ours / (double)full->select.ours,
               (double)empty->select.plain / (double)full->select.plain);
    }
}

/* Work on a stack of its own takes no arguments. */
static struct { work what; const calls *by; const input *in; } under_test;

static void run_under_test(void)
{
    under_test.what(under_test.by, under_test.in, answered);
}

static size_t deepest(const calls *by, work what)
{
    size_t most = 0;
    for (int i = 0; i < inputs_len; i++) {
        draw_points(inputs[i].m);
        do_select(&plain, &inputs[i], answered);
        do_strip(&ours, &inputs[i], answered);
        under_test.what = what;
        under_test.by = by;
        under_test.in = &inputs[i];
        size_t bytes = stack_taken(run_under_test);
        most = bytes > most ? bytes : most;
    }
    return most;
}

static void print_stack(void)
{
    static const struct { const char *name; work what; } every[] = {
        {"selection", do_select}, {"triangles", do_triangles}, {"height", do_heights}, {"plane", do_planes},
    }, strips[] = {{"strip, with room for two a triangle", do_strip}, {"strip, with just its places", do_strip_tight}};
    printf("\nStack, the most bytes that a call took on any of these grids:\n\n| call | ours | C |\n|---|---|---|\n");
    for (size_t i = 0; i < sizeof every / sizeof *every; i++) {
        size_t base = deepest(&none, every[i].what);
        printf("| %s | %zu | %zu |\n", every[i].name, deepest(&ours, every[i].what) - base, deepest(&plain, every[i].what) - base);
    }
    for (size_t i = 0; i < sizeof strips / sizeof *strips; i++)
        printf("| %s | %zu | |\n", strips[i].name, deepest(&ours, strips[i].what) - deepest(&none, strips[i].what));
}

/* A size is one digit. */
static uint32_t size_from(const char *text)
{
    if (strlen(text) != 1 || text[0] < '0' || text[0] > '0' + LARGEST_MEASURED) {
        fprintf(stderr, "%s is no size, 0 to %d\n", text, LARGEST_MEASURED);
        exit(1);
    }
    return (uint32_t)(text[0] - '0');
}

static void make_inputs(const char *survey, int given, char **further)
{
    static input real;
    read_input(&real, survey, LARGEST_MEASURED, TOLERANCE);
    inputs_len = MADE * SIZES + given;
    inputs = calloc((size_t)inputs_len, sizeof *inputs);
    rows = calloc((size_t)inputs_len, sizeof *rows);
    if (inputs == NULL || rows == NULL)
        abort();
    input *next = inputs;
    for (int kind = 0; kind < MADE; kind++)
        for (uint32_t m = SMALLEST_MEASURED; m <= LARGEST_MEASURED; m++)
            make_input(next++, made[kind].kind, &real, m, made[kind].tolerance);
    for (int i = 0; i < given; i++)
        read_input(next++, further[2 * i], size_from(further[2 * i + 1]), TOLERANCE);
}

int main(int arguments, char **argument)
{
    if (arguments < 3 || arguments % 2 == 0) {
        fprintf(stderr, "give the counter and the survey, then pairs of a further survey and its size\n");
        return 1;
    }
    counter = open(argument[1], O_RDONLY);
    make_inputs(argument[2], (arguments - 3) / 2, argument + 3);
    for (int i = 0; i < inputs_len; i++)
        rows[i] = measure(&inputs[i]);
    print_selection();
    print_triangles();
    print_strip();
    print_queries();
    print_ratios();
    print_voids();
    print_stack();
    return 0;
}
