/* The demo of Mosskirtle: selects and cuts a survey read from a file, tells what was kept, asks for heights, and draws the mesh.
 * It looks at nothing before a call: what is wrong with a survey is told by the call's refusal. */
#include <errno.h>
#include <stdarg.h>
#include <stdbool.h>
#include <stdio.h>
#include <stdlib.h>
#include <string.h>

#include "ground.h"
#include "picture.h"

static ground land;

/* What is punched into the sample survey, which is of the largest size: a hole of two discs, and single samples. */
static const struct { int x, y, radius; } holes[] = {
    {84, 58, 12}, {97, 66, 9}, {20, 100, 0}, {48, 20, 0}, {112, 24, 0}, {60, 104, 0}, {116, 100, 0}, {28, 44, 0},
};

static const char *const meanings[] = {
    [MOSSKIRTLE_SIZE_ABOVE] = "the size M is above 7",
    [MOSSKIRTLE_WRONG_LENGTH] = "the survey does not hold exactly (2^M + 1)^2 samples",
    [MOSSKIRTLE_VOID_CORNER] = "a grid corner is void",
    [MOSSKIRTLE_TOLERANCE_ABOVE] = "the tolerance is above 65535",
    [MOSSKIRTLE_POINT_BEYOND] = "the point lies beyond the grid",
    [MOSSKIRTLE_BAD_MARK] = "a mark is not good",
    [MOSSKIRTLE_NOT_CLOSED] = "a point is kept without all that it depends on",
    [MOSSKIRTLE_NO_ROOM] = "there is no room for all places",
};

static const char *meaning(uint32_t refusal)
{
    bool known = refusal < sizeof meanings / sizeof *meanings && meanings[refusal] != NULL;
    return known ? meanings[refusal] : "a number that the header does not have";
}

static void fail(const char *form, ...)
{
    va_list items;
    va_start(items, form);
    fflush(stdout);
    fputs("demo: ", stderr);
    vfprintf(stderr, form, items);
    fputc('\n', stderr);
    va_end(items);
    exit(1);
}

static void unless_accepted(const char *call, uint32_t refusal)
{
    if (refusal != MOSSKIRTLE_ACCEPTED)
        fail("%s refused %u: %s", call, refusal, meaning(refusal));
}

static uint32_t number(const char *name, const char *text)
{
    char *end;
    errno = 0;
    unsigned long long value = strtoull(text, &end, 10);
    if (*text < '0' || *text > '9' || *end != '\0' || errno != 0 || value > UINT32_MAX)
        fail("%s has to be a whole number from 0 to %lu, and is \"%s\"", name, (unsigned long)UINT32_MAX, text);
    return (uint32_t)value;
}

static void read_survey(ground *g, const char *path)
{
    FILE *in = fopen(path, "rb");
    if (in == NULL)
        fail("cannot open %s: %s", path, strerror(errno));
    uint8_t bytes[2];
    size_t got = 0;
    while (g->samples < ROOM && (got = fread(bytes, 1, 2, in)) == 2) {
        int raw = bytes[0] << 8 | bytes[1];
        g->survey[g->samples++] = (int16_t)(raw < 1 << 15 ? raw : raw - (1 << 16));
    }
    if (ferror(in))
        fail("cannot read %s: %s", path, strerror(errno));
    if (got == 1)
        fail("%s ends in half a sample: each takes two bytes", path);
    fclose(in);
}

static void punch(ground *g)
{
    int side = MOST_CELLS + 1, punched = 0;
    for (int place = 0; place < (int)g->samples; place++)
        for (size_t i = 0; i < sizeof holes / sizeof *holes; i++) {
            int east = place % side - holes[i].x, north = place / side - holes[i].y;
            if (east * east + north * north > holes[i].radius * (holes[i].radius + 1) || g->survey[place] == MOSSKIRTLE_VOID)
                continue;
            g->survey[place] = MOSSKIRTLE_VOID;
            punched++;
        }
    printf("Punched for this demo: %d samples, a hole of two discs and some single ones, are made void. The file has them all.\n\n",
           punched);
}

static void thin(ground *g)
{
    g->selection = mosskirtle_select(g->survey, g->samples, g->m, g->tolerance, g->marks, g->samples, g->heights, g->samples);
    unless_accepted("selection", g->selection.refusal);
    g->mesh = mosskirtle_triangles(g->marks, g->samples, g->m, g->places, sizeof g->places / sizeof *g->places);
    unless_accepted("triangles", g->mesh.refusal);
    g->strip = mosskirtle_strip(g->marks, g->samples, g->m, g->strip_places, sizeof g->strip_places / sizeof *g->strip_places);
    unless_accepted("strip", g->strip.refusal);
}

static bool is_filled(const ground *g, uint16_t place)
{
    return g->marks[place] == FILLED_CORNER;
}

static void find_filled(ground *g)
{
    for (size_t place = 0; place < g->samples; place++)
        g->filled_corners += is_filled(g, (uint16_t)place);
    for (uint32_t triangle = 0; triangle < g->mesh.triangles; triangle++)
        if (height_at(g, inside(g, triangle)).kind == MOSSKIRTLE_FILLED)
            g->filled[g->filled_triangles++] = (uint16_t)triangle;
}

static void show_count(const char *what, uint32_t count)
{
    char text[8];
    printf("  %-28s %7s\n", what, counted(count, text));
}

static void show_counts(const ground *g)
{
    char text[8];
    uint32_t most = 2 * cells(g) * cells(g);
    show_count("samples", (uint32_t)g->samples);
    show_count("void", g->selection.voids);
    show_count("kept for their own error", g->selection.own);
    show_count("kept only for dependence", g->selection.dependent);
    show_count("  of these filled", g->filled_corners);
    show_count("triangles", g->mesh.triangles);
    show_count("  with a filled corner", g->filled_triangles);
    show_count("places of the strip", g->strip.places);
    printf("The triangles are %.1f %% of the full grid's %s. One strip for them all takes %.2f places a triangle, the plain list 3.\n\n",
           100.0 * g->mesh.triangles / most, counted(most, text), (double)g->strip.places / g->mesh.triangles);
}

static void show_height(const ground *g, point at, const char *remark)
{
    mosskirtle_height_answer answer = height_at(g, at);
    float height;
    memcpy(&height, &answer.bits, sizeof height);
    printf("  (%3u, %3u)  ", at.x, at.y);
    if (answer.kind == MOSSKIRTLE_REFUSED)
        printf("refused %u: %s\n", answer.bits, meaning(answer.bits));
    else
        printf("%-8s  %.14g%s\n", answer.kind == MOSSKIRTLE_FILLED ? "FILLED" : "surveyed", height, remark);
}

/* A point on the side opposite to a triangle's one filled corner: there it weighs nothing. */
static void show_beside_filled(const ground *g)
{
    static const char beside_filled[] = "   <- on the side opposite to a filled corner, which weighs nothing here";
    for (uint32_t i = 0; i < 3 * g->filled_triangles; i++) {
        const uint16_t *places = g->places + 3 * g->filled[i / 3];
        uint16_t one = places[(i + 1) % 3], other = places[(i + 2) % 3];
        if (is_filled(g, one) || is_filled(g, other))
            continue;
        point p = corner(g, one), q = corner(g, other);
        show_height(g, (point){2 * (p.x + q.x), 2 * (p.y + q.y)}, beside_filled);
        return;
    }
}

static void show_filled(const ground *g)
{
    static const char remark[] = "   <- a corner that weighs in it was void";
    uint32_t one = g->filled_triangles / 2, other = g->filled_triangles / 4;
    if (g->filled_triangles == 0) {
        puts("  no corner of this mesh is filled: every height is surveyed");
        return;
    }
    show_height(g, inside(g, g->filled[one]), remark);
    if (other != one)
        show_height(g, inside(g, g->filled[other]), remark);
    show_beside_filled(g);
}

static void show_plane(const ground *g, point at)
{
    mosskirtle_plane_answer plane = plane_at(g, at);
    unless_accepted("plane", plane.refusal);
    printf("  (%3u, %3u)  height %.14g, slope east %.14g, slope north %.14g\n", at.x, at.y, plane.height, plane.east, plane.north);
}

static void show_answers(const ground *g)
{
    uint32_t n = cells(g);
    point west = {n, 2 * n}, north = {2 * n + 1, 3 * n}, beyond = {4 * n + 1, 0};
    puts("Heights of the mesh, at points in quarter cells east and north of the south-west corner:");
    show_height(g, west, "");
    show_height(g, north, "");
    show_filled(g);
    show_height(g, beyond, "");
    puts("The ground plane, slopes in units per cell:");
    show_plane(g, north);
}

static void draw_into(const ground *g, bool with_strip, const char *path)
{
    FILE *out = fopen(path, "w");
    if (out == NULL)
        fail("cannot write %s: %s", path, strerror(errno));
    draw(g, with_strip, out);
    if (ferror(out) || fclose(out) != 0)
        fail("cannot write %s: %s", path, strerror(errno));
    printf("\nPicture: %s\n", path);
}

int main(int count, char **given)
{
    if (count < 7)
        fail("usage: demo FILE M TOLERANCE PICTURE mesh|strip whole|punched [LINE ABOUT THE SOURCE]...");
    land.m = number("M", given[2]);
    land.tolerance = number("TOLERANCE", given[3]);
    land.source = given + 7;
    read_survey(&land, given[1]);
    printf("Survey %s, size %u, tolerance %u\n\n", given[1], land.m, land.tolerance);
    if (strcmp(given[6], "punched") == 0)
        punch(&land);
    thin(&land);
    find_filled(&land);
    show_counts(&land);
    show_answers(&land);
    draw_into(&land, strcmp(given[5], "strip") == 0, given[4]);
    return 0;
}
