/* Each call made twice, by the library and by the reference, on lent buffers between guards; answers and whole buffers are compared. */
#include "calls.h"

#include <inttypes.h>
#include <stdio.h>
#include <stdlib.h>
#include <string.h>

/* 0xA5 is no mark and 0xA5A5 no place, so an entry left out shows. */
enum { GUARD_BYTES = 256, PATTERN = 0xA5 };

lent survey = {.name = "survey", .width = sizeof(int16_t)};
lent marks = {.name = "marks", .width = sizeof(uint8_t)};
lent heights = {.name = "heights", .width = sizeof(int16_t)};
lent places = {.name = "places", .width = sizeof(uint16_t)};
lent strip = {.name = "strip", .width = sizeof(uint16_t)};

const char *under_way = "";
uint64_t under_way_seed;
uint64_t cases;

static struct { uint32_t m, tolerance, x, y; } given;

size_t samples_of(uint32_t m)
{
    size_t side = ((size_t)1 << m) + 1;
    return side * side;
}

bool is_corner(uint32_t m, size_t place)
{
    size_t n = (size_t)1 << m, side = n + 1;
    return place % side % n == 0 && place / side % n == 0;
}

static void make_buffer(lent *buffer, size_t most)
{
    buffer->library = malloc(most * buffer->width + 2 * GUARD_BYTES);
    buffer->reference = malloc(most * buffer->width + 2 * GUARD_BYTES);
    if (buffer->library == NULL || buffer->reference == NULL)
        abort();
    lend(buffer, NULL, 0);
}

void make_buffers(void)
{
    make_buffer(&survey, MOST_SAMPLES);
    make_buffer(&marks, MOST_SAMPLES);
    make_buffer(&heights, MOST_SAMPLES);
    make_buffer(&places, 3 * 2 * MOST_SAMPLES);
    make_buffer(&strip, 2 * 2 * MOST_SAMPLES);
}

static void lay(uint8_t *copy, const void *content, size_t bytes)
{
    memset(copy, PATTERN, bytes + 2 * GUARD_BYTES);
    if (content != NULL)
        memcpy(copy + GUARD_BYTES, content, bytes);
}

void lend(lent *buffer, const void *content, size_t len)
{
    buffer->len = len;
    lay(buffer->library, content, len * buffer->width);
    lay(buffer->reference, content, len * buffer->width);
}

static void *library_part(const lent *buffer)
{
    return buffer->library + GUARD_BYTES;
}

static void *reference_part(const lent *buffer)
{
    return buffer->reference + GUARD_BYTES;
}

void set_mark(size_t place, uint8_t mark)
{
    ((uint8_t *)library_part(&marks))[place] = ((uint8_t *)reference_part(&marks))[place] = mark;
}

void set_height(size_t place, int16_t height)
{
    ((int16_t *)library_part(&heights))[place] = ((int16_t *)reference_part(&heights))[place] = height;
}

const uint8_t *marks_left(void)
{
    return library_part(&marks);
}

const int16_t *heights_left(void)
{
    return library_part(&heights);
}

const uint16_t *places_left(void)
{
    return library_part(&places);
}

const uint16_t *strip_left(void)
{
    return library_part(&strip);
}

_Noreturn void differs(const char *call, const char *what)
{
    printf("differs: %s, %s\n", call, what);
    printf("in: %s, seed %" PRIu64 ", after %" PRIu64 " cases\n", under_way, under_way_seed, cases);
    printf("given: m %" PRIu32 ", tolerance %" PRIu32 ", x %" PRIu32 ", y %" PRIu32 "\n", given.m, given.tolerance, given.x, given.y);
    printf("lent: survey %zu, marks %zu, heights %zu, places %zu, strip %zu\n", survey.len, marks.len, heights.len, places.len,
           strip.len);
    exit(1);
}

/* The whole buffer, guards and all. */
static void same_buffer(const char *call, const lent *buffer)
{
    size_t bytes = buffer->len * buffer->width + 2 * GUARD_BYTES, at = 0;
    if (memcmp(buffer->library, buffer->reference, bytes) == 0)
        return;
    while (buffer->library[at] == buffer->reference[at])
        at++;
    long entry = (long)(at / buffer->width) - (long)(GUARD_BYTES / buffer->width);
    uint8_t one = buffer->library[at], other = buffer->reference[at];
    printf("%s, entry %ld: byte 0x%02X by the library, 0x%02X by the reference\n", buffer->name, entry, one, other);
    differs(call, buffer->name);
}

/* Every answer is a row of 32-bit numbers and floats: compared by their bits. */
static void same_answer(const char *call, const void *library, const void *reference, size_t bytes)
{
    if (memcmp(library, reference, bytes) == 0)
        return;
    for (size_t at = 0; at < bytes; at += sizeof(uint32_t)) {
        uint32_t one, other;
        memcpy(&one, (const uint8_t *)library + at, sizeof one);
        memcpy(&other, (const uint8_t *)reference + at, sizeof other);
        printf("answer: 0x%08" PRIX32 " by the library, 0x%08" PRIX32 " by the reference\n", one, other);
    }
    differs(call, "answer");
}

mosskirtle_selection compare_select(uint32_t m, uint32_t tolerance)
{
    given.m = m;
    given.tolerance = tolerance;
    mosskirtle_selection answer = mosskirtle_select(library_part(&survey), survey.len, m, tolerance, library_part(&marks), marks.len,
                                                    library_part(&heights), heights.len);
    mosskirtle_selection expected = reference_select(reference_part(&survey), survey.len, m, tolerance, reference_part(&marks), marks.len,
                                                     reference_part(&heights), heights.len);
    same_answer("select", &answer, &expected, sizeof answer);
    same_buffer("select", &survey);
    same_buffer("select", &marks);
    same_buffer("select", &heights);
    cases++;
    return answer;
}

mosskirtle_mesh compare_triangles(uint32_t m)
{
    given.m = m;
    mosskirtle_mesh answer = mosskirtle_triangles(library_part(&marks), marks.len, m, library_part(&places), places.len);
    mosskirtle_mesh expected = reference_triangles(reference_part(&marks), marks.len, m, reference_part(&places), places.len);
    same_answer("triangles", &answer, &expected, sizeof answer);
    same_buffer("triangles", &marks);
    same_buffer("triangles", &places);
    cases++;
    return answer;
}

mosskirtle_strip_answer compare_strip(uint32_t m)
{
    given.m = m;
    mosskirtle_strip_answer answer = mosskirtle_strip(library_part(&marks), marks.len, m, library_part(&strip), strip.len);
    mosskirtle_strip_answer expected = reference_strip(reference_part(&marks), marks.len, m, reference_part(&strip), strip.len);
    same_answer("strip", &answer, &expected, sizeof answer);
    same_buffer("strip", &marks);
    same_buffer("strip", &strip);
    cases++;
    return answer;
}

static void give_point(uint32_t m, uint32_t x, uint32_t y)
{
    given.m = m;
    given.x = x;
    given.y = y;
}

mosskirtle_height_answer compare_height(uint32_t m, uint32_t x, uint32_t y)
{
    give_point(m, x, y);
    mosskirtle_height_answer answer = mosskirtle_height(library_part(&marks), marks.len, library_part(&heights), heights.len, m, x, y);
    mosskirtle_height_answer expected = reference_height(reference_part(&marks), marks.len, reference_part(&heights), heights.len, m, x, y);
    same_answer("height", &answer, &expected, sizeof answer);
    same_buffer("height", &marks);
    same_buffer("height", &heights);
    cases++;
    return answer;
}

void compare_plane(uint32_t m, uint32_t x, uint32_t y)
{
    give_point(m, x, y);
    mosskirtle_plane_answer answer = mosskirtle_plane(library_part(&marks), marks.len, library_part(&heights), heights.len, m, x, y);
    mosskirtle_plane_answer expected = reference_plane(reference_part(&marks), marks.len, reference_part(&heights), heights.len, m, x, y);
    same_answer("plane", &answer, &expected, sizeof answer);
    same_buffer("plane", &marks);
    same_buffer("plane", &heights);
    cases++;
}
