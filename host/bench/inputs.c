/* Makes the grids that the bench measures on. */
#include "inputs.h"

#include "mosskirtle.h"

#include <stdio.h>
#include <stdlib.h>
#include <string.h>

enum { DOME = 600, NOISE = 1000, PEAK = 100, HOLES_IN_100 = 10, VOIDS_IN_100 = 90 };

static const char *const names[] = {
    [REAL] = "real", [SMOOTH] = "smooth", [FLAT] = "flat", [NOISY] = "noisy", [PEAKS] = "every point kept",
    [HOLES] = "real, 10 % void", [MOSTLY_VOID] = "real, 90 % void", [ALL_VOID] = "void but the corners",
};

size_t samples_of(uint32_t m)
{
    size_t row = ((size_t)1 << m) + 1;
    return row * row;
}

uint32_t drawn(uint32_t *state, uint32_t limit)
{
    *state = *state * 1664525u + 1013904223u;
    return (uint32_t)((uint64_t)*state * limit >> 32);
}

void read_input(input *in, const char *path, uint32_t m, uint32_t tolerance)
{
    static uint8_t bytes[2 * MOST_SAMPLES + 1];
    const char *slash = strrchr(path, '/');
    FILE *file = fopen(path, "rb");
    if (m > LARGEST_MEASURED || file == NULL || fread(bytes, 1, sizeof bytes, file) != 2 * samples_of(m)) {
        fprintf(stderr, "%s can't be read as a survey of size %u\n", path, m);
        exit(1);
    }
    fclose(file);
    *in = (input){.name = slash == NULL ? path : slash + 1, .m = m, .tolerance = tolerance};
    for (size_t i = 0; i < samples_of(m); i++)
        in->survey[i] = (int16_t)(bytes[2 * i] << 8 | bytes[2 * i + 1]);
}

static int16_t dome(int32_t n, int32_t x, int32_t y)
{
    return (int16_t)((DOME * x * (n - x) + DOME / 2 * y * (n - y)) / (n * n));
}

static int16_t height_of(ground kind, int32_t n, int32_t x, int32_t y, int16_t surveyed, uint32_t *state)
{
    switch (kind) {
    case SMOOTH: return dome(n, x, y);
    case FLAT: return DOME;
    case NOISY: return (int16_t)drawn(state, NOISE);
    case PEAKS: return (x + y) % 2 == 1 ? PEAK : 0;
    case HOLES: return drawn(state, 100) < HOLES_IN_100 ? MOSSKIRTLE_VOID : surveyed;
    case MOSTLY_VOID: return drawn(state, 100) < VOIDS_IN_100 ? MOSSKIRTLE_VOID : surveyed;
    case ALL_VOID: return MOSSKIRTLE_VOID;
    case REAL: break;
    }
    return surveyed;
}

/* A smaller grid of the real survey is its south-west corner. */
void make_input(input *in, ground kind, const input *real, uint32_t m, uint32_t tolerance)
{
    *in = (input){.name = names[kind], .m = m, .tolerance = tolerance};
    int32_t n = 1 << m;
    uint32_t state = m;
    int16_t *next = in->survey;
    for (int32_t y = 0; y <= n; y++) {
        for (int32_t x = 0; x <= n; x++) {
            int16_t surveyed = real->survey[y * ((1 << LARGEST_MEASURED) + 1) + x];
            int16_t height = height_of(kind, n, x, y, surveyed, &state);
            *next++ = height == MOSSKIRTLE_VOID && x % n == 0 && y % n == 0 ? surveyed : height;
        }
    }
}
