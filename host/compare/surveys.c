/* Surveys of many kinds from a seed, the same on every machine. */
#include "surveys.h"

#include <stdlib.h>

#include "calls.h"

enum { SHAPES = 3 };

static uint64_t state;

/* A survey's own numbers, drawn once: how steep, how high, how far. */
static int shape[SHAPES];

/* splitmix64 */
static uint64_t next_random(void)
{
    uint64_t z = state += UINT64_C(0x9E3779B97F4A7C15);
    z = (z ^ z >> 30) * UINT64_C(0xBF58476D1CE4E5B9);
    z = (z ^ z >> 27) * UINT64_C(0x94D049BB133111EB);
    return z ^ z >> 31;
}

void seed_random(uint64_t seed)
{
    state = seed;
}

uint32_t random_below(uint32_t bound)
{
    return (uint32_t)((next_random() >> 32) * bound >> 32);
}

static int random_within(int most)
{
    return (int)random_below(2 * (uint32_t)most + 1) - most;
}

static int flat(int n, int x, int y)
{
    (void)n, (void)x, (void)y;
    return shape[0];
}

static int ramp(int n, int x, int y)
{
    return (shape[0] * x + shape[1] * y) / n / 2;
}

static int ridge(int n, int x, int y)
{
    return shape[0] / 2 - abs(shape[1] / 256) * abs(x - y + shape[2] % n) / 2;
}

static int smooth(int n, int x, int y)
{
    return (shape[0] * x / n * x + shape[1] * y / n * y + shape[2] * x / n * y) / n / 3;
}

static int hills(int n, int x, int y)
{
    return smooth(n, x, y) / 64 + random_within(3);
}

static int fine(int n, int x, int y)
{
    (void)n, (void)x, (void)y;
    return random_within(2);
}

static int noisy(int n, int x, int y)
{
    (void)n, (void)x, (void)y;
    return random_within(abs(shape[0]));
}

static int peaks(int n, int x, int y)
{
    (void)x, (void)y;
    return random_below(8 * (uint32_t)n) == 0 ? random_within(100) : 0;
}

static int extreme(int n, int x, int y)
{
    (void)n;
    return (x + y) % 2 == 0 ? LARGEST_HEIGHT : -LARGEST_HEIGHT;
}

static int extreme_noise(int n, int x, int y)
{
    (void)n, (void)x, (void)y;
    return random_below(2) == 0 ? LARGEST_HEIGHT : -LARGEST_HEIGHT;
}

static int one_void(int n, int x, int y)
{
    return x == abs(shape[1]) % (n + 1) && y == abs(shape[2]) % (n + 1) ? MOSSKIRTLE_VOID : hills(n, x, y);
}

static int few_voids(int n, int x, int y)
{
    return random_below(8) == 0 ? MOSSKIRTLE_VOID : hills(n, x, y);
}

static int noise_with_voids(int n, int x, int y)
{
    return random_below(8) == 0 ? MOSSKIRTLE_VOID : noisy(n, x, y);
}

static int mostly_void(int n, int x, int y)
{
    return random_below(8) != 0 ? MOSSKIRTLE_VOID : noisy(n, x, y);
}

static int all_void(int n, int x, int y)
{
    (void)n, (void)x, (void)y;
    return MOSSKIRTLE_VOID;
}

const survey_kind survey_kinds[] = {
    {.name = "flat", .height = flat},
    {.name = "ramp", .height = ramp},
    {.name = "ridge", .height = ridge},
    {.name = "smooth", .height = smooth},
    {.name = "hills", .height = hills},
    {.name = "fine noise", .height = fine},
    {.name = "noise", .height = noisy},
    {.name = "peaks", .height = peaks},
    {.name = "extreme", .height = extreme},
    {.name = "extreme noise", .height = extreme_noise},
    {.name = "one void", .height = one_void},
    {.name = "few voids", .height = few_voids},
    {.name = "mostly void", .height = mostly_void},
    {.name = "void but corners", .height = all_void},
    {.name = "void anywhere", .height = noise_with_voids, .void_corners = true},
};
const size_t survey_kinds_len = sizeof survey_kinds / sizeof *survey_kinds;

void make_survey(const survey_kind *kind, uint32_t m, uint64_t seed, int16_t *survey)
{
    seed_random(seed);
    for (int i = 0; i < SHAPES; i++)
        shape[i] = random_within(LARGEST_HEIGHT);
    int n = 1 << m, side = n + 1;
    for (int place = 0; place < side * side; place++) {
        int x = place % side, y = place / side, height = kind->height(n, x, y);
        bool spared = height == MOSSKIRTLE_VOID && !kind->void_corners && is_corner(m, (size_t)place);
        survey[place] = (int16_t)(spared ? noisy(n, x, y) : height);
    }
}
