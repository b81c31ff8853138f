/* Exact geometry on whole numbers: no float is computed with, its bits are put together. */
#include "exact.h"

#include <stdio.h>
#include <stdlib.h>

enum { SIGNIFICAND_BITS = 24, FRACTION_BITS = 23, EXPONENT_BIAS = 127, EXPONENT_TOP = 255, SIGN_BIT = 31 };

int64_t orientation(point a, point b, point c)
{
    return (int64_t)(b.x - a.x) * (c.y - a.y) - (int64_t)(b.y - a.y) * (c.x - a.x);
}

uint32_t float_bits(fraction value)
{
    if (value.over == 0)
        return 0;
    uint32_t negative = (value.over < 0) != (value.under < 0);
    uint64_t over = (uint64_t)llabs(value.over), under = (uint64_t)llabs(value.under);
    int exponent = EXPONENT_BIAS + FRACTION_BITS;
    for (; over < under << FRACTION_BITS; exponent--)
        over <<= 1;
    for (; over >= under << SIGNIFICAND_BITS; exponent++)
        under <<= 1;
    if (over % under != 0 || exponent <= 0 || exponent >= EXPONENT_TOP) {
        fprintf(stderr, "no f32 is %lld/%lld\n", (long long)value.over, (long long)value.under);
        abort();
    }
    uint32_t significand = (uint32_t)(over / under);
    return negative << SIGN_BIT | (uint32_t)exponent << FRACTION_BITS | (significand - (UINT32_C(1) << FRACTION_BITS));
}
