/* Surveys of many kinds from a seed, the same on every machine. */
#ifndef SURVEYS_H
#define SURVEYS_H

#include <stdbool.h>
#include <stddef.h>
#include <stdint.h>

/* Starts the row of random numbers anew. */
void seed_random(uint64_t seed);

/* A number below the bound, which is not 0. */
uint32_t random_below(uint32_t bound);

/* A kind of survey: the height at a point, which may draw on the random numbers, and whether a grid corner may be void. */
typedef struct { const char *name; int (*height)(int n, int x, int y); bool void_corners; } survey_kind;
extern const survey_kind survey_kinds[];
extern const size_t survey_kinds_len;

void make_survey(const survey_kind *kind, uint32_t m, uint64_t seed, int16_t *survey);

#endif
