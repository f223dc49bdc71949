/* The synthetic interval in plain C, written from requests 2026-07 and 2026-10 alone and sharing nothing with the proved code: the tests
   compare the two. A valid book's shape is told; the book itself and the lengths of slices are for the tests to judge. */
#ifndef INDEPENDENT_SYNTHETIC_H
#define INDEPENDENT_SYNTHETIC_H

#include "independent_interval.h"

/* The numbers that an interval draws. */
size_t independent_draws(struct independent_shape shape);

/* Draws an interval, its number and day kind aside, which become 0; answers the last s. */
uint32_t independent_synthetic(struct independent_shape shape, uint32_t seed, struct independent_interval *interval);

/* The seed from which so many draws lead to s: the generator run backwards. */
uint32_t independent_seed_before(uint32_t s, size_t draws);

#endif
