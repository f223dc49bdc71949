/* The synthetic interval, from the words of requests 2026-07 and 2026-10: first every draw in its turn, then what each of them means. */
#include "independent_synthetic.h"

#include <string.h>

enum { DRAWS_MOST = 88 + 2 * 9 };

static const uint64_t numbers = 4294967296, factor = 1664525, more = 1013904223;

size_t independent_draws(struct independent_shape shape)
{
    return shape.regions * (shape.services + (size_t)1) + 2 * independent_places(shape);
}

/* Each d in its turn; answers the last s. */
static uint32_t draw_all(uint64_t s, size_t count, int32_t *draws)
{
    for (size_t i = 0; i < count; i++) {
        s = (s * factor + more) % numbers;
        draws[i] = (int32_t)(s / 65536);
    }
    return (uint32_t)s;
}

static int32_t energy(int32_t d)
{
    return d < 64 ? 1500000 : d % 20000 - 2000;
}

uint32_t independent_synthetic(struct independent_shape shape, uint32_t seed, struct independent_interval *interval)
{
    int32_t draws[DRAWS_MOST];
    size_t markets = shape.services + (size_t)1;
    uint32_t last = draw_all(seed, independent_draws(shape), draws);
    const int32_t *later = draws + shape.regions * markets; /* flow and factor, region by region and then the additional link's */
    memset(interval, 0, sizeof *interval);
    for (size_t region = 0; region < shape.regions; region++) {
        size_t first = region * markets;
        interval->prices[first] = energy(draws[first]);
        for (size_t service = first + 1; service < first + markets; service++)
            interval->prices[service] = draws[service] % 3000;
    }
    for (size_t place = 0; place < independent_places(shape); place++) {
        interval->flows[place] = later[2 * place] % 2001 - 1000;
        interval->factors[place] = (uint32_t)(10000 + later[2 * place + 1] % 2000);
    }
    return last;
}

uint32_t independent_seed_before(uint32_t s, size_t draws)
{
    const uint64_t inverse = 4276115653; /* times the factor it is 1 among 32-bit numbers */
    uint64_t before = s;
    for (; draws > 0; draws--)
        before = (before + numbers - more) % numbers * inverse % numbers;
    return (uint32_t)before;
}
