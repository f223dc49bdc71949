/* Holds the proved functions to the independent ones: good, cut, damaged and random images, and index arguments around every
   bound. All from a fixed seed. Exit status 1 with the case at the first difference. */
#include "guxhamole.h"
#include "independent.h"
#include "make.h"

#include <stdio.h>
#include <stdlib.h>
#include <string.h>

static uint8_t image[LONGEST + 16], whole[LONGEST + 16];
static unsigned long checks, indexes, seen[64];

static void check(const char *what, const uint8_t *bytes, size_t length)
{
    uint32_t told = guxhamole_image_check(bytes, length), want = independent_check(bytes, length);
    checks++;
    if (told == want) {
        seen[told & 63]++;
        return;
    }
    printf("image check: %s, %zu bytes: answered %u, expected %u\n", what, length, told, want);
    for (size_t i = 0; i < length && i < 148; i++)
        printf("%02x%s", bytes[i], i % 32 == 31 ? "\n" : " ");
    printf("\n");
    exit(1);
}

/* Every length up to the whole, with the length field as it was and with the one that it should have. */
static void cut(size_t length)
{
    memcpy(whole, image, length);
    for (size_t n = 0; n <= length; n++) {
        check("cut", image, n);
        if (n >= 4) {
            put_number(image, 0, 4, n);
            check("cut, length set", image, n);
            memcpy(image, whole, 4);
        }
    }
    for (size_t n = 1; n < 9; n++) {
        check("longer", image, length + n);
        put_number(image, 0, 4, length + n);
        check("longer, length set", image, length + n);
        memcpy(image, whole, 4);
    }
}

/* Every value in every byte of the head. */
static void damage_head(size_t length)
{
    for (size_t at = 0; at < image_head(image); at++) {
        uint8_t kept = image[at];
        for (int value = 0; value < 256; value++) {
            image[at] = (uint8_t)value;
            check("damaged head", image, length);
        }
        image[at] = kept;
    }
}

static void damage(size_t length)
{
    memcpy(whole, image, length);
    for (unsigned n = 1 + (unsigned)below(3); n > 0; n--)
        image[4 + below(length - 4)] = (uint8_t)(below(3) ? below(4) : next());
    check("damaged", image, length);
    memcpy(image, whole, length);
    damage_link(image, length);
    check("damaged at its link, or of another kind", image, length);
    memcpy(image, whole, length);
}

/* Another count for a region, its own or a higher one, within the window or just past it. */
static void miscount(size_t length)
{
    memcpy(whole, image, length);
    unsigned window = image[8] + 256u * image[9];
    put_number(image, 44 + 2 * below(image[6] + 1u < 8 ? image[6] + 1u : 8), 2, below(window + 2));
    check("another count", image, length);
    memcpy(image, whole, length);
}

/* Prices at and past their bounds, at the first, a middle and the last place. */
static void prices(size_t length)
{
    static const int32_t at[] = {-2147483647 - 1, -10000001, -10000000, -9999999, -1, 0, 1, 9999999, 10000000, 10000001, 2147483647};
    size_t n = image_places(image, length);
    if (n == 0)
        return;
    memcpy(whole, image, length);
    for (unsigned i = 0; i < sizeof at / sizeof *at; i++) {
        size_t places[] = {0, n - 1, n / 2, below(n)};
        for (unsigned j = 0; j < 4; j++) {
            put_price(image, places[j], at[i]);
            check("price", image, length);
            memcpy(image, whole, length);
        }
    }
}

/* A head's field at each bound and one past it, and its whole range of extremes. */
static void field(struct plan p)
{
    static const struct { size_t at; int bytes; uint64_t values[8]; } fields[] = {
        {6, 1, {0, 1, 2, 7, 8, 9, 254, 255}},
        {7, 1, {0, 1, 9, 10, 11, 12, 254, 255}},
        {8, 2, {0, 1, 2, 2015, 2016, 2017, 65534, 65535}},
        {10, 1, {0, 1, 2, 47, 48, 49, 254, 255}},
        {20, 4, {0, 1, 9999999, 10000000, 10000001, 16777216, 4294967294, 4294967295}},
        {24, 2, {0, 1, 5, 6, 287, 288, 32768, 65535}},
        {28, 8, {0, 1, 99999999999, 100000000000, 100000000001, 1ull << 63, ~0ull - 1, ~0ull}},
        {36, 4, {0, 1, 9999999, 10000000, 10000001, 1u << 31, 4294967295, 4284967296}},
        {40, 4, {0, 1, 4294967295, 4294967294, 4284967296, 4284967295, 1u << 31, 10000000}},
    };
    size_t length = lay_out(&p, 0, image);
    for (unsigned f = 0; f < sizeof fields / sizeof *fields; f++)
        for (int v = 0; v < 8; v++) {
            put_number(image, fields[f].at, fields[f].bytes, fields[f].values[v]);
            check("field", image, length);
            lay_out(&p, 0, image);
        }
}

static void random_bytes(void)
{
    size_t length = 140 + below(200);
    for (size_t i = 0; i < length; i++)
        image[i] = (uint8_t)next();
    check("random", image, length);
    put_number(image, 0, 4, length);
    check("random, length set", image, length);
    for (unsigned kind = 1; kind <= 2; kind++) {
        put_number(image, 4, 2, kind);
        check("random, length and kind set", image, length);
    }
}

static void images(void)
{
    struct plan p = plain();
    size_t length = lay_out(&p, 0, image);
    check("plain", image, length);
    cut(length);
    damage_head(length);
    p.services = 1, p.regions = 2, p.window = 3, p.entries = 5, p.counts[0] = 2, p.counts[1] = 3;
    length = lay_out(&p, 7, image);
    check("two regions", image, length);
    cut(length);
    damage_head(length);
    p.kind = 2, p.link = independent_ends(1, 0);
    length = lay_out(&p, 7, image);
    check("two regions with a link", image, length);
    cut(length);
    damage_head(length);
    p.halves = 48;
    field(p);
    for (int i = 0; i < 2000; i++) {
        length = any_image(i < 1900 ? 12 : 400, image);
        check("any", image, length);
        damage(length);
        damage(length);
        miscount(length);
        miscount(length);
        prices(length);
        random_bytes();
    }
    p = plain();
    p.regions = 8, p.services = 10, p.window = 2016, p.entries = 10000000;
    for (unsigned r = 0; r < 8; r++)
        p.counts[r] = 2016;
    length = lay_out(&p, 10000000, image);
    check("the longest", image, length);
    prices(length);
}

static void index_of(uint64_t amount, const uint32_t c[4], const uint32_t b[4], uint64_t last)
{
    int64_t told = guxhamole_index(amount, c[0], c[1], c[2], c[3], b[0], b[1], b[2], b[3], last);
    int64_t want = independent_index(amount, c, b, last);
    indexes++;
    if (told == want)
        return;
    printf("index: amount %llu, quarters %u %u %u %u over %u %u %u %u, last %llu: answered %lld, expected %lld\n",
           (unsigned long long)amount, c[0], c[1], c[2], c[3], b[0], b[1], b[2], b[3], (unsigned long long)last, (long long)told,
           (long long)want);
    exit(1);
}

static void index_bounds(void)
{
    static const uint64_t amounts[] = {0, 1, 49, 50, 51, 149, 150, 151, 12500, 1125000, 99999999, 100000000, 100000001, ~0ull};
    static const uint64_t lasts[] = {0, 1, 205, 9999999999999, 10000000000000, 10000000000001, 1ull << 63, ~0ull};
    static const uint32_t quarters[] = {0, 1, 2, 99999, 100000, 100001, 2147483648, 4294967295};
    for (unsigned a = 0; a < sizeof amounts / sizeof *amounts; a++)
        for (unsigned l = 0; l < sizeof lasts / sizeof *lasts; l++)
            for (unsigned q = 0; q < 8; q++)
                for (unsigned v = 0; v < sizeof quarters / sizeof *quarters; v++) {
                    uint32_t y[8] = {1, 1, 1, 1, 1, 1, 1, 1};
                    index_of(amounts[a], y, y + 4, lasts[l]);
                    y[q] = quarters[v];
                    index_of(amounts[a], y, y + 4, lasts[l]);
                }
}

static void index_random(void)
{
    uint32_t y[8];
    for (unsigned i = 0; i < 8; i++)
        y[i] = (uint32_t)(below(50) ? 1 + below(below(2) ? 100000 : 10) : next());
    uint64_t amount = below(20) ? 1 + below(below(2) ? 100000000 : 1000) : next();
    index_of(amount, y, y + 4, below(20) ? below(10000000000001) >> below(40) : next());
}

int main(void)
{
    images();
    index_bounds();
    for (int i = 0; i < 200000; i++)
        index_random();
    printf("%lu image checks (accepted %lu; 16: %lu, 24: %lu, 25: %lu, 26: %lu, 27: %lu) and %lu indexes alike\n", checks, seen[0],
           seen[16], seen[24], seen[25], seen[26], seen[27], indexes);
    return 0;
}
