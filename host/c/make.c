/* Images for the tests and the samples, and numbers from a fixed seed. */
#include "make.h"

#include <string.h>

uint64_t seed = 20261115;

/* splitmix64 */
uint64_t next(void)
{
    uint64_t z = seed += 0x9e3779b97f4a7c15u;
    z = (z ^ z >> 30) * 0xbf58476d1ce4e5b9u;
    z = (z ^ z >> 27) * 0x94d049bb133111ebu;
    return z ^ z >> 31;
}

uint64_t below(uint64_t n)
{
    return next() % n;
}

int64_t within(int64_t least, int64_t most)
{
    return least + (int64_t)below((uint64_t)(most - least + 1));
}

/* Multiples of 1,000 and of 5,000 among them. */
int64_t threshold_beside(int64_t multiple)
{
    static const int64_t less[] = {1, 1000, 5000, 9999}, worked[] = {1, 9999, 10001, 95000, 99999999999};
    switch (below(4)) {
    case 0: return worked[below(sizeof worked / sizeof *worked)];
    case 1: return multiple - within(1, 9999);
    default: return multiple - less[below(sizeof less / sizeof *less)];
    }
}

int64_t threshold_out(void)
{
    static const int64_t out[] = {0, -1, -10000, -95000, 100000000001, 100000010000, INT64_MIN, INT64_MAX};
    return out[below(sizeof out / sizeof *out)];
}

struct plan plain(void)
{
    struct plan p;
    memset(&p, 0, sizeof p);
    p.regions = 1, p.window = 1, p.halves = 1, p.threshold = 95000, p.cap = 60000, p.floor = -60000;
    memset(p.parents, 255, sizeof p.parents);
    p.kind = 1, p.link.from = 255, p.link.to = 255;
    return p;
}

static size_t head_of(uint64_t kind)
{
    return kind == 2 ? IMAGE_HEAD : 148;
}

size_t size_of(const struct plan *plan)
{
    size_t n = 0;
    for (unsigned r = 0; r < 8; r++)
        n += plan->counts[r];
    return head_of(plan->kind) + 4 * n * (plan->services + 1);
}

void put_number(uint8_t *image, size_t at, int bytes, uint64_t n)
{
    for (int i = 0; i < bytes; i++)
        image[at + (size_t)i] = (uint8_t)(n >> 8 * i);
}

void put_price(uint8_t *image, size_t place, int32_t price)
{
    put_number(image, image_head(image) + 4 * place, 4, (uint32_t)price);
}

size_t image_head(const uint8_t *image)
{
    return head_of(image[4] + 256u * image[5]);
}

size_t image_places(const uint8_t *image, size_t length)
{
    return length < image_head(image) ? 0 : (length - image_head(image)) / 4;
}

static void put_link(const struct plan *plan, uint8_t *image)
{
    image[148] = plan->link.from;
    image[149] = plan->link.to;
    put_number(image, 150, 2, 0);
    put_number(image, 152, 4, 0xffffffff);
}

size_t lay_out(const struct plan *plan, int32_t price, uint8_t *image)
{
    size_t length = size_of(plan);
    put_number(image, 0, 4, length);
    put_number(image, 4, 2, plan->kind);
    image[6] = (uint8_t)plan->regions;
    image[7] = (uint8_t)plan->services;
    put_number(image, 8, 2, plan->window);
    image[10] = (uint8_t)plan->halves;
    image[11] = 0;
    memcpy(image + 12, plan->parents, 8);
    put_number(image, 20, 4, plan->entries);
    put_number(image, 24, 2, plan->position);
    put_number(image, 26, 2, 0);
    put_number(image, 28, 8, (uint64_t)plan->threshold);
    put_number(image, 36, 4, (uint32_t)plan->cap);
    put_number(image, 40, 4, (uint32_t)plan->floor);
    for (unsigned r = 0; r < 8; r++)
        put_number(image, 44 + 2 * r, 2, plan->counts[r]);
    memcpy(image + 60, plan->periods, 88);
    if (plan->kind == 2)
        put_link(plan, image);
    for (size_t i = 0; i < image_places(image, length); i++)
        put_price(image, i, price);
    return length;
}

/* One of all good pairs of ends, each as likely as the others. */
struct independent_link any_link(unsigned regions, const uint8_t *parents)
{
    struct independent_link good[56], none = {255, 255};
    size_t count = 0;
    for (unsigned from = 0; from < regions; from++)
        for (unsigned to = 0; to < regions; to++)
            if (from != to && parents[from] != to && parents[to] != from) {
                good[count].from = (uint8_t)from;
                good[count++].to = (uint8_t)to;
            }
    return count == 0 ? none : good[below(count)];
}

struct independent_link any_ends(unsigned regions, const uint8_t *parents)
{
    static const uint8_t strange[] = {255, 254, 8, 9, 0, 7};
    struct independent_link link = any_link(regions, parents);
    unsigned child = (unsigned)below(regions);
    switch (below(5)) {
    case 0: link.from = strange[below(sizeof strange)]; break;
    case 1: link.to = strange[below(sizeof strange)]; break;
    case 2: link.from = link.to; break;
    case 3: link.from = (uint8_t)child, link.to = parents[child]; break;
    default: link.from = parents[child], link.to = (uint8_t)child;
    }
    if (below(8) == 0)
        link.to = (uint8_t)regions;
    return link;
}

void forge_ends(guxhamole_book *book)
{
    if (book->regions < 1 || book->regions > 8)
        return;
    struct independent_link link = any_ends(book->regions, book->parents);
    book->from = link.from;
    book->to = link.to;
}

int32_t any_link_flow(void)
{
    int64_t flow = within(-1, 1);
    return (int32_t)(flow * (below(3) ? 1 : 2147483647));
}

uint32_t any_link_factor(void)
{
    uint64_t draw = below(8);
    return (uint32_t)(draw > 1 ? within(10000, 20000) : draw == 1 ? 10000 : 20000);
}

void damage_link(uint8_t *image, size_t length)
{
    static const uint8_t kinds[] = {0, 1, 2, 3, 255};
    if (length < IMAGE_HEAD || image[4] != 2 || below(4) == 0) {
        image[4] = kinds[below(sizeof kinds)];
    } else if (below(2)) {
        struct independent_link link = any_ends(image[6] < 1 || image[6] > 8 ? 1 : image[6], image + 12);
        image[148] = link.from;
        image[149] = link.to;
    } else {
        size_t at = 148 + below(8);
        image[at] = (uint8_t)(below(2) ? image[at] ^ 1u << below(8) : next());
    }
}

static void link_plan(struct plan *p)
{
    p->kind = 1 + (unsigned)below(2);
    if (p->kind == 2 && below(4) != 0)
        p->link = any_link(p->regions, p->parents);
}

struct plan any_plan(unsigned widest)
{
    struct plan p = plain();
    p.regions = 1 + (unsigned)below(8);
    p.services = (unsigned)below(11);
    p.window = 1 + (unsigned)below(widest);
    p.halves = 1 + (unsigned)below(48);
    for (unsigned r = 1; r < p.regions; r++)
        if (below(4) != 0)
            p.parents[r] = (uint8_t)below(r);
    p.entries = (uint32_t)below(10000001);
    p.position = (unsigned)below(6 * p.halves);
    p.threshold = 10000 * within(1, 10000000);
    if (below(3) == 0)
        p.threshold = threshold_beside(p.threshold);
    p.cap = 1 + (int32_t)below(10000000);
    p.floor = -1 - (int32_t)below(10000000);
    for (unsigned r = 0; r < p.regions; r++) {
        unsigned most = p.window < p.entries ? p.window : p.entries;
        p.counts[r] = below(3) == 0 ? most : (unsigned)below(most + 1);
        for (unsigned m = 0; m <= p.services; m++)
            p.periods[11 * r + m] = (uint8_t)below(2);
    }
    link_plan(&p);
    return p;
}

size_t any_image(unsigned widest, uint8_t *image)
{
    struct plan p = any_plan(widest);
    size_t length = lay_out(&p, 0, image), place = 0;
    for (unsigned r = 0; r < p.regions; r++)
        for (unsigned m = 0; m <= p.services; m++)
            for (unsigned i = 0; i < p.counts[r]; i++) {
                int32_t price = (int32_t)below(10000001);
                put_price(image, place++, m == 0 && below(2) ? -price : price);
            }
    return length;
}
