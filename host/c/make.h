/* Images for the tests and the samples: a plain description of a book, laid out as bytes; and numbers from a fixed seed. */
#ifndef MAKE_H
#define MAKE_H

#include "independent_link.h"

struct plan {
    unsigned regions, services, window, halves;
    uint8_t parents[8];
    uint32_t entries;
    unsigned position;
    int64_t threshold;
    int32_t cap, floor;
    unsigned counts[8];
    uint8_t periods[88]; /* at 11 x region + market */
    unsigned kind;       /* of the image, 1 or 2 */
    struct independent_link link;
};

/* Where prices begin in an image at the latest: 148 where it is of kind 1, else 156. */
enum { IMAGE_HEAD = 156 };

/* The longest image: 8 regions of 11 markets, each of 2,016 prices. */
#define LONGEST (IMAGE_HEAD + 4 * 88 * 2016)

/* A small book with nothing counted: 1 region, no service, window 1, threshold 95,000, limits of 60,000; of kind 1, without a link. */
struct plan plain(void);

/* The length of the plan's image, and the image with price `price` at every place. */
size_t size_of(const struct plan *plan);
size_t lay_out(const struct plan *plan, int32_t price, uint8_t *image);

void put_number(uint8_t *image, size_t at, int bytes, uint64_t n);
void put_price(uint8_t *image, size_t place, int32_t price);

/* Where an image's prices begin by the kind that it says, and how many of them its length has room for. */
size_t image_head(const uint8_t *image);
size_t image_places(const uint8_t *image, size_t length);

/* The next of a fixed run of numbers, one below `n`, and one from `least` to `most`. */
extern uint64_t seed;
uint64_t next(void);
uint64_t below(uint64_t n);
int64_t within(int64_t least, int64_t most);

/* A threshold in range that is no multiple of 10,000, which an image may hold and which openings and settings refuse: one of the
   9,999 below the multiple that is told, or a worked one, whatever is told. And one out of range, multiples among them. */
int64_t threshold_beside(int64_t multiple);
int64_t threshold_out(void);

/* An additional link that a book of these parents may have, closing a ring or not, either way round; none where there is no such pair. And
   ends that are mostly none of these. */
struct independent_link any_link(unsigned regions, const uint8_t *parents);
struct independent_link any_ends(unsigned regions, const uint8_t *parents);

/* Gives a book such ends, unless its regions are none of 1 to 8. */
void forge_ends(guxhamole_book *book);

/* A link's flow and factor that an entry takes. */
int32_t any_link_flow(void);
uint32_t any_link_factor(void);

/* Changes the kind of an image, or, where it has them, a byte of 148 to 155 or the ends; it may yet be one. */
void damage_link(uint8_t *image, size_t length);

/* A plan whose image passes the check, with windows of at most `widest` and a threshold that is mostly a multiple of 10,000; and
   its image with random prices in range. */
struct plan any_plan(unsigned widest);
size_t any_image(unsigned widest, uint8_t *image);

#endif
