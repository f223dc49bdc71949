/* The slices of an interval that a call is lent, and books to lend with them. No expression draws two numbers whose order is the
   compiler's to choose: a seed makes the same book in every build. */
#include "interval_slices.h"

#include "guarded.h"
#include "independent_book.h"
#include "make.h"

#include <stdio.h>
#include <stdlib.h>
#include <string.h>

enum { OLD = 77777777, OLD_MARK = 77 };

struct lengths right_lengths(const guxhamole_book *book)
{
    size_t places = independent_places(independent_shape_of(book));
    struct lengths right = {GUXHAMOLE_PRICES(book->regions, book->services), book->regions, places, places};
    return right;
}

struct slices slices_to_fill(struct lengths lent)
{
    struct slices slices = {(int32_t *)guarded(4 * lent.prices), (uint8_t *)guarded(lent.marks), (int32_t *)guarded(4 * lent.flows),
                            (uint32_t *)guarded(4 * lent.factors)};
    for (size_t i = 0; i < lent.prices; i++)
        slices.prices[i] = OLD;
    for (size_t i = 0; i < lent.marks; i++)
        slices.marks[i] = OLD_MARK;
    for (size_t i = 0; i < lent.flows; i++)
        slices.flows[i] = OLD;
    for (size_t i = 0; i < lent.factors; i++)
        slices.factors[i] = OLD;
    return slices;
}

struct slices slices_to_read(struct lengths lent, const struct independent_interval *interval)
{
    struct slices slices = {(int32_t *)guarded_fixed(4 * lent.prices), (uint8_t *)guarded_fixed(lent.marks),
                            (int32_t *)guarded_fixed(4 * lent.flows), (uint32_t *)guarded_fixed(4 * lent.factors)};
    for (size_t i = 0; i < lent.prices && i < 88; i++)
        slices.prices[i] = interval->prices[i];
    for (size_t i = 0; i < lent.marks && i < 8; i++)
        slices.marks[i] = interval->marks[i];
    for (size_t i = 0; i < lent.flows && i < 9; i++)
        slices.flows[i] = interval->flows[i];
    for (size_t i = 0; i < lent.factors && i < 9; i++)
        slices.factors[i] = interval->factors[i];
    return slices;
}

int slices_hold(const struct slices *slices, struct lengths lent, const struct independent_interval *interval)
{
    int same = 1;
    for (size_t i = 0; i < lent.prices; i++)
        same &= slices->prices[i] == (interval ? interval->prices[i] : (int32_t)OLD);
    for (size_t i = 0; i < lent.marks; i++)
        same &= slices->marks[i] == (interval ? interval->marks[i] : (uint8_t)OLD_MARK);
    for (size_t i = 0; i < lent.flows; i++)
        same &= slices->flows[i] == (interval ? interval->flows[i] : (int32_t)OLD);
    for (size_t i = 0; i < lent.factors; i++)
        same &= slices->factors[i] == (interval ? interval->factors[i] : (uint32_t)OLD);
    return same;
}

uint32_t lent_refusal(const guxhamole_book *book, struct lengths lent)
{
    struct lengths right = right_lengths(book);
    if (independent_book_bad(book))
        return GUXHAMOLE_BOOK;
    return lent.prices != right.prices || lent.marks != right.marks || lent.flows != right.flows || lent.factors != right.factors
               ? GUXHAMOLE_LENGTH : GUXHAMOLE_ACCEPTED;
}

guxhamole_book any_book(void)
{
    static uint8_t image[IMAGE_HEAD + 4 * 88];
    static int32_t ring[88];
    size_t length = any_image(1, image);
    guxhamole_kept kept = guxhamole_load(image, length, ring, GUXHAMOLE_RING(image[6], image[7], 1));
    if (kept.number != 0) {
        printf("a random image was refused by %u\n", kept.number);
        exit(1);
    }
    return kept.book;
}

void damage_book(guxhamole_book *book)
{
    uint8_t bytes[sizeof *book];
    if (below(4) == 0) {
        forge_ends(book);
        return;
    }
    memcpy(bytes, book, sizeof bytes);
    size_t at = below(below(2) ? 72 : sizeof bytes);
    bytes[at] = (uint8_t)(below(2) ? below(12) : next());
    memcpy(book, bytes, sizeof bytes);
}

void damage_lengths(struct lengths *lent)
{
    size_t *lengths[] = {&lent->prices, &lent->marks, &lent->flows, &lent->factors};
    size_t *length = lengths[below(4)];
    *length = below(3) == 0 ? below(9) : below(2) || *length == 0 ? *length + 1 : *length - 1;
}
