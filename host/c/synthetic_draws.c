/* Synthetic intervals drawn both ways. */
#include "synthetic_draws.h"

#include "guarded.h"
#include "independent_book.h"
#include "independent_synthetic.h"
#include "test_books.h"

#include <stdio.h>
#include <stdlib.h>
#include <string.h>

/* What is counted, and how often it must come up in a whole run: the bounds of each rule, and the refusals. */
enum kind {
    DRAWN, LINKED, SPIKE, LEAST_ENERGY, MOST_ENERGY, LEAST_SERVICE, MOST_SERVICE, LEAST_FLOW, NO_FLOW, MOST_FLOW, LEAST_FACTOR, MOST_FACTOR,
    ENTERED, FULL, BY_10, BY_10_OF_ENDS, BY_10_OF_11, BY_11, KINDS
};

static const struct {
    const char *name;
    long least;
} kinds[KINDS] = {
    {"drawn", 80000}, {"with a link", 35000}, {"energy of 1,500,000", 900}, {"of -2,000", 500}, {"of 17,999", 500}, {"services of 0", 5000},
    {"of 2,999", 4000}, {"flows of -1,000", 600}, {"of 0", 300}, {"of 1,000", 600}, {"factors of 10,000", 1000},
    {"of 11,999", 800}, {"intervals entered", 15000}, {"refused as the book was full", 100},
    {"draws refused by 10", 9000}, {"by 10 of the ends alone", 800}, {"by 10 before 11", 7000}, {"by 11", 9000}};

static long seen[KINDS];

void synthetic_differs(const char *what, const struct draw *draw)
{
    printf("synthetic test: %s: %d regions, %d services, seed %u, number %u, day kind %d, lengths %zu, %zu, %zu, %zu\n", what,
           draw->book.regions, draw->book.services, draw->seed, draw->entry, draw->day_kind, draw->lent.prices, draw->lent.marks,
           draw->lent.flows, draw->lent.factors);
    exit(1);
}

static void count_interval(const guxhamole_book *book, const struct independent_interval *interval)
{
    size_t markets = book->services + (size_t)1;
    seen[DRAWN]++;
    seen[LINKED] += book->from != GUXHAMOLE_NONE;
    for (size_t place = 0; place < book->regions * markets; place++) {
        int energy = place % markets == 0;
        int32_t price = interval->prices[place];
        seen[SPIKE] += energy && price == 1500000;
        seen[LEAST_ENERGY] += energy && price == -2000;
        seen[MOST_ENERGY] += energy && price == 17999;
        seen[LEAST_SERVICE] += !energy && price == 0;
        seen[MOST_SERVICE] += !energy && price == 2999;
    }
    for (size_t region = 0; region < GUXHAMOLE_LINKS(book->regions, book->from); region++) {
        seen[LEAST_FLOW] += interval->flows[region] == -1000;
        seen[NO_FLOW] += interval->flows[region] == 0;
        seen[MOST_FLOW] += interval->flows[region] == 1000;
        seen[LEAST_FACTOR] += interval->factors[region] == 10000;
        seen[MOST_FACTOR] += interval->factors[region] == 11999;
    }
}

static void count_draw(const struct draw *draw, uint32_t number, const struct independent_interval *interval)
{
    guxhamole_book book = draw->book;
    struct lengths right = right_lengths(&book);
    if (number == 0)
        count_interval(&book, interval);
    seen[BY_10] += number == GUXHAMOLE_BOOK;
    seen[BY_10_OF_ENDS] += number == GUXHAMOLE_BOOK && independent_only_ends_bad(&book);
    seen[BY_10_OF_11] += number == GUXHAMOLE_BOOK && memcmp(&draw->lent, &right, sizeof right) != 0;
    seen[BY_11] += number == GUXHAMOLE_LENGTH;
}

guxhamole_drawn draw_alike(const struct draw *draw, struct independent_interval *interval)
{
    guxhamole_book book = draw->book;
    struct slices slices = slices_to_fill(draw->lent);
    uint32_t want = lent_refusal(&book, draw->lent), last = 0;
    memset(interval, 0, sizeof *interval);
    if (want == 0) {
        last = independent_synthetic(independent_shape_of(&book), draw->seed, interval);
        interval->entry = draw->entry;
        interval->day_kind = draw->day_kind;
    }
    guxhamole_drawn drawn = guxhamole_synthetic(book, draw->seed, draw->entry, draw->day_kind, slices.prices, draw->lent.prices,
                                                slices.marks, draw->lent.marks, slices.flows, draw->lent.flows, slices.factors,
                                                draw->lent.factors);
    if (drawn.number != want)
        synthetic_differs("another number than the independent one", draw);
    if (drawn.seed != last || drawn.entry != interval->entry || drawn.day_kind != interval->day_kind)
        synthetic_differs("another seed, number or day kind than the independent one", draw);
    if (!slices_hold(&slices, draw->lent, want == 0 ? interval : NULL) || !guarded_whole())
        synthetic_differs("other slices than the independent ones, or a guard", draw);
    if (!same_book(&book, &draw->book))
        synthetic_differs("the book was changed", draw);
    guarded_free();
    count_draw(draw, want, interval);
    return drawn;
}

void enter_drawn(const struct draw *draw, const struct independent_interval *interval)
{
    static const int32_t schedule[GUXHAMOLE_SCHEDULE(8, 10, 48)] = {0};
    static int32_t ring[GUXHAMOLE_RING(8, 10, 2016)], table[88];
    const guxhamole_book *book = &draw->book;
    size_t regions = book->regions, links = GUXHAMOLE_LINKS(book->regions, book->from);
    size_t prices = GUXHAMOLE_PRICES(book->regions, book->services);
    guxhamole_entered entered =
        guxhamole_enter(*book, ring, prices * book->window, book->entries, 0, interval->prices, prices, interval->marks, regions,
                        interval->flows, links, interval->factors, links, schedule, prices * 2 * book->halves, table, prices);
    if (entered.number != (book->entries == 10000000 ? GUXHAMOLE_FULL : GUXHAMOLE_ACCEPTED))
        synthetic_differs("an entry refused it", draw);
    seen[ENTERED] += entered.number == 0;
    seen[FULL] += entered.number == GUXHAMOLE_FULL;
}

void synthetic_counts(int part)
{
    for (int i = 0; i < KINDS; i++) {
        printf(", %s: %ld", kinds[i].name, seen[i]);
        if (seen[i] < kinds[i].least / part) {
            printf("\nsynthetic test: too few of these\n");
            exit(1);
        }
    }
}
