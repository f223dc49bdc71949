/* Tests the independent code of books with an additional link (request 2026-10) and the archive, one after the other: the cases that were
   worked out (link_cases.h), and random books, images, records, test loads and bills (link_trials.h), limits being held to every
   permutation of the regions as a route. Then wrong variants of the independent code must each be told apart by the cases or the random
   ones. All from a fixed seed. Exit status 1 with the case at the first difference, or where something came up too seldom. Given a number,
   it does that part of the random ones alone: `link_test 10` a tenth, for slow checkers. */
#include "link_cases.h"
#include "link_trials.h"
#include "make.h"

#include <stdio.h>
#include <stdlib.h>
#include <string.h>

enum { TRIALS = 3000, VARIANT_TRIALS = 300, FIRST_SEED = 20261115 };

struct link_tally link_tally;

void link_hold(int so, const char *what)
{
    link_tally.held++;
    if (so)
        return;
    if (link_tally.failed++ == 0)
        link_tally.first = what;
}

static void fail_if_any(const char *where)
{
    if (link_tally.failed == 0)
        return;
    printf("link test: %s: %s, from seed %llu\n", where, link_tally.first, (unsigned long long)link_tally.from);
    exit(1);
}

/* So many of each, up to the first that fails. */
static void trials(const struct link_code *code, int count)
{
    for (int i = 0; i < count && link_tally.failed == 0; i++) {
        link_book_trial(code);
        if (link_tally.failed == 0)
            link_image_trial(code);
        if (link_tally.failed == 0)
            link_image_trial(code);
        for (int again = 0; again < 3 && link_tally.failed == 0; again++)
            link_record_trial(code);
        for (int again = 0; again < 2 && link_tally.failed == 0; again++)
            link_bill_trial(code);
    }
}

/* Whether the cases, and whether the random ones, tell the variant apart. */
static void variant(size_t i, int *by_cases, int *by_trials)
{
    const char *name;
    struct link_code code = link_wrong(i, &name);
    memset(&link_tally, 0, sizeof link_tally);
    link_cases(&code);
    int cases = link_tally.failed > 0;
    memset(&link_tally, 0, sizeof link_tally);
    trials(&code, VARIANT_TRIALS);
    int random = link_tally.failed > 0;
    *by_cases += cases;
    *by_trials += random;
    if (!cases && !random) {
        printf("link test: a wrong variant is not told apart: %s\n", name);
        exit(1);
    }
}

/* The whole test of one of the two; each starts from the same seed. */
static void test(const char *whose, struct link_code code, int part)
{
    seed = FIRST_SEED;
    memset(&link_tally, 0, sizeof link_tally);
    link_cases(&code);
    fail_if_any(whose);
    long cases = link_tally.held;
    trials(&code, TRIALS / part);
    fail_if_any(whose);
    printf("links, %s: %ld answers of worked cases, %ld of random ones", whose, cases, link_tally.held - cases);
    link_counts(part);
    printf("\n");
}

int main(int count, char **words)
{
    int part = count > 1 && atoi(words[1]) > 0 ? atoi(words[1]) : 1, by_cases = 0, by_trials = 0;
    test("the independent code", link_right(), part);
    test("the archive", link_archive(), part);
    for (size_t i = 0; i < link_wrongs(); i++)
        variant(i, &by_cases, &by_trials);
    printf("links: %zu wrong variants told apart, %d by the cases, %d by the random ones\n", link_wrongs(), by_cases, by_trials);
    return 0;
}
