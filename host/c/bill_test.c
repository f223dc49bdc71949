/* Holds guxhamole_bill to independent code: the cases worked out for request 2026-09 (bill_cases.h); and bills of random days over books
   of every shape, as they are and with their lines, their records or what else is lent changed, books that others changed among them. An
   unchanged book's is also held to a ledger of all its entries. What can only be read lies between forbidden pages, and the second
   ring is compared place by place (bill_calls.h). All from a fixed seed. Exit status 1 with the case at the first difference, or where an
   answer came up too seldom. Given a number, it does that part of the random ones alone: `bill_test 10` a tenth, for slow checkers. */
#include "bill_calls.h"
#include "bill_cases.h"
#include "bill_changes.h"
#include "make.h"

#include <stdio.h>
#include <stdlib.h>

enum { DAYS = 3000, CHANGES = 6 };

static struct bill_trial right, changed;

static int32_t any_old(void)
{
    return (int32_t)next();
}

static void days(int part)
{
    for (int i = 0; i < DAYS / part; i++) {
        uint64_t from = seed;
        any_bill(&right);
        bill_alike("as it is", &right, any_old(), NULL, from);
        for (int change = 0; change < CHANGES; change++) {
            trial_copy(&changed, &right);
            change_bill(&changed);
            bill_alike("changed", &changed, any_old(), NULL, from);
        }
    }
}

/* A day and an hour of the real market, right and with its last line wrong. */
static void real_market(void)
{
    uint64_t from = seed;
    real_bill(&right);
    if (bill_alike("the real market", &right, 7, NULL, from).right != 1)
        bill_differs("the real market's bill isn't right", from);
    right.amounts[299]++;
    if (bill_alike("the real market, its last amount wrong", &right, 7, NULL, from).line != 299)
        bill_differs("the real market's bill isn't wrong at its last line", from);
}

int main(int count, char **words)
{
    int part = count > 1 && atoi(words[1]) > 0 ? atoi(words[1]) : 1;
    bill_watch();
    int cases = bill_cases();
    days(part);
    real_market();
    bill_counts(part);
    printf(", %d worked cases\n", cases);
    return 0;
}
