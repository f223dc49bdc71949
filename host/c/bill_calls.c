/* guxhamole_bill, called beside the independent check. */
#include "bill_calls.h"

#include "guarded.h"
#include "independent_book.h"
#include "paged.h"
#include "test_books.h"

#include <signal.h>
#include <stdio.h>
#include <stdlib.h>
#include <string.h>

/* What is counted, and how often it must come up in a whole run. */
enum kind {
    RIGHT, RIGHT_NONE, RIGHT_CHANGED, RIGHT_HALF, WRONG_FIRST, WRONG_NUMBER, WRONG_PRICE, WRONG_AMOUNT, MISSING, SURPLUS,
    BY_10, BY_10_LATER, BY_11, BY_11_21, BY_21, BY_12, BY_13, BY_14, BY_15, BY_16, BY_17, BY_40, BY_41, BY_45, BY_46,
    LATER, WRONG_REFUSED, ABOVE_REFUSED, WRONG_46, FORGED, KEPT, LINKED, LINKED_RIGHT, LINKED_17, LINKED_40, LINKED_41, ENDS_10, KINDS
};

static const struct {
    const char *name;
    long least;
} kinds[KINDS] = {
    {"right", 5000}, {"without a line", 400}, {"by a price that publication changed", 3000}, {"by half a cent", 1500},
    {"wrong at line 0", 1200}, {"later by number", 800}, {"by price", 400}, {"by amount", 500}, {"by one missing", 200},
    {"by one surplus", 800},
    {"refused by 10", 600}, {"by 10 in mid-way", 150}, {"by 11", 1500}, {"by 11 before 21", 60}, {"by 21", 600}, {"by 12", 150},
    {"by 13", 500}, {"by 14", 250}, {"by 15", 200}, {"by 16", 300}, {"by 17", 150}, {"by 40", 1500}, {"by 41", 350}, {"by 45", 350},
    {"by 46", 500},
    {"after an accepted interval", 3000}, {"with a wrong line", 2500}, {"with a line for 46 too", 200}, {"by 46 with a wrong line", 350},
    {"of books without a history", 2500}, {"held to a ledger of all entries", 10000},
    {"of books with a link", 6000}, {"right", 1500}, {"refused by 17 of the link", 60}, {"by 40 at a link's record", 60}, {"by 41", 30},
    {"by 10 of the ends alone", 60}};

static long seen[KINDS], calls;

/* What is being asked, and from which seed. */
static const char *now_asked = "";
static uint64_t now_from;

static void differs(const char *what)
{
    char text[200];
    snprintf(text, sizeof text, "%s: %s", now_asked, what);
    bill_differs(text, now_from);
}

static void touched(int number)
{
    (void)number;
    printf("bill test: %s: memory that isn't lent was touched, or what can only be read written to, from seed %llu\n", now_asked,
           (unsigned long long)now_from);
    fflush(stdout);
    _Exit(1);
}

void bill_watch(void)
{
    signal(SIGSEGV, touched);
}

/* The slices of the bill in read-only rooms of their own. */
static struct independent_bill lend(const struct bill_trial *trial)
{
    struct independent_bill bill = bill_of(trial);
    bill.ring = (const int32_t *)paged_copy(0, trial->ring, sizeof *bill.ring * bill.ring_length);
    bill.records = (const uint8_t *)paged_copy(1, trial->records, bill.records_length);
    bill.schedule = (const int32_t *)paged_copy(2, trial->schedule, sizeof *bill.schedule * bill.schedule_length);
    bill.numbers = (const uint32_t *)paged_copy(3, trial->numbers, sizeof *bill.numbers * bill.numbers_length);
    bill.energy = (const uint32_t *)paged_copy(4, trial->energy, sizeof *bill.energy * bill.energy_length);
    bill.prices = (const int32_t *)paged_copy(5, trial->prices, sizeof *bill.prices * bill.prices_length);
    bill.amounts = (const int64_t *)paged_copy(6, trial->amounts, sizeof *bill.amounts * bill.amounts_length);
    return bill;
}

static void count_wrong(const struct independent_bill *bill, const struct independent_billed *want)
{
    if (want->line >= bill->numbers_length)
        seen[MISSING]++;
    else if (want->line >= want->accepted)
        seen[SURPLUS]++;
    else
        seen[want->line == 0 ? (int)WRONG_FIRST : WRONG_NUMBER + want->field]++;
}

static void count_right(const struct bill_trial *trial)
{
    int changed = 0, half = 0;
    for (size_t i = 0; i < trial->numbers_length; i++) {
        int64_t rest = (int64_t)trial->energy[i] * trial->prices[i] % 1000;
        half |= rest == 500 || rest == -500;
        changed |= trial->prices[i] != trial->intervals[i].prices[trial->region * (trial->book.services + 1u)];
    }
    seen[RIGHT]++;
    seen[RIGHT_NONE] += trial->numbers_length == 0;
    seen[RIGHT_CHANGED] += changed;
    seen[RIGHT_HALF] += half;
}

/* By the first that holds. */
static void count_number(const struct independent_billed *want)
{
    static const uint32_t numbers[] = {21, 12, 13, 14, 15, 16, 17, 40, 41, 45, 46};
    seen[BY_10] += want->number == 10 && !want->played;
    seen[BY_10_LATER] += want->number == 10 && want->played;
    seen[BY_11] += want->number == 11;
    for (size_t i = 0; i < sizeof numbers / sizeof *numbers; i++)
        seen[BY_21 + i] += numbers[i] == want->number;
}

static void count_refusal(const struct independent_bill *bill, const struct independent_billed *want)
{
    count_number(want);
    seen[BY_11_21] += want->number == 11 && bill->region >= bill->book.regions;
    if (!want->played)
        return;
    seen[LATER] += want->number != 46 && want->accepted > 0;
    seen[WRONG_REFUSED] += want->number != 46 && want->wrong && want->accepted > 0;
    seen[ABOVE_REFUSED] += want->number != 46 && want->above;
    seen[WRONG_46] += want->number == 46 && want->wrong;
}

/* Of a book with the link, whether its record is what a bill is refused for: without it the interval is one. */
static void count_link(const struct independent_bill *bill, const struct independent_billed *want)
{
    struct independent_shape shape = independent_shape_of(&bill->book);
    struct independent_interval interval;
    size_t after;
    seen[ENDS_10] += want->number == 10 && independent_only_ends_bad(&bill->book);
    if (!want->played || !shape.linked)
        return;
    size_t at = want->accepted * independent_interval_bytes(shape);
    shape.linked = 0;
    int whole = independent_interval_read(shape, bill->records, bill->records_length, at, &interval, &after) == 0;
    seen[LINKED]++;
    seen[LINKED_RIGHT] += want->right == 1;
    seen[LINKED_17] += want->number == 17 && want->place == shape.regions;
    seen[LINKED_40] += want->number == 40 && whole;
    seen[LINKED_41] += want->number == 41 && whole;
}

static void count(const struct bill_trial *trial, const struct independent_bill *bill, const struct independent_billed *want)
{
    if (want->number != 0)
        count_refusal(bill, want);
    else if (want->right)
        count_right(trial);
    else
        count_wrong(bill, want);
    seen[FORGED] += want->played && trial->ledger == NULL;
    seen[KEPT] += want->played && trial->ledger != NULL;
    count_link(bill, want);
    calls++;
}

static int same_answer(const struct independent_billed *one, const struct independent_billed *other)
{
    return one->number == other->number && one->place == other->place && one->right == other->right && one->line == other->line &&
           one->played == other->played && one->accepted == other->accepted && one->field == other->field;
}

/* The answer, and in `wanted` the second ring as it must be; the ledger's is that of the book and ring as they are lent. */
static struct independent_billed want_of(const struct bill_trial *trial, const struct independent_bill *bill, int32_t old, int32_t *wanted)
{
    static int32_t other[TRIAL_RING];
    for (size_t i = 0; i < bill->work_length; i++)
        wanted[i] = other[i] = old;
    struct independent_billed want = independent_billed_of(bill, NULL, wanted);
    if (trial->ledger == NULL)
        return want;
    struct independent_billed kept = independent_billed_of(bill, trial->ledger, other);
    if (!same_answer(&want, &kept) || memcmp(wanted, other, sizeof *other * bill->work_length) != 0)
        differs("the ledger of all entries says otherwise than the book's own prices and sums");
    return want;
}

/* Each number of the answer, and every place of the second ring. */
static void compare(const guxhamole_billed *told, const struct independent_billed *want, const int32_t *work, const int32_t *wanted,
                    size_t places)
{
    if (told->number != want->number)
        differs("another number than the independent one");
    if (told->place != want->place)
        differs("another place than the independent one");
    if (told->right != want->right)
        differs("right or not, otherwise than the independent answer");
    if (told->line != want->line)
        differs("another line than the independent one");
    if (!guarded_whole() || memcmp(work, wanted, sizeof *work * places) != 0)
        differs("the second ring, or a guard round it");
}

guxhamole_billed bill_alike(const char *asked, const struct bill_trial *trial, int32_t old, int32_t *work, uint64_t from)
{
    static int32_t wanted[TRIAL_RING];
    now_asked = asked;
    now_from = from;
    struct independent_bill bill = lend(trial);
    struct independent_billed want = want_of(trial, &bill, old, wanted);
    int32_t *lent = (int32_t *)guarded(sizeof *lent * bill.work_length);
    for (size_t i = 0; i < bill.work_length; i++)
        lent[i] = old;
    guxhamole_billed told =
        guxhamole_bill(bill.book, bill.ring, bill.ring_length, lent, bill.work_length, bill.records, bill.records_length, bill.schedule,
                       bill.schedule_length, bill.region, bill.numbers, bill.numbers_length, bill.energy, bill.energy_length, bill.prices,
                       bill.prices_length, bill.amounts, bill.amounts_length);
    compare(&told, &want, lent, wanted, bill.work_length);
    if (!same_book(&bill.book, &trial->book))
        differs("the book was changed");
    if (work != NULL)
        memcpy(work, lent, sizeof *work * bill.work_length);
    guarded_free();
    count(trial, &bill, &want);
    return told;
}

void bill_counts(int part)
{
    int few = 0;
    printf("bills %ld: ", calls);
    for (int kind = 0; kind < KINDS; kind++) {
        int part_begins = kind == WRONG_FIRST || kind == BY_10 || kind == LATER || kind == FORGED || kind == LINKED;
        printf("%s%s %ld", kind == 0 ? "" : part_begins ? "; " : ", ", kinds[kind].name, seen[kind]);
        few |= seen[kind] < kinds[kind].least / (part > 1 ? 2 * part : 1) || seen[kind] == 0; /* in a part chance weighs more */
    }
    if (few) {
        printf("\nbill test: fewer of one than are wanted\n");
        exit(1);
    }
}
