/* Holds the calls of interval records to independent code: the cases worked out for requests 2026-01 and 2026-08; random intervals,
   whole and damaged, with damaged books and wrong lengths; and those of interval_rewrites.h. Guards stand round all that is lent. All
   from a fixed seed. Exit status 1 with the case at the first difference, or where a refusal came up too seldom. Given a number, it
   does that part of them alone, the worked ones aside: `intervals_test 10` a tenth, for slow checkers. */
#include "guxhamole.h"
#include "independent_interval.h"
#include "interval_calls.h"
#include "interval_rewrites.h"
#include "interval_trials.h"
#include "make.h"

#include <stdio.h>
#include <stdlib.h>
#include <string.h>

enum { TRIALS = 40000 };

static long cases;

/* On every trial, both readers and the rewriter, with the room of the trial and with enough. */
static void trials(int part)
{
    static struct trial trial;
    static uint8_t told[TRIAL_BYTES];
    for (int i = 0; i < TRIALS / part; i++) {
        uint64_t from = seed;
        any_trial(&trial);
        if (below(20) == 0) /* a book that takes no more entries has its records still */
            trial.book.entries = 10000000;
        if (below(2))
            damage_records(&trial);
        if (below(12) == 0) {
            damage_book(&trial.book);
            trial.form = DAMAGED;
        }
        struct lengths right = trial.lent;
        if (below(12) == 0)
            damage_lengths(&trial.lent);
        write_alike(&trial, told, from);
        uint32_t number = both_alike(&trial, from);
        if (memcmp(&right, &trial.lent, sizeof right) == 0 && trial.form != DAMAGED)
            if (number != (trial.form == UPWARD ? GUXHAMOLE_ACCEPTED : GUXHAMOLE_RECORD_ORDER))
                interval_differs("a whole interval that reads out of order, or doesn't in order", from);
    }
}

/* The worked cases: the interval I of two regions and no service; U is I with its second region's record before its first's. */
static const uint8_t worked[] = {
    0x0c, 0, 0, 0, 0x10, 0, 0, 0, 0, 0, 0, 2,
    0x14, 0, 0, 0, 0x11, 0, 0, 0, 0, 0, 0, 0, 0, 0, 0, 0, 0xa0, 0x86, 1, 0,
    0x14, 0, 0, 0, 0x11, 0, 1, 0, 1, 0, 0, 0, 0xf8, 0x2a, 0, 0, 0x90, 0x5f, 1, 0};

static const struct independent_interval worked_interval = {0, 0, {100000, 90000}, {0, 0}, {0, 1}, {0, 11000}};

/* The case that is being put together: its book, records, place and lengths. */
static struct trial now;

static void open_worked(void)
{
    now.book = book_of(2, 0, 0);
    now.interval = worked_interval;
    now.lent = right_lengths(&now.book);
    now.room = 52;
}

/* Bytes of I from one place to another, after what is there. */
static void add(size_t from, size_t to)
{
    memcpy(now.records + now.length, worked + from, to - from);
    now.length += to - from;
}

static void add_exchanged(void)
{
    add(0, 12), add(32, 52), add(12, 32);
}

/* A record of so many bytes, its body zeros, after what is there. */
static void add_record(uint32_t length, uint32_t kind, size_t bytes)
{
    memset(now.records + now.length, 0, bytes);
    put_number(now.records, now.length, 4, length);
    put_number(now.records, now.length + 4, 2, kind);
    now.length += bytes;
}

/* Reads what was put together; `after` is 0 where it is refused. */
static struct independent_interval expect_read(const char *what, size_t at, uint32_t number, uint64_t after)
{
    struct independent_interval interval;
    memset(&interval, 0, sizeof interval);
    now.at = at;
    guxhamole_found found = read_alike(&now, &interval, 0);
    if (found.number != number || found.next != after)
        interval_differs(what, 0);
    cases++;
    return interval;
}

/* Rewrites it, into `room` bytes, and begins anew; accepted it gives `bytes`, or I where that is null. */
static void expect_rewritten(const char *what, size_t at, size_t room, uint32_t number, uint64_t after, const uint8_t *bytes)
{
    uint8_t told[TRIAL_BYTES];
    now.at = at;
    now.room = room;
    guxhamole_rewritten rewritten = rewrite_alike(&now, told, 0);
    if (rewritten.number != number || rewritten.next != after)
        interval_differs(what, 0);
    if (number == 0 && memcmp(told, bytes == NULL ? worked : bytes, sizeof worked) != 0)
        interval_differs(what, 0);
    now.length = 0;
    cases++;
}

/* Refused to the reader by one number, to the rewriter by another or the same. */
static void expect_refused(const char *what, size_t at, uint32_t number, uint32_t earlier)
{
    expect_read(what, at, number, 0);
    expect_rewritten(what, at, 52, earlier, 0, NULL);
}

static void expect_worked(const char *what, size_t at)
{
    struct independent_interval interval = expect_read(what, at, 0, at + 52);
    if (memcmp(&interval, &worked_interval, sizeof interval) != 0)
        interval_differs(what, 0);
}

static void whole_cases(void)
{
    uint8_t far_bytes[52];
    add(0, 52), expect_worked("I", 0), expect_rewritten("I, rewritten", 0, 52, 0, 52, NULL);
    add(0, 52), add(0, 52), expect_worked("a second I", 52), expect_rewritten("a second I, rewritten", 52, 52, 0, 104, NULL);
    add(0, 52), add(0, 52);
    now.records[52 + 6] = 1, now.records[52 + 10] = 7, now.records[52 + 12 + 7] = 9;
    put_number(now.records, 52 + 12 + 8, 4, 0x80000000), put_number(now.records, 52 + 12 + 12, 4, 0xffffffff);
    memcpy(far_bytes, now.records + 52, sizeof far_bytes);
    struct independent_interval far = expect_read("numbers that an entry refuses", 52, 0, 104);
    if (far.entry != 1 || far.day_kind != 7 || far.marks[0] != 9 || far.flows[0] != INT32_MIN || far.factors[0] != UINT32_MAX)
        interval_differs("numbers that an entry refuses", 0);
    expect_rewritten("numbers that an entry refuses, rewritten", 52, 52, 0, 104, far_bytes);
    memcpy(now.records, far_bytes, 12), memcpy(now.records + 12, far_bytes + 32, 20), memcpy(now.records + 32, far_bytes + 12, 20);
    now.length = 52;
    expect_rewritten("numbers that an entry refuses, exchanged", 0, 52, 0, 52, far_bytes);
}

/* U is refused to the reader, and rewritten to I, which reads. */
static void earlier_cases(void)
{
    add_exchanged(), expect_read("U", 0, 45, 0);
    expect_rewritten("U, rewritten", 0, 52, 0, 52, NULL);
    add_exchanged(), expect_rewritten("U, rewritten with eight bytes to spare", 0, 60, 0, 52, NULL);
    add(0, 52), add_exchanged(), expect_read("I and U", 52, 45, 0);
    expect_rewritten("I and U, rewritten", 52, 55, 0, 104, NULL);
    add_exchanged(), add(0, 52), expect_worked("U and I", 52);
    expect_rewritten("U and I, rewritten", 0, 52, 0, 52, NULL);
    add_exchanged(), expect_rewritten("U, a byte of room too few", 0, 51, 23, 0, NULL);
}

static void broken_cases(void)
{
    expect_refused("no bytes", 0, 40, 40);
    for (size_t i = 0; i < 4; i++) {
        static const size_t places[] = {52, 53, SIZE_MAX, SIZE_MAX - 51};
        add(0, 52), expect_refused("a place from which none follows", places[i], 40, 40);
    }
    add(0, 5), expect_refused("a cut head", 0, 40, 40);
    add(0, 12), expect_refused("a head alone", 0, 40, 40);
    add_record(13, 16, 13), expect_refused("a head of 13 bytes", 0, 40, 40);
    add_record(5, 99, 6), add(0, 52), expect_refused("a length of 5", 0, 40, 40);
    add_record(7, 99, 6), expect_refused("a record of 7 bytes, cut", 0, 40, 40);
    add(12, 52), add(0, 1), now.records[0] = 21, expect_refused("a region of another length where a head is due", 0, 40, 40);
    add(0, 12), add_record(13, 16, 13), add(12, 52), expect_refused("a head of another length where a region is due", 0, 40, 40);
    add(0, 31), now.records[18] = 2, expect_refused("region 2, cut", 0, 40, 40);
    add(0, 12), add(32, 51), expect_refused("region 1 before region 0, cut", 0, 40, 40);
    add(0, 12), add_record(24, 17, 24), add_record(24, 17, 24), expect_refused("two prices a region", 0, 40, 40);
    add(0, 51), expect_refused("a cut last region", 0, 40, 40);
    add(0, 12), add(32, 52), add(12, 31), expect_refused("region 1, and region 0 cut", 0, 45, 40);
}

static void strange_cases(void)
{
    add(0, 12), now.records[11] = 3, expect_refused("a total of 3", 0, 41, 41);
    add(0, 52), now.records[11] = 1, expect_refused("a total of 1", 0, 41, 41);
    add_record(6, 99, 6), add(0, 52), expect_refused("an unknown kind", 0, 41, 41);
    add_record(6, 99, 6), expect_refused("an unknown kind, and its end the last", 0, 41, 41);
    add(0, 12), add_record(6, 99, 6), expect_refused("an unknown kind where a region is due", 0, 41, 41);
    add(12, 52), expect_refused("a region where a head is due", 0, 41, 41);
    add(0, 12), add(0, 52), expect_refused("a head where a region is due", 0, 41, 41);
    add(0, 12), add(32, 52), add(0, 52), expect_refused("region 1, and a head where region 0 is due", 0, 45, 41);
    add(0, 32), now.records[18] = 2, expect_refused("region 2", 0, 45, 42);
    add(0, 52), now.records[18] = 255, expect_refused("region 255", 0, 45, 42);
    add(0, 32), add(12, 32), expect_refused("region 0 twice", 0, 45, 42);
    add(0, 32), add(12, 32), add(32, 52), expect_refused("region 0 twice, and more", 0, 45, 42);
    add(0, 12), add(32, 52), add(32, 52), expect_refused("region 1 twice", 0, 45, 42);
    add(0, 32), expect_refused("region 0 alone", 0, 40, 40);
    add(0, 12), add(32, 52), expect_refused("region 1 alone", 0, 45, 40);
}

static void lent_cases(void)
{
    static const struct lengths nines = {9, 9, 9, 9};
    now.lent.factors = 1;
    expect_read("factors of length 1", 9, 11, 0);
    now.lent = nines;
    memcpy(now.records, "abc", 3), now.length = 3, expect_rewritten("\"abc\" and a byte of room too few", 0, 51, 23, 0, NULL);
    memcpy(now.records, "abc", 3), now.length = 3, expect_rewritten("\"abc\"", 0, 52, 40, 0, NULL);
    memset(&now.book, 0, sizeof now.book);
    expect_read("a closed book", 0, 10, 0);
    expect_rewritten("a closed book and no room", 0, 0, 10, 0, NULL);
    add_exchanged(), expect_rewritten("a closed book and U", 0, 52, 10, 0, NULL);
    open_worked();
}

static void write_cases(void)
{
    static const size_t rooms[] = {52, 55, 51};
    uint8_t told[TRIAL_BYTES];
    for (size_t i = 0; i < 3; i++) {
        now.room = rooms[i];
        guxhamole_stored stored = write_alike(&now, told, 0);
        if (stored.number != (rooms[i] < 52 ? 23 : 0) || (stored.number == 0 && memcmp(told, worked, sizeof worked) != 0))
            interval_differs("I, written", 0);
        cases++;
    }
    now.room = 0;
    now.lent.factors = 1;
    if (write_alike(&now, told, 0).number != 11)
        interval_differs("factors of length 1, to be written", 0);
    cases++;
}

int main(int count, char **words)
{
    int part = count > 1 && atoi(words[1]) > 0 ? atoi(words[1]) : 1;
    open_worked();
    whole_cases();
    earlier_cases();
    broken_cases();
    strange_cases();
    lent_cases();
    write_cases();
    trials(part);
    interval_rewrites(part);
    interval_counts(part);
    interval_rewrites_counts();
    printf(", %ld worked cases\n", cases);
    return 0;
}
