/* Holds guxhamole_intervals_left to independent code: the cases worked out for request 2026-02, and questions after every entry of
   random lists, as they are and with the question, the book or the ring changed. An unchanged one is also held to a ledger of all
   entries, and to the reports of a book that is then given these entries. The ring lies between forbidden pages and can only be
   read (paged.h). All from a fixed seed. Exit status 1 with the case at the first difference, or where a kind of question came up
   too seldom. Given a number, it does that part of the random ones alone: `left_test 10` a tenth, for slow checkers. */
#include "guxhamole.h"
#include "independent_book.h"
#include "independent_left.h"
#include "left_books.h"
#include "left_changes.h"
#include "make.h"
#include "paged.h"

#include <signal.h>
#include <stdio.h>
#include <stdlib.h>
#include <string.h>

enum { LISTS = 800, ENTRIES = 40, LARGE = 60 };

/* What is counted of the questions, and how often it must come up in a whole run. */
enum kind { NONE, ONE, BETWEEN, LAST, NONE_ABOVE, FALLS, NO_GAIN, TURNED, REACHED, LINKED, NUMBER_KINDS };

static const struct {
    const char *name;
    long least;
} kinds[NUMBER_KINDS] = {{"none", 10000}, {"1", 10000}, {"between", 3000}, {"W", 800}, {"none though above now", 1500},
                         {"a number though not above after W", 2500}, {"a number by a price of 0 or less", 1000},
                         {"between with the oldest in mid-window", 1500}, {"the threshold reached on the way", 1200},
                         {"of a book with a link", 10000}};

/* Refusals, and pairs of them, by their places in left_refusals: the first is answered, and the second holds too. */
static const struct {
    int first, second;
    long least;
} pairs[] = {{0, 0, 4000}, {1, 1, 1500}, {2, 2, 4000}, {3, 3, 5000}, {4, 4, 2500},
             {1, 2, 250}, {1, 4, 250}, {2, 3, 1000}, {2, 4, 1000}, {3, 4, 900}};

enum { LEAST_ELSEWHERE = 3500, LEAST_ENDS = 500 };

static long questions, cases, unchanged, entered, elsewhere, of_ends, seen[NUMBER_KINDS], refused[LEFT_REFUSALS][LEFT_REFUSALS];
static int part = 1;

/* What is being asked: a worked case, or a random question, from which seed. */
static const char *asked = "";
static uint64_t asked_from;

static void differs(const char *what)
{
    char text[100];
    snprintf(text, sizeof text, "%s: %s", asked, what);
    left_differs(text, asked_from);
}

/* The call touched what it isn't lent, or wrote to the ring. */
static void touched(int number)
{
    (void)number;
    printf("left test: %s: memory that isn't lent was touched, or the ring written to, from seed %llu\n", asked,
           (unsigned long long)asked_from);
    fflush(stdout);
    _Exit(1);
}

static void count_number(const struct question *question, const struct independent_left *left)
{
    const guxhamole_book *book = &question->book;
    uint32_t window = book->window;
    int between = left->intervals > 1 && left->intervals < window;
    seen[NONE] += left->intervals == 0;
    seen[ONE] += left->intervals == 1;
    seen[BETWEEN] += between;
    seen[LAST] += left->intervals > 1 && left->intervals == window;
    seen[NONE_ABOVE] += left->intervals == 0 && book->sums[11 * question->region + question->market] > book->threshold;
    seen[FALLS] += left->intervals > 0 && (int64_t)window * question->price <= book->threshold;
    seen[NO_GAIN] += left->intervals > 0 && question->price <= 0;
    seen[TURNED] += between && book->counts[question->region] == window && book->nexts[question->region] != 0;
    seen[REACHED] += left->reached;
    seen[LINKED] += book->from != GUXHAMOLE_NONE;
}

static void count_refusal(const guxhamole_book *book, const struct independent_left *left)
{
    int first = 0;
    while (left_refusals[first] != left->number)
        first++;
    for (int i = first; i < LEFT_REFUSALS; i++)
        refused[first][i] += left->holds[i];
    elsewhere += left->elsewhere;
    of_ends += independent_only_ends_bad(book);
}

/* Whether a book has the bytes that it had, padding aside, which nobody sets. */
static int same_bytes(const guxhamole_book *book, const guxhamole_book *before)
{
    static const size_t from[] = {0, offsetof(guxhamole_book, threshold), offsetof(guxhamole_book, sums)};
    static const size_t to[] = {offsetof(guxhamole_book, to) + 1, offsetof(guxhamole_book, nexts) + 16, sizeof *book};
    int same = 1;
    for (int i = 0; i < 3; i++)
        same &= memcmp((const uint8_t *)book + from[i], (const uint8_t *)before + from[i], to[i] - from[i]) == 0;
    return same;
}

/* Asks both ways; book and ring stay as they were. */
static guxhamole_left ask(const char *what, const struct question *question, uint64_t from)
{
    guxhamole_book before = question->book;
    const int32_t *ring = (const int32_t *)paged_copy(0, question->ring, sizeof *ring * question->length);
    asked = what;
    asked_from = from;
    struct independent_left want = independent_intervals_left(&question->book, question->ring, question->length, question->region,
                                                              question->market, question->price);
    guxhamole_left told = guxhamole_intervals_left(question->book, ring, question->length, question->region, question->market,
                                                   question->price);
    if (told.number != want.number)
        differs("another number than the independent one");
    if (told.intervals != want.intervals)
        differs("other intervals than the independent ones");
    if (!same_bytes(&question->book, &before) || memcmp(ring, question->ring, sizeof *ring * question->length) != 0)
        differs("the book or the ring was changed");
    if (want.number == 0)
        count_number(question, &want);
    else
        count_refusal(&question->book, &want);
    questions++;
    return told;
}

/* The price is entered again and again in a copy of the book, with anything in the other markets and, now and then, at an interval
   at which the region is marked. Answers after how many the reported sum is above the threshold of before, or 0 after W. */
static uint32_t enter_until_above(const struct running *running, const struct question *question)
{
    static int32_t ring[BOOK_RING];
    int32_t prices[88];
    uint8_t marks[8] = {0};
    guxhamole_book book = question->book;
    uint32_t markets = book.services + 1u, count = 0;
    memcpy(ring, question->ring, sizeof *ring * running->places);
    while (count < book.window) {
        for (uint32_t place = 0; place < book.regions * markets; place++)
            prices[place] = any_price(running, place % markets);
        marks[question->region] = below(5) == 0;
        if (!marks[question->region]) {
            prices[question->region * markets + question->market] = question->price;
            count++;
        }
        book = left_enter(book, ring, running->places, prices, marks);
        entered++;
        if (count > 0 && guxhamole_report(book, question->region, question->market).sum > book.threshold)
            return count;
    }
    return 0;
}

static void ask_unchanged(struct running *running, const struct question *question, uint64_t from)
{
    guxhamole_left told = ask("unchanged", question, from);
    struct independent_left kept = independent_ledger_left(&running->ledger, question->region, question->market, question->price);
    if (told.number != kept.number || told.intervals != kept.intervals)
        differs("another answer than the ledger's");
    if (told.number == 0 && below(3) == 0 && enter_until_above(running, question) != told.intervals)
        differs("another answer than the reports after these entries");
    unchanged++;
}

static void fill_question(struct question *question, const guxhamole_book *book, const int32_t *ring, size_t places)
{
    question->good = question->book = *book;
    question->length = places;
    question->region = (uint32_t)below(book->regions);
    question->market = (uint32_t)below(book->services + 1u);
    memcpy(question->ring, ring, sizeof *ring * places);
    for (int i = 0; i < QUESTION_SPARE; i++)
        question->ring[places + (size_t)i] = 0;
}

static struct running running;
static struct question question;

static void lists(void)
{
    for (int list = 0; list < LISTS / part; list++) {
        uint64_t from = seed;
        any_running(&running);
        for (int i = 0; i < ENTRIES; i++) {
            any_step(&running);
            fill_question(&question, &running.book, running.ring, running.places);
            question.price = any_price(&running, question.market);
            ask_unchanged(&running, &question, from);
            for (uint64_t changes = 1 + below(3); changes > 0; changes--)
                change_question(&question);
            ask("changed", &question, from);
        }
    }
}

/* Books of every size up to the largest, from images. */
static void large_books(void)
{
    static uint8_t image[LONGEST];
    static int32_t ring[QUESTION_RING];
    for (int i = 0; i < LARGE / part; i++) {
        uint64_t from = seed;
        size_t length = any_image(2016, image);
        size_t places = GUXHAMOLE_RING(image[6], image[7], image[8] + 256u * image[9]);
        guxhamole_kept kept = guxhamole_load(image, length, ring, places);
        if (kept.number != 0)
            left_differs("an image was refused", from);
        for (int asked = 0; asked < 4; asked++) {
            fill_question(&question, &kept.book, ring, places);
            question.price = (int32_t)below(10000001);
            if (asked > 0)
                change_question(&question);
            question.book.threshold = asked < 3 ? 1 + (int64_t)below(20160000000) : question.book.threshold;
            ask("of a large book", &question, from);
        }
    }
}

/* A worked case: a market of region 1, its prices entered one after the other, at some of them the region marked. */
struct worked {
    const char *name;
    uint16_t window;
    uint32_t market;
    int count;
    int32_t prices[6];
    unsigned marked; /* a bit for each entry */
    int32_t price;
    int64_t threshold;
    uint32_t answer;
    int64_t sums[5]; /* after one more, two more, .., W more */
};

static const struct worked worked[] = {
    {"A", 3, 0, 3, {-10000, 5000, 30000}, 0, 0, 30000, 1, {35000, 30000, 0}},
    {"B", 3, 0, 3, {20000, 0, 0}, 0, 1000, 10000, 0, {1000, 2000, 3000}},
    {"C", 3, 0, 3, {-50000, 10000, 10000}, 0, -100, 10000, 1, {19900, 9800, -300}},
    {"D", 5, 0, 1, {4000}, 0, 2000, 10000, 4, {6000, 8000, 10000, 12000, 10000}},
    {"E", 4, 0, 6, {0, 0, 10000, 20000, 30000, 40000}, 0, 35000, 130000, 2, {125000, 140000, 145000, 140000}},
    {"F", 3, 0, 2, {19000, 500}, 0, 1000, 20000, 1, {20500, 2500, 3000}},
    {"G", 3, 0, 3, {10000, 0, 0}, 0, 6667, 20000, 3, {6667, 13334, 20001}},
    {"H", 3, 0, 3, {10000, 0, 0}, 0, 6666, 20000, 0, {6666, 13332, 19998}},
    {"I", 2, 0, 0, {0}, 0, 10001, 10000, 1, {10001, 20002}},
    {"J", 1, 0, 1, {50000}, 0, 10000, 10000, 0, {10000}},
    {"K", 4, 0, 4, {9000, -9000, 9000, -9000}, 0, 4000, 10000, 4, {-5000, 8000, 3000, 16000}},
    {"L", 3, 1, 2, {4000, 4000}, 0, 4000, 10000, 1, {12000, 12000, 12000}},
    {"M", 3, 0, 3, {4000, 9999, 4000}, 2, 1500, 10000, 0, {9500, 7000, 4500}},
    {"above now and after 1", 3, 0, 2, {20000, 0}, 0, 0, 10000, 1, {20000, 0, 0}}};

/* Two regions of two markets, open. */
static void open_worked(uint16_t window, int64_t threshold)
{
    guxhamole_settings settings = {2, 1, window, 1, 0, {255, 0, 255, 255, 255, 255, 255, 255}, 255, 255, threshold, 60000, -60000};
    running_begin(&running, &settings, 0);
}

/* The price in a market of region 1, which may be marked, and others elsewhere. */
static void enter_worked(uint32_t market, int32_t price, int marked)
{
    int32_t prices[4] = {101, 102, 103, 104};
    uint8_t marks[2] = {0, (uint8_t)marked};
    prices[2 + market] = price;
    running_enter(&running, prices, marks);
}

static void expect(const char *what, uint32_t number, uint32_t intervals)
{
    guxhamole_left told = ask(what, &question, 0);
    if (told.number != number || told.intervals != intervals)
        differs("another answer than was worked out");
    cases++;
}

static void fill_worked(uint32_t market, int32_t price)
{
    fill_question(&question, &running.book, running.ring, running.places);
    question.region = 1;
    question.market = market;
    question.price = price;
}

/* The answer, and then the sums that the book reports as the price is entered. */
static void worked_case(const struct worked *one)
{
    open_worked(one->window, one->threshold);
    for (int i = 0; i < one->count; i++)
        enter_worked(one->market, one->prices[i], one->marked >> i & 1);
    fill_worked(one->market, one->price);
    expect(one->name, 0, one->answer);
    for (int i = 0; i < one->window; i++) {
        enter_worked(one->market, one->price, 0);
        if (guxhamole_report(running.book, 1, one->market).sum != one->sums[i])
            differs("another sum than was worked out");
    }
}

/* E's ring is turned; N is the real market's window. */
static void worked_cases(void)
{
    static const int32_t turned[] = {30000, 40000, 10000, 20000};
    for (size_t i = 0; i < sizeof worked / sizeof *worked; i++) {
        worked_case(&worked[i]);
        if (worked[i].name[0] == 'E' && memcmp(question.ring + 2 * 4, turned, sizeof turned) != 0)
            differs("another ring than was worked out");
    }
    guxhamole_settings settings = {1, 0, 2016, 48, 0, {255, 255, 255, 255, 255, 255, 255, 255}, 255, 255, 139810000, 60000, -60000};
    static const uint8_t marks[1] = {0};
    static const int32_t old = 5000, price = 1500000;
    running_begin(&running, &settings, 0);
    for (int i = 0; i < 2016; i++)
        running_enter(&running, &old, marks);
    fill_question(&question, &running.book, running.ring, running.places);
    question.price = price;
    expect("N", 0, 87);
    for (int i = 0; i < 87; i++)
        running_enter(&running, &price, marks);
    if (guxhamole_report(running.book, 0, 0).sum != 140145000)
        differs("another sum than was worked out");
}

/* A question of D's book, whose answer is 4, before it is spoiled. */
static void ask_of(uint32_t region, uint32_t market, int32_t price)
{
    open_worked(5, 10000);
    enter_worked(0, 4000, 0);
    fill_worked(market, price);
    question.region = region;
}

/* 10 and 11 before all else; 21 before a bad price and a forged ring. */
static void lent_cases(void)
{
    ask_of(1, 0, 2000), expect("D once more", 0, 4);
    ask_of(9, 0, 10000001), memset(&question.book, 0, sizeof question.book), question.length = 0;
    expect("a closed book", 10, 0);
    ask_of(9, 0, 10000001), question.length--, expect("a ring one short", 11, 0);
    ask_of(1, 0, 10000001), question.length++, expect("a ring one long", 11, 0);
    ask_of(2, 0, 10000001), question.ring[0]++, expect("region R", 21, 0);
    ask_of(0, 2, 10000001), question.ring[0]++, expect("market M", 21, 0);
    ask_of(256, 0, 2000), expect("region 256", 21, 0);
    ask_of(1, 256, 2000), expect("market 256", 21, 0);
    ask_of(UINT32_MAX, UINT32_MAX, 2000), expect("the last region and market", 21, 0);
}

/* 22 is the store's: over every market, and before the price. Places that hold no counted price may hold anything. */
static void sums_cases(void)
{
    ask_of(1, 0, 10000001), question.ring[5]++, expect("another market's price", 22, 0);
    ask_of(1, 0, 2000), question.ring[15]++, expect("another market's price, and a good one asked", 22, 0);
    ask_of(1, 0, 10000001), question.book.sums[1]--, expect("another market's sum", 22, 0);
    ask_of(1, 0, 2000), question.ring[10]++, expect("its own price", 22, 0);
    ask_of(1, 0, 2000), question.book.sums[11]--, expect("its own sum", 22, 0);
    ask_of(1, 0, 2000), question.ring[5] = -1, question.book.sums[1] = -1, expect("a service's price of -1", 22, 0);
    ask_of(1, 0, 2000), question.ring[0] = 10000001, question.book.sums[0] = 10000001, expect("a price above all", 22, 0);
    ask_of(1, 0, 2000), question.ring[0] = -10000000, question.book.sums[0] = -10000000, expect("the lowest price", 0, 4);
    ask_of(1, 0, 2000), question.ring[11] = INT32_MAX, question.ring[19] = INT32_MIN, expect("places that hold none", 0, 4);
}

static void price_cases(void)
{
    ask_of(1, 0, 10000001), expect("energy above all", 43, 0);
    ask_of(1, 0, -10000001), expect("energy below all", 43, 0);
    ask_of(1, 1, -1), expect("a service of -1", 43, 0);
    ask_of(1, 1, 10000001), expect("a service above all", 43, 0);
    ask_of(1, 0, -1), expect("energy of -1", 0, 0);
    ask_of(1, 0, -10000000), expect("the lowest energy", 0, 0);
    ask_of(1, 0, 10000000), expect("the highest energy", 0, 1);
    ask_of(1, 1, 0), expect("a service of 0", 0, 0);
    ask_of(1, 1, 10000000), expect("the highest service", 0, 1);
}

/* Entries, marks and position are not looked at: a full book, which an image brings, and an administered market. */
static void unread_cases(void)
{
    static uint8_t image[GUXHAMOLE_IMAGE_MAX(1, 0, 5)];
    static int32_t ring[5];
    struct plan plan = plain();
    plan.window = 5, plan.entries = 10000000, plan.threshold = 10000, plan.counts[0] = 1, plan.periods[0] = 1, plan.position = 5;
    guxhamole_kept kept = guxhamole_load(image, lay_out(&plan, 4000, image), ring, 5);
    if (kept.number != 0)
        left_differs("a full book's image", 0);
    fill_question(&question, &kept.book, ring, 5);
    question.price = 2000;
    expect("a full book", 0, 4);
}

/* Ends where a kind came up too seldom. */
static void print_count(const char *what, long count, long least)
{
    printf(", %s: %ld", what, count);
    if (count < least / part) {
        printf("\n");
        left_differs("too few of these", 0);
    }
}

static void print_counts(void)
{
    printf("intervals left: %ld worked cases, %ld questions, %ld of them unchanged (%ld intervals entered for them)", cases,
           questions, unchanged, entered);
    for (int i = 0; i < NUMBER_KINDS; i++)
        print_count(kinds[i].name, seen[i], kinds[i].least);
    for (size_t i = 0; i < sizeof pairs / sizeof *pairs; i++) {
        char name[40];
        uint32_t first = left_refusals[pairs[i].first], second = left_refusals[pairs[i].second];
        if (first == second)
            snprintf(name, sizeof name, "refused by %u", first);
        else
            snprintf(name, sizeof name, "by %u before %u", first, second);
        print_count(name, refused[pairs[i].first][pairs[i].second], pairs[i].least);
    }
    print_count("by 22 for other markets alone", elsewhere, LEAST_ELSEWHERE);
    print_count("by 10 of the ends alone", of_ends, LEAST_ENDS);
    printf("\n");
}

int main(int count, char **words)
{
    if (count > 1 && atoi(words[1]) > 0)
        part = atoi(words[1]);
    signal(SIGSEGV, touched);
    worked_cases();
    lent_cases();
    sums_cases();
    price_cases();
    unread_cases();
    lists();
    large_books();
    print_counts();
    return 0;
}
