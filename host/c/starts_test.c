/* Holds what a book may begin with, and what threshold it may be set, to request 2026-06 of document 02: openings and settings take
   multiples of 10,000 alone, and an image that holds another threshold loads, stays as it is until the next setting and may stand in
   the opening's place, as the worked books of document 01 do. Cases worked by hand; then openings and lists (starts_lists.h) held to
   the independent ledger. All from a fixed seed. Exit status 1 with the case at the first difference, or where a kind came up too
   seldom. Given a number, it does that part of the random ones alone: `starts_test 10` a tenth, for slow checkers. */
#include "guarded.h"
#include "guxhamole.h"
#include "make.h"
#include "starts_lists.h"
#include "test_books.h"

#include <stdio.h>
#include <stdlib.h>
#include <string.h>

enum { OPENINGS = 20000, LISTS = 1000, PLACES = 8, ANYTHING = 7 };

static long cases;

static guxhamole_settings settings_of(uint8_t regions, uint8_t services, uint16_t window, int64_t threshold)
{
    guxhamole_settings settings = {regions, services, window, 1, 0, {255, 255, 255, 255, 255, 255, 255, 255}, 255, 255, threshold, 60000,
                                   -60000};
    for (uint8_t region = 1; region < regions; region++)
        settings.parents[region] = (uint8_t)(region - 1);
    return settings;
}

static int32_t *filled_ring(size_t places)
{
    int32_t *ring = (int32_t *)guarded(4 * places);
    for (size_t i = 0; i < places; i++)
        ring[i] = ANYTHING;
    return ring;
}

static int all_are(const int32_t *ring, size_t places, int32_t number)
{
    int alike = 1;
    for (size_t i = 0; i < places; i++)
        alike &= ring[i] == number;
    return alike;
}

/* What an opening or a load answers: refused, the closed book and the ring as it was; accepted, the threshold and a ring of zeros. */
static void expect_start(const char *what, const guxhamole_kept *kept, const int32_t *ring, size_t places, uint32_t number,
                         int64_t threshold)
{
    if (kept->number != number || kept->place != 0)
        starts_differ(what, 0);
    if (number == 0 ? kept->book.threshold != threshold || kept->book.entries != 0 : !is_closed(&kept->book))
        starts_differ(what, 0);
    if (!all_are(ring, places, number == 0 ? 0 : ANYTHING) || !guarded_whole())
        starts_differ(what, 0);
    cases++;
}

static void expect_opening(const char *what, guxhamole_settings settings, size_t places, uint32_t number)
{
    int32_t *ring = filled_ring(places);
    guxhamole_kept kept = guxhamole_open(settings, ring, places);
    expect_start(what, &kept, ring, places, number, settings.threshold);
    guarded_free();
}

/* The book that is handed back is the lent one, with the threshold if it was accepted. */
static void expect_setting(const char *what, guxhamole_book book, int64_t threshold, uint32_t number)
{
    guxhamole_kept kept = guxhamole_set_threshold(book, threshold);
    if (number == 0)
        book.threshold = threshold;
    if (kept.number != number || kept.place != 0 || !same_book(&kept.book, &book))
        starts_differ(what, 0);
    cases++;
}

/* A book of one region and market, begun by its image. */
static guxhamole_book loaded_at(int64_t threshold, int32_t *ring)
{
    uint8_t image[BLANK_IMAGE];
    guxhamole_settings settings = settings_of(1, 0, 1, threshold);
    blank_image(&settings, image);
    guxhamole_kept kept = guxhamole_load(image, sizeof image, ring, 1);
    if (kept.number != 0)
        starts_differ("a blank image was refused", 0);
    return kept.book;
}

/* How an opening and a setting answer a threshold. */
static const struct {
    int64_t threshold;
    uint32_t number;
} thresholds[] = {{INT64_MIN, 18}, {-10000, 18}, {-1, 18}, {0, 18}, {100000000001, 18}, {100000010000, 18}, {INT64_MAX, 18},
                  {1, 44}, {100, 44}, {1000, 44}, {2000, 44}, {5000, 44}, {9999, 44}, {10001, 44}, {11000, 44}, {12500, 44}, {15000, 44},
                  {18000, 44}, {94999, 44}, {95000, 44}, {95001, 44}, {139815000, 44}, {99999990001, 44}, {99999999999, 44},
                  {10000, 0}, {20000, 0}, {90000, 0}, {100000, 0}, {139810000, 0}, {99999990000, 0}, {100000000000, 0}};

static void threshold_cases(void)
{
    int32_t ring[1];
    guxhamole_book closed, damaged, opened = guxhamole_open(settings_of(1, 0, 1, 130000), ring, 1).book;
    guxhamole_book whole = loaded_at(100000, ring), other = loaded_at(95000, ring), least = loaded_at(1, ring);
    memset(&closed, 0, sizeof closed);
    damaged = opened;
    damaged.threshold = 0;
    for (size_t i = 0; i < sizeof thresholds / sizeof *thresholds; i++) {
        int64_t threshold = thresholds[i].threshold;
        uint32_t number = thresholds[i].number;
        char what[60];
        snprintf(what, sizeof what, "threshold %lld", (long long)threshold);
        expect_opening(what, settings_of(1, 0, 1, threshold), 1, number);
        expect_opening(what, settings_of(3, 1, 1, threshold), 6, number);
        expect_setting(what, opened, threshold, number);
        expect_setting(what, whole, threshold, number);
        expect_setting(what, other, threshold, number);
        expect_setting(what, least, threshold, number);
        expect_setting(what, closed, threshold, 10);
        expect_setting(what, damaged, threshold, 10);
    }
}

/* 20, 11, 18, 44, 19: the first that holds. */
static void order_cases(void)
{
    static const struct {
        const char *what;
        int64_t threshold;
        uint16_t first;
        size_t places;
        int32_t cap, floor;
        uint32_t number;
    } openings[] = {{"95,000, cap 0", 95000, 0, 1, 0, -60000, 44},
                    {"95,000, floor 0", 95000, 0, 1, 60000, 0, 44},
                    {"0, cap 0", 0, 0, 1, 0, -60000, 18},
                    {"100,000,010,000, cap 0", 100000010000, 0, 1, 0, -60000, 18},
                    {"100,000, cap 0", 100000, 0, 1, 0, -60000, 19},
                    {"95,000, a ring too long", 95000, 0, 2, 60000, -60000, 11},
                    {"95,000, no ring", 95000, 0, 0, 60000, -60000, 11},
                    {"0, a ring too long", 0, 0, 2, 0, 0, 11},
                    {"95,000, first position 6", 95000, 6, 1, 60000, -60000, 20},
                    {"95,000, everything wrong", 95000, 6, 2, 0, 0, 20},
                    {"95,000, first position 5", 95000, 5, 1, 60000, -60000, 44},
                    {"90,000, first position 5", 90000, 5, 1, 60000, -60000, 0}};
    for (size_t i = 0; i < sizeof openings / sizeof *openings; i++) {
        guxhamole_settings settings = settings_of(1, 0, 1, openings[i].threshold);
        settings.first = openings[i].first;
        settings.cap = openings[i].cap;
        settings.floor = openings[i].floor;
        expect_opening(openings[i].what, settings, openings[i].places, openings[i].number);
    }
}

/* The image of a book of one region and market, window 1, one half-hour, 95,000 and limits of 60,000, into which nothing was
   entered. */
static const uint8_t image_95000[BLANK_IMAGE] = {
    0x94, 0, 0, 0, 1, 0, 1, 0, 1, 0, 1, 0, 255, 255, 255, 255, 255, 255, 255, 255, 0, 0, 0, 0, 0, 0, 0, 0,
    0x18, 0x73, 0x01, 0, 0, 0, 0, 0, 0x60, 0xea, 0, 0, 0xa0, 0x15, 0xff, 0xff};

/* Loads an image, which must be answered so; one that loads stores to the same bytes. */
static void expect_load(const char *what, const uint8_t *image, uint32_t number, int64_t threshold)
{
    uint8_t *copy = (uint8_t *)guarded_fixed(BLANK_IMAGE), *stored = (uint8_t *)guarded(BLANK_IMAGE);
    int32_t *ring = filled_ring(1);
    memcpy(copy, image, BLANK_IMAGE);
    guarded_keep();
    if (guxhamole_image_check(copy, BLANK_IMAGE) != number)
        starts_differ(what, 0);
    guxhamole_kept kept = guxhamole_load(copy, BLANK_IMAGE, ring, 1);
    expect_start(what, &kept, ring, 1, number, threshold);
    guxhamole_stored answer = guxhamole_store(kept.book, ring, 1, stored, BLANK_IMAGE);
    if (number == 0 && (answer.number != 0 || answer.length != BLANK_IMAGE || memcmp(stored, image, BLANK_IMAGE) != 0))
        starts_differ(what, 0);
    guarded_free();
}

/* A load looks at the range alone. An image with an entry counted nowhere, or with a period, loads too. */
static void image_cases(void)
{
    static const int64_t in[] = {1, 9999, 10000, 10001, 95000, 100000, 99999999999, 100000000000}, out[] = {0, -1, -10000, 100000000001};
    uint8_t image[BLANK_IMAGE];
    guxhamole_settings settings = settings_of(1, 0, 1, 95000);
    blank_image(&settings, image);
    if (memcmp(image, image_95000, BLANK_IMAGE) != 0)
        starts_differ("the layout of 95,000", 0);
    expect_load("the image of 95,000", image_95000, 0, 95000);
    for (size_t i = 0; i < sizeof in / sizeof *in; i++) {
        put_number(image, 28, 8, (uint64_t)in[i]);
        expect_load("an image's threshold", image, 0, in[i]);
    }
    for (size_t i = 0; i < sizeof out / sizeof *out; i++) {
        put_number(image, 28, 8, (uint64_t)out[i]);
        expect_load("an image's threshold out of range", image, 26, 0);
    }
    int32_t ring[1];
    memcpy(image, image_95000, BLANK_IMAGE);
    image[20] = 1;
    image[60] = 1;
    guxhamole_kept kept = guxhamole_load(image, BLANK_IMAGE, ring, 1);
    if (kept.number != 0 || kept.book.entries != 1 || kept.book.marks[0] != 1 || kept.book.threshold != 95000)
        starts_differ("an image of 95,000 with an entry and a period", 0);
    cases++;
}

/* The book of a worked case, its ring and its table; the schedule is zeros. */
static guxhamole_book book;
static int32_t ring[PLACES], table[PLACES];

/* Document 01's threshold: an opening refuses it, and the image stands in its place. */
static void begin(uint8_t regions, uint8_t services, uint16_t window)
{
    uint8_t image[BLANK_IMAGE];
    guxhamole_settings settings = settings_of(regions, services, window, 95000);
    size_t places = GUXHAMOLE_RING(regions, services, window);
    if (guxhamole_open(settings, ring, places).number != GUXHAMOLE_HUNDREDS)
        starts_differ("a worked book was opened", 0);
    blank_image(&settings, image);
    guxhamole_kept kept = guxhamole_load(image, sizeof image, ring, places);
    if (kept.number != 0)
        starts_differ("a worked book's image was refused", 0);
    book = kept.book;
}

static void expect_entry(const char *what, const int32_t *prices, uint8_t mark, const int32_t *flows, uint32_t count,
                         const int32_t *published)
{
    static const uint32_t factors[3] = {10000, 11000, 10800};
    static const int32_t schedule[2 * PLACES] = {0};
    uint8_t marks[3] = {mark, 0, 0};
    size_t regions = book.regions, length = GUXHAMOLE_PRICES(book.regions, book.services);
    guxhamole_entered entered =
        guxhamole_enter(book, ring, length * book.window, book.entries, 0, prices, length, marks, regions, flows, regions, factors,
                        regions, schedule, 2 * length, table, length);
    if (entered.number != 0 || entered.count != count || memcmp(table, published, 4 * length) != 0)
        starts_differ(what, 0);
    book = entered.book;
    cases++;
}

static void expect_report(const char *what, uint32_t market, int64_t sum, uint32_t counted, uint32_t mark, uint32_t entries)
{
    guxhamole_reading told = guxhamole_report(book, 0, market);
    if (told.number != 0 || told.sum != sum || told.counted != counted || told.mark != mark || told.entries != entries)
        starts_differ(what, 0);
    cases++;
}

/* Three regions in a row: entry 0, and what entry 1 may then be. */
static void guide_cases(void)
{
    static const int32_t prices[3] = {100000, 90000, 85000}, still[3] = {0, 0, 0};
    static const struct {
        const char *what;
        int32_t prices[3], flows[3];
        uint32_t count;
        int32_t published[3];
    } seconds[] = {{"the guide's flows", {100000, 90000, 85000}, {0, 1, 1}, 3, {60000, 54545, 50505}},
                   {"the guide's flow 0", {100000, 90000, 85000}, {0, 0, 1}, 1, {60000, 90000, 85000}},
                   {"the guide's floor", {-70000, -90000, -85000}, {0, -1, -1}, 3, {-60000, -66000, -71280}}};
    for (size_t i = 0; i < sizeof seconds / sizeof *seconds; i++) {
        begin(3, 0, 1);
        expect_entry("the guide's entry 0", prices, 0, still, 0, prices);
        expect_entry(seconds[i].what, seconds[i].prices, 0, seconds[i].flows, seconds[i].count, seconds[i].published);
    }
}

static void enter_one(const char *what, int32_t price, uint32_t count, int32_t published)
{
    static const int32_t still[1] = {0};
    expect_entry(what, &price, 0, still, count, &published);
}

/* A day of six: administered at entries 1 to 5; the last of them decides about entry 6. */
static void day_case(int32_t last, uint32_t count, int32_t published, uint32_t mark)
{
    begin(1, 0, 1);
    enter_one("the day's entry 0", 100000, 0, 100000);
    expect_report("the day's period", 0, 100000, 1, 1, 1);
    for (uint32_t number = 1; number < 5; number++) {
        enter_one("the day's entry", 50000, 0, 50000);
        expect_report("the day's period", 0, 50000, 1, 1, number + 1);
    }
    enter_one("the day's last entry", last, count, published);
    expect_report("the day's end", 0, last, 1, mark, 6);
}

/* A window of two with a marked interval, and the day sheet's book. */
static void window_cases(void)
{
    static const int32_t still[1] = {0}, zero[1] = {0}, first[2] = {100000, 250}, second[2] = {-5000, 0};
    int32_t price = 7000;
    begin(1, 0, 2);
    enter_one("100", 100, 0, 100);
    enter_one("200", 200, 0, 200);
    expect_entry("marked", &price, 1, still, 0, zero);
    expect_report("marked left it", 0, 300, 2, 0, 3);
    enter_one("400", 400, 0, 400);
    expect_report("200 and 400", 0, 600, 2, 0, 4);
    begin(1, 1, 3);
    expect_entry("the sheet's entry 0", first, 0, still, 0, first);
    expect_entry("the sheet's entry 1", second, 0, still, 0, second);
    expect_report("the sheet's energy", 0, 95000, 2, 1, 2);
    expect_report("the sheet's service", 1, 250, 2, 0, 2);
}

/* A store and a load into a ring that held anything: the image holds 95,000. */
static void restart_95000(void)
{
    uint8_t image[BLANK_IMAGE + 4];
    guxhamole_stored stored = guxhamole_store(book, ring, 1, image, sizeof image);
    if (stored.number != 0 || stored.length != sizeof image || memcmp(image + 28, image_95000 + 28, 8) != 0)
        starts_differ("the image of a book at 95,000", 0);
    ring[0] = ANYTHING;
    guxhamole_kept kept = guxhamole_load(image, sizeof image, ring, 1);
    if (kept.number != 0 || !same_book(&kept.book, &book))
        starts_differ("a restart at 95,000", 0);
    book = kept.book;
    cases++;
}

static void set_threshold(int64_t threshold, uint32_t number)
{
    expect_setting("a setting of a book in use", book, threshold, number);
    book = guxhamole_set_threshold(book, threshold).book;
}

/* 95,000 stays through entries, a refused setting, a restart and a setting of limits, until 100,000 is set. */
static void stay_case(void)
{
    begin(1, 0, 1);
    enter_one("95,000", 95000, 0, 95000);
    expect_report("95,000 is not above 95,000", 0, 95000, 1, 0, 1);
    set_threshold(95000, 44);
    restart_95000();
    book = guxhamole_set_limits(book, 60000, -60000).book;
    enter_one("95,001", 95001, 0, 95001);
    expect_report("95,001 is above 95,000", 0, 95001, 1, 1, 2);
    set_threshold(100000, 0);
    set_threshold(95000, 44);
    for (uint32_t number = 2; number < 6; number++) {
        enter_one("held at the cap", 95001, 1, 60000);
        expect_report("95,001 is not above 100,000", 0, 95001, 1, number < 5 ? 1 : 0, number + 1);
    }
}

/* Plays a list of records over a book of one place, whose answers must be these bytes. */
static void expect_replay(const char *what, const uint8_t *calls, size_t length, const uint8_t *want, size_t wanted)
{
    int32_t *prices = filled_ring(1), *other = filled_ring(1), *numbers = filled_ring(4), *lent = filled_ring(1);
    uint8_t *answers = (uint8_t *)guarded(wanted + 14), *image = (uint8_t *)guarded(BLANK_IMAGE + 4);
    uint32_t *factors = (uint32_t *)guarded(4);
    size_t told = guxhamole_replay(calls, length, answers, wanted + 14, prices, 1, other, 1, image, BLANK_IMAGE + 4, numbers, 4,
                                   factors, 1, lent, 1);
    if (told != wanted || memcmp(answers, want, wanted) != 0 || !guarded_whole())
        starts_differ(what, 0);
    guarded_free();
    cases++;
}

#define ZEROS4 0, 0, 0, 0
#define ZEROS8 ZEROS4, ZEROS4
#define OPENING(low, high) 38, 0, 0, 0, 64, 0, 1, 0, 1, 0, 1, 0, 0, 0, 255, 255, 255, 255, 255, 255, 255, 255, \
        low, high, 1, 0, ZEROS4, 0x60, 0xea, 0, 0, 0xa0, 0x15, 0xff, 0xff
#define THRESHOLD(low, high) 14, 0, 0, 0, 66, 0, low, high, 1, 0, ZEROS4
#define ANSWER(kind, number) 14, 0, 0, 0, kind, 0, number, 0, 0, 0, ZEROS4

/* Bytes by docs/RECORDS.md. An opening at 95,000, a threshold of 100,000, a report and a restart; an opening at 90,000, a threshold
   of 95,000, an entry of 90,001, its report, a threshold of 100,000 and a restart. */
static void replay_cases(void)
{
    static const uint8_t refused[] = {OPENING(0x18, 0x73), THRESHOLD(0xa0, 0x86), 14, 0, 0, 0, 68, 0, ZEROS8, 6, 0, 0, 0, 69, 0};
    static const uint8_t refused_answers[] = {ANSWER(64, 44), ANSWER(66, 10), 34, 0, 0, 0, 68, 0, 10, 0, 0, 0, ZEROS4,
                                              ZEROS8, ZEROS8, ZEROS4, ANSWER(69, 10)};
    static const uint8_t opened[] = {
        OPENING(0x90, 0x5f), THRESHOLD(0x18, 0x73),
        65, 0, 0, 0, 65, 0, ZEROS4, 0, 0, 1, 0, 0, 0, 1, 0, 0, 0, 1, 0, 0, 0, 1, 0, 0, 0, 2, 0, 0, 0, 1, 0, 0, 0, 1, 0, 0, 0,
        0x91, 0x5f, 1, 0, 0, ZEROS4, 0x10, 0x27, 0, 0, ZEROS8, 3, 0, 0, 0,
        14, 0, 0, 0, 68, 0, ZEROS8, THRESHOLD(0xa0, 0x86), 6, 0, 0, 0, 69, 0};
    static const uint8_t opened_answers[] = {
        ANSWER(64, 0), ANSWER(66, 44), 22, 0, 0, 0, 65, 0, ZEROS8, ZEROS4, 0x91, 0x5f, 1, 0,
        34, 0, 0, 0, 68, 0, ZEROS8, 0x91, 0x5f, 1, 0, ZEROS4, 1, 0, 0, 0, 1, 0, 0, 0, 1, 0, 0, 0, ANSWER(66, 0), ANSWER(69, 0)};
    expect_replay("a replay opened at 95,000", refused, sizeof refused, refused_answers, sizeof refused_answers);
    expect_replay("a replay opened at 90,000", opened, sizeof opened, opened_answers, sizeof opened_answers);
}

int main(int count, char **words)
{
    int part = count > 1 && atoi(words[1]) > 0 ? atoi(words[1]) : 1;
    threshold_cases();
    order_cases();
    image_cases();
    guide_cases();
    day_case(50000, 0, 50000, 0);
    day_case(95000, 1, 60000, 0);
    day_case(95001, 1, 60000, 1);
    window_cases();
    stay_case();
    replay_cases();
    for (int i = 0; i < OPENINGS / part; i++)
        any_opening();
    for (int i = 0; i < LISTS / part; i++)
        any_list();
    printf("starts: %ld worked answers", cases);
    starts_counts(part);
    return 0;
}
