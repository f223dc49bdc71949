/* Changes of a question. What they write to the ring goes by the good book, which may no longer be the one that is lent. No expression
   draws two numbers whose order is the compiler's to choose. */
#include "left_changes.h"

#include "make.h"

#include <string.h>

/* A market of the good book, and its window's first place in the ring. */
struct place {
    size_t region, market, first, sum;
};

/* Numbers of a damaged book may be the farthest: they go round. */
static int64_t plus(int64_t one, int64_t other)
{
    return (int64_t)((uint64_t)one + (uint64_t)other);
}

static struct place any_market(const guxhamole_book *good)
{
    struct place place;
    place.region = below(good->regions);
    place.market = below(good->services + 1u);
    place.first = (place.region * (good->services + (size_t)1) + place.market) * good->window;
    place.sum = 11 * place.region + place.market;
    return place;
}

/* A counted price becomes another; its sum follows it or not. */
static void change_price(struct question *question, int32_t price, int summed)
{
    struct place place = any_market(&question->good);
    if (question->good.counts[place.region] == 0)
        return;
    int32_t *old = &question->ring[place.first + below(question->good.counts[place.region])];
    if (summed)
        question->book.sums[place.sum] = plus(question->book.sums[place.sum], (int64_t)price - *old);
    *old = price;
}

static void nudge_price(struct question *question)
{
    struct place place = any_market(&question->good);
    int64_t by = below(2) ? 1 : -1;
    if (question->good.counts[place.region] == 0)
        return;
    int32_t *price = &question->ring[place.first + below(question->good.counts[place.region])];
    *price = (int32_t)plus(*price, by);
}

/* A place that holds no counted price. */
static void change_unused(struct question *question)
{
    struct place place = any_market(&question->good);
    size_t count = question->good.counts[place.region], unused = question->good.window - count;
    if (unused == 0)
        return;
    size_t at = place.first + count + below(unused);
    question->ring[at] = (int32_t)next();
}

/* The sums stay right, and the order in which prices leave changes. */
static void exchange_prices(struct question *question)
{
    struct place place = any_market(&question->good);
    if (question->good.counts[place.region] == 0)
        return;
    int32_t *one = &question->ring[place.first + below(question->good.counts[place.region])];
    int32_t *other = &question->ring[place.first + below(question->good.counts[place.region])];
    int32_t kept = *one;
    *one = *other;
    *other = kept;
}

/* Another place is the oldest's, where the window is full; else the book is none. */
static void turn_window(struct question *question)
{
    size_t region = below(question->good.regions);
    question->book.nexts[region] = (uint16_t)below(question->good.window);
}

static void change_length(struct question *question)
{
    size_t right = question->length;
    question->length = below(3) ? (below(2) || right == 0 ? right + 1 : right - 1) : below(right + 1);
    if (question->length > QUESTION_RING + QUESTION_SPARE)
        question->length = right;
}

/* One past, far past, or right but for a bit above the eighth or the sixteenth. */
static uint32_t past(uint32_t number, uint32_t count)
{
    switch (below(5)) {
    case 0: return count;
    case 1: return count + (uint32_t)below(20);
    case 2: return number + 256;
    case 3: return number + 65536;
    default: return UINT32_MAX - (uint32_t)below(3);
    }
}

static int32_t price_of(const int32_t *prices, size_t count)
{
    return prices[below(count)];
}

static void change_byte(struct question *question)
{
    uint8_t bytes[sizeof question->book];
    memcpy(bytes, &question->book, sizeof bytes);
    size_t at = below(below(2) ? 72 : sizeof bytes);
    bytes[at] = (uint8_t)(below(2) ? below(12) : next());
    memcpy(&question->book, bytes, sizeof bytes);
}

/* Fields that an answer doesn't hang on, each within its limits. */
static void change_unread(struct question *question)
{
    struct place place = any_market(&question->good);
    switch (below(4)) {
    case 0:
        question->book.marks[place.sum] ^= 1;
        break;
    case 1:
        question->book.entries = 10000000;
        break;
    case 2:
        question->book.position = 0;
        break;
    default:
        question->book.cap = 1;
        question->book.floor = -1;
    }
}

/* A threshold about a sum that the market may come to, or any. */
static void change_threshold(struct question *question)
{
    size_t sum = 11 * (size_t)(question->region % 8) + question->market % 11;
    int64_t times = (int64_t)below(question->good.window + 1u), cents = (int64_t)below(3) - 1;
    int64_t near = plus(question->book.sums[sum], times * question->price + cents);
    uint64_t any = below(100000000000);
    any = 1 + (any >> below(30));
    question->book.threshold = below(3) && near >= 1 && near <= 100000000000 ? near : (int64_t)any;
}

static void change_asked(struct question *question)
{
    static const int32_t out[] = {10000001, -10000001, INT32_MAX, INT32_MIN, -1, 10000001}, in[] = {10000000, -10000000, 0, -1, 1};
    switch (below(5)) {
    case 0:
        question->region = past(question->region, question->good.regions);
        break;
    case 1:
        question->market = past(question->market, question->good.services + 1u);
        break;
    case 2:
        question->price = price_of(in, sizeof in / sizeof *in);
        break;
    default:
        question->price = price_of(out, sizeof out / sizeof *out);
    }
}

static void change_ring(struct question *question)
{
    static const int32_t out[] = {10000001, -10000001, INT32_MAX, INT32_MIN, -1};
    switch (below(7)) {
    case 0:
        change_price(question, price_of(out, sizeof out / sizeof *out), 1);
        break;
    case 1:
        change_price(question, (int32_t)below(10000001), 1);
        break;
    case 2:
        change_unused(question);
        break;
    case 3:
        exchange_prices(question);
        break;
    case 4:
        change_length(question);
        break;
    default:
        nudge_price(question);
    }
}

static void change_book(struct question *question)
{
    struct place place = any_market(&question->good);
    switch (below(7)) {
    case 0:
        question->book.sums[place.sum] = plus(question->book.sums[place.sum], below(2) ? 1 : -1);
        break;
    case 1:
        turn_window(question);
        break;
    case 2:
        change_unread(question);
        break;
    case 3:
        change_threshold(question);
        break;
    case 4:
        change_byte(question);
        break;
    case 5:
        forge_ends(&question->book);
        break;
    default:
        if (below(8) == 0)
            memset(&question->book, 0, sizeof question->book);
        else
            change_byte(question);
    }
}

void change_question(struct question *question)
{
    switch (below(3)) {
    case 0:
        change_asked(question);
        break;
    case 1:
        change_ring(question);
        break;
    default:
        change_book(question);
    }
}
