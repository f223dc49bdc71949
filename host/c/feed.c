/* Lines and records for a box, written from what they say. */
#include "feed.h"

#include <inttypes.h>
#include <string.h>

static void put(FILE *out, const int32_t *numbers, int count)
{
    for (int i = 0; i < count; i++)
        fprintf(out, " %" PRId32, numbers[i]);
}

static void put_interval(FILE *out, const struct line *line)
{
    fprintf(out, "interval %" PRIu32 " %d", line->number, line->kind);
    put(out, line->prices, PRICES);
    for (int region = 0; region < REGIONS; region++)
        fprintf(out, " %d", line->marks[region]);
    put(out, line->flows, LINKS);
    for (int place = 0; place < LINKS; place++)
        fprintf(out, " %" PRIu32, line->factors[place]);
}

void feed_line(FILE *out, const struct line *line)
{
    switch (line->word) {
    case LINE_INTERVAL:
        put_interval(out, line);
        break;
    case LINE_RECORDS:
        fprintf(out, "records %zu %s", line->place, line->path);
        break;
    case LINE_SCHEDULE:
        fprintf(out, "schedule %" PRIu32 " %" PRIu32 " %d", line->region, line->market, line->kind);
        put(out, line->row, HALVES);
        break;
    case LINE_REPORT:
        fprintf(out, "report %" PRIu32 " %" PRIu32, line->region, line->market);
        break;
    case LINE_LEFT:
        fprintf(out, "left %" PRIu32 " %" PRIu32 " %" PRId32, line->region, line->market, line->price);
        break;
    case LINE_THRESHOLD:
        fprintf(out, "threshold %" PRId64, line->threshold);
        break;
    case LINE_LIMITS:
        fprintf(out, "limits %" PRId32 " %" PRId32, line->cap, line->floor);
        break;
    case LINE_SAVE:
        fprintf(out, "save");
        break;
    }
    putc('\n', out);
}

/* A number of so many bytes, the lowest first. */
static void put_bytes(FILE *out, int width, uint32_t number)
{
    for (; width > 0; width--, number >>= 8)
        putc((int)(number & 255), out);
}

void feed_records(FILE *out, const struct line *line, const int *order)
{
    put_bytes(out, 4, 12);
    put_bytes(out, 2, 16);
    put_bytes(out, 4, line->number);
    put_bytes(out, 1, line->kind);
    put_bytes(out, 1, REGIONS);
    for (int i = 0; i < REGIONS; i++) {
        int region = order == NULL ? i : order[i];
        put_bytes(out, 4, 16 + 4 * MARKETS);
        put_bytes(out, 2, 17);
        put_bytes(out, 1, (uint32_t)region);
        put_bytes(out, 1, line->marks[region]);
        put_bytes(out, 4, (uint32_t)line->flows[region]);
        put_bytes(out, 4, line->factors[region]);
        for (int market = 0; market < MARKETS; market++)
            put_bytes(out, 4, (uint32_t)line->prices[region * MARKETS + market]);
    }
    for (int place = REGIONS; place < LINKS; place++) { /* one, or none */
        put_bytes(out, 4, 14);
        put_bytes(out, 2, 18);
        put_bytes(out, 4, (uint32_t)line->flows[place]);
        put_bytes(out, 4, line->factors[place]);
    }
}

/* Region after region changes places with one before it, or with none. */
void feed_order(uint32_t number, int *order)
{
    for (int region = 0; region < REGIONS; region++) {
        uint32_t place = number % ((uint32_t)region + 1);
        number /= (uint32_t)region + 1;
        order[region] = region;
        order[region] = order[place];
        order[place] = region;
    }
}

struct line feed_interval(void)
{
    struct line line;
    memset(&line, 0, sizeof line);
    line.word = LINE_INTERVAL;
    for (int place = 0; place < PRICES; place++)
        line.prices[place] = place % MARKETS == 0 ? 5000 + 100 * (place / MARKETS) : 200 + place;
    for (int place = 0; place < LINKS; place++) {
        line.flows[place] = 100;
        line.factors[place] = 10500;
    }
    return line;
}
