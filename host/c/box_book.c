/* What a box asks of its market's book and its schedule. */
#include "box_book.h"

#include <string.h>

void schedule_take(struct box_schedule *schedule, const struct line *line)
{
    uint32_t row = (line->region * MARKETS + line->market) * KINDS + line->kind;
    memcpy(schedule->prices + row * HALVES, line->row, sizeof line->row);
    schedule->given[row] = 1;
}

int schedule_lacks(const struct box_schedule *schedule, const uint8_t *marks)
{
    for (int row = 0; row < PRICES * KINDS; row++)
        if (marks[row / (MARKETS * KINDS)] == 1 && !schedule->given[row])
            return 1;
    return 0;
}

int same_market(const guxhamole_book *book)
{
    guxhamole_settings own = BOX_SETTINGS;
    return book->regions == own.regions && book->services == own.services && book->window == own.window &&
           book->halves == own.halves && memcmp(book->parents, own.parents, sizeof own.parents) == 0 &&
           book->from == own.from && book->to == own.to;
}
