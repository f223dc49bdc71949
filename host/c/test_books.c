/* Blank images, and books compared field by field. */
#include "test_books.h"

#include "make.h"

#include <string.h>

static struct plan blank_plan(const guxhamole_settings *settings)
{
    struct plan plan = plain();
    plan.regions = settings->regions, plan.services = settings->services, plan.window = settings->window;
    plan.halves = settings->halves, plan.position = settings->first, plan.threshold = settings->threshold;
    plan.cap = settings->cap, plan.floor = settings->floor;
    memcpy(plan.parents, settings->parents, sizeof plan.parents);
    return plan;
}

void blank_image(const guxhamole_settings *settings, uint8_t *image)
{
    struct plan plan = blank_plan(settings);
    lay_out(&plan, 0, image);
}

void blank_linked(const guxhamole_settings *settings, uint8_t *image)
{
    struct plan plan = blank_plan(settings);
    plan.kind = 2, plan.link = independent_settings_link(settings);
    lay_out(&plan, 0, image);
}

size_t any_blank(const guxhamole_settings *settings, uint8_t *image)
{
    if (below(2) && !independent_has_link(independent_settings_link(settings))) {
        blank_image(settings, image);
        return BLANK_IMAGE;
    }
    blank_linked(settings, image);
    return BLANK_LINKED;
}

int same_book(const guxhamole_book *one, const guxhamole_book *other)
{
    return one->regions == other->regions && one->services == other->services && one->window == other->window &&
           one->halves == other->halves && memcmp(one->parents, other->parents, sizeof one->parents) == 0 &&
           one->from == other->from && one->to == other->to &&
           one->threshold == other->threshold && one->cap == other->cap && one->floor == other->floor &&
           one->entries == other->entries && one->position == other->position &&
           memcmp(one->counts, other->counts, sizeof one->counts) == 0 &&
           memcmp(one->nexts, other->nexts, sizeof one->nexts) == 0 &&
           memcmp(one->sums, other->sums, sizeof one->sums) == 0 && memcmp(one->marks, other->marks, sizeof one->marks) == 0;
}

int is_closed(const guxhamole_book *book)
{
    guxhamole_book closed;
    memset(&closed, 0, sizeof closed);
    return same_book(book, &closed);
}
