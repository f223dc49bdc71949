/* The additional link of a book, by the words of request 2026-10. */
#include "independent_link.h"

enum { NONE = 255, HEAD = 12, REGION = 16, LINK = 14 };

struct independent_link independent_ends(unsigned from, unsigned to)
{
    struct independent_link link = {(uint8_t)from, (uint8_t)to};
    return link;
}

struct independent_link independent_no_link(void)
{
    return independent_ends(NONE, NONE);
}

int independent_has_link(struct independent_link link)
{
    return link.from != NONE || link.to != NONE;
}

int independent_ends_bad(unsigned regions, const uint8_t *parents, struct independent_link link)
{
    if (!independent_has_link(link))
        return 0;
    if (link.from >= regions || link.to >= regions || link.from == link.to)
        return 1;
    return parents[link.from] == link.to || parents[link.to] == link.from;
}

struct independent_link independent_settings_link(const guxhamole_settings *settings)
{
    return independent_ends(settings->from, settings->to);
}

struct independent_link independent_book_link(const guxhamole_book *book)
{
    return independent_ends(book->from, book->to);
}

struct independent_shape independent_settings_shape(const guxhamole_settings *settings)
{
    struct independent_shape shape = {settings->regions, settings->services, independent_has_link(independent_settings_link(settings))};
    return shape;
}

struct independent_shape independent_shape_of(const guxhamole_book *book)
{
    struct independent_shape shape = {book->regions, book->services, independent_has_link(independent_book_link(book))};
    return shape;
}

size_t independent_places(struct independent_shape shape)
{
    return shape.regions + (shape.linked ? 1u : 0u);
}

size_t independent_interval_bytes(struct independent_shape shape)
{
    size_t bytes = HEAD + shape.regions * (REGION + 4 * (shape.services + (size_t)1));
    if (shape.linked)
        bytes += LINK;
    return bytes;
}
