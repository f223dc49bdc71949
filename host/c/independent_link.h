/* The additional link of a book in plain C, written from request 2026-10 alone and sharing nothing with the proved code: its two ends, and
   what it adds to an interval. */
#ifndef INDEPENDENT_LINK_H
#define INDEPENDENT_LINK_H

#include "guxhamole.h"

/* The first named end and the second; 255, 255 where there is no link. */
struct independent_link {
    uint8_t from, to;
};

struct independent_link independent_ends(unsigned from, unsigned to);
struct independent_link independent_no_link(void);
int independent_has_link(struct independent_link link);

/* 10, 20 or 26, of the ends: one alone is 255, or they are not two regions of the book that are not linked already. */
int independent_ends_bad(unsigned regions, const uint8_t *parents, struct independent_link link);

/* The link of settings and of a book. */
struct independent_link independent_settings_link(const guxhamole_settings *settings);
struct independent_link independent_book_link(const guxhamole_book *book);

/* What an interval's size and records go by. */
struct independent_shape {
    unsigned regions, services;
    int linked;
};

struct independent_shape independent_settings_shape(const guxhamole_settings *settings);
struct independent_shape independent_shape_of(const guxhamole_book *book);

/* How many flows, and how many factors, an interval has; and how many bytes its records. */
size_t independent_places(struct independent_shape shape);
size_t independent_interval_bytes(struct independent_shape shape);

#endif
