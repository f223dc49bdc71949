/* Intervals to try the calls of interval records with, from make.h's seed: books and intervals of every size, their records in
   number order or in the earlier form's any, at any place, whole or damaged. */
#ifndef INTERVAL_TRIALS_H
#define INTERVAL_TRIALS_H

#include "interval_slices.h"

enum { INTERVAL_MOST = GUXHAMOLE_INTERVAL(8, 10, 0), TRIAL_BYTES = INTERVAL_MOST + 100 };

/* What the records are: the interval's, in number order or in another, or whatever damage made of them. */
enum form { UPWARD, SHUFFLED, DAMAGED };

struct trial {
    guxhamole_book book;
    enum form form;
    struct independent_interval interval;
    uint8_t records[TRIAL_BYTES];
    size_t length, at; /* of the records; the interval's place */
    struct lengths lent;
    size_t room;       /* for a writer and a rewriter */
};

size_t interval_length(const guxhamole_book *book);

/* The place of a record of the interval: 0 is the head, 1 the first region's; the additional link's comes after the last region's. */
size_t record_place(const struct trial *trial, size_t record);

/* A new book of this size with a window of 1, each region linked to the one before. Where `linked` isn't 0, and there is more than one
   region, it has the additional link too, between the first and the last, named in the order that the sign says; of two it is the only
   one. */
guxhamole_book book_of(unsigned regions, unsigned services, int linked);

/* An interval for the book, ranges aside. */
struct independent_interval any_interval(const guxhamole_book *book);

/* Writes the trial's interval at its place, in this order of its regions. */
void put_interval(struct trial *trial, const unsigned *order);

/* An order of the regions: upward, or any other where there is one. */
void any_order(unsigned regions, enum form form, unsigned *order);

/* The book of a random image, and an interval for it, ranges aside; as records with other bytes round them. */
void any_trial(struct trial *trial);

/* Damages the records, or asks for another place. */
void damage_records(struct trial *trial);

#endif
