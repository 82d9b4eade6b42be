/* Books and inputs for the digest, made by a generator of whole numbers: the same on every platform. */
#ifndef WORLD_H
#define WORLD_H

#include "book_row.h"

/* A number drawn from low to high. */
uint64_t drawn(uint64_t low, uint64_t high);

/* True once in so many times. */
int once_in(uint64_t times);

/* Draws as the generator of this number does from its beginning. */
void draw_anew(uint64_t number);

struct book {
    uint8_t *bytes;
    size_t length; /* in bytes */
    uint64_t brokers, customers, rates, accounts, securities;
    uint64_t exchanges; /* securities are on exchanges 1 to this */
    uint64_t trades;    /* the largest trade number that an order was given */
};

enum call { ORDER, RESULT, FEED, LOOKUP, CALLS };

/* A sound book of so many records, with rows that no call adds, and now and then a number at the end of its range. */
void make_book(struct book *book, size_t records);

/* Each changes a row that no call changes, so that the book is still sound: a band's rate is zero, or is no longer, or
   the band goes; a permission goes, or comes. */
void change_band(struct book *book);
void change_permission(struct book *book);

/* An input for a call on this book: some name what the book does not have. Answers its number of records. */
size_t make_input(enum call call, const struct book *book, uint8_t *input);

#endif
