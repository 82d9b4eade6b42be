/* Rows in plain words. */
#ifndef WORDS_H
#define WORDS_H

#include "book_row.h"

enum { TEXT = 32 };

/* A number with so many decimals, its thousands apart. */
const char *decimal(int64_t number, int decimals, char text[TEXT]);

#define MONEY(cents) decimal(cents, 2, (char[TEXT]){0})
#define COUNT(number) decimal(number, 0, (char[TEXT]){0})

/* Prints what a row says, on one line. */
void say_row(const struct book_row *row);

/* Prints which rows came, went or changed, and gives their number. Places are counted from 0. */
size_t say_changes(const uint8_t *before, const uint8_t *after, size_t length);

#endif
