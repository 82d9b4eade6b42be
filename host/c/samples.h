/* What samples are written out with. A place of a book is counted from 0. */
#ifndef SAMPLES_H
#define SAMPLES_H

#include "book_row.h"
#include "check.h"

enum { RECORD = BOOK_RECORD_SIZE, TOO_MANY = BOOK_MOST_RECORDS + 1 };

/* One who orders for an account. No other row has this number. */
enum { EXECUTOR = 5 };

struct rows {
    uint8_t bytes[TOO_MANY * RECORD];
    size_t length;
};

/* What a sample is given, and what is expected of it. Each sample fills them anew. */
extern struct rows book, input, book_after, answer_after;

void begin(void);

/* Writes a number of four bytes or eight. */
void put(uint8_t *record, size_t at, size_t width, uint64_t value);
uint8_t *row_at(struct rows *rows, size_t place);
uint8_t *add(struct rows *rows, uint8_t kind);
void add_free(struct rows *rows, size_t count);
void set_symbol(uint8_t *record, const char *letters);
void set_history(uint8_t *row, uint64_t id, uint8_t status, uint32_t time);
void add_history(struct rows *rows, uint64_t id, uint8_t status, uint32_t time);
uint8_t *add_permission(uint32_t account, uint32_t executor);

/* Has the call of these input records run on the sample, which shall be accepted, or refused with this status. */
void done(const char *name, uint8_t kind);
void refused(const char *name, uint8_t kind, size_t answer_length, int32_t status);

/* Has the call refuse wrong lengths of each area. Its input is 1 record to so many, and has so many answers for each;
   the function makes a good book and a good input of one record. */
void refuses_lengths(uint8_t kind, void (*begin_good)(void), size_t most_inputs, size_t answers_for_each);

/* Has the call refuse books that are not sound by a permission. The function makes a good book that has this account
   and not the next one, and a good input of one record, which has so many answers. */
void refuses_permissions(uint8_t kind, void (*begin_good)(void), uint32_t account, size_t answers);

/* The samples of orders, of orders by executors and of results; areas of no bytes and of more than there are; and what
   book_row.h offers. */
void check_orders(void);
void check_executors(void);
void check_results(void);
void check_areas(void);
void check_rows(void);

#endif
