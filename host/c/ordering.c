/* See ordering.h. */
#include "ordering.h"

#include <string.h>

void stand_figures(void)
{
    stand("ABC", 3000);
    add_figures();
    add_free(&book, 3);
}

void ask_order(const char *letters, uint8_t type, uint8_t flags, uint32_t shares, uint32_t bid)
{
    uint8_t *row;
    memset(&input, 0, sizeof input);
    row = add(&input, BOOK_KIND_ORDER);
    row[BOOK_AT_TYPE] = type;
    row[BOOK_AT_FLAGS] = flags;
    put(row, BOOK_AT_PARTY, 4, ACCOUNT);
    set_symbol(row, letters);
    put(row, BOOK_AT_N1, 4, shares);
    put(row, BOOK_AT_N2, 4, bid);
    put(row, BOOK_AT_TIME, 4, TIME);
}

void set_executor(uint32_t executor)
{
    put(input.bytes, BOOK_AT_N3, 4, executor);
}

const struct estimate at_last = {3000, 1800, 250000, 360000, 22000};
const struct estimate at_bid = {2900, 1740, 250000, 348000, 19600};

void expect_answer(uint64_t id, struct estimate estimate)
{
    uint8_t *row;
    memset(&answer_after, 0, sizeof answer_after);
    row = add(&answer_after, BOOK_KIND_ORDER);
    put(row, BOOK_AT_ID, 8, id);
    put(row, BOOK_AT_SYMBOL, 8, estimate.tax);
    put(row, BOOK_AT_N1, 4, charge_of(input.bytes[BOOK_AT_TYPE]));
    put(row, BOOK_AT_N2, 4, RATE);
    put(row, BOOK_AT_N3, 4, estimate.price);
    put(row, BOOK_AT_M1, 8, estimate.bought);
    put(row, BOOK_AT_M2, 8, estimate.sold);
    book_after = book;
}

/* Expects the trade on this place; type, account, symbol and shares are the input's. */
static void expect_trade(size_t place, uint64_t id, uint8_t status, uint8_t flags, struct estimate estimate)
{
    uint8_t *row = row_at(&book_after, place);
    row[BOOK_AT_KIND] = BOOK_KIND_TRADE;
    row[BOOK_AT_TYPE] = input.bytes[BOOK_AT_TYPE];
    row[BOOK_AT_STATUS] = status;
    row[BOOK_AT_FLAGS] = flags;
    put(row, BOOK_AT_PARTY, 4, ACCOUNT);
    put(row, BOOK_AT_ID, 8, id);
    memcpy(row + BOOK_AT_SYMBOL, input.bytes + BOOK_AT_SYMBOL, 8);
    memcpy(row + BOOK_AT_N1, input.bytes + BOOK_AT_N1, 4);
    put(row, BOOK_AT_N2, 4, estimate.price);
    put(row, BOOK_AT_N4, 4, charge_of(input.bytes[BOOK_AT_TYPE]));
    put(row, BOOK_AT_M1, 8, estimate.commission);
    put(row, BOOK_AT_TIME, 4, TIME);
}

void expect_market(uint64_t id, uint8_t flags, struct estimate estimate, size_t trade, size_t history)
{
    expect_answer(id, estimate);
    expect_trade(trade, id, BOOK_SBMT, flags, estimate);
    set_history(row_at(&book_after, history), id, BOOK_SBMT, TIME);
}

void expect_waiting(uint64_t id, struct estimate estimate, size_t trade, size_t history, size_t request)
{
    uint8_t *row = row_at(&book_after, request);
    expect_answer(id, estimate);
    expect_trade(trade, id, BOOK_PNDG, 0, estimate);
    set_history(row_at(&book_after, history), id, BOOK_PNDG, TIME);
    row[BOOK_AT_KIND] = BOOK_KIND_REQUEST;
    row[BOOK_AT_TYPE] = input.bytes[BOOK_AT_TYPE];
    put(row, BOOK_AT_PARTY, 4, BROKER);
    put(row, BOOK_AT_ID, 8, id);
    memcpy(row + BOOK_AT_SYMBOL, input.bytes + BOOK_AT_SYMBOL, 8);
    memcpy(row + BOOK_AT_N1, input.bytes + BOOK_AT_N1, 4);
    put(row, BOOK_AT_N2, 4, estimate.price);
}

void ordered(const char *name)
{
    done(name, BOOK_KIND_ORDER);
}

void not_ordered(const char *name, int32_t status)
{
    refused(name, BOOK_KIND_ORDER, RECORD, status);
}
