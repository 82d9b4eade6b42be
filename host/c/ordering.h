/* Orders: what one is asked with, and what it is expected to leave. */
#ifndef ORDERING_H
#define ORDERING_H

#include "figures.h"

/* The lots of the figures, and places 25 to 27 free. */
void stand_figures(void);

/* The input: an order of account 1, by its owner or by this executor. */
void ask_order(const char *letters, uint8_t type, uint8_t flags, uint32_t shares, uint32_t bid);
void set_executor(uint32_t executor);

struct estimate {
    uint32_t price;
    uint64_t commission, bought, sold, tax;
};

/* Of 120 shares sold from the lots of the figures, FIFO: at 3,000, the last price, and at a bid of 2,900. */
extern const struct estimate at_last, at_bid;

/* Expects this answer, and the book as it is. */
void expect_answer(uint64_t id, struct estimate estimate);

/* Expects a market order to be accepted: its trade and its history row on these places. */
void expect_market(uint64_t id, uint8_t flags, struct estimate estimate, size_t trade, size_t history);

/* The same for one that waits, and its request on the third place. */
void expect_waiting(uint64_t id, struct estimate estimate, size_t trade, size_t history, size_t request);

/* The order is accepted, or refused with this status. */
void ordered(const char *name);
void not_ordered(const char *name, int32_t status);

#endif
