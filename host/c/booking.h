/* Results: what one is asked with, what it is expected to leave, and the books that several samples try one on. */
#ifndef BOOKING_H
#define BOOKING_H

#include "figures.h"

/* Trade 12. Its bid, estimated commission and time are such that a result shall not go by them. */
enum { TRADE = 12, CHARGE = 500, PRICE = 3000, BID = 2950, ESTIMATE = 1234, BEFORE = 250 };

/* The input: a result of this trade. */
void ask(uint64_t id, uint32_t price, uint32_t time);

/* The places where rows are added, in the order in which they are added. */
extern size_t places[BOOK_MOST_RECORDS];
void places_from(size_t first);

/* Two rows: trade 12 of account 1 and its history. */
void add_trade(uint8_t type, uint8_t status, uint8_t flags, uint32_t shares);

/* The same for a trade that is submitted, and so many free places; its result is asked for. */
void submit(uint8_t type, uint8_t flags, uint32_t shares, uint32_t price, size_t room);

struct outcome {
    uint64_t commission, tax;
    int64_t settles, balance;
};

/* Expects this answer, and the book as it is but for the trade at this place, the account and the broker. */
void expect(size_t trade, struct outcome expected);

/* Then, in the order in which rows are added: the lot of this number, at this place, is closed, in part if shares are
   left; a lot of so many shares is opened; a summary is added; history, settlement and, for a cash trade, the cash row
   are added. */
void expect_closed(uint64_t lot, size_t place, int64_t before, int64_t after);
void expect_opened(int64_t shares);
void expect_new_summary(int64_t shares);
void expect_settled(int cash);

/* Expects these shares of the row at this place, which goes if they are zero. */
void expect_shares(size_t place, int64_t shares);

/* The result is accepted, or refused with this status. */
void booked(const char *name);
void not_booked(const char *name, int32_t status);

/* The book of the figures, and a sell. Lot 10 is at place 19, lot 11 at 23, the summary at 24, trade 12 at 25, and
   places are free from 27 on. */
enum { LOT_10 = 19, LOT_11 = 23, SUMMARY = 24, AT_TRADE = 25 };
void stand_sell(uint8_t flags, uint32_t shares, size_t room);

/* P1, and what it says of the lots: lot 10 goes, lot 11 keeps 30. */
extern const struct outcome p1;
void stand_p1(size_t room);
void expect_p1(int cash, struct outcome expected);

/* Both lots of the figures go. */
void expect_both_closed(struct outcome expected);

extern const struct outcome p4;
void expect_p4(void);

/* A lot of -50 at 3,000 at place 19, its summary at 20, and a buy at 2,900 at 21; places are free from 23 on. */
void stand_buy(uint8_t flags, uint32_t shares, size_t room);

extern const struct outcome p5;
void expect_p5(struct outcome expected);

/* One share sold at 3,000 that was bought at this price, by an account of this tax status. Its lot is at place 19, the
   summary at 20, the trade at 21. */
void stand_gain(uint32_t bought_at, uint8_t tax_status, size_t room);

/* A trade of so many shares at this price, by an account without lots. It is at place 16, and 18 to 22 are free. */
void stand_opening(uint8_t type, uint32_t shares, uint32_t price);
void expect_opening(int64_t shares, uint64_t commission, int64_t settles);

/* The samples of results at the edges: places and room, limits, refusals, calls in turn, and the largest books. */
void check_edges(void);

#endif
