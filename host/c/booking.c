/* See booking.h. */
#include "booking.h"

#include <string.h>

/* The result that is asked for. */
static struct {
    uint64_t id;
    uint32_t price, time;
} asked;

void ask(uint64_t id, uint32_t price, uint32_t time)
{
    uint8_t *row;
    asked.id = id;
    asked.price = price;
    asked.time = time;
    memset(&input, 0, sizeof input);
    row = add(&input, BOOK_KIND_RESULT);
    put(row, BOOK_AT_ID, 8, id);
    put(row, BOOK_AT_N1, 4, price);
    put(row, BOOK_AT_TIME, 4, time);
}

size_t places[BOOK_MOST_RECORDS];

/* How many of them have been taken. */
static size_t taken;

void places_from(size_t first)
{
    size_t n;
    for (n = 0; n < BOOK_MOST_RECORDS; n++)
        places[n] = first + n;
}

void add_trade(uint8_t type, uint8_t status, uint8_t flags, uint32_t shares)
{
    uint8_t *row = add(&book, BOOK_KIND_TRADE);
    row[BOOK_AT_TYPE] = type;
    row[BOOK_AT_STATUS] = status;
    row[BOOK_AT_FLAGS] = flags;
    put(row, BOOK_AT_PARTY, 4, ACCOUNT);
    put(row, BOOK_AT_ID, 8, TRADE);
    set_symbol(row, "ABC");
    put(row, BOOK_AT_N1, 4, shares);
    put(row, BOOK_AT_N2, 4, BID);
    put(row, BOOK_AT_N4, 4, CHARGE);
    put(row, BOOK_AT_M1, 8, ESTIMATE);
    put(row, BOOK_AT_TIME, 4, BEFORE);
    add_history(&book, TRADE, status, BEFORE);
}

void submit(uint8_t type, uint8_t flags, uint32_t shares, uint32_t price, size_t room)
{
    add_trade(type, BOOK_SBMT, flags, shares);
    places_from(book.length / RECORD);
    add_free(&book, room);
    ask(TRADE, price, TIME);
}

/* The one that is expected. */
static struct outcome outcome;

void expect(size_t trade, struct outcome expected)
{
    uint8_t *row;
    outcome = expected;
    taken = 0;
    memset(&answer_after, 0, sizeof answer_after);
    row = add(&answer_after, BOOK_KIND_RESULT);
    put(row, BOOK_AT_PARTY, 4, ACCOUNT);
    put(row, BOOK_AT_ID, 8, asked.id);
    put(row, BOOK_AT_SYMBOL, 8, outcome.tax);
    put(row, BOOK_AT_M1, 8, (uint64_t)outcome.balance);
    put(row, BOOK_AT_M2, 8, (uint64_t)outcome.settles);
    book_after = book;
    row = row_at(&book_after, trade);
    row[BOOK_AT_STATUS] = BOOK_CMPT;
    put(row, BOOK_AT_N3, 4, asked.price);
    put(row, BOOK_AT_M1, 8, outcome.commission);
    put(row, BOOK_AT_M2, 8, outcome.tax);
    put(row, BOOK_AT_TIME, 4, asked.time);
    row = row_at(&book_after, AT_BROKER);
    put(row, BOOK_AT_N1, 4, BROKER_TRADES + 1);
    put(row, BOOK_AT_M1, 8, BROKER_TOTAL + outcome.commission);
    put(row_at(&book_after, AT_ACCOUNT), BOOK_AT_M1, 8, (uint64_t)outcome.balance);
}

/* The next row that is added. */
static uint8_t *expect_added(uint8_t kind, uint64_t id)
{
    uint8_t *row = row_at(&book_after, places[taken++]);
    row[BOOK_AT_KIND] = kind;
    put(row, BOOK_AT_ID, 8, id);
    return row;
}

static void expect_lot_history(uint64_t lot, int64_t before, int64_t after)
{
    uint8_t *row = expect_added(BOOK_KIND_LOT_HISTORY, lot);
    put(row, BOOK_AT_M2, 8, asked.id);
    put(row, BOOK_AT_N1, 4, (uint64_t)before);
    put(row, BOOK_AT_N2, 4, (uint64_t)after);
}

void expect_shares(size_t place, int64_t shares)
{
    uint8_t *row = row_at(&book_after, place);
    if (shares == 0)
        memset(row, 0, RECORD);
    else
        put(row, BOOK_AT_M1, 8, (uint64_t)shares);
}

void expect_closed(uint64_t lot, size_t place, int64_t before, int64_t after)
{
    expect_lot_history(lot, before, after);
    expect_shares(place, after);
}

static uint8_t *expect_position(uint8_t kind, uint64_t id, int64_t shares)
{
    uint8_t *row = expect_added(kind, id);
    put(row, BOOK_AT_PARTY, 4, ACCOUNT);
    set_symbol(row, "ABC");
    put(row, BOOK_AT_M1, 8, (uint64_t)shares);
    return row;
}

void expect_opened(int64_t shares)
{
    uint8_t *row;
    expect_lot_history(asked.id, 0, shares);
    row = expect_position(BOOK_KIND_LOT, asked.id, shares);
    put(row, BOOK_AT_N1, 4, asked.price);
    put(row, BOOK_AT_TIME, 4, asked.time);
}

void expect_new_summary(int64_t shares)
{
    expect_position(BOOK_KIND_SUMMARY, 0, shares);
}

void expect_settled(int cash)
{
    uint8_t *row;
    set_history(row_at(&book_after, places[taken++]), asked.id, BOOK_CMPT, asked.time);
    row = expect_added(BOOK_KIND_SETTLEMENT, asked.id);
    row[BOOK_AT_FLAGS] = cash ? BOOK_FLAG_CASH : 0;
    put(row, BOOK_AT_M1, 8, (uint64_t)outcome.settles);
    put(row, BOOK_AT_TIME, 4, asked.time + DUE_AFTER);
    if (!cash)
        return;
    row = expect_added(BOOK_KIND_CASH, asked.id);
    put(row, BOOK_AT_M1, 8, (uint64_t)outcome.settles);
    put(row, BOOK_AT_TIME, 4, asked.time);
}

void booked(const char *name)
{
    done(name, BOOK_KIND_RESULT);
}

void not_booked(const char *name, int32_t status)
{
    refused(name, BOOK_KIND_RESULT, RECORD, status);
}

void stand_sell(uint8_t flags, uint32_t shares, size_t room)
{
    stand("ABC", BID);
    add_figures();
    submit(BOOK_TMS, flags, shares, PRICE, room);
}

const struct outcome p1 = {1800, 22000, 335700, 1335700};

void expect_p1(int cash, struct outcome expected)
{
    expect(AT_TRADE, expected);
    expect_closed(10, LOT_10, 100, 0);
    expect_closed(11, LOT_11, 50, 30);
    expect_shares(SUMMARY, 30);
    expect_settled(cash);
}

void stand_p1(size_t room)
{
    stand_sell(BOOK_FLAG_CASH, 120, room);
}

void expect_both_closed(struct outcome expected)
{
    expect(AT_TRADE, expected);
    expect_closed(10, LOT_10, 100, 0);
    expect_closed(11, LOT_11, 50, 0);
}

const struct outcome p4 = {3000, 25000, 571500, 1571500};

void expect_p4(void)
{
    expect_both_closed(p4);
    expect_opened(-50);
    expect_shares(SUMMARY, -50);
    expect_settled(1);
}

void stand_buy(uint8_t flags, uint32_t shares, size_t room)
{
    stand("ABC", BID);
    add_lot(10, -50, 3000, 100);
    add_summary(-50);
    submit(BOOK_TMB, flags, shares, 2900, room);
}

const struct outcome p5 = {1160, 1000, -234660, 765340};

void expect_p5(struct outcome expected)
{
    expect(21, expected);
    expect_closed(10, 19, -50, 0);
    expect_opened(30);
    expect_shares(20, 30);
    expect_settled(1);
}

void stand_gain(uint32_t bought_at, uint8_t tax_status, size_t room)
{
    stand("ABC", BID);
    row_at(&book, AT_ACCOUNT)[BOOK_AT_TYPE] = tax_status;
    add_lot(10, 1, bought_at, 100);
    add_summary(1);
    submit(BOOK_TMS, BOOK_FLAG_CASH, 1, PRICE, room);
}

void stand_opening(uint8_t type, uint32_t shares, uint32_t price)
{
    stand("ABC", BID);
    submit(type, 0, shares, price, 5);
}

void expect_opening(int64_t shares, uint64_t commission, int64_t settles)
{
    expect(STANDING, (struct outcome){commission, 0, settles, BALANCE});
    expect_opened(shares);
    expect_new_summary(shares);
    expect_settled(0);
}
