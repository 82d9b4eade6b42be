/* Samples of results that are written out here, from the page of the rules alone: the figures, lots and money. */
#include "booking.h"

#include <string.h>

/* A number and the same with this added differ in the upper half alone. */
static const uint64_t UPPER = (uint64_t)1 << 32;

/* The sells of the figures. */
static void check_sells(void)
{
    stand_p1(7);
    expect_p1(1, p1);
    booked("P1: the result of 120, FIFO");
    stand_sell(0, 120, 7);
    expect_p1(0, (struct outcome){1800, 22000, 335700, BALANCE});
    booked("P1, not cash: the balance stays and there is no cash row");
    stand_sell(BOOK_FLAG_CASH + BOOK_FLAG_LIFO, 120, 7);
    expect(AT_TRADE, (struct outcome){1800, 19000, 338700, 1338700});
    expect_closed(11, LOT_11, 50, 0);
    expect_closed(10, LOT_10, 100, 30);
    expect_shares(SUMMARY, 30);
    expect_settled(1);
    booked("P2: the result of 120, LIFO");
    stand_sell(BOOK_FLAG_CASH, 150, 7);
    expect_both_closed((struct outcome){2250, 25000, 422250, 1422250});
    expect_shares(SUMMARY, 0);
    expect_settled(1);
    booked("P3: the result of 150, and no summary");
    stand_sell(BOOK_FLAG_CASH, 200, 7);
    expect_p4();
    booked("P4: the result of 200, and a lot of -50 on the same summary");
}

static void check_buys(void)
{
    stand_buy(BOOK_FLAG_CASH, 80, 6);
    expect_p5(p5);
    booked("P5: the result of a buy of 80 over a lot of -50");
    stand_buy(0, 20, 6);
    expect(21, (struct outcome){290, 400, -59190, BALANCE});
    expect_closed(10, 19, -50, -30);
    expect_shares(20, -30);
    expect_settled(0);
    booked("a buy closes a negative lot in part");
    stand_buy(0, 50, 6);
    expect(21, (struct outcome){725, 1000, -147225, BALANCE});
    expect_closed(10, 19, -50, 0);
    expect_shares(20, 0);
    expect_settled(0);
    booked("a buy closes a position");
}

/* A position that grows, or begins: no lot is closed. */
static void check_openings(void)
{
    stand("ABC", BID);
    add_figures();
    submit(BOOK_TMB, 0, 10, PRICE, 4);
    expect(AT_TRADE, (struct outcome){150, 0, -30650, BALANCE});
    expect_opened(10);
    expect_shares(SUMMARY, 160);
    expect_settled(0);
    booked("a buy closes no positive lot");
    stand("ABC", BID);
    add_lot(10, -50, 3000, 100);
    add_summary(-50);
    submit(BOOK_TMS, 0, 10, PRICE, 4);
    expect(21, (struct outcome){150, 0, 29350, BALANCE});
    expect_opened(-10);
    expect_shares(20, -60);
    expect_settled(0);
    booked("a sell closes no negative lot");
    stand("ABC", BID);
    submit(BOOK_TMB, BOOK_FLAG_CASH, 10, PRICE, 6);
    expect(STANDING, (struct outcome){150, 0, -30650, 969350});
    expect_opened(10);
    expect_new_summary(10);
    expect_settled(1);
    booked("a buy begins a position, 6 places free");
    book.length -= RECORD;
    not_booked("5 places free", BOOK_NO_ROOM);
    stand("ABC", BID);
    submit(BOOK_TMS, BOOK_FLAG_LIFO, 10, PRICE, 5);
    expect(STANDING, (struct outcome){150, 0, 29350, BALANCE});
    expect_opened(-10);
    expect_new_summary(-10);
    expect_settled(0);
    booked("a sell begins a position");
}

/* Lots on places 19 and 23, their summary, and a sell of 120 that closes the lot of 100 first. */
static void by_time(const char *name, uint64_t first, uint64_t second)
{
    stand("ABC", BID);
    add_lot(second, 50, 2500, 200);
    add_lot(first, 100, 2000, 100);
    add_summary(150);
    submit(BOOK_TMS, BOOK_FLAG_CASH, 120, PRICE, 5);
    expect(AT_TRADE, p1);
    expect_closed(first, 23, 100, 0);
    expect_closed(second, 19, 50, 30);
    expect_shares(SUMMARY, 30);
    expect_settled(1);
    booked(name);
}

/* The same, of one time: a sell of 60, which closes this lot and a part of the other one. */
static void of_one_time(const char *name, uint8_t flags, uint64_t first, uint64_t second)
{
    stand("ABC", BID);
    add_lot(second, 50, 2000, 100);
    add_lot(first, 50, 2000, 100);
    add_summary(100);
    submit(BOOK_TMS, flags, 60, PRICE, 5);
    expect(AT_TRADE, (struct outcome){900, 12000, 166600, BALANCE});
    expect_closed(first, 23, 50, 0);
    expect_closed(second, 19, 50, 40);
    expect_shares(SUMMARY, 40);
    expect_settled(0);
    booked(name);
}

/* Negative lots: 10 of -50 at 3,000 and 11 of -70 at 2,950, and a buy of 60 at 2,900. */
static void stand_shorts(uint8_t flags)
{
    stand("ABC", BID);
    add_lot(10, -50, 3000, 100);
    add_lot(11, -70, 2950, 200);
    add_summary(-120);
    submit(BOOK_TMB, flags, 60, 2900, 4);
}

static void check_order_of_lots(void)
{
    by_time("by time, and the lower number is first", 10, 11);
    by_time("by time, and the lower number is second", 11, 10);
    of_one_time("FIFO, lots of one time", 0, 10, 11);
    of_one_time("LIFO, lots of one time", BOOK_FLAG_LIFO, 11, 10);
    of_one_time("FIFO, lots of one time and a large number", 0, 11, UPPER + 10);
    of_one_time("LIFO, lots of one time and a large number", BOOK_FLAG_LIFO, UPPER + 10, 11);
    stand_shorts(0);
    expect(AT_TRADE, (struct outcome){870, 1100, -176470, BALANCE});
    expect_closed(10, LOT_10, -50, 0);
    expect_closed(11, LOT_11, -70, -60);
    expect_shares(SUMMARY, -60);
    expect_settled(0);
    booked("FIFO, negative lots");
    stand_shorts(BOOK_FLAG_LIFO);
    expect(AT_TRADE, (struct outcome){870, 600, -175970, BALANCE});
    expect_closed(11, LOT_11, -70, -10);
    expect_shares(SUMMARY, -60);
    expect_settled(0);
    booked("LIFO, negative lots: no row for the lot that is not needed");
}

/* Rows of other accounts, symbols and brokers, which stay as they are. */
static void check_others(void)
{
    uint8_t *row;
    stand_among_others();
    submit(BOOK_TMS, BOOK_FLAG_CASH, 120, PRICE, 5);
    expect(37, p1);
    expect_closed(10, 31, 100, 0);
    expect_closed(11, 35, 50, 30);
    expect_shares(36, 30);
    expect_settled(1);
    booked("lots of another account and of another symbol stay");
    stand_p1(5);
    row = add(&book, BOOK_KIND_BROKER);
    put(row, BOOK_AT_PARTY, 4, BROKER + 1);
    put(row_at(&book, AT_ACCOUNT), BOOK_AT_N1, 4, BROKER + 1);
    expect_p1(1, p1);
    memcpy(row_at(&book_after, AT_BROKER), row_at(&book, AT_BROKER), RECORD);
    row = row_at(&book_after, 32);
    put(row, BOOK_AT_N1, 4, 1);
    put(row, BOOK_AT_M1, 8, p1.commission);
    booked("the account's broker gains, and no other");
    stand("ABC", BID);
    add_completed(UPPER + TRADE, 1, 2000, 100);
    submit(BOOK_TMS, 0, 10, PRICE, 5);
    expect(19, (struct outcome){150, 0, 29350, BALANCE});
    expect_opened(-10);
    expect_new_summary(-10);
    expect_settled(0);
    booked("another trade's number differs in the upper half alone");
    ask(UPPER + UPPER + TRADE, PRICE, TIME);
    not_booked("and so does a number that no trade has", BOOK_RESULT_NO_TRADE);
}

static void expect_gain(uint64_t tax, int64_t settles)
{
    expect(21, (struct outcome){15, tax, settles, BALANCE + settles});
    expect_closed(10, 19, 1, 0);
    expect_shares(20, 0);
    expect_settled(1);
}

static void taxed(const char *name, uint32_t bought_at, uint8_t tax_status, uint64_t tax, int64_t settles)
{
    stand_gain(bought_at, tax_status, 4);
    expect_gain(tax, settles);
    booked(name);
}

static void stand_rated(uint32_t rate, uint32_t bought_at, uint8_t tax_status)
{
    stand_gain(bought_at, tax_status, 4);
    put(row_at(&book, AT_TAX_RATE), BOOK_AT_N1, 4, rate);
}

/* The same with tax status 1, if the customer's one rate is this. */
static void taxed_at(const char *name, uint32_t rate, uint32_t bought_at, uint64_t tax, int64_t settles)
{
    stand_rated(rate, bought_at, 1);
    expect_gain(tax, settles);
    booked(name);
}

/* The same with this tax status, if the tax is 0. */
static void rated(const char *name, uint32_t rate, uint32_t bought_at, uint8_t tax_status)
{
    stand_rated(rate, bought_at, tax_status);
    expect_gain(0, 2485);
    booked(name);
}

static void unrated(const char *name, uint32_t bought_at, uint8_t tax_status)
{
    stand_rated(0, bought_at, tax_status);
    not_booked(name, BOOK_RESULT_NO_TAX);
}

static void check_taxes(void)
{
    uint8_t *row;
    taxed("P7: a gain of 3", 2997, 1, 1, 2484);
    taxed("P7: a gain of 2", 2998, 1, 0, 2485);
    taxed("a gain of 3, tax status 2: the tax is recorded only", 2997, 2, 1, 2485);
    taxed("a gain of 2, tax status 2", 2998, 2, 0, 2485);
    taxed("a gain of 2, tax status 0", 2998, 0, 0, 2485);
    taxed("a gain of 1,000, tax status 0", 2000, 0, 0, 2485);
    taxed("a gain of 1,000, tax status 1", 2000, 1, 200, 2285);
    taxed("a gain of 1,000, tax status 2", 2000, 2, 200, 2485);
    taxed("no gain", 3000, 1, 0, 2485);
    taxed("a loss", 3001, 1, 0, 2485);
    taxed_at("half a cent of tax", 50000, 2999, 1, 2484);
    taxed_at("one cent and a half", 50000, 2997, 2, 2483);
    taxed_at("the whole gain", 100000, 2000, 1000, 1485);
    taxed_at("less than half a cent of tax", 49999, 2999, 0, 2485);
    stand_gain(2000, 1, 4);
    add_rate(CUSTOMER, TAX_RATE + 1, 30000);
    add_rate(CUSTOMER + 1, TAX_RATE + 2, 40000);
    row = add(&book, BOOK_KIND_CUSTOMER);
    put(row, BOOK_AT_PARTY, 4, CUSTOMER + 1);
    row[BOOK_AT_TYPE] = TIER;
    expect_gain(500, 1985);
    booked("the sum of the customer's rates");
}

/* A gain is refused where the rates sum to 0, and not where the tax does. */
static void check_rates_of_zero(void)
{
    rated("a gain of 1, rates of 1", 1, 2999, 1);
    rated("a gain of 1, rates of 1, tax status 2", 1, 2999, 2);
    unrated("a gain of 1, rates of 0", 2999, 1);
    unrated("a gain of 1, rates of 0, tax status 2", 2999, 2);
    unrated("a gain of 2,999, rates of 0", 1, 1);
    add_rate(CUSTOMER, TAX_RATE + 1, 0);
    not_booked("two rates of 0", BOOK_RESULT_NO_TAX);
    stand_rated(20000, 1, 1);
    memset(row_at(&book, AT_TAX_RATE + 1), 0, RECORD);
    not_booked("a gain of a customer without a rate", BOOK_RESULT_NO_TAX);
    rated("no gain, rates of 0", 0, 3000, 1);
    rated("a loss, rates of 0", 0, 3001, 1);
    rated("a loss, rates of 0, tax status 2", 0, 3001, 2);
    rated("a gain of 2, rates of 0, tax status 0", 0, 2998, 0);
    rated("a gain of 2,999, rates of 0, tax status 0", 0, 1, 0);
}

/* One share bought at this price, if the rate is this. */
static void buy_one(const char *name, uint32_t rate, uint32_t price, uint64_t commission, int64_t settles)
{
    stand_opening(BOOK_TMB, 1, price);
    put(row_at(&book, band_at(BOOK_TMB)), BOOK_AT_N3, 4, rate);
    expect_opening(1, commission, settles);
    booked(name);
}

static void check_commissions(void)
{
    buy_one("P6: 1 share at 100, rate 50", RATE, 100, 1, -601);
    buy_one("P6: 1 share at 99, rate 50", RATE, 99, 0, -599);
    buy_one("one cent and a half of commission", 5000, 3, 2, -505);
    buy_one("the whole value", 10000, 3000, 3000, -6500);
}

/* A result that finds this among the bands. */
static void searched(const struct search *search)
{
    const int64_t value = (int64_t)search->shares * PRICE, commission = (int64_t)search->commission;
    stand_opening(BOOK_TMS, search->shares, PRICE);
    set_bands(search);
    if (search->rate <= 0) {
        not_booked(search->name, search->rate == NO_BAND ? BOOK_RESULT_NO_BAND : BOOK_RESULT_NO_RATE);
        return;
    }
    expect_opening(-(int64_t)search->shares, search->commission, value - CHARGE - commission);
    booked(search->name);
}

/* Ten shares at 3,000, at a rate that this type alone has; if that is 0; and if the type's band is gone. */
static void of_type(const char *name, uint8_t type, int64_t shares, int64_t settles)
{
    stand_opening(type, 10, 3000);
    put(row_at(&book, band_at(type)), BOOK_AT_N3, 4, 60);
    expect_opening(shares, 180, settles);
    booked(name);
    put(row_at(&book, band_at(type)), BOOK_AT_N3, 4, 0);
    not_booked(name, BOOK_RESULT_NO_RATE);
    memset(row_at(&book, band_at(type)), 0, RECORD);
    not_booked(name, BOOK_RESULT_NO_BAND);
}

static void check_types(void)
{
    of_type("a market buy", BOOK_TMB, 10, -30680);
    of_type("a market sell", BOOK_TMS, -10, 29320);
    of_type("a limit buy", BOOK_TLB, 10, -30680);
    of_type("a limit sell", BOOK_TLS, -10, 29320);
    of_type("a stop loss", BOOK_TSL, -10, 29320);
}

static void check_charges(void)
{
    stand_opening(BOOK_TMS, 10, 3000);
    put(row_at(&book, charge_at(BOOK_TMS)), BOOK_AT_N1, 4, 0);
    expect_opening(-10, 150, 29350);
    booked("the trade's own charge, where the charge row has 0");
    put(row_at(&book, STANDING), BOOK_AT_N4, 4, 0);
    expect_opening(-10, 150, 29850);
    booked("a trade without a charge");
    stand_opening(BOOK_TMS, 1, 1);
    expect_opening(-1, 0, -499);
    booked("a sell that costs more than it brings");
}

void check_results(void)
{
    check_sells();
    check_buys();
    check_openings();
    check_order_of_lots();
    check_others();
    check_taxes();
    check_rates_of_zero();
    check_commissions();
    each_search(searched);
    check_types();
    check_charges();
    check_edges();
}
