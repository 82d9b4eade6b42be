/* Samples of results that are written out here, from the page of the rules alone: places and room, limits, refusals,
   calls in turn, and the largest books. */
#include "booking.h"

#include <string.h>

static const int64_t MOST_MONEY = 999999999999999;
static const uint32_t MOST_TIME = 4000000000u;

/* P4, which adds seven rows and frees places 20 and 25. */
static void check_places(void)
{
    static const size_t free_places[] = {16, 21, 26, 28, 31, 33, 34};
    stand_with_holes();
    submit(BOOK_TMS, BOOK_FLAG_CASH, 200, PRICE, 1);
    put(add(&book, BOOK_KIND_BROKER), BOOK_AT_PARTY, 4, BROKER + 1);
    add_free(&book, 2);
    memcpy(places, free_places, sizeof free_places);
    expect(29, p4);
    expect_closed(10, 20, 100, 0);
    expect_closed(11, 25, 50, 0);
    expect_opened(-50);
    expect_shares(27, -50);
    expect_settled(1);
    booked("rows on the lowest free places, and not on those that the call freed");
    book.length -= RECORD;
    not_booked("nor do these count as room", BOOK_NO_ROOM);
}

static void check_room(void)
{
    stand_p1(5);
    expect_p1(1, p1);
    booked("120, FIFO, with 5 places free");
    stand_p1(4);
    not_booked("120, FIFO, with 4 places free", BOOK_NO_ROOM);
    stand_sell(0, 120, 4);
    expect_p1(0, (struct outcome){1800, 22000, 335700, BALANCE});
    booked("not cash, 4 places free");
    stand_sell(0, 120, 3);
    not_booked("not cash, 3 places free", BOOK_NO_ROOM);
    stand_sell(BOOK_FLAG_CASH, 150, 4);
    not_booked("two lots and the summary go, 4 places free", BOOK_NO_ROOM);
    stand_sell(BOOK_FLAG_CASH, 200, 6);
    not_booked("two lots go and one comes, 6 places free", BOOK_NO_ROOM);
    stand_p1(0);
    not_booked("no place free", BOOK_NO_ROOM);
}

/* P1, if the broker has so many trades and this commission total before. */
static void broker_has(const char *name, uint64_t trades, int64_t total, int32_t status)
{
    uint8_t *row;
    stand_p1(5);
    row = row_at(&book, AT_BROKER);
    put(row, BOOK_AT_N1, 4, trades);
    put(row, BOOK_AT_M1, 8, (uint64_t)total);
    if (status != BOOK_DONE) {
        not_booked(name, status);
        return;
    }
    expect_p1(1, p1);
    row = row_at(&book_after, AT_BROKER);
    put(row, BOOK_AT_N1, 4, trades + 1);
    put(row, BOOK_AT_M1, 8, (uint64_t)total + p1.commission);
    booked(name);
}

static void set_balance(int64_t balance)
{
    put(row_at(&book, AT_ACCOUNT), BOOK_AT_M1, 8, (uint64_t)balance);
}

static void check_balances(void)
{
    stand_p1(5);
    set_balance(MOST_MONEY - p1.settles);
    expect_p1(1, (struct outcome){1800, 22000, 335700, MOST_MONEY});
    booked("the largest balance");
    set_balance(MOST_MONEY - p1.settles + 1);
    not_booked("one cent more", BOOK_OVER_LIMIT);
    stand_sell(0, 120, 5);
    set_balance(MOST_MONEY);
    expect_p1(0, (struct outcome){1800, 22000, 335700, MOST_MONEY});
    booked("the largest balance, not cash");
    stand_buy(BOOK_FLAG_CASH, 80, 6);
    set_balance(-MOST_MONEY - p5.settles);
    expect_p5((struct outcome){1160, 1000, -234660, -MOST_MONEY});
    booked("the lowest balance");
    set_balance(-MOST_MONEY - p5.settles - 1);
    not_booked("one cent less", BOOK_OVER_LIMIT);
    stand_buy(BOOK_FLAG_CASH, 80, 6);
    set_balance(p5.settles / -2);
    expect_p5((struct outcome){1160, 1000, -234660, -117330});
    booked("a balance that changes its sign");
}

static void check_limits(void)
{
    broker_has("the most trades of a broker", 999999998, 0, BOOK_DONE);
    broker_has("one trade more", 999999999, 0, BOOK_OVER_LIMIT);
    broker_has("the largest commission total", 0, MOST_MONEY - 1800, BOOK_DONE);
    broker_has("one cent more in total", 0, MOST_MONEY - 1799, BOOK_OVER_LIMIT);
    stand_opening(BOOK_TMB, 1, 99);
    put(row_at(&book, AT_BROKER), BOOK_AT_M1, 8, (uint64_t)MOST_MONEY);
    expect_opening(1, 0, -599);
    put(row_at(&book_after, AT_BROKER), BOOK_AT_M1, 8, (uint64_t)MOST_MONEY);
    booked("no commission on the largest total");
    check_balances();
}

/* The largest figures that the ranges allow: 999,999 shares at 1, sold at 99,999,999, all of it commission and tax. */
static void check_largest_figures(void)
{
    uint8_t *row;
    stand("ABC", BID);
    add_lot(10, 999999, 1, 100);
    add_summary(999999);
    submit(BOOK_TMS, BOOK_FLAG_CASH, 999999, 99999999, 4);
    row = row_at(&book, band_at(BOOK_TMS));
    put(row, BOOK_AT_N2, 4, 999999);
    put(row, BOOK_AT_N3, 4, 10000);
    put(row_at(&book, AT_TAX_RATE), BOOK_AT_N1, 4, 100000);
    expect(21, (struct outcome){99999899000001, 99999898000002, -99999898000502, -99999897000502});
    expect_closed(10, 19, 999999, 0);
    expect_shares(20, 0);
    expect_settled(1);
    booked("the largest figures");
    stand_sell(BOOK_FLAG_CASH, 200, 7);
    put(row_at(&book, AT_TRADE), BOOK_AT_ID, 8, MOST_NUMBER);
    put(row_at(&book, AT_TRADE + 1), BOOK_AT_ID, 8, MOST_NUMBER);
    ask(MOST_NUMBER, PRICE, MOST_TIME);
    expect_p4();
    booked("the largest trade number and the latest time");
    stand_p1(5);
    ask(TRADE, PRICE, 0);
    expect_p1(1, p1);
    booked("the earliest time, before that of the lots");
}

/* A result that makes this gain; tax status 2 only records the tax. */
static void large_gain(const struct gain *gain, uint8_t type, uint8_t tax_status)
{
    const struct figures figures = figures_of(gain, type);
    const int64_t value = (int64_t)gain->shares * figures.price, side = type == BOOK_TMS ? 1 : -1;
    const int64_t taken = tax_status == 1 ? (int64_t)gain->tax : 0;
    const int64_t settles = side * value - CHARGE - (int64_t)figures.commission - taken;
    stand_large(gain, type, tax_status);
    submit(type, BOOK_FLAG_CASH, gain->shares, figures.price, 5);
    expect(AT_TRADE, (struct outcome){figures.commission, gain->tax, settles, BALANCE + settles});
    expect_closed(10, LOT_10, side * (int64_t)(gain->shares - 1), 0);
    expect_closed(11, LOT_11, side, 0);
    expect_shares(SUMMARY, 0);
    expect_settled(1);
    booked(gain->name);
}

/* Each fault comes before those that were there already. The band's is that this field has this value. */
static void check_order_of_checking(const char *name, size_t at, uint32_t value, int32_t status)
{
    stand_gain(2000, 1, 0);
    row_at(&book, STANDING)[BOOK_AT_TYPE] = BOOK_TMS;
    not_booked("no room", BOOK_NO_ROOM);
    put(row_at(&book, AT_BROKER), BOOK_AT_N1, 4, 999999999);
    not_booked("and the broker has all trades that it may have", BOOK_OVER_LIMIT);
    put(row_at(&book, band_at(BOOK_TMS)), at, 4, value);
    not_booked(name, status);
    put(row_at(&book, AT_TAX_RATE), BOOK_AT_N1, 4, 0);
    not_booked("and a gain with rates of 0", BOOK_RESULT_NO_TAX);
    ask(10, PRICE, TIME);
    not_booked("and the trade is completed", BOOK_RESULT_NOT_SUBMITTED);
    ask(TRADE + 1, PRICE, TIME);
    not_booked("and no such trade", BOOK_RESULT_NO_TRADE);
    put(input.bytes, BOOK_AT_N1, 4, 0);
    not_booked("and a price of 0", BOOK_BAD_INPUT);
    refuses_first(BOOK_KIND_RESULT);
}

/* One field of a good result broken. */
static void broken(const char *name, size_t at, size_t width, uint64_t value)
{
    stand_p1(5);
    put(input.bytes, at, width, value);
    not_booked(name, BOOK_BAD_INPUT);
}

static void check_fields(void)
{
    broken("a result of another kind", BOOK_AT_KIND, 1, BOOK_KIND_ORDER);
    broken("trade 0", BOOK_AT_ID, 8, 0);
    broken("trade 1,000,000,000,000,000", BOOK_AT_ID, 8, MOST_NUMBER + 1);
    broken("a price of 0", BOOK_AT_N1, 4, 0);
    broken("a price of 100,000,000", BOOK_AT_N1, 4, 100000000);
    broken("a result too late", BOOK_AT_TIME, 4, MOST_TIME + 1);
    broken("a result with a type", BOOK_AT_TYPE, 1, BOOK_TMS);
    broken("with a status", BOOK_AT_STATUS, 1, BOOK_SBMT);
    broken("with flags", BOOK_AT_FLAGS, 1, BOOK_FLAG_CASH);
    broken("with an account", BOOK_AT_PARTY, 4, ACCOUNT);
    broken("with a symbol", BOOK_AT_SYMBOL, 8, 'A');
    broken("with shares", BOOK_AT_N2, 4, 120);
    broken("with n3", BOOK_AT_N3, 4, PRICE);
    broken("with n4", BOOK_AT_N4, 4, CHARGE);
    broken("with m1", BOOK_AT_M1, 8, 1);
    broken("with m2", BOOK_AT_M2, 8, (uint64_t)1 << 63);
    broken("with n5", BOOK_AT_N5, 4, 1);
}

/* An order, its result, the result again, and a lookup, in turn on one book. Whoever ordered, the rest is the same,
   even where the permission is gone by then. */
static void check_in_turn(uint32_t executor)
{
    uint8_t *row;
    stand_p1(5);
    add_permission(ACCOUNT, EXECUTOR);
    put(row_at(&book, AT_SECURITY), BOOK_AT_N1, 4, PRICE);
    put(row_at(&book, AT_TRADE), BOOK_AT_N2, 4, PRICE);
    put(row_at(&book, AT_TRADE), BOOK_AT_M1, 8, p1.commission);
    book_after = book;
    memset(row_at(&book, AT_TRADE), 0, 2 * RECORD);
    memset(&input, 0, sizeof input);
    row = add(&input, BOOK_KIND_ORDER);
    row[BOOK_AT_TYPE] = BOOK_TMS;
    row[BOOK_AT_FLAGS] = BOOK_FLAG_CASH;
    put(row, BOOK_AT_PARTY, 4, ACCOUNT);
    set_symbol(row, "ABC");
    put(row, BOOK_AT_N1, 4, 120);
    put(row, BOOK_AT_N3, 4, executor);
    put(row, BOOK_AT_TIME, 4, BEFORE);
    row = add(&answer_after, BOOK_KIND_ORDER);
    put(row, BOOK_AT_ID, 8, TRADE);
    put(row, BOOK_AT_SYMBOL, 8, p1.tax);
    put(row, BOOK_AT_N1, 4, CHARGE);
    put(row, BOOK_AT_N2, 4, RATE);
    put(row, BOOK_AT_N3, 4, PRICE);
    put(row, BOOK_AT_M1, 8, 250000);
    put(row, BOOK_AT_M2, 8, 360000);
    done("an order of 120", BOOK_KIND_ORDER);
    book = book_after;
    ask(TRADE, PRICE, TIME);
    put(row_at(&book, band_at(BOOK_TMS)), BOOK_AT_N2, 4, 119);
    not_booked("and its result, if the band goes to 119 now", BOOK_RESULT_NO_BAND);
    put(row_at(&book, band_at(BOOK_TMS)), BOOK_AT_N2, 4, 1000);
    expect_p1(1, p1);
    booked("and its result");
    memset(row_at(&book, 32), 0, RECORD);
    expect_p1(1, p1);
    booked("and its result without the permission");
    book = book_after;
    not_booked("and the same result again", BOOK_RESULT_NOT_SUBMITTED);
    memset(&input, 0, sizeof input);
    put(add(&input, BOOK_KIND_LOOKUP), BOOK_AT_ID, 8, TRADE);
    memset(&answer_after, 0, sizeof answer_after);
    add_free(&answer_after, 2);
    memcpy(row_at(&answer_after, 0), row_at(&book, AT_TRADE), RECORD);
    memcpy(row_at(&answer_after, 1), row_at(&book, 30), RECORD);
    done("and a lookup", BOOK_KIND_LOOKUP);
}

/* Trade 12 waits at place 16, with its request at 18; places 19 to 24 are free. */
static void stand_waiting(void)
{
    uint8_t *row;
    stand("ABC", BID);
    add_trade(BOOK_TLB, BOOK_PNDG, BOOK_FLAG_CASH, 100);
    put(row_at(&book, STANDING), BOOK_AT_N2, 4, 500);
    row = add(&book, BOOK_KIND_REQUEST);
    row[BOOK_AT_TYPE] = BOOK_TLB;
    put(row, BOOK_AT_PARTY, 4, BROKER);
    put(row, BOOK_AT_ID, 8, TRADE);
    set_symbol(row, "ABC");
    put(row, BOOK_AT_N1, 4, 100);
    put(row, BOOK_AT_N2, 4, 500);
    add_free(&book, 6);
}

/* A feed of one share at this price, which submits so many trades. */
static void feed(const char *name, uint32_t price, uint32_t submitted)
{
    uint8_t *row;
    memset(&input, 0, sizeof input);
    row = add(&input, BOOK_KIND_FEED);
    set_symbol(row, "ABC");
    put(row, BOOK_AT_N1, 4, price);
    put(row, BOOK_AT_N2, 4, 1);
    put(row, BOOK_AT_TIME, 4, BEFORE);
    memset(&answer_after, 0, sizeof answer_after);
    row = add(&answer_after, BOOK_KIND_FEED);
    put(row, BOOK_AT_N1, 4, 1);
    put(row, BOOK_AT_N2, 4, submitted);
    book_after = book;
    row = row_at(&book_after, AT_SECURITY);
    put(row, BOOK_AT_N1, 4, price);
    put(row, BOOK_AT_M1, 8, 1);
    put(row, BOOK_AT_TIME, 4, BEFORE);
    if (submitted > 0) {
        row_at(&book_after, STANDING)[BOOK_AT_STATUS] = BOOK_SBMT;
        memset(row_at(&book_after, 18), 0, RECORD);
        set_history(row_at(&book_after, 19), TRADE, BOOK_SBMT, BEFORE);
    }
    done(name, BOOK_KIND_FEED);
    book = book_after;
}

/* P8, and the trade's result afterwards; the place that the feed freed serves it. */
static void check_after_feeds(void)
{
    static const size_t free_places[] = {18, 20, 21, 22, 23, 24};
    stand_waiting();
    feed("P8: TLB bid 500, fed 501", 501, 0);
    ask(TRADE, 500, TIME);
    not_booked("and its result, as it waits", BOOK_RESULT_NOT_SUBMITTED);
    stand_waiting();
    feed("P8: TLB bid 500, fed 500", 500, 1);
    ask(TRADE, 500, TIME);
    memcpy(places, free_places, sizeof free_places);
    expect(STANDING, (struct outcome){250, 0, -50750, 949250});
    expect_opened(100);
    expect_new_summary(100);
    expect_settled(1);
    booked("and its result, as it was submitted");
}

/* So many lots that with their histories they fill the largest book. In the order of FIFO they are of rising time, ten
   of them of one time; their numbers rise within one time, and fall from one to the next. */
enum { LOTS = 815, OF_ONE_TIME = 10, APART = 13, ALL_SHARES = 1629 };

static uint64_t number_of(size_t rank)
{
    return 2000 - OF_ONE_TIME * (rank / OF_ONE_TIME) + rank % OF_ONE_TIME;
}

/* 1, 2 or 3 shares. */
static int64_t shares_of(size_t rank)
{
    return 1 + (int64_t)(rank % 3);
}

static size_t rank_at(size_t turn)
{
    return APART * turn % LOTS;
}

/* Where the lot of each rank is. */
static size_t lot_at[LOTS];

static void stand_many(uint8_t flags, uint32_t shares)
{
    size_t turn, rank;
    stand("ABC", BID);
    put(row_at(&book, band_at(BOOK_TMS)), BOOK_AT_N2, 4, 999999);
    for (turn = 0; turn < LOTS; turn++) {
        rank = rank_at(turn);
        add_lot(number_of(rank), shares_of(rank), 2000, (uint32_t)(100 + rank / OF_ONE_TIME));
        lot_at[rank] = book.length / RECORD - 1;
    }
    add_summary(ALL_SHARES);
    submit(BOOK_TMS, flags, shares, PRICE, 0);
    book.length = BOOK_MOST_RECORDS * RECORD;
}

static void check_many_lots(void)
{
    size_t rank;
    stand_many(0, ALL_SHARES);
    expect(3277, (struct outcome){24435, 325800, 4536265, BALANCE});
    for (rank = 0; rank < LOTS; rank++)
        expect_closed(number_of(rank), lot_at[rank], shares_of(rank), 0);
    expect_shares(3276, 0);
    expect_settled(0);
    booked("815 lots closed on a book of 4,096 records, with as many free places as needed");
    book.length -= RECORD;
    not_booked("one place too few", BOOK_NO_ROOM);
    stand_many(BOOK_FLAG_LIFO, ALL_SHARES - 2);
    expect(3277, (struct outcome){24405, 325400, 4530695, BALANCE});
    for (rank = LOTS - 1; rank > 1; rank--)
        expect_closed(number_of(rank), lot_at[rank], shares_of(rank), 0);
    expect_closed(number_of(1), lot_at[1], 2, 1);
    expect_shares(3276, 2);
    expect_settled(0);
    booked("the same, LIFO, and one of them in part");
}

/* The largest book there may be, with its last places free. */
static void check_largest(void)
{
    stand_p1(0);
    fill_up(5);
    places_from(BOOK_MOST_RECORDS - 5);
    expect_p1(1, p1);
    booked("a result on a book of 4,096 records");
    stand_p1(0);
    fill_up(4);
    not_booked("and with a place too few", BOOK_NO_ROOM);
}

static void begin_good(void)
{
    stand_p1(5);
}

void check_edges(void)
{
    check_places();
    check_room();
    check_limits();
    check_largest_figures();
    each_gain(large_gain);
    check_order_of_checking("and a rate of 0", BOOK_AT_N3, 0, BOOK_RESULT_NO_RATE);
    check_order_of_checking("and no band, as it begins with 2 shares", BOOK_AT_N1, 2, BOOK_RESULT_NO_BAND);
    check_fields();
    refuses_lengths(BOOK_KIND_RESULT, begin_good, 1, 1);
    refuses_permissions(BOOK_KIND_RESULT, begin_good, ACCOUNT, 1);
    check_in_turn(0);
    check_in_turn(EXECUTOR);
    check_after_feeds();
    check_many_lots();
    check_largest();
}
