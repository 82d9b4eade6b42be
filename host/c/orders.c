/* Samples of orders that are written out here, from the page of the rules alone. */
#include "ordering.h"

#include <string.h>

/* A TMS on the book of the figures. */
static void sell(const char *name, uint8_t flags, uint32_t shares, struct estimate estimate)
{
    stand_figures();
    ask_order("ABC", BOOK_TMS, flags, shares, 0);
    expect_market(12, flags, estimate, 25, 26);
    ordered(name);
}

static void check_figures(void)
{
    const struct estimate lifo = {3000, 1800, 265000, 360000, 19000};
    const struct estimate all = {3000, 2250, 325000, 450000, 25000};
    const struct estimate more = {3000, 3000, 325000, 450000, 25000};
    const struct estimate short_lot = {2900, 1160, 145000, 150000, 1000};
    const struct estimate none = {3000, 1800, 0, 0, 0};
    sell("P1: an order of 120, FIFO", 0, 120, at_last);
    sell("P1, cash", BOOK_FLAG_CASH, 120, at_last);
    sell("P2: an order of 120, LIFO", BOOK_FLAG_LIFO, 120, lifo);
    sell("P2, cash", BOOK_FLAG_CASH + BOOK_FLAG_LIFO, 120, lifo);
    sell("P3: an order of 150", 0, 150, all);
    sell("P4: an order of 200, of which 150 close lots", 0, 200, more);
    stand("ABC", 2900);
    add_lot(10, -50, 3000, 100);
    add_summary(-50);
    add_free(&book, 3);
    ask_order("ABC", BOOK_TMB, 0, 80, 0);
    expect_market(11, 0, short_lot, 21, 22);
    ordered("P5: an order to buy 80 over a lot of -50");
    stand_figures();
    ask_order("ABC", BOOK_TMB, 0, 120, 0);
    expect_market(12, 0, none, 25, 26);
    ordered("a buy closes no positive lot");
}

static void check_lots(void)
{
    stand("ABC", 3000);
    add_lot(10, 50, 2500, 200);
    add_lot(11, 100, 2000, 100);
    add_summary(150);
    add_free(&book, 2);
    ask_order("ABC", BOOK_TMS, 0, 120, 0);
    expect_market(12, 0, at_last, 25, 26);
    ordered("lots by time and not by number");
    stand_among_others();
    add_free(&book, 2);
    ask_order("ABC", BOOK_TMS, 0, 120, 0);
    expect_market(12, 0, at_last, 37, 38);
    ordered("lots of another account and of another symbol stay out");
}

/* Lots of one time: FIFO begins with the lower number, LIFO with the higher. */
static void check_ties(void)
{
    const struct estimate lower = {3000, 15, 2000, 3000, 200};
    const struct estimate higher = {3000, 15, 2500, 3000, 100};
    stand("ABC", 3000);
    add_lot(11, 50, 2500, 100);
    add_lot(10, 100, 2000, 100);
    add_summary(150);
    add_free(&book, 2);
    ask_order("ABC", BOOK_TMS, 0, 1, 0);
    expect_market(12, 0, lower, 25, 26);
    ordered("FIFO, lots of one time");
    ask_order("ABC", BOOK_TMS, BOOK_FLAG_LIFO, 1, 0);
    expect_market(12, BOOK_FLAG_LIFO, higher, 25, 26);
    ordered("LIFO, lots of one time");
}

/* One share bought at this price, without lots. */
static void buy_one(const char *name, uint32_t price, uint32_t commission)
{
    const struct estimate estimate = {price, commission, 0, 0, 0};
    stand("ABC", price);
    add_free(&book, 2);
    ask_order("ABC", BOOK_TMB, 0, 1, 0);
    expect_market(1, 0, estimate, STANDING, STANDING + 1);
    ordered(name);
}

/* One share sold at 3,000 that was bought at this price, by an account of this tax status. */
static void gain(uint32_t bought_at, uint8_t tax_status)
{
    stand("ABC", 3000);
    row_at(&book, AT_ACCOUNT)[BOOK_AT_TYPE] = tax_status;
    add_lot(10, 1, bought_at, 100);
    add_summary(1);
    add_free(&book, 2);
    ask_order("ABC", BOOK_TMS, 0, 1, 0);
}

static void taxed(const char *name, uint32_t bought_at, uint8_t tax_status, uint64_t tax)
{
    const struct estimate estimate = {3000, 15, bought_at, 3000, tax};
    gain(bought_at, tax_status);
    expect_market(11, 0, estimate, 21, 22);
    ordered(name);
}

/* The same, if the customer's one rate is this and the tax is 0. */
static void rated(const char *name, uint32_t rate, uint32_t bought_at, uint8_t tax_status)
{
    const struct estimate estimate = {3000, 15, bought_at, 3000, 0};
    gain(bought_at, tax_status);
    put(row_at(&book, AT_TAX_RATE), BOOK_AT_N1, 4, rate);
    expect_market(11, 0, estimate, 21, 22);
    ordered(name);
}

static void unrated(const char *name, uint32_t bought_at, uint8_t tax_status)
{
    gain(bought_at, tax_status);
    put(row_at(&book, AT_TAX_RATE), BOOK_AT_N1, 4, 0);
    not_ordered(name, BOOK_ORDER_NO_TAX);
}

static void check_cents(void)
{
    buy_one("P6: 1 share at 100, rate 50", 100, 1);
    buy_one("P6: 1 share at 99, rate 50", 99, 0);
    taxed("P7: a gain of 3", 2997, 1, 1);
    taxed("P7: a gain of 2", 2998, 1, 0);
    taxed("a gain of 3, tax status 2", 2997, 2, 1);
    taxed("a gain of 2, tax status 2", 2998, 2, 0);
    taxed("a gain of 2, tax status 0", 2998, 0, 0);
    taxed("a gain of 1,000, tax status 0", 2000, 0, 0);
    taxed("no gain", 3000, 1, 0);
    taxed("a loss", 3001, 1, 0);
}

/* A gain is refused where the rates sum to 0, and not where the tax does. */
static void check_rates_of_zero(void)
{
    rated("a gain of 1, rates of 1", 1, 2999, 1);
    rated("a gain of 1, rates of 1, tax status 2", 1, 2999, 2);
    rated("less than half a cent of tax", 49999, 2999, 1);
    unrated("a gain of 1, rates of 0", 2999, 1);
    unrated("a gain of 1, rates of 0, tax status 2", 2999, 2);
    unrated("a gain of 2,999, rates of 0", 1, 1);
    gain(1, 1);
    memset(row_at(&book, AT_TAX_RATE + 1), 0, RECORD);
    not_ordered("a gain of a customer without a rate", BOOK_ORDER_NO_TAX);
    rated("no gain, rates of 0", 0, 3000, 1);
    rated("a loss, rates of 0", 0, 3001, 1);
    rated("a loss, rates of 0, tax status 2", 0, 3001, 2);
    rated("a gain of 2, rates of 0, tax status 0", 0, 2998, 0);
    rated("a gain of 2,999, rates of 0, tax status 0", 0, 1, 0);
}

/* An order that makes this gain. */
static void large_gain(const struct gain *gain, uint8_t type, uint8_t tax_status)
{
    const struct figures figures = figures_of(gain, type);
    const struct estimate estimate = {
        figures.price, figures.commission, figures.bought, figures.sold, gain->tax};
    stand_large(gain, type, tax_status);
    add_free(&book, 2);
    ask_order("ABC", type, 0, gain->shares, 0);
    expect_market(12, 0, estimate, 25, 26);
    ordered(gain->name);
}

/* One share of this symbol, which has a security, bought. */
static void buy_of(const char *letters)
{
    stand("ABCDEFG", 3000);
    add_free(&book, 2);
    ask_order(letters, BOOK_TMB, 0, 1, 0);
}

static void check_symbols(void)
{
    const struct estimate estimate = {3000, 15, 0, 0, 0};
    buy_of("ABCDEFG");
    expect_market(1, 0, estimate, STANDING, STANDING + 1);
    ordered("P9: an order with a symbol of 7 letters");
    buy_of("ABCDEFGH");
    not_ordered("P9: an order with a symbol of 8 letters", BOOK_BAD_INPUT);
    buy_of("ABCDEF");
    not_ordered("a security's symbol without its last letter", BOOK_ORDER_NO_SECURITY);
    stand_figures();
    ask_order("ABC", BOOK_TMS, 0, 120, 0);
    input.bytes[BOOK_AT_SYMBOL + 4] = 'X';
    not_ordered("an order with a stray byte after the symbol's zero", BOOK_BAD_INPUT);
    input.bytes[BOOK_AT_SYMBOL + 4] = 0;
    input.bytes[BOOK_AT_SYMBOL + 7] = 'X';
    not_ordered("an order with a stray byte on the symbol's fence", BOOK_BAD_INPUT);
}

static void check_places(void)
{
    stand_with_holes();
    ask_order("ABC", BOOK_TLS, 0, 120, 2900);
    expect_waiting(12, at_bid, 16, 21, 26);
    ordered("trade, history and request on the lowest free places");
    ask_order("ABC", BOOK_TSL, 0, 120, 2900);
    expect_waiting(12, at_bid, 16, 21, 26);
    ordered("a stop loss waits and sells");
    ask_order("ABC", BOOK_TLB, 0, 120, 2900);
    expect_waiting(12, (struct estimate){2900, 1740, 0, 0, 0}, 16, 21, 26);
    ordered("a limit buy waits and buys");
    ask_order("ABC", BOOK_TMS, 0, 120, 0);
    expect_market(12, 0, at_last, 16, 21);
    ordered("a market order is submitted and has no request");
}

static void check_roll_back(void)
{
    stand_figures();
    ask_order("ABC", BOOK_TMS, BOOK_FLAG_ROLL_BACK, 120, 0);
    expect_answer(12, at_last);
    ordered("a market order rolled back");
    ask_order("ABC", BOOK_TLS, BOOK_FLAG_ROLL_BACK + BOOK_FLAG_CASH, 120, 2900);
    expect_answer(12, at_bid);
    ordered("a limit order rolled back");
    ask_order("ABC", BOOK_TMS, BOOK_FLAG_ROLL_BACK + BOOK_FLAG_LIFO, 120, 0);
    expect_answer(12, (struct estimate){3000, 1800, 265000, 360000, 19000});
    ordered("a LIFO order rolled back");
    book.length -= 2 * RECORD;
    not_ordered("an order rolled back, without room", BOOK_NO_ROOM);
}

static void check_room(void)
{
    stand_figures();
    ask_order("ABC", BOOK_TLS, 0, 120, 2900);
    expect_waiting(12, at_bid, 25, 26, 27);
    ordered("a limit order, 3 places free");
    book.length -= RECORD;
    not_ordered("a limit order, 2 places free", BOOK_NO_ROOM);
    ask_order("ABC", BOOK_TMS, 0, 120, 0);
    expect_market(12, 0, at_last, 25, 26);
    ordered("a market order, 2 places free");
    book.length -= RECORD;
    not_ordered("a market order, 1 place free", BOOK_NO_ROOM);
    book.length -= RECORD;
    not_ordered("a market order, no place free", BOOK_NO_ROOM);
}

/* A book that has trades 10 and this one, in this order, and then 7; the order's number, or 0 if it is refused. */
static void number_after(const char *name, uint64_t largest, uint64_t number)
{
    const struct estimate estimate = {3000, 15, 0, 0, 0};
    stand("ABC", 3000);
    add_completed(10, 1, 2000, 100);
    add_completed(largest, 1, 2000, 100);
    add_completed(7, 1, 2000, 100);
    add_free(&book, 2);
    ask_order("ABC", BOOK_TMS, 0, 1, 0);
    if (number == 0) {
        not_ordered(name, BOOK_OVER_LIMIT);
        return;
    }
    expect_market(number, 0, estimate, STANDING + 9, STANDING + 10);
    ordered(name);
}

static void check_numbers(void)
{
    buy_one("the first trade of a book is number 1", 3000, 15);
    number_after("one more than the largest number", 400, 401);
    number_after("the largest number there is", MOST_NUMBER - 1, MOST_NUMBER);
    number_after("a number above it", MOST_NUMBER, 0);
}

/* An order that finds this among the bands. */
static void searched(const struct search *search)
{
    stand("ABC", 3000);
    set_bands(search);
    add_free(&book, 2);
    ask_order("ABC", BOOK_TMS, 0, search->shares, 0);
    if (search->rate <= 0) {
        not_ordered(search->name, search->rate == NO_BAND ? BOOK_ORDER_NO_BAND : BOOK_ORDER_NO_RATE);
        return;
    }
    expect_market(1, 0, (struct estimate){3000, search->commission, 0, 0, 0}, STANDING, STANDING + 1);
    put(answer_after.bytes, BOOK_AT_N2, 4, (uint64_t)search->rate);
    ordered(search->name);
}

/* An order of this type, if its band has a rate of 0, and if that band is gone and the other types' are there. */
static void without_rate(const char *name, uint8_t type)
{
    stand("ABC", 3000);
    add_free(&book, 3);
    ask_order("ABC", type, 0, 10, type > BOOK_TMS ? 2900 : 0);
    put(row_at(&book, band_at(type)), BOOK_AT_N3, 4, 0);
    not_ordered(name, BOOK_ORDER_NO_RATE);
    memset(row_at(&book, band_at(type)), 0, RECORD);
    not_ordered(name, BOOK_ORDER_NO_BAND);
}

static void check_bands(void)
{
    each_search(searched);
    without_rate("a market buy without a rate", BOOK_TMB);
    without_rate("a market sell without a rate", BOOK_TMS);
    without_rate("a limit buy without a rate", BOOK_TLB);
    without_rate("a limit sell without a rate", BOOK_TLS);
    without_rate("a stop loss without a rate", BOOK_TSL);
}

static void check_charges(void)
{
    stand("ABC", 3000);
    add_free(&book, 2);
    memset(row_at(&book, charge_at(BOOK_TMS)), 0, RECORD);
    ask_order("ABC", BOOK_TMS, 0, 1000, 0);
    not_ordered("no charge", BOOK_ORDER_NO_CHARGE);
    ask_order("ABC", BOOK_TMS, 0, 1001, 0);
    not_ordered("no charge and no band", BOOK_ORDER_NO_BAND);
    ask_order("ABC", BOOK_TMS, BOOK_FLAG_ROLL_BACK, 1001, 0);
    not_ordered("the same, rolled back", BOOK_ORDER_NO_BAND);
    put(row_at(&book, band_at(BOOK_TMS)), BOOK_AT_N2, 4, 1001);
    put(row_at(&book, band_at(BOOK_TMS)), BOOK_AT_N3, 4, 0);
    not_ordered("the same, with a band whose rate is 0", BOOK_ORDER_NO_RATE);
}

/* An order with a gain of 1,000 on a book without a free place, in which this is the largest number. */
static void crowd(uint64_t largest)
{
    stand("ABC", 3000);
    add_lot(largest, 1, 2000, 100);
    add_summary(1);
    ask_order("ABC", BOOK_TMS, 0, 1, 0);
}

/* Each fault comes before those that were there already. The band's is that this field has this value. */
static void check_order_of_checking(const char *name, size_t at, uint32_t value, int32_t status)
{
    crowd(MOST_NUMBER - 1);
    not_ordered("no room", BOOK_NO_ROOM);
    crowd(MOST_NUMBER);
    not_ordered("and no number", BOOK_OVER_LIMIT);
    put(row_at(&book, charge_at(BOOK_TMS)), BOOK_AT_N1, 4, 0);
    not_ordered("and a charge of 0", BOOK_ORDER_NO_CHARGE);
    put(row_at(&book, band_at(BOOK_TMS)), at, 4, value);
    not_ordered(name, status);
    put(row_at(&book, AT_TAX_RATE), BOOK_AT_N1, 4, 0);
    not_ordered("and a gain with rates of 0", BOOK_ORDER_NO_TAX);
    set_symbol(input.bytes, "ABD");
    not_ordered("and no such security", BOOK_ORDER_NO_SECURITY);
    set_executor(EXECUTOR);
    not_ordered("and an executor without a permission", BOOK_ORDER_NOT_PERMITTED);
    put(input.bytes, BOOK_AT_PARTY, 4, ACCOUNT + 1);
    not_ordered("and no such account", BOOK_ORDER_NO_ACCOUNT);
    put(input.bytes, BOOK_AT_N2, 4, 1);
    not_ordered("and a market order with a bid", BOOK_BAD_INPUT);
    refuses_first(BOOK_KIND_ORDER);
}

/* One field of a good limit order broken. */
static void broken(const char *name, size_t at, size_t width, uint64_t value)
{
    stand_figures();
    ask_order("ABC", BOOK_TLS, 0, 120, 2900);
    put(input.bytes, at, width, value);
    not_ordered(name, BOOK_BAD_INPUT);
}

static void check_fields(void)
{
    broken("an order of another kind", BOOK_AT_KIND, 1, BOOK_KIND_RESULT);
    broken("trade type 0", BOOK_AT_TYPE, 1, 0);
    broken("trade type 6", BOOK_AT_TYPE, 1, 6);
    broken("flag 8", BOOK_AT_FLAGS, 1, 8);
    broken("account 0", BOOK_AT_PARTY, 4, 0);
    broken("account 1,000,000,000", BOOK_AT_PARTY, 4, 1000000000);
    broken("an order of no share", BOOK_AT_N1, 4, 0);
    broken("an order of 1,000,000 shares", BOOK_AT_N1, 4, 1000000);
    broken("a limit order without a bid", BOOK_AT_N2, 4, 0);
    broken("a bid of 100,000,000", BOOK_AT_N2, 4, 100000000);
    broken("an executor of 1,000,000,000", BOOK_AT_N3, 4, 1000000000);
    broken("a time too late", BOOK_AT_TIME, 4, 4000000001u);
    broken("an unused status", BOOK_AT_STATUS, 1, 1);
    broken("an unused number", BOOK_AT_ID, 8, 1);
    broken("an unused n4", BOOK_AT_N4, 4, 1);
    broken("an unused n5", BOOK_AT_N5, 4, 1);
}

static void begin_good(void)
{
    stand_figures();
    ask_order("ABC", BOOK_TMS, 0, 120, 0);
}

/* The largest book there may be, with its last three places free. */
static void check_largest(void)
{
    stand("ABC", 3000);
    add_figures();
    fill_up(3);
    ask_order("ABC", BOOK_TLS, 0, 120, 2900);
    expect_waiting(12, at_bid, BOOK_MOST_RECORDS - 3, BOOK_MOST_RECORDS - 2, BOOK_MOST_RECORDS - 1);
    ordered("an order on a book of 4,096 records");
}

void check_orders(void)
{
    check_figures();
    check_lots();
    check_ties();
    check_cents();
    check_rates_of_zero();
    each_gain(large_gain);
    check_symbols();
    check_places();
    check_roll_back();
    check_room();
    check_numbers();
    check_bands();
    check_charges();
    check_order_of_checking("and a rate of 0", BOOK_AT_N3, 0, BOOK_ORDER_NO_RATE);
    check_order_of_checking("and no band, as it begins with 2 shares", BOOK_AT_N1, 2, BOOK_ORDER_NO_BAND);
    check_fields();
    refuses_lengths(BOOK_KIND_ORDER, begin_good, 1, 1);
    refuses_permissions(BOOK_KIND_ORDER, begin_good, ACCOUNT, 1);
    check_largest();
}
