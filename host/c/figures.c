/* See figures.h. */
#include "figures.h"

#include <string.h>

const uint64_t MOST_NUMBER = 999999999999999u;

size_t band_at(uint8_t type)
{
    return AT_BANDS + type - BOOK_TMB;
}

size_t charge_at(uint8_t type)
{
    return AT_CHARGES + type - BOOK_TMB;
}

uint32_t charge_of(uint8_t type)
{
    return 250u * type;
}

void add_rate(uint32_t customer, uint32_t party, uint32_t rate)
{
    uint8_t *row = add(&book, BOOK_KIND_TAX_RATE);
    put(row, BOOK_AT_PARTY, 4, party);
    put(row, BOOK_AT_N1, 4, rate);
    row = add(&book, BOOK_KIND_CUSTOMER_RATE);
    put(row, BOOK_AT_PARTY, 4, customer);
    put(row, BOOK_AT_N1, 4, party);
}

static void set_band(uint8_t *row, struct band band)
{
    row[BOOK_AT_TYPE] = band.type;
    row[BOOK_AT_STATUS] = band.tier;
    row[BOOK_AT_FLAGS] = band.exchange;
    put(row, BOOK_AT_N1, 4, band.from);
    put(row, BOOK_AT_N2, 4, band.to);
    put(row, BOOK_AT_N3, 4, band.rate);
}

void stand(const char *letters, uint32_t last_price)
{
    uint8_t *row, type;
    begin();
    row = add(&book, BOOK_KIND_BROKER);
    put(row, BOOK_AT_PARTY, 4, BROKER);
    put(row, BOOK_AT_N1, 4, BROKER_TRADES);
    put(row, BOOK_AT_M1, 8, BROKER_TOTAL);
    row = add(&book, BOOK_KIND_CUSTOMER);
    put(row, BOOK_AT_PARTY, 4, CUSTOMER);
    row[BOOK_AT_TYPE] = TIER;
    add_rate(CUSTOMER, TAX_RATE, 20000);
    row = add(&book, BOOK_KIND_ACCOUNT);
    put(row, BOOK_AT_PARTY, 4, ACCOUNT);
    put(row, BOOK_AT_N1, 4, BROKER);
    put(row, BOOK_AT_N2, 4, CUSTOMER);
    row[BOOK_AT_TYPE] = 1;
    put(row, BOOK_AT_M1, 8, BALANCE);
    row = add(&book, BOOK_KIND_SECURITY);
    set_symbol(row, letters);
    row[BOOK_AT_TYPE] = EXCHANGE;
    put(row, BOOK_AT_N1, 4, last_price);
    for (type = BOOK_TMB; type <= BOOK_TSL; type++)
        set_band(add(&book, BOOK_KIND_BAND), (struct band){type, TIER, EXCHANGE, 1, 1000, RATE});
    for (type = BOOK_TMB; type <= BOOK_TSL; type++) {
        row = add(&book, BOOK_KIND_CHARGE);
        row[BOOK_AT_TYPE] = type;
        row[BOOK_AT_STATUS] = TIER;
        put(row, BOOK_AT_N1, 4, charge_of(type));
    }
}

void add_completed(uint64_t id, int64_t shares, uint32_t price, uint32_t time)
{
    uint8_t *row = add(&book, BOOK_KIND_TRADE);
    put(row, BOOK_AT_ID, 8, id);
    row[BOOK_AT_TYPE] = shares > 0 ? BOOK_TMB : BOOK_TMS;
    row[BOOK_AT_STATUS] = BOOK_CMPT;
    put(row, BOOK_AT_PARTY, 4, ACCOUNT);
    set_symbol(row, "ABC");
    put(row, BOOK_AT_N1, 4, (uint64_t)(shares > 0 ? shares : -shares));
    put(row, BOOK_AT_N2, 4, price);
    put(row, BOOK_AT_N3, 4, price);
    put(row, BOOK_AT_TIME, 4, time);
    add_history(&book, id, BOOK_CMPT, time);
    row = add(&book, BOOK_KIND_SETTLEMENT);
    put(row, BOOK_AT_ID, 8, id);
    put(row, BOOK_AT_M1, 8, (uint64_t)(-shares * (int64_t)price));
    put(row, BOOK_AT_TIME, 4, time + DUE_AFTER);
}

void add_lot(uint64_t id, int64_t shares, uint32_t price, uint32_t time)
{
    uint8_t *row;
    add_completed(id, shares, price, time);
    row = add(&book, BOOK_KIND_LOT);
    put(row, BOOK_AT_ID, 8, id);
    put(row, BOOK_AT_PARTY, 4, ACCOUNT);
    set_symbol(row, "ABC");
    put(row, BOOK_AT_N1, 4, price);
    put(row, BOOK_AT_M1, 8, (uint64_t)shares);
    put(row, BOOK_AT_TIME, 4, time);
}

void add_summary(int64_t shares)
{
    uint8_t *row = add(&book, BOOK_KIND_SUMMARY);
    put(row, BOOK_AT_PARTY, 4, ACCOUNT);
    set_symbol(row, "ABC");
    put(row, BOOK_AT_M1, 8, (uint64_t)shares);
}

void add_figures(void)
{
    add_lot(10, 100, 2000, 100);
    add_lot(11, 50, 2500, 200);
    add_summary(150);
}

void stand_with_holes(void)
{
    stand("ABC", 3000);
    add_free(&book, 1);
    add_lot(10, 100, 2000, 100);
    add_free(&book, 1);
    add_lot(11, 50, 2500, 200);
    add_free(&book, 1);
    add_summary(150);
    add_free(&book, 1);
}

/* Makes the lot that was added last one of this account and symbol, and adds its summary. */
static void give_last_lot(uint32_t account, const char *letters)
{
    uint8_t *lot = book.bytes + book.length - RECORD, *trade = lot - 3 * RECORD, *summary;
    put(trade, BOOK_AT_PARTY, 4, account);
    put(lot, BOOK_AT_PARTY, 4, account);
    set_symbol(trade, letters);
    set_symbol(lot, letters);
    summary = add(&book, BOOK_KIND_SUMMARY);
    put(summary, BOOK_AT_PARTY, 4, account);
    set_symbol(summary, letters);
    memcpy(summary + BOOK_AT_M1, lot + BOOK_AT_M1, 8);
}

void stand_among_others(void)
{
    stand("ABC", 3000);
    add_lot(8, 70, 1000, 50);
    give_last_lot(ACCOUNT + 1, "ABC");
    add_lot(9, 70, 1000, 50);
    give_last_lot(ACCOUNT, "ABCD");
    memcpy(add(&book, BOOK_KIND_ACCOUNT), row_at(&book, AT_ACCOUNT), RECORD);
    put(row_at(&book, 26), BOOK_AT_PARTY, 4, ACCOUNT + 1);
    memcpy(add(&book, BOOK_KIND_SECURITY), row_at(&book, AT_SECURITY), RECORD);
    set_symbol(row_at(&book, 27), "ABCD");
    add_figures();
}

static const struct gain gains[] = {
    {"the largest gain, rates 100,000", 999999, 1, 1, 99999999, 100000, 99999898000002, 5000, 499999495000},
    {"the largest gain, rates 99,999", 999999, 1, 1, 99999999, 99999, 99998898001022, 5000, 499999495000},
    {"the largest gain, rates 99,998", 999999, 1, 1, 99999999, 99998, 99997898002042, 5000, 499999495000},
    {"the largest gain, rates 92,234", 999999, 1, 1, 99999999, 92234, 92233905921322, 5000, 499999495000},
    {"the largest gain, rates 92,233", 999999, 1, 1, 99999999, 92233, 92232905922342, 5000, 499999495000},
    {"the largest gain, rates 50,001", 999999, 1, 1, 99999999, 50001, 50000948998981, 5000, 499999495000},
    {"the largest gain, rates 50,000", 999999, 1, 1, 99999999, 50000, 49999949000001, 5000, 499999495000},
    {"the largest gain, rates 1", 999999, 1, 1, 99999999, 1, 999998980, 5000, 499999495000},
    {"a cent less, rates 100,000", 999999, 1, 2, 99999999, 100000, 99999898000001, 5000, 499999495000},
    {"a cent less, rates 99,999", 999999, 1, 2, 99999999, 99999, 99998898001021, 5000, 499999495000},
    {"a cent less, rates 50,001", 999999, 1, 2, 99999999, 50001, 50000948998981, 5000, 499999495000},
    {"two cents less, rates 100,000", 999999, 1, 3, 99999999, 100000, 99999898000000, 5000, 499999495000},
    {"two cents less, rates 99,999", 999999, 1, 3, 99999999, 99999, 99998898001020, 5000, 499999495000},
    {"a cent less for each, rates 100,000", 999999, 1, 1, 99999998, 100000, 99999897000003, 5000, 499999490000},
    {"a cent less for each, rates 99,999", 999999, 1, 1, 99999998, 99999, 99998897001033, 5000, 499999490000},
    {"paid a cent more for each, rates 100,000", 999999, 2, 2, 99999999, 100000, 99999897000003, 10000, 499999495000},
    {"paid a cent more for each, rates 99,999", 999999, 2, 2, 99999999, 99999, 99998897001033, 10000, 499999495000},
    {"a share less, rates 100,000", 999998, 1, 1, 99999999, 100000, 99999798000004, 5000, 499998995000},
    {"a share less, rates 99,999", 999998, 1, 1, 99999999, 99999, 99998798002024, 5000, 499998995000},
};

static int64_t signed_shares(uint8_t type, uint32_t shares)
{
    return type == BOOK_TMS ? (int64_t)shares : -(int64_t)shares;
}

struct figures figures_of(const struct gain *gain, uint8_t type)
{
    const uint64_t bought = (uint64_t)gain->shares * gain->bought_at, sold = (uint64_t)gain->shares * gain->sold_at;
    const uint32_t apart = gain->last_at - gain->bought_at;
    if (type == BOOK_TMS)
        return (struct figures){gain->sold_at, gain->commission_of_sell, bought + apart, sold};
    return (struct figures){gain->bought_at, gain->commission_of_buy, bought, sold - apart};
}

void stand_large(const struct gain *gain, uint8_t type, uint8_t tax_status)
{
    const uint32_t apart = gain->last_at - gain->bought_at;
    stand("ABC", figures_of(gain, type).price);
    row_at(&book, AT_ACCOUNT)[BOOK_AT_TYPE] = tax_status;
    put(row_at(&book, AT_TAX_RATE), BOOK_AT_N1, 4, gain->rates);
    put(row_at(&book, band_at(type)), BOOK_AT_N2, 4, 999999);
    add_lot(10, signed_shares(type, gain->shares - 1), type == BOOK_TMS ? gain->bought_at : gain->sold_at, 100);
    add_lot(11, signed_shares(type, 1), type == BOOK_TMS ? gain->last_at : gain->sold_at - apart, 200);
    add_summary(signed_shares(type, gain->shares));
}

void each_gain(void (*try_gain)(const struct gain *gain, uint8_t type, uint8_t tax_status))
{
    size_t n;
    uint8_t tax_status;
    for (n = 0; n < sizeof gains / sizeof gains[0]; n++)
        for (tax_status = 1; tax_status <= 2; tax_status++) {
            try_gain(&gains[n], BOOK_TMS, tax_status);
            try_gain(&gains[n], BOOK_TMB, tax_status);
        }
}

/* A band of the sell's type, tier and exchange; one that holds its shares, but is another's. */
#define OWN(from, to, rate) {BOOK_TMS, TIER, EXCHANGE, from, to, rate}
#define OTHER(type, tier, exchange, rate) {type, tier, exchange, 1, 999999, rate}

static const struct search searches[] = {
    {"no band in the book", 10, NO_BAND, 0, {{0}}},
    {"bands of other types alone", 10, NO_BAND, 0,
     {OTHER(BOOK_TMB, TIER, EXCHANGE, 70), OTHER(BOOK_TLB, TIER, EXCHANGE, 80), OTHER(BOOK_TLS, TIER, EXCHANGE, 90),
      OTHER(BOOK_TSL, TIER, EXCHANGE, 60)}},
    {"bands of other tiers alone", 10, NO_BAND, 0,
     {OTHER(BOOK_TMS, TIER - 1, EXCHANGE, 70), OTHER(BOOK_TMS, TIER + 1, EXCHANGE, 80)}},
    {"bands of other exchanges alone", 10, NO_BAND, 0,
     {OTHER(BOOK_TMS, TIER, EXCHANGE - 1, 70), OTHER(BOOK_TMS, TIER, EXCHANGE + 1, 80)}},
    {"tier and exchange the other way round", 10, NO_BAND, 0, {OTHER(BOOK_TMS, EXCHANGE, TIER, 70)}},
    {"rates of 0 of another type, tier and exchange alone", 10, NO_BAND, 0,
     {OTHER(BOOK_TMB, TIER, EXCHANGE, 0), OTHER(BOOK_TMS, TIER - 1, EXCHANGE, 0),
      OTHER(BOOK_TMS, TIER, EXCHANGE + 1, 0)}},
    {"one share, from 1", 1, 50, 15, {OWN(1, 1, 50)}},
    {"one share, from 2", 1, NO_BAND, 0, {OWN(2, 999999, 50)}},
    {"as many shares as the band begins with", 20, 50, 300, {OWN(20, 1000, 50)}},
    {"one share less", 19, NO_BAND, 0, {OWN(20, 1000, 50)}},
    {"one share less, of a band with rate 0", 19, NO_BAND, 0, {OWN(20, 1000, 0)}},
    {"as many shares as the band goes to", 1000, 50, 15000, {OWN(1, 1000, 50)}},
    {"one share more", 1001, NO_BAND, 0, {OWN(1, 1000, 50)}},
    {"one share more, of a band with rate 0", 1001, NO_BAND, 0, {OWN(1, 1000, 0)}},
    {"the most shares, and the band goes to them", 999999, 1, 300000, {OWN(1, 999999, 1)}},
    {"the most shares, and the band goes to one less", 999999, NO_BAND, 0, {OWN(1, 999998, 1)}},
    {"the lowest rate", 10, 1, 3, {OWN(1, 1000, 1)}},
    {"a rate of 0", 10, 0, 0, {OWN(1, 1000, 0)}},
    {"a rate of 0 where the band begins", 20, 0, 0, {OWN(20, 1000, 0)}},
    {"a rate of 0 where the band ends", 1000, 0, 0, {OWN(1, 1000, 0)}},
    {"a rate of 0 for one number of shares", 10, 0, 0, {OWN(10, 10, 0)}},
    {"the last share of the first of two bands", 9, 90, 243, {OWN(1, 9, 90), OWN(10, 1000, 60)}},
    {"the first share of the second", 10, 60, 180, {OWN(1, 9, 90), OWN(10, 1000, 60)}},
    {"the first of two has a rate of 0", 9, 0, 0, {OWN(1, 9, 0), OWN(10, 1000, 60)}},
    {"the second, where the first has a rate of 0", 10, 60, 180, {OWN(1, 9, 0), OWN(10, 1000, 60)}},
    {"the first, where the second has a rate of 0", 9, 90, 243, {OWN(1, 9, 90), OWN(10, 1000, 0)}},
    {"the second of two has a rate of 0", 10, 0, 0, {OWN(1, 9, 90), OWN(10, 1000, 0)}},
    {"below a gap between two bands", 9, 90, 243, {OWN(1, 9, 90), OWN(11, 1000, 60)}},
    {"in the gap", 10, NO_BAND, 0, {OWN(1, 9, 90), OWN(11, 1000, 60)}},
    {"in a gap between rates of 0", 10, NO_BAND, 0, {OWN(1, 9, 0), OWN(11, 1000, 0)}},
    {"above the gap", 11, 60, 198, {OWN(1, 9, 90), OWN(11, 1000, 60)}},
    {"the band of type, tier and exchange that holds the shares", 10, 60, 180,
     {OTHER(BOOK_TMB, TIER, EXCHANGE, 50), OTHER(BOOK_TMS, TIER - 1, EXCHANGE, 70),
      OTHER(BOOK_TMS, TIER, EXCHANGE + 1, 80), OWN(1, 9, 90), OWN(10, 10, 60)}},
    {"and its rate is 0", 10, 0, 0,
     {OTHER(BOOK_TMB, TIER, EXCHANGE, 50), OTHER(BOOK_TMS, TIER - 1, EXCHANGE, 70),
      OTHER(BOOK_TMS, TIER, EXCHANGE + 1, 80), OWN(1, 9, 90), OWN(10, 10, 0)}},
    {"and it alone has a rate", 10, 60, 180,
     {OTHER(BOOK_TMB, TIER, EXCHANGE, 0), OTHER(BOOK_TMS, TIER - 1, EXCHANGE, 0),
      OTHER(BOOK_TMS, TIER, EXCHANGE + 1, 0), OWN(1, 9, 0), OWN(10, 10, 60)}},
};

void set_bands(const struct search *search)
{
    size_t n;
    for (n = 0; n < MOST_BANDS; n++) {
        uint8_t *row = row_at(&book, AT_BANDS + n);
        memset(row, 0, RECORD);
        if (search->bands[n].type != 0) {
            row[BOOK_AT_KIND] = BOOK_KIND_BAND;
            set_band(row, search->bands[n]);
        } else {
            row[BOOK_AT_KIND] = BOOK_KIND_BROKER;
            put(row, BOOK_AT_PARTY, 4, BROKER + 1 + n);
        }
    }
}

void each_search(void (*try_search)(const struct search *search))
{
    size_t n, band;
    for (n = 0; n < sizeof searches / sizeof searches[0]; n++) {
        struct search reverse = searches[n];
        for (band = 0; band < MOST_BANDS; band++)
            reverse.bands[band] = searches[n].bands[MOST_BANDS - 1 - band];
        try_search(&searches[n]);
        if (searches[n].bands[0].type != 0)
            try_search(&reverse);
    }
}

void fill_up(size_t left)
{
    uint32_t party = 1000;
    while (book.length < (BOOK_MOST_RECORDS - left) * RECORD)
        put(add(&book, BOOK_KIND_BROKER), BOOK_AT_PARTY, 4, party++);
    add_free(&book, left);
}

void refuses_first(uint8_t kind)
{
    row_at(&book, AT_ACCOUNT)[BOOK_AT_TYPE] = 3;
    refused("and the book is not sound", kind, RECORD, BOOK_UNSOUND);
    book.length--;
    refused("and its length is wrong", kind, RECORD, BOOK_BAD_BOOK);
    refused("and so is the answer's", kind, RECORD - 1, BOOK_BAD_LENGTH);
}
