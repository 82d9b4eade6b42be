/* The account of the page's figures and its lots: what orders and results are tried on. */
#ifndef FIGURES_H
#define FIGURES_H

#include "samples.h"

enum { ACCOUNT = 1, BROKER = 21, CUSTOMER = 31, TAX_RATE = 41, TIER = 2, EXCHANGE = 3, RATE = 50, TIME = 300 };
enum { BALANCE = 1000000, BROKER_TRADES = 7, BROKER_TOTAL = 9000, DUE_AFTER = 172800 };
extern const uint64_t MOST_NUMBER;

/* The places of what stands in every book here. There is a band and a charge for each trade type, beginning here. */
enum { AT_BROKER = 0, AT_TAX_RATE = 2, AT_ACCOUNT = 4, AT_SECURITY = 5, AT_BANDS = 6, AT_CHARGES = 11, STANDING = 16 };
size_t band_at(uint8_t type);
size_t charge_at(uint8_t type);

/* Each type has its own; that of TMS is the 500 of the figures. */
uint32_t charge_of(uint8_t type);

/* Two rows: a tax rate, and the customer's link to it. */
void add_rate(uint32_t customer, uint32_t party, uint32_t rate);

/* The account of the figures, without a trade. */
void stand(const char *letters, uint32_t last_price);

/* Three rows: a completed trade that is not cash, its history and its settlement. */
void add_completed(uint64_t id, int64_t shares, uint32_t price, uint32_t time);

/* Four rows: a completed trade and the lot that is left of it. */
void add_lot(uint64_t id, int64_t shares, uint32_t price, uint32_t time);

void add_summary(int64_t shares);

/* Nine rows: the lots of the figures and their summary. */
void add_figures(void);

/* The same with free places in between: 16, 21, 26 and 28. */
void stand_with_holes(void);

/* The lots of the figures at places 28 to 36, behind one of account 2 and one of another symbol. */
void stand_among_others(void);

/* The largest gains and their taxes: the plain product of gain and rates may pass 2^63. So many shares were bought at one
   price, but the last of them at another, and are sold. A buy makes the same gain of shares that are owed: so many were
   sold, the last of them for so much less, and are bought back. */
struct gain {
    const char *name;
    uint32_t shares, bought_at, last_at, sold_at, rates;
    uint64_t tax, commission_of_buy, commission_of_sell;
};

/* What a market order of this type comes to. */
struct figures {
    uint32_t price;
    uint64_t commission, bought, sold;
};
struct figures figures_of(const struct gain *gain, uint8_t type);

/* The account of the figures with this tax status and these rates, a band for all shares, the lots 10 and 11 that make
   this gain, and their summary. They are at the places of the lots of the figures. */
void stand_large(const struct gain *gain, uint8_t type, uint8_t tax_status);

/* Tries each of them by a sell and by a buy, with tax status 1 and 2. */
void each_gain(void (*try_gain)(const struct gain *gain, uint8_t type, uint8_t tax_status));

/* The bands that a book has, and what a market sell of so many shares at 3,000 finds among them: a rate and so the
   commission, a rate of 0, or NO_BAND. */
enum { MOST_BANDS = AT_CHARGES - AT_BANDS, NO_BAND = -1 };
struct band {
    uint8_t type, tier, exchange;
    uint32_t from, to, rate;
};
struct search {
    const char *name;
    uint32_t shares;
    int32_t rate;
    uint64_t commission;
    struct band bands[MOST_BANDS]; /* those of type 0 are none */
};

/* Gives the book these bands in the place of its own. Brokers take the places that are left. */
void set_bands(const struct search *search);

/* Tries each of them, and again with the bands in the reverse order of places. */
void each_search(void (*try_search)(const struct search *search));

/* Adds brokers until the book has all records that there may be, but for so many free places at its end. */
void fill_up(size_t left);

/* Has the call refuse the sample, whatever else is wrong with it: for a book that is not sound, then for the book's
   length, then for the answer's. */
void refuses_first(uint8_t kind);

#endif
