#include "world.h"

#include <string.h>

/* No expression draws twice without an order between the draws: a compiler may choose which comes first. Permissions
   and executors are drawn by a generator of their own, so that all else is as it would be without them. */
static uint64_t state, own_state;

/* Splitmix64. */
static uint64_t next(uint64_t *from)
{
    uint64_t x = *from += 0x9e3779b97f4a7c15u;
    x = (x ^ x >> 30) * 0xbf58476d1ce4e5b9u;
    x = (x ^ x >> 27) * 0x94d049bb133111ebu;
    return x ^ x >> 31;
}

void draw_anew(uint64_t number)
{
    state = number;
    own_state = ~number;
}

uint64_t drawn(uint64_t low, uint64_t high)
{
    return low + next(&state) % (high - low + 1);
}

int once_in(uint64_t times)
{
    return next(&state) % times == 0;
}

static uint64_t own_drawn(uint64_t low, uint64_t high)
{
    return low + next(&own_state) % (high - low + 1);
}

static int own_once_in(uint64_t times)
{
    return next(&own_state) % times == 0;
}

/* ---- rows */

/* The next free place of a new book, as a row of this kind, or NULL where there is none. */
static uint8_t *add(const struct book *book, size_t *used, uint8_t kind)
{
    uint8_t *row = book->bytes + *used * BOOK_RECORD_SIZE;
    if (*used * BOOK_RECORD_SIZE >= book->length)
        return NULL;
    ++*used;
    row[BOOK_AT_KIND] = kind;
    return row;
}

/* The symbols of the securities: of one to seven characters, each number below 266 its own. */
static void put_symbol(uint8_t *row, uint64_t number)
{
    static const char characters[] = "ABCDEFGHIJKLMNOPQRSTUVWXYZ0123456789.-";
    size_t length = 1 + number % 7;
    for (size_t i = 0; i < length; i++) {
        row[BOOK_AT_SYMBOL + i] = (uint8_t)characters[number % (sizeof characters - 1)];
        number /= i == 0 ? 7 : sizeof characters - 1;
    }
}

/* ---- a book */

static const uint64_t MOST_MONEY = 999999999999999, MOST_TRADE = 999999999999999, MOST_VOLUME = 999999999999;
enum { MOST_COUNT = 999999999, MOST_SHARES = 999999, MOST_PRICE = 99999999, MOST_RATES = 100000 };

/* One trade that waits for its result, with the largest number that there is: no order has room above it. */
static void add_last_trade(const struct book *book, size_t *used)
{
    uint8_t *trade = add(book, used, BOOK_KIND_TRADE), *history = trade ? add(book, used, BOOK_KIND_HISTORY) : NULL;
    if (!trade)
        return;
    if (!history) {
        trade[BOOK_AT_KIND] = 0;
        return;
    }
    trade[BOOK_AT_TYPE] = BOOK_TMB;
    trade[BOOK_AT_STATUS] = history[BOOK_AT_STATUS] = BOOK_SBMT;
    book_put_u64(trade + BOOK_AT_ID, MOST_TRADE);
    book_put_u64(history + BOOK_AT_ID, MOST_TRADE);
    book_put_u32(trade + BOOK_AT_PARTY, 1);
    put_symbol(trade, 1);
    book_put_u32(trade + BOOK_AT_N1, 100);
    book_put_u32(trade + BOOK_AT_N2, 1000);
    book_put_u32(trade + BOOK_AT_N4, 1);
}

static void add_parties(struct book *book, size_t *used)
{
    uint8_t *row;
    for (uint64_t i = 1; i <= book->brokers && (row = add(book, used, BOOK_KIND_BROKER)); i++) {
        book_put_u32(row + BOOK_AT_PARTY, i);
        book_put_u32(row + BOOK_AT_N1, once_in(12) ? MOST_COUNT - drawn(0, 3) : drawn(0, 1000));
        book_put_u64(row + BOOK_AT_M1, once_in(12) ? MOST_MONEY - drawn(0, 3000) : drawn(0, 1000000));
    }
    for (uint64_t i = 1; i <= book->rates && (row = add(book, used, BOOK_KIND_TAX_RATE)); i++) {
        book_put_u32(row + BOOK_AT_PARTY, i);
        /* No rate, one so small that most of its taxes round to zero, or any. */
        book_put_u32(row + BOOK_AT_N1, once_in(4) ? 0 : drawn(1, once_in(3) ? 5 : MOST_RATES / 2));
    }
    for (uint64_t i = 1; i <= book->customers && (row = add(book, used, BOOK_KIND_CUSTOMER)); i++) {
        book_put_u32(row + BOOK_AT_PARTY, i);
        row[BOOK_AT_TYPE] = (uint8_t)drawn(1, 3);
        /* Two rates of at most half the sum that is allowed, or one, or none. */
        for (uint64_t n = 0, rate = drawn(0, book->rates); n < 2 && rate > n; n++) {
            if (!(row = add(book, used, BOOK_KIND_CUSTOMER_RATE)))
                return;
            book_put_u32(row + BOOK_AT_PARTY, i);
            book_put_u32(row + BOOK_AT_N1, rate - n);
        }
    }
    for (uint64_t i = 1; i <= book->accounts && (row = add(book, used, BOOK_KIND_ACCOUNT)); i++) {
        uint64_t balance = once_in(6) ? MOST_MONEY - drawn(0, 30000) : drawn(0, 100000000);
        book_put_u32(row + BOOK_AT_PARTY, i);
        row[BOOK_AT_TYPE] = (uint8_t)drawn(0, 2);
        book_put_u32(row + BOOK_AT_N1, drawn(1, book->brokers));
        book_put_u32(row + BOOK_AT_N2, drawn(1, book->customers));
        book_put_u64(row + BOOK_AT_M1, once_in(2) ? balance : 0 - balance);
    }
}

static void add_securities(struct book *book, size_t *used)
{
    uint8_t *row;
    for (uint64_t i = 1; i <= book->securities && (row = add(book, used, BOOK_KIND_SECURITY)); i++) {
        put_symbol(row, i);
        row[BOOK_AT_TYPE] = (uint8_t)drawn(1, book->exchanges);
        book_put_u32(row + BOOK_AT_N1, once_in(8) ? drawn(1, MOST_PRICE) : drawn(1, 4000));
        book_put_u64(row + BOOK_AT_M1, once_in(8) ? MOST_VOLUME - drawn(0, 5000) : drawn(0, 1000000));
        book_put_u32(row + BOOK_AT_TIME, drawn(0, 4000000000));
    }
}

static void add_terms(struct book *book, size_t *used)
{
    for (uint8_t type = BOOK_TMB; type <= BOOK_TSL; type++) {
        for (uint8_t tier = 1; tier <= 3; tier++) {
            uint8_t *row = once_in(8) ? NULL : add(book, used, BOOK_KIND_CHARGE);
            if (row) {
                row[BOOK_AT_TYPE] = type;
                row[BOOK_AT_STATUS] = tier;
                book_put_u32(row + BOOK_AT_N1, once_in(8) ? 0 : drawn(1, 5000));
            }
            for (uint64_t exchange = 1; exchange <= book->exchanges; exchange++) {
                uint64_t middle = drawn(50, 5000);
                if (!once_in(10) && (row = add(book, used, BOOK_KIND_BAND))) {
                    row[BOOK_AT_TYPE] = type;
                    row[BOOK_AT_STATUS] = tier;
                    row[BOOK_AT_FLAGS] = (uint8_t)exchange;
                    book_put_u32(row + BOOK_AT_N1, 1);
                    book_put_u32(row + BOOK_AT_N2, middle);
                    book_put_u32(row + BOOK_AT_N3, once_in(8) ? 0 : drawn(1, 10000));
                    if ((row = add(book, used, BOOK_KIND_BAND))) {
                        row[BOOK_AT_TYPE] = type;
                        row[BOOK_AT_STATUS] = tier;
                        row[BOOK_AT_FLAGS] = (uint8_t)exchange;
                        book_put_u32(row + BOOK_AT_N1, middle + 1);
                        book_put_u32(row + BOOK_AT_N2, MOST_SHARES);
                        book_put_u32(row + BOOK_AT_N3, drawn(1, 100));
                    }
                }
            }
        }
    }
}

/* The executors: four have permissions, the last of them with the largest number that there is. The fifth has none. */
enum { PERMITTED = 4, OF_ACCOUNTS = 8 };

static uint64_t executor_of(uint64_t which)
{
    return which == PERMITTED ? MOST_COUNT : which;
}

/* The first row of this kind and party from this place on, and of this n1 unless that is 0; or NULL. */
static uint8_t *found(const struct book *book, size_t at, uint8_t kind, uint64_t party, uint64_t n1)
{
    size_t records = book->length / BOOK_RECORD_SIZE;
    for (size_t n = 0; n < records; n++) {
        uint8_t *row = book->bytes + (at + n) % records * BOOK_RECORD_SIZE;
        if (row[BOOK_AT_KIND] == kind && book_get_u32(row + BOOK_AT_PARTY) == party &&
            (n1 == 0 || book_get_u32(row + BOOK_AT_N1) == n1))
            return row;
    }
    return NULL;
}

/* The permission of this account and executor goes; or it comes, if the account is there and a place is free. */
static void turn_permission(const struct book *book, uint64_t account, uint64_t executor)
{
    size_t at = own_drawn(0, book->length / BOOK_RECORD_SIZE - 1);
    uint8_t *row = found(book, at, BOOK_KIND_PERMISSION, account, executor);
    if (row) {
        memset(row, 0, BOOK_RECORD_SIZE);
        return;
    }
    row = found(book, at, 0, 0, 0);
    if (row && found(book, at, BOOK_KIND_ACCOUNT, account, 0)) {
        row[BOOK_AT_KIND] = BOOK_KIND_PERMISSION;
        book_put_u32(row + BOOK_AT_PARTY, (uint32_t)account);
        book_put_u32(row + BOOK_AT_N1, (uint32_t)executor);
    }
}

void change_permission(struct book *book)
{
    uint64_t account = own_drawn(1, book->accounts < OF_ACCOUNTS ? book->accounts : OF_ACCOUNTS);
    turn_permission(book, account, executor_of(own_drawn(1, PERMITTED)));
}

void make_book(struct book *book, size_t records)
{
    /* A large book is nearly full from the beginning. */
    uint64_t scale = records < 1024 ? records / 128 : records / 9;
    size_t used = 0;
    book->length = records * BOOK_RECORD_SIZE;
    memset(book->bytes, 0, book->length);
    book->brokers = 2 + scale;
    book->rates = 2 + scale;
    book->customers = 2 + scale;
    book->accounts = 2 + 2 * scale;
    book->securities = 2 + (scale < 124 ? 2 * scale : 248);
    book->exchanges = records < 512 ? 1 : 4;
    book->trades = 0;
    add_parties(book, &used);
    add_securities(book, &used);
    if (once_in(40))
        add_last_trade(book, &used);
    if (!once_in(20))
        add_terms(book, &used);
    /* Free places lie between the rows, too: some rows are moved to places further on. */
    for (size_t from = 0; from < used; from++) {
        size_t to = drawn(0, records - 1);
        uint8_t *row = book->bytes + to * BOOK_RECORD_SIZE;
        if (row[BOOK_AT_KIND] == 0) {
            memcpy(row, book->bytes + from * BOOK_RECORD_SIZE, BOOK_RECORD_SIZE);
            memset(book->bytes + from * BOOK_RECORD_SIZE, 0, BOOK_RECORD_SIZE);
        }
    }
    for (uint64_t account = 1; account <= book->accounts && account <= OF_ACCOUNTS; account++)
        for (uint64_t which = 1; which <= PERMITTED; which++)
            if (own_once_in(2))
                turn_permission(book, account, executor_of(which));
}

void change_band(struct book *book)
{
    size_t records = book->length / BOOK_RECORD_SIZE, at = drawn(0, records - 1);
    uint64_t change = drawn(0, 3); /* a rate of 0, 100 or 200, or no band */
    for (size_t n = 0; n < records; n++) {
        uint8_t *row = book->bytes + (at + n) % records * BOOK_RECORD_SIZE;
        if (row[BOOK_AT_KIND] == BOOK_KIND_BAND) {
            if (change == 3)
                memset(row, 0, BOOK_RECORD_SIZE);
            else
                book_put_u32(row + BOOK_AT_N3, change * 100);
            return;
        }
    }
}

/* ---- inputs */

/* One of the first so many: often of the first three, so that trades meet. One more where none has that number. */
static uint64_t some_of(uint64_t most, uint64_t unknown)
{
    if (once_in(unknown))
        return most + 1;
    return drawn(1, most > 3 && once_in(2) ? 3 : most);
}

static uint64_t some_shares(void)
{
    return once_in(10) ? drawn(1, MOST_SHARES) : once_in(3) ? drawn(1, 3) : drawn(1, 300);
}

static uint64_t some_price(void)
{
    return once_in(10) ? drawn(1, MOST_PRICE) : drawn(1, 4000);
}

static void order_input(const struct book *book, uint8_t *input)
{
    input[BOOK_AT_KIND] = BOOK_KIND_ORDER;
    input[BOOK_AT_TYPE] = (uint8_t)drawn(BOOK_TMB, BOOK_TSL);
    input[BOOK_AT_FLAGS] = (uint8_t)drawn(0, BOOK_FLAG_CASH | BOOK_FLAG_LIFO);
    if (once_in(8))
        input[BOOK_AT_FLAGS] |= BOOK_FLAG_ROLL_BACK;
    book_put_u32(input + BOOK_AT_PARTY, some_of(book->accounts, 20));
    put_symbol(input, some_of(book->securities, 20));
    book_put_u32(input + BOOK_AT_N1, some_shares());
    if (input[BOOK_AT_TYPE] > BOOK_TMS)
        book_put_u32(input + BOOK_AT_N2, some_price());
    /* Most orders are the owner's, and now and then an executor's number is above the largest. */
    if (own_once_in(4))
        book_put_u32(input + BOOK_AT_N3,
                     (uint32_t)(own_once_in(40) ? MOST_COUNT + 1u : executor_of(own_drawn(1, PERMITTED + 1))));
    book_put_u32(input + BOOK_AT_TIME, drawn(0, 4000000000));
}

static void result_input(const struct book *book, uint8_t *input)
{
    uint64_t recent = book->trades > 12 ? book->trades - 12 : 1;
    input[BOOK_AT_KIND] = BOOK_KIND_RESULT;
    book_put_u64(input + BOOK_AT_ID, once_in(20) ? drawn(1, MOST_TRADE) : drawn(recent, recent + 12));
    book_put_u32(input + BOOK_AT_N1, some_price());
    book_put_u32(input + BOOK_AT_TIME, drawn(0, 4000000000));
}

static void feed_entry(const struct book *book, uint8_t *input)
{
    input[BOOK_AT_KIND] = BOOK_KIND_FEED;
    put_symbol(input, some_of(book->securities, 60));
    book_put_u32(input + BOOK_AT_N1, some_price());
    book_put_u32(input + BOOK_AT_N2, some_shares());
    book_put_u32(input + BOOK_AT_TIME, drawn(0, 4000000000));
}

static void lookup_entry(const struct book *book, uint8_t *input)
{
    input[BOOK_AT_KIND] = BOOK_KIND_LOOKUP;
    book_put_u64(input + BOOK_AT_ID, drawn(1, book->trades + once_in(30) + (book->trades == 0)));
}

size_t make_input(enum call call, const struct book *book, uint8_t *input)
{
    static void (*const make[CALLS])(const struct book *, uint8_t *) = {order_input, result_input, feed_entry,
                                                                        lookup_entry};
    size_t records = call == ORDER || call == RESULT ? 1 : drawn(1, once_in(4) ? BOOK_MOST_INPUTS : 3);
    memset(input, 0, records * BOOK_RECORD_SIZE);
    for (size_t i = 0; i < records; i++)
        make[call](book, input + i * BOOK_RECORD_SIZE);
    return records;
}
