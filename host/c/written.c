/* Samples that are written out here, from the page of the rules alone: feeds and lookups. */
#include "samples.h"

#include <string.h>

enum { BROKER = 7, CUSTOMER = 8, ACCOUNT = 9 };
enum { PRICE = 600, VOLUME = 1000, SHARES = 100 };
static const uint64_t MOST_VOLUME = 999999999999u;

/* Places 0 to 3: a broker, a customer, an account and a security of this symbol. */
static void stand(const char *letters)
{
    uint8_t *row;
    begin();
    row = add(&book, BOOK_KIND_BROKER);
    put(row, BOOK_AT_PARTY, 4, BROKER);
    row = add(&book, BOOK_KIND_CUSTOMER);
    put(row, BOOK_AT_PARTY, 4, CUSTOMER);
    row[BOOK_AT_TYPE] = 1;
    row = add(&book, BOOK_KIND_ACCOUNT);
    put(row, BOOK_AT_PARTY, 4, ACCOUNT);
    put(row, BOOK_AT_N1, 4, BROKER);
    put(row, BOOK_AT_N2, 4, CUSTOMER);
    put(row, BOOK_AT_M1, 8, (uint64_t)-5);
    row = add(&book, BOOK_KIND_SECURITY);
    row[BOOK_AT_TYPE] = 2;
    set_symbol(row, letters);
    put(row, BOOK_AT_N1, 4, PRICE);
    put(row, BOOK_AT_M1, 8, VOLUME);
}

static uint8_t *add_trade(struct rows *rows, uint64_t id, uint8_t type, uint8_t status, uint32_t bid)
{
    uint8_t *row = add(rows, BOOK_KIND_TRADE);
    put(row, BOOK_AT_ID, 8, id);
    row[BOOK_AT_TYPE] = type;
    row[BOOK_AT_STATUS] = status;
    put(row, BOOK_AT_PARTY, 4, ACCOUNT);
    set_symbol(row, "ABC");
    put(row, BOOK_AT_N1, 4, SHARES);
    put(row, BOOK_AT_N2, 4, bid);
    put(row, BOOK_AT_TIME, 4, 1);
    return row;
}

static void add_request(struct rows *rows, uint64_t id, uint8_t type, uint32_t bid)
{
    uint8_t *row = add(rows, BOOK_KIND_REQUEST);
    put(row, BOOK_AT_ID, 8, id);
    row[BOOK_AT_TYPE] = type;
    put(row, BOOK_AT_PARTY, 4, BROKER);
    set_symbol(row, "ABC");
    put(row, BOOK_AT_N1, 4, SHARES);
    put(row, BOOK_AT_N2, 4, bid);
}

/* Three rows: a pending trade, its history and its request. */
static void add_pending(struct rows *rows, uint64_t id, uint8_t type, uint32_t bid)
{
    add_trade(rows, id, type, BOOK_PNDG, bid);
    add_history(rows, id, BOOK_PNDG, 1);
    add_request(rows, id, type, bid);
}

/* An entry of a feed, of so many shares at this price. */
static void add_entry(const char *letters, uint32_t price, uint32_t shares, uint32_t time)
{
    uint8_t *row = add(&input, BOOK_KIND_FEED);
    set_symbol(row, letters);
    put(row, BOOK_AT_N1, 4, price);
    put(row, BOOK_AT_N2, 4, shares);
    put(row, BOOK_AT_TIME, 4, time);
}

/* Expects the book as it is, but for the security at place 3. */
static void expect_fed(uint32_t price, uint64_t volume, uint32_t time)
{
    uint8_t *row;
    book_after = book;
    row = row_at(&book_after, 3);
    put(row, BOOK_AT_N1, 4, price);
    put(row, BOOK_AT_M1, 8, volume);
    put(row, BOOK_AT_TIME, 4, time);
}

/* Expects that the trade was submitted: its row, its request's place, and the place where its history row goes. */
static void expect_submitted(uint64_t id, size_t trade, size_t request, size_t place, uint32_t time)
{
    row_at(&book_after, trade)[BOOK_AT_STATUS] = BOOK_SBMT;
    put(row_at(&book_after, trade), BOOK_AT_TIME, 4, time);
    memset(row_at(&book_after, request), 0, RECORD);
    set_history(row_at(&book_after, place), id, BOOK_SBMT, time);
}

static void expect_counts(uint32_t entries, uint32_t submitted)
{
    uint8_t *row = add(&answer_after, BOOK_KIND_FEED);
    put(row, BOOK_AT_N1, 4, entries);
    put(row, BOOK_AT_N2, 4, submitted);
}

/* One pending trade 10 at places 4 to 6, and a free place 7; a feed at a price that meets its bid or does not. */
static void one_request(const char *name, uint8_t type, uint32_t bid, uint32_t price, int meets)
{
    stand("ABC");
    add_pending(&book, 10, type, bid);
    add_free(&book, 1);
    add_entry("ABC", price, 30, 77);
    expect_fed(price, VOLUME + 30, 77);
    if (meets)
        expect_submitted(10, 4, 6, 7, 77);
    expect_counts(1, meets ? 1 : 0);
    done(name, BOOK_KIND_FEED);
}

static void check_bids(void)
{
    one_request("P8: TLB bid 500, price 500", BOOK_TLB, 500, 500, 1);
    one_request("P8: TLB bid 500, price 501", BOOK_TLB, 500, 501, 0);
    one_request("TSL bid 500, price 500", BOOK_TSL, 500, 500, 1);
    one_request("TSL bid 500, price 501", BOOK_TSL, 500, 501, 0);
    one_request("TLS bid 500, price 500", BOOK_TLS, 500, 500, 1);
    one_request("TLS bid 500, price 499", BOOK_TLS, 500, 499, 0);
}

static void check_symbols(void)
{
    stand("ABCDEFG");
    add_entry("ABCDEFG", 5, 1, 0);
    expect_fed(5, VOLUME + 1, 0);
    expect_counts(1, 0);
    done("P9: symbol of 7 letters", BOOK_KIND_FEED);
    stand("ABCDEFG");
    add_entry("ABCDEFGH", 5, 1, 0);
    refused("P9: symbol of 8 letters", BOOK_KIND_FEED, RECORD, BOOK_BAD_INPUT);
    stand("ABC");
    add_entry("ABC", 5, 1, 0);
    input.bytes[BOOK_AT_SYMBOL + 4] = 'X';
    refused("a stray byte after the symbol's zero", BOOK_KIND_FEED, RECORD, BOOK_BAD_INPUT);
    stand("ABC");
    add_entry("ABC", 5, 1, 0);
    input.bytes[BOOK_AT_SYMBOL + 7] = 'X';
    refused("a stray byte on the symbol's fence", BOOK_KIND_FEED, RECORD, BOOK_BAD_INPUT);
    stand("ABC");
    add_entry("ABC", 5, 1, 0);
    add_entry("ABCD", 5, 1, 0);
    refused("a symbol that begins like a security's", BOOK_KIND_FEED, RECORD, BOOK_FEED_NO_SECURITY);
    stand("ABC");
    add_entry("ABC", 5, 1, 0);
    input.bytes[BOOK_AT_N5] = 1;
    refused("an unused field of an entry", BOOK_KIND_FEED, RECORD, BOOK_BAD_INPUT);
}

/* Requests 30, 10 and 20 on places 5, 9 and 13, each with its trade behind it; places 4, 8, 12 and 16 are free. */
static void add_scattered(void)
{
    static const uint64_t ids[] = {30, 10, 20};
    size_t n;
    stand("ABC");
    for (n = 0; n < 3; n++) {
        add_free(&book, 1);
        add_request(&book, ids[n], BOOK_TLB, 500);
        add_trade(&book, ids[n], BOOK_TLB, BOOK_PNDG, 500);
        add_history(&book, ids[n], BOOK_PNDG, 1);
    }
    add_free(&book, 1);
}

static void check_places(void)
{
    add_scattered();
    add_entry("ABC", 400, 1, 50);
    expect_fed(400, VOLUME + 1, 50);
    expect_submitted(10, 10, 9, 4, 50);
    expect_submitted(20, 14, 13, 8, 50);
    expect_submitted(30, 6, 5, 12, 50);
    expect_counts(1, 3);
    done("history rows by rising number, on the lowest free places", BOOK_KIND_FEED);
    stand("ABC");
    add_request(&book, 10, BOOK_TLB, 500);
    add_trade(&book, 10, BOOK_TLB, BOOK_PNDG, 500);
    add_history(&book, 10, BOOK_PNDG, 1);
    add_pending(&book, 11, BOOK_TLB, 450);
    add_free(&book, 2);
    add_entry("ABC", 500, 1, 60);
    add_entry("ABC", 450, 1, 61);
    expect_fed(450, VOLUME + 2, 61);
    expect_submitted(10, 5, 4, 10, 60);
    expect_submitted(11, 7, 9, 11, 61);
    expect_counts(2, 2);
    done("a place that the call freed is not taken", BOOK_KIND_FEED);
    book.length -= RECORD;
    refused("nor does it count as room", BOOK_KIND_FEED, RECORD, BOOK_NO_ROOM);
}

static void check_entries(void)
{
    stand("ABC");
    add_pending(&book, 10, BOOK_TLB, 500);
    add_free(&book, 2);
    add_entry("ABC", 500, 1, 50);
    add_entry("ABC", 400, 2, 40);
    expect_fed(400, VOLUME + 3, 40);
    expect_submitted(10, 4, 6, 7, 50);
    expect_counts(2, 1);
    done("a request hit by two entries is submitted once, by the first", BOOK_KIND_FEED);
    stand("ABC");
    put(row_at(&book, 3), BOOK_AT_M1, 8, MOST_VOLUME - 7);
    add_entry("ABC", 400, 3, 50);
    add_entry("ABC", 300, 4, 60);
    expect_fed(300, MOST_VOLUME, 60);
    expect_counts(2, 0);
    done("the largest volume", BOOK_KIND_FEED);
    put(row_at(&input, 1), BOOK_AT_N2, 4, 5);
    refused("one share more", BOOK_KIND_FEED, RECORD, BOOK_OVER_LIMIT);
}

/* A completed trade 20 with its history and its settlement at places 4 to 6, a pending trade 21 at places 7 to 9. */
static void add_two_trades(void)
{
    uint8_t *row;
    stand("ABC");
    row = add_trade(&book, 20, BOOK_TMS, BOOK_CMPT, 500);
    put(row, BOOK_AT_N3, 4, 505);
    add_history(&book, 20, BOOK_CMPT, 2);
    row = add(&book, BOOK_KIND_SETTLEMENT);
    put(row, BOOK_AT_ID, 8, 20);
    put(row, BOOK_AT_M1, 8, (uint64_t)-12345);
    put(row, BOOK_AT_TIME, 4, 172802);
    add_pending(&book, 21, BOOK_TLS, 700);
}

/* Asks for a trade and expects these places of the book as its two records; place 0 stands for zeros. */
static void ask(uint64_t id, size_t trade, size_t settlement)
{
    uint8_t *pair = answer_after.bytes + answer_after.length;
    put(add(&input, BOOK_KIND_LOOKUP), BOOK_AT_ID, 8, id);
    memcpy(pair, row_at(&book, trade), RECORD);
    if (settlement > 0)
        memcpy(pair + RECORD, row_at(&book, settlement), RECORD);
    answer_after.length += 2 * RECORD;
    book_after = book;
}

static void check_lookups(void)
{
    size_t n;
    add_two_trades();
    ask(20, 4, 6);
    done("a lookup of a completed trade", BOOK_KIND_LOOKUP);
    ask(21, 7, 0);
    ask(20, 4, 6);
    done("a lookup of three, one of them twice", BOOK_KIND_LOOKUP);
    for (n = 3; n < BOOK_MOST_INPUTS; n++)
        ask(21, 7, 0);
    done("a lookup of twenty", BOOK_KIND_LOOKUP);
    put(row_at(&input, 19), BOOK_AT_ID, 8, 22);
    refused("the twentieth is unknown", BOOK_KIND_LOOKUP, 2 * input.length, BOOK_LOOKUP_NO_TRADE);
    put(row_at(&input, 18), BOOK_AT_ID, 8, 0);
    refused("and one before is no number", BOOK_KIND_LOOKUP, 2 * input.length, BOOK_BAD_INPUT);
    row_at(&book, 6)[BOOK_AT_FLAGS] = BOOK_FLAG_CASH;
    refused("and the book is not sound", BOOK_KIND_LOOKUP, 2 * input.length, BOOK_UNSOUND);
    book.length--;
    refused("and its length is wrong", BOOK_KIND_LOOKUP, 2 * input.length, BOOK_BAD_BOOK);
    refused("and so is the answer's", BOOK_KIND_LOOKUP, 2 * input.length - 1, BOOK_BAD_LENGTH);
}

/* Permissions make no difference to a feed or a lookup. */
static void check_permissions(void)
{
    add_two_trades();
    add_permission(ACCOUNT, EXECUTOR);
    add_permission(ACCOUNT, ACCOUNT);
    add_free(&book, 1);
    ask(21, 7, 0);
    ask(20, 4, 6);
    done("a lookup on a book with permissions", BOOK_KIND_LOOKUP);
    memset(&input, 0, sizeof input);
    memset(&answer_after, 0, sizeof answer_after);
    add_entry("ABC", 700, 30, 77);
    expect_fed(700, VOLUME + 30, 77);
    expect_submitted(21, 7, 9, 12, 77);
    expect_counts(1, 1);
    done("a feed on a book with permissions", BOOK_KIND_FEED);
}

static void begin_good_lookup(void)
{
    add_two_trades();
    put(add(&input, BOOK_KIND_LOOKUP), BOOK_AT_ID, 8, 20);
}

static void begin_good_feed(void)
{
    add_two_trades();
    add_entry("ABC", 500, 1, 0);
}

/* The largest book there may be: the ten rows, and free places. */
static void check_largest(void)
{
    add_two_trades();
    book.length = BOOK_MOST_RECORDS * RECORD;
    memcpy(row_at(&book, BOOK_MOST_RECORDS - 1), row_at(&book, 6), RECORD);
    memset(row_at(&book, 6), 0, RECORD);
    ask(20, 4, BOOK_MOST_RECORDS - 1);
    done("a book of 4,096 records", BOOK_KIND_LOOKUP);
}

void check_written(void)
{
    check_bids();
    check_symbols();
    check_places();
    check_entries();
    check_lookups();
    check_permissions();
    refuses_lengths(BOOK_KIND_LOOKUP, begin_good_lookup, BOOK_MOST_INPUTS, 2);
    refuses_lengths(BOOK_KIND_FEED, begin_good_feed, BOOK_MOST_INPUTS, 1);
    refuses_permissions(BOOK_KIND_LOOKUP, begin_good_lookup, ACCOUNT, 2);
    refuses_permissions(BOOK_KIND_FEED, begin_good_feed, ACCOUNT, 1);
    check_largest();
    check_orders();
    check_executors();
    check_results();
    check_areas();
    check_rows();
}
