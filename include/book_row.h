/**
 * @file
 * Rows of a book as structs, and the names and texts of its numbers: what a client needs beside book.h. Header only,
 * C99 and C++11, nothing to link. The library does without it, and it without the library.
 */
#ifndef BOOK_ROW_H
#define BOOK_ROW_H

#include "book.h"

#include <string.h>

/**
 * A record, its fields in the order of their places. Which of them a kind uses, and what for, is the table in book.h.
 * Every value in its range fits: n1 to n5, m1 and m2 are signed here, since some kinds have them so.
 */
struct book_row {
#if defined(__cplusplus) && __cplusplus >= 201402L /* zero by themselves, so that an initializer may be short */
    uint8_t kind = 0, type = 0, status = 0, flags = 0;
    uint32_t party = 0;
    uint64_t id = 0;
    char symbol[9] = {};
    int32_t n1 = 0, n2 = 0, n3 = 0, n4 = 0;
    int64_t m1 = 0, m2 = 0;
    uint32_t time = 0;
    int32_t n5 = 0;
#else
    uint8_t kind, type, status, flags;
    uint32_t party;
    uint64_t id;
    char symbol[9]; /**< the eight bytes of the record, and an end */
    int32_t n1, n2, n3, n4;
    int64_t m1, m2;
    uint32_t time;
    int32_t n5;
#endif
};

/** @name A number that begins at this byte, on any machine: `book_get_u32(record + BOOK_AT_PARTY)`. */
/** @{ */
/** A number of four bytes. */
static inline uint32_t book_get_u32(const uint8_t *at)
{
    return at[0] | (uint32_t)at[1] << 8 | (uint32_t)at[2] << 16 | (uint32_t)at[3] << 24;
}

/** A number of eight bytes. */
static inline uint64_t book_get_u64(const uint8_t *at)
{
    return book_get_u32(at) | (uint64_t)book_get_u32(at + 4) << 32;
}

/** A signed number of four bytes. */
static inline int32_t book_get_i32(const uint8_t *at)
{
    uint32_t number = book_get_u32(at);
    return number <= INT32_MAX ? (int32_t)number : -(int32_t)(UINT32_MAX - number) - 1;
}

/** A signed number of eight bytes. */
static inline int64_t book_get_i64(const uint8_t *at)
{
    uint64_t number = book_get_u64(at);
    return number <= INT64_MAX ? (int64_t)number : -(int64_t)(UINT64_MAX - number) - 1;
}

/** Writes four bytes. A signed number may be given, too: it is written as two's complement. */
static inline void book_put_u32(uint8_t *at, uint32_t number)
{
    size_t n;
    for (n = 0; n < 4; n++)
        at[n] = (uint8_t)(number >> 8 * n);
}

/** Writes eight bytes. A signed number may be given, too: it is written as two's complement. */
static inline void book_put_u64(uint8_t *at, uint64_t number)
{
    book_put_u32(at, (uint32_t)number);
    book_put_u32(at + 4, (uint32_t)(number >> 32));
}
/** @} */

/** Writes all BOOK_RECORD_SIZE bytes of the record. Of the symbol eight are taken, what comes after them is not. */
static inline void book_write_row(uint8_t *record, const struct book_row *row)
{
    record[BOOK_AT_KIND] = row->kind;
    record[BOOK_AT_TYPE] = row->type;
    record[BOOK_AT_STATUS] = row->status;
    record[BOOK_AT_FLAGS] = row->flags;
    book_put_u32(record + BOOK_AT_PARTY, row->party);
    book_put_u64(record + BOOK_AT_ID, row->id);
    memcpy(record + BOOK_AT_SYMBOL, row->symbol, 8);
    book_put_u32(record + BOOK_AT_N1, (uint32_t)row->n1);
    book_put_u32(record + BOOK_AT_N2, (uint32_t)row->n2);
    book_put_u32(record + BOOK_AT_N3, (uint32_t)row->n3);
    book_put_u32(record + BOOK_AT_N4, (uint32_t)row->n4);
    book_put_u64(record + BOOK_AT_M1, (uint64_t)row->m1);
    book_put_u64(record + BOOK_AT_M2, (uint64_t)row->m2);
    book_put_u32(record + BOOK_AT_TIME, row->time);
    book_put_u32(record + BOOK_AT_N5, (uint32_t)row->n5);
}

/** Reads BOOK_RECORD_SIZE bytes. Written again they are the same, whatever they are. */
static inline struct book_row book_read_row(const uint8_t *record)
{
    struct book_row row;
    row.kind = record[BOOK_AT_KIND];
    row.type = record[BOOK_AT_TYPE];
    row.status = record[BOOK_AT_STATUS];
    row.flags = record[BOOK_AT_FLAGS];
    row.party = book_get_u32(record + BOOK_AT_PARTY);
    row.id = book_get_u64(record + BOOK_AT_ID);
    memcpy(row.symbol, record + BOOK_AT_SYMBOL, 8);
    row.symbol[8] = '\0';
    row.n1 = book_get_i32(record + BOOK_AT_N1);
    row.n2 = book_get_i32(record + BOOK_AT_N2);
    row.n3 = book_get_i32(record + BOOK_AT_N3);
    row.n4 = book_get_i32(record + BOOK_AT_N4);
    row.m1 = book_get_i64(record + BOOK_AT_M1);
    row.m2 = book_get_i64(record + BOOK_AT_M2);
    row.time = book_get_u32(record + BOOK_AT_TIME);
    row.n5 = book_get_i32(record + BOOK_AT_N5);
    return row;
}

/** Makes a book of these rows, the places behind them free. Gives 1, or 0 if it is too short for them. */
static inline int book_write_rows(uint8_t *book, size_t book_len, const struct book_row *rows, size_t count)
{
    size_t n;
    if (count > book_len / BOOK_RECORD_SIZE)
        return 0;
    memset(book, 0, book_len);
    for (n = 0; n < count; n++)
        book_write_row(book + n * BOOK_RECORD_SIZE, &rows[n]);
    return 1;
}

/**
 * Has a call with this row run: `book_ask(book_order, book, sizeof book, &order, &answer)`. For book_order,
 * book_result and book_feed, with one input record. Gives the status; the answer may be the row that was asked with.
 */
static inline int32_t book_ask(int32_t (*call)(uint8_t *, size_t, const uint8_t *, size_t, uint8_t *, size_t),
                               uint8_t *book, size_t book_len, const struct book_row *asked, struct book_row *answer)
{
    uint8_t input[BOOK_RECORD_SIZE], output[BOOK_RECORD_SIZE];
    int32_t status;
    book_write_row(input, asked);
    status = call(book, book_len, input, sizeof input, output, sizeof output);
    *answer = book_read_row(output);
    return status;
}

/** The tax in the answer of an order or a result: it is where a row has its symbol. */
static inline int64_t book_row_tax(const struct book_row *answer)
{
    uint8_t bytes[8];
    memcpy(bytes, answer->symbol, 8);
    return book_get_i64(bytes);
}

/** What a call's status means, or a text that says that it is none. */
static inline const char *book_status_text(int32_t status)
{
    switch (status) {
    case BOOK_DONE: return "no refusal";
    case BOOK_BAD_LENGTH: return "input or answer area has the wrong length";
    case BOOK_BAD_BOOK: return "book length is 0, no multiple of 64, or over 4,096 records";
    case BOOK_UNSOUND: return "the book is not sound";
    case BOOK_BAD_INPUT: return "an input field breaks its rule";
    case BOOK_ORDER_NO_ACCOUNT: return "order: no such account";
    case BOOK_ORDER_NOT_PERMITTED: return "order: the named executor has no permission for the account";
    case BOOK_ORDER_NO_SECURITY: return "order: no such security";
    case BOOK_ORDER_NO_TAX: return "order: gain and tax status 1 or 2, yet the customer's rates sum to 0";
    case BOOK_ORDER_NO_RATE: return "order: the band's rate is 0";
    case BOOK_ORDER_NO_BAND: return "order: no band holds the shares";
    case BOOK_ORDER_NO_CHARGE: return "order: charge 0 or no row";
    case BOOK_RESULT_NO_TRADE: return "result: no such trade";
    case BOOK_RESULT_NOT_SUBMITTED: return "result: the trade's status is not 2, submitted";
    case BOOK_RESULT_NO_TAX: return "result: gain and tax status 1 or 2, yet the customer's rates sum to 0";
    case BOOK_RESULT_NO_RATE: return "result: the band's rate is 0";
    case BOOK_RESULT_NO_BAND: return "result: no band holds the shares";
    case BOOK_FEED_NO_SECURITY: return "feed: an entry's security is unknown";
    case BOOK_LOOKUP_NO_TRADE: return "lookup: a trade is unknown";
    case BOOK_OVER_LIMIT:
        return "trade number, balance, broker's trades or commission total, or volume would leave its range";
    case BOOK_NO_ROOM: return "free places at entry are fewer than rows to add";
    default: return "no status of this library";
    }
}

/** The name of a call's status in book.h, as "BOOK_DONE", or "". */
static inline const char *book_status_name(int32_t status)
{
#define BOOK_NAME_(name) case name: return #name
    switch (status) {
    BOOK_NAME_(BOOK_DONE);
    BOOK_NAME_(BOOK_BAD_LENGTH);
    BOOK_NAME_(BOOK_BAD_BOOK);
    BOOK_NAME_(BOOK_UNSOUND);
    BOOK_NAME_(BOOK_BAD_INPUT);
    BOOK_NAME_(BOOK_ORDER_NO_ACCOUNT);
    BOOK_NAME_(BOOK_ORDER_NOT_PERMITTED);
    BOOK_NAME_(BOOK_ORDER_NO_SECURITY);
    BOOK_NAME_(BOOK_ORDER_NO_TAX);
    BOOK_NAME_(BOOK_ORDER_NO_RATE);
    BOOK_NAME_(BOOK_ORDER_NO_BAND);
    BOOK_NAME_(BOOK_ORDER_NO_CHARGE);
    BOOK_NAME_(BOOK_RESULT_NO_TRADE);
    BOOK_NAME_(BOOK_RESULT_NOT_SUBMITTED);
    BOOK_NAME_(BOOK_RESULT_NO_TAX);
    BOOK_NAME_(BOOK_RESULT_NO_RATE);
    BOOK_NAME_(BOOK_RESULT_NO_BAND);
    BOOK_NAME_(BOOK_FEED_NO_SECURITY);
    BOOK_NAME_(BOOK_LOOKUP_NO_TRADE);
    BOOK_NAME_(BOOK_OVER_LIMIT);
    BOOK_NAME_(BOOK_NO_ROOM);
    default: return "";
    }
#undef BOOK_NAME_
}

/** The name of a kind, as "tax rate", "free" for 0, or "". */
static inline const char *book_kind_name(uint8_t kind)
{
    switch (kind) {
    case 0: return "free";
    case BOOK_KIND_BROKER: return "broker";
    case BOOK_KIND_CUSTOMER: return "customer";
    case BOOK_KIND_TAX_RATE: return "tax rate";
    case BOOK_KIND_CUSTOMER_RATE: return "customer's rate";
    case BOOK_KIND_ACCOUNT: return "account";
    case BOOK_KIND_SECURITY: return "security";
    case BOOK_KIND_BAND: return "commission band";
    case BOOK_KIND_CHARGE: return "charge";
    case BOOK_KIND_TRADE: return "trade";
    case BOOK_KIND_REQUEST: return "request";
    case BOOK_KIND_HISTORY: return "trade history";
    case BOOK_KIND_LOT: return "lot";
    case BOOK_KIND_SUMMARY: return "summary";
    case BOOK_KIND_LOT_HISTORY: return "lot history";
    case BOOK_KIND_SETTLEMENT: return "settlement";
    case BOOK_KIND_CASH: return "cash";
    case BOOK_KIND_PERMISSION: return "permission";
    case BOOK_KIND_ORDER: return "order";
    case BOOK_KIND_RESULT: return "result";
    case BOOK_KIND_FEED: return "feed";
    case BOOK_KIND_LOOKUP: return "lookup";
    default: return "";
    }
}

/** The name of a trade type, as "market buy", or "". */
static inline const char *book_type_name(uint8_t type)
{
    switch (type) {
    case BOOK_TMB: return "market buy";
    case BOOK_TMS: return "market sell";
    case BOOK_TLB: return "limit buy";
    case BOOK_TLS: return "limit sell";
    case BOOK_TSL: return "stop loss";
    default: return "";
    }
}

/** The name of a trade status, as "pending", or "". */
static inline const char *book_trade_status_name(uint8_t status)
{
    switch (status) {
    case BOOK_PNDG: return "pending";
    case BOOK_SBMT: return "submitted";
    case BOOK_CMPT: return "completed";
    default: return "";
    }
}

#endif
