/**
 * @file
 * The calls of the proved book, for C99 and C++11. Link libbook.a or libbook.so.
 *
 * A book is a run of 1 to 4,096 records of 64 bytes, without a header. A record of 64 zeros is free. Every other one
 * is a row of one of the kinds 1 to 17 below. Numbers are little-endian, signed ones two's complement. What a client
 * needs first, reading and writing rows and the text of a status, is in book_row.h.
 *
 * For every call:
 * - An area is a pointer and its length in bytes. Any alignment will do. The areas of one call must not overlap.
 * - A NULL pointer with length 0 is an empty area. Nothing is read or written outside the areas.
 * - It returns its status: the first of its statuses, in the order of checking, whose condition holds, else 0.
 * - BOOK_BAD_LENGTH writes nothing at all. Any other refusal leaves the book as it was and fills the answer with
 *   zeros, but for the status, signed, in bytes 60 to 63 of the whole area. On success these four bytes are zero.
 *   An area that is refused for its length is not read, whatever the length.
 * - What was in the answer area before does not matter.
 * - No state is kept between calls, nothing is allocated, and no call blocks. Threads may call at once if no area that
 *   one of them may write is an area of another.
 * - A call takes at most BOOK_MOST_STACK bytes of stack, 256 KiB. The most that was measured is 114 KiB, on x86-64.
 *
 * The kinds
 * =========
 *
 * Each kind with the fields that it uses; all other fields are zero. A star marks the key. Fields are unsigned unless
 * they are called signed. Money is in cents, times are seconds from 2000-01-01. A symbol is 1 to 7 of A-Z, 0-9, "."
 * and "-", then zeros; its last byte is always zero. Trade types are listed at BOOK_TMB, trade statuses at BOOK_PNDG.
 * No call adds a row of kinds 1 to 8 or 17: the caller does. Kinds 33 to 36 are what the calls are asked with.
 * @verbatim
 *  1 broker
 *    * party   1..999,999,999                 its number
 *      n1      0..999,999,999                 trades that it carried out
 *      m1      0..999,999,999,999,999         its commissions in all
 *  2 customer
 *    * party   1..999,999,999                 its number
 *      type    1..3                           its tier
 *  3 tax rate
 *    * party   1..999,999,999                 its number
 *      n1      0..100,000                     the rate, in hundred-thousandths
 *  4 customer's rate: this customer pays this tax rate
 *    * party   1..999,999,999                 the customer
 *    * n1      1..999,999,999                 the tax rate's number
 *  5 account
 *    * party   1..999,999,999                 its number
 *      type    0..2                           tax status: 0 none, 1 taken from settlements, 2 recorded only
 *      n1      1..999,999,999                 its broker
 *      n2      1..999,999,999                 its customer
 *      m1      -999,999,999,999,999..999,999,999,999,999   its balance, signed
 *  6 security
 *    * symbol
 *      type    1..4                           its exchange
 *      n1      1..99,999,999                  its last price
 *      m1      0..999,999,999,999             its volume, in shares
 *      time    0..4,000,000,000               of the last price
 *  7 commission band: the rate for orders of n1 to n2 shares
 *    * type    1..5                           the trade type
 *    * status  1..3                           the customer's tier
 *    * flags   1..4                           the security's exchange
 *    * n1      1..999,999                     from so many shares
 *      n2      1..999,999                     to so many shares, not below n1
 *      n3      0..10,000                      the rate, in hundredths of a percent
 *  8 charge
 *    * type    1..5                           the trade type
 *    * status  1..3                           the customer's tier
 *      n1      0..999,999                     the charge of an order
 *  9 trade
 *    * id      1..999,999,999,999,999         its number
 *      type    1..5                           its trade type
 *      status  1..3                           its trade status
 *      flags   0..3                           BOOK_FLAG_CASH and BOOK_FLAG_LIFO, added up
 *      party   1..999,999,999                 its account
 *      symbol                                 its security
 *      n1      1..999,999                     its shares
 *      n2      1..99,999,999                  the bid, or the last price when it was ordered
 *      n3      0..99,999,999                  the price that it was carried out at: 0 until status 3, and not 0 then
 *      n4      0..999,999                     the charge
 *      m1      0..100,000,000,000,000         the commission, estimated until status 3
 *      m2      0..100,000,000,000,000         the tax: 0 until status 3
 *      time    0..4,000,000,000               of its present status
 * 10 request: a pending trade that waits for its price
 *    * id      1..999,999,999,999,999         the trade
 *      type    1..5                           the trade's
 *      party   1..999,999,999                 the broker of the trade's account
 *      symbol                                 the trade's
 *      n1      1..999,999                     the trade's shares
 *      n2      1..99,999,999                  the trade's bid
 * 11 trade history: when a trade took a status
 *    * status  1..3                           the trade status
 *    * id      1..999,999,999,999,999         the trade
 *      time    0..4,000,000,000               when
 * 12 lot: shares that an account holds, or owes, by one trade
 *    * id      1..999,999,999,999,999         the trade
 *      party   1..999,999,999                 the account
 *      symbol                                 the security
 *      n1      1..99,999,999                  the price that they were bought or sold at
 *      m1      -999,999..999,999              the shares, signed, below 0 where they are owed; never 0
 *      time    0..4,000,000,000               when
 * 13 summary: the sum of the lots of one account and symbol
 *    * party   1..999,999,999                 the account
 *    * symbol                                 the security
 *      m1      any but 0                      the shares, signed
 * 14 lot history: how a trade changed a lot
 *    * id      1..999,999,999,999,999         the lot, which may be gone
 *    * m2      1..999,999,999,999,999         the trade that changed it
 *      n1      -999,999..999,999              the lot's shares before, signed
 *      n2      -999,999..999,999              and after, signed, not equal to n1
 * 15 settlement
 *    * id      1..999,999,999,999,999         the trade
 *      flags   0..1                           BOOK_FLAG_CASH if the trade is cash
 *      m1      -999,999,999,999,999..999,999,999,999,999   the amount, signed, below 0 for a buy
 *      time    0..4,000,172,800               when it is due
 * 16 cash
 *    * id      1..999,999,999,999,999         the trade
 *      m1      -999,999,999,999,999..999,999,999,999,999   the amount, signed
 *      time    0..4,000,000,000               when
 * 17 permission: this executor may order for this account
 *    * party   1..999,999,999                 the account
 *    * n1      1..999,999,999                 the executor, whose number names no row
 * 33 order
 *      type    1..5                           the trade type
 *      flags   0..7                           BOOK_FLAG_CASH, BOOK_FLAG_LIFO and BOOK_FLAG_ROLL_BACK, added up
 *      party   1..999,999,999                 the account
 *      symbol                                 the security
 *      n1      1..999,999                     the shares
 *      n2      0..99,999,999                  the bid: 0 for types 1 and 2, and not 0 for the others
 *      n3      0..999,999,999                 the executor: 0 is the account's owner, any other needs a permission
 *      time    0..4,000,000,000               when
 * 34 result
 *      id      1..999,999,999,999,999         the trade
 *      n1      1..99,999,999                  the price
 *      time    0..4,000,000,000               when
 * 35 feed
 *      symbol                                 the security
 *      n1      1..99,999,999                  its new price
 *      n2      1..999,999                     the shares that were traded
 *      time    0..4,000,000,000               when
 * 36 lookup
 *      id      1..999,999,999,999,999         the trade
 * @endverbatim
 *
 * A sound book
 * ============
 *
 * A call refuses a book with BOOK_UNSOUND unless all of this holds. An accepted call leaves a sound book. `book-check`
 * names the rule that a book breaks, and the place.
 * @verbatim
 * S1  every record is free or fits the table above
 * S2  keys are unique within a kind
 * S3  every broker, customer, tax rate, account, security and trade that a row names is there
 * S4  bands of equal type, tier and exchange do not overlap
 * S5  a customer's tax rates sum to at most 100,000
 * S6  a trade of status 1 has type 3, 4 or 5 and a request that agrees with it; no other trade has a request
 * S7  a trade has the history row of its present status and none of a higher one
 * S8  a lot names a completed trade of its account and symbol; lots of one account and symbol have one sign; a summary
 *     is there exactly where lots are, and equals their sum
 * S9  a settlement is there exactly for a completed trade, its flag the trade's cash flag; a cash row is there exactly
 *     where that flag is 1, with the same amount
 * S10 both trades of a lot history are completed
 * @endverbatim
 *
 * A smallest book
 * ===============
 *
 * One free record is a sound book. The smallest on which a market buy can be ordered and carried out has 13 records:
 * these six rows, and free places for the two that the order adds and the five of the result (six for a cash trade).
 * @verbatim
 * broker    party 1
 * customer  party 1, type 1
 * account   party 1, n1 1, n2 1
 * security  symbol ABC, type 1, n1 2,000
 * band      type 1, status 1, flags 1, n1 1, n2 1,000, n3 50
 * charge    type 1, status 1, n1 500
 * @endverbatim
 */
#ifndef BOOK_H
#define BOOK_H

#include <stddef.h>
#include <stdint.h>

#ifdef __cplusplus
extern "C" {
#endif

/* What stands between this line and the one that ends it is plain enough for cffi. */

/** @name The version: of the header, the archive and the shared object. */
/** @{ */
#define BOOK_VERSION_MAJOR 1 /**< rises when a call that was accepted may now leave other bytes */
#define BOOK_VERSION_MINOR 0 /**< rises with new calls, kinds or statuses, or if a refused call may be accepted now */
#define BOOK_VERSION_PATCH 0 /**< rises with any other change */
/** @} */

/** @name What a call returns, in the order of checking. The comment is the condition. */
/** @{ */
#define BOOK_DONE 0                    /**< no refusal */
#define BOOK_BAD_LENGTH -100           /**< input or answer area has the wrong length */
#define BOOK_BAD_BOOK -101             /**< book length is 0, no multiple of 64, or over 4,096 records */
#define BOOK_UNSOUND -102              /**< the book is not sound */
#define BOOK_BAD_INPUT -103            /**< an input field breaks its rule */
#define BOOK_ORDER_NO_ACCOUNT -711     /**< order: no such account */
#define BOOK_ORDER_NOT_PERMITTED -721  /**< order: the named executor has no permission for the account */
#define BOOK_ORDER_NO_SECURITY -712    /**< order: no such security */
#define BOOK_ORDER_NO_TAX -731         /**< order: gain and tax status 1 or 2, yet the customer's rates sum to 0 */
#define BOOK_ORDER_NO_RATE -732        /**< order: the band's rate is 0 */
#define BOOK_ORDER_NO_BAND -735        /**< order: no band holds the shares */
#define BOOK_ORDER_NO_CHARGE -733      /**< order: charge 0 or no row */
#define BOOK_RESULT_NO_TRADE -811      /**< result: no such trade */
#define BOOK_RESULT_NOT_SUBMITTED -812 /**< result: the trade's status is not 2, submitted */
#define BOOK_RESULT_NO_TAX -831        /**< result: gain and tax status 1 or 2, yet the customer's rates sum to 0 */
#define BOOK_RESULT_NO_RATE -841       /**< result: the band's rate is 0 */
#define BOOK_RESULT_NO_BAND -842       /**< result: no band holds the shares */
#define BOOK_FEED_NO_SECURITY -311     /**< feed: an entry's security is unknown */
#define BOOK_LOOKUP_NO_TRADE -611      /**< lookup: a trade is unknown */
#define BOOK_OVER_LIMIT -104           /**< trade number, balance, broker's trades or commission total, or volume
                                            would leave its range */
#define BOOK_NO_ROOM -105              /**< free places at entry are fewer than rows to add */
/** @} */

/** @name Sizes. */
/** @{ */
#define BOOK_RECORD_SIZE 64    /**< bytes of a record */
#define BOOK_MOST_RECORDS 4096 /**< of a book */
#define BOOK_MOST_INPUTS 20    /**< records of one feed or lookup */
#define BOOK_MOST_STACK 262144 /**< bytes of stack that a call takes, with all that it calls */
/** @} */

/** @name Where a field of a record begins. Fields that a kind does not use are zero. */
/** @{ */
#define BOOK_AT_KIND 0    /**< 1 byte */
#define BOOK_AT_TYPE 1    /**< 1 byte */
#define BOOK_AT_STATUS 2  /**< 1 byte */
#define BOOK_AT_FLAGS 3   /**< 1 byte */
#define BOOK_AT_PARTY 4   /**< 4 bytes */
#define BOOK_AT_ID 8      /**< 8 bytes */
#define BOOK_AT_SYMBOL 16 /**< 8 bytes; in the answer of an order or a result the tax, little-endian */
#define BOOK_AT_N1 24     /**< 4 bytes */
#define BOOK_AT_N2 28     /**< 4 bytes */
#define BOOK_AT_N3 32     /**< 4 bytes */
#define BOOK_AT_N4 36     /**< 4 bytes */
#define BOOK_AT_M1 40     /**< 8 bytes */
#define BOOK_AT_M2 48     /**< 8 bytes */
#define BOOK_AT_TIME 56   /**< 4 bytes */
#define BOOK_AT_N5 60     /**< 4 bytes: zero in every row; the status in an answer */
/** @} */

/** @name The kinds of rows. */
/** @{ */
#define BOOK_KIND_BROKER 1        /**< broker */
#define BOOK_KIND_CUSTOMER 2      /**< customer */
#define BOOK_KIND_TAX_RATE 3      /**< tax rate */
#define BOOK_KIND_CUSTOMER_RATE 4 /**< customer's rate */
#define BOOK_KIND_ACCOUNT 5       /**< account */
#define BOOK_KIND_SECURITY 6      /**< security */
#define BOOK_KIND_BAND 7          /**< commission band */
#define BOOK_KIND_CHARGE 8        /**< charge */
#define BOOK_KIND_TRADE 9         /**< trade */
#define BOOK_KIND_REQUEST 10      /**< request */
#define BOOK_KIND_HISTORY 11      /**< trade history */
#define BOOK_KIND_LOT 12          /**< lot */
#define BOOK_KIND_SUMMARY 13      /**< summary */
#define BOOK_KIND_LOT_HISTORY 14  /**< lot history */
#define BOOK_KIND_SETTLEMENT 15   /**< settlement */
#define BOOK_KIND_CASH 16         /**< cash */
#define BOOK_KIND_PERMISSION 17   /**< permission */
/** @} */

/** @name The kinds of input records. An order, a result and a feed answer one record of the same kind. */
/** @{ */
#define BOOK_KIND_ORDER 33  /**< order */
#define BOOK_KIND_RESULT 34 /**< result */
#define BOOK_KIND_FEED 35   /**< feed */
#define BOOK_KIND_LOOKUP 36 /**< lookup */
/** @} */

/** @name Trade types: 1 and 3 buy, the others sell. */
/** @{ */
#define BOOK_TMB 1 /**< market buy */
#define BOOK_TMS 2 /**< market sell */
#define BOOK_TLB 3 /**< limit buy */
#define BOOK_TLS 4 /**< limit sell */
#define BOOK_TSL 5 /**< stop loss */
/** @} */

/** @name Trade statuses. */
/** @{ */
#define BOOK_PNDG 1 /**< pending */
#define BOOK_SBMT 2 /**< submitted */
#define BOOK_CMPT 3 /**< completed */
/** @} */

/** @name Flags, added up. Trades have the first two, settlements the first, order inputs all three. */
/** @{ */
#define BOOK_FLAG_CASH 1      /**< cash */
#define BOOK_FLAG_LIFO 2      /**< LIFO */
#define BOOK_FLAG_ROLL_BACK 4 /**< roll back */
/** @} */

/**
 * Trade-Order: a new trade.
 *
 * @param book       read and written
 * @param book_len   64 times the number of records, 1 to 4,096
 * @param input      read: one record of kind 33
 * @param input_len  64
 * @param answer     written: one record
 * @param answer_len 64
 * @return the status
 *
 * Statuses, in the order of checking: BOOK_BAD_LENGTH, BOOK_BAD_BOOK, BOOK_UNSOUND, BOOK_BAD_INPUT,
 * BOOK_ORDER_NO_ACCOUNT, BOOK_ORDER_NOT_PERMITTED, BOOK_ORDER_NO_SECURITY, BOOK_ORDER_NO_TAX, BOOK_ORDER_NO_RATE,
 * BOOK_ORDER_NO_BAND, BOOK_ORDER_NO_CHARGE, BOOK_OVER_LIMIT (the trade's number would be above 999,999,999,999,999),
 * BOOK_NO_ROOM, BOOK_DONE. With roll back they are the same.
 *
 * The owner, n3 0, may always order. Another executor needs the permission row of the order's account and n3:
 * BOOK_ORDER_NOT_PERMITTED where the book has none. No row that is added bears the executor.
 *
 * The trade's number is one more than the largest trade number of the book, or 1 if it has no trade. The price used is
 * the security's last price for types 1 and 2, and the bid for the others. The estimates are made at that price:
 * - A sell would close the account's positive lots of the symbol, a buy its negative ones, by rising time and then
 *   trade number, or both falling with LIFO, until as many shares are closed as the order has or no lot is left. For a
 *   sell, closed shares add their lot's price to the bought value and the price used to the sold value; for a buy, the
 *   reverse.
 * - The tax is (sold - bought) * sum of the customer's rates / 100,000 for an account of tax status 1 or 2 with
 *   sold > bought, else 0. The commission is rate * shares * price / 10,000, by the band of the order's type, the
 *   customer's tier and the security's exchange that holds the shares. Both are rounded to the nearest cent,
 *   halves up. BOOK_ORDER_NO_BAND: the book has no such band. BOOK_ORDER_NO_RATE: it has one, whose rate (n3) is 0.
 * - The charge is that of the order's type and the customer's tier.
 *
 * On BOOK_DONE without roll back these rows were added, on the lowest free places and in this order:
 * - the trade: its number; type, account, symbol, shares and time of the input; flags cash and LIFO as there; status 2
 *   for types 1 and 2, else 1; n2 the price used, n3 0, n4 the charge, m1 the commission, m2 0
 * - its history row: number, status and time
 * - for status 1 alone, its request: number, type, symbol, n1 shares, n2 the price used, party the account's broker
 * The book is sound again, and no other byte of it changed. With roll back no byte of the book changed, and the answer
 * is the same. The answer is zeros but for these fields:
 *
 * @verbatim
 *   kind  byte 0       33
 *   id    bytes 8-15   the trade's number
 *         bytes 16-23  the tax, little-endian, where a row has its symbol
 *   n1    bytes 24-27  the charge
 *   n2    bytes 28-31  the rate of the commission, in hundredths of a percent
 *   n3    bytes 32-35  the price used
 *   m1    bytes 40-47  the bought value
 *   m2    bytes 48-55  the sold value
 * @endverbatim
 */
int32_t book_order(uint8_t *book, size_t book_len, const uint8_t *input, size_t input_len, uint8_t *answer,
                   size_t answer_len);

/**
 * Trade-Result: a submitted trade is carried out, at the price of the result.
 *
 * @param book       read and written
 * @param book_len   64 times the number of records, 1 to 4,096
 * @param input      read: one record of kind 34
 * @param input_len  64
 * @param answer     written: one record
 * @param answer_len 64
 * @return the status
 *
 * Statuses, in the order of checking: BOOK_BAD_LENGTH, BOOK_BAD_BOOK, BOOK_UNSOUND, BOOK_BAD_INPUT,
 * BOOK_RESULT_NO_TRADE, BOOK_RESULT_NOT_SUBMITTED, BOOK_RESULT_NO_TAX, BOOK_RESULT_NO_RATE, BOOK_RESULT_NO_BAND,
 * BOOK_OVER_LIMIT (the broker's trades would be above 999,999,999, its commission total above 999,999,999,999,999, or
 * the balance, if the trade is cash, outside -999,999,999,999,999..999,999,999,999,999), BOOK_NO_ROOM, BOOK_DONE.
 *
 * What the trade comes to:
 * - A sell closes the account's positive lots of the symbol, a buy its negative ones, by rising time and then trade
 *   number, or both falling if the trade is LIFO, until as many shares are closed as the trade has or no lot is left.
 *   The last lot may be closed in part. For a sell, closed shares add their lot's price to the bought value and the
 *   result's price to the sold value; for a buy, the reverse. Shares that close no lot open a new one.
 * - The tax is (sold - bought) * sum of the customer's rates / 100,000 for an account of tax status 1 or 2 with
 *   sold > bought, else 0. The commission is rate * shares * price / 10,000, by the band of the trade's type, the
 *   customer's tier and the security's exchange that holds the trade's shares. Both are rounded to the nearest cent,
 *   halves up. BOOK_RESULT_NO_BAND: the book has no such band. BOOK_RESULT_NO_RATE: it has one, whose rate (n3) is 0.
 * - The settlement is shares * price - charge - commission for a sell, and -(shares * price + charge + commission)
 *   for a buy, by the charge that the trade's row has; less the tax for an account of tax status 1 alone.
 *
 * On BOOK_DONE these rows changed:
 * - the trade: status 3, n3 the price, m1 the commission, m2 the tax, and the result's time
 * - each lot that was closed in part: m1 what is left of it. A lot that was closed became a free record
 * - the summary of the account and symbol: m1 more by a buy's shares, or less by a sell's, even where its sign
 *   changes. At zero it became a free record
 * - the account's broker: n1 more by one trade, m1 by the commission
 * - for a cash trade alone, the account: m1 more by the settlement
 * and these were added, in this order, on the lowest places that were free when the call began: places that this call
 * freed are not among them, nor do they count for BOOK_NO_ROOM.
 * - for each lot that was closed or closed in part, in the order of closing, a lot history: id the lot's number, m2
 *   the trade's, n1 and n2 the lot's shares before and after
 * - where shares are left over, a lot history of the new lot: id and m2 the trade's number, n1 0, n2 the lot's shares;
 *   and the lot: number, account and symbol of the trade, the result's price and time, m1 the shares, negative for a
 *   sell
 * - where the account had no summary of the symbol, that summary
 * - a history row: the trade's number, status 3 and the result's time
 * - the settlement: the trade's number and its flag cash, m1 the amount, time 172,800 after the result's
 * - for a cash trade alone, the cash row: the trade's number, m1 the same amount and the result's time
 * The book is sound again, and no other byte of it changed. The answer is zeros but for these fields:
 *
 * @verbatim
 *   kind   byte 0       34
 *   party  bytes 4-7    the account
 *   id     bytes 8-15   the trade's number
 *          bytes 16-23  the tax, little-endian, where a row has its symbol
 *   m1     bytes 40-47  the account's balance, signed, as it is now
 *   m2     bytes 48-55  the settlement, signed
 * @endverbatim
 */
int32_t book_result(uint8_t *book, size_t book_len, const uint8_t *input, size_t input_len, uint8_t *answer,
                    size_t answer_len);

/**
 * Market-Feed: new prices. Entries apply in turn, all of them or none.
 *
 * @param book       read and written
 * @param book_len   64 times the number of records, 1 to 4,096
 * @param input      read: 1 to 20 records of kind 35
 * @param input_len  64 times their number
 * @param answer     written: one record
 * @param answer_len 64
 * @return the status
 *
 * Statuses, in the order of checking: BOOK_BAD_LENGTH, BOOK_BAD_BOOK, BOOK_UNSOUND, BOOK_BAD_INPUT (any entry),
 * BOOK_FEED_NO_SECURITY (any entry), BOOK_OVER_LIMIT (a volume above 999,999,999,999), BOOK_NO_ROOM, BOOK_DONE.
 *
 * On BOOK_DONE each entry in turn has set its security's last price (n1) and time and added its shares to the volume
 * (m1). Then each request on its symbol with type TLB or TSL and bid >= price, or type TLS and bid <= price, by rising
 * trade number, became a free record; its trade took status 2 and the entry's time; and a history row of status 2 and
 * that time was added. Added rows are on the lowest places that were free when the call began, in the order in which
 * they were added: places that this call freed are not among them. The book is sound again, and no other byte of it
 * changed. The answer is zeros but for: kind 35, n1 entries applied, n2 trades submitted.
 */
int32_t book_feed(uint8_t *book, size_t book_len, const uint8_t *input, size_t input_len, uint8_t *answer,
                  size_t answer_len);

/**
 * Trade-Lookup: trades by their numbers.
 *
 * @param book       read only
 * @param book_len   64 times the number of records, 1 to 4,096
 * @param input      read: 1 to 20 records of kind 36; a number may come again
 * @param input_len  64 times their number
 * @param answer     written: two records for each of the input
 * @param answer_len 2 times input_len
 * @return the status
 *
 * Statuses, in the order of checking: BOOK_BAD_LENGTH, BOOK_BAD_BOOK, BOOK_UNSOUND, BOOK_BAD_INPUT (any record),
 * BOOK_LOOKUP_NO_TRADE (any record), BOOK_DONE.
 *
 * On BOOK_DONE the answer has, for each input record in turn, the trade's row and then its settlement's row, or 64
 * zeros where the trade has none.
 */
int32_t book_lookup(const uint8_t *book, size_t book_len, const uint8_t *input, size_t input_len, uint8_t *answer,
                    size_t answer_len);

/* Here ends what cffi reads. */

#ifdef __cplusplus
}
#endif

#endif
