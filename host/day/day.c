/*
 * day [FILE]: a small day at the broker through book.h, on a sample book. It prints what each call was asked, what it
 * answered and which rows came, went or changed, then holds the day's figures to those that are expected. The book
 * that is left goes to FILE. The status is 0 if all is as expected, 1 if not, and 2 if FILE cannot be written.
 */
#include "words.h"

#include <inttypes.h>
#include <stdio.h>
#include <string.h>

enum { ACCOUNT = 1, BROKER = 21, CUSTOMER = 31, TAX_RATE = 41, TIER = 2, EXCHANGE = 3, RECORDS = 48 };
enum { SPOUSE = 51, ADVISER = 52 };
enum { MORNING = 34200, MINUTE = 60 };

/* The account of the rules' figures: 10,000.00, and two lots of ABC. The owner's spouse may order for it, too. Prices
   and amounts are in cents. */
static const struct book_row sample[] = {
    {.kind = BOOK_KIND_BROKER, .party = BROKER, .n1 = 7, .m1 = 9000},
    {.kind = BOOK_KIND_CUSTOMER, .party = CUSTOMER, .type = TIER},
    {.kind = BOOK_KIND_TAX_RATE, .party = TAX_RATE, .n1 = 20000},
    {.kind = BOOK_KIND_CUSTOMER_RATE, .party = CUSTOMER, .n1 = TAX_RATE},
    {.kind = BOOK_KIND_ACCOUNT, .party = ACCOUNT, .n1 = BROKER, .n2 = CUSTOMER, .type = 1, .m1 = 1000000},
    {.kind = BOOK_KIND_SECURITY, .symbol = "ABC", .type = EXCHANGE, .n1 = 3000},
    {.kind = BOOK_KIND_BAND, .type = BOOK_TMS, .status = TIER, .flags = EXCHANGE, .n1 = 1, .n2 = 1000, .n3 = 50},
    {.kind = BOOK_KIND_BAND, .type = BOOK_TLB, .status = TIER, .flags = EXCHANGE, .n1 = 1, .n2 = 1000, .n3 = 50},
    {.kind = BOOK_KIND_BAND, .type = BOOK_TSL, .status = TIER, .flags = EXCHANGE, .n1 = 1, .n2 = 1000, .n3 = 50},
    {.kind = BOOK_KIND_CHARGE, .type = BOOK_TMS, .status = TIER, .n1 = 500},
    {.kind = BOOK_KIND_CHARGE, .type = BOOK_TLB, .status = TIER, .n1 = 750},
    {.kind = BOOK_KIND_CHARGE, .type = BOOK_TSL, .status = TIER, .n1 = 600},
    {.kind = BOOK_KIND_TRADE, .id = 10, .type = BOOK_TMB, .status = BOOK_CMPT, .party = ACCOUNT, .symbol = "ABC",
     .n1 = 100, .n2 = 2000, .n3 = 2000, .time = 100},
    {.kind = BOOK_KIND_HISTORY, .id = 10, .status = BOOK_CMPT, .time = 100},
    {.kind = BOOK_KIND_SETTLEMENT, .id = 10, .m1 = -200000, .time = 100 + 172800},
    {.kind = BOOK_KIND_LOT, .id = 10, .party = ACCOUNT, .symbol = "ABC", .n1 = 2000, .m1 = 100, .time = 100},
    {.kind = BOOK_KIND_TRADE, .id = 11, .type = BOOK_TMB, .status = BOOK_CMPT, .party = ACCOUNT, .symbol = "ABC",
     .n1 = 50, .n2 = 2500, .n3 = 2500, .time = 200},
    {.kind = BOOK_KIND_HISTORY, .id = 11, .status = BOOK_CMPT, .time = 200},
    {.kind = BOOK_KIND_SETTLEMENT, .id = 11, .m1 = -125000, .time = 200 + 172800},
    {.kind = BOOK_KIND_LOT, .id = 11, .party = ACCOUNT, .symbol = "ABC", .n1 = 2500, .m1 = 50, .time = 200},
    {.kind = BOOK_KIND_SUMMARY, .party = ACCOUNT, .symbol = "ABC", .m1 = 150},
    {.kind = BOOK_KIND_PERMISSION, .party = ACCOUNT, .n1 = SPOUSE},
};
enum { SAMPLE_ROWS = sizeof sample / sizeof sample[0] };

struct book {
    uint8_t bytes[RECORDS * BOOK_RECORD_SIZE];
};

/* What a call of one answer record gave, and how many rows of the book it changed. */
struct reply {
    int32_t status;
    size_t changed;
    struct book_row answer;
    int64_t tax; /* of an order or a result: it stands where a row has its symbol */
};

typedef int32_t book_call(uint8_t *, size_t, const uint8_t *, size_t, uint8_t *, size_t);

/* The first row of this kind, id and party, or a row of zeros. */
static struct book_row find(const struct book *book, uint8_t kind, uint64_t id, uint32_t party)
{
    size_t at;
    for (at = 0; at < sizeof book->bytes; at += BOOK_RECORD_SIZE) {
        struct book_row row = book_read_row(book->bytes + at);
        if (row.kind == kind && row.id == id && row.party == party)
            return row;
    }
    return (struct book_row){0};
}

static int64_t balance(const struct book *book)
{
    return find(book, BOOK_KIND_ACCOUNT, 0, ACCOUNT).m1;
}

static void say_status(const char *name, int32_t status)
{
    printf("   %s answered %" PRId32 ": %s\n", name, status, book_status_text(status));
}

static void open_book(struct book *book)
{
    size_t n;
    memset(book, 0, sizeof *book);
    printf("The sample book has %d rows and %d free places:\n", (int)SAMPLE_ROWS, (int)(RECORDS - SAMPLE_ROWS));
    for (n = 0; n < SAMPLE_ROWS; n++) {
        book_write_row(book->bytes + n * BOOK_RECORD_SIZE, &sample[n]);
        printf("   place %2zu  ", n);
        say_row(&sample[n]);
    }
    printf("Account %d begins the day with %s.\n", ACCOUNT, MONEY(balance(book)));
}

/* Has one call of one input record, and prints its status. */
static struct reply run(struct book *book, const char *name, book_call *call, const struct book_row *asked)
{
    struct book before = *book;
    uint8_t input[BOOK_RECORD_SIZE], answer[BOOK_RECORD_SIZE] = {0};
    struct reply reply;
    book_write_row(input, asked);
    reply.status = call(book->bytes, sizeof book->bytes, input, sizeof input, answer, sizeof answer);
    say_status(name, reply.status);
    reply.changed = say_changes(before.bytes, book->bytes, sizeof book->bytes);
    reply.answer = book_read_row(answer);
    reply.tax = book_row_tax(&reply.answer);
    return reply;
}

static struct reply order(struct book *book, const struct book_row *asked)
{
    struct reply reply = run(book, "book_order", book_order, asked);
    const struct book_row *answer = &reply.answer;
    if (reply.status != BOOK_DONE)
        return reply;
    printf("   answer: trade %" PRIu64 ", price %s, charge %s, commission %s %%; ", answer->id, MONEY(answer->n3),
           MONEY(answer->n1), decimal(answer->n2, 2, (char[TEXT]){0}));
    if (answer->m1 == 0 && answer->m2 == 0)
        printf("it closes no lot\n");
    else
        printf("the shares that it closes are bought for %s and sold for %s, tax %s\n", MONEY(answer->m1),
               MONEY(answer->m2), MONEY(reply.tax));
    return reply;
}

static struct reply result(struct book *book, uint64_t trade, int32_t price, uint32_t time)
{
    const struct book_row asked = {.kind = BOOK_KIND_RESULT, .id = trade, .n1 = price, .time = time};
    int64_t before = balance(book);
    struct reply reply = run(book, "book_result", book_result, &asked);
    if (reply.status == BOOK_DONE)
        printf("   answer: account %" PRIu32 ", trade %" PRIu64 ", tax %s, settles %s; balance %s before, %s after\n",
               reply.answer.party, reply.answer.id, MONEY(reply.tax), MONEY(reply.answer.m2), MONEY(before),
               MONEY(reply.answer.m1));
    return reply;
}

static struct reply feed(struct book *book, const struct book_row *asked)
{
    struct reply reply = run(book, "book_feed", book_feed, asked);
    if (reply.status == BOOK_DONE)
        printf("   answer: %s price applied, %s trade submitted\n", COUNT(reply.answer.n1), COUNT(reply.answer.n2));
    return reply;
}

/* Looks two trades up, and gives the status. The settlements are zeros where the trade has none. */
static int32_t look_up(const struct book *book, const uint64_t trades[2], struct book_row rows[4])
{
    uint8_t input[2 * BOOK_RECORD_SIZE], answer[4 * BOOK_RECORD_SIZE] = {0};
    int32_t status;
    size_t n;
    for (n = 0; n < 2; n++)
        book_write_row(input + n * BOOK_RECORD_SIZE, &(struct book_row){.kind = BOOK_KIND_LOOKUP, .id = trades[n]});
    status = book_lookup(book->bytes, sizeof book->bytes, input, sizeof input, answer, sizeof answer);
    say_status("book_lookup", status);
    for (n = 0; n < 4; n++) {
        rows[n] = book_read_row(answer + n * BOOK_RECORD_SIZE);
        if (status != BOOK_DONE)
            continue;
        printf("   answer: ");
        if (rows[n].kind == 0)
            printf("no settlement\n");
        else
            say_row(&rows[n]);
    }
    return status;
}

/* Holds one figure to the one that is expected, and gives how many are wrong. */
static int wrong(const char *name, int64_t found, int64_t expected, int decimals)
{
    if (found == expected)
        printf("   as expected  %s: %s\n", name, decimal(found, decimals, (char[TEXT]){0}));
    else
        printf("   WRONG        %s: %s instead of %s\n", name, decimal(found, decimals, (char[TEXT]){0}),
               decimal(expected, decimals, (char[TEXT]){0}));
    return found != expected;
}

static int wrong_money(const char *name, int64_t found, int64_t expected)
{
    return wrong(name, found, expected, 2);
}

static int wrong_count(const char *name, int64_t found, int64_t expected)
{
    return wrong(name, found, expected, 0);
}

/* Runs the day, and gives how many of its figures are wrong. */
static int run_day(struct book *book)
{
    static const uint64_t looked_up[] = {12, 14};
    struct reply sell, buy, stop, permitted, not_permitted, fence, prices, sold, bought;
    struct book_row by_executor, seen[4];
    int32_t found;
    int faults = 0;

    printf("\n1. Order: account 1 sells 120 ABC at the market, in cash.\n");
    sell = order(book, &(struct book_row){.kind = BOOK_KIND_ORDER, .type = BOOK_TMS, .flags = BOOK_FLAG_CASH,
                                          .party = ACCOUNT, .symbol = "ABC", .n1 = 120, .time = MORNING});
    printf("\n2. Order: account 1 buys 40 ABC if the price falls to 29.00, in cash. It waits.\n");
    buy = order(book, &(struct book_row){.kind = BOOK_KIND_ORDER, .type = BOOK_TLB, .flags = BOOK_FLAG_CASH,
                                         .party = ACCOUNT, .symbol = "ABC", .n1 = 40, .n2 = 2900,
                                         .time = MORNING + MINUTE});
    printf("\n3. Order: account 1 sells 30 ABC if the price falls to 20.00, a stop loss. It waits, and is still "
           "waiting in the evening.\n");
    stop = order(book, &(struct book_row){.kind = BOOK_KIND_ORDER, .type = BOOK_TSL, .party = ACCOUNT, .symbol = "ABC",
                                          .n1 = 30, .n2 = 2000, .time = MORNING + 2 * MINUTE});
    by_executor = (struct book_row){.kind = BOOK_KIND_ORDER, .type = BOOK_TLB, .party = ACCOUNT, .symbol = "ABC",
                                    .n1 = 10, .n2 = 2500, .n3 = SPOUSE, .time = MORNING + 3 * MINUTE};
    printf("\n4. Order: the owner's spouse, executor %d, buys 10 ABC for account 1 if the price falls to 25.00. The "
           "book has the permission, and the order waits.\n", SPOUSE);
    permitted = order(book, &by_executor);
    printf("\n5. The same by an adviser, executor %d, for whom the book has no permission. It is refused.\n", ADVISER);
    by_executor.n3 = ADVISER;
    not_permitted = order(book, &by_executor);
    printf("\n6. Order with the symbol ABCDEFGH: its eighth byte, the fence, must be zero and is a letter. It is "
           "refused.\n");
    fence = order(book, &(struct book_row){.kind = BOOK_KIND_ORDER, .type = BOOK_TMS, .party = ACCOUNT,
                                           .symbol = "ABCDEFGH", .n1 = 10, .time = MORNING + 4 * MINUTE});
    printf("\n7. Result: the sell, trade 12, is carried out at 30.00. The oldest lots go first.\n");
    sold = result(book, 12, 3000, MORNING + 5 * MINUTE);
    printf("\n8. Feed: 500 ABC were traded at 28.90. That submits the buy, whose bid is 29.00.\n");
    prices = feed(book, &(struct book_row){.kind = BOOK_KIND_FEED, .symbol = "ABC", .n1 = 2890, .n2 = 500,
                                           .time = MORNING + 6 * MINUTE});
    printf("\n9. Result: the buy, trade 13, is carried out at 28.90.\n");
    bought = result(book, 13, 2890, MORNING + 7 * MINUTE);
    printf("\n10. Lookup of trades 12 and 14, each with its settlement.\n");
    found = look_up(book, looked_up, seen);
    printf("\nAccount %d ends the day with %s.\n\nThe day's figures, checked:\n", ACCOUNT, MONEY(balance(book)));

    faults += wrong_count("status of the sell", sell.status, BOOK_DONE);
    faults += wrong_count("number of its trade", (int64_t)sell.answer.id, 12);
    faults += wrong_count("status of the buy", buy.status, BOOK_DONE);
    faults += wrong_count("number of its trade", (int64_t)buy.answer.id, 13);
    faults += wrong_count("status of the stop loss", stop.status, BOOK_DONE);
    faults += wrong_count("status of the spouse's order", permitted.status, BOOK_DONE);
    faults += wrong_count("number of its trade", (int64_t)permitted.answer.id, 15);
    faults += wrong_count("status of the adviser's order", not_permitted.status, BOOK_ORDER_NOT_PERMITTED);
    faults += wrong_count("rows that it changed", (int64_t)not_permitted.changed, 0);
    faults += wrong_count("status of the symbol without its fence", fence.status, BOOK_BAD_INPUT);
    faults += wrong_count("rows that it changed", (int64_t)fence.changed, 0);
    faults += wrong_count("status of the sell's result", sold.status, BOOK_DONE);
    faults += wrong_money("its tax", sold.tax, 22000);
    faults += wrong_money("its commission", find(book, BOOK_KIND_TRADE, 12, ACCOUNT).m1, 1800);
    faults += wrong_money("it settles", sold.answer.m2, 335700);
    faults += wrong_money("balance after it", sold.answer.m1, 1335700);
    faults += wrong_count("shares that lot 10 keeps", find(book, BOOK_KIND_LOT, 10, ACCOUNT).m1, 0);
    faults += wrong_count("shares that lot 11 keeps", find(book, BOOK_KIND_LOT, 11, ACCOUNT).m1, 30);
    faults += wrong_count("trades that the feed submitted", prices.answer.n2, 1);
    faults += wrong_count("status of the buy's result", bought.status, BOOK_DONE);
    faults += wrong_money("it settles", bought.answer.m2, -116928);
    faults += wrong_money("balance after it", balance(book), 1218772);
    faults += wrong_count("shares of ABC in the evening", find(book, BOOK_KIND_SUMMARY, 0, ACCOUNT).m1, 70);
    faults += wrong_count("status of the lookup", found, BOOK_DONE);
    faults += wrong_money("settlement of trade 12 by the lookup", seen[1].m1, 335700);
    faults += wrong_count("status of trade 14 by the lookup, 1 is pending", seen[2].status, BOOK_PNDG);
    return faults;
}

static int save(const struct book *book, const char *path)
{
    FILE *file = fopen(path, "wb");
    int good = file != NULL && fwrite(book->bytes, sizeof book->bytes, 1, file) == 1;
    if (file != NULL && fclose(file) != 0)
        good = 0;
    if (!good)
        perror(path);
    return good;
}

int main(int words, char **word)
{
    struct book book;
    int faults;
    if (words > 2) {
        fprintf(stderr, "usage: day [FILE]\n");
        return 2;
    }
    open_book(&book);
    faults = run_day(&book);
    if (faults == 0)
        printf("All figures are as expected.\n");
    else
        printf("Figures that are wrong: %d.\n", faults);
    if (words == 2 && !save(&book, word[1]))
        return 2;
    return faults != 0 || fflush(stdout) != 0;
}
