/* Samples of orders by executors that are written out here, from the page of the rules alone: whom a permission lets
   order, and what comes first where more than one refusal is due. */
#include "ordering.h"

#include <string.h>

enum { MOST_PERMISSIONS = 3, MOST_PARTY = 999999999 };

/* The accounts of the book beside account 1. One differs from it in its second byte alone. */
static const uint32_t others[] = {ACCOUNT + 1, 7, ACCOUNT + 256, MOST_PARTY};

/* The permissions that a book has, and whether they let this executor order for account 1. */
struct choice {
    const char *name;
    uint32_t executor;
    int permitted;
    struct {
        uint32_t account, executor;
    } rows[MOST_PERMISSIONS]; /* those of account 0 are none */
};

static const struct choice choices[] = {
    {"the owner, and no permission in the book", 0, 1, {{0, 0}}},
    {"the owner, and permissions of other accounts", 0, 1, {{2, 5}, {7, 1}}},
    {"the owner, and permissions of the account", 0, 1, {{1, 5}, {1, 6}}},
    {"an executor, and no permission in the book", 5, 0, {{0, 0}}},
    {"an executor with a permission", 5, 1, {{1, 5}}},
    {"the account's permission for the executor below", 5, 0, {{1, 4}}},
    {"the account's permission for the executor above", 5, 0, {{1, 6}}},
    {"the executor's permission for another account", 5, 0, {{2, 5}}},
    {"the account's and the executor's, crosswise", 5, 0, {{1, 4}, {2, 5}}},
    {"and the one of both", 5, 1, {{1, 4}, {2, 5}, {1, 5}}},
    {"several executors of the account", 5, 1, {{1, 6}, {1, 5}, {1, 4}}},
    {"others of several executors", 5, 0, {{1, 6}, {1, 7}, {1, 4}}},
    {"one executor of several accounts", 5, 1, {{2, 5}, {1, 5}, {7, 5}}},
    {"others of several accounts", 5, 0, {{2, 5}, {257, 5}, {7, 5}}},
    {"account and executor the other way round", 7, 0, {{7, 1}}},
    {"account and executor both ways", 7, 1, {{7, 1}, {1, 7}}},
    {"account and executor of the same sum", 5, 0, {{2, 4}}},
    {"the account's number as an executor", 1, 0, {{0, 0}}},
    {"the account's number, and its permission", 1, 1, {{1, 1}}},
    {"another account's number as an executor", 2, 0, {{2, 2}, {2, 1}}},
    {"another account's number, and its permission", 2, 1, {{1, 2}}},
    {"the customer's number as an executor", CUSTOMER, 0, {{1, 5}}},
    {"the customer's number, and its permission", CUSTOMER, 1, {{1, CUSTOMER}}},
    {"the broker's number as an executor", BROKER, 0, {{1, 5}}},
    {"the broker's number, and its permission", BROKER, 1, {{1, BROKER}}},
    {"the first executor", 1, 0, {{1, 2}, {7, 1}, {1, MOST_PARTY}}},
    {"the first executor, and its permission", 1, 1, {{1, 2}, {1, 1}, {1, MOST_PARTY}}},
    {"the last executor", MOST_PARTY, 0, {{1, MOST_PARTY - 1}, {MOST_PARTY, 1}, {MOST_PARTY, MOST_PARTY}}},
    {"the last executor, and its permission", MOST_PARTY, 1, {{1, MOST_PARTY - 1}, {1, MOST_PARTY}}},
    {"executors that differ in one byte", 5, 0, {{1, 5 + 256}, {1, 5 + 65536}, {1, 5 + 16777216}}},
    {"an executor that differs in its second byte", 5 + 256, 0, {{1, 5}}},
    {"an executor that differs in its third byte", 5 + 65536, 0, {{1, 5}}},
    {"an executor that differs in its fourth byte", 5 + 16777216, 0, {{1, 5}}},
    {"an account that differs in one byte", 5, 0, {{257, 5}}},
};

/* The account of the figures, the other accounts and these permissions, or all of it in the reverse order of places. */
static void stand_choice(const struct choice *choice, int reverse)
{
    static struct rows turned;
    size_t n, count;
    stand("ABC", 3000);
    for (n = 0; n < sizeof others / sizeof others[0]; n++) {
        uint8_t *row = add(&book, BOOK_KIND_ACCOUNT);
        memcpy(row, row_at(&book, AT_ACCOUNT), RECORD);
        put(row, BOOK_AT_PARTY, 4, others[n]);
    }
    for (n = 0; n < MOST_PERMISSIONS; n++)
        if (choice->rows[n].account != 0)
            add_permission(choice->rows[n].account, choice->rows[n].executor);
    if (!reverse)
        return;
    turned = book;
    count = book.length / RECORD;
    for (n = 0; n < count; n++)
        memcpy(row_at(&book, n), row_at(&turned, count - 1 - n), RECORD);
}

/* An order of ten shares by the executor. No row that is expected bears the executor. */
static void choose(const struct choice *choice, uint8_t type, uint8_t flags, int reverse)
{
    const int waits = type > BOOK_TMS;
    const struct estimate estimate = {waits ? 2900 : 3000, waits ? 145 : 150, 0, 0, 0};
    size_t first;
    stand_choice(choice, reverse);
    first = book.length / RECORD;
    add_free(&book, 3);
    ask_order("ABC", type, flags, 10, waits ? 2900 : 0);
    set_executor(choice->executor);
    if (!choice->permitted) {
        not_ordered(choice->name, BOOK_ORDER_NOT_PERMITTED);
        return;
    }
    if (flags == BOOK_FLAG_ROLL_BACK)
        expect_answer(1, estimate);
    else if (waits)
        expect_waiting(1, estimate, first, first + 1, first + 2);
    else
        expect_market(1, flags, estimate, first, first + 1);
    ordered(choice->name);
}

static void check_choices(void)
{
    size_t n;
    uint8_t type;
    int reverse;
    for (n = 0; n < sizeof choices / sizeof choices[0]; n++)
        for (type = BOOK_TMB; type <= BOOK_TSL; type++)
            for (reverse = 0; reverse < 2; reverse++) {
                choose(&choices[n], type, 0, reverse);
                choose(&choices[n], type, BOOK_FLAG_ROLL_BACK, reverse);
            }
}

/* Beside the table of the figures: P1's order by an executor. */
static void check_figures(void)
{
    stand_figures();
    ask_order("ABC", BOOK_TMS, 0, 120, 0);
    set_executor(EXECUTOR);
    not_ordered("P1: an order of 120 by an executor without a permission", BOOK_ORDER_NOT_PERMITTED);
    add_permission(ACCOUNT, EXECUTOR);
    expect_market(12, 0, at_last, 25, 26);
    ordered("P1: an order of 120 by an executor with a permission");
    set_executor(EXECUTOR + 1);
    not_ordered("P1: an order of 120 by another executor", BOOK_ORDER_NOT_PERMITTED);
}

/* A market order of one share with a gain, on a book in which this refusal is due. */
static void stand_due(int32_t status)
{
    stand("ABC", 3000);
    add_lot(status == BOOK_OVER_LIMIT ? MOST_NUMBER : 10, 1, 2000, 100);
    add_summary(1);
    add_free(&book, status == BOOK_NO_ROOM ? 1 : 2);
    ask_order(status == BOOK_ORDER_NO_SECURITY ? "ABD" : "ABC", BOOK_TMS, 0, 1, 0);
    if (status == BOOK_ORDER_NO_ACCOUNT)
        put(input.bytes, BOOK_AT_PARTY, 4, ACCOUNT + 1);
    if (status == BOOK_ORDER_NO_TAX)
        put(row_at(&book, AT_TAX_RATE), BOOK_AT_N1, 4, 0);
    if (status == BOOK_ORDER_NO_RATE)
        put(row_at(&book, band_at(BOOK_TMS)), BOOK_AT_N3, 4, 0);
    if (status == BOOK_ORDER_NO_BAND)
        put(row_at(&book, band_at(BOOK_TMS)), BOOK_AT_N1, 4, 2);
    if (status == BOOK_ORDER_NO_CHARGE)
        put(row_at(&book, charge_at(BOOK_TMS)), BOOK_AT_N1, 4, 0);
}

/* The order by its owner, by an executor without a permission and by one with it, and both rolled back. */
static void due_at_once(const char *name, int32_t status, int32_t first)
{
    stand_due(status);
    not_ordered(name, status);
    set_executor(EXECUTOR);
    not_ordered(name, first);
    input.bytes[BOOK_AT_FLAGS] = BOOK_FLAG_ROLL_BACK;
    not_ordered(name, first);
    add_permission(ACCOUNT, EXECUTOR);
    not_ordered(name, status);
    input.bytes[BOOK_AT_FLAGS] = 0;
    not_ordered(name, status);
}

static void check_due(void)
{
    due_at_once("an executor, and no such account", BOOK_ORDER_NO_ACCOUNT, BOOK_ORDER_NO_ACCOUNT);
    due_at_once("an executor, and no such security", BOOK_ORDER_NO_SECURITY, BOOK_ORDER_NOT_PERMITTED);
    due_at_once("an executor, and rates of 0", BOOK_ORDER_NO_TAX, BOOK_ORDER_NOT_PERMITTED);
    due_at_once("an executor, and a rate of 0", BOOK_ORDER_NO_RATE, BOOK_ORDER_NOT_PERMITTED);
    due_at_once("an executor, and no band", BOOK_ORDER_NO_BAND, BOOK_ORDER_NOT_PERMITTED);
    due_at_once("an executor, and a charge of 0", BOOK_ORDER_NO_CHARGE, BOOK_ORDER_NOT_PERMITTED);
    due_at_once("an executor, and no number", BOOK_OVER_LIMIT, BOOK_ORDER_NOT_PERMITTED);
    due_at_once("an executor, and no room", BOOK_NO_ROOM, BOOK_ORDER_NOT_PERMITTED);
}

/* A number that is none, whether its account is there or not. */
static void no_executor(const char *name, uint32_t executor)
{
    stand_due(BOOK_ORDER_NO_ACCOUNT);
    set_executor(executor);
    not_ordered(name, BOOK_BAD_INPUT);
    put(input.bytes, BOOK_AT_PARTY, 4, ACCOUNT);
    not_ordered(name, BOOK_BAD_INPUT);
    add_permission(ACCOUNT, MOST_PARTY);
    not_ordered(name, BOOK_BAD_INPUT);
}

static void check_numbers(void)
{
    no_executor("executor 1,000,000,000", MOST_PARTY + 1);
    no_executor("executor 2,147,483,648", 0x80000000u);
    no_executor("executor 4,294,967,295", UINT32_MAX);
}

/* The largest book there may be, most of it permissions of account 1. */
static void check_largest(void)
{
    uint32_t last = EXECUTOR;
    stand("ABC", 3000);
    add_figures();
    while (book.length < (BOOK_MOST_RECORDS - 2) * RECORD)
        add_permission(ACCOUNT, ++last);
    add_free(&book, 2);
    ask_order("ABC", BOOK_TMS, 0, 120, 0);
    set_executor(last);
    expect_market(12, 0, at_last, BOOK_MOST_RECORDS - 2, BOOK_MOST_RECORDS - 1);
    ordered("the last of many executors");
    set_executor(EXECUTOR);
    not_ordered("none of many executors", BOOK_ORDER_NOT_PERMITTED);
}

/* It lacks nothing but the permission. */
static void begin_good(void)
{
    stand_figures();
    ask_order("ABC", BOOK_TMS, 0, 120, 0);
    set_executor(EXECUTOR);
}

void check_executors(void)
{
    check_choices();
    check_figures();
    check_due();
    check_numbers();
    check_largest();
    refuses_permissions(BOOK_KIND_ORDER, begin_good, ACCOUNT, 1);
}
