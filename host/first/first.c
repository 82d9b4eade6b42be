/* A first book: account 1 buys 100 ABC at the market. The order is accepted, and its result is booked. */
#include <book_row.h>
#include <stdio.h>

static const struct book_row rows[] = {
    {.kind = BOOK_KIND_BROKER, .party = 1},
    {.kind = BOOK_KIND_CUSTOMER, .party = 1, .type = 1},
    {.kind = BOOK_KIND_ACCOUNT, .party = 1, .n1 = 1, .n2 = 1, .m1 = 1000000},
    {.kind = BOOK_KIND_SECURITY, .symbol = "ABC", .type = 1, .n1 = 2000},
    {.kind = BOOK_KIND_BAND, .type = BOOK_TMB, .status = 1, .flags = 1, .n1 = 1, .n2 = 1000, .n3 = 50},
    {.kind = BOOK_KIND_CHARGE, .type = BOOK_TMB, .status = 1, .n1 = 500},
};

int main(void)
{
    static uint8_t book[100 * BOOK_RECORD_SIZE];
    struct book_row order = {.kind = BOOK_KIND_ORDER, .type = BOOK_TMB, .party = 1, .symbol = "ABC", .n1 = 100};
    struct book_row result = {.kind = BOOK_KIND_RESULT, .n1 = 2010, .time = 1}, answer;
    int32_t status;
    book_write_rows(book, sizeof book, rows, sizeof rows / sizeof rows[0]);
    status = book_ask(book_order, book, sizeof book, &order, &answer);
    printf("order: %s, trade %d\n", book_status_text(status), (int)answer.id);
    result.id = answer.id;
    status = book_ask(book_result, book, sizeof book, &result, &answer);
    printf("result: %s, settles %d\n", book_status_text(status), (int)answer.m2);
    return status != BOOK_DONE;
}
