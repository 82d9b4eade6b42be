// A first book: account 1 buys 100 ABC at the market. The order is accepted, and its result is booked. C++20.
#include <book_row.h>
#include <cstdio>
const book_row rows[] = {{.kind = BOOK_KIND_CUSTOMER, .type = 1, .party = 1},
    {.kind = BOOK_KIND_BROKER, .party = 1}, {.kind = BOOK_KIND_CHARGE, .type = BOOK_TMB, .status = 1, .n1 = 500},
    {.kind = BOOK_KIND_ACCOUNT, .party = 1, .n1 = 1, .n2 = 1, .m1 = 1000000},
    {.kind = BOOK_KIND_SECURITY, .type = 1, .symbol = "ABC", .n1 = 2000},
    {.kind = BOOK_KIND_BAND, .type = BOOK_TMB, .status = 1, .flags = 1, .n1 = 1, .n2 = 1000, .n3 = 50}};
int main()
{
    uint8_t book[100 * BOOK_RECORD_SIZE];
    book_row row{.kind = BOOK_KIND_ORDER, .type = BOOK_TMB, .party = 1, .symbol = "ABC", .n1 = 100};
    book_write_rows(book, sizeof book, rows, sizeof rows / sizeof rows[0]);
    int32_t status = book_ask(book_order, book, sizeof book, &row, &row);
    row = {.kind = BOOK_KIND_RESULT, .id = row.id, .n1 = 2010, .time = 1};
    if (status == BOOK_DONE) status = book_ask(book_result, book, sizeof book, &row, &row);
    return std::printf("trade %d: %s, settles %d\n", int(row.id), book_status_text(status), int(row.m2)) < 0 || status;
}
