/* book_row.h: records read and written again, signed numbers, and a name and a text for every number that has one. */
#include "area.h"
#include "samples.h"

#include <string.h>

enum { ROUNDS = 20000 };

static void want(int good, const char *what)
{
    if (good)
        passed++;
    else
        fault("book_row.h", "%s", what);
}

/* Random bytes come back from a row, and a row from its bytes; a part of the bytes is often all ones or zeros. */
static void check_round_trips(void)
{
    struct dice dice = {2026};
    uint8_t record[BOOK_RECORD_SIZE], again[BOOK_RECORD_SIZE];
    int good = 1;
    size_t round, n;
    for (round = 0; round < ROUNDS; round++) {
        size_t from = roll(&dice, BOOK_RECORD_SIZE), to = from + roll(&dice, BOOK_RECORD_SIZE + 1 - from);
        struct book_row row;
        for (n = 0; n < BOOK_RECORD_SIZE; n++)
            record[n] = (uint8_t)roll(&dice, 256);
        memset(record + from, roll(&dice, 2) == 0 ? 0 : 0xff, to - from);
        memset(again, 0x5a, sizeof again);
        row = book_read_row(record);
        book_write_row(again, &row);
        good = good && memcmp(record, again, sizeof record) == 0 && row.symbol[8] == '\0';
    }
    want(good, "a record is not the same when it is read and written again");
}

/* Each field by itself, at its place: the other bytes stay zero. */
static void check_fields(void)
{
    static const struct book_row rows[] = {
        {.kind = 1},        {.type = 1}, {.status = 1}, {.flags = 1}, {.party = 1}, {.id = 1},
        {.symbol = "\001"}, {.n1 = 1},   {.n2 = 1},     {.n3 = 1},    {.n4 = 1},    {.m1 = 1},
        {.m2 = 1},          {.time = 1}, {.n5 = 1},
    };
    static const size_t at[] = {BOOK_AT_KIND,   BOOK_AT_TYPE, BOOK_AT_STATUS, BOOK_AT_FLAGS, BOOK_AT_PARTY,
                                BOOK_AT_ID,     BOOK_AT_SYMBOL, BOOK_AT_N1,   BOOK_AT_N2,    BOOK_AT_N3,
                                BOOK_AT_N4,     BOOK_AT_M1,   BOOK_AT_M2,     BOOK_AT_TIME,  BOOK_AT_N5};
    uint8_t expected[BOOK_RECORD_SIZE], found[BOOK_RECORD_SIZE];
    size_t n;
    for (n = 0; n < sizeof at / sizeof at[0]; n++) {
        memset(expected, 0, sizeof expected);
        expected[at[n]] = 1;
        book_write_row(found, &rows[n]);
        want(memcmp(expected, found, sizeof found) == 0, "a field is not written to its place");
    }
}

static void check_numbers(void)
{
    static const int64_t numbers[] = {0, 1, -1, 999999, -999999, INT32_MAX, INT32_MIN};
    static const int64_t longer[] = {999999999999999, -999999999999999, INT64_MAX, INT64_MIN};
    struct book_row answer = {.kind = BOOK_KIND_RESULT};
    uint8_t bytes[8];
    size_t n;
    for (n = 0; n < sizeof numbers / sizeof numbers[0]; n++) {
        book_put_u32(bytes, (uint32_t)numbers[n]);
        want(book_get_i32(bytes) == numbers[n], "a signed number of four bytes");
        book_put_u64(bytes, (uint64_t)numbers[n]);
        want(book_get_i64(bytes) == numbers[n], "a signed number of eight bytes");
    }
    for (n = 0; n < sizeof longer / sizeof longer[0]; n++) {
        book_put_u64(bytes, (uint64_t)longer[n]);
        want(book_get_i64(bytes) == longer[n], "a long signed number");
    }
    book_put_u64(bytes, 0x0102030405060708);
    want(bytes[0] == 8 && bytes[7] == 1, "the lowest byte comes first");
    want(book_get_u32(bytes + 4) == 0x01020304, "the four bytes in its middle");
    memcpy(answer.symbol, bytes, sizeof bytes);
    want(book_row_tax(&answer) == 0x0102030405060708, "the tax of an answer");
}

/* Every number of this range with a name has one of its own, and there are so many. */
static void check_names(const char *what, const char *(*name)(uint8_t), size_t expected)
{
    const char *names[256];
    size_t number, n, found = 0;
    for (number = 0; number < 256; number++) {
        const char *text = name((uint8_t)number);
        if (text[0] == '\0')
            continue;
        for (n = 0; n < found; n++)
            want(strcmp(names[n], text) != 0, what);
        names[found++] = text;
    }
    want(found == expected, what);
}

static void check_statuses(void)
{
    const char *none = book_status_text(1);
    size_t call, n;
    int32_t status;
    for (call = 0; call < call_count; call++)
        for (n = 0; n < calls[call].status_count; n++) {
            status = calls[call].statuses[n];
            want(strcmp(book_status_text(status), none) != 0, "a status without a text");
            want(strncmp(book_status_name(status), "BOOK_", 5) == 0, "a status without a name");
        }
    for (n = 0, status = -1000; status <= 1000; status++)
        n += strcmp(book_status_text(status), none) != 0;
    want(n == 21, "a text for what is no status");
    want(strcmp(book_status_name(BOOK_NO_ROOM), "BOOK_NO_ROOM") == 0, "the name of a status");
    want(book_status_name(1)[0] == '\0', "a name for what is no status");
}

/* Rows as a book, and a call with rows: the feed takes the new price. */
static void check_calls(void)
{
    static const struct book_row rows[] = {{.kind = BOOK_KIND_BROKER, .party = 7},
                                           {.kind = BOOK_KIND_SECURITY, .symbol = "ABC", .type = 1, .n1 = 200}};
    struct book_row row = {.kind = BOOK_KIND_FEED, .symbol = "ABC", .n1 = 210, .n2 = 5};
    uint8_t bytes[3 * BOOK_RECORD_SIZE];
    memset(bytes, 0x5a, sizeof bytes);
    want(!book_write_rows(bytes, 2 * BOOK_RECORD_SIZE - 1, rows, 2) && bytes[0] == 0x5a, "rows that do not fit");
    want(book_write_rows(bytes, sizeof bytes, rows, 2), "rows that fit");
    want(book_read_row(bytes).party == 7 && book_read_row(bytes + 2 * BOOK_RECORD_SIZE).kind == 0, "rows of a book");
    want(book_ask(book_feed, bytes, sizeof bytes, &row, &row) == BOOK_DONE, "a call with a row");
    want(row.kind == BOOK_KIND_FEED && row.n1 == 1 && row.n2 == 0, "the answer of a call with a row");
    want(book_read_row(bytes + BOOK_RECORD_SIZE).n1 == 210, "the book after a call with a row");
}

void check_rows(void)
{
    check_calls();
    check_round_trips();
    check_fields();
    check_numbers();
    check_names("the names of the kinds", book_kind_name, 1 + 17 + 4);
    check_names("the names of the trade types", book_type_name, 5);
    check_names("the names of the trade statuses", book_trade_status_name, 3);
    check_statuses();
}
