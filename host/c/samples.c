/* See samples.h. */
#include "samples.h"

#include <string.h>

enum { ROUNDS = 8 };

struct rows book, input, book_after, answer_after;

void begin(void)
{
    memset(&book, 0, sizeof book);
    memset(&input, 0, sizeof input);
    memset(&answer_after, 0, sizeof answer_after);
}

void put(uint8_t *record, size_t at, size_t width, uint64_t value)
{
    if (width == 8)
        book_put_u64(record + at, value);
    else
        book_put_u32(record + at, (uint32_t)value);
}

uint8_t *row_at(struct rows *rows, size_t place)
{
    return rows->bytes + place * RECORD;
}

uint8_t *add(struct rows *rows, uint8_t kind)
{
    uint8_t *record = rows->bytes + rows->length;
    rows->length += RECORD;
    record[BOOK_AT_KIND] = kind;
    return record;
}

void add_free(struct rows *rows, size_t count)
{
    rows->length += count * RECORD;
}

void set_symbol(uint8_t *record, const char *letters)
{
    memcpy(record + BOOK_AT_SYMBOL, letters, strlen(letters));
}

void set_history(uint8_t *row, uint64_t id, uint8_t status, uint32_t time)
{
    row[BOOK_AT_KIND] = BOOK_KIND_HISTORY;
    put(row, BOOK_AT_ID, 8, id);
    row[BOOK_AT_STATUS] = status;
    put(row, BOOK_AT_TIME, 4, time);
}

void add_history(struct rows *rows, uint64_t id, uint8_t status, uint32_t time)
{
    set_history(add(rows, BOOK_KIND_HISTORY), id, status, time);
}

uint8_t *add_permission(uint32_t account, uint32_t executor)
{
    uint8_t *row = add(&book, BOOK_KIND_PERMISSION);
    put(row, BOOK_AT_PARTY, 4, account);
    put(row, BOOK_AT_N1, 4, executor);
    return row;
}

/* Has the call run several times, so that its areas lie differently. */
static void hold(const char *name, uint8_t kind, size_t answer_length, int32_t status)
{
    static uint8_t answer[2 * BOOK_MOST_INPUTS * RECORD + 1];
    struct sample sample = {call_of(kind), book.bytes, input.bytes, answer, 0, 0, 0, 0, NULL, NULL};
    uint64_t round = 0;
    size_t n;
    for (n = 0; n < sizeof answer; n++)
        answer[n] = (uint8_t)(201 + 7 * n);
    sample.book_length = book.length;
    sample.input_length = input.length;
    sample.answer_length = answer_length;
    sample.status = status;
    sample.book_after = status == BOOK_DONE ? book_after.bytes : book.bytes;
    sample.answer_after = status == BOOK_BAD_LENGTH ? answer : answer_after.bytes;
    while (round < ROUNDS && check(&sample, round, name))
        round++;
}

void done(const char *name, uint8_t kind)
{
    hold(name, kind, answer_after.length, BOOK_DONE);
}

void refused(const char *name, uint8_t kind, size_t answer_length, int32_t status)
{
    memset(&answer_after, 0, sizeof answer_after);
    put(answer_after.bytes, BOOK_AT_N5, 4, (uint32_t)status);
    hold(name, kind, answer_length, status);
}

void refuses_lengths(uint8_t kind, void (*begin_good)(void), size_t most_inputs, size_t answers_for_each)
{
    static const size_t books[] = {0, 1, 63, 65, 10 * RECORD - 1, TOO_MANY * RECORD};
    const size_t inputs[] = {0, 1, 63, 65, 127, (most_inputs + 1) * RECORD};
    size_t n, one = answers_for_each * RECORD;
    begin_good();
    for (n = 0; n < sizeof inputs / sizeof inputs[0]; n++) {
        input.length = inputs[n];
        refused("an input of a wrong length", kind, one, BOOK_BAD_LENGTH);
    }
    begin_good();
    refused("no answer area", kind, 0, BOOK_BAD_LENGTH);
    refused("an answer area short by one", kind, one - 1, BOOK_BAD_LENGTH);
    refused("an answer area long by one", kind, one + 1, BOOK_BAD_LENGTH);
    refused("an answer area of a record too many", kind, one + RECORD, BOOK_BAD_LENGTH);
    for (n = 0; n < sizeof books / sizeof books[0]; n++) {
        book.length = books[n];
        refused("a book of a wrong length", kind, one, BOOK_BAD_BOOK);
    }
}

void refuses_permissions(uint8_t kind, void (*begin_good)(void), uint32_t account, size_t answers)
{
    const struct {
        const char *name;
        uint32_t account, executor;
    } rows[] = {
        {"a permission for executor 0", account, 0},
        {"a permission for executor 1,000,000,000", account, 1000000000},
        {"a permission for executor 4,294,967,295", account, UINT32_MAX},
        {"a permission of account 0", 0, EXECUTOR},
        {"a permission of account 1,000,000,000", 1000000000, EXECUTOR},
        {"a permission of an account that is not there", account + 1, EXECUTOR},
        {"the same, where the executor's number is an account's", account + 1, account},
    };
    uint8_t *row;
    size_t n;
    for (n = 0; n < sizeof rows / sizeof rows[0]; n++) {
        begin_good();
        add_permission(rows[n].account, rows[n].executor);
        refused(rows[n].name, kind, answers * RECORD, BOOK_UNSOUND);
    }
    begin_good();
    row = add_permission(account, EXECUTOR);
    for (n = BOOK_AT_TYPE; n < RECORD; n++) {
        if ((n >= BOOK_AT_PARTY && n < BOOK_AT_ID) || (n >= BOOK_AT_N1 && n < BOOK_AT_N2))
            continue;
        row[n] = 1;
        refused("a permission with a stray byte", kind, answers * RECORD, BOOK_UNSOUND);
        row[n] = 0;
    }
    row[BOOK_AT_KIND] = BOOK_KIND_PERMISSION + 1;
    refused("a permission of another kind", kind, answers * RECORD, BOOK_UNSOUND);
    row[BOOK_AT_KIND] = BOOK_KIND_PERMISSION;
    add_permission(account, EXECUTOR + 1);
    add_permission(account, EXECUTOR);
    refused("a permission twice", kind, answers * RECORD, BOOK_UNSOUND);
}
