/*
 * One digest over a fixed list of calls, made by the program itself: whatever the platform, the library must give the
 * same statuses, answers and books, and so the same digest. It prints how often each call gave each status, then the
 * digest, and fails if a status of the rules was never given. host/digest/expected has the digest; tools/check-digest
 * compares.
 *
 * usage: digest
 */
#include <stdio.h>
#include <stdlib.h>
#include <string.h>

#include "sha256.h"
#include "world.h"

enum { MOST_BYTES = (BOOK_MOST_RECORDS + 1) * BOOK_RECORD_SIZE };
enum { MOST_ANSWER = 2 * BOOK_MOST_INPUTS * BOOK_RECORD_SIZE };

typedef int32_t call_function(uint8_t *, size_t, const uint8_t *, size_t, uint8_t *, size_t);

/* What lookup promises of its book, that it is only read, is for the other tests: here it is lent as the others' is. */
static int32_t lookup(uint8_t *book, size_t book_len, const uint8_t *input, size_t input_len, uint8_t *answer,
                      size_t answer_len)
{
    return book_lookup(book, book_len, input, input_len, answer, answer_len);
}

enum { MOST_STATUSES = 14 };
static const struct {
    const char *name;
    call_function *call;
    int32_t statuses[MOST_STATUSES + 1]; /* the first is BOOK_DONE, and a second BOOK_DONE ends them */
} CALL[CALLS] = {
    {"order",
     book_order,
     {BOOK_DONE, BOOK_BAD_LENGTH, BOOK_BAD_BOOK, BOOK_UNSOUND, BOOK_BAD_INPUT, BOOK_ORDER_NO_ACCOUNT,
      BOOK_ORDER_NOT_PERMITTED, BOOK_ORDER_NO_SECURITY, BOOK_ORDER_NO_TAX, BOOK_ORDER_NO_RATE, BOOK_ORDER_NO_BAND,
      BOOK_ORDER_NO_CHARGE, BOOK_OVER_LIMIT, BOOK_NO_ROOM}},
    {"result",
     book_result,
     {BOOK_DONE, BOOK_BAD_LENGTH, BOOK_BAD_BOOK, BOOK_UNSOUND, BOOK_BAD_INPUT, BOOK_RESULT_NO_TRADE,
      BOOK_RESULT_NOT_SUBMITTED, BOOK_RESULT_NO_TAX, BOOK_RESULT_NO_RATE, BOOK_RESULT_NO_BAND, BOOK_OVER_LIMIT,
      BOOK_NO_ROOM}},
    {"feed",
     book_feed,
     {BOOK_DONE, BOOK_BAD_LENGTH, BOOK_BAD_BOOK, BOOK_UNSOUND, BOOK_BAD_INPUT, BOOK_FEED_NO_SECURITY, BOOK_OVER_LIMIT,
      BOOK_NO_ROOM}},
    {"lookup",
     lookup,
     {BOOK_DONE, BOOK_BAD_LENGTH, BOOK_BAD_BOOK, BOOK_UNSOUND, BOOK_BAD_INPUT, BOOK_LOOKUP_NO_TRADE}},
};

static struct sha256 sum;
static unsigned long given[CALLS][MOST_STATUSES], calls, faults;

/* Counts a status; one that the rules do not have for this call is a fault. */
static void count_status(enum call call, int32_t status)
{
    for (size_t i = 0; i == 0 || CALL[call].statuses[i] != BOOK_DONE; i++)
        if (CALL[call].statuses[i] == status) {
            given[call][i]++;
            return;
        }
    printf("%s gave %ld, which is no status of it\n", CALL[call].name, (long)status);
    faults++;
}

/* One call. The digest takes the status, the answer area, and the book if a byte of it changed. */
static int32_t made(enum call call, uint8_t *book, size_t book_len, const uint8_t *input, size_t input_len,
                    uint8_t *answer, size_t answer_len)
{
    static uint8_t before[MOST_BYTES];
    memcpy(before, book, book_len);
    for (size_t i = 0; i < answer_len; i++)
        answer[i] = (uint8_t)(calls + i);
    int32_t status = CALL[call].call(book, book_len, input, input_len, answer, answer_len);
    uint8_t said[5] = {[4] = memcmp(before, book, book_len) != 0};
    book_put_u32(said, (uint32_t)status);
    sha256_add(&sum, said, sizeof said);
    sha256_add(&sum, answer, answer_len);
    if (said[4])
        sha256_add(&sum, book, book_len);
    count_status(call, status);
    calls++;
    return status;
}

/* A call on the book as it is, or now and then with a length, a byte of the input or a byte of the book that is wrong.
   A book that such a byte made unsound is set right again. */
static void one_call(struct book *book)
{
    static uint8_t input[MOST_ANSWER], answer[MOST_ANSWER];
    uint64_t turn = drawn(0, 99);
    enum call call = turn < 45 ? ORDER : turn < 75 ? RESULT : turn < 90 ? FEED : LOOKUP;
    size_t input_len = make_input(call, book, input) * BOOK_RECORD_SIZE;
    size_t answer_len = call == LOOKUP ? 2 * input_len : BOOK_RECORD_SIZE;
    uint64_t harm = drawn(0, 39);
    if (harm == 0)
        answer_len = drawn(0, MOST_ANSWER);
    else if (harm == 1)
        input_len = drawn(0, MOST_ANSWER / 2);
    else if (harm == 2)
        input[drawn(0, input_len - 1)] ^= (uint8_t)(1 << drawn(0, 7));
    else if (harm == 3) {
        size_t at = drawn(0, book->length - 1);
        uint8_t byte = book->bytes[at];
        book->bytes[at] ^= (uint8_t)(1 << drawn(0, 7));
        int32_t status = made(call, book->bytes, book->length, input, input_len, answer, answer_len);
        if (status == BOOK_UNSOUND)
            book->bytes[at] = byte;
        return;
    } else if (harm == 4) {
        size_t length = once_in(4) ? 0 : once_in(3) ? (size_t)MOST_BYTES : drawn(1, book->length - 1);
        if (length % BOOK_RECORD_SIZE != 0 || length == 0 || length == (size_t)MOST_BYTES)
            made(call, book->bytes, length, input, input_len, answer, answer_len);
        return;
    } else if (harm == 5) {
        change_band(book);
        change_permission(book);
    }
    int32_t status = made(call, book->bytes, book->length, input, input_len, answer, answer_len);
    if (call == ORDER && status == BOOK_DONE)
        book->trades = book_get_u64(answer + BOOK_AT_ID);
}

static int print_counts(void)
{
    for (size_t call = 0; call < CALLS; call++) {
        printf("%s:", CALL[call].name);
        for (size_t i = 0; i == 0 || CALL[call].statuses[i] != BOOK_DONE; i++) {
            printf("%s %lu of %ld", i ? "," : "", given[call][i], (long)CALL[call].statuses[i]);
            faults += given[call][i] == 0;
        }
        printf("\n");
    }
    printf("%lu calls", calls);
    if (faults)
        printf(", %lu FAULTS: a status that no call gave, or that the rules do not have", faults);
    printf("\n");
    return faults != 0;
}

int main(void)
{
    /* Books of so many records at the least and at the most, how many of them, and how many calls on each. */
    static const struct {
        size_t least, most, books, calls;
    } PART[] = {{1, 80, 60, 100}, {80, 400, 320, 300}, {512, 512, 20, 400}, {4096, 4096, 2, 2000}};
    struct book book = {0};
    book.bytes = calloc(MOST_BYTES, 1);
    if (!book.bytes) {
        printf("no memory\n");
        return 2;
    }
    sha256_begin(&sum);
    for (size_t part = 0; part < sizeof PART / sizeof PART[0]; part++)
        for (size_t n = 0; n < PART[part].books; n++) {
            draw_anew(1000 * part + n);
            make_book(&book, drawn(PART[part].least, PART[part].most));
            for (size_t i = 0; i < PART[part].calls; i++)
                one_call(&book);
        }
    int failed = print_counts();
    char digits[65];
    sha256_end(&sum, digits);
    printf("digest %s\n", digits);
    free(book.bytes);
    return failed;
}
