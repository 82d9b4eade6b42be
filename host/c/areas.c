/*
 * Areas of no bytes, and areas that are said to be longer than any memory. A NULL pointer with length 0 is an empty
 * area. An area that is refused for its length is not touched: here it begins on a page that may not be.
 */
#define _DEFAULT_SOURCE /* for MAP_ANONYMOUS */
#include "figures.h"

#include <stdio.h>
#include <stdlib.h>
#include <string.h>
#include <sys/mman.h>

enum { FILL = 0x5a, PAGE = 1 << 16 };

struct part {
    uint8_t *bytes;
    size_t length;
};

static uint8_t good_book[RECORD], good_input[RECORD], good_answer[2 * RECORD];
static uint8_t *locked;

/* A length that is refused, for any area of any call. */
static const size_t too_long[] = {
    SIZE_MAX,          SIZE_MAX - 63,                       SIZE_MAX / 2 + 1,    SIZE_MAX / 2 + 65,
    SIZE_MAX / 2 + 33, (size_t)TOO_MANY * BOOK_RECORD_SIZE, (size_t)UINT32_MAX + 1, (size_t)UINT32_MAX + 65,
};

/* Whether all bytes are as they were filled. */
static int untouched(const uint8_t *bytes, size_t length)
{
    while (length > 0 && bytes[length - 1] == FILL)
        length--;
    return length == 0;
}

/* Has the call run on these areas. Nothing is written but, unless the status is BOOK_BAD_LENGTH, the answer. */
static void expect_status(const struct call *call, const char *what, struct part book, struct part input,
                          struct part answer, int32_t status)
{
    char name[100];
    uint8_t refusal[sizeof good_answer] = {0};
    int32_t found;
    snprintf(name, sizeof name, "%s: %s", call->name, what);
    memset(good_answer, FILL, sizeof good_answer);
    begin_call(name);
    found = call->run(book.bytes, book.length, input.bytes, input.length, answer.bytes, answer.length);
    begin_call("between the calls");
    put(refusal, BOOK_AT_N5, 4, (uint32_t)status);
    if (found != status)
        fault(name, "status %ld, expected %ld", (long)found, (long)status);
    else if (status == BOOK_BAD_LENGTH && !untouched(good_answer, sizeof good_answer))
        fault(name, "the answer was written");
    else if (status != BOOK_BAD_LENGTH && memcmp(good_answer, refusal, answer.length) != 0)
        fault(name, "the answer is wrong");
    else
        passed++;
}

static void check_call(const struct call *call, struct part book, struct part input, struct part answer)
{
    const struct part none = {NULL, 0}, empty = {locked, 0};
    size_t n;
    expect_status(call, "no book", none, input, answer, BOOK_BAD_BOOK);
    expect_status(call, "no input", book, none, answer, BOOK_BAD_LENGTH);
    expect_status(call, "no answer area", book, input, none, BOOK_BAD_LENGTH);
    expect_status(call, "neither book nor input", none, none, answer, BOOK_BAD_LENGTH);
    expect_status(call, "neither book nor answer area", none, input, none, BOOK_BAD_LENGTH);
    expect_status(call, "neither input nor answer area", book, none, none, BOOK_BAD_LENGTH);
    expect_status(call, "no area at all", none, none, none, BOOK_BAD_LENGTH);
    expect_status(call, "an empty book", empty, input, answer, BOOK_BAD_BOOK);
    expect_status(call, "an empty input", book, empty, answer, BOOK_BAD_LENGTH);
    expect_status(call, "an empty answer area", book, input, empty, BOOK_BAD_LENGTH);
    for (n = 0; n < sizeof too_long / sizeof too_long[0]; n++) {
        const struct part longest = {locked, too_long[n]};
        const struct part doubled = {locked, 2 * too_long[n]}; /* and what is over is lost */
        expect_status(call, "a book of too many bytes", longest, input, answer, BOOK_BAD_BOOK);
        expect_status(call, "an input of too many bytes", book, longest, answer, BOOK_BAD_LENGTH);
        expect_status(call, "an answer area of too many bytes", book, input, longest, BOOK_BAD_LENGTH);
        expect_status(call, "an input of too many bytes, and twice that", book, longest, doubled, BOOK_BAD_LENGTH);
        expect_status(call, "all areas of too many bytes", longest, longest, longest, BOOK_BAD_LENGTH);
    }
}

void check_areas(void)
{
    size_t n;
    locked = mmap(NULL, PAGE, PROT_NONE, MAP_PRIVATE | MAP_ANONYMOUS, -1, 0);
    if (locked == MAP_FAILED) {
        perror("mmap");
        exit(2);
    }
    for (n = 0; n < call_count; n++) {
        size_t answers = calls[n].kind == BOOK_KIND_LOOKUP ? 2 : 1;
        const struct part book = {good_book, sizeof good_book}, input = {good_input, sizeof good_input};
        const struct part answer = {good_answer, answers * BOOK_RECORD_SIZE};
        check_call(&calls[n], book, input, answer);
    }
    munmap(locked, PAGE);
}
