/* See check.h. */
#define _POSIX_C_SOURCE 200809L /* for sigaction */
#include "check.h"

#include "area.h"

#include <signal.h>
#include <stdarg.h>
#include <stdio.h>
#include <string.h>
#include <unistd.h>

enum { MOST_SAID = 10 };

static int32_t lookup(uint8_t *book, size_t book_len, const uint8_t *input, size_t input_len, uint8_t *answer,
                      size_t answer_len)
{
    return book_lookup(book, book_len, input, input_len, answer, answer_len);
}

#define SHARED BOOK_DONE, BOOK_BAD_LENGTH, BOOK_BAD_BOOK, BOOK_UNSOUND, BOOK_BAD_INPUT
static const int32_t of_lookup[] = {SHARED, BOOK_LOOKUP_NO_TRADE};
static const int32_t of_feed[] = {SHARED, BOOK_FEED_NO_SECURITY, BOOK_OVER_LIMIT, BOOK_NO_ROOM};
static const int32_t of_order[] = {SHARED,
                                   BOOK_ORDER_NO_ACCOUNT,
                                   BOOK_ORDER_NOT_PERMITTED,
                                   BOOK_ORDER_NO_SECURITY,
                                   BOOK_ORDER_NO_TAX,
                                   BOOK_ORDER_NO_RATE,
                                   BOOK_ORDER_NO_BAND,
                                   BOOK_ORDER_NO_CHARGE,
                                   BOOK_OVER_LIMIT,
                                   BOOK_NO_ROOM};
static const int32_t of_result[] = {SHARED,
                                    BOOK_RESULT_NO_TRADE,
                                    BOOK_RESULT_NOT_SUBMITTED,
                                    BOOK_RESULT_NO_TAX,
                                    BOOK_RESULT_NO_RATE,
                                    BOOK_RESULT_NO_BAND,
                                    BOOK_OVER_LIMIT,
                                    BOOK_NO_ROOM};

#define ALL(list) list, sizeof list / sizeof list[0]
const struct call calls[] = {
    {"lookup", BOOK_KIND_LOOKUP, lookup, 1, ALL(of_lookup)},
    {"feed", BOOK_KIND_FEED, book_feed, 0, ALL(of_feed)},
    {"order", BOOK_KIND_ORDER, book_order, 0, ALL(of_order)},
    {"result", BOOK_KIND_RESULT, book_result, 0, ALL(of_result)},
};
const size_t call_count = sizeof calls / sizeof calls[0];

unsigned long passed, failed;

/* The name of the sample that is running. */
static const char *running = "";

void begin_call(const char *name)
{
    running = name;
}

const struct call *call_of(uint32_t kind)
{
    size_t n;
    for (n = 0; n < call_count; n++)
        if (calls[n].kind == kind)
            return &calls[n];
    return NULL;
}

void fault(const char *name, const char *format, ...)
{
    va_list rest;
    failed++;
    if (failed > MOST_SAID + 1)
        return;
    if (failed > MOST_SAID) {
        puts("and more");
        return;
    }
    printf("%s: ", name);
    va_start(rest, format);
    vprintf(format, rest);
    va_end(rest);
    putchar('\n');
}

static void say_running(void)
{
    static const char what[] = ": the call did not come back; it may have touched what it was not given\n";
    ssize_t done = write(STDOUT_FILENO, running, strlen(running));
    if (done >= 0)
        done = write(STDOUT_FILENO, what, sizeof what - 1);
    (void)done;
}

static void on_signal(int signal)
{
    say_running();
    _exit(128 + signal);
}

/* The address sanitizer calls this before it ends the program. */
void __asan_on_error(void);
void __asan_on_error(void)
{
    say_running();
}

void watch_for_crashes(void)
{
    static const int signals[] = {SIGSEGV, SIGBUS, SIGILL, SIGFPE, SIGABRT};
    struct sigaction action;
    size_t n;
    memset(&action, 0, sizeof action);
    action.sa_handler = on_signal;
    for (n = 0; n < sizeof signals / sizeof signals[0]; n++)
        sigaction(signals[n], &action, NULL);
}

/* Whether an area holds the expected bytes; if not, it says the first that is wrong. */
static int same(const char *name, const char *what, const struct area *area, const uint8_t *expected)
{
    size_t n = 0, first, wrong = 0;
    while (n < area->length && area->bytes[n] == expected[n])
        n++;
    if (n == area->length)
        return 1;
    for (first = n; n < area->length; n++)
        wrong += area->bytes[n] != expected[n];
    fault(name, "%s: %zu wrong bytes, the first in record %zu, byte %zu: %d, expected %d", what, wrong,
          first / BOOK_RECORD_SIZE, first % BOOK_RECORD_SIZE, area->bytes[first], expected[first]);
    return 0;
}

/* Says the first thing that is wrong, so that a sample is counted once. */
static int as_expected(const char *name, const struct sample *sample, int32_t status, const struct area areas[3])
{
    static const char *const names[] = {"book", "input", "answer"};
    size_t n;
    if (status != sample->status) {
        fault(name, "status %ld, expected %ld", (long)status, (long)sample->status);
        return 0;
    }
    for (n = 0; n < 3; n++)
        if (!guards_hold(&areas[n])) {
            fault(name, "a byte before or after the %s was written", names[n]);
            return 0;
        }
    return same(name, names[0], &areas[0], sample->book_after) && same(name, names[1], &areas[1], sample->input) &&
           same(name, names[2], &areas[2], sample->answer_after);
}

int check(const struct sample *sample, uint64_t seed, const char *name)
{
    struct dice dice = {seed};
    struct area areas[3], *book = &areas[0], *input = &areas[1], *answer = &areas[2];
    int32_t status;
    size_t n;
    int good;
    place(book, &dice, sample->book, sample->book_length, sample->call->only_reads);
    place(input, &dice, sample->input, sample->input_length, 1);
    place(answer, &dice, sample->answer, sample->answer_length, 0);
    begin_call(name);
    status = sample->call->run(book->bytes, book->length, input->bytes, input->length, answer->bytes, answer->length);
    begin_call("between the calls");
    good = as_expected(name, sample, status, areas);
    if (good)
        passed++;
    for (n = 0; n < 3; n++)
        release(&areas[n]);
    return good;
}
