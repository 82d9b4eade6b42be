/*
 * calls SEED [COUNT] <CASES: holds the library to the samples that are written out here, and to the cases that the
 * program `cases` of second/ writes for this seed. With COUNT it wants so many of every call, and each status that a
 * call can give. Its last line is 'N passed, M failed'.
 *
 * calls sentences COUNT <CASES: holds the library to the sentences of the rules, broken and kept, that the program
 * `sentences` of second/ writes, and wants COUNT cases in all. `sentences list` says what each number is.
 *
 * A case that failed can be run alone: `cases SEED N N CALL | calls SEED`. Its areas are then placed as before.
 */
#include "book_row.h"
#include "check.h"

#include <inttypes.h>
#include <stdio.h>
#include <stdlib.h>
#include <string.h>

enum { MOST_CALLS = 4, MOST_STATUSES = 16, MOST_BYTES = 1 << 24, NAME_LENGTH = 120 };

/* In place of a seed, for sentences. */
enum { NO_SEED = -1 };

/* The numbers that a case of the stream begins with. */
enum { KIND, NUMBER, BOOK, INPUT, ANSWER, STATUS, NUMBERS };

/* How often each status of a call was expected of a case. */
static unsigned long counts[MOST_CALLS][MOST_STATUSES];

/* Reads the numbers of the next case. Gives 0 at the end of the stream, or where it is broken, which is a failure. */
static int next_case(uint32_t numbers[NUMBERS])
{
    uint8_t bytes[4 * NUMBERS];
    size_t n, found = fread(bytes, 1, sizeof bytes, stdin);
    if (found == 0 && feof(stdin))
        return 0;
    for (n = 0; n < NUMBERS && found == sizeof bytes; n++)
        numbers[n] = book_get_u32(bytes + 4 * n);
    if (found == sizeof bytes && call_of(numbers[KIND]) != NULL && numbers[BOOK] <= MOST_BYTES &&
        numbers[INPUT] <= MOST_BYTES && numbers[ANSWER] <= MOST_BYTES)
        return 1;
    fault("the cases", "no case of a call that the library has");
    return 0;
}

static void count(const struct call *call, int32_t status)
{
    size_t n = 0;
    while (n < call->status_count && call->statuses[n] != status)
        n++;
    if (n < call->status_count)
        counts[call - calls][n]++;
    else
        fault("the cases", "status %" PRId32 " is expected of a %s", status, call->name);
}

/* Where the case's areas are placed depends on nothing but the seed and the case, so that it can be run alone. A
   sentence has no seed. */
static void check_case(const uint32_t numbers[NUMBERS], const uint8_t *bytes, int64_t seed)
{
    char name[NAME_LENGTH];
    struct sample sample;
    sample.call = call_of(numbers[KIND]);
    sample.book_length = numbers[BOOK];
    sample.input_length = numbers[INPUT];
    sample.answer_length = numbers[ANSWER];
    sample.status = (int32_t)numbers[STATUS];
    sample.book = bytes;
    sample.input = sample.book + sample.book_length;
    sample.answer = sample.input + sample.input_length;
    sample.book_after = sample.answer + sample.answer_length;
    sample.answer_after = sample.book_after + sample.book_length;
    if (seed == NO_SEED)
        snprintf(name, sizeof name, "sentence %" PRIu32 ", %s", numbers[NUMBER], sample.call->name);
    else
        snprintf(name, sizeof name, "seed %" PRId64 ", %s case %" PRIu32, seed, sample.call->name, numbers[NUMBER]);
    count(sample.call, sample.status);
    check(&sample, ((uint64_t)seed << 40) ^ ((uint64_t)numbers[KIND] << 32) ^ numbers[NUMBER], name);
}

static void check_stream(int64_t seed)
{
    uint32_t numbers[NUMBERS];
    while (next_case(numbers)) {
        size_t length = 2 * ((size_t)numbers[BOOK] + numbers[ANSWER]) + numbers[INPUT];
        uint8_t *bytes = malloc(length + 1);
        if (bytes == NULL || fread(bytes, 1, length, stdin) != length) {
            fault("the cases", "the last one is cut");
            free(bytes);
            return;
        }
        check_case(numbers, bytes, seed);
        free(bytes);
    }
}

/* Prints how often each status was reached. If a number of cases is asked for, it wants so many, and each status. */
static void report(unsigned long asked)
{
    size_t call, n;
    for (call = 0; call < call_count; call++) {
        unsigned long all = 0;
        printf("%s:", calls[call].name);
        for (n = 0; n < calls[call].status_count; n++) {
            printf("%s %lu of %" PRId32, n == 0 ? "" : ",", counts[call][n], calls[call].statuses[n]);
            all += counts[call][n];
        }
        printf("\n");
        if (asked > 0 && all != asked)
            fault(calls[call].name, "%lu cases instead of %lu", all, asked);
        for (n = 0; n < calls[call].status_count && asked > 0; n++)
            if (counts[call][n] == 0)
                fault(calls[call].name, "no case has status %" PRId32, calls[call].statuses[n]);
    }
}

/* Runs the sentences of the stream, which must have so many cases. */
static int run_sentences(int64_t asked)
{
    check_stream(NO_SEED);
    report(0);
    if (passed + failed != (unsigned long)asked)
        fault("the sentences", "%lu cases instead of %" PRId64, passed + failed, asked);
    printf("%lu passed, %lu failed\n", passed, failed);
    return failed > 0;
}

/* The number that a word is, or -1. */
static int64_t number(const char *word)
{
    char *end;
    long long value = strtoll(word, &end, 10);
    return end == word || *end != '\0' || value < 0 ? -1 : value;
}

int main(int words, char **word)
{
    int sentences = words == 3 && strcmp(word[1], "sentences") == 0;
    int64_t seed = words >= 2 ? number(word[1]) : -1;
    int64_t asked = words == 3 ? number(word[2]) : 0;
    if (words > 3 || (seed < 0 && !sentences) || asked < 0) {
        fprintf(stderr, "usage: calls SEED [COUNT] <CASES\n       calls sentences COUNT <CASES\n");
        return 2;
    }
    setvbuf(stdout, NULL, _IOLBF, 0);
    watch_for_crashes();
    if (sentences)
        return run_sentences(asked);
    check_written();
    printf("%lu runs of samples that are written out here\n", passed + failed);
    check_stream(seed);
    report((unsigned long)asked);
    printf("%lu passed, %lu failed\n", passed, failed);
    return failed > 0;
}
