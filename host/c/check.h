/* The calls that the library has, and one case of a call held to what is expected of it. */
#ifndef CHECK_H
#define CHECK_H

#include "book.h"

struct call {
    const char *name;
    uint8_t kind; /* of its input records */
    int32_t (*run)(uint8_t *, size_t, const uint8_t *, size_t, uint8_t *, size_t);
    int only_reads; /* the book */
    const int32_t *statuses; /* all that it can give */
    size_t status_count;
};

extern const struct call calls[];
extern const size_t call_count;

/* The call whose input records are of this kind, or NULL. */
const struct call *call_of(uint32_t kind);

/* A call with all that it is given, and what is expected of it. */
struct sample {
    const struct call *call;
    const uint8_t *book, *input, *answer;
    size_t book_length, input_length, answer_length;
    int32_t status;
    const uint8_t *book_after, *answer_after;
};

/* How many samples were as expected, and how many were not. */
extern unsigned long passed, failed;

/* Has the sample run, on areas placed by the seed, and compares the status and every byte. Says under this name what
   is wrong, counts, and gives whether all was right. */
int check(const struct sample *sample, uint64_t seed, const char *name);

/* Counts one failure, and says what it is unless many have been said. */
void fault(const char *name, const char *format, ...);

/* Names what is running, should it end the program. */
void watch_for_crashes(void);
void begin_call(const char *name);

/* The samples that are written out here, independent of any other program. */
void check_written(void);

#endif
