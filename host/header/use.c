/* The headers by themselves, in C and in C++, and uses of them that a compiler might warn of. */
#include "book_row.h"

#include "book.h"
#include "book_row.h"

#if BOOK_VERSION_MAJOR < 1
#error "the version is known to the preprocessor"
#endif

uint8_t use_sum(const uint8_t *records);
uint8_t use_sum(const uint8_t *records)
{
    return records[BOOK_AT_N1 + BOOK_RECORD_SIZE];
}

int use_choice(int cash, int32_t status);
int use_choice(int cash, int32_t status)
{
    int flags = cash ? BOOK_FLAG_CASH : 0;
    flags |= status == BOOK_DONE ? BOOK_FLAG_LIFO : BOOK_FLAG_ROLL_BACK;
    return status -BOOK_BAD_LENGTH > BOOK_CMPT * BOOK_KIND_LOT ? flags : status;
}

struct book_row use_row(const uint8_t *record);
struct book_row use_row(const uint8_t *record)
{
#if defined(__cplusplus) && __cplusplus >= 202002L
    struct book_row row = {.kind = BOOK_KIND_SECURITY, .symbol = "ABC", .n1 = BOOK_TMB};
#elif defined(__cplusplus)
    struct book_row row = {};
#else
    struct book_row row = {.symbol = "ABC", .kind = BOOK_KIND_SECURITY};
#endif
    return record == NULL ? row : book_read_row(record);
}
