/* See words.h. */
#include "words.h"

#include <inttypes.h>
#include <stdio.h>
#include <string.h>
#include <time.h>

const char *decimal(int64_t number, int decimals, char text[TEXT])
{
    uint64_t rest = number < 0 ? 0 - (uint64_t)number : (uint64_t)number;
    char *at = text + TEXT - 1;
    int digit;
    *at = '\0';
    for (digit = 0; digit <= decimals || rest > 0; digit++) {
        if (digit > 0 && digit == decimals)
            *--at = '.';
        if (digit > decimals && (digit - decimals) % 3 == 0)
            *--at = ',';
        *--at = (char)('0' + rest % 10);
        rest /= 10;
    }
    if (number < 0)
        *--at = '-';
    return at;
}

/* A time of the book as a date. */
static const char *date(uint32_t seconds, char text[TEXT])
{
    time_t since_1970 = (time_t)946684800 + seconds;
    const struct tm *parts = gmtime(&since_1970);
    if (parts == NULL || strftime(text, TEXT, "%Y-%m-%d %H:%M:%S", parts) == 0)
        snprintf(text, TEXT, "second %" PRIu32, seconds);
    return text;
}

#define DATE(seconds) date(seconds, (char[TEXT]){0})

static void say_trade(const struct book_row *row)
{
    printf("trade %" PRIu64 ": %s of %s %s for account %" PRIu32 "%s%s, %s; ", row->id, book_type_name(row->type),
           COUNT(row->n1), row->symbol, row->party, row->flags & BOOK_FLAG_CASH ? ", cash" : "",
           row->flags & BOOK_FLAG_LIFO ? ", LIFO" : "", book_trade_status_name(row->status));
    if (row->status == BOOK_CMPT)
        printf("price %s, charge %s, commission %s, tax %s\n", MONEY(row->n3), MONEY(row->n4), MONEY(row->m1),
               MONEY(row->m2));
    else
        printf("bid %s, charge %s, commission about %s\n", MONEY(row->n2), MONEY(row->n4), MONEY(row->m1));
}

void say_row(const struct book_row *row)
{
    switch (row->kind) {
    case BOOK_KIND_BROKER:
        printf("broker %" PRIu32 ": %s trades, commissions of %s\n", row->party, COUNT(row->n1), MONEY(row->m1));
        break;
    case BOOK_KIND_CUSTOMER: printf("customer %" PRIu32 ": tier %d\n", row->party, row->type); break;
    case BOOK_KIND_TAX_RATE:
        printf("tax rate %" PRIu32 ": %s %%\n", row->party, decimal(row->n1, 3, (char[TEXT]){0}));
        break;
    case BOOK_KIND_CUSTOMER_RATE:
        printf("customer %" PRIu32 " pays tax rate %" PRId32 "\n", row->party, row->n1);
        break;
    case BOOK_KIND_ACCOUNT:
        printf("account %" PRIu32 " of customer %" PRId32 " with broker %" PRId32 ": tax status %d, balance %s\n",
               row->party, row->n2, row->n1, row->type, MONEY(row->m1));
        break;
    case BOOK_KIND_SECURITY:
        printf("security %s on exchange %d: last price %s, volume %s\n", row->symbol, row->type, MONEY(row->n1),
               COUNT(row->m1));
        break;
    case BOOK_KIND_BAND:
        printf("commission of a %s, tier %d, exchange %d, %s to %s shares: %s %%\n", book_type_name(row->type),
               row->status, row->flags, COUNT(row->n1), COUNT(row->n2), decimal(row->n3, 2, (char[TEXT]){0}));
        break;
    case BOOK_KIND_CHARGE:
        printf("charge of a %s, tier %d: %s\n", book_type_name(row->type), row->status, MONEY(row->n1));
        break;
    case BOOK_KIND_TRADE: say_trade(row); break;
    case BOOK_KIND_REQUEST:
        printf("request of trade %" PRIu64 ": %s of %s %s at %s waits with broker %" PRIu32 "\n", row->id,
               book_type_name(row->type), COUNT(row->n1), row->symbol, MONEY(row->n2), row->party);
        break;
    case BOOK_KIND_HISTORY:
        printf("history of trade %" PRIu64 ": %s on %s\n", row->id, book_trade_status_name(row->status),
               DATE(row->time));
        break;
    case BOOK_KIND_LOT:
        printf("lot %" PRIu64 " of account %" PRIu32 ": %s %s at %s\n", row->id, row->party, COUNT(row->m1),
               row->symbol, MONEY(row->n1));
        break;
    case BOOK_KIND_SUMMARY:
        printf("summary of account %" PRIu32 ": %s %s in all its lots\n", row->party, COUNT(row->m1), row->symbol);
        break;
    case BOOK_KIND_LOT_HISTORY:
        printf("history of lot %" PRIu64 ": from %s shares to %s by trade %" PRId64 "\n", row->id, COUNT(row->n1),
               COUNT(row->n2), row->m2);
        break;
    case BOOK_KIND_SETTLEMENT:
        printf("settlement of trade %" PRIu64 ": %s%s, due on %s\n", row->id, MONEY(row->m1),
               row->flags & BOOK_FLAG_CASH ? " in cash" : "", DATE(row->time));
        break;
    case BOOK_KIND_CASH:
        printf("cash for trade %" PRIu64 ": %s on %s\n", row->id, MONEY(row->m1), DATE(row->time));
        break;
    case BOOK_KIND_PERMISSION:
        printf("executor %" PRId32 " may order for account %" PRIu32 "\n", row->n1, row->party);
        break;
    default: printf("a record of kind %d\n", row->kind);
    }
}

size_t say_changes(const uint8_t *before, const uint8_t *after, size_t length)
{
    size_t at, changed = 0;
    for (at = 0; at < length; at += BOOK_RECORD_SIZE) {
        struct book_row old = book_read_row(before + at), new = book_read_row(after + at);
        if (memcmp(before + at, after + at, BOOK_RECORD_SIZE) == 0)
            continue;
        changed++;
        printf("   place %2zu  ", at / BOOK_RECORD_SIZE);
        if (old.kind != 0) {
            printf(new.kind == 0 ? "went  " : "was   ");
            say_row(&old);
        }
        if (old.kind != 0 && new.kind != 0)
            printf("             ");
        if (new.kind != 0) {
            printf(old.kind == 0 ? "came  " : "now   ");
            say_row(&new);
        }
    }
    if (changed == 0)
        printf("   no row came, went or changed\n");
    return changed;
}
