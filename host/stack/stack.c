/*
 * stack <CASES: how much stack each call takes. A call runs on a thread whose stack was painted before; what is no
 * longer as painted was used. It is run on the largest books there may be: with as many lots, and as many requests, as
 * they can hold, then on the cases of the program `cases` of second/, which reach every status. Prints the most bytes
 * of each call and checks that they are no more than BOOK_MOST_STACK. The last line is 'N passed, M failed'.
 */
#define _DEFAULT_SOURCE /* for MAP_ANONYMOUS */
#include "book_row.h"

#include <pthread.h>
#include <stdio.h>
#include <stdlib.h>
#include <sys/mman.h>

enum { SIZE = 1 << 20, PAINT = 0xa7, MOST_AREA = 1 << 24, CALLS = 4 };
enum { PARTY = 1, LOT_SHARES = 2, PRICE = 2000, LOTS = 816, REQUESTS = 1022 };

/* A call, and how much stack it has taken at most. */
static struct {
    const char *name;
    int32_t (*run)(uint8_t *, size_t, const uint8_t *, size_t, uint8_t *, size_t);
    size_t most;
} calls[CALLS];

static int32_t lookup(uint8_t *book, size_t book_len, const uint8_t *input, size_t input_len, uint8_t *answer,
                      size_t answer_len)
{
    return book_lookup(book, book_len, input, input_len, answer, answer_len);
}

static uint8_t book[BOOK_MOST_RECORDS * BOOK_RECORD_SIZE], answer[2 * BOOK_MOST_INPUTS * BOOK_RECORD_SIZE];
static uint8_t input[BOOK_MOST_INPUTS * BOOK_RECORD_SIZE];
static uint8_t *painted;
static unsigned long passed, failed;

static void need(int good, const char *what)
{
    if (!good) {
        perror(what);
        exit(2);
    }
}

struct job {
    size_t call;
    struct { uint8_t *bytes; size_t length; } area[3];
    int32_t status;
    uint8_t *frame; /* where the call's own stack begins */
};

static void *work(void *given)
{
    struct job *job = given;
    job->frame = __builtin_frame_address(0);
    job->status = calls[job->call].run(job->area[0].bytes, job->area[0].length, job->area[1].bytes,
                                       job->area[1].length, job->area[2].bytes, job->area[2].length);
    return NULL;
}

/* Has the call run, and notes what it took. */
static void measure(struct job *job, int32_t expected, const char *name)
{
    pthread_attr_t how;
    pthread_t thread;
    size_t n = 0, used;
    memset(painted, PAINT, SIZE);
    need(pthread_attr_init(&how) == 0 && pthread_attr_setstack(&how, painted, SIZE) == 0, "pthread_attr_setstack");
    need(pthread_create(&thread, &how, work, job) == 0 && pthread_join(thread, NULL) == 0, "pthread_create");
    pthread_attr_destroy(&how);
    while (painted[n] == PAINT)
        n++;
    used = (size_t)(job->frame - painted) - n;
    if (used > calls[job->call].most)
        calls[job->call].most = used;
    if (job->status == expected && used <= BOOK_MOST_STACK) {
        passed++;
        return;
    }
    printf("%s, %s: status %d, expected %d, %zu bytes of stack\n", calls[job->call].name, name, (int)job->status,
           (int)expected, used);
    failed++;
}

static size_t added;

static void add(struct book_row row)
{
    book_write_row(book + added++ * BOOK_RECORD_SIZE, &row);
}

/* The rows that every book here has. */
static void stand(void)
{
    memset(book, 0, sizeof book);
    added = 0;
    add((struct book_row){.kind = BOOK_KIND_BROKER, .party = PARTY});
    add((struct book_row){.kind = BOOK_KIND_CUSTOMER, .party = PARTY, .type = 1});
    add((struct book_row){.kind = BOOK_KIND_TAX_RATE, .party = PARTY, .n1 = 20000});
    add((struct book_row){.kind = BOOK_KIND_CUSTOMER_RATE, .party = PARTY, .n1 = PARTY});
    add((struct book_row){.kind = BOOK_KIND_ACCOUNT, .party = PARTY, .n1 = PARTY, .n2 = PARTY, .type = 1});
    add((struct book_row){.kind = BOOK_KIND_SECURITY, .symbol = "ABC", .type = 1, .n1 = PRICE});
    add((struct book_row){.kind = BOOK_KIND_BAND, .type = BOOK_TMS, .status = 1, .flags = 1, .n1 = 1, .n2 = 9999,
                          .n3 = 50});
    add((struct book_row){.kind = BOOK_KIND_CHARGE, .type = BOOK_TMS, .status = 1, .n1 = 500});
}

static void add_trade(uint64_t id, uint8_t type, uint8_t status, uint8_t flags, int32_t shares)
{
    add((struct book_row){.kind = BOOK_KIND_TRADE, .id = id, .type = type, .status = status, .flags = flags,
                          .party = PARTY, .symbol = "ABC", .n1 = shares, .n2 = PRICE,
                          .n3 = status == BOOK_CMPT ? PRICE - 1 : 0});
    add((struct book_row){.kind = BOOK_KIND_HISTORY, .id = id, .status = status});
}

/* Lots, each with its trade; a sell of all of them is submitted. It leaves as many free places as the result needs. */
static void stand_lots(uint8_t flags)
{
    uint64_t id;
    stand();
    for (id = 1; id <= LOTS; id++) {
        add_trade(id, BOOK_TMB, BOOK_CMPT, 0, LOT_SHARES);
        add((struct book_row){.kind = BOOK_KIND_SETTLEMENT, .id = id});
        add((struct book_row){.kind = BOOK_KIND_LOT, .id = id, .party = PARTY, .symbol = "ABC", .n1 = PRICE - 1,
                              .m1 = LOT_SHARES, .time = (uint32_t)(id * 7919 % LOTS)});
    }
    add((struct book_row){.kind = BOOK_KIND_SUMMARY, .party = PARTY, .symbol = "ABC", .m1 = LOTS * LOT_SHARES});
    add_trade(LOTS + 1, BOOK_TMS, BOOK_SBMT, flags, LOTS * LOT_SHARES + 1);
}

/* Requests, each with its trade; there is a free place for the history of each. */
static void stand_requests(void)
{
    uint64_t id;
    stand();
    for (id = 1; id <= REQUESTS; id++) {
        add_trade(id, BOOK_TLB, BOOK_PNDG, 0, LOT_SHARES);
        add((struct book_row){.kind = BOOK_KIND_REQUEST, .id = id, .type = BOOK_TLB, .party = PARTY, .symbol = "ABC",
                              .n1 = LOT_SHARES, .n2 = PRICE});
    }
}

/* Asks for this record, or for so many like it. */
static void ask(const char *name, size_t call, struct book_row row, size_t records, size_t answers)
{
    struct job job = {.call = call};
    size_t n;
    for (n = 0; n < records; n++)
        book_write_row(input + n * BOOK_RECORD_SIZE, &row);
    job.area[0].bytes = book;
    job.area[0].length = sizeof book;
    job.area[1].bytes = input;
    job.area[1].length = records * BOOK_RECORD_SIZE;
    job.area[2].bytes = answer;
    job.area[2].length = answers * BOOK_RECORD_SIZE;
    measure(&job, BOOK_DONE, name);
}

static void worst_books(void)
{
    uint8_t flags;
    for (flags = 0; flags <= BOOK_FLAG_LIFO; flags = (uint8_t)(flags + BOOK_FLAG_LIFO)) {
        const struct book_row order = {.kind = BOOK_KIND_ORDER, .type = BOOK_TMS, .flags = flags, .party = PARTY,
                                       .symbol = "ABC", .n1 = LOTS * LOT_SHARES + 1};
        stand_lots(flags);
        ask("many lots", BOOK_KIND_LOOKUP - BOOK_KIND_ORDER, (struct book_row){.kind = BOOK_KIND_LOOKUP, .id = LOTS},
            BOOK_MOST_INPUTS, 2 * BOOK_MOST_INPUTS);
        ask("many lots", 0, order, 1, 1);
        stand_lots(flags);
        ask("many lots", BOOK_KIND_RESULT - BOOK_KIND_ORDER,
            (struct book_row){.kind = BOOK_KIND_RESULT, .id = LOTS + 1, .n1 = PRICE}, 1, 1);
    }
    stand_requests();
    ask("many requests", BOOK_KIND_FEED - BOOK_KIND_ORDER,
        (struct book_row){.kind = BOOK_KIND_FEED, .symbol = "ABC", .n1 = PRICE, .n2 = 1}, BOOK_MOST_INPUTS, 1);
}

/* The cases of the stream: six numbers, three areas before the call, two after it. */
static void stream(void)
{
    uint8_t head[24];
    while (fread(head, 1, sizeof head, stdin) == sizeof head) {
        struct job job = {.call = book_get_u32(head) - BOOK_KIND_ORDER};
        size_t n, length[5], all = 0;
        uint8_t *bytes, *at;
        for (n = 0; n < 5; n++)
            all += length[n] = book_get_u32(head + 8 + 4 * (n < 3 ? n : 2 * n - 6));
        need(job.call < CALLS && all < MOST_AREA, "the cases");
        at = bytes = malloc(all + 1);
        need(bytes != NULL && fread(bytes, 1, all, stdin) == all, "the cases");
        for (n = 0; n < 3; at += length[n++]) {
            job.area[n].bytes = at;
            job.area[n].length = length[n];
        }
        measure(&job, book_get_i32(head + 20), "a case");
        free(bytes);
    }
}

int main(void)
{
    size_t n, most = 0;
    for (n = 0; n < CALLS; n++)
        calls[n].name = book_kind_name((uint8_t)(BOOK_KIND_ORDER + n));
    calls[0].run = book_order;
    calls[1].run = book_result;
    calls[2].run = book_feed;
    calls[3].run = lookup;
    painted = mmap(NULL, SIZE, PROT_READ | PROT_WRITE, MAP_PRIVATE | MAP_ANONYMOUS, -1, 0);
    need(painted != MAP_FAILED, "mmap");
    worst_books();
    stream();
    for (n = 0; n < CALLS; n++) {
        printf("%s: %zu bytes of stack\n", calls[n].name, calls[n].most);
        most = calls[n].most > most ? calls[n].most : most;
    }
    printf("at most %zu KiB\n", (most + 1023) / 1024);
    printf("%lu passed, %lu failed\n", passed, failed);
    return failed > 0;
}
