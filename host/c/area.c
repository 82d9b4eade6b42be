/* See area.h. */
#define _DEFAULT_SOURCE /* for MAP_ANONYMOUS */
#include "area.h"

#include <stdio.h>
#include <stdlib.h>
#include <string.h>
#include <sys/mman.h>
#include <unistd.h>

enum { MOST_GUARD = 64, ALIGNMENTS = 16 };

size_t roll(struct dice *dice, size_t limit)
{
    uint64_t z = dice->state += 0x9E3779B97F4A7C15u;
    z = (z ^ (z >> 30)) * 0xBF58476D1CE4E5B9u;
    z = (z ^ (z >> 27)) * 0x94D049BB133111EBu;
    return (size_t)((z ^ (z >> 31)) % limit);
}

static void need(int good, const char *what)
{
    if (!good) {
        perror(what);
        exit(2);
    }
}

static void from_malloc(struct area *area, size_t before, size_t after)
{
    size_t total = before + area->length + after;
    area->block = malloc(total > 0 ? total : 1);
    need(area->block != NULL, "malloc");
    area->before = before;
    area->after = after;
    area->mapped = 0;
}

/* The sanitizers do not look into the library, which was compiled without them. A page that may not be touched does:
   the area ends where such a page begins, or begins where one ends. */
static void between_locked_pages(struct area *area, int at_the_end)
{
    size_t page = (size_t)sysconf(_SC_PAGESIZE);
    size_t inside = (area->length / page + 1) * page;
    size_t spare = inside - area->length;
    uint8_t *pages;
    area->mapped = inside + 2 * page;
    pages = mmap(NULL, area->mapped, PROT_NONE, MAP_PRIVATE | MAP_ANONYMOUS, -1, 0);
    need(pages != MAP_FAILED, "mmap");
    area->block = pages + page;
    need(mprotect(area->block, inside, PROT_READ | PROT_WRITE) == 0, "mprotect");
    area->before = at_the_end ? spare : 0;
    area->after = at_the_end ? 0 : spare;
}

static uint8_t guard(const struct area *area, size_t at)
{
    return (uint8_t)(area->key + 151 * at);
}

/* The place in the block of guard byte n, counted over both sides. */
static size_t guard_at(const struct area *area, size_t n)
{
    return n < area->before ? n : n + area->length;
}

void place(struct area *area, struct dice *dice, const uint8_t *bytes, size_t length, int read_only)
{
    size_t how = roll(dice, 4), guards, n, at;
    area->length = length;
    area->key = (uint8_t)roll(dice, 256);
    if (how == 0)
        from_malloc(area, 1 + roll(dice, MOST_GUARD), 1 + roll(dice, MOST_GUARD));
    else if (how == 1) /* valgrind sees what is read behind it */
        from_malloc(area, roll(dice, ALIGNMENTS), 0);
    else
        between_locked_pages(area, how == 2);
    area->bytes = area->block + area->before;
    guards = area->before + area->after;
    for (n = 0; n < guards; n++) {
        at = guard_at(area, n);
        area->block[at] = guard(area, at);
    }
    if (length > 0)
        memcpy(area->bytes, bytes, length);
    if (read_only && area->mapped > 0)
        need(mprotect(area->block, guards + length, PROT_READ) == 0, "mprotect");
}

int guards_hold(const struct area *area)
{
    size_t n, at;
    for (n = 0; n < area->before + area->after; n++) {
        at = guard_at(area, n);
        if (area->block[at] != guard(area, at))
            return 0;
    }
    return 1;
}

void release(struct area *area)
{
    size_t page = (size_t)sysconf(_SC_PAGESIZE);
    if (area->mapped > 0)
        munmap(area->block - page, area->mapped);
    else
        free(area->block);
}
