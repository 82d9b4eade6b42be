/* Byte areas to call with: at any alignment, with guard bytes around them or at the edge of the memory there is. */
#ifndef AREA_H
#define AREA_H

#include <stddef.h>
#include <stdint.h>

/* A small seeded source of random numbers (splitmix64). */
struct dice {
    uint64_t state;
};

/* A number from 0 up to, but not including, limit. */
size_t roll(struct dice *dice, size_t limit);

struct area {
    uint8_t *bytes;
    size_t length;
    uint8_t *block;       /* guard bytes, the area, guard bytes */
    size_t before, after; /* how many guard bytes */
    uint8_t key;          /* what they are made of */
    size_t mapped;        /* length of the pages around the block, 0 if it is from malloc */
};

/* Makes an area that holds these bytes, somewhere. Between pages, one to be read only cannot be written. */
void place(struct area *area, struct dice *dice, const uint8_t *bytes, size_t length, int read_only);

/* Whether every guard byte is as it was made. */
int guards_hold(const struct area *area);

void release(struct area *area);

#endif
