/* Claimed ranges of a block: no two parts that are not empty share a byte (TIFF 6.0 section 7; FORMAT.md, "Shared bytes and gaps"). */
#ifndef LIMITS_RANGES_H
#define LIMITS_RANGES_H
#include "numbers.h"
#include <stdlib.h>

#define SMALL 4096 /* a block of at most so many bytes needs no memory */
#define LONG 4096  /* a range of at least so many bytes is kept as it is, if no more than LONGS are */
enum { LONGS = 8 };

/* Each claimed byte has a bit, but for those of a few long ranges. */
struct ranges {
    uint64_t *words;
    uint32_t end; /* no bit is set from here on */
    uint32_t longs, from[LONGS], to[LONGS];
    uint64_t few[SMALL / 64];
};

/* Makes the ranges of a block, of which none is claimed. Returns 0 if there is no memory. */
static inline int make_ranges(struct ranges *ranges, size_t size) {
    size_t words = size / 64 + 1;
    ranges->end = ranges->longs = 0;
    if (size < SMALL)
        ranges->words = memset(ranges->few, 0, words * sizeof *ranges->words);
    else
        ranges->words = calloc(words, sizeof *ranges->words);
    return ranges->words != NULL;
}

static inline void drop_ranges(struct ranges *ranges) {
    if (ranges->words != ranges->few)
        free(ranges->words);
}

/* Whether no byte of a range that is not empty is claimed. */
int is_free(const struct ranges *ranges, uint32_t from, uint32_t to);

/* Claims a long range, or one whose bits are in several words. Returns 0 if a byte of it is claimed. */
int claim_long(struct ranges *ranges, uint32_t from, uint32_t to);

/* The bits of a word from one number to another, both of them included. */
static inline uint64_t bits(uint32_t first, uint32_t last) {
    return ~(uint64_t)0 << first % 64 & ~(uint64_t)0 >> (63 - last % 64);
}

/* Claims a range. Returns 0 if a byte of it is claimed. Most ranges are short, and their bits are in one word. */
static inline int claim(struct ranges *ranges, uint32_t from, uint32_t to) {
    if (from == to)
        return 1;
    if (ranges->longs > 0 || from / 64 != (to - 1) / 64)
        return claim_long(ranges, from, to);
    uint64_t wanted = bits(from, to - 1), *word = &ranges->words[from / 64];
    if (*word & wanted)
        return 0;
    *word |= wanted;
    ranges->end = to > ranges->end ? to : ranges->end;
    return 1;
}
#endif
