#include "ranges.h"

int is_free(const struct ranges *ranges, uint32_t from, uint32_t to) {
    for (uint32_t i = 0; i < ranges->longs; i++)
        if (from < ranges->to[i] && ranges->from[i] < to)
            return 0;
    to = to < ranges->end ? to : ranges->end;
    if (from >= to)
        return 1;
    uint32_t first = from / 64, last = (to - 1) / 64;
    if (first == last)
        return !(ranges->words[first] & bits(from, to - 1));
    uint64_t any = (ranges->words[first] & bits(from, 63)) | (ranges->words[last] & bits(0, to - 1));
    for (uint32_t i = first + 1; i < last; i++)
        any |= ranges->words[i];
    return !any;
}

int claim_long(struct ranges *ranges, uint32_t from, uint32_t to) {
    if (!is_free(ranges, from, to))
        return 0;
    if (to - from >= LONG && ranges->longs < LONGS) {
        ranges->from[ranges->longs] = from;
        ranges->to[ranges->longs++] = to;
        return 1;
    }
    ranges->end = to > ranges->end ? to : ranges->end;
    uint32_t first = from / 64, last = (to - 1) / 64;
    if (first == last) {
        ranges->words[first] |= bits(from, to - 1);
        return 1;
    }
    ranges->words[first] |= bits(from, 63);
    for (uint32_t i = first + 1; i < last; i++)
        ranges->words[i] = ~(uint64_t)0;
    ranges->words[last] |= bits(0, to - 1);
    return 1;
}
