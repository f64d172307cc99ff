#include "changes.h"
#include <string.h>

static uint64_t next(struct chance *chance) {
    chance->state ^= chance->state >> 12;
    chance->state ^= chance->state << 25;
    chance->state ^= chance->state >> 27;
    return chance->state * 0x2545F4914F6CDD1DULL;
}

uint32_t below(struct chance *chance, uint32_t most) {
    return (uint32_t)((next(chance) >> 32) * most >> 32);
}

/* A block that is changed: its bytes, and the capacity of its buffer. */
struct draft {
    struct chance *chance;
    unsigned char *bytes;
    size_t length, most;
    const unsigned char *other;
    size_t other_length;
};

/* An offset: more often near the beginning, where the tables are, and seldom in the header, where most changes are a fault. */
static size_t place_in(struct draft *it, size_t length) {
    size_t first = length > 20 && it->bytes[0] != 0x1C && below(it->chance, 16) ? 8 : 0;
    size_t at = below(it->chance, (uint32_t)(length - first));
    return first + (below(it->chance, 4) ? at * at / (length - first) : at);
}

static const uint32_t numbers[] = {0, 1, 2, 3, 4, 5, 6, 7, 8, 9, 10, 11, 12, 13, 26, 129, 0x7F, 0x80, 0xFF, 0x100, 0x111, 0x117, 0x11A,
    0x14A, 0x201, 0x202, 0x7FFF, 0x8000, 0x8001, 0x8004, 0x8005, 0x83BB, 0x8769, 0x8825, 0xA005, 0xFFFF, 0x10000, 0x7FFFFFFF,
    0x80000000, 0xFFFFFFFC, 0xFFFFFFFF};

static uint32_t number_for(struct draft *it) {
    uint32_t end = (uint32_t)it->length;
    switch (below(it->chance, 4)) {
    case 0:
        return end + below(it->chance, 5) - 2;
    case 1:
        return below(it->chance, end + 1);
    default:
        return numbers[below(it->chance, sizeof numbers / sizeof *numbers)];
    }
}

static void put_number(struct draft *it, size_t at, unsigned width, int is_big, uint32_t number) {
    for (unsigned i = 0; i < width && at + i < it->length; i++)
        it->bytes[at + i] = (unsigned char)(number >> 8 * (is_big ? width - 1 - i : i));
}

static void put_in(struct draft *it, size_t at, const unsigned char *part, size_t size) {
    if (it->length + size > it->most)
        return;
    memmove(it->bytes + at + size, it->bytes + at, it->length - at);
    memmove(it->bytes + at, part, size);
    it->length += size;
}

static void take_out(struct draft *it, size_t at, size_t size) {
    if (at + size > it->length || it->length == size)
        return;
    memmove(it->bytes + at, it->bytes + at + size, it->length - at - size);
    it->length -= size;
}

static const unsigned sizes[] = {1, 2, 4, 5, 8, 12, 12, 12, 24};

static unsigned size_for(struct draft *it) {
    return sizes[below(it->chance, sizeof sizes / sizeof *sizes)];
}

/* Two entries of a table, or other parts of one size, are exchanged. */
static void exchange(struct draft *it, size_t at, size_t size) {
    unsigned char kept[24];
    if (at + 2 * size > it->length)
        return;
    memcpy(kept, it->bytes + at, size);
    memmove(it->bytes + at, it->bytes + at + size, size);
    memcpy(it->bytes + at + size, kept, size);
}

static void copy_within(struct draft *it, size_t to, size_t size) {
    size_t from = place_in(it, it->length);
    if (to + size <= it->length && from + size <= it->length)
        memmove(it->bytes + to, it->bytes + from, size);
}

static void take_from_other(struct draft *it, size_t at, size_t size) {
    if (it->other_length >= size)
        put_in(it, at, it->other + below(it->chance, (uint32_t)(it->other_length - size + 1)), size);
}

static void change_once(struct draft *it) {
    size_t at = place_in(it, it->length);
    static const unsigned char common[] = {0, 1, 2, 4, 7, 0x1C, 0x80, 0xFF};
    unsigned char filler[24];
    switch (below(it->chance, 14)) {
    case 0:
    case 1:
        it->bytes[at] ^= (unsigned char)(1u << below(it->chance, 8));
        break;
    case 2:
        it->bytes[at] = common[below(it->chance, sizeof common)];
        break;
    case 3:
        it->bytes[at] = (unsigned char)below(it->chance, 256);
        break;
    case 4:
    case 5:
    case 6:
        put_number(it, at, below(it->chance, 2) ? 2 : 4, it->bytes[0] != 'I' || below(it->chance, 8) == 0, number_for(it));
        break;
    case 7: /* a small step up or down, for an offset or a count */
        it->bytes[at] = (unsigned char)(it->bytes[at] + below(it->chance, 9) - 4);
        break;
    case 8:
        it->length -= below(it->chance, (uint32_t)(1 + it->length / (1 + below(it->chance, 16)))) % it->length;
        break;
    case 9:
        take_out(it, at, size_for(it));
        break;
    case 10:
        memset(filler, it->bytes[at], sizeof filler);
        put_in(it, at, filler, size_for(it));
        break;
    case 11:
        exchange(it, at, size_for(it));
        break;
    case 12:
        copy_within(it, at, size_for(it));
        break;
    default:
        take_from_other(it, at, size_for(it));
    }
}

size_t changed(struct chance *chance, unsigned char *block, size_t length, size_t most, const unsigned char *other, size_t other_length) {
    struct draft draft = {chance, block, length, most, other, other_length};
    unsigned times = 1 + (below(chance, 3) == 0) + (below(chance, 6) == 0 ? below(chance, 6) : 0);
    for (unsigned i = 0; i < times && draft.length > 0; i++)
        change_once(&draft);
    return draft.length;
}
