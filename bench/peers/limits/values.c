#include "values.h"

/* These three reverse the bytes of each element. Compilers use an instruction for each, or one for several. */
static void turn2(unsigned char *restrict to, const unsigned char *restrict from, size_t count) {
    for (size_t i = 0; i < 2 * count; i += 2) {
        uint16_t it;
        memcpy(&it, from + i, 2);
        it = (uint16_t)(it << 8 | it >> 8);
        memcpy(to + i, &it, 2);
    }
}

static void turn4(unsigned char *restrict to, const unsigned char *restrict from, size_t count) {
    for (size_t i = 0; i < 4 * count; i += 4) {
        uint32_t it;
        memcpy(&it, from + i, 4);
        it = it << 24 | (it & 0xFF00) << 8 | (it >> 8 & 0xFF00) | it >> 24;
        memcpy(to + i, &it, 4);
    }
}

static void turn8(unsigned char *restrict to, const unsigned char *restrict from, size_t count) {
    for (size_t i = 0; i < 8 * count; i += 8) {
        unsigned char it[8];
        memcpy(it, from + i, 8);
        unsigned char turned[8] = {it[7], it[6], it[5], it[4], it[3], it[2], it[1], it[0]};
        memcpy(to + i, turned, 8);
    }
}

void put_value(const struct exif *exif, const struct entry *it, unsigned char *to) {
    const unsigned char *from = value_of(exif, it);
    uint32_t element = element_size(it->type);
    if (exif->order == MOST_FIRST || element == 1)
        copy(to, from, (size_t)it->count * element);
    else if (it->type == SHORT_TYPE && it->count == 1)
        put16(to, get16(LEAST_FIRST, from)); /* the usual field, for which no loop is needed */
    else if (element == 2)
        turn2(to, from, it->count);
    else if (element == 4)
        turn4(to, from, it->count);
    else if (it->type == RATIONAL_TYPE || it->type == SRATIONAL_TYPE)
        turn4(to, from, 2 * (size_t)it->count);
    else
        turn8(to, from, it->count);
}

void put_longs(struct list list, unsigned char *to) {
    for (uint32_t i = 0; i < list.count; i++)
        put32(to + 4 * (size_t)i, number_at(list, i));
}
