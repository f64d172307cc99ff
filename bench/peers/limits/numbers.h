/* Numbers in a block, which have either byte order (TIFF 6.0 section 2, "Image File Header"), and in a form, whose most significant
 * byte is first. Compilers turn each of these functions into one or two instructions. */
#ifndef LIMITS_NUMBERS_H
#define LIMITS_NUMBERS_H
#include <stdint.h>
#include <string.h>

/* The greatest length of a block and of a form. So sums of two offsets fit into 32 bits. */
#define LIMIT 16777216u

enum order { MOST_FIRST, LEAST_FIRST };

static inline uint32_t get16(enum order order, const unsigned char *at) {
    return order == LEAST_FIRST ? (uint32_t)at[1] << 8 | at[0] : (uint32_t)at[0] << 8 | at[1];
}

static inline uint32_t get32(enum order order, const unsigned char *at) {
    return order == LEAST_FIRST ? (uint32_t)at[3] << 24 | (uint32_t)at[2] << 16 | (uint32_t)at[1] << 8 | at[0]
                                : (uint32_t)at[0] << 24 | (uint32_t)at[1] << 16 | (uint32_t)at[2] << 8 | at[3];
}

static inline void put16(unsigned char *to, uint32_t number) {
    to[0] = (unsigned char)(number >> 8);
    to[1] = (unsigned char)number;
}

static inline void put32(unsigned char *to, uint32_t number) {
    put16(to, number >> 16);
    put16(to + 2, number);
}

/* The size of a part of a form with its padding: each part begins at an even offset. A part that was judged is at most twice as long
 * as a block, so its size fits. */
static inline uint32_t padded(uint32_t size) {
    return size + size % 2;
}

/* Copies bytes. A call of memcpy takes longer than two moves, and most parts are short. */
static inline void copy(unsigned char *restrict to, const unsigned char *restrict from, size_t size) {
    if (size > 16) {
        memcpy(to, from, size);
    } else if (size >= 8) {
        memcpy(to, from, 8);
        memcpy(to + size - 8, from + size - 8, 8);
    } else if (size >= 4) {
        memcpy(to, from, 4);
        memcpy(to + size - 4, from + size - 4, 4);
    } else {
        for (size_t i = 0; i < size; i++)
            to[i] = from[i];
    }
}
#endif
