/* Blocks made from known ones by chance, the same from the same seed. */
#ifndef FUZZ_CHANGES_H
#define FUZZ_CHANGES_H

#include <stddef.h>
#include <stdint.h>

/* A source of chance: xorshift64*, whose state is never 0. */
struct chance {
    uint64_t state;
};

uint32_t below(struct chance *chance, uint32_t most);

/* Changes a block of `length` bytes, in a buffer of `most` bytes, once or a few times, and returns its new length.
 * `other` is a block from which a part may be taken. */
size_t changed(struct chance *chance, unsigned char *block, size_t length, size_t most, const unsigned char *other, size_t other_length);

#endif
