/* Values of a block, with the most significant byte of each number first. */
#ifndef LIMITS_VALUES_H
#define LIMITS_VALUES_H
#include "exif.h"

/* Writes the value of an entry as it is in the form, if its type stays. */
void put_value(const struct exif *exif, const struct entry *it, unsigned char *to);

/* Writes a list of numbers as LONGs. */
void put_longs(struct list list, unsigned char *to);
#endif
