/* What an output and a fault have before a call, and whether they still have it. */
#ifndef FUZZ_UNTOUCHED_H
#define FUZZ_UNTOUCHED_H

#include <exifnorm.h>

enum { FILLER = 0xA5, UNSET = 0x5EED5EED };

static const struct exifnorm_fault NO_FAULT = {UNSET, UNSET};

static inline int is_filled(const void *bytes, size_t length) {
    for (size_t i = 0; i < length; i++)
        if (((const unsigned char *)bytes)[i] != FILLER)
            return 0;
    return 1;
}

static inline int is_fault(struct exifnorm_fault one, struct exifnorm_fault other) {
    return one.cause == other.cause && one.place == other.place;
}

#endif
