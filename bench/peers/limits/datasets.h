/* One DataSet of an IIM block (IIM 4.2 chapter 3; FORMAT.md, section 3). */
#ifndef LIMITS_DATASETS_H
#define LIMITS_DATASETS_H
#include "numbers.h"
#include <stddef.h>

struct dataset {
    uint32_t group; /* 256 times the record number, plus the number that names the group */
    uint32_t length;
    const unsigned char *data;
    unsigned char number;
};

/* Some DataSets of record 2 are repeated in step with another one, and belong to its group. */
static inline uint32_t group_of(unsigned record, unsigned number) {
    if (record == 2 && number == 27)
        number = 26;
    else if (record == 2 && (number == 47 || number == 50))
        number = 45;
    else if (record == 2 && number == 85)
        number = 80;
    return record << 8 | number;
}

/* The length of the data whose count has `octets` octets at `at`, most significant first. */
static inline uint32_t counted(const unsigned char *at, uint32_t octets) {
    uint32_t length = 0;
    for (uint32_t i = 0; i < octets; i++)
        length = length << 8 | at[i];
    return length;
}

/* Reads the DataSet at `at`. It has no data, not even empty ones, if there is none or it passes the end. */
static inline struct dataset read_dataset(const unsigned char *at, const unsigned char *end) {
    struct dataset none = {0}, it;
    if (end - at < 5 || at[0] != 0x1C)
        return none;
    it.number = at[2];
    it.group = group_of(at[1], at[2]);
    it.length = get16(MOST_FIRST, at + 3);
    it.data = at + 5;
    if (it.length > 0x7FFF) { /* extended: the other bits are the number of octets of the count */
        uint32_t octets = it.length - 0x8000;
        if (octets < 1 || octets > 4 || end - it.data < (ptrdiff_t)octets)
            return none;
        it.length = counted(it.data, octets);
        it.data += octets;
    }
    return end - it.data < (ptrdiff_t)it.length ? none : it;
}

/* Where the next DataSet begins. */
static inline const unsigned char *end_of(const struct dataset *it) {
    return it->data + it->length;
}

/* Whether nothing follows the last DataSet but at most three zero octets. */
static inline int is_end(const unsigned char *at, const unsigned char *end) {
    if (end - at > 3)
        return 0;
    while (at < end)
        if (*at++ != 0)
            return 0;
    return 1;
}

/* How many octets a DataSet has in the form. */
static inline uint32_t form_length(const struct dataset *it) {
    return (it->length <= 0x7FFF ? 5 : 9) + it->length;
}

/* Writes a DataSet of a form, and returns where the next one begins. */
static inline unsigned char *put_dataset(unsigned char *to, const struct dataset *it) {
    to[0] = 0x1C;
    to[1] = (unsigned char)(it->group >> 8);
    to[2] = it->number;
    put16(to + 3, it->length <= 0x7FFF ? it->length : 0x8004);
    if (it->length > 0x7FFF)
        put32(to + 5, it->length);
    to += form_length(it) - it->length;
    copy(to, it->data, it->length);
    return to + it->length;
}
#endif
