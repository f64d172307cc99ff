/* Heads of JPEGs and lists of Photoshop's resources that are made from the bytes of a block, so that what is in them is known. */
#ifndef FUZZ_MADE_H
#define FUZZ_MADE_H

#include <exifnorm.h>
#include <stddef.h>

enum { PARTS = 24, DATA = 32, LONGEST_HEAD = 8192, LONGEST_INSIDE = 2048 };

/* What decides: the bytes of a block, again and again. */
struct script {
    const unsigned char *bytes;
    size_t length, at;
};

/* A head: its bytes, its parts, and the offset at which each begins, with its bytes FF. */
struct head {
    unsigned char bytes[LONGEST_HEAD];
    size_t length, count, begin[PARTS + 2];
    struct exifnorm_jpeg_part parts[PARTS + 2];
};

/* Resources, and whether each has Adobe's signature. */
struct resources {
    unsigned char bytes[LONGEST_HEAD];
    size_t length, count;
    struct exifnorm_photoshop_resource found[PARTS];
    int is_adobe[PARTS];
};

/* The next byte of the script. */
unsigned next(struct script *script);

/* Appends bytes. */
void put(unsigned char *bytes, size_t *length, const void *more, size_t count);

/* Makes a head. In some the script's block is a block of the picture, if it has at most LONGEST_INSIDE bytes. */
void make_head(struct script *script, struct head *head);

/* Makes up to `most` resources. */
void make_resources(struct script *script, unsigned most, struct resources *list);

#endif
