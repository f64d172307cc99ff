/* Plain C for the work of exifnorm_check and exifnorm_normalise: what it takes is the least that the library could take.
 *
 * It accepts the same blocks (docs/FORMAT.md, sections 2, 3 and 5) and writes the same forms (section 6), byte for byte. It has no
 * proof, and reports neither the first fault of a block nor its offset: so it may judge in any order. */
#ifndef LIMITS_H
#define LIMITS_H
#include <stddef.h>

/* Why there is no form. */
enum { LIMITS_REFUSED = -1, LIMITS_NO_SPACE = -2 };

/* How a long IIM block is put in order (groups.h). An Exif block has one way. */
enum way { BY_OCTETS, BY_OFFSETS };

/* Whether the block is accepted. */
int limits_check(const unsigned char *block, size_t size);

/* Writes the normal form, and returns its length or one of the numbers above. */
long limits_normalise(const unsigned char *block, size_t size, unsigned char *out, size_t space, enum way way);
#endif
