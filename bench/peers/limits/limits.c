#include "limits.h"
#include "exif.h"
#include "groups.h"

/* FORMAT.md, section 1: six bytes may precede an Exif block, and are no part of it. */
static const unsigned char PREFIX[6] = "Exif\0";

static int has_prefix(const unsigned char *block, size_t size) {
    return size >= sizeof PREFIX && memcmp(block, PREFIX, sizeof PREFIX) == 0;
}

static int is_iim(const unsigned char *block, size_t size) {
    return size > 0 && block[0] == 0x1C;
}

/* Reads an Exif block and, if `out` is given, writes its form. Returns the length of the form, or why there is none. */
static long exif_form(const unsigned char *block, size_t size, unsigned char *out, size_t space) {
    size_t skipped = has_prefix(block, size) ? sizeof PREFIX : 0;
    struct exif exif;
    if (size - skipped > LIMIT)
        return LIMITS_REFUSED;
    exif.block = block + skipped;
    exif.size = (uint32_t)(size - skipped);
    memset(exif.directories, 0, sizeof exif - offsetof(struct exif, directories)); /* the ranges are cleared only as far as needed */
    if (!make_ranges(&exif.claimed, exif.size))
        return LIMITS_NO_SPACE;
    long length = read_exif(&exif) ? 0 : LIMITS_REFUSED;
    if (length == 0 && out) {
        uint64_t needed = lay_out(&exif);
        length = needed > LIMIT || needed > space ? LIMITS_NO_SPACE : (long)needed;
        if (length > 0)
            put_exif(&exif, out);
    }
    drop_ranges(&exif.claimed);
    return length;
}

int limits_check(const unsigned char *block, size_t size) {
    if (is_iim(block, size))
        return size <= LIMIT && iim_form_length(block, size) > 0;
    return exif_form(block, size, NULL, 0) == 0;
}

long limits_normalise(const unsigned char *block, size_t size, unsigned char *out, size_t space, enum way way) {
    if (!is_iim(block, size))
        return exif_form(block, size, out, space);
    return size <= LIMIT ? put_iim_form(block, size, out, space, way) : LIMITS_REFUSED;
}
