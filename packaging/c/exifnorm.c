/* The library of exifnorm.h in C, for machines with addresses of 64 bits that store the least significant byte first.
 *
 * module.c was made of the proved library. Its calls read and write what their caller passes, and copy nothing.
 */
#include "machine.h"
#include "exifnorm.h"

/* It has the calls of exifnorm.h, except exifnorm_version. */
#include "module.c"

/* The module's version, and that this is the library in C. */
uint32_t exifnorm_version(char *out, size_t out_length, size_t *written) {
    static const char mark[] = " (C)";
    char text[EXIFNORM_NAME_ROOM];
    size_t length = 0;
    if (module_version(text, sizeof text - (sizeof mark - 1), &length) != EXIFNORM_DONE) abort(); /* it is longer than any version */
    memcpy(text + length - 1, mark, sizeof mark);
    *written = length + sizeof mark - 1;
    if (out_length < *written) return EXIFNORM_TOO_LITTLE_ROOM;
    memcpy(out, text, *written);
    return EXIFNORM_DONE;
}
