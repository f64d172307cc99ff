/* Writes the normal form of each packet of XMP that is named, so that its instructions are counted. The status is 1 if one has no form. */
#include <stdio.h>
#include <stdlib.h>

#include "exifnorm.h"

enum { ROOM = 1 << 24 }; /* bytes of the longest packet, and of the longest form */

int main(int argc, char **argv)
{
    unsigned char *packet = malloc(ROOM), *out = malloc(ROOM);
    int i;

    if (packet == NULL || out == NULL) {
        return 1;
    }
    for (i = 1; i < argc; i++) {
        struct exifnorm_fault fault;
        size_t length, written;
        FILE *file = fopen(argv[i], "rb");

        if (file == NULL) {
            return 1;
        }
        length = fread(packet, 1, ROOM, file);
        fclose(file);
        if (exifnorm_xmp_normalise(packet, length, out, ROOM, &written, &fault) != EXIFNORM_DONE) {
            return 1;
        }
    }
    free(packet);
    free(out);
    return 0;
}
