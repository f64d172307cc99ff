/* What one call of the library costs: cost CALL FILE, where CALL is check, normalise, show, captions, compare (with itself), jpeg_parts,
 * photoshop_resources, jpeg_same or jpeg_same_blocks (with itself), jpeg_unread, jpeg_xmp, xmp_check, xmp_normalise or xmp_unsorted. It prints the most bytes that the call has allocated at once, the number of its allocations, how many of these made
 * something longer, the bytes that they asked for, and the length of the output. test_costs.py runs it, also under callgrind, which counts the
 * instructions of the call.
 *
 * cost CALL FILE NUMBER lets the allocation with this number fail, from 1 on, and prints the status and the bytes that are not freed. */
#include "fuzz/memory.h"
#include <exifnorm.h>
#include <stdio.h>
#include <stdlib.h>
#include <string.h>

/* A marker of two bytes is a part, and has the most bytes of output for each byte of its block, but for a packet with long names, of which only
 * short ones are called here. */
#define TIMES (sizeof(struct exifnorm_jpeg_part) / 2)
#define BESIDE (1 << 21)

struct block {
    unsigned char *bytes;
    size_t length;
};

static struct block read_file(const char *name) {
    struct block block = {NULL, 0};
    FILE *file = fopen(name, "rb");
    if (!file || fseek(file, 0, SEEK_END) != 0)
        exit(2);
    block.length = (size_t)ftell(file);
    rewind(file);
    block.bytes = malloc(block.length + 1);
    if (!block.bytes || fread(block.bytes, 1, block.length, file) != block.length)
        exit(2);
    fclose(file);
    return block;
}

static uint32_t called(const char *name, struct block block, void *out, size_t room, size_t *written) {
    struct exifnorm_fault fault;
    struct exifnorm_jpeg_fault of_head;
    struct exifnorm_picture_fault of_picture;
    struct exifnorm_unread_part unread;
    struct exifnorm_jpeg_packet packet;
    uint32_t number;
    if (!strcmp(name, "check"))
        return exifnorm_check(block.bytes, block.length, &number, &fault);
    if (!strcmp(name, "compare"))
        return exifnorm_compare(block.bytes, block.length, block.bytes, block.length, &number, &fault);
    if (!strcmp(name, "normalise"))
        return exifnorm_normalise(block.bytes, block.length, out, room, written, &fault);
    if (!strcmp(name, "show"))
        return exifnorm_show(block.bytes, block.length, out, room, written, &fault);
    if (!strcmp(name, "captions"))
        return exifnorm_captions(block.bytes, block.length, out, room, written, &fault);
    if (!strcmp(name, "jpeg_parts"))
        return exifnorm_jpeg_parts(block.bytes, block.length, out, room / sizeof(struct exifnorm_jpeg_part), written, &of_head);
    if (!strcmp(name, "photoshop_resources"))
        return exifnorm_photoshop_resources(block.bytes, block.length, out, room / sizeof(struct exifnorm_photoshop_resource), written);
    if (!strcmp(name, "jpeg_same"))
        return exifnorm_jpeg_same(block.bytes, block.length, block.bytes, block.length, &number, &unread, &of_picture);
    if (!strcmp(name, "jpeg_same_blocks"))
        return exifnorm_jpeg_same_blocks(block.bytes, block.length, block.bytes, block.length, &number, &unread, &of_picture);
    if (!strcmp(name, "jpeg_unread"))
        return exifnorm_jpeg_unread(block.bytes, block.length, &unread, &of_head);
    if (!strcmp(name, "jpeg_xmp"))
        return exifnorm_jpeg_xmp(block.bytes, block.length, &packet, &unread, &of_head);
    if (!strcmp(name, "xmp_check"))
        return exifnorm_xmp_check(block.bytes, block.length, &fault);
    if (!strcmp(name, "xmp_normalise"))
        return exifnorm_xmp_normalise(block.bytes, block.length, out, room, written, &fault);
    if (!strcmp(name, "xmp_unsorted"))
        return exifnorm_xmp_unsorted(block.bytes, block.length, out, room, written, &fault);
    exit(2);
}

int main(int count, char **words) {
    if (count != 3 && count != 4)
        return 2;
    struct block block = read_file(words[2]);
    size_t room = TIMES * block.length + BESIDE, before, written = 0;
    unsigned char *out = malloc(room);
    if (!out)
        return 2;
    before = memory.live;
    start_counting(count == 4 ? atol(words[3]) : 0);
    uint32_t status = called(words[1], block, out, room, &written);
    stop_counting();
    if (count == 4) {
        printf("%u %zu\n", (unsigned)status, memory.live - before);
        return 0;
    }
    printf("%zu %zu %zu %zu %zu\n", memory.peak - before, memory.taken, memory.grown, memory.asked, written);
    free(out);
    free(block.bytes);
    return status != EXIFNORM_DONE && status != EXIFNORM_NOT_READ;
}
