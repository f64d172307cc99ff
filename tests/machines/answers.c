/* Prints what each call of the library answers for each file of a list, so that two builds can be compared: answers LIST [TIMES].
 *
 * LIST has a file's name in each line. Two files that follow one another are compared. Written bytes are printed as a number that depends on
 * each of them. With TIMES, each file's normal form is made so often instead, and nothing is printed.
 */
#include "exifnorm.h"
#include <stdio.h>
#include <stdlib.h>
#include <string.h>

enum { ROWS = 20000, ROOM = 1 << 25 };

typedef struct {
    unsigned char *bytes;
    size_t length;
} octets;

typedef uint32_t (*writing_call)(const unsigned char *, size_t, unsigned char *, size_t, size_t *, struct exifnorm_fault *);

static unsigned char out[ROOM];

static unsigned long sum(const unsigned char *bytes, size_t length) {
    uint32_t number = 2166136261u; /* FNV-1a */
    for (size_t i = 0; i < length; i++) number = (number ^ bytes[i]) * 16777619u;
    return number;
}

static octets read_file(const char *name) {
    octets file = {NULL, 0};
    FILE *stream = fopen(name, "rb");
    if (!stream || fseek(stream, 0, SEEK_END)) {
        perror(name);
        exit(2);
    }
    file.length = (size_t)ftell(stream);
    file.bytes = malloc(file.length + 1);
    rewind(stream);
    if (fread(file.bytes, 1, file.length, stream) != file.length) exit(2);
    fclose(stream);
    return file;
}

static void print_written(const char *name, writing_call call, octets block, size_t room) {
    struct exifnorm_fault fault = {0, 0};
    size_t written = 0;
    uint32_t status;
    memset(out, 0xA5, room + 8); /* a call with another status than DONE leaves it as it is */
    status = call(block.bytes, block.length, out, room, &written, &fault);
    printf("%s %u %u %u %lu %lu\n", name, (unsigned)status, (unsigned)fault.cause, (unsigned)fault.place, (unsigned long)written, sum(out, room + 8));
}

static void print_block(octets block) {
    struct exifnorm_fault fault = {0, 0};
    uint32_t kind = 99, status = exifnorm_check(block.bytes, block.length, &kind, &fault);
    size_t room = block.length < ROOM / 16 ? 8 * block.length + 1024 : ROOM / 2;
    printf("check %u %u %u %u\n", (unsigned)status, (unsigned)kind, (unsigned)fault.cause, (unsigned)fault.place);
    print_written("normalise", exifnorm_normalise, block, room);
    print_written("show", exifnorm_show, block, room);
    print_written("captions", exifnorm_captions, block, room);
    print_written("normalise into 20 bytes", exifnorm_normalise, block, 20);
    print_written("show into none", exifnorm_show, block, 0);
}

static void print_packet(octets packet) {
    struct exifnorm_fault fault = {0, 0};
    uint32_t status = exifnorm_xmp_check(packet.bytes, packet.length, &fault);
    size_t room = packet.length < ROOM / 16 ? 8 * packet.length + 1024 : ROOM / 2;
    printf("packet %u %u %u\n", (unsigned)status, (unsigned)fault.cause, (unsigned)fault.place);
    print_written("packet's form", exifnorm_xmp_normalise, packet, room);
    print_written("packet's form into none", exifnorm_xmp_normalise, packet, 0);
    print_written("packet's form with bags as they are", exifnorm_xmp_unsorted, packet, room);
}

static void print_parts(octets picture, size_t room) {
    static struct exifnorm_jpeg_part parts[ROWS];
    struct exifnorm_jpeg_fault fault = {0, 0};
    size_t count = 0;
    uint32_t status = exifnorm_jpeg_parts(picture.bytes, picture.length, parts, room, &count, &fault);
    printf("parts %u %lu %u %lu", (unsigned)status, (unsigned long)count, (unsigned)fault.cause, (unsigned long)fault.place);
    for (size_t i = 0; status != EXIFNORM_TOO_LITTLE_ROOM && i < count; i++)
        printf(" %u:%u:%u:%lu:%lu", (unsigned)parts[i].marker, (unsigned)parts[i].kind, (unsigned)parts[i].begins, (unsigned long)parts[i].start,
               (unsigned long)parts[i].size);
    printf("\n");
}

static void print_blocks(octets picture, size_t room, size_t out_length) {
    static struct exifnorm_jpeg_block blocks[ROWS];
    struct exifnorm_jpeg_fault fault = {0, 0};
    struct exifnorm_jpeg_sizes sizes = {0, 0};
    uint32_t status = exifnorm_jpeg_blocks(picture.bytes, picture.length, blocks, room, out, out_length, &sizes, &fault);
    printf("blocks %u %lu %lu %u %lu", (unsigned)status, (unsigned long)sizes.blocks, (unsigned long)sizes.joined, (unsigned)fault.cause,
           (unsigned long)fault.place);
    int are_stored = status == EXIFNORM_DONE || status == EXIFNORM_REFUSED; /* after a fault, the blocks that end before it */
    for (size_t i = 0; are_stored && i < sizes.blocks; i++)
        printf(" %u:%u:%lu:%lu", (unsigned)blocks[i].kind, (unsigned)blocks[i].joined, (unsigned long)blocks[i].start, (unsigned long)blocks[i].size);
    printf(" %lu\n", are_stored ? sum(out, sizes.joined) : 0);
}

static void print_resources(octets block, size_t room) {
    static struct exifnorm_photoshop_resource resources[ROWS];
    size_t count = 0;
    uint32_t status = exifnorm_photoshop_resources(block.bytes, block.length, resources, room, &count);
    printf("resources %u %lu", (unsigned)status, (unsigned long)count);
    for (size_t i = 0; status == EXIFNORM_DONE && i < count; i++)
        printf(" %lu:%lu:%lu", (unsigned long)resources[i].number, (unsigned long)resources[i].start, (unsigned long)resources[i].size);
    printf("\n");
}

static void print_unread(octets picture) {
    struct exifnorm_unread_part unread = {9, 9, 9};
    struct exifnorm_jpeg_fault fault = {0, 0};
    uint32_t status = exifnorm_jpeg_unread(picture.bytes, picture.length, &unread, &fault);
    printf("unread %u %u %u %lu %u %lu\n", (unsigned)status, (unsigned)unread.found, (unsigned)unread.joined, (unsigned long)unread.start,
           (unsigned)fault.cause, (unsigned long)fault.place);
}

static void print_packet_of_picture(octets picture) {
    struct exifnorm_jpeg_packet packet = {9, 9, 9};
    struct exifnorm_unread_part unread = {9, 9, 9};
    struct exifnorm_jpeg_fault fault = {0, 0};
    uint32_t status = exifnorm_jpeg_xmp(picture.bytes, picture.length, &packet, &unread, &fault);
    printf("packet of the picture %u %u %lu %lu", (unsigned)status, (unsigned)packet.found, (unsigned long)packet.start, (unsigned long)packet.size);
    printf(" %u %lu %u %lu\n", (unsigned)unread.found, (unsigned long)unread.start, (unsigned)fault.cause, (unsigned long)fault.place);
}

typedef uint32_t Same(const unsigned char *, size_t, const unsigned char *, size_t, uint32_t *, struct exifnorm_unread_part *,
                      struct exifnorm_picture_fault *);

static void print_pictures(Same *call, octets first, octets second) {
    struct exifnorm_picture_fault picture = {0, 0, 0, 0};
    struct exifnorm_unread_part unread = {9, 9, 9};
    uint32_t same = 9, status = call(first.bytes, first.length, second.bytes, second.length, &same, &unread, &picture);
    printf("pictures %u %u %u %u %lu %lu", (unsigned)status, (unsigned)same, (unsigned)picture.cause, (unsigned)picture.kind,
           (unsigned long)picture.number, (unsigned long)picture.place);
    printf(" %u %u %lu\n", (unsigned)unread.found, (unsigned)unread.joined, (unsigned long)unread.start);
}

static void print_comparison(octets first, octets second) {
    struct exifnorm_fault fault = {0, 0};
    uint32_t same = 9, status = exifnorm_compare(first.bytes, first.length, second.bytes, second.length, &same, &fault);
    printf("compare %u %u %u %u\n", (unsigned)status, (unsigned)same, (unsigned)fault.cause, (unsigned)fault.place);
    print_pictures(exifnorm_jpeg_same, first, second);
    print_pictures(exifnorm_jpeg_same_blocks, first, second);
}

static void print_names(void) {
    for (uint32_t cause = 0; cause < 300; cause++) {
        char name[EXIFNORM_NAME_ROOM];
        size_t written = 0;
        uint32_t status = exifnorm_cause_name(cause, name, sizeof name, &written);
        printf("cause %u %u %lu %.*s\n", (unsigned)cause, (unsigned)status, (unsigned long)written, (int)written, name);
    }
}

static void print_file(octets file, octets before) {
    print_block(file);
    print_packet(file);
    print_parts(file, ROWS);
    print_parts(file, 2);
    print_blocks(file, ROWS, ROOM);
    print_blocks(file, 1, 0);
    print_resources(file, ROWS);
    print_resources(file, 1);
    print_unread(file);
    print_packet_of_picture(file);
    print_comparison(file, file);
    if (before.bytes) print_comparison(before, file);
}

int main(int argc, char **argv) {
    char name[4096];
    int times = argc > 2 ? atoi(argv[2]) : 0;
    octets before = {NULL, 0};
    FILE *list = argc > 1 ? fopen(argv[1], "r") : NULL;
    if (!list) {
        fputs("usage: answers LIST [TIMES]\n", stderr);
        return 2;
    }
    if (times == 0) print_names();
    while (fgets(name, sizeof name, list)) {
        octets file;
        size_t written;
        struct exifnorm_fault fault;
        name[strcspn(name, "\r\n")] = 0;
        file = read_file(name);
        for (int i = 0; i < times; i++) exifnorm_normalise(file.bytes, file.length, out, ROOM, &written, &fault);
        if (times == 0) {
            printf("%s\n", name);
            print_file(file, before);
        }
        free(before.bytes);
        before = file;
    }
    free(before.bytes);
    fclose(list);
    return 0;
}
