/* The laws of the calls for the parts of a JPEG's head and for Photoshop's resources, over made ones. Both end where a page begins that can't be
 * read, and the arrays end where one begins that can't be written. */
#include "area.h"
#include "laws.h"
#include "made.h"
#include "untouched.h"
#include <string.h>

enum { LONGEST = LONGEST_HEAD };

typedef struct exifnorm_jpeg_part Part;
typedef struct exifnorm_photoshop_resource Resource;

/* What a call returned. */
struct found {
    uint32_t status;
    size_t count;
    struct exifnorm_jpeg_fault fault;
    Part *parts;
    Resource *resources;
};

static unsigned char *input, *output; /* where the bytes and the arrays end */
static struct head head;
static struct resources them;

int open_heads(void) {
    input = end_of_area(2 * LONGEST);
    output = end_of_area(2 * LONGEST);
    return input && output;
}

/* ---- calls */

static struct found parts_of(const unsigned char *bytes, size_t length, size_t room) {
    struct found it = {UNSET, UNSET, {UNSET, UNSET}, (Part *)(void *)output - room, NULL};
    memset(it.parts, FILLER, room * sizeof *it.parts);
    it.status = exifnorm_jpeg_parts(memcpy(input - length, bytes, length), length, it.parts, room, &it.count, &it.fault);
    return it;
}

static struct found resources_of(const unsigned char *bytes, size_t length, size_t room) {
    struct found it = {UNSET, UNSET, {UNSET, UNSET}, NULL, (Resource *)(void *)output - room};
    memset(it.resources, FILLER, room * sizeof *it.resources);
    it.status = exifnorm_photoshop_resources(memcpy(input - length, bytes, length), length, it.resources, room, &it.count);
    return it;
}

static int is_unset(struct exifnorm_jpeg_fault fault) {
    return fault.cause == UNSET && fault.place == UNSET;
}

static int is_part(Part one, Part other) {
    return one.marker == other.marker && one.kind == other.kind && one.begins == other.begins && one.start == other.start &&
           one.size == other.size;
}

/* Whether the first parts of the head were found, and as many elements more are unchanged. */
static int are_parts(struct found it, size_t count, size_t more) {
    if (it.count != count)
        return 0;
    for (size_t i = 0; i < count; i++)
        if (!is_part(it.parts[i], head.parts[i]))
            return 0;
    return is_filled(it.parts + count, more * sizeof *it.parts);
}

static int are_refused(struct found it, size_t count, uint32_t cause) {
    return it.status == EXIFNORM_REFUSED && it.fault.cause == cause && it.fault.place == head.begin[count] && are_parts(it, count, 0);
}

/* ---- laws */

/* The head without its last bytes. */
static void judge_cut(size_t length) {
    size_t whole = 0;
    while (head.parts[whole].start + head.parts[whole].size <= length)
        whole++;
    holds(LAW_HEAD_FAULT, are_refused(parts_of(head.bytes, length, whole), whole, EXIFNORM_JPEG_HEAD_CUT));
}

/* Another byte, or the end, in place of a part and all that follows it. */
static void judge_without(size_t at) {
    unsigned char bytes[LONGEST + 16];
    size_t length = head.begin[at];
    memcpy(bytes, head.bytes, length);
    put(bytes, &length, "\0\xff\xd9", 3);
    holds(LAW_HEAD_FAULT, are_refused(parts_of(bytes, length, at), at, EXIFNORM_JPEG_NO_MARKER));
    length = head.begin[at];
    put(bytes, &length, "\xff\xd9", 2);
    struct found ended = parts_of(bytes, length, at + 1);
    Part end = {0xD9, EXIFNORM_JPEG_OTHER, 0, length, 0};
    int is_ended = ended.status == EXIFNORM_DONE && ended.count == at + 1 && is_part(ended.parts[at], end);
    ended.count = at;
    holds(LAW_HEAD_END, is_ended && are_parts(ended, at, 0));
}

static void judge_parts(struct script *script) {
    unsigned char bytes[LONGEST + 16];
    make_head(script, &head);
    size_t length = head.length;
    struct found it = parts_of(head.bytes, length, head.count + 2);
    holds(LAW_HEAD, it.status == EXIFNORM_DONE && is_unset(it.fault) && are_parts(it, head.count, 2));
    it = parts_of(head.bytes, length, head.count - 1);
    holds(LAW_HEAD_ROOM, it.status == EXIFNORM_TOO_LITTLE_ROOM && it.count == head.count && is_unset(it.fault) &&
                             is_filled(it.parts, (head.count - 1) * sizeof *it.parts));
    memcpy(bytes, head.bytes, length);
    put(bytes, &length, "\xff\xe1\0\x08" "Exif\0", 10);
    it = parts_of(bytes, length, head.count);
    holds(LAW_HEAD_MORE, it.status == EXIFNORM_DONE && are_parts(it, head.count, 0));
    judge_cut(2 + next(script) * 16 % (head.length - 2));
    judge_without(next(script) % head.count);
}

static int are_resources(struct found it, size_t more) {
    if (it.status != EXIFNORM_DONE || it.count != them.count)
        return 0;
    for (size_t i = 0; i < them.count; i++)
        if (it.resources[i].number != them.found[i].number || it.resources[i].start != them.found[i].start ||
            it.resources[i].size != them.found[i].size)
            return 0;
    return is_filled(it.resources + them.count, more * sizeof *it.resources);
}

static void judge_resources(struct script *script) {
    make_resources(script, PARTS - 1, &them);
    put(them.bytes, &them.length, "8BIM\4\4\0\0\0\0\0\1", next(script) % 13);
    holds(LAW_RESOURCES, are_resources(resources_of(them.bytes, them.length, them.count + 2), 2));
    if (them.count == 0)
        return;
    struct found it = resources_of(them.bytes, them.length, them.count - 1);
    holds(LAW_RESOURCES_ROOM, it.status == EXIFNORM_TOO_LITTLE_ROOM && it.count == them.count &&
                                  is_filled(it.resources, (them.count - 1) * sizeof *it.resources));
}

void judge_heads(const unsigned char *block, size_t length) {
    struct script script = {block, length, 0};
    judge_parts(&script);
    judge_resources(&script);
}
