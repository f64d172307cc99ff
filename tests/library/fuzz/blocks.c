/* The laws of a picture's blocks, and of the places in it that aren't read (docs/FORMAT.md, section 9), over made heads. A head ends where a page
 * begins that can't be read, and the arrays end where one begins that can't be written. */
#include "area.h"
#include "laws.h"
#include "made.h"
#include "memory.h"
#include "untouched.h"
#include <string.h>
#include <strings.h>

enum { MOST_BLOCKS = PARTS + 2, MOST_RESOURCES = LONGEST_HEAD / 12 };

typedef struct exifnorm_jpeg_block Block;
typedef struct exifnorm_jpeg_packet Packet;
typedef struct exifnorm_jpeg_part Part;
typedef struct exifnorm_photoshop_resource Resource;
typedef struct exifnorm_picture_fault PictureFault;
typedef struct exifnorm_unread_part Place;

/* What the call for XMP returned, or must return. */
struct xmp {
    uint32_t status;
    Packet packet;
    Place unread;
    struct exifnorm_jpeg_fault fault;
};

/* What the call for blocks returned, or must return. */
struct blocks {
    uint32_t status;
    struct exifnorm_jpeg_sizes sizes;
    struct exifnorm_jpeg_fault fault;
    Block *list;
    unsigned char *joined;
};

static const Place NO_PLACE = {0, 0, 0};
static unsigned char *picture_end, *list_end, *joined_end;
static struct head head;
static struct blocks expected;

int open_blocks(void) {
    static Block list[MOST_BLOCKS];
    static unsigned char joined[LONGEST_HEAD];
    expected.list = list;
    expected.joined = joined;
    picture_end = end_of_area(LONGEST_HEAD);
    list_end = end_of_area((MOST_BLOCKS + 1) * sizeof(Block));
    joined_end = end_of_area(LONGEST_HEAD + 1);
    return picture_end && list_end && joined_end;
}

/* ---- what is expected */

/* A piece of a block. The first piece is joined as soon as another one follows. */
static void expect_piece(const Part *part) {
    struct exifnorm_jpeg_sizes *sizes = &expected.sizes;
    if (part->begins) {
        expected.list[sizes->blocks++] = (Block){part->kind, 0, part->start, part->size};
        return;
    }
    Block *block = &expected.list[sizes->blocks - 1];
    if (!block->joined) {
        size_t start = block->start;
        block->joined = 1;
        block->start = sizes->joined;
        put(expected.joined, &sizes->joined, head.bytes + start, block->size);
    }
    put(expected.joined, &sizes->joined, head.bytes + part->start, part->size);
    block->size += part->size;
}

/* The blocks of the first parts. */
static void expect_blocks(size_t parts) {
    expected.sizes = (struct exifnorm_jpeg_sizes){0, 0};
    for (size_t i = 0; i < parts; i++)
        if (head.parts[i].kind != EXIFNORM_JPEG_OTHER)
            expect_piece(&head.parts[i]);
}

static const unsigned char *bytes_of(const Block *block) {
    return (block->joined ? expected.joined : head.bytes) + block->start;
}

/* Whether ExifTool takes the data of APP1 for Exif: the name and a zero, after at most four bytes, and one byte more. */
static int seems_exif(const unsigned char *bytes, size_t size) {
    for (size_t at = 0; at <= 4 && at + 6 <= size; at++)
        if (strncasecmp((const char *)bytes + at, "exif", 5) == 0)
            return 1;
    return 0;
}

static int is_unread_part(const Part *part) {
    if (part->kind != EXIFNORM_JPEG_OTHER || part->size == 0)
        return 0;
    const unsigned char *bytes = head.bytes + part->start;
    if (part->marker == 0xED)
        return part->size < 8 || memcmp(bytes, "Adobe_CM", 8) != 0;
    return part->marker == 0xE1 && seems_exif(bytes, part->size);
}

static size_t resources_of(const Block *block, Resource *resources) {
    size_t count = 0;
    uint32_t status = exifnorm_photoshop_resources(bytes_of(block), block->size, resources, MOST_RESOURCES, &count);
    return holds(LAW_RESOURCES, status == EXIFNORM_DONE) ? count : 0;
}

/* The place in a block of resources that isn't read. */
static Place unread_in_block(const Block *block) {
    static Resource resources[MOST_RESOURCES];
    const unsigned char *bytes = bytes_of(block);
    size_t at = 0, count = resources_of(block, resources);
    for (size_t i = 0; i < count; i++) {
        Resource it = resources[i];
        int is_doubtful = it.number == 0x0422 || (it.number == 0x0404 && memcmp(bytes + at, "8BIM", 4) != 0);
        if (is_doubtful && it.size > 0)
            return (Place){1, block->joined, block->start + it.start};
        at = it.start + it.size + it.size % 2;
    }
    for (size_t i = at; i < block->size; i++)
        if (bytes[i] != 0)
            return (Place){1, block->joined, block->start + at};
    return NO_PLACE;
}

/* The first place that isn't read: segments before resources. */
static Place first_place(void) {
    for (size_t i = 0; i < head.count; i++)
        if (is_unread_part(&head.parts[i]))
            return (Place){1, 0, head.parts[i].start};
    for (size_t i = 0; i < expected.sizes.blocks; i++) {
        Place place = expected.list[i].kind == EXIFNORM_JPEG_PHOTOSHOP ? unread_in_block(&expected.list[i]) : NO_PLACE;
        if (place.found)
            return place;
    }
    return NO_PLACE;
}

/* The packet of XMP, if no other one and no extended XMP is in the head; otherwise the second of these, or the first that is extended. */
static struct xmp expected_xmp(void) {
    struct xmp it = {EXIFNORM_DONE, {0, 0, 0}, {UNSET, UNSET, UNSET}, {UNSET, UNSET}};
    for (size_t i = 0; i < head.count; i++) {
        const Part *part = &head.parts[i];
        int is_packet = part->kind == EXIFNORM_JPEG_XMP;
        if (is_packet && !it.packet.found)
            it.packet = (Packet){1, part->start, part->size};
        else if (is_packet || part->kind == EXIFNORM_JPEG_EXTENDED_XMP)
            return (struct xmp){EXIFNORM_NOT_READ, {UNSET, UNSET, UNSET}, {1, 0, part->start}, it.fault};
    }
    return it;
}

/* The fault of one block, by `check`, which tells the kinds apart by the first bytes. The cause is 0 if there is none. */
static struct exifnorm_fault fault_of(const unsigned char *block, size_t length, int is_record) {
    struct exifnorm_fault fault = {0, 0};
    uint32_t kind;
    if (is_record && (length == 0 || block[0] != 0x1C))
        return (struct exifnorm_fault){EXIFNORM_CAUSE_NO_MARKER, 0};
    if (!is_record && length > 0 && (block[0] == 0x1C || block[0] == 'E'))
        return (struct exifnorm_fault){EXIFNORM_CAUSE_UNKNOWN_KIND, 0};
    uint32_t status = exifnorm_check(block, length, &kind, &fault);
    holds(LAW_ANSWERS, status == EXIFNORM_DONE || status == EXIFNORM_REFUSED);
    return fault;
}

static PictureFault exif_fault(void) {
    size_t number = 0;
    for (size_t i = 0; i < expected.sizes.blocks; i++) {
        const Block *block = &expected.list[i];
        if (block->kind != EXIFNORM_JPEG_EXIF)
            continue;
        struct exifnorm_fault fault = fault_of(bytes_of(block), block->size, 0);
        if (fault.cause)
            return (PictureFault){fault.cause, EXIFNORM_EXIF, number, fault.place};
        number++;
    }
    return (PictureFault){0, 0, 0, 0};
}

/* That of the IPTC in a block of resources. Counts the blocks of IPTC before it. */
static PictureFault fault_in_resources(const Block *block, size_t *number) {
    static Resource resources[MOST_RESOURCES];
    size_t count = resources_of(block, resources);
    for (size_t i = 0; i < count; i++) {
        if (resources[i].number != 0x0404 || resources[i].size == 0)
            continue;
        struct exifnorm_fault fault = fault_of(bytes_of(block) + resources[i].start, resources[i].size, 1);
        if (fault.cause)
            return (PictureFault){fault.cause, EXIFNORM_IIM, *number, fault.place};
        ++*number;
    }
    return (PictureFault){0, 0, 0, 0};
}

/* The first fault of the blocks: Exif before IPTC. */
static PictureFault first_fault(void) {
    PictureFault fault = exif_fault();
    size_t number = 0;
    for (size_t i = 0; i < expected.sizes.blocks && !fault.cause; i++)
        if (expected.list[i].kind == EXIFNORM_JPEG_PHOTOSHOP)
            fault = fault_in_resources(&expected.list[i], &number);
    return fault;
}

/* ---- calls */

/* The first bytes of the head. */
static const unsigned char *picture(size_t length) {
    return memcpy(picture_end - length, head.bytes, length);
}

static struct blocks blocks_of(size_t length, size_t room, size_t joined_room) {
    struct blocks found = {UNSET, {UNSET, UNSET}, {UNSET, UNSET}, (Block *)(void *)list_end - room, joined_end - joined_room};
    memset(found.list, FILLER, room * sizeof *found.list);
    memset(found.joined, FILLER, joined_room);
    found.status = exifnorm_jpeg_blocks(picture(length), length, found.list, room, found.joined, joined_room, &found.sizes, &found.fault);
    return found;
}

static struct xmp xmp_of(size_t length) {
    struct xmp it = {UNSET, {UNSET, UNSET, UNSET}, {UNSET, UNSET, UNSET}, {UNSET, UNSET}};
    it.status = exifnorm_jpeg_xmp(picture(length), length, &it.packet, &it.unread, &it.fault);
    return it;
}

static int is_block(Block one, Block other) {
    return one.kind == other.kind && one.joined == other.joined && one.start == other.start && one.size == other.size;
}

static int are_sizes(struct exifnorm_jpeg_sizes sizes) {
    return sizes.blocks == expected.sizes.blocks && sizes.joined == expected.sizes.joined;
}

static int are_blocks(struct blocks found) {
    if (!are_sizes(found.sizes))
        return 0;
    for (size_t i = 0; i < found.sizes.blocks; i++)
        if (!is_block(found.list[i], expected.list[i]))
            return 0;
    return memcmp(found.joined, expected.joined, found.sizes.joined) == 0;
}

/* Leaves out the last block, with its joined bytes. */
static void expect_one_less(void) {
    Block last = expected.list[--expected.sizes.blocks];
    expected.sizes.joined = last.joined ? last.start : expected.sizes.joined;
}

static int is_place(Place one, Place other) {
    return one.found == other.found && one.joined == other.joined && one.start == other.start;
}

static int is_xmp(struct xmp one, struct xmp other) {
    return one.status == other.status && one.packet.found == other.packet.found && one.packet.start == other.packet.start &&
           one.packet.size == other.packet.size && is_place(one.unread, other.unread) && one.fault.cause == other.fault.cause &&
           one.fault.place == other.fault.place;
}

/* ---- laws */

static void judge_places(void) {
    size_t blocks = expected.sizes.blocks, joined = expected.sizes.joined;
    struct blocks found = blocks_of(head.length, blocks + 1, joined + 1);
    int is_done = found.status == EXIFNORM_DONE && found.fault.cause == UNSET;
    holds(LAW_BLOCKS, is_done && are_blocks(found) && is_filled(found.list + blocks, sizeof *found.list) && found.joined[joined] == FILLER);
    if (blocks > 0) {
        found = blocks_of(head.length, blocks - 1, joined);
        holds(LAW_BLOCKS_ROOM, found.status == EXIFNORM_TOO_LITTLE_ROOM && are_sizes(found.sizes) &&
                                   is_filled(found.list, (blocks - 1) * sizeof *found.list) && is_filled(found.joined, joined));
    }
    if (joined > 0) {
        found = blocks_of(head.length, blocks, joined - 1);
        holds(LAW_BLOCKS_ROOM, found.status == EXIFNORM_TOO_LITTLE_ROOM && are_sizes(found.sizes) &&
                                   is_filled(found.list, blocks * sizeof *found.list) && is_filled(found.joined, joined - 1));
    }
}

/* Whether some more bytes make a piece that continues a block of Exif: only bytes FF are there, or a segment APP1 with the mark of Exif and without
 * a header of TIFF, as far as they go. */
static int may_continue(const unsigned char *bytes, size_t length) {
    size_t filling = 0;
    while (filling < length && bytes[filling] == 0xFF)
        filling++;
    if (filling == length)
        return 1;
    bytes += filling;
    length -= filling;
    if (bytes[0] != 0xE1 || (length >= 3 && bytes[1] == 0 && bytes[2] < 2 + 6))
        return 0;
    size_t marked = length < 3 ? 0 : length < 9 ? length - 3 : 6;
    if (marked > 0 && memcmp(bytes + 3, "Exif\0\0", marked) != 0)
        return 0;
    return length < 13 || (memcmp(bytes + 9, "II*", 4) != 0 && memcmp(bytes + 9, "MM\0*", 4) != 0);
}

/* Each call refuses a head that is cut. The blocks of the whole parts before are found, but for a last one of Exif that may go on behind. */
static void judge_cut(size_t length) {
    Place place = {UNSET, UNSET, UNSET};
    struct exifnorm_jpeg_fault fault = {UNSET, UNSET};
    struct blocks found = blocks_of(length, MOST_BLOCKS, LONGEST_HEAD);
    size_t part = 0;
    while (head.parts[part].start + head.parts[part].size <= length)
        part++;
    uint32_t status = exifnorm_jpeg_unread(picture(length), length, &place, &fault);
    holds(LAW_BLOCKS_FAULT, found.status == EXIFNORM_REFUSED && found.fault.cause == EXIFNORM_JPEG_HEAD_CUT &&
                                found.fault.place == head.begin[part]);
    holds(LAW_BLOCKS_FAULT, status == EXIFNORM_REFUSED && fault.cause == EXIFNORM_JPEG_HEAD_CUT && fault.place == head.begin[part] &&
                                place.found == UNSET);
    struct xmp cut = {EXIFNORM_REFUSED, {UNSET, UNSET, UNSET}, {UNSET, UNSET, UNSET}, {EXIFNORM_JPEG_HEAD_CUT, head.begin[part]}};
    holds(LAW_XMP_CUT, is_xmp(xmp_of(length), cut));
    expect_blocks(part);
    if (part > 0 && head.parts[part - 1].kind == EXIFNORM_JPEG_EXIF && may_continue(head.bytes + head.begin[part], length - head.begin[part]))
        expect_one_less();
    holds(LAW_BLOCKS_BEFORE, are_blocks(found));
}

/* Another byte than FF in place of a part: no more bytes mend that, so all blocks of the parts before are found. */
static void judge_without(size_t part) {
    head.bytes[head.begin[part]] = 0;
    struct blocks found = blocks_of(head.length, MOST_BLOCKS, LONGEST_HEAD);
    holds(LAW_BLOCKS_FAULT, found.status == EXIFNORM_REFUSED && found.fault.cause == EXIFNORM_JPEG_NO_MARKER &&
                                found.fault.place == head.begin[part]);
    expect_blocks(part);
    holds(LAW_BLOCKS_BEFORE, are_blocks(found));
}

static void judge_unread(Place expected_place) {
    Place place = {UNSET, UNSET, UNSET}, none = place;
    struct exifnorm_jpeg_fault fault = {UNSET, UNSET};
    uint32_t status = exifnorm_jpeg_unread(picture(head.length), head.length, &place, &fault);
    holds(LAW_UNREAD, status == EXIFNORM_DONE && is_place(place, expected_place) && fault.cause == UNSET);
    size_t live = memory.live;
    start_counting(1);
    status = exifnorm_jpeg_unread(picture(head.length), head.length, &none, &fault);
    stop_counting();
    holds(LAW_UNREAD_MEMORY, memory.refused ? status == EXIFNORM_NO_MEMORY && none.found == UNSET : is_place(none, place));
    holds(LAW_FREED, memory.live == live);
}

/* Whether a picture may have extended XMP, which is joined to its packet. */
static int has_extension(const unsigned char *bytes, size_t length) {
    static const char mark[] = "http://ns.adobe.com/xmp/extension/"; /* and a zero */
    for (size_t at = 0; at + sizeof mark <= length; at++)
        if (!memcmp(bytes + at, mark, sizeof mark))
            return 1;
    return 0;
}

/* The same with XMP: a picture whose XMP isn't read is never the same, and none is different from itself. */
static void judge_same_with_xmp(Place place, PictureFault expected_fault) {
    Place found_place = {UNSET, UNSET, UNSET}, of_xmp = found_place;
    PictureFault fault = {UNSET, UNSET, UNSET, UNSET};
    struct exifnorm_jpeg_packet packet = {UNSET, UNSET, UNSET};
    struct exifnorm_jpeg_fault of_head;
    struct exifnorm_fault of_packet;
    uint32_t same = UNSET;
    const unsigned char *bytes = picture(head.length);
    uint32_t status = exifnorm_jpeg_same(bytes, head.length, bytes, head.length, &same, &found_place, &fault);
    uint32_t xmp = exifnorm_jpeg_xmp(bytes, head.length, &packet, &of_xmp, &of_head);
    int is_read = xmp == EXIFNORM_DONE && (!packet.found || exifnorm_xmp_check(bytes + packet.start, packet.size, &of_packet) == EXIFNORM_DONE);
    if (expected_fault.cause)
        holds(LAW_SAME_XMP, status == EXIFNORM_REFUSED && fault.cause == expected_fault.cause && fault.place == expected_fault.place);
    else if (place.found)
        holds(LAW_SAME_XMP, status == EXIFNORM_NOT_READ && is_place(found_place, place) && same == UNSET);
    else if (status == EXIFNORM_DONE)
        holds(LAW_SAME_XMP, (is_read || has_extension(bytes, head.length)) && same == 1 && found_place.found == UNSET && fault.cause == UNSET);
    else
        holds(LAW_SAME_XMP, status == EXIFNORM_NOT_READ && found_place.found == 1 && same == UNSET && fault.cause == UNSET);
}

/* The picture beside itself: its first fault, or the same, or the place that isn't read. */
static void judge_same(Place place) {
    Place found_place = {UNSET, UNSET, UNSET};
    PictureFault expected_fault = first_fault(), fault = {UNSET, UNSET, UNSET, UNSET};
    uint32_t same = UNSET;
    const unsigned char *bytes = picture(head.length);
    uint32_t status = exifnorm_jpeg_same_blocks(bytes, head.length, bytes, head.length, &same, &found_place, &fault);
    judge_same_with_xmp(place, expected_fault);
    if (expected_fault.cause)
        holds(LAW_BLOCKS_CHECKED, status == EXIFNORM_REFUSED && fault.cause == expected_fault.cause && fault.kind == expected_fault.kind &&
                                      fault.number == expected_fault.number && fault.place == expected_fault.place);
    else if (place.found)
        holds(LAW_NOT_READ, status == EXIFNORM_NOT_READ && is_place(found_place, place) && same == UNSET && fault.cause == UNSET);
    else
        holds(LAW_BLOCKS_CHECKED, status == EXIFNORM_DONE && same == 1 && found_place.found == UNSET && fault.cause == UNSET);
}

void judge_blocks(const unsigned char *block, size_t length) {
    struct script script = {block, length, 0};
    make_head(&script, &head);
    expect_blocks(head.count);
    Place place = first_place();
    judge_places();
    holds(LAW_XMP_PLACE, is_xmp(xmp_of(head.length), expected_xmp()));
    judge_unread(place);
    judge_same(place);
    judge_cut(2 + next(&script) * 32 % (head.length - 2));
    judge_without(next(&script) % head.count);
}
