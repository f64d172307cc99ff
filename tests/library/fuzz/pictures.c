/* The laws of the comparison of two pictures. Their only blocks are the one that is judged, and before it copies of the one of its kind that was
 * accepted last. A segment that isn't read may follow. Both pictures end where a page begins that can't be read. */
#include "area.h"
#include "laws.h"
#include "made.h"
#include "memory.h"
#include <exifnorm.h>
#include <string.h>

enum { MOST_COPIES = 3, LONGEST = 8192, ROOM = (MOST_COPIES + 2) * (LONGEST + 64) + 64, UNSET = 0x5EED5EED };

typedef struct exifnorm_picture_fault Fault;
typedef struct exifnorm_unread_part Place;

struct block {
    unsigned char bytes[LONGEST];
    size_t length;
};

/* A picture, and the place in it that isn't read. */
struct picture {
    const unsigned char *bytes;
    size_t length;
    Place unread;
};

struct result {
    uint32_t status, same;
    Place unread;
    Fault fault;
};

/* A segment after the blocks, and the offset in it of the data that aren't read; 0 if it is wholly read. */
struct segment {
    const char *bytes;
    size_t length, unread;
};

static const Fault NO_FAULT = {UNSET, UNSET, UNSET, UNSET};
static const Place NO_PLACE = {UNSET, UNSET, UNSET};
static const struct segment segments[] = {
    {"\xff\xfe\0\6Exif", 8, 0},
    {"\xff\xed\0\x1cPhotoshop 3.0\0" "8BIM\4\x22\0\0\0\0\0", 30, 0},
    {"\xff\xe1\0\x0a" "EXIF\0\0MM", 12, 4},
    {"\xff\xe1\0\x0c" "  Exif\0*MM", 14, 4},
    {"\xff\xed\0\x14" "Photoshop 2.5\0" "\x1c\2\5\0", 22, 4},
    {"\xff\xed\0\x1ePhotoshop 3.0\0" "8BIM\4\x22\0\0\0\0\0\2MM", 32, 30},
    {"\xff\xed\0\x15Photoshop 3.0\0" "8BIM\4", 23, 18},
};
enum { SEGMENTS = sizeof segments / sizeof *segments };
static struct block last[2];   /* the Exif block and the record that were accepted last */
static unsigned char *ends[2]; /* where the two pictures end */

int open_pictures(void) {
    ends[0] = end_of_area(ROOM);
    ends[1] = end_of_area(ROOM);
    return ends[0] && ends[1];
}

static void put_number(unsigned char *bytes, size_t *length, size_t number, int octets) {
    while (octets-- > 0)
        bytes[(*length)++] = (unsigned char)(number >> 8 * octets);
}

/* A segment with a block, and an empty comment, so that no block continues another one. */
static void put_block(unsigned char *bytes, size_t *length, int is_record, const unsigned char *block, size_t size) {
    put(bytes, length, is_record ? "\xff\xed" : "\xff\xe1", 2);
    put_number(bytes, length, is_record ? 2 + 14 + 12 + size + size % 2 : 2 + 6 + size, 2);
    if (is_record) {
        put(bytes, length, "Photoshop 3.0\0" "8BIM\4\4\0\0", 22);
        put_number(bytes, length, size, 4);
    } else {
        put(bytes, length, "Exif\0\0", 6);
    }
    put(bytes, length, block, size);
    put(bytes, length, "\0", is_record ? size % 2 : 0);
    put(bytes, length, "\xff\xfe\0\2", 4);
}

/* One of the two pictures: copies of the last block, the block, and a segment. */
static struct picture made(int which, int is_record, unsigned copies, const unsigned char *block, size_t size, struct segment segment) {
    static unsigned char bytes[ROOM];
    struct picture picture = {ends[which], 0, {segment.unread > 0, 0, 0}};
    size_t length = 0;
    put(bytes, &length, "\xff\xd8", 2);
    while (copies-- > 0)
        put_block(bytes, &length, is_record, last[is_record].bytes, last[is_record].length);
    put_block(bytes, &length, is_record, block, size);
    picture.unread.start = segment.unread ? length + segment.unread : 0;
    put(bytes, &length, segment.bytes, segment.length);
    put(bytes, &length, "\xff\xd9", 2);
    picture.bytes = memcpy(ends[which] - length, bytes, length);
    picture.length = length;
    return picture;
}

static struct result compared(struct picture one, struct picture two) {
    struct result it = {UNSET, UNSET, NO_PLACE, NO_FAULT};
    it.status = exifnorm_jpeg_same_blocks(one.bytes, one.length, two.bytes, two.length, &it.same, &it.unread, &it.fault);
    return it;
}

/* The same with XMP, which neither picture has. */
static struct result compared_with_xmp(struct picture one, struct picture two) {
    struct result it = {UNSET, UNSET, NO_PLACE, NO_FAULT};
    it.status = exifnorm_jpeg_same(one.bytes, one.length, two.bytes, two.length, &it.same, &it.unread, &it.fault);
    return it;
}

static int is_place(Place one, Place other) {
    return one.found == other.found && one.joined == other.joined && one.start == other.start;
}

static int is_fault(Fault one, Fault other) {
    return one.cause == other.cause && one.kind == other.kind && one.number == other.number && one.place == other.place;
}

static int is_result(struct result one, struct result other) {
    return one.status == other.status && one.same == other.same && is_place(one.unread, other.unread) && is_fault(one.fault, other.fault);
}

/* The result for two pictures whose blocks are accepted: `alike` says whether each block that both have means the same in both. */
static struct result result_of(struct picture one, struct picture two, uint32_t same, uint32_t alike) {
    if (alike && one.unread.found)
        return (struct result){EXIFNORM_NOT_READ, UNSET, one.unread, NO_FAULT};
    if (alike && two.unread.found)
        return (struct result){EXIFNORM_SECOND_NOT_READ, UNSET, two.unread, NO_FAULT};
    return (struct result){EXIFNORM_DONE, same, NO_PLACE, NO_FAULT};
}

static void judge_refused(struct picture it, struct picture other, Fault fault) {
    struct result expected = {EXIFNORM_REFUSED, UNSET, NO_PLACE, fault};
    holds(LAW_PICTURE_FAULT, is_result(compared(it, other), expected));
    expected.status = EXIFNORM_SECOND_REFUSED;
    holds(LAW_PICTURE_FAULT, is_result(compared(other, it), expected));
}

/* Both ways round, and each picture beside itself. */
static void judge_accepted(struct picture it, struct picture other, uint32_t same, uint32_t alike) {
    int law = it.unread.found || other.unread.found ? LAW_NOT_READ : LAW_PICTURES;
    holds(law, is_result(compared(it, other), result_of(it, other, same, alike)));
    holds(law, is_result(compared(other, it), result_of(other, it, same, alike)));
    holds(law, is_result(compared(it, it), result_of(it, it, 1, 1)));
}

/* The places that aren't read, by the call for one picture. */
static void judge_place(struct picture it) {
    Place place = NO_PLACE;
    struct exifnorm_jpeg_fault fault;
    holds(LAW_UNREAD, exifnorm_jpeg_unread(it.bytes, it.length, &place, &fault) == EXIFNORM_DONE && is_place(place, it.unread));
}

/* Another allocation fails for each length. */
static void judge_memory(struct picture it, struct picture other) {
    size_t live = memory.live;
    struct result expected = compared(it, other);
    start_counting(1 + (long)(it.length % 8));
    struct result came = compared(it, other);
    stop_counting();
    struct result none = {EXIFNORM_NO_MEMORY, UNSET, NO_PLACE, NO_FAULT};
    holds(LAW_PICTURE_MEMORY, (memory.refused && is_result(came, none)) || (!memory.refused && is_result(came, expected)));
    holds(LAW_FREED, memory.live == live);
}

/* Every other picture is wholly read. */
static struct segment segment_of(unsigned long number) {
    return segments[number % (2 * SEGMENTS) < SEGMENTS ? number % SEGMENTS : 0];
}

/* The block beside the one of its kind that was accepted last. */
static void judge_beside(const unsigned char *block, size_t length, int is_record, uint32_t cause, uint32_t place) {
    const struct block *before = &last[is_record];
    unsigned copies = (unsigned)length % (MOST_COPIES + 1);
    struct picture it = made(0, is_record, copies, block, length, segment_of(seen.blocks / 4));
    struct picture other = made(1, is_record, copies, before->bytes, before->length, segment_of(seen.blocks / 4 / SEGMENTS));
    struct exifnorm_fault none;
    uint32_t same = 0;
    judge_place(it);
    if (cause)
        judge_refused(it, other, (Fault){cause, is_record ? EXIFNORM_IIM : EXIFNORM_EXIF, copies, place});
    else if (holds(LAW_ANSWERS, exifnorm_compare(block, length, before->bytes, before->length, &same, &none) == EXIFNORM_DONE))
        judge_accepted(it, other, same, same);
    judge_memory(it, other);
    holds(LAW_SAME_XMP, is_result(compared_with_xmp(it, other), compared(it, other)));
    if (!cause) /* a block more: the pictures are alike if the block means the same as the one before */
        judge_accepted(it, made(1, is_record, copies + 1, block, length, segment_of(seen.blocks / 4)), 0, same);
}

void judge_pictures(const unsigned char *block, size_t length, uint32_t cause, uint32_t place) {
    int is_record = length > 0 && block[0] == 0x1C;
    struct block *before = &last[is_record];
    if (length == 0 || length > LONGEST || (length >= 6 && memcmp(block, "Exif\0\0", 6) == 0))
        return;
    if (before->length)
        judge_beside(block, length, is_record, cause, place);
    if (!cause) {
        memcpy(before->bytes, block, length);
        before->length = length;
    }
}
