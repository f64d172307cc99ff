/* Calls the library at the edges of what exifnorm.h allows: empty blocks and outputs, also with NULL, outputs below and above 64 MB, names into an
 * output of each length, and each status of each call. Each printed line is a failure, except the last one, which counts the checks.
 */
#define _DEFAULT_SOURCE
#include <exifnorm.h>
#include <stdio.h>
#include <string.h>
#include <sys/mman.h>

enum { UNSET = 0x5EED5EED, FILLER = 0xA5, PAGE = 4096, LARGEST = EXIFNORM_LIMIT, MOST_ROOM = 12 * LARGEST };
enum { ZEROS = LARGEST - 9, SHORTS = LARGEST / 2 - 256 };

/* The four bytes of a number, the most significant first. */
#define NUMBER(n) (n) >> 24 & 255, (n) >> 16 & 255, (n) >> 8 & 255, (n) & 255

static unsigned long checks, failures;

#define REQUIRE(holds) require(holds, #holds, __LINE__)

static void require(int holds, const char *what, int line) {
    checks++;
    if (!holds) {
        failures++;
        printf("line %d: %s\n", line, what);
    }
}

typedef uint32_t Text(const unsigned char *, size_t, unsigned char *, size_t, size_t *, struct exifnorm_fault *);
static Text *const texts[] = {exifnorm_normalise, exifnorm_show, exifnorm_captions};

static const unsigned char caption[] = "\034\002\170\200\004\0\0\0\004Vase";
enum { CAPTION = sizeof caption - 1 };
static const char *const caption_texts[] = {"\034\002\170\0\004Vase", "iim\n2:120 4: 56617365\n", "iim\ncharset: not declared\ncaption: Vase\n"};
static const size_t caption_lengths[] = {9, 22, 40};

/* A caption in Photoshop's resources, and a picture in which they are in two pieces. */
static const unsigned char resources[] = "8BIM\4\4\0\0\0\0\0\011\034\2\170\0\4Vase";
static const unsigned char picture[] = "\xff\xd8\xff\xed\0\024Photoshop 3.0\0" "8BIM\xff\xed\0\041Photoshop 3.0\0"
                                       "\4\4\0\0\0\0\0\011\034\2\170\0\4Vase\xff\xd9";
enum { RESOURCES = sizeof resources - 1, PICTURE = sizeof picture - 1 };

/* Memory whose pages are allocated when they are first touched. */
static unsigned char *room_of(size_t size) {
    unsigned char *got = mmap(NULL, size, PROT_READ | PROT_WRITE, MAP_PRIVATE | MAP_ANONYMOUS | MAP_NORESERVE, -1, 0);
    return got == MAP_FAILED ? NULL : got;
}

static int is(const unsigned char *bytes, size_t length, int value) {
    for (size_t i = 0; i < length; i++)
        if (bytes[i] != value)
            return 0;
    return 1;
}

static int is_fault(struct exifnorm_fault fault, uint32_t cause, uint32_t place) {
    return fault.cause == cause && fault.place == place;
}

/* ---- no bytes */

/* A block of no bytes, which has any pointer, and an output of none. */
static void try_no_bytes(const unsigned char *none, unsigned char *out) {
    struct exifnorm_fault fault = {UNSET, UNSET};
    uint32_t number = UNSET;
    size_t written = UNSET;
    REQUIRE(exifnorm_check(none, 0, &number, &fault) == EXIFNORM_REFUSED);
    REQUIRE(is_fault(fault, EXIFNORM_CAUSE_UNKNOWN_KIND, 0));
    for (int i = 0; i < 3; i++) {
        fault.cause = UNSET;
        REQUIRE(texts[i](none, 0, out, 0, &written, &fault) == EXIFNORM_REFUSED);
        REQUIRE(is_fault(fault, EXIFNORM_CAUSE_UNKNOWN_KIND, 0));
        fault.cause = UNSET;
        REQUIRE(texts[i](caption, CAPTION, out, 0, &written, &fault) == EXIFNORM_TOO_LITTLE_ROOM);
        REQUIRE(written == caption_lengths[i]);
        REQUIRE(fault.cause == UNSET);
        written = UNSET;
    }
    REQUIRE(exifnorm_compare(none, 0, caption, CAPTION, &number, &fault) == EXIFNORM_REFUSED);
    REQUIRE(number == UNSET);
    REQUIRE(exifnorm_compare(caption, CAPTION, none, 0, &number, &fault) == EXIFNORM_SECOND_REFUSED);
    REQUIRE(number == UNSET);
    REQUIRE(is_fault(fault, EXIFNORM_CAUSE_UNKNOWN_KIND, 0));
    REQUIRE(exifnorm_compare(none, 0, none, 0, &number, &fault) == EXIFNORM_REFUSED);
    REQUIRE(number == UNSET);
    REQUIRE(exifnorm_cause_name(EXIFNORM_CAUSE_LOOP, (char *)out, 0, &written) == EXIFNORM_TOO_LITTLE_ROOM);
    REQUIRE(written == sizeof "Loop");
    REQUIRE(exifnorm_version((char *)out, 0, &written) == EXIFNORM_TOO_LITTLE_ROOM);
    REQUIRE(written >= sizeof EXIFNORM_VERSION); /* a build may name itself after the number */
}

/* A picture of no bytes. */
static void try_no_picture(const unsigned char *none) {
    struct exifnorm_jpeg_fault fault = {UNSET, UNSET};
    struct exifnorm_picture_fault of_picture = {UNSET, UNSET, UNSET, UNSET};
    struct exifnorm_unread_part unread = {UNSET, UNSET, UNSET};
    struct exifnorm_jpeg_packet packet = {UNSET, UNSET, UNSET};
    uint32_t same = UNSET;
    REQUIRE(exifnorm_jpeg_unread(none, 0, &unread, &fault) == EXIFNORM_REFUSED);
    REQUIRE(fault.cause == EXIFNORM_JPEG_NO_START && fault.place == 0);
    fault.cause = UNSET;
    REQUIRE(exifnorm_jpeg_xmp(none, 0, &packet, &unread, &fault) == EXIFNORM_REFUSED);
    REQUIRE(fault.cause == EXIFNORM_JPEG_NO_START && fault.place == 0 && packet.found == UNSET && unread.found == UNSET);
    REQUIRE(exifnorm_jpeg_same(none, 0, picture, PICTURE, &same, &unread, &of_picture) == EXIFNORM_REFUSED);
    REQUIRE(of_picture.cause == EXIFNORM_JPEG_NO_START && of_picture.place == 0);
    REQUIRE(exifnorm_jpeg_same(picture, PICTURE, none, 0, &same, &unread, &of_picture) == EXIFNORM_SECOND_REFUSED);
    REQUIRE(exifnorm_jpeg_same_blocks(none, 0, picture, PICTURE, &same, &unread, &of_picture) == EXIFNORM_REFUSED);
    REQUIRE(same == UNSET && unread.found == UNSET);
}

/* Arrays of no elements, for the parts, the blocks and the resources of a picture with two pieces of one block, and of no bytes. */
static void try_no_room(const unsigned char *none, void *room) {
    struct exifnorm_jpeg_fault fault = {UNSET, UNSET};
    struct exifnorm_jpeg_sizes sizes = {UNSET, UNSET};
    size_t count = UNSET;
    REQUIRE(exifnorm_jpeg_parts(picture, PICTURE, room, 0, &count, &fault) == EXIFNORM_TOO_LITTLE_ROOM);
    REQUIRE(count == 3 && fault.cause == UNSET);
    REQUIRE(exifnorm_jpeg_parts(none, 0, room, 0, &count, &fault) == EXIFNORM_REFUSED);
    REQUIRE(count == 0 && fault.cause == EXIFNORM_JPEG_NO_START);
    REQUIRE(exifnorm_jpeg_blocks(picture, PICTURE, room, 0, room, 0, &sizes, &fault) == EXIFNORM_TOO_LITTLE_ROOM);
    REQUIRE(sizes.blocks == 1 && sizes.joined == RESOURCES);
    REQUIRE(exifnorm_jpeg_blocks((const unsigned char *)"\xff\xd8\xff\xd9", 4, room, 0, room, 0, &sizes, &fault) == EXIFNORM_DONE);
    REQUIRE(sizes.blocks == 0 && sizes.joined == 0);
    REQUIRE(exifnorm_jpeg_blocks(none, 0, room, 0, room, 0, &sizes, &fault) == EXIFNORM_REFUSED);
    REQUIRE(exifnorm_photoshop_resources(resources, RESOURCES, room, 0, &count) == EXIFNORM_TOO_LITTLE_ROOM);
    REQUIRE(count == 1);
    REQUIRE(exifnorm_photoshop_resources(none, 0, room, 0, &count) == EXIFNORM_DONE);
    REQUIRE(count == 0);
}

/* The IPTC of pictures by one call: in two pieces, with too little room, of no head, none, one beside an empty one and another resource, and two. */
static void try_iptc(const unsigned char *none) {
    static const char empty[] = "\xff\xd8\xff\xed\0\077Photoshop 3.0\0" "8BIM\4\045\0\0\0\0\0\1a\0" "8BIM\4\4\0\0\0\0\0\0"
                                "8BIM\4\4\0\0\0\0\0\011\034\2\170\0\4Vase\xff\xd9";
    static const char two[] = "\xff\xd8\xff\xed\0\054Photoshop 3.0\0" "8BIM\4\4\0\0\0\0\0\1a\0"
                              "8BIM\4\4\0\0\0\0\0\1b\0\xff\xd9";
    static const struct {
        const void *bytes;
        size_t length, room;
        uint32_t status;
        size_t written;
    } tries[] = {
        {picture, PICTURE, PAGE, EXIFNORM_DONE, 9},
        {picture, PICTURE, 9, EXIFNORM_DONE, 9},
        {picture, PICTURE, 8, EXIFNORM_TOO_LITTLE_ROOM, 9},
        {picture, PICTURE, 0, EXIFNORM_TOO_LITTLE_ROOM, 9},
        {picture, PICTURE - 1, PAGE, EXIFNORM_REFUSED, UNSET},
        {"\xff\xd8\xff\xd9", 4, 0, EXIFNORM_DONE, 0},
        {empty, sizeof empty - 1, PAGE, EXIFNORM_DONE, 9},
        {two, sizeof two - 1, PAGE, EXIFNORM_NOT_READ, UNSET},
    };
    struct exifnorm_jpeg_fault fault = {UNSET, UNSET};
    unsigned char out[PAGE];
    size_t written = UNSET;
    REQUIRE(exifnorm_jpeg_iptc(none, 0, NULL, 0, &written, &fault) == EXIFNORM_REFUSED);
    REQUIRE(fault.cause == EXIFNORM_JPEG_NO_START && fault.place == 0 && written == UNSET);
    for (size_t i = 0; i < sizeof tries / sizeof *tries; i++) {
        const unsigned char *bytes = (const unsigned char *)tries[i].bytes;
        size_t copied = tries[i].status == EXIFNORM_DONE ? tries[i].written : 0;
        memset(out, FILLER, sizeof out);
        written = fault.cause = UNSET;
        REQUIRE(exifnorm_jpeg_iptc(bytes, tries[i].length, out, tries[i].room, &written, &fault) == tries[i].status);
        REQUIRE(written == tries[i].written && fault.cause == (tries[i].status == EXIFNORM_REFUSED ? EXIFNORM_JPEG_HEAD_CUT : UNSET));
        REQUIRE(memcmp(out, caption_texts[0], copied) == 0 && is(out + copied, sizeof out - copied, FILLER));
    }
}

/* An index of further pictures, and what is none: a shorter mark, and the mark in another segment. */
static void try_further(void) {
    static const char *const heads[] = {"\xff\xd8\xff\xe2\0\6MPF\0\xff\xd9", "\xff\xd8\xff\xe2\0\5MPF\xff\xd9\0",
                                        "\xff\xd8\xff\xe1\0\6MPF\0\xff\xd9"};
    for (size_t i = 0; i < 3; i++) {
        const unsigned char *head = (const unsigned char *)heads[i];
        struct exifnorm_jpeg_fault fault;
        struct exifnorm_jpeg_part parts[2];
        size_t count = 0;
        REQUIRE(exifnorm_jpeg_parts(head, 12, parts, 2, &count, &fault) == EXIFNORM_DONE && count == 2);
        REQUIRE(exifnorm_jpeg_has_further(head, parts, count) == (i == 0));
        REQUIRE(!exifnorm_jpeg_has_further(head, parts, 0));
    }
}

#define SYNTAX "http://www.w3.org/1999/02/22-rdf-syntax-ns#"
#define EMPTY_PACKET "<r:RDF xmlns:r='" SYNTAX "'/>"
#define EMPTY_FORM \
    "<x:xmpmeta xmlns:x=\"adobe:ns:meta/\"><rdf:RDF xmlns:rdf=\"" SYNTAX "\"><rdf:Description rdf:about=\"\"></rdf:Description></rdf:RDF></x:xmpmeta>"

/* A packet of no bytes, and an output of none. */
static void try_no_packet(const unsigned char *none, unsigned char *out) {
    struct exifnorm_fault fault = {UNSET, UNSET};
    size_t written = UNSET;
    REQUIRE(exifnorm_xmp_check(none, 0, &fault) == EXIFNORM_REFUSED);
    REQUIRE(is_fault(fault, EXIFNORM_XMP_NO_ROOT, 0));
    fault.cause = UNSET;
    REQUIRE(exifnorm_xmp_normalise(none, 0, out, 0, &written, &fault) == EXIFNORM_REFUSED);
    REQUIRE(is_fault(fault, EXIFNORM_XMP_NO_ROOT, 0) && written == UNSET);
    fault.cause = UNSET;
    REQUIRE(exifnorm_xmp_normalise((const unsigned char *)EMPTY_PACKET, sizeof EMPTY_PACKET - 1, out, 0, &written, &fault) == EXIFNORM_TOO_LITTLE_ROOM);
    REQUIRE(written == sizeof EMPTY_FORM - 1 && fault.cause == UNSET);
    written = UNSET;
    REQUIRE(exifnorm_xmp_unsorted(none, 0, out, 0, &written, &fault) == EXIFNORM_REFUSED);
    REQUIRE(is_fault(fault, EXIFNORM_XMP_NO_ROOT, 0) && written == UNSET);
}

/* With pointers to bytes that may not be read or written, and with NULL. */
static void try_none(void) {
    unsigned char *page = mmap(NULL, PAGE, PROT_NONE, MAP_PRIVATE | MAP_ANONYMOUS, -1, 0);
    unsigned char *pointers[] = {page == MAP_FAILED ? NULL : page, NULL};
    for (int i = 0; i < 2; i++) {
        try_no_bytes(pointers[i], pointers[1 - i]);
        try_no_bytes(pointers[i], pointers[i]);
        try_no_picture(pointers[i]);
        try_no_packet(pointers[i], pointers[1 - i]);
        try_no_room(pointers[i], pointers[i]);
        try_iptc(pointers[i]);
    }
}

/* ---- outputs below and above 64 MB */

static void try_room(unsigned char *out, size_t room) {
    for (int i = 0; i < 3; i++) {
        struct exifnorm_fault fault = {UNSET, UNSET};
        size_t written = UNSET, length = caption_lengths[i];
        memset(out, FILLER, PAGE);
        memset(out + room - PAGE, FILLER, PAGE);
        REQUIRE(texts[i](caption, CAPTION, out, room, &written, &fault) == EXIFNORM_DONE);
        REQUIRE(written == length);
        REQUIRE(memcmp(out, caption_texts[i], length) == 0);
        REQUIRE(is(out + length, PAGE - length, FILLER));
        REQUIRE(is(out + room - PAGE, PAGE, FILLER));
        REQUIRE(is_fault(fault, UNSET, UNSET));
    }
}

/* A block of the greatest length, whose captions are three times as long, and one of one byte more. */
static void try_largest(unsigned char *out) {
    unsigned char *block = room_of(LARGEST + 1);
    struct exifnorm_fault fault = {UNSET, UNSET};
    size_t written = UNSET;
    uint32_t number = UNSET;
    if (!block)
        return;
    const unsigned char head[] = {0x1C, 2, 120, 0x80, 4, NUMBER(ZEROS)};
    memcpy(block, head, sizeof head); /* a caption that fills the block with zeros */
    REQUIRE(exifnorm_check(block, LARGEST, &number, &fault) == EXIFNORM_DONE);
    REQUIRE(number == EXIFNORM_IIM);
    REQUIRE(exifnorm_captions(block, LARGEST, out, MOST_ROOM, &written, &fault) == EXIFNORM_DONE);
    REQUIRE(written == 36 + 3UL * ZEROS);
    REQUIRE(memcmp(out + written - 7, "\\00\\00\n", 7) == 0);
    REQUIRE(exifnorm_captions(block, LARGEST, out, written - 1, &written, &fault) == EXIFNORM_TOO_LITTLE_ROOM);
    REQUIRE(exifnorm_show(block, LARGEST, out, MOST_ROOM, &written, &fault) == EXIFNORM_DONE);
    REQUIRE(written == 21 + 2UL * ZEROS);
    REQUIRE(exifnorm_normalise(block, LARGEST, out, LARGEST, &written, &fault) == EXIFNORM_DONE);
    REQUIRE(written == LARGEST);
    REQUIRE(memcmp(out, block, LARGEST) == 0);
    REQUIRE(is_fault(fault, UNSET, UNSET));
    REQUIRE(exifnorm_check(block, LARGEST + 1, &number, &fault) == EXIFNORM_REFUSED);
    REQUIRE(is_fault(fault, EXIFNORM_CAUSE_TOO_LONG, LARGEST));
    REQUIRE(exifnorm_normalise(block, LARGEST + 1, out, MOST_ROOM, &written, &fault) == EXIFNORM_REFUSED);
    munmap(block, LARGEST + 1);
}

/* A block whose form is too long: RowsPerStrip with as many SHORTs as fit. */
static void try_too_long(unsigned char *out) {
    unsigned char *block = room_of(LARGEST);
    struct exifnorm_fault fault = {UNSET, UNSET};
    size_t written = UNSET;
    uint32_t number = UNSET;
    if (!block)
        return;
    const unsigned char head[] = {'M', 'M', 0, 42, NUMBER(8), 0, 1, 0x01, 0x16, 0, 3, NUMBER(SHORTS), NUMBER(26), NUMBER(0)};
    memcpy(block, head, sizeof head);
    REQUIRE(exifnorm_check(block, LARGEST, &number, &fault) == EXIFNORM_DONE);
    REQUIRE(number == EXIFNORM_EXIF);
    memset(out, FILLER, PAGE);
    REQUIRE(exifnorm_normalise(block, LARGEST, out, MOST_ROOM, &written, &fault) == EXIFNORM_TOO_LONG);
    REQUIRE(written == UNSET);
    REQUIRE(is(out, PAGE, FILLER));
    REQUIRE(exifnorm_normalise(block, LARGEST, out, 0, &written, &fault) == EXIFNORM_TOO_LONG);
    REQUIRE(written == UNSET);
    REQUIRE(is_fault(fault, UNSET, UNSET));
    REQUIRE(exifnorm_compare(block, LARGEST, block, LARGEST, &number, &fault) == EXIFNORM_DONE);
    REQUIRE(number == 1);
    REQUIRE(exifnorm_show(block, LARGEST, out, MOST_ROOM, &written, &fault) == EXIFNORM_DONE);
    REQUIRE(written > 2UL * SHORTS);
    munmap(block, LARGEST);
}

/* ---- names */

static void try_name(uint32_t cause, const char *name) {
    char out[64];
    size_t length = strlen(name) + 1;
    for (size_t room = 0; room <= sizeof out; room++) {
        size_t written = UNSET;
        memset(out, FILLER, sizeof out);
        uint32_t status = exifnorm_cause_name(cause, out, room, &written);
        REQUIRE(status == (room < length ? EXIFNORM_TOO_LITTLE_ROOM : EXIFNORM_DONE));
        REQUIRE(written == length);
        size_t put = room < length ? 0 : length;
        REQUIRE(memcmp(out, name, put) == 0);
        REQUIRE(is((unsigned char *)out + put, sizeof out - put, FILLER));
    }
}

/* The causes have these names, in their order, and the numbers from 1. */
static void try_names(int count, char **names) {
    for (int at = 0; at < count; at++) {
        try_name(at + 1, names[at]);
        REQUIRE(strlen(names[at]) < EXIFNORM_NAME_ROOM);
    }
    try_name(EXIFNORM_JPEG_NO_START, "JpegNoStart");
    try_name(EXIFNORM_JPEG_NO_MARKER, "JpegNoMarker");
    try_name(EXIFNORM_JPEG_LENGTH_FORM, "JpegLength");
    try_name(EXIFNORM_JPEG_HEAD_CUT, "JpegCut");
    try_name(EXIFNORM_JPEG_TOO_LONG, "JpegTooLong");
    try_name(EXIFNORM_JPEG_NO_START - 1, "");
    try_name(EXIFNORM_JPEG_TOO_LONG + 1, "");
    try_name(0, "");
    try_name(count + 1, "");
    try_name(0xFFFFFFFF, "");
    try_name(0x80000007, "");
}

static void try_version(const char *version) {
    char out[EXIFNORM_NAME_ROOM];
    size_t length = strlen(version) + 1;
    memset(out, FILLER, sizeof out);
    REQUIRE(exifnorm_version_string(out) == out && strcmp(out, version) == 0);
    REQUIRE(is((unsigned char *)out + length, sizeof out - length, FILLER));
    for (size_t room = 0; room <= sizeof out; room++) {
        size_t written = UNSET;
        memset(out, FILLER, sizeof out);
        uint32_t status = exifnorm_version(out, room, &written);
        REQUIRE(status == (room < length ? EXIFNORM_TOO_LITTLE_ROOM : EXIFNORM_DONE));
        REQUIRE(written == length);
        REQUIRE(room < length ? is((unsigned char *)out, sizeof out, FILLER) : strcmp(out, version) == 0);
    }
}

int main(int count, char **words) {
    static const size_t rooms[] = {2 * PAGE, 67108863, 67108864, 67108865, 134217728, MOST_ROOM};
    unsigned char *out = room_of(MOST_ROOM);
    if (count < 3 || !out)
        return 2;
    try_none();
    try_further();
    for (size_t i = 0; i < sizeof rooms / sizeof *rooms; i++)
        try_room(out, rooms[i]);
    try_largest(out);
    try_too_long(out);
    try_names(count - 2, words + 2);
    try_version(words[1]);
    printf("%lu checks\n", checks);
    return failures ? 1 : 0;
}
