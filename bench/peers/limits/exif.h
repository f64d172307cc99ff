/* What is known of an Exif block once it was read: where its parts are, and how long they are in the form. */
#ifndef LIMITS_EXIF_H
#define LIMITS_EXIF_H
#include "limits.h"
#include "ranges.h"

/* In the order of the checks and of the form. */
enum name { MAIN, EXIF, INTEROP, GPS, THUMB, DIRECTORIES };

/* TIFF 6.0 section 2, "Types"; CIPA DC-008 4.6.2. */
enum type { BYTE_TYPE = 1, SHORT_TYPE = 3, LONG_TYPE = 4, RATIONAL_TYPE = 5, UNDEFINED_TYPE = 7, SRATIONAL_TYPE = 10, UTF8_TYPE = 129 };

/* Tags that are not plain in every directory (FORMAT.md, "Roles of tags", "Widened tags" and "Caption record"). */
enum tag {
    IMAGE_WIDTH = 0x0100,
    IMAGE_LENGTH = 0x0101,
    STRIP_OFFSETS = 0x0111,
    ROWS_PER_STRIP = 0x0116,
    STRIP_LENGTHS = 0x0117,
    FREE_OFFSETS = 0x0120,
    TILE_OFFSETS = 0x0144,
    SUB_DIRECTORIES = 0x014A,
    JPEG_OFFSET = 0x0201,
    JPEG_LENGTH = 0x0202,
    JPEG_Q_TABLES = 0x0207,
    JPEG_DC_TABLES = 0x0208,
    JPEG_AC_TABLES = 0x0209,
    RECORD = 0x83BB,
    EXIF_POINTER = 0x8769,
    GPS_POINTER = 0x8825,
    PIXEL_WIDTH = 0xA002,
    PIXEL_HEIGHT = 0xA003,
    INTEROP_POINTER = 0xA005
};

struct entry {
    uint32_t tag, type, count;
    const unsigned char *at;
};

struct directory {
    const unsigned char *entries; /* NULL if the block has no such directory */
    uint32_t count;
    uint32_t offset; /* in the form */
    uint64_t values; /* how long its placed values are in the form, with their padding */
};

struct exif {
    const unsigned char *block;
    uint32_t size;
    enum order order;
    struct ranges claimed;
    struct directory directories[DIRECTORIES];
    const unsigned char *pointers[DIRECTORIES]; /* the entries that name a directory, and those below; NULL if there is none */
    const unsigned char *jpeg_offset, *jpeg_length, *strip_offsets, *strip_lengths, *record;
    uint64_t record_length; /* in the form */
    uint64_t tail;          /* how long the JPEG and the strips are in the form */
    uint32_t tail_offset;
};

/* Reads a whole block, whose ranges are made. Returns 0 if it is refused. */
int read_exif(struct exif *exif);

/* Sets the offsets of the directories and of the tail, and returns the length of the form. */
uint64_t lay_out(struct exif *exif);

/* Writes the form, whose offsets are set. */
void put_exif(const struct exif *exif, unsigned char *out);

/* The field of an entry that has its value, or the value's offset. */
static inline const unsigned char *last_field(const unsigned char *entry) {
    return entry + 8;
}

static inline struct entry entry_at(const struct exif *exif, const unsigned char *at) {
    struct entry it = {get16(exif->order, at), get16(exif->order, at + 2), get32(exif->order, at + 4), at};
    return it;
}

/* The bytes of an element; 0 if there is no such type. */
static inline uint32_t element_size(uint32_t type) {
    static const unsigned char sizes[13] = {0, 1, 1, 2, 4, 8, 1, 1, 2, 4, 8, 4, 8};
    return type < 13 ? sizes[type] : type == UTF8_TYPE;
}

static inline uint64_t value_size(const struct entry *it) {
    return (uint64_t)it->count * element_size(it->type);
}

/* The value of an entry that was read. */
static inline const unsigned char *value_of(const struct exif *exif, const struct entry *it) {
    return value_size(it) > 4 ? exif->block + get32(exif->order, last_field(it->at)) : last_field(it->at);
}

/* Whether a tag is plain in every directory, as nearly all tags are. */
static inline int is_plain(uint32_t tag) {
    if (tag > JPEG_AC_TABLES && tag < RECORD)
        return 1;
    switch (tag) {
    case IMAGE_WIDTH: case IMAGE_LENGTH: case ROWS_PER_STRIP: case PIXEL_WIDTH: case PIXEL_HEIGHT: case RECORD:
    case STRIP_OFFSETS: case STRIP_LENGTHS: case JPEG_OFFSET: case JPEG_LENGTH:
    case EXIF_POINTER: case GPS_POINTER: case INTEROP_POINTER:
    case FREE_OFFSETS: case TILE_OFFSETS: case SUB_DIRECTORIES: case JPEG_Q_TABLES: case JPEG_DC_TABLES: case JPEG_AC_TABLES:
        return 0;
    }
    return 1;
}

/* Whether the form has a list of LONGs where the block may have SHORTs: a widened tag, or a list of the strips. */
static inline int is_whole(enum name name, const struct entry *it) {
    if (it->type != SHORT_TYPE && it->type != LONG_TYPE)
        return 0;
    switch (it->tag) {
    case IMAGE_WIDTH: case IMAGE_LENGTH: case ROWS_PER_STRIP:
        return name == MAIN || name == THUMB;
    case PIXEL_WIDTH: case PIXEL_HEIGHT:
        return name == EXIF;
    case STRIP_OFFSETS: case STRIP_LENGTHS:
        return name == THUMB;
    }
    return 0;
}

/* A list of SHORTs or LONGs in the block. */
struct list {
    const unsigned char *at;
    enum order order;
    uint32_t width, count;
};

static inline struct list list_of(const struct exif *exif, const struct entry *it) {
    struct list list = {value_of(exif, it), exif->order, element_size(it->type), it->count};
    return list;
}

static inline uint32_t number_at(struct list list, uint32_t i) {
    const unsigned char *at = list.at + (size_t)i * list.width;
    return list.width == 4 ? get32(list.order, at) : get16(list.order, at);
}
#endif
