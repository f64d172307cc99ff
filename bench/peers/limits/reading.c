/* Judges an Exif block (FORMAT.md, section 5). */
#include "exif.h"
#include "groups.h"

/* Claims the value of an entry, if it is placed. */
static inline int claim_value(struct exif *exif, const struct entry *it, uint64_t size) {
    if (size <= 4)
        return 1;
    uint32_t offset = get32(exif->order, last_field(it->at));
    return offset <= exif->size && exif->size - offset >= size && claim(&exif->claimed, offset, offset + (uint32_t)size);
}

/* Keeps an entry that has to be one LONG: a pointer, or the offset or the length of the JPEG. */
static int keep_number(const unsigned char **kept, const struct entry *it) {
    *kept = it->at;
    return it->type == LONG_TYPE && it->count == 1;
}

/* Keeps an entry with a list of the strips. */
static int keep_list(const unsigned char **kept, const struct entry *it) {
    *kept = it->at;
    return it->type == SHORT_TYPE || it->type == LONG_TYPE;
}

/* Judges a tag by its role in a directory. A tag for offsets has this role, or is refused. */
static int keep_role(struct exif *exif, enum name name, const struct entry *it) {
    switch (it->tag) {
    case EXIF_POINTER:
        return name == MAIN && keep_number(&exif->pointers[EXIF], it);
    case GPS_POINTER:
        return name == MAIN && keep_number(&exif->pointers[GPS], it);
    case INTEROP_POINTER:
        return name == EXIF && keep_number(&exif->pointers[INTEROP], it);
    case JPEG_OFFSET:
        return name == THUMB && keep_number(&exif->jpeg_offset, it);
    case JPEG_LENGTH:
        return name == THUMB && keep_number(&exif->jpeg_length, it);
    case STRIP_OFFSETS:
        return name == THUMB && keep_list(&exif->strip_offsets, it);
    case STRIP_LENGTHS:
        return name == THUMB && keep_list(&exif->strip_lengths, it);
    case FREE_OFFSETS: case TILE_OFFSETS: case SUB_DIRECTORIES: case JPEG_Q_TABLES: case JPEG_DC_TABLES: case JPEG_AC_TABLES:
        return 0;
    }
    return 1;
}

/* Keeps an entry of the main directory whose bytes are a caption record. In every other case it is a plain field. */
static void keep_record(struct exif *exif, const struct entry *it) {
    if (it->tag != RECORD || (it->type != BYTE_TYPE && it->type != UNDEFINED_TYPE) || it->count < 5)
        return;
    exif->record_length = iim_form_length(value_of(exif, it), it->count);
    if (exif->record_length > 0)
        exif->record = it->at;
}

/* Judges an entry whose tag is not plain in every directory, and adds what its value takes in the form. */
static int read_special(struct exif *exif, enum name name, const struct entry *it, uint64_t *values) {
    uint64_t size = value_size(it);
    if (!keep_role(exif, name, it) || !claim_value(exif, it, size))
        return 0;
    if (name == MAIN)
        keep_record(exif, it);
    if (exif->record == it->at)
        size = exif->record_length;
    else if (is_whole(name, it))
        size = 4 * (uint64_t)it->count;
    *values += size > 4 ? padded((uint32_t)size) : 0;
    return 1;
}

static int read_entries(struct exif *exif, enum name name) {
    struct directory *directory = &exif->directories[name];
    const unsigned char *at = directory->entries;
    uint32_t before = 0;
    uint64_t values = 0;
    for (uint32_t i = 0; i < directory->count; i++, at += 12) {
        struct entry it = entry_at(exif, at);
        uint64_t size = value_size(&it);
        if ((i > 0 && it.tag <= before) || element_size(it.type) == 0)
            return 0;
        before = it.tag;
        if (is_plain(it.tag)) {
            if (!claim_value(exif, &it, size))
                return 0;
            values += size > 4 ? padded((uint32_t)size) : 0;
        } else if (!read_special(exif, name, &it, &values)) {
            return 0;
        }
    }
    directory->values = values;
    return 1;
}

/* Reads the directory whose offset is in these four bytes. */
static int read_directory(struct exif *exif, enum name name, const unsigned char *pointer) {
    struct directory *directory = &exif->directories[name];
    uint32_t offset = get32(exif->order, pointer), size = exif->size;
    if (offset > size || size - offset < 2)
        return 0;
    directory->count = get16(exif->order, exif->block + offset);
    uint32_t table = 6 + 12 * directory->count;
    if (directory->count == 0 || size - offset < table || !claim(&exif->claimed, offset, offset + table))
        return 0;
    directory->entries = exif->block + offset + 2;
    return read_entries(exif, name);
}

/* The offset of the directory after this one. */
static const unsigned char *next_of(const struct directory *it) {
    return it->entries + 12 * it->count;
}

/* Claims the strips one by one. */
static int claim_strips(struct exif *exif, struct list offsets, struct list lengths) {
    for (uint32_t i = 0; i < offsets.count; i++) {
        uint32_t from = number_at(offsets, i);
        if (!claim(&exif->claimed, from, from + number_at(lengths, i)))
            return 0;
    }
    return 1;
}

/* Judges the strips. If none begins before the end of the one before, one look at their whole span shows that they are free. */
static int read_strips(struct exif *exif) {
    struct entry first = entry_at(exif, exif->strip_offsets), second = entry_at(exif, exif->strip_lengths);
    struct list offsets = list_of(exif, &first), lengths = list_of(exif, &second);
    uint32_t size = exif->size, end = 0, start = first.count > 0 ? number_at(offsets, 0) : 0;
    uint64_t tail = 0;
    int ascends = 1;
    if (first.count != second.count)
        return 0;
    for (uint32_t i = 0; i < first.count; i++) {
        uint32_t from = number_at(offsets, i), length = number_at(lengths, i);
        if (from > size || size - from < length)
            return 0;
        ascends &= from >= end;
        end = from + length;
        tail += padded(length);
    }
    exif->tail += tail;
    return (ascends && is_free(&exif->claimed, start, end)) || claim_strips(exif, offsets, lengths);
}

static int read_jpeg(struct exif *exif) {
    uint32_t offset = get32(exif->order, last_field(exif->jpeg_offset)), length = get32(exif->order, last_field(exif->jpeg_length));
    exif->tail += padded(length);
    return offset <= exif->size && exif->size - offset >= length && claim(&exif->claimed, offset, offset + length);
}

/* The thumbnail's directory, which no other one follows, and its parts. */
static int read_thumbnail(struct exif *exif) {
    if (!read_directory(exif, THUMB, next_of(&exif->directories[MAIN])))
        return 0;
    if (!exif->jpeg_offset != !exif->jpeg_length || !exif->strip_offsets != !exif->strip_lengths)
        return 0;
    if (get32(exif->order, next_of(&exif->directories[THUMB])) != 0)
        return 0;
    return (!exif->jpeg_offset || read_jpeg(exif)) && (!exif->strip_offsets || read_strips(exif));
}

int read_exif(struct exif *exif) {
    if (exif->size < 8)
        return 0;
    if (memcmp(exif->block, "II*\0", 4) == 0)
        exif->order = LEAST_FIRST;
    else if (memcmp(exif->block, "MM\0*", 4) == 0)
        exif->order = MOST_FIRST;
    else
        return 0;
    claim(&exif->claimed, 0, 8);
    if (!read_directory(exif, MAIN, exif->block + 4))
        return 0;
    for (enum name name = EXIF; name <= GPS; name++)
        if (exif->pointers[name] && !read_directory(exif, name, last_field(exif->pointers[name])))
            return 0;
    return get32(exif->order, next_of(&exif->directories[MAIN])) == 0 || read_thumbnail(exif);
}
