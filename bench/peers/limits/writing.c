/* Writes the form of an Exif block (FORMAT.md, section 6). */
#include "exif.h"
#include "groups.h"
#include "values.h"

/* Where the next entry and the next placed value of a form are written. */
struct output {
    unsigned char *out;
    unsigned char *entry;
    uint32_t value;
};

uint64_t lay_out(struct exif *exif) {
    uint64_t at = 8;
    for (enum name name = MAIN; name < DIRECTORIES; name++) {
        struct directory *it = &exif->directories[name];
        if (!it->entries)
            continue;
        it->offset = (uint32_t)at;
        at += 6 + 12 * it->count + it->values;
    }
    exif->tail_offset = (uint32_t)at;
    return at + exif->tail;
}

/* Writes an entry without its value, and returns where the value is to be written: it is placed if it has more than four bytes. */
static unsigned char *put_entry(struct output *output, const struct entry *it, enum type type, uint32_t size) {
    unsigned char *to = output->entry, *value = to + 8;
    put16(to, it->tag);
    put16(to + 2, type);
    put32(to + 4, it->count);
    put32(to + 8, size > 4 ? output->value : 0);
    output->entry += 12;
    if (size <= 4)
        return value;
    value = output->out + output->value;
    if (size % 2 == 1)
        value[size] = 0;
    output->value += padded(size);
    return value;
}

static void put_field(const struct exif *exif, const struct entry *it, struct output *output) {
    put_value(exif, it, put_entry(output, it, it->type, (uint32_t)value_size(it)));
}

/* Writes an entry that is one LONG. */
static void put_number(const struct entry *it, uint32_t number, struct output *output) {
    put32(put_entry(output, it, LONG_TYPE, 4), number);
}

static void put_record(const struct exif *exif, struct entry it, struct output *output) {
    uint32_t size = it.count;
    it.count = (uint32_t)exif->record_length;
    unsigned char *to = put_entry(output, &it, UNDEFINED_TYPE, it.count);
    put_iim_form(exif->block + get32(exif->order, last_field(it.at)), size, to, it.count, BY_OCTETS);
}

static uint32_t jpeg_length(const struct exif *exif) {
    return exif->jpeg_length ? get32(exif->order, last_field(exif->jpeg_length)) : 0;
}

/* In the form the strips follow the JPEG, each with its padding. */
static void put_strip_offsets(const struct exif *exif, const struct entry *it, struct output *output) {
    struct entry other = entry_at(exif, exif->strip_lengths);
    struct list lengths = list_of(exif, &other);
    unsigned char *to = put_entry(output, it, LONG_TYPE, 4 * it->count);
    uint32_t at = exif->tail_offset + padded(jpeg_length(exif));
    for (uint32_t i = 0; i < it->count; i++) {
        put32(to + 4 * (size_t)i, at);
        at += padded(number_at(lengths, i));
    }
}

/* Writes an entry whose tag is not plain in every directory. */
static void put_special(const struct exif *exif, enum name name, const struct entry *it, struct output *output) {
    if (it->tag == EXIF_POINTER || it->tag == GPS_POINTER || it->tag == INTEROP_POINTER) {
        enum name to = it->tag == EXIF_POINTER ? EXIF : it->tag == GPS_POINTER ? GPS : INTEROP;
        put_number(it, exif->directories[to].offset, output);
    } else if (it->tag == JPEG_OFFSET || it->tag == JPEG_LENGTH) {
        put_number(it, it->tag == JPEG_OFFSET ? exif->tail_offset : jpeg_length(exif), output);
    } else if (it->tag == STRIP_OFFSETS) {
        put_strip_offsets(exif, it, output);
    } else if (it->at == exif->record) {
        put_record(exif, *it, output);
    } else if (is_whole(name, it)) {
        put_longs(list_of(exif, it), put_entry(output, it, LONG_TYPE, 4 * it->count));
    } else {
        put_field(exif, it, output);
    }
}

static void put_directory(const struct exif *exif, enum name name, unsigned char *out) {
    const struct directory *directory = &exif->directories[name];
    const unsigned char *at = directory->entries;
    struct output output = {out, out + directory->offset + 2, directory->offset + 6 + 12 * directory->count};
    put16(out + directory->offset, directory->count);
    for (uint32_t i = 0; i < directory->count; i++, at += 12) {
        struct entry it = entry_at(exif, at);
        if (is_plain(it.tag))
            put_field(exif, &it, &output);
        else
            put_special(exif, name, &it, &output);
    }
    put32(output.entry, name == MAIN ? exif->directories[THUMB].offset : 0);
}

/* Copies a part of the tail with its padding, and returns where the next one begins. */
static inline unsigned char *put_part(unsigned char *to, const unsigned char *from, uint32_t size) {
    copy(to, from, size);
    to += size;
    if (size % 2 == 1)
        *to++ = 0;
    return to;
}

static void put_strips(const struct exif *exif, unsigned char *to) {
    struct entry first = entry_at(exif, exif->strip_offsets), second = entry_at(exif, exif->strip_lengths);
    struct list offsets = list_of(exif, &first), lengths = list_of(exif, &second);
    for (uint32_t i = 0; i < first.count; i++)
        to = put_part(to, exif->block + number_at(offsets, i), number_at(lengths, i));
}

void put_exif(const struct exif *exif, unsigned char *out) {
    unsigned char *tail = out + exif->tail_offset;
    memcpy(out, "MM\0*\0\0\0\10", 8);
    for (enum name name = MAIN; name < DIRECTORIES; name++)
        if (exif->directories[name].entries)
            put_directory(exif, name, out);
    if (exif->jpeg_offset)
        tail = put_part(tail, exif->block + get32(exif->order, last_field(exif->jpeg_offset)), jpeg_length(exif));
    if (exif->strip_offsets)
        put_strips(exif, tail);
}
