#include "made.h"
#include <string.h>

static const struct {
    unsigned char marker;
    size_t length;
    const char *bytes;
} marks[] = {{0xFE, 0, ""}, {0xE1, 6, "Exif\0"}, {0xED, 14, "Photoshop 3.0"}, {0xE1, 29, "http://ns.adobe.com/xap/1.0/"},
             {0xE1, 35, "http://ns.adobe.com/xmp/extension/"}};

unsigned next(struct script *script) {
    return script->length ? script->bytes[script->at++ % script->length] : 0;
}

void put(unsigned char *bytes, size_t *length, const void *more, size_t count) {
    memcpy(bytes + *length, more, count);
    *length += count;
}

/* Some bytes of the script. */
static size_t data(struct script *script, unsigned char *bytes) {
    size_t count = next(script) % DATA;
    for (size_t i = 0; i < count; i++)
        bytes[i] = (unsigned char)next(script);
    return count;
}

/* ---- Photoshop's resources */

static void add_resource(struct resources *list, unsigned number, unsigned signature, const unsigned char *name, size_t letters, const unsigned char *bytes, size_t size) {
    unsigned char length[4] = {0, 0, (unsigned char)(size >> 8), (unsigned char)size};
    put(list->bytes, &list->length, &"8BIMPHUTAgHgDCSRMeSa"[signature * 4], 4);
    put(list->bytes, &list->length, (unsigned char[]){(unsigned char)(number >> 8), (unsigned char)number, (unsigned char)letters}, 3);
    put(list->bytes, &list->length, name, letters);
    put(list->bytes, &list->length, "\0", letters % 2 ? 0 : 1);
    put(list->bytes, &list->length, length, 4);
    list->is_adobe[list->count] = signature == 0;
    list->found[list->count++] = (struct exifnorm_photoshop_resource){number, list->length, size};
    put(list->bytes, &list->length, bytes, size);
    put(list->bytes, &list->length, "\0", size % 2);
}

/* A resource of any number; one of two has IPTC or Exif. */
static void add_any_resource(struct script *script, struct resources *list) {
    unsigned char bytes[DATA], name[DATA];
    size_t size = data(script, bytes), letters = data(script, name);
    unsigned way = next(script), number = way % 4 == 0 ? 0x0404 : way % 4 == 1 ? 0x0422 : 256 * way + next(script);
    unsigned signature = next(script) % 8;
    add_resource(list, number, signature < 5 ? signature : 0, name, letters, bytes, size);
}

void make_resources(struct script *script, unsigned most, struct resources *list) {
    list->length = list->count = 0;
    for (unsigned count = next(script) % (most + 1); count > 0; count--)
        add_any_resource(script, list);
}

/* ---- heads */

static int has_header(const unsigned char *bytes, size_t length) {
    return length >= 4 && (memcmp(bytes, "II*", 4) == 0 || memcmp(bytes, "MM\0*", 4) == 0);
}

/* The next part begins where the last one ends, with its bytes FF. */
static void begin_part(struct head *head) {
    head->begin[head->count] = 2;
    if (head->count > 0)
        head->begin[head->count] = head->parts[head->count - 1].start + head->parts[head->count - 1].size;
}

static void add_alone(struct head *head, unsigned marker) {
    begin_part(head);
    put(head->bytes, &head->length, (unsigned char[]){0xFF, (unsigned char)marker}, 2);
    head->parts[head->count++] = (struct exifnorm_jpeg_part){marker, EXIFNORM_JPEG_OTHER, 0, head->length, 0};
}

/* A segment with the mark of a kind; of no kind by another marker. */
static void add_segment(struct head *head, unsigned marker, uint32_t kind, const unsigned char *bytes, size_t size) {
    size_t mark = marks[kind].length, length = 2 + mark + size;
    uint32_t last = head->count ? head->parts[head->count - 1].kind : EXIFNORM_JPEG_OTHER;
    int goes_on = kind == last && (kind == EXIFNORM_JPEG_PHOTOSHOP || (kind == EXIFNORM_JPEG_EXIF && !has_header(bytes, size)));
    begin_part(head);
    put(head->bytes, &head->length, (unsigned char[]){0xFF, (unsigned char)marker, (unsigned char)(length >> 8), (unsigned char)length}, 4);
    put(head->bytes, &head->length, marks[kind].bytes, mark);
    head->parts[head->count++] = (struct exifnorm_jpeg_part){marker, kind, kind != EXIFNORM_JPEG_OTHER && !goes_on, head->length, size};
    put(head->bytes, &head->length, bytes, size);
}

/* A block in one or two segments. */
static void add_block(struct script *script, struct head *head, uint32_t kind, const unsigned char *bytes, size_t size) {
    size_t first = next(script) % 2 ? size : size * next(script) / 256;
    add_segment(head, marks[kind].marker, kind, bytes, first);
    if (first < size)
        add_segment(head, marks[kind].marker, kind, bytes + first, size - first);
}

/* The script's own block: a record as IPTC. */
static void add_own_block(struct script *script, struct head *head) {
    static struct resources list;
    if (script->length > LONGEST_INSIDE)
        return;
    if (script->length == 0 || script->bytes[0] != 0x1C) {
        add_block(script, head, EXIFNORM_JPEG_EXIF, script->bytes, script->length);
        return;
    }
    list.length = list.count = 0;
    add_resource(&list, 0x0404, 0, NULL, 0, script->bytes, script->length);
    add_block(script, head, EXIFNORM_JPEG_PHOTOSHOP, list.bytes, list.length);
}

/* Resources, and zeros or other bytes after them. */
static void add_resources(struct script *script, struct head *head) {
    static struct resources list;
    make_resources(script, 2, &list);
    put(list.bytes, &list.length, next(script) % 2 ? "\0\0" : "\0x", next(script) % 3);
    add_block(script, head, EXIFNORM_JPEG_PHOTOSHOP, list.bytes, list.length);
}

/* The marker of Exif or of Photoshop without their marks, perhaps with what other programs take for one, or with that of a colour model. */
static void add_other_mark(struct script *script, struct head *head, unsigned marker) {
    unsigned char bytes[DATA + 16];
    size_t length = 0, before = next(script) % 6;
    if (before == 5)
        put(bytes, &length, "Adobe_CM", 8);
    while (length < before)
        bytes[length++] = (unsigned char)next(script);
    put(bytes, &length, next(script) % 2 ? "EXIF" : "exif", 5);
    length += data(script, bytes + length);
    add_segment(head, marker, EXIFNORM_JPEG_OTHER, bytes, next(script) % 8 ? length : 0);
}

/* One or two parts, after those that were added. */
static void add_part(struct script *script, struct head *head) {
    unsigned char bytes[DATA + 4];
    unsigned way = next(script), kind = way % 12;
    for (unsigned fill = way / 12 % 16; fill > 12; fill--)
        put(head->bytes, &head->length, "\xff", 1);
    if (kind == 0) {
        add_alone(head, way / 128 ? 0x01 : 0xD0 + way / 12 % 9);
    } else if (kind < 5) {
        add_segment(head, marks[kind].marker, kind, bytes, data(script, bytes));
    } else if (kind == 5) { /* Exif with a header */
        memcpy(bytes, way / 128 ? "II*" : "MM\0*", 4);
        add_segment(head, 0xE1, EXIFNORM_JPEG_EXIF, bytes, 4 + data(script, bytes + 4));
    } else if (kind < 8) {
        add_other_mark(script, head, kind == 6 ? 0xE1 : 0xED);
    } else if (kind == 8) { /* another marker, with the mark of Exif */
        memcpy(bytes, "Exif\0", 4);
        add_segment(head, 0xC0 + way / 12 % 16, EXIFNORM_JPEG_OTHER, bytes, 4 + data(script, bytes + 4));
    } else if (kind == 9) {
        add_own_block(script, head);
    } else {
        add_resources(script, head);
    }
}

void make_head(struct script *script, struct head *head) {
    unsigned count = next(script) % PARTS, tries = PARTS;
    head->length = head->count = 0;
    put(head->bytes, &head->length, "\xff\xd8", 2);
    while (head->count < count && head->length + LONGEST_INSIDE + 256 < LONGEST_HEAD && tries-- > 0)
        add_part(script, head);
    if (next(script) % 2)
        add_alone(head, 0xD9);
    else
        add_segment(head, 0xDA, EXIFNORM_JPEG_OTHER, (const unsigned char *)"scan", 4);
}
