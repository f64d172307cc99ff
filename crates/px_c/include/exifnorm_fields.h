/* exifnorm_fields.h: the fields of a normal form, one after another, and their values as numbers, fractions and texts; and the properties
 * of the normal form of a packet of XMP.
 *
 *     struct exifnorm_fields fields;
 *     struct exifnorm_field field;
 *     exifnorm_fields_start(&fields, form, written);      the form that exifnorm_normalise wrote
 *     while (exifnorm_fields_next(&fields, &field))
 *         if (field.directory == EXIFNORM_DIRECTORY_MAIN && field.tag == 0x010F)
 *             printf("%.*s\n", (int)exifnorm_field_text_size(&field), (const char *)field.value);
 *
 * A header alone, for C99 and C++11: it calls nothing of the library but what <string.h> has, and allocates nothing. docs/FORMAT.md,
 * section 6, describes the normal form. What follows is about the form of a block; exifnorm_xmp_start, at the end, begins the properties of
 * a packet, of which section 10 describes the form.
 *
 *   Order     That of exifnorm_show: the main directory, its IPTC record, the Exif, Interoperability, GPS and thumbnail directories,
 *             the thumbnail's JPEG and its strips; in each directory by ascending tag.
 *   Bytes     Any bytes are safe: nothing outside them is read. Each value begins where the one before it ends, so no byte is in two
 *             values, and the sizes of all values together are at most the length of the form. Where the bytes are not laid out as
 *             a normal form, no further field follows; exifnorm_fields_whole tells whether that happened.
 *   Lifetime  The values of fields are in the form. Keep it, unchanged, as long as they are used.
 *   Threads   Nothing is shared. Any number of threads may walk the same form, if each has its own struct exifnorm_fields.
 *
 * Names that end with an underscore are not for callers, and neither are the members of struct exifnorm_fields.
 */
#ifndef EXIFNORM_FIELDS_H
#define EXIFNORM_FIELDS_H

#include "exifnorm.h"
#include <string.h>

#ifdef __cplusplus
extern "C" {
#endif

/* The directories, in the order of their fields (docs/FORMAT.md, "The five directories"). */
enum {
    EXIFNORM_DIRECTORY_MAIN = 0,     /* the 0th IFD */
    EXIFNORM_DIRECTORY_RECORD = 1,   /* DataSets of IPTC-NAA IIM: of an IIM block, or of the tag 0x83BB of the main directory */
    EXIFNORM_DIRECTORY_EXIF = 2,     /* the Exif IFD */
    EXIFNORM_DIRECTORY_INTEROP = 3,  /* the Interoperability IFD */
    EXIFNORM_DIRECTORY_GPS = 4,      /* the GPS IFD */
    EXIFNORM_DIRECTORY_THUMBNAIL = 5 /* the 1st IFD */
};

/* The types: those of TIFF 6.0, section 2, of Exif (CIPA DC-008, 4.6.2), and from 256 those of values that have none there. */
enum {
    EXIFNORM_TYPE_BYTE = 1,      /* a number of 8 bits */
    EXIFNORM_TYPE_ASCII = 2,     /* a byte of a text, whose end is a zero byte */
    EXIFNORM_TYPE_SHORT = 3,     /* a number of 16 bits */
    EXIFNORM_TYPE_LONG = 4,      /* a number of 32 bits; also where SHORT and LONG mean the same (docs/FORMAT.md, "Widened tags") */
    EXIFNORM_TYPE_RATIONAL = 5,  /* a numerator and a denominator of 32 bits each */
    EXIFNORM_TYPE_SBYTE = 6,     /* BYTE with a sign */
    EXIFNORM_TYPE_UNDEFINED = 7, /* a byte, whose meaning depends on the tag */
    EXIFNORM_TYPE_SSHORT = 8,    /* SHORT with a sign */
    EXIFNORM_TYPE_SLONG = 9,     /* LONG with a sign */
    EXIFNORM_TYPE_SRATIONAL = 10, /* RATIONAL with signs */
    EXIFNORM_TYPE_FLOAT = 11,    /* a number of IEEE 754, 32 bits */
    EXIFNORM_TYPE_DOUBLE = 12,   /* a number of IEEE 754, 64 bits */
    EXIFNORM_TYPE_UTF8 = 129,    /* a byte of a text in UTF-8, whose end is a zero byte */
    EXIFNORM_TYPE_DATASET = 256, /* an octet of a DataSet */
    EXIFNORM_TYPE_JPEG = 257,    /* a byte of the thumbnail's JPEG, with the tag 0x0201 */
    EXIFNORM_TYPE_STRIP = 258    /* a byte of a strip of the thumbnail, with the tag 0x0111; each strip is a field */
};

/* A directory and a tag in one number, for a switch: EXIFNORM_KEY(GPS, 0x0002), and of the DataSet 2:25 EXIFNORM_DATASET(2, 25). */
#define EXIFNORM_KEY(directory, tag) (EXIFNORM_DIRECTORY_##directory << 16 | (tag))
#define EXIFNORM_DATASET(record, number) EXIFNORM_KEY(RECORD, (record)*256 + (number))

/* A field. */
struct exifnorm_field {
    uint32_t directory;         /* EXIFNORM_DIRECTORY_MAIN, .. */
    uint32_t tag;               /* its tag, as 0x010F; of a DataSet 256 times its record and its number, so that 2:25 has 0x0219 */
    uint32_t type;              /* EXIFNORM_TYPE_BYTE, .. */
    uint32_t count;             /* the number of its elements, which may be 0 */
    const unsigned char *value; /* the first element: in the form, most significant byte first, at any address */
    size_t size;                /* the number of bytes of all elements */
};

/* A walk through the fields of a form. */
struct exifnorm_fields {
    const unsigned char *form;
    uint32_t length;
    uint32_t stage;        /* a directory, or one of the numbers below */
    uint32_t at;           /* the next entry or DataSet */
    uint32_t left;         /* the entries, strips or octets of DataSets that follow in this stage */
    uint32_t next_tag;     /* the least tag that the next entry may have */
    uint32_t placed;       /* where the next part begins that is outside a table */
    uint32_t pointers[6];  /* where each directory begins; 0: there is none */
    uint32_t record[2];    /* where the DataSets begin, and the number of their octets */
    uint32_t jpeg[2];      /* where the entry of the JPEG's offset has it, and that of its length; 0: there is none */
    uint32_t strips[2];    /* where the list of the strips' offsets begins, and that of their lengths; 0: there is none */
    uint32_t strip_counts[2];
    int whole;
};

/* What follows the directories. */
enum { EXIFNORM_STAGE_JPEG_ = 6, EXIFNORM_STAGE_STRIPS_ = 7, EXIFNORM_STAGE_END_ = 8 };

static inline uint32_t exifnorm_get16_(const unsigned char *bytes) {
    return (uint32_t)bytes[0] << 8 | bytes[1];
}

static inline uint32_t exifnorm_get32_(const unsigned char *bytes) {
    return exifnorm_get16_(bytes) << 16 | exifnorm_get16_(bytes + 2);
}

static inline int32_t exifnorm_signed_(uint32_t number, uint32_t top) {
    return number < top ? (int32_t)number : -(int32_t)(top - 1 - (number - top)) - 1;
}

/* The number of bytes of an element; 0 for a number that is no type. */
static inline uint32_t exifnorm_size_of_(uint32_t type) {
    static const unsigned char sizes[13] = {0, 1, 1, 2, 4, 8, 1, 1, 2, 4, 8, 4, 8};
    if (type < sizeof sizes)
        return sizes[type];
    return type == EXIFNORM_TYPE_UTF8 || (type >= EXIFNORM_TYPE_DATASET && type <= EXIFNORM_TYPE_STRIP);
}

/* The bytes are not laid out as a form: nothing follows. */
static inline int exifnorm_broken_(struct exifnorm_fields *fields) {
    fields->stage = EXIFNORM_STAGE_END_;
    return 0;
}

/* Passes a part outside the tables, and the zero byte after an odd one: 1 if it begins at start, and ends in the form. */
static inline int exifnorm_pass_(struct exifnorm_fields *fields, uint32_t start, uint64_t size) {
    size += size & 1;
    if (start != fields->placed || size > fields->length - fields->placed)
        return 0;
    fields->placed += (uint32_t)size;
    return 1;
}

/* Reads the DataSet at the start of some octets: the number of its octets, or 0 if no DataSet in a normal form's spelling is there. */
static inline uint32_t exifnorm_dataset_(const unsigned char *octets, uint32_t left, struct exifnorm_field *field) {
    uint32_t count, head = 5;
    if (left < 5 || octets[0] != 0x1C)
        return 0;
    count = exifnorm_get16_(octets + 3);
    if (count == 0x8004 && left >= 9) {
        count = exifnorm_get32_(octets + 5);
        head = 9;
    } else if (count > 0x7FFF) {
        return 0;
    }
    if (count > left - head)
        return 0;
    field->directory = EXIFNORM_DIRECTORY_RECORD;
    field->tag = exifnorm_get16_(octets + 1);
    field->type = EXIFNORM_TYPE_DATASET;
    field->count = count;
    field->value = octets + head;
    field->size = count;
    return head + count;
}

/* Whether a value is a caption record: DataSets alone, at least one. */
static inline int exifnorm_is_record_(const unsigned char *octets, uint32_t size) {
    struct exifnorm_field field;
    uint32_t passed = 0, dataset = 1;
    while (passed < size && dataset) {
        dataset = exifnorm_dataset_(octets + passed, size - passed, &field);
        passed += dataset;
    }
    return size > 0 && dataset > 0;
}

/* Begins the table of a directory, of which only the main one has a next directory. */
static inline void exifnorm_table_(struct exifnorm_fields *fields) {
    uint32_t start = fields->pointers[fields->stage], room = fields->length - fields->placed, count = 0, next;
    if (start == fields->placed && room >= 2)
        count = exifnorm_get16_(fields->form + start);
    if (count == 0 || count * 12 + 6 > room) {
        exifnorm_broken_(fields);
        return;
    }
    fields->at = start + 2;
    fields->left = count;
    fields->next_tag = 0;
    fields->placed = start + count * 12 + 6;
    next = exifnorm_get32_(fields->form + fields->placed - 4);
    if (fields->stage == EXIFNORM_DIRECTORY_MAIN)
        fields->pointers[EXIFNORM_DIRECTORY_THUMBNAIL] = next;
    else if (next)
        exifnorm_broken_(fields);
}

/* Begins what follows a stage that is at its end. */
static inline void exifnorm_enter_(struct exifnorm_fields *fields) {
    fields->stage++;
    if (fields->stage == EXIFNORM_STAGE_END_) {
        fields->whole = fields->placed == fields->length;
    } else if (fields->stage == EXIFNORM_STAGE_STRIPS_) {
        fields->left = fields->strip_counts[0];
    } else if (fields->stage == EXIFNORM_STAGE_JPEG_) {
        fields->left = fields->jpeg[0] != 0;
        if (!fields->jpeg[0] != !fields->jpeg[1] || fields->strip_counts[0] != fields->strip_counts[1])
            exifnorm_broken_(fields);
    } else if (fields->stage == EXIFNORM_DIRECTORY_RECORD) {
        fields->at = fields->record[0];
        fields->left = fields->record[1];
    } else if (fields->pointers[fields->stage]) {
        exifnorm_table_(fields);
    }
}

/* Stands before the first field of a form of length bytes, which are in [form, form + length). Bytes that are no form, also none at all
 * (then form may be NULL) and more than EXIFNORM_LIMIT, have no field. */
static inline void exifnorm_fields_start(struct exifnorm_fields *fields, const unsigned char *form, size_t length) {
    static const unsigned char header[8] = {0x4D, 0x4D, 0, 0x2A, 0, 0, 0, 8};
    memset(fields, 0, sizeof *fields);
    fields->form = form;
    fields->stage = EXIFNORM_STAGE_END_;
    if (length == 0 || length > EXIFNORM_LIMIT)
        return;
    fields->length = (uint32_t)length;
    if (form[0] == 0x1C) {
        fields->stage = EXIFNORM_DIRECTORY_RECORD;
        fields->left = fields->placed = fields->length;
    } else if (length >= sizeof header && memcmp(form, header, sizeof header) == 0) {
        fields->stage = EXIFNORM_DIRECTORY_MAIN;
        fields->pointers[EXIFNORM_DIRECTORY_MAIN] = fields->placed = sizeof header;
        exifnorm_table_(fields);
    }
}

/* Stores where an entry of one LONG has its value, for a pointer or a part of the JPEG: 0, since such an entry is no field. */
static inline int exifnorm_store_(struct exifnorm_fields *fields, const struct exifnorm_field *field, uint32_t *where, int is_offset) {
    if (field->type != EXIFNORM_TYPE_LONG || field->count != 1)
        return exifnorm_broken_(fields);
    *where = is_offset ? exifnorm_get32_(field->value) : (uint32_t)(field->value - fields->form);
    return *where ? 0 : exifnorm_broken_(fields);
}

/* Whether an entry of the thumbnail directory is a field. If it belongs to its pictures, it is stored. */
static inline int exifnorm_in_thumbnail_(struct exifnorm_fields *fields, const struct exifnorm_field *field) {
    int list = field->tag == 0x0117;
    if (field->tag == 0x0201 || field->tag == 0x0202)
        return exifnorm_store_(fields, field, &fields->jpeg[field->tag - 0x0201], 0);
    if (field->tag != 0x0111 && field->tag != 0x0117)
        return 1;
    if (field->type != EXIFNORM_TYPE_LONG)
        return exifnorm_broken_(fields);
    fields->strips[list] = (uint32_t)(field->value - fields->form);
    fields->strip_counts[list] = field->count;
    return 0;
}

/* Whether an entry is a field. If it leads to others, it is stored (docs/FORMAT.md, "Roles of tags"). */
static inline int exifnorm_is_field_(struct exifnorm_fields *fields, const struct exifnorm_field *field) {
    if (field->directory == EXIFNORM_DIRECTORY_THUMBNAIL)
        return exifnorm_in_thumbnail_(fields, field);
    if (field->directory == EXIFNORM_DIRECTORY_EXIF && field->tag == 0xA005)
        return exifnorm_store_(fields, field, &fields->pointers[EXIFNORM_DIRECTORY_INTEROP], 1);
    if (field->directory != EXIFNORM_DIRECTORY_MAIN)
        return 1;
    if (field->tag == 0x8769)
        return exifnorm_store_(fields, field, &fields->pointers[EXIFNORM_DIRECTORY_EXIF], 1);
    if (field->tag == 0x8825)
        return exifnorm_store_(fields, field, &fields->pointers[EXIFNORM_DIRECTORY_GPS], 1);
    if (field->tag != 0x83BB || field->type != EXIFNORM_TYPE_UNDEFINED || !exifnorm_is_record_(field->value, field->count))
        return 1;
    fields->record[0] = (uint32_t)(field->value - fields->form);
    fields->record[1] = field->count;
    return 0;
}

/* Reads the next entry of a table: 1 if it is a field. */
static inline int exifnorm_entry_(struct exifnorm_fields *fields, struct exifnorm_field *field) {
    const unsigned char *entry = fields->form + fields->at;
    uint32_t element = exifnorm_size_of_(exifnorm_get16_(entry + 2));
    uint64_t size = (uint64_t)exifnorm_get32_(entry + 4) * element;
    field->directory = fields->stage;
    field->tag = exifnorm_get16_(entry);
    field->type = exifnorm_get16_(entry + 2);
    field->count = exifnorm_get32_(entry + 4);
    field->value = entry + 8;
    if (element == 0 || field->type >= EXIFNORM_TYPE_DATASET || field->tag < fields->next_tag)
        return exifnorm_broken_(fields);
    if (size > 4) {
        if (!exifnorm_pass_(fields, exifnorm_get32_(entry + 8), size))
            return exifnorm_broken_(fields);
        field->value = fields->form + exifnorm_get32_(entry + 8);
    }
    field->size = (size_t)size;
    fields->next_tag = field->tag + 1;
    fields->at += 12;
    fields->left--;
    return exifnorm_is_field_(fields, field);
}

/* Reads the next picture of the thumbnail, whose offset and length are at these places in the form. */
static inline int exifnorm_picture_(struct exifnorm_fields *fields, uint32_t offset, uint32_t length, struct exifnorm_field *field) {
    uint32_t start = exifnorm_get32_(fields->form + offset);
    field->directory = EXIFNORM_DIRECTORY_THUMBNAIL;
    field->count = exifnorm_get32_(fields->form + length);
    field->size = field->count;
    if (!exifnorm_pass_(fields, start, field->count))
        return exifnorm_broken_(fields);
    field->value = fields->form + start;
    fields->left--;
    return 1;
}

/* Reads the next strip. */
static inline int exifnorm_strip_(struct exifnorm_fields *fields, struct exifnorm_field *field) {
    uint32_t passed = 4 * (fields->strip_counts[0] - fields->left);
    field->tag = 0x0111;
    field->type = EXIFNORM_TYPE_STRIP;
    return exifnorm_picture_(fields, fields->strips[0] + passed, fields->strips[1] + passed, field);
}

/* Reads the next entry, DataSet or picture of a stage: 1 if it is a field. */
static inline int exifnorm_step_(struct exifnorm_fields *fields, struct exifnorm_field *field) {
    uint32_t size;
    if (fields->stage == EXIFNORM_STAGE_STRIPS_)
        return exifnorm_strip_(fields, field);
    if (fields->stage == EXIFNORM_STAGE_JPEG_) {
        field->tag = 0x0201;
        field->type = EXIFNORM_TYPE_JPEG;
        return exifnorm_picture_(fields, fields->jpeg[0], fields->jpeg[1], field);
    }
    if (fields->stage != EXIFNORM_DIRECTORY_RECORD)
        return exifnorm_entry_(fields, field);
    size = exifnorm_dataset_(fields->form + fields->at, fields->left, field);
    if (size == 0)
        return exifnorm_broken_(fields);
    fields->at += size;
    fields->left -= size;
    return 1;
}

/* Sets field to the next field, and returns 1. Returns 0 if none follows; then the members of field have no meaning. */
static inline int exifnorm_fields_next(struct exifnorm_fields *fields, struct exifnorm_field *field) {
    while (fields->stage != EXIFNORM_STAGE_END_) {
        if (fields->left == 0)
            exifnorm_enter_(fields);
        else if (exifnorm_step_(fields, field))
            return 1;
    }
    return 0;
}

/* After exifnorm_fields_next has returned 0: 1 if all bytes were passed; 0 if they are no normal form, whose fields were given as far as
 * it is laid out as one. 1 is no proof of a normal form: for that normalise the bytes, and compare. */
static inline int exifnorm_fields_whole(const struct exifnorm_fields *fields) {
    return fields->whole;
}

/* The functions below take a field that exifnorm_fields_next set, and an index from 0. */

/* Its directory and its tag, as EXIFNORM_KEY has them. */
static inline uint32_t exifnorm_field_key(const struct exifnorm_field *field) {
    return field->directory << 16 | field->tag;
}

static inline const unsigned char *exifnorm_element_(const struct exifnorm_field *field, uint32_t index) {
    return index < field->count ? field->value + (size_t)index * exifnorm_size_of_(field->type) : NULL;
}

/* Sets integer to an element of BYTE, SBYTE, SHORT, SSHORT, LONG or SLONG, and returns 1: from -2147483648 to 4294967295. Returns 0, and
 * sets nothing, for another type and for an index that is not less than the count. */
static inline int exifnorm_field_integer(const struct exifnorm_field *field, uint32_t index, int64_t *integer) {
    const unsigned char *element = exifnorm_element_(field, index);
    if (!element)
        return 0;
    switch (field->type) {
    case EXIFNORM_TYPE_BYTE: *integer = element[0]; return 1;
    case EXIFNORM_TYPE_SBYTE: *integer = exifnorm_signed_(element[0], 0x80); return 1;
    case EXIFNORM_TYPE_SHORT: *integer = exifnorm_get16_(element); return 1;
    case EXIFNORM_TYPE_SSHORT: *integer = exifnorm_signed_(exifnorm_get16_(element), 0x8000); return 1;
    case EXIFNORM_TYPE_LONG: *integer = exifnorm_get32_(element); return 1;
    case EXIFNORM_TYPE_SLONG: *integer = exifnorm_signed_(exifnorm_get32_(element), 0x80000000); return 1;
    default: return 0;
    }
}

/* Sets numerator and denominator to those of an element of RATIONAL or SRATIONAL, and returns 1. The fraction is as it is in the block: it
 * isn't reduced, and the denominator may be 0. Returns 0 as exifnorm_field_integer does. */
static inline int exifnorm_field_fraction(const struct exifnorm_field *field, uint32_t index, int64_t *numerator, int64_t *denominator) {
    const unsigned char *element = exifnorm_element_(field, index);
    if (!element || (field->type != EXIFNORM_TYPE_RATIONAL && field->type != EXIFNORM_TYPE_SRATIONAL))
        return 0;
    *numerator = exifnorm_get32_(element);
    *denominator = exifnorm_get32_(element + 4);
    if (field->type == EXIFNORM_TYPE_SRATIONAL) {
        *numerator = exifnorm_signed_((uint32_t)*numerator, 0x80000000);
        *denominator = exifnorm_signed_((uint32_t)*denominator, 0x80000000);
    }
    return 1;
}

/* Sets number to the value of an element of FLOAT or DOUBLE, which float and double of this machine must have the form of. */
static inline void exifnorm_floating_(const struct exifnorm_field *field, const unsigned char *element, double *number) {
    uint32_t high = exifnorm_get32_(element);
    float value;
    if (field->type == EXIFNORM_TYPE_DOUBLE) {
        uint64_t bits = (uint64_t)high << 32 | exifnorm_get32_(element + 4);
        memcpy(number, &bits, sizeof bits);
    } else {
        memcpy(&value, &high, sizeof value);
        *number = value;
    }
}

/* Sets number to an element of any type of numbers, and returns 1; of RATIONAL and SRATIONAL to the quotient, of FLOAT and DOUBLE to any of
 * their values, also an infinity and NaN. Returns 0 as exifnorm_field_integer does, and for a denominator of 0. */
static inline int exifnorm_field_number(const struct exifnorm_field *field, uint32_t index, double *number) {
    const unsigned char *element = exifnorm_element_(field, index);
    int64_t numerator, denominator = 1;
    if (element && (field->type == EXIFNORM_TYPE_FLOAT || field->type == EXIFNORM_TYPE_DOUBLE)) {
        exifnorm_floating_(field, element, number);
        return 1;
    }
    if (!exifnorm_field_integer(field, index, &numerator) && !exifnorm_field_fraction(field, index, &numerator, &denominator))
        return 0;
    if (denominator == 0)
        return 0;
    *number = (double)numerator / (double)denominator;
    return 1;
}

/* The number of bytes of the text at the beginning of the value: of ASCII and UTF8 those before the first zero byte; of a DataSet all but
 * zero octets at its end. 0 for another type. The character set of a text is not checked: ASCII may be any bytes, and the DataSet 1:90 has
 * that of the DataSets of record 2 (IIM 4.2, 1:90). In ASCII a second text may follow the zero byte, as in Copyright (CIPA DC-008, 4.6.4). */
static inline size_t exifnorm_field_text_size(const struct exifnorm_field *field) {
    size_t size = 0;
    if (field->type == EXIFNORM_TYPE_DATASET)
        for (size = field->size; size && field->value[size - 1] == 0;)
            size--;
    if (field->type == EXIFNORM_TYPE_ASCII || field->type == EXIFNORM_TYPE_UTF8)
        while (size < field->size && field->value[size])
            size++;
    return size;
}

/* ---- XMP: the properties of the form that exifnorm_xmp_normalise writes
 *
 *     struct exifnorm_xmp_properties properties;
 *     struct exifnorm_xmp_property property;
 *     unsigned char text[1000];
 *     exifnorm_xmp_start(&properties, form, written);
 *     while (exifnorm_xmp_next(&properties, &property))
 *         if (exifnorm_xmp_is(&property, "http://purl.org/dc/elements/1.1/", "format")) {
 *             size_t size = exifnorm_xmp_text(&property, text, sizeof text);
 *             printf("%.*s\n", (int)(size < sizeof text ? size : sizeof text), (const char *)text);
 *         }
 *
 * The order is that of the form: properties by their bytes, so that the members of a Bag are sorted, too. exifnorm_xmp_unsorted writes them
 * in the order of the packet, to show them: read its form in the same way. What is inside a structure or a container follows it, with a depth
 * that is greater by one. Bytes, lifetime and threads are as above: so a packet that is no form has no property here, and isn't whole. */

/* What a property is, or a member of a container. */
enum {
    EXIFNORM_XMP_TEXT = 1,      /* a text in UTF-8, perhaps with a language */
    EXIFNORM_XMP_RESOURCE = 2,  /* a URI */
    EXIFNORM_XMP_STRUCTURE = 3, /* properties; also a text with qualifiers, which is its rdf:value */
    EXIFNORM_XMP_BAG = 4,       /* a container without an order */
    EXIFNORM_XMP_SEQ = 5,       /* one with an order */
    EXIFNORM_XMP_ALT = 6        /* alternatives, as a text in several languages */
};

/* The depth of each property is less: a packet has no more elements inside one another. */
enum { EXIFNORM_XMP_DEPTH = 100 };

/* Some bytes in the form, which have no zero byte at their end. */
struct exifnorm_xmp_bytes {
    const unsigned char *start;
    size_t size;
};

/* A property, or a member of a container. */
struct exifnorm_xmp_property {
    uint32_t kind;                      /* EXIFNORM_XMP_TEXT, .. */
    uint32_t depth;                     /* how many structures and containers it is in */
    struct exifnorm_xmp_bytes space;    /* the URI of its namespace; empty for a member of a container */
    struct exifnorm_xmp_bytes name;     /* its local name; empty for a member of a container */
    struct exifnorm_xmp_bytes language; /* of a text: in small letters, or empty */
    struct exifnorm_xmp_bytes value;    /* the text or the URI as the form has it: exifnorm_xmp_text decodes it. Otherwise empty */
};

/* A walk through the properties of a form. */
struct exifnorm_xmp_properties {
    const unsigned char *form;
    size_t length;
    size_t at;      /* what was passed */
    uint32_t depth; /* how many structures and containers are open */
    int ended, whole;
    unsigned char kinds[EXIFNORM_XMP_DEPTH]; /* of those that are open the kind, and where the name of the start tag is */
    size_t tags[EXIFNORM_XMP_DEPTH];
};

/* Passes some bytes, if they follow. */
static inline int exifnorm_xmp_passes_(struct exifnorm_xmp_properties *properties, const char *text) {
    size_t size = strlen(text);
    if (size > properties->length - properties->at || memcmp(properties->form + properties->at, text, size) != 0)
        return 0;
    properties->at += size;
    return 1;
}

/* Passes all bytes before the next one that is this one or that of a tag. */
static inline struct exifnorm_xmp_bytes exifnorm_xmp_until_(struct exifnorm_xmp_properties *properties, unsigned char last) {
    struct exifnorm_xmp_bytes bytes = {properties->form + properties->at, 0};
    size_t room = properties->length - properties->at;
    while (bytes.size < room && bytes.start[bytes.size] != last && bytes.start[bytes.size] != '<' && bytes.start[bytes.size] != '>')
        bytes.size++;
    properties->at += bytes.size;
    return bytes;
}

/* Passes the end tag for a start tag, of which the name is at this offset. */
static inline int exifnorm_xmp_passes_end_(struct exifnorm_xmp_properties *properties, size_t tag) {
    size_t size = 0;
    if (!exifnorm_xmp_passes_(properties, "</"))
        return 0;
    while (properties->form[tag + size] != ' ' && properties->form[tag + size] != '>') /* one of them follows each name that was passed */
        size++;
    if (size >= properties->length - properties->at || memcmp(properties->form + tag, properties->form + properties->at, size) != 0)
        return 0;
    properties->at += size;
    return exifnorm_xmp_passes_(properties, ">");
}

/* The bytes are not laid out as a form: nothing follows. */
static inline int exifnorm_xmp_broken_(struct exifnorm_xmp_properties *properties) {
    properties->ended = 1;
    return 0;
}

/* Stands before the first property of a form of length bytes, which are in [form, form + length). Bytes that are no form, also none at all
 * (then form may be NULL), have no property. */
static inline void exifnorm_xmp_start(struct exifnorm_xmp_properties *properties, const unsigned char *form, size_t length) {
    memset(properties, 0, sizeof *properties);
    properties->form = form;
    properties->length = length;
    properties->ended = length == 0 || !exifnorm_xmp_passes_(properties, "<x:xmpmeta xmlns:x=\"adobe:ns:meta/\"><rdf:RDF xmlns:rdf=\""
                                                                         "http://www.w3.org/1999/02/22-rdf-syntax-ns#\">"
                                                                         "<rdf:Description rdf:about=\"\">");
}

/* Begins a structure or a container. */
static inline int exifnorm_xmp_open_(struct exifnorm_xmp_properties *properties, struct exifnorm_xmp_property *property, uint32_t kind,
                                     size_t tag) {
    if (properties->depth + 1 == EXIFNORM_XMP_DEPTH)
        return exifnorm_xmp_broken_(properties);
    property->kind = kind;
    properties->kinds[properties->depth] = (unsigned char)kind;
    properties->tags[properties->depth] = tag;
    properties->depth++;
    return 1;
}

/* Ends the innermost structure or container, if its end follows. */
static inline int exifnorm_xmp_close_(struct exifnorm_xmp_properties *properties) {
    static const char *const ends[7] = {"", "", "", "", "</rdf:Bag>", "</rdf:Seq>", "</rdf:Alt>"};
    uint32_t inner = properties->depth - 1;
    size_t at = properties->at;
    if (exifnorm_xmp_passes_(properties, ends[properties->kinds[inner]]) && exifnorm_xmp_passes_end_(properties, properties->tags[inner])) {
        properties->depth = inner;
        return 1;
    }
    properties->at = at;
    return 0;
}

/* Reads what follows the name and the namespace of a start tag. */
static inline int exifnorm_xmp_value_(struct exifnorm_xmp_properties *properties, struct exifnorm_xmp_property *property, size_t tag) {
    int is_plain;
    if (exifnorm_xmp_passes_(properties, " rdf:parseType=\"Resource\">"))
        return exifnorm_xmp_open_(properties, property, EXIFNORM_XMP_STRUCTURE, tag);
    if (exifnorm_xmp_passes_(properties, " rdf:resource=\"")) {
        property->kind = EXIFNORM_XMP_RESOURCE;
        property->value = exifnorm_xmp_until_(properties, '"');
        return exifnorm_xmp_passes_(properties, "\"/>") ? 1 : exifnorm_xmp_broken_(properties);
    }
    is_plain = !exifnorm_xmp_passes_(properties, " xml:lang=\"");
    if (!is_plain)
        property->language = exifnorm_xmp_until_(properties, '"');
    if (!exifnorm_xmp_passes_(properties, is_plain ? ">" : "\">"))
        return exifnorm_xmp_broken_(properties);
    if (is_plain && exifnorm_xmp_passes_(properties, "<rdf:Bag>"))
        return exifnorm_xmp_open_(properties, property, EXIFNORM_XMP_BAG, tag);
    if (is_plain && exifnorm_xmp_passes_(properties, "<rdf:Seq>"))
        return exifnorm_xmp_open_(properties, property, EXIFNORM_XMP_SEQ, tag);
    if (is_plain && exifnorm_xmp_passes_(properties, "<rdf:Alt>"))
        return exifnorm_xmp_open_(properties, property, EXIFNORM_XMP_ALT, tag);
    property->kind = EXIFNORM_XMP_TEXT;
    property->value = exifnorm_xmp_until_(properties, '<');
    return exifnorm_xmp_passes_end_(properties, tag) ? 1 : exifnorm_xmp_broken_(properties);
}

/* Reads a property, or a member of a container. */
static inline int exifnorm_xmp_item_(struct exifnorm_xmp_properties *properties, struct exifnorm_xmp_property *property) {
    int is_member = properties->depth > 0 && properties->kinds[properties->depth - 1] != EXIFNORM_XMP_STRUCTURE;
    size_t tag = properties->at + 1;
    memset(property, 0, sizeof *property);
    property->depth = properties->depth;
    if (!exifnorm_xmp_passes_(properties, is_member ? "<rdf:li" : "<p:"))
        return exifnorm_xmp_broken_(properties);
    if (!is_member) {
        property->name = exifnorm_xmp_until_(properties, ' ');
        if (property->name.size == 0 || !exifnorm_xmp_passes_(properties, " xmlns:p=\""))
            return exifnorm_xmp_broken_(properties);
        property->space = exifnorm_xmp_until_(properties, '"');
        if (!exifnorm_xmp_passes_(properties, "\""))
            return exifnorm_xmp_broken_(properties);
    }
    return exifnorm_xmp_value_(properties, property, tag);
}

/* Sets property to the next property or member, and returns 1. Returns 0 if none follows; then the members of property have no meaning. */
static inline int exifnorm_xmp_next(struct exifnorm_xmp_properties *properties, struct exifnorm_xmp_property *property) {
    while (!properties->ended) {
        if (properties->depth > 0) {
            if (exifnorm_xmp_close_(properties))
                continue;
        } else if (exifnorm_xmp_passes_(properties, "</rdf:Description></rdf:RDF></x:xmpmeta>")) {
            properties->ended = 1;
            properties->whole = properties->at == properties->length;
            return 0;
        }
        return exifnorm_xmp_item_(properties, property);
    }
    return 0;
}

/* After exifnorm_xmp_next has returned 0: 1 if all bytes were passed; 0 if they are not laid out as a form. 1 is no proof of a form. */
static inline int exifnorm_xmp_whole(const struct exifnorm_xmp_properties *properties) {
    return properties->whole;
}

/* Whether a property has this name in this namespace. A form has a namespace that ends with a letter or a digit without these, which begin
 * the local name: here both are compared together. */
static inline int exifnorm_xmp_is(const struct exifnorm_xmp_property *property, const char *space, const char *name) {
    size_t first = strlen(space), size = first + strlen(name);
    if (property->name.size == 0 || property->space.size + property->name.size != size)
        return 0;
    for (size_t i = 0; i < size; i++) {
        unsigned char octet = i < property->space.size ? property->space.start[i] : property->name.start[i - property->space.size];
        if (octet != (unsigned char)(i < first ? space[i] : name[i - first]))
            return 0;
    }
    return 1;
}

/* Writes the text or the URI of a property or member to the beginning of out, without a zero byte at its end, and returns the number of its
 * bytes. If that is more than room, only the first ones are written. It is at most value.size. */
static inline size_t exifnorm_xmp_text(const struct exifnorm_xmp_property *property, unsigned char *out, size_t room) {
    static const char *const references[4] = {"&amp;", "&lt;", "&gt;", "&#13;"};
    static const unsigned char octets[4] = {'&', '<', '>', '\r'};
    size_t size = 0;
    for (size_t at = 0; at < property->value.size; size++) {
        const unsigned char *start = property->value.start + at;
        unsigned char octet = *start;
        size_t passed = 1;
        for (int i = 0; octet == '&' && passed == 1 && i < 4; i++) {
            size_t length = strlen(references[i]);
            if (length <= property->value.size - at && memcmp(start, references[i], length) == 0) {
                octet = octets[i];
                passed = length;
            }
        }
        if (size < room)
            out[size] = octet;
        at += passed;
    }
    return size;
}

#ifdef __cplusplus
}
#endif

#endif
