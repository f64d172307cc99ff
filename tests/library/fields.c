/* Walks bytes by exifnorm_fields.h. The file has each form's length, four bytes with the least significant first, and the form.
 *
 *   fields print FILE          a line for each field, as a listing has it, with its directory and its number of bytes; then `whole` or `cut`
 *   fields numbers FILE        a line for each element: as an integer, a fraction and a number, `-` where it is none; then the size of the text
 *   fields change FILE N       each form and its beginnings N times with some bytes changed, each in memory of its own length. A line for
 *                              each law that is broken, and at the end the number of fields
 *   fields xmp FILE            a line for each property of a packet's form: its depth, and in hexadecimal its kind, namespace, name, language and
 *                              decoded value; then `whole` or `cut`
 *   fields alter FILE N        as `change`, for properties
 */
#include <exifnorm_names.h>
#include <inttypes.h>
#include <stdio.h>
#include <stdlib.h>

static const char *const directories[] = {"main", "iptc", "exif", "interop", "gps", "thumb"};

static const char *type_name(uint32_t type) {
    static const char *const names[] = {"", "BYTE", "ASCII", "SHORT", "LONG", "RATIONAL", "SBYTE", "UNDEFINED", "SSHORT", "SLONG", "SRATIONAL", "FLOAT",
                                        "DOUBLE"};
    return type == EXIFNORM_TYPE_UTF8 ? "UTF8" : type < 13 ? names[type] : "";
}

static void print_head(const struct exifnorm_field *field) {
    printf("%s ", directories[field->directory]);
    if (field->type == EXIFNORM_TYPE_DATASET)
        printf("%u:%u", (unsigned)field->tag >> 8, (unsigned)field->tag & 0xFF);
    else if (field->type == EXIFNORM_TYPE_JPEG || field->type == EXIFNORM_TYPE_STRIP)
        printf("%s", field->type == EXIFNORM_TYPE_JPEG ? "jpeg" : "strip");
    else
        printf("%04x %s", (unsigned)field->tag, type_name(field->type));
    printf(" %u:", (unsigned)field->count);
}

/* A type whose elements a listing has in hexadecimal, with a space between two if they have several bytes. */
static void print_bytes(const struct exifnorm_field *field) {
    size_t element = field->type == EXIFNORM_TYPE_FLOAT ? 4 : field->type == EXIFNORM_TYPE_DOUBLE ? 8 : field->size + 1;
    for (size_t i = 0; i < field->size; i++)
        printf("%s%02x", i % element == 0 ? " " : "", field->value[i]);
}

static void print_field(const struct exifnorm_field *field) {
    int64_t numerator, denominator;
    print_head(field);
    if (field->type == EXIFNORM_TYPE_BYTE || field->type == EXIFNORM_TYPE_SBYTE || !exifnorm_field_integer(field, 0, &numerator)) {
        if (!exifnorm_field_fraction(field, 0, &numerator, &denominator))
            print_bytes(field);
        for (uint32_t i = 0; exifnorm_field_fraction(field, i, &numerator, &denominator); i++)
            printf(" %" PRId64 "/%" PRId64, numerator, denominator);
    } else {
        for (uint32_t i = 0; exifnorm_field_integer(field, i, &numerator); i++)
            printf(" %" PRId64, numerator);
    }
    printf(" (%u)\n", (unsigned)field->size);
}

static void print_numbers(const struct exifnorm_field *field) {
    int64_t numerator, denominator;
    double number;
    for (uint32_t i = 0; i <= field->count; i++) {
        printf("%s %u ", type_name(field->type), (unsigned)i);
        exifnorm_field_integer(field, i, &numerator) ? printf("%" PRId64 " ", numerator) : printf("- ");
        exifnorm_field_fraction(field, i, &numerator, &denominator) ? printf("%" PRId64 "/%" PRId64 " ", numerator, denominator) : printf("- ");
        exifnorm_field_number(field, i, &number) ? printf("%.17g\n", number) : printf("-\n");
    }
    printf("text %u\n", (unsigned)exifnorm_field_text_size(field));
}

static void print_fields(const unsigned char *form, size_t length, void (*print)(const struct exifnorm_field *)) {
    struct exifnorm_fields fields;
    struct exifnorm_field field;
    exifnorm_fields_start(&fields, form, length);
    while (exifnorm_fields_next(&fields, &field))
        print(&field);
    printf("%s\n", exifnorm_fields_whole(&fields) ? "whole" : "cut");
}

/* The next form of a file, in memory of its own; NULL at the end. */
static unsigned char *read_form(FILE *file, size_t *length) {
    unsigned char head[4], *form;
    if (fread(head, 1, 4, file) != 4)
        return NULL;
    *length = head[0] | (size_t)head[1] << 8 | (size_t)head[2] << 16 | (size_t)head[3] << 24;
    form = malloc(*length + 1);
    if (!form || fread(form, 1, *length, file) != *length)
        exit(3);
    return form;
}

static uint32_t random_number(void) {
    static uint64_t state = 88172645463325252u;
    state ^= state << 13;
    state ^= state >> 7;
    state ^= state << 17;
    return (uint32_t)(state >> 16);
}

/* Reads all bytes of a value and some of its elements: the sanitizers see whether they are in the memory of the form. */
static uint64_t use(const struct exifnorm_field *field) {
    int64_t numerator = 0, denominator = 0;
    double number = 0;
    uint64_t sum = exifnorm_field_text_size(field) + (exifnorm_field_name(field) != NULL) + (exifnorm_field_group(field)[0] == 0);
    for (size_t i = 0; i < field->size; i++)
        sum += field->value[i];
    for (uint32_t i = 0; i < 4; i++) {
        uint32_t index = i < 2 ? i : field->count + i - 3;
        sum += exifnorm_field_integer(field, index, &numerator) + exifnorm_field_fraction(field, index, &numerator, &denominator);
        sum += exifnorm_field_number(field, index, &number) && number > 0;
    }
    return sum;
}

/* Walks bytes, and returns the number of the fields. Values follow one another, and the walk ends. */
static unsigned long walk(const unsigned char *form, size_t length, uint64_t *sum) {
    struct exifnorm_fields fields;
    struct exifnorm_field field;
    unsigned long count = 0;
    size_t sizes = 0;
    exifnorm_fields_start(&fields, form, length);
    while (exifnorm_fields_next(&fields, &field)) {
        count++;
        sizes += field.size;
        if (field.value < form || field.size > (size_t)(form + length - field.value))
            printf("a value is not in the form\n");
        *sum += use(&field);
    }
    if (sizes > length || count > length / 4)
        printf("%lu fields of %lu bytes in %lu bytes\n", count, (unsigned long)sizes, (unsigned long)length);
    if (exifnorm_fields_next(&fields, &field))
        printf("a field follows the end\n");
    return count;
}

static unsigned long walk_changed(const unsigned char *form, size_t length, uint64_t *sum) {
    size_t kept = length && random_number() % 3 == 0 ? random_number() % (length + 1) : length;
    unsigned char *copy = malloc(kept ? kept : 1);
    unsigned long count;
    if (!copy)
        exit(3);
    memcpy(copy, form, kept);
    for (uint32_t i = random_number() % 4; kept && i > 0; i--)
        copy[random_number() % (random_number() % 2 && kept > 160 ? 160 : kept)] = (unsigned char)random_number();
    count = walk(copy, kept, sum);
    free(copy);
    return count;
}

/* ---- properties of XMP */

static void print_octets(const unsigned char *octets, size_t size) {
    for (size_t i = 0; i < size; i++)
        printf("%02x", octets[i]);
    printf(" ");
}

static void print_properties(const unsigned char *form, size_t length) {
    struct exifnorm_xmp_properties properties;
    struct exifnorm_xmp_property property;
    exifnorm_xmp_start(&properties, form, length);
    while (exifnorm_xmp_next(&properties, &property)) {
        unsigned char *text = malloc(property.value.size + 1);
        size_t size = text ? exifnorm_xmp_text(&property, text, property.value.size) : 0;
        printf("%u %u ", (unsigned)property.depth, (unsigned)property.kind);
        print_octets(property.space.start, property.space.size);
        print_octets(property.name.start, property.name.size);
        print_octets(property.language.start, property.language.size);
        print_octets(text, size);
        printf("\n");
        free(text);
    }
    printf("%s\n", exifnorm_xmp_whole(&properties) ? "whole" : "cut");
}

static int is_inside(struct exifnorm_xmp_bytes bytes, const unsigned char *form, size_t length) {
    return bytes.size == 0 || (bytes.start >= form && bytes.size <= (size_t)(form + length - bytes.start));
}

/* The text of a value, with a room for each number of bytes up to 9, and in memory of its length. */
static void use_text(const struct exifnorm_xmp_property *property, uint64_t *sum) {
    unsigned char all[10], some[10];
    size_t size = exifnorm_xmp_text(property, all, sizeof all);
    unsigned char *text = malloc(size ? size : 1);
    if (!text)
        exit(3);
    for (size_t room = 0; room < sizeof some; room++) {
        memset(some, 0xA5, sizeof some);
        if (exifnorm_xmp_text(property, some, room) != size || memcmp(some, all, room < size ? room : size) != 0 || some[room] != 0xA5)
            printf("a text depends on its room\n");
    }
    if (exifnorm_xmp_text(property, text, size) != size || size > property->value.size)
        printf("a text is longer than its value\n");
    for (size_t i = 0; i < size; i++)
        *sum += text[i];
    free(text);
}

/* Walks bytes, and returns the number of the properties. What is in a form follows what precedes it, and the walk ends. */
static unsigned long walk_properties(const unsigned char *form, size_t length, uint64_t *sum) {
    struct exifnorm_xmp_properties properties;
    struct exifnorm_xmp_property property;
    uint32_t depth = 0;
    unsigned long count = 0;
    exifnorm_xmp_start(&properties, form, length);
    while (exifnorm_xmp_next(&properties, &property)) {
        count++;
        if (!is_inside(property.space, form, length) || !is_inside(property.name, form, length) || !is_inside(property.language, form, length) ||
            !is_inside(property.value, form, length))
            printf("a part is not in the form\n");
        if (property.depth > depth || property.depth >= EXIFNORM_XMP_DEPTH || (property.depth == 0) > (property.name.size > 0))
            printf("a property has the depth %u after %u\n", (unsigned)property.depth, (unsigned)depth);
        depth = property.depth + (property.kind >= EXIFNORM_XMP_STRUCTURE);
        use_text(&property, sum);
        *sum += (uint64_t)exifnorm_xmp_is(&property, "http://d/", "a");
    }
    if (count > length / 16)
        printf("%lu properties in %lu bytes\n", count, (unsigned long)length);
    if (exifnorm_xmp_next(&properties, &property))
        printf("a property follows the end\n");
    return count;
}

/* A packet's form, perhaps cut, with some of its bytes copied over others, behind the head, in which each change is the end. */
static unsigned long walk_altered(const unsigned char *form, size_t length, uint64_t *sum) {
    enum { HEAD = 131 };
    size_t kept = random_number() % 3 == 0 ? random_number() % (length + 1) : length;
    unsigned char *copy = malloc(kept ? kept : 1);
    unsigned long count;
    if (!copy)
        exit(3);
    memcpy(copy, form, kept);
    for (uint32_t i = random_number() % 4; kept > HEAD && i > 0; i--) {
        size_t from = random_number() % length, to = HEAD + random_number() % (kept - HEAD), size = 1 + random_number() % 2 * (random_number() % 40);
        memcpy(copy + to, form + from, size <= length - from && size <= kept - to ? size : 1);
    }
    count = walk_properties(copy, kept, sum);
    free(copy);
    return count;
}

int main(int argc, char **argv) {
    FILE *file = argc >= 3 ? fopen(argv[2], "rb") : NULL;
    unsigned long count = 0;
    uint64_t sum = 0;
    unsigned char *form;
    size_t length;
    if (!file)
        return 3;
    while ((form = read_form(file, &length))) {
        if (argc == 4)
            for (int i = atoi(argv[3]); i > 0; i--)
                count += argv[1][0] == 'c' ? walk_changed(form, length, &sum) : walk_altered(form, length, &sum);
        else if (argv[1][0] == 'x')
            print_properties(form, length);
        else
            print_fields(form, length, argv[1][0] == 'n' ? print_numbers : print_field);
        free(form);
    }
    fclose(file);
    if (argc == 4)
        printf("%lu fields\n", sum ? count : 0);
    return 0;
}
