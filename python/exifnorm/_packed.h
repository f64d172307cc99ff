/* What a catalogue keeps of a block, made without an object of Python for each field: the same as packing.py and xmp/tree.py make of the
 * library's forms. _native.c includes this.
 *
 * A form is the library's, but nothing is taken on trust: whatever isn't as expected, or is rare, has no answer here, and Python reads it.
 * `out` allocates, and a failure of it or of Python is seen once, at the end.
 */
#ifdef __linux__
#include <fcntl.h>
#include <sys/stat.h>
#include <sys/syscall.h>
#include <unistd.h>
#endif

#define FIRST 3072      /* bytes of an output that needs no allocation */
#define LONGEST 500000  /* bytes of a form whose fields all are kept (model/budgets.py) */
#define DEEPEST 100     /* elements of a packet in one another */
#define DIGITS 64       /* of SHA-256 */

enum { MADE = 0, LEFT = 1, FAILED = 2 }; /* LEFT: to Python; FAILED: an exception is set */

struct out {
    unsigned char *at;
    size_t length, room;
    int failed;
    union {
        unsigned char octets[FIRST];
        void *aligned;
    } first;
};

static void begin(struct out *out)
{
    out->at = out->first.octets;
    out->length = 0;
    out->room = FIRST;
    out->failed = 0;
}

static void end(struct out *out)
{
    if (out->at != out->first.octets) {
        PyMem_Free(out->at);
    }
}

static void put(struct out *out, const void *octets, size_t length)
{
    if (length > out->room - out->length) {
        size_t room = 2 * (out->length + length);
        unsigned char *more = out->failed ? NULL : PyMem_Realloc(out->at == out->first.octets ? NULL : out->at, room);

        if (more == NULL) {
            out->failed = 1;
            return;
        }
        if (out->at == out->first.octets) {
            memcpy(more, out->first.octets, out->length);
        }
        out->at = more;
        out->room = room;
    }
    memcpy(out->at + out->length, octets, length);
    out->length += length;
}

static void put_text(struct out *out, const char *text)
{
    put(out, text, strlen(text));
}

static void put_number(struct out *out, uint64_t number, int is_negative)
{
    char digits[21];
    size_t at = sizeof digits;

    do {
        digits[--at] = (char)('0' + number % 10);
        number /= 10;
    } while (number != 0);
    if (is_negative) {
        digits[--at] = '-';
    }
    put(out, digits + at, sizeof digits - at);
}

static void put_hex(struct out *out, const unsigned char *octets, size_t length)
{
    for (size_t i = 0; i < length; i++) {
        char two[2];

        two[0] = "0123456789abcdef"[octets[i] >> 4];
        two[1] = "0123456789abcdef"[octets[i] & 15];
        put(out, two, 2);
    }
}

static void put_unit(struct out *out, uint32_t unit)
{
    unsigned char two[2];

    two[0] = (unsigned char)(unit >> 8);
    two[1] = (unsigned char)unit;
    put_text(out, "\\u");
    put_hex(out, two, 2);
}

/* The number of the bytes of the character that text begins with, by RFC 3629; 0 if there is none. */
static size_t character_of(const unsigned char *text, size_t length, uint32_t *code)
{
    static const uint32_t least[] = {0, 0, 0x80, 0x800, 0x10000};
    size_t size = length == 0 ? 0 : text[0] < 0x80 ? 1 : text[0] < 0xC0 ? 0 : text[0] < 0xE0 ? 2 : text[0] < 0xF0 ? 3 : text[0] < 0xF8 ? 4 : 0;

    if (size == 0 || size > length) {
        return 0;
    }
    *code = size == 1 ? text[0] : text[0] & (0x7Fu >> size);
    for (size_t i = 1; i < size; i++) {
        if ((text[i] & 0xC0) != 0x80) {
            return 0;
        }
        *code = *code << 6 | (text[i] & 0x3F);
    }
    return *code < least[size] || *code > 0x10FFFF || (*code >= 0xD800 && *code < 0xE000) ? 0 : size;
}

/* A text as JSON, all of it in ASCII. Returns LEFT if it is none. */
static int put_quoted(struct out *out, const unsigned char *text, size_t length)
{
    static const char plain[] = "\"\\\b\f\n\r\t", escaped[] = "\"\\bfnrt";
    size_t at = 0, from = 0;

    put(out, "\"", 1);
    while (at < length) {
        const char *known;
        uint32_t code = 0;
        size_t size;

        if (text[at] >= ' ' && text[at] <= '~' && text[at] != '"' && text[at] != '\\') {
            at++;
            continue;
        }
        put(out, text + from, at - from);
        size = character_of(text + at, length - at, &code);
        if (size == 0) {
            return LEFT;
        }
        known = code == 0 || code > '\\' ? NULL : strchr(plain, (int)code);
        if (known != NULL) {
            put(out, "\\", 1);
            put(out, escaped + (known - plain), 1);
        } else if (code < 0x10000) {
            put_unit(out, code);
        } else {
            put_unit(out, 0xD800 + ((code - 0x10000) >> 10));
            put_unit(out, 0xDC00 + ((code - 0x10000) & 0x3FF));
        }
        from = at += size;
    }
    put(out, text + from, at - from);
    put(out, "\"", 1);
    return MADE;
}

/* SHA-256 by a function of hashlib, as many of its hexadecimal digits as are asked for. */
static int put_digest(struct out *out, PyObject *sha256, const unsigned char *octets, size_t length, size_t digits)
{
    PyObject *made = PyObject_CallFunction(sha256, "y#", (const char *)octets, (Py_ssize_t)length);
    PyObject *digest = made == NULL ? NULL : PyObject_CallMethod(made, "digest", NULL);
    struct bytes bytes;
    int done = digest != NULL && get_bytes(digest, &bytes) == 0 && bytes.length >= digits / 2 ? MADE : FAILED;

    if (done == MADE) {
        put_hex(out, bytes.start, digits / 2);
    }
    Py_XDECREF(made);
    Py_XDECREF(digest);
    return done;
}

/* ---- the fields of Exif and IPTC */

struct kind {
    const char *name; /* NULL: there is no such type */
    unsigned char size;
    char numbers; /* 0: bytes; u, s: one number; r, q: a fraction without and with signs */
};

static const struct kind KINDS[] = {
    {NULL, 0, 0},        {"BYTE", 1, 0},      {"ASCII", 1, 0},  {"SHORT", 2, 'u'},     {"LONG", 4, 'u'},  {"RATIONAL", 8, 'r'}, {"SBYTE", 1, 0},
    {"UNDEFINED", 1, 0}, {"SSHORT", 2, 's'}, {"SLONG", 4, 's'}, {"SRATIONAL", 8, 'q'}, {"FLOAT", 4, 'u'}, {"DOUBLE", 8, 'u'},
};

enum { MAIN, EXIF_IFD, INTEROP, GPS, THUMB, RECORD, DIRECTORIES };
static const char *const DIRECTORY[] = {"main", "exif", "interop", "gps", "thumb", "iptc"};

/* The form of a block, while its fields are packed. */
struct form {
    const struct calls *calls;
    PyObject *sha256;
    const unsigned char *at;
    size_t length;
    struct out *json;
    size_t place[RECORD]; /* of each directory; 0: there is none */
    size_t record, record_end;
    size_t note, note_end; /* the MakerNote in the output */
    struct {
        const unsigned char *at;
        size_t count, size;
    } part[4]; /* the numbers of the thumbnail's entries 0111, 0117, 0201 and 0202 */
};

static uint64_t number_at(const unsigned char *at, size_t size)
{
    uint64_t number = 0;

    for (size_t i = 0; i < size; i++) {
        number = number << 8 | at[i];
    }
    return number;
}

static void put_head(struct form *form, int where, const char *key, size_t key_length, const char *kind, size_t count)
{
    struct out *json = form->json;

    put_text(json, json->length == 1 ? "[\"" : ",[\"");
    put_text(json, DIRECTORY[where]);
    put_text(json, "\",\"");
    put(json, key, key_length);
    put_text(json, "\",\"");
    put_text(json, kind);
    put_text(json, "\",");
    put_number(json, count, 0);
    put_text(json, ",");
}

/* Whether bytes are a text that can be printed but for ends of lines and tabs: 1, 0, or -1 with an exception. `characters` counts it. */
static int is_text(const unsigned char *octets, size_t length, size_t *characters)
{
    PyObject *text, *answer;
    struct out bare;
    int printable = 1, is_ascii = 1;

    *characters = 0;
    for (size_t at = 0, size; at < length; at += size) {
        uint32_t code = 0;

        size = character_of(octets + at, length - at, &code);
        if (size == 0 || code == 127 || (code < ' ' && code != '\n' && code != '\r' && code != '\t')) {
            return 0;
        }
        is_ascii = is_ascii && size == 1;
        *characters += 1;
    }
    if (is_ascii) {
        return 1;
    }
    begin(&bare);
    for (size_t at = 0; at < length; at++) {
        if (octets[at] >= ' ') {
            put(&bare, octets + at, 1);
        }
    }
    text = bare.failed ? PyErr_NoMemory() : PyUnicode_DecodeUTF8((const char *)bare.at, (Py_ssize_t)bare.length, NULL);
    answer = text == NULL ? NULL : PyObject_CallMethod(text, "isprintable", NULL);
    printable = answer == NULL ? -1 : PyObject_IsTrue(answer);
    Py_XDECREF(text);
    Py_XDECREF(answer);
    end(&bare);
    return printable;
}

/* Whether a field is a text by its type or its standard, of which more is kept (listing.py). */
static int is_of_text(int where, uint32_t tag, const char *kind)
{
    if (where == RECORD) {
        return (tag >> 8 == 1 || tag >> 8 == 2) && tag != 0x027D && tag != 0x02CA;
    }
    return strcmp(kind, "ASCII") == 0 || strcmp(kind, "UTF8") == 0 || tag == 0x9286 || (where == GPS && (tag == 0x1B || tag == 0x1C))
           || (where == MAIN && tag >= 0x9C9B && tag <= 0x9C9F);
}

/* The value of a field of bytes: a text, its hexadecimal digits, or of a long one a digest and how it begins. A picture is never kept. */
static int put_octets(struct form *form, const unsigned char *octets, size_t length, int is_of_text, int is_thumbnail)
{
    struct out *json = form->json;
    size_t characters = 0;
    int is_kept = !is_thumbnail, text = is_kept ? is_text(octets, length - (length > 0 && octets[length - 1] == 0), &characters) : 0;

    if (text < 0) {
        return FAILED;
    }
    if (length > 32) {
        is_kept = is_kept && (is_of_text ? length <= 65536 : length <= 1600 && text && characters <= 400);
    }
    if (!is_kept) {
        int done;

        put_text(json, "[\"");
        done = put_digest(json, form->sha256, octets, length, 32);
        put_text(json, "\",\"");
        put_hex(json, octets, is_thumbnail ? 0 : 8);
        put_text(json, "\"]]");
        return done;
    }
    if (text) {
        put_quoted(json, octets, length - (length > 0 && octets[length - 1] == 0));
    } else {
        put_text(json, "[\"");
        put_hex(json, octets, length);
        put_text(json, "\"]");
    }
    put_text(json, "]");
    return MADE;
}

static void put_one(struct out *out, const unsigned char *at, size_t size, char numbers)
{
    uint64_t number = number_at(at, size);
    int is_negative = (numbers == 's' || numbers == 'q') && at[0] >= 0x80;

    put_number(out, is_negative ? ((uint64_t)1 << (8 * size)) - number : number, is_negative);
}

/* Numbers as a listing has them, by which long ones are digested. */
static void put_listed(struct out *out, const struct kind *kind, const unsigned char *at, size_t count)
{
    int is_fraction = kind->numbers == 'r' || kind->numbers == 'q', is_float = kind == &KINDS[11] || kind == &KINDS[12];
    size_t size = is_fraction ? 4 : kind->size;

    for (size_t i = 0; i < count; i++, at += kind->size) {
        if (i > 0) {
            put(out, " ", 1);
        }
        if (is_float) {
            put_hex(out, at, size);
            continue;
        }
        put_one(out, at, size, kind->numbers);
        if (is_fraction) {
            put(out, "/", 1);
            put_one(out, at + 4, size, kind->numbers);
        }
    }
}

static int put_numbers(struct form *form, const struct kind *kind, const unsigned char *at, size_t count)
{
    int is_fraction = kind->numbers == 'r' || kind->numbers == 'q', done = MADE;
    size_t size = is_fraction ? 4 : kind->size, each = count * (is_fraction ? 2 : 1);
    struct out *json = form->json;

    if (count > 6) {
        struct out listed;

        begin(&listed);
        put_listed(&listed, kind, at, count);
        if (listed.length > 160) {
            put_text(json, "[\"");
            done = put_digest(json, form->sha256, listed.at, listed.length, 32);
            put_text(json, "\",\"");
            put(json, listed.at, 60);
            put_text(json, "\"]]");
        }
        json->failed = json->failed || listed.failed;
        each = listed.length > 160 ? 0 : each;
        end(&listed);
        if (each == 0) {
            return done;
        }
    }
    put_text(json, each == 1 ? "" : "[");
    for (size_t i = 0; i < each; i++, at += size) {
        put_text(json, i > 0 ? "," : "");
        put_one(json, at, size, kind->numbers);
    }
    put_text(json, each == 1 ? "]" : "]]");
    return done;
}

static int put_datasets(struct form *form, size_t at, size_t end_at)
{
    while (at < end_at) {
        const unsigned char *head = form->at + at;
        size_t size, before = 5;
        struct out key;
        int done;

        if (end_at - at < 5) {
            return LEFT;
        }
        size = (size_t)number_at(head + 3, 2);
        if (size >= 0x8000) {
            if (end_at - at < 9) {
                return LEFT;
            }
            size = (size_t)number_at(head + 5, 4);
            before = 9;
        }
        if (size > end_at - at - before) {
            return LEFT;
        }
        begin(&key);
        put_number(&key, head[1], 0);
        put_text(&key, ":");
        put_number(&key, head[2], 0);
        put_head(form, RECORD, (const char *)key.at, key.length, "octets", size);
        done = put_octets(form, head + before, size, is_of_text(RECORD, (uint32_t)number_at(head + 1, 2), ""), 0);
        if (done != MADE) {
            return done;
        }
        at += before + size;
    }
    return MADE;
}

/* Keeps where an entry leads that is no field, and returns 1; 0 of a field. */
static int is_no_field(struct form *form, int where, uint32_t tag, const struct kind *kind, size_t at, size_t count)
{
    uint32_t is_iim = 0;
    struct exifnorm_fault fault;

    if (where == THUMB && (tag == 0x0111 || tag == 0x0117 || tag == 0x0201 || tag == 0x0202)) {
        size_t part = (tag >= 0x0201 ? 2 : 0) + (tag == 0x0117 || tag == 0x0202);

        form->part[part].at = form->at + at;
        form->part[part].count = count;
        form->part[part].size = kind == &KINDS[3] || kind == &KINDS[4] ? kind->size : 8;
        return 1;
    }
    if ((where == MAIN && (tag == 0x8769 || tag == 0x8825)) || (where == EXIF_IFD && tag == 0xA005)) {
        form->place[tag == 0x8769 ? EXIF_IFD : tag == 0x8825 ? GPS : INTEROP] = count == 1 && kind->size == 4 ? (size_t)number_at(form->at + at, 4) : 1;
        return 1;
    }
    if (where != MAIN || tag != 0x83BB || kind != &KINDS[7] || count == 0 || form->at[at] != 0x1C
        || form->calls->check(form->at + at, count, &is_iim, &fault) != EXIFNORM_DONE || is_iim != EXIFNORM_IIM) {
        return 0;
    }
    form->record = at;
    form->record_end = at + count;
    return 1;
}

static int is_whole(int where, uint32_t tag, const struct kind *kind)
{
    int is_size = where == EXIF_IFD ? tag == 0xA002 || tag == 0xA003 : tag == 0x0100 || tag == 0x0101 || tag == 0x0116;

    return kind == &KINDS[4] && where != INTEROP && where != GPS && is_size;
}

static int put_entry(struct form *form, int where, size_t entry)
{
    static const struct kind utf8 = {"UTF8", 1, 0};
    uint32_t tag = (uint32_t)number_at(form->at + entry, 2), number = (uint32_t)number_at(form->at + entry + 2, 2);
    size_t count = (size_t)number_at(form->at + entry + 4, 4), begins, at = entry + 8;
    const struct kind *kind = number == 129 ? &utf8 : number < sizeof KINDS / sizeof KINDS[0] ? &KINDS[number] : &KINDS[0];
    unsigned char two[2];
    struct out key;
    int done;

    if (kind->name == NULL || count > form->length / kind->size) {
        return LEFT;
    }
    if (count * kind->size > 4) {
        at = (size_t)number_at(form->at + entry + 8, 4);
    }
    if (at > form->length || count * kind->size > form->length - at) {
        return LEFT;
    }
    if (is_no_field(form, where, tag, kind, at, count)) {
        return MADE;
    }
    two[0] = form->at[entry];
    two[1] = form->at[entry + 1];
    begin(&key);
    put_hex(&key, two, 2);
    begins = form->json->length;
    put_head(form, where, (const char *)key.at, key.length, is_whole(where, tag, kind) ? "WHOLE" : kind->name, count);
    done = kind->numbers ? put_numbers(form, kind, form->at + at, count)
                         : put_octets(form, form->at + at, count, is_of_text(where, tag, kind->name), 0);
    if (where == EXIF_IFD && tag == 0x927C) {
        form->note = begins;
        form->note_end = form->json->length;
    }
    return done;
}

static int put_table(struct form *form, int where)
{
    size_t at = form->place[where], entries, behind;
    int done = MADE;

    if (at < 8 || at > form->length || form->length - at < 6) {
        return LEFT;
    }
    entries = (size_t)number_at(form->at + at, 2);
    if (form->length - at - 6 < 12 * entries) {
        return LEFT;
    }
    behind = at + 2 + 12 * entries;
    for (at += 2; at < behind && done == MADE; at += 12) {
        done = put_entry(form, where, at);
    }
    if (where == MAIN) {
        form->place[THUMB] = (size_t)number_at(form->at + behind, 4);
    }
    return done;
}

/* The thumbnail's JPEG and its strips. */
static int put_pictures(struct form *form)
{
    int done = MADE;

    for (int part = 2; part >= 0 && done == MADE; part -= 2) {
        size_t count = form->part[part].count < form->part[part + 1].count ? form->part[part].count : form->part[part + 1].count;

        if ((form->part[part].at == NULL) != (form->part[part + 1].at == NULL) || form->part[part].size + form->part[part + 1].size > 8) {
            return LEFT;
        }
        for (size_t i = 0; i < count && done == MADE; i++) {
            size_t start = (size_t)number_at(form->part[part].at + i * form->part[part].size, form->part[part].size);
            size_t size = (size_t)number_at(form->part[part + 1].at + i * form->part[part + 1].size, form->part[part + 1].size);

            if (start > form->length || size > form->length - start) {
                return LEFT;
            }
            put_head(form, THUMB, part == 2 ? "jpeg" : "strip", part == 2 ? 4 : 5, "octets", size);
            done = put_octets(form, form->at + start, size, 0, 1);
        }
    }
    return done;
}

static int put_fields(struct form *form)
{
    static const int order[] = {EXIF_IFD, INTEROP, GPS, THUMB};
    int done;

    put_text(form->json, "[");
    if (form->length > 0 && form->at[0] == 0x1C) {
        done = put_datasets(form, 0, form->length);
    } else {
        form->place[MAIN] = 8;
        done = put_table(form, MAIN);
        done = done == MADE ? put_datasets(form, form->record, form->record_end) : done;
        for (size_t i = 0; i < 4 && done == MADE; i++) {
            done = form->place[order[i]] == 0 ? MADE : put_table(form, order[i]);
        }
        done = done == MADE ? put_pictures(form) : done;
    }
    put_text(form->json, "]");
    return done;
}

/* Puts the fields of a form of a block as packing.py packs them, and tells where the MakerNote is in these. LEFT if Python has to pack it. */
static int put_form(const struct calls *calls, PyObject *sha256, const unsigned char *octets, size_t length, struct out *json, size_t note[2])
{
    struct form form = {NULL, NULL, NULL, 0, NULL, {0}, 0, 0, 0, 0, {{NULL, 0, 0}}};
    int done;

    form.calls = calls;
    form.sha256 = sha256;
    form.at = octets;
    form.length = length;
    form.json = json;
    done = length > LONGEST ? LEFT : put_fields(&form);
    note[0] = form.note;
    note[1] = form.note_end;
    if (done != FAILED && json->failed) {
        PyErr_NoMemory();
        return FAILED;
    }
    return done;
}

/* The fields of a form, and where the MakerNote is in these; None if Python has to pack it. */
static PyObject *packed(PyObject *capsule, PyObject *arguments)
{
    const struct calls *calls = PyCapsule_GetPointer(capsule, NULL);
    PyObject *object, *sha256, *made = NULL;
    size_t note[2];
    struct bytes bytes;
    struct out json;
    int done;

    if (calls == NULL || !PyArg_UnpackTuple(arguments, "packed", 2, 2, &object, &sha256) || get_bytes(object, &bytes) < 0) {
        return NULL;
    }
    begin(&json);
    done = put_form(calls, sha256, bytes.start, bytes.length, &json, note);
    if (done == LEFT) {
        made = Py_BuildValue("");
    } else if (done == MADE) {
        made = Py_BuildValue("(y#nn)", (const char *)json.at, (Py_ssize_t)json.length, (Py_ssize_t)note[0], (Py_ssize_t)note[1]);
    }
    end(&json);
    return made;
}

/* ---- the properties of XMP */

#define RDF "http://www.w3.org/1999/02/22-rdf-syntax-ns#"
#define FORM_HEAD \
    "<x:xmpmeta xmlns:x=\"adobe:ns:meta/\"><rdf:RDF xmlns:rdf=\"" RDF "\"><rdf:Description rdf:about=\"\">"
#define FORM_TAIL "</rdf:Description></rdf:RDF></x:xmpmeta>"
#define EXTENDED "http://ns.adobe.com/xmp/note/HasExtendedXMP"
#define SHORT 4096 /* bytes of a property whose value is kept whole, whatever characters it has */

/* Octets of an output, which moves while it grows. */
struct span {
    size_t start, length, word; /* of a statement the bytes of its name, which no other one beside it has; 0: any may */
    const unsigned char *at;    /* once it doesn't move */
};

/* The form of a packet, while its properties are packed. */
struct packet {
    PyObject *sha256, *short_name, *line_of;
    const unsigned char *at, *end;
    struct out lines, spans; /* statements as they are digested, and where each one is */
    struct out sorted;       /* the same in their order */
    struct out value;        /* of a property */
    struct out fields, names, properties; /* the fields, and two spans for each: its short name and itself */
    const char *word;        /* the form of a property's value */
    size_t members, texts;
    int is_left;             /* whether Python packs the property */
};

static int skip(struct packet *packet, const char *text)
{
    size_t length = strlen(text);

    if ((size_t)(packet->end - packet->at) < length || memcmp(packet->at, text, length) != 0) {
        return 0;
    }
    packet->at += length;
    return 1;
}

/* What is before a character, which is skipped with it; 0 if there is no such character. */
static int until(struct packet *packet, char last, struct bytes *found)
{
    const unsigned char *at = memchr(packet->at, last, (size_t)(packet->end - packet->at));

    if (at == NULL) {
        return 0;
    }
    found->start = packet->at;
    found->length = (size_t)(at - packet->at);
    packet->at = at + 1;
    return 1;
}

/* A text without its references, as a part of a statement and as JSON. */
static int put_decoded(struct packet *packet, const struct bytes *text)
{
    static const char *const references[] = {"&lt;", "&gt;", "&amp;", "&#13;"};
    const unsigned char *at = text->start, *last = at + text->length, *next;
    size_t start = packet->lines.length;

    while ((next = memchr(at, '&', (size_t)(last - at))) != NULL) {
        size_t i = 0;

        while (i < 4 && ((size_t)(last - next) < strlen(references[i]) || memcmp(next, references[i], strlen(references[i])) != 0)) {
            i++;
        }
        put(&packet->lines, at, (size_t)(next - at));
        put(&packet->lines, i < 4 ? &"<>&\r"[i] : "&", 1);
        at = next + (i < 4 ? strlen(references[i]) : 1);
    }
    put(&packet->lines, at, (size_t)(last - at));
    return packet->lines.failed ? MADE : put_quoted(&packet->value, packet->lines.at + start, packet->lines.length - start);
}

static int by_octets(const void *one, const void *other)
{
    const struct span *first = one, *second = other;
    int order = memcmp(first->at, second->at, first->length < second->length ? first->length : second->length);

    return order != 0 ? order : (first->length > second->length) - (first->length < second->length);
}

static void put_span(struct out *spans, size_t start, size_t end_at, size_t word)
{
    struct span span;

    span.start = start;
    span.length = end_at - start;
    span.word = word;
    span.at = NULL;
    put(spans, &span, sizeof span);
}

/* The spans from a number on, sorted by their octets; NULL if memory is missing. */
static struct span *sorted(struct out *spans, size_t from, size_t step, const struct out *octets)
{
    struct span *first = (struct span *)(void *)spans->at + from;
    size_t count = spans->length / sizeof *first - from;

    if (spans->failed || octets->failed) {
        return NULL;
    }
    for (size_t i = 0; i < count; i += step) {
        first[i].at = octets->at + first[i].start;
    }
    qsort(first, count / step, step * sizeof *first, by_octets);
    return first;
}

/* The digest of the statements from a number on, in place of their lines. */
static int put_digest_of_lines(struct packet *packet, size_t from, size_t start)
{
    struct span *spans = sorted(&packet->spans, from, 1, &packet->lines);
    size_t count = packet->spans.length / sizeof *spans - from;
    int done = MADE;

    packet->sorted.length = 0;
    for (size_t i = 0; spans != NULL && i < count; i++) {
        if (i > 0 && spans[i].word > 0 && spans[i].word == spans[i - 1].word && memcmp(spans[i].at, spans[i - 1].at, spans[i].word) == 0) {
            return LEFT;
        }
        put_number(&packet->sorted, spans[i].length, 0);
        put_text(&packet->sorted, ":");
        put(&packet->sorted, spans[i].at, spans[i].length);
    }
    packet->spans.length = from * sizeof *spans;
    packet->lines.length = start;
    if (spans != NULL && !packet->sorted.failed) {
        done = put_digest(&packet->lines, packet->sha256, packet->sorted.at, packet->sorted.length, DIGITS);
    }
    return done;
}

static int put_value(struct packet *packet, unsigned depth);

/* A property as a statement, of which the value has its JSON in `value`. */
static int put_property(struct packet *packet, unsigned depth, struct bytes *space, struct bytes *name)
{
    size_t start = packet->lines.length, word;
    int done;

    if (!skip(packet, "<p:") || !until(packet, ' ', name) || !skip(packet, "xmlns:p=\"") || !until(packet, '"', space) || name->length == 0
        || memchr(space->start, '&', space->length) != NULL) {
        return LEFT;
    }
    if (space->length == sizeof RDF - 1 && memcmp(space->start, RDF, sizeof RDF - 1) == 0
        && (name->start[0] == '_' || (name->length == 4 && memcmp(name->start, "type", 4) == 0))) {
        return LEFT;
    }
    put_number(&packet->lines, space->length + name->length, 0);
    put_text(&packet->lines, ":");
    put(&packet->lines, space->start, space->length);
    put(&packet->lines, name->start, name->length);
    word = packet->lines.length - start;
    done = put_value(packet, depth);
    put_span(&packet->spans, start, packet->lines.length, word);
    return done;
}

static size_t digits_of(size_t number)
{
    size_t digits = 1;

    while (number >= 10) {
        number /= 10;
        digits++;
    }
    return digits;
}

/* The members of a container as statements, after that of its type. They are nested, so nothing large is on the stack. */
static int put_members(struct packet *packet, unsigned depth, const char *kind)
{
    size_t start = packet->lines.length, count = 0;
    int done = MADE;

    put_text(&packet->lines, "47:" RDF "type<" RDF);
    put_text(&packet->lines, kind);
    put_span(&packet->spans, start, packet->lines.length, 0);
    while (done == MADE && skip(packet, "<rdf:li")) {
        start = packet->lines.length;
        count++;
        if (kind[0] == 'B') {
            put_text(&packet->lines, "6:member");
        } else {
            put_number(&packet->lines, strlen(RDF "_") + digits_of(count), 0);
            put_text(&packet->lines, ":" RDF "_");
            put_number(&packet->lines, count, 0);
        }
        put_text(&packet->value, count > 1 ? "," : "");
        done = put_value(packet, depth);
        put_span(&packet->spans, start, packet->lines.length, 0);
    }
    packet->members = count;
    return done == MADE && !(skip(packet, "</rdf:") && skip(packet, kind) && skip(packet, ">")) ? LEFT : done;
}

/* A structure, or a container of a kind. Python packs those that are inside of others. */
static int put_node(struct packet *packet, unsigned depth, const char *kind)
{
    size_t from = packet->spans.length / sizeof(struct span), start;
    struct bytes space, name;
    int done = MADE;

    if (depth >= DEEPEST) {
        return LEFT;
    }
    put_text(&packet->lines, "_");
    start = packet->lines.length;
    if (kind != NULL) {
        put_text(&packet->value, "{\"");
        put_text(&packet->value, kind);
        put_text(&packet->value, "\":[");
        packet->texts = 0;
        done = put_members(packet, depth + 1, kind);
        put_text(&packet->value, "]}");
    }
    while (kind == NULL && done == MADE && packet->end - packet->at > 1 && packet->at[1] == 'p') {
        done = put_property(packet, depth + 1, &space, &name);
    }
    packet->is_left = packet->is_left || depth > 0 || kind == NULL || (kind[0] == 'A' && packet->texts == 0 && packet->members > 0);
    packet->word = kind;
    if (done == MADE && !(skip(packet, "</") && until(packet, '>', &name))) {
        return LEFT;
    }
    return done == MADE ? put_digest_of_lines(packet, from, start) : done;
}

static int put_value(struct packet *packet, unsigned depth)
{
    static const char *const opened[] = {"<rdf:Bag>", "<rdf:Seq>", "<rdf:Alt>"}, *const kinds[] = {"Bag", "Seq", "Alt"};
    struct bytes text, language = {NULL, 0};
    int done;

    if (depth == 0) {
        packet->members = 1;
    }
    if (skip(packet, " rdf:resource=\"")) {
        packet->word = depth == 0 ? "URI" : packet->word;
        put_text(&packet->lines, "<");
        put_text(&packet->value, "{\"uri\":");
        done = until(packet, '"', &text) && skip(packet, "/>") ? put_decoded(packet, &text) : LEFT;
        put_text(&packet->value, "}");
        return done;
    }
    if (skip(packet, " rdf:parseType=\"Resource\">")) {
        return put_node(packet, depth, NULL);
    }
    if ((skip(packet, " xml:lang=\"") && !until(packet, '"', &language)) || !skip(packet, ">")) {
        return LEFT;
    }
    for (size_t i = 0; i < 3; i++) {
        if (skip(packet, opened[i])) {
            return put_node(packet, depth, kinds[i]);
        }
    }
    packet->word = depth == 0 ? "text" : packet->word;
    packet->texts += 1;
    put_text(&packet->lines, "\"");
    put_number(&packet->lines, language.length, 0);
    put_text(&packet->lines, ":");
    put(&packet->lines, language.start == NULL ? (const unsigned char *)"" : language.start, language.length);
    put_text(&packet->lines, "0:");
    put_text(&packet->value, language.length > 0 ? "[" : "");
    done = until(packet, '<', &text) ? put_decoded(packet, &text) : LEFT;
    if (language.length > 0 && done == MADE) {
        put_text(&packet->value, ",");
        done = put_quoted(&packet->value, language.start, language.length);
        put_text(&packet->value, "]");
    }
    return done == MADE && !(skip(packet, "/") && until(packet, '>', &text)) ? LEFT : done;
}

/* Puts what a function of Python makes of some octets: a text or bytes. */
static int put_answer(struct out *out, PyObject *function, const char *format, const void *octets, size_t length)
{
    PyObject *made = PyObject_CallFunction(function, format, (const char *)octets, (Py_ssize_t)length);
    PyObject *text = made == NULL || PyBytes_CheckExact(made) ? NULL : PyUnicode_AsUTF8String(made);
    struct bytes bytes = {NULL, 0};
    int done = made != NULL && (text != NULL || PyBytes_CheckExact(made)) && get_bytes(text == NULL ? made : text, &bytes) == 0 ? MADE : FAILED;

    if (done == MADE) {
        put(out, bytes.start, bytes.length);
    }
    Py_XDECREF(made);
    Py_XDECREF(text);
    return done;
}

/* One property of the packet as a field. */
static int put_xmp_field(struct packet *packet)
{
    const unsigned char *begins = packet->at;
    size_t name_at = packet->names.length, start = packet->fields.length, uri = packet->lines.length, length;
    struct bytes space, name;
    int done;

    packet->value.length = packet->texts = 0;
    packet->is_left = 0;
    done = put_property(packet, 0, &space, &name);
    if (done != MADE) {
        return done;
    }
    uri = packet->lines.length;
    put(&packet->lines, space.start, space.length);
    put(&packet->lines, name.start, name.length);
    length = packet->lines.length - uri;
    packet->lines.length = uri;
    if (packet->lines.failed || (length == sizeof EXTENDED - 1 && memcmp(packet->lines.at + uri, EXTENDED, length) == 0)) {
        return LEFT;
    }
    done = put_answer(&packet->names, packet->short_name, "s#", packet->lines.at + uri, length);
    put_span(&packet->properties, name_at, packet->names.length, 0);
    if (done == MADE && (packet->is_left || (size_t)(packet->at - begins) > SHORT)) {
        done = put_answer(&packet->fields, packet->line_of, "y#", begins, (size_t)(packet->at - begins));
    } else if (done == MADE && !packet->names.failed) {
        put_text(&packet->fields, "[\"xmp\",");
        done = put_quoted(&packet->fields, packet->names.at + name_at, packet->names.length - name_at);
        put_text(&packet->fields, ",\"");
        put_text(&packet->fields, packet->word);
        put_text(&packet->fields, "\",");
        put_number(&packet->fields, packet->members, 0);
        put_text(&packet->fields, ",[");
        put(&packet->fields, packet->value.at, packet->value.length);
        put_text(&packet->fields, "]]");
    }
    put_span(&packet->properties, start, packet->fields.length, 0);
    return done;
}

/* The digest of the statements at the beginning of `lines`, and the fields by their short names at the beginning of `sorted`. */
static int put_packet(struct packet *packet)
{
    struct span *spans;
    size_t count;
    int done = skip(packet, FORM_HEAD) ? MADE : LEFT;

    while (done == MADE && packet->end - packet->at > 1 && packet->at[1] == 'p') {
        done = put_xmp_field(packet);
    }
    if (done != MADE || !skip(packet, FORM_TAIL) || packet->at != packet->end) {
        return done == MADE ? LEFT : done;
    }
    done = put_digest_of_lines(packet, 0, 0);
    spans = sorted(&packet->properties, 0, 2, &packet->names);
    count = spans == NULL ? 0 : packet->properties.length / sizeof *spans;
    packet->sorted.length = 0;
    put_text(&packet->sorted, "[");
    for (size_t i = 0; i < count; i += 2) {
        if (i > 0 && spans[i].length == spans[i - 2].length && memcmp(spans[i].at, spans[i - 2].at, spans[i].length) == 0) {
            return LEFT;
        }
        put_text(&packet->sorted, i > 0 ? "," : "");
        put(&packet->sorted, packet->fields.at + spans[i + 1].start, spans[i + 1].length);
    }
    put_text(&packet->sorted, "]");
    return done;
}

static void begin_packet(struct packet *packet)
{
    begin(&packet->lines);
    begin(&packet->spans);
    begin(&packet->sorted);
    begin(&packet->value);
    begin(&packet->fields);
    begin(&packet->names);
    begin(&packet->properties);
}

static void end_packet(struct packet *packet)
{
    end(&packet->lines);
    end(&packet->spans);
    end(&packet->sorted);
    end(&packet->value);
    end(&packet->fields);
    end(&packet->names);
    end(&packet->properties);
}

/* The form of a block or a packet, in a room of ROOM bytes or in memory that is allocated; LEFT if it has none. */
static int get_form(text_call call, const struct bytes *bytes, unsigned char *room, struct bytes *form)
{
    struct exifnorm_fault fault = {0, 0};
    unsigned char *at = room;
    size_t written = 0;
    uint32_t status = call(bytes->start, bytes->length, at, ROOM, &written, &fault);

    if (status == EXIFNORM_TOO_LITTLE_ROOM && written > ROOM) {
        size_t longer = written;

        at = PyMem_Malloc(longer);
        if (at == NULL) {
            PyErr_NoMemory();
            return FAILED;
        }
        status = call(bytes->start, bytes->length, at, longer, &written, &fault);
    }
    form->start = at;
    form->length = written;
    if (status != EXIFNORM_DONE && at != room) {
        PyMem_Free(at);
    }
    return status == EXIFNORM_DONE ? MADE : LEFT;
}

static void end_form(const struct bytes *form, const unsigned char *room)
{
    if (form->start != room) {
        PyMem_Free((void *)(uintptr_t)form->start);
    }
}

/* Puts the digest of the statements of a packet at the beginning of `lines`, and its fields as packing.py packs them into `sorted`. LEFT if
 * Python has to read it. */
static int read_packet(const struct calls *calls, const struct bytes *bytes, struct packet *packet)
{
    unsigned char room[ROOM];
    struct bytes form;
    int done = calls->xmp_unsorted == NULL ? LEFT : get_form(calls->xmp_unsorted, bytes, room, &form);

    if (done != MADE) {
        return done;
    }
    packet->at = form.start;
    packet->end = form.start + form.length;
    done = put_packet(packet);
    end_form(&form, room);
    if (done != FAILED
        && (packet->lines.failed || packet->spans.failed || packet->sorted.failed || packet->value.failed || packet->fields.failed
            || packet->names.failed || packet->properties.failed)) {
        PyErr_NoMemory();
        return FAILED;
    }
    return done;
}

/* The digest of the statements of a packet, and its fields; None if Python has to read it. */
static PyObject *xmp_packed(PyObject *capsule, PyObject *arguments)
{
    const struct calls *calls = PyCapsule_GetPointer(capsule, NULL);
    PyObject *object, *made = NULL;
    struct packet packet;
    struct bytes bytes;
    int done;

    if (calls == NULL || !PyArg_UnpackTuple(arguments, "xmp_packed", 4, 4, &object, &packet.sha256, &packet.short_name, &packet.line_of)
        || get_bytes(object, &bytes) < 0) {
        return NULL;
    }
    begin_packet(&packet);
    done = read_packet(calls, &bytes, &packet);
    if (done == LEFT) {
        made = Py_BuildValue("");
    } else if (done == MADE) {
        made = Py_BuildValue("(s#y#)", (const char *)packet.lines.at, (Py_ssize_t)DIGITS, (const char *)packet.sorted.at,
                             (Py_ssize_t)packet.sorted.length);
    }
    end_packet(&packet);
    return made;
}

/* ---- what the blocks of a picture mean */

/* What Python gives to judge blocks, borrowed: SHA-256, the short name of a property, the field of a property, and the tags behind which bytes may
 * be that no field has, two bytes each. */
struct judging {
    PyObject *sha256, *short_name, *line_of;
    struct bytes tags;
};

/* A block as judge.py judges it. */
struct judged {
    unsigned char digests[2 * DIGITS]; /* of its bytes, and of what they mean */
    size_t note[2];                    /* where the MakerNote is in the fields */
};

static int has_tag(const struct bytes *block, const struct bytes *tags)
{
    size_t first = block->start[0] == 'I';

    for (size_t i = 0; i + 1 < tags->length; i += 2) {
        const unsigned char *at = block->start, *last = block->start + block->length - 1;

        while ((at = memchr(at, tags->start[i + first], (size_t)(last - at))) != NULL) {
            if (at[1] == tags->start[i + 1 - first]) {
                return 1;
            }
            at++;
        }
    }
    return 0;
}

/* Judges a block of Exif or IPTC, whose fields are added to `fields`. */
static int judge_block(const struct calls *calls, const struct judging *judging, const struct bytes *block, int is_record, struct out *fields,
                       struct judged *judged)
{
    unsigned char room[ROOM];
    struct out digests, json;
    struct bytes form;
    int done;

    /* one that isn't of its place, or says nothing */
    if (block->length == 0 || (block->start[0] == 0x1C) != is_record) {
        return LEFT;
    }
    if (!is_record && (block->length < 10 || (block->start[8] == 0 && block->start[9] == 0))) {
        return LEFT;
    }
    done = get_form(calls->normalise, block, room, &form);
    if (done != MADE) {
        return done;
    }
    begin(&digests);
    begin(&json);
    done = put_digest(&digests, judging->sha256, block->start, block->length, DIGITS);
    if (done == MADE && form.length == block->length && memcmp(form.start, block->start, form.length) == 0) {
        put(&digests, digests.at, DIGITS);
    } else if (done == MADE) {
        done = put_digest(&digests, judging->sha256, form.start, form.length, DIGITS);
    }
    if (done == MADE) {
        done = put_form(calls, judging->sha256, form.start, form.length, &json, judged->note);
    }
    if (done == MADE) {
        memcpy(judged->digests, digests.at, sizeof judged->digests);
        put(fields, json.at, json.length);
    }
    end(&json);
    end(&digests);
    end_form(&form, room);
    return done;
}

/* The same of a packet. */
static int judge_packet(const struct calls *calls, const struct judging *judging, const struct bytes *block, struct out *fields,
                        struct judged *judged)
{
    struct packet packet;
    struct out digest;
    int done;

    packet.sha256 = judging->sha256;
    packet.short_name = judging->short_name;
    packet.line_of = judging->line_of;
    begin_packet(&packet);
    begin(&digest);
    done = read_packet(calls, block, &packet);
    if (done == MADE) {
        done = put_digest(&digest, judging->sha256, block->start, block->length, DIGITS);
    }
    if (done == MADE) {
        memcpy(judged->digests, digest.at, DIGITS);
        memcpy(judged->digests + DIGITS, packet.lines.at, DIGITS);
        put(fields, packet.sorted.at, packet.sorted.length);
    }
    end(&digest);
    end_packet(&packet);
    return done;
}

/* ---- the head of a JPEG */

#define RESOURCE 0x10000 /* and the number of one of Photoshop's resources: a rest that is no segment */

/* Which of these a segment begins like, which are tuples that begin with a marker and octets. LEFT if it is none, FAILED with an exception. */
static int find_mark(PyObject *marks, uint32_t marker, const unsigned char *data, size_t size, uint64_t *which)
{
    for (Py_ssize_t i = 0; i < PyTuple_Size(marks); i++) {
        PyObject *mark = PyTuple_GetItem(marks, i), *octets = PyTuple_GetItem(mark, 1);
        long number = octets == NULL ? -1 : PyLong_AsLong(PyTuple_GetItem(mark, 0));
        struct bytes bytes = {NULL, 0};

        if (number == -1 || get_bytes(octets, &bytes) < 0) {
            return FAILED;
        }
        if (number == (long)marker && size >= bytes.length && memcmp(data, bytes.start, bytes.length) == 0) {
            *which = (uint64_t)i;
            return MADE;
        }
    }
    return LEFT;
}

static void put_word(struct out *out, uint64_t word)
{
    put(out, &word, sizeof word);
}

/* Puts what a part is, where it begins, and its length. */
static void put_rest(struct out *rests, uint64_t what, size_t at, size_t length)
{
    put_word(rests, what);
    put_word(rests, at);
    put_word(rests, length);
}

/* The data of IPTC in Photoshop's resources, of which the others are rests by their numbers. LEFT if these have more than one, or something else
 * that is looked at. */
static int find_record(const struct calls *calls, const struct bytes *bytes, const struct bytes *run, struct bytes *record, struct bytes *sum,
                       struct out *rests)
{
    const unsigned char *data = run->start;
    size_t size = run->length;
    struct exifnorm_photoshop_resource rows[FEW];
    size_t count = 0, after = 0;

    if (calls->photoshop_resources(data, size, rows, FEW, &count) != EXIFNORM_DONE || count > FEW) {
        return LEFT;
    }
    for (size_t i = 0; i < count; i++) {
        struct bytes *found = rows[i].number == 0x0404 ? record : rows[i].number == 0x0425 ? sum : NULL;

        if ((found == NULL && rows[i].number >= 0x0422 && rows[i].number <= 0x0424) || (found != NULL && found->start != NULL)
            || rows[i].start > size || rows[i].size > size - rows[i].start) {
            return LEFT;
        }
        if (found != NULL) {
            found->start = data + rows[i].start;
            found->length = rows[i].size;
        } else {
            put_rest(rests, RESOURCE + rows[i].number, (size_t)(data - bytes->start) + rows[i].start, rows[i].size);
        }
        after = rows[i].start + rows[i].size + rows[i].size % 2;
    }
    for (; after < size; after++) {
        if (data[after] != 0) {
            return LEFT;
        }
    }
    return MADE;
}

/* Whether only picture data follow up to the end mark, which is the last one of `size` bytes. */
static int is_scan(const struct bytes *bytes, size_t at, size_t size)
{
    while (size == bytes->length && at + 1 < size) {
        const unsigned char *next = memchr(bytes->start + at, 0xFF, size - 1 - at);

        if (next == NULL) {
            return 0;
        }
        at = (size_t)(next - bytes->start) + 1;
        if ((bytes->start[at] >= 0x01 && bytes->start[at] <= 0xCF) || (bytes->start[at] >= 0xD8 && bytes->start[at] <= 0xFE)) {
            return bytes->start[at] == 0xD9 && at + 1 == size;
        }
    }
    return 0;
}

/* Finds the blocks of a JPEG by the numbers of their kinds, where the picture data begin, and the rests that `without` has. LEFT of one with
 * anything that is rare; FAILED with an exception. */
static int find_blocks(const struct calls *calls, const struct bytes *bytes, PyObject *without, struct bytes *found, size_t *at, size_t *after,
                       struct out *rests)
{
    static const size_t marks[] = {0, 6, 14, 29};
    struct exifnorm_jpeg_part parts[FEW];
    struct exifnorm_jpeg_fault fault = {0, 0};
    size_t count = 0;

    if (calls->jpeg_parts(bytes->start, bytes->length, parts, FEW, &count, &fault) != EXIFNORM_DONE || count == 0 || count > FEW
        || parts[count - 1].marker != 0xDA) {
        return LEFT;
    }
    for (size_t i = 0; i < count; i++) {
        const unsigned char *data = bytes->start + parts[i].start;
        uint32_t kind = parts[i].kind, marker = parts[i].marker;

        if (parts[i].start > bytes->length || parts[i].size > bytes->length - parts[i].start) {
            return LEFT;
        }
        if (kind == EXIFNORM_JPEG_OTHER && (marker < 0xE0 || marker > 0xEF) && marker != 0xFE) {
            continue;
        }
        if (kind == EXIFNORM_JPEG_OTHER) {
            uint64_t which = 0;
            int done = find_mark(without, marker, data, parts[i].size, &which);

            if (done != MADE) {
                return done;
            }
            put_rest(rests, which, parts[i].start, parts[i].size);
            continue;
        }
        if (kind < EXIFNORM_JPEG_EXIF || kind > EXIFNORM_JPEG_XMP || !parts[i].begins || found[kind].start != NULL) {
            return LEFT;
        }
        found[kind].start = data;
        found[kind].length = parts[i].size;
        at[kind] = parts[i].start - 4 - marks[kind];
    }
    *after = parts[count - 1].start + parts[count - 1].size;
    return MADE;
}

#define KINDS_OF_BLOCKS 3 /* XMP, Exif and IPTC, in this order */

/* What is known of the head of a JPEG. */
struct head {
    struct bytes bytes, block[KINDS_OF_BLOCKS];
    size_t at[KINDS_OF_BLOCKS]; /* of the segments */
    size_t after;               /* the header of the first scan */
    struct out rests;
};

/* LEFT of a JPEG with more than one block of a kind, one in several pieces, or anything that is rare. */
static int read_usual(const struct calls *calls, PyObject *without, struct head *head)
{
    struct bytes found[4] = {{NULL, 0}, {NULL, 0}, {NULL, 0}, {NULL, 0}}, record = {NULL, 0}, sum = {NULL, 0};
    size_t at[4] = {0, 0, 0, 0};
    int done = find_blocks(calls, &head->bytes, without, found, at, &head->after, &head->rests);

    if (done == MADE && found[EXIFNORM_JPEG_PHOTOSHOP].start != NULL) {
        done = find_record(calls, &head->bytes, &found[EXIFNORM_JPEG_PHOTOSHOP], &record, &sum, &head->rests);
    }
    head->block[0] = found[EXIFNORM_JPEG_XMP];
    head->at[0] = at[EXIFNORM_JPEG_XMP];
    head->block[1] = found[EXIFNORM_JPEG_EXIF];
    head->at[1] = at[EXIFNORM_JPEG_EXIF];
    if (record.length > 0) {
        head->block[2] = record;
    }
    head->at[2] = at[EXIFNORM_JPEG_PHOTOSHOP];
    return done;
}

/* ---- the record of a usual JPEG */

#define FIRST_BYTES 65536 /* of a file that are read at once: the head of nearly every picture */
#define LAST_BYTES 65536  /* of a long one by which its end is known, as jpeg_tail.py has it */
#define MARKS 5           /* of a file */

/* A file: its number, or -1 if it isn't open, and its first bytes. */
struct file {
    const char *path;
    int64_t marks[MARKS];
    int number;
    unsigned char *first;
    size_t length; /* of the first bytes */
};

#if defined(SYS_newfstatat) && defined(SYS_fstat) /* as on machines of 64 bits */
/* Whether the marks of a file are those that it had, in the order of a stamp: signed numbers of 64 bits, as records.py makes them of larger ones. */
static int has_marks(const struct stat *now, const int64_t *marks)
{
    const uint64_t second = 1000000000;

    return marks[0] == (int64_t)now->st_size
           && marks[1] == (int64_t)((uint64_t)now->st_mtim.tv_sec * second + (uint64_t)now->st_mtim.tv_nsec)
           && marks[2] == (int64_t)((uint64_t)now->st_ctim.tv_sec * second + (uint64_t)now->st_ctim.tv_nsec)
           && marks[3] == (int64_t)now->st_ino && marks[4] == (int64_t)now->st_dev;
}

/* By the system's own calls: those of glibc are younger than its other functions here. */
static int marks_of(const char *path, struct stat *now)
{
    return (int)syscall(SYS_newfstatat, AT_FDCWD, path, now, 0);
}

static int marks_of_open(int number, struct stat *now)
{
    return (int)syscall(SYS_fstat, number, now);
}

/* Opens a regular file and reads its first bytes. LEFT of any other file, and of one that isn't as it was. A pipe that gets its name isn't waited
 * for. */
static int open_file(struct file *file)
{
    struct stat now;

    if (marks_of(file->path, &now) != 0 || !S_ISREG(now.st_mode)) {
        return LEFT;
    }
    file->number = open(file->path, O_RDONLY | O_NONBLOCK | O_NOCTTY | O_CLOEXEC);
    if (file->number < 0 || marks_of_open(file->number, &now) != 0 || !has_marks(&now, file->marks) || now.st_size <= 0) {
        return LEFT;
    }
    file->length = now.st_size < FIRST_BYTES ? (size_t)now.st_size : FIRST_BYTES;
    file->first = malloc(file->length);
    return file->first != NULL && pread(file->number, file->first, file->length, 0) == (ssize_t)file->length ? MADE : LEFT;
}

/* Whether the last bytes of a long file, which begin after its head, are picture data and the end mark. */
static int has_scan_at_end(const struct file *file, size_t after, size_t size)
{
    struct bytes last = {NULL, LAST_BYTES + 1}; /* with the one before them */
    unsigned char *read = size > after && size - after > LAST_BYTES ? malloc(last.length) : NULL;
    int is_there = 0;

    if (read != NULL && pread(file->number, read, last.length, (off_t)(size - last.length)) == (ssize_t)last.length) {
        last.start = read;
        is_there = is_scan(&last, read[0] != 0xFF, last.length);
    }
    free(read);
    return is_there;
}

static int is_as_before(const struct file *file)
{
    struct stat now;

    return marks_of(file->path, &now) == 0 && has_marks(&now, file->marks);
}

static void close_file(const struct file *file)
{
    if (file->number >= 0) {
        close(file->number);
    }
}
#else
static int open_file(struct file *file)
{
    (void)file;
    return LEFT;
}

static int has_scan_at_end(const struct file *file, size_t after, size_t size)
{
    (void)file;
    (void)after;
    (void)size;
    return 0;
}

static int is_as_before(const struct file *file)
{
    (void)file;
    return 0;
}

static void close_file(const struct file *file)
{
    (void)file;
}
#endif

#define PLACES 17  /* of a picture's record: path, root, marks, digests by kind, those of octets, the rest, the blocks, and two about notes */
#define OF_BLOCK 7 /* of a block's: its position, digest, length, the digest of its octets, its fields, and two about notes */
#define OF_NOTES 4 /* both together */

/* What Python gives to make a record of a kind: a function of a tuple, what is the same in all of them, and where the others belong. */
struct making {
    PyObject *make, *common, *places;
};

/* A record with some values, whose references are taken; NULL stands for a value that is as in all records. */
static PyObject *record_of(const struct making *making, PyObject **values, Py_ssize_t count)
{
    Py_ssize_t size = PyTuple_Size(making->common);
    PyObject *made = size < 0 || PyTuple_Size(making->places) != count ? NULL : PyTuple_New(size), *record = NULL;
    int done = made == NULL ? FAILED : MADE;

    for (Py_ssize_t i = 0; i < size && done == MADE; i++) {
        PyObject *value = PyTuple_GetItem(making->common, i);

        Py_INCREF(value);
        PyTuple_SetItem(made, i, value);
    }
    for (Py_ssize_t i = 0; i < count; i++) {
        Py_ssize_t place = done == MADE && values[i] != NULL ? PyLong_AsSsize_t(PyTuple_GetItem(making->places, i)) : -1;

        if (done != MADE || values[i] == NULL) {
            Py_XDECREF(values[i]);
        } else if (PyTuple_SetItem(made, place, values[i]) < 0) { /* which takes the reference also if it fails */
            done = FAILED;
        }
    }
    if (done == MADE) {
        record = PyObject_CallFunctionObjArgs(making->make, made, NULL);
    } else if (!PyErr_Occurred()) {
        PyErr_SetString(PyExc_ValueError, "a record with other places");
    }
    Py_XDECREF(made);
    return record;
}

/* The record of a block, and the values that its picture has of it. `notes` are those about notes, or NULL. */
static PyObject *block_record(const struct making *making, const struct bytes *prefix, const struct head *head, size_t kind,
                              const struct judged *judged, const struct out *fields, PyObject *notes, PyObject **of_picture)
{
    PyObject *values[OF_BLOCK] = {NULL};
    struct out position;
    int done = MADE;

    begin(&position);
    put(&position, prefix->start, prefix->length);
    put_number(&position, head->at[kind], 0);
    values[0] = position.failed ? PyErr_NoMemory() : PyUnicode_FromStringAndSize((const char *)position.at, (Py_ssize_t)position.length);
    end(&position);
    values[1] = of_picture[0] = PyUnicode_FromStringAndSize((const char *)judged->digests + DIGITS, DIGITS);
    values[2] = PyLong_FromSize_t(head->block[kind].length);
    values[3] = of_picture[KINDS_OF_BLOCKS] = PyUnicode_FromStringAndSize((const char *)judged->digests, DIGITS);
    values[4] = fields->failed ? PyErr_NoMemory() : PyBytes_FromStringAndSize((const char *)fields->at, (Py_ssize_t)fields->length);
    Py_XINCREF(values[1]);
    Py_XINCREF(values[3]);
    for (size_t i = 0; i < 5; i++) {
        done = values[i] == NULL ? FAILED : done;
    }
    for (Py_ssize_t i = 0; i < 2 && notes != NULL; i++) {
        values[5 + i] = PyTuple_GetItem(notes, i);
        Py_INCREF(values[5 + i]);
    }
    if (done == MADE) {
        return record_of(making, values, OF_BLOCK);
    }
    for (size_t i = 0; i < OF_BLOCK; i++) {
        Py_XDECREF(values[i]);
    }
    return NULL;
}

/* What is usual for a picture: the rests, what judges blocks, what makes records of the picture and of its kinds of blocks, how their positions
 * begin, and the functions that name the rests, that look behind the first scan, and that look for notes. */
struct usual {
    PyObject *without, *rest_of, *is_end, *notes_of;
    struct judging judging;
    struct making picture, blocks[KINDS_OF_BLOCKS];
    struct bytes prefixes[KINDS_OF_BLOCKS];
};

static int get_usual(PyObject *tuple, struct usual *usual)
{
    PyObject *tags, *make, *places, *prefixes[KINDS_OF_BLOCKS];
    struct making *of = usual->blocks;

    if (!PyArg_ParseTuple(tuple, "O!(OOOS)(OO!O!)(O(O!O!O!)O!)(SSS)OOO", &PyTuple_Type, &usual->without, &usual->judging.sha256,
                          &usual->judging.short_name, &usual->judging.line_of, &tags, &usual->picture.make, &PyTuple_Type,
                          &usual->picture.common, &PyTuple_Type, &usual->picture.places, &make, &PyTuple_Type, &of[0].common,
                          &PyTuple_Type, &of[1].common, &PyTuple_Type, &of[2].common, &PyTuple_Type, &places, &prefixes[0],
                          &prefixes[1], &prefixes[2], &usual->rest_of, &usual->is_end, &usual->notes_of)) {
        return -1;
    }
    for (size_t kind = 0; kind < KINDS_OF_BLOCKS; kind++) {
        of[kind].make = make;
        of[kind].places = places;
        if (get_bytes(prefixes[kind], &usual->prefixes[kind]) < 0) {
            return -1;
        }
    }
    return get_bytes(tags, &usual->judging.tags);
}

/* What Python finds of the notes of a block of Exif, which may have some: four values, the last two of which its picture has. LEFT if bytes of the
 * block are in no field. */
static int find_notes(const struct usual *usual, const struct bytes *block, const struct judged *judged, const struct out *fields,
                      PyObject **notes)
{
    *notes = PyObject_CallFunction(usual->notes_of, "y#y#nns#", (const char *)block->start, (Py_ssize_t)block->length,
                                   (const char *)fields->at, (Py_ssize_t)fields->length, (Py_ssize_t)judged->note[0],
                                   (Py_ssize_t)judged->note[1], (const char *)judged->digests + DIGITS, (Py_ssize_t)DIGITS);
    if (*notes == NULL || PyTuple_Size(*notes) == OF_NOTES) { /* which is an error of None */
        return *notes == NULL ? FAILED : MADE;
    }
    PyErr_Clear();
    return LEFT;
}

/* Judges a block, of which `made` is the record. LEFT if Python has to judge it. */
static int make_block(const struct calls *calls, const struct usual *usual, const struct head *head, size_t kind, PyObject **values,
                      PyObject **made)
{
    const struct bytes *block = &head->block[kind];
    struct judged judged = {{0}, {0, 0}};
    PyObject *notes = NULL;
    struct out fields;
    int done;

    begin(&fields);
    done = kind == 0 ? judge_packet(calls, &usual->judging, block, &fields, &judged)
                     : judge_block(calls, &usual->judging, block, kind == 2, &fields, &judged);
    if (done == MADE && kind == 1 && has_tag(block, &usual->judging.tags)) {
        done = find_notes(usual, block, &judged, &fields, &notes);
    }
    if (done == MADE) {
        *made = block_record(&usual->blocks[kind], &usual->prefixes[kind], head, kind, &judged, &fields, notes, values + 2 + MARKS + kind);
        done = *made == NULL ? FAILED : MADE;
    }
    for (Py_ssize_t i = 2; i < OF_NOTES && done == MADE && notes != NULL; i++) {
        values[PLACES - OF_NOTES + i] = PyTuple_GetItem(notes, i);
        Py_INCREF(values[PLACES - OF_NOTES + i]);
    }
    Py_XDECREF(notes);
    end(&fields);
    return done;
}

/* The records of the blocks of a head as a tuple, among the values of its picture. LEFT if Python has to judge one. */
static int make_blocks(const struct calls *calls, const struct usual *usual, const struct head *head, PyObject **values)
{
    PyObject *made[KINDS_OF_BLOCKS] = {NULL, NULL, NULL}, *blocks = NULL;
    Py_ssize_t count = 0;
    int done = MADE;

    for (size_t kind = 0; kind < KINDS_OF_BLOCKS && done == MADE; kind++) {
        if (head->block[kind].start != NULL) {
            done = make_block(calls, usual, head, kind, values, &made[count]);
            count += done == MADE;
        }
    }
    if (done == MADE) {
        blocks = PyTuple_New(count);
        done = blocks == NULL ? FAILED : MADE;
    }
    for (Py_ssize_t i = 0; i < count; i++) {
        if (blocks == NULL) {
            Py_XDECREF(made[i]);
        } else {
            PyTuple_SetItem(blocks, i, made[i]);
        }
    }
    values[PLACES - 3] = blocks;
    return done;
}

/* Whether nothing but picture data and the end mark follow the head of a file, which is as it was. LEFT if not. */
static int check_end(const struct usual *usual, const struct file *file, const struct head *head)
{
    size_t size = (size_t)file->marks[0];
    PyObject *answer = NULL;
    int is_there;

    if (!is_scan(&head->bytes, head->after, size)) {
        answer = PyObject_CallFunction(usual->is_end, "inni", file->number, (Py_ssize_t)head->after, (Py_ssize_t)size,
                                       has_scan_at_end(file, head->after, size));
        is_there = answer == NULL ? -1 : PyObject_IsTrue(answer);
        Py_XDECREF(answer);
        if (is_there <= 0) {
            return is_there < 0 ? FAILED : LEFT;
        }
    }
    Py_BEGIN_ALLOW_THREADS
    is_there = is_as_before(file);
    Py_END_ALLOW_THREADS
    return is_there ? MADE : LEFT;
}

/* The record of a usual JPEG; LEFT of any other. `values` has its path, its root and its marks. */
static int make_record(const struct calls *calls, const struct usual *usual, const struct file *file, PyObject **values, PyObject **made)
{
    struct head head;
    int done;

    memset(&head, 0, offsetof(struct head, rests));
    head.bytes.start = file->first;
    head.bytes.length = file->length;
    begin(&head.rests);
    done = read_usual(calls, usual->without, &head);
    done = done == MADE ? check_end(usual, file, &head) : done;
    done = done == MADE ? make_blocks(calls, usual, &head, values) : done;
    if (done == MADE && head.rests.length > 0) {
        values[PLACES - 4] = head.rests.failed
                                 ? PyErr_NoMemory()
                                 : PyObject_CallFunction(usual->rest_of, "y#y#", (const char *)file->first, (Py_ssize_t)file->length,
                                                         (const char *)head.rests.at, (Py_ssize_t)head.rests.length);
        done = values[PLACES - 4] == NULL ? FAILED : MADE;
    }
    end(&head.rests);
    if (done == MADE) {
        *made = record_of(&usual->picture, values, PLACES);
        return *made == NULL ? FAILED : MADE;
    }
    for (size_t i = 0; i < PLACES; i++) {
        Py_XDECREF(values[i]);
    }
    return done;
}

/* The record of a file with the marks of `stamp` that is a usual JPEG, with those that are `kept`. Of any other file, which is left to Python,
 * its number, or None if it isn't open. */
static PyObject *jpeg_record(PyObject *capsule, PyObject *arguments)
{
    const struct calls *calls = PyCapsule_GetPointer(capsule, NULL);
    struct file file = {NULL, {0}, -1, NULL, 0};
    PyObject *path, *root, *stamp, *kept, *tuple, *made = NULL, *values[PLACES] = {NULL};
    struct usual usual;
    int done;

    if (calls == NULL
        || !PyArg_ParseTuple(arguments, "SSO!O!O!", &path, &root, &PyTuple_Type, &stamp, &PyTuple_Type, &kept, &PyTuple_Type, &tuple)
        || get_usual(tuple, &usual) < 0) {
        return NULL;
    }
    file.path = PyBytes_AsString(path);
    values[0] = path;
    values[1] = root;
    for (Py_ssize_t i = 0; i < MARKS; i++) {
        PyObject *mark = PyTuple_GetItem(stamp, i);

        values[2 + i] = PyTuple_GetItem(kept, i);
        file.marks[i] = mark == NULL ? -1 : (int64_t)PyLong_AsLongLong(mark);
    }
    if (PyErr_Occurred()) {
        return NULL;
    }
    Py_BEGIN_ALLOW_THREADS
    done = strlen(file.path) == (size_t)PyBytes_Size(path) ? open_file(&file) : LEFT; /* no file has a name with a NUL */
    Py_END_ALLOW_THREADS
    if (done == MADE) {
        for (size_t i = 0; i < 2 + MARKS; i++) {
            Py_INCREF(values[i]);
        }
        done = make_record(calls, &usual, &file, values, &made);
    }
    free(file.first);
    if (done == FAILED && PyErr_ExceptionMatches(PyExc_Exception)) { /* Python, to which the file is left, meets and reports it too */
        PyErr_Clear();
        done = LEFT;
    }
    if (done == LEFT) {
        return file.number < 0 ? Py_BuildValue("") : PyLong_FromLong(file.number);
    }
    close_file(&file);
    return made;
}
