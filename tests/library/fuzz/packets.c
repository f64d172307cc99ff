/* The laws of the calls for packets of XMP (docs/FORMAT.md, section 10). A packet ends where a page begins that can't be read, and an output where one
 * begins that can't be written. */
#include "area.h"
#include "laws.h"
#include "memory.h"
#include "untouched.h"
#include <exifnorm_fields.h>
#include <string.h>

/* The longest form that is judged, and the bytes that are put around it. */
enum { LONGEST_FORM = 1 << 16, AROUND = 512 };
/* The most memory that a call may take at once: so many times the packet and its form, and a constant. */
enum { TIMES = 16, BESIDE = 300000 };

#define HEAD \
    "<x:xmpmeta xmlns:x=\"adobe:ns:meta/\"><rdf:RDF xmlns:rdf=\"http://www.w3.org/1999/02/22-rdf-syntax-ns#\"><rdf:Description rdf:about=\"\">"
#define TAIL "</rdf:Description></rdf:RDF></x:xmpmeta>"
#define META "<x:xmpmeta xmlns:x=\"adobe:ns:meta/\">"
#define META_END "</x:xmpmeta>"
#define LENGTH(text) (sizeof(text) - 1)

/* What a call returned. */
struct answer {
    uint32_t status;
    size_t written;
    unsigned char *bytes;
    struct exifnorm_fault fault;
};

/* Some properties: what is between the head and the tail of a form. */
struct properties {
    unsigned char bytes[LONGEST_FORM];
    size_t length;
};

static unsigned char *packet_end, *out_end;
static struct properties now, before;

int open_packets(void) {
    packet_end = end_of_area(2 * LONGEST_FORM + AROUND);
    out_end = end_of_area(2 * LONGEST_FORM + AROUND);
    return packet_end && out_end;
}

static struct answer check(const unsigned char *packet, size_t length) {
    struct answer it = {0, UNSET, NULL, NO_FAULT};
    it.status = exifnorm_xmp_check(packet, length, &it.fault);
    return it;
}

static struct answer normalise(const unsigned char *packet, size_t length, size_t room) {
    struct answer it = {0, UNSET, memset(out_end - room, FILLER, room), NO_FAULT};
    it.status = exifnorm_xmp_normalise(packet, length, it.bytes, room, &it.written, &it.fault);
    return it;
}

static struct answer as_written(const unsigned char *packet, size_t length, size_t room) {
    struct answer it = {0, UNSET, memset(out_end - room, FILLER, room), NO_FAULT};
    it.status = exifnorm_xmp_unsorted(packet, length, it.bytes, room, &it.written, &it.fault);
    return it;
}

/* ---- answers */

/* A packet that is wrong has another cause than one that is left to other readers. */
static int is_cause_of(uint32_t cause, uint32_t status) {
    if (status == EXIFNORM_REFUSED)
        return cause >= EXIFNORM_XMP_TOO_LONG && cause <= EXIFNORM_XMP_SEVERAL_SUBJECTS;
    return status == EXIFNORM_RARE && cause >= EXIFNORM_XMP_RARE_ENCODING && cause <= EXIFNORM_XMP_RARE_DEPTH;
}

/* Whether a call without a form has the fault of xmp_check, and sets nothing else. */
static int is_refusal(struct answer it, struct answer expected, size_t room) {
    return it.status == expected.status && is_fault(it.fault, expected.fault) && it.written == UNSET && is_filled(it.bytes, room);
}

/* xmp_check, with its memory counted. */
static struct answer counted_check(const unsigned char *packet, size_t length, size_t most) {
    size_t live = memory.live;
    start_counting(0);
    struct answer it = check(packet, length);
    stop_counting();
    holds(LAW_FREED, memory.live == live);
    holds(LAW_LITTLE, memory.peak - live <= TIMES * most + BESIDE);
    return it;
}

/* An allocation that fails, from packet to packet another one. */
static void judge_memory(const unsigned char *packet, size_t length, struct answer expected, size_t room) {
    size_t live = memory.live;
    start_counting(1 + (long)(seen.looked[LAW_PACKET_MEMORY] % 24));
    struct answer form = normalise(packet, length, room);
    stop_counting();
    int is_none = form.status == EXIFNORM_NO_MEMORY && form.written == UNSET && is_fault(form.fault, NO_FAULT) && is_filled(form.bytes, room);
    holds(LAW_PACKET_MEMORY, memory.refused ? is_none : form.status == expected.status && is_fault(form.fault, expected.fault));
    holds(LAW_FREED, memory.live == live);
}

/* ---- forms */

/* Whether some bytes at the end of the packets' area have this form. */
static int has_form(size_t length, const unsigned char *form, size_t form_length) {
    struct answer it = normalise(packet_end - length, length, form_length);
    return it.status == EXIFNORM_DONE && it.written == form_length && memcmp(it.bytes, form, form_length) == 0;
}

/* A part of a packet. */
struct part {
    const void *bytes;
    size_t length;
};

/* Puts some parts at the end of the packets' area. Returns their length. */
static size_t laid(const struct part *parts, size_t count) {
    size_t length = 0, at = 0;
    for (size_t i = 0; i < count; i++)
        length += parts[i].length;
    for (size_t i = 0; i < count; i++) {
        memcpy(packet_end - length + at, parts[i].bytes, parts[i].length);
        at += parts[i].length;
    }
    return length;
}

#define TEXT(text) {text, LENGTH(text)}
#define LAID(...) laid((const struct part[]){__VA_ARGS__}, sizeof((const struct part[]){__VA_ARGS__}) / sizeof(struct part))

/* Puts a packet with a change that means nothing at the end of the packets' area: around it, or in its form. Returns its length. */
static size_t laid_changed(const unsigned char *packet, size_t length, const unsigned char *form, size_t form_length, unsigned long way) {
    switch (way) {
    case 0:
        return LAID(TEXT("\xEF\xBB\xBF \n"), {packet, length}, TEXT(" \t\r\n\0\0"));
    case 1:
        return LAID({form + LENGTH(META), form_length - LENGTH(META) - LENGTH(META_END)});
    case 2:
        return LAID(TEXT("<?xpacket begin=''?><!-- - -->\n"), {form, form_length}, TEXT("\n<?xpacket end='w'?>"));
    case 3:
        return LAID(TEXT(HEAD "<!--c--> <?p?>\r\n"), {now.bytes, now.length}, TEXT("\t" TAIL));
    default:
        return LAID(TEXT(HEAD "</rdf:Description><rdf:Description>"), {now.bytes, now.length}, TEXT(TAIL));
    }
}

/* The form with the members of bags as they are in the packet. */
static void judge_as_written(const unsigned char *packet, size_t length, const unsigned char *form, size_t form_length) {
    struct answer it = as_written(packet, length, form_length);
    int is_made = it.status == EXIFNORM_DONE && it.written == form_length && is_fault(it.fault, NO_FAULT);
    if (holds(LAW_PACKET_AS_WRITTEN, is_made))
        holds(LAW_PACKET_AS_WRITTEN, has_form(LAID({it.bytes, form_length}), form, form_length));
}

/* From packet to packet another change. */
static void judge_change(const unsigned char *packet, size_t length, const unsigned char *form, size_t form_length) {
    size_t changed = laid_changed(packet, length, form, form_length, seen.looked[LAW_PACKET_CHANGES] % 5);
    holds(LAW_PACKET_CHANGES, has_form(changed, form, form_length));
}

/* These properties and those of the form before, in both orders. */
static void judge_order(void) {
    size_t length = LAID(TEXT(HEAD), {now.bytes, now.length}, {before.bytes, before.length}, TEXT(TAIL));
    struct answer one = normalise(packet_end - length, length, length);
    if (one.status != EXIFNORM_DONE) {
        holds(LAW_PACKET_ORDER, one.status == EXIFNORM_RARE && one.fault.cause == EXIFNORM_XMP_RARE_REPEATED);
        LAID(TEXT(HEAD), {before.bytes, before.length}, {now.bytes, now.length}, TEXT(TAIL));
        struct answer other = check(packet_end - length, length);
        holds(LAW_PACKET_ORDER, other.status == one.status && other.fault.cause == one.fault.cause);
        return;
    }
    static unsigned char form[2 * LONGEST_FORM + AROUND];
    memcpy(form, one.bytes, length);
    LAID(TEXT(HEAD), {before.bytes, before.length}, {now.bytes, now.length}, TEXT(TAIL));
    holds(LAW_PACKET_ORDER, one.written == length && has_form(length, form, length));
}

/* How often a text is in a form. */
static size_t count_of(const char *text, const unsigned char *form, size_t length) {
    size_t size = strlen(text), count = 0;
    for (size_t i = 0; i + size <= length; i++)
        count += memcmp(form + i, text, size) == 0;
    return count;
}

/* Walks the properties of some bytes at the end of the packets' area. Returns whether they are so many, and all bytes were passed. */
static int has_properties(size_t length, size_t expected) {
    struct exifnorm_xmp_properties properties;
    struct exifnorm_xmp_property property;
    size_t count = 0;
    exifnorm_xmp_start(&properties, packet_end - length, length);
    while (exifnorm_xmp_next(&properties, &property))
        count++;
    return exifnorm_xmp_whole(&properties) && count == expected;
}

/* The properties of a form; 0 if it is no form. */
static int remember(const unsigned char *form, size_t length) {
    if (length < LENGTH(HEAD) + LENGTH(TAIL) || memcmp(form, HEAD, LENGTH(HEAD)) != 0 ||
        memcmp(form + length - LENGTH(TAIL), TAIL, LENGTH(TAIL)) != 0)
        return 0;
    now.length = length - LENGTH(HEAD) - LENGTH(TAIL);
    memcpy(now.bytes, form + LENGTH(HEAD), now.length);
    return 1;
}

static void judge_form(const unsigned char *packet, size_t length, size_t form_length) {
    static unsigned char form[LONGEST_FORM];
    struct answer more = normalise(packet, length, form_length + 8);
    int is_made = more.status == EXIFNORM_DONE && more.written == form_length && is_fault(more.fault, NO_FAULT);
    if (!holds(LAW_PACKET_CHECK, is_made))
        return;
    memcpy(form, more.bytes, form_length);
    holds(LAW_PACKET_ROOM, is_filled(more.bytes + form_length, 8));
    struct answer less = normalise(packet, length, form_length - 1);
    holds(LAW_PACKET_ROOM, less.status == EXIFNORM_TOO_LITTLE_ROOM && less.written == form_length && is_filled(less.bytes, form_length - 1));
    if (!holds(LAW_PACKET_FORM, remember(form, form_length)))
        return;
    holds(LAW_PACKET_FORM, has_form(LAID({form, form_length}), form, form_length));
    holds(LAW_PACKET_PROPERTIES, has_properties(form_length, count_of("<p:", form, form_length) + count_of("<rdf:li", form, form_length)));
    judge_as_written(packet, length, form, form_length);
    judge_change(packet, length, form, form_length);
    if (seen.looked[LAW_PACKET_FORM] % 4 == 0)
        judge_order();
    before.length = now.length;
    memcpy(before.bytes, now.bytes, now.length);
}

/* ---- all of it */

/* Byte order marks, zeros and white space may precede the first tag. */
static int is_packet(const unsigned char *block, size_t length) {
    size_t at = 0;
    while (at < length && (block[at] == 0 || strchr("\xEF\xBB\xBF\xFE\xFF \t\r\n", block[at])))
        at++;
    return at < length && block[at] == '<';
}

uint32_t judge_packet(const unsigned char *block, size_t length) {
    if (!is_packet(block, length))
        return EXIFNORM_REFUSED;
    struct answer first = normalise(block, length, 0);
    int has_length = first.status == EXIFNORM_TOO_LITTLE_ROOM && first.written > 0 && first.written != UNSET;
    struct answer checked = counted_check(block, length, length + (has_length ? first.written : 0));
    if (checked.status == EXIFNORM_DONE) {
        holds(LAW_PACKET, is_fault(checked.fault, NO_FAULT));
        holds(LAW_PACKET_CHECK, first.status == EXIFNORM_TOO_LITTLE_ROOM && is_fault(first.fault, NO_FAULT));
        holds(LAW_PACKET_ROOM, has_length || first.status != EXIFNORM_TOO_LITTLE_ROOM);
        if (has_length && first.written <= LONGEST_FORM)
            judge_form(block, length, first.written);
    } else {
        holds(LAW_PACKET, is_cause_of(checked.fault.cause, checked.status) && checked.fault.place <= length);
        holds(LAW_PACKET_CHECK, is_refusal(normalise(block, length, 64), checked, 64));
        holds(LAW_PACKET_AS_WRITTEN, is_refusal(as_written(block, length, 64), checked, 64));
    }
    judge_memory(block, length, first, 0);
    return checked.status;
}
