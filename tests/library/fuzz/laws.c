#define _GNU_SOURCE
#include "laws.h"
#include "area.h"
#include "memory.h"
#include "untouched.h"
#include <exifnorm_fields.h>
#include <stdio.h>
#include <string.h>

/* The longest block that is judged: its listing and its captions then fit into the buffers below. */
enum { LONGEST = 8192, ROOM = 16 * LONGEST, SHOWN = 400, TAIL_BYTES = 3 };
enum { LONGEST_LAID = 2 * LONGEST + 64 };
/* The most memory that judging may take at once: so many times the block, and a constant. */
enum { TIMES = 16, BESIDE = 300000 };

struct seen seen;

static const char *const texts[] = {
#define LAW_TEXT(name, text) text,
    LAWS(LAW_TEXT)};

const char *law_text(int law) {
    return texts[law];
}

size_t longest_block(void) {
    return LONGEST;
}

/* A result: its status, what was written, and the fault. */
struct answer {
    uint32_t status, number;
    size_t written;
    unsigned char *bytes;
    struct exifnorm_fault fault;
};

/* What is known of an accepted block. */
struct known {
    unsigned char block[LONGEST], form[2 * LONGEST], listing[ROOM], captions[ROOM];
    size_t length, form_length, listing_length, captions_length;
    uint32_t kind;
};

/* Where the areas of a block, of another one and of an output end, and where the other one begins. */
static unsigned char *block_end, *other_end, *out_end, *other_block;
static struct known now, before;
static const unsigned char *current;
static size_t current_length;

static void tell(int law) {
    printf("BROKEN %s: ", law_text(law));
    for (size_t i = 0; i < current_length && i < SHOWN; i++)
        printf("%02x", current[i]);
    printf("%s (%zu bytes)\n", current_length > SHOWN ? ".." : "", current_length);
    fflush(stdout);
}

int holds(int law, int is_so) {
    seen.looked[law]++;
    if (!is_so && seen.broken[law]++ < 2)
        tell(law);
    return is_so;
}

int open_room(void) {
    block_end = end_of_area(LONGEST_LAID);
    other_end = end_of_area(LONGEST_LAID);
    out_end = end_of_area(ROOM);
    if (!block_end || !other_end || !out_end)
        return 0;
    other_block = other_end - LONGEST_LAID;
    return open_heads() && open_blocks() && open_pictures() && open_packets();
}

/* Appends one part to another. */
static size_t joined(unsigned char *place, const void *one, size_t one_length, const void *two, size_t two_length) {
    memcpy(place, one, one_length);
    memcpy(place + one_length, two, two_length);
    return one_length + two_length;
}

/* The bytes, copied to where the next byte can not be read. */
static unsigned char *laid(unsigned char *end, const unsigned char *bytes, size_t length) {
    return memcpy(end - length, bytes, length);
}

static unsigned char *out_of(size_t room) {
    return memset(out_end - room, FILLER, room);
}

static struct answer check(const unsigned char *block, size_t length) {
    struct answer it = {0, UNSET, 0, NULL, NO_FAULT};
    it.status = exifnorm_check(block, length, &it.number, &it.fault);
    return it;
}

typedef uint32_t Call(const unsigned char *, size_t, unsigned char *, size_t, size_t *, struct exifnorm_fault *);

static struct answer call(Call *made, const unsigned char *block, size_t length, size_t room) {
    struct answer it = {0, UNSET, UNSET, out_of(room), NO_FAULT};
    it.status = made(block, length, it.bytes, room, &it.written, &it.fault);
    return it;
}

static struct answer compare(const unsigned char *one, size_t one_length, const unsigned char *two, size_t two_length) {
    struct answer it = {0, UNSET, 0, NULL, NO_FAULT};
    it.status = exifnorm_compare(one, one_length, two, two_length, &it.number, &it.fault);
    return it;
}

/* The causes for which a record and an Exif block can be refused. test_laws.py knows which numbers are causes. */
static int is_cause_of(uint32_t cause, int is_record) {
    int of_record = cause >= EXIFNORM_CAUSE_NO_MARKER && cause <= EXIFNORM_CAUSE_DATASET_CUT;
    return cause > EXIFNORM_CAUSE_TOO_LONG && of_record == is_record;
}

static int has_prefix(const unsigned char *block, size_t length) {
    return length >= 6 && memcmp(block, "Exif\0\0", 6) == 0;
}

static int is_record(const unsigned char *block, size_t length) {
    return length > 0 && block[0] == 0x1C;
}

/* ---- one block that is refused */

static void judge_refused(const unsigned char *block, size_t length, struct exifnorm_fault fault) {
    size_t own = length - (has_prefix(block, length) ? 6 : 0);
    holds(LAW_FAULT, is_cause_of(fault.cause, is_record(block, length)) && fault.place <= own);
    struct answer form = call(exifnorm_normalise, block, length, 64);
    holds(LAW_NORMALISE, form.status == EXIFNORM_REFUSED && is_fault(form.fault, fault));
    holds(LAW_UNTOUCHED, form.written == UNSET && is_filled(form.bytes, 64));
    struct answer text = call(exifnorm_show, block, length, 64);
    holds(LAW_SHOW, text.status == EXIFNORM_REFUSED && is_fault(text.fault, fault) && text.written == UNSET && is_filled(text.bytes, 64));
    text = call(exifnorm_captions, block, length, 64);
    holds(LAW_CAPTIONS, text.status == EXIFNORM_REFUSED && is_fault(text.fault, fault) && text.written == UNSET && is_filled(text.bytes, 64));
    struct answer first = compare(block, length, before.block, before.length);
    holds(LAW_FIRST, first.status == EXIFNORM_REFUSED && is_fault(first.fault, fault) && first.number == UNSET);
    if (before.length == 0)
        return;
    struct answer second = compare(before.block, before.length, block, length);
    holds(LAW_SECOND, second.status == EXIFNORM_SECOND_REFUSED && is_fault(second.fault, fault) && second.number == UNSET);
}

/* Six bytes in front of a block: a record is then an Exif block of unknown kind. */
static void judge_refused_prefix(const unsigned char *block, size_t length, struct exifnorm_fault fault) {
    if (has_prefix(block, length))
        return;
    if (is_record(block, length))
        fault = (struct exifnorm_fault){EXIFNORM_CAUSE_UNKNOWN_KIND, 0};
    struct answer longer = check(other_block, joined(other_block, "Exif\0\0", 6, block, length));
    holds(LAW_PREFIX, longer.status == EXIFNORM_REFUSED && is_fault(longer.fault, fault));
}

/* Bytes after a record's first fault change nothing, unless the fault is that the record is cut. */
static void judge_order(const unsigned char *block, size_t length, struct exifnorm_fault fault) {
    if (!is_record(block, length) || fault.cause == EXIFNORM_CAUSE_DATASET_CUT || length + TAIL_BYTES > LONGEST)
        return;
    if (fault.cause == EXIFNORM_CAUSE_NO_MARKER && (fault.place >= length || block[fault.place] == 0))
        return; /* zeros at the end */
    memcpy(now.block, block, length);
    memcpy(now.block + length, "\x1c\x02\x05", TAIL_BYTES);
    struct answer longer = check(now.block, length + TAIL_BYTES);
    holds(LAW_ORDER, longer.status == EXIFNORM_REFUSED && is_fault(longer.fault, fault));
}

/* ---- one block that is accepted */

/* The form of the block, which is kept for the next laws; 0 if there is none. */
static int judge_form(const unsigned char *block, size_t length) {
    struct answer form = call(exifnorm_normalise, block, length, 2 * length + 64);
    if (!holds(LAW_NORMALISE, form.status == EXIFNORM_DONE && is_fault(form.fault, NO_FAULT)))
        return 0;
    if (!holds(LAW_LENGTH, form.written > 0 && form.written <= 2 * length))
        return 0;
    holds(LAW_BEHIND, is_filled(form.bytes + form.written, 2 * length + 64 - form.written));
    now.form_length = form.written;
    memcpy(now.form, form.bytes, form.written);
    if (now.kind == EXIFNORM_EXIF)
        holds(LAW_HEADER, form.written % 2 == 0 && memcmp(now.form, "MM\0\x2a\0\0\0\x08", 8) == 0);
    struct answer exact = call(exifnorm_normalise, block, length, now.form_length);
    holds(LAW_MORE_ROOM, exact.status == EXIFNORM_DONE && exact.written == now.form_length &&
                             memcmp(exact.bytes, now.form, now.form_length) == 0);
    struct answer less = call(exifnorm_normalise, block, length, now.form_length - 1);
    holds(LAW_LITTLE_ROOM, less.status == EXIFNORM_TOO_LITTLE_ROOM && less.written == now.form_length &&
                               is_filled(less.bytes, now.form_length - 1) && is_fault(less.fault, NO_FAULT));
    return 1;
}

/* The laws of a form by itself, and of a form and its block. */
static void judge_form_again(const unsigned char *block, size_t length) {
    const unsigned char *form = laid(other_end, now.form, now.form_length);
    struct answer kind = check(form, now.form_length);
    holds(LAW_FORM_KIND, kind.status == EXIFNORM_DONE && kind.number == now.kind);
    struct answer again = call(exifnorm_normalise, form, now.form_length, now.form_length);
    holds(LAW_FORM, again.status == EXIFNORM_DONE && again.written == now.form_length &&
                        memcmp(again.bytes, now.form, now.form_length) == 0);
    struct answer one = compare(block, length, form, now.form_length), two = compare(form, now.form_length, block, length);
    holds(LAW_SAME, one.status == EXIFNORM_DONE && one.number == 1 && two.status == EXIFNORM_DONE && two.number == 1);
    struct answer itself = compare(block, length, block, length);
    holds(LAW_ITSELF, itself.status == EXIFNORM_DONE && itself.number == 1 && is_fault(itself.fault, NO_FAULT));
}

static int is_ascii(const unsigned char *text, size_t length) {
    for (size_t i = 0; i < length; i++)
        if (text[i] != '\n' && (text[i] < 0x20 || text[i] > 0x7E))
            return 0;
    return 1;
}

static int begins(const unsigned char *text, size_t length, const char *start) {
    return length >= strlen(start) && memcmp(text, start, strlen(start)) == 0;
}

static int is_listing(const unsigned char *text, size_t length) {
    const char *start = now.kind == EXIFNORM_EXIF ? "exif\n[main]\n" : "iim\n";
    return begins(text, length, start) && text[length - 1] == '\n' && is_ascii(text, length) && !memmem(text, length, "\n\n", 2);
}

/* Small letters, perhaps with hyphens, then a colon and a space; or the line of the character set. */
static int has_label(const unsigned char *line, size_t length) {
    size_t letters = 0;
    while (letters < length && ((line[letters] >= 'a' && line[letters] <= 'z') || line[letters] == '-'))
        letters++;
    if (begins(line, length, "charset"))
        return begins(line, length, "charset: UTF-8\n") || begins(line, length, "charset: not declared\n");
    return letters > 0 && begins(line + letters, length - letters, ": ");
}

static int are_captions(const unsigned char *text, size_t length) {
    const unsigned char *line, *end = text + length;
    if (!begins(text, length, now.kind == EXIFNORM_EXIF ? "exif\n" : "iim\ncharset: ") || end[-1] != '\n' || !is_ascii(text, length))
        return 0;
    for (line = (const unsigned char *)memchr(text, '\n', length) + 1; line < end; line = (const unsigned char *)memchr(line, '\n', end - line) + 1)
        if (!has_label(line, end - line))
            return 0;
    return 1;
}

/* Capacity for either text: an element of two bytes takes up to seven characters, a byte three, an empty DataSet ten. */
static size_t room_for(size_t length) {
    return 8 * length + 64 < ROOM ? 8 * length + 64 : ROOM;
}

/* A text of the block, which is kept, and that of its form. */
static size_t judge_text(Call *made, const unsigned char *block, size_t length, unsigned char *kept, int answers, int of_form) {
    size_t room = room_for(length);
    struct answer text = call(made, block, length, room);
    if (!holds(answers, text.status == EXIFNORM_DONE && text.written <= room && is_fault(text.fault, NO_FAULT)))
        return 0;
    memcpy(kept, text.bytes, text.written);
    size_t kept_length = text.written;
    struct answer other = call(made, now.form, now.form_length, kept_length);
    holds(of_form, other.status == EXIFNORM_DONE && other.written == kept_length && memcmp(other.bytes, kept, kept_length) == 0);
    struct answer none = call(made, block, length, kept_length - 1);
    holds(LAW_LITTLE_ROOM, none.status == EXIFNORM_TOO_LITTLE_ROOM && none.written == kept_length && is_filled(none.bytes, kept_length - 1));
    return kept_length;
}

/* The lines of a listing that are fields: not those that name a directory, or count what follows. */
static size_t fields_of_listing(const unsigned char *text, size_t length) {
    static const char *const others[] = {"exif\n", "iim\n", "[", "record ", "strips "};
    const unsigned char *line, *end = text + length;
    size_t count = 0;
    for (line = text; line && line < end; line = (const unsigned char *)memchr(line, '\n', end - line) + 1) {
        int is_field = 1;
        for (size_t i = 0; i < sizeof others / sizeof *others; i++)
            is_field = is_field && !begins(line, end - line, others[i]);
        count += is_field;
    }
    return count;
}

/* The form ends where a page begins that can't be read. */
static void judge_fields(void) {
    struct exifnorm_fields fields;
    struct exifnorm_field field;
    size_t count = 0;
    exifnorm_fields_start(&fields, laid(other_end, now.form, now.form_length), now.form_length);
    while (exifnorm_fields_next(&fields, &field))
        count++;
    holds(LAW_FIELDS, exifnorm_fields_whole(&fields) && count == fields_of_listing(now.listing, now.listing_length));
}

static void judge_texts(const unsigned char *block, size_t length) {
    now.listing_length = judge_text(exifnorm_show, block, length, now.listing, LAW_SHOW, LAW_FORM_LISTING);
    if (now.listing_length && holds(LAW_LISTING, is_listing(now.listing, now.listing_length)))
        judge_fields();
    now.captions_length = judge_text(exifnorm_captions, block, length, now.captions, LAW_CAPTIONS, LAW_FORM_CAPTIONS);
    if (now.captions_length)
        holds(LAW_LABELS, are_captions(now.captions, now.captions_length));
}

/* Whether a block has the known form. */
static int has_form(const unsigned char *block, size_t length) {
    struct answer form = call(exifnorm_normalise, block, length, now.form_length);
    return form.status == EXIFNORM_DONE && form.written == now.form_length && memcmp(form.bytes, now.form, form.written) == 0;
}

/* The form with more bytes before or after it. */
static void judge_longer(void) {
    unsigned char *place = other_block;
    if (now.kind == EXIFNORM_EXIF) {
        size_t length = joined(place, "Exif\0\0", 6, now.form, now.form_length);
        holds(LAW_PREFIX, has_form(place, length));
        length = joined(place, now.form, now.form_length, "\x1c\x02\xff", TAIL_BYTES);
        holds(LAW_TAIL, has_form(place, length));
        return;
    }
    struct answer four = check(place, joined(place, now.form, now.form_length, "\0\0\0", 4));
    holds(LAW_ZEROS, has_form(place, now.form_length + 1) && has_form(place, now.form_length + 3) && four.status == EXIFNORM_REFUSED &&
                         four.fault.cause == EXIFNORM_CAUSE_NO_MARKER && four.fault.place == now.form_length);
}

/* The block beside the one that was accepted last. */
static void judge_pair(const unsigned char *block, size_t length) {
    struct answer one = compare(block, length, before.block, before.length);
    struct answer two = compare(before.block, before.length, block, length);
    int is_one_form = now.form_length == before.form_length && memcmp(now.form, before.form, now.form_length) == 0;
    int is_one_listing = now.listing_length == before.listing_length && memcmp(now.listing, before.listing, now.listing_length) == 0;
    holds(LAW_SYMMETRIC, one.status == EXIFNORM_DONE && two.status == EXIFNORM_DONE && one.number == two.number);
    holds(LAW_FORMS_TELL, one.number == (uint32_t)is_one_form);
    holds(LAW_LISTINGS_TELL, is_one_form == is_one_listing);
    if (now.kind != before.kind) {
        holds(LAW_KINDS_DIFFER, one.number == 0 && two.number == 0);
    } else if (now.kind == EXIFNORM_IIM) {
        size_t joined_length = joined(other_block, before.form, before.form_length, now.form, now.form_length);
        struct answer both = check(other_block, joined_length);
        holds(LAW_JOINED, both.status == EXIFNORM_DONE && both.number == EXIFNORM_IIM);
    }
}

/* ---- memory */

static Call *const text_calls[] = {exifnorm_normalise, exifnorm_show, exifnorm_captions};

/* What one of the calls returns if an allocation fails. From block to block another call and another allocation are tried. */
static void judge_refused_memory(const unsigned char *block, size_t length) {
    size_t live = memory.live, room = room_for(length);
    Call *made = text_calls[seen.blocks / 8 % 3];
    struct answer expected = call(made, block, length, room);
    uint32_t first[4] = {0, 0, 0, 0};
    memcpy(first, expected.bytes, expected.status == EXIFNORM_DONE && expected.written >= sizeof first ? sizeof first : 0);
    start_counting(1 + (long)(seen.blocks / 24 % 4));
    struct answer came = call(made, block, length, room);
    stop_counting();
    int is_none = memory.refused && came.status == EXIFNORM_NO_MEMORY && came.written == UNSET && is_fault(came.fault, NO_FAULT) &&
                  is_filled(came.bytes, room);
    int is_same = came.status == expected.status && came.written == expected.written && is_fault(came.fault, expected.fault) &&
                  (came.status != EXIFNORM_DONE || came.written < sizeof first || memcmp(came.bytes, first, sizeof first) == 0);
    holds(LAW_NO_MEMORY, is_none || is_same);
    holds(LAW_FREED, memory.live == live);
}

static struct answer counted_check(const unsigned char *block, size_t length) {
    size_t live = memory.live;
    start_counting(0);
    struct answer it = check(block, length);
    stop_counting();
    holds(LAW_FREED, memory.live == live);
    holds(LAW_LITTLE, memory.peak - live <= TIMES * length + BESIDE);
    return it;
}

/* ---- all of it */

static void remember(const unsigned char *block, size_t length) {
    memcpy(now.block, block, length);
    now.length = length;
    before = now;
}

static void judge_accepted(const unsigned char *block, size_t length) {
    if (!judge_form(block, length))
        return;
    judge_form_again(block, length);
    judge_texts(block, length);
    judge_longer();
    if (before.length)
        judge_pair(block, length);
    remember(block, length);
}

unsigned judge(const unsigned char *given, size_t length) {
    if (length > LONGEST)
        length = LONGEST;
    current = given;
    current_length = length;
    seen.blocks++;
    const unsigned char *block = laid(block_end, given, length);
    struct answer first = counted_check(block, length);
    if (!holds(LAW_ANSWERS, first.status == EXIFNORM_DONE || first.status == EXIFNORM_REFUSED))
        return CAUSES;
    struct answer again = check(block, length);
    holds(LAW_AGAIN, again.status == first.status && again.number == first.number && is_fault(again.fault, first.fault));
    now.kind = first.number;
    if (first.status == EXIFNORM_REFUSED) {
        seen.causes[first.fault.cause < CAUSES ? first.fault.cause : 0]++;
        holds(LAW_UNTOUCHED, first.number == UNSET);
        judge_refused(block, length, first.fault);
        judge_refused_prefix(block, length, first.fault);
        judge_order(block, length, first.fault);
    } else {
        seen.accepted++;
        seen.records += first.number == EXIFNORM_IIM;
        holds(LAW_UNTOUCHED, is_fault(first.fault, NO_FAULT));
        holds(LAW_KIND, first.number == (is_record(block, length) ? EXIFNORM_IIM : EXIFNORM_EXIF));
        judge_accepted(block, length);
    }
    if (seen.blocks % 8 == 0)
        judge_refused_memory(block, length);
    if (seen.blocks % 4 == 0)
        judge_pictures(block, length, first.status == EXIFNORM_REFUSED ? first.fault.cause : 0, first.fault.place);
    if (seen.blocks % 4 == 2)
        judge_blocks(block, length);
    judge_heads(block, length);
    uint32_t of_packet = judge_packet(block, length);
    holds(LAW_READ_ONLY, memcmp(block, given, length) == 0);
    return first.status == EXIFNORM_REFUSED && of_packet != EXIFNORM_DONE ? first.fault.cause : 0;
}
