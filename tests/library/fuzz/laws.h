/* Laws of the library's results that are true for all blocks. */
#ifndef FUZZ_LAWS_H
#define FUZZ_LAWS_H

#include <stddef.h>
#include <stdint.h>

/* Each law has a name. It is counted how often the law was checked. */
#define LAWS(LAW) \
    LAW(ANSWERS, "check accepts or refuses the block") \
    LAW(KIND, "the kind is that of the first bytes") \
    LAW(FAULT, "a refusal has a cause of the block's kind, and an offset in the block") \
    LAW(UNTOUCHED, "what a status does not name is unchanged") \
    LAW(AGAIN, "a second check returns the same") \
    LAW(READ_ONLY, "the block is only read") \
    LAW(NORMALISE, "normalise accepts what check accepts, with the same fault otherwise") \
    LAW(LENGTH, "a form is at most twice as long as its block") \
    LAW(BEHIND, "nothing is written after the form") \
    LAW(FORM, "a form is its own form") \
    LAW(FORM_KIND, "a form is of its block's kind") \
    LAW(HEADER, "a form of an Exif block begins with its header, and has an even length") \
    LAW(SAME, "a block means the same as its form, both ways round") \
    LAW(ITSELF, "a block means the same as itself") \
    LAW(SYMMETRIC, "a comparison gives the same both ways round") \
    LAW(FORMS_TELL, "two blocks mean the same exactly if their forms are equal") \
    LAW(KINDS_DIFFER, "an Exif block and a record never mean the same") \
    LAW(FIRST, "if the first of two is refused, its fault is returned") \
    LAW(SECOND, "if only the second of two is refused, its fault is returned") \
    LAW(LITTLE_ROOM, "for an output that is too short the length is returned, and nothing is written") \
    LAW(MORE_ROOM, "a longer output changes no result") \
    LAW(SHOW, "show accepts what check accepts, with the same fault otherwise") \
    LAW(LISTING, "a listing is lines of ASCII below the kind") \
    LAW(FIELDS, "exifnorm_fields.h finds the fields of the listing in the form, and passes all of it") \
    LAW(LISTINGS_TELL, "two blocks have one listing exactly if their forms are equal") \
    LAW(FORM_LISTING, "a form has its block's listing") \
    LAW(CAPTIONS, "captions accepts what check accepts, with the same fault otherwise") \
    LAW(LABELS, "captions are lines of ASCII, each with a label") \
    LAW(FORM_CAPTIONS, "a form has its block's captions") \
    LAW(PREFIX, "six bytes before an Exif block change no result, and before a record they are no block") \
    LAW(TAIL, "bytes after an Exif form don't change its meaning") \
    LAW(ZEROS, "up to three zeros after a record change nothing, and four are refused") \
    LAW(JOINED, "two records, one after the other, are accepted") \
    LAW(FREED, "all memory is freed") \
    LAW(LITTLE, "the memory allocated at once is in proportion to the block") \
    LAW(NO_MEMORY, "a failed allocation is NO_MEMORY, or makes no difference") \
    LAW(ORDER, "the first fault of a record stays the first, whatever follows it") \
    LAW(HEAD, "a head has the parts of which it was made") \
    LAW(HEAD_FAULT, "a head that is cut, or has another byte in place of a part, has this fault, and the parts before it") \
    LAW(HEAD_END, "what precedes a fault is whole, with the end of the picture behind it") \
    LAW(HEAD_MORE, "bytes after a head change nothing") \
    LAW(HEAD_ROOM, "for an array that is too short for the parts their number is returned, and nothing is written") \
    LAW(RESOURCES, "Photoshop's resources are those that were made, whatever follows them") \
    LAW(RESOURCES_ROOM, "for an array that is too short for them their number is returned, and nothing is written") \
    LAW(BLOCKS, "the blocks of a picture are its pieces, joined where a block has several") \
    LAW(BLOCKS_ROOM, "for an array that is too short for blocks or for joined bytes both numbers are returned, and nothing is written") \
    LAW(BLOCKS_FAULT, "the calls for blocks and for what is not read refuse a head that is cut, at the part that is cut") \
    LAW(BLOCKS_BEFORE, "the blocks before a fault are those of the parts before it, but before a cut for a last one of Exif that may go on") \
    LAW(BLOCKS_CHECKED, "a picture is refused for the first block that check refuses, Exif before IPTC, and otherwise the same as itself") \
    LAW(UNREAD, "the place that is not read is the first one by the rules of the format, or there is none") \
    LAW(UNREAD_MEMORY, "a failed allocation while such a place is looked for is NO_MEMORY, or makes no difference") \
    LAW(XMP_PLACE, "the packet of XMP of a picture is that of the only such segment, or there is none, or more of them is the first place") \
    LAW(XMP_CUT, "a head that is cut has no packet of XMP, and this fault") \
    LAW(NOT_READ, "pictures that are the same but for a place that is not read are not called the same, and the first such place is named") \
    LAW(PICTURES, "two pictures are the same exactly if they have as many blocks, and these mean the same") \
    LAW(PICTURE_FAULT, "a picture with a refused block is refused, with the block's kind, number, cause and offset, on either side") \
    LAW(SAME_XMP, "the comparison with XMP returns what that of blocks does, but for a difference of XMP, or for XMP that is not read") \
    LAW(PICTURE_MEMORY, "a failed allocation while pictures are compared is NO_MEMORY, and sets nothing") \
    LAW(PACKET, "a packet of XMP has a form, or a cause of its status and an offset in the packet") \
    LAW(PACKET_CHECK, "xmp_normalise accepts what xmp_check accepts, with the same fault otherwise, and sets nothing else") \
    LAW(PACKET_ROOM, "for an output that is too short for a packet's form its length is returned, and nothing is written, nor after a form") \
    LAW(PACKET_FORM, "a packet's form is a packet, and its own form") \
    LAW(PACKET_PROPERTIES, "exifnorm_fields.h finds a property for each start tag of a packet's form, and passes all of it") \
    LAW(PACKET_CHANGES, "what is around a packet, comments, white space, x:xmpmeta and another description change no form") \
    LAW(PACKET_ORDER, "the properties of two packets have one form in both orders, or stand twice in both") \
    LAW(PACKET_AS_WRITTEN, "xmp_unsorted writes as much as xmp_normalise, of the same normal form, and has the same fault otherwise") \
    LAW(PACKET_MEMORY, "a failed allocation is NO_MEMORY for a packet, and sets nothing")

#define LAW_NUMBER(name, text) LAW_##name,
enum { LAWS(LAW_NUMBER) LAW_COUNT };

enum { CAUSES = 64 }; /* more than there are */

/* What was seen. */
struct seen {
    unsigned long blocks, accepted, records;
    unsigned long causes[CAUSES];
    unsigned long looked[LAW_COUNT], broken[LAW_COUNT];
};

extern struct seen seen;

/* The text of a law. */
const char *law_text(int law);

/* Counts that a law was checked, and whether it holds. Returns that. */
int holds(int law, int is_so);

/* Allocates the buffers in which blocks are judged; 0 if there is no memory. */
int open_room(void);
int open_heads(void);
int open_blocks(void);
int open_pictures(void);
int open_packets(void);

/* Judges a head and Photoshop's resources that are made from the bytes of a block. */
void judge_heads(const unsigned char *block, size_t length);

/* Judges the blocks of another such head, and what isn't read in it. */
void judge_blocks(const unsigned char *block, size_t length);

/* Judges pictures that are made of a block, whose check returned this cause, or 0, and this offset. */
void judge_pictures(const unsigned char *block, size_t length, uint32_t cause, uint32_t place);

/* Judges a block that begins as a packet of XMP does. Returns the status, or EXIFNORM_REFUSED for any other block. */
uint32_t judge_packet(const unsigned char *block, size_t length);

/* The longest block that is judged here. */
size_t longest_block(void);

/* Judges a block, by itself and beside the one that was accepted last. Returns the cause, or 0 if it is accepted, also as a packet of XMP. */
unsigned judge(const unsigned char *block, size_t length);

#endif
