/* exifnorm.h: the meaning of a picture's metadata block: its one normal form, and whether two blocks mean the same; where the blocks
 * of a JPEG picture and its packet of XMP are, and whether two pictures have the same metadata; and the normal form of a packet of XMP.
 *
 * A block is an Exif block or a block of IPTC-NAA IIM DataSets. An Exif block may begin with the six bytes "Exif\0\0" that
 * precede it in a JPEG file. The calls open no picture file: they read a block in memory. Two blocks that mean
 * the same have equal normal forms, byte for byte; two that mean different things have different ones. A block that breaks the
 * rules is refused, with its first fault and the byte offset of that fault. Blocks are never repaired.
 *
 * The head of a JPEG picture is what precedes its first scan: markers, and segments of data (ITU-T T.81, B.1.1). Three calls find the
 * segments that contain blocks or a packet of XMP, without reading these. Two more compare the metadata of two pictures: exifnorm_jpeg_same
 * with XMP, and exifnorm_jpeg_same_blocks without.
 *
 * Whether two blocks of Exif or IPTC mean the same is proved, and whether two JPEGs have the same Exif, IPTC and XMP. Where the packets of
 * XMP are is proved. What is proved of their forms is said at exifnorm_xmp_normalise. How blocks are found in other formats, and groups of
 * pictures, are tested. It is proved of each call which status but EXIFNORM_NO_MEMORY it returns for which input, what it sets, and what stays
 * unchanged, but for one thing, which is tested: which packets of XMP without a form have the status REFUSED and which RARE. It is proved that
 * exifnorm_check doesn't return EXIFNORM_NO_MEMORY for a block of DataSets. What this page says otherwise of EXIFNORM_NO_MEMORY, and of copies,
 * of the stack, of threads, of ownership, and that EXIFNORM_NAME_ROOM is enough, is tested. That texts are ASCII is read in their definitions,
 * and tested.
 *
 * For every call:
 *
 *   Pointers   Each must point to as many bytes, or elements, as its length argument gives. One with the length 0 may be NULL, and no
 *              other may. What a call writes to (out, written, kind, same, unread, fault, parts, resources, blocks, sizes, count;
 *              and packet of exifnorm_jpeg_xmp) must not overlap any other argument. The two blocks or pictures of a comparison
 *              may overlap or be the same, since they are only read.
 *   Ownership  The caller keeps ownership of all arguments. A call keeps no pointer after it returns, and frees what it allocated.
 *   Threads    Calls share nothing and keep no state. Any number of threads may call at once, and may read the same block, if each
 *              has its own output arguments. Nobody may write to a block while a call reads it.
 *              Don't call these functions from a signal handler, or in the child of a fork of a process with threads.
 *   Status     Each call returns one of the numbers below, which are the same for all calls. What the description of a status
 *              doesn't name is unchanged.
 *   Memory     The calls use malloc, realloc and free. A failed allocation returns EXIFNORM_NO_MEMORY, and ends no process.
 *   Limits     A block has at most EXIFNORM_LIMIT bytes, and so has a normal form. The bytes of a picture have no limit. A stack of
 *              512 KiB is enough.
 */
#ifndef EXIFNORM_H
#define EXIFNORM_H

#include <stddef.h>
#include <stdint.h>
#include <stdlib.h>
#include <string.h>

#ifdef __cplusplus
extern "C" {
#endif

/* The version of this header, for the preprocessor: a program that is built with one version may run with another one of the library,
 * which exifnorm_version writes. */
#define EXIFNORM_VERSION "1.0.0"
#define EXIFNORM_VERSION_MAJOR 1
#define EXIFNORM_VERSION_MINOR 0
#define EXIFNORM_VERSION_PATCH 0

/* The greatest length of a block, and of a normal form, in bytes. */
#define EXIFNORM_LIMIT 16777216

/* The greatest size of the name of a cause, or of the version, with the zero byte that ends it. */
#define EXIFNORM_NAME_ROOM 32

/* The statuses. */
enum {
    /* Success. */
    EXIFNORM_DONE = 0,
    /* The block is refused; of two blocks or pictures, the first. Or the bytes are no head of a JPEG picture. fault has the cause. */
    EXIFNORM_REFUSED = 2,
    /* The block is valid, but its normal form is longer than EXIFNORM_LIMIT. */
    EXIFNORM_TOO_LONG = 3,
    /* An allocation failed. Nothing is known of the block. */
    EXIFNORM_NO_MEMORY = 4,
    /* out is too short, and written is the number of bytes needed; or an array is, and count is the number of elements needed. */
    EXIFNORM_TOO_LITTLE_ROOM = 5,
    /* The first of two blocks is valid, and the second is refused; or the first fault of two pictures is in the second. fault has
       the cause. */
    EXIFNORM_SECOND_REFUSED = 6,
    /* Two pictures are the same as far as they are read, and a part of the first isn't read. Or a picture has XMP that isn't read.
       unread has the place. Or, of exifnorm_jpeg_iptc, a picture has more than one block of IPTC. */
    EXIFNORM_NOT_READ = 7,
    /* The same, and a part of the second isn't read; all of the first is. unread has its place. */
    EXIFNORM_SECOND_NOT_READ = 8,
    /* The packet of XMP has what this library doesn't read, and another reader may: a rare form of RDF/XML, another encoding than UTF-8, a
       name, namespace or language outside the usual ones, or more than its limits allow. fault has the cause. */
    EXIFNORM_RARE = 9
};

/* The kinds of block. */
enum {
    EXIFNORM_EXIF = 1, /* directories in the structure of TIFF 6.0, by CIPA DC-008 */
    EXIFNORM_IIM = 2   /* DataSets of IPTC-NAA IIM 4.2 */
};

/* The causes of a refusal, in the order of docs/FORMAT.md. */
enum {
    EXIFNORM_CAUSE_TOO_LONG = 1,           /* the block is longer than EXIFNORM_LIMIT */
    EXIFNORM_CAUSE_UNKNOWN_KIND = 2,       /* the block is empty, or its first bytes, up to four, don't begin 49 49 2A 00 or 4D 4D 00 2A */
    EXIFNORM_CAUSE_HEADER_CUT = 3,         /* the block has fewer than eight bytes, those of the header */
    EXIFNORM_CAUSE_LOOP = 4,               /* a pointer has the offset of a directory that was already read */
    EXIFNORM_CAUSE_DIRECTORY_OUTSIDE = 5,  /* the number of a directory's entries, or its table, isn't completely inside the block */
    EXIFNORM_CAUSE_EMPTY_DIRECTORY = 6,    /* a directory has no entry */
    EXIFNORM_CAUSE_OVERLAP = 7,            /* two ranges share a byte */
    EXIFNORM_CAUSE_UNSORTED = 8,           /* a tag is less than the one before it */
    EXIFNORM_CAUSE_DOUBLED = 9,            /* a tag is equal to the one before it */
    EXIFNORM_CAUSE_UNKNOWN_TYPE = 10,      /* the type of an entry is none of the thirteen */
    EXIFNORM_CAUSE_MISPLACED_OFFSET = 11,  /* a tag is forbidden in this directory: it has offsets that aren't followed there */
    EXIFNORM_CAUSE_POINTER_FORM = 12,      /* a pointer or an entry of the thumbnail has a wrong type or count */
    EXIFNORM_CAUSE_VALUE_OUTSIDE = 13,     /* a value at an offset isn't completely inside the block */
    EXIFNORM_CAUSE_THUMBNAIL_PAIR = 14,    /* one entry of a thumbnail's pair is missing, or the two lists of strips differ in count */
    EXIFNORM_CAUSE_EXTRA_DIRECTORY = 15,   /* the next offset of the thumbnail directory is not 0 */
    EXIFNORM_CAUSE_THUMBNAIL_OUTSIDE = 16, /* the offset plus the length of a thumbnail's JPEG or strip passes the block's end */
    EXIFNORM_CAUSE_NO_MARKER = 17,         /* there is no 1C where a DataSet must begin */
    EXIFNORM_CAUSE_LENGTH_FORM = 18,       /* an extended length has no bytes or more than four */
    EXIFNORM_CAUSE_DATASET_CUT = 19        /* a DataSet passes the block's end */
};

/* Why a block is refused: its first fault. */
struct exifnorm_fault {
    uint32_t cause; /* one of the causes above; of a packet of XMP EXIFNORM_XMP_BAD_MARKUP, .. */
    uint32_t place; /* the byte offset in the block, at most EXIFNORM_LIMIT; a leading "Exif\0\0" isn't counted */
};

/* Sets kind to the kind of the block: EXIFNORM_EXIF or EXIFNORM_IIM.
 *
 *   DONE       kind is set.
 *   REFUSED    fault is set.
 *   NO_MEMORY  nothing is set. Never of a block that begins with 1C, as one of DataSets does: it is checked without an allocation.
 */
uint32_t exifnorm_check(const unsigned char *block, size_t block_length, /* the block */
                        uint32_t *kind,                                  /* is set to its kind */
                        struct exifnorm_fault *fault);                   /* is set to the cause of a refusal */

/* Writes the block's normal form to the beginning of out. A form has at most twice as many bytes as its block. It is written
 * directly into out: only the meaning of the block is allocated.
 *
 *   DONE             out begins with the form; written is its length. The rest of out is unchanged.
 *   REFUSED          fault is set.
 *   TOO_LONG         nothing is set.
 *   NO_MEMORY        nothing is set.
 *   TOO_LITTLE_ROOM  written is the length of the form, which is more than out_length.
 */
uint32_t exifnorm_normalise(const unsigned char *block, size_t block_length, /* the block */
                            unsigned char *out, size_t out_length,           /* receives the form */
                            size_t *written,                                 /* is set to its length */
                            struct exifnorm_fault *fault);                   /* is set to the cause of a refusal */

/* Compares two blocks: same is 1 if they mean the same, else 0. An Exif block and an IIM block never do. A block whose normal form
 * is too long can be compared. The first block is checked completely before the second.
 *
 *   DONE            same is set.
 *   REFUSED         fault is set, and describes the first block.
 *   SECOND_REFUSED  fault is set, and describes the second block; the first is valid.
 *   NO_MEMORY       nothing is set.
 */
uint32_t exifnorm_compare(const unsigned char *first, size_t first_length,   /* a block */
                          const unsigned char *second, size_t second_length, /* the other block */
                          uint32_t *same,                                    /* is set to 1 or 0 */
                          struct exifnorm_fault *fault);                     /* is set to the cause of a refusal */

/* Writes the listing of the block to the beginning of out: a line for each directory, field and DataSet, as the command
 * `exifnorm show` prints it (docs/FORMAT.md, "Listing"). The text is ASCII. Each line ends with a line feed, and no zero byte
 * ends the text. Statuses as for exifnorm_normalise, without TOO_LONG.
 */
uint32_t exifnorm_show(const unsigned char *block, size_t block_length, /* the block */
                       unsigned char *out, size_t out_length,           /* receives the listing */
                       size_t *written,                                 /* is set to its length */
                       struct exifnorm_fault *fault);                   /* is set to the cause of a refusal */

/* Writes the block's captions, names, keywords and rights to the beginning of out, a line for each, as the command
 * `exifnorm captions` prints them (docs/FORMAT.md, "Captions"). The text is ASCII: a backslash, and each byte that is not
 * printable, is written as a backslash and two hexadecimal digits. Each line ends with a line feed, and no zero byte ends the
 * text. Statuses as for exifnorm_show.
 */
uint32_t exifnorm_captions(const unsigned char *block, size_t block_length, /* the block */
                           unsigned char *out, size_t out_length,           /* receives the captions */
                           size_t *written,                                 /* is set to their length */
                           struct exifnorm_fault *fault);                   /* is set to the cause of a refusal */

/* What a part of a JPEG picture's head contains, by its marker and the mark with which its data begin. */
enum {
    EXIFNORM_JPEG_OTHER = 0,       /* none of the following */
    EXIFNORM_JPEG_EXIF = 1,        /* APP1, "Exif" and two zeros: a block of Exif, or a piece of one */
    EXIFNORM_JPEG_PHOTOSHOP = 2,   /* APP13, "Photoshop 3.0" and a zero: Photoshop's image resources, or a piece of them */
    EXIFNORM_JPEG_XMP = 3,         /* APP1, "http://ns.adobe.com/xap/1.0/" and a zero: a packet of XMP */
    EXIFNORM_JPEG_EXTENDED_XMP = 4 /* APP1, "http://ns.adobe.com/xmp/extension/" and a zero: 32 bytes that name the text, its length
                                      and the offset of this piece in it, four bytes each, most significant first, and the piece */
};

/* Why bytes are no head of a JPEG picture. No cause of a block's refusal has one of these numbers. */
enum {
    EXIFNORM_JPEG_NO_START = 101,    /* they don't begin with FF D8 */
    EXIFNORM_JPEG_NO_MARKER = 102,   /* a part doesn't begin with FF, or 0 follows its bytes FF */
    EXIFNORM_JPEG_LENGTH_FORM = 103, /* a segment's length is less than 2 */
    EXIFNORM_JPEG_HEAD_CUT = 104,    /* the bytes end before the head does */
    EXIFNORM_JPEG_TOO_LONG = 105     /* blocks in several pieces have more than 16 times EXIFNORM_LIMIT bytes; exifnorm_jpeg_same,
                                        exifnorm_jpeg_same_blocks and exifnorm_jpeg_unread alone */
};

/* A part of a head: a marker, with the data of its segment if it has one. */
struct exifnorm_jpeg_part {
    uint32_t marker; /* the second byte of the marker; the first is FF */
    uint32_t kind;   /* EXIFNORM_JPEG_OTHER, EXIFNORM_JPEG_EXIF, .. */
    uint32_t begins; /* 1: a block begins here; 0: this continues the block of the part before, or the kind is OTHER */
    size_t start;    /* the byte offset of the data, after the mark of their kind */
    size_t size;     /* the number of their bytes */
};

/* Why bytes are no head: the first fault. */
struct exifnorm_jpeg_fault {
    uint32_t cause; /* EXIFNORM_JPEG_NO_START, .. */
    size_t place;   /* the byte offset of the part that has the fault */
};

/* Stores the parts of the head of the picture that begins with these bytes: all of them, up to the header of the first scan or the
 * end of the picture, which is the last one. What follows it is not read, so the first bytes of a file may be enough: if they are
 * not, the cause is EXIFNORM_JPEG_HEAD_CUT. A block in several pieces is their bytes, one after another. Data of Exif that follow
 * those of Exif begin a block if they begin with a header of TIFF. Data of Photoshop that follow those of Photoshop begin none.
 *
 *   DONE             parts begins with the parts; count is their number. The rest of parts is unchanged.
 *   REFUSED          fault is set. parts begins with the parts before the fault, all of them whole; count is their number.
 *   TOO_LITTLE_ROOM  count is the number of parts, or of those before the first fault, which is more than room.
 */
uint32_t exifnorm_jpeg_parts(const unsigned char *bytes, size_t length,       /* the picture, or its first bytes */
                             struct exifnorm_jpeg_part *parts, size_t room,   /* receives the parts */
                             size_t *count,                                   /* is set to their number */
                             struct exifnorm_jpeg_fault *fault);              /* is set to the cause of a refusal */

/* Where a block of a picture is. */
struct exifnorm_jpeg_block {
    uint32_t kind;   /* EXIFNORM_JPEG_EXIF, EXIFNORM_JPEG_PHOTOSHOP, EXIFNORM_JPEG_XMP or EXIFNORM_JPEG_EXTENDED_XMP */
    uint32_t joined; /* 0: the block has one piece, and is in the picture; 1: it has more, and is in out */
    size_t start;    /* the byte offset of the block: in the picture, or in out */
    size_t size;     /* the number of its bytes */
};

/* How much the blocks of a picture need. */
struct exifnorm_jpeg_sizes {
    size_t blocks; /* the number of blocks */
    size_t joined; /* the number of bytes of those in several pieces */
};

/* Stores where the blocks of the picture are that begins with these bytes, in their order, as exifnorm_jpeg_parts finds their pieces.
 * The pieces of a block in several pieces are joined in out, one such block after another. So a caller joins nothing: a block is the
 * range of the picture, or that of out. The IPTC is in the resources 0x0404 of a block of EXIFNORM_JPEG_PHOTOSHOP:
 * exifnorm_photoshop_resources finds them. As many bytes as the picture has are always enough for out; mostly none is used.
 *
 *   DONE             blocks begins with the blocks, and out with the joined bytes; sizes has their numbers. The rest of each is unchanged.
 *   REFUSED          fault is set. blocks begins with the blocks that end before the fault, and out with their joined bytes; sizes has
 *                    their numbers. If the cause is EXIFNORM_JPEG_HEAD_CUT, a block of Exif that more bytes may continue is none of them;
 *                    a block of Photoshop's resources is one as far as it goes.
 *   TOO_LITTLE_ROOM  sizes has the numbers that are needed: room is less than sizes.blocks, or out_length less than sizes.joined. blocks
 *                    and out are unchanged. The head may have a fault all the same.
 */
uint32_t exifnorm_jpeg_blocks(const unsigned char *bytes, size_t length,       /* the picture, or its first bytes */
                              struct exifnorm_jpeg_block *blocks, size_t room, /* receives the blocks */
                              unsigned char *out, size_t out_length,           /* receives the joined bytes */
                              struct exifnorm_jpeg_sizes *sizes,               /* is set to their numbers */
                              struct exifnorm_jpeg_fault *fault);              /* is set to the cause of a refusal */

/* One of Photoshop's image resources. */
struct exifnorm_photoshop_resource {
    size_t number; /* 0x0404: DataSets of IIM; 0x0422: Exif; 0x0424: XMP; .. */
    size_t start;  /* the byte offset of its data */
    size_t size;   /* the number of their bytes */
};

/* Stores Photoshop's image resources at the start of these bytes, those of a block of the kind EXIFNORM_JPEG_PHOTOSHOP. They end
 * where no resource is: at the end, or before other bytes, which some programs write.
 *
 *   DONE             resources begins with the resources; count is their number. The rest of resources is unchanged.
 *   TOO_LITTLE_ROOM  count is the number of resources, which is more than room.
 */
uint32_t exifnorm_photoshop_resources(const unsigned char *bytes, size_t length,                   /* the block */
                                      struct exifnorm_photoshop_resource *resources, size_t room, /* receives the resources */
                                      size_t *count);                                             /* is set to their number */

/* Why two pictures are not compared: the first fault of a head, or of a block. */
struct exifnorm_picture_fault {
    uint32_t cause; /* of a head EXIFNORM_JPEG_NO_START, ..; of a block EXIFNORM_CAUSE_LOOP, .. */
    uint32_t kind;  /* of a head 0; of a block EXIFNORM_EXIF or EXIFNORM_IIM */
    size_t number;  /* of a head 0; of a block how many of its kind come before it in the picture */
    size_t place;   /* of a head the byte offset of the part that has the fault, or 0 for EXIFNORM_JPEG_TOO_LONG; of a block the byte
                       offset in it, as exifnorm_check returns it */
};

/* A place in a picture that isn't read. */
struct exifnorm_unread_part {
    uint32_t found;  /* 1 if there is one, else 0 */
    uint32_t joined; /* 0: it is in the picture; 1: it is in the bytes that exifnorm_jpeg_blocks joins */
    size_t start;    /* the byte offset */
};

/* Compares the Exif, the IPTC and the XMP of two JPEG pictures. They have the same if
 *
 * - they have the same Exif and IPTC, as exifnorm_jpeg_same_blocks compares them;
 * - neither has XMP; or each has one packet (exifnorm_jpeg_xmp), and these have equal normal forms (exifnorm_xmp_normalise), together with
 *   their extended XMP if they have any;
 * - nothing in them is left unread.
 *
 * So two pictures without metadata have the same. Pixels, and what follows the head, are not compared: exifnorm_jpeg_has_further says whether
 * a file has further pictures there. The first bytes of a file may be enough, as for exifnorm_jpeg_parts. What is read of Exif and IPTC is
 * proved, and so are the places of packets and that the forms are those of what they mean. It is also proved that one packet which is all XMP
 * of a picture is read, unless it has no meaning within the limits of exifnorm_xmp_normalise or names extended XMP, and that a packet and
 * extended XMP are joined, unless they can't be within these limits.
 *
 * A known difference comes first: in Exif or IPTC, as for exifnorm_jpeg_same_blocks; or in XMP, if all XMP of both pictures is read, and the
 * forms differ, or one has none and no place that exifnorm_jpeg_unread returns, where XMP may be too.
 * Otherwise, if something is not read, the pictures may differ there. Then the status is NOT_READ or SECOND_NOT_READ, and same is unchanged.
 * In each picture, the first of these places counts:
 *
 * - one that exifnorm_jpeg_unread returns;
 * - XMP that ExifTool reads too: in a segment APP1 without a known mark that begins with "http", or with "XMP" and a zero, or has
 *   "<?xpacket" or "<exif:" in it; or else in Photoshop's resource 0x0424;
 * - a packet that is wrong or rare: exifnorm_xmp_check says why; or that names extended XMP which is missing;
 * - a second packet, or extended XMP that can't be joined to the packet (docs/FORMAT.md, "The head of a JPEG"), whichever comes first.
 *
 *   DONE             same is set: 1 if the pictures have the same, 0 if they don't.
 *   NOT_READ         they have the same, as far as both are read; unread is a place in the first picture.
 *   SECOND_NOT_READ  the same; all of the first picture is read, and unread is a place in the second picture.
 *   REFUSED          fault is set, and describes the first picture. No fault of XMP is one of these.
 *   SECOND_REFUSED   fault is set, and describes the second picture.
 *   NO_MEMORY        nothing is set.
 */
uint32_t exifnorm_jpeg_same(const unsigned char *first, size_t first_length,   /* a picture, or its first bytes */
                            const unsigned char *second, size_t second_length, /* the other picture */
                            uint32_t *same,                                    /* is set to 1 or 0 */
                            struct exifnorm_unread_part *unread,               /* is set to a place that isn't read */
                            struct exifnorm_picture_fault *fault);             /* is set to the cause of a refusal */

/* Compares the Exif and the IPTC of two JPEG pictures, and not their XMP. They have the same if they have equal numbers of Exif blocks and
 * of IPTC blocks, and each block means the same as its counterpart, in their order. Exif is in segments APP1, and IPTC in Photoshop's
 * resources 0x0404 in segments APP13. One without a byte is no block (docs/FORMAT.md, "The head of a JPEG").
 * Two pictures whose XMP differs may have the same here.
 *
 * Other programs read Exif and IPTC in more places, which exifnorm_jpeg_unread lists. If one of the pictures has something in such a place,
 * they may differ there, or have there what one has less. Then the status is NOT_READ or SECOND_NOT_READ, and same is unchanged, unless two
 * blocks with the same number mean different things: then same is 0.
 *
 * Both heads are read first. Then the blocks of the first picture are checked, and then those of the second, Exif before IPTC. Statuses as
 * for exifnorm_jpeg_same; unread is the first such place of its picture.
 */
uint32_t exifnorm_jpeg_same_blocks(const unsigned char *first, size_t first_length,   /* a picture, or its first bytes */
                                   const unsigned char *second, size_t second_length, /* the other picture */
                                   uint32_t *same,                                    /* is set to 1 or 0 */
                                   struct exifnorm_unread_part *unread,               /* is set to the first place that isn't read */
                                   struct exifnorm_picture_fault *fault);             /* is set to the cause of a refusal */

/* Finds the first place in a picture where other programs may read Exif or IPTC and exifnorm_jpeg_same_blocks doesn't, or the reverse.
 * Segments come before resources. Such a place is
 *
 * - a segment APP1 that has "Exif" in any case and a zero among its first nine bytes, but doesn't begin with "Exif" and two zeros;
 * - a segment APP13 with any data that begins neither with "Photoshop 3.0" and a zero nor with "Adobe_CM";
 * - Photoshop's resource 0x0422 with any data;
 * - resource 0x0404 with another signature than "8BIM", which only some programs read;
 * - what follows the last resource, unless all of it is zeros.
 *
 *   DONE       unread is set.
 *   REFUSED    fault is set: the bytes have no head, or EXIFNORM_JPEG_TOO_LONG.
 *   NO_MEMORY  nothing is set.
 */
uint32_t exifnorm_jpeg_unread(const unsigned char *bytes, size_t length, /* the picture, or its first bytes */
                              struct exifnorm_unread_part *unread,       /* is set to the place */
                              struct exifnorm_jpeg_fault *fault);        /* is set to the cause of a refusal */

/* Where the packet of XMP of a picture is. */
struct exifnorm_jpeg_packet {
    uint32_t found; /* 1 if there is one, else 0 */
    size_t start;   /* the byte offset in the picture; 0 if there is none */
    size_t size;    /* the number of bytes; 0 if there is none */
};

/* Finds the packet of XMP in the head of a picture: the data of the segment APP1 that begins with "http://ns.adobe.com/xap/1.0/" and a
 * zero, after that zero (XMP part 3, 1.1.3). The packet isn't read: exifnorm_xmp_normalise reads it. Two pictures with a packet each have the
 * same XMP in these segments if the forms of both are equal.
 *
 * A picture may have more XMP: a second such segment, or extended XMP, a further packet that is cut over segments APP1 which begin with
 * "http://ns.adobe.com/xmp/extension/" and a zero. This call joins none, so the status is NOT_READ. It doesn't look for XMP elsewhere, as
 * in Photoshop's resource 0x0424, in a segment with another mark, or after the head. The first bytes of a file may be enough, as for
 * exifnorm_jpeg_parts.
 *
 *   DONE      packet is set: there is one packet, or none.
 *   NOT_READ  unread is set, to the data of the second packet or of the first piece of extended XMP, whichever comes first, after its mark.
 *   REFUSED   fault is set: the bytes have no head.
 */
uint32_t exifnorm_jpeg_xmp(const unsigned char *bytes, size_t length, /* the picture, or its first bytes */
                           struct exifnorm_jpeg_packet *packet,       /* is set to the place of the packet */
                           struct exifnorm_unread_part *unread,       /* is set to the place of XMP that isn't read */
                           struct exifnorm_jpeg_fault *fault);        /* is set to the cause of a refusal */

/* Why a packet of XMP has no normal form. No other cause has one of these numbers. Those from EXIFNORM_XMP_RARE_ENCODING on come with the
 * status RARE, all others with REFUSED. */
enum {
    EXIFNORM_XMP_TOO_LONG = 201,         /* the packet is longer than EXIFNORM_LIMIT */
    EXIFNORM_XMP_BAD_CHARACTER = 202,    /* no character that XML allows is here, in UTF-8 */
    EXIFNORM_XMP_BAD_MARKUP = 203,       /* a tag, a comment, a section or a processing instruction is none of XML's, or is cut */
    EXIFNORM_XMP_BAD_REFERENCE = 204,    /* a text or a tag has an & that begins no reference to a character or to one of XML's five entities */
    EXIFNORM_XMP_DOCUMENT_TYPE = 205,    /* there is a document type */
    EXIFNORM_XMP_OTHER_END = 206,        /* an end tag has another name than its element */
    EXIFNORM_XMP_ATTRIBUTE_TWICE = 207,  /* a tag has an attribute twice */
    EXIFNORM_XMP_BAD_PREFIX = 208,       /* a prefix is not declared, or a declaration is not allowed */
    EXIFNORM_XMP_NO_ROOT = 209,          /* there is text or a second element beside the root, or no root */
    EXIFNORM_XMP_TOO_DEEP = 210,         /* an element is inside 100 others */
    EXIFNORM_XMP_NO_RDF = 211,           /* the root is not x:xmpmeta around one rdf:RDF, nor rdf:RDF */
    EXIFNORM_XMP_SEVERAL_SUBJECTS = 212, /* the packet has properties of several subjects */
    EXIFNORM_XMP_RARE_ENCODING = 251,    /* another encoding than UTF-8 */
    EXIFNORM_XMP_RARE_NAME = 252,        /* a name that is not of ASCII */
    EXIFNORM_XMP_RARE_NAMESPACE = 253,   /* a namespace that has more than 256 octets or odd ones, could be part of a name, or begins as one of XML's own */
    EXIFNORM_XMP_RARE_COUNT = 254,       /* more than 256 attributes of a tag, or too many prefixes in scope */
    EXIFNORM_XMP_RARE_ELEMENT = 255,     /* an element where the usual forms of RDF/XML have none */
    EXIFNORM_XMP_RARE_ATTRIBUTE = 256,   /* an attribute that the usual forms do not have */
    EXIFNORM_XMP_RARE_TEXT = 257,        /* text between elements */
    EXIFNORM_XMP_RARE_LANGUAGE = 258,    /* a language that is none, or has more than 100 characters */
    EXIFNORM_XMP_RARE_RESOURCE = 259,    /* a resource that is no absolute URI of ASCII */
    EXIFNORM_XMP_RARE_REPEATED = 260,    /* a property stands twice in one place */
    EXIFNORM_XMP_RARE_LENGTH = 261,      /* the normal form would be longer than EXIFNORM_LIMIT */
    EXIFNORM_XMP_RARE_DEPTH = 262        /* in the normal form an element would be inside 100 others */
};

/* Judges a packet of XMP: whether it has a normal form, as exifnorm_xmp_normalise writes it.
 *
 *   DONE       it has one.
 *   REFUSED    the packet is wrong; fault is set.
 *   RARE       it may have a meaning; fault is set, and says where the first rare form is.
 *   NO_MEMORY  nothing is set.
 */
uint32_t exifnorm_xmp_check(const unsigned char *packet, size_t packet_length, /* the packet */
                            struct exifnorm_fault *fault);                     /* is set to the cause of a refusal */

/* Writes the normal form of a packet of XMP to the beginning of out: a packet of the same properties, which are in the order of their
 * bytes, as the members of each rdf:Bag are. Two packets with equal forms have the same properties, with the same values and languages.
 * Prefixes, the order of properties, whether one is an attribute or an element, white space between elements, comments, rdf:about,
 * x:xmptk and the padding make no difference. Extended XMP is a packet of its own. The place of a fault is the byte offset in the packet
 * of the tag or the text that has it.
 *
 * It is proved that the form is that of what the packet means, that it is a packet which means the same, and that a packet which is
 * refused has no meaning. It is also proved that each packet with a meaning has a form, if it is within these limits: 16,777,216 bytes,
 * and 100 elements in one another, of the packet and of its form; 256 attributes of a tag; 356 elements and prefixes in scope; 256 bytes of
 * a namespace; and 100 bytes of a language. Only the forms of RDF/XML that docs/FORMAT.md describes have a meaning here. Each form is within
 * the limits, and its own form. The call ends and is safe for any bytes, and returns NO_MEMORY exactly if an allocation failed. This is
 * proved, too. Which cause a packet has without a form is tested.
 *
 *   DONE             out begins with the form; written is its length. The rest of out is unchanged.
 *   REFUSED          the packet is wrong, and has no meaning; fault is set.
 *   RARE             it may have a meaning; fault is set.
 *   NO_MEMORY        nothing is set.
 *   TOO_LITTLE_ROOM  written is the length of the form, which is more than out_length.
 */
uint32_t exifnorm_xmp_normalise(const unsigned char *packet, size_t packet_length, /* the packet */
                                unsigned char *out, size_t out_length,             /* receives the form */
                                size_t *written,                                   /* is set to its length */
                                struct exifnorm_fault *fault);                     /* is set to the cause of a refusal */

/* Writes the form of a packet of XMP for showing it: the form that exifnorm_xmp_normalise writes, except that the members of each rdf:Bag are
 * in the order of the packet, which programs show, as of keywords. To compare packets, use exifnorm_xmp_normalise: two packets that mean the
 * same may have their members in different orders. Statuses and changes are as for exifnorm_xmp_normalise. If a bag has two members, the call
 * reads the packet once more, and what it has written too, unless that is the normal form. It then takes two to three times as long.
 *
 * It is proved that the form is a packet of at most EXIFNORM_LIMIT bytes which means what the packet means. What is proved of the statuses of
 * exifnorm_xmp_normalise is also proved of those of this call. That members are in the order of the packet is tested and not proved.
 */
uint32_t exifnorm_xmp_unsorted(const unsigned char *packet, size_t packet_length, /* the packet */
                               unsigned char *out, size_t out_length,             /* receives the form */
                               size_t *written,                                   /* is set to its length */
                               struct exifnorm_fault *fault);                     /* is set to the cause of a refusal */

/* Writes the name of a cause, as "Overlap", "JpegCut" or "XmpNoRdf", and a zero byte to the beginning of out. A number that is no cause has the
 * empty name.
 * EXIFNORM_NAME_ROOM bytes are always enough.
 *
 *   DONE             out begins with the name and its zero byte; written counts both.
 *   TOO_LITTLE_ROOM  written is the number of bytes needed; out is unchanged.
 */
uint32_t exifnorm_cause_name(uint32_t cause, char *out, size_t out_length, size_t *written);

/* Writes the library's version, as "1.0.0", and a zero byte to the beginning of out. Statuses as for exifnorm_cause_name. */
uint32_t exifnorm_version(char *out, size_t out_length, size_t *written);

/* Writes the library's version and a zero byte to out, an array of EXIFNORM_NAME_ROOM bytes, and returns out, for use as a string:
 *
 *   char version[EXIFNORM_NAME_ROOM];
 *   puts(exifnorm_version_string(version));
 */
static inline char *exifnorm_version_string(char *out) {
    size_t written;
    if (exifnorm_version(out, EXIFNORM_NAME_ROOM, &written) != EXIFNORM_DONE)
        out[0] = 0;
    return out;
}

/* Finds the IPTC in a block of Photoshop's resources, for exifnorm_jpeg_iptc. iptc is NULL, or that of a block before. */
static inline uint32_t exifnorm_photoshop_iptc(const unsigned char *block, size_t length, const unsigned char **iptc, size_t *size) {
    struct exifnorm_photoshop_resource *resources;
    size_t count, at;
    uint32_t status = exifnorm_photoshop_resources(block, length, NULL, 0, &count);
    if (status == EXIFNORM_DONE)
        return EXIFNORM_DONE;
    resources = (struct exifnorm_photoshop_resource *)calloc(count, sizeof *resources);
    if (!resources)
        return EXIFNORM_NO_MEMORY;
    status = exifnorm_photoshop_resources(block, length, resources, count, &count);
    for (at = 0; at < count; at++) {
        if (resources[at].number != 0x0404 || resources[at].size == 0)
            continue;
        if (*iptc)
            status = EXIFNORM_NOT_READ;
        *iptc = block + resources[at].start;
        *size = resources[at].size;
    }
    free(resources);
    return status;
}

/* Copies the IPTC of a JPEG picture to the beginning of out, for exifnorm_captions or any other call: the data of the resource 0x0404 of
 * Photoshop, as exifnorm_jpeg_blocks and exifnorm_photoshop_resources find it. One without a byte is no IPTC. As many bytes as the picture
 * has are always enough for out. What this call does beyond those two is tested, and not proved.
 *
 *   DONE             out begins with the DataSets, and written is the number of their bytes; or written is 0: the picture has no IPTC.
 *   NOT_READ         the picture has more than one such resource with data. Those two calls find them all.
 *   REFUSED          fault is set: the bytes have no head.
 *   NO_MEMORY        nothing is set.
 *   TOO_LITTLE_ROOM  written is the number of bytes needed; out is unchanged.
 */
static inline uint32_t exifnorm_jpeg_iptc(const unsigned char *bytes, size_t length, /* the picture, or its first bytes */
                                          unsigned char *out, size_t out_length,     /* receives the IPTC */
                                          size_t *written,                           /* is set to its length */
                                          struct exifnorm_jpeg_fault *fault) {       /* is set to the cause of a refusal */
    const unsigned char *iptc = NULL;
    struct exifnorm_jpeg_sizes sizes = {0, 0};
    size_t size = 0, at;
    uint32_t status = exifnorm_jpeg_blocks(bytes, length, NULL, 0, NULL, 0, &sizes, fault);
    /* One more of each: calloc may return NULL for none. */
    struct exifnorm_jpeg_block *blocks = (struct exifnorm_jpeg_block *)calloc(sizes.blocks + 1, sizeof *blocks);
    unsigned char *joined = (unsigned char *)calloc(sizes.joined + 1, 1);
    if (status == EXIFNORM_TOO_LITTLE_ROOM && !(blocks && joined))
        status = EXIFNORM_NO_MEMORY;
    if (status == EXIFNORM_TOO_LITTLE_ROOM)
        status = exifnorm_jpeg_blocks(bytes, length, blocks, sizes.blocks, joined, sizes.joined, &sizes, fault);
    for (at = 0; at < sizes.blocks && status == EXIFNORM_DONE; at++)
        if (blocks[at].kind == EXIFNORM_JPEG_PHOTOSHOP)
            status = exifnorm_photoshop_iptc((blocks[at].joined ? joined : bytes) + blocks[at].start, blocks[at].size, &iptc, &size);
    if (status == EXIFNORM_DONE) {
        *written = size;
        if (size > out_length)
            status = EXIFNORM_TOO_LITTLE_ROOM;
        else if (size > 0)
            memcpy(out, iptc, size);
    }
    free(joined);
    free(blocks);
    return status;
}

/* Whether the file has further pictures after the one that begins with these bytes, as the files of phones have: 1 if one of the parts of its
 * head, as exifnorm_jpeg_parts stores them, is an index of pictures (CIPA DC-007), a segment APP2 whose data begin with "MPF" and a zero; else
 * 0. No call reads or compares what follows the head. So of two pictures that are the same, this says whether their files have more.
 */
static inline uint32_t exifnorm_jpeg_has_further(const unsigned char *bytes, const struct exifnorm_jpeg_part *parts, size_t count) {
    size_t at;
    for (at = 0; at < count; at++)
        if (parts[at].marker == 0xE2 && parts[at].size >= 4 && memcmp(bytes + parts[at].start, "MPF", 4) == 0)
            return 1;
    return 0;
}

#ifdef __cplusplus
}
#endif

#endif
