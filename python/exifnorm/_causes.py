"""Each cause of a refusal in a sentence for people, and what helps.

    >>> OF_BLOCKS["EmptyDirectory"][0], OF_HEADS["JpegLength"][0]
    ('A directory has no entry.', "The head of the JPEG is damaged: a segment's length is less than 2.")
"""

from __future__ import annotations

from typing import Dict, Tuple

from ._errors import LIMIT

TOUCH = (
    "`exifnorm-pictures mend`, which repairs the block and keeps the rest of the file. By hand let ExifTool add a field and remove it: it then"
    " lays the block out again"
)
_OTHER = "Extract the block again; if the file itself is damaged, use another copy of the picture."
_PACKET = (
    "`exiftool -xmp:all= -tagsfromfile @ -xmp:all copy.jpg` writes the packet of a copy again. Compare the copy with the picture: what "
    "ExifTool can't read or doesn't know is lost, and that may be the whole packet."
)
_RARE = "`exifnorm-pictures` reads most of these packets, as other readers of RDF/XML do."
_COPY = "Use another copy of the picture: a program has cut or overwritten this file."

OF_BLOCKS: Dict[str, Tuple[str, str]] = {
    "TooLong": (
        f"The block is longer than {LIMIT:,} bytes.",
        "Give the block and not the file that contains it. A real block of this length can't be normalised.",
    ),
    "UnknownKind": ("The input is neither an Exif block nor an IPTC record.", "A picture without metadata needs no remedy. " + _OTHER),
    "HeaderCut": (
        "The block ends inside its first eight bytes.",
        _OTHER + " ExifTool can remove the segment: `exiftool -Exif:all= picture.jpg`.",
    ),
    "Loop": (
        "An offset leads to a directory that was already read: following the offsets would never end.",
        TOUCH + " without the second pointer.",
    ),
    "DirectoryOutside": (
        "A directory is not completely inside the block.",
        "`exifnorm-pictures mend`; by hand, exiv2 adds a field and removes it (2 of 2); after piexif, ExifTool does the "
        "same (69 of 69).",
    ),
    "EmptyDirectory": (
        "A directory has no entry.",
        TOUCH + " without the empty directory (4 of 6). If that doesn't help, use the rebuild.",
    ),
    "Overlap": ("Two parts of the block share bytes.", TOUCH + " with a copy for each value (7 of 8; all 12 of exiv2, all 69 of piexif)."),
    "Unsorted": ("The tags of a directory don't ascend.", TOUCH + " in order (8 of 10); the rebuild did the other two."),
    "Doubled": (
        "A directory has a tag twice.",
        "`exifnorm-pictures mend`, which keeps the first of the two, or ExifTool's rebuild (4 of 4). Look at both values "
        "first, and decide which is meant: `exiftool -a -G1 -s picture.jpg`.",
    ),
    "UnknownType": (
        "A field has an unknown type.",
        TOUCH + ", if it knows the field. Otherwise use the rebuild, which leaves the field out.",
    ),
    "MisplacedOffset": (
        "A field has offsets of data outside the directory that aren't followed here.",
        "Give the picture itself to `exifnorm-pictures`. It takes each page and each SubIFD of a TIFF "
        "as a block of its own and leaves these entries out, and takes the block of a raw picture through exiv2. In a JPEG "
        "such fields point nowhere: the rebuild leaves them out.",
    ),
    "PointerForm": (
        "A pointer, or an offset or length of the thumbnail, is not a LONG with a count of 1.",
        TOUCH + " with a LONG (1 of 1).",
    ),
    "ValueOutside": (
        "A value passes the end of the block.",
        "`exifnorm-pictures mend`; by hand, exiv2, which leaves the field empty, or ExifTool's rebuild, which leaves it "
        "out (1 of 1). First look for an earlier copy of the picture.",
    ),
    "ThumbnailPair": (
        "The offset or the length of the thumbnail is missing, or the lists of strips differ in length.",
        TOUCH + " without the incomplete pair. Otherwise use the rebuild. `exiftool '-ThumbnailImage<=small.jpg'` writes a new thumbnail.",
    ),
    "ExtraDirectory": (
        "A further directory follows the thumbnail directory.",
        "`exifnorm-pictures mend`. Look at the fields of the third directory first: `exiv2 -pa picture.jpg` shows it as Image2.",
    ),
    "ThumbnailOutside": (
        "The thumbnail passes the end of the block.",
        "`exifnorm-pictures mend`, which drops or cuts the thumbnail, or ExifTool's rebuild (2 of 2). `exiftool "
        "'-ThumbnailImage<=small.jpg'` writes a new thumbnail.",
    ),
    "NoMarker": (
        "There is no octet 1C where a DataSet must begin.",
        "`exifnorm-pictures mend`: ExifTool or exiv2 writes the record again. ExifTool drops what follows the offset, "
        "exiv2 keeps it: compare both.",
    ),
    "LengthForm": (
        "The length of an extended DataSet has no octets, or more than four.",
        "`exifnorm-pictures mend`: ExifTool writes the record again.",
    ),
    "DataSetCut": ("A DataSet passes the end of the block.", "`exifnorm-pictures mend`: the record is written again without the DataSet."),
}
"""The causes of a block's refusal, in the order of docs/FORMAT.md."""

OF_HEADS: Dict[str, Tuple[str, str]] = {
    "JpegNoStart": (
        "The bytes don't begin as a JPEG does, with FF D8.",
        "Give the bytes of a JPEG from their beginning. Other formats are read by `exifnorm_pictures`.",
    ),
    "JpegNoMarker": ("The head of the JPEG is damaged: there is no marker where a segment must begin.", _COPY),
    "JpegLength": ("The head of the JPEG is damaged: a segment's length is less than 2.", _COPY),
    "JpegCut": (
        "The JPEG ends inside its head, before the first scan.",
        "Give more of the file. If there is no more, the picture isn't whole: use another copy.",
    ),
    "JpegTooLong": (
        "The blocks of the JPEG that are in several pieces are too long together.",
        "No camera writes so much: the file was made to take memory. Don't compare it.",
    ),
}
"""The causes of a JPEG's refusal, of which a part before the first scan is damaged or missing."""

OF_PACKETS: Dict[str, Tuple[str, str]] = {
    "XmpTooLong": (f"The packet is longer than {LIMIT:,} bytes.", _PACKET),
    "XmpBadCharacter": ("The packet has bytes that are no UTF-8, or a character that XML does not allow.", _PACKET),
    "XmpBadMarkup": ("The packet is not well-formed: a tag, a comment or a section is damaged or cut.", _PACKET),
    "XmpBadReference": ("The packet is not well-formed: an & begins no reference that XML has.", _PACKET),
    "XmpDocumentType": ("The packet has a document type declaration, which XMP does not allow.", _PACKET),
    "XmpOtherEnd": ("The packet is not well-formed: an end tag has another name than its element.", _PACKET),
    "XmpAttributeTwice": ("The packet is not well-formed: a tag has an attribute twice.", _PACKET),
    "XmpBadPrefix": ("The packet is not well-formed: a prefix is not declared, or a declaration is not allowed.", _PACKET),
    "XmpNoRoot": ("The packet is not one XML element: it is empty, or has text or elements beside the root.", _PACKET),
    "XmpTooDeep": ("More than 100 elements are nested in one another.", _PACKET),
    "XmpNoRdf": ("The packet is not x:xmpmeta around one rdf:RDF, nor rdf:RDF by itself.", _PACKET),
    "XmpSeveralSubjects": ("The packet makes statements about several subjects.", _PACKET),
    "XmpRareEncoding": ("The packet is not in UTF-8, or has a rare XML declaration.", _RARE),
    "XmpRareName": ("A name in the packet is not of ASCII.", _RARE),
    "XmpRareNamespace": (
        "A namespace in the packet is a rare one: it is long, has odd characters, is a mere name, or begins as that of RDF or XML.",
        _RARE,
    ),
    "XmpRareCount": ("A tag has more than 256 attributes, or too many prefixes are declared at one place.", _RARE),
    "XmpRareElement": ("The packet has an element in a rare form of RDF/XML.", _RARE),
    "XmpRareAttribute": ("The packet has an attribute in a rare form of RDF/XML.", _RARE),
    "XmpRareText": ("The packet has text between elements.", _RARE),
    "XmpRareLanguage": ("A text has a language that is none, or has more than 100 characters.", _RARE),
    "XmpRareResource": ("A resource is no absolute URI of ASCII.", _RARE),
    "XmpRareRepeated": ("A property stands twice in one place.", _RARE),
    "XmpRareLength": (f"The normal form would be longer than {LIMIT:,} bytes.", _RARE),
    "XmpRareDepth": ("More than 100 elements would be nested in one another in the normal form.", _RARE),
}
"""The causes of a refusal of a packet of XMP. Those of a rare packet begin with XmpRare."""

CAUSE_WORDS = {**OF_BLOCKS, **OF_HEADS, **OF_PACKETS}
