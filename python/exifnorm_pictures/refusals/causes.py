"""The causes of refusals in sentences: one source for `explain`, `report` and docs/REFUSALS.md."""

from __future__ import annotations

from dataclasses import dataclass

from exifnorm._causes import OF_BLOCKS

from .. import xmp
from ..model.found import XMP


@dataclass(frozen=True)
class Cause:
    """One cause: its meaning, programs that write it, results of other readers, and remedies."""

    name: str
    meaning: str
    writers: tuple[tuple[str, str], ...]  # who wrote such blocks, and how many were met
    readers: str
    cost: str

    @property
    def sentence(self) -> str:
        """The fault in one sentence."""
        return OF_BLOCKS[self.name][0]

    @property
    def remedy(self) -> str:
        """What helps."""
        return OF_BLOCKS[self.name][1]


_CAUSES = (
    Cause(
        "TooLong",
        "A block in a JPEG has fewer than 65,536 bytes; other formats seldom have more than a megabyte. A longer block is"
        " usually a whole picture, or another file.",
        (),
        "Not tried: no JPEG can contain such a block.",
        "None.",
    ),
    Cause(
        "UnknownKind",
        "An Exif block begins with `II*\\0` or `MM\\0*`, an IPTC record with the octet 1C. An empty block, a whole JPEG, XMP and"
        " Photoshop resources begin otherwise. So does a BigTIFF (`II+\\0` or `MM\\0+`), whose offsets have eight bytes; as"
        " a picture `exifnorm-pictures` reads it. A picture without metadata gives an empty block.",
        (("pictures without metadata, extracted by a tool that gives an empty block with status 0", "many"),),
        "ExifTool: `Malformed APP1 EXIF segment`. exiv2: `This does not look like a TIFF image`. exif: `Corrupt data`. Pillow:"
        " no field. piexif: an exception.",
        "None.",
    ),
    Cause(
        "HeaderCut",
        "The header of an Exif block has eight bytes: the byte order, the number 42, and the offset of the main directory.",
        (),
        "ExifTool: `Malformed APP1 EXIF segment`. exiv2: `This does not look like a TIFF image`. exif prints nothing. Pillow 9.4"
        " can't open the whole picture. piexif: an exception. ExifTool extracts no block from such a picture, so `index` counts it"
        " among those without one.",
        "The content of the segment is lost in any case.",
    ),
    Cause(
        "Loop",
        "The main directory, the Exif, Interoperability, GPS and thumbnail directories are read once each. Here a pointer leads"
        " back to one of them.",
        (),
        "ExifTool: `IFD1 pointer references previous IFD0 directory`, and all other fields. exiv2 ignores the pointer with a"
        " message. exif and Pillow read the rest silently. piexif takes the fields a second time as those of the thumbnail.",
        "None that was seen: the pointer had no meaning.",
    ),
    Cause(
        "DirectoryOutside",
        "A directory is a number of entries, the entries of 12 bytes each, and four bytes for the offset of the next directory."
        " Usually only these last four bytes are missing, because a program that writes the directory at the end left them out.",
        (("Canon S100, saved by jhead", "2"), ("piexif, any picture", "139 of 142, together with Overlap and Unsorted")),
        "ExifTool and exif read the fields silently, exiv2 with `IFD exceeds data buffer, cannot read next pointer`, Pillow with a"
        " warning. piexif: an exception, also for blocks that piexif wrote.",
        "No printed value was lost.",
    ),
    Cause(
        "EmptyDirectory",
        "TIFF 6.0 asks for at least one entry in a directory. Some phones always write a GPS pointer, even if they don't know"
        " the location.",
        (("Xiaomi phones (an empty GPS directory), Apple iPhone 7, Nikon E995, digiKam", "6 in all"),),
        "ExifTool, exiv2, exif, Pillow and piexif report nothing; exiv2, Pillow and piexif show the pointer as a number.",
        "None by the touch (4 of 4); a rebuild changed printed values.",
    ),
    Cause(
        "Overlap",
        "TIFF 6.0 forbids two pointers to the same data. If two values share bytes, an edit of one changes the other, and nobody"
        " knows which of them was meant. Usually a count is too large. exiv2 also extends a MakerNote into the values after it.",
        (
            (
                "Olympus C8080WZ; Ricoh Caplio (PrintIM too long); 'DIGITAL CAMERA' (Copyright too long); GoPro HERO6;"
                " Vivitar X30; Nokia N70",
                "8 in all",
            ),
            ("exiv2, after an edit (its MakerNote extends into the values after it)", "12 of 175"),
            ("piexif, any picture", "139 of 142, together with Unsorted and DirectoryOutside"),
        ),
        "ExifTool, exiv2, exif, Pillow and piexif read both values and report nothing.",
        "No printed value was lost. Both values are kept, each with its copy of the shared bytes.",
    ),
    Cause(
        "Unsorted",
        "TIFF 6.0 requires ascending tags. Otherwise readers that use binary search miss fields.",
        (
            ("Fujifilm DS-7, LG VX-9700, Nokia 6350, HTC phones, InfiRay, Zoner Photo Studio 14", "10 in all"),
            ("piexif, any picture", "139 of 142, together with Overlap and DirectoryOutside"),
        ),
        "ExifTool, exiv2, exif, Pillow and piexif read all fields and report nothing.",
        "None by the touch (8 of 8); the rebuild changed printed values.",
    ),
    Cause(
        "Doubled",
        "A directory has one value for each tag. If it has a tag twice, readers differ in which value they use.",
        (("QuickTime 6 and 7 (Orientation), Pentax Optio (UserComment)", "4 in all"),),
        "ExifTool and exiv2 print both, exif only the first, Pillow and piexif only the second.",
        "One of the two values, and what else a rebuild changes (4 of 4 lost some printed value).",
    ),
    Cause(
        "UnknownType",
        "The types are those of TIFF 6.0 and Exif 3.0. Type 13 (IFD) is for offsets that would have to be followed; other numbers"
        " occur in damaged blocks.",
        (),
        "ExifTool: `IFD format not handled`. exiv2, Pillow: a number. exif leaves the field out. piexif: an exception.",
        "The field, if it is left out.",
    ),
    Cause(
        "MisplacedOffset",
        "Offsets of strips (StripOffsets) and of tiles (TileOffsets) lead to the pixels of a TIFF picture, SubIFDs to further"
        " directories, such as the smaller copies of a pyramid. A normal form moves data, so these offsets would be wrong in it."
        " So a whole TIFF picture, with strips or with tiles, is no block; each of its pages without these entries is one.",
        (("every TIFF and raw picture, tiled and pyramid TIFFs too, if the whole file is given as a block", "all"),),
        "ExifTool, exiv2, exif, Pillow and piexif show the offsets as numbers.",
        "None for a TIFF: the offsets of its pixels are no metadata. For a raw picture exiv2 also leaves out other tags of its pixels.",
    ),
    Cause(
        "PointerForm",
        "The standard defines one form of pointers. Others occur in damaged files and in those of few cameras.",
        (("Canon S5 IS (a GPS pointer as SLONG)", "1"),),
        "ExifTool, exiv2, exif and piexif follow the pointer and report nothing; Pillow shows a number.",
        "No printed value was lost.",
    ),
    Cause(
        "ValueOutside",
        "The offset or the count of a field is wrong, or the block was cut. The value can't be known.",
        (("Adobe Photoshop CC 2017", "1"),),
        "ExifTool leaves the field out with `Bad offset`. exiv2 makes it empty with a message. exif leaves it out. Pillow leaves"
        " out this and all later fields. piexif gives the bytes that are there.",
        "The field; most of it is lost in any case.",
    ),
    Cause(
        "ThumbnailPair",
        "Two entries describe a thumbnail: where it begins and how long it is.",
        (),
        "ExifTool and exiv2 show the offset alone; exif, Pillow and piexif have no thumbnail. None reports anything.",
        "The thumbnail, which couldn't be read.",
    ),
    Cause(
        "ExtraDirectory",
        "Exif has two directories in a row. A normal form would lose the fields of a third.",
        (),
        "exiv2 shows the third directory's fields. ExifTool, exif, Pillow and piexif read two and report nothing.",
        "The fields of the third directory, if a tool leaves it out.",
    ),
    Cause(
        "ThumbnailOutside",
        "The picture was cut, or the thumbnail was removed without its two entries.",
        (("Adobe Photoshop CS and CS4", "2"),),
        "ExifTool and piexif give the bytes that are there as a thumbnail. exiv2 ignores it with a message, Pillow without one. exif:"
        " `Corrupt data`, no field at all.",
        "The thumbnail; in 1 of 2 another printed value.",
    ),
    Cause(
        "NoMarker",
        "An IPTC record is a sequence of DataSets, each of which begins with 1C. Other octets between two of them, or more than"
        " three zeros after the last, show that a length is wrong or that something else was appended.",
        (("none of 91 IPTC records from cameras or editors; those found were made to break readers", "0"),),
        "ExifTool reads up to there and prints `Bad IPTC data tag`; exiv2 continues at the next 1C and reports nothing. exif,"
        " Pillow and piexif don't read IPTC records of JPEG pictures.",
        "With ExifTool, what follows the offset.",
    ),
    Cause(
        "LengthForm",
        "A DataSet of more than 32,767 octets has the number of octets of its length. Four are enough for every accepted" " block.",
        (("none of 91 IPTC records from cameras or editors; those found were made to break readers", "0"),),
        "ExifTool reads the DataSet. exiv2: `Failed to decode IPTC metadata`, no DataSet at all.",
        "None, if ExifTool reads the DataSet.",
    ),
    Cause(
        "DataSetCut",
        "A length is wrong, or the record was cut.",
        (("none of 91 IPTC records from cameras or editors; those found were made to break readers", "0"),),
        "ExifTool leaves the DataSet out and reports nothing; exiv2 leaves it out with `has invalid size`.",
        "The DataSet; a part of it is lost in any case.",
    ),
)

CAUSES = {it.name: it for it in _CAUSES}

_WRITE_AGAIN = "`exifnorm-pictures mend`, whose last step lets ExifTool write all tags that it reads into new blocks. It helps where ExifTool reads the packet."
_WHOLE_COPY = "Take the file from its source again: a program has copied its XMP only in part."

# The remedies of XMP packets that can't be read, by the causes of `exifnorm_pictures.xmp`, which has their meanings.
XMP_REMEDIES = {
    "TooLong": "No packet of a real picture is so long. Keep what is long, such as masks of an editor, outside of the picture.",
    "LongNamespace": "No real namespace is so long. `exifnorm-pictures mend` makes a copy without its properties, where ExifTool reads the packet.",
    "LongLanguage": "No real language is so long. Put another one in its place.",
    "NotText": _WRITE_AGAIN,
    "DocumentType": "Remove the declaration from the packet; nothing in XMP needs one.",
    "NotWellFormed": _WRITE_AGAIN,
    "NoRDF": _WRITE_AGAIN,
    "TooDeep": _WRITE_AGAIN,
    "RareForm": _WRITE_AGAIN,
    "SeveralSubjects": "`exiftool -XMP:all` shows which statements are about the picture; `mend` keeps those that ExifTool reads.",
    "Repeated": _WRITE_AGAIN,
    "ExtensionMissing": _WHOLE_COPY,
    "ExtensionNotNamed": _WHOLE_COPY,
    "ExtensionDamaged": _WHOLE_COPY,
}
# Those of packets over a limit. They make other programs slow too, so `explain` doesn't let these try what helps: on 2,000 elements in one
# another, 68 kB, ExifTool 12.57 takes 16 seconds of a processor.
OVER_LIMITS = ("TooLong", "LongNamespace", "LongLanguage", "TooDeep")
# Of blocks whose form is too long, that are compressed, or for which the memory didn't suffice: these have no cause of the grammar.
OTHER_REMEDIES = {
    "NormalTooLong": (
        "The block is accepted, but its normal form would be longer than any block may be.",
        "Nothing in it is wrong. Pictures with it are only the same byte for byte.",
    ),
    "Compressed": (
        "The block is compressed by Brotli, which isn't opened here.",
        "Write the JPEG XL again without it, such as by `cjxl --compress_boxes=0`.",
    ),
    "OutOfMemory": ("There was not enough memory to judge the block.", "Run `index --again` with fewer `--jobs`, or with more memory."),
}


def words_of(cause: str, kind: str = "") -> tuple[str, str] | None:
    """The meaning and the remedy of any cause that a block of a catalogue can have. TooLong is a cause of blocks, and another one of XMP.

    >>> words_of("RareForm")[1][:26], words_of("Unsorted")[0], words_of("TooLong", XMP)[1][:34]
    ('`exifnorm-pictures mend`, ', "The tags of a directory don't ascend.", 'No packet of a real picture is so ')
    """
    if cause in OF_BLOCKS and kind != XMP:
        return OF_BLOCKS[cause]
    if cause in XMP_REMEDIES:
        return xmp.CAUSES[cause], XMP_REMEDIES[cause]
    return OTHER_REMEDIES.get(cause)
