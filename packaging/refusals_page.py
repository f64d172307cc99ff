"""docs/REFUSALS.md: each cause of a refused block, with a picture of its bytes, and those of the head of a JPEG."""

from __future__ import annotations

import sys
from pathlib import Path

sys.path.insert(0, str(Path(__file__).resolve().parent.parent / "python"))

from exifnorm import LIMIT  # noqa: E402
from exifnorm._causes import OF_HEADS, TOUCH  # noqa: E402
from exifnorm_pictures.refusals.causes import CAUSES, Cause  # noqa: E402

MEASURED = "measured on 419 JPEG files of Debian source packages, 2026"
READERS = "ExifTool 12.57, exiv2 0.27.6, exif 0.6.22 (libexif), Pillow 9.4 and piexif 1.1.3 of Debian 12"
FIVE = "ExifTool, exiv2, exif, Pillow and piexif"
# Pictures of bytes; `!` is below the byte at the reported offset
DIAGRAMS = {
    "TooLong": f"0 .................... {LIMIT - 1} | {LIMIT} ...\n                                   !",
    "UnknownKind": "3C 78 3A 78 6D 70 ..      <x:xmp .. is XMP\nFF D8 FF E1 ..            a whole JPEG\n!",
    "HeaderCut": "4D 4D 00 2A 00 00 | the end; 8 bytes are required\n                  !",
    "Loop": "[main directory] at 8 ... next offset: 8\n      ^                                 !\n      +---------------------------------+",
    "DirectoryOutside": "00 02 | entry 1 | entry 2 | .. .. .. ..\n                          ^ the block ends here,\n"
    "                            and four bytes are missing",
    "EmptyDirectory": "GPS pointer --> 00 00 | 00 00 00 00\n                !  no entries",
    "Overlap": "Model    -> M o d e l   1 _\nSoftware ->         l   1 _ P r o g\n                    ^^^^^^^ whose bytes are these?",
    "Unsorted": "0110 Model | 010F Make | 0112 Orientation\n             !  below the one before it",
    "Doubled": "0112 Orientation: 1 | 0112 Orientation: 6\n                      !  which is it?",
    "UnknownType": "01 10 | 00 0D | 00 00 00 01 | 00 00 00 08\n!       type 13",
    "MisplacedOffset": "0111 StripOffsets: 8  in the main directory --> pixels?\n!",
    "PointerForm": "88 25 | 00 09 | 00 00 00 01 | 00 00 00 26\n!       type 9, SLONG; required is 4, LONG",
    "ValueOutside": "0110 Model, 40 bytes at 50 --> M o d e l 0 | the block ends\n!                                            34 bytes are missing",
    "ThumbnailPair": "0201 JPEGInterchangeFormat: 44   (no 0202: how long?)\n!",
    "ExtraDirectory": "[main] -> [thumbnail] -> [a third one]\n                      !",
    "ThumbnailOutside": "0201: at 56, 0202: 4000 bytes --> FF D8 FF D9 | the block ends\n!",
    "NoMarker": "1C 02 19 00 03 o n e | 3F | 1C 02 19 00 03 t w o\n                       !",
    "LengthForm": "1C 02 19 80 05 | 00 00 00 00 03 | o n e\n!          five octets of length",
    "DataSetCut": "1C 02 19 00 09 | o n e | the block ends\n!        nine octets required",
}

INTRODUCTION = f"""# Refusals

Why a block was refused, and what to do. `exifnorm-pictures explain PICTURE` prints the same with the bytes of the picture. A block that
breaks the rules (`FORMAT.md`, section 5) is refused with its first fault and the byte offset of that fault, and its file is never changed.
`show`, `changed` and `same` also read it after a repair in memory, which is tested, and not proved.

![The bytes of a refused block, in which the GPS pointer leads to a directory without entries](refusal.svg)

Counts of cameras and programs, by the pictures' own Make and Software, were {MEASURED}: 232 of them have an Exif block, and 35 real
pictures had a refused one. Where no writer is named, none was found; none of 91 IPTC records of cameras and editors had one of the last three faults. The five
readers were tried on the smallest block that has the fault: {READERS}. Where no cost is named, there is none.

## What helps, the least invasive first

Keep the original: each remedy writes another block, and may move a MakerNote.

```sh
exifnorm-pictures explain refused.jpg || test $? -eq 2
exifnorm-pictures mend refused.jpg mended.jpg
```

`mend` tries four steps on a copy, and takes the first whose block is accepted and that changes no printed value, else the one that loses
fewest values; it lists what was lost. The first step repairs an Exif block of a JPEG, PNG or WebP file, leaves the rest of the file as it is,
and needs no other program if nothing is lost. The others let programs write the block again. They mended 32 of the 35, 24 of them without loss. By hand:

*Touch*: ExifTool adds a field and removes it, and so lays the block out again in order, with a copy of what is shared.

```sh
cp refused.jpg touched.jpg
exiftool -m -overwrite_original -IFD0:PageName=zz touched.jpg
exiftool -m -overwrite_original -IFD0:PageName= touched.jpg
```

*exiv2*: the same with exiv2.

```sh
cp refused.jpg by-exiv2.jpg
exiv2 -M'set Exif.Image.PageName Ascii zz' by-exiv2.jpg
exiv2 -M'del Exif.Image.PageName' by-exiv2.jpg
```

*Rebuild*: ExifTool writes all tags that it knows into a new block. This helped 30 of 35, but only 10 kept all printed values: fractions
are reduced, mandatory tags added, unknown fields dropped.

```sh
cp refused.jpg rebuilt.jpg
exiftool -m -overwrite_original -all= -tagsfromfile @ -all:all -unsafe rebuilt.jpg
```
"""


def section(cause: Cause) -> str:
    """The section of the page on one cause."""
    lines = [f"## {cause.name}", "", filled(f"**{cause.sentence}** {cause.meaning}"), "", "```text", DIAGRAMS[cause.name], "```", ""]
    writers = "; ".join(f"{who} ({count})" for who, count in cause.writers if count != "0")
    remedy = cause.remedy.replace(TOUCH, "`mend`, or the *touch*, lays it out again").replace("`exifnorm-pictures mend`", "`mend`")
    readers = cause.readers.replace(FIVE, "All five")
    texts = {"Written by": writers[:1].upper() + writers[1:], "Other readers": readers, "Remedy": remedy, "Cost": cause.cost}
    for label, text in ((label, text) for label, text in texts.items() if text not in ("", "None.")):
        lines += [filled(f"*{label}.* {text.rstrip('.')}."), ""]
    return "\n".join(lines)


def page() -> str:
    """The whole of docs/REFUSALS.md."""
    return wrapped(INTRODUCTION) + "\n\n" + "\n".join(section(it) for it in CAUSES.values()) + "\n" + heads()


def heads() -> str:
    """The section on the head of a JPEG."""
    lines = ["## The head of a JPEG", "", filled(HEADS), "", "| Cause | Meaning | Remedy |", "|---|---|---|"]
    return "\n".join([*lines, *(f"| {name} | {sentence} | {remedy} |" for name, (sentence, remedy) in OF_HEADS.items())]) + "\n"


HEADS = """`exifnorm.jpeg_blocks`, `jpeg_parts`, `jpeg_same` and the C library's calls for JPEGs refuse a damaged head, which is all before the
first scan, with its first fault and the byte offset in the picture. `exifnorm-pictures` reads the blocks before the fault, and says that the
picture was not wholly read."""


def wrapped(text: str) -> str:
    """Each paragraph in one line; fenced blocks, headings and tables are unchanged."""
    pieces = []
    for index, fenced in enumerate(text.strip().split("```")):
        if index % 2:
            pieces.append(fenced)
            continue
        kept = [it if it.startswith(("#", "|")) else filled(it) for it in fenced.split("\n\n")]
        pieces.append("\n\n".join(kept))
    return "```".join(pieces)


def filled(paragraph: str) -> str:
    return " ".join(paragraph.split())
