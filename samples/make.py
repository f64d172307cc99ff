#!/usr/bin/env python3
"""Makes the sample pictures: what a museum's registrar has before and after a day of work on the metadata. Needs Pillow.

  samples/make.py [FOLDER]

Writes the folders before and after into FOLDER, which is the folder of this file if it isn't given. Each run writes the same bytes.
"""

from __future__ import annotations

import io
import struct
import sys
import zlib
from pathlib import Path
from typing import Any, Dict

import drawings
from metadata import ASCII, BIG, BYTE, DATA, DIRECTORY, LITTLE, LONG, RATIONAL, SHORT, UNDEFINED, Exif, Fields, exif, iptc, xmp
from PIL import Image

MUSEUM = "Riverside Museum"
BEFORE_BLOCK = b"Exif\0\0"  # in a JPEG segment


# ---- what the cameras and the scanner write


def camera(make: str, model: str, taken: str, **more: Any) -> Fields:
    """The Exif fields of a studio camera."""
    inner: Fields = {
        0x829A: (RATIONAL, [(1, 60)]),
        0x829D: (RATIONAL, [(110, 10)]),
        0x8827: (SHORT, [200]),
        0x9000: (UNDEFINED, b"0230"),
        0x9003: (ASCII, taken),
        0x9004: (ASCII, taken),
        0x9101: (UNDEFINED, b"\1\2\3\0"),
        0x9209: (SHORT, [16]),
        0x920A: (RATIONAL, [(600, 10)]),
        0xA000: (UNDEFINED, b"0100"),
        0xA001: (SHORT, [1]),
        0xA002: (SHORT, [drawings.WIDTH]),
        0xA003: (SHORT, [drawings.HEIGHT]),
        0xA402: (SHORT, [1]),
        0xA403: (SHORT, [1]),
    }
    main: Fields = {
        0x010F: (ASCII, make),
        0x0110: (ASCII, model),
        0x0112: (SHORT, [1]),
        0x011A: (RATIONAL, [(300, 1)]),
        0x011B: (RATIONAL, [(300, 1)]),
        0x0128: (SHORT, [2]),
        0x0132: (ASCII, taken),
        0x0213: (SHORT, [2]),
        0x8769: (DIRECTORY, inner),
    }
    return {**main, **{int(tag, 16): it for tag, it in more.items()}}


def nikon(taken: str, **more: Any) -> Fields:
    return camera("NIKON CORPORATION", "NIKON D300", taken, **more)


def canon(taken: str, **more: Any) -> Fields:
    return camera("Canon", "Canon EOS 5D Mark II", taken, **more)


# ---- pictures


def jpeg_of(picture: Image.Image, quality: int = 68) -> bytes:
    buffer = io.BytesIO()
    picture.save(buffer, "JPEG", quality=quality, optimize=True)
    return buffer.getvalue()


def thumbnail_of(picture: Image.Image) -> bytes:
    return jpeg_of(picture.resize((160, 120), Image.Resampling.LANCZOS), 55)


def jpeg(picture: Image.Image, block: bytes, record: bytes = b"", packet: bytes = b"") -> bytes:
    """A JPEG file with these blocks, which replace the JFIF header."""
    plain = jpeg_of(picture)
    header = 4 + int.from_bytes(plain[4:6], "big")
    segments = [(0xE1, BEFORE_BLOCK + block)]
    if packet:
        segments.append((0xE1, b"http://ns.adobe.com/xap/1.0/\0" + packet))
    if record:
        resource = b"8BIM\x04\x04\0\0" + struct.pack(">L", len(record)) + record + bytes(len(record) % 2)
        segments.append((0xED, b"Photoshop 3.0\0" + resource))
    return plain[:2] + b"".join(struct.pack(">BBH", 0xFF, marker, len(it) + 2) + it for marker, it in segments) + plain[header:]


def png(picture: Image.Image, block: bytes, packet: bytes) -> bytes:
    """A PNG file with these blocks after its header."""
    buffer = io.BytesIO()
    picture.quantize(32).save(buffer, "PNG", optimize=True)
    plain, header = buffer.getvalue(), 33
    chunks = [(b"eXIf", block), (b"iTXt", b"XML:com.adobe.xmp\0\0\0\0\0" + packet)]
    added = b"".join(struct.pack(">L", len(it)) + name + it + struct.pack(">L", zlib.crc32(name + it)) for name, it in chunks)
    return plain[:header] + added + plain[header:]


def webp(picture: Image.Image, block: bytes, packet: bytes) -> bytes:
    """A WebP file with these blocks."""
    buffer = io.BytesIO()
    picture.save(buffer, "WEBP", quality=60, method=6, exif=block, xmp=packet)
    return buffer.getvalue()


def tiff(picture: Image.Image, fields: Fields, record: bytes, packet: bytes) -> bytes:
    """A TIFF file as scanners write it: one compressed strip, and the metadata in its directory."""
    pixels: Fields = {
        0x0100: (SHORT, [picture.width]),
        0x0101: (SHORT, [picture.height]),
        0x0102: (SHORT, [8, 8, 8]),
        0x0103: (SHORT, [8]),
        0x0106: (SHORT, [2]),
        0x0111: (DATA, zlib.compress(picture.tobytes(), 9)),
        0x0115: (SHORT, [3]),
        0x0116: (SHORT, [picture.height]),
        0x0117: (LONG, [len(zlib.compress(picture.tobytes(), 9))]),
        0x02BC: (BYTE, packet),
        0x83BB: (UNDEFINED, record),
    }
    file = Exif(LITTLE, tables_first=True)
    at = file.directory({**fields, **pixels})
    file.body[:8] = b"II" + struct.pack("<HL", 42, at)
    return bytes(file.body)


# ---- the objects


def vases() -> Dict[str, bytes]:
    """A vase, and a smaller copy for the press. The program that made the copy wrote the blocks again: the other byte order, the values
    before their tables, XMP in another form. They mean the same. On the next day it did so with the picture itself."""
    picture = drawings.vase()
    fields = nikon("2019:03:12 10:41:07", **{"013B": (ASCII, "Lena Brandt"), "8298": (ASCII, MUSEUM)})
    record = iptc([(5, "1998.7"), (25, "clay"), (25, "vase"), (80, "Lena Brandt"), (116, MUSEUM), (120, "Vase with two bands, about 1890")])
    about = {
        "dc:title": ("Alt", ["Vase with two bands"]),
        "dc:subject": ("Bag", ["clay", "vase"]),
        "photoshop:Credit": MUSEUM,
        "xmp:Rating": "4",
    }
    small = thumbnail_of(picture)
    again = exif(LITTLE, fields, small, tables_first=False), record, xmp(about, compact=False)
    for_press = jpeg(picture.resize((240, 180), Image.Resampling.LANCZOS), *again)
    return {
        "before/ceramics/1998-7-vase.jpg": jpeg(picture, exif(BIG, fields, small), record, xmp(about)),
        "after/ceramics/1998-7-vase.jpg": jpeg(picture, *again),
        "before/press/vase.jpg": for_press,
        "after/press/vase.jpg": for_press,
    }


def bowls() -> Dict[str, bytes]:
    """A bowl, whose caption had a slip. The registrar corrected it, and added the museum's copyright."""
    picture = drawings.bowl()
    small = thumbnail_of(picture)

    def record(caption: str) -> bytes:
        return iptc([(5, "2003.12"), (25, "bowl"), (25, "celadon"), (80, "Lena Brandt"), (120, caption)])

    taken = "2019:03:12 11:20:45"
    return {
        "before/ceramics/2003-12-bowl.jpg": jpeg(picture, exif(LITTLE, canon(taken), small), record("Bowl, celadon glaze, 1820")),
        "after/ceramics/2003-12-bowl.jpg": jpeg(
            picture, exif(LITTLE, canon(taken, **{"8298": (ASCII, MUSEUM)}), small), record("Bowl, celadon glaze, 1280")
        ),
    }


def portraits() -> Dict[str, bytes]:
    """A scan of a portrait, whose sitter was found out."""
    picture = drawings.portrait()
    scanner: Fields = {
        0x010F: (ASCII, "EPSON"),
        0x0110: (ASCII, "Expression 10000XL"),
        0x011A: (RATIONAL, [(600, 1)]),
        0x011B: (RATIONAL, [(600, 1)]),
        0x0128: (SHORT, [2]),
        0x0131: (ASCII, "EPSON Scan"),
        0x0132: (ASCII, "2009:06:30 15:02:11"),
    }

    def scan(title: str) -> bytes:
        record = iptc([(5, "1974.31"), (25, "portrait"), (116, MUSEUM), (120, "Oil on panel, 42 x 34 cm")])
        about = {"dc:title": ("Alt", [title]), "dc:creator": ("Seq", ["unknown"]), "photoshop:Credit": MUSEUM}
        return tiff(picture, scanner, record, xmp(about))

    return {
        "before/paintings/1974-31-portrait.tif": scan("Portrait of a woman"),
        "after/paintings/1974-31-portrait.tif": scan("Portrait of Anna Wirth"),
    }


def plans() -> Dict[str, bytes]:
    """A town plan that nobody touched."""
    about = {"dc:title": ("Alt", ["Plan of the town at the river"]), "dc:subject": ("Bag", ["map"]), "photoshop:Credit": MUSEUM}
    fields: Fields = {0x010E: (ASCII, "Town plan, 1931.4"), 0x0131: (ASCII, "Desk 2.1"), 0x0132: (ASCII, "2015:11:03 09:15:00")}
    file = png(drawings.town_plan(), exif(BIG, fields), xmp(about))
    return {"before/prints/1931-4-plan.png": file, "after/prints/1931-4-plan.png": file}


def sashes() -> Dict[str, bytes]:
    """A sash, whose XMP another program wrote again. Its meaning is the same."""
    picture = drawings.sash()
    about = {"dc:title": ("Alt", ["Sash"]), "dc:creator": ("Seq", ["Weaver & Sons"]), "photoshop:City": "Riverside", "xmp:Rating": "3"}
    block = exif(LITTLE, canon("2021:08:19 16:30:02"))
    return {
        "before/textiles/2011-2-sash.webp": webp(picture, block, xmp(about)),
        "after/textiles/2011-2-sash.webp": webp(picture, block, xmp(about, compact=False)),
    }


def crates() -> Dict[str, bytes]:
    """A picture of a phone whose GPS directory is empty, which the standard doesn't allow: the block is refused."""
    fields = camera("Xiaomi", "Redmi Note 4", "2024:05:02 08:12:33", **{"8825": (DIRECTORY, {})})
    file = jpeg(drawings.crate(), exif(BIG, fields))
    return {"before/arrivals/IMG_20240502.jpg": file, "after/arrivals/IMG_20240502.jpg": file}


def tiles() -> Dict[str, bytes]:
    """A new tile, whose picture got a name and went to its folder."""
    picture = drawings.tile()
    file = jpeg(picture, exif(BIG, nikon("2024:05:02 14:02:51", **{"013B": (ASCII, "Lena Brandt")}), thumbnail_of(picture)))
    return {"before/arrivals/DSC_0042.jpg": file, "after/ceramics/2024-3-tile.jpg": file}


def main(words: list[str]) -> None:
    if len(words) > 1:
        sys.exit(__doc__)
    folder = Path(words[0]) if words else Path(__file__).resolve().parent
    for make in (vases, bowls, portraits, plans, sashes, crates, tiles):
        for name, data in make().items():
            path = folder / name
            path.parent.mkdir(parents=True, exist_ok=True)
            path.write_bytes(data)


if __name__ == "__main__":
    main(sys.argv[1:])
