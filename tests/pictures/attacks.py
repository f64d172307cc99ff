"""Files that are made to cost time or memory: each has a function that writes it, and what `index` tells about it."""

import hashlib
import os
import struct
import zlib

from made_blocks import ASCII, segment
from made_boxes import PICTURE, RDF, box, cr3, full, heif, jp2, jxl
from made_files import EXTENSION_HEAD, app1_xmp, app13, chunk, jpeg, packed_zeros, page, png, png_xmp, profile, tiff, webp, xmp
from made_more_files import gif, psd
from made_raw import rw2, whole_raf
from studio import SMALL_JPEG

SHARED = 8  # where the value begins that the pages of `sharing` share


def sharing(value, pages, tag, kind):
    """A TIFF of many pages, which all have the same bytes as one value."""
    octets = bytearray(b"MM\0*" + struct.pack(">I", SHARED + len(value)) + value)
    for number in range(pages):
        following = len(octets) + 18 if number < pages - 1 else 0
        octets += struct.pack(">HHHIII", 1, tag, kind, len(value), SHARED, following)
    return bytes(octets)


def extended(packets, length):
    """A JPEG in which many packets name one extended packet."""
    inside = "".join(f"<dc:a{number}>x</dc:a{number}>" for number in range(length // 30))
    packet = xmp(inside)
    name = hashlib.md5(packet).hexdigest().upper()
    size = 60_000
    pieces = [
        segment(0xE1, EXTENSION_HEAD + name.encode() + struct.pack(">II", len(packet), at) + packet[at : at + size])
        for at in range(0, len(packet), size)
    ]
    naming = (app1_xmp(xmp("", f"note:HasExtendedXMP='{name}' xmp:Rating='{number}'")) for number in range(packets))
    return jpeg(*naming, *pieces)


def many_values(number, size, step):
    """A block with private tags, at most 23,000, whose values begin some bytes after one another; the last two are at one place."""
    start = 8 + 2 + 12 * number + 4
    places = [start + step * min(it, number - 2) for it in range(number)]
    rows = (struct.pack(">HHII", 0xA500 + it, 1, size, place) for it, place in enumerate(places))
    return b"MM\0*\0\0\0\x08" + struct.pack(">H", number) + b"".join(rows) + bytes(4) + bytes(places[-1] + size - start)


def many_pointers(number):
    """A block whose entries all lead to directories, each of as many entries as fit."""
    start = 8 + 2 + 12 * number + 4
    rows = (struct.pack(">HHII", 0x8769, 4, 1, start + 2 * it) for it in range(number))
    return b"MM\0*\0\0\0\x08" + struct.pack(">H", number) + b"".join(rows) + bytes(4) + b" " * 400_000


def resources(number):
    return b"8BIM\4\x25\0\0\0\0\0\0" * number


def sparse(octets):
    """A function that writes a picture with a hole of 8 GB after it, and one more byte."""

    def make(path):
        with open(path, "wb") as file:
            file.write(octets)
            file.truncate(8 << 30)
            file.seek(0, os.SEEK_END)
            file.write(b"x")

    return make


def written(make):
    """A function that writes what another returns."""

    def write(path):
        with open(path, "wb") as file:
            file.write(make())

    return write


ONE_PAGE = page((0x010F, ASCII, b"Abc\0"))
A_TEXT = "x" * 14_000_000

# The name of each file, and a word that the catalogue has for it: a problem, a cause of a block that isn't accepted, a kind of part
# that was not read, or nothing if all of it was read.
FILES = {
    "shared-values.png": (written(lambda: png(chunk(b"eXIf", many_values(23_000, 5, 0)))), "Overlap"),
    "neighbouring-values.png": (written(lambda: png(chunk(b"eXIf", many_values(23_000, 5, 5)))), "Overlap"),
    "growing-values.png": (written(lambda: png(chunk(b"eXIf", many_values(23_000, 1_000_000, 0)))), "Overlap"),
    "pointers.png": (written(lambda: png(chunk(b"eXIf", many_pointers(60_000)))), "Doubled"),
    "one-extension.jpg": (written(lambda: extended(100, 3_000_000)), "TooLong"),
    "pages-of-one-packet.tif": (written(lambda: sharing(xmp("<dc:a>" + "x" * 25_000 + "</dc:a>"), 9000, 0x02BC, 1)), ""),
    "pages-of-a-long-packet.tif": (written(lambda: sharing(xmp("<dc:a>" + "<dc:b/>" * 2_000_000 + "</dc:a>"), 15, 0x02BC, 1)), "TooLong"),
    "pages-of-one-text.tif": (written(lambda: sharing(b"x" * (1 << 20), 400, 0x010F, ASCII)), "TooMuch"),
    "sparse.jpg": (sparse(SMALL_JPEG), "first scan"),
    "sparse.png": (sparse(png()), "trailer"),
    "sparse.tif": (sparse(tiff(ONE_PAGE)), "trailer"),
    "sparse.webp": (sparse(webp((b"VP8 ", b"abcd"))), "trailer"),
    "resources.png": (
        written(lambda: png(chunk(b"zTXt", b"Raw profile type 8bim\0\0" + zlib.compress(profile_text(resources(2_600_000)), 9)))),
        "TooMuch",
    ),
    "resources-in-lines.png": (written(lambda: png(*[profile(b"8bim", resources(6000))] * 20)), "TooMuch"),
    "pages-of-resources.tif": (written(lambda: sharing(resources(2300), 9000, 0x8649, 7)), "TooMuch"),
    "resources.jpg": (written(lambda: jpeg(*[app13(resources(5000))] * 100)), "TooMuch"),
    "attributes.png": (
        written(lambda: png(png_xmp(xmp("", " ".join(f"dc:a{number}='1'" for number in range(1_000_000))), packed=True))),
        "TooLong",
    ),
    "language.png": (written(lambda: png(png_xmp(xmp("<dc:a>x</dc:a>" * 1000, f"xml:lang='{A_TEXT}'"), packed=True))), "LongLanguage"),
    "namespace.png": (
        written(lambda: png(png_xmp(xmp("<q:a/>" * 100_000, f"xmlns:q='urn:{A_TEXT[:10_000_000]}'"), packed=True))),
        "LongNamespace",
    ),
    "bags.png": (
        written(
            lambda: png(png_xmp(xmp("<dc:a>" + "<rdf:Bag><rdf:li>" * 20 + A_TEXT + "</rdf:li></rdf:Bag>" * 20 + "</dc:a>"), packed=True))
        ),
        "",
    ),
    "tags.png": (written(lambda: png(png_xmp(xmp("<dc:a/>" * 600_000), packed=True))), "TooLong"),
    "segments.jpg": (written(lambda: b"\xff\xd8" + b"\xff\xfe\0\2" * 1_000_000), "TooMuch"),
    "directories.tif": (
        written(lambda: b"MM\0*\0\0\0\x08" + b"".join(struct.pack(">HI", 0, 14 + 6 * it) for it in range(1_000_000))),
        "TooMuch",
    ),
    "chunks.png": (written(lambda: png(*[chunk(b"aaaa", b"")] * 1_000_000)), "TooMuch"),
    "chunks.webp": (written(lambda: webp(*[(b"abcd", b"")] * 1_000_000)), "TooMuch"),
    "inflated.png": (
        written(lambda: png(*[chunk(b"zTXt", b"xml:com.adobe.xmp\0\0" + packed_zeros(30))] * 100)),
        "TooMuch",
    ),
    "record.jpg": (written(lambda: jpeg_record(b"\x1c\2\x19\0\1a" * 2_700_000)), ""),
    "entries.tif": (written(lambda: b"MM\0*" + entries(20, 65_000)), "TooMuch"),
    "items.heic": (written(lambda: sharing_items(65_000, 1, 1)), "TooMuch"),
    "shared-items.heic": (written(lambda: sharing_items(1000, 1, 1 << 20)), "TooMuch"),
    "extents.heic": (written(lambda: sharing_items(10, 65_000, 1)), "TooMuch"),
    "sparse.heic": (sparse(heif(PICTURE)), "trailer"),
    "samples.cr3": (written(lambda: cr3(box(b"CMT1", tiff(ONE_PAGE)), samples=(b"",) * 250_000)), "TooMuch"),
    "boxes.jxl": (written(lambda: jxl(box(b"free") * 1_000_000)), "TooMuch"),
    "resources.psd": (written(lambda: psd(resources(2_600_000))), "TooMuch"),
    "sparse.psd": (sparse(psd()), "trailer"),
    "sparse.gif": (sparse(gif()), "trailer"),
    "sparse.jp2": (sparse(jp2()), "trailer"),
    "sparse.jxl": (sparse(jxl()), "trailer"),
    "sparse.raf": (sparse(whole_raf()), "trailer"),
    "sparse.rw2": (sparse(rw2()), ""),  # whose pixels may go on to its end
    "sparse.xmp": (sparse(xmp("")), "TooMuch"),
    "extensions.gif": (written(lambda: gif(b"\x21\xfe\0" * 1_000_000)), "TooMuch"),
    "scans.jpg": (written(lambda: SMALL_JPEG[:-2] + b"\xff\xc0\0\2" * 1_500_000), ""),
}


def profile_text(data):
    """The text of a raw profile, before it is compressed."""
    return b"\n8bim\n%8d\n" % len(data) + data.hex().encode() + b"\n"


def jpeg_record(record):
    """A JPEG with a long IPTC record, split over segments."""
    whole = b"8BIM\4\4\0\0" + struct.pack(">I", len(record)) + record + bytes(len(record) % 2)
    size = 65_000
    return jpeg(*(segment(0xED, b"Photoshop 3.0\0" + whole[at : at + size]) for at in range(0, len(whole), size)))


def sharing_items(items, parts, length):
    """A HEIF of many packets, each of so many parts, which all are the same bytes."""
    head = box(b"ftyp", b"heic\0\0\0\0mif1")
    infes = [full(b"infe", 2, struct.pack(">HH4s", it, 0, b"mime"), b"\0", RDF) for it in range(1, items + 1)]
    places = (struct.pack(">HHHH", it, 0, 0, parts) + struct.pack(">II", 36, length) * parts for it in range(1, items + 1))
    handler = full(b"hdlr", 0, bytes(4), b"pict", bytes(12), b"\0")
    listed = full(b"iinf", 0, struct.pack(">H", items), *infes)
    located = full(b"iloc", 1, b"\x44\0", struct.pack(">H", items), *places)
    return head + box(b"mdat", bytes(8), b"<" * length) + full(b"meta", 0, handler, listed, located)


def entries(directories, number):
    """Directories with many entries each."""
    size = 2 + 12 * number + 4
    made = [struct.pack(">I", 8)]
    for it in range(directories):
        following = 8 + (it + 1) * size if it < directories - 1 else 0
        made.append(struct.pack(">H", number) + struct.pack(">HHII", 0x010F, 3, 1, 0) * number + struct.pack(">I", following))
    return b"".join(made)
