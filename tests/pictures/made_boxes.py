"""Picture files made of boxes, written by hand: HEIF, CR3, JPEG XL and JPEG 2000."""

import struct
from itertools import accumulate
from typing import NamedTuple, Tuple

CANON = bytes.fromhex("85c0b687820f11e08111f4ce462b6a48")
XMP_UUID = bytes.fromhex("be7acfcb97a942e89c71999491e3afac")
RDF = b"application/rdf+xml\0"


def box(kind, *parts):
    data = b"".join(parts)
    return struct.pack(">I4s", 8 + len(data), kind) + data


def full(kind, version, *parts):
    """A box with a version, and flags of 0."""
    return box(kind, bytes((version, 0, 0, 0)), *parts)


def wide(made):
    """The same box with a length of eight bytes."""
    return struct.pack(">I4sQ", 1, made[4:8], len(made) + 8) + made[8:]


def item_exif(block, before=b"Exif\0\0"):
    """An Exif block as an item, after so many bytes."""
    return struct.pack(">I", len(before)) + before + block


class Item(NamedTuple):
    """An item of a HEIF. Its number is its position, from 1 on."""

    kind: bytes
    data: bytes
    after_name: bytes = b""  # what follows the name: of a mime item its type and its encoding
    describes: Tuple[int, ...] = ()
    method: int = 0  # of construction
    parts: int = 1  # extents
    protected: int = 0
    elsewhere: int = 0
    references: Tuple[Tuple[bytes, Tuple[int, ...]], ...] = ()  # other references, each with its kind


PICTURE = Item(b"hvc1", b"\x01" * 50)


def mime(packet, describes=(), **more):
    return Item(b"mime", packet, RDF, describes, **more)


def heif(
    *items,
    primary=1,
    brand=b"heic",
    in_meta=b"",
    properties=b"",
    behind=b"",
    version=1,
    size=4,
    padding=b"",
    large=False,
    base=None,
    lengths=True,
    index=0,
):
    """A HEIF with these items. `padding` separates their parts. `version` is that of iloc, `size` the bytes of its offsets, and `base` where
    they count from, if that isn't 0; before each offset are `index` bytes."""
    head = box(b"ftyp", brand + b"\0\0\0\0mif1" + brand)
    number = "I" if version == 2 else "H"
    idat = b"".join(it.data for it in items if it.method == 1)
    split = [_split(it) for it in items]
    media = b"".join(padding + part for parts, it in zip(split, items) if it.method != 1 for part in parts)

    def meta(start):
        places, at, inside = b"", start, 0
        for count, (parts, it) in enumerate(zip(split, items), 1):
            places += struct.pack(">" + number, count) + (struct.pack(">H", it.method) if version else b"")
            places += struct.pack(">H", it.elsewhere) + (b"" if base is None else struct.pack(">I", base if it.method != 1 else 0))
            places += struct.pack(">H", len(parts))
            for part in parts:
                at += len(padding) if it.method != 1 else 0
                places += b"\1" * index + (inside if it.method == 1 else at - (base or 0)).to_bytes(size, "big")
                places += len(part).to_bytes(size, "big") if lengths else b""
                inside, at = (inside + len(part), at) if it.method == 1 else (inside, at + len(part))
        return full(
            b"meta",
            0,
            full(b"hdlr", 0, bytes(4), b"pict", bytes(12), b"\0"),
            full(b"pitm", 0, struct.pack(">H", primary)) if primary else b"",
            full(b"iinf", 0, struct.pack(">H", len(items)), *(_infe(count, it) for count, it in enumerate(items, 1))),
            full(b"iref", 0, *_references(items)),
            box(b"iprp", box(b"ipco", full(b"ispe", 0, struct.pack(">II", 8, 8)), properties), full(b"ipma", 0, bytes(4))),
            box(b"idat", idat),
            full(
                b"iloc",
                version,
                bytes((size << 4 | size * lengths, (0 if base is None else 4 << 4) | index)),
                struct.pack(">" + number, len(items)),
                places,
            ),
            in_meta,
        )

    start = len(head) + len(meta(base or 0)) + (16 if large else 8)
    data = box(b"mdat", media)
    return head + meta(start) + (wide(data) if large else data) + behind


def _split(it):
    """The data of an item in as many parts as it has."""
    ends = [len(it.data) * number // it.parts for number in range(it.parts + 1)]
    return [it.data[one:other] for one, other in zip(ends, ends[1:])]


def _infe(number, it):
    return full(b"infe", 2, struct.pack(">HH4s", number, it.protected, it.kind), b"\0", it.after_name)


def _references(items):
    for number, it in enumerate(items, 1):
        for kind, others in (*((b"cdsc", it.describes),) * bool(it.describes), *it.references):
            yield box(kind, struct.pack(f">HH{len(others)}H", number, len(others), *others))


# CR3

PREVIEW_UUID = bytes.fromhex("eaf42b5e1c984b88b9fbb7dc406e4d16")
VERSION = box(b"CNCV", b"CanonCR3_001/00.10.00/00.00.00")


def cr3(
    *structures,
    samples=(b"one", b"two"),
    packet=None,
    version=VERSION,
    in_moov=b"",
    in_track=b"",
    behind=b"",
    length=0,
    missing=0,
    long=True,
):
    """A CR3 with these boxes of Canon. `length` is that of each sample if they are equal, `missing` the bytes that the file lacks."""
    head = box(b"ftyp", b"crx \0\0\0\1crx isom")
    canon = box(b"uuid", CANON, version, box(b"CCTP"), box(b"THMB", bytes(16)), *structures)
    after = (box(b"uuid", XMP_UUID, packet) if packet is not None else b"") + box(b"uuid", PREVIEW_UUID, bytes(8), box(b"PRVW", bytes(24)))

    def moov(start):
        starts = [start + before for before in accumulate(map(len, samples), initial=0)][:-1]
        places = [b"\0" * 4, struct.pack(f">I{len(starts)}{'Q' if long else 'I'}", len(starts), *starts)]
        sizes = [
            b"\0" * 4,
            struct.pack(">II", length, len(samples)),
            b"" if length else struct.pack(f">{len(samples)}I", *map(len, samples)),
        ]
        metadata = track(b"CTMD", box(b"stsz", *sizes) + box(b"co64" if long else b"stco", *places) + in_track)
        return box(b"moov", canon, box(b"mvhd", b"x"), track(b"CRAW", b""), metadata, in_moov)

    start = len(head) + len(moov(0)) + len(after) + 8
    media = b"".join(samples)
    return head + moov(start) + after + box(b"mdat", media[: len(media) - missing]) + behind


def track(kind, more):
    """A track of this kind."""
    described = box(b"stsd", bytes(4), struct.pack(">II4s", 1, 16, kind), bytes(8))
    media = box(b"minf", box(b"nmhd", bytes(4)), box(b"dinf"), box(b"stbl", described, box(b"stts"), box(b"free", b"x"), more))
    return box(b"trak", box(b"tkhd", b"x"), box(b"mdia", box(b"mdhd"), box(b"hdlr"), media))


# JPEG XL and JPEG 2000


def jxl(*boxes, brand=b"jxl ", behind=b"", pixels=box(b"jxlc", b"\xff\x0a\x00")):
    return box(b"JXL ", b"\r\n\x87\n") + box(b"ftyp", brand + b"\0\0\0\0" + brand) + b"".join(boxes) + pixels + behind


def uuid(name, data):
    """A box uuid, whose name is 32 hexadecimal digits."""
    return box(b"uuid", bytes.fromhex(name), data)


SMALL_J2C = bytes.fromhex("ff4fff510029000000000001000000010000000000000000000000010000000100000000000000000001070101ffd9")


def jp2(*boxes, in_header=b"", behind=b"", pixels=box(b"jp2c", SMALL_J2C)):
    header = box(b"jp2h", box(b"ihdr", struct.pack(">IIHBBBB", 1, 1, 1, 7, 7, 0, 0)), full(b"colr", 1, b"\0\0\x10"), in_header)
    return box(b"jP  ", b"\r\n\x87\n") + box(b"ftyp", b"jp2 \0\0\0\0jp2 ") + header + b"".join(boxes) + pixels + behind
