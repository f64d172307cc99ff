"""Pictures as large as the limits allow, one of each format: as many bytes of each kind of block as one may have, and as many fields."""

import struct
from typing import Callable, Dict, NamedTuple, Tuple

import growing
from growing import Parts
from made_blocks import ASCII, segment
from made_files import app1_xmp, extension, iim, jpeg, raf, xmp
from made_raw import fuji

from exifnorm_pictures.model import budgets

MEGABYTE = 1 << 20
BLOCK = 16 * MEGABYTE - 32_768  # bytes of the values of a block, which is a little longer
PIECE = 65_000  # bytes of a segment


def in_segments(marker, head, data):
    """The segments of a JPEG that have these bytes together."""
    return [segment(marker, head + data[at : at + PIECE]) for at in range(0, len(data), PIECE)]


def jpeg_of(parts: Parts, behind=b""):
    """A JPEG whose blocks are spread over segments. The first packet is extended XMP, and so is each other one."""
    resource = struct.pack(">4sHHI", b"8BIM", 0x0404, 0, len(parts.record)) + parts.record + bytes(len(parts.record) % 2)
    segments = [*in_segments(0xE1, b"Exif\0\0", parts.exif), *in_segments(0xED, b"Photoshop 3.0\0", resource)]
    for number, packet in enumerate(parts.packets):
        pieces, name = extension(packet, PIECE)
        segments += [app1_xmp(xmp("", f"note:HasExtendedXMP='{name}' dc:format='{number}'")), *pieces]
    return jpeg(*segments, behind=behind)


def raf_of(parts):
    return raf(jpeg_of(parts), directory=struct.pack(">IHHI", 1, 0x0100, 4, 7), pixels=fuji())


MAKERS = {**growing.FORMATS, "JPEG": ("jpg", jpeg_of), "RAF": ("raf", raf_of)}


class Size(NamedTuple):
    """How much a picture of a format may have: the limit of its bytes, and those of its Exif block, its record and each of its packets."""

    limit: int
    exif: int
    record: int
    packets: Tuple[int, ...]
    scale: int = 1  # how many times lower all limits are


_THREE = (BLOCK, BLOCK, (BLOCK - MEGABYTE,))  # blocks in 48 MB, with the heads of their parts
_IN_40 = (BLOCK, BLOCK, (7 * MEGABYTE,))
_WITHOUT_RECORD = (BLOCK, 0, (BLOCK, BLOCK - MEGABYTE))
SIZES: Dict[str, Size] = {
    "JPEG": Size(budgets.LIMITS[budgets.SEGMENT_BYTES], *_IN_40),
    "PNG": Size(budgets.LIMITS[budgets.CHUNK_BYTES], BLOCK // 2, 4 * MEGABYTE, (BLOCK // 2, BLOCK // 2)),
    "WebP": Size(budgets.LIMITS[budgets.CHUNK_BYTES], BLOCK, 0, (BLOCK,)),
    "TIFF; DNG, CR2, NEF, PEF, ARW, SRW": Size(budgets.LIMITS[budgets.VALUE_BYTES], *_IN_40),
    "ORF, RW2": Size(budgets.LIMITS[budgets.VALUE_BYTES], *_IN_40),
    "RAF": Size(budgets.LIMITS[budgets.SEGMENT_BYTES], *_IN_40),
    "HEIC, HEIF, AVIF": Size(budgets.LIMITS[budgets.BOX_BYTES], *_WITHOUT_RECORD),
    "CR3": Size(budgets.LIMITS[budgets.BOX_BYTES], *_WITHOUT_RECORD),
    "PSD, PSB": Size(budgets.LIMITS[budgets.RESOURCE_BYTES], *_THREE),
    "JPEG XL": Size(budgets.LIMITS[budgets.BOX_BYTES], *_WITHOUT_RECORD),
    "JPEG 2000": Size(budgets.LIMITS[budgets.BOX_BYTES], *_THREE),
    "GIF": Size(budgets.LIMITS[budgets.BLOCK_BYTES], BLOCK // 2, BLOCK // 2, (BLOCK // 2, BLOCK // 2 - MEGABYTE)),
    "BigTIFF": Size(budgets.LIMITS[budgets.VALUE_BYTES], *_IN_40),
    "NAME.xmp": Size(budgets.PACKET_BYTES, 0, 0, (BLOCK,)),
}


def of_one_field(size: Size) -> Parts:
    return Parts(((0x010F, ASCII, b"Abc\0"),), packets=(xmp("<dc:format>x</dc:format>"),))


def of_long_values(size: Size) -> Parts:
    """Blocks of few values, each as long as may be."""
    text = b"x" * 30_000
    record = (b"\x1c\x02\x19" + struct.pack(">H", len(text)) + text) * (size.record // (len(text) + 5))
    packets = tuple(xmp(f"<dc:format>{chr(ord('a') + number) * (length - 1000)}</dc:format>") for number, length in enumerate(size.packets))
    return Parts(((0x010E, ASCII, b"x" * max(size.exif - 100, 3) + b"\0"),), record, packets)


def of_many_fields(size: Size) -> Parts:
    """Blocks of as many fields as may be, each of a few bytes."""
    entries = tuple((0x1000 + it, ASCII, b"abc\0") for it in range(60_000 // size.scale)) if size.exif else ((0x010F, ASCII, b"Abc\0"),)
    number = budgets.LIMITS[budgets.XMP_TAGS] // size.scale // 2 // max(1, len(size.packets)) - 10
    packets = tuple(xmp("".join(f"<dc:a{at}>{it}</dc:a{at}>" for at in range(number))) for it in range(len(size.packets)))
    return Parts(entries, iim(b"a") * (size.record // 6), packets)


def of_many_parts(size: Size) -> Parts:
    """As many small parts and packets as may be, and a packet with as many texts of one property."""
    number = 9000 // size.scale
    texts = "".join(f"<rdf:li>{it}</rdf:li>" for it in range(budgets.LIMITS[budgets.XMP_TAGS] // size.scale // 2 - 10 * number))
    packets = (
        xmp(f"<dc:subject><rdf:Bag>{texts}</rdf:Bag></dc:subject>"),
        *(xmp(f"<dc:format>{it}</dc:format>") for it in range(number // 10)),
    )
    return Parts(((0x010F, ASCII, b"Abc\0"),), b"", packets, number)


FILLINGS: Dict[str, Callable[[Size], Parts]] = {"long values": of_long_values, "many fields": of_many_fields, "many parts": of_many_parts}


def made(name: str, filling: str, scale: int = 1) -> bytes:
    """The largest picture of a format, if all limits are so many times lower."""
    limit, exif, record, packets, _ = SIZES[name]
    size = Size(limit // scale, exif // scale, record // scale, tuple(it // scale for it in packets), scale)
    return MAKERS[name][1]({**FILLINGS, "one field": of_one_field}[filling](size))


def of_name(name: str) -> str:
    """The name of its file."""
    return f"a.{MAKERS[name][0]}"
