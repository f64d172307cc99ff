"""JPEG 2000: boxes uuid with Exif, IPTC, XMP or Photoshop's resources, and XMP in boxes xml (ISO/IEC 15444-1, Annex I; XMP part 3).

GeoTIFF's box uuid is a TIFF with a picture of one pixel. A bare codestream has no metadata. Not compared, because they contain no Exif,
IPTC or XMP: the codestream with its comments, colour profiles.
"""

from __future__ import annotations


from ...model.budgets import CHUNKS, budget_of
from ...model.found import EXIF, IN_PICTURE, IPTC, SIX, Blocks, Broken
from . import photoshop, tiff
from .boxes import XMP_UUID, Box, add_xml, add_xmp, boxes, boxes_of_file, content
from .streams import Stream, Window, leave, read_at, size_of
from .jpeg import add_inside

START = b"\0\0\0\x0cjP  \r\n\x87\n"
BARE = b"\xff\x4f\xff\x51"
_TILE_PART, _END_MARK = b"\xff\x90", b"\xff\xd9"
_KINDS = {
    b"JpgTiffExif->JP2": EXIF,
    bytes.fromhex("0537cdab9d0c4431a72afa561f2a113e"): EXIF,  # Photoshop's
    bytes.fromhex("33c7a4d2b81d4723a0baf1a3e097ad38"): IPTC,
    bytes.fromhex("09a14e97c0b442e0bebf36df6f0ce36f"): IPTC,  # Photoshop's
}
_PHOTOSHOP = bytes.fromhex("2c4c0100850440b9a03e562148d6dfeb")
_GEOTIFF = bytes.fromhex("b14bf8bd083d4b43a5ae8cd7d5a6ce03")
# Settings of Adobe's plugin, of one byte or four (ExifTool's module Jpeg2000)
_SETTINGS = (
    bytes.fromhex("3a0d02180ae94115b3764bca41ce0e71"),
    bytes.fromhex("47c92cccd1a14581b90438bb5467713b"),
    bytes.fromhex("bc45a774dd504ec6a9f6f3a137f47e90"),
    bytes.fromhex("d7c8c5ef951f43b28757042500f538e8"),
)
_NESTED = (b"jp2h", b"jpch", b"jplh", b"cgrp", b"res ", b"ftbl")  # boxes of boxes, in which ExifTool reads the same kinds as outside
_DEEPEST = 4  # such boxes in one another; the standard needs three
_WITHOUT = frozenset(b"ftyp rreq jp2c dtbl mdat free ihdr bpcc colr pclr cmap cdef resc resd opct creg roid flst".split())


def read(stream: Stream, whole: bool = False) -> Blocks:
    """The blocks of a JPEG 2000. Raises `Broken`."""
    is_bare = read_at(stream, 0, len(BARE)) == BARE
    blocks = Blocks(type="J2C" if is_bare else "JP2", budget=budget_of(stream))
    size = size_of(stream)
    start = 0 if is_bare else size  # of the codestream, if only its end mark tells where it ends
    for box in () if is_bare else boxes_of_file(blocks, stream, lambda kinds: bool(kinds & {b"jp2c", b"ftbl", b"mdat"})):
        if box.at:  # the first one is the signature
            _take(blocks, stream, box, 1)
        if box.kind == b"jp2c" and not any(read_at(stream, box.at, 4)):
            start = box.start
    if start < size and _is_cut(stream, start, size):
        blocks.damage = IN_PICTURE
    return blocks


def _is_cut(stream: Stream, at: int, end: int) -> bool:
    """Whether a codestream that begins at an offset has no end mark. What follows the mark is no part of it."""
    if read_at(stream, end - 2, 2) == _END_MARK:
        return False
    at += 2
    while at + 12 <= end:
        budget_of(stream).spend(CHUNKS)
        head = read_at(stream, at, 12)
        if head[:2] == _END_MARK:
            return False
        if head[:2] == _TILE_PART and not any(head[6:10]):  # the last one, up to the end mark
            return True
        at += int.from_bytes(head[6:10], "big") if head[:2] == _TILE_PART else 2 + int.from_bytes(head[2:4], "big")
    return at + 2 > end or read_at(stream, at, 2) != _END_MARK


def _take(blocks: Blocks, stream: Stream, box: Box, depth: int) -> None:
    """Adds the blocks of a box, or names it."""
    if box.kind in _NESTED:
        if depth > _DEEPEST:
            raise Broken(f"more than {_DEEPEST} boxes in one another")
        for inner in boxes(stream, box.start, box.end):
            _take(blocks, stream, inner, depth + 1)
    elif box.kind == b"uuid":
        _uuid(blocks, stream, box)
    elif box.kind == b"xml ":
        add_xml(blocks, stream, box)
    elif box.kind not in _WITHOUT:
        leave(blocks, box.name, stream, box.start, box.end)


def _uuid(blocks: Blocks, stream: Stream, box: Box) -> None:
    where, size = f"uuid box at {box.at}", box.end - box.start
    if box.uuid in _KINDS:
        kind, data = _KINDS[box.uuid], content(stream, box)
        blocks.add(kind, data.removeprefix(SIX) if kind == EXIF else data, where)
    elif box.uuid == XMP_UUID:
        add_xmp(blocks, stream, box)
    elif box.uuid == _PHOTOSHOP:
        photoshop.add_resources(blocks, [(where, content(stream, box))])
    elif box.uuid == _GEOTIFF and read_at(stream, box.start, min(4, size)) in tiff.HEADS:
        add_inside(blocks, tiff.read(Window(stream, box.start, size)), "GeoTIFF", where)
    elif box.uuid not in _SETTINGS or size > 4:
        leave(blocks, box.name, stream, box.start, box.end)
