"""JPEG XL: the boxes Exif and xml of a container, and XMP in a box uuid (ISO/IEC 18181-2). A bare codestream has no metadata.

A box brob has another box, compressed by Brotli. It is never opened, as few bytes can become many: its Exif or XMP is a block that can't
be read, so that none is said to be missing. From the box jbrd a JPEG with its comments and its IPTC can be made again; it is compared by its
bytes.
"""

from __future__ import annotations


from ...model.budgets import budget_of
from ...model.found import COMPRESSED, EXIF, XMP, Blocks, Broken
from .boxes import XMP_UUID, Box, add_xml, add_xmp, boxes_of_file, content, credentials_in, exif_in, leave_cut
from .streams import Stream, leave, read_at

START = b"\0\0\0\x0cJXL \r\n\x87\n"
BARE = b"\xff\x0a"
_BRAND = b"jxl "
_IS_LAST = b"\x80"  # the bit of a piece's number that only the last piece has
_WITHOUT = frozenset(b"jxlc jxlp jxll jxli free skip".split())
IN_BROB = {b"Exif": EXIF, b"xml ": XMP}


def read(stream: Stream, whole: bool = False) -> Blocks:
    """The blocks of a JPEG XL. Raises `Broken`."""
    blocks = Blocks(type="JXL", budget=budget_of(stream))
    if read_at(stream, 0, len(BARE)) == BARE:
        return blocks
    piece = None  # the last one
    for box in boxes_of_file(blocks, stream, lambda kinds: bool(kinds & {b"jxlc", b"jxlp"})):
        piece = box if box.kind == b"jxlp" else piece
        if box.kind == b"ftyp":
            if read_at(stream, box.start, min(4, box.end - box.start)) != _BRAND:
                raise Broken("the JPEG XL has the brand of another format")
        elif box.at and box.kind not in _WITHOUT:  # the first one is the signature
            _take(blocks, stream, box)
    if piece and read_at(stream, piece.start, min(1, piece.end - piece.start)) < _IS_LAST:
        leave_cut(blocks, "before the last piece of its picture")
    return blocks


def block_in(stream: Stream, box: Box) -> bytes | None:
    """The block in a box Exif; None if it has none. Raises `TooMuch`."""
    return exif_in(content(stream, box))


def _take(blocks: Blocks, stream: Stream, box: Box) -> None:
    what = box.name
    if box.kind == b"xml ":
        return add_xml(blocks, stream, box)
    if box.uuid == XMP_UUID:
        return add_xmp(blocks, stream, box)
    if box.kind == b"Exif":
        block = block_in(stream, box)
        if block is not None:
            return blocks.add(EXIF, block, f"Exif box at {box.at}")
        what = "Exif box without a header"
    elif box.kind == b"brob":
        kind = IN_BROB.get(read_at(stream, box.start, min(4, box.end - box.start)))
        if kind is not None:
            return blocks.add(kind, COMPRESSED + content(stream, box), f"brob box at {box.at}")
    leave(blocks, credentials_in(stream, box) or what, stream, box.start, box.end)
    return None
