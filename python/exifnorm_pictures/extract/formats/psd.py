"""Photoshop's PSD and PSB: the image resources 0404 (IPTC), 0422 (Exif) and 0424 (XMP) (Adobe Photoshop File Formats Specification).

Layers can have texts, embedded files and metadata of their own. They are one part, which is compared by its bytes. Not compared, because
they contain no Exif, IPTC or XMP: the merged picture, colour tables and other resources.
"""

from __future__ import annotations

import struct
from typing import NamedTuple

from ...model.budgets import RESOURCE_BYTES, RESOURCES, STRIPS, budget_of
from ...model.found import IN_PICTURE, Blocks, Broken, NotRead
from . import photoshop
from .streams import Stream, leave, pieces, read_at, size_of
from .trailers import known_trailer, leave_trailer

START = b"8BPS"
_BIG = 2  # the version of a PSB, some of whose numbers are wider
_RAW, _PACKED = 0, 1  # compressions of the merged picture
_LONGEST_HEAD = 4 + 2 + 256 + 4  # of a resource: signature, number, name, length


class _Header(NamedTuple):
    """The 26 bytes at the begin of a file."""

    version: int
    channels: int
    height: int
    width: int
    depth: int


def read(stream: Stream, whole: bool = False) -> Blocks:
    """The blocks of a PSD or PSB. Raises `Broken`."""
    head = read_at(stream, 0, 26)
    header = _Header(*struct.unpack(">4xH6xHIIH2x", head))
    if header.version not in (1, _BIG) or any(head[6:12]):
        raise Broken("the file has another version than Photoshop's 1 and 2")
    blocks = Blocks(type="PSB" if header.version == _BIG else "PSD", budget=budget_of(stream))
    size, wide = size_of(stream), 8 if header.version == _BIG else 4
    at = _end(stream, 26, 4, size, "colour table")
    start, at = at + 4, _end(stream, at, 4, size, "image resources")
    _add_resources(blocks, stream, start, at)
    start, at = at + wide, _end(stream, at, wide, size, "layers")
    leave(blocks, "Photoshop's layers", stream, start, at)
    end = _end_of_picture(header, stream, at)
    if end is not None and end > size:
        end = None
        blocks.damage = "" if known_trailer(stream, size) else IN_PICTURE
    _leave_trailer(blocks, stream, end, size)
    return blocks


def _end(stream: Stream, at: int, wide: int, size: int, what: str) -> int:
    """The end of a part that begins with its length, of so many bytes."""
    end = at + wide + int.from_bytes(read_at(stream, at, wide), "big")
    if end > size:
        raise Broken(f"the file ends inside its {what}")
    return end


def _add_resources(blocks: Blocks, stream: Stream, at: int, end: int) -> None:
    """Adds the blocks of the resources, of which only those with blocks are read."""
    while end - at >= 12:
        head = read_at(stream, at, min(_LONGEST_HEAD, end - at))
        after_name = 6 + (head[6] + 2) // 2 * 2
        length = int.from_bytes(head[after_name : after_name + 4], "big")
        start = at + after_name + 4
        if head[:4] not in photoshop.SIGNATURES or start + length > end:
            break
        blocks.budget.spend(RESOURCES)
        number = int.from_bytes(head[4:6], "big")
        if number in photoshop.KEPT:
            blocks.budget.spend(RESOURCE_BYTES, length)
            photoshop.add_one(blocks, number, read_at(stream, start, length), "image resources")
        else:
            blocks.pass_over(photoshop.name_of(number), length)
        at = start + length + length % 2
    leave(blocks, "bytes behind the Photoshop resources in the image resources", stream, at, end)


def _end_of_picture(header: _Header, stream: Stream, at: int) -> int | None:
    """Where the merged picture ends, which is the last part of a whole file; None if it isn't known."""
    compression = int.from_bytes(read_at(stream, at, 2), "big")
    rows = header.channels * header.height
    start = at + 2
    if compression == _RAW:
        return start + rows * ((header.width * header.depth + 7) // 8)
    elif compression == _PACKED and rows <= STRIPS:
        wide = 4 if header.version == _BIG else 2
        table = start + rows * wide  # of the lengths of the rows, which follow it
        lengths = (it[at : at + wide] for it in pieces(stream, start, table) for at in range(0, len(it) - wide + 1, wide))
        return table + sum(int.from_bytes(it, "big") for it in lengths)
    return None


def _leave_trailer(blocks: Blocks, stream: Stream, start: int | None, end: int) -> None:
    """Names what programs append to a picture, in which ExifTool may find blocks."""
    if start is not None:
        leave_trailer(blocks, stream, start, end)
    elif trailer := known_trailer(stream, end):
        blocks.name(NotRead(f"{trailer.name} trailer", ""))
        blocks.has_more = trailer.may_hold_blocks
