"""Boxes of ISO base media files (ISO/IEC 14496-12, 4.2), which JPEG 2000 (ISO/IEC 15444-1, Annex I) and JPEG XL (ISO/IEC 18181-2) have too.

A box is a length of four bytes, a kind of four, then a length of eight if the first is 1, a UUID if the kind is uuid, and the content. The
last box of a file may have the length 0. No reader follows boxes in boxes of unknown kinds, so each has its own greatest depth.
"""

from __future__ import annotations

from typing import Callable, Iterator, NamedTuple

from ...model.budgets import BOX_BYTES, BOXES, budget_of
from ...model.found import CUT, REST, SIX, XMP, Blocks, Broken, damage
from ...model.tiff_types import HEADS
from ...model.xmp_encodings import begins_packet
from .streams import CREDENTIALS, Stream, leave, leave_rest, leave_whole, read_at, size_of

_LONGEST_HEAD = 32
XMP_UUID = bytes.fromhex("be7acfcb97a942e89c71999491e3afac")  # XMP part 3, 1.1.4
C2PA_UUID = bytes.fromhex("d8fec3d61b0e483c92975828877ec481")  # Content Credentials, A.5


class Box(NamedTuple):
    """A box: its offset, its kind, and the range of its content, after the UUID if it has one."""

    at: int
    kind: bytes
    start: int
    end: int
    uuid: bytes = b""

    @property
    def name(self) -> str:
        """Its kind and its UUID for people.

        >>> Box(0, b"xml ", 8, 9).name, Box(0, b"\\xa9day", 8, 9).name
        ('xml box', 'a9646179 box')
        """
        if self.uuid == C2PA_UUID:
            return CREDENTIALS
        word = self.kind.decode("latin-1").strip()
        word = word if word.isascii() and word.isalnum() else self.kind.hex()
        return f"{word} box {self.uuid.hex()}" if self.uuid else f"{word} box"


def boxes(stream: Stream, start: int, end: int, is_file: bool = False) -> Iterator[Box]:
    """The boxes of a range, one directly after another up to its end. Raises `Broken` and `TooMuch`."""
    budget, at = budget_of(stream), start
    while at < end:
        budget.spend(BOXES)
        if end - at < 8:
            raise Broken(f"{CUT}inside the box at {at}" if is_file else f"no box at {at}")
        head = read_at(stream, at, min(_LONGEST_HEAD, end - at))
        length, kind, begin = int.from_bytes(head[:4], "big"), head[4:8], 8
        if length == 1:
            length, begin = int.from_bytes(head[8:16], "big"), 16
        elif length == 0 and is_file and any(kind):  # zeros are no box
            length = end - at
        wide = 16 * (kind == b"uuid")
        uuid, begin = head[begin : begin + wide], begin + wide
        is_cut = is_file and length > end - at and kind.strip().isalnum()
        if is_cut or not begin <= length <= end - at:
            raise Broken(f"{CUT}inside the box at {at}" if is_cut else f"the box at {at} has a wrong length")
        yield Box(at, kind, at + begin, at + length, uuid)
        at += length


def boxes_to_fault(stream: Stream) -> tuple[list[Box], str]:
    """The boxes of a file up to the first fault, and the text of that. Raises `TooMuch`."""
    every = []
    try:
        for box in boxes(stream, 0, size_of(stream), is_file=True):
            every.append(box)
    except Broken as fault:
        return every, str(fault)
    return every, ""


def boxes_of_file(blocks: Blocks, stream: Stream, is_whole: Callable[[set[bytes]], bool]) -> list[Box]:
    """The boxes of a file. `is_whole` says of the kinds of some boxes whether they are a whole picture, after which anything may follow.
    Raises `Broken` and `TooMuch`."""
    every, fault = boxes_to_fault(stream)
    is_picture = is_whole({it.kind for it in every})
    if fault and not is_picture:
        raise Broken(fault)
    if fault:
        _leave_rest(blocks, stream, every[-1].end, fault)
    elif not is_picture:
        raise Broken("the file has no picture" if any(it.kind in _PIXELS for it in every) else f"{CUT}before its picture")
    return every


def leave_cut(blocks: Blocks, why: str) -> None:
    """Names the end of a file that is cut off between two boxes, unless one in a box is named. Raises `TooMuch`."""
    if not damage(part.what for part in blocks.not_read):
        blocks.leave(f"{REST} ({CUT}{why})", b"")


_PIXELS = frozenset(b"mdat jxlc jxlp jp2c".split())
# Boxes of which a part at the end of a file is no trailer
_OFTEN_LAST = _PIXELS | frozenset((b"uuid", b"xml ", b"Exif", b"brob", b"meta", b"moov"))


def _leave_rest(blocks: Blocks, stream: Stream, at: int, why: str) -> None:
    """Names what follows the last whole box. Raises `TooMuch`."""
    if why.startswith(CUT) and size_of(stream) - at >= 8 and read_at(stream, at + 4, 4) in _OFTEN_LAST:
        leave_whole(blocks, f"{REST} ({why})", stream, at, size_of(stream))
    else:
        leave_rest(blocks, stream, at)


def credentials_in(stream: Stream, box: Box) -> str:
    """The name of a box of JUMBF that has content credentials; empty of any other."""
    is_theirs = box.kind == b"jumb" and b"c2pa" in read_at(stream, box.start, min(64, box.end - box.start))
    return CREDENTIALS if is_theirs else ""


def content(stream: Stream, box: Box) -> bytes:
    """The content of a box, which is kept. Raises `Broken` and `TooMuch`."""
    budget_of(stream).spend(BOX_BYTES, box.end - box.start)
    return read_at(stream, box.start, box.end - box.start)


def add_xmp(blocks: Blocks, stream: Stream, box: Box) -> None:
    """Adds the packet of a box, in which cameras keep room for one. Raises `Broken` and `TooMuch`."""
    data = content(stream, box)
    if data.strip(b"\0"):
        blocks.add(XMP, data, f"{box.kind.decode('ascii').strip()} box at {box.at}")


def exif_in(data: bytes) -> bytes | None:
    """The block in an Exif item of HEIF or an Exif box of JPEG XL, which is a number, so many other bytes, and the block (ISO/IEC 23008-12, A.2.1;
    ISO/IEC 18181-2); None if the number leads out of the content. Some writers leave out the number, as ExifTool knows.

    >>> exif_in(b"\\0\\0\\0\\x06Exif\\0\\0MM\\0*"), exif_in(b"\\0\\0\\0\\x09MM\\0*")
    (b'MM\\x00*', None)
    """
    if data.startswith((*HEADS, SIX)):
        return data.removeprefix(SIX)
    start = 4 + int.from_bytes(data[:4], "big")
    return data[start:] if start <= len(data) else None


def add_xml(blocks: Blocks, stream: Stream, box: Box) -> None:
    """Adds the packet of a box xml, or names the box if it has other XML. Raises `Broken` and `TooMuch`."""
    data = content(stream, box)
    if begins_packet(data):
        blocks.add(XMP, data, f"xml box at {box.at}")
    else:
        leave(blocks, box.name, stream, box.start, box.end)


class Fields:
    """The numbers and texts of a content in memory, one after another. Raises `Broken` if it ends before."""

    def __init__(self, data: bytes, name: str) -> None:
        self.data, self.name, self.at = data, name, 0

    def number(self, length: int) -> int:
        """The next number, of so many bytes; 0 for none.

        >>> fields = Fields(b"\\1\\0", "pitm box"); fields.number(2), fields.number(0)
        (256, 0)
        """
        end = self.at + length
        if end > len(self.data):
            raise Broken(f"the {self.name} is cut")
        number = int.from_bytes(self.data[self.at : end], "big")
        self.at = end
        return number

    def text(self) -> bytes:
        """The next text, up to a zero byte."""
        end = self.data.find(b"\0", self.at)
        if end < 0:
            raise Broken(f"the {self.name} has a text without end")
        text, self.at = self.data[self.at : end], end + 1
        return text


# Canon's box uuid in CR3 and HEIF files: the main directory, Exif, MakerNote and GPS, each a TIFF structure in a box of its own.

CANON_UUID = bytes.fromhex("85c0b687820f11e08111f4ce462b6a48")
CNCV, CMT1, CMT2, CMT3, CMT4 = b"CNCV CMT1 CMT2 CMT3 CMT4".split()
_CANON_OTHERS = frozenset(b"CCTP CTBO THMB free".split())  # kinds and places of tracks, thumbnail


def canon_parts(blocks: Blocks, stream: Stream, box: Box) -> dict[bytes, Box]:
    """The version and the structures of the box. Other boxes in it are named. Raises `Broken`."""
    structures = {}
    for structure in boxes(stream, box.start, box.end):
        if structure.kind in (CNCV, CMT1, CMT2, CMT3, CMT4):
            if structure.kind in structures:
                raise Broken(f"a second {structure.name}")
            structures[structure.kind] = structure
        elif structure.kind not in _CANON_OTHERS:
            leave(blocks, f"{structure.name} of Canon", stream, structure.start, structure.end)
    return structures


def leave_canon(blocks: Blocks, stream: Stream, box: Box) -> None:
    """Names the structures, in a picture whose Exif is elsewhere. Raises `Broken`."""
    for structure in canon_parts(blocks, stream, box).values():
        if structure.kind != CNCV:
            leave(blocks, f"{structure.name} of Canon", stream, structure.start, structure.end)
