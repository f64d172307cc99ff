"""Trailers: bytes that programs append to a picture, recognised by the last of them, and the IPTC and XMP blocks in them.

A file may have several. Their layouts are those that ExifTool reads: each ends with its mark, and tells where it begins. Only trailers that
fill what follows the picture are read here, byte by byte up to its end mark or the zeros after it, of which FotoStation writes one; those of
other files are left to ExifTool.
"""

from __future__ import annotations

import re
import struct

from exifnorm._hints import Callable, NamedTuple

from ...model.budgets import RESOURCE_BYTES, RESOURCES, budget_of
from ...model.found import IPTC, XMP, Blocks, Broken, NotRead
from ...model.texts import in_words
from .streams import Stream, digest_of_rest, is_blank, read_at


class Trailer(NamedTuple):
    """A kind of trailer."""

    name: str
    may_hold_blocks: bool


_SIGNS = (  # regular expressions, which are compiled at the first trailer
    (rb"AXS[!*].{8}\Z", Trailer("AFCP", True)),
    (rb"\xa1\xb2\xc3\xd4\Z", Trailer("FotoStation", True)),
    (rb"cbipcbbl\Z", Trailer("PhotoMechanic", True)),
    (rb"\0\0(?:QDIOBS|SEFT)\Z", Trailer("Samsung", False)),
    (rb"zmie~\0\0[\x06\x0a].{4,8}[\x10\x18][\x04\x08]\Z", Trailer("MIE", True)),
    (rb"CANON OPTIONAL DATA\0.{44}\Z", Trailer("Canon VRD", True)),
)
_LONGEST = 64

Block = tuple[str, bytes]  # its kind, and its bytes
_Found = tuple[int, list[Block]]  # where a trailer begins, and its blocks
_Read = Callable[[Stream, int], _Found]  # of the trailer that ends at an offset


def known_trailer(stream: Stream, end: int) -> Trailer | None:
    """The kind of the trailer that ends at an offset, if it is known.

    >>> import io
    >>> known_trailer(io.BytesIO(b"...." + bytes.fromhex("a1b2c3d4")), 8)
    Trailer(name='FotoStation', may_hold_blocks=True)
    """
    start = max(end - _LONGEST, 0)
    stream.seek(start)
    last = stream.read(end - start)
    return next((it for sign, it in _SIGNS if re.search(sign, last, re.S)), None)


def add_blocks(blocks: Blocks, stream: Stream, start: int, end: int) -> bool:
    """Adds the blocks of the trailers that fill a part of a file, the last trailer first. Returns whether they are all read: otherwise it
    adds none, and ExifTool has to. Raises `TooMuch`."""
    known = {block.data for block in blocks.blocks}
    try:
        read = _all(stream, start, end)
    except Broken:
        return False
    for kind, data in read:
        if data not in known:
            blocks.add(kind, data, "trailer", "trailer")
    return True


def leave_trailer(
    blocks: Blocks,
    stream: Stream,
    start: int,
    end: int,
    of: str = "",
    word: str = "trailer",
    may_read: bool = True,
) -> None:
    """Adds the blocks of what follows a picture up to `end`, if they may be read here, and names
    it: by its kind, or by the word, and by the picture. Raises `TooMuch`."""
    digest = digest_of_rest(stream, start, end) if start < end else None
    if digest is None:
        return
    trailer = known_trailer(stream, end)
    is_read = may_read and add_blocks(blocks, stream, start, end)
    blocks.has_more |= trailer is not None and trailer.may_hold_blocks and not is_read
    what = f"{trailer.name} trailer" if trailer else word
    blocks.name(NotRead(f"{what} of {in_words(end - start, 'byte')}{of}", digest))


def _all(stream: Stream, start: int, end: int) -> list[Block]:
    """The blocks of the trailers from `start` to `end`. Raises `Broken` if they don't fill it, or one isn't read here."""
    read = []
    last = end
    while end > start:
        budget_of(stream).spend(RESOURCES)
        trailer = known_trailer(stream, end)
        if not trailer and end < last and budget_of(stream).may_digest(end - start) and is_blank(stream, start, end):
            break
        if not trailer or trailer.name not in _READERS:
            raise Broken(f"no trailer that is read here ends at {end}")
        begins, blocks = _READERS[trailer.name](stream, end)
        if begins < start:
            raise Broken(f"the trailer that ends at {end} begins inside the picture")
        read += blocks
        end = begins
    return read


def _octets(stream: Stream, start: int, end: int) -> bytes:
    """The bytes of a block. Raises `Broken` if they are no part of the file."""
    if not 0 <= start <= end:
        raise Broken("the length of a trailer doesn't fit")
    budget_of(stream).spend(RESOURCE_BYTES, end - start)
    return read_at(stream, start, end - start)


def _photo_mechanic(stream: Stream, end: int) -> _Found:
    """DataSets, their length, and the mark."""
    (length,) = struct.unpack(">I", _octets(stream, end - 12, end - 8))
    start = end - 12 - length
    return start, [(IPTC, _octets(stream, start, end - 12))]


def _foto_station(stream: Stream, end: int) -> _Found:
    """One of several records: bytes, the number of their kind, the length of the record, and the mark."""
    number, length = struct.unpack(">HI", _octets(stream, end - 10, end - 4))
    start = end - length
    if not 0 <= start <= end - 10:
        raise Broken("the length of a record doesn't fit")
    return start, [(IPTC, _octets(stream, start, end - 10))] if number == 1 else []


def _afcp(stream: Stream, end: int) -> _Found:
    """A directory of parts with their offsets in the file, these parts, and the offset of the directory."""
    mark = _octets(stream, end - 12, end - 8)
    order = ">" if mark[3:] == b"!" else "<"
    (start,) = struct.unpack(f"{order}I", _octets(stream, end - 8, end - 4))
    head = _octets(stream, start, start + 12)
    (count,) = struct.unpack(f"{order}H", head[6:8])
    first = start + 12 + 12 * count
    if head[:4] != mark or first > end - 12:
        raise Broken("the directory of AFCP isn't where its end says")
    parts = list(struct.iter_unpack(f"{order}4sII", _octets(stream, start + 12, first)))
    if any(at < first or at + length > end - 12 for _, length, at in parts):
        raise Broken("a part of AFCP isn't inside")
    return start, [(IPTC, _octets(stream, at, at + length)) for name, length, at in parts if name == b"IPTC"]


_HEAD, _FOOT = 28, 64  # bytes of Canon's header and footer
_CANON = b"CANON OPTIONAL DATA\0"
_CANON_XMP = 0xFFFF00F6


def _canon(stream: Stream, end: int) -> _Found:
    """A header, parts that begin with the number of their kind and their length, and a footer."""
    foot = end - _FOOT
    (length,) = struct.unpack(">I", _octets(stream, foot + len(_CANON), foot + len(_CANON) + 4))
    start = foot - length - _HEAD
    if start < 0 or read_at(stream, start, len(_CANON)) != _CANON:
        raise Broken("Canon's trailer doesn't begin where its end says")
    read = []
    at = start + _HEAD
    while at < foot:
        budget_of(stream).spend(RESOURCES)
        kind, size = struct.unpack(">II", _octets(stream, at, at + 8))
        if at + 8 + size > foot:
            raise Broken("a part of Canon's trailer isn't inside")
        if kind == _CANON_XMP:
            read.append((XMP, _octets(stream, at + 8, at + 8 + size)))
        at += 8 + size
    return start, read


def _samsung(stream: Stream, end: int) -> _Found:
    """Sounds, depths and the like, which have no blocks; a directory of them, which says how many bytes before it they begin; and marks."""
    foot = end - (2 if read_at(stream, end - 2, 2) == b"BS" else 0)
    while True:
        budget_of(stream).spend(RESOURCES)
        length, mark = struct.unpack("<I4s", _octets(stream, foot - 8, foot))
        start = foot - 8 - length
        part = _octets(stream, start, foot - 8) if 4 <= length < 1 << 16 else b""
        if mark == b"SEFT":
            break
        if mark != b"QDIO" or not part:
            raise Broken("an unknown part of Samsung's trailer")
        foot = start
    count = int.from_bytes(part[8:12], "little")
    if part[:4] != b"SEFH" or not 0 < count <= (length - 12) // 12:
        raise Broken("no directory of Samsung's trailer")
    before = max(entry[2] for entry in struct.iter_unpack("<HHII", part[12 : 12 + 12 * count]))
    return start - before, []


_READERS = {
    "AFCP": _afcp,
    "FotoStation": _foto_station,
    "PhotoMechanic": _photo_mechanic,
    "Samsung": _samsung,
    "Canon VRD": _canon,
}
