"""PNG: Exif in eXIf chunks, XMP in text chunks, and the raw profiles of text chunks that ImageMagick, ExifTool and others write
(PNG specification, third edition, 11.3.3 and 11.3.4; XMP part 3).

Not compared, because they contain no Exif, IPTC or XMP: text chunks with other keywords, and colour profiles.
"""

from __future__ import annotations

import zlib
from functools import partial
from typing import Iterable, Iterator

from ...model.budgets import CHUNK_BYTES, CHUNKS, Budget, budget_of
from ...model.found import EXIF, IPTC, SIX, XMP, XMP_HEAD, Blocks, Broken
from . import photoshop
from .streams import (
    CREDENTIALS,
    METADATA,
    PICTURE,
    PROFILE,
    REST,
    STRUCTURE,
    Chunk,
    Part,
    of_chunks,
    word,
    Stream,
    leave_rest,
    read_at,
    size_of,
)

START = b"\x89PNG\r\n\x1a\n"
_XMP_KEYWORD = b"xml:com.adobe.xmp"
_PROFILE = b"raw profile type "  # which is as long
TEXTS = b"tEXt zTXt iTXt".split()
PIXELS = frozenset(b"IHDR PLTE tRNS IDAT acTL fcTL fdAT".split())  # chunks of the coded picture
_NAMES = {b"iCCP": PROFILE, b"caBX": CREDENTIALS}


class _Unreadable(Exception):
    """A text chunk does not follow its form."""


def read(stream: Stream, whole: bool = False) -> Blocks:
    """The blocks of a PNG, which is always read to its end. Raises `Broken`."""
    reader = _Reader(stream)
    for at, kind, length in chunks(stream, reader.budget):
        reader.chunk(at, kind, length)
    leave_rest(reader.blocks, stream, at + 12 + length)
    return reader.blocks


def chunks(stream: Stream, budget: Budget) -> Iterator[Chunk]:
    """The offset, the kind and the length of each chunk, up to IEND. Raises `Broken` and `TooMuch`."""
    at, size, kind = len(START), size_of(stream), b""
    while kind != b"IEND":
        budget.spend(CHUNKS)
        head = read_at(stream, at, 8)
        length, kind = int.from_bytes(head[:4], "big"), head[4:]
        if at + 12 + length > size:
            raise Broken(f"the file ends inside the chunk at {at}")
        yield at, kind, length
        at += 12 + length


def parts(stream: Stream, found: Iterable[Chunk]) -> Iterator[Part]:
    """Claims to the parts of a PNG with these chunks, in their order. Raises `TooMuch`."""
    yield Part(STRUCTURE, 0, len(START))
    yield from of_chunks(found, partial(_class_of, stream), lambda _: 4)  # the check sum


def _class_of(stream: Stream, chunk: Chunk) -> tuple[str, str]:
    """The class of a chunk's content, and the name of a rest."""
    at, kind, length = chunk
    if kind in PIXELS:
        return PICTURE, ""
    text = read_at(stream, at + 8, min(length, len(_PROFILE))) if kind in TEXTS else b""
    if kind == b"eXIf" or (text.lower() in (_XMP_KEYWORD, _PROFILE) and _is_metadata(stream, *chunk)):
        return METADATA, ""
    return REST, _name_of(kind, text)


def _name_of(kind: bytes, text: bytes = b"") -> str:
    """The name of a chunk that is rest; of a text by its keyword."""
    return _NAMES.get(kind) or f"{word(kind)} chunk {word(text[:12])}".rstrip()


def _is_metadata(stream: Stream, at: int, kind: bytes, length: int) -> bool:
    """Whether a text is one of metadata, and has nothing else."""
    reader = _Reader(stream)
    reader.budget = reader.blocks.budget = Budget()  # all this was counted when it was read
    try:
        reader.chunk(at, kind, length)
    except Broken:
        return False
    return bool(reader.blocks.blocks) and not reader.blocks.not_read and not reader.has_rest


class _Reader:
    """The chunks of one file."""

    def __init__(self, stream: Stream) -> None:
        self.stream = stream
        self.budget = budget_of(stream)
        self.blocks = Blocks(type="PNG", budget=self.budget)
        self.has_rest = False  # whether a profile has more than metadata

    def chunk(self, at: int, kind: bytes, length: int) -> None:
        """Adds the blocks of a chunk."""
        if kind not in (b"eXIf", b"zxIf", *TEXTS):
            if kind not in PIXELS and length:
                self.blocks.pass_over(_name_of(kind), length)
            return
        self.budget.spend(CHUNK_BYTES, length)
        data = read_at(self.stream, at + 8, length)
        if zlib.crc32(kind + data) != int.from_bytes(read_at(self.stream, at + 8 + length, 4), "big"):
            raise Broken(f"wrong check sum of the chunk at {at}")
        where = f"{kind.decode('ascii')} chunk at {at}"
        if kind == b"eXIf":
            self.blocks.add(EXIF, data.removeprefix(SIX), where)
        elif kind in TEXTS:
            self._text(kind, data, where)
        else:
            self.blocks.leave("compressed Exif chunk", data)

    def _text(self, kind: bytes, data: bytes, where: str) -> None:
        keyword, _, text = data.partition(b"\0")
        keyword = keyword.lower()
        if keyword != _XMP_KEYWORD and not keyword.startswith(_PROFILE):
            self.blocks.pass_over(_name_of(kind, data), len(data))
            return
        try:
            text = self._opened(kind, text)
            if keyword == _XMP_KEYWORD:
                self.blocks.add(XMP, text, where)
            else:
                self._profile(keyword[len(_PROFILE) :], _profile_data(text), where)
        except _Unreadable as why:
            self.blocks.leave(f"text chunk that cannot be read ({why})", data)

    def _opened(self, kind: bytes, text: bytes) -> bytes:
        """The text of a chunk after its keyword, inflated if it is compressed."""
        if kind == b"tEXt":
            return text
        if kind == b"zTXt":
            return self._inflated(text[:1], text[1:])
        parts = text[2:].split(b"\0", 2)
        if len(text) < 2 or len(parts) < 3:
            raise _Unreadable("its fields are cut")
        return self._inflated(text[1:2], parts[2]) if text[:1] != b"\0" else parts[2]

    def _inflated(self, method: bytes, data: bytes) -> bytes:
        if method != b"\0":
            raise _Unreadable("its compression is not known")
        opened = zlib.decompressobj()
        try:
            inflated = opened.decompress(data, self.budget.left[CHUNK_BYTES] + 1)
        except zlib.error:
            raise _Unreadable("its compressed data is damaged") from None
        self.budget.spend(CHUNK_BYTES, len(inflated))
        if not opened.eof:
            raise _Unreadable("its compressed data is cut")
        return inflated

    def _profile(self, kind: bytes, data: bytes, where: str) -> None:
        if kind in (b"exif", b"app1"):
            if data.startswith(XMP_HEAD):
                self.blocks.add(XMP, data.removeprefix(XMP_HEAD), where)
            else:
                self.blocks.add(EXIF, data.removeprefix(SIX), where)
        elif kind in (b"iptc", b"8bim"):
            if data[:1] == b"\x1c":
                self.blocks.add(IPTC, data, where)
            else:
                data = data.removeprefix(photoshop.HEAD)
                photoshop.add_resources(self.blocks, [(where, data)])
                self.has_rest = self.has_rest or photoshop.has_rest(data)
        elif kind == b"xmp":
            self.blocks.add(XMP, data, where)
        elif kind in (b"icc", b"icm"):
            self.blocks.pass_over(PROFILE, len(data))
        else:
            self.blocks.leave("raw profile of another kind", data)


def _profile_data(text: bytes) -> bytes:
    """The data of a raw profile: a line with its name, its length, and hexadecimal digits.

    >>> _profile_data(b"\\nIPTC profile\\n       5\\n1c02190000\\n")
    b'\\x1c\\x02\\x19\\x00\\x00'
    """
    parts = text.lstrip().partition(b"\n")[2].split(None, 1)
    if not parts or not parts[0].isdigit() or len(parts[0]) > 10:
        raise _Unreadable("its profile has no length")
    try:
        data = bytes.fromhex(b"".join(parts[1].split()).decode("ascii")) if len(parts) > 1 else b""
    except ValueError:
        raise _Unreadable("its profile has other characters than hexadecimal digits") from None
    if len(data) != int(parts[0]):
        raise _Unreadable("its profile has another length than it says")
    return data
