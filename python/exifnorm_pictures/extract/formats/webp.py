"""WebP: the chunks EXIF and XMP (RFC 9649, 2.7). Pillow and others put the six bytes `Exif\\0\\0` in front of the Exif block,
and some end the name XMP by a zero byte."""

from __future__ import annotations

import struct
from typing import Iterable, Iterator

from ...model.budgets import CHUNK_BYTES, CHUNKS, Budget, budget_of
from ...model.found import EXIF, SIX, XMP, Blocks, Broken
from .streams import (
    CREDENTIALS,
    METADATA,
    PICTURE,
    PROFILE,
    REST,
    STRUCTURE,
    Chunk,
    Part,
    of_chunks,
    word,
    Stream,
    leave_rest,
    read_at,
    size_of,
)

_FIRST = 12  # the offset of the first chunk
PIXELS = frozenset((b"VP8 ", b"VP8L", b"ALPH", b"ANIM", b"ANMF"))  # chunks of the coded picture
_XMP = (b"XMP ", b"XMP\0")
_NAMES = {b"ICCP": PROFILE, b"C2PA": CREDENTIALS}


def is_webp(head: bytes) -> bool:
    """Whether a file with these first twelve bytes is a WebP.

    >>> is_webp(b"RIFF\\x04\\0\\0\\0WEBP")
    True
    """
    return head[:4] == b"RIFF" and head[8:12] == b"WEBP"


def read(stream: Stream, whole: bool = False) -> Blocks:
    """The blocks of a WebP, which is always read to its end. Raises `Broken`."""
    blocks = Blocks(type="WEBP", budget=budget_of(stream))
    end, after = end_of(stream), _FIRST
    for at, kind, length in chunks(stream, end, blocks.budget):
        after = at + 8 + length + length % 2
        if kind == b"ICCP":
            blocks.pass_over(PROFILE, length)
        elif _CLASSES.get(kind) not in (PICTURE, STRUCTURE):
            blocks.budget.spend(CHUNK_BYTES, length)
            _add(blocks, kind, read_at(stream, at + 8, length), at)
    leave_rest(blocks, stream, min(after, end))
    return blocks


def end_of(stream: Stream) -> int:
    """Where the chunks end by the header. Raises `Broken`."""
    end = 8 + int.from_bytes(read_at(stream, 4, 4), "little")
    if end > size_of(stream):
        raise Broken("the file ends before its header says")
    return end


def chunks(stream: Stream, end: int, budget: Budget) -> Iterator[Chunk]:
    """The offset, the kind and the length of each chunk. Raises `Broken` and `TooMuch`."""
    at = _FIRST
    while True:
        budget.spend(CHUNKS)
        if at + 8 > end:
            return
        kind, length = struct.unpack("<4sI", read_at(stream, at, 8))
        if at + 8 + length > end:
            raise Broken(f"the chunk at {at} is longer than the file")
        yield at, kind, length
        at += 8 + length + length % 2


def _add(blocks: Blocks, kind: bytes, data: bytes, at: int) -> None:
    if kind in _XMP:
        blocks.add(XMP, data, f"XMP chunk at {at}")
    elif kind == b"EXIF":
        blocks.add(EXIF, data.removeprefix(SIX), f"EXIF chunk at {at}")
    else:
        blocks.leave(_NAMES.get(kind, "chunk of an unknown kind"), data)


def parts(found: Iterable[Chunk]) -> Iterator[Part]:
    """Claims to the parts of a WebP with these chunks, in their order."""
    yield Part(STRUCTURE, 0, _FIRST)
    yield from of_chunks(found, _class_of, lambda length: length % 2)  # the padding


_CLASSES = {**dict.fromkeys(PIXELS, PICTURE), **dict.fromkeys((*_XMP, b"EXIF"), METADATA), b"VP8X": STRUCTURE}


def _class_of(chunk: Chunk) -> tuple[str, str]:
    """The class of a chunk's content, and the name of a rest."""
    kind = chunk[1]
    return _CLASSES.get(kind, REST), "" if kind in _CLASSES else _NAMES.get(kind) or f"{word(kind)} chunk"
