"""A digest of the coded picture of a file: of the bytes that its pixels are decoded from, and of what says how to decode them.

Files with the same digest show the same picture, whatever their metadata are. Files with different ones may show the same picture too, if
it was coded again. Colour profiles don't count: they are of the rest of the file, which has digests by name.

JPEG: all segments but those of applications and comments, of which Adobe's APP14 counts, and JFIF where it decides the colours; and all data
of the scans. The other formats are in `coded_others`.
"""

from __future__ import annotations

import contextlib
import hashlib

from exifnorm._hints import Callable, Iterable, NamedTuple

from ..files import opening
from ..model import rest
from ..model.budgets import Budget, TooMuch
from ..model.found import Broken
from . import raw_files
from .formats import jpeg, streams
from .formats.jpeg_segments import Head, read_head
from .formats.streams import File, Stream, add_to


# Adds the coded picture of a file to a digest, and returns claims to its parts
Add = Callable[[Stream, "hashlib.blake2b", Budget], Iterable[streams.Part]]


class NotFollowed(Broken):
    """A coded picture in a form that isn't followed here, which is no damage."""


def refuse_if(is_other: object, why: str) -> None:
    """Raises `NotFollowed` for this reason."""
    if is_other:
        raise NotFollowed(why)


class CodedPicture(NamedTuple):
    """What is known of the coded picture of a file."""

    digest: str = ""  # BLAKE2b in 64 hexadecimal digits; empty if it isn't known
    beside: str = ""  # the rest of the file by name, as `model.rest` has it; empty without any, or if there is no digest
    damage: str = ""  # what is damaged


def of_file(path: bytes, budget: Budget) -> CodedPicture:
    """The digest of the coded picture of a file: none if its format has none here, if it is damaged, or if it goes over what is left of a
    budget."""
    try:
        with contextlib.closing(File(*opening.opened(path), budget)) as file:
            return of_stream(file, budget, path)
    except OSError:
        return CodedPicture()


def of_stream(stream: Stream, budget: Budget, name: bytes = b"") -> CodedPicture:
    """The same of a file that is open. Its name shows raw pictures of which it isn't known where their pixels are."""
    if raw_files.is_left(name):
        return CodedPicture()
    try:
        coded, found = followed(stream, budget)
        return CodedPicture(coded, rest.text_of(streams.digests(stream, found)))
    except (NotFollowed, TooMuch, OSError):
        return CodedPicture()
    except Broken as why:
        return CodedPicture(damage=str(why) or "its structure is broken")


def followed(stream: Stream, budget: Budget) -> tuple[str, list[streams.Part]]:
    """The digest, and all parts of the file; none in a format that isn't followed here. Raises `Broken` and `TooMuch`."""
    stream.seek(0)
    head = stream.read(12)
    add = _jpeg if head.startswith(jpeg.START) else _add_of(head)
    if add is None:
        return "", []
    coded = hashlib.blake2b(digest_size=32)
    found = streams.whole(stream, add(stream, coded, budget))
    return coded.hexdigest(), found


def _add_of(head: bytes) -> Add | None:
    """What adds the coded picture of a file of another format than JPEG that begins so."""
    from .coded_others import FOLLOWED  # which takes long to import

    return next((add for is_of, add in FOLLOWED if is_of(head)), None)


# JPEG

_JFIF, _ADOBE = 0xE0, 0xEE
_FRAMES = frozenset(range(0xC0, 0xD0)) - {0xC4, 0xC8, 0xCC}  # which are tables, and reserved


def _jpeg(stream: Stream, coded: "hashlib.blake2b", budget: Budget) -> Iterable[streams.Part]:
    head = read_head(stream, 0, budget)
    claims = list(jpeg.parts(stream, head, budget))
    for name in ("", jpeg.SCAN):  # the tables come first
        for part in claims:
            if part.kind == streams.PICTURE and part.name == name:
                add_to(coded, stream, part.start, part.end)
        if not name and _jfif_decides(head):
            coded.update(b"JFIF")
    return claims


def _jfif_decides(head: Head) -> bool:
    """Whether the colours of three components are those of JFIF, as there is a segment of it, and would be RGB without it: readers take a
    picture so by Adobe's transform 0, or by the letters of its components."""
    names = transform = b""
    is_jfif = False
    for marker, _, _, start, size in head.parts:
        data = head.octets[start : start + min(size, 32)]
        if marker == _JFIF:
            is_jfif |= data.startswith(b"JFIF\0")
        elif marker == _ADOBE:
            transform = data[11:12] if data.startswith(b"Adobe") and size >= 12 else transform
        elif marker in _FRAMES:
            names = data[6:15:3] * (data[5:6] == b"\3")
    return is_jfif and bool(names) and (transform == b"\0" if transform else names == b"RGB")
