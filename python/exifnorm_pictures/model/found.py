"""What a reader of a picture format finds: the blocks byte for byte as they are in the file, and the parts that it did not read."""

from __future__ import annotations

import hashlib
from collections import Counter

from exifnorm._hints import Iterable, NamedTuple, Sequence

from .budgets import BLOCKS, NOT_READ, Budget

SIX = b"Exif\0\0"  # the bytes that many formats and programs put in front of a block of Exif
XMP_HEAD = b"http://ns.adobe.com/xap/1.0/\0"  # the same of a packet of XMP
COMPRESSED = b"brob"  # how a block begins that is compressed by Brotli, as a box of JPEG XL: no block of a kind begins like this
FEW = 8  # blocks or parts of a usual picture at most; more are counted, which takes time
EXIF, IPTC, XMP = KINDS = ("exif", "iptc", "xmp")  # the kinds of blocks, as catalogues and JSON call them; the engine says iim
NAMES = {EXIF: "Exif", IPTC: "IPTC", XMP: "XMP"}
XMP_FILE = "XMP"  # the type of a file that is one packet: it has no picture
SIDECAR = "XMP sidecar"  # the name of a block of a file beside the picture
STANDARDS = tuple(NAMES.values())  # the first one that has a text wins where there is space for one
OWN, EXIFTOOL, EXIV2 = "own", "exiftool", "exiv2"  # which program extracted a block
PROGRAMS = {EXIFTOOL: "ExifTool", EXIV2: "exiv2"}

REST = "the rest of a damaged file"  # how a part begins that has such a file from its fault on
BROKEN = "broken: "  # how the reason begins for which a damaged file was left to ExifTool
CUT = "the file ends "  # how a fault begins that is the end of a file, after which bytes are missing
IN_PICTURE = f"{CUT}inside its picture"  # the same of one behind all metadata
WITHOUT_IPTC = ("WEBP", "Extended WEBP", "HEIC", "HEIF", "AVIF", "CR3", "JXL")  # formats, by the words of readers and ExifTool
UNREAD_NOTES = "what ExifTool reads of the MakerNote, at which it failed"  # a part that the next run asks for again
UNREAD_TRAILER = "blocks of the trailer, for which ExifTool is needed"  # a part that is read once ExifTool is there


def other_name(name: str) -> str:
    """The name of a block that isn't the first one of its kind; otherwise empty."""
    return "" if name in STANDARDS else name


_ORDINALS = "first second third fourth fifth sixth seventh eighth ninth".split()


def ordinal(number: int) -> str:
    """The ordinal of a number, from 1 on.

    >>> ordinal(2), ordinal(12)
    ('second', '12th')
    """
    return _ORDINALS[number - 1] if number <= len(_ORDINALS) else f"{number}th"


class Broken(Exception):
    """The file does not follow its format at a position that may have a block. Its text describes the fault and its position."""


class LeftToOthers(Exception):
    """Only ExifTool and exiv2 read a file of this kind."""


class FoundBlock(NamedTuple):
    """A block, without the bytes that its format puts before it, such as the six bytes `Exif\\0\\0`.

    The first block of a kind has the name of its kind, and each further block a name of its own, such as `second Exif` or `Exif of page 2`.
    """

    kind: str  # EXIF, IPTC or XMP
    data: bytes
    name: str
    where: str  # the position in the file, for people: `APP1 segment at 20`
    extractor: str = OWN
    extends: str = ""  # for extended XMP: the digest in its main packet
    note: int | None = None  # where the MakerNote begins in the file, if the block isn't in it as it is here


class NotRead(NamedTuple):
    """A part of a file that may contain metadata and was not read."""

    what: str
    digest: str  # SHA-256 of its bytes in hexadecimal digits; empty if they were not compared either


def damage(parts: Iterable[str]) -> list[str]:
    """The parts that are what is left of a damaged file, in which any block may be lost.

    >>> damage(["trailer of 3 bytes", "the rest of a damaged file (no marker at 2)"])
    ['the rest of a damaged file (no marker at 2)']
    """
    return [what for what in parts if what.startswith(REST) or f"({BROKEN}" in what]


def cut(parts: Iterable[str]) -> str:
    """Where a file is cut off, by its parts that were not read; empty if it isn't.

    >>> cut(["second picture", "the rest of a damaged file (the file ends inside the segment at 20)"]), cut(["second picture"])
    ('the file ends inside the segment at 20', '')
    """
    for what in damage(parts):
        _, word, rest = what.partition(CUT)
        if word:
            return CUT + rest.rpartition(")")[0]
    return ""


_WORDS_OF = {EXIF: ("Exif item", "Exif box", "Exif chunk"), XMP: ("rdf+xml", "extended XMP")}  # of parts that are of a kind
# parts in which other programs may read blocks of these kinds (docs/FORMAT.md, 9)
_MAY_HAVE = {"bytes behind the Photoshop": KINDS, "APP13 segment of an": KINDS, "APP1 segment of an": [XMP]}


def lost_kinds(type: str, parts: Sequence[str]) -> tuple[str, ...]:
    """The kinds of blocks that may be missing of a file of this format that is damaged, or of which a part of a kind wasn't read.

    >>> lost_kinds("JPEG", ["the rest of a damaged file (no marker at 2)"]), lost_kinds("JPEG", ["second picture"])
    (('exif', 'iptc', 'xmp'), ())
    >>> lost_kinds("HEIC", ["mime item application/rdf+xml"])
    ('xmp',)
    """
    if not damage(parts):
        return tuple(kind for kind, words in _WORDS_OF.items() if any(word in what for word in words for what in parts))
    return (EXIF, XMP) if type in WITHOUT_IPTC else KINDS


def hidden_kinds(parts: Iterable[NotRead], other: Iterable[NotRead]) -> list[str]:
    """The kinds of which blocks may be in parts that weren't read, and whose bytes the other picture doesn't have.

    >>> hidden_kinds([NotRead("APP1 segment of an unknown kind", "d")], [])
    ['xmp']
    """
    known = {it.digest for it in other} - {""}
    left = [it.what for it in parts if it.digest not in known]
    return [kind for what in left for words, kinds in _MAY_HAVE.items() if words in what for kind in kinds]


def not_known(type: str, parts: Sequence[str], kinds: Iterable[str]) -> list[str]:
    """The kinds that may be missing of a damaged file, in which blocks of some kinds are left.

    >>> not_known("JPEG", ["the rest of a damaged file (no marker at 20)"], ["exif"])
    ['iptc', 'xmp']
    """
    there = set(kinds)
    return [kind for kind in lost_kinds(type, parts) if kind not in there]


def each_kind(parts: Iterable[str]) -> list[str]:
    """Parts that were not read, for people: those of the same words together, because a file may have thousands of them.

    >>> each_kind(["trailer of 3 bytes", "unknown chunk", "unknown chunk"])
    ['trailer of 3 bytes', 'unknown chunk (2 times)']
    """
    return [what if count == 1 else f"{what} ({count:,} times)" for what, count in Counter(parts).items()]


class Blocks:
    """The blocks and unread parts of a file, in the order of the file.

    `problem` is a `Problem` if the file could not be read at all; it then has no block.
    """

    def __init__(
        self,
        blocks: Sequence[FoundBlock] = (),
        not_read: Sequence[NotRead] = (),
        extractor: str = OWN,
        type: str = "",
        problem: str | None = None,
        detail: str = "",
        damage: str = "",
        budget: Budget | None = None,
    ) -> None:
        self.blocks, self.not_read = list(blocks), list(not_read)
        self.extractor = extractor  # EXIFTOOL if any block, or the result that there is none, comes from ExifTool or exiv2
        self.type = type  # the format's name: JPEG, PNG, WEBP, TIFF, or ExifTool's name for it
        self.problem, self.detail = problem, detail
        self.damage = damage  # where the file is cut off, if all of its metadata stands before that
        self.counts: dict[str, int] = {}  # of blocks by name
        self.has_more = False  # whether ExifTool may find blocks in a part that was not read
        self.iptc_digest = b""  # of the record, as Photoshop has noted it
        self.rest: dict[str, int] = {}  # bytes of the parts by name that can have no metadata, as far as their lengths are read
        self.budget = budget or Budget()

    def add(self, kind: str, data: bytes, where: str, part: str = "", extractor: str = OWN, note: int | None = None) -> None:
        """Adds the next block of a kind, in the whole file or in one part of it.

        >>> blocks = Blocks()
        >>> blocks.add(EXIF, b"MM", "APP1 segment at 2"); blocks.add(EXIF, b"II", "APP1 segment at 30")
        >>> [it.name for it in blocks.blocks]
        ['Exif', 'second Exif']
        """
        self.check()
        name = NAMES[kind] + (f" of {part}" if part else "")
        number = self.counts[name] = self.counts.get(name, 0) + 1
        self.blocks.append(FoundBlock(kind, data, name if number == 1 else f"{ordinal(number)} {name}", where, extractor, note=note))

    def check(self) -> None:
        """Raises `TooMuch` if the file may have no further block."""
        if len(self.blocks) >= FEW:
            self.budget.spend(BLOCKS)

    def leave(self, what: str, data: bytes) -> None:
        """Adds a part that is not read, whose bytes are in memory. Raises `TooMuch`."""
        self.name(NotRead(what, hashlib.sha256(data).hexdigest()))

    def name(self, part: NotRead) -> None:
        """Adds a part that is not read. Raises `TooMuch`."""
        if len(self.not_read) >= FEW:
            self.budget.spend(NOT_READ)
        self.not_read.append(part)

    def pass_over(self, name: str, length: int) -> None:
        """Counts the bytes of a part that can have no metadata."""
        self.rest[name] = self.rest.get(name, 0) + length

    def is_iptc_changed(self) -> bool:
        """Whether a program that doesn't write XMP has changed the record since Photoshop noted its digest, as the guidelines of the Metadata
        Working Group find it out."""
        records = [it for it in self.blocks if it.kind == IPTC and it.where.startswith("Photoshop")] or self.of_kind(IPTC)
        digests = [hashlib.md5(it.data, usedforsecurity=False).digest() for it in records[:1]]
        return self.iptc_digest not in (b"", *digests) and bool(records)

    def of_kind(self, kind: str) -> list[FoundBlock]:
        """The blocks of one kind.

        >>> Blocks([FoundBlock(EXIF, b"MM", "Exif", "eXIf chunk at 33")]).of_kind(XMP)
        []
        """
        return [it for it in self.blocks if it.kind == kind]
