"""The records of a catalogue: a picture with its unread parts and the file system's marks that show an edit, and its judged blocks.

Each definition is also that of its table: what a field says of its column is written to the file's schema. A field that is a column is declared
as `Annotated[type, "what it is"]`, or with `Is(..)` for more than its type says.
"""

from __future__ import annotations

import hashlib
import itertools
import operator
import os

from exifnorm._hints import Annotated, Any, Iterable, NamedTuple, Optional, Sequence

from .budgets import ROW_BYTES
from .errors import Damaged
from .found import EXIF, KINDS, NAMES, XMP, Blocks, NotRead, cut, not_known
from .steps import Steps, loses, unpacked
from .texts import Members, Word

LONGEST = 10_000  # characters of a text, or bytes of a path, that `index` writes: many are in memory together


class Is(NamedTuple):
    """More about a column: what it is, its definition in SQL after its name if its type doesn't tell it, and the length of its longest value."""

    about: str = ""
    sql: str = ""
    longest: int = LONGEST


Row = tuple[Any, ...]  # of a table

# The blocks of one kind in one picture, as two pictures are compared by them.

REACHED = " that only the MakerNote can reach"  # the end of the name of such bytes, which aren't read


class Status(Word):
    """What is known of a block, or of all blocks of a kind. It is its word, as JSON and catalogues have it: `Status.ACCEPTED == "accepted"`."""

    ACCEPTED = "accepted"
    REFUSED = "refused"
    UNREADABLE = "unreadable"
    TOO_LONG = "too long"
    FAILED = "failed"
    ABSENT = "absent"  # of a kind without a block


class Side(NamedTuple):
    """The blocks of one kind in one picture."""

    status: Status  # ACCEPTED, REFUSED, UNREADABLE or ABSENT
    digest: str = ""  # of their meaning, if all are accepted
    octets: str = ""  # of their bytes
    repaired: str = ""  # of their meaning after repairs that lose nothing, if one of them is refused

    @property
    def meaning(self) -> "str | None":
        """The digest of their meaning, be it after repairs; empty without a block, None if it
        isn't known."""
        return "" if self.status == Status.ABSENT else self.digest or self.repaired or None


NO_BLOCK = Side(Status.ABSENT)
_NAMES = frozenset(NAMES.values())


def side_of(ours: "Sequence[BlockRecord]") -> Side:
    """The side of a picture for the kind that these blocks have. Several are compared in their order and under their names."""
    if not ours:
        return NO_BLOCK
    octets = of_all(ours, [it.octets for it in ours])
    if all(it.status == Status.ACCEPTED for it in ours):
        return Side(Status.ACCEPTED, of_all(ours, [it.digest for it in ours]), octets)
    status = Status.UNREADABLE if ours[0].kind == XMP else Status.REFUSED
    return Side(status, "", octets, of_all(ours, [it.meaning for it in ours]))


def of_all(blocks: "Sequence[BlockRecord]", digests: "Sequence[str | None]") -> str:
    """One digest for several blocks by theirs; empty if that of one isn't known."""
    return joined([(it.name, str(digest)) for it, digest in zip(blocks, digests)]) if all(digests) else ""


def joined(named: Sequence[tuple[str, str]]) -> str:
    """One digest for several blocks, by their names; that of the first block of a kind if it is alone."""
    if len(named) == 1 and named[0][0] in _NAMES:
        return named[0][1]
    return hashlib.sha256("\n".join(f"{name}: {digest}" for name, digest in named).encode("utf-8")).hexdigest()


# The records

_PATH = 5000  # bytes: Linux opens paths of 4,095, and lists a name of 255 in such a folder
_STEPS, _EACH = 1 << 20, 1 << 20  # characters of the steps of a repair, and of what each of a picture's blocks or sidecars adds
AS_BEFORE = " as before"


class BlockRecord(NamedTuple):
    """A block: its name, its position in the file, its reader, and the result of judging it. `fields.block_fields` has its fields."""

    kind: Annotated[str, "exif, iptc, xmp"]
    name: Annotated[str, "Exif, IPTC, XMP; of further blocks a name of their own"]  # `second Exif`, `Exif of page 2`
    source: Annotated[str, "its position in the file"]
    extractor: Annotated[str, "own, exiftool, exiv2"]
    status: Annotated[str, ", ".join(it for it in Status if it != Status.ABSENT)]
    digest: Annotated[Optional[str], "SHA-256 of the normal form, or of the statements of XMP; only of an accepted block"]
    cause: Annotated[Optional[str], "of a block that isn't accepted: docs/FORMAT.md, section 5, or a cause of XMP"]
    place: Annotated[Optional[int], ""]
    length: Annotated[int, "bytes of the block"]
    octets: Annotated[str, "SHA-256 of the block as it is in the file"]  # by which a copy is known from a block that was written again
    repair: Annotated[
        Optional[str],
        Is("of a refused block: the steps after which it is accepted, JSON: cause, what was done, what is lost", longest=_STEPS),
    ] = None
    repaired: Annotated[Optional[str], "SHA-256 of what it means after them"] = None
    note: Annotated[
        Optional[int], "where its MakerNote begins: in the block, or in a TIFF, whose block is laid out anew, in the file"
    ] = None
    fields: Annotated[
        Optional[bytes],
        Is(
            "its fields, after repair if it is refused, and those of the blocks after it, a line each: JSON, by zlib if long",
            longest=ROW_BYTES,
        ),
    ] = None
    # What a catalogue doesn't have
    but_note: Optional[str] = None  # a digest of its fields without the MakerNote, if it has one; of a refused block, of those after repair
    fresh: Optional[object] = None  # the fields of a block that was judged just now: `fields.block_fields.Once`

    @property
    def is_accepted(self) -> bool:
        """Whether it has a normal form, or its packet can be read."""
        return self.status == Status.ACCEPTED

    @property
    def steps(self) -> Steps:
        """The steps of its repair."""
        return unpacked(self.repair)

    @property
    def meaning(self) -> "str | None":
        """The digest of its meaning, if it is accepted as it is or after a repair that loses nothing."""
        return self.digest or (self.repaired if self.repair and not loses(self.steps) else None)

    @property
    def refusal(self) -> str:
        """The cause and byte offset of a refusal in a line."""
        return f"{self.cause} at {self.place}" if self.place is not None else str(self.cause)

    @property
    def members(self) -> Members:
        """The block as JSON has it, without its fields."""
        about = {"kind": self.kind, "name": self.name, "status": self.status, "digest": self.digest}
        return {**about, "cause": self.cause, "offset": self.place, "length": self.length}

    @property
    def line(self) -> str:
        """The result in a line, as the program `exifnorm check` puts it."""
        if self.is_accepted:
            return f"ok {self.kind}"
        if self.status == Status.UNREADABLE:
            return f"unreadable: {self.cause}"
        if self.status == Status.REFUSED:
            return f"refused: {self.cause} at {self.place}"
        return "refused: NormalTooLong" if self.status == Status.TOO_LONG else "failed: OutOfMemory"


_LEAST, _GREATEST = -(1 << 63), (1 << 63) - 1


_MARKS = operator.attrgetter("st_size", "st_mtime_ns", "st_ctime_ns", "st_ino", "st_dev")
RACY = -1  # the ctime of a file that may be edited again without a mark


class Stamp(NamedTuple):
    """The marks that show an edit. ctime also shows one that keeps size and mtime, as `exiftool -P` does."""

    size: int
    modified: int
    changed: int
    inode: int
    device: int = 0  # which another mount may change: it identifies a file together with the inode, and shows no edit

    @classmethod
    def of(cls, status: os.stat_result) -> "Stamp":
        marks = size, modified, changed, inode, device = _MARKS(status)
        if 0 <= size | modified | changed | inode | device <= _GREATEST:  # each is in this range, as nearly always
            return tuple.__new__(cls, marks)
        # signed ones of 64 bits, as SQLite keeps numbers: times after the year 2262 and large inodes have more
        return cls._make((it - _LEAST) % (1 << 64) + _LEAST for it in marks)

    @classmethod
    def at(cls, path: bytes) -> "Optional[Stamp]":
        """That of the file with this name; None if it isn't known."""
        try:
            return cls.of(os.stat(path))
        except (OSError, ValueError):  # a name of a catalogue may have a NUL
            return None


def is_as_before(stamp: Stamp, other: Stamp) -> bool:
    """Whether two stamps show no edit."""
    return stamp[:4] == other[:4]


def is_marked_as(now: Stamp, marks: "Sequence[int | None]") -> bool:
    """Whether a file is the one that was looked at, by its size, times and inode; the ctime of a fresh file isn't known."""
    return tuple(now[:4]) == tuple(marks) if marks[2] != RACY else (now[0], now[1], now[3]) == (marks[0], marks[1], marks[3])


class PictureRecord(NamedTuple):
    """A picture and what is known of it: after it was looked at, or as a catalogue keeps it."""

    id: Annotated[int, Is(sql="INTEGER PRIMARY KEY")] = 0  # its number in a catalogue
    path: Annotated[bytes, Is("absolute, as the file system has it", "BLOB NOT NULL UNIQUE", longest=_PATH)] = b""
    root: Annotated[bytes, Is("the folder that was indexed", longest=_PATH)] = b""
    size: Annotated[Optional[int], "bytes"] = None
    modified: Annotated[Optional[int], "nanoseconds since 1970, in 64 bits"] = None
    changed: Annotated[Optional[int], "the same of the last change of the file's status (ctime)"] = None
    inode: Annotated[Optional[int], ""] = None
    device: Annotated[Optional[int], "the file system, which identifies a file together with the inode"] = None
    type: Annotated[str, "the format: JPEG, PNG .., or ExifTool's word"] = ""
    extractor: Annotated[str, "which program extracted the blocks: own, exiftool"] = ""
    problem: Annotated[Optional[str], "why there are no blocks: Vanished, Moved, Unreadable, NoPicture, ToolFailed .."] = None
    detail: Annotated[str, ""] = ""
    exif: Annotated[Optional[str], "SHA-256 of what all blocks of a kind mean; empty: no such block; NULL: refused or not known"] = None
    iptc: Annotated[Optional[str], ""] = None
    xmp: Annotated[Optional[str], ""] = None
    not_read: Annotated[Optional[str], "SHA-256 of what was not read; empty: all was read; NULL: it can't be compared"] = None
    other_not_read: Annotated[Optional[str], "the same without the bytes that only a MakerNote can reach"] = None
    other_exif: Annotated[str, "BLAKE2b of the fields of Exif without the MakerNotes, after repairs too; empty: there is none"] = ""
    exif_octets: Annotated[str, "SHA-256 of the blocks of a kind as they are in the file; empty if there is none"] = ""
    iptc_octets: Annotated[str, ""] = ""
    xmp_octets: Annotated[str, ""] = ""
    exif_repaired: Annotated[
        Optional[str], "SHA-256 of what the Exif blocks mean after repairs that lose nothing, if one is refused"
    ] = None
    maker_notes: Annotated[str, Is("where the MakerNotes begin, which decides what they mean; empty if there is none", longest=_EACH)] = ""
    file: Annotated[str, "SHA-256 of the whole file, if nothing else of it can be compared; else empty"] = ""
    coded_picture: Annotated[Optional[str], "BLAKE2b of the coded picture; empty: not known of this file; NULL: not requested"] = None
    beside: Annotated[
        Optional[str], "the rest of the file by name, in lines: BLAKE2b, or lengths without a coded_picture; empty: none; NULL: not known"
    ] = None
    damage: Annotated[str, "where the file is cut off, or its coded picture is damaged; empty: nowhere, or not known"] = ""
    sha256: Annotated[Optional[str], "SHA-256 of the whole file; empty: it can't be read; NULL: not requested"] = None
    sidecars: Annotated[str, Is("names, sizes, times and inodes of its XMP sidecars; empty if there is none", longest=_EACH)] = ""
    # What other tables of a catalogue have, and what it doesn't have, if the picture was looked at just now
    blocks: tuple[BlockRecord, ...] = ()
    unread: tuple[NotRead, ...] = ()
    notes: Optional[bytes] = None  # what ExifTool reads of its MakerNotes, if it was asked
    is_known: bool = False  # whether it had the same problem when it was looked at before

    @classmethod
    def of(
        cls,
        path: bytes,
        root: bytes,
        stamp: "Stamp | None" = None,
        type: str = "",
        extractor: str = "",
        problem: "str | None" = None,
        detail: str = "",
        blocks: Sequence[BlockRecord] = (),
        unread: Sequence[NotRead] = (),
        **others: Any,
    ) -> "PictureRecord":
        """A picture that was looked at. Several processes do that, and one writes, so what is compared is made here."""
        if fault := cut(part.what for part in unread) if unread else "":
            others["damage"] = fault
        if not problem:  # of one with a problem nothing is known
            others.update(_compared(blocks, unread))
        others.update(zip(Stamp._fields, stamp or _NO_STAMP), blocks=tuple(blocks), unread=tuple(unread))
        return cls(path=path, root=root, type=type, extractor=extractor, problem=problem, detail=detail, **others)

    @classmethod
    def of_blocks(
        cls, path: bytes, root: bytes, stamp: "Stamp | None", blocks: Blocks, judged: Sequence[BlockRecord] = (), **others: Any
    ) -> "PictureRecord":
        """A picture by its blocks, as they were found and judged."""
        about = (blocks.type, blocks.extractor, blocks.problem, blocks.detail)
        others["damage"] = blocks.damage or others.get("damage", "")
        return cls.of(path, root, stamp, *about, judged, blocks.not_read, **others)

    @property
    def stamp(self) -> "Stamp | None":
        """The marks of its file, if they are known."""
        if self.size is None or self.modified is None or self.changed is None or self.inode is None:
            return None
        return Stamp(self.size, self.modified, self.changed, self.inode, self.device or 0)

    def stamped(self, stamp: "Stamp | None") -> "PictureRecord":
        """The same picture with other marks."""
        marks: dict[str, Any] = dict(zip(Stamp._fields, stamp or _NO_STAMP))
        return self._replace(**marks)

    @property
    def not_known(self) -> list[str]:
        """The kinds of which a block may be missing, since the file is damaged, if it was looked at just now."""
        return not_known(self.type, [part.what for part in self.unread], (block.kind for block in self.blocks))

    @property
    def marks(self) -> "tuple[int | None, ...]":
        """Size, times and inode, as in a stamp."""
        return self.size, self.modified, self.changed, self.inode

    @property
    def meanings(self) -> "tuple[str | None, ...]":
        """By KINDS: the digest of the meaning, empty without a block, None if it isn't known."""
        return self.exif, self.iptc, self.xmp

    @property
    def octets(self) -> tuple[str, ...]:
        """By KINDS: the digest of the blocks' bytes, empty without a block."""
        return self.exif_octets, self.iptc_octets, self.xmp_octets

    @property
    def kept_bytes(self) -> int:
        """About how many bytes its fields have, if it was looked at just now."""
        return sum([len(block.fields) for block in self.blocks if block.fields])

    @property
    def state(self) -> str:
        """One word for the whole picture: a problem, `refused`, `accepted`, or `no block`, in place of which one whose head is cut off has
        `damaged`; and whether the problem was there before."""
        if self.problem:
            return self.problem + AS_BEFORE * self.is_known
        if None in self.meanings:
            return str(Status.REFUSED)
        if any(self.meanings):
            return str(Status.ACCEPTED)
        return "damaged" if self.damage and self.not_read != "" else "no block"

    def sides(self) -> dict[str, Side]:
        """The digest of its meaning, for each kind of block."""
        by_kind = {}
        for kind, digest, octets in zip(KINDS, self.meanings, self.octets):
            status = Status.ABSENT if digest == "" else Status.ACCEPTED if digest else Status.UNREADABLE if kind == XMP else Status.REFUSED
            by_kind[kind] = Side(status, digest or "", octets, (self.exif_repaired or "") if kind == EXIF else "")
        return by_kind


def is_same_file(picture: PictureRecord, other: PictureRecord) -> bool:
    """Whether nothing was written to a file and its sidecars between two looks: size, times and inode are the same. Not if it may have been
    edited again without a mark, and not if it has rotted, so that something of it has another digest."""
    if picture.path and picture == other:  # of one look; bytes have no path
        return True
    has_marks = None not in picture.marks and picture.changed != RACY
    digests = zip(
        (picture.sha256, picture.file, picture.not_read, *picture.octets), (other.sha256, other.file, other.not_read, *other.octets)
    )
    has_rotted = any(mine and its and mine != its for mine, its in digests)
    return has_marks and picture.marks == other.marks and picture.sidecars == other.sidecars and not has_rotted


_NO_STAMP = (None,) * len(Stamp._fields)


def _compared(blocks: Sequence[BlockRecord], unread: Sequence[NotRead]) -> dict[str, Any]:
    """What is compared of a picture: columns by their names."""
    known: dict[str, Any] = _NOTHING.copy()
    for kind in {it.kind for it in blocks}:
        ours = [it for it in blocks if it.kind == kind]
        side = side_of(ours)
        known[kind] = side.digest if side.status == Status.ACCEPTED else None
        known[f"{kind}_octets"] = side.octets
        if kind == EXIF:
            known.update(_maker_notes(ours), exif_repaired=side.repaired or None)
    not_read = known["not_read"] = _parts_digest(unread)
    known["other_not_read"] = not_read and _parts_digest([part for part in unread if not part.what.endswith(REACHED)])
    return known


_NOTHING = dict.fromkeys((*KINDS, *(f"{kind}_octets" for kind in KINDS)), "")  # of no block


def _maker_notes(exif: Sequence[BlockRecord]) -> dict[str, str]:
    """Where the MakerNotes begin, and a digest of what the blocks mean without them, if there are
    any."""
    notes = [f"{it.name}:{it.note}" for it in exif if it.note is not None]
    if not notes:
        return {}
    others = of_all(exif, [it.meaning and (it.but_note or it.meaning) for it in exif])
    return {"maker_notes": ",".join(notes), "other_exif": others}


def _parts_digest(parts: Sequence[NotRead]) -> "str | None":
    """SHA-256 of some parts that were not read: empty without any, None if the bytes of one aren't known."""
    if not parts:
        return ""
    lines = "\n".join(f"{it.what} {it.digest}" for it in parts)
    return hashlib.sha256(lines.encode("utf-8", "surrogatepass")).hexdigest() if all(it.digest for it in parts) else None


def not_read_of_row(row: Row) -> NotRead:
    """A part that was not read, of a row `what, digest`."""
    has_short(str, *row)
    return NotRead(*row)


def check(row: Iterable[object], types: Iterable[Any], longest: Iterable[int]) -> None:
    """Raises `Damaged` if a value isn't of its type, or is too long."""
    for value, kind, most in zip(row, types, longest):
        if not isinstance(value, kind):
            raise Damaged(f"{value!r:.200} is a value of another type")
        if isinstance(value, (str, bytes)) and len(value) > most:
            raise Damaged(f"a value of {len(value):,} characters is too long")


def has(kind: type, *values: object) -> None:
    """Raises `Damaged` if a value of a row isn't of this type."""
    check(values, itertools.repeat(kind), itertools.repeat(ROW_BYTES))


def has_short(kind: type, *values: object) -> None:
    """Raises `Damaged` if a value of a row isn't of this type, or is longer than any path or word that `index` writes."""
    check(values, itertools.repeat(kind), itertools.repeat(LONGEST))


def kind_of(word: str) -> str:
    """The kind of a block by its word in a catalogue. Raises `Damaged` if there is none."""
    if word not in KINDS:
        raise Damaged(f"{word!r} is no kind of block")
    return word
