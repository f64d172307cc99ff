"""The directories of a TIFF or BigTIFF file as they are in it, read strictly: one that isn't all in the file, or shares bytes with another,
ends the reading (TIFF 6.0, section 2; TIFF Technical Note 1 for SubIFDs).

A directory is read once. Values may share bytes, as the engine refuses that by itself.
"""

from __future__ import annotations

import struct
from bisect import bisect_left, bisect_right
from itertools import count
from typing import Container, Iterator, NamedTuple

from exifnorm import LIMIT

from ...model.budgets import DIRECTORIES, ENTRIES, VALUE_BYTES, budget_of
from ...model.found import Broken
from ...model.tiff_types import BIG_TIFF, IFD, IFD8, LONG, LONG8, SHORT, SLONG, SLONG8, TIFF, Type
from .streams import Range, Stream, read_at, size_of

# The entries of a directory of TIFF and of BigTIFF, whose offsets and counts have eight bytes (TIFF 6.0; LibTIFF, "BigTIFF Design").
#
# Those of a BigTIFF are given the form of those of a TIFF, because a block has no other: LONG8, SLONG8 and IFD8 become LONG, SLONG and IFD
# where the number fits. So a BigTIFF and a TIFF with equal fields have equal blocks.

SUB_IFDS = 0x014A
PIXELS = {  # of offsets and lengths
    0x0111: "StripOffsets",
    0x0117: "StripByteCounts",
    0x0120: "FreeOffsets",
    0x0121: "FreeByteCounts",
    0x0144: "TileOffsets",
    0x0145: "TileByteCounts",
    0x0201: "JPEGInterchangeFormat",
    0x0202: "JPEGInterchangeFormatLength",
    0x0207: "JPEGQTables",
    0x0208: "JPEGDCTables",
    0x0209: "JPEGACTables",
}
IN_ENTRY = 4  # bytes of a value at most that is in its entry in a block
_LISTS = frozenset((*PIXELS, SUB_IFDS))  # which aren't in a block
_POINTERS = frozenset((0x8769, 0x8825, 0xA005))  # Exif, GPS, Interoperability
_NARROW = {LONG8: LONG, SLONG8: SLONG, IFD8: IFD}
_OFFSETS = (SHORT, LONG, IFD, LONG8, IFD8)


class Variant(NamedTuple):
    """How many bytes the numbers of a file's structure have, which is all that distinguishes BigTIFF from TIFF."""

    header: int  # bytes of the header, which ends with the offset of the first directory
    number: int  # of the number of a directory's entries
    offset: int  # of an offset, and of the last field of an entry
    row: str  # the tag, the type, the number of elements and the last field of an entry, for `struct`
    sizes: dict[int, int]  # of an element, by the types that there are
    codes: dict[int, str]  # of a number, by the types that offsets and lengths have


def _variant(header: int, count: int, offset: int, row: str, types: dict[int, Type]) -> Variant:
    sizes = {number: kind.size for number, kind in types.items()}
    return Variant(header, count, offset, row, sizes, {number: types[number].code for number in _OFFSETS if number in types})


CLASSIC = _variant(8, 2, 4, "HHI4s", TIFF)
BIG = _variant(16, 8, 8, "HHQ8s", BIG_TIFF)


class Entry(NamedTuple):
    """An entry: its last field is its value, or the offset of a value of more than `IN_ENTRY` bytes."""

    tag: int
    type: int
    elements: int
    last: bytes
    size: int  # the bytes of the value; 0 for a type that is not known


def narrowed(order: str, place: int, tag: int, kind: int, count: int, last: bytes) -> Entry:
    """An entry of a BigTIFF in the form of TIFF; its last field is at `place` in the file. Raises `Broken`.

    >>> narrowed("<", 28, 0x0100, LONG8, 1, b"\\7" + bytes(7))
    Entry(tag=256, type=4, elements=1, last=b'\\x07\\x00\\x00\\x00', size=4)
    """
    if count > 0xFFFFFFFF:
        raise Broken(f"the entry {tag:04x} has too many values")
    size = BIG.sizes.get(kind, 0) * count
    if kind in _NARROW and tag not in _LISTS:
        return _narrowed_number(order, tag, kind, count, last)
    if kind == IFD and tag in _POINTERS and count <= 1:
        kind = LONG
    if IN_ENTRY < size <= BIG.offset:
        last = struct.pack(order + "Q", place)
    return Entry(tag, LONG8 if kind in _NARROW else kind, count, last[:IN_ENTRY] if size <= IN_ENTRY else last, size)


def _narrowed_number(order: str, tag: int, kind: int, count: int, last: bytes) -> Entry:
    if count != 1:
        raise Broken(f"the entry {tag:04x} has several numbers of eight bytes")
    narrow = _NARROW[kind]
    if tag in _POINTERS and kind != SLONG8:
        return Entry(tag, LONG, 1, last, IN_ENTRY)
    (number,) = struct.unpack(order + BIG_TIFF[kind].code, last)
    try:
        return Entry(tag, narrow, 1, struct.pack(order + TIFF[narrow].code, number), IN_ENTRY)
    except struct.error:
        raise Broken(f"the entry {tag:04x} has a number of more than four bytes") from None


class Directory(NamedTuple):
    """A directory: its offset, its entries in their order, the offset of the next one, and where it ends."""

    at: int
    entries: list[Entry]
    following: int
    end: int


class Reached:
    """The parts of a file that its directories point to."""

    def __init__(self, header: int) -> None:
        self.parts = [(0, header)]
        self.pixels: list[Range] = []  # those of them with strips, tiles and JPEGs
        self.end: int | None = header  # after all of them; None if it is unknown

    def add(self, end: int, start: int | None = None) -> None:
        """Adds a part; without its start, of one whose bytes count as covered elsewhere."""
        self.parts.append((end if start is None else start, end))
        if self.end is not None:
            self.end = max(self.end, end)


class Directories:
    """The directories of one file."""

    def __init__(self, stream: Stream, variant: Variant = CLASSIC) -> None:
        """Reads the header. Raises `Broken`."""
        self.stream, self.variant = stream, variant
        self.size = size_of(stream)
        head = read_at(stream, 0, variant.header)
        self.order = "<" if head[:2] == b"II" else ">"
        if variant is BIG and (self.number(head[4:6]) != variant.offset or any(head[6:8])):
            raise Broken("its offsets have another size")
        self.first = self.number(head[-variant.offset :])
        self._row = struct.Struct(self.order + variant.row)
        self._starts = [0]  # of the header and of the directories that were read
        self._ends: dict[int, int] = {0: variant.header}
        self.budget = budget_of(stream)
        self._values: list[Range] = []
        self._in_entries: dict[int, int] = {}  # where values begin and end that are in an entry here, and not in one of a block
        self._shared: dict[Range, bytes] = {}

    def number(self, data: bytes) -> int:
        """A number in the file's byte order."""
        return int.from_bytes(data, "little" if self.order == "<" else "big")

    def read(self, at: int) -> Directory:
        """The directory at an offset. Raises `Broken`."""
        if at < self.variant.header:  # as of a file without any
            raise Broken(f"the directory at {at} shares bytes with another one")
        start = at + self.variant.number
        if self.variant is BIG and start > self.size:  # it may be beyond all that a system can seek
            raise Broken(f"the file ends before the directory at {at}")
        number = self.number(read_at(self.stream, at, self.variant.number))
        length = self._row.size * number
        end = start + length + self.variant.offset
        if end > self.size:
            what = f"directory at {at}" if self.variant is BIG else f"{end - start} bytes at {start}"
            raise Broken(f"the file ends inside the {what}")
        self._claim(at, end)
        self.budget.spend(DIRECTORIES)
        self.budget.spend(ENTRIES, number)  # before a table is read that may be as long as the file
        table = read_at(self.stream, start, end - start)
        return Directory(at, self._entries(table[:length], start), self.number(table[length:]), end)

    def _claim(self, start: int, end: int) -> None:
        place = bisect_left(self._starts, start)
        before = self._ends[self._starts[place - 1]] if place else 0
        after = self._starts[place] if place < len(self._starts) else end
        if start < before or after < end:
            raise Broken(f"the directory at {start} shares bytes with another one")
        self._starts.insert(place, start)
        self._ends[start] = end

    def _entries(self, table: bytes, start: int) -> list[Entry]:
        """The entries of a table, which is at `start` in the file. Raises `Broken`."""
        rows = self._row.iter_unpack(table)
        if self.variant is CLASSIC:
            sizes = self.variant.sizes
            return [Entry(tag, kind, elements, last, sizes.get(kind, 0) * elements) for tag, kind, elements, last in rows]
        entries = []
        for place, row in zip(count(start + self._row.size - self.variant.offset, self._row.size), rows):
            entry = narrowed(self.order, place, *row)
            if IN_ENTRY < entry.size <= self.variant.offset:
                self._in_entries[place] = place + entry.size
            entries.append(entry)
        return entries

    def unused(self, leading: Container[int]) -> Iterator[Range]:
        """The bytes of the directories that were read that are of no field: the offset of the next
        directory, the entries of tags that lead elsewhere, and what a short value leaves of the
        last field of its entry."""
        width, length = self.variant.offset, self._row.size
        for start in self._starts[1:]:
            first, last = start + self.variant.number, self._ends[start] - width
            yield last, last + width
            rows = self._row.iter_unpack(read_at(self.stream, first, last - first))
            for end, (tag, kind, elements, _) in zip(count(first + length, length), rows):
                size = min(self.variant.sizes.get(kind, width) * elements, width)
                yield end - (length if tag in leading else width - size), end

    def place_of(self, entry: Entry) -> Range | None:
        """The range of a value; None if it is in its entry, or the file doesn't contain all of it."""
        if entry.size <= IN_ENTRY:
            return None
        start = self.number(entry.last)
        return (start, start + entry.size) if self.variant.header <= start and start + entry.size <= self.size else None

    def is_cut(self, entry: Entry) -> bool:
        """Whether the file ends inside the value of an entry, or before it."""
        return entry.size > IN_ENTRY and self.number(entry.last) + entry.size > self.size

    def value(self, entry: Entry) -> bytes:
        """The value of an entry; no bytes if the file doesn't contain all of it. Raises `Broken`."""
        if entry.size <= IN_ENTRY:
            return entry.last[: entry.size]
        place = self.place_of(entry)
        return self.part(*place) if place else b""

    def shared(self, entry: Entry) -> bytes:
        """The same, of an entry whose value is a block by itself: pages that share it have it once in memory."""
        place = self.place_of(entry)
        if not place:
            return self.value(entry)
        if place not in self._shared:
            self._shared[place] = self.value(entry)
        return self._shared[place]

    def part(self, start: int, end: int) -> bytes:
        """The bytes of a part of the file with values. Raises `Broken`."""
        if self._in_entries.get(start, -1) < end:
            self.budget.spend(VALUE_BYTES, end - start)
            self._values.append((start, end))
        return read_at(self.stream, start, end - start)

    def check(self) -> None:
        """Raises `Broken` if a value that was read shares bytes with a directory or with the header."""
        for start, end in self._values:
            if self._ends[self._starts[bisect_left(self._starts, end) - 1]] > start:
                raise Broken(f"the value at {start} shares bytes with a directory")

    def is_list(self, entry: Entry) -> bool:
        """Whether an entry is a list of offsets or lengths that is all in the file."""
        return entry.type in self.variant.codes and (entry.size <= IN_ENTRY or self.place_of(entry) is not None)

    def numbers(self, entry: Entry) -> list[int]:
        """The values of an entry with a type of offsets; none for other types. Raises `Broken`."""
        code = self.variant.codes.get(entry.type)
        data = self.value(entry) if code else b""
        return [number for number, in struct.iter_unpack(self.order + code, data)] if code and len(data) == entry.size else []


# A directory of a TIFF file as an Exif block by itself: the tables first, then the values, without the entries that are left out.
#
# Values that share bytes in the file share them in the block, so the engine refuses here what it would refuse in the file. A value
# outside the file is outside the block.

NOWHERE = 0xFFFFFFFF
_EXIF, _MAKER_NOTE = 0x8769, 0x927C


class Table(NamedTuple):
    """A directory for a block: its entries, and the tables of the pointers among them, by their tags."""

    entries: list[Entry]
    below: "dict[int, Table]"


def is_pointer(entry: Entry) -> bool:
    """Whether an entry has a pointer's type and count, and is followed."""
    return entry.type == LONG and entry.elements == 1


def is_directory(entry: Entry) -> bool:
    """The same of a pointer to a directory, which may have type IFD, as libtiff writes it (TIFF Technical Note 1): it counts as LONG."""
    return entry.type in (LONG, IFD) and entry.elements == 1


def is_ifd(table: Table, entry: Entry) -> bool:
    """Whether an entry is a pointer of type IFD that is followed."""
    return entry.tag in table.below and entry.type == IFD


class Layout:
    """The block of a table: the offsets of its tables and its values. Raises `Broken` through the directories."""

    def __init__(self, directories: Directories, table: Table) -> None:
        self._directories = directories
        self._tables = [table]
        for table in self._tables:  # which grows meanwhile
            self._tables += table.below.values()
        self._parts = _joined(
            [place for table in self._tables for entry in table.entries if (place := directories.place_of(entry)) is not None]
        )
        self._places: dict[int, int] = {}
        self.length = 8
        for table in self._tables:
            self._places[id(table)] = self.length
            self.length += 6 + 12 * len(table.entries)
        self._offsets: list[int] = []
        for start, end in self._parts:
            self._offsets.append(self.length)
            self.length += end - start

    def block(self, of: str) -> bytes:
        """The bytes of the block, which is one of a part of this name. Raises `Broken` if it is
        too long."""
        if self.length > LIMIT:
            raise Broken(f"{of} has more than {LIMIT:,} bytes of values")
        order = self._directories.order
        written = [b"II*\0" if order == "<" else b"MM\0*", struct.pack(order + "I", 8)]
        for table in self._tables:
            written.append(struct.pack(order + "H", len(table.entries)))
            for entry in table.entries:
                kind = LONG if is_ifd(table, entry) else entry.type
                written.append(struct.pack(order + "HHI", entry.tag, kind, entry.elements) + self._last_field(table, entry))
            written.append(bytes(4))
        written += [self._directories.part(start, end) for start, end in self._parts]
        return b"".join(written)

    @property
    def has_ifd(self) -> bool:
        """Whether a pointer of type IFD is LONG in the block."""
        return any(is_ifd(it, entry) for it in self._tables for entry in it.entries)

    @property
    def note(self) -> int | None:
        """Where the MakerNote begins in the file, since its offsets may count from the file's header. None: none, or in its entry."""
        exif = self._tables[0].below.get(_EXIF)
        notes = [self._directories.place_of(it) for it in exif.entries if it.tag == _MAKER_NOTE and it.size > IN_ENTRY] if exif else []
        return notes[-1][0] if notes and notes[-1] else None

    def _last_field(self, table: Table, entry: Entry) -> bytes:
        if entry.tag in table.below:
            offset = self._places[id(table.below[entry.tag])]
        elif entry.size <= IN_ENTRY:
            return entry.last[:IN_ENTRY]
        else:
            place = self._directories.place_of(entry)
            offset = self._moved(place[0]) if place else NOWHERE
        return struct.pack(self._directories.order + "I", offset)

    def _moved(self, place: int) -> int:
        """The offset in the block of a value at an offset of the file."""
        number = bisect_right(self._parts, (place, NOWHERE)) - 1
        return self._offsets[number] + place - self._parts[number][0]


def _joined(places: list[Range]) -> list[Range]:
    """The parts of a file that some ranges cover, those that share bytes being one part.

    >>> _joined([(20, 30), (8, 12), (25, 40), (12, 20)])
    [(8, 12), (12, 20), (20, 40)]
    """
    joined: list[Range] = []
    for start, end in sorted(places):
        if joined and start < joined[-1][1]:
            joined[-1] = (joined[-1][0], max(end, joined[-1][1]))
        else:
            joined.append((start, end))
    return joined
