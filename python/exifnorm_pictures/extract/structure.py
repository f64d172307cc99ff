"""The directories of an Exif block as they are in it, read leniently: what can be read of a refused block too. It judges nothing.

`notes` tells where MakerNotes begin and which bytes of a block no field covers, though a MakerNote or another private pointer may lead there.
"""

from __future__ import annotations

import struct
from functools import cached_property
from itertools import count

from exifnorm._hints import Iterator, NamedTuple, Optional

from ..model.budgets import BLOCK_ENTRIES
from ..model.texts import in_words
from ..model.tiff_types import IFD, LONG, SHORT, SLONG, SSHORT, TIFF

MAKER_NOTE = 0x927C
_NOTE = ("exif", MAKER_NOTE)  # the directory and the tag
PRIVATE = {
    MAKER_NOTE: "the MakerNote",
    0x0190: "GlobalParametersIFD",
    0x8290: "Kodak's IFD",
    0x8606: "Leaf's IFD",
    0xFE00: "Kodak's IFD",
    0xC634: "Adobe's private data",
}
HEADER = 8  # bytes of the header
_LINKS = {"main": {0x8769: "exif", 0x8825: "gps"}, "exif": {0xA005: "interop"}}
LINKS = {(where, tag): to for where, links in _LINKS.items() for tag, to in links.items()}
_OFFSETS = frozenset((LONG, SHORT, SSHORT, SLONG, IFD))  # the type of a pointer, and types that are written in its place
_SIZES = {number: kind.size for number, kind in TIFF.items()}  # of an element
_READ = {order: [struct.Struct(order + form) for form in ("HHII", "H", "I")] for order in "<>"}
_PICTURES = (0x0201, 0x0202, 0x0111, 0x0117)  # a thumbnail's JPEG, its length, its strips, their lengths

Row = tuple[int, ...]  # an entry: its tag, type, number of elements, and its last four bytes as a number


class Entry(NamedTuple):
    """An entry: its place, and its four numbers."""

    place: int
    tag: int
    type: int
    elements: int
    last: int

    @property
    def size(self) -> int:
        """The bytes of its value; 0 of a type that is not known."""
        return _SIZES.get(self.type, 0) * self.elements


class Directory:
    """A directory: the rows of its entries that are in the block, and how many it counts."""

    def __init__(self, name: str, at: int, rows: list[Row], next_at: int, size: int, named_at: int) -> None:
        self.name, self.at, self.rows = name, at, rows
        self.next = next_at  # the place of the next directory's offset
        self.size = size  # the number of entries by its first two bytes
        self.named_at = named_at  # the place of the offset that leads here

    @cached_property
    def entries(self) -> list[Entry]:
        """The entries. A refused block can have thousands, and is walked after each step of its repair."""
        new = tuple.__new__
        return [new(Entry, (place, *row)) for place, row in zip(count(self.at + 2, 12), self.rows)]

    @property
    def is_whole(self) -> bool:
        """Whether all its entries are in the block."""
        return len(self.rows) == self.size


def order_of(block: bytes) -> str:
    """The byte order of a block, for `struct`."""
    return "<" if block[:2] == b"II" else ">"


def directories(block: bytes) -> Iterator[Directory]:
    """The directories of a block whose first two bytes are in it, each once, in the order in which the engine judges them.

    One that begins in the header leads nowhere. Those after `BLOCK_ENTRIES` are left out.
    """
    order, end, left = order_of(block), len(block), BLOCK_ENTRIES
    row, two, four = _READ[order]
    seen: set[int] = set()
    waiting = [("main", four.unpack_from(block, 4)[0], 4)] if end >= HEADER else []
    while waiting and left >= 0:
        name, at, named_at = waiting.pop()
        if at in seen or at + 2 > end:
            continue
        seen.add(at)
        (size,) = two.unpack_from(block, at)
        following = at + 2 + 12 * size
        rows = list(row.iter_unpack(block[at + 2 : min(following, at + 2 + (end - at - 2) // 12 * 12)]))
        left -= len(rows)
        yield Directory(name, at, rows, following, size, named_at)
        if at >= HEADER:
            if name == "main" and following + 4 <= end and (thumb := four.unpack_from(block, following)[0]):
                waiting.append(("thumb", thumb, following))
            waiting += _linked(block, order, name, at, rows)


def _linked(block: bytes, order: str, name: str, at: int, rows: list[Row]) -> Iterator[tuple[str, int, int]]:
    """The directories that the entries of one lead to, the last one first: the name of each, its offset, and where this is."""
    links = _LINKS.get(name, {})
    for number, row in [(number, row) for number, row in enumerate(rows) if row[0] in links][::-1]:
        if row[2] == 1 and row[1] in _OFFSETS:
            place = at + 10 + 12 * number
            yield links[row[0]], one_number(block, order, place, row), place


def two_at(block: bytes, order: str, place: int) -> int:
    """The number of two bytes at a place."""
    return int.from_bytes(block[place : place + 2], "little" if order == "<" else "big")


def one_number(block: bytes, order: str, place: int, row: Row) -> int:
    """The number of an entry with one, whose last field is at a place."""
    return two_at(block, order, place) if row[1] in (SHORT, SSHORT) else row[3]


class Walk:
    """The directories of a block that begin after its header, the Interoperability directory last, with a place for each entry."""

    def __init__(self, block: bytes) -> None:
        self.block = bytes(block)
        self.order = order_of(block)
        own = (directory for directory in directories(self.block) if directory.at >= HEADER)
        self.directories = sorted(own, key=lambda directory: directory.name == "interop")

    @property
    def is_whole(self) -> bool:
        """Whether no directory was left out because the block has more entries than are read."""
        return sum(len(directory.rows) for directory in self.directories) <= BLOCK_ENTRIES

    def four(self, place: int) -> int:
        """The number of four bytes at a place."""
        return int(_READ[self.order][2].unpack_from(self.block, place)[0])

    def number(self, entry: Entry) -> int:
        """The number of an entry with one, of type SHORT or LONG."""
        return one_number(self.block, self.order, entry.place + 8, entry[1:])

    def value(self, entry: Entry) -> bytes:
        """The bytes of a value, as far as they are in the block."""
        start = entry.last if entry.size > 4 else entry.place + 8
        return self.block[start : start + entry.size]

    def pictures(self) -> list[bytes]:
        """The thumbnail's JPEG and its strips, as far as they are in the block."""
        thumbs = (directory for directory in self.directories if directory.name == "thumb")
        return [self.block[start:end] for directory in thumbs for start, end in _pictures(self.block, self.order, directory)]


class Notes(NamedTuple):
    """Where the MakerNote begins (None: none, or in its entry), the bytes that no field covers, and what may lead to them."""

    place: int | None
    uncovered: "list[Gap]"
    by: tuple[str, ...]

    @property
    def words(self) -> str:
        """The uncovered bytes for people."""
        return counted(sum(len(octets) - octets.count(0) for _, octets in self.uncovered), " and ".join(self.by))

    @property
    def octets(self) -> bytes:
        """The uncovered bytes with their offsets, by which they are found: from the MakerNote on, whose place is compared too, because a
        program may move both; from the block's header on, if another pointer may lead to them."""
        start = self.place if self.place is not None and self.by == (PRIVATE[MAKER_NOTE],) else 0
        return b"".join(placed(at - start, octets) for at, octets in self.uncovered)


Gap = tuple[int, bytes]  # bytes that no field covers, and their offset


def placed(at: int, octets: bytes) -> bytes:
    """Bytes for a digest, with their offset.

    >>> placed(-2, b"Anna")
    b'-2 4 Anna'
    """
    return b"%d %d " % (at, len(octets)) + octets


def counted(number: int, by: str) -> str:
    """Uncovered bytes for people.

    >>> counted(1, "the MakerNote"), counted(2, "the MakerNote")
    ('1 byte that only the MakerNote can reach', '2 bytes that only the MakerNote can reach')
    """
    return f"{in_words(number, 'byte')} that only {by} can reach"


def notes(block: bytes) -> Notes:
    """What a block has besides its fields. Bytes of 0 are filling."""
    place, leads = None, {}  # type: Optional[int], dict[str, None]
    covered = [(0, HEADER)]
    for directory in directories(block):
        if directory.at < HEADER:
            continue
        covered.append((directory.at, directory.next + 4))
        links = _LINKS.get(directory.name, {})
        for tag, kind, elements, last in directory.rows:
            size = _SIZES.get(kind, 0) * elements
            if size > 4 and tag not in links:
                covered.append((last, last + size))
                place = last if (directory.name, tag) == _NOTE else place
            if tag in PRIVATE:
                leads[PRIVATE[tag]] = None
        if directory.name == "thumb":
            covered += _pictures(block, order_of(block), directory)
    return Notes(place, gaps(block, covered), tuple(leads)) if leads else Notes(None, [], ())


def _pictures(block: bytes, order: str, thumb: Directory) -> list[tuple[int, int]]:
    """Where the JPEG and the strips of a thumbnail's directory are."""
    numbers: dict[int, list[int]] = {}
    for number, (tag, kind, elements, last) in enumerate(thumb.rows):
        if tag in _PICTURES:
            size = _SIZES.get(kind, 0) * elements
            numbers[tag] = _numbers(block, order, kind, size, last if size > 4 else thumb.at + 10 + 12 * number)
    pairs = zip(_PICTURES[::2], _PICTURES[1::2])
    return [(start, start + size) for one, other in pairs for start, size in zip(numbers.get(one, ()), numbers.get(other, ()))]


def _numbers(block: bytes, order: str, kind: int, size: int, start: int) -> list[int]:
    """The values of an entry of type SHORT or LONG, which begin at `start`."""
    code = TIFF[kind].code if kind in (SHORT, LONG) else ""
    data = block[start : start + size]
    return [number for number, in struct.iter_unpack(order + code, data)] if code and len(data) == size else []


def gaps(block: bytes, covered: list[tuple[int, int]]) -> list[Gap]:
    """The bytes between some ranges, without the filling around them, and their offsets.

    >>> gaps(b"ab\\0cd\\0\\0", [(0, 2)])
    [(3, b'cd')]
    """
    between = []
    reached = 0
    for start, after in [*sorted(covered), (len(block), len(block))]:
        if start > reached and (gap := block[reached:start].lstrip(b"\0")):
            between.append((start - len(gap), gap.rstrip(b"\0")))
        if after > reached:
            reached = after
    return between


def may_have_notes(block: bytes) -> bool:
    """Whether a block has the tag of a MakerNote or of another private pointer anywhere: a quick test, which is true of some blocks without one."""
    return any(tag in block for tag in (_LITTLE if block[:1] == b"I" else PRIVATE_TAGS))


_LITTLE, PRIVATE_TAGS = (tuple(struct.pack(order + "H", tag) for tag in PRIVATE) for order in "<>")
