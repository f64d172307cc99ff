"""`explain`: a refusal as text, with the name of its entry, both owners of shared bytes, and the bytes around the offset."""

from __future__ import annotations

from dataclasses import dataclass, field
from typing import NamedTuple

from exifnorm import XmpRefused, xmp_normal
from exifnorm._causes import OF_PACKETS

from ..extract.structure import HEADER, Directory, directories, order_of, two_at
from ..fields.names import DIRECTORIES, name_of
from ..judge.judge import judge, judge_packet
from ..model.found import SIX, XMP
from ..model.records import BlockRecord, Status
from ..model.texts import Members, in_words
from ..model.tiff_types import EXIF, SHORT
from .causes import CAUSES, Cause, words_of


# Walks a refused block as far as it can be read, for people: the offset of each part, and the owner of each byte.
#
# It judges nothing: the cause and the byte offset of a refusal are the engine's.


class Part(NamedTuple):
    """A range of bytes, the part in it, and the offset of the entry or pointer that claims it."""

    start: int
    end: int
    what: str
    named_at: int


@dataclass(frozen=True)
class EntryAt:
    """An entry of a directory, unchanged."""

    where: str
    number: int  # from 1 on
    tag: int
    type: int
    count: int
    last: int  # the last four bytes as a number
    place: int

    @property
    def label(self) -> str:
        """Its name and its tag, and the directory."""
        return f"{name_of(self.where, f'{self.tag:04x}')} ({self.tag:04x}) of the {DIRECTORIES[self.where]}"

    @property
    def form(self) -> str:
        """Its type and its count."""
        word = EXIF[self.type].name if self.type in EXIF else f"unknown type {self.type}"
        return f"{word}, count {self.count}"

    @property
    def size(self) -> int:
        """The bytes of its value; 0 of a type that the engine doesn't know."""
        return EXIF[self.type].size * self.count if self.type in EXIF else 0


class Layout:
    """The parts and entries of an Exif block in the order in which they are judged."""

    def __init__(self, block: bytes) -> None:
        self.block = block.removeprefix(SIX)
        self.order = order_of(self.block)
        self.parts = [Part(0, HEADER, "the header", 0)]
        self.entries: dict[int, EntryAt] = {}
        for directory in directories(self.block):
            self._add(directory)

    def number(self, place: int, size: int) -> int | None:
        """The number of two or four bytes at an offset, or None outside the block."""
        if place < 0 or place + size > len(self.block):
            return None
        return int.from_bytes(self.block[place : place + size], "little" if self.order == "<" else "big")

    def _add(self, directory: Directory) -> None:
        words = f"the table of the {DIRECTORIES[directory.name]} ({directory.size} entries)"
        named_at = directory.named_at if directory.name in ("main", "thumb") else directory.named_at - 8  # the entry that has the offset
        self.parts.append(Part(directory.at, directory.next + 4, words, named_at))
        if directory.at < HEADER:
            return
        by_tag: dict[int, EntryAt] = {}
        for number, (tag, kind, elements, last) in enumerate(directory.rows, 1):
            place = directory.at - 10 + 12 * number
            if (kind, elements) == (SHORT, 1):
                last = two_at(self.block, self.order, place + 8)
            entry = EntryAt(directory.name, number, tag, kind, elements, last, place)
            self.entries.setdefault(place, entry)  # of tables that share bytes the first one is judged
            by_tag.setdefault(entry.tag, entry)
            if entry.size > 4:
                self.parts.append(Part(last, last + entry.size, f"the value of {entry.label}", place))
        start, length = by_tag.get(0x0201), by_tag.get(0x0202)
        if directory.name == "thumb" and start and length:
            self.parts.append(Part(start.last, start.last + length.last, "the thumbnail JPEG", start.place))

    def owners(self, place: int) -> tuple[Part, Part] | None:
        """The part that the entry at an offset claims and that shares bytes with an earlier one, and that one."""
        for index, mine in enumerate(self.parts):
            if mine.named_at != place or mine.end <= mine.start or index == 0:
                continue
            for other in self.parts[:index]:
                if other.end > other.start and mine.start < other.end and other.start < mine.end:
                    return mine, other
        return None


def hexadecimal(block: bytes, place: int) -> list[str]:
    """The bytes around an offset, sixteen in a line, two lines before and after, and a mark below it.

    >>> for line in hexadecimal(b"MM\\0*\\0\\0\\0\\x08", 4): print(line)
    00000000  4d 4d 00 2a 00 00 00 08                           MM.*....
                          ^^ 4
    """
    lines = []
    row = min(place, max(len(block) - 1, 0)) // 16
    for index in range(max(row - 2, 0), min(row + 3, (len(block) + 15) // 16)):
        octets = block[16 * index : 16 * index + 16]
        text = "".join(chr(it) if 32 <= it < 127 else "." for it in octets)
        lines.append(f"{16 * index:08x}  {octets.hex(' '):<48}  {text}")
        if index == place // 16:
            lines.append(" " * (10 + 3 * (place % 16)) + f"^^ {place}")
    if place >= len(block):
        lines.append(f"{'':10}the block ends at {len(block)}")
    return lines


NO_REMEDY = "none is known. Each step of `exifnorm-pictures mend` was tried on this file, and none makes a block that is accepted."


@dataclass
class Explanation:
    """The explanation of one block."""

    kind: str
    judgement: BlockRecord
    words: tuple[str, str] | None = None  # the fault in a sentence, and what helps
    cause: Cause | None = None  # what more is known of it
    here: list[str] = field(default_factory=list)  # the parts at the offset
    octets: list[str] = field(default_factory=list)
    is_without_remedy: bool = False  # of this file: each step of `mend` was tried

    @property
    def _remedy(self) -> str:
        """What helps. A remedy that isn't `mend` may help a packet all the same."""
        remedy = self.words[1] if self.words else ""
        has_failed = self.is_without_remedy and (self.cause or "mend`" in remedy)
        return NO_REMEDY if has_failed else remedy

    def lines(self) -> list[str]:
        """The explanation as text."""
        lines = [f"{self.kind}: {self.judgement.line}"]
        if not self.words:
            return lines
        lines.append(f"  {self.words[0]} {self.cause.meaning if self.cause else ''}".rstrip())
        lines += [*(f"  {it}" for it in self.here), *(f"    {it}" for it in self.octets)]
        if self.cause:
            writers = "; ".join(f"{who} ({count})" for who, count in self.cause.writers)
            lines += [f"  Written by: {writers}."] * bool(writers)
            lines.append(f"  Other readers: {self.cause.readers}")
        lines.append(f"  Remedy: {self._remedy}")
        if self.cause and not self.is_without_remedy:
            lines.append(f"  Cost: {self.cause.cost}")
        return lines

    def members(self) -> Members:
        """The explanation as members of a JSON object."""
        cause = self.cause
        return {
            "sentence": self.words[0] if self.words else None,
            "meaning": cause.meaning if cause else None,
            "here": self.here,
            "bytes": self.octets,
            "writers": cause.writers if cause else [],
            "remedy": self._remedy or None,
            "cost": None if not cause else "" if self.is_without_remedy else cause.cost,
        }


def explain(kind: str, block: bytes) -> Explanation:
    """Explains one block that was judged as `kind`; an accepted one needs no explanation."""
    if kind == XMP:
        return explain_packet(judge_packet(block), block)
    judgement = judge(kind, block)
    words = words_of(judgement.cause or "")
    cause = CAUSES.get(judgement.cause or "") if judgement.status == Status.REFUSED else None
    if not cause or judgement.place is None:
        return Explanation(kind, judgement, words, cause)
    layout = Layout(block)
    here = _FACTS.get(cause.name, _entry)(layout, cause.name, judgement.place)
    return Explanation(kind, judgement, words, cause, here, hexadecimal(layout.block, judgement.place))


def explain_packet(judgement: BlockRecord, packet: bytes) -> Explanation:
    """Explains an XMP packet that was judged; one that was read needs no explanation."""
    words = words_of(judgement.cause, XMP) if judgement.cause else None
    fault = _fault_of(packet) if judgement.cause in _AT_A_PLACE else None
    if not fault:
        return Explanation(XMP, judgement, words)
    what = OF_PACKETS[fault.cause][0].rpartition("not well-formed: ")[2]
    line = packet.count(b"\n", 0, fault.offset) + 1
    here = [f"At {fault.offset}, in line {line}: {what[0].lower()}{what[1:]}"]
    return Explanation(XMP, judgement, words, here=here, octets=hexadecimal(packet, fault.offset))


_AT_A_PLACE = ("NotWellFormed", "NotText")  # causes of a text that the library refuses at its first fault


def _fault_of(packet: bytes) -> XmpRefused | None:
    """The first fault of a packet in UTF-8 by the library, which names it exactly; none of one that it leaves to another reader."""
    try:
        xmp_normal(packet)
    except XmpRefused as fault:
        return None if fault.is_rare else fault
    return None


def _length(layout: Layout, cause: str, place: int) -> list[str]:
    return [f"The block has {in_words(len(layout.block), 'byte')}."]


def _beginning(layout: Layout, cause: str, place: int) -> list[str]:
    block = layout.block
    if not block:
        return ["The block is empty: the picture has no such metadata."]
    return [f"It begins with {block[:8].hex(' ')}."]


def _data_set(layout: Layout, cause: str, place: int) -> list[str]:
    block = layout.block
    before = block.rfind(b"\x1c", 0, place)
    lines = [f"The record has {in_words(len(block), 'byte')}; at {place} is {block[place : place + 8].hex(' ') or 'nothing'}."]
    if block[place : place + 1] == b"\x1c" and place + 3 <= len(block):
        lines.append(f"The DataSet is {block[place + 1]}:{block[place + 2]}.")
    elif before >= 0 and before + 3 <= len(block):
        lines.append(f"The last 1C before it, at {before}, begins with {block[before : before + 5].hex(' ')}.")
    return lines


def _range(part: Part) -> str:
    return f"{part.what} (bytes {part.start} to {part.end - 1})"


def _ranges(layout: Layout, cause: str, place: int) -> list[str]:
    owners = layout.owners(place)
    lines = _entry_line(layout, place)
    if owners:
        mine, other = owners
        start, end = max(mine.start, other.start), min(mine.end, other.end)
        lines.append(f"Both own bytes {start} to {end - 1}: {_range(mine)} and {_range(other)}.")
    return lines


def _directory(layout: Layout, cause: str, place: int) -> list[str]:
    lines = _entry_line(layout, place) if cause != "EmptyDirectory" else []
    pointer = layout.entries.get(place)
    named = pointer.last if pointer else layout.number(place, 4)
    at = place if cause == "EmptyDirectory" else named
    if at is None:
        return lines
    count, size = layout.number(at, 2), len(layout.block)
    if count is None:
        return lines + [f"The directory would begin at {at}; the block has {size} bytes."]
    end = at + 2 + 12 * count + 4
    words = f"The directory at {at} has {count} entr{'y' if count == 1 else 'ies'} and would end at {end}; the block has {size} bytes."
    if cause == "DirectoryOutside" and 0 < end - size <= 4:
        words += f" Only the offset after the last entry is missing ({end - size} bytes of 4)."
    return lines + [words]


def _next(layout: Layout, cause: str, place: int) -> list[str]:
    return [f"The thumbnail directory names a further one at {layout.number(place, 4)}."]


def _entry_line(layout: Layout, place: int) -> list[str]:
    entry = layout.entries.get(place)
    if not entry:
        words = {4: "the header's offset of the main directory"}.get(place, "the offset of the next directory")
        return [f"At {place} is {words}."]
    return [f"At {place} is entry {entry.number}: {entry.label}, {entry.form}, last field {entry.last}."]


def _entry(layout: Layout, cause: str, place: int) -> list[str]:
    lines = _entry_line(layout, place)
    entry = layout.entries.get(place)
    if not entry:
        return lines
    before = layout.entries.get(place - 12)
    if cause in ("Unsorted", "Doubled") and before:
        lines.append(f"Before it is {before.label}, {before.form}, last field {before.last}.")
    if cause == "ValueOutside":
        lines.append(f"Its value would end at {entry.last + entry.size}; the block has {len(layout.block)} bytes.")
    if cause == "ThumbnailOutside":
        ends = [part.end for part in layout.parts if part.named_at == entry.place and part.what == "the thumbnail JPEG"]
        lines += [f"The thumbnail would end at {end}; the block has {len(layout.block)} bytes." for end in ends[:1]]
    return lines


# What is shown of a refused block beside the bytes at the offset, by the cause; of all other causes the entry there
_FACTS = {
    "TooLong": _length,
    "UnknownKind": _beginning,
    "HeaderCut": _length,
    "Loop": _directory,
    "DirectoryOutside": _directory,
    "EmptyDirectory": _directory,
    "Overlap": _ranges,
    "ExtraDirectory": _next,
    **dict.fromkeys(("NoMarker", "LengthForm", "DataSetCut"), _data_set),
}
