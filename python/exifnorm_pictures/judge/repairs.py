"""Repairs of refused Exif blocks, in memory: one step after another, each for the first fault that the engine names, until it accepts.

The repaired block is never written. Each step has words for people, and what it loses. A repair that loses anything may show fields,
and never makes two pictures the same. Steps change tables, whose bytes values can share: a value that isn't as the block had it is left
out. That a repaired block says what was meant is tested against ExifTool, and not proved.
"""

from __future__ import annotations

import struct
from collections import Counter
from typing import Iterator, NamedTuple, Sequence, Union

import exifnorm

from ..extract.structure import HEADER, LINKS, MAKER_NOTE, Directory, Entry, Walk
from ..model.budgets import Budget
from ..model.steps import Step, Steps
from ..model.texts import grouped
from ..model.tiff_types import EXIF, IFD, LONG

MOST = 100  # steps
SHORT = 65_536  # bytes by which any block may grow
_POINTERS = (0x0111, 0x0117, 0x0201, 0x0202, 0x8769, 0x8825, 0xA005)
_ALLOWED = {("main", 0x8769), ("main", 0x8825), ("exif", 0xA005), *(("thumb", it) for it in (0x0111, 0x0117, 0x0201, 0x0202))}
_ROLES = {0x0111, 0x0117, 0x0120, 0x0144, 0x014A, 0x0201, 0x0202, 0x0207, 0x0208, 0x0209, 0x8769, 0x8825, 0xA005}
_NAMES = {
    "main": "main directory",
    "exif": "Exif directory",
    "gps": "GPS directory",
    "interop": "Interoperability directory",
    "thumb": "thumbnail directory",
}


class Repaired(NamedTuple):
    """A block that is accepted after some steps."""

    block: bytes
    form: bytes
    steps: Steps


class _Walk(Walk):
    """A block that is repaired, with its entries, and what becomes of it by a change."""

    def entries(self) -> Iterator[tuple[Directory, Entry]]:
        """Each entry, with its directory."""
        return ((directory, entry) for directory in self.directories for entry in directory.entries)

    def without(self, directory: Directory, entry: Entry) -> bytearray:
        """The block without an entry; the room is filled behind the directory."""
        out = bytearray(self.block)
        out[entry.place : directory.next + 4] = out[entry.place + 12 : directory.next + 4] + bytes(12)
        struct.pack_into(self.order + "H", out, directory.at, directory.size - 1)
        return out

    def following(self, directory: Directory) -> int:
        """The offset of the directory that follows one; 0 without any."""
        return self.four(directory.next) if directory.next + 4 <= len(self.block) else 0

    def thumbnails(self) -> Iterator[tuple[Directory, Entry, Entry]]:
        """The directory of a thumbnail that is a JPEG, with the entries that have its place and its length."""
        for directory in self.directories:
            by = {one.tag: one for one in directory.entries}
            if directory.name == "thumb" and 0x0201 in by and 0x0202 in by:
                yield directory, by[0x0201], by[0x0202]

    def put(self, place: int, number: int, more: bytes = b"") -> bytearray:
        """The block with another number of four bytes at a place, and with more bytes at its end."""
        out = bytearray(self.block + more)
        struct.pack_into(self.order + "I", out, place, number)
        return out


# The block after a step, the step's words, what it loses, and where
_Done = Union[None, "tuple[bytearray, str, str]", "tuple[bytearray, str, str, str]"]


def repaired(block: bytes, budget: Budget | None = None) -> Repaired | None:
    """The repaired block; none if no repair is known. Raises `TooLong` if its picture has taken too much time."""
    budget = budget or Budget()
    original = now = bytes(block)
    steps: list[Step] = []
    while len(steps) <= MOST:
        budget.check_time()
        form, cause = _judged(now)
        try:
            done = _next(cause, original, now, budget) if cause or steps else None
        except (struct.error, IndexError):
            return None
        if not done:
            return None if cause else Repaired(now, form, tuple(steps))
        if bytes(done[0]) == now:
            return None
        now = bytes(done[0])
        steps.append(Step(cause or "Overlap", *done[1:]))
    return None


def _judged(block: bytes) -> tuple[bytes, str]:
    """The normal form of a block, or why it has none."""
    try:
        return exifnorm.normal(block), ""
    except exifnorm.Refused as refused:
        return b"", refused.cause
    except (exifnorm.NormalTooLong, MemoryError):
        return b"", "NormalTooLong"


def _next(cause: str, original: bytes, now: bytes, budget: Budget) -> _Done:
    """The next step of a block that is refused, or, without a cause, of one that is accepted after some steps."""
    if not cause:
        return _changed_value(_Walk(original), _Walk(now), budget)
    step = _STEPS.get(cause)
    walk = _Walk(now) if step else None
    return step(walk) if step and walk and walk.is_whole else None


def _changed_value(old: _Walk, walk: _Walk, budget: Budget) -> _Done:
    """Leaves out a value that the block didn't have: it shares bytes with a table, which other steps have changed."""
    known = grouped(((directory.name, entry.tag, entry.elements), entry) for directory, entry in old.entries())
    for directory, entry in walk.entries():
        alike = known.get((directory.name, entry.tag, entry.elements), [])
        if entry.tag not in _POINTERS and not _had(old, alike, walk.value(entry), budget):
            what = f"tag {entry.tag:04x}, whose value other steps would change, left out"
            return walk.without(directory, entry), what, *_value(directory, entry)
    pictures = old.pictures()
    if all(any(one.startswith(it) for one in pictures) for it in walk.pictures()):
        return None
    places = (("thumb", 0x0111), ("thumb", 0x0201))
    directory, entry = next(it for it in walk.entries() if (it[0].name, it[1].tag) in places)
    what = "a thumbnail that other steps would change left out"
    return walk.without(directory, entry), what, "the thumbnail", "thumb"


def _had(old: _Walk, entries: Sequence[Entry], value: bytes, budget: Budget) -> bool:
    """Whether one of some entries had a value. Values may share bytes, and be longer together than the block."""
    for entry in entries:
        budget.check_time()
        if old.value(entry) == value:
            return True
    return False


# The steps, by the engine's causes


def _value(directory: Directory, entry: Entry) -> tuple[str, str]:
    """What is lost with an entry that is left out, and where."""
    return "a value", f"{directory.name} {entry.tag:04x}"


def _unsorted(walk: _Walk) -> _Done:
    out = bytearray(walk.block)
    for directory in walk.directories:
        if directory.is_whole:
            rows = [walk.block[one.place : one.place + 12] for one in directory.entries]
            rows.sort(key=lambda row: struct.unpack(walk.order + "H", row[:2]))
            out[directory.at + 2 : directory.next] = b"".join(rows)
    return out, "entries sorted", ""


def _overlap(walk: _Walk) -> _Done:
    """What isn't in the block is left out first: it must not lead to the bytes by which the block grows."""
    return _cut_directory(walk) or _value_outside(walk) or _thumbnail_outside(walk) or _end_of_directory(walk) or _shared_values(walk)


def _values(walk: _Walk) -> list[tuple[bool, int, int, int]]:
    """The values of a block: whether one may be moved, where it begins, its length, and the place of its offset."""
    values = [
        (entry.tag != MAKER_NOTE, entry.last, entry.size, entry.place + 8)
        for directory, entry in walk.entries()
        if entry.size > 4 and (directory.name, entry.tag) not in LINKS
    ]
    for _, start, length in walk.thumbnails():
        values.append((True, start.last, length.last, start.place + 8))
    return values


def _end_of_directory(walk: _Walk) -> _Done:
    """A directory without the four bytes behind its entries, as piexif writes it: a copy of it gets them."""
    ranges = [(it.at, it.next, it.at) for it in walk.directories]
    ranges += [(start, start + size, -1) for _, start, size, _ in _values(walk)]
    for directory in walk.directories:
        taken = (start < directory.next + 4 and directory.next < end and own != directory.at for start, end, own in ranges)
        if directory.name != "main" and directory.is_whole and any(taken):
            filling = bytes(len(walk.block) % 2)
            copy = filling + walk.block[directory.at : directory.next] + bytes(4)
            out = walk.put(directory.named_at, len(walk.block) + len(filling), copy)
            return out, f"the missing end of the {_NAMES[directory.name]} added", ""
    return None


def _claims(claimed: bytearray, start: int, end: int) -> bool:
    """Claims some bytes, as far as they are in the block. Returns whether they were free."""
    if claimed.find(1, start, max(start + 1, end)) >= 0:
        return False
    end = min(end, len(claimed))
    claimed[start:end] = b"\1" * (end - start)
    return True


def _shared_values(walk: _Walk) -> _Done:
    """Copies values that share bytes with others to the end of the block, which grows at most to twice its length."""
    claimed = bytearray(len(walk.block))  # a byte for each of the block: whether a table or a value has claimed it
    for start, end in ((0, HEADER), *((it.at, it.next + 4) for it in walk.directories)):
        if not _claims(claimed, start, end):
            return None  # directories that share bytes
    out, moved = bytearray(walk.block), 0
    for _, start, size, field in sorted(_values(walk), key=lambda one: (one[0], one[3])):  # MakerNotes stay where they are
        if start + size > len(walk.block) or _claims(claimed, start, start + size):
            continue
        if len(out) + size > 2 * len(walk.block) + SHORT:
            return None
        out += bytes(len(out) % 2)
        struct.pack_into(walk.order + "I", out, field, len(out))
        out += walk.block[start : start + size]
        moved += 1
    return (out, f"{moved} shared value{'s' * (moved > 1)} copied", "") if moved else None


def _directory_outside(walk: _Walk) -> _Done:
    for directory in walk.directories:
        if directory.is_whole and directory.next + 4 > len(walk.block) >= directory.next:
            missing = bytes(directory.next + 4 - len(walk.block))
            return bytearray(walk.block + missing), "the missing end of the block added", ""
    return _cut_directory(walk)


def _cut_directory(walk: _Walk) -> _Done:
    """Leaves out entries, or a whole directory, that aren't in the block."""
    for directory in walk.directories:
        if not directory.is_whole:
            out, count = bytearray(walk.block), len(directory.entries)
            struct.pack_into(walk.order + "H", out, directory.at, count)
            what = f"the {_NAMES[directory.name]} cut from {directory.size:,} entries to the {count:,} that are there"
            end = directory.at + 2 + 12 * count
            # another table, which the further steps spoil
            covers = any(directory.at < one.at < end for one in walk.directories)
            return out, what, "entries", "main" if covers else directory.name
    return _pointer_to_nothing(walk)


def _pointer_to_nothing(walk: _Walk) -> _Done:
    """Leaves out a pointer to a directory that isn't there."""
    starts = {0, *(it.at for it in walk.directories)}
    for directory in walk.directories:
        for entry in directory.entries:
            to = LINKS.get((directory.name, entry.tag))
            if to and walk.number(entry) not in starts - {0}:
                what = f"the pointer to the {_NAMES[to]}, which isn't there, dropped"
                return walk.without(directory, entry), what, "a directory", to
        if directory.name == "main" and walk.following(directory) not in starts:
            what = "the pointer to a thumbnail directory that isn't there dropped"
            return walk.put(directory.next, 0), what, "the thumbnail", "thumb"
    return None


def _empty(walk: _Walk) -> _Done:
    for directory in walk.directories:
        if not directory.size and (out := _without_directory(walk, directory)):
            return out, "an empty directory left out", ""
    return None


def _without_directory(walk: _Walk, directory: Directory) -> bytearray | None:
    """The block without the pointer to a directory; None for the main directory."""
    if directory.name == "thumb":
        return walk.put(directory.named_at, 0)
    return next((walk.without(outer, one) for outer, one in walk.entries() if one.place + 8 == directory.named_at), None)


def _doubled(walk: _Walk) -> _Done:
    for directory in walk.directories:
        by: dict[int, Entry] = {}
        for entry in directory.entries:
            other = by.setdefault(entry.tag, entry)
            if other is not entry:
                equal = entry[1:4] == other[1:4] and walk.value(entry) == walk.value(other)
                entries = "equal entries" if equal else f"different entries of tag {entry.tag:04x}"
                return walk.without(directory, entry), f"the second of two {entries} left out", "" if equal else "a value"
    return None


def _unknown_type(walk: _Walk) -> _Done:
    wrong = [(it, number) for it in walk.directories for number, row in enumerate(it.rows) if row[1] not in EXIF]
    if not wrong:
        return None
    if len(wrong) > MOST:  # one is left out in a step; a directory of such entries can't be one
        counts = Counter(id(of) for of, _ in wrong)
        directory = max(walk.directories, key=lambda one: counts[id(one)])
        left = _without_directory(walk, directory)
        what = f"the {_NAMES[directory.name]}, whose entries have unknown types, left out"
        return (left, what, "a directory", directory.name) if left else None
    directory, entry = wrong[0][0], wrong[0][0].entries[wrong[0][1]]
    if entry.type == IFD:
        return _with_type(walk, entry), "type 13 (IFD) read as LONG", ""
    what = f"tag {entry.tag:04x} of unknown type {entry.type} left out"
    return walk.without(directory, entry), what, *_value(directory, entry)


def _with_type(walk: _Walk, entry: Entry) -> bytearray:
    """The block with type LONG of an entry that has one number, which SHORT and SSHORT have in two bytes."""
    out = walk.put(entry.place + 8, walk.number(entry))
    struct.pack_into(walk.order + "H", out, entry.place + 2, LONG)
    return out


def _pointer_form(walk: _Walk) -> _Done:
    for directory, entry in walk.entries():
        role = (directory.name, entry.tag)
        if role not in _ALLOWED or (entry.type, entry.elements) == (4, 1):
            continue
        if entry.type in (3, 8, 9, 13) and entry.elements == 1:
            return _with_type(walk, entry), f"a pointer of type {entry.type} read as LONG", ""
        return walk.without(directory, entry), "a pointer of another form left out", "a directory", LINKS.get(role, "")
    return None


def _misplaced(walk: _Walk) -> _Done:
    for directory, entry in walk.entries():
        if entry.tag in _ROLES and (directory.name, entry.tag) not in _ALLOWED:
            what = f"the offset of tag {entry.tag:04x} in the {_NAMES[directory.name]} left out"
            return walk.without(directory, entry), what, "an offset", f"{directory.name} {entry.tag:04x}"
    return None


def _value_outside(walk: _Walk) -> _Done:
    outside = [(it, one) for it, one in walk.entries() if one.size > max(4, len(walk.block) - one.last)]
    if not outside or len(outside) > MOST:  # one is left out in a step
        return None
    directory, entry = outside[0]
    what = f"tag {entry.tag:04x}, whose value isn't in the block, left out"
    return walk.without(directory, entry), what, *_value(directory, entry)


def _thumbnail_outside(walk: _Walk) -> _Done:
    size = len(walk.block)
    for directory, start, length in walk.thumbnails():
        if start.last < size < start.last + length.last:
            out = walk.put(length.place + 8, size - start.last)
            return out, "the thumbnail cut to what is there", "the end of the thumbnail", "thumb"
        if start.last >= size:
            inner = _Walk(walk.without(directory, start))
            for other, entry in inner.entries():
                if other.name == "thumb" and entry.tag == length.tag:
                    return inner.without(other, entry), "a thumbnail that isn't there left out", "the thumbnail's length", "thumb"
    return None


def _thumbnail_pair(walk: _Walk) -> _Done:
    for directory, entry in walk.entries():
        if directory.name == "thumb" and entry.tag in (0x0111, 0x0117, 0x0201, 0x0202):
            out = walk.without(directory, entry)
            return out, "half of a thumbnail's pair left out", "a thumbnail's place or length", "thumb"
    return None


def _extra(walk: _Walk) -> _Done:
    thumb = next((it for it in walk.directories if it.name == "thumb" and walk.following(it)), None)
    return (walk.put(thumb.next, 0), "a third directory left out", "a directory") if thumb else None


def _loop(walk: _Walk) -> _Done:
    starts = {it.at: it for it in walk.directories}
    for directory in walk.directories:
        other = starts.get(walk.following(directory)) if directory.name in ("main", "thumb") else None
        if other and (directory.name, other.name) != ("main", "thumb"):
            return walk.put(directory.next, 0), "a pointer back left out", ""
        for entry in directory.entries:
            other = starts.get(entry.last) if (directory.name, entry.tag) in LINKS else None
            if other and other.named_at != entry.place + 8:
                return walk.without(directory, entry), "a pointer back left out", ""
    return None


_STEPS = {
    "Unsorted": _unsorted,
    "Overlap": _overlap,
    "DirectoryOutside": _directory_outside,
    "EmptyDirectory": _empty,
    "Doubled": _doubled,
    "UnknownType": _unknown_type,
    "PointerForm": _pointer_form,
    "MisplacedOffset": _misplaced,
    "ValueOutside": _value_outside,
    "ThumbnailOutside": _thumbnail_outside,
    "ThumbnailPair": _thumbnail_pair,
    "ExtraDirectory": _extra,
    "Loop": _loop,
}
