"""The meaning of a file, or the first fault of its block, by the rules of docs/FORMAT.md, sections 2, 3 and 5; and the causes of
refusal, each with a block that is refused for it.

It follows these sections step by step: it makes each check in its order, marks each byte that a range covers, and is not made fast.
It shares nothing with the program, so that any block can be judged by both. All tests take the causes from here.
"""

import struct

from meanings import *  # the numbers of the types
from meanings import Exif, Record, Value

PREFIX = b"Exif\0\0"
HEADERS = {b"II*\0": "<", b"MM\0*": ">"}
JPEG_PARTS, STRIP_PARTS = (JPEG_OFFSET, JPEG_LENGTH), (STRIP_OFFSETS, STRIP_LENGTHS)


class Fault(Exception):
    """A refusal, with its cause and its byte offset."""

    def __str__(self):
        cause, place = self.args
        return f"{cause} at {place}"


def check(holds, cause, place):
    if not holds:
        raise Fault(cause, place)


def said(file):
    """The meaning of the block in a file, as `Exif` or as `Record`."""
    if file.startswith(PREFIX):
        return exif_block(file[len(PREFIX) :])
    return Record(datasets(file)) if file.startswith(b"\x1c") else exif_block(file)


# ---- caption records


def datasets(block):
    check(len(block) <= LIMIT, "TooLong", LIMIT)
    found, at = [], 0
    while not (found and len(block) - at <= 3 and not any(block[at:])):
        check(block[at : at + 1] == b"\x1c", "NoMarker", at)
        check(len(block) - at >= 5, "DataSetCut", at)
        form = int.from_bytes(block[at + 3 : at + 5], "big")
        octets = form - 0x8000 if form >= 0x8000 else 0
        check(form < 0x8000 or 1 <= octets <= 4, "LengthForm", at)
        start = at + 5 + octets
        check(start <= len(block), "DataSetCut", at)
        end = start + (int.from_bytes(block[at + 5 : start], "big") if octets else form)
        check(end <= len(block), "DataSetCut", at)
        found.append((block[at + 1], block[at + 2], block[start:end]))
        at = end
    return found


def record_in(octets):
    """The record that these octets encode, if they are one."""
    try:
        return Record(datasets(octets))
    except Fault:
        return None


# ---- Exif blocks


def exif_block(block):
    check(len(block) <= LIMIT, "TooLong", LIMIT)
    begun = [order for header, order in HEADERS.items() if block and block[:4] == header[: len(block)]]
    check(begun, "UnknownKind", 0)
    check(len(block) >= 8, "HeaderCut", len(block))
    return Block(block, begun[0]).meaning()


class Entry:
    """One entry of a table: its offset, its parts, and the bytes of its value once they are known to be inside the block."""

    def __init__(self, block, place):
        self.place = place
        self.tag, self.form, self.count, self.last = struct.unpack_from(f"{block.order}HHII", block.octets, place)
        self.raw = b""

    def numbers(self, order):
        _, _, letter, numbers = TYPES[self.form]
        if not letter:
            return self.raw
        flat = struct.unpack(f"{order}{self.count * numbers}{letter}", self.raw)
        return list(zip(flat[::2], flat[1::2])) if numbers == 2 else list(flat)


class Block:
    """An Exif block with a header, while it is judged: the bytes that ranges cover, and the offsets of the directories that were read."""

    def __init__(self, octets, order):
        self.octets, self.order = octets, order
        self.covered, self.read = bytearray(len(octets)), set()

    def number(self, at, letter="I"):
        return struct.unpack_from(self.order + letter, self.octets, at)[0]

    def cover(self, start, size, place):
        check(not any(self.covered[start : start + size]), "Overlap", place)
        self.covered[start : start + size] = b"\1" * size

    def meaning(self):
        self.cover(0, 8, 0)
        tables = {MAIN: self.table(MAIN, self.number(4), 4)}
        for name in (EXIF, INTEROP, GPS):
            above, tag = POINTERS[name]
            pointer = tables.get(above, {}).get(tag)
            if pointer:
                tables[name] = self.table(name, pointer.last, pointer.place)
        following, place = self.next_of(self.number(4))
        jpeg, strips = None, None
        if following:
            tables[THUMB] = self.table(THUMB, following, place)
            jpeg, strips = self.thumbnail(tables[THUMB], following)
        record = tables[MAIN].pop(RECORD_TAG, None)
        found = record_in(record.raw) if record and record.form in (BYTE, UNDEFINED) else None
        if record and not found:
            tables[MAIN][RECORD_TAG] = record
        fields = {name: self.fields(them) for name, them in tables.items()}
        return Exif(**{MAIN: None, **fields}, jpeg=jpeg, strips=strips, record=found)

    def fields(self, table):
        return {tag: Value(it.form, it.numbers(self.order)) for tag, it in sorted(table.items()) if tag not in NOT_PLAIN}

    def next_of(self, at):
        """The next offset of the table at an offset, and where it is."""
        place = at + 2 + 12 * self.number(at, "H")
        return self.number(place), place

    def table(self, name, at, place):
        check(at not in self.read, "Loop", place)
        check(at + 2 <= len(self.octets), "DirectoryOutside", place)
        count = self.number(at, "H")
        check(count > 0, "EmptyDirectory", at)
        check(at + 2 + 12 * count + 4 <= len(self.octets), "DirectoryOutside", place)
        self.cover(at, 2 + 12 * count + 4, place)
        self.read.add(at)
        entries, before = {}, -1
        for i in range(count):
            entry = Entry(self, at + 2 + 12 * i)
            self.judge(name, entry, before)
            entries[entry.tag] = entry
            before = entry.tag
        return entries

    def judge(self, name, entry, before):
        place = entry.place
        check(entry.tag >= before, "Unsorted", place)
        check(entry.tag != before, "Doubled", place)
        check(entry.form in TYPES, "UnknownType", place)
        leads = (name, entry.tag) in POINTERS.values() or (name == THUMB and entry.tag in JPEG_PARTS)
        lists = name == THUMB and entry.tag in STRIP_PARTS
        check(leads or lists or entry.tag not in NOT_PLAIN, "MisplacedOffset", place)
        check(not leads or (entry.form, entry.count) == (LONG, 1), "PointerForm", place)
        check(not lists or entry.form in (SHORT, LONG), "PointerForm", place)
        size, start = entry.count * TYPES[entry.form][1], place + 8
        if size > 4:
            start = entry.last
            check(start + size <= len(self.octets), "ValueOutside", place)
            self.cover(start, size, place)
        entry.raw = self.octets[start : start + size]

    def thumbnail(self, table, at):
        """The JPEG and the strips, if the block has them."""
        jpeg, strips = ([table.get(tag) for tag in pair] for pair in (JPEG_PARTS, STRIP_PARTS))
        for pair in (jpeg, strips):
            there = [it for it in pair if it]
            check(len(there) != 1, "ThumbnailPair", there[0].place if there else 0)
        check(not strips[0] or strips[0].count == strips[1].count, "ThumbnailPair", strips[0].place if strips[0] else 0)
        following, place = self.next_of(at)
        check(following == 0, "ExtraDirectory", place)
        picture = self.part(jpeg[0].last, jpeg[1].last, jpeg[0].place) if jpeg[0] else None
        if not strips[0]:
            return picture, None
        lists = [it.numbers(self.order) for it in strips]
        return picture, [self.part(start, size, strips[0].place) for start, size in zip(*lists)]

    def part(self, start, size, place):
        check(start + size <= len(self.octets), "ThumbnailOutside", place)
        self.cover(start, size, place)
        return self.octets[start : start + size]


# ---- the causes


def entry(tag, form, count, last):
    """An entry of 12 bytes; `last` is a number or the four bytes themselves."""
    return struct.pack(">HHI", tag, form, count) + (last if isinstance(last, bytes) else struct.pack(">I", last))


def table(entries, following=0):
    return struct.pack(">H", len(entries)) + b"".join(entries) + struct.pack(">I", following)


HEADER = b"MM\0*\0\0\0\x08"
MAKE = entry(0x010F, ASCII, 4, b"Abc\0")
MODEL = entry(0x0110, ASCII, 4, b"Xyz\0")
ORIENTATION = entry(0x0112, SHORT, 1, b"\0\1\0\0")
WHO = entry(0x013B, ASCII, 4, b"Who\0")
JPEG = b"\xff\xd8\xff\xd9"


def block(entries, following=0, tail=b""):
    return HEADER + table(entries, following) + tail


def with_thumbnail(entries, following=0, tail=b""):
    """A block with one entry in its main directory and these in its thumbnail directory, at 26."""
    return block([MAKE], 26) + table(entries, following) + tail


# Each cause, in the order of docs/FORMAT.md: a block that is refused for it, and the offset of the fault.
CAUSES = {
    "TooLong": (block([MAKE]) + bytes(LIMIT), LIMIT),
    "UnknownKind": (b"<x:xmpmeta/>", 0),
    "HeaderCut": (b"MM\0*\0\0", 6),
    "Loop": (block([MAKE], 8), 22),
    "DirectoryOutside": (block([MAKE, MODEL])[:-4], 4),
    "EmptyDirectory": (block([MAKE, entry(0x8825, LONG, 1, 38)]) + table([]), 38),
    "Overlap": (block([MAKE, entry(0x0110, ASCII, 8, 62), entry(0x0131, ASCII, 8, 66), WHO]) + b"Model 1 Program\0", 34),
    "Unsorted": (block([MODEL, MAKE, ORIENTATION]), 22),
    "Doubled": (block([MAKE, ORIENTATION, entry(0x0112, SHORT, 1, b"\0\6\0\0")]), 34),
    "UnknownType": (block([MAKE, entry(0x0110, 13, 1, 8), ORIENTATION]), 22),
    "MisplacedOffset": (block([MAKE, entry(0x0111, LONG, 1, 8), entry(0x0117, LONG, 1, 8)]), 22),
    "PointerForm": (block([MAKE, entry(0x8825, SLONG, 1, 38)]) + table([entry(0, BYTE, 4, b"\2\3\0\0")]), 22),
    "ValueOutside": (block([MAKE, entry(0x0110, ASCII, 40, 50), ORIENTATION]) + b"Model\0", 22),
    "ThumbnailPair": (with_thumbnail([entry(0x0201, LONG, 1, 44)], 0, JPEG), 28),
    "ExtraDirectory": (with_thumbnail([MAKE], 44) + table([MODEL]), 40),
    "ThumbnailOutside": (with_thumbnail([entry(0x0201, LONG, 1, 56), entry(0x0202, LONG, 1, 4000)], 0, JPEG), 28),
    "NoMarker": (b"\x1c\x02\x19\0\x03one?\x1c\x02\x19\0\x03two", 8),
    "LengthForm": (b"\x1c\x02\x19\x80\x05\0\0\0\0\x03one", 0),
    "DataSetCut": (b"\x1c\x02\x19\0\x09one", 0),
}
