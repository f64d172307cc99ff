"""Meanings of blocks: laid out in any way, and their expected normal form, listing and captions.

This follows docs/FORMAT.md and shares nothing with the program: it starts from a meaning, writes a block with it, and reads no
block. `Exif` is the meaning of an Exif block, and `Record` is a caption record.
"""

import struct
from collections import defaultdict
from dataclasses import dataclass, field
from operator import itemgetter
from random import Random

MAIN, EXIF, INTEROP, GPS, THUMB = DIRECTORIES = ("main", "exif", "interop", "gps", "thumb")
LIMIT = 16_777_216

# number: (name in a listing, bytes of an element, letter of `struct`, how many numbers an element has)
TYPES = {
    1: ("BYTE", 1, "", 1),
    2: ("ASCII", 1, "", 1),
    3: ("SHORT", 2, "H", 1),
    4: ("LONG", 4, "I", 1),
    5: ("RATIONAL", 8, "I", 2),
    6: ("SBYTE", 1, "", 1),
    7: ("UNDEFINED", 1, "", 1),
    8: ("SSHORT", 2, "h", 1),
    9: ("SLONG", 4, "i", 1),
    10: ("SRATIONAL", 8, "i", 2),
    11: ("FLOAT", 4, "I", 1),
    12: ("DOUBLE", 8, "Q", 1),
    129: ("UTF8", 1, "", 1),
}
BYTE, ASCII, SHORT, LONG, RATIONAL, SBYTE, UNDEFINED, SSHORT, SLONG, SRATIONAL, FLOAT, DOUBLE, UTF8 = TYPES

# tags for which SHORT and LONG mean the same
WIDENED = {
    MAIN: {0x0100, 0x0101, 0x0116},
    THUMB: {0x0100, 0x0101, 0x0116},
    EXIF: {0xA002, 0xA003},
}
POINTERS = {EXIF: (MAIN, 0x8769), GPS: (MAIN, 0x8825), INTEROP: (EXIF, 0xA005)}
RECORD_TAG = 0x83BB
STRIP_OFFSETS, STRIP_LENGTHS, JPEG_OFFSET, JPEG_LENGTH = 0x0111, 0x0117, 0x0201, 0x0202
NOT_PLAIN = {0x0111, 0x0117, 0x0201, 0x0202, 0x8769, 0x8825, 0xA005, 0x0120, 0x0144, 0x014A, 0x0207, 0x0208, 0x0209}


@dataclass(frozen=True)
class Value:
    """A field's value: the number of its type, and its elements, which are bytes, numbers or pairs of numbers."""

    form: int
    elements: object

    @property
    def count(self):
        return len(self.elements)

    def spelled(self, order):
        """The value's bytes in a byte order, '<' or '>'."""
        _, _, letter, numbers = TYPES[self.form]
        if not letter:
            return bytes(self.elements)
        flat = [n for pair in self.elements for n in pair] if numbers == 2 else list(self.elements)
        return struct.pack(f"{order}{len(flat)}{letter}", *flat)


def shown(form, elements):
    """The elements of a value in a listing."""
    _, size, letter, numbers = TYPES[form]
    if not letter:
        return bytes(elements).hex()
    if form in (FLOAT, DOUBLE):
        return " ".join(f"{n:0{2 * size}x}" for n in elements)
    if numbers == 2:
        return " ".join(f"{top}/{bottom}" for top, bottom in elements)
    return " ".join(map(str, elements))


def line_of(head, tail):
    return f"{head}: {tail}\n" if tail else f"{head}:\n"


def each_spelled(spell, items):
    """What `spell` makes of each item, in their order. It is called once for equal items, of which large blocks have millions."""
    spelled = {it: spell(it) for it in set(items)}
    return map(spelled.__getitem__, items)


# ---- caption records

GROUP_OF = {(2, 27): (2, 26), (2, 47): (2, 45), (2, 50): (2, 45), (2, 85): (2, 80)}
LABELS = [
    ((2, 5), {5: "title"}),
    ((2, 120), {120: "caption"}),
    ((2, 105), {105: "headline"}),
    ((2, 110), {110: "credit"}),
    ((2, 115), {115: "source"}),
    ((2, 116), {116: "copyright"}),
    ((2, 80), {80: "byline", 85: "byline-title"}),
    ((2, 25), {25: "keyword"}),
    ((2, 103), {103: "inventory"}),
]
NAME = itemgetter(0, 1)  # the record and the number of a DataSet
LABELLED = {(1, 90), *((2, number) for _, labels in LABELS for number in labels)}  # the DataSets that the captions show


ESCAPED = [chr(it) if 0x20 <= it <= 0x7E and it != 0x5C else f"\\{it:02x}" for it in range(256)]


def escaped(octets):
    return "".join(map(ESCAPED.__getitem__, octets))


@dataclass
class Record:
    """A caption record: its DataSets, each a record number, a number and its data, in an order of its own."""

    datasets: list
    _ordered: list = field(default=None, init=False, repr=False, compare=False)

    def groups(self):
        """The lists of the groups, by the names of the groups in ascending order."""
        lists = defaultdict(list)
        for name, it in zip(map(NAME, self.datasets), self.datasets):
            lists[GROUP_OF.get(name, name)].append(it)
        return dict(sorted(lists.items()))

    def ordered(self):
        """The DataSets in the order of the normal form. It is worked out once, because large records have millions of them."""
        if self._ordered is None:
            self._ordered = [it for them in self.groups().values() for it in them]
        return self._ordered

    def spelled(self, extended=0, zeros=0):
        """An IIM block with this record; `extended` is the number of bytes of the lengths of extended DataSets, 0 for standard ones."""
        return b"".join(each_spelled(lambda it: dataset(*it, extended), self.datasets)) + bytes(zeros)

    def normal(self):
        return Record(self.ordered()).spelled()

    def lines(self):
        return each_spelled(dataset_line, self.ordered())

    def caption_lines(self):
        groups = Record([it for it in self.datasets if NAME(it) in LABELLED]).groups()
        declared = [octets for _, _, octets in groups.get((1, 90), [])] == [b"\x1b\x25\x47"]
        yield f"charset: {'UTF-8' if declared else 'not declared'}\n"
        for group, labels in LABELS:
            shown_here = [it for it in groups.get(group, []) if it[1] in labels]
            yield from each_spelled(lambda it, labels=labels: f"{labels[it[1]]}: {escaped(it[2])}\n", shown_here)

    kind = "iim"

    def listing(self):
        return "".join(["iim\n", *self.lines()])

    def captions(self):
        return "".join(["iim\n", *self.caption_lines()])


def dataset_line(it):
    record, number, octets = it
    return line_of(f"{record}:{number} {len(octets)}", octets.hex())


def dataset(record, number, octets, extended):
    head = bytes([0x1C, record, number])
    if not extended and len(octets) <= 32767:
        return head + len(octets).to_bytes(2, "big") + octets
    count = extended or 4
    return head + bytes([0x80, count]) + len(octets).to_bytes(count, "big") + octets


# ---- Exif blocks


@dataclass
class Exif:
    """The meaning of an Exif block: the fields of each directory that it has, by their tags, the record and the thumbnail."""

    main: dict
    exif: dict = None
    interop: dict = None
    gps: dict = None
    thumb: dict = None
    jpeg: bytes = None
    strips: list = None
    record: Record = None

    kind = "exif"

    def directories(self):
        return [(name, getattr(self, name)) for name in DIRECTORIES if getattr(self, name) is not None]

    def normal(self):
        return laid(self, Layout(">", normal=True))

    def listing(self):
        lines = ["exif\n"]
        for name, fields in self.directories():
            lines.append(f"[{name}]\n")
            for tag, value in sorted(fields.items()):
                word = TYPES[value.form][0]
                if tag in WIDENED.get(name, ()) and value.form in (SHORT, LONG):
                    word = "WHOLE"
                lines.append(line_of(f"{tag:04x} {word} {value.count}", shown(value.form, value.elements)))
            if name == MAIN and self.record:
                lines += [f"record {len(self.record.datasets)}:\n", *self.record.lines()]
            if name == THUMB and self.jpeg is not None:
                lines.append(line_of(f"jpeg {len(self.jpeg)}", self.jpeg.hex()))
            if name == THUMB and self.strips is not None:
                lines.append(f"strips {len(self.strips)}:\n")
                lines += each_spelled(lambda it: line_of(f"strip {len(it)}", it.hex()), self.strips)
        return "".join(lines)

    def captions(self):
        lines = ["exif\n"]
        for tag, label in ((0x010E, "description"), (0x013B, "artist"), (0x8298, "copyright")):
            value = self.main.get(tag)
            if value and value.form in (ASCII, UTF8):
                lines.append(f"{label}: {escaped(value.elements)}\n")
        return "".join([*lines, *(self.record.caption_lines() if self.record else [])])


@dataclass
class Layout:
    """The layout of a block: its byte order, and whether it is the normal form. If it isn't, `chance` moves parts and fills gaps
    and spare bytes, and with `shorts` the lists of strips may be SHORT."""

    order: str
    normal: bool = False
    chance: Random = field(default_factory=lambda: Random(0))
    shuffled: bool = False
    gap: int = 0
    shorts: bool = False

    def spare(self, n):
        return bytes(n) if self.normal else self.chance.randbytes(n)


@dataclass
class Entry:
    tag: int
    form: int
    count: int
    spelled: object  # a call that returns the bytes, after the offsets of the parts are known

    @property
    def size(self):
        return self.count * TYPES[self.form][1]


def entries_of(meaning, name, fields, layout):
    """The entries of a directory, by ascending tag."""
    order = layout.order

    def given(tag, value):
        if layout.normal and tag in WIDENED.get(name, ()) and value.form == SHORT:
            value = Value(LONG, value.elements)
        return Entry(tag, value.form, value.count, lambda places: value.spelled(order))

    def told(tag, form, numbers, count):
        return Entry(tag, form, count, lambda places: Value(form, list(numbers(places))).spelled(order))

    found = [given(tag, value) for tag, value in fields.items()]
    for target, (place, tag) in POINTERS.items():
        if place == name and getattr(meaning, target) is not None:
            found.append(told(tag, LONG, lambda places, target=target: [places["table", target]], 1))
    if name == MAIN and meaning.record:
        octets = meaning.record.normal() if layout.normal else meaning.record.spelled()
        found.append(given(RECORD_TAG, Value(UNDEFINED, octets)))
    if name == THUMB and meaning.jpeg is not None:
        found.append(told(JPEG_OFFSET, LONG, lambda places: [places["jpeg",]], 1))
        found.append(told(JPEG_LENGTH, LONG, lambda places: [len(meaning.jpeg)], 1))
    if name == THUMB and meaning.strips is not None:
        count, form = len(meaning.strips), SHORT if layout.shorts else LONG
        found.append(told(STRIP_OFFSETS, form, lambda places: (places["strip", i] for i in range(count)), count))
        found.append(told(STRIP_LENGTHS, form, lambda places: map(len, meaning.strips), count))
    return sorted(found, key=lambda it: it.tag)


def laid(meaning, layout):
    """Returns a block with the meaning."""
    entries = {name: entries_of(meaning, name, fields, layout) for name, fields in meaning.directories()}
    parts = []  # the name and the size of each, in the order of the normal form
    for name, them in entries.items():
        parts.append((("table", name), 2 + 12 * len(them) + 4))
        parts += [(("value", name, it.tag), it.size) for it in them if it.size > 4]
    if meaning.jpeg is not None:
        parts.append((("jpeg",), len(meaning.jpeg)))
    parts += [(("strip", i), len(it)) for i, it in enumerate(meaning.strips or [])]
    if layout.shuffled:
        layout.chance.shuffle(parts)
    places, end = {}, 8
    for part, size in parts:
        if layout.gap:
            end += layout.chance.randrange(layout.gap + 1)
        places[part] = end
        end += size
        if layout.normal:
            end += end % 2
    block = bytearray(layout.spare(end))
    order = layout.order
    block[:8] = (b"MM" if order == ">" else b"II") + struct.pack(order + "HI", 42, places["table", MAIN])
    for name, them in entries.items():
        lay_directory(block, name, them, places, layout)
    if meaning.jpeg is not None:
        at = places["jpeg",]
        block[at : at + len(meaning.jpeg)] = meaning.jpeg
    for i, strip in enumerate(meaning.strips or []):
        at = places["strip", i]
        block[at : at + len(strip)] = strip
    return bytes(block)


def lay_directory(block, name, entries, places, layout):
    order = layout.order
    table = [struct.pack(order + "H", len(entries))]
    for it in entries:
        octets = it.spelled(places)
        if it.size > 4:
            at = places["value", name, it.tag]
            block[at : at + it.size] = octets
            last = struct.pack(order + "I", at)
        else:
            last = octets + layout.spare(4 - it.size)
        table.append(struct.pack(order + "HHI", it.tag, it.form, it.count) + last)
    if name == MAIN and ("table", THUMB) in places:
        table.append(struct.pack(order + "I", places["table", THUMB]))
    else:
        table.append(bytes(4) if name in (MAIN, THUMB) else layout.spare(4))
    at = places["table", name]
    octets = b"".join(table)
    block[at : at + len(octets)] = octets
