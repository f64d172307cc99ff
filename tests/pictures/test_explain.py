"""Explanations of refused blocks: what is at an offset, the parts of a block and their owners. `explain` of each block is in the museum."""

import struct
import unittest

from made_blocks import BLOCKS

from exifnorm_pictures.model.found import EXIF, IPTC
from exifnorm_pictures.refusals import explain

# What else a file may be, by its first bytes
BEGINNINGS = (
    b"",
    b"\xff\xd8\xff\xe0",
    b"\x89PNG\r\n",
    b"RIFF\0\0\0\0WEBP",
    b"8BIM\4\4",
    b"Photoshop 3.0\x008BIM",
    b"II+\0\x08\0",
    b"MM\0+\0\x08",
    b"<x:xmpmeta",
    b"GIF89a\1\2\3\4",
)
# Records and offsets in them, which are at an end
RECORDS = ((b"\x1c\x02\x19", 3), (b"\x1c\x02", 2), (b"\x1c\x02", 0), (b"\x1c\x03\x05", 0), (b"abc", 1), (b"x" * 1234 + b"\x1c\1\2", 1234))
POINTER = struct.pack(">HHHII", 1, 0x8769, 4, 1, 70) + bytes(4)  # to a directory outside
DIRECTORIES = (b"MM\0*\0\0\0\x63", b"MM\0*\0\0\0\x08\0\1" + bytes(11), b"MM\0*\0\0\0\x08" + POINTER)


def kind_of(block):
    return IPTC if block[:1] == b"\x1c" else EXIF


class Explanations(unittest.TestCase):
    def test_what_is_at_an_offset(self):
        """Of each block, of what is no block, and at the ends of records and directories: in golden/explain-here.txt."""
        found = [(name, explain.explain(kind_of(octets), octets).here) for name, octets in BLOCKS.items()]
        found += [(repr(octets), explain.explain(EXIF, octets).here) for octets in (*BEGINNINGS, *DIRECTORIES)]
        found += [(f"{octets[-10:]!r} at {place}", explain._data_set(explain.Layout(octets), "", place)) for octets, place in RECORDS]
        self.golden("explain-here.txt", "".join("\n    ".join([name, *here]) + "\n" for name, here in found))


def directory(order, entries, following=0):
    rows = b"".join(struct.pack(order + "HHII", *it) for it in entries)
    return struct.pack(order + "H", len(entries)) + rows + struct.pack(order + "I", following)


def whole(order):
    """A block with each directory, values outside their entries, and a thumbnail."""
    short = 6 if order == "<" else 6 << 16
    main = directory(order, [(0x010F, 2, 10, 170), (0x0112, 3, 1, short), (0x8769, 4, 1, 62), (0x8825, 4, 1, 110)], 140)
    exif = directory(order, [(0x829A, 5, 1, 180), (0xA005, 4, 1, 92)])
    interop = directory(order, [(0x0001, 2, 4, 0)])
    gps = directory(order, [(0x0000, 1, 4, 0), (0x0002, 5, 3, 188)])
    thumb = directory(order, [(0x0201, 4, 1, 212), (0x0202, 4, 1, 4)])
    head = b"II*\0\x08\0\0\0" if order == "<" else b"MM\0*\0\0\0\x08"
    return head + main + exif + interop + gps + thumb + bytes(42) + b"\xff\xd8\xff\xd9"


HEAD = b"MM\0*\0\0\0\x08"
TYPES = (*range(14), 129)
SHORTS = [(0x0112, 3, 1, 6 << 16), (0x0112, 3, 2, 0x60007), (0x0112, 8, 1, 0x60007), (0x0112, 1, 4, 0x1020304), (0x0112, 4, 1, 0x1020304)]
MORE = {
    "each directory, little-endian": whole("<"),
    "each directory, big-endian": whole(">"),
    "with the mark of Exif": b"Exif\0\0" + whole(">"),
    **{f"cut at {length}": whole(">")[:length] for length in (7, 8, 9, 10, 21, 22, 33, 34, 63, 64, 153)},
    "an entry of each type": HEAD + directory(">", [(0x9999, kind, 3, 0) for kind in TYPES]),
    "single numbers, big-endian": HEAD + directory(">", SHORTS),
    "single numbers, little-endian": b"II*\0\x08\0\0\0" + directory("<", [(*it[:3], it[3] >> 16) for it in SHORTS]),
    "directories in one another": HEAD + directory(">", [(0x8769, 4, 1, 8), (0x8825, 4, 1, 8)], 8),
    "two GPS directories": HEAD + directory(">", [(0x8825, 4, 1, 38), (0x8825, 4, 1, 8)]) + directory(">", [(0, 1, 4, 0)]),
    "tables that share rows": HEAD + directory(">", [(0x0112, 2, 1, 0), (0x8769, 4, 1, 20), (0x8825, 4, 1, 32), (0xA005, 4, 1, 44)]),
    "one table of two directories": HEAD
    + directory(">", [(0x8769, 4, 1, 38), (0x8825, 4, 1, 56)])
    + directory(">", [(0xA005, 4, 1, 56)])
    + directory(">", [(0, 1, 4, 0)]),
    "pointers of other types": HEAD + directory(">", [(0x8769, 2, 12, 8), (0x8825, 7, 1, 8)]),
    "a table in the header": b"MM\0*\0\0\0\2" + directory(">", [(0x8769, 4, 1, 40)] * 50),
}


class PartsOfBlocks(unittest.TestCase):
    """The parts of a block and the owners of bytes."""

    def test_all_parts(self):
        """And all entries, and the first bytes and the last: in golden/explain-parts.txt."""
        lines = []
        for name, octets in {**{name: octets for name, octets in BLOCKS.items() if len(octets) < 3000}, **MORE}.items():
            it = explain.Layout(octets)
            lines += [
                name,
                *(f"  {part.start}-{part.end} {part.what}, {[one[:2] for one in it.owners(part.named_at) or ()]}" for part in it.parts),
            ]
            entries = sorted(it.entries.items())
            lines += [f"  {at}: {one.number}, {one.label}, {one.form}, {one.last}, {one.size}, {one.place}" for at, one in entries]
        for length, place in ((128, 0), (128, 15), (128, 16), (128, 40), (128, 79), (128, 127), (128, 128), (128, 200), (17, 16), (0, 0)):
            lines += [f"byte {place} of {length}", *explain.hexadecimal(bytes(range(0x10, 0x10 + length)), place)]
        self.golden("explain-parts.txt", "\n".join(lines) + "\n")

    def test_owners(self):
        """The first part of an entry that shares bytes with an earlier part; neighbours and empty parts share none."""

        def owners(*ranges):
            it = explain.Layout(b"")
            it.parts += [explain.Part(start, end, "", 10 + index) for index, (start, end) in enumerate(ranges)]
            found = it.owners(9 + len(ranges))
            return found and [tuple(part)[:2] for part in found]

        for ranges, expected in (
            ([(8, 20), (20, 30)], None),
            ([(20, 30), (8, 20)], None),
            ([(8, 20), (19, 30)], [(19, 30), (8, 20)]),
            ([(19, 30), (8, 20)], [(8, 20), (19, 30)]),
            ([(8, 8), (8, 9)], None),
            ([(8, 20), (10, 10)], None),
            ([(8, 20), (12, 10)], None),
            ([(8, 20), (30, 40), (10, 12)], [(10, 12), (8, 20)]),
            ([(8, 20), (8, 20)], [(8, 20), (8, 20)]),
            ([(7, 9)], [(7, 9), (0, 8)]),
            ([(8, 30), (8, 40), (29, 35)], [(29, 35), (8, 30)]),
        ):
            self.assertEqual(owners(*ranges), expected, ranges)
