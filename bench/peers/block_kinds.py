"""The kinds of block that are timed, each with its name and a call that makes it: the same block in every run."""

from random import Random
from typing import Callable, Dict, Iterable

import orders
from kinds import ORIENTATION, OfStrips, camera
from meanings import *  # the numbers of the types
from meanings import Exif, Layout, Value, laid

LEAST, MOST = "<", ">"  # the byte orders
TAGS = range(0x1000, 0x8000)  # plain tags
STRIPS = 1_200_000
OCTETS = b"octets 1"


class Clean(Layout):
    """A layout with zeros in gaps and spare bytes, as kamadak-exif requires of what follows the Exif directory."""

    def spare(self, n: int) -> bytes:
        return bytes(n)


def one_value(form: int, elements: Iterable) -> bytes:
    return laid(Exif({0x9999: Value(form, elements)}), Layout(LEAST))


def some(form: int, count: int) -> Iterable:
    """So many elements of a type with one number each, at random."""
    size = TYPES[form][1]
    return memoryview(Random(1).randbytes(count * size)).cast({2: "H", 8: "Q"}[size])


def inline(count: int) -> bytes:
    first = 0x0112 if count < 10 else TAGS[0]
    return laid(Exif({first + i: Value(SHORT, [1 + i % 9]) for i in range(count)}), Layout(LEAST))


def rationals_in_one_value(count: int) -> bytes:
    numbers = memoryview(Random(1).randbytes(8 * count)).cast("I")
    return one_value(RATIONAL, list(zip(numbers[::2], numbers[1::2])))


def placed(count: int, every: int) -> bytes:
    """A RATIONAL at each tag, or one at each so many tags and SHORTs between them, at random offsets."""
    fields = {tag: Value(SHORT, [i % 9]) if i % every else Value(RATIONAL, [(tag, 7)]) for i, tag in enumerate(TAGS[:count])}
    return laid(Exif(fields), Layout(LEAST, shuffled=True))


def strips(order: int) -> bytes:
    """Strips of one byte: ascending, descending, or in random order (1, -1, 0)."""
    layout = Layout(MOST) if order > 0 else Layout(MOST, shuffled=True, chance=OfStrips(STRIPS, order))
    return laid(Exif(dict(ORIENTATION), thumb={}, strips=[b"x"] * STRIPS), layout)


def iim(names: orders.Names, data: bytes = b"") -> bytes:
    return orders.record(names, data).spelled()


KINDS: Dict[str, Callable[[], bytes]] = {
    "a block as a camera writes it": lambda: laid(next(iter(camera())).meaning, Clean(LEAST)),
    "one inline field": lambda: inline(1),
    "three inline fields": lambda: inline(3),
    "a placed text": lambda: laid(Exif({0x010E: Value(ASCII, b"an old vase\0")}), Layout(LEAST)),
    "4,000 inline values": lambda: inline(4_000),
    "16,384 RATIONALs at random offsets": lambda: placed(16_384, 1),
    "16,000 mixed fields, offsets shuffled": lambda: placed(16_000, 2),
    "16 MB of SHORTs": lambda: one_value(SHORT, some(SHORT, 8_388_000)),
    "16 MB of RATIONALs": lambda: rationals_in_one_value(2_097_000),
    "16 MB of DOUBLEs": lambda: one_value(DOUBLE, some(DOUBLE, 2_097_000)),
    "16 MB of bytes": lambda: one_value(UNDEFINED, bytes(16_777_000)),
    "1.2 million strips, ascending": lambda: strips(1),
    "1.2 million strips, descending": lambda: strips(-1),
    "1.2 million strips, random order": lambda: strips(0),
    "25 DataSets of 13 groups": lambda: orders.captions().spelled(),
    "100 DataSets of random groups": lambda: iim(orders.random(100), OCTETS),
    "1,000 DataSets of random groups": lambda: iim(orders.random(1_000), OCTETS),
    "a million DataSets of one group": lambda: iim([(2, 25)] * 1_000_000, OCTETS),
    "a million DataSets of 256 groups in turn": lambda: iim(((3, i % 256) for i in range(1_000_000)), OCTETS),
    "330,000 DataSets of random groups": lambda: iim(orders.random(330_000), OCTETS),
    "65,536 groups once, descending": lambda: iim(orders.descending(orders.ALL), OCTETS),
    "65,536 groups once, random order": lambda: iim(orders.shuffled(), OCTETS),
    "empty: 3.3 million of one group": lambda: iim([(2, 25)] * 3_355_000),
    "empty: each group in turn, 3.3 million": lambda: iim(orders.in_turn(50 * orders.ALL)),
    "empty: four of each group, ascending": lambda: iim(orders.ascending(4 * orders.ALL)),
    "empty: four of each group, in turn": lambda: iim(orders.in_turn(4 * orders.ALL)),
    "empty: random groups, 3.3 million": lambda: iim(orders.random(50 * orders.ALL)),
    "empty: 65,536 groups once, random order": lambda: iim(orders.shuffled()),
}
