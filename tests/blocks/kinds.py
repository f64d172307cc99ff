"""Accepted blocks of every kind, made from their meanings, each with the expected result of every command.

Two layouts of each meaning are made: in either byte order, with parts moved and gaps and spare bytes filled by chance (the same
chance in every run).
"""

from dataclasses import dataclass
from random import Random

import orders
from meanings import *  # the numbers of the types
from meanings import Exif, Layout, Record, Value, laid


@dataclass
class Kind:
    """A meaning, and blocks that have it."""

    name: str
    meaning: object
    blocks: list

    def other(self):
        """A block with another meaning, of the same kind."""
        if isinstance(self.meaning, Record):
            return Record([*self.meaning.datasets[:1000], (2, 255, b"else")]).spelled()
        return Exif({0x0112: Value(SHORT, [8])}).normal()


def exif(name, meaning, *layouts):
    layouts = layouts or (Layout(">", shuffled=True, gap=3), Layout("<", shuffled=True, gap=3, chance=Random(1)))
    return Kind(name, meaning, [laid(meaning, it) for it in layouts])


PLAIN = [tag for tag in range(65_536) if tag not in NOT_PLAIN]
ORIENTATION = {0x0112: Value(SHORT, [1])}

# a few elements of each type, the ends of its range among them; FLOAT and DOUBLE as the patterns of their bits
ELEMENTS = {
    BYTE: bytes([0, 1, 127, 128, 255]),
    ASCII: b"caf\xc3\xa9\0",
    SHORT: [0, 1, 255, 256, 65535],
    LONG: [0, 1, 65536, 4294967295, 16777216],
    RATIONAL: [(0, 0), (1, 3), (4294967295, 4294967294)],
    SBYTE: bytes([0, 127, 128, 255, 1]),
    UNDEFINED: bytes([255, 0, 254, 1, 2]),
    SSHORT: [0, -1, -32768, 32767, 256],
    SLONG: [0, -1, -2147483648, 2147483647, 65536],
    SRATIONAL: [(0, 0), (-1, 3), (-2147483648, 2147483647)],
    FLOAT: [0x7FC00001, 0x80000000, 0x3F800000],
    DOUBLE: [0x7FF8000000000001, 0x8000000000000000, 0x3FF0000000000000],
    UTF8: "né\0".encode(),
}


def types():
    """Each type: with no element, one, all that fit into an entry, one more, and many."""
    for form, elements in ELEMENTS.items():
        size = TYPES[form][1]
        counts = sorted({0, 1, 4 // size, 4 // size + 1, len(elements)})
        fields = {0xFD00 + i: Value(form, elements[:n]) for i, n in enumerate(counts)}
        yield exif(f"type {TYPES[form][0]}", Exif(dict(ORIENTATION) | fields))
    every = {0xFD00 + form: Value(form, elements) for form, elements in ELEMENTS.items()}
    yield exif("all thirteen types in five directories", Exif(every, dict(every), dict(every), dict(every), dict(every)))


def camera():
    """A block as a camera writes it: some 46 fields, a MakerNote, all five directories and a thumbnail."""
    text = lambda words: Value(ASCII, words.encode() + b"\0")
    note = bytes(Random(7).randbytes(1500))
    main = {
        0x010E: text("          "),
        0x010F: text("Maker"),
        0x0110: text("Model 1"),
        0x0112: Value(SHORT, [1]),
        0x011A: Value(RATIONAL, [(72, 1)]),
        0x011B: Value(RATIONAL, [(72, 1)]),
        0x0128: Value(SHORT, [2]),
        0x0131: text("1.0"),
        0x0132: text("2009:07:08 10:11:12"),
        0x0213: Value(SHORT, [2]),
        0x8298: text("nobody"),
    }
    photo = {
        0x829A: Value(RATIONAL, [(1, 60)]),
        0x829D: Value(RATIONAL, [(28, 10)]),
        0x8822: Value(SHORT, [2]),
        0x8827: Value(SHORT, [200]),
        0x9000: Value(UNDEFINED, b"0221"),
        0x9003: text("2009:07:08 10:11:12"),
        0x9004: text("2009:07:08 10:11:12"),
        0x9101: Value(UNDEFINED, b"\1\2\3\0"),
        0x9102: Value(RATIONAL, [(3, 1)]),
        0x9204: Value(SRATIONAL, [(-1, 3)]),
        0x9205: Value(RATIONAL, [(30, 10)]),
        0x9207: Value(SHORT, [5]),
        0x9208: Value(SHORT, [0]),
        0x9209: Value(SHORT, [24]),
        0x920A: Value(RATIONAL, [(61, 10)]),
        0x927C: Value(UNDEFINED, note),
        0x9286: Value(UNDEFINED, b"ASCII\0\0\0a comment"),
        0xA000: Value(UNDEFINED, b"0100"),
        0xA001: Value(SHORT, [1]),
        0xA002: Value(SHORT, [4000]),
        0xA003: Value(LONG, [3000]),
        0xA217: Value(SHORT, [2]),
        0xA300: Value(UNDEFINED, b"\3"),
        0xA301: Value(UNDEFINED, b"\1"),
        0xA401: Value(SHORT, [0]),
        0xA402: Value(SHORT, [0]),
        0xA404: Value(RATIONAL, [(0, 0)]),
        0xA406: Value(SHORT, [0]),
    }
    interop = {0x0001: Value(ASCII, b"R98\0"), 0x0002: Value(UNDEFINED, b"0100")}
    gps = {0x0000: Value(BYTE, b"\2\2\0\0"), 0x0001: Value(ASCII, b"N\0"), 0x0002: Value(RATIONAL, [(52, 1), (22, 1), (1, 7)])}
    thumb = {0x0103: Value(SHORT, [6]), 0x011A: Value(RATIONAL, [(72, 1)]), 0x011B: Value(RATIONAL, [(72, 1)])}
    picture = b"\xff\xd8" + Random(8).randbytes(5001) + b"\xff\xd9"
    yield exif("a block as a camera writes it", Exif(main, photo, interop, gps, thumb, jpeg=picture))
    yield exif(
        "the same, in the order that a camera writes", Exif(main, photo, interop, gps, thumb, jpeg=picture), Layout("<"), Layout(">")
    )


def thumbnails():
    """JPEG and strips alone and together; one strip and many; a large JPEG."""
    fields = {0x0103: Value(SHORT, [1]), 0x0100: Value(SHORT, [160]), 0x0101: Value(LONG, [120]), 0x0116: Value(SHORT, [8])}
    pixels = Random(9).randbytes(300)
    told = {
        "a JPEG alone": {"jpeg": b"\xff\xd8\xff\xd9"},
        "an empty JPEG": {"jpeg": b""},
        "a JPEG of 70,001 bytes": {"jpeg": bytes(Random(10).randbytes(70_001))},
        "one strip": {"strips": [pixels]},
        "no strip": {"strips": []},
        "three strips, one empty": {"strips": [b"a", b"", b"bc"]},
        "a JPEG and two strips": {"jpeg": b"\xff\xd8\xff", "strips": [pixels, b"x"]},
    }
    for name, parts in told.items():
        yield exif(name, Exif(dict(ORIENTATION), thumb=dict(fields), **parts))
    meaning = Exif(dict(ORIENTATION), thumb=dict(fields), strips=[b"12", b"3", b"4567"])
    yield exif("strips told by SHORTs", meaning, Layout(">", shorts=True), Layout("<", shorts=True, shuffled=True))
    meaning = Exif(dict(ORIENTATION), thumb={}, strips=[pixels])
    yield exif("one strip told by a SHORT, and nothing else", meaning, Layout(">", shorts=True), Layout("<", shorts=True, shuffled=True))
    many = [bytes([i % 251]) * (i % 3) for i in range(20_001)]
    yield exif("20,001 strips", Exif(dict(ORIENTATION), thumb=dict(fields), strips=many))


def directories():
    """Exif, GPS and Interoperability with and without each other, and beside a thumbnail."""
    for inside in ("", "exif", "exif interop"):
        for beside in ("", "gps", "thumb", "gps thumb"):
            names = f"{inside} {beside}".split()
            parts = {name: {0xC000 + i: Value(ASCII, b"at " + name.encode())} for i, name in enumerate(names)}
            meaning = Exif(dict(ORIENTATION), **parts)
            if "thumb" in names:
                meaning.jpeg = b"\xff\xd8"
            yield exif(f"directories {' '.join(['main', *names])}", meaning)


def records():
    """Caption records by themselves and inside an Exif block, after other entries and without any."""
    keywords = [(2, 25, bytes(f"keyword {i}", "ascii").ljust(1000, b".")) for i in range(70)]
    some = [
        (1, 90, b"\x1b\x25\x47"),
        (2, 80, b"A"),
        (2, 5, b"T\xc3\xa9"),
        (2, 85, b"a"),
        (2, 80, b"B"),
        (2, 120, b"c\\\n"),
        (2, 0, b"\0\2"),
    ]
    long = [(2, 120, Random(11).randbytes(40_000)), (7, 20, b""), (0, 0, b"x"), (255, 255, b"y")]
    each = [(record, number, b"%d:%d" % (record, number)) for record in (3, 2, 1) for number in range(255, -1, -1)]
    told = {
        "some captions": some,
        "70 keywords of 1,000 octets": keywords,
        "a caption of 40,000 octets": long,
        "a DataSet of each number": each,
    }
    for name, datasets in told.items():
        record = Record(datasets)
        yield Kind(name, record, [record.spelled(), record.spelled(extended=3, zeros=3)])
        fields = {0x010F: Value(ASCII, b"Maker\0"), 0x8298: Value(ASCII, b"nobody\0")}
        yield exif(f"{name}, inside an Exif block", Exif(fields, exif={0x9000: Value(UNDEFINED, b"0300")}, record=record))
        yield exif(f"{name}, inside an Exif block of its own", Exif({}, record=record))


def many_fields():
    yield exif("65,523 fields in their entries", Exif({tag: Value(BYTE, bytes([tag % 256])) for tag in PLAIN}))


def placed_values():
    mixed = {tag: Value(RATIONAL, [(tag, 1)]) if tag % 2 else Value(SHORT, [tag, 2, 3]) for tag in PLAIN[1000:17_000]}
    yield exif("16,000 placed values, places by chance", Exif(mixed))
    yield exif("values of many sizes", Exif({tag: Value(UNDEFINED, bytes(tag % 4099)) for tag in PLAIN[4000:8000]}))


def many_strips():
    strips = [bytes([i % 256]) for i in range(400_000)]
    for name, order in (("ascending", 1), ("descending", -1), ("by chance", 0)):
        layout = Layout(">", shuffled=True, chance=OfStrips(len(strips), order))
        yield exif(f"400,000 strips, {name}", Exif(dict(ORIENTATION), thumb={}, strips=strips), layout)


def strips_far_apart():
    """Strips of which each is far above the last claimed range below it."""
    count = 1_000_000
    layout = Layout(">", shuffled=True, gap=14, chance=OfStrips(count, -1))
    yield exif("a million strips far apart, descending", Exif(dict(ORIENTATION), thumb={}, strips=[b"x"] * count), layout)


def of_record(name, record):
    return Kind(name, record, [record.spelled()])


def many_datasets():
    yield of_record("3.3 million empty keywords", orders.record([(2, 25)] * 3_355_000))


def many_groups():
    groups = orders.record(orders.in_turn(orders.ALL))
    falling = Record([it for _, them in reversed(groups.groups().items()) for it in them])
    yield Kind("65,536 DataSets, each of another name", groups, [groups.spelled(), falling.spelled(extended=1)])
    yield exif("65,536 DataSets, each of another name, inside an Exif block", Exif({}, record=groups))


def bad_orders():
    """Orders for which lists of each group would take the most time or memory."""
    yield from names_in_turn()
    yield from random_names()
    yield from even_orders()


def names_in_turn():
    yield of_record("3.3 million empty DataSets of all names in turn", orders.record(orders.in_turn(50 * orders.ALL)))


def random_names():
    yield of_record("1.3 million empty DataSets of random names", orders.record(orders.random(20 * orders.ALL)))


def even_orders():
    yield of_record("four empty DataSets of each name, ascending", orders.record(orders.ascending(4 * orders.ALL)))
    yield of_record("four empty DataSets of each name, in turn", orders.record(orders.in_turn(4 * orders.ALL)))
    yield of_record("an empty DataSet of each name, in random order", orders.record(orders.shuffled()))
    turns = orders.record(orders.in_turn(4 * orders.ALL, 256))
    yield exif("262,144 empty DataSets of 256 names in turn, inside an Exif block", Exif({}, record=turns))


def random_records():
    """Records of random names and lengths. The first is one DataSet longer than what a file's list doubles up to."""
    yield of_record("a megabyte of empty DataSets of random names", orders.record(orders.random((1 << 20) // 5 + 1, seed=5)))
    for seed in range(6, 9):
        chance = Random(seed)
        names = orders.random(chance.randrange(65, 100_000), seed)
        yield of_record(
            f"DataSets of random names and lengths, {seed}", Record([(*it, chance.randbytes(chance.randrange(9))) for it in names])
        )


def long_values():
    yield exif("one value up to the limit", Exif({0xFD00: Value(UNDEFINED, bytes(LIMIT - 26))}), Layout(">"))
    numbers = {0xFD00: Value(SHORT, range(65_536)), 0xFD01: Value(DOUBLE, range(100_000)), 0xFD02: Value(SLONG, range(-50_000, 50_000))}
    yield exif("long values of SHORT, DOUBLE and SLONG", Exif(numbers))
    yield exif("four million SHORTs", Exif({0xFD00: Value(SHORT, [it % 65_536 for it in range(4_000_000)])}))
    yield exif("two million widths", Exif({0x0100: Value(SHORT, [it % 65_536 for it in range(2_000_000)])}))
    captions = Record([(2, 25, b"0123456789" * 3000)] * 100)
    yield exif("a caption record of three million octets inside an Exif block", Exif({}, record=captions))
    captions = Record([(2, 120, b"Z\xc3\xbcrich \\ " * 3000)] * 507)
    yield Kind("a caption record of sixteen million octets", captions, [captions.spelled(), captions.spelled(extended=3, zeros=3)])


class OfStrips(Random):
    """A source of chance that only moves the strips: in ascending order, in descending order, or shuffled."""

    def __new__(cls, *_):
        return super().__new__(cls, 2)

    def __init__(self, count, order):
        super().__init__(2)
        self.count, self.order = count, order

    def shuffle(self, parts):
        strips = parts[-self.count :]
        if self.order:
            strips = strips[:: self.order]
        else:
            super().shuffle(strips)
        parts[-self.count :] = strips


def small_kinds():
    """Accepted blocks of every kind."""
    return [*types(), *camera(), *thumbnails(), *directories(), *records()]


# Makers of large blocks: some for which a quadratic step would take hours, and some of the greatest length.
LARGE_MAKERS = (
    many_fields,
    placed_values,
    many_strips,
    strips_far_apart,
    many_datasets,
    many_groups,
    names_in_turn,
    random_names,
    even_orders,
    random_records,
    long_values,
)
