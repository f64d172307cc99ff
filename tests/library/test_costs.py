"""What calls of the built library cost, in numbers that don't depend on the machine: the bytes that they allocate at most, the number of
their allocations, and the instructions that valgrind counts, for orders that are made to be slow beside the usual one."""

import hashlib
import re
from collections import Counter, namedtuple
from random import Random
from string import ascii_letters

import pytest

import orders
from commands import run
from compiling import C99, HERE, need
from kinds import LARGE_MAKERS, ORIENTATION, OfStrips, bad_orders, many_datasets, random_records, small_kinds
from meanings import RATIONAL, SHORT, Exif, Layout, Record, Value, laid
from proved import bounds

# The bytes of a DataSet; more DataSets than FEW are sorted, in a second list or with four bytes for each group.
ITEM, FEW, COUNTERS = 24, 64, 4 * 65536
SMALL, SLACK = 1024, 1.03  # bytes of small lists; 3 % more than is allocated now
LONG = 300_000  # DataSets, of which a text takes long to make
# The instructions for a strip at most, in the usual order and in others: an eighth more than now.
STRIP = {"check": (18, 52), "normalise": (181, 216), "compare": (152, 220)}
SAME, SORTED = 1.3, 3.0  # how often the instructions of the usual order an unusual one takes, and one that has to be sorted
PIECE = 8192  # bytes of the output buffer
# The functions of glibc that any x86-64 processor has: which ones copy and clear memory depends on the processor, also under valgrind.
USUAL = "glibc.cpu.hwcaps=" + ",".join(f"-{it}" for it in "AVX512F AVX512VL AVX512BW AVX2 AVX_Fast_Unaligned_Load ERMS FSRM SSSE3".split())
DONE, NO_MEMORY = 0, 4

Counts = namedtuple("Counts", "peak allocations growths asked written")


class Costs:
    """cost.c, which calls the library once."""

    def __init__(self, program, folder):
        self.program, self.path = program, folder / "block"

    def counts(self, call, block):
        """The most bytes that a call has allocated at once, its allocations, how many of these made a list longer, the bytes that they
        asked for, and the length of the output."""
        self.path.write_bytes(block)
        return Counts(*map(int, run(self.program, call, self.path).split()))

    def refused(self, call, block, number):
        """The status of a call of which this allocation fails, and the bytes that it doesn't free."""
        self.path.write_bytes(block)
        return tuple(map(int, run(self.program, call, self.path, str(number)).split()))

    def instructions(self, call, block):
        """Those of the call alone."""
        need("valgrind")
        self.path.write_bytes(block)
        words = ["valgrind", "--tool=callgrind", "--callgrind-out-file=/dev/null", f"--toggle-collect=exifnorm_{call}", self.program]
        found = int(re.search(r"Collected : (\d+)", run(*words, call, self.path))[1])
        assert found > 100, "the call was not counted"
        return found

    def see_that_orders_are_alike(self, call, blocks, most):
        """No order takes more than so many times the instructions of the first one."""
        usual, *others = blocks
        count = self.instructions(call, blocks[usual])
        for name in others:
            more = self.instructions(call, blocks[name]) / count
            assert more <= most, f"{call}: the order {name} takes {more:.2f} times the instructions"


@pytest.fixture(scope="session")
def cost_program(session_folder, archive):
    path = session_folder / "cost"
    run(*C99, "-I", HERE, HERE / "cost.c", HERE / "fuzz" / "memory.c", archive, "-o", path)
    return path


@pytest.fixture
def costs(cost_program, folder):
    return Costs(cost_program, folder)


# ---- memory


def memory_of_record(call, record):
    """The bytes that a call takes for an IIM block: one list of exactly its DataSets, and a second one or counters while it is sorted. A
    text is made in a list of its own, which may double. Nothing is kept of a block that is only checked."""
    count = len(record.datasets)
    if call == "check":
        return 0
    text = 2 * len({"show": record.listing, "captions": record.captions}.get(call, str)())
    sorting = min(COUNTERS, ITEM * count) if count > FEW else 0
    return (2 if call == "compare" else 1) * ITEM * count + sorting + text


@pytest.mark.parametrize("kinds", [many_datasets, bad_orders, random_records], ids=lambda it: it.__name__)
def test_memory_of_records(costs, kinds):
    """In proportion to the DataSets, in any order of them."""
    for kind in (it for it in kinds() if isinstance(it.meaning, Record)):
        texts = ("show", "captions") if len(kind.meaning.datasets) < LONG else ()
        for call in ("check", "normalise", "compare", *texts):
            took, most = costs.counts(call, kind.blocks[0]).peak, memory_of_record(call, kind.meaning)
            assert took <= SLACK * (most + SMALL), f"{call} of {kind.name}"


def strips(order, count):
    """A thumbnail with strips of one byte: ascending, descending, or in random order (1, -1, 0)."""
    layout = Layout(">") if order > 0 else Layout(">", shuffled=True, chance=OfStrips(count, order))
    return laid(Exif(dict(ORIENTATION), thumb={}, strips=[b"x"] * count), layout)


FIELDS = {tag: Value(SHORT, [1]) for tag in range(0x1000, 0x1064)}
# Meanings, each with the number of lists of a check, and of a meaning that is read (docs/DECISIONS.md). The claimed ranges of an Exif block
# are one list of bits, and a check keeps nothing else but the fields of the thumbnail directory. The meaning has a list for the fields of
# each directory, and one for the DataSets of a record. A check of an IIM block keeps nothing. Up to 64 DataSets, or more in order, take one
# list. Others are sorted from list to list, or into a list by counters, which are a list too.
LISTS = {
    "one field": (Exif(dict(ORIENTATION)), 1, 1 + 1),
    "100 fields": (Exif(FIELDS), 1, 1 + 1),
    "1,000 fields": (Exif({tag: Value(SHORT, [1]) for tag in range(0x1000, 0x13E8)}), 1, 1 + 1),
    "two directories": (Exif(dict(ORIENTATION), exif=FIELDS), 1, 1 + 2),
    "five directories": (Exif(FIELDS, exif=FIELDS, interop=FIELDS, gps=FIELDS, thumb=FIELDS, jpeg=b"jpeg"), 1 + 1, 1 + 5),
    "five directories of one field": (Exif(*[dict(ORIENTATION)] * 5, jpeg=b"jpeg"), 1 + 1, 1 + 5),
    "strips": (Exif(dict(ORIENTATION), thumb={}, strips=[b"x"] * 100), 1 + 1, 1 + 2),
    "captions in an Exif block": (Exif(dict(ORIENTATION), record=orders.captions()), 1, 1 + 1 + 1),
    "captions": (orders.captions(), 0, 1),
    "one DataSet": (orders.record(orders.descending(1)), 0, 1),
    "64 DataSets, descending": (orders.record(orders.descending(FEW)), 0, 1),
    "65 DataSets, descending": (orders.record(orders.descending(FEW + 1)), 0, 2),
    "10,922 DataSets, descending": (orders.record(orders.descending(COUNTERS // ITEM)), 0, 2),
    "10,923 DataSets, descending": (orders.record(orders.descending(COUNTERS // ITEM + 1)), 0, 2),
    "20,000 DataSets in order": (orders.record(orders.ascending(20_000)), 0, 1),
}


def growths(text):
    """How often the list of a text grows: each piece of a text is appended as it is, and the list doubles."""
    return (-(-len(text) // PIECE) - 1).bit_length()


@pytest.mark.parametrize("meaning, checked, read", LISTS.values(), ids=LISTS)
def test_one_allocation_for_each_list(costs, meaning, checked, read):
    """The space for a list is allocated at once, so that none grows while a block is read: a list of 100 fields that had space for 99
    would be one more allocation. A text is a list that grows. A form is written into the caller's memory."""
    block = laid(meaning, Layout("<")) if isinstance(meaning, Exif) else meaning.spelled()
    shown, captions = growths(meaning.listing()), growths(meaning.captions())
    calls = {
        "check": (checked, 0),
        "normalise": (read, 0),
        "show": (read + 1 + shown, shown),
        "captions": (read + 1 + captions, captions),
        "compare": (2 * read, 0),
    }
    assert {call: costs.counts(call, block)[1:3] for call in calls} == calls


@pytest.mark.parametrize("make", [small_kinds, *LARGE_MAKERS], ids=lambda it: it.__name__)
def test_no_call_asks_for_more_than_is_proved(costs, make):
    """No call asks the allocator for more than its contract states."""
    for block in (block for kind in make() for block in kind.blocks):
        most = bounds().block_request(len(block))
        for call, proved in {"check": most, "normalise": most, "show": most, "captions": most, "compare": 2 * most}.items():
            counts = costs.counts(call, block)
            if call in ("show", "captions"):
                proved += bounds().text_request(counts.written)
            assert counts.asked <= proved, f"{call} of {len(block)} bytes asks for {counts.asked}"


def segment(marker, data):
    return bytes((0xFF, marker)) + (len(data) + 2).to_bytes(2, "big") + data


def picture(*pieces):
    return b"\xff\xd8" + b"".join(pieces) + b"\xff\xd9"


# Packets of so many properties, in the order of their names and in others.
PACKET = "<r:RDF xmlns:r='http://www.w3.org/1999/02/22-rdf-syntax-ns#' xmlns:d='http://d/'><r:Description>{}</r:Description></r:RDF>"
PROPERTIES = [f"<d:p{it:05}>text</d:p{it:05}>" for it in range(4000)]
MEMBERS = [f"<r:li>{it:05}</r:li>" for it in range(4000)]


def packet(properties):
    return PACKET.format("".join(properties)).encode()


def bag(members):
    return packet(["<d:b><r:Bag>", *members, "</r:Bag></d:b>"])


def in_orders(make, parts):
    return {"usual": make(parts), "descending": make(parts[::-1]), "random": make(Random(1).sample(parts, len(parts)))}


# Packets, each with the bytes that a call takes at once for each byte of the packet at most: an eighth more than now. The form for showing
# has another number if there is a bag, because the packet and what is written for it are read again beside the normal form.
PACKETS = {
    "properties": (packet(PROPERTIES), 8, 8),
    "a bag": (bag(MEMBERS), 7.5, 9),
    "a bag in another order": (bag(MEMBERS[::-1]), 7.5, 10.5),
    "a long text": (packet([f"<d:a>{'x' * 100_000}</d:a>"]), 8, 8),
    "long attributes": (packet([f"<d:a d:b='{'x' * 100_000}' d:c='{'y' * 100_000}'/>"]), 4, 4),
    "structures in structures": (packet(["<d:a r:parseType='Resource'>" * 90, "<d:a>1</d:a>", "</d:a>" * 90]), 13, 13),
    "attributes": (packet(["<d:a ", *(f"d:a{it}='1' " for it in range(200)), "/>"]), 17.5, 17.5),
    "long names and languages": (
        bag(
            [
                f"<r:li r:parseType='Resource' xml:lang='{'abcdefgh-' * 11}a'>",
                *(f"<d:{it} r:parseType='Resource'>{''.join(f'<d:{name}/>' for name in ascii_letters)}</d:{it}>" for it in ascii_letters),
                "</r:li><r:li/>",
            ]
        ).replace(b"http://d/", b"http://%s/" % (b"d" * 248)),
        162,
        292,
    ),
}


# Pictures with extended XMP in so many pieces of one octet, and others that aren't read.
PIECES = 5_000
EXTENDED = packet([f"<d:a>{'x' * (PIECES - len(packet(['<d:a></d:a>'])))}</d:a>"])
NAME = hashlib.md5(EXTENDED, usedforsecurity=False).hexdigest().upper().encode("ascii")


def extended(octets, *, of=PIECES, name=NAME, offset=0):
    """A segment with a piece of extended XMP."""
    return segment(0xE1, b"http://ns.adobe.com/xmp/extension/\0" + name + of.to_bytes(4, "big") + offset.to_bytes(4, "big") + octets)


def with_pieces(pieces):
    """A picture with a packet that names the extended XMP."""
    pointer = f"<n:HasExtendedXMP xmlns:n='http://ns.adobe.com/xmp/note/'>{NAME.decode('ascii')}</n:HasExtendedXMP>"
    return picture(segment(0xE1, b"http://ns.adobe.com/xap/1.0/\0" + packet(["<d:b>text</d:b>", pointer])), *pieces)


OCTETS = [extended(EXTENDED[at : at + 1], offset=at) for at in range(PIECES)]
HOSTILE = {
    "pieces that have one offset": [extended(b"<")] * PIECES,
    "pieces of other extensions": [extended(b"<", name=b"%032X" % it, offset=it) for it in range(PIECES)],
    "pieces that overlap": [extended(EXTENDED[at : at + 2], offset=at) for at in range(PIECES)],
    "pieces of four gigabytes": [extended(EXTENDED[at : at + 1], of=0xFFFFFFFF, offset=at) for at in range(PIECES)],
    "pieces behind one another": [extended(b"<", offset=1 << 30 | it) for it in range(PIECES)],
    "pieces of no octets": [extended(b"")] * PIECES,
}


def in_bits(block):
    """A bit for each byte of the block."""
    return SLACK * (len(block) / 8 + SMALL)


OF_FOUR = ("check", "normalise", "captions", "compare")
MANY = {tag: Value(SHORT, [1]) for tag in range(0x1000, 0x2000)}
# The calls, what they are given, and the bytes that each takes at once at most.
PEAKS = {
    **{f"strips, {order}": (OF_FOUR, lambda order=order: strips(order, 400_000), in_bits) for order in (1, -1, 0)},
    "fields that are checked": (("check",), lambda: laid(Exif(MANY, exif=MANY, interop=MANY, gps=MANY), Layout("<")), in_bits),
    **{
        f"{name}, by {calls[0]}": (calls, lambda it=octets: it, lambda it, most=most: most * len(it))
        for name, (octets, normal, shown) in PACKETS.items()
        for calls, most in ((("xmp_check", "xmp_normalise"), normal), (("xmp_unsorted",), shown))
    },
    **{
        f"extended XMP: {name}": (
            ("jpeg_same",),
            lambda it=pieces: with_pieces(it),
            lambda _, count=len(pieces): 10 * len(EXTENDED) + 64 * count + SMALL,
        )
        for name, pieces in {"usual": OCTETS, "one piece": [extended(EXTENDED)], **HOSTILE}.items()
    },
}


@pytest.mark.parametrize("calls, make, most", PEAKS.values(), ids=PEAKS)
def test_memory(costs, calls, make, most):
    """In proportion to what is given, whatever its parts say."""
    octets = make()
    for call in calls:
        assert costs.counts(call, octets).peak <= most(octets), call


def test_each_allocation_of_extended_xmp_fails(costs):
    """The call says that memory is short, and frees what it has."""
    octets = with_pieces([extended(EXTENDED[4:], offset=4), extended(EXTENDED[:4])])
    count = costs.counts("jpeg_same", octets).allocations
    assert count > 10
    for number in range(1, count + 2):
        assert costs.refused("jpeg_same", octets, number) == (DONE if number > count else NO_MEMORY, 0), number


# ---- instructions


def iim(names):
    return orders.record(names, b"octets 1").spelled()


@pytest.mark.parametrize("count", [50_000, 140_000], ids=["in the first megabyte", "after the first megabyte"])
def test_instructions_for_each_strip(costs, count):
    """Strips in the usual order are judged by one look at their whole span, and others one by one. A limit that is more than twice what a
    strip takes would notice no slower body."""
    blocks = {name: strips(order, count) for name, order in (("ascending", 1), ("descending", -1), ("random", 0))}
    for call in STRIP:
        each = {name: costs.instructions(call, block) / count for name, block in blocks.items()}
        for name, instructions in each.items():
            most = STRIP[call][name != "ascending"]
            assert most / 2 <= instructions <= most, f"{call}: {instructions:.1f} instructions for each strip in {name} order"
            assert instructions / each["ascending"] <= (SAME if call == "normalise" else SORTED), f"{call}: {name} order"


def chosen(count):
    return sorted(Random(1).sample(list(orders.ascending(orders.ALL)), count))


def repeated():
    """A name for each of many DataSets: by its first, and as they come."""
    names = list(orders.random(200_000))
    return {"usual": iim([name for name, count in sorted(Counter(names).items()) for _ in range(count)]), "random": iim(names)}


VALUES = Exif({tag: Value(RATIONAL, [(tag, 7)]) for tag in range(0x1000, 0x3000)})
ORDERED = {"check": 1.0, "normalise": SORTED, "captions": SORTED, "compare": SORTED}  # what a call may take in other orders
# What each call may take of some input, in times of the usual order.
ORDERS = {
    "extended XMP": (
        {"jpeg_same": SORTED},
        lambda: {name: with_pieces(it) for name, it in {**in_orders(list, OCTETS), **HOSTILE}.items()},
    ),
    "properties": ({"xmp_normalise": 2.0}, lambda: in_orders(packet, PROPERTIES)),
    "a bag": ({"xmp_normalise": 2.0}, lambda: in_orders(bag, MEMBERS)),
    "values": (
        {"check": SAME, "normalise": SAME},
        lambda: {name: laid(VALUES, Layout("<", shuffled=name != "usual")) for name in ("usual", "shuffled")},
    ),
    "all groups": (ORDERED, lambda: in_orders(iim, list(orders.ascending(orders.ALL)))),
    **{
        f"{count:,} groups": ({"check": 1.0, "normalise": SORTED}, lambda count=count: in_orders(iim, chosen(count)))
        for count in (FEW, FEW + 1, 1000, COUNTERS // ITEM, COUNTERS // ITEM + 1)
    },
    "names that come again": (ORDERED, repeated),
}


@pytest.mark.parametrize("calls, make", ORDERS.values(), ids=ORDERS)
def test_instructions_in_another_order(costs, calls, make):
    blocks = make()
    for call, most in calls.items():
        costs.see_that_orders_are_alike(call, blocks, most)


# Meanings whose values are swapped in the normal form, each with the instructions for each byte of the form at most: an eighth more than
# now, or a twentieth for the shortest. The buffer of a form in memory is small, because it is cleared. A value is swapped directly into
# the output buffer if it fits there, and a long one directly into the caller's memory. The lengths of strips are written as one value.
SWAPPED = {
    "one SHORT": (Exif(dict(ORIENTATION)), 205),  # about 506, if 8,192 bytes are cleared
    "1,000 values of 500 SHORTs": (Exif({tag: Value(SHORT, range(500)) for tag in range(0x1000, 0x13E8)}), 1.74),
    "a megabyte of SHORTs": (Exif({0x1000: Value(SHORT, [it % 65_536 for it in range(1 << 19)])}), 0.39),
    "50,000 strips": (Exif(dict(ORIENTATION), thumb={}, strips=[b"x"] * 50_000), 19.6),
}


@pytest.mark.parametrize("meaning, most", SWAPPED.values(), ids=SWAPPED)
def test_instructions_for_each_byte_of_a_form(costs, meaning, most, monkeypatch):
    """A limit that is more than twice what a form takes would notice no slower body."""
    monkeypatch.setenv("GLIBC_TUNABLES", USUAL)
    block = laid(meaning, Layout("<"))
    each = costs.instructions("normalise", block) / len(block)
    assert most / 2 <= each <= most, f"{each:.3f} instructions for each byte"


# Parts of a head, and Photoshop's resources, each with the instructions for one of them at most: an eighth more than now. A call goes over
# the parts three times, and looks at no more of the data than at the mark and at a header of TIFF.
PARTS = {
    "markers that stand alone": ("jpeg_parts", b"\xff\xd0", 219),
    "fill bytes": ("jpeg_parts", b"\xff" * 1000 + b"\xff\xd0", 20_400),
    "comments": ("jpeg_parts", segment(0xFE, b"comment"), 262),
    "long comments": ("jpeg_parts", segment(0xFE, bytes(10_000)), 262),
    "pieces of Exif": ("jpeg_parts", segment(0xE1, b"Exif\0\0MM\0*" + bytes(100)), 305),
    "extended XMP": ("jpeg_parts", segment(0xE1, b"http://ns.adobe.com/xmp/extension/\0" + bytes(100)), 383),
    "resources": ("photoshop_resources", b"8BIM\4\4\0\0\0\0\0\x02ab", 139),
    "comments in two pictures": ("jpeg_same_blocks", segment(0xFE, b"comment"), 1_473),
    "resources in two pictures": (
        "jpeg_same_blocks",
        segment(0xED, b"Photoshop 3.0\0" + b"8BIM\4\x22\0\0\0\0\0\x02ab") + segment(0xFE, b""),
        3_980,
    ),
    "XMP in two pictures": ("jpeg_same_blocks", segment(0xE1, b"http://ns.adobe.com/xap/1.0/\0" + bytes(100)), 3_356),
    "comments in a picture without XMP": ("jpeg_xmp", segment(0xFE, b"comment"), 145),
    "Exif in a picture without XMP": ("jpeg_xmp", segment(0xE1, b"Exif\0\0MM\0*" + bytes(100)), 230),
    "long resources": ("photoshop_resources", b"MeSa\4\4\0\0\0\0\x10\0" + bytes(4096), 184),
}


@pytest.mark.parametrize("call, one, most", PARTS.values(), ids=PARTS)
def test_instructions_for_each_part(costs, call, one, most):
    """However many there are, and with no allocation."""
    ends = (b"", b"") if call == "photoshop_resources" else (b"\xff\xd8", b"\xff\xd9")
    few, many = (ends[0] + one * count + ends[1] for count in (100, 1100))
    counts = costs.counts(call, many)
    assert (counts.peak, counts.allocations, counts.asked) == (0, 0, 0)
    each = (costs.instructions(call, many) - costs.instructions(call, few)) / 1000
    assert most / 2 <= each <= most, f"{each:.1f} instructions for each"
