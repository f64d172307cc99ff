"""BigTIFF (LibTIFF, "BigTIFF Design"): the same fields as in a TIFF mean the same; numbers of eight bytes count as those of four."""

import io
import os
import struct

import pytest
from hypothesis import given, settings, strategies as st
from made_blocks import ASCII, LONG, SHORT, UNDEFINED
from made_files import K, T, page, tiff
from pairs import DIFFERENT, SAME, UNDECIDED, Pair, of_pairs
from studio import needs, run, write

from exifnorm_pictures.extract import coded_picture, extraction
from exifnorm_pictures.extract.formats.tiff import read_big
from exifnorm_pictures.model import budgets

LONG8, SLONG8, IFD8 = 16, 17, 18
SIZES = {1: 1, ASCII: 1, SHORT: 2, LONG: 4, 5: 8, UNDEFINED: 1, 9: 4, 13: 4, LONG8: 8, SLONG8: 8, IFD8: 8}
CODES = {SHORT: "H", LONG: "I", 9: "i", 13: "I", LONG8: "Q", SLONG8: "q", IFD8: "Q"}


def big(*pages, order="<", behind=b"", gap=b""):
    """A BigTIFF: each page is a list of (tag, type, value), the value a number, numbers, bytes, or a further page as the SubIFD."""
    made = bytearray((b"MM\0+" if order == ">" else b"II+\0") + struct.pack(order + "HHQ", 8, 0, 0) + gap)
    link = 8
    for it in pages:
        at = _directory(made, it, order)
        struct.pack_into(order + "Q", made, link, at)
        link = at + 8 + 20 * len(it)
    return bytes(made) + behind


def _directory(made, entries, order):
    rows = b""
    for tag, kind, value in sorted(entries, key=lambda it: it[0]):
        if isinstance(value, list):
            value = _directory(made, value, order)
        if not isinstance(value, bytes):
            numbers = value if isinstance(value, tuple) else (value,)
            value = struct.pack(f"{order}{len(numbers)}{CODES[kind]}", *numbers)
        rows += struct.pack(order + "HHQ", tag, kind, len(value) // SIZES[kind])
        if len(value) > 8:
            made += bytes(len(made) % 2)
            value, place = struct.pack(order + "Q", len(made)), value
            made += place
        rows += value.ljust(8, b"\0")
    made += bytes(len(made) % 8)
    made += struct.pack(order + "Q", len(entries)) + rows + bytes(8)
    return len(made) - 16 - len(rows)


FIELDS = [
    (0x010E, ASCII, b"two\0"),
    (0x010F, ASCII, b"sixteen\0"),
    (0x013B, ASCII, b"a longer text\0"),
    (0x02BC, 1, T),
    (0x83BB, UNDEFINED, K),
    (0x8769, LONG, [(0x8827, SHORT, 200), (0x9286, UNDEFINED, b"a comment")]),
]


def fields(*more):
    tags = {it[0] for it in more}
    return page(*(it for it in FIELDS if it[0] not in tags), *more)


def pairs():
    yield Pair("a TIFF and a BigTIFF", tiff(fields(), order="<"), big(fields()), SAME)
    yield Pair("both byte orders", big(page((0x013B, ASCII, b"Anna\0"))), big(page((0x013B, ASCII, b"Anna\0")), order=">"), SAME)
    yield Pair("parts in other places", big(fields()), big(fields(), gap=bytes(64)), SAME)
    for at, (tag, kind, value) in enumerate(FIELDS[:3]):
        yield Pair(f"field {tag:04x}", big(fields()), big(fields((tag, kind, value[:-2] + b"!\0"))), DIFFERENT)
    yield Pair("XMP", big(fields()), big(fields((0x02BC, 1, T.replace(b"one", b"two")))), DIFFERENT)
    yield Pair("IPTC", big(fields()), big(fields((0x83BB, UNDEFINED, K.replace(b"one", b"two")))), DIFFERENT)
    yield Pair("Exif", big(fields()), big(fields((0x8769, LONG, [(0x8827, SHORT, 100)]))), DIFFERENT)
    for kind in (LONG8, IFD8, 13):
        yield Pair(f"a pointer of type {kind}", big(fields()), big(fields((0x8769, kind, FIELDS[-1][2]))), SAME)
        below = page((0x013B, ASCII, b"Otto\0"))
        yield Pair(f"a SubIFD of type {kind}", big(fields((0x014A, LONG, below))), big(fields((0x014A, kind, below))), SAME)
    yield Pair("width as LONG8", big(fields()), big(fields((0x0100, LONG8, 1))), SAME)
    yield Pair("another width as LONG8", big(fields()), big(fields((0x0100, LONG8, 2))), DIFFERENT)
    yield Pair("SLONG8", big(fields((0xC000, 9, -5))), big(fields((0xC000, SLONG8, -5))), SAME)
    yield Pair("a second page", big(fields(), fields()), big(fields()), DIFFERENT)
    yield Pair("a second page in another place", big(fields(), fields()), big(fields(), fields(), gap=bytes(64)), SAME)
    strips = fields((0x0111, LONG8, (8, 9)), (0x0117, LONG8, (1, 1)))
    yield Pair("strips", big(strips), big(fields((0x0111, LONG, (9, 8)), (0x0117, SHORT, (1, 1)))), SAME)
    yield Pair("trailers", big(fields(), behind=b"Anna"), big(fields(), behind=b"Otto"), UNDECIDED)
    yield Pair("the same trailer", big(fields(), behind=b"Anna"), big(fields(), gap=bytes(64), behind=b"Anna"), SAME)
    wide = big(fields((0x0100, LONG8, 1 << 32)))
    yield Pair("a width of more than four bytes", wide, wide, SAME)
    yield Pair("a width of more than four bytes and another file", wide, wide + b"x", DIFFERENT)


@of_pairs(pairs)
def test_pair(pair, compared):
    status, objects = compared(pair.before, pair.after)
    assert status == pair.status, objects


BROKEN = {
    "offsets of another size": big(fields()).replace(b"\x08\0\0\0", b"\x10\0\0\0", 1),
    "a directory outside": b"II+\0\x08\0\0\0" + struct.pack("<Q", 1 << 63) + bytes(40),
    "a directory after four gigabytes": b"II+\0\x08\0\0\0" + struct.pack("<Q", 1 << 33) + bytes(40),
    "more entries than the file": b"II+\0\x08\0\0\0" + struct.pack("<QQ", 16, 1 << 60) + bytes(40),
    "a directory that leads to itself": b"II+\0\x08\0\0\0" + struct.pack("<QQQ", 16, 0, 16),
    "a number of more than four bytes": big(fields((0x0100, LONG8, 1 << 32))),
    "a negative number of more than four bytes": big(fields((0xC000, SLONG8, -(1 << 32)))),
    "several numbers of eight bytes": big(fields((0xC000, LONG8, (1, 2)))),
    "strips that aren't in the file": big(fields()).replace(
        struct.pack("<HHQ", 0x0111, LONG, 1), struct.pack("<HHQ", 0x0111, LONG, 1 << 30)
    ),
    "too many values": big(fields()).replace(struct.pack("<HHQ", 0x013B, ASCII, 14), struct.pack("<HHQ", 0x013B, ASCII, 1 << 40)),
    "nothing after the header": b"II+\0\x08\0\0\0",
}


@pytest.mark.parametrize("octets", BROKEN.values(), ids=BROKEN)
def test_broken(octets):
    """A line with the reason, and no blocks."""
    found = read_big(io.BytesIO(octets))
    assert (found.type, found.problem, found.blocks) == ("BigTIFF", "BigTIFF", [])
    assert found.detail.startswith(f"{found.problem.text}: "), found.detail


def test_a_file_with_a_hole(tmp_path):
    """Offsets after four gigabytes, in a file whose middle isn't there."""
    name = tmp_path / "a.btf"
    whole = big(fields())
    at = struct.unpack_from("<Q", whole, 8)[0]
    far = 5 << 30
    with open(name, "wb") as file:
        file.write(whole[:8] + struct.pack("<Q", far))
        file.seek(far)
        file.write(struct.pack("<Q", 1) + struct.pack("<HHQ8s", 0x013B, ASCII, 5, b"Anna\0\0\0\0") + bytes(8))
    found = extraction.blocks_of_file(os.fsencode(name))
    assert [it.name for it in found.blocks] == ["Exif"] and b"Anna\0" in found.blocks[0].data and at
    assert coded_picture.of_file(os.fsencode(name), budgets.Budget()).digest != ""


def test_many_entries(monkeypatch):
    monkeypatch.setattr(budgets, "SECONDS", 600.0)  # a slow processor reaches that limit first
    entries = b"".join(struct.pack("<HHQ8s", 0xC000, SHORT, 1, b"") for _ in range(1000))
    parts = [struct.pack("<Q", 1000) + entries + struct.pack("<Q", 16 + (number + 1) * (16 + len(entries))) for number in range(1001)]
    with pytest.raises(budgets.TooMuch, match="entries of directories"):
        read_big(io.BytesIO(b"II+\0\x08\0\0\0" + struct.pack("<Q", 16) + b"".join(parts)))


@settings(max_examples=400)
@given(st.data())
def test_damaged(data):
    """A result for any bytes, and only bytes of the file in its blocks."""
    octets = bytearray(big(fields((0x014A, IFD8, page((0x013B, ASCII, b"below it\0")))), fields()))
    for _ in range(data.draw(st.integers(1, 3))):
        at = data.draw(st.integers(8, len(octets) - 1))
        with_ = data.draw(st.one_of(st.binary(min_size=1, max_size=8), st.sampled_from((b"\xff" * 8, bytes(8), struct.pack("<Q", at)))))
        octets[at : at + len(with_)] = with_
    found = read_big(io.BytesIO(bytes(octets)))
    for it in found.blocks:
        values = values_of(it.data) if it.kind == "exif" else [it.data]
        assert all(value in octets for value in values), it


def values_of(block):
    """The values of a block that are no numbers in their entries."""
    tables = [8]
    for at in tables:
        (count,) = struct.unpack_from("<H", block, at)
        for tag, kind, number, place in struct.iter_unpack("<HHII", block[at + 2 : at + 2 + 12 * count]):
            if tag in (0x8769, 0x8825, 0xA005) and (kind, number) == (LONG, 1) and place < len(block):
                tables.append(place)
            elif SIZES.get(kind, 0) * number > 4:
                yield block[place : place + SIZES[kind] * number]


@needs("exiftool")
def test_beside_exiftool(tmp_path):
    """ExifTool shows the same tags of a BigTIFF and of its block."""
    octets, shown = big(fields((0x011A, 5, struct.pack("<II", 300, 1)), (0x0100, LONG8, 1))), []
    for name, data in (("a.btf", octets), ("a.tif", next(it.data for it in read_big(io.BytesIO(octets)).blocks if it.kind == "exif"))):
        write(tmp_path / name, data)
        said = run(["exiftool", "-config", "", "-q", "-q", "-m", "-G1", "-s", "-IFD0:all", "-ExifIFD:all", name], tmp_path).stdout.decode()
        shown.append({it for it in said.splitlines() if not any(word in it for word in ("Strip", "ApplicationNotes", "IPTC-NAA"))})
    assert shown[0] <= shown[1] and len(shown[0]) > 8, shown[0] ^ shown[1]


def test_the_coded_picture():
    strips = (0x0111, LONG8, (16, 20)), (0x0117, LONG8, (4, 4))
    files = [big(fields(*strips), gap=b"abcdefgh"), big(fields(*strips), gap=b"abcdefgi")]
    files.append(big(fields(*strips, (0x013B, ASCII, b"Otto\0")), gap=b"abcdefgh", behind=b"trailer"))
    digests = [coded_picture.followed(io.BytesIO(it), budgets.Budget())[0] for it in files]
    assert digests[0] == digests[2] != digests[1] and all(digests)


def test_where_one_strip_ends():
    """The same bytes in strips of other lengths are other strips: each is decoded by itself."""
    files = [big(fields((0x0111, LONG, (16, at)), (0x0117, LONG, (at - 16, 24 - at))), gap=b"abcdefgh") for at in (20, 21)]
    one, other = (coded_picture.followed(io.BytesIO(it), budgets.Budget())[0] for it in files)
    assert one != other and one and other
