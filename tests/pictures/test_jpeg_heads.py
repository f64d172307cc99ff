"""The head of a JPEG, which the library reads, beside a walk in Python over its segments: on made heads of every kind, and on damaged ones;
what a picture costs, and a library that fails."""

import hashlib
import io
import itertools
import os
import random
import struct

import pytest
from hypothesis import given, strategies as st
from in_memory import Counting
from jpeg_walk import Walk
from made_blocks import segment
from made_files import EXTENSION_HEAD, A, B, K, L, T, U, app1, app13, app1_xmp, extension, jpeg, mpf, resource, turned
from studio import SMALL_JPEG

import exifnorm
from exifnorm import _jpeg
from exifnorm_pictures.extract import coded_picture, extraction
from exifnorm_pictures.extract.formats import jpeg as jpeg_
from exifnorm_pictures.judge import judge
from exifnorm_pictures.files.session import Session
from exifnorm_pictures.model import verdicts
from exifnorm_pictures.model.budgets import Budget
from exifnorm_pictures.model.found import EXIF, IPTC, Blocks, Broken
from exifnorm_pictures.model.texts import Result
from exifnorm_pictures.model.records import side_of
from exifnorm_pictures.scan import looking
from exifnorm_pictures.scan.walk import FoundFile, How

EXTENDED = extension(T, 90)[0]
PIECES = {
    "Exif": [app1(A)],
    "Exif in two pieces": [app1(A[:12]), app1(A[12:])],
    "two blocks of Exif": [app1(A), app1(B)],
    "Exif by another word": [segment(0xE1, b"\0\0EXIF\0#" + B), app1(b"no header")],
    "IPTC": [app13(resource(0x0404, K), resource(0x0425, b"odd"), resource(0x0404, L))],
    "IPTC in two pieces": [app13(resource(0x0404, K)[:9]), segment(0xED, b"Photoshop 3.0\0" + resource(0x0404, K)[9:])],
    "IPTC of an old Photoshop": [segment(0xED, b"Adobe_Photoshop2.5:12345678" + resource(0x0404, L) + b"rest")],
    "IPTC with another segment between": [app13(resource(0x0404, K)), segment(0xFE, b"comment"), app13(resource(0x0404, L))],
    "Exif and XMP of resources": [app13(resource(0x0422, b"Exif\0\0" + A), resource(0x0423, b"more"), resource(0x0424, T))],
    "XMP": [app1_xmp(T), app1_xmp(U)],
    "extended XMP": [app1_xmp(T), *EXTENDED],
    "extended XMP that is not whole": [EXTENDED[0], EXTENDED[0], segment(0xE1, EXTENSION_HEAD + b"short")],
    "MPF": [segment(0xE2, b"MPF\0MM\0*" + struct.pack(">IH", 8, 0))],
    "others of applications": [
        segment(0xE0, b"JFIF\0\1"),
        segment(0xE0, b"\0"),
        segment(0xE2, b"ICC_PROFILE\0\1"),
        segment(0xEE, b"Adobe\0d"),
    ],
    "named ones": [segment(0xE3, b"Meta\0\0abc"), segment(0xEC, b"Ducky\0\1"), segment(0xE1, b"http://other"), segment(0xED, b"other")],
    "markers alone": [b"\xff\x01", b"\xff\xd0", b"\xff\xd8", b"\xff\xff\xff" + app1(A), b"\xff\x01", app1(b"no header")],
    "tables": [segment(0xDB, bytes(65)), segment(0xC0, bytes(15)), segment(0xC4, bytes(20)), segment(0xFE, b"")],
}
ENDS = {"a scan": segment(0xDA, bytes(10)) + b"\x11\xff\xd9", "no scan": b"\xff\xd9", "nothing": b""}
HEADS = [b"\xff\xd8" + b"".join(pieces) + end for pieces in PIECES.values() for end in ENDS.values()]


def by_walk(octets):
    it = Walk(octets)
    return it.blocks.blocks, it.blocks.not_read, it.indexes, it.fault or (it.end, it.has_scan)


def by_library(octets):
    blocks = Blocks(type="JPEG")
    head, fault = jpeg_._Head(blocks), ""
    try:
        head.read(io.BytesIO(octets), 0, Budget())
    except Broken as why:
        fault = str(why)
    return blocks.blocks, blocks.not_read, head.indexes, fault or (head.end, head.has_scan)


@pytest.mark.parametrize("pieces", PIECES.values(), ids=PIECES)
@pytest.mark.parametrize("end", ENDS.values(), ids=ENDS)
def test_heads_of_each_kind(pieces, end):
    """Whole, and cut at each byte."""
    whole = b"\xff\xd8" + b"".join(pieces) + end
    for length in range(3, len(whole) + 1):
        assert by_library(whole[:length]) == by_walk(whole[:length]), length


def test_all_kinds_in_one_head():
    for order in (list(PIECES.values()), list(PIECES.values())[::-1]):
        whole = b"\xff\xd8" + b"".join(b"".join(it) for it in order) + ENDS["a scan"]
        assert by_library(whole) == by_walk(whole)


MARKERS = (0x01, 0xC0, 0xD0, 0xD8, 0xD9, 0xDA, 0xDB, 0xE0, 0xE1, 0xE2, 0xED, 0xEF, 0xFE, 0xFF, 0)


def damaged(octets, chance):
    """A copy with a change, mostly at a marker or a length."""
    made = bytearray(octets)
    at = 2 + chance.randrange(len(made) - 2)
    if chance.random() < 0.7:
        at = max(made.find(b"\xff", at), 2) + chance.choice((0, 1, 2, 3, 3, 4, 10))
    at = min(at, len(made) - 1)
    action = chance.randrange(8)
    if action == 0:
        made[at] ^= 1 << chance.randrange(8)
    elif action == 1:
        made[at] = chance.choice(MARKERS)
    elif action == 2:
        made[at:at] = made[at : at + chance.choice((1, 2, 4, 30))]
    elif action == 3:
        del made[at : at + chance.choice((1, 2, 4, 12))]
    elif action == 4:
        del made[at:]
    elif action == 5:
        made[at:at] = b"\xff" * chance.choice((1, 2, 5))
    elif action == 6:
        made[at:at] = struct.pack(">BBH", 0xFF, chance.choice(MARKERS), chance.choice((0, 1, 2, 3, 8, 300)))
    else:
        made[at:] = chance.choice(HEADS)[2:]
    made[:2] = b"\xff\xd8"
    return bytes(made)


def test_damaged_heads():
    """100,000 of them, of which many are whole heads of something else."""
    chance, whole = random.Random(1), 0
    for number in range(100_000):
        octets = damaged(HEADS[number % len(HEADS)], chance)
        found = by_library(octets)
        assert found == by_walk(octets), octets.hex()
        whole += isinstance(found[-1], tuple)
    assert 30_000 < whole < 90_000


DATA = st.one_of(st.binary(max_size=8), st.sampled_from([it[4:] for pieces in PIECES.values() for it in pieces if it[:1] == b"\xff"]))
PARTS = st.one_of(
    st.builds(segment, st.sampled_from([it for it in MARKERS if it > 0xD9 or it == 0xC0]), DATA),
    st.builds(lambda it: bytes((0xFF, it)), st.sampled_from(MARKERS)),
    st.sampled_from([it for pieces in PIECES.values() for it in pieces]),
    st.sampled_from([b"\xff", b"\0", b"x"]),
)


@given(st.lists(PARTS, max_size=8), st.sampled_from([*ENDS.values()]), st.integers(0, 20))
def test_heads_of_any_parts(parts, end, less):
    whole = b"\xff\xd8" + b"".join(parts) + end
    octets = whole[: max(len(whole) - less, 2)]
    assert by_library(octets) == by_walk(octets)


@given(st.lists(PARTS, min_size=1, max_size=6), st.integers(0, 200_000))
def test_a_head_that_is_longer_than_the_first_bytes(parts, before):
    """What is found does not depend on how much of the file is read at once."""
    filler = segment(0xFE, bytes(30_000)) * (before // 30_004) + segment(0xFE, bytes(before % 30_004))
    octets = b"\xff\xd8" + parts[0] + filler + b"".join(parts[1:]) + ENDS["a scan"]
    assert by_library(octets) == by_walk(octets)


def test_further_pictures():
    """Each picture of an index is read in the same way."""
    for pieces in PIECES.values():
        further = jpeg(*pieces)
        octets = mpf(app1(B), further)
        start = octets.index(further)
        there = Walk(octets, start, "MPF picture 2").blocks
        found = jpeg_.read(io.BytesIO(octets))
        assert found.blocks[1:] == there.blocks and found.not_read == there.not_read, pieces


def test_what_ends_as_a_picture_does():
    """A marker at the end of a file that isn't the end mark, an end mark behind a picture without a scan, and bytes after odd resources."""
    for octets, what in (
        (SMALL_JPEG[:-2] + b"\xff\xe1", "metadata segment behind the first scan"),
        (b"\xff\xd8" + app1(A) + b"\xff\xd9" + b"trailer\xff\xd9", "trailer of 9 bytes"),
    ):
        assert [it.what for it in jpeg_.read(io.BytesIO(octets)).not_read] == [what]
    octets = jpeg(app13(resource(0x0404, b"odd") + b"rest"))
    assert jpeg_.read(io.BytesIO(octets)).not_read[0].digest == hashlib.sha256(b"rest").hexdigest()


# Blocks that are written anew, or split, or refused, beside those above.
COMPARED = [
    *(
        pieces
        for name, pieces in PIECES.items()
        if name in ("Exif", "Exif in two pieces", "two blocks of Exif", "IPTC", "IPTC in two pieces", "XMP", "tables")
    ),
    [app1(turned(A)), app13(resource(0x0404, K + b"\0"))],
    [app13(resource(0x0404, K)), app1(A)],
    [app1(B), app1(A)],
    [app1(turned(A)), app1(turned(B))],
    [app13(resource(0x0404, K + b"\0"), resource(0x0404, L))],
    [app1(A[:-1])],
    [app1(A), app13(resource(0x0404, K + b"x"))],
    [app1(A), app13(resource(0x0404, K) + b"rest")],
]


def test_pictures_are_the_same_exactly_if_the_library_says_so(folder):
    """Of Exif and IPTC: the verdicts on digests, beside the one call for two pictures."""
    sides = []
    for number, pieces in enumerate(COMPARED):
        path = folder / f"{number}.jpg"
        path.write_bytes(jpeg(*pieces))
        judged = judge.judge_all(extraction.blocks_of_file(os.fsencode(path)))
        sides.append((path.read_bytes(), {kind: side_of([it for it in judged if it.kind == kind]) for kind in (EXIF, IPTC)}))
    met = set()
    for (one, first), (other, second) in itertools.product(sides, repeat=2):
        found = {it.result for it in verdicts.verdicts(first, second, (EXIF, IPTC))}
        try:
            expected = exifnorm.jpeg_same_blocks(one, other)
        except exifnorm.PictureRefused:
            assert found - {Result.ABSENT, Result.SAME, Result.DIFFERENT}, "a block is refused"
            expected = None
        else:
            if not isinstance(expected, bool):  # then what isn't read may have what one has more
                expected = "not all read"
            else:
                assert found <= {Result.ABSENT, Result.SAME} if expected else Result.DIFFERENT in found
        met.add(expected)
    assert met == {True, False, None, "not all read"}


def test_segments_of_a_coded_picture():
    """A digest of the coded picture has each segment that says how to decode it, and none of metadata."""
    plain = coded_picture.followed(io.BytesIO(SMALL_JPEG), Budget())[0]
    for name, pieces in PIECES.items():
        with_pieces = jpeg(*pieces)
        if name == "markers alone":
            with pytest.raises(Broken):  # a second start of a picture
                coded_picture.followed(io.BytesIO(with_pieces), Budget())[0]
        else:
            same = name not in ("tables", "others of applications")  # the colour transform of Adobe counts
            assert (coded_picture.followed(io.BytesIO(with_pieces), Budget())[0] == plain) is same, name
    for octets in (SMALL_JPEG[:30], SMALL_JPEG[:2] + b"\xff\xd9", SMALL_JPEG[:3] + b"\0"):
        with pytest.raises(Broken):
            coded_picture.followed(io.BytesIO(octets), Budget())[0]


# ---- what a picture costs


class Counted:
    """The library, whose calls for JPEGs are counted."""

    def __init__(self):
        self.right, self.calls = exifnorm._library.library(), []

    def jpeg_parts(self, octets, most):
        self.calls.append(("parts", len(octets)))
        return self.right.jpeg_parts(octets, most)

    def jpeg_blocks(self, octets):
        self.calls.append(("blocks", len(octets)))
        return self.right.jpeg_blocks(octets)

    def photoshop_resources(self, octets, most):
        self.calls.append(("resources", len(octets)))
        return self.right.photoshop_resources(octets, most)


@pytest.fixture
def counted(monkeypatch):
    """The calls of the library, and the bytes of each read of a file."""
    library, reads, pread = Counted(), [], os.pread

    def counting(number, length, at):
        found = pread(number, length, at)
        reads.append(len(found))
        return found

    monkeypatch.setattr(_jpeg, "library", lambda: library)
    monkeypatch.setattr(os, "pread", counting)
    return library.calls, reads


def test_cost_of_a_small_picture(counted, folder):
    calls, reads = counted
    whole, pieces = jpeg(app1(A), app13(resource(0x0404, K)), app1_xmp(T)), jpeg(app1(A[:8]), app1(A[8:]))
    for octets, number in ((whole, 2), (pieces, 2), (jpeg(app1(A)), 1), (SMALL_JPEG, 1)):
        del calls[:], reads[:]
        (folder / "a.jpg").write_bytes(octets)
        assert extraction.blocks_of_file(os.fsencode(folder / "a.jpg")).problem is None
        assert (reads, len(calls)) == ([len(octets)], number)


def test_cost_of_a_long_picture(counted, folder):
    """The first bytes, the tail with a byte before it, and 64 bytes by which a trailer is known; of a long head each byte is read once."""
    calls, reads = counted
    for size, expected in ((0, 1), (60_000, 1), (150_000, 3), (300_000, 4)):
        del calls[:], reads[:]
        filler = [segment(0xFE, bytes(50_000 - 4))] * (size // 50_000) + [segment(0xFE, bytes(size % 50_000))]
        octets = jpeg(*filler, app1(A), base=SMALL_JPEG[:-2] + b"\x11" * 4_000_000 + SMALL_JPEG[-2:])
        (folder / "a.jpg").write_bytes(octets)
        assert [it.data for it in extraction.blocks_of_file(os.fsencode(folder / "a.jpg")).blocks] == [A]
        assert [it for it in calls if it[0] == "parts"] == [("parts", 65_536 << number) for number in range(expected)]
        assert sum(reads) == (65_536 << expected - 1) + 65_536 + 1 + 64


def test_cost_of_further_pictures(counted):
    calls, _ = counted
    octets = mpf(app1(A), jpeg(app1(B)), jpeg(app1(B)), jpeg(app1(B)))
    stream = Counting(octets)
    assert len(jpeg_.read(stream).blocks) == 4
    assert len(calls) == 4 and stream.octets < 5 * len(octets)


# ---- a library that fails


class Failing(Counted):
    def __init__(self, call, outcome):
        super().__init__()
        setattr(self, call, lambda *_: self.fail(outcome))

    @staticmethod
    def fail(outcome):
        if isinstance(outcome, Exception):
            raise outcome
        return outcome


@pytest.mark.parametrize("call, more", [("jpeg_parts", ()), ("photoshop_resources", ()), ("jpeg_blocks", (b"",))])
@pytest.mark.parametrize(
    "outcome", [(7, 0, 0, b""), (2, 7, 0, b""), (5, 0, 0, b"")], ids=["an unknown status", "an unknown cause", "no room"]
)
def test_a_fault_of_the_library_is_none_of_the_picture(monkeypatch, folder, call, more, outcome):
    path = os.fsencode(folder / "a.jpg")
    (folder / "a.jpg").write_bytes(jpeg(app1(A[:8]), app1(A[8:]), app13(resource(0x0404, K))))
    library = Failing(call, outcome + more)
    monkeypatch.setattr(_jpeg, "library", lambda: library)
    found = looking.look(FoundFile(path, os.fsencode(folder), None), How(), Session())
    assert (found.problem, found.blocks) == ("InternalError", ())


def test_a_missing_library_is_no_unreadable_picture(monkeypatch, folder):
    path = os.fsencode(folder / "a.jpg")
    (folder / "a.jpg").write_bytes(jpeg(app1(A)))
    library = Failing("jpeg_parts", exifnorm.LibraryMissing("it is gone"))
    monkeypatch.setattr(_jpeg, "library", lambda: library)
    with pytest.raises(exifnorm.LibraryMissing):
        extraction.blocks_of_file(path)
