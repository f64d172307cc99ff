"""Raw pictures: made files for each private entry that a reader treats apart, in pairs that must be the same and that must not, and beside
ExifTool."""

import json
import re
import struct

import pytest
from made_blocks import LONG, SHORT, UNDEFINED, ASCII
from made_files import Placed, raf, small_tiff, tiff
from made_raw import (
    BYTE,
    MAKERS,
    STRIP,
    LENGTH,
    SUB_IFDS,
    XMP,
    EXIF,
    arw,
    camera_profile,
    dng,
    entries,
    fuji,
    inner,
    orf,
    rw2,
    sony,
    srw,
    whole_raf,
)
from pairs import DIFFERENT, SAME, UNDECIDED, Pair, of_pairs
from studio import needs, run, write
from exifnorm_pictures.extract import extraction


NOT_SAME = -1  # different, or not decided: ExifTool finds less in a damaged file


def everywhere():
    """The parts of a raw picture may be anywhere in it, and what a field has counts. A MakerNote, as a NEF has here, may lead elsewhere then."""
    for name, make in MAKERS.items():
        moved = UNDECIDED if name == "nef" else SAME
        yield Pair(f"{name}: parts in other places", make(), make(gap=64), moved)
        yield Pair(f"{name}: another artist", make(b"Anna"), make(b"Otto"), DIFFERENT)
        if name != "rw2":
            yield Pair(f"{name}: another trailer", make(behind=b"Anna"), make(behind=b"Otto"), UNDECIDED)
            yield Pair(f"{name}: the same trailer", make(behind=b"Anna"), make(gap=64, behind=b"Anna"), moved)
    yield Pair("srw: the same bytes", srw(), srw(), UNDECIDED)
    yield Pair("srw: another artist", srw(), srw(b"Otto"), DIFFERENT)
    yield Pair("dng: both byte orders", dng(), dng(order="<"), SAME)
    for head in (b"IIRS", b"MMOR"):
        yield Pair(f"orf: {head.decode()}", orf(), orf(head=head), SAME)


def of_dng():
    """Camera profiles, the original raw file, and private data, which a DNG has as a value."""
    for order in "<>":
        one, other = (dng(b"Anna", (0xC6F5, LONG, Placed(camera_profile(name, order)))) for name in (b"Portrait", b"Scenery!"))
        yield Pair(f"a camera profile {order}", one, other, DIFFERENT)
        yield Pair(
            f"a camera profile in another place {order}",
            one,
            dng(b"Anna", (0xC6F5, LONG, Placed(camera_profile(order=order))), gap=64),
            SAME,
        )
    without = dng()
    yield Pair("a camera profile and none", dng(b"Anna", (0xC6F5, LONG, Placed(camera_profile()))), without, DIFFERENT)
    for wrong in ((0xC6F5, LONG, 0x7FFFFFFF), (0xC6F5, LONG, Placed(b"no profile")), (0xC6F5, SHORT, 8), (0xC6F5, ASCII, b"abcd\0")):
        # only ExifTool would read such a file
        yield Pair(f"a wrong list of camera profiles {wrong[1:]}", dng(b"Anna", wrong), dng(b"Anna", wrong), UNDECIDED)
        yield Pair(f"a wrong list of camera profiles {wrong[1:]}, moved", dng(b"Anna", wrong), dng(b"Anna", wrong, gap=64), NOT_SAME)
    one, other = (dng(b"Anna", (0xC68C, UNDEFINED, name * 5)) for name in (b"Raw file A", b"Raw file B"))
    yield Pair("the original raw file", one, other, UNDECIDED)
    yield Pair("the original raw file in another place", one, dng(b"Anna", (0xC68C, UNDEFINED, b"Raw file A" * 5), gap=64), SAME)
    one, other = (dng(b"Anna", (0xC634, BYTE, b"Adobe\0" + name)) for name in (b"MakN....A", b"MakN....B"))
    yield Pair("private data", one, other, DIFFERENT)
    for tag in (0x8290, 0x888A, 0xFE00):
        it = dng(b"Anna", (tag, LONG, [(1, SHORT, 1)]))
        yield Pair(f"the pointer {tag:04x}", it, it, UNDECIDED)


def of_sony():
    """Sony's private directory: its encrypted part may be anywhere; what its program added isn't read."""
    yield Pair("Sony's secret", arw(), arw(private=sony(secret=b"\xab" * 40)), UNDECIDED)
    yield Pair("Sony's key", arw(), arw(private=[*sony()[:2], (0x7221, LONG, 54321)]), UNDECIDED)
    yield Pair(
        "Sony's value", arw(private=sony((0x7310, UNDEFINED, b"levels A"))), arw(private=sony((0x7310, UNDEFINED, b"levels B"))), UNDECIDED
    )
    same = sony((0x7310, UNDEFINED, b"levels A"))
    yield Pair("Sony's value in another place", arw(private=same), arw(private=same, gap=64), SAME)
    for number, tag in enumerate((0x7240, 0x7241)):
        added = arw(private=sony((tag, LONG, [(1, SHORT, number)])))
        yield Pair(f"Sony's directory {tag:04x}", added, added, UNDECIDED)
    for name, wrong in {
        "no length": [sony()[0]],
        "no offset": sony()[1:],
        "two offsets": [sony()[0], *sony()],
        "an end after the file": [sony()[0], (0x7201, LONG, 100_000)],
        "an offset of another type": [(0x7200, SHORT, 8), sony()[1]],
    }.items():
        yield Pair(f"Sony's directory with {name}", arw(private=wrong), arw(private=wrong), UNDECIDED)
    nowhere = tiff(entries(b"SONY", b"Anna", (0xC634, LONG, 0x7FFFFFFF)), order="<")
    yield Pair("Sony's directory outside the file", nowhere, nowhere, UNDECIDED)
    four = tiff(entries(b"SONY", b"Anna", (0xC634, BYTE, Placed(bytes(6)))), order="<")
    yield Pair("Sony's directory without entries, by four bytes", four, four, SAME)


def of_panasonic():
    """The JPEG in an RW2 has most of its metadata. CameraIFD has a tag that TIFF uses for free space."""
    yield Pair("XMP of the JPEG", rw2(), rw2(inside=inner(b"Anna", "other")), DIFFERENT)
    for wrong in (b"no JPEG", b"\xff\0" + inner(b"Anna")[2:]):
        yield Pair(f"no JPEG {len(wrong)}", rw2(), rw2(inside=wrong), NOT_SAME)
    one, other = (rw2(b"Anna", (0x0127, UNDEFINED, inner(name))) for name in (b"Anna", b"Otto"))
    yield Pair("the second JPEG", one, other, DIFFERENT)
    one, other = (rw2(b"Anna", (0x0120, UNDEFINED, small_tiff((0x1001, SHORT, it)))) for it in (1, 2))
    yield Pair("CameraIFD", one, other, UNDECIDED)
    yield Pair("CameraIFD in another place", one, rw2(b"Anna", (0x0120, UNDEFINED, small_tiff((0x1001, SHORT, 1))), gap=64), SAME)
    yield Pair("Multishot", rw2(b"Anna", (0x0121, LONG, 0)), rw2(b"Anna", (0x0121, LONG, 65536)), DIFFERENT)
    yield Pair("pixels", rw2(), rw2(pixels=b"\x78" * 60), SAME)


def of_fujifilm():
    """Each part of a RAF is read, or compared by its bytes."""
    yield Pair("XMP of the RAF", whole_raf(), raf(inner(b"Anna", "other"), struct.pack(">IHHI", 1, 0x0100, 4, 7), fuji()), DIFFERENT)
    yield Pair("Fujifilm's directory", whole_raf(), whole_raf(directory=struct.pack(">IHHI", 1, 0x0100, 4, 8)), UNDECIDED)
    yield Pair("Fujifilm's TIFF", whole_raf(), whole_raf(pixels=fuji((0xF00B, LONG, 5))), DIFFERENT)
    yield Pair("pixels of a RAF", whole_raf(), whole_raf(pixels=fuji(pixels=b"\x78" * 60)), SAME)
    yield Pair("pixels of an old RAF", whole_raf(pixels=b"\x77" * 50), whole_raf(pixels=b"\x78" * 60), SAME)
    yield Pair("a header of several pictures", whole_raf(several=8), whole_raf(several=8), UNDECIDED)
    whole = whole_raf()
    yield Pair("a RAF with a JPEG that doesn't begin so", whole, whole.replace(b"\xff\xd8", b"\xff\0", 1), NOT_SAME)
    for name, place, number in (("no JPEG", 0x58, 0), ("a JPEG that is cut", 0x58, 1 << 20), ("a directory that is cut", 0x60, 1 << 20)):
        wrong = bytearray(whole)
        struct.pack_into(">I", wrong, place, number)
        yield Pair(f"a RAF with {name}", whole, bytes(wrong), NOT_SAME)


def with_another_type(octets, order, tag, kind, other):
    """A file in which the entry of a tag has another type."""
    at = octets.index(struct.pack(order + "HH", tag, kind))
    return octets[: at + 2] + struct.pack(order + "H", other) + octets[at + 4 :]


def of_damaged_entries():
    """An entry that is left out of its block, with a type that is none for offsets: ExifTool then shows no tag after it."""
    for name, octets, tag in (("rw2", rw2(), 0x0118), ("raf", whole_raf(), 0xF007), ("raf", whole_raf(), 0xF008), ("arw", arw(), 0xC634)):
        for other in (2, 9, 11, 0xFF04):
            yield Pair(f"{name}: tag {tag:04x} of type {other}", octets, with_another_type(octets, "<", tag, LONG, other), NOT_SAME)


@of_pairs(of_damaged_entries, everywhere, of_dng, of_sony, of_panasonic, of_fujifilm)
def test_pair(pair, compared):
    status, objects = compared(pair.before, pair.after)
    assert status == pair.status if pair.status != NOT_SAME else status != SAME, objects


# What leads to other parts of a file, and is no field
LEFT_OUT = {0x002E, STRIP, LENGTH, 0x0118, 0x0120, 0x0127, SUB_IFDS, XMP, EXIF, 0xA010, 0xC634, 0xC68C, 0xC6F5, 0xF000, 0xF007, 0xF008}
GROUPS = re.compile(r"IFD\d+|SubIFD\d*|ExifIFD|ProfileIFD\d*|PanasonicRaw|FujiIFD|FujiSubIFD")


def tags_of(path):
    """The tags of Exif that ExifTool shows of a file: the number and the value of each."""
    said = run(["exiftool", "-config", "", "-q", "-q", "-m", "-n", "-a", "-u", "-ee", "-G1", "-D", "-json", path], path.parent).stdout
    (found,) = json.loads(said)
    tags = [(it["id"], str(it["val"])) for key, it in found.items() if isinstance(it, dict) and GROUPS.match(key)]
    return {(number, value) for number, value in tags if isinstance(number, int) and number not in LEFT_OUT}


@needs("exiftool")
@pytest.mark.parametrize("kind", [*MAKERS, "srw", "profile"])
def test_beside_exiftool(kind, tmp_path):
    """Each tag of Exif that ExifTool shows of a file, it also shows of one of the blocks."""
    octets = {**MAKERS, "srw": srw, "profile": lambda: dng(b"Anna", (0xC6F5, LONG, Placed(camera_profile())))}[kind]()
    name = tmp_path / f"picture.{'dng' if kind == 'profile' else kind}"
    write(name, octets)
    blocks = extraction.blocks_of_file(bytes(name))
    assert (blocks.problem, blocks.extractor, blocks.type) == (None, "own", name.suffix[1:].upper())
    shown = set()
    for number, it in enumerate(blocks.of_kind("exif")):
        write(tmp_path / f"{number}.tif", it.data)
        shown |= tags_of(tmp_path / f"{number}.tif")
    expected = tags_of(name)
    assert len(expected) >= 4 and expected <= shown, (expected - shown, shown)


@needs("exiftool")
def test_numbers_of_head(tmp_path):
    """A file that only its first bytes or its first tag show to be raw is read in the same way under any name."""
    for kind in ("dng", "cr2", "orf", "rw2", "raf"):
        found = []
        for name in (f"a.{kind}", "a.tif"):
            write(tmp_path / name, MAKERS[kind]())
            blocks = extraction.blocks_of_file(bytes(tmp_path / name))
            found.append((blocks.type, blocks.blocks, blocks.not_read))
        assert found[0] == found[1], kind
