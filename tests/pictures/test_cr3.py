"""CR3: the structures of Canon as one Exif block, XMP, tracks, what is left, and pairs that are the same or never are.

ExifTool and exiv2 read the same tags of the files that are made here. What one block of all structures means is shown by a JPEG that has
the same fields.
"""

import io
import os
import struct

import pytest
from all_readers import Format, check_limit
from beside import blocks_of_exiftool, tags_of_exiftool
from made_blocks import ASCII, LONG, SHORT, UNDEFINED
from made_boxes import CANON, box, cr3
from made_files import T_OTHERWISE, app1, jpeg, tiff, title
from pairs import DIFFERENT, SAME, UNDECIDED
from studio import needs, run

from exifnorm_pictures.extract import extraction, structure
from exifnorm_pictures.extract.formats import cr3 as cr3_, jpeg as jpeg_
from exifnorm_pictures.judge import judge
from exifnorm_pictures.model import budgets
from exifnorm_pictures.model.found import LeftToOthers

T, U = title("one"), title("two")
MAIN = [(0x010F, ASCII, b"Canon\0"), (0x0112, SHORT, 6), (0x013B, ASCII, b"Lena Brandt\0")]
INTEROP = (0xA005, LONG, [(0x0001, ASCII, b"R98\0")])
EXIF = [(0x8827, SHORT, 200), (0x9003, ASCII, b"2026:11:26 10:00:00\0"), INTEROP, (0xA431, ASCII, b"0123456789\0")]
GPS = [(0x0000, 1, b"\2\3\0\0"), (0x001D, ASCII, b"2026:11:26\0")]
NOTES = [(0x0006, ASCII, b"Canon EOS R6\0"), (0x0010, LONG, 7)]
# A MakerNote: its values after its directory; before it; two directories; and a value that isn't there
NOTE = b"II*\0\x08\0\0\0" + struct.pack("<HHHIIHHIII", 2, 6, ASCII, 13, 38, 16, LONG, 1, 7, 0) + b"Canon EOS R6\0"
MOVED = tiff(NOTES, order="<")
TWO = tiff(NOTES, NOTES, order="<")
CUT = NOTE[:-1]
NOTED = (0x927C, UNDEFINED, NOTE)


def structures(main=MAIN, exif=EXIF, note=NOTE, gps=GPS, order="<", filling=b""):
    """Canon's boxes with these directories; None for a box that isn't there."""
    made = [tiff(it, order=order) if isinstance(it, list) else it for it in (main, exif)]
    made += [note, tiff(gps, order=order) if isinstance(gps, list) else gps]
    return [box(b"CMT%d" % number, it + filling) for number, it in enumerate(made, 1) if it is not None]


def as_jpeg(main=MAIN, exif=EXIF, note=NOTED, gps=GPS, packet=None):
    """A JPEG with the same fields in one block."""
    below = [(0x8769, LONG, sorted([*exif, *[note] * bool(note)]))] + [(0x8825, LONG, gps)] * bool(gps)
    return jpeg(app1(tiff(sorted([*main, *below], key=lambda it: it[0]))))


WHOLE = cr3(*structures(), packet=T)
EMPTY = b"II*\0\x08\0\0\0" + bytes(6)

# Structures that are one block, each with a JPEG of the same fields
ONE = {
    "all": (cr3(*structures()), as_jpeg()),
    "the other byte order": (cr3(*structures(order=">")), as_jpeg()),
    "filling": (cr3(*structures(filling=bytes(40))), as_jpeg()),
    "a MakerNote that ends with a header": (cr3(*structures(note=MOVED + b"II*\0" + bytes(8))), as_jpeg()),
    "a MakerNote with other bytes": (cr3(*structures(note=MOVED + b"more")), as_jpeg(note=(0x927C, UNDEFINED, MOVED + b"more"))),
    "a MakerNote of two directories": (cr3(*structures(note=TWO)), as_jpeg(note=(0x927C, UNDEFINED, TWO))),
    "a MakerNote without a directory": (cr3(*structures(note=b"II*\0\xff\0\0\0")), as_jpeg(note=(0x927C, UNDEFINED, b"II*\0\xff\0\0\0"))),
    "a MakerNote without a value": (cr3(*structures(note=CUT)), as_jpeg(note=(0x927C, UNDEFINED, CUT))),
    "another order of boxes": (cr3(*structures()[::-1]), as_jpeg()),
    "no GPS": (cr3(*structures(gps=None)), as_jpeg(gps=None)),
    "GPS of zeros": (cr3(*structures(gps=bytes(40))), as_jpeg(gps=None)),
    "an empty GPS directory": (cr3(*structures(gps=EMPTY)), as_jpeg(gps=None)),
    "no MakerNote": (cr3(*structures(note=None)), as_jpeg(note=None)),
    "no interoperability": (cr3(*structures(exif=EXIF[:2])), as_jpeg(exif=EXIF[:2])),
}

FOLLOWED = tiff(MAIN, MAIN, order="<")
# Structures that can't be one block: the names of their blocks
SEVERAL = {
    "two byte orders": (structures()[:1] + structures(order=">")[1:], ["Exif", "Exif of CMT2", "Exif of CMT4", "Exif of the MakerNote"]),
    "a further directory": (structures(main=FOLLOWED), ["Exif", "Exif of CMT2", "Exif of CMT4", "Exif of the MakerNote"]),
    "a further directory of Exif": (structures(exif=FOLLOWED, gps=None, note=None), ["Exif", "Exif of CMT2"]),
    "a pointer of its own": (structures(main=[*MAIN, (0x8769, LONG, EXIF)], gps=None, note=None), ["Exif", "Exif of CMT2"]),
    "a MakerNote of its own": (structures(exif=[NOTED, *EXIF], gps=None), ["Exif", "Exif of CMT2", "Exif of the MakerNote"]),
    "no Exif": (structures(exif=None), ["Exif", "Exif of CMT4", "Exif of the MakerNote"]),
    "a short MakerNote": (structures(note=b"note", gps=None), ["Exif", "Exif of CMT2", "Exif of the MakerNote"]),
    "a directory out of its box": (structures(exif=b"II*\0\x80\0\0\0" + bytes(9), gps=None, note=None), ["Exif", "Exif of CMT2"]),
    "a directory in the next box": (
        structures(exif=b"II*\0\x09\0\0\0", gps=b"II*\0" + EMPTY, note=None),
        ["Exif", "Exif of CMT2", "Exif of CMT4"],
    ),
    "no header": (structures(main=b"IIRO" + tiff(MAIN)[4:], gps=None, exif=None, note=None), ["Exif"]),
}

LEFT = {
    "the track": (WHOLE, [("track CTMD", b"onetwo")]),
    "short offsets": (cr3(*structures(), packet=T, long=False), [("track CTMD", b"onetwo")]),
    "samples of one length": (cr3(*structures(), packet=T, samples=(b"one", b"two"), length=3), [("track CTMD", b"onetwo")]),
    "missing samples": (cr3(*structures(), packet=T, missing=1), [("track CTMD, whose samples aren't all found", None)]),
    "another kind of track": (cr3(*structures(), packet=T).replace(b"CTMD", b"\xffTM "), [("track ff544d20", b"onetwo")]),
    "boxes": (
        cr3(
            *structures(), box(b"new ", b"a"), packet=T, in_moov=box(b"udta", b"b"), in_track=box(b"meta", b"c"), behind=box(b"last", b"d")
        ),
        [
            ("new box of Canon", b"a"),
            ("meta box in a track", b"c"),
            ("track CTMD", b"onetwo"),
            ("udta box in moov", b"b"),
            ("last box", b"d"),
        ],
    ),
    "a trailer": (cr3(*structures(), packet=T, behind=b"more"), [("trailer of 4 bytes", b"more"), ("track CTMD", b"onetwo")]),
    "a second box of Canon": (
        cr3(*structures(), packet=T, in_moov=box(b"uuid", CANON, b"a")),
        [("track CTMD", b"onetwo"), (f"uuid box {CANON.hex()} in moov", b"a")],
    ),
}
BROKEN = {
    "no moov": (box(b"ftyp", b"crx ") + box(b"mdat", b"x"), "the file has no picture"),
    "two moov": (WHOLE + WHOLE[24 : 24 + struct.unpack_from(">I", WHOLE, 24)[0]], "the file has two moov boxes"),
    "no CMT1": (cr3(*structures()[1:]), "the file has no CMT1 box"),
    "CMT1 twice": (cr3(*structures()[:1] * 2), "a second CMT1 box"),
    "no kind of a track": (WHOLE.replace(b"stsd", b"free", 1), "a track has no stsd box"),
    "no samples": (WHOLE.replace(b"stsz", b"free"), "a track has no stsz box"),
    "no chunks": (WHOLE.replace(b"co64", b"free"), "a track has no stco box"),
    "a box of a track twice": (cr3(*structures(), in_track=box(b"stss") * 2), "a second stss box in a track"),
    "a short list": (
        WHOLE.replace(b"co64" + bytes(7) + b"\2", b"co64" + bytes(7) + b"\3").replace(
            b"stsz" + bytes(11) + b"\2", b"stsz" + bytes(11) + b"\3"
        ),
        "the box of chunks is cut",
    ),
}


def found_in(octets):
    return cr3_.read(io.BytesIO(octets))


@pytest.mark.parametrize("name", ONE)
def test_one_block(name):
    """All structures are one block, which means the same as that of a JPEG with these fields."""
    octets, other = ONE[name]
    found = found_in(octets)
    assert [(it.kind, it.name) for it in found.blocks] == [("exif", "Exif")]
    assert found.blocks[0].where.startswith("boxes CMT1, CMT2")
    digests = [judge.judge_all(it)[0].digest for it in (found, jpeg_.read(io.BytesIO(other)))]
    assert digests[0] and digests[0] == digests[1]


@pytest.mark.parametrize("name", SEVERAL)
def test_several_blocks(name):
    boxes, names = SEVERAL[name]
    found = found_in(cr3(*boxes))
    assert sorted((it.name, it.data) for it in found.blocks) == sorted(zip(names, [boxes[number][8:] for number in _in_order(boxes)]))


def _in_order(boxes):
    """The positions of the boxes in the order of their blocks' names: CMT1, CMT2, CMT4, CMT3."""
    return sorted(range(len(boxes)), key=lambda it: (b"CMT1", b"CMT2", b"CMT4", b"CMT3").index(boxes[it][4:8]))


def test_a_value_out_of_its_box():
    """It isn't taken out of the next box: the engine refuses the block."""
    main = structures()[0].replace(struct.pack("<HHI", 0x013B, ASCII, 12), struct.pack("<HHI", 0x013B, ASCII, 99))
    found = found_in(cr3(main, *structures()[1:]))
    assert [(it.name, judge.judge_all(found)[0].cause) for it in found.blocks] == [("Exif", "ValueOutside")]


def test_room_for_xmp():
    assert [it.name for it in found_in(cr3(*structures(), packet=bytes(65536))).blocks] == ["Exif"]


def test_chunks_of_several_samples():
    """They aren't found, so such a file is never the same as another."""
    octets = WHOLE.replace(struct.pack(">4s4xI", b"co64", 2), struct.pack(">4s4xI", b"co64", 1))
    assert [tuple(it) for it in found_in(octets).not_read] == [("track CTMD, whose samples aren't all found", "")]


@needs("exiftool")
def test_films(tmp_path):
    """A film of Canon has the same structure. It is refused, and so is a damaged CR3, of which ExifTool extracts only the first block."""
    film = cr3(*structures(), version=box(b"CNCV", b"CanonCRM0001/00.10.00/00.00.00"))
    with pytest.raises(LeftToOthers):
        found_in(film)
    for octets in (film, BROKEN["CMT1 twice"][0]):
        (tmp_path / "a.crm").write_bytes(octets)
        found = extraction.blocks_of_file(os.fsencode(tmp_path / "a.crm"))
        assert (found.problem, found.blocks) == ("SeveralBlocks", [])


@needs("exiftool")
def test_exiftools_tags(tmp_path):
    """ExifTool reads the same tags of the CR3 and of the one block, in the same groups, and the same XMP."""
    (tmp_path / "a.cr3").write_bytes(WHOLE)
    found = found_in(WHOLE).blocks
    (tmp_path / "b.exif").write_bytes(found[0].data)
    tags = tags_of_exiftool(tmp_path)
    exif = {name: value for name, value in tags["a.cr3"].items() if not name.startswith("XMP")}
    assert exif == {name: value for name, value in tags["b.exif"].items() if name != "ExifIFD:MakerNoteCanon"}
    assert {"IFD0:Artist", "ExifIFD:ISO", "GPS:GPSDateStamp", "InteropIFD:InteropIndex"} <= exif.keys()
    (tmp_path / "b.exif").unlink()
    assert [data for kind, data in blocks_of_exiftool(tmp_path)["a.cr3"] if kind == "xmp"] == [found[1].data]


@needs("exiv2")
def test_exiv2(tmp_path):
    (tmp_path / "a.cr3").write_bytes(WHOLE)
    said = [
        run(["exiv2", "-q", "-K", it, "-Pv", "a.cr3"], tmp_path).stdout.decode().strip()
        for it in ("Exif.Image.Artist", "Exif.Photo.ISOSpeedRatings")
    ]
    assert said == ["Lena Brandt", "200"]


@pytest.mark.parametrize("what, spent", [(budgets.BOXES, 40), (budgets.EXTENTS, 2), (budgets.BOX_BYTES, None)])
def test_limits(what, spent):
    check_limit(cr3_.read, WHOLE, what, spent)


def values_are_of(block, octets):
    """Whether a block is in a file, or each long value of a block that was laid out anew."""
    places = [(it.last, it.last + it.size) for one in structure.Walk(block).directories for it in one.entries if it.size > 4]
    return block in octets or all(block[start:end] in octets for start, end in places)


PAIRS = {
    "another layout": (
        WHOLE,
        cr3(*structures(order=">", filling=b"")[::-1], packet=T_OTHERWISE, long=False, behind=box(b"free", b"x")),
        UNDECIDED,  # whether its MakerNote reads the same: ExifTool isn't asked
    ),
    "other Exif": (WHOLE, cr3(*structures(exif=[(0x8827, SHORT, 400), *EXIF[1:]]), packet=T), DIFFERENT),
    "other GPS": (WHOLE, cr3(*structures(gps=GPS[:1]), packet=T), DIFFERENT),
    "another MakerNote": (WHOLE, cr3(*structures(note=NOTE + b"x"), packet=T), DIFFERENT),
    "other XMP": (WHOLE, cr3(*structures(), packet=U), DIFFERENT),
    "another track": (WHOLE, cr3(*structures(), packet=T, samples=(b"one", b"TWO")), UNDECIDED),
    "missing samples": (LEFT["missing samples"][0], cr3(*structures(), packet=T, missing=1, behind=box(b"free")), UNDECIDED),
    "several blocks": (cr3(*SEVERAL["no Exif"][0]), cr3(*SEVERAL["no Exif"][0], long=False), SAME),
    "one and several blocks": (cr3(*structures(exif=None, note=None)), cr3(*SEVERAL["no Exif"][0]), DIFFERENT),
}


KEPT = [("exif", "Exif", found_in(WHOLE).blocks[0].data), ("xmp", "XMP", T)]
FORMAT = Format(
    read=cr3_.read,
    type=lambda name: "CR3",
    blocks={},
    left=LEFT,
    kept=KEPT,
    broken=BROKEN,
    pairs=PAIRS,
    whole=WHOLE,
    is_of=values_are_of,
    short=WHOLE,
    count=300,
    least=20,
)
