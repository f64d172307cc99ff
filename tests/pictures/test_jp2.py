"""JPEG 2000: the blocks, what is left, what is broken, and pairs that are the same or never are. ExifTool and exiv2 read the same of the
made files."""

import hashlib
import io

from all_readers import Format, check_limit
from beside import blocks_of_exiftool, makers_of_exiv2
from made_boxes import SMALL_J2C, XMP_UUID, box, jp2, uuid, wide
from made_files import T_OTHERWISE, app1, app1_xmp, app13, exif, iim, jpeg, page, resource, tiff, title, turned
from pairs import DIFFERENT, SAME, UNDECIDED
from studio import needs, put

from exifnorm_pictures.extract.formats import jp2 as jp2_
from exifnorm_pictures.model import budgets
from exifnorm_pictures.model.found import FEW

A, B, K, L, T, U = exif(b"Abc"), exif(b"Xyz"), iim(b"one"), iim(b"four"), title("one"), title("two")
JPG_TIFF_EXIF = b"JpgTiffExif->JP2".hex()
PHOTOSHOPS_EXIF, PHOTOSHOPS_IPTC = "0537cdab9d0c4431a72afa561f2a113e", "09a14e97c0b442e0bebf36df6f0ce36f"
IPTC, PHOTOSHOP = "33c7a4d2b81d4723a0baf1a3e097ad38", "2c4c0100850440b9a03e562148d6dfeb"
GEOTIFF = "b14bf8bd083d4b43a5ae8cd7d5a6ce03"
SETTING = "47c92cccd1a14581b90438bb5467713b"
E, I, X = uuid(JPG_TIFF_EXIF, A), uuid(IPTC, K), uuid(XMP_UUID.hex(), T)
ALL = [("exif", "Exif", A), ("iptc", "IPTC", K), ("xmp", "XMP", T)]
GEO = tiff(page((0x87AF, 3, 1)))

READ = {
    "all": (jp2(E, I, X), ALL),
    "after the codestream": (jp2(behind=E + I + X), ALL),
    "long lengths": (jp2(*map(wide, (E, I, X))), ALL),
    "Photoshop's": (jp2(uuid(PHOTOSHOPS_EXIF, A), uuid(PHOTOSHOPS_IPTC, K)), ALL[:2]),
    "Exif before the block": (jp2(uuid(JPG_TIFF_EXIF, b"Exif\0\0" + A)), ALL[:1]),
    "resources": (jp2(uuid(PHOTOSHOP, resource(0x0404, K) + resource(0x0424, T) + resource(0x0422, A))), ALL),
    "in the header": (jp2(in_header=E + I + X), ALL),
    "in a header of a codestream": (jp2(box(b"jpch", E), box(b"jplh", I, box(b"cgrp", X))), ALL),
    "without a length": (jp2(E, I, X, pixels=b"\0\0\0\0jp2c" + SMALL_J2C), ALL),
    "a resolution": (jp2(E, I, X, in_header=box(b"res ", box(b"resc", bytes(10)))), ALL),
    "fragments": (jp2(E, box(b"ftbl", box(b"flst", bytes(2))), I, X, pixels=box(b"mdat", SMALL_J2C)), ALL),
    "settings": (jp2(E, I, X, uuid(SETTING, b"\0\0\0\1")), ALL),
    "nothing": (jp2(), []),
    "bare": (SMALL_J2C, []),
}
XML = jp2(box(b"xml ", T)), ALL[2:]  # which ExifTool doesn't call XMP
LEFT = {
    "other boxes": (
        jp2(E, uuid("00" * 16, b"a"), I, box(b"asoc", b"b"), X, in_header=box(b"new ", b"c")),
        [("new box", b"c"), (f"uuid box {'00' * 16}", b"a"), ("asoc box", b"b")],
    ),
    "other XML": (jp2(E, I, box(b"xml ", b"<gml/>"), X), [("xml box", b"<gml/>")]),
    "long settings": (jp2(E, I, X, uuid(SETTING, b"\0\0\0\0\1")), [(f"uuid box {SETTING}", b"\0\0\0\0\1")]),
    "no GeoTIFF": (jp2(E, I, X, uuid(GEOTIFF, b"GeoTIFF")), [(f"uuid box {GEOTIFF}", b"GeoTIFF")]),
    "a short GeoTIFF": (jp2(E, I, X, uuid(GEOTIFF, b"MM")), [(f"uuid box {GEOTIFF}", b"MM")]),
    "more Exif": (
        jp2(E, I, X, uuid(PHOTOSHOP, resource(0x0423, A))),
        [(f"Photoshop resource 0423 in the uuid box at {len(jp2(E, I, X)) - len(SMALL_J2C) - 8}", A)],
    ),
    "a trailer": (jp2(E, I, X, behind=b"trailer"), [("trailer of 7 bytes", b"trailer")]),
    "zeros": (jp2(E, I, X, behind=bytes(40)), []),
}
DEEP = box(b"jplh", box(b"jplh", box(b"jplh", box(b"jplh", E))))
BROKEN = {
    "no picture": (jp2(E, pixels=b""), "the file ends before its picture"),
    "cut": (jp2(E)[:-1], f"the file ends inside the box at {len(jp2(E)) - len(SMALL_J2C) - 8}"),
    "too deep": (jp2(box(b"jplh", DEEP)), "more than 4 boxes in one another"),
    "a box in a box": (jp2(in_header=b"\0\0\0\x09new "), "the box at 77 has a wrong length"),
    "a box without a length in a box": (jp2(in_header=b"\0\0\0\0new "), "the box at 77 has a wrong length"),
    "GeoTIFF": (jp2(uuid(GEOTIFF, b"MM\0*\0\0\0\x99")), "the file ends inside the 2 bytes at 153"),
}


def test_geotiff():
    """It is a TIFF of its own, and its Exif isn't that of the picture."""
    found = jp2_.read(io.BytesIO(jp2(uuid(GEOTIFF, GEO), E)))
    assert ([it.name for it in found.blocks], found.not_read) == (["Exif of GeoTIFF", "Exif"], [])
    assert b"\x87\xaf\0\3\0\0\0\1\0\1" in found.blocks[0].data
    found = jp2_.read(io.BytesIO(jp2(uuid(GEOTIFF, GEO + b"more"))))
    assert [(it.what, it.digest) for it in found.not_read] == [("trailer of 4 bytes of GeoTIFF", hashlib.sha256(b"more").hexdigest())]


def test_the_greatest_depth():
    assert [it.name for it in jp2_.read(io.BytesIO(jp2(DEEP))).blocks] == ["Exif"]


@needs("exiftool")
def test_exiftools_blocks(tmp_path):
    """ExifTool takes the same blocks out of each of these files, byte for byte."""
    names = [it for it in READ if it not in ("without a length", "bare", "fragments", "in a header of a codestream")]
    put(tmp_path, {f"{name}.jp2": READ[name][0] for name in names})
    found = blocks_of_exiftool(tmp_path)
    for name in names:
        assert sorted(found[f"{name}.jp2"]) == [(kind, data) for kind, _, data in READ[name][1]], name


@needs("exiv2")
def test_exiv2(tmp_path):
    names = ["all", "Exif before the block"]
    put(tmp_path, {name: READ[name][0] for name in names})
    assert makers_of_exiv2(tmp_path) == {it: ["Abc"] for it in names}


def test_limits():
    for what, spent in ((budgets.BOXES, 9), (budgets.BOX_BYTES, len(A + K + T))):
        check_limit(jp2_.read, jp2(E, I, X), what, spent)
    check_limit(jp2_.read, jp2(*[uuid(GEOTIFF, GEO + b"more")] * (FEW + 2)), budgets.NOT_READ, 2)


WHOLE = jp2(E, uuid(PHOTOSHOP, resource(0x0404, L)), I, box(b"xml ", b"<gml/>"), in_header=X, behind=box(b"xml ", U))


PAIRS = {
    "in another order": (
        jp2(E, I, X),
        jp2(uuid(XMP_UUID.hex(), T_OTHERWISE), I, uuid(PHOTOSHOPS_EXIF, turned(A)), behind=box(b"free", b"x")),
        SAME,
    ),
    "beside a JPEG": (jp2(E, I, X), jpeg(app1(A), app13(resource(0x0404, K)), app1_xmp(T)), SAME),
    "bare": (SMALL_J2C, jp2(), SAME),
    "other Exif": (jp2(E), jp2(uuid(JPG_TIFF_EXIF, B)), DIFFERENT),
    "other IPTC": (jp2(I), jp2(uuid(IPTC, L)), DIFFERENT),
    "other XMP": (jp2(X), jp2(uuid(XMP_UUID.hex(), U)), DIFFERENT),
    "other GeoTIFF": (
        jp2(uuid(GEOTIFF, GEO)),
        jp2(uuid(GEOTIFF, GEO.replace(b"\x87\xaf\0\3\0\0\0\1\0\1", b"\x87\xaf\0\3\0\0\0\1\0\2"))),
        DIFFERENT,
    ),
    "GeoTIFF's Exif and the picture's": (jp2(uuid(GEOTIFF, A)), jp2(E), DIFFERENT),
    "other XML": (jp2(E, box(b"xml ", b"<a/>")), jp2(E, box(b"xml ", b"<b/>")), UNDECIDED),
    "the same XML": (jp2(E, box(b"xml ", b"<a/>"), box(b"free")), jp2(E, box(b"xml ", b"<a/>")), SAME),
    "another box": (jp2(E, in_header=box(b"new ", b"a")), jp2(E, in_header=box(b"new ", b"b")), UNDECIDED),
}


FORMAT = Format(
    read=jp2_.read,
    type=lambda name: "J2C" if name == "bare" else "JP2",
    blocks={**READ, "xml": XML},
    left=LEFT,
    kept=ALL,
    broken=BROKEN,
    pairs=PAIRS,
    whole=WHOLE,
    is_of=lambda it, octets: it in octets,
    short=WHOLE,
    count=300,
    least=20,
)
