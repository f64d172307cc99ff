"""JPEG XL: the blocks, what is left, what is broken, and pairs that are the same or never are. ExifTool reads the same of the made files."""

import io

from all_readers import Format, blocks_of, check_limit
from beside import blocks_of_exiftool
from made_boxes import XMP_UUID, box, item_exif, jxl, wide
from made_files import T_OTHERWISE, app1, app1_xmp, exif, jpeg, title, turned
from pairs import DIFFERENT, SAME, UNDECIDED
from studio import needs, put

from exifnorm_pictures.extract.formats import jxl as jxl_
from exifnorm_pictures.judge import judge
from exifnorm_pictures.model import budgets
from exifnorm_pictures.refusals import explain

A, B, T, U = exif(b"Abc"), exif(b"Xyz"), title("one"), title("two")
E, X = box(b"Exif", item_exif(A, b"")), box(b"xml ", T)
BOTH = [("exif", "Exif", A), ("xmp", "XMP", T)]
BARE = b"\xff\x0a\x00\x00"

BROB_E, BROB_X = box(b"brob", b"Exif\1\2"), box(b"brob", b"xml \3\4")
READ = {
    "both": (jxl(E, X), BOTH),
    "bytes before the block": (jxl(box(b"Exif", item_exif(A))), BOTH[:1]),
    "a long length": (jxl(wide(E), wide(X)), BOTH),
    "parts of the codestream": (
        jxl(E, box(b"jxll", b"\x0a"), X, pixels=box(b"jxlp", b"\0\0\0\0\xff\x0a") + box(b"jxlp", b"\x80\0\0\1")),
        BOTH,
    ),
    "a codestream without a length": (jxl(E, X, pixels=b"\0\0\0\0jxlc\xff\x0a\x00"), BOTH),
    "an index": (jxl(E, X, box(b"jxli", b"x"), box(b"free", b"x"), box(b"skip", b"x")), BOTH),
    "after the codestream": (jxl(behind=E + X), BOTH),
    "a second block": (jxl(E, box(b"Exif", item_exif(B))), [*BOTH[:1], ("exif", "second Exif", B)]),
    "XMP after a declaration": (jxl(box(b"xml ", b"<?xml version='1.0'?>\n" + T)), [("xmp", "XMP", b"<?xml version='1.0'?>\n" + T)]),
    "XMP without a wrapper": (jxl(box(b"xml ", b"<x:xmpmeta/>")), [("xmp", "XMP", b"<x:xmpmeta/>")]),
    "a box uuid": (jxl(box(b"uuid", XMP_UUID, T)), BOTH[1:]),
    "nothing": (jxl(), []),
    "bare": (BARE, []),
}
# A box of zeros is no Exif, and what is only once in a list of other boxes
LEFT = {
    "compressed": (jxl(E, box(b"brob", b"jumb\5"), box(b"brob", b"abcd"), X), [("brob box", b"jumb\5"), ("brob box", b"abcd")]),
    "a short brob": (jxl(E, box(b"brob", b"Ex"), X), [("brob box", b"Ex")]),
    "a JPEG": (jxl(E, X, box(b"jbrd", b"x")), [("jbrd box", b"x")]),
    "other boxes": (
        jxl(E, X, box(b"jumb", b"x"), box(b"uuid", b"0123456789abcdef", b"y")),
        [("jumb box", b"x"), (f"uuid box {b'0123456789abcdef'.hex()}", b"y")],
    ),
    "other XML": (jxl(E, box(b"xml ", b"<svg/>"), X), [("xml box", b"<svg/>")]),
    "no header": (jxl(box(b"Exif", b"\0\0\0\x09MM\0*"), E, X), [("Exif box without a header", b"\0\0\0\x09MM\0*")]),
    "a trailer": (jxl(E, X, behind=b"trailer"), [("trailer of 7 bytes", b"trailer")]),
    "zeros": (jxl(E, X, behind=bytes(40)), []),
}
BROKEN = {
    "no picture": (jxl(E, X, pixels=b""), "the file ends before its picture"),
    "cut": (jxl(E, X)[:-1], f"the file ends inside the box at {len(jxl(E, X)) - 11}"),
    "another brand": (jxl(E, brand=b"jpx "), "the JPEG XL has the brand of another format"),
    "a short brand": (
        jxl().replace(b"\0\0\0\x14ftypjxl \0\0\0\0jxl ", b"\0\0\0\x0bftypjxl"),
        "the JPEG XL has the brand of another format",
    ),
}


def test_compressed_blocks():
    """Nobody says that such a picture has no Exif or XMP."""
    found = jxl_.read(io.BytesIO(jxl(BROB_E, BROB_X)))
    assert blocks_of(found) == [("exif", "Exif", b"brobExif\1\2"), ("xmp", "XMP", b"brobxml \3\4")]
    judged = judge.judge_all(found)
    assert [(it.kind, it.line, it.digest) for it in judged] == [
        ("exif", "unreadable: Compressed", None),
        ("xmp", "unreadable: Compressed", None),
    ]
    for it in found.blocks:
        assert "compressed by Brotli" in "".join(explain.explain(it.kind, it.data).lines())


@needs("exiftool")
def test_exiftools_blocks(tmp_path):
    """ExifTool takes the same blocks out of each of these files, byte for byte, but no box without a length."""
    names = [it for it in READ if it not in ("a second block", "a codestream without a length", "bare")]
    put(tmp_path, {f"{name}.jxl": READ[name][0] for name in names})
    found = blocks_of_exiftool(tmp_path)
    for name in names:
        assert found[f"{name}.jxl"] == [(kind, data) for kind, _, data in READ[name][1]], name


def test_limits():
    for what, spent in ((budgets.BOXES, 5), (budgets.BOX_BYTES, 4 + len(A) + len(T))):
        check_limit(jxl_.read, jxl(E, X), what, spent)


WHOLE = jxl(E, box(b"brob", b"Exif\1\2"), X, box(b"jbrd", b"jpeg"), box(b"uuid", XMP_UUID, U), behind=box(b"Exif", item_exif(B)))


PAIRS = {
    "in another order": (
        jxl(E, X),
        jxl(box(b"xml ", T_OTHERWISE), box(b"Exif", item_exif(turned(A))), pixels=box(b"jxlp", b"\x80\0\0\0x")),
        SAME,
    ),
    "beside a JPEG": (jxl(E, X), jpeg(app1(A), app1_xmp(T)), SAME),
    "bare": (BARE, jxl(), SAME),
    "other Exif": (jxl(E), jxl(box(b"Exif", item_exif(B))), DIFFERENT),
    "other XMP": (jxl(X), jxl(box(b"xml ", U)), DIFFERENT),
    "the same compressed": (jxl(BROB_E, BROB_X, box(b"free", b"x")), jxl(BROB_X, BROB_E), SAME),
    "other compressed Exif": (jxl(BROB_E), jxl(box(b"brob", b"Exif\2")), UNDECIDED),
    "other compressed XMP": (jxl(BROB_X), jxl(box(b"brob", b"xml \2")), UNDECIDED),
    "other compressed boxes": (jxl(box(b"brob", b"jumb\1")), jxl(box(b"brob", b"jumb\2")), UNDECIDED),
    "compressed Exif and not": (jxl(E), jxl(BROB_E), UNDECIDED),
    "compressed XMP and not": (jxl(X), jxl(BROB_X), UNDECIDED),
    "compressed and none": (jxl(), jxl(BROB_E), UNDECIDED),
    "another JPEG": (jxl(E, box(b"jbrd", b"1")), jxl(E, box(b"jbrd", b"2")), UNDECIDED),
}


FORMAT = Format(
    read=jxl_.read,
    type=lambda name: "JXL",
    blocks=READ,
    left=LEFT,
    kept=BOTH,
    broken=BROKEN,
    pairs=PAIRS,
    whole=WHOLE,
    is_of=lambda it, octets: it.removeprefix(b"brob") in octets,
    short=jxl(E, box(b"free", bytes(100)), X),
    count=300,
    least=20,
)
