"""HEIC, HEIF and AVIF: the blocks of each picture, what is left, what is broken, and pairs that are the same or never are.

The files are made here by the rules of ISO/IEC 14496-12 and 23008-12, so what is in them is known; ExifTool and exiv2 read the same of them.
"""

import io
import os
import struct
import zlib
from unittest import mock

from all_readers import Format, blocks_of, check_limit, stream_of
from beside import blocks_of_exiftool, is_of, makers_of_exiv2
from made_boxes import CANON, PICTURE, RDF, XMP_UUID, Item, box, full, heif, item_exif, mime
from made_files import T_OTHERWISE, exif, title, turned
from pairs import DIFFERENT, SAME, UNDECIDED
from studio import needs, put

from exifnorm_pictures.extract import extraction
from exifnorm_pictures.extract.formats import heif as heif_
from exifnorm_pictures.model import budgets

A, B, C, T, U = exif(b"Abc"), exif(b"Xyz"), exif(b"Pqr"), title("one"), title("two")


def of_exif(block, describes=(), before=b"Exif\0\0", **more):
    return Item(b"Exif", item_exif(block, before), b"", describes, **more)


ONE = (PICTURE, of_exif(A, (1,)), mime(T, (1,)))
IN_ONE = [("exif", "Exif", A), ("xmp", "XMP", T)]
# Tiles 2 and 3 of picture 1, then a thumbnail, an auxiliary picture and a second picture, each with Exif
SEVERAL = (
    Item(b"grid", bytes(8), references=((b"dimg", (2, 3)),)),
    PICTURE,
    PICTURE,
    PICTURE._replace(references=((b"thmb", (1,)),)),
    PICTURE._replace(references=((b"auxl", (1,)),)),
    PICTURE,
    of_exif(A, (1,)),
    of_exif(B, (4,)),
    of_exif(B, (5,)),
    of_exif(B, (6,)),
    mime(U, (6, 5)),
    of_exif(C, (3,)),
    mime(T, (6, 1, 2)),
)
CODED = zlib.compress(T)

# The files that ExifTool reads too: their main picture's blocks are in front.
READ = {
    "one picture": (heif(*ONE), IN_ONE),
    "AVIF": (heif(*ONE, brand=b"avif"), IN_ONE),
    "nothing before the block": (heif(PICTURE, of_exif(A, (1,), b"")), IN_ONE[:1]),
    "other bytes before the block": (heif(PICTURE, of_exif(A, (1,), b"x" * 300)), IN_ONE[:1]),
    "no number before the block": (heif(PICTURE, Item(b"Exif", A, b"", (1,))), IN_ONE[:1]),
    "no number before Exif": (heif(PICTURE, Item(b"Exif", b"Exif\0\0" + A, b"", (1,))), IN_ONE[:1]),
    "parts": (heif(PICTURE, of_exif(A, (1,), parts=3), mime(T, (1,), parts=7), padding=b"----"), IN_ONE),
    "iloc of version 0": (heif(*ONE, version=0), IN_ONE),
    "iloc of version 2": (heif(*ONE, version=2), IN_ONE),
    "long offsets": (heif(*ONE, size=8, padding=b"-"), IN_ONE),
    "a base": (heif(*ONE, base=100), IN_ONE),
    "indexes of parts": (heif(PICTURE, of_exif(A, (1,), parts=3), mime(T, (1,)), version=2, index=8), IN_ONE),
    "a long length": (heif(*ONE, large=True), IN_ONE),
    "blocks that describe nothing": (heif(PICTURE, of_exif(A), mime(T)), IN_ONE),
    "no main picture": (heif(PICTURE, of_exif(A, (1,)), mime(T, (1,)), primary=0), IN_ONE),
    "a second block": (heif(*ONE, of_exif(B, (1,))), [*IN_ONE, ("exif", "second Exif", B)]),
    "deleted items": (heif(*ONE, of_exif(B)._replace(data=b""), mime(b"")), IN_ONE),
    "zeros": (heif(*ONE, behind=bytes(30)), IN_ONE),
    "free": (heif(*ONE, behind=box(b"free", b"x") + box(b"skip", b"x")), IN_ONE),
    "a box uuid": (heif(PICTURE, of_exif(A, (1,)), behind=box(b"uuid", XMP_UUID, T)), IN_ONE),
    "Canon's version": (heif(*ONE, in_meta=box(b"uuid", CANON, box(b"CNCV", b"CanonHEIF001"))), IN_ONE),
    "several pictures": (
        heif(*SEVERAL),
        [
            ("exif", "Exif", A),
            ("exif", "Exif of thumbnail 1", B),
            ("exif", "Exif of auxiliary picture 1", B),
            ("exif", "Exif of picture 2", B),
            ("xmp", "XMP of picture 2 and auxiliary picture 1", U),
            ("exif", "Exif of item 3", C),
            ("xmp", "XMP", T),
        ],
    ),
    "the second picture is the main one": (
        heif(PICTURE, PICTURE, of_exif(A, (2,)), of_exif(B, (1,)), primary=2),
        [("exif", "Exif", A), ("exif", "Exif of picture 1", B)],
    ),
}
IN_IDAT = heif(PICTURE, of_exif(A, (1,), method=1, parts=2), mime(T, (1,), method=1)), IN_ONE

# Parts that are not read, each with the bytes of its digest; None if it has none
LEFT = {
    "other items": (
        heif(*ONE, Item(b"mime", b"text", b"text/plain\0"), Item(b"mime", CODED, RDF + b"br\0", (1,)), Item(b"uri ", b"a", b"urn:x\0")),
        [("mime item text/plain", b"text"), ("mime item application/rdf+xml", CODED), ("uri item", b"a")],
    ),
    "another picture's item": (
        heif(PICTURE, *ONE[1:], PICTURE, Item(b"\xff\n\0a", b"text", b"", (4,))),
        [("???a item of picture 2", b"text")],
    ),
    "a part of an item in each of two places": (heif(*ONE, Item(b"abcd", b"text", parts=2), padding=b"-"), [("abcd item", b"text")]),
    "a protected item": (heif(*ONE, of_exif(B, protected=1)), [("Exif item, protected or kept elsewhere", None)]),
    "an item in another file": (heif(*ONE, mime(U, elsewhere=1)), [("mime item application/rdf+xml, protected or kept elsewhere", None)]),
    "an item of items": (heif(*ONE, of_exif(B, method=2)), [("Exif item, protected or kept elsewhere", None)]),
    "all of idat": (heif(*ONE, mime(b"", method=1)), [("mime item application/rdf+xml, protected or kept elsewhere", None)]),
    "no header": (heif(*ONE, Item(b"Exif", b"\0\0\0\x09MM\0*", b"", (1,))), [("Exif item without a header", b"\0\0\0\x09MM\0*")]),
    "three bytes": (heif(*ONE, Item(b"Exif", b"\0\0\0", b"", (1,))), [("Exif item without a header", b"\0\0\0")]),
    "boxes": (
        heif(
            *ONE,
            in_meta=box(b"iods", b"a"),
            properties=box(b"udes", b"name"),
            behind=box(b"moov", b"film") + box(b"uuid", b"0123456789abcdef"),
        ),
        [("udes property", b"name"), ("iods box in meta", b"a"), ("moov box", b"film")],
    ),
    "a box uuid": (heif(*ONE, behind=box(b"uuid", b"0123456789abcdef", b"x")), [("uuid box 30313233343536373839616263646566", b"x")]),
    "a trailer": (heif(*ONE, behind=b"\0\0\0\x04more"), [("trailer of 8 bytes", b"\0\0\0\x04more")]),
    "a short trailer": (heif(*ONE, behind=b"more"), [("trailer of 4 bytes", b"more")]),
    "Canon's directories": (
        heif(*ONE, in_meta=box(b"uuid", CANON, box(b"CMT1", b"a"), box(b"new ", b"b"))),
        [("new box of Canon", b"b"), ("CMT1 box of Canon", b"a")],
    ),
}


@needs("exiftool")
def test_exiftools_blocks(tmp_path):
    """ExifTool takes the blocks of the main picture out of each of these files, byte for byte."""
    names = {f"{number:02}.heic": name for number, name in enumerate(READ)}
    put(tmp_path, {file: READ[name][0] for file, name in names.items()})
    for file, blocks in blocks_of_exiftool(tmp_path).items():
        main = [(kind, data) for kind, name, data in READ[names[file]][1] if name in ("Exif", "XMP")]
        assert sorted(blocks) == sorted(main), names[file]


@needs("exiv2")
def test_exiv2(tmp_path):
    """exiv2 reads an Exif item in one part, of a file with one."""
    names = [it for it in READ if it == "AVIF" or " before the block" in it or it in ("one picture", "a long length", "Canon's version")]
    put(tmp_path, {name: READ[name][0] for name in names})
    assert makers_of_exiv2(tmp_path) == {it: ["Abc"] for it in names}


AT = heif(*ONE).index(b"mdat") - 4  # where boxes are that are put at the end of the meta box
EXIF_ITEM = b"infe\2\0\0\0\0\2"
BROKEN = {
    "no picture": (heif(*ONE)[: heif(*ONE).index(b"mdat") - 4], "the file ends before its picture"),
    "only pixels": (box(b"ftyp", b"heic\0\0\0\0") + box(b"mdat", b"x"), "the file has no picture"),
    "two meta boxes": (heif(*ONE, behind=full(b"meta", 0)), "the file has two meta boxes"),
    "no length": (heif(*ONE, in_meta=struct.pack(">I4s", 0, b"free")), f"the box at {AT} has a wrong length"),
    "a length of seven": (heif(*ONE, in_meta=struct.pack(">I4s", 7, b"free")), f"the box at {AT} has a wrong length"),
    "a short box": (heif(*ONE, in_meta=b"free"), f"no box at {AT}"),
    "a short UUID": (heif(*ONE, in_meta=box(b"uuid", b"x" * 15)), f"the box at {AT} has a wrong length"),
    "a short long length": (heif(*ONE, in_meta=struct.pack(">I4sQ", 1, b"free", 15)), f"the box at {AT} has a wrong length"),
    "another handler": (heif(*ONE).replace(b"pict", b"mp7t"), "the meta box is of no picture"),
    "two lists of items": (heif(*ONE, in_meta=full(b"pitm", 0, b"\0\1")), f"a second pitm box at {AT}"),
    "fewer items": (heif(*ONE).replace(b"iinf\0\0\0\0\0\3", b"iinf\0\0\0\0\0\4"), "the list of items is wrong"),
    "one item twice": (heif(*ONE).replace(b"infe\2\0\0\0\0\2", b"infe\2\0\0\0\0\1"), "the list of items is wrong"),
    "an old item": (
        heif(*ONE).replace(b"infe\2\0\0\0\0\2", b"infe\1\0\0\0\0\2"),
        f"an item of version 1 at {heif(*ONE).index(EXIF_ITEM) - 4}",
    ),
    "no such main picture": (heif(*ONE, primary=9), "the main picture is no item"),
    "numbers of three bytes": (heif(*ONE, size=3), "the iloc box has another form"),
    "iloc of version 3": (heif(*ONE).replace(b"iloc\1", b"iloc\3"), "the iloc box has another form"),
    "another construction": (heif(*ONE, Item(b"abcd", b"x", method=3)), "item 4 has no certain place"),
    "iref of version 2": (heif(*ONE).replace(b"iref\0", b"iref\2"), "the iref box has another form"),
    "a name without end": (heif(*ONE).replace(RDF, RDF.replace(b"\0", b"x")), "the infe box has a text without end"),
    "after the file": (heif(*ONE).replace(struct.pack(">I", len(T)), struct.pack(">I", len(T) + 1)), "the file ends inside item 3"),
    "after idat": (IN_IDAT[0].replace(struct.pack(">I", len(T)), struct.pack(">I", len(T) + 1)), "item 3 isn't in the file"),
    "many pictures": (heif(*[PICTURE] * 10, of_exif(A, tuple(range(2, 11)))), "item 11 describes more than 8 pictures"),
}


def test_items_without_lengths():
    """They are the whole file, or all from an offset on."""
    found = heif_.read(io.BytesIO(heif(*ONE, lengths=False)))
    words = ["Exif item, protected or kept elsewhere", "mime item application/rdf+xml, protected or kept elsewhere"]
    assert (found.blocks, [tuple(it) for it in found.not_read]) == ([], [(it, "") for it in words])


def test_offsets_past_4_gb(tmp_path):
    """A sparse file, of which little is read."""
    made, far = heif(PICTURE, mime(T), size=8, large=True), 5 << 30
    at, begin = made.index(T), made.index(b"mdat") - 4
    length = struct.pack(">I4sQ", 1, b"mdat", far + len(T) - begin)
    with open(tmp_path / "a.heic", "wb") as file:
        file.write(made[:begin].replace(struct.pack(">Q", at), struct.pack(">Q", far)) + length)
        file.seek(far)
        file.write(T)
    found = extraction.blocks_of_file(os.fsencode(tmp_path / "a.heic"))
    assert blocks_of(found) == IN_ONE[1:] and found.not_read == []


def test_limits():
    """Boxes, items, their parts, and the bytes of boxes: up to a limit, and not one more."""
    for what, spent in {budgets.BOXES: 18, budgets.ITEMS: 3, budgets.EXTENTS: 8, budgets.BOX_BYTES: None}.items():
        check_limit(heif_.read, heif(*ONE), what, spent)


def test_items_that_share_bytes():
    """A thousand items of the same megabyte: each has a digest, and what is read again and again counts."""
    shared = heif(PICTURE, *[Item(b"abcd", b"x" * 1000)] * 3, behind=box(b"free", b"x" * 4000))
    stream = stream_of(shared)
    found = heif_.read(stream)
    assert budgets.LIMITS[budgets.BYTES_READ] - stream.budget.left[budgets.BYTES_READ] == 3000
    with mock.patch.object(budgets, "UNREAD_BYTES", 999):
        assert [it.digest for it in heif_.read(io.BytesIO(shared)).not_read] == [""] * 3
    assert all(it.digest for it in found.not_read)


WHOLE = heif(
    *SEVERAL,
    *LEFT["other items"][0:0],
    Item(b"mime", b"text", b"text/plain\0"),
    mime(T, method=1),
    of_exif(C, method=1, parts=2),
    padding=b"--",
    behind=box(b"uuid", XMP_UUID, U),
)


PAIRS = {
    "in other places": (
        heif(*ONE),
        heif(PICTURE, of_exif(turned(A), (1,), b"", parts=2), mime(T_OTHERWISE, (1,), method=1), padding=b"-"),
        SAME,
    ),
    "another order": (heif(*ONE), heif(ONE[2]._replace(describes=(3,)), ONE[1]._replace(describes=(3,)), PICTURE, primary=3), SAME),
    "other pixels": (heif(*ONE), heif(PICTURE._replace(data=b"\x02" * 70), *ONE[1:]), SAME),
    "another picture's Exif": (heif(*SEVERAL), heif(*SEVERAL[:9], of_exif(C, (6,)), *SEVERAL[10:]), DIFFERENT),
    "Exif of another picture": (heif(PICTURE, PICTURE, of_exif(A, (1,))), heif(PICTURE, PICTURE, of_exif(A, (2,))), DIFFERENT),
    "other XMP": (heif(*ONE), heif(*ONE[:2], mime(U, (1,))), DIFFERENT),
    "the same unknown item": (
        LEFT["other items"][0],
        heif(
            *ONE,
            *(
                it
                for it in (
                    Item(b"uri ", b"a", b"urn:x\0"),
                    Item(b"mime", CODED, RDF + b"br\0", (1,)),
                    Item(b"mime", b"text", b"text/plain\0"),
                )
            ),
        ),
        SAME,
    ),
    "another unknown item": (heif(*ONE, Item(b"abcd", b"a")), heif(*ONE, Item(b"abcd", b"b")), UNDECIDED),
    "another name": (heif(*ONE, properties=box(b"udes", b"a")), heif(*ONE, properties=box(b"udes", b"b")), UNDECIDED),
    "compressed XMP": (
        heif(*ONE, mime(b"a")._replace(after_name=RDF + b"deflate\0")),
        heif(*ONE, mime(b"b")._replace(after_name=RDF + b"deflate\0")),
        UNDECIDED,
    ),
    "XMP that is compressed, and that isn't": (
        heif(*ONE[:2], mime(U, (1,))),
        heif(*ONE[:2], mime(zlib.compress(U), (1,))._replace(after_name=RDF + b"deflate\0")),
        SAME,
    ),
    "an unknown box": (heif(*ONE, behind=box(b"moov", b"a")), heif(*ONE, behind=box(b"moov", b"b")), UNDECIDED),
    "protected items": (heif(*ONE, of_exif(B, protected=1)), heif(*ONE, of_exif(B, protected=1), padding=b"-"), UNDECIDED),
    "items of items": (heif(*ONE, mime(U, method=2)), heif(*ONE, mime(U, method=2), padding=b"-"), UNDECIDED),
}


FORMAT = Format(
    read=heif_.read,
    type=lambda name: "AVIF" if name == "AVIF" else "HEIC",
    blocks={**READ, "idat": IN_IDAT},
    left=LEFT,
    kept=IN_ONE,
    broken=BROKEN,
    pairs=PAIRS,
    whole=WHOLE,
    is_of=lambda it, octets: is_of(it, octets, 4),
    short=WHOLE,
    count=200,
    least=20,
)
