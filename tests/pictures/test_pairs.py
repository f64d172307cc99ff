"""For each kind of block and each format a pair of pictures that must not be called the same, and one that must.

What is expected is known from how each pair was made: one block of one picture was changed, or only what means nothing."""

import hashlib
import json
import os
import re
import shutil
import struct
import threading
import zlib

import pytest
import test_cr3
import test_gif
import test_heif
import test_jp2
import test_jxl
import test_psd
from made_blocks import ASCII, BLOCKS, LONG, MAKE, UNDEFINED, block, entry, segment, table
from made_boxes import box, cr3
from made_files import (
    A,
    B,
    K,
    L,
    T,
    T_OTHERWISE,
    U,
    XMP_HEAD,
    app1,
    app13,
    app1_xmp,
    chunk,
    exif,
    extension,
    iim,
    jpeg,
    mpf,
    page,
    png,
    png_xmp,
    profile,
    resource,
    tiff,
    title,
    turned,
    webp,
    with_record,
    xmp,
)
from pairs import DIFFERENT, SAME, UNDECIDED, Pair, of_pairs
from studio import SMALL_JPEG, WithPictures, interpreter_with, needs, put, read, run, tool, write
from exifnorm_pictures.extract import exiftool, extraction
from exifnorm_pictures.judge import judge
from exifnorm_pictures.model.found import NAMES
from exifnorm_pictures.model.records import side_of
from exifnorm_pictures.model import verdicts
from exifnorm_pictures.cli import main
from exifnorm_pictures.refusals import explain

_ASKED = threading.Lock()  # of one ExifTool in this process


def sides(path, whole=False):
    """The meaning of a picture for each kind, and its unread parts."""
    with _ASKED:
        blocks = extraction.blocks_of_file(os.fsencode(path), whole)
    assert not blocks.problem, (blocks.problem, blocks.detail)
    judged = judge.judge_all(blocks)
    return {kind: side_of([it for it in judged if it.kind == kind]) for kind in NAMES}, blocks.not_read


def answer(folder, one, other, name="jpg", whole=False):
    """The result of two files, and its sentence."""
    found = []
    for side, octets in (("one", one), ("other", other)):
        write(path := os.path.join(folder, f"{side}.{name}"), octets)
        found.append(sides(path, whole))
    left = verdicts.left_open(found[0][1], found[1][1])
    of_kinds = verdicts.verdicts(found[0][0], found[1][0])
    return verdicts.result_of(of_kinds, left), verdicts.sentence_of_verdicts(of_kinds, left)


PART = "not wholly read"


def same(one, other, words="", **more):
    return one, other, "same", words, more


def differ(one, other, result="different", words="", **more):
    return one, other, result, words, more


BASE = app1(A), app13(resource(0x404, K)), app1_xmp(T)
FIRST, RECORDS = app1(A), app13(resource(0x404, K))
EACH_KIND = [
    same(
        jpeg(*BASE),
        jpeg(app1(turned(A)), app13(resource(0x404, K + b"\0")), app1_xmp(T_OTHERWISE)),
        "Exif, IPTC and XMP are the same",
    ),
    differ(jpeg(*BASE), jpeg(app1(B), *BASE[1:]), words="IPTC and XMP are the same, Exif is different"),
    differ(jpeg(*BASE), jpeg(BASE[0], app13(resource(0x404, L)), BASE[2])),
    differ(jpeg(*BASE), jpeg(*BASE[:2], app1_xmp(U)), words="Exif and IPTC are the same, XMP is different"),
    differ(jpeg(app1(A)), jpeg(app1(A), app1_xmp(U)), words="Exif is the same, XMP is different, no IPTC"),
]
BLOCKS_AFTER_THE_FIRST = [
    differ(jpeg(FIRST), jpeg(FIRST, app1(A))),
    differ(jpeg(FIRST, app1(A)), jpeg(FIRST, app1(B))),
    same(jpeg(FIRST, app1(A)), jpeg(FIRST, app1(turned(A)))),
    differ(jpeg(RECORDS), jpeg(app13(resource(0x404, K), resource(0x404, K)))),
    differ(jpeg(RECORDS, FIRST, app13(resource(0x404, K))), jpeg(RECORDS, FIRST, app13(resource(0x404, L)))),
    differ(jpeg(app13(resource(0x422, A))), jpeg(app13(resource(0x422, B)))),
    same(jpeg(app13(resource(0x422, A))), jpeg(app13(resource(0x422, b"Exif\0\0" + turned(A))))),
    differ(jpeg(app13(resource(0x404, K, b"AgHg"))), jpeg(app13(resource(0x404, L, b"AgHg")))),
    same(jpeg(app13(resource(0x404, K, b"AgHg"))), jpeg(app13(resource(0x404, K)))),
    differ(jpeg(app1_xmp(T), app1_xmp(T)), jpeg(app1_xmp(T), app1_xmp(U))),
]
# Blocks that ExifTool doesn't hand over because they are short, or corrects because of their MakerNote
SHORT = [app1(it) for it in (b"MM\0*\0\0\0\x08", b"II*\0\x08\0\0\0", b"MM\0*\0\0\0\x08\0\0")]
IMAGING = [block([entry(0x010F, ASCII, 16, 26)]) + it for it in (b"GENERAL IMAGING\0", b"GENERAL IMAGINF\0")]
OF_THE_FILE = [
    *(differ(jpeg(SHORT[0]), jpeg(*it), "refused") for it in (SHORT[1:2], SHORT[2:], [])),
    differ(*(jpeg(app1(it)) for it in IMAGING)),
]


def split_at(data, at):
    return segment(0xED, b"Photoshop 3.0\0" + data[:at]), segment(0xED, b"Photoshop 3.0\0" + data[at:])


LONG_TEXTS = [block([entry(0x010E, ASCII, 70000, 26)]) + it * 69999 + b"\0" for it in (b"a", b"b")]
SPLIT = [jpeg(app1(it[:65000]), app1(it[65000:])) for it in LONG_TEXTS]
TWO_RECORDS = [resource(0x404, 2 * iim(b"k" * 30000 + it)) for it in (b"a", b"b")]
APART = [(one, app1(A), other) for one, other in (split_at(it, 100) for it in TWO_RECORDS)]
SPLIT_BLOCKS = [
    differ(*SPLIT),
    same(SPLIT[0], jpeg(app1(LONG_TEXTS[0][:40000]), app1(LONG_TEXTS[0][40000:]))),
    same(jpeg(*split_at(TWO_RECORDS[0], 100)), jpeg(*split_at(TWO_RECORDS[0], 50000))),
    differ(*(jpeg(*split_at(it, 100)) for it in TWO_RECORDS)),
    same(jpeg(*APART[0]), jpeg(APART[0][1], APART[0][0], APART[0][2])),
    differ(jpeg(*APART[0]), jpeg(*APART[1])),
]


def extended(text, size=100, name=None, claimed=None):
    pieces, name = extension(title(text), size, name)
    return jpeg(app1_xmp(xmp("", f"note:HasExtendedXMP='{claimed or name}'")), *pieces)


EXTENDED_XMP = [
    same(extended("one"), extended("one", size=37)),
    differ(extended("one"), extended("two")),
    differ(extended("one", name=b"0" * 32), extended("two", name=b"0" * 32), "unreadable"),
    differ(extended("one"), extended("one", claimed="1" * 32), "unreadable"),
    same(extended("one"), jpeg(app1_xmp(T))),
]
OVERLAP = app1(BLOCKS["Overlap"])
A_REFUSAL_HIDES_NO_OTHER_CHANGE = [
    differ(
        jpeg(OVERLAP, app13(resource(0x404, K))),
        jpeg(OVERLAP, app13(resource(0x404, L))),
        words="IPTC is different, Exif is refused, the same bytes, no XMP",
    ),
    differ(jpeg(OVERLAP), jpeg(app1(BLOCKS["Doubled"])), "refused"),
    differ(jpeg(OVERLAP), jpeg(OVERLAP), "refused, the same bytes"),
    differ(
        jpeg(app1(A), app1_xmp(b"<x")),
        jpeg(app1(A), app1_xmp(b"<y")),
        "unreadable",
        "Exif is the same, XMP is unreadable, no IPTC",
    ),
]
ONE, SCANNED = jpeg(app1(A)), b"\x11" * 100000
FOLLOWED = mpf(app1(A), jpeg(app1(A)))
WHAT_FOLLOWS = [
    differ(ONE, ONE + b"trailer", PART, "Exif is the same, no IPTC and no XMP; not wholly read: trailer of 7 bytes"),
    differ(ONE + b"trailer", ONE + b"Trailer", PART),
    same(ONE + b"trailer", ONE + b"trailer"),
    same(ONE, ONE + bytes(16)),
    differ(ONE, ONE + jpeg(app1(B)), PART, ".*second picture of.*"),
    differ(*(jpeg(segment(0xE1, it)) for it in (b"who knows", b"what it is")), PART),
    differ(*(jpeg(segment(0xE3, b"Meta\0\0" + it)) for it in (A, B)), PART),
    differ(*(SMALL_JPEG[:-2] + app1(it) + SMALL_JPEG[-2:] for it in (A, B)), PART),
    same(FOLLOWED, mpf(app1(A), jpeg(app1(turned(A))), order="<")),
    differ(FOLLOWED, mpf(app1(A), jpeg(app1(B))), words="Exif is different, no IPTC and no XMP"),
    differ(FOLLOWED, mpf(app1(A), jpeg(app1(A), app1_xmp(U)))),
    differ(FOLLOWED, mpf(app1(A), jpeg(app1(A)), jpeg(app1(A)))),
    differ(*(mpf(app1(A), jpeg(app1(A), behind=it)) for it in (b"one", b"two")), PART),
    # what is no metadata: JFIF, a profile, a comment, a resource of another kind, and content credentials
    *(
        same(jpeg(make(b"one")), jpeg(make(b"two")))
        for make in (
            lambda it: segment(0xE0, b"JFXX\0\x13\1\1" + it),
            lambda it: segment(0xE2, b"ICC_PROFILE\0\1\1" + it),
            lambda it: segment(0xFE, it),
            lambda it: app13(resource(0x0400, it)),
            lambda it: segment(0xEB, b"JP\0\1\0\0\0\1" + it),
        )
    ),
    differ(*(jpeg(app13(resource(0x0423, it))) for it in (b"one", b"two")), PART, ".*Photoshop resource 0423 in the APP13.*"),
    differ(*(jpeg(app13(resource(0x0424, it))) for it in (T, U))),
    # only the last 65,536 bytes of a long picture are looked at for what is no picture data
    differ(*(SMALL_JPEG[:-2] + SCANNED + app1(it) + SMALL_JPEG[-2:] for it in (A, B)), PART),
    same(*(SMALL_JPEG + jpeg(app1(it), base=SMALL_JPEG[:-2] + SCANNED + SMALL_JPEG[-2:]) for it in (A, B))),
    # a segment far in front of the end of a long picture is not seen by default, and is with `whole`
    same(*(SMALL_JPEG[:-2] + app1(it) + SCANNED + SMALL_JPEG[-2:] for it in (A, B))),
    differ(*(SMALL_JPEG[:-2] + app1(it) + SCANNED + SMALL_JPEG[-2:] for it in (A, B)), PART, whole=True),
    differ(*(SMALL_JPEG[:-2] + SCANNED + SMALL_JPEG[-2:] + it for it in (b"one", b"two")), PART),
]
PNG_EXIF = [
    lambda it: chunk(b"eXIf", it),
    lambda it: chunk(b"eXIf", b"Exif\0\0" + it),
    lambda it: profile(b"exif", b"Exif\0\0" + it),
    lambda it: profile(b"APP1", it),
    lambda it: profile(b"APP1", b"Exif\0\0" + it),
]
PNG_IPTC = [
    lambda it: profile(b"iptc", it),
    lambda it: profile(b"8bim", resource(0x404, it)),
    lambda it: profile(b"iptc", b"Photoshop 3.0\0" + resource(0x404, it)),
]
PNG_XMP = [
    png_xmp,
    lambda it: png_xmp(it, True),
    lambda it: profile(b"xmp", it),
    lambda it: profile(b"APP1", XMP_HEAD + it),
    lambda it: chunk(b"zTXt", b"xml:COM.adobe.xmp\0\0" + zlib.compress(it)),
    lambda it: chunk(b"iTXt", b"XML:com.adobe.xmp\0\0\0en\0title\0" + it),
]
IN_PNG = [
    *(
        row
        for makers, it, again, other in ((PNG_EXIF, A, turned(A), B), (PNG_IPTC, K, K + b"\0", L), (PNG_XMP, T, T_OTHERWISE, U))
        for made in makers
        for row in (same(png(made(it)), png(made(again))), differ(png(made(it)), png(made(other))))
    ),
    *(same(png(made(A)), jpeg(app1(A))) for made in PNG_EXIF),
    differ(*(png(chunk(b"eXIf", A), profile(b"exif", it)) for it in (A, B))),
    differ(*(png(chunk(b"eXIf", A), behind=it) for it in (b"one", b"two")), PART),
    same(*(png(chunk(b"eXIf", it), behind=b"one") for it in (A, turned(A)))),
    differ(*(png(chunk(b"zxIf", it)) for it in (A, B)), PART),
    differ(*(png(chunk(b"zTXt", b"Raw profile type exif\0\0" + zlib.compress(it)[:-6])) for it in (A, B)), PART),
    differ(*(png(profile(b"other", it)) for it in (A, B)), PART, ".*raw profile of another kind.*"),
    same(*(png(chunk(b"tEXt", b"Comment\0" + it)) for it in (b"one", b"two"))),
    same(*(png(chunk(b"iCCP", b"p\0\0" + it)) for it in (b"one", b"two"))),
    *(same(*(png(profile(kind, it)) for it in (b"one", b"two"))) for kind in (b"icc", b"icm")),
    differ(*(png(profile(b"8bim", resource(0x404, K) + it)) for it in (b"one", b"two")), PART, ".*bytes behind the Photoshop resources.*"),
]
IN_WEBP = [
    same(webp((b"EXIF", A)), webp((b"EXIF", b"Exif\0\0" + turned(A)))),
    differ(webp((b"EXIF", A)), webp((b"EXIF", B))),
    differ(webp((b"EXIF", A), (b"EXIF", A)), webp((b"EXIF", A), (b"EXIF", B))),
    same(webp((b"XMP ", T)), webp((b"XMP ", T_OTHERWISE))),
    differ(webp((b"XMP ", T)), webp((b"XMP ", U))),
    differ(*(webp((b"EXIF", A), behind=it) for it in (b"one", b"two")), PART),
    same(webp((b"XMP\0", T)), webp((b"XMP ", T_OTHERWISE))),
    differ(webp((b"XMP\0", T)), webp((b"XMP\0", U))),
    differ(webp((b"exif", A)), webp((b"exif", B)), PART, ".*chunk of an unknown kind.*"),
    same(webp((b"exif", A)), webp((b"exif", A))),
    same(webp((b"ICCP", b"one")), webp((b"ICCP", b"two"))),
]
MAKES = [(0x010F, ASCII, it) for it in (b"Abcdef\0", b"Xyzdef\0")]
GPS = [(0x8825, LONG, [(0, 1, b"\2\3\0\0"), (1, ASCII, it)]) for it in (b"N\0", b"S\0")]
TILES = [(0x142, LONG, 16), (0x143, LONG, 16)]


def pages(*texts):
    """A page, with one below it for a second text, and a page with the first text."""
    more = [(0x014A, LONG, page((0x010F, ASCII, it))) for it in texts[1:]]
    return tiff(page(*more), page((0x010F, ASCII, texts[0])))


def behind(octets, at):
    return at + 2 + 12 * struct.unpack_from(">H", octets, at)[0]


def row(text):
    """A SubIFD that is followed by what was the second page."""
    octets = bytearray(tiff(page((0x014A, LONG, page())), page((0x010F, ASCII, text))))
    place = octets.index(struct.pack(">HHI", 0x014A, LONG, 1)) + 8
    last = behind(octets, struct.unpack_from(">I", octets, place)[0])
    link = behind(octets, struct.unpack_from(">I", octets, 4)[0])
    octets[last : last + 4], octets[link : link + 4] = octets[link : link + 4], bytes(4)
    return bytes(octets)


BELOW = page((0x010F, ASCII, b"the same\0"))
IN_TIFF = [
    same(tiff(page(MAKES[0])), tiff(page(MAKES[0]), order="<")),
    same(tiff(page(GPS[0])), tiff(page(GPS[0]), order="<")),
    *(
        differ(*(tiff(page(it)) for it in two))
        for two in (
            MAKES,
            GPS,
            [(0x8769, LONG, [(0xA005, LONG, [(1, ASCII, it)])]) for it in (b"R98\0", b"R03\0")],
            [(0x8769, LONG, [(0x9286, 7, it)]) for it in (b"comment 1", b"comment 2")],
            [(0x02BC, 1, it) for it in (T, U)],
            [(0x83BB, 7, it) for it in (K, L)],
            [(0x8649, 1, resource(0x404, it)) for it in (K, L)],
            [(0x8649, 1, resource(0x422, it)) for it in (A, B)],
            [(0x8649, 1, resource(0x424, it)) for it in (T, U)],
        )
    ),
    same(*(tiff(page((0x02BC, 1, it))) for it in (T, T_OTHERWISE))),
    same(*(tiff(page((0x83BB, 7, it))) for it in (K, K + b"\0"))),
    # where pixels are means nothing
    same(tiff(page()), tiff(page((0x111, LONG, 20)))),
    same(
        *(tiff(page(*TILES, (0x144, LONG, place), (0x145, LONG, size))) for place, size in ((8, 4), (9, 5))),
        "Exif is the same, no IPTC and no XMP",
    ),
    # further pages
    same(pages(b"second one\0"), pages(b"second one\0")),
    differ(pages(b"second one\0"), pages(b"second two\0")),
    differ(pages(b"second one\0"), tiff(page())),
    differ(pages(b"second one\0", b"below one\0"), pages(b"second one\0", b"below two\0")),
    differ(pages(b"second one\0", b"below one\0"), pages(b"second one\0")),
    differ(tiff(page((0x014A, LONG, BELOW))), tiff(page(), BELOW)),
    differ(*(tiff(page((0x014A, LONG, page((0x014A, LONG, page((0x010F, ASCII, it))))))) for it in (b"one\0", b"two\0"))),
    # a row of SubIFDs
    differ(row(b"one\0"), row(b"two\0")),
    same(row(b"one\0"), row(b"one\0")),
    # what was not read
    differ(*(tiff(page(), behind=it) for it in (b"one", b"two")), PART),
    same(*(tiff(page(), behind=b"one"),) * 2),
    differ(*(tiff(page((0x935C, 7, b"layers of " + it))) for it in (b"one", b"two")), PART, ".*Photoshop's layers.*"),
    *(differ(*(tiff(page((0x0190, kind, 8))),) * 2, PART, ".*not wholly read: GlobalParametersIFD of page 1.*") for kind in (LONG, 13)),
]


def fotostation(record):
    return jpeg(behind=record + struct.pack(">HI", 1, len(record) + 10) + bytes.fromhex("a1b2c3d4"))


def afcp(record):
    """A head and an end of twelve bytes, and in between an entry for each part, whose offset counts from the file's beginning."""
    start = len(jpeg())
    entry_ = b"IPTC" + struct.pack(">II", len(record), start + 24)
    return jpeg(behind=b"AXS!" + struct.pack(">HHI", 0x100, 1, 0) + entry_ + record + b"AXS!" + struct.pack(">II", start, 0))


BROKEN = jpeg(app1(A))[: 2 + 4 + 6 + len(A)]
BY_OTHERS = [
    differ(
        *(BROKEN + it + jpeg(app1(A))[40:] for it in (b"\0\0", b"\0\1")),
        PART,
        ".*not wholly read: the rest of a damaged file [(]no marker.*",
    ),
    differ(fotostation(K), fotostation(L), words=".*IPTC is different.*"),
    differ(afcp(K), afcp(L), words=".*IPTC is different.*"),
    differ(afcp(K), afcp(L), words=".*not wholly read: AFCP trailer of.*"),
]
ROWS = {
    f"{kind}-{number}": row
    for kind, rows in {
        "each kind": EACH_KIND,
        "after the first": BLOCKS_AFTER_THE_FIRST,
        "of the file": OF_THE_FILE,
        "split": SPLIT_BLOCKS,
        "extended XMP": EXTENDED_XMP,
        "refusal": A_REFUSAL_HIDES_NO_OTHER_CHANGE,
        "what follows": WHAT_FOLLOWS,
        "PNG": IN_PNG,
        "WebP": IN_WEBP,
        "TIFF": IN_TIFF,
        "others": BY_OTHERS,
    }.items()
    for number, row in enumerate(rows)
}


@pytest.mark.parametrize("one, other, result, words, more", ROWS.values(), ids=ROWS)
def test_two_pictures(folder, one, other, result, words, more):
    found, said = answer(folder, one, other, **more)
    assert found == result, said
    assert not words or re.fullmatch(words, said)


@pytest.mark.parametrize("octets", [*IMAGING, b"MM\0*\0\0\0\x08"])
def test_the_block_is_the_files(folder, octets):
    write(folder / "a.jpg", jpeg(app1(octets)))
    assert sides(folder / "a.jpg")[0]["exif"].octets == hashlib.sha256(octets).hexdigest()


@needs("PIL")
def test_webp_as_pillow_writes_it(folder):
    for name, words in (("one", "One"), ("two", "Two")):
        call = (
            f"from PIL import Image; it = Image.new('RGB', (8, 8)); e = it.getexif(); e[0x10f] = '{words}'; it.save('{name}.webp', exif=e)"
        )
        tool(folder, interpreter_with("PIL"), "-c", call)
    one, two = (sides(folder / f"{it}.webp")[0]["exif"] for it in ("one", "two"))
    assert (one.status, two.status) == ("accepted", "accepted")
    assert one.digest != two.digest


def test_big_tiff_that_is_broken(folder):
    write(folder / "big.tif", b"II+\0\x08\0\0\0" + bytes(24))
    found = extraction.blocks_of_file(os.fsencode(folder / "big.tif"))
    assert (found.problem, found.blocks) == ("BigTIFF", [])


@needs("exiftool")
class Others(WithPictures):
    """What ExifTool extracts is never wholly read, unless the files have the same bytes."""

    def pair(self, word):
        """Three of exiv2's own files: with one text in a tag, with another, and a copy."""
        for side, text in (("one", "One"), ("two", "Two")):
            tool(self.folder, "exiftool", "-config", "", "-q", f"{word}={text}", "-o", f"{side}.exv")
        shutil.copy(self.path("one.exv"), self.path("copy.exv"))
        return [read(self.path(f"{it}.exv")) for it in ("one", "two", "copy")]

    def test_blocks_of_exiftool(self):
        for word in ("-XMP:Title", "-IPTC:Keywords", "-IFD0:Artist"):
            one, two, copy = self.pair(word)
            self.assertEqual([answer(self.folder, one, it, "exv")[0] for it in (two, copy)], ["different", "same"])
            for name in ("one", "two", "copy"):
                os.unlink(self.path(f"{name}.exv"))

    def test_the_program_is_named(self):
        """If ExifTool extracted the blocks, the result names it, also for equal pictures. The result of the built-in readers names nothing."""
        one, _, copy = self.pair("-IFD0:Artist")
        for folder, octets in (("before", one), ("after", copy)):
            put(self.folder, {f"{folder}/a.exv": octets, f"{folder}/b.jpg": jpeg(app1(A))})
        lines = run(["exifnorm-pictures", "changed", "before", "after", "--all", "--quiet"], self.folder).stdout.decode().splitlines()
        said = [it for it in lines if it.startswith(("a.exv", "b.jpg"))]
        self.assertEqual(["extracted by ExifTool" in it for it in said], [True, False], lines)
        for name, expected in (("a.exv", True), ("b.jpg", False)):
            shown = run(["exifnorm-pictures", "show", os.path.join("before", name)], self.folder).stdout.decode()
            self.assertEqual(shown.startswith("Exif, extracted by ExifTool:"), expected, shown)

    def test_same_blocks_but_not_wholly_read(self):
        one, _, _ = self.pair("-XMP:Title")
        comment = one[:-2] + segment(0xFE, b"abc") + one[-2:]
        result, words = answer(self.folder, one, comment, "exv")
        self.assertTrue(result == PART and "EXV" in words, (result, words))

    def test_long_broken_jpeg(self):
        """What follows the fault has a digest however long it is."""
        following = b"\0\0" + bytes(exiftool.WHOLE_FILE)
        write(self.path("a.jpg"), jpeg(app1(A))[: 2 + 4 + 6 + len(A)] + following)
        _, (rest,) = sides(self.path("a.jpg"))
        self.assertIn("no marker", rest.what)
        self.assertEqual(rest.digest, hashlib.sha256(following).hexdigest())


class Explained(WithPictures):
    """`explain` names tiled, pyramid and Big TIFFs, and why a packet is unreadable."""

    def explained(self, kind, octets):
        return "\n".join(explain.explain(kind, octets).lines())

    def test_packets(self):
        lines = self.explained("xmp", b"<x").splitlines()
        self.assertEqual(lines[:2], ["xmp: unreadable: NotWellFormed", "  The packet is not well-formed XML."])
        self.assertTrue(any("Remedy: `exifnorm-pictures mend`" in it for it in lines), lines)
        self.assertEqual(self.explained("xmp", T), "xmp: ok xmp")

    def test_of_a_picture(self):
        write(self.path("a.jpg"), jpeg(app1(A), app1_xmp(b"<x")))
        lines = self.asked("explain", "a.jpg", status=2)
        self.assertEqual(lines[:2], ["XMP: unreadable: NotWellFormed", "  The packet is not well-formed XML."])
        self.assertIn("Exif: ok", lines)
        found = json.loads(self.asked("explain", "--json", "a.jpg", status=2)[0])
        self.assertEqual((found["kind"], found["sentence"]), ("xmp", "The packet is not well-formed XML."))

    def test_show_and_changed_name_the_properties(self):
        for side, text in (("before", "one"), ("after", "two")):
            put(self.folder, {f"{side}/a.jpg": jpeg(app1(A), app1_xmp(title(text)))})
        lines = self.asked("show", "--exact", "before/a.jpg")
        self.assertIn(["dc:format", "text", '"one"'], [it.split() for it in lines])
        words = "\n".join(self.asked("changed", "before", "after", "--each", status=1))
        self.assertIn('XMP-dc:format: "one" -> "two"', words)
        self.assertIn("Exif is the same, XMP is different, no IPTC", words)


# ---- Pairs of pictures that must never be called the same, each beside a pair that must be.
# The bytes are made here by the formats' rules, so what differs is known without a reader of ours.

# Parts of a file


def parts():
    """The same block in another part of the file says something of another picture."""
    block_a = exif(b"abc")
    for name, first in (("Exif", app1(block_a)), ("IPTC", app13(resource(0x0404, iim(b"a")))), ("XMP", app1_xmp(title("a")))):
        yield Pair(f"{name} of the first MPF picture and of the second", mpf(first, jpeg()), mpf(b"", jpeg(first)), DIFFERENT)
        yield Pair(f"{name} of both MPF pictures", mpf(first, jpeg(first)), mpf(first, jpeg(first), order="<"), SAME)
    for name, it in (("IPTC", (0x83BB, UNDEFINED, iim(b"ab"))), ("XMP", (0x02BC, 1, title("a")))):
        yield Pair(f"{name} of page 1 and of page 2", tiff(page(it), page()), tiff(page(), page(it)), DIFFERENT)
        yield Pair(f"{name} of page 1 in both byte orders", tiff(page(it), page()), tiff(page(it), page(), order="<"), SAME)
    pieces, named = extension(xmp("<dc:format>long</dc:format>"))
    asks = app1_xmp(xmp(f"<note:HasExtendedXMP>{named}</note:HasExtendedXMP>"))
    whole = asks + b"".join(pieces)
    yield Pair("extended XMP beside its packet and in another picture", mpf(whole, jpeg()), mpf(asks, jpeg(*pieces)), UNDECIDED)
    yield Pair("extended XMP in other pieces", jpeg(whole), jpeg(asks, *extension(xmp("<dc:format>long</dc:format>"), 50)[0]), SAME)


# Bytes that only a MakerNote or another private pointer can reach


def reached():
    """A block whose MakerNote, or Kodak's directory, may lead to bytes that no field has."""
    pointers = {
        "a MakerNote": lambda at: block([MAKE, entry(0x8769, LONG, 1, 38)])
        + table([entry(0x927C, UNDEFINED, 8, max(at - 8, 0))])
        + b"Note\0\0\0\1",
        "Kodak's directory": lambda at: block([MAKE, entry(0x8290, LONG, 1, at)]),
        "global parameters": lambda at: block([MAKE, entry(0x0190, LONG, 1, at)]),
    }
    for name, make in pointers.items():
        at = len(make(0))
        holders = {
            "JPEG": lambda octets: jpeg(app1(octets)),
            "PNG": lambda octets: png(chunk(b"eXIf", octets)),
            "WebP": lambda octets: webp((b"EXIF", octets)),
        }
        for kind, holder in holders.items():
            one, other = (holder(make(at) + text) for text in (b"Anna ", b"Otto "))
            yield Pair(f"{kind}: bytes behind {name} that differ", one, other, UNDECIDED)
            is_open = name == "a MakerNote"  # in a block of other bytes; ExifTool isn't asked here
            yield Pair(f"{kind}: bytes behind {name} that are equal", one, holder(make(at) + b"Anna \0\0"), UNDECIDED if is_open else SAME)
            yield Pair(f"{kind}: bytes behind {name} that have moved", one, holder(make(at) + b"\0Anna "), UNDECIDED)
    note = (0x8769, LONG, [(0x927C, UNDEFINED, b"a note that leads elsewhere")])
    one, other = (tiff(page(note), more=octets) for octets in (b"Anna\0\0", b"\0\0Anna"))
    yield Pair("TIFF: bytes before a MakerNote that have moved", one, other, UNDECIDED)
    plain = block([MAKE])
    yield Pair("filling that nothing leads to", jpeg(app1(plain + b"\0\0\0")), jpeg(app1(plain)), SAME)


# Pointers of a TIFF


def of_type(octets, tag, kind, order=">"):
    """A file in which the pointer of a tag has another type."""
    return octets.replace(struct.pack(order + "HH", tag, LONG), struct.pack(order + "HH", tag, kind))


def pointers():
    """libtiff gives the pointers to the Exif and the GPS directory the type IFD. What is there counts."""
    for tag, rows in ((0x8769, [(0x8827, 3, 200), (0xA005, LONG, [(1, ASCII, b"R98")])]), (0x8825, [(1, ASCII, b"N\0")])):
        one, other = (tiff(page((tag, LONG, some))) for some in (rows, [*rows, (0x1D, ASCII, b"2026:11:27\0")]))
        yield Pair(f"TIFF: the pointer {tag:04x} of type IFD", one, of_type(one, tag, 13), SAME)
        yield Pair(f"TIFF: the pointer {tag:04x} of type IFD, and another field", one, of_type(other, tag, 13), DIFFERENT)
    one = of_type(one, 0xA005, 13)
    yield Pair("TIFF: a pointer of type 14", one, of_type(one, 0x8825, 14), UNDECIDED)


# Segments of a JPEG


SEGMENTS = {
    "FlashPix": (0xE2, b"FPXR\0\0\1\0\0"),
    "Ducky": (0xEC, b"Ducky\0\0\2\0\5\0\0\0\1"),
    "PictureInfo": (0xEC, b"[picture info]\r\nResolution="),
    "RMETA": (0xE5, b"RMETA\0"),
    "GoPro": (0xE6, b"GoPro\0"),
    "PrintIM": (0xE6, b"Vnd.PrintIM\0"),
    "unknown": (0xE9, b"Maker of nothing\0"),
}


def segments():
    """A segment that a reader of metadata may show."""
    for name, (marker, head) in SEGMENTS.items():
        one, other = (segment(marker, head + text) for text in (b"Anna", b"Otto"))
        first = jpeg(app1(exif(b"abc")), one)
        yield Pair(f"{name} that differs", first, jpeg(app1(exif(b"abc")), other), UNDECIDED)
        yield Pair(f"{name} that is missing", first, jpeg(app1(exif(b"abc"))), UNDECIDED)
        yield Pair(f"{name} in another place", first, jpeg(one, app1(exif(b"abc"))), SAME)


# IPTC and XMP


def long_tiff(record, order):
    """A TIFF whose IPTC is LONGs: a writer in the other byte order swaps them (ExifTool and Photoshop read both)."""
    record += bytes(-len(record) % 4)
    data = record if order == ">" else b"".join(record[at : at + 4][::-1] for at in range(0, len(record), 4))
    made = bytearray(tiff(page((0x83BB, UNDEFINED, data)), order=order))
    at = bytes(made).index(struct.pack(order + "HHI", 0x83BB, UNDEFINED, len(data)))
    struct.pack_into(order + "HHI", made, at, 0x83BB, LONG, len(data) // 4)
    return bytes(made)


def texts():
    """IPTC in LONGs, and properties of XMP."""
    record = iim(b"abc") + iim(b"defg")
    yield Pair("IPTC in LONGs of both byte orders", long_tiff(record, ">"), long_tiff(record, "<"), SAME)
    yield Pair("IPTC in LONGs of another meaning", long_tiff(record, ">"), long_tiff(record.replace(b"g", b"h"), "<"), DIFFERENT)
    twice = "<dc:format>{}</dc:format><dc:format>{}</dc:format>".format
    ordered = [jpeg(app1_xmp(xmp(twice(*it)))) for it in ("ab", "ba")]
    yield Pair("a property twice, in another order", *ordered, DIFFERENT)
    yield Pair("a property twice, in the same order", ordered[0], jpeg(app1_xmp(xmp(twice("a", "b") + " "))), SAME)
    plain = title("a")
    yield Pair("about without its prefix", jpeg(app1_xmp(plain)), jpeg(app1_xmp(plain.replace(b"rdf:about", b"about"))), SAME)


# Damage


def damages():
    """A file of which a part can't be read."""
    yield Pair("no field, and no block", jpeg(app1(b"MM\0*\0\0\0\x08" + table([]))), jpeg(), SAME)
    yield Pair("a resource of no bytes, and no resource", jpeg(app13(resource(0x0404, b""))), jpeg(), SAME)
    cut = jpeg(app1(exif(b"abc")), segment(0xE4, bytes(100)))
    end = cut.index(b"\xff\xe4") + 40
    yield Pair("a JPEG that is cut after its Exif", cut, cut[:end], UNDECIDED)
    yield Pair("two JPEGs that are cut in another part", cut[:end], cut[: end - 1], UNDECIDED)
    commented = [(jpeg(app1(exif(b"abc")), segment(0xFE, it)) + b"\xff\xe4\0\x99a").replace(b"\xff\xd9", b"") for it in (b"one", b"two")]
    yield Pair("two JPEGs that are cut after another comment", *commented, SAME)
    yield Pair("two JPEGs that are cut and have other Exif", cut[:end], cut[:end].replace(b"abc", b"xyz"), DIFFERENT)


@of_pairs(parts, reached, pointers, segments, texts, damages)
def test_pair(pair, compared):
    status, objects = compared(pair.before, pair.after)
    assert status == pair.status, objects


@of_pairs(parts, segments, texts, damages)
def test_a_file_is_the_same_as_itself(pair, compared):
    """What can be decided at all: no part of these files makes two copies differ."""
    status, objects = compared(pair.before, pair.before)
    assert status != DIFFERENT, objects


@pytest.mark.parametrize("kind, count", [(ASCII, 1), (LONG, 1 << 20)], ids=["another type", "a list that isn't in the file"])
def test_a_tiff_with_damaged_offsets(kind, count, compared):
    """ExifTool no longer finds the artist in some of them, so such a file is never the same as the whole one."""
    whole = tiff(page((0x013B, ASCII, b"Anna\0")))
    at = whole.index(struct.pack(">HHI", 0x0111, LONG, 1))
    status, objects = compared(whole, whole[:at] + struct.pack(">HHI", 0x0111, kind, count) + whole[at + 8 :])
    assert status != SAME, objects


# Files that no reader reads


@pytest.mark.parametrize(
    "name, one, other, expected",
    [
        ("page.jpg", b"<html>Anna</html>", b"<html>Otto</html>", DIFFERENT),
        ("film.mp4", b"\0\0\0\x18ftypmp42Anna", b"\0\0\0\x18ftypmp42Otto", DIFFERENT),
        (
            "raw.cr3",
            b"\0\0\0\x18ftypcrx Anna",
            b"\0\0\0\x18ftypcrx Otto",
            UNDECIDED,
        ),  # which ExifTool might read, but no program is started
        ("layers.psd", b"8BPS\0\1Anna", b"8BPS\0\1Otto", UNDECIDED),
    ],
)
def test_files_without_a_reader(name, one, other, expected, compared):
    status, objects = compared(one, other, name)
    assert status == expected, objects
    assert ("bytes" in objects[0]["result"]) == (expected == DIFFERENT)


def test_a_block_in_the_place_of_the_other_kind(called):
    """It is refused with the library's cause for such a picture, although it is a block."""
    import exifnorm

    places = {"iptc": jpeg(with_record(exif(b"Abc"))), "exif": jpeg(app1(iim(b"one")))}
    for kind, picture in places.items():
        with pytest.raises(exifnorm.PictureRefused) as refused:
            exifnorm.jpeg_same(picture, picture)
        block = json.loads(called("show", "a.jpg", "--json", a=picture)[1])["blocks"][0]
        assert (block["kind"], block["cause"], block["offset"]) == (kind, refused.value.cause, refused.value.offset)
        assert block["fields"] == []


# ---- Pictures that ExifTool has written anew, with a field that it added and then removed: their parts have moved, and they are the same.

# The main directory with its values in another order than its entries, in which ExifTool writes them
MAIN = b"II*\0\x08\0\0\0" + struct.pack("<HHHIIHHIII", 2, 0x010F, 2, 6, 44, 0x0110, 2, 6, 38, 0) + b"EOS R\0Canon\0"
MADE = {
    "heic": test_heif.WHOLE,
    "avif": test_heif.READ["AVIF"][0],
    "psd": test_psd.WHOLE,
    "psb": test_psd.READ["PSB"][0],
    "gif": test_gif.WHOLE,
    "jxl": test_jxl.READ["both"][0],
    "jp2": test_jp2.READ["all"][0],
    "cr3": cr3(
        *test_cr3.structures(main=MAIN, filling=bytes(100)),
        box(b"CTBO", struct.pack(">IIQQ", 1, 1, 620, 100)),
        packet=test_cr3.T + b" " * 100,
    ),
}


@needs("exiftool")
@pytest.mark.parametrize("kind", MADE)
def test_it(kind, folder, capsys):
    for side in ("before", "after"):
        put(folder, {f"{side}/a.{kind}": MADE[kind]})
    for value in ("a text", ""):
        tool(
            folder / "after",
            "exiftool",
            "-config",
            "",
            "-q",
            "-q",
            "-overwrite_original",
            f"-XMP-dc:Source={value}",
            f"-IFD0:Software={value}",
            f"a.{kind}",
        )
    assert (folder / "after" / f"a.{kind}").read_bytes() != MADE[kind]
    status = main._run(["changed", str(folder / "before"), str(folder / "after"), "--all"])
    assert (status, capsys.readouterr().out.splitlines()[-2]) == (0, "1 same")
