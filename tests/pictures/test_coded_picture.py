"""The digest of the coded picture: equal after each change of metadata, and another one after each change of what pixels are decoded from.

What decides the pixels is in the formats' standards: ITU T.81, the PNG specification, RFC 9649, TIFF 6.0.
"""

import hashlib
import io
import itertools
import json
import os
import random
import re
import struct
import zlib

import pytest
from made_blocks import ASCII, LONG, SHORT, segment
from made_files import A, B, Placed, app1, app1_xmp, app13, chunk, iim, jpeg, mpf, page, png, png_xmp, profile, resource, tiff, title, webp
from made_raw import dng, srw
from studio import SMALL_JPEG, needs, put, tool, write

from exifnorm_pictures.extract import coded_picture
from exifnorm_pictures.model.budgets import BYTES_READ, Budget, TooMuch
from exifnorm_pictures.model.found import Broken

T, K = title("one"), iim(b"one")


def digest(octets):
    return coded_picture.followed(io.BytesIO(octets), Budget())[0]


def pixel(data, **more):
    """The entries of a TIFF's page whose strip is in the file."""
    known = {0x111: (LONG, Placed(data)), 0x117: (LONG, len(data)), **{int(key[1:], 16): it for key, it in more.items()}}
    return page(*((tag, *it) for tag, it in known.items()))


def file_of(*entries, order=">", data=b"abcdefgh"):
    """A TIFF whose strips are in these bytes, at 8, of entries as they are in the file: tag, type, count, and last four bytes."""
    rows = b"".join(struct.pack(order + "HHI", *it[:3]) + it[3] for it in sorted(entries))
    head = (b"MM\0*" if order == ">" else b"II*\0") + struct.pack(order + "I", 8 + len(data))
    return head + data + struct.pack(order + "H", len(entries)) + rows + bytes(4)


def entries_of(order=">", **more):
    """A page of eight points of a row, and other entries by their tags."""
    numbers = {0x100: 8, 0x101: 1, 0x102: 8, 0x103: 1, 0x106: 1, 0x111: 8, 0x115: 1, 0x116: 1, 0x117: 8}
    numbers.update({int(key[1:], 16): it for key, it in more.items()})
    return [it if isinstance(it, tuple) else (tag, LONG, 1, struct.pack(order + "I", it)) for tag, it in numbers.items() if it is not None]


def frame(names, *segments):
    """A JPEG of three components with these names; what is behind its tables is no data of a picture, which nothing here decodes."""
    parts = b"".join(bytes([it, 0x11, 0]) for it in names)
    scan = b"\xff\xda" + struct.pack(">HB", 12, 3) + b"".join(bytes([it, 0]) for it in names) + b"\0\x3f\0"
    return b"\xff\xd8" + b"".join(segments) + segment(0xC0, b"\x08\0\1\0\1\3" + parts) + scan + b"data\xff\xd9"


JFIF, RGB = segment(0xE0, b"JFIF\0\1\1\0\0\1\0\1\0\0"), segment(0xEE, b"Adobe\0d\0\0\0\0\0")
VP8L = b"\x2f" + struct.pack("<I", 1 << 28) + b"data"  # transparent somewhere (RFC 9649, 3.4)
SCAN = SMALL_JPEG.index(b"\xff\xda")
VP8 = b"VP8 of a picture"

SAME = {
    "JPEG: Exif": (SMALL_JPEG, jpeg(app1(A))),
    "JPEG: XMP and IPTC": (jpeg(app1_xmp(T)), jpeg(app13(resource(0x0404, K)))),
    "JPEG: a comment": (SMALL_JPEG, jpeg(segment(0xFE, b"comment"))),
    "JPEG: an ICC profile": (SMALL_JPEG, jpeg(segment(0xE2, b"ICC_PROFILE\0\1\1profile"))),
    "JPEG: a trailer": (SMALL_JPEG, jpeg(behind=b"trailer")),
    "JPEG: a second picture": (SMALL_JPEG, mpf(app1(A), jpeg(app1(B)))),
    "JPEG: fill bytes": (SMALL_JPEG, jpeg(b"\xff\xff" + app1(A))),
    "JPEG: metadata between scans": (SMALL_JPEG, SMALL_JPEG[:-2] + app1(A) + SMALL_JPEG[-2:]),
    "PNG: Exif, XMP and profiles": (png(chunk(b"eXIf", A)), png(png_xmp(T), profile(b"iptc", K))),
    "PNG: a trailer": (png(), png(behind=b"trailer")),
    "WebP: Exif": (webp((b"VP8 ", VP8)), webp((b"VP8 ", VP8), (b"EXIF", A))),
    "WebP: flags of metadata": (webp((b"VP8 ", VP8)), webp((b"VP8X", b"\x0c\0\0\0" + bytes(6)), (b"VP8 ", VP8))),
    "WebP: flags of metadata of an animation": (
        webp((b"VP8X", b"\x0a\0\0\0" + bytes(6)), (b"ANIM", VP8)),
        webp((b"VP8X", b"\x06\0\0\0" + bytes(6)), (b"ANIM", VP8)),
    ),
    "TIFF: Artist": (tiff(pixel(b"abcd")), tiff(pixel(b"abcd", x13b=(ASCII, b"Anna\0")))),
    "TIFF: another place": (tiff(pixel(b"abcd")), tiff(pixel(b"abcd"), more=bytes(40))),
    "TIFF: LONG in place of SHORT": (tiff(pixel(b"abcd", x102=(SHORT, 8))), tiff(pixel(b"abcd", x102=(LONG, 8)))),
    "TIFF: a trailer": (tiff(pixel(b"abcd")), tiff(pixel(b"abcd"), behind=b"trailer")),
    "JPEG: JFIF, where other segments decide as it does": (
        frame(b"\1\2\3", JFIF, segment(0xEE, b"Adobe\0d\0\0\0\0\1")),
        frame(b"\1\2\3", segment(0xEE, b"Adobe\0d\0\0\0\0\1")),
    ),
    "JPEG: JFIF of usual names": (frame(b"\1\2\3", JFIF), frame(b"\1\2\3")),
    "WebP: VP8X of what is transparent": (webp((b"VP8L", VP8L)), webp((b"VP8X", b"\x1c\0\0\0" + bytes(6)), (b"VP8L", VP8L))),
    "WebP: VP8X of what isn't transparent": (
        webp((b"VP8L", VP8L[:1] + bytes(8))),
        webp((b"VP8X", bytes(10)), (b"VP8L", VP8L[:1] + bytes(8))),
    ),
    "TIFF: orientation, which is a field": (file_of(*entries_of()), file_of(*entries_of(x112=6))),
    "TIFF: the byte order of samples of a byte": (file_of(*entries_of()), file_of(*entries_of("<"), order="<")),
    "DNG: another artist": (dng(b"Anna"), dng(b"Otto", gap=40)),
}
DIFFERENT = {
    "JPEG: a byte of the scan": (SMALL_JPEG, SMALL_JPEG[: SCAN + 16] + b"\x11" + SMALL_JPEG[SCAN + 17 :]),
    "JPEG: quantization": (SMALL_JPEG, SMALL_JPEG.replace(b"\xff\xdb\0\x43\0", b"\xff\xdb\0\x43\1", 1)),
    "JPEG: Adobe's colour transform": (jpeg(segment(0xEE, b"Adobe\0d\0\0\0\0\1")), jpeg(segment(0xEE, b"Adobe\0d\0\0\0\0\0"))),
    "JPEG: a progressive frame, of the same bytes": (SMALL_JPEG, SMALL_JPEG.replace(b"\xff\xc0", b"\xff\xc2", 1)),  # T.81, table B.1
    "JPEG: tables that another one has swallowed": (
        jpeg(segment(0xDB, b"\0" * 65), segment(0xC4, b"abcd")),
        jpeg(segment(0xDB, b"\0" * 65 + b"\xff\xc4abcd")),
    ),
    "JPEG: JFIF beside Adobe's RGB": (frame(b"\1\2\3", JFIF, RGB), frame(b"\1\2\3", RGB)),
    "JPEG: JFIF of components R, G and B": (frame(b"RGB", JFIF), frame(b"RGB")),
    "PNG: a chunk in the data": (
        png().replace(b"\0\0\0\0IEND", chunk(b"fdAT", b"abcd") + b"\0\0\0\0IEND"),
        png().replace(
            chunk(b"IDAT", zlib.compress(b"\0\0")),
            chunk(b"IDAT", zlib.compress(b"\0\0") + chunk(b"fdAT", b"abcd")[4:8] + chunk(b"fdAT", b"abcd")[:4] + b"abcd"),
        ),
    ),
    "PNG: data": (png(), png().replace(chunk(b"IDAT", zlib.compress(b"\0\0")), chunk(b"IDAT", zlib.compress(b"\0\1")))),
    "PNG: a palette": (png(chunk(b"PLTE", b"abc")), png(chunk(b"PLTE", b"abd"))),
    "PNG: transparency": (png(chunk(b"tRNS", b"ab")), png(chunk(b"tRNS", b"ac"))),
    "WebP: data": (webp((b"VP8 ", VP8)), webp((b"VP8 ", VP8 + b"!"))),
    "WebP: kind": (webp((b"VP8 ", VP8)), webp((b"VP8L", VP8))),
    "WebP: alpha": (webp((b"ALPH", b"a"), (b"VP8 ", VP8)), webp((b"ALPH", b"b"), (b"VP8 ", VP8))),
    "WebP: the size of an animation": (
        webp((b"VP8X", b"\2\0\0\0" + bytes(6)), (b"ANIM", VP8)),
        webp((b"VP8X", b"\2\0\0\0" + b"\1" + bytes(5)), (b"ANIM", VP8)),
    ),
    "WebP: transparency that VP8X doesn't name": (
        webp((b"VP8X", b"\x10\0\0\0" + bytes(6)), (b"ALPH", b"a"), (b"VP8 ", VP8)),
        webp((b"VP8X", bytes(10)), (b"ALPH", b"a"), (b"VP8 ", VP8)),
    ),
    "WebP: lossless transparency that VP8X doesn't name": (webp((b"VP8L", VP8L)), webp((b"VP8X", bytes(10)), (b"VP8L", VP8L))),
    "WebP: transparency of an animation": (
        webp((b"VP8X", b"\x12\0\0\0" + bytes(6)), (b"ANMF", VP8)),
        webp((b"VP8X", b"\2\0\0\0" + bytes(6)), (b"ANMF", VP8)),
    ),
    "TIFF: the byte order of samples of two bytes": (
        file_of(*entries_of(x100=4, x102=16)),
        file_of(*entries_of("<", x100=4, x102=16), order="<"),
    ),
    "TIFF: a SubIFD in place of a page": (tiff(pixel(b"ab", x14a=(LONG, pixel(b"cd")))), tiff(pixel(b"ab"), pixel(b"cd"))),
    "TIFF: pages exchanged": (tiff(pixel(b"ab"), pixel(b"cd")), tiff(pixel(b"cd"), pixel(b"ab"))),
    "TIFF: tables of JPEG that swallow other entries": (
        tiff(pixel(b"abcd", x15b=(7, b"tables"), x200=(SHORT, 1))),
        tiff(pixel(b"abcd", x15b=(7, b"tables 512:1"))),
    ),
    "TIFF: slices of CR2": (tiff(pixel(b"abcd", xc640=(7, b"123456"))), tiff(pixel(b"abcd", xc640=(7, b"123457")))),
    "SRW: the table of rows": (srw(), srw().replace(b"\xbb" * 16, b"\xbb" * 15 + b"\xbc")),
    "TIFF: a strip": (tiff(pixel(b"abcd")), tiff(pixel(b"abce"))),
    "TIFF: a second page": (tiff(pixel(b"abcd")), tiff(pixel(b"abcd"), pixel(b"abcd"))),
    "TIFF: a SubIFD": (tiff(pixel(b"ab", x14a=(LONG, pixel(b"cd")))), tiff(pixel(b"ab", x14a=(LONG, pixel(b"ce"))))),
    **{
        f"TIFF: tag {tag[1:]}": tuple(tiff(pixel(b"abcd", **{"x116": (SHORT, 4), tag: (SHORT, it)})) for it in (2, 3))
        for tag in "x100 x101 x102 x103 x106 x10a x115 x116 x11c x124 x125 x13d x142 x143 x14c x152 x153 x211 x212".split()
    },
    "TIFF: a colour map": (tiff(pixel(b"abcd", x140=(SHORT, b"abcdef"))), tiff(pixel(b"abcd", x140=(SHORT, b"abcdeg")))),
}
NONE = {
    "GIF": b"GIF89a",
    "no picture": b"no picture at all",
    "nothing": b"",
    "a JPEG without an end": SMALL_JPEG[:-2],
    "a JPEG without a scan": b"\xff\xd8" + app1(A) + b"\xff\xd9",
    "a WebP that is cut": webp((b"VP8 ", VP8))[:-3],
    "a TIFF with a strip outside": tiff(pixel(b"abcd", x111=(LONG, 0x7FFFFFF0))),
    "TIFF, strips without lengths": tiff([it for it in pixel(b"abcd") if it[0] != 0x117]),
    "a TIFF with old tables": tiff(pixel(b"abcd", x207=(LONG, 8))),
    "a TIFF with its width outside": file_of(*entries_of(x100=(0x100, LONG, 2, b"\x7f\0\0\0"))),
    # What readers take otherwise than it is written
    "TIFF, two widths": file_of(*entries_of(), (0x100, LONG, 1, b"\0\0\0\7")),
    "TIFF, two strips": file_of(*entries_of(), (0x111, LONG, 1, b"\0\0\0\x0a")),
    "TIFF, a strip of no length": file_of(*entries_of(x117=0)),
    "TIFF, no strip": file_of(*entries_of(x111=0, x117=0)),
    "TIFF, a short strip": file_of(*entries_of(x117=7)),
    "TIFF, a strip for two rows": file_of(*entries_of(x101=2, x100=4, x116=1)),
    "TIFF, a short strip of samples": file_of(*entries_of(x115=2)),
    "TIFF, a short tile": file_of(*entries_of(x111=None, x117=None, x142=4, x143=4, x144=8, x145=8)),
    "TIFF, a width of another type": file_of(*entries_of(x100=(0x100, 9, 1, b"\0\0\0\x08"))),
    "TIFF, lengths of tiles": file_of(*entries_of(x145=2)),
    "TIFF, a private directory": file_of(*entries_of(x8290=8)),
}


@pytest.mark.parametrize("one, other", SAME.values(), ids=SAME)
def test_the_same(one, other):
    assert digest(one) == digest(other) != ""
    assert one != other


@pytest.mark.parametrize("one, other", DIFFERENT.values(), ids=DIFFERENT)
def test_different(one, other):
    assert one != other
    assert digest(one) != digest(other) != ""


@pytest.mark.parametrize("octets", NONE.values(), ids=NONE)
def test_none(octets, tmp_path):
    write(tmp_path / "a", octets)
    assert coded_picture.of_file(bytes(tmp_path / "a"), Budget()).digest == ""


@pytest.mark.parametrize("name", ["a.iiq", "a.3FR", "a.tif"])
def test_raw_pictures_of_other_makers(name, tmp_path):
    """It isn't known where the pixels of a raw picture are that is left to ExifTool: its directories may have a preview alone."""
    write(tmp_path / name, tiff(pixel(b"abcd")))
    assert (coded_picture.of_file(bytes(tmp_path / name), Budget()).digest == "") is not name.endswith(".tif")


def test_a_png_that_is_cut_anywhere_says_in_which_chunk():
    parts = [b"\x89PNG\r\n\x1a\n", *(chunk(kind, bytes(9)) for kind in (b"IHDR", b"tEXt", b"IDAT", b"IDAT")), chunk(b"IEND", b"")]
    starts = [0, *itertools.accumulate(map(len, parts))]
    for start, end in zip(starts[1:], starts[2:]):
        for length in range(start, end):
            found = coded_picture.of_stream(io.BytesIO(b"".join(parts)[:length]), Budget())
            assert (found.digest, int(re.findall(r"\d+", found.damage)[-1])) == ("", start), length


def test_idat_in_other_pieces():
    """All IDAT chunks are one stream of data (PNG specification, 11.2.3)."""
    data = zlib.compress(b"\0\0")
    whole = chunk(b"IDAT", data)
    assert digest(png()) == digest(png().replace(whole, chunk(b"IDAT", data[:3]) + chunk(b"IDAT", data[3:])))
    assert digest(png()) != digest(png().replace(whole, chunk(b"IDAT", data[:3]) + chunk(b"PLTE", b"abc") + chunk(b"IDAT", data[3:])))


def test_the_order_of_strips():
    one, other = (struct.pack(">II", *it) for it in ((8, 12), (12, 8)))
    strips = [tiff(page((0x111, LONG, 0), (0x117, LONG, 0)), more=b"abcdefgh") for _ in "ab"]
    for at, it in enumerate((one, other)):
        made = bytearray(strips[at])
        place = len(made)
        made += it + struct.pack(">II", 4, 4)
        for tag, where in ((0x111, place), (0x117, place + 8)):
            entry = bytes(made).index(struct.pack(">HHI", tag, LONG, 1))
            struct.pack_into(">HHII", made, entry, tag, LONG, 2, where)
        strips[at] = bytes(made)
    assert digest(strips[0]) != digest(strips[1]) != ""


class TestHarm:
    """Files made to cost time: a limit ends each."""

    def ends(self, octets):
        with pytest.raises((Broken, TooMuch)):
            digest(octets)

    def test_markers(self):
        self.ends(b"\xff\xd8" + b"\xff" * 200_000)
        self.ends(b"\xff\xd8" + b"\xff\xfe\0\2" * 100_001 + SMALL_JPEG[2:])

    def test_chunks(self):
        self.ends(png(*[chunk(b"tEXt", b"")] * 125_001))
        self.ends(webp(*[(b"XMP ", b"")] * 125_001))

    def test_strips_that_share_bytes(self):
        """A thousand pages with the same megabyte are no gigabyte to read."""
        strip = b"a" * (1 << 20)
        octets = bytearray(b"MM\0*" + struct.pack(">I", 8 + len(strip)) + strip)
        for number in range(1000):
            following = len(octets) + 30 if number < 999 else 0
            octets += struct.pack(">HHHIIHHIII", 2, 0x111, LONG, 1, 8, 0x117, LONG, 1, len(strip), following)
        self.ends(bytes(octets))


def test_a_picture_has_one_budget(tmp_path):
    """What was read for its blocks counts: a digest may not cost a second budget."""
    write(tmp_path / "a", jpeg(base=SMALL_JPEG[:-2] + bytes(100_000) + SMALL_JPEG[-2:]))
    budget = Budget()
    assert coded_picture.of_file(bytes(tmp_path / "a"), budget).digest != ""
    budget.left[BYTES_READ] = 1000
    assert coded_picture.of_file(bytes(tmp_path / "a"), budget).digest == ""


def pixels(image, octets):
    """What Pillow decodes, but for the orientation, by which it turns a picture; None if it decodes nothing."""
    try:
        found = image.open(io.BytesIO(octets))
        if found.width * found.height > 1 << 16 or found.tag_v2.get(0x112, 1) != 1:
            return None
        return found.mode, found.size, (found.convert("RGB") if found.mode == "P" else found).tobytes()
    except Exception:
        return None


@pytest.mark.filterwarnings("ignore:")  # of Pillow, about the changes
@pytest.mark.parametrize("mode", ["RGB", "L", "P", "I;16", "CMYK"])
def test_equal_digests_are_equal_pixels(mode):
    """Of changed TIFFs, two with one digest are decoded by Pillow to the same pixels."""
    image, chance, count = pytest.importorskip("PIL.Image"), random.Random(mode), 0
    made = io.BytesIO()
    image.frombytes(mode, (9, 5), chance.randbytes(9 * 5 * {"RGB": 3, "I;16": 2, "CMYK": 4}.get(mode, 1))).save(made, "TIFF")
    whole = made.getvalue()
    (at,) = struct.unpack_from("<I", whole, 4)
    for _ in range(700):
        octets = bytearray(whole)
        for _ in range(chance.choice((1, 2))):
            row = at + 2 + 12 * chance.randrange(struct.unpack_from("<H", whole, at)[0])
            form, place, most = chance.choice((("<H", 0, 0x220), ("<H", 2, 14), ("<I", 4, 4), ("<I", 8, 12), ("<I", 8, len(whole))))
            struct.pack_into(form, octets, row + place, chance.randrange(most))
        other = bytearray(octets)
        for _ in range(3):
            other[chance.randrange(8, len(other))] ^= 1 << chance.randrange(8)
        found = [(coded_picture.of_stream(io.BytesIO(it), Budget()).digest, pixels(image, bytes(it))) for it in (octets, other, whole)]
        for (first, one), (second, two) in itertools.combinations(found, 2):
            if first and first == second and one and two:
                count += 1
                assert one == two, (bytes(octets).hex(), bytes(other).hex())
    assert count > 10, "too few pairs to show anything"


@needs("exiftool", "convert")
def test_beside_exiftool(tmp_path):
    """What ExifTool and ImageMagick write: the digest stays when metadata are written, and another picture has another one."""
    found = {}
    for name in ("a.jpg", "b.jpg", "a.png", "b.png", "a.tif", "b.tif", "a.webp", "b.webp"):
        colour = "tomato-steelblue" if name[0] == "a" else "black-white"
        more = ["-interlace", "Plane"] if name == "b.jpg" else []
        tool(tmp_path, "convert", "-size", "60x40", "-seed", "7", f"plasma:{colour}", *more, name)
        before = coded_picture.of_file(bytes(tmp_path / name), Budget()).digest
        words = ["-Artist=Anna", "-XMP:Title=Title", "-Comment=words"] + ["-IPTC:Keywords=one"] * (not name.endswith("webp"))
        tool(tmp_path, "exiftool", "-config", "", "-q", "-q", "-m", "-overwrite_original", *words, name)
        assert coded_picture.of_file(bytes(tmp_path / name), Budget()).digest == before != "", name
        found[name] = before
    assert len(set(found.values())) == len(found)


# The commands

OTHER = SMALL_JPEG[: SCAN + 16] + b"\x11" + SMALL_JPEG[SCAN + 17 :]


def test_groups_of_files(folder, called_lines):
    """Those with the same bytes by Python's SHA-256, whatever they are; names of one file are links."""
    rng = random.Random(64)
    kinds = [jpeg(app1(A)), jpeg(app1(B)), jpeg(app1(A))[:-9], b"", b"text", jpeg(app1(A), base=OTHER)]
    put(folder, {f"p/{number:02}.jpg": rng.choice(kinds) for number in range(20)})
    called_lines("index", "p", "--catalogue", "plain", "--quiet")
    status, lines, errors = called_lines("same", "plain", "--kind", "file")
    assert (status, lines) == (3, []) and "index --pixels" in errors
    os.link(folder / "p/00.jpg", folder / "p/link.jpg")
    called_lines("index", "p", "--catalogue", "c", "--pixels", "--quiet")
    expected = {}
    for number in range(20):
        octets = (folder / f"p/{number:02}.jpg").read_bytes()
        expected.setdefault(hashlib.sha256(octets).digest(), []).append(f"{number:02}.jpg")
    status, lines, _ = called_lines("same", "c", "--kind", "file", "--json")
    *groups, summary = map(json.loads, lines)
    found = [[os.path.basename(it["path"]) for it in group["pictures"]] for group in groups]
    assert status == 0 and sorted(found) == sorted(names for names in expected.values() if len(names) > 1)
    assert {group["basis"] for group in groups} == {"file"} and sum(len(group["links"]) for group in groups) == 1
    assert (summary["groups"], summary["undecided"]) == (len(groups), 0)
    assert called_lines("same", "c", "--kind", "file", "--only", "title")[0] == 3


ABSENT = ("missing after", None)
NEW = ("missing before", None)
# What is in the folders b and a, and what became of each picture
MOVES = {
    "written again with the same metadata, and a comment": (
        {"b/x.jpg": jpeg(app1(A)), "a/y.jpg": jpeg(segment(0xFE, b"comment"), app1(A))},
        {"x.jpg": ("moved and edited", "y.jpg")},
    ),
    # with two pictures that it may be, a picture is missing, unless one of them has its name
    "a copy isn't guessed": (
        {"b/x.jpg": jpeg(app1(A)), "a/y.jpg": jpeg(app1(B)), "a/z.jpg": jpeg(app1(B))},
        {"x.jpg": ABSENT, "y.jpg": NEW, "z.jpg": NEW},
    ),
    "one of the copies has its name": (
        {"b/x.jpg": jpeg(app1(A)), **{f"a/{name}.jpg": jpeg(app1(B)) for name in ("y", "z", "new/x")}},
        {"x.jpg": ("moved and edited", "new/x.jpg"), "y.jpg": NEW, "z.jpg": NEW},
    ),
    # which may have come from that one, as whatever has the same coded picture
    "a copy of a picture that stays": (
        {"b/x.jpg": jpeg(app1(A)), "b/y.jpg": jpeg(app1(B)), "a/y.jpg": jpeg(app1(B)), "a/z.jpg": jpeg(app1(B))},
        {"x.jpg": ABSENT, "z.jpg": NEW},
    ),
    # compared there, even if its coded picture is elsewhere now
    "a picture under its own name": (
        {"b/x.jpg": jpeg(app1(A)), "a/x.jpg": jpeg(app1(A), base=OTHER), "a/y.jpg": jpeg(app1(B))},
        {"x.jpg": ("other picture, the same metadata", None), "y.jpg": NEW},
    ),
}


@pytest.mark.parametrize("name", MOVES)
def test_what_became_of_a_picture(name, folder, changes):
    files, expected = MOVES[name]
    put(folder, files)
    found = changes("b", "a", "--pixels")[1]
    assert {path: (it["result"], (it["moved_to"] or {}).get("path")) for path, it in found.items()} == expected
