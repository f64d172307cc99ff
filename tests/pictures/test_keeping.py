"""Which picture of a group of `same` may go: one whose metadata and whose whole picture another one has that stays."""

import csv
import io
import json
import os
import random
import struct

import pytest
from made_blocks import ASCII, LONG, segment
from made_files import app1, app1_xmp, chunk, exif, jpeg, page, png, tiff, turned
from studio import SMALL_JPEG, needs, put, sql_rows

A = exif(b"abc")
OTHER = SMALL_JPEG.replace(b"\xff\xdb\0\x43\0", b"\xff\xdb\0\x43\1", 1)  # another table of quantization, so another picture
MASTER, AGAIN, SMALLER = jpeg(app1(A)), jpeg(app1(turned(A))), jpeg(app1(A), base=OTHER)
CUT = MASTER[:-20]
PROFILE = jpeg(app1(A), segment(0xE2, b"ICC_PROFILE\0\1\1a profile"))
COMMENT = jpeg(app1(A), segment(0xFE, b"scanned by Anna"))
PNG_A, PNG_B = png(chunk(b"eXIf", A)), png(chunk(b"eXIf", A), chunk(b"tEXt", b"Comment\0by Anna"))
PNG_C, PNG_D = png(chunk(b"eXIf", A), chunk(b"iCCP", b"x\0\0abc")), png(chunk(b"eXIf", A), chunk(b"prIv", b"1234567"))
PNG_PARTS = "colour profile added, tEXt chunk Comment removed", "prIv chunk added, tEXt chunk Comment removed"
NOT_KNOWN = "whether its picture is that of another one isn't known: index --pixels finds out"
NO_STRIP = tiff(page((0x010F, ASCII, b"abc\0"), (0x0117, LONG, bytes(8))))  # two lengths of one strip
NO_LENGTHS = "damaged: the strips of the directory at 16 have no lengths"
DAMAGED = "damaged: the file ends before the end mark of its picture"
ALONE = "no other one has the same picture"
OTHER_PARTS = "other parts than one with the same picture: {}"

# Files by name, and whether each stays, without the digests of pictures and with them
CASES = {
    "a cut copy comes first": ({"copy": CUT, "vase": MASTER}, (DAMAGED, NOT_KNOWN), (DAMAGED, ALONE)),
    "a smaller copy": ({"a": SMALLER, "m": MASTER}, (NOT_KNOWN, NOT_KNOWN), (ALONE, ALONE)),
    "equal files": ({"a": MASTER, "b": MASTER}, (True, False), (True, False)),
    "equal files and a smaller one": ({"a": SMALLER, "b": MASTER, "c": MASTER}, (NOT_KNOWN, True, False), (ALONE, True, False)),
    "written again": ({"a": MASTER, "b": AGAIN}, (NOT_KNOWN, NOT_KNOWN), (True, False)),
    "a copy without the colour profile": ({"a": MASTER, "m": PROFILE}, (NOT_KNOWN, NOT_KNOWN), (False, True)),
    "two with the colour profile": ({"a": MASTER, "m": PROFILE, "n": PROFILE}, (NOT_KNOWN, True, False), (False, True, False)),
    "a comment": ({"a": MASTER, "b": COMMENT, "c": MASTER}, (True, NOT_KNOWN, False), (False, True, False)),
    "a comment and a profile": (
        {"a": COMMENT, "b": PROFILE},
        (NOT_KNOWN, NOT_KNOWN),
        (OTHER_PARTS.format("colour profile removed, comment added"), OTHER_PARTS.format("colour profile added, comment removed")),
    ),
    "PNG": ({"a": PNG_A, "b": PNG_B, "c": PNG_C, "d": PNG_D}, (NOT_KNOWN,) * 4, (False, True, *map(OTHER_PARTS.format, PNG_PARTS))),
    "all cut alike": ({"a": CUT, "b": CUT}, (DAMAGED, DAMAGED), (DAMAGED, DAMAGED)),
    "equal files without a picture": ({"a": NO_STRIP, "b": NO_STRIP}, (NO_LENGTHS, NO_LENGTHS), (NO_LENGTHS, NO_LENGTHS)),
    "two pictures twice": ({"a": MASTER, "b": SMALLER, "c": AGAIN, "d": SMALLER}, None, (True, True, False, False)),
}


@pytest.mark.parametrize("pixels", [False, True])
@pytest.mark.parametrize("name", CASES)
def test_which_one_stays(name, pixels, called, indexed):
    files, *expected = CASES[name]
    if not expected[pixels]:
        return
    indexed({f"{it}.jpg": octets for it, octets in files.items()}, *["--pixels"] * pixels)
    rows = list(csv.DictReader(called("same", "c", "--csv")[1].splitlines()))
    found = [{"1": True, "0": False}.get(it["keep"], it["note"]) for it in rows]
    assert found == list(expected[pixels])
    objects = json.loads(called("same", "c", "--json")[1].splitlines()[0])["pictures"]
    assert [it["keep_note"] if it["keep"] is None else it["keep"] for it in objects] == found
    called("catalogue", "export", "c", "t")
    exported = sql_rows("t", "SELECT keep, keep_note FROM groups JOIN pictures ON id = picture ORDER BY path")
    assert [note if keep is None else bool(keep) for keep, note in exported] == found


XMP = (
    b"<rdf:RDF xmlns:rdf='http://www.w3.org/1999/02/22-rdf-syntax-ns#' xmlns:dc='http://purl.org/dc/elements/1.1/'>"
    b"<rdf:Description dc:source='Riverside Museum'/></rdf:RDF>"
)
PICTURE = jpeg(app1_xmp(XMP))
NO_PICTURE = "no picture, and may belong to one, as an XMP file does"
# Files, and what is said of each: True and False as above
BESIDE_PICTURES = {
    "XMP files of two pictures": ({"bowl.jpg.xmp": XMP, "vase.jpg.xmp": XMP}, [NO_PICTURE, NO_PICTURE]),
    "with other bytes": ({"a.xmp": XMP, "b.XMP": XMP + b"\n"}, [NO_PICTURE, NO_PICTURE]),
    "refused ones": ({"a.xmp": XMP[:-1], "b.xmp": XMP[:-1]}, [NO_PICTURE, NO_PICTURE]),
    "empty ones": ({"a.xmp": b"", "b.xmp": b""}, [NO_PICTURE, NO_PICTURE]),
    "texts": ({"a.txt": b"scanned by Anna\n", "b.txt": b"scanned by Anna\n"}, [NO_PICTURE, NO_PICTURE]),
    "beside their pictures": ({"a.jpg": PICTURE, "a.xmp": XMP, "b.jpg": PICTURE, "b.xmp": XMP}, [True, NO_PICTURE, False, NO_PICTURE]),
}


@pytest.mark.parametrize("pixels", [False, True])
@pytest.mark.parametrize("name", BESIDE_PICTURES)
def test_no_file_that_is_no_picture_may_go(name, pixels, called, indexed):
    """Equal ones may belong to two pictures: whoever deletes one takes the caption of its picture."""
    files, expected = BESIDE_PICTURES[name]
    indexed(files, *["--pixels"] * pixels)
    groups = [json.loads(it) for it in called("same", "c", "--json")[1].splitlines()]
    said = {os.path.basename(it["path"]): it for group in groups if group["record"] == "group" for it in group["pictures"]}
    found = [it["keep"] if it["keep"] is not None else it["keep_note"].rpartition("; ")[2] for _, it in sorted(said.items())]
    assert found == expected
    text = called("same", "c")[1]
    is_said = "may belong to one, as an XMP file does" in text
    assert (is_said, "may stay" in text, "index --pixels" in text) == (True, False, "a.jpg" in files and not pixels), text


# ---- Whoever deletes what `same` marks with 0 loses no picture, whatever copies there are: cut, smaller, saved again, turned, without the profile.
# What each copy has is known by how it was made, and its pixels by Pillow.

CUTS = ("cut", "half")
CHOICES = ([], ["--kind", "exif"], ["--ignore", "saves"], ["--only", "Artist"], ["--equal-numbers"], ["--kind", "pixels"], ["--no-look"])


def exif_block(order, artist):
    """A block with one field, in either byte order: the same metadata in other bytes."""
    head = (b"II*\0" if order == "<" else b"MM\0*") + struct.pack(order + "I", 8)
    return head + struct.pack(order + "HHHIII", 1, 0x013B, 2, len(artist) + 1, 26, 0) + artist + b"\0"


def drawn(rng, picture, kind):
    """The bytes of a copy, and what it has: its metadata, pixels, profile and comment, and whether it is whole."""
    from PIL import Image

    artist = rng.choice((b"Anna Wirth", b"Anna Wirth", b"Otto Weiss"))
    order = rng.choice("<>")
    edit = rng.choice(("as it is", "as it is", "smaller", "saved again", "turned", *CUTS))
    profile, comment = rng.choice((b"", b"", b"a profile")), rng.choice((b"", b"", b"by hand"))
    image = picture.resize((24, 16)) if edit == "smaller" else picture.transpose(Image.ROTATE_90) if edit == "turned" else picture
    words = {"quality": 40 if edit == "saved again" else 90} if kind == "JPEG" else {"lossless": True} if kind == "WEBP" else {}
    if edit == "saved again" and kind != "JPEG":
        image = image.point(lambda value: value // 2)
    file = io.BytesIO()
    block = exif_block(order, artist)
    if kind == "JPEG":
        image.save(file, kind, **words)
        octets = file.getvalue()
        more = b"".join(
            [
                segment(0xE1, b"Exif\0\0" + block),
                segment(0xE2, b"ICC_PROFILE\0\1\1" + profile) if profile else b"",
                segment(0xFE, comment) if comment else b"",
            ]
        )
        octets = octets[:2] + more + octets[2:]
    else:
        comment = b""
        image.save(file, kind, exif=block, **({"icc_profile": profile} if profile else {}), **words)
        octets = file.getvalue()
    pixels = b"" if edit in CUTS else image.tobytes() + bytes(str(words), "ascii")
    octets = octets[:-20] if edit == "cut" else octets[: len(octets) - (len(octets) - 200) // 2] if edit == "half" else octets
    return octets, (kind, artist, pixels, profile, comment)


def has_all(stays, goes):
    """Whether a file has the same metadata and pixels as another one, and its profile and comment if that has some."""
    return stays[:3] == goes[:3] and all(not lost or lost == kept for kept, lost in zip(stays[3:], goes[3:]))


@needs("PIL")
@pytest.mark.parametrize("seed", range(12))
def test_nothing_is_lost(folder, called, seed):
    from PIL import Image

    rng = random.Random(seed)
    pictures = [Image.frombytes("RGB", (48, 32), bytes(rng.randrange(256) for _ in range(48 * 32 * 3))) for _ in range(2)]
    files, has = {}, {}
    for number in range(14):
        kind = rng.choice(("JPEG", "JPEG", "PNG", "WEBP"))
        name = f"{rng.randrange(10 ** 6)}-{number}.{kind.lower()}"
        known = rng.choice(sorted(files)) if files and rng.random() < 0.2 else None
        if known:  # a copy of all bytes
            name = f"{rng.randrange(10 ** 6)}-{number}{os.path.splitext(known)[1]}"
        files[name], has[name] = (files[known], has[known]) if known else drawn(rng, rng.choice(pictures), kind)
    put(folder / "p", files)
    pixels = rng.random() < 0.7
    called("index", "p", "--catalogue", "c", "--quiet", *["--pixels"] * pixels)
    for words in CHOICES:
        if words == ["--kind", "pixels"] and not pixels:
            continue
        status, printed, messages = called("same", "c", "--csv", *words)
        if status > 2:
            assert "pixels" in words, messages  # not each picture has a digest
            continue
        rows = list(csv.DictReader(printed.splitlines()))
        goes = {os.path.basename(it["picture"]) for it in rows if it["keep"] == "0"}
        stays = set(files) - goes
        for name in goes:
            assert has[name][2], f"{name} is damaged, and has 0"
            assert any(has_all(has[other], has[name]) for other in stays), f"{name} has 0, and no file that stays has all of it: {words}"
        if words == [] and pixels:
            for name, other in ((a, b) for a in files for b in files if a < b and files[a] == files[b] and has[a][2]):
                assert {name, other} & goes, f"{name} and {other} have the same bytes, and neither may go"
