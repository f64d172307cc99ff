"""Each byte of a picture's file is compared: as metadata, as the coded picture, or as a named rest. What is left is the structure of the format."""

import contextlib
import csv
import io
import json

import pytest
from hypothesis import given, settings, strategies as st
from made_blocks import ASCII, LONG, SHORT, segment
from made_boxes import PICTURE as CODED, XMP_UUID, Item, box, cr3, full, heif, item_exif, jp2, jxl, mime
from made_files import Placed, app1, app1_xmp, app13, chunk, exif, iim, jpeg, mpf, page, png, png_xmp, profile, resource, tiff, title, webp
from made_more_files import application, gif, gif_xmp, psd
from made_raw import MAKERS, camera_profile, dng, srw
from studio import SMALL_JPEG, put
from test_bigtiff import IFD8, LONG8, big, fields
from test_mutations import mutated

from exifnorm_pictures.comparison import two_pictures
from exifnorm_pictures.extract import coded_picture, readers
from exifnorm_pictures.extract.formats import streams
from exifnorm_pictures.files.session import Session
from exifnorm_pictures.model import budgets, rest
from exifnorm_pictures.model.budgets import Budget, TooMuch
from exifnorm_pictures.model.found import Broken
from exifnorm_pictures.scan.walk import How

A, T, K = exif(b"abc"), title("one"), iim(b"one")
PATH, FLAG = resource(0x07D0, bytes(26)), resource(0x040A, b"\1")
JUMBF = b"JP\0\1\0\0\0\1" + bytes(4) + b"jumb" + bytes(4) + b"jumdc2pa"
RESOURCES = resource(0x0404, K) + PATH + FLAG + resource(0x0425, bytes(16))


C2PA = bytes.fromhex("d8fec3d61b0e483c92975828877ec481")  # of a box uuid
EXIF = Item(b"Exif", item_exif(A), b"", (1,))


def tif(*more, **words):
    """A TIFF of one strip."""
    return tiff(page((0x010F, ASCII, b"Anna\0"), (0x0111, LONG, Placed(b"pixels")), (0x0117, LONG, 6), *more), **words)


FILES = {
    "a JPEG": jpeg(
        segment(0xE0, b"JFIF\0\1\1\0\0\1\0\1\0\0"), app1(A), app1_xmp(T), app13(RESOURCES), segment(0xEB, JUMBF), segment(0xE4, b"OURS\0a")
    ),
    "a JPEG with trailers": jpeg(app1(A), segment(0xFE, b"by Anna"), segment(0xE2, b"ICC_PROFILE\0\1\1abc"), behind=b"\0\0video"),
    "resources in two segments": jpeg(app13(RESOURCES[:50]), app13(RESOURCES[50:])),
    "several pictures": mpf(app1(A), jpeg(app1(A), segment(0xFE, b"one")), jpeg()),
    "metadata between scans": SMALL_JPEG[:-2] + app1(A) + SMALL_JPEG[-2:],
    "fill bytes": jpeg(b"\xff\xff" + app1(A)),
    "a PNG": png(
        chunk(b"eXIf", A), png_xmp(T), profile(b"8bim", RESOURCES), chunk(b"tEXt", b"Title\0one"), chunk(b"caBX", JUMBF), behind=b"video"
    ),
    "profiles of a PNG": png(profile(b"iptc", K), profile(b"icc", b"abc"), chunk(b"iCCP", b"x\0\0abc"), chunk(b"tIME", bytes(7))),
    "a WebP": webp((b"VP8X", bytes(10)), (b"VP8 ", b"pixels."), (b"EXIF", A), (b"XMP ", T), (b"ICCP", b"abc"), (b"C2PA", JUMBF)) + b"video",
    "a TIFF": tif((0x02BC, 1, T), (0x83BB, 7, K), (0x8649, 1, RESOURCES), (0x8773, 7, b"profile"), (0x935C, 7, b"layers"), behind=b"video"),
    "a TIFF of two pages": tiff(
        page((0x010F, ASCII, b"Anna\0")), page((0x0111, LONG, Placed(b"pixels")), (0x0117, LONG, 6)), more=b"nobody's"
    ),
    "a HEIF": heif(
        CODED,
        CODED._replace(references=((b"thmb", (1,)),)),
        EXIF,
        mime(T, (1,), parts=3),
        Item(b"uri ", b"one", b"urn\0"),
        properties=box(b"colr", b"profabc") + full(b"udes", 0, b"en\0Name\0\0\0"),
        behind=box(b"uuid", C2PA, JUMBF) + b"video",
        padding=b"----",
    ),
    "an AVIF with items in meta": heif(
        Item(b"grid", bytes(8), references=((b"dimg", (2, 3)),), method=1), CODED, CODED, EXIF, brand=b"avif", behind=box(b"moov", b"abc")
    ),
    "a JPEG XL": jxl(box(b"Exif", item_exif(A)), box(b"xml ", T), box(b"jumb", JUMBF), box(b"uuid", XMP_UUID, T), behind=b"video"),
    "a JPEG XL of pieces": jxl(
        box(b"jxlp", bytes(4), b"one"), box(b"brob", b"xml ", b"abc"), box(b"jxlp", b"\x80\0\0\1", b"two"), pixels=b""
    ),
    "a BigTIFF": big(
        fields(
            (0x0111, LONG8, 16),
            (0x0117, LONG8, 6),
            (0x014A, IFD8, [(0x0131, ASCII, b"a program\0"), (0xC5F2, SHORT, 6)]),
            (0x8649, 1, RESOURCES),
        ),
        page((0x0111, LONG, 16), (0x0117, SHORT, 6)),
        gap=b"pixels",
        behind=b"video",
    ),
    **{f"a raw {kind}": MAKERS[kind]() for kind in ("cr2", "nef", "pef", "arw")},
    "a raw srw": srw(),
    "a raw dng": dng(b"Anna", (0xC6F5, LONG, Placed(camera_profile())), behind=b"video"),
}


def parts_of(octets):
    """The parts of a file, which cover it and share no byte."""
    _, found = coded_picture.followed(io.BytesIO(octets), Budget())
    ends = [0, *(it.end for it in found)]
    assert [it.start for it in found] == ends[:-1] and ends[-1] == len(octets) and all(it.start < it.end for it in found), found
    assert all(bool(it.name) >= (it.kind == streams.REST) for it in found)
    return found


@settings(max_examples=400)
@given(st.sampled_from(sorted(FILES)), st.randoms(use_true_random=False))
def test_the_parts_cover_a_damaged_file(name, chance):
    octets = mutated(FILES[name], chance)
    with contextlib.suppress(Broken, TooMuch):
        if coded_picture.followed(io.BytesIO(octets), Budget())[0]:  # otherwise another format begins so
            parts_of(octets)


def seen(octets):
    """All that is compared of a file."""
    try:
        if (read := readers.reader_of(octets[: readers.HEAD], b"")) is None:
            return "another format"
        blocks = read(io.BytesIO(octets), False)
    except Broken as why:
        return str(why)
    return [it[:3] for it in blocks.blocks], blocks.not_read, blocks.damage, coded_picture.of_stream(io.BytesIO(octets), Budget())


@pytest.mark.parametrize("name", FILES)
def test_no_byte_is_outside(name):
    """A byte that may change unseen is one of the structure."""
    octets = FILES[name]
    known, found = seen(octets), parts_of(octets)
    assert {it.kind for it in found} >= {streams.PICTURE, streams.STRUCTURE}
    compared = [at for it in found if it.kind != streams.STRUCTURE for at in range(it.start, it.end)]
    assert [at for at in compared if seen(octets[:at] + bytes([octets[at] ^ 1]) + octets[at + 1 :]) == known] == []


# Files of formats without a digest of the coded picture: all that isn't read is compared as one
WHOLE_FILES = {
    "gif": gif(gif_xmp(T), behind=b"video"),
    "psd": psd(resource(0x0424, T), PATH, layers=b"layers", behind=b"video"),
    "jp2": jp2(box(b"uuid", XMP_UUID, T), behind=b"video"),
    "cr3": cr3(box(b"CMT1", A), packet=T),
    **{kind: MAKERS[kind]() for kind in ("orf", "raf", "rw2")},
}


@pytest.mark.parametrize("kind", WHOLE_FILES)
def test_no_byte_is_outside_of_a_format_whose_pictures_are_not_read(kind, folder, called):
    """Whatever one byte makes of a file: nobody says that it is the same, and no other one goes
    for it."""
    octets = WHOLE_FILES[kind]
    changed = [octets[:at] + bytes([octets[at] ^ 1]) + octets[at + 1 :] for at in range(len(octets))]
    put(folder / "p", {f"{at:04}.{kind}": it for at, it in enumerate([octets, *changed])})
    with Session(programs=False) as session:
        how = How(pixels=True, programs=False)
        names = (bytes(folder / "p" / f"{at:04}.{kind}") for at in range(len(octets) + 1))
        whole, *others = (two_pictures.read(it, how, session)[0] for it in names)
    assert not whole.problem and not whole.coded_picture
    results = [two_pictures.compare(whole, it, None).result for it in others]
    assert [(at, it) for at, it in enumerate(results) if it.has_changed is False] == []
    called("index", "p", "--catalogue", "c", "--quiet", "--pixels", "--no-programs")
    rows = csv.DictReader(called("same", "c", "--csv")[1].splitlines())
    assert [it for it in rows if it["keep"] == "0"] == []


NAMED = {
    "content credentials": (jpeg(app1(A)), jpeg(app1(A), segment(0xEB, JUMBF)), streams.CREDENTIALS),
    "a clipping path": (jpeg(app13(resource(0x0404, K))), jpeg(app13(resource(0x0404, K) + PATH)), "Photoshop resource 07d0 (path)"),
    "a copyright flag": (
        jpeg(app13(resource(0x0404, K))),
        jpeg(app13(resource(0x0404, K) + FLAG)),
        "Photoshop resource 040a (copyright flag)",
    ),
    "a comment": (jpeg(app1(A)), jpeg(app1(A), segment(0xFE, b"by Anna")), streams.COMMENT),
    "a colour profile": (jpeg(app1(A)), jpeg(app1(A), segment(0xE2, b"ICC_PROFILE\0\1\1abc")), streams.PROFILE),
    "credentials of a PNG": (png(chunk(b"eXIf", A)), png(chunk(b"eXIf", A), chunk(b"caBX", JUMBF)), streams.CREDENTIALS),
    "a private chunk": (png(chunk(b"eXIf", A)), png(chunk(b"eXIf", A), chunk(b"meTa", b"inventory")), "meTa chunk"),
    "credentials of a HEIF": (heif(CODED, EXIF), heif(CODED, EXIF, behind=box(b"uuid", C2PA, JUMBF)), streams.CREDENTIALS),
    "credentials of a JPEG XL": (
        jxl(box(b"Exif", item_exif(A))),
        jxl(box(b"Exif", item_exif(A)), box(b"jumb", JUMBF)),
        streams.CREDENTIALS,
    ),
    "a path of a TIFF": (
        tif((0x8649, 1, resource(0x0404, K))),
        tif((0x8649, 1, resource(0x0404, K) + PATH)),
        "Photoshop resource 07d0 (path)",
    ),
}


NOT_READ = ("credentials of a HEIF", "credentials of a JPEG XL")  # boxes that may hold metadata, so the two are in no group


@pytest.mark.parametrize("name", NAMED)
def test_a_part_that_is_gone_is_named_by_each_command(name, folder, called):
    poor, rich, part = NAMED[name]
    put(folder / "p", {"a-poor": poor, "b-rich": rich})
    printed = called("compare", "p/b-rich", "p/a-poor")[1]
    assert printed.endswith(f"Other parts of the files differ: {part} removed.\n")
    called("index", "p", "--catalogue", "c", "--quiet", "--pixels")
    rows = list(csv.DictReader(called("same", "c", "--csv")[1].splitlines()))
    if name in NOT_READ:
        assert rows == []
        return
    assert [(it["keep"], part in it["note"]) for it in rows] == [("0", False), ("1", True)], "the one with more stays"
    assert "any one may stay" not in called("same", "c")[1]
    put(folder / "n", {"x": rich})
    night = ("nightly", "n", "--catalogue", "of-nights", "--pixels")
    called(*night)
    called("index", "n", "--catalogue", "first", "--quiet", "--pixels")
    put(folder / "n", {"x": poor})
    (verified, _) = map(json.loads, called("verify", "first", "--json")[1].splitlines())
    assert (verified["state"], verified["note"]) == ("other parts", f"{part} removed")
    status, printed, _ = called(*night)
    assert status == 1 and f"with {part} removed: x\n" in printed
    assert f"{part} removed" in json.loads(called("changed", "first", "of-nights", "--json")[1].splitlines()[0])["note"]
    assert called(*night)[:2] == (0, ""), "it is news once"


def names_met(octets):
    """The names of the rest of a file whose lengths a reader of metadata meets, or of parts that it names."""
    blocks = readers.reader_of(octets[: readers.HEAD], b"")(io.BytesIO(octets), False)
    return {it.partition(" (")[0] for it in (*blocks.rest, *(part.what for part in blocks.not_read))}


@pytest.mark.parametrize(
    "name", [it for it in FILES if it.startswith(("a JPEG", "several", "resources", "a PNG", "profiles", "a WebP")) and "XL" not in it]
)
def test_a_reader_meets_all_rest_but_what_is_behind_the_pixels(name):
    octets = FILES[name]
    rest_of = {it.name.partition(" (")[0] for it in parts_of(octets) if it.kind == streams.REST and it.name != streams.TRAILER}
    assert {it for it in rest_of if it not in names_met(octets)} <= {"MPF picture 2", "MPF picture 3", "zTXt chunk Rawprofile"}


@given(*[st.dictionaries(st.sampled_from("abc"), st.sampled_from(("0f", "1e", "")), max_size=3)] * 2)
def test_what_has_come_and_gone(old, new):
    before, after = map(rest.text_of, (old, new))
    assert (rest.names_in(before), rest.names_in(after)) == (old, new)
    assert bool(rest.changes(before, after)) == (old != new or "" in old.values())


@given(st.lists(st.dictionaries(st.sampled_from(("a", "b", "JFIF")), st.sampled_from(("0f", "1e", "")), max_size=3), max_size=12))
def test_the_first_file_that_has_all_parts_of_another(files):
    fullest = rest.Fullest()
    for at, names in enumerate(files):
        count = {name: digest for name, digest in names.items() if name != "JFIF"}
        has_all = (one for one in range(at) if all(digest and files[one].get(name) == digest for name, digest in count.items()))
        assert fullest.has_all_of(at, rest.text_of(names)) == next(has_all, at)


def test_a_part_that_is_too_large_is_never_equal(folder, called, monkeypatch):
    monkeypatch.setattr(budgets, "UNREAD_BYTES", 100)
    put(folder / "p", {"a": png(chunk(b"eXIf", A), chunk(b"prIv", b"a" * 101)), "b": png(chunk(b"eXIf", A), chunk(b"prIv", b"b" * 101))})
    status, printed, _ = called("compare", "p/a", "p/b")
    assert status == 2 and printed.endswith("Other parts of the files differ: prIv chunk too large to compare.\n")
    called("index", "p", "--catalogue", "c", "--quiet", "--pixels")
    assert [it["keep"] for it in csv.DictReader(called("same", "c", "--csv")[1].splitlines())] == ["", ""]
    called("index", "p", "--catalogue", "d", "--quiet", "--pixels")
    assert called("changed", "c", "d")[0] == 0, "the files have the same bytes"


def test_many_names(folder, called):
    """Of a file with many names a few are shown, and none is said to have come or gone whose fate isn't known."""
    kinds = [b"pr" + bytes([65 + it // 26, 97 + it % 26]) for it in range(100)]
    made = png(*(chunk(it, it) for it in kinds))
    put(folder / "p", {"a": made, "b": png(*(chunk(it, b"x" if it == kinds[50] else it) for it in kinds[1:]))})
    status, printed, _ = called("compare", "p/a", "p/b")
    assert status == 1 and printed.endswith("Other parts of the files differ: further parts changed.\n")
    assert len(rest.names_in(coded_picture.of_stream(io.BytesIO(made), Budget()).beside)) == rest.MOST + 1


CREDENTIALS = {
    "JPEG": (jpeg(), jpeg(segment(0xEB, JUMBF))),
    "PNG": (png(), png(chunk(b"caBX", JUMBF))),
    "WebP": (webp((b"VP8 ", b"pixels.")), webp((b"VP8 ", b"pixels."), (b"C2PA", JUMBF))),
    "HEIF": (heif(CODED), heif(CODED, behind=box(b"uuid", C2PA, JUMBF))),
    "JPEG XL": (jxl(), jxl(box(b"jumb", JUMBF))),
    "GIF": (gif(), gif(application(b"C2PA_GIF\1\0\0", JUMBF))),
}


@pytest.mark.parametrize("name", CREDENTIALS)
def test_content_credentials_are_named(name, folder, called):
    """Also where neither picture has metadata; and it is said that nobody has validated them."""
    put(folder, dict(zip(("a", "b"), CREDENTIALS[name])))
    for words in (("a", "b"), ("b", "a")):
        status, printed, _ = called("compare", *words, "--no-programs")
        assert status in (1, 2) and "content credentials (not validated)" in printed, printed
