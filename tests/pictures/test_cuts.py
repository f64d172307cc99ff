"""Files that are cut off: no answer takes what may be behind the cut for removed, added, missing or the same, and each names the cut. Files of
all formats are cut before, in and after each of their blocks and in their pictures, and compared with the whole ones in both directions."""

import contextlib
import csv
import io
import json
import re

from exifnorm import pictures
import pytest
from made_blocks import ASCII, LONG, UNDEFINED, segment
from made_boxes import SMALL_J2C, XMP_UUID, PICTURE, Item, box, cr3, heif, item_exif, jp2, jxl, mime
from made_files import (
    A,
    B,
    K,
    L,
    SIX,
    T,
    app1,
    app1_xmp,
    chunk,
    jpeg,
    mpf,
    page,
    png,
    png_xmp,
    profile,
    raf,
    resource,
    tiff,
    webp,
    with_record,
)
from made_more_files import application, gif, gif_xmp, psd
from made_raw import LENGTH, STRIP, SUB_IFDS, inner
from studio import needs, put
from test_bigtiff import big

from exifnorm_pictures.model.texts import Result
from exifnorm_pictures.cli import main

IPTC_UUID = bytes.fromhex("33c7a4d2b81d4723a0baf1a3e097ad38")
COMMENT = segment(0xFE, b"a comment of some length")
TWICE = "c.jpg"  # which has two blocks of a kind, of which a cut can leave the first one
PIXELS = box(b"jxlc", b"\xff\x0a" + bytes(20))


def before_pixels(make):
    """A file that ends with its pixels, whose offset `make` takes."""
    return make(len(make(0))) + b"\x55" * 60


PAGE = page((0x013B, ASCII, b"Anna\0"), (0x83BB, UNDEFINED, K), (0x02BC, 1, T))
# Whole files by their names, and the bytes of each block that their format can have: a cut before the last of them loses the block
FILES = {
    "a.jpg": (jpeg(app1(A), with_record(K), app1_xmp(T), COMMENT), {"exif": app1(A), "iptc": with_record(K), "xmp": app1_xmp(T)}),
    "b.jpg": (jpeg(COMMENT, app1_xmp(T), with_record(K), app1(A)), {"exif": app1(A), "iptc": with_record(K), "xmp": app1_xmp(T)}),
    TWICE: (jpeg(with_record(K), COMMENT, with_record(L)), {"iptc": with_record(L)}),
    "a.png": (
        png(chunk(b"eXIf", A), profile(b"iptc", K), png_xmp(T)),
        {"exif": chunk(b"eXIf", A), "iptc": profile(b"iptc", K), "xmp": png_xmp(T)},
    ),
    "a.webp": (webp((b"VP8 ", bytes(10)), (b"EXIF", A), (b"XMP ", T)), {"exif": A, "xmp": T}),
    "a.gif": (gif(application(b"MGKIPTC0000", K), gif_xmp(T)), {"iptc": application(b"MGKIPTC0000", K), "xmp": gif_xmp(T)}),
    "a.psd": (psd(resource(0x0404, K), resource(0x0422, A), resource(0x0424, T)), {"exif": A, "iptc": K, "xmp": T}),
    "a.tif": (tiff(PAGE), {"iptc": K, "xmp": T}),
    "a.heic": (heif(PICTURE, Item(b"Exif", item_exif(A), describes=(1,)), mime(T, (1,))), {"exif": A, "xmp": T}),
    "a.cr3": (cr3(box(b"CMT1", A), packet=T), {"exif": A, "xmp": T}),
    "a.jxl": (jxl(box(b"Exif", bytes(4) + A), box(b"xml ", T)), {"exif": A, "xmp": T}),
    "b.jxl": (jxl(PIXELS, box(b"Exif", bytes(4) + A), box(b"xml ", T), pixels=b""), {"exif": A, "xmp": T}),
    "a.jp2": (
        jp2(box(b"uuid", b"JpgTiffExif->JP2", SIX + A), box(b"uuid", IPTC_UUID, K), box(b"uuid", XMP_UUID, T)),
        {"exif": A, "iptc": K, "xmp": T},
    ),
    "a.raf": (raf(inner(b"Anna"), pixels=b"\x77" * 50), {"exif": b"Anna\0", "xmp": b"<?xpacket end='w'?>"}),
    "b.tif": (before_pixels(lambda at: tiff(page((0x02BC, 1, T), (STRIP, LONG, at), (LENGTH, LONG, 60)))), {"xmp": T}),
    "a.dng": (
        before_pixels(
            lambda at: tiff(page((0xC612, 1, b"\1\4\0\0"), (0x02BC, 1, T), (SUB_IFDS, LONG, page((STRIP, LONG, at), (LENGTH, LONG, 60)))))
        ),
        {"xmp": T},
    ),
    "big.tif": (before_pixels(lambda at: big([(0x02BC, 1, T), (STRIP, LONG, at), (LENGTH, LONG, 60)])), {"xmp": T}),
    "b.psd": (psd(resource(0x0424, T), compression=1, rows=[b"\2abc"] * 9), {"xmp": T}),
    "a.avif": (heif(Item(b"Exif", item_exif(A), describes=(2,)), PICTURE._replace(kind=b"av01"), primary=2, brand=b"avif"), {"exif": A}),
    "c.jxl": (jxl(box(b"Exif", bytes(4) + A), box(b"jxlp", bytes(24)), box(b"jxlp", b"\x80\0\0\1", bytes(20)), pixels=b""), {"exif": A}),
    "b.jp2": (jp2(box(b"uuid", XMP_UUID, T), pixels=b"\0\0\0\0jp2c" + SMALL_J2C), {"xmp": T}),
    "a.j2c": (SMALL_J2C, {}),
    "a.mpo": (mpf(app1(A), jpeg(app1(B))), {"exif": app1(A)}),
}
HEADERS = {"b.jxl": 8}  # bytes of a box's header after a whole picture: a cut in one leaves a whole file and a trailer of some bytes


def cuts(name):
    """Where a file is cut: before, in and after each of its blocks, and elsewhere."""
    octets, blocks = FILES[name]
    places = {len(octets) * part // 5 for part in range(1, 5)} | {len(octets) - 1}
    for data in blocks.values():
        start = octets.index(data)
        places |= {start, start + 5, start + len(data) // 2, start + len(data) - 1, start + len(data)}
    return sorted(place for place in places if 30 < place < len(octets) and not looks_whole(name, place))


def looks_whole(name, place):
    """Whether what is left is a whole picture, after which nothing is known to be missing."""
    octets, at = FILES[name][0], 0
    if name == "a.mpo" and 0 <= place - octets.index(jpeg(app1(B))) <= 3:
        return True
    while name in HEADERS and at < len(octets):
        if at > 50 and at <= place < at + HEADERS[name]:
            return True
        at += int.from_bytes(octets[at : at + 4], "big")
    return False


def lost(name, place):
    """The kinds of which a block isn't wholly before a place."""
    octets, blocks = FILES[name]
    return [kind for kind, data in blocks.items() if octets.index(data) + len(data) > place]


CASES = {f"{place:05}-{name}": (name, place) for name in FILES for place in cuts(name)}
OPEN = ("not known", "refused", "unreadable", "the same after repair")


def pairwise(lines):
    """Each line with the one before it."""
    return zip(lines, lines[1:])


@pytest.fixture(scope="module")
def archives(session_folder):
    """Two folders with the whole files and the cut ones, and catalogues of them without digests of pictures."""
    top = session_folder / "cuts"
    for side in ("before", "after"):
        (top / side).mkdir(parents=True)
    for case, (name, place) in CASES.items():
        octets = FILES[name][0]
        (top / "before" / case).write_bytes(octets)
        (top / "after" / case).write_bytes(octets[:place])
    for side in ("before", "after"):
        with contextlib.redirect_stdout(io.StringIO()) as printed:
            main._run(["index", str(top / side), "--catalogue", str(top / f"{side}.catalogue")])
        (top / f"{side}.txt").write_text(printed.getvalue())
    return top


@pytest.fixture
def asked(archives, called, monkeypatch):
    """Runs a command beside the catalogues: its status, and its lines."""
    monkeypatch.chdir(archives)

    def call(*words):
        status, printed, _ = called(*words)
        return status, printed.splitlines()

    return call


def check(checks, case, found, side):
    """What is said of a whole file and a cut one, which is on this side."""
    name, place = CASES[case]
    kinds = found["kinds"]
    checks.equal(f"{case}: has changed", Result(found["result"]).has_changed in (None, False), True)
    checks.equal(f"{case}: is open", Result(found["result"]).has_changed is None or not lost(name, place), True)
    for kind in lost(name, place) if kinds else ():
        checks.equal(f"{case}: {kind}", kinds[kind] in OPEN, True)
    gone = [it["name"] for it in found["fields"] if it[side] is None]
    checks.equal(f"{case}: fields that are said to be missing", gone, [])
    checks.equal(f"{case}: the cut is named once in {found['note']}", found["note"].count("the file ends "), 1)
    checks.equal(f"{case}: damage", [word for word, fault in found["damage"].items() if (fault or "").startswith("the file ends ")], [side])


@needs("exiftool", "exiv2")
@pytest.mark.parametrize("side", ["after", "before"], ids=["cut later", "cut before"])
def test_changed(asked, checks, side):
    words = ["changed", *("before.catalogue", "after.catalogue")[:: 1 if side == "after" else -1], "--no-programs"]
    status, lines = asked(*words, "--all", "--json")
    objects = [json.loads(it) for it in lines]
    found = {it["path"]: it for it in objects if "path" in it}
    assert status == 2 and found.keys() == CASES.keys()
    for case, it in found.items():
        check(checks, case, it, side)
    rows = {row["picture"]: row for row in csv.DictReader(io.StringIO("\n".join(asked(*words, "--all", "--csv")[1])))}
    text = "\n".join(asked(*words, "--all")[1])
    for case, it in found.items():
        checks.equal(f"{case}: a table", (rows[case]["result"], rows[case]["note"] or None), (it["result"], it["note"]))
        checks.equal(f"{case}: text", f"{case}: {it['result']}" + (f" ({it['note']})" if it["note"] else "") in text, True)
    summary = "\n".join(asked(*words)[1])
    assert "removed" not in summary and "added" not in summary and "none changed" not in summary, summary
    word = "damaged" if side == "after" else "damaged before"
    assert summary.startswith(f"{len(CASES)} pictures compared: {len(CASES)} {word}.\n"), summary


@needs("exiftool", "exiv2")
def test_compare(archives, checks):
    """Two pictures by Python's call: nobody knows whether they are the same, and what is missing is no difference."""
    for number, (case, (name, place)) in enumerate(CASES.items()):
        if not name.endswith(".jpg") and number % 16:  # for each of the others ExifTool starts three times
            continue
        sides = [archives / side / case for side in ("before", "after")]
        try:
            found, picture = pictures.compare(*sides), pictures.read(sides[1])
        except (pictures.NotReadable, pictures.NoPicture):
            continue
        if not lost(name, place):
            continue
        checks.equal(f"{case}: same", found.same, None)
        checks.equal(f"{case}: differences", [it.name for it in found.differences if it.after is None], [])
        checks.equal(f"{case}: the cut is named in {found.note}", picture.damage and found.note.count(picture.damage), 1)
        checks.equal(f"{case}: damage", picture.damage.startswith("the file ends "), True)
        again = pictures.compare(sides[1], io.BytesIO(sides[1].read_bytes()))
        checks.equal(f"{case}: the cut file and itself", again.same, True)


@needs("exiftool", "exiv2")
@pytest.mark.parametrize("command", ["show --captions", "check"])
def test_texts(asked, checks, command):
    """What isn't known is said of each cut file, in words, in a table and in an object; and nothing is said to be missing."""
    status, lines = asked(*command.split(), "after.catalogue", "--json")
    found = {it["path"].rpartition("/")[2]: it for it in map(json.loads, lines) if "path" in it}
    rows = list(csv.DictReader(io.StringIO("\n".join(asked(*command.split(), "after.catalogue", "--csv")[1]))))
    assert status == 2 and found
    for head, line in pairwise(asked(*command.split(), "after.catalogue")[1]):
        if line in ("no Exif, IPTC or XMP block", "no title, caption, name, keyword or rights"):
            checks.equal(f"{head}: {line}", lost(*CASES[head.rpartition("/")[2]]), [])
    for case, (name, place) in CASES.items():
        if case not in found or found[case]["problem"] or not lost(name, place) or name == TWICE:
            continue
        it = found[case]
        is_open = {*it["not_known"], *(one.partition(":")[0].lower() for one in it["refused"])}
        checks.equal(f"{case}: what is lost and seems to be known", {*lost(name, place)} - is_open, set())
        words = [one["not read" if command == "show --captions" else "detail"] for one in rows if one["picture"].rpartition("/")[2] == case]
        checks.equal(f"{case}: the cut is named once in {words}", sum(one.count("the file ends ") for one in words), 1)
        kinds = " and ".join(kind.upper() for kind in it["not_known"] if kind != "exif")
        checks.equal(f"{case}: {kinds} in {words}", sum(kinds in one for one in words) > 0, True)


def test_list(asked, checks):
    """A keyword that may be behind a cut isn't missing, and is counted as not known."""
    for words in (["--without", "keywords"], ["--with", "keywords"]):
        lines = asked("list", "after.catalogue", *words, "--json")[1]
        *found, summary = [json.loads(line) for line in lines]
        for it in found:
            case = it["path"].rpartition("/")[2]
            checks.equal(f"{words[0]}: {case}", "iptc" in lost(*CASES[case]) and not (words[0] == "--with" and case.endswith(TWICE)), False)
        assert summary["not_known"] >= sum("iptc" in lost(*it) for it in CASES.values()) - summary["listed"] > 0


def test_same(asked, folder, called):
    """Two files that are cut alike are the same as far as they go: what may be behind the cut isn't 'none', and others may have it."""
    put(folder, {name: FILES["a.jpg"][0][: len(app1(A)) + 20] for name in ("a.jpg", "b.jpg")})
    called("index", str(folder), "--catalogue", "cut.catalogue", "--quiet")
    status, text, _ = called("same", "cut.catalogue")
    assert status == 2 and "Exif is the same" in text and "IPTC and XMP are not known" in text and "no IPTC" not in text


def test_index_list_and_report(archives, asked, checks, folder):
    """Each names each cut, and counts them all."""
    texts = (archives / "after.txt").read_text()
    listed, in_list = asked("list", "after.catalogue", "--json")[1], asked("list", "after.catalogue")[1]
    objects = {it["path"].rpartition("/")[2]: it["damage"] for it in map(json.loads, listed) if "path" in it}
    (folder / "rules").write_text("every picture needs credit\n")
    broken = [json.loads(it) for it in asked("check", "after.catalogue", "--rules", str(folder / "rules"), "--json")[1]]
    in_check = asked("check", "after.catalogue", "--rules", str(folder / "rules"))[1]
    asked("report", "after.catalogue", "--no-look", "--html", str(folder / "page.html"))
    page = (folder / "page.html").read_text()
    for case in CASES:
        checks.equal(f"{case}: index", sum(it.count("the file ends ") for it in texts.splitlines() if f"/{case}: " in it), 1)
        checks.equal(f"{case}: list", (objects[case] or "")[:14], "the file ends ")
        checks.equal(f"{case}: list, text", [it.count("the file ends ") for it in in_list if f"/{case}" in it], [1])
        checks.equal(
            f"{case}: check", [it["damage"] for it in broken if it.get("path", "").endswith(f"/{case}")] in ([], [objects[case]]), True
        )
        checks.equal(f"{case}: check, text", {it.count("the file ends ") for it in in_check if f"/{case}: " in it} <= {1}, True)
        checks.equal(f"{case}: report", f"{case}</a>" in page.partition('id="damaged"')[2].partition("</section>")[0], True)
    assert f"; {len(CASES):,} cut off or damaged\n" in texts
    assert len(in_check) > 5 and f"{len(CASES):,} cut off or damaged: " in texts and f"<b>{len(CASES)}</b> cut off or damaged" in page
    without = re.search(r"([\d,]+) no block in what is left", texts)[1]
    assert f"<b>{without}</b> cut off, and without a block" in page
    assert f", {len(CASES)} of them cut off or damaged" in in_list[-1] and page.count("the file ends ") >= len(CASES)


LAST = {name: octets[:-1] for name, (octets, _) in FILES.items() if not looks_whole(name, len(octets) - 1)}


SOME = {name: LAST[name] for name in ("a.jpg", "a.mpo", "a.png", "a.psd", "a.cr3", "a.j2c", "b.tif", "a.tif")}


@needs("exiftool", "exiv2")
def test_commands_about_a_file(folder, called, checks):
    """Files without their last byte: each command that is about files says what is wrong with each of them."""
    put(folder, SOME)
    for command in ("explain", "show", "show --captions", "check"):
        status, printed, _ = called(*command.split(), *SOME)
        texts = printed.split("\n== ") if command != "check" else printed.splitlines()
        rows = list(csv.DictReader(io.StringIO(called(*command.split(), *SOME, "--csv")[1]))) if command != "explain" else []
        found = [json.loads(it) for it in called(*command.split(), *SOME, "--json")[1].splitlines()]
        damages = {it["path"]: it["damage"] for it in found if "damage" in it}
        assert status == 2
        for name in SOME:
            checks.equal(f"{command} {name}", any(name in it.splitlines()[0] and "the file ends " in it for it in texts), True)
            checks.equal(f"{command} {name}, an object", (damages[name] or "").startswith("the file ends "), True)
            named = [name for row in rows if row["picture"] == name and "the file ends " in "".join(filter(None, row.values()))]
            checks.equal(f"{command} {name}, a table", named, [name] * bool(rows))
    (folder / "copies").mkdir()
    (folder / "names").write_text("\n".join(SOME) + "\n")
    status, printed, _ = called("mend", "--files-from", "names", "copies")
    assert status == 2 and f"; {len(SOME)} cut off or damaged" in printed.splitlines()[-1]
    for name in SOME:
        checks.equal(f"mend {name}", sum("the file ends " in it for it in printed.splitlines() if it.startswith(f"{name}: ")), 1)


@needs("exiftool", "exiv2")
def test_nights(folder, called):
    """A file that loses its last byte is damaged in the morning, and so it is by `verify`."""
    put(folder, {f"p/{name}": FILES[name][0] for name in LAST})
    called("nightly", "p", "--catalogue", "c", "--pixels")
    put(folder, {f"p/{name}": octets for name, octets in LAST.items()})
    status, printed, _ = called("verify", "c", "p", "--json")
    states = {it["path"].rpartition("/")[2]: it["state"] for it in map(json.loads, printed.splitlines()) if "path" in it}
    assert status == 1 and states == dict.fromkeys(LAST, "cut off")
    status, printed, _ = called("nightly", "p", "--catalogue", "c", "--json")
    news = {it["news"]: it["count"] for it in map(json.loads, printed.splitlines()) if "news" in it}
    assert status == 1 and news == {"damaged": len(LAST)}, news


@needs("exiftool", "exiv2")
@pytest.mark.parametrize("words", ["--only=IPTC", "--only=keywords", "--only=XMP", "--only=IFD0:Make", "--only=Exif"])
def test_only_what_may_be_behind_the_cut(asked, checks, words):
    """What is asked for may be behind the cut: then it is neither kept nor changed, whichever file is cut."""
    kind = {"keywords": "iptc", "IFD0:Make": "exif"}.get(words[7:], words[7:].lower())
    for catalogues in (("before.catalogue", "after.catalogue"), ("after.catalogue", "before.catalogue")):
        status, lines = asked("changed", *catalogues, words, "--all", "--json", "--no-programs")
        assert status == 2
        for it in (one for one in map(json.loads, lines) if "path" in one):
            result, is_lost = Result(it["result"]), kind in lost(*CASES[it["path"]])
            checks.equal(f"{it['path']}: {result}", (result.has_changed is None or not is_lost, it["fields"]), (True, []))
            checks.equal(f"{it['path']}: the cut is named in {it['note']}", it["note"].count("the file ends "), 1)


@needs("exiftool", "exiv2")
@pytest.mark.parametrize("rule", ["every picture needs keywords", "keywords never", 'keywords like "one"', "keywords at most 2 characters"])
def test_rules(asked, checks, folder, rule):
    """A keyword that may be behind a cut breaks no rule, and keeps none: such a picture is counted, and the status is 2."""
    (folder / "rules").write_text(rule + "\n")
    status, lines = asked("check", "after.catalogue", "--rules", str(folder / "rules"), "--json")
    *broken, summary = map(json.loads, lines)
    for it in broken:
        case = it["path"].rpartition("/")[2]
        checks.equal(f"{rule}: {case}", it["text"] or ("iptc" not in lost(*CASES[case]) or None), it["text"] or True)
    open_ones = [case for case, it in CASES.items() if "iptc" in lost(*it)]
    assert status == 2 and summary["not_known"] >= len(open_ones) > 50
    text = asked("check", "after.catalogue", "--rules", str(folder / "rules"))[1]
    assert f"{summary['not_known']:,} pictures may break more rules" in "\n".join(text)
