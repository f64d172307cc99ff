"""The page in Chromium, opened from a file: what it says of the sample pictures, of folders, of hostile pictures and names, and how it is
used by keyboard, in narrow and dark windows, and in print."""

import csv
import json
import os
import re
import shutil
import struct
import time
from base64 import b64encode
from collections import Counter
from itertools import product
from pathlib import Path
from random import Random

import guard
import page
import pytest

import exifnorm
import made_files as made
from browser import CONTRAST, PATIENCE
from changed import changed
from commands import TOP
from growing import FORMATS, of_fields
from small_packets import small_packets
from test_javascript import EVERY
from test_jpeg_same import XMP, exif, iptc, photoshop, picture, resource, segment
from test_trailers import foto_station

pytestmark = pytest.mark.xdist_group("page")
SAMPLES = TOP / "samples"
BOWL, BOWL_AFTER = (SAMPLES / side / "ceramics/2003-12-bowl.jpg" for side in ("before", "after"))
VASE, VASE_AFTER = (SAMPLES / side / "ceramics/1998-7-vase.jpg" for side in ("before", "after"))
REFUSED, PLAN = SAMPLES / "before/arrivals/IMG_20240502.jpg", SAMPLES / "before/prints/1931-4-plan.png"
SEED, MANY, STRANGE = 3, 800, 10_000
CHANGED = re.compile(
    "ERR_UPLOAD_FILE_CHANGED|ERR_FILE_NOT_FOUND|ERR_FAILED"
)  # of a picture that a test has replaced or removed while it was shown
MOST_MEMORY = 150 << 20  # bytes of JavaScript's heap, for STRANGE files
ONE = bytes.fromhex("4d4d002a00000008 0001 0112 0003 00000001 00060000 00000000")


@pytest.fixture(scope="module")
def opened(chromium, file):
    """The browser with the page. All that it asks for is the page itself, and its worker; and it stores nothing."""
    chromium.requests.clear()
    chromium.show()
    chromium.open(file.as_uri())
    chromium.wait("document.body.dataset.ready")
    yield chromium
    stored = "indexedDB.databases().then((bases) => [bases.length, localStorage.length, sessionStorage.length, document.cookie.length])"
    assert chromium.ask(stored) == [0, 0, 0, 0]
    assert {address for address in chromium.requests if not address.startswith("blob:null/")} == {file.as_uri()}


@pytest.fixture
def browser(opened):
    """The page without a choice. Nothing may be logged, such as a violation of its policy."""
    opened.log.clear()
    opened.ask("document.getElementById('anew').click()")
    yield opened
    assert not [entry for entry in opened.log if not CHANGED.search(str(entry))]


def heading(browser):
    """The verdict, once it is there."""
    browser.wait("document.body.dataset.state")
    return browser.ask("document.querySelector('#summary:not([hidden]) h2, #result:not([hidden]) h2').lastChild.textContent")


def text(browser, selector="main"):
    return browser.ask(f"document.querySelector('{selector}').innerText")


def rows(browser, caption):
    """The cells of the tables whose caption begins with some words."""
    return browser.ask(
        f"[...document.querySelectorAll('table')].filter((node) => node.caption.textContent.startsWith('{caption}'))"
        ".flatMap((node) => [...node.tBodies[0].rows].map((row) => [...row.cells].map((cell) => cell.textContent)))"
    )


def compare(browser, *pictures):
    browser.choose("#file-0", *pictures)
    return heading(browser)


def compare_folders(browser, first, second):
    browser.choose("#folder-0", first)
    heading(browser)
    browser.choose("#folder-1", second)
    browser.wait("chosen.every(Boolean)")
    return heading(browser)


def put(folder, *pictures):
    """Files with some bytes."""
    paths = [folder / f"{number}.jpg" for number in range(len(pictures))]
    for path, octets in zip(paths, pictures):
        path.write_bytes(octets)
    return paths


# ---- one picture, or two


TITLE = "<dc:title><rdf:Alt><rdf:li xml:lang='x-default'>{}</rdf:li></rdf:Alt></dc:title>"
EVENTS = "".join(f"<rdf:li rdf:parseType='Resource'><xmp:a>{'saved ' * 9}</xmp:a><xmp:b>{number}</xmp:b></rdf:li>" for number in range(9))
VASE_XMP, BOWL_XMP = (made.app1_xmp(made.xmp(TITLE.format(word))) for word in ("Vase", "Bowl"))
LIKE_VASE = made.app1_xmp(
    made.xmp(TITLE.format("<!-- -->Vase").replace("dc:", "q:"), "xmlns:q='http://purl.org/dc/elements/1.1/'") + b" " * 99
)
RARE, WRONG = made.app1_xmp(made.xmp("text")), made.app1_xmp(b"<x/>")


def of_property(inside):
    return made.app1_xmp(made.xmp(inside))


def extended(packet, text, name=None):
    """A packet with extended XMP, of which the digest is right, or another name."""
    pieces, digest = made.extension(made.xmp(f"<dc:b>{text}</dc:b>"), 400, name)
    return made.app1_xmp(made.xmp(f"{packet}<note:HasExtendedXMP>{digest}</note:HasExtendedXMP>")) + b"".join(pieces)


DAMAGED = extended("", "1").replace(b"<dc:b>1", b"<dc:b>2")
OF_TWO = made.app1_xmp(made.xmp(f"<note:HasExtendedXMP>{made.extension(made.xmp('<dc:b>1</dc:b>'))[1]}</note:HasExtendedXMP>")) + extended(
    "", "1"
)
OTHER = segment(0xE1, b"XMP" + made.xmp(""))
TOTAL = len(made.xmp("<dc:b>1</dc:b>"))  # the length of the extended XMP, which precedes the offset of each of its pieces
MISSING = made.app1_xmp(made.xmp(f"{TITLE.format('Vase')}<note:HasExtendedXMP>{'A' * 32}</note:HasExtendedXMP>") + b" " * 100)

# of two pictures: their XMP
OF_XMP = {
    "a title": (VASE_XMP, BOWL_XMP),
    "a title in one picture": (VASE_XMP, b""),
    "a packet without properties": (made.app1_xmp(made.xmp("")), b""),
    "another writer": (VASE_XMP, LIKE_VASE),
    "another form of the value": (of_property("<dc:title>Vase</dc:title>"), VASE_XMP),
    "a list in another order": tuple(
        of_property(f"<dc:b><rdf:Seq><rdf:li>{a}</rdf:li><rdf:li>{b}</rdf:li></rdf:Seq></dc:b>") for a, b in ("ba", "ab")
    ),
    "two packets": (VASE_XMP + BOWL_XMP, BOWL_XMP + VASE_XMP),
    "a rare form": (RARE, VASE_XMP),
    "a rare form in both": (RARE, RARE),
    "a packet in two kinds of segments": (RARE, segment(0xE1, made.xmp("text"))),
    "extended XMP in both": (extended(TITLE, "1"), extended(TITLE, "1")),
    "damaged XMP in both": (DAMAGED, DAMAGED),
    "extended XMP that is missing": (MISSING, MISSING[:-90] + b" " * 90),
    "extended XMP in one picture": (of_property(TITLE.format("Vase") + "<dc:b>1</dc:b>"), extended(TITLE.format("Vase"), "1")),
    "extended XMP of two packets": (OF_TWO, OF_TWO),
    "one property in both packets": (extended("<dc:b>1</dc:b>", "1"), extended("<dc:b>1</dc:b>", "1")),
    "a wrong packet": (VASE_XMP, WRONG),
    "more XMP": (VASE_XMP, extended(TITLE.format("Vase"), "1")),
    "other extended XMP": (extended("", "1"), extended("", "2")),
    "a piece of another length": (extended("", "1"), extended("", "1").replace(TOTAL.to_bytes(4, "big"), (TOTAL + 1).to_bytes(4, "big"))),
    "a piece at another place": (
        extended("", "1"),
        extended("", "1").replace(TOTAL.to_bytes(4, "big") + bytes(4), TOTAL.to_bytes(4, "big") + b"\0\0\0\1"),
    ),
    "other damaged XMP": (DAMAGED, extended("", "1")),
    "a known difference": (VASE_XMP + made.extension(b"<x/>")[0][0], BOWL_XMP + made.extension(b"<x/>")[0][0]),
    "a resource": (VASE_XMP, VASE_XMP + made.app13(made.resource(0x0424, made.xmp("")))),
    "another segment": (VASE_XMP, VASE_XMP + OTHER),
}


def xmp_pictures():
    """Pictures with XMP of each kind, alone and beside other metadata."""
    packets = {xmp for pair in OF_XMP.values() for xmp in pair}
    packets |= {
        extended("", "1", b"A" * 32),
        extended("", "x" * 900)[:-430],
        extended("", "x" * 900),
        of_property(f"<xmp:d><rdf:Seq>{EVENTS}</rdf:Seq></xmp:d>"),
        of_property("<xmp:d>1</xmp:d>"),
    }
    packets.add(of_property(f"<xmp:d><rdf:Seq>{EVENTS.replace('8', '9')}</rdf:Seq></xmp:d>"))
    blocks = [made.app1(ONE) + xmp for xmp in sorted(packets)] + [VASE_XMP, made.with_record(made.iim(b"Vase")) + BOWL_XMP, b""]
    return [made.jpeg(block) for block in blocks]


def test_a_second_picture_alone(browser):
    browser.choose("#file-1", BOWL)
    heading(browser)
    assert "Choose a first picture to compare it with." in text(browser)


def test_a_pasted_picture(browser):
    browser.ask(PASTED % "'a.gif'")
    assert heading(browser) == "Not read" and "a.gif is of the format GIF" in text(browser).replace("A.gif", "a.gif")


PASTED = """(() => {
    const data = new DataTransfer();
    data.items.add(new File(["GIF89a and more bytes"], %s, { type: "image/gif" }));
    document.dispatchEvent(new ClipboardEvent("paste", { clipboardData: data }));
})()"""


def test_a_result_is_taken_away(browser, folder):
    """As a file, and by the clipboard: no cell is a formula."""
    browser.call("Browser.setDownloadBehavior", behavior="allow", downloadPath=str(folder))
    compare(browser, *put(folder, made.jpeg(app1_of('=1;"=2')), made.jpeg(app1_of("＋2", "Canon"))))
    browser.ask("[...document.querySelectorAll('#result .steps button')].find((node) => node.textContent === 'Save as CSV').click()")
    (file,) = saved(folder, "result*.csv")
    with open(file, newline="", encoding="utf-8") as lines:
        found = [*csv.reader(lines)]
    assert found[1:] == [
        ["0.jpg", "different", "1.jpg", "IFD0:ImageDescription", "'=1;'\"=2", "'＋2", ""],
        ["0.jpg", "different", "1.jpg", "IFD0:Make", "Leica", "Canon", ""],
    ]
    browser.ask("navigator.clipboard.writeText = async (text) => { self.copied = text; }")
    browser.ask("[...document.querySelectorAll('#result .steps button')].find((node) => node.textContent === 'Copy').click()")
    browser.wait("self.copied")
    assert [line.split("\t") for line in browser.ask("self.copied").split("\n")] == found


def test_normal_forms(browser, folder):
    browser.call("Browser.setDownloadBehavior", behavior="allow", downloadPath=str(folder))
    (path,) = put(folder, made.jpeg(made.app1(ONE), made.with_record(made.iim(b"Vase")), VASE_XMP))
    compare(browser, path)
    browser.ask("document.querySelectorAll('.downloads button').forEach((node) => node.click())")
    forms = [
        *(exifnorm.normal(data) for _, data in exifnorm.jpeg_blocks(path.read_bytes())),
        exifnorm.xmp_normal(made.xmp(TITLE.format("Vase"))),
    ]
    assert [it.read_bytes() for it in saved(folder, "0.[!j]*", 3)] == forms


# ---- what it says of made pictures


def many_fields(last):
    """A picture with all 65,536 DataSets once, of which the last has a value. Its record is in several segments."""
    names = [bytes(name) for name in product(range(256), repeat=2)]
    record = b"".join(b"\x1c" + name + b"\0\0" for name in names[:-1]) + b"\x1c\xff\xff\0\1" + last
    whole = resource(0x0404, record)
    return picture(*(photoshop(whole[start : start + 60_000]) for start in range(0, len(whole), 60_000)))


def small(tag, form, data):
    """Exif with a field whose value is behind it."""
    count = len(data) if form == 2 else 1
    return picture(exif(bytes.fromhex("4d4d002a00000008 0001") + struct.pack(">HHII4x", tag, form, count, 26) + data))


def captioned(number, text, *more):
    """A picture with a title, a caption, and other fields."""
    fields = [(5, b"%d" % number), (120, text), *more]
    return picture(iptc(b"".join(b"\x1c\2" + bytes([key]) + len(value).to_bytes(2, "big") + value for key, value in fields)))


def of_names(names, value):
    """A picture with DataSets of these names."""
    return picture(iptc(b"".join(b"\x1c" + bytes(name) + len(value).to_bytes(2, "big") + value for name in names)))


def app1_of(caption, make="Leica"):
    """Exif with a caption."""
    return made.app1(made.small_tiff((0x010E, 2, caption.encode() + b"\0"), (0x010F, 2, make.encode() + b"\0")))


ORIENTED, LOOP = picture(exif(ONE)), exif(ONE[:-4] + bytes.fromhex("00000008"))
MORE, GIF, CUT = segment(0xE1, b"Exif\0\1" + ONE), b"GIF89a" + bytes(9), BOWL.read_bytes()[:200]
MARKUP = "<script>alert(1)</script><img src=x onerror=alert(2)>`x`"
KEYWORDS = "<dc:subject><rdf:Bag><rdf:li>urn</rdf:li><rdf:li>clay</rdf:li></rdf:Bag></dc:subject>"
LONG_FORM = made.app1_xmp(made.xmp("".join(f"<n:a{number}/>" for number in range(5000)), f"xmlns:n='http://{'x' * 240}/'"))
SETS = [bytes(name) for name in product(range(2, 20), range(256))]
OF_ONE = {
    "a picture with fields": VASE.read_bytes(),
    "no metadata in one": picture(),
    "25 refused blocks": picture(*[LOOP, segment(0xFE, b"")] * 25),
    "a contradiction": made.jpeg(app1_of("Anna"), made.app1_xmp(made.xmp("<dc:description>Otto</dc:description>"))),
    "what a camera writes": made.jpeg(app1_of("SONY DSC")),
    "GIF": GIF,
    "a cut head": CUT,
    "no bytes": b"",
    "30 packets with long forms": made.jpeg(LONG_FORM * 30),
    "a million parts": b"\xff\xd8" + b"\xff\x01" * 1_000_000 + b"\xff\xd9",
    "60,000 DataSets": picture(*[photoshop(resource(0x0404, b"\x1c\x02\x19\0\0" * 12_000))] * 5),
    "a long value": captioned(1, b"a" * 9_999 + b"b"),
    "a packet": made.jpeg(VASE_XMP),
    "a packet in a rare form": made.jpeg(RARE),
    "a packet that is wrong": made.jpeg(WRONG),
    "a packet and its extension": made.jpeg(extended(TITLE.format("Vase"), "1")),
    "a segment of an unknown kind": made.jpeg(OTHER),
    "an extension that is missing": made.jpeg(MISSING),
    "Exif, and a packet in a rare form": made.jpeg(made.app1(ONE), RARE),
    "texts of a packet": made.jpeg(of_property(TITLE.format("&lt;img src=x onerror=alert(1)>\u202e") + KEYWORDS)),
    "names that each object has": made.jpeg(
        app1_of("__proto__", "constructor"),
        made.with_record(made.iim(b"__proto__")),
        of_property("".join(f"<dc:{name}>Vase</dc:{name}><q:{name} xmlns:q='x:__proto__/'>Urn</q:{name}>" for name in EVERY)),
    ),
}
OF_TWO_PICTURES = {
    "the same fields": (ORIENTED, picture(exif(ONE), iptc(b""))),
    "the same behind a long head": (picture(segment(0xFE, bytes(65_000)) * 20, exif(ONE)), ORIENTED),
    "no metadata": (picture(), picture() + b"\0"),
    "a packet that isn't read": (ORIENTED, picture(exif(ONE), segment(0xE1, XMP + b"<x/>"))),
    "a block by an unknown mark": (ORIENTED, picture(exif(ONE), MORE)),
    "a block in a resource": (ORIENTED, picture(exif(ONE), photoshop(b"8BIM\x04\x22\0\0\0\0\0\2ab"))),
    "a trailer": tuple(made.jpeg(made.app1(made.exif(b"abc")), behind=foto_station((1, made.iim(it)))) for it in (b"Anna", b"Otto")),
    "values that look alike": tuple(small(0x829A, 5, bytes.fromhex(it)) for it in ("0000000a000004e2", "000000010000007d")),
    "values that are no markup": (small(0x010E, 2, MARKUP.encode() + b"\0"), small(0x010E, 2, b"\x1b[31m\xff\xfe\0\7\xe2\x80\xae" * 2000)),
    **{
        f"XMP: {name}": (made.jpeg(made.app1(ONE), first), made.jpeg(made.app1(ONE), second) + b"\0")
        for name, (first, second) in OF_XMP.items()
    },
    "the last of 3,501 properties": tuple(
        made.jpeg(of_property("".join(f"<dc:a{number:04}/>" for number in range(3500)) + f"<dc:z>{word}</dc:z>")) for word in "ab"
    ),
    "the last character of a long text": tuple(made.jpeg(of_property(f"<dc:z>{'x' * 9_000}{word}</dc:z>")) for word in "ab"),
    "packets alone": tuple(made.xmp(TITLE.format(word)) for word in ("Vase", "Bowl")),
    "a refused block in one file twice": (REFUSED.read_bytes(), REFUSED.read_bytes()),
    "a refused block in both": (REFUSED.read_bytes(), REFUSED.read_bytes() + b"\0"),
    "a refused block, and others that differ": (REFUSED.read_bytes(), VASE.read_bytes()),
    "a character set that is a guess": (captioned(1, b"\xfcb"), picture(iptc(b"\x1c\1\x5a\0\3\x1b%G\x1c\x02\x78\0\3\xc3\xbcb"))),
    "GIF and a JPEG": (GIF, VASE.read_bytes()),
    "a cut head and a whole one": (CUT, VASE.read_bytes()),
    "no bytes and a JPEG": (b"", VASE.read_bytes()),
    "a head that is longer than is read": (picture(segment(0xFE, bytes(65_533)) * 1030, exif(ONE)), ORIENTED),
    "more fields than are listed": (many_fields(b"a"), many_fields(b"a") + b"\0"),
    "a difference behind those that are listed": (many_fields(b"a"), many_fields(b"b")),
    "more differences than are sent": (of_names(SETS, b"a"), of_names(SETS, b"b")),
}
CASES = {**{name: (it,) for name, it in OF_ONE.items()}, **OF_TWO_PICTURES}
LINES, WIDTH = 40, 300  # of what is shown, that are kept


@pytest.mark.parametrize("name", CASES)
def test_what_it_says(browser, folder, golden, name):
    compare(browser, *put(folder, *CASES[name]))
    kept(browser, golden, "pictures.txt", name, "#result")


def kept(browser, golden, file, name, selector):
    """Compares what is shown with a golden file. Nothing of it is markup of a picture or of a name."""
    browser.ask("document.querySelectorAll('.images').forEach((node) => node.remove())")  # the browser says later what it can't show
    lines = [line if len(line) < WIDTH else f"{line[:WIDTH]} .." for line in text(browser, selector).split("\n") if line.strip()]
    more = [f".. {len(lines) - LINES:,} more lines"] if len(lines) > LINES else []
    heads = [f"# {it}\n" for it in (CASES if file == "pictures.txt" else ["samples", *FOLDERS])]
    golden.part(file, "\n".join([f"# {name}", *lines[:LINES], *more, ""]), heads)
    assert browser.ask("document.querySelectorAll('main :not(figure) > img, main b, main script').length") == 0


# ---- folders


@pytest.mark.parametrize("is_dropped", [False, True])
def test_folders(browser, golden, is_dropped):
    if is_dropped:
        browser.drop("#slot-0", SAMPLES / "before", SAMPLES / "after")
    else:
        compare_folders(browser, SAMPLES / "before", SAMPLES / "after")
    assert heading(browser) == "2 different, 1 moved"
    browser.ask("document.querySelector('[data-filter=all]').click()")
    kept(browser, golden, "folders.txt", "samples", "#summary .list")
    browser.ask("[...document.querySelectorAll('.list button')].find((node) => node.textContent.includes('bowl')).click()")
    browser.wait("!document.getElementById('result').hidden")
    assert len(rows(browser, "What differs")) == 2
    browser.ask("[...document.querySelectorAll('.list button')].find((node) => node.textContent === 'press/vase.jpg').click()")
    browser.wait("document.querySelector('#result h2')?.textContent.includes('Same')")
    assert "press/vase.jpg" in text(browser, "#result"), "equal fields are in a table without the name of a picture"


def saved(folder, pattern, count=1):
    """The files that the page has saved in a folder."""
    end = time.monotonic() + PATIENCE
    while time.monotonic() < end:
        files = sorted(folder.glob(pattern))
        if len(files) == count and not [*folder.glob("*.crdownload")]:
            return files
        time.sleep(0.05)
    raise TimeoutError(f"{PATIENCE} seconds passed, while these files were waited for: {pattern}")


def test_a_picture_and_a_folder(browser):
    browser.choose("#file-0", VASE)
    heading(browser)
    browser.choose("#folder-1", SAMPLES / "after")
    browser.wait("document.getElementById('status').textContent.includes('can’t be compared')")


# The page itself sees how far it is, and stops there: it could be at the end before another process has seen it.
STOP_ONCE = """new Promise((done) => {
    const [running, progress, stop, status] = ["running", "progress", "stop", "status"].map((id) => document.getElementById(id));
    const look = () => !running.hidden && %s ? done(stop.click()) : setTimeout(look);
    look();
})"""


def dropped_and_stopped(browser, condition, *folders):
    """Drops folders, and stops the page as soon as a condition is true, which it may be for a moment after the drop."""
    browser.ask(f"self.stopped = {STOP_ONCE % condition}; 0")
    browser.drop("#slot-0", *folders)
    browser.ask("self.stopped")


def test_many_pictures(browser, folder):
    """Stop while two folders are listed, and in the middle of their pictures; and the rows of a list, as many as are asked for."""
    for side, pictures in (("first", (VASE, BOWL)), ("second", (VASE, BOWL_AFTER))):
        copies = [shutil.copyfile(path, folder / f"{side}-{path.name}") for path in pictures]
        for number in range(MANY):
            path = folder / side / f"{number // 100}" / f"{number}.jpg"
            path.parent.mkdir(parents=True, exist_ok=True)
            os.link(copies[number % 50 == 0], path)
    folders = folder / "first", folder / "second"
    dropped_and_stopped(browser, "!progress.hasAttribute('value') && status.textContent.startsWith('Listing the folder first: ')", *folders)
    browser.wait("document.getElementById('status').textContent.startsWith('Stopped: the folder was not listed')")
    assert browser.ask("document.getElementById('running').hidden") and not browser.ask("chosen.some(Boolean)")
    dropped_and_stopped(browser, f"progress.max === {MANY} && progress.value > 5", *folders)
    heading(browser)
    assert f"Stopped before the end: there are {MANY} files." in text(browser) and "same metadata" in text(browser)
    assert not browser.ask("document.body.dataset.state = ''") and browser.ask("document.getElementById('running').hidden")
    browser.ask("document.getElementById('anew').click()")
    assert compare_folders(browser, *folders) == f"{MANY // 50} different, {MANY - MANY // 50} same metadata"
    browser.ask("document.querySelector('[data-filter=same]').click()")
    assert len(rows(browser, "Same metadata")) == 300
    browser.ask("document.querySelector('.more').click()")
    assert len(rows(browser, "Same metadata")) == 600


def test_a_question_that_takes_too_long(browser):
    """The worker is ended, and the next question gets a new one. Here the limit of the time is none, and the worker hears no question."""
    browser.ask("self.realTimeout = setTimeout; self.setTimeout = (act, time) => realTimeout(act, time === 30000 ? 0 : time); 0")
    browser.ask("self.realPost = Worker.prototype.postMessage; Worker.prototype.postMessage = () => {}; 0")
    try:
        browser.choose("#file-0", BOWL, BOWL_AFTER)
        browser.wait("document.getElementById('status').textContent.includes('more than 30 seconds')")
    finally:
        browser.ask("self.setTimeout = realTimeout; Worker.prototype.postMessage = realPost; 0")
    browser.ask("document.getElementById('anew').click()")
    assert compare(browser, BOWL, BOWL_AFTER) == "Different"


# ---- what changed, by edits; the result of a line, and what else a list has


def two_folders(folder, pairs):
    for side, at in (("first", 0), ("second", 1)):
        (folder / side).mkdir()
        for name, both in pairs.items():
            if both[at] is not None:
                (folder / side / name).parent.mkdir(parents=True, exist_ok=True)
                (folder / side / name).write_bytes(both[at])
    return folder / "first", folder / "second"


EDITED = {
    f"{number}.jpg": (captioned(number, b"Plate %d, 1900" % number), captioned(number, b"Plate %d, 1900, recto" % number))
    for number in range(6)
}
ODD = {
    "7.jpg": (captioned(7, b"Plate 7, 1943"), captioned(7, b"Plate 7, 1093, recto")),
    "8.jpg": (captioned(8, b"Plate 8"), captioned(8, b"")),
}


def in_one(side, words):
    """Pictures with a caption, in one folder only; without a word one without metadata."""
    pictures = {name: picture(iptc(b"\x1c\x02\x78\0\4" + word)) if word else picture() for name, word in words.items()}
    return {name: (it, None) if side == 0 else (None, it) for name, it in pictures.items()}


CAPTION, NO_PICTURE = iptc(b"\x1c\x02\x78\0\4Vase"), {"notes.txt": (b"no picture", None)}
UNSURE = {  # with other XMP, with more that isn't read, or with a refused block
    "xmp": [picture(CAPTION, segment(0xE1, XMP + it)) for it in (b"<x/>", b"<y/>")],
    "more": [picture(exif(ONE), MORE)] * 2,
    "loop": [picture(LOOP)] * 2,
}
HOSTILE = ("<img src=x onerror=alert(1)>", "\"'&lt;b&gt;", "`code`", "=1+1", 'a;=2,"b"', "a\u202egpj.exe", "\x1b[31m", "two\nlines")
NAMES = [*(f"{name}.jpg" for name in HOSTILE), "__proto__", "constructor"]
FOLDERS = {  # of two folders, the pictures by their paths
    "names": {name: (made.jpeg(VASE_XMP), made.jpeg(BOWL_XMP)) for name in ["=1+1.jpg", *(f"<b>/{it}" for it in NAMES)]},
    "edits": {**EDITED, **ODD},
    "moved: by name, or if there is one on each side": {
        **in_one(
            0,
            {f"a/{name}.jpg": word for name, word in zip("12xpquvn", [b"Vase", b"Vase", b"Bowl", b"Tile", b"Tile", b"Urn1", b"Urn1", b""])},
        ),
        **in_one(1, {f"b/{name}.jpg": word for name, word in zip("21yrswo", [b"Vase", b"Vase", b"Bowl", b"Tile", b"Tile", b"Urn1", b""])}),
        "first-xmp.jpg": (picture(VASE_XMP), None),
        "second-xmp.jpg": (None, picture(LIKE_VASE)),
    },
    "pictures that may not be moved": {
        **NO_PICTURE,
        **{
            f"{side}/{name}.jpg": (it[0], None) if side == "first" else (None, it[1])
            for name, it in UNSURE.items()
            for side in ("first", "second")
        },
    },
    "verdicts": {
        "properties.jpg": (made.jpeg(), made.jpeg(of_property(""))),
        "segment.jpg": (made.jpeg(), made.jpeg(OTHER)),
        "fields.jpg": (many_fields(b"a"), many_fields(b"b")),
        "no metadata.jpg": (picture(), picture() + b"\0"),
        "the same bytes.jpg": (picture(LOOP), picture(LOOP)),
        "refused.jpg": (picture(LOOP), picture(LOOP) + b"\0"),
        "cut.jpg": (CUT, VASE.read_bytes()),
        "gif.jpg": (GIF, GIF + b"\0"),
        "copy.jpg": (None, captioned(1, b"a")),
        "copy 2.jpg": (None, captioned(1, b"a")),
    },
}


@pytest.mark.parametrize("name", FOLDERS)
def test_what_it_says_of_folders(browser, folder, golden, name):
    """All lines of the list, what was edited, and groups of copies."""
    compare_folders(browser, *two_folders(folder, FOLDERS[name]))
    browser.ask(
        "document.querySelector('[data-filter=all]').click(); document.querySelectorAll('details').forEach((node) => { node.open = true; })"
    )
    kept(browser, golden, "folders.txt", name, "#summary")


@pytest.mark.parametrize("name", ["names", "edits", "verdicts"])
def test_csv(browser, folder, golden, name):
    """No cell is a formula for a spreadsheet."""
    browser.call("Browser.setDownloadBehavior", behavior="allow", downloadPath=str(folder))
    compare_folders(browser, *two_folders(folder, FOLDERS[name]))
    browser.ask("[...document.querySelectorAll('.counts button')].at(-1).click()")
    (file,) = saved(folder, "pictures*.csv")
    lines = file.read_text(encoding="utf-8").splitlines()
    assert not [cell for row in csv.reader(lines) for cell in row if cell.startswith(("=", "+", "-", "@"))]
    golden(f"{name}.csv", "\n".join([*lines, ""]))


def test_a_way_is_a_list(browser, folder):
    compare_folders(browser, *two_folders(folder, {**EDITED, **ODD}))
    assert [row[0] for row in rows(browser, "Different")][:2] == ["7.jpg", "8.jpg"]
    assert "<del>1943</del><ins>1093, recto</ins>" in browser.ask("document.querySelector('.ways li').innerHTML")
    browser.ask("document.querySelectorAll('.ways li button')[2].click()")
    assert [row[0] for row in rows(browser, "Changed alike")] == [*EDITED]


def test_a_list_of_one_label(browser, folder):
    """The counts of the labels are those of the rows, and those of the verdicts add up."""
    pairs = {**EDITED, **ODD, "9.jpg": (made.jpeg(app1_of("a")), made.jpeg(app1_of("a", "Canon"))), "10.jpg": (EDITED["0.jpg"][0], None)}
    compare_folders(browser, *two_folders(folder, pairs))
    options = browser.ask("[...document.querySelectorAll('select option')].map((node) => node.textContent)")
    assert options == ["any field", "caption (8)", "IFD0:Make (1)"]
    for label, count in (("caption", 8), ("IFD0:Make", 1)):
        browser.ask(
            f"(() => {{ const it = document.querySelector('select'); it.value = '{label}'; it.dispatchEvent(new Event('change')); }})()"
        )
        assert len(rows(browser, f"Changed in {label}: {count}")) == count
    counts = browser.ask(
        "[...document.querySelectorAll('.counts [data-filter]')].map((node) => Number(/[0-9]+/.exec(node.textContent)[0]))"
    )
    assert sum(counts[:-1]) == counts[-1] == len(pairs) and f"{len(pairs)} pictures" in text(browser)
    browser.ask("document.querySelector('[data-filter=missing]').click()")
    assert [row[0] for row in rows(browser, "In one folder only")] == ["10.jpg"] and browser.ask(
        "document.querySelector('select').value"
    ) == ""


def test_the_result_of_a_line_is_below_it(browser, folder):
    """Escape leads back to the line, and j and k to the next ones."""
    compare_folders(browser, *two_folders(folder, {**EDITED, **ODD}))
    browser.ask("document.querySelectorAll('.ways li button')[0].click()")
    browser.wait("document.querySelector('.opened h2') === document.activeElement")
    opened = "document.querySelector('.opened')?.previousElementSibling.querySelector('button').textContent"
    assert browser.ask(opened) == "7.jpg" and browser.ask("document.querySelectorAll('.opened figure').length") == 2
    for key, code, due in (("j", 74, "8.jpg"), ("j", 74, "0.jpg"), ("k", 75, "8.jpg")):
        browser.press(key, code)
        browser.wait(f"{opened} === '{due}' && document.activeElement.tagName === 'H2'")
    browser.press("Escape", 27)
    assert browser.ask("document.activeElement.textContent") == "8.jpg" and not browser.ask("document.querySelector('.opened')")


def test_all_rows_are_printed(browser, folder):
    compare_folders(browser, *two_folders(folder, {f"{number:03}.jpg": EDITED["0.jpg"] for number in range(310)}))
    assert len(rows(browser, "Different")) == 300
    browser.ask("dispatchEvent(new Event('beforeprint'))")
    assert len(rows(browser, "Different")) == 310
    browser.ask("dispatchEvent(new Event('afterprint'))")
    assert len(rows(browser, "Different")) == 300


def test_samples(browser):
    browser.ask("document.getElementById('samples').click()")
    assert heading(browser) == "Different"
    browser.wait("[...document.querySelectorAll('figure img')].filter(({ naturalWidth }) => naturalWidth).length === 2")
    assert browser.ask("[...document.querySelectorAll('del, ins')].map((node) => node.textContent)") == ["1820", "1280"]


# ---- hostile pictures and names


SIGNS = ("=", "+", "-", "@", "\t", "＝", "＋", "－", "＠")
WORDS = ["=1+1", ';"=1+1"', "＝1", "__proto__", "&lt;img src=x onerror=alert(1)&gt;", "\u202e'x'"]
STEMS = [
    *HOSTILE,
    *EVERY,
    *(f"{sign}1" for sign in SIGNS),
    *WORDS,
    '"=1',
    "</script><b>",
    "\u2028x\x7f\x9b",
    "漢" * 70,
    " ",
    "#?%2e",
    "a\\b",
]
STRANGERS = ["__proto__", "constructor", "=1", "<i>", "a\u202eb"]  # folders
FOREIGN = "main :is(a, b, i, iframe, object, script, style, svg), main :not(figure) > img, [onerror], [onload]"
NATIVE = """[Object, Array, Function, Map, String].flatMap(({ prototype }) =>
    Object.getOwnPropertyNames(prototype).map((name) => `${name} ${typeof Object.getOwnPropertyDescriptor(prototype, name).value}`)).join()"""
TELLING = f""";((other) => {{
    self.onmessage = (event) => event.data.call === "native" ? self.postMessage({{ id: event.data.id, answer: {NATIVE} }}) : other(event);
}})(self.onmessage);"""  # for the worker


def of_a_stranger():
    """Pictures of all formats with mistakes by chance, by their paths; a tenth of them have one in the second folder too."""
    chance, samples = Random(SEED), [path for path in sorted(SAMPLES.glob("*/*/*")) if path.is_file()]
    some = [path.read_bytes()[:6000] for path in samples]
    some += [picture(segment(0xE1, XMP + packet)) for packet in small_packets()]
    some += [make(of_fields(4, word.encode()).parts) for _, make in FORMATS.values() for word in WORDS]
    for number in range(STRANGE):
        path = f"{number // 1000}/{STRANGERS[number % len(STRANGERS)]}/{STEMS[number % len(STEMS)]}{number}.jpg"
        yield path, (changed(chance.choice(some), chance), None if number % 10 else chance.choice(some))


GIVE = """for (const [path, both] of %s) both.forEach((text, side) => {
    if (text !== null) self.given[side].files.set(path, new File([Uint8Array.from(atob(text), (one) => one.charCodeAt(0))], "a"));
}); 0"""


def give_folders(browser, pictures):
    """Chooses two folders whose files are in the page alone: while a disk is slow the browser would say nothing."""
    browser.ask("self.given = ['first', 'second'].map((name) => ({ name, files: new Map() })); 0")
    for at in range(0, len(pictures), 200):
        some = [(path, [it and b64encode(it).decode() for it in both]) for path, both in pictures[at : at + 200]]
        browser.ask(GIVE % json.dumps(some))
    browser.ask("put(given.splice(0), null); 0")


def test_a_folder_of_a_stranger(browser, folder, checks, record_property):
    """Each file has its row, and no name or text of it is anything but a text: in the page, in its scripts, and in the table that is saved."""
    browser.call("Browser.setDownloadBehavior", behavior="allow", downloadPath=str(folder))
    browser.ask(f"end('stopped'); scripts += {json.dumps(TELLING)}; 0")
    native = [browser.ask(NATIVE), browser.ask("ask('native')")]
    give_folders(browser, [*of_a_stranger()])
    heading(browser)
    browser.ask("document.querySelector('[data-filter=all]').click(); dispatchEvent(new Event('beforeprint'))")
    listed = rows(browser, "All pictures")
    assert len(listed) == STRANGE and {"different", "refused", "not read"} <= {verdict for _, verdict, _ in listed}
    ours = re.compile(r"undefined|not a function|Cannot |\[object|NaN|more than 30 seconds|unknown error")
    checks.equal("what our own mistakes say", [row for row in listed if ours.search(row[2])], [])
    checks.equal("elements of the list", browser.ask(f"document.querySelectorAll('{FOREIGN}').length"), 0)
    browser.ask("dispatchEvent(new Event('afterprint'))")
    for number in range(0, 300, 15):
        browser.ask(f"document.querySelectorAll('.list > tbody > tr:not(.opened) > th button')[{number}].click()")
        browser.wait("!!document.querySelector('.opened')")
        checks.equal(f"elements of result {number}", browser.ask(f"document.querySelectorAll('{FOREIGN}').length"), 0)
    checks.equal("what each object has", [browser.ask(NATIVE), browser.ask("ask('native')")], native)
    browser.ask("[...document.querySelectorAll('.counts button')].at(-1).click()")
    are_safe_rows(*saved(folder, "pictures*.csv"), checks)
    browser.call("HeapProfiler.collectGarbage")
    used = browser.call("Runtime.getHeapUsage")["usedSize"]
    record_property("measured", f"the page's heap after {STRANGE:,} files of a stranger: {used / 1e6:.0f} MB")
    assert used < MOST_MEMORY
    browser.ask("scripts = null; document.getElementById('anew').click()")
    assert compare(browser, BOWL, BOWL_AFTER) == "Different", "what is read afterwards is as before"


def are_safe_rows(file, checks):
    """No cell is a formula, whatever separates cells where the table is opened; a file has one row, or one for each field that differs."""
    csv.field_size_limit(1 << 24)
    for separator in "\t;,":
        with open(file, newline="", encoding="utf-8") as lines:
            found = [*csv.reader(lines, delimiter=separator)][1:]
        checks.equal(f"formulas between {separator!r}", [cell for row in found for cell in row if cell.startswith(SIGNS)], [])
    assert {len(row) for row in found} == {7} and len({row[0] for row in found}) == STRANGE
    assert {*Counter(row[0] for row in found if row[1] != "different").values()} == {1}


ALIKE = """(() => {
  const count = %d, row = (path, more) => ({ path, files: [null, null], names: [], changes: [], edits: [], count: 1, ...more });
  const half = (side) => Array.from({ length: count }, (_, i) => row(`${side}/${i}.jpg`, { verdict: "missing", side, identity: "1", identities: ["1"] }));
  const moved = pairMoved([...half(0), ...half(1)]).filter(({ verdict }) => verdict === "moved");
  const edited = Array.from({ length: count }, (_, i) => row(`${i}.jpg`, { verdict: "different", key: "", identities: ["2", "3"],
    shared: [{ name: "dates", note: "1 h later", fields: [`a:${i %% 2 ? i : 0}`], steps: [] }] }));
  summarise([...moved, ...edited], 0, true, 0);
  document.querySelector(".ways li button").click();
  return [moved.length, document.querySelector(".copies summary").textContent, document.querySelector(".list caption").textContent];
})()"""


def test_many_rows_that_are_alike(browser):
    """A step for each pair of these rows would take longer than the browser may be silent."""
    count = 150_000
    moved, copies, alike = browser.ask(ALIKE % count)
    assert moved == count and alike == f"Changed alike: {count:,}"
    assert copies == f"The same metadata inside a folder: {count * 3:,} pictures in 3 groups"


def test_names_that_the_browser_leaves_out(browser, folder):
    """Chromium lists a dropped folder without some names, so the page never says that all are the same, unless all of them are listed."""
    names = [b"a:b.jpg", b"c.jpg", "family\u200d.jpg".encode(), b"~d.jpg", b"latin-\xe4.jpg"]
    for side in ("first", "second"):
        (folder / side).mkdir()
        for name in names:
            shutil.copyfile(BOWL, os.path.join(os.fsencode(folder / side), name))
    browser.drop("#slot-0", folder / "first", folder / "second")
    title, shown = heading(browser), text(browser)
    assert "c.jpg" in [row[0] for row in rows(browser, "Same metadata")]
    if f"{len(names)} pictures" not in shown:
        assert not title.startswith("All") and "lists no file whose name" in shown
    assert all(row[0] for row in rows(browser, "Same metadata"))


def test_more_files_than_are_listed(browser):
    listing = "Array.from({ length: 600_000 }, (_, i) => ({ name: String(i), isFile: true }))"
    said = browser.ask(f"filesBelow({{ name: 'f' }}, () => {listing}, async () => null, begun()).then(() => '', (error) => error.message)")
    assert "more than 500,000 files" in said
    files = "Array.from({ length: 600_000 }, (_, i) => ({ webkitRelativePath: `f/${i}` }))"
    browser.ask(f"document.getElementById('folder-0').onchange({{ target: {{ files: {files} }} }}); 0")
    assert "more than 500,000 files" in text(browser, "#status") and not browser.ask("chosen.some(Boolean)")


def test_no_request_is_allowed(browser):
    for code in (
        "fetch('http://127.0.0.1:9/')",
        "fetch('file:///etc/hostname')",
        "Promise.resolve().then(() => { document.body.innerHTML = '<b>'; })",
    ):
        assert browser.ask(f"({code}).then(() => 'allowed', (error) => error.name)") == "TypeError", code
    browser.wait("true")
    browser.log.clear()
    browser.requests[:] = [
        address for address in browser.requests if "127.0.0.1" not in address and "/etc/" not in address
    ]  # asked for, and refused


# ---- how it looks, and how it is used


@pytest.mark.parametrize("is_dark", [False, True])
@pytest.mark.parametrize("width", [390, 1280])
def test_contrast_and_width(browser, width, is_dark, checks):
    """Contrast by WCAG 2.1, 1.4.3, and no scrolling to the side."""
    browser.show(width, dark=is_dark)
    for pictures in (
        (BOWL, BOWL_AFTER),
        (VASE, VASE_AFTER),
        (REFUSED, VASE),
        (PLAN, VASE),
        (BOWL,),
        (SAMPLES / "before", SAMPLES / "after"),
    ):
        browser.ask("document.getElementById('anew').click()")
        compare_folders(browser, *pictures) if pictures[0].is_dir() else compare(browser, *pictures)
        if pictures[0].is_dir():
            browser.ask("[...document.querySelectorAll('.list button')].find((node) => node.textContent.includes('bowl')).click()")
            browser.wait("!document.getElementById('result').hidden")
        browser.wait("document.getAnimations().length === 0")
        texts, faint = browser.ask(CONTRAST)
        checks.check(f"{pictures}: {texts} texts, {faint}", texts > 20 and not faint)
        checks.check(f"{pictures} in {width}", browser.ask("document.documentElement.scrollWidth <= innerWidth"))
    browser.show()


def accessible(browser):
    nodes = browser.call("Accessibility.getFullAXTree")["nodes"]
    return [(node["role"]["value"], node.get("name", {}).get("value", "")) for node in nodes if not node.get("ignored") and "role" in node]


def test_names_and_roles(browser):
    found = accessible(browser)
    assert {"banner", "main", "contentinfo", "status"} <= {role for role, _ in found}
    names = [name for role, name in found if role == "button"]
    assert all(any(words in name for name in names) for words in ("Choose a picture, the first", "Choose a folder, the second")), names
    compare(browser, BOWL, BOWL_AFTER)
    for width in (1280, 390):
        browser.show(width)
        assert {"table", "columnheader", "rowheader", "cell"} <= {role for role, _ in accessible(browser)}, width
    browser.show()


def test_by_keyboard(browser):
    """Tab reaches each choice and each result, and Enter opens one."""
    compare_folders(browser, SAMPLES / "before", SAMPLES / "after")
    browser.ask("document.getElementById('file-0').focus()")
    focused = []
    for _ in range(15):
        focused.append(browser.ask("document.activeElement.id || document.activeElement.textContent"))
        browser.press("Tab", 9)
    assert [name for name in focused if name in ("file-0", "folder-0", "file-1", "folder-1", "anew")] == [
        "file-0",
        "folder-0",
        "file-1",
        "folder-1",
        "anew",
    ]
    assert "1 moved" in focused and "ceramics/2003-12-bowl.jpg" in focused
    browser.ask("[...document.querySelectorAll('.list button')].find((node) => node.textContent.includes('bowl')).focus()")
    browser.press("Enter", 13)
    browser.wait("document.activeElement.textContent.includes('Different')")


def test_print(browser):
    """Equal fields are printed if they are open, and buttons are not."""
    compare(browser, BOWL, BOWL_AFTER)
    browser.call("Emulation.setEmulatedMedia", media="print")
    assert not browser.ask("document.querySelector('.choices').checkVisibility()")
    browser.call("Emulation.setEmulatedMedia", media="")
    browser.ask("dispatchEvent(new Event('beforeprint'))")
    assert not browser.ask("document.querySelector('details').open")
    browser.show()


# ---- how it is made


def test_the_same_sources_make_the_same_page(wasm, file):
    octets = (wasm / "exifnorm.wasm").read_bytes()
    assert page.page(octets).encode() == file.read_bytes()


def test_the_page_in_docs_is_made_of_these_sources(file):
    if guard.refused(file):
        pytest.skip("the library is not proved")
    assert (TOP / "docs/exifnorm.html").read_bytes() == file.read_bytes(), "docs/exifnorm.html is not of these sources: call `make page`"


@pytest.mark.parametrize("module, is_refused", [(b"1.0.0", False), (b"1.0.0-unproved", True)])
def test_a_page_without_proofs_is_refused(folder, module, is_refused):
    (folder / "page.html").write_text(page.page(module), encoding="utf-8")
    assert bool(guard.refused(folder / "page.html")) == is_refused


def test_a_page_that_is_too_long_is_refused(folder, capsys):
    (folder / "wasm").write_bytes(Random(SEED).randbytes(200_000))
    assert page.main([str(folder / "wasm"), str(folder / "page.html")]) == 1
    assert "bytes, more than" in capsys.readouterr().err and not Path(folder, "page.html").exists()
