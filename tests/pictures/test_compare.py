"""`compare`: two pictures side by side, with the verdict that `changed` has for folders of them."""

import functools
import itertools
import json
import os
import shutil
import struct
import subprocess
import unicodedata
from collections import Counter

import pytest
from hypothesis import example, given, strategies as st
from made_blocks import ASCII, LONG, SHORT, block, entry, segment, table
from made_files import app1, app1_xmp, app13, exif, iim, jpeg, png, resource, title, xmp
from studio import SMALL_JPEG, needs
from test_jpeg_heads import COMPARED
from test_pairs import damages, parts, reached, segments, texts

from exifnorm_pictures.comparison.two_pictures import compare, read
from exifnorm_pictures.comparison.wording import told_apart
from exifnorm_pictures.files import opening
from exifnorm_pictures.files.session import Session
from exifnorm_pictures.model.found import EXIF, IPTC
from exifnorm_pictures.scan.walk import How

RATIONAL = 5


@pytest.fixture
def run(called):
    """Runs a command in a folder with two pictures, a.jpg and b.jpg: its status, what it prints, and its messages."""

    def call(*words, before=None, after=None):
        return called(*words, **{name: octets for name, octets in (("a", before), ("b", after)) if octets is not None})

    return call


def compared(run, before, after, *words):
    status, out, _ = run("compare", "a.jpg", "b.jpg", "--json", "--no-programs", *words, before=before, after=after)
    return status, json.loads(out)


# The same verdict as `changed`

PAIRS = [pair for make in (parts, reached, segments, texts, damages) for pair in make()]
# What the library's proved comparison says

HEADS = [jpeg(*pieces) for pieces in COMPARED] + [SMALL_JPEG, jpeg(app1(exif(b"abc")), app13(resource(0x0404, iim(b"one")) + b"rest"))]


def is_other(result):
    return result not in (None, "same", "absent")


PACKETS = [
    title("Vase"),
    title("Bowl"),
    xmp("", attributes="dc:format='Vase'"),
    xmp("<dc:format xml:lang='en_US'>Vase</dc:format>"),  # a rare form
    title("Vase")[:-40],
]
HEADS_WITH_XMP = [*HEADS[-2:], *(jpeg(app1(exif(b"abc")), app1_xmp(it)) for it in PACKETS), jpeg(*(app1_xmp(it) for it in PACKETS[:2]))]


def pairs_compared(folder, pairs):
    """Each pair with what was read of both, and what `compare` finds."""
    for before, after in pairs:
        sides = []
        for name, octets in (("a.jpg", before), ("b.jpg", after)):
            (folder / name).write_bytes(octets)
            sides.append(read(os.fsencode(folder / name), How(1), Session()))
        sides, heads = zip(*sides)
        yield before, after, sides, compare(*sides, None, heads=heads)


@pytest.mark.parametrize("with_xmp", [False, True])
def test_the_proved_comparison_says_the_same(with_xmp, folder):
    """Of all pairs of JPEGs whose metadata are in their heads, with packets or without, and of the pairs above."""
    whole = HEADS_WITH_XMP if with_xmp else HEADS
    pairs = [*itertools.product(whole, repeat=2), *((pair.before, pair.after) for pair in PAIRS)]
    met = Counter()
    for before, after, sides, found in pairs_compared(folder, pairs):
        results = [it.result for it in found.compared.verdicts if with_xmp or it.kind in (EXIF, IPTC)]
        answer = found.proved.all if with_xmp else found.proved.blocks
        met[answer] += 1
        if answer == "different":
            assert any(map(is_other, results)), (before.hex(), after.hex())
        elif answer and before in whole and after in whole:
            assert answer != "same" or not any(map(is_other, results)), (before.hex(), after.hex())
            assert with_xmp or answer != "not wholly read" or any(it.unread for it in sides), "what isn't read is named"
    assert min(met[it] for it in ("same", "different", "not wholly read", None)) > 5, met


BEHIND_DAMAGE = b"\1" + resource(0x0424, title("Vase"))
UNREAD = {
    "bytes behind the Photoshop resources in the APP13 segment at 2": app13(resource(0x03ED, bytes(16)) + BEHIND_DAMAGE),
    "APP13 segment of an unknown kind": segment(0xED, b"unknown"),
    "APP1 segment of an unknown kind": segment(0xE1, b"http://unknown"),
}
LONE = {"exif": app1(exif(b"abc")), "iptc": app13(resource(0x0404, iim(b"Vase"))), "xmp": app1_xmp(title("Vase"))}


@pytest.mark.parametrize("kind", LONE)
@pytest.mark.parametrize("place", UNREAD)
def test_a_block_that_one_picture_lacks_may_be_in_a_part_of_it_that_is_not_read(place, kind, run):
    """Unless no block of its kind is read there, or the other picture has this part, too."""
    part, lone = UNREAD[place], LONE[kind]
    decided = kind != "xmp" and place.startswith("APP1 ")
    for before, after in ((jpeg(part), jpeg(lone)), (jpeg(lone), jpeg(part))):
        status, found = compared(run, before, after)
        due = (1, "different") if decided else (2, "not wholly read")
        assert (status, found["result"]) == due and place in found["note"], found["note"]
    assert compared(run, jpeg(part), jpeg(lone, segment(0xFE, b""), part))[1]["result"] == "different"
    assert compared(run, jpeg(lone, segment(0xFE, b""), part), jpeg())[1]["result"] == "different"


@pytest.mark.parametrize("save", [os.replace, shutil.copyfile], ids=["replaced", "in place"])
@pytest.mark.parametrize("when", range(1, 8))
def test_a_picture_that_is_saved_while_it_is_compared(save, when, folder, monkeypatch):
    """The metadata and the proved answer are of one state of the file, or there is no proved answer."""
    one, two = jpeg(app1(exif(b"abc"))), jpeg(app1(exif(b"abd")))
    for name, octets in (("a.jpg", one), ("b.jpg", one), ("new", two)):
        (folder / name).write_bytes(octets)
    opened, left = opening.opened, [when]

    def saved_before(place):
        left[0] -= 1
        if not left[0]:
            save(folder / "new", folder / "b.jpg")
        return opened(place)

    first, head = read(os.fsencode(folder / "a.jpg"), How(1, pixels=True), Session())
    monkeypatch.setattr(opening, "opened", saved_before)
    second, other = read(os.fsencode(folder / "b.jpg"), How(1, pixels=True), Session())
    found = compare(first, second, None, heads=(head, other))
    is_same = next(it.result for it in found.compared.verdicts if it.kind == EXIF) == "same"
    assert found.proved.blocks in (None, "same" if is_same else "different")


def verdict_of_changed(folder, run, before, after):
    for side, octets in (("before", before), ("after", after)):
        (folder / side).mkdir(exist_ok=True)
        (folder / side / "picture").write_bytes(octets)
    status, out, _ = run("changed", "before", "after", "--all", "--json", "--no-programs", "--pixels")
    found = json.loads(out.splitlines()[0])
    return status, found["result"], {it["name"] for it in found["fields"]}


@pytest.mark.parametrize("pair", PAIRS, ids=lambda it: it.name)
def test_the_verdict_is_that_of_changed(pair, folder, run):
    status, result, fields = verdict_of_changed(folder, run, pair.before, pair.after)
    found_status, found = compared(run, pair.before, pair.after)
    assert (found_status, found["result"], len(found["fields"])) == (status, result, len(fields))
    assert status == pair.status or found["coded_picture"] in ("other", "damaged")  # the pairs are of metadata alone


# What is shown


def picture(artist, orientation=1, time=(1, 125)):
    """A JPEG with an artist, an orientation and an exposure time."""
    artist += b"\0"
    head = [entry(0x0112, SHORT, 1, orientation << 16), entry(0x013B, ASCII, len(artist), 0), entry(0x8769, LONG, 1, 0)]
    at = 8 + 2 + 12 * 3 + 4
    directory = at + len(artist) + len(artist) % 2
    head[1], head[2] = entry(0x013B, ASCII, len(artist), at), entry(0x8769, LONG, 1, directory)
    inside = table([entry(0x829A, RATIONAL, 1, directory + 2 + 12 + 4)]) + struct.pack(">II", *time)
    return jpeg(app1(block(head) + artist + bytes(len(artist) % 2) + inside))


@needs("exiftool")
def test_a_record_that_is_added_before_a_trailer_with_one(run):
    """The trailer's record is still the trailer's, and didn't change."""
    record = iim(b"Vase")
    trailer = record + struct.pack(">HII", 1, len(record) + 10, 0xA1B2C3D4)  # FotoStation's, as ExifTool reads it
    before, after = jpeg(behind=trailer), jpeg(app13(resource(0x0404, iim(b"Urn"))), behind=trailer)
    status, found = compared(run, before, after)
    assert (status, [(it["name"], it["before"]) for it in found["fields"]]) == (1, [("IPTC:Keywords", None)])


# Verdicts of their own


def test_two_pictures_without_metadata(run):
    status, out, _ = run("compare", "a.jpg", "b.jpg", before=jpeg(), after=png())
    assert (status, out) == (0, "Nothing to compare: neither picture has Exif, IPTC or XMP.\n")


# Others


LETTERS = "ae\u0308\u0301\u00e4\u00e9\u00c5\u212b \t\u00a0\u2003\u2800\u200b\u00ad\u034f\u061c\u180e\u3164\ufe0f\U000e0041<"


@functools.lru_cache(maxsize=None)
def ignorable():
    """The characters that Unicode lets programs show as nothing, as Perl knows them."""
    line = "binmode STDOUT, ':utf8'; for (0..0xd7ff, 0xe000..0xfffd, 0x1bca0..0x1d17a, 0xe0000..0xe0fff) { print chr if chr =~ /\\p{DI}/ }"
    return subprocess.run(["perl", "-e", line], stdout=subprocess.PIPE, check=True).stdout.decode()


def look(text):
    """What people see of a text."""
    visible = "".join(it for it in unicodedata.normalize("NFC", text) if it not in ignorable())
    return " ".join(visible.replace("\u2800", " ").split())


@needs("perl")
@given(*[st.text(LETTERS, max_size=5)] * 2)
@example("M\u00fcnchen", "Mu\u0308nchen")
@example("\u212b\u00a0", "\u00c5\u00a0")
def test_different_texts_never_look_alike(before, after):
    """By the canonical equivalence of Unicode, and whatever blanks and characters without a width are in them."""
    shown = told_apart(before, after)
    assert before == after or look(shown[0]) != look(shown[1]), shown
    assert look(before) == look(after) or shown == (before, after)


@needs("perl")
def test_no_invisible_character_is_forgotten():
    shown = {character: told_apart("a", f"a{character}")[1] for character in ignorable()}
    assert len(shown) > 4000 and not [it for it, text in shown.items() if text != f"a<U+{ord(it):04X}>"]
