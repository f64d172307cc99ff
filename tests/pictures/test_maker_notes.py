"""Pictures that differ in their MakerNotes: `compare` and `changed` ask ExifTool what it reads there, and `same` says of how many that isn't
known."""

import contextlib
import itertools
import json
import os
import re
import sqlite3
import struct
import zlib

import hypothesis
import hypothesis.strategies as st
import pytest
from exifnorm_pictures.cli import main
from exifnorm_pictures.files import session
from exifnorm_pictures.extract import exiftool, structure
from exifnorm_pictures.extract.extraction import blocks_of_file
from exifnorm_pictures.fields.field import Field
from exifnorm_pictures.fields.listing import MAKER_NOTE
from exifnorm_pictures.fields.packing import packed
from exifnorm_pictures.judge.judge import judge_all
from exifnorm_pictures.model.found import EXIF, Blocks, FoundBlock
from made_blocks import ASCII, LONG, SHORT as SHORT_, UNDEFINED, block, entry, table
from made_files import app1, app1_xmp, exif, jpeg, page, tiff, title
from studio import needs, sql_rows


def short(text):
    return int.from_bytes(text.ljust(4, b"\0"), "big")


# Canon's MakerNote is a directory whose offsets count from the header of the block. 0006 is the type of the image, and 0009 the owner's name.


def around(note, moved=0, maker=b"Canon", artist=b"Ann", unsorted=False):
    """A block with a MakerNote, which is made by its place; it begins further behind if it has moved."""
    entries = [entry(0x010F, ASCII, 6, 68), entry(0x013B, ASCII, 4, short(artist)), entry(0x8769, LONG, 1, 50)]
    octets = note(74 + moved)
    main_directory = block([entries[1], entries[0], entries[2]] if unsorted else entries)
    return main_directory + table([entry(0x927C, UNDEFINED, len(octets), 74 + moved)]) + maker + b"\0" + bytes(moved) + octets


def noted(owner=b"Annette", inside=b"", wrong=0, hidden=b"", bad=False, more=(), behind=b"", **others):
    """A picture with a MakerNote that has bytes inside that no value has. Its offset may be wrong, a value may lie outside the file, and bytes
    may follow that only the MakerNote can lead to."""
    outside = [entry(0x0006, ASCII, 99, 60_000)] * bad

    def note(start):
        head = 2 + 12 * (1 + len(outside)) + 4
        return table([*outside, entry(0x0009, ASCII, 8, start + head + len(inside) + wrong)]) + inside + owner + b"\0"

    return jpeg(app1(around(note, **others) + hidden), *more, behind=behind)


def bare(octets, *more, **others):
    """A picture with a MakerNote of these bytes, which lead nowhere."""
    return jpeg(app1(around(lambda _: octets, **others)), *more)


def leading(*more, swapped=False):
    """A picture whose MakerNote leads to the value of a field: to another one if these have changed places, which means the same."""
    make, artist = b"Canon\0", b"Annette\0"
    first, second = (artist, make) if swapped else (make, artist)
    at = {first: 68, second: 68 + len(first)}
    entries = [entry(0x010F, ASCII, 6, at[make]), entry(0x013B, ASCII, 8, at[artist]), entry(0x8769, LONG, 1, 50)]
    note = table([entry(0x0009, ASCII, 8, 68)])
    return jpeg(app1(block(entries) + table([entry(0x927C, UNDEFINED, len(note), 82)]) + first + second + note), *more)


def directed(swapped=False):
    """A picture whose MakerNote has a directory in the value of a field: in that of another one if these have changed places, which means the
    same. One value is an empty directory, and the other one is no directory."""
    make, empty, none = b"OLYMPUS\0", bytes(8), b"\xff" * 8
    first, second = (none, empty) if swapped else (empty, none)
    at = {first: 88, second: 96}
    fields = [entry(0xC000, UNDEFINED, 8, at[empty]), entry(0xC001, UNDEFINED, 8, at[none])]
    note = b"OLYMP\0\1\0" + table([entry(0x0201, SHORT_, 1, 2 << 16), entry(0x2010, LONG, 1, 88)])
    main_directory = block([entry(0x010F, ASCII, 8, 80), entry(0x8769, LONG, 1, 62), *fields])
    return jpeg(app1(main_directory + table([entry(0x927C, UNDEFINED, len(note), 104)]) + make + first + second + note))


SHORT = table([entry(0x0009, ASCII, 4, short(b"Eva"))])
WARNED_OF = table([entry(0x0009, ASCII, 4, short(b"Eva")), entry(0x0010, 99, 1, 0)])
FILES = {
    "plain": noted(),
    "moved": noted(moved=64),
    "rewritten": noted(inside=b"Anna"),
    "rewritten, moved": noted(inside=b"Otto", moved=64),
    "of another owner": noted(b"Ottilie"),
    "with a wrong offset": noted(moved=64, wrong=-3),
    "with another artist": noted(artist=b"Eva"),
    "hidden": noted(hidden=b"Anna"),
    "hidden, moved": noted(hidden=b"Anna", moved=64),
    "hidden further behind": noted(hidden=b"\0Anna"),
    "hidden otherwise, moved": noted(hidden=b"Otto", moved=64),
    "warned of": noted(bad=True),
    "warned of, moved": noted(bad=True, moved=64),
    "of nobody": bare(b"\7\1Note of nobody", maker=b"Nobdy"),
    "of nobody, moved": bare(b"\7\1Note of nobody", moved=64, maker=b"Nobdy"),
    "short": bare(SHORT),
    "short, moved": bare(SHORT, moved=64),
    "short, unsorted, moved": bare(SHORT, moved=64, unsorted=True),
    "short, warned of": bare(WARNED_OF),
    "short, warned of, unsorted, moved": bare(WARNED_OF, moved=64, unsorted=True),
    "leading to a field": leading(),
    "leading to another field": leading(swapped=True),
    "leading to a field, with unreadable XMP": leading(app1_xmp(b"<x")),
    "leading to another field, with unreadable XMP": leading(app1_xmp(b"<x"), swapped=True),
    "short, with unreadable XMP": bare(SHORT, app1_xmp(b"<x")),
    "short, with unreadable XMP, moved": bare(SHORT, app1_xmp(b"<x"), moved=64),
    "with a second Exif": noted(more=[app1(exif(b"abc"))]),
    "with a second Exif, moved": noted(moved=64, more=[app1(exif(b"abc"))]),
    "with another second Exif, moved": noted(moved=64, more=[app1(exif(b"xyz"))]),
    "unsorted": noted(unsorted=True),
    "unsorted, moved": noted(unsorted=True, moved=64),
    "unsorted, rewritten, moved": noted(unsorted=True, inside=b"Anna", moved=64),
    "with XMP": noted(more=[app1_xmp(title("one"))]),
    "with XMP, moved": noted(moved=64, more=[app1_xmp(title("one"))]),
    "with a part that isn't read": noted(behind=b"one"),
    "with that part, moved": noted(moved=64, behind=b"one"),
    "with another part, moved": noted(moved=64, behind=b"two"),
    "with other XMP, moved": noted(moved=64, more=[app1_xmp(title("two"))]),
    "with unreadable XMP": noted(more=[app1_xmp(b"<x")]),
    "with the same unreadable XMP, rewritten": noted(inside=b"Anna", more=[app1_xmp(b"<x")]),
    "with other unreadable XMP, rewritten": noted(inside=b"Anna", more=[app1_xmp(b"<y")]),
}


@pytest.fixture
def run(folder, monkeypatch, capsys):
    """Runs a command with --json in the test's folder: the status, and the objects."""
    monkeypatch.chdir(folder)

    def call(*words):
        capsys.readouterr()
        status = main._run([*words, "--json"])
        printed = capsys.readouterr()
        assert status < 3, printed.err
        return status, [json.loads(it) for it in printed.out.splitlines()]

    return call


@pytest.fixture
def put(run, folder):
    """Writes some pictures, and indexes them."""

    def call(*more, **pictures):
        (folder / "p").mkdir(exist_ok=True)
        for name, octets in pictures.items():
            (folder / f"p/{name}.jpg").write_bytes(octets)
        assert run("index", "p", "--catalogue", "c", "--quiet", *more)[0] == 0

    return call


@pytest.fixture
def same(run):
    """The status of `same`, its groups, and the pictures that may be in one by their MakerNotes."""

    def call(*words):
        status, (*groups, summary) = run("same", "c", *words)
        return status, groups, summary["maker_notes_unknown"]

    return call


def names(group):
    return [os.path.basename(it["path"])[:-4] for it in group["pictures"]]


def beside(name):
    """What a picture has beside its MakerNote. Pairs that differ in that differ in any case, so one such pair is enough."""
    return next((it for it in ("unreadable XMP", "XMP", "second Exif", "part") if it in name), "")


PAIRS = [it for it in itertools.combinations(FILES, 2) if beside(it[0]) == beside(it[1]) or it[0] == "plain"]

# what `compare` says of a pair of which ExifTool may read the same
BY_NOTES = (
    "the same but for a MakerNote that moved",
    "only bytes that a MakerNote can reach differ",
    "only MakerNote differs",
    "different after repair",
)


def may_read_the_same(found):
    """Whether ExifTool reads the same of two pictures that differ in nothing else, by the answer of `compare`."""
    reads = "reads the same (ExifTool)" in found["note"] and not re.search("XMP is unreadable(?!, the same bytes)", found["note"])
    only_notes = all(it["name"].startswith("ExifIFD:MakerNote") for it in found["fields"])
    return found["result"] == "the same after repair" or (reads and only_notes and found["result"] in BY_NOTES)


class Shared(session.Session):
    """A session that goes on after a command."""

    def close(self):
        pass


@pytest.fixture
def one_exiftool(folder, monkeypatch):
    """One ExifTool for all commands of a test: each would start its own."""
    shared = Shared(room=str(folder))
    monkeypatch.setattr(main, "Session", lambda: shared)
    yield
    session.Session.close(shared)


@needs("exiftool")
def test_compare_and_same_agree(run, folder, one_exiftool):
    """No pair is a group, because their MakerNotes moved or lie in blocks with other bytes. Where ExifTool reads the same, it isn't known."""
    for name, octets in FILES.items():
        (folder / f"{name}.jpg").write_bytes(octets)
    run("index", ".", "--catalogue", "c", "--quiet")
    found, wrong = set(), []
    for pair in PAIRS:
        _, (answer,) = run("compare", *(f"{it}.jpg" for it in pair))
        (folder / "list").write_text("".join(f"{it}.jpg\n" for it in pair))
        status, (*groups, summary) = run("same", "c", "--files-from", "list")
        found.add((answer["result"], may_read_the_same(answer)))
        is_open = (status, summary["maker_notes_unknown"]) == (2, 2)
        if groups or (may_read_the_same(answer) and not is_open):
            wrong.append((pair, answer["result"], answer["note"], status, groups, summary))
    assert not wrong, "\n".join(map(str, wrong))
    assert {it for it, may in found if may} == {*BY_NOTES, "the same after repair"}, "each of these answers is tried"
    assert (BY_NOTES[0], False) not in found and (BY_NOTES[2], False) in found


@needs("exiftool")
@pytest.mark.parametrize(
    "readings", [b"no zlib", zlib.compress(b"[]"), zlib.compress(b'[{"a": 1}, []]'), zlib.compress(b"[" * 9999), "text"]
)
def test_damaged_readings(put, called, folder, readings):
    """Those of a stranger's catalogue: it is damaged, and nothing else happens."""
    put("--maker-notes", a=noted(), b=noted(moved=64))
    (folder / "q").mkdir()
    (folder / "q/a.jpg").write_bytes(noted(moved=64))
    called("index", "q", "--catalogue", "d", "--quiet")
    with contextlib.closing(sqlite3.connect("c")) as base, base:
        base.execute("UPDATE maker_notes SET readings = ?", (readings,))
    status, _, message = called("changed", "c", "d")
    assert status == 4 and "is damaged" in message and "Traceback" not in message, message


@needs("exiftool")
@pytest.mark.parametrize("pair", [("warned of", "warned of, moved"), ("of nobody", "of nobody, moved")])
def test_notes_in_doubt(put, called, pair):
    """Their values are equal, or there are none. What that says depends on the MakerNotes, so it isn't said."""
    put(a=FILES[pair[0]], b=FILES[pair[1]])
    status, printed, _ = called("compare", "p/a.jpg", "p/b.jpg")
    assert status == (1 if "warned of" in pair else 2) and "reads the same (ExifTool)" not in printed and "ExifTool" in printed


@needs("exiftool")
def test_a_new_warning(put, run):
    """A MakerNote has the same bytes at the same place, and no value differs, but ExifTool only warns of one. So it isn't said that they are
    the same."""
    put(a=directed(), b=directed(swapped=True))
    status, (answer,) = run("compare", "p/a.jpg", "p/b.jpg")
    assert status == 2 and answer["fields"] == [] and "Bad EquipmentIFD directory" in answer["note"], answer


def test_same_starts_no_exiftool(put, same, called, monkeypatch, folder):
    """It says of how many pictures it doesn't know it, and what lists these."""
    put("--maker-notes", a=noted(), b=noted(inside=b"Anna", moved=64), c=noted(artist=b"Eva"))
    monkeypatch.setattr(exiftool.Process, "ask", None)
    monkeypatch.setenv("PATH", str(folder))
    assert same() == (2, [], 2)
    assert same("--kind", "exif") == (2, [], 2) and same("--kind", "iptc") == (0, [], 0)
    _, printed, _ = called("same", "c")
    assert "2 pictures may be the same as others but for MakerNotes that moved" in printed
    _, _, errors = called("same", "c", "--csv")
    assert "2 pictures may be" in errors
    words = re.search("same (--ignore [^ ]*) lists them", printed)[1].split()
    assert [names(it) for it in same(*words)[1]] == [["a", "b"]]


def test_blocks_written_anew(put, same, run, monkeypatch, folder):
    """A MakerNote of the same bytes at the same place may lead to what has changed its place. Blocks of the same bytes are the same."""
    put(a=leading(), b=leading(swapped=True), c=leading())
    monkeypatch.setenv("PATH", str(folder))
    for words in ((), ("--no-look",)):
        status, groups, unknown = same(*words)
        assert (status, [(it["basis"], names(it)) for it in groups], unknown) == (2, [("meaning", ["a", "c"])], 3)
    status, (answer,) = run("compare", "p/a.jpg", "p/b.jpg")
    assert (status, answer["result"]) == (2, "not wholly read") and "a MakerNote in a block that was written anew" in answer["note"]
    assert run("compare", "p/a.jpg", "p/c.jpg")[0] == 0
    (folder / "p/d.jpg").write_bytes(noted(artist=b"Eva"))
    (folder / "p/e.jpg").write_bytes(noted())
    _, (answer,) = run("compare", "p/d.jpg", "p/e.jpg")
    assert answer["result"] == "different" and "written anew" not in answer["note"], "only where Exif would be the same"


def test_fields_that_do_not_count(put, same):
    """Which pictures may be the same depends on the other fields that count."""
    put(a=noted(), b=noted(moved=64, inside=b"Anna"), c=noted(moved=128, artist=b"Eva"))
    assert (same()[2], same("--ignore", "Artist")[2], same("--only", "exif:MakerNote")[2]) == (2, 3, 3)


# Bytes that no field has


def test_offsets_of_uncovered_bytes():
    """They count from the MakerNote on if nothing else leads to them."""

    def octets(moved, kodak=False):
        at = 38 + 12 * kodak
        fields = [entry(0x010F, ASCII, 4, 0x41 << 24), *[entry(0x8290, LONG, 1, 8)] * kodak, entry(0x8769, LONG, 1, at)]
        note = table([entry(0x927C, UNDEFINED, 8, at + 18 + moved)])
        found = structure.notes(block(fields) + note + bytes(moved) + b"the note" + b"\0Anna")
        assert found.place == at + 18 + moved and found.words.startswith("4 bytes that only ")
        return found.octets

    assert octets(0) == octets(9) == b"9 4 Anna"
    assert octets(0, kodak=True) == b"77 4 Anna" and octets(9, kodak=True) == b"86 4 Anna"


@pytest.mark.parametrize("kind, last", [(LONG, 26), (SHORT_, 26 << 16), (8, 26 << 16), (9, 26), (13, 26)])
def test_uncovered_bytes_by_pointers_of_other_types(kind, last):
    """A repair reads such a pointer as LONG, and loses nothing. What the MakerNote can reach there is seen, too."""
    octets = block([entry(0x8769, kind, 1, last)]) + table([entry(0x927C, UNDEFINED, 8, 44)]) + b"the noteAnna"
    blocks = Blocks([FoundBlock(EXIF, octets, "Exif", "")])
    (judged,) = judge_all(blocks)
    assert (judged.note, not any(it.loses for it in judged.steps)) == (44, True)
    assert [it.what for it in blocks.not_read] == ["4 bytes that only the MakerNote can reach"]


# In a TIFF


def around_in_tiff(note, gap=0, *more):
    """A TIFF with a MakerNote. A gap moves all parts but the grey point, which is a byte of the header, so that the pictures stay equal."""
    entries = [(0x010F, ASCII, b"Canon\0"), (0x0111, LONG, 2), (0x8769, LONG, [(0x927C, UNDEFINED, note)])]
    return tiff(page(*entries, *more), more=bytes(gap))


def in_tiff(gap=0, *more, wrong=False):
    """The same with an owner's name at an offset in the file, which may be right only without a gap and more fields."""

    def note(start):
        return table([entry(0x0009, ASCII, 8, start + 18)]) + b"Annette\0"

    found = around_in_tiff(note(0)) if wrong else around_in_tiff(note(0), gap, *more)
    return around_in_tiff(note(found.index(note(0))), gap, *more)


MOVED = "the same but for a MakerNote that moved"


@needs("exiftool")
@pytest.mark.parametrize(
    "one, other, result, is_group",
    [
        (in_tiff(), in_tiff(64, wrong=True), "different", False),
        (in_tiff(), in_tiff(64), MOVED, False),
        (around_in_tiff(SHORT), around_in_tiff(SHORT, 64), MOVED, False),
        (in_tiff(), in_tiff() + bytes(3), "same", True),
    ],
    ids=["moved alone", "moved, with right offsets", "moved, with no offset", "not moved"],
)
def test_in_a_tiff(put, same, run, one, other, result, is_group):
    """Its offsets count from the file's header, so it is the place in the file that says whether it has moved."""
    put(a=one, b=other)
    assert (len(same()[1]), same()[2]) == ((1, 0) if is_group else (0, 2))
    assert run("compare", "p/a.jpg", "p/b.jpg")[1][0]["result"] == result


@needs("exiftool")
def test_in_a_tiff_with_other_xmp(put, run):
    """An edit of XMP that moves the MakerNote damages it, and that is said."""
    put(a=in_tiff(), b=in_tiff(64, (0x02BC, 1, title("one")), wrong=True))
    _, (answer,) = run("compare", "p/a.jpg", "p/b.jpg")
    assert "ExifIFD:MakerNote" in [it["name"] for it in answer["fields"]] and answer["kinds"]["exif"] == "different"
    assert "now reads differently" in answer["note"]


def test_places_in_a_tiff(folder):
    """Pages whose blocks are equal have each MakerNote at its own place."""
    octets = around_in_tiff(SHORT)
    for count in (2, 12):
        many = tiff(*[page((0x8769, LONG, [(0x927C, UNDEFINED, SHORT)]))] * count)
        (folder / "a").write_bytes(many)
        places = [it.note for it in judge_all(blocks_of_file(bytes(folder / "a")), True)]
        assert places == [at for at in range(len(many)) if many.startswith(SHORT, at)] and len(places) == count
    (folder / "a").write_bytes(octets)
    assert [it.note for it in judge_all(blocks_of_file(bytes(folder / "a")), True)] == [octets.index(SHORT)]


FIELDS = st.builds(
    Field,
    st.sampled_from(["main", "exif", "thumb"]),
    st.sampled_from(["010f", "927c", "a002"]),
    st.just("ASCII"),
    st.just(1),
    st.sampled_from([b'"', b'"]', b'["exif","927c",', b"\\", b","]),
)


@hypothesis.given(st.lists(FIELDS, max_size=4), st.lists(FIELDS, max_size=4))
def test_digests_without_the_maker_note(one, other):
    """They are equal exactly if the other fields are."""
    one, other = (list({(it.directory, it.tag): it for it in some}.values()) for some in (one, other))
    others = [[it for it in some if (it.directory, it.tag) != MAKER_NOTE] for some in (one, other)]
    digests = [packed(it)[1] for it in (one, other)]
    assert [it is None for it in digests] == [len(some) == len(rest) for some, rest in zip((one, other), others)]
    if None not in digests and _place(one) == _place(other):
        assert (digests[0] == digests[1]) is (others[0] == others[1])


def _place(fields):
    """Where the MakerNote is: in a listing that depends on the other fields alone."""
    return [(it.directory, it.tag) for it in fields].index(MAKER_NOTE)


@pytest.mark.parametrize("command", ("index p --catalogue c --jobs 1 --quiet", "nightly p --catalogue c --jobs 1"))
def test_maker_notes_without_exiftool(command, folder, called, monkeypatch):
    """The pictures are read all the same, which is said once, and the next run with ExifTool asks for them."""
    (folder / "p").mkdir()
    for name, picture in (("a", noted()), ("b", noted(moved=64))):
        (folder / "p" / f"{name}.jpg").write_bytes(picture)
    path = os.environ["PATH"]
    monkeypatch.setenv("PATH", "/nowhere")
    status, out, messages = called(*command.split(), "--maker-notes")
    assert status in (0, 1) and messages.count("ExifTool isn't installed") == 1 and "NeedsExifTool" not in out, out + messages
    query = "SELECT count(*), sum(problem IS NULL), sum(not_read != ''), (SELECT count(*) FROM maker_notes) FROM pictures"
    assert sql_rows("c", query) == [(2, 2, 0, 0)]
    assert called("list", "c", "--with", "serial")[0] == 2
    monkeypatch.setenv("PATH", path)
    assert "installed" not in called(*command.split(), "--maker-notes")[2]
    assert sql_rows("c", query) == [(2, 2, 0, 2)]


@needs("exiftool")
@pytest.mark.parametrize("owner, result", [(b"Annette", "only equal numbers are written otherwise"), (b"Bernard", "different")])
def test_equal_numbers_are_not_all_if_a_maker_note_reads_otherwise(owner, result, folder, called_lines):
    """The MakerNote has the same bytes, and leads to others behind it."""

    def picture(numbers, owner):
        note = table([entry(0x0009, ASCII, 8, 100)])
        entries = [entry(0x010F, ASCII, 6, 68), entry(0x011A, 5, 1, 74), entry(0x8769, LONG, 1, 50)]
        octets = block(entries) + table([entry(0x927C, UNDEFINED, len(note), 82)]) + b"Canon\0" + numbers + note + owner + b"\0"
        return jpeg(app1(octets))

    for name, octets in (("a", picture(struct.pack(">2I", 72, 1), b"Annette")), ("b", picture(struct.pack(">2I", 144, 2), owner))):
        (folder / name).mkdir()
        (folder / name / "p.jpg").write_bytes(octets)
    assert called_lines("changed", "a", "b", "--each")[1][-2] == f"1 {result}"
