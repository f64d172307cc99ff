"""Which picture that is gone is the one that is new under another name. Scans of one machine often have the same metadata and the same size, so
these alone don't show it: a scan that was deleted would seem to be there."""

import collections
import json
import os
import shutil

import pytest
from hypothesis import given, strategies as st
from made_blocks import ASCII, block, entry
from made_files import app1, jpeg
from made_museum import captioned, put as put_dated
from made_raw import cr2
from studio import SMALL_JPEG, put

from exifnorm_pictures.comparison.changed.pairs import File, partners

DAY = 86_400
FIRST, OTHER, THIRD = captioned(1), captioned(2), captioned(3)  # one size, one metadata, three pictures
ALONE, ALONE_OTHER = captioned(1, title="A jug"), captioned(2, title="A jug")
MOVED, MISSING = "moved", "missing after"

# What is gone, what is new, what stays, whether times are kept, and what is answered without and with --pixels
CASES = {
    "renamed, with its time": (FIRST, FIRST, {}, True, MOVED, MOVED),
    "renamed, with its time, beside others like it": (FIRST, FIRST, {"c.jpg": OTHER, "d.jpg": THIRD}, True, MOVED, MOVED),
    "copied and deleted": (ALONE, ALONE, {"c.jpg": OTHER}, False, MOVED, MOVED),
    "copied and deleted, beside others like it": (FIRST, FIRST, {"c.jpg": OTHER}, False, MISSING, MOVED),
    "another one, beside others like it": (FIRST, OTHER, {"c.jpg": THIRD}, False, MISSING, MISSING),
    "another one, of another machine": (ALONE, ALONE_OTHER, {"c.jpg": THIRD}, False, MOVED, MISSING),
    "another one, with its time": (FIRST, OTHER, {"c.jpg": THIRD}, True, MOVED, MISSING),
    "another one, with its time and inode": (FIRST, OTHER, {"c.jpg": THIRD}, True, MOVED, MISSING),
    "one of two, with their time": (FIRST, FIRST, {}, True, MISSING, MOVED),
    "a raw picture, copied and deleted": (cr2(), cr2(), {"c.jpg": cr2()}, False, MISSING, MOVED),
}


@pytest.mark.parametrize("pixels", [False, True], ids=["", "pixels"])
@pytest.mark.parametrize("name", CASES)
def test_what_became_of_a_picture_that_is_gone(name, pixels, called, folder):
    gone, new, others, keeps_time, *answers = CASES[name]
    others = {**others, "deleted.jpg": OTHER} if name.startswith("one of two") else others
    words = ["--pixels"] * pixels
    put_dated(folder / "p", {"a.jpg": gone, **others})
    assert called("index", "p", "--catalogue", "before", *words)[0] == 0
    for path in {folder / "p" / "a.jpg", *(folder / "p").glob("deleted.jpg")}:
        os.rename(path, folder / f"{path.name} elsewhere")  # keeps its inode, which no new file gets
    if name.endswith("inode"):
        os.renames(folder / "a.jpg elsewhere", folder / "p" / "new" / "b.jpg")
    put_dated(folder / "p" / "new", {"b.jpg": new}, time=1_767_225_600 + DAY * (not keeps_time))
    _, printed, _ = called("index", "p", "--catalogue", "before", "--keep-old", "older", "--json", *words)
    gone_to = {it["path"]: it["detail"] for it in map(json.loads, printed.splitlines()) if it.get("problem") == "Moved"}
    assert gone_to.get(str(folder / "p" / "a.jpg")) == (f"to {folder / 'p' / 'new' / 'b.jpg'}" if answers[pixels] == MOVED else None)
    assert called("index", "p", "--catalogue", "after", *words)[0] == 0
    for catalogues in (("older", "before"), ("older", "after")):  # of `index` by itself, and of two catalogues
        _, printed, _ = called("changed", *catalogues, "--json")
        results = {
            it["path"]: (it["result"], (it["moved_to"] or {}).get("path")) for it in map(json.loads, printed.splitlines()) if "path" in it
        }
        result, place = results["a.jpg"]
        assert (result, place) == (answers[pixels], "new/b.jpg" if result == MOVED else None), catalogues


# ---- Files that have other names than before, of which other files have the old ones: nobody edited them.

SCAN_NAMES = ("a.jpg", "b.jpg", "c.jpg", "d.jpg")
SERIES = {"a.jpg": "b.jpg", "b.jpg": "c.jpg", "c.jpg": "d.jpg"}
MOVES = {"a series": SERIES, "two swapped": {"a.jpg": "b.jpg", "b.jpg": "a.jpg"}, "a ring": {**SERIES, "d.jpg": "a.jpg"}}


def scan(number, caption):
    """A scan with a caption of its own, and as many bytes as the others have."""
    base = SMALL_JPEG.replace(b"\xff\xdb\0\x43\0", b"\xff\xdb\0\x43\0"[:-1] + b"\0", 1)
    at = base.index(b"\xff\xdb") + 6
    base = base[:at] + bytes([number + 1]) + base[at + 1 :]
    return jpeg(app1(block([entry(0x010E, ASCII, 4, int.from_bytes(caption.encode() + b"\0", "big"))])), base=base)


def scans(folder, count, seconds=1):
    """Some scans, each of a later time."""
    put(folder / "in", {name: scan(number, f"n{number}x") for number, name in enumerate(SCAN_NAMES[:count])})
    for number, name in enumerate(SCAN_NAMES[:count]):
        os.utime(folder / "in" / name, ns=(10**18 + number * seconds * 10**9,) * 2)


def move_all(folder, moves):
    for name in moves:
        os.rename(folder / "in" / name, folder / "in" / f"{name}.moved")
    for name, to in moves.items():
        os.rename(folder / "in" / f"{name}.moved", folder / "in" / to)


def results(printed):
    """Of each picture its result and its new name."""
    records = map(json.loads, printed.splitlines())
    return {it["path"]: (it["result"], it["moved_to"] and it["moved_to"]["path"]) for it in records if it["record"] == "picture"}


@pytest.mark.parametrize("pixels, seconds", [([], 1), (["--pixels"], 1), ([], 0)], ids=["", "pixels", "of one time"])
@pytest.mark.parametrize("name", MOVES)
def test_files_with_the_names_of_others(name, pixels, seconds, folder, called):
    moves = MOVES[name]
    scans(folder, len(moves), seconds)
    night = ("nightly", "in", "--catalogue", "nights", *pixels)
    called(*night)
    called("index", "in", "--catalogue", "first", "--quiet", *pixels)
    move_all(folder, moves)
    status, printed, _ = called(*night)
    assert status == 1 and f"{len(moves)} renumbered: a.jpg to b.jpg" in printed and "All changes" in printed
    assert not any(word in printed for word in ("gone", "new:", "another")), printed
    status, printed, _ = called("changed", "first", "nights", "--json")
    assert status == 1 and results(printed) == {old: ("renumbered", new) for old, new in moves.items()}
    words = f"{len(moves)} pictures compared: {len(moves)} renumbered.", f"The coded pictures: {len(moves)} the same."
    assert [it in called("changed", "first", "nights")[1] for it in words] == [True, bool(pixels)]
    (_, state) = map(json.loads, called("changed", "--picture", "in/b.jpg", "first", "nights", "--json")[1].splitlines()[:2])
    assert state["result"] == "renumbered", state
    if pixels:
        status, printed, _ = called("verify", "first", "--json")
        *files, summary = map(json.loads, printed.splitlines())
        assert status == 0 and summary["new"] == 0
        assert {os.path.basename(it["path"]): os.path.basename(it["place"]["path"]) for it in files if it["place"]} == moves, files


@pytest.mark.parametrize("pixels", [[], ["--pixels"]], ids=["", "pixels"])
def test_where_inodes_say_nothing(pixels, folder, called):
    """As on a network share that gives out others, or after a backup was restored."""
    scans(folder, 3)
    called("index", "in", "--catalogue", "first", "--quiet", *pixels)
    move_all(folder, SERIES)
    shutil.copytree(folder / "in", folder / "copy")
    shutil.rmtree(folder / "in")
    os.rename(folder / "copy", folder / "in")
    status, printed, _ = called("changed", "first", "in", "--json", *pixels)
    records = [it for it in map(json.loads, printed.splitlines()) if it["record"] == "picture"]
    assert {(it["result"], it["note"].partition(":")[0]) for it in records} == {("renumbered", "probably")}


def kept_as_it_was(folder):
    """A program that keeps the old file beside the one it wrote, as ExifTool does."""
    os.rename(folder / "in" / "a.jpg", folder / "in" / "a.jpg_original")
    (folder / "in" / "a.jpg").write_bytes(scan(0, "EDI"))


def copied_before(folder):
    shutil.copy2(folder / "in" / "a.jpg", folder / "in" / "copy.jpg")
    (folder / "in" / "a.jpg").write_bytes(scan(0, "EDI"))


def overwritten(folder):
    os.rename(folder / "in" / "b.jpg", folder / "in" / "a.jpg")


NO_MOVES = {
    "kept as it was": (kept_as_it_was, {"a.jpg": "different", "a.jpg_original": "missing before"}),
    "copied before": (copied_before, {"a.jpg": "different", "copy.jpg": "missing before"}),
    "overwritten": (overwritten, {"a.jpg": "different", "b.jpg": "missing after"}),
}


@pytest.mark.parametrize("pixels", [[], ["--pixels"]], ids=["", "pixels"])
@pytest.mark.parametrize("name", NO_MOVES)
def test_what_only_looks_so(name, pixels, folder, called):
    """A file that was edited is the same picture, wherever its old bytes are kept."""
    act, expected = NO_MOVES[name]
    scans(folder, 2)
    called("index", "in", "--catalogue", "first", "--quiet", *pixels)
    act(folder)
    assert {path: it[0] for path, it in results(called("changed", "first", "in", "--json", *pixels)[1]).items()} == expected


def test_a_file_that_was_edited_in_place_has_not_only_moved(folder, called):
    """Though its size, its time and its inode are as before."""
    scans(folder, 1)
    called("index", "in", "--catalogue", "c", "--quiet")
    move_all(folder, {"a.jpg": "b.jpg"})
    (folder / "in" / "b.jpg").write_bytes(scan(0, "new"))
    os.utime(folder / "in" / "b.jpg", ns=(10**18,) * 2)
    called("index", "in", "--catalogue", "d", "--quiet")
    found = [json.loads(it) for it in called("changed", "c", "d", "--json")[1].splitlines()]
    assert [it["result"] for it in found if it["record"] == "picture"] == ["missing after", "missing before"]


# ---- `changed --match stem`: pictures of two folders in pairs by their names without the ending; nothing is guessed.

TYPES = {"dng": "DNG", "tif": "TIFF", "psd": "PSD", "png": "PNG", "jpg": "JPEG", "jpeg": "JPEG", "xmp": "XMP"}
DRAWN_NAMES = st.builds(
    "{}{}.{}".format, st.sampled_from(("", "a/", "b/")), st.sampled_from(("1", "2", "é", "e\u0301", "É")), st.sampled_from(list(TYPES))
)
SIDES = st.lists(DRAWN_NAMES, unique=True, max_size=6)


def files(names, first):
    return [File(first + number, name.encode(), TYPES[name.rpartition(".")[2]]) for number, name in enumerate(names)]


def stem(name):
    word = os.path.splitext(os.path.basename(name))[0]
    return word if word in "12" else "é"


@given(SIDES, SIDES)
def test_partners_of_names(before, after):
    sides = files(before, 0), files(after, 100)
    found = partners(*sides)
    named = [(one.name.decode(), other.name.decode()) for one, other in found.pairs]
    in_pairs = [it for pair in found.pairs for it in pair]
    assert len(set(in_pairs)) == len(in_pairs)  # each picture has one partner
    assert all(stem(one) == stem(other) and one != other for one, other in named)
    assert not set(in_pairs) & {it for side in found.unclear for it in side}
    assert {pair[::-1] for pair in found.pairs} == set(partners(*sides[::-1]).pairs)  # neither side comes first
    counts = [collections.Counter(map(stem, names)) for names in (before, after)]
    for one in before:  # what stands once on each side is a pair, in whatever folders
        others = [it for it in after if stem(it) == stem(one)]
        if counts[0][stem(one)] == 1 == len(others) and one != others[0]:
            assert (one, others[0]) in named
    left = [[it for it in names if it not in set(before) & set(after)] for names in (before, after)]
    taken = {it.name.decode() for it in (*in_pairs, *found.unclear[0], *found.unclear[1])}
    alone = [{stem(it) for it in names if it not in taken} for names in left]
    assert not alone[0] & alone[1]  # who has no partner could have none
