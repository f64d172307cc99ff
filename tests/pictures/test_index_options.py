"""What `index` passes over, and what it prints."""

import json
import os
from unittest import mock

import pytest
from made_files import app1, exif, jpeg
from studio import needs, put, sql_rows
from test_maker_notes import noted

from exifnorm_pictures.scan import index, walk

ONE, OTHER = jpeg(app1(exif(b"abc"))), jpeg(app1(exif(b"xyz")))


@pytest.fixture
def archive(folder):
    """A folder with pictures in folders."""
    for name in (b"a.jpg", b"a.tmp", b"raw/b.jpg", b"raw/deep/c.jpg", b"sub/raw/d.jpg", b"sub/@eaDir/e.jpg", b"sub/f\xff.jpg", b"[x].jpg"):
        path = os.path.join(os.fsencode(folder), b"p", name)
        os.makedirs(os.path.dirname(path), exist_ok=True)
        with open(path, "wb") as file:
            file.write(ONE)
    return folder


def known(folder):
    """The paths below the folder that are in the catalogue, and their problems."""
    top = os.path.join(os.fsencode(folder), b"p/")
    return {path[len(top) :]: problem for path, problem in sql_rows(folder / "c", "SELECT path, problem FROM pictures")}


ALL = {b"a.jpg", b"a.tmp", b"raw/b.jpg", b"raw/deep/c.jpg", b"sub/raw/d.jpg", b"sub/@eaDir/e.jpg", b"sub/f\xff.jpg", b"[x].jpg"}


@pytest.mark.parametrize(
    "patterns, without, count",
    [
        (["*.tmp"], {b"a.tmp"}, 1),
        (["raw"], {b"raw/b.jpg", b"raw/deep/c.jpg", b"sub/raw/d.jpg"}, 2),
        (["raw/"], {b"raw/b.jpg", b"raw/deep/c.jpg", b"sub/raw/d.jpg"}, 2),
        (["raw/*"], {b"raw/b.jpg", b"raw/deep/c.jpg"}, 2),
        (["sub/raw"], {b"sub/raw/d.jpg"}, 1),
        (["@eaDir", "?.tmp"], {b"sub/@eaDir/e.jpg", b"a.tmp"}, 2),
        (["[[]x].jpg"], {b"[x].jpg"}, 1),
        ([os.fsdecode(b"f\xff*")], {b"sub/f\xff.jpg"}, 1),
        (["RAW", "p", "nothing"], set(), 0),
    ],
)
def test_excluded_files_and_folders(patterns, without, count, archive, called):
    """By the name, or by the path below the folder; letters of either case differ, as in names of files."""
    words = [word for it in patterns for word in ("--exclude", it)]
    status, out, err = called("index", "p", "--catalogue", "c", "--quiet", *words)
    assert (status, set(known(archive))) == (0, ALL - without)
    assert (f", {count} excluded" in out) == bool(count)
    assert err.count("fits no file and no folder") == (len(patterns) if not count else 0)


def test_excluded_pictures_of_an_earlier_run_stay(archive, called):
    """They aren't gone, and the answer says that they are there; one that was deleted is gone."""
    called("index", "p", "--catalogue", "c", "--quiet")
    os.remove(archive / "p/raw/b.jpg")
    out = called("index", "p", "--catalogue", "c", "--exclude", "raw")[1]
    found = known(archive)
    assert {path for path, problem in found.items() if problem} == {b"raw/b.jpg"} and found[b"raw/b.jpg"] == "Vanished"
    assert "2 excluded, and in the catalogue from an earlier run: exifnorm-pictures catalogue forget c FOLDER" in out
    called("catalogue", "forget", "c", "p/raw", "p/sub/raw")
    assert "in the catalogue from an earlier run" not in called("index", "p", "--catalogue", "c", "--exclude", "raw")[1]
    assert set(known(archive)) == {it for it in ALL if b"raw" not in it}
    called("index", "p", "--catalogue", "c", "--quiet")
    assert set(known(archive)) == ALL - {b"raw/b.jpg"}


def test_a_picture_that_is_named_is_excluded_by_its_name(archive, called):
    out = called("index", "p/a.jpg", "p/a.tmp", "--catalogue", "c", "--quiet", "--exclude", "*.tmp")[1]
    assert (out, set(known(archive))) == ("1 accepted, 1 excluded\n", {b"a.jpg"})


def test_how_nightly_looks_at_pictures(folder, called, monkeypatch):
    """As index does, with its options."""
    put(folder / "p", {"a.jpg": ONE, "b.tmp.jpg": OTHER})
    hows, how = [], walk.How.__new__
    monkeypatch.setattr(walk.How, "__new__", lambda *given, **more: hows.append(how(*given, **more)) or hows[-1])
    _, printed, _ = called("nightly", "p", "--catalogue", "n", "--exclude", "*.tmp.jpg", "--maker-notes")
    assert "1 picture" in printed and hows[-1].maker_notes


INDEX = ("index", "p", "--quiet")
OF_UNREAD = "exifnorm-pictures: note: {} unchanged, and not read again by {}: index --again {} reads all\n"


@needs("exiftool")
@pytest.mark.parametrize("option, pictures", [("--whole", "2 pictures"), ("--maker-notes", "1 picture")])
@pytest.mark.parametrize(
    "run, again",
    [
        ((*INDEX, "--catalogue", "c"),) * 2,
        ((*INDEX, "--shards", "s"),) * 2,
        (("nightly", "p", "--catalogue", "c"), (*INDEX, "--catalogue", "c")),
    ],
    ids=["index", "index --shards", "nightly"],
)
def test_options_that_unchanged_files_go_without_are_noted(run, again, option, pictures, folder, called):
    """A catalogue that was made without them would seem to have all that they read, as the serial numbers in MakerNotes. It is said once, but
    by `index` of MakerNotes until they are read."""
    put(folder, {"p/1/a.jpg": noted(), "p/b.jpg": ONE, "p/c.txt": b"text"})
    note = OF_UNREAD.format(pictures, option, option)
    notes = [called(*words)[2] for words in (run, (*run, option), (*run, option), (*again, option, "--again"), (*run, option))]
    assert notes == ["", note, note if "--maker-notes" in option and run[0] == "index" else "", "", ""]


@needs("exiftool")
@pytest.mark.parametrize("option", ["--whole", "--maker-notes"])
@pytest.mark.parametrize("step", ["nightly.index", "nightly.Night.compare"])
def test_a_night_that_was_stopped_takes_no_note_with_it(step, option, folder, called, monkeypatch):
    put(folder, {"p/b.jpg": noted()})
    run = ("nightly", "p", "--catalogue", "c")
    called(*run)
    with monkeypatch.context() as stopped:
        stopped.setattr(f"exifnorm_pictures.cli.commands.{step}", mock.Mock(side_effect=KeyboardInterrupt))
        notes = called(*run, option)[2]
    assert f"by {option}" in notes + called(*run, option)[2]


@needs("exiftool")
def test_a_program_that_was_missing_is_asked_again(folder, called, monkeypatch):
    put(folder, {"p/a.jpg": noted(), "p/b.jpg": ONE})
    of_new = ("index", "p", "--catalogue", "d", "--quiet", "--maker-notes")
    with monkeypatch.context() as without:
        without.setenv("PATH", "/nowhere")
        notes = called(*of_new)[2]
    assert notes.count("note: ") == 1 and "later runs ask again" in notes
    assert called(*of_new)[1:] == ("1 accepted, 1 unchanged\n", ""), "it was asked again"


@pytest.mark.parametrize("option", [[], ["--whole"]])
def test_a_merged_catalogue_knows_what_was_whole(option, folder, called):
    put(folder, {"p/b.jpg": ONE})
    called(*INDEX, "--catalogue", "c", *option)
    called("catalogue", "merge", "c", "--catalogue", "d")
    called(*INDEX, "--catalogue", "d")
    assert ("by --whole" in called(*INDEX, "--catalogue", "d", "--whole")[2]) == (not option)


def test_an_old_catalogue_is_from_before_a_run_that_was_stopped(folder, called, monkeypatch):
    """The same command goes on, and what the stopped run has found is still what changed since the old one."""
    put(folder, {"p/a.jpg": ONE, "p/b.jpg": ONE})
    run = (*INDEX, "--catalogue", "c", "--keep-old", "old", "--jobs", "1")
    called(*run)
    put(folder, {"p/a.jpg": OTHER, "p/b.jpg": OTHER})
    with monkeypatch.context() as stopped:
        stopped.setattr(index, "BATCH", 1)
        stopped.setattr(index._Looking, "count", mock.Mock(side_effect=KeyboardInterrupt))  # which follows the first commit
        assert called(*run)[0] == 130
    status, printed, notes = called(*run)
    assert (status, printed) == (0, "1 accepted, 1 unchanged\n") and "old stays as it was" in notes
    changed = map(json.loads, called("changed", "old", "c", "--json")[1].splitlines())
    assert {it["path"]: it["result"] for it in changed if it["record"] == "picture"} == {"a.jpg": "different", "b.jpg": "different"}
    assert called(*run)[2] == "" and called("changed", "old", "c")[0] == 0, "the next copy is of a whole run"
