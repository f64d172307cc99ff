"""The made museum where something is in the way: limits, a program or a package that isn't there, a catalogue that was changed, few processes
or many, and what reads a file object."""

import contextlib
import io
import os
import shutil
import sqlite3

import pytest
from museum import done, run
from studio import needs

import exifnorm
from exifnorm_pictures.catalogue.store import Catalogue, NoCatalogue
from exifnorm_pictures.extract import file_objects
from exifnorm_pictures.model import budgets, found
from exifnorm_pictures.scan import progress

pytestmark = pytest.mark.xdist_group("museum")
LISTED = ("list {}", "same {} --no-look", "check {}", "show --captions {}")


def said(source, **options):
    """What is read of a picture: its fields, and what was refused or not read, or why it isn't read."""
    try:
        read = exifnorm.read(source, **options)
    except (exifnorm.NoPicture, exifnorm.NotReadable) as why:
        return str(why)
    return [(it.name, it.text) for it in read.fields], [str(it) for it in read.refusals], [*read.not_read]


class NoSeeking(io.BytesIO):
    """An upload, of which each byte comes once."""

    def seekable(self):
        return False


def source_of(path, what):
    return NoSeeking(path.read_bytes()) if what == budgets.COPIED_BYTES else path


class Counting(budgets.Budget):
    """What a picture may cost where the small blocks and packets, of which nearly all pictures have one, are counted as well."""

    def __init__(self, *limits):
        super().__init__(*limits)
        self.small_packets = self.small_forms = 0


@needs("exiftool")
def test_each_limit_stops_a_picture(museum, monkeypatch):
    """With a limit of nothing some picture isn't read, or isn't read wholly: no limit is a number that nobody looks at."""
    paths = [it for top in ("formats", "rare", "texts", "states") for it in sorted((museum / "archive" / top).iterdir())]
    freely = {path: said(path) for path in paths if path.suffix not in (".mp4", ".txt")}
    monkeypatch.setattr(found, "FEW", 0)  # the first blocks and parts aren't counted
    for module in ("model.found", "extract.formats.streams", "extract.file_objects", "api"):
        monkeypatch.setattr(f"exifnorm_pictures.{module}.Budget", Counting, raising=False)
    for what in budgets.LIMITS:
        with monkeypatch.context() as patch:
            patch.setitem(budgets.LIMITS, what, 0)
            assert any(said(source_of(path, what)) != freely[path] for path in freely), f"0 {what}"


@needs("exiftool")
def test_a_file_object_is_read_as_a_file(museum, monkeypatch):
    """Also piece by piece, and by another program, which gets a copy."""
    monkeypatch.setattr(file_objects, "CHUNK", 7)
    paths = [it for top in ("formats", "rare", "states") for it in sorted((museum / "archive" / top).iterdir())]
    for path in paths:  # of those that are broken, other programs read what they can
        with open(path, "rb") as file:
            assert said(file) == said(path), path
        upload = NoSeeking(path.read_bytes())
        upload.name = str(path)
        assert said(upload) == said(path), path


def test_a_catalogue_of_which_sqlite_was_asked_for_statistics(museum):
    """ANALYZE, which tools for SQLite call, adds tables of its own."""
    before = [run(line.format("plain"), museum) for line in LISTED]
    with contextlib.closing(sqlite3.connect("plain")) as base:
        base.execute("ANALYZE")
    assert [run(line.format("plain"), museum) for line in LISTED] == before


def test_a_value_of_another_type_is_refused(museum):
    """One that a tool for SQLite has put there."""
    with contextlib.closing(sqlite3.connect("plain")) as base, base:
        base.execute("PRAGMA ignore_check_constraints = ON")
        base.execute("UPDATE pictures SET path = 1.5 WHERE id = (SELECT max(id) FROM pictures)")
    for line, why in (("same plain --no-look", "1.5 is a value of another type"), ("changed plain before", "isn't bytes")):
        status, _, messages = run(line, museum)
        assert status > 2 and "plain is damaged" in messages[-1] and why in messages[-1], (line, status, messages)


LOSES = {"removed": os.unlink, "replaced": lambda name: os.replace("plain", name), "cut": lambda name: os.truncate(name, 4096)}


@pytest.mark.parametrize("how", LOSES)
def test_a_catalogue_that_is_lost_while_it_is_written(how, museum):
    with pytest.raises(NoCatalogue, match=f"few was {how} while it was written"), Catalogue("few", there=True):
        LOSES[how]("few")


@needs("exiftool")
def test_processes_and_shards_say_what_one_process_says(museum):
    """Of the whole museum. `report` prints when it was indexed."""
    done("index archive --jobs 2 --catalogue new --quiet", museum)
    done("index archive --jobs 2 --shards parts --quiet", museum)
    for line in LISTED:
        found = [run(line.format(name), museum) for name in ("plain", "new", "parts")]
        assert found[0] == found[1] == found[2], line


@needs("exiftool")
def test_processes_say_of_a_second_night_what_one_process_says(museum):
    """Each picture is read again: those that have moved, have changed, are refused or can't be read have the same lines, and are known alike."""
    printed = []
    for jobs in "12":
        shutil.copy("before", f"by{jobs}")
        printed.append(
            [it.replace(f" by{jobs}", " by") for it in run(f"index archive --again --jobs {jobs} --catalogue by{jobs}", museum)[1]]
        )
    assert printed[0] == printed[1]
    for line in (*LISTED, "changed before {} --all"):
        assert run(line.format("by1"), museum) == run(line.format("by2"), museum), line


@needs("exiftool")
def test_many_are_read_as_one_by_one(museum):
    """By the Python API in two processes, and one at a time."""
    paths = [it for it in sorted((museum / "archive").rglob("*.jpg")) if it.is_file()]
    for path, read in exifnorm.read_all(paths, jobs=2):
        known = str(read) if isinstance(read, Exception) else [(it.name, it.text) for it in read.fields]
        expected = said(path)
        assert known == (expected if isinstance(expected, str) else expected[0]), path


class Terminal(io.StringIO):
    """A terminal that keeps what is printed on it."""

    def isatty(self):
        return True


def test_a_terminal_has_one_line_that_changes(monkeypatch):
    """It is there from the start, is printed anew five times a second, and ends with the run."""
    times = iter([10.0, 10.0, 10.1, 10.3, 12.0])
    monkeypatch.setattr(progress.time, "monotonic", lambda: next(times))
    terminal = Terminal()
    shown = progress.Progress(3, terminal)
    shown.start()
    for count in (1, 2, 3):
        shown.done(count)
    parts = terminal.getvalue().split("\r\x1b[K")
    assert parts[0] == "" and [it.split()[0] for it in parts[1:]] == ["0", "2", "3"] and parts[-1].endswith("\n"), parts


def test_no_line_is_left_before_another_one(monkeypatch):
    terminal = Terminal()
    shown = progress.Progress(3, terminal)
    shown.start()
    shown.clear()
    shown.clear()
    assert terminal.getvalue().endswith("\r\x1b[K") and terminal.getvalue().count("\r\x1b[K") == 2
