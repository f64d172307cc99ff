"""The law of readers: whatever a crash has left of a catalogue, a command that reads or changes it does
so, or says what mends it; and the next one can do the same."""

import os
import shutil
import sqlite3
from contextlib import closing

import pytest
from made_blocks import BLOCKS, with_exif
from made_files import app1, app1_xmp, exif, jpeg, title
from studio import SMALL_JPEG, errors, name_of, put
from test_outputs import Runner

from exifnorm_pictures.cli import parser

COMMANDS = [
    "verify cat",
    "same cat",
    "changed d cat",
    "changed cat d",
    "changed --picture p/1.jpg cat d",
    "list cat",
    "list cat --with title",
    "check --rules rules cat",
    "show --captions cat",
    "check cat",
    "report cat --html tmp/page",
    "catalogue export cat tmp/tables",
    "catalogue merge cat d --catalogue tmp/all",
    "mend cat tmp/copies",
]
OF_PICTURES = {"compare", "explain"}  # which read no catalogue
CHANGES = [
    "index p --catalogue cat --quiet --jobs 1",
    "index p --catalogue c --quiet --jobs 1 --keep-old cat",
    "catalogue merge d --catalogue cat",
    "nightly p --catalogue cat --jobs 1",
    "catalogue forget cat p/1.jpg",
    "catalogue relocate cat p q",
]
MENDS = ("index", "Remove", "is no catalogue")  # one of these is in each message
RAW = ("readonly", "unable to open", "disk I/O")  # what SQLite says
OTHER = 65534
AS_OTHER = f"os.setgroups([]); os.setgid({OTHER}); os.setuid({OTHER})"
FILES = ("", "-journal", "-wal", "-shm")


def left_open(folder, mode):
    """A catalogue, and what SQLite has beside it while a transaction is written."""
    live = folder / "live"
    shutil.copy(folder / "c", live)
    with closing(sqlite3.connect(live, isolation_level=None)) as base:
        for words in (f"journal_mode = {mode}", "cache_size = 1", "synchronous = FULL"):
            base.execute(f"PRAGMA {words}").fetchall()
        base.execute("BEGIN IMMEDIATE")
        base.execute("UPDATE pictures SET type = type || 'x'")
        if mode == "WAL":
            base.execute("COMMIT")
        for ending in FILES:
            if os.path.exists(f"{live}{ending}"):
                shutil.copy(f"{live}{ending}", folder / f"cat{ending}")


def journal(folder):
    left_open(folder, "DELETE")


def log(folder):
    left_open(folder, "WAL")


def log_alone(folder):
    log(folder)
    (folder / "cat-shm").unlink()


def memory_alone(folder):
    log(folder)
    (folder / "cat-wal").unlink()


def nothing_beside(folder):
    memory_alone(folder)
    (folder / "cat-shm").unlink()


def whole_with(ending, octets):
    def make(folder):
        shutil.copy(folder / "c", folder / "cat")
        (folder / f"cat{ending}").write_bytes(octets)

    make.__name__ = f"{len(octets)} bytes of {ending}"
    return make


def cut(part):
    def make(folder):
        shutil.copy(folder / "c", folder / "cat")
        os.truncate(folder / "cat", int((folder / "c").stat().st_size * part))

    make.__name__ = f"{part} of it"
    return make


CRASHES = [journal, log, log_alone, memory_alone, nothing_beside]
LEFT = [
    *CRASHES,
    *(whole_with(ending, octets) for ending in FILES[1:] for octets in (b"", b"\xff" * 40_000)),
    *(cut(part) for part in (0, 0.001, 0.1, 0.5, 0.9)),
]


@pytest.fixture(scope="module")
def archive(session_folder):
    """Two catalogues, in a folder that another user may enter: root writes wherever it is."""
    folder = session_folder / "left"
    folder.mkdir()
    runner = Runner(folder)
    for side, name in (("p", "c"), ("q", "d")):
        texts = (app1_xmp(title("one")),)
        put(
            runner.here / side,
            {f"{it}.jpg": jpeg(app1(exif(b"%03d" % it)), *texts) for it in range(60)},
        )
        put(runner.here / side, {"refused.jpg": with_exif(SMALL_JPEG, BLOCKS["Unsorted"])})
        runner.run(runner.here, ["index", side, "--catalogue", name, "--quiet", "--pixels"])
    (runner.here / "tmp").mkdir()
    (runner.here / "rules").write_text("every picture needs credit\n")
    shutil.copytree(runner.here, runner.archive)
    yield runner
    runner.close()


def prepared(archive, left, is_closed):
    """The archive with what is left, which another user can write to, or in a folder that it can't."""
    here = archive.fresh()
    left(here)
    for path in (here, *here.rglob("*")):
        path.chmod(0o777 if path.is_dir() else 0o666)
    if is_closed:
        here.chmod(0o555)
    return here


def asked(archive, here, words, setup):
    """Whether a command answers; it fails if it says what SQLite says."""
    status, said = archive.run(here, words.split(), setup)
    assert not any(it in said for it in RAW), (words, said)
    is_refused = status == 4 and len(errors(said)) == 1 and any(it in said for it in MENDS)
    assert is_refused or status in (0, 1, 2), (words, status, said)
    return status != 4


def test_each_command_is_there():
    tried = {name_of(words) for words in [*COMMANDS, *CHANGES]}
    assert tried == {name for name, *_ in parser.COMMANDS} - OF_PICTURES


@pytest.mark.parametrize("left", CRASHES, ids=lambda it: it.__name__)
def test_each_command(left, archive):
    setup = "" if os.geteuid() else AS_OTHER
    here = prepared(archive, left, True)
    for words in COMMANDS:
        asked(archive, here, words, setup)


@pytest.mark.parametrize("words", CHANGES)
@pytest.mark.parametrize("left", LEFT[:-5], ids=lambda it: it.__name__)
def test_each_change(left, words, archive):
    """What changes a catalogue mends what a crash has left of it, if it is all there."""
    here = prepared(archive, left, False)
    is_done = asked(archive, here, words, "")
    assert is_done or left not in CRASHES
    assert asked(archive, here, "same cat", "") >= is_done


@pytest.mark.parametrize("is_closed", [False, True], ids=["open", "read-only"])
@pytest.mark.parametrize("left", LEFT, ids=lambda it: it.__name__)
def test_a_question_costs_the_next_one_nothing(left, is_closed, archive):
    """One that keeps texts in the catalogue, which it may not be able to write to as a whole."""
    here = prepared(archive, left, is_closed)
    has_answered = asked(archive, here, "list cat --with title", "" if os.geteuid() else AS_OTHER)
    here.chmod(0o755)
    assert asked(archive, here, "same cat", "") >= has_answered
