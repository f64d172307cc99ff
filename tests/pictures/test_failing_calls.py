"""Calls of the system that fail at a catalogue's files: the catalogue stays whole, and the next run completes it.

strace makes one call of a run fail, of those that have the catalogue, its log or its journal as their file. Each kind of call fails at a few
of its places, spread over the run.
"""

import contextlib
import os
import re
import shutil
import sqlite3
import subprocess
import sys
from collections import defaultdict

import pytest
from made_files import app1, app1_xmp, exif, jpeg, title
from studio import Studio, write

PLACES = 3  # of each kind of call
FILES = ("c", "c-wal", "c-shm", "c-journal", "tables")
OUR = ("pwrite64", "write", "pread64", "read", "fsync", "fdatasync", "ftruncate", "unlink", "openat", "mmap", "fcntl")
ERRORS = {"pwrite64": "ENOSPC", "write": "ENOSPC", "openat": "EACCES", "mmap": "ENOMEM", "fcntl": "ENOLCK"}  # others: EIO
COMMANDS = {
    "index": ["index", "p", "--catalogue", "c", "--quiet", "--jobs", "1"],
    "same": ["same", "c"],
    "changed": ["changed", "other", "c"],
    "catalogue merge": ["catalogue", "merge", "other", "--catalogue", "c"],
    "catalogue relocate": ["catalogue", "relocate", "c", "p", "q"],
    "catalogue forget": ["catalogue", "forget", "c", "p/0.jpg"],
    "list": ["list", "c", "--with", "title", "--columns", "title"],
    "check": ["check", "--rules", "rules", "c"],
    "history": ["changed", "--picture", "p/0.jpg", "other", "c"],
    "verify": ["verify", "c", "p/0.jpg", "--quiet", "--jobs", "1"],
    "catalogue export": ["catalogue", "export", "c", "tables", "--quiet"],
    "report": ["report", "c", "--html", "page"],
}

pytestmark = pytest.mark.skipif(not shutil.which("strace"), reason="not installed: strace")


def command(folder, words, *before):
    return subprocess.run(
        [*before, sys.executable, "-m", "exifnorm_pictures", *words],
        cwd=folder,
        stdin=subprocess.DEVNULL,
        capture_output=True,
        timeout=1800,
        env=Studio.environment(EXIFNORM_DEBUG=""),
    )


def traced(folder, words, *more):
    """Runs a command under strace; how it ended, and the names of its calls with the catalogue's files."""
    paths = [it for name in FILES for it in ("-P", str(folder / name))]
    done = command(
        folder, words, "strace", "-f", "--seccomp-bpf", "-qq", "-o", str(folder / "trace"), "-e", f"trace={','.join(OUR)}", *more, *paths
    )
    return done, re.findall(r"^\d+ +(\w+)\(", (folder / "trace").read_text(errors="replace"), re.M)


@pytest.fixture(scope="module")
def archive(tmp_path_factory):
    """A folder of pictures, a catalogue of some of them, another one of others, and what a run without a fault leaves."""
    folder = tmp_path_factory.mktemp("failing")
    (folder / "p").mkdir()
    (folder / "q").mkdir()
    (folder / "rules").write_text("title is two\n")
    for number in range(6):
        write(folder / "p" / f"{number}.jpg", jpeg(app1(exif(b"%03d" % (number // 2))), app1_xmp(title("one"))))
        os.utime(folder / "p" / f"{number}.jpg", (1e9, 1e9))
    for words in (
        ["index", "p/0.jpg", "p/1.jpg", "--catalogue", "before", "--pixels"],
        ["index", "p/2.jpg", "p/3.jpg", "--catalogue", "other"],
    ):
        assert command(folder, [*words, "--quiet"]).returncode == 0
    return folder


def rows(catalogue):
    """What a catalogue has, without the numbers and times of its runs. SQLite finds it whole."""
    with contextlib.closing(sqlite3.connect(catalogue)) as base:
        assert base.execute("PRAGMA integrity_check").fetchall() == [("ok",)]
        assert base.execute("PRAGMA foreign_key_check").fetchall() == []
        pictures = "SELECT path, problem, exif, xmp, (SELECT count(*) FROM blocks WHERE picture = id) FROM pictures ORDER BY path"
        return base.execute(pictures).fetchall() if base.execute("SELECT count(*) FROM sqlite_master").fetchone()[0] else []


def fresh(folder):
    for name in FILES:
        with contextlib.suppress(FileNotFoundError):
            os.remove(folder / name)
    shutil.copy(folder / "before", folder / "c")


@pytest.mark.parametrize("name", COMMANDS)
def test_each_call(name, archive):
    words = COMMANDS[name]
    fresh(archive)
    whole, calls = traced(archive, words)
    assert whole.returncode in (0, 1, 2), whole
    expected, before = rows(archive / "c"), rows(archive / "before")
    places = defaultdict(list)
    for it in calls:
        places[it].append(len(places[it]) + 1)
    assert {"pread64", "openat"} <= set(places), "the calls of SQLite are seen"
    for call, numbers in places.items():
        for number in sorted({numbers[at * (len(numbers) - 1) // max(PLACES - 1, 1)] for at in range(PLACES)}):
            fresh(archive)
            done, _ = traced(archive, words, "-e", f"inject={call}:error={ERRORS.get(call, 'EIO')}:when={number}")
            where = (name, call, number, done.returncode, done.stdout, done.stderr)
            assert done.returncode in (whole.returncode, 4), where
            assert b"internal error" not in done.stderr and b"Traceback" not in done.stderr, where
            if done.returncode == 4:
                assert re.match(rb"exifnorm-pictures: (other or )?c\b", done.stderr), where
            else:
                assert done.stdout == whole.stdout, where
            left = rows(archive / "c")
            assert left in (before, expected) if name != "index" else {it[0] for it in before} <= {it[0] for it in left}, where
            if left != expected or name not in ("catalogue relocate", "catalogue forget"):  # which find nothing to do the second time
                again = command(archive, words)
                assert (again.returncode, rows(archive / "c")) == (whole.returncode, expected), (where, again)
