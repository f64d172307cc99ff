"""The made museum with its catalogues, and how commands are run there: in this process, at one moment of time."""

import contextlib
import datetime
import hashlib
import os
import shlex
import shutil
import time

import made_museum
import made_values
import pytest
from exifnorm_pictures.cli import main

NOW = datetime.datetime(2026, 1, 3, 4, 5, 6, tzinfo=datetime.timezone.utc)
CLOCKS = ("report.rendering", "cli.commands.verify", "cli.commands.export", "scan.index")  # the modules that print or keep the time of now
CATALOGUES = ("before", "plain", "full", "full.before", "few")
KEPT = ("one", "archive", "bag", "edits")
WHOLE = " --pixels --maker-notes --sidecars"


class Clock(datetime.datetime):
    """A clock that stands still."""

    @classmethod
    def now(cls, tz=None):
        return NOW.astimezone(tz) if tz else NOW.replace(tzinfo=None)


@contextlib.contextmanager
def standing_clock(zone="UTC"):
    """A clock that stands still."""
    with pytest.MonkeyPatch.context() as patch:
        patch.setenv("TZ", zone)
        time.tzset()
        for name in CLOCKS:
            patch.setattr(f"exifnorm_pictures.{name}.datetime", Clock)
        yield
    time.tzset()


def run(line, folder, is_terminal=False):
    """The status of a command line, its lines, and its messages; `*` in a word is expanded as a shell does it."""
    words = []
    for word in shlex.split(line):
        names = sorted(os.path.relpath(path, folder) for path in folder.glob(word)) if "/*" in word else []
        words += names or [word]
    with contextlib.ExitStack() as stack:
        out, messages = (stack.enter_context(open(folder / f".{name}", "w+", encoding="utf-8", newline="")) for name in ("out", "messages"))
        out.isatty = lambda: is_terminal
        stack.enter_context(contextlib.redirect_stdout(out))
        stack.enter_context(contextlib.redirect_stderr(messages))
        try:
            status = main._run(words)
        except SystemExit as wrong:  # of arguments that argparse refuses
            status = wrong.code
        for stream in (out, messages):
            stream.seek(0)
        return status, out.read().splitlines(), messages.read().splitlines()


def put_bag(folder):
    """A bag of two pictures, one of which has changed since its digest was written (RFC 8493, 2.1.3)."""
    made_museum.put(folder / "data", made_museum.desk("desk"))
    digests = {path: hashlib.sha256(path.read_bytes()).hexdigest() for path in sorted(folder.glob("data/desk/[12].jpg"))}
    rows = [f"{digest}  {path.relative_to(folder)}\n" for path, digest in digests.items()]
    (folder / "manifest-sha256.txt").write_text("".join(rows), encoding="utf-8")
    (folder / "bagit.txt").write_text("BagIt-Version: 1.0\nTag-File-Character-Encoding: UTF-8\n", encoding="utf-8")
    (folder / "data" / "desk" / "2.jpg").write_bytes(made_museum.captioned(132, title="Salt 9"))


def done(line, folder, status=0):
    """The lines of a command that must end with this status."""
    __tracebackhide__ = True
    ended, lines, messages = run(line, folder)
    assert ended == status, (line, lines, messages)
    return lines


def make(folder):
    """Writes the pictures of the first night to `one` and `archive`, indexes them, then has the second night in `archive`."""
    first = made_museum.first_night()
    made_museum.put("one", first)
    made_museum.put("archive", first)
    for name, words in ((".plain", ""), (".full", WHOLE)):
        done(f"index archive --jobs 1 --catalogue {name}{words}", folder)
    shutil.copy(".plain", ".before")
    shutil.copy(".full", ".full.before")
    os.rename("archive", ".first")  # as long as these files are there, no new file can get the inode of one of them
    made_museum.put("archive", made_museum.second_night(), made_museum.TIME + 86_400, before=first)
    shutil.rmtree(".first")
    for name, words in ((".plain", ""), (".full", WHOLE)):
        done(f"index archive --jobs 1 --catalogue {name}{words}", folder)
    done("index one/desk --jobs 1 --pixels --catalogue .few", folder)
    for number, name in enumerate(("values", "later")):
        made_museum.put(f"edits/{name}", {"pages.tif": made_values.pages(number, 4), **made_museum.refused_elsewhere()})
    made_museum.put("edits/before", made_museum.before())
    made_museum.put("edits/after", made_museum.after(), made_museum.TIME + 86_400)
    made_museum.put("edits/masters", made_museum.masters())
    made_museum.put("edits/web", made_museum.derivatives())
    made_museum.put("edits/spoiled", made_museum.spoiled())
    made_museum.put("edits/alike", made_museum.alike())
    made_museum.put("edits/row", made_museum.row(1, "2025-03-31"))
    made_museum.put("edits/numbered-anew", made_museum.row(2, "2025-03-31T14:30"))
    put_bag(folder / "bag")


def state(folder):
    """The files that are there for each test, as they are on the disk."""
    tops = [it for it in folder.iterdir() if it.name in KEPT or it.name.startswith(".") and not it.name.startswith((".out", ".messages"))]
    found = {path: path.lstat() for top in tops for path in (top, *(top.rglob("*") if top.is_dir() else ()))}
    return {path: (it.st_ino, it.st_mode, it.st_mtime_ns, 0 if path.is_dir() else it.st_size) for path, it in found.items()}


def made(folder, make):
    """A folder that `make` fills while the clock stands."""
    with standing_clock(), contextlib.chdir(folder):
        make(folder)
    return folder


@pytest.fixture(scope="session")
def museum_of_this_process(tmp_path_factory):
    folder = made(tmp_path_factory.mktemp("museum"), make)
    return folder, state(folder)


@pytest.fixture
def museum(museum_of_this_process):
    """The folder in which commands are called: `one` and `archive` are the pictures of both nights, `before` and `plain` their catalogues,
    `full.before` and `full` these with --pixels --maker-notes --sidecars, `few` a catalogue of few pictures."""
    folder, as_made = museum_of_this_process
    with standing_clock(), contextlib.chdir(folder):
        is_as_made = state(folder) == as_made
        for path in folder.iterdir():  # what an earlier test has written
            if not is_as_made or path.name not in KEPT and not path.name.startswith("."):
                shutil.rmtree(path) if path.is_dir() and not path.is_symlink() else path.unlink()
        if not is_as_made:  # a mistake has written into it
            make(folder)
        for name in CATALOGUES:
            shutil.copy(f".{name}", name)
        yield folder
