"""What commands write is whole or as it was, whatever happens meanwhile: no space, a closed output, a folder that is moved, signals.

Each command of the parser is tried, with each option that writes. It runs in a process of its own, which a first one forks, in a copy of an
archive. Afterwards each file is as before or as the whole run leaves it, and the same command completes what is left.
"""

import contextlib
import hashlib
import importlib.util
import json
import os
import shutil
import signal
import sqlite3
import subprocess
import sys
import zipfile

import pytest
from made_blocks import BLOCKS, with_exif
from made_files import app1, app1_xmp, exif, jpeg, title
from studio import SMALL_JPEG, Studio, errors, put

from exifnorm_pictures.cli import parser

XLSX = ["--xlsx", "out.xlsx"]
COMMANDS = {
    "index": ["index", "p", "--catalogue", "c", "--keep-old", "old", "--quiet", "--jobs", "1"],
    "index, new": ["index", "p", "--catalogue", "out", "--quiet", "--jobs", "1", "--pixels"],
    "catalogue merge": ["catalogue", "merge", "c", "d", "--catalogue", "out"],
    "catalogue forget": ["catalogue", "forget", "c", "p/a.jpg"],
    "catalogue relocate": ["catalogue", "relocate", "c", "p", "q"],
    "verify": ["verify", "c", "--evidence", "out", "--state", "state", "--quiet", "--jobs", "1"],
    "same": ["same", "c", *XLSX],
    "changed": ["changed", "c", "d", *XLSX],
    "changed, undo": ["changed", "d", "c", "--undo", "out"],
    "history": ["changed", "--picture", "p/a.jpg", "c", "d"],
    "compare": ["compare", "p/a.jpg", "p/refused.jpg", *XLSX],
    "list": ["list", "c", "--with", "title", *XLSX],
    "check": ["check", "--rules", "rules", "c", *XLSX],
    "nightly": ["nightly", "p", "--catalogue", "c", "--rules", "rules", "--html", "out", "--jobs", "1"],
    "show": ["show", "p/a.jpg", *XLSX],
    "captions": ["show", "--captions", "c", *XLSX],
    "conflicts": ["check", "c", *XLSX],
    "explain": ["explain", "p/refused.jpg"],
    "report": ["report", "c", "--html", "page"],
    "report, folder": ["report", "c", "--since", "d", "--rules", "rules", "--html", "pages/"],
    "catalogue export": ["catalogue", "export", "c", "tables", "--quiet"],
    "mend": ["mend", "p/refused.jpg", "out.jpg"],
    "mend, many": ["mend", "c", "copies"],
}
# Names of files that commands only read, by their options and arguments
READ = {
    "names",
    "--catalogue",
    "catalogues",
    "catalogue",
    "before",
    "after",
    "picture",
    "source",
    "rules",
    "--since",
    "--rules",
}
READ |= {"--bag", "--picture", "old", "new", "more"}
KEEPS = (
    "index",
    "index, new",
    "catalogue merge",
    "nightly",
    "verify",
    "list",
    "check",
)  # what they have done when they are ended, they keep
NO_PRINT = [name for name, words in COMMANDS.items() if "--xlsx" not in words and name not in ("report", "report, folder")]

# Runs a command after a step of Python, in a process that a first one forks. The k-th of its events, of files and of SQLite, does something.
RUN = """
import importlib, json, os, signal, sys
from exifnorm_pictures.cli.main import main
import exifnorm_pictures.catalogue.store, exifnorm_pictures.scan.looking
for line in sys.stdin:
    folder, words, setup = json.loads(line)
    importlib.import_module("exifnorm_pictures.cli.commands." + words[words[0] == "catalogue"])
    pipes = [os.pipe() for _ in "oe"]  # no command prints more than a pipe has room for
    process = os.fork()
    if not process:
        break
    status = os.waitstatus_to_exitcode(os.waitpid(process, 0)[1])
    texts = []
    for reading, writing in pipes:
        os.close(writing)
        texts.append(open(reading, "rb").read().decode("utf-8", "replace"))
    print(json.dumps([status, *texts]), flush=True)
else:
    sys.exit()
os.chdir(folder)
os.environ["TMPDIR"] = os.path.join(folder, "tmp")
os.dup2(os.open("/dev/null", os.O_RDONLY), 0)
for number, (_, writing) in enumerate(pipes, 1):
    os.dup2(writing, number)
events = 0
def at_event(number, act):
    def hook(event, _):
        global events
        if event in ("open", "sqlite3.connect", "os.rename", "os.link", "os.remove", "os.mkdir", "os.truncate", "os.listdir", "os.scandir", "os.rmdir"):
            events += 1
            if events == number:
                act()
    sys.addaudithook(hook)
exec(setup)
sys.stdin = open(os.devnull)
try:
    status = main(words)
except SystemExit as ended:
    status = ended.code
if events:
    os.write(2, b"events %d\\n" % events)
os._exit(status)
"""


def not_tried(lines):
    """The arguments of each command that are names of files, and that none of some command lines has. What a command is about has
    several places."""
    tried = {(one.command, PLACES.get(name, name)) for one in map(parser.parsed, lines) for name, it in vars(one).items() if it}
    named = {
        (command, it)
        for command, one in parser.parsers()[1].items()
        for it in one._actions
        if it.type is parser._name and it.metavar != "PATTERN"
    }
    return {
        (command, (it.option_strings or [it.dest])[-1]) for command, it in named if (command, PLACES.get(it.dest, it.dest)) not in tried
    }


PLACES = dict.fromkeys(("source", "names", "catalogues"), "catalogue")


def test_all_commands_and_what_they_write_are_tried():
    assert {parser.parsed(words).command for words in COMMANDS.values()} == set(parser.parsers()[1])
    assert {it for it in not_tried(COMMANDS.values()) if it[1] not in READ} == {("index", "--shards")}  # which the law of kills has


class Runner:
    """Runs commands in copies of an archive."""

    def __init__(self, folder):
        self.here, self.archive, self.printed = folder / "here", folder / "archive", ""
        environment = Studio.environment(EXIFNORM_DEBUG="", PATH="/nowhere")
        self.process = subprocess.Popen(
            [sys.executable, "-c", RUN], stdin=subprocess.PIPE, stdout=subprocess.PIPE, env=environment, text=True, encoding="utf-8"
        )

    def fresh(self):
        """A copy of the archive at the place that its catalogues know."""
        shutil.rmtree(self.here)
        shutil.copytree(self.archive, self.here, symlinks=True)
        return self.here

    def run(self, here, words, setup=""):
        """How a command ended, and its messages."""
        self.process.stdin.write(json.dumps([str(here), words, setup]) + "\n")
        self.process.stdin.flush()
        status, self.printed, said = json.loads(self.process.stdout.readline())
        assert "Traceback" not in said and "internal" not in self.printed + said, (words, setup, self.printed, said)
        return status, said

    def close(self):
        self.process.stdin.close()
        self.process.wait()
        self.process.stdout.close()


@pytest.fixture(scope="module")
def runner(tmp_path_factory):
    it = Runner(tmp_path_factory.mktemp("outputs"))
    archive = it.here
    pictures = {
        f"{name}.jpg": jpeg(app1(exif(make)), app1_xmp(title("one"))) for name, make in (("a", b"Abc"), ("b", b"Abc"), ("d", b"Xyz"))
    }
    pictures["refused.jpg"] = with_exif(SMALL_JPEG, BLOCKS["Unsorted"])
    for side in ("p", "q"):
        put(archive / side, pictures)
        for name in pictures:
            os.utime(archive / side / name, (1e9, 1e9))
    for name in ("tmp", "copies"):
        (archive / name).mkdir()
    (archive / "rules").write_text("every picture needs credit\n")
    it.run(archive, ["index", "p", "--catalogue", "c", "--quiet", "--pixels"])
    it.run(archive, ["index", "q", "--catalogue", "d", "--quiet", "--pixels"])
    for words in (
        ["report", "c", "--html", "page"],
        ["report", "c", "--html", "pages/"],
        ["catalogue", "export", "c", "tables", "--quiet"],
    ):
        assert it.run(archive, words)[0] == 0
    (archive / "p" / "new.jpg").write_bytes(jpeg(app1(exif(b"New"))))
    shutil.copytree(archive, it.archive)
    yield it
    it.close()


def content(path):
    """What a file has, without what is about the time of a run; None if it isn't whole."""
    octets = path.read_bytes()
    if octets.startswith(b"SQLite"):
        with contextlib.closing(sqlite3.connect(path)) as base:
            if base.execute("PRAGMA integrity_check").fetchall() != [("ok",)]:
                return None
            names = [it for it, in base.execute("SELECT name FROM sqlite_master WHERE type = 'table' AND name NOT LIKE 'sqlite%'")]
            return {it: base.execute(f"SELECT count(*) FROM {it}").fetchone() for it in names if it != "runs"}
    if octets.startswith(b"PK"):
        return "sheet" if zipfile.ZipFile(path).testzip() is None else None
    if octets.lower().startswith(b"<!doctype html"):
        return "page" if octets.rstrip().endswith(b"</html>") else None
    if path.name == "exifnorm-report":  # the list of a folder, with digests of pages on which a time is
        return [line.partition(b"  ")[2] for line in octets.splitlines()]
    return hashlib.sha256(octets.partition(b"\n")[2] if octets.startswith(b"# exifnorm") else octets).hexdigest()


def state(folder):
    return {
        str(path.relative_to(folder)): content(path)
        for path in sorted(folder.rglob("*"))
        if path.is_file()
        and path.stat().st_size
        and "tmp" not in path.relative_to(folder).parts
        and not path.name.endswith(("-wal", "-shm", "-journal", ".lock"))
    }


@pytest.fixture(scope="module")
def whole(runner):
    """Of each command: the status and the state of a whole run, and how many events it had."""
    known = {}

    def call(name):
        if name not in known:
            here = runner.fresh()
            status, said = runner.run(here, COMMANDS[name], "at_event(0, None)")
            known[name] = status, state(here), int(said.split()[-1])
            assert None not in known[name][1].values() and not os.listdir(here / "tmp")
        return known[name]

    return call


def check(runner, whole, name, here, about):
    """Each file is as before or as after a whole run, and the same command does the rest."""
    before, (status, after, _) = state(runner.archive), whole(name)
    now = state(here)
    for path in {*before, *after, *now}:
        is_kept = name in KEEPS and isinstance(now.get(path), dict)  # a catalogue with some of the pictures, or a state
        assert now.get(path) in (before.get(path), after.get(path)) or is_kept, (about, path, now.get(path))
    if now != after and set(now) <= set(before):
        again = runner.run(here, COMMANDS[name])
        assert again[0] == status and state(here) == after, (about, again)


def needs_xlsx(name):
    if "--xlsx" in COMMANDS[name] and not importlib.util.find_spec("xlsxwriter"):
        pytest.skip("not installed: xlsxwriter")


@pytest.mark.parametrize("name", COMMANDS)
def test_no_space(name, runner, whole):
    """No file may be longer than a few bytes, as on a full disk: a message, and status 4 if anything is missing."""
    needs_xlsx(name)
    for size in (0, 3000):
        here = runner.fresh()
        status, said = runner.run(here, COMMANDS[name], f"import resource; resource.setrlimit(resource.RLIMIT_FSIZE, ({size}, {size}))")
        about = (COMMANDS[name], size, status, said)
        has_all = status == whole(name)[0] and (name in ("list", "check") or state(here) == whole(name)[1])
        assert has_all or status == 4 and len(errors(said)) == 1 or name.startswith("mend") and status in (2, 4), about
        assert not os.listdir(here / "tmp"), about
        check(runner, whole, name, here, about)


@pytest.mark.parametrize("name", NO_PRINT)
def test_no_standard_output(name, runner, whole):
    """It is full, or closed: status 4, and what the command writes besides is whole."""
    for setup in ('os.dup2(os.open("/dev/full", os.O_WRONLY), 1)', "os.close(1)"):
        here = runner.fresh()
        status, said = runner.run(here, COMMANDS[name], setup)
        about = (COMMANDS[name], setup, status, said)
        assert status == 4 and len(errors(said)) == 1 or name == "catalogue export" and status == 0, about
        check(runner, whole, name, here, about)


@pytest.mark.parametrize("name", COMMANDS)
def test_signals(name, runner, whole):
    """At some moments, another one of each command: the documented status, and nothing in TMPDIR."""
    needs_xlsx(name)
    events, turn = whole(name)[2], list(COMMANDS).index(name)
    moments = [max(1, events // 4), events // 2, events * 3 // 4, events - 3]
    for at, (number, end) in enumerate(((signal.SIGINT, 130), (signal.SIGTERM, -15))):
        event = moments[(at + turn) % len(moments)]
        here = runner.fresh()
        setup = f"signal.signal(signal.SIGINT, signal.default_int_handler); at_event({event}, lambda: os.kill(os.getpid(), {int(number)}))"
        status, said = runner.run(here, COMMANDS[name], setup)
        about = (COMMANDS[name], number.name, event, events, status, said)
        assert status == end or f"events {event}" not in said and status == whole(name)[0], about
        assert not os.listdir(here / "tmp"), about
        check(runner, whole, name, here, about)


WITH_CATALOGUE = ("index", "index, new", "catalogue merge", "catalogue forget", "catalogue relocate", "nightly")


@pytest.mark.parametrize("how", ("os.unlink({})", "os.rename({}, 'elsewhere')", "os.truncate({}, 5000)"))
@pytest.mark.parametrize("name", WITH_CATALOGUE)
def test_a_catalogue_that_goes_away(name, how, runner, whole):
    """Somebody removes, moves or cuts it while the command writes: the status is about what is there at the end."""
    here = runner.fresh()
    catalogue = "out" if "out" in COMMANDS[name] and name != "nightly" else "c"
    setup = f"""
from exifnorm_pictures.catalogue.store import Catalogue
close = Catalogue.close
def away(catalogue):
    if os.path.basename(os.fspath(catalogue.name)).startswith({catalogue!r}) and os.path.exists({catalogue!r}):
        {how.format(repr(catalogue))}
    close(catalogue)
Catalogue.close = away
"""
    status, said = runner.run(here, COMMANDS[name], setup)
    about = (COMMANDS[name], status, said)
    if status == whole(name)[0]:  # all of it was written again
        assert state(here).get(catalogue) == whole(name)[1][catalogue], about
    else:
        assert status == 4 and said.startswith("exifnorm-pictures: "), about


GONE = {
    "removed": lambda c: c.unlink(),
    "moved": lambda c: c.rename(c.parent / "elsewhere"),
    "replaced": lambda c: (c.parent / "d").rename(c),
    "cut": lambda c: os.truncate(c, 5000),
}


@pytest.mark.parametrize("how", GONE)
@pytest.mark.parametrize("words", (["list", "c"], ["check", "--rules", "rules", "c"], ["list", "c", "--json"]), ids=" ".join)
def test_a_catalogue_that_goes_away_while_it_is_read(words, how, folder, called):
    """Somebody does so while the command waits for who reads its output, of which a pipe has not room for all."""
    (folder / "p").mkdir()
    for number in range(700):
        (folder / "p" / f"{number:04}{'-' * 100}.jpg").write_bytes(jpeg(app1(exif(b"%04d" % number))))
    (folder / "rules").write_text("every picture needs title\n")
    assert called("index", "p", "--catalogue", "c", "--quiet", "--jobs", "1")[0] == 0
    shutil.copy("c", "d")
    assert called(*words)[0] == (words[0] == "check")
    command = [sys.executable, "-m", "exifnorm_pictures", *words]
    pipes = {"stdout": subprocess.PIPE, "stderr": subprocess.PIPE, "bufsize": 0}  # no more is read than 100 bytes
    with subprocess.Popen(command, **pipes, env=Studio.environment()) as running:
        first = running.stdout.read(100)
        GONE[how](folder / "c")
        rest, said = running.communicate()
    assert how == "cut" or len(first + rest) > 1 << 16, "it did not wait"
    assert running.returncode == 4 and said.startswith(b"exifnorm-pictures: c"), (running.returncode, said)
