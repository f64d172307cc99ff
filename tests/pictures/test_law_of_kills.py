"""The law of kills: a command that was killed, and is given again, leaves what one run leaves, and no other file.

strace kills the run before one of its calls that write, those of SQLite too. It attaches itself to a process that has imported the modules.
A short form tries some calls of each command; with --long each is tried.
"""

import contextlib
import functools
import os
import re
import shlex
import shutil
import signal
import sqlite3
import tempfile
from collections import Counter
from pathlib import Path

import pytest
from test_outputs import COMMANDS, READ, Runner, needs_xlsx, not_tried, runner  # noqa: F401 (a fixture)

pytestmark = pytest.mark.skipif(not shutil.which("strace"), reason="not installed: strace")

MORE = {
    "index, shards": ["index", "p", "q", "--shards", "shards", "--quiet", "--jobs", "1"],
    "index, several processes": ["index", "p", "--catalogue", "c", "--quiet", "--jobs", "2"],
    "forget, shards": ["catalogue", "forget", "s", "p/a.jpg"],
    "list, shards": ["list", "s", "--with", "title"],
    "merge, shards": ["catalogue", "merge", "s", "--catalogue", "out"],
}
WRITING = {name: words for name, words in {**COMMANDS, **MORE}.items() if name not in ("history", "explain")}  # which write nothing
# so that few pictures are several transactions
SMALL = "from exifnorm_pictures.scan import index; index.BATCH = 1\nfrom exifnorm_pictures.catalogue import kept_texts; kept_texts.AT_ONCE = 2\n"
# where SQLite keeps a journal, no file is without a name, and only one that is open to write can be locked for one process
SHARE = """
import fcntl
from exifnorm_pictures.catalogue import store
store.is_on_network = lambda _: True
del os.O_TMPFILE
def flock(file, how, call=fcntl.flock):
    if how & fcntl.LOCK_EX and fcntl.fcntl(file, fcntl.F_GETFL) & os.O_ACCMODE == os.O_RDONLY:
        raise OSError(9, "as NFS has it")
    call(file, how)
fcntl.flock = flock
"""
WAYS = {"here": SMALL, "on a share": SMALL + SHARE}
KILLS = {"here": 4, "on a share": 4}  # of each command in the short form, spread over a run, and the first of some calls
NAMES = ("fsync", "rename", "link")  # by which a whole file gets its name
READS = 3  # of so many kills one is followed by a command that reads

STAYS = re.compile(r"(^|/)\.exifnorm-[0-9a-f]{12}-[0-9a-f]{8}\.part$|-(wal|shm|journal)$|^state/")  # where there was nothing left to write
PYTHONS = re.compile("[a-z0-9_]{8}")  # a file by which Python tries whether it can write to TMPDIR
CALLS = (
    "write pwrite64 fsync fdatasync ftruncate rename renameat renameat2 link linkat unlink unlinkat rmdir mkdir mkdirat symlink fchmod fchown"
    " utimensat openat"
).split()
OPENED_TO_WRITE = re.compile(r"O_WRONLY|O_RDWR|O_CREAT")
ATTACH = """
import ctypes, subprocess
ctypes.CDLL(None).prctl(0x59616D61, ctypes.c_ulong(-1), 0, 0, 0)  # PR_SET_PTRACER, where only relatives are allowed to trace
tracer = subprocess.Popen({words!r} + ["-p", str(os.getpid())], stdin=-3, stdout=-3, stderr=-1)
assert b"attached" in tracer.stderr.readline()
"""


def traced(trace, way, *more):
    """The setup of a run that is traced."""
    words = [shutil.which("strace"), "-s", "0", "-e", f"trace={','.join(CALLS)}", "-e", "signal=none", "-o", str(trace), *more]
    return WAYS[way] + ATTACH.format(words=words)


def places(trace):
    """The calls of a run that write to files, in their order: each with its number among those of its name."""
    counts = Counter()
    for line in trace.read_text().splitlines():
        call, _, rest = line.partition("(")
        if call in CALLS:
            counts[call] += 1
            is_stream = call == "write" and rest[:2] in ("1,", "2,")
            if not is_stream and (call != "openat" or OPENED_TO_WRITE.search(rest)):
                yield call, counts[call]


def chosen(known, way):
    """Some places spread over a run, of which the last is one; and the first of each call, on a share of those by which a file gets its name."""
    firsts = {call: (call, number) for call, number in reversed(known) if way == "here" or call in NAMES}.values()
    count = KILLS[way]
    return sorted({*firsts, *(known[len(known) * at // count - 1] for at in range(1, count + 1))}, key=known.index)


# What is there


def rows(path):
    """What a catalogue or an export has, but for the numbers and times of runs: pictures by their paths. Of runs, whether the last was whole."""
    with contextlib.closing(sqlite3.connect(path)) as base:
        assert base.execute("PRAGMA integrity_check").fetchall() == [("ok",)]
        names = [it for it, in base.execute("SELECT name FROM sqlite_master WHERE type = 'table'")]
        paths = dict(base.execute("SELECT id, path FROM pictures"))
        found = {}
        for name in names:
            cursor = base.execute(f"SELECT * FROM {name}")
            columns = [it[0] for it in cursor.description]
            found[name] = sorted(TIME.sub("", repr(plain(dict(zip(columns, row)), paths))) for row in cursor)
        if "runs" in found:
            found["runs"] = base.execute("SELECT ended IS NULL FROM runs ORDER BY id DESC LIMIT 1").fetchall()
        return found


BESIDE = ("-wal", "-journal")
TIME = re.compile(r"\d{4}-\d\d-\d\d[T ]\d\d:\d\d(:\d\d)?|[0-9a-f]{64}  ")  # and the digests of pages with one
OF_A_RUN = ("id", "run", "device", "inode", "changed")  # of a row, and of a copy of the archive


def plain(row, paths):
    if "picture" in row:
        row["picture"] = paths.get(row["picture"])
    return {name: it for name, it in row.items() if name not in OF_A_RUN}


@functools.lru_cache(maxsize=1000)
def content(octets, *beside):
    """What a file has, with what SQLite has beside it. A copy is read, because SQLite rolls back."""
    if octets.startswith(b"SQLite"):
        with tempfile.TemporaryDirectory() as folder:
            path = Path(folder) / "copy"
            path.write_bytes(octets)
            for ending, more in beside:
                Path(f"{path}{ending}").write_bytes(more)
            try:
                return rows(path)
            except (sqlite3.Error, AssertionError) as error:
                return str(error)
    return TIME.sub("", octets.decode("latin-1")) if not octets.startswith(b"PK") else "a sheet"


def state(folder):
    """Each file of a folder, or the error of a catalogue. What a lock has, and what SQLite has beside a catalogue, is about one run alone."""
    there = {str(it.relative_to(folder)): it.read_bytes() if it.exists() else b"" for it in folder.rglob("*") if not it.is_dir()}
    return {
        name: ""
        if name.endswith(("lock", "-shm", *BESIDE))
        else content(octets, *((it, there[name + it]) for it in BESIDE if name + it in there))
        for name, octets in there.items()
        if not name.startswith("tmp/")
    }


def left(archive, here):
    """What is in TMPDIR. A run that makes a folder there removes those of killed ones."""
    if os.listdir(here / "tmp"):
        archive.run(here, ["catalogue", "export", "c", "swept", "--quiet"])
    return [it for it in os.listdir(here / "tmp") if not PYTHONS.fullmatch(it) or (here / "tmp" / it).stat().st_size > 4]


def differing(now, due, had_all):
    """The files that differ. If there was nothing left to write, some stay until a command writes there."""
    names = {it for it in {*now, *due} if now.get(it) != due.get(it)}
    return {it for it in names if not (had_all and STAYS.search(it))}


def difference(now, due):
    """Where two contents differ, or that one is missing."""
    if not isinstance(now, dict) or not isinstance(due, dict):
        return str(now)[:100], str(due)[:100]
    return [(table, set(now.get(table, ())) ^ set(due.get(table, ()))) for table in {*now, *due} if now.get(table) != due.get(table)]


def folders(folder):
    return {str(it.relative_to(folder)) for it in folder.rglob("*") if it.is_dir() and it.parent != folder / "tmp"}


@pytest.fixture(scope="module")
def archive(runner):  # noqa: F811
    """The archive of the other tests of outputs, with a folder of catalogues."""
    here = runner.fresh()
    assert runner.run(here, ["index", "p", "q", "--shards", "s", "--quiet", "--jobs", "1"])[0] == 0
    shutil.rmtree(runner.archive)
    shutil.copytree(here, runner.archive)
    return runner


def test_all_that_is_written_is_tried():
    assert not [it for it in not_tried(WRITING.values()) if it[1] not in READ]


@pytest.mark.parametrize("way", WAYS)
@pytest.mark.parametrize("name", WRITING)
def test_given_again(name, way, archive, tmp_path, pytestconfig):
    needs_xlsx(name) if name in COMMANDS else None
    words, trace, wrong = WRITING[name], tmp_path / "trace", []
    here = archive.fresh()
    status, _ = archive.run(here, words, traced(trace, way))
    due, due_folders, told = state(here), folders(here), archive.printed
    archive.run(here, words, WAYS[way])
    twice, known = state(here), list(places(trace))
    assert known, "the calls of the run are seen"
    kills = known if pytestconfig.getoption("--long") else chosen(known, way)
    print(f"{len(kills)} kills")
    for at, (call, number) in enumerate(kills):
        here = archive.fresh()
        killed, _ = archive.run(here, words, traced(trace, way, "-e", f"inject={call}:signal=KILL:when={number}"))
        first = archive.printed
        had_all = due.items() <= state(here).items()
        about = (shlex.join(words), way, call, number, killed)
        if killed not in (-signal.SIGKILL, status):
            wrong.append((about, "ended"))
        if at % READS == 0:
            read, said = archive.run(here, ["same", "c"], WAYS[way])
            if "readonly" in said or read not in (0, 1, 2, 4):
                wrong.append((about, "same", read, said))
        again, said = archive.run(here, words, WAYS[way])
        second = archive.printed
        if again != status and not had_all:
            wrong.append((about, "again", again, said))
        now, one = state(here), twice if had_all else due
        wrong += [(about, it, *difference(now.get(it), one.get(it))) for it in differing(now, one, had_all)]
        wrong += [(about, "folder", it) for it in folders(here) ^ due_folders if not had_all]  # verify stops at its whole evidence
        wrong += [(about, "left", it) for it in left(archive, here)]
        if name == "nightly" and told not in (first, second):
            wrong.append((about, "told", first, second))
    assert not wrong, "\n".join(map(str, wrong))
