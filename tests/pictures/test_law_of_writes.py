"""The law of writes: whatever a stranger has put into a folder tree, a command creates, changes, renames and removes nothing but the outputs
that its command line names, what SQLite has beside them, and its own temporary files. Nor does a program that reads these outputs then.

strace sees each call of the system, also those of SQLite, which a library that is preloaded wouldn't see if SQLite were part of Python, and
those of other programs. It attaches itself to a process that has imported the modules. Each path is judged as the kernel has it: of a file that is open where a link led, of another one below its folder.
"""

import contextlib
import fnmatch
import hashlib
import os
import re
import shutil
import sqlite3
import struct
import subprocess
import sys
from pathlib import Path

import pytest
from made_blocks import BLOCKS, with_exif
from made_files import app1_xmp, jpeg, title
from studio import SMALL_JPEG, Studio, put
from test_law_of_kills import ATTACH
from test_law_of_readers import AS_OTHER, OTHER
from test_outputs import Runner, not_tried

from exifnorm_pictures.catalogue.store import LIST_HEAD
from exifnorm_pictures.cli import parser

pytestmark = pytest.mark.skipif(not shutil.which("strace"), reason="not installed: strace")

OPEN = ("open", "openat", "openat2", "creat")
NAMED = "mkdir mkdirat mknod mknodat unlink unlinkat rmdir rename renameat renameat2 link linkat symlink symlinkat truncate".split()
RIGHTS = "chmod fchmodat chown lchown fchownat utime utimes utimensat setxattr lsetxattr removexattr lremovexattr".split()
OF_OPEN = "ftruncate fallocate fchmod fchown fsetxattr fremovexattr".split()
CALLS = (*OPEN, *NAMED, *RIGHTS, *OF_OPEN)
WRITES = re.compile(r"O_WRONLY|O_RDWR|O_CREAT|O_TRUNC")
# a folder that is open or the current one, and a name in it; or a name
NAME = re.compile(r'(?:(?:AT_FDCWD|\d+)<((?:\\x..)*)>(?:\(deleted\))?, )?"((?:\\x..)*)"')
OPENED = re.compile(r"<((?:\\x..)*)>")
FREE = ("/dev/null", "/dev/tty", "/dev/shm/*", "/proc/self/*")  # which are no files of anybody


def plain(text):
    return os.fsdecode(bytes.fromhex(text.replace("\\x", "")))


def written(folder, traces):
    """The paths that the calls of a run wrote to, each with its call. A file has none before it gets its name, or if it was removed."""
    for trace in traces.iterdir():
        for line in trace.read_text().splitlines():
            call, _, rest = line.partition("(")
            if call in OPEN:
                number = rest.rpartition(" = ")[2]
                if WRITES.search(rest) and not number.endswith("(deleted)"):
                    yield call, plain(OPENED.findall(number)[0])
            elif call in OF_OPEN:
                number, _, words = rest.partition(">")
                path = plain(number.partition("<")[2])
                # SQLite gives a journal the owner of its catalogue, if root asks
                if not words.startswith("(deleted)") and not (call == "fchown" and path.endswith("-journal")):
                    yield call, path
            elif call in CALLS:
                for below, name in NAME.findall(rest):
                    path = os.path.join(plain(below) or folder, plain(name))
                    if not path.startswith("/proc/"):  # a file without a name, which a link gives one
                        yield call, os.path.join(os.path.realpath(os.path.dirname(path)), os.path.basename(path))


# The tree


def archive(top):
    """What the user has at home, and a disk of a stranger."""
    caption = app1_xmp(title("one"))
    files = {
        f"disk/{side}/{name}": jpeg(caption) for side in "pq" for name in ("a.jpg", "sub/b.jpg", "line\nend.jpg", "-dash.jpg", "<b>.jpg")
    }
    files.update(
        {
            "disk/p/refused.jpg": with_exif(SMALL_JPEG, BLOCKS["Overlap"]),
            "disk/p/a.xmp": title("side"),
            "disk/bag/data/a.jpg": jpeg(caption),
        }
    )
    files.update({f"home/{name}": b"mine " + name.encode() for name in ("thesis.txt", "notes.html", "holiday.jpg")})
    put(str(top), files)
    (top / "tmp").mkdir()
    (top / "disk" / "rules").write_text("every picture needs title\n")
    (top / "disk" / "names").write_text("p/refused.jpg\np/out/thesis.txt\n../home/notes.html\np/link.jpg\n/dev/null\nq\n")
    (top / "disk" / "bag" / "manifest-sha256.txt").write_text("")
    (top / "disk" / "p" / "link.jpg").symlink_to(top / "home" / "holiday.jpg")
    (top / "disk" / "p" / "out").symlink_to(top / "home")
    (top / "disk" / "linked").symlink_to("real")
    for words in (
        "index p --catalogue c --pixels --quiet",
        "index p --catalogue old --quiet",
        "index p --catalogue real --quiet",
        "index q --catalogue ../home/mine --quiet",
        "index p --shards d --quiet",
        "report c --html r/",
        "catalogue export c tables",
        "nightly p --catalogue n",
    ):
        done = run(top, words.split())
        assert done.returncode < 3, (words, done)


def run(top, words):
    environment = {**Studio.environment(EXIFNORM_DEBUG=""), "TMPDIR": str(top / "tmp"), "HOME": str(top / "home")}
    words = [sys.executable, "-m", "exifnorm_pictures", *words]
    return subprocess.run(words, cwd=top / "disk", capture_output=True, stdin=subprocess.DEVNULL, env=environment, timeout=300)


CALLS_OF_API = """
import exifnorm
for name in ("p/a.jpg", "p/refused.jpg", "p/link.jpg", "rules", "c", "d", "p/out/thesis.txt"):
    for call in (exifnorm.read, lambda it: exifnorm.read(open(it, "rb")), lambda it: exifnorm.compare(it, "q/a.jpg")):
        with __import__("contextlib").suppress(OSError, exifnorm.NoPicture):
            call(name)
"""


def traced(top, traces, is_first):
    """The setup of a run that is traced, with its programs; of the first one with calls from Python before it."""
    words = [shutil.which("strace"), "-ff", "-z", "-y", "-xx", "-s", "5000", "-o", str(traces / "t"), "-e", f"trace={','.join(CALLS)}"]
    room = {"TMPDIR": str(top / "tmp"), "HOME": str(top / "home"), "PATH": os.environ["PATH"]}
    return f"os.environ.update({room!r})" + ATTACH.format(words=words) + CALLS_OF_API * is_first


def journal_that_names(path, catalogue):
    """A rollback journal without pages, after which SQLite removes the file that it names."""
    octets, name, magic = catalogue.read_bytes(), os.fsencode(path), bytes.fromhex("d9d505f920a163d7")
    size = int.from_bytes(octets[16:18], "big")
    head = magic + struct.pack(">IIIII", 0, 0x1234, len(octets) // size, 512, size)
    return head.ljust(512, b"\0") + struct.pack(">I", 0x40000000 // size + 1) + name + struct.pack(">II", len(name), sum(name)) + magic


def put_journals(top, *names):
    for name in names:
        (top / "disk" / f"{name}-journal").write_bytes(journal_that_names(top / "home" / "thesis.txt", top / "disk" / name))


def of_outputs(top):
    """What a command seems to have made before, each with a journal that names a file of the user."""
    (top / "disk" / "state").mkdir()
    made = ("new", "kept", "n.tonight", "n.before", "state/verified.catalogue")
    for name in made:
        shutil.copy(top / "disk" / "c", top / "disk" / name)
    put_journals(top, "tables", *made)


def journals(top):
    """The same, and each catalogue that is read has such a journal."""
    of_outputs(top)
    put_journals(top, "c", "old", "real", "n", *(os.path.relpath(it, top / "disk") for it in (top / "disk" / "d").glob("*.catalogue")))


def beside(top):
    """What SQLite keeps beside a catalogue are links to files of the user."""
    for name in ("c", "old", "n", "new", "tables"):
        for ending in ("-wal", "-shm", "-journal"):
            (top / "disk" / f"{name}{ending}").symlink_to(top / "home" / "thesis.txt")


def lists(top):
    """The list of a folder of catalogues names one of the user, and that of a report files of the user which lie there."""
    (top / "disk" / "d" / "catalogues").write_bytes(LIST_HEAD + b"../../home/mine\n")
    with open(top / "disk" / "r" / "exifnorm-report", "a") as names:
        for name in ("notes.html", "holiday.jpg"):
            shutil.copy(top / "home" / name, top / "disk" / "r" / name)
            digest = hashlib.sha256((top / "home" / name).read_bytes()).hexdigest()
            names.write(f"{digest}  {name}\n")


def links(top):
    """The catalogues of a folder are links, and so is its list."""
    for name in (top / "disk" / "d").glob("*.catalogue"):
        name.unlink()
        name.symlink_to(top / "home" / "mine")
    (top / "disk" / "d" / "catalogues").rename(top / "home" / "list")
    (top / "disk" / "d" / "catalogues").symlink_to(top / "home" / "list")


def another(top):
    """The tree is that of another user than root, who runs the commands, and the user's files are root's."""
    journals(top)
    for path in (top, top / "tmp", top / "disk", *(top / "disk").rglob("*")):
        os.chown(path, OTHER, OTHER, follow_symlinks=False)


def left(top):
    """What killed runs seem to have left: folders and files of the user under such names, and journals beside what is written."""
    of_outputs(top)
    for folder in (top / "disk", top / "tmp"):
        for name in (".exifnorm-abcdefgh.part", "exifnorm-abcdefgh"):
            put(str(folder / name), {"notes.txt": b"mine"})
        put(str(folder), {".exifnorm-0123456789ab-01234567.part": b"mine"})  # which has no sum of its name


STRANGERS = (journals, beside, lists, links, left, *[another] * (os.geteuid() == 0))
SQLITES = ("", "-wal", "-shm", "-journal")
LISTED = (".lock", "catalogues", ".exifnorm-*.part", *(f"[0-9]*.catalogue{it}" for it in SQLITES))
PAGES = (
    "exifnorm-report",
    "index.html",
    "search*.js",
    "small-*.jpg",
    *(f"{it}-[0-9]*.html" for it in ("folders", "changed", "same", "refused")),
)
PART = ".exifnorm-????????.part"  # a folder that is written, before it has its name, and then the earlier one


def catalogue(*names):
    return [f"{name}{ending}" for name in names for ending in SQLITES]


def folder_of_report(name):
    return [name, PART, *(f"{it}/{page}" for it in (name, PART) for page in PAGES)]


FILE = ".exifnorm-*-*.part"  # a file that is written, where the file system has none without a name
SHARDS = ["d", *(f"d/{it}" for it in LISTED)]
ASKED = catalogue("c", "old")  # the first question keeps texts in a catalogue
COMMANDS = {
    "index p --catalogue c --jobs 1": catalogue("c"),
    "index p q --catalogue c --jobs 2 --pixels --sidecars --maker-notes": catalogue("c"),
    "index --catalogue new --files-from names": catalogue("new"),
    "index p --catalogue c --keep-old kept": [*catalogue("c", "kept"), FILE],
    "index p --shards d --jobs 1": SHARDS,
    "catalogue merge c old --catalogue new": catalogue("new"),
    "catalogue merge d --catalogue c": catalogue("c"),
    "catalogue forget c p": catalogue("c"),
    "catalogue forget linked p": catalogue("real"),
    "catalogue forget d p q": SHARDS,
    "catalogue relocate c p q": catalogue("c"),
    "verify c": [],
    "verify --bag bag": [],
    "verify c --evidence sums --state state": ["sums", FILE, "state", *catalogue("state/verified.catalogue")],
    "same c --files-from names": [],
    "same p --xlsx same.xlsx": ["same.xlsx", FILE],
    "changed old c": [],
    "changed p q --csv": [],
    "changed p q --undo undo.args": ["undo.args", FILE],
    "changed --picture p/a.jpg old c old": [],
    "compare p/a.jpg q/a.jpg": [],
    "list c --with title": ASKED,
    "list d --with title": SHARDS,
    "check --rules rules c": ASKED,
    "check --rules rules d": SHARDS,
    "nightly p --catalogue n": [*catalogue("n", "n.tonight", "n.before"), "n.lock", FILE],
    "nightly p --catalogue old --rules rules --html page.html": [
        *catalogue("old", "old.tonight", "old.before"),
        "old.lock",
        "page.html",
        FILE,
    ],
    "show p": [],
    "show --captions p": [],
    "show --captions c": ASKED,
    "check c": ASKED,
    "explain p": [],
    "report c --since old --html r/": [*folder_of_report("r"), *ASKED],
    "report c --html page.html --rules rules": ["page.html", FILE, *ASKED],
    "report d --html r/": [*folder_of_report("r"), *SHARDS],
    "catalogue export c tables": [*catalogue("tables"), FILE, *ASKED],
    "mend p/refused.jpg copy.jpg": ["copy.jpg", FILE],
    "mend out --files-from names": ["out", "out/*"],
    "mend c out": ["out", "out/*"],
}


@pytest.fixture(scope="module")
def saved(session_folder):
    top = Path(session_folder) / "writes"
    top.mkdir()
    archive(top)
    shutil.copytree(top, f"{top}.saved", symlinks=True)
    return top


@pytest.fixture(scope="module")
def runner(saved):
    it = Runner(saved)
    yield it
    it.close()


def tree(top):
    """The files at home, and those elsewhere that no command writes."""
    files = [it for it in top.rglob("*") if it.is_file() and not it.is_symlink()]
    mine = [it for it in files if top / "home" in it.parents or it.read_bytes().startswith(b"mine")]
    return {str(it.relative_to(top)): (it.read_bytes(), it.lstat().st_ino) for it in mine}


def read_by_another(written):
    """Another program reads what a run has written. SQLite removes then what a journal beside a file names, which no run leaves there."""
    for path in map(Path, written):
        if path.is_file() and path.read_bytes().startswith(b"SQLite"):
            with contextlib.suppress(sqlite3.Error), contextlib.closing(sqlite3.connect(path)) as base:
                base.execute("SELECT * FROM sqlite_master").fetchall()


def words_of(line):
    """A command line, with a spreadsheet if its command has any. A new command, or one with another name of a file, fails until a line has it."""
    given = parser.parsed(line.split())
    return [*line.split(), *["--xlsx", "table.xlsx"] * (getattr(given, "xlsx", "") is None and not given.csv and "--picture" not in line)]


def test_each_command_is_there_with_each_name_of_a_file():
    lines = list(map(words_of, COMMANDS))
    assert {parser.parsed(it).command for it in lines} == set(parser.parsers()[1])
    assert not not_tried(lines)


@pytest.mark.parametrize("stranger", STRANGERS, ids=lambda it: it.__name__)
def test_nothing_else_is_written(stranger, saved, runner, tmp_path):
    wrong = []
    for words, outputs in COMMANDS.items():
        line = words_of(words)
        shutil.rmtree(saved)
        shutil.copytree(f"{saved}.saved", saved, symlinks=True)
        stranger(saved)
        before = tree(saved)
        traces = tmp_path / "traces"
        shutil.rmtree(traces, ignore_errors=True)
        traces.mkdir()
        setup = traced(saved, traces, words == next(iter(COMMANDS))) + f"\n{AS_OTHER}" * (stranger is another)
        status, said = runner.run(saved / "disk", line, setup)
        if status not in range(5):
            wrong.append((words, status, said[-300:]))
        allowed = [
            *(str(saved / "disk" / it) for it in (*outputs, *["table.xlsx", FILE] * ("table.xlsx" in line))),
            str(saved / "tmp" / "*"),
            *FREE,
        ]
        calls = {*written(str(saved / "disk"), traces)}
        read_by_another({it[1] for it in calls})
        others = {it for it in calls if not any(fnmatch.fnmatchcase(it[1], due) for due in allowed)}
        wrong += [
            (words, call, path.replace(str(saved), "")) for call, path in sorted(others) if os.path.realpath(path) != str(saved / "disk")
        ]
        after = tree(saved)
        wrong += [(words, "is gone or changed", name) for name in before if after.get(name) != before[name]]
    assert not wrong, "\n".join(map(str, wrong))
