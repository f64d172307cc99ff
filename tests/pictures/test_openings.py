"""Each command opens a picture once, so that all that it reads is of one file, whatever file gets the name meanwhile.

The law is about this program. ExifTool, exiv2 and heif-convert open a file by its name themselves. Three times a picture is read again: by
`nightly --html`, for the page, long after it was compared; by `verify`, if it has another SHA-256; and `captions --whole` asks first whether a
name is a catalogue's, before anything is printed."""

import re
import shutil
import sys
from collections import Counter

import pytest
from made_blocks import block, entry
from made_files import A, app1, app1_xmp, jpeg, title
from meanings import ASCII
from studio import put, run

from exifnorm_pictures.cli import parser

REFUSED = block([entry(0x013B, ASCII, 4, b"Ann\0"), entry(0x010F, ASCII, 4, b"Bob\0")])
PICTURES = {
    "a.jpg": jpeg(app1(A), app1_xmp(title("Vase"))),
    "refused.jpg": jpeg(app1(REFUSED)),
    "trailer.jpg": jpeg(app1(A)) + b"behind the picture",
    "cut.jpg": jpeg(app1(A))[:-2],
    "none.jpg": jpeg(),
}
EACH = tuple(f"p/{it}" for it in PICTURES)
CALLS = {
    "index": [("p", "--catalogue", "new", "--pixels"), ("p", "--shards", "new", "--whole")],
    "catalogue merge": [("c", "--catalogue", "new")],
    "catalogue forget": [("c", "p")],
    "catalogue relocate": [("c", "p", "q")],
    "verify": [("c",)],
    "same": [("c",), ("c", "--kind", "pixels")],
    "changed": [("p", "q", "--pixels"), ("c", "q")],
    "compare": [(it, "q/a.jpg") for it in EACH[:3]],
    "list": [("p",), ("p", "--with", "damage")],
    "check": [("p", "--rules", "rules")],
    "nightly": [("p", "--catalogue", "new", "--pixels")],
    "show": [EACH, *(("--captions", *it) for it in (EACH, ("p",), ("c",), ("p/a.jpg", "--csv")))],
    "explain": [EACH],
    "report": [("c", "--html", "page"), ("c", "--html", "pages/")],
    "catalogue export": [("c", "tables")],
    "mend": [(it, "copy.jpg") for it in EACH[:2]] + [("c", "copies"), ("--files-from", "names", "copies")],
}
OPENS = re.compile(rb'^(\d+) +open(?:at)?\(.*"(?:[^"]*/)?([pq]/[^"/]*)"')
STARTS = re.compile(rb"^(\d+) +execve\(")


@pytest.fixture
def archive(folder, called):
    """Two folders of the same pictures, and a catalogue of one."""
    for name in ("p", "q"):
        put(folder, {f"{name}/{picture}": octets for picture, octets in PICTURES.items()})
    put(
        folder,
        {
            "rules": b"every picture needs title\n",
            "names": b"".join(b"p/%s\n" % it.encode() for it in PICTURES),
        },
    )
    assert called("index", "p", "--catalogue", "c", "--quiet", "--pixels")[0] == 0
    return folder


def openings(log):
    """How often each picture was opened by the processes of this program: of those that begin, the first one and its workers."""
    lines = log.splitlines()
    started = [found[1] for found in map(STARTS.match, lines) if found]
    found = [it.groups() for it in map(OPENS.match, lines) if it]
    return Counter(path.decode() for process, path in found if process == started[0] or process not in started)


def test_each_command_has_a_call():
    assert set(CALLS) == {name for name, *_ in parser.COMMANDS}


@pytest.mark.skipif(not shutil.which("strace"), reason="not installed: strace")
@pytest.mark.parametrize("words", [(*name.split(), *words) for name, calls in CALLS.items() for words in calls], ids=" ".join)
def test_a_picture_is_opened_once(words, archive):
    traced = ("strace", "-f", "-qq", "-o", "log", "-e", "trace=open,openat,execve", sys.executable, "-m", "exifnorm_pictures")
    done = run([*traced, *words], archive)
    assert done.returncode in (0, 1, 2), done.stderr
    often = {path: count for path, count in openings((archive / "log").read_bytes()).items() if count > 1}
    assert not often, f"opened more than once by {' '.join(words)}"
