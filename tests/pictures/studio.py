"""Makes pictures as users have them, by the tools that they use, and runs commands on them."""

import base64
import contextlib
import functools
import importlib.util
import os
import re
import shutil
import sqlite3
import struct
import subprocess
import sys
import tempfile
import threading
import unittest

from made_blocks import BLOCKS, with_exif, with_iptc

HERE = os.path.dirname(os.path.abspath(__file__))
TOP = os.path.dirname(os.path.dirname(HERE))
TESTS_PATH = os.pathsep.join(os.path.join(TOP, *it.split("/")) for it in ("tests/pictures", "tests/blocks", "python"))  # for PYTHONPATH

# 24 x 16 points, where ImageMagick isn't installed
SMALL_JPEG = base64.b64decode(
    "/9j/4AAQSkZJRgABAQAAAQABAAD/2wBDAA0JCgsKCA0LCgsODg0PEyAVExISEyccHhcgLikxMC4pLSwzOko+MzZGNywtQFdBRkxOUlNSMj5aYV"
    "pQYEpRUk//2wBDAQ4ODhMREyYVFSZPNS01T09PT09PT09PT09PT09PT09PT09PT09PT09PT09PT09PT09PT09PT09PT09PT09PT0//wAARCAAQ"
    "ABgDASIAAhEBAxEB/8QAFgABAQEAAAAAAAAAAAAAAAAAAAQG/8QAFhABAQEAAAAAAAAAAAAAAAAAABNh/8QAFQEBAQAAAAAAAAAAAAAAAAAAAA"
    "X/xAAWEQADAAAAAAAAAAAAAAAAAAAAFWH/2gAMAwEAAhEDEQA/AMxbS2oLFlhDC+6pfbRBYEMDqn//2Q=="
)

PROGRAMS = {
    "exiftool": "libimage-exiftool-perl",
    "exiv2": "exiv2",
    "convert": "imagemagick",
    "ssconvert": "gnumeric",
    "chromium": "chromium",
    "parallel": "parallel",
    "sqlite3": "sqlite3",
    "hashdeep": "hashdeep",
    "heif-enc": "libheif-examples",
    "perl": "perl",
    "valgrind": "valgrind",
}
MODULES = {"piexif": "python3-piexif", "distributed": "python3-distributed", "PIL": "python3-pil", "rdflib": "python3-rdflib"}


# looks for modules without running them, which takes a second with some
ARE_THERE = "import importlib.util, sys; print(*(it for it in sys.argv[1:] if importlib.util.find_spec(it)))"


@functools.lru_cache(maxsize=None)
def modules_of(python):
    """Those of MODULES that a Python has."""
    if python == sys.executable:
        return [it for it in MODULES if importlib.util.find_spec(it)]
    return (
        subprocess.run([python, "-c", ARE_THERE, *MODULES], stdout=subprocess.PIPE, text=True).stdout.split()
        if os.path.exists(python)
        else []
    )


def name_of(line):
    """The command of a line.

    >>> name_of("catalogue merge a b --catalogue c"), name_of("list c")
    ('catalogue merge', 'list')
    """
    words = line.split()
    return " ".join(words[: 1 + (words[0] == "catalogue")])


def interpreter_with(module):
    """A Python that has a module: this one, or Debian's."""
    return next((it for it in (sys.executable, "/usr/bin/python3") if module in modules_of(it)), None)


class Studio:
    """The folder with the commands that the documents name, and how they are run."""

    program = os.path.join(TOP, "crates", "px_cli", "out", "px_cli")
    room = ""
    _lock = threading.Lock()
    _made = {}

    @classmethod
    def open(cls, program):
        cls.program = os.path.abspath(program or cls.program)
        cls.room = tempfile.mkdtemp(prefix="exifnorm-pictures-")
        built = os.path.join(TOP, "out", "lib", "libexifnorm.so.1")
        if os.path.exists(built):
            os.environ.setdefault("EXIFNORM_LIBRARY", built)
        os.mkdir(os.path.join(cls.room, "bin"))

    @classmethod
    def put_commands(cls):
        """Makes the commands, which only tests with a folder of their own call."""
        cls.wrapper("exifnorm", f'exec "{cls.program}" "$@"')
        cls.wrapper("exifnorm-pictures", f'exec "{interpreter_with("distributed") or sys.executable}" -m exifnorm_pictures "$@"')
        cls.wrapper("python3", f'exec "{interpreter_with("distributed") or sys.executable}" "$@"')

    @classmethod
    def close(cls):
        shutil.rmtree(cls.room, ignore_errors=True)

    @classmethod
    def wrapper(cls, name, line):
        path = os.path.join(cls.room, "bin", name)
        with open(path, "w") as file:
            file.write(f"#!/bin/sh\n{line}\n")
        os.chmod(path, 0o755)

    @classmethod
    def environment(cls, **more):
        """The variables of a command, whose output is buffered as it is for users, also where that of the tests isn't."""
        path = os.path.join(cls.room, "bin") + os.pathsep + os.environ.get("PATH", "")
        python = os.path.join(TOP, "python") + os.pathsep + os.environ.get("PYTHONPATH", "")
        own = {"PATH": path, "PYTHONPATH": python, "PYTHONDONTWRITEBYTECODE": "1", "TMPDIR": cls.room}
        others = {name: it for name, it in os.environ.items() if name != "PYTHONUNBUFFERED"}
        return {**others, **own, **more}

    @classmethod
    def once(cls, name, make):
        """A folder that is made by the first test that needs it; tests leave it as it is. If that fails, only the first has the reason."""
        with cls._lock:
            if name not in cls._made:
                cls._made[name] = None
                folder = os.path.join(cls.room, name)
                os.mkdir(folder)
                make(folder)
                cls._made[name] = folder
        if cls._made[name] is None:
            raise AssertionError(f"the folder {name!r} could not be made: another test has the reason")
        return cls._made[name]


def run(words, folder, given=None, seconds=1800, **more):
    """Runs a command; words and folder may be bytes. The limit of time is a guard alone, also on a very busy machine."""
    environment = Studio.environment(**more)
    found = shutil.which(os.fsdecode(words[0]), path=environment["PATH"]) or words[0]
    return subprocess.run(
        [found, *words[1:]],
        cwd=folder,
        input=given,
        capture_output=True,
        timeout=seconds,
        env=environment,
        stdin=subprocess.DEVNULL if given is None else None,
    )


def write(path, octets):
    with open(path, "wb") as file:
        file.write(octets)


def put(folder, files):
    """Writes files, by their names below a folder."""
    for name, octets in files.items():
        path = os.path.join(folder, name)
        os.makedirs(os.path.dirname(path), exist_ok=True)
        write(path, octets)


def without_own_script(page):
    """A page of the report without its only script, which is the last thing in it. What else begins a script stays."""
    with open(os.path.join(TOP, "python/exifnorm_pictures/report/templates/report.js"), encoding="utf-8") as file:
        own = f"<script>{file.read()}</script></body></html>"
    assert page.rstrip().endswith(own)
    return page.rstrip()[: -len(own)]


def read(path):
    with open(path, "rb") as file:
        return file.read()


def sql_rows(path, statement, *values):
    """The rows that a statement has of a SQLite file; what it writes is kept."""
    with contextlib.closing(sqlite3.connect(path)) as base, base:
        return base.execute(statement, values).fetchall()


def tool(folder, *words):
    """Runs a tool that has to do its work."""
    done = run(list(words), folder)
    if done.returncode:
        raise AssertionError(f"{words}: {done.returncode} {done.stderr.decode(errors='replace')}")
    return done.stdout


def jpeg(folder, name, size="96x72"):
    path = os.path.join(folder, name)
    if shutil.which("convert"):
        tool(folder, "convert", "-size", size, "plasma:tomato-steelblue", "-strip", "-quality", "60", path)
    else:
        write(path, SMALL_JPEG)
    return path


def make_collection(folder):
    """What the documents' commands run on, and most tests."""
    pictures = os.path.join(folder, "pictures")
    os.makedirs(os.path.join(pictures, "sub"))
    first = jpeg(pictures, "first.jpg")
    small = jpeg(folder, "small.jpg", "40x30")
    fields = ["-ExifByteOrder=II", "-Make=Leica", "-Artist=Zürich", "-UserComment=a comment", "-IPTC:Keywords=one", "-IPTC:Keywords=two"]
    tool(
        folder,
        "exiftool",
        "-q",
        "-overwrite_original",
        *fields,
        "-IPTC:CodedCharacterSet=UTF8",
        "-IPTC:Caption-Abstract=Zürich",
        f"-ThumbnailImage<={small}",
        first,
    )
    shutil.copy(first, os.path.join(pictures, "sub", "copy.jpg"))
    turned = os.path.join(pictures, "turned.jpg")  # the same meaning in other bytes
    shutil.copy(first, turned)
    write(os.path.join(folder, "normal"), run(["exifnorm"], folder, tool(folder, "exiftool", "-b", "-Exif", first)).stdout)
    tool(folder, "exiftool", "-q", "-overwrite_original", f"-Exif<={os.path.join(folder, 'normal')}", turned)
    os.remove(os.path.join(folder, "normal"))
    write(os.path.join(pictures, "refused.jpg"), with_exif(read(small), BLOCKS["Overlap"]))
    write(os.path.join(pictures, "notes.txt"), b"no picture\n")
    write(os.path.join(pictures, "bare.jpg"), read(small))
    if shutil.which("convert"):
        tool(folder, "convert", small, os.path.join(pictures, "scan.tif"))
    else:
        write(os.path.join(pictures, "scan.tif"), small_tiff())
    tool(folder, "exiftool", "-q", "-overwrite_original", "-Artist=Someone", os.path.join(pictures, "scan.tif"))
    for name, source in (("picture.jpg", "first.jpg"), ("picture.tif", "scan.tif"), ("refused.jpg", "refused.jpg")):
        shutil.copy(os.path.join(pictures, source), os.path.join(folder, name))


def small_tiff():
    """One grey point."""
    values = [
        (0x100, 4, 1),
        (0x101, 4, 1),
        (0x102, 3, 8 << 16),
        (0x103, 3, 1 << 16),
        (0x106, 3, 1 << 16),
        (0x111, 4, 8),
        (0x115, 3, 1 << 16),
        (0x116, 4, 1),
        (0x117, 4, 1),
    ]
    table = struct.pack(">H", len(values)) + b"".join(struct.pack(">HHII", tag, kind, 1, value) for tag, kind, value in values)
    return b"MM\0*\0\0\0\x0a\x80\0" + table + bytes(4)


def make_refused(folder):
    """A picture for each cause that fits into a JPEG."""
    base = SMALL_JPEG
    for cause, octets in BLOCKS.items():
        write(os.path.join(folder, cause + ".block"), octets)
        if len(octets) < 60000:
            write(os.path.join(folder, cause + ".jpg"), (with_iptc if octets.startswith(b"\x1c") else with_exif)(base, octets))


def make_many(folder):
    """2,000 pictures with 200 descriptions. ExifTool edits the first; the others are as it would make them, in a tenth of its time."""
    first = jpeg(folder, "p0000.jpg", "32x24")
    words = ["-Make=Leica", "-IPTC:Keywords=many", "-ImageDescription=p000", "-UserComment=comment"]
    tool(folder, "exiftool", "-q", "-overwrite_original", *words, first)
    before, described, after = read(first).partition(b"p000")
    if b"p000" in after or not described:
        raise AssertionError("the description must be there once")
    for number in range(1, 2000):
        write(os.path.join(folder, f"p{number:04d}.jpg"), before + b"p%03d" % (number // 10) + after)


def collection():
    return Studio.once("collection", make_collection)


def refused():
    return Studio.once("refused", make_refused)


def many():
    return Studio.once("many", make_many)


def errors(text):
    """The lines of standard error that aren't notes: what is said beside an answer is tested where that is the subject."""
    return [line for line in text.splitlines() if not line.startswith("exifnorm-pictures: note: ")]


def needs(*names):
    """Skips a test, by name, where a program or module isn't installed."""
    if not {*names} <= {*PROGRAMS, *MODULES}:
        raise KeyError(names)
    lacking = [f"{it} (package {PROGRAMS[it]})" for it in names if it in PROGRAMS and not shutil.which(it)]
    lacking += [f"{it} (package {MODULES[it]})" for it in names if it in MODULES and not interpreter_with(it)]
    return unittest.skipIf(lacking, "not installed: " + ", ".join(lacking))


def counts_of_summary(printed):
    """The first line that `changed` prints, how many pictures have each result, and how many changed like no other."""
    first, _, below = printed.partition("\n")
    results = {result: number(count) for count, result in re.findall(r"(?m)^([\d,]+) ((?!picture|more group)[^:\n]+)", below)}
    odd = re.search(r"(?m)^([\d,]+) pictures? changed like no other:", below)
    return first, results, number(odd[1]) if odd else 0


def counts_of_page(page):
    """The same by a report, in which each further count of changes is the sum of these."""
    found = re.search(r"(?s)<p><b>([^<]*)</b></p>\s*<p>In detail:(.*?)</p>(.*?)</section>", page)
    results = {it: number(count) for count, it in re.findall(r"([\d,]+) (.*?)(?:, (?=\d)|\.$)", re.sub("<.*?>", "", found[2]))}
    odd, edited = (re.search(words, found[3]) for words in (r"([\d,]+) changed like no other", r"The fields of ([\d,]+)"))
    odd = number(odd[1]) if odd else 0
    alike = map(number, re.findall(r"<h4>([\d,]+) pictures", found[3]))
    assert (number(edited[1]) if edited else 0) == odd + sum(alike), "each picture is in one group"
    listed = number(re.search(r'<a href="#changed">[^<]*</a> <span class="note">([\d,]+) ', page)[1])
    no_pictures = results.get("no picture, different bytes", 0)
    assert listed == not_the_same(found[1]) + no_pictures == sum(map(number, re.findall(r'kind=changed/[^"]+">([\d,]+) ', found[2])))
    return found[1], results, odd


def number(text):
    return int(text.replace(",", ""))


def not_the_same(first):
    """How many pictures aren't the same, or not known to be, by the first line of `changed`."""
    total, _, rest = first.partition(" pictures compared: " if " pictures compared: " in first else ": ")
    return sum(number(total if it == "all" else it) for it in re.findall(r"(\d[\d,]*|\ball\b) ", rest))


class WithPictures(unittest.TestCase):
    """A test with a folder of its own."""

    def setUp(self):
        self.folder = tempfile.mkdtemp(dir=Studio.room)

    def tearDown(self):
        shutil.rmtree(self.folder, ignore_errors=True)

    def copied(self, source):
        """The folder's own copy of a made one."""
        shutil.copytree(source, self.folder, dirs_exist_ok=True, symlinks=True)
        return self.folder

    def path(self, *names):
        return os.path.join(self.folder, *names)

    def called(self, words, folder, given=None, **more):
        """How exifnorm-pictures ends."""
        return run(["exifnorm-pictures", *words], folder, given, **more)

    def asked(self, *words, status=0, given=None, folder=None, **more):
        """Runs exifnorm-pictures, which must end with this status; its lines."""
        __tracebackhide__ = True
        done = self.called(words, folder or self.folder, given, **more)
        said = done.stdout.decode("utf-8", "surrogateescape"), done.stderr.decode("utf-8", "replace")
        self.assertEqual(done.returncode, status, f"{words}\n{said[0]}\n{said[1]}")
        self.complaint = said[1]
        return said[0].splitlines()
