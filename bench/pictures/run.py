#!/usr/bin/env python3
"""Times exifnorm-pictures at an archive's scale beside ExifTool and exiv2's library, in one interleaved run, and prints a table.

  bench/pictures/run.py LIBRARY [--pictures N] [--folder FOLDER] [--counted N] [--rounds N]

LIBRARY is a folder such as out/lib. The pictures are small JPEG files with Exif, IPTC and XMP, made here from a few bytes, or those of a
folder, such as cameras.py makes; those of another format are PSD files by ImageMagick's convert. exiv2's library is left out where it or its
header (Debian: libexiv2-dev) isn't installed. A time is the least of all rounds.
"""

import argparse
import os
import re
import shutil
import subprocess
import sys
import tempfile
import time
from dataclasses import dataclass
from pathlib import Path
from typing import Dict, Iterator, List, Sequence, Tuple

TOP = Path(__file__).resolve().parent.parent.parent
sys.path[:0] = [str(TOP / "tests" / "pictures"), str(TOP / "tests" / "blocks"), str(TOP / "python")]
sys.dont_write_bytecode = True

import made_files as made

EXIFTOOL = ("-config", "", "-q", "-q", "-r", "-b", "-Exif")
ROW = Tuple[str, str, str]  # what was measured, the result, the target


# What is measured on


def letters(number: int) -> bytes:
    """Three letters that encode a number below 17,576."""
    return bytes(65 + number // 26**place % 26 for place in range(3))


def make_pictures(folder: str, count: int) -> None:
    """Small JPEG files; each fourth one has the metadata of the one before it."""
    for number in range(count):
        says = number - (number % 4 == 3)
        there = os.path.join(folder, f"{number // 1000:03}")
        os.makedirs(there, exist_ok=True)
        record = made.resource(0x0404, made.iim(b"keyword %d" % says))
        picture = made.jpeg(made.app1(made.exif(letters(says))), made.app1_xmp(made.title(f"title {says}")), made.app13(record))
        Path(there, f"{number:07}.jpg").write_bytes(picture)


def exiv2_reader(folder: str) -> str:
    """The program of exiv2.cpp; no name if it can't be built."""
    out, source = os.path.join(folder, "exiv2"), Path(__file__).resolve().parent / "exiv2.cpp"
    if not shutil.which("pkg-config") or not shutil.which("g++"):
        return ""
    asked = subprocess.run(["pkg-config", "--cflags", "--libs", "exiv2"], capture_output=True, text=True, check=False)
    words = ["g++", "-O2", "-o", out, str(source), *asked.stdout.split()]
    if asked.returncode == 0 and subprocess.run(words, capture_output=True, check=False).returncode == 0:
        return out
    return ""


def make_others(folder: str, count: int) -> bool:
    """Copies of a PSD file with Exif, IPTC and XMP; whether there are tools to make one."""
    if not shutil.which("convert"):
        return False
    first = os.path.join(folder, "first.psd")
    subprocess.run(["convert", "-size", "16x16", "xc:gray", first], check=True)
    fields = ["-EXIF:Artist=Someone", "-IPTC:Keywords=one", "-XMP:Title=A title"]
    subprocess.run(["exiftool", "-config", "", "-q", "-overwrite_original", *fields, first], check=True)
    for number in range(1, count):
        shutil.copyfile(first, os.path.join(folder, f"{number:06}.psd"))
    return True


# How it is measured


@dataclass(frozen=True)
class Cost:
    """What a command needed."""

    seconds: float
    processor: float  # seconds of processor time, with the processes that it started and waited for


def cost(words: Sequence[str], statuses: Sequence[int] = (0,)) -> Cost:
    """Runs a command that must end with one of these statuses; its output goes nowhere."""
    began = time.perf_counter()
    started = subprocess.Popen(words, stdout=subprocess.DEVNULL, stderr=subprocess.DEVNULL)
    _, status, used = os.wait4(started.pid, 0)
    started.returncode = os.waitstatus_to_exitcode(status)
    if started.returncode not in statuses:
        raise SystemExit(f"{' '.join(words)}: status {started.returncode}")
    return Cost(time.perf_counter() - began, used.ru_utime + used.ru_stime)


# Runs a command, and writes to standard error which part of the processor time the first process had.
SHARE = """
import sys
from resource import RUSAGE_CHILDREN, RUSAGE_SELF, getrusage
from exifnorm_pictures.cli.main import main
def spent(whose): return getrusage(whose).ru_utime + getrusage(whose).ru_stime
before = spent(RUSAGE_SELF)
main(sys.argv[1:])
own = spent(RUSAGE_SELF) - before
print(own / (own + spent(RUSAGE_CHILDREN)), file=sys.stderr)
"""


def share(*words: str) -> float:
    """The part of the processor time that the first process of a command has, without the start of Python."""
    done = subprocess.run([sys.executable, "-c", SHARE, *words], check=True, stdout=subprocess.DEVNULL, stderr=subprocess.PIPE)
    return float(done.stderr)


def pictures(*words: str) -> List[str]:
    return [sys.executable, "-m", "exifnorm_pictures", *words]


class Timed:
    """The commands on pictures, in turns."""

    def __init__(self, folder: str, count: int, named: str = "") -> None:
        self.folder = folder
        self.least: Dict[str, Cost] = {}
        self.jpegs, self.others, self.empty, self.first = (os.path.join(folder, it) for it in ("jpegs", "others", "empty", "one"))
        for path in (self.jpegs, self.others, self.empty, self.first):
            os.mkdir(path)
        if named:
            self.jpegs = os.path.abspath(named)
        else:
            make_pictures(self.jpegs, count)
        names = sorted(os.path.join(top, it) for top, _, files in os.walk(self.jpegs) for it in files)
        self.count, self.list, self.list_of_first = len(names), os.path.join(folder, "names"), os.path.join(folder, "first name")
        Path(self.list).write_bytes(b"".join(os.fsencode(it) + b"\n" for it in names))
        Path(self.list_of_first).write_bytes(os.fsencode(names[0]) + b"\n")
        shutil.copy(names[0], self.first)
        self.exiv2 = exiv2_reader(folder)
        self.has_others = make_others(self.others, max(200, self.count // 5))

    def round(self) -> None:
        """Each command once."""
        self._time("exiftool", ["exiftool", *EXIFTOOL, self.jpegs])
        if self.exiv2:
            self._time("exiv2", [self.exiv2, self.list], [0, 1])
            self._time("exiv2, first", [self.exiv2, self.list_of_first], [0, 1])
        self._index("one", self.jpegs, "1")
        self._index("four", self.jpegs, "4")
        self._index("again", self.jpegs, "1", new=False)
        self._index("start", self.empty, "1")
        self._index("first", self.first, "1")
        if self.has_others:
            self._index("others by one", self.others, "1")
            self._index("others by four", self.others, "4")

    def _index(self, name: str, folder: str, jobs: str, new: bool = True) -> None:
        catalogue = os.path.join(self.folder, os.path.basename(folder) + ".catalogue")
        if new and os.path.exists(catalogue):
            os.unlink(catalogue)
        self._time(name, pictures("index", folder, "--catalogue", catalogue, "--jobs", jobs, "--quiet"))

    def _time(self, name: str, words: Sequence[str], statuses: Sequence[int] = (0,)) -> None:
        now, least = cost(words, statuses), self.least.get(name)
        self.least[name] = Cost(min(now.seconds, least.seconds), min(now.processor, least.processor)) if least else now

    def _further(self, every: str, first: str) -> float:
        """The milliseconds of processor time for a further picture: what a command takes for all, without what it takes for the first one."""
        return (self.least[every].processor - self.least[first].processor) / (self.count - 1) * 1000

    def rows(self) -> Iterator[ROW]:
        """The lines of the table."""
        least = self.least
        count = f"{self.count:,} JPEG files"
        yield f"`index`, over `exiftool -b -Exif`, one process each ({count})", ratio(least, "one", "exiftool"), "0.1"
        if self.exiv2 and self.count > 1:
            mine, its = (self._further(*it) for it in (("one", "first"), ("exiv2", "exiv2, first")))
            result = f"processor time: {mine / its:.2f} ({mine:.3f} ms over {its:.3f} ms for a file)"
            yield f"`index` over exiv2's library reading Exif, IPTC and XMP, for each further one of {count}", result, "3"
        yield f"`index` with four processes, over one ({count})", ratio(least, "four", "one"), "0.35"
        first = share("index", self.jpegs, "--catalogue", os.path.join(self.folder, "share.catalogue"), "--jobs", "4", "--quiet")
        yield f"the first process's part of the processor time of four ({count})", f"{first:.3f}", "0.15"
        again = (least["again"].processor - least["start"].processor) / self.count * 100000
        yield f"a second run, nothing changed, for each 100,000 pictures ({count})", f"{again:.1f} s of processor time", "3.5 s"
        if self.has_others:
            yield "files through ExifTool (PSD), four processes over one", ratio(least, "others by four", "others by one"), "0.4"


def ratio(least: Dict[str, Cost], name: str, other: str) -> str:
    """By the clock, and by processor time, which hangs less on what else the machine does."""
    mine, its = least[name], least[other]
    return (
        f"{mine.seconds / its.seconds:.2f} ({mine.seconds:.2f} s over {its.seconds:.2f} s); processor time:"
        f" {mine.processor / its.processor:.3f} ({mine.processor:.2f} s over {its.processor:.2f} s)"
    )


# Runs `index`, whose further processes end at once: each has counted what the first one had when it forked.
FORKED = """
import os, sys
from exifnorm_pictures.scan import workers
workers._begin, workers._one_by_one = lambda *_: os._exit(0), lambda *_: sys.exit()
from exifnorm_pictures.cli.main import main
main(sys.argv[1:])
"""


def each_counted(words: Sequence[str]) -> List[int]:
    """The instructions of each process of a command, which don't depend on what else the machine does, with those of the first one before it
    forked; the first process, which waits for the others, is the last."""
    counting = ["valgrind", "--tool=cachegrind", "--cache-sim=no", "--trace-children=yes", "--cachegrind-out-file=/dev/null", *words]
    done = subprocess.run(counting, check=True, stdout=subprocess.DEVNULL, stderr=subprocess.PIPE, text=True)
    return [int(it.replace(",", "")) for it in re.findall(r"I\s+refs:\s+([\d,]+)", done.stderr)]


def instructions(words: Sequence[str]) -> int:
    """The instructions of a command; those of programs that it starts aren't counted."""
    return each_counted(words)[-1]


def by_four(folder: str, count: int) -> Iterator[ROW]:
    """The instructions of `index` by four processes over those by one, on the pictures that were counted."""
    there, catalogue = os.path.join(folder, f"counted{count}"), os.path.join(folder, "four.catalogue")
    words = ["index", there, "--quiet", "--catalogue"]
    one = instructions(pictures(*words, f"{catalogue}1", "--jobs", "1"))
    *further, first = each_counted(pictures(*words, f"{catalogue}4", "--jobs", "4"))
    before = each_counted([sys.executable, "-c", FORKED, *words, f"{catalogue}0", "--jobs", "4"])[0]
    four = first + sum(it - before for it in further)
    yield f"instructions of `index` with four processes, over one ({count:,} JPEG files)", f"{four / one:.2f}", "1.15"


def put_pictures(folder: str, count: int, named: str) -> None:
    """So many pictures in a new folder: made ones, or the first ones of another folder."""
    os.mkdir(folder)
    if not named:
        make_pictures(folder, count)
    for path in sorted(Path(named).rglob("*.jpg"))[:count] if named else []:
        shutil.copy(path, folder)


def counted(folder: str, count: int, named: str) -> Iterator[ROW]:
    """The instructions of `index`, of ExifTool, and of exiv2's library where it is installed, for the start and for each further picture."""
    costs: List[Tuple[int, ...]] = []
    exiv2 = exiv2_reader(folder)
    names = ["index", "exiftool -b -Exif", *["exiv2's library"] * bool(exiv2)]
    for number in (count // 5, count):
        there, catalogue = os.path.join(folder, f"counted{number}"), os.path.join(folder, f"counted{number}.catalogue")
        put_pictures(there, number, named)
        index = instructions(pictures("index", there, "--catalogue", catalogue, "--jobs", "1", "--quiet"))
        listed = Path(f"{there}.names")
        listed.write_text("".join(f"{it}\n" for it in sorted(Path(there).rglob("*.jpg"))), encoding="utf-8")
        others = [["perl", str(shutil.which("exiftool")), *EXIFTOOL, there], [exiv2, str(listed)]]
        costs.append((index, *map(instructions, others[: len(names) - 1])))
    for column, name in enumerate(names):
        each = (costs[1][column] - costs[0][column]) / (count - count // 5)
        start = costs[1][column] - each * count
        yield f"instructions of `{name}`", f"{each / 1e3:,.0f} thousand for a picture, {start / 1e6:,.0f} million for the start", ""
    if exiv2:
        mine, its = (costs[1][it] - costs[0][it] for it in (0, -1))
        yield "instructions of `index` for a further picture, over exiv2's library", f"{mine / its:.2f}", "1.2" if named else "2.0"


def main() -> None:
    """Measures and prints."""
    words = argparse.ArgumentParser(description=__doc__, formatter_class=argparse.RawDescriptionHelpFormatter)
    words.add_argument("library")
    words.add_argument("--pictures", type=int, default=5000, help="JPEG files")
    words.add_argument("--folder", default="", help="a folder with JPEG files to be measured in place of made ones")
    words.add_argument("--counted", type=int, default=0, help="JPEG files whose instructions Valgrind counts; 0 leaves it out")
    words.add_argument("--rounds", type=int, default=3)
    asked = words.parse_args()
    os.environ["EXIFNORM_LIBRARY"] = os.path.abspath(os.path.join(asked.library, "libexifnorm.so.1"))
    os.environ["PYTHONPATH"] = str(TOP / "python")
    print("| Measured | Result | Target |\n|---|---|---|", flush=True)
    with tempfile.TemporaryDirectory() as folder:
        os.environ.pop("PYTHONDONTWRITEBYTECODE", None)
        os.environ["PYTHONPYCACHEPREFIX"] = os.path.join(folder, "compiled")  # once, as in an installed package
        if asked.pictures:
            timed = Timed(folder, asked.pictures, asked.folder)
            for _ in range(asked.rounds):
                timed.round()
            show(timed.rows())
        if asked.counted:
            compiled = os.path.join(folder, "compiled pictures")
            os.mkdir(compiled)
            make_pictures(compiled, 100)
            for jobs in ("1", "4"):  # which compiles the modules
                cost(pictures("index", compiled, "--catalogue", f"{compiled}{jobs}", "--jobs", jobs, "--quiet"))
            show(counted(folder, asked.counted, asked.folder))
            show(by_four(folder, asked.counted))


def show(rows: Iterator[ROW]) -> None:
    for row in rows:
        print(f"| {' | '.join(row)} |", flush=True)


if __name__ == "__main__":
    main()
