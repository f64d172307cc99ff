#!/usr/bin/env python3
"""What questions cost over a catalogue of many pictures, and prints a table.

  bench/pictures/questions.py [--pictures N] [--catalogue FILE]

The catalogue's rows are made here, with the texts that a museum's pictures have: a title, a caption of about 120 characters, a creator, five
keywords, rights, a date and a position; a tenth of the pictures has a block that is refused. The processor time of each question is divided
by the number of pictures, in millions; the memory is the most that SQLite and Python need beyond what the first question does.
"""

import argparse
import contextlib
import importlib
import io
import os
import random
import resource
import sys
import tempfile
import time
from pathlib import Path
from typing import Iterator, List, Sequence, Tuple

TOP = Path(__file__).resolve().parent.parent.parent
sys.path.insert(0, str(TOP / "python"))
sys.dont_write_bytecode = True

from exifnorm_pictures.catalogue.kept_texts import kept_text
from exifnorm_pictures.catalogue.store import Catalogue, put_rows, put_text
from exifnorm_pictures.cli.main import main as command
from exifnorm_pictures.model.records import PictureRecord

WORDS = "bowl vase celadon glaze museum the of and a with kiln harbour evening portrait market street archive photograph plate 1911".split()
QUESTIONS: Sequence[List[str]] = [
    ["--where", "creator = 'Name 7'"],
    ["--where", "creator != 'Name 7'", "-0"],
    ["--where", "creator like '*77*'"],
    ["--where", "keywords has kiln7"],
    ["--where", "caption has 'celadon harbour kiln'"],
    ["--where", "caption like '*celadon harbour kiln*'"],
    ["--where", "date created < 1901-02"],
    ["--where", "date created > 1999-11"],
    ["--where", "title < 50"],
    ["--without", "credit", "-0"],
    ["--with", "position", "--without", "keywords"],
    ["--where", "keywords = kiln7 and not creator like '*7*' or credit = none"],
    ["--count", "creator"],
    ["--count", "keywords"],
    ["--count", "title", "--csv"],
    ["--count", "caption", "--csv"],
    ["--count", "creator", "--where", "keywords = kiln7"],
]


def texts_of(chosen: random.Random, number: int) -> Iterator[Tuple[str, str]]:
    """The texts of a picture, by label."""
    yield "title", f"1998.{number}" if number % 100 else str(number)
    yield "caption", " ".join(chosen.choices(WORDS, k=20))
    if chosen.random() < 0.9:
        name = f"Name {chosen.randrange(1000)}"
        yield "creator", name if chosen.random() < 0.95 else name.upper()
    for keyword in chosen.sample(range(500), 5):
        yield "keywords", f"kiln{keyword}"
    if chosen.random() < 0.5:
        yield "credit", f"Museum {chosen.randrange(5)}"
    yield "copyright", "Riverside Museum"
    yield "date created", f"{chosen.randrange(1900, 2000)}-{chosen.randrange(1, 13):02}-{chosen.randrange(1, 29):02}"
    if chosen.random() < 0.3:
        yield "position", f"{chosen.uniform(-90, 90):.5f} {chosen.uniform(-180, 180):.5f}"


def make(name: str, count: int) -> None:
    """A catalogue of so many pictures."""
    chosen = random.Random(1)
    with Catalogue(name, make=True) as catalogue:
        run = catalogue.begin_run("2026-01-01T00:00:00Z")
        for first in range(1, count + 1, 10_000):
            numbers = range(first, min(first + 10_000, count + 1))
            digests = {"iptc": "", "xmp": "a" * 64, "not_read": "", "other_not_read": "", "xmp_octets": "b" * 64, "exif_octets": "c" * 64}
            pictures = [
                PictureRecord(
                    path=b"/archive/folder%03d/picture%08d.jpg" % (number % 500, number),
                    root=b"/archive",
                    exif=None if number % 10 == 0 else f"{number:064x}",
                    **digests,
                )
                for number in numbers
            ]
            with catalogue.transaction():
                put_rows(catalogue.base, run, first, pictures)
                rows = ((number, at, *kept_text(*text)) for number in numbers for at, text in enumerate(texts_of(chosen, number)))
                catalogue.base.executemany(put_text("texts"), rows)
                catalogue.set_prepared(numbers[-1])


def measured(words: Sequence[str]) -> Tuple[float, float, int]:
    """The processor time of a command in a process of its own, the most memory in MB, and the number of lines that it prints."""
    read, write = os.pipe()
    importlib.import_module("exifnorm_pictures.cli.commands.list")  # which isn't measured
    child = os.fork()
    if not child:
        out = io.TextIOWrapper(io.BytesIO(), encoding="utf-8")
        began = time.process_time()
        with contextlib.redirect_stdout(out), contextlib.suppress(SystemExit):
            command(words)
        used = time.process_time() - began
        out.flush()
        lines = out.buffer.getvalue().count(b"\0" if "-0" in words else b"\n")  # type: ignore[attr-defined]
        memory = resource.getrusage(resource.RUSAGE_SELF).ru_maxrss / 1024
        os.write(write, f"{used} {memory} {lines}".encode())
        os._exit(0)
    os.close(write)
    with os.fdopen(read) as result:
        used, memory, lines = result.read().split()
    os.waitpid(child, 0)
    return float(used), float(memory), int(lines)


def main() -> None:
    """Measures and prints."""
    words = argparse.ArgumentParser(description=__doc__, formatter_class=argparse.RawDescriptionHelpFormatter)
    words.add_argument("--pictures", type=int, default=100_000)
    words.add_argument("--catalogue")
    asked = words.parse_args()
    with tempfile.TemporaryDirectory() as folder:
        name = asked.catalogue or os.path.join(folder, "catalogue")
        if not os.path.exists(name):
            make(name, asked.pictures)
        with Catalogue(name) as catalogue:
            count = int(next(catalogue.rows("SELECT count(*) FROM pictures"))[0])
        print(f"{count:,} pictures, {os.path.getsize(name) / 1e6:.0f} MB\n\n| Question | s for a million | MB | Lines |\n|---|---|---|---|")
        for question in QUESTIONS:
            used, memory, lines = measured(["list", name, *question])
            print(f"| {' '.join(question)} | {used * 1e6 / count:.2f} | {memory:.0f} | {lines:,} |", flush=True)


if __name__ == "__main__":
    main()
