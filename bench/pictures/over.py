#!/usr/bin/env python3
"""What exifnorm-pictures costs over another tree of these sources, such as a checkout of an earlier commit, and prints a table.

  bench/pictures/over.py LIBRARY TREE [--pictures N] [--longest N]
  bench/pictures/over.py LIBRARY TREE --folder FOLDER [--folder FOLDER ..] [--rounds N]
  bench/pictures/over.py LIBRARY TREE --further N [--folder FOLDER]

LIBRARY is a folder such as out/lib, which both use. The instructions, which Valgrind counts, hardly depend on the machine: those of each
command on the samples, and those of `index` on JPEG files that are made here, with captions of up to so many characters in IPTC and XMP. The
size is that of the catalogue of these files, which `catalogue export` writes as tables.

With folders of pictures it is `index` of these alone: its instructions, and its processor time with that of ExifTool, the median of so many
rounds, in each of which both trees have a turn.

With --further it is the export of a catalogue: the instructions for each further one of so many pictures, which are made as run.py makes them, or
are those of a folder.
"""

import argparse
import os
import random
import re
import resource
import shutil
import statistics
import subprocess
import sys
import tempfile
from pathlib import Path
from typing import Dict, Iterator, List, Sequence, Tuple

TOP = Path(__file__).resolve().parent.parent.parent
sys.path[:0] = [str(TOP / "tests" / "pictures"), str(TOP / "tests" / "blocks"), str(TOP / "python")]
sys.dont_write_bytecode = True

import made_files as made
from run import put_pictures

WORDS = "bowl vase celadon glaze museum the of and a with kiln harbour evening portrait market street archive photograph plate 1911".split()
BOWL = "samples/{}/ceramics/2003-12-bowl.jpg"
COMMANDS: Dict[str, List[str]] = {
    "--version": [],
    "show": [BOWL.format("before")],
    "show --captions": [BOWL.format("before")],
    "compare": [BOWL.format("before"), BOWL.format("after")],
    "changed": ["before", "after"],
    "same": ["before"],
    "index": ["samples/before", "--catalogue", "new", "--jobs", "1", "--quiet"],
}


def prose(chosen: random.Random, length: int) -> str:
    """Words, of so many characters together."""
    text = ""
    while len(text) < length:
        text += chosen.choice(WORDS) + " "
    return text[:length].strip()


def data_set(number: int, text: str) -> bytes:
    """A DataSet of record 2."""
    return b"\x1c\x02" + bytes([number]) + len(text).to_bytes(2, "big") + text.encode("ascii")


def make_pictures(folder: Path, count: int, longest: int) -> None:
    """JPEG files with a caption, a title, a name and keywords; the same ones each time."""
    chosen = random.Random(1)
    folder.mkdir()
    for number in range(count):
        caption, keywords = prose(chosen, chosen.randrange(20, longest)), sorted(chosen.sample(WORDS, 5))
        record = data_set(5, f"1998.{number}") + data_set(120, caption) + data_set(80, prose(chosen, 20))
        record += b"".join(data_set(25, it) for it in keywords)
        exif = made.app1(made.exif(bytes(chosen.randrange(65, 90) for _ in range(3))))
        picture = made.jpeg(exif, made.app1_xmp(made.title(caption)), made.app13(made.resource(0x0404, record)))
        (folder / f"{number:05}.jpg").write_bytes(picture)


class Tree:
    """A tree of the sources, whose modules are compiled in a folder."""

    def __init__(self, top: Path, folder: Path) -> None:
        self.folder = folder
        folder.mkdir()
        shutil.copytree(top / "python", folder / "python", ignore=shutil.ignore_patterns("__pycache__"))
        (folder / "samples").symlink_to(TOP / "samples")
        for side in ("before", "after"):
            self.run("index", f"samples/{side}", "--catalogue", side, "--quiet")

    def run(self, *words: str, before: Sequence[str] = ()) -> str:
        """What a command prints on standard error."""
        more = {"PYTHONPATH": str(self.folder / "python"), "PYTHONHASHSEED": "0"}
        called = [*before, sys.executable, "-m", "exifnorm_pictures", *words]
        done = subprocess.run(called, cwd=self.folder, env={**os.environ, **more}, capture_output=True, text=True, check=False)
        if done.returncode not in (0, 1, 2):
            raise SystemExit(f"{' '.join(words)}: status {done.returncode}: {done.stderr[-1000:]}")
        return done.stderr

    def instructions(self, *words: str, makes: str = "new") -> int:
        """The instructions of a command, whose modules are compiled; it makes a file anew, such as a catalogue."""
        for _ in range(2):
            (self.folder / makes).unlink(missing_ok=True)
            told = self.run(
                *words, before=["valgrind", "--tool=cachegrind", "--cache-sim=no", "--cachegrind-out-file=/dev/null"] if _ else []
            )
        return int(re.findall(r"I\s+refs:\s+([\d,]+)", told)[0].replace(",", ""))

    def milliseconds(self, *words: str) -> int:
        """The processor time of a command and of the programs that it starts; it makes a catalogue anew."""
        (self.folder / "new").unlink(missing_ok=True)
        before = resource.getrusage(resource.RUSAGE_CHILDREN)
        self.run(*words)
        after = resource.getrusage(resource.RUSAGE_CHILDREN)
        return round(1000 * (after.ru_utime - before.ru_utime + after.ru_stime - before.ru_stime))


def rows_of_folder(trees: Tuple[Tree, Tree], pictures: Path, rounds: int) -> Iterator[Tuple[str, int, int]]:
    """What was measured of `index` on a folder of pictures, in the other tree and in this one."""
    words = ["index", str(pictures.resolve()), "--catalogue", "new", "--jobs", "1", "--quiet"]
    other, this = [it.instructions(*words) for it in trees]
    yield f"instructions of `index {pictures.name}`", other, this
    times = zip(*([it.milliseconds(*words) for it in trees] for _ in range(rounds)))
    other, this = [round(statistics.median(it)) for it in times]
    yield f"milliseconds of `index {pictures.name}`", other, this


def export_of(tree: Tree, pictures: Path, count: int) -> float:
    """The instructions of the export for each further one of so many pictures: without those for the first half of them."""
    older = (tree.folder / "python" / "exifnorm_pictures" / "export" / "tables.py").exists()  # whose command was none of `catalogue`
    costs = []
    for number in (count // 2, count):
        half = Path(f"{pictures}{number}")
        if not half.exists():
            put_pictures(str(half), number, str(pictures) if pictures.exists() else "")
        (tree.folder / "catalogue").unlink(missing_ok=True)
        tree.run("index", str(half), "--catalogue", "catalogue", "--jobs", "1", "--quiet")
        words = ["export", "catalogue", "tables", "--no-look", "--quiet"]
        costs.append(tree.instructions(*words if older else ["catalogue", *words], makes="tables"))
    return (costs[1] - costs[0]) / (count - count // 2)


def rows_of_export(trees: Tuple[Tree, Tree], folder: Path, count: int, named: Sequence[Path]) -> Iterator[Tuple[str, int, int]]:
    """What was measured of exports, in the other tree and in this one."""
    if named:
        put_pictures(str(folder / "pictures"), count, str(named[0]))
    other, this = [round(export_of(it, folder / "pictures", count)) for it in trees]
    yield f"instructions of the export for each further one of {count:,} pictures", other, this


def rows(trees: Tuple[Tree, Tree], folder: Path, count: int, longest: int) -> Iterator[Tuple[str, int, int]]:
    """What was measured, in the other tree and in this one."""
    for command, words in COMMANDS.items():
        yield (f"instructions of `{command}` on samples", *(it.instructions(*command.split(), *words) for it in trees))
    for name, most in (("short", 60), ("long", longest)):
        make_pictures(folder / name, count, most)
        words = ["index", str(folder / name), "--catalogue", "new", "--jobs", "1", "--quiet"]
        what = f"{count} JPEG files with captions of up to {most:,} characters"
        yield (f"instructions of `index`, {what}", *(it.instructions(*words) for it in trees))
        yield (f"bytes of their catalogue, {what}", *((it.folder / "new").stat().st_size for it in trees))
        words = ["catalogue", "export", "new", "tables", "--no-look", "--quiet"]
        yield (f"instructions of `catalogue export` of their catalogue, {what}", *(it.instructions(*words, makes="tables") for it in trees))


def main() -> None:
    """Measures and prints."""
    words = argparse.ArgumentParser(description=__doc__, formatter_class=argparse.RawDescriptionHelpFormatter)
    words.add_argument("library", type=Path)
    words.add_argument("tree", type=Path)
    words.add_argument("--pictures", type=int, default=500)
    words.add_argument("--longest", type=int, default=1900)
    words.add_argument("--folder", type=Path, action="append", default=[])
    words.add_argument("--further", type=int, default=0)
    words.add_argument("--rounds", type=int, default=15)
    asked = words.parse_args()
    os.environ["EXIFNORM_LIBRARY"] = str((asked.library / "libexifnorm.so.1").resolve())
    os.environ.pop("PYTHONDONTWRITEBYTECODE", None)
    with tempfile.TemporaryDirectory() as name:
        folder = Path(name)
        trees = Tree(asked.tree.resolve(), folder / "other"), Tree(TOP, folder / "this")
        print("| Measured | The other tree | This one | Ratio |\n|---|---|---|---|", flush=True)
        measured = rows(trees, folder, asked.pictures, asked.longest)
        if asked.further:
            measured = rows_of_export(trees, folder, asked.further, asked.folder)
        elif asked.folder:
            measured = (row for it in asked.folder for row in rows_of_folder(trees, it, asked.rounds))
        for what, other, this in measured:
            print(f"| {what} | {other:,} | {this:,} | {this / other:.3f} |", flush=True)


if __name__ == "__main__":
    main()
