#!/usr/bin/env python3
"""What `changed` costs over another tree of these sources, such as a checkout of an earlier commit, if every picture got the same edit, but for
three in two hundred, whose captions became each another one.

  bench/pictures/edits.py LIBRARY TREE [--pictures 10000 200000] [--rounds 3]

LIBRARY is a folder such as out/lib, which both use. It prints the instructions for each further picture, which Valgrind counts and which hardly
depend on the machine, and for catalogues of so many pictures, whose rows are copies with other names, the processor time and the most memory:
the median of the ratios of so many rounds, in each of which both trees have a turn.
"""

import argparse
import os
import sqlite3
import statistics
import tempfile
from contextlib import closing
from pathlib import Path
from typing import Tuple

from commands import cost
from over import TOP, Tree, data_set, made

MADE, FEW = 1000, 200  # pictures that are indexed, and those of the smaller catalogue whose instructions are counted
COPIES = """
INSERT INTO pictures SELECT {pictures} FROM pictures, (WITH RECURSIVE copies (number) AS (VALUES (1) UNION ALL SELECT number + 1 FROM copies
    LIMIT {times} - 1) SELECT number FROM copies WHERE {times} > 1);
INSERT INTO blocks SELECT {blocks} FROM pictures JOIN blocks ON picture = 1 + (pictures.id - 1) % {made} WHERE pictures.id > {made};
DELETE FROM pictures WHERE id > {pictures_left};
"""


def make(folder: Path) -> None:
    """The pictures before and after."""
    for number in range(MADE):
        before = f"Plate {number}: the market, {1700 + number % 300}, signed on the back"
        after = {77: "", 120: f"Plate {number + 1}: the harbour", 163: before.replace("1", "2")}.get(number % 200, before + ", recto")
        for side, text in (("before", before), ("after", after)):
            path = folder / side / f"{number:04}.jpg"
            path.parent.mkdir(parents=True, exist_ok=True)
            path.write_bytes(made.jpeg(made.app13(made.resource(0x0404, data_set(120, text)))))


def grow(catalogue: Path, pictures: int) -> None:
    """Makes a catalogue have so many pictures."""
    with closing(sqlite3.connect(catalogue)) as base, base:
        columns = {table: [row[1] for row in base.execute(f"PRAGMA table_info({table})")] for table in ("pictures", "blocks")}
        others = {"id": f"id + number * {MADE}", "path": "CAST(path || '.' || number AS BLOB)", "inode": "-id - number * 1000"}
        base.executescript(
            COPIES.format(
                pictures=", ".join(others.get(it, it) for it in columns["pictures"]),
                blocks=", ".join("pictures.id" if it == "picture" else f"blocks.{it}" for it in columns["blocks"]),
                times=-(-pictures // MADE),
                made=MADE,
                pictures_left=pictures,
            )
        )


def indexed(tree: Tree, folder: Path, pictures: int) -> Tuple[str, str]:
    """The catalogues of both states, with so many pictures."""
    names = []
    for side in ("before", "after"):
        names.append(f"{side}.{pictures}")
        tree.run("index", str(folder / side), "--catalogue", names[-1], "--quiet", "--jobs", "1")
        grow(tree.folder / names[-1], pictures)
    return names[0], names[1]


def used(tree: Tree, words: str) -> Tuple[float, int]:
    """The seconds of a processor and the MB that a command takes."""
    return cost(tree.folder, words, {**os.environ, "PYTHONPATH": str(tree.folder / "python")})


def main() -> None:
    """Measures and prints."""
    parser = argparse.ArgumentParser(description=__doc__, formatter_class=argparse.RawDescriptionHelpFormatter)
    parser.add_argument("library", type=Path)
    parser.add_argument("tree", type=Path)
    parser.add_argument("--pictures", type=int, nargs="*", default=[10_000, 200_000])
    parser.add_argument("--rounds", type=int, default=3)
    arguments = parser.parse_args()
    os.environ["EXIFNORM_LIBRARY"] = str(arguments.library.resolve() / "libexifnorm.so.1")
    with tempfile.TemporaryDirectory() as name:
        folder = Path(name)
        make(folder)
        trees = Tree(arguments.tree.resolve(), folder / "other"), Tree(TOP, folder / "this")
        counts = [[it.instructions("changed", *indexed(it, folder, pictures)) for pictures in (FEW, MADE)] for it in trees]
        other, this = ((many - few) / (MADE - FEW) for few, many in counts)
        print(f"instructions for each further picture: {this / other:.3f} ({this / 1e6:.2f} over {other / 1e6:.2f} million)")
        for pictures in arguments.pictures:
            words = [f"changed {' '.join(indexed(it, folder, pictures))}" for it in trees]
            rounds = [[used(*it) for it in zip(trees, words)] for _ in range(arguments.rounds)]
            ratio = statistics.median(this_time / other_time for (other_time, _), (this_time, _) in rounds)
            (other_time, other_memory), (this_time, memory) = (map(max, zip(*of_tree)) for of_tree in zip(*rounds))
            print(f"{pictures:,} pictures: {ratio:.2f}; at most {this_time:.1f} s, {memory} MB over {other_time:.1f} s, {other_memory} MB")


if __name__ == "__main__":
    main()
