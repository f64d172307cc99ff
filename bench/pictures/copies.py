#!/usr/bin/env python3
"""What `same --csv` costs over another tree of these sources, such as a checkout of an earlier
commit, if each picture is there twice.

  bench/pictures/copies.py LIBRARY TREE [--pictures N]

LIBRARY is a folder such as out/lib, which both use. The files are indexed with --pixels: once the
two of a pair have the same comment, and once each has another one. It prints the instructions for
each further picture between a fifth of the pictures and all, which Valgrind counts and which hardly
depend on the machine.
"""

import argparse
import os
import tempfile
from pathlib import Path

from over import TOP, Tree, data_set, made


def make(folder: Path, count: int, has_own_comments: bool) -> None:
    """So many files, each with an equal picture in another folder."""
    for number in range(count):
        pair, side = divmod(number, 2)
        record = made.resource(0x0404, data_set(120, f"Plate {pair}: the market"))
        comment = b"comment %d" % (number if has_own_comments else pair)
        path = folder / f"{side}" / f"{pair:05}.jpg"
        path.parent.mkdir(parents=True, exist_ok=True)
        blocks = made.app1(made.exif(b"abc")), made.app13(record)
        path.write_bytes(made.jpeg(made.segment(0xFE, comment), *blocks))


def main() -> None:
    """Measures and prints."""
    parser = argparse.ArgumentParser(description=__doc__, formatter_class=argparse.RawDescriptionHelpFormatter)
    parser.add_argument("library", type=Path)
    parser.add_argument("tree", type=Path)
    parser.add_argument("--pictures", type=int, default=1000)
    asked = parser.parse_args()
    os.environ["EXIFNORM_LIBRARY"] = str((asked.library / "libexifnorm.so.1").resolve())
    os.environ.pop("PYTHONDONTWRITEBYTECODE", None)
    with tempfile.TemporaryDirectory() as name:
        folder = Path(name)
        trees = Tree(asked.tree.resolve(), folder / "other"), Tree(TOP, folder / "this")
        for what, has_own_comments in (("equal comments", False), ("other comments", True)):
            counts: "list[list[int]]" = [[], []]
            for count in (asked.pictures // 5, asked.pictures):
                pictures = folder / f"{what} {count}"
                make(pictures, count, has_own_comments)
                for tree, ours in zip(trees, counts):
                    words = ("--catalogue", pictures.name, "--pixels", "--quiet", "--jobs", "1")
                    tree.run("index", str(pictures), *words)
                    ours.append(tree.instructions("same", pictures.name, "--csv"))
            further = asked.pictures - asked.pictures // 5
            other, this = ((many - few) / further for few, many in counts)
            figures = f"{this / 1000:.0f} over {other / 1000:.0f} thousand"
            print(f"{what}: {this / other:.2f} ({figures} for each further picture)", flush=True)


if __name__ == "__main__":
    main()
