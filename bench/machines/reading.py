#!/usr/bin/env python3
"""Times what `read` of the JavaScript package takes for a picture, beside exifnorm_pictures and exifr.

  bench/machines/reading.py PACKAGE FOLDER [--exifr FOLDER] [--rounds N]

PACKAGE is the folder of the JavaScript package, unpacked, FOLDER has JPEGs, and that of --exifr is
node_modules/exifr. Each round times every reader once over all pictures, which are in memory; a
time is the least of all rounds.
"""

import argparse
import subprocess
import sys
import time
from pathlib import Path
from typing import Dict, List

HERE = Path(__file__).resolve().parent
sys.path[:0] = [str(HERE.parent.parent / "python")]

import exifnorm


def of_python(pictures: List[bytes]) -> float:
    """The milliseconds a picture of exifnorm_pictures, with all fields and captions."""
    began = time.perf_counter()
    for octets in pictures:
        try:
            picture = exifnorm.read_bytes(octets)
        except (exifnorm.NoPicture, exifnorm.NotReadable):
            continue
        assert [it.text for it in picture.fields] is not picture.captions
    return 1000 * (time.perf_counter() - began) / len(pictures)


def of_node(package: str, name: str, folder: str) -> float:
    words = ["node", str(HERE / "reading.mjs"), package, name, folder]
    return float(subprocess.run(words, stdout=subprocess.PIPE, check=True).stdout)


def main() -> None:
    parser = argparse.ArgumentParser()
    parser.add_argument("package")
    parser.add_argument("folder")
    parser.add_argument("--exifr", default="")
    parser.add_argument("--rounds", type=int, default=5)
    given = parser.parse_args()
    paths = [it for it in Path(given.folder).iterdir() if it.suffix.lower() in (".jpg", ".jpeg")]
    pictures = [it.read_bytes() for it in sorted(paths)]
    readers = {"exifnorm_pictures": lambda: of_python(pictures)}
    readers["exifnorm in node"] = lambda: of_node(given.package, "exifnorm", given.folder)
    if given.exifr:
        readers["exifr in node"] = lambda: of_node(given.exifr, "exifr", given.folder)
    least: Dict[str, float] = {}
    for _ in range(given.rounds):
        for name, call in readers.items():
            least[name] = min(call(), least.get(name, float("inf")))
    for name, spent in least.items():
        print(f"{name}: {spent:.2f} ms a picture, {len(pictures)} pictures")


if __name__ == "__main__":
    main()
