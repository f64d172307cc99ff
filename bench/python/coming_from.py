#!/usr/bin/env python3
"""Runs the lines of docs/PYTHON.md, "Coming from another library", of libraries that Debian lacks.

    python3 bench/python/coming_from.py

pip installs pyexiv2 and ExifRead into a temporary folder, from the index that it is set up for. Each
line of theirs is printed with its value, and then the lines that take its place. The status is 1 if
no value of these is the same text. exifr's line is JavaScript, and isn't run.
"""

from __future__ import annotations

import re
import subprocess
import sys
import tempfile
from importlib import import_module
from pathlib import Path
from typing import Dict, Iterator, List, Tuple

import exifnorm

TOP = Path(__file__).resolve().parents[2]
PICTURE = TOP / "samples" / "before" / "ceramics" / "2003-12-bowl.jpg"
PACKAGES = {"pyexiv2": "pyexiv2", "exifread": "ExifRead"}


def rows() -> Iterator[Tuple[str, str, List[str]]]:
    """The library of each row of the table, its line, and the lines that take its place."""
    for line in (TOP / "docs" / "PYTHON.md").read_text("utf-8").splitlines():
        library, *cells = [it.strip() for it in line.strip("|").split("|")]
        if library in PACKAGES and len(cells) == 2:
            theirs, *ours = re.findall(r"`([^`]+)`", " ".join(cells))
            ours = [f"exifnorm.read(file){it}" if it.startswith(".") else it for it in ours]
            yield library, theirs, ours


def value_of(line: str, library: str) -> str:
    """What a line makes of the picture, as a text."""
    with open(PICTURE, "rb") as file:
        names: Dict[str, object] = {"exifnorm": exifnorm, library: import_module(library)}
        return str(eval(line, {**names, "path": str(PICTURE), "file": file}))


def main() -> int:
    """Prints the lines with their values."""
    status = 0
    with tempfile.TemporaryDirectory() as folder:
        words = ["pip", "install", "--quiet", "--target", folder, *PACKAGES.values()]
        subprocess.run([sys.executable, "-m", *words], check=True)
        sys.path.insert(0, folder)
        for library, theirs, ours in rows():
            expected = value_of(theirs, library)
            found = {line: value_of(line, library) for line in ours}
            print(f"{theirs}: {expected}", *(f"  {line}: {it}" for line, it in found.items()), sep="\n")
            status |= expected not in found.values()
    return status


if __name__ == "__main__":
    sys.exit(main())
