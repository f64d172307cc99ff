#!/usr/bin/env python3
"""Makes the source distribution of the Python packages, which compiles the library from C source: FOLDER/exifnorm-VERSION.tar.gz.

  packaging/sdist.py C SECONDS FOLDER

C is the folder that packaging/c_source.py made. SECONDS is the time of the files since 1970.
"""

from __future__ import annotations

import shutil
import sys
import tempfile
import tomllib
from pathlib import Path

TOP = Path(__file__).resolve().parent.parent
sys.dont_write_bytecode = True

import c_source
from dist_info import metadata

PYTHON, SOURCES = TOP / "python", TOP / "packaging" / "sdist"
IN_C = ("exifnorm.c", "machine.h", "module.c", "exifnorm.h")
KEPT = {".py", ".c", ".h", ".json", ".typed", ".html", ".css"}  # the suffixes of the packages' files


def copy(source: Path, target: Path) -> None:
    """Copies a file into a folder that may have to be created."""
    target.parent.mkdir(parents=True, exist_ok=True)
    shutil.copyfile(source, target)


def put(in_c: Path, folder: Path) -> None:
    """Writes the files into a folder."""
    for package in ("exifnorm", "exifnorm_pictures"):
        for file in sorted((PYTHON / package).rglob("*")):
            if file.suffix in KEPT:
                copy(file, folder / file.relative_to(PYTHON))
    for name in ("pyproject.toml", "README.md", "LICENSE-APACHE", "LICENSE-MIT"):
        copy(PYTHON / name, folder / name)
    for name in IN_C:
        copy(in_c / name, folder / "c" / name)
    copy(SOURCES / "in_c.c", folder / "c" / "in_c.c")
    copy(SOURCES / "setup_in_c.py", folder / "setup.py")
    (folder / "PKG-INFO").write_text(metadata(PYTHON), encoding="utf-8")


def make(in_c: Path, seconds: int, target: Path) -> Path:
    """Makes the distribution in a folder."""
    version = tomllib.loads((PYTHON / "pyproject.toml").read_text(encoding="utf-8"))["project"]["version"]
    target.mkdir(parents=True, exist_ok=True)
    with tempfile.TemporaryDirectory(dir=target) as making:
        folder = Path(making, f"exifnorm-{version}")
        put(in_c, folder)
        return c_source.archive(folder, seconds).replace(target / f"{folder.name}.tar.gz")


def main(words: list[str]) -> None:
    if len(words) != 3:
        sys.exit(__doc__)
    print(f"sdist: {make(Path(words[0]), int(words[1]), Path(words[2])).name}")


if __name__ == "__main__":
    main(sys.argv[1:])
