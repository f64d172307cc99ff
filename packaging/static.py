#!/usr/bin/env python3
"""Packs the programs without libraries, one for each machine: FOLDER/exifnorm-VERSION-static-MACHINE.tar.gz.

  packaging/static.py VERSION SECONDS FOLDER

FOLDER has the programs, as exifnorm-MACHINE, which `make static` has linked. SECONDS is the time of the files since 1970. Each archive has
blocks to try, and what is needed to link the program with another C library, as the licence of glibc requires.
"""

from __future__ import annotations

import os
import shutil
import sys
import tempfile
from pathlib import Path

TOP = Path(__file__).resolve().parent.parent
sys.dont_write_bytecode = True
sys.path.insert(0, str(TOP / "python"))
os.environ["EXIFNORM_LIBRARY"] = str(TOP / "out" / "lib" / "libexifnorm.so.1")

import c_source
import components
import exifnorm

SOURCES = TOP / "packaging" / "static"
COMPILERS = {"x86_64": "cc", "aarch64": "aarch64-linux-gnu-gcc"}
LICENCE = Path("/usr/share/common-licenses/LGPL-2.1")  # Debian's base-files has it
SAMPLES = {
    "one.exif": ("before/ceramics/1998-7-vase.jpg", "exif"),
    "other.exif": ("after/ceramics/1998-7-vase.jpg", "exif"),
    "caption.iim": ("before/ceramics/2003-12-bowl.jpg", "iptc"),
    "broken.exif": ("before/arrivals/IMG_20240502.jpg", "exif"),
}


def block(picture: str, kind: str) -> bytes:
    """The first block of a kind in a sample picture."""
    blocks = exifnorm.jpeg_blocks((TOP / "samples" / picture).read_bytes())
    return next(data for found, data in blocks if found == kind)


def put(folder: Path, version: str, machine: str, program: Path) -> None:
    """Writes the files of a machine's archive into a folder."""
    shutil.copy2(program, folder / "exifnorm")
    text = (SOURCES / "README").read_text(encoding="utf-8")
    glibc, gcc = components.c_versions(COMPILERS[machine])
    for name, value in (("VERSION", version), ("MACHINE", machine), ("GLIBC", glibc), ("GCC", gcc)):
        text = text.replace(f"@{name}@", value)
    (folder / "README").write_text(text, encoding="utf-8")
    for file in (TOP / "docs" / "exifnorm.1", TOP / "LICENSE-APACHE", TOP / "LICENSE-MIT"):
        shutil.copyfile(file, folder / file.name)
    (folder / "samples").mkdir()
    for name, (picture, kind) in SAMPLES.items():
        (folder / "samples" / name).write_bytes(block(picture, kind))
    (folder / "relink").mkdir()
    program_object = TOP / "out" / machine / "program.o"
    for file in (program_object, *(TOP / "packaging" / name for name in ("os.c", "heap.c")), SOURCES / "Makefile", LICENCE):
        shutil.copyfile(file, folder / "relink" / file.name)


def main(words: list[str]) -> None:
    if len(words) != 3:
        sys.exit(__doc__)
    version, seconds, target = words[0], int(words[1]), Path(words[2])
    for machine in COMPILERS:
        with tempfile.TemporaryDirectory(dir=target) as making:
            folder = Path(making, f"exifnorm-{version}-static-{machine}")
            folder.mkdir()
            put(folder, version, machine, target / f"exifnorm-{machine}")
            packed = c_source.archive(folder, seconds)
            packed.replace(target / packed.name)
            print(f"static: {packed.name}")


if __name__ == "__main__":
    main(sys.argv[1:])
