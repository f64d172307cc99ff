"""Times the values of whole JPEGs: `dict(exifnorm.read(..))`, which has Exif, IPTC and XMP, beside the Exif alone of Pillow and exifread.

    python3 bench/python/reading.py FOLDER

Each round reads all files by each library in turn; a time is the processor's, the least of all rounds. A file that one of them can't read is left
out. exifread is left out if it isn't installed (Debian: python3-exifread). The time of the import is that of a new process, without Python's own.
"""

from __future__ import annotations

import contextlib
import subprocess
import sys
import time
import warnings
from pathlib import Path
from typing import Callable, Dict, List

import exifnorm
from PIL import Image

ROUNDS = 5
IMPORTS = {
    "exifnorm": "import exifnorm",
    "exifnorm.read": "import exifnorm; exifnorm.read",
    "Pillow": "from PIL import Image",
    "exifread": "import exifread",
}


def by_pillow(path: str) -> object:
    """The fields of the three directories."""
    with Image.open(path) as image:
        exif = image.getexif()
        return [dict(exif), *(dict(exif.get_ifd(it)) for it in (0x8769, 0x8825, 0xA005))]


READERS: Dict[str, Callable[[str], object]] = {
    "exifnorm": lambda path: dict(exifnorm.read(path)),
    "exifnorm, read alone": exifnorm.read,
    "Pillow": by_pillow,
}
with contextlib.suppress(ImportError):
    import exifread

    def by_exifread(path: str) -> object:
        """The fields without those of MakerNotes."""
        with open(path, "rb") as file:
            return exifread.process_file(file, details=False)

    READERS["exifread"] = by_exifread


def is_read(path: str) -> bool:
    """Whether all libraries read some field."""
    try:
        return all([read(path) for name, read in READERS.items()])
    except Exception:
        return False


def least(read: Callable[[str], object], paths: List[str]) -> float:
    """The time of the processor for all files."""
    began = time.process_time()
    for path in paths:
        read(path)
    return time.process_time() - began


def main(folder: str) -> None:
    """Prints the table."""
    warnings.simplefilter("ignore")
    paths = [str(it) for it in sorted(Path(folder).rglob("*.jp*g")) if it.stat().st_size < 1 << 20 and is_read(str(it))]
    fields = sum(len(exifnorm.read(it)) for it in paths) / len(paths)
    print(f"{len(paths)} files of {fields:.0f} fields")
    rounds = [{name: least(read, paths) for name, read in READERS.items()} for _ in range(ROUNDS)]
    for name in READERS:
        print(f"{name}: {min(it[name] for it in rounds) / len(paths) * 1000:.2f} ms a file")
    for name, code in IMPORTS.items():
        words = f"import sys, time; own = set(sys.modules); began = time.process_time(); {code}; print(time.process_time() - began, len({{*sys.modules}} - own))"
        pipes = {"stdout": subprocess.PIPE, "stderr": subprocess.DEVNULL}
        runs = [subprocess.run([sys.executable, "-c", words], text=True, **pipes).stdout.split() for _ in range(ROUNDS)]
        if all(runs):
            print(f"import of {name}: {min(float(it[0]) for it in runs) * 1000:.0f} ms, {runs[0][1]} modules")


if __name__ == "__main__":
    main(sys.argv[1])
