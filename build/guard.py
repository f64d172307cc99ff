#!/usr/bin/env python3
"""Refuses what was compiled without proofs. All that installs, packages or tests the program or the library calls this first.

  build/guard.py FILE ..

The version in such a program, library or archive ends with -unproved: build/quick.py compiles it in. So it is recognised under any
name and in any folder. The status is 1 if a file is refused or can't be read.
"""

from __future__ import annotations

import sys
from pathlib import Path

MARK = "-unproved"


def refused(file: Path) -> str:
    """Why a file is refused; empty if it isn't."""
    try:
        is_proved = MARK.encode() not in file.read_bytes()
    except OSError as why:
        return f"cannot read {file}: {why.strerror}"
    return "" if is_proved else f"{file} was compiled without proofs: remove it, and `make` proves and builds it"


if __name__ == "__main__":
    if len(sys.argv) < 2:
        sys.exit(__doc__)
    faults = [f"exifnorm: {why}" for why in map(refused, map(Path, sys.argv[1:])) if why]
    sys.exit("\n".join(faults) or 0)
