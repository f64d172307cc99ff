#!/usr/bin/env python3
"""Writes the known blocks into a folder, a file each, for a fuzzer to begin with (docs/FUZZING.md).

  tests/library/fuzz.py FOLDER
"""

import json
import struct
import sys
from pathlib import Path

TESTS = Path(__file__).resolve().parent.parent
sys.path[:0] = [str(TESTS / "blocks")]

from blocks import Blocks  # noqa: E402 (it is found only now)
from kinds import small_kinds
from small_packets import small_packets

LONGEST = 4096  # longer blocks take longer, and show little more


def known_blocks():
    """The blocks of the cases and of every kind that are not too long, and packets of XMP, each once, the records first."""
    with (TESTS / "program" / "cases" / "blocks.json").open(encoding="utf-8") as it:
        named = Blocks(json.load(it)["blocks"])
    found = [named.bytes_of(name) for name in named.spelled]
    found += [block for kind in small_kinds() for block in (*kind.blocks, kind.meaning.normal())]
    found += small_packets()
    short = dict.fromkeys(it for it in found if 0 < len(it) <= LONGEST)
    return sorted(short, key=lambda it: it[:1] != b"\x1c")


def write_corpus(path):
    """The known blocks in one file, as fuzz.c reads them."""
    with Path(path).open("wb") as it:
        it.writelines(struct.pack("<I", len(block)) + block for block in known_blocks())


def write_files(folder):
    """The known blocks, a file each."""
    Path(folder).mkdir(parents=True, exist_ok=True)
    for at, block in enumerate(known_blocks()):
        Path(folder, f"known-{at:04}").write_bytes(block)


if __name__ == "__main__":
    if len(sys.argv) != 2:
        sys.exit(__doc__)
    write_files(sys.argv[1])
