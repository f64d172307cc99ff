#!/usr/bin/env python3
"""Prints the worked cases of cases/*.json as lines for a program that calls the C library: a name, a call, its blocks, and what is expected,
in hexadecimal; a hyphen if there are no bytes. packaging/c/cases.c runs them.

Cases of arguments, files and streams are left out, and those with a block or a result of more than 20,000 bytes.
"""

from __future__ import annotations

import sys
from pathlib import Path
from typing import Any, Iterator

HERE = Path(__file__).resolve().parent
sys.dont_write_bytecode = True
sys.path[:0] = [str(HERE), str(HERE.parent / "blocks")]

from cases import Case, read_all

MOST = 20_000
CALLS = ("check", "show", "captions", "normalise", "compare")


def blocks_of(case: Case) -> list[bytes]:
    """The blocks of a case, in the order of the call; none if they are no plain bytes."""
    if not case.words:
        return [] if case.input_from or case.in_pieces or case.endless else [case.input]
    names = case.words[1 : 3 if case.words[0] == "compare" else 2]
    return [case.files[name] for name in names] if all(name in case.files for name in names) else []


def expected(case: Case) -> Any:
    """What the call writes, or its line; None if that isn't fixed."""
    if case.status == 0 and case.words[:1] == ["normalise"]:
        return case.left.get(case.out)
    return case.output


def line(case: Case) -> str:
    """The line of a case, or an empty text."""
    call = case.words[0] if case.words else "normalise"
    if call not in CALLS or case.status not in (0, 1, 2) or case.output_to or case.folders:
        return ""
    blocks, result = blocks_of(case), expected(case)
    if not blocks or result is None or max(map(len, [*blocks, result])) > MOST:
        return ""
    return " ".join([case.name.replace(" ", "_"), call, *(octets.hex() or "-" for octets in [*blocks, result])]) + "\n"


def lines() -> Iterator[str]:
    """The lines of all cases."""
    return filter(None, (line(case) for case in read_all() if isinstance(case, Case)))


if __name__ == "__main__":
    sys.stdout.writelines(lines())
