"""Small mistakes in JavaScript: one token of a line is another one."""

from __future__ import annotations

import re
from itertools import accumulate
from pathlib import Path
from typing import Dict, Iterator, List

from mistakes import Mistake

# What is skipped: comments, texts, and expressions of characters; then the tokens that can be others
TOKENS = re.compile(
    rb"//[^\n]*|/\*.*?\*/|`(?:\\.|[^`\\])*`|'(?:\\.|[^'\\\n])*'|\"(?:\\.|[^\"\\\n])*\""
    rb"|(?<=[(=,:&|!?] )/(?:\\.|[^/\\\n])+/|(?<=[(=,:!])/(?:\\.|[^/\\\n])+/"
    rb"|(?P<token>===|!==|<=|>=|&&|\|\||=>|\+\+|--|<<|>>|[<>+*%-](?!=)|(?<![\w.])\d+(?![\w.])|\b(?:true|false|continue|break)\b)",
    re.S,
)
SWAPPED: Dict[bytes, bytes] = {
    b"===": b"!==",
    b"<": b"<=",
    b">": b">=",
    b"&&": b"||",
    b"+": b"-",
    b"*": b"+",
    b"true": b"false",
    b"continue": b"break",
}
SWAPPED.update({new: old for old, new in SWAPPED.items() if old not in (b"*",)})


def tokens(source: bytes) -> Iterator[re.Match[bytes]]:
    """The tokens that can be others."""
    return (it for it in TOKENS.finditer(source) if it["token"] and (it["token"].isdigit() or it["token"] in SWAPPED))


def lines(source: bytes) -> List[int]:
    """The lines with such tokens."""
    return sorted({source[: it.start()].count(b"\n") + 1 for it in tokens(source)})


def mistakes(path: Path, source: bytes, line: int) -> List[Mistake]:
    """The mistakes in a line."""
    starts = [0, *accumulate(map(len, source.splitlines(keepends=True)))]
    found = [it for it in tokens(source) if starts[line - 1] <= it.start() < starts[line]]
    words = [(it, str(int(it["token"]) + 1).encode() if it["token"].isdigit() else SWAPPED[it["token"]]) for it in found]
    return [Mistake(path, range(line, line + 1), slice(*it.span()), word.decode(), set()) for it, word in words]
