"""Changed sources: texts of a file are replaced, or a function gets a sibling."""

from __future__ import annotations

import re
from typing import Sequence

WHOLE = r"^(?P<indent> *)(?P<attributes>(?:#\[[^\n]*\n *)*)(?P<head>(?:pub(?:\(\w+\))? )?(?:extern \"C\" )?fn ){}\b(?P<rest>.*?\n(?P=indent)\}}\n)"


class Misspelled(Exception):
    """A table is not as it must be."""


def changed(text: str, changes: Sequence[Sequence[str]]) -> str:
    """A text in which others are replaced in turn. Each old one must be there once."""
    for old, new in changes:
        if text.count(old) != 1 or old == new:
            raise Misspelled(f"{old!r} is there {text.count(old)} times, or is not changed")
        text = text.replace(old, new)
    return text


def of_clauses(contract: str, clauses: Sequence[str]) -> str:
    """A contract with no `ensures` but those of these clauses.

    >>> of_clauses("fn f() -> u8\\n    ensures low { result < 9 }\\n    ensures odd { IsOdd result }\\n", ["odd"])
    'fn f() -> u8\\n    ensures odd { IsOdd result }'
    """
    parts = re.split(r"^(?= *(?:requires|ensures)\b)", contract, flags=re.M)
    heads = [re.match(r" *ensures (\w*)", it) for it in parts]
    if lacking := {*clauses} - {it[1] for it in heads if it}:
        raise Misspelled(f"the contract has no clauses {sorted(lacking)}")
    return "".join(part for part, head in zip(parts, heads) if not head or head[1] in clauses).rstrip("\n")


def with_sibling(
    text: str, name: str, number: int, changes: Sequence[Sequence[str]] = (), body: str = "", clauses: Sequence[str] = ()
) -> str:
    """A source in which a function is followed by another one like it: with its attributes, parameters and contract, and with a number in
    its name. The other one has a body of its own, or the changed one. If clauses are given, its contract ensures these alone. It is in no
    cycle of calls.

    >>> half = "pub fn half(n: u8) -> u8\\n    ensures { result ≡ n / 2 }\\n{\\n    n / 2\\n}\\n"
    >>> with_sibling(half, "half", 3, body="half(n) + 1").replace(half, "")
    '\\npub fn half_3(n: u8) -> u8\\n    ensures { result ≡ n / 2 }\\n{\\n    half(n) + 1\\n}\\n'
    >>> with_sibling(half, "half", 4, [["    n / 2", "    n / 3"]]) == half + "\\n" + half.replace("half", "half_4").replace("    n / 2", "    n / 3")
    True
    """
    found = [it for it in re.finditer(WHOLE.format(name), text, re.M | re.S) if all(old in it[0] for old, _ in changes[:1])]
    if len(found) != 1:
        raise Misspelled(f"{len(found)} functions {name} have the text to be replaced")
    it = found[0]
    contract, begin, code = changed(it["rest"], changes).partition(f"\n{it['indent']}{{\n")
    if (body or clauses) and not begin:
        raise Misspelled(f"{name} has no contract")
    if clauses:
        contract = of_clauses(contract, clauses)
    if body:
        code = f"{it['indent']}    {body}\n{it['indent']}}}\n"
    attributes = re.sub(r"#\[(?:unsafe\(no_mangle\)|cycle\(\w+\))\]\n *", "", it["attributes"])
    return f"{text[: it.end()]}\n{it['indent']}{attributes}{it['head']}{name}_{number}{contract}{begin}{code}{text[it.end() :]}"
