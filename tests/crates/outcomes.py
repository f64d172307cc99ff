#!/usr/bin/env python3
"""Statuses, and constructors of results, of which no clause says anything: a body that returns one for any input would be proved.

  tests/crates/outcomes.py CRATE..    prints those of the public functions of these crates

A clause says something of a status if it begins with it as a premise. It says something of a
constructor if it equates the result, or applies a definition to it whose equation for this
constructor isn't ⊤; a definition about memory says something of OutOfMemory alone. Of a function
with a result and without any clause nothing is said. A call that takes an allocator makes its own
memory, which no clause can name: when it reports a failed allocation is tested. Whether what is
said is enough, this doesn't tell: the tables of wrong bodies do.
"""

from __future__ import annotations

import re
import sys
from functools import lru_cache
from pathlib import Path
from typing import Dict, Iterator, List, Set, Tuple

CRATES = Path(__file__).resolve().parents[2] / "crates"
FUNCTION = re.compile(r"^ *pub (?:extern \"C\" )?fn (\w+)")
BODY = re.compile(r"(?:^ *|[^{]* )\{\}?$")  # a line that begins the body
RESULT = re.compile(r"\) -> ([^\n]*?),?$", re.M)
CLAUSE = re.compile(r"ensures \w* ?\{(.*?)\}\s*(?=ensures|requires|\Z)", re.S)
STATUS = re.compile(r"result ≡ status\.(\w+)\b(?! →)")
PREMISE = re.compile(r"^ *result ≡ status\.(\w+) →")
ENUM = re.compile(r"^pub(?:\(crate\))? enum (\w+)[^\n]*\{\n(.*?)^\}", re.M | re.S)
# A word before the result, and what stands between: names, and terms in parentheses.
APPLIED = re.compile(r"(\w+)((?: [\w.]+| \([^()]*\))*?) result(?![\w.])(.*)", re.S)
EQUATION = re.compile(r"^(\w+)((?: (?:[\w.]+|\[\]|\((?:[^()\n]|\([^()\n]*\))*\)))*) = *(.*)", re.M)
ARGUMENT = re.compile(r"[\w.]+|\[\]|\((?:[^()\n]|\([^()\n]*\))*\)")
OF_STD = {"IfOk": "Ok", "OnOk": "Ok", "IfErr": "Err", "OnErr": "Err", "IfSome": "Some"}
RESULTS = {"Result": ("Ok", "Err"), "Option": ("Some", "None")}
MEMORY = ("no_memory", "OutOfMemory")
OF_MEMORY = re.compile(r"Counts|Asks|FailsByMemory")


def read(crate: str, part: str, ending: str) -> str:
    return "\n".join(it.read_text(encoding="utf-8") for it in sorted((CRATES / crate / part).rglob(f"*.{ending}")))


@lru_cache(maxsize=None)
def texts(part: str, ending: str) -> str:
    return "\n".join(read(it.name, part, ending) for it in sorted(CRATES.iterdir()) if it.is_dir())


@lru_cache(maxsize=None)
def variants() -> Dict[str, List[str]]:
    """The variants of all enums, by name."""
    return {name: re.findall(r"^    (\w+)", body, re.M) for name, body in ENUM.findall(texts("src", "rt"))}


def constructors(kind: str) -> List[str]:
    """The constructors of a type, each with those of what is in it."""
    found = re.fullmatch(r"(Result|Option)<(.*)>", kind)
    if not found:
        return ["OutOfMemory"] if kind.startswith("Alloc") else variants().get(kind.partition("<")[0], [])
    inner = [*re.split(r", (?![^<]*>)", found[2]), ""]
    return [f"{name} {it}".strip() for name, of in zip(RESULTS[found[1]], inner) for it in constructors(of) or [""]]


def words_of(pattern: str) -> List[str]:
    """The constructors in a pattern.

    >>> words_of("(Err (fault.Content cause place))"), words_of("x")
    (['Err', 'Content'], [])
    """
    return re.findall(r"\b[A-Z]\w*\b(?!\.)", pattern)


@lru_cache(maxsize=None)
def equations() -> Dict[str, List[Tuple[List[str], str]]]:
    """The equations of all definitions, by name: the patterns and the first line of the right side of each."""
    found: Dict[str, List[Tuple[List[str], str]]] = {}
    for name, patterns, right in EQUATION.findall(texts("specs", "antt")):
        found.setdefault(name, []).append((ARGUMENT.findall(patterns), right.strip()))
    return found


def said_by(name: str, at: int) -> Set[str]:
    """The constructors of which a definition says something, if its argument at an index is a result; * for all of them."""
    cases = [(words_of(patterns[at])[:2], right) for patterns, right in equations().get(name, []) if at < len(patterns)]
    if not any(words for words, _ in cases):
        return {"*"}
    return {" ".join(words) or "*" for words, right in cases if right != "⊤"}


def said(clause: str) -> Set[str]:
    """The constructors of the result of which a clause says something."""
    if re.search(r"result(?:\.\w+)? ≡|≡ result", clause):
        return {"*"}
    found = APPLIED.search(clause)
    if not found:
        return {"*"} if "result" in clause else set()
    name, before, behind = found.groups()
    if OF_MEMORY.match(name):
        return {"OutOfMemory"}
    if name not in OF_STD:
        return said_by(name, len(ARGUMENT.findall(before)))
    head = re.match(r" \(?(\w+)((?: [\w.]+)*)\)?\s*$", behind)
    inner = said_by(head[1], len(head[2].split())) if head else {"*"}
    return {f"{OF_STD[name]} {it}" for it in inner}


def is_said(name: str, found: Set[str]) -> bool:
    """Whether something is said of a constructor, or of what it is in."""
    outer, inner = name.split()[0], name.split()[-1]
    return bool({"*", outer, f"{outer} *", name, inner} & found) or any(it.startswith(f"{name} ") for it in found)


def heads(source: str) -> Iterator[Tuple[str, str]]:
    """The names of the public functions in a source, each with what stands between its name and its body."""
    lines = iter(source.splitlines())
    for line in lines:
        found = FUNCTION.match(line)
        if found:
            head = [line]
            while not BODY.match(head[-1]):
                head.append(next(lines))
            yield found[1], "\n".join(head[:-1]) if head[1:] else line


def missing(crate: str) -> Iterator[str]:
    """What is returned by the public functions of a crate, and no clause says anything of it."""
    for function, head in heads(read(crate, "src", "rt")):
        clauses, kind = CLAUSE.findall(head), RESULT.search(head)
        premises = {it for clause in clauses for it in PREMISE.findall(clause)}
        statuses = dict.fromkeys(it for clause in clauses for it in STATUS.findall(clause))
        found = {it for clause in clauses for it in said(clause)}
        left = ["any result"] if kind and "ensures" not in head else []
        left += [it for it in statuses if it not in premises]
        left += [it for it in constructors(kind[1].strip() if kind else "") if not is_said(it, found)]
        yield from (f"{crate}::{function}: {it}" for it in left if not ("alloc: " in head and it.endswith(MEMORY)))


if __name__ == "__main__":
    if not sys.argv[1:] or sys.argv[1].startswith("-"):
        sys.exit(__doc__)
    print(*(it for crate in sys.argv[1:] for it in missing(crate)), sep="\n")
