"""The rest of a file, which is neither metadata nor coded picture nor structure: digests by name, as a text of a catalogue.

A part of more bytes than may be read has an empty digest, and is never equal to another one. Of a file without a digest of its coded picture
the text has lengths in place of digests, of the parts whose lengths a reader of metadata meets and that programs don't write by themselves.
"""

from __future__ import annotations

import hashlib
from functools import lru_cache

from exifnorm._hints import Generic, Sequence, TypeVar

MOST, LONGEST = 20, 200  # names of a file, and characters of a name
FURTHER = "further parts"  # all others of a file with more names
TOO_LARGE = "too large to compare"
# What programs write by themselves when they save a picture, and nobody misses
_BY_PROGRAMS = frozenset(
    (
        "JFIF",
        "thumbnail of JFIF",
        "pHYs chunk",
        "tIME chunk",
        "Photoshop resource 03ed (resolution)",
        "Photoshop resource 0409 (thumbnail)",
        "Photoshop resource 040c (thumbnail)",
    )
)


def text_of(digests: dict[str, str]) -> str:
    """The text: a line for each name, with its digest, of which 8 digits are enough for a part that doesn't count. Of many names the last ones
    have one line together, and so have long ones.

    >>> text_of({"comment": "0f", "colour profile": "1e"})
    '1e colour profile\\n0f comment'
    """
    names = sorted(digests, key=lambda name: (len(name) > LONGEST, name))
    kept = [name for name in names[:MOST] if len(name) <= LONGEST]
    lines = [f"{digests[name][: 8 if is_by_programs(name) else None]} {name}" for name in names]
    if len(kept) < len(lines):
        others = hashlib.blake2b("\n".join(lines[len(kept) :]).encode("utf-8", "surrogateescape"), digest_size=16).hexdigest()
        lines[len(kept) :] = [f"{others} {FURTHER}"]
    return "\n".join(lines)


@lru_cache(100)  # texts of pictures that are compared with each other come again and again
def names_in(text: str | None) -> dict[str, str]:
    """The digests by name, which nobody changes.

    >>> names_in("1e colour profile\\n comment")
    {'colour profile': '1e', 'comment': ''}
    """
    lines = (line.partition(" ") for line in (text or "").split("\n") if line)
    return {name: digest for digest, _, name in lines}


@lru_cache(100)
def counting_lines(text: str | None) -> frozenset[str]:
    """The lines of the parts that count.

    >>> counting_lines("1e colour profile\\n0f JFIF")
    frozenset({'1e colour profile'})
    """
    return frozenset(f"{digest} {name}" for name, digest in names_in(text).items() if not is_by_programs(name))


def changes(before: str | None, after: str | None) -> list[str]:
    """What is known to have come, gone or changed. Of two files of which one has more names than are kept, it isn't known whether a name came or went.

    >>> changes("1e colour profile\\n0f comment", "2d colour profile\\n3c trailer")
    ['colour profile changed', 'comment removed', 'trailer added']
    >>> changes(" trailer", " trailer")
    ['trailer too large to compare']
    """
    if before is None or after is None:
        return []
    old, new = names_in(before), names_in(after)
    kept = old.keys() & new.keys() | {FURTHER}
    differ = {it for it, _ in old.items() ^ new.items()}
    if FURTHER in {**old, **new}:
        differ &= kept
    fates = {it: "changed" if it in kept else "removed" if it in old else "added" for it in differ}
    fates |= {it: TOO_LARGE for it in kept if old.get(it) == new.get(it) == ""}
    return list(map(" ".join, sorted(fates.items(), key=lambda it: (it[0] == FURTHER, it))))


def is_by_programs(name: str) -> bool:
    """Whether programs write a part by themselves.

    >>> is_by_programs("JFIF of MPF picture 2"), is_by_programs("comment")
    (True, False)
    """
    return name.partition(" of MPF picture")[0] in _BY_PROGRAMS


def counting(found: Sequence[str]) -> list[str]:
    """The changes that count.

    >>> counting(["JFIF changed", "comment removed", "trailer too large to compare"])
    ['comment removed', 'trailer too large to compare']
    """
    return [it for it in found if it.endswith(TOO_LARGE) or not is_by_programs(it.rpartition(" ")[0])]


T = TypeVar("T")


class Fullest(Generic[T]):
    """Files, of which those with more parts come first: for each, the first one that has all of its parts that count, byte for byte.

    >>> fullest = Fullest()
    >>> [fullest.has_all_of(*it) for it in [("a", "1e profile\\n0f comment"), ("b", "0f comment"), ("c", " trailer"), ("d", " trailer")]]
    ['a', 'a', 'c', 'd']
    """

    def __init__(self) -> None:
        self._found: dict[str | None, T] = {}
        self._with: dict[str, list[tuple[T, frozenset[str]]]] = {}  # the files that have a line, and all of their lines

    def has_all_of(self, file: T, text: str | None) -> T:
        """The first one that has all parts of a file with this text: itself, if there is no other."""
        if text not in self._found:
            lines = counting_lines(text) | {""}  # which each file has
            is_known = not any(it.startswith(" ") for it in lines)  # a part without a digest equals none
            candidates = min((self._with.get(it, []) for it in lines), key=len) if is_known else []
            first = next((one for one, others in candidates if lines <= others), None)
            if first is None:
                for it in lines:
                    self._with.setdefault(it, []).append((file, lines))
                if not is_known:
                    return file
            self._found[text] = file if first is None else first
        return self._found[text]
