"""Fields from a listing (docs/FORMAT.md, "Listing"), for a block whose normal form is too long to write."""

from __future__ import annotations

from typing import Iterator, List

from ._aliases import Values
from ._fields import BlockField, Ratio
from ._words import DATASETS

_BYTES = {"BYTE", "ASCII", "SBYTE", "UNDEFINED", "UTF8"}
_FRACTIONS = {"RATIONAL", "SRATIONAL"}
_PATTERNS = {"FLOAT", "DOUBLE"}


def _ratio(text: str) -> Ratio:
    above, below = text.split("/")
    return Ratio(int(above), int(below))


def _values(kind: str, text: str) -> Values:
    if kind in _BYTES:
        return bytes.fromhex(text)
    if kind in _FRACTIONS:
        return tuple(map(_ratio, text.split()))
    base = 16 if kind in _PATTERNS else 10
    return tuple(int(it, base) for it in text.split())


def _dataset(name: str, text: str) -> BlockField:
    record, number = name.split(":")
    return BlockField(DATASETS, 256 * int(record) + int(number), "DATASET", bytes.fromhex(text))


def _read(lines: Iterator[str]) -> Iterator[BlockField]:
    """The fields of a listing's lines, after the line of the kind."""
    directory = "record"
    for line in lines:
        head, _, text = line.partition(": ")
        words = head.rstrip(":").split(" ")
        if line.startswith("["):
            directory = line[1:-1]
        elif words[0] == "record":
            pass  # the number of the DataSets that follow
        elif words[0] == "jpeg":
            yield BlockField(directory, 0x0201, "JPEG", bytes.fromhex(text))
        elif words[0] == "strips":
            strips = [next(lines).partition(": ")[2] for _ in range(int(words[1]))]
            yield BlockField(directory, 0x0111, "STRIPS", tuple(map(bytes.fromhex, strips)))
        elif ":" in words[0]:
            yield _dataset(words[0], text)
        else:
            yield BlockField(directory, int(words[0], 16), words[1], _values(words[1], text))


def fields_of_listing(listing: str) -> List[BlockField]:
    """The fields of a listing.

    >>> fields_of_listing("exif\\n[main]\\n0112 SHORT 1: 6\\n")
    [BlockField(directory='main', tag=274, type='SHORT', values=(6,))]
    """
    lines = iter(listing.splitlines())
    next(lines)  # the kind
    return list(_read(lines))
