"""Sets of numbers of rows, in little memory."""

from __future__ import annotations

from collections import defaultdict
from typing import DefaultDict, Iterable, Iterator, Sequence, TypeVar

Value = TypeVar("Value")

_SHIFT = 10  # 1,024 numbers are bits of one number of Python's
_MASK = (1 << _SHIFT) - 1
_ALL = (1 << _MASK + 1) - 1


class Numbers:
    """A set of numbers of rows, which lie close together, or all numbers but those of a set: a bit for each.

    >>> numbers = Numbers([(5000,), (-3,)])
    >>> 5000 in numbers, 904 in numbers, numbers.count(9), (~numbers).count(9), list(numbers)
    (True, False, 2, 7, [5000, -3])
    >>> others = ~numbers & Numbers([(5000,), (7,)])
    >>> list(others), 5000 in ~numbers, list(~(~numbers | others))
    ([7], False, [5000, -3])
    """

    def __init__(self, rows: Iterable[tuple[int]] = ()) -> None:
        """The numbers of some rows, of which each is one number. Raises `TypeError` for a row with another value."""
        self.is_rest = False  # whether all other numbers are in it, of which there are infinitely many
        self._bits: DefaultDict[int, int] = defaultdict(int)  # of those that are in it, or that are not
        bits = self._bits
        for (number,) in rows:
            bits[number >> _SHIFT] |= 1 << (number & _MASK)

    def add(self, number: int) -> None:
        """Adds a number."""
        self._bits[number >> _SHIFT] |= 1 << (number & _MASK)

    def __contains__(self, number: int) -> bool:
        return bool(self._bits.get(number >> _SHIFT, 0) >> (number & _MASK) & 1) != self.is_rest

    def chosen(self, rows: Sequence[tuple[int, Value]]) -> list[tuple[int, Value]]:
        """Those of some rows that begin with a number that is in it."""
        of, is_rest = self._bits.get, self.is_rest
        return [row for row in rows if of(row[0] >> _SHIFT, 0) >> (row[0] & _MASK) & 1 != is_rest]

    def __bool__(self) -> bool:
        return self.is_rest or bool(self._bits)

    def count(self, total: int) -> int:
        """How many numbers are in it, if there are so many in all."""
        count = sum(bin(bits).count("1") for bits in self._bits.values())
        return total - count if self.is_rest else count

    def __iter__(self) -> Iterator[int]:
        assert not self.is_rest, "infinitely many"
        for first, bits in self._bits.items():
            while bits:
                last = bits & -bits
                yield (first << _SHIFT) + last.bit_length() - 1
                bits ^= last

    def __invert__(self) -> "Numbers":
        return self._of(self._bits, not self.is_rest)

    def __and__(self, other: "Numbers") -> "Numbers":
        if self.is_rest and other.is_rest:
            return ~(~self | ~other)
        few, more = (other, self) if self.is_rest else (self, other)
        flip = _ALL if more.is_rest else 0
        both = ((first, bits & (more._bits.get(first, 0) ^ flip)) for first, bits in few._bits.items())
        return self._of(defaultdict(int, {first: bits for first, bits in both if bits}), False)

    def __or__(self, other: "Numbers") -> "Numbers":
        if self.is_rest or other.is_rest:
            return ~(~self & ~other)
        bits = defaultdict(int, self._bits)
        for first, its in other._bits.items():
            bits[first] |= its
        return self._of(bits, False)

    @staticmethod
    def _of(bits: "DefaultDict[int, int]", is_rest: bool) -> "Numbers":
        numbers = Numbers()
        numbers._bits, numbers.is_rest = bits, is_rest
        return numbers
