"""The verdict on two pictures, for each kind of block: same, different, absent, unreadable or refused; and unread parts.

A result names the kinds that were compared. No picture is the same as another if a part of either was not read and may differ.
"""

from __future__ import annotations

import functools
from collections import Counter

from exifnorm._hints import Iterable, Mapping, NamedTuple, Sequence

from .found import EXIF, IPTC, NAMES, XMP, NotRead, cut, damage
from .texts import Result
from .records import NO_BLOCK, REACHED, Side, Status


class Verdict(NamedTuple):
    """The verdict on one kind."""

    kind: str
    result: Result
    same_bytes: bool = False

    @property
    def may_differ(self) -> bool:
        """Whether there is a block, and it isn't known to be the same."""
        return self.result not in (Result.SAME, Result.ABSENT) and not self.same_bytes


_OF_STATUS = {Status.REFUSED: Result.REFUSED, Status.UNREADABLE: Result.UNREADABLE}
_SAME_BYTES = {Result.REFUSED: Result.REFUSED_SAME, Result.UNREADABLE: Result.UNREADABLE_SAME}


def verdict(kind: str, side: Side, other: Side) -> Verdict:
    """Compares the blocks of one kind.

    >>> verdict(EXIF, Side(Status.ACCEPTED, "d", "o"), NO_BLOCK).result
    <Result.DIFFERENT: 'different'>
    >>> verdict(EXIF, Side(Status.REFUSED, "", "o"), Side(Status.REFUSED, "", "o"))
    Verdict(kind='exif', result=<Result.REFUSED: 'refused'>, same_bytes=True)
    """
    statuses, same_bytes = {side.status, other.status}, side.octets == other.octets
    if statuses == {Status.ABSENT}:
        return Verdict(kind, Result.ABSENT)
    is_same = side.meaning == other.meaning
    if Status.REFUSED in statuses and not same_bytes and None not in (side.meaning, other.meaning):
        return Verdict(kind, Result.SAME_REPAIRED if is_same else Result.DIFFERENT_REPAIRED)
    unread = [result for status, result in _OF_STATUS.items() if status in statuses]
    if unread:
        return Verdict(kind, unread[0], same_bytes)
    return Verdict(kind, Result.SAME, same_bytes) if is_same else Verdict(kind, Result.DIFFERENT)


def verdicts(before: dict[str, Side], after: dict[str, Side], kinds: Iterable[str] = tuple(NAMES)) -> list[Verdict]:
    """The verdicts on several kinds."""
    return [verdict(kind, before.get(kind, NO_BLOCK), after.get(kind, NO_BLOCK)) for kind in kinds]


def left_open(parts: Iterable[NotRead], other: Iterable[NotRead]) -> list[str]:
    """The parts that were not read and may differ: those without a digest, and those that only one picture has in these bytes.

    >>> left_open([NotRead("trailer", "d")], [NotRead("trailer", "d")]), left_open([NotRead("trailer", "d")], [])
    ([], ['trailer'])
    """
    first, second = Counter(parts), Counter(other)
    differ = (first - second) + (second - first)
    return sorted({it.what for it in (first + second) if it in differ or not it.digest})


_IN_SENTENCE = (  # in the order of the clauses
    Result.SAME,
    Result.SAME_BUT,
    Result.SAME_NUMBERS,
    Result.MOVED_NOTE,
    Result.DIFFERENT,
    Result.SAME_REPAIRED,
    Result.DIFFERENT_REPAIRED,
    Result.REFUSED,
    Result.UNREADABLE,
    Result.NOT_KNOWN,
    Result.LEFT_OUT,
)


def sentence_of_verdicts(verdicts: Sequence[Verdict], open_parts: Sequence[str] = ()) -> str:
    """The kinds that were compared, and the result, in a sentence.

    >>> sentence_of_verdicts([Verdict(EXIF, Result.SAME), Verdict(IPTC, Result.SAME), Verdict(XMP, Result.SAME)])
    'Exif, IPTC and XMP are the same'
    >>> sentence_of_verdicts([Verdict(EXIF, Result.SAME), Verdict(IPTC, Result.ABSENT), Verdict(XMP, Result.DIFFERENT)], ["second picture"])
    'Exif is the same, XMP is different, no IPTC; not wholly read: second picture'
    """
    parts = []
    for result in _IN_SENTENCE:
        for same_bytes in (False, True) if result in _SAME_BYTES else (None,):
            kinds = [it.kind for it in verdicts if it.result == result and same_bytes in (None, it.same_bytes)]
            if kinds:
                parts.append(clause(kinds, result, bool(same_bytes)))
    text = ", ".join(parts + none_of([it.kind for it in verdicts if it.result == Result.ABSENT]))
    return text + (f"; {Result.NOT_WHOLLY_READ}: {', '.join(open_parts)}" if open_parts else "")


def clause(kinds: Sequence[str], result: str, same_bytes: bool) -> str:
    """The result of some kinds, as `Exif and IPTC are the same byte for byte`."""
    end = "the same byte for byte" if result == Result.SAME and same_bytes else "the same" if result == Result.SAME else str(result)
    return f"{with_verb([NAMES[it] for it in kinds])} {end}" + ", the same bytes" * (same_bytes and result != Result.SAME)


def with_verb(names: Sequence[str]) -> str:
    """Some names with their verb.

    >>> with_verb(["Exif"]), with_verb(["Exif", "IPTC", "XMP"])
    ('Exif is', 'Exif, IPTC and XMP are')
    """
    return f"{names[0]} is" if len(names) == 1 else f"{', '.join(names[:-1])} and {names[-1]} are"


def none_of(kinds: Sequence[str]) -> list[str]:
    """The kinds that no picture has, as one clause if there are any."""
    return ["no " + " and no ".join(NAMES[it] for it in kinds)] if kinds else []


def result_of(verdicts: Sequence[Verdict], open_parts: Sequence[str] = ()) -> Result:
    """The worst of some verdicts: a known difference comes before an unknown result.

    >>> result_of([Verdict(EXIF, Result.SAME), Verdict(XMP, Result.ABSENT)], ["trailer"])
    <Result.NOT_WHOLLY_READ: 'not wholly read'>
    >>> result_of([Verdict(EXIF, Result.SAME)], ["2 bytes that only the MakerNote can reach"])
    <Result.ONLY_REACHED: 'only bytes that a MakerNote can reach differ'>
    """
    found = {_OF_PICTURES[it.same_bytes].get(it.result, it.result) for it in verdicts}
    if open_parts:
        if not damage(open_parts):
            found.discard(Result.NOT_KNOWN)
        found.add(Result.ONLY_REACHED if all(it.endswith(REACHED) for it in open_parts) else Result.NOT_WHOLLY_READ)
    return min(found, key=_WORST.index, default=Result.SAME)


# What the verdict on a kind, with or without the same bytes, is for two pictures, where that is another result
_NO_BLOCK = {Result.LEFT_OUT: Result.SAME_BUT, Result.ABSENT: Result.SAME}
_OF_PICTURES = {False: _NO_BLOCK, True: {**_NO_BLOCK, Result.NOT_KNOWN: Result.SAME, **_SAME_BYTES}}
# The results of two pictures, the worst first: a difference that is known comes before what isn't known, and that before how it is the same
_WORST = (
    Result.DIFFERENT,
    Result.DIFFERENT_REPAIRED,
    Result.REFUSED,
    Result.UNREADABLE,
    Result.NOT_KNOWN,
    Result.ONLY_REACHED,
    Result.NOT_WHOLLY_READ,
    Result.SAME_REPAIRED,
    Result.MOVED_NOTE,
    Result.SAME_BUT,
    Result.SAME_NUMBERS,
    Result.REFUSED_SAME,
    Result.UNREADABLE_SAME,
    Result.SAME,
)


Turns = Mapping[str, Mapping[Result, Result]]  # what becomes of the verdict on each kind


class Judged(NamedTuple):
    """What is known of two pictures: the verdicts, and the parts that were not read and may differ."""

    verdicts: tuple[Verdict, ...]
    parts: tuple[str, ...] = ()

    @property
    def result(self) -> Result:
        """The worst of all."""
        return result_of(self.verdicts, self.parts)

    @property
    def is_different(self) -> bool:
        """Whether a difference is known."""
        return any(it.result in (Result.DIFFERENT, Result.DIFFERENT_REPAIRED) for it in self.verdicts)

    @property
    def sentence(self) -> str:
        """The kinds and the parts; the end of a file that is cut off is named before them."""
        return _sentence(self.verdicts, tuple(it for it in self.parts if not cut([it])))

    def turned(self, turns: Turns) -> Judged:
        """With other verdicts on some kinds."""
        if not any(turns.values()):
            return self
        others = [(it, turns.get(it.kind, {}).get(it.result)) for it in self.verdicts]
        return self._replace(verdicts=tuple(Verdict(it.kind, other) if other else it for it, other in others))


_sentence = functools.lru_cache(maxsize=1000)(sentence_of_verdicts)  # an archive's pictures have few different ones
