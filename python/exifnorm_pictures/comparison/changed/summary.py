"""What changed in many pictures: groups of equal edits, and the first names of each result, in memory that doesn't grow with them."""

from __future__ import annotations

import contextlib
import os
from collections import Counter
from itertools import chain
from typing import Iterable, Iterator, NamedTuple, Sequence

from ...catalogue.store import Catalogue
from ...fields.choosing import EVERYTHING, Choice
from ...judge.sides import AFTER
from ...model.found import NAMES
from ...model.errors import WrongUse
from ...model.problems import NOT_THERE
from ...model.texts import Result, in_words, pictures_in_words, shown_path
from ...scan.moved import MovedFolders
from ..wording import moved
from .edit_groups import Group, Kinds, Lacking
from .pairs import Pairs, heads_of
from .states import Compared, changed, number_changed, number_undecided, total as total_of

NOW = b"\0"  # between the name of a picture that moved and its new one: no name has it
_NOT_THERE = (Result.ABSENT, Result.MISSING_AFTER)
MOST_NAMES = 3  # pictures of a result that are named


def standards_of(comparison: Compared) -> list[str]:
    """The standards that a picture has."""
    return [NAMES[it.kind] for it in comparison.verdicts if it.result not in _NOT_THERE]


def name_of(comparison: Compared) -> bytes:
    """The name of a picture, and its new one if it has moved."""
    return comparison.name if comparison.moved_to is None else comparison.name + NOW + comparison.moved_to


class Summary:
    """Counts what `changed` finds. If only some fields are compared, each is counted by itself, also if its block came or went."""

    def __init__(self, choice: Choice = EVERYTHING, most_names: int = MOST_NAMES) -> None:
        self.kinds = Kinds(not choice.only, most_names)
        self.pictures: dict[str, list[tuple[bytes, bytes]]] = {}  # the first ones of each result, and where they are now
        self.moved = MovedFolders()  # of pictures in which nothing else is other

    def add(self, comparison: Compared) -> int:
        """Counts a picture that was compared. Returns the number of its kind of edit, or 0."""
        self._add_name(comparison)
        return self.kinds.add(name_of(comparison), comparison.changes, standards_of(comparison))

    def _add_name(self, comparison: Compared) -> None:
        """Keeps the name of a picture, if it is one of the first; of those that moved with their folder that of the first one."""
        name, place = comparison.name, comparison.moved_to or b""
        names = self.pictures.setdefault(comparison.result, [])
        if len(names) < MOST_NAMES and not (comparison.result == Result.MOVED and self.moved.count(name, place)):
            names.append((name, place))
        if comparison.result == Result.MOVED:
            self.moved.add(name, place)


LONGEST_NAMES = 100  # characters of the names of pictures in a line


def sentence(every: "Counter[Result]", by_stem: bool = False) -> str:
    """How many pictures were compared, and how many changed, or are damaged; and how many have no partner, so that they aren't compared.

    >>> sentence(Counter({Result.SAME: 5, Result.DAMAGED: 2})), sentence(Counter({Result.DIFFERENT: 1, Result.REFUSED: 1}))
    ('7 pictures compared: 2 damaged.', '2 pictures compared: 1 changed, 1 not wholly compared.')
    >>> sentence(Counter({Result.SAME: 5, Result.DIFFERENT: 1, Result.MISSING_AFTER: 2, Result.MISSING_BEFORE: 1}), by_stem=True)
    '6 pairs by name: 1 changed. Without a partner: 2 only before, 1 only after.'
    >>> sentence(Counter({Result.MISSING_BEFORE: 2})), sentence(Counter({Result.SAME: 3, Result.MOVED: 2}))
    ('No picture to compare. Without a partner: 2 only after.', '5 pictures compared: 2 moved.')
    """
    counts = Counter({it: count for it, count in every.items() if it not in _WITHOUT_PARTNER})
    total = total_of(counts)
    what = f"{in_words(total, 'pair')} by name" if by_stem else f"{pictures_in_words(total)} compared"
    nothing = "No pair by name." if by_stem else "No picture to compare."
    text = f"{what}: {', '.join(_kinds(counts, total)) or 'none changed'}." if total else nothing
    alone = ", ".join(f"{every[it]:,} {side}" for it, side in _WITHOUT_PARTNER.items() if side and every[it])
    return text + f" Without a partner: {alone}." * bool(alone)


def _kinds(counts: "Counter[Result]", total: int) -> list[str]:
    """How many of the pictures that were compared changed, moved, are damaged, or aren't known."""
    changes = number_changed(counts)
    many = ["all changed" if changes == total > 1 else f"{changes:,} changed"] * bool(changes)
    many += [f"{counts[it]:,} {it}" for it in (Result.MOVED, Result.RENUMBERED, Result.DAMAGED, Result.DAMAGED_BEFORE) if counts[it]]
    others = number_undecided(counts) - counts[Result.DAMAGED] - counts[Result.DAMAGED_BEFORE]
    return many + [f"{others:,} not wholly compared"] * bool(others)


_WITHOUT_PARTNER = {Result.MISSING_AFTER: "only before", Result.MISSING_BEFORE: "only after", Result.UNCLEAR: ""}


def shown_name(name: bytes) -> str:
    """The name of a picture, and its new one if it has moved."""
    return " is now ".join(map(shown_path, name.split(NOW)))


def fitting(names: Iterable[str], longest: int) -> Iterator[str]:
    """The first names, as many as a line has room for."""
    taken = 0
    for name in names:
        if taken and taken + len(name) > longest:
            return
        taken += len(name)
        yield name


class LeftOut(NamedTuple):
    """Pictures of a group in which an edit wasn't made in a standard that they have, though it was
    in most of the others."""

    what: str
    few: Lacking

    @property
    def line(self) -> str:
        """All in a line."""
        return f"{self.what} {', '.join(map(shown_name, self.few.names))}{' ..' * (self.few.pictures > len(self.few.names))}"


def lacking_of(group: Group) -> Iterator[LeftOut]:
    """These pictures, by edit and standard."""
    for counted in group.counted:
        for standard, few in counted.odd().items():
            many = f"{pictures_in_words(few.pictures)}: " * (few.pictures > 1)
            yield LeftOut(f"{counted.edit.name} not edited in the {standard} of {many}".strip(), few)


# The results


def results_of(summary: Summary, counts: "Counter[Result]") -> Iterator[str]:
    """How many pictures have each result, and the first of them; of folders that moved one name for all pictures in it."""
    for result in Result:
        if counts[result]:
            names = [] if result in (Result.SAME, Result.SAME_FILE, Result.NO_PICTURE_SAME) else _names(summary, result)
            more = " .." if names and counts[result] > sum(name.pictures for name in names) else ""
            yield f"{counts[result]:,} {result}{': ' * bool(names)}{', '.join(name.text for name in names)}{more}"


class _Name(NamedTuple):
    text: str
    pictures: int = 1


def _names(summary: Summary, result: str) -> list[_Name]:
    """The first pictures with a result, as many as a line has room for."""
    names: list[_Name] = []
    for name in chain(_folders(summary) if result == Result.MOVED else (), _pictures(summary, result)):
        if names and sum(len(it.text) for it in names) + len(name.text) > LONGEST_NAMES:
            break
        names.append(name)
    return names


def _folders(summary: Summary) -> Iterator[_Name]:
    for folder in summary.moved.lines():
        old, new = (shown_path(it) or "." for it in (folder.old, folder.new))
        yield _Name(f"{old} to {new} ({pictures_in_words(folder.pictures)})", folder.pictures)


def _pictures(summary: Summary, result: str) -> Iterator[_Name]:
    """The first pictures, without those that moved with their folder."""
    for path, place in summary.pictures.get(result, ()):
        if not (result == Result.MOVED and summary.moved.count(path, place) > 1):
            yield _Name(moved(shown_path(path), shown_path(place)) if place else shown_path(path))


# One picture through several catalogues of an archive: what changed in it from one to the next, also if it moved.


class NotKnown(WrongUse):
    """No catalogue has the picture."""


class State(NamedTuple):
    """A picture in a catalogue."""

    catalogue: str
    when: str  # the last run began, in UTC; empty: there was none
    path: bytes | None  # None: it isn't there
    comparison: Compared | None = None  # with the catalogue before, if that has the picture, too
    may_be_elsewhere: bool = False  # it may be there under another name, edited too: only digests of the coded pictures can tell
    is_back: bool = False  # an older catalogue has it, and the one before hasn't one that is known to be it


def history(name: bytes, catalogues: Sequence[Catalogue]) -> Iterator[State]:
    """The states of a picture in catalogues of one archive, from the oldest one on. It is the picture that has this name in the newest
    catalogue that knows the name: its path, or its path below the folder of the catalogue. Raises `NotKnown`."""
    ordered = sorted(catalogues, key=_when)
    places = _places(name, ordered)
    before: Catalogue | None = None
    was_there = False
    for catalogue, place, old in zip(ordered, places, [_Place(None), *places]):
        comparison = None
        if before and old.path is not None:
            comparison = next(changed(before, catalogue, Counter(), {old.path}, every=True), None)
            if comparison and comparison.result == Result.MISSING_AFTER and place.path is not None:
                comparison = None  # it is gone from where it was, and another one has its name
        is_back = was_there and comparison is None and place.path is not None
        yield State(catalogue.name, _when(catalogue), place.path, comparison, place.may_be_elsewhere, is_back)
        before, was_there = catalogue, was_there or place.path is not None


def _when(catalogue: Catalogue) -> str:
    """When the last run began; of a merged catalogue its number may not be the greatest."""
    return max((run[0] for run in catalogue.runs()), default="")


class _Place(NamedTuple):
    """The path of a picture in a catalogue; None where it isn't there by its name."""

    path: bytes | None
    may_be_elsewhere: bool = False


def _places(name: bytes, catalogues: Sequence[Catalogue]) -> list[_Place]:
    """Where a picture is in each catalogue: where that of the neighbour is, and beyond a catalogue without it, by its name again."""
    places = [_Place(_named(it, name)) for it in catalogues]
    newest = max((number for number, place in enumerate(places) if place.path is not None), default=-1)
    if newest < 0:
        raise NotKnown(f"no catalogue has {shown_path(os.path.abspath(name))}")
    for number in reversed(range(newest)):
        if places[number + 1].path is not None or places[number].path is None:
            places[number] = _place(catalogues[number + 1], catalogues[number], places[number + 1])
    for number in range(1, len(catalogues)):
        if places[number].path is None:
            place = _place(catalogues[number - 1], catalogues[number], places[number - 1])
            places[number] = max(place, places[number], key=lambda it: (it.path is not None, it.may_be_elsewhere))
    return places


def _named(catalogue: Catalogue, name: bytes) -> bytes | None:
    """The path of the picture with this name in a catalogue."""
    paths = dict.fromkeys([os.path.abspath(name), os.path.normpath(os.path.join(*heads_of([catalogue]), name))])
    return next((it for it in paths if (known := catalogue.known(it)) and known.problem not in NOT_THERE), None)


def _place(catalogue: Catalogue, other: Catalogue, place: _Place) -> _Place:
    """Where a picture of a catalogue is in another one."""
    if place.path is None:
        return place
    with contextlib.closing(Pairs(catalogue, other, {place.path})) as pairs:
        pair = next(pairs.differing(every=True), None)
        name = None if not pair else pair.place if pair.place is not None else pair.name if pair.new is not None else None
        if name is None:
            has_digests = catalogue.has_digests() and other.has_digests()
            return _Place(None, not has_digests and pairs.has_others())
        return _Place(name if name.startswith(b"/") else pairs.heads[AFTER] + name)
