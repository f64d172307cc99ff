"""What changed since an older catalogue: its summary, and all differences, which are kept in a temporary database until they are listed."""

from __future__ import annotations

import json
from collections import Counter
from typing import Iterable, Iterator, NamedTuple, Sequence, Union

from ..catalogue.store import Known
from ..comparison.changed import states as changed
from ..comparison.changed.edit_groups import Group
from ..comparison.changed.edits import Edit, head_of, lists_of, place_of
from ..comparison.changed.pairs import heads_of
from ..comparison.changed.summary import NOW, Summary, lacking_of, name_of, sentence
from ..comparison.coded import Coded, sentence_of_coded
from ..comparison.wording import FieldDifference, Marker, Piece, Pieces, sides, tell_apart
from ..fields.choosing import lines
from ..fields.labels import label_of_fields
from ..judge.sides import AFTER, BEFORE
from ..model.records import Stamp, is_as_before
from ..model.texts import Result, escaped, grouped
from ..scan.moved import MovedFolders
from .contents import About, Entry, chunks

_RESULTS = sorted(Result, key=lambda result: result not in (Result.DAMAGED, Result.DAMAGED_DIFFERENT))  # which somebody has to look after
SHEET = 60  # pictures of a group that are shown beside its edits
GROUPS = 40  # groups that are shown by themselves, and pictures that changed like no other
BAR, THINNEST = 1000, 8  # the length of the bar, and of its shortest part


class Row(NamedTuple):
    """A field that differs, with its two values in pieces, or what is printed in their place."""

    names: list[str]  # of fields of one label with equal values
    before: Pieces | None
    after: Pieces | None
    note: str


class ChangedPicture(NamedTuple):
    """A picture that changed: its name, and its paths then and now, as far as there is such a file."""

    name: bytes
    before: bytes | None
    after: bytes | None
    earlier: bytes | None = None  # the earlier file, if it is there as it was, and the picture is another one
    digest: str = ""  # of the earlier coded picture, if its file isn't there as it was, and the picture is another one


class Difference(NamedTuple):
    """A difference, and some of the pictures with it."""

    result: Result
    note: str
    rows: list[Row]
    is_other: bool  # whether the picture itself is another one or damaged
    total: int  # of all its pictures
    pictures: list[ChangedPicture]
    group: int = 0  # of pictures that were edited alike

    @property
    def words(self) -> list[str]:
        """What the page says of it."""
        said = [f"{it};" for it in (self.note, labels_of(self.rows)) if it]
        return [*map(_said, self.rows), *said, self.result, f"edit:{self.group};"]


def _said(row: Row) -> str:
    sides = ("".join(piece.text for piece in pieces) if pieces else "(none)" for pieces in (row.before, row.after))
    return f"{', '.join(row.names)}: {row.note or ' -> '.join(sides)};"


def labels_of(rows: Sequence[Row]) -> str:
    """The labels of the fields of some rows, by which people look for them."""
    labels = label_of_fields()
    return " ".join(dict.fromkeys(labels[name] for row in rows for name in row.names if name in labels))


class ShownGroup(NamedTuple):
    """Pictures that were edited alike, with the first of them; each with its own edits if these differ."""

    number: int
    edits: list[Edit]
    heads: list[str]  # what each edit is about
    total: int
    pictures: list[tuple[ChangedPicture, list[Edit]]]
    start: float  # of its part of the bar
    length: float
    # pictures that weren't edited in a standard that they have, and what is said of them
    left_out: list[tuple[str, list[ChangedPicture]]]


class Changes:
    """All that changed between the two catalogues of a report. Close it."""

    def __init__(self, about: About) -> None:
        assert about.old
        self.results: "Counter[Result]" = Counter()
        self.coded: "Counter[Coded]" = Counter()  # what is known of the coded pictures of both catalogues
        self.summary = Summary(about.choice, SHEET)
        self.folders = MovedFolders()
        self._old = about.old
        self._heads = heads_of((about.old, about.catalogue))
        self._equal = changed.Equal()
        session = about.session if about.look else None
        comparisons = changed.changed(
            about.old, about.catalogue, self.results, about.only, session=session, choice=about.choice, pictures=self.coded
        )
        try:
            for comparison in comparisons:
                self._add(comparison)
        except BaseException:
            self.close()
            raise
        self.left_out = list(lines(about.choice, True))
        self.sentence = sentence(self.results)
        self._groups = self.summary.kinds.groups()
        self.number_odd = sum(it.is_odd for it in self._groups)  # pictures that changed like no other
        self.number_alike = len(self._groups) - self.number_odd  # groups of several pictures
        self.edited = sum(it.pictures for it in self._groups)
        self._group_of = {kind: group.number for group in self._groups for kind in group.kinds}

    def close(self) -> None:
        """Removes the temporary database."""
        self._equal.close()

    def _add(self, comparison: changed.Compared) -> None:
        kind = self.summary.add(comparison)
        if comparison.result.has_changed is False:
            return
        if comparison.moved_to is not None:
            self.folders.add(comparison.name, comparison.moved_to)
        rank = _RESULTS.index(comparison.result)
        is_other = comparison.picture == Coded.OTHER or comparison.picture.is_damaged
        text = json.dumps([rank, comparison.note, _rows(comparison.changes), is_other, kind])
        self._equal.add(text, name_of(comparison), False, rank)

    @property
    def counted(self) -> list[tuple[Result, int]]:
        """How many pictures have each result, those first that are listed."""
        there = [(it, self.results[it]) for it in Result if self.results[it]]
        return sorted(there, key=lambda it: it[0].has_changed is False)

    def groups(self) -> list[ShownGroup]:
        """The groups of pictures that were edited alike, the smallest first: so many of one picture,
        and the largest ones."""
        first = max(self.number_odd, len(self._groups) - GROUPS)
        shown = [*self._groups[: self.number_odd][:GROUPS], *self._groups[first:]]
        pictures = max(1, sum(it.pictures for it in shown))
        lengths = [max(THINNEST, BAR * it.pictures / pictures) for it in shown]
        scale, start, groups = BAR / max(1, sum(lengths)), 0.0, []
        for group, length in zip(shown, lengths):
            groups.append(self._shown_group(group, start, length * scale))
            start += length * scale
        return groups

    def _shown_group(self, group: Group, start: float, length: float) -> ShownGroup:
        heads = [head_of(it, places, group.pictures) for it, places in zip(group.edits, group.places)]
        few = [(it.what, self._pictures(it.few.names)) for it in lacking_of(group)]
        shown = self._shown(group)
        return ShownGroup(group.number, group.edits, heads, group.pictures, shown, start, length, few)

    def _shown(self, group: Group) -> list[tuple[ChangedPicture, list[Edit]]]:
        """The first pictures of a group, with their own edits if each has others."""
        if group.is_odd or len(group.kinds) > 1:
            names, edits = zip(*group.firsts[:SHEET])
            return list(zip(self._pictures(names), edits))
        return [(it, []) for it in self._pictures(group.names)]

    def _pictures(self, names: Iterable[bytes]) -> list[ChangedPicture]:
        return [self._picture(Result.DIFFERENT, name, False) for name in names]

    def notes(self) -> list[str]:
        """What was compared of the pictures, and what is left out."""
        return [*self.summary.kinds.notes(), *filter(None, [sentence_of_coded(self.coded)]), *self.left_out]

    def entries(self) -> Iterator[Entry]:
        """Each difference with its pictures, by what happened and by their number, damaged ones first; of many pictures so many as a page has."""
        for text, count, names in self._equal.all(by_rank=True):
            rank, note, all_rows, is_other, kind = json.loads(text)
            result = _RESULTS[rank]
            marker = Marker()
            rows = [Row(names, *_marked(marker, before, after), what) for names, before, after, what in all_rows]
            for number, chunk in enumerate(chunks(names, len)):
                pictures = [self._picture(result, name, is_other) for name in chunk]
                difference = Difference(result, note, rows, is_other, count, pictures, self._group_of.get(kind, 0))
                paths = tuple(it.after or it.before or b"" for it in pictures)
                yield Entry(difference, paths, difference.words, 1 + len(rows), not number)

    def _picture(self, result: Result, name: bytes, is_other: bool) -> ChangedPicture:
        before, _, place = name.partition(NOW)
        old = None if result == Result.MISSING_BEFORE else _path(self._heads[BEFORE], before)
        new = None if result == Result.MISSING_AFTER else _path(self._heads[AFTER], place or before)
        known = self._old.known(old) if is_other and old else None
        if not known:
            return ChangedPicture(before, old, new)
        if old != new and _is_as_it_was(old, known):
            return ChangedPicture(before, old, new, earlier=old)
        return ChangedPicture(before, old, new, digest=known.coded_picture or "")


_Side = Union[None, str, Sequence[str]]  # no value, a text, or the members of a list


def _rows(changes: Sequence[FieldDifference]) -> list[tuple[object, ...]]:
    """The fields that differ, those with a label first, such as the caption. Those of one label with equal values are one row."""
    every = sorted(changes, key=lambda it: place_of(it)[0])
    names = grouped(((place_of(it)[1], *_values(it), it.note), it.name) for it in every)
    return [(those, *row[1:]) for row, those in names.items()]


def _values(change: FieldDifference) -> tuple[_Side, _Side]:
    less, more = lists_of(change) or ([], [])
    if less == more or change.note:
        return sides(change)
    shown = tuple(map(escaped, tell_apart([*less, *more])))
    return shown[: len(less)] or None, shown[len(less) :] or None


def _marked(marker: Marker, before: _Side, after: _Side) -> tuple[Pieces | None, Pieces | None]:
    """Both values in pieces: words, or whole members of a list."""
    if isinstance(before, str) or isinstance(after, str):
        return marker.marked(before, after)  # type: ignore[arg-type]  # neither is a list then
    return _members(before or (), after), _members(after or (), before)


def _members(members: Sequence[str], others: Sequence[str] | None) -> Pieces | None:
    known = set(members if others is None else others)
    pieces = [piece for it in members for piece in (Piece("; ", False), Piece(it, it not in known))]
    return tuple(pieces[1:]) or None


def _is_as_it_was(path: bytes | None, known: Known) -> bool:
    """Whether a file is there, as a catalogue knows it."""
    now = Stamp.at(path) if path else None
    return bool(now and known.stamp and is_as_before(now, known.stamp))


def _path(head: bytes, name: bytes) -> bytes:
    return name if name.startswith(b"/") else head + name
