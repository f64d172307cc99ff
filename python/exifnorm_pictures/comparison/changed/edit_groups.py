"""Pictures with the same edits as groups, the smallest first, in memory that is limited however
many pictures there are."""

from __future__ import annotations

from collections import Counter, defaultdict
from dataclasses import dataclass, field
from typing import Collection, Iterable, Sequence

from ...model.found import STANDARDS
from ...model.texts import pictures_in_words
from ..wording import IN, KEPT, OUT, Differences, Step, look
from .edits import NUMBERED, line_of, NUMBERS, Edit, Edits, digest, edits_of, places_of, numberless

# Different sets of edits, and edits of all of them. Nobody reads so many groups, and they take
# 11 MB at most; pictures of further sets are counted, which the page says.
KINDS, EDITS = 5_000, 20_000
NAMES = 20_000  # names of pictures, besides the first one of each kind
# Pictures with words of their own in a field: so many are read one by one. If there are more,
# they are one group, but for those whose words have another shape.
OWN = 10
MOST_PLACES = 20  # names of dates that are counted
LONGEST = 300  # characters of words that are kept of an edit: of each step
FIRST = 3  # pictures that are named beside a group
_SIGNS = (("~", ""), (IN, "added, "), (OUT, "removed, "))
OTHERWISE = {sign: f"{word}different words in each" for sign, word in _SIGNS}


@dataclass
class Lacking:
    """Pictures that weren't edited in a standard that they have."""

    pictures: int = 0
    names: list[bytes] = field(default_factory=list)  # the first ones

    def add(self, pictures: int, names: Iterable[bytes]) -> None:
        """Counts more pictures."""
        self.pictures += pictures
        self.names = [*self.names, *names][:FIRST]


@dataclass
class Counted:
    """An edit, and what is counted of the pictures with it."""

    edit: Edit  # of the first picture
    key: bytes
    shape: bytes
    value: str  # that it gave to all pictures; empty if they differ
    places: "Counter[str]" = field(default_factory=Counter)  # pictures, by standard
    lacking: dict[str, Lacking] = field(default_factory=dict)

    def add(self, name: bytes, edit: Edit, standards: Collection[str]) -> None:
        """Counts one more picture, which has these standards."""
        places = places_of(edit)
        if _kept(edit.value) != self.value:
            self.value = ""
        if len(self.places) < MOST_PLACES:
            self.places.update(map(_short_name, places))
        if places and places[0] in STANDARDS:
            for it in standards:
                if it not in places:
                    self.lacking.setdefault(it, Lacking()).add(1, [name])

    def join(self, other: "Counted") -> None:
        """Counts the pictures of another kind."""
        self.places += other.places
        for it, lacking in other.lacking.items():
            self.lacking.setdefault(it, Lacking()).add(lacking.pictures, lacking.names)

    def odd(self) -> dict[str, Lacking]:
        """The standards in which this edit was made in most pictures that have them, and the few
        pictures in which it wasn't."""
        return {it: few for it, few in self.lacking.items() if few.pictures < self.places[it]}


@dataclass
class Kind:
    """The pictures with the same edits."""

    edits: list[Counted]
    names: list[bytes] = field(default_factory=list)  # the first pictures
    pictures: int = 0


@dataclass
class Group:
    """Pictures that were edited alike."""

    counted: list[Counted]
    pictures: int = 0
    names: list[bytes] = field(default_factory=list)  # the first pictures
    kinds: list[int] = field(default_factory=list)  # the numbers of the kinds that it has
    # the first picture of each kind, with its own edits
    firsts: "list[tuple[bytes, list[Edit]]]" = field(default_factory=list)

    @property
    def number(self) -> int:
        """Its number."""
        return self.kinds[0]

    @property
    def is_odd(self) -> bool:
        """Whether it is one picture that changed like no other."""
        return self.pictures == 1

    @property
    def is_of_numbers(self) -> bool:
        """Whether numbers are only written otherwise, and nothing else was edited."""
        return {it.edit.name for it in self.counted} == {NUMBERS}

    @property
    def edits(self) -> list[Edit]:
        """What all of its pictures have in common."""
        return [it.edit for it in self.counted]

    @property
    def places(self) -> "list[Counter[str]]":
        """In how many pictures each edit was in which standard."""
        return [it.places for it in self.counted]

    def words(self, is_whole: bool = True) -> list[str]:
        """Its edits in words, of one picture with the text around them if `is_whole`."""
        edits = self.firsts[0][1] if self.is_odd else self.edits
        return [line_of(it, self.is_odd and is_whole) for it in edits]

    def show_exactly(self, mark: str = "") -> None:
        """Writes characters that don't show as numbers, and a mark behind the names of edits."""
        for it in self.counted:
            it.edit = _exact(it.edit, mark)
        self.firsts = [(name, [_exact(it, mark) for it in edits]) for name, edits in self.firsts]


@dataclass
class Kinds:
    """Counts the edits of pictures. Each picture is of one kind, or is a further one if there are
    too many kinds."""

    has_parts: bool = True
    most_names: int = 1  # of the pictures of a kind that are kept
    further: int = 0  # pictures with edits that aren't among the kinds
    kinds: list[Kind] = field(default_factory=list)
    _numbers: dict[tuple[bytes, ...], int] = field(default_factory=dict)
    _edits: int = 0
    _names: int = 0

    def add(
        self,
        name: bytes,
        changes: Differences,
        standards: Collection[str] = (),
    ) -> int:
        """Adds a picture with the fields that differ, and with the standards that it has. Returns
        the number of its kind from 1 on, or 0 if it has none."""
        edits = edits_of(changes, self.has_parts) if changes else {}
        if not edits:
            return 0
        identity = tuple(sorted(key for key, it in edits.items() if not it.is_minor))
        number = self._numbers.get(identity) or self._new(identity, edits)
        if not number:
            self.further += 1
            return 0
        kind = self.kinds[number - 1]
        kind.pictures += 1
        self._add_name(kind, name)
        for counted in kind.edits:
            if counted.key in edits:
                counted.add(name, edits[counted.key], standards)
        return number

    def notes(self) -> list[str]:
        """What is said of pictures that aren't grouped."""
        many = pictures_in_words(self.further)
        return [f"More than {KINDS:,} kinds of edit: {many} more, which aren't grouped"] * bool(self.further)

    def _new(self, identity: tuple[bytes, ...], edits: Edits) -> int:
        """The number of a new kind, or 0 if there are too many."""
        if len(self.kinds) >= KINDS or self._edits + len(edits) > EDITS:
            return 0
        self._edits += len(edits)
        counted = (Counted(_short(it), key, it.shape, _kept(it.value)) for key, it in edits.items())
        self.kinds.append(Kind(list(counted)))
        self._numbers[identity] = len(self.kinds)
        return len(self.kinds)

    def _add_name(self, kind: Kind, name: bytes) -> None:
        if not kind.names or (len(kind.names) < self.most_names and self._names < NAMES):
            self._names += bool(kind.names)
            kind.names.append(name)

    def groups(self) -> list[Group]:
        """The groups, the smallest first. Kinds are joined if they set a field to the same value,
        whatever it was before, or if each picture of many has an edit of its own."""
        joins = _Joins(self.kinds)
        joined: dict[tuple[bytes, ...], Group] = {}
        for number, kind in enumerate(self.kinds, 1):
            found = joins.of(kind)
            identity = tuple(sorted(found))
            known = joined.get(identity)
            group = joined[identity] = known or Group(list(found.values()))
            for it in group.counted if known else ():
                it.join(found[it.key])
            group.pictures += kind.pictures
            group.names = [*group.names, *kind.names][: max(self.most_names, 1)]
            group.kinds.append(number)
            group.firsts.append((kind.names[0], [it.edit for it in kind.edits]))
        groups = sorted(joined.values(), key=lambda it: (it.is_of_numbers, it.pictures, it.names[0]))
        for group in _alike(groups):
            group.show_exactly()
        for group in _alike(groups):
            group.show_exactly(digest(repr([it.key for it in group.counted])).hex()[:8])
        return groups


class _Joins:
    """Which edits of several kinds are one."""

    def __init__(self, kinds: Sequence[Kind]) -> None:
        self._pictures: "Counter[bytes]" = Counter()
        self._setting: dict[tuple[str, str], set[bytes]] = defaultdict(set)
        self._shapes: dict[bytes, set[bytes]] = defaultdict(set)
        all_ = [(it, kind.pictures) for kind in kinds for it in kind.edits]
        for it, pictures in all_:
            self._pictures[it.key] += pictures
            self._setting[it.edit.name, it.value].add(it.key)
            self._shapes[it.shape].add(it.key)
        self._own = Counter((it.edit.name, it.edit.sign) for it, _ in all_ if self._is_own(it))

    def _sets(self, it: Counted) -> bool:
        return bool(it.value) and len(self._setting[it.edit.name, it.value]) > 1

    def _has_shape(self, it: Counted) -> bool:
        return not it.edit.note and len(self._shapes[it.shape]) > OWN

    def _is_own(self, it: Counted) -> bool:
        is_one = self._pictures[it.key] == 1 and not it.edit.note
        return is_one and not self._sets(it) and not self._has_shape(it)

    def of(self, kind: Kind) -> dict[bytes, Counted]:
        """The edits of a kind that count, as its group has them."""
        found: dict[bytes, Counted] = {}
        for it in kind.edits:
            edit, key = self._joined(it)
            one = Counted(edit, key, it.shape, it.value, Counter(it.places))
            one.join(Counted(edit, key, it.shape, it.value, lacking=it.lacking))
            if key in found:
                found[key].places |= it.places
            elif not edit.is_minor:
                found[key] = one
        return found

    def _joined(self, it: Counted) -> tuple[Edit, bytes]:
        edit = it.edit
        if self._sets(it):
            edit = edit._replace(steps=(Step(IN, edit.value),), note="", is_list=False)
            return edit, digest(repr((edit.name, it.value)))
        if self._has_shape(it):
            return edit._replace(steps=numberless(edit.core), note=NUMBERED), it.shape
        if self._is_own(it) and self._own[edit.name, edit.sign] > OWN:
            edit = edit._replace(steps=(), note=OTHERWISE[edit.sign])
            return edit, edit.key
        return edit, it.key


def _alike(groups: Sequence[Group]) -> list[Group]:
    """The groups whose edits look alike in words."""
    looks = [look("\n".join(it.words())) for it in groups]
    counts = Counter(looks)
    return [it for it, one in zip(groups, looks) if counts[one] > 1]


def _exact(edit: Edit, mark: str) -> Edit:
    name = f"{edit.name} (SHA-256 {mark} ..)" if mark else edit.name
    return edit._replace(name=name, is_exact=True)


def _kept(value: str) -> str:
    """A value, or what equals only that of an equal one."""
    return value if len(value) <= LONGEST else digest(value).hex()


def _short(edit: Edit) -> Edit:
    """An edit with limited texts: of words that were kept the beginning and the end are there."""
    return edit._replace(
        name=_short_name(edit.name),
        steps=tuple(map(_short_step, edit.steps[:MOST_STEPS])),
        value=_short_step(Step(IN, edit.value)).text,
        fields=tuple(_short_name(it) for it in edit.fields[:20]),
    )


MOST_STEPS = 100  # that are kept of an edit


def _short_name(name: str) -> str:
    """A name that may be long. Its digest distinguishes it from others that begin alike."""
    if len(name) <= LONGEST:
        return name
    return f"{name[:LONGEST]} .. (SHA-256 {digest(name).hex()})"


def _short_step(step: Step) -> Step:
    sign, text = step
    if len(text) <= LONGEST:
        return step
    half = LONGEST // 2
    short = f"{text[:half]} .. {text[-half:]}" if sign == KEPT else f"{text[:LONGEST]} .."
    return Step(sign, short)
