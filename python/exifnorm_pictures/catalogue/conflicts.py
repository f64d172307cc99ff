"""Contradictions inside one picture: labels for which its Exif, IPTC and XMP have different texts, and how these differ."""

from __future__ import annotations

import itertools
import re
import unicodedata
from collections import Counter
from datetime import datetime
from typing import Iterator, NamedTuple, Optional, Sequence

from exifnorm._words import documented

from ..fields.labels import DATE, LABELS, POSITION, Caption, Captions, Label
from ..fields.places import Located, is_same_place, metres_apart
from ..model.found import EXIF, IPTC, NAMES, STANDARDS, XMP
from ..model.texts import Word, grouped


class ConflictKind(Word):
    """How the texts of a label differ. Of several, the last one in this order counts."""

    text: str  # of the summary of rules of agreement

    ALIKE = ("alike",)
    ORDER = ("another order", "a list in another order")
    EMPTY = ("empty", "an empty field")
    CAMERA = ("camera's text", "a camera's own text")
    JOINED = ("joined", "a list in one text")
    CUT = ("cut", "a text that IPTC has cut")
    CHARACTERS = ("character set", "a wrong or undeclared character set")
    DIFFERENT = ("different",)


documented(Caption)  # here: many commands import its module, and need nothing of exifnorm

_LONGEST = 160  # characters of a text in a line
_ORDER = tuple(ConflictKind)
_CLEAREST = (NAMES[XMP], NAMES[IPTC], NAMES[EXIF])  # the order in which two texts are compared: that which is least often cut first


@documented
class Conflict(NamedTuple):
    """A label with texts in two standards at least, and how these differ.

    - `label`: the label
    - `kind`: a word: "alike", "another order", "empty", "camera's text", "joined", "cut", "character set" or "different"
    - `detail`: more about it
    - `texts`: those of each field
    - `worse`: the fields whose text is cut or in a wrong character set
    """

    label: str
    kind: ConflictKind
    detail: str
    texts: tuple[Caption, ...]
    worse: tuple[str, ...] = ()

    @property
    def is_alike(self) -> bool:
        """Whether they don't differ."""
        return self.kind == ConflictKind.ALIKE

    @property
    def is_real(self) -> bool:
        """Whether the texts contradict each other."""
        return self.kind == ConflictKind.DIFFERENT

    @property
    def line(self) -> str:
        """The beginning of each text, by standard."""
        return "; ".join(dict.fromkeys(f"{text.standard}: {text.line[:_LONGEST]}" for text in self.texts))


Positions = tuple[Optional[Located], Optional[Located]]  # of Exif and of XMP


class _How(NamedTuple):
    kind: ConflictKind
    detail: str = ""
    worse: str = ""  # a field


def conflicts(texts: Captions, positions: Positions = (None, None)) -> list[Conflict]:
    """The labels with texts in two standards at least, and the position if Exif and XMP have one. An XMP sidecar counts beside them."""
    by_label = grouped((it.label, it) for it in texts if it.is_compared)
    several = {word: ours for word, ours in by_label.items() if len(set(map(_source, ours))) > 1}
    due = [(label, several[label.word]) for label in LABELS if label.word in several] if several else []
    of_labels = [_conflict(label, ours) for label, ours in due if not all(it.is_empty for it in ours)]
    return [*of_labels, *_of_positions(*positions)]


def _source(text: Caption) -> tuple[str, str]:
    """The standard that a text is of, or the sidecar."""
    return text.standard, text.block


def _of_positions(exif: Located | None, xmp: Located | None) -> Iterator[Conflict]:
    """The positions of Exif and XMP: they differ if they are further apart than the last place in which the less exact one is written."""
    if exif is None or xmp is None:
        return
    both = ((NAMES[EXIF], "GPS", exif.place.text), (NAMES[XMP], "XMP-exif", xmp.place.text))
    texts = tuple(Caption(POSITION, standard, f"{group}:GPSLatitude and GPSLongitude", (text,)) for standard, group, text in both)
    if is_same_place(exif, xmp):
        yield Conflict(POSITION, ConflictKind.ALIKE, "", texts)
        return
    metres = metres_apart(exif.place, xmp.place)
    way = f"{metres / 1000:,.0f} km" if metres >= 10_000 else f"{metres:,.0f} m" if metres >= 10 else f"{metres:.1f} m"
    yield Conflict(POSITION, ConflictKind.DIFFERENT, f"{way} apart", texts)


def _conflict(label: Label, ours: Captions) -> Conflict:
    shown = tuple(sorted(ours, key=lambda it: STANDARDS.index(it.standard)))
    if _are_same(ours):  # as nearly all
        return Conflict(label.word, ConflictKind.ALIKE, "", shown)
    hows = list(_hows(label, ours))
    kind = max((it.kind for it in hows), key=_ORDER.index, default=ConflictKind.ALIKE)
    details = dict.fromkeys(it.detail for it in hows if it.detail and (it.kind == kind or kind != ConflictKind.DIFFERENT))
    worse = tuple(it.worse for it in hows if it.worse)
    return Conflict(label.word, kind, "; ".join(details), shown, worse)


def _are_same(ours: Captions) -> bool:
    """Whether nothing is to be said of some texts: all are the same, and none is empty, a camera's own or in a set that nothing declares."""
    return len({it.texts for it in ours}) == 1 and not any([it.guess or it.is_own or it.is_empty for it in ours])


def _hows(label: Label, ours: Captions) -> Iterator[_How]:
    """How the texts of a label differ: each by itself, and each pair of two standards."""
    yield from (_How(ConflictKind.EMPTY, f"{it.field} is empty") for it in ours if it.is_empty)
    yield from (_How(ConflictKind.CAMERA, f"{it.field} has a camera's own text") for it in ours if it.is_own)
    texts = sorted(_of_people(ours), key=lambda it: _CLEAREST.index(it.standard))
    for text, other in itertools.combinations(texts, 2):
        if _source(text) != _source(other):
            yield _pair(label, text, other)


def _of_people(texts: Captions) -> list[Caption]:
    """The texts that neither are empty nor a camera's own."""
    return [it for it in texts if not it.is_empty and not it.is_own]


def chosen(texts: Captions, known: Sequence[Conflict], order: Sequence[str] = STANDARDS) -> Caption | None:
    """The texts of a label where there is space for one field, which aren't a camera's: those that are whole, on which two standards agree, and
    the first in the order of the standards. Those of further blocks, such as of a second page, are taken where the first ones have none."""
    worse = {field for it in known for field in it.worse}
    candidates = _of_people(texts)
    agreeing = Counter(text for text, _ in {(_plain(it.line), it.standard) for it in candidates if not it.is_extra and not it.block})
    candidates = [it for it in candidates if not it.block] or candidates

    def rank(text: Caption) -> tuple[bool, bool, bool, int]:
        return text.is_extra, text.field in worse, agreeing[_plain(text.line)] < 2, order.index(text.standard)

    candidates.sort(key=rank)
    return next(iter(candidates), None)


def best(texts: Captions, known: Sequence[Conflict]) -> str:
    """These texts in a line."""
    text = chosen(texts, known)
    return text.line if text else ""


def own_texts(texts: Captions) -> list[str]:
    """The texts that a camera or a program writes by itself, each once."""
    return list(dict.fromkeys(it.line for it in texts if it.is_own))


def _plain(text: str) -> str:
    """A text without differences that no reader sees: kinds of line ends and of blanks, and how accents are composed."""
    return " ".join(unicodedata.normalize("NFC", text).split())


def _pair(label: Label, text: Caption, other: Caption) -> _How:
    first, second = (list(filter(None, map(_plain, texts.texts))) for texts in (text, other))
    if first == second:
        return next(filter(None, map(_in_set, (text, other))), _How(ConflictKind.ALIKE))
    if label.word == DATE:
        return _How(ConflictKind.ALIKE if _is_same_time(first[0], second[0]) else ConflictKind.DIFFERENT)
    if label.is_list and (how := _lists(first, second, text, other)):
        return how
    if len(first) != len(second):
        return _How(ConflictKind.DIFFERENT, f"{text.field} has {len(first)}, {other.field} {len(second)}" if label.is_list else "")
    each = [_texts_differ(label, (mine, its), (text, other), at) for at, (mine, its) in enumerate(zip(first, second))]
    return max(each, key=lambda it: _ORDER.index(it.kind))


def _lists(first: list[str], second: list[str], text: Caption, other: Caption) -> _How | None:
    """How two lists differ as wholes; None if only their texts can tell."""
    if sorted(first) == sorted(second):
        return _How(ConflictKind.ORDER, "another order")
    for joined, apart, whose in ((first, second, text), (second, first, other)):
        if len(joined) == 1 < len(apart) and sorted(_parts(joined)) == sorted(apart):
            return _How(ConflictKind.JOINED, f"{whose.field} has the list in one text")
    for more, fewer, whose in ((second, set(_parts(first)), other), (first, set(_parts(second)), text)):
        if fewer < set(_parts(more)):
            only = [it for it in _parts(more) if it not in fewer]
            return _How(ConflictKind.DIFFERENT, f"only {whose.field} has: {', '.join(only[:5])}{' ..' if len(only) > 5 else ''}")
    return None


def _parts(texts: Sequence[str]) -> list[str]:
    return [part.strip() for text in texts for part in text.replace(",", ";").split(";") if part.strip()]


def _texts_differ(label: Label, pair: tuple[str, str], whose: tuple[Caption, Caption], at: int) -> _How:
    if pair[0] == pair[1]:
        return _How(ConflictKind.ALIKE)
    for side in (0, 1):
        for how in _explained(label, pair[side], pair[1 - side], whose[side], at):
            return how._replace(worse=whose[side].field)
    return _How(ConflictKind.DIFFERENT)


def _explained(label: Label, text: str, against: str, label_text: Caption, at: int) -> Iterator[_How]:
    """Why a text isn't the other one, although that was meant."""
    octets = label_text.octets[at] if len(label_text.octets) > at else b""
    if _without_detour(text) == against:
        yield _How(ConflictKind.CHARACTERS, f"{label_text.field} was read in a wrong character set before it was written")
    if _without_accents(text, against):
        yield _How(ConflictKind.CHARACTERS, f"{label_text.field} has ? for letters that it couldn't write")
    yield from _cut(label, label_text, text, against, len(octets))


def _in_set(text: Caption) -> _How | None:
    """How a text differs from another one by the set that it is in, even if it was found and read in this."""
    remark, _, word = text.guess.rpartition(": ")
    declares = "is not what it declares" if "declared" in remark else "nothing declares"
    how = _How(ConflictKind.CHARACTERS, f"{text.field} is in {word}, which {declares}", text.field)
    return how if word not in ("", "UTF-8", "Windows-1252") else None


def _cut(label: Label, label_text: Caption, text: str, against: str, octets: int) -> Iterator[_How]:
    """Whether an IPTC text is the beginning of another and as long as the standard allows (a character or a blank less)."""
    is_of_iptc = label_text.standard == NAMES[IPTC] and label.limit
    if is_of_iptc and octets >= label.limit - 4 and len(text) < len(against) and against.startswith(text.rstrip()):
        yield _How(ConflictKind.CUT, f"{label_text.field} is cut after {octets:,} bytes")


def _without_detour(text: str) -> str:
    """The text that was meant where UTF-8 was taken for Windows-1252 and written as UTF-8 again; empty if it can't be so.

    >>> _without_detour("KÃ¶ln"), _without_detour("Köln")
    ('Köln', '')
    """
    try:
        return _plain(text.encode("cp1252").decode("utf-8"))
    except UnicodeError:
        return ""


def _without_accents(text: str, against: str) -> bool:
    """Whether `?` replaces every letter outside ASCII, once or for each of its bytes.

    >>> _without_accents("Z?rich", "Zürich"), _without_accents("Z??rich", "Zürich"), _without_accents("What?", "What!")
    (True, True, False)
    """
    if "?" not in text or against.isascii():
        return False
    once = "".join(it if it.isascii() else "?" for it in against)
    each = "".join(it if it.isascii() else "?" * len(it.encode("utf-8")) for it in against)
    return text in (once, each)


_TIME = re.compile(r"(\d{4}(?:-\d\d){0,2})(?: (\d\d:\d\d(?::\d\d)?)(?:\.\d+)?)?(Z|[+-]\d\d:\d\d)?")


_UP_TO_UNKNOWN = re.compile(r"(\d{4}(?:-(?!00)\d\d)?)-(?:00\b|\D|$)")  # IPTC has 00 for a month or a day that isn't known, and Exif blanks


def _known(date: str) -> str:
    """A date as far as it is known.

    >>> _known("1911-00-00"), _known("1911-05-00 00:00:00"), _known("1911-05-24")
    ('1911', '1911-05', '1911-05-24')
    """
    match = _UP_TO_UNKNOWN.match(date)
    return match[1] if match else date


def _is_same_time(text: str, other: str) -> bool:
    """Whether two dates are the same as far as both are known: to the year, the month, the day, the minute or the second, with or without a
    time zone.

    >>> _is_same_time("2003-05-24", "2003-05-24 22:21:01"), _is_same_time("2003-05-24 22:21:01+02:00", "2003-05-24 20:21:01Z")
    (True, True)
    >>> _is_same_time("2003-05-00", "2003-05-24"), _is_same_time("2003-05", "2003-06-24")
    (True, False)
    """
    match, against = (_TIME.fullmatch(_known(it)) for it in (text, other))
    if not match or not against:
        return False
    if all((*match.groups(), *against.groups())):
        moment = _moment(match)
        return moment is not None and moment == _moment(against)
    first, second = (f"{it[1]} {it[2] or ''}".rstrip() for it in (match, against))
    return first.startswith(second) or second.startswith(first)


def _moment(match: "re.Match[str]") -> datetime | None:
    """A time with its zone; None of one that there isn't, as in a month 13."""
    try:
        return datetime.fromisoformat(f"{match[1]} {match[2]}{'+00:00' if match[3] == 'Z' else match[3]}")
    except ValueError:
        return None
