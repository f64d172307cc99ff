"""Edits: what somebody did to the fields of a picture, so that equal edits of many pictures are
one, and the odd ones are seen.

The edit of a text is the words that were taken out and put in, not its two values; of a list its
members. Dates that all moved by the same time are one edit, and so is the same edit of one text in
Exif, IPTC and XMP.
"""

from __future__ import annotations

import functools
import hashlib
import re
from collections import Counter, defaultdict
from datetime import datetime, timedelta
from itertools import chain
from typing import Iterator, NamedTuple, Optional, Sequence

from ...fields.choosing import SAVES
from ...fields.field import Field
from ...fields.labels import POSITION, label_of_fields
from ...fields.listing import MAKER_NOTE
from ...fields.names import group_name
from ...fields.plain_texts import text_of, xmp_texts
from ...model.found import EXIF, NAMES
from ..wording import IN, KEPT, OUT, Differences, FieldDifference, Marker, Step, numbered, plain_sides

# Steps of comparing words, for a text: two that have 100 words each, blanks and signs among them.
# A longer middle is one edit as a whole, which is coarser and still true.
STEPS = 10_000
# Edits of a picture. No person makes so many; of a stranger's picture with more, the further ones
# are one edit, which equals another's only if all of them are equal.
MOST = 100
# Fields of a block that came with a text, and that don't count: Photoshop and ExifTool write up to
# six of their own into a new block, as versions, character set, resolution and toolkit.
FEW = 6
# A date that moved by a multiple of this was moved by somebody: all time zones differ by quarters
# of an hour. A program that saves writes the time of the day, once in 900 s such a multiple.
_QUARTER = timedelta(minutes=15)
WHOLE, SMALL = "whole", "small"  # a block or directory that came or went
DATES, PROGRAMS, NUMBERS = "dates", "what programs write by themselves", "equal numbers"
FURTHER = "further fields"
BY_THEMSELVES = (*SAVES, "IPTC:EnvelopeRecordVersion", "IPTC:ApplicationRecordVersion")
# DataSets that IPTC-NAA IIM 4.2 allows to be repeated, and that are lists of texts
_REPEATED = "2:12 2:20 2:25 2:26 2:27 2:80 2:85 2:118 2:122".split()
_DIGITS = re.compile(r"\d+")
_DONE = {IN: "added", OUT: "removed", "~": "other bytes"}


Steps = tuple[Step, ...]


class Edit(NamedTuple):
    """What somebody did to a text, a list or another value.

    `steps` are all its words, or those members of a list that came or went. `note` is in place of
    words: `removed`, `1 h later`.
    """

    name: str  # the label of its fields, such as `caption`, or the name of the field
    steps: Steps = ()
    note: str = ""
    fields: tuple[str, ...] = ()
    value: str = ""  # the new value; empty if there is none
    is_list: bool = False
    is_minor: bool = False  # whether it counts only if it is all that was edited
    is_exact: bool = False  # whether characters that don't show are written as their numbers

    @property
    def sign(self) -> str:
        """`+` for a value that came where there was none, `-` for one that went, and `~` for one
        that changed."""
        signs = {it.sign for it in self.steps}
        return "~" if self.note or len(signs) != 1 else signs.pop()

    @property
    def core(self) -> Steps:
        """What equal edits have in common: what was taken out and put in, and whether that is
        between kept words."""
        signs = [it.sign for it in self.steps]
        if not self.is_list and KEPT not in signs:  # only the new value counts
            return tuple(it for it in self.steps if it.sign == IN)
        # what took the place of words, and what was removed, may be anywhere in a text
        first = signs[:2] == [KEPT, OUT]
        last = len(signs) - (signs[-1:] == [KEPT] and OUT in signs[max(first, len(signs) - 3) : -1])
        return tuple(Step(it.sign, "" if it.sign == KEPT else it.text.strip() or it.text) for it in self.steps[first:last])

    @property
    def key(self) -> bytes:
        """Equal for equal edits."""
        words = [*chain(*self.core)] if not self.note else self.name == FURTHER and self.value
        return digest(repr((self.name, self.note, words)))

    @property
    def shape(self) -> bytes:
        """Equal for edits whose words differ only in their digits."""
        return digest(repr((self.name, self.note, [*chain(*numberless(self.core))])))


def numberless(steps: Sequence[Step]) -> Steps:
    """Words with `#` in place of each number."""
    return tuple(Step(it.sign, _DIGITS.sub("#", it.text)) for it in steps)


def places_of(edit: Edit) -> list[str]:
    """In which standards an edit was, which dates moved, or the labels of the texts that went with
    a block; nothing if the name says it."""
    if edit.note in ("removed", "added"):
        labels = {label_of_fields().get(it, "") for it in edit.fields}
        if "" not in labels and edit.name not in labels:
            return sorted(labels, key=lambda it: _order()[it])
    if edit.fields[:1] == (edit.name,):
        return []
    if edit.name == DATES:
        return list(dict.fromkeys(it.rpartition(":")[2] for it in edit.fields))
    groups = {re.split("[:-]", it)[0] for it in edit.fields}
    return sorted({NAMES.get(it.lower(), NAMES[EXIF]) for it in groups})


def digest(text: str) -> bytes:
    """A short form of a text that may be long."""
    return hashlib.sha256(text.encode("utf-8", "surrogatepass")).digest()[:16]


Edits = dict[bytes, Edit]  # by their keys


def edits_of(changes: Differences, has_parts: bool = True) -> Edits:
    """The edits of a picture, with their keys, by the fields that differ: those with a label first,
    and last what programs write by themselves. A block or directory that came or went is one edit,
    but for the texts that came with it, unless only some fields are compared."""
    edits: Edits = {}
    for edit in _single(changes, _parts(changes) if has_parts else {}):
        _add(edits, edit)
    major = [(key or it.key, it) for key, it in edits.items() if not it.is_minor]
    major.sort(key=lambda it: (_order().get(it[1].name, len(_order())), it[1].name))
    names = tuple(name for it in edits.values() if it.is_minor for name in it.fields)
    minor = Edit(PROGRAMS, (), "changed", names, is_minor=bool(major))
    return dict([*major, (minor.key, minor)] if names else major)


def _add(edits: Edits, edit: Edit) -> None:
    """Adds an edit to those of a picture, of which equal ones are one."""
    key = edit.key
    known = edits.get(key)
    if known:
        fields = tuple(dict.fromkeys((*known.fields, *edit.fields)))
        edits[key] = known._replace(fields=fields, is_minor=known.is_minor and edit.is_minor)
    elif len(edits) < MOST:
        edits[key] = edit
    else:
        earlier = edits[b""].value if b"" in edits else ""
        edits[b""] = Edit(FURTHER, (), "changed", value=digest(f"{earlier} {key.hex()}").hex())


_Part = tuple[str, str]  # whether it came or went, and its name


def _parts(changes: Differences) -> dict[_Part, str]:
    """The blocks and directories that came or went. A small one isn't an edit by itself: what
    counts are the texts that came with it, or the only one that went with it."""
    parted = [it for it in changes if it.part]
    texts = defaultdict(set)
    for change in parted:
        if _has_label(change):
            texts[change.sign, change.part].add(_name(change))
    counts = Counter((it.sign, it.part) for it in parted)
    return {it: SMALL if count <= FEW and (it[0] == IN or len(texts[it]) == 1) else WHOLE for it, count in counts.items()}


def _single(changes: Differences, parts: dict[_Part, str]) -> Iterator[Edit]:
    """The edits of single fields, and of those that are one: dates that moved, and positions that
    didn't go with a block or directory."""
    moved = shifts(changes)
    left = _without(changes, [it for fields in moved.values() for it in fields])
    positions = [it for it in left if _is_position(it, parts)]
    yield from (_of_dates(shift, fields) for shift, fields in moved.items())
    yield from _positions(positions) if positions else ()
    yield from (_edit(change, parts.get((change.sign, change.part), "")) for change in _without(left, positions))


def _without(changes: Differences, others: Differences) -> Differences:
    """The changes but for these ones."""
    known = set(map(id, others))
    return [it for it in changes if id(it) not in known] if known else changes


def _of_dates(shift: timedelta, fields: Differences) -> Edit:
    names = tuple(it.name for it in fields)
    before, after = (side or "" for side in plain_sides(fields[0]))
    is_minor = bool(shift % _QUARTER) and set(names) <= set(BY_THEMSELVES)
    return Edit(DATES, (Step(OUT, before), Step(IN, after)), in_words(shift), names, after, is_minor=is_minor)


def _is_position(change: FieldDifference, parts: dict[_Part, str]) -> bool:
    if _name(change) != POSITION or change.note or change.is_equal_number:
        return False
    return change.sign != OUT or parts.get((OUT, change.part)) != WHOLE


def edit_of(change: FieldDifference) -> Edit:
    """The edit of one field by itself."""
    return next(_single([change], {}), _edit(change, ""))


@functools.lru_cache(maxsize=1)
def _order() -> dict[str, int]:
    return {label: at for at, label in enumerate(dict.fromkeys(label_of_fields().values()))}


def _name(change: FieldDifference) -> str:
    name = group_name(change.directory, change.tag)
    return label_of_fields().get(name, name) + (f" ({change.block})" if change.block else "")


def place_of(change: FieldDifference) -> tuple[int, str]:
    """The place of a field among others, by its label, and what it is about."""
    name = _name(change)
    return _order().get(name, len(_order())), name


def _has_label(change: FieldDifference) -> bool:
    return group_name(change.directory, change.tag) in label_of_fields()


def _edit(change: FieldDifference, of_part: str) -> Edit:
    has_label = _has_label(change)
    if change.is_equal_number:
        return Edit(NUMBERS, (), "written otherwise", (change.name,))
    if of_part == WHOLE and (change.sign == OUT or not has_label):
        return Edit(change.part, (), _DONE[change.sign], (change.name,) * has_label)
    note = _note_of(change)
    edit = Edit(_name(change), (), note, (change.name,)) if note else _of_values(change)
    is_minor = change.name in BY_THEMSELVES or (of_part == SMALL and not has_label)
    return edit._replace(is_minor=True) if is_minor else edit


def _note_of(change: FieldDifference) -> str:
    """What is said in place of words."""
    if change.note:
        return change.note.partition(":")[0]  # without the number of values
    is_thumbnail = change.directory == "thumb" and change.tag in ("jpeg", "strip")
    return _DONE[change.sign] if is_thumbnail or change[:2] == MAKER_NOTE else ""


def _of_values(change: FieldDifference) -> Edit:
    """The words that changed, or the members of a list."""
    name, fields = _name(change), (change.name,)
    before, after = (side or "" for side in plain_sides(change))
    if not change.after:
        return Edit(name, (Step(OUT, before),), "removed", fields)
    lists = lists_of(change)
    if lists:
        return _of_list(name, *lists, fields)
    steps = _script(before, after)
    if not any(it.sign == KEPT and it.text.strip() for it in steps):
        steps = (*(Step(OUT, before),) * bool(before), Step(IN, after))
    return Edit(name, steps, "", fields, after)


@functools.lru_cache(maxsize=8)
def _script(before: str, after: str) -> Steps:
    """How a text becomes another one: often the same in Exif, IPTC and XMP."""
    return tuple(Marker(STEPS).script(before, after))


# Lists


def lists_of(change: FieldDifference) -> tuple[list[str], list[str]] | None:
    """The members of a list before and after; None for a field that is none, or has one on both sides."""
    less, more = _members(change.before), _members(change.after)
    return None if less is None or more is None or len(less) == len(more) == 1 else (less, more)


def _of_list(name: str, before: list[str], after: list[str], fields: tuple[str, ...]) -> Edit:
    """What a list has more and less."""
    less, more = Counter(before) - Counter(after), Counter(after) - Counter(before)
    steps = [Step(OUT, it) for it in sorted(less.elements())]
    steps += [Step(IN, it) for it in sorted(more.elements())]
    order = "the same list in another order" if before != after else "written otherwise"
    return Edit(name, tuple(steps), "" if steps else order, fields, "; ".join(after), True)


def _members(fields: Sequence[Field]) -> list[str] | None:
    """The members of a list of texts; None for a field that is none."""
    if not fields:
        return []
    first = fields[0]
    if first.directory == "iptc" and first.tag in _REPEATED:
        return [it.text for it in fields]
    texts = xmp_texts(first) if len(fields) == 1 and first.type in ("Bag", "Seq") else None
    return None if texts is None else [f"{text} ({language})" if language else text for text, language in texts]


# Positions


def _positions(changes: Differences) -> Iterator[Edit]:
    """The latitude and the longitude as one text, of Exif and of XMP."""
    for is_xmp in (False, True):
        mine = [it for it in changes if (it.directory == "xmp") == is_xmp]
        before, after = (", ".join(filter(None, (plain_sides(it)[at] for it in mine))) for at in (0, 1))
        steps = (Step(OUT, before),) * bool(before) + (Step(IN, after),) * bool(after)
        if steps:
            yield Edit(POSITION, steps, "" if after else "removed", tuple(it.name for it in mine), after)


_DATE = re.compile(r"(\d{4})[:-](\d\d)[:-](\d\d)[ T](\d\d):(\d\d)(?::(\d\d))?(.*)", re.S)
_IPTC_DATE, _IPTC_TIME = re.compile(r"(\d{4})(\d\d)(\d\d)()()()()"), re.compile(r"()()()(\d\d)(\d\d)(\d\d)(.*)", re.S)
_IPTC = {"2:55": _IPTC_DATE, "2:60": _IPTC_TIME, "2:62": _IPTC_DATE, "2:63": _IPTC_TIME}
_TIME_OF = {"2:55": "2:60", "2:62": "2:63"}  # the DataSet of the time of a date
_DATE_OF = {time: date for date, time in _TIME_OF.items()}


def shifts(changes: Differences) -> dict[timedelta, list[FieldDifference]]:
    """The dates that moved, by how much later they are. The date and the time of IPTC move together,
    as over midnight."""
    found: dict[timedelta, list[FieldDifference]] = {}
    by_tag = {(it.tag, it.block): it for it in changes if it.directory == "iptc"}
    for change in changes:
        fields = _together(change, by_tag)
        moved = [_shift(it) for it in fields]
        known = [it for it in moved if it is not None]
        shift = sum(known, timedelta())
        if shift and len(known) == len(moved):
            found.setdefault(shift, []).extend(fields)
    return found


_ByTag = dict[tuple[str, str], FieldDifference]


def _together(change: FieldDifference, by_tag: _ByTag) -> list[FieldDifference]:
    """A date with its time; nothing for a time whose date has it."""
    if change.directory != "iptc":
        return [change]
    if (_DATE_OF.get(change.tag, ""), change.block) in by_tag:
        return []
    of_time = by_tag.get((_TIME_OF.get(change.tag, ""), change.block))
    return [change, of_time] if of_time else [change]


def _shift(change: FieldDifference) -> timedelta | None:
    """How much later a date is, if it is one on both sides, with the same time zone: with another
    one that isn't known."""
    if len(change.before) != 1 or len(change.after) != 1 or change.note:
        return None
    first, second = (_date_of(it[0]) for it in (change.before, change.after))
    return second[0] - first[0] if first and second and first[1] == second[1] else None


def _date_of(field: Field) -> tuple[datetime, str] | None:
    """The time of a date, and what follows it; None for a field that is none, or for a date that
    isn't in the calendar."""
    form = _IPTC.get(field.tag, _DATE) if field.directory == "iptc" else _DATE
    match = None if isinstance(field.content, bytes) and not field.content[:1].isdigit() else form.fullmatch(_text(field))
    if not match:
        return None
    numbers = [int(it or least) for it, least in zip(match.groups(), (2000, 1, 1, 0, 0, 0))]
    try:
        return datetime(*numbers), match[7]  # type: ignore[arg-type]
    except ValueError:
        return None


def _text(field: Field) -> str:
    if field.directory != "xmp":
        return text_of(field) or ""
    texts = xmp_texts(field) or []
    return texts[0][0] if len(texts) == 1 else ""


def in_words(shift: timedelta) -> str:
    """How much later or earlier.

    >>> in_words(timedelta(hours=1)), in_words(timedelta(days=-2, seconds=-1))
    ('1 h later', '2 days 1 s earlier')
    """
    time = abs(shift)
    rest = time.seconds
    parts = [(time.days, "day" if time.days == 1 else "days"), (rest // 3600, "h"), (rest // 60 % 60, "min"), (rest % 60, "s")]
    return f"{' '.join(f'{number:,} {word}' for number, word in parts if number)} {'later' if shift > timedelta() else 'earlier'}"


# Edits in words, with what was taken out and put in marked apart from the text around it.

AROUND = 40  # characters of kept text that are shown on each side of what changed
NUMBERED = "different numbers in each"
_BRACKET = re.compile(r"([-\[\]{}+])")
_VERBS = ("removed", "added", "changed", "written otherwise")
BRACKETS = {OUT: ("[-", "-]"), IN: ("{+", "+}")}  # as git marks words


def head_of(edit: Edit, places: "Optional[Counter[str]]" = None, pictures: int = 1) -> str:
    """What was edited, and in which standards; and how, if that has no words. Of several pictures `places` has in how many each standard was.

    >>> edit = Edit("caption", (), "removed", ("IPTC:Caption-Abstract", "XMP-dc:description"))
    >>> head_of(edit), head_of(edit, Counter({"IPTC": 5, "XMP": 3}), 5)
    ('caption (IPTC, XMP) removed', 'caption (IPTC, XMP in 3) removed')
    """
    counts = places or Counter(places_of(edit))
    words = [place if count >= pictures else f"{place} in {count:,}" for place, count in counts.most_common()]
    where = "" if not words or edit.name.endswith(")") else f" ({', '.join(words)})"
    if not edit.note:
        return f"{edit.name}{where}"
    return f"{edit.name}{where}{'' if edit.note in _VERBS else ':'} {edit.note}"


def steps_of(edit: Edit, is_one: bool) -> list[Step]:
    """The words of an edit: of one picture with some of the text around them, of several with `..`
    in its place; members of a list one by one."""
    if edit.note and edit.note != NUMBERED and not is_one:
        return []
    steps = edit.steps if is_one or edit.note else edit.core
    steps = tuple(map(_exactly, steps)) if edit.is_exact else steps
    if edit.is_list:
        return [*chain.from_iterable((Step(KEPT, ", "), it) for it in steps)][1:]
    return [_shown(it, at, len(steps) - 1, is_one) for at, it in enumerate(steps)]


def _shown(step: Step, at: int, last: int, is_one: bool) -> Step:
    """A step as it is shown: of words that were kept those around the others, or `..`."""
    if step.sign != KEPT:
        return step
    has_before, has_after = at > 0, at < last
    if is_one:
        return Step(KEPT, _around(step.text, has_before, has_after))
    return Step(KEPT, f"{' ' * has_before}..{' ' * has_after}")


def _exactly(step: Step) -> Step:
    """Words with the numbers of characters that don't show, or that might be brackets."""
    return step if step.sign == KEPT else Step(step.sign, _BRACKET.sub(r"<\1>", numbered(step.text)))


def _around(text: str, has_before: bool, has_after: bool) -> str:
    """Kept words, without those that are far from what changed."""
    head = text[: AROUND * has_before]
    tail = text[max(0, len(text) - AROUND * has_after) :] if has_after else ""
    if len(text) <= len(head) + len(tail) + 4:
        return text
    return f"{head.rpartition(' ')[0] or head}{' ' * bool(head)}..{' ' * bool(tail)}{tail.partition(' ')[2] or tail}"


def plain(steps: Sequence[Step]) -> str:
    """The words in a line.

    >>> plain([Step("=", "a bowl, "), Step("-", "1820"), Step("+", "1280")])
    'a bowl, [-1820-]{+1280+}'
    """
    return "".join(f"{BRACKETS[it.sign][0]}{it.text}{BRACKETS[it.sign][1]}" if it.sign in BRACKETS else it.text for it in steps)


def line_of(edit: Edit, is_one: bool = False) -> str:
    """An edit in a line.

    >>> line_of(Edit("caption", (Step("=", "a bowl"), Step("+", ", recto")), "", ("IPTC:Caption-Abstract",)))
    'caption (IPTC): .. {+, recto+}'
    """
    return ": ".join(filter(None, [head_of(edit), plain(steps_of(edit, is_one))]))
