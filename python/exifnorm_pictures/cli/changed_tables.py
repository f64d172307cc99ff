"""The results of `changed` as a table (--csv) and as objects (--json), picture by picture."""

from __future__ import annotations

import contextlib
from collections import Counter
from itertools import chain, islice
from typing import Iterable, Iterator, NamedTuple, Sequence

from ..comparison.changed.edit_groups import Group
from ..comparison.changed.edits import BRACKETS, Edit, edit_of, head_of, line_of, steps_of
from ..comparison.changed.states import Compared
from ..comparison.changed.summary import (
    LONGEST_NAMES,
    MOST_NAMES,
    State,
    Summary,
    fitting,
    history,
    lacking_of,
    results_of,
    sentence,
    shown_name,
)
from ..comparison.coded import Coded
from ..comparison.wording import IN, KEPT, OUT, FieldDifference, Step, exact_side, line_of as line_of_field, plain_sides
from ..fields.choosing import Choice, lines as lines_of_choice, members_of
from ..fields.field import Field
from ..fields.listing import MAKER_NOTE
from ..fields.names import exact_key, group_name
from ..fields.typed import together
from ..judge.maker_notes import NoteDifference
from ..model.texts import Members, Result, escaped, in_words, path_members, path_or_none, pictures_in_words, safe, shown_path
from .looking import opened
from .exit_codes import SUCCESS, UNKNOWN
from .options import Output, Run
from .output import Table, local_time, print_lines, print_object, status_of_results, width

# The page of `changed`: groups of pictures that were edited alike, and those that changed like no
# other, on about 30 lines.

LINES = 30  # of the page
LEAST, ODD = 4, 8  # groups, and pictures that changed like no other, however many results there are
EDITS = 4  # of a picture or group
LONGEST = 600  # characters of an edit
COLOURS = {OUT: "\x1b[31;9m", IN: "\x1b[32;4m"}  # red and struck through, green and underlined


class Style(NamedTuple):
    """How words are marked, and how many columns a terminal has."""

    screen: int | None = None
    colours: bool = False


def lines(
    summary: Summary,
    counts: "Counter[Result]",
    notes: Sequence[str] = (),
    style: Style = Style(),
    by_stem: bool = False,
) -> Iterator[str]:
    """The page, with some notes after the results."""
    results = [*map(safe, results_of(summary, counts)), *map(safe, notes)]
    groups = summary.kinds.groups()
    odd = [it for it in groups if it.is_odd]
    alike = sorted((it for it in groups if not it.is_odd), key=lambda it: (it.is_of_numbers, -it.pictures))
    texts = [[*_group(it, style)] for it in alike]
    pictures = [[*_picture(it, style)] for it in odd[:LINES]]
    room = LINES - len(results) - 6
    shown = _fitting(texts, LEAST, room - min(sum(map(len, pictures)), room // 2))
    many = _fitting(pictures, ODD, room - sum(map(len, texts[:shown])))
    yield sentence(counts, by_stem)
    yield from [""] * bool(alike)
    yield from chain(*texts[:shown])
    yield from _smaller(alike[shown:])
    yield from summary.kinds.notes()
    yield from _odd(pictures[:many], len(odd))
    yield from ["", *results] if results else []
    yield from _hint(counts, bool(alike), by_stem)


def _odd(texts: Sequence[list[str]], count: int) -> Iterator[str]:
    """The pictures that changed like no other, as far as there is room."""
    if count:
        yield from ["", f"{pictures_in_words(count)} changed like no other:", *chain(*texts)]
    if count > len(texts):
        yield f"  and {count - len(texts):,} more, which --json has"


def _hint(counts: "Counter[Result]", has_groups: bool, by_stem: bool) -> Iterator[str]:
    if any(counts[it] for it in counts if it.has_changed is not False):
        yield from ["", f"--each lists each picture with its fields{', --edit N the pictures of a group' * has_groups}."]
    if not by_stem and counts[Result.MISSING_AFTER] and counts[Result.MISSING_BEFORE]:
        yield "--match stem pairs pictures by name, as a.tif with a.jpg."


def _smaller(groups: Sequence[Group]) -> Iterator[str]:
    """How many groups there is no room for."""
    if groups:
        most, least = groups[0].pictures, groups[-1].pictures
        sizes = f"{least:,}" if least == most else f"{least:,} to {most:,}"
        yield f"{len(groups):,} more group{'s' * (len(groups) > 1)} of {sizes} pictures"


def _fitting(texts: Sequence[list[str]], least: int, room: int) -> int:
    """How many of some texts there is room for."""
    taken = 0
    for number, text in enumerate(texts):
        taken += len(text)
        if taken > room and number >= least:
            return number
    return len(texts)


def _picture(group: Group, style: Style) -> Iterator[str]:
    yield f"  {shown_name(group.names[0])}"
    edits = group.firsts[0][1]
    for edit in edits[:EDITS]:
        yield from _edit(f"    {head_of(edit)}", edit, True, style)
    if len(edits) > EDITS:
        yield f"    and {in_words(len(edits) - EDITS, 'more edit')}"


def _group(group: Group, style: Style) -> Iterator[str]:
    head = f"{pictures_in_words(group.pictures)} (edit {group.number}): "
    for edit, places in zip(group.edits[:EDITS], group.places):
        yield from _edit(head + head_of(edit, places, group.pictures), edit, False, style)
        head = " " * len(head)
    if len(group.edits) > EDITS:
        yield f"{head}and {in_words(len(group.edits) - EDITS, 'more edit')}"
    names = list(islice(fitting(map(shown_name, group.names), LONGEST_NAMES), MOST_NAMES))
    yield f"  {', '.join(names)}{' ..' * (len(names) < group.pictures)}"
    yield from (f"  {it.line}" for it in lacking_of(group))


def _edit(head: str, edit: Edit, is_one: bool, style: Style) -> Iterator[str]:
    """The lines of an edit: one, or on a terminal as many as it takes, broken between words."""
    steps = steps_of(edit, is_one)
    words = _words([Step(KEPT, head + ": " * bool(steps)), *_limited(steps)], style)
    indent = len(head) - len(head.lstrip())
    line, taken = "", 0
    for at, word in enumerate(words):
        wide = sum(width(it.text) for it in word)
        if style.screen and line.strip() and taken + 1 + wide > style.screen:
            yield line
            line, taken = " " * (indent + 2), indent + 1
        elif at:
            line += " "
        line += "".join(_coloured(it) if style.colours else it.text for it in word)
        taken += wide + bool(at)
    yield line


def _words(steps: Sequence[Step], style: Style) -> list[list[Step]]:
    """Each word of a terminal's line, in pieces; all in one if lines aren't broken."""
    words: list[list[Step]] = [[]]
    for sign, text in steps:
        shown = safe(text if sign == KEPT or style.colours else text.join(BRACKETS[sign]))
        first, *others = shown.split(" ") if style.screen else [shown]
        words[-1].append(Step(sign, first))
        words += [[Step(sign, it)] for it in others]
    return words


def _coloured(step: Step) -> str:
    return f"{COLOURS[step.sign]}{step.text}\x1b[m" if step.sign != KEPT and step.text else step.text


def _limited(steps: Sequence[Step]) -> Iterator[Step]:
    """The words, without those for which there is no room."""
    left = LONGEST
    for sign, text in steps:
        if left <= 0:
            yield Step(KEPT, " ..")
            return
        yield Step(sign, text if len(text) <= left else f"{text[:left]} ..")
        left -= len(text)


Comparisons = Iterable[Compared]

_MAKER_NOTE = group_name(*MAKER_NOTE)
HEADS = "picture, result, moved to, field, before, after, exact before, exact after, note, coded picture, edit, partner, edit number"


def print_table(table: Table, comparisons: Comparisons, choice: Choice) -> None:
    """A row for each field that differs, and one for each other picture."""
    summary = Summary(choice, 1)
    for comparison in comparisons:
        about = (comparison.name, comparison.result, comparison.moved_to)
        beside = (comparison.partner, summary.add(comparison) or None)
        coded = comparison.picture
        for change in comparison.changes:
            values = (*plain_sides(change), *map(exact_side, (change.before, change.after)))
            values = (None,) * 4 if change.note else values
            note, edit = change.note or comparison.note, line_of(edit_of(change))
            table.row(*about, change.name, *values, note, coded, edit, *beside)
        for value in comparison.maker_note or ():
            name, note = f"{_MAKER_NOTE} {value.name}", "as ExifTool reads it"
            sides = (value.before, value.after, None, None)
            table.row(*about, name, *sides, note, coded, None, *beside)
        if not comparison.changes:
            table.row(*about, *(None,) * 5, comparison.note, coded, None, *beside)
    for text in lines_of_choice(choice, True):
        table.row(*(None,) * 8, text)


def print_objects(
    comparisons: Comparisons,
    counts: "Counter[Result]",
    choice: Choice,
    pictures: "Counter[Coded]",
) -> None:
    """An object for each picture, and one for all with the groups of those edited alike."""
    summary = Summary(choice, 1)
    for comparison in comparisons:
        print_object("changed", "picture", {**_members(comparison), "edit": summary.add(comparison) or None})
    known = {
        "counts": dict(counts),
        "left_out": dict(choice.left_out),
        "labels": choice.labels(),
        "coded_pictures": dict(pictures),
        "edits": [_group_members(it) for it in summary.kinds.groups()],
        "edits_not_grouped": summary.kinds.further,
        **members_of(choice),
    }
    print_object("changed", "summary", known)


def _group_members(group: Group) -> Members:
    edits = [
        {
            "name": it.edit.name,
            "fields": it.edit.fields,
            "note": it.edit.note or None,
            "words": [step._asdict() for step in it.edit.core],
            "lacking": {name: few.pictures for name, few in it.odd().items()},
        }
        for it in group.counted
    ]
    return {"pictures": group.pictures, "first": path_members(group.names[0]), "edit": group.kinds, "edits": edits}


def _members(comparison: Compared) -> Members:
    damage = {side: it or None for side, it in zip(("before", "after"), comparison.damage)}
    return {
        **path_members(comparison.name),
        "result": comparison.result,
        "note": comparison.note or None,
        "coded_picture": comparison.picture,
        "damage": damage,
        "moved_to": path_or_none(comparison.moved_to),
        "partner": path_or_none(comparison.partner),
        "kinds": {one.kind: one.result for one in comparison.verdicts},
        "maker_note": _note_members(comparison.maker_note),
        "repairs": [
            {"name": name, "before": [it._asdict() for it in before], "after": [it._asdict() for it in after]}
            for name, before, after in comparison.repairs
        ],
        "fields": [field_members(one) for one in comparison.changes],
        "left_out": comparison.left_out,
    }


def _note_members(differences: Sequence[NoteDifference] | None) -> Members | None:
    """What ExifTool reads of a MakerNote; None if it wasn't asked."""
    if differences is None:
        return None
    values = [it._asdict() for it in differences]
    return {"reads": "otherwise" if values else "the same", "values": values}


def field_members(difference: FieldDifference) -> Members:
    """A field that differs, as an object."""
    before, after = plain_sides(difference)
    return {
        "name": difference.name,
        "directory": difference.directory,
        "key": exact_key(difference.directory, difference.tag),
        "block": difference.block or None,
        "before": _side_members(before, difference.before),
        "after": _side_members(after, difference.after),
        "equal_number": difference.is_equal_number,
        "note": difference.note or None,
    }


def _side_members(plain: str | None, fields: tuple[Field, ...]) -> Members | None:
    return {"plain": plain, "exact": exact_side(fields), "value": together(fields)} if fields else None


def history_of(path: bytes, names: Sequence[str], run: Run, output: Output) -> int:
    """Prints the history of the picture with this path in some catalogues."""
    status = SUCCESS
    with contextlib.ExitStack() as open_:
        catalogues = [open_.enter_context(opened(name, run, in_one_file=True)) for name in names]
        for state in history(path, catalogues):
            status = max(status, _status(state))
            if output.json:
                print_object("history", "state", _state_members(state))
            else:
                print_lines(_lines(state))
    return status


def _status(state: State) -> int:
    if state.may_be_elsewhere:
        return UNKNOWN
    return status_of_results([state.comparison.result] if state.comparison else [])


def _lines(state: State) -> Iterator[str]:
    head = f"{local_time(state.when)}  {escaped(state.catalogue)}: "
    if not state.comparison:
        seen = "there again" if state.is_back else "first seen"
        yield head + (f"{seen} as {shown_path(state.path)}" if state.path is not None else _absent(state, "not there"))
        return
    yield head + (_result(state.comparison, state.path) if state.path is not None else _absent(state, "gone"))
    yield from (f"  {line_of_field(change)}" for change in state.comparison.changes)


def _absent(state: State, word: str) -> str:
    return _ELSEWHERE if state.may_be_elsewhere else word


_ELSEWHERE = "its name isn't there. Whether it has another name, and was edited too, only catalogues of index --pixels can tell"


def _result(comparison: Compared, path: bytes) -> str:
    to = f" to {shown_path(path)}" if comparison.moved_to is not None else ""
    return comparison.result + to + f" ({comparison.note})" * bool(comparison.note)


def _state_members(state: State) -> Members:
    comparison = state.comparison
    note = _ELSEWHERE if state.may_be_elsewhere else comparison and comparison.note
    return {
        "catalogue": state.catalogue,
        "when": state.when or None,
        "picture": path_or_none(state.path),
        "result": comparison and comparison.result,
        "note": note or None,
        "fields": [field_members(change) for change in comparison.changes] if comparison else [],
    }
