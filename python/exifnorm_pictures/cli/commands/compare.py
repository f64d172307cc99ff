"""The command `compare`: two pictures side by side."""

from __future__ import annotations

import argparse
import os
import shutil

from exifnorm._hints import Iterator, Sequence

from ...comparison.coded import Coded, coded_result
from ...comparison.two_pictures import MORE, ComparedPair, FieldRow, compare, read, rows_of, with_position
from ...comparison.wording import NONE, tag_of
from ...fields.choosing import Choice, lines, members_of
from ...fields.field import Field
from ...fields.block_fields import fields_of
from ...files.opening import held
from ...model.budgets import COMPARED_FIELDS
from ...model.found import XMP_FILE, other_name
from ...model.records import BlockRecord, PictureRecord
from ...model.problems import NO_BYTES
from ...model.texts import Members, Result, escaped, shown_path
from ...scan.walk import How
from ..choice import choice_of, refuse_unknown
from ..names import refuse_folders
from ..exit_codes import SUCCESS, UNKNOWN
from ..options import Fields, group_of, groups_of
from ..output import Table, columns, note_sidecar, picture_object, print_lines, print_object, status_of_results, table_of, unread_members


def run(arguments: argparse.Namespace) -> int:
    """Compares two pictures."""
    _, run, output = groups_of(arguments)
    how = How(1, whole=run.whole, pixels=True, seconds=run.limit, debug=run.session.debug, programs=run.session.programs)
    names = [os.fsencode(it) for it in (arguments.before, arguments.after)]
    paths = [os.path.abspath(it) for it in names]
    with held(paths[0]), held(paths[1]):
        refuse_folders(arguments.before, arguments.after)
        (old, head), (new, other) = (read(it, how, run.session) for it in paths)
    choice = _choice(group_of(Fields, arguments), old, new)
    comparison = compare(old, new, run.session if run.session.programs else None, choice, (head, other))
    rows = rows_of(comparison, output.exact)
    rows = rows if output.exact else with_position(rows, old, new)
    choice.add_left_out(comparison.left_out)
    for name in names:
        note_sidecar(name)
    table = table_of(output, "field, before, after, exact before, exact after, note")
    if output.json:
        print_object("compare", "comparison", _members(comparison, rows, names, choice))
    elif table:
        _print_table(table, comparison, rows, names, list(lines(choice)))
    else:
        print_lines(_lines(comparison, rows, names, output.exact, list(lines(choice))))
    return _status(comparison)


def _choice(fields: Fields, *records: PictureRecord) -> Choice:
    """The fields that count. Raises `UnknownField` for a name that is no field's, and that neither picture has."""
    choice = choice_of(fields)
    if choice and _sees_all(choice, [block for record in records for block in record.blocks]):
        refuse_unknown(choice, ())
        choice.absent = choice.unseen_words()
        with_note = sum(any(block.note is not None for block in it.blocks) for it in records)
        choice.maker_notes = with_note if choice.asks_for_private else 0
    return choice


def _sees_all(choice: Choice, blocks: Sequence[BlockRecord]) -> bool:
    """Lets a choice see the fields of blocks until all its words fit one. Whether it has seen all that matter: pages of a TIFF can share a block
    of many fields, of which only a word with a bracket or a wildcard can tell them apart."""
    names: dict[int, list[Field]] = {}
    left = COMPARED_FIELDS
    for block in blocks:
        key = id(block.fresh)
        if key in names and not any(set("(*?") & set(word) for word in choice.unseen_words()):
            continue
        if key not in names:
            names[key] = list({(it.directory, it.tag): it for it in fields_of(block)}.values())
        fields = names[key]
        left -= len(fields)
        if left < 0:
            return False
        choice.see(fields, other_name(block.name))
    return True


def _status(comparison: ComparedPair) -> int:
    if comparison.is_identical or comparison.is_empty:
        return SUCCESS
    if any(it.problem in NO_BYTES for it in comparison.records):
        return UNKNOWN
    return status_of_results([comparison.result])


# The page


def _lines(comparison: ComparedPair, rows: Sequence[FieldRow], names: Sequence[bytes], exact: bool, notes: Sequence[str]) -> Iterator[str]:
    yield _sentence(comparison, rows)
    if comparison.is_identical:
        yield from notes
        return
    if comparison.is_empty:
        yield from [_of_pictures(comparison, names)] * (comparison.compared.picture != Coded.UNKNOWN)
        yield from notes
        return
    if any(it.problem for it in comparison.records):
        yield from _problems(comparison, names)
        return
    # `_of_pictures` says the rest of a damaged file
    note = comparison.compared.note.removeprefix(f"{coded_result(*comparison.records)[1]}; ")
    if comparison.compared.picture == Coded.BESIDE:  # which `_of_pictures` says, too
        note = note.removesuffix(f"; {', '.join(comparison.compared.parts)}")
    yield f"{note[:1].upper()}{note[1:]}. {_of_pictures(comparison, names)}".rstrip()
    if any(not it.is_accepted for record in comparison.records for it in record.blocks):
        yield "More about a block that isn't accepted: exifnorm-pictures explain PICTURE"
    yield from notes
    if rows:
        yield ""
        yield from _table(_heads(names), rows, exact)


def _sentence(comparison: ComparedPair, rows: Sequence[FieldRow]) -> str:
    if comparison.is_identical:
        return "The two files are identical, byte for byte."
    if comparison.is_empty:
        return "Nothing to compare: neither picture has Exif, IPTC or XMP."
    if comparison.result.sentence:
        return comparison.result.sentence
    equal = sum(it.is_equal_number for it in rows)
    has_more = rows[-1:] == [MORE]
    real = len(rows) - equal - has_more
    what = [f"{'more than ' * has_more}{real} field{'s' * (real != 1)} differ{'s' * (real == 1)}"] if real else []
    what += [f"{equal} equal number{'s are' if equal != 1 else ' is'} only written otherwise"] if equal else []
    head = "Different metadata" + (" after a repair in memory" if comparison.result == Result.DIFFERENT_REPAIRED else "")
    return f"{head}: {', and '.join(what)}." if what else f"{head}."


def _of_pictures(comparison: ComparedPair, names: Sequence[bytes]) -> str:
    """What is known of the coded pictures; nothing if only some fields are compared."""
    if comparison.has_only_fields:
        return "Only these fields were compared."
    types, coded = {it.type for it in comparison.records}, comparison.compared.picture
    if coded == Coded.UNKNOWN and XMP_FILE in types:
        return "Only metadata was compared: an XMP file has no picture."
    if coded == Coded.UNKNOWN and len(types) > 1:
        return "Only metadata was compared: the pictures are in two formats."
    damages = [f"{shown_path(name)} is damaged: {it.damage}." for name, it in zip(names, comparison.records) if it.damage]
    parts = f": {', '.join(comparison.compared.parts)}." * (coded == Coded.BESIDE)
    return " ".join(damages) or f"{coded.sentence}{parts}"


def _heads(names: Sequence[bytes]) -> list[str]:
    """The names of the two files, or if these are equal, of the nearest folders that differ."""
    parts = (it.split(b"/")[::-1] for it in names)
    return [shown_path(it) for it in next((pair for pair in zip(*parts) if pair[0] != pair[1]), names)]


def _table(heads: Sequence[str], rows: Sequence[FieldRow], exact: bool) -> Iterator[str]:
    """The fields and their values in two columns."""
    table: list[Sequence[str]] = [("", *heads)]
    for equal in (False, True):
        shown = [it for it in rows if it.is_equal_number == equal]
        if equal and shown:
            table.append(("Equal, but written otherwise:",))
        table += [_cells(it, exact or equal) for it in shown]
    return columns(table, shutil.get_terminal_size((100, 24)).columns)


def _cells(row: FieldRow, exact: bool) -> Sequence[str]:
    if row.note:
        return (row.name, escaped(row.note))
    name = f"{row.name} {tag_of(row.differences[0])}".rstrip() if exact and len(row.differences) == 1 else row.name
    return (name, *(NONE if text is None else escaped(text) if not exact else text for text in (row.exact if exact else row.plain)))


def _problems(comparison: ComparedPair, names: Sequence[bytes]) -> list[str]:
    return [f"{shown_path(name)}: {it.problem}: {it.detail}" for name, it in zip(names, comparison.records) if it.problem]


# --csv


def _print_table(table: Table, comparison: ComparedPair, rows: Sequence[FieldRow], names: Sequence[bytes], notes: Sequence[str]) -> None:
    """A row for each field that differs, and at the end one for each reason why the answer isn't whole."""
    for row in rows:
        table.row(row.name, *row.plain, *row.exact, row.note or ("equal number" if row.is_equal_number else None))
    problems = _problems(comparison, names)
    note = "" if problems or not comparison.compared.note else f" ({comparison.compared.note})"
    for text in notes:
        table.row(*(None,) * 5, text)
    if _status(comparison) == UNKNOWN:
        table.row(*(None,) * 5, "; ".join([_sentence(comparison, rows) + note, *problems]))


# --json


def _members(comparison: ComparedPair, rows: Sequence[FieldRow], names: Sequence[bytes], choice: Choice) -> Members:
    pictures = []
    for name, picture in zip(names, comparison.records):
        about = {"type": picture.type or None, **unread_members(picture)}
        pictures.append({**picture_object(name, picture.problem, picture.detail), **about})
    return {
        "pictures": pictures,
        "result": comparison.result,
        "identical_files": comparison.is_identical,
        "coded_picture": Coded.SAME if comparison.is_identical else comparison.compared.picture,
        "note": comparison.compared.note or None,
        "kinds": {it.kind: it.result for it in comparison.compared.verdicts},
        "proved": comparison.proved.blocks,
        "proved_with_xmp": comparison.proved.all,
        "fields": [_row_members(it) for it in rows],
        "left_out": comparison.left_out,
        **members_of(choice),
    }


def _row_members(row: FieldRow) -> Members:
    sides = {word: _side_members(row, side) for side, word in enumerate(("before", "after"))}
    return {"name": row.name, **sides, "equal_number": row.is_equal_number, "note": row.note or None}


def _side_members(row: FieldRow, side: int) -> Members | None:
    """The value before or after; its typed form only if the row is one field."""
    from ...fields.typed import together  # which takes long to import

    if row.plain[side] is None:
        return None
    fields = (row.differences[0].before, row.differences[0].after)[side] if len(row.differences) == 1 else ()
    return {"plain": row.plain[side], "exact": row.exact[side], "value": together(fields) if fields else None}
