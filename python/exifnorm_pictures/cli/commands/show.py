"""The command `show`."""

from __future__ import annotations

import argparse
from typing import Iterator

from ...fields.listing import LIMITS, readable
from ...model import steps
from ...model.found import PROGRAMS
from ...model.texts import escaped
from ...picture import Block, Picture, ShownFields
from ..each_block import Describe, each_block, each_picture, status_of
from ..exit_codes import SUCCESS, UNKNOWN
from ..options import Least, groups_of
from ..output import Table, no_block, picture_cut, print_object, table_of, unread, width


def run(arguments: argparse.Namespace) -> int:
    """Lists the fields of pictures."""
    files, run, output = groups_of(arguments)
    if arguments.captions:
        from .. import labelled

        return labelled.run(files, run, output)
    if not output.json and not output.csv:
        return each_block(files, run, lambda: _describer(output.exact, run.least))
    worst = SUCCESS
    table = table_of(output, "picture, block, field, key, type, count, value, exact value, note")
    for picture in each_picture(files, run):
        shown = ShownFields()
        if table:
            _print_rows(table, picture, shown)
        else:
            print_object("show", "picture", picture._members(shown))
        worst = max(worst, status_of(picture), UNKNOWN if shown.left_out else SUCCESS)
    return worst


_MORE = f"further fields are not shown: more than {LIMITS}"


# Lines


def _describer(exact: bool, least: Least) -> Describe:
    """What makes the lines of each block of a picture."""
    shown = ShownFields()

    def lines_of(_: Picture, block: Block) -> list[str]:
        by = f", extracted by {PROGRAMS[block.extractor]}" if block.extractor in PROGRAMS else ""
        fields = shown.of(block)
        # the column is always the same, so that a further field changes no other line
        plain = (f"  {it.name}{' ' * max(0, _COLUMN - width(it.name))}  {escaped(it.text)}" for it in fields)
        lines = list(readable(fields, block.name + by)) if exact else [f"{block.name}{by}:", *plain]
        if shown.has_more:
            lines.append(f"  {_MORE}")
            least.status = UNKNOWN
        return lines if block.is_accepted else [*_repaired(block), *lines[1:]]

    return lines_of


_COLUMN = 30  # characters of a name, of which few have more


def _repaired(block: Block) -> list[str]:
    """The lines before fields that are read after a repair."""
    text = f"  read after repair in memory ({steps.words(block._record.steps)}), which is tested, and not proved; the file is as it was"
    lost = [f"  the repair loses {' and '.join(block.loses)}: nothing is called the same by it"] * bool(block.loses)
    return [f"{block.name}: {block._record.line}", text, *lost]


# --csv


def _print_rows(table: Table, picture: Picture, shown: ShownFields) -> None:
    """A row for each field, and one for all that isn't one: a refused block, a part that was not read, a picture without a block."""
    for block in picture.blocks:
        note = "read after repair in memory" if block.repair else None
        if not block.is_accepted:
            repair = f"; repaired in memory: {steps.words(block._record.steps)}" if note else ""
            table.row(picture.path, block.name, *_NO_FIELD, block._record.line + repair)
        for field in shown.of(block):
            values = (field.name, field.key, field.type, field.count, field.text, field.exact)
            table.row(picture.path, block.name, *values, note)
        if shown.has_more:
            table.row(picture.path, block.name, *_NO_FIELD, _MORE)
    for text in _notes(picture):
        table.row(picture.path, None, *_NO_FIELD, text)


_NO_FIELD = (None,) * 6


def _notes(picture: Picture) -> Iterator[str]:
    """What a picture has instead of fields, and what was not read of it."""
    if picture._problem:
        yield f"{picture._problem}: {picture._detail}"
    elif not picture.blocks:
        yield no_block(picture)
    yield from (f"not read: {what}" for what in unread(picture, picture.not_read))
    yield from picture_cut(picture)
