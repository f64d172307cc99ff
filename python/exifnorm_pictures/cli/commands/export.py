"""The command `export`."""

from __future__ import annotations

import argparse
import os
import sys
from datetime import datetime, timezone
from typing import Iterator, Mapping

import exifnorm

from ...catalogue.store import BESIDE, Catalogue
from ...export.rows import VERSION, Export, Tables, head_is_ours, tables
from ...fields.choosing import of_maker_notes
from ...files import atomic
from ...model.errors import WrongUse
from ...model.texts import in_words, path_members, shown_path
from ..looking import files_of, opened
from ..names import chosen_in, say_unknown
from ..exit_codes import SUCCESS
from ..options import groups_of
from ..output import answer


def run(arguments: argparse.Namespace) -> int:
    """Writes a catalogue as plain tables of SQLite."""
    _refuse_table(arguments.file)
    files, run, output = groups_of(arguments)
    name = arguments.source
    with opened(name, run) as catalogue:
        file = os.path.join(run.session.room, "export")
        with tables(file) as written:
            _add_about(written, catalogue)
            only = chosen_in(catalogue, files)
            work = Export(catalogue, written, only, None if arguments.no_look else run.session)
            work.all(run.quiet or not sys.stderr.isatty())
        atomic.put_copy(arguments.file, file, head_is_ours, tuple(files_of(name)), BESIDE)
        say_unknown(catalogue.not_there(only))
    counts = {name: written.counts.get(name, 0) for name in "pictures fields captions conflicts groups".split()}
    about = {
        **path_members(os.fsencode(arguments.file)),
        "rows": counts,
        "texts_not_kept": work.missing,
        "absent_groups": work.groups.absent,
        "maker_notes_not_read": work.maker_notes,
    }
    answer(output, "export", "summary", about, _lines(arguments.file, counts, work))
    return SUCCESS


def _lines(file: str, counts: Mapping[str, int], work: Export) -> Iterator[str]:
    rows = ", ".join(f"{in_words(count, 'row')} of {name}" for name, count in counts.items())
    yield f"{shown_path(file)}: {rows}"
    if work.missing:
        which = "picture has" if work.missing == 1 else "pictures have"
        yield f"{work.missing:,} {which} a text that is NULL: it is too long for the catalogue"
    if work.maker_notes:
        yield of_maker_notes(work.maker_notes)
    if work.groups.absent:
        which = "group is left out, because its" if work.groups.absent == 1 else "groups are left out, because their"
        yield f"{work.groups.absent:,} {which} files are gone or have changed since they were indexed"


def _refuse_table(name: str) -> None:
    """Raises `WrongUse` for the name of a file that a program for spreadsheets would open."""
    ending = os.path.splitext(name)[1].lower()
    if ending in ".csv .tsv .xls .xlsx .ods .json".split():
        tables_ = "show --captions, changed, check and same print tables with --csv, and write them with --xlsx"
        raise WrongUse(f"{shown_path(name)}: catalogue export writes a database of SQLite, whose name doesn't end with {ending}; {tables_}")


def _add_about(written: Tables, catalogue: Catalogue) -> None:
    """What was written, from what, when and by which version."""
    now = datetime.now(timezone.utc).strftime("%Y-%m-%d %H:%M:%S")
    runs = catalogue.runs()
    last = next((it for it in reversed(runs) if it[2]), None)
    about = {
        "schema": str(VERSION),
        "exifnorm": exifnorm.version(),
        "exported": now,
        "catalogue": os.path.abspath(catalogue.name),
        "indexed": runs[-1][0] if runs else "",
        "indexed by": (last[2] if last else None) or "",
    }
    written.add("about", list(about.items()))
