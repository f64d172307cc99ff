"""The command `report`."""

from __future__ import annotations

import argparse
import contextlib
import os
import sys
from typing import Sequence

from ...files import atomic, folders
from ...report import contents
from ...report.rendering import check
from ...scan.progress import Progress
from ..choice import choice_for
from ..exit_codes import SUCCESS
from ..options import Fields, group_of, groups_of
from ..looking import files_of, opened
from ..names import chosen_paths, say_unknown
from .check import rules_of_file


def run(arguments: argparse.Namespace) -> int:
    """Writes a page or a folder of pages about a catalogue."""
    files, run, _ = groups_of(arguments)
    name = arguments.source
    check()
    address = contents.check_address(arguments.link_to) if arguments.link_to else ""
    rules = rules_of_file(arguments.rules) if arguments.rules else []
    chosen = chosen_paths(files)
    with contextlib.ExitStack() as open_:
        catalogue = open_.enter_context(opened(name, run, bool(arguments.since)))
        old = open_.enter_context(opened(arguments.since, run, True)) if arguments.since else None
        choice = choice_for(group_of(Fields, arguments), *filter(None, (catalogue, old)))
        about = contents.About(catalogue, old, chosen, not arguments.no_look, choice, run.session, arguments.title, address, rules)
        names = [name, *[arguments.since] * bool(old)]
        write_report(about, arguments.html, [file for one in names for file in files_of(one)])
        say_unknown(catalogue.not_there(about.table()))
    return SUCCESS


MARK = "exifnorm-report"  # the list of the files of a folder, by which it is known to be a report


def write_report(about: contents.About, name: str, kept: Sequence[str]) -> None:
    """Writes one page, or a folder of pages if the name ends with a slash or is a folder's. It may replace an earlier report, and nothing else;
    least of all one of the catalogues `kept`, whose rights it gets. Raises `NotReplaced`, and `TooLarge` for one page."""
    out = os.fsencode(name)
    about.beside = os.path.join(os.path.dirname(os.path.abspath(out.rstrip(b"/"))), b"")
    try:
        if name.endswith("/") or os.path.isdir(out):
            about.up = "../"
            with folders.replaced(out, MARK, kept) as folder:
                folder.write("index.html", _octets(_shown(about, folder)))
        else:
            octets = _octets(_shown(about, None))
            atomic.replace(out, lambda file: file.writelines([octets]), _is_page, tuple(kept))
    except atomic.NotReplaced as error:
        raise atomic.NotReplaced(atomic.not_written(name, error)) from None


def _shown(about: contents.About, folder: folders.NewFolder | None) -> str:
    """The first page, after all others were written in a folder."""
    from ...report import book as books, small_pictures  # which take long to import

    def put(page: str, text: str) -> None:
        assert folder
        folder.write(page, _octets(text))

    book = books.Book(about, put, small_pictures.InFolder(folder)) if folder else books.Book(about)
    progress = Progress(book.counts.total, quiet=not sys.stderr.isatty())
    book.done = progress.done
    progress.start()
    try:
        return book.index()
    finally:
        progress.clear()


def _octets(page: str) -> bytes:
    return page.encode("utf-8", "backslashreplace")


def _is_page(head: bytes) -> bool:
    return head[:14].lower() == b"<!doctype html"
