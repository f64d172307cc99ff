"""The command `forget`."""

from __future__ import annotations

import argparse
import os

from ...catalogue.store import Catalogue, roll_back
from ...model.texts import path_members, pictures_in_words, shown_path
from ..looking import written_files_of
from ..names import named, settle_first
from ..exit_codes import SUCCESS
from ..options import Files, Output, group_of
from ..output import answer


def run(arguments: argparse.Namespace) -> int:
    """Removes folders and pictures from a catalogue; the files stay."""
    name, others = settle_first(group_of(Files, arguments))
    names = named(others)
    files = written_files_of(name) or [name]
    for file in files:
        roll_back(file)
        Catalogue(file).close()  # it is one; a missing one isn't made
    for folder in names:
        count = sum(_forgotten(file, os.path.abspath(folder)) for file in files)
        line = f"{shown_path(folder)}: {pictures_in_words(count)} forgotten"
        answer(group_of(Output, arguments), "forget", "folder", {**path_members(folder), "forgotten": count}, [line])
    return SUCCESS


def _forgotten(file: str, path: bytes) -> int:
    """How many pictures a catalogue forgets."""
    with Catalogue(file, make=True) as catalogue:
        return catalogue.forget(path)
