"""The command `relocate`."""

from __future__ import annotations

import argparse
import os
from collections import Counter
from typing import Iterator

from ...catalogue import shards
from ...catalogue.store import Catalogue, NoCatalogue, roll_back
from ...model.errors import WrongUse
from ...model.texts import Members, path_members, pictures_in_words, shown_path
from ...scan.relocating import ABSENT, AS_BEFORE, CHANGED, relocated
from ..exit_codes import DIFFERENCE, SUCCESS
from ..options import Output, group_of
from ..output import answer


def run(arguments: argparse.Namespace) -> int:
    """Gives pictures of a catalogue their names below another folder; the files stay."""
    name, old, new = arguments.source, os.fsencode(arguments.old), os.fsencode(arguments.new)
    old_folder, new_folder = os.path.abspath(old), os.path.abspath(new)
    if not os.path.isdir(new):
        raise WrongUse(f"{shown_path(new)} is no folder: give the folder where the pictures of {shown_path(old)} are now")
    if new_folder.startswith(old_folder.rstrip(b"/") + b"/"):
        raise WrongUse(f"{shown_path(new)} lies below {shown_path(old)}, where the catalogue may have other pictures")
    if shards.is_of_folder(name):
        raise NoCatalogue(
            f"{shown_path(os.fsencode(name))}: each catalogue of a folder is named after its folder of pictures, by which index finds it, so none"
            " is relocated. Merge them, and relocate the merged one: exifnorm-pictures catalogue merge FOLDER --catalogue NEW"
        )
    roll_back(name)
    with Catalogue(name) as catalogue:  # it is one; a missing one isn't made
        if next(catalogue.below(old_folder), None) is None:
            raise WrongUse(f"{name} has no picture below {shown_path(old)}")
    with Catalogue(name, make=True) as catalogue:
        counts = relocated(catalogue, old_folder, new_folder)
    numbers = {"as_before": counts[AS_BEFORE], "changed": counts[CHANGED], "absent": counts[ABSENT]}
    about: Members = {"old": path_members(old), "new": path_members(new), **numbers}
    answer(group_of(Output, arguments), "relocate", "summary", about, _lines(old, new, counts))
    return DIFFERENCE if counts[CHANGED] or counts[ABSENT] else SUCCESS


def _lines(old: bytes, new: bytes, counts: "Counter[str]") -> Iterator[str]:
    yield f"{shown_path(old)}: {pictures_in_words(counts[AS_BEFORE] + counts[CHANGED] + counts[ABSENT])} now below {shown_path(new)}"
    if counts[CHANGED]:
        yield f"{counts[CHANGED]:,} with another size or modification time: the next index reads them again"
    if counts[ABSENT]:
        yield f"{counts[ABSENT]:,} not there: the next index misses them"
