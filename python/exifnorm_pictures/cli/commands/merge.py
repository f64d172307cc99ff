"""The command `merge`."""

from __future__ import annotations

import argparse

from ...catalogue import shards
from ..looking import files_of, say_missing
from ..exit_codes import SUCCESS
from ..options import Output, Run, group_of
from ..output import answer


def run(arguments: argparse.Namespace) -> int:
    """Joins catalogues."""
    for name in filter(shards.is_folder, arguments.catalogues):
        say_missing(shards.shards_of(name), group_of(Run, arguments))
    count = shards.merge(arguments.catalogue, [file for name in arguments.catalogues for file in files_of(name) or [name]])
    answer(group_of(Output, arguments), "merge", "summary", {"pictures": count}, [f"{count} pictures"])
    return SUCCESS
