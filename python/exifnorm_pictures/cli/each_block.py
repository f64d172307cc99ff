"""The judged blocks of the pictures that are given by name, as `show` and `explain` print them in words."""

from __future__ import annotations

import os
from typing import Callable, Iterator

from ..extract import coded_picture
from ..extract.extraction import blocks_of_named
from ..files.opening import held
from ..model.budgets import Budget
from ..model.problems import Problem
from ..model.texts import escaped, shown_path
from ..picture import Block, Picture
from .exit_codes import SUCCESS, UNKNOWN
from .options import Files, Run
from .output import lacks_some, no_block, note_sidecar, picture_cut, print_lines, unread
from .names import each_name, is_catalogue, is_list


Describe = Callable[[Picture, Block], list[str]]


def status_of(picture: Picture, is_about_file: bool = False) -> int:
    """The status of a command that prints the blocks or texts of a picture, or what is wrong with its file."""
    return UNKNOWN if lacks_some(picture, picture.not_read) or (is_about_file and picture.damage) else SUCCESS


def each_picture(files: Files, run: Run, is_about_file: bool = False) -> Iterator[Picture]:
    """The pictures that are named; also with the damage of what is no metadata, if all of the file matters. What is printed of one is written
    before the next name of standard input is read."""
    for name in each_name(files):
        note_sidecar(name)
        with held(name):
            read = blocks_of_named(name, run.session, run.whole)
            if is_about_file and not read.problem:
                read.damage = read.damage or coded_picture.of_file(name, Budget()).damage
            yield Picture._of(name, read)


def each_block(
    files: Files,
    run: Run,
    describer: Callable[[], Describe],
    refused_too: bool = False,
    of_rest: Callable[[Picture], list[str]] = picture_cut,
) -> int:
    """Prints something about each block of each picture, for which `describer` is called once, and what `of_rest` says of one that is damaged. Returns the greatest status."""
    worst = SUCCESS
    for picture in each_picture(files, run, refused_too):
        worst = max(worst, status_of(picture, refused_too))
        _print(files.command, picture, [f"== {shown_path(picture.path)}"] if is_list(files) else [], describer(), refused_too)
        print_lines(of_rest(picture))
        if picture.not_read and not picture._problem:
            print_lines([f"not wholly read: {', '.join(unread(picture, picture.not_read))}"])
    return worst


_OF_CATALOGUE = (
    f"{Problem.NO_PICTURE}: a catalogue, and no picture. show --captions and list print its texts, report explains what is refused"
)


def _print(command: str, picture: Picture, head: list[str], describe: Describe, refused_too: bool) -> None:
    if picture._problem:
        line = f"{picture._problem}: {picture._detail}"
        if os.path.isdir(picture.path):
            line = _of_folder(command, picture.path)
        elif picture._problem == Problem.NO_PICTURE and is_catalogue(picture.name):
            line = _OF_CATALOGUE
        print_lines([*head, line])
        return
    for block in picture.blocks:
        is_described = block.is_accepted or block.repair or refused_too
        lines = describe(picture, block) if is_described else [f"{block.name}: {block._record.line}"]
        if lines:
            print_lines([*head, *lines])
            head = []
    if not picture.blocks:
        print_lines([*head, no_block(picture)])


def _of_folder(command: str, name: bytes) -> str:
    """What to do with a folder where pictures are expected."""
    import shlex  # which nothing else needs

    files = escaped(os.path.join(shlex.quote(os.fsdecode(name)), "*"))
    return f"a folder: {command} takes pictures, such as {files}; show --captions, check and index take folders"
