"""The command `mend`."""

from __future__ import annotations

import argparse
import os
import shlex
from collections import Counter
from typing import Iterator

from ...extract import programs
from ...files import atomic
from ...files.opening import held
from ...files.session import Session
from ...model import steps
from ...model.budgets import TooMuch
from ...model.errors import WrongUse
from ...model.problems import Problem
from ...model.texts import Members, escaped, in_words, pictures_in_words, shown_path
from ...refusals import mend
from ..looking import opened
from ..names import chosen_paths, each_of_list, is_catalogue
from ..exit_codes import DIFFERENCE, FAILURE, SUCCESS, UNKNOWN
from ..options import Files, Output, Run, groups_of
from ..output import REMEDY, answer, picture_object
from ..parser import refuse


def run(arguments: argparse.Namespace) -> int:
    """Writes copies whose blocks are accepted; of several pictures also counts."""
    names = [name for name in (arguments.picture, arguments.out) if name is not None]
    with held(os.fsencode(arguments.picture or "")):  # which may be a catalogue, or the picture
        files, run, output = groups_of(arguments)
        return _mended(_settled(files._replace(names=names)), run, output, arguments.lossless)


def _mended(files: Files, run: Run, output: Output, lossless: bool) -> int:
    worst, damaged = SUCCESS, 0
    counts: "Counter[str]" = Counter()
    folder = _folder(files)
    for picture, out in _pairs(files, run, folder):
        with held(picture):
            status, result, is_damaged = _mend_one(output, run.session, picture, out, folder, lossless)
        worst, damaged = max(worst, status), damaged + is_damaged
        counts[result] += 1
    if folder is not None:
        many = ", ".join(f"{counts[it]:,} {words}" for it, words in zip(COUNTED, _WORDS) if counts[it])
        line = pictures_in_words(sum(counts.values())) + f": {many}" * bool(many)
        line += f"; {damaged:,} cut off or damaged, which no copy mends" * bool(damaged)
        answer(output, "mend", "summary", {"counts": {it: counts[it] for it in COUNTED}, "damaged": damaged}, [line])
    return worst


COUNTED = ("lossless", "lossy", "plain", "not mended")  # pictures with a copy that loses nothing, or something, a plain copy, or none
_WORDS = ("mended without loss", "with values lost or changed", "copied as they are", "not mended")


def _mend_one(
    output: Output, session: Session, picture: bytes, out: bytes, folder: bytes | None = None, lossless: bool = False
) -> tuple[int, str, bool]:
    """The status of a picture, by what it is counted, and whether its file is cut off or damaged."""
    try:
        mended = mend.mend(picture, out, session, folder, lossless)
    except (mend.NotWritten, programs.Failed, programs.Missing, TooMuch) as error:
        names: dict[type[Exception], str] = {mend.NotWritten: "NotWritten", TooMuch: Problem.TOO_MUCH, programs.TooSlow: Problem.TOO_SLOW}
        names.update({programs.Missing: Problem.NEEDS_EXIFTOOL, mend.NeedsExifTool: Problem.NEEDS_EXIFTOOL})
        problem = names.get(type(error), Problem.TOOL_FAILED)
        line = f"{shown_path(picture)}: {atomic.not_written(shown_path(out), error)}"
        answer(output, "mend", "picture", _mended_members(picture, None, problem, str(error)), [line])
        return FAILURE if isinstance(error, mend.NotWritten) else UNKNOWN, "not mended", False
    answer(output, "mend", "picture", _mended_members(picture, mended), _mended_lines(picture, mended))
    is_damaged = bool(mended.damage or mended.cut_off)
    if not mended.is_written:
        return UNKNOWN, "not mended", is_damaged
    result = "plain" if mended.remedy == mend.Remedy.COPY else "lossy" if mended.lost else "lossless"
    return UNKNOWN if is_damaged else DIFFERENCE if mended.lost else SUCCESS, result, is_damaged


def _settled(files: Files) -> Files:
    """With the first name as the catalogue, if it is one."""
    if files.catalogue is None and files.names and is_catalogue(files.names[0]):
        return files._replace(catalogue=files.names[0], names=files.names[1:])
    return files


def _folder(files: Files) -> bytes | None:
    """The folder of the copies, if there may be several. The names are those of one picture and its copy otherwise."""
    names = files.names
    if files.catalogue is None and not files.files_from:
        if len(names) != 2:
            refuse("mend", "give PICTURE and OUT, or CATALOGUE and OUT")
        if os.path.isdir(names[0]):
            folder = escaped(shlex.quote(names[0]))
            raise WrongUse(
                f"{escaped(names[0])} is a folder, and mend takes a picture or a catalogue. Write: exifnorm-pictures index {folder}"
                " --catalogue NEW, and then: exifnorm-pictures mend NEW OUT"
            )
        return None
    if len(names) != 1:
        refuse("mend", "of a catalogue or a list of pictures give the folder for the copies alone: exifnorm-pictures mend CATALOGUE OUT")
    folder = names[0]
    which = folder if os.path.lexists(folder) else os.path.dirname(folder.rstrip("/")) or "."
    if not os.path.isdir(which):
        refuse("mend", f"{which} is no folder: the copies go below a folder, which is made if the one above is there")
    return os.fsencode(folder)


def _pairs(files: Files, run: Run, folder: bytes | None) -> Iterator[tuple[bytes, bytes]]:
    """The pictures and their copies. Of a catalogue those with a block that isn't accepted."""
    if folder is None:
        picture, out = map(os.fsencode, files.names)
        yield picture, out
        return
    only = chosen_paths(files) if files.catalogue else None
    listed = _refused(files.catalogue, run, only) if files.catalogue else ((it, _below(it)) for it in each_of_list(files))
    yield from ((picture, os.path.join(folder, below)) for picture, below in listed)


def _refused(name: str, run: Run, only: set[bytes] | None) -> Iterator[tuple[bytes, bytes]]:
    """The pictures of a catalogue with a block that isn't accepted, and the names of their copies: below the folder that was indexed, if that
    is one alone; of `only` some, if it is no None."""
    with opened(name, run) as catalogue:
        roots = catalogue.roots()
        root = os.path.join(*roots, b"") if len(roots) == 1 else b""
        for path in catalogue.refused():
            if only is None or path in only:
                yield path, _below(path.removeprefix(root))


def _below(name: bytes) -> bytes:
    """The name of a copy below the folder OUT, with the folders of the picture, as `cp --parents` has it.

    >>> _below(b"a/./b.jpg"), _below(b"/a/b.jpg")
    (b'a/b.jpg', b'a/b.jpg')
    """
    plain = os.path.normpath(name)
    return (os.path.abspath(name) if plain.startswith(b"..") else plain).lstrip(b"/")


def _mended_lines(picture: bytes, mended: mend.Mended) -> list[str]:
    name = shown_path(picture)
    if mended.problem:
        return [f"{name}: {mended.problem}"]
    before = "; ".join(f"{name} {line}" for name, line in mended.before.items())
    lines = [f"{name}: damaged, which mend can't mend: {it}" for it in mended.damage]
    if mended.cut_off:
        lines = [f"{name}: cut off, which mend can't mend: {mended.cut_off}", f"  Remedy: {REMEDY}"]
    lines.append(
        f"{name}: {before + ': ' if before else ''}{mended.remedy.text}"
        + " of what is there" * (mended.remedy == mend.Remedy.COPY and bool(mended.damage or mended.cut_off))
        + (f": {steps.words(mended.repairs)}" if mended.repairs else "")
    )
    if mended.remedy not in (mend.Remedy.NONE, mend.Remedy.COPY):
        lines += ["  not written, because of --lossless"] * (not mended.is_written)
        lines.append(f"  {in_words(len(mended.lost), 'printed value')} lost or changed")
        lines += [f"  - {it}" for it in mended.lost] + [f"  + {it}" for it in mended.gained]
    return lines


def _mended_members(picture: bytes, result: mend.Mended | None, problem: str = "", detail: str = "") -> Members:
    """A picture, or why nothing is known of it."""
    mended = result or mend.Mended(mend.Remedy.NONE, {})
    if mended.problem:
        problem, _, detail = mended.problem.partition(": ")
    return {
        **picture_object(picture, problem, detail),
        "step": mended.remedy,
        "before": mended.before,
        "lost": mended.lost,
        "gained": mended.gained,
        "repairs": [it._asdict() for it in mended.repairs],
        "not_read": mended.damage,
        "damage": mended.cut_off or None,
        "written": mended.is_written,
    }
