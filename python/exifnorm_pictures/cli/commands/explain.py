"""The command `explain`."""

from __future__ import annotations

import argparse
import functools
import tempfile
from typing import Callable, Union

from ...extract import programs
from ...files.session import Session
from ...model import steps
from ...model.budgets import TooMuch
from ...model.found import EXIF, XMP
from ...model.records import Status
from ...model.texts import Members, path_members, reason
from ...picture import Block, Picture
from ...refusals import explain, mend
from ...refusals.causes import OVER_LIMITS
from ..each_block import each_block, each_picture, status_of
from ..exit_codes import SUCCESS
from ..options import Files, Run, groups_of
from ..output import damage_lines, damage_members, damage_remedy, picture_object, print_object, waiting

Try = Callable[[bytes], Union[mend.Mended, str]]  # what `mend` does with a picture, or why that isn't known


def run(arguments: argparse.Namespace) -> int:
    """Explains refusals, and tries whether `mend` helps."""
    files, run, output = groups_of(arguments)
    tried = functools.lru_cache(maxsize=1)(functools.partial(_tried, run.session))
    if output.json:
        return _print_objects(files, run, tried)

    def describe(picture: Picture, block: Block) -> list[str]:
        if block.is_accepted:
            return [f"{block.name}: ok"]
        mended = _tried_of(picture, tried)
        return [f"{block.name}: {block._record.line}", *_explained(block, mended).lines()[1:], *_repair(block), *_lines(mended)]

    return each_block(files, run, lambda: describe, True, damage_lines)


def _explained(block: Block, mended: mend.Mended | str) -> explain.Explanation:
    explained = explain.explain_packet(block._record, block.data) if block.kind == XMP else explain.explain(block.kind, block.data)
    explained.is_without_remedy = isinstance(mended, mend.Mended) and mended.remedy == mend.Remedy.NONE
    return explained


def _tried_of(picture: Picture, tried: Try) -> mend.Mended | str:
    """What `mend` does with a picture, or why that isn't known: nothing is tried of one whose XMP is over a limit."""
    if any(it.kind == XMP and it._record.cause in OVER_LIMITS for it in picture.blocks):
        return "ExifTool may take long for a packet that is over a limit"
    return tried(picture.path)


def _tried(session: Session, name: bytes) -> mend.Mended | str:
    """What `mend` does with a picture, without a copy, or why that isn't known. All that is tried of one picture has the time of one call."""
    try:
        with waiting(f"trying what mend does, for at most {session.seconds:g} seconds"), session.one_clock(), tempfile.TemporaryDirectory(
            dir=session.room
        ) as own:
            return mend.attempt(session, name, own)[0]
    except programs.TooSlow:
        return f"it takes longer than {session.seconds:g} seconds"
    except (mend.NeedsExifTool, programs.Missing):
        return ""  # which the remedy says
    except (programs.Failed, TooMuch) as error:
        return str(error)
    except OSError as error:
        return reason(error)


def _lines(tried: mend.Mended | str) -> list[str]:
    if isinstance(tried, str):
        return [f"  Tried: what mend does isn't known: {tried}"] if tried else []
    if tried.remedy == mend.Remedy.NONE:
        return []
    values = f"{len(tried.lost)} printed value{'s' * (len(tried.lost) != 1)} lost or changed"
    return [f"  Tried: mend makes a copy: {tried.remedy.text}; {values}"]


def _repair(block: Block) -> list[str]:
    """The repair in memory of a refused Exif block, and what it loses."""
    if not block.repair:
        return ["  Repair in memory: none is known"] if block.status == Status.REFUSED and block.kind == EXIF else []
    lines = [
        f"  Repair in memory: {steps.words(block._record.steps)}; then {len(block.fields)} field{'s are' if len(block.fields) != 1 else ' is'} read, see show"
    ]
    return lines + [f"  That repair loses {' and '.join(block.loses)}: by it, nothing is called the same"] * bool(block.loses)


# --json


def _print_objects(files: Files, run: Run, tried: Try) -> int:
    """An object for each block, and one for a picture that wasn't read wholly or has no block."""
    worst = SUCCESS
    for picture in each_picture(files, run, True):
        worst = max(worst, status_of(picture, True))
        for block in picture.blocks:
            mended = "" if block.is_accepted else _tried_of(picture, tried)
            print_object("explain", "block", {**path_members(picture.path), **_block_members(block, mended)})
        if picture._problem or picture.not_read or picture.damage or not picture.blocks:
            print_object("explain", "picture", _picture_members(picture))
    return worst


def _block_members(block: Block, mended: mend.Mended | str) -> Members:
    record = block._record
    explained = explain.Explanation(block.kind, record) if block.is_accepted else _explained(block, mended)
    tried = None if isinstance(mended, str) else {"step": mended.remedy, "lost": mended.lost, "gained": mended.gained}
    return {**record.members, **explained.members(), "repair": [step._asdict() for step in record.steps], "mend": tried}


def _picture_members(picture: Picture) -> Members:
    return {
        **picture_object(picture.path, picture._problem, picture._detail),
        "type": picture.type or None,
        "blocks": len(picture.blocks),
        "not_read": picture.not_read,
        **damage_members(picture),
        "remedy": damage_remedy(picture),
    }
