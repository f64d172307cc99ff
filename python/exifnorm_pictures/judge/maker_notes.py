"""What ExifTool reads of the MakerNotes of pictures: MakerNotes that were moved or written anew have other bytes, or
lead to other places, and only readers for their maker know whether they mean the same. A MakerNote that ExifTool warns of, or of which it
reads nothing, is in doubt: then equal values don't show that it reads the same."""

from __future__ import annotations

import hashlib
import json
import zlib
from collections import Counter
from typing import NamedTuple, Sequence

from ..extract import exiftool, programs
from ..files.session import Session
from ..model.budgets import FIELD_BYTES
from ..model.records import PictureRecord, Stamp, has, is_marked_as
from ..model.errors import Damaged
from .sides import Sides

Values = dict[str, str]

# -u: tags without a name too; -b: previews too; -sep: lists as one text. Not -m, which hides most warnings of damaged MakerNotes.
_WARNINGS = ("-q", "-q", "-json", "-a", "-u", "-G1:4", "-n", "-b", "-sep", " | ", "-ExifTool:Warning", "-ExifTool:Error")
_WORDS = (*_WARNINGS, "-MakerNotes:all")
_WITHOUT = "-fast2"  # reads no MakerNote, so it leaves the warnings that have nothing to do with them
# Numbers that are places in the file, and must change if something moves. What is there is a value of its own.
# Unknown_CTBO: where the parts of a CR3 are
_PLACES = (
    "ThumbnailOffset PreviewImageStart OtherImageStart JpgFromRawStart MPImageStart StripOffsets RawDataOffset HiddenDataOffset Unknown_CTBO"
).split()
LONGEST = 200  # characters of a value that is kept whole


class NotesReading(NamedTuple):
    """The values of a picture's MakerNotes, and what ExifTool warns of as it reads them."""

    values: Values
    warnings: tuple[str, ...] = ()

    @property
    def doubt(self) -> str:
        """Why equal values don't show that they are read right; empty if nothing speaks against it."""
        if self.warnings:
            return f"ExifTool warns of it: {self.warnings[0]}"
        return "" if self.values else "ExifTool reads nothing of it"


class NoteDifference(NamedTuple):
    """A value that reads otherwise; missing where it isn't read at all."""

    name: str
    before: str | None
    after: str | None


def readings_of(session: Session, paths: Sequence[bytes]) -> list[NotesReading]:
    """What ExifTool reads of the MakerNotes of one or two files. Raises `programs.Failed` and `programs.Missing`."""
    answers = exiftool.ask_several(session, paths, (), _WORDS)
    warnings = [sorted(value for name, value in it.items() if _is_warning(name)) for it in answers]
    warned = [number for number, some in enumerate(warnings) if some]
    if warned:
        others = exiftool.ask_several(session, [paths[number] for number in warned], (), (*_WARNINGS, _WITHOUT))
        for number, answer in zip(warned, others):
            warnings[number] = sorted((Counter(warnings[number]) - Counter(answer.values())).elements())
    return [NotesReading(_values(it), tuple(some)) for it, some in zip(answers, warnings)]


def _is_warning(name: str) -> bool:
    return name.partition(":")[0] == "ExifTool"


def _values(answer: dict[str, str]) -> Values:
    return {name: _short(value) for name, value in answer.items() if not _is_warning(name) and name.rpartition(":")[2] not in _PLACES}


def _short(value: str) -> str:
    if len(value) <= LONGEST:
        return value
    return f"{value[:40]}.. sha256:{hashlib.sha256(value.encode('utf-8', 'surrogatepass')).hexdigest()[:32]}"


def note_differences(before: Values, after: Values) -> list[NoteDifference]:
    """The values that differ."""
    return [NoteDifference(it, before.get(it), after.get(it)) for it in dict.fromkeys([*before, *after]) if before.get(it) != after.get(it)]


def packed_reading(reading: NotesReading) -> bytes:
    """A reading for a catalogue."""
    return zlib.compress(json.dumps(reading).encode("ascii"), 6)


def unpacked_reading(octets: bytes) -> NotesReading:
    """A reading from the result of `packed_reading`. Raises `Damaged` for anything else."""
    has(bytes, octets)
    try:
        values, warnings = json.loads(zlib.decompressobj().decompress(octets, FIELD_BYTES))
        if all(isinstance(it, str) for it in (*warnings, *values, *values.values())):
            return NotesReading(dict(values), tuple(warnings))
    except (zlib.error, ValueError, TypeError, AttributeError, RecursionError) as error:
        raise Damaged(f"readings of MakerNotes that can't be read: {error}") from error
    raise Damaged("readings of MakerNotes have something else than texts")


class ComparedNotes(NamedTuple):
    """The values that differ between two pictures. If none does, why that may mean nothing, and whether only one of the two is warned of so."""

    differences: list[NoteDifference]
    doubt: str = ""
    is_new: bool = False


def compared_notes(session: Session, sides: Sides, picture: PictureRecord, other: PictureRecord) -> ComparedNotes | None:
    """Two pictures compared; None if a reading isn't known: a file has changed since, or there is no ExifTool."""
    known = {}
    for number, side in enumerate((picture, other)):
        kept = sides.maker_notes(number, side, unpacked_reading)
        if kept:
            known[number] = kept
        elif not is_as_it_was(side):
            return None
    missing = [number for number in (0, 1) if number not in known]
    try:
        known.update(zip(missing, readings_of(session, [(picture, other)[number].path for number in missing]) if missing else ()))
    except (programs.Failed, programs.Missing):
        return None
    first, second = known[0], known[1]
    changes = note_differences(first.values, second.values)
    return ComparedNotes(changes) if changes else ComparedNotes([], second.doubt or first.doubt, first.warnings != second.warnings)


def is_as_it_was(picture: PictureRecord) -> bool:
    """Whether the file is the one that was looked at."""
    now = Stamp.at(picture.path)
    return now is not None and is_marked_as(now, picture.marks)
