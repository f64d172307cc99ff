"""Two pictures compared without a catalogue: the verdict that `changed` has for them, and the fields that differ, in plain words."""

from __future__ import annotations

import contextlib
import os

from exifnorm._hints import NamedTuple, Optional, Sequence

from ..extract.formats.streams import digest_of_file
from ..fields.block_fields import fields_of
from ..fields.choosing import EVERYTHING, Choice
from ..fields.listing import LIMITS, MAKER_NOTE, Shown
from ..fields.names import group_name
from ..fields.plain_values import POSITION_TAGS, position
from ..files.opening import held
from ..files.session import Session
from ..judge.sides import Sides
from ..model.found import EXIF, IPTC, KINDS, NAMES
from ..model.problems import Problem
from ..model.texts import Result
from ..model.records import PictureRecord, Stamp
from ..scan.looking import look
from ..scan.walk import FoundFile, How
from . import origin
from .changed.states import Compared, Pair, compared
from .wording import FieldDifference, SideTexts, exact_side, plain_sides


Heads = tuple[Optional[bytes], Optional[bytes]]


class FieldRow(NamedTuple):
    """A field that differs; a side is None if the field isn't there."""

    name: str
    plain: SideTexts
    exact: SideTexts
    differences: tuple[FieldDifference, ...] = ()
    note: str = ""  # in place of the values
    is_equal_number: bool = False  # whether the field differs only in the form of its number


class ComparedPair(NamedTuple):
    """Two pictures, and what `changed` finds."""

    records: tuple[PictureRecord, PictureRecord]
    compared: Compared
    is_identical: bool  # whether the files have the same bytes
    has_only_fields: bool  # whether only some fields were compared, and no pictures
    proved: origin.Answers  # of what is in the heads of two JPEGs

    @property
    def result(self) -> Result:
        """The result as `changed` has it. Two files with the same bytes are the same, whatever was read of them."""
        return Result.SAME if self.is_identical else self.compared.result

    @property
    def left_out(self) -> Sequence[str]:
        """The fields that differ and don't count."""
        return [] if self.is_identical else self.compared.left_out

    @property
    def is_empty(self) -> bool:
        """Whether neither picture has metadata."""
        return (
            self.compared.result == Result.SAME
            and all(it.result == Result.ABSENT for it in self.compared.verdicts)
            and not any(it.problem or it.unread for it in self.records)
        )


def read(path: bytes, how: How, session: Session) -> tuple[PictureRecord, bytes | None]:
    """Reads a picture as `index --pixels` does, always with the digest of its file, if it can be read; and the head of a JPEG, which is that of
    the same file. A file that is written to meanwhile has no head."""
    stamp = Stamp.at(path)
    if not stamp and not os.path.lexists(path):
        return PictureRecord.of(path, b"", problem=Problem.NO_FILE, detail=Problem.NO_FILE.text), None
    with held(path) as number:
        picture = look(FoundFile(path, os.path.dirname(path), stamp), how, session, packs=False)
        with contextlib.suppress(OSError):
            if picture.sha256 is None:  # as of one for which ExifTool is needed
                picture = picture._replace(sha256=digest_of_file(path, 1 << 62))
        head = origin.head_of_file(path)
        is_as_it_was = number is not None and Stamp.of(os.fstat(number)) == stamp
    return picture, head if is_as_it_was else None


def compare(
    picture: PictureRecord, other: PictureRecord, session: Session | None, choice: Choice = EVERYTHING, heads: Heads = (None, None)
) -> ComparedPair:
    """Compares two pictures that were read with the digests of their files, by the fields that count. In a session ExifTool is asked for the
    values of MakerNotes. `heads` are the heads of two JPEGs, for the proved comparisons."""
    by_metadata = compared(Pair(os.path.basename(picture.path), picture, other, None), Sides(), session, choice)
    is_identical = bool(picture.sha256) and picture.sha256 == other.sha256
    answers = origin.Answers(None, None) if choice else _proved(by_metadata, heads)
    return ComparedPair((picture, other), by_metadata, is_identical, bool(choice.only), answers)


def _proved(comparison: Compared, heads: Heads) -> origin.Answers:
    """The answers of the library's proved comparisons, of which the result must not say otherwise."""
    answers = origin.answers(*heads)
    for answer, kinds in ((answers.blocks, (EXIF, IPTC)), (answers.all, KINDS)):
        results = {it.result for it in comparison.verdicts if it.kind in kinds}
        are_same = bool(results) and results <= {Result.SAME, Result.ABSENT}
        assert answer != Result.DIFFERENT or not are_same, f"{kinds} differ by the proved comparison, and are the same by the tested one"
    return answers


# The rows of the table


def rows_of(comparison: ComparedPair, each: bool) -> list[FieldRow]:
    """A row for each change; those of equal numbers at the end, and then, with `each`, one for each value of a MakerNote that ExifTool reads
    otherwise. After as much as `show` shows there is `MORE`."""
    if comparison.is_identical:
        return []
    changes, shown = comparison.compared.changes, Shown()
    rows: list[FieldRow] = []
    for change in changes:
        if shown.is_full:
            break
        rows.append(_row(change))
        shown.add_fields((*change.before, *change.after), sum(len(text or "") for text in (*rows[-1].plain, *rows[-1].exact)))
    more = [MORE] * (len(rows) < len(changes) or comparison.compared.has_more)
    rows.sort(key=lambda row: (row.is_equal_number, _place(row)))
    rows += _note_rows(comparison.compared) if each else []
    return rows + more


MORE = FieldRow("further fields", (None, None), (None, None), note=f"not shown, after {LIMITS}")


def _note_rows(comparison: Compared) -> list[FieldRow]:
    """A row for each value of a MakerNote that ExifTool reads otherwise."""
    name = group_name(*MAKER_NOTE)
    values = [(it.name, (it.before, it.after)) for it in comparison.maker_note or ()]
    return [FieldRow(f"{name} {word}", both, both) for word, both in values]


def _place(row: FieldRow) -> int:
    where = row.differences[0].directory if row.differences else "exif"
    return KINDS.index({"iptc": KINDS[1], "xmp": KINDS[2]}.get(where, KINDS[0]))


def _row(difference: FieldDifference) -> FieldRow:
    exact = exact_side(difference.before), exact_side(difference.after)
    plain = exact if difference.note else plain_sides(difference)
    return FieldRow(difference.name, plain, exact, (difference,), difference.note, difference.is_equal_number)


def with_position(rows: list[FieldRow], picture: PictureRecord, other: PictureRecord) -> list[FieldRow]:
    """The rows with the four fields of a position as one, in degrees, if both positions are known."""
    ours = [row for row in rows if _is_of_position(row)]
    (before, is_known), (after, is_other_known) = map(_position, (picture, other))
    if not all((ours, is_known, is_other_known)) or before == after:
        return rows
    exact = (_exact(before, ours, 0), _exact(after, ours, 1))
    row = FieldRow("Composite:GPSPosition", (before, after), exact, tuple(one for it in ours for one in it.differences))
    at = rows.index(ours[0])
    return [*rows[:at], row, *(it for it in rows[at:] if it not in ours)]


def _position(picture: PictureRecord) -> tuple[str | None, bool]:
    """The position of a picture, and whether that is known: fields that make none may be a part of one."""
    exif = (block for block in picture.blocks if block.name == NAMES[EXIF])
    fields = {it.tag: it for block in exif for it in fields_of(block) if it.directory == "gps"}
    place = position(fields)
    return place, bool(place) or fields.keys().isdisjoint(POSITION_TAGS)


def _is_of_position(row: FieldRow) -> bool:
    return any(it.directory == "gps" and it.tag in POSITION_TAGS and not it.block for it in row.differences[:1])


def _exact(place: str | None, rows: Sequence[FieldRow], side: int) -> str | None:
    return "; ".join(f"{it.name} {it.exact[side]}" for it in rows) if place else None
