"""What two states of a picture show, by the digests of `index --pixels`: the file, the picture and its metadata are three things."""

from __future__ import annotations

from collections import Counter

from exifnorm._hints import Sequence

from ..model import rest
from ..model.found import CUT, XMP_FILE
from ..model.records import PictureRecord
from ..model.texts import Result, Word


class Coded(Word):
    """What is known of the coded pictures of two files."""

    sentence: str  # of `compare`, which prints the damage of a damaged one

    @property
    def is_damaged(self) -> bool:
        """Whether a file is damaged."""
        return self.startswith("damaged")

    SAME = ("the same", "The pictures are the same: the data from which their pixels are decoded are equal.")
    BESIDE = ("the same but for other parts", f"{SAME[1]} Other parts of the files differ")  # which `compare` names
    OTHER = (
        "other",
        "The pictures differ in the data from which their pixels are decoded: one may be edited, smaller, or only saved again.",
    )
    DAMAGED = ("damaged",)
    DAMAGED_BEFORE = ("damaged before",)
    DAMAGED_BOTH = ("damaged before and after",)
    UNREAD = ("not read in files with other bytes", "The pictures weren't read, and the files have other bytes.")
    UNKNOWN = ("not compared", "Only metadata was compared: these pictures weren't read.")


# Whether the rests of two files, in the rows `old` and `new`, are equal: a part without a digest only if the whole files are
SAME_REST = (
    "(old.sha256 != '' AND old.sha256 = new.sha256 OR old.beside = new.beside AND instr(char(10) || old.beside, char(10) || ' ') = 0)"
)
# The same as `coded_result`, for the rows `old` and `new` of two catalogues
SQL = f"""CASE WHEN new.damage != '' AND old.damage = '' THEN '{Coded.DAMAGED}' WHEN new.damage != '' THEN '{Coded.DAMAGED_BOTH}'
    WHEN old.damage != '' THEN '{Coded.DAMAGED_BEFORE}' WHEN old.type != new.type THEN '{Coded.UNKNOWN}' WHEN old.coded_picture != '' AND new.coded_picture != ''
    THEN CASE WHEN old.coded_picture != new.coded_picture THEN '{Coded.OTHER}' WHEN {SAME_REST} THEN '{Coded.SAME}' ELSE '{Coded.BESIDE}' END
    WHEN old.sha256 != '' AND old.sha256 = new.sha256 THEN '{Coded.SAME}'
    WHEN old.sha256 != '' AND new.sha256 != '' AND old.type != '{XMP_FILE}' THEN '{Coded.UNREAD}' ELSE '{Coded.UNKNOWN}' END"""


def parts_that_differ(picture: PictureRecord, other: PictureRecord, coded: Coded) -> list[str]:
    """What is known to have come, gone or changed of the rest of two files of one format: by digests if both have one of the coded picture, and
    by lengths if neither has."""
    is_alike = picture.type == other.type and bool(picture.coded_picture) == bool(other.coded_picture)
    return rest.changes(picture.beside, other.beside) if is_alike and coded != Coded.SAME and not coded.is_damaged else []


def coded_result(picture: PictureRecord, other: PictureRecord) -> tuple[Coded, str]:
    """Whether two files have the same coded picture, and a note. One that is damaged is no other picture than a whole one, and isn't the same either."""
    if picture.damage or other.damage:
        return _damaged(picture, other)
    if picture.type != other.type:  # the data of two formats can't be equal, even if the pictures are
        return Coded.UNKNOWN, ""
    return _by_digests(picture, other), ""


def _by_digests(picture: PictureRecord, other: PictureRecord) -> Coded:
    if picture.sha256 and picture.sha256 == other.sha256:
        return Coded.SAME
    if not picture.coded_picture or not other.coded_picture:
        is_known = all((picture.sha256, other.sha256, picture.type != XMP_FILE))  # which has no picture
        return Coded.UNREAD if is_known else Coded.UNKNOWN
    if picture.coded_picture != other.coded_picture:
        return Coded.OTHER
    return Coded.BESIDE if rest.changes(picture.beside, other.beside) else Coded.SAME


def _damaged(picture: PictureRecord, other: PictureRecord) -> tuple[Coded, str]:
    if not other.damage:
        return Coded.DAMAGED_BEFORE, f"{Coded.DAMAGED_BEFORE}: {picture.damage}"
    if picture.damage:
        both = ", and then ".join(dict.fromkeys([picture.damage, other.damage]))
        return Coded.DAMAGED_BOTH, f"{Coded.DAMAGED_BOTH}: {both}"
    # the end of a file is looked for at each look, and other damage only by --pixels
    is_known = picture.coded_picture or other.coded_picture is None or other.damage.startswith(CUT)
    return Coded.DAMAGED, other.damage + ", and whether it was so before isn't known" * (not is_known)


# What the coded pictures make of the result of the metadata, if that has changed, if it is equal, and if it is anything else
_RESULTS = {
    Coded.DAMAGED: (Result.DAMAGED_DIFFERENT, Result.DAMAGED, Result.DAMAGED),
    Coded.DAMAGED_BEFORE: (Result.DAMAGED_DIFFERENT, Result.DAMAGED_BEFORE, Result.DAMAGED_BEFORE),
    Coded.OTHER: (None, Result.OTHER_PICTURE_ALONE, Result.OTHER_PICTURE),
    Coded.BESIDE: (None, Result.OTHER_PARTS, None),
    Coded.UNREAD: (None, Result.OTHER_BYTES, None),
    Coded.UNKNOWN: (None, Result.OTHER_PARTS, None),
}


def result_with(coded: Coded, result: Result, parts: Sequence[str]) -> tuple[Result, str]:
    """The result of the metadata and the coded pictures together, and what isn't in its word, as the other `parts` that differ."""
    together = _RESULTS.get(coded, (None, None, None))[0 if result.has_changed else 1 if result.is_equal else 2]
    if together == Result.OTHER_PARTS:
        together = _of_parts(rest.counting(parts))
    if coded == Coded.OTHER:
        parts = [*["the picture differs, too"] * (together is None), *rest.counting(parts)]
    by_lengths = "; of other parts only names and lengths were compared" * bool(parts and coded in (Coded.UNKNOWN, Coded.UNREAD))
    return together or result, ", ".join(parts) + by_lengths


def _of_parts(counting: Sequence[str]) -> Result | None:
    """The result of other parts that count. Whether those differ that are too large to compare isn't known."""
    if not counting:
        return None
    return Result.NOT_WHOLLY_READ if all(it.endswith(rest.TOO_LARGE) for it in counting) else Result.OTHER_PARTS


def sentence_of_coded(counts: "Counter[Coded]", pixels: str = "index --pixels") -> str:
    """What was compared of some pictures, in a sentence; nothing without any. `pixels` compares the pictures; empty if that was asked already.

    >>> sentence_of_coded(Counter({Coded.UNKNOWN: 1}))
    'Only metadata was compared: index --pixels compares the pictures, too.'
    """
    if not sum(counts.values()):
        return ""
    if counts[Coded.SAME] + counts[Coded.BESIDE] + counts[Coded.OTHER] + counts[Coded.UNREAD]:
        return f"The coded pictures: {', '.join(f'{counts[it]:,} {it}' for it in Coded if counts[it])}."
    damaged = ", ".join(f"{count:,} {it}" for it, count in counts.items() if it != Coded.UNKNOWN and count)
    more = f"{pixels} compares the pictures, too" if pixels else "pictures of two formats, or that aren't read here, aren't compared"
    only = [f"Only metadata was compared: {more}."] * bool(counts[Coded.UNKNOWN])
    return " ".join([*[f"The files: {damaged}."] * bool(damaged), *only])
