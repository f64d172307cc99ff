"""The forms in which programs print the value of a field: a question with any of them finds it."""

from __future__ import annotations

import re
from fractions import Fraction
from typing import NamedTuple, Sequence

from ..model.texts import grouped
from . import other_names
from .dates import plain_date
from .field import Field
from .listing import LONGEST_TEXT, exact
from .names import TABLES
from .plain_values import WORDS, plain


class Forms(NamedTuple):
    """A value of a field in its forms: a member of a list, or all of another field."""

    texts: Sequence[str]  # as `exiftool -n` has them
    shown: Sequence[str]  # as `show` prints it
    others: list[str]
    numbers: list[str]  # texts that are numbers
    dates: list[str]  # dates and times, with the separators in which they are compared


def _table(text: str) -> dict[str, dict[str, str]]:
    rows = (line.partition(" ")[::2] for line in text.strip().replace("\n ", " ").splitlines())
    return {tag: dict(row.split(" ", 1) for row in words.split("; ")) for tag, words in rows}


_OTHER_WORDS = _table(other_names.WORDS)  # ExifTool's
# The tags that XMP has, too, by their names there
_TAGS = {
    f"{prefix}:{name}": tag
    for prefix, places in (("tiff", ("main",)), ("exif", ("exif", "gps")), ("exifEX", ("exif",)))
    for place in places
    for tag, name in TABLES[place][0].items()
}


def tag_of(directory: str, key: str) -> str:
    """The tag of a field of Exif, or of a property that mirrors one; otherwise empty."""
    return _TAGS.get(key, "") if directory == "xmp" else key if directory in ("main", "exif", "thumb") else ""


def words_of(directory: str, key: str) -> dict[str, list[str]]:
    """The words that this program and ExifTool have for the numbers of a field, by number.

    >>> words_of("main", "0112")["6"], words_of("xmp", "tiff:Orientation")["1"]
    (['turn 90° clockwise to view', 'Rotate 90 CW'], ['upright', 'Horizontal (normal)'])
    """
    tag = tag_of(directory, key)
    return grouped(it for table in (WORDS, _OTHER_WORDS) for it in table.get(tag, {}).items())


_UNIT = re.compile(r"(?:f/)?([^ ]+?)(?: (?:s|mm|m|EV|UTC)|°)?")
_IS_DATE = re.compile(r"\d{4}[-:]\d\d|\d{8}")
_CLOCK = re.compile(r"\d\d:\d\d(:\d\d(\.\d+)?)?( ?UTC|Z|[+-]\d\d:?\d\d)?")


def forms_of(field: Field, texts: Sequence[str]) -> list[Forms]:
    """The values of a field whose texts are these, as `exiftool -n` has them. All of a list is a value that isn't shown.

    >>> forms_of(Field("main", "0112", "SHORT", 1, (6,)), ["6"])[0][1:]
    (['turn 90° clockwise to view'], ['Rotate 90 CW'], ['6'], [])
    >>> forms_of(Field("exif", "829d", "RATIONAL", 1, ((11, 1),)), ["11"])[0][1:3]
    (['f/11'], ['11/1'])
    """
    whole = plain(field)[:LONGEST_TEXT]
    others = [whole, exact(field).strip('"')]
    others += [bare[1] for bare in [_UNIT.fullmatch(whole)] if bare]
    if len(texts) > 1 and "; ".join(texts) == whole:
        members = [_forms(field, [text], [text], []) for text in texts]
        return [*members, Forms((), (), list(dict.fromkeys(others)), [], [])]
    return [_forms(field, texts, [whole], others)]


def _forms(field: Field, texts: Sequence[str], shown: Sequence[str], others: Sequence[str]) -> Forms:
    words = words_of(field.directory, field.tag)
    others = [*others, *(word for text in texts for word in words.get(text, ()))]
    known = {*shown, *texts}
    return Forms(
        texts,
        shown,
        [it for it in dict.fromkeys(others) if it not in known and len(it) <= LONGEST_TEXT],
        [it for it in dict.fromkeys(texts) if number_of(it) is not None],
        list(dict.fromkeys(filter(None, (_date(text, field) for text in (*shown, *texts))))),
    )


def _date(text: str, field: Field) -> str:
    """A date or a time in the form in which it is compared. Four digits are a year only in a field of dates."""
    if _CLOCK.fullmatch(text):
        return text.replace(" UTC", "")
    is_date = _IS_DATE.match(text) if field.type in ("ASCII", "UTF8", "octets") or field.directory == "xmp" else None
    return plain_date(text) if is_date or (field.directory == "xmp" and re.search("date", field.tag, re.I)) else ""


_NUMBER = re.compile(r"(?:f/)?([+-]?\d{1,300}(?:\.\d{1,300})?)(?:/([1-9]\d{0,300}))?(?: ?(?:s|sec|mm|m|EV|°))?")
_COORDINATE = re.compile(r"(\d{1,3}),(\d{1,2}(?:\.\d+)?)(?:,(\d{1,2}(?:\.\d+)?))?([NSEW])")  # as XMP has it
_ANGLE = re.compile(
    r"([+-]?\d{1,3}(?:\.\d+)?) ?(?:°|deg) ?(?:(\d{1,2}(?:\.\d+)?) ?['′] ?)?(?:(\d{1,2}(?:\.\d+)?) ?(?:\"|″|''))? ?([NSEW]?)", re.I
)


class Number(NamedTuple):
    """A number that somebody types."""

    value: float
    last: float  # how far it may be from what it means: the last place of an angle


def number_of(text: str) -> Number | None:
    r"""The number of a text, as this program, ExifTool or exiv2 prints it: with its unit, as a fraction, or as an angle.

    >>> [number_of(it).value for it in ("1/60 s", "f/11", "60.0 mm", "+0.33 EV", "46°12'7.8\"", "12 deg 30' 0.00\" S")]
    [0.016666666666666666, 11.0, 60.0, 0.33, 46.20216666666667, -12.5]
    """
    match = _NUMBER.fullmatch(text.strip())
    if match:
        above, below = match[1], match[2] or "1"
        value = float(Fraction(above) / int(below)) if len(text) < 100 else float(above) / float(below)
        return Number(value, abs(value) * 1e-9)
    angle = _COORDINATE.fullmatch(text.strip()) or _ANGLE.fullmatch(text.strip())
    if not angle:
        return None
    degrees, minutes, seconds, letter = angle.groups("0")
    value = abs(float(degrees)) + float(minutes) / 60 + float(seconds) / 3600
    is_negative = degrees.startswith("-") or letter.upper() in ("S", "W")
    return Number(-value if is_negative else value, 0.5e-6 if not angle[2] else 2e-6)


def clock_of(text: str) -> str:
    """The time of a text in the form in which it is compared; empty of another text."""
    return text.strip().replace(" UTC", "") if _CLOCK.fullmatch(text.strip()) else ""
