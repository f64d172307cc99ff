"""Values of fields in plain words: `turn 90° clockwise to view`, `1/125 s`, `2003-05-24 22:21:01`.

A value without plain words stays as it is printed exactly.
"""

from __future__ import annotations

import re

from ..model.texts import escaped, quoted
from ..model.xmp_values import Literal
from . import plain_numbers as numbers
from .field import Field
from .listing import DATASET_DATES, DATASET_NUMBERS, DATASET_TIMES, MARKED, OCTETS, exact, is_comment, kept_value, marked_text, shortened
from .plain_texts import EMPTY, guessed, plain_comment, plain_xmp, text_of

# Words for numbers: TIFF 6.0 and CIPA DC-008 (Exif 2.32), 4.6
WORDS = {
    key: dict(row.split(" ", 1) for row in " ".join(rows.split()).split("; "))
    for keys, rows in re.findall(
        r"^([0-9a-f ]+): ((?:.|\n )+)",
        """
0112: 1 upright; 2 mirrored left to right; 3 turn 180° to view; 4 mirrored top to bottom; 5
    mirrored left to right, then turn 90° counter-clockwise to view; 6 turn 90° clockwise to view;
    7 mirrored left to right, then turn 90° clockwise to view; 8 turn 90° counter-clockwise to
    view
0128 a210: 1 no unit; 2 inches; 3 centimetres
8822: 0 not defined; 1 manual; 2 normal program; 3 aperture priority; 4 shutter priority; 5
    creative program (depth of field); 6 action program (short exposure); 7 portrait; 8 landscape
9207: 0 unknown; 1 average; 2 centre-weighted average; 3 spot; 4 multi-spot; 5 multi-segment; 6
    partial; 255 other
9208: 0 unknown; 1 daylight; 2 fluorescent; 3 tungsten; 4 flash; 9 fine weather; 10 cloudy; 11
    shade; 12 daylight fluorescent; 13 day white fluorescent; 14 cool white fluorescent; 15 white
    fluorescent; 16 warm white fluorescent; 17 standard light A; 18 standard light B; 19 standard
    light C; 20 D55; 21 D65; 22 D75; 23 D50; 24 ISO studio tungsten; 255 other
a001: 1 sRGB; 2 Adobe RGB; 65535 uncalibrated
a402: 0 automatic; 1 manual; 2 bracket
a403: 0 automatic; 1 manual
a406: 0 standard; 1 landscape; 2 portrait; 3 night
a408 a409: 0 normal; 1 low; 2 high
a40a: 0 normal; 1 soft; 2 hard
a407: 0 none; 1 low gain up; 2 high gain up; 3 low gain down; 4 high gain down
a401: 0 normal; 1 custom
a40c: 0 unknown; 1 macro; 2 close; 3 distant
0103: 1 uncompressed; 2 CCITT 1D; 3 CCITT group 3; 4 CCITT group 4; 5 LZW; 6 JPEG (old form); 7
    JPEG; 8 Deflate; 32773 PackBits
0106: 0 white is zero; 1 black is zero; 2 RGB; 3 palette; 4 mask; 5 CMYK; 6 YCbCr; 8 CIELab
0213: 1 centred; 2 co-sited
""",
        re.M,
    )
    for key in keys.split()
}

# Words for bits of Flash (CIPA DC-008, 4.6.5): the first bit, a mask for the number there, and the words for each number
FLASH = (
    (0, 1, ("did not fire", "fired")),
    (1, 3, ("", "", "light returned isn't seen", "light returned is seen")),
    (3, 3, ("", "always on", "always off", "automatic")),
    (6, 1, ("", "red-eye reduction")),
)
NO_FLASH = "no flash in the camera"
DIRECTIONS = {"N": "north", "S": "south", "E": "east", "W": "west"}
UNITS = {"K": "kilometres", "M": "miles", "N": "nautical miles"}
ALTITUDES = ("above sea level", "below sea level")


def _flash(field: Field) -> str | None:
    bits = numbers.integer(field)
    if bits is None or not 0 <= bits < 1_000_000_000:
        return None
    return NO_FLASH if bits & 0x20 else ", ".join(filter(None, (words[bits >> bit & mask] for bit, mask, words in FLASH)))


def _table(words: dict[str, str]) -> numbers.Rule:
    return lambda it: words.get(str(numbers.integer(it)))


def _byte(*words: str) -> numbers.Rule:
    known = {bytes([number]): word for number, word in enumerate(words)}
    return lambda it: known.get(it.content) if isinstance(it.content, bytes) else None


_EXIF = {
    **{key: _table(words) for key, words in WORDS.items()},
    **dict.fromkeys(("0132", "9003", "9004"), numbers.date),
    **dict.fromkeys(("9202", "9205"), numbers.aperture_value),
    "829a": numbers.exposure_time,
    "829d": numbers.aperture_number,
    "9201": numbers.shutter_speed,
    "9204": numbers.exposure_value,
    "920a": numbers.with_unit(" mm", 1),
    "a405": numbers.with_unit(" mm"),
    "9206": numbers.with_unit(" m", 2),
    "9203": numbers.with_unit(" EV", 2),
    "9209": _flash,
    "a432": numbers.lens,
    "9286": plain_comment,
    "9000": numbers.version,
    "a000": numbers.version,
}
_GPS = {
    **dict.fromkeys(("0002", "0004", "0014", "0016"), numbers.angle),
    **dict.fromkeys(("000f", "0011", "0018"), numbers.with_unit("°", 2)),
    **dict.fromkeys(("001b", "001c"), plain_comment),
    **dict.fromkeys(("0001", "0013", "0003", "0015"), lambda it: DIRECTIONS.get(numbers.direction(it))),
    **dict.fromkeys(("000c", "0019"), lambda it: UNITS.get(text_of(it) or "")),
    "0000": numbers.dotted,
    "0005": _byte(*ALTITUDES),
    "0006": numbers.with_unit(" m", 1),
    "0007": numbers.clock,
    "000d": numbers.with_unit("", 2),
    "001d": numbers.date,
    "001f": numbers.with_unit(" m", 1),
}
_IIM = {
    **dict.fromkeys(DATASET_DATES, numbers.iptc_date),
    **dict.fromkeys(DATASET_TIMES, numbers.iptc_time),
    **dict.fromkeys(DATASET_NUMBERS, numbers.iptc_number),
    "1:90": lambda it: "UTF-8" if it.content == b"\x1b%G" else None,
}
_RULES = {"main": _EXIF, "exif": _EXIF, "thumb": _EXIF, "gps": _GPS, "iptc": _IIM}


def plain(field: Field) -> str:
    """The value of a field as a person writes it.

    >>> plain(Field("exif", "829a", "RATIONAL", 1, ((10, 1250),))), plain(Field("main", "0112", "SHORT", 1, (6,)))
    ('1/125 s', 'turn 90° clockwise to view')
    """
    if field.directory == "xmp":
        return plain_xmp(field)
    return _in_words(field) or _text(field) or _without_words(field)


def plain_and_exact(field: Field) -> tuple[str, str]:
    """The results of `plain` and of `exact`, for which a text is looked at once.

    >>> plain_and_exact(Field("main", "013b", "ASCII", 5, b"Otto\\0"))
    ('Otto', '"Otto"')
    """
    if field.directory in _RULES and field.tag not in _RULES[field.directory] and isinstance(field.content, bytes):
        value = kept_value(field)
        marked = marked_text(field, value) if isinstance(value, bytes) else None
        if marked:
            return marked[1].rstrip("\0 ") or EMPTY, marked[0] + quoted(marked[1])
    return plain(field), exact(field)


def is_bare(directory: str, tag: str) -> bool:
    """Whether a text of such a field is printed as it is.

    >>> is_bare("main", "013b"), is_bare("main", "0132"), is_bare("xmp", "xmp:CreateDate")
    (True, False, True)
    """
    return directory == "xmp" or (directory in ("main", "exif", "iptc") and tag not in _RULES[directory] and tag not in MARKED)


def in_line(field: Field) -> str:
    """The plain value in one line, in which a text is in quotes.

    >>> in_line(Field("main", "013b", "ASCII", 5, b"Otto\\0")), in_line(Field("xmp", "dc:title", "text", 1, (Literal("Vase"),)))
    ('"Otto"', '"Vase"')
    """
    if field.directory == "xmp":
        return plain_xmp(field, ", ", quoted)
    words = _in_words(field)
    text = words if is_comment(field) else None if words else _text(field)
    if text is None or text == EMPTY:
        return escaped(words or text or _without_words(field))
    return quoted(text)


def _in_words(field: Field) -> str | None:
    """The value by the rule of its field, if there is one."""
    rule = _RULES.get(field.directory, {}).get(field.tag)
    return rule(field) if rule else None


def _text(field: Field) -> str | None:
    """A text, also one that isn't UTF-8; None for a value that is no text, or isn't kept."""
    text = text_of(field)
    if text is not None:
        return text.rstrip("\0 ") or EMPTY
    if (field.type in ("ASCII", "UTF8") or field.directory == "iptc") and isinstance(kept_value(field), bytes):
        return guessed(field.content) or EMPTY  # type: ignore[arg-type]
    return None


def _without_words(field: Field) -> str:
    """Numbers as decimals, and the number of bytes that are too many to be printed."""
    if field.type in OCTETS:
        text = exact(field)
        digest = text.rpartition("sha256:")[2][:8]
        return f"{field.count:,} bytes (SHA-256 {digest}..)" if "sha256:" in text else text
    ratios = numbers.fractions(field)
    if ratios and field.type in numbers.RATIOS:
        return ", ".join(numbers.UNKNOWN if one is None else numbers.decimal(one) for one in ratios)
    return shortened(exact(field))


_HALVES = (("0001", "0002"), ("0003", "0004"))
POSITION_TAGS = tuple(key for half in _HALVES for key in half)  # the tags of the four fields


def position(fields: dict[str, Field]) -> str | None:
    """The position of the GPS directory in degrees, of its fields by tag; None if a part is missing.

    >>> angles = {"0002": ((46, 1), (30, 1), (0, 1)), "0004": ((7, 1), (1213, 100), (0, 1))}
    >>> halves = {key: Field("gps", key, "RATIONAL", 3, value) for key, value in angles.items()}
    >>> position({**halves, "0001": Field("gps", "0001", "ASCII", 2, b"N\\0"), "0003": Field("gps", "0003", "ASCII", 2, b"E\\0")})
    '46.500000° N, 7.202167° E'
    """
    words = []
    for letter, angle in _HALVES:
        if letter not in fields or angle not in fields:
            return None
        value, name = numbers.degrees(fields[angle]), numbers.direction(fields[letter])
        if value is None or not name:
            return None
        words.append(f"{float(value):.6f}° {name}")
    return ", ".join(words)
