"""Numbers of fields as a person writes them: `1/125 s`, `f/2.8`, `46°30'12.3"`, `2003-05-24 22:21:01`.

Each function takes a field, and returns None if it has no plain form.
"""

from __future__ import annotations

import re

from exifnorm._hints import TYPE_CHECKING, Any, Callable, Union

from ..model.xmp_values import Long
from .field import Field
from .listing import kept_value
from .plain_texts import text_of

if TYPE_CHECKING:
    from fractions import Fraction

    Number = Union[Fraction, float]

Rule = Callable[[Field], "str | None"]

UNKNOWN = "unknown"
INTEGERS = "SHORT LONG WHOLE SSHORT SLONG".split()
RATIOS = ("RATIONAL", "SRATIONAL")


def fractions(field: Field) -> list[Fraction | None] | None:
    """The numbers of a field; None in it for a fraction with the denominator 0, and None for all if it has no numbers or too many.

    >>> fractions(Field("exif", "a432", "RATIONAL", 2, ((10, 80), (1, 0)))), fractions(Field("main", "0112", "SHORT", 1, (6,)))
    ([Fraction(1, 8), None], [Fraction(6, 1)])
    """
    from fractions import Fraction  # which takes long to import

    if field.type not in INTEGERS and field.type not in RATIOS:
        return None
    values: Any = kept_value(field)
    if isinstance(values, Long) or not values:
        return None
    if field.type in INTEGERS:
        return [Fraction(one) for one in values]
    return [Fraction(*one) if one[1] else None for one in values]


def integer(field: Field) -> int | None:
    """The number of a field that is one."""
    value: Any = field.content
    return int(value[0]) if field.type in INTEGERS and not isinstance(value, Long) and len(value) == 1 else None


def decimal(number: Number, places: int = 4) -> str:
    """A number with so many decimal places at most."""
    text = f"{float(number):.{places}f}"
    text = text.rstrip("0").rstrip(".") if "." in text else text
    return "0" if text == "-0" else text


def number(field: Field, words: Callable[[Fraction], str | None]) -> str | None:
    """The plain form of a single number."""
    ratios = fractions(field)
    if ratios is None or len(ratios) != 1:
        return None
    return UNKNOWN if ratios[0] is None else words(ratios[0])


def of_number(words: Callable[[Fraction], str | None]) -> Rule:
    """A rule for a single number."""
    return lambda it: number(it, words)


def with_unit(unit: str, places: int = 4) -> Rule:
    """A rule for a number with a unit."""
    return of_number(lambda one: f"{decimal(one, places)}{unit}")


def seconds(time: Fraction) -> str:
    """An exposure time.

    >>> from fractions import Fraction
    >>> seconds(Fraction(10, 1250)), seconds(Fraction(10, 13)), seconds(Fraction(30))
    ('1/125 s', '0.77 s', '30 s')
    """
    return f"1/{round(1 / time)} s" if 0 < 4 * time < 1 else f"{decimal(time, 2)} s"


exposure_time = of_number(seconds)
aperture_number = of_number(lambda one: f"f/{decimal(one, 1)}")
# In the units of APEX (CIPA DC-008, annex C): the f-number is the root of two to this power, and the seconds are two to the power of minus it
aperture_value = of_number(lambda one: f"f/{2 ** (float(one) / 2):.1f}" if -20 < one < 40 else None)
shutter_speed = of_number(lambda one: seconds(one.from_float(2.0 ** -float(one)).limit_denominator(1000000)) if -20 < one < 30 else None)
exposure_value = of_number(lambda one: f"{'+' if one > 0 else ''}{decimal(one, 2)} EV")  # a correction of the exposure


def denominators(field: Field) -> list[int]:
    """Into how many parts each number of a field is divided, as it is written: those of 30/10 are tenths.

    >>> denominators(Field("gps", "0002", "RATIONAL", 3, ((46, 1), (1213, 100), (0, 1))))
    [1, 100, 1]
    """
    values: Any = kept_value(field)
    return [one[1] if isinstance(one, tuple) else 1 for one in values]


def degrees(field: Field) -> Fraction | None:
    """An angle of degrees, minutes and seconds as degrees."""
    parts = _three(field)
    return parts[0] + parts[1] / 60 + parts[2] / 3600 if parts else None


def _three(field: Field) -> list[Fraction] | None:
    """The numbers of a field that has three."""
    parts = fractions(field) or []
    return [one for one in parts if one is not None] if len(parts) == 3 and None not in parts else None


def direction(letter: Field) -> str:
    """The direction of a latitude or of a longitude, N, S, E or W: its first letter, also if it is small or begins a word, as ExifTool has it.
    Empty if the letter is another one.

    >>> direction(Field("gps", "0003", "ASCII", 5, b"West\\0")), direction(Field("gps", "0003", "ASCII", 2, b"S\\0"))
    ('W', '')
    """
    first = letter.content[:1].decode("latin-1").upper() if isinstance(letter.content, bytes) else ""
    return first if first in tuple("NS" if letter.tag in ("0001", "0013") else "EW") else ""


def angle(field: Field) -> str | None:
    """A latitude or a longitude.

    >>> angle(Field("gps", "0002", "RATIONAL", 3, ((46, 1), (1213, 100), (0, 1))))
    '46°12\\'7.8"'
    """
    value = degrees(field)
    if value is None:
        return None
    hundredths = round(value * 360000)
    return f"{hundredths // 360000}°{hundredths // 6000 % 60:02}'{decimal(hundredths % 6000 / 100, 2)}\""


def clock(field: Field) -> str | None:
    """GPSTimeStamp."""
    parts = _three(field)
    if parts is None:
        return None
    hours, minutes, rest = parts
    whole, part = divmod(rest, 1)
    return f"{int(hours):02}:{int(minutes):02}:{int(whole):02}{decimal(part, 3)[1:] if part else ''} UTC"


def lens(field: Field) -> str | None:
    """LensSpecification: the least and greatest focal length, and the f-number at each."""
    ratios = fractions(field)
    if ratios is None or len(ratios) != 4:
        return None
    words = ["?" if one is None else decimal(one, 1) for one in ratios]
    length = words[0] if words[0] == words[1] else f"{words[0]}-{words[1]}"
    opening = words[2] if words[2] == words[3] else f"{words[2]}-{words[3]}"
    return f"{length} mm" + ("" if opening in ("?", "0") else f" f/{opening}")


_DATE = r"(\d{4})[:-](\d\d)[:-](\d\d)(?:[ T](\d\d):(\d\d)(?::(\d\d(?:\.\d+)?))?)?([+-]\d\d:\d\d|Z)?\Z"


def date(field: Field) -> str | None:
    """A date of Exif; `unknown` for one of blanks or zeros, as the standard writes it.

    >>> [date(Field("main", "0132", "ASCII", 20, it)) for it in (b"2008:07:31 10:38:11\\0", b"    :  :     :  :  \\0")]
    ['2008-07-31 10:38:11', 'unknown']
    """
    text = text_of(field)
    if text is None:
        return None
    if not text.strip(" :0"):
        return UNKNOWN
    match = re.match(_DATE, text.strip(" \0"))
    if not match:
        return None
    day = "-".join(match.group(1, 2, 3))
    time = f" {match[4]}:{match[5]}" + (f":{match[6]}" if match[6] else "") if match[4] else ""
    return day + time + (match[7] or "")


def iptc_date(field: Field) -> str | None:
    """A date of IIM, CCYYMMDD."""
    match = re.fullmatch(r"(\d{4})(\d\d)(\d\d)", text_of(field) or "")
    return None if not match else UNKNOWN if match[1] == "0000" else "-".join(match.groups())


def iptc_time(field: Field) -> str | None:
    """A time of IIM, HHMMSS±HHMM."""
    match = re.fullmatch(r"(\d\d)(\d\d)(\d\d)([+-]\d\d)(\d\d)", text_of(field) or "")
    return f"{match[1]}:{match[2]}:{match[3]}{match[4]}:{match[5]}" if match else None


def iptc_number(field: Field) -> str | None:
    """A binary number of IIM in two bytes."""
    octets = _octets(field, 2)
    return str(int.from_bytes(octets, "big")) if octets else None


def dotted(field: Field) -> str | None:
    """A version of four bytes, as GPSVersionID."""
    octets = _octets(field, 4)
    return ".".join(map(str, octets)) if octets else None


def _octets(field: Field, length: int) -> bytes | None:
    """The bytes of a field with so many, unless they are a text."""
    return field.content if isinstance(field.content, bytes) and len(field.content) == length and text_of(field) is None else None


def version(field: Field) -> str | None:
    """A version of four digits: 0231 is 2.31, and 0220 is 2.2."""
    text = text_of(field)
    return f"{int(text[:2])}.{text[2:].rstrip('0') or '0'}" if text and re.fullmatch(r"\d{4}", text) else None
