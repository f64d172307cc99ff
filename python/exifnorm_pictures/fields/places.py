"""Where a picture was taken, as signed decimals, by the fields of GPS in Exif and in XMP."""

from __future__ import annotations

import math
import re
from fractions import Fraction

from exifnorm._hints import Iterable, Iterator, NamedTuple, Sequence

from ..model.xmp_values import Array, Long, LongStructure, Structure, texts_in
from .field import Field
from .plain_numbers import degrees, denominators, direction


class Place(NamedTuple):
    """Degrees, of which north and east are positive."""

    latitude: float
    longitude: float

    @property
    def text(self) -> str:
        """Both as a map takes them: `51.500000, -0.120000`."""
        return f"{self.latitude:.6f}, {self.longitude:.6f}"


def place_of(text: str) -> Place | None:
    """The place of a text, as `Place.text` and as `show` have it; None of any other text.

    >>> place_of("-33.500000, 7.202167"), place_of("33 S")
    (Place(latitude=-33.5, longitude=7.202167), None)
    """
    match = re.fullmatch(r"(-?\d{1,2}(?:\.\d+)?)(?:° ?([NS]))?, ?(-?\d{1,3}(?:\.\d+)?)(?:° ?([EW]))?", text.strip())
    if not match:
        return None
    return Place(float(match[1]) * (-1 if match[2] == "S" else 1), float(match[3]) * (-1 if match[4] == "W" else 1))


def is_of_position(field: Field) -> bool:
    """Whether a position is made of such fields."""
    return field.directory == "gps" or (field.directory == "xmp" and field.tag in ("exif:GPSLatitude", "exif:GPSLongitude"))


def of_position(fields: Sequence[Field]) -> list[Field]:
    """Those of some fields of which a position is made."""
    return [it for it in fields if it.directory in ("gps", "xmp") and is_of_position(it)]


_LETTERS = {"0002": "0001", "0004": "0003", "0014": "0013", "0016": "0015"}  # by the tag of an angle of GPS: that of its direction


def is_angle(field: Field) -> bool:
    """Whether a field is a latitude or a longitude of GPS in Exif, which has degrees, minutes and seconds."""
    return field.directory == "gps" and field.tag in _LETTERS


def signed_degrees(angle: Field, fields: Iterable[Field]) -> Fraction | None:
    """An angle by the fields of its block, south and west of which are negative; without a letter it has no sign. None if it is no angle.

    >>> west = Field("gps", "0003", "ASCII", 2, b"W\\0")
    >>> signed_degrees(Field("gps", "0004", "RATIONAL", 3, ((7, 1), (30, 1), (0, 1))), [west])
    Fraction(-15, 2)
    """
    value = degrees(angle)
    letters = [it for it in fields if (it.directory, it.tag) == ("gps", _LETTERS[angle.tag])]
    is_negative = bool(letters) and direction(letters[0]) in ("S", "W")
    return -value if value is not None and is_negative else value


class Angle(NamedTuple):
    """A latitude or a longitude as it is written."""

    degrees: Fraction
    last: Fraction  # the last place of its form, in degrees


class Located(NamedTuple):
    """Where a picture was taken, as one standard has it."""

    latitude: Angle
    longitude: Angle

    @property
    def place(self) -> Place:
        """The same as numbers."""
        return Place(float(self.latitude.degrees), float(self.longitude.degrees))


def located(fields: Iterable[Field]) -> tuple[Located | None, Located | None]:
    """The position that Exif has, and that of XMP; None if a part is missing or is no angle of the earth."""
    gps, properties = _by_tag(fields)
    exif = _located(_of_exif(gps.get("0002"), gps.get("0001")), _of_exif(gps.get("0004"), gps.get("0003")))
    return exif, _located(_of_xmp(properties.get("exif:GPSLatitude"), "NS"), _of_xmp(properties.get("exif:GPSLongitude"), "EW"))


_ByTag = dict[str, Field]


def _by_tag(fields: Iterable[Field]) -> tuple[_ByTag, _ByTag]:
    """The fields of GPS in Exif, and those in XMP."""
    gps: _ByTag = {}
    properties: _ByTag = {}
    for field in fields:
        if field.directory == "gps":
            gps.setdefault(field.tag, field)
        elif is_of_position(field):
            properties.setdefault(field.tag, field)
    return gps, properties


def has_angles(fields: Iterable[Field]) -> bool:
    """Whether there is a latitude or a longitude, also such as make no position because the other one or a direction is missing or is another
    letter, or because they are none of the earth: other programs may show a place.

    >>> has_angles([Field("gps", key, "RATIONAL", 3, ((7, 1), (30, 1), (0, 1))) for key in ("0002", "0004")])
    True
    """
    gps, properties = _by_tag(fields)
    return any(key in gps and degrees(gps[key]) is not None for key in ("0002", "0004")) or bool(properties)


def further_places(fields: Iterable[Field]) -> tuple[list[Place], bool]:
    """The positions in structures of XMP, at any depth, as those of where a picture was created and of what it shows; and whether there may be
    more: coordinates that make no position, or a structure of places that isn't kept.

    >>> from ..model.xmp_values import Literal
    >>> place = Structure((("exif:GPSLatitude", Literal("52,30N")), ("exif:GPSLongitude", Literal("13,15E"))))
    >>> further_places([Field("xmp", "Iptc4xmpExt:LocationCreated", "structure", 2, (place,))])
    ([Place(latitude=52.5, longitude=13.25)], False)
    """
    properties = [it for it in fields if it.directory == "xmp" and isinstance(it.content, tuple)]
    places = [place for it in properties for structure in _structures(it.content) for place in _place_in(structure)]
    left_out = (one for it in properties if it.tag in _PLACES for one in it.content)
    return list(filter(None, places)), None in places or any(isinstance(it, Long) and not isinstance(it, LongStructure) for it in left_out)


def _place_in(structure: Structure) -> list[Place | None]:
    """The position of a structure with a coordinate; None if it makes no position."""
    members = {name.rpartition(":")[2]: value for name, value in structure.members}
    angles = [_of_xmp(Field("xmp", it, "text", 1, (members[it],)) if it in members else None, signs) for it, signs in _HALVES.items()]
    located_ = _located(*angles)
    return [located_ and located_.place] if _HALVES.keys() & members else []


_HALVES = {"GPSLatitude": "NS", "GPSLongitude": "EW"}
_PLACES = ("Iptc4xmpExt:LocationCreated", "Iptc4xmpExt:LocationShown")


def _structures(values: Iterable[object]) -> Iterator[Structure]:
    """The structures in some values, at any depth."""
    for value in values:
        if isinstance(value, LongStructure):
            value = value.value
        if isinstance(value, Array):
            yield from _structures(value.members)
        elif isinstance(value, Structure):
            yield value
            yield from _structures(member for _, member in value.members)


def position_of(fields: Iterable[Field]) -> Place | None:
    """The position that Exif has, otherwise that of XMP; None if a part is missing or is no angle of the earth.

    >>> position_of([
    ...     Field("gps", "0001", "ASCII", 2, b"S\\0"), Field("gps", "0002", "RATIONAL", 3, ((33, 1), (30, 1), (0, 1))),
    ...     Field("gps", "0003", "ASCII", 2, b"E\\0"), Field("gps", "0004", "RATIONAL", 3, ((7, 1), (1213, 100), (0, 1))),
    ... ])
    Place(latitude=-33.5, longitude=7.202166666666667)
    """
    exif, xmp = located(fields)
    either = exif or xmp
    return either.place if either else None


def is_same_place(position: Located, other: Located) -> bool:
    """Whether two positions are the same as far as both are written: the one that is written less exactly may be rounded or cut off, so that it
    is up to its last place beside the other."""
    pairs = ((position.latitude, other.latitude, 0), (position.longitude, other.longitude, 360))
    return all(_apart(mine, its, turn) <= max(mine.last, its.last) for mine, its, turn in pairs)


def _apart(angle: Angle, other: Angle, turn: int) -> Fraction:
    """The angle between two, of which one of longitude may be the other way round the earth."""
    apart = abs(angle.degrees - other.degrees)
    return min(apart, turn - apart) if turn else apart


def metres_apart(place: Place, other: Place) -> float:
    """The way on the surface of a round earth.

    >>> round(metres_apart(Place(0.0, 0.0), Place(1.0, 0.0)) / 1852)  # a sea mile is a minute
    60
    """
    first, second = math.radians(place.latitude), math.radians(other.latitude)
    turned = math.radians(other.longitude - place.longitude)
    half = math.sin((second - first) / 2) ** 2 + math.cos(first) * math.cos(second) * math.sin(turned / 2) ** 2
    return 2 * 6_371_000 * math.asin(min(1.0, math.sqrt(half)))


def altitude_of(fields: Iterable[Field]) -> float | None:
    """The height that Exif has, otherwise that of XMP, in metres above the sea or above the ellipsoid; None without one.

    >>> altitude_of([Field("gps", "0005", "BYTE", 1, b"\\1"), Field("gps", "0006", "RATIONAL", 1, ((25, 2),))])
    -12.5
    """
    values: dict[tuple[str, str], object] = {}
    for field in fields:
        if (field.directory, field.tag) in _ALTITUDE:
            values.setdefault((field.directory, field.tag), field.value)
    for reference, height in (_ALTITUDE[:2], _ALTITUDE[2:]):
        number = values.get(height)
        if isinstance(number, Fraction):
            return float(number) * (-1 if values.get(reference) in (1, 3) else 1)  # below the ellipsoid, or below the sea (Exif 3.0)
    return None


_ALTITUDE = (("gps", "0005"), ("gps", "0006"), ("xmp", "exif:GPSAltitudeRef"), ("xmp", "exif:GPSAltitude"))


def _located(latitude: Angle | None, longitude: Angle | None) -> Located | None:
    if latitude is None or longitude is None or abs(latitude.degrees) > 90 or abs(longitude.degrees) > 180:
        return None
    return Located(latitude, longitude)


def _of_exif(angle: Field | None, letter: Field | None) -> Angle | None:
    """An angle of GPS: degrees, minutes and seconds, and the letter of its direction (CIPA DC-008, 4.6.6). Each of the three numbers is a
    fraction, and the one with the smallest part is the last that is known."""
    if angle is None or letter is None:
        return None
    value, sign = degrees(angle), direction(letter)
    if value is None or not sign:
        return None
    last = min(Fraction(1, abs(part)) / 60**at for at, part in enumerate(denominators(angle)))
    return Angle(value * (-1 if sign in ("S", "W") else 1), last)


def _of_xmp(field: Field | None, signs: str) -> Angle | None:
    """An angle of XMP: `54,59,22.8N` or `54,59.38N` (XMP part 2, 8.7.5)."""
    if not field or not isinstance(field.content, tuple):
        return None
    text = next(iter(texts_in(field.content[0])), "").strip()  # type: ignore[arg-type]
    match = re.fullmatch(r"(\d{1,3}),(\d{1,2}(?:\.\d+)?)(?:,(\d{1,2}(?:\.\d+)?))?([NSEW])", text)
    if not match or match[4] not in signs:
        return None
    angle = Fraction(match[1]) + Fraction(match[2]) / 60 + Fraction(match[3] or 0) / 3600
    last = min(Fraction(1, 10 ** len(part.partition(".")[2])) / 60**at for at, part in ((1, match[2]), (2, match[3])) if part)
    return Angle(angle * (1 if match[4] == signs[0] else -1), last)
