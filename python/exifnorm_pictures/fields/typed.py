"""Values of fields for programs: their types follow from the fields, and never from what a field has in a picture."""

from __future__ import annotations

import math
import re
import struct
from datetime import date, datetime, time, timedelta, timezone
from fractions import Fraction
from functools import partial
from typing import Any, Callable, Iterator, Sequence, Union

from ..model.texts import grouped
from ..model.xmp_values import Array, Literal, Long, LongStructure, Structure, Uri, XmpValue, exact
from .field import Field
from .listing import DATASET_DATES, DATASET_NUMBERS, DATASET_TIMES, LONGEST_TEXT, is_comment, is_wide_text, kept_value
from .plain_texts import guessed, text_of_comment, utf_16

# Types of known properties of XMP, and the values of their texts as objects of Python.
#
# XMP writes each value as a text. The types are those of XMP part 1 (ISO 16684-1), 8.3 to 8.6, of part 2, 1.2 and 3, and of CIPA DC-010. The
# values of OECF are Rational and those of CFAPattern Integer, and both have the name `exif:Values`.

XmpObject = Union[int, float, Fraction, bool, datetime, date, None, str]

_TABLE = """
xmp Real Rating; Date CreateDate MetadataDate ModifyDate
xmpRights Boolean Marked
xmpMM Integer SaveID
xmpTPg Integer NPages; Boolean HasVisibleOverprint HasVisibleTransparency
dc Date date
photoshop Integer ColorMode Urgency; Date DateCreated
stEvt Date when
stRef Date lastModifyDate
stVer Date modifyDate
stDim Real w h
stArea Real x y w h d
tiff Integer ImageWidth ImageLength BitsPerSample Compression PhotometricInterpretation Orientation SamplesPerPixel PlanarConfiguration
 YCbCrSubSampling YCbCrPositioning ResolutionUnit TransferFunction; Rational XResolution YResolution WhitePoint PrimaryChromaticities
 YCbCrCoefficients ReferenceBlackWhite; Date DateTime
exif Integer ColorSpace ComponentsConfiguration PixelXDimension PixelYDimension ExposureProgram ISOSpeedRatings MeteringMode LightSource
 SubjectArea FocalPlaneResolutionUnit SubjectLocation SensingMethod FileSource SceneType CustomRendered ExposureMode WhiteBalance
 FocalLengthIn35mmFilm SceneCaptureType GainControl Contrast Saturation Sharpness SubjectDistanceRange GPSAltitudeRef GPSDifferential
 Return Mode Columns Rows; Number Values; Boolean Fired Function RedEyeMode; Rational CompressedBitsPerPixel ExposureTime FNumber ShutterSpeedValue
 ApertureValue BrightnessValue ExposureBiasValue MaxApertureValue SubjectDistance FocalLength FlashEnergy FocalPlaneXResolution
 FocalPlaneYResolution ExposureIndex DigitalZoomRatio GPSAltitude GPSDOP GPSSpeed GPSTrack GPSImgDirection GPSDestBearing
 GPSDestDistance GPSHPositioningError; Coordinate GPSLatitude GPSLongitude GPSDestLatitude GPSDestLongitude; Date DateTimeOriginal DateTimeDigitized GPSTimeStamp
exifEX Integer PhotographicSensitivity SensitivityType StandardOutputSensitivity RecommendedExposureIndex ISOSpeed ISOSpeedLatitudeyyy
 ISOSpeedLatitudezzz CompositeImage CompositeImageCount; Rational Gamma LensSpecification Temperature Humidity Pressure WaterDepth
 Acceleration CameraElevationAngle
"""


def _types() -> dict[str, str]:
    types = {}
    for line in _TABLE.strip().replace("\n ", " ").splitlines():
        prefix, _, rest = line.partition(" ")
        for part in rest.split("; "):
            kind, *names = part.split()
            types.update({f"{prefix}:{name}": kind for name in names})
    return types


TYPES = _types()
_INTEGER = re.compile(r"[+-]?[0-9]{1,300}")
_REAL = re.compile(r"[+-]?(?:[0-9]{1,300}(?:\.[0-9]{0,300})?|\.[0-9]{1,300})")
_RATIONAL = re.compile(r"([+-]?[0-9]{1,300})/([+-]?[0-9]{1,300})")
_COORDINATE = re.compile(r"([0-9]{1,3}),([0-9]{1,2}(?:\.[0-9]{1,20})?)(?:,([0-9]{1,2}(?:\.[0-9]{1,20})?))?([NSEW])")
_DATE = re.compile(
    r"([0-9]{4})-([0-9]{2})-([0-9]{2})(?:T([0-9]{2}):([0-9]{2})(?::([0-9]{2})(?:\.([0-9]{1,20}))?)?(?:(Z)|([+-])([0-9]{2}):([0-9]{2}))?)?"
)


def object_of(name: str, text: str) -> XmpObject:
    """The text of a property, or of a field of a structure, as an object of Python. It stays a text if its standard says nothing else, and in
    another form than the standard's; so does a date without its day. None for a fraction with the denominator 0.

    >>> object_of("tiff:Orientation", "6"), object_of("exif:ExposureTime", "1/60"), object_of("exif:ExposureTime", "fast")
    (6, Fraction(1, 60), 'fast')
    >>> object_of("xmpRights:Marked", "False"), object_of("dc:source", "6"), object_of("exif:GPSLatitude", "48,7.5S")
    (False, '6', -48.125)
    >>> object_of("xmp:CreateDate", "2019-03-12T11:20:45.5+01:00").isoformat(), object_of("xmp:CreateDate", "2019-03")
    ('2019-03-12T11:20:45.500000+01:00', '2019-03')
    """
    kind = TYPES.get(name)
    return _MADE[kind](text) if kind else text


def _integer(text: str) -> XmpObject:
    return int(text) if _INTEGER.fullmatch(text) else text


def _rational(text: str) -> XmpObject:
    match = _RATIONAL.fullmatch(text)
    if not match:
        return text
    below = int(match[2])
    return Fraction(int(match[1]), below) if below else None


def _coordinate(text: str) -> XmpObject:
    """Degrees, those of south and west below zero (part 2, 1.2.7.4, GPSCoordinate: "DDD,MM,SSk" or "DDD,MM.mmk")."""
    match = _COORDINATE.fullmatch(text)
    if not match:
        return text
    degrees = int(match[1]) + Fraction(match[2]) / 60 + Fraction(match[3] or 0) / 3600
    return float(-degrees if match[4] in "SW" else degrees)


def _date(text: str) -> XmpObject:
    match = _DATE.fullmatch(text)
    if not match:
        return text
    *moment, part, _, sign, hours, minutes = match.groups("0")
    try:
        year, month, day, hour, minute, second = map(int, moment)
        if match[4] is None:
            return date(year, month, day)
        ahead = timedelta(hours=int(hours), minutes=int(minutes)) * (-1 if sign == "-" else 1)
        zone = timezone(ahead) if match[8] or match[9] else None
        return datetime(year, month, day, hour, minute, second, int(part[:6].ljust(6, "0")), zone)
    except ValueError:
        return text


_MADE = {
    "Integer": _integer,
    "Real": lambda text: float(text) if _REAL.fullmatch(text) else text,
    "Rational": _rational,
    "Number": lambda text: _integer(text) if _INTEGER.fullmatch(text) else _rational(text),
    "Coordinate": _coordinate,
    # writers also have other letters than the standard, and the text "false" would be true in a program
    "Boolean": lambda text: {"true": True, "false": False}.get(text.casefold(), text),
    "Date": _date,
}


Value = Union[str, int, float, bool, Fraction, datetime, date, time, bytes, None, tuple[Any, ...], dict[str, Any]]

_DATES = {("main", "0132"), ("exif", "9003"), ("exif", "9004")}
_VERSIONS = {("UNDEFINED", *it) for it in (("exif", "9000"), ("exif", "a000"), ("interop", "0002"))}  # digits by the standard
_DATASET_OCTETS = {"1:90", "2:125", "2:202"}


def value_of(field: Field) -> Value:
    """The value of a field as an object of Python.

    A text is a str; so is a date in another form than its standard's. Of several elements, and of a list of XMP, it is a tuple.

    >>> value_of(Field("exif", "829a", "RATIONAL", 1, ((1, 60),))), value_of(Field("exif", "9003", "ASCII", 20, b"2019:03:12 11:20:45\\0"))
    (Fraction(1, 60), datetime.datetime(2019, 3, 12, 11, 20, 45))
    """
    if isinstance(field.content, Long):
        return None
    if field.directory == "xmp":
        return _of_xmp(field.tag, field.content)  # type: ignore[arg-type]
    if not isinstance(field.content, bytes):
        return _one_or_all(_numbers(field))
    value = _of_octets(field, field.content)
    made = _DATED.get((field.directory, field.tag))
    return (made(value.strip("\0 ")) or value) if made and isinstance(value, str) else value


def typed(field: Field) -> Any:
    """The value of a field as JSON has it: the same in catalogues, but for structures of XMP that these don't keep whole.

    >>> typed(Field("main", "0112", "SHORT", 1, (6,))), typed(Field("exif", "829a", "RATIONAL", 1, ((10, 1250),)))
    (6, 0.008)
    >>> typed(Field("gps", "0005", "BYTE", 1, b"A")), typed(Field("exif", "9101", "UNDEFINED", 4, b"\\1\\2\\3\\0"))
    (65, {'hex': '01020300'})
    """
    value = kept_value(field)
    if field.directory == "xmp":
        return _json_of_xmp(field)
    if isinstance(value, Long):
        return {"sha256": value.digest, "count": field.count}
    result = _of_octets(field, value) if isinstance(value, bytes) else _one_or_all(_numbers(field))
    if isinstance(result, bytes):
        return {"hex": result.hex()}
    return [_json_number(one) for one in result] if isinstance(result, tuple) else _json_number(result)


def number_of(field: Field) -> float | None:
    """The value of Exif or IPTC that is one number; None of any other.

    >>> number_of(Field("exif", "829a", "RATIONAL", 1, ((10, 1250),))), number_of(Field("iptc", "2:5", "octets", 1, b"7"))
    (0.008, None)
    """
    is_dataset = field.directory == "iptc"
    if field.directory == "xmp" or field.type in ("ASCII", "UTF8") or (is_dataset and field.tag not in DATASET_NUMBERS):
        return None
    if field.type == "UNDEFINED" and not is_dataset:
        return None
    value = typed(field)
    return float(value) if isinstance(value, (int, float)) else None


def together(fields: Sequence[Field]) -> Any:
    """The value of one field, or the values of a DataSet that is repeated as a list."""
    return fields[0].json if len(fields) == 1 else [it.json for it in fields]


def _json_number(number: Any) -> Any:
    if isinstance(number, Fraction):
        return int(number) if number.denominator == 1 else float(number)
    return None if isinstance(number, float) and not math.isfinite(number) else number


def _one_or_all(values: Sequence[Value]) -> Value:
    return values[0] if len(values) == 1 else tuple(values)


def _numbers(field: Field) -> list[Value]:
    """The numbers of a field; None for a fraction with the denominator 0."""
    values: Any = field.content
    if field.type in ("RATIONAL", "SRATIONAL"):
        return [Fraction(*one) if one[1] else None for one in values]
    if field.type in ("FLOAT", "DOUBLE"):
        size, form = (4, ">f") if field.type == "FLOAT" else (8, ">d")
        return [struct.unpack(form, one.to_bytes(size, "big"))[0] for one in values]
    return list(values)


def _of_octets(field: Field, octets: bytes) -> Value:
    """A text, numbers, or the bytes."""
    if field.directory == "iptc":
        return _of_dataset(field.tag, octets)
    if is_comment(field) and (text := text_of_comment(field)) is not None:
        return text
    if field.type in ("ASCII", "UTF8") or is_comment(field) or (field.type, field.directory, field.tag) in _VERSIONS:
        return guessed(octets, b"\0")
    if is_wide_text(field):
        return utf_16(octets).rstrip("\0")
    if field.type in ("BYTE", "SBYTE"):
        return _one_or_all(struct.unpack(f"{len(octets)}{'B' if field.type == 'BYTE' else 'b'}", octets))
    return octets


def _of_dataset(key: str, octets: bytes) -> Value:
    if key in DATASET_NUMBERS:
        return int.from_bytes(octets, "big") if len(octets) == 2 else octets
    return guessed(octets, b"\0") if key[:2] in ("1:", "2:") and key not in _DATASET_OCTETS else octets


def _dated(form: str, in_xmp: str, text: str) -> datetime | date | None:
    """A date in a form, by the form that it has in XMP; None of another one, and of a date that no calendar has."""
    match = re.fullmatch(form, text, re.ASCII)
    value = object_of("xmp:CreateDate", in_xmp.format(*match.groups())) if match else None
    return value if isinstance(value, date) else None


def _clock(text: str) -> time | None:
    moment = _dated(
        r"(\d\d)(\d\d)(\d\d)(?:([+-]\d\d)(\d\d))?",
        "2000-01-01T{}:{}:{}" + "{}:{}" * (len(text) > 6),
        text,
    )
    return moment.timetz() if isinstance(moment, datetime) else None


_DAY = partial(_dated, r"(\d{4})(\d\d)(\d\d)", "{}-{}-{}")
_MOMENT = partial(_dated, r"(\d{4}):(\d\d):(\d\d) (\d\d:\d\d:\d\d)", "{}-{}-{}T{}")
# Dates and times in the form of their standard, by the directory and the tag of a field
_DATED: dict[tuple[str, str], Callable[[str], Value]] = {
    **dict.fromkeys(_DATES, _MOMENT),
    **{("iptc", it): _DAY for it in DATASET_DATES},
    **{("iptc", it): _clock for it in DATASET_TIMES},
}


def raw(field: Field) -> bytes | None:
    """The bytes of a value, most significant byte first; None for XMP, and for a value that isn't kept whole."""
    if isinstance(field.content, bytes):
        return field.content
    if isinstance(field.content, Long) or field.directory == "xmp":
        return None
    values: Any = field.content
    if field.type in ("RATIONAL", "SRATIONAL"):
        values = [number for one in values for number in one]
    return struct.pack(f">{len(values)}{_LETTERS[field.type]}", *values)


_LETTERS = {  # of `struct`
    "SHORT": "H",
    **dict.fromkeys(("LONG", "WHOLE", "RATIONAL", "FLOAT"), "L"),
    "SSHORT": "h",
    **dict.fromkeys(("SLONG", "SRATIONAL"), "l"),
    "DOUBLE": "Q",
}


# XMP


def _of_xmp(name: str, values: Sequence[XmpValue]) -> Value:
    return _one_of_xmp(name, values[0]) if len(values) == 1 else tuple([_one_of_xmp(name, it) for it in values])


def _one_of_xmp(name: str, value: XmpValue) -> Value:
    """The value of a property: by the type that its standard gives it, otherwise a text; of alternatives the default one; of a list a tuple; of
    a structure its fields by their names; None for one that isn't kept.

    >>> _one_of_xmp("xmpMM:History", Structure((("stEvt:action", Literal("saved")), ("stEvt:changed", Literal("/")))))
    {'stEvt:action': 'saved', 'stEvt:changed': '/'}
    """
    if isinstance(value, Literal):
        return value.text if value.language else object_of(name, value.text)
    if isinstance(value, Uri):
        return value.uri
    if isinstance(value, LongStructure):
        value = value.value
    if isinstance(value, Structure):
        return dict(_members_of(value))
    return _of_array(name, value) if isinstance(value, Array) else None


def _of_array(name: str, array: Array) -> Value:
    if array.kind != "Alt":
        return tuple([_one_of_xmp(name, it) for it in array.members])
    of_default = [it for it in array.members if isinstance(it, Literal) and it.language.lower() == "x-default"]
    default = next(iter(of_default or array.members), None)
    return _one_of_xmp(name, default) if default else ()


def _members_of(structure: Structure) -> Iterator[tuple[str, Value]]:
    """The members of a structure. A text in another language than the default one has this after its name, as ExifTool prints it.

    >>> alternatives = Array("Alt", (Literal("Krug", "de"), Literal("Vase", "x-default")))
    >>> dict(_members_of(Structure((("Iptc4xmpExt:AOTitle", alternatives),))))
    {'Iptc4xmpExt:AOTitle': 'Vase', 'Iptc4xmpExt:AOTitle-de': 'Krug'}
    """
    for name, values in grouped(structure.members).items():
        yield name, _of_xmp(name, values)
        yield from ((f"{name}-{word}", text) for word, text in _languages(values).items() if word.lower() != "x-default")


def languages_of(field: Field) -> dict[str, str]:
    """The texts of alternatives by their languages, the default one first.

    >>> alternatives = Array("Alt", (Literal("Krug", "de"), Literal("Vase", "x-default")))
    >>> languages_of(Field("xmp", "dc:title", "Alt", 2, (alternatives,)))
    {'x-default': 'Vase', 'de': 'Krug'}
    """
    return _languages(field.content) if field.directory == "xmp" and isinstance(field.content, tuple) else {}


def _languages(values: Sequence[object]) -> dict[str, str]:
    arrays = [it for it in values if isinstance(it, Array) and it.kind == "Alt"]
    texts = [it for array in arrays for it in array.members if isinstance(it, Literal) and it.language]
    languages: dict[str, str] = {}
    for text in sorted(texts, key=lambda it: it.language.lower() != "x-default"):
        languages.setdefault(text.language, text.text)
    return languages


def _json_of_xmp(field: Field) -> Any:
    """The value of a property as JSON has it: of one that isn't kept whole its digest, and of a long structure that was read just now itself."""
    values = [_whole_structure(it) for it in kept_value(field)]
    long = [it for it in values if isinstance(it, Long)]
    return {"sha256": long[0].digest, "count": field.count} if long else _json_of_values(field.tag, values)


def _whole_structure(value: Any) -> Any:
    is_short = isinstance(value, LongStructure) and len(exact(value.value).encode("utf-8", "surrogatepass")) <= LONGEST_TEXT
    return value.value if is_short else value


def _json_of_values(name: str, values: Sequence[XmpValue]) -> Any:
    """The values of a property, or of a field of a structure: one of them, or all as a list; a text that has a language is in a list, too.

    >>> _json_of_values("xmpMM:History", [Array("Seq", (Structure((("stEvt:action", Literal("saved")),)),))])
    [{'stEvt:action': 'saved'}]
    """
    has_language = any(isinstance(it, Literal) and it.language for it in values)
    members = [_json_of_value(name, it, has_language) for it in values]
    return members[0] if len(members) == 1 and not has_language else members


def _json_of_value(name: str, value: XmpValue, has_language: bool) -> Any:
    """A text by its type, but dates are texts, and as an object if its list has a language; a list; or a structure's fields by their names."""
    if isinstance(value, (Literal, Uri)):
        text, language = (*value, "")[:2]  # a URI has no language
        return {"text": text, "language": language or None} if has_language else _json_of_text(name, text)
    if isinstance(value, Array):
        with_language = any(isinstance(it, Literal) and it.language for it in value.members)
        return [_json_of_value(name, it, with_language) for it in value.ordered()]
    if isinstance(value, Structure):
        return {member_name: _json_of_values(member_name, values) for member_name, values in grouped(value.members).items()}
    return None


def _json_of_text(name: str, text: str) -> Any:
    value = object_of(name, text)
    if isinstance(value, float) and value.is_integer():
        return int(value)
    return text if isinstance(value, date) else _json_number(value)
