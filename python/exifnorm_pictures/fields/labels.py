"""The texts of a picture by label: what Exif, IPTC and XMP have as its title, caption, creator and so on, each with its field.

Which fields belong together is by the IPTC Photo Metadata Standard (mapping of IIM and XMP) and by the Metadata Working Group's guidelines.
"""

from __future__ import annotations

import functools
import re
from typing import Iterable, Iterator, NamedTuple, Sequence

from ..model.found import EXIF, IPTC, NAMES, SIDECAR, XMP
from ..model.xmp_values import Long, texts_in
from .field import Field
from .names import group_name
from .plain_texts import decoded, text_of_comment, utf_16

# Texts that a camera or a program writes by itself, in the place of a caption that a person would write.
#
# A text is one only if nothing else is in it: a caption that names a camera, as "Man with a digital camera" or "The Canon of the cathedral",
# is a person's. Each rule is of texts in real files; tests/pictures/test_own_texts.py has them, and captions that are none.

# Whole texts, in capitals
_TEXTS = frozenset(
    "SONY DSC; DCIM; DEFAULT; MAGINON; SAMSUNG; SAMSUNG CAMERA PICTURES; CASIO COMPUTER CO.,LTD; EXIF_JPEG_PICTURE; EXIF JPEG; JPEG; DCF 1.0;"
    " USER COMMENTS; SCREENSHOT; DIGITAL IMAGE; DIGITAL STILLCAMERA; SAMSUNG CSC".split("; ")
)
# In capitals, as cameras write it: GE DIGITAL CAMERA, KODAK DIGITAL STILL CAMERA
_OF_CAMERA = r"(\S+ ){0,4}DIGITAL (STILL |VIDEO )?(CAMERA|CAMCORDER|IMAGE)( PICTURES?)?"
# Design rule for Camera File system (JEITA CP-3461): DCIM, a folder of three digits and five letters, four letters and four digits
_FILE = r"(.*\bDCIM[\\/])?(\d{3}\w{5}[\\/])?[A-Z0-9_]{4}\d{4}\.(?!\d+\Z)[A-Z0-9]{3,4}"  # and no inventory number, as 19980012.001
_PRODUCTS = (
    r"gimp( [\d.]+)?( on .*)?|adobe( systems)? (photoshop|illustrator|lightroom|imageready|fireworks|indesign)\b.*|paint shop pro\b.*"
)
_PROGRAM = (
    r"(created|edited|made|processed|saved) (with|by|in|using) (the )?"
    rf"({_PRODUCTS}|(imagemagick|inkscape|paint\.net|picasa|ebay)\b.*)"
    r"|software: .*|file written by adobe photoshop.*|creator: gd-jpeg .*|optimized by jpegmini .*|lead technologies inc\..*|intel\(r\) jpeg library.*"
)
_FILLING = set("DIGITAL STILL CAMERA IMAGE PICTURE PHOTO DSC JPEG EXIF CORPORATION CORP INC CO LTD".split())


def is_own(text: str, make: str = "", model: str = "") -> bool:
    """Whether a camera with this make and model, or a program, writes the text by itself.

    >>> is_own("SANYO DIGITAL CAMERA"), is_own("Man with a digital camera"), is_own("GC-X1E Image", "HITACHI", "GC-X1E")
    (True, False, True)
    """
    line = " ".join(text.strip(" \0").split())
    upper = line.upper()
    if upper in _TEXTS or re.fullmatch(_PROGRAM, line, re.I):
        return True
    # a word or a dot is found in less time than a whole expression
    if ("DIGITAL " in line and re.fullmatch(_OF_CAMERA, line)) or ("." in line[-5:-3] and re.fullmatch(_FILE, line, re.I)):
        return True
    make, model = make.upper(), model.upper()
    first = next(_words(upper), "")
    if first not in _FILLING and first not in make and first not in model:  # so it is none of their words
        return False
    return _is_name(upper, set(_words(make)) - _FILLING, set(_words(model)) - _FILLING)


def _is_name(line: str, makes: set[str], models: set[str]) -> bool:
    """Whether a line names the camera, and has no other word that says something: a make and a further word, a model's word of letters and
    digits, or all words of a model. "Mark", "Black", "12" and "Apple" may be a person's titles, though they are in the names of cameras."""
    words = list(_words(line))
    if not set(words) <= makes | models | _FILLING:
        return False
    has_number = any(word in models and not word.isdigit() and any(map(str.isdigit, word)) for word in words)
    return has_number or (len(words) > 1 and (any(word in makes for word in words) or (len(models) > 1 and models <= set(words))))


def _words(text: str) -> Iterator[str]:
    return (match[0] for match in re.finditer(r"[\w-]+", text))


class Label(NamedTuple):
    """A label, and its field in each standard; empty if the standard has none."""

    word: str
    exif: str  # the tag in the main directory
    iptc: str
    xmp: str
    limit: int = 0  # bytes that IPTC-NAA IIM 4.2 allows for one text
    is_list: bool = False


# The members of each label; bytes and "list" only where they are needed
_LABELS = """
title,,2:5,dc:title,64,
caption,010e,2:120,dc:description,2000,
headline,,2:105,photoshop:Headline,256,
creator,013b,2:80,dc:creator,32,list
creator's job,,2:85,photoshop:AuthorsPosition,32,
credit,,2:110,photoshop:Credit,32,
source,,2:115,photoshop:Source,32,
copyright,8298,2:116,dc:rights,128,
keywords,,2:25,dc:subject,64,list
job identifier,,2:103,photoshop:TransmissionReference,32,
date created,9003,2:55,photoshop:DateCreated,,
location,,2:92,Iptc4xmpCore:Location,32,
city,,2:90,photoshop:City,32,
state,,2:95,photoshop:State,32,
country,,2:101,photoshop:Country,64,
instructions,,2:40,photoshop:Instructions,256,
usage terms,,,xmpRights:UsageTerms,,
"""
LABELS = tuple(
    Label(word, exif, iptc, xmp, int(limit or 0), bool(is_list))
    for word, exif, iptc, xmp, limit, is_list in (row.split(",") for row in _LABELS.strip().splitlines())
)
COMMENT, DATE = "comment", "date created"
LABEL_WORDS = (*(it.word for it in LABELS), COMMENT)
# Texts that Windows writes beside the others, in UTF-16. They are shown, and nothing is compared with them.
WINDOWS = {"9c9b": "title", "9c9c": COMMENT, "9c9d": "creator", "9c9e": "keywords", "9c9f": "title"}


POSITION = "position"  # no label of a text: where the picture was taken, by GPS
UNCLEAR_POSITION = "position?"  # a latitude and a longitude that make no position; no question has this word
DAMAGE = "damage"  # no label either: where a file is cut off, or its coded picture is damaged. No field has it
RIGHTS_END, EMBARGO, DIGITAL_SOURCE, DATA_MINING = "rights end", "embargo", "digital source", "data mining"
PERSON_SHOWN = "person shown"
# No labels of captions either, but of fields that are asked for: which camera, lens and owner a picture is of, which a MakerNote may have, too
# (only ExifTool reads it); until when, from when and for what it may be used; whether a program has made it; and who is shown


def _fields(text: str) -> tuple[tuple[str, str], ...]:
    """Fields by their directories and tags, as `exif/a430 xmp/aux:OwnerName`."""
    return tuple((where, key) for it in text.split() for where, _, key in [it.partition("/")])


OF_FIELDS = {
    word: _fields(places)
    for row in f"""
serial= exif/a431 exif/a435 main/c62f xmp/exifEX:BodySerialNumber xmp/exifEX:LensSerialNumber xmp/aux:SerialNumber xmp/aux:LensSerialNumber
owner= exif/a430 xmp/exifEX:CameraOwnerName xmp/aux:OwnerName
{RIGHTS_END}= iptc/2:37 xmp/plus:LicenseEndDate
{EMBARGO}= iptc/2:30 xmp/<http://prismstandard.org/namespaces/basic/2.0/embargoDate>
{DIGITAL_SOURCE}= xmp/Iptc4xmpExt:DigitalSourceType
{DATA_MINING}= xmp/plus:DataMining
{PERSON_SHOWN}= xmp/Iptc4xmpExt:PersonInImage
""".strip().splitlines()
    for word, _, places in [row.partition("= ")]
}
DATED = (DATE, RIGHTS_END, EMBARGO)  # labels of dates
CODED = (DIGITAL_SOURCE, DATA_MINING)  # labels of codes, which are the last part of a URI


def is_in_maker_notes(word: str) -> bool:
    """Whether MakerNotes, too, may have what a label or a field is about.

    >>> is_in_maker_notes("serial"), is_in_maker_notes("ExifIFD:LensSerialNumber"), is_in_maker_notes("creator")
    (True, True, False)
    """
    return bool(re.search("serial|owner", word, re.I))


# The tags of Exif that XMP has too, beside the properties of labels
_MIRRORS = {"010e": "tiff:ImageDescription", "013b": "tiff:Artist", "8298": "tiff:Copyright", "9003": "exif:DateTimeOriginal"}
_OF_POSITION = """gps/0001 gps/0002 gps/0003 gps/0004 gps/0005 gps/0006
xmp/exif:GPSLatitude xmp/exif:GPSLongitude xmp/exif:GPSAltitudeRef xmp/exif:GPSAltitude"""


@functools.lru_cache(maxsize=1)
def fields_by_label() -> dict[str, tuple[str, ...]]:
    """The fields of each label over Exif, IPTC and XMP, by the names that are printed.

    >>> fields_by_label()["creator"]
    ('IFD0:Artist', 'IPTC:By-line', 'XMP-dc:creator', 'XMP-tiff:Artist', 'IFD0:XPAuthor')
    """
    by_label = {it.word: _fields_of(it) for it in LABELS}
    by_label[DATE] += _fields("exif/9291 exif/9011 iptc/2:60")
    by_label[COMMENT] = _fields("exif/9286 xmp/exif:UserComment")
    for tag, word in WINDOWS.items():
        by_label[word] += (("main", tag),)
    by_label[POSITION] = _fields(_OF_POSITION)
    return {word: tuple(group_name(*it) for it in fields) for word, fields in {**by_label, **OF_FIELDS}.items()}


def _fields_of(label: Label) -> tuple[tuple[str, str], ...]:
    exif = "exif" if label.word == DATE else "main"
    keys = (label.exif, label.iptc, label.xmp, _MIRRORS.get(label.exif))
    return tuple((where, key) for where, key in zip((exif, "iptc", "xmp", "xmp"), keys) if key)


@functools.lru_cache(maxsize=1)
def label_of_fields() -> dict[str, str]:
    """The label of each field that has one, by the names that are printed."""
    return {name: label for label, names in fields_by_label().items() for name in names}


def label_of(word: str) -> str | None:
    """The label that somebody has typed: upper and lower case, hyphens and the apostrophe don't matter.

    >>> label_of("Date-Created"), label_of("creators job"), label_of("Artist")
    ('date created', "creator's job", None)
    """
    return {_typed(it): it for it in fields_by_label()}.get(_typed(word))


def _typed(word: str) -> str:
    return re.sub(r"[-_ ]+", " ", word.casefold().replace("'", ""))


class Caption(NamedTuple):
    """The texts of one field for a label, such as "title" or "keywords".

    - `label`: the label
    - `standard`: "Exif", "IPTC" or "XMP"
    - `field`: the name of the field, such as "IFD0:Artist"
    - `texts`: the texts, several of a list
    - `octets`: those of Exif and IPTC as they are in the file
    - `guess`: how the character set was found if it isn't declared
    - `block`: empty for the first block of a kind
    - `is_extra`: whether nothing is compared with it, as with what Windows writes
    - `is_own`: whether a camera or a program writes it by itself

    `str` joins the texts.
    """

    label: str
    standard: str
    field: str
    texts: tuple[str, ...]
    octets: tuple[bytes, ...] = ()
    guess: str = ""
    block: str = ""
    is_extra: bool = False
    is_own: bool = False

    @property
    def is_empty(self) -> bool:
        """Whether the field is there and has no text."""
        return not any(self.texts)

    @property
    def is_compared(self) -> bool:
        """Whether it is of the first block of its kind or of an XMP sidecar, and not extra."""
        return not self.is_extra and (not self.block or self.block.endswith(SIDECAR))

    @property
    def line(self) -> str:
        """The texts in a line."""
        return "; ".join(self.texts)

    def __str__(self) -> str:
        return self.line


Captions = Sequence[Caption]
_EXIF = {it.exif: it.word for it in LABELS if it.exif} | {"9291": DATE, "9011": DATE, "9286": COMMENT} | WINDOWS
_IPTC = {it.iptc: it.word for it in LABELS if it.iptc} | {"1:90": "", "2:60": DATE}
_XMP = {it.xmp: it.word for it in LABELS if it.xmp}
# The label of each field that has a part in one, by its directory and its tag
LABELLED = {
    (directory, tag): word
    for directory, words in (("main", _EXIF), ("exif", _EXIF), ("iptc", _IPTC), ("xmp", _XMP))
    for tag, word in words.items()
}


def of_block(fields: Iterable[Field]) -> Iterator[Caption]:
    """The texts of a block, by its fields.

    >>> [it[:4] for it in of_block([Field("main", "013b", "ASCII", 5, b"Anna\\0")])]
    [('creator', 'Exif', 'IFD0:Artist', ('Anna',))]
    """
    return of_labelled([it for it in fields if word_of(it) is not None])


def of_labelled(fields: Sequence[Field]) -> Iterator[Caption]:
    """The same by those of its fields that have a part in a label."""
    return _of_properties(fields) if fields and fields[0].directory == "xmp" else _of_octets_fields(fields)


def word_of(field: Field) -> str | None:
    """The label of a field that has a part in one."""
    return LABELLED.get((field.directory, field.tag))


def not_kept(fields: Iterable[Field]) -> set[str]:
    """The labels of which a text is too long to be kept."""
    return {word for it in fields if not isinstance(it.content, bytes) and has_long(it) for word in [word_of(it)] if word}


def has_long(field: Field) -> bool:
    """Whether a text of a field is too long to be kept."""
    if isinstance(field.content, Long):
        return True
    return field.directory == "xmp" and any(isinstance(one, Long) for one in field.content)


# Exif and IPTC


_NAMES = {place: group_name(*place) for place in LABELLED}  # of fields
_IN_EXIF = "9003 9011 9286 9291".split()  # the tags whose directory is that of Exif; of the others it is the main directory
# By the tag or DataSet: the number of its label
_NUMBERS = {tag: number for number, label in enumerate(LABELS) for tag in (label.exif, label.iptc) if tag}


_ByTag = dict[str, Field]
_Record = dict[str, list[bytes]]  # of IPTC


def _of_octets_fields(fields: Sequence[Field]) -> Iterator[Caption]:
    """The texts of a block of Exif or IPTC, by its fields."""
    exif: _ByTag = {}
    record: _Record = {}
    for field in fields:
        if isinstance(field.content, bytes) and field.directory == "iptc":
            record.setdefault(field.tag, []).append(field.content)
        elif isinstance(field.content, bytes):
            # Some programs write a field into another directory than that of its tag
            is_at_home = (field.directory == "exif") == (field.tag in _IN_EXIF)
            exif[field.tag] = field if is_at_home else exif.get(field.tag, field)
    for number in sorted({_NUMBERS[tag] for tag in (*exif, *record) if tag in _NUMBERS}):
        label = LABELS[number]
        yield from _dates(exif, record) if label.word == DATE else _of_label(label, exif, record)
    yield from _extra(exif)


def _of_label(label: Label, exif: _ByTag, record: _Record) -> Iterator[Caption]:
    """The texts of a label that is no date."""
    if label.exif in exif:
        field = exif[label.exif]
        name = _NAMES[field.directory, field.tag]
        yield _of_octets(label.word, NAMES[EXIF], name, [_octets(field)], field.type == "UTF8")
    if label.iptc in record:
        is_utf8 = record.get("1:90") == [b"\x1b%G"]
        yield _of_octets(label.word, NAMES[IPTC], _NAMES["iptc", label.iptc], record[label.iptc], is_utf8)


def with_own(texts: list[Caption], exif: Iterable[Sequence[Field]]) -> list[Caption]:
    """The texts of a picture with these blocks of Exif, of which captions and comments are marked that its camera, or a program, writes by
    itself; also where another program has copied them to IPTC or XMP."""
    possible = {id(it.texts): it.line for it in texts if it.label in _CAN_BE_OWN}  # pages of a TIFF may share a long text
    if not possible:
        return texts
    make, model = next(filter(any, map(camera_of, exif)), ("", ""))
    own = {key for key, line in possible.items() if is_own(line, make, model)}
    return [it._replace(is_own=True) if it.label in _CAN_BE_OWN and id(it.texts) in own else it for it in texts]


def names_camera(field: Field) -> bool:
    """Whether a field has the make or the model of the camera."""
    return field.directory == "main" and field.tag in _CAMERA


def camera_of(fields: Iterable[Field]) -> tuple[str, str]:
    """The make and the model in a block of Exif."""
    values = {it.tag: it.content for it in fields if names_camera(it) and isinstance(it.content, bytes)}
    if not values:
        return "", ""
    make, model = (decoded(values.get(key, b""))[0] for key in _CAMERA)
    return make, model


_CAN_BE_OWN = ("caption", COMMENT)
_CAMERA = ("010f", "0110")  # make and model


def _octets(field: Field | None) -> bytes:
    return field.content if field and isinstance(field.content, bytes) else b""


def _of_octets(word: str, standard: str, field: str, values: Sequence[bytes], is_utf8: bool) -> Caption:
    texts, guesses = zip(*[decoded(it, is_utf8) for it in values])
    guess = next(filter(None, guesses), "")
    return Caption(word, standard, field, tuple(text.strip(" \0") for text in texts), tuple(values), guess)


def _extra(exif: _ByTag) -> Iterator[Caption]:
    """The comment, and what Windows writes."""
    for tag in ("9286", *WINDOWS):
        if tag in exif:
            text = text_of_comment(exif[tag]) if tag == "9286" else utf_16(_octets(exif[tag])).rstrip("\0 ")
            if text:
                yield Caption(_EXIF[tag], NAMES[EXIF], _NAMES[exif[tag].directory, tag], (text,), is_extra=True)


# Dates


def _dates(exif: _ByTag, record: _Record) -> Iterator[Caption]:
    """The date of the picture, with its time and its parts of a second, if they are there."""
    taken, part, zone = (_ascii(_octets(exif.get(tag))) for tag in ("9003", "9291", "9011"))
    if "9003" in exif:
        text = taken[:10].replace(":", "-") + taken[10:] + f".{part}" * part.isdigit()
        text += zone if re.fullmatch(r"Z|[+-]\d\d:\d\d", zone) else ""
        yield Caption(DATE, NAMES[EXIF], _NAMES[exif["9003"].directory, "9003"], (text if text.strip(" -:0.") else "",))
    if "2:55" in record:
        day, time = _ascii(record["2:55"][0]), _ascii(record.get("2:60", [b""])[0])
        text = re.sub(r"^(\d{4})(\d\d)(\d\d)$", r"\1-\2-\3", day)
        clock = re.sub(
            r"^(\d\d)(\d\d)(\d\d(?:\.\d+)?)(?:([+-]\d\d)(\d\d))?$",
            lambda it: f"{it[1]}:{it[2]}:{it[3]}" + (f"{it[4]}:{it[5]}" if it[4] else ""),
            time,
        )
        text += f" {clock}" if re.match(r"\d{6}", time) else ""
        yield Caption(DATE, NAMES[IPTC], _NAMES["iptc", "2:55"], (text if text.strip(" -:0+") else "",))


def _ascii(octets: bytes) -> str:
    return octets.decode("ascii", "replace").strip(" \0")


# XMP


def _of_properties(fields: Sequence[Field]) -> Iterator[Caption]:
    """The texts of a packet, by its properties."""
    by_key = {it.tag: tuple(text.strip() for value in it.content for text in texts_in(value)) for it in fields}  # type: ignore[arg-type]
    for label in LABELS:
        values = by_key.get(label.xmp)
        if values is not None:
            texts = tuple(it.replace("T", " ") for it in values) if label.word == DATE else values
            yield Caption(label.word, NAMES[XMP], _NAMES["xmp", label.xmp], texts)
