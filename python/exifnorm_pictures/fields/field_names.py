"""All names by which a field can be typed: those that are printed, those of ExifTool and of the standards, and the numbers of tags."""

from __future__ import annotations

import functools
import re

from exifnorm._hints import Iterator, Sequence

from ..model.texts import grouped, safe
from ..model.xmp_names import PREFIXES
from ..model.xmp_values import Array, LongStructure, Structure, XmpValue
from . import other_names
from .field import Field
from .names import TABLES, group_name, group_of, name_of, plain_name

# ExifTool's and exiv2's prefixes where they are others, and ExifTool's of namespaces that have none here
_OTHER_PREFIXES = {"Iptc4xmpCore": ("iptcCore", "iptc"), "Iptc4xmpExt": ("iptcExt",), "MicrosoftPhoto": ("microsoft",)}
_SPACES = dict(line.split() for line in other_names.SPACES.strip().splitlines())
_NAMES = {key: names.split(",") for key, _, names in (word.partition("=") for word in other_names.NAMES.split())}
_EXIV2 = {"main": "Exif.Image", "exif": "Exif.Photo", "gps": "Exif.GPSInfo", "interop": "Exif.Iop", "thumb": "Exif.Thumbnail"}

# Properties of the Adobe XMP Specification (parts 1 and 2) and of the IPTC Photo Metadata Standard; those of Exif and TIFF have the names of
# their tags
_XMP = """
dc:contributor dc:coverage dc:creator dc:date dc:description dc:format dc:identifier dc:language dc:publisher dc:relation dc:rights dc:source
dc:subject dc:title dc:type xmp:BaseURL xmp:CreateDate xmp:CreatorTool xmp:Identifier xmp:Label xmp:MetadataDate xmp:ModifyDate xmp:Nickname
xmp:Rating xmp:Thumbnails xmpRights:Certificate xmpRights:Marked xmpRights:Owner xmpRights:UsageTerms xmpRights:WebStatement
xmpMM:DerivedFrom xmpMM:DocumentID xmpMM:History xmpMM:Ingredients xmpMM:InstanceID xmpMM:ManagedFrom xmpMM:Manager xmpMM:ManageTo
xmpMM:ManageUI xmpMM:ManagerVariant xmpMM:OriginalDocumentID xmpMM:Pantry xmpMM:RenditionClass xmpMM:RenditionParams xmpMM:VersionID
xmpMM:Versions photoshop:AuthorsPosition photoshop:CaptionWriter photoshop:Category photoshop:City photoshop:ColorMode photoshop:Country
photoshop:Credit photoshop:DateCreated photoshop:DocumentAncestors photoshop:Headline photoshop:History photoshop:ICCProfile
photoshop:Instructions photoshop:LegacyIPTCDigest photoshop:Source photoshop:State photoshop:SupplementalCategories
photoshop:TransmissionReference photoshop:Urgency Iptc4xmpCore:CiAdrCity Iptc4xmpCore:CountryCode Iptc4xmpCore:CreatorContactInfo
Iptc4xmpCore:IntellectualGenre Iptc4xmpCore:Location Iptc4xmpCore:Scene Iptc4xmpCore:SubjectCode lr:hierarchicalSubject plus:DataMining plus:OtherConstraints
""".split()

Names = frozenset[str]
_DIRECTORIES = "main exif gps interop thumb iptc".split()


def names_and_groups(where: str, key: str, block: str = "") -> tuple[Names, Names, Names]:
    """The names of a field, its groups, and its names in other programs, in small letters.

    >>> sorted(names_and_groups("iptc", "2:25")[0])
    ['2:25', 'iptc:2:25', 'iptc:keywords', 'keywords']
    >>> sorted(names_and_groups("xmp", "dc:title")[0]), sorted(names_and_groups("xmp", "exif:FNumber")[0])
    (['dc:title', 'title', 'xmp-dc:title'], ['fnumber', 'xmp-exif:fnumber'])
    """
    printed = group_name(where, key)
    groups, bare = _groups(where, key), _bare(where, key)
    names = [printed, safe(printed), *bare, *(f"{group}:{it}" for group in groups if group != "xmp" for it in bare)]
    if where == "xmp" and key.partition(":")[0] not in _DIRECTORIES:
        names.append(key)
    if block:
        names += [f"{it} ({block})" for it in (printed, safe(printed))]
    own = frozenset(map(str.casefold, names))
    others = _others_of_property(key) if where == "xmp" else _others_of_tag(where, key, bare)
    return own, groups, frozenset(map(str.casefold, others)) - own


def _others_of_property(key: str) -> Iterator[str]:
    """The names of a property as `exiftool -G1`, `exiftool -G` and exiv2 print them, where they aren't those of this program.

    >>> names = set(_others_of_property("exif:PixelXDimension"))
    >>> names > {"XMP-exif:ExifImageWidth", "XMP:ExifImageWidth", "Xmp.exif.PixelXDimension"}
    True
    """
    prefix, name = _parted(key)
    names = [name, *_NAMES.get(f"{prefix}:{name}", ())]
    yield from names
    for other in (prefix, *_OTHER_PREFIXES.get(prefix, ())) if prefix else ():
        forms = (f"XMP-{other}:", f"{other}:" * (other not in _DIRECTORIES), f"Xmp.{other}.")
        yield from (f"{form}{it}" for it in names for form in forms)
    yield from (f"XMP-?:{it}" for it in names if f"xmp-{prefix}".casefold() not in XMP_GROUPS)
    # "xmp:" is the prefix of a namespace, too, whose own names come first
    yield from (f"XMP:{it}" for it in names if prefix == "xmp" or f"xmp:{it}".casefold() not in _OF_XMP)


def _others_of_tag(where: str, key: str, bare: Sequence[str]) -> Iterator[str]:
    """The same of a tag or a DataSet.

    >>> set(_others_of_tag("exif", "9004", _bare("exif", "9004"))) > {"DateTimeDigitized", "EXIF:CreateDate", "Exif.Photo.DateTimeDigitized"}
    True
    """
    if where not in _DIRECTORIES:
        return
    family, record, table = "EXIF", f"{_EXIV2.get(where)}.", "main:" if where in ("exif", "thumb") else f"{where}:"
    if where == "iptc":
        family, record, table = "IPTC", {"1": "Iptc.Envelope.", "2": "Iptc.Application2."}.get(key.partition(":")[0], ""), ""
    for name in (*bare, *_NAMES.get(table + key, ())):
        yield from (name, f"{group_of(where)}:{name}", f"{family}:{name}", *[record + name] * bool(record))


def asked_name(folded: str) -> str:
    """A name in small letters as `names_and_groups` has it: a prefix that no namespace has here is one of a file.

    >>> asked_name("xmp-gimp:api"), asked_name("xmp-dc:title")
    ('xmp-?:api', 'xmp-dc:title')
    """
    group, colon, name = folded.partition(":")
    if folded.startswith("xmp.") and not colon:  # as exiv2 has it
        _, prefix, name = f"{folded}..".split(".", 2)
        group, name = f"xmp-{prefix}", name.rstrip(".")
    return f"xmp-?:{name}" if name and group.startswith("xmp-") and group not in XMP_GROUPS and group != "xmp-iptc" else folded


def _parted(key: str) -> tuple[str, str]:
    """The prefix of a property and its name; of a namespace without a prefix ExifTool's, or none."""
    if not key.startswith("<"):
        prefix, _, name = key.partition(":")
        return prefix, name
    uri = key[1:-1]
    at = max(uri.rfind("/"), uri.rfind("#")) + 1
    return _SPACES.get(uri[:at], _SPACES.get(uri[: at - 1], "")), uri[at:]


def _bare(where: str, key: str) -> list[str]:
    """The names without a group."""
    if where == "xmp":
        return [] if key.startswith("<") else [key.partition(":")[2] or key]
    return [plain_name(where, key), name_of(where, key), key if ":" in key else f"0x{key}"]


def _groups(where: str, key: str) -> Names:
    """The groups of a field, in small letters: each stands for all of its fields.

    >>> sorted(_groups("main", "013b")), sorted(_groups("xmp", "Iptc4xmpCore:Location"))
    (['exif', 'ifd0', 'main'], ['xmp', 'xmp-iptc4xmpcore', 'xmp-iptccore'])
    """
    groups = [group_of(where), where]
    if where == "xmp" and not key.startswith("<"):
        prefix = key.partition(":")[0]
        groups += [f"XMP-{prefix}", *(f"XMP-{other}" for other in _OTHER_PREFIXES.get(prefix, ())[:1])]
    elif where in _DIRECTORIES[:5]:
        groups.append("Exif")
    return frozenset(map(str.casefold, groups))


@functools.lru_cache(maxsize=1)
def dictionary() -> tuple[Names, tuple[str, ...]]:
    """All names of the standards' fields and of their groups; and those of them that are printed and no numbers, as they are printed."""
    fields = _known_fields()
    names = frozenset(name for it in fields for some in names_and_groups(*it) for name in some)
    is_number = re.compile(_NUMBER).fullmatch  # of thousands of names
    printed = [it for it in (group_name(*it) for it in fields) if not is_number(it.partition(":")[2])]
    return names, tuple(dict.fromkeys([*printed, *(it.partition(":")[2] for it in printed)]))


def _known_fields() -> list[tuple[str, str]]:
    """The fields of the standards, and those for which other programs have a name."""
    tags = [(where, key) for where, tables in TABLES.items() for table in tables for key in table]
    mirrored = [("xmp", f"{prefix}:{it}") for prefix, place in _TAGS_IN_XMP for table in TABLES[place] for it in table.values()]
    named = [field for name in _NAMES for field in _fields_named(name)]
    properties = (("xmp", it) for it in (*_XMP, *other_names.PROPERTIES.split()))
    return [*tags, ("thumb", "jpeg"), ("thumb", "strip"), *properties, *mirrored, *named]


def _fields_named(name: str) -> list[tuple[str, str]]:
    """The fields that an entry of the other names is about: `main` stands for three directories.

    >>> _fields_named("main:c612"), _fields_named("2:25"), _fields_named("exif:PixelXDimension")
    ([('main', 'c612'), ('exif', 'c612'), ('thumb', 'c612')], [('iptc', '2:25')], [('xmp', 'exif:PixelXDimension')])
    """
    group, _, key = name.rpartition(":")
    if group == "main":
        return [(where, key) for where in ("main", "exif", "thumb")]
    if group in _EXIV2 and len(key) == 4:
        return [(group, key)]
    return [("iptc" if group.isdigit() else "xmp", name)]


_OF_XMP = frozenset(it.casefold() for it in _XMP if it.startswith("xmp:"))
_TAGS_IN_XMP = (("tiff", "main"), ("exif", "exif"), ("exif", "gps"))


_PREFIXES = {it.casefold() for it in (*PREFIXES, *(one for some in _OTHER_PREFIXES.values() for one in some[:1]), *_SPACES.values())}
EXIF_GROUPS = {"exif", *(it.casefold() for where in _DIRECTORIES[:5] for it in (where, group_of(where)))}
XMP_GROUPS = (_PREFIXES - EXIF_GROUPS) | {f"xmp-{it}" for it in _PREFIXES}
_NUMBER = r"(?s)([a-z0-9]+:)?0x[0-9a-f]{4}|(iptc:)?[0-9]{1,3}:[0-9]{1,3}|(xmp:)?<.*>"


def is_possible(name: str) -> bool:
    """Whether pictures can have a field with this name, which has no wildcard: one of the dictionary, a number, or one of a known namespace.

    >>> [is_possible(it) for it in ("Artist", "Artst", "crs:Anything", "IFD0:0xfe01", "9:99", "exif:Anything", "XMP-exif:Anything")]
    [True, False, True, True, True, False, True]
    """
    folded = name.casefold()
    if folded in dictionary()[0] or re.fullmatch(_NUMBER, folded):
        return True
    group, colon, rest = folded.partition(":")
    return bool(colon and rest) and group in XMP_GROUPS


# Members of structures of XMP as fields with ExifTool's names, `XMP-iptcExt:LocationCreatedCity`; and fields by the names of other programs.

_LONGEST = 200  # characters of a key whose names are kept


def members_of(field: Field) -> list[Field]:
    """The members of a property's structures, at any depth, as fields: of a list of structures one field has those of all.

    >>> from ..model.xmp_values import Literal
    >>> place = Structure((("Iptc4xmpExt:City", Literal("Berlin")), ("exif:GPSLatitude", Literal("52,30N"))))
    >>> members_of(Field("xmp", "Iptc4xmpExt:LocationCreated", "structure", 2, (place,)))
    [Field(name='XMP-Iptc4xmpExt:LocationCreatedCity', text='Berlin'), Field(name='XMP-Iptc4xmpExt:LocationCreatedGPSLatitude', text='52,30N')]
    """
    if field.directory != "xmp" or not isinstance(field.content, tuple):
        return []
    found = grouped(member for value in field.content for member in _members(field.tag.rstrip(">"), value))
    end = ">" * field.tag.startswith("<")
    return [Field("xmp", key + end, "text", len(values), tuple(values)) for key, values in found.items()]


def has_members(field: Field) -> bool:
    """Whether a property may have structures."""
    return isinstance(field.content, tuple) and any(isinstance(it, (Array, Structure, LongStructure)) for it in field.content)


def _members(key: str, value: object) -> Iterator[tuple[str, XmpValue]]:
    if isinstance(value, LongStructure):
        value = value.value
    if isinstance(value, Array):
        for one in value.members:
            yield from _members(key, one)
    elif isinstance(value, Structure):
        for name, member in value.members:
            local = name.rstrip(">").replace("#", "/").rpartition("/")[2].rpartition(":")[2]
            whole = key + local[:1].upper() + local[1:]
            yield whole, member
            yield from _members(whole, member)


def with_other_name(fields: Sequence[Field], folded: str) -> list[Field]:
    """The fields, or else the members of structures, that another program names so, in small letters."""
    asked = asked_name(folded)
    found = [it for it in fields if _is_named(it, folded, asked)]
    return found or [one for it in fields if it.directory == "xmp" for one in members_of(it) if _is_named(one, folded, asked)]


def _is_named(field: Field, folded: str, asked: str) -> bool:
    names, _, others = _names(field.directory, field.tag)
    return folded in names or asked in others


_kept = functools.lru_cache(4096)(names_and_groups)


def _names(where: str, key: str) -> tuple[Names, Names, Names]:
    return _kept(where, key) if len(key) < _LONGEST else names_and_groups(where, key)
