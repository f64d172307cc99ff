"""Values and names in plain words, beside ExifTool's own."""

import datetime
import json
import re
import subprocess
from xml.etree import ElementTree

import pytest
from exact_fields import field
from made_blocks import LONG, UNDEFINED
from made_files import app1, jpeg, small_tiff
from studio import SMALL_JPEG, needs, tool

from exifnorm_pictures.fields.field import Field
from exifnorm_pictures.fields.names import _EXIF, _GPS, _IIM, _INTEROP, _TIFF, group_name, plain_name
from exifnorm_pictures.fields.plain_texts import comment
from exifnorm_pictures.fields.plain_values import plain
from exifnorm_pictures.fields.typed import value_of
from exifnorm_pictures.cli import main


def shown(where, key, kind, value):
    return plain(field(where, key, kind, 1, value))


# Names

TABLES = {"main": _TIFF, "exif": _EXIF, "gps": _GPS, "interop": _INTEROP, "iptc": _IIM}
GROUPS = {
    "Exif::Main": ("main", "exif", "interop"),
    "GPS::Main": ("gps",),
    "IPTC::EnvelopeRecord": ("1",),
    "IPTC::ApplicationRecord": ("2",),
}
# Pointers, which are no fields; those for which ExifTool has several names; and those that ExifTool 12.57 doesn't know
OTHERS = {"8649", "8769", "8773", "8825", "a005", "014a", "927c", "a436", "a437", "a438", "a439", "a43a", "a43b", "a43c"}


@pytest.fixture(scope="module")
def names_of_exiftool():
    """The names of tags by directory and number."""
    found = {}
    for group in ("-EXIF:All", "-IPTC:All"):
        listed = subprocess.run(["exiftool", "-listx", group], capture_output=True, check=True).stdout
        for table in ElementTree.fromstring(listed):
            for place in GROUPS.get(table.get("name"), ()):
                for tag in table.findall("tag"):
                    key = ("iptc", f"{place}:{tag.get('id')}") if place.isdigit() else (place, f"{int(tag.get('id')):04x}")
                    found.setdefault(key, set()).add(tag.get("name"))
    return found


@needs("exiftool")
def test_names_are_those_of_exiftool(names_of_exiftool, checks):
    for where, table in TABLES.items():
        for key in table:
            if key not in OTHERS:
                checks.check(f"{where} {key}", plain_name(where, key) in names_of_exiftool.get((where, key), ()), plain_name(where, key))


@pytest.mark.parametrize("key", ["fe01", "9999"])
def test_a_tag_without_a_name_has_its_number(key):
    assert group_name("exif", key) == f"ExifIFD:0x{key}"


# Values that ExifTool writes, beside those that it prints

BY_EXIFTOOL = pytest.mark.xdist_group("plain values")  # whose pictures are made once

WRITTEN = {
    "ExposureTime": ["1/125", "1/8000", "0.5", "30", "1.3"],
    "FNumber": ["2.8", "11", "5.6"],
    "FocalLength": ["50", "17.3"],
    "ApertureValue": ["2.8", "8"],
    "ShutterSpeedValue": ["1/125", "2"],
    "ExposureCompensation": ["+0.5", "-2", "0"],
    "DateTimeOriginal": ["2003:05:24 22:21:01", "1999:12:31 23:59:59"],
    "UserComment": ["Vase", "Köln am Rhein", "日本の花瓶"],
    "ISO": ["400"],
    "LensInfo": ["24 70 2.8 2.8", "50 50 1.4 1.4", "18 55 3.5 5.6"],
    "SubjectDistance": ["2.5"],
}


POSITIONS = (47.5596, 7.5886), (-33.856784, 151.215297), (0.000278, -179.999722)
REFERENCES = ("GPSLatitude", "GPSLongitude")
# What turns a picture, by the figures of TIFF 6.0 and Exif 2.32
ORIENTATIONS = {
    1: "Horizontal (normal)",
    2: "Mirror horizontal",
    3: "Rotate 180",
    4: "Mirror vertical",
    5: "Mirror horizontal and rotate 270 CW",
    6: "Rotate 90 CW",
    7: "Mirror horizontal and rotate 90 CW",
    8: "Rotate 270 CW",
}
# The tags of each picture that ExifTool writes
PICTURES = {
    **{(tag, value): [f"-ExifIFD:{tag}={value}"] for tag, values in WRITTEN.items() for value in values},
    **{it: [word for tag, at in zip(REFERENCES, it) for word in (f"-{tag}={abs(at)}", f"-{tag}Ref={at}")] for it in POSITIONS},
    **{it: ["-n", f"-IFD0:Orientation={it}", "-IFD0:Artist=a"] for it in ORIENTATIONS},
}


@pytest.fixture(scope="module")
def pictures(tmp_path_factory):
    """The folder of PICTURES, in their order, and what ExifTool prints of each. Both take one process of it."""
    folder = tmp_path_factory.mktemp("plain")
    (folder / "a.jpg").write_bytes(SMALL_JPEG)
    calls = (["-q", "-o", f"{number}.jpg", *words, "a.jpg", "-execute"] for number, words in enumerate(PICTURES.values()))
    (folder / "calls").write_text("".join(f"{word}\n" for call in calls for word in call), encoding="utf-8")
    tool(folder, "exiftool", "-@", "calls")
    names = [f"{number}.jpg" for number in range(len(PICTURES))]
    return folder, json.loads(tool(folder, "exiftool", "-j", "-G1", "-struct", *names))


@pytest.fixture
def rows(pictures, capsys):
    """The rows that `compare` has for a picture without metadata and one of PICTURES, and what ExifTool prints of that."""

    def call(picture):
        (folder, printed), number = pictures, [*PICTURES].index(picture)
        main._run(["compare", str(folder / "a.jpg"), str(folder / f"{number}.jpg"), "--json", "--no-programs"])
        found = {it["name"]: it["after"]["plain"] for it in json.loads(capsys.readouterr().out)["fields"]}
        return found, printed[number]

    return call


def number(text):
    """The number in a value, of a fraction too."""
    found = re.search(r"[-+]?\d+(?:\.\d+)?(?:/\d+)?", text)
    above, _, below = found[0].partition("/")
    return float(above) / float(below or 1)


@needs("exiftool")
@BY_EXIFTOOL
@pytest.mark.parametrize("tag, value", [(tag, value) for tag, values in WRITTEN.items() for value in values])
def test_values_as_exiftool_prints_them(tag, value, rows):
    found, printed = rows((tag, value))
    mine, theirs = found[f"ExifIFD:{tag}"], str(printed[f"ExifIFD:{tag}"])
    if tag == "DateTimeOriginal":
        assert mine.replace("-", ":") == theirs
    elif tag == "UserComment":
        assert mine == theirs == value
    elif tag == "LensInfo":
        assert mine == theirs.replace("mm", " mm")
    else:
        assert number(mine) == pytest.approx(number(theirs), rel=0.02)


@needs("exiftool")
@BY_EXIFTOOL
@pytest.mark.parametrize("latitude, longitude", POSITIONS)
def test_a_position_is_the_one_of_exiftool(latitude, longitude, rows):
    found, _ = rows((latitude, longitude))
    first, second = re.fullmatch(r"([\d.]+)° ([NS]), ([\d.]+)° ([EW])", found["Composite:GPSPosition"]).group(1, 3)
    letters = re.findall("[NSEW]", found["Composite:GPSPosition"])
    assert letters == ["NS"[latitude < 0], "EW"[longitude < 0]]
    assert (float(first), float(second)) == (pytest.approx(abs(latitude), abs=2e-6), pytest.approx(abs(longitude), abs=2e-6))


# Flash and orientation, whose words are ours


def in_exiftools_words(text):
    """Our words for an orientation in ExifTool's."""
    text = text.replace(" to view", "").replace(", then turn", " and turn").replace("upright", "Horizontal (normal)")
    text = text.replace("mirrored left to right", "Mirror horizontal").replace("mirrored top to bottom", "Mirror vertical")
    turns = {"90° clockwise": "90 CW", "90° counter-clockwise": "270 CW", "180°": "180"}
    for turn in sorted(turns, key=len, reverse=True):
        text = text.replace(f"turn {turn}", f"rotate {turns[turn]}")
    return text[:1].upper() + text[1:]


@needs("exiftool")
@BY_EXIFTOOL
@pytest.mark.parametrize("value", ORIENTATIONS)
def test_orientation(value, rows):
    found, printed = rows(value)
    assert in_exiftools_words(found["IFD0:Orientation"]) == ORIENTATIONS[value] == printed["IFD0:Orientation"]


@pytest.mark.parametrize(
    "value, words",
    [
        ("0", "did not fire"),
        ("1", "fired"),
        ("7", "fired, light returned is seen"),
        ("16", "did not fire, always off"),
        ("32", "no flash in the camera"),
        ("89", "fired, automatic, red-eye reduction"),
    ],
)
def test_flash(value, words):
    """By the bits of CIPA DC-008: 0 fired, 1 and 2 light returned, 3 and 4 the mode, 5 no flash, 6 red-eye reduction."""
    assert shown("exif", "9209", "SHORT", value) == words


# Values without a plain form stay as they are


@pytest.mark.parametrize(
    "where, key, kind, value, expected",
    [
        ("main", "0112", "SHORT", "9", "9"),
        ("exif", "829a", "RATIONAL", "1/0", "unknown"),
        ("exif", "829a", "RATIONAL", "0/10", "0 s"),
        ("exif", "9201", "SRATIONAL", "1000000/1", "1000000"),
        ("exif", "9202", "RATIONAL", "4294967295/1", "4294967295"),
        ("exif", "9003", "ASCII", '"yesterday"', "yesterday"),
        ("exif", "9003", "ASCII", '"0000:00:00 00:00:00"', "unknown"),
        ("exif", "9209", "SHORT", "1 2", "1 2"),
        ("gps", "0002", "RATIONAL", "47/1 33/0 0/1", "47, unknown, 0"),
        ("gps", "0007", "RATIONAL", "1/1", "1"),
        ("iptc", "2:55", "octets", '"2003"', "2003"),
        ("iptc", "2:120", "octets", "0x5afc72696368", "Zürich"),
        ("main", "013b", "ASCII", '""', "(empty)"),
        ("exif", "9000", "UNDEFINED", '"0231"', "2.31"),
        ("xmp", "dc:subject", "Bag", 'Bag["a", "b"]', "a; b"),
        ("xmp", "dc:subject", "Bag", "Bag[]", "(empty)"),
    ],
)
def test_other_values(where, key, kind, value, expected):
    assert shown(where, key, kind, value) == expected


@pytest.mark.parametrize(
    "tag", [*WRITTEN, "Orientation", "Flash", "LightSource", "MeteringMode", "GPSLatitude", "GPSTimeStamp", "GPSAltitude"]
)
def test_no_value_is_an_error(tag):
    """Each rule takes any type, as another program may have written it."""
    key = {name: (where, key) for where, table in TABLES.items() for key, name in table.items() for name in (plain_name(where, key),)}[tag]
    for kind, value in (
        ("ASCII", '"x"'),
        ("SHORT", "1 2 3"),
        ("RATIONAL", "0/0"),
        ("SRATIONAL", "-1/-1 5/0 7/1"),
        ("UNDEFINED", "0x00ff"),
        ("LONG", "1.. sha256:00"),
        ("DOUBLE", "7ff0000000000000"),
        ("ASCII", ""),
        ("RATIONAL", ""),
    ):
        assert isinstance(plain(field(*key, kind, 1, value)), str)


@needs("exiftool")
def test_dates_times_and_numbers_of_iptc_are_those_of_exiftool(checks):
    """For people and for programs, in the two records whose texts are read. Nobody is known to write the numbers of previews and of ARM."""
    listed = subprocess.run(["exiftool", "-listx", "-IPTC:All"], capture_output=True, text=True, check=True).stdout
    samples = {
        "digits": (b"20240229", datetime.date(2024, 2, 29), "2024-02-29"),
        "string": (b"222101+0200", datetime.time(22, 21, 1, tzinfo=datetime.timezone(datetime.timedelta(hours=2))), "22:21:01+02:00"),
        "int16u": (b"\0\4", 4, "4"),
    }
    for record, table in ((1, "EnvelopeRecord"), (2, "ApplicationRecord")):
        rows = listed.partition(f"<table name='IPTC::{table}'")[2].partition("</table>")[0]
        for number, kind, rest in re.findall(r"<tag id='(\d+)'[^>]* type='(\w+)'([^>]*)>", rows):
            for form, (octets, value, text) in samples.items():
                dataset = Field("iptc", f"{record}:{number}", "octets", len(octets), octets)
                if form == kind and ("'Time'" in rest or form == "int16u") and dataset.tag not in ("1:120", "1:122", "2:200", "2:201"):
                    checks.equal(f"{dataset.tag} {form}", (value_of(dataset), plain(dataset)), (value, text))
                else:
                    checks.check(f"{dataset.tag} {form}", isinstance(value_of(dataset), (str, bytes)), "a text")


@pytest.mark.parametrize(
    "head, encoding, text",
    [
        (b"ASCII", "ascii", "A vase"),
        (b"JIS", "iso2022_jp", "A vase, \u6771\u4eac"),
        (b"UNICODE", "utf-16-be", "A vase, Z\u00fcrich"),
        (b"UNICODE", "utf-16-le", "A vase, Z\u00fcrich"),
        (b"", "utf-8", "A vase, Z\u00fcrich"),
        (b"", "cp1252", "A vase, Z\u00fcrich"),
    ],
)
@pytest.mark.parametrize("filled_by", [b"\0", b" "])
@pytest.mark.parametrize("where, key", [("exif", "9286"), ("gps", "001b"), ("gps", "001c")])
def test_comments_in_each_character_set(where, key, filled_by, head, encoding, text):
    """CIPA DC-008 (Exif 2.32), 4.6.6; also with blanks in place of NULs, as ExifTool reads them."""
    octets = head.ljust(8, filled_by) + text.encode(encoding)
    commented = Field(where, key, "UNDEFINED", len(octets), octets)
    assert (comment(octets), plain(commented), value_of(commented)) == (text, text, text)


@pytest.mark.parametrize(
    "octets, text",
    [
        (b"ASCII\0\0\0Z\xfcrich", "Zürich"),
        (b"Z\xfcrich am See", "Zürich am See"),
        (b"Z\xfcr", "Zür"),
        (b"Vase on a table\0\0rest", "Vase on a table"),
        (b"Vase\0\0 ", "Vase"),
        (b"Vase\0\1\2", None),
        (b"\xd0\xe0\xf0\xd0\xe0\xf0", None),
        (b"Vase\1", None),
        (b"  \0\0", ""),
        (b"ASCII\0\0\0  ", ""),
    ],
)
def test_comments_as_programs_write_them(octets, text, folder, called):
    """What isn't declared, or is another text than is declared, is guessed, and is never empty if there is one. What questions find is the same."""
    assert comment(octets) == text
    (folder / "a.jpg").write_bytes(jpeg(app1(small_tiff((0x8769, LONG, [(0x9286, UNDEFINED, octets)]), order=">"))))
    printed = called("show", "--captions", "a.jpg")[1]
    assert (f" {text}   [ExifIFD:UserComment]" in printed) == bool(text), printed
    assert called("list", ".", "--with", "comment")[1].endswith(f"{int(bool(text))} of 1 picture\n"), text
    assert ("(empty)" in called("show", "a.jpg")[1]) == (text == "")


@pytest.mark.parametrize("letter, word", [(b"w", "west"), (b"West", "west"), (b"E", "east"), (b"S", "S"), (b"x", "x")])
def test_directions_are_read_as_for_positions(letter, word):
    assert plain(Field("gps", "0003", "ASCII", len(letter) + 1, letter + b"\0")) == word


@pytest.mark.parametrize("where, key, is_text", [("exif", "9000", 1), ("exif", "a000", 1), ("interop", "0002", 1), ("exif", "9101", 0)])
def test_versions_are_digits(where, key, is_text):
    """CIPA DC-008 (Exif 2.32), 4.6.5: UNDEFINED, and four characters."""
    assert (value_of(Field(where, key, "UNDEFINED", 4, b"0231")) == "0231") == bool(is_text)
