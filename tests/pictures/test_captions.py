"""`captions`: the texts of Exif, IPTC and XMP by label, each with its fields."""

import json
import re
import subprocess

import pytest
from labelled_fields import FIELDS
from made_blocks import ASCII, LONG, UNDEFINED, block, entry, table
from made_files import app1, app1_xmp, jpeg, xmp
from studio import SMALL_JPEG, needs, put, tool

from exifnorm_pictures.fields.labels import DATE, LABELS

# The fields that a label has in each standard; Windows and TIFF have further ones
TAGS = {
    label.word: [field for field in FIELDS.get(label.word, []) if not field.startswith(("IFD0:XP", "XMP-tiff:"))]
    for label in LABELS
    if label.word != DATE
}


@pytest.fixture
def captions(called):
    """What `captions` prints of some files: the status, and the text."""
    return lambda *words, **files: called("show", "--captions", *words, *(f"{it}.jpg" for it in files), **files)[:2]


# The table of labels


@needs("exiftool")
def test_each_label_as_exiftool_writes_it(captions, folder):
    (folder / "a.jpg").write_bytes(SMALL_JPEG)
    words = [f"-{tag}={label[:3]} {number}" for label, tags in TAGS.items() for number, tag in enumerate(tags)]
    tool(folder, "exiftool", "-q", "-overwrite_original", *words, "a.jpg")
    status, out = captions("--json", "a.jpg")
    found = [(it["label"], it["texts"]) for it in json.loads(out)["captions"]]
    assert status == 0
    assert found and sorted(found) == sorted(
        (label, [f"{label[:3]} {number}"]) for label, tags in TAGS.items() for number in range(len(tags))
    )


@needs("exiftool")
def test_limits_are_those_of_iim(checks):
    """ExifTool's table has the greatest length of each DataSet of IPTC-NAA IIM 4.2."""
    listed = subprocess.run(["exiftool", "-listx", "-IPTC:All"], capture_output=True, text=True, check=True).stdout
    application = listed.partition("<table name='IPTC::ApplicationRecord'")[2].partition("</table>")[0]
    longest = {f"2:{number}": int(count) for number, count in re.findall(r"<tag id='(\d+)'[^>]* count='(\d+)'", application)}
    for label in LABELS:
        if label.limit:
            checks.equal(label.word, label.limit, longest[label.iptc])


@needs("exiftool")
def test_dates_as_exiftool_writes_them(captions, folder):
    (folder / "a.jpg").write_bytes(SMALL_JPEG)
    texts = ["-SubSecTimeOriginal=25", "-DateTimeOriginal=2003:05:24 22:21:01", "-OffsetTimeOriginal=+02:00"]
    texts += ["-IPTC:DateCreated=2003:05:24", "-IPTC:TimeCreated=22:21:01+02:00", "-XMP-photoshop:DateCreated=2003:05:24 22:21:01+02:00"]
    tool(folder, "exiftool", "-q", "-overwrite_original", *texts, "a.jpg")
    _, out = captions("--json", "a.jpg")
    found = {it["field"]: it["texts"] for it in json.loads(out)["captions"]}
    assert found == {
        "ExifIFD:DateTimeOriginal": ["2003-05-24 22:21:01.25+02:00"],
        "IPTC:DateCreated": ["2003-05-24 22:21:01+02:00"],
        "XMP-photoshop:DateCreated": ["2003-05-24 22:21:01+02:00"],
    }


@needs("exiftool")
def test_fields_in_another_directory_than_that_of_their_tag(captions, folder):
    """Names and texts are those of ExifTool."""
    entries = [entry(0x9003, ASCII, 20, 38), entry(0x9286, ASCII, 8, 58)]
    put(
        folder,
        {
            "a.jpg": jpeg(app1(block(entries) + b"2003:05:24 22:21:01\0Kitchen\0"), base=SMALL_JPEG),
            "b.jpg": SMALL_JPEG,
        },
    )
    tool(folder, "exiftool", "-q", "-overwrite_original", "-IFD0:Artist=Anna", "-ExifIFD:Artist=Otto", "-ExifIFD:Copyright=Museum", "b.jpg")
    tags = ["-EXIF:DateTimeOriginal", "-EXIF:UserComment", "-IFD0:Artist", "-EXIF:Copyright"]
    words = ["exiftool", "-config", "", "-j", "-G1", "-d", "%Y-%m-%d %H:%M:%S", *tags, "a.jpg", "b.jpg"]
    expected = {}
    for texts in json.loads(subprocess.run(words, cwd=folder, capture_output=True, check=True).stdout):
        expected.update({(texts["SourceFile"], name): text for name, text in texts.items() if name != "SourceFile"})
    found = {
        (name, it["field"]): it["texts"][0] for name in ("a.jpg", "b.jpg") for it in json.loads(captions("--json", name)[1])["captions"]
    }
    assert len(expected) == 4 and found == expected


# Lines


def with_comment(kind, octets):
    """A picture whose UserComment has this type."""
    inside = table([entry(0x9286, kind, len(octets), 8 + 2 + 12 + 4 + 2 + 12 + 4)]) + octets
    return jpeg(app1(block([entry(0x8769, LONG, 1, 26)]) + inside), base=SMALL_JPEG)


@needs("exiftool")
@pytest.mark.parametrize("kind", [ASCII, UNDEFINED])
@pytest.mark.parametrize(
    "octets",
    [
        b"Vase here\0",
        b"Vase here\0\0\0\0",
        b"Vase here   \0\0",
        "Z\u00fcrich here\0\0".encode(),
        b"ASCII text\0\0",
        b"ASCII\0\0\0Vase\0\0",
        b"UNICODE\0" + "Z\u00fcrich".encode("utf-16-le"),
        bytes(8) + b"Vase\0\0",
        bytes(12),
        b"     \0\0\0",
    ],
)
def test_comments_of_each_type_are_those_of_exiftool(kind, octets, captions, folder):
    """Whether a character set is in front or not, and whatever pads the text."""
    status, out = captions("--json", a=with_comment(kind, octets))
    words = ["exiftool", "-config", "", "-j", "-UserComment", "-charset", "UTF8", "a.jpg"]
    expected = json.loads(subprocess.run(words, cwd=folder, capture_output=True, check=True).stdout)[0]["UserComment"].rstrip()
    assert [it["texts"] for it in json.loads(out)["captions"]] == [[expected]] * bool(expected) and status == 0


# For the tests of contradictions and of reports: a name that IPTC cuts
LONG_NAME = "Anna-Katharina von der Hohenfriedeburg-Waldenfels"
CREATOR = app1_xmp(xmp(f"<dc:creator><rdf:Seq><rdf:li>{LONG_NAME}</rdf:li></rdf:Seq></dc:creator>"))
