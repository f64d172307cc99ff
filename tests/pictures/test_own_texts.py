"""Texts that cameras and programs write by themselves, and captions of people that look like them. All that are own are of real files: of the
packages of ExifTool, exiv2, libexif, jhead and Pillow, and of the list of ExifTool's users."""

import csv
import json

import pytest
from made_files import app1, app1_xmp, data_set, exif, jpeg, with_record, with_texts, xmp
from studio import sql_rows


from exifnorm_pictures.fields.labels import is_own

OWN = """
OLYMPUS DIGITAL CAMERA|GE DIGITAL CAMERA|SANYO DIGITAL CAMERA|KONICA MINOLTA DIGITAL CAMERA|KODAK DIGITAL STILL CAMERA|PENTAX DIGITAL CAMERA
Digital image|Digital StillCamera|SAMSUNG CSC|SAMSUNG DIGITAL CAMERA|SAMSUNG CAMERA PICTURES|default|SONY DSC|DCF 1.0|Exif JPEG|Exif_JPEG_PICTURE|DIGITAL IMAGE|DIGITAL CAMERA|Created with GIMP|Created with The GIMP|PIC00499.JPG|DSC_0042.JPG
DCIM\\100GOPRO\\GOPR0482.JPG|DCIM/100MEDIA/DJI_0001.JPG|File written by Adobe Photoshop\xa8 4.0|File written by Adobe Photoshop. 4.0|Screenshot
Software: Microsoft Office|LEAD Technologies Inc. V1.01|CREATOR: gd-jpeg v1.0 (using IJG JPEG v62), quality = 75
""".strip().replace("\n", "|").split("|")  # fmt: skip
OF_CAMERAS = [
    ("GC-X1E Image", "Hitachi", "GC-X1E"),
    ("Minolta DSC", "Minolta Co., Ltd.", "DiMAGE 7"),
    ("Canon EOS 300D", "Canon", "Canon EOS 300D"),
    ("iPhone XR", "", "iPhone XR"),
]
PEOPLE = """
Man with a digital camera|The Canon of the cathedral|Canon|A Leica M3, about 1955|Created with love|Portrait|Image|1998-7-vase.jpg|Vase
Bowl, clay, 1820|040621-N-6536T-062|Photo|Screenshot of the catalogue|Advertisement for a DIGITAL CAMERA by OLYMPUS|C-1998-001|1998.10
Digital image of a fresco|Default of a debtor|Made by Anna Wirth|Town plan, 1931.4||x|19980012.001|Made with gimp and braid, 1870
Made in the paint shop of the works, 1923|Made with adobe bricks, Taos|12|Apple|iPhone
""".strip().replace("\n", "|").split("|")  # fmt: skip


@pytest.mark.parametrize("text", OWN)
def test_own(text):
    assert is_own(text) and is_own(f"{text}  \0")


@pytest.mark.parametrize("text, make, model", OF_CAMERAS)
def test_of_a_camera(text, make, model):
    assert is_own(text, make, model) and not is_own(text, "Apple", "iPhone 12")


@pytest.mark.parametrize("text", PEOPLE)
def test_of_people(text):
    assert not is_own(text, "Apple", "iPhone 12")


@pytest.mark.parametrize(
    "text, make, model",
    [
        ("Mark", "Canon", "Canon EOS 5D Mark II"),
        ("II", "Canon", "Canon EOS 5D Mark II"),
        ("Black", "GoPro", "HERO9 Black"),
        ("7", "Minolta Co., Ltd.", "DiMAGE 7"),
        ("Canon", "Canon", "Canon EOS 300D"),
    ],
)
def test_words_that_a_camera_and_a_person_use(text, make, model):
    """A title of one word, or an inventory number, that the camera's name has too."""
    assert not is_own(text, make, model) and is_own(f"{make} {model}", make, model)


OLYMPUS, OTHER = b"OLYMPUS DIGITAL CAMERA", b"Vase with bands"
# The captions of Exif, IPTC and XMP; the one that wins, and the camera's
CAPTIONS = {
    "IPTC": (OLYMPUS, b"Bowl", None, "Bowl", "OLYMPUS DIGITAL CAMERA"),
    "copied to XMP": (OLYMPUS, None, OLYMPUS, "", "OLYMPUS DIGITAL CAMERA"),
    "copied to XMP, and IPTC": (OLYMPUS, b"Bowl", OLYMPUS, "Bowl", "OLYMPUS DIGITAL CAMERA"),
    "two agree": (OTHER, b"Bowl", b"Bowl", "Bowl", ""),
    "none agrees": (OTHER, b"Bowl", b"Bowl, clay", "Vase with bands", ""),
    "Exif alone": (OTHER, None, None, "Vase with bands", ""),
}


@pytest.mark.parametrize("name", CAPTIONS)
def test_which_caption_wins(name, folder, called):
    first, iptc, packet, caption, own = CAPTIONS[name]
    parts = [with_texts(description=first)] + ([with_record(data_set(120, iptc))] if iptc else [])
    if packet:
        parts.append(app1_xmp(xmp(f"<dc:description>{packet.decode()}</dc:description>")))
    (folder / "a.jpg").write_bytes(jpeg(*parts))
    (row,) = csv.DictReader(called("show", "--captions", "--csv", "a.jpg")[1].splitlines())
    assert (row["caption"], row["camera's text"]) == (caption, own)
    found = json.loads(called("show", "--captions", "--json", "a.jpg")[1])["captions"]
    assert [it["own"] for it in found] == [it["texts"] == [own] for it in found]
    assert ("own text" in called("show", "--captions", "a.jpg")[1]) == bool(own)
    called("index", "a.jpg", "--catalogue", "c", "--quiet")
    called("catalogue", "export", "c", "t")
    assert [bool(it) for it, in sql_rows("t", "SELECT own FROM captions")] == [it["own"] for it in found]


def test_the_camera_of_the_file(folder, called):
    """The make in Exif decides, of a file and of a catalogue alike."""
    (folder / "a.jpg").write_bytes(jpeg(app1(exif(b"abc")), with_record(data_set(120, b"ABC camera"))))
    (row,) = csv.DictReader(called("show", "--captions", "--csv", "a.jpg")[1].splitlines())
    assert (row["caption"], row["camera's text"]) == ("", "ABC camera")
    called("index", "a.jpg", "--catalogue", "c", "--quiet")
    called("catalogue", "export", "c", "t")
    assert sql_rows("t", "SELECT text, own FROM captions") == [("ABC camera", 1)]
