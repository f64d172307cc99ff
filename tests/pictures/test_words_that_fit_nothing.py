"""Words of --only and --ignore that fit no field of the pictures, and what a MakerNote may have: the answer itself says so, in each form."""

import csv
import json
import os

import pytest
from exifnorm_pictures.fields.labels import fields_by_label
from made_files import jpeg, with_texts
from studio import SMALL_JPEG, needs, put, tool
from test_maker_notes import bare

PICTURE = jpeg(with_texts(artist=b"Anna"))
ABSENT = ("serial", "owner", "credit", "GPS:*", "XMP-dc:title", "Model", "2:25")
COMMANDS = (
    ("changed", "p", "q"),
    ("changed", "p", "q", "--all"),
    ("compare", "p/a.jpg", "q/a.jpg"),
    ("compare", "p/a.jpg", "q/b.jpg"),
    ("same", "c"),
)


@pytest.fixture
def folders(folder, called):
    for side in ("p", "q"):
        put(folder / side, {"a.jpg": PICTURE, "b.jpg": jpeg(with_texts(artist=b"Anna"), base=SMALL_JPEG)})
    called("index", "p", "--catalogue", "c", "--quiet")
    return folder


@pytest.mark.parametrize("words", COMMANDS, ids=" ".join)
@pytest.mark.parametrize("name", ABSENT)
def test_a_word_that_fits_nothing(folders, called, words, name):
    """'None changed' by a field that no picture has means nothing, also with other words that fit."""
    for only in (["--only", name], ["--only", "creator", "--only", name]):
        printed = called(*words, *only)[1]
        assert f"No picture has a field {name}." in printed, printed
        assert json.loads(called(*words, *only, "--json")[1].splitlines()[-1])["fits_nothing"] == [name]
        cells = {cell for row in csv.reader(called(*words, *only, "--csv")[1].splitlines()) for cell in row}
        assert f"No picture has a field {name}." in cells, cells
    printed = called(*words, "--only", "creator")[1]
    assert "creator stands for" in printed and "No picture has" not in printed


def test_a_word_that_fits_what_is_the_same(folders, called):
    """It fits a field, though nothing differs by it."""
    for name in ("Artist", "IFD0:Artist", "0x013b", "Art*"):
        assert "No picture has" not in called("changed", "p", "q", "--only", name)[1]


@pytest.mark.parametrize("words", (*COMMANDS, ("report", "c", "--html", "page.html")), ids=" ".join)
@pytest.mark.parametrize("option", ("--only", "--ignore"))
def test_a_word_that_no_standard_has(folders, called, words, option):
    status, _, messages = called(*words, option, "nonsense")
    assert status == 3 and "nonsense" in messages


@needs("exiftool")
def test_the_fields_of_serial_numbers_and_owners(folders, called):
    """Those that ExifTool writes with such names outside of MakerNotes are found by the labels."""
    tags = (
        "ExifIFD:SerialNumber",
        "ExifIFD:LensSerialNumber",
        "XMP-aux:SerialNumber",
        "XMP-exifEX:LensSerialNumber",
        "IFD0:CameraSerialNumber",
    )
    owners = ("ExifIFD:OwnerName", "XMP-aux:OwnerName", "XMP-exifEX:OwnerName")
    for label, names in (("serial", tags), ("owner", owners)):
        for name in names:
            put(folders, {"one.jpg": SMALL_JPEG, "other.jpg": SMALL_JPEG})
            tool(folders, "exiftool", "-q", "-overwrite_original", f"-{name}=123", "other.jpg")
            status, printed, _ = called("compare", "one.jpg", "other.jpg", "--only", label)
            assert status == 1 and "Different metadata: 1 field differs." in printed, (name, printed)
    assert len(fields_by_label()["serial"]) == 7


@pytest.fixture
def with_a_maker_note(folder, called):
    """Of three pictures one has a MakerNote."""
    put(folder / "p", {"a.jpg": bare(b"a note"), "b.jpg": PICTURE, "c.jpg": jpeg()})
    put(folder / "q", {name: (folder / "p" / name).read_bytes() for name in ("a.jpg", "b.jpg", "c.jpg")})
    called("index", "p", "--catalogue", "c", "--quiet")
    return folder


SAID = "MakerNotes were not read: 1 picture has one"


def test_what_a_maker_note_may_have(with_a_maker_note, called):
    """It is said where serial numbers and owners are asked for or listed, and only there."""
    for words in (("changed", "p", "q"), ("compare", "p/a.jpg", "q/b.jpg"), ("same", "c")):
        for name in ("serial", "owner", "BodySerialNumber", "aux:OwnerName"):
            printed = called(*words, "--only", name)[1]
            assert SAID in printed, printed
            assert json.loads(called(*words, "--only", name, "--json")[1].splitlines()[-1])["maker_notes_not_read"] == 1
        assert "MakerNotes were not read" not in called(*words, "--only", "creator")[1]
        assert "MakerNotes were not read" not in called(*words)[1]
    assert SAID in called("catalogue", "export", "c", "c.sqlite")[1]
    os.remove("c.sqlite")
    assert json.loads(called("catalogue", "export", "c", "c.sqlite", "--json")[1])["maker_notes_not_read"] == 1
    called("report", "c", "--html", "page.html")
    assert SAID in (with_a_maker_note / "page.html").read_text(encoding="utf-8")


def test_without_maker_notes(folders, called):
    assert "MakerNotes" not in called("changed", "p", "q", "--only", "serial")[1]
    assert "MakerNotes" not in called("catalogue", "export", "c", "c.sqlite")[1]
    called("report", "c", "--html", "page.html")
    assert "MakerNotes were not read" not in (folders / "page.html").read_text(encoding="utf-8")
