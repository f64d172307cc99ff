"""Laws of questions: whatever name and value a command prints of a field, a question with it finds the picture; a question that fits no value is
refused; and no answer is nothing where something fits."""

import collections
import csv
import io
import json
import os
import re
import shutil
import warnings

import exifnorm
import pytest
from exifnorm_pictures.catalogue.asking import Answer
from exifnorm_pictures.catalogue.store import Catalogue
from exifnorm_pictures.fields.questions import WrongQuestion, question_of
from studio import SMALL_JPEG, TOP, needs, put, tool

pytestmark = [pytest.mark.xdist_group("museum")]


def shown(called, paths):
    """The lines of `show` and of `show --exact`: the values of each name, and the pictures that have them."""
    values = collections.defaultdict(lambda: collections.defaultdict(set))
    for path in paths:
        for option in ((), ("--exact",)):
            for line in called("show", path, *option)[1].splitlines():
                match = re.fullmatch(r"  (\S+:\S+) +(.*)", line)
                if match and not (option and match[2].startswith("{")):
                    values[match[1]][match[2].strip('"') if option else match[2]].add(path)
    return values


def listed(called, catalogue, names):
    """The same of the columns of `list`, without the ' that spreadsheets need before what looks like a formula."""
    values = collections.defaultdict(lambda: collections.defaultdict(set))
    status, lines, messages = called("list", catalogue, "--csv", "--columns", ",".join(names))
    assert status in (0, 2), messages
    for row in csv.DictReader(io.StringIO(lines, newline="")):
        for name in names:
            values[name][re.sub(r"^'(?=[-=+@\t\r])", "", row[name])].add(row["picture"])
    return values


def asking(name, value):
    """The question with a name and a value as they are printed."""
    quoted = value.replace('"', '""')
    return f'{name} = "{quoted}"'


@needs("exiftool")
def test_each_value_that_is_printed_is_found(museum, called):
    """By each line of `show` and each column of `list`: the question NAME = VALUE finds the picture."""
    paths = sorted(str(it) for it in (museum / "archive").rglob("*") if it.is_file())
    values = shown(called, paths)
    assert len(values) > 40
    labels = ["title", "keywords", "creator", "credit", "date created", "rights end", "digital source"]
    for name, texts in listed(called, str(museum / "full"), [*labels, *values]).items():
        for text, pictures in texts.items():
            values[name][text] |= pictures if text else set()
    with Catalogue(str(museum / "full")) as catalogue, catalogue.reading(is_answer=True):
        answer = Answer(catalogue, None, shown=list(values))
        numbers = {os.fsdecode(it.path): it.id for it in catalogue.pictures()}
        assert len(numbers.keys() & set(paths)) > 100
        for name, texts in values.items():
            for text, pictures in texts.items():
                found = answer._finder.of(question_of(asking(name, text))).sure if pictures else ()
                assert not [it for it in pictures if it in numbers and numbers[it] not in found], (name, text)


@needs("exiftool")
def test_what_may_fit_is_named(museum, called, folder):
    """The status is 2 where a picture is named that may fit, and only there; in lines up to 20 of them are."""
    (folder / "rules").write_text("position, serial never in web/\nserial never in pages/\ncredit at most 20 characters in nested/\n")
    asked = [("list", str(museum / "full"), option, label) for label in LABELS for option in ("--without", "--count")]
    asked += [("check", str(museum / "full"), "--rules", str(folder / "rules"))]
    for words in asked:
        status, lines, _ = called(*words, "--json")
        summary = json.loads(lines.splitlines()[-1])
        paths = [it["path"] for key in ("may_have", "may_fit", "may_break") for it in summary.get(key, ())]
        names = [min(os.path.relpath(it), it, key=len) for it in paths]  # as lines have them, wherever folders of tests are
        assert (status == 2) == bool(names), words
        assert summary["not_known"] == len(names), words
        printed = called(*words)[1].splitlines()
        assert sum(f"  {name}" in printed for name in names) == min(len(names), 20), words


LABELS = ("title", "credit", "serial", "owner", "position", "damage", "rights end", "FNumber", "dc:title")


@pytest.fixture
def asked(folder, called):
    """The pictures of the samples that fit a question, or the message of one that is refused."""
    shutil.copytree(f"{TOP}/samples/before", folder / "p")
    called("index", "p", "--catalogue", "c", "--quiet")

    def ask(question):
        status, lines, messages = called("list", "c", "--json", "--where", question)
        if status == 3:
            return messages
        *listed, last = map(json.loads, lines.splitlines())
        assert last["listed"] == len(listed)
        return len(listed)

    return ask


# What a registrar typed, and how many of the samples it is true of
SHOWN = {
    "Orientation = upright": 6,
    "Orientation = 1": 6,
    "Orientation = 'Horizontal (normal)'": 6,
    "not Orientation = upright": 2,
    "FNumber = 'f/11'": 6,
    "FNumber = f/11": 6,
    "FNumber > f/8": 6,
    "ExposureTime = 1/60": 6,
    "ExposureTime = '1/60 s'": 6,
    "ExposureTime < 1/50": 6,
    "FocalLength = '60 mm'": 6,
    "ExifIFD:DateTimeOriginal = '2019-03-12 11:20:45'": 1,
    "ExifIFD:DateTimeOriginal = '2019:03:12 11:20:45'": 1,
    "ExifIFD:DateTimeOriginal = 2019-03": 3,
    "ExifIFD:DateTimeOriginal < 2020": 3,
    "date created < 2020": 3,
    "DateTimeOriginal < today": 6,
    "DateTimeOriginal > today - 1 day": 0,
    "EXIF:Model has canon": 2,
    "Exif.Photo.FNumber = 11": 6,
    "DateTimeDigitized < 2020": 3,
    "Iptc.Application2.Byline = 'Lena Brandt'": 3,
}


@pytest.mark.parametrize("question", SHOWN)
def test_questions_of_a_registrar(asked, question):
    assert asked(question) == SHOWN[question]


@pytest.mark.parametrize(
    "question, why",
    [
        ("Orientation = upwards", "Orientation is never 'upwards': it is one of 1 upright; 2 "),
        ("Orientation != upwards", "Orientation is never 'upwards'"),
        ("Orientation is upwards", "Orientation is never 'upwards'"),
        ("FNumber = wide", "FNumber is never 'wide': pictures have 'f/11'"),
        ("FNumber < wide", "expected: a number, or a date, such as 1950"),
        ("DateTimeOriginal = yesterday", "DateTimeOriginal is never 'yesterday'"),
        ("date created < 2023-02-30", "expected: a date"),
        ("position = here", "expected: a latitude and a longitude"),
        ("Artst = x", "'Artst' is no label and no field (perhaps Artist is meant)"),
        ("AbsoluteHeight = 3", "'AbsoluteHeight' is no label and no field. The labels are"),
    ],
)
def test_what_fits_no_value_is_refused(asked, question, why):
    assert why in asked(question)


@needs("exiftool")
def test_names_of_no_field_and_of_several(asked, called, folder):
    """Each answer says so, whatever its form, and so does Python's."""
    assert asked("DNGVersion = 1") == 0
    assert called("list", "c", "--where", "DNGVersion = 1")[1].endswith("; none has DNGVersion\n")
    for name, number in (("a", 8), ("b", 9)):
        put(folder / name, {"p.jpg": SMALL_JPEG})
        numbers = (f"-ExifIFD:FNumber={number + 2}", f"-XMP-exif:FNumber={number}")
        tool(folder, "exiftool", "-q", "-overwrite_original", *numbers, f"{name}/p.jpg")
        called("index", name, "--catalogue", f"{name}.c")
    (folder / "rules").write_text("FNumber never\n")
    one, other = "a/p.jpg", "b/p.jpg"
    fields = ["ExifIFD:FNumber", "XMP-exif:FNumber"]
    said = f"FNumber stands for {', '.join(fields)}"
    listing = [("list", "a.c", *words) for words in (("--where", "with FNumber"), ("--count", "FNumber"))]
    choosing = [
        (*words, option, "FNumber")
        for words in (("compare", one, other), ("changed", "a.c", "b.c"), ("same", "a.c"))
        for option in ("--only", "--ignore")
    ]
    for words in (*listing, *choosing, ("check", "a.c", "--rules", "rules")):
        for option in ((), ("--csv",)):
            assert said in "".join(called(*words, *option)[1:]), (words, option)
        summary = json.loads(called(*words, "--json")[1].splitlines()[-1])
        assert summary.get("stands_for") == {"FNumber": fields} or summary["notes"] == [said], words
    for group in ("IFD0", "IPTC", "GPS*"):  # which is meant so
        assert "stands for" not in called("list", "c", "--where", f"with {group}")[1]
    picture = exifnorm.read(folder / one)
    for ask in (picture.get, picture.__getitem__):
        with pytest.warns(UserWarning, match="FNumber stands for") as warned:
            assert ask("FNumber") == picture.find("FNumber")[0].value
        assert all(it in str(warned[0].message) for it in fields) and warned[0].filename == __file__
    tool(folder, "exiftool", "-q", "-overwrite_original", "-FNumber=8", one)
    with warnings.catch_warnings():  # without any for a name of one field, nor for equal values
        warnings.simplefilter("error")
        assert dict(picture) and exifnorm.read(folder / one)["FNumber"] == 8


def test_a_day_is_given(asked, called, folder, monkeypatch):
    """EXIFNORM_TODAY is today in questions and rules, and a wrong one is refused."""
    (folder / "rules").write_text("DateTimeOriginal not after today - 1 day\n")
    for today, later in (("2019-03-13", 3), ("2024-05-02", 2)):
        monkeypatch.setenv("EXIFNORM_TODAY", today)
        assert asked("DateTimeOriginal >= today") == later
        assert f"by {later} of 8 pictures" in called("check", "--rules", "rules", "c")[1]
    monkeypatch.setenv("EXIFNORM_TODAY", "tomorrow")
    assert "EXIFNORM_TODAY=tomorrow" in asked("DateTimeOriginal >= today") and called("check", "--rules", "rules", "c")[0] == 3


def test_dates_of_today():
    later = question_of("rights end < today + 30 days").value
    assert later == question_of("rights end < in 30 days").value > question_of("rights end < today").value
    with pytest.raises(WrongQuestion):
        question_of("rights end < today + 30 moons")


RIGHTS = """-IPTC:ExpirationDate=2026:12:03 -IPTC:ReleaseDate=2026:12:01 -XMP-plus:LicenseEndDate=2026:12:03
-XMP-iptcExt:DigitalSourceType=http://cv.iptc.org/newscodes/digitalsourcetype/trainedAlgorithmicMedia
-XMP-iptcExt:PersonInImage=Ann -XMP-iptcExt:PersonInImage=Ben -XMP-iptcExt:LocationCreatedGPSLatitude=51.5 -XMP-iptcExt:LocationCreatedGPSLongitude=0.1"""


@needs("exiftool")
def test_rights_embargoes_sources_and_places(folder, called):
    put(folder / "p", {"a.jpg": SMALL_JPEG, "b.jpg": SMALL_JPEG, "c.jpg": SMALL_JPEG})
    tool(folder / "p", "exiftool", "-q", "-overwrite_original", *RIGHTS.split(), "a.jpg")
    tool(folder / "p", "exiftool", "-q", "-overwrite_original", "-GPSLatitude=51.5", "b.jpg")
    called("index", "p", "--catalogue", "c", "--quiet")
    for question in (
        "rights end = 2026-12-03",
        "rights end < 2027",
        "IPTC:ExpirationDate = 20261203 and IPTC:ExpirationDate = '2026-12-03' and LicenseEndDate >= 2026-12",
        "embargo > 2026-11-29",
        "IPTC:ReleaseDate > 2026-11-29",
        "digital source = trainedAlgorithmicMedia",
        "DigitalSourceType like '*trainedAlgorithmicMedia'",
        "LocationCreatedGPSLatitude = 51.5",
        "person shown = ben and person shown is 'Ann'",
    ):
        assert called("list", "c", "-0", "--where", question)[1].count("\0") == 1, question
    status, lines, _ = called("list", "c", "--with", "position", "--columns", "position")
    assert status == 2 and "  position  51.500000, 0.100000\nmay fit:\n" in lines
    assert lines.splitlines()[-2].endswith("/b.jpg") and lines.splitlines()[-1].startswith("1 of 3 pictures; 1 more may fit: ")
    (folder / "rules").write_text("position never\nrights end not after 2026-12-02\nIPTC:ReleaseDate is 2026-12-02\n")
    assert called("check", "--rules", "rules", "c", "--csv")[1].count("/a.jpg,") == 3


@needs("exiftool")
def test_impossible_dates_break_each_rule_of_dates(folder, called):
    for number, date in enumerate(("2023:02:30 10:00:00", "2023:13:01 10:00:00", "2023:01:01 25:00:00", "2023:01:01 10:00:00")):
        put(folder / "p", {f"{number}.jpg": SMALL_JPEG})
        tool(folder / "p", "exiftool", "-q", "-overwrite_original", f"-DateTimeOriginal#={date}", f"{number}.jpg")
    (folder / "rules").write_text("date created not before 1826\n")
    lines = called("check", "--rules", "rules", "p")[1].splitlines()
    assert lines[-1] == "1 of 1 rule broken, by 3 of 4 pictures"
    rules = (
        "every picture needs date created",
        "date created like '*'",
        "DateTimeOriginal at most 99 characters",
        "CreateDate not after today",
    )
    (folder / "rules").write_text("\n".join((*rules, "IFD0:ModifyDate never", "IFD0:Artist is 20230230", "IFD0:Artist like 2*")))
    tool(folder / "p", "exiftool", "-q", "-overwrite_original", "-IFD0:Artist=20230230", "0.jpg")
    *broken, _ = map(json.loads, called("check", "--rules", "rules", "p", "--json")[1].splitlines())
    assert [it["line"] for it in broken] == [1, 1, 1, 2, 2, 2, 3, 3, 3]
    for question in ("date created = impossible", "DateTimeOriginal = impossible"):
        assert called("list", "p", "-0", "--where", question)[1].count("\0") == 3, question


def test_a_refused_block_may_not_have_what_its_standard_has_not(called, indexed):
    """Exif has no credit, and IPTC no serial number."""
    from made_files import app1, app13, iim, jpeg, resource

    files = {
        "exif.jpg": jpeg(app1(b"II*\0\xff\xff\0\0"), base=SMALL_JPEG),
        "iptc.jpg": jpeg(app13(resource(0x0404, iim(b"clay")[:-2])), base=SMALL_JPEG),
    }
    indexed(files)
    listed = {it: called("list", "c", "--without", it)[1].splitlines() for it in ("credit", "serial", "creator")}
    assert listed["credit"][-1].startswith("1 of 2 pictures; 1 more may fit: ") and listed["credit"][0].endswith("/exif.jpg")
    assert listed["serial"][-1].startswith("1 of 2 pictures; 1 more may fit: ") and listed["serial"][0].endswith("/iptc.jpg")
    assert listed["creator"][-1].startswith("0 of 2 pictures; 2 more may fit: ")
