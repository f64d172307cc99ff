"""`conflicts`: pictures whose Exif, IPTC and XMP contradict each other, and differences that are none of meaning."""

import csv
import io
import json
import re
import struct

import pytest
from made_files import app1, app1_xmp, data_set, jpeg, with_record, with_texts, xmp
from studio import SMALL_JPEG, needs, tool
from test_captions import CREATOR, LONG_NAME

CAPTION = "Ein Gefäß aus Köln. " * 150
PLACE = ["-GPSLatitude=51.5074123", "-GPSLatitudeRef=N", "-GPSLongitude=0.1277583", "-GPSLongitudeRef=W"]
# What ExifTool writes, and what is found: the kind of each label that is in two standards
ROWS = {
    "all have the same": (["-IFD0:Artist=Anna", "-IPTC:By-line=Anna", "-XMP-dc:Creator=Anna"], {}),
    "only one has it": (["-IFD0:Artist=Anna"], {}),
    "another name": (["-IFD0:Artist=Anna", "-XMP-dc:Creator=Otto"], {"creator": "different"}),
    "a name of more than 32 bytes": ([f"-IPTC:By-line={LONG_NAME[:32]}", f"-XMP-dc:Creator={LONG_NAME}"], {"creator": "cut"}),
    "a shorter name that isn't cut": (["-IPTC:By-line=Anna", f"-XMP-dc:Creator={LONG_NAME}"], {"creator": "different"}),
    "a cut name, and then another letter": ([f"-IPTC:By-line={LONG_NAME[:31]}X", f"-XMP-dc:Creator={LONG_NAME}"], {"creator": "different"}),
    "a caption of more than 2,000 bytes": (
        [f"-IPTC:Caption-Abstract={CAPTION[:2000]}", f"-XMP-dc:Description={CAPTION}"],
        {"caption": "cut"},
    ),
    "the same, and IPTC declares UTF-8": (
        [
            "-IPTC:CodedCharacterSet=UTF8",
            f"-IPTC:Caption-Abstract={CAPTION.encode()[:2000].decode(errors='ignore')}",
            f"-XMP-dc:Description={CAPTION}",
        ],
        {"caption": "cut"},
    ),
    "IPTC in Latin-1": (["-IPTC:Caption-Abstract=Köln", "-XMP-dc:Description=Köln"], {}),
    "IPTC in Mac Roman": (
        ["-charset", "iptc=MacRoman", "-IPTC:Caption-Abstract=Köln", "-XMP-dc:Description=Köln"],
        {"caption": "character set"},
    ),
    "IPTC in Windows-1250": (
        ["-charset", "iptc=Latin2", "-IPTC:By-line=Kropáček", "-XMP-dc:Creator=Kropáček"],
        {"creator": "character set"},
    ),
    "UTF-8 taken for Windows-1252": (["-IFD0:ImageDescription=KÃ¶ln", "-XMP-dc:Description=Köln"], {"caption": "character set"}),
    "? for an umlaut": (["-IFD0:ImageDescription=K?ln", "-XMP-dc:Description=Köln"], {"caption": "character set"}),
    "a real question": (["-IFD0:ImageDescription=Where?", "-XMP-dc:Description=Wherein"], {"caption": "different"}),
    "several artists in one text": (["-IFD0:Artist=Anna; Otto", "-XMP-dc:Creator=Anna", "-XMP-dc:Creator=Otto"], {"creator": "joined"}),
    "keywords in another order": (
        ["-IPTC:Keywords=a1", "-IPTC:Keywords=b2", "-XMP-dc:Subject=b2", "-XMP-dc:Subject=a1"],
        {"keywords": "another order"},
    ),
    "a keyword more": (["-IPTC:Keywords=a1", "-XMP-dc:Subject=a1", "-XMP-dc:Subject=b2"], {"keywords": "different"}),
    "a camera's text": (["-IFD0:ImageDescription=OLYMPUS DIGITAL CAMERA", "-XMP-dc:Description=Vase"], {"caption": "camera's text"}),
    "the same camera's text twice": (
        ["-IFD0:ImageDescription=OLYMPUS DIGITAL CAMERA", "-XMP-dc:Description=OLYMPUS DIGITAL CAMERA"],
        {"caption": "camera's text"},
    ),
    "ends of lines": (["-IFD0:ImageDescription=a\r\nb", "-XMP-dc:Description=a\nb"], {}),
    "a blank artist": (["-IFD0:Artist=   ", "-XMP-dc:Creator=Anna"], {"creator": "empty"}),
    "accents composed otherwise": (["-IFD0:ImageDescription=Ko\u0308ln", "-XMP-dc:Description=Köln"], {}),
    "two languages": (["-IFD0:ImageDescription=Vase", "-XMP-dc:Description=Vase", "-XMP-dc:Description-de=Krug"], {}),
    "three, one of them different": (["-IFD0:Copyright=A", "-IPTC:CopyrightNotice=A", "-XMP-dc:Rights=B"], {"copyright": "different"}),
    "cut in IPTC, different in Exif": (
        ["-IFD0:Artist=Otto", f"-IPTC:By-line={LONG_NAME[:32]}", f"-XMP-dc:Creator={LONG_NAME}"],
        {"creator": "different"},
    ),
    "a date of the same day": (["-ExifIFD:DateTimeOriginal=2003:05:24 22:21:01", "-IPTC:DateCreated=2003:05:24"], {}),
    "the year alone": (["-ExifIFD:DateTimeOriginal=2003:05:24 22:21:01", "-XMP-photoshop:DateCreated=2003"], {}),
    "the month alone": (["-ExifIFD:DateTimeOriginal=2003:05:24 22:21:01", "-XMP-photoshop:DateCreated=2003:05"], {}),
    "the year in IPTC and XMP": (["-IPTC:DateCreated=2003:00:00", "-XMP-photoshop:DateCreated=2003"], {}),
    "the month in IPTC and XMP": (["-IPTC:DateCreated=2003:05:00", "-XMP-photoshop:DateCreated=2003:05"], {}),
    "the month, with blanks, and a day": (["-n", "-ExifIFD:DateTimeOriginal=2003:05:     :  :  ", "-IPTC:DateCreated=2003:05:24"], {}),
    "a day, with a time, of a month": (
        ["-IPTC:DateCreated=2003:05:00", "-IPTC:TimeCreated=12:00:00+02:00", "-XMP-photoshop:DateCreated=2003:05:24 12:00:00+02:00"],
        {},
    ),
    "another year": (
        ["-ExifIFD:DateTimeOriginal=2003:05:24 22:21:01", "-XMP-photoshop:DateCreated=2002"],
        {"date created": "different"},
    ),
    "another month": (["-IPTC:DateCreated=2003:05:00", "-XMP-photoshop:DateCreated=2003:06"], {"date created": "different"}),
    "a date of another day": (
        ["-ExifIFD:DateTimeOriginal=2003:05:24 22:21:01", "-IPTC:DateCreated=2003:05:25"],
        {"date created": "different"},
    ),
    "the same moment in another time zone": (
        ["-IPTC:DateCreated=2003:05:24", "-IPTC:TimeCreated=22:21:01+02:00", "-XMP-photoshop:DateCreated=2003:05:24 20:21:01Z"],
        {},
    ),
    "a position in both": ([*PLACE, "-XMP-exif:GPSLatitude=51.5074123", "-XMP-exif:GPSLongitude=-0.1277583"], {}),
    "a position on the other side of Greenwich": (
        [*PLACE, "-XMP-exif:GPSLatitude=51.5074123", "-XMP-exif:GPSLongitude=0.1277583"],
        {"position": "different"},
    ),
    "half a position in XMP": ([*PLACE, "-XMP-exif:GPSLongitude=5"], {}),
    "a city that only one names": (["-IPTC:City=Köln", "-IPTC:Country-PrimaryLocationName=Germany", "-XMP-photoshop:City=Köln"], {}),
}


@pytest.fixture(scope="module")
def written(session_folder):
    """A folder with a picture for each row, which one ExifTool writes."""
    folder = session_folder / "conflicts"
    folder.mkdir()
    (folder / "bare.jpg").write_bytes(SMALL_JPEG)
    words = []
    for number, (row, _) in enumerate(ROWS.values()):
        texts = [it.replace("\r", "&#13;").replace("\n", "&#10;") for it in row]
        words += ["-q", "-q", "-m", *texts, "-E", "-o", f"{number}.jpg", "bare.jpg", "-execute"]
    (folder / "words").write_text("\n".join(words), encoding="utf-8")
    tool(folder, "exiftool", "-@", "words")
    return folder


@pytest.fixture
def run(called):
    """Runs `conflicts`: its status and what it prints."""
    return lambda *words, **files: called("check", *words, *(f"{it}.jpg" for it in files), **files)[:2]


@needs("exiftool")
@pytest.mark.parametrize("number, name", list(enumerate(ROWS)))
def test_what_exiftool_writes(number, name, written, run):
    status, out = run("--json", str(written / f"{number}.jpg"))
    expected = ROWS[name][1]
    found = {it["label"]: it["kind"] for line in out.splitlines()[:-1] for it in json.loads(line)["conflicts"]}
    assert (found, status) == (expected, int("different" in expected.values()))


CONTRADICTION = jpeg(with_texts(artist=b"Anna"), with_record(data_set(80, b"Otto")))


def test_an_unreadable_block_makes_the_answer_open(run):
    status, out = run(a=CONTRADICTION, b=jpeg(with_record(b"\x1c\x02")))
    assert status == 2 and "1 picture with a contradiction" in out and "1 picture not wholly read" in out


def test_files_that_are_not_there_are_not_counted_as_read(run):
    status, out = run("b.jpg", a=CONTRADICTION)
    assert status == 2 and "1 picture read" in out and "1 picture not wholly read" in out
    assert json.loads(run("a.jpg", "b.jpg", "--json")[1].splitlines()[-1])["pictures"] == 1


DAMAGED = [CONTRADICTION[:40], CONTRADICTION[:2] + CREATOR + b"\xff\xe1\xff\xff"]  # in the first segment, and in the second one


@needs("exiftool")
@pytest.mark.parametrize("octets", DAMAGED, ids=["no block is left", "a block is left"])
def test_a_damaged_file_makes_the_answer_open(octets, run):
    """What is lost may contradict what is left."""
    status, out = run(a=octets)
    assert status == 2 and "a.jpg: not wholly read: " in out and "1 picture not wholly read" in out
    assert [it["kind"] for it in csv.DictReader(io.StringIO(run("--csv", "a.jpg")[1]))] == ["not read"]
    first, summary = map(json.loads, run("--json", "a.jpg")[1].splitlines())
    assert (first["path"], len(first["not_read"]), summary["not_wholly_read"]) == ("a.jpg", 1, 1)


# Forms of XMP part 2, 8.7.5, of 51 degrees 30 minutes 26.68 seconds, which are 30.4447 minutes, in Exif in hundredths of a second
FORMS = {
    "51,30,26.68N": True,
    "51,30,26.67N": True,  # which was cut off
    "51,30,26.66N": False,
    "51,30,26N": True,
    "51,30,27N": True,
    "51,30,28N": False,
    "51,30.4447N": True,
    "51,30.44N": True,
    "51,30.45N": True,
    "51,30.46N": False,
    "51,30N": True,
    "51,31N": True,
    "51,32N": False,
    "51,30,26.68S": False,
    "51,30.4447": None,  # no form of XMP, so that there is no position
}


@pytest.mark.parametrize("form, is_same", FORMS.items())
def test_positions_within_their_last_place(form, is_same, run):
    """A position in a shorter form is rounded or cut off, and no contradiction. The longitude is the same line from either side."""
    angles = [(51, 1), (30, 1), (2668, 100)], [(180, 1), (0, 1), (0, 1)]
    packet = xmp("", f"xmlns:exif='http://ns.adobe.com/exif/1.0/' exif:GPSLatitude='{form}' exif:GPSLongitude='180,0.0W'")
    status, out = run("--json", a=jpeg(app1(with_position(*angles)), app1_xmp(packet)))
    *_, summary = map(json.loads, out.splitlines())
    kinds = {it["label"]: it["detail"] for line in out.splitlines()[:-1] for it in json.loads(line)["conflicts"]}
    assert (status, list(kinds)) == ((1, ["position"]) if is_same is False else (0, [])), kinds
    assert summary["in_several_standards"] == int(is_same is not None)


def with_position(latitude, longitude):
    """A block of Exif with a position in the north and in the east."""
    values = b"".join(struct.pack("<II", *part) for part in (*latitude, *longitude))
    at = 8 + 2 + 12 + 4 + 2 + 4 * 12 + 4
    rows = ((1, 2, 2, b"N\0\0\0"), (2, 5, 3, struct.pack("<I", at)), (3, 2, 2, b"E\0\0\0"), (4, 5, 3, struct.pack("<I", at + 24)))
    gps = struct.pack("<H", 4) + b"".join(struct.pack("<HHI", *row[:3]) + row[3] for row in rows) + bytes(4)
    return b"II*\0" + struct.pack("<IHHHIII", 8, 1, 0x8825, 4, 1, 26, 0) + gps + values


def test_how_far_two_positions_are_apart(run, folder):
    """A minute of latitude is a sea mile of 1,852 m."""
    packet = xmp("", "xmlns:exif='http://ns.adobe.com/exif/1.0/' exif:GPSLatitude='51,31,26.68N' exif:GPSLongitude='180,0.0W'")
    block = with_position([(51, 1), (30, 1), (2668, 100)], [(180, 1), (0, 1), (0, 1)])
    printed = run(a=jpeg(app1(block), app1_xmp(packet)))[1]
    apart = re.search(r"position: ([\d,]+) m apart", printed)
    assert apart and abs(int(apart[1].replace(",", "")) - 1852) < 10, printed
    (folder / "rules").write_text("labels agree except position", encoding="ascii")
    assert run("--rules", "rules", "a.jpg")[0] == 0
