"""`list` by fields that have no label: values and answers are those of `exiftool -n`, over pictures that ExifTool has written."""

import json
import random
import struct
import subprocess

import pytest
from made_blocks import ASCII, LONG, MAKE, MODEL, block, entry, table, with_exif
from made_files import app1, app1_xmp, app13, iim, jpeg, resource, small_tiff, xmp
from studio import SMALL_JPEG, needs, put, tool

VALUES = {
    "FNumber": ("2.8", "8", "11"),
    "ISO": ("100", "1600"),
    "Rating": ("1", "4", "5"),
    "Model": ("A", "a b", "Zürich 2"),
    "ExposureTime": ("0.008", "30"),
}


@pytest.fixture
def asked(called):
    """The texts of the pictures that `list` prints, by name, and its status and last object."""

    def ask(*words):
        status, printed, _ = called("list", "c", "--json", *words)
        *listed, last = map(json.loads, printed.splitlines())
        return {it["path"].rpartition("/")[2]: it["texts"] for it in listed}, status, last

    return ask


@pytest.fixture
def drawn(folder, called):
    """Pictures with drawn values, and those values as ExifTool reads them."""
    rng = random.Random(7)
    put(folder / "p", {f"{number}.jpg": SMALL_JPEG for number in range(12)})
    for number in range(12):
        edits = [f"-{name}={rng.choice(values)}" for name, values in VALUES.items() if rng.random() < 0.7]
        tool(folder / "p", "exiftool", "-q", "-overwrite_original", "-Artist=x", *edits, f"{number}.jpg")
    called("index", "p", "--catalogue", "c", "--quiet")
    words = ["exiftool", "-config", "", "-j", "-n", "-charset", "UTF8", *(f"-{name}" for name in VALUES), "p"]
    listed = json.loads(subprocess.run(words, cwd=folder, capture_output=True, check=True).stdout)
    return {it.pop("SourceFile").rpartition("/")[2]: it for it in listed}


GPS = ("GPSLatitude", "GPSLongitude", "GPSDestLatitude", "GPSDestLongitude", "GPSTimeStamp")
WHERE = {
    "southwest": "-GPSLatitude=-33.5 -GPSLatitudeRef=S -GPSLongitude=-7.75 -GPSLongitudeRef=W -GPSTimeStamp=07:59:58.5",
    "northeast": "-GPSLatitude=42.858167 -GPSLatitudeRef=N -GPSLongitude=70.931203 -GPSLongitudeRef=E -GPSTimeStamp=23:00:00",
    "destination": "-GPSDestLatitude=-0.25 -GPSDestLatitudeRef=S -GPSDestLongitude=179.999 -GPSDestLongitudeRef=E",
    "nowhere": "-Artist=x",
}


@needs("exiftool")
def test_angles_and_times_of_gps(folder, called, asked):
    """Degrees, minutes and seconds are one number with a sign, and a time is one text."""
    for name, words in WHERE.items():
        put(folder / "p", {f"{name}.jpg": SMALL_JPEG})
        tool(folder / "p", "exiftool", "-q", "-overwrite_original", *words.split(), f"{name}.jpg")
    called("index", "p", "--catalogue", "c", "--quiet")
    words = ["exiftool", "-config", "", "-j", "-n", *(f"-{name}" for name in GPS), "p"]
    listed = json.loads(subprocess.run(words, cwd=folder, capture_output=True, check=True).stdout)
    expected = {it.pop("SourceFile").rpartition("/")[2]: it for it in listed}
    found, _, _ = asked("--columns", ",".join(GPS))
    for picture, values in expected.items():
        for name in GPS[:-1]:
            assert [float(it) for it in found[picture][name]] == pytest.approx(list(filter(None, [values.get(name)]))), (picture, name)
        assert found[picture]["GPSTimeStamp"] == list(filter(None, [values.get("GPSTimeStamp")])), picture
    for name in GPS[:-1]:
        for bound in (-30, 0, 40, 50, 70.5):
            above = {picture for picture, values in expected.items() if name in values and values[name] > bound}
            assert set(asked("--where", f"{name} > {bound}")[0]) == above, (name, bound)
    assert set(asked("--where", "GPSTimeStamp = 23:00:00")[0]) == {"northeast.jpg"}


RATIONAL = 5


def angle(*numbers):
    return b"".join(struct.pack(">II", number, 1) for number in numbers)


def located(tags, letter):
    """A picture with these four fields of GPS, of which both references begin so."""
    latitude, longitude = angle(7, 30, 0), angle(8, 15, 0)
    values = ((ASCII, letter + b"\0"), (RATIONAL, latitude), (ASCII, letter + b"\0"), (RATIONAL, longitude))
    return jpeg(app1(small_tiff((0x8825, LONG, [(tag, *value) for tag, value in zip(tags, values)]), order=">")), base=SMALL_JPEG)


def with_gps(*fields):
    return jpeg(app1(small_tiff((0x8825, LONG, list(fields)), order=">")), base=SMALL_JPEG)


LATITUDE, LONGITUDE = (2, RATIONAL, angle(7, 30, 0)), (4, RATIONAL, angle(8, 15, 0))
XMP_ANGLES = "xmlns:exif='http://ns.adobe.com/exif/1.0/' exif:GPSLatitude='{}' exif:GPSLongitude='{}'"


@pytest.mark.parametrize(
    "picture, is_unclear",
    [
        (located((1, 2, 3, 4), b"x"), True),
        (with_gps(LATITUDE, LONGITUDE), True),
        (with_gps((1, ASCII, b"N\0"), (2, RATIONAL, angle(97, 30, 0)), (3, ASCII, b"E\0"), LONGITUDE), True),
        (jpeg(app1_xmp(xmp("", XMP_ANGLES.format("7.5", "8.25")))), True),
        (with_gps((1, ASCII, b"N\0"), LATITUDE, (3, ASCII, b"E\0")), True),
        (with_gps((2, RATIONAL, bytes(24)), (4, RATIONAL, bytes(24))), False),
        (with_gps((1, ASCII, b"N\0"), LATITUDE, (3, ASCII, b"E\0"), LONGITUDE), None),
        (jpeg(app1_xmp(xmp("", XMP_ANGLES.format("7,30N", "8,15E")))), None),
    ],
)
def test_angles_that_make_no_position(picture, is_unclear, folder, called, indexed):
    """Whether the picture has a position isn't known, since other programs may show one: no rule and no question takes it for one without, and
    none for one with a position. So it is of an angle alone; one of 0/0, as phones write it, shows no place. None: it has a position."""
    indexed({"a.jpg": picture})
    expected = {True: (0, 0, 1), False: (0, 1, 0), None: (1, 0, 0)}[is_unclear]
    for source in ("p", "c"):
        ends = [json.loads(called("list", source, option, "position", "--json")[1].splitlines()[-1]) for option in ("--with", "--without")]
        assert (ends[0]["listed"], ends[1]["listed"], ends[0]["not_known"]) == expected and ends[1]["not_known"] == expected[2]
        for rule, status in (
            ("position never", 1 if is_unclear is None else 2 * expected[2]),
            ("every picture needs position", expected[1] or 2 * expected[2]),
        ):
            (folder / "rules").write_text(rule + "\n")
            ended, printed, _ = called("check", "--rules", "rules", source)
            assert ended == status and ("no position" in printed) == (ended == 2 or (rule != "position never" and ended == 1)), printed


@needs("exiftool")
def test_logarithms_of_any_size(folder, called, asked):
    """Of damaged pictures and of careless programs, in Exif and in XMP."""
    tags = {0x9201: "ShutterSpeedValue", 0x9202: "ApertureValue", 0x9205: "MaxApertureValue"}
    logarithms = [(sign * above, below) for above, below in EXTREMES for sign in (1, -1)] + [(-(2**31), 1)]
    at = 8 + 2 + 12 + 4 + 2 + 12 * len(tags) + 4
    for number, logarithm in enumerate(logarithms):
        entries = [entry(tag, SRATIONAL, 1, at + 8 * place) for place, tag in enumerate(tags)]
        exif = block([entry(0x8769, LONG, 1, 26)]) + table(entries) + struct.pack(">ii", *logarithm) * len(tags)
        values = "".join(f" exif:{name}='{logarithm[0]}/{logarithm[1]}'" for name in tags.values())
        packet = xmp("", f"xmlns:exif='http://ns.adobe.com/exif/1.0/'{values}")
        put(folder / "p", {f"{number}.jpg": jpeg(app1(exif), app1_xmp(packet), base=SMALL_JPEG)})
    called("index", "p", "--catalogue", "c", "--quiet")
    names = [f"{group}:{name}" for group in ("ExifIFD", "XMP-exif") for name in tags.values()]
    words = ["exiftool", "-config", "", "-j", "-n", "-G1", *(f"-{name}" for name in names), "p"]
    listed = json.loads(subprocess.run(words, cwd=folder, capture_output=True, check=True).stdout)
    found, _, _ = asked("--columns", ",".join(names))
    assert len(listed) == len(logarithms)
    for values in listed:
        texts = found[values["SourceFile"].rpartition("/")[2]]
        for name in names:
            assert [float(it) for it in texts[name]] == pytest.approx([float(values[name])], rel=1e-12, abs=0), (name, values["SourceFile"])


SRATIONAL = 10
EXTREMES = ((0, 1), (1, 2), (99, 1), (9999, 100), (100, 1), (200, 1), (1000, 1), (2000, 1), (2047, 1), (2048, 1), (2**31 - 1, 1))


@needs("exiftool")
def test_several_numbers(folder, called, asked):
    """All numbers of a field are listed, also equal ones and bytes, and a picture is counted once for each."""
    names = ["LensInfo", "GPSVersionID", "BitsPerSample", "ComponentsConfiguration", "FileSource", "SceneType"]
    edits = ["-LensInfo=18 55 3.5 3.5", "-GPSVersionID=2 2 0 0", "-FileSource#=3", "-SceneType#=1", "-ComponentsConfiguration#=1 2 3 0"]
    put(folder / "p", {"1.jpg": SMALL_JPEG, "2.jpg": SMALL_JPEG})
    tool(folder / "p", "exiftool", "-q", "-overwrite_original", *edits, "-IFD0:BitsPerSample=16 16 16", "1.jpg")
    tool(folder / "p", "exiftool", "-q", "-overwrite_original", "-LensInfo=18 55 3.5 5.6", "-FileSource#=2", "2.jpg")
    called("index", "p", "--catalogue", "c", "--quiet")
    words = ["exiftool", "-config", "", "-j", "-n", *(f"-EXIF:{name}" for name in names), "p"]
    expected = json.loads(subprocess.run(words, cwd=folder, capture_output=True, check=True).stdout)
    assert sum(map(len, expected)) == 11  # with the names of the files
    found, _, _ = asked("--columns", ",".join(names))
    for values in expected:
        texts = found[values["SourceFile"].rpartition("/")[2]]
        for name in names:
            assert " ".join(texts[name]) == str(values.get(name, "")), name
    assert set(asked("--where", "BitsPerSample = 16 and FileSource = 3 and LensInfo = 3.5")[0]) == {"1.jpg"}
    _, printed, _ = called("list", "c", "--count", "LensInfo", "--json")
    *counts, _ = map(json.loads, printed.splitlines())
    assert {it["text"]: it["pictures"] for it in counts} == {"18": 2, "55": 2, "3.5": 2, "5.6": 1}


@needs("exiftool")
def test_questions(drawn, asked):
    """Each comparison of each field, and two together."""

    def having(test):
        return {picture for picture, values in drawn.items() if test(values)}

    for name, values in VALUES.items():
        assert set(asked("--with", name)[0]) == having(lambda it: name in it)
        assert set(asked("--without", name)[0]) == having(lambda it: name not in it)
        for value in values:
            assert set(asked("--where", f"{name} = '{value}'")[0]) == having(lambda it: str(it.get(name)) == value), (name, value)
    for sign, test in (("<", lambda it: it < 8), ("<=", lambda it: it <= 8), (">", lambda it: it > 8), (">=", lambda it: it >= 8)):
        assert set(asked("--where", f"FNumber {sign} 8")[0]) == having(lambda it: "FNumber" in it and test(it["FNumber"])), sign
    both = having(lambda it: it.get("Rating", 0) > 3 and "ISO" not in it)
    assert set(asked("--where", "Rating > 3 and without ISO")[0]) == both
    assert set(asked("--where", "XMP:Rating > 3 and not with ExifIFD:ISO")[0]) == both
    assert set(asked("--where", "IFD0:Model has 'ZU\u0308RICH'")[0]) == having(lambda it: "Zürich" in str(it.get("Model")))


@pytest.mark.parametrize(
    "limit, octets, name",
    [
        ("fields.packing.FIELD_BYTES", with_exif(SMALL_JPEG, block([MAKE, MODEL])), "Make"),
        ("judge.judge.FIELDS", jpeg(app13(resource(0x404, iim(b"one") * 2))), "Urgency"),
    ],
    ids=["bytes", "DataSets"],
)
def test_of_fields_that_are_too_many_to_be_kept_nothing_is_known(limit, octets, name, asked, monkeypatch, indexed):
    """Nothing that stands for them is listed as a text, and the picture may fit."""
    monkeypatch.setattr(f"exifnorm_pictures.{limit}", 1)
    indexed({"a.jpg": octets})
    assert not any(asked("--columns", name)[0]["a.jpg"].values())
    for words in (["--with", name], ["--where", f"{name} like '*'"], ["--without", name]):
        texts, status, last = asked(*words)
        assert (texts, status, last["not_known"]) == ({}, 2, 1), words
