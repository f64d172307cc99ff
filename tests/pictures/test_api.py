"""The public calls of exifnorm_pictures. Expected values come from ExifTool, from the commands, or from the maker of the samples."""

import concurrent.futures
import io
import json
import multiprocessing
import os
import pickle
import re
import struct
import subprocess
import sys
from datetime import date, datetime
from fractions import Fraction
from pathlib import Path
from xml.etree import ElementTree

import pytest
from made_boxes import Item, box, heif, item_exif, jp2, jxl, uuid
from made_files import app1, app1_xmp, chunk, data_set, exif, jpeg, png, png_xmp, resource, title, webp, xmp
from made_more_files import gif, gif_xmp, psd
from made_raw import arw, cr2, dng, nef, orf, pef, rw2, srw, whole_raf
from studio import TOP, needs
from test_bigtiff import big, fields
from test_cr3 import cr3, structures

import exifnorm
import exifnorm_pictures
from exifnorm import pictures
from exifnorm_pictures import many
from exifnorm_pictures.catalogue import texts
from exifnorm_pictures.extract import readers
from exifnorm_pictures.fields import labels, packing, typed as xmp_types
from exifnorm_pictures.fields.field import Field
from exifnorm_pictures.extract.formats import jpeg as reader
from exifnorm_pictures.judge import judge

BEFORE, AFTER = (Path(TOP) / "samples" / it for it in ("before", "after"))
BOWL = "ceramics/2003-12-bowl.jpg"
VASE = "ceramics/1998-7-vase.jpg"
PHONE = "arrivals/IMG_20240502.jpg"
SAMPLES = sorted(it for it in BEFORE.rglob("*.*") if it.suffix in (".jpg", ".png", ".tif", ".webp"))


@pytest.mark.parametrize(
    "name, meant",
    [
        ("IPTC:Keyword", "IPTC:Keywords"),
        ("IFD0:Modle", "IFD0:Model"),
        ("exposuretimes", "ExposureTime"),
        ("GPS:GPSLatitud", "GPS:GPSLatitude"),
        ("title", "texts('title')"),
        ("IFD0:Artist", ""),
        ("dc:title", ""),
        ("no name at all", ""),
        ("*" * 200_000, ""),
        (0, ""),
    ],
)
def test_a_name_of_no_field_is_told_with_the_one_that_is_meant(name, meant):
    """A name that fields have by their standard is none that was mistyped."""
    with pytest.raises(KeyError) as raised:
        pictures.read(BEFORE / BOWL)[name]
    said = str(raised.value)
    assert meant in said and ("(" in said) == bool(meant) and len(said) < 300 and raised.value.args == (name,)
    assert str(pickle.loads(pickle.dumps(raised.value))) == said


def as_exiftool_prints(value):
    """A value as ExifTool has it with -n: a fraction divided, a date with colons, and names of structures without prefixes in small letters."""
    if isinstance(value, dict):
        return {name.partition(":")[2].casefold(): as_exiftool_prints(it) for name, it in value.items()}
    if isinstance(value, tuple):
        return [as_exiftool_prints(it) for it in value]
    if isinstance(value, date):
        text = value.isoformat(" ") if isinstance(value, datetime) else value.isoformat()
        return text.replace("-", ":", 2).replace("250000", "25").replace("+00:00", "Z")
    if isinstance(value, str):
        return value.replace("-", ":") if re.fullmatch("[0-9]{4}-[0-9]{2}", value) else value  # a date without its day
    return value if isinstance(value, bool) else pytest.approx(float(value))


@needs("exiftool")
def test_structures_are_those_of_exiftool(tmp_path):
    """A structure, a list of them, structures in one another, and a text of a structure in two languages."""
    (tmp_path / "a.jpg").write_bytes(jpeg())
    words = [
        "-XMP-xmpMM:DerivedFrom={DocumentID=xmp.did:1,InstanceID=xmp.iid:2}",
        "-XMP-xmpMM:History=[{Action=created,SoftwareAgent=A},{Action=saved,Changed=/}]",
        "-XMP-iptcExt:LocationCreated={City=Bern,LocationName=Kirche,LocationName-de=Kirche auf dem Berg}",
        "-XMP-mwg-rs:RegionInfo={AppliedToDimensions={W=3,H=2,Unit=pixel},RegionList=[{Name=Anna,Type=Face}]}",
    ]
    subprocess.run(["exiftool", "-q", "-config", "", "-overwrite_original", *words, tmp_path / "a.jpg"], check=True)
    ask = ["exiftool", "-q", "-config", "", "-json", "-struct", "-n", "-XMP:all", tmp_path / "a.jpg"]
    (theirs,) = json.loads(subprocess.run(ask, stdout=subprocess.PIPE, check=True).stdout)
    ours = pictures.read(tmp_path / "a.jpg")
    assert theirs["LocationCreated"][0]["LocationName-de"] == "Kirche auf dem Berg"
    for name, word in (*zip(*[("DerivedFrom", "History", "LocationCreated")] * 2), ("Regions", "RegionInfo")):
        (key,) = (it for it in ours.names if it.endswith(f":{name}"))
        expected = json.loads(json.dumps(theirs[word]), object_hook=lambda it: {one.casefold(): value for one, value in it.items()})
        assert as_exiftool_prints(ours[key]) == expected, name


WRITTEN = [
    it.replace("~", " ")
    for it in """
-XMP-xmp:Rating=3.5 -XMP-xmp:CreateDate=2019:03:12~11:20:45.25+01:00 -XMP-xmp:ModifyDate=2019:03:12 -XMP-xmpRights:Marked=False
-XMP-dc:Date=2019:03:12~11:20:45Z -XMP-dc:Date=2018:01:02 -XMP-photoshop:DateCreated=2019:03 -XMP-photoshop:Urgency=5 -XMP-tiff:Orientation=6
-XMP-tiff:BitsPerSample=8 -XMP-tiff:BitsPerSample=16 -XMP-tiff:XResolution=72 -XMP-exif:ExposureTime=1/60 -XMP-exif:FNumber=2.8
-XMP-exif:ISO=200 -XMP-exif:ExposureCompensation=-1/3 -XMP-exif:GPSAltitude=12.5 -XMP-tiff:WhitePoint=1/3 -XMP-tiff:WhitePoint=2/3
-XMP-exif:Flash={Fired=True,Return=0,Mode=2,Function=False,RedEyeMode=False} -XMP-mwg-rs:RegionInfo={AppliedToDimensions={W=3,H=2.5}}
-XMP-dc:Title=Vase -XMP-dc:Title-de=Krug -XMP-xmp:Label=6 -XMP-exif:GPSLatitude=48.1355 -XMP-exif:GPSLongitude=-11.57625
-XMP-exif:CFAPattern={Columns=2,Rows=2,Values=[0,1,1,2]} -XMP-exif:Opto-ElectricConvFactor={Columns=1,Rows=2,Names=[a],Values=[1/2,3/4]}
""".split()
]
OTHER_NAMES = {
    "ISOSpeedRatings": "ISO",
    "ExposureBiasValue": "ExposureCompensation",
    "Regions": "RegionInfo",
    "OECF": "Opto-ElectricConvFactor",
}


@needs("exiftool")
def test_values_of_xmp_are_those_of_exiftool(tmp_path):
    """By the types that the standards give to properties. A text that looks like a number stays one."""
    (tmp_path / "a.jpg").write_bytes(jpeg())
    subprocess.run(["exiftool", "-q", "-config", "", "-n", "-overwrite_original", *WRITTEN, tmp_path / "a.jpg"], check=True)
    ask = ["exiftool", "-q", "-config", "", "-json", "-struct", "-n", "-XMP:all", "-x", "XMPToolkit", tmp_path / "a.jpg"]
    (theirs,) = json.loads(
        subprocess.run(ask, stdout=subprocess.PIPE, check=True).stdout,
        object_pairs_hook=lambda pairs: {
            name if name[:5] == "Title" or name == "SourceFile" else name.casefold(): it for name, it in pairs
        },
    )
    ours = pictures.read(tmp_path / "a.jpg")
    assert (theirs.pop("Title"), theirs.pop("Title-de")) == ("Vase", "Krug") and ours["XMP-dc:title"] == "Vase"
    assert ours.find("XMP-dc:title")[0].languages == {"x-default": "Vase", "de": "Krug"} and ours["XMP-xmp:Label"] == "6"
    names = [it for it in ours.names if it not in ("XMP-dc:title", "XMP-xmp:Label")]
    assert len(names) == len(theirs) - 2, "all but the name of the file and the label"
    for name in names:
        word = name.rpartition(":")[2]
        assert as_exiftool_prints(ours[name]) == theirs[OTHER_NAMES.get(word, word).casefold()], name
    assert isinstance(ours["XMP-exif:ExposureTime"], Fraction) and ours["XMP-exif:Flash"]["exif:Fired"] is True


@needs("exiftool")
def test_types_of_xmp_are_those_of_exiftool():
    """Of each property of a namespace, but for two: ExifTool has a word for each LightSource, and a number for a text of CIPA DC-010."""
    groups = [f"-XMP-{it}:all" for it in ("exif", "tiff", "exifEX", "xmp", "xmpRights", "xmpMM", "xmpTPg", "dc", "photoshop")]
    listed = ElementTree.fromstring(subprocess.run(["exiftool", "-config", "", "-listx", "-f", *groups], stdout=subprocess.PIPE).stdout)
    theirs = {
        f"{table.get('g1')[4:]}:{tag.get('id')}": tag.get("type").title()
        for table in listed.iter("table")
        if f"-{table.get('g1')}:all" in groups
        for tag in table.iter("tag")
        if not {"Flattened", "Avoid"} & set((tag.get("flags") or "").split(","))
    }
    typed = {name: kind for name, kind in theirs.items() if kind in ("Integer", "Real", "Rational", "Boolean", "Date")}
    assert typed.pop("exif:GPSMeasureMode") == "Integer" and typed.setdefault("exif:LightSource", "Integer")
    assert {name: xmp_types.TYPES.get(name) for name in typed} == typed
    texts = [name for name in xmp_types.TYPES if name in theirs and name not in typed]
    assert {xmp_types.TYPES[name] for name in texts} == {"Coordinate"}, "texts by ExifTool, which reads degrees of some"


def test_a_long_structure_has_a_value(tmp_path):
    """Of more than 400 characters, which a catalogue keeps by their digest."""
    words = [f"{number}" * 50 for number in range(20)]
    fields = "".join(f"<dc:source{number}>{word}</dc:source{number}>" for number, word in enumerate(words))
    structure = f"<xmpMM:DerivedFrom xmlns:xmpMM='http://ns.adobe.com/xap/1.0/mm/' rdf:parseType='Resource'>{fields}</xmpMM:DerivedFrom>"
    (tmp_path / "a.jpg").write_bytes(jpeg(app1_xmp(xmp(structure))))
    field, again = pictures.read(tmp_path / "a.jpg").find("DerivedFrom")[0], pictures.read(tmp_path / "a.jpg").find("DerivedFrom")[0]
    assert field.value == {f"dc:source{number}": word for number, word in enumerate(words)}
    assert pickle.loads(pickle.dumps(field)).value == field.value and "sha256:" in field.exact
    (kept,) = packing.unpacked(packing.packed([field])[0])
    assert field == again == kept and hash(field) == hash(kept) and kept.exact == field.exact and kept.value is None


@needs("exiftool")
def test_numbers_are_those_of_exiftool():
    words = ["exiftool", "-q", "-q", "-config", "", "-j", "-n", "-G1", "-EXIF:all", *map(str, SAMPLES)]
    compared = 0
    for them in json.loads(subprocess.run(words, stdout=subprocess.PIPE, check=False).stdout):
        ours = pictures.read(them["SourceFile"])
        for name, value in them.items():
            mine = ours.get(name)
            if type(value) in (int, float) and isinstance(mine, (int, float, Fraction)):
                compared += 1
                assert float(mine) == pytest.approx(value, rel=1e-6), (them["SourceFile"], name)
    assert compared > 50


A, T = exif(b"Anna"), title("one")
FORMATS = {
    "jpg": jpeg(app1(A), app1_xmp(T)),
    "png": png(chunk(b"eXIf", A), png_xmp(T)),
    "webp": webp((b"EXIF", A), (b"XMP ", T)),
    "tif": (BEFORE / "paintings/1974-31-portrait.tif").read_bytes(),
    "gif": gif(gif_xmp(T)),
    "psd": psd(resource(0x0422, A), resource(0x0424, T)),
    "jp2": jp2(uuid(b"JpgTiffExif->JP2".hex(), A)),
    "jxl": jxl(box(b"Exif", bytes(4), A), box(b"xml ", T)),
    "heic": heif(Item(b"Exif", item_exif(A), b"", ())),
    "dng": dng(),
    "cr2": cr2(),
    "nef": nef(),
    "pef": pef(),
    "orf": orf(),
    "arw": arw(),
    "srw": srw(),
    "rw2": rw2(),
    "raf": whole_raf(),
    "cr3": cr3(*structures(), packet=T),
    "btf": big(fields()),
    "xmp": T,
}


def test_each_format_has_its_file():
    """A new format needs one above, for the tests of all formats."""
    heads = {name: (data[: readers.HEAD], f"a.{name}".encode()) for name, data in FORMATS.items()}
    assert {it.name for it in readers.FORMATS} == {next(it.name for it in readers.FORMATS if it.is_of(*head)) for head in heads.values()}


class Unseekable(io.RawIOBase):
    """The body of a request."""

    def __init__(self, data, name):
        self.stream, self.name = io.BytesIO(data), name

    def read(self, length=-1):
        return self.stream.read(length)


@pytest.mark.parametrize("ending", FORMATS)
def test_a_path_bytes_and_a_file_are_read_alike(ending, tmp_path):
    data = FORMATS[ending]
    path = tmp_path / f"a.{ending}"
    path.write_bytes(data)
    with open(path, "rb") as file:
        sources = [path, str(path), os.fsencode(path), file, Unseekable(data, path.name)]
        found = [
            *map(pictures.read, sources),
            *(pictures.read_bytes(it, name=path.name) for it in (data, bytearray(data), memoryview(data))),
        ]
    assert len({(it.type, it.meaning, it.not_read, tuple(it.fields), it.captions) for it in found}) == 1
    assert list(found[0].fields)


GUESSED = "character set guessed: Windows-1252"


@pytest.mark.parametrize(
    "field, text, guess",
    [
        (Field("main", "013b", "ASCII", 8, b"Krop\xe1\xe8\0"), "Kropáè", GUESSED),
        (Field("main", "013b", "ASCII", 8, "Kropá\0".encode()), "Kropá", "character set guessed: UTF-8"),
        (Field("main", "013b", "UTF8", 8, "Kropá\0".encode()), "Kropá", ""),
        (Field("iptc", "2:80", "octets", 6, "Kropá".encode()), "Kropá", "character set guessed: UTF-8"),
        (Field("iptc", "2:0", "octets", 2, b"\1\xe1"), "481", ""),
        (Field("exif", "9286", "UNDEFINED", 13, b"ASCII\0\0\0\xe1bcde"), "ábcde", GUESSED),
        (Field("exif", "9286", "UNDEFINED", 20, b"UNICODE\0" + "Kropáč".encode("utf-16-be")), "Kropáč", ""),
        (Field("gps", "001c", "UNDEFINED", 20, b"UNICODE\0" + "Marin".encode("utf-16")), "Marin", ""),
        (Field("exif", "9286", "UNDEFINED", 20, "Low angle".encode("utf-16-le")), "Low angle", "character set guessed: UTF-16"),
        (Field("exif", "9286", "UNDEFINED", 20, "\ufeffKropáč\0".encode("utf-16-be")), "Kropáč", "character set guessed: UTF-16"),
        (Field("exif", "927c", "UNDEFINED", 2, b"\xe1\xe8"), "0xe1e8", ""),
        (Field("main", "8298", "ASCII", 12, b"Lena\0Museum\0"), "Lena\nMuseum", ""),
        (Field("main", "9c9b", "BYTE", 4, "á\0".encode("utf-16-le")), "á", ""),
    ],
)
def test_a_guessed_character_set_is_marked(field, text, guess):
    assert (field.text, field.guess) == (text, guess)
    assert field.value is None or not isinstance(field.value, str) or (field.json == text and "\ufeff" not in field.value)


def shared(pages, record):
    """A TIFF with one IPTC record that all of its pages have."""
    octets = b"MM\0*" + struct.pack(">I", 8 + len(record)) + record
    for number in range(pages):
        behind = len(octets) + 18 if number < pages - 1 else 0
        octets += struct.pack(">HHHIII", 1, 0x83BB, 7, len(record), 8, behind)
    return octets


def test_pages_that_share_a_block_cost_it_once(monkeypatch, folder, called):
    """A file of 50 kB can have 20 million fields. Neither a name nor the texts need a copy of them for each page."""
    pages, keywords = 40, [b"word %d" % number for number in range(200)]
    (folder / "a.tif").write_bytes(shared(pages, b"".join(data_set(25, it) for it in keywords)))
    read, copied, in_block = [], [], Field._in_block
    monkeypatch.setattr(Field, "_in_block", lambda field, name: copied.append(name) or in_block(field, name))
    monkeypatch.setattr(texts, "of_labelled", lambda fields: read.append(fields) or labels.of_labelled(fields))
    picture = pictures.read("a.tif")
    assert picture.get("Keywords") == tuple(it.decode() for it in keywords) and "Headline" not in picture
    assert picture.names == ("IPTC:Keywords",) and picture.position is None and picture.texts("keywords") == picture["2:25"]
    assert [it.block for it in picture.captions] == ["", *(f"IPTC of page {number}" for number in range(2, pages + 1))]
    assert (len(read), copied) == (1, [])
    again = pickle.loads(pickle.dumps(picture))
    assert again.get("Keywords") == picture.get("Keywords") and not again.find("Headline")
    assert len(picture.find("Keywords")) == len(list(picture.fields)) == pages * len(keywords)
    status, printed, _ = called("show", "--captions", "a.tif")
    assert status == 0 and printed.count("word 0; word 1;") == 1 and len(read) == 2


@pytest.mark.parametrize("share", [1, 0.5, 0.9], ids=["whole", "half", "cut"])
@pytest.mark.parametrize("path", SAMPLES, ids=lambda it: it.name)
def test_show_prints_the_json_of_a_picture(path, share, called, tmp_path):
    """Also of one that is cut, or has a refused block, as some samples do."""
    copy, data = tmp_path / path.name, path.read_bytes()
    copy.write_bytes(data[: int(len(data) * share)])
    them = json.loads(called("show", "--json", str(copy))[1])
    if them["problem"]:
        with pytest.raises((pictures.NoPicture, pictures.NotReadable)):
            pictures.read(copy)
        return
    ours = pictures.read(copy)
    members = json.loads(json.dumps(ours.json, allow_nan=False))
    assert {"schema": "exifnorm-pictures/show/1", "record": "picture", **members} == them
    assert [json.loads(json.dumps(it.json)) for it in ours.blocks] == them["blocks"]
    fields = [(it["name"], it["key"], it["plain"], it["exact"], it["value"]) for block in them["blocks"] for it in block["fields"]]
    assert fields == [(it.name, it.key, it.text, it.exact, json.loads(json.dumps(it.json))) for it in ours.fields]


@pytest.mark.parametrize("after", [VASE, BOWL, PHONE, "prints/1931-4-plan.png"])
@pytest.mark.parametrize("name", [BOWL, VASE, PHONE, "arrivals/DSC_0042.jpg", "textiles/2011-2-sash.webp", "prints/1931-4-plan.png"])
def test_compare_finds_what_the_command_finds(name, after, called):
    before, after = BEFORE / name, AFTER / after
    status, printed, _ = called("compare", "--no-programs", "--json", str(before), str(after))
    them = json.loads(printed)
    read = pictures.read(before), pictures.read(after)
    for ours in (pictures.compare(before, after), pictures.compare(*read), pictures.compare(io.BytesIO(before.read_bytes()), after)):
        assert (ours.result, ours.picture, ours.proved) == (them["result"], them["coded_picture"], them["proved"])
        assert ours.note == them["note"] or them["identical_files"]
        assert {it.name for it in ours.differences} == {it["name"] for it in them["fields"]}
        assert ours.same is {0: True, 1: False, 2: None}[status]


def test_a_mistake_of_ours_affects_one_picture(monkeypatch):
    def fails(*_):
        raise ZeroDivisionError("a mistake")

    monkeypatch.setattr(reader, "read", fails)
    with pytest.raises(pictures.NotReadable, match="a mistake") as error:
        pictures.read(BEFORE / BOWL)
    assert error.value.problem == "InternalError"


def facts(it):
    return (it.meaning, tuple(it.fields), it.captions, it.refusals, it.not_read) if isinstance(it, pictures.Picture) else type(it)


def test_many_in_processes_and_threads():
    paths = [*SAMPLES, Path("/nowhere.jpg")] * 3
    alone = list(pictures.read_all(paths, jobs=1))
    together = list(pictures.read_all(paths, jobs=2))
    assert [it for it, _ in together] == paths
    assert isinstance(together[-1][1], FileNotFoundError)
    assert [facts(it) for _, it in together] == [facts(it) for _, it in alone]
    shared = pictures.read(SAMPLES[0])
    with concurrent.futures.ThreadPoolExecutor(4) as pool:
        assert [facts(it) for it in pool.map(pictures.read, SAMPLES * 3)] == [facts(it) for _, it in alone[: len(SAMPLES)]] * 3
        assert len(set(pool.map(facts, [shared] * 20))) == 1


@pytest.mark.parametrize("path", ["a.jpg", b"a.jpg", Path("a.jpg")])
def test_one_path_is_not_taken_for_many(path):
    with pytest.raises(TypeError, match="several paths"):
        pictures.read_all(path)


def test_a_process_that_dies_ends_nothing(tmp_path, monkeypatch):
    paths = [tmp_path / f"{number:03}.jpg" for number in range(40)]
    for path in paths:
        path.write_bytes((BEFORE / BOWL).read_bytes())
    parent, read = os.getpid(), many._read

    def dies(path, *more):
        if path in (paths[11], paths[30]) and os.getpid() != parent:
            os._exit(1)
        return read(path, *more)

    monkeypatch.setattr(many, "_read", dies)
    results = list(pictures.read_all(paths, jobs=2))
    assert [path for path, _ in results] == paths
    died = [path for path, found in results if isinstance(found, pictures.NotReadable)]
    assert died == [paths[11], paths[30]] and "died" in str(results[11][1])
    assert all(isinstance(found, pictures.Picture) for path, found in results if path not in died)


def test_names_are_taken_as_they_are_needed():
    taken = []

    def names():
        for number in range(10_000):
            taken.append(number)
            yield BEFORE / BOWL

    results = pictures.read_all(names(), jobs=2)
    assert next(results)[1].type == "JPEG"
    assert len(taken) <= 2 * 32
    results.close()  # ends the processes
    assert not multiprocessing.active_children()
    with pytest.raises(ValueError, match="at least 1"):
        pictures.read_all([], jobs=0)


@pytest.mark.parametrize("path", SAMPLES, ids=lambda it: it.name)
def test_pictures_are_pickled(path):
    whole, again = pictures.read(path), pickle.loads(pickle.dumps(pictures.read(path)))
    assert facts(again) == facts(whole) and again.name == whole.name and repr(again) == repr(whole)
    assert pictures.compare(again, whole).same is True


def test_a_typed_client():
    """mypy checks client.py with --strict, and what it prints is what README promises."""
    words = [sys.executable, str(Path(__file__).parent / "client.py"), str(BEFORE / BOWL), str(AFTER / BOWL)]
    done = subprocess.run(words, stdout=subprocess.PIPE, text=True, check=True, env={**os.environ, "PYTHONPATH": f"{TOP}/python"})
    assert done.stdout.splitlines() == [
        "Canon EOS 5D Mark II 1/60 200 2019",
        "2003.12: bowl, celadon",
        "different: IFD0:Copyright, IPTC:Caption-Abstract",
        "Picture Picture",
        "bowl.jpg: Canon EOS 5D Mark II",
    ]


def test_blocks_are_read_once(monkeypatch):
    """And fields are made when they are asked for."""
    calls, made = [], []
    normal = exifnorm.normal
    monkeypatch.setattr(exifnorm, "normal", lambda block: calls.append(block) or normal(block))
    of_form = judge.fields_of_form
    monkeypatch.setattr(judge, "fields_of_form", lambda form: made.append(form) or of_form(form))
    bowl = pictures.read(BEFORE / BOWL)
    assert (bowl.meaning is not None, bowl.refusals, len(calls), len(made)) == (True, (), 2, 0)
    assert bowl.captions and bowl["IFD0:Model"] and list(bowl.fields) and len(calls) == 2 and len(made) == 2
    assert pictures.compare(bowl, pictures.read(BEFORE / BOWL)).same and (len(calls), len(made)) == (4, 2)


def test_reading_loads_no_more_than_it_needs():
    """One picture is read without what starts processes, and without what few pictures need."""
    code = "import sys; from exifnorm import read; read(sys.argv[1])['IFD0:Model']; print(*sys.modules)"
    words = [sys.executable, "-S", "-c", code, str(BEFORE / BOWL)]
    done = subprocess.run(words, stdout=subprocess.PIPE, text=True, check=True, env={**os.environ, "PYTHONPATH": f"{TOP}/python"})
    assert not {"multiprocessing", "concurrent.futures", "socket", "logging", "subprocess", "tempfile", "shutil"} & {*done.stdout.split()}


@pytest.mark.parametrize("code", ["from exifnorm_pictures import read", "exifnorm_pictures.read"])
def test_the_package_of_the_code_says_what_to_import(code):
    with pytest.raises(ImportError, match="exifnorm.read"):
        exec(code, {"exifnorm_pictures": exifnorm_pictures})
    assert not hasattr(exifnorm_pictures, "raed")


def test_each_name_has_words():
    """help() shows them, and doesn't say "Alias for field number 3" of a member of a tuple."""
    classes = [it for it in (getattr(exifnorm, name) for name in exifnorm.__all__) if isinstance(it, type)]
    assert {pictures.Refusal, exifnorm.JpegPart} <= {*classes}
    for it in (*classes, *(getattr(pictures, name) for name in pictures.__all__)):
        assert it.__doc__ and not it.__doc__.startswith(f"{it.__name__}("), it
        for member, one in vars(it).items() if isinstance(it, type) else ():
            if isinstance(one, property) or (issubclass(it, tuple) and member in it._fields):
                assert one.__doc__ and not one.__doc__.startswith("Alias for field"), (it, member)
    assert [name for name in dir(pictures) if not name.startswith("_")] == sorted(pictures.__all__)
