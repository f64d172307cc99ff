"""Fields that are left out of a comparison, or that it is restricted to."""

import json
import os
import re
import shutil
import struct
import subprocess
import xml.etree.ElementTree as ET
from pathlib import Path

import pytest
from labelled_fields import FIELDS
from made_blocks import BLOCKS, LONG, MAKE, block, entry, table
from made_files import app1, app1_xmp, data_set, exif, iim, jpeg, with_record, with_texts, xmp
from studio import SMALL_JPEG, TOP, needs, put, sql_rows, tool

import exifnorm
from exifnorm_pictures.fields.choosing import SAVES, Choice
from exifnorm_pictures.fields.field_names import names_and_groups
from exifnorm_pictures.fields.labels import OF_FIELDS, POSITION, fields_by_label

BUT = "the same but for the fields left out"


@pytest.fixture
def run(called):
    """Runs a command in the test's folder: its status, its lines, and what it prints on standard error."""

    def call(*words, **files):
        status, out, messages = called(*words, **files)
        return status, out.splitlines(), messages

    return call


@pytest.fixture
def compared(run):
    """The status, the result, the names of the fields that differ, and those that are left out, of two pictures a.jpg and b.jpg."""

    def call(*words, **files):
        status, lines, _ = run("compare", "a.jpg", "b.jpg", "--json", *words, **files)
        found = json.loads(lines[0])
        return status, found["result"], [it["name"] for it in found["fields"]], found.get("left_out", [])

    return call


# Names


WORDS = ["-Artist=Anna", "-ModifyDate=2020:01:01 10:00:00", "-ISO=100", "-FNumber=8", "-XMP-exif:FNumber=8", "-GPSAltitude=100"]
WORDS += ["-InteropIndex=R98", "-ThumbnailImage<=small.jpg", "-IPTC:Keywords=vase", "-IPTC:By-line=Anna", "-XMP-dc:Title=Vase"]
WORDS += ["-XMP-xmp:MetadataDate=2020:01:01 10:00:00", "-XMP-crs:Version=1", "-XMP-iptcCore:Location=Hall", "-XMP-tiff:Make=X"]


def by_exiftool(folder):
    """A picture with fields of all kinds."""
    put(folder, {"b.jpg": SMALL_JPEG, "small.jpg": SMALL_JPEG})
    tool(folder, "exiftool", "-q", "-overwrite_original", *WORDS, "b.jpg")
    return (folder / "b.jpg").read_bytes()


def by_hand(folder):
    """A picture with two Exif blocks, a tag without a name, and properties of a namespace without a usual prefix."""
    del folder
    packet = xmp("<y:title>Vase</y:title><y:a.b>c</y:a.b>", "", "xmlns:y='http://example.com/?*'")
    tags = [MAKE, entry(0xFE01, LONG, 1, 7)]
    return jpeg(app1(block(tags)), app1(block(tags)), app1_xmp(packet), with_record(iim(b"Vase") + b"\x1c\2\xfe\0\1x"))


@needs("exiftool")
@pytest.mark.parametrize("make", [by_exiftool, by_hand])
def test_each_name_that_is_printed_can_be_given(make, folder, compared):
    """It is the name of that field alone; only a field of a further block has a name in which the first one's is."""
    assert compared(a=SMALL_JPEG, b=make(folder))[:2] == (1, "different")
    names = compared()[2]
    assert len(names) >= 8
    for name in names:
        status, result, found, _ = compared("--only", name)
        assert (status, {*found} - {f"{name} (second Exif)"}) == (1, {name}), name
        assert name not in compared("--ignore", name)[2]
    assert compared(*(word for name in names for word in ("--ignore", name)))[:3] == (0, BUT, [])


@needs("exiftool")
def test_names_of_exiftool(folder, compared):
    """Each tag that ExifTool prints is left out by its group and name, in letters of either case."""
    octets = by_exiftool(folder)
    every = set(compared(a=SMALL_JPEG, b=octets)[2])
    printed = json.loads(subprocess.run(["exiftool", "-j", "-G1", "-a", folder / "b.jpg"], capture_output=True, check=True).stdout)[0]
    groups = ("IFD0", "ExifIFD", "GPS", "InteropIFD", "IPTC", "XMP-")
    tags = [it for it in printed if it.startswith(groups) and it != "XMP-x:XMPToolkit"]
    assert len(tags) > 15
    for tag in tags:
        for name in (tag, tag.upper(), tag.lower()):
            status, result, found, left = compared("--ignore", name)
            assert (len(every) - len(found), len(left)) == (1, 1), (tag, every - {*found}, left)


OTHER_NAMES = [
    ("Artist", "IFD0:Artist"),
    ("main:Artist", "IFD0:Artist"),
    ("EXIF:Artist", "IFD0:Artist"),
    ("0x013b", "IFD0:Artist"),
    ("ifd0:0x013B", "IFD0:Artist"),
    ("DateTime", "IFD0:ModifyDate"),
    ("PhotographicSensitivity", "ExifIFD:ISO"),
    ("exif:FNumber", "ExifIFD:FNumber"),
    ("XMP-exif:FNumber", "XMP-exif:FNumber"),
    ("2:25", "IPTC:Keywords"),
    ("iptc:2:80", "IPTC:By-line"),
    ("dc:title", "XMP-dc:title"),
    ("Iptc4xmpCore:Location", "XMP-Iptc4xmpCore:Location"),
    ("XMP-iptcCore:Location", "XMP-Iptc4xmpCore:Location"),
    ("crs:*", "XMP-crs:Version"),
    ("GPS:GPSAlt?tude", "GPS:GPSAltitude"),
    ("thumb:JPEG thumbnail", "IFD1:ThumbnailImage"),
]


@needs("exiftool")
def test_choosing(folder, compared, checks):
    compared(a=SMALL_JPEG, b=by_exiftool(folder))
    every = compared()[2]
    for name, printed in OTHER_NAMES:
        checks.equal(name, compared("--only", name)[2], [printed])
        checks.equal(f"without {name}", compared("--ignore", name)[2], [it for it in every if it != printed])


@needs("exiftool")
@pytest.mark.parametrize(
    "pattern, groups",
    [
        ("IPTC", {"IPTC"}),
        ("XMP", {"XMP-dc", "XMP-xmp", "XMP-crs", "XMP-exif", "XMP-tiff", "XMP-Iptc4xmpCore"}),
        ("xmp:*", {"XMP-xmp"}),
        ("Exif", {"IFD0", "ExifIFD", "GPS", "InteropIFD", "IFD1"}),
        ("gps", {"GPS"}),
        ("gps:*", {"GPS"}),
        ("XMP-*:*", {"XMP-dc", "XMP-xmp", "XMP-crs", "XMP-exif", "XMP-tiff", "XMP-Iptc4xmpCore"}),
    ],
)
def test_groups(pattern, groups, folder, compared):
    compared(a=SMALL_JPEG, b=by_exiftool(folder))
    assert {it.partition(":")[0] for it in compared("--only", pattern)[2]} == groups
    assert {it.partition(":")[0] for it in compared("--ignore", pattern)[2]} & groups == set()


# Names that are no field's


def test_an_empty_name(run):
    status, lines, err = run("compare", "a.jpg", "b.jpg", "--ignore", " ", a=SMALL_JPEG, b=SMALL_JPEG)
    assert (status, lines, err.count("\n")) == (3, [], 1)


def test_files_of_names(run, folder, compared):
    one, two = jpeg(app1(exif(b"abc")), app1_xmp(xmp("<dc:format>a</dc:format>"))), jpeg(
        app1(exif(b"xyz")), app1_xmp(xmp("<dc:format>b</dc:format>"))
    )
    (folder / "names").write_bytes(b"\xef\xbb\xbf# a comment\r\n  IFD0:Make  \r\n\r\ndc:format\n")
    assert compared("--ignore", "@names", a=one, b=two)[:3] == (0, BUT, [])
    assert compared("--only", "@names")[2] == ["IFD0:Make", "XMP-dc:format"]
    (folder / "wrong").write_bytes(b"Make\xff")
    for name in ("wrong", "missing", "."):
        status, lines, err = run("compare", "a.jpg", "b.jpg", "--ignore", f"@{name}")
        assert (status, lines, err.count("\n")) == (3, [], 1)


# What every save changes


@needs("exiftool")
def test_saves_are_dates_of_changes_and_identifiers(folder, compared):
    """A save by a program that keeps a history; each other date, person and identifier still counts."""
    (folder / "a.jpg").write_bytes(SMALL_JPEG)
    both = ["-XMP-xmp:CreateDate=2020:01:01 10:00:00", "-DateTimeOriginal=2020:01:01 10:00:00", "-XMP-xmpMM:DocumentID=xmp.did:1"]
    tool(folder, "exiftool", "-q", "-overwrite_original", *both, "-XMP-xmpMM:InstanceID=xmp.iid:1", "-ThumbnailImage<=a.jpg", "a.jpg")
    shutil.copy(folder / "a.jpg", folder / "b.jpg")
    dates = [
        f"-{tag}=2024:01:01 10:00:00"
        for tag in ("ModifyDate", "XMP-xmp:ModifyDate", "XMP-xmp:MetadataDate", "XMP-tiff:DateTime", "IFD1:ModifyDate")
    ]
    more = ["-SubSecTime=12", "-OffsetTime=+01:00", "-XMP-xmpMM:InstanceID=xmp.iid:2", "-XMP-xmpMM:HistoryAction=saved"]
    tool(folder, "exiftool", "-q", "-overwrite_original", *dates, *more, "b.jpg")
    status, result, names, left = compared("--ignore", "saves")
    assert (status, result, names) == (0, BUT, [])
    assert sorted(left) == sorted(SAVES)
    for tag in (
        "-Artist=A",
        "-DateTimeOriginal=2021:01:01 10:00:00",
        "-CreateDate=2021:01:01 10:00:00",
        "-XMP-xmpMM:DocumentID=2",
        "-Software=X",
    ):
        tool(folder, "exiftool", "-q", "-o", "c.jpg", tag, "b.jpg")
        os.replace(folder / "c.jpg", folder / "d.jpg")
        assert compared("--ignore", "saves", b=(folder / "d.jpg").read_bytes())[:2] == (1, "different"), tag
        tool(folder, "exiftool", "-q", "-overwrite_original", *dates, *more, "b.jpg")


# The same verdict as if the fields weren't there


@needs("exiftool")
def test_as_if_exiftool_had_removed_the_fields(folder, compared):
    """Two pictures are the same but for some fields exactly if they are the same once ExifTool has removed these fields from both."""
    (folder / "p.jpg").write_bytes(by_exiftool(folder))
    edits = [["-Artist=Otto"], ["-IPTC:Keywords+=jug"], ["-XMP-dc:Title=Jug"], ["-Artist=Otto", "-XMP-crs:Version=2"]]
    ignored = [["IFD0:Artist"], ["IPTC:Keywords"], ["XMP-dc:Title", "XMP-crs:Version"], ["IFD0:Artist", "XMP-crs:Version", "IPTC:Keywords"]]
    names = ["p.jpg", *(f"{number}.jpg" for number in range(len(edits)))]
    for edit, name in zip(edits, names[1:]):
        tool(folder, "exiftool", "-q", "-m", "-o", name, *edit, "p.jpg")
    for tags in ignored:
        tool(folder, "exiftool", "-q", "-m", "-o", "bare/", *(f"-{tag}=" for tag in tags), *names)
        whole, bare = ([(at / name).read_bytes() for name in names] for at in (folder, folder / "bare"))
        shutil.rmtree(folder / "bare")
        for number, edit in enumerate(edits, 1):
            expected = compared(a=bare[0], b=bare[number])[1] == "same"
            status, result, _, _ = compared(*(word for tag in tags for word in ("--ignore", tag)), a=whole[0], b=whole[number])
            assert (status, result) == ((0, BUT) if expected else (1, "different")), (edit, tags)


# What can't be left out


def test_a_refused_block_is_hidden_only_if_its_whole_kind_is_left_out(compared):
    bad, good = jpeg(app1(BLOCKS["HeaderCut"]), with_record(iim(b"a"))), jpeg(app1(exif(b"abc")), with_record(iim(b"a")))
    assert compared(a=bad, b=good)[:2] == (2, "refused")
    assert compared("--ignore", "Make", "--ignore", "GPS")[:2] == (2, "refused")
    for words in (("--ignore", "Exif"), ("--only", "IPTC"), ("--only", "2:25", "--only", "xmp")):
        status, result, names, left = compared(*words)
        assert (status, result, names, left) == (0, BUT, [], ["Exif"]), words


def test_parts_that_were_not_read_are_never_left_out(compared):
    one = jpeg(app1(exif(b"abc")))
    assert compared("--ignore", "*", a=one, b=one + b"trailer")[:2] == (2, "not wholly read")
    assert compared("--ignore", "IPTC")[:2] == (2, "not wholly read")


def test_what_stands_for_more_fields_than_are_kept_always_counts():
    choice = Choice(only=["Artist"])
    assert choice.counts("iptc", "more") and choice.counts("", "") and not choice.counts("iptc", "2:25")


# Equal numbers


def numbers(*values):
    """A block with an exposure time."""
    directory = table([entry(0x829A, 5, 1, 44)])
    return block([entry(0x8769, LONG, 1, 26)]) + directory + struct.pack(">II", *values)


# same


def made_pictures():
    """Pictures with Exif, IPTC and XMP in some combinations, also refused ones."""
    exifs = [app1(exif(b"abc")), app1(exif(b"xyz")), app1(block([MAKE, entry(0x0112, 3, 1, 1 << 16)])), app1(BLOCKS["Doubled"]), b""]
    exifs += [app1(numbers(10, 1250)), app1(numbers(1, 125))]
    records = [with_record(iim(b"Vase")), with_record(iim(b"Krug")), with_record(iim(b"Vase") + b"\x1c\2\x50\0\4Anna"), b""]
    packets = [app1_xmp(xmp("<dc:format>a</dc:format>")), app1_xmp(xmp("<dc:format>a</dc:format><dc:source>b</dc:source>")), b""]
    chosen = [
        (0, 0, 0),
        (1, 0, 0),
        (2, 0, 0),
        (0, 1, 1),
        (0, 2, 0),
        (3, 0, 0),
        (3, 0, 2),
        (4, 0, 0),
        (4, 3, 0),
        (4, 1, 2),
        (5, 3, 2),
        (6, 3, 2),
    ]
    return [jpeg(*filter(None, (exifs[one], records[two], packets[three]))) for one, two, three in chosen]


CHOICES = [
    ["--ignore", "Make"],
    ["--ignore", "Make", "--ignore", "IFD0:Orientation", "--ignore", "dc:source"],
    ["--only", "IPTC:Keywords"],
    ["--only", "Exif"],
    ["--ignore", "Exif", "--ignore", "XMP"],
    ["--ignore", "By-line", "--equal-numbers"],
    ["--only", "ExposureTime", "--equal-numbers"],
]


@pytest.mark.parametrize("words", CHOICES, ids=" ".join)
def test_groups_are_those_of_compare(words, run, folder):
    """Two pictures are in a group exactly if `compare` has no difference for them by the fields that count."""
    put(folder, {f"p/{number:02}.jpg": octets for number, octets in enumerate(made_pictures())})
    names = sorted(os.listdir(folder / "p"))
    run("index", "p", "--catalogue", "c", "--quiet", "--jobs", "1")
    *found, _ = (json.loads(it) for it in run("same", "c", "--json", *words)[1])
    together = {frozenset(os.path.basename(it["path"]) for it in one["pictures"]) for one in found if one["basis"] != "repair"}
    pairs = {(one, other) for one in names for other in names if one < other}
    same = {pair for pair in pairs if any({*pair} <= group for group in together)}
    expected = set()
    for one, other in pairs:
        result = json.loads(run("compare", f"p/{one}", f"p/{other}", "--json", *words)[1][0])["result"]
        if result in ("same", BUT, "the same but for how equal numbers are written", "refused, the same bytes"):
            expected.add((one, other))
    # pictures without any field that counts are in no group
    empty = {
        it for it in names if json.loads(run("compare", f"p/{it}", "a.jpg", "--json", *words, a=jpeg())[1][0])["result"] in ("same", BUT)
    }
    assert same == {pair for pair in expected if not {*pair} <= empty}


def test_a_group_by_fields_is_never_proved_and_keeps_nothing(run, folder):
    put(
        folder,
        {
            **{f"p/{name}": jpeg(app1(exif(octets)), with_record(iim(b"Vase"))) for name, octets in {"a": b"abc", "b": b"xyz"}.items()},
            "p/c": jpeg(app1(exif(b"abc")), with_record(iim(b"Vase"))),
        },
    )
    run("index", "p", "--catalogue", "c", "--quiet")
    group, last = (json.loads(it) for it in run("same", "c", "--json", "--ignore", "Make")[1])
    assert (group["basis"], group["digests"], group["wholly_read"]) == ("fields", {}, False)
    assert group["description"] == "IPTC is the same byte for byte, but for the fields left out"
    assert [it["keep"] for it in group["pictures"]] == [None] * 3 and last["groups"] == 1
    lines = run("same", "c", "--ignore", "Make")[1]
    assert lines[-1] == "A result with fields left out is tested, and not proved."
    (group, _) = (json.loads(it) for it in run("same", "c", "--json", "--ignore", "Artist")[1])
    assert (group["basis"], group["count"]) == ("meaning", 2)
    for words, status in ((["--ignore", "*"], 3), (["--ignore", "Makr"], 3), (["--kind", "iptc", "--only", "dc:title"], 3)):
        assert run("same", "c", *words)[0] == status, words


# report


def test_pictures_that_differ_in_what_no_field_shows_are_no_group(called, folder, indexed):
    """Two digests, and one listing: what differs isn't known, so nothing can be left out."""
    indexed({f"{name}": jpeg(app1(exif(b"abc"))) for name in ("a", "b")})
    assert called("same", "c", "--ignore", "Artist")[1].splitlines()[-2] == "1 group of 2 pictures"
    sql_rows(folder / "c", "UPDATE pictures SET exif = 'other' WHERE id = 1")
    sql_rows(folder / "c", "UPDATE blocks SET digest = 'other' WHERE picture = 1")
    for words in ([], ["--ignore", "Artist"], ["--ignore", "Make"]):
        assert called("same", "c", *words)[1].splitlines()[0] == "0 groups of 0 pictures", words


# ---- Names of fields in other programs: each that ExifTool and exiv2 have for a field of the standards is known, and finds it in pictures.

RECORDS = {"EnvelopeRecord": 1, "ApplicationRecord": 2, "NewsPhoto": 3, "PreObjectData": 7, "ObjectData": 8, "PostObjectData": 9}
# ExifTool's groups of XMP whose names aren't in the table: lists of a program's own settings, and flattened structures of them
LEFT_OUT = "crd crs dwc Device ics swf cell x".split()
PREFIXES = {"iptcCore": "Iptc4xmpCore", "iptcExt": "Iptc4xmpExt", "microsoft": "MicrosoftPhoto"}


def listed(*groups):
    """The tags that ExifTool lists: the table, the group, the identifier and the name of each."""
    for group in groups:
        printed = subprocess.run(["exiftool", "-config", "", "-listx", "-s", f"-{group}:all"], capture_output=True).stdout
        for of_table in ET.fromstring(printed).iter("table"):
            for tag in of_table.iter("tag"):
                yield of_table.get("name"), tag.get("g1") or of_table.get("g1"), tag.get("id"), tag.get("name")


def fields_of_exiftool():
    """The fields of Exif, IPTC and XMP that ExifTool knows, each with the name that it prints."""
    for of_table, group, key, name in listed("EXIF", "IPTC", "XMP"):
        kind, _, rest = of_table.partition("::")
        if of_table == "Exif::Main":
            number = f"{int(key, 0):04x}"
            yield from [("interop", number, name)] if int(key, 0) in (1, 2, 0x1000, 0x1001, 0x1002) else [
                (where, number, name) for where in ("main", "exif")
            ]
        elif of_table == "GPS::Main":
            yield "gps", f"{int(key, 0):04x}", name
        elif kind == "IPTC" and key.isdigit():
            yield "iptc", f"{RECORDS[rest]}:{key}", name
        elif group.startswith("XMP-") and group[4:] not in LEFT_OUT:
            yield "xmp", f"{PREFIXES.get(group[4:], group[4:])}:{key}", name


@needs("exiftool")
def test_each_name_of_exiftool_is_one_of_its_field():
    missing = []
    for where, key, name in fields_of_exiftool():
        names, _, others = names_and_groups(where, key)
        if not {name.casefold()} & (names | others):
            missing.append((where, key, name))
    assert not missing


WRITTEN = """-IFD0:Artist=A -ExifIFD:FNumber=8 -ExifIFD:CreateDate=2019:03:12 -ExifIFD:ISO=200 -ExifIFD:ExifImageWidth=9 -GPSAltitude=3
-IPTC:Caption-Abstract=C -IPTC:By-line=B -XMP-dc:Title=T -XMP-dc:Subject=S -XMP-iptcExt:DigitalSourceType=x -XMP-iptcCore:CreatorCity=K
-XMP-iptcExt:LocationCreatedCity=L -XMP-plus:LicenseEndDate=2026:12:03 -XMP-exif:ExifImageWidth=7 -XMP-mwg-rs:RegionName=R"""


@pytest.fixture
def picture(folder):
    put(folder, {"a.jpg": SMALL_JPEG})
    tool(folder, "exiftool", "-q", "-overwrite_original", *WRITTEN.split(), "a.jpg")
    return exifnorm.read(folder / "a.jpg")


@needs("exiftool", "exiv2")
def test_each_key_that_exiftool_and_exiv2_print_is_found(folder, picture):
    keys = []
    for group in ("-G1", "-G", "-a"):
        words = ["exiftool", "-config", "", "-s", group, "-EXIF:all", "-IPTC:all", "-XMP:all", "a.jpg"]
        lines = subprocess.run(words, cwd=folder, capture_output=True, check=True, text=True).stdout.splitlines()
        keys += [re.sub(r"(?:\[(.*?)\]\s*)?(\S+)\s*:.*", lambda it: f"{it[1]}:{it[2]}" if it[1] else it[2], line) for line in lines]
    printed = subprocess.run(["exiv2", "-PEIXk", "a.jpg"], cwd=folder, capture_output=True, check=True, text=True).stdout.split()
    keys += [it for it in printed if not re.search(r"\[|/|Tag$|XMPToolkit", it)]  # no members, and no pointers to directories
    assert len(keys) > 60
    assert [it for it in keys if it not in picture and not it.endswith("XMPToolkit")] == []


# ---- The labels of `captions` as words of --only and --ignore: each stands for its fields over Exif, IPTC and XMP. ExifTool writes the fields.

VALUES = {"date created": "2001:02:03 04:05:06", "position": "12.5", "rights end": "2001:02:03", "embargo": "2001:02:03"}
BASE = jpeg(with_texts(artist=b"Anna"), with_record(data_set(15, b"one")))


def test_each_label_has_its_row_and_its_documents(checks):
    """A new label needs its fields in labelled_fields.py, and a place in the documents that list the labels."""
    for label in fields_by_label():
        checks.check(label, label in FIELDS, "it has no fields in labelled_fields.py")
        pages = ("docs/exifnorm-pictures.1",) if label in (POSITION, *OF_FIELDS) else ("docs/CATALOGUE.md", "docs/exifnorm-pictures.1")
        for page in pages:
            checks.check(label, label in (Path(TOP) / page).read_text(encoding="utf-8"), f"{page} doesn't name it")


@needs("exiftool")
def test_each_field_of_a_label(folder, called):
    """A field that is added counts with --only LABEL, and nothing counts with --ignore LABEL, whatever is added."""
    names = {f"{label}-{at}.jpg": (label, field) for label, fields in FIELDS.items() for at, field in enumerate(fields)}
    put(folder / "before", {it: BASE for it in names})
    put(folder / "after", {it: BASE for it in names})
    words = [f"-{field}={VALUES.get(label, 'Other')}\n{folder}/after/{name}\n-execute" for name, (label, field) in names.items()]
    (folder / "words").write_text("\n".join(words), encoding="utf-8")
    subprocess.run(["exiftool", "-q", "-@", "words", "-common_args", "-overwrite_original"], cwd=folder, check=True, capture_output=True)
    for side in ("before", "after"):  # so that each picture is read once, and not for each label
        called("index", side, "--catalogue", f"{side}.c", "--quiet", "--no-programs")
    for label in filter(FIELDS.get, FIELDS):
        ours = [name for name, (of, _) in names.items() if of == label]
        (folder / "list").write_text("".join(f"{it}\n" for it in ours), encoding="utf-8")
        status, printed, _ = called("changed", "before.c", "after.c", "--only", label, "--files-from", "list", "--no-programs")
        assert status == 1 and printed.startswith(f"{len(ours)} picture") and ("all changed" in printed or "1 changed" in printed), printed
        assert f"{label} stands for " in printed
        ignored = ["--ignore", label.upper().replace(" ", "-"), "--ignore", "IPTC:EnvelopeRecordVersion", "--ignore", "XMP-x:*"]
        printed = called("changed", "before.c", "after.c", *ignored, "--files-from", "list", "--no-programs", "--json")[1]
        assert f'"{FIELDS[label][0]}' not in printed.split('"left_out"')[0], printed


def test_what_is_no_label(folder, called):
    for rule, said in (
        ("labels agree except Artist", "is none of the labels that are compared: title, "),
        ("labels agree except creatr", "perhaps creator is meant"),
        ("creatr agree", "perhaps creator is meant"),
        ("serial agree", "is none of the labels that are compared"),
    ):
        (folder / "rules").write_text(rule, encoding="ascii")
        status, _, messages = called("check", ".", "--rules", "rules")
        assert status == 3 and said in messages, rule
