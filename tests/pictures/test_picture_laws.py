"""Laws over made pictures: texts in Exif, IPTC and XMP, in some format, perhaps with a fault. What a catalogue keeps is what is read; catalogues
that are merged are one; what has changed there has changed back; and each edit is named by its field, in every form."""

import contextlib
import csv
import json
import shutil
from collections import Counter

import pytest
from exifnorm_pictures.extract import extraction
from exifnorm_pictures.extract.formats.streams import File
from exifnorm_pictures.fields.labels import label_of_fields
from exifnorm_pictures.files import opening
from exifnorm_pictures.model.budgets import Budget
from growing import FORMATS, Parts
from hypothesis import HealthCheck, given, settings, strategies as st
from made_blocks import ASCII, BLOCKS, with_exif
from made_files import app1, app1_xmp, jpeg, with_record, xmp
from made_museum import UTF8, dataset, picture, put
from museum import run, standing_clock
from studio import needs

# The fields by the name that is printed: the kind of block and what is in it
EXIF = {"IFD0:ImageDescription": 0x010E, "IFD0:Artist": 0x013B, "IFD0:Copyright": 0x8298}
IPTC = {
    "IPTC:ObjectName": 5,
    "IPTC:Keywords": 25,
    "IPTC:By-line": 80,
    "IPTC:City": 90,
    "IPTC:Credit": 110,
    "IPTC:CopyrightNotice": 116,
    "IPTC:Caption-Abstract": 120,
}
XMP = {"XMP-dc:title": "Alt", "XMP-dc:creator": "Seq", "XMP-dc:subject": "Bag", "XMP-photoshop:City": "", "XMP-photoshop:Credit": ""}
NAMES = (*EXIF, *IPTC, *XMP)
WORDS = ("Anna Moor", "Zoë", "a bowl", "東", "=1+2", "x" * 33, "one; two", "SANYO DIGITAL CAMERA", "Ä" * 200)
WITH_ALL = ("jpg", "png", "tif", "psd")  # the formats that have blocks of all kinds
FAULTS = ("", "", "", "trailer", "cut", "refused")
TEXTS = st.dictionaries(st.sampled_from(NAMES), st.sampled_from(WORDS), min_size=1)
MAKE = ((0x010F, ASCII, b"Leica\0"),)
ENTITIES = {"Alt": "<rdf:Alt><rdf:li xml:lang='x-default'>{}</rdf:li></rdf:Alt>", "": "{}"}
ENTITIES.update({kind: f"<rdf:{kind}><rdf:li>{{}}</rdf:li></rdf:{kind}>" for kind in ("Seq", "Bag")})
FEW = settings(
    max_examples=settings.default.max_examples // 20, suppress_health_check=[HealthCheck.function_scoped_fixture]
)  # each makes an archive, and calls some ten commands


def made(texts, ending="jpg", fault="", number=0):
    """A picture with these texts; a JPEG of each number has another picture."""
    entries = [(tag, ASCII, texts[name].encode() + b"\0") for name, tag in EXIF.items() if name in texts]
    record = UTF8 + b"".join(dataset(tag, texts[name]) for name, tag in IPTC.items() if name in texts)
    inside = "".join(f"<{name[4:]}>{ENTITIES[kind].format(texts[name])}</{name[4:]}>" for name, kind in XMP.items() if name in texts)
    parts = Parts(tuple(entries) or MAKE, record, (xmp(inside, "", "xmlns:photoshop='http://ns.adobe.com/photoshop/1.0/'"),))
    if fault == "refused":
        return with_exif(picture(number), BLOCKS["Unsorted"])
    if ending == "jpg":
        octets = jpeg(app1(parts.exif), with_record(record), app1_xmp(parts.packets[0]), base=picture(number))
    else:
        octets = next(make for known, make in FORMATS.values() if known == ending)(parts)
    return {"trailer": octets + b"no known bytes", "cut": octets[:-7]}.get(fault, octets)


PICTURES = st.lists(st.tuples(TEXTS, st.sampled_from(WITH_ALL), st.sampled_from(FAULTS)), min_size=3, max_size=5)


class Archive:
    """A folder of its own for an example, in which commands are called."""

    def __init__(self, folder):
        self.folder = folder
        for path in folder.iterdir():
            shutil.rmtree(path) if path.is_dir() else path.unlink()

    def put(self, name, pictures):
        files = {f"{number // 2}/{number}": made(*it, number) for number, it in enumerate(pictures)}  # of any format under one name
        put(self.folder / name, files)

    def lines(self, line, status=None):
        ended, lines, messages = run(line, self.folder)
        assert ended in ((0, 1, 2) if status is None else (status,)), (line, ended, lines, messages)
        return lines

    def objects(self, line):
        return [json.loads(it) for it in self.lines(f"{line} --json")]


@pytest.fixture
def in_archive(folder):
    with standing_clock(), contextlib.chdir(folder):
        yield lambda: Archive(folder)


def by_name(objects):
    """What is said of each picture, by its name without the folder."""
    return {it["path"].rpartition("/")[2]: {**it, "path": ""} for it in objects if "path" in it}


@needs("exiftool")
@FEW
@given(before=PICTURES, after=PICTURES)
def test_what_is_kept_prints_as_what_is_read(before, after, in_archive):
    archive = in_archive()
    for name, pictures in (("p", before), ("q", after)):
        archive.put(name, pictures)
        archive.lines(f"index {name} --jobs 1 --catalogue {name}.c --quiet --pixels")
    for command in ("show --captions", "check"):
        read, kept = (archive.objects(f"{command} {name}") for name in ("p", "p.c"))
        assert by_name(read) == by_name(kept), command
    for words in (
        "",
        "--columns title,creator,keywords,copyright,city",
        '--where \'creator = "Anna Moor" or not title like "a*"\'',
        "--count creator",
    ):
        assert archive.lines(f"list p --jobs 1 {words}") == archive.lines(f"list p.c {words}"), words
    for words in ("--all", "--all --csv", "", "--only creator --json", "--ignore 'IPTC:*' --each"):
        changes = archive.lines(f"changed p.c q.c {words}")
        read = archive.lines(f"changed p q --jobs 1 --quiet --pixels {words}")
        assert [it.replace(": --pixels compares", ": index --pixels compares") for it in read] == changes, words
    forms = counts_of_fields(archive)
    assert all(counts == forms["--json"] for counts in forms.values()), forms
    *changes, summary = archive.objects("changed p.c q.c --all")
    both = Counter(it["coded_picture"] for it in changes if "path" in it and not (it["moved_to"] or it["result"].startswith("missing")))
    assert both == summary["coded_pictures"], (changes, summary)
    there, back = by_name(changes), by_name(archive.objects("changed q.c p.c --all"))
    for name in {*there} & {*back}:
        sides = (
            sorted((it["name"], json.dumps(it[a]), json.dumps(it[b])) for it in found["fields"])
            for found, a, b in both_ways(there[name], back[name])
        )
        assert len(set(map(tuple, sides))) == 1, name


def counts_of_fields(archive):
    """In how many pictures each field differs, by each form."""
    lines = {form: archive.lines(f"changed p.c q.c {form}") for form in ("--csv", "--json")}
    found = {"--csv": Counter(row["field"] for row in csv.DictReader(lines["--csv"]) if row["field"])}
    found["--json"] = Counter(field["name"] for it in map(json.loads, lines["--json"]) for field in it.get("fields", ()))
    return found


def both_ways(there, back):
    return (there, "before", "after"), (back, "after", "before")


@needs("exiftool")
@FEW
@given(pictures=PICTURES)
def test_two_merged_are_one_and_twice_is_once(pictures, in_archive):
    archive = in_archive()
    archive.put("p", pictures)
    archive.lines("index p --jobs 1 --catalogue whole --quiet --pixels")
    for part in ("0", "1"):
        archive.lines(f"index p/{part} --jobs 1 --catalogue {part}.c --quiet --pixels")
    others = [f"p/{part.name}" for part in (archive.folder / "p").iterdir() if part.name not in ("0", "1")]
    archive.lines(f"index {' '.join(others)} --jobs 1 --catalogue 1.c --quiet --pixels") if others else None
    archive.lines("catalogue merge 0.c 1.c --catalogue merged")
    asked = (
        *("same {}", "same --kind pixels {}", "list {} --columns title,creator", "check {}"),
        "show --captions --csv {}",
    )
    found = {line: archive.lines(line.format("whole")) for line in asked}
    assert {line: archive.lines(line.format("merged")) for line in asked} == found
    (summary,) = archive.objects("index p --jobs 1 --catalogue whole --quiet")[-1:]
    assert {*summary["counts"]} == {"unchanged"}, summary
    assert {line: archive.lines(line.format("whole")) for line in asked} == found


@needs("exiftool")
@FEW
@given(
    texts=st.lists(TEXTS, min_size=2, max_size=3),
    endings=st.tuples(*[st.sampled_from(WITH_ALL)] * 3),
    chosen=st.tuples(*[st.integers(0, 1)] * 3),
)
def test_whatever_is_the_same_as_two_makes_them_the_same(texts, endings, chosen, in_archive):
    """`compare` and the groups of `same` agree, in any format and whatever is asked first."""
    archive = in_archive()
    files = {f"{number}.{ending}": made(texts[at], ending, number=number) for number, (ending, at) in enumerate(zip(endings, chosen))}
    put(archive.folder / "p", files)
    results = {(a, b): archive.objects(f"compare p/{a} p/{b}")[0]["result"] for a in files for b in files if a != b}
    assert all(results[pair] == results[pair[::-1]] for pair in results)
    equal = {pair for pair, result in results.items() if result in ("same", "other picture, the same metadata")}
    assert all((a, d) in equal or a == d for a, b in equal for c, d in equal if b == c)
    archive.lines("index p --jobs 1 --catalogue c --quiet")
    groups = [
        [it["path"].rpartition("/")[2] for it in group["pictures"]] for group in archive.objects("same c") if group["record"] == "group"
    ]
    assert {(a, b) for group in groups for a in group for b in group if a != b} == equal


@needs("exiftool")
@FEW
@given(texts=TEXTS, name=st.sampled_from(NAMES), words=st.permutations(WORDS), ending=st.sampled_from(WITH_ALL))
def test_an_edit_is_named_by_its_field_in_every_form(texts, name, words, ending, in_archive):
    archive = in_archive()
    for side, word in zip(("p", "q"), words):
        put(archive.folder / side, {f"a.{ending}": made({**texts, name: word}, ending)})
        archive.lines(f"index {side} --jobs 1 --catalogue {side}.c --quiet")
    (change,) = by_name(archive.objects("changed p.c q.c")).values()
    assert change["result"] == "different" and {it["name"] for it in change["fields"]} == {name}
    assert {row["field"] for row in csv.DictReader(archive.lines("changed p.c q.c --csv", 1)) if row["picture"]} == {name}
    assert label_of_fields().get(name, name) in "\n".join(archive.lines("changed p.c q.c", 1))
    for line in ("changed p.c q.c --each", f"compare p/a.{ending} q/a.{ending}"):
        text = "\n".join(archive.lines(line, 1))
        assert name in text and not any(it in text for it in NAMES if it != name), line
    archive.lines("report q.c --since p.c --html page.html")
    assert name in (archive.folder / "page.html").read_text(encoding="utf-8")
    for words, status in ((f"--only '{name}'", 1), (f"--ignore '{name}'", 0)):
        archive.lines(f"changed p.c q.c {words}", status)
        archive.lines(f"compare p/a.{ending} q/a.{ending} {words}", status)


@needs("exiftool")
def test_a_picture_has_one_budget(folder):
    """What a reader, or ExifTool, has taken of it counts for its blocks, too."""
    parts = Parts(MAKE, UTF8, (xmp(""),))
    for ending, octets in (*((ending, make(parts)) for ending, make in FORMATS.values()), ("ppm", b"P6\n# a comment\n1 1 255\nabc")):
        path = folder / f"a.{ending}"
        path.write_bytes(octets)
        file = File(*opening.opened(bytes(path)), Budget())
        assert extraction.blocks_in(file, bytes(path)).budget is file.budget, ending
