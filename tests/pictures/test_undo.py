"""`changed --undo`: ExifTool with these arguments puts the earlier texts back, and nothing else."""

import json
import re
import shutil
import subprocess

import made_museum
import pytest
from exifnorm_pictures.comparison.wording import FieldDifference
from exifnorm_pictures.comparison.changed.edits import BY_THEMSELVES
from exifnorm_pictures.comparison.changed.undo import arguments
from exifnorm_pictures.fields.field import Field
from exifnorm_pictures.fields.labels import label_of_fields
from exifnorm_pictures.model.texts import escaped
from exifnorm_pictures.model.xmp_values import Array, Literal
from hypothesis import given, strategies as st
from made_files import app1_xmp, jpeg, xmp
from made_museum import languages
from studio import TOP, needs, put

EDITS = {
    "one batch": """-XMP-dc:Title=X -XMP-dc:Title-fr=Y -XMP-dc:Subject=c -IPTC:Keywords=q -IFD0:Artist=Otto
        -IFD0:Copyright=new -XMP-dc:Creator=Me -IPTC:By-line=Me -IPTC:Caption-Abstract=zz -XMP-iptcExt:PersonInImage=A""",
    "removed": "-XMP-dc:all= -IPTC:all= -IFD0:Artist= -ExifIFD:UserComment= -XMP-photoshop:all=",
    "in UTF-8": "-IPTC:CodedCharacterSet=UTF8 -IPTC:By-line=Zoë -IPTC:Credit=Łódź -IFD0:XPTitle=Zoë -ExifIFD:UserComment=Zoë",
    "dates": """-IPTC:DateCreated=2020:01:02 -IPTC:TimeCreated=11:12:13+00:00 -ExifIFD:DateTimeOriginal=2020:01:02\u00a011:12:13
        -XMP-photoshop:DateCreated=2020:01 -XMP-exif:DateTimeOriginal=2020 -XMP-plus:LicenseEndDate=2020:01:02""",
}
# What is no text, and what ExifTool adds to blocks that it writes
BY_EXIFTOOL = {
    *BY_THEMSELVES,
    "IFD0:YCbCrPositioning",
    "IFD0:XResolution",
    "IFD0:YResolution",
    "IFD0:ResolutionUnit",
    "IPTC:CodedCharacterSet",
}
BY_EXIFTOOL |= {f"ExifIFD:{it}" for it in ("ExifVersion", "FlashpixVersion", "ColorSpace", "ComponentsConfiguration")}
TEXTS = ("-EXIF:all", "-IPTC:all", "-XMP:all")


def exiftool(folder, *words):
    ended = subprocess.run(["exiftool", "-config", "", *words], cwd=folder, capture_output=True)
    return ended.stdout.decode("utf-8", "replace"), ended.stderr.decode("utf-8", "replace")


def fields_of(called, before, after):
    """The fields of each picture that have other texts, by its name before."""
    objects = map(json.loads, called("changed", before, after, "--json", "--no-programs")[1].splitlines())
    return {it["path"]: {one["name"] for one in it["fields"] if has_changed(one)} for it in objects if it["record"] == "picture"}


def has_changed(field):
    before, after = ((field[side] or {}).get("value") for side in ("before", "after"))
    return before != after


def read_by_exiftool(folder, paths):
    """What ExifTool reads."""
    found = json.loads(exiftool(folder, "-j", "-a", "-G1", "-n", "-struct", *TEXTS, *paths)[0] or "[]")
    return {it.pop("SourceFile"): it for it in found}


def bare(name):
    """A name without its group and block."""
    return name.partition(" (")[0].rpartition(":")[2].casefold()


LABELLED = set(map(bare, label_of_fields()))


def has_label(name):
    return bare(name) in LABELLED


def put_back(called, folder, before, after):
    """The arguments for a copy, on which they are run, and the fields that each picture keeps."""
    shutil.rmtree(folder / "back", ignore_errors=True)
    shutil.copytree(folder / after, folder / "back", symlinks=True)
    status, _, said = called("changed", before, after, "--undo", "args", "--json", "--no-programs")
    written = (folder / "args").read_bytes().decode("utf-8", "surrogateescape")
    kept = {it[1]: it[2].split(", ") for it in re.finditer("^# left as it is: (.*): (.*)$", written, re.M)}
    assert (status == 2) or not kept, said
    said = exiftool(folder / "back", "-q", "-@", str(folder / "args"), "-common_args", "-overwrite_original")[1]
    assert not re.search("not defined|Invalid|limit|truncated|Malformed|not in list", said), said
    return written, kept, set(re.findall(r"^Error: .* - \./(.*)$", said, re.M))


def check(called, folder, before, after):
    """What isn't as it should be, once ExifTool has put the texts back; and the pictures that it could write."""
    written, kept, unwritten = put_back(called, folder, before, after)
    changed, left, touched = (fields_of(called, *it) for it in ((before, after), (before, "back"), (after, "back")))
    wrong = []
    for path in changed.keys() - unwritten:
        due, known = set(filter(has_label, changed[path])), set(kept.get(escaped(path), ()))
        wrong += [(path, "isn't put back", it) for it in set(filter(has_label, left.get(path, ()))) - known]
        wrong += [(path, "is changed, too", it) for it in set(touched.get(path, ())) - due - BY_EXIFTOOL]
        wrong += [(path, "was never written", it) for it in due - set(touched.get(path, ())) - known]
    names = sorted({it[1] for it in re.finditer(r"^\./(.*)$", written, re.M)} - unwritten)
    tags = {it[1].casefold() for it in re.finditer(r"^-([\w-]+:[\w-]+?)(-[a-z]{2})?#?\^?=", written, re.M)}
    earlier, now = (read_by_exiftool(folder / it, [f"./{name}" for name in names]) for it in (before, "back"))
    for path in earlier:
        known = {bare(it) for it in kept.get(escaped(path[2:]), ())}
        for tag in {*earlier[path], *now[path]}:
            if tag.casefold() in tags and bare(tag) not in known and earlier[path].get(tag) != now[path].get(tag):
                wrong.append((path, "ExifTool reads", tag, earlier[path].get(tag), now[path].get(tag)))
    return wrong, names, kept, unwritten


@pytest.mark.parametrize("edit", EDITS)
def test_edits_of_the_museum(edit, folder, called):
    needs("exiftool")
    texts = {name: octets for name, octets in made_museum.texts().items() if name != "texts/not-utf8.jpg"}  # which ExifTool can't read
    files = {**texts, **made_museum.in_each_format("A bowl"), **made_museum.odd_names()}
    made_museum.put("first", {**files, **made_museum.contradictions()})
    shutil.copytree(f"{TOP}/samples/before", "first/samples")
    shutil.copytree("first", "second", symlinks=True)
    exiftool(folder, "-q", "-r", "-m", "-overwrite_original", *(it.replace("\u00a0", " ") for it in EDITS[edit].split()), "second")
    wrong, names, kept, unwritten = check(called, folder, "first", "second")
    assert not wrong, "\n".join(map(str, wrong))
    assert len(names) > 40 and unwritten <= {"formats/camera.nef"}  # whose MakerNote ExifTool can't parse
    assert "odd/new\\nline.jpg" in kept and "./odd/-x.jpg" in {f"./{it}" for it in names}


@given(st.text(), st.text(max_size=5), st.binary(min_size=1).filter(lambda it: b"\0" not in it))
def test_no_text_is_an_argument_of_its_own(text, language, place):
    """Whatever a stranger's text, language or name is: a line is an option of these, an assignment that means the text, or the name."""
    titles = (Array("Alt", (Literal(text, language),)),)
    lines, left = arguments(place, [FieldDifference("xmp", "dc:title", (Field("xmp", "dc:title", "Alt", 1, titles),), ())])
    assert bool(lines) != bool(left)
    for line in lines:
        assert b"\n" not in line and b"\r" not in line
        if line.startswith(b"-XMP-dc:title"):
            tag, _, value = line.decode("utf-8").partition("=")
            assert re.fullmatch("-XMP-dc:title(-[A-Za-z0-9-]+)?[#^]?", tag)
            assert value == "" or re.sub("&#([0-9]+);", lambda it: chr(int(it[1])), value) == text
        else:
            assert line in (b"-E", b"-charset", b"iptc=UTF8", b"-execute") or line[:1] in b"./"


def test_nothing_else_is_replaced(folder, called):
    """FILE replaces an earlier one, and no picture, catalogue or other file; partners by name aren't put back."""
    for side, text in (("a", "one"), ("b", "two")):
        put(folder / side, {"1.jpg": jpeg(app1_xmp(xmp(languages("title", x_default=text)))), "2.jpg": jpeg(app1_xmp(xmp("")))})
        called("index", side, "--catalogue", f"{side}.catalogue", "--quiet")
    sides = ("a.catalogue", "b.catalogue")
    (folder / "notes").write_text("mine")
    for name in ("b/1.jpg", "b.catalogue", "notes"):
        before = (folder / name).read_bytes()
        status, _, said = called("changed", *sides, "--undo", name)
        assert status == 4 and f"{name} isn't written" in said and (folder / name).read_bytes() == before
    assert called("changed", *sides, "--undo", "args")[0] == 1
    lines = (folder / "args").read_text().splitlines()
    assert lines[1:] == ["-E", "-charset", "iptc=UTF8", "-XMP-dc:title=", "-XMP-dc:title#=one", "./1.jpg", "-execute"]
    assert called("changed", "a.catalogue", "a.catalogue", "--undo", "args")[0] == 0
    assert (folder / "args").read_text().splitlines() == lines[:1]
    (folder / "b" / "1.jpg").unlink()
    status, printed, _ = called("changed", "a", "b", "--undo", "args")
    assert status == 2 and "  1.jpg: the picture is missing" in printed
