"""`export`: the tables of a catalogue, read by SQLite, against what ExifTool reads of the same files."""

import json
import os
import sqlite3
from pathlib import Path

import pytest
from hypothesis import given, settings, strategies as st
from made_files import app1, app1_xmp, data_set, exif, jpeg, with_record, with_texts, xmp
from studio import SMALL_JPEG, TOP, needs, put, sql_rows, tool

from exifnorm_pictures.export.rows import FieldRows, Tables
from exifnorm_pictures.fields.field import Field
from exifnorm_pictures.fields.packing import packed, unpacked
from exifnorm_pictures.model.errors import Damaged
from exifnorm_pictures.model.xmp_values import Array, Literal, Structure, Uri

SAMPLES = os.path.join(TOP, "samples", "before")
LONG = "Ein Gefäß aus Köln, zerbrochen und geklebt. " * 20


@pytest.fixture
def run(called):
    """Runs a command in a folder: what it prints, and `status` is checked."""

    def call(*words, status=0):
        found, out, messages = called(*words)
        assert found == status, out + messages
        return out + messages

    return call


@pytest.fixture
def exported(run, folder):
    """The tables of a folder, or of some files."""

    def call(*names, words=()):
        run("index", *names, "--catalogue", "c", "--quiet", *words)
        run("catalogue", "export", "c", "t")
        return sqlite3.connect("t")

    return call


def asked(base, query, *values):
    return base.execute(query, values).fetchall()


# Against ExifTool


WRITTEN = {  # by ExifTool
    "languages": ["-XMP-dc:Title-de=Krug", "-XMP-dc:Title=Vase", "-XMP-dc:Description-fr=Vase", "-XMP-dc:Creator=A", "-XMP-dc:Creator=B"],
    "dates": [
        "-DateTimeOriginal=2003:05:24 22:21:01",
        "-SubSecTimeOriginal=25",
        "-OffsetTimeOriginal=+02:00",
        "-IPTC:DateCreated=2003:05:24",
    ]
    + ["-IPTC:TimeCreated=22:21:01+02:00", "-XMP-photoshop:DateCreated=2003:05:24 22:21:01+02:00"],
    "Windows": ["-IFD0:XPTitle=Krüge", "-IFD0:XPKeywords=a;b", "-IFD0:XPComment=x", "-IFD0:XPAuthor=Anna"],
    "comments": ["-UserComment=a comment", "-IFD0:ImageDescription= blanks  ", "-IFD0:Artist=Zürich"],
    "UTF-8": ["-IPTC:CodedCharacterSet=UTF8", "-IPTC:ObjectName=Köln", "-IPTC:Keywords=b", "-IPTC:Keywords=a", "-XMP-dc:Subject=b"],
    "Latin-1": ["-IPTC:ObjectName=Köln", "-IPTC:City=Köln", "-XMP-photoshop:City=Koln", "-XMP-xmpRights:UsageTerms=none"],
    "escapes": ['-IPTC:Headline=a "b" \\n c\\', '-XMP-photoshop:Headline=a "b" \\n c\\', "-IFD0:Copyright=A\u2028B"],
}


@needs("exiftool")
def test_captions_are_those_of_the_files(run, folder):
    """Though the catalogue has them in another form, which is all that --no-look reads."""
    (folder / "p").mkdir()
    (folder / "bare.jpg").write_bytes(SMALL_JPEG)
    for name, words in WRITTEN.items():
        tool(folder, "exiftool", "-q", "-codedcharacterset=", *words, "-o", f"p/{name}.jpg", "bare.jpg")
    items = "<rdf:li xml:lang='de'>Krug</rdf:li><rdf:li xml:lang='x-default'>Vase</rdf:li>"
    (folder / "p" / "order.jpg").write_bytes(jpeg(app1_xmp(xmp(f"<dc:title><rdf:Alt>{items}</rdf:Alt></dc:title>"))))
    found = [json.loads(it) for it in run("show", "--captions", "--json", "p").splitlines()]
    expected = {
        (os.path.basename(it["path"]), one["label"], one["field"], text, one["guess"])
        for it in found
        for one in it["captions"]
        for text in one["texts"]
    }
    assert {name for name, *_ in expected} == {f"{it}.jpg" for it in (*WRITTEN, "order")}
    run("index", "p", "--catalogue", "c", "--quiet")
    run("catalogue", "export", "c", "t", "--no-look")
    query = "SELECT replace(path, ? || '/p/', ''), label, field, text, guess FROM captions JOIN pictures ON id = picture"
    assert set(asked(sqlite3.connect("t"), query, str(folder))) == expected


# The page


@pytest.mark.parametrize(
    "query",
    [
        "SELECT picture FROM fields WHERE name = 'IFD0:Make'",
        "SELECT picture FROM fields WHERE name = 'IFD0:Make' AND value = 'Leica'",
        "SELECT value FROM pictures JOIN fields ON picture = id WHERE path = '/a.jpg'",
        "SELECT path FROM fields JOIN pictures ON id = picture WHERE name = 'IFD0:Make'",
        "SELECT path FROM captions JOIN pictures ON id = picture WHERE label = 'keywords' AND text = 'vase'",
        "SELECT number FROM groups WHERE picture = 1",
        "SELECT part FROM not_read WHERE picture = 1",
        "SELECT label FROM conflicts WHERE picture = 1",
    ],
)
def test_no_table_is_read_whole(query, exported):
    base = exported(SAMPLES)
    assert [it for *_, it in asked(base, f"EXPLAIN QUERY PLAN {query}") if it.startswith("SCAN")] == []


# Long texts


def with_long_texts(text=LONG):
    description = f"<dc:description><rdf:Alt><rdf:li xml:lang='x-default'>{text}</rdf:li></rdf:Alt></dc:description>"
    return jpeg(with_texts(artist=b"Anna"), with_record(data_set(120, text[:2000].encode("latin-1"))), app1_xmp(xmp(description)))


def test_enormous_texts_are_null(run):
    Path("a.jpg").write_bytes(with_long_texts("a" * 40_000 + " " + "b" * 20_000))
    Path("b.xmp").write_bytes(
        xmp("<dc:description><rdf:Alt><rdf:li xml:lang='x-default'>" + "a" * 70_000 + "</rdf:li></rdf:Alt></dc:description>")
    )
    run("index", ".", "--catalogue", "c", "--quiet")
    assert "1 picture has a text that is NULL: it is too long for the catalogue" in run("catalogue", "export", "c", "t")
    base = sqlite3.connect("t")
    assert sorted(asked(base, "SELECT standard, length(text) FROM captions WHERE label = 'caption'"), key=str) == [
        ("IPTC", 2000),
        ("XMP", 60_001),
        (None, None),
    ]


@pytest.mark.parametrize("left, rows, said", [(2, 2, ""), (1, 0, "1 group is left out, because its files are gone")])
def test_groups_whose_files_are_gone_are_counted(run, left, rows, said):
    for name in ("a.jpg", "b.jpg"):
        Path(name).write_bytes(jpeg(with_record(data_set(120, b"Vase"))))
    run("index", ".", "--catalogue", "c", "--quiet")
    if left == 1:
        Path("b.jpg").unlink()
    printed = run("catalogue", "export", "c", "t")
    assert asked(sqlite3.connect("t"), "SELECT count(*) FROM groups") == [(rows,)]
    assert said in printed and ("left out" in printed) == (said != "")
    assert json.loads(run("catalogue", "export", "c", "t", "--json"))["absent_groups"] == 2 - left
    assert "left out" not in run("catalogue", "export", "c", "t", "--no-look"), "nobody has looked at the files"


# Names and files


def test_a_failure_leaves_the_earlier_export(exported, run, folder, monkeypatch):
    Path("a.jpg").write_bytes(jpeg(app1(exif(b"abc"))))
    exported("a.jpg").close()
    before = Path("t").read_bytes()
    sql_rows("c", "UPDATE blocks SET fields = 1")
    assert "damaged" in run("catalogue", "export", "c", "t", status=4)
    assert Path("t").read_bytes() == before
    assert sorted(it.name for it in folder.iterdir()) == ["a.jpg", "c", "t"]


def test_texts_of_a_damaged_catalogue(exported, run):
    """Halves of characters, which XMP of a damaged catalogue may have."""
    Path("a.jpg").write_bytes(jpeg(app1(exif(b"abc"))))
    exported("a.jpg").close()
    sql_rows("c", "UPDATE blocks SET fields = CAST(? AS BLOB)", r'[["xmp","dc:source","text",1,["\ud800"]]]')
    run("catalogue", "export", "c", "t")
    assert asked(sqlite3.connect("t"), "SELECT value FROM fields") == [(r"\ud800",)]


def test_no_text_has_nul(exported, folder):
    """SQLite's functions and its shell would end a text there."""
    put(folder / "p", {"a.jpg": jpeg(with_texts(artist=b"a\0b\0c"), with_record(data_set(120, b"V\0\x1b=x")))})
    base = exported("p")
    for table in ("fields", "captions", "conflicts", "blocks"):
        for row in base.execute(f"SELECT * FROM {table}"):
            assert not any(isinstance(cell, str) and "\0" in cell for cell in row), (table, row)
    assert asked(base, "SELECT count(*) FROM captions WHERE text LIKE 'V_x00%=x'") == [(1,)]


WORDS = st.sampled_from(
    [Literal("a"), Literal("b"), Literal("b", "de"), Uri("b"), Literal("c" * 2000), Array("Bag", (Literal("a"), Literal("b")))]
)
MEMBERS = st.lists(WORDS, min_size=1, max_size=3).map(tuple)
VALUES = st.one_of(
    WORDS, st.builds(Array, st.sampled_from(["Alt", "Bag", "Seq"]), MEMBERS), WORDS.map(lambda it: Structure((("x:a", it),)))
)


def turned(value):
    """A value with the members of its lists in the other order, to which a Bag is equal."""
    if isinstance(value, Array):
        return Array(value.kind, tuple(map(turned, value.members[::-1])))
    return Structure(tuple((name, turned(it)) for name, it in value.members)) if isinstance(value, Structure) else value


CONTENTS = st.lists(st.one_of(VALUES, st.just(Literal("xmp", "dc:b")), st.just(Literal('"],["xmp","dc:b'))), min_size=1, max_size=3)


def texts_of_rows(rows):
    return [(row.cells[1:5], *row.cells[5:7]) for row in rows]


@settings(max_examples=50)
@given(st.lists(st.lists(CONTENTS, max_size=3), max_size=4))
def test_the_rows_of_a_block_do_not_depend_on_earlier_ones(blocks):
    """They are those of its fields: also where a value has what is between two fields, or is equal to an earlier one and printed in another
    way, as Bags with the same members in another order are."""
    rows = FieldRows()
    for contents in blocks:
        fields = [Field("xmp", "dc:a", "Bag", 1, tuple(it)) for content in contents for it in (content, list(map(turned, content)))]
        octets = packed(fields)[0]
        expected = [((it.directory, it.key, it.type, it.count), it.text, it.exact) for it in unpacked(octets)]
        assert texts_of_rows(rows.of_block(octets)) == expected


ONE_PROPERTY = b'[["xmp","dc:a","text",1,["b"]]]'
ONE_DATASET = b'[["iptc","2:5","octets",1,"b"]]'


@pytest.mark.parametrize(
    "octets",
    [
        b'[["dc:a","text",1,["b"]]]',  # a property without its directory
        b'[["xmp","iptc","2:5","octets",1,"b"]]',
        b'[["xmp","dc:a","text",true,["b"]]]',
        b'[["xmp","dc:a","text",1,["b"]],]',
        b'[["xmp","dc:a","text",1,["b"]]',
        b'[["xmp","dc:a","text",1,["b"]]] ["c"]]',
        b'[["iptc","2:5","octets",1,"\xe9"]]',
        b'[["iptc","2:5","octets",1,"b"],["xmp","dc:a","text",1,["b"]],7]',
        b'{"iptc": 1}',
        b" ",
    ],
)
def test_fields_that_a_damaged_catalogue_has(octets):
    """Earlier rows don't make a block whole that isn't."""
    rows = FieldRows()
    assert len(rows.of_block(ONE_PROPERTY)) == len(rows.of_block(ONE_DATASET)) == 1
    with pytest.raises(Damaged):
        rows.of_block(octets)


def test_a_temporary_file_that_is_not_read(called, folder, monkeypatch):
    """As where the disk of TMPDIR fails: a line with the cause, and the earlier export stays."""
    put(folder / "p", {"a.jpg": jpeg(app1(exif(b"Abc")))})
    assert called("index", "p", "--catalogue", "c", "--quiet")[0] == 0
    assert called("catalogue", "export", "c", "t")[0] == 0
    before = (folder / "t").read_bytes()
    fails = lambda *_: (_ for _ in ()).throw(sqlite3.DatabaseError("database disk image is malformed"))
    for call in ("add", "finish"):
        with monkeypatch.context() as patched:
            patched.setattr(Tables, call, fails)
            status, printed, messages = called("catalogue", "export", "c", "t")
        assert status == 4 and "temporary file" in messages and "internal error" not in messages, messages
        assert (folder / "t").read_bytes() == before
