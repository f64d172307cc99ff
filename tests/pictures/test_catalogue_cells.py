"""Catalogues of strangers: each cell with values that nothing here writes, and rows that are more than they seem."""

import re
import shutil
import sqlite3

import pytest
from made_blocks import with_exif
from made_files import app1, app1_xmp, exif, jpeg, title, xmp
from studio import SMALL_JPEG, errors, put
from test_repairs import REFUSED

from exifnorm_pictures.catalogue.store import Catalogue
from exifnorm_pictures.cli import main
from exifnorm_pictures.fields import block_fields, packing
from exifnorm_pictures.fields.field import Field
from exifnorm_pictures.judge import judge
from exifnorm_pictures.model.records import not_read_of_row
from exifnorm_pictures.model.tables import BLOCKS, PICTURES, block_of_row
from exifnorm_pictures.model.errors import Damaged
from exifnorm_pictures.model.found import Blocks
from exifnorm_pictures.catalogue import store

VALUES = {
    "NULL": None,
    "greatest": (1 << 63) - 1,
    "fraction": 0.5,
    "octets": b"\xff\xfe\0",
    "list": '[["a"], 7]',
    "deep": "[" * 10_000,
    "long": "x" * 100_000,
}
COMMANDS = (
    ["same", "c"],
    ["same", "c", "--ignore", "Make"],
    ["changed", "c", "good"],
    ["report", "c", "--html", "page"],
    ["show", "--captions", "c", "--csv"],
    ["catalogue", "export", "c", "tables"],
    ["catalogue", "merge", "c", "--catalogue", "into"],
    ["mend", "c", "out"],
    ["index", "p", "--catalogue", "c", "--quiet", "--jobs", "1"],
    ["catalogue", "forget", "c", "p"],
    ["catalogue", "relocate", "c", "p", "q"],
    ["verify", "c", "--quiet", "--jobs", "1"],
    ["changed", "--picture", "p/a.jpg", "good", "c"],
    ["list", "c", "--where", "title = one or creator like 'A*' or date created < 1950", "--columns", "title,position"],
    ["list", "c", "--count", "title"],
    ["list", "c", "--geojson"],
    ["check", "--rules", "rules", "c"],
    ["check", "c", "--all"],
    ["same", "c", "--kind", "pixels", "--xlsx", "tables"],
)


# Others don't read these
OF_TEXTS = [it for it in COMMANDS if it[0] in ("list", "check", "index") or it[1] in ("merge", "relocate", "forget")]
ROWS_OF = {
    "pictures": "WHERE rowid = 1",
    "texts": "WHERE picture = 1",
    "blocks": "WHERE picture = 3",
    "not_read": "",
    **dict.fromkeys(("runs", "maker_notes", "prepared"), ""),
}


@pytest.fixture(scope="module")
def archive(tmp_path_factory):
    """A folder with a catalogue of accepted, equal and refused pictures."""
    folder = tmp_path_factory.mktemp("cells")
    (folder / "p").mkdir()
    (folder / "out").mkdir()
    (folder / "q").mkdir()
    (folder / "rules").write_text("every picture needs credit\ntitle is one\ntitle like 'o*'\ntitle at most 2 characters in q/\n")
    good = jpeg(app1(exif(b"Abc")), app1_xmp(xmp("<dc:title>one</dc:title>")), behind=b"a part that isn't read")
    refused = with_exif(SMALL_JPEG, REFUSED["unsorted"])
    put(folder / "p", {"a.jpg": good, "b.jpg": good, "c.jpg": refused, "d.jpg": refused, "e.jpg": good[:-9]})
    with pytest.MonkeyPatch.context() as patched:
        patched.chdir(folder)
        patched.setenv("PATH", str(folder))
        main._run(["index", "p", "--catalogue", "good", "--quiet", "--jobs", "1", "--pixels"])
        main._run(["list", "good", "--with", "title"])  # which keeps the texts
    return folder


def columns():
    """Each table and column of a catalogue."""
    with sqlite3.connect(":memory:") as base:
        from exifnorm_pictures.catalogue import store

        base.executescript(store._TABLES)
        tables = [name for name, in base.execute("SELECT name FROM sqlite_master WHERE type = 'table'")]
        return [(table, row[1]) for table in tables for row in base.execute(f"PRAGMA table_info({table})")]


@pytest.mark.parametrize("table, column", columns())
def test_each_cell(table, column, archive, capsys, monkeypatch):
    """Each command that reads a catalogue ends with a documented status and a line, whatever value a cell has."""
    monkeypatch.chdir(archive)
    monkeypatch.setenv("PATH", str(archive))
    monkeypatch.setenv("EXIFNORM_DEBUG", "")
    for name, value in VALUES.items():
        changed = archive / "changed"
        shutil.copy(archive / "good", changed)
        try:
            with sqlite3.connect(changed, isolation_level=None) as base:
                changed_rows = base.execute(f"UPDATE {table} SET {column} = ? {ROWS_OF[table]}", (value,)).rowcount
                assert changed_rows or table == "maker_notes"
        except (sqlite3.IntegrityError, OverflowError):  # SQLite itself refuses it
            continue
        finally:
            base.close()
        for words in OF_TEXTS if table == "texts" else COMMANDS:
            shutil.copy(changed, archive / "c")
            for made in ("page", "tables", "into"):
                (archive / made).unlink(missing_ok=True)
            shutil.rmtree(archive / "out")
            (archive / "out").mkdir()
            status = main.main(words)
            printed = capsys.readouterr()
            context = (table, column, name, words, status, printed.err[-1000:])
            assert status in range(5), context
            assert "internal error" not in printed.out + printed.err and "Traceback" not in printed.err, context
            assert status < 3 or len(errors(printed.err)) == 1, context
            assert not re.search("[\0-\x08\x0b-\x1f]", printed.err), context


@pytest.fixture
def catalogue(archive, tmp_path, monkeypatch):
    shutil.copy(archive / "good", tmp_path / "c")
    monkeypatch.chdir(tmp_path)
    return tmp_path / "c"


LONG = packing.packed([Field("main", "010e", "ASCII", 5, b"abcd\0")] * 20_000)[0]  # 0.7 MB as JSON


@pytest.mark.parametrize("words", [["catalogue", "export", "c", "tables"], ["show", "--captions", "c"], ["report", "c", "--html", "page"]])
def test_fields_of_many_blocks(words, catalogue, capsys, monkeypatch):
    """Together they are bounded, before any is unpacked."""
    with sqlite3.connect(catalogue, isolation_level=None) as base:
        query = "INSERT INTO blocks SELECT picture, number + 1, {} FROM blocks WHERE picture = 1 ORDER BY number DESC LIMIT 1"
        names = ", ".join(row[1] for row in base.execute("PRAGMA table_info(blocks)") if row[1] not in ("picture", "number"))
        for _ in range(20):
            base.execute(query.format(names))
        base.execute("UPDATE blocks SET fields = ? WHERE picture = 1", (LONG,))
    base.close()
    monkeypatch.setattr(packing, "unpacked", lambda _: pytest.fail("unpacked"))
    assert main.main(words) == 4
    assert "too long" in capsys.readouterr().err


def test_fields_are_unpacked_where_they_are_needed(tmp_path, monkeypatch, called):
    """Those of all blocks of a picture at once, and of a picture whose fields nobody asks for never."""
    monkeypatch.chdir(tmp_path)
    first = jpeg(app1(exif(b"Anna")), app1_xmp(title("one")))
    put("p", {"a.jpg": first, "a.jpg.xmp": title("two"), "b.jpg": with_exif(SMALL_JPEG, b"no block")})
    called("index", "p", "--catalogue", "before", "--pixels", "--sidecars", "--quiet")
    put("p", {"b.jpg": with_exif(SMALL_JPEG, b"no block either")})
    called("index", "p", "--catalogue", "after", "--pixels", "--sidecars", "--quiet")
    asked, parted = [], packing.parted
    monkeypatch.setattr(packing, "parted", lambda cells: asked.append(cells) or parted(cells))
    for words in (
        ["changed", "before", "after"],
        ["verify", "after", "--quiet"],
        ["same", "after", "--no-look"],
    ):
        assert called(*words)[0] in (0, 2) and not asked, words
    with Catalogue("before") as base:
        blocks = base.blocks_of(next(base.pictures()))
        assert [block.name for block in blocks] == ["XMP", "Exif", "XMP sidecar"] and not asked
        assert [len(block_fields.fields_of(block)) for block in blocks * 2] == [1, 1, 1] * 2 and len(asked) == 1
    put("p", {"a.jpg": jpeg(app1(exif(b"Otto")), app1_xmp(title("one")))})
    called("index", "p", "--catalogue", "after", "--sidecars", "--quiet")
    assert called("changed", "before", "after")[0] == 2 and len(asked) == 3, "once for each side"


def test_rows_that_share_their_bytes(catalogue, monkeypatch):
    """What a picture has in a table is bounded, however few bytes the file has."""
    with Catalogue("c") as base:
        pictures = list(base.pictures())
        assert any(base.blocks_of(it) for it in pictures)
        monkeypatch.setattr(store, "ROW_BYTES", 100)
        with pytest.raises(store.NoCatalogue, match="too long"):
            for it in pictures:
                base.blocks_of(it)


def test_what_index_writes_is_read(monkeypatch):
    """Many blocks that are short as they are packed, and long as they are: some are left out, and none is refused when it is read."""
    blocks = Blocks()
    for number in range(6):
        blocks.add("iptc", b"".join(b"\x1c\2\x19\0\x04%04d" % (number if it == 0 else it) for it in range(300)), f"page {number}")
    judged = judge.judge_all(blocks, packs=True)
    one = len(judged[0].fields)
    assert len(packing.joined([judged[0].fields])[0]) * 4 < one
    for limit, kept in ((3 * one, 3), (3 * one - 1, 2), (6 * one, 6)):
        monkeypatch.setattr(judge, "KEPT_BYTES", limit)
        monkeypatch.setattr(packing, "KEPT_BYTES", limit)
        judged = judge.judge_all(blocks, packs=True)
        cells = packing.joined([it.fields for it in judged])
        fields = [packing.unpacked(it) for it in packing.parted(cells)]
        assert sum(len(found) == 300 for found in fields) == kept
        if kept < 6:
            monkeypatch.setattr(packing, "KEPT_BYTES", 2 * one - 1)
            with pytest.raises(Damaged):
                packing.parted(cells)


ROWS = {
    "pictures": (PICTURES, PICTURES.record, 1),
    "blocks": (BLOCKS, block_of_row, "exif"),
}


@pytest.mark.parametrize("table", ROWS)
def test_a_value_that_is_too_long(table):
    """Rows of a crafted file can share their bytes, so that a million texts of a megabyte each take no more space than one."""
    columns, of_row, first = ROWS[table]
    values = {name: kind[0] if isinstance(kind, tuple) else kind for name, kind in zip(columns.names, columns.types)}
    row = [first] + [{bytes: b"[]", str: "[]", int: 1}[values[name]] for name in columns.names[1:]]
    assert of_row(tuple(row))
    for at, (name, kind) in enumerate(values.items()):
        if kind in (str, bytes) and name not in ("kind", "repair"):
            most = columns.longest[at]
            assert most <= 10_000 or name in ("fields", "maker_notes", "sidecars")
            for length in (most, most + 1):
                changed = [*row[:at], kind(b"x" * length) if kind is bytes else "x" * length, *row[at + 1 :]]
                if length == most:
                    of_row(tuple(changed))
                else:
                    with pytest.raises(Damaged, match="too long"):
                        of_row(tuple(changed))


def test_a_part_that_is_too_long():
    assert not_read_of_row(("x" * 10_000, ""))
    with pytest.raises(Damaged, match="too long"):
        not_read_of_row(("x" * 10_001, ""))


@pytest.mark.parametrize("text", [b"octets", "x" * 65_537], ids=["octets", "long"])
@pytest.mark.parametrize(
    "words", [["list", "c", "--columns", "title"], ["list", "c", "--count", "title"], ["check", "--rules", "rules", "c"]], ids=repr
)
def test_a_text_that_index_never_keeps(text, words, catalogue, capsys):
    (catalogue.parent / "rules").write_text("title never in p/\n")
    with sqlite3.connect(catalogue, isolation_level=None) as base:
        base.execute("UPDATE texts SET text = ? WHERE label = 'title'", (text,))
    base.close()
    assert main.main(words) == 4
    assert len(errors(capsys.readouterr().err)) == 1
