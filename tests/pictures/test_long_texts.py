"""A caption as long as IIM allows is printed in full, also when its picture is gone; and nothing is read or parsed twice for it."""

import contextlib
import csv
import gc
import io
import json
import os
import shutil
import subprocess
import sys
import tracemalloc
from unittest import mock

import pytest
from hypothesis import given, strategies as st
from made_blocks import ASCII, block, entry
from made_files import app1, app1_xmp, data_set, exif, jpeg, png, png_xmp, title, with_record, with_record as with_text, xmp
from studio import Studio, needs, put, sql_rows

import exifnorm
from exifnorm_pictures.cli import output
from exifnorm_pictures.xmp import reading

WORDS = ("Der Krug wurde 1820 im Ostflügel gefunden. " * 60)[:1990]
ENDINGS = ("east wing", "west wing")
IN_UTF8 = data_set(90, b"\x1b%G", record=1)


def texts(ending, name):
    """A text of 2,000 octets at most, and its DataSets in a character set."""
    text = WORDS
    while len((text + ending).encode(name)) > 2000:
        text = text[:-1]
    text += ending
    return text, (IN_UTF8 if name == "utf-8" else b"") + data_set(120, text.encode(name))


@pytest.mark.parametrize("name", ["utf-8", "latin-1"])
def test_a_caption_of_2000_octets(name, folder, called):
    found = [texts(ending, name) for ending in ENDINGS]
    for side, (_, record) in zip(("before", "after"), found):
        (folder / side).mkdir()
        (folder / side / "a.jpg").write_bytes(jpeg(with_record(record)))
        called("index", side, "--catalogue", f"{side}.c", "--quiet")
    (before, _), (after, _) = found
    printed = called("compare", "--json", "before/a.jpg", "after/a.jpg")[1]
    (row,) = json.loads(printed)["fields"]
    assert (row["before"]["plain"], row["after"]["plain"]) == (before, after)
    for side in ("before", "after"):
        shutil.rmtree(folder / side)
    printed = called("changed", "before.c", "after.c", "--each")[1]
    assert f'"{before}" -> "{after}"' in printed
    found = json.loads(called("changed", "before.c", "after.c", "--json")[1].splitlines()[0])
    (row,) = found["fields"]
    assert (row["before"]["value"], row["after"]["value"]) == (before, after)
    assert after in called("show", "--captions", "after.c")[1]
    assert next(csv.DictReader(io.StringIO(called("show", "--captions", "--csv", "after.c")[1].lstrip("\ufeff"))))["caption"] == after
    called("catalogue", "export", "after.c", "tables")
    assert sql_rows(folder / "tables", "SELECT value FROM fields WHERE name = 'IPTC:Caption-Abstract'") == [(after,)]
    assert sql_rows(folder / "tables", "SELECT text FROM captions WHERE label = 'caption'") == [(after,)]


COMMANDS = {
    "captions": ("show", "--captions", "a.jpg"),
    "conflicts": ("check", "a.jpg"),
    "show": ("show", "a.jpg"),
    "show --json": ("show", "--json", "a.jpg"),
    "explain": ("explain", "a.jpg"),
    "index": ("index", "a.jpg", "--catalogue", "c", "--jobs", "1", "--quiet"),
    "compare": ("compare", "--no-programs", "a.jpg", "b.jpg"),
}


@pytest.mark.parametrize("words", COMMANDS.values(), ids=COMMANDS)
def test_each_block_is_read_once(words, folder, called, monkeypatch):
    (folder / "a.jpg").write_bytes(jpeg(app1(exif(b"Anna")), app1_xmp(title("one")), with_record(data_set(120, b"Vase"))))
    (folder / "b.jpg").write_bytes(jpeg(app1(exif(b"Otto")), app1_xmp(title("two")), with_record(data_set(120, b"Bowl"))))
    forms, packets = [], []
    normal, parsed = exifnorm.normal, reading._parsed
    monkeypatch.setattr(exifnorm, "normal", lambda block: forms.append(block) or normal(block))
    monkeypatch.setattr(reading, "_parsed", lambda packet, *more: packets.append(packet) or parsed(packet, *more))
    called(*words)
    pictures = sum(word.endswith(".jpg") for word in words)
    assert (len(forms), len(packets)) == (2 * pictures, pictures)


# ---- Objects with long texts, which are printed in parts: the same bytes as any other, all or none of them, and in little memory.

SCALARS = st.none() | st.booleans() | st.integers() | st.floats(allow_nan=False, allow_infinity=False) | st.text()
VALUES = st.recursive(
    SCALARS, lambda it: st.lists(it) | st.dictionaries(st.text(), it) | st.lists(it).map(tuple), max_leaves=20  # type: ignore[arg-type]
)


def printed(members, encoded):
    """What is printed of an object if so many characters are encoded together."""
    with mock.patch.object(output, "ENCODED_CHARACTERS", encoded), contextlib.redirect_stdout(io.StringIO()) as out:
        output.print_object("show", "picture", members)
    return out.getvalue()


@given(st.dictionaries(st.text(), VALUES), st.integers(-1, 20))
def test_the_same_line(members, encoded):
    expected = json.dumps({"schema": "exifnorm-pictures/show/1", "record": "picture", **members}) + "\n"
    assert printed(members, encoded) == expected
    assert output.line_of("show", "picture", members) + "\n" == expected


@pytest.mark.parametrize("value", (float("nan"), float("-inf"), b"bytes", {1}), ids=repr)
@pytest.mark.parametrize("length", (1, output.ENCODED_CHARACTERS + 1))
def test_nothing_of_an_object_that_cannot_be_encoded(value, length, capsys):
    with pytest.raises((TypeError, ValueError)):
        output.print_object("show", "picture", {"text": "x" * length, "fields": [{"a": "x" * length}, {"a": [value]}]})
    assert capsys.readouterr().out == ""


def test_memory():
    """No more than some copies of the longest text, however many there are: before them a part can be in each buffer."""
    text = "x" * (4 * output.ENCODED_CHARACTERS)
    for members in ({"fields": [{"before": {"plain": text, "exact": text, "value": [text]}} for _ in range(20)]}, {"texts": [text] * 60}):
        with open(os.devnull, "w") as out, contextlib.redirect_stdout(out):
            gc.collect()
            tracemalloc.start()
            try:
                output.print_object("compare", "comparison", members)
                taken = tracemalloc.get_traced_memory()[1]
            finally:
                tracemalloc.stop()
        assert taken < 3.5 * len(text), f"{taken / len(text):.1f} times the longest text"


@pytest.fixture
def long(folder):
    """The command that prints an object longer than all buffers."""
    (folder / "a.png").write_bytes(png(png_xmp(xmp(f"<dc:source>{'x' * 3_000_000}</dc:source>"))))
    return [sys.executable, "-m", "exifnorm_pictures", "show", str(folder / "a.png"), "--json"]


def test_a_full_disk(long):
    with open("/dev/full", "wb") as full:
        done = subprocess.run(long, stdout=full, stderr=subprocess.PIPE, env=Studio.environment(), text=True)
    assert (done.returncode, done.stderr) == (4, "exifnorm-pictures: standard output: no space left on device\n")


def test_a_reader_that_goes_away(long):
    with subprocess.Popen(long, stdout=subprocess.PIPE, stderr=subprocess.PIPE, env=Studio.environment()) as process:
        assert process.stdout.read(100).startswith(b'{"schema": "exifnorm-pictures/show/1"')
        process.stdout.close()
        assert (process.stderr.read(), process.wait()) == (b"", 4)


# ---- A text with a NUL inside, which ends a text for C and for many functions of SQLite: no output loses what follows it, or has a NUL itself.

LONG = b"x" * 50  # longer than what an index has of a text
OCTETS = {"a": b"before\0after", "b": LONG + b"\0after", "c": b"\0after", "d": LONG + b"after"}


def picture(caption, creator=b""):
    """A JPEG with a caption in IPTC and in Exif, where a copyright has a NUL between two."""
    rights = b"one\0after\0"
    exif = block([entry(0x8298, ASCII, len(rights), 8 + 2 + 12 + 4)]) + rights
    return jpeg(app1(exif), with_text(data_set(120, caption), data_set(80, creator or caption)))


@pytest.fixture
def archive(folder, called, indexed):
    """Pictures with such texts, their catalogue, and one of them as they were before."""
    put(folder / "p", {f"{name}.jpg": picture(b"old", caption) for name, caption in OCTETS.items()})
    called("index", "p", "--catalogue", "old", "--quiet")
    indexed({f"{name}.jpg": picture(caption) for name, caption in OCTETS.items()})
    (folder / "rules").write_text("caption is nothing\ncreator never\ncopyright at most 5 characters\n")
    return folder


PRINTING = (
    ("show", "--captions", "p"),
    ("show", "--captions", "p", "--csv"),
    ("show", "--captions", "p", "--json"),
    ("show", "--captions", "c", "--csv"),
    ("list", "c", "--columns", "caption"),
    ("list", "c", "--columns", "caption", "--csv"),
    ("list", "c", "--columns", "caption", "--json"),
    ("list", "c", "--columns", "IPTC:Caption-Abstract"),
    ("list", "c", "--count", "caption"),
    ("check", "--rules", "rules", "c"),
    ("check", "--rules", "rules", "c", "--csv"),
    ("check", "--rules", "rules", "c", "--json"),
    ("show", "p/a.jpg", "p/b.jpg", "p/c.jpg", "p/d.jpg"),
    ("show", "p/a.jpg", "p/b.jpg", "p/c.jpg", "p/d.jpg", "--csv"),
    ("changed", "old", "c", "--each"),
    ("changed", "old", "c", "--csv"),
    ("changed", "old", "c", "--json"),
    ("check", "p", "--all"),
)
IN_FULL = [words for words in PRINTING if words[0] in ("list", "show")]


@pytest.mark.parametrize("words", PRINTING, ids=" ".join)
def test_no_output_ends_at_a_nul(words, archive, called):
    status, printed, messages = called(*words)
    assert status in (0, 1, 2) and "\0" not in printed + messages, messages
    assert printed.count("after") >= (4 if words in IN_FULL else 1) or words[0] == "check", printed


@pytest.mark.parametrize(
    "question, names",
    [
        ("caption has after", "abcd"),
        ("caption like '*after'", "abcd"),
        ("caption like '*before*'", "a"),
        ("caption = before", ""),
        (f"caption = {LONG.decode()}", ""),
        (f"caption like {LONG.decode()}", ""),
        ("with caption", "abcd"),
    ],
)
def test_questions(question, names, archive, called):
    assert called("list", "c", "--where", question, "-0")[1] == "".join(f"{archive}/p/{name}.jpg\0" for name in names)


def test_rules(archive, called):
    """Of `at most` all characters count, also those after the NUL."""
    (archive / "rules").write_text("caption at most 11 characters\ncopyright like 'one'\n")
    status, printed, _ = called("check", "--rules", "rules", "c", "--csv")
    broken = [line for line in printed.splitlines()[1:] if line]
    assert status == 1 and len(broken) == 3 + 4, printed


@needs("sqlite3")
def test_tables_and_pages(archive, called):
    """The shell of SQLite prints all of a text, and a page has no NUL."""
    assert called("catalogue", "export", "c", "tables", "--quiet")[0] == 0
    query = "SELECT text FROM captions WHERE label = 'caption' ORDER BY text"
    shown = subprocess.run(["sqlite3", "tables", query], capture_output=True, text=True, check=True).stdout
    assert shown.count("after") == 4
    columns = [
        (table, row[1])
        for (table,) in sql_rows("tables", "SELECT name FROM sqlite_master WHERE type = 'table'")
        for row in sql_rows("tables", f"PRAGMA table_info({table})")
    ]
    for table, column in columns:
        assert not sql_rows("tables", f"SELECT 1 FROM {table} WHERE instr(CAST({column} AS BLOB), x'00') AND typeof({column}) = 'text'")
    called("report", "c", "--since", "old", "--rules", "rules", "--html", "page.html")
    page = (archive / "page.html").read_bytes()
    assert b"after" in page and b"\0" not in page
