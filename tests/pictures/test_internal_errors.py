"""A mistake in our own code is reported as such, with its file and line: never as a damaged catalogue, nor as a failure of ExifTool."""

import json
import os
import re
import sqlite3
import zlib
from collections import Counter

import pytest
from exifnorm_pictures.catalogue import store
from exifnorm_pictures.catalogue.store import Catalogue, NoCatalogue
from exifnorm_pictures.cli import main
from exifnorm_pictures.comparison.changed import states as changed, pairs
from exifnorm_pictures.extract import extraction, readers
from exifnorm_pictures.extract.formats import png
from exifnorm_pictures.files import opening, signals
from exifnorm_pictures.fields import packing
from exifnorm_pictures.fields.listing import exact
from exifnorm_pictures.judge import judge
from exifnorm_pictures.model import records
from exifnorm_pictures.model.found import Blocks, NotRead
from exifnorm_pictures.model.records import BlockRecord, PictureRecord, Stamp
from exifnorm_pictures.model.errors import Damaged
from hypothesis import given, strategies as st
from made_files import app1, exif, jpeg, png as made_png
from studio import errors, put, run

FAULT = "unsupported operand type(s) for +: 'NoneType' and 'int'"


def mistake(*_, **__):
    return None + 1


@pytest.fixture
def command(capsys, tmp_path, monkeypatch):
    """Runs exifnorm-pictures in this process, in a new folder with two pictures; returns what it prints."""
    monkeypatch.chdir(tmp_path)
    monkeypatch.delenv("EXIFNORM_DEBUG", raising=False)
    put(tmp_path, {"p/a.jpg": jpeg(), "p/b.png": made_png()})

    def call(*words, status):
        capsys.readouterr()
        assert main._run(words) == status
        return capsys.readouterr()

    return call


def of_pictures(name, *paths):
    made = Catalogue(str(name), make=True)
    block = BlockRecord("exif", "Exif", "somewhere", "own", "refused", None, "Overlap", 34, 100, "0" * 64)
    parts = (NotRead("a part", "1" * 64),)
    made.put(
        made.begin_run("2000-01-01T00:00:00Z"),
        [PictureRecord.of(it, b"/", Stamp(1, 2, 3, 4), "JPEG", blocks=(block,), unread=parts) for it in paths],
    )
    return made


@pytest.mark.parametrize(
    "words, module, name",
    [
        (["index", "p", "--catalogue", "c", "--quiet", "--jobs", "1"], store, "put_rows"),
        (["same", "c"], store, "_check_head"),
        (["changed", "c", "c"], pairs.Pairs, "_pair_of_row"),
        (["changed", "c", "c"], pairs.Pairs, "_pair"),
        (["changed", "c", "c", "--all"], pairs, "picture_of_row"),
        (["report", "c", "--html", "page"], store, "picture_of_row"),
        (["report", "c", "--since", "c", "--html", "page"], pairs.Pairs, "_pair_of_row"),
    ],
)
def test_a_mistake_is_no_damage(command, monkeypatch, words, module, name):
    of_pictures("c", b"/a").close()
    with monkeypatch.context() as planted:
        planted.setattr(module, name, mistake)
        printed = command(*words, status=4).err
    assert f"an internal error, please report it: TypeError: {FAULT} (exifnorm_pictures/" in printed
    assert "damaged" not in printed and len(errors(printed)) == 1
    where, _, line = printed.rpartition("(")[2].rstrip(")\n").partition(", line ")
    with open(os.path.join(os.path.dirname(os.path.dirname(os.path.dirname(store.__file__))), where)) as file:
        assert "(" in file.read().splitlines()[int(line) - 1]  # the call of what failed


def odd(name, _):
    raise RuntimeError(name)


@pytest.mark.parametrize("words, variable, has_it", [([], None, False), (["--debug"], None, True), ([], "1", True), ([], "0", False)])
def test_the_traceback(command, monkeypatch, words, variable, has_it):
    if variable:
        monkeypatch.setenv("EXIFNORM_DEBUG", variable)
    monkeypatch.setattr(store, "_check_head", odd)
    printed = command("same", "c\x1b[31m\u202e", *words, status=4).err
    assert ("Traceback (most recent call last):" in printed.splitlines()) is has_it
    assert ("    raise RuntimeError(name)" in printed.splitlines()) is has_it
    assert not re.search("[\0-\x09\x0b-\x1f\x7f-\x9f\u202e]", printed)


@pytest.mark.parametrize(
    "call, error, is_damaged",
    [
        (lambda it: it.base.execute("SELECT 1 WHERE ? = 1"), sqlite3.ProgrammingError, False),
        (lambda it: it.base.execute("SELECT missing"), NoCatalogue, False),
        (lambda it: it.base.execute("UPDATE pictures SET type = NULL"), NoCatalogue, False),
        (lambda it: (_ for _ in ()).throw(sqlite3.DatabaseError("malformed")), NoCatalogue, True),
        (lambda it: records.has(int, "a"), NoCatalogue, True),
        (lambda it: records.kind_of("other"), NoCatalogue, True),
    ],
)
def test_errors_of_sqlite_and_of_values(tmp_path, call, error, is_damaged):
    made = of_pictures(tmp_path / "c", b"/a")
    with pytest.raises(error) as raised, made.guarded():
        call(made)
    damage = f"{made.name} is damaged"
    assert str(raised.value).startswith(damage) is is_damaged
    made.close()


def test_a_signal_that_ends_a_query_is_no_error_of_the_catalogue(tmp_path):
    made = of_pictures(tmp_path / "c")
    made.base.create_function("stop", 0, lambda: signals._stop(2, None))
    with pytest.raises(KeyboardInterrupt), made.guarded():
        made.base.execute("SELECT stop()")
    made.close()


@pytest.mark.parametrize("error", [TypeError, ValueError, KeyError, IndexError, AttributeError, RecursionError, zlib.error])
@pytest.mark.parametrize("guard", [lambda it: it.guarded(), lambda it: it.transaction(), lambda it: it.reading()])
def test_other_errors_stay_what_they_are(tmp_path, guard, error):
    made = of_pictures(tmp_path / "c")
    with pytest.raises(error), guard(made):
        raise error("a mistake")
    made.close()


@pytest.mark.parametrize(
    "values",
    [
        "runs SET exifnorm = x'00'",
        "runs SET started = x'00'",
        "not_read SET what = x'00'",
        "blocks SET kind = 'other'",
        "blocks SET name = x'00'",
        "pictures SET type = x'00'",
        "pictures SET root = '/'",
    ],
)
def test_a_report_of_a_damaged_catalogue(command, values):
    with of_pictures("c", b"/a") as made:
        made.base.execute("UPDATE blocks SET status = 'refused'")
        made.base.execute(f"UPDATE {values}")
    printed = command("report", "c", "--html", "page", status=4).err
    assert "internal error" not in printed and len(printed.splitlines()) == 1


@pytest.mark.parametrize(
    "octets",
    [
        b"",
        b"[",
        b"[1]",
        b'[["main"]]',
        b'[["main","010f","ASCII","4","a"]]',
        b'[["main","010f","ASCII",true,"a"]]',
        b'["abcde"]',
        b'[["main","010f","ASCII",4,7]]',
        b'[["main","010f","ASCII",4,["0"]]]',
        b'[["main","010f","ASCII",4,["ab",7]]]',
        b'[["main","010f","ASCII",4,"\\ud800"]]',
        b'[["main","0112","SHORT",1,"6"]]',
        b'[["main","0112","SHORT",1,[true]]]',
        b'[["main","0112","SHORT",1,[1e3]]]',
        b'[["main","0112","OTHER",1,[1]]]',
        b'[["main","0112","LONG",1,99999999999999999999999]]',
        b'[["main","0112","FLOAT",1,-1]]',
        b'[["main","0112","RATIONAL",1,[1,2,3]]]',
        b'[["xmp","dc:title","text",1,"Vase"]]',
        b'[["xmp","dc:title","text",1,[7]]]',
        b'[["xmp","dc:title","text",1,[["a","b","c","d"]]]]',
        b'[["xmp","dc:title","text",1,[{"Alt":["a"],"Bag":["b"]}]]]',
        b'[["xmp","dc:title","text",1,[{"fields":[["a"]]}]]]',
        b'[["xmp","dc:title","text",1,[{}]]]',
        pytest.param(b"[" * 100_000, id="100,000 brackets"),
        pytest.param(b'[["xmp","a","Bag",1,[' + b'{"Bag":[' * 200 + b"]}" * 200 + b"]]]", id="200 lists in one another"),
        b"\0\x11",
        zlib.compress(b"7"),
        zlib.compress(b"\xff"),
        zlib.compress(b"[]\n[]"),
        zlib.compress(b"[]")[:-5],
        7,
        "text",
    ],
)
def test_fields_that_are_damaged(octets):
    with pytest.raises(Damaged):
        for text in packing.parted([octets]):
            packing.unpacked(text)


TEXTS = st.none() | st.sampled_from([b"[]", b'[["main","010f","ASCII",4,"abc"]]', b"[7]" * 30, b"[8]" * 3000, b"[7]" * 3000])


@given(st.lists(TEXTS, max_size=6))
def test_the_fields_of_each_block_are_read_again(texts):
    """Whatever blocks have none, and however many share a text, which is kept once."""
    cells = packing.joined(texts)
    assert packing.parted(cells) == texts
    assert sum(len(it) for it in cells if it) < 400 + 40 * len(texts)


def test_fields_of_a_picture_have_a_limit(monkeypatch):
    """Pages may share one long text, which a catalogue would keep for each."""
    blocks = Blocks()
    for number in range(5):
        blocks.add("iptc", b"\x1c\2\x78\0\x64" + bytes(range(32, 132)), f"page {number}")
    (one,) = {it.fields for it in judge.judge_all(blocks, packs=True)}
    monkeypatch.setattr(judge, "KEPT_BYTES", 2 * len(one))
    kept = [packing.unpacked(it.fields) for it in judge.judge_all(blocks, packs=True)]
    assert [it[0].directory for it in kept] == ["iptc", "iptc", "", "", ""]
    assert exact(kept[-1][0]).startswith("too many to be kept; sha256:") and kept[-1] == kept[-2]


def test_keys_of_fields_that_are_damaged(tmp_path):
    """They are compared as they are."""
    fields = [[["main", key, "ASCII", 4, value]] for key, value in ((":x", "a"), (":x", "b"))]
    sides = [of_pictures(tmp_path / name, b"/a") for name in ("before", "after")]
    for it, digest, one in zip(sides, "ab", fields):
        it.base.execute(
            "UPDATE blocks SET status = 'accepted', cause = NULL, place = NULL, digest = ?, fields = ?", (digest, json.dumps(one).encode())
        )
        it.base.execute("UPDATE pictures SET exif = ?", (digest,))
    assert [it.result for it in changed.changed(*sides, Counter())] == ["different"]
    for it in sides:
        it.close()


def test_a_picture_at_which_we_fail(command, monkeypatch):
    """Others are looked at, the line has the place of the mistake, and the next run looks at it again."""
    with monkeypatch.context() as planted:
        reader_of = readers.reader_of
        planted.setattr(readers, "reader_of", lambda head, path: mistake if head.startswith(png.START) else reader_of(head, path))
        lines = command("index", "p", "--catalogue", "c", status=2).out.splitlines()
        found = [json.loads(it) for it in command("show", "p/b.png", "p/a.jpg", "--json", status=2).out.splitlines()]
        explained = command("explain", "p/b.png", "--debug", status=2)
    assert [it.partition(":")[0] for it in lines[:-1]] == ["p/b.png"]
    assert "b.png: InternalError: " in lines[0] and f"TypeError: {FAULT} (exifnorm_pictures/extract/extraction.py, line " in lines[0]
    assert "1 at which exifnorm-pictures itself failed" in lines[-1]
    assert [it.get("problem") for it in found] == ["InternalError", None]
    assert explained.out.startswith("InternalError: ") and "    return None + 1" in explained.err.splitlines()
    assert command("index", "p", "--catalogue", "c", "--quiet", status=0).out.splitlines() == ["1 no block, 1 unchanged"]


@pytest.mark.parametrize(
    "error, problem", [(MemoryError(), "ToolFailed"), (KeyError("a"), "InternalError"), (OSError(5, "I/O error"), "Unreadable")]
)
def test_the_state_of_a_picture_has_the_cause(command, monkeypatch, error, problem):
    def fails(*_):
        raise error

    monkeypatch.setattr(extraction, "blocks_of_file", fails)
    line = command("index", "p", "--catalogue", "c", "--quiet", "--json", status=2).out.splitlines()[-1]
    assert json.loads(line)["counts"] == {problem: 2}


def test_in_processes_of_their_own(tmp_path):
    """A mistake in one of several processes has its place and traceback, too."""
    put(tmp_path, {f"p/{number}.jpg": jpeg() for number in range(70)})
    call = (
        "import sys; from exifnorm_pictures.cli import main; from exifnorm_pictures.extract.formats import jpeg\n"
        "def mistake(*_): return None + 1\njpeg.read = mistake\nsys.exit(main.main(sys.argv[1:]))"
    )
    done = run(["python3", "-c", call, "index", "p", "--catalogue", "c", "--quiet", "--jobs", "2", "--debug"], str(tmp_path))
    assert (done.returncode, done.stdout.splitlines()[-1]) == (2, b"70 at which exifnorm-pictures itself failed"), done.stderr
    assert done.stderr.count(b"Traceback") == 70 and b"extraction.py" in done.stderr


@pytest.mark.parametrize(
    "words",
    (
        "show --captions k.jpg",
        "show k.jpg",
        "list k.jpg --with title",
        "check k.jpg c",
        "show --files-from k.jpg",
        "verify k.jpg",
        "compare a.jpg k.jpg",
        "mend k.jpg new.jpg",
        "index . --catalogue new --quiet --jobs 1 --pixels",
        "report c --html page",
    ),
)
def test_a_file_that_has_no_bytes_yet(words, called, folder, monkeypatch):
    """As a link to the kernel's messages, /proc/kmsg, which is a regular file by its kind."""
    opened = opening.opened

    def opened_as_usual(path):
        if path in opening._held or os.path.basename(os.fsencode(path)) != b"k.jpg":
            return opened(path)
        number, other = os.pipe2(os.O_NONBLOCK)
        ends.append(other)
        return number, 0

    ends = []
    picture = jpeg(app1(exif(b"Anna")))
    assert called("index", ".", "--catalogue", "c", "--quiet", "--jobs", "1", a=picture, k=picture)[0] == 0
    monkeypatch.setattr(opening, "opened", opened_as_usual)
    status, out, messages = called(*words.split())
    assert status in (0, 2, 3, 4) and "internal" not in out + messages, (status, out, messages)
    for number in ends:
        os.close(number)
