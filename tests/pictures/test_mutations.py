"""Pictures and catalogues with changed bytes: what is called the same, and what a damaged catalogue can make of a command."""

import contextlib
import json
import os
import random
import shutil
import sqlite3
import struct
import subprocess
import sys

import pytest
from made_blocks import ASCII, SHORT
from made_files import app1, app1_xmp, app13, chunk, iim, jpeg, page, png, png_xmp, profile, resource, tiff, webp, xmp
import made_raw
from studio import Studio, needs, run, sql_rows, write

from exifnorm_pictures.catalogue.store import Catalogue
from exifnorm_pictures.comparison.same.group import Basis
from exifnorm_pictures.comparison.same.groups import Groups
from exifnorm_pictures.model import budgets


def exif():
    """An Exif block with bytes that belong to no field between its values."""
    values = ((0x010F, b"Maker\0"), (0x0110, b"Model\0"), (0x0131, b"Program\0"), (0x0132, b"2001:02:03 04:05:06\0"))
    at, entries, rest = 8 + 2 + 12 * (len(values) + 1) + 4, [], b""
    for tag, value in values:
        rest += bytes(20)
        entries.append(struct.pack(">HHII", tag, ASCII, len(value), at + len(rest)))
        rest += value
    entries.insert(2, struct.pack(">HHIHH", 0x0112, SHORT, 1, 6, 0))
    return b"MM\0*\0\0\0\x08" + struct.pack(">H", len(entries)) + b"".join(entries) + bytes(4) + rest


EXIF = exif()
IPTC = iim(b"one") + iim(b"two") + b"\x1c\2\x78\0\7Caption"
XMP = xmp(
    "<dc:format>image/jpeg</dc:format><dc:subject><rdf:Bag><rdf:li>a</rdf:li><rdf:li>b</rdf:li></rdf:Bag></dc:subject>"
    "<dc:title><rdf:Alt><rdf:li xml:lang='x-default'>Title</rdf:li></rdf:Alt></dc:title>" + " " * 200,
    "xmp:Rating='3'",
)
MAKERS = {
    "jpg": lambda exif, iptc, xmp: jpeg(app1(exif), app13(resource(0x0404, iptc)), app1_xmp(xmp)),
    "png": lambda exif, iptc, xmp: png(chunk(b"eXIf", exif), png_xmp(xmp), profile(b"iptc", resource(0x0404, iptc))),
    "webp": lambda exif, _, xmp: webp((b"VP8 ", bytes(100)), (b"EXIF", exif), (b"XMP ", xmp)),
    "tif": lambda _, iptc, xmp: tiff(
        page((0x010F, ASCII, b"Maker\0"), (0x0131, ASCII, b"Program\0"), (0x02BC, 1, xmp), (0x83BB, 7, iptc)), behind=b""
    ),
}
RAW = {**made_raw.MAKERS, "xmp": lambda: XMP}
MOST = 40  # pictures of one group that ExifTool compares


def mutated(octets, chance):
    """A copy with a few changed, doubled, exchanged or lost bytes."""
    made = bytearray(octets)
    for _ in range(chance.choice((1, 1, 1, 2, 3))):
        at = chance.randrange(len(made))
        end = min(at + chance.choice((1, 1, 2, 4, 12)), len(made))
        action = chance.randrange(5)
        if action == 0:
            made[at] ^= 1 << chance.randrange(8)
        elif action == 1:
            made[at:end] = bytes(chance.choice((0, 1, 0xFF, 0x20, chance.randrange(256))) for _ in range(end - at))
        elif action == 2:
            made[at:at] = made[at:end]
        elif action == 3 and len(made) > 20:
            del made[at:end]
        else:
            other = chance.randrange(len(made))
            made[at], made[other] = made[other], made[at]
    return bytes(made)


def mutations(kind, number):
    """Mutated pictures: of every second one a block is mutated, and the file around it is made anew, so that its lengths and sums are right."""
    chance = random.Random(kind)
    for it in range(number):
        blocks = [EXIF, IPTC, XMP]
        if it % 2:
            one = chance.randrange(3)
            blocks[one] = mutated(blocks[one], chance)
        made = MAKERS[kind](*blocks)
        yield made if it % 2 else mutated(made, chance)


def tags_of(folder, names):
    """What ExifTool shows of the Exif, IPTC and XMP tags of some files, each by group, family and name, with places in the file and pixels left out."""
    places = ("ThumbnailOffset", "StripOffsets", "StripByteCounts", "PreviewImageStart", "PreviewImage", "RawDataOffset", "XMPToolkit")
    options = ["-json", "-a", "-G0:1:4", "-n", "-b", *(word for it in places for word in ("-x", it))]
    done = run(
        ["exiftool", "-config", "", "-q", "-q", *options, *(f"-{it}:all" for it in ("EXIF", "IPTC", "XMP")), "-@", "-"],
        folder,
        "\n".join(names).encode(),
    )
    return {it.pop("SourceFile"): it for it in json.loads(done.stdout)}


@needs("exiftool")
class TestSame:
    """ExifTool shows no tag of Exif, IPTC or XMP otherwise in two pictures that are the same."""

    @pytest.mark.parametrize("kind", MAKERS)
    def test_it(self, kind, tmp_path):
        self.see_that_same_is_the_same(tmp_path, kind, MAKERS[kind](EXIF, IPTC, XMP), mutations(kind, 300), 20)

    @pytest.mark.parametrize("kind", RAW)
    def test_raw(self, kind, tmp_path):
        whole, chance = RAW[kind](), random.Random(kind)
        self.see_that_same_is_the_same(tmp_path, kind, whole, (mutated(whole, chance) for _ in range(150)), 5)

    def see_that_same_is_the_same(self, tmp_path, kind, whole, files, least):
        (tmp_path / "p").mkdir()
        write(tmp_path / "p" / f"whole.{kind}", whole)
        for number, octets in enumerate(files):
            write(tmp_path / "p" / f"{number:03}.{kind}", octets)
        done = run(["exifnorm-pictures", "index", "p", "--catalogue", "c", "--quiet", "--jobs", "2"], tmp_path)
        assert done.returncode in (0, 2) and b"internal error" not in done.stderr + done.stdout, done
        found = []
        with Catalogue(str(tmp_path / "c")) as catalogue:
            for it in Groups(catalogue).by_meaning():
                if it.basis in (Basis.MEANING, Basis.REPAIR):
                    found.append([os.path.relpath(os.fsdecode(one.path), tmp_path) for one in it.members][:MOST])
        assert sum(map(len, found)) >= least, "too few pictures are the same to show anything"
        tags = tags_of(tmp_path, [name for group in found for name in group])
        for group in found:
            first = tags[group[0]]
            assert len(first) >= 3, first
            for name in group[1:]:
                other = {key: (value, first.get(key)) for key, value in tags[name].items() if value != first.get(key)}
                assert not other and tags[name].keys() == first.keys(), (group[0], name, other)


# Runs commands on many files in one process, and prints the status and the output of each.
CALLS = """
import contextlib, io, json, os, resource, sys
from exifnorm_pictures.cli.main import main
resource.setrlimit(resource.RLIMIT_CPU, (1500, 1500))
resource.setrlimit(resource.RLIMIT_AS, (2 << 30, 2 << 30))
for line in sys.stdin:
    words = json.loads(line)
    out, err = io.StringIO(), io.StringIO()
    with contextlib.redirect_stdout(out), contextlib.redirect_stderr(err):
        status = main(words)
    os.write(3, json.dumps([words, status, out.getvalue(), err.getvalue()]).encode() + b"\\n")
"""


def outcomes(folder, calls):
    """The outcome of each of some calls of exifnorm-pictures, in one process. A crash or a hang fails at the call."""
    with open(folder / "said", "wb") as said:
        done = subprocess.run(
            [sys.executable, "-c", CALLS],
            input="\n".join(map(json.dumps, calls)).encode(),
            cwd=folder,
            timeout=1800,
            preexec_fn=lambda: os.dup2(said.fileno(), 3),
            pass_fds=(3,),
            env=Studio.environment(EXIFNORM_DEBUG=""),
            stdout=subprocess.DEVNULL,
            stderr=subprocess.PIPE,
        )
    found = [json.loads(it) for it in (folder / "said").read_bytes().splitlines()]
    assert (done.returncode, len(found)) == (0, len(calls)), (done, calls[len(found)] if len(found) < len(calls) else "")
    return found


@pytest.fixture
def archive(tmp_path):
    """Nine pictures of three meanings, and a catalogue of several pages."""
    (tmp_path / "p").mkdir()
    for number in range(9):
        text = "x" * 300
        write(
            tmp_path / "p" / f"{number}.jpg",
            jpeg(app1(EXIF.replace(b"Maker", b"Made%d" % (number % 3))), app1_xmp(xmp(f"<dc:format>{text}</dc:format>"))),
        )
        os.utime(tmp_path / "p" / f"{number}.jpg", (1e9, 1e9))
    done = run(["exifnorm-pictures", "index", "p", "--catalogue", "good", "--quiet"], tmp_path)
    assert done.returncode == 0, done
    return tmp_path


def meanings(found):
    """The meanings, 0 to 2, of the pictures of each group in an output of same --json."""
    for line in found.splitlines():
        group = json.loads(line)
        pictures = group["pictures"] if group["record"] == "group" else ()
        yield {int(os.path.basename(it["path"])[0]) % 3 for it in pictures}


def see_no_false_group(found):
    for words, status, out, err in found:
        assert status in (0, 1, 2, 4), (words, status, err)
        assert "internal error" not in out + err and "Traceback" not in err, (words, err)
        if words[0] == "same":
            assert all(len(it) <= 1 for it in meanings(out)), (words, out)


def catalogue_mutations(octets, number):
    """Catalogues with changed bytes, exchanged or doubled pages, and lost ends."""
    chance = random.Random("catalogue")
    size = struct.unpack_from(">H", octets, 16)[0]
    pages = len(octets) // size
    for it in range(number):
        made = bytearray(octets)
        action = it % 4
        if action == 0:  # bytes of any page, most of them in the heads of pages, where SQLite has its offsets
            for _ in range(chance.choice((1, 2, 8))):
                at = chance.randrange(pages) * size + chance.choice((chance.randrange(size), chance.randrange(40)))
                made[at] = chance.choice((0, 1, 0xFF, chance.randrange(256)))
        elif action == 1:
            one, other = chance.randrange(1, pages), chance.randrange(1, pages)
            made[one * size : (one + 1) * size], made[other * size : (other + 1) * size] = (
                octets[other * size : (other + 1) * size],
                octets[one * size : (one + 1) * size],
            )
        elif action == 2:
            del made[chance.randrange(len(made)) :]
        else:
            made[100:2000] = mutated(bytes(made[100:2000]), chance)[:1900].ljust(1900, b"\0")
        yield bytes(made)


def test_mutated_files(archive):
    """Pages, bytes and ends of a catalogue: each command ends, with no error of our own and no false group."""
    calls = []
    for number, octets in enumerate(catalogue_mutations((archive / "good").read_bytes(), 200)):
        name = f"c{number}"
        write(archive / name, octets)
        calls += [["same", name, "--json"], ["changed", "good", name]]
        if number % 10 == 0:
            calls += [
                ["report", name, "--html", "page"],
                ["catalogue", "merge", name, "--catalogue", f"m{number}"],
                ["index", "p", "--catalogue", name, "--quiet", "--jobs", "1"],
            ]
    found = outcomes(archive, calls)
    see_no_false_group(found)
    assert {0, 4} <= {status for words, status, _, _ in found if words[0] == "same"}, "some are read, some are refused"


def test_mutated_rows(archive):
    """Values of other types and lengths in each column of each table."""
    values = ["NULL", "x'00'", "''", "-1", "1e300", "9223372036854775807", "'\u202e\x1b'", "zeroblob(1000000)", "'x'"]
    calls = []
    columns = [
        (table, row[1])
        for table in ("runs", "pictures", "blocks", "not_read")
        for row in sql_rows(archive / "good", f"PRAGMA table_info({table})")
    ]
    for number, (table, column) in enumerate(columns):
        for value in values[number % 4 :: 4]:
            name = f"c{len(calls)}"
            shutil.copy(archive / "good", archive / name)
            with contextlib.closing(sqlite3.connect(archive / name, isolation_level=None)) as base:
                with contextlib.suppress(sqlite3.IntegrityError):
                    base.execute(
                        f"UPDATE {table} SET {column} = {value} WHERE rowid % 2"
                        if table in ("runs", "pictures")
                        else f"UPDATE {table} SET {column} = {value}"
                    )
            calls += [["same", name, "--json"], ["changed", "good", name], ["report", name, "--html", "page"]]
    found = outcomes(archive, calls)
    for words, status, out, err in found:
        assert status in (0, 1, 2, 4) and "internal error" not in out + err and "Traceback" not in err, (words, err)


def test_an_index_of_another_state(archive):
    """An index of SQLite that differs from its table, as in a file of pages of two states, makes no false group."""
    shutil.copy(archive / "good", archive / "c")
    with contextlib.closing(sqlite3.connect(archive / "c", isolation_level=None)) as base:
        base.execute("PRAGMA writable_schema = ON")
        (row,) = base.execute("SELECT * FROM sqlite_master WHERE name = 'pictures_by_content'").fetchall()
        true = base.execute("SELECT id, exif FROM pictures").fetchall()
        base.execute("UPDATE pictures SET exif = (SELECT exif FROM pictures WHERE id = 1)")
        base.execute("DELETE FROM sqlite_master WHERE name = 'pictures_by_content'")
        base.execute(f"PRAGMA schema_version = {base.execute('PRAGMA schema_version').fetchone()[0] + 1}")
    with contextlib.closing(sqlite3.connect(archive / "c", isolation_level=None)) as base:
        base.executemany("UPDATE pictures SET exif = ? WHERE id = ?", [(exif, number) for number, exif in true])
        base.execute("PRAGMA writable_schema = ON")
        base.execute("INSERT INTO sqlite_master VALUES (?, ?, ?, ?, ?)", row)
    see_no_false_group(outcomes(archive, [["same", "c", "--json"]]))


def test_settings_of_sqlite(archive):
    """What a catalogue is written and read with, as SECURITY.md has it: SQLite's own promises for power loss rest on them."""
    shutil.copy(archive / "good", archive / "c")
    for make in (True, False):
        with Catalogue(str(archive / "c"), make=make) as catalogue:
            settings = {
                name: catalogue.base.execute(f"PRAGMA {name}").fetchone()[0]
                for name in ("trusted_schema", "cell_size_check", "foreign_keys")
            }
            assert settings == {"trusted_schema": 0, "cell_size_check": 1, "foreign_keys": 1}
            if make:
                assert [catalogue.base.execute(f"PRAGMA {it}").fetchone()[0] for it in ("journal_mode", "synchronous")] == ["wal", 2]
            else:
                with pytest.raises(sqlite3.OperationalError, match="readonly"):
                    catalogue.base.execute("DELETE FROM pictures")
            if sys.version_info >= (3, 11):
                assert catalogue.base.getlimit(sqlite3.SQLITE_LIMIT_LENGTH) == budgets.ROW_BYTES
    assert sql_rows(archive / "c", "PRAGMA journal_mode")[0] == ("delete",), "a closed catalogue is one file"
