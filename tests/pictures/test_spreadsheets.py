"""--csv: tables that spreadsheets and csv modules read, in which no name or text of a stranger is a formula."""

import csv
import errno
import io
import os
import re
import sys

import openpyxl
import pytest
from made_blocks import BLOCKS, with_exif
from made_files import app1, app1_xmp, data_set, exif, jpeg, png, png_xmp, title, with_record, with_texts, xmp
from studio import SMALL_JPEG, needs, put, tool
from test_groups import FILES as TWINS

from exifnorm_pictures.cli import sheets

FORMULA = '=HYPERLINK("http://x")\r\n\x1b'
INSIDE = 'a;=1+1;b\t+1\tc\n@x;-1,=2;"=3'  # formulas for who separates by semicolons or tabs
PICTURE = jpeg(with_texts(artist=FORMULA.encode()), with_record(data_set(80, b"Otto"), data_set(5, b'a;b,c"d')), app1_xmp(title("+1")))
NAMES = [b"=1+1.jpg", b"@a.jpg", b"+b\xff\n.jpg", b"-c.jpg", "\uff1d1.jpg".encode(), b'plain,"1".jpg']


@pytest.fixture
def run(called, folder):
    """Runs a command in a folder: its status and what it prints."""

    def call(*words, names=()):
        (folder / "list").write_bytes(b"".join(it + b"\0" for it in names))
        return called(*words, *(["--files-from", "list", "-0"] if names else []))[:2]

    return call


def rows(out):
    """The rows of a table, which must be as RFC 4180 has it: lines end with CR LF, and all rows have as many cells."""
    found = list(csv.reader(io.StringIO(out, newline=""), strict=True))
    assert {len(it) for it in found} == {len(found[0])}
    assert out.endswith("\r\n") and len(re.findall("[^\r]\n", out)) == sum(cell.count("\n") for it in found for cell in it)
    return [dict(zip(found[0], it)) for it in found[1:]]


def put_odd(folder, octets, names=NAMES):
    for name in names:
        with open(os.fsencode(folder) + b"/" + name, "wb") as file:
            file.write(octets)


@pytest.mark.parametrize("command", ["show", "show --captions", "check"])
def test_no_cell_is_a_formula(command, run, folder):
    put_odd(folder, PICTURE)
    _, out = run(*command.split(), "--csv", names=NAMES)
    found = rows(out)
    assert len({it["picture"] for it in found}) == len(NAMES)
    for it in found:
        for cell in it.values():
            assert not cell.startswith(("=", "+", "-", "@", "\t", "\r", "\n", "\uff1d")), cell
            assert all(one.isprintable() or one in "\n\t" for one in cell), cell
    assert {it["picture"] for it in found} >= {"'=1+1.jpg", "'+b\\xff\\n.jpg", 'plain,"1".jpg'}


@pytest.mark.parametrize("command", ["show", "show --captions", "check"])
@pytest.mark.parametrize("separator", ",;\t", ids=["comma", "semicolon", "tab"])
def test_no_part_of_a_cell_is_a_formula(command, separator, run, folder):
    """Whatever separates cells where the table is opened."""
    put_odd(
        folder,
        jpeg(with_texts(artist=INSIDE.encode(), copyright=INSIDE.encode()), with_record(data_set(80, b"Otto"))),
        [b"a;=1.jpg", b"b\t@1.jpg"],
    )
    _, out = run(*command.split(), "--csv", names=[b"a;=1.jpg", b"b\t@1.jpg"])
    cells = [cell for row in csv.reader(io.StringIO(out, newline=""), delimiter=separator) for cell in row]
    assert "1" in "".join(cells)
    assert not [it for it in cells if it.startswith(("=", "+", "-", "@"))]


def test_a_cell_with_a_separator_is_in_quotes(run, folder):
    for separator, text in ((",", "a,b"), (";", "a;b"), ("\t", "a\tb")):
        (folder / "a.jpg").write_bytes(jpeg(with_record(data_set(120, text.encode()))))
        assert f'"{text}"' in run("show", "--captions", "a.jpg", "--csv")[1], separator


def test_links_and_files_that_are_gone_are_not_to_be_deleted(run, folder):
    """To delete one of two names of a file, or a file through a linked folder, may delete the last copy."""
    (folder / "p").mkdir()
    for name in "abc":
        (folder / "p" / f"{name}.jpg").write_bytes(TWINS["a1"])
    os.link(folder / "p/a.jpg", folder / "p/d.jpg")
    os.symlink("p", folder / "linked")
    run("index", "p", "linked", "--catalogue", "c", "--quiet")
    (folder / "p/c.jpg").unlink()
    found = {os.path.relpath(it["picture"], folder): it for it in rows(run("same", "c", "--csv")[1])}
    assert {name: it["keep"] for name, it in found.items() if it["keep"]} == {"p/a.jpg": "1", "p/b.jpg": "0"}
    assert "gone" in found["p/c.jpg"]["note"] and "hard link" in found["p/d.jpg"]["note"]


def test_a_repaired_block_says_so_in_each_row(run, folder):
    (folder / "a.jpg").write_bytes(with_exif(SMALL_JPEG, BLOCKS["Unsorted"]))
    status, out = run("show", "--csv", "a.jpg")
    assert status == 2 and all("repair" in it["note"] for it in rows(out))


def test_an_open_answer_has_a_row(run, folder):
    """A table without a row would say that nothing differs."""
    (folder / "a.jpg").write_bytes(jpeg(app1(BLOCKS["UnknownKind"])))
    (folder / "b.jpg").write_bytes(jpeg(app1(exif(b"abc"))))
    for words in (["compare", "a.jpg", "b.jpg"], ["compare", "b.jpg", "nothing.jpg"], ["check", "a.jpg"], ["check", "nothing.jpg"]):
        status, out = run(*words, "--csv", "--no-programs") if words[0] == "compare" else run(*words, "--csv")
        assert status == 2 and any("refused" in cell or "NoFile" in cell for it in rows(out) for cell in it.values()), words


# ---- --xlsx: the tables of --csv as spreadsheet files, whose texts stay texts. openpyxl and Gnumeric read them.

NUMBERS = ["1998.10", "1998.1", "2003-12", "007", "1E5", "=1+1", "+1/2", "+49", "@x", "TRUE", "12.4.2001", "http://a.example/"]
AMPHORA = "\U0001f3fa"


def rows_of(path):
    sheet = openpyxl.load_workbook(path).active
    return [[it.value for it in row] for row in sheet.iter_rows()], sheet


def test_inventory_numbers_stay_texts(folder, called):
    put(folder / "p", {f"{at:02}.jpg": jpeg(with_record(data_set(5, it.encode()))) for at, it in enumerate(NUMBERS)})
    status, printed, messages = called("show", "--captions", "p", "--xlsx", "t.xlsx")
    assert (status, printed, messages) == (0, f"t.xlsx: {len(NUMBERS)} rows\n", "")
    rows, sheet = rows_of("t.xlsx")
    column = rows[0].index("title")
    assert [row[column] for row in rows[1:]] == NUMBERS
    cells = [row[column] for row in sheet.iter_rows(min_row=2)]
    assert {it.data_type for it in cells} == {"s"} and {it.number_format for it in cells} == {"@"} and not any(it.hyperlink for it in cells)
    assert sheet.freeze_panes == "B2"


@needs("ssconvert")
def test_gnumeric_shows_the_same_texts(folder, called):
    """A program that people open such files in, which turns such texts of a CSV file into numbers and dates."""
    put(folder / "p", {f"{at:02}.jpg": jpeg(with_record(data_set(5, it.encode()))) for at, it in enumerate(NUMBERS)})
    called("show", "--captions", "p", "--xlsx", "t.xlsx")
    tool(folder, "ssconvert", "t.xlsx", "shown.csv")
    with open("shown.csv", encoding="utf-8", newline="") as file:
        assert [row["title"] for row in csv.DictReader(file)] == NUMBERS


@pytest.mark.parametrize(
    "words",
    [
        ["show", "--captions", "p"],
        ["check", "p"],
        ["show", "p/a.jpg"],
        ["compare", "p/a.jpg", "p/b.jpg"],
        ["changed", "p", "q"],
        ["same", "c"],
    ],
    ids=lambda it: it[0],
)
def test_each_table_is_that_of_csv(words, folder, called):
    files = {
        "a.jpg": jpeg(app1(exif(b"abc")), with_record(data_set(80, b"Anna"))),
        "b.jpg": jpeg(app1(exif(b"abc"))),
        "c.jpg": jpeg(app1(exif(b"abc"))),
    }
    put(folder / "p", files)
    put(folder / "q", {**files, "b.jpg": jpeg(app1(exif(b"xyz")))})
    called("index", "p", "--catalogue", "c", "--quiet")
    expected_status, text, _ = called(*words, "--csv")
    status, printed, _ = called(*words, "--xlsx", "t.xlsx")
    expected = list(csv.reader(text.splitlines()))
    assert status == expected_status and printed == f"t.xlsx: {len(expected) - 1} row{'s' * (len(expected) != 2)}\n"
    rows, _ = rows_of("t.xlsx")
    assert [["" if it is None else str(it) for it in row] + [""] * (len(expected[0]) - len(row)) for row in rows] == expected


def test_no_file_is_replaced(folder, called):
    put(folder, {"a.jpg": jpeg(app1(exif(b"abc"))), "t.xlsx": b"somebody's work"})
    status, printed, messages = called("show", "--captions", "a.jpg", "--xlsx", "t.xlsx")
    assert (status, printed) == (4, "") and "t.xlsx isn't written: it is there already" in messages
    assert (folder / "t.xlsx").read_bytes() == b"somebody's work"


def test_without_the_package(folder, called, monkeypatch):
    monkeypatch.setitem(sys.modules, "xlsxwriter", None)
    put(folder, {"a.jpg": jpeg(app1(exif(b"abc")))})
    status, _, messages = called("show", "--captions", "a.jpg", "--xlsx", "t.xlsx")
    assert status == 4 and "python3-xlsxwriter" in messages and not (folder / "t.xlsx").exists()


def test_a_command_that_fails_leaves_no_file(folder, called):
    assert called("same", "nothing", "--xlsx", "t.xlsx")[0] == 4
    assert not (folder / "t.xlsx").exists()


def test_the_limits_of_a_sheet(folder, called, monkeypatch):
    """More rows are no table cut short, and a long text says how long it is. Control characters are escaped."""
    long = b"x" * 40_000
    put(
        folder,
        {
            "a.jpg": jpeg(with_record(data_set(5, b"a\x01b"), b"\x1c\x02\x78\x80\x04" + len(long).to_bytes(4, "big") + long)),
            "b.jpg": jpeg(),
        },
    )
    called("show", "--captions", "a.jpg", "--xlsx", "t.xlsx")
    (heads, row), _ = rows_of("t.xlsx")
    assert row[heads.index("caption")].endswith("x.. (40,000 characters)") and row[heads.index("title")] == "a\\x01b"
    monkeypatch.setattr(sheets, "ROWS", 2)
    status, _, messages = called("show", "--captions", ".", "--xlsx", "u.xlsx")
    assert status == 4 and "no more than 2 rows: use --csv" in messages and not (folder / "u.xlsx").exists()


def test_a_long_text_beyond_the_first_plane(folder, called):
    """A cell has room for 32,767 characters of UTF-16, of which those beyond the first plane take two each."""
    put(folder, {"a.png": png(png_xmp(xmp(f"<dc:description>{AMPHORA * 20_000}</dc:description>")))})
    called("show", "--captions", "a.png", "--xlsx", "t.xlsx")
    (heads, row), _ = rows_of("t.xlsx")
    text = row[heads.index("caption")]
    assert len(text.encode("utf-16-le")) // 2 <= 32_767 and text.endswith(f"{AMPHORA}.. (20,000 characters)")


def test_a_full_disk(folder, called, monkeypatch):
    def full(*_, **__):
        raise OSError(errno.ENOSPC, os.strerror(errno.ENOSPC))

    put(folder, {"a.jpg": jpeg(app1(exif(b"abc")))})
    monkeypatch.setattr("xlsxwriter.workbook.ZipFile", full)
    status, _, messages = called("show", "--captions", "a.jpg", "--xlsx", "t.xlsx")
    assert status == 4 and "no space left on device" in messages and "report it" not in messages and not (folder / "t.xlsx").exists()
