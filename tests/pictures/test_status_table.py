"""The statuses of each command in its help: each of them is made to happen, and no other status is."""

import re
import shutil

import pytest
from made_blocks import BLOCKS
from made_files import A, B, app1, app1_xmp, app13, jpeg, resource, xmp
from studio import needs, put, sql_rows
from test_list import record
from test_nightly import CUT
from test_repairs import REFUSED

from exifnorm_pictures.cli.parser import parsers
from exifnorm_pictures.cli.topics import STATUSES
from exifnorm_pictures.model.found import UNREAD_TRAILER
from exifnorm_pictures.scan import index

CELLS = {(command, status) for command, texts in STATUSES.items() for status in texts}

GOOD, OTHER = (jpeg(app1(block), app13(resource(0x0404, record([("title", "A"), ("credit", "Museum")])))) for block in (A, B))
REFUSED_BLOCK = jpeg(app1(b"II*\0\xff\xff\0\0"))
TWO_CREATORS = jpeg(
    app13(resource(0x0404, record([("creator", "Anna")]))),
    app1_xmp(xmp("<dc:creator><rdf:Seq><rdf:li>Otto</rdf:li></rdf:Seq></dc:creator>")),
)
# The files of p, and those that replace them after the first line, or are gone (None)
INDEX = "index p --catalogue c --pixels --quiet"
ARCHIVES = {
    "good": ({"a.jpg": GOOD, "b.jpg": OTHER}, {}),
    "edited": ({"a.jpg": GOOD, "b.jpg": OTHER}, {"a.jpg": OTHER}),
    "gone": ({"a.jpg": GOOD, "b.jpg": OTHER}, {"a.jpg": None}),
    "refused": ({"a.jpg": REFUSED_BLOCK, "b.jpg": OTHER}, {}),
    "now refused": ({"a.jpg": GOOD, "b.jpg": OTHER}, {"a.jpg": REFUSED_BLOCK}),
    "other refused": ({"a.jpg": REFUSED_BLOCK}, {"a.jpg": jpeg(app1(b"II*\0\xff\xff\0\1"))}),
    "two creators": ({"a.jpg": TWO_CREATORS}, {}),
    "not readable": ({"a.jpg": GOOD, "b.orf": CUT}, {}),
    "now not readable": ({"a.jpg": GOOD}, {"b.orf": CUT}),
    "after repair": ({"a.jpg": jpeg(app1(REFUSED["unsorted"])), "b.jpg": jpeg(app1(REFUSED["unsorted"] + b"\0\0"))}, {}),
    "lossless": ({"a.jpg": jpeg(app1(REFUSED["unsorted"]))}, {}),
    "not mended": ({"a.jpg": b"\xff\xd8" + app1(b"II*\0\xff\xff\0\0") + b"no marker" * 9}, {}),
    "lossy": ({"a.jpg": jpeg(app1(BLOCKS["Doubled"]))}, {}),
}
# The archive, and the lines, of which the last one has the status
CASES = {
    ("index", 0): ("refused", INDEX),
    ("index", 2): ("not readable", INDEX),
    ("catalogue merge", 0): ("refused", INDEX, "catalogue merge c --catalogue d"),
    ("catalogue forget", 0): ("good", INDEX, "catalogue forget c p"),
    ("catalogue relocate", 0): ("good", INDEX, "catalogue relocate c p copy"),
    ("catalogue relocate", 1): ("gone", INDEX, "catalogue relocate c p copy"),
    ("verify", 0): ("good", INDEX, "verify c"),
    ("verify", 1): ("gone", INDEX, "verify c"),
    ("verify", 2): ("good", "index p --catalogue c --quiet", "verify c"),
    ("same", 0): ("good", INDEX, "same c"),
    ("same", 2): ("after repair", INDEX, "same c"),
    ("changed", 0): ("good", INDEX, "changed c p"),
    ("changed", 1): ("edited", INDEX, "changed c p"),
    ("changed", 2): ("other refused", INDEX, "changed c p"),
    ("compare", 0): ("good", "compare p/a.jpg p/a.jpg"),
    ("compare", 1): ("good", "compare p/a.jpg p/b.jpg"),
    ("compare", 2): ("refused", "compare p/a.jpg p/b.jpg --only IFD0:Artist"),
    ("list", 0): ("good", INDEX, "list c --without credit"),
    ("list", 2): ("refused", INDEX, "list c --without creator"),
    ("check", 0): ("good", INDEX, "check --rules rules c"),
    ("check", 1): ("two creators", INDEX, "check --rules rules c"),
    ("check", 2): ("refused", INDEX, "check --rules rules c"),
    ("nightly", 0): ("good", "nightly p --catalogue c", "nightly p --catalogue c"),
    ("nightly", 1): ("edited", "nightly p --catalogue c", "nightly p --catalogue c"),
    ("nightly", 2): ("now not readable", "nightly p --catalogue c", "nightly p --catalogue c"),
    ("show", 0): ("good", "show p/a.jpg"),
    ("show", 2): ("refused", "show p/a.jpg"),
    ("explain", 0): ("good", "explain p/a.jpg"),
    ("explain", 2): ("refused", "explain p/a.jpg"),
    ("report", 0): ("refused", INDEX, "report c --html page"),
    ("catalogue export", 0): ("refused", INDEX, "catalogue export c tables"),
    ("mend", 0): ("lossless", "mend p/a.jpg copy.jpg"),
    ("mend", 1): ("lossy", "mend p/a.jpg copy.jpg"),
    ("mend", 2): ("not mended", "mend p/a.jpg copy.jpg"),
}


def test_each_cell_has_a_case():
    assert CELLS == CASES.keys()
    assert {command for command, _ in CELLS} == parsers()[1].keys()


def ended(before, after, lines, folder, called):
    """How the last line ends."""
    put(folder / "p", before)
    (folder / "rules").write_text("every picture needs title\n")
    for number, line in enumerate(lines):
        if number == 1:
            for file, octets in after.items():
                put(folder / "p", {file: octets or b""})
                if octets is None:
                    (folder / "p" / file).unlink()
            shutil.copytree(folder / "p", folder / "copy")
        found = called(*line.split())
    return found


@needs("exiftool", "exiv2")
@pytest.mark.parametrize("command, status", CASES, ids=lambda it: str(it))
def test_a_status(command, status, folder, called):
    name, *lines = CASES[command, status]
    found, printed, messages = ended(*ARCHIVES[name], lines, folder, called)
    assert found == status, printed + messages


@needs("exiftool", "exiv2")
@pytest.mark.parametrize("command", ["changed", "check", "nightly", "verify"])
def test_the_greatest_status_counts(command, folder, called):
    """Of an archive with what leads to 1 in one folder, and what leads to 2 in another."""
    both = [ARCHIVES[CASES[command, status][0]] for status in (1, 2)]
    sides = ({f"{number}/{file}": octets for number, of in enumerate(both) for file, octets in of[at].items()} for at in (0, 1))
    found, printed, messages = ended(*sides, CASES[command, 2][1:], folder, called)
    assert found == 2, printed + messages


@pytest.mark.parametrize("command", sorted({command for command, _ in CELLS}))
def test_bad_arguments_and_a_file_that_is_no_catalogue(command, folder, called):
    """3 for an option that there isn't, and 4 for a text in place of a catalogue, if the command reads one."""
    put(folder, {"c": b"text", "p/a.jpg": GOOD, "rules": b"every picture needs title\n"})
    with pytest.raises(SystemExit) as refused:
        called(*command.split(), "--no-such-option")
    assert refused.value.code == 3
    lines = {case[-1] for (name, _), case in CASES.items() if name == command}
    for line in lines:
        if re.search(r"\bc\b", line.replace("copy", "")):
            assert called(*line.split())[0] in (3, 4), line


@pytest.mark.parametrize("names", [("p", "q"), ("q", "p")])
def test_a_mistyped_name_for_changed(called, folder, names):
    (folder / "p").mkdir()
    status, _, message = called("changed", *names)
    assert status == 4 and "no folder or catalogue q" in message


@pytest.mark.parametrize("name", ["text", "missing", "v99", "p", "all"])
def test_no_catalogue_beside_one_adds_nothing(called, folder, indexed, name):
    """To the one into which they are merged, and of which it is said."""
    indexed({"a.jpg": GOOD})
    shutil.copy("c", "all")
    shutil.copy("c", "v99")
    sql_rows("v99", "PRAGMA user_version = 99")
    put(folder, {"text": b"a text\n", "q/b.jpg": OTHER})
    called("index", "q", "--catalogue", "d", "--quiet")
    before = sql_rows("all", "SELECT * FROM pictures")
    status, _, message = called("catalogue", "merge", "d", name, "--catalogue", "all")
    assert (status, message.count("\n"), sql_rows("all", "SELECT * FROM pictures")) == (4, 1, before)


@pytest.mark.parametrize("is_there", [True, False])
def test_what_a_missing_program_left_is_read_once_it_is_there(called_lines, indexed, monkeypatch, is_there):
    indexed({"a.jpg": GOOD})
    sql_rows("c", "UPDATE pictures SET not_read = NULL")
    sql_rows("c", "INSERT INTO not_read SELECT id, 0, ?, '' FROM pictures", UNREAD_TRAILER)
    monkeypatch.setattr(index.programs, "is_there", lambda _: is_there)
    assert called_lines("index", "p", "--catalogue", "c", "--quiet")[1] == ["1 accepted" if is_there else "1 unchanged"]
