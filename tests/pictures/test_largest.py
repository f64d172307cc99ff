"""SECURITY.md: a picture costs at most about 256 MB, also at the limits, in each command; the start of a command isn't counted.

All limits and the memory are an eighth of what they are, and so are the pictures: what is proportional stays so, and takes an eighth of the
time. Each format has each filling once, and each command has each filling once.
"""

import gc
import itertools
import json
import re

import pytest
from growing import FORMATS
from made_blocks import SHORT
from made_files import data_set, iim, page, resource, tiff, xmp
from made_more_files import psd
from largest import FILLINGS, SIZES, made, of_name
from studio import name_of, sql_rows
from test_attacks import NO_CLOCK, run_each

from exifnorm import pictures
from exifnorm_pictures.cli.parser import parsers
from exifnorm_pictures.model import budgets

MEMORY, SCALE = 256 << 20, 8
SMALL = "\n".join(
    [
        NO_CLOCK,
        f"budgets.LIMITS.update({{what: most // {SCALE} for what, most in budgets.LIMITS.items()}})",
        *(f"budgets.{name} //= {SCALE}" for name, value in vars(budgets).items() if name.isupper() and type(value) is int and value > 9999),
        "",
    ]
)
INDEX = "index {} --catalogue {} --quiet --jobs 1 --pixels"
# What each command is given: P and Q are folders with the picture and with another one of the same name
COMMANDS = {
    "index": INDEX.format("P", "new"),
    "catalogue merge": "catalogue merge c d --catalogue e",
    "catalogue forget": "catalogue forget kept P",
    "catalogue relocate": "catalogue relocate moving P Q",
    "verify": "verify c P --quiet --jobs 1",
    "same": "same c --json --ignore dc:none",
    "changed": "changed d c --exact --no-programs --quiet --jobs 1",
    "history": "changed --picture P/{} d c",
    "compare": "compare P/{0} Q/{0} --json --exact --no-programs",
    "list": "list P --json --where title=x --columns keywords --quiet --jobs 1",
    "check": "check --rules rules P --json --quiet --jobs 1",
    "nightly": "nightly P --catalogue d --rules rules --jobs 1",
    "show": "show P/{} --json",
    "captions": "show --captions P --json",
    "check, agreement": "check P --all",
    "explain": "explain P/{}",
    "report": "report c --since d --html page",
    "catalogue export": "catalogue export c tables --quiet",
    "mend": "mend P/{} copy",
}
# The catalogues, and what makes each: the last one is of Q, as if that were P
CATALOGUES = {it: [INDEX.format("P", it)] for it in ("c", "kept", "moving")}
CATALOGUES["d"] = [INDEX.format("Q", "d"), "catalogue relocate d Q P"]


def test_all_commands_and_formats_are_tried():
    assert {*map(name_of, COMMANDS.values())} == set(parsers()[1]) and set(SIZES) == set(FORMATS)


def choice():
    """For each format and filling the commands that are tried: the filling of a command is another one with each format. The picture that
    takes the most is tried with each command."""
    names = itertools.cycle(COMMANDS)
    commands = -(-len(COMMANDS) * len(FILLINGS) // (len(SIZES) * len(FILLINGS)))
    each = [(name, filling, [next(names) for _ in range(commands)]) for filling in FILLINGS for name in SIZES]
    return each + [("JPEG", "many fields", [it]) for it in COMMANDS if ("JPEG", "many fields", it) not in _tried(each)]


def _tried(each):
    return {(name, filling, command) for name, filling, commands in each for command in commands}


def put(folder, name, filling):
    folder.mkdir(exist_ok=True)
    (folder / "rules").write_text("every picture needs credit\n")
    for side, words in (("P", filling), ("Q", "one field")):
        (folder / side).mkdir(parents=True)
        (folder / side / of_name(name)).write_bytes(made(name, words, SCALE))


def run_all(folder, commands, name):
    """Runs commands after what makes the catalogues that they need."""
    words = [COMMANDS[it].format(of_name(name)).split() for it in commands]
    makes = [call.split() for it, made_by in CATALOGUES.items() if any(it in some for some in words) for call in made_by]
    return run_each(folder, [*makes, *words], SMALL, PATH="/nowhere")


@pytest.fixture(scope="module")
def start(tmp_path_factory):
    """The memory of each command for hardly anything."""
    folder = tmp_path_factory.mktemp("start")
    put(folder, "JPEG", "one field")
    return {name_of(" ".join(it.words)): it.memory for it in run_all(folder, COMMANDS, "JPEG")}


@pytest.mark.parametrize("name, filling, commands", choice(), ids=lambda it: it if isinstance(it, str) else " ".join(it))
def test_memory(name, filling, commands, start, tmp_path):
    """By the lesser of two runs if one takes too much: rarely a process has some megabytes more, whatever it reads."""
    taken = {}
    for attempt in ("first", "second"):
        put(tmp_path / attempt, name, filling)
        for ended in run_all(tmp_path / attempt, commands, name):
            about = (ended.words, ended.status, ended.out[-500:], ended.err)
            assert ended.status in (0, 1, 2) and not re.search("internal|TooMuch|over a limit", ended.out + ended.err), about
            words, more = " ".join(ended.words), ended.memory - start[name_of(" ".join(ended.words))]
            taken[words] = min(taken.get(words, more), more)
        if all(memory * SCALE <= MEMORY for memory in taken.values()):
            return
    pytest.fail(f"bytes: {taken}")


@pytest.mark.parametrize("name", SIZES)
def test_nothing_of_a_picture_stays(name, folder, called):
    """Objects that refer to one another in a ring stay in memory until Python looks for rings, which is seldom: after many pictures."""
    octets = made(name, "many parts", 100)
    for number, some in enumerate((octets, octets[: len(octets) // 2])):
        (folder / f"{number}-{of_name(name)}").write_bytes(some)
        for words in (
            ("show", f"{number}-{of_name(name)}"),
            ("compare", f"{number}-{of_name(name)}", f"0-{of_name(name)}", "--no-programs"),
        ):
            called(*words)  # which imports what it needs
            gc.collect()
            gc.disable()
            gc.set_debug(gc.DEBUG_SAVEALL)
            try:
                called(*words)
                gc.collect()
                own = {f"{type(it).__module__}.{type(it).__name__}" for it in gc.garbage}
            finally:
                gc.set_debug(0)
                gc.garbage.clear()
                gc.enable()
            assert not [it for it in own if it.startswith("exifnorm")], (words, own)


def many_records(number):
    """A PSD of many records, each with as many DataSets as are kept of one."""
    return psd(*(resource(0x0404, iim(b"a") * (budgets.FIELDS // SCALE - 1) + iim(b"%d" % it)) for it in range(number)))


def many_values(tag, pages):
    """A TIFF of pages with a tenth each of the entries that a picture may have, each with a value of its own."""
    number = budgets.LIMITS[budgets.ENTRIES] // SCALE // 10
    return tiff(*(page(*((tag, SHORT, b"%08d" % (number * it + at)) for at in range(number))) for it in range(pages)))


OVER = {
    "records.psd": lambda: many_records(80),
    "values.tif": lambda: many_values(0x010F, 25),
    "layers.tif": lambda: many_values(0x935C, 9),
}


@pytest.mark.parametrize("name", OVER)
def test_over_the_limits(name, start, tmp_path):
    """It isn't read, and costs no more."""
    (tmp_path / name).write_bytes(OVER[name]())
    for ended in run_each(
        tmp_path, [["show", name, "--json"], ["show", "--captions", name], ["index", name, "--catalogue", "c"]], SMALL, PATH="/nowhere"
    ):
        assert ended.status in (0, 2) and re.search("TooMuch|over a limit", ended.out), (ended.words, ended.out[-500:], ended.err)
        assert (ended.memory - start[name_of(" ".join(ended.words))]) * SCALE <= MEMORY, (
            ended.words,
            ended.memory - start[name_of(" ".join(ended.words))],
        )


def test_texts_behind_the_fields_that_are_read(folder, called):
    """Of a block the first 100,000 fields are read. What has texts says so, where a further one may be among them, and its status is 2."""
    (folder / "p").mkdir()
    record = iim(b"word") * 100_000 + data_set(120, b"the caption")
    (folder / "p" / "a.tif").write_bytes(
        tiff(page((0x83BB, 7, record), (0x02BC, 1, xmp("<dc:description>another caption</dc:description>"))))
    )
    assert called("index", "p", "--catalogue", "c", "--quiet")[0] == 0
    where = "the fields of IPTC after the first 100,000"
    picture = pictures.read(folder / "p" / "a.tif")
    assert picture.too_many == (where,) and picture.texts("caption") == ("another caption",)
    for given in ("p", "c"):
        status, text, _ = called("show", "--captions", given)
        assert (
            (status, text.count(where)) == (2, 1) and "another caption" in text and "the caption" not in text.replace("another", "")
        ), text[-300:]
        status, text, _ = called("show", "--captions", given, "--json")
        assert (status, json.loads(text)["too_many"]) == (2, [where])
        status, text, _ = called("show", "--captions", given, "--csv")
        assert status == 2 and text.count(where) == 1
        for more in ((), ("--json",), ("--csv",)):
            status, text, _ = called("check", given, *more)
            assert (status, text.count(where)) == (2, 1), (given, more, text[-300:])
    assert called("list", "c", "--without", "title")[0] == 2
    called("catalogue", "export", "c", "tables", "--quiet")
    assert sql_rows(folder / "tables", "SELECT count(*) FROM captions WHERE label = 'caption' AND text IS NULL")[0] == (1,)
    assert not sql_rows(folder / "tables", "SELECT * FROM conflicts")


def test_texts_that_are_too_many_for_a_catalogue(folder, called):
    """It has none of the fields of a block that are more than 4 MB, so it knows no text of it, and none that isn't there."""
    (folder / "a.tif").write_bytes(tiff(page((0x83BB, 7, iim(b"x" * 50) * 90_000))))
    assert called("index", "a.tif", "--catalogue", "c", "--quiet")[0] == 0
    where = "the fields of IPTC, which are too many for the catalogue"
    for command in ("show --captions", "check"):
        status, text, _ = called(*command.split(), "c")
        assert (status, text.count(where)) == (2, 1) and "no title" not in text, text
        status, text, _ = called(*command.split(), "a.tif")
        assert status == 0 and where not in text, text[-300:]
