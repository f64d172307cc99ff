"""What each command does about twice as much of anything is at most 2.3 times as much work, and takes at most 2.3 times as much memory.

The pictures of each format grow in each way that the format knows, and folders and catalogues in theirs. Work is counted as calls, steps
of SQLite, bytes that are hashed or written and bytes that are asked of the allocator, of which SQLite, zlib, expat and the library ask, too. A
quadratic part shows at these sizes: if a picture has n fields, and each is compared with all others, the second size has four times the
work. With --long the sizes are ten times as large, and the time of a processor is compared, which also knows the inside of calls.

Each growth says what must be read of what it makes. That a picture never takes more than its limits allow is in test_attacks.py.
"""

import itertools
import json
import math
import os
import re
import shutil
from collections import Counter

import pytest
from commands import text_of
from growing import FOLDERS, FORMATS as MAKERS, IN_EACH_FORMAT, KINDS, OF_SHARED, OTHERS, Whole
from work import COUNTED, Work

from exifnorm_pictures.cli.parser import parsers
from exifnorm_pictures.extract.readers import FORMATS

TIMES = 2.3
FEW = {
    "calls": 3000,
    "steps": 20,
    "asked": 600_000,
    "hashed": 20_000,
    "written": 4_000_000,  # a cache of SQLite that is full begins to write
    "memory": 200_000,
    "seconds": 0.3,
}  # that aren't about the input
FIRST = next(iter(MAKERS))  # the format by which all commands are counted
LONG_TIMES = 7  # the time of a processor, for four times as much
OF_A_PAGE = 1_000_000  # bytes that a page of a report takes until it is written; it has 100,000 characters of its pictures at most
OF_A_PICTURE = 50_000  # bytes by which memory may grow for each further picture, whatever it has

# What each command is given: P and Q are folders with the same names, A and B a picture of each, C and D their catalogues
COMMANDS = {
    "index": ["P --catalogue C --quiet --jobs 1 --pixels --sidecars"],
    "catalogue merge": ["C D --catalogue merged"],
    "catalogue forget": ["kept P"],
    "catalogue relocate": ["moving P Q"],
    "verify": ["C --quiet --jobs 1"],
    "same": ["C", "C --json --ignore dc:none"],
    "changed": [
        "--picture A C D",
        "C D --no-programs --quiet --jobs 1",
        "C D --each --no-programs --quiet --jobs 1",
        "C D --json --ignore dc:none --no-programs --quiet --jobs 1",
    ],
    "compare": ["A B --no-programs", "A B --json --exact --no-programs"],
    "show": ["A", "A --json", "A --csv", "--captions P", "--captions C --json"],
    "list": ["C --without credit", "P --json --where title=x --jobs 1 --quiet", "C --count keywords", "C --with Make --columns dc:none"],
    "check": ["--rules rules C --json", "P --all", "C --json"],
    "nightly": ["P --catalogue nights --rules rules --jobs 1 --json"],
    "explain": ["A"],
    "report": ["D --since C --html written/"],
    "catalogue export": ["C written.sqlite --quiet"],
    "mend": ["A mended"],
}
EACH = [f"{command} {words}" for command, calls in COMMANDS.items() for words in calls]
INDEX = EACH[0]  # which makes the catalogue C
# A format, and most forms of a block, differ only in how they are read, which each command does alike: these do it in their own ways
READING = [
    INDEX,
    "verify C --quiet --jobs 1",
    "show A --json",
    "mend A mended",
]
OF_FORMS = [
    *READING,
    "compare A B --json --exact --no-programs",
    "show --captions P",
    "check P --all",
    "catalogue export C written.sqlite --quiet",
]


def test_all_commands_and_formats_are_counted():
    assert set(COMMANDS) == set(parsers()[1])
    assert set(MAKERS) == {it.name for it in FORMATS}


LAWS = {
    "linear": (lambda n: 100 * n, False),
    "n log n": (lambda n: 100 * n * math.log(n), False),
    "a step": (lambda n: 100 * n + 60 * max(n - 1000, 0), False),
    "quadratic": (lambda n: n * n, True),
    "a quadratic part": (lambda n: 1000 * n + n * n, True),
    "n to the power of 1.3": (lambda n: 100 * n**1.3, True),
    "a step to a quadratic part": (lambda n: 1000 * n + 2 * max(n - 1000, 0) ** 2, True),
}


@pytest.mark.parametrize("law", LAWS)
def test_what_is_bad(law):
    calls, is_bad = LAWS[law]
    start, once, twice, four = ({"a": Work(0, int(calls(n)), *[0] * 7, b"", "")} for n in (1, 1000, 2000, 4000))
    assert bool(but_for_steps(check(start, once, twice), start, once, twice, four)) == is_bad


class Archive:
    """Two folders with the same names, their catalogues, and what commands do about them."""

    def __init__(self, counting, folder, put):
        self.counting, self.folder = counting, folder
        (folder / "rules").write_text("every picture needs credit\nkeywords is x\n")
        for side, mark in (("P", b"qa"), ("Q", b"qb")):
            (folder / side).mkdir()
            put(mark, folder / side)
        first = sorted(it.name for it in (folder / "P").iterdir() if it.is_file())[0]
        self.names = {"A": f"P/{first}", "B": f"Q/{first}"}

    def run(self, words, statuses=(0, 1, 2)):
        """What a command does."""
        work = self.counting.run(self.folder, *(self.names.get(it, it) for it in words.split()))
        assert work.status in statuses, (words, work.status, work.err[-3000:])
        return work

    def works(self, commands):
        """The work of each command, the first of which makes the catalogue."""
        works = {INDEX: self.run(INDEX)}
        for name in ("kept", "moving"):
            shutil.copy(self.folder / "C", self.folder / name)
        if any({"B", "D", "nights"} & set(words.split()) for words in commands):
            self.run(INDEX.replace(" P ", " Q ").replace(" C ", " D "))
            shutil.copy(self.folder / "D", self.folder / "nights")
            self.run("catalogue relocate nights Q P")  # all of P is changed since
        works.update((words, self.run(words)) for words in commands if words != INDEX)
        return works


def of_size(counting, folder, put, number):
    folder = folder / str(number)
    folder.mkdir()
    return Archive(counting, folder, lambda mark, side: put(number, mark, side))


def what_is_read(archive):
    """How often the blocks of each kind have the mark, by `show --json`, or how many members a long value with it has; and the causes of those
    blocks that aren't accepted."""
    shown = json.loads(archive.run("show A --json").out)
    assert not shown["problem"], shown
    counts = Counter()
    for block in shown["blocks"]:
        with_mark = [it for it in block["fields"] if "qa" in it["exact"]]
        counts[block["kind"]] += sum(it["count"] if "sha256:" in it["exact"] else it["exact"].count("qa") for it in with_mark)
    return {kind: number for kind, number in counts.items() if number}, {it["cause"] for it in shown["blocks"]} - {None}


def check(start, once, twice):
    """That the work of the second size is little more than twice that of the first."""
    bad = {}
    for words in once:
        for what in COUNTED:
            fixed = 0 if what == "memory" else getattr(start[words], what)  # the most memory may be that of something else
            first, second = (getattr(it[words], what) - fixed for it in (once, twice))
            if second > TIMES * max(first, 0) + FEW[what]:
                bad[words, what] = first, second
    return bad


def but_for_steps(bad, start, once, twice, four):
    """What is bad at the second doubling, too. A cache that is full between two sizes, or a file that is no longer in memory as a whole, makes a
    step, after which twice as much is at most 2.3 times the work again. What grows faster than the input does so at each doubling, and what
    the second doubling adds is more than 2.3 times what the first one adds, whatever part of the work isn't about the input."""
    again = check(start, {words: twice[words] for words, _ in bad}, four)
    return {
        (words, what): work
        for (words, what), work in bad.items()
        if (words, what) in again and adds_more(what, once[words], twice[words], four[words])
    }


def adds_more(what, once, twice, four):
    first, second, third = (getattr(it, what) for it in (once, twice, four))
    return third - second > TIMES * (second - first) + FEW[what]


def check_seconds(start, once, four):
    bad = {}
    for words in once:
        first, second = (it[words].seconds - start[words].seconds for it in (once, four))
        if second > LONG_TIMES * max(first, 0) + FEW["seconds"]:
            bad[words, "seconds"] = first, second
    return bad


def grown(counting, start, folder, put, size, is_long, commands, look):
    """What is bad about the work at a size and at twice that, and four times in the long form. `look` sees the archive of the first size, and
    the work.

    What is bad is so at the next doubling, too: see `but_for_steps`."""
    archive = of_size(counting, folder, put, size)
    once = archive.works(commands)
    look(archive, once)
    twice = of_size(counting, folder, put, 2 * size).works(commands)
    bad = check(start, once, twice)
    if bad or is_long:
        # with the commands before them, which leave texts in the catalogue
        ran = list(once)
        again = ran if is_long else ran[: 1 + max(ran.index(words) for words, _ in bad)]
        four = of_size(counting, folder, put, 4 * size).works(again)
        bad = but_for_steps(bad, start, once, twice, four)
    if is_long:
        bad.update(check_seconds(start, once, four))
    return bad, once, twice


def of_little(counting, folder, packets):
    """The work of each command for hardly anything, which is about the command and not its input: with a packet of XMP or without."""
    ending, make = next(iter(MAKERS.values()))

    def put(number, mark, side):
        parts = IN_EACH_FORMAT["fields"].make(number, mark).parts
        (side / f"a.{ending}").write_bytes(make(parts._replace(packets=parts.packets[:packets])))

    return of_size(counting, folder, put, 1).works(list(dict.fromkeys([*EACH, *OF_SHARED])))


@pytest.fixture(scope="module")
def start(counting, tmp_path_factory):
    return of_little(counting, tmp_path_factory.mktemp("start"), 1)


@pytest.fixture(scope="module")
def start_without_xmp(counting, tmp_path_factory):
    """Without the work by which the first packet of XMP is read, as modules that it needs."""
    return of_little(counting, tmp_path_factory.mktemp("start"), 0)


@pytest.fixture
def is_long(pytestconfig):
    return pytestconfig.getoption("--long")


# Of each format whether it may have Exif, IPTC and XMP, by the first table of the document.
SIGNS = dict(re.findall(r"(?m)^\| ([^|]+) \| ([●–] \| [●–] \| [●–]) \|", text_of("docs", "COMPARED.md")))


# Texts are inside a packet, of which the reader of a format knows the bytes alone; and these grow with its fields, too.
@pytest.mark.parametrize("name, growth", [it for it in itertools.product(MAKERS, IN_EACH_FORMAT) if it[0] == FIRST or it[1] != "texts"])
def test_pictures_of_a_format(name, growth, counting, start, folder, is_long):
    ending, make = MAKERS[name]
    growth = IN_EACH_FORMAT[growth]

    def put(number, mark, side):
        (side / f"a.{ending}").write_bytes(make(growth.make(number, mark).parts))

    size = growth.long if is_long else growth.short
    is_first = is_long or name == FIRST
    has = {kind for kind, sign in zip(KINDS, SIGNS[name].split(" | ")) if sign == "●"}
    expected = {kind: count for kind, count in growth.make(size, b"qa").texts.items() if kind in has}
    if name == "NAME.xmp" and growth.make.__name__ == "of_packets":
        expected = {"xmp": 1}  # the file is the packet

    def look(archive, _):
        assert what_is_read(archive) == (expected, set())

    bad, *_ = grown(counting, start, folder, put, size, is_long, EACH if is_first else READING, look)
    assert not bad, bad


@pytest.mark.parametrize("name", OTHERS)
def test_pictures(name, counting, start, start_without_xmp, folder, is_long):
    ending, growth = OTHERS[name]

    def put(number, mark, side):
        whole: Whole = growth.make(number, mark)
        (side / f"a.{ending}").write_bytes(whole.octets)
        os.truncate(side / f"a.{ending}", len(whole.octets) + whole.hole)

    size = growth.long if is_long else growth.short
    whole = growth.make(size, b"qa")

    def look(archive, _):
        assert what_is_read(archive) == (whole.texts, {whole.cause} - {None})

    commands = growth.commands or (EACH if is_long else OF_FORMS)
    of_command = start if b"xmpmeta" in whole.octets or "xmp" in whole.texts else start_without_xmp
    bad, once, twice = grown(counting, of_command, folder, put, size, is_long, commands, look)
    for words, what in itertools.product(once, growth.free):
        grows = getattr(twice[words], what) - getattr(once[words], what)
        if grows > FEW[what]:
            bad[words, what] = grows, "and it costs nothing"
    assert not bad, bad


@pytest.mark.parametrize("name", FOLDERS)
def test_folders(name, counting, start, folder, is_long):
    growth = FOLDERS[name]
    size = growth.long if is_long else growth.short

    def look(_, works):
        assert works[INDEX].out.decode().strip() == growth.counts(size)

    bad, once, twice = grown(counting, start, folder, growth.put, size, is_long, EACH, look)
    for words in once:
        grows = twice[words].memory - once[words].memory
        if grows > OF_A_PICTURE * size + FEW["memory"] + OF_A_PAGE * words.startswith("report"):
            bad[words, "memory of a picture"] = grows / size
    assert not bad, bad


@pytest.mark.parametrize("words", ("same C", "catalogue export C listed --quiet"))
def test_names_of_a_list(words, counting, folder):
    """They are in a table on the disk."""
    archive = Archive(counting, folder, lambda mark, side: FOLDERS["names"].put(1, mark, side))
    archive.run(INDEX)

    def memory(number):
        (folder / "names").write_text("".join(f"{it:0200x}\n" for it in range(number)))  # more than a cache of SQLite
        return archive.run(f"{words} --files-from names", range(5)).memory

    once, twice = memory(10_000), memory(20_000)
    assert twice - once <= FEW["memory"]
