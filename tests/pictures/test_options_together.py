"""Options together, over a small part of the made museum.

The parser says which options may stand together. Each pair of those is in at least one run. Each run is made in every form of output, and
all forms must say the same. A pair of options that exclude each other must be refused, with the names of both.
"""

import contextlib
import csv
import functools
import hashlib
import itertools
import json
import os
import shutil
import sqlite3
from typing import Dict, List, NamedTuple

import made_museum
import pytest
from exifnorm_pictures.cli import parser
from exifnorm_pictures.cli.grammar import COMMANDS, joined
from museum import WHOLE, done, made, put_bag, run, standing_clock
from studio import name_of, needs
from test_museum import ELSEWHERE, RULES
from test_status_table import CELLS as STATUSES

pytestmark = pytest.mark.xdist_group("museum")
FORMS = {"": "", "--csv": "--csv", "--json": "--json", "--xlsx": "--xlsx sheet.xlsx", "--geojson": "--geojson", "-0": "-0"}
# The beginning of the line of each command, with each kind of arguments
LINES = {
    "index": ("index p --catalogue n --jobs 1", "index p --catalogue c --jobs 1", "index p --shards parts --jobs 1"),
    "catalogue merge": ("catalogue merge old c --catalogue n",),
    "catalogue forget": ("catalogue forget c p/desk p/work",),
    "catalogue relocate": ("catalogue relocate c p q",),
    "verify": ("verify c --jobs 1", "verify --bag bag --jobs 1"),
    "same": ("same c",),
    "changed": ("changed old c", "changed q p --jobs 1", "changed old c --picture p/work/retitled.jpg"),
    "compare": ("compare q/work/retitled.jpg p/work/retitled.jpg", "compare q/notes/note.jpg p/notes/moved.jpg"),
    "list": ("list c", "list p --jobs 1"),
    "check": ("check c --rules rules", "check p --rules rules --jobs 1", "check p c", "check p/work", "check c"),
    "nightly": ("nightly p --catalogue old --jobs 1",),
    "show": ("show p/work/retitled.jpg p/refused/Unsorted.jpg", "show p c --captions", "show c --captions"),
    "explain": ("explain p/refused/Unsorted.jpg",),
    "report": ("report c --html page",),
    "catalogue export": ("catalogue export c tables",),
    "mend": ("mend c copies", "mend p/refused/Unsorted.jpg copies/a.jpg"),
}
# What stands after an option, with what it needs to have an effect
VALUES = {
    "--again": "",
    "--all": "",
    "--bag": None,
    "--by-picture": "",
    "--captions": None,  # in LINES, because names are then those of folders, too
    "--catalogue": None,
    "--columns": "title,creator",
    "--count": "creator",
    "--differ": "title",
    "--each": "",
    "--edit": "1",
    "--equal-numbers": "",
    "--evidence": "sums",
    "--exact": "",
    "--exclude": "desk",
    "--files-from": "names",
    "--form": "hashdeep --evidence sums",
    "--html": "page.html",
    "--ignore": "title",
    "--jobs": "1",
    "--keep-old": "older",
    "--kind": "iptc",
    "--least-fields": "3",
    "--limit": "50",
    "--match": "stem",
    "--nights": "2",
    "--link-to": "'https://dam.example/{path}' --html page.html",
    "--list": "missing",
    "--lossless": "",
    "--maker-notes": "",
    "--no-programs": "",
    "--no-look": "",
    "--null": "--files-from names",
    "--only": "creator",
    "--picture": None,
    "--pixels": "",
    "--quiet": "",
    "--rules": "rules",
    "--shards": None,
    "--sidecars": "",
    "--since": "2026-01-03",
    "--state": "state",
    "--undo": "undo.args",
    "--title": "'The museum' --html page.html",
    "--where": "'title = \"A vase\" or with caption'",
    "--whole": "",
    "--with": "creator",
    "--without": "headline",
}
OF_COMMANDS = {("report", "--since"): "old", ("check", "--rules"): None, ("nightly", "--html"): "page.html"}
NO_EFFECT = ("--quiet", "--debug", "--jobs", "--limit")  # on what is printed on standard output, but for `index --quiet`
MOST = 6  # options of a run, beside those of its line
PARTS = (
    "work/re",
    "work/d",
    "work/p",
    "copies/",
    "contradictions/creator",
    "texts/cut",
    "refused/Unsorted",
    "notes/note",
    "notes/moved",
    "sidecars/raw",
    "desk/1",
    "drawer/1",
)


def value_of(command, option):
    return OF_COMMANDS.get((command, option), VALUES.get(option, "?"))


def options_of(command):
    """The options of a command that aren't forms of output, each by its longest name."""
    of_parser = parser.parsers()[1][command]._actions
    names = {action.option_strings[-1] for action in of_parser if action.option_strings}
    return sorted(names - {*FORMS, "--help", "--debug", *ELSEWHERE} - ({"--null"} if command == "list" else set()))


def forms_of(command):
    known = parser.parsers()[1][command]._option_string_actions
    return [form for form in FORMS if form in known and not (form == "-0" and command != "list")]


def words_of(option, command):
    name = "-0" if option == "--null" else option
    return f"{name} {value_of(command, option)}"


def exclusive(command: str) -> List[tuple]:
    """The options of a command that can't stand together: of each tuple one may be given."""
    groups = parser.parsers(command)[1][command]._mutually_exclusive_groups
    lines = [line for it in COMMANDS if it.name == command for line in joined(it.apart) if line]
    heads = [line.partition("  ")[0].partition(": ") for line in lines]
    pairs = [(first, other) for first, _, others in heads for other in others.split()]
    return [*pairs, *(tuple(it.option_strings[0] for it in group._group_actions) for group in groups)]


def groups_of(command):
    """The options of a command that exclude each other, by the parser, each by its longest name."""
    names = {short: action.option_strings[-1] for action in parser.parsers()[1][command]._actions for short in action.option_strings}
    return [frozenset(names[it] for it in group) for group in exclusive(command)]


def rows(able, groups):
    """Sets of options in which each pair that may stand together stands once: greedy, and each of a few, because one hides what others do."""
    pairs = {it for it in map(frozenset, itertools.combinations(able, 2)) if not any(it <= group for group in groups)}
    found = []
    while pairs:
        row = set(min(map(sorted, pairs)))
        for _ in range(MOST - 2):
            fitting = [it for it in able if it not in row and not any(len(group & {*row, it}) > 1 for group in groups)]
            best = max(fitting, key=lambda it: (sum(frozenset((it, other)) in pairs for other in row), it), default=None)
            if best and any(frozenset((best, other)) in pairs for other in row):
                row.add(best)
        found.append(sorted(row))
        pairs -= set(map(frozenset, itertools.combinations(row, 2)))
    return found


KEPT = ("p", "q", "bag", "rules", "names")


@pytest.fixture(scope="session")
def archive_of_this_process(tmp_path_factory):
    return made(tmp_path_factory.mktemp("together"), make)


@pytest.fixture
def archive(archive_of_this_process):
    """The folder in which commands are called: `q` and `p` are pictures of both nights, `old` and `c` their catalogues with all that `index` reads."""
    with standing_clock(), contextlib.chdir(archive_of_this_process):
        yield archive_of_this_process


def make(folder):
    first, second = (
        {name: it for name, it in files.items() if name.startswith(PARTS)}
        for files in (made_museum.first_night(), made_museum.second_night())
    )
    made_museum.put("p", first)
    done(f"index p --jobs 1 --catalogue .old --quiet{WHOLE}", folder)
    shutil.rmtree("p")
    made_museum.put("p", second, made_museum.TIME + 86_400, before=first)
    done(f"index p --jobs 1 --catalogue .c --quiet{WHOLE}", folder)
    made_museum.put("q", first)
    put_bag(folder / "bag")
    for name, text in (("rules", RULES), ("names", "p/work/retitled.jpg")):
        (folder / name).write_text(text, encoding="utf-8")


def fresh(folder):
    """Leaves only what `archive` has made."""
    for path in folder.iterdir():
        if path.name not in KEPT and not path.name.startswith("."):
            shutil.rmtree(path) if path.is_dir() else path.unlink()
    for name in ("c", "old"):
        shutil.copy(folder / f".{name}", folder / name)
    (folder / "copies").mkdir()


class Outcome(NamedTuple):
    """How a command ends, what it prints, and what it has written, each file by the digest of its bytes."""

    status: int
    lines: List[str]
    messages: List[str]
    written: Dict[str, str]


def outcome(line, folder):
    """How a line ends in the archive as it was made. No option may make an internal error, or a status that isn't documented."""
    fresh(folder)
    status, lines, messages = run(line, folder)
    text = "\n".join(messages)
    assert "Traceback" not in text and "internal error" not in text, (line, text)
    assert (name_of(line), status) in STATUSES or status in (3, 4), (line, status, text)
    return Outcome(status, lines, messages, written(folder))


def written(folder):
    files = [it for it in folder.rglob("*") if it.is_file() and it.relative_to(folder).parts[0] not in KEPT and not it.name.startswith(".")]
    return {str(it.relative_to(folder)): digest_of(it) for it in files if it.suffix not in (".xlsx", ".lock")}


def digest_of(path):
    """Of the rows of a catalogue: how its pages lie is left to SQLite."""
    octets = path.read_bytes()
    if octets.startswith(b"SQLite"):
        with contextlib.closing(sqlite3.connect(path)) as base:
            octets = "\n".join(base.iterdump()).encode("utf-8", "surrogateescape")
    return hashlib.sha256(octets).hexdigest()


def objects_of(lines):
    return [json.loads(line) for line in lines]


def paths_of(objects):
    """The names of the pictures that are listed: each with an object, or in a group."""
    members = [member for it in objects if it["record"] == "group" for member in (*it["pictures"], *it["links"])]
    return sorted({os.path.abspath(it["path"]) for it in (*objects, *members) if "path" in it})


def rows_of(lines):
    table = list(csv.reader(lines))
    assert len({len(row) for row in table}) == 1, table[:3]
    return [dict(zip(table[0], row)) for row in table[1:]]


class Forms:
    """One line in each form of output, and what these have to have in common."""

    def __init__(self, line, options, folder):
        self.command, self.line, self.folder = name_of(line), line, folder
        self.words = " ".join([line, *(words_of(it, self.command) for it in options)])
        self.plain = outcome(self.words, folder)
        also = {"changed": "history", "show": "captions", "check": "conflicts"}
        self.schemas = tuple(f"exifnorm-pictures/{it}/" for it in (self.command.split()[-1], also.get(self.command, self.command)))
        taken = {*options, *line.split()}
        groups = groups_of(self.command)
        self.forms = {}
        for form in forms_of(self.command):
            name = "--null" if form == "-0" else form
            if form not in taken and not any(len(group & {name, *taken}) > 1 for group in groups):
                self.forms[form] = outcome(f"{self.words} {FORMS[form]}", folder)

    def check(self):
        for form, found in self.forms.items():
            if form != "--geojson":
                assert (found.status, found.written) == (self.plain.status, self.plain.written), (self.words, form, found.messages)
        if "--json" in self.forms:
            objects = objects_of(self.forms["--json"].lines)
            assert all(it["schema"].startswith(self.schemas) and it["record"] for it in objects)
            if "--csv" in self.forms:
                pictures = [row.get("picture") for row in rows_of(self.forms["--csv"].lines)]  # `compare` has no such column
                named = set(map(os.path.abspath, filter(None, pictures)))
                if "--files-from" in self.words:  # each name is answered
                    assert named <= {*paths_of(objects)}, self.words
                elif "/conflicts/" in objects[0]["schema"]:  # objects have differences of form, too, which the table has by --all
                    real = [it for it in objects if any(row["kind"] == "different" for row in it.get("conflicts", []))]
                    assert {*paths_of(real)} <= named <= {*paths_of(objects)}, self.words
                elif self.command != "compare" and "--count" not in self.words:
                    assert sorted(named) == paths_of(objects), self.words
        if "-0" in self.forms:
            names = [it for it in "\n".join(self.forms["-0"].lines).split("\0") if it.strip()]
            assert sorted(names) == paths_of(objects), self.words


@functools.lru_cache(maxsize=None)  # two tests ask
def able_options(line, archive):
    """The options that a command takes after this line. `--whole` is for folders, and not for catalogues."""
    command = name_of(line)
    others = [it for it in options_of(command) if value_of(command, it) is not None and it not in line.split()]
    return [it for it in others if outcome(f"{line} {words_of(it, command)}", archive).status not in (3, 4)]


@needs("exiftool", "exiv2")
@pytest.mark.parametrize("line", [line for lines in LINES.values() for line in lines])
def test_each_form_says_the_same_whatever_the_options(line, archive):
    """With each set of options that may stand together, all forms of output have one status, name the same pictures, and write the same files; and
    the options that are about how a command works change nothing of what it prints."""
    for row in [[], *rows(able_options(line, archive), groups_of(name_of(line)))]:
        forms = Forms(line, row, archive)
        forms.check()
        quiet = [it for it in row if it not in NO_EFFECT or it == "--quiet" and line.startswith("index")]
        if quiet != row:
            plain = Forms(line, quiet, archive).plain
            assert (plain.status, plain.lines) == (
                forms.plain.status,
                forms.plain.lines,
            ), f"{forms.words}: {NO_EFFECT} change what is printed"


def test_each_option_is_taken_by_a_line(archive):
    """One that isn't would stand in no run."""
    for command, lines in LINES.items():
        taken = {it for line in lines for it in (*able_options(line, archive), *line.split())}
        assert {*options_of(command)} <= taken, command


@pytest.mark.parametrize(
    "command, pair", [(name, pair) for name in LINES for group in exclusive(name) for pair in itertools.combinations(group, 2)]
)
def test_options_that_exclude_each_other_are_refused_by_name(command, pair, archive):
    line = LINES[command][0].partition(" --")[0]
    values = {"--catalogue": "c", "--bag": "bag", "--shards": "parts", "--captions": "", "--picture": "p/work/retitled.jpg"}
    words = [f"{it} {values[it] if it in values else FORMS[it][len(it):] if it in FORMS else value_of(command, it)}" for it in pair]
    for one, other in (words, words[::-1]):
        found = outcome(f"{line} {one} {other}", archive)
        assert found.status == 3 and all(it in found.messages[-1] for it in pair), (line, one, other, found)


@needs("exiftool")
@pytest.mark.parametrize(
    "line",
    ["changed old c --all", "changed q p --jobs 1 --equal-numbers", "compare q/work/retitled.jpg p/work/retitled.jpg"],
)
@pytest.mark.parametrize("word", ["title", "creator", "keywords"])
def test_only_and_ignore_make_the_whole(line, word, archive):
    """What differs with --only and what differs with --ignore are together all that differs."""
    whole, *parts = (differing(outcome(f"{line} {words} --json", archive).lines) for words in ("", f"--only {word}", f"--ignore {word}"))
    assert whole == set.union(*parts) and not set.intersection(*parts) and whole


def differing(lines):
    """The name of each picture with each field that differs."""
    objects = [it for it in objects_of(lines) if it["record"] in ("picture", "comparison")]
    return {(it.get("path"), part["name"]) for it in objects for part in it.get("fields", [])}


COMPANIONS = {"--form": "--evidence sums", "--null": "--files-from names"}
MORE_LINES = {"compare": ("compare q/work/published.jpg p/work/published.jpg",)}  # one of which got a position
# The options that are about what is printed or written. Whether the others have an effect depends on what the pictures have
SHOWING = ("--all", "--by-picture", "--columns", "--count", "--differ", "--each", "--exact")
SHOWING += ("--html", "--link-to", "--list", "--title", *COMPANIONS)


def effects(line, form, archive):
    """The options that a line takes in a form of output, each with whether it makes any difference."""
    command, groups = name_of(line), groups_of(name_of(line))
    taken = {*line.split(), "--null" if form == "-0" else form}
    plain = {}
    for option in able_options(line, archive):
        if option in SHOWING and option not in taken and not any(len(group & {*taken, option}) > 1 for group in groups):
            companion = COMPANIONS.get(option, "")
            if companion not in plain:
                plain[companion] = outcome(f"{line} {companion} {FORMS[form]}", archive)
            found = outcome(f"{line} {words_of(option, command)} {FORMS[form]}", archive)
            if found.status not in (3, 4):
                yield option, found != plain[companion] or option == "--null"  # which has one on names with a line end


@needs("exiftool", "exiv2")
@pytest.mark.parametrize("command", LINES)
def test_each_option_has_an_effect(command, archive):
    """In each form of output what is printed or written is another with it, after one of the lines at least. One without effect is refused."""
    seen = {}
    for line in (*LINES[command], *MORE_LINES.get(command, ())):
        for form in forms_of(command):
            if form != "--xlsx" and (form == "" or form not in line.split()):  # a sheet is the table of --csv
                for option, has_effect in effects(line, form, archive):
                    seen[form, option] = seen.get((form, option), False) or has_effect
    assert not [it for it, has_effect in seen.items() if not has_effect]


@pytest.mark.parametrize(
    "command, option", [(name, it) for name in LINES for it in COMPANIONS if it in options_of(name) and not name.startswith("list")]
)
def test_an_option_that_needs_another_one_is_refused_without_it(command, option, archive):
    needed = COMPANIONS[option].split()[0]
    found = outcome(f"{LINES[command][0]} {words_of(option, command).replace(COMPANIONS[option], '')}", archive)
    assert found.status == 3 and option in found.messages[-1] and needed in found.messages[-1], found
