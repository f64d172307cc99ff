"""Laws over the made museum: what one command or form of output says, the others say too, and what must not matter doesn't."""

import collections
import contextlib
import csv
import io
import itertools
import json
import os
import pathlib
import random
import re
import shutil
import sqlite3
import stat
import time

import openpyxl
import pytest
from made_museum import TIME, captioned, put
from museum import WHOLE, done, run
from studio import counts_of_page, counts_of_summary, needs, not_the_same

from exifnorm_pictures.cli import parser
from exifnorm_pictures.model import budgets
from exifnorm_pictures.scan import looking

pytestmark = [pytest.mark.xdist_group("museum")]
TOP = pathlib.Path(__file__).resolve().parents[2]
GOLDEN = pathlib.Path(__file__).parent / "golden" / "museum"
# What is counted, in the outputs of commands
NOUNS = "picture file group field row rule block folder catalogue text value line name label byte list copy contradiction".split()
LABELS = "title,caption,creator,copyright,keywords,credit,city,headline,date created"
OPPOSITE = {"missing after": "missing before", "missing before": "missing after", "damaged": "damaged before"}
OPPOSITE.update({after: before for before, after in OPPOSITE.items()})


def objects(line, folder, status=None):
    """The objects that a command prints with --json, and its status if none is required."""
    ended, lines, messages = run(f"{line} --json", folder)
    assert status in (None, ended), (line, ended, messages)
    return [json.loads(it) for it in lines]


def by_path(lines):
    return {it["path"]: it for it in lines if "path" in it}


def files_of(folder, top):
    """The names of all files, with links that lead nowhere."""
    return sorted(os.path.relpath(os.path.join(place, name), folder) for place, _, names in os.walk(folder / top) for name in names)


def fields_of(picture, first="before", second="after"):
    """The fields that differ, each with what both sides have."""
    return sorted((it["name"], *(json.dumps(it[side]) for side in (first, second))) for it in picture["fields"])


@needs("exiftool")
def test_index_and_same_count_the_same_groups(museum):
    """`index` counts those by meaning. The lines of `same` have as many of each kind as its objects."""
    done("index archive --jobs 1 --catalogue new", museum)
    (line,) = [it for it in run("index archive --jobs 1 --catalogue new", museum)[1] if "groups of pictures" in it]
    bases = collections.Counter(it["basis"] for it in objects("same new", museum, 2) if it["record"] == "group")
    assert int(line.partition(" ")[0]) == bases["meaning"] > 4
    (total,) = [it for it in run("same new", museum)[1] if re.match(r"\d+ groups? of", it)]
    assert [int(it) for it in re.findall(r"(\d+) (?:by|only)", total)] == list(bases.values())


@needs("exiftool")
def test_what_a_catalogue_keeps_is_what_is_read(museum):
    """`list` of a catalogue has the texts that `captions` reads of the files."""
    (museum / "names").write_bytes(b"".join(os.fsencode(it) + b"\0" for it in files_of(museum, "archive")))
    read = {
        os.path.join(str(museum), path): it["captions"]
        for path, it in by_path(objects("show --captions --files-from names -0", museum)).items()
    }
    kept = by_path(objects(f"list plain --columns '{LABELS}'", museum))
    assert len(kept) > 90
    for path, picture in kept.items():
        texts = collections.defaultdict(set)
        for caption in read[path]:
            if not caption["own"]:
                texts[caption["label"]].update(caption["texts"])
        for label in LABELS.split(","):
            assert sorted(set(picture["texts"][label] or ())) == sorted(texts[label]), (path, label)


@needs("exiftool")
def test_the_table_of_captions_leaves_no_cell_empty(museum):
    """It has a text wherever `list` finds one."""
    _, rows, _ = run("show --captions plain --csv", museum)
    kept = by_path(objects(f"list plain --columns '{LABELS}'", museum))
    lacking = {}
    for row in csv.DictReader(rows):
        if picture := kept.get(os.path.abspath(row["picture"])):
            lacking[row["picture"]] = [label for label in LABELS.split(",") if picture["texts"][label] and not row[label]]
    assert len(lacking) > 80 and {name: labels for name, labels in lacking.items() if labels} == {}


@needs("exiftool")
def test_changed_says_what_compare_says(museum):
    """Each picture of both nights: its result and the fields that differ are those of `compare` with its two files."""
    pictures = by_path(objects("changed full.before full --all", museum))
    # `compare` reads no sidecars, and a catalogue has no bytes of a MakerNote, but what ExifTool reads of it
    pictures = {name: it for name, it in pictures.items() if not name.startswith(("sidecars/", "notes/owner"))}
    names = [
        it for it in pictures if all((museum / top / it).is_file() for top in ("one", "archive")) and "\n" not in it and "\\" not in it
    ]
    assert len(names) > 75
    for name in names:
        (compared,) = objects(f"compare 'one/{name}' 'archive/{name}' --exact", museum)
        if compared["identical_files"]:  # which `compare` calls the same whatever is in them
            assert not pictures[name]["fields"], name
            continue
        assert (compared["result"], fields_of(compared)) == (pictures[name]["result"], fields_of(pictures[name])), name


@pytest.mark.parametrize("catalogues", [("before", "plain"), ("full.before", "full")], ids="-".join)
def test_there_and_back(catalogues, museum):
    """The changes from the second night to the first are those from the first to the second, the other way round."""
    there = by_path(objects(f"changed {catalogues[0]} {catalogues[1]} --all --no-programs", museum))
    back = by_path(objects(f"changed {catalogues[1]} {catalogues[0]} --all --no-programs", museum))
    places = {it["moved_to"]["path"]: name for name, it in there.items() if it["moved_to"]}
    for name, picture in there.items():
        place = picture["moved_to"]["path"] if picture["moved_to"] else name
        other = back[place]
        assert other["result"] == OPPOSITE.get(picture["result"], picture["result"]), name
        assert (other["moved_to"] or {"path": place})["path"] == (name if place in places else place), name
        assert fields_of(picture) == fields_of(other, "after", "before"), name


@pytest.mark.parametrize("words", ["", "--only 'IPTC:*'", "--ignore 'XMP*'", "--equal-numbers", "--only caption", "--sidecars"])
def test_text_csv_and_json_say_the_same(words, museum):
    """The number of pictures of each result, and the status."""
    before, after = ("one", "archive --jobs 1 --quiet") if words == "--sidecars" else ("full.before", "full")
    status, lines, _ = run(f"changed {before} {after} {words} --all --json", museum)
    counts = collections.Counter(it["result"] for it in map(json.loads, lines) if "path" in it)
    ended, rows, _ = run(f"changed {before} {after} {words} --all --csv", museum)
    results = {row["picture"]: row["result"] for row in csv.DictReader(rows) if row["picture"]}  # the last rows are about all pictures
    assert (collections.Counter(results.values()), ended) == (counts, status)
    ended, text, _ = run(f"changed {before} {after} {words} --all", museum)
    last = next(line for line in text if line.startswith(tuple(str(it) for it in range(10))) and " same" in line and ": " not in line)
    for result, count in counts.items():
        assert f"{count} {result}" in last.replace(", the same", ", the same"), (result, last)
    assert ended == status


@needs("exiftool")
@pytest.mark.parametrize("before, after", [("before", "plain"), ("full.before", "full")])
def test_all_counts_of_two_nights_agree(before, after, museum):
    """Those of the terminal, of the report, of JSON, and of the letter; a list has as many as its count says."""
    first, results, odd = counts_of_summary("\n".join(run(f"changed {before} {after}", museum)[1]))
    done(f"report {after} --since {before} --html counts.html --no-look", museum)
    assert counts_of_page((museum / "counts.html").read_text(encoding="utf-8")) == (first, results, odd)
    *pictures, summary = objects(f"changed {before} {after}", museum)
    assert summary["counts"] == results and len(pictures) == not_the_same(first)
    assert [it["pictures"] for it in summary["edits"]].count(1) == odd > 4
    shutil.copy(museum / before, museum / "counted")
    letter = run("nightly archive --catalogue counted --jobs 1", museum)[1][0]
    partners = first.partition("Without a partner: ")[2]
    numbers = [int(it) for it in re.findall(r"\d+", f"{first.partition(' ')[0]} {partners}")]
    assert letter.endswith(f": {sum(numbers)} pictures then or now, {len(pictures)} with news"), (letter, first)


@needs("exiftool")
def test_the_order_of_names_says_nothing(museum):
    """A catalogue that is filled in another order, in two runs, prints the same."""
    names = [os.fsencode(museum / it) for it in files_of(museum, "archive")]
    random.Random(5).shuffle(names)
    for number, part in enumerate((names[:40], names[40:])):
        (museum / f"names{number}").write_bytes(b"".join(it + b"\0" for it in part))
        run(f"index --files-from names{number} -0 --jobs 1 --catalogue other --quiet", museum)
    done("index archive --jobs 1 --catalogue once --quiet", museum)
    for line in ("same", "list", "check"):
        command, *more = line.split()
        found = [run(f"{command} {name} {' '.join(more)}", museum) for name in ("once", "other")]
        assert found[0] == found[1], command


@needs("exiftool")
def test_two_merged_are_one(museum):
    """Catalogues of two halves, merged, print what a catalogue of both prints."""
    halves = ("texts copies odd", "work states notes")
    for name, folders in zip(("first", "second"), halves):
        done(f"index {' '.join(f'archive/{it}' for it in folders.split())} --jobs 1 --catalogue {name} --quiet", museum)
    done(f"index {' '.join(f'archive/{it}' for it in ' '.join(halves).split())} --jobs 1 --catalogue whole --quiet", museum)
    done("catalogue merge first second --catalogue merged", museum)
    for line in ("same", "list", "check", "list --count creator"):
        command, *more = line.split()
        found = [run(f"{command} {name} {' '.join(more)}", museum) for name in ("whole", "merged")]
        assert found[0] == found[1], command


# Calls of each command that print where pictures are; {} leads to the museum. A letter, a page and tables in SQLite are read elsewhere
WHERE = {
    "index": ["index {}archive/refused --catalogue OUT --jobs 1"],
    "changed": ["changed --picture {}archive/work/renamed.jpg {}full.before {}full"],
    "same": ["same {}full --kind pixels --differ title", "same {}full --kind iptc --csv"],
    "list": ["list {}few", "list {}full --csv --with rating", "list {}one/desk --csv"],
    "check": ["check {}few --rules {}rules", "check {}few --rules {}rules --csv", "check {}one/contradictions --csv"],
    "verify": ["verify {}full --quiet", "verify {}full.before {}archive --quiet"],
    "nightly": [],
    "report": [],
    "compare": ["compare {}one/refused/Loop.jpg {}one/nowhere.jpg"],
    "show": ["show {}one/work/touched.jpg {}one/desk/1.jpg", "show --captions {}one/desk --csv", "show --captions {}few"],
    "explain": ["explain {}one/refused/Loop.jpg {}one/work/touched.jpg"],
    "mend": ["mend {}one/refused/Loop.jpg OUT"],
    "catalogue merge": [],
    "catalogue forget": ["catalogue forget {}few {}one/desk"],
    "catalogue relocate": ["catalogue relocate {}few {}one/desk {}one/work"],
    "catalogue export": ["catalogue export {}few OUT.sqlite --files-from {}names"],
}
PLACES = [("work", "../", "../"), (".", "./", ""), (".", "F/", ""), ("/usr", "F/", "F/")]


@needs("exiftool")
@pytest.mark.parametrize("command", parser.parsers()[1])
def test_a_picture_has_one_name_in_all_commands(command, museum):
    """In lines and tables: its path from the current folder, or the whole one if that is shorter, however it was given."""
    (museum / "rules").write_text("every picture needs source\n", encoding="utf-8")
    (museum / "names").write_text(f"{museum}/one/nowhere\n", encoding="utf-8")
    (museum / "work").mkdir()
    for number, (line, place) in enumerate(itertools.product(WHERE[command], PLACES)):
        here, given, shown = (it.replace("F", str(museum)) for it in place)
        with contextlib.chdir(here):
            _, lines, messages = run(line.replace("{}", given).replace("OUT", str(museum / f"out{number}")), museum)
        found = re.findall(r"""([^\s,"'(]*)(?:archive|one)/""", "\n".join(lines + messages))
        assert set(found) == {shown}, (line, here, given)


@needs("exiftool")
def test_another_mount_point(museum):
    """A copy of the archive at another place, with its times: nothing has changed, and a second `index` reads nothing."""
    shutil.copytree("archive", "mounted", symlinks=True)
    done(f"index mounted --jobs 1 --catalogue other --quiet{WHOLE}", museum)
    pictures = by_path(objects("changed full other --all", museum))
    assert {
        it["result"] for it in pictures.values() if it["result"].endswith(("different", "missing after", "moved", "other picture"))
    } == set()
    summary = objects("index mounted --jobs 1 --catalogue other --quiet --sidecars --pixels --maker-notes", museum)[-1]
    assert set(summary["counts"]) <= {"unchanged", "LinkToNothing as before"}, summary
    assert os.stat("mounted/work/touched.jpg").st_mtime == TIME


def test_each_number_agrees_with_its_noun():
    """In all that commands print of the museum: 1 picture, and 2 pictures."""
    nouns = "|".join(NOUNS)
    wrong = re.compile(rf"(?<![\w.,:/-])(?:1 (?:{nouns})s|(?:0|[2-9]|[\d,]*\d\d) (?:{nouns}))(?![\w-])")
    lines = [line for path in sorted(GOLDEN.rglob("*.txt")) for line in path.read_text(encoding="utf-8", errors="replace").splitlines()]
    assert len(lines) > 1000 and not [line for line in lines if wrong.search(line)]


@needs("exiftool")
def test_processes_keep_what_one_keeps(museum):
    """Many pictures with parts that aren't read, indexed by two processes, which write them in batches, and by one."""
    kept = []
    for number in range(600):
        (museum / "many").mkdir(exist_ok=True)
        (museum / f"many/{number}.jpg").write_bytes(captioned(number) + b"unknown bytes %03d" % number)
    for jobs in (1, 2):
        done(f"index many --jobs {jobs} --catalogue by{jobs} --quiet", museum)
        with contextlib.closing(sqlite3.connect(f"by{jobs}")) as base:
            kept.append(sorted(base.execute("SELECT path, what, digest FROM not_read JOIN pictures ON id = picture")))
    assert len(kept[0]) == 600 and kept[0] == kept[1]


def test_a_limit_is_named_by_each_command(museum, monkeypatch):
    """A picture that takes too long while its packets are judged: no command says that it has no metadata."""
    monkeypatch.setattr(budgets, "SECONDS", -1)
    for words in ("show", "show --captions", "check", "explain", "index --catalogue new --jobs 1"):
        _, lines, messages = run(f"{words} archive/states/extended.jpg", museum)
        assert "more than -1 seconds of a processor" in "\n".join(lines + messages), (words, lines, messages)


@needs("PIL")
def test_nothing_of_the_current_folder_is_run(museum, monkeypatch):
    """Modules of the current folder that have the names of packages, with an empty part in PYTHONPATH, as many people have it."""
    monkeypatch.setenv("PYTHONPATH", str(TOP / "python") + os.pathsep)
    for name in ("PIL", "json", "jinja2", "struct"):
        (museum / f"{name}.py").write_text(f"open({str(museum / 'was-run')!r}, 'w')", encoding="utf-8")
    (museum / "rules").write_text("every picture needs creator\n", encoding="utf-8")
    run("report full --html page.html", museum)
    run("index archive/work --catalogue new --jobs 2 --quiet", museum)
    assert not (museum / "was-run").exists()


@pytest.mark.parametrize("is_fresh", [False, True])
def test_a_replaced_file_is_not_the_one_that_was_looked_at(is_fresh, museum, monkeypatch):
    """Another file of the same size and time has another inode, also if the first one was looked at in the tick in which it was written."""
    monkeypatch.setattr(looking, "FINE", looking.COARSE if is_fresh else 0)
    put("two", {name: captioned(155, title="A cup") for name in ("first.jpg", "second.jpg")})
    done("index two --catalogue new --jobs 1 --quiet", museum)
    os.rename("two/second.jpg", "kept")  # so that its inode is taken
    put("two", {"second.jpg": captioned(155, title="A jug")})
    assert "2 pictures" in done("same new --no-look", museum)[0]
    assert run("same new", museum)[1][1].endswith("because its files are gone or have changed since they were indexed")


def test_an_edit_that_keeps_the_size_and_the_time_is_noticed(museum, monkeypatch):
    """As of a tool that writes into the file, and sets its time back: only the time of the last change of its marks is another one."""
    monkeypatch.setattr(looking, "FINE", 0)
    put("two", {name: captioned(155, title="A cup") for name in ("first.jpg", "second.jpg")})
    done("index two --catalogue new --jobs 1 --quiet", museum)
    time.sleep(0.02)  # the next tick
    with open("two/second.jpg", "r+b") as file:
        file.write(captioned(155, title="A jug"))
    os.utime("two/second.jpg", (TIME, TIME))
    assert run("same new", museum)[1][1].endswith("because its files are gone or have changed since they were indexed")


# Calls that write a catalogue, each after those before it
WRITES = """
    index one/desk archive/work --catalogue few --again --jobs 1 --quiet
    catalogue forget full archive/desk archive/refused --files-from some
    catalogue merge few plain --catalogue merged
    index archive --catalogue before --jobs 1 --quiet --keep-old kept
    catalogue relocate few archive/work moved
    index archive/work archive/texts --shards parts --jobs 1 --quiet
"""


@needs("exiftool")
def test_a_catalogue_that_was_written_is_whole(museum):
    """By SQLite's own checks: no row belongs to a picture that is gone, each index has all rows, and each page of the file is in use once."""
    (museum / "some").write_text("archive/states/rots.jpg\n", encoding="utf-8")
    shutil.copytree("archive/work", "moved")
    for line in WRITES.strip().splitlines():
        done(line.strip(), museum)
    names = ["few", "full", "merged", "before", "kept", *map(str, pathlib.Path("parts").glob("**/*.catalogue"))]
    for name in names:
        with contextlib.closing(sqlite3.connect(name)) as base:
            found = [*base.execute("PRAGMA foreign_key_check"), *base.execute("PRAGMA integrity_check")]
        assert found == [("ok",)], (name, found)


# Calls that make a file of a catalogue, and the file
MADE = {
    "index one/desk --catalogue few --keep-old made --jobs 1 --quiet": "made",
    "catalogue merge few few --catalogue made": "made",
    "catalogue export few made.sqlite --quiet": "made.sqlite",
    "report few --html made.html": "made.html",
    "report few --html made/": "made/index.html",
    "changed few few --undo made": "made",
}


@needs("exiftool")
@pytest.mark.parametrize("mode", [0o600, 0o640, 0o664])
def test_what_is_made_allows_no_more_than_its_catalogue(mode, museum):
    """To the group and to others."""
    os.chmod("few", mode)
    found = {}
    for line, name in MADE.items():
        run(line, museum)
        path = pathlib.Path(name)
        if path.exists():
            found[line] = oct(stat.S_IMODE(path.stat().st_mode) & 0o077 & ~mode)
            shutil.rmtree("made") if path.parent.name == "made" else path.unlink()
    assert len(found) > 5 and set(found.values()) == {"0o0"}, found


@pytest.mark.parametrize(
    "line",
    [
        "same full",
        "changed full.before full",
        "compare one/work/retitled.jpg archive/work/retitled.jpg",
        "list full --columns title,creator",
    ]
    + [
        "check --rules rules full",
        "check full",
        "show archive/texts/structures.jpg archive/formats/jpg.jpg",
        "show --captions archive/texts/*.jpg",
    ],
)
def test_a_workbook_has_the_cells_of_csv(line, museum):
    """Numbers are cells of numbers."""
    (museum / "rules").write_text("every picture needs creator, copyright\n", encoding="utf-8")
    rows = list(csv.reader(io.StringIO("\n".join(run(f"{line} --csv", museum)[1]))))
    run(f"{line} --xlsx made.xlsx", museum)
    book = openpyxl.load_workbook("made.xlsx", read_only=True)
    cells = [["" if it is None else str(it) for it in row] for row in book.active.iter_rows(values_only=True)]
    assert len(rows) > 2 and [row[: len(rows[0])] for row in cells] == rows


def test_a_journal_that_names_another_file_is_not_rolled_back(museum):
    """SQLite would remove the file that it names (its file format, "The Rollback Journal")."""
    (museum / "few-journal").write_bytes(bytes(100) + bytes.fromhex("d9d505f920a163d7"))
    status, _, messages = run("index one/desk --catalogue few --jobs 1 --quiet", museum)
    assert status == 4 and "names another file" in messages[-1], messages
