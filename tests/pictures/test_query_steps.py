"""No query visits all pictures for each of them: over twice as many pictures a command takes at most 2.3 times the steps of SQLite.

The catalogues are made by SQL, with groups of every basis. The growths of test_growth.py have few pictures each, and read them."""

import gc
import json
import os
import re
import shutil
import sqlite3
import sys
import tracemalloc
from collections import Counter
from contextlib import closing

import made_files as made
import pytest
from studio import WithPictures, name_of, needs, run, write

from exifnorm_pictures.catalogue import store
from exifnorm_pictures.catalogue.asking import Answer
from exifnorm_pictures.catalogue.store import Catalogue, NoCatalogue
from exifnorm_pictures.cli.parser import parsers
from exifnorm_pictures.comparison.same.groups import Groups, but_for_notes
from exifnorm_pictures.fields.field import Field
from exifnorm_pictures.fields.packing import packed
from exifnorm_pictures.model.found import EXIF
from exifnorm_pictures.model.numbers import Numbers
from exifnorm_pictures.model.records import BlockRecord, PictureRecord, Stamp

SIZES = (1000, 2000)
TIMES, FEW = 2.3, 20  # hundreds of steps that aren't about the pictures
FIELDS = packed([Field("main", "013b", "ASCII", 5, b"Anna\0"), Field("main", "0110", "ASCII", 5, b"D300\0")])[0]
# What SQL makes of each sixth pair of pictures, which are equal, so that their group rests on something else than their meaning
BASES = (
    "exif = NULL",  # refused, the same bytes
    "exif_repaired = exif, exif = CASE id % 2 WHEN 0 THEN exif END, exif_octets = id",  # the same after repair
    "not_read = NULL, file = exif",
    "problem = 'NoPicture', file = exif",
    "other_exif = exif, exif = printf('%064x', id), maker_notes = 'Exif:' || id",  # the same but for the place of a MakerNote
)
EDITS = (  # what is changed, moved or new in the other catalogue
    "UPDATE pictures SET exif = printf('%064x', id + 1000000) WHERE id % 8 = 0 AND exif IS NOT NULL",
    "UPDATE blocks SET digest = (SELECT exif FROM pictures WHERE id = picture) WHERE picture % 8 = 0 AND digest IS NOT NULL",
    "UPDATE pictures SET path = CAST(replace(CAST(path AS TEXT), '/one/', '/moved/') AS BLOB) WHERE id % 8 = 1",
    "UPDATE pictures SET path = CAST(path || '.new' AS BLOB), exif = printf('%064x', id + 2000000), inode = id + 5000000 WHERE id % 8 = 2",
)
COMMANDS = (
    "same C --no-look",
    "same C --no-look --kind exif",
    "same C --no-look --kind pixels",
    "same C --no-look --ignore Artist",
    "same C --no-look --only creator",
    "same C --no-look --kind file",
    "same C --no-look --kind pixels --differ creator",
    "changed C D --no-programs",
    "changed C D --no-programs --each",
    "changed C D --no-programs --ignore Artist",
    "changed C D --no-programs --only creator --json",
    "report D --no-look --since C --html page",
    "report D --no-look --since C --html pages/",
    "catalogue export --no-look C tables",
    "list C --where creator=anna --columns creator",
    "list C --without credit -0",
    "list C --count creator",
    "list C --with damage --columns damage",
    "list C --where title=x",
    "check --rules rules C",
    "check --rules one C",
    "changed --picture /archive/one/00000016.jpg C D",
    "changed --picture /archive/one/00000017.jpg C D",
    "show --captions C --json",
    "check C --json",
    "catalogue merge C D --catalogue E",
    "list E --with creator -0",
    "catalogue relocate E /archive new",
    "verify E --jobs 1 --quiet",
    "catalogue forget E new",
    "mend C new",
    "nightly /archive --catalogue D --json",
)
OF_FILES = {"compare", "explain", "index", "show"}  # which test_growth.py counts


def make(name, count):
    """A catalogue of so many pictures, two and two of which are equal."""
    with Catalogue(str(name), make=True) as catalogue:
        block = BlockRecord(EXIF, "Exif", "APP1 at 2", "own", "accepted", "0" * 64, None, None, 100, "0" * 64, fields=FIELDS)
        first = PictureRecord.of(b"/archive/one", b"/archive", Stamp(1000, 0, 0, 0), "JPEG", "own", blocks=(block,))
        catalogue.put(catalogue.begin_run("2000-01-01T00:00:00Z"), [first])
        many_rows(catalogue.base, count, "n / 2", "one", 0, "n")
        catalogue.base.execute("UPDATE pictures SET coded_picture = CASE WHEN id % 3 THEN printf('%064x', id / 4) ELSE '' END")
        catalogue.base.execute("UPDATE pictures SET sha256 = coded_picture")
        for number, basis in enumerate(BASES, 1):
            catalogue.base.execute(f"UPDATE pictures SET {basis} WHERE id / 2 % {len(BASES) + 1} = {number}")
        catalogue.base.execute(
            "UPDATE blocks SET status = 'refused', cause = 'Truncated', digest = NULL"
            " WHERE picture IN (SELECT id FROM pictures WHERE exif IS NULL AND problem IS NULL)"
        )


@pytest.fixture(scope="module")
def works(counting, tmp_path_factory):
    """The work of each command at each size."""
    found = {}
    for size in SIZES:
        folder = tmp_path_factory.mktemp(str(size))
        make(folder / "C", size)
        shutil.copy(folder / "C", folder / "D")
        with closing(sqlite3.connect(folder / "D")) as base, base:
            for statement in EDITS:
                base.execute(statement)
        (folder / "new" / "one").mkdir(parents=True)
        unused = [f"{number} {'x' * 40}" for number in range(20)]  # longer than what the index has of a text
        (folder / "rules").write_text(f"every picture needs credit\ncreator one of {', '.join(unused)}\n", encoding="ascii")
        (folder / "one").write_text(f"every picture needs credit\ncreator one of {unused[0]}\n", encoding="ascii")
        for words in COMMANDS:
            work = counting.run(folder, *words.split())
            assert work.status in (0, 1, 2), (words, work.err[-2000:])
            found[words, size] = work
    return found


def test_each_command_that_reads_a_catalogue_is_counted():
    assert {name_of(words) for words in COMMANDS} | OF_FILES == set(parsers()[1])


@pytest.mark.parametrize("words", COMMANDS)
def test_twice_as_many_pictures_take_twice_the_steps(works, words):
    few, many = (works[words, size].steps for size in SIZES)
    assert many <= TIMES * few + FEW


def test_forgetting_takes_no_memory_for_each_picture(counting, tmp_path):
    memory = []
    for size in (15_000, 45_000):
        make(tmp_path / str(size), size)
        work = counting.run(tmp_path, "catalogue", "forget", str(size), "/archive", "--json")
        assert json.loads(work.out)["forgotten"] == size, work.err
        memory.append(work.memory)
    assert memory[1] < memory[0] + 100_000


def groups_of(catalogue, size):
    """Goes through all groups, and returns how many pictures may be the same as others but for their MakerNotes."""
    assert sum(group.count for group in Groups(catalogue, look=False).by_meaning()) > size / 2
    return but_for_notes(catalogue)


def test_no_picture_is_held(tmp_path):
    few, many = 3000, 12_000
    for size in (few, many):
        make(tmp_path / str(size), size)
    gc.disable()  # a collection would give back the thousands of tuples that Python keeps after the first time
    try:
        _, *found = (memory_of(groups_of, tmp_path / str(size), size) for size in (many, few, many))
    finally:
        gc.enable()
    (count_of_few, of_few), (count_of_many, of_many) = found
    assert count_of_many > 3.9 * count_of_few > 1000
    assert of_many < of_few + 2 * (many - few)


def memory_of(work, name, size):
    """What some work returns, and the most memory that it takes."""
    with Catalogue(str(name)) as catalogue:
        tracemalloc.start()
        try:
            return work(catalogue, size), tracemalloc.get_traced_memory()[1]
        finally:
            tracemalloc.stop()


@pytest.mark.parametrize("at_once", [1, 7, 1000])
def test_refused_pictures_are_read_some_at_once_and_others_can_write(tmp_path, monkeypatch, at_once):
    make(tmp_path / "C", 300)
    monkeypatch.setattr(store, "_AT_ONCE", at_once)
    with Catalogue(str(tmp_path / "C")) as catalogue:
        refused = [it.path for it in catalogue.pictures() if it.problem is None and None in it.meanings]
        assert 50 < len(refused) < 100 and refused == sorted(refused)
        paths = catalogue.refused()
        first = next(paths)
        with closing(sqlite3.connect(tmp_path / "C", isolation_level=None, timeout=0)) as other:
            other.execute("DELETE FROM pictures WHERE path = ?", (refused[-1],))
            assert [first, *paths] == refused[: None if at_once == 1000 else -1]
            other.execute("UPDATE pictures SET path = CAST(path AS TEXT) WHERE path = ?", (refused[0],))
        with pytest.raises(NoCatalogue):
            list(catalogue.refused())


def test_a_part_that_does_not_count_costs_three_times_as_much(works):
    plain, ignoring = (works[words, SIZES[1]] for words in (COMMANDS[0], COMMANDS[3]))
    assert ignoring.steps <= 3 * plain.steps and ignoring.calls <= 3 * plain.calls, (plain, ignoring)


def test_texts_are_counted_by_sqlite(tmp_path, monkeypatch):
    """However many pictures have one, Python gets the rows of those of which it isn't known, and of files that are none."""
    make(tmp_path / "C", 1000)
    rows = []
    monkeypatch.setattr(store, "Numbers", lambda found: Numbers(rows.append(it) or it for it in found))
    with Catalogue(str(tmp_path / "C"), make=True) as catalogue:
        answer = Answer(catalogue, None, shown=["creator"])
        having, *_ = answer.having("creator")
    assert having > 800 and len(rows) < 200, (having, len(rows))


def test_twenty_texts_of_a_rule_that_no_picture_has_cost_little_more_than_one(works):
    one, twenty = (works[f"check --rules {name} C", SIZES[1]].steps for name in ("one", "rules"))
    assert twenty <= 1.5 * one, (one, twenty)


@pytest.mark.parametrize("is_written", [False, True], ids=["one that is read", "one that is written"])
def test_the_folders_of_a_catalogue_are_looked_for_once_until_somebody_writes(tmp_path, is_written):
    make(tmp_path / "C", 500)
    with Catalogue(str(tmp_path / "C"), make=is_written) as catalogue:
        steps = []
        catalogue.base.set_progress_handler(lambda: steps.append(1), 1)
        assert catalogue.roots() == [b"/archive"]
        once = len(steps)
        assert catalogue.roots() == [b"/archive"] and len(steps) < 1.1 * once
        with closing(sqlite3.connect(tmp_path / "C", isolation_level=None)) as other:
            other.execute("UPDATE pictures SET root = CAST('/other' AS BLOB) WHERE id % 2")
        assert catalogue.roots() == [b"/archive", b"/other"]
        if is_written:
            catalogue.base.execute("UPDATE pictures SET root = CAST('/other' AS BLOB)")
            assert catalogue.roots() == [b"/other"]


def test_the_history_of_a_picture_goes_through_each_catalogue_once(works, tmp_path):
    make(tmp_path / "C", SIZES[0])
    passed = []
    with closing(sqlite3.connect(tmp_path / "C")) as base:
        base.set_progress_handler(lambda: passed.append(1), 1)
        base.execute("SELECT DISTINCT root FROM pictures ORDER BY root").fetchall()
    few, many = (works["changed --picture /archive/one/00000017.jpg C D", size].steps for size in SIZES)
    assert 100 * (many - few) <= 2.5 * len(passed)


def test_the_history_of_a_picture_that_stays_pairs_no_others(works):
    gone, stays = (works[f"changed --picture /archive/one/{number}.jpg C D", SIZES[1]].steps for number in ("00000016", "00000017"))
    assert 10 * stays <= gone


# ---- What an archive's scale costs, as counts: statements, processes, files opened, bytes read, and the peak of memory. No times.

EXV = b"\xff\x01Exiv2\xff\xd9"  # exiv2's own format, which has no reader here and goes to ExifTool

# Runs the command and counts what it does, also in its further processes: a line of the file COUNTED for each thing. The last lines
# are the rows that this process fetched, and hundreds of steps of SQLite's virtual machine in it.
COUNTING = """
import os, sqlite3, sys
counted = os.open(os.environ["COUNTED"], os.O_WRONLY | os.O_CREAT | os.O_APPEND)

parent = os.getpid()

def note(what):
    os.write(counted, what.encode() + b"\\n")
    if what == "statement" and os.getpid() == parent:
        note("own statement")

def heard(event, values):
    if event == "open" and values[1] is None and os.fsencode(values[0]).endswith((b".jpg", b".exv")):
        note("picture")  # by os.open, which open() calls here
    elif event == "subprocess.Popen":
        note("session" if "-stay_open" in values[1] else "program")

sys.addaudithook(heard)
connect = sqlite3.connect
totals = {"rows": 0, "steps": 0}

def fetched(_, row):
    totals["rows"] += 1
    return row

def stepped():
    totals["steps"] += 1

class Connection(sqlite3.Connection):  # it counts steps also after the catalogue has set a handler of its own
    def set_progress_handler(self, handler, steps):
        super().set_progress_handler(stepped, 100)

def connected(*words, **more):
    base = connect(*words, **more, factory=Connection)
    # how many transactions there are hangs on the time, too
    base.set_trace_callback(lambda text: note("transaction" if text.startswith(("BEGIN", "COMMIT")) else "statement"))
    base.row_factory = fetched
    base.set_progress_handler(stepped, 100)
    return base

sqlite3.connect = connected
from exifnorm_pictures.cli.main import main
status = main(sys.argv[1:])
for it in totals.items():
    note("%s %d" % it)
sys.exit(status)
"""

_NUMBERS = "WITH RECURSIVE numbers(n) AS (SELECT 0 UNION ALL SELECT n + 1 FROM numbers WHERE n + 1 < {count})"


def many_rows(base, count, says, folder, mark, name, is_hashed=False):
    """Puts pictures into a catalogue that has one, each with a number as its meaning, by SQL over the number n of a picture. They have the
    other values of that one, which then goes, and one block."""
    meaning = f"printf('%064x', {says})"
    picture = {
        "id": "NULL",
        "path": f"CAST(printf('/archive/{folder}/%08d.jpg', {name}) AS BLOB)",
        **{"modified": f"{mark} + n", "changed": "n", "inode": f"{mark} + n"},
        **{"exif": meaning, "exif_octets": meaning},
        **({"sha256": meaning} if is_hashed else {}),
    }
    block = {"picture": "pictures.id", "digest": "exif", "octets": "exif_octets"}

    def values(table, own):
        return ", ".join(own.get(it[1], f"{table}.{it[1]}") for it in base.execute(f"PRAGMA table_info({table})"))

    base.execute(f"{_NUMBERS.format(count=count)} INSERT INTO pictures SELECT {values('pictures', picture)} FROM pictures, numbers")
    base.execute(f"INSERT INTO blocks SELECT {values('blocks', block)} FROM pictures, blocks WHERE pictures.id != blocks.picture")
    base.execute("DELETE FROM pictures WHERE id = (SELECT min(id) FROM pictures)")


def made_catalogue(path, count, says="n / 20", folder="one", mark=0, named="n", is_hashed=False):
    """A catalogue with this many pictures, each with a number as its meaning; all is SQL over the number n of a picture."""
    with Catalogue(str(path), make=True) as made_:
        block = BlockRecord(EXIF, "Exif", "APP1 at 2", "own", "accepted", "0" * 64, None, None, 100, "0" * 64)
        one = PictureRecord.of(b"/archive", b"/archive", Stamp(1000, 0, 0, 0), "JPEG", "own", blocks=(block,))
        made_.put(made_.begin_run("2000-01-01T00:00:00Z"), [one])
        many_rows(made_.base, count, says, folder, mark, named, is_hashed)


# Commands on catalogues, how many pictures these have, what they say, how those of D differ, what is printed of ten times as many, and the
# bytes that all of those may take more: SQLite's caches and Python's own memory, no list of all; what moved and what is equal is kept
MOVED, DIFFERENT = {"folder": "other"}, {"says": "n + 1000000", "mark": 1}
MEMORY = [
    ("same C --no-look", 20_000, "n / 20", {}, r"(?m)^20 pictures: ", 4_000_000),
    ("same C --no-look", 12_000, "1", {}, "pictures: ", 108_000 * 700),
    ("same C --no-look --json", 12_000, "1", {}, '"count": 120000', 108_000 * 700),
    ("catalogue export --no-look C tables", 2000, "n / 20", {}, "", 8_000_000),
    ("changed D C", 1200, "n", MOVED, "12,000 moved: ", 13_000_000),
    ("changed D C", 600, "n", DIFFERENT, "6,000 different: ", 8_000_000),
    ("changed D C --each", 600, "n", DIFFERENT, "6000 different", 8_000_000),
    ("report C --since D --no-look --html report/", 2000, "n / 20", DIFFERENT, "", 12_000_000),
]


@pytest.mark.parametrize("words, few, says, other, printed, most", MEMORY)
def test_memory(words, few, says, other, printed, most, counting, folder):
    """Of ten times as many pictures. Those of one group are in memory, with at most 700 bytes each."""
    taken = []
    for count in (few, 10 * few):
        (folder / str(count)).mkdir()
        made_catalogue(folder / str(count) / "C", count, says)
        made_catalogue(folder / str(count) / "D", count, **{"says": says, **other})
        work = counting.run(folder / str(count), *words.split())
        assert work.status in (0, 1), work.err
        taken.append(work.memory)
    assert re.search(printed, work.out.decode())
    assert taken[1] - taken[0] <= most, taken


class Scale(WithPictures):
    def catalogue(self, name, count, *words, **more):
        made_catalogue(self.path(name), count, *words, **more)
        return name

    def counted(self, *words, status=0):
        """What a command does: how often."""
        where = self.path("counted")
        if os.path.exists(where):
            os.remove(where)
        done = run([sys.executable, "-c", COUNTING, *words], self.folder, COUNTED=where)
        self.assertIn(done.returncode, status if isinstance(status, tuple) else (status,), done.stderr.decode())
        self.said = done.stdout.decode()
        with open(where) as file:
            lines = file.read().splitlines()
        counts = Counter(it for it in lines[:-2])
        counts.update({name: int(number) for name, number in map(str.split, lines[-2:])})
        return counts

    def pictures(self, folder, count, ending=".jpg"):
        """A folder with small pictures, no two of which mean the same."""
        os.mkdir(self.path(folder))
        for number in range(count):
            octets = EXV if ending == ".exv" else made.jpeg(made.app1(made.exif(b"%03d" % number)), made.app1_xmp(made.title(str(number))))
            write(self.path(folder, f"{number:04}{ending}"), octets)

    # Statements, rows that Python gets, and steps of SQLite

    def test_statements_of_equal_pictures_that_moved(self):
        """A thousand pictures of the same bytes are paired each with one, and not by looking at all others for each of them."""
        costs = []
        for count in (100, 1000):
            before = self.catalogue(f"before{count}", count, "1", is_hashed=True)
            after = self.catalogue(f"after{count}", count, "1", folder="other", mark=5000, is_hashed=True)
            costs.append(self.counted("changed", before, after, "--json", status=1)["statement"])
            moves = [json.loads(it) for it in self.said.splitlines()[:-1]]
            pairs = {(it["path"], it["moved_to"]["path"]) for it in moves}
            self.assertEqual(pairs, {(f"one/{number:08}.jpg", f"other/{number:08}.jpg") for number in range(count)})
        self.assertLessEqual(costs[1] - costs[0], 12 * 900)

    def test_statements_of_an_index_by_several_processes(self):
        """The further processes make the rows; the first one takes over hundreds of them with a few statements."""
        own = []
        for count in (400, 800):
            self.pictures(f"p{count}", count)
            costs = self.counted("index", f"p{count}", "--catalogue", f"c{count}", "--jobs", "2", "--quiet")
            own.append(costs["own statement"])
            self.assertGreater(costs["statement"] - costs["own statement"], 2 * count)  # a picture's row, and those of its two blocks
        self.assertLess(own[1] - own[0], 50)
        self.assertLess(own[1], 350)  # the pictures of the first tasks, which are short, come one by one

    # Modules

    # Files and processes

    def test_a_second_run_opens_no_picture(self):
        self.pictures("p", 100)
        words = ["index", "p", "--catalogue", "c", "--jobs", "1", "--quiet"]
        self.assertEqual(self.counted(*words)["picture"], 100)
        self.assertEqual(self.counted(*words)["picture"], 0)
        write(self.path("p", "0007.jpg"), made.jpeg(made.app1(made.exif(b"New"))))
        self.assertEqual(self.counted(*words)["picture"], 1)
        self.assertEqual(self.said, "99 unchanged, 1 accepted\n")
        self.assertEqual(self.counted("same", "c", "--no-look")["picture"], 0)

    @needs("exiftool")
    def test_processes_of_exiftool(self):
        self.pictures("p", 100)
        words = ["--catalogue", "c", "--quiet", "--jobs"]
        self.assertEqual(self.counted("index", "p", *words, "2")["session"], 0)
        self.pictures("g", 130, ".exv")
        alone = self.counted("index", "g", *words, "1")
        both = self.counted("index", "g", "--again", *words, "2")
        self.assertEqual(alone["session"], 1)
        self.assertIn(both["session"], (1, 2))  # a process that was given no picture starts none
        self.assertEqual((alone["program"], both["program"]), (0, 0))  # ExifTool's version is in its answers
        again = self.counted("index", "g", *words, "1")
        self.assertEqual((again["session"], again["program"]), (0, 0))
