"""Catalogues of one archive that are asked together: each command answers as it does over one catalogue into which they were merged."""

import contextlib
import errno
import io
import os
import shutil
import sqlite3
import subprocess
import sys
import tracemalloc

import hypothesis
import hypothesis.strategies as st
import pytest
from made_files import A, app1, app1_xmp, exif, jpeg, xmp
from studio import Studio
from test_groups import FILES, with_short_note
from test_query_steps import SIZES, TIMES, make

from exifnorm_pictures.catalogue import shards
from exifnorm_pictures.catalogue.store import NUMBERS, Catalogue
from exifnorm_pictures.cli import main
from exifnorm_pictures.scan.walk import How
from exifnorm_pictures.scan import parts
from exifnorm_pictures.scan.index import IndexOptions
from exifnorm_pictures.scan.looking import in_this_process
from exifnorm_pictures.scan.parts import indexed, plan

COMMANDS = (
    "same {}",
    "same {} --json",
    "same {} --csv --columns title",
    "same {} --kind exif",
    "same {} --kind pixels",
    "same {} --kind file --json",
    "same {} --ignore Model --ignore creator",
    "same {} --only Make --json",
    "same {} --differ title",
    "same {} --least-fields 2 --no-look",
    "list {} --columns title,keywords",
    "list {} --with title --json",
    "list {} --without title",
    "list {} --where title=one -0",
    "list {} --count title",
    "list {} --where XMP-dc:title=two --columns Make",
    "list {} --with damage",
    "list {} --since 2001-01-01 --json",
    "check --rules rules {}",
    "show --captions {} --json",
    "check {} --all",
    "report {} --html page --no-look",
    "verify {} --jobs 1 --quiet",
)
OF_TWO = (
    "changed {} {}",
    "changed {} {} --each",
    "changed {} {} --all --json",
    "changed {} {} --ignore Make --csv",
    "changed {} {} --only title",
)
FOLDERS = ("one", "two", "three")


def titled(text, *parts):
    """A picture with a title."""
    return jpeg(*parts, app1_xmp(xmp(f"<dc:title><rdf:Alt><rdf:li xml:lang='x-default'>{text}</rdf:li></rdf:Alt></dc:title>")))


TITLED = {"t1": titled("one"), "t2": titled("two"), "t3": titled("one", app1(A)), "t4": titled("One and more " * 9, app1(A))}
PICTURES = {**FILES, **TITLED}


def called(words):
    """The status of a command, and what it prints."""
    with contextlib.redirect_stdout(io.TextIOWrapper(io.BytesIO(), "utf-8", "surrogateescape")) as out, contextlib.redirect_stderr(
        io.StringIO()
    ) as errors:
        status = main._run(words.split())
    out.flush()
    return status, out.buffer.getvalue(), errors.getvalue()


@contextlib.contextmanager
def inside(folder):
    try:
        with contextlib.chdir(folder):
            yield
    finally:
        shutil.rmtree(folder)


def make_shards(folder, are_apart):
    """A catalogue of each folder of pictures, and the list of them; `are_apart`: no two have a number in common."""
    os.makedirs(folder, exist_ok=True)
    for number, name in enumerate(FOLDERS):
        if are_apart:
            with Catalogue(f"{folder}/{name}", make=True) as catalogue:
                catalogue.number_above(number * NUMBERS)
        status, _, errors = called(f"index pictures/{name} --catalogue {folder}/{name} --pixels --quiet")
        assert status in (0, 2), errors
    shards.put_list(folder, FOLDERS)


def merged(folder, all_):
    status, _, errors = called(f"catalogue merge {' '.join(f'{folder}/{name}' for name in FOLDERS)} --catalogue {all_}")
    assert status == 0, errors


def put(files):
    """The pictures, each in a folder."""
    for number, (name, folder) in enumerate(files):
        with open(f"pictures/{folder}/{number}.jpg", "wb") as file:
            file.write(PICTURES[name])


def change(files, changes):
    """Each picture goes on: as it is, as another, or in another folder."""
    for number, ((_, folder), (what, other, elsewhere)) in enumerate(zip(files, changes)):
        path = f"pictures/{folder}/{number}.jpg"
        if what == "changes":
            with open(path, "wb") as file:
                file.write(PICTURES[other])
        elif what == "moves":
            os.rename(path, f"pictures/{elsewhere}/{number}.moved.jpg")
        elif what == "goes":
            os.remove(path)


NAMES, PLACES = st.sampled_from([*sorted(PICTURES), *TITLED]), st.sampled_from(FOLDERS)
WHAT = st.sampled_from(("stays", "stays", "changes", "moves", "goes"))


@hypothesis.settings(max_examples=6, deadline=None)  # each makes two states of an archive, and runs sixty commands
@hypothesis.given(
    st.lists(st.tuples(NAMES, PLACES), min_size=6, max_size=14),
    st.lists(st.tuples(WHAT, NAMES, PLACES), min_size=14, max_size=14),
    st.booleans(),
)
def test_many_answer_as_one(tmp_path_factory, files, changes, are_apart):
    with inside(str(tmp_path_factory.mktemp("shards"))):
        for name in FOLDERS:
            os.makedirs(f"pictures/{name}")
        with open("rules", "w") as file:
            file.write("every picture needs title\ntitle is one\n")
        put(files)
        make_shards("before", are_apart)
        merged("before", "BEFORE")
        change(files, changes)
        shutil.copytree("before", "after")
        make_shards("after", are_apart)
        merged("after", "AFTER")
        for words in COMMANDS:
            assert called(words.format("after")) == named(called(words.format("AFTER")), "AFTER", "after"), words
        for words in OF_TWO:
            expected = named(called(words.format("BEFORE", "AFTER")), "AFTER", "after", "BEFORE", "before")
            assert called(words.format("before", "after")) == expected, words
        assert exported("after") == exported("AFTER")


def named(answer, *names):
    """An answer with other names of catalogues."""
    status, out, errors = answer
    for old, new in zip(names[::2], names[1::2]):
        out, errors = out.replace(old.encode(), new.encode()), errors.replace(old, new)
    return status, out, errors


def exported(name):
    """The rows of an export, each with the path of its picture in place of its number."""
    status, _, errors = called(f"catalogue export {name} {name}.tables --quiet")
    assert status == 0, errors
    with contextlib.closing(sqlite3.connect(f"{name}.tables")) as base:
        paths = dict(base.execute("SELECT id, path FROM pictures"))
        rows = [("pictures", *row[1:]) for row in base.execute("SELECT * FROM pictures ORDER BY path")]
        for table in ("blocks", "fields", "captions", "conflicts", "not_read"):
            rows += sorted(((table, paths[row[0]], *row[1:]) for row in base.execute(f"SELECT * FROM {table}")), key=repr)
        for number, *about, picture, keep, note in base.execute("SELECT * FROM groups"):
            rows.append(("groups", number, *about, paths[picture], keep, note))
    return rows


# What is wrong with a folder of catalogues


@pytest.fixture
def archive(folder, called_lines):
    """Two folders of pictures, each with a catalogue in the folder `shards`."""
    (folder / "shards").mkdir()
    for number, name in enumerate(("one", "two")):
        (folder / name).mkdir()
        (folder / name / f"{name}.jpg").write_bytes(FILES["a1"])
        with Catalogue(str(folder / "shards" / f"{name}.catalogue"), make=True) as catalogue:
            catalogue.number_above(number * NUMBERS)
        assert called_lines("index", name, "--catalogue", f"shards/{name}.catalogue", "--quiet")[0] == 0
    shards.put_list(str(folder / "shards"), ["one.catalogue", "two.catalogue"])
    return folder


def test_a_missing_catalogue_is_said(archive, called_lines):
    assert called_lines("same", "shards")[0] == 0
    (archive / "shards" / "two.catalogue").unlink()
    for words in (
        ("same", "shards"),
        ("list", "shards"),
        ("changed", "shards", "shards"),
        ("report", "shards", "--html", "page"),
        ("catalogue", "export", "shards", "tables"),
        ("show", "--captions", "shards", "--json"),
        ("catalogue", "merge", "shards", "--catalogue", "all"),
    ):
        status, lines, messages = called_lines(*words)
        assert status == 2 and (lines or words[0] == "report"), (words, lines)
        assert "without the catalogue shards/two.catalogue, which isn't there" in messages, words
    (archive / "shards" / "one.catalogue").unlink()
    status, _, messages = called_lines("list", "shards")
    assert status == 4 and "none of its 2 catalogues is there" in messages


@pytest.mark.parametrize("line", ("{}.catalogue", "one.catalogue"))
def test_names_of_a_list_are_not_in_memory(archive, line):
    """Those that a stranger has put there may be a million, of which none is there, or all are one catalogue."""
    for count in (20_000, 40_000):
        shards.put_list(str(archive / "shards"), ["one.catalogue", *(line.format(number) for number in range(count))])
        tracemalloc.start()
        try:
            assert shards.shards_of(str(archive / "shards")).there == [str(archive / "shards" / "one.catalogue")]
            assert not any(shards.elsewhere(str(archive / "shards")))
            assert tracemalloc.get_traced_memory()[1] < 2 * (archive / "shards" / "catalogues").stat().st_size + 50_000
        finally:
            tracemalloc.stop()


@pytest.mark.parametrize("way", ("../v", "sub/v", "{folder}/v", "link", "the list"))
def test_a_catalogue_that_lies_elsewhere_is_read_alone(archive, called_lines, way):
    """A list of a stranger can name it: a command that writes refuses the folder, and one that asks keeps no texts there."""
    other = archive / "shards" / "sub" / "v" if way == "sub/v" else archive / "v"
    other.parent.mkdir(exist_ok=True)
    (archive / "shards" / "one.catalogue").rename(other)
    names = ["two.catalogue", way.format(folder=archive)]
    if way == "the list":
        names.pop()
    shards.put_list(str(archive / "shards"), names)
    if way == "link":
        (archive / "shards" / "link").symlink_to(other)
    elif way == "the list":
        (archive / "shards" / "catalogues").rename(archive / "list")
        (archive / "shards" / "catalogues").symlink_to(archive / "list")
    before = other.read_bytes(), (archive / "shards" / "two.catalogue").read_bytes()
    for words, due in (
        ("catalogue forget shards one two", 4),
        ("index one --shards shards", 3),
        ("list shards --with title", 0),
    ):
        status, _, messages = called_lines(*words.split())
        assert status == due and ("lies elsewhere" in messages or not due), (words, messages)
        assert (other.read_bytes(), (archive / "shards" / "two.catalogue").read_bytes()) == before, words


@pytest.mark.parametrize("are_apart", (True, False))
def test_a_picture_in_two_catalogues_is_refused(archive, called_lines, are_apart):
    """Whichever of them is right, an answer would count it twice or leave one out."""
    if not are_apart:
        (archive / "shards" / "two.catalogue").unlink()
    assert called_lines("index", "one", "two", "--catalogue", "shards/two.catalogue", "--quiet")[0] == 0
    for words in (("same", "shards"), ("list", "shards", "--json"), ("changed", "shards", "one")):
        status, lines, messages = called_lines(*words)
        assert (status, lines) == (3, []), words
        assert "one/one.jpg is in " in messages and "shards/one.catalogue" in messages and "shards/two.catalogue" in messages


@pytest.mark.parametrize(
    "words, instead",
    [
        (("catalogue", "relocate", "shards", "one", "two"), "catalogue merge FOLDER --catalogue NEW"),
        (
            ("catalogue", "relocate", "shards/one.catalogue", "one", "two"),
            "catalogue merge FOLDER --catalogue NEW",
        ),  # whose name index wouldn't find again
        (("nightly", "one", "--catalogue", "shards"), "changed BEFORE shards"),
    ],
)
def test_a_command_that_takes_one_catalogue_says_what_does_it(archive, called_lines, words, instead):
    before = {it.name: it.read_bytes() for it in (archive / "shards").iterdir()}
    status, lines, messages = called_lines(*words)
    assert (status, lines) == (4, []) and instead in messages, messages
    assert {it.name: it.read_bytes() for it in (archive / "shards").iterdir()} == before


def test_with_sidecars_and_without(archive, called_lines):
    (archive / "shards" / "two.catalogue").unlink()
    assert called_lines("index", "two", "--catalogue", "shards/two.catalogue", "--sidecars", "--quiet")[0] == 0
    status, _, messages = called_lines("list", "shards")
    assert status == 4 and "index --sidecars" in messages


def test_a_list_replaces_a_list_alone(archive):
    shards.put_list(str(archive / "shards"), ["two.catalogue"])
    assert list(shards.listed(str(archive / "shards"))) == ["two.catalogue"]
    (archive / "other").mkdir()
    (archive / "other" / "catalogues").write_text("mine\n")
    with pytest.raises(Exception, match="file of another kind"):
        shards.put_list(str(archive / "other"), ["two.catalogue"])
    assert (archive / "other" / "catalogues").read_text() == "mine\n"


@pytest.mark.parametrize("count", (shards.MOST, shards.MOST + 2))
def test_as_many_as_sqlite_attaches_and_more(folder, called_lines, count):
    names = []
    (folder / "shards").mkdir()
    for number in range(count):
        (folder / "p" / str(number)).mkdir(parents=True)
        (folder / "p" / str(number) / "a.jpg").write_bytes(with_short_note(number))
        names.append(f"{number}.catalogue")
        with Catalogue(str(folder / "shards" / names[-1]), make=True) as catalogue:
            catalogue.number_above(number * NUMBERS)
        assert called_lines("index", f"p/{number}", "--catalogue", f"shards/{names[-1]}", "--quiet")[0] == 0
    shards.put_list(str(folder / "shards"), names)
    assert called_lines("index", "p", "--catalogue", "all", "--quiet")[0] == 0
    with shards.opened(shards.shards_of(str(folder / "shards")), str(folder)) as catalogue:
        assert isinstance(catalogue, shards.Together) == (count == shards.MOST)
    for words in (
        "same {} --json",
        "list {} --json",
        "report {} --html page",
        "verify {} --quiet --json",
        "catalogue export {} tables --json",
    ):
        both = [called_lines(*words.format(name).split()) for name in ("shards", "all")]
        assert both[0][0] == both[1][0], words
    assert called_lines("changed", "shards", "all", "--no-programs")[0] == 0


# What it costs

MORE = 5  # times as many steps as over one catalogue
OVER_SHARDS = (
    "same {} --no-look",
    "same {} --no-look --kind pixels --differ creator",
    "same {} --no-look --ignore Artist",
    "list {} --where creator=anna --columns creator",
    "list {} --without credit -0",
    "list {} --count creator",
    "list {} --where title=x",
    "check --rules rules {}",
    "report {} --no-look --html page",
    "catalogue export --no-look {} tables",
)


@pytest.fixture(scope="module")
def costs(counting, tmp_path_factory):
    """The steps of SQLite of each command, over three catalogues and over one with the same pictures, at each size."""
    known = {}
    for size in SIZES:
        folder = tmp_path_factory.mktemp(str(size))
        (folder / "shards").mkdir()
        make(folder / "all", size)
        (folder / "rules").write_text("every picture needs credit\ncreator is Otto\n", encoding="ascii")
        for number in range(3):
            part_of(folder / "all", folder / "shards" / str(number), number, 3)
        shards.put_list(str(folder / "shards"), ["0", "1", "2"])
        for words in OVER_SHARDS:
            for name in ("shards", "all"):
                work = counting.run(folder, *words.format(name).split())
                assert work.status in (0, 1, 2), (words, work.err[-2000:])
                known[words, name, size] = work
    return known


def part_of(all_, name, number, count):
    """A catalogue of one of so many parts of the pictures, each with its number raised."""
    shutil.copy(all_, name)
    with contextlib.closing(sqlite3.connect(name, isolation_level=None)) as base:
        base.execute("DELETE FROM blocks WHERE picture % ? != ?", (count, number))
        base.execute("DELETE FROM pictures WHERE id % ? != ?", (count, number))
        for table, column in (("blocks", "picture"), ("pictures", "id"), ("pictures", "run"), ("runs", "id")):
            base.execute(f"UPDATE {table} SET {column} = {column} + ?", (number * NUMBERS,))
        base.execute("INSERT INTO prepared VALUES (?)", (number * NUMBERS,))
        base.execute("VACUUM")


@pytest.mark.parametrize("words", OVER_SHARDS)
def test_twice_as_many_pictures_take_twice_the_steps_over_shards(costs, words):
    few, many = (costs[words, "shards", size].steps for size in SIZES)
    assert many <= TIMES * few + 20
    assert many <= MORE * costs[words, "all", SIZES[1]].steps + 200, "as over one catalogue"
    assert costs[words, "shards", SIZES[1]].out == costs[words, "all", SIZES[1]].out or "page" in words or "tables" in words


# ---- `index --shards`: each folder directly in the archive has a catalogue of its own, and all together know what one catalogue would.


def picture(number):
    return jpeg(app1(exif(b"%03d" % number)))


@pytest.fixture
def folders(folder):
    """A folder of five pictures in two folders, one of which has a folder, and a picture of its own."""
    for number, name in enumerate(("a/1.jpg", "a/deep/2.jpg", "b/3.jpg", "b/4.jpg", "5.jpg")):
        path = folder / "p" / name
        path.parent.mkdir(parents=True, exist_ok=True)
        path.write_bytes(picture(number))
    return folder


def names(folder):
    return list(shards.listed(str(folder / "shards")))


def rows(folder, name="shards"):
    """The root and path of each picture of all catalogues, and its problem, as one catalogue has them."""
    files = shards.shards_of(str(folder / name)).there if (folder / name).is_dir() else [str(folder / name)]
    known = []
    for file in files:
        with Catalogue(file) as catalogue:
            known += [(it.root, it.path, it.problem, it.exif) for it in catalogue.pictures()]
    return sorted(known, key=lambda row: row[1])


def test_a_folder_that_is_gone_forgets_nothing(folders, called_lines):
    called_lines("index", "p", "--shards", "shards", "--quiet")
    before = rows(folders)
    (folders / "p" / "b").rename(folders / "unmounted")
    status, lines, _ = called_lines("index", "p", "--shards", "shards")
    assert status == 2
    assert lines[0] == ("p/b: Unreadable: the folder is empty, isn't there or can't be read; its 2 pictures stay as before")
    assert rows(folders) == before
    status, lines, _ = called_lines("index", "p", "--shards", "shards", "--json")
    assert status == 2 and '"problem": "Unreadable"' in lines[0]
    assert called_lines("catalogue", "forget", "shards", "p/b")[1][0].endswith(": 2 pictures forgotten")
    assert called_lines("index", "p", "--shards", "shards")[0] == 0
    (folders / "unmounted").rename(folders / "p" / "b")
    assert called_lines("index", "p", "--shards", "shards")[1][0] == "3 unchanged, 2 accepted"
    assert rows(folders) == before


@pytest.mark.parametrize("name", ("b", ""))
def test_a_folder_that_is_empty_forgets_nothing(folders, called_lines, name):
    """As the folder on which a disk is mounted; also if all of the folders is on it."""
    called_lines("index", "p", "--shards", "shards", "--quiet")
    before, folder = rows(folders), folders / "p" / name
    folder.rename(folders / "unmounted")
    folder.mkdir()
    status, lines, _ = called_lines("index", "p", "--shards", "shards")
    assert status == 2 and sum(" as before" in line for line in lines) == (1 if name else 3)
    assert rows(folders) == before
    folder.rmdir()
    (folders / "unmounted").rename(folder)
    assert called_lines("index", "p", "--shards", "shards")[1][0] == "5 unchanged"


def test_one_of_the_folders(folders, called_lines):
    """It is the part that it was, with the folder by which rules are relative; and no picture gets into two catalogues."""
    called_lines("index", "p", "--shards", "shards", "--quiet")
    before = rows(folders)
    (folders / "p" / "a" / "6.jpg").write_bytes(picture(6))
    (folders / "p" / "b" / "7.jpg").write_bytes(picture(7))
    assert called_lines("index", "p/a", "--shards", "shards")[1][0] == "2 unchanged, 1 accepted"
    assert len(names(folders)) == 3 and {row[0] for row in rows(folders)} == {row[0] for row in before}
    (folders / "p" / "a").rename(folders / "unmounted")
    status, lines, _ = called_lines("index", "p/a", "--shards", "shards")
    assert status == 2 and "its 3 pictures stay as before" in lines[0] and lines[1] == "1 not readable"
    (folders / "unmounted").rename(folders / "p" / "a")
    (folders / "above").mkdir()
    (folders / "p").rename(folders / "above" / "p")
    called_lines("index", "above/p", "--shards", "others", "--quiet")
    for words in (("above/p/a/deep", "--shards", "others"), ("above", "--shards", "others")):
        status, lines, messages = called_lines("index", *words)
        assert (status, lines) == (3, []) and "have pictures in common" in messages, words


def test_what_is_wrong(folders, called_lines, capsys):
    (folders / "full").mkdir()
    (folders / "full" / "file").write_bytes(b"")
    for words, text in (
        (("p", "--shards", "p/shards"), "lies below"),
        (("p", "--shards", "p"), "lies below"),
        (("p/5.jpg", "--shards", "shards"), "is no folder"),
        (("nothing", "--shards", "shards"), "there is no folder"),
        (("p", "--shards", "full"), "is no folder of catalogues"),
        (("p", "--shards", "full/file"), "is no folder of catalogues"),
    ):
        status, lines, messages = called_lines("index", *words)
        assert (status, lines) == (3, []) and text in messages, words
        assert not (folders / "shards").exists() and not (folders / "p" / "shards").exists(), words
    assert called_lines("index", "p")[:2] == (3, [])
    (folders / "mine").mkdir()
    shards.put_list(str(folders / "mine"), ["mine.catalogue"])
    status, _, messages = called_lines("index", "p", "--shards", "mine")
    assert status == 3 and "mine.catalogue, which isn't of index --shards" in messages
    called_lines("index", "p", "--shards", "shards")
    status, _, messages = called_lines("index", "p", "--catalogue", "shards", "--keep-old", "old")
    assert status == 3 and "--keep-old" in messages and "shards is a folder" in messages


# Several runs


def test_runs_that_begin_at_once_list_the_catalogues_of_all(folders):
    """As where each machine of several indexes its own folders, by GNU parallel."""
    for number in range(8):
        (folders / "p" / f"part{number}").mkdir()
        (folders / "p" / f"part{number}" / "1.jpg").write_bytes(picture(number))
    begin = [sys.executable, "-m", "exifnorm_pictures", "index", "--shards", "shards", "--quiet", "--jobs", "1"]
    runs = [subprocess.Popen([*begin, f"p/part{number}"], cwd=folders, env=Studio.environment()) for number in range(8)]
    assert [run.wait() for run in runs] == [0] * 8
    listed = list(shards.listed(str(folders / "shards")))
    assert len(listed) == 8 == len({name[:5] for name in listed}) and len(rows(folders)) == 8


def test_a_list_that_another_run_writes_between_two_looks(folders, called_lines, monkeypatch):
    """A run that begins finds the folder empty, and a moment later the list of another that began with it."""
    look = os.listdir

    def listdir(folder):
        if not shards.is_folder("shards"):
            shards.put_list("shards", [])
        return look(folder)

    (folders / "shards").mkdir()
    with monkeypatch.context() as patched:
        patched.setattr(parts.os, "listdir", listdir)
        assert called_lines("index", "p", "--shards", "shards", "--quiet")[0] == 0
    assert len(rows(folders)) == 5


def test_a_file_system_without_locks_is_named(folders, called_lines, monkeypatch):
    """NFS without its lock manager, for one: two runs could write one list there, of which one would lose its catalogues."""

    def lockf(*_):
        raise OSError(errno.ENOLCK, os.strerror(errno.ENOLCK))

    monkeypatch.setattr(shards.fcntl, "lockf", lockf)
    for words, name in (("index p --shards shards", "shards"), ("nightly p --catalogue n", "n")):
        status, _, messages = called_lines(*words.split())
        assert (status, f"{name}: its file system has no POSIX locks" in messages) == (4, True), messages
    assert list(shards.listed(str(folders / "shards"))) == []


def test_two_processes_at_one_part_lose_nothing(folders):
    """As where a scheduler takes a worker for dead that is only far away."""
    shard = plan(str(folders / "shards"), [os.fsencode(folders / "p")], []).shards[0]
    outcomes = []

    def look(work, how):
        """All pictures, of which the other process commits the same before the first is returned."""
        entries = list(in_this_process(work, how))
        if not outcomes:
            outcomes.append(indexed(str(folders / "shards"), shard, options(in_this_process), []))
        yield from entries

    def options(look):
        return IndexOptions([], quiet=True, how=How(jobs=1), look=look)

    outcomes.append(indexed(str(folders / "shards"), shard, options(look), []))
    assert [dict(one.counts) for one in outcomes] == [{"accepted": 2}, {"accepted": 2}]
    with Catalogue(str(folders / "shards" / shard.name)) as catalogue:
        assert [os.path.basename(one.path) for one in catalogue.pictures()] == [b"1.jpg", b"2.jpg"]
        assert len(catalogue.runs()) == 2
