"""The texts by which questions are answered: the first question on a catalogue derives them, and later ones those of new pictures alone."""

import json
import os
import random
import sqlite3
import subprocess
import sys
import tempfile
from collections import Counter
from contextlib import closing

import pytest
from made_files import app1_xmp, png, png_xmp, title, xmp
from studio import Studio, put, sql_rows
from test_list import picture

from exifnorm_pictures.catalogue import kept_texts, store
from exifnorm_pictures.scan import relocating
from exifnorm_pictures.scan.progress import Progress

NAMES, WORDS = ("Anna", "Otto", "Lena"), ("clay", "glaze", "bowl")
FILES = [f"{top}/{name}.jpg" for top in "ab" for name in "xyz"]


class World:
    """Two folders, and which texts a catalogue has of each picture, by what was done."""

    def __init__(self, folder, called, seed):
        self.folder, self.called, self.rng, self.edits = folder, called, random.Random(seed), 0
        self.disk, self.known = {}, {}  # the texts of each file, and of each picture of the catalogue; None of one that is gone
        for top in "ab":
            (folder / top).mkdir()

    def write(self):
        name = self.rng.choice(FILES)
        self.disk[name] = [("creator", self.rng.choice(NAMES))] * self.rng.randrange(2)
        self.disk[name] += [("keywords", word) for word in self.rng.sample(WORDS, self.rng.randrange(3))]
        (self.folder / name).write_bytes(picture(self.disk[name]))
        self.edits += 1
        os.utime(self.folder / name, (1e9 + self.edits, 1e9 + self.edits))

    def remove(self):
        if self.disk:
            name = self.rng.choice(sorted(self.disk))
            del self.disk[name]
            (self.folder / name).unlink()

    def index(self):
        self.known = self.indexed(self.known, self.rng.choice("ab"), "c")

    def indexed(self, known, top, catalogue):
        self.called("index", top, "--catalogue", catalogue, "--quiet")
        below = {name: texts for name, texts in self.disk.items() if name.startswith(top)}
        return {**known, **{name: None for name in known if name.startswith(top)}, **below}

    def merge(self):
        (self.folder / "d").unlink(missing_ok=True)
        more = self.indexed({}, self.rng.choice("ab"), "d")
        assert self.called("catalogue", "merge", "d", "--catalogue", "c")[0] == 0
        self.known = {**self.known, **more}

    def forget(self):
        name = self.rng.choice([*FILES, "a", "b"])
        if (self.folder / "c").exists():
            self.called("catalogue", "forget", "c", name)
            self.known = {other: texts for other, texts in self.known.items() if not other.startswith(name)}

    def relocate(self):
        """All pictures of a folder are in the other one now, in place of those with the same names."""
        if not (self.folder / "c").exists():
            return
        old, new = self.rng.choice(("ab", "ba"))
        for name in [name for name in self.disk if name.startswith(old)]:
            os.replace(self.folder / name, self.folder / (new + name[1:]))
            self.disk[new + name[1:]] = self.disk.pop(name)
        self.called("catalogue", "relocate", "c", old, new)
        for name in [name for name in self.known if name.startswith(old)]:
            self.known[new + name[1:]] = self.known.pop(name)

    def stop(self):
        """A question is stopped while it adds texts."""

        def stopping(_done, _due):
            raise KeyboardInterrupt

        if (self.folder / "c").exists():
            try:
                kept_texts.keep(str(self.folder / "c"), stopping)
            except KeyboardInterrupt:
                pass

    def ask(self):
        """A question lists the pictures whose texts fit it, whether the catalogue may be written or not."""
        if not (self.folder / "c").exists():
            return
        is_kept = self.rng.random() < 0.7
        os.chmod(self.folder / "c", 0o644 if is_kept else 0o444)
        label, word = self.rng.choice([("creator", self.rng.choice(NAMES)), ("keywords", self.rng.choice(WORDS))])
        there = {name: texts for name, texts in self.known.items() if texts is not None}
        before = (self.folder / "c").read_bytes()
        found = asked(self.called, "--where", f"{label} = {word}")
        assert found == (sorted(name for name, texts in there.items() if (label, word) in texts), len(there))
        counted = {it["text"]: it["pictures"] for it in objects(self.called, "--count", label)[:-1]}
        assert counted == Counter(text for texts in there.values() for own, text in texts if own == label)
        assert is_kept or (self.folder / "c").read_bytes() == before
        os.chmod(self.folder / "c", 0o644)


def objects(called, *words):
    status, printed, messages = called("list", "c", "--json", *words)
    assert status == 0, messages
    return [json.loads(line) for line in printed.splitlines()]


def asked(called, *words):
    """The pictures that are listed, and how many there are."""
    *listed, last = objects(called, *words)
    assert last["not_known"] == 0
    return ["/".join(it["path"].split("/")[-2:]) for it in listed], last["pictures"]


@pytest.mark.parametrize("seed", range(6))
def test_an_answer_is_that_of_a_new_catalogue(folder, called, monkeypatch, seed):
    """Whatever was done to a catalogue between questions, its pictures have the texts that they have, and those that are gone have none."""
    monkeypatch.setattr(kept_texts, "AT_ONCE", 2)
    monkeypatch.setattr(relocating, "COARSE", 0)
    world = World(folder, called, seed)
    often = [world.write] * 4 + [world.index] * 3 + [world.ask] * 2
    for _ in range(60):
        world.rng.choice([*often, world.remove, world.merge, world.forget, world.relocate, world.stop])()
    world.ask()


# What a question reads


@pytest.fixture
def read(monkeypatch):
    """The numbers of the pictures whose fields are read."""
    numbers = []
    rows = kept_texts._rows
    monkeypatch.setattr(kept_texts, "_rows", lambda catalogue, number: numbers.append(number) or rows(catalogue, number))
    return numbers


def test_only_new_pictures_are_read(folder, called, read):
    put(folder / "p", {f"{number}.jpg": picture([("title", "A")]) for number in range(5)})
    called("index", "p", "--catalogue", "c", "--quiet")
    for expected in (5, 0):
        assert asked(called, "--with", "title")[1] == 5 and len(read) == expected
        read.clear()
    (folder / "p/3.jpg").write_bytes(picture([("title", "Other")]))
    called("index", "p", "--catalogue", "c", "--quiet")
    assert asked(called, "--where", "title = other") == (["p/3.jpg"], 5) and len(read) == 1
    read.clear()
    (folder / "rules").write_text("every picture needs title\n", encoding="ascii")
    assert called("check", "--rules", "rules", "c")[0] == 0 and read == []


def test_an_index_costs_nothing_for_questions(folder, called, read):
    """A text of which a catalogue has one copy for each block takes its bytes for each, compressed, and no more."""
    sizes = []
    for number, length in enumerate((0, 400)):
        rng = random.Random(length)
        texts = ["".join(rng.choice("abcdefghijklmnopqrstuvwxyz ") for _ in range(length)) for _ in range(200)]
        put(folder / f"p{number}", {f"{at}.jpg": picture([("caption", text)], app1_xmp(title(text))) for at, text in enumerate(texts)})
        called("index", f"p{number}", "--catalogue", f"c{number}", "--quiet")
        assert sql_rows(folder / f"c{number}", "SELECT count(*) FROM texts")[0] == (0,)
        sizes.append((folder / f"c{number}").stat().st_size)
    assert (sizes[1] - sizes[0]) / 200 < 2 * 400 and read == []


def test_no_picture_gets_the_number_of_another(folder, called):
    """The last one of a catalogue is forgotten after a question, and another picture comes."""
    put(folder / "p", {"a.jpg": picture([("title", "A")]), "b.jpg": picture([("title", "B")])})
    called("index", "p", "--catalogue", "c", "--quiet")
    for number in range(3):
        assert asked(called, "--with", "title")[1] == 2
        (last,) = sql_rows(folder / "c", "SELECT path FROM pictures ORDER BY id DESC LIMIT 1")[0]
        called("catalogue", "forget", "c", os.fsdecode(last))
        os.remove(last)
        put(folder / "p", {f"c{number}.jpg": picture([("title", f"C{number}")])})
        called("index", "p", "--catalogue", "c", "--quiet")
        assert asked(called, "--where", f"title = c{number}") == ([f"p/c{number}.jpg"], 2)


# Catalogues that can't be written


def as_process(*words, before=""):
    """Runs a command in a process, after a statement."""
    call = f"from exifnorm_pictures.catalogue import kept_texts\n{before}\nimport sys\nfrom exifnorm_pictures.cli.main import main\nmain(sys.argv[1:])"
    return [sys.executable, "-c", call, *words]


@pytest.fixture
def catalogue(folder, called):
    put(folder / "p", {f"{number:02}.jpg": picture([("title", str(number % 3))]) for number in range(40)})
    called("index", "p", "--catalogue", "c", "--quiet")
    return folder / "c"


EXPECTED = [f"p/{number:02}.jpg" for number in range(0, 40, 3)], 40


def prepared(catalogue):
    return sql_rows(catalogue, "SELECT ifnull(max(picture), 0), (SELECT count(*) FROM texts) FROM prepared")[0]


def test_while_another_run_writes(catalogue, called, monkeypatch):
    monkeypatch.setattr(store, "SHORT_WAIT", 0)
    with closing(sqlite3.connect(catalogue, isolation_level=None)) as base:
        base.execute("BEGIN IMMEDIATE")
        assert asked(called, "--where", "title = 0") == EXPECTED
        base.execute("ROLLBACK")
    assert prepared(catalogue) == (0, 0)
    assert asked(called, "--where", "title = 0") == EXPECTED and prepared(catalogue) == (40, 40)


@pytest.mark.parametrize("mode", (0o555, 0o755), ids=oct)
def test_of_another_user(catalogue, folder, mode):
    """Neither the file nor its folder can be written, or only the folder."""
    os.chmod(Studio.room, 0o755)
    os.chmod(folder, mode)
    os.chmod(catalogue, 0o644)
    os.chmod(room := tempfile.mkdtemp(dir=Studio.room), 0o777)
    call = as_process("list", "c", "--where", "title = 0", "-0")
    if os.geteuid() == 0:
        call = ["setpriv", "--reuid=65534", "--regid=65534", "--clear-groups", *call]
    done = subprocess.run(call, cwd=folder, env=Studio.environment(TMPDIR=room, HOME=room), capture_output=True, check=False)
    os.chmod(folder, 0o755)
    assert (done.returncode, done.stderr, done.stdout.count(b"\0")) == (0, b"", 14)
    assert prepared(catalogue) == (0, 0) and sorted(os.listdir(folder)) == ["c", "p"]


def test_several_at_once(catalogue, folder):
    calls = [as_process("list", "c", "--where", "title = 0", "-0", before="kept_texts.AT_ONCE = 1")] * 3
    runs = [subprocess.Popen(call, cwd=folder, env=Studio.environment(), stdout=subprocess.PIPE, stderr=subprocess.PIPE) for call in calls]
    assert [(run.communicate()[0].count(b"\0"), run.returncode) for run in runs] == [(14, 0)] * 3
    assert prepared(catalogue) == (40, 40)


# Texts that are too long

_OTHER_SPACES = "xmlns:photoshop='http://ns.adobe.com/photoshop/1.0/' xmlns:aux='http://ns.adobe.com/exif/1.0/aux/'"


@pytest.mark.parametrize(
    "inside, question",
    [
        ("<photoshop:Source>{}</photoshop:Source>", "source has clay"),
        ("<aux:SerialNumber>{}</aux:SerialNumber>", "serial has clay"),
        ("<dc:subject><rdf:Bag><rdf:li>{}</rdf:li></rdf:Bag></dc:subject>", "keywords has clay"),
    ],
)
def test_of_a_text_that_is_not_kept_nothing_is_known(folder, called, inside, question):
    short, long = (xmp(inside.format("x" * length + " clay"), outer=_OTHER_SPACES) for length in (60_000, 70_000))
    put(folder / "p", {"a.png": png(png_xmp(short)), "b.jpg": picture([])})
    put(folder / "q", {"c.png": png(png_xmp(long))})
    for names in (["p"], ["p", "q"]):
        called("index", *names, "--catalogue", "c", "--quiet")
        last = json.loads(called("list", "c", "--json", "--where", question)[1].splitlines()[-1])
        assert (last["listed"], last["not_known"]) == (1, len(names) - 1)


def test_a_terminal_shows_how_far_it_is():
    assert Progress(1_000_000, what="preparing questions: ").text(12_000, 0) == "preparing questions: 12,000 of 1,000,000 pictures"
