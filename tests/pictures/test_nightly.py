"""`nightly`: a letter about what is new since the last night, and nothing if there is no news. What is new is known by what was done."""

import itertools
import json
import os
import random
import re
import shutil
import sqlite3
import subprocess
import sys
import unicodedata
import zlib
from contextlib import closing

import pytest
import test_cr3
from made_boxes import cr3
from made_files import app1, app13, app1_xmp, exif, jpeg, resource, xmp
from studio import SMALL_JPEG, TOP, Studio, needs, put, read
from test_list import record

from exifnorm_pictures.catalogue import nights
from exifnorm_pictures.catalogue.store import Catalogue
from exifnorm_pictures.cli.commands import nightly
from exifnorm_pictures.cli.commands.nightly import letter as letter_of
from exifnorm_pictures.comparison.nightly import news as news_
from exifnorm_pictures.comparison.nightly.news import Kind, News
from exifnorm_pictures.report import book

# A raw file whose directory is cut, from which exiv2 extracts nothing
CUT = b"IIRO\x08\0\0\0\xff\xff" + bytes(30)
NEVER_WHOLE = cr3(*test_cr3.structures(), packet=test_cr3.T, missing=1)  # a track of which not all samples are found
PLACE = "<exif:GPSLatitude>47,30.0N</exif:GPSLatitude><exif:GPSLongitude>8,15.0E</exif:GPSLongitude>"
HERE = app1_xmp(xmp(PLACE, "xmlns:exif='http://ns.adobe.com/exif/1.0/'"))
NAMES = [f"{folder}/{number}.jpg" for folder in ("ceramics", "scans/old", "web") for number in range(4)]


def picture(number, has_place=False, base=SMALL_JPEG, **texts):
    """A picture with some texts, and a camera that no other picture has."""
    return jpeg(app1(exif(b"%03d" % number)), app13(resource(0x0404, record(sorted(texts.items())))), *[HERE] * has_place, base=base)


def aged(folder):
    """Gives all files times of long ago, each its own: the system may give the inode of a file that is gone to a new one of the same size."""
    for top, _, names in os.walk(os.fsencode(folder)):
        for name in names:
            path = os.path.join(top, name)
            os.utime(path, ns=(10**18, 10**18 + zlib.crc32(read(path))))


@pytest.fixture
def night(called):
    """Runs a night: its status, and the number of pictures of each kind of news by what it is about."""

    def run(*words):
        status, printed, messages = called("nightly", "p", "--catalogue", "c.catalogue", "--json", *words)
        assert (status == 0) == (printed + messages == ""), (status, printed, messages)
        *news, summary = map(json.loads, printed.splitlines()) if printed else [None]
        return status, {(it["news"], it["about"], *filter(None, [it["to"]])): it["count"] for it in news}, summary

    return run


@pytest.fixture
def archive(folder):
    put(folder / "p", {name: picture(number, title=f"{number}", credit="Museum") for number, name in enumerate(NAMES)})
    aged(folder / "p")
    return folder / "p"


# Nights


def nothing(pictures):
    return {}


def lose(pictures):
    put(pictures, {"web/0.jpg": picture(8, credit="Museum"), "web/1.jpg": picture(9, True, title="9", credit="Museum")})
    return {("text lost", "title"): 1, ("position", None): 1}


def move(pictures):
    os.rename(pictures / "scans/old", pictures / "scans/older")
    shutil.copy(pictures / "ceramics/0.jpg", pictures / "new.jpg")
    return {("folder moved", f"{pictures}/scans/old", f"{pictures}/scans/older"): 4, ("new", None): 1}


def another_raw(pictures):
    (pictures / "5.orf").write_bytes(CUT + b"\5")
    (pictures / "0.orf").write_bytes(CUT + b"\6")
    return {("not readable", None): 1, ("other bytes", None): 1}


NIGHTS = ((nothing, 0), (lose, 1), (nothing, 0), (move, 1), (another_raw, 2), (nothing, 0))


@needs("exiftool", "exiv2")
def test_nights(archive, night):
    """Over an archive with files that exiv2 can't read and a CR3 that is never wholly read."""
    put(archive, {**{f"{number}.orf": CUT + bytes([number]) for number in range(5)}, "a.cr3": NEVER_WHOLE, "notes.txt": b"no picture"})
    aged(archive)
    status, news, summary = night()
    assert (status, news, summary["compared"]) == (1, {("not readable", None): 5}, 18)
    for number, (happens, expected) in enumerate(NIGHTS):
        done = happens(archive)
        (archive / "notes.txt").write_bytes(b"other notes %d" % number)
        assert night()[:2] == (expected, done), (number, happens.__name__)


CREDITS = ("Museum", "Agency", None)
RULES = {None: "line 1: every picture needs credit", "Agency": "line 2: credit is Museum"}  # what breaks each


@pytest.mark.parametrize("seed", range(4))
def test_what_is_new(seed, archive, night):
    """Drawn pictures get other texts, positions, names, or go; the credit also breaks a rule."""
    rng = random.Random(seed)
    (archive.parent / "rules").write_text("every picture needs credit\ncredit is Museum\n")
    numbers = itertools.count(100)
    pictures = {name: [number, False, {"title": "1", "credit": rng.choice(CREDITS)}] for number, name in enumerate(NAMES)}

    def write():
        shutil.rmtree(archive)
        texts = {name: {label: text for label, text in it[2].items() if text} for name, it in pictures.items()}
        put(archive, {name: picture(it[0], it[1], **texts[name]) for name, it in pictures.items()})
        put(archive, {f"{os.path.dirname(name)}/notes.txt": b"so that no folder is empty" for name in NAMES})
        aged(archive)

    write()
    night("--rules", "rules")
    for _ in range(3):
        expected = {}

        def tell(kind, about=None):
            expected[kind, about] = expected.get((kind, about), 0) + 1

        for name in rng.sample(sorted(pictures), 4):
            number, has_place, texts = pictures[name]
            kind = rng.choice(("credit", "title", "place", "move", "go", "come"))
            if kind == "credit":
                was, now = texts["credit"], rng.choice(CREDITS)
                if was != now:
                    tell("text lost" if not now else "text changed" if was else "text added", "credit")
                    if now in RULES:
                        tell("rule broken", RULES[now])
                pictures[name] = [number, has_place, {**texts, "credit": now}]
            elif kind == "title":
                pictures[name] = [number, has_place, {**texts, "title": texts["title"] + "x"}]
                tell("text changed", "title")
            elif kind == "place":
                pictures[name] = [number, not has_place, texts]
                tell(*(("text lost", "position") if has_place else ("position",)))
            elif kind == "move":
                pictures[f"moved{number}{name[-8:].replace('/', '')}"] = pictures.pop(name)
                tell("moved")
            elif kind == "go":
                del pictures[name]
                tell("gone")
            else:
                number = next(numbers)
                pictures[f"ceramics/{number}.jpg"] = [number, True, {"title": "1", "credit": None}]
                for news in (("new",), ("position",), ("rule broken", RULES[None])):
                    tell(*news)
        write()
        status, news, summary = night("--rules", "rules")
        breaking = sum(it[2]["credit"] != "Museum" for it in pictures.values())
        assert (status, news) == (int(bool(expected)), expected)
        assert not summary or (summary["broken_pictures"], summary["compared"]) == (
            breaking,
            len(pictures) + expected.get(("gone", None), 0),
        )


def test_what_may_break_a_rule_is_told_once(archive, night, folder):
    """A picture with a refused block: on the night on which it comes, and not when it moves."""
    (folder / "rules").write_text("every picture needs caption\n")
    night("--rules", "rules")
    put(archive, {"web/refused.jpg": jpeg(app1(b"II*\0\xff\xff\0\0"))})
    assert night("--rules", "rules")[:2] == (2, {("new", None): 1, ("not wholly read", None): 1})
    os.rename(archive / "web/refused.jpg", archive / "scans/elsewhere.jpg")
    assert night("--rules", "rules")[:2] == (1, {("moved", None): 1})


def test_a_damaged_picture(archive, night):
    """One that ends early, one that is another one now, and one of zeros."""
    night("--pixels")
    whole = {name: (archive / name).read_bytes() for name in ("web/0.jpg", "web/1.jpg", "web/2.jpg", "web/3.jpg")}
    other = SMALL_JPEG.replace(b"\xff\xdb\0\x43\0", b"\xff\xdb\0\x43\1", 1)
    # cut in its pixels, and in its head, so that nobody knows what it has lost
    damaged = {"web/0.jpg": whole["web/0.jpg"][:-40], "web/1.jpg": whole["web/1.jpg"][:60], "web/2.jpg": bytes(3000)}
    put(archive, {**damaged, "web/3.jpg": picture(11, title="11", credit="Museum", base=other)})
    status, news, _ = night()
    assert (status, news) == (1, {("damaged", None): 3, ("other picture", None): 1})
    assert night()[0] == 0
    put(archive, whole)
    put(archive, {"web/new.jpg": damaged["web/0.jpg"]})
    assert night()[:2] == (1, {("readable again", None): 2, ("new", None): 2, ("damaged", None): 1, ("other picture", None): 1})


# Disks


@pytest.mark.parametrize("is_empty", [True, False])
@pytest.mark.parametrize("name", ["", "web", "scans", "scans/old"])
def test_a_disk_that_is_not_mounted(name, is_empty, archive, night, folder, monkeypatch):
    """It is one line each night. When it is back, what was edited meanwhile is news, and nothing else. A picture that went before isn't counted."""
    put(archive, {f"{place}/gone.jpg": picture(50 + at) for at, place in enumerate(("web", "scans/old"))})
    night()
    for place in ("web", "scans/old"):
        os.remove(archive / place / "gone.jpg")
    assert night()[:2] == (1, {("gone", None): 2})
    os.rename(archive / name, folder / "disk")
    monkeypatch.setattr(news_, "_device_of", lambda folder: 0)  # the folder is on another device than the disk
    if is_empty:
        (archive / name).mkdir()
    known = sum(it.startswith(name) for it in NAMES)
    absent = "scans" if name == "scans/old" else name  # the highest folder without a file
    for _ in range(2):
        status, news, summary = night()
        assert (status, news, summary["with_news"]) == (2, {("folder not there", str(archive / absent)): known}, 0)
    if is_empty:
        (archive / name).rmdir()
    os.rename(folder / "disk", archive / name)
    edited = next(it for it in NAMES if it.startswith(name))
    put(archive, {edited: picture(NAMES.index(edited), title="other", credit="Museum")})
    aged(archive)
    assert night()[:2] == (1, {("text changed", "title"): 1})


def test_a_folder_that_was_removed(archive, night, called):
    """It is in each letter until `forget`. If one of its pictures was found elsewhere, somebody emptied it."""
    night()
    os.rename(archive / "web/0.jpg", archive / "0.jpg")
    shutil.rmtree(archive / "web")
    shutil.rmtree(archive / "ceramics")
    status, news, summary = night()
    assert (status, news) == (2, {("folder not there", str(archive / "ceramics")): 4, ("moved", None): 1, ("gone", None): 3})
    assert summary["with_news"] == 4, "nothing is known of the pictures of a folder that isn't there"
    called("catalogue", "forget", "c.catalogue", str(archive / "ceramics"))
    assert night()[0] == 0


# Runs at the same time, and folders that aren't there


def test_two_runs_at_once(archive, night, folder):
    """The second one says so, and changes nothing; the lock of a run that was killed holds nobody up."""
    night()
    words = "import sys; from exifnorm_pictures.catalogue.nights import Nights; held = Nights('c.catalogue', '').__enter__(); print(flush=True); input()"
    other = subprocess.Popen([sys.executable, "-c", words], cwd=folder, stdin=-1, stdout=-1, env=Studio.environment())
    other.stdout.readline()
    before = {name: (folder / name).read_bytes() for name in os.listdir(folder) if name != "p"}
    lose(archive)
    ran = subprocess.run(
        [sys.executable, "-m", "exifnorm_pictures", "nightly", "p", "--catalogue", "c.catalogue"],
        cwd=folder,
        capture_output=True,
        env=Studio.environment(),
    )
    assert (ran.returncode, ran.stdout) == (4, b"") and b"another nightly run" in ran.stderr
    assert before == {name: (folder / name).read_bytes() for name in before}
    other.kill()
    other.communicate()
    assert night()[0] == 1


def aged_catalogue(name):
    """Makes a catalogue one of an earlier release, with a log beside it."""
    with closing(sqlite3.connect(name)) as base, base:
        base.execute("PRAGMA user_version = 4")
        base.execute("DROP INDEX pictures_by_other_exif")
    name.with_name(f"{name.name}-wal").write_bytes(b"log")


@pytest.mark.parametrize("stops", (None, "_keep_earlier", "keep"))
def test_a_catalogue_of_an_earlier_release(stops, archive, night, called, folder, monkeypatch):
    """nightly makes a new catalogue, says so once even if a run is killed, keeps the old one, and is quiet on later nights."""
    rules = folder / "r.txt"
    rules.write_text("every picture needs copyright\n", encoding="ascii")
    night("--pixels")
    aged_catalogue(folder / "c.catalogue")
    old, taken = (folder / "c.catalogue").read_bytes(), folder / "c.version4.catalogue"
    taken.write_bytes(b"of somebody else")
    if stops:

        def stopped(self, *words):
            if stops == "_keep_earlier":
                kept(self)
            raise KeyboardInterrupt

        kept = nights.Nights._keep_earlier
        with monkeypatch.context() as patched:
            patched.setattr(nights.Nights, stops, stopped)
            called("nightly", "p", "--catalogue", "c.catalogue", "--rules", "r.txt")
    status, printed, messages = called("nightly", "p", "--catalogue", "c.catalogue", "--rules", "r.txt")
    assert (status, messages) == (1, "") and "earlier release" in printed and "c.version4.2.catalogue" in printed
    assert f"{len(NAMES)} pictures" in printed and "break a rule" in printed
    assert (folder / "c.version4.2.catalogue").read_bytes() == old and taken.read_bytes() == b"of somebody else"
    assert (folder / "c.version4.2.catalogue-wal").read_bytes() == b"log" and not (folder / "c.catalogue-wal").exists()
    with Catalogue("c.catalogue") as new:
        assert new.has_digests()  # as the other had
    assert called("nightly", "p", "--catalogue", "c.catalogue", "--rules", "r.txt") == (0, "", "")
    lose(archive)
    assert night()[0] == 1 and (folder / "c.version4.2.catalogue").read_bytes() == old


def test_a_disk_that_is_not_mounted_while_the_release_changes(archive, called, folder, night):
    """Nothing is known of its pictures but by the catalogue of the earlier release, which stays where it is."""
    night()
    aged_catalogue(folder / "c.catalogue")
    old = (folder / "c.catalogue").read_bytes()
    os.rename(archive, folder / "elsewhere")
    for is_empty in (False, True):
        if is_empty:
            archive.mkdir()
        status, printed, messages = called("nightly", "p", "--catalogue", "c.catalogue")
        assert status not in (0, 1) and printed == "" and "mounted" in messages
        assert (folder / "c.catalogue").read_bytes() == old and not list(folder.glob("*version*"))


def test_a_catalogue_that_is_written_meanwhile(archive, night, called, monkeypatch):
    """The results aren't kept in place of the other's; the next night tells them."""
    night()
    lose(archive)
    put(archive.parent / "q", {"a.jpg": picture(77, title="1")})
    tell = nightly._print_news

    def tell_meanwhile(found):
        tell(found)
        assert called("index", "q", "--catalogue", "c.catalogue", "--quiet")[0] == 0

    monkeypatch.setattr(nightly, "_print_news", tell_meanwhile)
    assert called("nightly", "p", "--catalogue", "c.catalogue")[0] == 4
    monkeypatch.undo()
    monkeypatch.chdir(archive.parent)
    assert night()[:2] == (1, {("text lost", "title"): 1, ("position", None): 1})


# The letter, its page, and its files


def width(text):
    return sum(0 if unicodedata.combining(it) else 2 if unicodedata.east_asian_width(it) in "WF" else 1 for it in text)


@pytest.mark.parametrize("seed", range(20))
def test_a_letter_fits_a_page(seed):
    """Whatever there is to tell: at most 30 lines of 80 columns, each kind of news with its count, and the number of lines that are left out."""
    rng = random.Random(seed)
    names = (b"a.jpg", b"x" * 200, "京都/".encode() * 30 + b".jpg", b"\xff\n\x1b" * 20, b"web/vase.jpg")
    news = []
    for kind in Kind:
        for number in range(rng.choice((0, 1, 1, 3, 9, 60))):
            named = [(rng.choice(names), rng.choice((None, *names))) for _ in range(rng.randrange(1, 4))]
            about = rng.choice(("copyright", "line 3: " + "title like x " * 20, "京" * 90, ""))
            news.append(News(kind, f"{about}{number}", rng.choice((1, 3, 200_000)), named))
    printed = list(letter_of("h" * rng.choice((10, 90)), news, ["end"] * rng.choice((0, 4))))
    assert len(printed) <= 30 and max(map(width, printed)) <= 80, printed
    assert all(it.isprintable() for it in printed)
    if len(news) <= 3:
        assert all(f"{it.count:,} " in "\n".join(printed) for it in news)


def test_a_folder_of_pages(archive, called, folder):
    """It is replaced at each night with news, also if it lies in the archive, whose pictures it doesn't join."""
    (folder / "rules").write_text("every picture needs title\n")
    words = ("nightly", "p", "--catalogue", "c.catalogue", "--rules", "rules", "--html", "p/[x] report/")
    assert called(*words)[0] == 1 and (archive / "[x] report/index.html").is_file()
    assert called(*words) == (0, "", "")
    lose(archive)
    aged(archive / "web")
    status, printed, messages = called(*words)
    assert (status, messages) == (1, "") and printed.splitlines()[0].endswith(": 12 pictures then or now, 2 with news")
    page = (archive / "[x] report/index.html").read_text(encoding="utf-8")
    assert "web/0.jpg" in page and "every picture needs title" in page
    assert called(*words) == (0, "", "")


def test_too_many_files_for_one_page(archive, called, monkeypatch):
    """The letter is printed all the same, and a note names the folder of pages, which can then be written."""
    monkeypatch.setattr(book, "MOST_OF_A_PAGE", len(NAMES) - 1)
    words = ("nightly", "p", "--catalogue", "c.catalogue", "--html")
    status, printed, messages = called(*words, "page.html")
    assert status == 1 and printed.startswith("p, the first night: 12 pictures\n") and not os.path.exists("page.html")
    assert messages.count("\n") == 1 and "page.html isn't written" in messages and "--html NAME/" in messages
    lose(archive)
    aged(archive / "web")
    assert called(*words, "report/")[::2] == (1, "") and "web/0.jpg" in open("report/index.html", encoding="utf-8").read()


def test_the_line_for_cron(archive, folder):
    """That of RECIPES, in the shell and with the few variables that cron gives."""
    with open(os.path.join(TOP, "docs", "RECIPES.md"), encoding="utf-8") as page:
        line = re.search(r"^0 2 \* \* \* (exifnorm-pictures nightly .*)$", page.read(), re.M)[1]
    (folder / "museum.rules").write_text("every picture needs credit\n")
    for place, mine in (("/archive ", f"{archive} "), ("/var/lib/museum/", f"{folder}/"), ("/etc/", f"{folder}/")):
        assert place in line
        line = line.replace(place, mine)
    environment = {
        name: value for name, value in Studio.environment().items() if name in ("PATH", "PYTHONPATH", "EXIFNORM_LIBRARY", "TMPDIR")
    }

    def cron():
        ran = subprocess.run(["/bin/sh", "-c", line], cwd="/", env={**environment, "HOME": "/nowhere"}, capture_output=True)
        return ran.returncode, ran.stdout.decode().partition("\n")[0], ran.stderr

    assert cron() == (1, "p, the first night: 12 pictures", b"")
    assert cron() == (0, "", b"")
    shutil.copy(archive / "web/0.jpg", archive / "web/4.jpg")
    status, head, messages = cron()
    assert (status, messages) == (1, b"") and head.endswith(": 13 pictures then or now, 1 with news")


@pytest.mark.parametrize(
    "words, files, expected, why",
    [
        (("nothing", "--catalogue", "c.catalogue"), {}, 3, "no picture"),
        (("p/web/0.jpg", "--catalogue", "c.catalogue"), {}, 3, "no folder"),
        (("p", "--catalogue", "c.catalogue", "--rules", "rules"), {"rules": b"credits neds x\n"}, 3, "line 1"),
        (("p", "--catalogue", "none/c.catalogue"), {}, 4, "none"),
        (("p", "--catalogue", "rules"), {"rules": b"credit is x\n"}, 4, "rules"),
        (("p", "--catalogue", "c.catalogue"), {"c.tonight.catalogue": b"somebody's"}, 4, "c.tonight.catalogue"),
        (("p", "--catalogue", "c.catalogue", "--html", "page"), {"page": b"somebody's"}, 4, "page"),
    ],
)
def test_what_is_refused(words, files, expected, why, archive, called, folder):
    """No file of another kind is written to, and no catalogue is made of a mistake."""
    put(folder, files)
    status, _, messages = called("nightly", *words)
    assert status == expected and why in messages
    assert all((folder / name).read_bytes() == octets for name, octets in files.items())
    assert not (folder / "c.catalogue").exists()


@pytest.mark.parametrize("name", ["before.catalogue", "tonight.catalogue", "before.catalogue.new", "catalogue.lock"])
@pytest.mark.parametrize("make", ["file", "link", "pipe"])
def test_a_file_of_another_kind_stays(name, make, archive, night, called, folder):
    """Whatever has the name of one of the files beside a catalogue."""
    night()
    lose(archive)
    (folder / "precious").write_bytes(b"somebody's")
    there = folder / f"c.{name}"
    there.unlink(missing_ok=True)
    {
        "file": lambda: shutil.copy(folder / "precious", there),
        "link": lambda: there.symlink_to("precious"),
        "pipe": lambda: os.mkfifo(there),
    }[make]()
    before = os.lstat(there).st_ino
    status, _, messages = called("nightly", "p", "--catalogue", "c.catalogue")
    assert status == 4 and there.name in messages and os.lstat(there).st_ino == before
    assert make == "pipe" or there.read_bytes() == b"somebody's"


@pytest.mark.parametrize("has_links", [True, False])
def test_catalogues_of_several_days(has_links, archive, called, monkeypatch):
    """A letter's command answers days later as on its night; what isn't a catalogue is left alone."""
    if not has_links:
        monkeypatch.setattr(nights, "_link", shutil.copyfile)
    (archive.parent / "c.catalogue.2001-01-01").write_bytes(b"a diary")

    def night(day):
        monkeypatch.setattr("time.strftime", lambda *_: f"2026-11-{day:02}")
        return called("nightly", "p", "--catalogue", "c.catalogue", "--nights", "3")

    def kept():
        return sorted(it[-2:] for it in os.listdir(archive.parent) if it.startswith("c.catalogue.2026"))

    night(28)
    assert night(29)[:2] == (0, "") and kept() == ["28", "29"]
    put(archive, {"web/0.jpg": picture(9, title="other", credit="Museum")})
    _, monday, _ = night(30)
    assert "web/0.jpg title (IPTC): [-8-]{+other+}\n" in monday
    command = monday.partition("exifnorm-pictures ")[2].split()
    assert command == ["changed", "--each", "c.catalogue.2026-11-29", "c.catalogue.2026-11-30"]
    answer = called(*command)
    put(archive, {"web/1.jpg": picture(9, title="third", credit="Museum")})
    night(31)
    assert kept() == ["29", "30", "31"] and called(*command) == answer
    put(archive, {"web/2.jpg": picture(9, title="again", credit="Museum")})
    _, letter, _ = night(31)
    second = letter.partition("exifnorm-pictures ")[2].split()
    assert second[2:] == ["c.catalogue.2026-11-30", "c.catalogue.2026-11-31"]
    assert kept() == ["29", "30", "31"] and called(*command) == answer
    whole_day = called(*second)
    assert all(f"web/{number}.jpg" in whole_day[1] for number in (1, 2))
    put(archive, {"web/3.jpg": picture(9, title="last", credit="Museum")})
    assert night(32)[0] == 1 and called(*second) == whole_day
    assert (archive.parent / "c.catalogue.2001-01-01").read_bytes() == b"a diary"
    (archive.parent / "c.catalogue.2026-11-33").write_bytes(b"a diary")
    assert night(33)[0] == 4 and "a file of another kind" in night(33)[2]
