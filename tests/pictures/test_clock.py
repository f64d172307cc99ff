"""The clock of a picture ends whatever reads it, and the next picture is read."""

import itertools
import json
import os
import select
import shutil
import time
from datetime import datetime
from types import SimpleNamespace

import pytest
from growing import FORMATS, IN_EACH_FORMAT, OTHERS
from made_blocks import segment, with_exif
from made_files import app1, exif, jpeg
from studio import SMALL_JPEG, name_of, put, sql_rows
from test_maker_notes import noted
from test_repairs import REFUSED

import exifnorm
from exifnorm_pictures.cli.parser import parsers
from exifnorm_pictures.extract import exiftool, programs
from exifnorm_pictures.files import session
from exifnorm_pictures.model import budgets
from exifnorm_pictures.model.found import UNREAD_NOTES, UNREAD_TRAILER
from exifnorm_pictures.report import small_pictures
from exifnorm_pictures.scan import index

# What reads a picture, and work for it. The readers of formats need the blocks alone, the others their meaning.
OF_FORMATS = {
    name: (ending, make, "parts" if name not in ("JPEG", "RAF", "NAME.xmp") else "packets") for name, (ending, make) in FORMATS.items()
}
OF_MEANING = ("neighbouring values", "unsorted entries")
# What each command is given that reads pictures. P and Q are folders with the picture a and another one, c a catalogue of P
READS = {
    "index": "index P --catalogue new --quiet --jobs 1 --pixels --sidecars",
    "verify": "verify c --quiet --jobs 1",
    "changed": "changed Q P --each --quiet --jobs 1 --no-programs",
    "compare": "compare Q/{0} P/{0} --no-programs",
    "list": "list P --with title --quiet --jobs 1",
    "check": "check --rules rules P --quiet --jobs 1",
    "nightly": "nightly P --catalogue c --rules rules --jobs 1",
    "show": "show P/{}",
    "captions": "show --captions P",
    "check, agreement": "check P --all",
    "explain": "explain P/{}",
    "report": "report c --html page",
    "mend": "mend P/{} copy",
}
OTHERS_READ = {
    "catalogue merge": "catalogue merge c --catalogue other",
    "catalogue forget": "catalogue forget c P/{}",
    "catalogue relocate": "catalogue relocate c P Q",
    "same": "same c",
    "history": "changed --picture P/{} c c",
    "catalogue export": "catalogue export c tables --quiet",
}


def works():
    for name, (ending, make, growth) in OF_FORMATS.items():
        growth = IN_EACH_FORMAT[growth]
        if name != "NAME.xmp":  # whose only packet is parsed at once
            yield name, ending, lambda make=make, growth=growth: make(growth.make(growth.short, b"qa").parts)
    for name in OF_MEANING:
        ending, growth = OTHERS[name]
        yield name, ending, lambda growth=growth: growth.make(growth.short, b"qa").octets


def test_all_commands_are_tried():
    assert {*map(name_of, {**READS, **OTHERS_READ}.values())} == set(parsers()[1])


@pytest.fixture
def ended(folder, monkeypatch):
    """The budgets whose clock has ended a picture. Each look at a clock is a second later than the last one, so that it ends what looks often, on
    any machine. The other programs aren't there."""
    seconds, check_time, budgets_ended = itertools.count(), budgets.Budget.check_time, []

    def check(budget):
        try:
            check_time(budget)
        except budgets.TooLong:
            budgets_ended.append(budget)
            raise

    monkeypatch.setenv("PATH", "/nowhere")
    monkeypatch.setattr(small_pictures.Shrinker, "_answer", lambda *_: b"")
    monkeypatch.setattr(budgets.time, "thread_time", lambda: next(seconds))
    monkeypatch.setattr(budgets.Budget, "check_time", check)
    return budgets_ended


@pytest.fixture
def try_each(called, folder, ended):
    """Runs commands on a folder in which a file without an end has replaced another one: of each how often the clock ended something, and the
    status."""

    def call(file, octets, commands):
        for side in ("P", "Q"):
            put(
                folder,
                {
                    f"{side}/{file}": jpeg(app1(exif(b"abc"))),
                    f"{side}/b.jpg": jpeg(app1(exif(b"Abc"))),
                },
            )
        (folder / "rules").write_text("every picture needs title\n")
        assert called("index", "P", "--catalogue", "kept", "--quiet", "--pixels")[0] == 0
        (folder / "P" / file).write_bytes(octets)
        for command, words in commands.items():
            ended.clear()
            shutil.copy("kept", "c")
            status, out, messages = called(*words.format(file).split())
            assert status in (0, 1, 2) and "internal" not in out + messages, (command, status, out[-500:], messages)
            yield command, len(ended), status
        assert sql_rows("new", "SELECT exif != '' FROM pictures WHERE CAST(path AS TEXT) LIKE '%b.jpg'") == [(1,)]

    return call


@pytest.mark.parametrize("work, ending, make", works(), ids=lambda it: it if isinstance(it, str) else "")
def test_what_never_ends(work, ending, make, try_each, folder):
    """In each command the clock ends what reads a picture, which costs no other picture anything. Commands that read no picture never look."""
    for command, times, status in try_each(f"a.{ending}", make(), {**READS, **OTHERS_READ}):
        if command in OTHERS_READ or command == "report" and work in OF_MEANING:
            assert not times, command
        else:
            assert 1 <= times <= 3 and (status or command == "report"), (command, times, status)
    for source in (folder / "P" / f"a.{ending}", open(folder / "P" / f"a.{ending}", "rb")):
        with pytest.raises(exifnorm.NotReadable, match="more than 5 seconds"):
            exifnorm.read(source)


def test_pixels_that_never_end(try_each):
    """The metadata of a picture with many markers in its scan are known."""
    picture = jpeg(app1(exif(b"abc")))[:-2] + b"\xff\xc0\0\2" * 30_000 + b"x" * 70_000 + b"\xff\xd9"
    of_pixels = {"changed": READS["changed"] + " --pixels", **{it: READS[it] for it in ("index", "verify", "compare", "nightly")}}
    for command, times, _ in try_each("a.jpg", picture, of_pixels):
        assert times, command
    assert sql_rows("new", "SELECT DISTINCT problem, exif != '' FROM pictures") == [(None, 1)]


# An ExifTool that has no end at a file with this mark, in each of its calls or at one stage of `mend`. It reads requests as ExifTool does,
# and otherwise its arguments. A fake program says by the length of a file how long it takes, in tenths of a second. One without an end says
# so again and again: the caller may begin to wait late.
MARK = b"has no end"
TAKES = """#!/usr/bin/python3
import json, os, sys, time
def takes(seconds):
    with open(os.path.join(os.path.dirname(sys.argv[0]), "spent"), "a") as spent:
        spent.write("." * round(10 * seconds))
def hangs():
    while True:
        takes(1000), time.sleep(0.05)
"""
FAKE = (
    TAKES
    + """
sys.excepthook = lambda kind, *_: sys.stderr.write("Out of memory!\\n" if kind is MemoryError else str(kind))
STAGES = {"shown": "-all#", "free": "-PageName", "written": "=zz", "rebuilt": "-tagsfromfile"}
def about(names, words):
    if any(b"has no end" in open(name, "rb").read() for name in names) and any(STAGES.get(%r, "") in word for word in words):
        %s
if "-stay_open" not in sys.argv:
    about([sys.argv[-1]], [word.replace("-IFD0:", "-") for word in sys.argv])
else:
    words = []
    for line in sys.stdin:
        words.append(line.rstrip("\\n"))
        if words[-1] == "-execute":
            names = [it for it in words if it.startswith(("/", "./"))]
            about(names, words)
            types = ["NRW" if it.endswith(".nrw") else "EXV" for it in names]
            print(json.dumps([{"SourceFile": it, "A:FileType": of, "A:MIMEType": "image/x", "Canon:Owner": "x"} for it, of in zip(names, types)]))
            print(next(it for it in words if it.startswith("{done")), flush=True)
            words = []
"""
)
FAKE_EXIV2 = (
    TAKES
    + """
if b"has no end" in open(sys.argv[-1], "rb").read():
    hangs()
"""
)
WITHOUT_END = {
    "silent": "hangs()",
    "slow": "[(print(' ', end='', flush=True), takes(0.1)) for _ in range(100)], hangs()",
    "long": "[print(' ' * 1_000_000, flush=True) for _ in range(10_000)]",
    "deaf": "os.close(0), hangs()",
}
GREEDY = "[bytearray(64 << 20) for _ in range(100)]"  # of which Python tells as Perl does
NO_READER = b"\xff\x01Exiv2\xff\xd9"  # exiv2's own format
TRAILERS = [jpeg(app1(exif(b"Abc")), behind=b"AXS!" + it.ljust(20, b"\0") + b"AXS*" + bytes(8)) for it in (MARK, b"")]
COMMENT = segment(0xFE, MARK)


class Clock:
    """The clock for the calls of other programs. What these say that they take passes, and nothing else, however busy the machine is."""

    def __init__(self, spent):
        self.spent = spent

    def monotonic(self):
        return self.spent.stat().st_size / 10

    def select(self, reads, writes, others, left):
        ends = self.monotonic() + left
        while True:
            ready = select.select(reads, writes, others, 0.01)
            if any(ready) or self.monotonic() >= ends:
                return ready


def programs_of(folder, monkeypatch, end, stage="", exiv2=""):
    """Puts an ExifTool, and perhaps an exiv2, on PATH, with a clock that they move."""
    (folder / "bin").mkdir()
    (folder / "bin" / "spent").touch()
    clock = Clock(folder / "bin" / "spent")
    monkeypatch.setattr(programs, "select", SimpleNamespace(select=clock.select))
    for module in (programs, session):
        monkeypatch.setattr(module, "time", SimpleNamespace(monotonic=clock.monotonic))
    for name, text in (("exiftool", FAKE % (stage, end)), ("exiv2", exiv2)):
        if text:
            (folder / "bin" / name).write_text(text)
            (folder / "bin" / name).chmod(0o755)
    monkeypatch.setenv("PATH", f"{folder / 'bin'}")


def asked(folder, monkeypatch, end, **pictures):
    """A folder of pictures, and an ExifTool that has no end at those with the mark."""
    programs_of(folder, monkeypatch, end)
    (folder / "p").mkdir()
    for name, octets in pictures.items():
        (folder / "p" / name.replace("_", ".")).write_bytes(octets)


@pytest.mark.parametrize("end", WITHOUT_END)
def test_an_exiftool_without_end(end, called, folder, monkeypatch):
    """It costs the file at most the limit, whichever command asks it, and the next file is read."""
    asked(folder, monkeypatch, WITHOUT_END[end], a_exv=NO_READER + MARK, b_exv=NO_READER)
    for words in (
        ["index", "p", "--catalogue", "c", "--quiet", "--jobs", "1"],
        ["show", "p/a.exv", "p/b.exv"],
        ["show", "--captions", "p/a.exv", "p/b.exv"],
    ):
        status, out, messages = called(*words, "--limit", "4")
        assert status == 2 and "internal" not in out + messages, (words, out, messages)
    found = sql_rows("c", "SELECT problem, detail FROM pictures ORDER BY path")
    due = ("ToolFailed", f"exiftool wrote more than {budgets.OUTPUT:,} bytes about one file")
    assert found == [due if end == "long" else ("TooSlow", "exiftool took longer than 4 seconds"), (None, "")]


def test_an_exiv2_without_end(called, folder, monkeypatch):
    """It costs the raw file the limit, and is asked about the next one."""
    programs_of(folder, monkeypatch, "pass", exiv2=FAKE_EXIV2)
    put(folder, {f"{name}.nrw": b"II*\0\x08\0\0\0\0\0\0\0\0\0" + more for name, more in (("a", MARK), ("b", b""))})
    assert called("index", "a.nrw", "b.nrw", "--catalogue", "c", "--quiet", "--jobs", "1", "--limit", "4")[0] == 2
    (first, detail), (second, _) = sql_rows("c", "SELECT problem, detail FROM pictures ORDER BY path")
    assert (first, detail, second) == ("TooSlow", "exiv2 took longer than 4 seconds", "ToolFailed")


def test_an_exiftool_without_end_at_what_is_read_here(called, folder, monkeypatch):
    """It is asked for a trailer's blocks: the picture is read but for these."""
    asked(folder, monkeypatch, WITHOUT_END["silent"], a_jpg=TRAILERS[0], b_jpg=TRAILERS[1])
    called("index", "p", "--catalogue", "c", "--quiet", "--jobs", "1", "--limit", "1")
    rows = sql_rows("c", "SELECT path, problem, exif != '', not_read IS NULL FROM pictures ORDER BY path")
    assert [row[1:3] for row in rows] == [(None, 1), (None, 1)] and rows[0][3], rows


@pytest.mark.parametrize("end", ("silent", "long"))
def test_an_exiftool_without_end_at_maker_notes(end, called, folder, monkeypatch):
    """The picture's own fields are known, and its MakerNote is a part that was not read, which the next run asks for again; that of the next
    picture is read. `compare` knows nothing of it."""
    asked(folder, monkeypatch, WITHOUT_END[end], a_jpg=noted(more=[COMMENT]), b_jpg=noted())
    index = ["index", "p", "--catalogue", "c", "--quiet", "--jobs", "1", "--limit", "4", "--maker-notes"]
    assert called(*index)[:2] == (0, "2 accepted\n")
    query = "SELECT problem, exif != '', readings IS NOT NULL, pictures.not_read != '' FROM pictures LEFT JOIN maker_notes ON picture = id ORDER BY path"
    assert sql_rows("c", query) == [(None, 1, 0, 1), (None, 1, 1, 0)]
    for name, more in (("a", [COMMENT]), ("b", [])):
        (folder / f"{name}.jpg").write_bytes(noted(moved=64, more=more))
        status, printed, messages = called("compare", f"p/{name}.jpg", f"{name}.jpg", "--limit", "1")
        assert status in (1, 2) and "internal" not in printed + messages, printed
    (folder / "bin" / "exiftool").write_text(FAKE % ("", "pass"))
    assert called(*index)[1] == "1 accepted, 1 unchanged\n"
    assert sql_rows("c", query) == [(None, 1, 1, 0)] * 2


def test_all_calls_about_a_picture_have_the_time_of_one(called, folder, monkeypatch):
    """ExifTool is asked for a trailer and for a MakerNote."""
    asked(folder, monkeypatch, WITHOUT_END["silent"], a_jpg=noted(more=[COMMENT]) + TRAILERS[0][TRAILERS[0].rindex(b"AXS!") :])
    waited, read_until = [], programs.read_until
    monkeypatch.setattr(exiftool.programs, "read_until", lambda *of: (waited.append(of[2]), read_until(*of))[1])
    called("index", "p", "--catalogue", "c", "--quiet", "--jobs", "1", "--limit", "1", "--maker-notes")
    parts = [it for it, in sql_rows("c", "SELECT what FROM not_read")]
    assert len(waited) > 1 and sum(waited) < 1.5 and {UNREAD_NOTES, UNREAD_TRAILER} <= set(parts), (waited, parts)


STAGES = ("shown", "free", "written", "rebuilt", "exiv2")


@pytest.mark.parametrize("stage", STAGES)
def test_mend_without_end(stage, called, folder, monkeypatch):
    """At whichever step a program doesn't end: the picture isn't mended, nothing is written of it, and the next one is mended."""
    programs_of(folder, monkeypatch, WITHOUT_END["silent"] if stage != "exiv2" else "pass", stage, FAKE_EXIV2 if stage == "exiv2" else "")
    put(
        folder,
        {f"{name}.jpg": with_exif(SMALL_JPEG, block) for name, block in (("a", b"II*\0\xff\xff\0\0" + MARK), ("b", REFUSED["unsorted"]))},
    )
    (folder / "list").write_text("a.jpg\nb.jpg\n")
    (folder / "out").mkdir()
    calls, run = [], programs.run
    monkeypatch.setattr(programs, "run", lambda *words: (calls.append(words), run(*words))[1])
    status, printed, messages = called("mend", "--files-from", "list", "out", "--limit", "4", "--json")
    first, second, _ = map(json.loads, printed.splitlines())
    assert (status, first.get("problem"), second.get("step")) == (2, "TooSlow", "repair"), printed + messages
    assert [it.name for it in (folder / "out").iterdir()] == ["b.jpg"]
    assert len(calls) <= 12, "each call may take as long as the limit"


def test_an_exiftool_that_leaves_its_input_in_the_pipe(folder, monkeypatch):
    """More questions than a pipe has room for are given to a program that answers and doesn't read."""
    monkeypatch.setattr(exiftool.programs, "exiftool", lambda *_: ["/bin/sleep", "1000"])
    process = exiftool.Process(str(folder), 0.5)
    try:
        with pytest.raises(programs.TooSlow):
            process.ask([b"/a" * 100_000], (), ())
    finally:
        process.close()


# What a program needs beside time


@pytest.mark.parametrize("command", ("index p --catalogue c --quiet --jobs 1", "show p/a.exv p/b.exv --json", "show --captions p --json"))
def test_an_exiftool_that_needs_more_memory(command, called, folder, monkeypatch):
    """It ends at the limit of its memory, which the answer says, and the next picture is read by another one."""
    asked(folder, monkeypatch, GREEDY, a_exv=NO_READER + MARK, b_exv=NO_READER)
    status, out, messages = called(*command.split())
    if command.startswith("index"):
        problems = sql_rows("c", "SELECT problem, detail FROM pictures ORDER BY path")
    else:
        problems = [(it["problem"], it["detail"]) for it in map(json.loads, out.splitlines()) if "problem" in it]
    (problem, detail), *others = problems
    assert (status, problem) == (2, "ToolFailed") and "1,024 MB" in detail, (status, problems, messages)
    assert [it for it, _ in others if it] == []


def test_a_program_is_ended_at_the_limit_of_its_memory():
    """Perl says so on standard error, and ends with 1, as after any other error."""
    for script in ('$x = "a" x 2e9', 'push @a, "x" x 1e6 while 1'):
        with pytest.raises(programs.Failed, match="1,024 MB"):
            programs.run([tool_path("perl"), "-e", script], 60)
    assert programs.run([tool_path("perl"), "-e", 'warn "Not out of memory"; $x = "a" x 1e8; print length $x'], 60).stdout == b"100000000"


def test_a_program_that_is_killed_has_no_answer():
    with pytest.raises(programs.Failed, match="signal 9"):
        programs.run(["/bin/sh", "-c", "echo half; kill -9 $$"], 60)


def test_a_program_has_no_more_memory_than_this_process(monkeypatch):
    monkeypatch.setattr("resource.getrlimit", lambda _: (300 << 20, 400 << 20))
    with pytest.raises(programs.Failed, match=" 300 MB"):
        programs.run([tool_path("perl"), "-e", '$x = "a" x 4e8'], 60)


def test_words_on_standard_error_stop_no_program():
    """More of them than a pipe has room for."""
    script = 'for (1..3) { print STDERR "x" x 1e6; syswrite STDOUT, "y" x 1e6 }'
    assert len(programs.run([tool_path("perl"), "-e", script], 60).stdout) == 3_000_000


def tool_path(name):
    return shutil.which(name) or pytest.skip(f"{name} isn't installed")


def test_what_explain_tries_has_the_time_of_one_call(called, folder, monkeypatch):
    """Each call of ExifTool ends in time, and all of them don't."""
    programs_of(folder, monkeypatch, "takes(2)")
    (folder / "a.jpg").write_bytes(with_exif(SMALL_JPEG, b"II*\0\xff\xff\0\0" + MARK))
    allowed, run = [], programs.run
    monkeypatch.setattr(programs, "run", lambda words, seconds, *more: (allowed.append(seconds), run(words, seconds, *more))[1])
    status, out, messages = called("explain", "a.jpg", "--limit", "5")
    assert status == 2 and "isn't known: it takes longer than 5 seconds" in out, out + messages
    assert len(allowed) > 1 and allowed == sorted(allowed, reverse=True) and allowed[-1] < 3.5, allowed
    assert json.loads(called("explain", "a.jpg", "--limit", "5", "--json")[1].splitlines()[0])["mend"] is None


# ---- The clock jumps by years between two runs, and times of files are in the future: what changed is
# said, and nothing else.

YEAR = 365 * 86400
JUMPS = {
    "steady": (0, 0, 0, 0, 0),
    "set back each night": (0, -1, -2, -3, -4),
    "ahead once": (0, 70, 0, 0, 0),
    "as after a battery that is empty": (0, -56, 0, -56, 0),
    "ahead, then right": (70, 70, 0, 0, 70),
}
FILES = {
    "now": None,
    "future": time.time() + 70 * YEAR,
    "half a year": time.time() - YEAR / 2,
    "70": 0,
    "38": -1_000_000_000,
}


@pytest.fixture
def clock(monkeypatch):
    """Sets the clock so many years off."""
    real_ns, real_strftime, off = time.time_ns, time.strftime, [0]

    class Off(datetime):
        @classmethod
        def now(cls, zone=None):
            return datetime.fromtimestamp(real_ns() / 1e9 + off[0], zone)

    def strftime(form, moment=None):
        return real_strftime(form, moment or time.localtime(real_ns() // 10**9 + off[0]))

    monkeypatch.setattr(time, "time_ns", lambda: real_ns() + off[0] * 10**9)
    monkeypatch.setattr(time, "strftime", strftime)
    monkeypatch.setattr(index, "datetime", Off)

    def set_(years):
        off[0] = years * YEAR

    return set_


def picture(text):
    return jpeg(app1(exif(text.encode())))


@pytest.fixture
def archive(folder):
    """Pictures with times of all kinds."""
    for name, moment in FILES.items():
        pictures = {f"{it}.jpg": picture(f"{it}{name[:2]}") for it in range(4)}
        put(folder / "p" / name, pictures)
        for path in (folder / "p" / name).iterdir():
            os.utime(path, None if moment is None else (moment, moment))
    return folder / "p"


def nothing(_):
    """A night without an event."""


def edits(top):
    """Pictures of the same size are written, with the times that they had."""
    for name in FILES:
        path = top / name / "0.jpg"
        before = path.stat()
        path.write_bytes(picture(f"x{name[:2]}"))
        os.utime(path, ns=(before.st_atime_ns, before.st_mtime_ns))


def moves(top):
    for name in FILES:
        os.rename(top / name / "1.jpg", top / name / "moved.jpg")


def adds(top):
    for name, moment in FILES.items():
        put(top / name, {"new.jpg": picture(f"n{name[:2]}")})
        os.utime(top / name / "new.jpg", None if moment is None else (moment, moment))


def loses(top):
    for name in FILES:
        os.unlink(top / name / "2.jpg")


# What `changed` counts besides pictures that are the same, and what the news of a letter are
NIGHTS = {
    nothing: ("", ""),
    edits: ("different", "other fields"),
    moves: ("moved", "moved"),
    adds: ("missing before", "new"),
    loses: ("missing after", "gone"),
}


@pytest.mark.parametrize("jumps", JUMPS)
def test_index(jumps, archive, called, clock):
    assert called("index", "p", "--catalogue", "c", "--quiet")[0] == 0
    for (happens, (due, _)), years in zip(NIGHTS.items(), JUMPS[jumps]):
        happens(archive)
        clock(years)
        assert called("index", "p", "--catalogue", "c", "--keep-old", "old", "--quiet")[0] == 0
        counts = json.loads(called("changed", "old", "c", "--json")[1].splitlines()[-1])["counts"]
        assert counts.pop("same") >= 15 and counts == ({due: len(FILES)} if due else {}), happens


@pytest.mark.parametrize("jumps", JUMPS)
def test_nightly(jumps, archive, called, clock):
    nightly = ("nightly", "p", "--catalogue", "n", "--nights", "3", "--json")
    assert called(*nightly)[0] == 1  # the first night has the pictures
    for (happens, (_, due)), years in zip(NIGHTS.items(), JUMPS[jumps]):
        happens(archive)
        clock(years)
        lines = list(map(json.loads, called(*nightly)[1].splitlines()))
        news = {it["news"]: it["count"] for it in lines if it["record"] == "news"}
        assert news == ({due: len(FILES)} if due else {}), happens
