"""The built program where the files of cases can't test it: standard streams that are closed or stay open, links, devices, pipes, and
files that may not be read.

The tests also run as root. A program that replaces the file that it writes could then replace a device. So a test names a device as an
output only by a link in its own folder, or as another user.
"""

import itertools
import os
import shutil
import stat
import subprocess
import threading
import unicodedata
from pathlib import Path
from typing import Dict, Tuple

import pytest
from meanings import Record

# one SHORT, and the same with a next offset that leads to the directory itself
ONE = bytes.fromhex("4D4D002A00000008 0001 0112000300000001 00010000 00000000")
LOOP = ONE[:-4] + bytes.fromhex("00000008")
REFUSED = b"refused: Loop at 22\n"
COMMANDS = [["check", "loop"], ["show", "loop"], ["captions", "loop"], ["normalise", "loop", "OUT"], ["compare", "loop", "loop"]]
NOBODY = 65534


def run(program: Path, folder: Path, words: list, closed: tuple = (), **how) -> tuple:
    """The status and the output of a run in the folder, with some standard streams closed."""
    shut = " ".join(f"{it}{'<' if it == 0 else '>'}&-" for it in closed)
    it = subprocess.run(
        ["/bin/sh", "-c", f'exec "$@" {shut}', "sh", program, *words],
        cwd=folder,
        stdout=subprocess.PIPE,
        timeout=600,
        **{"stdin": subprocess.DEVNULL, **how},
    )
    return it.returncode, it.stdout


@pytest.fixture(scope="module")
def program(program, session_folder):
    """A copy that nobody may run too."""
    return Path(shutil.copy(program, session_folder / "program"))


@pytest.fixture
def expect(program, folder, checks):
    """Notes whether a run has this status and this output."""
    return lambda name, words, expected, **how: checks.equal(name, run(program, folder, words, **how), expected)


@pytest.fixture(autouse=True)
def filled(folder):
    fill(folder)


def fill(folder: Path) -> None:
    for name, octets in {"one": ONE, "loop": LOOP, "OUT": b"old"}.items():
        (folder / name).write_bytes(octets)


@pytest.mark.parametrize("words", COMMANDS, ids=lambda it: it[0])
@pytest.mark.parametrize(
    "closed", [it for n in (1, 2, 3) for it in itertools.combinations(range(3), n)], ids=lambda it: "closed" + "".join(map(str, it))
)
def test_no_line_goes_into_a_file_whichever_streams_are_closed(program, folder, words, closed):
    line = REFUSED[:-1] + b" in file 1\n" if words[0] == "compare" else REFUSED
    assert run(program, folder, words, closed) == ((4, b"") if 1 in closed else (2, line))
    out = b"" if words[0] == "normalise" else b"old"
    assert [(folder / name).read_bytes() for name in ("one", "loop", "OUT")] == [ONE, LOOP, out]


def test_normalise_with_no_stream(program, folder):
    assert run(program, folder, ["normalise", "one", "OUT"], (0, 1, 2)) == (0, b"")
    assert (folder / "OUT").read_bytes() == ONE


def test_the_filter_without_a_stream(program, folder):
    assert run(program, folder, [], (0,)) == (4, b"failed: ReadFailed\n")
    assert run(program, folder, [], (1,), input=ONE, stdin=None) == (4, b"")


def test_links(program, folder, checks):
    """OUT is FILE by another name: it is refused and unchanged."""
    os.link(folder / "one", folder / "hard")
    os.symlink("one", folder / "symbolic")
    (folder / "d").mkdir()
    for name in ("./one", "d/../one", str(folder / "one"), "hard", "symbolic"):
        came = run(program, folder, ["normalise", "one", name])
        left = (folder / "one").read_bytes()
        checks.check(f"one and {name}", (came, left) == ((3, b"refused words: OUT is FILE\n"), ONE), (came, left))
    with open(folder / "one", "rb") as given:
        came = run(program, folder, ["normalise", "/dev/stdin", "one"], stdin=given)
    left = (folder / "one").read_bytes()
    checks.check("standard input's own file", (came, left) == ((3, b"refused words: OUT is FILE\n"), ONE), (came, left))


ENDS = {
    "check one": 0,
    "show one": 0,
    "captions one": 0,
    "normalise one OUT": 0,
    "compare one one": 0,
    "check loop": 2,
    "compare loop one": 2,
    "check absent": 4,
    "normalise absent OUT": 4,
    "normalise one one": 3,
    "check": 3,
    "chek": 3,
    "-": 3,
    "--help": 0,
    "--version": 0,
}


@pytest.mark.parametrize("words, status", ENDS.items(), ids=ENDS)
def test_only_the_filter_waits_for_standard_input(program, folder, words, status):
    """Every other run ends, even if nothing arrives there and nobody closes it."""
    reads, writes = os.pipe()
    assert run(program, folder, words.split(), stdin=reads)[0] == status
    os.close(reads)
    os.close(writes)


def test_a_file_that_may_not_be_read(program, folder, checks):
    """Without permission to read, a file is a failed read; without permission to write, a failed write. OUT need not be readable."""
    (folder / "closed").mkdir()
    for name in ("secret", "fixed", "closed/one", "closed/OUT"):
        (folder / name).write_bytes(ONE)
    calls = (
        (["check", "secret"], b"failed: ReadFailed\n"),
        (["show", "secret"], b"failed: ReadFailed\n"),
        (["captions", "secret"], b"failed: ReadFailed\n"),
        (["normalise", "secret", "OUT"], b"failed: ReadFailed\n"),
        (["compare", "one", "secret"], b"failed: ReadFailed in file 2\n"),
        (["compare", "secret", "one"], b"failed: ReadFailed in file 1\n"),
        (["check", "closed/one"], b"failed: ReadFailed\n"),
        (["normalise", "one", "closed/OUT"], b"failed: WriteFailed\n"),
        (["normalise", "one", "fixed"], b"failed: WriteFailed\n"),
    )
    (folder / "secret").chmod(0o000)
    (folder / "fixed").chmod(0o444)
    (folder / "closed").chmod(0o000)
    folder.chmod(0o755)
    how = {"user": NOBODY, "group": NOBODY} if os.getuid() == 0 else {}
    for words, line in calls:
        came = run(program, folder, words, **how)
        left = [(folder / name).read_bytes() for name in ("one", "OUT", "fixed")]
        checks.check(f"{words} as nobody", (came, left) == ((4, line), [ONE, b"old", ONE]), (came, left))
    (folder / "closed").chmod(0o755)
    if how:
        os.chown(folder / "OUT", NOBODY, NOBODY)
    (folder / "OUT").chmod(0o200)
    came = run(program, folder, ["normalise", "one", "OUT"], **how)
    checks.check("a write-only OUT", (came, (folder / "OUT").stat().st_size) == ((0, b""), len(ONE)), came)


def test_links_that_lead_nowhere(program, folder, checks):
    """A link to itself is a failed read or write. OUT that is a link to a missing file creates that file."""
    os.symlink("round", folder / "round")
    os.symlink("made", folder / "ahead")
    for words, line in (
        (["check", "round"], b"failed: ReadFailed\n"),
        (["check", "ahead"], b"failed: ReadFailed\n"),
        (["normalise", "one", "round"], b"failed: WriteFailed\n"),
    ):
        came, is_link = run(program, folder, words), (folder / words[-1]).is_symlink()
        checks.check(f"{words} through a link", (came, is_link) == ((4, line), True), (came, is_link))
    came = run(program, folder, ["normalise", "one", "ahead"])
    left = (folder / "made").read_bytes()
    checks.check("an output through a link", (came, left) == ((0, b""), ONE), (came, left))


def test_ways_to_leave_an_output(program, folder, checks):
    """OUT is written in place: it stays the same file, and nothing of its old content follows the form."""
    for length in (0, 1, len(ONE) - 1, len(ONE), len(ONE) + 1, len(ONE) + 2_000_000):
        for name, octets in (("one", ONE), ("loop", b"")):
            fill(folder)
            (folder / "OUT").write_bytes(b"x" * length)
            run(program, folder, ["normalise", name, "OUT"])
            left = (folder / "OUT").read_bytes()
            checks.check(f"normalise {name} over {length} bytes", left == octets, left[:100])
    out = folder / "OUT"
    out.chmod(0o640)
    os.link(out, folder / "again")
    was = out.stat()
    run(program, folder, ["normalise", "one", "OUT"])
    now = out.stat()
    checks.check("OUT is the same file", (was.st_ino, was.st_mode, was.st_nlink) == (now.st_ino, now.st_mode, now.st_nlink), now)
    checks.check("OUT by its other name", (folder / "again").read_bytes() == ONE, (folder / "again").read_bytes())
    checks.check(
        "nothing is left beside OUT", sorted(it.name for it in folder.iterdir()) == ["OUT", "again", "loop", "one"], list(folder.iterdir())
    )
    old = os.umask(0o027)
    run(program, folder, ["normalise", "one", "new"])
    os.umask(old)
    checks.check("a new OUT", (folder / "new").stat().st_mode & 0o777 == 0o640, oct((folder / "new").stat().st_mode))
    (folder / "d").mkdir()
    for name, is_below in (("d", True), ("absent/OUT", False), ("one/OUT", True), ("", True)):
        came, is_there = run(program, folder, ["normalise", "one", name]), (folder / name.split("/")[0]).exists()
        checks.check(f"OUT is {name or 'no name'}", (came, is_there) == ((4, b"failed: WriteFailed\n"), is_below), (came, is_there))


def devices() -> Dict[str, Tuple[int, int]]:
    """What /dev/null and /dev/full are."""
    found = {it: os.stat(it) for it in ("/dev/null", "/dev/full")}
    return {it: (stat.S_IFMT(found[it].st_mode), found[it].st_rdev) for it in found}


def test_outputs_that_are_no_files(program, folder, checks, expect):
    """A device takes the form, or fails. It stays the same device."""
    were = devices()
    folder.chmod(0o755)
    how = {"user": NOBODY, "group": NOBODY} if os.getuid() == 0 else {}
    for name in ("null", "full", "stdout"):
        os.symlink(f"/dev/{name}", folder / name)
    for name, expected in (("null", (0, b"")), ("full", (4, b"failed: WriteFailed\n"))):
        expect(f"OUT is a link to /dev/{name}", ["normalise", "one", name], expected)
        expect(f"OUT is /dev/{name}", ["normalise", "one", f"/dev/{name}"], expected, **how)
    expect("a refused block, and OUT is /dev/null", ["normalise", "loop", "null"], (2, REFUSED))
    expect("OUT is standard output, a pipe", ["normalise", "one", "stdout"], (0, ONE))
    with open(folder / "to", "wb+") as to:
        to.write(b"what stood there before, which is longer")
        to.flush()
        subprocess.run([program, "normalise", "one", "stdout"], cwd=folder, stdout=to, timeout=600, check=False)
    checks.check("OUT is standard output, a file", (folder / "to").read_bytes() == ONE, (folder / "to").read_bytes())
    with open(folder / "to", "ab") as to:
        subprocess.run([program], cwd=folder, input=ONE, stdout=to, timeout=600, check=False)
    checks.check("a form behind what stands there", (folder / "to").read_bytes() == ONE + ONE, (folder / "to").read_bytes())
    links = sorted(it.name for it in folder.iterdir() if it.is_symlink())
    checks.check("the devices", (devices(), links) == (were, ["full", "null", "stdout"]), (devices(), links))


def test_pipes_by_a_name(program, folder, checks):
    """A FIFO is read to its end, and takes the form. If nobody reads it any more, a write fails."""
    os.mkfifo(folder / "fifo")
    large = Record([(2, 25, b"keyword %6d" % i) for i in range(60_000)])
    block, form = large.spelled(extended=4), large.normal()
    (folder / "large").write_bytes(block)
    for name, octets in (("one", ONE), ("large", form)):
        came, took = beside(lambda: run(program, folder, ["normalise", name, "fifo"]), lambda: (folder / "fifo").read_bytes())
        checks.check(f"OUT is a FIFO, for {name}", (came, took) == ((0, b""), octets), (came, len(took)))
        came, _ = beside(lambda: run(program, folder, ["normalise", "fifo", "OUT"]), lambda: (folder / "fifo").write_bytes(octets))
        left = (folder / "OUT").read_bytes()
        checks.check(f"FILE is a FIFO, for {name}", (came, left) == ((0, b""), octets), came)
    came, _ = beside(lambda: run(program, folder, ["normalise", "large", "fifo"]), lambda: os.close(os.open(folder / "fifo", os.O_RDONLY)))
    checks.check("nobody reads the FIFO any more", came == (4, b"failed: WriteFailed\n"), came)
    came, _ = beside(lambda: run(program, folder, ["compare", "one", "fifo"]), lambda: (folder / "fifo").write_bytes(ONE))
    checks.check("a FIFO is compared", came == (0, b"same\n"), came)


def beside(one, other) -> tuple:
    """The results of two calls that run at the same time."""
    found = []
    thread = threading.Thread(target=lambda: found.append(other()), daemon=True)
    thread.start()
    came = one()
    thread.join(600)
    return came, found[0] if found else b""


def test_standard_inputs(program, folder, checks, expect):
    """Standard input is read from its current position, and can be named as a file."""
    (folder / "behind").write_bytes(b"xyz" + ONE)
    with open(folder / "behind", "rb", buffering=0) as given:
        given.seek(3)
        expect("a block behind other bytes", [], (0, ONE), stdin=given)
    expect("standard input as FILE", ["check", "/dev/stdin"], (0, b"ok exif\n"), input=ONE, stdin=None)
    expect("standard input as FIRST", ["compare", "/dev/stdin", "one"], (0, b"same\n"), input=ONE, stdin=None)
    expect(
        "standard input twice",
        ["compare", "/dev/stdin", "/dev/stdin"],
        (2, b"refused: UnknownKind at 0 in file 2\n"),
        input=ONE,
        stdin=None,
    )
    directory = os.open(folder, os.O_RDONLY)
    came = run(program, folder, [], stdin=directory)
    os.close(directory)
    checks.check("a directory as standard input", came == (4, b"failed: ReadFailed\n"), came)


def test_too_many_names(program, folder, checks):
    """They are refused, and no file is opened."""
    for words, wrong in (
        (["compare", "one", "one", "one", "one", "one"], "one"),
        (["normalise", "one", "OUT", "third", "fourth", "fifth"], "third"),
        (["check", "--", "one", "second", "third", "fourth", "fifth"], "second"),
        (["show", "one", "b", "c", "d", "e"], "b"),
    ):
        came = run(program, folder, words)
        is_told = came[1].startswith(b"error: unexpected argument '%s' found\n" % wrong.encode())
        checks.check(" ".join(words), came[0] == 3 and is_told and (folder / "OUT").read_bytes() == b"old", came)


ODD_NAMES = (
    "-a",
    "--help",
    "--",
    "-",
    " ",
    "a b",
    "a\nb",
    "a\rb",
    "\x1b[31m",
    "\x7f",
    "\x01",
    "$(touch made)",
    "`touch made`",
    "*",
    "?",
    "'",
    '"',
    "\\",
    "%s%n",
    "é",
    "\u202e",
    "x" * 255,
)


def test_odd_names(program, folder, checks, expect):
    """After `--` each argument is a name, which is used as it is, and no line has it. One that the system has no file for is a failed read or
    write."""
    there = {it.name for it in folder.iterdir()}
    for name in ODD_NAMES:
        (folder / name).write_bytes(LOOP)
        came = run(program, folder, ["normalise", "--", "one", name])
        left = (folder / name).read_bytes()
        checks.check(f"OUT is {name!r}", (came, left) == ((0, b""), ONE), (came, left))
        (folder / name).write_bytes(LOOP)
        expect(f"SECOND is {name!r}", ["compare", "--", "one", name], (2, b"refused: Loop at 22 in file 2\n"))
    checks.check("no other file is made", {it.name for it in folder.iterdir()} == there | {*ODD_NAMES}, list(folder.iterdir()))
    for name in ("x" * 256, "d/" * 2100 + "one"):
        for words, line in ((["check", name], b"failed: ReadFailed\n"), (["normalise", "one", name], b"failed: WriteFailed\n")):
            came = run(program, folder, words)
            checks.check(f"{words[0]} with a name of {len(name)} bytes", came == (4, line), came)
    for name in (b"\xff", b"a\xc3", b"\xed\xa0\x80"):
        Path(os.fsdecode(os.fsencode(folder) + b"/" + name)).write_bytes(b"old")
        came = run(program, folder, ["normalise", "one", name])
        left = Path(os.fsdecode(os.fsencode(folder) + b"/" + name)).read_bytes()
        checks.check(f"OUT is {name!r}", (came, left) == ((3, b"refused words: they are not text\n"), b"old"), (came, left))


@pytest.mark.parametrize("word", ["\x1b[31mX", "\x07", "\r", "\x7f", "\u009b31m", "--\x1b]0;title\x07"], ids=ascii)
def test_a_wrong_argument_sends_no_control_character(word, program, folder):
    """clap repeats the argument in its message, which a terminal prints."""
    status, printed = run(program, folder, ["check", "loop", word], stderr=subprocess.STDOUT)
    assert status == 3
    text = printed.decode("utf-8", "replace")
    assert [it for it in text if it != "\n" and unicodedata.category(it) == "Cc"] == []
