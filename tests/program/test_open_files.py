"""What no contract can state of the files that the program opens: system calls that fail, files with one device or inode in common,
and an OUT that was longer before."""

import os
import re
import resource
import shutil
import subprocess
from pathlib import Path
from typing import Any, Callable, List, Tuple

import pytest
from shims import make_shim

ONE = bytes.fromhex("4D4D002A00000008 0001 0112000300000001 00010000 00000000")  # one SHORT
Run = Callable[..., Tuple[int, bytes]]


@pytest.fixture
def run(program: Path, folder: Path) -> Run:
    """Runs the program in a folder with the files `one` and OUT, and returns its status and output."""
    (folder / "one").write_bytes(ONE)
    (folder / "OUT").write_bytes(b"old")

    def call(*words: str, **options: Any) -> Tuple[int, bytes]:
        done = subprocess.run(
            [program, *words], cwd=folder, stdin=subprocess.DEVNULL, stdout=subprocess.PIPE, timeout=600, check=False, **options
        )
        return done.returncode, done.stdout

    return call


@pytest.fixture(scope="session")
def odd_files(session_folder: Path) -> str:
    """The preloaded library that changes what the system reports of a file."""
    return make_shim(session_folder, "odd_files")


def most_open(count: int) -> Callable[[], None]:
    return lambda: resource.setrlimit(resource.RLIMIT_NOFILE, (count, count))


@pytest.mark.parametrize(
    "words, count, line",
    [
        (["check", "one"], 4, b"failed: ReadFailed\n"),
        (["compare", "one", "one"], 5, b"failed: ReadFailed in file 2\n"),
        (["normalise", "one", "OUT"], 5, b"failed: WriteFailed\n"),
        (["check", "one"], 5, b"ok exif\n"),
    ],
)
def test_too_few_open_files_fail_as_a_read_or_a_write(run, folder, words, count, line):
    assert run(*words, preexec_fn=most_open(count)) == (4 if b"failed" in line else 0, line)
    assert (folder / "OUT").read_bytes() == b"old"


# What the system does, the words, and what comes of it: the status and the line, and the content of OUT. A file that is not stored is a failed
# write, where the system reports only then that the quota is used up; a refused one has nothing to store. If a close fails, all of OUT is on
# the disk. Files are one only if both their device and their inode are.
ODD = [
    ("fails", "normalise one OUT", (4, b"failed: WriteFailed\n"), b"old"),
    ("sync", "normalise one OUT", (4, b"failed: WriteFailed\n"), ONE),
    ("sync", "normalise loop OUT", (2, b"refused: Loop at 22\n"), b""),
    ("sync", "check one", (0, b"ok exif\n"), b"old"),
    *((how, "normalise one OUT", (0, b""), ONE) for how in ("close", "inode", "device")),
]


@pytest.mark.parametrize("how, words, expected, out", ODD)
def test_what_the_system_does_with_out(run, folder, odd_files, how, words, expected, out):
    (folder / "loop").write_bytes(ONE[:-4] + bytes.fromhex("00000008"))
    assert run(*words.split(), env={**os.environ, "LD_PRELOAD": odd_files, "ODD_FILES": how}) == expected
    assert (folder / "OUT").read_bytes() == out


def calls_after_the_form(program: Path, folder: Path, out: str) -> List[str]:
    """The system calls about files that a run makes after it has written the normal form of the file `one`."""
    trace, names = folder / "trace", "write,statx,fdatasync,fsync,syncfs,close"
    words = ["strace", "-qq", "-o", trace, "-e", f"trace={names}", program, "normalise", "one", out]
    subprocess.run(words, cwd=folder, timeout=600, check=True)
    calls = re.findall(r"(?m)^(\w+)\(", trace.read_text(encoding="utf-8"))
    return calls[calls.index("write") + 1 :]


@pytest.mark.skipif(not shutil.which("strace"), reason="not installed: strace")
def test_what_it_costs_to_store_out(run, program, folder):
    """Two calls: one asks what kind of file OUT is, and if it is a regular one, the other has it stored. FILE is closed before."""
    (folder / "null").symlink_to("/dev/null")
    assert calls_after_the_form(program, folder, "OUT") == ["close", "statx", "fdatasync", "close"]
    assert calls_after_the_form(program, folder, "null") == ["close", "statx", "close"]


@pytest.mark.parametrize("how", ["sync", "close"])
def test_out_that_is_no_regular_file_is_not_stored(run, folder, odd_files, how):
    """A pipe and a device: the links are in the test's own folder."""
    (folder / "null").symlink_to("/dev/null")
    environment = {**os.environ, "LD_PRELOAD": odd_files, "ODD_FILES": how}
    assert run("normalise", "one", "null", env=environment) == (0, b"")
    os.mkfifo(folder / "pipe")
    reader = os.open(folder / "pipe", os.O_RDONLY | os.O_NONBLOCK)
    try:
        assert run("normalise", "one", "pipe", env=environment) == (0, b"")
        assert os.read(reader, 100) == ONE
    finally:
        os.close(reader)
