"""The law of signals: one that asks a command to end ends it at any moment without a traceback, and leaves nothing in TMPDIR.

strace sends it at a call of the system, from the first module that is imported until Python has ended.
"""

import os
import shutil
import signal
import subprocess
import sys
from collections import Counter

import pytest
from made_blocks import BLOCKS, with_exif
from made_files import app1, exif, jpeg
from studio import SMALL_JPEG, TOP, Studio

MOMENTS = 12  # of each command in the short form, in turn with each signal
INSTALLED = os.path.join(TOP, "packaging", "command.py")
COMMANDS = {
    "version": ["--version"],
    "report": ["report", "c", "--html", "r/"],
    "index": ["index", "p", "--catalogue", "new", "--jobs", "2"],
    "changed": ["changed", "c", "p", "--jobs", "2"],
    "nightly": ["nightly", "p", "--catalogue", "new", "--html", "r/"],
    "list": ["list", "c"],
    "mend": ["mend", "c", "out"],
}
SIGNALS = (signal.SIGINT, signal.SIGTERM, signal.SIGHUP)

pytestmark = pytest.mark.skipif(not shutil.which("strace"), reason="not installed: strace")


@pytest.fixture(scope="module")
def archive(session_folder):
    """A folder of pictures and their catalogue, and the command as it is installed."""
    folder = session_folder / "signals"
    (folder / "p").mkdir(parents=True)
    (folder / "p" / "refused.jpg").write_bytes(with_exif(SMALL_JPEG, BLOCKS["Unsorted"]))
    for number in range(70):  # so many that two processes read them
        (folder / "p" / f"{number}.jpg").write_bytes(jpeg(app1(exif(b"%03d" % number))))
    printed = subprocess.run([sys.executable, INSTALLED, folder, os.path.join(TOP, "python")], capture_output=True, check=True)
    (folder / "exifnorm-pictures").write_bytes(printed.stdout)
    words = [sys.executable, "-m", "exifnorm_pictures", "index", "p", "--catalogue", "c", "--quiet"]
    assert subprocess.run(words, cwd=folder, env=Studio.environment()).returncode == 0
    return folder


def run(folder, start, words, *more):
    """Runs a command under strace; a shell that ran the tests in the background would have signals ignored."""
    for name in ("r", "new", "out", "tmp"):
        shutil.rmtree(folder / name, ignore_errors=True)
        (folder / name).unlink(missing_ok=True)
    (folder / "tmp").mkdir()
    before = ["env", *(f"--default-signal={it.name[3:]}" for it in SIGNALS), shutil.which("strace"), "-s", "200", "-o", "trace", *more]
    environment = Studio.environment(EXIFNORM_DEBUG="", TMPDIR=str(folder / "tmp"), PATH="/usr/bin:/bin")
    return subprocess.run([*before, *start, *words], cwd=folder, env=environment, stdin=subprocess.DEVNULL, capture_output=True)


def moments(trace):
    """The calls after the first line of the command, before which Python's own handler prints a traceback; each with its number among those of
    its name."""
    counts, is_begun = Counter(), False
    for line in trace.read_text(errors="replace").splitlines():
        call = line.partition("(")[0]
        is_begun = is_begun or "exifnorm_pictures/cli" in line
        counts[call] += 1
        if is_begun and call.isidentifier() and call != "exit_group":
            yield call, counts[call]


WAYS = {
    "-m": lambda _: [sys.executable, "-m", "exifnorm_pictures"],
    "./exifnorm-pictures": lambda _: [sys.executable, os.path.join(TOP, "build", "pictures.py")],
    "installed": lambda it: [sys.executable, str(it / "exifnorm-pictures")],
}


@pytest.mark.parametrize("name, way", [("version", it) for it in WAYS] + [(it, "-m") for it in COMMANDS if it != "version"])
def test_at_any_moment(name, way, archive, pytestconfig):
    start = WAYS[way](archive)
    whole, wrong = run(archive, start, COMMANDS[name]), []
    assert whole.returncode in (0, 1, 2), whole
    known = list(moments(archive / "trace"))
    step = 1 if pytestconfig.getoption("--long") else max(1, len(known) // MOMENTS)
    for at, (call, number) in enumerate(known[::step]):
        sent = SIGNALS[at % 3]
        done = run(archive, start, COMMANDS[name], "-e", f"trace={call}", "-e", f"inject={call}:signal={sent.value}:when={number}")
        about = (name, way, at * step, call, number, sent.name, done.returncode, done.stderr[-1500:].decode())
        if done.returncode not in (128 + sent if sent == signal.SIGINT else -sent, -sent, whole.returncode):
            wrong.append(about)
        elif b"Traceback" in done.stderr or b"ignored" in done.stderr or b"internal" in done.stderr:
            wrong.append(about)
        elif left := os.listdir(archive / "tmp"):
            wrong.append((*about, left))
    assert not wrong, "\n".join(map(str, wrong))
