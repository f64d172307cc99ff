"""Pictures are read, printed and compared on a system without POSIX, such as Windows. A process stands for it in which all is gone that Python's
documentation calls available on Unix alone; the other modules of Python are loaded before, which choose by the system what they use."""

import json
import os
import subprocess
import sys
from pathlib import Path

import pytest
from studio import TOP

import exifnorm

BEFORE, AFTER = (Path(TOP) / "samples" / side for side in ("before", "after"))
BOWL, VASE, PHONE = "ceramics/2003-12-bowl.jpg", "ceramics/1998-7-vase.jpg", "arrivals/IMG_20240502.jpg"
MODULES = ("fcntl", "resource", "pwd", "grp", "termios", "readline")
OF_OS = """
O_NONBLOCK O_NOCTTY O_CLOEXEC O_DIRECTORY O_NOFOLLOW O_TMPFILE O_SYNC pread preadv pwrite geteuid getuid getegid getgid getgroups fchmod fchown
chown lchown killpg getpgid getpgrp setsid setpgid fork forkpty sched_getaffinity statvfs fstatvfs posix_fadvise posix_spawn mkfifo mknod sync
register_at_fork WNOHANG wait3 wait4 nice uname sysconf fdatasync SEEK_DATA SEEK_HOLE lockf setpriority getpriority openpty ctermid
"""
OF_SIGNAL = """
SIGKILL SIGHUP SIGPIPE SIGQUIT SIGALRM SIGUSR1 SIGUSR2 SIGCHLD SIGTSTP SIGXCPU SIGXFSZ SIG_BLOCK SIG_SETMASK SIG_UNBLOCK pthread_sigmask sigwait
sigtimedwait setitimer getitimer ITIMER_REAL alarm pause siginterrupt pthread_kill sigpending
"""
START = f"""
import concurrent.futures.process, ctypes, json, multiprocessing, os, signal, sqlite3, subprocess, sys, tempfile
for name in {MODULES}:
    sys.modules[name] = None
for module, names in ((os, {OF_OS.split()}), (signal, {OF_SIGNAL.split()})):
    for name in names:
        if hasattr(module, name):
            delattr(module, name)
"""


def told(code: str, *words: object, status: int = 0) -> str:
    """What a process without POSIX prints."""
    environment = {**os.environ, "PYTHONPATH": f"{TOP}/python"}
    done = subprocess.run(
        [sys.executable, "-c", START + code, *map(str, words)], capture_output=True, text=True, cwd=TOP, env=environment, check=False
    )
    assert done.returncode == status, done.stderr
    return done.stdout or done.stderr


COMMAND = "from exifnorm_pictures.cli.main import main; sys.exit(main(sys.argv[1:]))"


def test_a_picture_is_read():
    """From a path, from bytes, from a file and among many."""
    code = """
import exifnorm
path = sys.argv[1]
found = [exifnorm.read(path), exifnorm.read_bytes(open(path, "rb").read()), exifnorm.read(open(path, "rb"))]
found += [picture for _, picture in exifnorm.read_all([path], jobs=1)]
assert len({it.meaning for it in found}) == 1 and len(list(exifnorm.read_all([]))) == 0
print(json.dumps(found[0].json))
"""
    for path in (BEFORE / BOWL, BEFORE / PHONE, BEFORE / "prints/1931-4-plan.png", BEFORE / "textiles/2011-2-sash.webp"):
        assert json.loads(told(code, path)) == json.loads(json.dumps(exifnorm.read(path).json))


def test_two_pictures_are_compared():
    code = "import exifnorm; print(repr(exifnorm.compare(*sys.argv[1:])))"
    for name in (BOWL, VASE):
        assert told(code, BEFORE / name, AFTER / name).strip() == repr(exifnorm.compare(BEFORE / name, AFTER / name))


def test_what_needs_another_program_is_named():
    """None can be started with limits."""
    code = "import exifnorm\ntry: exifnorm.read_bytes(b'hello')\nexcept exifnorm.NoPicture as error: print(error)"
    assert "without other programs" in told(code)


@pytest.mark.parametrize(
    "status, words",
    [(0, ["show", BEFORE / BOWL]), (0, ["show", "--captions", BEFORE / BOWL]), (1, ["compare", BEFORE / BOWL, AFTER / BOWL])],
)
def test_a_command_prints_the_same(status, words, called):
    assert told(COMMAND, *words, status=status) == called(*map(str, words))[1]


@pytest.mark.parametrize(
    "words", [["index", "."], ["nightly", "a"], ["mend", BEFORE / PHONE], ["same", BEFORE], ["changed", BEFORE, AFTER]]
)
def test_a_command_that_needs_posix_says_so(words, tmp_path):
    said = told(COMMAND, *words, status=4)
    assert "Linux" in said and said.count("\n") == 1 and "internal error" not in said
