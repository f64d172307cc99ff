"""Calls of other programs: each has limits of time, of memory and of its output, and no program outlives this one.

ExifTool runs with `-config ""`, so that no configuration file changes its output.
"""

from __future__ import annotations

import contextlib
import ctypes
import os
import re
import select
import signal
import time

from exifnorm._hints import TYPE_CHECKING, Callable, NamedTuple

from ..files import signals
from ..model.budgets import OUTPUT, PROGRAM_BYTES
from ..model.errors import Failure
from ..model.problems import Problem
from ..model.texts import reason

if TYPE_CHECKING:
    import subprocess  # which takes long to import: most runs start no program

PACKAGES = {"exiftool": "libimage-exiftool-perl", "exiv2": "exiv2"}

_PIECE = 1 << 20
_PR_SET_PDEATHSIG = 1
_WORDS = 1000  # bytes that are kept of what a program writes on standard error


class Missing(Failure):
    """A program isn't installed, or may not be started. The text names Debian's package."""

    problem = Problem.NEEDS_EXIFTOOL

    def __init__(self, program: str, may_start: bool = True) -> None:
        why = f"{program} isn't installed" if may_start else "no other program may be started"
        install = f" In Debian: apt-get install {PACKAGES.get(program, program)}" * may_start
        super().__init__(f"{why}, and without it no block of this picture can be extracted.{install}")


class Failed(Failure):
    """A program ended early, took too long, or printed something unexpected. The text describes which."""

    problem = Problem.TOOL_FAILED


class TooSlow(Failed):
    """A program took longer than its limit on a file. The next run of `index` asks it again: the machine may have been busy."""

    problem = Problem.TOO_SLOW


class Done(NamedTuple):
    """The status of a program, and its standard output."""

    returncode: int
    stdout: bytes


def needed(program: str) -> str:
    """The path of a program. Raises `Missing` if it isn't installed."""
    path = _path_of(program)
    if path is None:
        raise Missing(program)
    return path


def is_there(program: str) -> bool:
    """Whether a program is installed."""
    return _path_of(program) is not None


def _path_of(program: str) -> str | None:
    """Where PATH has a program. Its empty and relative parts are passed over: they may lead to a stranger's folder."""
    import shutil  # which takes long

    return shutil.which(program, path=os.pathsep.join(filter(os.path.isabs, os.get_exec_path())))


def exiftool(*words: str) -> list[str]:
    """The arguments of a call of ExifTool that reads no configuration file. `-config` only counts as the first option."""
    return [needed("exiftool"), "-config", "", *words]


def run(words: list[str], seconds: float, folder: str | None = None) -> Done:
    """Runs a program to its end. Raises `Failed` if it takes too long, writes too much, gets no more memory, or is ended by a signal."""
    import subprocess

    started = start(words, folder)
    try:
        output = read_until(started, lambda _: False, seconds)
        status = started.wait(max(seconds, 1.0))
        if status < 0:
            raise Failed(f"{_name(words)} was ended by signal {-status}")
        return Done(status, output)
    except subprocess.TimeoutExpired:
        raise TooSlow(f"{_name(words)} took longer than {seconds:g} seconds") from None
    finally:
        end(started)


def _name(words: list[str]) -> str:
    return os.path.basename(words[0])


_libc = ctypes.CDLL(None)


def start(words: list[str], folder: str | None = None, is_asked: bool = False) -> "subprocess.Popen[bytes]":
    """Starts a program in a process group of its own, which the system ends if this process is killed. It has an input if it is asked. Raises `Failed`."""
    started = None
    try:
        with signals.signals_held() as mask:
            started = _started(words, folder, is_asked, mask)
        return started
    except OSError as error:
        raise Failed(f"{_name(words)} can't be started: {reason(error)}") from error
    except BaseException:  # a signal that came meanwhile
        if started:
            end(started)
        raise


def _memory() -> tuple[int, int]:
    """The limits of a program's memory, no higher than those of this process."""
    import resource  # which Windows hasn't: there no program is started

    soft, hard = resource.getrlimit(resource.RLIMIT_AS)
    return (PROGRAM_BYTES if soft == resource.RLIM_INFINITY else min(soft, PROGRAM_BYTES)), hard


def _started(words: list[str], folder: str | None, is_asked: bool, mask: set[int]) -> "subprocess.Popen[bytes]":
    import resource
    import subprocess

    memory = _memory()

    def begin() -> None:
        _libc.prctl(_PR_SET_PDEATHSIG, signal.SIGKILL)
        resource.setrlimit(resource.RLIMIT_AS, memory)
        signal.pthread_sigmask(signal.SIG_SETMASK, mask)

    return subprocess.Popen(
        words,
        stdin=subprocess.PIPE if is_asked else subprocess.DEVNULL,
        stdout=subprocess.PIPE,
        stderr=subprocess.PIPE,
        bufsize=0,
        cwd=folder,
        env={**os.environ, "LC_ALL": "C"},
        start_new_session=True,
        preexec_fn=begin,
    )


def end(started: "subprocess.Popen[bytes]") -> None:
    """Ends a program with all the processes that it started. Returns after they have ended."""
    with contextlib.suppress(ProcessLookupError, PermissionError):
        os.killpg(started.pid, signal.SIGKILL)
    started.wait()
    for stream in (started.stdin, started.stdout, started.stderr):
        if stream is not None:
            with contextlib.suppress(OSError):
                stream.close()


def write(started: "subprocess.Popen[bytes]", octets: bytes, seconds: float) -> None:
    """Gives a program its input, which it may leave in the pipe. Raises `TooSlow` if it doesn't read, and `BrokenPipeError` if it has ended."""
    assert started.stdin is not None
    number = started.stdin.fileno()
    os.set_blocking(number, False)
    ends = time.monotonic() + seconds
    rest = memoryview(octets)
    while rest:
        left = ends - time.monotonic()
        if left <= 0 or not select.select([], [number], [], left)[1]:
            raise TooSlow(f"{_name(started.args)} took longer than {seconds:g} seconds")  # type: ignore[arg-type]
        rest = rest[os.write(number, rest) :]


def read_until(started: "subprocess.Popen[bytes]", complete: Callable[[bytearray], bool], seconds: float) -> bytes:
    """A program's output until it is complete or ends. Raises `Failed` at the limits."""
    assert started.stdout is not None and started.stderr is not None
    name = _name(started.args)  # type: ignore[arg-type]
    streams = [started.stdout, started.stderr]
    ends = time.monotonic() + seconds
    output, words = bytearray(), b""
    while streams and not complete(output):
        left = ends - time.monotonic()
        ready = select.select(streams, [], [], left)[0] if left > 0 else []
        if not ready:
            raise TooSlow(f"{name} took longer than {seconds:g} seconds")
        piece = os.read(ready[-1].fileno(), _PIECE)
        if not piece:
            streams.remove(ready[-1])
        elif ready[-1] is started.stderr:
            words = (words + piece)[-_WORDS:]
        else:
            output += piece
        if len(output) > OUTPUT:
            raise Failed(f"{name} wrote more than {OUTPUT:,} bytes about one file")
    if re.search(rb"(?m)^Out of memory|bad_alloc", words) and not complete(output):
        raise Failed(f"{name} needed more than {_memory()[0] >> 20:,} MB of memory")
    return bytes(output)
