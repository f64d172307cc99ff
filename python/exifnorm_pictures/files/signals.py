"""The end of a run: by a status, or by the signal that stopped it. In both cases all temporary files are removed."""

from __future__ import annotations

import contextlib
import os
import signal
import sys
from types import FrameType

from exifnorm._hints import IO, Iterator

from ..model.errors import Failure

SIGNALS = tuple(getattr(signal, it) for it in ("SIGTERM", "SIGHUP") if hasattr(signal, it))
_HEEDED = (*SIGNALS, signal.SIGINT)
_SOON = 0.01  # seconds


class Stopped(BaseException):
    """A signal asked the run to end. No handler of ordinary errors catches it."""

    def __init__(self, number: int) -> None:
        super().__init__(number)
        self.number = number


class ClosedOutput(Failure):
    """Standard output is closed, so nothing can be printed."""


# What the last signal raised. It is no part of a session, because the system has one handler of a signal for the whole process, which is
# called between any two steps of the first thread and knows no session. In a program that reads pictures no handler is set.
_stopped: BaseException | None = None


def go_on_stopping() -> None:
    """Raises again what a signal raised in a function that SQLite called, which passes no exception on."""
    global _stopped
    again, _stopped = _stopped, None
    if again is not None:
        raise again


def _stop(number: int, _: FrameType | None) -> None:
    """Raises what unwinds the run. Further signals don't disturb its end."""
    for signum in _HEEDED:
        signal.signal(signum, signal.SIG_IGN)
    global _stopped
    _stopped = KeyboardInterrupt() if number == signal.SIGINT else Stopped(number)
    raise _stopped


def _lost(error: "sys.UnraisableHookArgs") -> None:
    """What Python can't raise where a signal came, as in a weak reference's function, is raised soon afterwards; other errors are printed."""
    if error.exc_value is None or error.exc_value is not _stopped:
        sys.__unraisablehook__(error)
        return
    signal.signal(signal.SIGALRM, _stop_again)
    signal.setitimer(signal.ITIMER_REAL, _SOON)


def _stop_again(*_: object) -> None:
    assert _stopped is not None
    raise _stopped


def heed_signals() -> None:
    """From now on a signal unwinds the run, so that it removes folders and ends programs. Ignored signals stay ignored."""
    if hasattr(signal, "setitimer"):
        sys.unraisablehook = _lost
    for signum in _HEEDED:
        if signal.getsignal(signum) in (signal.SIG_DFL, signal.default_int_handler):
            signal.signal(signum, _stop)


def heed_no_more() -> None:
    """From now on a signal ends the process at once: nothing is left to be removed, and while Python ends it would print a traceback. So it
    would if what a signal raised had a pool of processes with it, whose functions call modules that are gone by then."""
    (_stopped or Stopped(0)).with_traceback(None)
    for signum in _HEEDED:
        if signal.getsignal(signum) == _stop:
            signal.signal(signum, signal.SIG_DFL)


@contextlib.contextmanager
def signals_held() -> Iterator[set[int]]:
    """Signals that end the run come at the end of this, which gives the mask from before: a process that is started has it too.

    Python calls functions of its modules around a fork, and an exception that is raised in one of them is lost.
    """
    before = signal.pthread_sigmask(signal.SIG_BLOCK, _HEEDED)
    try:
        yield before
    finally:
        signal.pthread_sigmask(signal.SIG_SETMASK, before)


def end_by(number: int) -> None:
    """Ends this process by the signal that stopped it, as its parent expects."""
    signal.signal(number, signal.SIG_DFL)
    os.kill(os.getpid(), number)


def ready_streams() -> None:
    """Opens /dev/null for a closed standard stream, so that no file gets its number. Raises `ClosedOutput`."""
    closed = []
    for number in (0, 1, 2):
        try:
            os.fstat(number)
        except OSError:
            closed.append(number)
            os.open(os.devnull, os.O_RDWR)  # takes the lowest free number
    if sys.stderr is None:
        sys.stderr = open(os.devnull, "w", encoding="utf-8")
    if 1 in closed or sys.stdout is None:
        raise ClosedOutput("standard output is closed")
    reconfigure = getattr(sys.stdout, "reconfigure", None)
    if reconfigure:
        reconfigure(encoding="utf-8", errors="backslashreplace")


def drop(stream: IO[str] | None) -> None:
    """Abandons a stream that can't be written to: its buffered bytes go to /dev/null, also when Python ends."""
    with contextlib.suppress(OSError, ValueError):
        if stream is not None:
            os.dup2(os.open(os.devnull, os.O_WRONLY), stream.fileno())
            stream.flush()


def end_children() -> None:
    """Ends all processes that look at pictures, with their programs, which the system ends with them."""
    multiprocessing = sys.modules.get("multiprocessing")  # imported only where there are several processes
    for child in multiprocessing.active_children() if multiprocessing else ():
        child.kill()


def trace(error: BaseException) -> None:
    """Writes the traceback of an error of this package to standard error."""
    import traceback

    for text in traceback.format_exception(type(error), error, error.__traceback__):
        for line in text.rstrip("\n").split("\n"):
            say(line)


def say(text: str) -> None:
    """Writes a line to standard error, as far as that can be written to."""
    from ..model.texts import safe  # which a run without a message may not need

    try:
        print(safe(text), file=sys.stderr, flush=True)
    except OSError:
        drop(sys.stderr)
