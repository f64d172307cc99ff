"""The command `exifnorm-pictures`: runs one of its commands, and ends with the documented status."""

from __future__ import annotations

from . import search_path

search_path.leave_out_current_folder()  # before other modules are imported

import gc
import importlib
import os
import sys
from types import ModuleType

from exifnorm._hints import TYPE_CHECKING, Sequence

from ..files import signals
from ..files.session import Session
from ..model import errors
from ..model.budgets import OWN_PAGES, PROGRAM_SECONDS
from .exit_codes import FAILURE, STOPPED, SUCCESS, USAGE

if TYPE_CHECKING:
    import argparse

_TRIM_THRESHOLD, _MMAP_THRESHOLD = -1, -3  # of glibc's mallopt
_VERSION = ["--version"[:length] for length in range(3, 10)]  # and its abbreviations
_OF_POSIX = ("fcntl", "resource")  # modules of Python that Windows hasn't
_OTHERS = (("exifnorm", "LibraryMissing"), ("sqlite3", "OperationalError"))  # errors of other packages whose texts are for people


def main(words: Sequence[str] | None = None) -> int:
    """Runs the command; its status."""
    try:
        try:
            return _heeding(words)
        finally:  # also after --help
            signals.heed_no_more()
    except KeyboardInterrupt:  # before the command began, or after it
        return STOPPED
    except signals.Stopped as stopped:
        signals.end_children()
        signals.drop(sys.stdout)
        signals.end_by(stopped.number)
        return 128 + stopped.number


def _heeding(words: Sequence[str] | None) -> int:
    """Runs the command, which heeds signals, with all that it prints; its status."""
    try:
        signals.ready_streams()
        signals.heed_signals()
        _give_memory_back()
        status = _run(sys.argv[1:] if words is None else words)
        sys.stdout.flush()
        return status
    except signals.ClosedOutput as error:
        return _failed(str(error))
    except OSError as error:  # standard output, at the last flush
        return _output_failed(error)


def _give_memory_back() -> None:
    """From now on the system has the memory of a long value back as soon as that is freed. By itself glibc does so up to the first one: then it
    raises the length of those that get pages of their own to that one's, and keeps what is freed between others."""
    import ctypes

    mallopt = getattr(ctypes.CDLL(None), "mallopt", None) if hasattr(os, "fork") else None
    if mallopt:  # not in other C libraries
        mallopt(_MMAP_THRESHOLD, OWN_PAGES)
        mallopt(_TRIM_THRESHOLD, 2 * OWN_PAGES)


def _run(words: Sequence[str]) -> int:
    """Runs a command in a session: its temporary files and programs end with it."""
    command, session, goes_on = "", Session(), False
    try:
        if next(iter(words), None) in _VERSION:
            from exifnorm import _calls  # `exifnorm.version` would import more

            print(f"exifnorm-pictures {_calls.version()}")
            return SUCCESS
        # so many objects later Python looks for rings of objects: modules and what a picture needs make hardly any
        gc.set_threshold(50_000)
        import argparse  # which takes longer than to print the version, as the two modules do

        from .options import Least
        from .parser import parsed

        least = Least()
        arguments = argparse.Namespace(**vars(parsed(words)), session=session, least=least)
        session.debug = session.debug or arguments.debug
        session.seconds, session.programs = getattr(arguments, "limit", PROGRAM_SECONDS), not getattr(arguments, "no_programs", False)
        # importing the modules of all commands would take longer than most commands do
        command = arguments.command
        goes_on = command in ("index", "nightly") or bool(getattr(arguments, "state", None))
        module = importlib.import_module(f".commands.{command.split()[-1]}", __package__)
        gc.freeze()
        with session:
            status = _with_spreadsheet(module, arguments) if getattr(arguments, "xlsx", None) else int(module.run(arguments))
            return max(status, least.status)
    except KeyboardInterrupt:
        more = "; the same command goes on from there" if goes_on else ""
        signals.say(f"exifnorm-pictures: stopped{more}")
        return STOPPED
    except MemoryError:
        return _failed("out of memory")
    except Exception as error:
        return _failed_by(error, session.debug)


def _with_spreadsheet(module: ModuleType, arguments: argparse.Namespace) -> int:
    """Runs a command whose table goes to a file."""
    from . import sheets

    with sheets.written(arguments.xlsx, arguments.session) as sheet:
        return int(module.run(type(arguments)(**{**vars(arguments), "csv": True, "sheet": sheet})))


def _is_expected(error: Exception) -> bool:
    """Whether an error is one of `_OTHERS`. It can't be if its package wasn't imported."""
    return any(module in sys.modules and isinstance(error, getattr(sys.modules[module], name)) for module, name in _OTHERS)


def _failed_by(error: Exception, debug: bool) -> int:
    from ..model.texts import described, reason, shown_path

    if isinstance(error, errors.Failure):
        status = _failed(str(error), USAGE if isinstance(error, errors.WrongUse) else FAILURE)
        for line in error.lines:
            signals.say(line)
        return status
    if isinstance(error, ModuleNotFoundError) and error.name in _OF_POSIX:
        return _failed("this command needs locks and signals as Linux and macOS have them, and this system has none")
    if _is_expected(error):
        return _failed(str(error))
    if not isinstance(error, OSError):
        if debug:
            signals.trace(error)
        return _failed(f"an internal error, please report it: {described(error)}")
    if error.filename is None:  # of standard output: a process that can't be started is `programs.Failed`
        return _output_failed(error)
    return _failed(f"{shown_path(error.filename)}: {reason(error)}")


def _failed(text: str, status: int = FAILURE) -> int:
    signals.say(f"exifnorm-pictures: {text}")
    return status


def _output_failed(error: OSError) -> int:
    """Standard output can't be written to. If its reader has gone, no message is printed."""
    from ..model.texts import reason

    signals.drop(sys.stdout)
    return FAILURE if isinstance(error, BrokenPipeError) else _failed(f"standard output: {reason(error)}")
