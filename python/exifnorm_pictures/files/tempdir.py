"""A temporary folder for one run. The next run removes the folders of runs that were killed."""

from __future__ import annotations

import contextlib
import fcntl
import os
import re
import shutil
import stat
import tempfile
from typing import Iterator

from . import signals
from .atomic import sweep

PREFIX = "exifnorm-"
_LOCK, _NEW = "lock", "new"  # a lock gets its name once it is locked
_MARK = b"temporary files of a run of exifnorm-pictures, which the next run removes\n"  # in each lock
_NAME = re.compile(PREFIX + "[a-z0-9_]{8}")  # as mkdtemp makes it


@contextlib.contextmanager
def room() -> Iterator[str]:
    """A folder in TMPDIR that is removed at the end. As long as its run lives, a file in it is locked."""
    with signals.signals_held():  # to find a place for temporary files Python makes one there
        base = tempfile.gettempdir()
    sweep(base, _NAME, _remove_dead)
    name, lock = "", -1
    try:
        while lock < 0:
            with signals.signals_held():  # a signal after mkdtemp has made the folder, and before it has its name here, would leave it
                name = tempfile.mkdtemp(prefix=PREFIX)
            with contextlib.suppress(FileNotFoundError):  # another run has taken it for a dead one, before it was locked
                lock = _locked(name)
        yield name
    finally:
        with signals.signals_held():
            if name:
                _remove(name)
        if lock >= 0:
            os.close(lock)


def _locked(folder: str) -> int:
    """The number of a folder's new lock, which no other run takes for that of a dead one."""
    new = os.path.join(folder, _NEW)
    lock = os.open(new, os.O_RDWR | os.O_CREAT, 0o600)
    try:
        fcntl.flock(lock, fcntl.LOCK_EX)
        os.write(lock, _MARK)
        os.rename(new, os.path.join(folder, _LOCK))
    except BaseException:
        os.close(lock)
        raise
    return lock


def _remove(folder: str) -> None:
    """Removes a folder, and its lock last: if this run is killed meanwhile, the next one removes the rest."""
    with contextlib.suppress(OSError), os.scandir(folder) as entries:
        for entry in sorted(entries, key=lambda entry: entry.name == _LOCK):
            if entry.is_dir(follow_symlinks=False):
                shutil.rmtree(entry.path, ignore_errors=True)
            else:
                os.unlink(entry.path)
        os.rmdir(folder)


def _remove_dead(entry: "os.DirEntry[str]") -> None:
    """Removes the folder of a run that was killed: one of this user with the rights that mkdtemp gives, and with our lock, which no process
    has; or with none, as before it has a lock, and after. A run that makes its lock just now waits, and then makes another folder."""
    status = entry.stat(follow_symlinks=False)
    if not stat.S_ISDIR(status.st_mode) or stat.S_IMODE(status.st_mode) != 0o700 or status.st_uid != os.geteuid():
        return
    names = os.listdir(entry.path)
    if not names:
        os.rmdir(entry.path)  # which fails once there is a lock
        return
    name = _NEW if names == [_NEW] else _LOCK
    lock = os.open(os.path.join(entry.path, name), os.O_RDWR | os.O_NOFOLLOW | os.O_NONBLOCK)
    try:
        mark = os.read(lock, len(_MARK) + 1) if stat.S_ISREG(os.fstat(lock).st_mode) else None
        if mark == _MARK or (mark == b"" and name == _NEW):
            fcntl.flock(lock, fcntl.LOCK_EX | fcntl.LOCK_NB)
            _remove(entry.path)
    finally:
        os.close(lock)
