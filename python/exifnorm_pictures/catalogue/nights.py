"""The files of a nightly run. Of a catalogue `archive.catalogue` they are

    archive.catalogue           what the last whole night has found; no other name is needed by other commands
    archive.before.catalogue    the state with which the last letter compared it
    archive.catalogue.2026-11-29  what the last run of a day has found, of as many days as are asked for
    archive.tonight.catalogue   what a run has found so far, while it works and after it was killed
    archive.catalogue.lock      the lock, with what tonight's catalogue was made from
    archive.version6.catalogue  one of an earlier release, in place of which a new one was made

A catalogue gets its name when it is whole and closed.
"""

from __future__ import annotations

import contextlib
import errno
import fcntl
import itertools
import os
import re
import shutil
import stat
import time
from typing import IO

from ..files import atomic
from ..model.errors import Failure
from ..model.texts import shown_path
from ..model.records import Stamp
from .store import BESIDE, VERSION, Catalogue, Earlier, earlier_release, head_is_ours, head_of, is_left_open

_HEAD = "The lock of exifnorm-pictures nightly, and what its catalogue of tonight was made from:\n"


class NotAlone(Failure):
    """Another run works on the catalogue, or has written to it meanwhile."""


class Nights:
    """The catalogues of an archive by night. Use it in a `with`, which holds the lock."""

    def __init__(self, name: str, about: str, days: int = 1) -> None:
        """`about` says what the run looks at: a run that was killed is only gone on with if it looked at the same. Of so many days the catalogue
        is kept under a name with the date, unless it is only one."""
        self.last = os.path.realpath(name) if os.path.islink(name) else name  # a file that is replaced is the one that a link leads to
        stem, ending = os.path.splitext(self.last)
        self.before, self.tonight = f"{stem}.before{ending}", f"{stem}.tonight{ending}"
        self.is_first = False  # whether there was no night before to compare with
        self.earlier: Earlier | None = None  # the last catalogue, if it is of an earlier release ..
        self.kept = ""  # .. and the name under which it is kept
        self.is_as_last = False  # whether the last run was whole and looked at the same
        self._days = days
        self.of_today = f"{self.last}.{time.strftime('%Y-%m-%d')}" if days > 1 else ""
        self._about = f"{about}\n{VERSION}"
        self._lock: IO[str] | None = None
        self._mark = ""

    @property
    def names(self) -> tuple[str, ...]:
        """The names of all files, also of those that SQLite makes."""
        catalogues = (self.last, self.before, self.tonight, *self._of_days(), *[self.of_today] * bool(self.of_today))
        return (*(name + ending for name in catalogues for ending in ("", *BESIDE)), self._lock_name, *[self.kept] * bool(self.kept))

    @property
    def compared(self) -> tuple[str, str]:
        """The names under which tonight's catalogue and that of an earlier day stay, or of the last night. A second run of a day
        is compared with the day before, too, as the first run's state has no name that stays."""
        days = (it for it in self._of_days() if it < self.of_today)
        return next(days, self.before), self.of_today or self.last

    def _of_days(self) -> list[str]:
        """The catalogues with a date in their names, the last one first."""
        folder, name = os.path.split(self.last)
        dated = re.compile(re.escape(name) + r"\.\d{4}-\d\d-\d\d", re.A)
        return [os.path.join(folder, it) for it in sorted(os.listdir(folder or "."), reverse=True) if dated.fullmatch(it)]

    @property
    def _lock_name(self) -> str:
        return f"{self.last}.lock"

    def __enter__(self) -> "Nights":
        # The lock is this process's own: one that it has started and that outlives it doesn't hold it, as it would with flock
        file = _opened_lock(self._lock_name)
        try:
            fcntl.lockf(file, fcntl.LOCK_EX | fcntl.LOCK_NB)
        except OSError as error:
            file.close()
            if error.errno not in (errno.EACCES, errno.EAGAIN):
                raise Failure(f"{shown_path(self.last)}: its file system has no POSIX locks ({error.strerror})") from None
            raise NotAlone(f"another nightly run works on {shown_path(self.last)}") from None
        self._lock = file
        self.earlier = earlier_release(self.last)
        self.is_first = self.earlier is not None or not os.path.lexists(self.last)
        if self.earlier:
            stem, ending = os.path.splitext(self.last)
            self.kept = _name_for(self.last, f"{stem}.version{self.earlier.version}", ending)
        return self

    def __exit__(self, *_: object) -> None:
        if self._lock:
            self._lock.close()

    def begin(self, room: str) -> None:
        """Makes tonight's catalogue a copy of the last one, or goes on with that of a run that was killed."""
        if not self.is_first and is_left_open(self.last):  # by a killed run, whose log would stay beside tonight's
            Catalogue(self.last, there=True).close()
        self._mark = f"{self._about}\n{_mark(self.last)}"
        self.is_as_last = not os.path.lexists(self.tonight) and self._noted().startswith(f"{self._about}\n")
        if os.path.lexists(self.tonight) and self._noted() == self._mark:
            return
        _refuse_others(self.tonight)
        _refuse_others(self.of_today)
        for ending in ("", *BESIDE):
            atomic.remove(self.tonight + ending)
        if not self.is_first:
            with Catalogue(self.last) as catalogue:
                copy_over(catalogue, self.tonight, room)
        self._note(self._mark)

    def keep(self, has_news: bool) -> None:
        """Makes tonight's catalogue the last one, and with news the last one that of before. Raises `NotAlone`."""
        if f"{self._about}\n{_mark(self.last)}" != self._mark:
            raise NotAlone(f"{shown_path(self.last)} was written while the nightly run worked, so its results are not kept")
        if os.path.lexists(f"{self.tonight}-wal"):
            raise NotAlone(f"{shown_path(self.tonight)} is open in another program, so its results are not kept")
        if has_news and not self.is_first:
            _replace(self.last, self.before)
        if self.earlier:
            self._keep_earlier()
        if self.of_today:
            _replace(self.tonight, self.of_today)
        os.replace(self.tonight, self.last)
        if self.of_today:
            self._remove_old()

    def _remove_old(self) -> None:
        """Removes the catalogues of days before the last ones."""
        for name in [it for it in self._of_days() if it != self.of_today][self._days - 1 :]:
            if _is_ours(name):
                os.unlink(name)

    def _keep_earlier(self) -> None:
        """Gives a catalogue of an earlier release another name, with what SQLite has beside it after a run that was killed."""
        if not os.path.lexists(self.kept):
            _link(self.last, self.kept)
        for ending in BESIDE:
            with contextlib.suppress(FileNotFoundError):
                os.rename(self.last + ending, self.kept + ending)

    def _noted(self) -> str:
        assert self._lock
        self._lock.seek(len(_HEAD))
        return self._lock.read(20_000_000)  # more than a command line has

    def _note(self, text: str) -> None:
        assert self._lock
        self._lock.truncate(0)
        self._lock.write(_HEAD + text)
        self._lock.flush()


def _replace(name: str, other: str) -> None:
    """Gives a catalogue a second name, so that it has one at each moment. Raises `NotReplaced` if that is of another kind of file."""
    beside = f"{other}.new"
    for there in (other, beside):
        _refuse_others(there)
    atomic.remove(beside)
    _link(name, beside)
    os.replace(beside, other)
    atomic.remove(beside)  # if a run was killed, both may be names of one file, of which the system keeps both


def _link(name: str, other: str) -> None:
    """Gives a file a second name, or makes a copy of it."""
    try:
        os.link(name, other)
    except OSError:  # a file system without links
        shutil.copyfile(name, other)


def _name_for(name: str, stem: str, ending: str) -> str:
    """The name for a catalogue of an earlier release: that which a run that was killed has given it, or a new one."""
    names = itertools.chain([f"{stem}{ending}"], (f"{stem}.{number}{ending}" for number in itertools.count(2)))
    return next(it for it in names if not os.path.lexists(it) or (os.path.exists(it) and os.path.samefile(it, name)))


def _opened_lock(name: str) -> IO[str]:
    """A lock that is open, and perhaps new. Raises `NotReplaced` for a file of another kind, which is left as it is."""
    with contextlib.suppress(FileNotFoundError):
        if not stat.S_ISREG(os.lstat(name).st_mode):
            raise atomic.NotReplaced(atomic.not_written(shown_path(name), "it is there, and is no regular file"))
    number = os.open(name, os.O_RDWR | os.O_CREAT | os.O_APPEND | os.O_NOFOLLOW | os.O_NONBLOCK, 0o666)
    file = open(number, "a+", encoding="utf-8", errors="surrogateescape")
    file.seek(0)
    if file.read(len(_HEAD)) not in ("", _HEAD):
        file.close()
        raise _other_kind(name)
    return file


def _mark(name: str) -> list[int] | None:
    """What shows that a file was written or replaced; None if there is none."""
    now = Stamp.at(os.fsencode(name))
    return now and [now.inode, now.size, now.modified]


def _refuse_others(name: str) -> None:
    """Raises `NotReplaced` if a name is that of a file which is no catalogue."""
    if os.path.lexists(name) and not (os.path.isfile(name) and _is_ours(name)):
        raise _other_kind(name)


def _other_kind(name: str) -> atomic.NotReplaced:
    return atomic.NotReplaced(atomic.not_written(shown_path(name), "it is there, and is a file of another kind"))


def _is_ours(name: str) -> bool:
    head, _ = head_of(name)
    return not head or head_is_ours(head)


def copy_over(catalogue: Catalogue, name: str, room: str) -> None:
    """Copies a catalogue to a new file or over an earlier copy. Raises `NotReplaced` for any other file."""
    copy = os.path.join(room, "old")
    catalogue.copy_to(copy)
    atomic.put_copy(name, copy, head_is_ours, (catalogue.name,), BESIDE)
    os.unlink(copy)
