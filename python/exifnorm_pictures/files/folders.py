"""Folders that are written in full or not at all: a new one takes the place of an earlier one at once, when all its files are on the disk.

Until then it is beside it, under a name of its own, and only the user may enter it. A killed run leaves it there, and the next one removes
it: a process that lives has locked the list of its folder, because a network share has no lock of a folder for all machines.
"""

from __future__ import annotations

import contextlib
import ctypes
import errno
import fcntl
import hashlib
import io
import os
import re
import stat
import tempfile
from itertools import islice
from typing import Any, Iterator, Sequence

from ..model.texts import reason, shown_path
from . import atomic, opening, signals

_LONGEST = 64_000_000  # bytes of a list of names
_AT_ONCE = 1000  # files that are removed
_HERE, _EXCHANGE = -100, 2  # AT_FDCWD and RENAME_EXCHANGE of Linux
_PREFIX, _SUFFIX = b".exifnorm-", b".part"
_NAME = re.compile(re.escape(_PREFIX) + rb"[a-z0-9_]{8}" + re.escape(_SUFFIX))  # as mkdtemp makes it
_PAGE = re.compile(r"[a-z]+(-\d+)?\.(html|js)")  # of a report
_PICTURE = re.compile(r"small-[0-9a-f]{64}-[1-8]\.jpg")  # of a report that has many: the list doesn't name them
_LARGEST_PICTURE = 10_000  # bytes
_DIGEST = 66  # characters of a line of the list before the name
_PIECE = 1_000_000


class NewFolder:
    """A folder that is being written, flat, with a list of its files. `earlier` is the one that it replaces."""

    def __init__(self, path: bytes, earlier: bytes, allowed: atomic.Rights | None, sources: Sequence[str]) -> None:
        self.path, self._earlier, self._allowed, self._sources = path, earlier, allowed, sources
        self.lines: list[str] = []  # of the list: the SHA-256 and the name of each file, as sha256sum has them

    def write(self, name: str, octets: bytes) -> None:
        """Writes a file, with the rights of the one that it replaces, or those of the sources and umask. Raises `OSError`."""
        with open(os.path.join(self.path, os.fsencode(name)), "wb") as file:
            number = file.fileno()
            if self._allowed:
                atomic.give(number, self._allowed)
            else:
                atomic.limit(number, self._sources)
            file.write(octets)
            file.flush()
            os.fsync(number)
        if not _PICTURE.fullmatch(name):
            self.lines.append(f"{hashlib.sha256(octets).hexdigest()}  {name}")

    def has(self, picture: str) -> bool:
        """Whether it has a small picture, which is taken from the folder that it replaces, if that has one. Raises `OSError`."""
        path, earlier = (os.path.join(it, os.fsencode(picture)) for it in (self.path, self._earlier))
        if os.path.lexists(path):
            return True
        try:
            now = os.lstat(earlier)
        except OSError:
            return False
        if not stat.S_ISREG(now.st_mode) or not 0 < now.st_size <= _LARGEST_PICTURE:
            return False
        try:
            os.link(earlier, path, follow_symlinks=False)
        except OSError:  # it is another user's, or the file system has no links
            return self._has_copied(picture, earlier)
        return True

    def _has_copied(self, picture: str, earlier: bytes) -> bool:
        try:
            with opening.reading(earlier) as file:
                octets = file.read(_LARGEST_PICTURE)
        except OSError:
            return False
        self.write(picture, octets)
        return True


@contextlib.contextmanager
def replaced(out: bytes, mark: str, sources: Sequence[str]) -> Iterator[NewFolder]:
    """A new folder, which gets the name `out` in the end. `mark` is the name of the list of its files: an earlier folder is replaced only if it
    has such a list, and no other files than the list has, byte for byte. It is made from the files `sources`. Raises `NotReplaced`."""
    there = os.path.realpath(out)
    beside = os.path.dirname(there)
    room, lock = b"", -1
    try:
        try:
            before = _rights_of_earlier(there, mark)
            atomic.sweep(beside, _NAME, lambda entry: _remove_dead(entry.path, mark))
            while lock < 0 or not os.fstat(lock).st_nlink:
                with signals.signals_held():  # a signal before the new folder has its name here would leave it
                    room = tempfile.mkdtemp(prefix=_PREFIX, suffix=_SUFFIX, dir=beside)
                with contextlib.suppress(FileNotFoundError):  # another run took it for that of a killed run, before its list was locked
                    lock = atomic.locked(os.open(os.path.join(room, os.fsencode(mark)), os.O_RDWR | os.O_CREAT, 0o666))
            folder = NewFolder(room, there, before and before[1], sources)
            yield folder
            folder.write(mark, _FIRST + "".join(f"{line}\n" for line in folder.lines).encode())
            _give(room, mark, before and before[0])
            _rights_of_earlier(there, mark)  # something may have been put there meanwhile
            _put(room, there)
        except OSError as error:
            raise atomic.NotReplaced(reason(error)) from None
    finally:
        with signals.signals_held():
            if room:
                _remove(room, mark)  # an earlier one, if all went well
        if lock >= 0:
            os.close(lock)


def _remove_dead(folder: bytes, mark: str) -> None:
    """Removes a folder that a killed run of this user has left, whose list nobody has locked, if it has files of a report alone."""
    with contextlib.ExitStack() as held:
        number = os.open(folder, os.O_DIRECTORY | os.O_NOFOLLOW)
        held.callback(os.close, number)
        with os.scandir(number) as entries:
            is_ours = os.fstat(number).st_uid == os.geteuid() and all(_is_ours(entry, mark) for entry in entries)
        if is_ours:
            # A run was killed before it had a list, or while it removed the folder; or it lives, and waits for the list
            lock = os.open(mark, os.O_CREAT | os.O_NOFOLLOW | os.O_NONBLOCK, dir_fd=number)
            held.callback(os.close, lock)
            fcntl.flock(lock, fcntl.LOCK_SH | fcntl.LOCK_NB)  # as of a file in atomic.py
            _remove(folder, mark)


def _is_ours(entry: "os.DirEntry[Any]", mark: str) -> bool:
    """Whether a file has a name that only files of a report have."""
    name = os.fsdecode(entry.name)
    return (name == mark or bool(_PAGE.fullmatch(name) or _PICTURE.fullmatch(name))) and not entry.is_dir(follow_symlinks=False)


def _remove(folder: bytes, mark: str) -> None:
    """Removes a report, however many files it has, and nothing that is in it besides."""
    with contextlib.suppress(OSError):
        while True:
            with os.scandir(folder) as entries:
                paths = [entry.path for entry in islice((it for it in entries if _is_ours(it, mark)), _AT_ONCE)]
            if not paths:
                os.rmdir(folder)
            for path in paths:
                os.unlink(path)


_FIRST = b"The pages of a report by exifnorm-pictures, which a new one replaces:\n"


def _rights_of_earlier(there: bytes, mark: str) -> tuple[atomic.Rights, atomic.Rights] | None:
    """The rights of an earlier folder and of its list. Raises `NotReplaced` if something else is there."""
    try:
        now = os.stat(there)
    except FileNotFoundError:
        return None
    if not stat.S_ISDIR(now.st_mode):
        raise atomic.NotReplaced("it is there, and is no folder")
    with os.scandir(there) as entries:
        names = {it.name for it in entries if not (_PICTURE.fullmatch(os.fsdecode(it.name)) and it.is_file(follow_symlinks=False))}
    if not names:  # small pictures alone are no report, and nothing else is lost with them
        return None
    listed = os.path.join(there, os.fsencode(mark))
    try:
        with opening.reading(listed) as file:
            octets = file.read(_LONGEST + 1)
    except OSError:
        octets = b""
    if not octets.startswith(_FIRST):
        raise atomic.NotReplaced(f"it is a folder with other files, such as {shown_path(min(names))}")
    if len(octets) > _LONGEST:
        raise atomic.NotReplaced(f"{mark}, which lists the pages of the earlier report, has more than {_LONGEST:,} bytes")
    known = {name: line[:_DIGEST] for line in io.BytesIO(octets) if (name := line[_DIGEST:].rstrip(b"\n")) in names}
    for name in sorted(names - {os.fsencode(mark)}):
        if not _is_as_written(os.path.join(there, name), known.get(name)):
            raise atomic.NotReplaced(
                f"the earlier report has files that are none of its pages, or not as it wrote them, such as {shown_path(name)}"
            )
    return atomic.rights_of(there), atomic.rights_of(listed)


def _is_as_written(path: bytes, due: bytes | None) -> bool:
    """Whether a file is a page of a report that has a SHA-256, which a line of the list begins with."""
    name = os.path.basename(os.fsdecode(path))
    if not _PAGE.fullmatch(name) or os.path.islink(path) or not os.path.isfile(path):
        return False
    digest = hashlib.sha256()
    with opening.reading(path) as file:
        for octets in iter(lambda: file.read(_PIECE), b""):
            digest.update(octets)
    return due == b"%s  " % digest.hexdigest().encode()


def _give(room: bytes, mark: str, before: atomic.Rights | None) -> None:
    """Gives a new folder the rights of the one that it replaces; otherwise those may enter it who may read its files."""
    number = os.open(room, os.O_DIRECTORY)
    try:
        if before:
            atomic.give(number, before)
        else:
            mode = os.stat(os.path.join(room, os.fsencode(mark))).st_mode & 0o777
            os.fchmod(number, mode | 0o700 | (mode & 0o444) >> 2)
        os.fsync(number)
    finally:
        os.close(number)


def _put(room: bytes, there: bytes) -> None:
    """Gives a folder its name. What had it before gets the other's, and is removed."""
    if not os.path.lexists(there):
        os.rename(room, there)
    elif not _exchange(room, there):
        aside = room + b".earlier"
        os.rename(there, aside)
        try:
            os.rename(room, there)
        except BaseException:
            os.rename(aside, there)
            raise
        os.rename(aside, room)


def _exchange(path: bytes, other: bytes) -> bool:
    """Exchanges two names at once. False if the system can't."""
    try:
        call = ctypes.CDLL(None, use_errno=True).renameat2
    except (AttributeError, OSError):
        return False
    if not call(_HERE, ctypes.c_char_p(path), _HERE, ctypes.c_char_p(other), _EXCHANGE):
        return True
    number = ctypes.get_errno()
    if number in (errno.ENOSYS, errno.EINVAL, errno.EOPNOTSUPP):
        return False
    raise OSError(number, os.strerror(number))
