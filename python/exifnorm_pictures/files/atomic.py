"""Files that are written in full or not at all: they get their name only after all bytes are on the disk.

If the file system allows it, the file has no name while it is written, so that a killed run leaves none but at the last moment. A file that it
leaves is removed by the next run that writes a file there: a process that lives has locked its file.
"""

from __future__ import annotations

import contextlib
import fcntl
import os
import re
import shutil
import stat
import zlib
from typing import AnyStr, BinaryIO, Callable, Iterable, Iterator, Pattern, Sequence

from exifnorm._named import NamedTuple

from ..model.errors import Failure
from ..model.texts import reason, shown_path
from . import opening, signals

# Who may read and write a file that is made: nobody who may not do so with what it was made from, or with what it replaces.
#
# The rights of a file are the nine bits of its mode and a POSIX access control list. The bits that change the user or the group of a program
# (set-user-ID, set-group-ID) are never given.

_LIST = "system.posix_acl_access"
_OWNER, _GROUP, _OTHERS = 0o700, 0o070, 0o007


class Rights(NamedTuple):
    """The rights of a file."""

    owner: int
    group: int
    mode: int  # nine bits; if there is a list, those of the group are its mask
    list: bytes  # the access control list, as Linux keeps it; empty if there is none


def rights_of(file: int | bytes | str) -> Rights:
    """The rights of a file, by its name or its number. Raises `OSError`."""
    status = os.stat(file)
    return Rights(status.st_uid, status.st_gid, status.st_mode & 0o777, _list_of(file))


def _list_of(file: int | bytes | str) -> bytes:
    if hasattr(os, "getxattr"):
        with contextlib.suppress(OSError):  # there is none, or the file system has no lists
            return os.getxattr(file, _LIST)
    return b""


def give(file: int, rights: Rights) -> None:
    """Gives an open file the owner and the group of another, as far as this process may, and its rights, or fewer. Raises `OSError`."""
    os.fchmod(file, 0o600)  # no one else opens it while it changes
    for owner, group in ((rights.owner, rights.group), (-1, rights.group)):
        with contextlib.suppress(OSError):
            os.fchown(file, owner, group)
            break
    if hasattr(os, "removexattr"):
        with contextlib.suppress(OSError):  # the list that a folder gives to its new files
            os.removexattr(file, _LIST)
    now = os.fstat(file)
    if rights.list and (now.st_uid, now.st_gid) == (rights.owner, rights.group):
        with contextlib.suppress(OSError):
            os.setxattr(file, _LIST, rights.list)
            return
    os.fchmod(file, _for_group(rights, now.st_gid))


def _for_group(rights: Rights, group: int) -> int:
    """The mode of a file with a group, in place of these rights. A list can deny to some what it allows to others, so its mode is the owner's."""
    if rights.list:
        return rights.mode & _OWNER
    return rights.mode if group == rights.group else _of_another_group(rights.mode)


def _of_another_group(mode: int) -> int:
    """The mode of a file whose group is another one: its members have what all others have.

    >>> oct(_of_another_group(0o640)), oct(_of_another_group(0o664))
    ('0o600', '0o644')
    """
    return mode & (_OWNER | _OTHERS) | mode & _GROUP & mode << 3


def limit(file: int, sources: Iterable[bytes | str]) -> None:
    """Takes from a new file what one of the files that it is made from doesn't allow. Raises `OSError`."""
    now = os.fstat(file)
    mode = now.st_mode & 0o777
    for name in sources:
        with contextlib.suppress(FileNotFoundError):  # it was removed meanwhile
            mode &= _OWNER | _for_group(rights_of(name), now.st_gid)
    os.fchmod(file, mode)


def make(name: bytes | str, sources: Iterable[bytes | str]) -> None:
    """Makes an empty file that allows no more than the files that it will be made from. A file that is there stays. Raises `OSError`."""
    with contextlib.suppress(FileExistsError):
        file = os.open(name, os.O_WRONLY | os.O_CREAT | os.O_EXCL, 0o666)
        try:
            limit(file, sources)
        finally:
            os.close(file)


Allowed = Callable[[bytes], bool]  # whether a file that begins so may be replaced
Write = Callable[[BinaryIO], object]
_LEFT = re.compile(rb"\.exifnorm-[0-9a-f]{12}-[0-9a-f]{8}\.part")  # as `_free_name` makes it
_HEAD = 100  # bytes by which the kind of a file is known


class NotReplaced(Failure):
    """A file exists and must not be replaced. The text is the reason."""


def not_written(name: str, why: object) -> str:
    """The message for a file that is not written, and the reason."""
    return f"{name} isn't written: {why}"


def copy_new(source: bytes, out: bytes, like: bytes, check: Callable[[bytes], None] = lambda _: None) -> None:
    """Copies a file to `out`, with the times and the rights of the file `like`, or fewer; its holes stay holes. Raises `FileExistsError` if
    `out` exists, and whatever `check` raises of the copy, which it opens by another name before there is an `out`."""
    times, allowed = os.stat(like), rights_of(like)

    def write(file: BinaryIO) -> None:
        with opening.reading(source) as given:
            opening.copy(given.fileno(), file.fileno())
        check(b"/proc/%d/fd/%d" % (os.getpid(), file.fileno()))
        give(file.fileno(), allowed)
        os.utime(file.fileno(), ns=(times.st_atime_ns, times.st_mtime_ns))

    with _written(out, write, 0o600) as (file, name):
        _link(file, name, out)


def replace(out: bytes, write: Write, allowed: Allowed, kept: tuple[str, ...] = ()) -> None:
    """Writes a file that may replace an earlier one: a regular file whose first bytes are `allowed`, or an empty one.

    It is made from the files `kept`, which are never replaced, whatever name `out` is. It has the rights of the file that it replaces, or
    those of `kept` and umask. Raises `NotReplaced`.
    """
    there = os.path.realpath(out)
    try:
        _check(there, allowed, kept)
        remove_left(os.path.dirname(there))
        _replace(there, write, kept)
    except OSError as error:  # the file that it names may be the one that gets its name in the end
        raise NotReplaced(reason(error)) from None


def put(name: str, write: Write, allowed: Allowed, kept: tuple[str, ...] = ()) -> None:
    """The same for a name of the command line, which the error names."""
    try:
        replace(os.fsencode(name), write, allowed, kept)
    except NotReplaced as error:
        raise NotReplaced(not_written(shown_path(name), error)) from None


def put_copy(name: str, source: str, allowed: Allowed, kept: tuple[str, ...] = (), beside: Sequence[str] = ()) -> None:
    """The same with what the file `source` has. What is beside the file that is replaced, by the ends of its names, is removed with it."""

    def write(file: BinaryIO) -> None:
        with open(source, "rb") as whole:
            shutil.copyfileobj(whole, file)
        for ending in beside:
            remove(os.path.realpath(name) + ending)

    put(name, write, allowed, kept)


def remove(name: str) -> None:
    """Removes a file, if it is there."""
    with contextlib.suppress(FileNotFoundError):
        os.unlink(name)


def _replace(there: bytes, write: Write, sources: tuple[str, ...]) -> None:
    before = rights_of(there) if os.path.exists(there) else None

    def write_all(file: BinaryIO) -> None:
        if before:
            give(file.fileno(), before)
        else:
            limit(file.fileno(), sources)
        write(file)

    with _written(there, write_all, 0o600 if before else 0o666) as (file, name):
        beside = name or _free_name(there)
        if not name:
            _link(file, None, beside)
        try:
            os.replace(beside, there)
        except BaseException:
            with contextlib.suppress(OSError):
                os.unlink(beside)
            raise


def _check(out: bytes, allowed: Allowed, kept: tuple[str, ...]) -> None:
    try:
        now = os.stat(out)
    except FileNotFoundError:
        return
    if not stat.S_ISREG(now.st_mode):
        raise NotReplaced("it is there, and is no regular file")
    for catalogue in kept:
        with contextlib.suppress(OSError):
            if os.path.samestat(os.stat(catalogue), now):
                raise NotReplaced(f"it is the catalogue {catalogue}")
    with opening.reading(out) as file:
        head = file.read(_HEAD)
    if head and not allowed(head):
        raise NotReplaced("it is there, and is a file of another kind")


def remove_left(folder: bytes) -> None:
    """Removes the files that killed runs have left in a folder."""
    sweep(folder, _LEFT, _remove_dead)


def sweep(folder: AnyStr, names: "Pattern[AnyStr]", remove: "Callable[[os.DirEntry[AnyStr]], None]") -> None:
    """Removes what killed runs have left in a folder under such names; `remove` leaves what it may not remove, or raises `OSError`."""
    with contextlib.suppress(OSError), os.scandir(folder) as entries:
        for entry in entries:
            if names.fullmatch(entry.name):
                with contextlib.suppress(OSError):
                    remove(entry)


def _remove_dead(entry: "os.DirEntry[bytes]") -> None:
    """Removes a file that a killed run of this user has left, which nobody has locked."""
    with open(os.open(entry.path, os.O_NOFOLLOW | os.O_NONBLOCK), "rb") as file:
        now = os.fstat(file.fileno())
        if zlib.crc32(entry.name[10:22]) == int(entry.name[23:31], 16) and stat.S_ISREG(now.st_mode) and now.st_uid == os.geteuid():
            fcntl.flock(file, fcntl.LOCK_SH | fcntl.LOCK_NB)  # NFS has no other lock of a file that is only read
            os.unlink(entry.path)


@contextlib.contextmanager
def _written(out: bytes, write: Write, mode: int) -> Iterator[tuple[BinaryIO, bytes | None]]:
    """A file in the folder of `out` with all its bytes on the disk, and its name if it needed one. It begins with a mode, less umask."""
    folder, number, name = os.path.dirname(out) or b".", -1, None
    try:
        with signals.signals_held():  # a signal before the file has its name here would leave it
            number, name = _opened(folder, out, mode)
        with open(number, "wb") as file:
            write(file)
            file.flush()
            os.fsync(file.fileno())
            yield file, name
    finally:
        if name:
            with contextlib.suppress(OSError):
                os.unlink(name)


def _opened(folder: bytes, out: bytes, mode: int) -> tuple[int, bytes | None]:
    """A new file that is locked, as far as the file system can, and its name if it needs one."""
    if hasattr(os, "O_TMPFILE"):
        with contextlib.suppress(OSError):
            return locked(os.open(folder, os.O_TMPFILE | os.O_RDWR, mode)), None
    while True:
        name = _free_name(out)
        number = locked(os.open(name, os.O_RDWR | os.O_CREAT | os.O_EXCL, mode))
        if os.fstat(number).st_nlink:
            return number, name
        os.close(number)  # another run has taken it for that of a dead one, before it was locked


def locked(number: int) -> int:
    """A file that is open, locked as far as the file system can."""
    with contextlib.suppress(OSError):  # a file system without locks
        fcntl.flock(number, fcntl.LOCK_EX)
    return number


def _free_name(out: bytes) -> bytes:
    """A name beside `out` that isn't taken. It has a sum of itself, which a file of another program doesn't have by accident, so that whatever is
    in it can be removed."""
    return os.path.join(os.path.dirname(out), b".exifnorm-%s-%08x.part" % (word := os.urandom(6).hex().encode("ascii"), zlib.crc32(word)))


def _link(file: BinaryIO, name: bytes | None, out: bytes) -> None:
    """Gives a file the new name `out`."""
    if not name:
        # given a folder, though the path is absolute, since Python follows the link only then
        os.link(b"/proc/self/fd/%d" % file.fileno(), out, src_dir_fd=file.fileno(), follow_symlinks=True)
        return
    try:
        os.link(name, out)
    except OSError:  # also of a file system without hard links
        if os.path.lexists(out):
            raise FileExistsError(out) from None
        os.rename(name, out)
