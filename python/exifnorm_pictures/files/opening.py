"""Files that are opened to be read: regular ones only, so that no pipe is waited for and no device is read, whoever named it."""

from __future__ import annotations

import contextlib
import errno
import io
import os
import stat

from exifnorm._hints import TYPE_CHECKING, BinaryIO, Iterator, TypeVar

if TYPE_CHECKING:
    from _typeshed import WriteableBuffer

Read = TypeVar("Read")

IRREGULAR = "it is no regular file"
_FLAGS = sum(getattr(os, name, 0) for name in ("O_NONBLOCK", "O_NOCTTY", "O_CLOEXEC", "O_BINARY"))  # those that the system has


_held: dict[bytes, int] = {}  # the numbers of the files that are held open, by their names


@contextlib.contextmanager
def held(path: bytes, number: int | None = None) -> Iterator[int | None]:
    """Holds a file open, whose number is its result: all that is read meanwhile by this name is of this file, whatever file gets the name. One
    that can't be opened isn't held, and `opened` raises why; one that is held already stays so. With a number the file is open already."""
    if number is not None:
        _held[path] = number
    elif path not in _held:
        with contextlib.suppress(OSError):
            number = _held[path] = opened(path)[0]
    try:
        yield _held.get(path)
    finally:
        if number is not None:
            os.close(_held.pop(path))


def opened(path: bytes | str) -> tuple[int, int]:
    """The number of a regular file that is open, and its length. A file that becomes a pipe isn't waited for. Raises `OSError`."""
    if isinstance(path, bytes) and path in _held:
        number = os.dup(_held[path])
        os.lseek(number, 0, os.SEEK_SET)  # all its numbers have one offset
        return number, os.fstat(number).st_size
    try:
        if not stat.S_ISREG(os.stat(path).st_mode):
            raise OSError(errno.EINVAL, IRREGULAR, path)
    except ValueError:
        raise OSError(errno.EINVAL, "its name has a NUL", path) from None
    number = os.open(path, _FLAGS)
    now = os.fstat(number)
    if not stat.S_ISREG(now.st_mode):
        os.close(number)
        raise OSError(errno.EINVAL, IRREGULAR, path)
    return number, now.st_size


def read_at(number: int, length: int, at: int) -> bytes:
    """Bytes of an open file, wherever it was read before."""
    if hasattr(os, "pread"):
        return os.pread(number, length, at)
    os.lseek(number, at, os.SEEK_SET)
    return os.read(number, length)


class _Regular(io.FileIO):
    """A file that is never waited for. One of the system's that has no bytes yet, as /proc/kmsg, raises `BlockingIOError`, and doesn't end."""

    def readinto(self, buffer: "WriteableBuffer") -> int:
        return _there(super().readinto(buffer))

    def readall(self) -> bytes:
        return _there(super().readall())


def _there(read: Read | None) -> Read:
    if read is None:
        raise BlockingIOError(errno.EAGAIN, os.strerror(errno.EAGAIN))
    return read


def reading(path: bytes | str) -> BinaryIO:
    """A regular file as a stream. Raises `OSError`."""
    return io.BufferedReader(_Regular(opened(path)[0]))


# Copies of the bytes of a file, in which its holes stay holes: a file of 4 kB on the disk can have a hole of terabytes.

PIECE = 1 << 20  # bytes that are copied at once


def copy(source: int, target: int) -> None:
    """Copies one open file to another, which is empty. Raises `OSError`, also if the file becomes shorter meanwhile."""
    copy_range(source, 0, os.fstat(source).st_size, target, 0)


def copy_range(source: int, start: int, end: int, target: int, at: int) -> None:
    """Copies the bytes from `start` to `end` of an open file to the place `at` of another, which has no bytes there yet. Raises `OSError`."""
    if os.fstat(target).st_size < at + end - start:
        os.ftruncate(target, at + end - start)
    for first, last in _data(source, start, end):
        while first < last:
            piece = read_at(source, min(PIECE, last - first), first)
            if not piece:
                raise OSError(errno.EIO, "it became shorter while it was copied")
            first += put(target, piece, at + first - start)


def put(target: int, piece: bytes, at: int) -> int:
    """Writes bytes, which a system call may do in parts. Their number."""
    written = 0
    while written < len(piece):
        written += os.pwrite(target, piece[written:], at + written)
    return written


def is_hollow(number: int, size: int, most: int) -> bool:
    """Whether the holes of an open file have more bytes than `most` together."""
    if size <= most:
        return False
    holes, at = 0, 0
    with contextlib.suppress(OSError):  # which a file that becomes shorter causes, too
        for first, last in _data(number, 0, size):
            holes += first - at
            at = last
            if holes > most:
                break
        else:
            holes += size - at
    return holes > most


def _data(number: int, start: int, end: int) -> Iterator[tuple[int, int]]:
    """The ranges of a file that aren't holes, or everything where a file system doesn't know them."""
    while start < end:
        try:
            first = os.lseek(number, start, os.SEEK_DATA)
            last = min(os.lseek(number, first, os.SEEK_HOLE), end)
        except OSError as error:
            if error.errno == errno.ENXIO:  # there is only a hole, or the file ends here
                if os.fstat(number).st_size < end:
                    raise OSError(errno.EIO, "it became shorter while it was copied") from None
                return
            first, last = start, end
        if first < last:
            yield first, last
        start = max(last, first)
