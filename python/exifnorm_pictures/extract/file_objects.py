"""Pictures that are read from file objects of a program: an upload, a member of an archive, bytes in memory."""

from __future__ import annotations

import contextlib
import errno
import os
import sys
from typing import IO, Iterator, Protocol, cast

from ..model.budgets import COPIED_BYTES, Budget
from ..model.texts import described, ending_of
from .formats.streams import CHUNK, Parts

# Classes of the standard library that decompress: to go back, they begin anew
_DECOMPRESS = (("gzip", "GzipFile"), ("bz2", "BZ2File"), ("lzma", "LZMAFile"), ("zipfile", "ZipExtFile"))


class BinaryFile(Protocol):
    """A file object of bytes. Whether it can seek is asked of the object itself."""

    def read(self, length: int = -1, /) -> bytes | None:
        """The next bytes, `length` at most."""


@contextlib.contextmanager
def seekable(source: BinaryFile, budget: Budget) -> Iterator[IO[bytes]]:
    """A file object itself; of one that can't seek, or decompresses, a temporary copy, which has no name, so that nothing is left of it if the
    process is killed. Raises `TooMuch` for a copy that would be too long."""
    if _is_read_in_place(source):
        yield cast(IO[bytes], source)
        return
    import tempfile  # which few sources need

    with tempfile.TemporaryFile() as copy:
        while data := _some(source, CHUNK):
            budget.spend(COPIED_BYTES, len(data))
            copy.write(data)
            budget.check_size(copy.tell())
            budget.check_clock()
        copy.seek(0)
        yield copy


class FileObject(Parts):
    """A file object that can seek, from where it is to its end. Only parts of it are read, and when this is closed it is where it was.

    Programs bring their own classes: what one raises, and a place or bytes that can't be, become an `OSError`.
    """

    def __init__(self, source: IO[bytes], budget: Budget | None = None) -> None:
        self._source, self._start = source, _place(source)
        self._copies = contextlib.ExitStack()
        _seek(source, 0, os.SEEK_END)
        super().__init__(max(0, _place(source) - self._start), budget)

    def _part(self, at: int, length: int) -> bytes:
        self.budget.check_clock()
        _seek(self._source, self._start + at)
        parts = []
        while length > 0 and (data := _some(self._source, length)):  # some return less than they are asked for
            parts.append(data)
            length -= len(data)
            if len(parts) % PIECES == 0:
                self.budget.check_time()
        return b"".join(parts)

    def as_file(self, name: bytes) -> bytes:
        """The path of a copy, which is gone once this is closed. Raises `TooMuch`."""
        self.budget.spend(COPIED_BYTES, self.size)
        import tempfile

        new = tempfile.NamedTemporaryFile(prefix="exifnorm-picture-", suffix=ending_of(name))
        copy = self._copies.enter_context(new)
        at = 0
        while piece := self._part(at, min(CHUNK, self.size - at)):  # no more than its size, however much there is now
            copy.write(piece)
            at += len(piece)
        copy.flush()
        return os.fsencode(copy.name)

    def close(self) -> None:
        """Removes the copies."""
        with self._copies:
            _seek(self._source, self._start)


PIECES = 256  # pieces after which the time is looked at


def _is_read_in_place(source: BinaryFile) -> bool:
    """Whether a file object can seek, and doesn't decompress."""
    if any(module in sys.modules and isinstance(source, getattr(sys.modules[module], name)) for module, name in _DECOMPRESS):
        return False
    with own_errors():
        return bool(source.seekable()) if hasattr(source, "seekable") else hasattr(source, "seek") and hasattr(source, "tell")


@contextlib.contextmanager
def own_errors() -> Iterator[None]:
    """Makes an `OSError` of whatever a file object raises itself."""
    try:
        yield
    except (OSError, MemoryError):
        raise
    except Exception as error:
        raise OSError(errno.EIO, f"the file object can't be read: {described(error)}") from error


def _place(source: IO[bytes]) -> int:
    with own_errors():
        answer = source.tell()
        place = int(answer) if isinstance(answer, int) else -1
    if not 0 <= place < _LONGEST:
        shown = f"{place!r:.40}" if isinstance(answer, int) else type(answer).__name__
        raise OSError(errno.EIO, f"the file object can't be read: tell() returned {shown}")
    return place


_LONGEST = 1 << 62  # bytes


def _seek(source: IO[bytes], place: int, whence: int = os.SEEK_SET) -> None:
    with own_errors():
        source.seek(place, whence)


def _some(source: BinaryFile, most: int) -> bytes:
    """The next bytes of a file object, `most` at most; none at its end."""
    with own_errors():
        data = source.read(most)
        octets = bytes(data) if isinstance(data, (bytes, bytearray, memoryview)) else None
    if data is None:
        raise BlockingIOError(errno.EAGAIN, "the file object has no bytes yet")
    if octets is None:
        raise OSError(errno.EIO, f"the file object can't be read: read() returned {type(data).__name__}, and not bytes")
    if len(octets) > most:
        raise OSError(errno.EIO, f"the file object can't be read: read({most}) returned {len(octets)} bytes")
    return octets
