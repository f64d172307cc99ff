"""Reading parts of a file: exactly so many bytes, or not at all. A file is read by calls and never mapped, because a mapped file that
another program shortens ends the process with a signal."""

from __future__ import annotations

import hashlib
import os
from bisect import bisect_right
from collections import deque
from heapq import heappop, heappush
from itertools import accumulate
from operator import itemgetter, le

from exifnorm._hints import Callable, Iterable, Iterator, NamedTuple, Protocol, Sequence

from ...files import opening
from ...model.budgets import BYTES_READ, HOLES, Budget, budget_of
from ...model.found import Blocks, Broken, NotRead
from ...model.texts import grouped, in_words

CHUNK = 1 << 18
PIECE = 1 << 13  # bytes that are read at once where the parts are small
HEAD = 1 << 16  # bytes of a file that are read at first: the head of nearly every picture


class Stream(Protocol):
    """What a reader needs of a file that is open."""

    def seek(self, at: int, whence: int = os.SEEK_SET, /) -> int:
        ...

    def read(self, length: int, /) -> bytes:
        ...


class Parts:
    """A file that is read in parts, with as many bytes as it had when it was opened. Its first bytes are in memory, so that a picture whose
    metadata are there takes few calls."""

    def __init__(self, size: int, budget: Budget | None = None) -> None:
        self.size, self.budget = size, budget or Budget()
        self.budget.check_size(size)
        self._at = 0
        self._head = self._part(0, min(size, HEAD))

    def _part(self, at: int, length: int) -> bytes:
        """Some of these bytes, or all; none if the file has been shortened."""
        raise NotImplementedError

    def as_file(self, name: bytes) -> bytes:
        """The path of a file that other programs can open, for a picture of this name."""
        raise NotImplementedError

    def close(self) -> None:
        """Closes the file."""
        raise NotImplementedError

    def seek(self, at: int, whence: int = os.SEEK_SET) -> int:
        """Sets the offset at which the next bytes are read."""
        self._at = at + self.size if whence == os.SEEK_END else at
        return self._at

    def read(self, length: int) -> bytes:
        """The next bytes: less than `length` only at the end of the file."""
        at = self._at
        data = self._head[at : at + length]
        while len(data) < length and at + len(data) < self.size:
            more = self._part(at + len(data), min(length, self.size - at) - len(data))
            if not more:  # the file has been shortened
                break
            data += more
            self.budget.spend(BYTES_READ, len(more))
        self._at = at + len(data)
        return data


class File(Parts):
    """A regular file that is open."""

    def __init__(self, number: int, size: int, budget: Budget | None = None, path: bytes = b"") -> None:
        """Takes over the file of this number; the path is given if the picture is read by another name."""
        self.number, self._path = number, path
        try:
            super().__init__(size, budget)
        except BaseException:
            os.close(number)
            raise

    def _part(self, at: int, length: int) -> bytes:
        return opening.read_at(self.number, length, at)

    def as_file(self, name: bytes) -> bytes:
        """Its own path."""
        return self._path or name

    def close(self) -> None:
        os.close(self.number)


class Window:
    """A part of a file as a file of its own, as a picture inside another one: the bytes from `start`, at most `length` of them. What is read of
    them counts for the whole file."""

    def __init__(self, stream: Stream, start: int, length: int) -> None:
        end = size_of(stream)
        self._stream = stream
        self.start = min(start, end)
        self.size = max(min(length, end - self.start), 0)
        self.budget = budget_of(stream)
        self._at = 0

    def seek(self, at: int, whence: int = os.SEEK_SET, /) -> int:
        """Sets the offset at which the next bytes are read."""
        self._at = at + self.size if whence == os.SEEK_END else at
        return self._at

    def read(self, length: int, /) -> bytes:
        """The next bytes: less than `length` only at the end.

        >>> import io
        >>> part = Window(io.BytesIO(b"abcdef"), 2, 3)
        >>> part.read(2), part.read(2), part.read(2)
        (b'cd', b'e', b'')
        """
        length = max(min(length, self.size - self._at), 0)
        self._stream.seek(self.start + self._at)
        data = self._stream.read(length) if length else b""
        self._at += len(data)
        return data


def size_of(stream: Stream) -> int:
    """The number of bytes of a file.

    >>> import io
    >>> size_of(io.BytesIO(b"abc"))
    3
    """
    return stream.seek(0, os.SEEK_END)


def read_at(stream: Stream, at: int, length: int) -> bytes:
    """Exactly `length` bytes. Raises `Broken` if the file ends before."""
    stream.seek(at)
    data = stream.read(length)
    if len(data) < length:
        raise Broken(f"the file ends inside the {length} bytes at {at}")
    return data


def pieces(stream: Stream, start: int, end: int) -> Iterator[bytes]:
    """The bytes from `start` up to `end`, or up to the end of the file, in pieces."""
    while start < end:
        stream.seek(start)
        data = stream.read(min(CHUNK, end - start))
        if not data:
            return
        yield data
        start += len(data)


def add_to(digest: hashlib._Hash, stream: Stream, start: int, end: int) -> None:
    """Adds a part of a file to a digest."""
    for data in pieces(stream, start, end):
        digest.update(data)


def digest_of(stream: Stream, start: int, end: int) -> str:
    """SHA-256 of a part of a file.

    >>> import io
    >>> digest_of(io.BytesIO(b"xabcx"), 1, 4)[:8]
    'ba7816bf'
    """
    digest = hashlib.sha256()
    add_to(digest, stream, start, end)
    return digest.hexdigest()


def is_blank(stream: Stream, start: int, end: int) -> bool:
    """Whether a part of a file has only zeros."""
    return not any(it.strip(b"\0") for it in pieces(stream, start, end))


def digest_of_file(path: bytes, most: int) -> str:
    """SHA-256 of a whole file; empty if it has more bytes than `most`, or more holes than `HOLES`."""
    with opening.reading(path) as file:
        size = os.fstat(file.fileno()).st_size
        return digest_of(file, 0, size) if size <= most and not opening.is_hollow(file.fileno(), size, HOLES) else ""


def digest_of_rest(stream: Stream, start: int, end: int) -> str | None:
    """SHA-256 of the bytes after a picture: None if they are only zeros, empty if they are more than may be read.

    >>> import io
    >>> digest_of_rest(io.BytesIO(b"abc\\0\\0"), 3, 5), digest_of_rest(io.BytesIO(b"xabc"), 1, 4)[:8]
    (None, 'ba7816bf')
    """
    if not budget_of(stream).may_digest(end - start):
        return ""
    digest, blank = hashlib.sha256(), True
    for piece in pieces(stream, start, end):
        digest.update(piece)
        blank = blank and not piece.strip(b"\0")
    return None if blank else digest.hexdigest()


def digest_of_parts(stream: Stream, parts: Iterable[Range]) -> str:
    """SHA-256 of some parts of a file, joined, which may share bytes; empty if they are more than may be read. Raises `TooMuch`."""
    budget, digest, length = budget_of(stream), hashlib.sha256(), 0
    for start, end in parts:
        length += end - start
        if not budget.may_digest(length):
            return ""
        budget.spend(BYTES_READ, end - start)
        add_to(digest, stream, start, end)
    return digest.hexdigest()


def leave(blocks: Blocks, what: str, stream: Stream, start: int, end: int) -> None:
    """Names a part of a file that is not read, with its digest. A part of zeros is none. Raises `TooMuch`."""
    digest = digest_of_rest(stream, start, end)
    if digest is not None:
        blocks.name(NotRead(what, digest))


def leave_whole(blocks: Blocks, what: str, stream: Stream, start: int, end: int) -> None:
    """The same of a part that is named whatever it has."""
    blocks.name(NotRead(what, digest_of_rest(stream, start, end) or ""))


def leave_rest(blocks: Blocks, stream: Stream, end: int) -> None:
    """Names the bytes after the end of a picture, if there are any."""
    size = size_of(stream)
    if end < size:
        leave(blocks, f"trailer of {in_words(size - end, 'byte')}", stream, end, size)


# The parts of a picture's file. Each byte belongs to one of them, so none is outside of every comparison: it is of metadata, which are compared
# by what they mean; of the coded picture; of the structure of the format, such as lengths, marks, check sums and padding; or of the rest, which
# is compared by its bytes, under a name.
#
# A reader claims the parts that it knows. What nothing claims is rest, if it has more than zeros, or more bytes than may be read for a digest.

METADATA, PICTURE, STRUCTURE, REST = "metadata", "picture", "structure", "rest"
COMMENT, CREDENTIALS, PROFILE, TRAILER, UNCLAIMED = (
    "comment",
    "content credentials (not validated)",
    "colour profile",
    "trailer",
    "unclaimed bytes",
)

Range = tuple[int, int]


class Part(NamedTuple):
    """A part of a file: what it is, its range, and the name of a rest."""

    kind: str
    start: int
    end: int
    name: str = ""


def whole(stream: Stream, claims: Iterable[Part]) -> list[Part]:
    """The parts of a whole file in their order, by what is claimed of it. Of two claims to a byte the first one counts.

    >>> import io
    >>> [tuple(it) for it in whole(io.BytesIO(b"abcde\\0"), [Part(PICTURE, 0, 2), Part(METADATA, 1, 3)])]
    [('picture', 0, 2, ''), ('metadata', 2, 3, ''), ('rest', 3, 6, 'trailer')]
    """
    at, size = 0, size_of(stream)
    parts = []
    for part in [*_disjoint(claims, size), Part(STRUCTURE, size, size)]:
        if at < part.start:
            is_filling = budget_of(stream).may_digest(part.start - at) and is_blank(stream, at, part.start)
            name = UNCLAIMED if part.start < size else TRAILER
            parts.append(Part(STRUCTURE, at, part.start) if is_filling else Part(REST, at, part.start, name))
        parts.append(part)
        at = part.end
    return parts[:-1]


def _disjoint(claims: Iterable[Part], size: int) -> list[Part]:
    """What the claims get, in their order in the file."""
    every = [it for it in claims if it[1] < min(it[2], size)]
    ordered = sorted(every, key=itemgetter(1))
    if all(map(le, [it[2] for it in ordered], [*(it[1] for it in ordered[1:]), size])):
        return ordered  # as of nearly all files
    taken: list[Part] = []
    last = -1
    for number, start, end in _by_bounds(every, size):
        if last == number and taken[-1].end == start:
            taken[-1] = taken[-1]._replace(end=end)
        else:
            taken.append(every[number]._replace(start=start, end=end))
        last = number
    return taken


def _by_bounds(every: list[Part], size: int) -> Iterator[tuple[int, int, int]]:
    """The ranges between the bounds of some claims that one of them gets: the number of the first
    that has it."""
    waiting = deque(sorted((it.start, number, min(it.end, size)) for number, it in enumerate(every)))
    bounds = sorted({bound for start, _, end in waiting for bound in (start, end)})
    open_: list[Range] = []  # the claims to the bytes at a bound, the first one in front
    for at, end in zip(bounds, bounds[1:]):
        while waiting and waiting[0][0] == at:
            heappush(open_, waiting.popleft()[1:])
        while open_ and open_[0][1] <= at:
            heappop(open_)
        if open_:
            yield open_[0][0], at, end


Chunk = tuple[int, bytes, int]  # its offset, its kind and its length; its content begins after eight bytes


def of_chunks(found: Iterable[Chunk], kind_of: Callable[[Chunk], tuple[str, str]], behind: Callable[[int], int]) -> Iterator[Part]:
    """Claims to some chunks, of which one function tells the class and the name, and another the bytes behind a content."""
    for chunk in found:
        at, _, length = chunk
        start, end = at + 8, at + 8 + length
        kind, name = kind_of(chunk)
        yield from (Part(STRUCTURE, at, start), Part(kind, start, end, name))
        yield Part(STRUCTURE, end, end + behind(length))


class Joined:
    """Several ranges of a file, joined.

    >>> list(Joined([(10, 13), (20, 29)]).placed(2, 5))
    [(12, 13), (20, 22)]
    """

    def __init__(self, ranges: Sequence[Range]) -> None:
        self.ranges = ranges
        self._begin = [0, *accumulate(end - start for start, end in ranges)]  # where each range begins in all of them
        self.length = self._begin[-1]

    def placed(self, start: int, end: int) -> Iterator[Range]:
        """Where some of these bytes are in the file."""
        place = bisect_right(self._begin, start) - 1
        while start < min(end, self.length):
            first, last = self.ranges[place]
            at = first + start - self._begin[place]
            stop = min(last, at + end - start)
            if at < stop:
                yield at, stop
            place, start = place + 1, self._begin[place + 1]


def word(data: bytes) -> str:
    """What a part is called in the file, for people.

    >>> word(b"Museum\\x1b[1m\\0abc"), word(b"\\0")
    ('Museum[1m', '')
    """
    return bytes(filter(range(33, 127).__contains__, data.split(b"\0")[0][:12])).decode("ascii")


def digests(stream: Stream, parts: Iterable[Part]) -> dict[str, str]:
    """A digest of the rest of a file by name; an empty one of more than may be read. Raises `TooMuch`."""
    budget = budget_of(stream)
    by_name = grouped((it.name, it) for it in parts if it.kind == REST)
    known = {}
    for name, ours in by_name.items():
        length = sum(it.end - it.start for it in ours)
        digest = hashlib.blake2b(digest_size=16)
        is_known = budget.may_digest(length) and length <= budget.left[BYTES_READ]
        for part in ours if is_known else ():
            digest.update(b"%d:" % (part.end - part.start))
            add_to(digest, stream, part.start, part.end)
        known[name] = digest.hexdigest() if is_known else ""
    return known
