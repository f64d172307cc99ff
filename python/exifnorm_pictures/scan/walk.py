"""The files of a command: all below some folders, or those of a list; and how they are looked at."""

from __future__ import annotations

import contextlib
import io
import os
import re
import stat
import sys
from collections import Counter
from fnmatch import translate

from exifnorm._hints import Callable, Collection, Iterable, Iterator, NamedTuple, Sequence, Union, cast

from ..extract.sidecars import Folder, Folders, Sidecar
from ..files.session import processors
from ..model.budgets import PROGRAM_SECONDS
from ..model.problems import NO_BYTES
from ..model.records import PictureRecord, Stamp
from ..model.errors import WrongUse
from ..model.texts import reason, shown_path

# Files and folders that a run passes over, by patterns of their names.


class Excluded:
    """Patterns, and whether each has fitted something.

    >>> excluded = Excluded(["*.tmp", "raw/*"])
    >>> [excluded.fits(path) for path in (b"a/b.tmp", b"raw/a.dng", b"x/raw/a.dng", b"raw")]
    [True, True, False, False]
    """

    def __init__(self, patterns: Sequence[str] = ()) -> None:
        texts = [it.strip("/") if it.strip("/") else it for it in dict.fromkeys(patterns)]
        # as bytes: a name need not be UTF-8
        self._patterns = [(it, re.compile(os.fsencode(translate(it)))) for it in texts]
        self._used = [False] * len(texts)
        self.count = 0  # of files and folders that were passed over
        self.known = 0  # of excluded pictures that are in the catalogue from an earlier run

    def __bool__(self) -> bool:
        return bool(self._patterns)

    def fits(self, path: bytes) -> bool:
        """Whether a pattern fits a path below the folder, or the last name of it. `*` fits any characters, also `/`."""
        name = os.path.basename(path)
        fitting = [at for at, (_, pattern) in enumerate(self._patterns) if pattern.match(path) or pattern.match(name)]
        for at in fitting:
            self._used[at] = True
        return bool(fitting)

    def passes_over(self, path: bytes) -> bool:
        """Whether a file or a folder is passed over; counts it."""
        is_excluded = self.fits(path)
        self.count += is_excluded
        return is_excluded

    def has_below(self, path: bytes) -> bool:
        """Whether a path, or a folder above it, is passed over."""
        parts = path.split(b"/")
        return any(self.fits(b"/".join(parts[:end])) for end in range(1, len(parts) + 1))

    def unused(self) -> list[str]:
        """The patterns that have fitted nothing."""
        return [text for (text, _), used in zip(self._patterns, self._used) if not used]


class FoundFile(NamedTuple):
    """A file, the folder below which it was found (or its own folder, if it was named by itself), and its marks."""

    path: bytes
    root: bytes
    stamp: Stamp | None  # None if the file system has none
    sidecars: tuple[Sidecar, ...] = ()  # if they are asked for
    problem: str | None = None  # that it had when it was looked at before


class Unlisted(NamedTuple):
    """A folder whose files can't be listed, or a name that leads nowhere, and why."""

    path: bytes
    reason: str


class BadList(WrongUse):
    """A list of names that can't be used."""


OnUnlisted = Callable[[Unlisted], None]


def below(
    names: Iterable[bytes],
    unlisted: OnUnlisted,
    leave_out: Collection[bytes] = (),
    on_sidecar: Callable[[bytes], object] | None = None,
    excluded: Excluded | None = None,
    part: Part | None = None,
) -> Iterator[FoundFile]:
    """Each file of the arguments, and all files below each folder, in the order of their names. Only the names of one folder are held.

    Paths are absolute. Links to folders aren't followed. Hidden files and folders are included; the files and folders of `leave_out` are not, and
    neither is what is excluded, with all below it.
    A folder that can't be read, and a name without a file, are passed to `unlisted`, and the other files are still returned.
    With `on_sidecar` the XMP files that belong to pictures are passed to it, and are with their pictures; a name that is given is always returned.
    With `part` only those of a part of a folder.
    """
    folders = Folders()
    excluded = excluded or Excluded()
    for name in names:
        top = os.path.abspath(name)
        try:
            now = os.stat(top)
        except OSError as error:
            if isinstance(error, FileNotFoundError) and os.path.lexists(top):
                yield FoundFile(top, os.path.dirname(top), None)  # a link to nothing
            else:
                unlisted(Unlisted(top, reason(error)))
            continue
        if stat.S_ISDIR(now.st_mode):
            yield from _below(top, unlisted, leave_out, on_sidecar, excluded, part)
        elif top not in leave_out and not excluded.passes_over(os.path.basename(top)):
            yield FoundFile(top, os.path.dirname(top), Stamp.of(now), () if on_sidecar is None else folders.of(top))


class Part(NamedTuple):
    """A part of what is below a folder: a folder directly in it with all below that, or the other files of the folder itself."""

    top: bytes
    folder: bytes  # `top` itself: its own files

    @property
    def is_flat(self) -> bool:
        """Whether folders below are other parts."""
        return self.folder == self.top


def parts_of(top: bytes, excluded: Excluded) -> tuple[list[Part], bool]:
    """The folders of a folder as parts, and whether it has files of its own. Raises `OSError`."""
    folders, files = _listed(top, len(top.rstrip(b"/")) + 1, excluded)
    return [Part(top, os.path.join(top, name)) for name in folders], bool(files)


def _below(
    top: bytes,
    unlisted: OnUnlisted,
    leave_out: Collection[bytes],
    on_sidecar: Callable[[bytes], object] | None,
    excluded: Excluded,
    part: Part | None = None,
) -> Iterator[FoundFile]:
    waiting = [part.folder if part else top]
    head = len(top.rstrip(b"/")) + 1  # bytes of a path before what is below the folder
    while waiting:
        folder = waiting.pop()
        try:
            folders, files = _listed(folder, head, excluded)
        except OSError as error:
            unlisted(Unlisted(folder, reason(error)))
            continue
        inside = os.path.join(folder, b"")
        folders, files = ([it for it in some if inside + it not in leave_out] for some in (folders, files))
        if not (part and part.is_flat):
            waiting += [inside + it for it in reversed(folders)]
        known = Folder([] if on_sidecar is None else files)
        for name in files:
            path = inside + name
            if on_sidecar is not None and name in known.files:
                on_sidecar(path)
            else:
                yield FoundFile(path, top, Stamp.at(path), known.of(name))


def _listed(folder: bytes, head: int, excluded: Excluded) -> tuple[list[bytes], list[bytes]]:
    """The names of the folders and of the files of a folder, without what is excluded; a link to a folder is neither."""
    folders = []
    files = []
    excludes = bool(excluded)
    with os.scandir(folder) as entries:
        for entry in entries:
            if excludes and excluded.passes_over(entry.path[head:]):
                continue
            if entry.is_dir(follow_symlinks=False):
                folders.append(entry.name)
            elif entry.name not in _OF_SYSTEMS and not _leads_to_folder(entry):
                files.append(entry.name)
    halves = {b"._" + it for it in files}  # macOS keeps what another system's disk has no room for in such a file
    return sorted(folders), sorted(it for it in files if it not in halves)


_OF_SYSTEMS = frozenset((b".DS_Store", b"Thumbs.db", b"desktop.ini"))  # files of macOS and Windows about a folder


def _leads_to_folder(entry: "os.DirEntry[bytes]") -> bool:
    try:
        return entry.is_dir()
    except OSError:  # a link that leads to itself
        return False


def can_overlap(names: Sequence[bytes]) -> bool:
    """Whether a file can be found by two of some names: one of them is named twice, or is below another.

    >>> can_overlap([b"/a", b"/ab", b"/b/c"]), can_overlap([b"/a", b"/b", b"/a/c"]), can_overlap([b"a", b"./a/"])
    (False, True, True)
    """
    return len(list(outermost(names))) < len(names)


def outermost(names: Iterable[bytes]) -> Iterator[bytes]:
    """The absolute paths of those names that are not below another.

    >>> list(outermost([b"/a/b", b"/ab", b"/a/", b"/a"]))
    [b'/a', b'/ab']
    """
    outer = None
    for top in sorted(os.path.abspath(it).rstrip(b"/") + b"/" for it in names):
        if outer is None or not top.startswith(outer):
            outer = top
            yield top.rstrip(b"/") or b"/"


LONGEST_LIST = 1 << 28  # bytes of a list that is a file, or a device that has no end ..
MOST_NAMES = 5_000_000  # .. and its names: each takes more memory than it has bytes
_CHUNK = 1 << 16


def names_in_list(name: str, by_nul: bool, before_read: Callable[[], object] = bool) -> Iterator[bytes]:
    """The names in a list: one for each line, or each ended by a NUL. Raises `BadList`.

    They come one by one, each before more is read, so that a program can write a name to standard input, `-`, and wait for the answer.
    `before_read` is called each time that more is read.
    """
    end, begun = b"\0" if by_nul else b"\n", bytearray()
    for piece in _pieces(name, end, before_read):
        if not by_nul and b"\0" in piece:
            raise BadList(f"the list {name} contains a NUL: if its names end with NUL, give -0")
        *ended, last = piece.split(end)
        if ended:
            yield from filter(None, (bytes(begun) + ended[0], *ended[1:]))
            begun.clear()
        begun += last
    if begun:
        yield bytes(begun)


def _pieces(name: str, end: bytes, before_read: Callable[[], object]) -> Iterator[bytes]:
    """What is there of a list, or what comes next. One that isn't standard input is refused beyond a limit, a file before it is read."""
    if name == "-" and sys.stdin is None:
        raise BadList("standard input is closed")
    read = names = 0
    with contextlib.ExitStack() as opened:
        file = None if name == "-" else opened.enter_context(open(name, "rb"))
        before_read()
        while piece := (file or cast(io.BufferedIOBase, sys.stdin.buffer)).read1(_CHUNK):
            read, names = read + len(piece), names + piece.count(end)
            if file and (max(read, os.fstat(file.fileno()).st_size) > LONGEST_LIST or names > MOST_NAMES):
                most = f"{LONGEST_LIST >> 20} MB or {MOST_NAMES:,} names"
                raise BadList(f"{shown_path(name)} has more than {most}: a longer list is read from standard input, by -")
            yield piece
            before_read()


# How they are looked at, and the results for some of them as rows of a file: the process that looked at them makes it, and the catalogue
# takes the rows over without any object for them. So several processes are hardly slowed by the one that writes.

LONGEST_WAIT = 2.0  # seconds until results are committed, if pictures are slow

Lines = Callable[[PictureRecord], list[str]]  # the lines that are printed about a picture


class How(NamedTuple):
    """How pictures are looked at."""

    jobs: int = 0  # processes; 0 for as many as there are processors
    maker_notes: bool = False  # ask ExifTool for their values
    whole: bool = False  # every byte of a JPEG, not only its head and tail
    pixels: bool = False  # also a digest of the coded picture
    sidecars: bool = False  # XMP files beside pictures are blocks of them
    seconds: float = PROGRAM_SECONDS  # that a program may take for one file
    room: str = ""  # a folder for temporary files
    debug: bool = False  # print tracebacks
    lines: Lines | None = None  # makes the lines that are printed about a picture
    programs: bool = True  # whether other programs may be started

    @property
    def processes(self) -> int:
        """The number of processes."""
        return self.jobs or processors()


class Batch(NamedTuple):
    """Some pictures that were looked at."""

    file: str  # with their rows
    states: "Counter[str]"  # how many have each state
    lines: list[str]
    unread: list[PictureRecord]  # which have no row: if they were known before, their earlier results stay
    left: Sequence[FoundFile]  # the pictures after them, which were not looked at yet


Result = Union[PictureRecord, Batch]


def batch(file: str, entries: Sequence[PictureRecord], left: Sequence[FoundFile], lines: Lines | None) -> Batch:
    """Writes the rows of some pictures to a new file."""
    import sqlite3  # which takes long to import, and not all that has a `How` makes rows

    from ..catalogue.store import make_rows, put_rows

    unread = [it for it in entries if it.problem in NO_BYTES]
    with contextlib.closing(sqlite3.connect(file, isolation_level=None)) as base:
        make_rows(base)
        base.execute("BEGIN")
        put_rows(base, 0, 1, [it for it in entries if it.problem not in NO_BYTES])
        base.execute("COMMIT")
    printed = [line for it in entries for line in lines(it)] if lines else []
    return Batch(file, Counter(it.state for it in entries), printed, unread, left)
