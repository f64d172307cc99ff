"""Catalogues of one archive that are asked together, its shards: a folder of them, in which a file names each.

Up to ten are read where they are: SQLite attaches them to one connection, on which the name of each table is a view of the tables of all. Where
they have numbers of pictures in common, or are more than SQLite attaches, they are merged to a temporary file first.
"""

from __future__ import annotations

import contextlib
import fcntl
import io
import itertools
import os
import tempfile
from typing import Callable, Container, Iterator, Sequence

from exifnorm._named import NamedTuple

from ..files import atomic
from ..model.errors import Failure, WrongUse
from ..model.texts import in_words, shown_path
from .store import (
    Catalogue,
    LIST,
    LIST_HEAD,
    NoCatalogue,
    address,
    check_schema,
    connect,
    head_is_ours,
    head_of,
    identity,
    list_of,
    roll_back,
    unlike,
)


_RUNS = "INSERT INTO main.runs SELECT id + ?, started, ended, exifnorm, sidecars, whole FROM other.runs"


# Looks at a catalogue that is attached, before its pictures are added: the one that is written, the name under which it is attached, the names
# of those that were added before it, and its name
Before = Callable[[Catalogue, str, Sequence[str], str], None]


def merge(name: str, others: Sequence[str], before: Before | None = None) -> int:
    """Adds the pictures of other catalogues to the one of this name, which is made if it is missing. Returns their number afterwards. The
    last catalogue with a picture replaces the others.

    Each catalogue is one transaction: a merge that is stopped leaves whole catalogues in it.
    """
    _check(name, others)  # before it is made: a mistyped name would leave a catalogue of no pictures
    atomic.make(name, others)
    with Catalogue(name, make=True) as all_:
        for number, source in enumerate(others):
            _add(all_, source, others[:number], before)
        return all_.number_of("SELECT count(*) FROM pictures")


def _check(name: str, others: Sequence[str]) -> None:
    """Raises `NoCatalogue` unless all are catalogues, not damaged at first sight, and with sidecars or all without."""
    with contextlib.ExitStack() as open_:
        first = None
        if os.path.exists(name) and os.path.getsize(name):
            roll_back(name)
            all_ = open_.enter_context(Catalogue(name))
            first = None if all_.is_empty() else all_
        for source in others:
            if os.path.exists(source) and os.path.exists(name) and os.path.samefile(source, name):
                raise NoCatalogue(f"{source} is the catalogue to write, and can't be merged into itself")
            with Catalogue(source) as other:
                if first and other.has_sidecars() != first.has_sidecars():
                    raise unlike(first, other)
            first = first or open_.enter_context(Catalogue(source))


def _add(all_: Catalogue, name: str, earlier: Sequence[str], before: Before | None) -> None:
    with all_.attached(name, "other") as other, all_.transaction():
        check_schema(all_.base, name, other)
        if before:
            before(all_, other, earlier, name)
        runs = all_.greatest("runs")
        all_.base.execute(_RUNS, (runs,))
        all_.add_rows(other, runs)


MOST = 10  # that SQLite attaches
_NAMED = 3  # of those that an answer is without
LOCK = ".lock"  # a file of a folder, for the time in which its list changes
_TABLES = "runs pictures blocks not_read maker_notes".split()


class Twice(WrongUse):
    """Two catalogues have the same picture, so nobody knows which of them is right."""


class Shards(NamedTuple):
    """The catalogues of a folder."""

    folder: str
    there: list[str]  # those that are listed, in the order of the list, each once
    notes: list[str]  # what makes that an answer isn't about the whole archive


def _notes(names: Iterator[str], what: str, others: str) -> Iterator[str]:
    """What is said of catalogues that an answer is without. They may be a million, of which no more are in memory than are named."""
    for name in itertools.islice(names, _NAMED):
        yield f"the answer is without the catalogue {shown_path(os.fsencode(name))}, {what}"
    if more := sum(1 for _ in names):
        yield f"the answer is without {in_words(more, 'more catalogue')}, {others}"


def is_folder(name: str) -> bool:
    """Whether a name is that of a folder of catalogues: its file says so."""
    return os.path.isdir(name) and list_of(name) is not None


def is_of_folder(name: str) -> bool:
    """Whether a name is that of a folder of catalogues, or of a catalogue that such a folder lists."""
    folder, file = os.path.split(name)
    return is_folder(name) or (is_folder(folder or ".") and file in listed(folder or "."))


def shards_of(folder: str) -> Shards:
    """The catalogues of a folder. Raises `NoCatalogue` if none is there."""
    there = {identity(path): path for path in (os.path.join(folder, it) for it in listed(folder)) if is_made(path)}
    if not there:
        raise NoCatalogue(f"{folder}: none of its {in_words(sum(1 for _ in listed(folder)), 'catalogue')} is there")
    missing = (it for it in (os.path.join(folder, name) for name in listed(folder)) if identity(it) not in there)
    return Shards(
        folder,
        list(there.values()),
        [
            *_notes(missing, "which isn't there", "not there either"),
            *_notes(_unlisted(folder, there), "which its list doesn't name", "not in its list either"),
        ],
    )


def is_made(name: str) -> bool:
    """Whether a catalogue is there. One that another run begins just now, or in which a run was killed at once, is empty."""
    return os.path.exists(name) and os.path.getsize(name) > 0


def listed(folder: str) -> Iterator[str]:
    """The names of the catalogues of a folder, relative to it. They may be millions, of which each takes more memory than its bytes."""
    return (os.fsdecode(line.rstrip(b"\n")) for line in io.BytesIO(list_of(folder) or b"") if line != b"\n")


@contextlib.contextmanager
def listing(folder: str) -> Iterator[None]:
    """While no other run changes the list of a folder: of two that begin at once, one would list its own catalogues alone."""
    lock = os.open(os.path.join(folder, LOCK), os.O_RDWR | os.O_CREAT | os.O_NOFOLLOW, 0o666)
    try:
        _lock(folder, lock)
        yield
    finally:
        os.close(lock)


def _lock(folder: str, lock: int) -> None:
    """Waits for the lock of a folder's list. Raises `Failure` where a file system has none."""
    try:
        fcntl.lockf(lock, fcntl.LOCK_EX)  # which network shares have, too, as they have no flock of a folder
    except OSError as error:
        shown = shown_path(os.fsencode(folder))
        why = "without which two runs could write one list: give --shards a folder on another file system"
        raise Failure(f"{shown}: its file system has no POSIX locks ({error.strerror}), {why}") from error


def elsewhere(folder: str) -> Iterator[str]:
    """The names in a folder of catalogues that lead out of it, of which each may be a stranger's word: no command writes to what they name."""
    return (it for it in itertools.chain([LIST], listed(folder)) if os.path.basename(it) != it or os.path.islink(os.path.join(folder, it)))


def put_list(folder: str, names: Sequence[str]) -> None:
    """Names the catalogues of a folder, of which an earlier list is replaced as a whole."""
    octets = LIST_HEAD + b"".join(os.fsencode(name) + b"\n" for name in names)
    atomic.replace(os.fsencode(os.path.join(folder, LIST)), lambda file: file.write(octets), lambda head: head.startswith(LIST_HEAD))


def _unlisted(folder: str, known: Container[tuple[int, int] | None]) -> Iterator[str]:
    """The catalogues in a folder that its list doesn't name."""
    with os.scandir(folder) as entries:
        for entry in sorted(entries, key=lambda entry: entry.name):
            if entry.is_file() and identity(entry.path) not in known and head_is_ours(head_of(entry.path)[0]):
                yield entry.path


# How they are read


def opened(shards: Shards, room: str, in_one_file: bool = False) -> Catalogue:
    """The catalogues as one. Those that can't be attached are merged in a folder for temporary files, and all with `in_one_file`. Raises
    `NoCatalogue`, and `Twice` if two have the same picture."""
    about = list(map(_about, shards.there))
    _refuse_unlike(about)
    if not in_one_file and len(about) <= MOST and _are_apart([one.numbers for one in about]) and _are_apart([one.runs for one in about]):
        return Together(shards.folder, about)
    return _merged(shards, room)


class About(NamedTuple):
    """What has to be known of a catalogue before it is read with others."""

    name: str
    numbers: tuple[int, int]  # the least and the greatest of its pictures
    runs: tuple[int, int]
    paths: tuple[bytes, bytes]  # the first one and the last one
    sidecars: bool | None  # None if it has no picture


def _about(name: str) -> About:
    with Catalogue(name) as catalogue:
        numbers, runs = (next(catalogue.rows(_ENDS.format(table))) for table in ("pictures", "runs"))
        ends = [next(catalogue.rows(f"SELECT path FROM pictures ORDER BY path {way} LIMIT 1"), (b"",))[0] for way in ("ASC", "DESC")]
        return About(name, numbers, runs, (ends[0], ends[1]), None if catalogue.is_empty() else catalogue.has_sidecars())


_ENDS = "SELECT ifnull((SELECT min(id) FROM {0}), 0), ifnull((SELECT max(id) FROM {0}), 0)"


def _refuse_unlike(about: Sequence[About]) -> None:
    """Raises `NoCatalogue` if some catalogues have XMP sidecars and others don't."""
    known = {one.sidecars: one for one in about if one.sidecars is not None}
    if len(known) > 1:
        with Catalogue(known[True].name) as catalogue, Catalogue(known[False].name) as other:
            raise unlike(catalogue, other)


def _are_apart(ranges: Sequence[tuple[int, int]]) -> bool:
    """Whether each range begins after the one before it.

    >>> _are_apart([(1, 3), (0, 0), (4, 4)]), _are_apart([(1, 3), (3, 5)])
    (True, False)
    """
    filled = [ends for ends in ranges if ends != (0, 0)]
    return all(before[1] < after[0] for before, after in zip(filled, filled[1:]))


class Together(Catalogue):
    """Several catalogues that are open to be read, each attached to one connection. A view of each table has the rows of all."""

    def __init__(self, folder: str, about: Sequence[About]) -> None:
        self.name = self.file = folder
        self.files = [it.name for it in about]
        self._is_written = self._was_cut = False
        self._schemas = [f"shard{number}" for number in range(len(about))]
        self.texts = tuple(f"{schema}.texts" for schema in self._schemas)
        with self.guarded():
            self.base = connect("")
        try:
            self._attach(about)
            self._refuse_twice(about)
        except BaseException:
            self.base.close()
            raise

    def _attach(self, about: Sequence[About]) -> None:
        with self.guarded():
            for shard, schema in zip(about, self._schemas):
                self.base.execute(f"ATTACH ? AS {schema}", (address(shard.name),))
                check_schema(self.base, shard.name, schema)
            for table in _TABLES:
                rows = " UNION ALL ".join(f"SELECT * FROM {schema}.{table}" for schema in self._schemas)
                self.base.execute(f"CREATE TEMP VIEW {table} AS {rows}")

    def _refuse_twice(self, about: Sequence[About]) -> None:
        """Raises `Twice`. Where the paths of one catalogue lie behind those of the other, none is read."""
        for (shard, schema), (other, its) in itertools.combinations(zip(about, self._schemas), 2):
            if shard.paths[0] <= other.paths[1] and other.paths[0] <= shard.paths[1]:
                if shard.numbers[1] - shard.numbers[0] > other.numbers[1] - other.numbers[0]:
                    shard, schema, other, its = other, its, shard, schema  # the smaller one is read, and the other looked up
                query = f"SELECT path FROM {schema}.pictures AS mine CROSS JOIN {its}.pictures AS other USING (path) LIMIT 1"
                for (path,) in self.rows(query):
                    raise twice(path, shard.name, other.name)

    def without_texts(self) -> str:
        """A query for the numbers of the pictures whose texts aren't kept."""
        kept = [self.number_of(f"SELECT ifnull(max(picture), 0) FROM {schema}.prepared") for schema in self._schemas]
        return " UNION ALL ".join(f"SELECT id FROM {schema}.pictures WHERE id > {number}" for schema, number in zip(self._schemas, kept))


def twice(path: bytes, name: str, other: str) -> Twice:
    """The error for a picture in two catalogues."""
    return Twice(f"{shown_path(path)} is in {shown_path(os.fsencode(name))} and in {shown_path(os.fsencode(other))}: which is right?")


def _merged(shards: Shards, room: str) -> Catalogue:
    """A temporary catalogue with the rows of all. Only its name is that of their folder."""
    file = os.path.join(tempfile.mkdtemp(dir=room), "catalogue")
    merge(file, shards.there, _refuse_known)
    catalogue = Catalogue(file)
    catalogue.name = shards.folder
    return catalogue


def _refuse_known(all_: Catalogue, other: str, earlier: Sequence[str], name: str) -> None:
    """Raises `Twice` if an attached catalogue has a picture of those that are merged already."""
    for (path,) in all_.rows(f"SELECT path FROM {other}.pictures WHERE path IN (SELECT path FROM main.pictures) LIMIT 1"):
        raise twice(path, next(it for it in earlier if _has(it, path)), name)


def _has(name: str, path: bytes) -> bool:
    with Catalogue(name) as catalogue:
        return catalogue.has(path)
