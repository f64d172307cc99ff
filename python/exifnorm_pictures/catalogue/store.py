"""The catalogue: a SQLite file with the results for each picture.

A catalogue is written in transactions of many pictures, with a write-ahead log, or on a network share with a journal: committed pictures
stay if the program is killed. Any SQLite tool can read the tables. A file is only written to if its header is a catalogue's.
"""

from __future__ import annotations

import contextlib
import functools
import os
import re
import shlex
import sqlite3
import sys
import stat
import time
from itertools import chain, groupby
from operator import itemgetter
from typing import Any, Callable, Iterable, Iterator, Optional, Sequence, Type, TypeVar, overload

from exifnorm._named import NamedTuple

from ..fields.block_fields import BlockFields, fields_of, with_kept_fields
from ..fields.packing import joined, parted
from ..files import opening as files, signals
from ..model.budgets import ROW_BYTES, ROW_NUMBER, SQL_STEPS
from ..model.found import NAMES, OWN, NotRead
from ..model.records import BlockRecord, PictureRecord, Row, Stamp, Status, has_short, not_read_of_row
from ..model.tables import BLOCKS, PICTURES, block_of_row, picture_of_row
from ..model.errors import Damaged, Failure
from ..model.problems import GONE, NO_BYTES
from ..model.numbers import Numbers

APPLICATION = 0x45584E50  # 'EXNP', which distinguishes a catalogue from other SQLite files
VERSION = 12
CACHE = 32_000  # kB of a catalogue that is written to: digests go into its index in no order
PATIENCE = 200  # milliseconds that closing waits for other programs; while they read, the write-ahead log stays
WAIT = 10  # seconds for other processes that set the journal's mode
SHORT_WAIT = 2  # seconds for other runs, where there is a way without writing

NUMBERS = 1 << 32  # of pictures and of runs, for each of the catalogues that `index --shards` makes

LIST = "catalogues"  # the file that names the catalogues of a folder ..
LIST_HEAD = b"exifnorm-pictures: catalogues of one archive\n"  # .. and begins with this line
_LONGEST_LIST = 64_000_000  # bytes of it

HEAD = 40  # characters of a text that its index has


def texts_table(name: str, reference: str = "") -> str:
    """The statement that makes a table of texts. Those of a label are beside each other, short ones before long ones, so that a question reads
    no others."""
    return f"""CREATE TABLE {name} (
    label TEXT NOT NULL,            -- a label of captions; position, serial, owner, rights end ..; empty: some texts are too many or too long to be kept
    long INTEGER NOT NULL,          -- 1: the head isn't all of the text
    picture INTEGER NOT NULL{reference},
    number INTEGER NOT NULL,        -- the order of the texts of a picture
    text TEXT NOT NULL,             -- a text of the picture; those that cameras write by themselves are left out
    head TEXT NOT NULL,             -- the first {HEAD} characters of the text in small letters, composed, with single spaces
    folded TEXT,                    -- all of a longer text so; NULL: it is lower(text)
    PRIMARY KEY (label, long, picture, number)
) WITHOUT ROWID;"""


def put_text(table: str) -> str:
    """The statement that adds a text to such a table: the picture, the number, the label, the text, its head, and the folded text."""
    return f"INSERT INTO {table} (picture, number, label, text, head, folded, long) VALUES (?1, ?2, ?3, ?4, ?5, ?6, length(?5) = {HEAD})"


# What makes it possible that a picture has further texts: an unread part, or a block that was refused and not read after a repair
NOT_WHOLE = "problem IS NOT NULL OR other_not_read IS NOT '' OR iptc IS NULL OR xmp IS NULL OR (exif IS NULL AND exif_repaired IS NULL)"


_TABLES = f"""
CREATE TABLE runs (
    id INTEGER PRIMARY KEY,
    started TEXT NOT NULL,          -- UTC
    ended TEXT,                     -- missing where the run was stopped
    exifnorm TEXT,                  -- the version of the library that made the digests; it ends with -unproved if that was not proved
    sidecars INTEGER NOT NULL,      -- 1: XMP files beside pictures are blocks of them
    whole INTEGER NOT NULL          -- 1: every byte of a JPEG is read
);
{PICTURES.table("pictures")}
{BLOCKS.table("blocks", " WITHOUT ROWID")}
CREATE TABLE not_read (
    picture INTEGER NOT NULL REFERENCES pictures(id) ON DELETE CASCADE,
    number INTEGER NOT NULL,
    what TEXT NOT NULL,             -- a part of the file that was not read
    digest TEXT NOT NULL,           -- SHA-256 of its bytes; empty: not known
    PRIMARY KEY (picture, number)
) WITHOUT ROWID;
CREATE TABLE maker_notes (
    picture INTEGER PRIMARY KEY REFERENCES pictures(id) ON DELETE CASCADE,
    readings BLOB NOT NULL          -- what ExifTool reads of its MakerNotes: JSON, compressed by zlib
);
{texts_table("texts", " REFERENCES pictures(id) ON DELETE CASCADE")}
CREATE TABLE prepared (
    picture INTEGER NOT NULL        -- the texts of the pictures up to this number are there, and no other picture gets such a number
);
CREATE INDEX short_texts ON texts (label, head, text) WHERE long = 0;
CREATE INDEX texts_by_picture ON texts (picture);
CREATE INDEX pictures_not_whole ON pictures (problem) WHERE {NOT_WHOLE};
CREATE INDEX pictures_by_content ON pictures (exif, iptc, xmp, not_read) WHERE problem IS NULL;
CREATE INDEX pictures_by_coded_picture ON pictures (coded_picture) WHERE coded_picture != '';
CREATE INDEX pictures_by_other_exif ON pictures (other_exif) WHERE other_exif != '';
"""

PICTURE_COLUMNS, _BUT_ID = PICTURES.listed, PICTURES.listed.partition(", ")[2]
BLOCK_COLUMNS = BLOCKS.listed
# Of each None and each bytes that is bound, Python before 3.12 looks for an adapter, and fails to find one by an
# error: that takes as long as all else of binding it. These leave a value as it is, so other programs in this process see no difference.
_NOTHING: Any = {}  # whose method `get` returns None, and is called without a frame of Python
sqlite3.register_adapter(type(None), _NOTHING.get)
sqlite3.register_adapter(bytes, bytes)

_PUT_PICTURE = f"INSERT OR REPLACE INTO pictures ({PICTURE_COLUMNS}, run) VALUES (?{', ?' * PICTURES.width})"
_PUT_BLOCK = f"INSERT INTO blocks (picture, number, {BLOCK_COLUMNS}) VALUES (?, ?{', ?' * BLOCKS.width})"
# Columns that a block has in common with most others, and those that it hasn't. To bind a value takes more than twice as long as one in the
# statement
_COMMON = "extractor status cause place repair repaired note".split()
_OWN = "source digest length octets".split()
_common_of = itemgetter(*map(BLOCKS.names.index, _COMMON))
_own_of = itemgetter(*map(BLOCKS.names.index, _OWN))
_USUAL = (OWN, Status.ACCEPTED, *[None] * 5)
_ADD_ROWS = (
    "DELETE FROM main.pictures WHERE path IN (SELECT path FROM {other}.pictures)",
    f"INSERT INTO main.pictures ({PICTURE_COLUMNS}, run) SELECT id + :pictures, {_BUT_ID}, run + :runs FROM {{other}}.pictures",
    f"INSERT INTO main.blocks (picture, number, {BLOCK_COLUMNS}) SELECT picture + :pictures, number, {BLOCK_COLUMNS} FROM {{other}}.blocks",
    "INSERT INTO main.not_read SELECT picture + :pictures, number, what, digest FROM {other}.not_read",
    "INSERT INTO main.maker_notes SELECT picture + :pictures, readings FROM {other}.maker_notes",
)
# SQLite keeps the numbers of the rows that a statement deletes in memory, 24 bytes each, so that not all go by one
_FORGET = "DELETE FROM pictures WHERE id IN (SELECT id FROM pictures WHERE path = ? OR (path > ? AND path < ?) LIMIT ?)"
_FORGOTTEN = 10_000  # pictures of a statement
_REFUSED = """SELECT path FROM pictures WHERE path > ? AND problem IS NULL AND (exif IS NULL OR iptc IS NULL OR xmp IS NULL)
    ORDER BY path LIMIT ?"""
_AT_ONCE = 1000  # paths that are read together
_BEGIN_RUN = "INSERT INTO runs (id, started, sidecars, whole) SELECT max(ifnull(max(id), 0), ?) + 1, ?, ?, ? FROM runs"
# What is equal of a picture that is read again and is as it was: nobody has written to its file or its sidecars
_SAME = "size modified changed inode sidecars problem exif_octets iptc_octets xmp_octets file".split()
# The same tables without keys, for rows that are only written and read once
_ROWS = (
    f"CREATE TABLE pictures ({PICTURE_COLUMNS}, run)",
    f"CREATE TABLE blocks (picture, number, {BLOCK_COLUMNS})",
    "CREATE TABLE not_read (picture, number, what, digest)",
    "CREATE TABLE maker_notes (picture, readings)",
)

# when it began and ended, and the library's version
Run = tuple[str, Optional[str], Optional[str]]
Made = TypeVar("Made")


class NoCatalogue(Failure):
    """The file is missing, is no catalogue of this version, or is damaged."""


class Known(NamedTuple):
    """The known facts about a picture before it is looked at."""

    id: int
    stamp: Stamp | None
    problem: str | None
    coded_picture: str | None = None
    sidecars: str = ""


def head_is_ours(head: bytes) -> bool:
    """Whether the first 100 bytes are those of a catalogue, of any version."""
    return head[:16] == b"SQLite format 3\0" and int.from_bytes(head[68:72], "big") == APPLICATION


BESIDE = ("-wal", "-shm", "-journal")  # how files end that SQLite keeps beside another
_OPEN = b"\2\2"  # of one that has a log
_CLOSED = b"\1\1"  # at offset 18 of a SQLite file that has no log: a catalogue is closed like this, and a log is removed before


def _mark(name: str) -> tuple[int, int] | None:
    """What identifies a file that isn't empty, and its last change."""
    now = Stamp.at(os.fsencode(name))
    return (now.inode, now.changed) if now and now.size else None


def identity(name: str) -> tuple[int, int] | None:
    """What identifies the file of a name; None if there is none."""
    now = Stamp.at(os.fsencode(name))
    return now and (now.device, now.inode)


def _size_of(name: str) -> int:
    """The bytes of a file; 0 if there is none, and of a folder, which has sizes of its own."""
    return os.path.getsize(name) if os.path.isfile(name) else 0


def head_of(name: str) -> tuple[bytes, int]:
    """The first 100 bytes of a file, and its length. Raises `OSError` with its name."""
    try:
        with files.reading(name) as file:
            return file.read(100), os.fstat(file.fileno()).st_size
    except OSError as error:
        error.filename = name  # a read that fails has none, and would be taken for one of standard output
        raise


def _check_head(name: str, make: bool) -> None:
    """Raises `NoCatalogue` if the header isn't a catalogue's. It reads only the header and writes nothing, not even a journal."""
    if not name:
        raise NoCatalogue("the catalogue's name is empty")
    try:
        kind = os.stat(name).st_mode
    except FileNotFoundError:
        if make:
            return
        raise NoCatalogue(f"there is no catalogue {name}{of_day(name)}") from None
    if stat.S_ISDIR(kind):
        raise _of_folder(name)
    if not stat.S_ISREG(kind):
        raise NoCatalogue(f"{name} is no catalogue: it is no regular file")
    log = _mark(f"{name}-wal")
    head, _ = head_of(name)
    if not head and make:
        return
    if not head_is_ours(head):
        raise NoCatalogue(f"{name} is no catalogue")
    if log and head[18:20] == _CLOSED and log == _mark(f"{name}-wal"):
        raise NoCatalogue(
            f"{name} is a whole catalogue, but beside it is the log {name}-wal of another state, as after a backup was restored over a"
            f" catalogue that a run had open. Remove {name}-wal and {name}-shm, unless you want that other state"
        )
    _check_version(name, int.from_bytes(head[60:64], "big"))


def _of_folder(name: str) -> NoCatalogue:
    """What is said of a folder in place of a catalogue."""
    folder = shlex.quote(name)
    if list_of(name) is None:
        return NoCatalogue(f"{name} is a folder and not a catalogue. To make one: exifnorm-pictures index {folder} --catalogue NEW")
    return NoCatalogue(
        f"{name} is a folder of catalogues, and this command takes one catalogue, such as all of them merged:"
        f" exifnorm-pictures catalogue merge {folder} --catalogue NEW"
    )


def _check_version(name: str, version: int) -> None:
    """Raises `NoCatalogue` for a catalogue of another release."""
    if version < VERSION:
        option = "--catalogue" if list_of(os.path.dirname(name) or ".") is None else "--shards"
        raise NoCatalogue(
            f"{name} is a catalogue of an earlier release (version {version}, here {VERSION}), which lacks what is compared now."
            f" Make a new one: exifnorm-pictures index FOLDER {option} NEW"
        )
    if version > VERSION:
        raise NoCatalogue(f"{name} is a catalogue of a later release (version {version}, here {VERSION})")


_NAMES_OTHERS = bytes.fromhex("d9d505f920a163d7")  # the end of a journal that names a file, which SQLite removes after a rollback


def _check_writable(name: str) -> None:
    """Raises `NoCatalogue` if a catalogue can't be written to, or the journal beside it names a further file. None of a catalogue does: no
    transaction is of two files."""
    if os.path.exists(name) and not _is_writable(name):
        raise NoCatalogue(f"{name} isn't written to: it is read-only, or its folder is")
    journal = f"{os.path.realpath(name)}-journal"
    try:
        with files.reading(journal) as file:
            file.seek(-len(_NAMES_OTHERS), os.SEEK_END)
            end = file.read()
    except OSError:  # as if there is none, also of one that is shorter; SQLite says what is wrong with it
        return
    if end == _NAMES_OTHERS:
        raise NoCatalogue(f"{name} isn't written to: the journal beside it, {journal}, names another file, and none of a catalogue does")


def _is_writable(name: str) -> bool:
    """Whether SQLite can write to a catalogue, beside which it makes a log or a journal, and removes it."""
    return all(os.access(it, os.W_OK) for it in (name, os.path.dirname(os.path.realpath(name))))


def is_left_open(name: str) -> bool:
    """Whether a catalogue is as a run leaves it that was killed."""
    return os.path.exists(f"{os.path.realpath(name)}-journal") or os.path.isfile(name) and head_of(name)[0][18:20] == _OPEN


def roll_back(name: str, adds: bool = False) -> None:
    """Lets one that writes roll back what a killed run has left of a catalogue, if it can't be read; `adds` as of `Catalogue`. Raises
    `NoCatalogue`."""
    if not os.path.exists(f"{os.path.realpath(name)}-journal"):
        return
    try:
        with Catalogue(name):
            return
    except NoCatalogue:
        if not _is_writable(name):
            raise
    Catalogue(name, there=not adds, adds=adds).close()


class Earlier(NamedTuple):
    """What is known of a catalogue of an earlier release, which can't be compared."""

    version: int
    pictures: int | None = None  # None: its tables are others
    pixels: bool = False  # whether it was made with --pixels
    sidecars: bool = False


def earlier_release(name: str) -> Earlier | None:
    """What is known of a catalogue of an earlier release; None of any other file, and of none. Raises `OSError`."""
    if not os.path.isfile(name):
        return None
    head, _ = head_of(name)
    version = int.from_bytes(head[60:64], "big")
    if not head_is_ours(head) or version >= VERSION:
        return None
    with contextlib.suppress(sqlite3.Error), contextlib.closing(connect(address(name))) as base:
        kinds = base.execute("SELECT count(*) FROM sqlite_master WHERE name IN ('pictures', 'runs') AND sql LIKE 'CREATE TABLE%'")
        if kinds.fetchone()[0] == 2:
            values = [base.execute(query).fetchone()[0] for query in _OF_EARLIER]
            return Earlier(version, int(values[0]), *map(bool, values[1:]))
    return Earlier(version)


_OF_EARLIER = (
    "SELECT count(*) FROM pictures WHERE problem IS NOT 'NoPicture'",
    "SELECT EXISTS (SELECT 1 FROM pictures WHERE coded_picture != '')",
    "SELECT EXISTS (SELECT 1 FROM runs WHERE sidecars)",
)


def list_of(folder: str) -> bytes | None:
    """What follows the first line of the list of a folder of catalogues; None if the folder has no such list. Raises `OSError`, and
    `NoCatalogue` if the list is too long."""
    name = os.path.join(folder, LIST)
    if not os.path.isfile(name):  # a folder of pictures may have a folder of that name
        return None
    with files.reading(name) as file:
        octets = file.read(min(os.fstat(file.fileno()).st_size, _LONGEST_LIST + 1))  # which takes no more memory than there are bytes
    if not octets.startswith(LIST_HEAD):
        return None
    if len(octets) > _LONGEST_LIST:
        raise NoCatalogue(f"{name}, which lists the catalogues of its folder, has more than {_LONGEST_LIST:,} bytes")
    return octets.removeprefix(LIST_HEAD)


def of_day(name: str) -> str:
    """What to do if somebody gives a day in place of a catalogue.

    >>> of_day("x.catalogue"), len(of_day("2026-11-20")) > 100
    ('', True)
    """
    if not re.fullmatch(r"\d{4}-\d\d-\d\d", name):
        return ""
    return (
        f". For a day: exifnorm-pictures list CATALOGUE --since {name}, which lists the pictures that are new or changed since;"
        " what changed in them is known only by an older catalogue, such as index --keep-old and nightly keep"
    )


_PLAIN = b"/-._~0123456789ABCDEFGHIJKLMNOPQRSTUVWXYZabcdefghijklmnopqrstuvwxyz"  # bytes of a path that stay as they are in a URI


def address(name: str, mode: str = "ro") -> str:
    """The file as a URI, which SQLite can't take for anything else.

    >>> address("/a b?c/\u20ac")
    'file:/a%20b%3Fc/%E2%82%AC?mode=ro'
    """
    octets = os.fsencode(os.path.abspath(name))
    return f"file:{''.join(chr(it) if it in _PLAIN else f'%{it:02X}' for it in octets)}?mode={mode}"


def added(base: sqlite3.Connection, insert: str, rows: Iterable[Row]) -> int:
    """How many rows a statement adds. A cursor doesn't count those of INSERT where the locale is Turkish: Python compares the
    word by the small letters of the locale, in which that of I is another one."""
    known = base.total_changes
    base.executemany(insert, rows)
    return base.total_changes - known


def connect(name: str, uri: bool = True) -> sqlite3.Connection:
    """A connection on which a foreign file can neither run anything nor keep SQLite from ending."""
    base = sqlite3.connect(name, timeout=60, isolation_level=None, uri=uri)
    if sys.version_info >= (3, 11):
        base.setlimit(sqlite3.SQLITE_LIMIT_LENGTH, ROW_BYTES)
    # which lets Python heed a signal. What its handler raises ends the query, and is raised again by `signals.go_on_stopping`
    base.set_progress_handler(lambda: 0, SQL_STEPS)
    for pragma in ("trusted_schema = OFF", "cell_size_check = ON", "foreign_keys = ON"):
        base.execute(f"PRAGMA {pragma}")
    return base


Part = tuple[str, str, str]  # of a schema: its kind, its name, and how it was made


@functools.lru_cache(maxsize=None)
def _own_parts() -> "frozenset[Part]":
    """The schema of a catalogue."""
    with contextlib.closing(sqlite3.connect(":memory:")) as base:
        base.executescript(_TABLES)
        return frozenset(map(_part, base.execute("SELECT type, name, sql FROM sqlite_master")))


def _part(row: Row) -> Part:
    """A part of a schema without comments and spaces."""
    kind, name, sql = map(str, row)
    return kind, name, re.sub(r"\s+", "", re.sub(r"--[^\n]*", "", sql))


_STATISTICS = ("table", "sqlite_stat1", "CREATETABLEsqlite_stat1(tbl,idx,stat)")  # of ANALYZE, which changes no answer


def check_schema(base: sqlite3.Connection, name: str, schema: str = "main") -> None:
    """Raises `NoCatalogue` unless a schema is exactly a catalogue's: no trigger, view, further table or index that could do something."""
    due = _own_parts()
    there = list(map(_part, base.execute(f"SELECT type, name, sql FROM {schema}.sqlite_master LIMIT {len(due) + 2}")))
    other = sorted(set(there) - due - {_STATISTICS})
    if other:
        raise NoCatalogue(f"{name} is no catalogue: its {other[0][0]} {other[0][1]} isn't one of a catalogue")
    if len(set(there) & due) < len(due):
        raise NoCatalogue(f"{name} is no catalogue: a table is missing")


class _Guard:
    """The context of `Catalogue.guarded`: a class, because it is entered for each query."""

    __slots__ = ("_catalogue",)

    def __init__(self, catalogue: "Catalogue") -> None:
        self._catalogue = catalogue

    def __enter__(self) -> None:
        pass

    def __exit__(
        self,
        kind: Type[BaseException] | None,
        error: BaseException | None,
        *_: object,
        # bound here, because a query can be open until Python has removed the names of this module
        damaged: tuple[Type[Exception], ...] = (sqlite3.DatabaseError, Damaged, UnicodeDecodeError),
        wrong_call: Type[Exception] = sqlite3.ProgrammingError,  # of SQLite, which says nothing about the catalogue
    ) -> None:
        if error is not None and isinstance(error, damaged) and not isinstance(error, wrong_call):
            raise self._catalogue.failure(error) from error


class Catalogue:
    """A catalogue that is open. Use it in a `with`."""

    _schemas: Sequence[str] = ("main",)  # the names of its files on the connection
    texts: tuple[str, ...] = ("main.texts",)  # the tables of texts by label
    all_texts: tuple[str, ...] = ()  # the same with those that are made for a question, once they are
    _roots: tuple[list[int], list[bytes]] | None = None  # what `roots` returned last, with the state that it was of

    def __init__(self, name: str, make: bool = False, there: bool = False, adds: bool = False) -> None:
        """Opens a catalogue to read it, or to write to it: with `make` a missing one is made, with `there` it isn't, and `adds` is as `there` if
        other runs that have it open allow it within `SHORT_WAIT`. Raises `NoCatalogue`."""
        self.name = self.file = name
        self.files = [name]
        self._is_written = make or there or adds
        self._was_cut = False
        _check_head(name, make)
        if self._is_written:
            _check_writable(name)
        with self.guarded():
            self.base = connect(address(name, "rwc" if make else "rw" if self._is_written else "ro"))
            try:
                if adds:
                    self.base.execute(f"PRAGMA busy_timeout = {SHORT_WAIT * 1000}")
                if self._is_written:
                    self._prepare(SHORT_WAIT if adds else WAIT)
                    self._file, self._least = identity(name), os.stat(name).st_size
                else:
                    check_schema(self.base, name)
            except BaseException:
                self.base.close()
                raise

    def _prepare(self, wait: float = WAIT) -> None:
        """Creates missing tables; if two runs begin at once, one of them does."""
        self.base.execute("BEGIN IMMEDIATE")
        if not self.base.execute("SELECT count(*) FROM sqlite_master").fetchone()[0]:
            self.base.execute(f"PRAGMA application_id = {APPLICATION}")
            self.base.execute(f"PRAGMA user_version = {VERSION}")
            for statement in _TABLES.split(";\n"):
                self.base.execute(statement)
        check_schema(self.base, self.name)
        self.base.execute("COMMIT")
        self._set_journal("DELETE" if is_on_network(self.name) else "WAL", wait)
        self.base.execute("PRAGMA synchronous = FULL")
        self.base.execute(f"PRAGMA cache_size = -{CACHE}")

    def _set_journal(self, mode: str, wait: float) -> None:
        """Sets the journal's mode. SQLite doesn't wait for another process that sets it at the same time, so this tries again."""
        end = time.monotonic() + wait
        while True:
            try:
                self.base.execute(f"PRAGMA journal_mode = {mode}")
                return
            except sqlite3.OperationalError as error:
                if "locked" not in str(error) or time.monotonic() > end:
                    raise
            time.sleep(PATIENCE / 1000)

    def execute(self, statement: str, values: Sequence[object] = ()) -> sqlite3.Cursor:
        """Runs a statement. Raises `NoCatalogue`."""
        with self.guarded():
            return self.base.execute(statement, values)

    def execute_for(self, rows: Iterable[Sequence[object]], statement: str) -> None:
        """Runs a statement for each row of values. Raises `NoCatalogue`."""
        with self.guarded():
            self.base.executemany(statement, rows)

    def guarded(self) -> "_Guard":
        """Raises `NoCatalogue` with the catalogue's name for an error of SQLite, and for a value that no catalogue has."""
        return _Guard(self)

    def failure(self, error: BaseException) -> NoCatalogue:
        """The error of this catalogue for one of SQLite, or for a value. Only a file that SQLite can't read is damaged, not a full disk. Raises
        what a signal raised meanwhile."""
        signals.go_on_stopping()
        if (
            not self._is_written
            and str(error) in ("attempt to write a readonly database", "unable to open database file")
            and is_left_open(self.file)
        ):
            return NoCatalogue(
                f"{self.name} is as a killed run has left it, with a journal or a log, and can't be read so:"
                " index, or another command that writes to it, mends that"
            )
        if isinstance(error, (Damaged, UnicodeDecodeError)) or type(error) is sqlite3.DatabaseError:
            return NoCatalogue(f"{self.name} is damaged: {error}. Take an older copy, or make a new one by index")
        return NoCatalogue(f"{self.name}: {error}")

    def __enter__(self) -> "Catalogue":
        return self

    def __exit__(self, kind: Type[BaseException] | None, *_: object) -> None:
        self.close()
        if self._is_written and kind is None:
            self._check_place()

    def _check_place(self) -> None:
        """Raises `NoCatalogue` if the name no longer leads to what was written. SQLite goes on writing to a file that was removed or replaced."""
        now = identity(self.name)
        if not now or now != self._file:
            raise NoCatalogue(f"{self.name} was {'replaced' if now else 'removed'} while it was written, so this run is not in it")
        head, length = head_of(self.name)
        pages, size = int.from_bytes(head[28:32], "big"), int.from_bytes(head[16:18], "big")
        if self._was_cut or not head_is_ours(head) or length < pages * (size if size > 1 else 65536):
            raise NoCatalogue(f"{self.name} was cut while it was written, and is damaged")

    def close(self) -> None:
        """Closes the catalogue. All committed data are then in its one file, which can be read in a read-only folder."""
        if self._is_written:
            with contextlib.suppress(OSError):  # before the log is written back, which makes a file longer again that was cut
                self._was_cut = os.stat(self.name).st_size < self._least
            with contextlib.suppress(sqlite3.Error):  # another program has it open, or the disk is full
                self.base.execute(f"PRAGMA busy_timeout = {PATIENCE}")
                self.base.execute("PRAGMA journal_mode = DELETE")
        self.base.close()

    # Writing

    def number_above(self, first: int) -> None:
        """Lets a new catalogue number its pictures and runs from the one after this multiple of `NUMBERS` on, so that they differ from others'."""
        with self.transaction():
            if not self.last_number():
                self.set_prepared(first)

    def begin_run(self, started: str, sidecars: bool = False, whole: bool = False) -> int:
        """A new run; its number."""
        values = (self.prepared() // NUMBERS * NUMBERS, started, sidecars, whole)
        return int(self.execute(_BEGIN_RUN, values).lastrowid or 0)

    def was_stopped(self) -> bool:
        """Whether the last run was stopped, so that a catalogue has a part of what it was to find."""
        return next(self.rows("SELECT ended IS NULL FROM runs ORDER BY id DESC LIMIT 1"), (0,))[0] == 1

    def has_sidecars(self) -> bool:
        """Whether XMP files beside pictures are blocks of them here, as in one of its runs."""
        return bool(self.number_of("SELECT EXISTS (SELECT 1 FROM runs WHERE sidecars)"))

    def has_digests(self) -> bool:
        """Whether it has digests of coded pictures, as of `index --pixels`."""
        return bool(self.number_of("SELECT EXISTS (SELECT 1 FROM pictures WHERE coded_picture != '')"))

    def set_version(self, run: int, exifnorm: str) -> None:
        """Keeps which library makes the digests of a run."""
        self.execute("UPDATE runs SET exifnorm = ? WHERE id = ?", (exifnorm, run))

    def end_run(self, run: int, ended: str) -> None:
        """Records that a run is complete."""
        self.execute("UPDATE runs SET ended = ? WHERE id = ?", (ended, run))

    @contextlib.contextmanager
    def transaction(self) -> Iterator[None]:
        """All that is written inside is kept, or nothing of it."""
        with self.guarded():
            self.base.execute("BEGIN IMMEDIATE")
            try:
                yield
                self.base.execute("COMMIT")
            except BaseException:
                with contextlib.suppress(sqlite3.Error):  # a full disk has rolled it back already
                    self.base.execute("ROLLBACK")
                raise

    def put(self, run: int, entries: Iterable[PictureRecord], files: Sequence[str] = ()) -> None:
        """Keeps some pictures, and those of `files`, which `make_rows` began, in one transaction; the last one with a path counts."""
        with contextlib.ExitStack() as attached:
            names = [attached.enter_context(self.attached(name, f"batch{number}")) for number, name in enumerate(files)]
            with self.transaction():
                others = self.base.execute("SELECT 1 FROM runs WHERE id != ? LIMIT 1", (run,))  # in a first run none is looked for
                has_earlier = others.fetchone() is not None and not self.is_empty()
                earlier = [row for other in names if has_earlier for row in self._unchanged(other)]
                for other in names:
                    self.add_rows(other, run)
                new = [it for it in {it.path: it for it in entries}.values() if not self._is_kept(run, it)]
                earlier += filter(None, map(self._earlier, new * has_earlier))
                put_rows(self.base, run, 1 + self.last_number(), new)
                self.base.executemany("UPDATE main.pictures SET run = ? WHERE path = ?", earlier)

    def _unchanged(self, other: str) -> "list[tuple[int, bytes]]":
        """The pictures of an attached file that are as they were, as after `index --again`: each with the run in which it was new or changed."""
        same = " AND ".join(f"o.{column} IS m.{column}" for column in _SAME)
        query = f"SELECT m.run, m.path FROM {other}.pictures o CROSS JOIN main.pictures m ON m.path = o.path WHERE {same}"
        return self.base.execute(query).fetchall()

    def _earlier(self, picture: PictureRecord) -> "Optional[tuple[int, bytes]]":
        """The same of a picture that was looked at."""
        same = " AND ".join(f"{column} IS ?" for column in _SAME)
        values = (picture.path, *(getattr(picture, column) for column in _SAME))
        query = f"SELECT run, path FROM main.pictures WHERE path = ? AND {same}"
        return next(self.base.execute(query, values), None)

    @contextlib.contextmanager
    def attached(self, file: str, other: str) -> Iterator[str]:
        """Another SQLite file under a name, while it is read."""
        self.execute(f"ATTACH ? AS {other}", (address(file),))
        try:
            yield other
        finally:
            self.execute(f"DETACH {other}")

    def add_rows(self, other: str, runs: int) -> None:
        """Adds the pictures of an attached file, by SQLite alone; they replace those with the same paths.

        Their numbers are raised by the last one here, so that no row is looked up by itself, and those of their runs by `runs`.
        """
        offsets = {"pictures": self.last_number(), "runs": runs}
        for step in _ADD_ROWS:
            self.base.execute(step.format(other=other), offsets)

    def greatest(self, table: str) -> int:
        """The greatest number of a row. Raises `NoCatalogue` if it is none that a catalogue has."""
        return self.number_of(f"SELECT ifnull(max(id), 0) FROM main.{table}")

    def prepared(self) -> int:
        """The number of a picture: the texts of the pictures up to it are kept."""
        return self.number_of("SELECT ifnull(max(picture), 0) FROM main.prepared")

    def without_texts(self) -> str:
        """A query for the numbers of the pictures whose texts aren't kept."""
        return f"SELECT id FROM main.pictures WHERE id > {self.prepared()}"

    def set_prepared(self, number: int) -> None:
        """Keeps that the texts of the pictures up to this number are there, in a transaction."""
        self.base.execute("DELETE FROM prepared")
        self.base.execute("INSERT INTO prepared VALUES (?)", (number,))

    def last_number(self) -> int:
        """The greatest number of a picture that is or was there when texts were kept: a new one with an earlier number would seem to have texts."""
        return max(self.greatest("pictures"), self.prepared())

    def number_of(self, query: str, values: Sequence[object] = ()) -> int:
        """The one number that a query has."""
        with self.guarded():
            number = self.base.execute(query, values).fetchone()[0]
            if not isinstance(number, int) or number > ROW_NUMBER:
                raise Damaged(f"{number} is no number of a row")
        return number

    def _is_kept(self, run: int, picture: PictureRecord) -> bool:
        """Whether a picture that can't be read now was known before. Its earlier results are kept."""
        if picture.problem in NO_BYTES:
            words = (picture.problem, picture.detail, run, picture.path)
            return self.base.execute("UPDATE pictures SET problem = ?, detail = ?, run = ? WHERE path = ?", words).rowcount > 0
        return False

    # Reading

    @contextlib.contextmanager
    def reading(self, is_answer: bool = False) -> Iterator[None]:
        """All that is read inside is of one moment, and the file is locked once for all of it. An answer is about what is there at its end:
        raises `NoCatalogue` if the name leads to no file then, or to another one, or the file was cut."""
        before, size = identity(self.name), _size_of(self.name)
        self.execute("BEGIN")
        try:
            yield
        finally:
            with contextlib.suppress(sqlite3.Error):
                self.base.execute("COMMIT")
        now = identity(self.name)
        if is_answer and (now != before or _size_of(self.name) < size):
            what = "removed" if not now else "replaced" if now != before else "cut"
            raise NoCatalogue(f"{self.name} was {what} while it was read, so this answer is about what it was")

    @overload
    def rows(self, query: str, values: Sequence[object] = ()) -> Iterator[Any]:
        ...

    @overload
    def rows(self, query: str, values: Sequence[object], factory: Callable[..., Made]) -> Iterator[Made]:
        ...

    def rows(self, query: str, values: Sequence[object] = (), factory: Callable[..., Any] = tuple) -> Iterator[Any]:
        """The result of `factory` for each row of a query."""
        with self.guarded():  # an error of the caller isn't raised in here
            for row in self.base.execute(query, values):
                yield factory(row)

    def numbers(self, query: str, values: Sequence[object] = ()) -> Numbers:
        """The numbers of a query's rows, each of which has one."""
        with self.guarded():
            try:
                return Numbers(self.base.execute(query, values))
            except TypeError:
                raise Damaged("a number of a picture is none") from None

    def runs(self) -> list[Run]:
        """Each run, the first one first."""
        return list(self.rows("SELECT started, ended, exifnorm FROM runs ORDER BY id", (), _run_of_row))

    def known(self, path: bytes) -> Known | None:
        """The record of one picture."""
        query = "SELECT id, size, modified, changed, inode, device, problem, coded_picture, sidecars FROM pictures WHERE path = ?"
        return next(self.rows(query, (path,), _known), None)

    def picture(self, path: bytes) -> PictureRecord | None:
        """The picture with this path."""
        return next(self.rows(f"SELECT {PICTURE_COLUMNS} FROM pictures WHERE path = ?", (path,), picture_of_row), None)

    def has(self, path: bytes) -> bool:
        """Whether a picture is known."""
        return self.known(path) is not None

    def with_maker_note(self) -> int:
        """How many pictures have a MakerNote."""
        return self.number_of("SELECT count(DISTINCT picture) FROM blocks WHERE note IS NOT NULL")

    def is_empty(self) -> bool:
        """Whether no picture is known, as in a first run."""
        return not self.number_of("SELECT EXISTS (SELECT 1 FROM pictures)")

    def below(self, folder: bytes, run: int = 0) -> Iterator[tuple[int, bytes, str | None]]:
        """The number, path and problem of each picture below a folder, by path, without those that a run has looked at."""
        start = folder.rstrip(b"/") + b"/"
        query = "SELECT id, path, problem FROM pictures WHERE path > ? AND path < ? AND run != ? ORDER BY path"
        yield from self.rows(query, (start, start[:-1] + b"0", run))

    def count(self) -> int:
        """How many files are known. SQLite counts those of a table, and goes through the rows of a view."""
        return sum(self.number_of(f"SELECT count(*) FROM {schema}.pictures") for schema in self._schemas)

    def count_below(self, folder: bytes) -> int:
        """How many pictures are below a folder, without those that are gone."""
        return sum(problem not in GONE for _, _, problem in self.below(folder))

    def pictures(self, only: str | None = None) -> Iterator[PictureRecord]:
        """Each picture, by path; `only` is a table of paths, as `choose` makes it."""
        where = f"WHERE path IN {only}" if only else ""
        yield from self.rows(f"SELECT {PICTURE_COLUMNS} FROM pictures {where} ORDER BY path", (), picture_of_row)

    def refused(self) -> Iterator[bytes]:
        """The path of each picture with a block that isn't accepted, in their order. No query is open while one is returned, so that other
        programs can write to the catalogue."""
        after: object = float("-inf")  # which sorts before all values, also before one that is no path
        last = b""
        while paths := list(self.rows(_REFUSED, (after, _AT_ONCE), root_of_row)):
            yield from paths
            with self.guarded():
                if paths[-1] <= last:
                    raise Damaged("the paths of pictures are in no order")
            after = last = paths[-1]

    def not_read_of(self, picture: PictureRecord) -> list[NotRead]:
        """The parts of a picture that were not read."""
        query = "SELECT what, digest FROM not_read WHERE picture = ? ORDER BY number"
        return list(self.rows(query, (picture.id,), _bounded(not_read_of_row)))

    def blocks_of(self, picture: PictureRecord) -> list[BlockRecord]:
        """The blocks of a picture. Their fields are unpacked when they are asked for."""
        query = f"SELECT {BLOCK_COLUMNS} FROM blocks WHERE picture = ? ORDER BY number"
        return with_kept_fields(list(self.rows(query, (picture.id,), _bounded(block_of_row))))

    def blocks_with_fields(self, picture: PictureRecord) -> list[BlockFields]:
        """The blocks of a picture, each with its fields."""
        with self.guarded():
            return [(block, fields_of(block)) for block in self.blocks_of(picture)]

    def packed_fields(self, columns: str, where: str = "") -> Iterator[tuple[int, list[Row]]]:
        """Each picture's number, and for each of its blocks some columns and its packed fields."""
        rows = self.rows(f"SELECT picture, {columns}, fields FROM blocks{where} ORDER BY picture, number")
        for picture, ours in groupby(rows, key=itemgetter(0)):
            blocks = list(ours)
            with self.guarded():
                texts = parted(row[-1] for row in blocks)
            yield picture, [(*row[1:-1], text) for row, text in zip(blocks, texts)]

    def choose(self, paths: Iterable[bytes]) -> str:
        """A temporary table of paths; its name."""
        self.execute("CREATE TEMP TABLE chosen (path BLOB PRIMARY KEY) WITHOUT ROWID")
        self.execute_for(((it,) for it in paths), "INSERT OR IGNORE INTO chosen VALUES (?)")
        return "temp.chosen"

    def not_there(self, chosen: str | None) -> Iterator[bytes]:
        """The paths of such a table, if there is one, that no picture has, in their order."""
        if chosen:
            query = f"SELECT path FROM {chosen} AS one WHERE NOT EXISTS (SELECT 1 FROM pictures WHERE path = one.path) ORDER BY path"
            yield from self.rows(query, (), root_of_row)

    def roots(self) -> list[bytes]:
        """Each folder that was indexed. No index has them, so all pictures are gone through: once, and again after somebody has written."""
        # what is other once anybody has written, also another program
        state = [*(next(self.rows(f"PRAGMA {schema}.data_version"))[0] for schema in self._schemas), self.base.total_changes]
        if not self._roots or self._roots[0] != state:
            self._roots = state, list(self.rows("SELECT DISTINCT root FROM pictures ORDER BY root", (), root_of_row))
        return list(self._roots[1])

    def forget(self, name: bytes) -> int:
        """Removes a file, or all files below a folder. Returns how many."""
        start = name.rstrip(b"/") + b"/"
        values = (name, start, start[:-1] + b"0", _FORGOTTEN)
        count = 0
        with self.transaction():
            while deleted := self.base.execute(_FORGET, values).rowcount:
                count += deleted
        return count

    def forget_pictures(self, numbers: Iterable[int]) -> None:
        """Removes some pictures, by their numbers."""
        with self.transaction():
            self.base.executemany("DELETE FROM pictures WHERE id = ?", ((it,) for it in numbers))

    def set_devices(self, devices: Iterable[tuple[int, int]]) -> None:
        """Keeps on which file system some pictures are now: each a device and a picture's number."""
        with self.transaction():
            self.base.executemany("UPDATE pictures SET device = ? WHERE id = ?", devices)

    def maker_notes(self, picture: PictureRecord, unpack: Callable[[bytes], Made]) -> Made | None:
        """The result of `unpack` for what ExifTool read of a picture's MakerNotes, if it was asked."""
        return next(self.rows("SELECT readings FROM maker_notes WHERE picture = ?", (picture.id,), lambda row: unpack(row[0])), None)

    def copy_to(self, name: str) -> None:
        """Copies the whole catalogue to another file."""
        with self.guarded():
            with contextlib.closing(sqlite3.connect(name)) as other:
                self.base.backup(other)
                other.execute("PRAGMA journal_mode = DELETE")


def _bounded(factory: Callable[[Row], Made]) -> Callable[[Row], Made]:
    """The same function of rows, which raises `Damaged` once all of them have too many bytes: in a crafted file they can share them."""
    left = ROW_BYTES

    def bounded(row: Row) -> Made:
        nonlocal left
        left -= sum([len(cell) for cell in row if isinstance(cell, (str, bytes))])
        if left < 0:
            raise Damaged("what it has of a picture is too long")
        return factory(row)

    return bounded


def unlike(catalogue: Catalogue, other: Catalogue) -> NoCatalogue:
    """The error for two catalogues of which only one has XMP sidecars."""
    has, has_not = (catalogue, other) if catalogue.has_sidecars() else (other, catalogue)
    return NoCatalogue(f"{has.name} was made by `index --sidecars`, and {has_not.name} without; make both in the same way")


def make_rows(base: sqlite3.Connection) -> None:
    """Makes tables in a new file that `put_rows` fills and a catalogue takes over. A file that is cut short is of no use to anybody."""
    for statement in ("PRAGMA journal_mode = OFF", "PRAGMA synchronous = OFF", *_ROWS):
        base.execute(statement)


@functools.lru_cache(maxsize=100)
def _put_usual(*kinds: str) -> str:
    """The statement for usual blocks, each the first one of its kind, of which the first one has the fields of all."""
    usual = f"'{OWN}', '{Status.ACCEPTED}', NULL, NULL, NULL, NULL, NULL"
    rows = [f"(?1, {at}, '{kind}', '{NAMES[kind]}', {'NULL' if at else '?2'}, ?, ?, ?, ?, {usual})" for at, kind in enumerate(kinds)]
    return f"INSERT INTO blocks (picture, number, kind, name, fields, {', '.join(_OWN + _COMMON)}) VALUES {', '.join(rows)}"


def _rows_of(number: int, blocks: Sequence[BlockRecord]) -> tuple[str, list[Any]]:
    """The statement for the blocks of a picture, and its values."""
    cells = joined([it.fields for it in blocks])
    kinds = [it.kind for it in blocks if it.name == NAMES.get(it.kind) and _common_of(it) == _USUAL]
    if any(cells[:1]) and len(kinds) == len(cells):
        return _put_usual(*kinds), [(number, cells[0], *chain.from_iterable(map(_own_of, blocks)))]
    return _PUT_BLOCK, [(number, at, *it[: BLOCKS.width - 1], cell) for at, (it, cell) in enumerate(zip(blocks, cells))]


def put_rows(base: sqlite3.Connection, run: int, first: int, entries: Iterable[PictureRecord]) -> None:
    """Adds rows for some pictures, which get the numbers from `first` on. A row that replaces another of the same path takes the other's blocks
    and parts with it, by ON DELETE CASCADE."""
    numbered = list(enumerate(entries, first))
    put = base.cursor().executemany  # a connection has a reference to each cursor for a while
    put(_PUT_PICTURE, [(number, *it[1 : PICTURES.width], run) for number, it in numbered])
    for number, it in numbered:
        put(*_rows_of(number, it.blocks))
    put("INSERT INTO maker_notes VALUES (?, ?)", [(number, it.notes) for number, it in numbered if it.notes])
    put("INSERT INTO not_read VALUES (?, ?, ?, ?)", [(number, at, *part) for number, it in numbered for at, part in enumerate(it.unread)])


def root_of_row(row: tuple[bytes]) -> bytes:
    """The folder of a row `root`, or the path of one `path`."""
    has_short(bytes, row[0])
    return row[0]


def _run_of_row(row: Run) -> Run:
    has_short(str, *(it for it in row if it is not None))
    return row


def _known(row: Row) -> Known:
    return Known(row[0], None if row[1] is None else Stamp._make(row[1:6]), *row[6:])


# Files on network shares, where SQLite's write-ahead log doesn't work: it needs memory that all its readers share

MOUNTS = "/proc/self/mountinfo"
# By the kernel's names: file systems of other machines, and folders of the machine that a virtual one runs on
_SHARED = frozenset("9p afs ceph cifs coda glusterfs lustre ncpfs nfs nfs4 prl_fs smb3 smbfs vboxsf virtiofs".split())


def is_on_network(path: str) -> bool:
    """Whether a file, or one that will be made there, is on a share. All that goes through FUSE counts, as sshfs and rclone do, because
    Linux doesn't know what is behind it. Where there is no list of mounts, nothing is known to be a share."""
    try:
        device = os.stat(os.path.dirname(os.path.realpath(path))).st_dev
        with open(MOUNTS, encoding="utf-8", errors="surrogateescape") as file:
            lines = file.readlines()
    except OSError:
        return False
    number = f"{os.major(device)}:{os.minor(device)}"
    # proc(5): the third word is the number of the device; the type of the file system is the word after the lone hyphen
    kinds = (line.partition(" - ")[2].split(" ")[0] for line in lines if line.split(" ")[2:3] == [number])
    return any(it in _SHARED or it.startswith("fuse.") for it in kinds)
