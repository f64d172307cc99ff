"""Pictures that are gone and are found under another name: recognised by the file system's marks, their bytes, or their meaning."""

from __future__ import annotations

import hashlib
import os
import sqlite3
from collections import Counter
from typing import Any, Callable, Iterator, NamedTuple, Sequence

from ..catalogue.store import Catalogue, added
from ..model.records import PictureRecord
from ..model.problems import Problem
from ..model.texts import whole_path

Key = tuple[object, ...]
_MARKS = "size, modified, inode, sha256, coded_picture, not_read, exif_octets, iptc_octets, xmp_octets"


def content_key(octets: Sequence[str | None], unread: str | None, size: int | None) -> Key | None:
    """The facts that identify a picture under any name; none if it has no block and so no meaning."""
    return None if not any(octets) or unread is None or size is None else (*octets, unread, size)


# Which pictures are gone goes to a temporary database, which is deleted with its connection: all of an archive may have moved.
_TABLES = """
CREATE TABLE gone (
    number INTEGER PRIMARY KEY,
    path BLOB NOT NULL UNIQUE,
    name BLOB NOT NULL,             -- the last one of the path
    size INTEGER,
    modified INTEGER,
    inode INTEGER,
    sha256 TEXT,
    coded_picture TEXT,
    content BLOB,                   -- a digest of the facts that may identify the picture under any name
    went BLOB                       -- its new path
);
CREATE INDEX gone_by_file ON gone (inode, size, modified);
CREATE INDEX gone_by_bytes ON gone (sha256, name) WHERE went IS NULL;
CREATE INDEX gone_by_content ON gone (content, modified, name) WHERE went IS NULL;
CREATE INDEX gone_alike ON gone (content);
CREATE INDEX gone_by_target ON gone (went);
PRAGMA journal_mode = OFF;
"""
_ADD = "INSERT INTO gone (path, name, size, modified, inode, sha256, coded_picture, content) VALUES (?, ?, ?, ?, ?, ?, ?, ?)"
_KNOWN = "(sha256 = :sha256 OR ifnull(sha256, '') = '' OR ifnull(:sha256, '') = '')"  # no digest is known to differ
_KNOWN += " AND (coded_picture = :coded_picture OR ifnull(coded_picture, '') = '' OR ifnull(:coded_picture, '') = '')"
_BY_FILE = f"""SELECT number FROM (SELECT * FROM gone WHERE inode = :inode AND size = :size AND modified = :modified ORDER BY number DESC LIMIT 1)
    WHERE went IS NULL AND {_KNOWN}"""
# The surest first: a file of the same bytes, or the only one of the same blocks, size and time. A file of the same name is taken before others.
_SAME_BYTES, _ALIKE = (
    [
        f"SELECT number FROM gone WHERE went IS NULL AND {key} AND {name} AND {_KNOWN} ORDER BY number LIMIT 2"
        for name in ("name = :name", "TRUE")
    ]
    for key in ("sha256 = :sha256 AND :sha256 != ''", "content = :content AND modified = :modified")
)
# The same blocks and size may be those of many scans of one machine: they count if no other picture means the same.
_LIKELY = f"SELECT number FROM gone WHERE content = :content AND went IS NULL AND {_KNOWN}"
_ARE_TWO = "SELECT count(*) > 1 FROM (SELECT 1 FROM gone WHERE content = ? LIMIT 2)"
_MEAN_THE_SAME = """SELECT count(*) > 1 FROM (SELECT 1 FROM pictures JOIN pictures AS other ON other.exif IS pictures.exif
    AND other.iptc IS pictures.iptc AND other.xmp IS pictures.xmp AND other.not_read IS pictures.not_read AND other.problem IS NULL
    WHERE pictures.path = ? LIMIT 2)"""


class Departed:
    """The pictures that are gone, until their new names are known."""

    def __init__(self) -> None:
        self._base = sqlite3.connect("", isolation_level=None)
        self._base.executescript(_TABLES)

    def add(self, catalogue: Catalogue, number: int, path: bytes) -> None:
        """Notes a picture that is gone."""
        query = f"SELECT {_MARKS} FROM pictures WHERE id = ?"
        for size, modified, inode, sha256, coded_picture, unread, *octets in catalogue.rows(query, (number,)):
            marks = (None, None, None) if size is None else (size, modified, inode)
            row = (path, os.path.basename(path), *marks, sha256, coded_picture, _digest(content_key(octets, unread, size)))
            self._base.execute(_ADD, row)

    def each(self) -> Iterator[tuple[bytes, bytes | None]]:
        """The path of each picture that is gone, in the order in which they were noted, and its new one if that is known."""
        return iter(self._base.execute("SELECT path, went FROM gone ORDER BY number"))

    def moves(self) -> Iterator[tuple[bytes, bytes]]:
        """The same of those that have a new path."""
        return ((path, went) for path, went in self.each() if went is not None)

    def _meet(self, catalogue: Catalogue, path: bytes, marks: Sequence[Any]) -> None:
        """Notes a picture that is new: one that is gone may have become it."""
        size, modified, inode, sha256, coded_picture, unread, *octets = marks
        facts = {"inode": inode, "size": size, "modified": modified, "sha256": sha256, "coded_picture": coded_picture}
        row = self._base.execute(_BY_FILE, facts).fetchone()
        if row is None:
            facts.update(content=_digest(content_key(octets, unread, size)), name=os.path.basename(path))
            row = self._alike(facts) or self._likely(catalogue, path, facts)
        if row:
            self._base.execute("UPDATE gone SET went = ? WHERE number = ?", (path, row[0]))

    def _alike(self, facts: dict[str, object]) -> tuple[int] | None:
        """The number of the picture with these bytes, or of the only one with these blocks, this size and this time."""
        for query in (*_SAME_BYTES, *_ALIKE):
            rows: list[tuple[int]] = self._base.execute(query, facts).fetchall()
            if len(rows) == 1 or rows and query in _SAME_BYTES:
                return rows[0]
        return None

    def _likely(self, catalogue: Catalogue, path: bytes, facts: dict[str, object]) -> tuple[int] | None:
        """The number of the only picture with this content, if no other one means the same."""
        row: tuple[int] | None = self._base.execute(_LIKELY, facts).fetchone()
        if not row or self._base.execute(_ARE_TWO, (facts["content"],)).fetchone()[0]:
            return None
        return None if catalogue.number_of(_MEAN_THE_SAME, (path,)) else row

    def settle(self, catalogue: Catalogue, run: int, is_new: Callable[[bytes], bool]) -> None:
        """Finds which pictures that are gone have another name among those of this run, of which `is_new` tells whether they were unknown."""
        if next(self.each(), None):
            query = f"SELECT path, {_MARKS} FROM pictures WHERE run = ? AND problem IS NULL AND size IS NOT NULL ORDER BY id"
            for row in catalogue.rows(query, (run,)):
                if is_new(row[0]):
                    self._meet(catalogue, row[0], row[1:])
        self._add_remounted(catalogue, run, is_new)
        if next(self.moves(), None):
            with catalogue.transaction():
                words = ((f"to {whole_path(to)}", path) for path, to in self.moves())
                catalogue.base.executemany("UPDATE pictures SET problem = 'Moved', detail = ? WHERE path = ?", words)

    def _add_remounted(self, catalogue: Catalogue, run: int, is_new: Callable[[bytes], bool]) -> None:
        """The pictures of folders that are gone and whose files are new in this run: a file system that is mounted at another place.

        A folder that is gone may be a disk that isn't mounted, and a new file a copy of one on it. So the time and the inode must be the
        same, which no copy has.
        """
        for root in catalogue.roots():
            if os.path.lexists(root):
                continue
            for old, path in catalogue.rows(_REMOUNTED, (run, root)):
                is_used = self._base.execute("SELECT 1 FROM gone WHERE went = ? OR path = ?", (path, old)).fetchone()
                if not is_used and is_new(path) and not os.path.lexists(old):
                    self._base.execute("INSERT INTO gone (path, name, went) VALUES (?, ?, ?)", (old, os.path.basename(old), path))

    def reports(self) -> Iterator[PictureRecord]:
        """The report on each picture that is gone: moved, or missing."""
        for path, to in self.each():
            problem, detail = (Problem.VANISHED, Problem.VANISHED.text) if to is None else (Problem.MOVED, f"to {whole_path(to)}")
            yield PictureRecord.of(path, b"", problem=problem, detail=detail)


def _digest(key: Key | None) -> bytes | None:
    return None if key is None else hashlib.sha256(repr(key).encode("utf-8", "surrogatepass")).digest()


# Pictures that moved with their folder. Their names are full paths, or all relative to the folders that were indexed.

MOST = 10_000  # pairs of folders that are counted
Folders = tuple[bytes, bytes]  # the one that a picture was in, and the one that it is in


def moved_folders(old: bytes, new: bytes) -> Folders | None:
    """The folder that a picture was in, and the one that it moved to with the path below it; None if its name is another one.

    >>> moved_folders(b"/a/x/1.jpg", b"/b/x/1.jpg"), moved_folders(b"x/1.jpg", b"b/x/1.jpg"), moved_folders(b"a/3.jpg", b"c/4.jpg")
    ((b'/a', b'/b'), (b'', b'b'), None)
    """
    olds, news = old.split(b"/"), new.split(b"/")
    if olds[-1] != news[-1]:
        return None
    while olds and news and olds[-1] == news[-1]:
        del olds[-1], news[-1]
    top = b"/" * old.startswith(b"/")
    return b"/".join(olds) or top, b"/".join(news) or top


class MovedFolder(NamedTuple):
    """A folder that has another place now, and how many of its pictures."""

    old: bytes
    new: bytes
    pictures: int


class MovedFolders:
    """Counts the pictures that moved, by their folders.

    >>> moved = MovedFolders()
    >>> for old, new in ((b"/a/x/1.jpg", b"/b/x/1.jpg"), (b"/a/x/y/2.jpg", b"/b/x/y/2.jpg"), (b"/a/3.jpg", b"/c/4.jpg")): moved.add(old, new)
    >>> moved.lines(), moved.count(b"/a/x/1.jpg", b"/b/x/1.jpg")
    ([MovedFolder(old=b'/a/x', new=b'/b/x', pictures=2)], 2)
    """

    def __init__(self) -> None:
        self._counts: "Counter[Folders | None]" = Counter()
        self._shared: dict[Folders, bytes] = {}  # the deepest folder that has all pictures that moved so

    def add(self, old: bytes, new: bytes) -> None:
        """Counts a picture that moved."""
        pair = moved_folders(old, new)
        if pair and (pair in self._shared or len(self._shared) < MOST):
            self._counts[pair] += 1
            own = os.path.dirname(old)
            self._shared[pair] = os.path.commonpath([self._shared.get(pair, own), own])

    def count(self, old: bytes, new: bytes) -> int:
        """How many pictures moved as this one did, to another folder with the same name."""
        return self._counts[moved_folders(old, new)]

    def lines(self) -> list[MovedFolder]:
        """The folders from which two and more pictures moved to another one, those of the most pictures first. The folder above
        one that moved may have others that stayed."""
        lines = []
        for (old, new), shared in self._shared.items():
            below = shared[len(old) :].strip(b"/")
            before, after = (os.path.join(it, below) if below else it for it in (old, new))
            lines.append(MovedFolder(before, after, self._counts[old, new]))
        return sorted((it for it in lines if it.pictures > 1), key=lambda it: -it.pictures)


_REMOUNTED = """SELECT old.path, new.path FROM pictures AS new JOIN pictures AS old USING (inode, size, modified, exif_octets, iptc_octets, xmp_octets)
    WHERE new.run = ? AND new.problem IS NULL AND old.root = ? AND old.problem IS NULL AND old.id != new.id ORDER BY old.path"""


# The paths that a run has seen of an archive, in little memory: in a file once there are many.


class Paths:
    """A set of paths. SQLite writes it to a temporary file when it is larger than a cache, and removes the file.

    >>> paths = Paths()
    >>> paths.add(b"/a"), paths.add(b"/a"), b"/a" in paths, b"/b" in paths
    (True, False, True, False)
    """

    def __init__(self) -> None:
        self._opened: sqlite3.Connection | None = None  # most runs have no path to keep

    @property
    def _base(self) -> sqlite3.Connection:
        if not self._opened:
            self._opened = sqlite3.connect("", isolation_level=None)
            self._opened.execute("PRAGMA journal_mode = OFF")
            self._opened.execute("CREATE TABLE paths (path BLOB PRIMARY KEY) WITHOUT ROWID")
        return self._opened

    def add(self, path: bytes) -> bool:
        """Adds a path; whether it wasn't there."""
        return added(self._base, "INSERT OR IGNORE INTO paths VALUES (?)", [(path,)]) > 0

    def __contains__(self, path: bytes) -> bool:
        if not self._opened:
            return False
        return self._base.execute("SELECT 1 FROM paths WHERE path = ?", (path,)).fetchone() is not None
