"""The pictures of two catalogues in pairs. SQLite joins their rows, so Python sees only those that differ, one at a time."""

from __future__ import annotations

import contextlib
import hashlib
import os
import sqlite3
import unicodedata
from collections import Counter, defaultdict
from itertools import chain
from typing import Callable, Hashable, Iterable, Iterator, NamedTuple, Sequence, TypeVar

from ...catalogue.store import BLOCK_COLUMNS, PICTURE_COLUMNS, Catalogue, NoCatalogue, address, check_schema, connect, unlike
from ...fields.block_fields import fields_of, with_kept_fields
from ...fields.field import Field
from ...files import signals
from ...judge.sides import AFTER, BEFORE, Sides
from ...model.records import BlockRecord, PictureRecord, Row, not_read_of_row
from ...model.tables import PICTURES, block_of_row, picture_of_row
from ...model.errors import Damaged
from ...model.found import NotRead
from ...model.problems import NOT_THERE
from ...model.texts import grouped
from ...scan.moved import content_key
from ..coded import SAME_REST, SQL, Coded
from .states import Pair

# Pictures of two folders in pairs by their names without the ending: a master and its copy for the web.

_FORMATS = (
    "DNG CR2 CR3 NEF ARW SRW PEF RAF RW2 ORF RAW",
    "TIFF BigTIFF",
    "PSD PSB",
    "HEIC HEIF AVIF",
    "PNG WEBP GIF JP2 JXL",
    "JPEG",
    "XMP",
)
_PLACES = {word: place for place, words in enumerate(_FORMATS) for word in words.split()}
_OTHERS = _PLACES["PNG"]


class File(NamedTuple):
    """A picture of a side."""

    id: int
    name: bytes  # below the folder of its side
    type: str


_Files = tuple[Sequence[File], Sequence[File]]


class Partners(NamedTuple):
    """The pictures that have one, and those that may have one of several."""

    pairs: list[tuple[File, File]]
    unclear: tuple[list[File], list[File]]


def partners(before: Sequence[File], after: Sequence[File]) -> Partners:
    """The pairs of pictures that haven't the same name: with one stem in one folder, or else in any, if no other picture has it. Of several with
    one stem each has the one of the nearest format, if that is clear.

    >>> before = [File(1, b"a/1.dng", "DNG"), File(2, b"a/1.tif", "TIFF"), File(3, b"a/2.tif", "TIFF"), File(4, b"b/2.tif", "TIFF")]
    >>> found = partners(before, [File(7, b"a/1.jpg", "JPEG"), File(8, b"web/2.jpg", "JPEG")])
    >>> [(one.id, other.id) for one, other in found.pairs], [it.id for it in found.unclear[0]]
    ([(2, 7)], [3, 4])
    """
    same = {it.name for it in before} & {it.name for it in after}
    left = _but((before, after), lambda it: it.name in same)
    pairs = list(_paired(*left, lambda it: (os.path.dirname(it.name), _stem(it))))
    taken = set(chain.from_iterable(pairs))
    stems = {_stem(it) for it in (*before, *after) if it.name in same or it in taken}
    left = _but(left, taken.__contains__)
    pairs += _paired(*_but(left, lambda it: _stem(it) in stems), _stem)
    left = _but(left, set(chain.from_iterable(pairs)).__contains__)
    one, other = (set(map(_stem, side)) for side in left)
    return Partners(pairs, _but(left, lambda it: _stem(it) not in one & other))


def _but(sides: _Files, is_out: Callable[[File], bool]) -> tuple[list[File], list[File]]:
    """The files of both sides but some."""
    before, after = ([it for it in side if not is_out(it)] for side in sides)
    return before, after


def _stem(file: File) -> str:
    """The name without its folder and ending; capitals and how accents are composed don't tell two apart."""
    name = os.fsdecode(os.path.splitext(os.path.basename(file.name))[0])
    return unicodedata.normalize("NFC", name).casefold()


def _paired(before: Iterable[File], after: Iterable[File], key: Callable[[File], Hashable]) -> Iterator[tuple[File, File]]:
    """The pairs of files with one key, of which each is of the nearest format to the other, and no further one is as near."""
    groups: dict[Hashable, tuple[list[File], list[File]]] = defaultdict(lambda: ([], []))
    for side, files in enumerate((before, after)):
        for file in files:
            groups[key(file)][side].append(file)
    for one, other in groups.values():
        wanted = _nearest(other, one)
        yield from (pair for pair in _nearest(one, other) if pair[::-1] in wanted)


def _nearest(files: Sequence[File], others: Sequence[File]) -> set[tuple[File, File]]:
    """Each of some files with the only one of the nearest format."""
    places = grouped((_place(it), it) for it in others)
    found = set()
    for file in files if places else ():
        least = min(abs(place - _place(file)) for place in places)
        near = [it for place, of_place in places.items() if abs(place - _place(file)) == least for it in of_place[:2]]
        if len(near) == 1:
            found.add((file, near[0]))
    return found


def _place(file: File) -> int:
    return _PLACES.get(file.type, _OTHERS)


_BASES, _ALIASES = ("before", "after"), ("old", "new")

# What is written goes to a temporary database, which is deleted with its connection: all pictures of an archive may have moved.
_TABLES = """
CREATE TABLE alone_before (id INTEGER PRIMARY KEY);
CREATE TABLE alone_after (id INTEGER PRIMARY KEY);
CREATE TABLE taken (old INTEGER PRIMARY KEY, new INTEGER UNIQUE);
CREATE TABLE moved (old INTEGER PRIMARY KEY, new INTEGER UNIQUE, is_edited INTEGER NOT NULL, is_sure INTEGER NOT NULL);
CREATE TABLE unclear_before (id INTEGER PRIMARY KEY);
CREATE TABLE unclear_after (id INTEGER PRIMARY KEY);
CREATE TABLE chosen_before (path BLOB PRIMARY KEY) WITHOUT ROWID;
CREATE TABLE chosen_after (path BLOB PRIMARY KEY) WITHOUT ROWID;
PRAGMA main.journal_mode = OFF;
PRAGMA main.synchronous = OFF;
"""

# The pairs for which nothing is reported: all kinds are known and mean the same, what wasn't read is known to be the same, and the coded
# pictures and the rest of their files aren't known to differ, nor the files whose pictures can't be compared.
_SAME = f"""(typeof(old.path) = 'blob' AND old.problem IS NULL AND new.problem IS NULL AND old.exif = new.exif
    AND old.iptc = new.iptc AND old.xmp = new.xmp AND old.not_read = new.not_read
    AND (old.exif_octets = new.exif_octets OR old.maker_notes = '' OR new.maker_notes = '')
    AND old.damage = new.damage
    AND (nullif(old.coded_picture, '') = new.coded_picture AND {SAME_REST}
        OR (ifnull(old.coded_picture, '') = '' OR ifnull(new.coded_picture, '') = '')
        AND (ifnull(old.sha256, '') = '' OR ifnull(new.sha256, '') = '' OR old.sha256 = new.sha256)
        AND (old.beside IS NULL OR new.beside IS NULL OR old.beside = new.beside
            OR ifnull(old.coded_picture, '') != ifnull(new.coded_picture, '')))) IS NOT TRUE"""

# The new names of pictures, the surest first: the same file under the same name, the same file, a file of the same bytes, .., the only one with
# the same blocks, size and time. Then the only one with the same blocks and size, if no other picture of its catalogue means the same: scans of
# one machine may all have them. A file by itself doesn't show whether its sidecars are the same, nor an
# edit in place that keeps its time, so its blocks count, too.
_BLOCKS = ("exif_octets", "iptc_octets", "xmp_octets")
_FILE = ", ".join(["size, modified, inode", *(f"substr({it}, 1, 16)" for it in _BLOCKS)])
_CONTENT = f"content(size, not_read, {', '.join(_BLOCKS)})"
_KEYS = (_FILE, "sha256, xmp_octets", f"{_CONTENT}, modified")
_LIKELY = (f"{_CONTENT}, last(path)", _CONTENT)
_ROUNDS = (*(it for key in _KEYS for it in (f"{key}, last(path)", key)), *_LIKELY)
_IS_ALONE = """NOT EXISTS (SELECT 1 FROM {base}.pictures AS other WHERE other.exif IS pictures.exif AND other.iptc IS pictures.iptc
    AND other.xmp IS pictures.xmp AND other.not_read IS pictures.not_read AND other.problem IS NULL AND other.id != pictures.id)"""
# Then of pictures that were edited, too: the only one with its name, or one whose coded picture no other picture of its catalogue has. So what
# is new isn't taken for a picture that is gone if it may be a copy of one that stays.
_FORM = "form"
_CODED = ("coded_picture, last(path)", "coded_picture")
_HAS_NO_COPY = """NOT EXISTS (SELECT 1 FROM {base}.pictures AS other WHERE other.coded_picture = pictures.coded_picture
    AND other.coded_picture != '' AND other.problem IS NULL AND other.id != pictures.id)"""
# A name that has another file than before is of renumbered pictures only if what it had is elsewhere, and what it has was elsewhere: so neither a
# copy that was made before an edit, nor a file that replaces another one. A move for which this isn't so for both of its names is none, and with
# it the moves of those that it has made room for.
_NOT_RENUMBERED = """WITH RECURSIVE links (one, other) AS (
    SELECT came.old, leaves.old FROM moved AS came JOIN taken ON taken.new = came.new JOIN moved AS leaves ON leaves.old = taken.old
    UNION ALL SELECT leaves.old, came.old FROM moved AS leaves JOIN taken ON taken.old = leaves.old JOIN moved AS came ON came.new = taken.new),
    none (old) AS (SELECT old FROM moved JOIN taken USING (old) WHERE taken.new NOT IN (SELECT new FROM moved) OR taken.new = moved.new
    UNION SELECT moved.old FROM moved JOIN taken USING (new) WHERE taken.old NOT IN (SELECT old FROM moved)
    UNION SELECT other FROM none JOIN links ON one = none.old)
    DELETE FROM moved WHERE old IN (SELECT old FROM none)"""
_HAS_KEY = " AND ".join(
    [*(f"typeof({it}) = 'integer'" for it in ("size", "modified", "inode")), "typeof(path) = 'blob'"]
    + [f"typeof({it}) != 'blob'" for it in ("sha256", "coded_picture", *_BLOCKS)]
)

_PARTNER = 2  # in place of `is_edited`

Made = TypeVar("Made")


def shown_form(name: bytes) -> bytes:
    """A name in one of the forms of Unicode: those that differ in it alone are one name, which systems write in their own way.

    >>> shown_form("Mu\u0308ller".encode()) == shown_form("M\u00fcller".encode())
    True
    """
    return unicodedata.normalize("NFC", name.decode("utf-8", "surrogateescape")).encode("utf-8", "surrogateescape")


def heads_of(catalogues: Sequence[Catalogue]) -> list[bytes]:
    """What is in front of each picture's name in its path: the folder, if each catalogue has one, and otherwise nothing."""
    roots = [it.roots() for it in catalogues]
    by_root = all(len(it) <= 1 for it in roots)
    return [(it[0].rstrip(b"/") + b"/" if by_root and it else b"") for it in roots]


class Pairs(Sides):
    """Two catalogues, and how their pictures are paired. Close it.

    If each catalogue has one folder, pictures are matched by path relative to it; otherwise by full path. All is read of one moment.
    """

    def __init__(self, before: Catalogue, after: Catalogue, only: set[bytes] | None = None, by_stem: bool = False) -> None:
        """Pairs all pictures, or `by_stem` those of one name without the ending; `differing` and `came` return only some, by name or by path."""
        self.by_stem = by_stem
        self.catalogues = (before, after)
        if before.has_sidecars() != after.has_sidecars() and not (before.is_empty() or after.is_empty()):
            raise unlike(before, after)
        self.heads = heads_of(self.catalogues)
        self.base = connect("")
        try:
            with self._guarded():
                self._open(only)
                self._pair()
        except BaseException:
            self.close()
            raise

    def close(self) -> None:
        """Closes the connection, and with it the temporary database."""
        self.base.close()

    def _open(self, only: set[bytes] | None) -> None:
        for base, catalogue in zip(_BASES, self.catalogues):
            self.base.execute(f"ATTACH ? AS {base}", (address(catalogue.file),))
            check_schema(self.base, catalogue.name, base)
        self.base.executescript(_TABLES)
        self.base.create_function("last", 1, os.path.basename, deterministic=True)
        self.base.create_function("form", 1, shown_form, deterministic=True)
        self.base.create_function("content", 5, _content, deterministic=True)
        self.base.execute("BEGIN")
        self.has_chosen = only is not None
        for side in (BEFORE, AFTER):
            paths = {path for name in only or () for path in self._paths_of(side, name)}
            self.base.executemany(f"INSERT INTO chosen_{_BASES[side]} VALUES (?)", ((path,) for path in paths))

    @contextlib.contextmanager
    def _guarded(self) -> Iterator[None]:
        """Raises `NoCatalogue` for an error of SQLite in rows of both, since either may be damaged."""
        try:
            yield
        except sqlite3.ProgrammingError:
            raise
        except sqlite3.DatabaseError as error:
            signals.go_on_stopping()
            raise NoCatalogue(f"{self.catalogues[BEFORE].name} or {self.catalogues[AFTER].name}: {error}") from error

    # How rows are paired

    def _other_path(self, side: int) -> str:
        """The path that a picture of one side has in the other catalogue."""
        path, (mine, other) = f"{_ALIASES[side]}.path", (self.heads[side], self.heads[1 - side])
        if mine == other:
            return path
        below = f"CAST(x'{other.hex()}' || substr({path}, {len(mine) + 1}) AS BLOB)"
        return f"CASE WHEN substr({path}, 1, {len(mine)}) = x'{mine.hex()}' THEN {below} ELSE {path} END"

    def _is_chosen(self, side: int) -> str:
        if not self.has_chosen:
            return "TRUE"
        return f"{_ALIASES[side]}.path IN main.chosen_{_BASES[side]}"

    def _paths_of(self, side: int, name: bytes) -> set[bytes]:
        """The paths that a chosen name may stand for on a side: itself, the one below the folder, and that of a path of the other side."""
        mine, other = self.heads[side], self.heads[1 - side]
        return {name, mine + name, *[mine + name[len(other) :]] * name.startswith(other)}

    def _named(self, side: int, path: object) -> bytes:
        """The name by which a picture is paired."""
        if not isinstance(path, bytes):
            raise self.catalogues[side].failure(Damaged("the path of a picture isn't bytes"))
        head = self.heads[side]
        return path[len(head) :] if path.startswith(head) else path

    def _pair(self) -> None:
        """Finds the pictures that only one side has, and which of them are one that moved. If all that are chosen are on both sides, nobody asks
        for others."""
        alone = [self._query_alone(side) for side in (BEFORE, AFTER)]
        chosen = [
            f"{query} AND {self._is_chosen(side)} LIMIT 1" for side, query in zip((BEFORE, AFTER, BEFORE), (*alone, self._query_taken()))
        ]
        if self.has_chosen and not any(self.base.execute(query).fetchone() for query in chosen):
            return
        for base, query in zip(_BASES, alone):
            self.base.execute(f"INSERT INTO alone_{base} {query}")
        if self.by_stem:
            self._match()
        else:
            self._find_moved()

    def _find_moved(self) -> None:
        """Pairs the others by what they have, and finds those that were renumbered."""
        self.base.execute(f"INSERT INTO taken {self._query_taken()}")
        for keys, have_taken in (((_FORM,), False), ((_FILE,), True), ((*_ROUNDS, *_CODED), False), ((*_KEYS, *_CODED), True)):
            those = "taken" if have_taken else "alone_before, alone_after"
            if not self.base.execute(f"SELECT 1 FROM {those}").fetchone():
                continue
            for key in keys:
                left = self._alone(BEFORE, key, have_taken), self._alone(AFTER, key, have_taken)
                may_differ = key in (_FORM, *_CODED)
                how = f"{int(may_differ)}, {int(key.startswith(_FILE))}"
                self.base.executemany(f"INSERT INTO moved VALUES (?, ?, {how})", _equal(*left, not may_differ))
            if have_taken:
                self.base.execute(_NOT_RENUMBERED)

    def _query_taken(self) -> str:
        """A query for the numbers of the pictures under one name that are two files. Some systems count times in seconds, so scans of one size
        may have one time, too; then the inode tells them apart, where the blocks are others."""
        return (
            f"SELECT old.id, new.id FROM before.pictures AS old JOIN after.pictures AS new ON new.path = {self._other_path(BEFORE)}"
            " WHERE old.problem IS NULL AND new.problem IS NULL AND CASE WHEN old.sha256 != '' AND new.sha256 != ''"
            " THEN old.sha256 != new.sha256 OR old.xmp_octets IS NOT new.xmp_octets ELSE old.size != new.size OR old.modified != new.modified"
            " OR old.inode != new.inode AND"
            " (old.exif_octets, old.iptc_octets, old.xmp_octets) IS NOT (new.exif_octets, new.iptc_octets, new.xmp_octets) END"
        )

    def _match(self) -> None:
        """Pairs the others by their names without the ending."""
        sides = []
        for side, base in enumerate(_BASES):
            query = f"SELECT id, path, ifnull(type, '') FROM {base}.pictures AS {_ALIASES[side]} WHERE {_is_there(_ALIASES[side])}"
            rows = self.base.execute(query).fetchall()
            sides.append([File(number, self._named(side, path), str(type_)) for number, path, type_ in rows])
        found = partners(*sides)
        self.base.executemany("INSERT INTO moved VALUES (?, ?, ?, 1)", ((one.id, other.id, _PARTNER) for one, other in found.pairs))
        for base, files in zip(_BASES, found.unclear):
            self.base.executemany(f"INSERT INTO unclear_{base} VALUES (?)", ((it.id,) for it in files))

    def _query_alone(self, side: int) -> str:
        """A query for the numbers of the pictures that only this side has."""
        mine, other = _ALIASES[side], _ALIASES[1 - side]
        on = f"{other}.path = {self._other_path(side)} AND {_is_there(other)}"
        paired = f"SELECT 1 FROM {_BASES[1 - side]}.pictures AS {other} WHERE {on}"
        return f"SELECT {mine}.id FROM {_BASES[side]}.pictures AS {mine} WHERE {_is_there(mine)} AND NOT EXISTS ({paired})"

    def _alone(self, side: int, key: str, has_taken: bool) -> Iterator[Row]:
        """The number, the digests and the key of each picture that isn't paired yet, by key and path, also of those whose name has another file.
        SQLite has sorted them before the first is fetched."""
        key = f"form(substr(path, {len(self.heads[side]) + 1}))" if key == _FORM else key
        alone = [f"SELECT id FROM alone_{base}" + f" UNION SELECT {alias} FROM taken" * has_taken for base, alias in zip(_BASES, _ALIASES)]
        rows = [f"FROM ({query}) CROSS JOIN {base}.pictures USING (id)" for base, query in zip(_BASES, alone)]
        base, is_coded, is_content = _BASES[side], key in _CODED, key.startswith("content")
        left = (
            f"{rows[side]} WHERE problem IS NULL AND {_HAS_KEY} AND id NOT IN (SELECT {_ALIASES[side]} FROM moved)"
            + " AND coded_picture != ''" * is_coded
            + " AND not_read IS NOT NULL AND NOT (exif_octets = '' AND iptc_octets = '' AND xmp_octets = '')" * is_content
            # of all that were edited a digest is made only if one may be equal: their key has the size and the time, too
            + f" AND (size, modified) IN (SELECT size, modified {rows[1 - side]})" * (is_content and has_taken)
        )
        query = f"SELECT id, sha256, coded_picture, {key} {left}"
        if is_coded or is_content:
            query += f" AND ({key}) IN (SELECT {key} {left} GROUP BY {key} HAVING count(*) = 1)"
        if key.startswith("sha256"):
            query += " AND sha256 != ''"
        if key in _LIKELY:
            query += f" AND {_IS_ALONE.format(base=base)}"
        if key == _CODED[-1]:
            query += f" AND {_HAS_NO_COPY.format(base=base)}"
        return self.base.execute(f"{query} ORDER BY {key}, path")

    # The results

    def differing(self, every: bool = False) -> Iterator[Pair]:
        """The pictures before that aren't known to be the same, or all of them, in the order of their paths."""
        columns = ", ".join(f"{alias}.{it}" for alias in _ALIASES for it in PICTURES.names)
        query = (
            f"SELECT {columns}, old.id IN (SELECT id FROM main.unclear_before), place.path, moved.new, moved.is_edited, moved.is_sure,"
            f" old.id IN (SELECT old FROM taken) OR moved.new IN (SELECT new FROM taken), {SQL.replace('new.', 'place.')}"
            " FROM before.pictures AS old"
            " LEFT JOIN main.moved ON moved.old = old.id LEFT JOIN after.pictures AS place ON place.id = moved.new"
            f" LEFT JOIN after.pictures AS new ON new.path = {self._other_path(BEFORE)} AND {_is_there('new')}"
            " AND moved.old IS NULL AND new.id NOT IN (SELECT new FROM moved)"
            f" WHERE {_is_there('old')} AND {self._is_chosen(BEFORE)} AND {'TRUE' if every else _SAME} ORDER BY old.path"
        )
        yield from self._rows(query, self._pair_of_row)

    def _pair_of_row(self, row: Row) -> Pair:
        name, place, moved, is_edited = self._named(BEFORE, row[1]), *row[-6:-3]
        to = None if place is None else self._named(AFTER, place)
        is_one = to is not None and shown_form(to) == shown_form(name)
        is_read = bool(is_edited or is_one)  # whether the picture under the other name is compared
        if row[PICTURES.width] is None and not is_read:
            is_unclear, is_sure, is_renumbered = map(bool, (row[-7], row[-3], row[-2]))
            has_new_name = all((to is not None, is_renumbered))
            return Pair(name, None, None, to, has_new_name, is_sure, is_unclear=is_unclear, coded=Coded(str(row[-1])))
        new = row[PICTURES.width : 2 * PICTURES.width]
        if is_read:
            new = self.base.execute(f"SELECT {PICTURE_COLUMNS} FROM after.pictures WHERE id = ?", (moved,)).fetchone()
        is_partner = is_edited == _PARTNER
        has_moved = is_read and (is_partner or not is_one)
        pictures = self._picture(BEFORE, row[: PICTURES.width]), self._picture(AFTER, new)
        return Pair(name, *pictures, to if has_moved else None, is_partner=is_partner)

    def came(self) -> Iterator[Pair]:
        """The pictures that are only there afterwards and aren't moved ones, in the order of their paths."""
        query = (
            f"SELECT path, id IN (SELECT id FROM main.unclear_after) FROM alone_after JOIN after.pictures AS new USING (id) WHERE {self._is_chosen(AFTER)}"
            " AND id NOT IN (SELECT new FROM moved) ORDER BY path"
        )
        yield from self._rows(query, lambda row: Pair(self._named(AFTER, row[0]), None, None, None, is_unclear=bool(row[1])))

    def has_others(self) -> bool:
        """Whether pictures are only there afterwards, chosen or not, and aren't known to be moved ones."""
        query = (
            "SELECT 1 FROM alone_after JOIN after.pictures USING (id) WHERE problem IS NULL AND id NOT IN (SELECT new FROM moved) LIMIT 1"
        )
        return next(self._rows(query, bool), False)

    def count(self) -> int:
        """How many pictures were there before."""
        query = f"SELECT count(*) FROM before.pictures AS old WHERE {_is_there('old')} AND {self._is_chosen(BEFORE)}"
        return next(self._rows(query, lambda row: int(row[0])))

    def coded(self) -> "Counter[Coded]":
        """How many pictures that are on both sides, perhaps elsewhere, have the same coded picture, another one, and so on."""
        pictures = (
            "FROM before.pictures AS old LEFT JOIN moved ON moved.old = old.id JOIN after.pictures AS new"
            f" ON new.id = ifnull(moved.new, (SELECT id FROM after.pictures WHERE path = {self._other_path(BEFORE)}))"
            f" WHERE old.problem IS NULL AND new.problem IS NULL AND {self._is_chosen(BEFORE)} AND moved.is_edited IS NOT {_PARTNER}"
        )
        result = f"'{Coded.UNKNOWN}'"
        if any(self._has(base, "damage != ''") for base in _BASES) or all(
            self._has(base, "coded_picture != '' OR sha256 != ''") for base in _BASES
        ):
            result = SQL
        return Counter(dict(self._rows(f"SELECT {result}, count(*) {pictures} GROUP BY 1", lambda row: (Coded(row[0]), int(row[1])))))

    def _has(self, base: str, condition: str) -> bool:
        """Whether a picture of a side is so."""
        return next(self._rows(f"SELECT 1 FROM {base}.pictures WHERE {condition} LIMIT 1", bool), False)

    def blocks(self, side: int, picture: PictureRecord) -> list[BlockRecord]:
        """A picture's blocks."""
        query = f"SELECT {BLOCK_COLUMNS} FROM {_BASES[side]}.blocks WHERE picture = ? ORDER BY number"
        return with_kept_fields(self._of(side, query, picture, block_of_row))

    def fields(self, side: int, block: BlockRecord | None) -> list[Field]:
        """The fields of a block; none if they aren't kept, or if there is no block."""
        with self.catalogues[side].guarded():
            return fields_of(block) if block else []

    def maker_notes(self, side: int, picture: PictureRecord, unpack: Callable[[bytes], Made]) -> Made | None:
        """The result of `unpack` for what ExifTool read of a picture's MakerNotes, if it was asked."""
        return self.catalogues[side].maker_notes(picture, unpack)

    def not_read(self, side: int, picture: PictureRecord) -> list[NotRead]:
        """The parts of a picture that were not read."""
        query = f"SELECT what, digest FROM {_BASES[side]}.not_read WHERE picture = ? ORDER BY number"
        return self._of(side, query, picture, not_read_of_row)

    def _of(self, side: int, query: str, picture: PictureRecord, factory: Callable[..., Made]) -> list[Made]:
        with self.catalogues[side].guarded():
            return [factory(row) for row in self.base.execute(query, (picture.id,))]

    def _picture(self, side: int, row: Row) -> PictureRecord:
        with self.catalogues[side].guarded():
            return picture_of_row(row)

    def _rows(self, query: str, factory: Callable[..., Made]) -> Iterator[Made]:
        with self._guarded():
            for row in self.base.execute(query):
                yield factory(row)


def _is_there(alias: str) -> str:
    return f"({alias}.problem IS NULL OR {alias}.problem NOT IN {NOT_THERE})"


def _content(size: int, unread: str, *octets: str) -> bytes:
    """What identifies a picture under any name, in 32 bytes."""
    return hashlib.sha256(repr(content_key(octets, unread, size)).encode("utf-8", "surrogatepass")).digest()


def _equal(rows: Iterator[Row], others: Iterator[Row], both: bool) -> Iterator[tuple[object, object]]:
    """The numbers of the rows with equal keys in two sequences that are in the order of their keys, each once. A row has a number, two digests,
    and then its key; no two are returned of which a digest is known to differ: the second one, or `both`.

    >>> rows = iter([(1, None, None, "a"), (2, None, None, "b"), (3, None, None, "b"), (4, None, "one", "d")])
    >>> list(_equal(rows, iter([(7, "", "", "b"), (8, "", "", "c"), (9, "", "two", "d")]), True))
    [(2, 7)]
    """
    first, second = next(rows, None), next(others, None)
    while first is not None and second is not None:
        if first[3:] == second[3:]:
            digests = zip(first[1:3], second[1:3]) if both else [(first[2], second[2])]
            if not any(one and other and one != other for one, other in digests):
                yield first[0], second[0]
            first, second = next(rows, None), next(others, None)
        elif first[3:] < second[3:]:
            first = next(rows, None)
        else:
            second = next(others, None)
