"""The rows of an export, picture by picture."""

from __future__ import annotations

import contextlib
import functools
import sqlite3
from itertools import chain, islice
from typing import Any, Iterable, Iterator, NamedTuple, Sequence

from ..catalogue.store import Catalogue, address, connect
from ..catalogue.texts import texts_of
from ..comparison.same.group import Keep, keeping, sentence_of
from ..comparison.same.groups import Groups
from ..fields.block_fields import BlockFields
from ..fields.packing import divided, field_of, text_of, unpacked
from ..fields.field import Field
from ..fields.labels import Captions, names_camera, word_of
from ..fields.listing import is_rest
from ..fields.names import exact_key, group_name
from ..fields.places import is_of_position, of_position, position_of
from ..fields.plain_texts import EMPTY
from ..fields.plain_values import is_bare, plain_and_exact
from ..fields.typed import number_of
from ..files import signals
from ..files.session import Session
from ..model import steps
from ..model.records import BlockRecord, PictureRecord, Row, not_read_of_row
from ..model.tables import BLOCKS, PICTURES, block_of_row, picture_of_row
from ..model.errors import Damaged, Failure
from ..model.texts import path_members
from ..scan.progress import Progress

# The tables of an export. The tables of docs/CATALOGUE.md are printed from their comments.

APPLICATION = 0x45584E54  # 'EXNT', which distinguishes an export from a catalogue and from other SQLite files
VERSION = 2
_CACHE = 8_000  # kB

# Of each table its columns, each after the comment that explains it and those that follow without
# one. An export has these comments too: `.schema` of the sqlite3 shell prints them.
SCHEMA = r"""
CREATE TABLE about (
    -- `schema` (the version of the tables), `exifnorm` (the version that exported), `exported`
    -- (when, in UTC), `catalogue` (its path), `indexed` (when the last run of `index` began),
    -- `indexed by` (its version of exifnorm)
    key TEXT PRIMARY KEY,
    -- a text
    value TEXT NOT NULL
) WITHOUT ROWID;
CREATE TABLE pictures (
    -- a number; the other tables have it as `picture`. In the next export another picture may have
    -- it
    id INTEGER PRIMARY KEY,
    -- the absolute path. If it isn't UTF-8, bytes are escaped as `\xff`, and a backslash as `\\`
    path TEXT NOT NULL,
    -- 1 for such a path, else 0
    path_is_escaped INTEGER NOT NULL,
    -- the bytes of such a path, else NULL
    path_bytes BLOB,
    -- the folder that was indexed
    folder TEXT NOT NULL,
    -- the format: JPEG, PNG, WEBP, TIFF, or ExifTool's word
    type TEXT,
    -- `accepted`: all blocks were read; `refused`: a block is refused or unreadable; `no metadata`;
    -- `damaged`: the file is cut off, and what is left has no block; `not read`
    state TEXT NOT NULL,
    -- why a file wasn't read, in a word and in a sentence
    problem TEXT,
    detail TEXT,
    -- bytes of the file
    size INTEGER,
    -- the time of the last change of the file, in UTC: `2024-05-02 08:12:33`
    modified TEXT,
    -- SHA-256 of the meaning of its blocks of that kind: equal exactly if they mean the same. NULL if
    -- there is no block, if one is refused, or if one may be missing because the file is cut off
    exif TEXT,
    iptc TEXT,
    xmp TEXT,
    -- with `index --pixels`, a digest of the bytes from which the pixels are decoded. Else NULL
    coded_picture TEXT,
    -- with `index --pixels`, SHA-256 of the file, as `sha256sum` prints it. Else NULL
    sha256 TEXT,
    -- where the file is cut off, as `the file ends inside the segment at 2000`; with
    -- `index --pixels` also other damage of the picture. Else NULL
    damage TEXT,
    -- where it was taken, in degrees, north and east positive, by Exif or XMP; NULL if a part of
    -- the position is missing
    latitude REAL,
    longitude REAL
);
CREATE TABLE blocks (
    -- the picture, and the number of the block in it
    picture INTEGER NOT NULL REFERENCES pictures(id),
    block INTEGER NOT NULL,
    -- `exif`, `iptc` or `xmp`
    kind TEXT NOT NULL,
    -- which block: `Exif`, `second Exif`, `Exif of page 2` ..
    name TEXT NOT NULL,
    -- where it is in the file
    source TEXT NOT NULL,
    -- the program that took it out: `own`, `exiftool` or `exiv2`
    extractor TEXT NOT NULL,
    -- `accepted`, `refused`, `unreadable`, `too long` or `failed`
    status TEXT NOT NULL,
    -- why it is not accepted (REFUSALS.md), and at which byte
    cause TEXT,
    offset INTEGER,
    -- its number of bytes
    length INTEGER NOT NULL,
    -- the repair in memory after which its fields were read, in words
    repair TEXT,
    -- SHA-256 of what it means, if it is accepted
    digest TEXT,
    -- 1 if it has a MakerNote, else 0. Its values are in the table maker_notes
    maker_note INTEGER NOT NULL,
    PRIMARY KEY (picture, block)
) WITHOUT ROWID;
CREATE TABLE fields (
    -- the block, and the number of the field in it
    picture INTEGER NOT NULL REFERENCES pictures(id),
    block INTEGER NOT NULL,
    position INTEGER NOT NULL,
    -- ExifTool's name with its group: `IFD0:Artist`, `IPTC:Keywords`, `XMP-dc:title`
    name TEXT NOT NULL,
    -- `main`, `exif`, `interop`, `gps`, `thumb`, `iptc` or `xmp`
    directory TEXT NOT NULL,
    -- the tag as `0x013b`, the DataSet as `2:25`, or the property
    key TEXT NOT NULL,
    -- the type of the standard, such as `ASCII`, and the number of its elements
    type TEXT NOT NULL,
    count INTEGER NOT NULL,
    -- the value in plain words: 1/125 s, turn 90° clockwise to view, 2024-05-02 08:12:33
    value TEXT NOT NULL,
    -- exactly, as `show --exact` prints it: 10/1250. Of a long value the beginning and a SHA-256
    exact TEXT NOT NULL,
    -- the value as a number, if it is one number: `0.008`
    number REAL,
    PRIMARY KEY (picture, block, position)
) WITHOUT ROWID;
CREATE TABLE captions (
    -- the picture, and the number of the text in it
    picture INTEGER NOT NULL REFERENCES pictures(id),
    position INTEGER NOT NULL,
    -- `title`, `caption`, `headline`, `creator`, `creator's job`, `credit`, `source`, `copyright`,
    -- `keywords`, `job identifier`, `date created`, `location`, `city`, `state`, `country`,
    -- `instructions`, `usage terms` or `comment`
    label TEXT NOT NULL,
    -- `Exif`, `IPTC` or `XMP`
    standard TEXT,
    -- the field that has the text: `IPTC:Caption-Abstract`
    field TEXT,
    -- its block; NULL for the first of its kind
    block TEXT,
    -- the text; a list such as keywords has a row for each. NULL if it could not be read
    text TEXT,
    -- how the character set was found, if it isn't declared
    guess TEXT,
    -- 1 for a caption or comment that a camera or a program writes by itself, such as `OLYMPUS
    -- DIGITAL CAMERA`; else 0
    own INTEGER,
    PRIMARY KEY (picture, position)
) WITHOUT ROWID;
CREATE TABLE maker_notes (
    -- the picture, and the number of the value in it
    picture INTEGER NOT NULL REFERENCES pictures(id),
    position INTEGER NOT NULL,
    -- ExifTool's name with its group: `Canon:SerialNumber`, `Nikon:ISO`
    name TEXT NOT NULL,
    -- the value as ExifTool prints it with `-n`; of a long one the beginning and a SHA-256
    value TEXT NOT NULL,
    PRIMARY KEY (picture, position)
) WITHOUT ROWID;
CREATE TABLE conflicts (
    -- the picture, and the label
    picture INTEGER NOT NULL REFERENCES pictures(id),
    label TEXT NOT NULL,
    -- `different` for a contradiction; `another order`, `empty`, `camera's text`, `joined`, `cut`
    -- or `character set` for a difference of form
    kind TEXT NOT NULL,
    -- the difference in words, or NULL
    detail TEXT,
    PRIMARY KEY (picture, label)
) WITHOUT ROWID;
CREATE TABLE not_read (
    -- the picture, and the number of the part
    picture INTEGER NOT NULL REFERENCES pictures(id),
    position INTEGER NOT NULL,
    -- the part in words
    part TEXT NOT NULL,
    PRIMARY KEY (picture, position)
) WITHOUT ROWID;
CREATE TABLE groups (
    -- the number of the group
    number INTEGER NOT NULL,
    -- what it rests on: `meaning`, `bytes` or `repair`, see COMPARED.md
    kind TEXT NOT NULL,
    -- what is the same, in a sentence
    description TEXT NOT NULL,
    -- the picture
    picture INTEGER NOT NULL REFERENCES pictures(id),
    -- 0 for a file that you can delete: neither it nor the file with 1 is damaged, and that has the
    -- same metadata and `coded_picture` and all its other parts, or the same bytes. NULL for every
    -- other file, for one that is no picture, such as an XMP file, and with `--no-look`
    keep INTEGER,
    -- which picture it equals, or why `keep` is NULL
    keep_note TEXT,
    PRIMARY KEY (number, picture)
) WITHOUT ROWID;
"""
_INDEXES = """
CREATE INDEX pictures_by_path ON pictures (path);
CREATE INDEX pictures_by_state ON pictures (state);
CREATE INDEX fields_by_name ON fields (name, value);
CREATE INDEX captions_by_label ON captions (label, text);
CREATE INDEX maker_notes_by_name ON maker_notes (name, value);
CREATE INDEX groups_by_picture ON groups (picture);
"""

# Positions are found after the rows of pictures are written. Those of a million pictures don't fit into memory
_POSITIONS = "CREATE TEMP TABLE positions (picture INTEGER PRIMARY KEY, latitude REAL, longitude REAL)"
_PLACE = """UPDATE pictures SET (latitude, longitude) = (SELECT latitude, longitude FROM positions WHERE picture = id)
    WHERE id IN (SELECT picture FROM positions)"""

# By which SQLite copies the rows of a catalogue that is attached. Python looks at each, and tells
# what a path is. Without LIMIT each place with `name` would ask for it
_PICTURES = """INSERT INTO main.pictures
SELECT id, name, name != CAST(path AS TEXT), CASE WHEN name != CAST(path AS TEXT) THEN path END,
    shown(root), nullif(type, ''),
    CASE WHEN problem != '' THEN 'not read'
        WHEN exif || iptc || xmp IS NULL THEN 'refused'
        WHEN exif || iptc || xmp != '' THEN 'accepted'
        WHEN damage != '' AND not_read IS NOT '' THEN 'damaged'
        ELSE 'no metadata' END,
    nullif(problem, ''), nullif(detail, ''), size,
    strftime('%Y-%m-%d %H:%M:%S', modified / 1000000000 - (modified % 1000000000 < 0), 'unixepoch'),
    nullif(exif, ''), nullif(iptc, ''), nullif(xmp, ''),
    nullif(coded_picture, ''), nullif(sha256, ''), nullif(damage, ''), NULL, NULL
FROM (SELECT *, shown(path) AS name FROM catalogue.pictures WHERE is_picture({}){} LIMIT -1)"""
_BLOCKS = """INSERT INTO main.blocks
SELECT picture, number, kind, name, source, extractor, status, nullif(cause, ''), place, length,
    CASE WHEN repair != '' THEN words(repair) END, digest, note IS NOT NULL
FROM catalogue.blocks WHERE is_block({}){}"""


class Tables:
    """The tables of a new file, which are filled row by row in memory that doesn't grow with them."""

    def __init__(self, base: sqlite3.Connection) -> None:
        self._base = base
        self._put = base.cursor().executemany
        self.counts: dict[str, int] = {}

    def copy(self, catalogue: Catalogue, only: str | None) -> None:
        """Adds the pictures and blocks of a catalogue, or those of a table of paths, by SQLite alone.
        Then a transaction begins."""
        of_pictures = " AND path IN chosen" * bool(only)
        of_blocks = " AND picture IN (SELECT id FROM main.pictures)" * bool(only)
        if only:
            self._base.execute("CREATE TEMP TABLE chosen (path BLOB PRIMARY KEY) WITHOUT ROWID")
            self._put("INSERT INTO chosen VALUES (?)", catalogue.rows(f"SELECT path FROM {only}"))
        for file in catalogue.files:
            self._base.execute("ATTACH ? AS catalogue", (address(file),))
            self._base.execute(_PICTURES.format(PICTURES.listed, of_pictures))
            self._base.execute(_BLOCKS.format(BLOCKS.listed, of_blocks))
            self._base.execute("DETACH catalogue")
        (self.counts["pictures"],) = self._base.execute("SELECT count(*) FROM main.pictures").fetchone()
        self._base.execute("BEGIN")

    def add(self, table: str, rows: Iterable[Row]) -> None:
        """Adds rows to a table, of which a hundred at a time are made."""
        left = iter(rows)
        while several := storable(list(islice(left, 100))):
            self.counts[table] = self.counts.get(table, 0) + len(several)
            statement = f"INSERT INTO {table} VALUES (?{', ?' * (len(several[0]) - 1)})"
            try:
                self._put(statement, several)
            # halves of characters, which a damaged catalogue may have. The rows before the one with them are written
            except UnicodeEncodeError:
                whole = [[it.encode("utf-8", "backslashreplace").decode() if isinstance(it, str) else it for it in row] for row in several]
                self._put(statement.replace("INSERT", "INSERT OR REPLACE", 1), whole)

    def finish(self) -> None:
        """Writes what is left, and the indexes."""
        self._base.execute(_PLACE)
        self._base.execute("COMMIT")
        self._base.executescript(_INDEXES)
        self._base.execute("ANALYZE")


@contextlib.contextmanager
def tables(file: str) -> Iterator[Tables]:
    """The tables of a new file. A file that is cut short is of no use to anybody, so nothing of it is kept safe."""
    with contextlib.closing(connect(address(file, "rwc"))) as base:
        for pragma in (
            "foreign_keys = OFF",
            f"application_id = {APPLICATION}",
            f"user_version = {VERSION}",
            "journal_mode = OFF",
            "synchronous = OFF",
            f"cache_size = -{_CACHE}",
        ):
            base.execute(f"PRAGMA {pragma}")
        base.executescript(SCHEMA + _POSITIONS)
        base.create_function("is_picture", PICTURES.width, lambda *row: bool(picture_of_row(row)))
        base.create_function("is_block", BLOCKS.width, lambda *row: bool(block_of_row(row)))
        base.create_function("words", 1, lambda text: without_nul(steps.words(steps.unpacked(text))) or None)
        base.create_function("shown", 1, functools.lru_cache(2)(_shown))  # a path, and the folder of many
        written = Tables(base)
        try:
            yield written
            written.finish()
        except sqlite3.Error as error:
            signals.go_on_stopping()
            if type(error) is sqlite3.DatabaseError:  # as SQLite calls a file of which it can't read what it has written
                raise Failure(f"the temporary file of the export can't be read: {error}") from error
            raise


def storable(rows: list[Row]) -> list[Row]:
    r"""Rows as they can be stored.

    >>> storable([(1, "a\0b", None, "c"), (2, "", None, "d")])
    [(1, 'a\\x00b', None, 'c'), (2, '', None, 'd')]
    """
    if "\0" not in "".join(map(str, chain.from_iterable(rows))):
        return rows
    return [tuple(without_nul(cell) if isinstance(cell, str) else cell for cell in row) for row in rows]


def without_nul(text: str) -> str:
    r"""A text without NUL, at which many functions of SQLite and its shell end a text.

    >>> without_nul("a\0b")
    'a\\x00b'
    """
    return text.replace("\0", "\\x00")


def head_is_ours(head: bytes) -> bool:
    """Whether the first 100 bytes are those of an export, of any version."""
    return head[:16] == b"SQLite format 3\0" and int.from_bytes(head[68:72], "big") == APPLICATION


# The columns of a block that no text depends on
_OTHERS = BlockRecord("", "", "", "", "", None, None, None, 0, "")[2:]
KEPT_ROWS, SHORT = 2048, 300  # rows of fields that are kept, of each kind, and the most characters of such a field as JSON


class Export:
    """Fills the tables of an export."""

    def __init__(self, catalogue: Catalogue, tables: Tables, only: str | None, session: Session | None) -> None:
        self.catalogue, self.tables, self.only, self.session = catalogue, tables, only, session
        self.missing = 0  # pictures with a text that is too long to be kept
        self.maker_notes = 0  # pictures with a MakerNote that ExifTool wasn't asked about
        self.groups = Groups(catalogue, only, bool(session))
        self._fields = FieldRows()

    def all(self, quiet: bool) -> None:
        """Adds each picture, and then the groups. Prints its progress, unless it is quiet."""
        where = f" WHERE picture IN (SELECT id FROM pictures WHERE path IN {self.only})" if self.only else ""
        self._copy()
        self.tables.add("not_read", self.catalogue.rows(f"SELECT picture, number, what, digest FROM not_read{where}", (), _part_row))
        progress = Progress(self.tables.counts["pictures"], quiet=quiet)
        for count, (picture, rows) in enumerate(self.catalogue.packed_fields("kind, name, note", where), 1):
            self._picture(picture, rows)
            progress.done(count)
        progress.done(progress.total)
        for number, group in enumerate(self.groups.by_meaning(), 1):
            keeps = keeping(group) if self.session else {}
            about = (number, group.basis, sentence_of(group))
            kept = ((it.id, keeps.get(it.id, Keep())) for it in group.members)
            self.tables.add("groups", ((*about, number, it.keep, it.note() or None) for number, it in kept))

    def _copy(self) -> None:
        """Adds pictures and blocks. Raises `NoCatalogue` if one is damaged."""
        try:
            self.tables.copy(self.catalogue, self.only)
        except sqlite3.Error as error:
            signals.go_on_stopping()
            for _ in chain(self.catalogue.pictures(), self.catalogue.rows(f"SELECT {BLOCKS.listed} FROM blocks", (), block_of_row)):
                pass  # SQLite doesn't say what is damaged of a row
            if "disk is full" in str(error):  # that of the export
                raise
            raise self.catalogue.failure(error) from error

    def _picture(self, picture: int, rows_of_blocks: Sequence[tuple[Any, ...]]) -> None:
        """Adds what the blocks of a picture have."""
        with self.catalogue.guarded():
            fields = [self._fields.of_block(row[-1]) for row in rows_of_blocks]
        self.tables.add(
            "fields",
            ((picture, number, at, *row.cells) for number, rows in enumerate(fields) for at, row in enumerate(rows)),
        )
        if any([note is not None for _, _, note, _ in rows_of_blocks]):
            self._maker_notes(picture)
        blocks = [BlockRecord._make((*row[:2], *_OTHERS)) for row in rows_of_blocks]
        self._texts(picture, [(block, [row.part for row in rows if row.part]) for block, rows in zip(blocks, fields)])

    def _maker_notes(self, picture: int) -> None:
        """What ExifTool reads of the MakerNotes of a picture, if it was asked."""
        from ..judge.maker_notes import unpacked_reading  # which takes long to import

        reading = self.catalogue.maker_notes(PictureRecord(picture), unpacked_reading)
        self.maker_notes += reading is None
        values = reading.values.items() if reading else ()
        self.tables.add("maker_notes", [(picture, at, *value) for at, value in enumerate(values)])

    def _texts(self, picture: int, blocks: Sequence[BlockFields]) -> None:
        angles = [it for _, fields in blocks for it in of_position(fields)]
        place = position_of(angles) if angles else None
        if place:
            self.tables.add("positions", [(picture, *place)])
        texts = texts_of(blocks)
        missing = texts.missing
        self.missing += bool(missing)
        rows = [*_text_rows(texts.texts), *((word, *(None,) * 6) for word in sorted(missing))]
        self.tables.add("captions", [(picture, at, *row) for at, row in enumerate(rows)])
        self.tables.add("conflicts", [(picture, one.label, one.kind, one.detail or None) for one in texts.conflicts()])


def _part_row(row: Row) -> Row:
    return (*row[:2], not_read_of_row(row[2:]).what)


def _shown(path: bytes) -> str:
    """A path as a text, in which bytes are escaped if it is no UTF-8."""
    return without_nul(str(path_members(path)["path"]))


class FieldRow(NamedTuple):
    """The row of a field."""

    cells: Row
    part: Field | None  # the field, if the texts or the position of a picture are made of such fields


def _of_tag(directory: str, tag: str) -> tuple[str, str, bool, bool]:
    """What the row of a field has by its directory and its tag: its name, its key, whether the texts or the position of a picture are made of
    it, and whether a text of it is printed as it is."""
    field = Field(directory, tag, "", 0, b"")
    is_part = word_of(field) is not None or names_camera(field) or is_rest(directory, tag) or is_of_position(field)
    return group_name(directory, tag), exact_key(directory, tag), is_part, is_bare(directory, tag)


_cached = functools.lru_cache(maxsize=KEPT_ROWS)(_of_tag)


class FieldRows:
    """Makes rows of packed fields. Short ones are kept for the next picture: pictures have many fields in common, which then aren't even
    unpacked."""

    def __init__(self) -> None:
        self._kept: dict[str, dict[str, FieldRow]] = {}  # by how a field begins, and its rest

    def of_block(self, octets: bytes | None) -> list[FieldRow]:
        """The row of each field of a block. Raises `Damaged`."""
        if not octets:
            return []
        begin, rests = divided(octets)
        kept = self._kept.setdefault(begin, {})
        try:
            return [kept.get(rest) or self._new(begin, rest) for rest in rests]
        except Damaged:  # or a value that has what is between two fields
            return list(map(self._row_of, unpacked(octets)))

    def _new(self, begin: str, rest: str) -> FieldRow:
        is_short, kept = len(rest) <= SHORT, self._kept[begin]
        known = text_of(begin, rest) if is_short else None
        row = self._row_of(*known) if known else self._row_of(field_of(begin, rest))
        if is_short:
            if len(kept) >= KEPT_ROWS:
                kept.clear()
            kept[rest] = row
        return row

    def _row_of(self, field: Field, text: str | None = None) -> FieldRow:
        directory, tag, kind, count, _ = field._identity
        name, key, is_part, is_bare = _cached(directory, tag) if len(tag) <= SHORT else _of_tag(directory, tag)
        part = field if is_part else None
        if text is not None and is_bare:
            shown = text if directory == "xmp" else text.rstrip(" ")
            return FieldRow((name, directory, key, kind, count, shown or EMPTY, f'"{text}"', None), part)
        return FieldRow((name, directory, key, kind, count, *plain_and_exact(field), number_of(field)), part)


def _text_rows(texts: Captions) -> Iterator[Row]:
    """A row for each text, several of a list."""
    for caption in texts:
        about, more = (caption.label, caption.standard, caption.field, caption.block or None), (caption.guess or None, int(caption.is_own))
        yield from [(*about, text, *more) for text in caption.texts if text]
