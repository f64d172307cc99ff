"""The tables of a catalogue for pictures and blocks: from the one definition of each record the SQL, the names in queries, and records of rows
are made."""

from __future__ import annotations

import typing
from operator import itemgetter
from typing import Any, Callable, Iterable, get_args, get_type_hints

from .records import BlockRecord, Is, PictureRecord, Row, check, kind_of
from .steps import unpacked

_SQL = {int: "INTEGER", str: "TEXT", bytes: "BLOB"}
_IsShort = Callable[[Row], bool]


class Columns:
    """The columns of a record, in order: its fields up to the last one that is declared as a column. The others have defaults."""

    def __init__(self, record: Any, first: Iterable[str] = (), last: Iterable[str] = ()) -> None:
        """`first` and `last` are further definitions in SQL, each with what it is after `--`."""
        # records don't import `typing`, which takes long
        columns = [
            (name, kind.__origin__, more if isinstance(more, Is) else Is(more))
            for name, kind in get_type_hints(record, localns=vars(typing), include_extras=True).items()
            for more in getattr(kind, "__metadata__", ())
        ]
        self.names = tuple(name for name, _, _ in columns)
        self.types = [get_args(kind) or kind for _, kind, _ in columns]  # those of a row's values
        self.longest = [more.longest for _, _, more in columns]
        self.width = len(columns)
        self.listed = ", ".join(self.names)  # for a query
        self._record_of = record._make
        self._others = tuple(record._field_defaults[name] for name in record._fields[self.width :])
        self._lines = [*first, *(_defined(name, kind, more) for name, kind, more in columns), *last]
        self._right: dict[tuple[type, ...], _IsShort] = {}  # by the types of a row, which are right: whether its values are short

    def table(self, name: str, end: str = "") -> str:
        """The statement that makes the table."""
        parts = [it.partition(" -- ") for it in self._lines]
        commas = [","] * (len(parts) - 1) + [""]
        lines = [f"    {sql + comma:<31} -- {about}" if about else f"    {sql}{comma}" for (sql, _, about), comma in zip(parts, commas)]
        return "\n".join([f"CREATE TABLE {name} (", *lines, f"){end};"])

    def record(self, row: Row) -> Any:
        """The record of a row. Raises `Damaged` if a value isn't of the type of its column, or of one of its types, or is longer than `index`
        writes any."""
        kinds = tuple(map(type, row))
        is_short = self._right.get(kinds)
        if is_short is None or not is_short(row):
            check(row, self.types, self.longest)
            if is_short is None and len(self._right) < 100:  # kinds of rows, which differ in what is missing
                self._right[kinds] = self._shortness(kinds)
        return self._record_of(row + self._others)

    def _shortness(self, kinds: tuple[type, ...]) -> _IsShort:
        """For rows with values of these types: whether all texts and bytes of a row are short enough for each of its columns."""
        sized = [at for at, kind in enumerate(kinds) if kind in (str, bytes)]
        most = min((self.longest[at] for at in sized), default=0)
        if len(sized) < 2:
            return lambda row: False
        values = itemgetter(*sized)
        return lambda row: max(map(len, values(row))) <= most


def _defined(name: str, kind: Any, more: Is) -> str:
    types = get_args(kind)
    sql = more.sql or _SQL[types[0] if types else kind] + (" NOT NULL" if not types else "")
    return f"{name} {sql}" + (f" -- {more.about}" if more.about else "")


PICTURES = Columns(PictureRecord, last=["run INTEGER NOT NULL REFERENCES runs(id)"])
BLOCKS = Columns(
    BlockRecord,
    ["picture INTEGER NOT NULL REFERENCES pictures(id) ON DELETE CASCADE", "number INTEGER NOT NULL -- the order in the file"],
    ["PRIMARY KEY (picture, number)"],
)

picture_of_row: Callable[[Row], PictureRecord] = PICTURES.record


def block_of_row(row: Row) -> BlockRecord:
    """A block of a row of the columns of BLOCKS."""
    block: BlockRecord = BLOCKS.record((kind_of(row[0]), *row[1:]))
    unpacked(block.repair)
    return block
