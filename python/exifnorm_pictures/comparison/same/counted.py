"""The pictures of a catalogue as they are without the fields that don't count: a temporary table, which `same` groups in place of the pictures."""

from __future__ import annotations

import hashlib
from itertools import islice
from typing import Iterator, NamedTuple, Sequence

from ...catalogue.store import Catalogue
from ...fields.choosing import Choice
from ...fields.field import Field
from ...fields.listing import MAKER_NOTE, exact
from ...fields.packing import unpacked
from ...model import steps
from ...model.found import EXIF, KINDS, other_name
from ...model.records import Row, Status, has, joined, kind_of
from ...model.tables import PICTURES
from ..wording import equal_form

_BATCH = 1000  # rows that are written at once


class _Counted(NamedTuple):
    """A block by its fields that count."""

    kind: str
    name: str
    digest: str | None  # of the fields that count: empty without any, None if the block isn't accepted
    repaired: str | None  # the same, also after a repair that loses nothing
    meaning: str  # of all of the block
    listing: str  # of all its fields
    other: str  # the digest of those that count, after a repair too, without the MakerNote


def make_table(catalogue: Catalogue, choice: Choice, table: str) -> None:
    """Makes the temporary table, unless it is there. Its digests are those of the fields that count, and it has three columns more: `whole`,
    which is equal for pictures that mean the same, `listing`, which is of all fields, and `place`, of MakerNotes and of what was not read.
    """
    if next(catalogue.rows("SELECT 1 FROM sqlite_temp_master WHERE name = ?", (table.rpartition(".")[2],)), None):
        return
    catalogue.execute(f"CREATE TEMP TABLE remaining (id INTEGER PRIMARY KEY, exif, iptc, xmp, repaired, other, {_SUMS})")
    rows = _rows(catalogue, choice)
    while batch := list(islice(rows, _BATCH)):
        catalogue.execute_for(batch, f"INSERT INTO temp.remaining VALUES (?{', ?' * 7})")
    catalogue.execute(f"CREATE TABLE {table} AS SELECT {_columns(choice)}, {_MORE} FROM {_JOINED}")
    catalogue.execute("CREATE UNIQUE INDEX temp.counted_by_id ON counted (id)")
    catalogue.execute("CREATE INDEX temp.counted_by_content ON counted (exif, iptc, xmp, not_read)")
    catalogue.execute("CREATE INDEX temp.counted_by_other_exif ON counted (other_exif) WHERE other_exif != ''")
    catalogue.execute("DROP TABLE remaining")


_SUMS = "whole, listing"
_MORE = f"{_SUMS}, pictures.maker_notes || ' ' || ifnull(pictures.not_read, '') AS place"
_JOINED = "pictures LEFT JOIN temp.remaining USING (id)"


def _columns(choice: Choice) -> str:
    """The columns of a picture, with the digests of the fields that count."""
    has_blocks = "remaining.id IS NOT NULL"
    columns = {it: f"CASE WHEN {has_blocks} THEN remaining.{it} ELSE pictures.{it} END" for it in KINDS}
    columns["exif_repaired"] = f"CASE WHEN {has_blocks} THEN repaired ELSE exif_repaired END"
    columns["other_exif"] = f"CASE WHEN {has_blocks} AND other_exif != '' THEN remaining.other ELSE other_exif END"
    columns.update({f"{it}_octets": f"CASE WHEN remaining.{it} = '' THEN '' ELSE {it}_octets END" for it in KINDS})
    if choice.leaves_out_maker_notes:
        columns.update(maker_notes="''", not_read="other_not_read")
    return ", ".join(f"{columns.get(it, f'pictures.{it}')} AS {it}" for it in PICTURES.names)


def _rows(catalogue: Catalogue, choice: Choice) -> Iterator[Row]:
    """A row for each picture with blocks."""
    for picture, rows in catalogue.packed_fields("kind, name, status, ifnull(digest, repaired), octets, repair"):
        with catalogue.guarded():
            blocks = [_counted(row, choice) for row in rows]
        yield (picture, *_row(blocks, choice))


def _counted(row: Row, choice: Choice) -> _Counted:
    word, name, status, digest, octets, repair, packed = row
    has(str, word, name, status, octets, *(it for it in (digest, repair) if it is not None))
    meaning = digest or octets
    if packed is None:
        own = f"whole {digest}" if status == Status.ACCEPTED else None  # its fields aren't kept, so all of it counts
        return _Counted(kind_of(word), name, own, own, meaning, "", own or "")
    # in the exact value of XMP the members of a list without an order have one
    fields = [it._with_content(exact(it)) if it.directory == "xmp" else it for it in unpacked(packed)]  # type: ignore[arg-type]
    counting = choice.of(fields, other_name(name))
    counted = _digest(counting, choice)
    accepted = counted if status == Status.ACCEPTED else None
    has_loss = repair is None or steps.loses(steps.unpacked(repair))
    others = [it for it in counting if not _is_note(it)]
    other = _digest(others, choice) or "no other field" if any(map(_is_note, fields)) else counted
    return _Counted(kind_of(word), name, accepted, accepted if has_loss else counted, meaning, _sum_of(fields), other)


def _is_note(field: Field) -> bool:
    return (field.directory, field.tag) == MAKER_NOTE


def _digest(fields: Sequence[Field], choice: Choice) -> str:
    """SHA-256 of the fields that count; empty without any."""
    if not fields:
        return ""
    return _sum([(it.directory, it.tag, equal_form(it)) for it in fields]) if choice.equal_numbers else _sum_of(fields)


def _sum_of(fields: Sequence[Field]) -> str:
    return _sum([it._identity for it in fields])


def _sum(rows: Sequence[Row]) -> str:
    return hashlib.sha256(repr(rows).encode("utf-8", "surrogatepass")).hexdigest()


def _together(blocks: Sequence[_Counted], kind: str, what: str) -> str | None:
    """One of the digests of the blocks of a kind; empty if no field counts, and None if a block isn't accepted."""
    named = [(it.name, getattr(it, what)) for it in blocks if it.kind == kind]
    if any(digest is None for _, digest in named):
        return None
    there = [(name, digest) for name, digest in named if digest]
    return joined(there) if there else ""


def _row(blocks: Sequence[_Counted], choice: Choice) -> Row:
    """The digest of each kind, of Exif after repairs, of all that the picture means, and of all its fields."""
    digests = [_together(blocks, kind, "digest") if kind in choice.kinds else "" for kind in KINDS]
    repaired = _together(blocks, EXIF, "repaired") if digests[0] is None else None
    meaning = joined([(f"{it.kind} {it.name}", it.meaning) for it in blocks])
    listing = joined([(f"{it.kind} {it.name}", it.listing) for it in blocks])
    return (*digests, repaired or None, _together(blocks, EXIF, "other"), meaning, listing)
