"""A picture that was read: its blocks, their fields and texts, and what was not read of it. `read` returns it; commands print it, also with a
problem, and as a catalogue has it."""

from __future__ import annotations

import os
import warnings
from functools import cached_property, partial
from typing import TYPE_CHECKING, Any, Callable, Container, Iterable, Iterator, Mapping, Sequence, Type, TypeVar, overload

from exifnorm._named import NamedTuple
from exifnorm._words import documented

from .comparison.origin import Origin
from .extract.extraction import failed
from .fields.block_fields import BlockFields, fields_of
from .fields.character_sets import in_found_set
from .fields.names import spellings
from .fields.listing import Shown
from .judge.judge import judge_all
from .model.budgets import TooMuch
from .model.found import EXIF, IPTC, NAMES, STANDARDS, XMP, Blocks, cut, not_known
from .model.records import BlockRecord, PictureRecord
from .model.steps import loses
from .model.texts import Members, grouped, path_members

if TYPE_CHECKING:
    from datetime import datetime

    from .catalogue.texts import PictureTexts
    from .catalogue.conflicts import Conflict
    from .fields.field import Field
    from .fields.labels import Caption
    from .fields.typed import Value

    _ByName = dict[str, list[Field]]


class NoField(KeyError):
    """A picture has no field of this name."""

    def __init__(self, name: object, names: Sequence[str] = ()) -> None:
        super().__init__(name)
        self._names = tuple(names)

    def __str__(self) -> str:
        """Also the name that may be meant. It is looked for here, because programs catch this error for each of many pictures."""
        from .fields.choosing import meant

        name = self.args[0]
        return f"{repr(name)[:100]}: the picture has no such field" + (meant(name, self._names) if isinstance(name, str) else "")


_NOTHING = object()  # what `get` returns for no field
D = TypeVar("D")
T = TypeVar("T")


@documented
class Refusal(NamedTuple):
    """Why a block has no meaning: its first fault.

    - `block`: the name of the block
    - `cause`: a word such as "EmptyDirectory"
    - `offset`: the byte of the fault in the block, or None
    - `sentence`: the fault for people
    - `remedy`: what helps

    `str` makes a line of it.
    """

    block: str
    cause: str
    offset: int | None
    sentence: str
    remedy: str

    def __str__(self) -> str:
        at = "" if self.offset is None else f" (byte {self.offset})"
        return f"{self.block}: {self.sentence.rstrip('.')}{at}."


@documented
class Position(NamedTuple):
    """Where a picture was taken.

    - `latitude`: in degrees, above zero in the north
    - `longitude`: in degrees, above zero in the east
    - `altitude`: in metres above the sea, or None
    """

    latitude: float
    longitude: float
    altitude: float | None


class Block:
    """A block of metadata.

    - `kind`: "exif", "iptc" or "xmp"
    - `name`: which block of the picture it is: "Exif", "second Exif", "Exif of page 2"
    - `status`: "accepted", "refused", "unreadable", "too long" or "failed"
    - `is_accepted`: whether it has a meaning
    - `digest`: SHA-256 of the meaning of an accepted block: equal digests of a kind, equal meaning
    - `data`: the bytes of the block, as they are in the file
    - `where`: its position in the file: "APP1 segment at 20"
    - `extractor`: the program that extracted it: "own", "exiftool" or "exiv2"
    """

    __slots__ = ("_record", "data", "kind", "name", "status", "is_accepted", "digest", "where", "extractor", "_fields_of")

    def __init__(self, record: BlockRecord, data: bytes, fields_of: Callable[[BlockRecord], list[Field]]) -> None:
        self._record, self.data, self._fields_of = record, data, fields_of
        self.kind, self.name, self.where, self.extractor = record.kind, record.name, record.source, record.extractor
        self.status, self.is_accepted, self.digest = str(record.status), record.is_accepted, record.digest

    @property
    def fields(self) -> tuple[Field, ...]:
        """Its fields, which are made when they are first asked for; of a refused block those after a repair in memory, if one is known."""
        return tuple(field._in_block(self.name) for field in self._fields_of(self._record))

    @property
    def refusal(self) -> Refusal | None:
        """Why it isn't accepted."""
        if self.is_accepted:
            return None
        from .refusals import causes  # which takes long to import, and few blocks are refused

        cause = self._record.cause or self.status
        words = causes.words_of(cause, self._record.kind) or (f"It is {self.status}: {cause}.", "")
        return Refusal(self.name, cause, self._record.place, *words)

    @property
    def repair(self) -> tuple[str, ...]:
        """The steps of the repair after which its fields were read. The file is as it was."""
        return tuple(it.what for it in self._record.steps)

    @property
    def loses(self) -> tuple[str, ...]:
        """What the repair loses."""
        return tuple(loses(self._record.steps))

    @property
    def json(self) -> Members:
        """The block with its fields as `show --json` prints it, for `json.dumps`."""
        return self._members(ShownFields())

    def _members(self, shown: ShownFields) -> Members:
        return {
            **self._record.members,
            "extractor": self.extractor,
            "repair": [step._asdict() for step in self._record.steps],
            "fields": list(map(_field_members, shown.of(self))),
            "has_more_fields": shown.has_more,
        }

    def __repr__(self) -> str:
        return f"Block(name={self.name!r}, status={self.status!r}, where={self.where!r})"


def _field_members(field: Field) -> Members:
    """A field: its name for people, what identifies it, and its value for people, exactly and for programs."""
    return {
        "name": field.name,
        "directory": field.directory,
        "key": field.key,
        "type": field.type,
        "count": field.count,
        "plain": field.text,
        "exact": field.exact,
        "value": field.json,
    }


class ShownFields(Shown):
    """The fields of a picture that are printed: all, or the first ones of very many."""

    has_more = False  # whether a field of the last block is left out
    left_out = False  # whether one of any block is

    def of(self, block: Block) -> list[Field]:
        """The fields of a block, or the first ones."""
        if self.is_full:  # then no further fields are made
            first, self.has_more = [], bool(block.is_accepted or block.repair)
        else:
            first = [it for it in block.fields if self._counts(it)]
            self.has_more = len(first) < len(block.fields)
        self.left_out |= self.has_more
        return first

    def _counts(self, field: Field) -> bool:
        """Counts a field, if something may still be printed."""
        if not self.is_full:
            self.add_fields([field], len(field.text) + len(field.exact))
            return True
        return False


class Picture(Mapping[str, "Value"]):
    """The metadata of a picture, as they were when it was read: a mapping of names to values, which doesn't change. `picture[name]` is the value of
    the first field with this name, `name in picture` tells whether there is one, and a loop over a picture has the names.

    - `name`: the path or the name that it was read by, and `path` the same in bytes
    - `type`: the format: "JPEG", "PNG", "TIFF", "HEIC" ..

    A picture equals itself alone; `same_as` compares two by what they mean. One without a field is empty, and false as an empty dict is.
    """

    def __init__(
        self,
        name: bytes,
        read: Blocks,
        records: Sequence[BlockRecord],
        origin: Origin | None = None,
        texts: PictureTexts | None = None,
    ) -> None:
        self.path, self.name, self._origin = name, os.fsdecode(name), origin or Origin()  # which `compare` reads
        # why a command could not read it; empty of one that `read` returns
        self.type, self._problem, self._detail = read.type, read.problem or "", read.detail
        self._read, self._records, self._texts = read, records, texts
        # a block that refers to its picture would keep both until the next collection
        self._fields_of = partial(_fields_in_sets, records, read.rest, {})

    @classmethod
    def _of(cls, name: bytes, read: Blocks) -> "Picture":
        """A picture by its blocks. One that goes over a limit has a problem."""
        try:
            return cls(name, read, [] if read.problem else judge_all(read))
        except TooMuch as why:
            return cls(name, failed(why), [])

    @property
    def not_read(self) -> tuple[str, ...]:
        """The parts of the file that may have metadata and were not read."""
        return tuple(it.what for it in self._read.not_read)

    @property
    def too_many(self) -> tuple[str, ...]:
        """The fields that were not read because their block has too many, such as "the fields of IPTC after the first 100,000": a text may be
        among them."""
        return tuple(self._labelled.rests)

    @property
    def damage(self) -> str:
        """Where the file is cut off, as "the file ends inside the segment at 2000": what is missing may have metadata. Empty if that wasn't seen
        while it was read; `compare` also finds other damage of its picture."""
        return cut(self.not_read) or self._read.damage

    @property
    def _damage_behind(self) -> str:
        """The same where all metadata stand before the damage."""
        return "" if self._problem else self._read.damage

    @property
    def not_known(self) -> tuple[str, ...]:
        """The kinds of which no block is left in a damaged file, and one may be missing: "exif", "iptc", "xmp"."""
        return tuple(not_known(self.type, self.not_read, (it.kind for it in self._records)))

    @cached_property
    def blocks(self) -> tuple[Block, ...]:
        """The blocks, in the order of the file."""
        data = {it.name: it.data for it in self._read.blocks}
        return tuple(Block(it, data.get(it.name, b""), self._fields_of) for it in self._records)

    @property
    def fields(self) -> Iterator[Field]:
        """All fields of all blocks, in the order of the file."""
        for block in self.blocks:
            yield from block.fields

    @property
    def refusals(self) -> tuple[Refusal, ...]:
        """Why blocks have no meaning, one for each that isn't accepted."""
        return tuple(it.refusal for it in self.blocks if it.refusal)

    @property
    def is_whole(self) -> bool:
        """Whether every block is accepted and every part was read."""
        return not self._read.not_read and all(it.is_accepted for it in self._records)

    @property
    def meaning(self) -> str | None:
        """A text that two pictures share exactly if their Exif, IPTC and XMP mean the same. None if there is no metadata, a block is refused or a
        part was not read, so that two such pictures never seem to be equal."""
        meanings = self._meanings
        if meanings is None or not any(meanings):
            return None
        return "+".join(it or "-" for it in meanings)

    @cached_property
    def _record(self) -> PictureRecord:
        """The picture as a catalogue has it."""
        path = os.path.abspath(self._origin.path) if self._origin.path else b""
        return PictureRecord.of_blocks(path, b"", self._origin.stamp, self._read, self._records)

    @property
    def json(self) -> Members:
        """What `show --json` prints of it, for `json.dumps`: docs/JSON.md describes the keys, which `schema` and `record` precede there."""
        return self._members(ShownFields())

    def _members(self, shown: ShownFields) -> Members:
        """The same, with the fields that are still shown."""
        return {
            **path_members(self.path),
            "problem": self._problem or None,
            "detail": self._detail or None,
            "type": self.type or None,
            "blocks": [it._members(shown) for it in self.blocks],
            "not_read": list(self.not_read),
            "damage": self.damage or None,
            "not_known": list(self.not_known),
        }

    def _of_blocks(self) -> list[BlockFields]:
        """The blocks with their fields."""
        return [(record, self._fields_of(record)) for record in self._records]

    def _lists(self) -> Iterable[list[Field]]:
        """The fields of the blocks, once of those that have the same: pages of a TIFF may share a block of many fields."""
        return {id(fields): fields for _, fields in self._of_blocks()}.values()

    @property
    def names(self) -> tuple[str, ...]:
        """The names of all fields, each once, in the order of the file."""
        return tuple(self._by_name)

    @cached_property
    def _by_name(self) -> _ByName:
        """The fields by the names that they have here. Most are asked for by these."""
        return _named_in(self._lists())

    @cached_property
    def _by_spelling(self) -> list[tuple[BlockRecord, _ByName]]:
        """The fields of each block by all spellings of their names."""
        known = {id(fields): _spelled(fields) for fields in self._lists()}
        return [(record, known[id(fields)]) for record, fields in self._of_blocks()]

    def _own(self, name: str) -> list[BlockFields]:
        """The fields with a name of this program, of each block that has some."""
        folded = _text(name).casefold()
        return [(record, names[folded]) for record, names in self._by_spelling if folded in names]

    def _named(self, name: str) -> list[BlockFields]:
        """The same, or else the fields that other programs name so."""
        if own := self._own(name):
            return own
        from .fields.field_names import with_other_name  # which few names need

        named = ((record, with_other_name(fields, name.casefold())) for record, fields in self._of_blocks())
        return [it for it in named if it[1]]

    def find(self, name: str) -> tuple[Field, ...]:
        """All fields with a name, of all blocks: with its group or without, or the field's key, such as "dc:title", in capital or small letters.
        If none has it, those that ExifTool, exiv2 or the standard name so ("EXIF:Model", "Exif.Photo.FNumber", "DateTimeDigitized"), and the
        members of structures as ExifTool has them ("XMP-iptcExt:LocationCreatedCity")."""
        return tuple(field._in_block(record.name) for record, fields in self._named(name) for field in fields)

    @overload
    def get(self, name: str, default: Value | D = None) -> Value | D:
        ...

    @overload
    def get(self, name: str, default: None = None, *, type: Type[T]) -> T | None:
        ...

    @overload
    def get(self, name: str, default: D, *, type: Type[T]) -> T | D:
        ...

    def get(self, name: str, default: Any = None, *, type: Type[Any] | None = None) -> Any:
        """The value of the first field with a name; of a DataSet that is repeated a tuple of all its values. With a `type`, such as int, a value of
        another type counts as none. If several fields have the name, as "FNumber" without a group may be one of Exif and one of XMP, and their
        values differ, a `UserWarning` has their own names; `find` returns them all."""
        value = self._value(name, default)
        return value if type is None or isinstance(value, type) else default

    def _value(self, name: str, default: Any) -> Any:
        """The value of the first field with a name. A warning is for the caller of what calls this."""
        if own := self._by_name.get(name):
            return _value_of(own)
        named = _named_in(fields for _, fields in self._named(name))
        if not named:
            return default
        first, *others = map(_value_of, named.values())
        if any(it != first for it in others):
            from .fields.choosing import stands_for  # which few names need

            warnings.warn(f"{stands_for(name, list(named))}; this is the value of the first", stacklevel=3)
        return first

    def _first(self, name: str) -> Value:
        """The value of the first field with a name that it has here."""
        return self._by_name[name][0].value if name in self._by_name else None

    def __getitem__(self, name: str) -> Value:
        found: Value = self._value(name, _NOTHING) if isinstance(name, str) else _NOTHING
        if found is _NOTHING:
            raise NoField(name, self.names)
        return found

    def __contains__(self, name: object) -> bool:
        return isinstance(name, str) and (name in self._by_name or bool(self._named(name)))

    def __iter__(self) -> Iterator[str]:
        return iter(self.names)

    def __len__(self) -> int:
        return len(self.names)

    __eq__ = object.__eq__  # that of a Mapping would compare all values
    __hash__ = object.__hash__

    def same_as(self, other: Picture) -> bool | None:
        """Whether the Exif, IPTC and XMP of two pictures mean the same. None if it isn't known: a block of one is refused, or a part was not
        read. Their pixels are not compared; `compare` does that, and names the differences."""
        one, two = self._meanings, other._meanings
        return None if one is None or two is None else one == two

    @property
    def _meanings(self) -> tuple[str | None, ...] | None:
        """What pictures share that mean the same; None of one of which it isn't known."""
        meanings = tuple(self._record.meanings)
        return meanings if self.is_whole and None not in meanings else None

    @property
    def captions(self) -> tuple[Caption, ...]:
        """The texts by label, such as "title" and "keywords", with the field of each."""
        from .fields.labels import LABEL_WORDS

        return tuple(sorted((it for it in self._labelled.texts if not it.is_empty), key=lambda it: LABEL_WORDS.index(it.label)))

    @property
    def _labelled(self) -> PictureTexts:
        """All texts, also those that are empty, in the order of the standards."""
        if not self._texts:
            from .catalogue.texts import texts_of  # which show and explain don't need

            self._texts = texts_of(self._of_blocks())
        return self._texts

    def texts(self, label: str) -> tuple[str, ...]:
        """The texts of a label. Of several fields those that are whole, on which two standards agree, and that no camera wrote; of such the first in
        the order Exif, XMP, IPTC, by the guidelines of the Metadata Working Group. IPTC comes before XMP if it was changed after Photoshop noted
        its digest (resource 0425). `conflicts` has the others. Raises `ValueError` for a word that is no label."""
        from .catalogue.conflicts import chosen, conflicts
        from .fields.labels import LABEL_WORDS, label_of

        word = label_of(_text(label))
        if word not in LABEL_WORDS:
            import difflib

            near = [] if word else difflib.get_close_matches(label.casefold(), LABEL_WORDS, 1)
            perhaps = f" (perhaps {near[0]!r} is meant)" if near else ""
            raise ValueError(f"{repr(label)[:100]} is no label{perhaps}; the labels are {', '.join(LABEL_WORDS)}")
        of_label = [it for it in self._labelled.texts if it.label == word]
        order = STANDARDS if self._read.is_iptc_changed() else (NAMES[EXIF], NAMES[XMP], NAMES[IPTC])
        best = chosen(of_label, conflicts(self._labelled.texts) if len(of_label) > 1 else [], order)
        return best.texts if best else ()

    @property
    def conflicts(self) -> tuple[Conflict, ...]:
        """The labels for which Exif, IPTC and XMP have different texts, and the position if it differs: how, and all texts with their fields."""
        from .catalogue.conflicts import conflicts

        return tuple(it for it in conflicts(self._labelled.texts, self._labelled.located) if not it.is_alike)

    @property
    def taken(self) -> datetime | None:
        """When it was taken: DateTimeOriginal of Exif, with its part of a second and its zone if they are there; or else the date in XMP, or the
        date and the time in IPTC, in the order of `texts`."""
        from datetime import date, datetime, time

        of_xmp = list(map(self._first, ("XMP-exif:DateTimeOriginal", "XMP-photoshop:DateCreated")))
        day, clock = map(self._first, ("IPTC:DateCreated", "IPTC:TimeCreated"))
        of_iptc = [datetime.combine(day, clock)] if isinstance(day, date) and isinstance(clock, time) else []
        others = [*of_iptc, *of_xmp] if self._read.is_iptc_changed() else [*of_xmp, *of_iptc]
        return next((it for it in (self._taken_by_exif(), *others) if isinstance(it, datetime)), None)

    def _taken_by_exif(self) -> datetime | None:
        from datetime import datetime

        from .fields.typed import object_of

        when, *more = map(self._first, ("ExifIFD:DateTimeOriginal", "ExifIFD:SubSecTimeOriginal", "ExifIFD:OffsetTimeOriginal"))
        if not isinstance(when, datetime):
            return None
        part, zone = (it.strip() if isinstance(it, str) else "" for it in more)
        found = (object_of("exif:DateTimeOriginal", when.isoformat() + it) for it in (f".{part}{zone}", f".{part}", zone))
        return next((it for it in found if isinstance(it, datetime)), when)

    @property
    def position(self) -> Position | None:
        """Where it was taken, by the fields of GPS in Exif, otherwise by those in XMP; None if a part of the position is missing."""
        from .fields.places import altitude_of, position_of

        fields = [field for fields in self._lists() for field in fields]
        place = position_of(fields)
        return None if not place else Position(*place, altitude_of(fields))

    def __repr__(self) -> str:
        return f"Picture(name={self.name!r}, type={self.type!r}, not_read={self.not_read!r})"


def _fields_in_sets(records: Sequence[BlockRecord], rest: Container[str], made: dict[int, list[Field]], record: BlockRecord) -> list[Field]:
    """The fields of a block, each text in the character set that it declares, or that these blocks show."""
    key = id(record.fresh or record)  # pages of a TIFF may share a block of many fields
    if key not in made:
        made[key] = in_found_set(fields_of(record), map(fields_of, records), rest)
    return made[key]


def _value_of(fields: Sequence[Field]) -> Value:
    """The value of a field, or of one that is repeated those of all."""
    return fields[0].value if len(fields) == 1 else tuple(it.value for it in fields)


def _named_in(blocks: Iterable[list[Field]]) -> _ByName:
    """The fields of blocks by their names; of several blocks with a name those of the first."""
    named: _ByName = {}
    for fields in blocks:
        known = frozenset(named)
        for field in fields:
            name = field.name
            if name not in known:
                named.setdefault(name, []).append(field)
    return named


def _spelled(fields: Sequence[Field]) -> _ByName:
    """Fields by all spellings of their names."""
    return grouped((spelling, field) for field in fields for spelling in spellings(field.directory, field.tag))


def _text(name: str) -> str:
    """The name of a field or a label, of a program that isn't typed. Raises `TypeError`."""
    if not isinstance(name, str):
        raise TypeError(f"a name is a str, and not {type(name).__name__}")
    return name
