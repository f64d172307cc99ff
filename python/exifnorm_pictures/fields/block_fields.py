"""The fields of a block, of one that was judged just now and of one that a catalogue has."""

from __future__ import annotations

from functools import partial

from exifnorm._hints import Callable, Generic, Sequence, TypeVar

from ..model.records import BlockRecord
from .field import Field

Made = TypeVar("Made")
BlockFields = tuple[BlockRecord, list[Field]]


class Once(Generic[Made]):
    """What is made once, when somebody asks for it, as the fields of a block: those of a normal form, of the statements of a packet, or of
    a catalogue, in the order of a listing; None if a catalogue doesn't have them."""

    __slots__ = ("_make", "_made")

    def __init__(self, make: Callable[[], Made]) -> None:
        self._make: Callable[[], Made] | None = make

    def all(self) -> Made:
        """All of it."""
        if self._make is not None:
            self._made = self._make()
            self._make = None  # with what it is made of, which is as long as it is
        return self._made


def _unpacked(text: bytes | None) -> list[Field] | None:
    from .packing import unpacked  # which takes long to import

    return unpacked(text) if text else None


def _one_of(texts: Once[list[bytes | None]], number: int) -> list[Field] | None:
    return _unpacked(texts.all()[number])


_FIELDS = BlockRecord._fields.index("fields")  # after which only what a catalogue doesn't have follows


def with_kept_fields(blocks: Sequence[BlockRecord]) -> list[BlockRecord]:
    """The blocks of a picture of a catalogue, of all its rows in their order, each with its own fields."""
    from .packing import parted

    texts = Once(partial(parted, [block.fields for block in blocks]))
    each = [Once(partial(_one_of, texts, at)) for at in range(len(blocks))]
    return [BlockRecord._make((*block[:_FIELDS], None, block.but_note, fields)) for block, fields in zip(blocks, each)]


def known_fields(block: BlockRecord) -> list[Field] | None:
    """The fields of a block; None of one that has no meaning, or in a catalogue that doesn't have them. Raises `Damaged`."""
    return block.fresh.all() if isinstance(block.fresh, Once) else _unpacked(block.fields)


def fields_of(block: BlockRecord) -> list[Field]:
    """The same, where those that aren't known count as none. Raises `Damaged`."""
    return known_fields(block) or []
