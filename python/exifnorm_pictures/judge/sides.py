"""What a comparison of two pictures needs: of rows of two catalogues, or of two files that were read just now."""

from __future__ import annotations

from exifnorm._hints import Callable, Sequence, TypeVar

from ..fields.field import Field
from ..fields.block_fields import fields_of
from ..model.found import NotRead
from ..model.records import BlockRecord, PictureRecord


BEFORE, AFTER = 0, 1  # the two sides
Made = TypeVar("Made")


class Sides:
    """The pictures of two sides, numbered 0 and 1. These were looked at just now, and so have all that there is of them."""

    def blocks(self, side: int, picture: PictureRecord) -> Sequence[BlockRecord]:
        """A picture's blocks."""
        return picture.blocks

    def fields(self, side: int, block: BlockRecord | None) -> list[Field]:
        """The fields of a block; none if they aren't kept, or if there is no block."""
        return fields_of(block) if block else []

    def not_read(self, side: int, picture: PictureRecord) -> Sequence[NotRead]:
        """The parts of a picture that were not read."""
        return picture.unread

    def maker_notes(self, side: int, picture: PictureRecord, unpack: Callable[[bytes], Made]) -> Made | None:
        """The result of `unpack` for ExifTool's readings of its MakerNotes; None if they aren't kept."""
        return unpack(picture.notes) if picture.notes else None
