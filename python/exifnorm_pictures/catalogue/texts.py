"""The texts of a picture of a catalogue by label."""

from __future__ import annotations

from typing import NamedTuple, Sequence

from ..fields.block_fields import BlockFields
from ..fields.labels import LABEL_WORDS, LABELLED, Caption, not_kept, of_labelled, with_own
from ..fields.character_sets import in_found_set
from ..fields.field import Field
from ..fields.listing import rest_of
from ..fields.places import Located, located, of_position
from ..model.found import EXIF, IPTC, NAMES, STANDARDS, XMP
from .conflicts import Conflict, conflicts


class PictureTexts(NamedTuple):
    """The texts of a picture, and what is known of those that aren't kept."""

    texts: list[Caption]
    long: set[str]  # labels of which a text is too long
    behind: set[str]  # labels of which a text may be among fields that are too many
    rests: list[str]  # which fields these are
    located: tuple[Located | None, Located | None] = (None, None)  # where Exif and XMP have that it was taken

    @property
    def missing(self) -> set[str]:
        """The labels of which a text isn't kept, or may not be."""
        return self.long | self.behind

    def conflicts(self) -> list[Conflict]:
        """How the texts differ between the standards, in the labels of which all are kept."""
        return [it for it in conflicts(self.texts, self.located) if not it.is_alike and it.label not in self.missing]


_BlockTexts = tuple[list[Caption], set[str]]  # the texts of a block, and the labels of those that are too long


def _texts_of_block(fields: list[Field], blocks: Sequence[BlockFields]) -> _BlockTexts:
    labelled = [it for it in fields if (it.directory, it.tag) in LABELLED]
    if not labelled:
        return [], set()
    left = not_kept(labelled)
    return [it for it in of_labelled(in_found_set(labelled, (it for _, it in blocks))) if it.label not in left], left


_DIRECTORIES = {EXIF: ("main", "exif"), IPTC: ("iptc",), XMP: ("xmp",)}


def texts_of(blocks: Sequence[BlockFields], wanted: Sequence[str] = LABEL_WORDS) -> PictureTexts:
    """The texts of a picture by its blocks, each with its fields. Those that have the same list of fields have the same texts."""
    texts: list[Caption] = []
    long = set()
    behind = set()
    rests: list[str] = []
    exif: list[list[Field]] = []
    angles: list[Field] = []
    known: dict[int, _BlockTexts] = {}  # pages of a TIFF may share a block of many fields
    for block, fields in blocks:
        if not fields:
            continue
        if id(fields) not in known:
            known[id(fields)] = _texts_of_block(fields, blocks)
            exif += [fields] * (block.kind == EXIF)
        captions, left = known[id(fields)]
        is_first = block.name == NAMES[block.kind]
        texts += captions if is_first else [it._replace(block=block.name) for it in captions]
        angles += of_position(fields) if is_first else []
        long |= left
        if rest := rest_of(fields):
            rests.append(f"the fields of {block.name}{rest}")
            behind |= {word for (where, _), word in LABELLED.items() if where in _DIRECTORIES[block.kind]}
    in_order = with_own(sorted(texts, key=lambda it: STANDARDS.index(it.standard)), exif)
    position = located(angles) if angles else (None, None)
    return PictureTexts(in_order, long & {*wanted}, behind & {*wanted}, rests, position)
