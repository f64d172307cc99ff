"""The engine's results for one block, as records that a catalogue can keep."""

from __future__ import annotations

import hashlib
from functools import partial
from itertools import islice, starmap

import exifnorm
from exifnorm._forms import _READ, Place, places
from exifnorm._hints import Iterable
from exifnorm._jpeg import digest_but_note
from exifnorm._library import library

from .. import xmp
from ..extract import structure
from ..fields import xmp_properties
from ..fields.block_fields import Once
from ..fields.field import DeclaredField, Field, Identity
from ..fields.listing import OCTETS, digest_of
from ..model import steps
from ..model.budgets import ALL_FIELDS, FIELD_BYTES, FIELDS, KEPT_BYTES, Budget
from ..model.found import COMPRESSED, EXIF, FEW, IPTC, NAMES, XMP, Blocks, FoundBlock
from ..model.records import BlockRecord, Status
from ..model.xmp_values import Long

# The fields of a normal form with their values, which are read once.


def fields_of_form(form: bytes) -> list[Field]:
    """The fields of a normal form, in the order of a listing.

    >>> fields_of_form(b"\\x1c\\x02\\x78\\x00\\x04Vase")
    [Field(name='IPTC:Caption-Abstract', text='Vase')]
    """
    every = places(form)
    each = _read(form, islice(every, FIELDS))  # 16 MB can be three million DataSets, for which Python needs 1 GB
    if next(every, None) is not None:
        each.append(("iptc", "more", "octets", len(form), Long(digest_of(form), b"")))
    declared = [it[4] for it in each if it[1] == "1:90"] if form.startswith(b"\x1c") else []
    return list(starmap(DeclaredField if declared == [b"\x1b%G"] else Field, each))


def packed_form(form: bytes) -> tuple[bytes, str | None]:
    """The fields of a normal form as JSON: by the extension module, unless it isn't there or leaves them to Python.

    >>> packed_form(b"\\x1c\\x02\\x78\\x00\\x04Vase")[0]
    b'[["iptc","2:120","octets",4,"Vase"]]'
    """
    from ..fields.packing import packed  # which takes long to import

    made = library().packed(form, hashlib.sha256)
    if not made or len(made[0]) > FIELD_BYTES:
        return packed(fields_of_form(form))
    return made[0], digest_but_note(*made)


def count(form: bytes, budget: Budget) -> None:
    """Counts the fields of a form that will be read. Raises `TooMuch` if those of all blocks of a picture are too many."""
    budget.small_forms -= len(form)
    if budget.small_forms < 0:
        budget.check_time()
        budget.spend(ALL_FIELDS, sum(1 for _ in islice(places(form), FIELDS)))


def _read(form: bytes, each: Iterable[Place]) -> list[Identity]:
    fields: list[Identity] = []
    for where, tag, kind, elements, at in each:
        if kind in OCTETS:
            fields.append((where, f"{tag:04x}", kind, elements, form[at : at + elements]))
        elif kind == "DATASET":
            fields.append(("iptc", f"{tag >> 8}:{tag & 255}", "octets", elements, form[at : at + elements]))
        elif kind in ("JPEG", "STRIPS"):  # the thumbnail's JPEG, or each of its strips
            key = "jpeg" if kind == "JPEG" else "strip"
            fields += [("thumb", key, "octets", size, form[start : start + size]) for start, size in at]
        else:
            fields.append((where, f"{tag:04x}", kind, elements, _READ[kind](form, at, elements)))
    return fields


_BY_ITSELF = FoundBlock("", b"", "", "")  # where a block is that was given without a picture


def judge(kind: str, block: bytes, packs: bool = False, at: FoundBlock = _BY_ITSELF, budget: Budget | None = None) -> BlockRecord:
    """Judges a block that was taken as one of `kind`; a refused block never gets a digest. With `packs` its fields are packed for a catalogue,
    otherwise they are made when they are asked for. Raises `TooMuch` if a picture's budget is used up."""
    length, octets = len(block), hashlib.sha256(block).hexdigest()
    if block.startswith(COMPRESSED):
        return _unreadable(kind, at, length, octets, "Compressed")
    record = partial(BlockRecord, kind, *at[2:5])
    if misplaced := _misplaced(kind, block):
        return record(Status.REFUSED, None, misplaced, 0, length, octets)
    try:
        form = exifnorm.normal(block)
    except exifnorm.Refused as refused:
        result = record(Status.REFUSED, None, refused.cause, refused.offset, length, octets)
        return _repaired(result, block, packs, budget) if kind == EXIF else result
    except exifnorm.NormalTooLong:
        return record(Status.TOO_LONG, None, "NormalTooLong", None, length, octets)
    except MemoryError:
        return record(Status.FAILED, None, "OutOfMemory", None, length, octets)
    digest = octets if form == block else hashlib.sha256(form).hexdigest()
    return record(Status.ACCEPTED, digest, None, None, length, octets, None, None, None, *_kept(form, packs, budget))


def _misplaced(kind: str, block: bytes) -> str:
    """The cause of a block that doesn't begin as its place in the picture shows that it must, as the library's calls for pictures have it; empty
    if it does. A block of the other kind is none there."""
    is_record = block.startswith(_DATASET)
    if is_record == (kind == IPTC) or not block or len(block) > exifnorm.LIMIT:
        return ""
    return "NoMarker" if kind == IPTC else "UnknownKind"


def _kept(form: bytes, packs: bool, budget: Budget | None) -> tuple[bytes | None, str | None, Once[list[Field]] | None]:
    """The fields of a normal form: packed with a digest of all but the MakerNote, or as they are made when somebody asks for them."""
    if budget:
        count(form, budget)
    return (*packed_form(form), None) if packs else (None, None, Once(partial(fields_of_form, form)))


def _repaired(refused: BlockRecord, block: bytes, packs: bool, budget: Budget | None) -> BlockRecord:
    """A refused block with what a repair makes of it."""
    from . import repairs  # which takes long to import, and few blocks are refused

    repair = repairs.repaired(block, budget)
    if not repair:
        return refused
    fields, but_note, fresh = _kept(repair.form, packs, budget)
    digest = hashlib.sha256(repair.form).hexdigest()
    return refused._replace(repair=steps.packed(repair.steps), repaired=digest, fields=fields, but_note=but_note, fresh=fresh)


def _says_nothing(block: FoundBlock) -> bool:
    """Whether a block is there and has no field: an empty record, or a header with an empty directory and no further one."""
    data = block.data
    if block.kind == IPTC:
        return not data.strip(b"\0")
    return block.kind == EXIF and len(data) <= 64 and data[:10] in _NOTHING and not any(data[10:])


_ALL_KEPT_BYTES = 2 * KEPT_BYTES
_DATASET = b"\x1c"  # with which each DataSet begins
_NOTHING = (b"II*\0\x08\0\0\0\0\0", b"MM\0*\0\0\0\x08\0\0")  # a header, and a directory without entries


def _with_notes(block: BlockRecord, at: FoundBlock, blocks: Blocks) -> BlockRecord:
    """An Exif block with the place of its MakerNote; the bytes that only it can reach are noted as not read."""
    if not structure.may_have_notes(at.data):
        return block
    notes = structure.notes(at.data)
    if notes.uncovered:
        blocks.leave(notes.words + ("" if block.name == NAMES[EXIF] else f" ({block.name})"), notes.octets)
    return block if notes.place is None else block._replace(note=notes.place if at.note is None else at.note)


def judge_all(blocks: Blocks, packs: bool = False) -> list[BlockRecord]:
    """Judges all blocks of a picture, in their order. Extended XMP is judged with the packet that refers to it. Raises `TooMuch`."""
    blocks.blocks = [it for it in blocks.blocks if it.kind == XMP or not _says_nothing(it)]
    extended = _Extended(blocks) if any(it.extends for it in blocks.blocks) else None
    known: dict[tuple[str, bytes], BlockRecord] = {}
    judged = []
    kept = 0
    for at in blocks.blocks:
        if at.extends:
            continue
        block = known.get((at.kind, at.data))
        if not block:
            block = _judged(at, blocks, extended, packs)
            if len(blocks.blocks) > FEW:  # pages of a TIFF can share a value
                blocks.budget.check_time()
                known[at.kind, at.data] = block
        else:
            note = block.note if at.note is None else at.note
            block = block._replace(name=at.name, source=at.where, extractor=at.extractor, note=note)
        kept += len(block.fields or b"")
        judged.append(_within(block, kept))
    return judged + extended.not_named() if extended else judged


def _judged(at: FoundBlock, blocks: Blocks, extended: _Extended | None, packs: bool) -> BlockRecord:
    """One block of a picture."""
    if at.kind == XMP and not at.data.startswith(COMPRESSED):
        if extended:
            return extended.judge(at, packs)
        return _judge_xmp(at, xmp.Extensions({}, blocks.budget), {}, packs)
    block = judge(at.kind, at.data, packs, at, blocks.budget)
    return _with_notes(block, at, blocks) if at.kind == EXIF and (block.digest or block.repaired) else block


def _within(block: BlockRecord, kept: int) -> BlockRecord:
    """A block without its packed fields, if the picture has so many bytes of them up to it: its pages may share one long text. Those of short
    ones stay, up to twice as many."""
    if kept <= KEPT_BYTES or block.fields is None:
        return block
    if kept > _ALL_KEPT_BYTES:
        return block._replace(fields=None)
    from ..fields.packing import is_short, left_out

    return block if is_short(block.fields) else block._replace(fields=left_out(block.fields))


class _Extended:
    """The extended XMP of a picture by the part of the file, since a packet's extension is beside it."""

    def __init__(self, blocks: Blocks) -> None:
        self.blocks = [it for it in blocks.blocks if it.extends]
        self.every: dict[str, dict[str, bytes]] = {}
        for at in self.blocks:
            self.every.setdefault(_part(at), {}).setdefault(at.extends, at.data)
        self.remaining = {part: dict(some) for part, some in self.every.items()}
        self.named = {part: xmp.Extensions(some, blocks.budget) for part, some in self.every.items()}
        self.none = xmp.Extensions({}, blocks.budget)

    def judge(self, block: FoundBlock, packs: bool) -> BlockRecord:
        """A packet with its extended XMP."""
        part = _part(block)
        return _judge_xmp(block, self.named.get(part, self.none), self.remaining.get(part, {}), packs)

    def not_named(self) -> list[BlockRecord]:
        """What no packet beside it named."""
        left = [it for it in self.blocks if it.extends in self.remaining[_part(it)] or it.data != self.every[_part(it)][it.extends]]
        return [_unreadable(XMP, it, len(it.data), hashlib.sha256(it.data).hexdigest(), "ExtensionNotNamed") for it in left]


def _part(block: FoundBlock) -> str:
    """The part of the file that a block is in, by its name: `MPF picture 2`, and nothing for the picture itself."""
    return str(block.name.partition(" of ")[2])


def judge_packet(packet: bytes) -> BlockRecord:
    """Judges an XMP packet by itself."""
    if packet.startswith(COMPRESSED):
        return judge(XMP, packet)
    return _judge_xmp(_BY_ITSELF._replace(data=packet), xmp.Extensions({}), {}, False)


def _judge_xmp(at: FoundBlock, extensions: xmp.Extensions, left: dict[str, bytes], packs: bool) -> BlockRecord:
    """Reads a packet with its extended XMP, which is taken out of `left`."""
    length = len(at.data)
    record = partial(BlockRecord, XMP, *at[2:5], Status.ACCEPTED)
    if packs and (made := xmp_properties.packed_packet(at.data, extensions.budget)):
        return record(made[0], None, None, length, hashlib.sha256(at.data).hexdigest(), fields=made[1])
    used: set[str] = set()
    try:
        statements = xmp.statements(at.data, extensions, used)
        cause = ""
    except xmp.Unreadable as error:
        statements, cause = None, error.cause
    octets = hashlib.sha256(b"".join([at.data, *(extensions.data.get(name, b"") for name in sorted(used))])).hexdigest()
    for name in used:
        left.pop(name, None)
    if statements is None:
        return _unreadable(XMP, at, length, octets, cause)
    accepted = record(xmp.digest_of_statements(statements), None, None, length, octets)
    make = partial(xmp_properties.fields_of_statements, statements)
    if not packs:
        return accepted._replace(fresh=Once(make))
    from ..fields.packing import packed

    fields, but_note = packed(make())
    return accepted._replace(fields=fields, but_note=but_note)


def _unreadable(kind: str, at: FoundBlock, length: int, octets: str, cause: str) -> BlockRecord:
    return BlockRecord(kind, *at[2:5], Status.UNREADABLE, None, cause, None, length, octets)
