"""CR3 of Canon: Exif, MakerNote and GPS in Canon's box uuid of moov, XMP in a box uuid, and the track CTMD of timed metadata, which is
compared by its bytes.

Not compared, because they contain no Exif, IPTC or XMP: previews, the thumbnail, tracks of pixels, and dates of tracks.
"""

from __future__ import annotations

import io
import struct

from ...model.budgets import EXTENTS, Budget, budget_of
from ...model.found import EXIF, Blocks, Broken, LeftToOthers, NotRead
from ...model.tiff_types import HEADS, LONG
from ..structure import gaps
from .boxes import (
    CANON_UUID,
    CMT1,
    CMT2,
    CMT3,
    CMT4,
    CNCV,
    XMP_UUID,
    Box,
    Fields,
    add_xmp,
    boxes,
    boxes_of_file,
    canon_parts,
    content,
    leave_cut,
)
from .streams import Range, Stream, digest_of_parts, is_blank, leave, size_of
from .tiff_directories import IN_ENTRY, NOWHERE, Directories, Entry, Layout, Table, is_pointer

# The TIFF structures of a CR3 as one Exif block, as other pictures have it: the main directory with pointers to Exif and GPS, and the
# MakerNote in its tag. The MakerNote keeps its header, from which its offsets count. Its values are laid out one after another, since
# ExifTool moves them when it writes.

_TAGS = {CMT2: 0x8769, CMT4: 0x8825}
_NOTE, _INTEROPERABILITY, _UNDEFINED = 0x927C, 0xA005, 7


def one_block(structures: dict[bytes, bytes], budget: Budget) -> bytes | None:
    """The block of the structures, by the kinds of their boxes; None if they can't be one. Raises `TooMuch`.

    They can't be one if they have several byte orders, further directories, pointers to what is in another box, or damage.
    """
    if CMT1 not in structures or len({structures[it][:4] for it in structures if it != CMT3}) > 1 or structures[CMT1][:4] not in HEADS:
        return None
    try:
        return _Joined(structures, budget).block()
    except Broken:
        return None


class _Memory(io.BytesIO):
    """Bytes in memory as a file, with the budget of the picture."""

    def __init__(self, data: bytes, budget: Budget) -> None:
        super().__init__(data)
        self.budget = budget


class _Joined(Directories):
    """The structures one after another. The offsets of each count from its own header, and here from the first."""

    def __init__(self, structures: dict[bytes, bytes], budget: Budget) -> None:
        self._ranges: dict[bytes, Range] = {}
        joined = b""
        if CMT3 in structures:
            structures = {**structures, CMT3: _laid_out(structures[CMT3], budget)}
        for kind in (CMT1, CMT2, CMT4, CMT3):
            if kind in structures:
                self._ranges[kind] = (len(joined), len(joined) + len(structures[kind]))
                joined += structures[kind]
        super().__init__(_Memory(joined, budget))
        self._firsts = {it: self.number(structures[it][4:8]) for it in structures}

    def block(self) -> bytes:
        """One block of all. Raises `TooMuch`, and `Broken` if they can't be one."""
        tables = {kind: self._table(kind) for kind in (CMT1, CMT2, CMT4) if kind in self._ranges}
        if CMT3 in self._ranges:
            start, end = self._ranges[CMT3]
            if CMT2 not in tables or end - start <= IN_ENTRY:
                raise Broken("no place for the MakerNote")
            _insert(tables[CMT2].entries, Entry(_NOTE, _UNDEFINED, end - start, self._packed(start), end - start))
        main = tables.pop(CMT1)
        for kind, table in tables.items():
            if table.entries:
                _insert(main.entries, Entry(_TAGS[kind], LONG, 1, bytes(4), 4))
                main.below[_TAGS[kind]] = table
        block = Layout(self, main).block("CMT1")
        self.check()
        return block

    def _table(self, kind: bytes) -> Table:
        """The first directory of a structure, with its interoperability directory."""
        entries = self._directory(kind, self._firsts[kind])
        below: dict[int, Table] = {}
        for entry in entries if kind == CMT2 else ():
            if entry.tag == _INTEROPERABILITY and is_pointer(entry) and not below:
                below[entry.tag] = Table(self._directory(kind, self.number(entry.last)), {})
        return Table(entries, below)

    def _directory(self, kind: bytes, offset: int) -> list[Entry]:
        """The entries of a directory, whose values are in its own structure or nowhere."""
        start, end = self._ranges[kind]
        directory = self.read(start + offset)
        if directory.following or directory.end > end:
            raise Broken("a further directory, or one that isn't in its box")
        return [it if it.size <= IN_ENTRY else it._replace(last=self._moved(it, start, end)) for it in directory.entries]

    def _moved(self, entry: Entry, start: int, end: int) -> bytes:
        place = start + self.number(entry.last)
        return self._packed(place if place + entry.size <= end else NOWHERE)

    def _packed(self, number: int) -> bytes:
        return struct.pack(self.order + "I", number)


def _laid_out(note: bytes, budget: Budget) -> bytes:
    """A MakerNote without filling between its values; as it is, if it has more than one directory and its values."""
    try:
        directories = Directories(_Memory(note, budget))
        first = directories.read(directories.first)
    except Broken:
        return note
    places = [directories.place_of(it) for it in first.entries if it.size > IN_ENTRY]
    reached = list(filter(None, places))
    rest = [octets for _, octets in gaps(note, [(0, 8), (first.at, first.end), *reached])]
    if note[:4] not in HEADS or first.following or len(reached) < len(places) or rest not in _NOTHING:
        return note
    return Layout(directories, Table(first.entries, {})).block("the MakerNote")


_NOTHING: tuple[list[bytes], ...] = ([], [b"II*"], [b"MM\0*"])  # Canon writes a second header at the end, with an offset of 0


def _insert(entries: list[Entry], entry: Entry) -> None:
    """Inserts an entry in the order of the tags. Raises `Broken` if its tag is there."""
    if any(one.tag == entry.tag for one in entries):
        raise Broken(f"a second entry of tag {entry.tag:04x}")
    entries.insert(next((number for number, one in enumerate(entries) if one.tag > entry.tag), len(entries)), entry)


_PREVIEW = bytes.fromhex("eaf42b5e1c984b88b9fbb7dc406e4d16")
_WITHOUT = frozenset(b"ftyp mdat free skip wide".split())
_WITHOUT_IN_MOVIE = frozenset((b"mvhd", b"free"))
_BELOW_TRACK = frozenset((b"mdia", b"minf", b"stbl"))
_PIXELS = b"CRAW"
_NAMES = {CMT2: "CMT2", CMT3: "the MakerNote", CMT4: "CMT4"}  # of blocks that can't be one with CMT1


def is_cr3(head: bytes) -> bool:
    """Whether a file with these first twelve bytes is a CR3, or a film of Canon.

    >>> is_cr3(b"\\0\\0\\0\\x18ftypcrx ")
    True
    """
    return head[4:12] == b"ftypcrx "


def read(stream: Stream, whole: bool = False) -> Blocks:
    """The blocks of a CR3. Raises `Broken`, and `LeftToOthers` for a film."""
    blocks = Blocks(type="CR3", budget=budget_of(stream))
    movies = pixels = 0
    for box in boxes_of_file(blocks, stream, lambda kinds: b"moov" in kinds):
        pixels += box.kind == b"mdat"
        if box.kind == b"moov":
            movies += 1
            _movie(blocks, stream, box)
        elif box.uuid == XMP_UUID:
            add_xmp(blocks, stream, box)
        elif box.kind not in _WITHOUT and box.uuid != _PREVIEW:
            leave(blocks, box.name, stream, box.start, box.end)
    if movies > 1:
        raise Broken("the file has two moov boxes")
    if not pixels:
        leave_cut(blocks, "before its picture")
    return blocks


def _movie(blocks: Blocks, stream: Stream, moov: Box) -> None:
    structures: dict[bytes, Box] = {}
    for box in boxes(stream, moov.start, moov.end):
        if box.uuid == CANON_UUID and not structures:
            structures = canon_parts(blocks, stream, box)
        elif box.kind == b"trak":
            _Track(blocks, stream, box).take()
        elif box.kind not in _WITHOUT_IN_MOVIE:
            leave(blocks, f"{box.name} in moov", stream, box.start, box.end)
    if CMT1 not in structures:
        raise Broken("the file has no CMT1 box")
    version = structures.pop(CNCV, None)
    if version and not content(stream, version).startswith(b"CanonCR3"):
        raise LeftToOthers("a film of Canon")
    _add_exif(blocks, stream, structures)


def _add_exif(blocks: Blocks, stream: Stream, canon_boxes: dict[bytes, Box]) -> None:
    """Adds one block of all structures; if they can't be one, a block of each."""
    structures = {kind: content(stream, it) for kind, it in canon_boxes.items() if not is_blank(stream, it.start, it.end)}
    block = one_block(structures, blocks.budget)
    if block is not None:
        names = ", ".join(it.decode("ascii") for it in sorted(structures))
        blocks.add(EXIF, block, f"boxes {names} at {canon_boxes[CMT1].at}")
        return
    for kind, data in structures.items():
        blocks.add(EXIF, data, f"{canon_boxes[kind].name} at {canon_boxes[kind].at}", _NAMES.get(kind, ""))


class _Track:
    """A track: one of pixels, or samples of metadata."""

    def __init__(self, blocks: Blocks, stream: Stream, trak: Box) -> None:
        self.blocks, self.stream = blocks, stream
        self._boxes: dict[bytes, Box] = {}
        waiting = [trak]
        for outer in waiting:  # which grows meanwhile: at most by one box of each kind
            for box in boxes(stream, outer.start, outer.end):
                self._sort(box, waiting)

    def _sort(self, box: Box, waiting: list[Box]) -> None:
        if box.kind in (b"free", b"skip"):
            return
        if box.kind in self._boxes:
            raise Broken(f"a second {box.name} in a track")
        if box.kind in _BELOW_TRACK:
            waiting.append(box)
        elif box.kind not in _OF_TRACKS:
            leave(self.blocks, f"{box.name} in a track", self.stream, box.start, box.end)
        self._boxes[box.kind] = box

    def take(self) -> None:
        """Names the samples, if they aren't pixels."""
        kind = self._content(b"stsd")[12:16]
        if kind == _PIXELS:
            return
        word = kind.decode("latin-1") if kind.isalnum() else kind.hex()
        samples = self._samples()
        if samples is None or any(end > size_of(self.stream) for _, end in samples):
            self.blocks.name(NotRead(f"track {word}, whose samples aren't all found", ""))
        else:
            self.blocks.name(NotRead(f"track {word}", digest_of_parts(self.stream, samples)))

    def _content(self, kind: bytes) -> bytes:
        if kind not in self._boxes:
            raise Broken(f"a track has no {kind.decode('ascii')} box")
        return content(self.stream, self._boxes[kind])

    def _samples(self) -> list[Range] | None:
        """The ranges of the samples; None unless each is a chunk by itself, as Canon writes them."""
        sizes = Fields(self._content(b"stsz"), "stsz box")
        wide = 8 if b"co64" in self._boxes else 4
        places = Fields(self._content(b"co64" if wide == 8 else b"stco"), "box of chunks")
        sizes.number(4), places.number(4)
        each, count = sizes.number(4), sizes.number(4)
        if places.number(4) != count:
            return None
        self.blocks.budget.spend(EXTENTS, count)
        starts = [places.number(wide) for _ in range(count)]
        return [(start, start + (each or sizes.number(4))) for start in starts]


# Boxes of tracks without texts
_OF_TRACKS = frozenset(b"tkhd edts mdhd hdlr vmhd nmhd gmhd dinf stsd stts stsc stsz stco co64 stss ctts".split())
