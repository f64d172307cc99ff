"""HEIF, HEIC and AVIF: the Exif and XMP items of each picture (ISO/IEC 23008-12, Annex A; XMP part 3), and XMP in a box uuid.

Not compared, because they contain no Exif, IPTC or XMP: coded pictures, properties such as size and rotation, and bytes of mdat and idat
that no item has.
"""

from __future__ import annotations

import zlib
from operator import itemgetter
from typing import NamedTuple

from ...model.budgets import BOX_BYTES, EXTENTS, ITEMS, budget_of
from ...model.found import EXIF, IN_PICTURE, XMP, Blocks, Broken, NotRead
from .boxes import CANON_UUID, XMP_UUID, Box, Fields, add_xmp, boxes, boxes_of_file, content, exif_in, leave_canon
from .streams import Range, Stream, digest_of_parts, leave, read_at, size_of

# The items of a HEIF file: what the box meta says of each picture and of each block (ISO/IEC 14496-12, 8.11; ISO/IEC 23008-12).

# Coded and derived pictures: their items have no metadata
PICTURES = frozenset(b"hvc1 hvt1 lhv1 av01 avc1 svc1 mvc1 jpeg j2k1 vvc1 vvcN evc1 unci mski grid iovl iden tmap tild".split())
MOST_DESCRIBED = 8  # pictures that one block describes, besides the main one

_METHODS = 3  # how an item is found: in the file, in the box idat, or in other items


class Item(NamedTuple):
    """An item: its number, its kind, and of a mime item the type and the encoding of what it contains."""

    number: int
    kind: bytes
    is_protected: bool
    type: bytes = b""
    encoding: bytes = b""

    @property
    def words(self) -> str:
        """Its kind for people.

        >>> Item(1, b"mime", False, b"text/plain").words
        'mime item text/plain'
        """
        return " ".join(it for it in (_word(self.kind), "item", _word(self.type)) if it)


def _word(data: bytes) -> str:
    return "".join(chr(it) if 32 < it < 127 else "?" for it in data[:60].strip())


class Place(NamedTuple):
    """Where the bytes of an item are."""

    method: int  # 0: in the file, 1: in the box idat, 2: in other items
    is_elsewhere: bool  # in another file
    has_lengths: bool
    extents: list[Range]  # offset and length of each part


class Items:
    """The items of one file."""

    def __init__(self, stream: Stream) -> None:
        self.stream = stream
        self.budget = budget_of(stream)
        self.items: list[Item] = []
        self.places: dict[int, Place] = {}
        self.idat: Box | None = None
        self.primary: int | None = None
        self.references: list[tuple[bytes, int, list[int]]] = []  # each with its kind, its item and the items that it names
        self._described: dict[int, list[int]] = {}  # the pictures that an item describes
        self._tiles: set[int] = set()

    def _full(self, box: Box) -> "tuple[int, Fields]":
        """The version and the fields of a box."""
        fields = Fields(content(self.stream, box), box.name)
        version = fields.number(1)
        fields.number(3)
        return version, fields

    def _hdlr(self, box: Box) -> None:
        _, fields = self._full(box)
        fields.number(4)
        if fields.number(4) != int.from_bytes(b"pict", "big"):
            raise Broken("the meta box is of no picture")

    def _pitm(self, box: Box) -> None:
        version, fields = self._full(box)
        self.primary = fields.number(4 if version else 2)

    def _idat(self, box: Box) -> None:
        self.idat = box

    def _iinf(self, iinf: Box) -> None:
        version, fields = self._full(iinf)
        count = fields.number(4 if version else 2)
        self.items = [self._infe(box) for box in boxes(self.stream, iinf.start + fields.at, iinf.end) if box.kind == b"infe"]
        if not count == len(self.items) == len({item.number for item in self.items}):
            raise Broken("the list of items is wrong")

    def _infe(self, box: Box) -> Item:
        self.budget.spend(ITEMS)
        version, fields = self._full(box)
        if version not in (2, 3):
            raise Broken(f"an item of version {version} at {box.at}")
        number = fields.number(2 if version == 2 else 4)
        is_protected = fields.number(2) != 0
        kind = fields.number(4).to_bytes(4, "big")
        if kind != b"mime":
            return Item(number, kind, is_protected)
        fields.text()  # its name
        type_ = fields.text()
        return Item(number, kind, is_protected, type_, fields.text() if fields.at < len(fields.data) else b"")

    def _iloc(self, box: Box) -> None:
        version, fields = self._full(box)
        sizes = fields.number(2)
        offset, length, base, index = sizes >> 12, sizes >> 8 & 15, sizes >> 4 & 15, sizes & 15 if version else 0
        if version > 2 or not {offset, length, base, index} <= {0, 4, 8}:
            raise Broken("the iloc box has another form")
        wide = 4 if version == 2 else 2
        for _ in range(fields.number(wide)):
            self.budget.spend(EXTENTS)
            number = fields.number(wide)
            method = fields.number(2) & 15 if version else 0
            is_elsewhere = fields.number(2) != 0
            start = fields.number(base)
            extents = [self._extent(fields, start, (index, offset, length)) for _ in range(self._counted(fields.number(2)))]
            if number in self.places or method >= _METHODS:
                raise Broken(f"item {number} has no certain place")
            self.places[number] = Place(method, is_elsewhere, length > 0, extents)

    def _extent(self, fields: Fields, start: int, sizes: "tuple[int, int, int]") -> Range:
        index, offset, length = sizes
        fields.number(index)
        return start + fields.number(offset), fields.number(length)

    def _counted(self, count: int) -> int:
        self.budget.spend(EXTENTS, count)
        return count

    def _iref(self, iref: Box) -> None:
        version, fields = self._full(iref)
        if version > 1:
            raise Broken("the iref box has another form")
        size = 4 if version else 2
        for box in boxes(self.stream, iref.start + fields.at, iref.end):
            numbers = Fields(content(self.stream, box), box.name)
            item = numbers.number(size)
            others = [numbers.number(size) for _ in range(self._counted(numbers.number(2)))]
            self.references.append((box.kind, item, others))
            if box.kind == b"cdsc":
                self._described.setdefault(item, []).extend(others)
            elif box.kind == b"dimg":
                self._tiles.update(others)

    def check(self) -> None:
        """Raises `Broken` if the main picture is no item."""
        if self.primary is not None and all(it.number != self.primary for it in self.items):
            raise Broken("the main picture is no item")

    def end(self) -> int:
        """Where the last byte ends that an item has in the file."""
        places = (it for it in self.places.values() if it.method == 0 and not it.is_elsewhere and it.has_lengths)
        return max((start + length for place in places for start, length in place.extents), default=0)

    def pictures(self) -> dict[int, str]:
        """The names of the pictures that are neither the main one nor parts of others, by their numbers."""
        names = {}
        for word, kind in (("auxiliary picture", b"auxl"), ("thumbnail", b"thmb")):
            numbers = dict.fromkeys(item for it, item, _ in self.references if it == kind)
            names.update({number: f"{word} {count}" for count, number in enumerate(numbers, 1)})
        count = 0
        for item in self.items:
            if item.kind in PICTURES and item.number not in names and (item.number == self.primary or item.number not in self._tiles):
                count += 1
                names[item.number] = f"picture {count}"
        return names

    def part_of(self, item: Item, names: dict[int, str]) -> str:
        """The name of the picture that an item describes: none for the main picture, and where no picture is named."""
        described = list(dict.fromkeys(self._described.get(item.number, ())))
        if not described or self.primary is None or self.primary in described:
            return ""
        if len(described) > MOST_DESCRIBED:
            raise Broken(f"item {item.number} describes more than {MOST_DESCRIBED} pictures")
        return " and ".join(names.get(it, f"item {it}") for it in described)


READERS = {
    b"hdlr": Items._hdlr,
    b"pitm": Items._pitm,
    b"idat": Items._idat,
    b"iinf": Items._iinf,
    b"iloc": Items._iloc,
    b"iref": Items._iref,
}


BRANDS = frozenset(
    b"heic heix heim heis hevc hevx hevm hevs mif1 mif2 mif3 msf1 miaf avif avis avci avcs jpeg jpgs j2ki j2is vvic vvis evbi evbs".split()
)
_TYPE_OF_XMP = b"application/rdf+xml"
_WITHOUT = frozenset(b"mdat free skip wide".split())
_WITHOUT_IN_META = frozenset(b"dinf grpl free skip".split())
# Properties without texts (ISO/IEC 23008-12, 6.5; ISO/IEC 23000-22; AV1 image file format)
PROPERTIES = frozenset(
    b"ispe pixi pasp colr auxC irot imir clap rloc lsel hvcC av1C avcC j2kH jpgC vvcC evcC a1op a1lx clli mdcv cclv amve iscl oinf tols lhvC"
    b" cmpd uncC ster cmex cmin reve ndwt prdi free skip".split()
)


def is_heif(head: bytes) -> bool:
    """Whether a file with these first twelve bytes is a HEIF.

    >>> is_heif(b"\\0\\0\\0\\x18ftypheic"), is_heif(b"\\0\\0\\0\\x18ftypmp42")
    (True, False)
    """
    return head[4:8] == b"ftyp" and head[8:12] in BRANDS


def read(stream: Stream, whole: bool = False) -> Blocks:
    """The blocks of a HEIF, which is always read to its last box. Raises `Broken`."""
    blocks = Blocks(type="AVIF" if read_at(stream, 8, 3) == b"avi" else "HEIC", budget=budget_of(stream))
    meta = None
    for box in boxes_of_file(blocks, stream, lambda kinds: b"mdat" in kinds and bool(kinds & {b"meta", b"moov"})):
        if box.kind == b"meta":
            if meta:
                raise Broken("the file has two meta boxes")
            meta = box
            Reader(stream, blocks).read(box)
        elif box.uuid == XMP_UUID:
            add_xmp(blocks, stream, box)
        elif box.kind not in _WITHOUT and box.at:  # the first one is ftyp
            leave(blocks, box.name, stream, box.start, box.end)
    return blocks


class Reader:
    """The meta box of one file."""

    def __init__(self, stream: Stream, blocks: Blocks) -> None:
        self.stream = stream
        self.blocks = blocks
        self.items = Items(stream)
        self.taken: dict[int, int] = {}  # items that are blocks, each with the bytes before its block

    def read(self, meta: Box) -> None:
        """Adds the blocks of all items."""
        known: set[bytes] = set()
        for box in boxes(self.stream, meta.start + 4, meta.end):
            if box.kind in known:
                raise Broken(f"a second {box.name} at {box.at}")
            known |= {box.kind} & {*READERS, b"iprp"}
            if box.kind in READERS:
                READERS[box.kind](self.items, box)
            elif box.kind == b"iprp":
                self._properties(box)
            elif box.uuid == CANON_UUID:
                leave_canon(self.blocks, self.stream, box)
            elif box.kind not in _WITHOUT_IN_META:
                self._leave(f"{box.name} in meta", box)
        self.items.check()
        if self.items.end() > size_of(self.stream):
            self.blocks.damage = IN_PICTURE
        names = self.items.pictures()
        for item in self.items.items:
            if item.kind not in PICTURES:
                self._take(item, names)

    def _leave(self, what: str, box: Box) -> None:
        leave(self.blocks, what, self.stream, box.start, box.end)

    def _properties(self, iprp: Box) -> None:
        for box in boxes(self.stream, iprp.start, iprp.end):
            for inner in boxes(self.stream, box.start, box.end) if box.kind == b"ipco" else ():
                if inner.kind not in PROPERTIES:
                    self._leave(inner.name.replace(" box", " property"), inner)
            if box.kind not in (b"ipco", b"ipma"):
                self._leave(f"{box.name} in iprp", box)

    def _take(self, item: Item, names: dict[int, str]) -> None:
        """Adds the block of an item, or names it."""
        part = self.items.part_of(item, names)
        what = item.words + (f" of {part}" if part else "")
        ranges = self.ranges(item)
        if ranges is None or item.is_protected:
            self.blocks.name(NotRead(f"{what}, protected or kept elsewhere", ""))
        elif not any(end > start for start, end in ranges):
            return  # ExifTool deletes an item so
        elif item.kind == b"Exif":
            data = self._data(ranges)
            block = exif_in(data)
            if block is None:
                self.blocks.name(NotRead(f"{what} without a header", digest_of_parts(self.stream, ranges)))
            else:
                self.taken[item.number] = len(data) - len(block)
                self.blocks.add(EXIF, block, f"Exif item at {ranges[0][0]}", part)
        elif item.type == _TYPE_OF_XMP and (packet := self._packet(item, ranges)) is not None:
            self.taken[item.number] = 0
            self.blocks.add(XMP, packet, f"XMP item at {ranges[0][0]}", part)
        else:
            self.blocks.name(NotRead(what, digest_of_parts(self.stream, ranges)))

    def _packet(self, item: Item, ranges: list[Range]) -> bytes | None:
        """The packet of an item, which may be compressed as by zlib; None if it can't be read."""
        if item.encoding not in (b"", b"deflate"):
            return None
        data = self._data(ranges)
        if not item.encoding:
            return data
        opened = zlib.decompressobj()
        try:
            packet = opened.decompress(data, self.blocks.budget.left[BOX_BYTES] + 1)
        except zlib.error:
            return None
        self.blocks.budget.spend(BOX_BYTES, len(packet))
        return packet if opened.eof and not opened.unused_data else None

    def ranges(self, item: Item) -> list[Range] | None:
        """The parts of the file that an item has; None if it is elsewhere, or consists of other items."""
        place = self.items.places.get(item.number)
        if not place or place.is_elsewhere or not place.has_lengths or place.method > 1:
            return None  # without lengths it is all of the file or of idat
        start, end, fault = 0, size_of(self.stream), f"the file ends inside item {item.number}"
        if place.method:
            idat = self.items.idat
            if not idat or not all(map(itemgetter(1), place.extents)):
                return None
            start, end, fault = idat.start, idat.end, f"item {item.number} isn't in the file"
        ranges = [(start + offset, start + offset + length) for offset, length in place.extents]
        if max(ranges, key=itemgetter(1), default=(0, 0))[1] > end:
            raise Broken(fault)
        return ranges

    def _data(self, ranges: list[Range]) -> bytes:
        self.blocks.budget.spend(BOX_BYTES, sum(end - start for start, end in ranges))
        return b"".join(read_at(self.stream, start, end - start) for start, end in ranges)
