"""The coded pictures of other formats than JPEG, for a digest, and claims to the parts of their files.

PNG and WebP: the chunks of `PIXELS` there, and of an animation the size in VP8X.

TIFF, BigTIFF, and raw pictures in this structure: of each page and SubIFD, where it stands among them, the tags that say how to decode its
data, and its strips or tiles in their order. What readers take otherwise than it is written has no digest: readers guess the length of a
strip that has none, and go beyond one that is too short for pixels that aren't compressed; and of two entries of one tag some take the first
and some the last.
"""

from __future__ import annotations

import functools
import hashlib
import zlib
from operator import lt
from typing import Callable, Iterable, Iterator, Sequence

from ..model.budgets import STRIPS, Budget
from ..model.found import CUT, IN_PICTURE, Blocks, Broken
from ..model.tiff_types import IFD, LONG, LONG8, SHORT
from .coded_picture import Add, NotFollowed, refuse_if
from .formats import heif, jxl, png, tiff, webp
from .formats.boxes import XMP_UUID, Box, Fields, boxes, boxes_to_fault, content, credentials_in
from ..model.xmp_encodings import begins_packet
from .formats.streams import (
    CREDENTIALS,
    METADATA,
    PICTURE,
    PROFILE,
    REST,
    STRUCTURE,
    Joined,
    Part,
    Range,
    Stream,
    add_to,
    pieces,
    read_at,
    size_of,
)
from .formats.tiff_directories import BIG, CLASSIC, IN_ENTRY, Directories, Directory, Entry

# Files made of boxes: HEIF, AVIF and JPEG XL.
#
# HEIF: of each picture in the order of the list its kind, the properties that say how to decode it, the pictures that it refers to, and its
# data. Numbers of items and places in the file don't count, as programs that add metadata move them. A sequence has only its still pictures
# here; its frames are rest. JPEG XL: the codestream, also of several boxes.

_EXIF_HEAD = 10  # bytes before a block of Exif, as most programs write them


def add_heif(stream: Stream, coded: "hashlib.blake2b", budget: Budget) -> Iterable[Part]:
    """Adds the coded pictures of a HEIF to a digest. Returns claims to the parts of the file. Raises `Broken` and `TooMuch`."""
    every, _ = boxes_to_fault(stream)  # after which is a trailer, or the reader of the blocks says that the file is cut
    meta = [it for it in every if it.kind == b"meta"]
    file = _Heif(stream, heif.Reader(stream, Blocks(budget=Budget())))  # all this was counted when it was read
    try:
        refuse_if(len(meta) != 1, "no single box meta")
        file.reader.read(meta[0])
        file.read_properties(meta[0])
    except Broken as why:
        raise why if str(why).startswith(CUT) else NotFollowed(str(why)) from None
    if file.reader.blocks.damage:
        raise Broken(IN_PICTURE)
    file.add(coded)
    of_boxes = (file.of_meta(box) if box is meta[0] else _of_box(stream, box) for box in every)
    return [*file.of_items(), *(claim for claims in of_boxes for claim in claims)]


_PLAIN = frozenset((b"JXL ", *b"ftyp hdlr pitm iinf iloc iref ipma dinf".split()))  # of the structure alone
_HOLLOW = frozenset(b"mdat idat free skip wide".split())  # whose content nobody claims but items


def _of_box(stream: Stream, box: Box) -> Iterator[Part]:
    """Claims to a box that has no part which another function claims."""
    yield Part(STRUCTURE, box.at, box.end if box.kind in _PLAIN else box.start)
    if box.kind in _PLAIN or box.kind in _HOLLOW:
        return
    if box.uuid == XMP_UUID or (box.kind == b"xml " and begins_packet(content(stream, box))):
        yield Part(METADATA, box.start, box.end)
    else:
        yield Part(REST, box.start, box.end, credentials_in(stream, box) or box.name)


def _with_block(ranges: list[Range], before: int) -> Iterator[Part]:
    """Claims to an item or a box with a block, before which some bytes are: those of its format,
    or others."""
    kind, name = (STRUCTURE, "") if before <= _EXIF_HEAD else (REST, "bytes before Exif")
    joined = Joined(ranges)
    yield from (Part(kind, *it, name) for it in joined.placed(0, before))
    yield from (Part(METADATA, *it) for it in joined.placed(before, joined.length))


class _Heif:
    """The pictures of one file, by the reader of its blocks."""

    def __init__(self, stream: Stream, reader: heif.Reader) -> None:
        self.stream, self.reader = stream, reader
        self.properties: list[Box] = []
        self.associated: dict[int, list[int]] = {}  # the positions of the properties of each item, from 1 on
        self.used: set[int] = set()  # the properties of pictures
        self.left = size_of(stream)  # items may share bytes in a made file

    def read_properties(self, meta: Box) -> None:
        """Reads which properties each item has (ISO/IEC 23008-12, 9.3). Raises `Broken`."""
        for outer in boxes(self.stream, meta.start + 4, meta.end):
            for box in boxes(self.stream, outer.start, outer.end) if outer.kind == b"iprp" else ():
                if box.kind == b"ipco":
                    self.properties += boxes(self.stream, box.start, box.end)
                elif box.kind == b"ipma":
                    self._associate(Fields(content(self.stream, box), box.name))

    def _associate(self, fields: Fields) -> None:
        version, flags = fields.number(1), fields.number(3)
        width = 2 if flags & 1 else 1
        for _ in range(fields.number(4)):
            known = self.associated.setdefault(fields.number(4 if version else 2), [])
            known += [fields.number(width) & (1 << 8 * width - 1) - 1 for _ in range(fields.number(1))]  # without the bit 'essential'

    def add(self, coded: "hashlib.blake2b") -> None:
        """Adds all pictures to a digest. Raises `NotFollowed`."""
        pictures = [it for it in self.reader.items.items if it.kind in heif.PICTURES]
        numbers = {it.number: place for place, it in enumerate(pictures)}
        for item in pictures:
            coded.update(b"%b%d" % (item.kind, item.number == self.reader.items.primary))
            self._add_properties(coded, item.number)
            ranges = self.reader.ranges(item)
            if ranges is None:
                raise NotFollowed("a picture whose data are elsewhere")
            self._add(coded, b"data", ranges)
        for kind, item_number, others in self.reader.items.references:
            if kind != b"cdsc" and {item_number, *others} <= set(numbers):
                coded.update(b"%b%d:%b" % (kind, numbers[item_number], b",".join(b"%d" % numbers[it] for it in others)))

    def _add_properties(self, coded: "hashlib.blake2b", number: int) -> None:
        """Adds the properties of an item that say how to decode it."""
        for place in self.associated.get(number, ()):
            refuse_if(not 0 < place <= len(self.properties), "a property that isn't there")
            box = self.properties[place - 1]
            self.used.add(place)
            if self._kind_of(box)[0] == PICTURE:
                self._add(coded, box.kind, [(box.start, box.end)])

    def _add(self, coded: "hashlib.blake2b", kind: bytes, ranges: list[Range]) -> None:
        length = sum(end - start for start, end in ranges)
        self.left -= length
        refuse_if(self.left < 0, "pictures that share bytes")
        coded.update(b"%b%d" % (kind, length))
        for start, end in ranges:
            add_to(coded, self.stream, start, end)

    def _kind_of(self, box: Box) -> tuple[str, str]:
        """The class of a property, and the name of a rest."""
        if box.kind in (b"free", b"skip"):
            return STRUCTURE, ""
        if box.kind == b"colr" and read_at(self.stream, box.start, min(4, box.end - box.start)) in (b"prof", b"rICC"):
            return REST, PROFILE
        return (PICTURE, "") if box.kind in heif.PROPERTIES else (REST, box.name.replace(" box", " property"))

    def of_items(self) -> Iterator[Part]:
        """Claims to the data of all items. Raises `Broken` and `TooMuch`."""
        for item in self.reader.items.items:
            ranges = self.reader.ranges(item)
            if ranges is None:
                continue  # nobody's bytes
            if item.kind in heif.PICTURES:
                yield from (Part(PICTURE, *it) for it in ranges)
            elif item.number not in self.reader.taken:
                yield from (Part(REST, *it, CREDENTIALS if b"c2pa" in item.type else item.words) for it in ranges)
            else:
                yield from _with_block(ranges, self.reader.taken[item.number])

    def of_meta(self, meta: Box) -> Iterator[Part]:
        """Claims to the box meta and the boxes in it. Raises `Broken` and `TooMuch`."""
        yield Part(STRUCTURE, meta.at, meta.start + 4)
        for box in boxes(self.stream, meta.start + 4, meta.end):
            if box.kind == b"iprp":
                yield Part(STRUCTURE, box.at, box.start)
                for inner in boxes(self.stream, box.start, box.end):
                    yield from _of_box(self.stream, inner._replace(end=inner.start, kind=b"free") if inner.kind == b"ipco" else inner)
            else:
                yield from self._names(box)
                yield from _of_box(self.stream, box)
        for place, box in enumerate(self.properties, 1):
            kind, name = self._kind_of(box)
            if kind == PICTURE and place not in self.used:
                kind, name = REST, "unused properties"
            yield from (Part(STRUCTURE, box.at, box.start), Part(kind, box.start, box.end, name))

    def _names(self, iinf: Box) -> Iterator[Part]:
        """Claims to the names of items, which are texts. Raises `Broken`."""
        if iinf.kind != b"iinf":
            return
        wide = read_at(self.stream, iinf.start, 1) != b"\0"
        for box in boxes(self.stream, iinf.start + (8 if wide else 6), iinf.end):
            start = box.start + (14 if read_at(self.stream, box.start, 1) == b"\3" else 12)
            name = content(self.stream, box)[start - box.start :].partition(b"\0")[0]
            yield Part(REST, start, start + len(name), "names of items")


def add_jxl(stream: Stream, coded: "hashlib.blake2b", budget: Budget) -> Iterable[Part]:
    """The same of a JPEG XL. Raises `Broken` and `TooMuch`."""
    if read_at(stream, 0, len(jxl.BARE)) == jxl.BARE:
        codestream, claims = [(0, size_of(stream))], []  # type: list[Range], list[Part]
    else:
        every, _ = boxes_to_fault(stream)
        codestream = [(it.start + 4 * (it.kind == b"jxlp"), it.end) for it in every if it.kind in (b"jxlc", b"jxlp")]
        claims = [it for box in every for it in _of_jxl(stream, box)]
    refuse_if(not codestream, "no codestream")
    for start, end in codestream:
        add_to(coded, stream, start, end)
    return [*(Part(PICTURE, *it) for it in codestream if it[1] > it[0]), *claims]


_OF_JXL = frozenset(b"jxlc jxlp jxll jxli".split())


def _of_jxl(stream: Stream, box: Box) -> Iterator[Part]:
    """Claims to a box of a JPEG XL but for its codestream."""
    first = read_at(stream, box.start, min(4, box.end - box.start))
    if box.kind in _OF_JXL:
        yield Part(STRUCTURE, box.at, box.end)
    elif box.kind == b"brob" and first in jxl.IN_BROB:
        yield from (Part(STRUCTURE, box.at, box.start), Part(METADATA, box.start, box.end))
    elif box.kind == b"Exif" and (block := jxl.block_in(stream, box)) is not None:
        yield Part(STRUCTURE, box.at, box.start)
        yield from _with_block([(box.start, box.end)], box.end - box.start - len(block))
    else:
        yield from _of_box(stream, box)


# PNG and WebP

_ALPHA = 0x10  # the bit of VP8X that says that a picture is transparent somewhere
_MOVES = 0x02  # the bit of VP8X that says so; a picture that doesn't move has VP8X only if it has metadata or ALPH


def _png(stream: Stream, coded: "hashlib.blake2b", budget: Budget) -> Iterable[Part]:
    last, data = b"", 0
    chunks = list(png.chunks(stream, budget.again()))  # they were counted when they were read
    for at, kind, length in chunks:
        if kind in png.PIXELS:
            if kind != b"IDAT" and last == b"IDAT":
                coded.update(b"%d" % data)  # so that a chunk is none of the data
            if kind != b"IDAT" or last != b"IDAT":  # the data of these chunks are one stream
                coded.update(kind if kind == b"IDAT" else kind + length.to_bytes(4, "big"))
            data += length if kind == b"IDAT" else 0
            last = kind
        _check(stream, coded if kind in png.PIXELS else None, (at, kind, length))
    return png.parts(stream, chunks)


def _check(stream: Stream, coded: "hashlib.blake2b | None", chunk: tuple[int, bytes, int]) -> None:
    """Adds a chunk to a digest, if there is one. Raises `Broken` if it isn't what its check sum says."""
    at, kind, length = chunk
    known = zlib.crc32(kind)
    for data in pieces(stream, at + 8, at + 8 + length):
        known = zlib.crc32(data, known)
        if coded:
            coded.update(data)
    if known != int.from_bytes(read_at(stream, at + 8 + length, 4), "big"):
        raise Broken(f"wrong check sum of the chunk at {at}")


def _webp(stream: Stream, coded: "hashlib.blake2b", budget: Budget) -> Iterable[Part]:
    flags = _ALPHA
    chunks = list(webp.chunks(stream, webp.end_of(stream), budget.again()))
    for at, kind, length in chunks:
        if kind == b"VP8X":
            flags, *size = read_at(stream, at + 8, min(length, 10)) or b"\0"
            if flags & _MOVES:
                coded.update(kind + bytes([flags & _ALPHA, *size]))
        elif kind in webp.PIXELS:
            if not flags & _ALPHA and _has_alpha(kind, read_at(stream, at + 8, min(length, 5))):
                coded.update(b"opaque")  # readers leave out what VP8X doesn't name
            coded.update(kind + length.to_bytes(4, "little"))
            add_to(coded, stream, at + 8, at + 8 + length)
    return webp.parts(chunks)


def _has_alpha(kind: bytes, data: bytes) -> bool:
    """Whether a chunk with these first bytes has transparency (RFC 9649, 3.4: the bit after the signature, the width and the height)."""
    return kind == b"ALPH" or (kind == b"VP8L" and len(data) == 5 and bool(data[4] & 0x10))


# TIFF

_WIDTH, _HEIGHT, _BITS, _COMPRESSION, _PHOTOMETRIC = 0x0100, 0x0101, 0x0102, 0x0103, 0x0106
_SAMPLES, _ROWS, _PLANES, _TILE_WIDTH, _TILE_HEIGHT = 0x0115, 0x0116, 0x011C, 0x0142, 0x0143
# TIFF 6.0; of raw pictures CFA patterns (TIFF/EP), linearization and the arrangement of samples (DNG), and slices (CR2)
_CODING = (
    *(_WIDTH, _HEIGHT, _BITS, _COMPRESSION, _PHOTOMETRIC, 0x010A, _SAMPLES, _ROWS, _PLANES, 0x0124, 0x0125, 0x013D, 0x0140),
    *(_TILE_WIDTH, _TILE_HEIGHT, 0x014C, 0x0152, 0x0153, 0x015B, 0x0200, 0x0203, 0x0205, 0x0206, 0x0211, 0x0212, 0x0214),
    *(0x828D, 0x828E, 0xC617, 0xC618, 0xC640, 0xC71E, 0xC71F, 0xCD43),
)
_STRIPS, _TILES = 0x0111, 0x0144
_OFFSETS = {_STRIPS: 0x0117, _TILES: 0x0145, 0x0201: 0x0202, 0xA010: 0xA011}  # each with the tag of the lengths; Samsung's table of rows
_PROFILE = 0x8773  # of which two are not followed
_OLD_TABLES = frozenset((0x0207, 0x0208, 0x0209))  # of JPEG in TIFF 6.0, whose lengths aren't in the file's directories
_COUNTED = frozenset((*_CODING, *_OFFSETS, *_OFFSETS.values(), _PROFILE))
_NUMBERS = frozenset((_WIDTH, _HEIGHT, _BITS, _COMPRESSION, _PHOTOMETRIC, _SAMPLES, _ROWS, _PLANES, _TILE_WIDTH, _TILE_HEIGHT))
_JPEG, _UNCOMPRESSED, _YCBCR = (6, 7), 1, 6

Entries = dict[int, Entry]


def add_tiff(stream: Stream, coded: "hashlib.blake2b", budget: Budget) -> Iterable[Part]:
    """Adds the coded picture to a digest. Returns claims to the parts of the file. Raises `Broken` and `TooMuch`."""
    directories = Directories(stream, BIG if read_at(stream, 0, 4) in tiff.BIG_HEADS else CLASSIC)
    left, strips = directories.size, 0  # strips may share bytes in a made file
    reader, pages = tiff.Reader(directories, False), []
    for page in reader.pages():
        pages.append(page)
        entries = _counted(page.directory)
        coded.update(page.part.encode("ascii"))
        coded.update(_order(directories, entries))
        for tag in _CODING:
            if tag in entries:
                coded.update(_value(directories, entries[tag]))
        for start, end in _joined(_strips(directories, page.directory, entries, coded)):
            strips += 1
            left -= end - start
            if left < 0 or strips > STRIPS:
                raise Broken("the strips are more than the file")
            budget.check_time()
            add_to(coded, directories.stream, start, end)
    return reader.parts(pages)


def _counted(directory: Directory) -> Entries:
    """The entries that count, by their tags. Raises `NotFollowed`."""
    entries: Entries = {}
    for entry in directory.entries:
        refuse_if(entry.tag in _OLD_TABLES, "old tables of JPEG")
        is_pointer = entry.tag in tiff.OTHER_POINTERS and entry.type in (LONG, IFD)
        refuse_if(is_pointer, "a private directory, which may lead to pixels")
        is_second = entry.tag in _COUNTED and entries.setdefault(entry.tag, entry) is not entry
        refuse_if(is_second, "two entries of a tag")
    return entries


def _value(directories: Directories, entry: Entry) -> bytes:
    """A value for a digest: numbers as texts, so that SHORT and LONG are alike. Raises `Broken`."""
    if entry.size > IN_ENTRY and directories.place_of(entry) is None:
        raise Broken(f"the value of tag {entry.tag:04x} isn't in the file")
    if entry.type in (SHORT, LONG, LONG8):
        return b"%d:%s " % (entry.tag, b",".join(b"%d" % number for number in directories.numbers(entry)))
    refuse_if(entry.tag in _NUMBERS or not entry.size, f"tag {entry.tag:04x} has another type or no value")
    return b"%d:%d:%d:" % (entry.tag, entry.type, entry.size) + directories.value(entry)


def _numbers(directories: Directories, entries: Entries, tag: int, default: int = 1) -> list[int]:
    """The numbers of an entry, or the default of its tag."""
    return (directories.numbers(entries[tag]) if tag in entries else []) or [default]


def _order(directories: Directories, entries: Entries) -> bytes:
    """The byte order of a file, if its samples have it too."""
    (compression, *_), bits = (_numbers(directories, entries, tag) for tag in (_COMPRESSION, _BITS))
    has_order = compression not in _JPEG and any(it > 8 and it % 8 == 0 for it in bits)
    return directories.order.encode("ascii") if has_order else b""


def _strips(directories: Directories, page: Directory, entries: Entries, coded: "hashlib.blake2b") -> Iterator[Range]:
    """The ranges of the strips, tiles and JPEGs of a page, after their lengths, which are added. Raises `Broken`."""
    there = {tag: other for tag, other in _OFFSETS.items() if tag in entries or other in entries}
    refuse_if({_STRIPS, _TILES} <= there.keys(), "strips and tiles in one directory")
    for tag, of_lengths in there.items():
        refuse_if(of_lengths not in entries, "strips without lengths, as old programs write them")
        starts = directories.numbers(entries[tag]) if tag in entries else []
        lengths = directories.numbers(entries[of_lengths])
        if len(starts) != len(lengths) or not starts:
            raise Broken(f"the strips of the directory at {page.at} have no lengths")
        coded.update(b"%d:%s " % (of_lengths, b",".join(b"%d" % it for it in lengths)))
        if tag in (_STRIPS, _TILES):
            _check_lengths(directories, entries, lengths)
        for start, length in zip(starts, lengths):
            if start + length > directories.size:
                raise Broken(IN_PICTURE)
            yield start, start + length


def _check_lengths(directories: Directories, entries: Entries, lengths: Sequence[int]) -> None:
    """Raises `NotFollowed` for strips and tiles whose lengths readers guess."""
    refuse_if(not all(lengths), "a strip without a length")
    count, size, last = _uncompressed(directories, entries)
    least = (size if number % count else last for number in range(1, len(lengths) + 1))
    is_short = len(lengths) < count or any(map(lt, lengths, least))
    refuse_if(is_short, "strips that are shorter than their pixels")


def _uncompressed(directories: Directories, entries: Entries) -> tuple[int, int, int]:
    """How many strips or tiles a plane has, the bytes of each but the last one, and those of the last one: of compressed ones 0."""
    numbers = functools.partial(_numbers, directories, entries)
    if numbers(_COMPRESSION)[0] != _UNCOMPRESSED or numbers(_PHOTOMETRIC)[0] == _YCBCR:
        return 1, 0, 0
    bits, samples = numbers(_BITS), numbers(_SAMPLES)[0]
    if numbers(_PLANES)[0] != 2:
        bits = [sum(bits) if len(bits) == samples else bits[0] * samples]
    if _TILES in entries:
        size = (numbers(_TILE_WIDTH)[0] * bits[0] + 7) // 8 * numbers(_TILE_HEIGHT)[0]
        return 1, size, size
    row, height = (numbers(_WIDTH, 0)[0] * bits[0] + 7) // 8, numbers(_HEIGHT, 0)[0]
    rows = min(numbers(_ROWS, height)[0], height) or 1
    count = max((height + rows - 1) // rows, 1)
    return count, row * rows, row * (height - (count - 1) * rows)


def _joined(ranges: Iterator[Range]) -> Iterator[Range]:
    """The same bytes in the same order, in fewer ranges.

    >>> list(_joined(iter([(2, 5), (5, 9), (1, 2)])))
    [(2, 9), (1, 2)]
    """
    last = None
    for start, end in ranges:
        if last and start == last[1]:
            last[1] = end
            continue
        if last:
            yield last[0], last[1]
        last = [start, end]
    if last:
        yield last[0], last[1]


# How files of each format begin
FOLLOWED: Sequence[tuple[Callable[[bytes], bool], Add]] = (
    (lambda head: head.startswith(png.START), _png),
    (webp.is_webp, _webp),
    (lambda head: head[:4] in (*tiff.HEADS, *tiff.BIG_HEADS), add_tiff),
    (heif.is_heif, add_heif),
    (lambda head: head.startswith((jxl.START, jxl.BARE)), add_jxl),
)
