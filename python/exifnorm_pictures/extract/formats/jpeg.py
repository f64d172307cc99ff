"""JPEG: Exif in APP1, also split over segments, IPTC in the Photoshop resources of APP13, XMP in APP1 and extended XMP, in the picture
itself and in those of its MPF index (CIPA DC-008 4.7, CIPA DC-007, XMP part 3).

The segments of `RESTS` are rest. All other segments of applications are compared by their bytes, and named.
"""

from __future__ import annotations

import hashlib
import re
import struct

from exifnorm._hints import Iterator, NamedTuple
from exifnorm._jpeg import RESOURCE_REST, rest_parts

from ...fields.xmp_properties import line_of
from ...model.budgets import RESOURCES, SCAN_SEGMENTS, Budget, TooMuch, budget_of
from ...model.found import CUT, EXIF, IPTC, REST, SIX, XMP, XMP_HEAD, Blocks, Broken, FoundBlock, NotRead, ordinal
from ...model.tiff_types import HEADS
from ...model.xmp_names import short_name
from ..structure import PRIVATE_TAGS, directories, order_of
from . import photoshop
from .jpeg_segments import (
    APP0,
    APP1,
    APP13,
    APP14,
    APP15,
    APP2,
    APP3,
    COM,
    EOI,
    EXIF_PIECE,
    PHOTOSHOP_PIECE,
    RESTS,
    SOI,
    XMP_PACKET,
    XMP_PIECE,
    Head,
    blocks_of,
    read_head,
    read_up_to,
    rest_of,
)
from .streams import (
    CHUNK,
    CREDENTIALS,
    METADATA,
    PICTURE,
    REST as THE_REST,
    STRUCTURE,
    Part,
    Range,
    Stream,
    Window,
    digest_of,
    read_at,
    size_of,
    word,
)
from .trailers import known_trailer, leave_trailer

# The part after the first scan: further segments of metadata, the end mark, and a trailer.
#
# Picture data are long and of no interest here: in them FF precedes 00, a restart mark, or the marker of another scan's tables. Unless
# everything is requested, only the last bytes of a long picture are read. If these contain only picture data and end with an end mark,
# the rest is assumed to be picture data; otherwise everything is read.

WINDOW = 1 << 16  # bytes

_MARKER = re.compile(rb"\xff[\x01-\xcf\xd8-\xfe]")
ALONE = frozenset((0x01, *range(0xD0, 0xDA)))  # markers without a segment
_TABLES = frozenset((0xC4, 0xCC, 0xDA, 0xDB, 0xDD))  # DHT, DAC, SOS, DQT, DRI


class Tail(NamedTuple):
    """The result: the offsets and lengths of the metadata segments, and the end of the picture."""

    segments: list[Range]
    end: int  # after the end mark, or the end of the part if there is none
    has_mark: bool
    is_read: bool = True


def tail(stream: Stream, start: int, end: int, whole: bool) -> Tail:
    """The tail of the picture whose first scan begins at `start`, in a part of the file that ends at `end`. Raises `TooMuch`."""
    if not whole and end - start > WINDOW:
        first = end - WINDOW
        stream.seek(first - 1)
        first -= stream.read(1) == b"\xff"
        if _is_plain(Markers(stream, first, end)) and known_trailer(stream, end) is None:  # Canon's ends with an end mark, too
            return Tail([], end, True)
    if not budget_of(stream).may_digest(end - start):
        return Tail([], start, False, False)
    return _scanned(Markers(stream, start, end))


class Markers:
    """The markers of a part of a file, in their order. Each piece of the file is read once."""

    def __init__(self, stream: Stream, at: int, end: int) -> None:
        self.stream = stream
        self.at = at  # after the last marker, or after the segment that was skipped
        self.end = end
        self._start = at  # of the piece in memory
        self._piece = b""

    def following(self) -> int:
        """The next marker; 0 at the end of the part."""
        while self.at < self.end:
            mark = _MARKER.search(self._piece, self.at - self._start)
            if mark:
                self.at = self._start + mark.end()
                return self._piece[mark.end() - 1]
            # FF as the last byte may begin a marker
            self._read(max(self._start + len(self._piece) - self._piece.endswith(b"\xff"), self.at))
            if len(self._piece) < 2:
                break
        self.at = self.end
        return 0

    def _read(self, at: int) -> None:
        self.stream.seek(at)
        self._start = self.at = at
        self._piece = self.stream.read(max(min(CHUNK, self.end - at), 0))

    def pass_over(self) -> int:
        """Skips the segment whose marker was the last one. Returns its length."""
        if self.at + 2 > self._start + len(self._piece):
            self._read(self.at)
        at = self.at - self._start
        length = max(int.from_bytes(self._piece[at : at + 2], "big"), 2)
        self.at += length
        return length


def _is_plain(markers: Markers) -> bool:
    """Whether a part contains only picture data and its tables, and ends with the end mark."""
    while True:
        marker = markers.following()
        if marker == EOI:
            return markers.at == markers.end
        if marker not in _TABLES:
            return False
        markers.pass_over()


def segments(markers: Markers) -> Iterator[Range]:
    """The marker and the offset of each segment from the first scan on, once `markers` is behind it; at last 0 or the end mark."""
    budget, passed, marker = budget_of(markers.stream), 0, -1
    while marker not in (0, EOI):
        passed += 1
        if not passed & 4095:  # markers; no other limit counts them
            budget.check_time()
        marker = markers.following()
        at = markers.at - 2
        is_segment = marker >= 0xC0 and marker not in ALONE  # otherwise it is none that may be here: damaged picture data
        if is_segment:
            markers.pass_over()
        if is_segment or marker in (0, EOI):
            yield marker, at


def _scanned(markers: Markers) -> Tail:
    """Reads all bytes after the first scan's header."""
    places = []
    last = 0
    for last, at in segments(markers):
        if last in (APP1, APP13):
            places.append((at, markers.at - at))
        if len(places) > SCAN_SEGMENTS:
            raise TooMuch(f"more than {SCAN_SEGMENTS:,} metadata segments after the first scan")
    return Tail(places, markers.at, last == EOI)


# The Multi-Picture index of a JPEG (CIPA DC-007): the offsets of the further pictures of the file.

INDEX_HEAD = b"MPF\0"
_MP_ENTRIES = 0xB002
_ENTRY = "4xII4x"  # of `struct`: its length and its offset
_ENTRY_LENGTH = 16
_NO_ENTRIES = (_MP_ENTRIES, 0, 1, 0)  # which are no list


def further_pictures(data: bytes, base: int) -> list[Range]:
    """The start and the length of each picture in the index besides the first one; `base` is the offset of the index's own header in the file.

    The first entry, whose offset is 0, is the picture that the index is in. Raises `Broken`.
    """
    if data[:4] not in HEADS:
        raise Broken("the MPF index has no header")
    index = next(directories(data), None)
    if not index or not index.is_whole:
        raise Broken("the MPF index is cut")
    start, length = next((it[3], it[2]) for it in (*index.rows, _NO_ENTRIES) if it[0] == _MP_ENTRIES)
    if length % _ENTRY_LENGTH or start + length > len(data):
        raise Broken("the MPF index has no list of pictures")
    entries = struct.iter_unpack(order_of(data) + _ENTRY, data[start : start + length])
    return [(base + offset, length) for length, offset in entries if offset]


# Extended XMP: a packet that is too long for one segment of a JPEG, in pieces (XMP part 3, 1.1.3.1).

EXTENDED = b"http://ns.adobe.com/xmp/extension/\0"
_DIGEST = 32  # characters of the digest in the main packet, after the head
_BEFORE = _DIGEST + 8  # the total length and the offset of the piece follow, four bytes each
NAME = "extended XMP"


class Pieces:
    """The pieces of the extended packets of one picture, each by its offset."""

    def __init__(self) -> None:
        self._parts: dict[bytes, tuple[int, dict[int, bytes]]] = {}
        self._places: dict[bytes, str] = {}

    def add(self, data: bytes, place: str) -> bool:
        """Adds a piece, which is all behind the head; whether it fits the others of its packet."""
        if len(data) < _BEFORE:
            return False
        digest = data[:_DIGEST]
        total, offset = struct.unpack_from(">II", data, _DIGEST)
        known = self._parts.setdefault(digest, (total, {}))
        self._places.setdefault(digest, place)
        if known[0] != total or offset in known[1]:
            return False
        known[1][offset] = data[_BEFORE:]
        return True

    def put_together(self, blocks: Blocks, part: str = "") -> None:
        """Adds each packet that is complete; the others are not read."""
        of = f" of {part}" if part else ""
        for number, (digest, (total, pieces)) in enumerate(self._parts.items(), 1):
            name = (NAME if number == 1 else f"{ordinal(number)} {NAME}") + of
            offsets = sorted(pieces)
            ends = [it + len(pieces[it]) for it in offsets]
            data = b"".join(pieces[it] for it in offsets)
            if offsets == [0, *ends[:-1]] and ends[-1] == total:
                extends = digest.decode("latin-1").upper()
                blocks.check()
                blocks.blocks.append(FoundBlock(XMP, data, name, self._places[digest], extends=extends))
            else:
                blocks.leave(f"{name}, of which pieces are missing or overlap", data)


START = b"\xff\xd8\xff"
NO_END_MARK = f"{CUT}before the end mark of its picture"  # which a decoder may still read wholly


def read(stream: Stream, whole: bool = False) -> Blocks:
    """The blocks of a JPEG. Raises `Broken`."""
    budget = budget_of(stream)
    blocks = Blocks(type="JPEG", budget=budget)
    end = size_of(stream)
    head = _Head(blocks)
    try:
        head.read(stream, 0, budget)
    except Broken as why:  # a lenient form: what a damaged file has before its fault
        if not blocks.blocks:
            raise
        blocks.not_read.append(NotRead(f"{REST} ({why})", digest_of(stream, head.end, end)))
        return blocks
    if head.is_open:
        blocks.leave(f"{REST} (the file ends before its first scan, at {end})", b"")
        return blocks
    starts = _further(stream, head, end)
    whole = whole or head.index_is_wrong
    _read_after(stream, head, (starts + [end])[0], whole)
    for number, start in enumerate(starts):
        following = _Head(blocks, f"MPF picture {number + 2}")
        following.read(stream, start, budget)
        _read_after(stream, following, (starts + [end])[number + 1], whole)
    return blocks


class _Head:
    """The segments of one picture before its first scan."""

    def __init__(self, blocks: Blocks, part: str = "") -> None:
        self.blocks = blocks
        self.part = part
        self.of = f" of {part}" if part else ""
        self.end = 0  # after the header of the first scan, after the end mark, or after the last whole segment
        self.has_scan = False
        self.is_open = False  # whether the file ends before the first scan
        self.indexes: list[tuple[int, bytes]] = []  # MPF indexes, each with the offset of its header
        self.index_is_wrong = False
        self._exif: list[tuple[str, bytes]] = []  # the position of each block, and its bytes
        self._runs: list[tuple[str, bytes]] = []  # Photoshop resources, the same way
        self._pieces = Pieces()
        self._rest = ""  # the name of the last part that can have no metadata

    def read(self, stream: Stream, start: int, budget: Budget) -> None:
        """Reads the picture that begins at `start`. Raises `Broken` once the blocks before the fault are added."""
        head = read_head(stream, start, budget)
        blocks = iter(blocks_of(head))
        for marker, kind, begins, at, size in head.parts:
            if begins:
                self._block(kind, start + at - 4, next(blocks))
            elif not kind and (marker in _BESIDE or marker == APP14):
                self.segment(marker, start + at - 4, head.octets[at : at + size])
        for place, data in self._exif:
            self.blocks.add(EXIF, data, place, self.part)
        photoshop.add_resources(self.blocks, self._runs, self.part)
        self._pieces.put_together(self.blocks, self.part)
        self.end, self.is_open = head.end, head.is_open
        if head.fault:
            raise Broken(head.fault)
        self.has_scan = head.has_scan

    def _block(self, kind: int, at: int, data: bytes) -> None:
        """Adds a block. Its first segment begins as many bytes before `at` as the mark of its kind has."""
        if kind == EXIF_PIECE:
            self._exif.append((f"APP1 segment at {at - len(SIX)}", data))
        elif kind == PHOTOSHOP_PIECE:
            self._runs.append((f"APP13 segment at {at - len(photoshop.HEAD)}", data))
        elif kind == XMP_PACKET:
            self.blocks.add(XMP, data, f"APP1 segment at {at - len(XMP_HEAD)}", self.part)
        elif not self._pieces.add(data, f"APP1 segment at {at - len(EXTENDED)}"):
            self.blocks.leave(f"piece of extended XMP that does not fit the others{self.of}", EXTENDED + data)

    def segment(self, marker: int, start: int, data: bytes) -> None:
        """Adds what a segment of no known kind has."""
        kind, mark = _kind_of(marker, data)
        marked = data[mark:]
        if kind == EXIF:
            self._exif.append((f"APP1 segment at {start}", marked))
        elif kind == XMP:
            self.blocks.add(XMP, marked, f"APP1 segment at {start}", self.part)
        elif kind == _RESOURCES:
            self._runs.append((f"APP13 segment at {start}", marked))
        elif kind == _INDEX:
            self.indexes.append((start + 4 + mark, marked))
        elif rest_of(marker, data):
            self.pass_over(kind, data[:_FEW], len(data))
        else:
            self.blocks.leave(kind + self.of, data)

    def pass_over(self, what: str, first: bytes, length: int) -> None:
        """Counts a part that can have no metadata, and begins so."""
        self._rest = _name_of(what, first, self._rest)
        self.blocks.pass_over(self._rest + self.of, length)


def is_end(number: int, after: int, size: int, is_plain: int) -> bool:
    """Whether only picture data and the end mark follow in an open file of this size, whose head ends here. `is_plain` is 1 if its last bytes
    are such, as in a trailer that ends so."""
    file, head = open(number, "rb", closefd=False), _Head(Blocks())
    head.end, head.has_scan = after, True
    if not is_plain or known_trailer(file, size):
        _read_after(file, head, size, False)
    return not (head.blocks.not_read or head.blocks.damage)


def passed_over(octets: bytes, rests: bytes) -> Blocks:
    """A result without blocks: the parts that can have no metadata, as the extension module has found them in a file."""
    head = _Head(Blocks())
    for what, at, length in rest_parts(rests):
        name = photoshop.name_of(what - RESOURCE_REST) if what >= RESOURCE_REST else RESTS[what][2]
        head.pass_over(name, octets[at : at + _FEW], length)
    return head.blocks


# With these the extension module reads a head and judges its blocks
READING = RESTS, (hashlib.sha256, short_name, line_of, b"".join(PRIVATE_TAGS))
_RESOURCES, _INDEX = "Photoshop resources", "MPF index"
# The blocks as the extension module numbers them, and what stands before the offset of a segment
WHERE = {XMP: "APP1 segment at ", EXIF: "APP1 segment at ", IPTC: "Photoshop resource 0404 in the APP13 segment at "}


# Marks that the library doesn't know, in their segments, and what these have. All but that of an
# index are lenient forms.
_MARKS = (
    # Some writers put up to four bytes before the word, or write it in another way; ExifTool reads these as well
    (APP1, rb"(?is).{0,4}?Exif\0.", EXIF),
    # ExifTool also reads a packet under a mark that only begins like that of XMP
    (APP1, rb"(?s)(?:http|XMP\0).{0,60}?(?=<(?:\?xpacket|x:xmpmeta|rdf:RDF)\b)", XMP),
    (APP13, rb"(?s)Adobe_Photoshop2\.5:.{0,8}", _RESOURCES),  # of an older Photoshop
    (APP2, INDEX_HEAD, _INDEX),
)


def _kind_of(marker: int, data: bytes) -> tuple[str, int]:
    """What a segment has whose mark the library doesn't know, and the length of the mark; or its name."""
    for of, mark, kind in _MARKS:
        found = re.match(mark, data) if of == marker else None
        if found:
            return kind, found.end()
    # Kodak's APP3, which has the structure of an Exif block
    if marker == APP3 and data.startswith((b"Meta\0\0", b"META\0\0", b"Exif\0\0")):
        return "APP3 segment Meta", 0
    name = f"APP{marker - APP0} segment"
    return rest_of(marker, data) or (f"{name} of an unknown kind" if marker in (APP1, APP13) else f"{name} {word(data)}".rstrip()), 0


def _further(stream: Stream, head: _Head, end: int) -> list[int]:
    """The offsets of the further pictures of the MPF index. An index that does not fit the file is noted, and not followed."""
    starts = set()
    for at, data in head.indexes:
        try:
            starts.update(_pictures(head.blocks, stream, (at, data), head.end, end))
        except Broken as why:
            head.index_is_wrong = True
            head.blocks.leave(f"MPF index that does not fit the file ({why})", data)
    return sorted(starts)


def _pictures(blocks: Blocks, stream: Stream, index: tuple[int, bytes], first: int, end: int) -> list[int]:
    """The offsets of the further pictures of one index, with the offset of its header. Raises `Broken` if it doesn't fit the file."""
    places = further_pictures(index[1], index[0])
    for number, (start, length) in enumerate(places, 2):
        is_picture = end > start + 3 and read_at(stream, start, 3) == START
        if is_picture and start + length > end:
            blocks.name(NotRead(f"{REST} ({CUT}inside MPF picture {number})", digest_of(stream, start, end)))
        if start < first or start + length > end or not is_picture:
            raise Broken(f"no picture at {start}")
    return [start for start, _ in places]


def _read_after(stream: Stream, head: _Head, end: int, whole: bool) -> None:
    """Reads the part after a picture's first scan, up to the next picture or the end of the file."""
    rest = tail(stream, head.end, end, whole) if head.has_scan else Tail([], min(head.end, end), True)
    for at, length in rest.segments:
        what = f"metadata segment behind the first scan{head.of}"
        head.blocks.not_read.append(NotRead(what, digest_of(stream, at, min(at + length, end))))
    if not rest.is_read:
        head.blocks.not_read.append(NotRead(f"what follows the first scan{head.of}, {end - head.end:,} bytes", ""))
        return
    if not (rest.has_mark and rest.end >= end):
        _leave_rest(stream, head, rest, end)


def _leave_rest(stream: Stream, head: _Head, rest: Tail, end: int) -> None:
    """Names what follows a picture, which may have no end mark."""
    is_last, start = end == size_of(stream), rest.end
    if not rest.has_mark and known_trailer(stream, end):
        start = max(head.end, end - WINDOW)
    elif not rest.has_mark and is_last:
        head.blocks.damage = NO_END_MARK
    first = read_up_to(stream, start, min(64, max(end - start, 0))).lstrip(b"\0")
    word = "second picture" if first.startswith(START) else "trailer"
    leave_trailer(head.blocks, stream, start, end, head.of, word, rest.has_mark and is_last)


_BESIDE = frozenset((*range(APP0, APP14), APP15, COM))  # markers of segments that say nothing of how to decode the picture
SCAN = "scan"  # the name of the parts from the first scan on


def parts(stream: Stream, head: Head, budget: Budget) -> Iterator[Part]:
    """Claims to the parts of a JPEG with this head, in their order but for those of Photoshop's resources. The pictures of its index are rest.
    Raises `Broken` and `TooMuch`."""
    yield from _of_picture(stream, head, 0, size_of(stream), budget)
    first, size = _Head(Blocks()), size_of(stream)
    first.end = head.end
    for marker, _, _, at, length in head.parts:
        if marker == APP2:
            first.segment(marker, at - 4, head.octets[at : at + length])
    places = [*_further(stream, first, size), size]  # what a wrong index leads to is rest in any case
    for number, (start, end) in enumerate(zip(places, places[1:]), 2):
        following = read_head(stream, start, budget)
        if following.fault or not following.has_scan:
            yield Part(THE_REST, start, end, f"MPF picture {number}")
        else:
            yield from _of_rest(_of_picture(stream, following, start, end, budget), f"MPF picture {number}")


def _of_picture(stream: Stream, head: Head, start: int, end: int, budget: Budget) -> Iterator[Part]:
    """The same of one picture up to `end`. Raises `Broken` if the first one has no end mark."""
    if head.fault or not head.has_scan:
        raise Broken(head.fault or f"no scan before {head.end}")
    yield from _of_head(head, start, budget)
    begin = start + head.parts[-1][3] - 4
    markers = Markers(stream, begin, end)
    for marker, here in segments(markers):
        if marker in _BESIDE:
            yield Part(PICTURE, begin, here, SCAN)
            yield Part(THE_REST, here, markers.at, "segment behind the first scan")
            begin = markers.at
    if marker == 0 and not start:
        raise Broken(NO_END_MARK)
    yield Part(PICTURE, begin, markers.at, SCAN)


def _of_rest(parts: Iterator[Part], name: str) -> Iterator[Part]:
    """The same of a picture with a name, which is a rest itself."""
    for part in parts:
        if part.kind == PICTURE:
            yield part._replace(kind=THE_REST, name=name)
        else:
            yield part._replace(name=f"{part.name} of {name}") if part.kind == THE_REST else part


def _of_head(head: Head, start: int, budget: Budget) -> Iterator[Part]:
    """The same of the segments before the first scan."""
    at, last = start, ""
    runs: list[list[Range]] = []
    for marker, piece, begins, first, length in head.parts[:-1]:
        first += start
        end = first + length
        if marker == SOI:
            raise Broken(f"no segment at {first - 2}")
        if marker not in _BESIDE:
            begin = end if marker in ALONE else first - 4
            yield Part(STRUCTURE, at, begin)
            yield Part(PICTURE, begin, end)
            at = end
            continue
        data = head.octets[first - start : end - start]
        what, mark = _PIECES.get(piece) or _kind_of(marker, data)
        kind = _CLASSES.get(what, THE_REST)
        yield Part(STRUCTURE, at, first + mark)
        at = end
        if what == _RESOURCES:
            runs += [[]] if begins or not piece else []
            runs[-1].append((first + mark, end))
        elif kind == THE_REST:
            last = _name_of(what, data[:_FEW], last)
            yield Part(kind, first, end, last)
        else:
            yield Part(kind, first + mark, end)
    yield Part(STRUCTURE, at, start + head.parts[-1][3] - 4)
    octets = [b"".join(head.octets[first - start : end - start] for first, end in run) for run in runs]
    yield from photoshop.parts(runs, octets, budget.left[RESOURCES])


_CLASSES = {EXIF: METADATA, XMP: METADATA, _INDEX: STRUCTURE}  # all others are rest, but resources, which have parts of their own
# What the segments of the kinds that the library knows have; their marks aren't in their ranges
_PIECES = {EXIF_PIECE: (EXIF, 0), PHOTOSHOP_PIECE: (_RESOURCES, 0), XMP_PACKET: (XMP, 0), XMP_PIECE: (XMP, 0)}


_FEW = 64  # bytes of a rest that show what it is


def _name_of(what: str, first: bytes, last: str) -> str:
    """The name of a rest: content credentials may go on in the segments behind their first one."""
    return CREDENTIALS if what == "JUMBF" and (b"c2pa" in first or last == CREDENTIALS) else what


# A picture inside another one: Panasonic and Fujifilm put a JPEG with all metadata into their raw pictures, and GeoTIFF is in JPEG 2000.


def add_jpeg(blocks: Blocks, stream: Stream, start: int, length: int, part: str, whole: bool) -> None:
    """Adds the blocks and the unread parts of the JPEG at an offset. Raises `Broken`."""
    if read_at(stream, start, 3) != START:
        raise Broken(f"no JPEG at {start}")
    add_inside(blocks, read(Window(stream, start, length), whole), part, f"JPEG at {start}")


def add_inside(blocks: Blocks, inside: Blocks, part: str, place: str) -> None:
    """Adds the blocks and the unread parts of a picture at a place. Without the name of a part it is the picture itself. Raises
    `TooMuch`."""
    of = f" of {part}" if part else ""
    for block in inside.blocks:
        blocks.check()
        blocks.counts[block.name + of] = 1
        blocks.blocks.append(block._replace(name=block.name + of, where=f"{block.where} of the {place}"))
    for unread in inside.not_read:
        blocks.name(NotRead(unread.what + of, unread.digest))
