"""The head of a JPEG, which is all before its first scan: its parts, the blocks in them, and whether two JPEGs have the same."""

from __future__ import annotations

import hashlib
import operator
import struct

from ._calls import view_of
from ._errors import HeadRefused, PictureRefused, TooMany, XmpNotRead
from ._hints import TYPE_CHECKING, Any, Dict, Iterable, Iterator, List, Literal, NoReturn, Optional, Tuple, Union
from ._library import PART, PLACE, RESOURCE, Status, library
from ._named import NamedTuple
from ._words import EXIF, IPTC, documented

if TYPE_CHECKING:
    from ._aliases import Octets
    from ._library import PictureFailure

PART_KINDS = ("", "exif", "photoshop", "xmp", "extended xmp")  # of parts, by the library's numbers
BLOCK_KINDS = ("", EXIF, IPTC)  # the same of blocks
PartRow = Tuple[int, int, int, int, int]
_IPTC = 0x0404  # the number of the resource
RESOURCE_REST = 0x10000  # and the number of a resource: a rest that is no segment
_REST = struct.Struct("=3Q")
CAUSES: Dict[int, str] = {101: "JpegNoStart", 102: "JpegNoMarker", 103: "JpegLength", 104: "JpegCut", 105: "JpegTooLong"}


@documented
class JpegPart(NamedTuple):
    """A part of a JPEG's head: a marker, and where the data of its segment are.

    - `marker`: the second byte of the marker, such as 0xE1 for APP1
    - `kind`: "exif", "photoshop", "xmp" or "extended xmp", by the mark with which the data begin; "" for all others
    - `begins`: whether a block begins here. Otherwise it continues the one in the part before
    - `start`: the offset of the data behind that mark; of a marker without a segment, the offset behind it
    - `size`: the number of these bytes
    """

    marker: int
    kind: str
    begins: bool
    start: int
    size: int


@documented
class Resource(NamedTuple):
    """One of Photoshop's image resources.

    - `number`: its number, such as 0x0404 of IPTC
    - `start`: the offset of its data
    - `size`: the number of their bytes
    """

    number: int
    start: int
    size: int


@documented
class JpegBlock(NamedTuple):
    """A block of a JPEG.

    - `kind`: "exif" or "iptc"
    - `data`: its bytes
    """

    kind: Literal["exif", "iptc"]
    data: bytes


def _bytes_of(octets: Octets) -> bytes:
    """The bytes of an object of any type."""
    if type(octets) is bytes:
        return octets
    with view_of(octets) as view:
        if not view.c_contiguous:
            raise BufferError("the bytes must be contiguous")
        return view.tobytes()


def _limit(octets: bytes, most: Optional[int]) -> int:
    """The most rows that a call may return. It has fewer rows than bytes.

    >>> _limit(b"Vase", None), _limit(b"Vase", 2), _limit(b"Vase", 1 << 80)
    (4, 2, 4)
    """
    return len(octets) if most is None else min(operator.index(most), len(octets))


def _parts(rows: bytes) -> List[JpegPart]:
    new = tuple.__new__
    return [
        new(JpegPart, (marker, PART_KINDS[kind], begins == 1, start, size)) for marker, kind, begins, start, size in PART.iter_unpack(rows)
    ]


def _raise(failure: Tuple[int, int, int, bytes], most: int) -> NoReturn:
    """Raises the exception for a status."""
    status, cause, place, rows = failure
    if status == Status.REFUSED:
        raise HeadRefused(CAUSES[cause], place, _parts(rows))
    if status == Status.TOO_LITTLE_ROOM and place > most:
        raise TooMany(most)
    raise AssertionError(f"libexifnorm answered the status {status}")


def jpeg_parts(picture: Octets, most: Optional[int] = None) -> List[JpegPart]:
    """The parts of a JPEG's head in their order. The last one is the header of the first scan, or the end of the picture.

    The bytes may be a whole file or only its first bytes: what follows the head isn't looked at. Raises HeadRefused, with the first fault
    and the parts before it, if they aren't a head, and TooMany for more than `most` parts. If the cause is JpegCut, the bytes end before
    the head does; more of the file change nothing in these parts.

    >>> for part in jpeg_parts(bytes.fromhex("ffd8 ffe1000c 457869660000 4d4d002a ffd9")):
    ...     print(part)
    JpegPart(marker=225, kind='exif', begins=True, start=12, size=4)
    JpegPart(marker=217, kind='', begins=False, start=18, size=0)
    """
    octets = _bytes_of(picture)
    return _parts(_rows_of_parts(octets, _limit(octets, most)))


def _rows_of_parts(octets: bytes, most: int) -> bytes:
    rows = library().jpeg_parts(octets, most)
    if isinstance(rows, tuple):
        _raise(rows, most)
    return rows


def rows_or_fault(octets: bytes, most: int) -> Tuple[List[PartRow], str, int]:
    """The parts of a head as rows, or those before its fault with the cause and the offset of it. Raises TooMany."""
    try:
        return part_rows(octets, most), "", 0
    except HeadRefused as why:
        rows: List[PartRow] = [(it.marker, PART_KINDS.index(it.kind), it.begins, it.start, it.size) for it in why.parts]
        return rows, why.cause, why.offset


def part_rows(octets: bytes, most: int) -> List[PartRow]:
    """The parts as the library has them, with the numbers of their kinds, where the time for objects matters.

    >>> part_rows(bytes.fromhex("ffd8 ffe1000c 457869660000 4d4d002a ffd9"), 2)
    [(225, 1, 1, 12, 4), (217, 0, 0, 18, 0)]
    """
    rows: Iterator[Any] = PART.iter_unpack(_rows_of_parts(octets, most))
    return list(rows)


def photoshop_resources(octets: Octets, most: Optional[int] = None) -> List[Resource]:
    """Photoshop's image resources at the start of some bytes, in their order: up to where no resource is. Raises TooMany for more
    than `most`.

    >>> photoshop_resources(b"8BIM" + bytes.fromhex("0404 0000 00000003") + b"abc")
    [Resource(number=1028, start=12, size=3)]
    """
    octets = _bytes_of(octets)
    limit = _limit(octets, most)
    rows = library().photoshop_resources(octets, limit)
    if isinstance(rows, tuple):
        _raise(rows, limit)
    return list(map(Resource._make, RESOURCE.iter_unpack(rows)))


def jpeg_blocks(picture: Octets) -> List[JpegBlock]:
    """The Exif and IPTC blocks of a JPEG in their order, each as one. Exif is in segments APP1, IPTC in Photoshop's resources of number
    0404 in segments APP13; such a resource without bytes is no block. Other programs may also have put Exif into resource 0422, which
    isn't returned. XMP isn't either: `jpeg_parts` shows where it is.

    The bytes may be a whole file or only its first bytes. Raises HeadRefused, with the first fault and the blocks that end before it, if they
    don't begin with the whole head of a JPEG, and LibraryMissing.

    >>> import exifnorm
    >>> exif = b"Exif\\0\\0" + bytes.fromhex("4d4d002a00000008 0001 0112 0003 00000001 00060000 00000000")
    >>> picture = bytes.fromhex("ffd8 ffe1") + (2 + len(exif)).to_bytes(2, "big") + exif + bytes.fromhex("ffd9")
    >>> for kind, block in jpeg_blocks(picture):
    ...     print(kind, exifnorm.fields(block))
    exif [BlockField(directory='main', tag=274, type='SHORT', values=(6,))]
    """
    octets = _bytes_of(picture)
    answer = _places(octets)
    blocks = _blocks(_joined(octets, answer))
    if len(answer) == 2:
        return blocks
    failure: Any = library().jpeg_parts(octets, len(octets))  # which has the parts before the fault
    raise HeadRefused(CAUSES[answer[1]], answer[2], _parts(failure[3]), blocks)


def whole_blocks(octets: bytes) -> List[Tuple[int, bytes]]:
    """The blocks of a JPEG in their order, of any kind, each with the number of its kind; of a head with a fault those that end before it.

    >>> whole_blocks(bytes.fromhex("ffd8 ffe1000c 457869660000 4d4d002a ffe1000a 457869660000 0008 ffd9"))
    [(1, b'MM\\x00*\\x00\\x08')]
    """
    return list(_joined(octets, _places(octets)))


def _places(octets: bytes) -> Any:
    """The rows of the blocks and the joined bytes; after a fault also its status, its cause and its offset, before these."""
    answer: Any = library().jpeg_blocks(octets)
    if len(answer) == 5 and answer[0] != Status.REFUSED:
        raise AssertionError(f"libexifnorm answered the status {answer[0]}")
    return answer


def _joined(octets: bytes, answer: Any) -> Iterator[Tuple[int, bytes]]:
    """The blocks at some places, each as one, with the number of its kind."""
    rows, joined = answer[-2:]
    for kind, is_joined, start, size in PLACE.iter_unpack(rows):
        yield kind, (joined if is_joined else octets)[start : start + size]


def _blocks(whole: Iterable[Tuple[int, bytes]]) -> List[JpegBlock]:
    """The blocks of Exif and of IPTC in some blocks of any kind."""
    blocks: List[JpegBlock] = []
    for number, data in whole:
        if PART_KINDS[number] == "exif":
            blocks.append(JpegBlock(EXIF, data))
        elif PART_KINDS[number] == "photoshop":
            rows = photoshop_resources(data)
            blocks += [JpegBlock(IPTC, data[start : start + size]) for resource, start, size in rows if resource == _IPTC and size]
    return blocks


def _raise_for_pair(failure: PictureFailure) -> NoReturn:
    """Raises the exception for a status of a comparison."""
    status, cause, kind, number, place = failure
    if status in (Status.REFUSED, Status.SECOND_REFUSED):
        side = 2 if status == Status.SECOND_REFUSED else 1
        if kind:
            raise PictureRefused(library().cause_name(cause), place, side, BLOCK_KINDS[kind], number)
        raise PictureRefused(CAUSES[cause], place, side)
    if status == Status.NO_MEMORY:
        raise MemoryError
    raise AssertionError(f"libexifnorm answered the status {status}")


def digest_but_note(packed: bytes, note: int, end: int) -> Optional[str]:
    """A digest of packed fields without the one of the MakerNote, which is between these offsets; None if there is none."""
    if not end:
        return None
    return hashlib.blake2b((packed[1:note] + packed[end:-1]).lstrip(b","), digest_size=32).hexdigest()


# What the extension module fills in records, in its order: of a picture, and of a block
_OF_PICTURE = (
    *("path", "root", "size", "modified", "changed", "inode", "device", "xmp", "exif", "iptc", "xmp_octets", "exif_octets", "iptc_octets"),
    *("beside", "blocks", "maker_notes", "other_exif"),
)
_OF_BLOCK = ("source", "digest", "length", "octets", "fields", "note", "but_note")


def recording(
    rests: object, judging: object, picture: Any, blocks: Tuple[Any, ...], where: Iterable[str], *others: object
) -> Tuple[Any, ...]:
    """What the extension module needs to make the records of a usual JPEG and its blocks (`_packed.h`).
    A record of the picture, and one of a block of each kind, has what all have; `where` is how the
    position of a block begins, and `others` are functions."""
    named = ((picture, _OF_PICTURE), (blocks[0], _OF_BLOCK))
    places = [tuple(map(one._fields.index, names)) for one, names in named]
    of_blocks = (blocks[0]._make, blocks, places[1])
    prefixes = tuple(it.encode("ascii") for it in where)
    return rests, judging, (picture._make, picture, places[0]), of_blocks, prefixes, *others


def rest_parts(rests: bytes) -> Iterator[Tuple[int, ...]]:
    """Each rest of a usual head as the extension module has it (`_packed.h`): what it is, its offset and its length."""
    return _REST.iter_unpack(rests)


@documented
class Unread(NamedTuple):
    """A place in a JPEG that isn't read.

    - `joined`: whether the offset is one in the blocks in several pieces, one after another, and not in the JPEG
    - `start`: the offset
    """

    joined: bool
    start: int


@documented
class NotRead(NamedTuple):
    """Two JPEGs have the same metadata as far as both are read, and one has a place that isn't read. It is neither true nor false, so a test
    of it raises TypeError.

    - `side`: the number of the JPEG, 1 or 2; 2 only if all of the first is read
    - `unread`: the place

    >>> if NotRead(1, Unread(False, 6)):
    ...     print("the same")
    Traceback (most recent call last):
    TypeError: jpeg_same: the same as far as it was read; JPEG 1 has a part at 6 that was not read. Test whether the result `is True`
    """

    side: int
    unread: Unread

    def __bool__(self) -> bool:
        place = f"{self.unread.start}{' of its joined blocks' * self.unread.joined}"
        raise TypeError(
            f"jpeg_same: the same as far as it was read; JPEG {self.side} has a part at {place} that was not read. "
            "Test whether the result `is True`"
        )


def jpeg_unread(picture: Octets) -> Optional[Unread]:
    """The first place in a JPEG at which something is that other programs read as Exif or IPTC, or may, and `jpeg_same_blocks` doesn't, or the
    reverse: a segment APP1 that seems to be Exif by another mark, APP13 with another mark than Photoshop's and Adobe_CM, resource 0422,
    resource 0404 with another signature than 8BIM, or bytes other than zeros after the last resource. None if there is none: of two such
    JPEGs all Exif and IPTC is read.

    The bytes may be a whole file or only its first bytes. Raises HeadRefused, with the first fault, if they don't begin with the whole
    head of a JPEG; MemoryError and LibraryMissing.

    >>> jpeg_unread(bytes.fromhex("ffd8 ffe1000c 457869660000 4d4d002a ffd9"))
    >>> jpeg_unread(bytes.fromhex("ffd8 ffe1000c 4578696600ff 4d4d002a ffd9"))
    Unread(joined=False, start=6)
    """
    octets = _bytes_of(picture)
    answer: Any = library().jpeg_unread(octets)
    if len(answer) == 3:
        status, cause, place = answer
        if status == Status.NO_MEMORY:
            raise MemoryError
        if status == Status.REFUSED:
            raise HeadRefused(CAUSES[cause], place, [])
        raise AssertionError(f"libexifnorm answered the status {status}")
    return Unread(answer[0] == 1, answer[1]) if answer else None


def jpeg_xmp(picture: Octets) -> Optional[bytes]:
    """The packet of XMP in a JPEG's head: the data of the segment APP1 with the mark `http://ns.adobe.com/xap/1.0/` and a zero, after that
    mark. None if no segment has it. The packet isn't read: `xmp_normal` reads it, so two JPEGs have the same XMP in these segments if both
    results are None, or if `xmp_normal` returns the same for both. XMP elsewhere, as in Photoshop's resource 0424 or after the head, isn't
    looked for.

    The bytes may be a whole file or only its first bytes. Raises XmpNotRead if there is a second such segment or extended XMP; HeadRefused,
    with the first fault, if the bytes don't begin with the whole head of a JPEG; and LibraryMissing.

    >>> def picture(*packets: bytes) -> bytes:
    ...     marked = [b"http://ns.adobe.com/xap/1.0/\\0" + packet for packet in packets]
    ...     segments = [b"\\xff\\xe1" + (2 + len(data)).to_bytes(2, "big") + data for data in marked]
    ...     return b"\\xff\\xd8" + b"".join(segments) + b"\\xff\\xd9"
    >>> jpeg_xmp(picture(b"<x:xmpmeta ..")), jpeg_xmp(picture())
    (b'<x:xmpmeta ..', None)
    """
    octets = _bytes_of(picture)
    answer: Any = library().jpeg_xmp(octets)
    if len(answer) == 3:
        status, cause, place = answer
        if status == Status.NOT_READ:
            raise XmpNotRead(place)
        if status == Status.REFUSED:
            raise HeadRefused(CAUSES[cause], place, [])
        raise AssertionError(f"libexifnorm answered the status {status}")
    return octets[answer[0] : answer[0] + answer[1]] if answer else None


def jpeg_same(first: Octets, second: Octets) -> Union[bool, NotRead]:
    """Whether two JPEGs have the same Exif, IPTC and XMP: as many blocks of each kind as `jpeg_blocks` finds, which mean the same, pair by pair,
    in their order; and no XMP, or one packet each, which have equal forms by `xmp_normal` together
    with their extended XMP. So two JPEGs without metadata are the same. Pixels, and what follows
    the head, are not compared; `exifnorm.compare` reads the further pictures there, as of phones
    (MPF), too. What this says of Exif and IPTC is proved, and so is what packets mean that are
    read. It is also proved that one packet which is all XMP of a picture is read, unless it has no
    meaning within the limits of `xmp_normal` or names extended XMP, and that a packet and extended
    XMP are joined, unless they can't be within these limits.

    If they are the same as far as both are read, and something in one of them isn't read, the result is its place, a `NotRead`, which has no
    truth value: `if` raises TypeError, so nobody takes it for the same. Ask `is True` or `is False` where that may be. It is a place that
    `jpeg_unread` returns, which may have what only the other picture has, XMP too; or XMP by another mark or in Photoshop's resource 0424; a
    packet that `xmp_normal` refuses; a second packet; or extended XMP that is missing, or that can't be joined to the packet.

    The bytes may be whole files or only their first bytes. Raises PictureRefused, with the first fault, if one of them doesn't begin with
    the whole head of a JPEG, or has a block that breaks the rules; MemoryError and LibraryMissing.

    >>> def picture(block: str) -> bytes:
    ...     data = b"Exif\\0\\0" + bytes.fromhex(block)
    ...     return bytes.fromhex("ffd8 ffe1") + (2 + len(data)).to_bytes(2, "big") + data + bytes.fromhex("ffd9")
    >>> upright = picture("4d4d002a00000008 0001 0112 0003 00000001 00010000 00000000")
    >>> turned = picture("4d4d002a00000008 0001 0112 0003 00000001 00060000 00000000")
    >>> written_anew = picture("49492a0008000000 0100 1201 0300 01000000 06000000 00000000")
    >>> jpeg_same(turned, written_anew), jpeg_same(turned, upright)
    (True, False)
    """
    return _answer(library().jpeg_same(_bytes_of(first), _bytes_of(second)))


def jpeg_same_blocks(first: Octets, second: Octets) -> Union[bool, NotRead]:
    """Whether two JPEGs have the same Exif and IPTC, as for `jpeg_same`: XMP is not compared. All of this answer is proved. A `NotRead` has the
    first place that `jpeg_unread` finds in one of them.

    >>> picture = b"\\xff\\xd8\\xff\\xe1\\0\\x24http://ns.adobe.com/xap/1.0/\\0<x/>.\\xff\\xd9"
    >>> jpeg_same_blocks(picture, b"\\xff\\xd8\\xff\\xd9"), jpeg_same(picture, b"\\xff\\xd8\\xff\\xd9")
    (True, NotRead(side=1, unread=Unread(joined=False, start=35)))
    """
    return _answer(library().jpeg_same_blocks(_bytes_of(first), _bytes_of(second)))


def _answer(answer: Union[int, PictureFailure]) -> Union[bool, NotRead]:
    """The answer of a comparison of two JPEGs."""
    if isinstance(answer, int):
        return answer == 1
    status, _, joined, _, start = answer
    if status in (Status.NOT_READ, Status.SECOND_NOT_READ):
        return NotRead(2 if status == Status.SECOND_NOT_READ else 1, Unread(joined == 1, start))
    _raise_for_pair(answer)
