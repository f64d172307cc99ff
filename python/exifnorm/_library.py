"""Finds and loads the library libexifnorm, and calls it: by the extension module `_native` where that was built, and otherwise by ctypes.

Both ways offer the same functions. Each takes bytes, and returns what the library's call stores; a call with another status than DONE
returns a `Failure` instead:

    >>> block = b"\\x1c\\x02\\x78\\x00\\x04Vase"
    >>> library().normalise(block)
    b'\\x1c\\x02x\\x00\\x04Vase'
    >>> library().normalise(block + b"Vase")
    (2, 17, 9)
    >>> library().cause_name(17)
    'NoMarker'

The calls for JPEGs take a number too, the most rows that they may return, and return these as the bytes of the library's structs, of which
`PART` and `RESOURCE` have the form. Their failure also has the rows before a fault; if there are too many rows, it has their number in
place of the offset. The call for blocks returns rows of the form `PLACE` and the joined bytes; its failure also has those before a fault. The comparison of two JPEGs returns a
`PictureFailure` in place of a `Failure`.
"""

from __future__ import annotations

import ctypes
import enum
import functools
import importlib
import os
from struct import Struct

from ._errors import LIMIT, LibraryMissing

TYPE_CHECKING = False  # that of `typing`, which takes long to import
if TYPE_CHECKING:
    from typing import Any, Callable, Dict, Iterator, List, Tuple, Type, Union

    # The status of a call that returns no result, and the number of the cause and the byte offset if a block is refused
    Failure = Tuple[int, int, int]
    # The same of two JPEGs: the status, the number of the cause, the number of the block's kind or 0, its index, and the byte offset. For a
    # place that isn't read the status, 0, 1 if it is in the joined bytes, 0, and the byte offset
    PictureFailure = Tuple[int, int, int, int, int]
    Number = Union[int, Failure]
    Pair = Union[int, PictureFailure]
    Text = Union[bytes, Failure]
    Rows = Union[bytes, Tuple[int, int, int, bytes]]
    Places = Union[Tuple[bytes, bytes], Tuple[int, int, int, bytes, bytes]]
    UnreadPlace = Union[Tuple[()], Tuple[int, int], Failure]
    XmpPlace = Union[Tuple[()], Tuple[int, int], Failure]


def _extension() -> Any:
    """The extension module, or None if it was not built, or is for another kind of Python."""
    try:
        return importlib.import_module("exifnorm._native")
    except ImportError:
        return None


_native = _extension()

NAME = "exifnorm.dll" if os.name == "nt" else "libexifnorm.so.1"
NAME_ROOM = 32  # bytes of the longest constant text of the library


class Status(enum.IntEnum):
    """The statuses of the library's calls. Each one but DONE, NOT_READ and SECOND_NOT_READ is raised as an exception.

    >>> Status(5).name
    'TOO_LITTLE_ROOM'
    """

    DONE = 0
    REFUSED = 2
    TOO_LONG = 3
    NO_MEMORY = 4
    TOO_LITTLE_ROOM = 5
    SECOND_REFUSED = 6
    NOT_READ = 7
    SECOND_NOT_READ = 8
    RARE = 9


_DONE, _REFUSED, _TOO_LITTLE_ROOM = int(Status.DONE), int(Status.REFUSED), int(Status.TOO_LITTLE_ROOM)


class Fault(ctypes.Structure):
    """Why a block is refused: the number of the cause, and the byte offset."""

    _fields_ = [("cause", ctypes.c_uint32), ("place", ctypes.c_uint32)]


class JpegFault(ctypes.Structure):
    """Why bytes are no head of a JPEG: the number of the cause, and the byte offset."""

    _fields_ = [("cause", ctypes.c_uint32), ("place", ctypes.c_size_t)]


class PictureFault(ctypes.Structure):
    """Why two JPEGs are not compared: the number of the cause, the kind of the block or 0, its index, and the byte offset."""

    _fields_ = [("cause", ctypes.c_uint32), ("kind", ctypes.c_uint32), ("number", ctypes.c_size_t), ("place", ctypes.c_size_t)]


class PartStruct(ctypes.Structure):
    """A part of a JPEG's head."""

    _fields_ = [
        ("marker", ctypes.c_uint32),
        ("kind", ctypes.c_uint32),
        ("begins", ctypes.c_uint32),
        ("start", ctypes.c_size_t),
        ("size", ctypes.c_size_t),
    ]


class PlaceStruct(ctypes.Structure):
    """Where a block of a JPEG is."""

    _fields_ = [("kind", ctypes.c_uint32), ("joined", ctypes.c_uint32), ("start", ctypes.c_size_t), ("size", ctypes.c_size_t)]


class Sizes(ctypes.Structure):
    """How many blocks a JPEG has, and how many bytes those in several pieces."""

    _fields_ = [("blocks", ctypes.c_size_t), ("joined", ctypes.c_size_t)]


class UnreadStruct(ctypes.Structure):
    """A place in a JPEG that isn't read, if there is one."""

    _fields_ = [("found", ctypes.c_uint32), ("joined", ctypes.c_uint32), ("start", ctypes.c_size_t)]


class PacketStruct(ctypes.Structure):
    """Where the packet of XMP of a JPEG is, if it has one."""

    _fields_ = [("found", ctypes.c_uint32), ("start", ctypes.c_size_t), ("size", ctypes.c_size_t)]


class ResourceStruct(ctypes.Structure):
    """One of Photoshop's image resources."""

    _fields_ = [("number", ctypes.c_size_t), ("start", ctypes.c_size_t), ("size", ctypes.c_size_t)]


PART, RESOURCE, PLACE = Struct("IIINN"), Struct("NNN"), Struct("IINN")
_FEW = 64  # rows for which there is room at first: more than most pictures have

_BLOCK = [ctypes.c_char_p, ctypes.c_size_t]
_OUT = [ctypes.POINTER(ctypes.c_char), ctypes.c_size_t, ctypes.POINTER(ctypes.c_size_t)]
_NUMBER, _FAULT, _JPEG_FAULT = ctypes.POINTER(ctypes.c_uint32), ctypes.POINTER(Fault), ctypes.POINTER(JpegFault)
_PICTURE_FAULT = ctypes.POINTER(PictureFault)
_ROOM = [ctypes.c_size_t, ctypes.POINTER(ctypes.c_size_t)]

# The arguments of the calls (exifnorm.h). Those that the extension module makes come first, in the order in which it takes them.
ARGUMENTS = {
    "exifnorm_check": [*_BLOCK, _NUMBER, _FAULT],
    "exifnorm_normalise": [*_BLOCK, *_OUT, _FAULT],
    "exifnorm_compare": [*_BLOCK, *_BLOCK, _NUMBER, _FAULT],
    "exifnorm_show": [*_BLOCK, *_OUT, _FAULT],
    "exifnorm_captions": [*_BLOCK, *_OUT, _FAULT],
    "exifnorm_jpeg_parts": [*_BLOCK, ctypes.POINTER(PartStruct), *_ROOM, _JPEG_FAULT],
    "exifnorm_photoshop_resources": [*_BLOCK, ctypes.POINTER(ResourceStruct), *_ROOM],
    "exifnorm_jpeg_same": [*_BLOCK, *_BLOCK, _NUMBER, ctypes.POINTER(UnreadStruct), _PICTURE_FAULT],
    "exifnorm_jpeg_same_blocks": [*_BLOCK, *_BLOCK, _NUMBER, ctypes.POINTER(UnreadStruct), _PICTURE_FAULT],
    "exifnorm_jpeg_blocks": [
        *_BLOCK,
        ctypes.POINTER(PlaceStruct),
        ctypes.c_size_t,
        ctypes.POINTER(ctypes.c_char),
        ctypes.c_size_t,
        ctypes.POINTER(Sizes),
        _JPEG_FAULT,
    ],
    "exifnorm_jpeg_unread": [*_BLOCK, ctypes.POINTER(UnreadStruct), _JPEG_FAULT],
    "exifnorm_jpeg_xmp": [*_BLOCK, ctypes.POINTER(PacketStruct), ctypes.POINTER(UnreadStruct), _JPEG_FAULT],
    "exifnorm_xmp_check": [*_BLOCK, _FAULT],
    "exifnorm_xmp_normalise": [*_BLOCK, *_OUT, _FAULT],
    "exifnorm_xmp_unsorted": [*_BLOCK, *_OUT, _FAULT],
    "exifnorm_cause_name": [ctypes.c_uint32, *_OUT],
    "exifnorm_version": _OUT,
}
_OF_EXTENSION = [*list(ARGUMENTS)[:10], "exifnorm_xmp_normalise", "exifnorm_xmp_unsorted"]
_NEWER = {
    "exifnorm_jpeg_xmp",
    "exifnorm_jpeg_same_blocks",
    "exifnorm_xmp_unsorted",
}  # calls that a library may lack which is older than this package: all others work


class Room:
    """Room for so many rows of a call, and for what else it writes. To make it takes as long as a call."""

    def __init__(self, kind: Type[ctypes.Structure], number: int) -> None:
        self._count, self._fault, self._size = ctypes.c_size_t(), JpegFault(), ctypes.sizeof(kind)
        self._octets = memoryview(bytearray(number * self._size))
        self._first = kind.from_buffer(self._octets)
        self._start = ctypes.byref(self._first)
        self._outputs = (ctypes.byref(self._count), ctypes.byref(self._fault))[: 2 if kind is PartStruct else 1]

    def rows_of(self, call: Callable[..., int], octets: bytes, limit: int) -> Rows:
        """The rows of a call, of which no more than so many fit."""
        status = call(octets, len(octets), self._start, limit, *self._outputs)
        count = self._count.value
        if status == _DONE:
            return bytes(self._octets[: count * self._size])
        if status == _REFUSED:
            return status, self._fault.cause, self._fault.place, bytes(self._octets[: count * self._size])
        return status, 0, count, b""


class PlaceRoom:
    """The same for so many blocks of a JPEG, and so many bytes of those in several pieces."""

    def __init__(self, blocks: int, joined: int) -> None:
        self._blocks, self._joined = blocks, joined
        self._places, self._out = (PlaceStruct * max(blocks, 1))(), ctypes.create_string_buffer(joined + 1)
        self._octets = memoryview(self._places).cast("B")
        self._sizes, self._fault = Sizes(), JpegFault()
        self._outputs = self._places, blocks, self._out, joined, ctypes.byref(self._sizes), ctypes.byref(self._fault)

    def places_of(self, call: Callable[..., int], picture: bytes) -> Tuple[Places, Tuple[int, ...]]:
        """The places of the blocks; and the blocks and bytes for which a further call needs room, if these are more."""
        status = call(picture, len(picture), *self._outputs)
        blocks, joined = self._sizes.blocks, self._sizes.joined
        if status == _TOO_LITTLE_ROOM and (blocks > self._blocks or joined > self._joined):
            return (b"", b""), (blocks, joined)
        if status not in (_DONE, _REFUSED):
            return (status, 0, 0, b"", b""), ()
        rows, octets = bytes(self._octets[: blocks * PLACE.size]), self._out.raw[:joined]
        if status == _DONE:
            return (rows, octets), ()
        return (status, self._fault.cause, self._fault.place, rows, octets), ()


class ByCtypes:
    """The calls for blocks and JPEGs, by ctypes."""

    def __init__(self, library: ctypes.CDLL) -> None:
        self._library = library
        self._rooms: Dict[Type[ctypes.Structure], List[Room]] = {PartStruct: [], ResourceStruct: []}  # those of which no call makes use now
        self._places: List[PlaceRoom] = []

    def check(self, block: bytes) -> Number:
        kind, fault = ctypes.c_uint32(), Fault()
        status = self._library.exifnorm_check(block, len(block), ctypes.byref(kind), ctypes.byref(fault))
        return kind.value if status == _DONE else (status, fault.cause, fault.place)

    def compare(self, first: bytes, second: bytes) -> Number:
        same, fault = ctypes.c_uint32(), Fault()
        blocks = first, len(first), second, len(second)
        status = self._library.exifnorm_compare(*blocks, ctypes.byref(same), ctypes.byref(fault))
        return same.value if status == _DONE else (status, fault.cause, fault.place)

    def normalise(self, block: bytes) -> Text:
        """A form may have twice as many bytes as its block, but seldom has more. All bytes of a buffer are cleared, which takes time."""
        return self._text(self._library.exifnorm_normalise, block, min(len(block), LIMIT) + 1024)

    def show(self, block: bytes) -> Text:
        return self._text(self._library.exifnorm_show, block, 4 * min(len(block), LIMIT) + 1024)

    def captions(self, block: bytes) -> Text:
        return self._text(self._library.exifnorm_captions, block, 2 * min(len(block), LIMIT) + 1024)

    def jpeg_parts(self, picture: bytes, most: int) -> Rows:
        return self._rows(self._library.exifnorm_jpeg_parts, picture, most, PartStruct)

    def photoshop_resources(self, octets: bytes, most: int) -> Rows:
        return self._rows(self._library.exifnorm_photoshop_resources, octets, most, ResourceStruct)

    def jpeg_same(self, first: bytes, second: bytes) -> Pair:
        return self._pair(self._library.exifnorm_jpeg_same, first, second)

    def jpeg_same_blocks(self, first: bytes, second: bytes) -> Pair:
        return self._pair(getattr(self._library, _name_of("exifnorm_jpeg_same_blocks", self._library)), first, second)

    @staticmethod
    def _pair(call: Callable[..., int], first: bytes, second: bytes) -> Pair:
        same, unread, fault = ctypes.c_uint32(), UnreadStruct(), PictureFault()
        status = call(first, len(first), second, len(second), ctypes.byref(same), ctypes.byref(unread), ctypes.byref(fault))
        if status in (Status.NOT_READ, Status.SECOND_NOT_READ):
            return status, 0, unread.joined, 0, unread.start
        return same.value if status == _DONE else (status, fault.cause, fault.kind, fault.number, fault.place)

    def jpeg_blocks(self, picture: bytes) -> Places:
        try:
            room = self._places.pop()
        except IndexError:
            room = PlaceRoom(_FEW, 0)
        answer, more = room.places_of(self._library.exifnorm_jpeg_blocks, picture)
        self._places.append(room)
        while more:
            answer, more = PlaceRoom(*more).places_of(self._library.exifnorm_jpeg_blocks, picture)
        return answer

    def jpeg_unread(self, picture: bytes) -> UnreadPlace:
        unread, fault = UnreadStruct(), JpegFault()
        status = self._library.exifnorm_jpeg_unread(picture, len(picture), ctypes.byref(unread), ctypes.byref(fault))
        if status != _DONE:
            return status, fault.cause, fault.place
        return (unread.joined, unread.start) if unread.found else ()

    def jpeg_xmp(self, picture: bytes) -> XmpPlace:
        """The offset and the size of the packet. For XMP that isn't read the status, 0, and its offset."""
        packet, unread, fault = PacketStruct(), UnreadStruct(), JpegFault()
        if not hasattr(self._library, "exifnorm_jpeg_xmp"):
            raise LibraryMissing("the library has no exifnorm_jpeg_xmp: it is older than this package")
        outputs = ctypes.byref(packet), ctypes.byref(unread), ctypes.byref(fault)
        status = self._library.exifnorm_jpeg_xmp(picture, len(picture), *outputs)
        if status == Status.NOT_READ:
            return status, 0, unread.start
        if status != _DONE:
            return status, fault.cause, fault.place
        return (packet.start, packet.size) if packet.found else ()

    def xmp_normalise(self, packet: bytes) -> Text:
        """A form, which repeats each namespace, has seldom more than twice as many bytes as its packet. A second call reads the packet again."""
        return self._text(self._library.exifnorm_xmp_normalise, packet, min(2 * len(packet) + 1024, LIMIT))

    def xmp_unsorted(self, packet: bytes) -> Text:
        if not hasattr(self._library, "exifnorm_xmp_unsorted"):
            raise LibraryMissing("the library has no exifnorm_xmp_unsorted: it is older than this package")
        return self._text(self._library.exifnorm_xmp_unsorted, packet, min(2 * len(packet) + 1024, LIMIT))

    def _rows(self, call: Callable[..., int], octets: bytes, most: int, kind: Type[ctypes.Structure]) -> Rows:
        """The rows of a call, which is made again if they are more than a few, and not more than so many."""
        try:
            room = self._rooms[kind].pop()
        except IndexError:
            room = Room(kind, _FEW)
        rows = room.rows_of(call, octets, max(min(most, _FEW), 0))
        self._rooms[kind].append(room)
        if isinstance(rows, tuple) and rows[0] == _TOO_LITTLE_ROOM and _FEW < rows[2] <= most:
            rows = Room(kind, rows[2]).rows_of(call, octets, rows[2])
        return rows

    @staticmethod
    def _text(call: Callable[..., int], block: bytes, capacity: int) -> Text:
        """The output of a call, which usually fits into so many bytes. Otherwise the call is made again, with as many as it asks for."""
        written, fault = ctypes.c_size_t(), Fault()
        while True:
            out = bytearray(capacity)  # an array of ctypes has a type for each length, and to make one takes longer than the call
            start = ctypes.c_char.from_buffer(out)
            status = call(block, len(block), ctypes.byref(start), capacity, ctypes.byref(written), ctypes.byref(fault))
            if status == _DONE:
                return bytes(memoryview(out)[: written.value])
            if status != _TOO_LITTLE_ROOM or written.value <= capacity:
                return status, fault.cause, fault.place
            capacity = written.value


class Library:
    """A library: its calls for blocks and JPEGs, by the extension module if that is there, and its constant texts. Raises OSError with the
    reason if the file can't be loaded."""

    check: Callable[[bytes], Number]
    normalise: Callable[[bytes], Text]
    compare: Callable[[bytes, bytes], Number]
    show: Callable[[bytes], Text]
    captions: Callable[[bytes], Text]
    jpeg_parts: Callable[[bytes, int], Rows]
    photoshop_resources: Callable[[bytes, int], Rows]
    jpeg_same: Callable[[bytes, bytes], Pair]
    jpeg_same_blocks: Callable[[bytes, bytes], Pair]
    jpeg_blocks: Callable[[bytes], Places]
    xmp_normalise: Callable[[bytes], Text]
    xmp_unsorted: Callable[[bytes], Text]
    packed: Callable[..., Any]  # what is made for catalogues (`_packed.h`), or None, where it is left to Python
    xmp_packed: Callable[..., Any]
    jpeg_record: Callable[..., Any]

    def __init__(self, place: str) -> None:
        self._library = _opened(place)
        self.by_ctypes = calls = ByCtypes(self._library)
        blocks: Any = calls.check, calls.normalise, calls.compare, calls.show, calls.captions
        jpegs: Any = calls.jpeg_parts, calls.photoshop_resources, calls.jpeg_same, calls.jpeg_same_blocks, calls.jpeg_blocks
        self.xmp_normalise, self.xmp_unsorted = calls.xmp_normalise, calls.xmp_unsorted
        self.packed = self.xmp_packed = self.jpeg_record = _left
        if _native:
            functions = _native.functions(
                *(_address(getattr(self._library, _name_of(name, self._library), None)) for name in _OF_EXTENSION)
            )
            blocks, jpegs, self.xmp_normalise = functions[:5], functions[5:10], functions[10]
            if hasattr(self._library, "exifnorm_xmp_unsorted"):
                self.xmp_unsorted = functions[11]
            self.packed, self.xmp_packed, self.jpeg_record = functions[12:]
        self.check, self.normalise, self.compare, self.show, self.captions = blocks
        self.jpeg_parts, self.photoshop_resources, self.jpeg_same, self.jpeg_same_blocks, self.jpeg_blocks = jpegs
        if not hasattr(self._library, "exifnorm_jpeg_same_blocks"):
            self.jpeg_same = _without_xmp
        self.jpeg_unread, self.jpeg_xmp = calls.jpeg_unread, calls.jpeg_xmp  # these take longer

    def cause_name(self, cause: int) -> str:
        """The name of a cause."""
        return self._name(self._library.exifnorm_cause_name, cause)

    def version(self) -> str:
        """The library's version."""
        return self._name(self._library.exifnorm_version)

    @staticmethod
    def _name(call: Callable[..., int], *first: int) -> str:
        out, written = ctypes.create_string_buffer(NAME_ROOM), ctypes.c_size_t()
        call(*first, out, NAME_ROOM, ctypes.byref(written))
        return out.value.decode("ascii")


def _left(*_: object) -> None:
    """In place of what only the extension module makes: it is left to Python."""


def _name_of(name: str, library: ctypes.CDLL) -> str:
    """The name of a call in a library: `exifnorm_jpeg_same` of an older one compares blocks alone."""
    return name if name != "exifnorm_jpeg_same_blocks" or hasattr(library, name) else "exifnorm_jpeg_same"


def _without_xmp(first: bytes, second: bytes) -> Pair:
    """In place of a comparison that an older library makes without XMP."""
    raise LibraryMissing("the library compares no XMP of two JPEGs: it is older than this package")


def _address(function: Any) -> int:
    """The address of a function of a library; 0 of one that it lacks."""
    return 0 if function is None else ctypes.cast(function, ctypes.c_void_p).value or 0


def _opened(place: str) -> ctypes.CDLL:
    """The library of a file, with its calls declared."""
    if os.sep in place and not os.path.exists(place):
        raise OSError("there is no such file")
    library = ctypes.CDLL(place)
    for name, arguments in ARGUMENTS.items():
        try:
            call = getattr(library, name)
        except AttributeError:
            if name in _NEWER:
                continue
            raise OSError(f"it has no {name}") from None
        call.argtypes, call.restype = arguments, ctypes.c_uint32
    return library


def places() -> Iterator[str]:
    """The files to load the library from: only the file of EXIFNORM_LIBRARY if that is set; otherwise the one beside these modules, the
    one that was compiled from C source when the package was installed, and the one that the system's loader finds."""
    named = os.environ.get("EXIFNORM_LIBRARY")
    if named:
        yield named
        return
    yield os.path.join(os.path.dirname(os.path.abspath(__file__)), NAME)
    from importlib.util import find_spec  # which those need that have no library beside the modules

    compiled = find_spec("exifnorm._in_c")
    if compiled and compiled.origin:
        yield compiled.origin
    yield NAME


@functools.lru_cache(maxsize=None)
def library() -> Library:
    """The library, which is loaded at the first call."""
    tried = []
    for place in places():
        try:
            return Library(place)
        except OSError as why:
            tried.append(f"{place} ({why})")
    raise LibraryMissing(
        f"the library {NAME} can't be loaded; tried: {'; '.join(tried)}. Build and install it with `make install` in exifnorm's "
        f"sources, or name it by the environment's EXIFNORM_LIBRARY"
    )
