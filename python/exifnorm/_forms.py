"""Fields from a normal form (docs/FORMAT.md, "Normal forms"): it has one byte order and one layout, and needs no checks."""

from __future__ import annotations

from itertools import count, starmap
from struct import Struct, iter_unpack, unpack_from
from ._hints import Any, Callable, Dict, Iterator, List, Sequence, Set, Tuple

from ._calls import kind
from ._errors import Refused
from ._fields import BlockField, Ratio
from ._words import DATASETS, IPTC

Place = Tuple[str, int, str, int, Any]
"""A field in a form: its directory, its tag, its type, the number of its elements, and the offset of the first one; of the thumbnail's JPEG
and its strips the offset and the length of each."""

Read = Callable[[bytes, Any, int], Any]  # reads so many values at such a place

_COUNT, _OFFSET = Struct(">H"), Struct(">L")


def _octets(form: bytes, at: int, elements: int) -> bytes:
    return form[at : at + elements]


def _numbers(letter: str) -> Read:
    layout = Struct(">" + letter)

    def read(form: bytes, at: int, elements: int) -> Tuple[int, ...]:
        return layout.unpack_from(form, at) if elements == 1 else unpack_from(f">{elements}{letter}", form, at)

    return read


def _ratios(letter: str) -> Read:
    layout = Struct(f">2{letter}")

    def read(form: bytes, at: int, elements: int) -> Tuple[Ratio, ...]:
        if elements == 1:
            return (Ratio(*layout.unpack_from(form, at)),)
        return tuple(starmap(Ratio, layout.iter_unpack(form[at : at + 8 * elements])))

    return read


def _pictures(form: bytes, parts: Sequence[Tuple[int, int]], _: int) -> Tuple[bytes, ...]:
    return tuple([form[at : at + size] for at, size in parts])


# the function that reads the values of each type
_READ: Dict[str, Read] = {
    **dict.fromkeys(("BYTE", "ASCII", "SBYTE", "UNDEFINED", "UTF8", "DATASET"), _octets),
    "SHORT": _numbers("H"),
    **dict.fromkeys(("LONG", "WHOLE", "FLOAT"), _numbers("L")),
    "RATIONAL": _ratios("L"),
    "SSHORT": _numbers("h"),
    "SLONG": _numbers("l"),
    "SRATIONAL": _ratios("l"),
    "DOUBLE": _numbers("Q"),
    "JPEG": lambda form, parts, elements: _pictures(form, parts, elements)[0],
    "STRIPS": _pictures,
}

# number: the type's name, and the bytes of an element
_TYPES: Dict[int, Tuple[str, int]] = {
    1: ("BYTE", 1),
    2: ("ASCII", 1),
    3: ("SHORT", 2),
    4: ("LONG", 4),
    5: ("RATIONAL", 8),
    6: ("SBYTE", 1),
    7: ("UNDEFINED", 1),
    8: ("SSHORT", 2),
    9: ("SLONG", 4),
    10: ("SRATIONAL", 8),
    11: ("FLOAT", 4),
    12: ("DOUBLE", 8),
    129: ("UTF8", 1),
}

_RECORD, _JPEG, _STRIPS = 0x83BB, 0x0201, 0x0111
_PARTS = {0x0111, 0x0117, 0x0201, 0x0202}  # the thumbnail: offsets and lengths of its strips and its JPEG
_POINTERS = {("main", 0x8769): "exif", ("exif", 0xA005): "interop", ("main", 0x8825): "gps"}
_WHOLE = {"main": {0x0100, 0x0101, 0x0116}, "thumb": {0x0100, 0x0101, 0x0116}, "exif": {0xA002, 0xA003}}
# the tags of a directory whose entries are not always plain fields
_SPECIAL: Dict[str, Set[int]] = {
    "main": {0x8769, 0x8825, _RECORD} | _WHOLE["main"],
    "exif": {0xA005} | _WHOLE["exif"],
    "interop": set(),
    "gps": set(),
    "thumb": _PARTS | _WHOLE["thumb"],
}


def _datasets(form: bytes, at: int, end: int) -> Iterator[Place]:
    """The DataSets of a record's normal form, which is a part of these bytes."""
    while at < end:
        _, tag, size = unpack_from(">BHH", form, at)
        at += 5
        if size >= 0x8000:  # an extended one, whose length has four bytes
            (size,) = _OFFSET.unpack_from(form, at)
            at += 4
        yield DATASETS, tag, "DATASET", size, at
        at += size


def _is_record(octets: bytes) -> bool:
    try:
        return octets[:1] == b"\x1c" and kind(octets) == IPTC
    except Refused:
        return False


class _Directories:
    """The directories of an Exif block's normal form, while their tables are read."""

    def __init__(self, form: bytes) -> None:
        self.form = form
        self.places = {"main": 8}
        self.parts: Dict[int, Tuple[int, ...]] = {}
        self.record = (0, 0)

    def fields(self) -> Iterator[Place]:
        yield from self.table("main")
        yield from _datasets(self.form, *self.record)
        for directory in ("exif", "interop", "gps", "thumb"):
            if directory in self.places:
                yield from self.table(directory)
        yield from self.pictures()

    def table(self, directory: str) -> Iterator[Place]:
        """The fields of a directory. Its pointers are stored for later."""
        form, at, special = self.form, self.places[directory], _SPECIAL[directory]
        start, (entries,) = at + 2, _COUNT.unpack_from(form, at)
        behind = start + 12 * entries
        for place, (tag, number, elements, last) in zip(count(start + 8, 12), iter_unpack(">HHLL", form[start:behind])):
            name, size = _TYPES[number]
            at = last if elements * size > 4 else place
            if tag not in special:
                yield directory, tag, name, elements, at
            elif self.is_field(directory, tag, name, elements, at):
                is_whole = name == "LONG" and tag in _WHOLE.get(directory, ())
                yield directory, tag, "WHOLE" if is_whole else name, elements, at
        (following,) = _OFFSET.unpack_from(form, behind)
        if directory == "main" and following:
            self.places["thumb"] = following

    def is_field(self, directory: str, tag: int, name: str, elements: int, at: int) -> bool:
        """Whether an entry is a field. Otherwise it is a pointer, the record or a part of the thumbnail, and is stored for later."""
        if (directory, tag) in _POINTERS:
            (self.places[_POINTERS[directory, tag]],) = _OFFSET.unpack_from(self.form, at)
        elif directory == "thumb" and tag in _PARTS:
            self.parts[tag] = _READ[name](self.form, at, elements)
        elif tag == _RECORD and name == "UNDEFINED" and _is_record(self.form[at : at + elements]):
            self.record = (at, at + elements)
        else:
            return True
        return False

    def pictures(self) -> Iterator[Place]:
        """The thumbnail's JPEG and its strips."""
        for tag, lengths, name in ((_JPEG, 0x0202, "JPEG"), (_STRIPS, 0x0117, "STRIPS")):
            if tag in self.parts:
                parts = list(zip(self.parts[tag], self.parts[lengths]))
                yield "thumb", tag, name, len(parts), parts


def places(form: bytes) -> Iterator[Place]:
    """Where each field of a normal form is.

    >>> list(places(b"\\x1c\\x02\\x78\\x00\\x04Vase"))
    [('iptc', 632, 'DATASET', 4, 5)]
    """
    return _datasets(form, 0, len(form)) if form[:1] == b"\x1c" else _Directories(form).fields()


def fields_of_form(form: bytes) -> List[BlockField]:
    """The fields of a normal form.

    >>> fields_of_form(bytes.fromhex("4d4d002a00000008 0001 0112 0003 00000001 00060000 00000000"))
    [BlockField(directory='main', tag=274, type='SHORT', values=(6,))]
    """
    new = tuple.__new__  # to call the class itself takes twice as long
    return [new(BlockField, (directory, tag, name, _READ[name](form, at, elements))) for directory, tag, name, elements, at in places(form)]
