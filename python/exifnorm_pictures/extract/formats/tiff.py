"""TIFF: each page and each SubIFD is an Exif block by itself, without the entries that lead to pixels and without those whose values
are blocks of their own: XMP, IPTC and Photoshop's resources (TIFF 6.0; Adobe PageMaker 6.0 TIFF Technical Notes; XMP part 3).

Raw pictures have the same structure: DNG, CR2, NEF and others. Some begin in another way, as ORF and RW2, and most have private entries
(`private`).
"""

from __future__ import annotations

import contextlib
import hashlib
from collections import deque
from operator import itemgetter
from typing import Iterable, Iterator, NamedTuple

from ...model.budgets import DIRECTORIES, STRIPS
from ...model.found import CUT, EXIF, IN_PICTURE, IPTC, REST, XMP, Blocks, Broken, NotRead
from ...model.problems import Problem
from ...model.tiff_types import HEADS, IFD, LONG
from ..structure import counted, placed
from . import photoshop
from .streams import METADATA, PICTURE, PROFILE, REST as THE_REST, STRUCTURE, Part, Stream, Window, leave_rest, leave_whole, pieces, read_at
from .jpeg import add_jpeg
from .tiff_directories import (
    BIG as BIG_TIFF,
    IN_ENTRY,
    PIXELS,
    SUB_IFDS,
    Directories,
    Directory,
    Entry,
    Layout,
    Reached,
    Table,
    is_directory,
    is_pointer,
)

# The private entries of raw pictures in the structure of TIFF: what they lead to is read, compared by its bytes, or named as not read.
#
# Their values have offsets in the file, so none of them is a field of a block. What the makers' directories have inside is known from
# ExifTool alone (its modules Sony, PanasonicRaw, SamsungRaw), and that of DNG from its specification.

RW2_HEAD = b"IIU\0"

_SONY, _ORIGINAL, _PROFILES = 0xC634, 0xC68C, 0xC6F5
_SAMSUNG = 0xA010  # the offset of a list of offsets
_SR2 = (0x7200, 0x7201)  # the offset and the length of Sony's encrypted directory
_IDC = (0x7240, 0x7241)  # the offsets of directories that Sony's program Image Data Converter adds
_JPEGS = (0x002E, 0x0127)
_PANASONIC_PIXELS, _PANASONIC_CAMERA = 0x0118, 0x0120
_BYTES = (1, 7)  # BYTE and UNDEFINED
_FILES = {  # by the tags of values that are files by themselves
    _JPEGS[0]: "embedded JPEG",
    _JPEGS[1]: "second embedded JPEG",
    _ORIGINAL: "the original raw file in",
    _PANASONIC_CAMERA: "Panasonic's CameraIFD of",
}
TAGS = frozenset((_SONY, _ORIGINAL, _PROFILES, _SAMSUNG))
PANASONIC_TAGS = TAGS | {*_JPEGS, _PANASONIC_PIXELS, _PANASONIC_CAMERA}
_PROFILE_HEADS = (b"IIRC", b"MMCR", *HEADS)


class Private:
    """The private entries of one file."""

    def __init__(self, directories: Directories, blocks: Blocks, reached: Reached, whole: bool) -> None:
        self.directories, self.blocks = directories, blocks
        self._reached, self._whole = reached, whole
        self.is_panasonic = read_at(directories.stream, 0, 4) == RW2_HEAD
        self.tags = PANASONIC_TAGS if self.is_panasonic else TAGS

    def takes(self, entry: Entry, of: str) -> bool:
        """Reads or names what an entry leads to. Returns whether the entry is taken out of its directory. Raises `Broken`.

        Where an offset has a type that is none for offsets, ExifTool gives up the whole directory, so such a file isn't read here.
        """
        if entry.tag in _FILES:
            return self._file(entry, of)
        if entry.tag == _SONY and entry.size != 4:  # as in a DNG, where it is a value
            return False
        has_offset = {_SONY: entry.type in (*_BYTES, LONG), _PANASONIC_PIXELS: is_pointer(entry)}
        if not has_offset.get(entry.tag, True):
            raise Broken(f"the entry {entry.tag:04x} of {of} has no offset")
        if entry.tag == _SONY:
            self._sony(entry, f"Sony's private directory of {of}")
        elif entry.tag == _PROFILES:
            self._profiles(entry)
        elif entry.tag == _SAMSUNG:
            self.blocks.name(NotRead(f"what Samsung's offsets of {of} lead to", ""))
        else:
            if self.directories.number(entry.last) >= self.directories.size:
                self.blocks.damage = IN_PICTURE
            # the pixels have no length, and no trailer is known
            self._reached.add(self.directories.size, self.directories.size)
        return True

    def _file(self, entry: Entry, of: str) -> bool:
        """A value of bytes that is a file by itself: a JPEG, or one that is compared by its bytes.
        Returns whether there is one."""
        place = self.directories.place_of(entry) if entry.type in _BYTES else None
        if not place:
            return False
        what, stream = _FILES[entry.tag], self.directories.stream
        if entry.tag in _JPEGS:
            add_jpeg(self.blocks, stream, place[0], entry.size, what, self._whole)
        else:
            leave_whole(self.blocks, f"{what} {of}", stream, *place)
        return True

    def _sony(self, entry: Entry, what: str) -> None:
        """Sony's private directory: compared with the encrypted one that it points to, but without the offset of that."""
        try:
            digest = self._sony_digest(self.directories.read(self.directories.number(entry.last)))
        except Broken:
            digest = ""
        self.blocks.name(NotRead(what, digest))

    def _sony_digest(self, directory: Directory) -> str:
        """The digest of Sony's private directory; none if it leads to more than the encrypted one. Raises `Broken`."""
        self._reached.add(directory.end, directory.at)
        digest = hashlib.sha256()
        for entry in directory.entries:
            if entry.tag != _SR2[0]:
                digest.update(b"%d %d %d " % (entry.tag, entry.type, entry.elements) + self._value(entry))
        inner = sorted((it for it in directory.entries if it.tag in (*_SR2, *_IDC)), key=itemgetter(0))
        if not inner:
            return digest.hexdigest()
        if tuple(map(itemgetter(0), inner)) != _SR2 or not all(map(is_pointer, inner)):
            return ""
        start, length = (self.directories.number(it.last) for it in inner)
        if start + length > self.directories.size:
            return ""
        digest.update(self.directories.part(start, start + length))
        self._reached.add(start + length, start)
        return digest.hexdigest()

    def _value(self, entry: Entry) -> bytes:
        """The bytes of a value, and those of an entry that has a type that isn't known. Raises `Broken`."""
        place = self.directories.place_of(entry)
        if entry.size > IN_ENTRY and not place:
            raise Broken(f"the value of tag {entry.tag:04x} isn't in the file")
        if place:
            self._reached.add(place[1], place[0])
        return self.directories.value(entry) if entry.size else entry.last

    def _profiles(self, entry: Entry) -> None:
        """The further camera profiles of a DNG, each a directory whose offsets count from its own header."""
        places = self.directories.numbers(entry) if entry.type in (LONG, IFD) else []
        if not places:
            raise Broken("the list of camera profiles isn't whole")
        self.directories.budget.spend(DIRECTORIES, len(places))
        for number, start in enumerate(places, 1):
            self._profile(start, f"camera profile {number}")

    def _profile(self, start: int, part: str) -> None:
        inside = Window(self.directories.stream, start, self.directories.size)
        if read_at(inside, 0, 4) not in _PROFILE_HEADS:
            raise Broken(f"{part} has no header")
        directories = Directories(inside)
        directory = directories.read(directories.first)
        values = filter(None, map(directories.place_of, directory.entries))
        for begin, end in ((0, 8), (directory.at, directory.end - 4), *values):  # no next one is read
            self._reached.add(start + end, start + begin)
        block = Layout(directories, Table(directory.entries, {})).block(part)
        self.blocks.add(EXIF, block, f"camera profile at {start}", part)
        directories.check()


__all__ = ["BIG_HEADS", "HEADS", "OTHER_POINTERS", "RAW_HEADS", "read", "read_big"]

_ORF_HEADS = (b"IIRO", b"IIRS", b"MMOR")
RAW_HEADS = (*_ORF_HEADS, RW2_HEAD)
BIG, BIG_HEADS = "BigTIFF", (b"II+\0", b"MM\0+")  # with offsets and counts of eight bytes (LibTIFF, "BigTIFF Design")
DEEPEST = 10  # SubIFDs below one another

_FREE = (0x0120, 0x0121)  # which Panasonic uses for other things
_LISTS = {**PIXELS, SUB_IFDS: "SubIFDs"}  # of offsets and lengths, which no block has
_PAIRS = ((0x0111, 0x0117), (0x0144, 0x0145), (0x0201, 0x0202))
_XMP, _IPTC, _PHOTOSHOP, _PROFILE, _LAYERS = 0x02BC, 0x83BB, 0x8649, 0x8773, 0x935C
_KINDS = {_XMP: XMP, _IPTC: IPTC}
_NAMES = {_PROFILE: PROFILE, _LAYERS: "Photoshop's layers"}  # of values that are rest
_OWN = frozenset((_XMP, _IPTC, _PHOTOSHOP, _LAYERS))  # which aren't in the block of their directory
_Pointers = dict[int, "_Pointers"]
_POINTERS: _Pointers = {0x8769: {0xA005: {}}, 0x8825: {}}  # Exif with Interoperability, GPS
OTHER_POINTERS = {
    0x0190: "GlobalParametersIFD",
    0x8290: "Kodak's IFD",
    0x8606: "Leaf's IFD",
    0x888A: "Leaf's SubIFD",
    0xFE00: "Kodak's IFD",
}
_DNG_VERSION, _MAKER_NOTE = 0xC612, 0x927C


_Place = tuple[int, str, int]  # the offset of a directory, the name of its chain, and its number there


class Page(NamedTuple):
    """A directory of pixels, and its name: none for the first page."""

    directory: Directory
    part: str

    @property
    def words(self) -> str:
        """Its name for people."""
        return self.part or "page 1"


def read(stream: Stream, whole: bool = False) -> Blocks:
    """The blocks of a TIFF, or of a raw picture in its structure. Raises `Broken`."""
    return _read(Directories(stream), whole)


def read_big(stream: Stream, whole: bool = False) -> Blocks:
    """The blocks of a BigTIFF. No other program hands over an Exif block of one, so one that is broken has a problem."""
    try:
        return _read(Directories(stream, BIG_TIFF), whole)
    except Broken as why:
        fault = str(why) if str(why).startswith(CUT) else ""
        return Blocks(type=BIG, problem=Problem.BIG_TIFF, detail=f"{Problem.BIG_TIFF.text}: {why}", damage=fault)


def _read(directories: Directories, whole: bool) -> Blocks:
    reader = Reader(directories, whole)
    for page in reader.pages():
        reader.take(page)
    reader.directories.check()
    reader.rest()
    return reader.blocks


def _type_of(head: bytes) -> str:
    """The type of a file that begins like this."""
    if head[:4] in _ORF_HEADS:
        return "ORF"
    if b"+" in head[2:4]:
        return BIG
    return "RW2" if head[:4] == RW2_HEAD else "CR2" if head[8:] == b"CR" else "TIFF"


def _record(entry: Entry, data: bytes) -> bytes:
    """The IPTC record of a value, which some programs write as numbers of four bytes; empty if it
    is something else."""
    if entry.type == LONG and data[3:4] == b"\x1c" != data[:1]:
        return b"".join(data[at : at + 4][::-1] for at in range(0, len(data), 4))
    return data if data.startswith(b"\x1c") else b""


class Reader:
    """The pages of one file."""

    def __init__(self, directories: Directories, whole: bool) -> None:
        self.directories = directories
        directories.stream.seek(0)
        self.blocks = Blocks(type=_type_of(directories.stream.read(10)), budget=directories.budget)
        self._reached = Reached(16 if self.blocks.type == "CR2" else directories.variant.header)
        self._has_note = False
        self._cut = ""  # where the file ends, if a value isn't wholly in it
        self._notes: set[int] = set()  # where the MakerNotes begin whose places are compared
        self._private = Private(directories, self.blocks, self._reached, whole)
        used = _FREE if self._private.is_panasonic else ()
        self._lists = {tag: name for tag, name in _LISTS.items() if tag not in used}

    def pages(self) -> Iterator[Page]:
        """Each page, followed by its SubIFDs."""
        number = 0
        at = self.directories.first
        while at or not number:
            number += 1
            page = self._read(at)
            yield Page(page, "" if number == 1 else f"page {number}")
            yield from self._below(page, f"page {number}")
            at = page.following

    def _below(self, page: Directory, part: str) -> Iterator[Page]:
        """The SubIFDs of a page, each with those that follow it and those below it."""
        waiting = deque(self._named(page, part))
        while waiting:
            at, name, number = waiting.popleft()
            directory = self._read(at)
            part = name if number == 1 else f"{name}, directory {number}"
            yield Page(directory, part)
            waiting += self._named(directory, part)
            if directory.following:
                waiting.appendleft((directory.following, name, number + 1))

    def _named(self, directory: Directory, part: str) -> list[_Place]:
        entries = [entry for entry in directory.entries if entry.tag == SUB_IFDS]
        if entries and part.count("SubIFD") >= DEEPEST:
            raise Broken(f"more than {DEEPEST} SubIFDs below one another")
        if entries:  # they count when they are named, since a list of them may be long, and when they are read
            named = (entry.elements for entry in entries if entry.size <= IN_ENTRY or self.directories.place_of(entry))
            self.directories.budget.spend(DIRECTORIES, sum(named))
        places = [place for entry in entries for place in self.directories.numbers(entry)]
        return [(place, f"SubIFD {number} of {part}", 1) for number, place in enumerate(places, 1)]

    def _read(self, at: int) -> Directory:
        directory = self.directories.read(at)
        if any(entry.tag == _DNG_VERSION for entry in directory.entries):
            self.blocks.type = "DNG"
        self._reached.add(directory.end, at)
        self._values_reach(directory.entries)
        self._pixels_reach(directory)
        return directory

    def _values_reach(self, entries: list[Entry]) -> None:
        for entry in entries:
            place = self.directories.place_of(entry)
            if place:
                self._reached.add(place[1], place[0])
            elif not self._cut and self.directories.is_cut(entry):
                self._cut = f"{CUT}inside the value of tag {entry.tag:04x}"

    def _pixels_reach(self, directory: Directory) -> None:
        by_tag = {entry.tag: entry for entry in directory.entries}
        for offsets, lengths in ((by_tag[tag], by_tag.get(other)) for tag, other in _PAIRS if tag in by_tag):
            if not lengths or not offsets.elements == lengths.elements <= STRIPS:
                self._reached.end = None  # old files have no lengths of strips
                continue
            both = zip(self.directories.numbers(offsets), self.directories.numbers(lengths))
            pixels = [(start, start + size) for start, size in both]
            self._reached.parts += pixels
            self._reached.pixels += pixels
            end = max(map(itemgetter(1), pixels), default=0)
            self._reached.add(end)
            if end > self.directories.size and not self._private.is_panasonic:  # whose strips are elsewhere
                self.blocks.damage = IN_PICTURE

    def take(self, page: Page) -> None:
        """Adds the blocks of a page."""
        left_out = set()
        kept = []
        for entry in page.directory.entries:
            if entry.tag in self._private.tags and self._private.takes(entry, page.words):
                continue
            if entry.tag in self._lists:
                self._check_list(entry, page)
                left_out.add(self._lists[entry.tag])
            elif not self._is_block(entry, page):
                kept.append(entry)
        if not kept:
            return
        layout = Layout(self.directories, self._table(kept, _POINTERS))
        if layout.note is not None:
            self._notes.add(layout.note)
        where = f"directory at {page.directory.at}"
        where += f", without {', '.join(sorted(left_out))}" if left_out else ""
        where += ", with pointers of type IFD as LONG" if layout.has_ifd else ""
        self.blocks.add(EXIF, layout.block(page.words), where, page.part, note=layout.note)

    def _check_list(self, entry: Entry, page: Page) -> None:
        """Raises `Broken` if an entry isn't a list of offsets or lengths."""
        if not self.directories.is_list(entry):
            of = f"the list of tag {entry.tag:04x} of {page.words}"
            raise Broken(f"{CUT}inside {of}" if self.directories.is_cut(entry) else f"{of} isn't whole")

    def _is_block(self, entry: Entry, page: Page) -> bool:
        """Adds the block of an entry, if it has one. Returns whether the entry is taken out of its directory."""
        if entry.tag == _LAYERS and (place := self.directories.place_of(entry)):
            leave_whole(self.blocks, f"Photoshop's layers of {page.words}", self.directories.stream, *place)
            return True
        if entry.tag in OTHER_POINTERS and entry.type in (LONG, IFD):
            self.blocks.name(NotRead(f"{OTHER_POINTERS[entry.tag]} of {page.words}", ""))
        data = self.directories.shared(entry) if entry.tag in (*_KINDS, _PHOTOSHOP) else b""
        data = _record(entry, data) if entry.tag == _IPTC else data
        where = f"tag {entry.tag:04x} of {page.words}"
        if data and entry.tag == _PHOTOSHOP:
            photoshop.add_resources(self.blocks, [(where, data)], page.part)
        elif data:
            self.blocks.add(_KINDS[entry.tag], data, where, page.part)
        return bool(data)

    def _table(self, entries: list[Entry], pointers: _Pointers) -> Table:
        below = {}
        for entry in entries:
            if entry.tag in pointers and is_directory(entry) and entry.tag not in below:
                directory = self.directories.read(self.directories.number(entry.last))
                self._reached.add(directory.end, directory.at)
                self._has_note = self._has_note or any(one.tag == _MAKER_NOTE and one.size > IN_ENTRY for one in directory.entries)
                below[entry.tag] = self._table(directory.entries, pointers[entry.tag])
        self._values_reach(entries)
        return Table(entries, below)

    def parts(self, pages: Iterable[Page]) -> Iterator[Part]:
        """Claims to the parts of the file, of which these are the pages. Raises `TooMuch`."""
        for page in pages:
            yield from self._parts_of(page)
        yield from (Part(PICTURE, *it) for it in self._reached.pixels)
        structure = (*self._reached.parts[:1], *self.directories.unused({*self._lists, *_OWN}))
        yield from (Part(STRUCTURE, *it) for it in structure)
        yield from (Part(METADATA, *it) for it in self._reached.parts)

    def _parts_of(self, page: Page) -> Iterator[Part]:
        kept = []
        for entry in page.directory.entries:
            place = self.directories.place_of(entry)
            if entry.tag in self._private.tags:
                with contextlib.suppress(Broken):
                    self._private.takes(entry, page.words)
            if place and entry.tag == _PHOTOSHOP:
                yield from photoshop.parts([[place]], [self.directories.shared(entry)])
            elif place and entry.tag in _NAMES:
                yield Part(THE_REST, *place, _NAMES[entry.tag])
            else:
                kept.append(entry)
        with contextlib.suppress(Broken):  # what it leads to is rest then
            self._table(kept, _POINTERS)

    def rest(self) -> None:
        """The bytes after all parts that the directories point to; and with a MakerNote, which may lead to them, the bytes between."""
        if self._has_note:
            self._between()
        if self._cut:
            self.blocks.leave(f"{REST} ({self._cut})", b"")
        if self._reached.end is not None:
            leave_rest(self.blocks, self.directories.stream, self._reached.end)

    def _between(self) -> None:
        """The bytes that no directory covers, if they aren't all 0, with their offsets: from the MakerNote on, if there is one, because a
        program may move both."""
        stream, end, count = self.directories.stream, 0, 0
        (first,) = self._notes if len(self._notes) == 1 else (0,)
        digest = hashlib.sha256()
        for start, stop in sorted(self._reached.parts):
            at = end
            for data in pieces(stream, end, min(start, self.directories.size)) if start > end else ():
                at += len(data)
                if bare := data.lstrip(b"\0"):
                    digest.update(placed(at - len(bare) - first, bare.rstrip(b"\0")))
                    count += len(bare) - bare.count(0)
            end = max(end, stop)
        if count:
            self.blocks.not_read.append(NotRead(counted(count, "the MakerNote"), digest.hexdigest()))
