"""RAF, the raw pictures of Fujifilm: a header, a JPEG with the metadata, and directories with facts about the pixels.

Fujifilm documents none of it; this is what ExifTool's module FujiFilm reads. The header begins with `START`, and has the offsets and
lengths of the parts as numbers of four bytes, the high byte first.
"""

from __future__ import annotations


from ...model.budgets import budget_of
from ...model.found import EXIF, Blocks, Broken, NotRead
from ...model.tiff_types import HEADS
from .jpeg import add_jpeg
from .streams import Stream, Window, leave_rest, leave_whole, read_at, size_of
from .tiff_directories import Layout, Table, is_pointer, Directories

START = b"FUJIFILMCCD-RAW "
_HEADER = 0x88  # bytes of the longest header; the JPEG follows a shorter one directly
_JPEG = 0x54  # in the header: where the place of the JPEG is
_SEVERAL = 0x48  # the same of a header of several pictures
_DIRECTORIES = (0x5C, 0x78)  # of directories in Fujifilm's own form
_TIFFS = (0x64, 0x80)  # of pixels, which in newer files begin with directories in the form of TIFF
_FUJI = 0xF000  # the tag that leads to the directory of the pixels
_PIXELS = frozenset((0xF007, 0xF008))  # their offset and length there


def read(stream: Stream, whole: bool = False) -> Blocks:
    """The blocks of a RAF. Raises `Broken`."""
    blocks = Blocks(type="RAF", budget=budget_of(stream))
    size = size_of(stream)
    head = read_at(stream, 0, _HEADER)
    jpeg, length = _place(head, _JPEG)
    if jpeg + length > size:
        raise Broken("the file ends inside the JPEG of the RAF")
    if jpeg < _JPEG + 8 or not length:
        raise Broken("the JPEG of the RAF isn't in the file")
    add_jpeg(blocks, stream, jpeg, length, "", whole)
    end = jpeg + length
    if all(_place(head, _SEVERAL)) and _SEVERAL + 8 <= jpeg:
        blocks.name(NotRead("Fujifilm's header of several pictures", ""))
    for at in (*_DIRECTORIES, *_TIFFS):
        start, length = _place(head, at)
        if at + 8 <= jpeg and 0 not in (start, length):
            end = max(end, start + length)
            if end > size:
                raise Broken(f"the file ends inside the part at {start}")
            _add_part(blocks, stream, start, length, at)
    leave_rest(blocks, stream, end)
    return blocks


def _add_part(blocks: Blocks, stream: Stream, start: int, length: int, at: int) -> None:
    """Adds or names a part whose place is at an offset of the header."""
    if at in _DIRECTORIES:
        leave_whole(blocks, "Fujifilm's directory of the raw data", stream, start, start + length)
    elif read_at(stream, start, 4) in HEADS:
        _add_own(blocks, Window(stream, start, length), start)


def _place(head: bytes, at: int) -> tuple[int, int]:
    """The offset and the length of a part, which stand at an offset of the header."""
    return int.from_bytes(head[at : at + 4], "big"), int.from_bytes(head[at + 4 : at + 8], "big")


def _add_own(blocks: Blocks, stream: Window, start: int) -> None:
    """Fujifilm's directories in the form of TIFF: the first one, and the one that it points to."""
    directories = Directories(stream)
    first = directories.read(directories.first)
    pointers = [it for it in first.entries if it.tag == _FUJI]
    if first.following or len(pointers) > 1 or not all(map(is_pointer, pointers)):
        raise Broken(f"Fujifilm's directory at {start} has another form than is known")
    further = [directories.read(directories.number(it.last)) for it in pointers]
    for directory, part in zip((first, *further), ("Fujifilm's TIFF", "Fujifilm's directory of pixels")):
        pixels = [it for it in directory.entries if it.tag in _PIXELS]
        if not all(map(is_pointer, pixels)):
            raise Broken(f"Fujifilm's directory at {start} has pixels without an offset")
        if kept := [it for it in directory.entries if it not in (*pixels, *pointers)]:
            block = Layout(directories, Table(kept, {})).block(part)
            blocks.add(EXIF, block, f"directory at {start + directory.at}", part)
    directories.check()
