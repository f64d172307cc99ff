"""GIF: XMP in an application extension (XMP part 3, 1.1.2), and the IPTC and Photoshop's resources in those of ImageMagick (GIF89a).

Not compared, because they contain no Exif, IPTC or XMP: comments, plain texts, colour profiles, loops.
"""

from __future__ import annotations

from ...model.budgets import BLOCK_BYTES, EXTENSIONS, budget_of
from ...model.found import IPTC, XMP, Blocks, Broken
from . import photoshop
from .streams import CREDENTIALS, PIECE, Stream, leave, leave_rest, size_of

STARTS = (b"GIF87a", b"GIF89a")
_EXTENSION, _IMAGE, _END = 0x21, 0x2C, 0x3B
_APPLICATION = 0xFF
_OTHERS = (0xFE, 0xF9, 0x01)  # extensions without metadata: comments, controls of the next image, plain texts
# After a packet of XMP. Whatever byte of it a reader of blocks takes as a length leads to the zero at its end.
_MAGIC = b"\x01" + bytes(range(255, -1, -1)) + b"\0"
_XMP, _IPTC, _RESOURCES = b"XMP DataXMP", b"MGKIPTC0000", b"MGK8BIM0000"
_CREDENTIALS = {b"C2PA_GIF\1\0\0": CREDENTIALS}  # Content Credentials, A.4
_WITHOUT = frozenset(b"NETSCAPE2.0 ANIMEXTS1.0 ICCRGBG1012".split())


def read(stream: Stream, whole: bool = False) -> Blocks:
    """The blocks of a GIF, which is always read to its end mark. Raises `Broken`."""
    blocks = Blocks(type="GIF", budget=budget_of(stream))
    reader = _Reader(stream, blocks)
    head = reader.take(13)
    reader.at += _colours(head[10])
    while True:
        if reader.at >= reader.size:
            raise Broken("the file ends without its end mark")
        at, kind = reader.at, reader.take(1)[0]
        if kind == _END:
            leave_rest(blocks, stream, reader.at)
            return blocks
        if kind == _IMAGE:
            flags = reader.take(9)[8]
            reader.at += _colours(flags) + 1  # and the first code's length
            reader.skip()
        elif kind == _EXTENSION:
            reader.extension(at)
        else:
            raise Broken(f"no block at {at}")


def _colours(flags: int) -> int:
    """The bytes of a table of colours.

    >>> _colours(0x81), _colours(0x01)
    (12, 0)
    """
    return 3 << (flags & 7) + 1 if flags & 0x80 else 0


class _Reader:
    """The bytes of one file, in pieces, since its blocks are short."""

    def __init__(self, stream: Stream, blocks: Blocks) -> None:
        self.stream, self.blocks, self.budget = stream, blocks, blocks.budget
        self.size, self.at = size_of(stream), 0
        self._piece, self._start = b"", 0

    def take(self, length: int) -> bytes:
        """The next bytes. Raises `Broken` if the file ends before."""
        first = self.at - self._start
        if not 0 <= first <= len(self._piece) - length:
            self.stream.seek(self.at)
            self._piece, self._start, first = self.stream.read(max(PIECE, length)), self.at, 0
        octets = self._piece[first : first + length]
        if len(octets) < length:
            raise Broken(f"the file ends inside the {length} byte{'s' * (length > 1)} at {self.at}")
        self.at += length
        return octets

    def skip(self) -> None:
        """Goes on behind the next blocks of data. Raises `Broken` and `TooMuch`."""
        self.budget.spend(EXTENSIONS)
        while length := self.take(1)[0]:
            self.at += length

    def data(self) -> bytes:
        """The next blocks of data, joined. Raises `Broken` and `TooMuch`."""
        joined = bytearray()
        while length := self.take(1)[0]:
            self.budget.spend(BLOCK_BYTES, length)
            joined += self.take(length)
        return bytes(joined)

    def extension(self, at: int) -> None:
        """Adds the block of an extension, or names it. Raises `Broken` and `TooMuch`."""
        label = self.take(1)[0]
        start = self.at
        name = self.take(self.take(1)[0]) if label == _APPLICATION else b""
        if name in (_XMP, _IPTC, _RESOURCES):
            self._add(name, f"application extension at {at}")
            return
        self.skip()
        if label not in _OTHERS and name not in _WITHOUT:
            word = _CREDENTIALS.get(name) or f"application extension {_word(name)}"
            leave(self.blocks, word if name else f"extension {label:02x}", self.stream, start, self.at)

    def _add(self, name: bytes, where: str) -> None:
        """Adds the blocks of an application extension."""
        self.budget.spend(EXTENSIONS)
        start, data = self.at, self.data()
        if name == _IPTC:
            self.blocks.add(IPTC, data, where)
        elif name == _RESOURCES:
            photoshop.add_resources(self.blocks, [(where, data)])
        else:
            self.stream.seek(start)
            octets = self.stream.read(self.at - start)  # with the lengths, which are letters of the packet
            # Some writers divide the packet into blocks as any other data
            self.blocks.add(XMP, octets[: -len(_MAGIC)] if octets.endswith(_MAGIC) else data, where)


def _word(name: bytes) -> str:
    """A name for people.

    >>> _word(b"ABC 1.0"), _word(b"\\x00")
    ('ABC 1.0', '00')
    """
    return name.decode("ascii") if name.isascii() and name.decode("ascii").isprintable() else name.hex()
