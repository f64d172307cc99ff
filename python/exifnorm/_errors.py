"""The exceptions of calls, besides MemoryError and TypeError."""

from __future__ import annotations

import warnings

TYPE_CHECKING = False  # that of `typing`, which takes long to import
if TYPE_CHECKING:
    from typing import Optional, Sequence, Tuple

    from ._jpeg import JpegBlock, JpegPart

LIMIT = 16_777_216
"""The greatest length in bytes of a block, and of a normal form."""


class Refused(ValueError):
    """A block breaks the rules and has no meaning: its first fault.

    - `cause`: the name of the cause, such as "Overlap". docs/REFUSALS.md lists them
    - `offset`: the byte offset of the fault from the block's first byte; the six bytes before an Exif block aren't counted
    - `side`: of two blocks, the number of the one that is refused, 1 or 2; otherwise None
    - `sentence`: the cause for people
    - `remedy`: what helps

    >>> import exifnorm
    >>> try:
    ...     exifnorm.kind(b"no block")
    ... except exifnorm.Refused as refusal:
    ...     print(refusal.cause, refusal.offset, refusal.side, refusal, sep=", ")
    ...     print(refusal.sentence)
    UnknownKind, 0, None, UnknownKind at 0
    The input is neither an Exif block nor an IPTC record.
    """

    def __init__(self, cause: str, offset: int, side: Optional[int] = None, is_jpeg: bool = False) -> None:
        super().__init__(cause, offset, side)
        self.cause = cause
        self.offset = offset
        self.side = side
        self._is_jpeg = is_jpeg  # whether the bytes are a JPEG, and no block

    @property
    def place(self) -> int:
        """The older name of `offset`."""
        warnings.warn("Refused.place is Refused.offset now", DeprecationWarning, stacklevel=2)
        return self.offset

    @property
    def sentence(self) -> str:
        """The cause for people, in a sentence."""
        return _JPEG[0] if self._is_jpeg else self._words()[0]

    @property
    def remedy(self) -> str:
        """What helps."""
        return _JPEG[1] if self._is_jpeg else self._words()[1]

    def _words(self) -> Tuple[str, str]:
        from ._causes import CAUSE_WORDS  # which only a refusal needs

        return CAUSE_WORDS.get(self.cause, (f"The block is refused: {self.cause}.", ""))

    def __str__(self) -> str:
        where = f"{self.cause} at {self.offset}"
        if self.side is not None:
            where += f" in block {self.side}"
        return f"{where}: this is a JPEG, and jpeg_blocks returns its blocks" if self._is_jpeg else where


_JPEG = ("The input is a whole JPEG, and no block.", "Give the blocks that `exifnorm.jpeg_blocks` returns for it.")


class HeadRefused(Refused):
    """The bytes are no head of a JPEG: the first fault, whose offset counts from the JPEG's first byte.

    - `parts`: the parts before the fault. Each is whole
    - `blocks`: the Exif and IPTC blocks that end before the fault, if `jpeg_blocks` raises this; otherwise none

    >>> import exifnorm
    >>> try:
    ...     exifnorm.jpeg_parts(bytes.fromhex("ffd8 fffe0004 4142 ffe1"))
    ... except exifnorm.HeadRefused as refusal:
    ...     print(refusal, [hex(it.marker) for it in refusal.parts])
    ...     print(refusal.sentence)
    JpegCut at 8 ['0xfe']
    The JPEG ends inside its head, before the first scan.
    """

    def __init__(self, cause: str, offset: int, parts: "Sequence[JpegPart]" = (), blocks: "Sequence[JpegBlock]" = ()) -> None:
        super().__init__(cause, offset)
        self.args = cause, offset, parts, blocks  # by which it is pickled
        self.parts = parts
        self.blocks = blocks


class PictureRefused(Refused):
    """Of two JPEGs that are compared, one has no head of a JPEG, or a block that breaks the rules: the first fault.

    - `side`: the number of the JPEG, 1 or 2
    - `kind`: the kind of the block, "exif" or "iptc"; "" if the JPEG has no head. Then the offset counts from the JPEG's first byte
    - `index`: the index of the block among those of its kind in the JPEG, from 0

    >>> import exifnorm
    >>> try:
    ...     exifnorm.jpeg_same(bytes.fromhex("ffd8 ffd9"), bytes.fromhex("ffd8 ffe1000a 457869660000 4d4d ffd9"))
    ... except exifnorm.PictureRefused as refusal:
    ...     print(refusal)
    HeaderCut at 2 in block 1 of Exif, picture 2
    """

    def __init__(self, cause: str, offset: int, side: int, kind: str = "", index: int = 0) -> None:
        super().__init__(cause, offset, side)
        self.args = cause, offset, side, kind, index  # by which it is pickled
        self.kind = kind
        self.index = index

    def __str__(self) -> str:
        names = {"": "the head", "exif": f"block {self.index + 1} of Exif", "iptc": f"block {self.index + 1} of IPTC"}
        return f"{self.cause} at {self.offset} in {names[self.kind]}, picture {self.side}"


# Bytes that are no packet, by their beginning: what they are in a message, in a sentence, and what helps.
_EXIF = (
    "this is a block of Exif or a TIFF",
    "The input is a block of Exif or a TIFF, and no packet of XMP.",
    "Give a block to `exifnorm.normal`, and a TIFF to `exifnorm.read`.",
)
_NO_PACKETS = {
    b"\xff\xd8\xff": (
        "this is a JPEG, and jpeg_xmp returns its packet",
        "The input is a whole JPEG, and no packet of XMP.",
        "Give the packet that `exifnorm.jpeg_xmp` returns for it.",
    ),
    b"Exif\0\0": _EXIF,
    b"II*\0": _EXIF,
    b"MM\0*": _EXIF,
    b"\x1c": (
        "this is a record of IPTC, which normal reads",
        "The input is a record of IPTC, and no packet of XMP.",
        "Give the record to `exifnorm.normal`.",
    ),
    b"http://ns.adobe.com/xap/1.0/\0": (
        "this is a segment of a JPEG, and its packet follows the first 29 bytes",
        "The input is a segment of a JPEG, in which the mark of XMP precedes the packet.",
        "Give the bytes after the first 29.",
    ),
}


class XmpRefused(Refused):
    """A packet of XMP has no normal form: the first fault, whose offset counts from the packet's first byte.

    - `is_rare`: whether the packet may have a meaning all the same, in a form of RDF/XML that isn't read here. Another reader may read it

    The message says so if the bytes are a JPEG, a block or a segment, and no packet.

    >>> import exifnorm
    >>> for packet in (b"<a><b></a>", b"<r:RDF xmlns:r='http://www.w3.org/1999/02/22-rdf-syntax-ns#'>text</r:RDF>", b"II*\\0\\x08"):
    ...     try:
    ...         exifnorm.xmp_normal(packet)
    ...     except exifnorm.XmpRefused as refusal:
    ...         print(refusal, refusal.is_rare)
    XmpOtherEnd at 6 False
    XmpRareText at 61 True
    XmpBadCharacter at 3: this is a block of Exif or a TIFF False
    """

    def __init__(self, cause: str, offset: int, octets: bytes = b"") -> None:
        begins = next((it for it in _NO_PACKETS if octets.startswith(it)), b"")
        super().__init__(cause, offset)
        self.args = cause, offset, begins  # by which it is pickled
        self._begins = begins

    @property
    def is_rare(self) -> bool:
        """Whether another reader may read the packet."""
        return self.cause.startswith("XmpRare")

    def _words(self) -> Tuple[str, str]:
        return _NO_PACKETS[self._begins][1:] if self._begins else super()._words()

    def __str__(self) -> str:
        return f"{super().__str__()}: {_NO_PACKETS[self._begins][0]}" if self._begins else super().__str__()


class XmpNotRead(ValueError):
    """A JPEG has more XMP than one packet, of which `jpeg_xmp` joins none: another packet, or extended XMP.

    - `offset`: the byte offset of the second packet or of the first piece of extended XMP, whichever comes first, after its mark

    `jpeg_parts` finds each packet and each piece, as parts of the kinds "xmp" and "extended xmp".

    >>> import exifnorm
    >>> head = b"http://ns.adobe.com/xap/1.0/\\0"
    >>> segment = b"\\xff\\xe1" + (2 + len(head)).to_bytes(2, "big") + head
    >>> try:
    ...     exifnorm.jpeg_xmp(b"\\xff\\xd8" + 2 * segment + b"\\xff\\xd9")
    ... except exifnorm.XmpNotRead as error:
    ...     print(error)
    a second packet of XMP or extended XMP at 68 is not read
    """

    def __init__(self, offset: int) -> None:
        super().__init__(offset)
        self.offset = offset

    def __str__(self) -> str:
        return f"a second packet of XMP or extended XMP at {self.offset} is not read"


class TooMany(ValueError):
    """There are more parts or resources than the call was allowed to return: `most`.

    >>> import exifnorm
    >>> exifnorm.jpeg_parts(bytes.fromhex("ffd8 ff01 ff01 ffd9"), most=2)
    Traceback (most recent call last):
    exifnorm._errors.TooMany: more than 2
    """

    def __init__(self, most: int) -> None:
        super().__init__(most)
        self.most = most

    def __str__(self) -> str:
        return f"more than {self.most}"


class NormalTooLong(ValueError):
    """The block has a meaning, but its normal form is longer than `LIMIT`.

    `same`, `show`, `kind` and `captions` accept such a block.

    >>> import exifnorm
    >>> count = exifnorm.LIMIT // 4  # numbers of RowsPerStrip, which take two bytes here, and four in the form
    >>> head = bytes.fromhex("4d4d002a00000008 0001 0116 0003") + count.to_bytes(4, "big") + bytes.fromhex("0000001a 00000000")
    >>> block = head + bytes(2 * count)
    >>> exifnorm.kind(block)
    'exif'
    >>> try:
    ...     exifnorm.normal(block)
    ... except exifnorm.NormalTooLong as error:
    ...     print(str(error) == f"the normal form is longer than {exifnorm.LIMIT} bytes")
    True
    """

    def __str__(self) -> str:
        return f"the normal form is longer than {LIMIT} bytes"


class LibraryMissing(OSError):
    """The library libexifnorm can't be loaded. The text lists where it was looked for, and why each attempt failed."""
