"""The head of a JPEG picture, which is all before its first scan (ITU T.81, Annex B; CIPA DC-008 4.7): its parts, as `exifnorm.jpeg_parts`
reads them, and its blocks, as the library joins them."""

from __future__ import annotations


import exifnorm
from exifnorm._jpeg import PART_KINDS, PartRow, rows_or_fault, whole_blocks
from exifnorm._named import NamedTuple

from ...model.budgets import SEGMENTS, SEGMENT_BYTES, Budget
from .streams import COMMENT, PROFILE, HEAD, Stream

SOI, EOI, SOS, COM = 0xD8, 0xD9, 0xDA, 0xFE
END_MARK = bytes((0xFF, EOI))
APP0, APP1, APP2, APP3, APP13, APP14, APP15 = 0xE0, 0xE1, 0xE2, 0xE3, 0xED, 0xEE, 0xEF

# The segments that contain no Exif, IPTC or XMP, and are compared only as the rest of a file: the marker, how the segment begins, and the name of
# the part, which docs/COMPARED.md has, too. Nothing in a segment says that it has no metadata: that is what the standards of these say, and any
# other segment of an application may have some, so it is also named as not read.
RESTS = (
    (0xE0, b"JFIF\0", "JFIF"),
    (0xE0, b"JFXX\0", "thumbnail of JFIF"),
    (0xE2, b"ICC_PROFILE\0", PROFILE),
    (0xEB, b"JP", "JUMBF"),
    (0xED, b"Adobe_CM", "Adobe_CM"),
    (0xEE, b"Adobe", "colour transform of Adobe"),
    (COM, b"", COMMENT),
)


def rest_of(marker: int, data: bytes) -> str:
    """The name of a segment of `RESTS`; empty of any other.

    >>> rest_of(0xE0, b"JFIF\\0\\1"), rest_of(0xE1, b"JFIF\\0\\1")
    ('JFIF', '')
    """
    return next((name for number, head, name in RESTS if marker == number and data.startswith(head)), "")


EXIF_PIECE, PHOTOSHOP_PIECE, XMP_PACKET, XMP_PIECE = (PART_KINDS.index(it) for it in ("exif", "photoshop", "xmp", "extended xmp"))


class Head(NamedTuple):
    """The head of a picture, or what is there of one that is damaged."""

    octets: bytes  # of the file from the picture's start on; they have all parts, and may have more
    parts: list[PartRow]  # each with its marker, the number of its kind, whether a block begins with it, its offset and its size
    end: int  # in the file, after the last part
    fault: str = ""  # why the head isn't whole
    is_open: bool = False  # whether the file ends after a whole segment, before a scan and the end mark

    @property
    def has_scan(self) -> bool:
        """Whether it ends with the header of a scan."""
        return bool(self.parts) and self.parts[-1][0] == SOS


def read_head(stream: Stream, start: int, budget: Budget) -> Head:
    """The head of the picture that begins at `start`. The pictures of an index can overlap, so all share a budget.

    The first bytes of a file are read, and twice as many while the head isn't whole: what was found in them doesn't change. A file may end
    after a whole segment, which is no fault here. Raises `TooMuch`.
    """
    octets = read_up_to(stream, start, HEAD)
    while True:
        parts, cause, place = _parts(octets, budget)
        more = read_up_to(stream, start + len(octets), len(octets)) if cause == "JpegCut" else b""
        if not more:
            break
        if len(octets) > budget.left[SEGMENT_BYTES]:
            budget.spend(SEGMENT_BYTES, len(octets))
        octets += more
    end = sum(parts[-1][3:]) if parts else 2
    budget.spend(SEGMENTS, len(parts))
    budget.spend(SEGMENT_BYTES, end)
    if not cause or (cause == "JpegCut" and place == len(octets)):
        return Head(octets, parts, start + end, is_open=bool(cause))
    marker = start + max(len(octets) - len(octets[place:].lstrip(b"\xff")) - 1, place)  # after bytes FF that fill
    return Head(octets, parts, start + end, f"{_FAULTS[cause]} at {marker}")


def blocks_of(head: Head) -> list[bytes]:
    """The blocks that begin in the parts of a head, in their order. A lenient form: a file that has a fault, or that ends after a whole segment,
    is read as if it had the end mark there. So a block of Exif that might go on counts as far as it goes; such a file is never wholly read.

    >>> from io import BytesIO
    >>> pictures = [bytes.fromhex("ffd8 ffe1000c 457869660000 4d4d002a" + rest) for rest in ("", "ff", "ffed", "ffd9")]
    >>> [len(blocks_of(read_head(BytesIO(picture), 0, Budget()))) for picture in pictures]
    [1, 1, 1, 1]
    """
    if all(begins for _, kind, begins, _, _ in head.parts if kind):  # each block in one segment, as in most pictures
        return [head.octets[start : start + size] for _, kind, _, start, size in head.parts if kind]
    last, *_, start, size = head.parts[-1]
    octets = head.octets if last in (SOS, EOI) else head.octets[: start + size] + END_MARK
    return [data for _, data in whole_blocks(octets)]


_FAULTS = {"JpegCut": "the file ends inside the segment", "JpegNoMarker": "no marker", "JpegLength": "no segment", "JpegNoStart": "no JPEG"}


def _parts(octets: bytes, budget: Budget) -> tuple[list[PartRow], str, int]:
    """The parts of a head, and the cause and the offset of its fault, if it has one. Raises `TooMuch`."""
    try:
        return rows_or_fault(octets, budget.left[SEGMENTS])
    except exifnorm.TooMany as many:
        budget.spend(SEGMENTS, many.most + 1)  # which raises
        raise


def read_up_to(stream: Stream, at: int, length: int) -> bytes:
    """So many bytes of a file, or those up to its end."""
    stream.seek(at)
    return stream.read(length)
