"""The formats that are read here: how a file of each begins, and its reader."""

from __future__ import annotations

import os
import re
from typing import Callable, NamedTuple

from ..model.budgets import PACKET_BYTES, TooMuch, budget_of
from ..model.found import XMP, XMP_FILE, Blocks, LeftToOthers
from . import raw_files
from .formats import cr3, gif, heif, jp2, jpeg, jxl, png, psd, raf, tiff, webp
from ..model.xmp_encodings import begins_packet
from .formats.streams import HEAD as FIRST, Stream, read_at, size_of

HEAD = 16  # bytes of a file that show its format
_BLANK, _PACKETS = b"\xef\xbb\xbf \t\r\n", (b"<?xpacket begin", b"<x:xmpmeta")  # of a file that has no name, or one without an ending

Read = Callable[[Stream, bool], Blocks]  # raises `Broken` and `LeftToOthers`; the second argument is --whole

_RAW_NAME = re.compile(rb"\.(nef|arw|srw|pef)\Z", re.I)


class Format(NamedTuple):
    """A format."""

    name: str
    is_of: Callable[[bytes, bytes], bool]  # whether a file with these first bytes and this path is one
    read: Read


def type_of(blocks: Blocks, path: bytes) -> str:
    """The type of a file that was read. A raw picture that has the structure of a TIFF has the type of its name."""
    named = _RAW_NAME.search(path) if blocks.type == "TIFF" else None
    return named[1].decode("ascii").upper() if named else blocks.type


def read_packet(stream: Stream, whole: bool = False) -> Blocks:
    """A file NAME.xmp by itself, as programs put it beside a picture that they don't write to: one packet (XMP part 3). Raises `LeftToOthers` for what doesn't begin like one, and `TooMuch`."""
    size = size_of(stream)
    begins = begins_packet(read_at(stream, 0, min(size, FIRST)))
    if begins is None and size > FIRST:
        begins = begins_packet(read_at(stream, 0, min(size, PACKET_BYTES)))
    if not begins:
        raise LeftToOthers("it doesn't begin as XMP does")
    if size > PACKET_BYTES:
        raise TooMuch(f"more than {PACKET_BYTES:,} bytes of XMP")
    blocks = Blocks(type=XMP_FILE, budget=budget_of(stream))
    blocks.add(XMP, read_at(stream, 0, size), "file")
    return blocks


FORMATS = (
    Format("JPEG", lambda head, _: head.startswith(jpeg.START), jpeg.read),
    Format("PNG", lambda head, _: head.startswith(png.START), png.read),
    Format("WebP", lambda head, _: webp.is_webp(head[:12]), webp.read),
    Format("TIFF; DNG, CR2, NEF, PEF, ARW, SRW", lambda head, path: head[:4] in tiff.HEADS and not raw_files.is_left(path), tiff.read),
    Format("ORF, RW2", lambda head, _: head[:4] in tiff.RAW_HEADS, tiff.read),
    Format("RAF", lambda head, _: head.startswith(raf.START), raf.read),
    Format("HEIC, HEIF, AVIF", lambda head, _: heif.is_heif(head), heif.read),
    Format("CR3", lambda head, _: cr3.is_cr3(head), cr3.read),
    Format("PSD, PSB", lambda head, _: head.startswith(psd.START), psd.read),
    Format("JPEG XL", lambda head, _: head.startswith((jxl.START, jxl.BARE)), jxl.read),
    Format("JPEG 2000", lambda head, _: head.startswith((jp2.START, jp2.BARE)), jp2.read),
    Format("GIF", lambda head, _: head.startswith(gif.STARTS), gif.read),
    Format("BigTIFF", lambda head, _: head[:4] in tiff.BIG_HEADS, tiff.read_big),
    Format(
        "NAME.xmp",
        lambda head, path: path.lower().endswith(b".xmp") or (not os.path.splitext(path)[1] and head.lstrip(_BLANK).startswith(_PACKETS)),
        read_packet,
    ),
)


def reader_of(head: bytes, path: bytes) -> Read | None:
    """The reader of a file with these first bytes; none if only other programs read it."""
    return next((it.read for it in FORMATS if it.is_of(head, path)), None)
