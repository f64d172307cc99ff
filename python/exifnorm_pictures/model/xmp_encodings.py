"""How a packet of XMP begins: its encoding (XMP part 1, 7.1; XML 1.0, F.1), and whether nothing but its bytes shows that it is one."""

from __future__ import annotations

import codecs
import re

_STARTS = (
    (codecs.BOM_UTF32_LE, "utf-32-le"),
    (codecs.BOM_UTF32_BE, "utf-32-be"),
    (codecs.BOM_UTF16_LE, "utf-16-le"),
    (codecs.BOM_UTF16_BE, "utf-16-be"),
    (b"<\0\0\0", "utf-32-le"),
    (b"\0\0\0<\0", "utf-32-be"),  # zeros may also be padding before UTF-8
    (b"<\0", "utf-16-le"),
    (b"\0<\0", "utf-16-be"),
)


def encoding_of(data: bytes) -> str:
    """The encoding of a packet with these first bytes.

    >>> encoding_of("\\ufeff<".encode("utf-16-be")), encoding_of("<r:".encode("utf-32-le")), encoding_of(b"\\xef\\xbb\\xbf<")
    ('utf-16-be', 'utf-32-le', 'utf-8')
    """
    return next((encoding for start, encoding in _STARTS if data.startswith(start)), "utf-8")


# What may precede the first element: byte order marks, zeros and white space, instructions, comments, and a document type, with which a packet
# is refused. Each part is found in time that is linear in it, also in a file that is made to take long.
_BEFORE = re.compile(rb"[\s\0\xef\xbb\xbf]+|<\?(?!xpacket\s).*?\?>|<!--.*?-->|<!DOCTYPE[^>\[]*(?:\[[^\]]*\]\s*)?>", re.S)
_WRAPPER = re.compile(rb"<\?xpacket\s")  # which only packets have (XMP part 1, 7.3.2), so that one which is cut in it is known
_ELEMENT = re.compile(rb"<(?:[^\s<>/:!?]+:)?([^\s<>/:!?]+)[\s/>]")
_UNFINISHED = re.compile(rb"(?:<[?!].*|<[^\s<>/!?]*)?\Z", re.S)
_ROOTS = (b"RDF", b"xmpmeta", b"xapmeta")  # with any prefix: a packet may call each namespace as it likes (XMP part 1, 7)


def begins_packet(data: bytes) -> bool | None:
    """Whether these first bytes of a file begin as a packet does, in any of its encodings; None if its first element is behind them.

    >>> begins_packet(b"<!-- a --><r:RDF xmlns:r="), begins_packet(b"<svg>"), begins_packet(b"<?xml version=")
    (True, False, None)
    """
    encoding = encoding_of(data)
    if encoding != "utf-8":  # of which a character may be cut at the end
        data = codecs.getincrementaldecoder(encoding)("replace").decode(data).encode("utf-8")
    at = 0
    while part := _BEFORE.match(data, at):
        at = part.end()
    if _WRAPPER.match(data, at):
        return True
    element = _ELEMENT.match(data, at)
    if element:
        return element[1] in _ROOTS
    return None if _UNFINISHED.match(data, at) else False
