"""Writes metadata blocks as cameras and editors do: Exif in both byte orders and two layouts, IPTC, and XMP in two forms."""

from __future__ import annotations

import struct
from typing import Any, Dict, List, Tuple
from xml.sax.saxutils import escape, quoteattr

BYTE, ASCII, SHORT, LONG, RATIONAL, UNDEFINED = 1, 2, 3, 4, 5, 7
DATA, DIRECTORY = -1, -2  # an offset of bytes, and one of another directory
SIZES = {BYTE: 1, ASCII: 1, SHORT: 2, LONG: 4, RATIONAL: 8, UNDEFINED: 1}
BIG, LITTLE = ">", "<"

Fields = Dict[int, Tuple[int, Any]]


class Exif:
    """An Exif block or a TIFF file that is being written."""

    def __init__(self, order: str, tables_first: bool) -> None:
        self.order, self.tables_first, self.body = order, tables_first, bytearray(8)

    def append(self, data: bytes) -> int:
        """Appends bytes at an even offset, and returns the offset."""
        self.body += bytes(len(self.body) % 2)
        self.body += data
        return len(self.body) - len(data)

    def packed(self, kind: int, value: Any) -> bytes:
        """The bytes of a value."""
        if kind == ASCII:
            return str(value).encode() + b"\0"
        if kind in (BYTE, UNDEFINED):
            return bytes(value)
        numbers = [part for pair in value for part in pair] if kind == RATIONAL else value
        return struct.pack(f"{self.order}{len(numbers)}{'H' if kind == SHORT else 'L'}", *numbers)

    def entry(self, tag: int, kind: int, value: Any) -> bytes:
        """One entry of a directory. What it leads to is written first."""
        if kind == DATA:
            kind, value = LONG, [self.append(value)]
        elif kind == DIRECTORY:
            kind, value = LONG, [self.directory(value)]
        data = self.packed(kind, value)
        count = len(data) // SIZES[kind]
        last = data.ljust(4, b"\0") if len(data) <= 4 else struct.pack(f"{self.order}L", self.append(data))
        return struct.pack(f"{self.order}HHL", tag, kind, count) + last

    def directory(self, fields: Fields, next_fields: Fields | None = None) -> int:
        """Writes a directory, and returns its offset."""
        size = 6 + 12 * len(fields)
        at = self.append(bytes(size)) if self.tables_first else 0
        entries = [self.entry(tag, *fields[tag]) for tag in sorted(fields)]
        next_at = self.directory(next_fields) if next_fields else 0
        if not self.tables_first:
            at = self.append(bytes(size))
        table = struct.pack(f"{self.order}H", len(entries)) + b"".join(entries) + struct.pack(f"{self.order}L", next_at)
        self.body[at : at + size] = table
        return at


def exif(order: str, main: Fields, thumbnail: bytes = b"", tables_first: bool = True) -> bytes:
    """An Exif block with these fields and this thumbnail. Cameras write each table before its values, some editors after them."""
    block = Exif(order, tables_first)
    small: Fields = {
        0x0103: (SHORT, [6]),
        0x011A: (RATIONAL, [(72, 1)]),
        0x011B: (RATIONAL, [(72, 1)]),
        0x0128: (SHORT, [2]),
        0x0201: (DATA, thumbnail),
        0x0202: (LONG, [len(thumbnail)]),
    }
    at = block.directory(main, small if thumbnail else None)
    block.body[:8] = (b"MM" if order == BIG else b"II") + struct.pack(f"{order}HL", 42, at)
    return bytes(block.body)


def iptc(texts: List[Tuple[int, str]]) -> bytes:
    """An IPTC record in UTF-8, with these DataSets of record 2."""
    declared = b"\x1c\x01\x5a\x00\x03\x1b%G" + b"\x1c\x02\x00\x00\x02\x00\x04"
    return declared + b"".join(struct.pack(">BBBH", 0x1C, 2, number, len(text.encode())) + text.encode() for number, text in texts)


NAMES = {
    "dc": "http://purl.org/dc/elements/1.1/",
    "photoshop": "http://ns.adobe.com/photoshop/1.0/",
    "xmp": "http://ns.adobe.com/xap/1.0/",
}
PACKET = """<?xpacket begin="\ufeff" id="W5M0MpCehiHzreSzNTczkc9d"?>
<x:xmpmeta xmlns:x="adobe:ns:meta/" x:xmptk="{kit}">
<rdf:RDF xmlns:rdf="http://www.w3.org/1999/02/22-rdf-syntax-ns#">
 <rdf:Description rdf:about="" {names} {heads}>
{inside}
 </rdf:Description>
</rdf:RDF>
</x:xmpmeta>
"""


def listed(name: str, value: Any) -> str:
    """A property with a list: texts in the default language, or a bag or sequence of texts."""
    kind, items = value
    language = ' xml:lang="x-default"' if kind == "Alt" else ""
    rows = "".join(f"<rdf:li{language}>{escape(it)}</rdf:li>" for it in items)
    return f"   <{name}><rdf:{kind}>{rows}</rdf:{kind}></{name}>"


def xmp(properties: Dict[str, Any], compact: bool = True) -> bytes:
    """An XMP packet: with simple properties as attributes and padding, or each as an element, in reverse order and without padding."""
    lists = [listed(name, it) for name, it in properties.items() if not isinstance(it, str)]
    plain = {name: it for name, it in properties.items() if isinstance(it, str)}
    names = " ".join(f"xmlns:{it}={quoteattr(where)}" for it, where in NAMES.items())
    if compact:
        heads, inside = " ".join(f"{name}={quoteattr(it)}" for name, it in plain.items()), lists
    else:
        heads, inside = "", [f"   <{name}>{escape(it)}</{name}>" for name, it in plain.items()][::-1] + lists[::-1]
    packet = PACKET.format(kit="Desk 2.1" if compact else "Other 7", names=names, heads=heads, inside="\n".join(inside))
    padding = (" " * 99 + "\n") * 5 if compact else ""
    return f'{packet}{padding}<?xpacket end="w"?>'.encode()
