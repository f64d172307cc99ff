"""Picture files made by hand around metadata blocks, one function for each format, and small blocks to put into them."""

import hashlib
import struct
import zlib

from made_blocks import ASCII, LONG, SHORT, block, entry, segment
from studio import SMALL_JPEG

RATIONAL = 5
SIZES = {RATIONAL: 8, 8: 2, 9: 4, 10: 8, 11: 4, 12: 8}  # of an element, by the number of the type; bytes of other types are elements
SIX = b"Exif\0\0"
XMP_HEAD = b"http://ns.adobe.com/xap/1.0/\0"
EXTENSION_HEAD = b"http://ns.adobe.com/xmp/extension/\0"
RESOURCES_HEAD = b"Photoshop 3.0\0"
SPACES = (
    "xmlns:rdf='http://www.w3.org/1999/02/22-rdf-syntax-ns#' xmlns:dc='http://purl.org/dc/elements/1.1/'"
    " xmlns:xmp='http://ns.adobe.com/xap/1.0/' xmlns:note='http://ns.adobe.com/xmp/note/'"
)


def exif(make):
    """An Exif block with the camera's maker, in three letters."""
    return block([entry(0x010F, ASCII, 4, make + b"\0")])


def iim(keyword):
    """An IPTC record with a keyword."""
    return b"\x1c\x02\x19" + struct.pack(">H", len(keyword)) + keyword


def xmp(inside, attributes="", outer=""):
    """An XMP packet with these properties."""
    return (
        f"<?xpacket begin='\ufeff' id='W5M0MpCehiHzreSzNTczkc9d'?><x:xmpmeta xmlns:x='adobe:ns:meta/' {outer}><rdf:RDF {SPACES}>"
        f"<rdf:Description rdf:about='' {attributes}>{inside}</rdf:Description></rdf:RDF></x:xmpmeta><?xpacket end='w'?>"
    ).encode()


def title(text):
    return xmp(f"<dc:format>{text}</dc:format>")


def resource(number, data, signature=b"8BIM"):
    """A Photoshop resource."""
    return signature + struct.pack(">HHI", number, 0, len(data)) + data + bytes(len(data) % 2)


# JPEG


def jpeg(*segments, behind=b"", base=SMALL_JPEG):
    """A JPEG with these segments after its SOI, and bytes after its end."""
    return base[:2] + b"".join(segments) + base[2:] + behind


def app1(data):
    return segment(0xE1, SIX + data)


def app1_xmp(packet):
    return segment(0xE1, XMP_HEAD + packet)


def app13(*resources):
    return segment(0xED, RESOURCES_HEAD + b"".join(resources))


def data_set(number, octets, record=2):
    return struct.pack(">BBBH", 0x1C, record, number, len(octets)) + octets


def with_record(*sets):
    """The segment with an IPTC record."""
    return app13(resource(0x0404, b"".join(sets)))


def with_texts(**texts):
    """An Exif segment with ImageDescription, Artist and Copyright."""
    tags = {"description": 0x010E, "artist": 0x013B, "copyright": 0x8298}
    at, entries, values = 8 + 2 + 12 * len(texts) + 4, [], b""
    for name in sorted(texts, key=lambda it: tags[it]):
        octets = texts[name] + b"\0" * (5 - len(texts[name]) if len(texts[name]) < 4 else 1)
        entries.append(entry(tags[name], ASCII, len(octets), at + len(values)))
        values += octets + bytes(len(octets) % 2)
    return app1(block(entries) + values)


def extension(packet, size=100, name=None):
    """Extended XMP in pieces, and the name by which a main packet asks for it."""
    name = name or hashlib.md5(packet).hexdigest().upper().encode()
    pieces = [packet[at : at + size] for at in range(0, len(packet), size)]
    heads = [EXTENSION_HEAD + name + struct.pack(">II", len(packet), number * size) for number in range(len(pieces))]
    return [segment(0xE1, head + piece) for head, piece in zip(heads, pieces)], name.decode()


def mpf(first, *further, order=">"):
    """A JPEG with an index of further pictures, which are appended to it; `first` has segments."""
    count = 1 + len(further)
    head = b"MPF\0" + (b"MM\0*" if order == ">" else b"II*\0") + struct.pack(order + "IHHHIIH", 8, 2, 0xB001, LONG, 1, count, 0xB002)
    head += struct.pack(order + "HII", 7, 16 * count, 38) + struct.pack(order + "I", 0)
    length = len(head) + 16 * count
    whole_first = len(jpeg(first, segment(0xE2, bytes(length))))
    base = 2 + len(first) + 4 + 4  # of the index's own header
    rows, at = struct.pack(order + "IIIHH", 0x030000, whole_first, 0, 0, 0), whole_first
    for it in further:
        rows += struct.pack(order + "IIIHH", 0, len(it), at - base, 0, 0)
        at += len(it)
    return jpeg(first, segment(0xE2, head + rows), behind=b"".join(further))


# PNG


def packed_zeros(megabytes):
    """What zlib makes of so many megabytes of zeros, which takes long: it does so with the first one, and the others are copies.

    >>> zlib.decompress(packed_zeros(2)) == bytes(2 << 20)
    True
    """
    packing = zlib.compressobj(9, zlib.DEFLATED, -15)
    piece = packing.compress(bytes(1 << 20)) + packing.flush(zlib.Z_FULL_FLUSH)
    adler = ((megabytes << 20) % 65521) << 16 | 1
    return b"\x78\xda" + piece * megabytes + b"\x03\0" + struct.pack(">I", adler)


def chunk(kind, data, wrong=0):
    return struct.pack(">I", len(data)) + kind + data + struct.pack(">I", zlib.crc32(kind + data) ^ wrong)


def png(*chunks, behind=b"", point=0):
    """A PNG of one grey point with these chunks in front of its data."""
    head = chunk(b"IHDR", struct.pack(">IIBBBBB", 1, 1, 8, 0, 0, 0, 0))
    return b"\x89PNG\r\n\x1a\n" + head + b"".join(chunks) + chunk(b"IDAT", zlib.compress(bytes([0, point]))) + chunk(b"IEND", b"") + behind


def profile(kind, data):
    """A raw profile in a compressed text chunk, as ImageMagick writes it."""
    text = b"\n%s\n%8d\n" % (kind, len(data)) + data.hex().encode() + b"\n"
    return chunk(b"zTXt", b"Raw profile type " + kind + b"\0\0" + zlib.compress(text))


def png_xmp(packet, packed=False):
    text = zlib.compress(packet) if packed else packet
    return chunk(b"iTXt", b"XML:com.adobe.xmp\0" + bytes([packed, 0]) + b"\0\0" + text)


# WebP


def webp(*chunks, behind=b""):
    """A WebP without a picture, which readers of metadata don't miss."""
    data = b"WEBP" + b"".join(kind + struct.pack("<I", len(it)) + it + bytes(len(it) % 2) for kind, it in chunks)
    return b"RIFF" + struct.pack("<I", len(data)) + data + behind


# TIFF


class Placed(bytes):
    """Bytes that an entry points to: its value is their offset, as a number of four bytes."""


def tiff(*pages, order=">", behind=b"", head=b"", more=b""):
    """A TIFF: each page is a list of (tag, type, value), the value a number, bytes, bytes that are placed, or a further page as the SubIFD.

    `head` are the first four bytes if they are other ones, and `more` comes after the header.
    """
    made = bytearray((head or (b"MM\0*" if order == ">" else b"II*\0")) + bytes(4) + more)
    link = 4
    for page in pages:
        at = _directory(made, page, order)
        struct.pack_into(order + "I", made, link, at)
        link = at + 2 + 12 * len(page)
    return bytes(made) + behind


def _directory(made, page, order):
    entries = []
    for tag, kind, value in sorted(page, key=lambda it: it[0]):
        count = 1
        if isinstance(value, list):
            value = _directory(made, value, order)
        if isinstance(value, Placed):
            made += bytes(len(made) % 2)
            place, value = len(made), value
            made += value
            value, count = place, 4 if kind in (1, 7) else 1
        elif isinstance(value, bytes):
            count = len(value) // SIZES.get(kind, 1)
            if len(value) > 4:
                made += bytes(len(made) % 2)
                place, value = len(made), value
                made += value
                value = place
            else:
                value = int.from_bytes((value + bytes(4))[:4], "big" if order == ">" else "little")
        elif kind == SHORT:
            value = value << 16 if order == ">" else value
        entries.append(struct.pack(order + "HHII", tag, kind, count, value))
    made += bytes(len(made) % 2)
    at = len(made)
    made += struct.pack(order + "H", len(entries)) + b"".join(entries) + bytes(4)
    return at


def page(*more, pixels=b"\x55"):
    """The entries of a page of one grey point, whose strip is at 0 of the file's own bytes."""
    known = [
        (0x100, LONG, 1),
        (0x101, LONG, 1),
        (0x102, SHORT, 8),
        (0x103, SHORT, 1),
        (0x106, SHORT, 1),
        (0x111, LONG, 8),
        (0x115, SHORT, 1),
        (0x116, LONG, 1),
        (0x117, LONG, len(pixels)),
    ]
    tags = {it[0] for it in more}
    return [it for it in known if it[0] not in tags] + list(more)


def small_tiff(*entries, order="<", head=b"", more=b""):
    """A TIFF of one directory without pixels, such as a camera profile."""
    return tiff(list(entries), order=order, head=head, more=more)


def raf(picture, directory=b"", pixels=b"", several=0, gap=0, behind=b""):
    """A RAF: its header, a JPEG, a directory of Fujifilm's and what is at the pixels, each behind a gap, and bytes after its end."""
    places, parts, at = [], b"", 148
    for it in (picture, directory, pixels):
        places.append((at + gap, len(it)) if it else (0, 0))
        parts += bytes(gap) + it
        at += gap + len(it)
    head = bytearray(b"FUJIFILMCCD-RAW 0201FF383501FinePix S5000".ljust(60, b"\0") + b"0100").ljust(148, b"\0")
    for place, it in zip((0x54, 0x5C, 0x64), places):
        struct.pack_into(">II", head, place, *it)
    struct.pack_into(">I", head, 0x48, several)
    struct.pack_into(">I", head, 0x4C, several)
    return bytes(head) + parts + behind


def turned(octets):
    """The Exif block of one short field in the other byte order, which means the same."""
    (count,) = struct.unpack_from(">H", octets, 8)
    found = b"II*\0\x08\0\0\0" + struct.pack("<H", count)
    for at in range(10, 10 + 12 * count, 12):
        tag, kind, number = struct.unpack_from(">HHI", octets, at)
        found += struct.pack("<HHI", tag, kind, number) + octets[at + 8 : at + 12]
    return found + bytes(4)


# Two blocks of each kind that mean different things
A, B = exif(b"Abc"), exif(b"Xyz")
K, L = iim(b"one"), iim(b"two")
T, U = title("one"), title("two")
# What T means, in other bytes
T_OTHERWISE = xmp("", "dc:format='one'", "x:xmptk='another toolkit'") + b" " * 50
