"""JPEGs made of segments, for the tests of the library."""

import jpegs
from small_blocks import CAPTION, ONE

START, END = b"\xff\xd8", b"\xff\xd9"
EXIF, PHOTOSHOP, XMP, EXTENSION = (mark for _, mark, _ in jpegs.MARKS)
LITTLE = bytes.fromhex("49492a0008000000 0100 1201 0300 01000000 06000000 00000000")  # means what ONE means
SPACES = b"xmlns:r='http://www.w3.org/1999/02/22-rdf-syntax-ns#' xmlns:d='http://purl.org/dc/elements/1.1/'"
VASE = b"<r:RDF " + SPACES + b"><r:Description d:source='Vase'/></r:RDF>"


def segment(marker, data):
    return bytes((0xFF, marker)) + (len(data) + 2).to_bytes(2, "big") + data


def resource(number, data, signature=b"8BIM", name=b""):
    padded = bytes((len(name),)) + name + bytes((len(name) + 1) % 2)
    return signature + number.to_bytes(2, "big") + padded + len(data).to_bytes(4, "big") + data + bytes(len(data) % 2)


def exif(data):
    return segment(0xE1, EXIF + data)


def photoshop(data):
    return segment(0xED, PHOTOSHOP + data)


def iptc(data):
    return photoshop(resource(0x0404, data))


def packet(data):
    return segment(0xE1, XMP + data)


def extended(data):
    """A segment of extended XMP that no packet names."""
    length = len(data).to_bytes(4, "big")
    return segment(0xE1, EXTENSION + b"0123456789ABCDEF" * 2 + length + bytes(4) + data)


COMMENT, SCAN = segment(0xFE, b"comment"), segment(0xDA, b"scan")


def picture(*pieces, end=END):
    return START + b"".join(pieces) + end


PICTURE = picture(exif(ONE), COMMENT, iptc(CAPTION), packet(VASE), end=SCAN + b"data" + END)
