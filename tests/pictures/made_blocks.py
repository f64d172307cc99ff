"""A block for each cause of refusal, and JPEG pictures around blocks."""

import struct

from meanings import ASCII, LONG, SHORT, UNDEFINED  # noqa: F401 (tests take these from here)
from reading import CAUSES, HEADER, MAKE, MODEL, block, entry, table  # noqa: F401 (tests take these from here)

BLOCKS = {cause: made for cause, (made, _) in CAUSES.items()}


def segment(marker, octets):
    return bytes([255, marker]) + struct.pack(">H", len(octets) + 2) + octets


def with_exif(jpeg, octets):
    """A JPEG with a segment that has these bytes as its Exif block."""
    return jpeg[:2] + segment(0xE1, b"Exif\0\0" + octets) + jpeg[2:]


def with_iptc(jpeg, octets):
    """A JPEG with Photoshop resources that have these bytes as the IPTC record."""
    resource = b"8BIM\x04\x04\0\0" + struct.pack(">I", len(octets)) + octets + bytes(len(octets) % 2)
    return jpeg[:2] + segment(0xED, b"Photoshop 3.0\0" + resource) + jpeg[2:]
