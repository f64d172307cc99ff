"""Reads the head of a JPEG by a walk in Python over its segments, independently of the library (ITU T.81, B.1.1; Adobe Photoshop File Formats
Specification, "Image Resource Blocks")."""

import re

TEM, RST0, SOI, EOI, SOS = 0x01, 0xD0, 0xD8, 0xD9, 0xDA
SIGNATURES = (b"8BIM", b"PHUT", b"AgHg", b"DCSR", b"MeSa")
SEEMS_XMP = re.compile(rb"\A(?:http|XMP\0)|<(?:exif:|\?xpacket)")  # in APP1, by ExifTool's source


class Fault(Exception):
    """Why bytes are no head: a word, the offset of the part with the fault, and the offset behind the bytes FF that fill before it."""


def segments(octets, start=0):
    """Each marker of the head that begins at an offset: its number, its offset, the offset behind it or behind its segment, and its data.
    Raises `Fault` after those before a fault."""
    at, marker = start + 2, None
    while marker not in (SOS, EOI):
        part = at
        while octets[at : at + 2] == b"\xff\xff":
            at += 1
        if octets[at : at + 1] not in (b"\xff", b"") or octets[at : at + 2] == b"\xff\0":
            raise Fault("JpegNoMarker", part, at)
        if at + 2 > len(octets):
            raise Fault("JpegCut", part, at)
        marker, end = octets[at + 1], at + 2
        if marker != TEM and not RST0 <= marker <= EOI:
            length = int.from_bytes(octets[at + 2 : at + 4], "big")
            if at + 4 > len(octets) or length > 1 and at + 2 + length > len(octets):
                raise Fault("JpegCut", part, at)
            if length < 2:
                raise Fault("JpegLength", part, at)
            end += length
        yield marker, at, end, octets[at + 4 : end]
        at = end


def resources(data):
    """The number and the data of each of Photoshop's resources, and what is behind the last one."""
    found, at = [], 0
    while data[at : at + 4] in SIGNATURES and at + 12 <= len(data):
        start = at + 6 + (data[at + 6] + 2) // 2 * 2
        length = int.from_bytes(data[start : start + 4], "big")
        if start + 4 + length > len(data):
            break
        found.append((int.from_bytes(data[at + 4 : at + 6], "big"), data[start + 4 : start + 4 + length]))
        at = start + 4 + length + length % 2
    return found, data[at:]


MARKS = (
    (0xE1, b"Exif\0\0", "exif"),
    (0xED, b"Photoshop 3.0\0", "photoshop"),
    (0xE1, b"http://ns.adobe.com/xap/1.0/\0", "xmp"),
    (0xE1, b"http://ns.adobe.com/xmp/extension/\0", "extended xmp"),
)
TIFF = (b"II*\0", b"MM\0*")


def parts(octets):
    """The parts of a head, each with its marker, its kind, whether a block begins there, and the offset and number of its bytes; and the cause
    and the offset of the fault, or None."""
    if octets[:2] != b"\xff\xd8":
        return [], ("JpegNoStart", 0)
    found, last = [], ""
    try:
        for marker, _, end, data in segments(octets):
            mark, kind = next(((mark, kind) for code, mark, kind in MARKS if code == marker and data.startswith(mark)), (b"", ""))
            inside = data[len(mark) :]
            goes_on = kind == last and (kind == "photoshop" or kind == "exif" and inside[:4] not in TIFF)
            found.append((marker, kind, kind != "" and not goes_on, end - len(inside), len(inside)))
            last = kind
    except Fault as why:
        return found, why.args[:2]
    return found, None
