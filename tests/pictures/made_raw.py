"""Raw pictures made by hand, one function for each format: an artist, and what else a test needs. What leads where is ExifTool's
knowledge, or the DNG specification's. A gap moves all parts."""

import struct

from made_blocks import ASCII, LONG, SHORT, UNDEFINED
from made_files import Placed, app1, app1_xmp, jpeg, page, raf, small_tiff, tiff, title

BYTE = 1
MAKE, MODEL, ARTIST, SUB_IFDS, XMP, EXIF = 0x010F, 0x0110, 0x013B, 0x014A, 0x02BC, 0x8769
STRIP, LENGTH = 0x0111, 0x0117


def entries(make, artist, *more, exif=()):
    """The first directory of a raw picture: its pixels, a SubIFD, XMP, and an Exif directory with a MakerNote."""
    pixels = Placed(b"\x55" * 64)
    below = page((STRIP, LONG, pixels), (LENGTH, LONG, 64), (0x00FE, LONG, 1))
    return page(
        (MAKE, ASCII, make + b"\0"),
        (MODEL, ASCII, b"Camera One\0"),
        (ARTIST, ASCII, artist + b"\0"),
        (STRIP, LONG, pixels),
        (LENGTH, LONG, 64),
        (SUB_IFDS, LONG, below),
        (XMP, BYTE, title("one")),
        (EXIF, LONG, [(0x8827, SHORT, 200), (0x9003, ASCII, b"2026:11:26 10:00:00\0"), (0x9286, UNDEFINED, b"a comment"), *exif]),
        *more,
    )


def camera_profile(name=b"Portrait", order="<"):
    """A further camera profile of a DNG, which has a header of its own and offsets from it (DNG specification, ExtraCameraProfiles)."""
    head = b"IIRC" if order == "<" else b"MMCR"
    return small_tiff((0xC614, ASCII, b"Camera One\0"), (0xC6F8, ASCII, name + b"\0"), order=order, head=head)


def dng(artist=b"Anna", *more, order=">", gap=0, behind=b""):
    version = (0xC612, BYTE, b"\1\4\0\0")
    return tiff(entries(b"Maker", artist, version, *more), order=order, more=bytes(gap), behind=behind)


def cr2(artist=b"Anna", gap=0, behind=b""):
    """CR2 has 16 bytes of a header, whose last four are the offset of the directory of the pixels."""
    return tiff(entries(b"Canon", artist), order="<", more=b"CR\2\0" + bytes(4 + gap), behind=behind)


def nef(artist=b"Anna", gap=0, behind=b""):
    return tiff(entries(b"NIKON CORPORATION", artist, exif=[(0x927C, UNDEFINED, b"Nikon note")]), order="<", more=bytes(gap), behind=behind)


def pef(artist=b"Anna", gap=0, behind=b""):
    return tiff(entries(b"PENTAX", artist), order=">", more=bytes(gap), behind=behind)


def orf(artist=b"Anna", gap=0, behind=b"", head=b"IIRO"):
    return tiff(entries(b"OLYMPUS", artist), order="<" if head[:1] == b"I" else ">", head=head, more=bytes(gap), behind=behind)


def sony(*more, secret=b"\xaa" * 40):
    """Sony's private directory, which points to an encrypted one (ExifTool, Sony.pm: SR2Private)."""
    return [(0x7200, LONG, Placed(secret)), (0x7201, LONG, len(secret)), (0x7221, LONG, 12345), *more]


def arw(artist=b"Anna", private=None, gap=0, behind=b""):
    return tiff(entries(b"SONY", artist, (0xC634, LONG, private or sony())), order="<", more=bytes(gap), behind=behind)


def srw(artist=b"Anna", gap=0):
    below = page((0xA010, LONG, Placed(b"\xbb" * 16)), (0xA011, LONG, 16))
    return tiff(page((MAKE, ASCII, b"SAMSUNG\0"), (ARTIST, ASCII, artist + b"\0"), (SUB_IFDS, LONG, below)), order="<", more=bytes(gap))


def inner(artist, text="inside"):
    return jpeg(app1(small_tiff((MAKE, ASCII, b"Panasonic\0"), (ARTIST, ASCII, artist + b"\0"))), app1_xmp(title(text)))


def rw2(artist=b"Anna", *more, gap=0, inside=None, pixels=b"\x77" * 50):
    """RW2 has the JPEG with most metadata in tag 002e, and an offset of pixels that go on to its end (ExifTool, PanasonicRaw.pm)."""
    known = [
        (0x0001, UNDEFINED, b"0310"),
        (0x0002, SHORT, 4000),
        (0x002E, UNDEFINED, inner(artist) if inside is None else inside),
        (MAKE, ASCII, b"Panasonic\0"),
        (0x0118, LONG, Placed(pixels)),
    ]
    tags = {it[0] for it in more}
    return tiff([it for it in known if it[0] not in tags] + list(more), order="<", head=b"IIU\0", more=bytes(gap))


def fuji(*more, pixels=b"\x77" * 50, gap=0):
    """What is at the pixels of a newer RAF (ExifTool, FujiFilm.pm)."""
    below = [
        (0xF001, LONG, 4000),
        (0xF007, LONG, Placed(pixels)),
        (0xF008, LONG, len(pixels)),
        (0xF00A, ASCII, b"levels of black\0"),
        *more,
    ]
    return small_tiff((0xF000, LONG, below), more=bytes(gap))


def whole_raf(artist=b"Anna", gap=0, **more):
    return raf(inner(artist), **{"directory": struct.pack(">IHHI", 1, 0x0100, 4, 7), "pixels": fuji(gap=gap), "gap": gap, **more})


MAKERS = {"dng": dng, "cr2": cr2, "nef": nef, "pef": pef, "orf": orf, "arw": arw, "rw2": rw2, "raf": whole_raf}
