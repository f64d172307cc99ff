"""Small blocks for the tests of the package exifnorm, and one whose normal form is too long."""

import functools

import exifnorm
from meanings import LIMIT, SHORT, Exif, Layout, Value, laid

ONE = bytes.fromhex("4d4d002a00000008 0001 0112 0003 00000001 00060000 00000000")  # one field, in normal form
LOOP = ONE[:-4] + bytes.fromhex("00000008")  # its directory follows itself
CAPTION = b"\x1c\x02\x78\x00\x04Vase"


def normal(block):
    """That of the package, which is another function by ctypes than by the extension module."""
    return exifnorm.normal(block)


OF_BLOCK = (exifnorm.kind, normal, exifnorm.digest, exifnorm.show, exifnorm.fields, exifnorm.captions)


@functools.lru_cache(maxsize=None)
def long_form():
    """A block whose form is too long: numbers of RowsPerStrip take two bytes here, and four in the form."""
    return laid(Exif({0x0116: Value(SHORT, [*range(1000), *bytes(LIMIT // 4)])}), Layout("<"))


def outcome(call, *arguments):
    """The result of a call, or the name of its exception, with its values."""
    try:
        return call(*arguments)
    except Exception as why:  # each kind of exception is a possible outcome
        return type(why).__name__, *why.args
