"""Reads picture files that are in memory, by the reader of their format, and counts what is read of them."""

import io

from exifnorm_pictures.extract.formats import jpeg, png, raf, tiff, webp


def reader_of(octets):
    """The reader of a format. Its name is enough, so that a reader also gets files whose first bytes are damaged."""
    if octets[:2] == b"\xff\xd8":
        return jpeg.read
    if octets[:4] == b"\x89PNG":
        return png.read
    if octets.startswith(raf.START[:4]):
        return raf.read
    return webp.read if octets[:4] == b"RIFF" else tiff.read


def found_in(octets, whole=False):
    return reader_of(octets)(io.BytesIO(octets), whole)


class Counting(io.BytesIO):
    """A file that counts the bytes and the calls of its readers."""

    def __init__(self, octets):
        super().__init__(octets)
        self.octets = self.calls = 0

    def read(self, size=-1):
        found = super().read(size)
        self.octets += len(found)
        self.calls += 1
        return found
