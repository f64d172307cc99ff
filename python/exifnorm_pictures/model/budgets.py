"""What one picture may cost: how much of it is read, and how much is kept of what it has.

Pictures come from strangers. Each reader counts what it does, and stops at a limit that is far beyond any real picture: of 12,000
pictures of the packages of exiv2, ExifTool, Pillow, ImageMagick, PHP, digiKam, libexif and metadata-extractor, the largest need is given
beside each limit. At the limits a picture takes at most 256 MB, without other programs. A picture over a
limit has the problem `TooMuch`, a packet of XMP over one is unreadable, and a part over one has no digest; none is ever the same as
another. With --whole, which asks for every byte, all limits of a picture are `WHOLE` times as high.
"""

from __future__ import annotations

import time

PROGRAM_SECONDS = 60.0  # of a clock, that a program may take for one file
PROGRAM_BYTES = 1 << 30  # of the addresses of its process; need 0.1 GB
SECONDS = 5.0  # of a processor, looked at between two steps, of which the longest, parsing a packet, takes as much; need 0.09

# The limits of a picture, by the words that a message has.
BYTES_READ = "bytes read"
COPIED_BYTES = "bytes of a temporary copy"
BLOCKS = "blocks"
NOT_READ = "parts that are not read"
SEGMENTS, SEGMENT_BYTES = "segments", "bytes of segments"
CHUNKS, CHUNK_BYTES = "chunks", "bytes of chunks"
EXTENSIONS, BLOCK_BYTES = "images and extensions", "bytes of application extensions"
RESOURCES, RESOURCE_BYTES = "Photoshop resources", "bytes of Photoshop resources"
BOXES, BOX_BYTES, ITEMS, EXTENTS = "boxes", "bytes of boxes", "items", "extents of items"
DIRECTORIES, ENTRIES, VALUE_BYTES = "directories", "entries of directories", "bytes of values"
ALL_FIELDS = "fields of Exif and IPTC"
XMP_BYTES, XMP_TAGS, XMP_ATTRIBUTES = "bytes of XMP", "tags of XMP", "attributes of XMP"

LIMITS = {
    BYTES_READ: 1 << 30,  # bytes that are read twice count twice. About 3 seconds of SHA-256; need 6.8 MB
    COPIED_BYTES: 1 << 30,  # of a file object that can't seek, or that another program reads
    BLOCKS: 20_000,  # two for each page of a TIFF; need 15
    NOT_READ: 10_000,  # need 358
    SEGMENTS: 100_000,  # of a JPEG; need 37, and a profile of 16 MB has 256
    SEGMENT_BYTES: 40 << 20,  # of those that are kept: with what is made of them 200 MB of memory; need 1.7 MB
    CHUNKS: 125_000,  # of a PNG or WebP; need 678, and 100 MB in pieces of 8 kB are 13,000
    CHUNK_BYTES: 32 << 20,  # of those that are kept, and of what they inflate to; twice as much takes 321 MB of memory; need 37 kB
    EXTENSIONS: 100_000,  # of a GIF; need 85
    BLOCK_BYTES: 32 << 20,  # of application extensions that are kept; need 1 kB
    BOXES: 100_000,  # of a HEIC, CR3, JPEG XL or JPEG 2000; need 79
    BOX_BYTES: 48 << 20,  # of those that are kept; need 0.1 MB
    ITEMS: 65_536,  # pictures, tiles and metadata of a HEIC; need 51
    EXTENTS: 200_000,  # parts of these items, and references between them; need 152
    RESOURCES: 10_000,  # each is an object of Python: 2.6 million take 2.4 GB; need 64
    RESOURCE_BYTES: 48 << 20,  # of a PSD, of those that are kept; need 18 kB
    DIRECTORIES: 10_000,  # of a TIFF; need 15
    ENTRIES: 400_000,  # of all its directories; with what is kept of their places 350 bytes each; need 12,361
    VALUE_BYTES: 40 << 20,  # of these entries; twice as much takes 320 MB of memory; need 1.6 MB
    ALL_FIELDS: 300_000,  # of all blocks, of each at most `FIELDS`: about 180 bytes and 2 microseconds each; need 400
    XMP_BYTES: 64 << 20,  # of all packets; extended XMP counts once for each packet that names it; need 1.7 MB
    XMP_TAGS: 400_000,  # about 10 microseconds and 350 bytes each; need 447
    XMP_ATTRIBUTES: 100_000,  # about 20 microseconds and 600 bytes each; need 246
}
WHOLE = 64
UNREAD_BYTES = 256 << 20  # after a scan or the last chunk, for whose digest all are read: 0.8 seconds of SHA-256; need 0.1 MB
STRIPS = 1_000_000  # of a page of a TIFF whose ends are computed; each takes 36 bytes; without them the trailer isn't looked for
SCAN_SEGMENTS = 1000  # of metadata after the first scan of a JPEG; none has more than a few
PACKET_BYTES = 16 << 20  # of one packet, as of one block
NESTED = 100  # elements of a packet in one another
LANGUAGE = 100  # characters of a language of XMP, which each of its texts repeats; RFC 5646, 4.4.1 asks for 35
NAMESPACE = 256  # characters of a namespace of XMP, which each of its names repeats, as in the library; need 56
CACHED = 1000  # characters of a text that a cache keeps: it counts its texts, and a stranger's can have millions each
BLOCK_ENTRIES = 5 * 65_535  # of five directories of a block, as it may have; in a refused one each entry may name a further one; need 150
LEAST_FIELD = 5  # bytes of a field in a normal form: the head of an empty DataSet
FIELDS = 100_000  # of a block that are kept to be shown; the block is compared by its digest in any case; need 150
SHOWN_FIELDS = 50_000  # of a picture that a command prints, all its blocks together: as JSON each takes 2.4 kB of memory; need 400
SHOWN_CHARACTERS = 8 << 20  # of their values, plain and exact
ENCODED_CHARACTERS = 1 << 18  # of texts that are encoded as JSON together, which takes a multiple of their memory
COMPARED_FIELDS = 300_000  # of two pictures, those of all blocks together, and of equal pairs of blocks the differing ones; need 800
FIELD_BYTES = 4 << 20  # of the fields of a block as JSON, here and in a catalogue of others; need 8.6 kB
KEPT_BYTES = 4 << 20  # of the fields of a picture in a catalogue, all blocks together, as JSON: those of two take 130 MB; need 8.6 kB
LINES_BYTES = 3 * KEPT_BYTES  # of the same with those of short blocks, which aren't left out up to twice as many
WHOLE_FILE = 16 << 20  # bytes of a file of which no block was read, for a digest of all of it; with --whole any number
HOLES = 1 << 30  # bytes of the holes of a file of which a digest is made: with a terabyte of them a file of 4 kB would take an hour; need 0
MENDED_BYTES = 1 << 30  # of a picture with a refused block that `mend` copies for each remedy, which may write its holes; need 100 MB
OUTPUT = 64 << 20  # bytes that another program may write about a picture
OWN_PAGES = 2 << 20  # bytes of a value from which on it has pages of its own, which the system has back when it is freed

# A catalogue may be a stranger's, too.
ROW_BYTES = 64 << 20  # of a value or a row, and of all rows of a table for one picture, which a file can let share their bytes
ROW_NUMBER = 1 << 53  # of a picture or a run, beyond which adding them could leave 64 bits
WAITING_BYTES = 1 << 20  # of rows that wait until they are written to a table together
READY_BYTES = 16 << 20  # of pictures that wait until they are committed together
SQL_STEPS = 1_000_000  # of SQLite until Python heeds a signal: some milliseconds

_OFTEN = 15  # after so many counts the time is looked at, which takes longer than all else here


class TooMuch(Exception):
    """A picture goes over a limit. The text names it."""


class TooLong(TooMuch):
    """A picture has taken too much time of a processor."""


class Budget:
    """What one picture may still cost."""

    def __init__(
        self,
        whole: bool = False,
        seconds: float | None = None,
        most: int | None = None,
    ) -> None:
        """With `seconds` reading ends after so many of a clock, and with `most` a file with more
        bytes isn't read."""
        self.seconds, self.most = seconds, most
        self._deadline = None if seconds is None else time.monotonic() + seconds
        self.times = WHOLE if whole else 1
        self.left = {what: most * WHOLE for what, most in LIMITS.items()} if whole else LIMITS.copy()
        self.small_packets = 4  # of XMP that aren't counted, because counting takes time for each usual picture
        self.small_forms = LEAST_FIELD * FIELDS  # bytes of normal forms whose fields aren't counted, for the same reason
        self._counts = 0
        self._ends = 0.0  # the clock starts when it is first looked at, which most pictures never need

    def spend(self, what: str, number: int = 1) -> None:
        """Counts more of something. Raises `TooMuch`, at times also if the picture has taken too long."""
        left = self.left[what] = self.left[what] - number
        if left < 0:
            raise TooMuch(f"more than {LIMITS[what] * self.times:,} {what}")
        self._counts += 1
        if not self._counts & _OFTEN:
            self.check_time()

    def check_time(self) -> None:
        """Raises `TooLong` if the picture has taken too much time of a processor, or of the clock."""
        self.check_clock()
        now = time.thread_time()
        self._ends = self._ends or now + SECONDS * self.times
        if now > self._ends:
            raise TooLong(f"more than {SECONDS * self.times:g} seconds of a processor")

    def check_clock(self) -> None:
        """The same of the clock alone."""
        if self._deadline is not None and time.monotonic() > self._deadline:
            raise TooLong(f"more than {self.seconds:g} seconds")

    def again(self) -> "Budget":
        """The same limits for a further step of one picture, whose time is that of this one."""
        budget = Budget(self.times > 1, self.seconds, self.most)
        budget._deadline = self._deadline
        return budget

    def stop_clock(self) -> None:
        """Ends the time of the clock, once the picture is read."""
        self._deadline = None

    def check_size(self, size: int) -> None:
        """Raises `TooMuch` for a file of more bytes than are read."""
        if self.most is not None and size > self.most:
            raise TooMuch(f"more than {self.most:,} bytes")

    def may_digest(self, count: int) -> bool:
        """Whether so many bytes after a picture may be read for a digest."""
        return count <= UNREAD_BYTES * self.times


def budget_of(stream: object) -> Budget:
    """The budget of a picture that is open; a new one for a stream without."""
    return getattr(stream, "budget", None) or Budget()
