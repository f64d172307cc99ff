"""The public calls of exifnorm_pictures, which the package itself has too."""

from __future__ import annotations

import contextlib
import errno
import io
import os
import re
import threading
from typing import TYPE_CHECKING, Callable, Iterator, NamedTuple, Union

from exifnorm._words import documented

from .comparison.origin import Origin, Whole
from .extract import extraction
from .extract.file_objects import BinaryFile, FileObject, own_errors, seekable
from .extract.formats.streams import File, Parts
from .fields.field import Field
from .files import opening
from .files.session import Session
from .judge.judge import judge_all
from .model.budgets import PROGRAM_SECONDS, Budget, TooMuch
from .model.found import EXIF, NAMES
from .model.problems import Problem
from .model.texts import Result
from .model.records import PictureRecord, Stamp
from .picture import Picture

if TYPE_CHECKING:
    from .comparison import wording

PathLike = Union[str, bytes, "os.PathLike[str]", "os.PathLike[bytes]"]
Source = Union[PathLike, BinaryFile]


# Errors


class NoPicture(ValueError):
    """The file is no picture that exifnorm or ExifTool knows; or, of a reader without programs, in no format that is read here."""


class NotReadable(Exception):
    """The picture could not be read: a program isn't installed or failed, or a limit was exceeded.

    `problem` is a word, such as "NeedsExifTool", "TooMuch" or "TooSlow", `detail` a sentence, and `name` the name of the picture.
    """

    def __init__(self, problem: str, detail: str, name: str) -> None:
        super().__init__(problem, detail, name)
        self.problem = str(problem)
        self.detail = detail
        self.name = name

    def __str__(self) -> str:
        return f"{self.name}: {self.detail}"


# Reading


def read(source: Source, *, name: str | None = None, whole: bool = False) -> Picture:
    """Reads the metadata of a picture from a path, or from a binary file object.

    A file object is read from its position to its end. If it can seek, only the needed parts are read, and its position is restored. If it
    can't, or decompresses, it is first copied to a temporary file of at most 1 GB. With `whole` every byte of a JPEG is read, not only its
    head and tail. No file is changed.

    Give the `name` of an upload, whose ending identifies XMP files and some raw pictures, if its file has another one or none.

    Raises OSError if the file can't be read, `NoPicture`, and `NotReadable`. A refused block raises nothing: see `Picture.refusals`. A `Reader`
    has limits, and can do without other programs.
    """
    return _read(source, _Limits(whole), name=name)


def read_bytes(data: bytes, *, name: str = "", whole: bool = False) -> Picture:
    """Reads the metadata of a picture in memory. Raises what `read` raises.

    Give the name too if you have it: its ending identifies XMP files and some raw pictures.
    """
    return _read_bytes(data, name, _Limits(whole))


class Reader:
    """Reads pictures one after another with the same limits, and with one process of ExifTool, which starts if a picture needs it. Use it in a
    `with`, at whose end that process ends.

    - `programs`: whether other programs may be started, ExifTool and exiv2. With False none is, whatever the bytes are: a file in no format that
      is read here is `NoPicture`, and a damaged one `NotReadable`
    - `seconds`: of a clock for each picture, in which other programs count too. It is looked at between two steps, so that a read may take
      somewhat longer; but a file object that doesn't return isn't left
    - `most`: the bytes of a file or a file object; a longer one isn't read
    - `whole`: whether each byte of a JPEG is read, as with `read`

    A picture over a limit is `NotReadable`, with the problem "TooMuch", or "TooSlow" if a program took too long. Several threads may use a
    reader, and wait for each other; another process can't.
    """

    def __init__(self, *, programs: bool = True, seconds: float = PROGRAM_SECONDS, most: int | None = None, whole: bool = False) -> None:
        if not seconds > 0 or (most is not None and most < 0):
            raise ValueError("a limit is above 0")
        self._limits = _Limits(whole, seconds, most)
        self._session, self._lock = Session(seconds, programs=programs), threading.Lock()
        self._is_closed = False

    def read(self, source: Source, *, name: str | None = None) -> Picture:
        """Reads a picture, as the function `read` does."""
        with self._reading() as session:
            return _read(source, self._limits, session, name)

    def read_bytes(self, data: bytes, *, name: str = "") -> Picture:
        """Reads a picture in memory, as the function `read_bytes` does."""
        with self._reading() as session:
            return _read_bytes(data, name, self._limits, session)

    @contextlib.contextmanager
    def _reading(self) -> Iterator[Session]:
        with self._lock:
            if self._is_closed:
                raise ValueError("the reader is closed")
            if self._session.pid != os.getpid():
                raise ValueError("the reader is another process's")
            with self._session.one_clock():
                yield self._session

    def close(self) -> None:
        """Ends ExifTool, if it was started. Then no picture can be read."""
        with self._lock:
            self._is_closed = True
            self._session.close()

    def __enter__(self) -> "Reader":
        return self

    def __exit__(self, *_: object) -> None:
        self.close()


class _Limits(NamedTuple):
    """How much of a picture is read: with `seconds` of a clock and `most` bytes, if they are given."""

    whole: bool = False
    seconds: float | None = None
    most: int | None = None

    def budget(self) -> Budget:
        """What a picture may cost from now on."""
        return Budget(*self)


def _read_bytes(data: bytes, name: str, limits: _Limits, session: Session | None = None) -> Picture:
    if not isinstance(data, (bytes, bytearray, memoryview)):
        raise TypeError(f"the bytes of a picture are expected, not {type(data).__name__}")
    return _read_object(io.BytesIO(bytes(data)), name or "(bytes)", limits, session)


def _read(source: Source, limits: _Limits, session: Session | None = None, name: str | None = None, compares: bool = False) -> Picture:
    """Reads a picture. With `compares` what is compared of a file object besides its metadata is read too."""
    if not isinstance(source, (str, bytes, os.PathLike)):
        with own_errors():
            is_file = hasattr(source, "read")
        if not is_file:
            raise TypeError(f"a path or a binary file is expected, not {type(source).__name__}; of bytes read_bytes reads a picture")
        with own_errors():
            nothing, given = source.read(0), getattr(source, "name", "")
            own = str(os.fsdecode(given)) if isinstance(given, (str, bytes)) else ""
        if not isinstance(nothing, (bytes, type(None))):
            raise TypeError("a binary file is expected: open it in binary mode")
        return _read_object(source, name or own or "(file)", limits, session, compares)
    try:
        path = os.fsencode(source)
    except UnicodeEncodeError:
        raise OSError(errno.EINVAL, "no file has such a name", source) from None
    try:
        number, size = opening.opened(path)
    except OSError as error:
        if os.path.isdir(path):
            raise IsADirectoryError(errno.EISDIR, os.strerror(errno.EISDIR), os.fspath(source)) from None
        error.filename = os.fspath(source)  # as open() has it
        raise
    origin = Origin(path, Stamp.of(os.fstat(number)))
    called = _octets(name) if name else path
    return _picture(lambda: File(number, size, limits.budget(), path), called, limits.whole, origin, session)


def _read_object(source: BinaryFile, name: str, limits: _Limits, session: Session | None, compares: bool = False) -> Picture:
    path = _octets(name)
    try:
        budget = limits.budget()
        with seekable(source, budget) as file:
            origin = Origin()
            picture = _picture(lambda: FileObject(file, budget.again()), path, limits.whole, origin, session)
            if compares:
                origin.keep(Whole.of(lambda budget: FileObject(file, budget), path))
            return picture
    except TooMuch as why:
        raise NotReadable(Problem.TOO_MUCH, str(why), name) from None


def _octets(name: str) -> bytes:
    """The name of a file object, or of bytes, as that of a file. What no file's name has is `?`.

    >>> _octets("a\\udcff.jpg"), _octets("a\\ud800.jpg")
    (b'a\\xff.jpg', b'a?.jpg')
    """
    return os.fsencode(re.sub("[\ud800-\udc7f\udd00-\udfff]", "?", name))


def _picture(opened: Callable[[], Parts], path: bytes, whole: bool, origin: Origin, session: Session | None) -> Picture:
    name = os.fsdecode(path)
    cause = None
    try:
        file = opened()
        blocks = extraction.blocks_in(file, path, whole, session)
        records = [] if blocks.problem else judge_all(blocks)
        file.budget.stop_clock()
    except (OSError, MemoryError):
        raise
    except Exception as error:
        blocks, records = extraction.failed(error), []
        cause = error if blocks.problem == Problem.INTERNAL_ERROR else None
    if blocks.problem == Problem.NO_PICTURE:
        raise NoPicture(f"{name}: {blocks.detail}")
    if blocks.problem:
        raise NotReadable(blocks.problem, blocks.detail, name) from cause
    return Picture(path, blocks, records, origin)


# Comparing


@documented
class Difference(NamedTuple):
    """A field that differs between two pictures.

    - `name`: its name with its group
    - `before`: its fields in the first picture, several of a DataSet that is repeated; None if there is no such field
    - `after`: the same in the second picture
    - `is_equal_number`: whether both have equal numbers that are only written otherwise
    - `note`: a sentence in place of the values, as for a MakerNote
    """

    name: str
    before: tuple[Field, ...] | None
    after: tuple[Field, ...] | None
    is_equal_number: bool
    note: str

    def __str__(self) -> str:
        if self.note:
            return f"{self.name}: {self.note}"
        both = ["; ".join(it.text for it in side) if side else "(none)" for side in (self.before, self.after)]
        if both[0] == both[1]:
            both = ["; ".join(it.exact for it in side) if side else "(none)" for side in (self.before, self.after)]
        return f"{self.name}: {both[0]} -> {both[1]}"


@documented
class Comparison(NamedTuple):
    """Two pictures compared.

    - `same`: True, False, or None if it isn't known: a file is damaged and no difference is known, a block is refused, a part was not read, or
      only the place of a MakerNote differs
    - `result`: the result as `changed` prints it
    - `note`: a sentence about each kind of block
    - `differences`: the fields that differ
    - `picture`: whether the data are equal from which the pixels are decoded: "the same", "the same but for other parts",
      "other", "damaged", "damaged before" or "damaged before and after"; "not read in files with other bytes" if there is no reader for these
      data; "not compared" if the formats differ, or a file is gone
    - `proved`: the proved answer of `exifnorm.jpeg_same_blocks` for the Exif and IPTC in the heads of two JPEGs: "same", "different", or "not wholly
      read" (the same as far as they were read). None if there is no answer: a file is gone or is no JPEG, its head is damaged, or a block is
      refused
    - `proved_with_xmp`: the same of `exifnorm.jpeg_same`, for Exif, IPTC and XMP. "not wholly read" also if the library doesn't read a packet
      of XMP that is read here, as one in a rare form

    A comparison has no truth value, because it has three results. Test `comparison.same is True`.
    """

    same: bool | None
    result: str
    note: str
    differences: tuple[Difference, ...]
    picture: str
    proved: str | None
    proved_with_xmp: str | None = None

    def __bool__(self) -> bool:
        raise TypeError("a comparison has three results: look at .same, which is True, False or None")


def compare(before: Picture | Source, after: Picture | Source, *, ask_exiftool: bool = False) -> Comparison:
    """Compares two pictures, as the command does: their Exif, IPTC and XMP, and the data from which their pixels are decoded.

    Each is a `Picture`, or what `read` takes. Raises what `read` raises. The pixels of a `Picture` are compared if it was read from a path and
    the file is unchanged; of one that was read from bytes or a file object only the metadata are compared. With `ask_exiftool` ExifTool
    compares the values of MakerNotes that have moved, if both are files.
    """
    from .comparison import two_pictures  # which not every program needs
    from .comparison.coded import Coded

    pair = [it if isinstance(it, Picture) else _read(it, _Limits(), compares=True) for it in (before, after)]
    (first, head), (second, other_head) = ((_with_pixels(it), whole and whole.head) for it in pair for whole in [it._origin.whole()])
    are_files = all(it._origin.path for it in pair)
    with Session() as session:
        comparison = two_pictures.compare(first, second, session if ask_exiftool and are_files else None, heads=(head, other_head))
    compared = comparison.compared
    proved, with_xmp = (it and str(it) for it in comparison.proved)
    if comparison.is_identical:
        return Comparison(True, str(Result.SAME), "the two files are identical, byte for byte", (), str(Coded.SAME), proved, with_xmp)
    differences = tuple(map(_difference, compared.changes))
    return Comparison(
        compared.result.decided,
        str(compared.result),
        compared.note,
        differences,
        str(compared.picture),
        proved,
        with_xmp,
    )


def _with_pixels(picture: Picture) -> PictureRecord:
    """The record of a picture with the digests of its coded picture and of the file, if this is still the one that was read."""
    whole, record = picture._origin.whole(), picture._record
    if not whole:
        return record
    (coded, beside, damage), sha256, _ = whole
    file = "" if all(it.digest for it in record.unread) else sha256
    return record._replace(coded_picture=coded, beside=beside, damage=record.damage or damage, sha256=sha256, file=file)


def _difference(change: wording.FieldDifference) -> Difference:
    block = change.block or NAMES.get(change.directory, NAMES[EXIF])
    before, after = (tuple(it._in_block(block) for it in side) or None for side in (change.before, change.after))
    return Difference(change.name, before, after, change.is_equal_number, change.note)
