"""The file of a picture that was read, and what is compared of it besides its metadata."""

from __future__ import annotations

import contextlib
import exifnorm
from exifnorm._hints import TYPE_CHECKING, Callable, NamedTuple, Optional

from ..extract.formats.jpeg import START
from ..extract.formats.jpeg_segments import read_head
from ..extract.formats.streams import File, Parts, digest_of
from ..files import opening
from ..model.budgets import Budget, TooMuch
from ..model.records import Stamp, is_marked_as
from ..model.texts import Result

if TYPE_CHECKING:
    from ..extract.coded_picture import CodedPicture


Head = Optional[bytes]


class Answers(NamedTuple):
    """The answers for two JPEGs.

    - `blocks`: for their Exif and IPTC
    - `all`: for these and XMP

    Each is `SAME`, `DIFFERENT`, or `NOT_WHOLLY_READ`: the same as far as both were read. None if the library has no answer: one of the two is no
    JPEG, has a damaged head or a block that is refused, or can't be read.
    """

    blocks: Result | None
    all: Result | None


def answers(head: Head, other: Head) -> Answers:
    """What the library says of two heads; None stands for the head of a file that is no JPEG."""
    if head is None or other is None:
        return Answers(None, None)
    return Answers(_answer(exifnorm.jpeg_same_blocks, head, other), _answer(exifnorm.jpeg_same, head, other))


def _answer(call: Callable[[bytes, bytes], bool | exifnorm.NotRead], head: bytes, other: bytes) -> Result | None:
    try:
        result = call(head, other)
    except exifnorm.PictureRefused:
        return None
    if isinstance(result, exifnorm.NotRead):
        return Result.NOT_WHOLLY_READ
    return Result.SAME if result else Result.DIFFERENT


def head_of(picture: Parts) -> bytes | None:
    """The first bytes of a JPEG, which have all of its head; None of another file, and of a head that goes over a limit."""
    picture.seek(0)
    if picture.read(len(START)) != START:
        return None
    try:
        return read_head(picture, 0, picture.budget).octets
    except TooMuch:
        return None


def head_of_file(path: bytes) -> bytes | None:
    """The same of a file; None if it can't be read."""
    try:
        with contextlib.closing(File(*opening.opened(path), Budget())) as file:
            return head_of(file)
    except OSError:
        return None


class Whole(NamedTuple):
    """What is compared of a file besides its metadata."""

    coded: CodedPicture
    sha256: str
    head: bytes | None  # of a JPEG

    @classmethod
    def of(cls, opened: Callable[[Budget], Parts], name: bytes) -> "Whole":
        """That of a file, which is opened several times."""
        from ..extract import coded_picture  # which only those need that compare

        with contextlib.closing(opened(Budget())) as file:
            coded = coded_picture.of_stream(file, file.budget, name)
        with contextlib.closing(opened(Budget())) as file:
            head = head_of(file)
        with contextlib.closing(opened(Budget(whole=True))) as file:
            return cls(coded, digest_of(file, 0, file.size), head)


class Origin:
    """The file of a picture, if it was read by a path, and its marks then."""

    def __init__(self, path: bytes = b"", stamp: Stamp | None = None) -> None:
        self.path, self.stamp = path, stamp
        self._whole: Whole | None = None

    def keep(self, whole: Whole) -> None:
        """Keeps that of a file object, which is there only while it is read."""
        self._whole = whole

    def whole(self) -> Whole | None:
        """What is compared of the file, if it is still the one that was read."""
        if not self._whole and self._is_unchanged():
            with contextlib.suppress(OSError, TooMuch):
                whole = Whole.of(lambda budget: File(*opening.opened(self.path), budget), self.path)
                self._whole = whole if self._is_unchanged() else None
        return self._whole

    def _is_unchanged(self) -> bool:
        now = Stamp.at(self.path)
        return now is not None and self.stamp is not None and is_marked_as(now, self.stamp[:4])
