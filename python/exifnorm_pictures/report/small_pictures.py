"""The small pictures of a report. Each is made once for one coded picture, and has its digest and its Orientation as a name: so copies have one
together, and a report takes those that are in the folder of the earlier one."""

from __future__ import annotations

import base64
import exifnorm
import hashlib
import importlib.util
import os
import re
import select
import struct
import subprocess
import sys
from itertools import islice
from pathlib import Path
from typing import Iterable, NamedTuple, Optional, Protocol, Sequence

from ..catalogue.store import Catalogue
from ..extract import coded_picture, extraction, programs
from ..files import opening
from ..files.folders import NewFolder
from ..files.session import Session
from ..model.budgets import Budget, TooMuch
from ..model.found import EXIF
from ..model.records import Stamp, is_as_before
from . import shrinking


_PIECE, _MOST_PIECES = 1 << 20, 64  # bytes of a file at a time, and how many such pieces are compared
_MOST_KNOWN = 10_000  # files and digests that are kept in memory
_ORIENTATIONS = range(1, 9)


class Kept(Protocol):
    """Where small pictures are kept."""

    SOURCES: str  # what a content security policy has to allow
    symbols: "list[Symbol]"  # the pictures that the page itself has

    def address(self, name: str) -> str:
        """The address of a small picture; empty if it isn't there yet. Raises `OSError`."""

    def put(self, name: str, octets: bytes) -> str:
        """Keeps a small picture, and returns its address. Raises `OSError`."""


class Symbol(NamedTuple):
    """A small picture that a page has once."""

    name: str
    data: str
    width: int
    height: int


class InPage:
    """Small pictures as data of the page itself."""

    SOURCES = "data:"

    def __init__(self) -> None:
        self._addresses: dict[str, str] = {}  # of the pictures of one page, which are few
        self.symbols: list[Symbol] = []

    def address(self, name: str) -> str:
        return self._addresses.get(name, "")

    def put(self, name: str, octets: bytes) -> str:
        """Keeps a picture once, however often the page shows it."""
        address = self._addresses[name] = f"#picture-{len(self.symbols)}"
        size = _FRAME.search(octets)
        height, width = (int.from_bytes(it, "big") for it in size.groups()) if size else (3, 4)
        data = f"data:image/jpeg;base64,{base64.b64encode(octets).decode('ascii')}"
        self.symbols.append(Symbol(address[1:], data, width, height))
        return address


_FRAME = re.compile(rb"\xff[\xc0-\xc3].{2}\x08(..)(..)", re.S)  # the head of a JPEG's frame


class InFolder:
    """Small pictures as files of a folder, beside its pages."""

    SOURCES = "'self' file:"  # a page that is opened as a file has no origin in some browsers

    def __init__(self, folder: NewFolder) -> None:
        self._folder = folder
        self.symbols: list[Symbol] = []

    def address(self, name: str) -> str:
        return name if self._folder.has(name) else ""

    def put(self, name: str, octets: bytes) -> str:
        self._folder.write(name, octets)
        return name


class _Source(NamedTuple):
    """What a small picture is made from: its digest, and the embedded thumbnail if that was looked for."""

    digest: str
    embedded: bytes | None = None


class SmallPictures:
    """Makes and finds small pictures. Close it."""

    def __init__(self, catalogues: Sequence[Catalogue], kept: Kept, session: Session | None = None) -> None:
        """`catalogues` may know the digests of coded pictures."""
        self._catalogues, self._kept, self._session = catalogues, kept, session
        self._shrinker = Shrinker(session is None or session.programs)
        self.has_pillow = self._shrinker.is_there
        self._failed: set[str] = set()
        self._known: dict[bytes, str] = {}

    def close(self) -> None:
        """Ends the process that makes them."""
        self._shrinker.close()

    def of(self, paths: Iterable[bytes], compared: Iterable[bytes] = ()) -> dict[bytes, str]:
        """The addresses of the small pictures of these files, as far as there are any. Those that are `compared` with another are made from the
        picture: the thumbnail that a file has may be older."""
        whole = set(compared)
        addresses = ((path, self._known_address(path, path in whole)) for path in dict.fromkeys((*whole, *paths)))
        return {path: address for path, address in addresses if address}

    def _known_address(self, path: bytes, whole: bool) -> str:
        """The address of a small picture, which is looked for once if there are few: most pictures are in several lists."""
        address = self._known.get(path)
        if address is None:
            with opening.held(path):
                address = self._address(path, whole)
            if len(self._known) < _MOST_KNOWN:
                self._known[path] = address
        return address

    def of_digest(self, digest: str) -> str:
        """The address of a small picture that an earlier report has of a coded picture that is gone; empty without any."""
        addresses = (self._kept.address(_name(digest, turned)) for turned in _ORIENTATIONS)
        return next(filter(None, addresses), "") if digest else ""

    def _address(self, path: bytes, whole: bool) -> str:
        try:
            source = self._source(path, whole)
        except OSError:  # it isn't there, or is no regular file
            return ""
        if source.digest in self._failed:
            return ""
        turned = self._shrinker.orientation(path)
        name = _name(source.digest, turned)
        address = (self._kept.address(name) or self._new_address(path, source, name, whole)) if turned else ""
        if not address and len(self._failed) < _MOST_KNOWN:
            self._failed.add(source.digest)
        return address

    def _new_address(self, path: bytes, source: _Source, name: str, whole: bool) -> str:
        """The address of a new small picture."""
        embedded = thumbnail_of(path, self._session) if source.embedded is None else source.embedded
        octets = self._shrinker.small(path, embedded, whole)
        if not octets and self._session and (converted := as_jpeg(path, self._session)):
            octets = self._shrinker.small(path, converted)
        return self._kept.put(name, octets) if octets else ""

    def _source(self, path: bytes, whole: bool) -> _Source:
        """The coded picture of a file, as a catalogue has it; else its thumbnail, which is read sooner; else what is read of the file."""
        with opening.reading(path) as file:
            now = Stamp.of(os.fstat(file.fileno()))
        for catalogue in self._catalogues:
            known = catalogue.known(path)
            if known and known.coded_picture and known.stamp and is_as_before(known.stamp, now):
                return _Source(known.coded_picture)
        embedded = thumbnail_of(path, self._session)
        if embedded and not whole:
            return _Source(hashlib.blake2b(embedded, digest_size=32, person=b"thumbnail").hexdigest(), embedded)
        return _Source(coded_picture.of_file(path, Budget()).digest or _digest_of_file(path, now), embedded)


def _name(digest: str, orientation: int) -> str:
    return f"small-{digest}-{orientation}.jpg"


def _digest_of_file(path: bytes, stamp: Stamp) -> str:
    """The digest of all bytes of a file. One that is too long is like no other."""
    digest = hashlib.blake2b(digest_size=32, person=b"file")
    with opening.reading(path) as file:
        for octets in islice(iter(lambda: file.read(_PIECE), b""), _MOST_PIECES):
            digest.update(octets)
        if file.read(1):
            digest.update(repr((path, stamp)).encode())
    return digest.hexdigest()


CONVERTER = "heif-convert"
_BRANDS = b"heic heix heim heis hevc hevx mif1 msf1 avif avis".split()  # ISO/IEC 23008-12, 10; AV1-AVIF, 6
_LARGEST = 32 << 20  # bytes of a JPEG that is made


def as_jpeg(path: bytes, session: Session) -> bytes:
    """The main picture of a HEIC or AVIF as JPEG, turned as its own rotation says. Empty if the file is another one, if it can't be read or
    converted in time, or if heif-convert isn't installed or may not be started."""
    try:
        if not session.programs or not programs.is_there(CONVERTER) or not _is_heif(path):
            return b""
        folder = Path(session.folder())
        target = folder / "converted.jpg"
        words = [programs.needed(CONVERTER), "-q", "85", "--", os.path.abspath(os.fsdecode(path)), str(target)]
        try:
            programs.run(words, shrinking.SECONDS, str(folder))
            return _first(folder)
        finally:
            for written in folder.glob("converted*"):
                written.unlink()
    except (OSError, programs.Failed):
        return b""


def _is_heif(path: bytes) -> bool:
    with opening.reading(path) as file:
        head = file.read(12)
    return head[4:8] == b"ftyp" and head[8:12] in _BRANDS


def _first(folder: Path) -> bytes:
    """What was made: one file, or of a file with several pictures one for each, the main one first."""
    files = sorted(folder.glob("converted*.jpg"), key=lambda path: (len(path.name), path.name))
    if not files or files[0].stat().st_size > _LARGEST:
        return b""
    return files[0].read_bytes()


PATIENCE = 60  # seconds of a clock for one picture, as on a share that doesn't answer
_JPEG = b"\xff\xd8\xff"


class Shrinker:
    """The process that makes small pictures. It is started when it is needed, and again when a picture has ended it. Close it."""

    def __init__(self, may_start: bool = True) -> None:
        self.is_there = may_start and importlib.util.find_spec("PIL") is not None
        self._process: "Optional[subprocess.Popen[bytes]]" = None

    def close(self) -> None:
        """Ends the process."""
        if self._process:
            self._process.kill()
            self._process.communicate()
            self._process = None

    def orientation(self, path: bytes) -> int:
        """How a picture is turned, from 1 to 8; 1 if that isn't known, and 0 if there is no answer."""
        answer = self._answer(shrinking.ORIENTATION + path + b"\0") if self.is_there else b"\1"
        return answer[0] if len(answer) == 1 else 0

    def small(self, path: bytes, embedded: bytes, whole: bool = False) -> bytes:
        """A small picture as JPEG; empty if there is none. It is made from the embedded thumbnail, or if it should be `whole` from the picture,
        and from the other one only if that can't be done."""
        if not self.is_there:
            return embedded if embedded.startswith(_JPEG) and len(embedded) <= shrinking.LARGEST else b""
        return self._answer((shrinking.WHOLE if whole else shrinking.EMBEDDED) + path + b"\0" + embedded)

    def _answer(self, request: bytes) -> bytes:
        """The answer to a request; empty if there is none."""
        if not self._process:
            words = [sys.executable, "-E", shrinking.__file__]
            self._process = subprocess.Popen(words, stdin=subprocess.PIPE, stdout=subprocess.PIPE, stderr=subprocess.DEVNULL)
        try:
            return self._asked(self._process, request)
        except (OSError, EOFError):
            self.close()
            return b""

    @staticmethod
    def _asked(process: "subprocess.Popen[bytes]", request: bytes) -> bytes:
        """The answer to a request. Raises `EOFError` if there is none in time."""
        assert process.stdin and process.stdout
        process.stdin.write(struct.pack(">I", len(request)) + request)
        process.stdin.flush()
        if not select.select([process.stdout], [], [], PATIENCE)[0]:
            raise EOFError
        head = process.stdout.read(4)
        length = struct.unpack(">I", head)[0] if len(head) == 4 else shrinking.LARGEST + 1
        if length > shrinking.LARGEST:
            raise EOFError
        return process.stdout.read(length)


def thumbnail_of(path: bytes, session: Session | None = None) -> bytes:
    """The thumbnail in the first Exif block of a picture, as far as that can be read; empty without any."""
    try:
        block = next((it.data for it in extraction.blocks_of_file(path, session=session).of_kind(EXIF)), None)
        fields = exifnorm.fields(block) if block else []
        return next((it.values for it in fields if it.type == "JPEG" and isinstance(it.values, bytes)), b"")
    except (programs.Missing, programs.Failed, TooMuch, exifnorm.Refused, exifnorm.NormalTooLong, MemoryError):
        return b""
