"""XMP sidecars: which files NAME.xmp of a folder belong to which picture, and the marks that show an edit of them.

NAME.EXT.xmp belongs to the picture NAME.EXT, as darktable and digiKam name it. NAME.xmp, as Adobe's programs name it, belongs to the raw
pictures called NAME, and if there is none, to each picture called NAME. NAME_01.EXT.xmp is darktable's further version of NAME.EXT.
Letters count in either case, so a picture can have several; of more than `MOST` the rest is not read. What belongs to no picture is a file by
itself.
"""

from __future__ import annotations

import hashlib
import os
import re

from exifnorm._hints import Callable, Iterable, Iterator, NamedTuple, Sequence

from ..files import opening
from ..model.budgets import LIMITS, PACKET_BYTES, XMP_BYTES
from ..model.found import SIDECAR, XMP, Blocks, FoundBlock, NotRead, ordinal
from ..model.records import RACY, Stamp
from . import raw_files

NAME = SIDECAR
MOST = 100  # sidecars of a picture that are read; real ones have one for each of their versions
_RAW = "|".join(raw_files.ALL).encode()
_RAW_NAME = rb"\.(?:%s)\Z" % _RAW  # regular expressions, which are compiled at the first use, that of --sidecars
_PICTURE_NAME = rb"\.(?:%s|jpe?g|jpe|jfif|tiff?|png|webp|heic|heif|hif|avif|psd|psb|jxl|jp2|j2k|jpf|jpx|gif|bmp)\Z" % _RAW
_VERSION = rb"(?s:(.*)_(\d\d)(\.[^.]+)\Z)"


class Sidecar(NamedTuple):
    """A sidecar of a picture: the name of its block, and its file's name in the picture's folder; empty for all that are not read."""

    block: str
    file: bytes


class Folder:
    """The sidecars of the pictures of one folder."""

    def __init__(self, names: Iterable[bytes]) -> None:
        """Takes the names of all files of the folder."""
        self._of: dict[bytes, list[tuple[str, bytes]]] = {}  # by the picture's name in small letters
        self._further: dict[bytes, int] = {}  # sidecars of such a name that are not read
        self._known: dict[bytes, tuple[Sidecar, ...]] = {}  # those of such a name, which all pictures of the name share
        self.files: set[bytes] = set()  # the sidecars that belong to a picture
        every = sorted(names)
        sidecars = [it for it in every if it.lower().endswith(b".xmp")]
        if sidecars:
            self._pictures: dict[bytes, set[bytes]] = {}  # names in small letters, by themselves and without their extensions
            for low in {name.lower() for name in every}:
                if re.search(_PICTURE_NAME, low):
                    self._pictures.setdefault(low, set()).add(low)
                    self._pictures.setdefault(low[: low.rindex(b".")], set()).add(low)
            for sidecar in sidecars:
                self._give(sidecar)

    def _give(self, sidecar: bytes) -> None:
        """Gives a sidecar to its pictures."""
        bare = sidecar.lower()[: -len(b".xmp")]
        what, pictures = NAME, self._pictures.get(bare, set())
        if re.search(_PICTURE_NAME, bare):
            pictures = pictures & {bare}
            version = re.match(_VERSION, bare)
            if not pictures and version:
                what = f"{NAME} of version {int(version[2])}"
                picture = version[1] + version[3]
                pictures = self._pictures.get(picture, set()) & {picture}
        else:
            pictures = pictures - {bare}
            pictures = {name for name in pictures if re.search(_RAW_NAME, name)} or pictures
        for name in pictures:
            mine = self._of.setdefault(name, [])
            if len(mine) < MOST:
                mine.append((what, sidecar))
            else:
                self._further[name] = self._further.get(name, 0) + 1
            self.files.add(sidecar)

    def of(self, picture: bytes) -> tuple[Sidecar, ...]:
        """The sidecars of a picture, in a fixed order. The names of their blocks don't depend on that of the picture."""
        name = picture.lower()
        if name in self._of and name not in self._known:
            self._known[name] = tuple(self._ordered(name))
        return self._known.get(name, ())

    def _ordered(self, name: bytes) -> Iterator[Sidecar]:
        counts: dict[str, int] = {}
        for what, file in sorted(self._of[name]):
            counts[what] = counts.get(what, 0) + 1
            yield Sidecar(what if counts[what] == 1 else f"{ordinal(counts[what])} {what}", file)
        further = self._further.get(name, 0)
        if further:
            yield Sidecar(f"{further:,} further {NAME}{'s' * (further > 1)}", b"")


class Folders:
    """The sidecars of pictures anywhere, with the folders that were listed last."""

    _MOST = 64

    def __init__(self) -> None:
        self._folders: dict[bytes, Folder] = {}

    def of(self, path: bytes) -> tuple[Sidecar, ...]:
        """The sidecars of a picture; none if its folder can't be listed."""
        folder, name = os.path.split(path)
        if folder not in self._folders:
            if len(self._folders) == self._MOST:
                self._folders.clear()
            try:
                self._folders[folder] = Folder(os.listdir(folder or b"."))
            except OSError:
                return ()
        return self._folders[folder].of(name)

    def is_marked_as(self, path: bytes, then: str) -> bool:
        """Whether a picture has the sidecars that it had, as they were; the ctime of a fresh one isn't known."""
        now, before = (it.split("\n") if it else [] for it in (marks(path, self.of(path)), then))
        return len(now) == len(before) and all(map(_is_as_before, now, before))


def _is_as_before(now: str, then: str) -> bool:
    mine, earlier = now.split(" "), then.split(" ")
    return mine == earlier or (
        len(earlier) == 5 and earlier[_CHANGED] == str(RACY) and mine[:_CHANGED] + mine[4:] == earlier[:_CHANGED] + earlier[4:]
    )


def add(blocks: Blocks, path: bytes, sidecars: Sequence[Sidecar]) -> None:
    """Adds the sidecars of a picture to its blocks. One that can't be read is named. Raises `TooMuch`."""
    left = LIMITS[XMP_BYTES]
    for sidecar in sidecars:
        if not sidecar.file:
            blocks.name(NotRead(sidecar.block, ""))
            continue
        data = _content(os.path.join(os.path.dirname(path), sidecar.file), min(PACKET_BYTES, left))
        if data is None:
            blocks.name(NotRead(f"{sidecar.block} that can't be read", ""))
        else:
            left -= len(data)
            blocks.check()
            blocks.blocks.append(FoundBlock(XMP, data, sidecar.block, f"file {sidecar.file.decode('utf-8', 'backslashreplace')}"))


def with_sidecars(digest: str, path: bytes, sidecars: Sequence[Sidecar]) -> str:
    """The digest of a whole file, made into one of the file with its sidecars; empty if one of them can't be read."""
    whole = hashlib.sha256(digest.encode("ascii"))
    for sidecar in sidecars:
        data = _content(os.path.join(os.path.dirname(path), sidecar.file), PACKET_BYTES)
        if data is None:
            return ""
        whole.update(hashlib.sha256(data).digest())
    return whole.hexdigest() if digest and sidecars else digest


def _content(path: bytes, most: int) -> bytes | None:
    """The bytes of a file; None if it can't be read, or has more than this."""
    try:
        with opening.reading(path) as file:
            data = file.read(most + 1)
    except OSError:
        return None
    return data if len(data) <= most else None


_CHANGED = 3  # which number of a mark is the ctime


def marks(path: bytes, sidecars: Sequence[Sidecar], is_racy: Callable[[int, int], bool] = lambda *_: False) -> str:
    """The name, size, times and inode of each sidecar of a picture, as a text for the catalogue: empty without any.

    A file for whose mtime and ctime `is_racy` holds may be edited again without another mark; it gets a ctime that no file has.
    """
    lines = []
    for sidecar in sidecars:
        now = Stamp.at(os.path.join(os.path.dirname(path), sidecar.file)) or Stamp(0, 0, RACY, 0)
        changed = RACY if is_racy(now.modified, now.changed) else now.changed
        lines.append(f"{sidecar.file.hex()} {now.size} {now.modified} {changed} {now.inode}")
    return "\n".join(lines)


def marks_elsewhere(path: bytes, then: str, is_racy: Callable[[int, int], bool]) -> str | None:
    """The marks of the same sidecars at a picture's new place; None if one isn't there, or has another size or modification time."""
    lines = []
    for line in filter(None, then.split("\n")):
        name, *before = line.split(" ")
        try:
            now = marks(path, [Sidecar(NAME, bytes.fromhex(name))], is_racy)
        except ValueError:  # no name that a catalogue has
            return None
        if now.split(" ")[1:_CHANGED] != before[: _CHANGED - 1]:
            return None
        lines.append(now)
    return "\n".join(lines)
