"""What is new in an archive between two nights, counted by what it means for its pictures, with the first names of each."""

from __future__ import annotations

import hashlib
import os
from collections import Counter
from dataclasses import dataclass, field
from typing import Iterable, Iterator, Mapping

from ...catalogue.checking import Broken, Checked
from ...catalogue.kept_texts import rows_of
from ...catalogue.store import Catalogue
from ...fields.labels import POSITION, fields_by_label
from ...files.session import Session
from ...model.problems import NOT_READABLE, Problem
from ...model.texts import Result, Word, whole_path
from ...model.records import PictureRecord, Stamp
from ...model.rest import counting
from ...scan.moved import MovedFolders, Paths
from ..changed.edit_groups import Kinds
from ..changed.states import Compared, changed, total
from ..changed.summary import standards_of
from ..coded import Coded


SHOWN = 3  # pictures of each kind of news that are named


class Kind(Word):
    """A kind of news, and what is said of one picture, and of several; {} is what the news is about. A letter has them in this order."""

    one: str
    many: str
    is_open: bool  # whether something can't be decided tonight that could be at the last whole night

    ABSENT = ("folder not there", "", "", True)
    CLOSED = ("folder not readable", "", "", True)
    LOST = ("text lost", "lost its {}", "lost their {}")
    POSITION = ("position", "shows where it was taken", "show where they were taken")
    DAMAGED = ("damaged", "is damaged", "are damaged")
    RULE = ("rule broken", "breaks {}", "break {}")
    OTHER_PICTURE = ("other picture", "has another picture", "have another picture")
    # a part of the file came, went or changed, and the coded picture isn't known to have
    PARTS = ("other parts", "with {}", "with {}")
    UNREADABLE = ("not readable", "can't be read", "can't be read", True)
    OPEN = ("not comparable", "can't be fully compared", "can't be fully compared", True)
    UNREAD = ("not wholly read", "was not wholly read, and may break a rule", "were not wholly read, and may break a rule", True)
    CHANGED = ("text changed", "has another {}", "have another {}")
    ADDED = ("text added", "now has a {}", "now have a {}")
    OTHER = ("other fields", "has other fields changed", "have other fields changed")
    # of a file of a format that isn't read, and of one whose pictures aren't read
    WRITTEN = ("other bytes", "was written to, and isn't read", "were written to, and aren't read")
    UNSEEN = (
        "other bytes, the same metadata",
        "was written to, and its picture isn't read",
        "were written to, and their pictures aren't read",
    )
    GONE = ("gone", "is gone", "are gone")
    MOVED_FOLDER = ("folder moved", "moved with its folder", "moved with their folder")
    MOVED = ("moved", "moved", "moved")
    RENUMBERED = ("renumbered", "renumbered", "renumbered")
    NEW = ("new", "is new", "are new")
    READABLE = ("readable again", "can be read again", "can be read again")


@dataclass
class News:
    """One kind of news, and what it is about: a label, a rule or a folder."""

    kind: Kind
    about: str = ""  # or a part of files and what became of it
    count: int = 0
    names: list[tuple[bytes, bytes | None]] = field(default_factory=list)  # the first ones, each with its new name if it has moved
    to: str = ""  # the new place of a folder


class Tally:
    """All news."""

    def __init__(self) -> None:
        self._news: dict[tuple[Kind, str, str], News] = {}

    def add(self, kind: Kind, name: bytes, about: str = "", to: bytes | None = None, count: int = 1, folder_to: str = "") -> None:
        """Counts a picture, or some of a folder."""
        news = self._news.setdefault((kind, about, folder_to), News(kind, about, to=folder_to))
        news.count += count
        if len(news.names) < SHOWN:
            news.names.append((name, to))

    def all(self) -> list[News]:
        """The news, the first kind first, and of each kind what is about the most pictures."""
        order = {kind: number for number, kind in enumerate(Kind)}
        return sorted(self._news.values(), key=lambda it: (order[it.kind], -it.count, it.about, it.to))


class Between:
    """What has happened between two catalogues of an archive, of the last night and of tonight."""

    def __init__(self, before: Catalogue, now: Catalogue, folders: list[bytes], session: Session) -> None:
        """Compares all pictures. Folders that aren't there are looked for below `folders`."""
        self.tally = Tally()
        self.moves: dict[bytes, bytes] = {}  # full paths
        self._renumbered: set[bytes] = set()  # those of them whose names other pictures had or have
        self.coded: "Counter[Coded]" = Counter()
        self.pictures = 0
        self.with_news = 0
        self.kinds = Kinds()
        self._sides = (before, now)
        roots = [it.roots() for it in self._sides]
        is_one = all(len(it) <= 1 for it in roots)  # then names are below it, as `Pairs` has them
        self._roots = [it[0] if is_one and it else b"" for it in roots]
        self.absent = Absent(folders)
        counts: "Counter[Result]" = Counter()
        for comparison in changed(before, now, counts, session=session, pictures=self.coded):
            self.with_news += self._add(comparison)
        self.pictures = total(counts)
        self._settle()

    def shown(self, path: bytes, side: int = 1) -> bytes:
        """The name of a picture or a folder, by its full path."""
        root = self._roots[side]
        return os.path.basename(path) if root and path == root else path.removeprefix(os.path.join(root, b""))

    def _full(self, side: int, name: bytes) -> bytes:
        return os.path.join(self._roots[side], name)

    def _picture(self, side: int, name: bytes) -> PictureRecord:
        return self._sides[side].picture(self._full(side, name)) or PictureRecord()

    def _texts(self, side: int, name: bytes) -> dict[str, set[str]]:
        """The texts of a picture by label, also its position, serial numbers and owner."""
        catalogue = self._sides[side]
        texts: dict[str, set[str]] = {}
        with catalogue.guarded():
            for label, text, *_ in rows_of(catalogue.blocks_with_fields(self._picture(side, name))):
                texts.setdefault(label, set()).add(text)
        texts.pop("", None)
        return texts

    # The news of a picture

    def _add(self, comparison: Compared) -> bool:
        """Counts the news of a picture; whether it has any."""
        name = comparison.name
        of_one = {Result.MISSING_BEFORE: self._came, Result.MISSING_AFTER: self._went, Result.NOT_READ: self._not_read}
        if comparison.result in of_one:
            return of_one[comparison.result](name)
        if comparison.result.no_picture:
            return False
        if comparison.moved_to is not None:
            self._moved(name, comparison.moved_to, comparison.result == Result.RENUMBERED)
        kinds = list(_kinds(comparison))
        for kind, part in kinds:
            self.tally.add(kind, comparison.moved_to or name, part)
        has_news = bool(kinds) or comparison.moved_to is not None
        return bool(comparison.changes and self._changes(comparison, bool(kinds))) or has_news

    def _came(self, name: bytes) -> bool:
        picture = self._picture(1, name)
        if picture.problem == Problem.NO_PICTURE:
            return False
        if picture.problem in NOT_READABLE:
            self.tally.add(Kind.UNREADABLE, name)
            return True
        self.tally.add(Kind.NEW, name)
        if picture.damage:
            self.tally.add(Kind.DAMAGED, name)
        if POSITION in self._texts(1, name):
            self.tally.add(Kind.POSITION, name)
        return True

    def _went(self, name: bytes) -> bool:
        """Counts a picture that isn't there, unless it seems to be on a disk that isn't: that is known once all are compared."""
        picture = self._picture(0, name)
        if picture.problem == Problem.NO_PICTURE:
            return False
        if not self.absent.add(self._full(0, name), name, picture.device):
            self.tally.add(Kind.GONE, name)
        return True

    def _moved(self, name: bytes, to: bytes, is_renumbered: bool) -> None:
        old = self._full(0, name)
        self.moves[old] = self._full(1, to)
        if is_renumbered:
            self._renumbered.add(old)
        self.absent.has_moved(old)

    def _not_read(self, name: bytes) -> bool:
        """Counts a file that wasn't read at one of two nights."""
        was, now = self._picture(0, name).problem, self._picture(1, name).problem
        if now in NOT_READABLE:
            kind = Kind.OPEN if was in NOT_READABLE else Kind.UNREADABLE
        elif now == Problem.NO_PICTURE:
            kind = Kind.DAMAGED
        elif was == Problem.NO_PICTURE:
            kind = Kind.NEW
        else:
            kind = Kind.READABLE if was and not now else Kind.OPEN
        self.tally.add(kind, name)
        return True

    def _changes(self, comparison: Compared, has_kind: bool) -> bool:
        """Counts the texts by label that a picture has lost, got or changed; or else that other fields have changed."""
        name = comparison.moved_to or comparison.name
        before, now = self._texts(0, comparison.name), self._texts(1, name)
        self.kinds.add(name, comparison.changes, standards_of(comparison))
        labels = [label for label in _labels(comparison) if before.get(label) != now.get(label)]
        for label in labels:
            kind = _kind_of_text(label, label in before, label in now)
            self.tally.add(kind, name, "" if kind == Kind.POSITION else label)
        if not labels and not has_kind:
            self.tally.add(Kind.OTHER, name)
        return True

    # Once all are compared

    def _settle(self) -> None:
        folders = MovedFolders()
        for both in self.moves.items():
            folders.add(*both)
        for old, new, pictures in folders.lines():
            self.tally.add(Kind.MOVED_FOLDER, self.shown(old, 0), whole_path(old), self.shown(new), pictures, whole_path(new))
        for old, new in self.moves.items():
            if folders.count(old, new) < 2:
                self.tally.add(Kind.RENUMBERED if old in self._renumbered else Kind.MOVED, self.shown(old, 0), "", self.shown(new))
        for folder in self.absent.settled():
            if folder.is_held:
                self.tally.add(Kind.ABSENT, self.shown(folder.path, 0), whole_path(folder.path), count=folder.count)
                self.with_news -= folder.count
            else:
                for name in folder.names:
                    self.tally.add(Kind.GONE, name, count=0)
                self.tally.add(Kind.GONE, folder.names[0], count=folder.count)


def _kinds(comparison: Compared) -> Iterator[tuple[Kind, str]]:
    """What a comparison itself says, besides the fields; of each part of the file by itself."""
    kind = _OF_CODED.get(comparison.picture, Kind.PARTS)
    yield from ((kind, part) for part in (counting(comparison.parts) if kind == Kind.PARTS else [""]))
    if comparison.result in _OF_FILES:
        yield _OF_FILES[comparison.result], ""
    elif comparison.result.is_open and comparison.result not in (Result.DAMAGED, Result.DAMAGED_BEFORE):
        yield Kind.OPEN, ""


def _kind_of_text(label: str, was_there: bool, is_there: bool) -> Kind:
    """What has become of the texts of a label, which aren't as they were."""
    if not is_there:
        return Kind.LOST
    if was_there:
        return Kind.CHANGED
    return Kind.POSITION if label == POSITION else Kind.ADDED


_OF_FILES = {Result.FILE_DIFFERENT: Kind.WRITTEN, Result.OTHER_BYTES: Kind.UNSEEN}
_OF_CODED = {Coded.DAMAGED: Kind.DAMAGED, Coded.DAMAGED_BEFORE: Kind.READABLE, Coded.OTHER: Kind.OTHER_PICTURE}


def _labels(comparison: Compared) -> list[str]:
    """The labels of which a field differs. What may be behind the end of a file that is cut off isn't known to differ."""
    names = {change.name.partition(" (")[0] for change in comparison.changes}
    return [label for label, fields in fields_by_label().items() if not names.isdisjoint(fields)]


_NAMED = 3  # pictures of a folder


@dataclass
class Folder:
    """A folder in which there is no file any more, and its pictures that weren't found elsewhere."""

    path: bytes
    count: int = 0
    names: list[bytes] = field(default_factory=list)  # of the first ones
    is_held: bool = True  # False: a picture of it was found elsewhere, so somebody has emptied it


class Absent:
    """The folders that are absent, by pictures that are gone."""

    def __init__(self, tops: Iterable[bytes]) -> None:
        self._tops = [os.path.abspath(it) for it in tops]
        self._have_files: dict[bytes, bool] = {}
        self._folders: dict[bytes, Folder] = {}
        self._left: set[bytes] = set()  # absent folders that a picture has left for another place

    def add(self, path: bytes, name: bytes, device: int | None) -> bool:
        """Counts a picture that is gone with its folder; False if its folder is there: also an empty one on the device that the picture was on,
        since the folder of a disk that isn't mounted is on another one."""
        place = self._absent(path)
        if place is None or _device_of(os.path.dirname(path)) == device is not None:
            return False
        folder = self._folders.setdefault(place, Folder(place))
        folder.count += 1
        if len(folder.names) < _NAMED:
            folder.names.append(name)
        return True

    def has_moved(self, path: bytes) -> None:
        """Notes a picture that was found elsewhere."""
        place = self._absent(path)
        if place is not None:
            self._left.add(place)

    def settled(self) -> list[Folder]:
        """The folders, once all pictures are known."""
        for folder in self._folders.values():
            folder.is_held = folder.path not in self._left
        return list(self._folders.values())

    def hold(self, before: Catalogue, now: Catalogue) -> None:
        """Keeps what was known of the pictures in absent folders, as if nobody had looked for them: they may be there tomorrow."""
        held = [it.path for it in self.settled() if it.is_held]
        if not held:
            return
        with now.attached(before.name, "last"), now.transaction():
            for path in held:
                start = path.rstrip(b"/") + b"/"
                now.base.execute(_HOLD, (start, start[:-1] + b"0"))

    def _absent(self, path: bytes) -> bytes | None:
        """The highest folder above a picture in which there is no file any more, within what is looked at."""
        top = next((it for it in self._tops if path.startswith(it.rstrip(b"/") + b"/")), None)
        folder, absent = os.path.dirname(path), None
        while top is not None and len(folder) >= len(top) and not self._has_files(folder):
            absent = folder
            folder = os.path.dirname(folder)
        return absent

    def _has_files(self, folder: bytes) -> bool:
        if folder not in self._have_files:
            self._have_files[folder] = any(names for _, _, names in os.walk(folder))
        return self._have_files[folder]


def _device_of(folder: bytes) -> int | None:
    stamp = Stamp.at(folder)
    return stamp.device if stamp else None


_HOLD = """UPDATE main.pictures SET (problem, detail, run) = (SELECT problem, detail, run FROM last.pictures AS old WHERE old.path = main.pictures.path)
    WHERE path > ? AND path < ? AND EXISTS (SELECT 1 FROM last.pictures AS old WHERE old.path = main.pictures.path)"""


def newly_broken(before: Checked, now: Checked, moves: Mapping[bytes, bytes]) -> Iterator[Broken]:
    """What breaks a rule now and didn't before, in memory that doesn't grow with it. A picture that moved is the same one."""
    was = Paths()
    for broken in before.broken():
        was.add(_key(broken, moves.get(broken.path, broken.path)))
    yield from (it for it in now.broken() if _key(it, it.path) not in was)


def _key(broken: Broken, path: bytes) -> bytes:
    about = (path, broken.number, broken.label, broken.text)
    return hashlib.sha256(repr(about).encode("utf-8", "surrogatepass")).digest()


def newly_unread(before: Checked, now: Checked, moves: Mapping[bytes, bytes]) -> Iterator[bytes]:
    """The pictures that weren't wholly read, so that they may break a rule, and of which that wasn't so before."""
    was = Paths()
    for path in before.paths_not_known():
        was.add(moves.get(path, path))
    yield from (path for path in now.paths_not_known() if path not in was)
