"""A group of pictures of which the same is true: what SQLite found of them, what their files say, and more about each picture."""

from __future__ import annotations

import contextlib
import os
from operator import itemgetter
from collections import Counter
from dataclasses import dataclass, field
from typing import Callable, Iterator, NamedTuple, Sequence

from ...model import rest
from ...model.found import EXIF, KINDS, NAMES, XMP, XMP_FILE, lost_kinds
from ...model.records import PictureRecord
from ...model.problems import Problem
from ...model.texts import Result, Word, grouped, whole_path
from ...model.verdicts import clause, none_of, with_verb


class Basis(Word):
    """What the pictures of a group have in common. A picture can be in groups of several kinds."""

    has_reasons: bool  # whether a block of some pictures is refused

    MEANING = ("meaning",)
    FIELDS = ("fields",)  # the meaning but for the fields left out, by the listing of fields, which is tested and not proved
    BYTES = ("bytes", True)
    REPAIR = ("repair", True)  # joins pictures of earlier groups, and has one of each
    CODED_PICTURE = ("coded picture",)  # the metadata may differ
    FILE = ("file",)  # all bytes of their files


OTHERS = (Basis.CODED_PICTURE, Basis.FILE)  # which say nothing about how metadata were compared


class Shared(NamedTuple):
    """What SQLite found that some pictures have in common."""

    basis: Basis
    kinds: tuple[str, ...]
    is_partial: bool = False  # they are the same but for fields that are left out
    has_choice: bool = False  # whether fields may be left out


class Link(NamedTuple):
    """A further name of a picture."""

    path: bytes
    of: bytes
    how: str = "the same file by another name"

    @classmethod
    def to(cls, path: bytes, of: bytes) -> "Link":
        """A further name, looked at."""
        if os.path.islink(path):
            return cls(path, of, "a symbolic link to it")
        if os.path.realpath(path) == os.path.realpath(of):
            return cls(path, of, "the same file through a linked folder; to delete it deletes the picture")
        return cls(path, of, "a hard link to it")


@dataclass
class Files:
    """The files of some pictures, as they are now."""

    pictures: list[PictureRecord] = field(default_factory=list)  # different files that are there as they were looked at
    links: list[Link] = field(default_factory=list)
    gone: list[bytes] = field(default_factory=list)
    changed: list[bytes] = field(default_factory=list)

    def only(self, pictures: list[PictureRecord]) -> "Files":
        """These pictures, with their further names."""
        here = {it.path for it in pictures}
        return Files(pictures, [it for it in self.links if it.of in here], self.gone, self.changed)


@dataclass
class Group:
    """Pictures of which the same is true."""

    shared: Shared
    files: Files
    reasons: dict[int, str] = field(default_factory=dict)  # the refusals or repairs of a picture, by its number
    others: dict[int, int] = field(default_factory=dict)  # how many more pictures an earlier group has, of which this picture is one
    not_read: str = ""  # the parts that were not read, and have the same bytes

    @property
    def basis(self) -> Basis:
        """What they have in common."""
        return self.shared.basis

    @property
    def result(self) -> Result | None:
        """What `changed` says of two of its pictures, where that isn't simply the same."""
        return Result.SAME_REPAIRED if self.basis == Basis.REPAIR else None

    @property
    def members(self) -> list[PictureRecord]:
        """The pictures that are listed."""
        return self.files.pictures

    @property
    def count(self) -> int:
        """How many pictures are listed."""
        return len(self.members)

    @property
    def digests(self) -> dict[str, str]:
        """The digest of each kind that they have, as far as it is known."""
        if self.shared.is_partial or self.basis in OTHERS:  # no digest is of what they have in common
            return {}
        first = self.members[0]
        repaired = self.basis == Basis.REPAIR and first.exif_repaired or ""
        known = zip(KINDS, first.meanings)
        return {kind: digest or repaired for kind, digest in known if kind in self.shared.kinds and digest != ""}

    @property
    def same_bytes(self) -> bool:
        """Whether their blocks are the same byte for byte."""
        of_kinds = itemgetter(*map(KINDS.index, self.shared.kinds))
        first = of_kinds(self.members[0].octets)
        return all(of_kinds(it.octets) == first for it in self.members)

    @property
    def is_wholly_read(self) -> bool:
        """Whether all of their metadata were read, and mean the same."""
        return not self.not_read and self.basis == Basis.MEANING

    def pictures(self) -> Iterator[bytes]:
        """Each picture of the group, by path."""
        return (it.path for it in self.members)

    @property
    def are_pictures(self) -> bool:
        """Whether ExifTool or a reader takes the files for pictures."""
        return self.members[0].problem != Problem.NO_PICTURE


# What the pictures of a group have in common, in a sentence.


def sentence_of(group: Group) -> str:
    """What is the same, such as `Exif and IPTC are the same byte for byte, no XMP`."""
    if group.basis == Basis.CODED_PICTURE:
        return f"the coded picture is the same; {_of_metadata(group.members)}"
    if group.basis == Basis.FILE:
        return "the files are the same byte for byte"
    if group.members[0].file:
        return _of_files(group)
    text = _of_kinds(group)
    if group.not_read:
        text += f"; not read, but the same bytes: {group.not_read}"
    return text


def _of_files(group: Group) -> str:
    if not group.are_pictures:
        return "no pictures, the same byte for byte"
    return f"the files are the same byte for byte, and not read ({group.members[0].problem or group.not_read})"


def _of_kinds(group: Group) -> str:
    """Which kinds are the same, which are refused and the same, and which no picture has."""
    known = {it: _state(group, it) for it in group.shared.kinds}
    kinds = {state: [it for it in known if known[it] == state] for state in _STATES}
    there = [NAMES[it] for it in kinds[Result.SAME]]
    parts = [f"{with_verb(there)} the same" + " byte for byte" * group.same_bytes] if there else []
    parts += [f"{NAMES[it]} is {_refused(group, it)}" for it in kinds[Result.REFUSED]]
    lost = [NAMES[it] for it in kinds[Result.NOT_KNOWN]]
    parts += [f"{with_verb(lost)} {Result.NOT_KNOWN}"] if lost else []
    return ", ".join([*parts, *none_of(kinds[Result.ABSENT])]) + ", but for the fields left out" * group.shared.is_partial


_STATES = (Result.SAME, Result.REFUSED, Result.NOT_KNOWN, Result.ABSENT)


def _state(group: Group, kind: str) -> Result | None:
    """What is known of the blocks of a kind; nothing if no picture has one, and only some fields count."""
    at = KINDS.index(kind)
    if any(picture.meanings[at] is None for picture in group.members):
        return Result.REFUSED
    if group.members[0].meanings[at]:
        return Result.SAME
    if group.shared.has_choice:
        return None
    lost = lost_kinds(group.members[0].type, group.not_read.split(", ")) if group.not_read else ()
    return Result.NOT_KNOWN if kind in lost else Result.ABSENT


def _refused(group: Group, kind: str) -> str:
    if group.basis != Basis.BYTES and kind == EXIF:
        return "the same after repair"
    return f"{Result.UNREADABLE if kind == XMP else Result.REFUSED}, the same bytes"


def _of_metadata(pictures: Sequence[PictureRecord]) -> str:
    """What is true of the metadata of pictures that may have different ones."""
    known: dict[str, list[str]] = {Result.SAME: [], Result.DIFFERENT: [], _REFUSED: [], Result.ABSENT: []}
    for number, kind in enumerate(KINDS):
        known[_of_meanings({it.meanings[number] for it in pictures})].append(kind)
    none = none_of(known.pop(Result.ABSENT))
    text = ", ".join([*(clause(kinds, word, False) for word, kinds in known.items() if kinds), *none])
    unread = {it.not_read for it in pictures}
    return text if unread != {None} and len(unread) == 1 else f"{text}; a part that was not read may differ"


_REFUSED = "refused or unreadable"


def _of_meanings(meanings: set[str | None]) -> str:
    """What the digests of some pictures say of a kind."""
    if None in meanings:
        return _REFUSED
    return Result.ABSENT if meanings == {""} else Result.SAME if len(meanings) == 1 else Result.DIFFERENT


# Which picture of a group may stay alone. The metadata of its pictures mean the same, and the pictures themselves may differ: one may be
# smaller, cropped, or cut off. So one stands for another only if both are whole and known to be equal, by the digests of `index --pixels` or by
# all bytes of their files, which are read then; and if its file has each other part of the other one's, byte for byte. A file that is no picture stands for no other: equal ones may belong to two pictures.

NOT_KNOWN = "whether its picture is that of another one isn't known: index --pixels finds out"
OTHER = "no other one has the same picture"
OTHER_PARTS = "other parts than one with the same picture: {}"  # what it has, lacks, or has otherwise
OTHER_FILE = "no other file has the same bytes, and pictures of this format aren't compared"
NO_PICTURE = "no picture, and may belong to one, as an XMP file does"
HAS_MORE = "it stays for one without other parts: {}"
NOT_ALL = "its file has other bytes that say the same"

_Key = tuple[str, str]  # what was compared, and its digest
_NO_KEY = ("", "")
_ALONE = {"file": OTHER_FILE, "picture": OTHER}  # of a picture that is equal to no other one


class Keep(NamedTuple):
    """Whether a picture stays where the others of its group go."""

    keep: bool | None = None  # False: one that stays has the same picture; None: nothing shows that it may go, or that others may
    why: str = ""  # nothing shows it
    same_as: bytes | None = None  # the picture that stays for it

    def note(self, shown: Callable[[bytes], str] = whole_path) -> str:
        """The reason for people, with a path as it is shown there."""
        return self.why or (f"the same picture as {shown(self.same_as)}" if self.same_as is not None else "")


def damaged(fault: str) -> str:
    """Why a damaged picture doesn't stay.

    >>> damaged("the file ends inside its picture")
    'damaged: the file ends inside its picture'
    """
    return f"damaged: {fault}"


class _Equals(NamedTuple):
    """Pictures that are equal by one key, in the order in which they may stay."""

    pictures: Sequence[PictureRecord]
    stays_for: dict[int, PictureRecord]  # by the number of each: the first whose file has all of its parts
    goes: dict[int, list[PictureRecord]]  # by the number of one that stays: those that go for it
    has_equal_bytes: bool


def keeping(group: Group, reads: bool = True) -> dict[int, Keep]:
    """What may be done with each picture of a group, by its number. The first of equal pictures by path stays: so of all groups that
    a picture is in, the one that stays is no later one, and a chain of groups ends at a picture that stays. One whose file has more
    parts comes first, as it may stay for one that lacks some. `reads` reads files with equal sizes."""
    members = list(filter(_is_picture, group.members))
    members.sort(key=lambda it: (-len(rest.counting_lines(it.beside)), it.path))
    keys = _keys(members, reads)
    equal = grouped((keys[it.id], it) for it in members)
    damages = _damages(members, equal)
    unknown = equal.pop(_NO_KEY, [])
    equals = {key: _equals(key, pictures) for key, pictures in equal.items()}
    alone = [*unknown, *(pictures[0] for pictures in equal.values() if len(pictures) == 1)]
    has_unknown = any(it.coded_picture is None for it in alone)
    known = {it.id: _keep(it, keys[it.id], equals, damages[it.id], has_unknown) for it in members}
    return {it.id: known.get(it.id, Keep(why=NO_PICTURE)) for it in group.members}


def _is_picture(picture: PictureRecord) -> bool:
    return picture.problem != Problem.NO_PICTURE and picture.type != XMP_FILE


def _damages(members: Sequence[PictureRecord], equal: dict[_Key, list[PictureRecord]]) -> dict[int, str]:
    """The damage of each picture, by its number; empty of one that isn't known to have any."""
    damages = {it.id: it.damage for it in members}
    for (what, _), pictures in equal.items():
        if what == "file" and len(pictures) > 1 and pictures[0].coded_picture is None:
            # nobody has looked whether it is whole
            damages.update(dict.fromkeys([it.id for it in pictures], _damage_of(pictures[0])))
    return damages


def _equals(key: _Key, pictures: Sequence[PictureRecord]) -> _Equals:
    is_file = key[0] == "file"
    fullest: rest.Fullest[PictureRecord] = rest.Fullest()
    stays_for = {it.id: pictures[0] if is_file else fullest.has_all_of(it, it.beside) for it in pictures}
    goes = grouped((stays_for[it.id].id, it) for it in pictures if stays_for[it.id] is not it)
    has_equal_bytes = is_file or len({it.sha256 or it.id for it in pictures}) == 1
    return _Equals(pictures, stays_for, goes, has_equal_bytes)


def _keep(picture: PictureRecord, key: _Key, equals: dict[_Key, _Equals], damage: str, has_unknown: bool) -> Keep:
    if damage:
        return Keep(why=damaged(damage))
    if key == _NO_KEY:
        return Keep(why=NOT_KNOWN)
    if len(equals[key].pictures) == 1:
        return Keep(why=NOT_KNOWN if has_unknown else _ALONE[key[0]])
    return _of_equal(picture, equals[key])


def _of_equal(picture: PictureRecord, same: _Equals) -> Keep:
    """One of several pictures that are equal."""
    first = same.stays_for[picture.id]
    if picture is not first:
        return Keep(False, same_as=first.path)
    if picture.id not in same.goes:
        other = next(it for it in same.pictures if it is not picture)
        return Keep(why=OTHER_PARTS.format(", ".join(rest.changes(other.beside, picture.beside))))
    changes = (rest.changes(it.beside, picture.beside) for it in same.goes[picture.id])
    if more := next(filter(None, map(rest.counting, changes)), None):
        return Keep(True, HAS_MORE.format(", ".join(more)))
    return Keep(True, "" if same.has_equal_bytes else NOT_ALL)


def _keys(members: Sequence[PictureRecord], reads: bool) -> dict[int, _Key]:
    """What is known of each picture, by its number."""
    sizes = Counter(it.size for it in members if not it.coded_picture)
    return {it.id: _key(it, reads and sizes[it.size] > 1) for it in members}


def _key(picture: PictureRecord, reads: bool) -> _Key:
    """The digest of a coded picture, or else of its file, which is read if that may help."""
    if picture.damage:
        return _NO_KEY
    if picture.coded_picture:
        return "picture", picture.coded_picture
    digest = picture.sha256 or picture.file
    if reads and not digest:
        from ...extract.formats.streams import digest_of_file  # which is seldom needed

        with contextlib.suppress(OSError):
            digest = digest_of_file(picture.path, 1 << 62)
    return ("file", digest) if digest else _NO_KEY


def _damage_of(picture: PictureRecord) -> str:
    from ...extract import coded_picture
    from ...model.budgets import Budget

    return coded_picture.of_file(picture.path, Budget()).damage
