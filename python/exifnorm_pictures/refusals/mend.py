"""`mend`: a copy of a picture with accepted blocks, by the least invasive remedy that works. The picture is never changed."""

from __future__ import annotations

import contextlib
import functools
import os
import re
import struct
import tempfile
import zlib
from collections import Counter
from dataclasses import dataclass, field
from operator import itemgetter
from typing import BinaryIO, Callable, NamedTuple, Sequence

from ..extract import coded_picture, programs
from ..extract.extraction import blocks_of_file
from ..extract.formats.streams import File, digests
from ..files import atomic, opening
from ..files.session import Session
from ..judge import repairs
from ..judge.judge import judge_all
from ..model.budgets import MENDED_BYTES, Budget, TooMuch
from ..model.found import EXIF, REST, SIX, Blocks, Broken, FoundBlock, cut, damage
from ..model.steps import Steps, loses
from ..model.texts import Word, ending_of, reason, shown_path

# A picture in which repaired Exif blocks replace the refused ones. All other bytes of the file stay as they are.

_PIECE = 1 << 20  # bytes that are searched at once


class Change(NamedTuple):
    """Bytes of a file that others replace, and where they are."""

    at: int
    old: bytes
    new: bytes


def changes(picture: BinaryIO, kind: str, blocks: Sequence[FoundBlock]) -> tuple[list[Change], Steps] | None:
    """What replaces the refused Exif blocks of a file, in the order of the file, and the steps of the repairs. None if a block can't be
    repaired or isn't found in the file. Raises `TooLong`.

    `kind` is the type of the file: JPEG, PNG or WEBP. It is read in pieces.
    """
    wrap = _WRAPPERS.get(kind)
    if wrap is None:
        return None
    replaced, steps = [], ()  # type: list[Change], Steps
    for block in dict.fromkeys(it.data for it in blocks if it.kind == EXIF):
        repair = repairs.repaired(block)
        if not repair:
            return None
        if repair.steps:
            change = _change(picture, wrap, block, repair.block)
            if not change:
                return None
            replaced.append(change)
            steps += repair.steps
    if kind == "WEBP" and replaced:
        replaced.append(_length(picture, replaced))
    replaced.sort()
    if any(one.at + len(one.old) > other.at for one, other in zip(replaced, replaced[1:])):
        return None  # one block is in another
    return (replaced, steps) if steps else None


def write(picture: BinaryIO, replaced: Sequence[Change], copy: BinaryIO) -> None:
    """Writes a copy with these changes to an empty file. Holes stay holes. Raises `OSError`."""
    source, target = picture.fileno(), copy.fileno()
    begin = at = 0
    for change in replaced:
        opening.copy_range(source, begin, change.at, target, at)
        at += change.at - begin
        at += opening.put(target, change.new, at)
        begin = change.at + len(change.old)
    opening.copy_range(source, begin, os.fstat(source).st_size, target, at)


def _change(picture: BinaryIO, wrap: Callable[[bytes], bytes], old: bytes, new: bytes) -> Change | None:
    """The place of a block and what replaces it. None unless it is in the file exactly once, in a segment or chunk of its own."""
    for head in (b"", SIX):  # which JPEG puts before a block, and some programs in WebP too
        try:
            before, after = wrap(head + old), wrap(head + new)
        except struct.error:  # the new block is too long for a segment
            return None
        places = _places(picture, before)
        if len(places) == 1:
            return Change(places[0], before, after)
    return None


def _places(picture: BinaryIO, wanted: bytes) -> list[int]:
    """Where some bytes are in a file: all places, but no more than two of each piece."""
    picture.seek(0)
    places: list[int] = []
    window, start = b"", 0
    while len(places) < 2:
        piece = picture.read(max(_PIECE, len(wanted)))
        window += piece
        first = window.find(wanted)
        second = window.find(wanted, first + 1) if first >= 0 else -1
        places += [start + it for it in (first, second) if it >= 0]
        if not piece:
            break
        kept = min(len(wanted) - 1, len(window))  # fewer bytes than are searched for, so that no place is found twice
        start, window = start + len(window) - kept, window[len(window) - kept :]
    return places


def _length(picture: BinaryIO, replaced: Sequence[Change]) -> Change:
    """The change of the number of bytes that a WebP begins with."""
    picture.seek(4)
    old = picture.read(4)
    longer = sum(len(it.new) - len(it.old) for it in replaced)
    return Change(4, old, struct.pack("<I", os.fstat(picture.fileno()).st_size + longer - 8))


# How a block is in a file: in a segment or a chunk of its own
_WRAPPERS = {
    "JPEG": lambda data: b"\xff\xe1" + struct.pack(">H", len(data) + 2) + data,
    "PNG": lambda data: struct.pack(">I4s", len(data), b"eXIf") + data + struct.pack(">I", zlib.crc32(b"eXIf" + data)),
    "WEBP": lambda data: struct.pack("<4sI", b"EXIF", len(data)) + data + bytes(len(data) % 2),
}
REPAIRED_TYPES = tuple(_WRAPPERS)  # the types of files in which blocks are replaced


class Remedy(Word):
    """How a picture was mended. The remedies are tried in this order."""

    text: str  # for people

    COPY = ("copy", "nothing to mend: a plain copy")
    REPAIR = ("repair", "the block was repaired, and the rest of the file kept")
    TOUCH = ("touch", "ExifTool added a field and removed it")
    EXIV2 = ("exiv2", "exiv2 added a field and removed it")
    REBUILD = ("rebuild", "ExifTool wrote all tags that it knows into a new block")
    NONE = ("none", "no remedy helped")


class NotWritten(Exception):
    """The copy can't be written: it exists already, or the file system refused."""


class NeedsExifTool(programs.Failed):
    """Only ExifTool can mend a picture, and isn't installed or may not be started. The text says why a repair isn't enough, and which package has it."""

    def __init__(self, kind: str, repair: "_Repair | None", may_start: bool = True) -> None:
        if repair:
            why = f"the repair of its block loses {' and '.join(loses(repair.steps))}, and ExifTool, which shows what that is,"
        else:
            known = "no repair of its block is known" if kind in REPAIRED_TYPES else f"in a {kind} file no block is repaired"
            why = f"{known}, and ExifTool, which writes it again,"
        rest = "isn't installed. In Debian: apt-get install libimage-exiftool-perl" if may_start else "may not be started"
        super().__init__(f"{why} {rest}")


@dataclass
class Mended:
    """The result: the refusals before, the remedy that worked, and the printed values that were lost or changed."""

    remedy: Remedy
    before: dict[str, str]
    lost: list[str] = field(default_factory=list)
    gained: list[str] = field(default_factory=list)
    problem: str = ""
    repairs: Steps = ()  # what was repaired
    damage: list[str] = field(default_factory=list)  # what is left of a damaged file, and was not read
    cut_off: str = ""  # where the file is cut off, in its metadata or behind them
    is_written: bool = False  # whether there is a copy


def mend(picture: bytes, out: bytes, session: Session, folder: bytes | None = None, lossless: bool = False) -> Mended:
    """Writes a copy with accepted blocks to the new file `out`. Raises `NotWritten`, `NeedsExifTool`, `programs.Failed` and `TooMuch`.

    The remedies are tried in their order. A repair that loses nothing is used, and else the first remedy that changes no printed value and no
    other part of the file; if none is, the one that loses the fewest and, among equals, adds the fewest; with `lossless` a copy that loses
    any isn't written. The values are those that
    ExifTool prints, without offsets. Without ExifTool only a repair that loses nothing is used. Temporary files are in the session's
    folder. With `folder` the folders of `out` are made; no link may lead out of it. A copy is judged before it gets its name, since another
    process may write to the picture meanwhile.
    """
    _remove_left(os.path.dirname(os.path.realpath(out)))
    if os.path.lexists(out):
        raise NotWritten("the copy is there already")
    with tempfile.TemporaryDirectory(dir=session.room) as own:
        result, file = attempt(session, picture, own)
        if file is None or (lossless and result.lost):
            return result
        if folder is not None:
            _make_folders(out, folder)

        def check(copy: bytes) -> None:
            name = os.path.join(os.fsencode(own), b"copy" + os.fsencode(ending_of(picture)))
            os.symlink(copy, name)
            written = blocks_of_file(name, session=session)
            if written.problem or _refusals(written) or (file == picture and damage(it.what for it in written.not_read) != result.damage):
                raise NotWritten("the picture was changed while it was copied")

        _put(file, picture, out, check)
    result.is_written = True
    return result


_remove_left = functools.lru_cache(maxsize=64)(atomic.remove_left)  # so that a folder of many copies is listed once


def attempt(session: Session, picture: bytes, room: str) -> tuple[Mended, bytes | None]:
    """What `mend` does with a picture, and the file that it would write, which is in the folder `room`; none if no remedy helps. Raises
    `NeedsExifTool`, `programs.Failed` and `TooMuch`."""
    taken = blocks_of_file(picture, session=session)
    if taken.problem:
        return Mended(Remedy.NONE, {}, problem=f"{taken.problem}: {taken.detail}", cut_off=taken.damage), None
    before, left = _refusals(taken), damage(it.what for it in taken.not_read)
    end = cut(left) or taken.damage
    if not before:
        return Mended(Remedy.COPY, {}, damage=left, cut_off=end), picture
    if os.stat(picture).st_size > MENDED_BYTES:
        raise TooMuch(f"more than {MENDED_BYTES:,} bytes of a picture to mend")
    repair = _repaired(session, picture, taken, room)
    if session.programs and programs.is_there("exiftool"):
        best = _best(session, picture, taken, repair, room)
    elif repair and not loses(repair.steps):
        best = (Remedy.REPAIR, repair.file, [], [])
    else:
        raise NeedsExifTool(taken.type, repair, session.programs)
    if not best:
        return Mended(Remedy.NONE, before, damage=left, cut_off=end), None
    remedy, file, lost, gained = best
    repairs = repair.steps if remedy == Remedy.REPAIR and repair else ()
    return Mended(remedy, before, lost, gained, "", repairs, left, end), os.fsencode(file)


def _make_folders(out: bytes, folder: bytes) -> None:
    """Makes the folders of a copy below a folder."""
    below, top = os.path.realpath(os.path.dirname(out)), os.path.realpath(folder)
    if os.path.commonpath([below, top]) != top:
        raise NotWritten(f"a link leads out of {shown_path(folder)}")
    try:
        os.makedirs(below, exist_ok=True)
    except OSError as error:
        raise NotWritten(reason(error)) from error


class _Repair(NamedTuple):
    """A copy with repaired blocks, and what was repaired."""

    file: str
    steps: Steps


def _repaired(session: Session, picture: bytes, taken: Blocks, room: str) -> _Repair | None:
    """A copy whose Exif blocks are repaired; none if that isn't enough, or changes anything else that is read of the file."""
    name = os.path.join(room, "repair" + ending_of(picture))
    with opening.reading(picture) as given:
        repair = changes(given, taken.type, taken.blocks)
        if not repair:
            return None
        with open(name, "xb") as copy:
            write(given, repair[0], copy)
    after = blocks_of_file(os.fsencode(name), session=session)
    if after.problem or _refusals(after) or _beside_exif(after) != _beside_exif(taken):
        return None
    return _Repair(name, repair[1])


def _beside_exif(taken: Blocks) -> list[object]:
    """What a repair of Exif must not change: the rest of a damaged file is the same wherever it begins."""
    parts = ((REST if it.what.startswith(REST) else it.what, it.digest) for it in taken.not_read)
    return [*((it.kind, it.name, it.data) for it in taken.blocks if it.kind != EXIF), *sorted(parts)]


def _put(octets: bytes, picture: bytes, out: bytes, check: Callable[[bytes], None]) -> None:
    """Writes the bytes of the file `octets` to `out`, with the times and the rights of the picture, after a check of the copy."""
    try:
        atomic.copy_new(octets, out, picture, check)
    except OSError as error:
        raise NotWritten("the copy is there already" if isinstance(error, FileExistsError) else reason(error)) from error


def _refusals(taken: Blocks) -> dict[str, str]:
    """The refusal of each block that isn't accepted, by the block's name."""
    return {it.name: it.line for it in judge_all(taken) if not it.is_accepted}


Attempt = tuple[Remedy, str, list[str], list[str]]


def _copy(source: bytes | str, name: str) -> None:
    with opening.reading(source) as given, open(name, "xb") as copy:
        opening.copy(given.fileno(), copy.fileno())


def _others(name: str, taken: Blocks) -> dict[str, str]:
    """Digests by name of what a remedy must keep: of the meaning of each accepted block without a MakerNote, which has offsets; of the coded
    picture and each part of the rest, or, if these aren't known, of the parts that were not read."""
    blocks = {it.name: it.digest or "" for it in judge_all(taken, False) if it.is_accepted and it.note is None}
    try:
        with contextlib.closing(File(*opening.opened(os.fsencode(name)), Budget(True))) as file:
            coded, found = coded_picture.followed(file, file.budget)
            if coded:
                return {
                    **blocks,
                    "coded picture": coded,
                    **digests(file, (it for it in found if it.name != "JFIF")),
                }  # which ExifTool writes anew
    except (Broken, TooMuch):
        pass
    return {**blocks, **{it.what.partition(" (")[0]: it.digest for it in taken.not_read}}


def _best(session: Session, picture: bytes, taken: Blocks, repair: _Repair | None, room: str) -> Attempt | None:
    """The remedy that loses the least. A repair that loses nothing is the best one, whatever can be read again by it; what can be read of one
    that loses something is lost if the file of another remedy doesn't have it. All that is no metadata must stay as it is."""
    suffix = ending_of(picture)
    first = os.path.join(room, "first" + suffix)
    _copy(picture, first)
    before, others = _printed(session, first), _others(first, taken)
    attempts: list[tuple[tuple[int, int], Attempt]] = []  # each by what it loses and adds
    for remedy in (Remedy.REPAIR, *_REMEDIES):
        file = os.path.join(room, remedy + suffix)
        if remedy != Remedy.REPAIR:
            _copy(first, file)
            if not _REMEDIES[remedy](session, file):
                continue
        elif not repair:
            continue
        written = blocks_of_file(os.fsencode(file), session=session)
        if written.problem or _refusals(written):
            continue
        after = _printed(session, file)
        lost, gained = sorted((before - after).elements()), sorted((after - before).elements())
        if remedy == Remedy.REPAIR:
            before |= after
        else:
            left = _others(file, written)
            lost += [f"{name}: {'changed' if name in left else 'removed'}" for name, it in others.items() if not it or left.get(name) != it]
        rank = (len(lost), 0 if remedy == Remedy.REPAIR else len(gained))
        attempts.append((rank, (remedy, file, lost, gained)))
        if rank == (0, 0):
            break
    return min(attempts, key=itemgetter(0), default=(None, None))[1]


_FREE = "PageName DocumentName HostComputer".split()


def _exiftool(session: Session, *words: str) -> programs.Done:
    return programs.run(programs.exiftool("-q", "-q", "-m", *words), session.left())


def _free_field(session: Session, name: str) -> str | None:
    """A field of the main directory that the picture doesn't have, so that adding and taking it away changes none."""
    output = _exiftool(session, "-s", *(f"-IFD0:{it}" for it in _FREE), name).stdout
    there = {line.split(b":")[0].strip().decode("ascii", "replace") for line in output.split(b"\n")}
    return next((it for it in _FREE if it not in there), None)


def _touch(session: Session, name: str) -> bool:
    """Adds and removes a field of each kind, so that both blocks are written again."""
    free = _free_field(session, name)
    if free is None:
        return False
    adding, taking = [f"-IFD0:{free}=zz"], [f"-IFD0:{free}="]
    if _exiftool(session, "-b", "-IPTC", name).stdout:
        adding.append("-IPTC:SubjectReference+=exifnorm:01000000:mend")
        taking.append("-IPTC:SubjectReference-=exifnorm:01000000:mend")
    return all(_exiftool(session, "-overwrite_original", *words, name).returncode == 0 for words in (adding, taking))


def _by_exiv2(session: Session, name: str) -> bool:
    free = _free_field(session, name)
    if free is None or not programs.is_there("exiv2"):
        return False
    call = [programs.needed("exiv2"), "-q", "-Q", "m"]
    added = programs.run([*call, "-M", f"set Exif.Image.{free} Ascii zz", name], session.left())
    return added.returncode == 0 and programs.run([*call, "-M", f"del Exif.Image.{free}", name], session.left()).returncode == 0


def _rebuild(session: Session, name: str) -> bool:
    words = ["-overwrite_original", "-all=", "-tagsfromfile", "@", "-all:all", "-unsafe", name]
    return _exiftool(session, *words).returncode == 0


_REMEDIES = {Remedy.TOUCH: _touch, Remedy.EXIV2: _by_exiv2, Remedy.REBUILD: _rebuild}
_OFFSETS = re.compile(rb"Offset|Start |Padding|IPTCDigest|XMPToolkit")  # and who wrote a packet


def _printed(session: Session, name: str) -> "Counter[str]":
    """All values that ExifTool prints, except offsets: as it prints them, and behind that exactly, since it rounds numbers for people."""
    left_out = [word for group in "System File Composite ExifTool JFIF".split() for word in ("-x", f"{group}:all")]
    output = _exiftool(session, "-a", "-u", "-s", "-G1", *left_out, "-all", "-all#", name).stdout
    lines = [re.sub(rb"\s+", b" ", it) for it in output.split(b"\n") if it]
    both = (re.sub(rb", use -b.*?(?=\)|$)", b"", it) for it in _with_numbers(lines) if not _OFFSETS.search(it))
    return Counter(it.decode("utf-8", "backslashreplace") for it in both)


def _with_numbers(lines: list[bytes]) -> list[bytes]:
    """Each value as it is printed, and exactly, from a list of the former that is followed by one of the latter.

    >>> _with_numbers([b"FocalLength : 5.4 mm", b"Make : a", b"FocalLength : 5.40625", b"Make : a"])
    [b'FocalLength : 5.4 mm (5.40625)', b'Make : a']
    """
    half = len(lines) // 2
    pairs = [(one, one.partition(b" : "), other.partition(b" : ")) for one, other in zip(lines[:half], lines[half:])]
    if len(lines) % 2 or any(shown[0] != exact[0] for _, shown, exact in pairs):
        return lines
    return [one if shown == exact else one + b" (" + exact[2] + b")" for one, shown, exact in pairs]
