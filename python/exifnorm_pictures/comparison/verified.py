"""Files read again, against a catalogue of `index --pixels`: whether the file, its picture or its metadata have changed.

An XMP sidecar, which is a block of its picture in the catalogue, is a file here, with the digest of that block.
"""

from __future__ import annotations

import contextlib
import hashlib
import io
import os
import re
import threading
from concurrent.futures import ThreadPoolExecutor
from itertools import islice
from typing import Iterable, Iterator, NamedTuple, Sequence

from ..catalogue.store import Catalogue
from ..files import opening
from ..model.records import BlockRecord, PictureRecord, Stamp, has
from ..model.budgets import HOLES
from ..model.rest import changes, counting
from ..model.errors import Damaged, WrongUse
from ..model.problems import NOT_THERE, TEXTS
from ..model.texts import Word
from ..model.verdicts import result_of, verdicts
from ..scan.index import Look, looked
from ..scan.walk import FoundFile, How, Result


class State(Word):
    """What a file is now."""

    text: str  # of how many it is true
    listed: str  # the word of --list that asks for such files
    is_good: bool | None  # whether its picture is as it was; None: nobody knows

    AS_IT_WAS = ("as they were", "unchanged: the same bytes", "", True)
    CAPTIONED = ("captioned", "captioned: other metadata, the same picture", "captioned", True)
    AGAIN = ("written again", "written again: the same metadata, the same picture", "captioned", True)
    PARTS = ("other parts", "written again: the same metadata and picture, but other parts of the file", "other")
    MOVED = ("moved", "moved: the same file under another name", "moved", True)
    RENUMBERED = ("renumbered", "renumbered: the same file under a name that another one had", "moved", True)
    OTHER = ("other picture", "edited or replaced: other picture, and a later time", "other")
    OTHER_FILE = ("other file", "written since: other bytes, in a format whose pictures aren't compared", "other")
    NOT_LISTED_SO = ("other bytes", "with other bytes than the manifest has", "other")
    ROTTED = ("DAMAGED", "DAMAGED: other bytes, though nothing was written", "damaged")
    CUT = ("cut off", "DAMAGED: the file is cut off or broken", "damaged")
    MISSING = ("missing", "missing", "missing")
    UNREADABLE = ("can't be read", "can't be read now", "unknown", None)
    NO_DIGEST = ("without a digest", "without a digest in the catalogue, so nothing is known: index --pixels adds it", "unknown", None)


class Verified(NamedTuple):
    """A file of the catalogue, and what it is now."""

    path: bytes
    state: State
    note: str = ""
    place: bytes | None = None  # where it is now, or where the same picture is
    damage: str = ""  # of the file as it is now, also if it was damaged before


_Stated = tuple[State, str]  # the state of a file, and more words about it


def state_of(before: PictureRecord, now: PictureRecord) -> _Stated:
    """The state of a file that is there, and more words about it."""
    if not now.sha256:
        return State.UNREADABLE, now.detail or TEXTS.get(now.problem or "", "")
    if not before.sha256:
        return State.NO_DIGEST, ""
    if now.sha256 == before.sha256:
        return State.AS_IT_WAS, _before(now)
    if now.damage and not before.damage:
        return State.CUT, now.damage
    if _is_of_manifest(before):
        return State.NOT_LISTED_SO, ""
    return _written(before, now)


def _written(before: PictureRecord, now: PictureRecord) -> _Stated:
    """The state of a file with other bytes."""
    is_same_picture = bool(before.coded_picture) and now.coded_picture == before.coded_picture
    if now.marks == before.marks:  # an edit has another ctime at least
        return State.ROTTED, "in its metadata" * is_same_picture
    return _written_anew(before, now) if is_same_picture else _other(before, now)


def _written_anew(before: PictureRecord, now: PictureRecord) -> _Stated:
    """The state of a file with the same coded picture."""
    same = result_of(verdicts(before.sides(), now.sides())).is_equal and before.not_read == now.not_read is not None
    parts = changes(before.beside, now.beside)
    note = "; ".join(filter(None, [_before(now), ", ".join(parts)]))
    return (State.CAPTIONED if not same else State.PARTS if counting(parts) else State.AGAIN), note


def _other(before: PictureRecord, now: PictureRecord) -> _Stated:
    """The state of a file that isn't known to have the same picture."""
    if (now.size, now.modified) == (before.size, before.modified):
        return State.ROTTED, "size and time are as before"
    return (State.OTHER, "") if before.coded_picture and now.coded_picture else (State.OTHER_FILE, "")


def _is_of_manifest(picture: PictureRecord) -> bool:
    """Whether no more is known of a file than its name and its digest: in a bag each name has its own file."""
    return picture.stamp is None and picture.coded_picture is None


def _before(now: PictureRecord) -> str:
    """What is said of damage that was there before."""
    return f"damaged before, too: {now.damage}" if now.damage else ""


def verified(before: Catalogue, now: Catalogue, folders: Sequence[bytes]) -> Iterator[Verified]:
    """Each file of a catalogue below some folders, in the order of their names, with its state in a catalogue that was made just now."""
    _make_tables(before, now)
    tops = tuple(it.rstrip(b"/") + b"/" for it in folders)
    for picture in before.pictures():
        if picture.problem in NOT_THERE or not (picture.path + b"/").startswith(tops):
            continue
        if picture.sidecars:
            blocks = before.blocks_of(picture)
            with before.guarded():
                sidecars = list(_sidecars(picture, blocks))
            for sidecar in sidecars:
                yield from _of_sidecar(before, now, sidecar)
            picture = _without_sidecars(picture, blocks)
        there = now.picture(picture.path)
        if not there or there.problem in NOT_THERE:
            yield _gone(before, now, picture)
        else:
            yield _renumbered(before, now, picture, there) or Verified(picture.path, *state_of(picture, there), damage=there.damage)


def _make_tables(before: Catalogue, now: Catalogue) -> None:
    """Makes the temporary tables of both, by which a file and its digest are found."""
    # no index of the catalogue itself, which the run that goes on from a stopped one would refuse
    now.execute(f"CREATE TABLE {_DIGESTS} (sha256, picture, PRIMARY KEY (sha256, picture)) WITHOUT ROWID")
    now.execute(f"INSERT INTO {_DIGESTS} SELECT sha256, id FROM pictures WHERE sha256 != '' ORDER BY sha256, id")
    now.execute(f"CREATE TABLE {_KNOWN} (sha256 PRIMARY KEY) WITHOUT ROWID")
    now.execute(f"CREATE TABLE {_SIDECARS} (path BLOB PRIMARY KEY, is_done INTEGER NOT NULL) WITHOUT ROWID")
    for row in before.rows("SELECT DISTINCT sha256 FROM pictures WHERE sha256 != ''"):
        now.execute(f"INSERT INTO {_KNOWN} VALUES (?)", row)
    for of_picture in before.rows("SELECT path, sidecars FROM pictures WHERE sidecars != ''", (), _sidecars_of_row):
        now.execute_for(((path,) for path, _ in of_picture), f"INSERT OR IGNORE INTO {_SIDECARS} VALUES (?, 0)")


def _renumbered(before: Catalogue, now: Catalogue, picture: PictureRecord, there: PictureRecord) -> Verified | None:
    """A picture whose name another one of the catalogue has now, and that is under another name itself."""
    if not picture.sha256 or not there.sha256 or picture.sha256 == there.sha256 or _is_of_manifest(picture):
        return None
    is_known = next(now.rows(f"SELECT 1 FROM {_KNOWN} WHERE sha256 = ?", (there.sha256,)), None)
    query = f"SELECT path, damage FROM {_DIGESTS} JOIN pictures ON id = picture WHERE {_DIGESTS}.sha256 = ? ORDER BY path LIMIT 1"
    place = next(now.rows(query, (picture.sha256,)), None) if is_known else None
    return None if place is None else _moved(before, now, picture, *place)


def _moved(before: Catalogue, now: Catalogue, picture: PictureRecord, place: bytes, damage: str) -> Verified:
    """A file that is at another place."""
    state = State.RENUMBERED if _is_known(before, now, place) else State.MOVED
    return Verified(picture.path, state, f"damaged before, too: {damage}" if damage else "", place, damage)


_KNOWN = "temp.known"  # the files of the catalogue
_SIDECARS = "temp.sidecars"  # those that belong to pictures of the catalogue
_DIGESTS = "temp.digests"  # of the files that are there
_FILE = "file "  # before the name of a sidecar, as the position of its block


def _sidecars(picture: PictureRecord, blocks: Sequence[BlockRecord]) -> Iterator[PictureRecord]:
    """The sidecars of a picture as files of their own, each with the digest that the catalogue has of it. Raises `Damaged`."""
    digests = {block.source: block.octets for block in blocks if block.source.startswith(_FILE)}
    for path, stamp in _marked(picture.path, picture.sidecars):
        digest = digests.get(_FILE + os.path.basename(path).decode("utf-8", "backslashreplace"))
        yield PictureRecord.of(path, picture.root, stamp, sha256=digest)


def _sidecars_of_row(row: tuple[bytes, str]) -> list[tuple[bytes, Stamp]]:
    has(bytes, row[0])
    has(str, row[1])
    return list(_marked(*row))


def _marked(picture: bytes, marks: str) -> Iterator[tuple[bytes, Stamp]]:
    """The sidecars of a picture with their marks, as a catalogue has them. Raises `Damaged`."""
    for line in marks.split("\n"):
        name, *numbers = line.split(" ")
        try:
            file, stamp = bytes.fromhex(name), Stamp(*map(int, numbers))
        except (ValueError, TypeError):
            raise Damaged("the marks of a sidecar can't be read") from None
        yield os.path.join(os.path.dirname(picture), file), stamp


def _without_sidecars(picture: PictureRecord, blocks: Sequence[BlockRecord]) -> PictureRecord:
    """A picture whose XMP is what its own file has."""
    own = PictureRecord.of(picture.path, picture.root, blocks=[block for block in blocks if not block.source.startswith(_FILE)])
    return picture._replace(xmp=own.xmp, xmp_octets=own.xmp_octets)


def _of_sidecar(before: Catalogue, now: Catalogue, sidecar: PictureRecord) -> Iterator[Verified]:
    """The state of a sidecar, the first time that a picture has it."""
    if not now.execute(f"UPDATE {_SIDECARS} SET is_done = 1 WHERE path = ? AND is_done = 0", (sidecar.path,)).rowcount:
        return
    there = now.picture(sidecar.path)
    if not there or there.problem in NOT_THERE:
        yield _gone(before, now, sidecar)
        return
    state, note = state_of(sidecar, there)
    if state == State.OTHER_FILE:  # whose metadata were edited, if they can be read
        state, note = (State.CUT, "its XMP can't be read") if there.xmp is None else (State.CAPTIONED, "")
    yield Verified(sidecar.path, state, note, damage=there.damage)


def _gone(before: Catalogue, now: Catalogue, picture: PictureRecord) -> Verified:
    """A file that isn't there: one that the catalogue doesn't know may be this one, and another may have the same picture."""
    of_file = f"id IN (SELECT picture FROM {_DIGESTS} WHERE sha256 = ?)"
    for condition, digest, words in (
        (of_file, picture.sha256, "the same file is"),
        ("coded_picture = ?", picture.coded_picture, "the same picture is"),
    ):
        places = now.rows(f"SELECT path, damage FROM pictures WHERE {condition} ORDER BY path", (digest,)) if digest else iter(())
        known = None
        for path, damage in places:
            if condition == of_file and _has_other_file(before, now, path, digest or ""):
                return _moved(before, now, picture, path, damage)
            if not _is_known(before, now, path):
                return Verified(picture.path, State.MOVED, "captioned, too", path)
            known = known or path
        if known:
            return Verified(picture.path, State.MISSING, words, known)
    return Verified(picture.path, State.MISSING)


def _has_other_file(before: Catalogue, now: Catalogue, path: bytes, sha256: str) -> bool:
    """Whether a file that is at a path now is known not to have been there."""
    known = before.picture(path)
    if not known or _is_of_manifest(known):
        return not _is_known(before, now, path)
    return bool(known.sha256) and known.sha256 != sha256


def new_files(before: Catalogue, now: Catalogue) -> int:
    """How many files the catalogue doesn't know."""
    return sum(not _is_known(before, now, path) for (path,) in now.rows("SELECT path FROM pictures"))


def _is_known(before: Catalogue, now: Catalogue, path: bytes) -> bool:
    """Whether a catalogue has a file: as a picture, or as a sidecar of one."""
    is_sidecar = next(now.rows(f"SELECT 1 FROM {_SIDECARS} WHERE path = ?", (path,)), None)
    return is_sidecar is not None or before.has(path)


# The manifest of a bag (BagIt, RFC 8493) as a catalogue that has nothing but SHA-256 of each file.

MANIFEST = "manifest-sha256.txt"
PAYLOAD = b"data/"
_AT_ONCE = 1000  # files of a transaction
_LONGEST_LINE = 20_000  # bytes
_LINE = re.compile(rb"([0-9A-Fa-f]{64})[ \t]+\*?(.+)")
_ENCODED = re.compile(rb"%(0A|0D|25)", re.I)  # what a name may not have as it is, and only that


class NoBag(WrongUse):
    """A folder is no bag with a manifest of SHA-256."""


def payload(bag: str) -> bytes:
    """The folder of the files of a bag, which may have files that its manifest lacks, or all if that is empty."""
    return os.path.join(os.fsencode(os.path.abspath(bag)), PAYLOAD.rstrip(b"/"))


def fill(catalogue: Catalogue, bag: str) -> None:
    """Puts the files of a bag's manifest into a new catalogue. Raises `NoBag` and `OSError`."""
    run, count, manifest = catalogue.begin_run(""), 0, os.path.join(bag, MANIFEST)
    files = _files(payload(bag), manifest)
    while pictures := list(islice(files, _AT_ONCE)):
        catalogue.put(run, pictures)
        count += len(pictures)
    if catalogue.number_of("SELECT count(*) FROM pictures") < count:
        raise NoBag(f"{manifest} lists a file twice, perhaps with two digests")


def _files(root: bytes, manifest: str) -> Iterator[PictureRecord]:
    """The files of a manifest: each lies below the folder of the payload."""
    if not os.path.lexists(manifest):
        raise NoBag(f"{manifest} isn't there: a bag is verified by its manifest of SHA-256")
    # a line ends with LF, CR or both; each character stands for a byte
    with opening.reading(os.fsencode(manifest)) as octets, io.TextIOWrapper(octets, encoding="latin-1") as file:
        for number, line in enumerate(iter(lambda: file.readline(_LONGEST_LINE + 1), ""), 1):
            match = _LINE.fullmatch(line.rstrip("\n").encode("latin-1"))
            name = _ENCODED.sub(lambda code: bytes.fromhex(code[1].decode()), match[2]) if match else b""
            path = os.path.normpath(os.path.join(os.path.dirname(root), name))
            if not match or len(line) > _LONGEST_LINE or not name.startswith(PAYLOAD) or not path.startswith(root + b"/"):
                raise NoBag(f"{manifest}: line {number} is no SHA-256 of a file below data/")
            yield PictureRecord.of(path, root, sha256=match[1].decode().lower())


# Files that are only hashed: one with the SHA-256 that a catalogue has of it is what the catalogue knows of it, and isn't looked into.

CHUNK = 1 << 20  # bytes: hashlib lets other threads run while it hashes
OTHERS = 10_000  # files that are looked into together
_AT_A_TIME = 64  # files of each thread, after which all wait for the last one


def looker(before: Catalogue) -> Look:
    """Looks only into those files that have another SHA-256 than a catalogue has."""

    def look(work: Iterable[FoundFile], how: How) -> Iterator[Result]:
        others: list[FoundFile] = []
        for file, digest in _hashed(iter(work), how.processes):
            known = before.picture(file.path) or PictureRecord()
            if digest and known.sha256 == digest and known.problem not in NOT_THERE:
                yield known.stamped(file.stamp)._replace(path=file.path, root=file.root)
            else:
                others.append(file)
            if len(others) >= OTHERS:
                yield from looked(others, how)
                others.clear()
        yield from looked(others, how)

    return look


def _hashed(work: Iterator[FoundFile], threads: int) -> Iterator[tuple[FoundFile, str]]:
    """The files with their SHA-256, in their order. Several threads read them, one file each."""
    is_stopped = threading.Event()
    with ThreadPoolExecutor(threads) as pool:
        try:
            while files := list(islice(work, _AT_A_TIME * threads)):
                yield from zip(files, pool.map(lambda file: digest(file.path, is_stopped), files))
        finally:
            is_stopped.set()


def digest(path: bytes, is_stopped: threading.Event) -> str:
    """SHA-256 of a file; empty if it can't be read, is mostly holes, or if nobody needs it any more."""
    whole = hashlib.sha256()
    with contextlib.suppress(OSError), opening.reading(path) as file:
        if opening.is_hollow(file.fileno(), os.fstat(file.fileno()).st_size, HOLES):
            return ""
        while (piece := file.read(CHUNK)) and not is_stopped.is_set():
            whole.update(piece)
        return "" if piece else whole.hexdigest()
    return ""
