"""Looks at one picture after another, in this process. The module takes long to import, so only what looks at pictures imports it."""

from __future__ import annotations

import time

from exifnorm._hints import Iterable, Iterator, Sequence
from exifnorm import LibraryMissing
from exifnorm._jpeg import digest_but_note, recording
from exifnorm._library import library

from ..extract import extraction, programs, sidecars, structure
from ..extract.formats import jpeg
from ..extract.formats.streams import digest_of_file
from ..files.opening import held
from ..files.session import Session
from ..judge import judge
from ..model.budgets import WHOLE_FILE, TooMuch
from ..model.found import EXIF, NAMES, OWN, UNREAD_NOTES, Blocks, damage as faults_in
from ..model import rest
from ..model.problems import NO_BYTES, Problem
from ..model.texts import reason
from ..model.records import RACY, BlockRecord, PictureRecord, Stamp, Status
from .walk import FoundFile, How


# Nanoseconds in which two edits may have one time: twice a tick of the slowest kernel; and of file systems without parts of a second,
# of which FAT has two seconds, and others one.
FINE, COARSE = 20_000_000, 2_000_000_000


def look(file: FoundFile, how: How, session: Session, packs: bool = True) -> PictureRecord:
    """The result for one file, its fields packed for a catalogue unless that isn't asked for. An error of any kind affects only this file, which
    is opened once."""
    made = None
    if packs and file.stamp and not (how.pixels or how.whole or how.maker_notes or file.sidecars):
        made = library().jpeg_record(file.path, file.root, file.stamp, _marked(file.stamp, _now()), _USUAL)
    if isinstance(made, PictureRecord):
        return made
    with held(file.path, made):
        return compared_with_before(file, _look(file, how, session, packs))


def _notes_of(block: bytes, fields: bytes, note: int, end: int, digest: str) -> object:
    """Where the MakerNote of a block of Exif is, a digest of its fields without it, and what its picture has of both; None if bytes of the block
    are in no field."""
    found = structure.notes(block)
    but_note = digest_but_note(fields, note, end)
    if found.uncovered or found.place is None:
        return None if found.uncovered else (None, but_note, "", "")
    return found.place, but_note, f"{NAMES[EXIF]}:{found.place}", but_note or digest


_BLOCKS = tuple(BlockRecord(kind, NAMES[kind], "", OWN, Status.ACCEPTED, "", None, None, 0, "") for kind in jpeg.WHERE)
_PICTURE = PictureRecord.of(b"", b"", None, "JPEG", OWN, beside="")
_OTHERS = (lambda *rests: _lengths(jpeg.passed_over(*rests)), jpeg.is_end, _notes_of)
_USUAL = recording(*jpeg.READING, _PICTURE, _BLOCKS, jpeg.WHERE.values(), *_OTHERS)


def compared_with_before(file: FoundFile, picture: PictureRecord) -> PictureRecord:
    """The result for a file, marked as known if the last run had the same problem with it."""
    return picture._replace(is_known=True) if picture.problem and picture.problem == file.problem else picture


def _look(file: FoundFile, how: How, session: Session, packs: bool) -> PictureRecord:
    began = _now()
    try:
        marks = sidecars.marks(file.path, file.sidecars, lambda *times: _is_racy(times, began)) if file.sidecars else ""
        blocks, judged = _read(file, how, session, packs)
        whole_file = file_digest(file.path, blocks, how.whole)
        if file.sidecars:
            whole_file = sidecars.with_sidecars(whole_file, file.path, file.sidecars)
        notes, is_known = _maker_notes(session, file.path, blocks, judged) if how.maker_notes else (None, True)
        coded, beside, damage, whole = _pixels(file.path, blocks) if how.pixels else (None, _lengths(blocks), "", None)
    except LibraryMissing:  # an OSError too, but not of this file
        raise
    except OSError as error:
        return PictureRecord.of(file.path, file.root, problem=Problem.UNREADABLE, detail=reason(error))
    except MemoryError:
        return failed(file, "out of memory")
    except Exception as error:
        return PictureRecord.of_blocks(file.path, file.root, file.stamp, extraction.failed(error, session))

    stamp = _unless_changed(file, began)
    if stamp and not is_known:
        stamp = stamp._replace(changed=RACY)  # the next run asks again
    return PictureRecord.of_blocks(
        file.path,
        file.root,
        stamp,
        blocks,
        judged,
        file=whole_file,
        notes=notes,
        coded_picture=coded,
        beside=beside,
        damage=damage,
        sha256=whole,
        sidecars=marks,
    )


def _read(file: FoundFile, how: How, session: Session, packs: bool) -> tuple[Blocks, list[BlockRecord]]:
    """The blocks of a file and its sidecars, and what they mean. A file over a limit has a problem, and so has one for which a program takes too long."""
    try:
        blocks = extraction.blocks_of_file(file.path, how.whole, session)
        if blocks.problem == Problem.NO_FILE:  # which was there when its folder was listed
            blocks = Blocks(problem=Problem.VANISHED, detail=Problem.VANISHED.text)
        if file.sidecars:
            sidecars.add(blocks, file.path, file.sidecars)
        return blocks, [] if blocks.problem else judge.judge_all(blocks, packs)
    except (TooMuch, programs.TooSlow) as why:
        return extraction.failed(why), []


def _maker_notes(session: Session, path: bytes, blocks: Blocks, judged: Sequence[BlockRecord]) -> tuple[bytes | None, bool]:
    """What ExifTool reads of the MakerNotes of a picture that has one, for a catalogue, and whether that is known.

    If it fails at them, they are a part that was not read; without it the picture is as it is if nobody asks for them.
    """
    with_note = [block.octets for block in judged if block.note is not None]
    if not with_note:
        return None, True
    from ..judge import maker_notes

    try:
        return maker_notes.packed_reading(maker_notes.readings_of(session, [path])[0]), True
    except programs.Failed:
        blocks.leave(UNREAD_NOTES, "".join(with_note).encode("ascii"))
        return None, False
    except programs.Missing:
        return None, False


def _lengths(blocks: Blocks) -> str | None:
    """The rest of a file, as far as its reader meets it; None if this hasn't read the file to its end."""
    is_read = blocks.extractor == OWN and not (blocks.problem or blocks.damage or faults_in(it.what for it in blocks.not_read))
    lengths = {name: str(length) for name, length in blocks.rest.items() if not rest.is_by_programs(name)}
    return rest.text_of(lengths) if is_read else None


def _pixels(path: bytes, blocks: Blocks) -> tuple[str | None, str | None, str, str | None]:
    """What --pixels adds to a record: the digest of the coded picture, the rest of the file, its damage, and the digest of the whole file; empty
    if not known."""
    from ..extract import coded_picture

    coded = coded_picture.CodedPicture() if blocks.problem else coded_picture.of_file(path, blocks.budget)
    is_read = blocks.problem not in NO_BYTES
    beside = coded.beside if coded.digest else _lengths(blocks)
    return coded.digest, beside, coded.damage, digest_of_file(path, 1 << 62) if is_read else ""


def file_digest(path: bytes, blocks: Blocks, whole: bool) -> str:
    """SHA-256 of a whole file, if nothing else of it can be compared: no block of it was read, or a part has no digest."""
    has_digests = not blocks.problem and (not blocks.not_read or all(it.digest for it in blocks.not_read))
    if has_digests or blocks.problem in (*NO_BYTES, Problem.NEEDS_EXIFTOOL):
        return ""
    return digest_of_file(path, WHOLE_FILE if not whole else 1 << 62)


def failed(file: FoundFile, why: str) -> PictureRecord:
    """The result for a file at which a program or a process failed."""
    return compared_with_before(file, PictureRecord.of(file.path, file.root, file.stamp, "", OWN, Problem.TOOL_FAILED, why))


def _now() -> int:
    """Nanoseconds since 1970; 0 with a clock that is more than 292 years off, for which no file's times are known to be old."""
    try:
        return time.time_ns()
    except OverflowError:
        return 0


def _unless_changed(file: FoundFile, began: int) -> Stamp | None:
    """The marks that identify the file; none if it was written to meanwhile, so that the next run looks again.

    If it was changed so shortly before that a further edit could leave the same times, they are kept with a ctime that no file has, as
    git does it: the next run looks again, and a file that moves is still recognised.
    """
    now = Stamp.at(file.path)
    return None if not now or file.stamp != now else _marked(now, began)


def _marked(now: Stamp, began: int) -> Stamp:
    """The marks of a file at which a look has begun then."""
    times = (now.modified, now.changed)
    is_racy = not began or began - max(times) <= COARSE and _is_racy(times, began)
    return now._replace(changed=RACY) if is_racy else now


def _is_racy(times: Sequence[int], began: int) -> bool:
    """Whether a file with this mtime and ctime may have been changed again since without other times: if one of them is hardly older than
    the look, or the ctime is in the future, because the clock of a share may be ahead."""
    near = [it for it in times if abs(began - it) < COARSE]
    return times[1] > began or any(it % 1_000_000_000 == 0 or abs(began - it) < FINE for it in near)


def in_this_process(work: Iterable[FoundFile], how: How) -> Iterator[PictureRecord]:
    """The results for these files, in their order."""
    with Session(how.seconds, how.debug, how.room or None, how.programs) as session:
        yield from (look(file, how, session) for file in work)
