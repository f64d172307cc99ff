"""Extracts the metadata blocks of pictures: by the readers of `formats`, and for other files by ExifTool and exiv2."""

from __future__ import annotations

import errno
import os

from exifnorm import LibraryMissing

from ..files import opening, signals
from ..files.session import Session
from ..model.budgets import Budget, TooMuch
from ..model.found import BROKEN, CUT, UNREAD_TRAILER, Blocks, Broken, LeftToOthers, NotRead
from ..model.errors import Failure
from ..model.problems import Problem
from ..model.texts import described
from .formats import jpeg
from .formats.streams import File, Parts


def blocks_of_file(
    path: bytes,
    whole: bool = False,
    session: Session | None = None,
) -> Blocks:
    """All blocks of one file, unchanged, and the parts that were not read. A file that can't be read has a problem and no blocks.
    Of a JPEG the head, the tail and the pictures of its MPF index are read; with `whole` also everything between. ExifTool reads
    the files that the readers here don't, in the session or in one of its own. Raises
    `programs.Missing` if it is needed and not installed, `programs.Failed`, and `LibraryMissing`.
    """
    try:
        return blocks_in(File(*opening.opened(path), Budget(whole)), path, whole, session)
    except TooMuch as why:
        return failed(why)
    except LibraryMissing:  # an OSError too, but not of this file
        raise
    except FileNotFoundError:
        problem = Problem.LINK_TO_NOTHING if os.path.islink(path) else Problem.NO_FILE
    except OSError as error:
        known = {opening.IRREGULAR: Problem.NOT_A_FILE, os.strerror(errno.ELOOP): Problem.LINK_TO_NOTHING}
        if error.strerror not in known:
            return Blocks(problem=Problem.UNREADABLE, detail=(error.strerror or str(error)).lower())
        problem = known[error.strerror]
    return Blocks(problem=problem, detail=problem.text)


def blocks_in(file: Parts, path: bytes, whole: bool = False, session: Session | None = None) -> Blocks:
    """The blocks of a file that is open, which is closed then. The ending of its name shows what a sidecar or a raw picture is. Raises what
    `blocks_of_file` raises, `OSError` and `TooMuch`."""
    if not session:
        with Session() as own:
            return blocks_in(file, path, whole, own)
    try:
        blocks = _read(file, path, whole)
        if blocks.has_more and not session.programs:
            blocks.not_read.append(NotRead(UNREAD_TRAILER, ""))
        elif blocks.has_more:
            from .exiftool import add_trailers

            add_trailers(session, blocks, file.as_file(path))
        return blocks
    except LeftToOthers as why:
        return by_others(session, file.as_file(path), file, whole, str(why)) if session.programs else _without_others(str(why))
    except Broken as why:
        if not session.programs:
            return _of_broken(_without_others(f"{BROKEN}{why}"), str(why))
        return _of_broken(by_others(session, file.as_file(path), file, True, f"{BROKEN}{why}"), str(why))
    finally:
        file.close()


def by_others(session: Session, path: bytes, stream: Parts, whole: bool, why: str) -> Blocks:
    """The blocks that ExifTool and exiv2 extract, whose module is imported then: most pictures don't need them."""
    from . import exiftool

    return exiftool.by_others(session, path, stream, whole, why)


def _without_others(why: str) -> Blocks:
    """The result for a file that only ExifTool and exiv2 might read, where they may not be started: a broken one, or one in a form that is not
    read here, was known by its first bytes."""
    if not why:
        return Blocks(problem=Problem.NO_PICTURE, detail="no format that is read without other programs")
    return Blocks(problem=Problem.NEEDS_EXIFTOOL, detail=f"only other programs might read this file ({why}), and none may be started")


def _of_broken(blocks: Blocks, why: str) -> Blocks:
    """What other programs read of a file that is broken here. One that is cut off is so too if they read nothing of it: its first bytes are
    those of a picture, so it was one."""
    if blocks.problem and why.startswith(CUT):
        blocks.problem = Problem.TOOL_FAILED if blocks.problem == Problem.NO_PICTURE else blocks.problem
        blocks.damage, blocks.detail = why, f"{blocks.detail}; {why}"
    return blocks


def failed(error: Exception, session: Session | None = None) -> Blocks:
    """The result for a file that goes over a limit, at which another program failed, or our own code: an error of a reader affects only this
    file."""
    problem = Problem.TOO_MUCH if isinstance(error, TooMuch) else error.problem if isinstance(error, Failure) else None
    if problem:
        return Blocks(problem=problem, detail=str(error))
    if session and session.debug:
        signals.trace(error)
    return Blocks(problem=Problem.INTERNAL_ERROR, detail=f"{Problem.INTERNAL_ERROR.text}: {described(error)}")


def _read(stream: Parts, path: bytes, whole: bool) -> Blocks:
    """Reads a file by the reader of its format, which its first bytes show. Raises `Broken` and `LeftToOthers`."""
    if stream.read(len(jpeg.START)) == jpeg.START:
        return jpeg.read(stream, whole)
    from . import readers  # those of all formats take long to import, and most pictures are JPEGs

    stream.seek(0)
    read = readers.reader_of(stream.read(readers.HEAD), path)
    if read is None:
        raise LeftToOthers("")
    blocks = read(stream, whole)
    blocks.type = readers.type_of(blocks, path)
    return blocks


# The blocks of a picture that is given by name. All that its file can do wrong is a problem of this picture.


def blocks_of_named(name: bytes, session: Session, whole: bool = False) -> Blocks:
    """The blocks of a picture."""
    try:
        return blocks_of_file(name, whole, session)
    except (LibraryMissing, MemoryError):
        raise
    except Exception as error:
        return failed(error, session)
