"""Blocks from other programs: ExifTool for the formats that have no reader here and for damaged files, exiv2 for raw ones.

Neither extracts everything in a file, and ExifTool corrects some MakerNotes in the block that it extracts. So such a file is
never read in full, and the result names the program that a block comes from. One ExifTool process stays open for one file after
another.
"""

from __future__ import annotations

import base64
import binascii
import contextlib
import json
import os
import re
import shutil
from typing import Sequence, cast

from ..files.session import Session
from ..model.budgets import OUTPUT, WHOLE_FILE, budget_of
from ..model.found import EXIF, EXIFTOOL, EXIV2, IPTC, UNREAD_TRAILER, XMP, Blocks, NotRead
from ..model.problems import Problem
from ..model.texts import ending_of
from . import programs, raw_files
from .formats.streams import Stream, digest_of, size_of
from .programs import Failed, TooSlow

_Object = dict[str, str]  # what ExifTool says of a file, by the names that were asked for

_WORDS_LENGTH = 1000  # characters that are kept of a type or an error
_WORDS = ("-EXIF:Exif", "-IPTC:IPTC", "-XMP:XMP", "-FileType#", "-MIMEType#", "-Error#")
_TAGS = {"EXIF": EXIF, "IPTC": IPTC, "XMP": XMP}
_SEVERAL = ("CR3", "CRX", "CRM")  # Canon's, by ExifTool's names

# Files in the structure of TIFF, of which ExifTool hands over no Exif block.
_TIFF_TYPES = frozenset(it.upper() for it in ("tiff", *raw_files.READ, *raw_files.LEFT))

# Bytes come in base64 after the word base64:, texts as they are. The filter marks a text that begins with that word by
# itself, so that a picture can't make a text look like other bytes. -m: continue after minor errors.
_OPTIONS = ("-q", "-q", "-m", "-json", "-a", "-G4", "-b", "-api", "Filter=s/^(base64|text):/text:$1:/")

_PLAIN = rb"/[A-Za-z0-9_./+,@%~()=-]*"


class Process:
    """An ExifTool process in a folder of its own. After `Failed` it is over with this one."""

    def __init__(self, room: str, seconds: float) -> None:
        """Starts ExifTool in the folder `room`. Links with plain names in it replace names that ExifTool could misread. It may take so many
        seconds for a call."""
        self.room, self.seconds = room, seconds
        self.number = 0
        self.process = programs.start(programs.exiftool("-stay_open", "True", "-@", "-"), room, is_asked=True)

    def ask(self, paths: Sequence[bytes], words: Sequence[str], options: Sequence[str]) -> list[_Object]:
        """The tags of some files for the arguments `words`, each by its copy and name as in `Copy1:IPTC`. Raises `Failed`."""
        self.number += 1
        names = [self._handed_over(path, number) for number, path in enumerate(paths)]
        done = b"{done %d}\n" % self.number
        lines = [*(it.encode("ascii") for it in (*options, *words)), *names, b"-echo3", done.rstrip(b"\n"), b"-execute", b""]
        try:
            programs.write(self.process, b"\n".join(lines), self.seconds)
        except OSError:
            raise Failed("ExifTool ended before it was asked") from None
        output = programs.read_until(self.process, lambda it: it.endswith(done), self.seconds)
        if not output.endswith(done):
            raise Failed(f"ExifTool ended with status {self._status()} at this file")
        return _members(output[: -len(done)], names)

    def _handed_over(self, path: bytes, number: int) -> bytes:
        """The path itself if it is plain, otherwise a link to it in this process's folder."""
        whole = os.path.abspath(path)
        if re.fullmatch(_PLAIN, whole):
            return whole
        link = f"./link{number or ''}{ending_of(path)}"
        there = os.path.join(self.room, link)
        with contextlib.suppress(FileNotFoundError):
            os.unlink(there)
        os.symlink(whole, os.fsencode(there))
        return link.encode("ascii")

    def _status(self) -> int:
        import subprocess

        try:
            return self.process.wait(1.0)
        except subprocess.TimeoutExpired:
            return 0

    def close(self) -> None:
        """Ends ExifTool. It doesn't end by itself at the end of its input."""
        programs.end(self.process)


def _members(output: bytes, names: Sequence[bytes]) -> list[_Object]:
    """The object in an output about each file. Raises `Failed` for anything else."""
    if not output.strip():
        return [{} for _ in names]
    try:
        answers = json.loads(output, parse_int=str, parse_float=str)
    except (ValueError, RecursionError):
        raise Failed("ExifTool's answer isn't understood: it is no JSON") from None
    if not isinstance(answers, list) or len(answers) != len(names) or not all(isinstance(it, dict) for it in answers):
        raise Failed("ExifTool's answer isn't understood: it isn't one object for each file")
    for answer, name in zip(answers, names):
        if answer.pop("SourceFile", None) != name.decode("ascii"):
            raise Failed("ExifTool's answer isn't understood: it is about another file")
        if not all(isinstance(it, str) for it in answer.values()):
            raise Failed("ExifTool's answer isn't understood: a value is neither a text nor a number")
    return answers


def _process(session: Session) -> Process:
    """The session's ExifTool, which starts at the first call."""
    if not session.programs:
        raise programs.Missing("exiftool", may_start=False)
    tool = cast("Process | None", session.tool)
    if tool and tool.process.poll() is not None:
        session.close_tool()  # it ended between two questions
    if not session.tool:
        session.tool = Process(session.folder(), session.seconds)
    return cast(Process, session.tool)


def ask(session: Session, path: bytes, words: Sequence[str]) -> _Object:
    """ExifTool's tags of one file. If it fails, a new ExifTool reads the next file."""
    return ask_several(session, [path], words)[0]


def ask_several(session: Session, paths: Sequence[bytes], words: Sequence[str], options: Sequence[str] = _OPTIONS) -> list[_Object]:
    """ExifTool's tags of some files, which are asked for in one call."""
    try:
        with session.clock(b"\0".join(paths)) as seconds:
            process = _process(session)
            process.seconds = seconds
            return process.ask(paths, words, options)
    except BaseException as error:
        session.close_tool()
        if isinstance(error, TooSlow):
            raise TooSlow(f"exiftool took longer than {session.seconds:g} seconds") from None
        raise


def octets(value: str) -> bytes:
    """The bytes in a member of an output. Raises `Failed` if they aren't base64.

    >>> octets("base64:HAI="), octets("text:base64:HAI=")
    (b'\\x1c\\x02', b'base64:HAI=')
    """
    if not value.startswith("base64:"):
        return (value[5:] if value.startswith("text:") else value).encode("utf-8", "surrogatepass")
    try:
        return base64.b64decode(value[7:], validate=True)
    except (binascii.Error, ValueError):
        raise Failed("ExifTool's answer isn't understood: a block is no base64") from None


def values(answer: _Object, tag: str) -> list[str]:
    """All copies of a tag in an output, the first one first."""
    return [value for name, value in answer.items() if name.rpartition(":")[2] == tag]


def by_others(session: Session, path: bytes, stream: Stream, whole: bool, why: str) -> Blocks:
    """The blocks that ExifTool and exiv2 extract; `why` is the reason why the file was not read here, for a known format. Raises
    `programs.Missing` and `programs.Failed`."""
    blocks = _blocks(ask(session, path, _WORDS))
    blocks.budget = budget_of(stream)
    if blocks.problem:
        return blocks
    if blocks.type in _TIFF_TYPES and not blocks.of_kind(EXIF):
        _add_by_exiv2(session, blocks, path)
    size = size_of(stream)
    digest = digest_of(stream, 0, size) if whole or size <= WHOLE_FILE else ""
    what = " ".join(f"what ExifTool does not extract from this {blocks.type} file".split()) + (f" ({why})" if why else "")
    blocks.not_read.append(NotRead(what, digest))
    return blocks


def _first(answer: _Object, tag: str) -> str:
    return next(iter(values(answer, tag)), "")[:_WORDS_LENGTH]


def _blocks(answer: _Object) -> Blocks:
    """The blocks in an output of ExifTool."""
    blocks = Blocks(extractor=EXIFTOOL, type=_first(answer, "FileType"))
    for tag, kind in _TAGS.items():
        for value in values(answer, tag):
            blocks.add(kind, octets(value), f"{blocks.type} file", extractor=EXIFTOOL)
    mime = _first(answer, "MIMEType")
    if blocks.type in _SEVERAL:
        return Blocks(extractor=EXIFTOOL, type=blocks.type, problem=Problem.SEVERAL_BLOCKS, detail=Problem.SEVERAL_BLOCKS.text)
    if blocks.blocks or mime.startswith("image/") or blocks.type in ("PSD", "PSB"):
        return blocks
    error = _first(answer, "Error")
    detail = error or (f"{blocks.type} ({mime})" if blocks.type else Problem.NO_PICTURE.text)
    problem = Problem.UNREADABLE if error.startswith("Error opening") else Problem.NO_PICTURE
    return Blocks(extractor=EXIFTOOL, type=blocks.type, problem=problem, detail=detail)


def _add_by_exiv2(session: Session, blocks: Blocks, path: bytes) -> None:
    """Adds the Exif block that exiv2 extracts from a raw file, or the problem that it has none."""
    if not programs.is_there("exiv2"):
        blocks.problem, blocks.detail = Problem.NEEDS_EXIV2, Problem.NEEDS_EXIV2.text
        return
    folder = os.path.join(session.folder(), "exiv2")
    shutil.rmtree(folder, ignore_errors=True)
    os.mkdir(folder)
    link = os.path.join(folder, f"picture.{blocks.type.lower()}")
    os.symlink(os.path.abspath(path), os.fsencode(link))
    try:
        with session.clock(path) as seconds:
            programs.run([programs.needed("exiv2"), "-q", "-ee", "-l", folder, link], seconds, folder)
    except TooSlow:
        raise TooSlow(f"exiv2 took longer than {session.seconds:g} seconds") from None
    file = os.path.join(folder, "picture.exv")
    block = _exif_of_exiv2(file) if os.path.isfile(file) else b""
    if block:
        blocks.add(EXIF, block, f"{blocks.type} file", extractor=EXIV2)
    else:
        blocks.problem, blocks.detail = Problem.TOOL_FAILED, "exiv2 extracted no Exif block from this file"


def _exif_of_exiv2(path: str) -> bytes:
    """The Exif block of a file in exiv2's own form: two bytes, five letters, and segments as in a JPEG. No bytes if it has none."""
    import exifnorm  # which takes long, and few pictures are raw

    with open(path, "rb") as file, contextlib.suppress(exifnorm.HeadRefused):
        head = b"\xff\xd8" + file.read(OUTPUT)[7:]
        return next((it.data for it in exifnorm.jpeg_blocks(head) if it.kind == EXIF), b"")
    return b""


def add_trailers(session: Session, blocks: Blocks, path: bytes) -> None:
    """Adds the IPTC and XMP blocks that ExifTool finds in the trailer of a picture; the trailer itself was noted as not read."""
    known = {it.data for it in blocks.blocks}
    try:
        answer = ask(session, path, _WORDS)
        in_trailer = [(kind, octets(value)) for tag, kind in _TAGS.items() for value in values(answer, tag) if kind != EXIF]
    except (programs.Missing, programs.Failed):
        blocks.not_read.append(NotRead(UNREAD_TRAILER, ""))
        return
    for kind, data in in_trailer:
        if data not in known:
            blocks.add(kind, data, "trailer", "trailer", EXIFTOOL)
            blocks.extractor = EXIFTOOL
