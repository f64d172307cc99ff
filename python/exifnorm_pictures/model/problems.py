"""Why a file has no blocks: each problem with its word, its meaning for people, and what follows from it."""

from __future__ import annotations

from .texts import Word


class Follows:
    """What follows from a problem: bits."""

    NOTHING = 0
    NO_FILE = 1  # the name leads to no file, so nothing is compared
    GONE = 2  # the file was there at an earlier run
    NO_BYTES = 4  # nobody can read its bytes, so what was known of it stays
    FAILED = 8  # it should be readable, and isn't
    AGAIN = 16  # it may be solved although the file is the same: it is looked at again


class Problem(Word):
    """A problem. It is its word, as JSON and catalogues have it: `Problem.VANISHED == "Vanished"`."""

    text: str  # for people
    counted: str  # as counts have it: "5 at which a program failed"
    follows: int  # what does, as `Follows` has it
    program: str  # which solves it, once it is installed

    NO_PICTURE = ("NoPicture", "the file is no picture that ExifTool knows", "no picture", Follows.NOTHING)
    UNREADABLE = ("Unreadable", "the file can't be read", "not readable", Follows.NO_BYTES | Follows.FAILED | Follows.AGAIN)
    VANISHED = (
        "Vanished",
        "there is no such file any more",
        "gone since an earlier run",
        Follows.NO_FILE | Follows.GONE | Follows.NO_BYTES | Follows.AGAIN,
    )
    MOVED = ("Moved", "the file has another name now", "moved since an earlier run", Follows.NO_FILE | Follows.GONE | Follows.AGAIN)
    NO_FILE = ("NoFile", "there is no such file", "no such file", Follows.NO_BYTES)
    LINK_TO_NOTHING = (
        "LinkToNothing",
        "a symbolic link that leads to no file",
        "a link that leads to no file",
        Follows.NO_FILE | Follows.NO_BYTES | Follows.AGAIN,
    )
    NOT_A_FILE = (
        "NotAFile",
        "a folder, a pipe, a socket or a device",
        "a pipe, a socket or a device",
        Follows.NO_FILE | Follows.NO_BYTES | Follows.AGAIN,
    )
    SEVERAL_BLOCKS = (
        "SeveralBlocks",
        "a damaged CR3 or a film of Canon, which have several Exif blocks (CMT1 to CMT4): ExifTool extracts only the first,"
        " so two different ones could seem to be the same",
        "damaged CR3, or a film of Canon",
        Follows.NOTHING,
    )
    BIG_TIFF = (
        "BigTIFF",
        "this BigTIFF can't be read, and no other program extracts its Exif block",
        "BigTIFF that can't be read",
        Follows.NOTHING,
    )
    NEEDS_EXIV2 = (
        "NeedsExiv2",
        "exiv2, which extracts the Exif block of raw files, isn't installed (package exiv2)",
        "raw, and exiv2 is not installed",
        Follows.FAILED,
        "exiv2",
    )
    NEEDS_EXIFTOOL = (
        "NeedsExifTool",
        "ExifTool, which reads this format, isn't installed",
        "of another format, and ExifTool is not installed",
        Follows.FAILED,
        "exiftool",
    )
    TOO_MUCH = ("TooMuch", "reading the file exceeds a limit that no real picture reaches", "over a limit", Follows.FAILED)
    TOO_SLOW = (
        "TooSlow",
        "the program that extracts blocks took longer than its limit; the next run tries again",
        "at which a program took too long",
        Follows.FAILED | Follows.AGAIN,
    )
    TOOL_FAILED = (
        "ToolFailed",
        "the program that extracts blocks failed on this file",
        "at which a program failed",
        Follows.FAILED | Follows.AGAIN,
    )
    INTERNAL_ERROR = (
        "InternalError",
        "exifnorm-pictures itself failed on this file; please report it",
        "at which exifnorm-pictures itself failed",
        Follows.FAILED | Follows.AGAIN,
    )


def _words(follows: int) -> tuple[str, ...]:
    return tuple(str.__str__(problem) for problem in Problem if problem.follows & follows)


# The words by what follows, for queries, and for problems as a catalogue has them
NOT_THERE = _words(Follows.NO_FILE)
GONE = _words(Follows.GONE)
NO_BYTES = _words(Follows.NO_BYTES)
NOT_READABLE = _words(Follows.FAILED)
AGAIN = _words(Follows.AGAIN)
NEEDED = {problem.value: problem.program for problem in Problem if problem.program}
TEXTS = {problem.value: problem.text for problem in Problem}
COUNTED = {problem.value: problem.counted for problem in Problem}
