"""Words for people: the results of comparisons, and names of files and texts of pictures as one safe line.

Such a line can't control a terminal, and has no end of a line in it.
"""

from __future__ import annotations

import os
import re
from contextlib import suppress
from enum import Enum
from functools import lru_cache

from exifnorm._hints import Any, Iterable, TypeVar


class Word(str, Enum):
    """A word of a fixed list. Printed, compared, kept in a catalogue and written as JSON it is a text like any other.

    Behind its word a member has a value for each attribute that its class declares. Of those that are left out a text is empty, and another
    one False.

    >>> class Colour(Word):
    ...     is_warm: bool
    ...     text: str
    ...     RED = ("red", True, "as a rose")
    ...     BLUE = "blue"
    >>> f"{Colour.RED}", Colour.RED == "red", Colour("red") is Colour.RED
    ('red', True, True)
    >>> [(colour.is_warm, colour.text) for colour in Colour]
    [(True, 'as a rose'), (False, '')]
    """

    def __new__(cls, word: str, *values: object) -> "Word":
        member = str.__new__(cls, word)
        member._value_ = word
        given = iter(values)
        for name, kind in cls.__dict__.get("__annotations__", {}).items():
            setattr(member, name, next(given, "" if kind == "str" else False))
        return member

    __str__, __hash__ = str.__str__, str.__hash__

    def __format__(self, form: str) -> str:
        return str.__format__(self, form)


class Result(Word):
    """The result for a kind of block, for two pictures, or for the pictures of a group. It is its word, as JSON has it, and `changed` prints
    the results in this order: `Result.SAME == "same"`."""

    has_changed: bool | None  # between two states of an archive; None: nobody knows
    sentence: str  # of `compare`; empty where it counts the fields, and where no two pictures have it
    is_equal: bool  # whether the metadata are the same, or refused with the same bytes
    no_picture: bool  # whether neither file is a picture

    SAME = ("same", False, "The same metadata.", True)
    SAME_FILE = ("the same file", False, "The same file as before, but it isn't wholly read.")  # nothing was written to it
    SAME_BUT = ("the same but for the fields left out", False, "The same metadata but for the fields left out.")  # by the listing of fields
    SAME_NUMBERS = ("the same but for how equal numbers are written", False, "The same metadata but for how equal numbers are written.")
    MOVED_NOTE = (
        "the same but for a MakerNote that moved",  # and that ExifTool reads as before
        None,
        "The same metadata but for a MakerNote that has moved; ExifTool reads the same from both.",
    )
    SAME_REPAIRED = ("the same after repair", None, "The same metadata after a repair in memory.")
    DIFFERENT = ("different", True)
    DIFFERENT_REPAIRED = ("different after repair", True)
    ONLY_MAKER_NOTE = ("only MakerNote differs", True, "Only the MakerNote differs.")
    ONLY_NUMBERS = ("only equal numbers are written otherwise", True)
    FILE_DIFFERENT = ("not read, different bytes", True, "Different bytes, and the metadata weren't read.")
    NO_PICTURE_DIFFERENT = ("no picture, different bytes", True, "Different bytes, and the files are no pictures.", False, True)
    MOVED = ("moved", True)
    RENUMBERED = ("renumbered", True)  # moved to a name that another picture had, or whose old name another one has
    MOVED_EDITED = ("moved and edited", True)  # which the digest of its coded picture shows
    OTHER_PICTURE_ALONE = ("other picture, the same metadata", True, "The same metadata, and another picture.")
    OTHER_PARTS = ("other parts, the same metadata", True, "The same metadata and picture, and other parts of the files.")
    OTHER_BYTES = ("other bytes, the same metadata", True, "The same metadata, and other bytes: the pictures weren't read.")
    OTHER_PICTURE = ("other picture", True, "Another picture; no difference in the metadata is known.")
    DAMAGED = ("damaged", None, "The second picture is damaged.")  # and no difference of the metadata is known
    DAMAGED_BEFORE = ("damaged before", None, "The first picture is damaged.")
    DAMAGED_DIFFERENT = ("damaged and different", True)
    MISSING_BEFORE = ("missing before", True)
    MISSING_AFTER = ("missing after", True)
    UNCLEAR = ("not clear which is its partner", None)  # of several with its name
    ONLY_REACHED = (
        "only bytes that a MakerNote can reach differ",
        None,
        "No field differs, but bytes outside the fields do, and a MakerNote may use them.",
    )
    REFUSED = ("refused", None, "The metadata can't be fully compared: a block breaks the rules of its format, or is compressed.")
    REFUSED_SAME = (
        "refused, the same bytes",
        False,
        "No difference: a block breaks the rules of its format or is compressed, and has the same bytes in both.",
        True,
    )
    UNREADABLE = ("unreadable", None, "The metadata can't be fully compared: XMP is unreadable.")
    UNREADABLE_SAME = ("unreadable, the same bytes", False, "No difference: XMP is unreadable, and has the same bytes in both.", True)
    NOT_KNOWN = ("not known", None, "The metadata can't be fully compared: a file is damaged, and the missing part may have metadata.")
    NOT_WHOLLY_READ = ("not wholly read", None, "No field differs, but not everything was read.")
    FILE_SAME = ("not read, the same bytes", False, "The same bytes, and the metadata weren't read.")
    NO_PICTURE_SAME = ("no picture, the same bytes", False, "The same bytes, but the files are no pictures.", False, True)
    NOT_READ = ("not read", None, "The metadata can't be compared: a file was not read.")
    # Of a kind only
    ABSENT = ("absent", False)
    LEFT_OUT = ("left out", False)  # no field of the kind counts

    @property
    def decided(self) -> bool | None:
        """Whether it says that two pictures are the same; None if it says that nobody knows."""
        return True if self is Result.SAME else False if self.has_changed else None

    @property
    def is_open(self) -> bool:
        """Whether it isn't known if something has changed."""
        return self.has_changed is None


Members = dict[str, Any]  # of a JSON object
Key = TypeVar("Key")
Value = TypeVar("Value")


def escaped(text: str) -> str:
    r"""The text with the backslash, control characters, undecodable bytes and unprintable characters escaped, so that no two are alike.

    A byte is written as `\xff`, and a character from U+0080 on as `\u00ff`.

    >>> escaped("a\nb\\c"), escaped(os.fsdecode(b"x\x85")), escaped("x\x85\u202e")
    ('a\\nb\\\\c', 'x\\x85', 'x\\u0085\\u202e')
    """
    return text if text.isprintable() and "\\" not in text else _escaped_but(text, "")


def grouped(pairs: Iterable[tuple[Key, Value]]) -> dict[Key, list[Value]]:
    """The values of each key, in their order.

    >>> grouped([("a", 1), ("b", 2), ("a", 3)])
    {'a': [1, 3], 'b': [2]}
    """
    groups: dict[Key, list[Value]] = {}
    for key, value in pairs:
        groups.setdefault(key, []).append(value)
    return groups


def quoted(text: str) -> str:
    r"""A text in quotes in one line.

    >>> print(quoted('a "b"\n'))
    "a \"b\"\n"
    """
    return '"' + escaped(text).replace('"', '\\"') + '"'


def safe(text: str) -> str:
    r"""The text without control characters and others that aren't printable; a text that was escaped before stays as it is.

    >>> safe("a\n\x9b\u202e")
    'a\\n\\u009b\\u202e'
    """
    return text if text.isprintable() else _escaped_but(text, "\\")


def safe_lines(text: str) -> str:
    r"""The same of a text that may have several lines and tabs.

    >>> safe_lines("a\n\t\x9b")
    'a\n\t\\u009b'
    """
    return text if text.isprintable() else _escaped_but(text, "\\\n\t")


def unescaped(text: str) -> str:
    r"""The text that somebody has copied from what was printed. NUL stays as it is: catalogues have it so.

    >>> unescaped(escaped("a\nb\\c\u202e")) == "a\nb\\c\u202e", unescaped(r"a\x00b")
    (True, 'a\\x00b')
    """
    return re.compile(r"\\(?:x(?!00)([0-7][0-9a-f])|u([0-9a-f]{4})|U(000[0-9a-f]{5})|[nrt\\])").sub(
        lambda it: _CONTROLS.get(it[0]) or chr(int(it[1] or it[2] or it[3], 16)), text
    )


def _escaped_but(text: str, kept: str) -> str:
    """The text with its characters escaped but for some."""
    return text.translate({ord(it): _escaped_character(it) for it in set(text).difference(kept)})  # few characters are different ones


_SHORT = {"\n": "\\n", "\r": "\\r", "\t": "\\t", "\\": "\\\\"}
_CONTROLS = {word: sign for sign, word in _SHORT.items()}


def _escaped_character(character: str) -> str:
    if character in _SHORT:
        return _SHORT[character]
    number = ord(character)
    if 0xDC80 <= number <= 0xDCFF:  # a byte that is no UTF-8, as Python keeps it in a file name
        return f"\\x{number - 0xDC00:02x}"
    if character.isprintable():
        return character
    if number < 0x80:  # which is a byte, too
        return f"\\x{number:02x}"
    return f"\\u{number:04x}" if number < 0x10000 else f"\\U{number:08x}"


def near(path: bytes | str) -> str:
    """A path from the current folder, or whole if that is shorter, however it was given.

    >>> [near(it) for it in ("./a//b.jpg", os.path.abspath("a"), os.getcwd(), "../a/", "/", "-a.jpg", "")]
    ['a/b.jpg', 'a', '.', '../a', '/', './-a.jpg', '']
    """
    name = os.fsdecode(path)
    with suppress(OSError):  # the current folder is gone
        here = os.getcwd()
        folder, _, file = name.rpartition("/")
        is_odd = "//" in f"{name}/" or "/." in name or f"{here}/".startswith(f"{name}/")
        if folder.startswith("/") and not is_odd:
            name = f"{_nearest(folder, here)}/{file}".removeprefix("./")
        elif name.startswith(("/", ".")):
            name = _nearest(name, here)
    return f"./{name}" if name.startswith("-") else name  # which no program takes for an option


@lru_cache(100)  # the folders of many pictures
def _nearest(path: str, here: str) -> str:
    return min(os.path.relpath(path, here), os.path.abspath(path), key=len)


def shown_path(path: bytes | str) -> str:
    """The name of a file for people, in one line, in which different names are different. All commands print it so, in lines and tables."""
    return escaped(near(path))


def whole_path(path: bytes | str) -> str:
    """The same for what is read elsewhere: pages, letters, JSON, and what a catalogue keeps."""
    return escaped(os.fsdecode(path))


def reason(error: OSError) -> str:
    """Why the system refused something, as a message has it."""
    return (error.strerror or type(error).__name__).lower()


_PACKAGES = ("exifnorm_pictures", "exifnorm")


def described(error: BaseException) -> str:
    """An error of our own code: its kind, its text, and the innermost of our lines that it came through."""
    line = ""
    step = error.__traceback__
    while step is not None:
        file = step.tb_frame.f_code.co_filename
        package = str(step.tb_frame.f_globals.get("__name__")).partition(".")[0]
        if package in _PACKAGES:
            line = f" ({file[file.rfind(package + os.sep) :]}, line {step.tb_lineno})"
        step = step.tb_next
    return f"{type(error).__name__}: {error}{line}"


def ending_of(path: bytes) -> str:
    """The ending of a file's name, by which programs know its format; none if it is long or rare.

    >>> ending_of(b"a/b.JPG"), ending_of(b"a.b/c")
    ('.JPG', '')
    """
    ending = re.search(rb"\.[A-Za-z0-9]{1,8}\Z", path)
    return ending[0].decode("ascii") if ending else ""


def path_members(path: bytes) -> Members:
    """The members of a JSON object for a path: `path`, and `path_hex` if the name is no UTF-8."""
    try:
        return {"path": path.decode("utf-8")}
    except UnicodeDecodeError:
        return {"path": whole_path(path), "path_hex": path.hex()}


def path_or_none(path: bytes | None) -> Members | None:
    """The same, or null without a path."""
    return None if path is None else path_members(path)


def in_words(count: int, noun: str) -> str:
    """A number of things.

    >>> in_words(1, "row"), in_words(2000, "row")
    ('1 row', '2,000 rows')
    """
    return f"{count:,} {noun}{'s' * (count != 1)}"


def pictures_in_words(count: int) -> str:
    """A number of pictures."""
    return in_words(count, "picture")


def moved_line(old: bytes, new: bytes, count: int) -> str:
    """A line for the pictures of a folder that moved together."""
    return f"{shown_path(old)}: Moved: {pictures_in_words(count)} to {shown_path(new)}"


def kind_of_part(what: str) -> str:
    """A part that was not read without the numbers that differ from picture to picture.

    >>> kind_of_part("1,024 bytes that only the MakerNote can reach"), kind_of_part("trailer of 12 bytes"), kind_of_part("x (at 12)")
    ('bytes that only the MakerNote can reach', 'trailer', 'x')
    """
    return re.sub(r" of [\d,]+ bytes| \(.*?\)|^[\d,]+ (?=byte)", "", what).replace("byte that", "bytes that")
