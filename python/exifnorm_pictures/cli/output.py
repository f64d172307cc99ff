"""What a command prints: lines and tables for people, and JSON objects."""

from __future__ import annotations

import contextlib
import functools
import os
import re
import shutil
import sys
import unicodedata
from collections import Counter
from itertools import islice, zip_longest

from exifnorm._hints import TYPE_CHECKING, Any, Iterable, Iterator, Sequence, Union

from ..files import signals
from ..model.budgets import ENCODED_CHARACTERS
from ..model.found import CUT, NAMES, cut, damage, each_kind
from ..model.records import AS_BEFORE, BlockRecord, PictureRecord
from ..model.steps import loses, words
from ..model.problems import COUNTED, Problem
from ..model.texts import Members, Result, near, path_members, safe, safe_lines, shown_path
from ..model.verdicts import with_verb
from .exit_codes import DIFFERENCE, SUCCESS, UNKNOWN
from .options import Output

if TYPE_CHECKING:
    import json

    from ..picture import Picture
    from .sheets import Sheet


def status_of_results(results: Iterable[Result]) -> int:
    """The greatest status of some results."""
    statuses = {UNKNOWN if it.is_open else DIFFERENCE if it.has_changed else SUCCESS for it in results}
    return max(statuses, default=SUCCESS)


# A table of three columns for people: names, and two values side by side.

LONGEST_NAME, NARROWEST, WIDEST = 34, 20, 60  # in columns of a terminal


def width(text: str) -> int:
    """The columns that a text takes on a terminal.

    >>> width("Zürich"), width("京都"), width("e\\u0301")
    (6, 4, 1)
    """
    return len(text) if text.isascii() else sum(map(_width_of, text))


@functools.lru_cache(maxsize=4096)
def _width_of(character: str) -> int:
    if unicodedata.combining(character):
        return 0
    return 2 if unicodedata.east_asian_width(character) in "WF" else 1


def columns(rows: Sequence[Sequence[str]], screen: int) -> Iterator[str]:
    """The lines of a table. The first row has the heads; a row of one cell is a heading, and the text of one of two cells isn't cut.

    >>> print("\\n".join(columns([("", "a.jpg", "b.jpg"), ("Artist", "(none)", "Otto")], 60)))
            a.jpg   b.jpg
    Artist  (none)  Otto
    """
    names = min(LONGEST_NAME, max(width(it[0]) for it in rows if len(it) > 1))
    column = max(NARROWEST, min(WIDEST, (screen - names - 4) // 2))
    first = min(column, max([width(it[1]) for it in rows if len(it) > 2], default=0))
    for row in rows:
        if len(row) == 1:
            yield row[0]
            continue
        wide = (names, first, column) if len(row) > 2 else (names, 2 * column)
        for name, before, *after in zip_longest(*map(wrapped, row, wide), fillvalue=""):
            yield f"{_padded(name, names)}  {_padded(before, first)}  {''.join(after)}".rstrip()


def _padded(text: str, wanted: int) -> str:
    return text + " " * (wanted - width(text))


def wrapped(text: str, wanted: int) -> list[str]:
    """The text in lines of so many columns, broken at blanks where it can be.

    >>> wrapped("a vase of 1880", 8), wrapped("abcdefghij", 4)
    (['a vase', 'of 1880'], ['abcd', 'efgh', 'ij'])
    """
    lines: list[str] = []
    line = ""
    for word in text.split(" "):
        joined = f"{line} {word}" if line else word
        if width(joined) <= wanted:
            line = joined
            continue
        lines += [line] if line else []
        start, end = 0, fitting(word, 0, wanted)
        while end < len(word):
            lines.append(word[start:end])
            start, end = end, fitting(word, end, wanted)
        line = word[start:]
    return [*lines, line]


_BREAK = r"(?<! ) (?! )"  # single blanks: more than one align a table


def folded(text: str, screen: int) -> list[str]:
    """A line in lines of so many columns, broken between words. A name at the beginning, which ends with a colon, and a command stay whole, so
    that they can be copied.

    >>> folded("a b.jpg: Exif: refused at 442", 18), folded("1 group: exifnorm-pictures same --catalogue C", 30)
    (['a b.jpg: Exif:', '    refused at 442'], ['1 group:', '    exifnorm-pictures same --catalogue C'])
    """
    if width(text) <= screen:
        return [text]
    body, command, more = text.partition("exifnorm-pictures ")
    head, colon, rest = body.partition(": ")
    words = [head + ":", *re.split(_BREAK, rest)] if colon and width(head) < screen else re.split(_BREAK, body)
    lines = [words[0]]
    for word in [*filter(None, words[1:]), *[command + more] * bool(command)]:
        if width(lines[-1]) + 1 + width(word) <= screen:
            lines[-1] += " " + word
        else:
            lines.append("    " + word)
    return lines


def fitting(text: str, start: int, wanted: int) -> int:
    """The end of the characters from `start` on that fit, at least one."""
    if text.isascii():
        return min(len(text), start + max(wanted, 1))
    taken = 0
    for at in range(start, len(text)):
        taken += _width_of(text[at])
        if taken > wanted:
            return max(at, start + 1)
    return len(text)


def print_line(text: str) -> None:
    """Prints a line, without the control characters that a name or a picture may contain. On a terminal a long one is folded between words."""
    line = safe(text)
    if len(line) > NARROWEST and sys.stdout.isatty():
        print(*folded(line, shutil.get_terminal_size().columns), sep="\n")
    else:
        print(line)


def print_lines(lines: Iterable[str]) -> None:
    """Prints lines one by one, as they are made."""
    for line in lines:
        print_line(line)


MOST_NAMED = 20  # pictures below an answer, of which it isn't known whether they belong to it


def named(head: str, paths: Iterable[bytes], count: int) -> list[str]:
    """The first pictures of some, and how many more there are; no line if there are none."""
    if not count:
        return []
    lines = [head, *(f"  {shown_path(path)}" for path in islice(paths, MOST_NAMED))]
    more = count - MOST_NAMED
    return lines + [f"  and {more:,} more, which --json names"] * (more > 0)


def say_notes(*texts: str) -> None:
    """Says on standard error what belongs to an answer, and would be in the way of a program that reads it."""
    for text in texts:
        signals.say(f"exifnorm-pictures: note: {text}")


@contextlib.contextmanager
def waiting(text: str) -> Iterator[None]:
    """Says on a terminal what may take long, as long as it takes."""
    on_terminal = sys.stderr is not None and sys.stderr.isatty()
    if on_terminal:
        _put(text)
    try:
        yield
    finally:
        if on_terminal:
            _put("\r\x1b[K")  # the line is cleared


def _put(text: str) -> None:
    try:
        print(text, end="", file=sys.stderr, flush=True)
    except OSError:  # nobody reads it
        signals.drop(sys.stderr)


def note_sidecar(picture: bytes) -> None:
    """Says that an XMP file beside a picture isn't read: what it has would seem to be missing."""
    beside = (stem + ending for stem in (picture, os.path.splitext(picture)[0]) for ending in (b".xmp", b".XMP"))
    sidecar = next((name for name in beside if name != picture and os.path.isfile(name)), None)
    if sidecar:
        say_notes(f"{shown_path(sidecar)} isn't read: index --sidecars takes it as metadata of its picture")


def table_of(output: Output, heads: str, more: Sequence[str] = ()) -> Table | None:
    """The table that --csv or --xlsx asks for, if one of them was given. Its heads have commas between them."""
    if not output.csv:
        return None
    return Table(output.sheet, [*heads.split(", "), *more])


# What ExifTool says of a file that is no picture, but may have been one
DAMAGED = {"File is empty": "the file is empty", "Entire file is binary zeros": "the file has only zeros"}


def record_lines(picture: PictureRecord) -> list[str]:
    """Lines for a picture with a problem: the problem, the refusal of a block, or what is left of a damaged file. None if the
    problem was there at the last run, which the counts say."""
    lines = [] if picture.is_known else [*_problems(picture)]
    return [f"{shown_path(picture.path)}: {line}" for line in lines]


def _problems(picture: PictureRecord) -> Iterator[str]:
    if picture.problem and picture.problem != Problem.NO_PICTURE:
        detail = f"to {near(picture.detail[3:])}" if picture.problem == Problem.MOVED else picture.detail
        yield f"{picture.problem}: {detail}"
    yield from (f"{one.name}: {refused_line(one)}" for one in picture.blocks if not one.is_accepted)
    if picture.problem == Problem.NO_PICTURE and picture.detail in DAMAGED:
        yield f"NoPicture: {DAMAGED[picture.detail]}"
    if not picture.problem:
        yield from _damages(picture)


def _damages(picture: PictureRecord) -> Iterator[str]:
    """What is left of a damaged file."""
    parts = [one.what for one in picture.unread]
    yield from (f"not wholly read: {what}" for what in damage(parts))
    if picture.damage and not cut(parts):
        yield f"damaged: {picture.damage}"


def closed_folder(picture: PictureRecord) -> list[str]:
    """A line for a folder that can't be read, which has no row in a catalogue and so no folder above it."""
    return [] if picture.root else [f"the folder {shown_path(picture.path)} can't be read: {picture.detail}"]


def refused_line(block: BlockRecord) -> str:
    """A block that isn't accepted, in a line."""
    if block.repair:
        lost = " and ".join(loses(block.steps))
        return f"refused: {block.refusal}; read after repair: {words(block.steps)}" + (f" (loses {lost})" if lost else "")
    return "failed: OutOfMemory" if block.cause == "OutOfMemory" else f"{block.status}: {block.refusal}"


# "damaged" counts the files without a block. A number of all damaged files may be beside it
_STATES = {**COUNTED, "damaged": "no block in what is left"}


def counted(counts: "Counter[str]", damaged: int = 0) -> str:
    """The states in words, those of the most pictures first, and the number of damaged files."""
    words = {it: _STATES.get(it.removesuffix(AS_BEFORE), it.removesuffix(AS_BEFORE)) for it in counts}
    ordered = sorted(counts, key=lambda it: (-counts[it], words[it], it))
    states = ", ".join(f"{counts[it]:,} {words[it]}{AS_BEFORE * it.endswith(AS_BEFORE)}" for it in ordered) or "no file"
    return states + f"; {damaged:,} cut off or damaged" * bool(damaged)


def local_time(when: str) -> str:
    """A time of a catalogue in the local time zone.

    >>> len(local_time("2026-03-31T12:00:00Z"))
    16
    """
    from datetime import datetime, timezone  # which takes long to import

    try:
        moment = datetime.strptime(when, "%Y-%m-%dT%H:%M:%SZ").replace(tzinfo=timezone.utc)
        return moment.astimezone().strftime("%Y-%m-%d %H:%M")
    except (ValueError, OverflowError):
        return "no time"


# JSON Lines (--json): an object a line, with the name and version of its shape. docs/JSON.md describes them, output.schema.json checks them.

# The versions of commands whose objects have another one than 1. A version grows if a key is renamed or removed, or gets another meaning; a new
# key alone doesn't count.
_VERSIONS = {"changed": 2}


def line_of(command: str, record: str, members: Members) -> str:
    """An object as a line: `record` names what it is about, such as `picture` or `summary`."""
    return _encoder().encode(_object(command, record, members))


def _encoder() -> json.JSONEncoder:
    import json  # which takes long

    return json.JSONEncoder(allow_nan=False)


def print_object(command: str, record: str, members: Members) -> None:
    """Prints an object. One with long texts is printed in parts, since its line would be in memory several times; and before, all of it is
    encoded, since a value that can't be must fail before a part is printed."""
    whole = _object(command, record, members)
    if _is_long(whole):
        for _ in _encoder().iterencode(whole):
            pass
        sys.stdout.writelines(_encoder().iterencode(whole))
        print()
    else:
        print(_encoder().encode(whole))


def answer(output: Output, command: str, record: str, members: Members, lines: Iterable[str]) -> None:
    """Prints an object if --json asks for it, and lines for people otherwise."""
    if output.json:
        print_object(command, record, members)
    else:
        print_lines(lines)


def _object(command: str, record: str, members: Members) -> Members:
    return {"schema": f"exifnorm-pictures/{command}/{_VERSIONS.get(command, 1)}", "record": record, **members}


def _is_long(value: Any) -> bool:
    """Whether a value has long texts, all together."""
    left, waiting = ENCODED_CHARACTERS, [value]
    while waiting:
        one = waiting.pop()
        kind = type(one)
        if kind is str:
            left -= len(one)
            if left < 0:
                return True
        elif kind is dict:
            waiting += one.values()
        elif kind is list or kind is tuple:
            waiting += one
    return False


def picture_object(path: bytes, problem: str | None, detail: str) -> Members:
    """The members that each picture has."""
    return {**path_members(path), "problem": problem or None, "detail": detail or None}


def unread_members(picture: PictureRecord) -> Members:
    """What was not read of a picture that was looked at just now, and what isn't known of a damaged one."""
    parts = [one.what for one in picture.unread]
    return {"not_read": parts, "damage": picture.damage or None, "not_known": picture.not_known}


def record_objects(picture: PictureRecord) -> list[str]:
    """The line for a picture that `index` looked at."""
    about = {
        **picture_object(picture.path, picture.problem, picture.detail),
        "type": picture.type or None,
        "blocks": [one.members for one in picture.blocks],
        **unread_members(picture),
    }
    return [line_of("index", "picture", about)]


# What commands say of the parts of a picture that were not read, and of a file that is cut off or damaged.

REMEDY = "another copy of the file, as from a backup. The missing part can't be restored from this one."


def unread(picture: Picture, parts: Sequence[str]) -> list[str]:
    """Parts that were not read, and the kinds of blocks that may be missing of a damaged file."""
    kinds = [NAMES[kind] for kind in picture.not_known]
    return [*each_kind(parts), *([f"so {with_verb(kinds)} not known"] if kinds else [])]


def picture_cut(picture: Picture) -> list[str]:
    """Where a file is cut off or damaged whose metadata were read."""
    fault = picture._damage_behind
    return [f"{'cut off behind' if fault.startswith(CUT) else 'damaged outside'} its metadata: {fault}"] if fault else []


def not_found(what: str, parts: Sequence[str]) -> str:
    """What is said of what a picture doesn't have, as far as it was read.

    >>> not_found("no block", ()), not_found("no block", ["trailer of 3 bytes"])
    ('no block', 'no block in what was read of the file')
    """
    return what + (" in what is left of the file" if damage(parts) else " in what was read of the file" * bool(parts))


def no_block(picture: Picture) -> str:
    """What is said of a picture without a block."""
    return not_found("no Exif, IPTC or XMP block", picture.not_read)


def damage_members(picture: Picture) -> Members:
    """Where a file is cut off, and the kinds of blocks that may be missing of a damaged one, for a JSON object."""
    return {"damage": picture.damage or None, "not_known": picture.not_known}


def lacks_some(picture: Picture, parts: Sequence[str]) -> bool:
    """Whether the status of a command says that not everything is known: a file, a block or one of these parts was not read."""
    return bool(picture._problem or parts) or any(not it.is_accepted for it in picture.blocks)


def damage_lines(picture: Picture) -> list[str]:
    """What may be missing of a file that is cut off or damaged, and the remedy; nothing for a whole file."""
    if picture._problem and picture.damage:
        return [f"The file is cut off: {picture.damage}.", f"  Remedy: {REMEDY}"]
    if not damage(picture.not_read):
        return [line for it in picture_cut(picture) for line in (f"The file is {it}.", f"  Remedy: {REMEDY}")]
    kinds = " and ".join(NAMES[kind] for kind in picture.not_known) or "further blocks"
    what = f"cut off: {picture.damage}" if cut(picture.not_read) else "damaged"
    return [f"The file is {what}. What is missing may have {kinds}.", f"  Remedy: {REMEDY}"]


def damage_remedy(picture: Picture) -> str | None:
    """The remedy; none for a whole file."""
    return REMEDY if picture.damage or damage(picture.not_read) else None


# Tables for spreadsheets (--csv, --xlsx): RFC 4180 in UTF-8, a line of heads first.
#
# What a spreadsheet would run as a formula gets an apostrophe in front, also inside a text, where a spreadsheet that separates cells by
# semicolons or tabs would begin another cell. Bytes that are no UTF-8 and control characters are escaped as in all other output; only ends
# of lines and tabs inside a text stay.

Cell = Union[str, bytes, int, float, None]

# Excel and LibreOffice take these as the beginning of a formula, the wide ones in East Asian settings
_FORMULA = r'\A(?=[\t\n])|(?:\A|(?<=[;\t\n]))(?="*[=+\-@＝＋－＠])'
_SIGN = r"[\t\n=+\-@＝＋－＠]"  # without one no text is a formula
_PLAIN = r"(?a)(?![+\-])[\w .+\-]*"  # most texts, which stay as they are
_SPECIAL = r'[,;\t\n"]'  # what separates cells or rows somewhere


def cell(text: str) -> str:
    r"""A text as a cell: no spreadsheet takes it for a formula, and it has no control character but ends of lines and tabs.

    >>> cell("=1+1"), cell("a;=1+1"), cell("a\x1bb"), cell("a\nb")
    ("'=1+1", "a;'=1+1", 'a\\x1bb', 'a\nb')
    """
    return _compiled(_FORMULA).sub("'", safe_lines(text)) if _compiled(_SIGN).search(text) else safe_lines(text)


@functools.lru_cache(maxsize=None)
def _compiled(pattern: str) -> "re.Pattern[str]":
    """A pattern, compiled once a table is printed: that takes long, and most commands print none."""
    return re.compile(pattern)


class Table:
    """The table that --csv or --xlsx asks for: on standard output, or in a spreadsheet file."""

    def __init__(self, sheet: Sheet | None, heads: Sequence[str]) -> None:
        self._width = len(heads)
        self._sheet = sheet
        if self._sheet:
            self._sheet.heads(heads)
            return
        self.row(*heads)

    def row(self, *cells: Cell) -> None:
        """Writes a row: a path is bytes, a number stays one, and None is an empty cell, as are those that aren't given."""
        assert len(cells) <= self._width
        cells += (None,) * (self._width - len(cells))
        if self._sheet:
            self._sheet.row(cells)
        else:
            sys.stdout.write(",".join(map(_quoted, cells)) + "\r\n")


def _quoted(value: Cell) -> str:
    """A cell as a line of a table has it: in quotes if it has what separates cells, be it commas, semicolons or tabs."""
    if isinstance(value, str) and _compiled(_PLAIN).fullmatch(value):
        return value
    if value is None or isinstance(value, int):
        return "" if value is None else str(value)
    if isinstance(value, float):
        from decimal import Decimal  # which few tables need

        return format(Decimal(str(value)), "f")  # without an exponent
    text = cell(shown_path(value) if isinstance(value, bytes) else value)
    return '"' + text.replace('"', '""') + '"' if _compiled(_SPECIAL).search(text) else text
