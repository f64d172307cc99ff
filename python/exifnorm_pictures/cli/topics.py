"""What `help` says of options, statuses, fields, questions and rules, which several commands have."""

from __future__ import annotations

import textwrap
from typing import Callable, Iterator, Mapping

from ..fields.rules import EXAMPLES
from ..model.budgets import PROGRAM_SECONDS
from .grammar import COMMANDS, joined
from .parser import parsers


# Of each command its statuses below 3
STATUSES = {it.name: {int(line[0]): line[3:] for line in joined(it.statuses)} for it in COMMANDS}
COMMON = {
    3: "bad arguments; or of index and nightly no name leads to a folder or a file",
    4: "the command itself failed: the catalogue, a stream, an output file, the disk or the memory",
    130: "stopped by Ctrl-C; what was reported is kept",
}
END = """If several apply, the status is the greatest of them. With a folder of
catalogues it is at least 2 if one of them is missing or isn't listed. SIGTERM
and SIGHUP end the command by that signal."""


def statuses_of(texts: Mapping[int, str]) -> Iterator[str]:
    """Statuses with what they mean, in lines.

    >>> list(statuses_of({0: "the tables are written"}))
    ['  0    the tables are written']
    """
    for status, text in texts.items():
        yield from textwrap.wrap(text, 80, initial_indent=f"  {status:<3}  ", subsequent_indent=" " * 7)


def text() -> str:
    """What `help statuses` prints."""
    each = [line for command, texts in STATUSES.items() for line in (f"{command}:", *statuses_of(texts))]
    return "\n".join([*each, "each command:", *statuses_of(COMMON), "", END])


OPTIONS = {  # those that no command's help has, and one that starts programs
    "--debug": "print the traceback of an internal error, as EXIFNORM_DEBUG=1 does",
    "--limit": f"how long ExifTool may take for a file (default: {PROGRAM_SECONDS:g})",
    "--jobs": "how many processes read pictures (default: as many as processors)",
    "--whole": "read every byte of a JPEG, not only its head and tail",
    "--no-programs": "start no other program: ExifTool, exiv2, heif-convert, or a Python for small pictures. What only they read is not known then",
}
_ALL = """A file that can't be read, is gone, is no picture or has no metadata gets a
line, and the other files are still read. In names, control characters and
undecodable bytes are escaped. With --json each line is one object; it has the
name as "path", and as "path_hex" too if the name is no UTF-8.

Two Exif blocks, or two IPTC records, mean the same if their normal forms are
equal, which is proved. How blocks are found in pictures, XMP, and groups are
tested. XMP is compared by its statements. ExifTool reads the formats that have
no reader here (Debian: libimage-exiftool-perl)."""
_FIELDS = """FIELD is a name as it is printed, or Artist, dc:title, 2:25, 0x013b, or a
group: GPS, IPTC, XMP-crs. The wildcards * and ? are allowed, as in xmpMM:*;
upper and lower case don't matter. exif:NAME is a field of an Exif block,
XMP-exif:NAME a property of XMP. A label of captions, such as creator or 'date
created', stands for all its fields of Exif, IPTC and XMP; so do position,
serial and owner. Give --only or --ignore again for each further field, or
@FILE, which has a field or a pattern on each line; # begins a comment.
--ignore saves leaves out what every save changes (see the manual page)."""
_FIRST = """The first list or check after index reads the texts of new pictures from the
catalogue, and keeps them in it."""
_QUESTIONS = """A question compares labels by =, !=, has, like (with *, ?, and # for a digit),
and dates and numbers by <, <=, >, >=. Join comparisons by and, or, not and
brackets:
  keywords = clay and not creator like 'Otto*'
  date created < 1950 or without credit
  rights end < today + 30 days or Orientation = upright
  credit one of "Riverside Museum", "Public domain"
  date created = impossible            (30 February, or 25 o'clock)
A label is one of captions, or position, serial, owner, rights end, embargo,
digital source, data mining, person shown or damage, or the name of a field as
this program, ExifTool, exiv2 or the standards have it, such as FNumber,
EXIF:Model or Exif.Photo.DateTimeDigitized. A question about a field takes
longer; its value may be as show or exiftool prints it, or the number: f/11,
1/60 s, upright, 1.
A picture fits if some text of the label does. Capitals, spaces and composed
letters make no difference, but after is, one of, and from FILE (a text on
each line), which take only the very text. In double quotes "" is one of them.
If you give several options, a picture must fit all. A text that a camera
writes by itself doesn't count. damage is what the marks, lengths and check sums
of a file show: no picture is decoded."""
_RULES = f"""Rules:
{textwrap.indent(EXAMPLES, "  ")}
A rule is about every text of a label; the answer names the one that breaks
it. is, one of, from and like take only the very text, and = also one with
other capitals, as in list --where. In like, # is a digit. A date that no
calendar has, as 30 February, breaks each rule about it but never. agree asks
whether Exif, IPTC and XMP of a picture have one text of a label."""


def _options() -> str:
    lines = []
    commands = parsers()[1]
    for name, words in OPTIONS.items():
        having = {
            command: parser._option_string_actions[name] for command, parser in commands.items() if name in parser._option_string_actions
        }
        of = "each command" if len(having) == len(commands) else ", ".join(having)
        head = f"{name} {next(iter(having.values())).metavar or ''}".rstrip()
        lines += textwrap.wrap(f"{words}. Of {of}", 80, initial_indent=f"  {head}  ", subsequent_indent="      ")
    return "\n".join(["Options of several commands:", *lines, "", _ALL])


TOPICS: dict[str, Callable[[], str]] = {
    "options": _options,
    "statuses": text,
    "fields": lambda: _FIELDS,
    "questions": lambda: f"{_QUESTIONS}\n\n{_FIRST}",
    "rules": lambda: f"{_RULES}\n\n{_FIRST}",
}
