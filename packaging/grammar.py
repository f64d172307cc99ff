"""The command line of a program, read from its own --help and that of each of its commands."""

from __future__ import annotations

import os
import re
import subprocess
from dataclasses import dataclass, field, replace
from functools import lru_cache
from typing import Iterator

WIDE = "1000"  # columns, so that no help text is wrapped
MANY = 99  # operands
COMMAND = re.compile(r"(?m)^ {2,4}([a-z][a-z-]*)  +(\w.*)$")  # in the lists of a help text
OPERANDS = ("Arguments:", "positional arguments:")
NO_FILES = ("FIELD", "N", "PATTERN", "SECONDS", "TEXT", "TITLE")  # values that are no file names


@dataclass
class Option:
    """An option: its names, the name of its value if it takes one, and its text."""

    names: list[str]
    value: str
    text: str

    @property
    def choices(self) -> list[str]:
        """The possible values of an option, if its help lists them: {both,exif} are both and exif."""
        return self.value[1:-1].split(",") if self.value.startswith("{") else []

    @property
    def takes_file(self) -> bool:
        return bool(self.value) and not self.choices and self.value not in NO_FILES


@dataclass
class Command:
    """A command: its name and text, its options, the number of its operands, and the commands of which the first word behind it is one, if any."""

    name: str
    text: str
    options: list[Option] = field(default_factory=list)
    operands: int = 0
    commands: list[Command] = field(default_factory=list)


@dataclass
class Program:
    """A program with its own options and its commands."""

    name: str
    options: list[Option]
    commands: list[Command]


@lru_cache(maxsize=None)
def help_of(program: str, *words: str) -> str:
    """The output of a program for --help."""
    surroundings = {**os.environ, "COLUMNS": WIDE, "LC_ALL": "C.UTF-8", "PYTHONDONTWRITEBYTECODE": "1"}
    return subprocess.run([program, *words, "--help"], env=surroundings, stdout=subprocess.PIPE, check=True, encoding="utf-8").stdout


def section(text: str, headings: tuple[str, ...]) -> list[str]:
    """The lines of a help text below one of the headings, up to an empty line."""
    lines = text.splitlines()
    starts = [i for i, line in enumerate(lines) if line in headings]
    if not starts:
        return []
    rest = lines[starts[0] + 1 :]
    return rest[: rest.index("") if "" in rest else len(rest)]


def options_of(text: str) -> Iterator[Option]:
    """The options in a help text, in all groups.

    >>> list(options_of("options:\\n  -n N, --jobs N   how many"))
    [Option(names=['-n', '--jobs'], value='N', text='how many')]
    >>> list(options_of("options:\\n  --kind {both,exif,iptc}\\n                which blocks"))
    [Option(names=['--kind'], value='{both,exif,iptc}', text='which blocks')]
    """
    for line in re.findall(r"^ +-.*", re.sub(r"\n +(?=[^ -])", "  ", text), re.M):
        heads, _, words = line.strip().partition("  ")
        parts = [it.split(" ", 1) for it in re.split(r", (?=-)", heads)]
        value = "".join(it[1] for it in parts[-1:] if len(it) > 1).strip("<>")
        yield Option([it[0] for it in parts], value, words.strip())


def operands_of(text: str) -> int:
    """The number of a command's operands, not counted if options may come between them."""
    lines = section(text, OPERANDS)
    if not lines:
        return 0
    usage = next(it for it in text.splitlines() if it.lower().startswith("usage:"))
    has_own = any(it.names != ["-h", "--help"] for it in options_of(text))
    return MANY if "..." in usage or has_own else len(lines)


def commands_of(program: str, *before: str) -> Iterator[Command]:
    """The commands in the help of a program, or of one of its commands, each with its own help, which may have further commands."""
    for name, words in COMMAND.findall(help_of(program, *before)):
        own = help_of(program, *before, name)
        yield Command(name, words.strip(), list(options_of(own)), operands_of(own), list(commands_of(program, *before, name)))


def flat(commands: list[Command], before: str = "") -> Iterator[Command]:
    """Each command with the words that lead to it as its name, and those behind it."""
    for command in commands:
        yield replace(command, name=before + command.name)
        yield from flat(command.commands, f"{before}{command.name} ")


def program_of(path: str) -> Program:
    """The grammar of the program with this path."""
    text = help_of(path)
    return Program(os.path.basename(path), list(options_of(text)), list(commands_of(path)))
