"""The names of pictures that a command gets: those of its arguments and those of a list."""

from __future__ import annotations

import os
import sys
from itertools import chain, islice

from exifnorm._hints import TYPE_CHECKING, BinaryIO, Iterator, Sequence

from ..files import opening
from ..model.errors import WrongUse
from ..model.texts import escaped, shown_path
from ..scan.walk import BadList, names_in_list
from .options import Files
from .output import say_notes
from .parser import refuse

if TYPE_CHECKING:
    from ..catalogue.store import Catalogue


def each_of_list(files: Files) -> Iterator[bytes]:
    """The names of --files-from. Those of standard input come one by one, and what was printed is written before more are read."""
    if files.files_from:
        yield from names_in_list(files.files_from, files.null, sys.stdout.flush)


def chosen_paths(files: Files) -> set[bytes] | None:
    """The names of --files-from as absolute paths; None without a list."""
    return {os.path.abspath(it) for it in each_of_list(files)} if files.files_from else None


def chosen_in(catalogue: Catalogue, files: Files) -> str | None:
    """The same as a table beside a catalogue."""
    return catalogue.choose(map(os.path.abspath, each_of_list(files))) if files.files_from else None


SHOWN = 3  # names of a list that are printed in a line


def say_unknown(unknown: Iterator[bytes]) -> None:
    """Names on standard error the first of those of --files-from that no picture has: the answer is about the others alone."""
    shown = list(map(shown_path, islice(unknown, SHOWN)))
    more = sum(1 for _ in unknown)
    if shown:
        have = "1 name of the list is no picture's" if len(shown) == 1 else f"{len(shown) + more:,} names of the list are no picture's"
        say_notes(f"{have}: {', '.join([*shown, *['..'] * bool(more)])}")


def named(files: Files) -> list[bytes]:
    """The names of the arguments and of the list together, each once; at least one."""
    return list(dict.fromkeys(each_name(files)))


def each_name(files: Files) -> Iterator[bytes]:
    """The same, one by one: a name of standard input before the next one is read. One that the list repeats is repeated, because a program may
    ask again for a picture that it has changed."""
    if not files.names and not files.files_from:
        refuse(files.command, "give at least one name")
    for name in chain(map(os.fsencode, dict.fromkeys(files.names)), each_of_list(files)):
        if b"\0" in name:
            raise BadList("a name contains a NUL")
        yield name


def is_list(files: Files) -> bool:
    """Whether each picture needs its name above what is printed of it: there may be several."""
    return bool(files.files_from) or len(set(files.names)) > 1


def is_catalogue(name: str, decides: bool = False) -> bool:
    """Whether a name is that of a file of SQLite, such as a catalogue, or of a folder of catalogues. A file that can't be read is none;
    if this decides what a command does, it raises OSError."""
    if os.path.isdir(name):
        from ..catalogue import shards  # which takes long to import, and most names are those of files

        return shards.is_folder(name)
    try:
        with opening.reading(os.fsencode(name)) as file:
            return file.read(16) == b"SQLite format 3\0"
    except OSError as error:
        if decides and os.path.lexists(name):
            raise OSError(error.errno, error.strerror, os.fsencode(name)) from None
        return False


def refuse_folders(*names: str) -> None:
    """Raises `WrongUse` if one of the names that `compare` gets is a folder or a catalogue."""
    for name in names:
        if os.path.isdir(name) or is_catalogue(os.path.abspath(name)):
            what = "a folder" if os.path.isdir(name) else "a catalogue"
            raise WrongUse(f"{shown_path(name)} is {what}: compare takes two pictures; changed compares folders and catalogues")


def refuse_pictures(*names: str) -> None:
    """Raises `WrongUse` if the names that `changed` gets are files and no catalogues."""
    if all(os.path.isfile(it) and os.path.getsize(it) and not is_catalogue(it) for it in names):
        raise WrongUse("changed compares folders and catalogues; for two pictures use: exifnorm-pictures compare A B")


_MAKERS = ("index", "nightly")  # which make the catalogue of --catalogue, if it is missing


def with_first(files: Files) -> Files:
    """The names with the first one, which is no catalogue."""
    return files if files.source is None else files._replace(source=None, names=[files.source, *files.names])


def settle_first(files: Files) -> tuple[str, Files]:
    """The catalogue of --catalogue, or the first name, and the other names. Raises `WrongUse`: a name alone is never taken for a new catalogue,
    because it may be that of a folder which isn't mounted."""
    files = with_first(files)
    if files.catalogue is not None:
        return files.catalogue, files
    if not files.names:
        refuse(files.command, f"give a catalogue: exifnorm-pictures {_line(files.command, files.names)}")
    name = files.names[0]
    if not is_catalogue(name, decides=True):
        what = "is a folder and" if os.path.isdir(name) else "is a file and" if os.path.lexists(name) else "isn't there, so it is"
        option = ", or by --catalogue" * (files.command in _MAKERS)
        why = f"{escaped(name)} {what} not a catalogue: give a catalogue as the first name{option}"
        raise WrongUse(f"{why}. Write: exifnorm-pictures {_line(files.command, files.names)}")
    return name, files._replace(names=files.names[1:])


def _line(command: str, names: Sequence[str]) -> str:
    """How a command is written whose first name is no catalogue, with the name that may be meant as one."""
    import shlex

    makes = command in _MAKERS
    catalogues = [name for name in names if is_catalogue(name)]
    # of several names one that nothing has may be meant as that of a new catalogue
    meant = catalogues or [name for name in names if makes and len(names) > 1 and not os.path.lexists(name)]
    catalogue = meant[0] if len(meant) == 1 else "CATALOGUE"
    others = [escaped(shlex.quote(name)) for name in names if [name] != meant] or ["FOLDER"]
    catalogue = escaped(shlex.quote(catalogue))
    words = [*others, "--catalogue", catalogue] if makes and not catalogues else [catalogue, *others]
    return " ".join([command, *words])


# Files that somebody writes for rules and questions: the rules, and words.

_LONGEST = 10_000_000  # bytes


def text_of(file: BinaryIO, name: str) -> str:
    """The text that a file has. Raises `OSError`, and `WrongUse` if it is no text."""
    octets = file.read(_LONGEST + 1)
    if len(octets) > _LONGEST:
        raise WrongUse(f"{escaped(name)} is longer than {_LONGEST:,} bytes")
    try:
        return octets.decode("utf-8-sig")
    except UnicodeDecodeError:
        raise WrongUse(f"{escaped(name)} is no text in UTF-8") from None


def words_in(text: str, name: str) -> list[str]:
    """The words of a file, one each line; lines that begin with # are comments."""
    from ..fields.tokens import MOST_WORDS  # which few runs need

    if text.count("\n") > MOST_WORDS:
        raise WrongUse(f"{escaped(name)} has more than {MOST_WORDS:,} lines")
    lines = (line.strip() for line in text.splitlines())
    return [line for line in lines if line and not line.startswith("#")]


def text_of_file(name: str) -> str:
    """The text of a regular file: rules and questions may be a stranger's, and name any file."""
    with opening.reading(os.fsencode(name)) as file:
        return text_of(file, name)


def words_of_file(name: str) -> list[str]:
    """The words of a regular file."""
    return words_in(text_of_file(name), name)
