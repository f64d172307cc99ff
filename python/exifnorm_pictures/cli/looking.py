"""How pictures are looked at, as the options of a command have it."""

from __future__ import annotations

import contextlib
import os
import sys
import tempfile
from typing import ContextManager, Iterator, Sequence

from ..catalogue import shards
from ..catalogue.store import Catalogue, NoCatalogue
from ..extract import programs
from ..model.errors import WrongUse
from ..model.problems import Problem
from ..model.texts import shown_path
from ..scan.walk import How, Lines
from ..scan.index import OF_XMP, IndexOptions, index, number_of
from ..scan.progress import Progress
from .exit_codes import UNKNOWN
from .options import Files, Run
from .output import closed_folder, say_notes
from .names import is_catalogue
from .parser import refuse


_DEBIAN = f"Debian: {programs.PACKAGES['exiftool']}"


def how_of(run: Run, room: str, lines: Lines | None = None) -> How:
    """How a command looks at pictures."""
    if run.maker_notes and not run.scheduler and not programs.is_there("exiftool"):
        say_notes(f"no MakerNote is read, because ExifTool isn't installed ({_DEBIAN}); later runs ask again")
    return How(
        run.jobs, run.maker_notes, run.whole, run.pixels, run.sidecars, run.limit, room, run.session.debug, lines, run.session.programs
    )


def opened(name: str, run: Run, in_one_file: bool = False) -> Catalogue:
    """A catalogue, or all of a folder of catalogues as one."""
    if not shards.is_folder(name):
        return Catalogue(name)
    known = shards.shards_of(name)
    say_missing(known, run)
    return shards.opened(known, run.session.room, in_one_file)


def say_missing(known: shards.Shards, run: Run) -> None:
    """Says which catalogues of a folder an answer is without; the status is 2 at least then."""
    for note in known.notes:
        say_notes(note)
        run.least.status = UNKNOWN


def files_of(name: str) -> list[str]:
    """The file of a catalogue, or those of a folder of catalogues; none of a folder of pictures."""
    return shards.shards_of(name).there if shards.is_folder(name) else [name] * (not os.path.isdir(name))


def written_files_of(name: str) -> list[str]:
    """The same of a command that writes to them. Raises `NoCatalogue` if the folder names one that lies elsewhere."""
    for other in shards.elsewhere(name):
        raise NoCatalogue(f"{name} isn't written to: {shown_path(os.fsencode(os.path.join(name, other)))} lies elsewhere")
    return files_of(name)


def is_of_pictures(name: str) -> bool:
    """Whether a name is that of a folder of pictures, and not of catalogues."""
    return os.path.isdir(name) and not shards.is_folder(name)


@contextlib.contextmanager
def catalogue_of(name: str, run: Run, in_one_file: bool = False) -> Iterator[Catalogue]:
    """A catalogue, or a new one of a folder, which is removed with the session. Raises `NoCatalogue`, also if a folder below can't be read."""
    if not is_of_pictures(name):
        with opened(name, run, in_one_file) as catalogue:
            yield catalogue
        return
    with _made([os.fsencode(name)], run) as catalogue:
        yield catalogue


@contextlib.contextmanager
def _made(names: Sequence[bytes], run: Run) -> Iterator[Catalogue]:
    """A new catalogue of folders and pictures, which is removed with the session. Raises `NoCatalogue` for a file that isn't one of these."""
    room = tempfile.mkdtemp(dir=run.session.room)
    with Catalogue(os.path.join(room, "catalogue"), make=True) as catalogue:
        closed: list[str] = []
        how = how_of(run, room, closed_folder)
        index(IndexOptions(names, quiet=is_quiet(run), how=how, print_line=closed.append), catalogue)
        if closed:  # its pictures would seem to be missing
            raise NoCatalogue("; ".join(closed))
        for name in filter(is_picture, names):
            known = catalogue.known(os.path.abspath(name))
            if not known or known.problem == Problem.NO_PICTURE:
                raise NoCatalogue(f"{shown_path(name)} is no picture, and no catalogue")
        if not number_of(catalogue, "problem IS NOT 'NoPicture'"):
            note_no_picture(names[0])
        yield catalogue


def note_no_picture(folder: bytes) -> None:
    """Says that a folder has no picture: the answer would seem to be one about those that were meant, as on a disk that isn't mounted."""
    say_notes(f"no picture is below {shown_path(folder)}: is its disk mounted?")


def is_quiet(run: Run) -> bool:
    """Whether no progress is shown."""
    return run.quiet or not sys.stderr.isatty()


class Preparing:
    """Shows on a terminal for how many pictures the texts for questions are ready."""

    def __init__(self, run: Run) -> None:
        self._is_quiet = is_quiet(run)
        self._progress: Progress | None = None

    def report(self, done: int, due: int) -> None:
        """Shows how many are done; the line goes away with the last one."""
        self._progress = self._progress or Progress(due, quiet=self._is_quiet, what="preparing questions: ")
        if done < due:
            self._progress.done(done)
        else:
            self._progress.clear()


def catalogue_for_questions(name: str, run: Run) -> ContextManager[Catalogue]:
    """The same catalogue as of `catalogue_of`; one that is a file keeps the texts of its pictures, if it can be written."""
    if not is_of_pictures(name):
        keep_texts(name, run)
    return catalogue_of(name, run)


def catalogue_of_pictures(names: Sequence[bytes], run: Run) -> ContextManager[Catalogue]:
    """The same of one name, or of several folders and pictures."""
    if len(names) == 1 and not is_picture(names[0]):
        return catalogue_for_questions(os.fsdecode(names[0]), run)
    for name in names:
        if not is_of_pictures(os.fsdecode(name)) and not is_picture(name):
            raise WrongUse(f"{shown_path(name)}: by these rules one catalogue is checked, or folders and pictures together")
    return _made(names, run)


def is_picture(name: bytes) -> bool:
    """Whether a name is that of a file which is no catalogue."""
    return os.path.isfile(name) and not is_catalogue(os.fsdecode(name), decides=True)


def keep_texts(name: str, run: Run) -> None:
    """Lets a catalogue, or each of a folder of catalogues, keep the texts of its pictures, if it can be written."""
    from ..catalogue import kept_texts  # which takes long to import

    for file in [] if any(shards.elsewhere(name)) else files_of(name):
        kept_texts.keep(file, Preparing(run).report)


def xmp_files_alone(count: int) -> str:
    """How many XMP files are none of a picture's metadata."""
    return "1 XMP file counts as a file of its own" if count == 1 else f"{count:,} XMP files count as files of their own"


def note_sidecars(catalogue: Catalogue, sources: Sequence[bytes], run: Run) -> None:
    """The same of the folders that a question is about; of one about damage also that pictures aren't decoded."""
    is_read = any(is_of_pictures(os.fsdecode(it)) for it in sources)
    note_alone(number_of(catalogue, OF_XMP) if is_read and not run.sidecars else 0)
    say_notes(*["damage is what the marks, lengths and check sums of a file show: no picture is decoded"] * run.pixels)


def note_alone(count: int) -> None:
    """Says that the XMP files of a folder are none of its pictures' metadata: a picture would seem to lack what the file beside it has."""
    say_notes(
        *[f"{xmp_files_alone(count)}: --sidecars of list, check and index takes those beside pictures as metadata of them"] * bool(count)
    )


def refuse_for_catalogues(files: Files, run: Run, sources: Sequence[bytes]) -> None:
    """Refuses options that say how pictures are read, if these were read by `index`."""
    given = [option for option, is_given in (("whole", run.whole), ("sidecars", run.sidecars)) if is_given]
    if given and not all(is_of_pictures(os.fsdecode(it)) or is_picture(it) for it in sources):
        refuse(files.command, f"--{given[0]} is for folders: a catalogue has what index --{given[0]} read")
