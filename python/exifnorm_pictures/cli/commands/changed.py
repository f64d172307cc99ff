"""The command `changed`."""

from __future__ import annotations

import argparse
import contextlib
import functools
import json
import os
import shlex
import shutil
import sys
from collections import Counter
from typing import Callable, IO, Iterable, Iterator, NamedTuple, Sequence

from ...catalogue.store import Catalogue, NoCatalogue, of_day
from ...comparison.changed import states as changes
from ...comparison.changed.pairs import heads_of
from ...comparison.changed.summary import Summary
from ...comparison.changed.undo import arguments
from ...comparison.coded import Coded, sentence_of_coded
from ...comparison.wording import NONE, line_of, tell_apart
from ...fields.choosing import lines as lines_of_choice
from ...fields.listing import MAKER_NOTE
from ...fields.names import group_name
from ...files import atomic
from ...judge.sides import AFTER
from ...model.errors import WrongUse
from ...model.texts import Result, pictures_in_words, shown_path
from .. import changed_tables
from ..choice import choice_of, listings_of, note_absent, refuse_unknown
from ..exit_codes import UNKNOWN
from ..options import Fields, Output, Run, group_of, groups_of
from ..output import MOST_NAMED, print_line, print_lines, say_notes, status_of_results, table_of
from ..looking import catalogue_of, files_of, is_of_pictures
from ..names import each_of_list, refuse_pictures, say_unknown
from ..parser import refuse


def run(arguments: argparse.Namespace) -> int:
    """Prints the differences between two states."""
    files, run, output = groups_of(arguments)
    if arguments.picture is not None:
        names = [arguments.before, arguments.after, *arguments.more]
        return changed_tables.history_of(os.fsencode(arguments.picture), names, run, output)
    if arguments.more:
        refuse("changed", "two catalogues or folders are compared; --picture takes more")
    sides = (arguments.before, arguments.after)
    _refuse_missing(*sides)
    refuse_pictures(*sides)
    _refuse_for_catalogues(run, *sides)
    listed = list(each_of_list(files)) if files.files_from else None
    with contextlib.ExitStack() as open_:
        run = _with_sidecars(run, *sides)
        before, after = (open_.enter_context(catalogue_of(it, run, True)) for it in sides)
        asked = _Asked(*sides, arguments.each, arguments.all, arguments.edit, arguments.null, arguments.match)
        work = _Work(asked, group_of(Fields, arguments), run, before, after, listed)
        if arguments.undo:
            work.undo = Undo(open_.enter_context(open(os.path.join(run.session.room, "undo"), "w+b")))
        work.print(output)
        if work.undo:
            kept = [file for side in sides for file in files_of(side)]
            said = work.undo.put(arguments.undo, heads_of((before, after))[AFTER], kept)
            say_notes(*said) if output.csv or output.json or arguments.null else print_lines(said)
        if listed:
            is_known = _knows(before, after)
            say_unknown(iter(sorted(it for it in listed if not is_known(it))))
    return max(status_of_results(work.counts), UNKNOWN * bool(work.undo and work.undo.left))


Comparisons = Iterable[changes.Compared]


class _Asked(NamedTuple):
    """The options of this command alone."""

    before: str
    after: str
    each: bool
    all: bool
    edit: int
    null: bool
    match: str


class _Work:
    """Two catalogues, and which of their pictures are compared and listed."""

    def __init__(
        self,
        asked: _Asked,
        fields: Fields,
        run: Run,
        before: Catalogue,
        after: Catalogue,
        names: Sequence[bytes] | None,
    ) -> None:
        self.counts: "Counter[Result]" = Counter()
        self.asked, self.before, self.after = asked, before, after
        self.choice = choice_of(fields)
        refuse_unknown(self.choice, listings_of(before, after))
        self._session = run.session if run.session.programs else None
        self._only = None if names is None else {it for name in names for it in (os.path.normpath(name), os.path.abspath(name))}
        self._pictures: "Counter[Coded]" = Counter()  # by what is known of the coded ones
        folders = sum(map(is_of_pictures, (asked.before, asked.after)))
        has_pixels = before.has_digests() and after.has_digests()
        self._pixels = "" if has_pixels else ("index --pixels", "index --pixels, and --pixels here,", "--pixels")[folders]
        self._asks_for_pictures = not fields.only  # the words of --only are all that is asked
        self.undo: Undo | None = None

    def print(self, output: Output) -> None:
        """Prints all in the form that is asked for."""
        table = table_of(output, changed_tables.HEADS)
        listed = self._listed()
        if table:
            changed_tables.print_table(table, listed, self.choice)
            say_notes(*self._of_pictures())
        elif output.json:
            changed_tables.print_objects(listed, self.counts, self.choice, self._pictures)
        elif self.asked.each or self.asked.all or output.exact:
            self._print_each(listed, output.exact)
        elif self.asked.edit:
            self._print_names(listed)
        else:
            self._print_summary()

    def _compared(self) -> Comparisons:
        """The pictures; when all are compared, it is noted which words fit no field of them."""
        yield from changes.changed(
            self.before,
            self.after,
            self.counts,
            self._only,
            self.asked.all,
            self._session,
            self.choice,
            None if self.asked.match else self._pictures,
            bool(self.asked.match),
        )
        note_absent(self.choice, self.before, self.after)

    def _listed(self) -> Comparisons:
        """The pictures that are listed: those that aren't the same, or those of a group, which is
        known once all are compared. So these are compared twice."""
        if self.asked.edit:
            kinds = self._kinds(self.asked.edit)
            summary = Summary(self.choice, 1)
            yield from self._seen(it for it in self._compared() if summary.add(it) in kinds)
            return
        for it in self._seen(self._compared()):
            may_look_otherwise = self._asks_for_pictures and it.picture == Coded.BESIDE
            if self.asked.all or it.result.has_changed is not False or may_look_otherwise:
                yield it

    def _seen(self, comparisons: Comparisons) -> Comparisons:
        """The comparisons, whose earlier texts are noted if they are to be put back."""
        return self.undo.seen(comparisons) if self.undo else comparisons

    def _kinds(self, number: int) -> set[int]:
        """The numbers that the pictures of a group have. Raises `WrongUse` without such a one."""
        summary = Summary(self.choice, 1)
        for comparison in self._compared():
            summary.add(comparison)
        self.counts.clear()
        self._pictures.clear()
        self.choice.left_out.clear()
        for group in summary.kinds.groups():
            if number in group.kinds:
                return set(group.kinds)
        raise WrongUse(f"--edit {number}: no group of pictures has it; changed lists the groups")

    def _of_pictures(self) -> list[str]:
        """What was compared of the coded pictures, if there are pictures on both sides."""
        return list(filter(None, [sentence_of_coded(self._pictures, self._pixels)])) if self._asks_for_pictures else []

    def _print_each(self, comparisons: Comparisons, exact: bool) -> None:
        with contextlib.closing(changes.Equal()) as equal:
            for comparison in comparisons:
                parts = json.dumps(_parts_of(comparison, exact))
                equal.add(parts, comparison.name, (comparison.moved_to or comparison.partner) is not None)
            _print_equal(equal)
        print_line(", ".join(f"{self.counts[it]} {it}" for it in Result if self.counts[it]) or "no picture")
        print_lines([*self._of_pictures(), *lines_of_choice(self.choice, True)])

    def _print_summary(self) -> None:
        counted = Summary(self.choice)
        for comparison in self._seen(self._compared()):
            counted.add(comparison)
        notes = [*self._of_pictures(), *lines_of_choice(self.choice, True)]
        for line in changed_tables.lines(counted, self.counts, notes, _style(), bool(self.asked.match)):
            print(line) if "\x1b" in line else print_line(line)  # all texts in it were made safe

    def _print_names(self, comparisons: Comparisons) -> None:
        """The pictures as they are named after the change; for other programs their paths."""
        head = heads_of((self.before, self.after))[AFTER]
        for it in comparisons:
            name = it.name if it.moved_to is None else it.moved_to
            if not self.asked.null:
                print_line(shown_path(name))
            else:
                sys.stdout.buffer.write(os.path.join(head, name) + b"\0")
        sys.stdout.buffer.flush()


def _style() -> changed_tables.Style:
    """Colours only on a terminal that has them, unless somebody wants none (no-color.org)."""
    if not sys.stdout.isatty():
        return changed_tables.Style()
    has_colours = os.environ.get("TERM", "dumb") != "dumb" and not os.environ.get("NO_COLOR")
    return changed_tables.Style(shutil.get_terminal_size().columns, has_colours)


def _knows(*sides: Catalogue) -> Callable[[bytes], bool]:
    """Whether a name is a picture's of a side: a path below its folder, or a full one."""
    folders = [it for side in sides for it in side.roots()]

    def is_known(name: bytes) -> bool:
        places = [os.path.abspath(name), *(os.path.normpath(os.path.join(it, name)) for it in folders)]
        return any(side.has(it) for side in sides for it in places)

    return is_known


def _refuse_missing(*names: str) -> None:
    """Raises `NoCatalogue` if nothing has one of these names."""
    for name in names:
        try:
            os.stat(name)
        except FileNotFoundError:
            raise NoCatalogue(f"there is no folder or catalogue {name}{of_day(name)}") from None
        except OSError:  # it may be there
            pass


def _refuse_for_catalogues(run: Run, *names: str) -> None:
    """Raises `WrongUse` if an option is for folders, and two catalogues are compared."""
    given = [word for word, is_given in (("pixels", run.pixels), ("whole", run.whole)) if is_given]
    if given and not any(map(is_of_pictures, names)):
        raise WrongUse(f"--{given[0]} is for folders: a catalogue has what index --{given[0]} read")


def _with_sidecars(run: Run, *names: str) -> Run:
    """A folder is read with XMP sidecars if the catalogue that it is compared with has them. Raises `WrongUse`."""
    has_sidecars = False
    for name in names:
        for file in files_of(name):
            with Catalogue(file) as catalogue:
                if run.sidecars and not catalogue.has_sidecars() and not catalogue.is_empty():
                    raise WrongUse(f"{catalogue.name} was made without --sidecars: leave it out, or make a new catalogue")
                has_sidecars = has_sidecars or catalogue.has_sidecars()
    return run._replace(sidecars=run.sidecars or has_sidecars)


def _parts_of(comparison: changes.Compared, exact: bool) -> list[object]:
    """The changes of a picture, without its name."""
    note = f" ({comparison.note})" if comparison.note else ""
    to = "" if comparison.moved_to is None else f" to {tell_apart([shown_path(comparison.name), shown_path(comparison.moved_to)])[1]}"
    to += "" if comparison.partner is None else f", compared with {shown_path(comparison.partner)}"
    return [
        bool(comparison.changes),
        f"{comparison.result}{to}{note}",
        [*(line_of(one, exact) for one in comparison.changes), *_readings(comparison, exact)],
    ]


def _readings(comparison: changes.Compared, exact: bool) -> Iterator[str]:
    """Each value of a MakerNote that ExifTool reads otherwise."""
    name = group_name(*MAKER_NOTE)
    for value in comparison.maker_note or () if exact else ():
        yield f"~ {name} {value.name}: {NONE if value.before is None else value.before} -> {NONE if value.after is None else value.after}"


def _print_equal(equal: changes.Equal) -> None:
    """Pictures with equal changes together; the others a head each."""
    for text, count, names in equal.all():
        grouped, head, lines = json.loads(text)
        if grouped and count > 1:
            print_line(f"{count:,} pictures: {head}")
            print_lines(f"  {it} in {count:,} pictures" for it in lines)
            print_lines(f"    {shown_path(name)}" for name in names)
        else:
            for name in names:
                print_line(f"{shown_path(name)}: {head}")
                print_lines(f"  {line}" for line in lines)


_HEAD = b"# exifnorm-pictures changed --undo\n"
# What isn't known of such a picture is no text
_HAVE_TEXTS = (Result.MOVED_NOTE, Result.SAME_REPAIRED, Result.ONLY_REACHED)


class Undo:
    """The arguments of a run, in a file of its session until all are known."""

    def __init__(self, file: IO[bytes]) -> None:
        self._file = file
        self.pictures = 0  # whose texts are put back
        self.left: list[str] = []  # the first lines about those that aren't
        self._count = 0
        file.write(_HEAD)

    def seen(self, comparisons: Iterable[changes.Compared]) -> Iterator[changes.Compared]:
        """The comparisons, after the arguments of each were written."""
        for comparison in comparisons:
            place = comparison.moved_to or comparison.name
            lines, left = arguments(place, comparison.changes)
            self.pictures += bool(lines)
            left += _not_compared(comparison)
            if left:
                self._count += 1
                line = f"{shown_path(place)}: {', '.join(left)}"
                self.left += [f"  {line}"] * (self._count <= MOST_NAMED)
                lines.append(b"# left as it is: " + line.encode())
            self._file.writelines(it + b"\n" for it in lines)
            yield comparison

    def put(self, name: str, folder: bytes, kept: Sequence[str]) -> Iterator[str]:
        """Puts the file in its place, where it replaces nothing but an earlier one, and says how
        it is used and what it leaves. Names of pictures are below a folder, if there is one."""
        self._file.seek(0)
        write = functools.partial(shutil.copyfileobj, self._file)
        atomic.put(name, write, lambda head: head.startswith(_HEAD), tuple(kept))
        to = f"cd {shlex.quote(os.fsdecode(folder.rstrip(b'/')))} && " if folder else ""
        command = f"{to}exiftool -@ {shlex.quote(os.path.abspath(name))}"
        texts = f"the earlier texts of labels in {pictures_in_words(self.pictures)}"
        yield f"{shown_path(name)}: {texts}; no other field. To put them back: {command}"
        if self.left:
            yield f"left as they are in {pictures_in_words(self._count)}:"
            yield from self.left
        if self._count > MOST_NAMED:
            yield f"  and {self._count - MOST_NAMED:,} more, which the file names"


def _not_compared(comparison: changes.Compared) -> list[str]:
    """What nobody can put back, or knows to be the same."""
    is_open = comparison.result.is_open and comparison.result not in _HAVE_TEXTS
    if comparison.result == Result.MISSING_AFTER:
        return ["the picture is missing"]
    return ["not wholly compared"] * (is_open or comparison.has_more)
