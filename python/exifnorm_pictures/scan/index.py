"""`index`: looks at all pictures that are new or changed since the last run, and keeps the results in a catalogue.

The folders are listed while pictures are read, so that a run holds only the names that are read next, however many an archive has.
"""

from __future__ import annotations

import gc
import os
import time
from collections import Counter
from datetime import datetime, timezone
from itertools import chain, islice
from operator import itemgetter

from exifnorm._hints import Callable, Iterable, Iterator, NamedTuple, Sequence

from ..catalogue.store import Catalogue, Known
from ..extract import programs
from ..extract.sidecars import marks
from ..model import budgets
from ..model.found import UNREAD_TRAILER
from ..model.numbers import Numbers
from ..model.problems import AGAIN, GONE, NEEDED, Problem
from ..model.texts import pictures_in_words
from ..model.records import RACY, PictureRecord, is_as_before
from .walk import LONGEST_WAIT, Batch, Excluded, FoundFile, How, Lines, Part, Result, Unlisted, below, can_overlap, outermost
from .moved import Departed, MovedFolders, Paths
from .progress import Progress

BATCH = 1000  # pictures of one transaction
AHEAD = 500  # files that are found at once; as many again are known before the first of them is looked at
FEW = 64  # pictures for which starting a further process takes too long
GARBAGE = 20_000  # objects after which Python looks for rings of them: what is made of a picture has none
FILES = 8  # of batches, which SQLite attaches at once; it can attach ten

PrintLine = Callable[[str], None]
Look = Callable[[Iterable[FoundFile], How], Iterator[Result]]


def looked(work: Iterable[FoundFile], how: How) -> Iterator[Result]:
    """The results for these files, in their order. What is needed takes long to import, and in most runs nothing has changed."""
    files = iter(work)
    first = list(islice(files, 0 if how.processes == 1 else FEW + 1))
    if len(first) <= FEW:
        from .looking import in_this_process

        return in_this_process(chain(first, files), how)
    from .workers import in_several_processes

    return in_several_processes(chain(first, files), how)


class IndexOptions(NamedTuple):
    """The arguments and the progress of a run."""

    names: Sequence[bytes]
    again: bool = False  # also the pictures that haven't changed
    quiet: bool = False
    how: How = How()
    print_line: PrintLine | None = None  # prints a line about a picture that was looked at, once it is committed
    look: Look = looked
    excluded: Excluded = Excluded()  # which has no pattern, and so stays as it is
    moved_line: Callable[[bytes, bytes, int], str] | None = None  # makes one line for all pictures that moved with their folder
    lines: Lines | None = None  # makes the lines about folders that can't be read and names without a file; that of `how` by default
    own: Sequence[str] = ()  # files that aren't looked at, besides the catalogue's
    part: Part | None = None  # of the one folder that is named, of which the catalogue has no other pictures


class Work:
    """What a run has found, and what it has to look at."""

    def __init__(self) -> None:
        self.to_read = 0  # files that are new or changed, as far as folders are listed
        self.new = False  # whether the catalogue, if it knows any picture, doesn't know one of them ..
        self.reread = Paths()  # .. and which of them it knows
        self.unlisted: list[Unlisted] = []
        self.counts: "Counter[str]" = Counter()
        self.sidecars = Numbers()  # of XMP files that belong to pictures, and were files by themselves before
        self.taken: list[int] = []  # those of them that are forgotten
        self.unfinished = Numbers()  # of pictures for which a program was missing that is there now
        self.seen = Numbers()  # of pictures that were found


def index(options: IndexOptions, catalogue: Catalogue) -> "Counter[str]":
    """Looks at the pictures below some folders or with given names. Returns the number of each state, and of `unchanged`.

    A picture that was looked at with this size, these times and this inode is skipped, unless `again` is set.
    """
    run = catalogue.begin_run(_now(), options.how.sidecars, options.how.whole)
    work, first = Work(), catalogue.is_empty()
    at_work = _Looking(options, catalogue, run, work)
    at_work.all(_Finding(options, catalogue, work, first))
    if not first:
        _settle(options, at_work, _gone(options, work, catalogue, run))
    for picture in _named_wrong(work, catalogue):
        at_work.count(picture, options.lines or options.how.lines)
    catalogue.end_run(run, _now())
    return work.counts


def _settle(options: IndexOptions, at_work: "_Looking", departed: Departed) -> None:
    """Keeps and reports what became of pictures that are gone."""
    work, catalogue, run = at_work.work, at_work.catalogue, at_work.run
    if work.taken:
        catalogue.forget_pictures(work.taken)
    vanished = (PictureRecord.of(path, b"", problem=Problem.VANISHED, detail=Problem.VANISHED.text) for path, _ in departed.each())
    while batch := list(islice(vanished, BATCH)):
        catalogue.put(run, batch)
    if work.new:
        departed.settle(catalogue, run, lambda path: path not in work.reread)
    _report(options, at_work, departed)


def _report(options: IndexOptions, at_work: "_Looking", departed: Departed) -> None:
    """Reports pictures that are gone: those that moved with their folder in one line together."""
    folders = MovedFolders()
    for both in departed.moves() if options.moved_line else ():
        folders.add(*both)
    for (path, place), picture in zip(departed.each(), departed.reports()):
        is_alone = place is None or folders.count(path, place) < 2
        at_work.count(picture, options.how.lines if is_alone else None)
    if options.moved_line:
        at_work.print_lines(options.moved_line(*it) for it in folders.lines())


def _now() -> str:
    return datetime.now(timezone.utc).strftime("%Y-%m-%dT%H:%M:%SZ")


def _own_files(name: str) -> tuple[bytes, ...]:
    """The names of the catalogue itself and of SQLite's files beside it."""
    names = {os.path.abspath(os.fsencode(name)), os.path.realpath(os.fsencode(name))}
    return tuple(it + ending for it in names for ending in (b"", b"-wal", b"-shm", b"-journal"))


class _Finding:
    """Finds the files that have to be looked at, each once. It is some files ahead of those that look at them."""

    def __init__(self, options: IndexOptions, catalogue: Catalogue, work: Work, first: bool) -> None:
        """`first`: the catalogue knows no picture."""
        self.options, self.catalogue, self.work, self.first = (options, catalogue, work, first)
        self.is_whole = False  # whether all files are found
        self.named = Paths() if can_overlap(options.names) else None
        self._remounted: list[tuple[int, int]] = []  # a file system that is there now, and an unchanged picture on it
        if not first:
            for number in _unfinished(catalogue):
                work.unfinished.add(number)
        own = [path for name in (catalogue.name, *options.own) for path in _own_files(name)]
        on_sidecar = self._note_sidecar if options.how.sidecars else None
        self._files = below(options.names, work.unlisted.append, own, on_sidecar, options.excluded, options.part)

    def each(self, between: Callable[[], object]) -> Iterator[FoundFile]:
        """The files that have to be looked at; `between` is called each time that some are found. The catalogue is not locked outside."""
        files: list[FoundFile] = []
        while not self.is_whole:
            following = self._next_files()
            self.work.to_read += len(following)
            between()
            yield from files
            files = following
        yield from files

    def _next_files(self) -> list[FoundFile]:
        """Of the next files those that have to be looked at."""
        with self.catalogue.reading():
            files = list(islice(self._files, AHEAD))
            self.is_whole = len(files) < AHEAD
            to_read = list(filter(None, map(self._to_read, files)))
        if self._remounted:
            self.catalogue.set_devices(self._remounted)
            self._remounted = []
        return to_read

    def _to_read(self, file: FoundFile) -> FoundFile | None:
        """A file with what is known of it, if it has to be looked at."""
        work, again = self.work, self.options.again
        if self.named and not self.named.add(file.path):
            return None
        known = None if self.first else self.catalogue.known(file.path)
        if not known:
            work.new |= not self.first
            return file
        work.seen.add(known.id)
        if again or not _is_unchanged(file, known, self.options.how) or known.id in work.unfinished:
            work.reread.add(file.path)
            return file if again else file._replace(problem=known.problem)
        work.counts["unchanged"] += 1
        if known.stamp and file.stamp and known.stamp.device != file.stamp.device:  # mounted again
            self._remounted.append((file.stamp.device, known.id))
        return None

    def _note_sidecar(self, path: bytes) -> None:
        if not self.first and (known := self.catalogue.known(path)):
            self.work.sidecars.add(known.id)


def _unfinished(catalogue: Catalogue) -> Iterator[int]:
    """The numbers of pictures with a part that was not read for want of a program which is there now."""
    if programs.is_there("exiftool"):
        # a cross join begins with the pictures, of which few are concerned
        joined = "pictures CROSS JOIN not_read AS part ON picture = id AND pictures.not_read IS NULL AND what = ?"
        yield from catalogue.rows(f"SELECT id FROM {joined}", (UNREAD_TRAILER,), itemgetter(0))


def _is_unchanged(file: FoundFile, known: Known, how: How) -> bool:
    if known.stamp is None or file.stamp is None or (how.pixels and known.coded_picture is None):
        return False
    has_its_sidecars = known.sidecars == (marks(file.path, file.sidecars) if file.sidecars else "")
    return has_its_sidecars and is_as_before(known.stamp, file.stamp) and not _worth_another(known.problem)


def _worth_another(problem: str | None) -> bool:
    """Whether a problem may be solved although the file is the same: rights, a program that was installed, a file that is back."""
    program = NEEDED.get(problem or "")
    return problem in AGAIN or (program is not None and programs.is_there(program))


def _gone(options: IndexOptions, work: Work, catalogue: Catalogue, run: int) -> Departed:
    """The pictures below the folders that are missing now.

    Those of a folder that can't be read aren't gone: nothing is known of them. Neither are those that are excluded and still there.
    """
    hidden = tuple(it.path.rstrip(b"/") + b"/" for it in work.unlisted)
    departed = Departed()
    for top in outermost(it for it in options.names if os.path.isdir(it)):
        head = len(top.rstrip(b"/")) + 1
        for number, path, problem in catalogue.below(top, run):
            if number in work.seen or problem in GONE or path.startswith(hidden):
                continue
            if number in work.sidecars:
                work.taken.append(number)
            elif not os.path.lexists(path):
                departed.add(catalogue, number, path)
            elif options.excluded and options.excluded.has_below(path[head:]):
                options.excluded.known += 1
    return departed


REFUSED = "problem IS NULL AND (exif IS NULL OR iptc IS NULL OR xmp IS NULL)"  # pictures with a block that isn't accepted
DAMAGED = "damage != ''"  # those that are cut off or damaged, as far as that was seen
OF_XMP = "type = 'XMP' AND problem IS NULL"  # XMP files that are no blocks of pictures
OF_LAST_RUN = "run = (SELECT max(id) FROM runs)"


def number_of(catalogue: Catalogue, condition: str) -> int:
    """How many pictures of a catalogue fit a condition."""
    return catalogue.number_of(f"SELECT count(*) FROM pictures WHERE {condition}")


_BEFORE = "(SELECT whole FROM runs WHERE ended IS NOT NULL ORDER BY id DESC LIMIT 1 OFFSET 1)"
# What an option would read of a picture that is unchanged, and of which the catalogue doesn't have it: of --whole this isn't kept, so the first
# run with it says it. The next run reads RACY ones in any case
_LACKING = {
    "--whole": f"(type = 'JPEG' AND problem IS NULL OR problem = 'TooMuch') AND run IN (SELECT id FROM runs WHERE whole = 0) AND {_BEFORE} = 0",
    "--maker-notes": f"maker_notes != '' AND changed != {RACY} AND id NOT IN (SELECT picture FROM maker_notes)",
}


def lacking(options: IndexOptions, catalogue: Catalogue) -> "Counter[str]":
    """How many pictures lack what an option reads, because nobody has written to them since they were read without it."""
    asked = {"--whole": options.how.whole, "--maker-notes": options.how.maker_notes}
    return Counter({option: number_of(catalogue, _LACKING[option]) for option, is_asked in asked.items() if is_asked and not options.again})


def _named_wrong(work: Work, catalogue: Catalogue) -> Iterator[PictureRecord]:
    """A line for each folder that can't be read, and for each name without a file. The catalogue keeps none of it."""
    for unlisted in work.unlisted:
        known = catalogue.count_below(unlisted.path)
        kept = f"; its {pictures_in_words(known)} stay{'s' * (known == 1)} as before" if known else ""
        yield PictureRecord.of(unlisted.path, b"", problem=Problem.UNREADABLE, detail=unlisted.reason + kept)


class _Looking:
    """Looks at pictures and commits the results in batches, each before it is reported."""

    def __init__(self, options: IndexOptions, catalogue: Catalogue, run: int, work: Work) -> None:
        self.options, self.catalogue, self.run, self.work = (options, catalogue, run, work)
        self.progress = Progress(0, quiet=options.quiet)
        self.ready: list[Result] = []
        self.files = 0  # of batches that are ready
        self.pictures = self.size = 0  # that are ready, and their bytes
        self.done = 0
        self.last = time.monotonic()

    def all(self, finding: "_Finding") -> None:
        """Looks at every picture that must be read, while they are found."""

        def found_some() -> None:
            self.progress.total, self.progress.is_whole = (self.work.to_read, finding.is_whole)
            if self.ready and time.monotonic() - self.last > LONGEST_WAIT:
                self.commit()

        files = finding.each(found_some)
        first = next(files, None)
        if first:
            self._begin()
            self._look(chain([first], files))
            self.progress.done(self.done)

    def _begin(self) -> None:
        """Makes ready for the first picture that is read. In most runs nothing has changed, and they don't load the library."""
        self.progress.start()
        gc.set_threshold(GARBAGE)
        import exifnorm

        self.catalogue.set_version(self.run, exifnorm.version())

    def _look(self, files: Iterable[FoundFile]) -> None:
        """Looks at pictures, and commits each result."""
        for result in self.options.look(files, self.options.how):
            if isinstance(result, Batch):
                if len(self.ready) > self.files:
                    self.commit()  # a catalogue takes the pictures of files first, and their order is that of the names
                self.files += 1
                self.pictures += sum(result.states.values())
            else:
                self.pictures += 1
                self.size += result.kept_bytes
            self.ready.append(result)
            is_much = self.pictures >= BATCH or self.files >= FILES or self.size >= budgets.READY_BYTES
            if is_much or time.monotonic() - self.last > LONGEST_WAIT:
                self.commit()
        if self.ready:
            self.commit()

    def commit(self) -> None:
        """Keeps what is ready, and reports it."""
        batches = [it for it in self.ready if isinstance(it, Batch)]
        entries = [one for it in self.ready for one in (it.unread if isinstance(it, Batch) else (it,))]
        self.catalogue.put(self.run, entries, [it.file for it in batches])
        for result in self.ready:
            if isinstance(result, Batch):
                self.work.counts += result.states
                self.print_lines(result.lines)
                os.unlink(result.file)
            else:
                self.count(result, self.options.how.lines)
        self.done += self.pictures
        self.ready.clear()
        self.pictures = self.size = self.files = 0
        self.last = time.monotonic()
        self.progress.done(self.done)

    def count(self, picture: PictureRecord, lines: Lines | None) -> None:
        """Counts and reports a picture."""
        self.work.counts[picture.state] += 1
        if lines:
            self.print_lines(lines(picture))

    def print_lines(self, lines: Iterable[str]) -> None:
        """Prints lines about pictures."""
        if self.options.print_line:
            for line in lines:
                self.progress.clear()
                self.options.print_line(line)
