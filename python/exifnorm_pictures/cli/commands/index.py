"""The command `index`."""

from __future__ import annotations

import argparse
import os
import shlex
from collections import Counter
from typing import Iterable, Iterator, Sequence

from ...catalogue import shards
from ...catalogue.nights import copy_over
from ...catalogue.store import Catalogue
from ...model.errors import WrongUse
from ...model.problems import NOT_READABLE
from ...model.texts import escaped, in_words, kind_of_part, moved_line, pictures_in_words, shown_path
from ...scan.index import DAMAGED, OF_LAST_RUN, OF_XMP, REFUSED, IndexOptions, index, lacking, number_of
from ...scan.parts import Outcome, Plan, indexed, plan, together
from ...scan.walk import Excluded
from ..looking import how_of, xmp_files_alone
from ..names import is_catalogue, named, settle_first, with_first
from ..exit_codes import SUCCESS, UNKNOWN
from ..options import Files, Output, Run, groups_of
from ..output import answer, counted, print_line, print_lines, record_lines, record_objects, say_notes


def going_on(run: Run, name: str, has_sidecars: bool, has_digests: bool, is_empty: bool) -> Run:
    """Goes on with XMP sidecars, and with digests of coded pictures, where some were read before. Raises `WrongUse`."""
    if run.sidecars and not has_sidecars and not is_empty:
        raise WrongUse(f"{name} was made without --sidecars: make a new one")
    # of the pictures that changed, too
    return run._replace(sidecars=run.sidecars or has_sidecars, pixels=run.pixels or has_digests)


def run(arguments: argparse.Namespace) -> int:
    """Looks at pictures and keeps the results."""
    files, run, output = groups_of(arguments)
    name, files = (arguments.shards, with_first(files)) if arguments.shards else settle_first(files)
    if arguments.shards or shards.is_folder(name):
        return _indexed_shards(name, named(files), run, output, arguments.keep_old)
    return _indexed(name, _names(name, files, run), run, output, arguments.keep_old)


def _indexed(name: str, names: Sequence[bytes], run: Run, output: Output, keep_old: str | None) -> int:
    """Looks at the pictures of one catalogue. Returns the status."""
    excluded = Excluded(run.exclude)
    has_words = not output.json and not run.quiet
    with Catalogue(name, make=True) as catalogue:
        if keep_old:
            _keep_old(catalogue, keep_old, run)
        run = going_on(run, name, catalogue.has_sidecars(), catalogue.has_digests(), catalogue.is_empty())
        options = printing_options(run, output, names)._replace(excluded=excluded)
        counts, unread = index(options, catalogue), lacking(options, catalogue)
        parts = _parts(catalogue) if has_words else []
        damaged = number_of(catalogue, f"{DAMAGED} AND {OF_LAST_RUN}")
        steps = list(_next_steps(catalogue, name, excluded.known)) if has_words else []
    if excluded.count:
        counts["excluded"] = excluded.count
    say_unused(excluded.unused())
    say_notes(*not_read_again(unread))
    status = _print_end(output, counts, damaged, parts, steps)
    # of a name that is a pipe's or a device's
    is_special = any(os.path.exists(it) and not (os.path.isfile(it) or os.path.isdir(it)) for it in names)
    return UNKNOWN if is_special else status


def not_read_again(counts: "Counter[str]") -> Iterator[str]:
    """What options left as it was, because the files are unchanged: it would seem that it was done for them, too."""
    for option, count in counts.items():
        if count:
            yield f"{pictures_in_words(count)} unchanged, and not read again by {option}: index --again {option} reads all"


def _keep_old(catalogue: Catalogue, old: str, run: Run) -> None:
    """Copies the catalogue, unless it has a part of what a run was to find that was stopped: the copy from before that run is compared with."""
    if catalogue.was_stopped() and is_catalogue(old):
        say_notes(f"{escaped(old)} stays as it was: the last run was stopped, and this one goes on")
    else:
        copy_over(catalogue, old, run.session.room)


def printing_options(run: Run, output: Output, names: Sequence[bytes]) -> IndexOptions:
    """The options of a run, with the lines that are printed about pictures."""
    lines = record_objects if output.json else None if run.quiet else record_lines
    moved = None if output.json or run.quiet else moved_line
    how = how_of(run, run.session.room, lines)
    return IndexOptions(names, run.again, run.quiet, how, print_line, moved_line=moved, lines=lines or record_lines)


def say_unused(patterns: Iterable[str]) -> None:
    """Says which patterns of --exclude have fitted nothing."""
    say_notes(*(f"--exclude {pattern} fits no file and no folder" for pattern in patterns))


def _names(catalogue: str, files: Files, run: Run) -> list[bytes]:
    """The names that are given. Raises `WrongUse`."""
    names = named(files)
    if run.scheduler:
        raise WrongUse("--scheduler is for a catalogue of each folder: give --shards DIR in place of a catalogue")
    if not any(map(os.path.lexists, names)) and not _are_known(names, catalogue):
        raise WrongUse(f"there is no folder or file {', '.join(map(shown_path, names))}")
    return names


def _are_known(names: Sequence[bytes], catalogue: str) -> bool:
    """Whether a catalogue has a picture that a name leads to, or led to before a folder was removed or unmounted."""
    if not os.path.lexists(catalogue):
        return False
    with Catalogue(catalogue) as known:
        return any(known.has(path) or any(True for _ in known.below(path)) for path in (os.path.abspath(it) for it in names))


def _next_steps(catalogue: Catalogue, name: str, excluded: int) -> Iterator[str]:
    """What can be done with the catalogue, a line for each."""
    from ...comparison.same import groups  # which takes long to import, and --quiet needs none of it

    word = escaped(shlex.quote(name))
    if count := groups.totals(catalogue)[0]:
        yield f"{in_words(count, 'group')} of pictures whose metadata mean the same: exifnorm-pictures same {word}"
    if damaged := number_of(catalogue, DAMAGED):
        yield f"{damaged:,} cut off or damaged: exifnorm-pictures report {word} --html report.html"
    if refused := number_of(catalogue, REFUSED):
        yield f"{refused:,} refused or unreadable: exifnorm-pictures report {word} --html report.html"
    if count := 0 if catalogue.has_sidecars() else number_of(catalogue, OF_XMP):
        yield f"{xmp_files_alone(count)}: index --sidecars, with a new catalogue, takes those beside pictures as metadata of them"
    if excluded:
        yield f"{excluded:,} excluded, and in the catalogue from an earlier run: exifnorm-pictures catalogue forget {word} FOLDER"


def _indexed_shards(where: str, names: Sequence[bytes], run: Run, output: Output, old: str | None) -> int:
    """Keeps the pictures of each part of an archive in a catalogue of its own in the folder `where`.
    Returns the status."""
    if old:
        raise WrongUse(f"--keep-old copies one catalogue, and {escaped(where)} is a folder of them: copy it before the run")
    outcome = together(*(_on_cluster if run.scheduler else _here)(where, names, run, output))
    say_unused(sorted(outcome.unused))
    say_notes(*not_read_again(outcome.lacking))
    steps = [] if run.quiet else _next_steps_of(where, outcome)
    return _print_end(output, outcome.counts, outcome.damaged, [], steps)


def _here(where: str, names: Sequence[bytes], run: Run, output: Output) -> tuple[Plan, list[Outcome]]:
    """By this process, one part after another."""
    planned = plan(where, names, run.exclude)
    run = going_on(run, where, planned.has_sidecars, planned.has_digests, planned.is_empty)
    options = printing_options(run, output, [])
    outcomes = []
    for shard in planned.shards:
        outcomes.append(indexed(where, shard, options, run.exclude))
        _print_problem(output, outcomes[-1])
    return planned, outcomes


def _on_cluster(where: str, names: Sequence[bytes], run: Run, output: Output) -> tuple[Plan, list[Outcome]]:
    """By the workers of a cluster, each of which has some parts. A line is printed for each that is done."""
    from ...scan.shard_tasks import Parts  # only this needs Dask

    assert run.scheduler
    cluster = Parts(run.scheduler, where, run.again, how_of(run, ""), run.exclude)
    planned = cluster.planned(names)
    outcomes = []
    run = going_on(run, where, planned.has_sidecars, planned.has_digests, planned.is_empty)
    for shard, outcome in cluster.outcomes(planned, how_of(run, "")):
        outcomes.append(outcome)
        _print_problem(output, outcome)
        if not (output.json or run.quiet or outcome.problem):
            own = "/*" * shard.part.is_flat
            print_line(f"{shown_path(shard.part.folder)}{own}: {counted(outcome.counts)}")
    return planned, outcomes


def _print_problem(output: Output, outcome: Outcome) -> None:
    """Why a part wasn't looked at."""
    if outcome.problem:
        print_lines((record_objects if output.json else record_lines)(outcome.problem))


def _print_end(output: Output, counts: "Counter[str]", damaged: int, before: Iterable[str], after: Iterable[str]) -> int:
    """Prints the counts, and some lines around them. Returns the status."""
    answer(output, "index", "summary", {"counts": dict(counts), "damaged": damaged}, [*before, counted(counts, damaged), *after])
    return UNKNOWN if any(counts[it] for it in NOT_READABLE) else SUCCESS


def _next_steps_of(where: str, outcome: Outcome) -> Iterator[str]:
    """What a reader of a folder of catalogues has to know, and can do next, a line for each."""
    word = escaped(shlex.quote(where))
    if outcome.continued:
        folders = "1 folder goes" if outcome.continued == 1 else f"{outcome.continued:,} folders go"
        yield f"{folders} on from a run that was stopped: pictures that it looked at count as unchanged"
    yield f"groups of pictures with the same metadata: exifnorm-pictures same {word}"
    if outcome.refused:
        yield f"{outcome.refused:,} refused or unreadable: exifnorm-pictures report {word} --html report/"
    if outcome.excluded:
        yield f"{outcome.excluded:,} excluded, and in a catalogue from an earlier run: exifnorm-pictures catalogue forget {word} FOLDER"


def _parts(catalogue: Catalogue) -> list[str]:
    """The parts that were not read of the pictures of this run, a line for each kind of part, the most frequent first."""
    query = f"SELECT picture, what FROM not_read JOIN pictures ON id = picture WHERE {OF_LAST_RUN} ORDER BY picture"
    kinds: "Counter[str]" = Counter()
    pictures = last = 0
    for number, what in catalogue.rows(query):
        kinds[kind_of_part(what)] += 1
        pictures += number != last
        last = number
    if not pictures:
        return []
    head = f"{pictures_in_words(pictures)} not wholly read: they can only be the same as others if these parts have the same bytes:"
    return [head, *(f"  {count:>6,}  {what}" for what, count in kinds.most_common(12)), *["  .."] * (len(kinds) > 12)]
