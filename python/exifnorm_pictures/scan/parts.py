"""`index --shards`: each folder that is directly in one of the folders is a part of the archive, with a catalogue of its own; and so are the
other files of each. The parts are independent of each other: no two processes write to one catalogue, and none knows all pictures.
"""

from __future__ import annotations

import hashlib
import os
import re
from collections import Counter
from operator import itemgetter

from exifnorm._hints import Iterator, NamedTuple, Sequence

from ..catalogue import shards
from ..catalogue.store import NUMBERS, Catalogue, roll_back
from ..model.errors import WrongUse
from ..model.problems import Problem
from ..model.texts import pictures_in_words, shown_path
from ..model.records import PictureRecord
from .walk import Excluded, Part, outermost, parts_of
from .index import DAMAGED, OF_LAST_RUN, REFUSED, IndexOptions, index, lacking, number_of

_WORD = 30  # characters of the name of a catalogue that are those of its folder


class WrongFolder(WrongUse):
    """The folder for catalogues, or one that is to be indexed, can't be used so."""


class Shard(NamedTuple):
    """A part of an archive and its catalogue."""

    name: str  # below the folder of catalogues
    part: Part
    is_there: bool = True  # whether the folder of the part is


class Plan(NamedTuple):
    """The parts of a run."""

    shards: list[Shard]
    has_sidecars: bool  # whether the catalogues that are there have XMP sidecars ..
    has_digests: bool  # .. and digests of coded pictures
    is_empty: bool  # whether none of them has a picture
    excluded: int  # files and folders directly in the folders that are passed over
    unused: frozenset[str]  # patterns that have fitted none of these


class Outcome(NamedTuple):
    """What became of a part, or of all."""

    counts: "Counter[str]"
    unused: frozenset[str]  # patterns that have fitted nothing
    damaged: int = 0  # of the pictures that were looked at
    refused: int = 0  # of all pictures, with a block that isn't accepted
    excluded: int = 0  # pictures of an earlier run that are excluded now
    continued: int = 0  # 1: an earlier run was stopped
    lacking: "Counter[str]" = Counter()  # how many pictures lack what an option reads
    problem: PictureRecord | None = None  # why the part wasn't looked at


def plan(where: str, names: Sequence[bytes], patterns: Sequence[str]) -> Plan:
    """The parts of some folders, whose catalogues are listed before the first of them is made: an answer over the list then knows which are
    missing. Raises `WrongFolder`."""
    tops = list(outermost(names))
    listed = _check(where, tops)
    known = {_key_of(name): name for name in listed}
    kept = {_key_of(name): _kept(file) for name in listed if shards.is_made(file := os.path.join(where, name))}
    there = {key: part for key, (part, *_) in kept.items() if part}
    roots = {part.top for part in there.values()}
    excluded = Excluded(patterns)
    now = {_key(part): part for top in tops for part in _parts(top, excluded, known, roots)}
    others = {key: part for key, part in there.items() if key not in now}
    gone = _gone({known[key]: part for key, part in others.items()}, tops, excluded)
    os.makedirs(where, exist_ok=True)
    if not now.keys() <= known.keys():
        listed = _listed_with(where, now)
    found = [Shard(name, now[_key_of(name)]) for name in listed if _key_of(name) in now]
    sidecars, digests = (any(map(itemgetter(at), kept.values())) for at in (1, 2))
    return Plan([*found, *gone], sidecars, digests, not roots, excluded.count, frozenset(excluded.unused()))


def _gone(others: dict[str, Part], tops: Sequence[bytes], excluded: Excluded) -> list[Shard]:
    """The parts that aren't found now and were to be indexed. Raises `WrongFolder` for a folder
    that isn't there, and that no part is of."""
    gone = [Shard(name, part, False) for name, part in others.items() if _is_gone(part, tops, excluded)]
    for top in tops:
        if not os.path.isdir(top) and not any(top in shard.part for shard in gone):
            raise WrongFolder(f"there is no folder {shown_path(top)}")
    return gone


def _listed_with(where: str, parts: dict[str, Part]) -> list[str]:
    """All catalogues that are listed, to which those of some parts are added. Other runs may add theirs at the same time."""
    with shards.listing(where):
        listed = list(shards.listed(where))
        known, first = set(map(_key_of, listed)), max(map(_number_of, listed), default=-1) + 1
        listed += [_name(number, key, parts[key]) for number, key in enumerate((key for key in parts if key not in known), first)]
        shards.put_list(where, listed)
    return listed


def _check(where: str, tops: Sequence[bytes]) -> list[str]:
    """The catalogues that are listed. Raises `WrongFolder`."""
    shown = shown_path(os.fsencode(where))
    _check_tops(where, shown, tops)
    if not os.path.lexists(where):
        return []
    # Names first: a run that begins at the same time writes its list between the two looks
    if not os.path.isdir(where) or (any(not name.startswith(".") for name in os.listdir(where)) and not shards.is_folder(where)):
        raise WrongFolder(f"{shown} is no folder of catalogues: give a new folder to --shards")
    for name in shards.elsewhere(where):
        raise WrongFolder(f"{shown} isn't written to: {shown_path(os.fsencode(os.path.join(where, name)))} lies elsewhere")
    for name in shards.listed(where):
        if not re.fullmatch(r"[0-9]{5,}-.*-[0-9a-f]{16}\.catalogue", name):
            raise WrongFolder(f"{shown} lists {shown_path(os.fsencode(name))}, which isn't of index --shards: give a new folder")
    return list(shards.listed(where))


def _check_tops(where: str, shown: str, tops: Sequence[bytes]) -> None:
    inside = os.path.join(os.path.realpath(os.fsencode(where)), b"")
    for top in tops:
        if os.path.lexists(top) and not os.path.isdir(top):
            raise WrongFolder(f"{shown_path(top)} is no folder: --shards makes a catalogue of each folder")
        if inside.startswith(os.path.join(os.path.realpath(top), b"")):
            raise WrongFolder(f"{shown} lies below {shown_path(top)}, which is indexed: give another folder to --shards")


def _parts(top: bytes, excluded: Excluded, known: dict[str, str], roots: set[bytes]) -> Iterator[Part]:
    """The parts of a folder, or it as one, if it is a part of a folder of an earlier run. One that can't be listed has its own files alone, and
    the run says why. Raises `WrongFolder`."""
    above, is_folder = os.path.dirname(top), os.path.isdir(top)
    if above in roots:
        yield from [Part(above, top)] * is_folder
        return
    for root in roots:
        if root != top and (root.startswith(os.path.join(top, b"")) or top.startswith(os.path.join(root, b""))):
            raise WrongFolder(
                f"{shown_path(top)} and {shown_path(root)}, which has catalogues here, have pictures in common: give that folder"
            )
    own = Part(top, top)
    try:
        folders, has_files = parts_of(top, excluded)
    except OSError:
        folders, has_files = [], is_folder
    yield from folders
    if has_files or (is_folder and (not folders or _key(own) in known)):
        yield own


def _is_gone(part: Part, tops: Sequence[bytes], excluded: Excluded) -> bool:
    """Whether a part that isn't found now was to be indexed. What is excluded wasn't."""
    is_asked = part.top in tops or part.folder in tops
    return is_asked and (not os.path.isdir(part.folder) or not excluded.has_below(os.path.basename(part.folder)))


def _key(part: Part) -> str:
    """What tells the catalogue of a part: a part has the same one in each run."""
    return hashlib.sha256(part.folder + b"/." * part.is_flat).hexdigest()[:16]


def _name(number: int, key: str, part: Part) -> str:
    word = re.sub(r"[^0-9A-Za-z._-]+", "_", os.path.basename(part.folder).decode("utf-8", "replace"))[:_WORD]
    return f"{number:05}-{word}-{key}.catalogue"


def _key_of(name: str) -> str:
    return name.rpartition("-")[2].partition(".")[0]


def _number_of(name: str) -> int:
    return int(name.partition("-")[0])


def _kept(name: str) -> tuple[Part | None, bool, bool]:
    """The part of a catalogue if it has a picture, and whether it has sidecars and digests; also if a run was killed while it wrote to it: then
    it has a journal, which only one that writes can roll back."""
    roll_back(name)
    with Catalogue(name) as catalogue:
        row = next(catalogue.rows("SELECT root, path FROM pictures LIMIT 1"), None)
        part = None
        if row:
            top, below = row[0], row[1][len(row[0].rstrip(b"/")) + 1 :]
            part = Part(top, os.path.join(top, below.split(b"/")[0]) if b"/" in below else top)
        return part, catalogue.has_sidecars(), catalogue.has_digests()


def indexed(where: str, shard: Shard, options: IndexOptions, patterns: Sequence[str]) -> Outcome:
    """Looks at the pictures of a part. If its folder is gone or empty, as of a disk that isn't mounted, its pictures stay as they were."""
    file = os.path.join(where, shard.name)
    if count := _unmounted(file, shard):
        detail = f"the folder is empty, isn't there or can't be read; its {pictures_in_words(count)} stay{'s' * (count == 1)} as before"
        return not_looked_at(shard, Problem.UNREADABLE, detail, patterns)
    excluded = Excluded(patterns)
    options = options._replace(names=[shard.part.top], part=shard.part, excluded=excluded)
    with Catalogue(file, make=True) as catalogue:
        catalogue.number_above(_number_of(shard.name) * NUMBERS)
        was_stopped = int(catalogue.was_stopped())
        counts, unread = index(options, catalogue), lacking(options, catalogue)
        damaged, refused = number_of(catalogue, f"{DAMAGED} AND {OF_LAST_RUN}"), number_of(catalogue, REFUSED)
    if excluded.count and not shard.part.is_flat:  # what lies directly in the folder is counted already
        counts["excluded"] = excluded.count
    return Outcome(counts, frozenset(excluded.unused()), damaged, refused, excluded.known, was_stopped, unread)


def _unmounted(file: str, shard: Shard) -> int:
    """How many pictures a catalogue has of a folder that is gone, or in which nothing is."""
    if not shards.is_made(file) or (shard.is_there and _has_some(shard.part.folder)):
        return 0
    with Catalogue(file) as catalogue:
        return catalogue.count_below(shard.part.folder)


def _has_some(folder: bytes) -> bool:
    """Whether something is in a folder. One that can't be listed is named by the run."""
    try:
        with os.scandir(folder) as entries:
            return any(True for _ in entries)
    except OSError:
        return True


def not_looked_at(shard: Shard, problem: Problem, detail: str, patterns: Sequence[str]) -> Outcome:
    """The outcome of a part that wasn't looked at, and why."""
    picture = PictureRecord.of(shard.part.folder, b"", problem=problem, detail=detail)
    return Outcome(Counter([picture.state]), frozenset(patterns), problem=picture)


def together(planned: Plan, outcomes: Sequence[Outcome]) -> Outcome:
    """What became of all parts."""
    counts: "Counter[str]" = Counter({"excluded": planned.excluded} if planned.excluded else {})
    unread: "Counter[str]" = Counter()
    for outcome in outcomes:
        counts.update(outcome.counts)
        unread.update(outcome.lacking)
    numbers = [sum(values) for values in zip((0, 0, 0, 0), *(outcome[2:6] for outcome in outcomes))]
    return Outcome(counts, planned.unused.intersection(*(outcome.unused for outcome in outcomes)), *numbers)._replace(lacking=unread)
