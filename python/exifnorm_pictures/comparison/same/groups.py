"""`same`: the groups of pictures that are the same. SQLite finds them, and the files of a group are looked at before it is returned.

So a picture that is gone, that has changed, or that is a further name of another one is never the reason for a group. Groups are of several
kinds, by what they rest on. A picture can be in groups of two kinds: one that rests on a repair has only one picture of each earlier one, so
whoever keeps any one picture of each group loses nothing. A MakerNote can lead to anything in its block, so two count as the same only at the
same place in blocks with the same bytes.
"""

from __future__ import annotations

import os
import sys
from typing import Iterable, Iterator, NamedTuple, Sequence

from ...catalogue.store import PICTURE_COLUMNS, Catalogue
from ...extract.sidecars import Folders
from ...fields.choosing import EVERYTHING, Choice, UnknownField
from ...fields.block_fields import known_fields
from ...model import steps
from ...model.found import BROKEN, EXIF, IPTC, KINDS, REST, WITHOUT_IPTC, each_kind, other_name
from ...model.records import PictureRecord, Stamp, is_marked_as
from ...model.tables import picture_of_row
from ...model.problems import NOT_THERE
from ...model.texts import grouped, pictures_in_words
from .group import OTHERS, Basis, Files, Group, Link, Shared

COUNTED = "temp.counted"  # the pictures without the fields that don't count
# What a MakerNote may lead to: only in a block with the same bytes it is the same
_NOTE = "CASE WHEN maker_notes = '' THEN '' ELSE maker_notes || ' ' || exif_octets END"
_UNREAD = f"problem NOT IN {(*NOT_THERE, 'NoPicture')}"  # a file that may be a picture, and of which nothing was read


class _Query(NamedTuple):
    """How SQLite finds the groups of one basis: what is equal, which pictures can be in one, and what must be true of all together."""

    basis: Basis
    key: tuple[str, ...]
    where: str
    having: str = "count(*) > 1"


def _queries(kinds: Sequence[str], only: str | None) -> Iterator[_Query]:
    chosen = _among(only)
    there = "(" + " OR ".join(f"{it}_octets != ''" for it in kinds) + ")"
    base = f"problem IS NULL AND not_read IS NOT NULL AND {there}"
    known = " AND ".join(f"{it} IS NOT NULL" for it in kinds)
    place = (_NOTE,) * (EXIF in kinds)
    yield _Query(Basis.MEANING, (*kinds, "not_read", *place), f"{base} AND {known}{chosen}")
    octets = tuple(f"ifnull({it}, 'bytes ' || {it}_octets)" for it in kinds)
    yield _Query(Basis.BYTES, (*octets, "not_read", *place), f"{base} AND NOT ({known}){chosen}")
    if len(kinds) == len(KINDS):
        unread = f"((problem IS NULL AND not_read IS NULL) OR {_UNREAD})"
        yield _Query(Basis.BYTES, ("file",), f"file != '' AND {unread}{chosen}")
    if EXIF in kinds:
        repaired = tuple("ifnull(exif, exif_repaired)" if it == EXIF else it for it in kinds)
        after = " AND ".join(f"{it} IS NOT NULL" for it in repaired)
        several = "count(*) > 1 AND sum(exif IS NULL) > 0 AND count(DISTINCT exif_octets) > 1"
        yield _Query(Basis.REPAIR, (*repaired, "not_read", *place), f"{base} AND {after}{chosen}", several)
    if len(kinds) == len(KINDS):  # last, because people ask for pictures
        yield _Query(Basis.BYTES, ("file",), f"file != '' AND problem = 'NoPicture'{chosen}")


class Groups:
    """The groups of two and more different files of a catalogue, and, once they were returned, how many aren't listed.

    With `look` each file is looked at: those that are gone or have changed are listed apart and don't count.
    """

    def __init__(self, catalogue: Catalogue, only: str | None = None, look: bool = True) -> None:
        self.catalogue, self.only = catalogue, only
        self.absent = 0  # groups of which all files, or all but one, are gone or have changed
        self.small = 0  # groups of pictures with fewer fields than were asked for
        self._look = look
        self._folders = Folders() if look and catalogue.has_sidecars() else None

    def by_meaning(self, kinds: Sequence[str] = KINDS, choice: Choice = EVERYTHING, least_fields: int = 0) -> Iterator[Group]:
        """The groups of pictures of which some kinds mean the same: those that rest on meaning first, and the largest first. Fields that the
        choice leaves out don't count. Raises `UnknownField` if it leaves out everything."""
        counted = tuple(it for it in kinds if it in choice.kinds)
        if not counted:
            raise UnknownField("nothing is left to compare")
        table = _table(self.catalogue, choice)
        for query in _queries(counted, self.only):
            for group in self._groups(query, counted, table):
                count = _fields_of(self.catalogue, group, choice) if least_fields else None
                if count is None or count >= least_fields:
                    yield group
                else:
                    self.small += 1

    def by_coded_picture(self) -> Iterator[Group]:
        """The groups of files with the same coded picture, the largest first."""
        where = f"problem IS NULL AND coded_picture != ''{_among(self.only)}"
        return self._groups(_Query(Basis.CODED_PICTURE, ("coded_picture",), where), KINDS, "pictures")

    def by_file(self) -> Iterator[Group]:
        """The groups of files with the same bytes, the largest first."""
        return self._groups(_Query(Basis.FILE, ("sha256",), _whole("!= ''") + _among(self.only)), KINDS, "pictures")

    def _groups(self, query: _Query, kinds: tuple[str, ...], table: str) -> Iterator[Group]:
        """The groups that SQLite finds in a table, by the files that are there."""
        for shared, pictures in _found(self.catalogue, query, kinds, table):
            group = Group(shared, files_of(pictures, self._look, self._folders))
            is_of_repair = query.basis == Basis.REPAIR
            self.absent += group.count < 2 and bool(group.files.gone or group.files.changed) and not is_of_repair
            if is_of_repair:
                _take_one_of_each(group)
            if group.count < 2 or (is_of_repair and all(None not in it.meanings for it in group.members)):
                continue
            _add_details(self.catalogue, group)
            yield group


def _found(catalogue: Catalogue, query: _Query, kinds: tuple[str, ...], table: str) -> Iterator[tuple[Shared, Iterator[PictureRecord]]]:
    """What pictures in a table have in common, and these pictures, by path."""
    key = ", ".join(query.key)
    heads = f"SELECT {key} FROM {table} WHERE {query.where} GROUP BY {key} HAVING {query.having} ORDER BY count(*) DESC, min(path)"
    # the digests are compared again with those of the rows themselves, because an index of a damaged catalogue can have others
    own = " AND ".join(f"+({it}) = ?" for it in query.key)
    ids = ""
    for row in catalogue.rows(heads):
        ids = ids or _numbers_of_a_group(catalogue, query, table)
        counted = f"SELECT {_DIFFERENT} FROM {table} WHERE id IN ({ids})"
        meanings, listings, places = next(catalogue.rows(counted, row)) if table == COUNTED else (1, 1, 1)
        if meanings > listings:  # something differs that no field shows
            continue
        is_partial = meanings > 1 or places > 1
        basis = Basis.FIELDS if is_partial and query.basis == Basis.MEANING else query.basis
        rows = f"SELECT {PICTURE_COLUMNS} FROM {table} WHERE id IN ({ids}) AND {own} ORDER BY path"
        yield Shared(basis, kinds, is_partial, table == COUNTED), catalogue.rows(rows, (*row, *row), picture_of_row)


def _table(catalogue: Catalogue, choice: Choice) -> str:
    """The table of pictures. A command has one choice, so its table is made once."""
    if not choice:
        return "pictures"
    from .counted import make_table  # which is seldom needed

    make_table(catalogue, choice, COUNTED)
    return COUNTED


# Bases, and the first column of their index
_INDEXED = ((Basis.MEANING, "exif"), (Basis.CODED_PICTURE, "coded_picture"))


def _numbers_of_a_group(catalogue: Catalogue, query: _Query, table: str) -> str:
    """A query for the numbers of the pictures with a key, which SQLite answers by an index. What is equal in other groups has none in the
    catalogue, so those pictures are listed once in a temporary table: to look for each group among all pictures would take their product.
    """
    if (query.basis, query.key[0]) in _INDEXED:
        return f"SELECT id FROM {table} WHERE {query.where} AND {' AND '.join(f'{column} = ?' for column in query.key)}"
    columns = [f"key{number}" for number in range(len(query.key))]
    definitions = ", ".join(f"{expression} AS {column}" for expression, column in zip(query.key, columns))
    number = catalogue.number_of("SELECT count(*) FROM sqlite_temp_master")
    catalogue.execute(f"CREATE TEMP TABLE keys{number} AS SELECT id, {definitions} FROM {table} WHERE {query.where}")
    catalogue.execute(f"CREATE INDEX temp.by_key{number} ON keys{number} ({', '.join(columns)})")
    return f"SELECT id FROM temp.keys{number} WHERE {' AND '.join(f'{column} = ?' for column in columns)}"


_DIFFERENT = "count(DISTINCT whole), count(DISTINCT listing), count(DISTINCT place)"


def _take_one_of_each(group: Group) -> None:
    """Leaves in a group one picture of each earlier group, and counts the others."""
    by_key = grouped((_class_of(it, group.shared.kinds), it) for it in group.members)
    group.files = group.files.only([same[0] for same in by_key.values()])
    group.others = {same[0].id: len(same) - 1 for same in by_key.values() if len(same) > 1}


def _add_details(catalogue: Catalogue, group: Group) -> None:
    """What isn't simply the same: the unread parts, and why blocks aren't accepted."""
    if group.members[0].not_read != "" and group.basis not in OTHERS:
        group.not_read = ", ".join(each_kind(it.what for it in catalogue.not_read_of(group.members[0])))
    if group.basis.has_reasons:
        group.reasons = {it.id: sys.intern(_reason(catalogue, it, group.basis)) for it in group.members}


def _class_of(picture: PictureRecord, kinds: Sequence[str]) -> tuple[object, ...]:
    """What is equal for pictures of one earlier group."""
    at = [KINDS.index(kind) for kind in kinds]
    return tuple(picture.octets[number] if picture.meanings[number] is None else picture.meanings[number] for number in at)


def _reason(catalogue: Catalogue, picture: PictureRecord, basis: Basis) -> str:
    """Why a picture of a group isn't simply accepted: its refusals, or its repairs."""
    query = "SELECT name, cause, repair FROM blocks WHERE picture = ? AND status != 'accepted' ORDER BY number"
    reasons = []
    for name, cause, repair in catalogue.rows(query, (picture.id,), lambda row: (*row[:2], steps.unpacked(row[2]))):
        if basis == Basis.REPAIR and repair:
            reasons.append(f"{name} repaired in memory: {steps.words(repair)}")
        else:
            reasons.append(f"{name} refused: {cause}")
    return "; ".join(reasons) or (picture.problem or "")


def _fields_of(catalogue: Catalogue, group: Group, choice: Choice) -> int | None:
    """The number of fields that count of the first picture, by its blocks; None if they aren't known."""
    count, first = 0, group.members[0]
    if first.file:
        return None
    for block in catalogue.blocks_of(first):
        if block.kind not in group.shared.kinds:
            continue
        with catalogue.guarded():
            fields = known_fields(block)
        if fields is None:
            return None
        count += len(choice.of(fields, other_name(block.name)))
    return count


class Compared(NamedTuple):
    """How many pictures or files have a digest, of how many it wasn't requested, and how many have none, and why."""

    compared: int
    not_requested: int
    unread: int
    other: int = 0  # of formats without one
    damaged: int = 0

    @property
    def undecided(self) -> int:
        """How many may be the same as another one."""
        return self.unread + self.other + self.damaged


def coded_pictures(catalogue: Catalogue, only: str | None = None) -> Compared:
    """The pictures of a catalogue by what is known of their coded pictures. A file of XMP shows nothing."""
    conditions = ("!= ''", "IS NULL", "= '' AND damage = '' AND type IS NOT 'XMP'", "= '' AND damage != ''")
    counts = (_number_of(catalogue, f"problem IS NULL AND coded_picture {it}", only) for it in conditions)
    compared, not_requested, other, damaged = counts
    return Compared(compared, not_requested, _number_of(catalogue, _UNREAD, only), other, damaged)


def _among(only: str | None) -> str:
    return f" AND path IN {only}" if only else ""


def _number_of(catalogue: Catalogue, where: str, only: str | None) -> int:
    return catalogue.number_of(f"SELECT count(*) FROM pictures WHERE {where}{_among(only)}")


def whole_files(catalogue: Catalogue, only: str | None = None) -> Compared:
    """The files of a catalogue by what is known of their bytes."""
    words = ("!= ''", "IS NULL AND problem IS NULL", "IS NOT NULL AND sha256 = '' OR (sha256 IS NULL AND problem IS NOT NULL)")
    return Compared(*(_number_of(catalogue, _whole(it), only) for it in words))


def _whole(words: str) -> str:
    return f"ifnull(problem, '') NOT IN {NOT_THERE} AND (sha256 {words})"


def totals(catalogue: Catalogue, only: str | None = None, choice: Choice = EVERYTHING) -> tuple[int, int]:
    """The number of groups by meaning, and of files in them, by the catalogue alone: no file is looked at."""
    query = next(_queries([it for it in KINDS if it in choice.kinds], only))
    file = "CASE WHEN inode > 0 THEN inode || ' ' || device || ' ' || size || ' ' || modified ELSE id END"  # which further names have, too
    of_files = f"SELECT count(DISTINCT {file}) AS n FROM {_table(catalogue, choice)} WHERE {query.where}"
    inner = f"{of_files} GROUP BY {', '.join(query.key)} HAVING n > 1"
    counts = next(catalogue.rows(f"SELECT count(*), ifnull(sum(n), 0) FROM ({inner})"))
    return int(counts[0]), int(counts[1])


def left_out(catalogue: Catalogue, kinds: Sequence[str] = KINDS, only: str | None = None) -> int:
    """How many pictures may mean the same as others, and nobody knows, because a block is refused, and not read after a repair without loss, a
    block may be lost in a damaged file, a part was neither read nor compared, or nothing of the file was read."""
    return _number_of(catalogue, f"((problem IS NULL AND {_is_open(kinds)}) OR {_UNREAD})", only)


def after_repair(catalogue: Catalogue, kinds: Sequence[str] = KINDS, only: str | None = None) -> int:
    """How many pictures with a refused block are compared by what it means after a repair without loss."""
    return _number_of(catalogue, f"problem IS NULL AND exif IS NULL AND NOT {_is_open(kinds)}", only) if EXIF in kinds else 0


def _is_open(kinds: Sequence[str]) -> str:
    """What makes it unknown what a picture means."""
    unknown = (f"({it} IS NULL AND exif_repaired IS NULL)" if it == EXIF else f"{it} IS NULL" for it in kinds)
    return f"(not_read IS NULL OR {' OR '.join(unknown)} OR ({_may_be_lost(kinds)}))"


def _may_be_lost(kinds: Sequence[str]) -> str:
    """Whether a file is damaged, and what is left of it has no block of a kind that it can have had."""
    lost = " OR ".join(f"{it}_octets = ''" + f" AND type NOT IN {WITHOUT_IPTC}" * (it == IPTC) for it in kinds)
    damaged = f"SELECT picture FROM not_read WHERE instr(what, '{REST}') = 1 OR instr(what, '({BROKEN}')"  # as `damage` has it
    return f"not_read != '' AND ({lost}) AND id IN ({damaged})"


def but_for_parts(catalogue: Catalogue, kinds: Sequence[str] = KINDS, only: str | None = None, choice: Choice = EVERYTHING) -> int:
    """How many pictures have a part that was not read, and blocks that mean the same as those of another one, which has no such part or one
    with other bytes: nobody knows whether they are the same. `but_for_notes` counts those with other MakerNotes."""
    counted = [it for it in kinds if it in choice.kinds]
    queries = {query.basis: query for query in _queries(counted, only)}
    where = queries.get(Basis.REPAIR, queries[Basis.MEANING]).where
    exif = "CASE WHEN maker_notes != '' AND exif IS NOT NULL THEN other_exif ELSE ifnull(exif, exif_repaired) END"
    key = ", ".join(exif if it == EXIF else it for it in counted)
    several = "HAVING count(DISTINCT other_not_read) > 1"
    inner = f"SELECT sum(other_not_read != '') AS n FROM {_table(catalogue, choice)} WHERE {where} GROUP BY {key} {several}"
    return catalogue.number_of(f"SELECT ifnull(sum(n), 0) FROM ({inner})")


def but_for_notes(catalogue: Catalogue, kinds: Sequence[str] = KINDS, only: str | None = None, choice: Choice = EVERYTHING) -> int:
    """How many pictures may be the same as others but for their MakerNotes, which have moved, have other bytes, or lie in a block that was written
    anew: only a program that reads MakerNotes knows what they say there."""
    counted = [it for it in kinds if it in choice.kinds]
    if EXIF not in counted:
        return 0
    key = ["other_exif" if it == EXIF else f"ifnull({it}, 'bytes ' || {it}_octets)" for it in counted]
    noted = f"problem IS NULL AND not_read IS NOT NULL AND maker_notes != '' AND other_exif != ''{_among(only)}"
    place = "ifnull(exif, exif_repaired) || ' ' || not_read || ' ' || maker_notes || ' ' || exif_octets"
    grouped = f"GROUP BY {', '.join([*key, 'other_not_read'])} HAVING count(DISTINCT {place}) > 1"
    return catalogue.number_of(
        f"SELECT ifnull(sum(n), 0) FROM (SELECT count(*) AS n FROM {_table(catalogue, choice)} WHERE {noted} {grouped})"
    )


def of_notes(count: int) -> str:
    """What is said of pictures that may be the same as others but for their MakerNotes.

    >>> of_notes(2)[:71]
    '2 pictures may be the same as others but for MakerNotes that moved or a'
    """
    which = "same --ignore MakerNote lists them, and compare asks ExifTool about two"
    return f"{pictures_in_words(count)} may be the same as others but for MakerNotes that moved or are in blocks with other bytes: {which}"


def files_of(pictures: Iterable[PictureRecord], look: bool, folders: Folders | None) -> Files:
    """The different files of some pictures that are there; the further names of each, and those that are gone or have changed."""
    files = Files()
    places: dict[object, dict[object, int]] = {}  # of each file among the pictures, by device and inode
    further: dict[int, list[PictureRecord]] = {}
    for picture in pictures:
        state, (device, inode) = _state(picture, folders) if look else ("", (picture.device, picture.inode))
        if state:
            (files.gone if state == "gone" else files.changed).append(picture.path)
            continue
        of_device = places.setdefault(device if inode else None, {})
        at = of_device.setdefault(inode or picture.path, len(files.pictures))
        if at < len(files.pictures):
            further.setdefault(at, []).append(picture)
        else:
            files.pictures.append(_shrunk(picture, files.pictures[-1:]))
    for at in sorted(further):
        _add_links(files, at, [files.pictures[at], *further[at]], look)
    return files


def _add_links(files: Files, at: int, names: list[PictureRecord], look: bool) -> None:
    """Takes one of several names of a file for its picture, and the others for links to it."""
    # one that leads through no symbolic link, if there is one: whoever keeps it keeps the file
    real = (it for it in names if os.path.realpath(it.path) == it.path)
    first = files.pictures[at] = next(real, names[0]) if look else names[0]
    files.links += [Link.to(it.path, first.path) if look else Link(it.path, first.path) for it in names if it is not first]


def _shrunk(picture: PictureRecord, before: Sequence[PictureRecord]) -> PictureRecord:
    """Drops the marks, which were needed to look at the file, and takes what is equal in the picture before it from there: a group may have
    all pictures of an archive, and is in memory."""
    picture = picture._replace(modified=None, changed=None, inode=None, device=None, sidecars="")
    for other in before:
        picture = PictureRecord._make([theirs if theirs == ours else ours for ours, theirs in zip(picture, other)])
    return picture


def _state(picture: PictureRecord, folders: Folders | None) -> tuple[str, tuple[int, int]]:
    """`gone`, `changed`, or nothing for a file that is as it was; and the device and inode of the file."""
    try:
        now = os.stat(picture.path)
    except (OSError, ValueError):  # a name that has a NUL
        return "gone", (0, 0)
    has_other_sidecars = folders is not None and not folders.is_marked_as(picture.path, picture.sidecars)
    if has_other_sidecars or not is_marked_as(Stamp.of(now), picture.marks):
        return "changed", (0, 0)
    return "", (now.st_dev, now.st_ino)
