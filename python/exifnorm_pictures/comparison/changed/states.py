"""`changed`: two states of an archive compared picture by picture, in memory that doesn't grow with them."""

from __future__ import annotations

import contextlib
import hashlib
import heapq
from collections import Counter
from enum import IntEnum

from exifnorm._hints import TYPE_CHECKING, Iterable, Iterator, NamedTuple, Optional, Sequence

from ...fields.choosing import EVERYTHING, Choice
from ...fields.listing import MAKER_NOTE
from ...fields.names import group_name, group_of
from ...files.session import Session
from ...judge.sides import AFTER, BEFORE, Sides
from ...model import steps
from ...model.budgets import COMPARED_FIELDS, WAITING_BYTES
from ...model.found import EXIF, NAMES, OWN, PROGRAMS, hidden_kinds, lost_kinds
from ...model.records import REACHED, BlockRecord, PictureRecord, Status, is_same_file
from ...model.rest import counting
from ...model.problems import Problem
from ...model.texts import Result
from ...model.verdicts import Judged, Turns, Verdict, left_open, verdicts
from ..coded import Coded, coded_result as result_of_coded, parts_that_differ, result_with
from ..wording import Differences, FieldDifference, differences

if TYPE_CHECKING:
    from ...catalogue.store import Catalogue
    from ...judge import maker_notes

# The blocks of two pictures in pairs of one name: the fields that differ, how much each of them weighs, and how the blocks are read.

Block = Optional[BlockRecord]
Repair = tuple[str, steps.Steps, steps.Steps]  # the name of a block, and the steps before and after
Lost = Sequence[Sequence[str]]  # the kinds of blocks that may be missing of each of two damaged files
NOTHING = ((), ())


class Weight(IntEnum):
    """How much a difference weighs, the least first."""

    MAY_BE_MISSING = 0  # of a damaged file: nobody knows whether it was removed, is the same, or never was in the file
    EQUAL_NUMBER = 1  # which doesn't count by the choice
    LEFT_OUT = 2  # by the choice
    COUNTS = 3


# What the heaviest difference of a kind makes of the verdict on the kind
_TURNS = {
    weight: {Result.DIFFERENT: result, Result.DIFFERENT_REPAIRED: of_repaired}
    for weight, result, of_repaired in (
        (Weight.MAY_BE_MISSING, Result.NOT_KNOWN, Result.NOT_KNOWN),
        (Weight.EQUAL_NUMBER, Result.SAME_NUMBERS, Result.SAME_REPAIRED),
        (Weight.LEFT_OUT, Result.SAME_BUT, Result.SAME_REPAIRED),
    )
}


class Seen(NamedTuple):
    """What is seen of two blocks of one name."""

    kind: str
    clauses: Sequence[str] = ()  # how they are read
    repair: Repair | None = None
    changes: Differences = ()  # that count
    left_out: Sequence[str] = ()  # names of fields
    weights: Sequence[Weight] = ()
    is_only_note: bool = True  # whether nothing but a MakerNote differs


class Details(NamedTuple):
    """The same of all blocks."""

    every: Sequence[Seen] = ()
    has_more: bool = False  # whether further fields weren't compared

    @property
    def changes(self) -> list[FieldDifference]:
        """The fields that differ and count."""
        return [change for seen in self.every for change in seen.changes]

    @property
    def clauses(self) -> list[str]:
        """What the sentence says of the blocks."""
        more = [f"after {COMPARED_FIELDS:,} fields no further ones were compared"] * self.has_more
        return [clause for seen in self.every for clause in seen.clauses] + more

    @property
    def turns(self) -> Turns:
        """What becomes of the verdict on each kind."""
        heaviest: dict[str, Weight] = {}
        for seen in self.every:
            for weight in seen.weights:
                heaviest[seen.kind] = max(weight, heaviest.get(seen.kind, weight))
        return {kind: _TURNS[weight] for kind, weight in heaviest.items() if weight in _TURNS}

    def closer(self, different: Sequence[str]) -> Result:
        """A known difference by its name, with the kinds that differ: `different`, unless only a MakerNote or the form of numbers does."""
        if self.has_more:
            return Result.DIFFERENT
        if list(different) == [EXIF] and all(seen.is_only_note for seen in self.every if seen.kind == EXIF):
            return Result.ONLY_MAKER_NOTE
        changes = self.changes
        return Result.ONLY_NUMBERS if changes and all(it.is_equal_number for it in changes) else Result.DIFFERENT


def details_of(blocks: Sequence[Sequence[BlockRecord]], kinds: Sequence[str], sides: Sides, choice: Choice, lost: Lost) -> Details:
    """What is seen of the blocks of some kinds, before and after."""
    first, second = ({(block.kind, block.name): block for block in side if block.kind in kinds} for side in blocks)
    fields = _Fields(sides)
    every = [_seen(*key, first.get(key), second.get(key), fields, choice, lost) for key in dict.fromkeys([*first, *second])]
    return Details(every, fields.is_full)


def _seen(kind: str, name: str, old: Block, new: Block, fields: _Fields, choice: Choice, lost: Lost) -> Seen:
    is_lost = [kind in kinds for kinds in lost]
    if any(it and block is None for it, block in zip(is_lost, (old, new))):
        return Seen(kind, weights=[Weight.MAY_BE_MISSING])
    seen = Seen(kind, _readings(name, old, new), _repair(name, old, new))
    if not _are_readable(old, new) or _are_same(old, new):
        return seen
    every, unknown = _known(fields.differences("" if name == NAMES[kind] else name, old, new), old, new)
    is_equal = _have(old, new, "meaning")
    weights = weights_of(every, is_equal, choice, list(map(_may_lack, is_lost, (old, new))))
    seen = seen._replace(clauses=[*seen.clauses, *unknown], weights=weights)
    return _with_fields(seen, every, is_equal, "" if None not in (old, new) else name)


def _may_lack(is_lost: bool, block: Block) -> bool:
    """Whether another program extracted a block of a damaged file, in which it may not have found all fields."""
    return is_lost and block is not None and block.extractor != OWN


def _with_fields(seen: Seen, every: Differences, is_equal: bool, part: str) -> Seen:
    """With the fields that differ. `part` is the name of a block that only one picture has."""
    by_weight: dict[Weight, list[FieldDifference]] = {weight: [] for weight in Weight}
    for difference, weight in zip(every, seen.weights):
        by_weight[weight].append(difference._replace(part=part) if part else difference)
    changes = by_weight[Weight.COUNTS]
    is_note = bool(changes) and not part and all(it[:2] == MAKER_NOTE for it in changes)
    left_out = [it.name for it in by_weight[Weight.LEFT_OUT]]
    return seen._replace(changes=changes, left_out=left_out, is_only_note=is_note or (is_equal and not changes))


def weights_of(every: Differences, is_equal: bool, choice: Choice, lost: Sequence[bool] = (False, False)) -> list[Weight]:
    """How much each difference of two blocks weighs. If no field differs, and the blocks aren't equal, something else does, which counts.
    `lost` is of which of them another program may not have found a field of a damaged file."""
    return [_weight(it, choice, lost) for it in every] or [Weight.COUNTS] * (not is_equal)


def _weight(difference: FieldDifference, choice: Choice, lost: Sequence[bool]) -> Weight:
    if (lost[0] and not difference.before) or (lost[1] and not difference.after):
        return Weight.MAY_BE_MISSING
    if not choice.counts(difference.directory, difference.tag, difference.block):
        return Weight.LEFT_OUT
    return Weight.EQUAL_NUMBER if choice.equal_numbers and difference.is_equal_number else Weight.COUNTS


class _Fields:
    """The fields that differ in each pair of blocks, compared once of pairs that are equal: pages of a TIFF can share a block of many fields."""

    def __init__(self, sides: Sides) -> None:
        self._sides, self._left = sides, COMPARED_FIELDS
        self._known: dict[tuple[object, ...], list[FieldDifference]] = {}

    @property
    def is_full(self) -> bool:
        """Whether so many fields were compared that no further ones are."""
        return self._left < 0

    def differences(self, name: str, old: Block, new: Block) -> list[FieldDifference]:
        """The fields that differ, with the name of a block that isn't the first one of its kind; none if too many were compared."""
        if self.is_full:
            return []
        key = tuple(block and (block.kind, block.octets, id(block.fresh)) for block in (old, new))  # a catalogue may not have all fields
        if key in self._known:
            self._left -= 2 * len(self._known[key])
        else:
            before, after = self._sides.fields(0, old), self._sides.fields(1, new)
            self._left -= len(before) + len(after)
            self._known[key] = [] if self.is_full else differences(before, after)
        known = [] if self.is_full else self._known[key]
        return [difference._replace(block=name) for difference in known] if name else known


def _known(every: list[FieldDifference], old: Block, new: Block) -> tuple[list[FieldDifference], list[str]]:
    """The differences without those fields that one block has, and that the repair of the other one may have lost; and a clause about these."""
    lost = [steps.lost_fields(block.steps) if block else frozenset() for block in (old, new)]
    unknown = [it for it in every if _is_lost(it, lost[0], it.before) or _is_lost(it, lost[1], it.after)]
    if not unknown:
        return every, []
    groups = " and ".join(dict.fromkeys(group_of(it.directory) for it in unknown))
    many = f"{len(unknown):,} field{'s' * (len(unknown) > 1)} of {groups} that one picture has"
    return [it for it in every if it not in unknown], [f"{many}: the repair of the other one may have lost them"]


def _is_lost(difference: FieldDifference, lost: Iterable[str], values: Sequence[object]) -> bool:
    return not values and (difference.directory in lost or f"{difference.directory} {difference.tag}" in lost)


# How the blocks are read


def _are_readable(*blocks: Block) -> bool:
    """Whether the fields are known of all blocks that are there."""
    return all(block is None or block.is_accepted or block.repair for block in blocks)


def _have(old: Block, new: Block, name: str) -> bool:
    """Whether two blocks have the same of something."""
    return bool(old and new and getattr(old, name) and getattr(old, name) == getattr(new, name))


def _are_same(old: Block, new: Block) -> bool:
    return _have(old, new, "digest") or bool(old and new and old.digest is new.digest is None and old.octets == new.octets)


def _repair(name: str, old: Block, new: Block) -> Repair | None:
    """The steps by which the fields of blocks are read, unless both have the same bytes."""
    if not any(block and block.repair for block in (old, new)) or not _are_readable(old, new) or _have(old, new, "octets"):
        return None
    return (name, old.steps if old else (), new.steps if new else ())


def _readings(name: str, *blocks: Block) -> list[str]:
    """Clauses that say that only one side has a block, or why one is refused, and by which repairs its fields are read."""
    if not any(block and block.repair for block in blocks):
        return _refused(name, *blocks)
    return _repaired(name, *blocks) if _are_readable(*blocks) else []


def _refused(name: str, old: Block, new: Block) -> list[str]:
    """The same without any repair."""
    if _are_readable(old, new):
        return [f"no {name} {word}" for word, block in (("before", old), ("after", new)) if not block]
    texts = {word: it.refusal if not it.is_accepted else "accepted" for word, it in (("before", old), ("after", new)) if it}
    if _have(old, new, "octets") and texts["before"] != "accepted":
        return [f"{name}: {texts['before']}"]
    return [f"{name}: " + ", ".join(f"{word} {text}" for word, text in texts.items())]


def _repaired(name: str, old: Block, new: Block) -> list[str]:
    """What was repaired, and what is lost by it."""
    if old and _have(old, new, "octets"):
        return [f"{name}: {old.refusal}"]
    texts = {word: _status(block) for word, block in (("before", old), ("after", new))}
    is_alike = texts["before"] == texts["after"]
    told = [f"{name}: {texts['before']}"] if is_alike else [f"{name} {word}: {text}" for word, text in texts.items()]
    lost = list(dict.fromkeys(it for block in (old, new) if block for it in steps.loses(block.steps)))
    return ["; ".join(told) + (f" (the repair loses {' and '.join(lost)}, so it can't show that they are the same)" if lost else "")]


def _status(block: Block) -> str:
    if not block:
        return "none"
    if not block.repair:
        return block.status if block.is_accepted else f"{block.status}, {block.refusal}"
    return f"{block.status}, {block.refusal}, read after repair: {steps.words(block.steps)}"


# What a MakerNote makes of the verdict on Exif
_READS_OTHERWISE = dict.fromkeys((Result.SAME, Result.SAME_BUT, Result.SAME_NUMBERS), Result.DIFFERENT)
_HAS_MOVED = dict.fromkeys((Result.SAME, Result.DIFFERENT, Result.DIFFERENT_REPAIRED), Result.MOVED_NOTE)
_OF_EXIF = "main exif interop gps thumb".split()


class Noted(NamedTuple):
    """The result once the MakerNotes are compared."""

    judged: Judged
    result: Result
    changes: Differences  # with what is known of a MakerNote in place of its bytes
    clause: str = ""
    values: "Optional[list[maker_notes.NoteDifference]]" = None  # that ExifTool reads otherwise, if it was asked


class _Notes(NamedTuple):
    """What shows that MakerNotes differ, or may."""

    lines: Differences  # of their bytes
    has_moved: bool
    reached: Sequence[str]  # parts of the file that only they can reach
    is_rewritten: bool  # the block: then what the MakerNote leads to may be gone or have changed

    def told(self, changes: Differences, note: str) -> list[FieldDifference]:
        """The changes with a note in place of the bytes."""
        return [change._replace(note=note) if change in self.lines else change for change in changes]


def noted(before: Noted, old: PictureRecord, new: PictureRecord, sides: Sides, session: Session | None, has_more: bool) -> Noted:
    """Asks ExifTool where the bytes or the place of a MakerNote differ, or the bytes that only it can reach. `has_more` is whether not all fields
    were compared."""
    notes = _notes(before, old, new)
    if not any(notes) or before.result == Result.REFUSED_SAME:
        return before
    from ...judge import maker_notes  # which is seldom needed

    answer = maker_notes.compared_notes(session, sides, old, new) if session else None
    if not answer:
        return _not_asked(
            before, notes, [word for word, it in zip(("earlier", "later"), (old, new)) if session and not maker_notes.is_as_it_was(it)]
        )
    if answer.differences:
        return _read_otherwise(before, notes, answer.differences)
    return _in_doubt(before, notes, answer) if answer.doubt else _reads_the_same(before, notes, has_more)


def _notes(before: Noted, old: PictureRecord, new: PictureRecord) -> _Notes:
    lines = [change for change in before.changes if change[:2] == MAKER_NOTE and change.before and change.after]
    if not (old.maker_notes and new.maker_notes):
        return _Notes(lines, False, (), False)
    reached = [part for part in before.judged.parts if part.endswith(REACHED)]
    return _Notes(lines, old.maker_notes != new.maker_notes, reached, old.exif_octets != new.exif_octets)


def _not_asked(before: Noted, notes: _Notes, gone: Sequence[str]) -> Noted:
    """MakerNotes that ExifTool doesn't read, as of a file that is gone."""
    which = f"the {' and the '.join(gone)} picture {'is' if len(gone) == 1 else 'are'} gone or changed"
    changes = notes.told(before.changes, f"differs in bytes, {which}") if gone else before.changes
    is_same = any(it.kind == EXIF and it.result == Result.SAME for it in before.judged.verdicts)
    is_open = notes.has_moved or (notes.is_rewritten and not notes.reached and is_same)
    what = "a MakerNote that has moved" if notes.has_moved else "a MakerNote in a block that was written anew"
    return _open(before, notes, changes, f"{what}, for which ExifTool and both files are needed" if is_open else "")


def _in_doubt(before: Noted, notes: _Notes, answer: "maker_notes.ComparedNotes") -> Noted:
    """MakerNotes of which no value differs, though that may mean nothing."""
    changes = notes.told(before.changes, f"{'has moved, ' * notes.has_moved}differs in bytes, {answer.doubt}")
    what = f"a MakerNote that {'has moved' if notes.has_moved else 'may be damaged'} ({answer.doubt})"
    return _open(before, notes, changes, what if notes.has_moved or answer.is_new else "")


def _open(before: Noted, notes: _Notes, changes: Differences, part: str) -> Noted:
    """With a part that may differ, unless a field shows that the MakerNote does."""
    if notes.lines or not part:
        return before._replace(changes=changes)
    judged = before.judged._replace(parts=(*before.judged.parts, part))
    return Noted(judged, judged.result, changes)


def _read_otherwise(before: Noted, notes: _Notes, values: "list[maker_notes.NoteDifference]") -> Noted:
    """One change for all values that ExifTool reads otherwise."""
    note = f"{'has moved, and ' * notes.has_moved}now reads differently: {len(values)} value{'s' * (len(values) > 1)}"
    change = (notes.lines[0] if notes.lines else FieldDifference(*MAKER_NOTE, (), ()))._replace(note=note)
    at = before.changes.index(notes.lines[0]) if notes.lines else len(before.changes)
    changes = [*before.changes[:at], change, *before.changes[at + bool(notes.lines) :]]
    is_known = before.judged.is_different and before.result != Result.ONLY_NUMBERS
    judged = before.judged.turned({EXIF: _READS_OTHERWISE})
    return Noted(judged, before.result if is_known else Result.DIFFERENT, changes, f"MakerNote {note} (ExifTool)", values)


def _reads_the_same(before: Noted, notes: _Notes, has_more: bool) -> Noted:
    """MakerNotes of which all values are as before. ExifTool may overlook an edit in place, since it corrects some before it reads them."""
    if notes.has_moved:
        return _note_moved(before, notes, has_more)
    changes = notes.told(before.changes, "differs in bytes, reads the same (ExifTool)")
    clause = "MakerNote reads the same (ExifTool)" if notes.lines or notes.reached else ""
    return before._replace(changes=changes, clause=clause, values=[])


def _note_moved(before: Noted, notes: _Notes, has_more: bool) -> Noted:
    """A MakerNote that has moved, and of which all values are as before."""
    changes = [change for change in before.changes if change not in notes.lines]
    judged = before.judged._replace(parts=tuple(it for it in before.judged.parts if it not in notes.reached))
    if not has_more and not any(change.directory in _OF_EXIF for change in changes):
        judged = judged.turned({EXIF: _HAS_MOVED})
    return Noted(judged, judged.result, changes, "MakerNote moved, reads the same (ExifTool)", [])


class Pair(NamedTuple):
    """A picture that was there before, what it is now, and where it is now if it has moved. It has both pictures if it was edited too."""

    name: bytes
    old: PictureRecord | None  # None if the other one is: then no more is known than the name
    new: PictureRecord | None
    place: bytes | None
    is_renumbered: bool = False  # whether another picture had its new name, or has its old one
    is_sure: bool = True  # whether a move is known by the file itself, and not by what it has
    is_partner: bool = False  # the new picture is the one with the same stem
    is_unclear: bool = False  # it has one of several
    coded: Coded = Coded.UNKNOWN  # of a picture that is elsewhere as it was


class Compared(NamedTuple):
    """One picture before and after."""

    name: bytes
    result: Result
    note: str = ""  # the kinds that were compared, and the result
    changes: Differences = ()
    verdicts: Sequence[Verdict] = ()
    moved_to: bytes | None = None
    partner: bytes | None = None  # the picture with the same stem with which it was compared
    maker_note: "Optional[list[maker_notes.NoteDifference]]" = None  # the values that ExifTool reads otherwise, if it was asked
    repairs: Sequence[Repair] = ()  # of each block
    left_out: Sequence[str] = ()  # fields and kinds that differ and don't count
    picture: Coded = Coded.UNKNOWN  # what is known of the coded picture
    parts: Sequence[str] = ()  # what has come, gone or changed of the rest of the file
    damage: tuple[str, str] = ("", "")  # of the file before and after
    is_new: bool = False  # only there afterwards
    has_more: bool = False  # whether further fields weren't compared, of pages that share blocks of many fields


def changed(
    before: Catalogue,
    after: Catalogue,
    counts: "Counter[Result]",
    only: set[bytes] | None = None,
    every: bool = False,
    session: Session | None = None,
    choice: Choice = EVERYTHING,
    pictures: "Optional[Counter[Coded]]" = None,
    by_stem: bool = False,
) -> Iterator[Compared]:
    """Compares each picture of two catalogues, in the order of their names, or only some pictures, by name or by path.

    Those that are the same are only counted, unless `every` is set. In a session ExifTool is asked for the values of MakerNotes. Fields that the
    choice leaves out don't count. `by_stem` compares pictures whose names differ only in folders and endings. In the end `counts` has the number of each result, and `pictures` those of the coded pictures.
    """
    from .pairs import Pairs  # which needs the modules of catalogues

    with contextlib.closing(Pairs(before, after, only, by_stem)) as pairs:
        there = 0
        differing = (compared(pair, pairs, session, choice) for pair in pairs.differing(every))
        came = (Compared(it.name, _alone(it, Result.MISSING_BEFORE), is_new=True) for it in pairs.came())
        for comparison in heapq.merge(differing, came, key=lambda one: one.name):
            there += not comparison.is_new
            counts[comparison.result] += 1
            choice.add_left_out(comparison.left_out)
            yield comparison
        if pictures is not None:
            pictures.update(pairs.coded())
        if not every and pairs.count() > there:
            counts[Result.SAME] += pairs.count() - there


def compared(pair: Pair, sides: Sides, session: Session | None, choice: Choice = EVERYTHING) -> Compared:
    """Compares one picture before and after. Its coded picture counts, unless only some fields do; that a file is damaged is always said."""
    comparison = _by_metadata(pair, sides, session, choice)
    if pair.old is None or pair.new is None:
        return comparison
    coded, damage = result_of_coded(pair.old, pair.new)
    parts = parts_that_differ(pair.old, pair.new, coded)
    comparison = comparison._replace(picture=coded, parts=parts, damage=(pair.old.damage, pair.new.damage))
    if pair.place is not None and comparison.result == Result.MOVED and counting(parts):
        return comparison._replace(result=Result.MOVED_EDITED, note=_joined(comparison.note, ", ".join(parts)))
    if pair.place is not None or (choice.only and not coded.is_damaged):
        return comparison
    return _with_picture(comparison, damage, choice)


def _with_picture(comparison: Compared, damage: str, choice: Choice) -> Compared:
    """With what the coded pictures make of the result of the metadata."""
    result, clause = comparison.result, ""
    if not choice.only:
        result, clause = result_with(comparison.picture, result, comparison.parts)
    return comparison._replace(result=result, note=_joined(damage, comparison.note, clause))


def _joined(*clauses: str) -> str:
    return "; ".join(filter(None, clauses))


def _by_metadata(pair: Pair, sides: Sides, session: Session | None, choice: Choice) -> Compared:
    """A picture without its coded picture."""
    name, old, new, place = pair[:4]
    if old is None or new is None:
        return Compared(name, _alone(pair, Result.MISSING_AFTER)) if place is None else _moved(pair)
    if old.problem or new.problem:
        return _unless_untouched(_unread(name, old, new), old, new, place)
    judged, lost = _by_digests(old, new, sides)
    found = _unless_untouched(Compared(name, judged.result, judged.sentence, (), judged.verdicts), old, new, place)
    if found.result == Result.SAME_FILE:
        return found
    found = _in_detail(name, judged, old, new, sides, session, choice, lost)
    return found._replace(partner=place) if pair.is_partner else _placed(found, place)


def _alone(pair: Pair, result: Result) -> Result:
    """The result of a picture that isn't compared."""
    return Result.UNCLEAR if pair.is_unclear else result


def _moved(pair: Pair) -> Compared:
    """A picture under another name that is as it was."""
    moved = Compared(pair.name, Result.MOVED, moved_to=pair.place, picture=pair.coded)
    if not pair.is_renumbered:
        return moved
    note = "" if pair.is_sure else "probably: not the file, but what it has is the same"
    return moved._replace(result=Result.RENUMBERED, note=note)


def _unless_untouched(found: Compared, old: PictureRecord, new: PictureRecord, place: bytes | None) -> Compared:
    """What was found, unless it leaves open whether something has changed, and nothing was written to the file."""
    is_untouched = found.result.is_open and place is None and is_same_file(old, new)
    return found._replace(result=Result.SAME_FILE) if is_untouched else found


def _in_detail(
    name: bytes,
    judged: Judged,
    old: PictureRecord,
    new: PictureRecord,
    sides: Sides,
    session: Session | None,
    choice: Choice,
    lost: Lost,
) -> Compared:
    """Two pictures by what the digests say, then without what doesn't count, then by the fields, and by the MakerNotes at last."""
    judged, left_out = _chosen(judged, old, new, choice)
    details, programs = _details(judged, old, new, sides, choice, lost)
    judged = judged.turned(details.turns)
    different = [it.kind for it in judged.verdicts if it.result == Result.DIFFERENT]
    result = details.closer(different) if judged.result == Result.DIFFERENT else judged.result
    notes = Noted(judged, result, details.changes)
    if not choice.leaves_out_maker_notes:
        notes = noted(notes, old, new, sides, session, details.has_more)
    return Compared(
        name,
        notes.result,
        _joined(notes.judged.sentence, *programs, *details.clauses, notes.clause),
        notes.changes,
        notes.judged.verdicts,
        maker_note=notes.values,
        repairs=[seen.repair for seen in details.every if seen.repair],
        left_out=[*left_out, *dict.fromkeys(it for seen in details.every for it in seen.left_out)],
        has_more=details.has_more,
    )


def _placed(found: Compared, place: bytes | None) -> Compared:
    """A picture that may have moved, as its coded picture shows."""
    if place is None:
        return found
    result = Result.MOVED if found.result.has_changed is False else Result.MOVED_EDITED
    return found._replace(result=result, note=f"the coded picture is the same; {found.note}", moved_to=place)


def _unread(name: bytes, picture: PictureRecord, other: PictureRecord) -> Compared:
    """Two files of which one or both were not read: their bytes are compared, if they are known."""
    if not picture.problem or picture.problem != other.problem:
        notes = [f"{word}: {it.problem}" for word, it in (("before", picture), ("after", other)) if it.problem]
        return Compared(name, Result.NOT_READ, ", ".join(notes))
    same, different, note = _UNREAD.get(picture.problem, (Result.FILE_SAME, Result.FILE_DIFFERENT, picture.problem))
    if picture.file and other.file:
        return Compared(name, same if picture.file == other.file else different, note)
    return Compared(name, different, note) if picture.size != other.size else Compared(name, Result.NOT_READ, note or "no picture")


_UNREAD = {str(Problem.NO_PICTURE): (Result.NO_PICTURE_SAME, Result.NO_PICTURE_DIFFERENT, "")}


def _by_digests(old: PictureRecord, new: PictureRecord, sides: Sides) -> tuple[Judged, Lost]:
    """What the digests say, and the kinds of which a block may be in what wasn't read of each file."""
    by_kind = tuple(verdicts(old.sides(), new.sides()))
    is_alike = old.not_read is not None and old.not_read == new.not_read
    if is_alike and not old.damage and not new.damage:
        return Judged(by_kind), NOTHING
    unread = sides.not_read(BEFORE, old), sides.not_read(AFTER, new)
    lost = [
        (*lost_kinds(it.type, [part.what for part in parts]), *hidden_kinds(parts, others))
        for it, parts, others in zip((old, new), unread, unread[::-1])
    ]
    missing = list(map(_absent, (old, new), lost))
    return Judged(tuple(_not_known(it, missing, is_alike) for it in by_kind), tuple(left_open(*unread))), lost


def _absent(picture: PictureRecord, kinds: Sequence[str]) -> list[str]:
    return [kind for kind, side in picture.sides().items() if kind in kinds and side.status == Status.ABSENT]


def _not_known(verdict: Verdict, missing: Lost, is_alike: bool) -> Verdict:
    """A verdict, unless a block of the kind may be missing. `is_alike` is whether the same part of both is."""
    is_open = [verdict.kind in kinds for kinds in missing]
    return Verdict(verdict.kind, Result.NOT_KNOWN, all(is_open) and is_alike) if any(is_open) else verdict


def _chosen(judged: Judged, old: PictureRecord, new: PictureRecord, choice: Choice) -> tuple[Judged, list[str]]:
    """Leaves out whole kinds of blocks, and what only MakerNotes lead to. Returns their names, too."""
    out = {it.kind: it.result for it in judged.verdicts if it.may_differ and it.kind not in choice.kinds}
    judged = judged.turned({kind: {result: Result.LEFT_OUT} for kind, result in out.items()})
    kinds = [kind for kind, result in out.items() if result != Result.NOT_KNOWN]
    for kind in kinds:
        choice.see_kind(kind)
    others = _without_notes(judged, old, new) if choice.leaves_out_maker_notes else judged
    return others, [NAMES[kind] for kind in kinds] + [group_name(*MAKER_NOTE)] * (others is not judged)


def _without_notes(judged: Judged, old: PictureRecord, new: PictureRecord) -> Judged:
    """Without what only MakerNotes lead to; the same object if there is nothing of this kind."""
    parts = tuple(part for part in judged.parts if not part.endswith(REACHED))
    has_moved = bool(old.maker_notes and new.maker_notes) and old.maker_notes != new.maker_notes
    return judged._replace(parts=parts).turned({EXIF: {Result.SAME: Result.SAME_BUT}}) if has_moved or parts != judged.parts else judged


# The results of a kind for which the fields of both pictures are compared
_LOOKED_AT = frozenset((Result.DIFFERENT, Result.REFUSED, Result.UNREADABLE, Result.SAME_REPAIRED, Result.DIFFERENT_REPAIRED))


def _details(judged: Judged, old: PictureRecord, new: PictureRecord, sides: Sides, choice: Choice, lost: Lost) -> tuple[Details, list[str]]:
    """What is seen of the blocks, if there is anything to see, and which programs extracted blocks that no reader here reads."""
    looked_at = not _LOOKED_AT.isdisjoint(it.result for it in judged.verdicts)
    if not looked_at and old.extractor == new.extractor == OWN:
        return Details(), []
    blocks = sides.blocks(BEFORE, old), sides.blocks(AFTER, new)
    kinds = [it.kind for it in judged.verdicts if it.result not in (Result.LEFT_OUT, Result.NOT_KNOWN)]
    used = {block.extractor for block in (*blocks[0], *blocks[1])}
    programs = [f"extracted by {word}" for it, word in PROGRAMS.items() if it in used]
    return details_of(blocks, kinds, sides, choice, lost) if looked_at else Details(), programs


def total(counts: "Counter[Result]") -> int:
    """The number of pictures that were compared, or are on one side only."""
    return sum(count for it, count in counts.items() if not it.no_picture)


def number_changed(counts: "Counter[Result]") -> int:
    """How many of them have changed. One that only has another name hasn't, and one that can't be compared wholly isn't known to have."""
    return sum(
        count for it, count in counts.items() if it.has_changed and not it.no_picture and it not in (Result.MOVED, Result.RENUMBERED)
    )


def number_undecided(counts: "Counter[Result]") -> int:
    """How many of them can't be compared wholly, so that nobody knows whether they have changed."""
    return sum(count for it, count in counts.items() if it.is_open)


class Equal:
    """Pictures whose changes are equal, kept in a temporary database until all are known."""

    _MOST = 1000  # rows that are written at once, or fewer if they are long, and changes that are looked up in memory

    def __init__(self) -> None:
        import sqlite3  # which takes long to import

        self.base = sqlite3.connect("", isolation_level=None)
        self.base.executescript(_EQUAL)
        self._known: dict[bytes, int] = {}
        self._heads: list[tuple[int, bytes | None, str, int]] = []
        self._names: list[tuple[int, bytes]] = []
        self._size = 0  # of what waits
        self._count = 0

    def close(self) -> None:
        """Closes the connection, and with it the database."""
        self.base.close()

    def add(self, text: str, name: bytes, alone: bool = False, rank: int = 0) -> None:
        """Adds the changes of a picture; `alone`, if no other picture has these. Of equal changes the rank is the same."""
        key = None if alone else hashlib.sha256(text.encode("utf-8", "surrogatepass")).digest()
        number = self._number(key) if key else None
        if number is None:
            self._count += 1
            number = self._count
            self._heads.append((number, key, text, rank))
            self._size += len(text)
        if key:
            self._known[key] = number
        self._names.append((number, name))
        if len(self._names) >= self._MOST or self._size >= WAITING_BYTES:
            self._write()

    def _number(self, key: bytes) -> int | None:
        number = self._known.get(key)
        if number is not None:
            return number
        row = self.base.execute("SELECT id FROM heads WHERE key = ?", (key,)).fetchone()
        return None if row is None else int(row[0])

    def _write(self) -> None:
        self.base.executemany("INSERT INTO heads VALUES (?, ?, ?, ?)", self._heads)
        self.base.executemany("INSERT INTO names VALUES (?, ?)", self._names)
        self._heads.clear()
        self._names.clear()
        self._known.clear()
        self._size = 0

    def all(self, by_rank: bool = False) -> Iterator[tuple[str, int, Iterator[bytes]]]:
        """The changes, each with its number of pictures and their names, in the order in which they were first added, or by rank and number of
        pictures."""
        self._write()
        self.base.execute("CREATE INDEX names_by_head ON names (head, name)")
        order = "rank, pictures DESC, id" if by_rank else "id"
        count_of = "(SELECT count(*) FROM names WHERE head = heads.id) AS pictures"
        names = "SELECT name FROM names WHERE head = ? ORDER BY name"
        about = "SELECT text, (SELECT min(name) FROM names WHERE head = heads.id) FROM heads WHERE id = ?"
        for number, count in self.base.execute(f"SELECT id, {count_of} FROM heads ORDER BY {order}"):
            text, first = self.base.execute(about, (number,)).fetchone()  # which may be long, and aren't sorted
            yield text, count, iter([first]) if count == 1 else (it[0] for it in self.base.execute(names, (number,)))


_EQUAL = """
CREATE TABLE heads (id INTEGER PRIMARY KEY, key BLOB, text TEXT, rank INTEGER);
CREATE UNIQUE INDEX heads_by_key ON heads (key) WHERE key IS NOT NULL;
CREATE TABLE names (head INTEGER, name BLOB);
PRAGMA journal_mode = OFF;
PRAGMA synchronous = OFF;
BEGIN;
"""
