"""The command `same`."""

from __future__ import annotations

import argparse
import contextlib
import json
from collections import Counter
from typing import TYPE_CHECKING, Iterator, NamedTuple, Sequence

from ...catalogue.store import Catalogue
from ...comparison.same.group import NO_PICTURE, NOT_KNOWN, Basis, Group, Keep, damaged, keeping, sentence_of
from ...comparison.same.groups import Groups, after_repair, but_for_notes, but_for_parts, coded_pictures, left_out, of_notes, whole_files
from ...fields.choosing import BY_LISTING, Choice, members_of, of_labels
from ...fields.questions import folded, given_label
from ...model.found import KINDS
from ...model.records import PictureRecord
from ...model.errors import WrongUse
from ...model.texts import Members, Result, grouped, in_words, path_members, pictures_in_words, shown_path
from .. import listed_texts
from ..choice import choice_for
from ..grammar import FILE, PIXELS
from ..looking import Preparing, keep_texts, opened
from ..names import chosen_in, say_unknown
from ..exit_codes import UNKNOWN
from ..options import Fields, Output, Run, group_of, groups_of
from ..output import Table, line_of, print_line, print_lines, print_object, say_notes, status_of_results, table_of

if TYPE_CHECKING:
    from ...catalogue.asking import Answer, Texts


class _Listed:
    """What `same` lists, and the numbers of it."""

    def __init__(self, kind: str, has_keep: bool, output: Output, choice: Choice, texts: "_Texts") -> None:
        self.kind, self.choice, self.texts = kind, choice, texts
        self._has_keep = has_keep  # whether it is said which pictures to keep
        self._is_json = output.json
        self.table = table_of(output, _HEADS, listed_texts.heads(texts.labels))
        self.groups: "Counter[str]" = Counter()  # of pictures, and of other files
        self.pictures: "Counter[str]" = Counter()  # in them
        self.bases: "Counter[Basis]" = Counter()  # of the groups of pictures
        self.results: "Counter[Result]" = Counter()
        self.partial = 0  # groups that are the same but for fields that are left out
        self.unknown_pictures = 0  # groups of which it isn't known whether their pictures are the same, too

    def add(self, group: Group) -> None:
        """Prints a group, and counts it, if its pictures differ in the label of --differ."""
        if not self.texts.differ_in(group):
            return
        what = "pictures" if group.are_pictures else "files"
        self.groups[what] += 1
        self.pictures[what] += group.count
        self.bases[group.basis] += group.are_pictures
        self.partial += group.shared.is_partial
        self.results.update(filter(None, [group.result]))
        number = sum(self.groups.values())
        keeps = keeping(group, bool(self._is_json or self.table)) if self._has_keep else {}
        if self._is_json:
            _print_group(number, group, keeps, self.texts)
        elif self.table:
            _print_rows(self.table, number, group, keeps, self.texts)
        else:
            _print_lines(group, number, keeps, self.texts)
            self.unknown_pictures += any(one.why == NOT_KNOWN for one in keeps.values())


class _Texts:
    """The texts of the labels of --columns and --differ, of each picture that is listed."""

    def __init__(self, catalogue: Catalogue, columns: str | None, differ: str | None, run: Run, is_json: bool) -> None:
        self.label = given_label(differ) if differ else None  # in which pictures have to differ
        asked = listed_texts.labels_in(columns) if columns else []
        self.labels = list(dict.fromkeys([*asked, *filter(None, [self.label])]))
        self.alike = 0  # groups that aren't listed
        self.not_known = 0  # those of them that may differ, because a picture was not wholly read
        self.has_unread = False  # whether a text of one that is listed isn't known
        self._answer: Answer | None = None
        if self.labels:
            from ...catalogue import asking  # which most groups don't need

            self._answer = asking.Answer(catalogue, None, None, Preparing(run).report, self.labels, not is_json)

    def of(self, picture: PictureRecord) -> Texts:
        """The texts of a picture, for each label."""
        texts = self._answer.texts_of(picture.id, self.labels) if self._answer else []
        self.has_unread |= None in texts
        return texts

    def differ_in(self, group: Group) -> bool:
        """Whether the pictures of a group have other texts of the label that they have to differ in, if there is one."""
        if self.label is None or not self._answer:
            return True
        at = self.labels.index(self.label)
        if len({frozenset(map(folded, self.of(picture)[at] or ())) for picture in group.members}) > 1:
            return True
        self.alike += 1
        self.not_known += any(self._answer.may_have(one.id, self.label) for one in group.members)
        return False

    def end(self) -> Iterator[str]:
        """What is said about the groups that aren't listed."""
        if self.alike:
            groups = "1 group isn't listed: its" if self.alike == 1 else f"{self.alike:,} groups aren't listed: their"
            may = f"; of {self.not_known:,} that isn't sure, because a picture was not wholly read" if self.not_known else ""
            yield f"{groups} pictures have the same {self.label}{may}"
        if self.has_unread:
            yield "Where a text is not known, the picture was not wholly read"


def run(arguments: argparse.Namespace) -> int:
    """Lists the groups of pictures with the same metadata."""
    files, run, output = groups_of(arguments)
    name = arguments.source
    kinds = KINDS if arguments.kind in ("all", PIXELS, FILE) else (arguments.kind,)
    if arguments.columns or arguments.differ:
        keep_texts(name, run)
    with contextlib.ExitStack() as open_:
        catalogue = open_.enter_context(opened(name, run))
        only = chosen_in(catalogue, files)
        choice = choice_for(group_of(Fields, arguments), catalogue)
        groups = Groups(catalogue, only, not arguments.no_look)
        texts = _Texts(catalogue, arguments.columns, arguments.differ, run, output.json)
        has_keep = arguments.kind == "all" and not arguments.no_look and not choice
        listed = _Listed(arguments.kind, has_keep, output, choice, texts)
        for group in _asked(groups, arguments.kind, kinds, choice, arguments.least_fields):
            listed.add(group)
        left = _left_out(catalogue, arguments.kind, kinds, only, choice)
        _print_end(output, listed, groups, left, arguments.least_fields)
        say_unknown(catalogue.not_there(only))
    if left.is_open or texts.not_known or texts.has_unread:
        return UNKNOWN
    return status_of_results(listed.results)


def _print_end(output: Output, listed: _Listed, groups: Groups, left: _Left, least_fields: int) -> None:
    """The counts below the groups."""
    if output.json:
        print_object("same", "summary", _summary(listed, groups, left))
    elif listed.table:
        for text in (*of_labels(listed.choice), *_compared_files(listed.kind, groups)):
            listed.table.row(*(None,) * 6, text)
        say_notes(*_of_left(listed, left), *_of_absent(groups.absent), *listed.texts.end())
    else:
        print_lines(_totals(listed, groups, left, least_fields))


class _Left(NamedTuple):
    """How many pictures can't be compared by what they are."""

    undecided: int  # they can't be in a group of the kind that was asked for
    but_for_parts: int = 0  # they mean the same as others but for parts that were not read
    but_for_notes: int = 0  # .. but for MakerNotes
    after_repair: int = 0  # they are compared after a repair, so this is known

    @property
    def is_open(self) -> bool:
        """Whether others may be the same."""
        return bool(self.undecided or self.but_for_parts or self.but_for_notes)


def _left_out(catalogue: Catalogue, kind: str, kinds: Sequence[str], only: str | None, choice: Choice) -> _Left:
    """How many pictures may be the same as others, and aren't listed."""
    if kind in _BY_DIGEST:
        return _Left(_BY_DIGEST[kind](catalogue, only).undecided)
    about = (catalogue, kinds, only)
    return _Left(left_out(*about), but_for_parts(*about, choice), but_for_notes(*about, choice), after_repair(*about))


_BY_DIGEST = {FILE: whole_files, PIXELS: coded_pictures}


def _asked(groups: Groups, kind: str, kinds: Sequence[str], choice: Choice, least_fields: int) -> Iterator[Group]:
    """The groups of the kind that is asked for. Raises `WrongUse`."""
    if kind not in _BY_DIGEST:
        return groups.by_meaning(kinds, choice, least_fields)
    is_of_files = kind == FILE
    if choice or least_fields:
        what = "all bytes of files" if is_of_files else "coded pictures and no fields"
        raise WrongUse(f"--kind {kind} compares {what}: leave out the options for fields")
    if count := _BY_DIGEST[kind](groups.catalogue, groups.only).not_requested:
        have = "1 picture has" if count == 1 else f"{count:,} pictures have"
        raise WrongUse(f"{have} no digest of the {'file' if is_of_files else 'coded picture'} yet: `index --pixels` adds it")
    return groups.by_file() if is_of_files else groups.by_coded_picture()


# Lines

Keeps = dict[int, Keep]  # by the number of a picture; empty if no file was looked at, or fields are left out


def _totals(listed: _Listed, groups: Groups, left: _Left, least_fields: int) -> Iterator[str]:
    count, files = listed.groups["pictures"], listed.groups["files"]
    yield from [""] * (count + files > 1)
    others = f"{in_words(files, 'group')} of {listed.pictures['files']} files that are no pictures"
    more = f", and {others}: each may belong to one, as an XMP file does" if files else ""
    yield f"{in_words(count, 'group')} of {listed.pictures['pictures']} pictures{_of_bases(listed)}{more}"
    if groups.small:
        are = "are" if groups.small > 1 else "is"
        yield f"{groups.small} more, of pictures with fewer than {least_fields} fields, {are} not listed"
    yield from _of_absent(groups.absent)
    yield from listed.texts.end()
    yield from _of_left(listed, left)
    yield from of_labels(listed.choice)
    yield from [BY_LISTING] * bool(listed.partial)
    yield from [_ONLY_METADATA] * bool(listed.unknown_pictures)
    yield from _compared_files(listed.kind, groups)
    yield from [_NOT_FOUND] * (listed.kind == PIXELS)


def _of_bases(listed: _Listed) -> str:
    """How many groups rest on what, unless all rest on what was asked for."""
    counts = +listed.bases
    return ": " + ", ".join(f"{count} {_BY[basis]}" for basis, count in counts.items()) if counts.keys() & _WEAKER.keys() else ""


_WEAKER = {
    Basis.BYTES: "by the same bytes",
    Basis.REPAIR: "only after a repair",
}
_BY = {Basis.MEANING: "by meaning", Basis.FIELDS: "by the fields that count", **_WEAKER}


def _of_left(listed: _Listed, left: _Left) -> Iterator[str]:
    """How many pictures may be the same as others by their metadata, and how many are compared after a repair alone."""
    if left.undecided and listed.kind not in _BY_DIGEST:
        why = "can't be compared by meaning: a block is refused or unreadable, or the file was not wholly read"
        yield f"{pictures_in_words(left.undecided)} {why}"
    if left.but_for_parts:
        yield f"{pictures_in_words(left.but_for_parts)} may be the same as others but for parts that were not read"
    if left.but_for_notes:
        yield of_notes(left.but_for_notes)
    if left.after_repair:
        were = "was" if left.after_repair == 1 else "were"
        yield f"{pictures_in_words(left.after_repair)} {were} compared only after a repair in memory: a block is refused"


def _compared_files(kind: str, groups: Groups) -> Iterator[str]:
    """How many pictures or files were compared by digests, and how many weren't."""
    if kind == PIXELS:
        counts = coded_pictures(groups.catalogue, groups.only)
        what = f"the data that {'its' if counts.compared == 1 else 'their'} pixels are decoded from"
        yield f"{pictures_in_words(counts.compared)} compared by {what}"
        if counts.other:
            yield f"{pictures_in_words(counts.other)} not compared: their format has no digest of the picture"
        if counts.damaged:
            yield f"{pictures_in_words(counts.damaged)} not compared: damaged"
        if counts.unread:
            yield f"{pictures_in_words(counts.unread)} not compared: not read"
    elif kind == FILE:
        files = whole_files(groups.catalogue, groups.only)
        yield f"{in_words(files.compared, 'file')} compared by all {'its' if files.compared == 1 else 'their'} bytes"
        if files.unread:
            yield f"{files.unread:,} not compared: {'it was' if files.unread == 1 else 'they were'} not read"


def _of_absent(count: int) -> Iterator[str]:
    if count:
        are, their = ("is", "its") if count == 1 else ("are", "their")
        yield f"{count:,} more {are} not listed, because {their} files are gone or have changed since they were indexed"


_NOT_FOUND = "A copy that was resized or saved again has other data, and isn't found"
_ONLY_METADATA = "Only metadata was compared, and the pictures may differ: index --pixels compares them, too"
_ALL_THE_SAME = "the pictures are the same too: any one may stay"


def _print_lines(group: Group, number: int, keeps: Keeps, texts: _Texts) -> None:
    if number > 1:
        print_line("")
    print_line(f"{group.count} {'pictures' if group.are_pictures else 'files'}: {sentence_of(group)}:")
    links = grouped((link.of, link) for link in group.files.links)
    of_all = _of_all(group, keeps)
    about = {} if of_all or {one.why for one in keeps.values()} == {NOT_KNOWN} else keeps
    for picture in group.members:
        print_line(f"  {shown_path(picture.path)}{_said_of(group, picture, about)}")
        print_lines(listed_texts.lines(texts.labels, texts.of(picture), "      "))
        print_lines(f"      not counted, {link.how}: {shown_path(link.path)}" for link in links.get(picture.path, ()))
    _print_of_all(group, of_all)


def _print_of_all(group: Group, of_all: str) -> None:
    """What is true of all pictures of a group, and the files that aren't counted."""
    if group.are_pictures:  # what is true of all other files is said at the end
        print_lines(f"    all: {reason}" for reason in set(group.reasons.values()) if reason and _have_one_reason(group))
        print_lines([f"    {of_all}"] * bool(of_all))
    absent = list(_not_counted(group))[len(group.files.links) :]
    print_lines(f"    {note}: {shown_path(path)}" for path, note in absent)


def _have_one_reason(group: Group) -> bool:
    return len(set(group.reasons.values())) == 1


def _said_of(group: Group, picture: PictureRecord, keeps: Keeps) -> str:
    """What is said of a picture behind its name."""
    reason = "" if _have_one_reason(group) else group.reasons.get(picture.id, "")
    notes = "; ".join(filter(None, [reason, keeps.get(picture.id, _without_advice(picture)).note(shown_path)]))
    others = _others(group, picture)
    return (f"   ({notes})" if notes else "") + (f", {others} in a group with it above" if others else "")


def _of_all(group: Group, keeps: Keeps) -> str:
    """What is said of all pictures of a group in place of each; empty if it isn't true of all."""
    if keeps and all(one.why == NO_PICTURE for one in keeps.values()):
        return f"all: {NO_PICTURE}"
    goes = sum(one.keep is False for one in keeps.values())
    are_the_same = goes == group.count - 1 and len({it.beside for it in group.members}) == 1
    return _ALL_THE_SAME if are_the_same else ""


def _others(group: Group, picture: PictureRecord) -> str:
    """How many pictures of an earlier group one stands for; empty without any."""
    others = group.others.get(picture.id, 0)
    return f"and {others:,} that {'are' if others > 1 else 'is'}" if others else ""


# --csv

_HEADS = "group, pictures, what is the same, rests on, picture, keep, note"


def _print_rows(table: Table, number: int, group: Group, keeps: Keeps, texts: _Texts) -> None:
    """A row for each picture, and one without a word on keeping for each file that doesn't count."""
    about = (number, group.count, sentence_of(group), group.basis)
    for picture in group.members:
        keep = keeps.get(picture.id) or _without_advice(picture)
        cells = listed_texts.cells(texts.labels, texts.of(picture))
        table.row(*about, picture.path, None if keep.keep is None else int(keep.keep), _note(group, picture, keep), *cells)
    for path, note in _not_counted(group):
        table.row(*about, path, None, note)


def _without_advice(picture: PictureRecord) -> Keep:
    """What is said of a picture of which nothing is said about keeping."""
    return Keep(why=damaged(picture.damage)) if picture.damage else Keep()


def _note(group: Group, picture: PictureRecord, keep: Keep) -> str:
    others = _others(group, picture)
    more = f"{others} in an earlier group with it" if others else ""
    return "; ".join(filter(None, [group.reasons.get(picture.id), more, keep.note(shown_path)]))


def _not_counted(group: Group) -> Iterator[tuple[bytes, str]]:
    """Further names of files, and files that are gone or have changed, each with the reason."""
    yield from ((link.path, f"not counted, {link.how}: {shown_path(link.of)}") for link in group.files.links)
    yield from ((path, "not counted, gone") for path in group.files.gone)
    yield from ((path, "not counted, changed since it was indexed") for path in group.files.changed)


# --json


def _summary(listed: _Listed, groups: Groups, left: _Left) -> Members:
    texts = listed.texts
    return {
        "groups": sum(listed.groups.values()),
        "pictures": sum(listed.pictures.values()),
        "undecided": left.undecided,
        "undecided_parts": left.but_for_parts,
        "after_repair": left.after_repair,
        "small_groups": groups.small,
        "absent_groups": groups.absent,
        "maker_notes_unknown": left.but_for_notes,
        **({"alike": texts.alike, "alike_not_known": texts.not_known} if texts.label else {}),
        **members_of(listed.choice),
    }


def _print_group(number: int, group: Group, keeps: Keeps, texts: _Texts) -> None:
    """One object. Its pictures come last, and one by one: they may be all of an archive."""
    known = {
        "number": number,
        "count": group.count,
        "description": sentence_of(group),
        "basis": group.basis,
        "digests": group.digests,
        "same_bytes": group.same_bytes,
        "wholly_read": group.is_wholly_read,
        "links": [{**path_members(one.path), "of": path_members(one.of), "how": one.how} for one in group.files.links],
        "gone": [path_members(one) for one in group.files.gone],
        "changed": [path_members(one) for one in group.files.changed],
    }
    print(line_of("same", "group", known)[:-1], end=', "pictures": [')
    for at, picture in enumerate(group.members):
        keep = keeps.get(picture.id, _without_advice(picture))
        about: Members = {
            **path_members(picture.path),
            "keep": keep.keep,
            "keep_note": keep.note() or None,
            "reason": group.reasons.get(picture.id) or None,
            "others": group.others.get(picture.id, 0),
            **({"texts": listed_texts.member(texts.labels, texts.of(picture))} if texts.labels else {}),
        }
        print(", " * (at > 0) + json.dumps(about), end="")
    print("]}")
