"""The command `check`: what breaks a museum's own rules, or, without any, the rule that labels agree."""

from __future__ import annotations

import argparse
import os
from collections import Counter
from dataclasses import dataclass, field
from itertools import chain, groupby
from typing import Iterator, Sequence

from ...catalogue.checking import Broken, Checked
from ...catalogue.conflicts import Conflict, ConflictKind, conflicts
from ...comparison.wording import tell_apart
from ...fields.labels import DAMAGE
from ...fields.rules import AGREE, COMPARED, Rule, WrongRules, rules_of
from ...model.found import SIDECAR, STANDARDS, damage
from ...model.errors import WrongUse
from ...model.texts import Members, escaped, grouped, in_words, path_members, pictures_in_words, shown_path
from ...picture import Picture
from ..labelled import is_open, members, not_read, of_catalogue, origins, pictures, refused, text_members, together
from ..looking import Preparing, catalogue_of_pictures, note_sidecars, refuse_for_catalogues
from ..names import named, text_of_file, words_of_file
from ..exit_codes import DIFFERENCE, SUCCESS, UNKNOWN
from ..options import Files, Output, Run, groups_of
from ..output import Cell, Table, named as in_lines, picture_cut, print_line, print_lines, print_object, say_notes, table_of, unread


def run(arguments: argparse.Namespace) -> int:
    """Lists the pictures that break a rule."""
    files, run, output = groups_of(arguments)
    rules = rules_of_file(arguments.rules) if arguments.rules else [Rule(1, "labels agree", AGREE, COMPARED)]
    are_of_labels = all((rule.kind, rule.inside, rule.outside) == (AGREE, (), ()) for rule in rules)
    if are_of_labels and not arguments.by_picture:
        return agreement(files, run, output, arguments.all, set(chain.from_iterable(rule.labels for rule in rules)))
    if arguments.all:
        raise WrongUse("--all lists what differs in form alone, which is for rules that labels agree, without others and without folders")
    sources = named(files)
    refuse_for_catalogues(files, run, sources)
    run = run._replace(pixels=any(DAMAGE in it.labels for it in rules))  # of a folder
    with catalogue_of_pictures(sources, run) as catalogue, catalogue.reading(is_answer=True):
        note_sidecars(catalogue, sources, run)
        checked = Checked(catalogue, rules, Preparing(run).report)
        _print(output, checked, arguments.by_picture)
        if checked.not_known():
            return UNKNOWN
        return DIFFERENCE if checked.rules_broken() else SUCCESS


def _print(output: Output, checked: Checked, by_picture: bool) -> None:
    table = table_of(output, "picture, line, rule, label, text, damage")
    for broken in checked.broken(by_picture) if table or output.json else ():
        about = {**checked.members(broken), "damage": broken.damage or None}
        if table:
            table.row(broken.path, *about.values())
        else:
            print_object("check", "picture", {**path_members(broken.path), **about})
    if not (table or output.json):
        _print_lines(checked, by_picture)
    _print_end(output, checked)


def rules_of_file(name: str) -> list[Rule]:
    """The rules of a file, one at least. Raises `OSError` and `WrongRules`."""
    rules = rules_of(text_of_file(name), lambda words: words_of_file(os.path.join(os.path.dirname(name), words)))
    if not rules:
        raise WrongRules(f"{escaped(name)} has no rule")
    return rules


def _file_of(broken: Broken) -> tuple[bytes, str]:
    """The path of a picture, and where its file is cut off or damaged, for people."""
    return broken.path, f"   (damaged: {broken.damage})" if broken.damage else ""


def _what(broken: Broken) -> str:
    return f"no {broken.label}" if broken.text is None else f'{broken.label} "{escaped(broken.text)}"'


def _print_lines(checked: Checked, by_picture: bool) -> None:
    if by_picture:
        for (path, fault), of_picture in groupby(checked.broken(True), _file_of):
            print_line(shown_path(path) + fault)
            for broken in of_picture:
                rule = checked.rules[broken.number]
                print_line(f"  {_what(broken)}   <- line {rule.line}: {rule.text}")
        return
    for number, of_rule in groupby(checked.broken(), lambda broken: broken.number):
        print_line(f"line {checked.rules[number].line}: {checked.rules[number].text}")
        for (path, fault), of_picture in groupby(of_rule, _file_of):
            print_line(f"  {shown_path(path)}: {', '.join(map(_what, of_picture))}{fault}")


def _print_end(output: Output, checked: Checked) -> None:
    """How many rules are broken, and by how many pictures; which rules are about no picture, and how many pictures may break more."""
    nowhere = checked.notes()
    if output.json:
        about = {
            "rules": len(checked.rules),
            "broken_rules": checked.rules_broken(),
            "pictures": checked.pictures(),
            "broken_pictures": checked.pictures_broken(),
            "not_known": checked.not_known(),
            "may_break": list(map(path_members, checked.paths_not_known())),
            "notes": nowhere,
        }
        print_object("check", "summary", about)
        return
    may_break = in_lines("may break more rules:", checked.paths_not_known(), checked.not_known())
    notes = [*nowhere, *may_break, *filter(None, [checked.unknown()])]
    if output.csv:
        say_notes(*notes)
        return
    rules = f"{checked.rules_broken():,} of {in_words(len(checked.rules), 'rule')} broken"
    print_lines([*notes, f"{rules}, by {checked.pictures_broken():,} of {pictures_in_words(checked.pictures())}"])


LONGEST = 160  # characters of a text that is shown whole


@dataclass
class _Counts:
    """What was found in all pictures, by the names that an object has for it."""

    pictures: int = 0
    in_several_standards: int = 0  # with a label in two of them
    contradicting: int = 0
    differing_in_form: int = 0  # and in nothing else
    not_wholly_read: int = 0
    labels: "Counter[str]" = field(default_factory=Counter)
    kinds: "Counter[ConflictKind]" = field(default_factory=Counter)
    left_out: "Counter[str]" = field(default_factory=Counter)  # contradictions
    sidecars: int = 0  # pictures with texts of an XMP sidecar, which are compared, too

    @property
    def status(self) -> int:
        """The status of the command."""
        if self.not_wholly_read:
            return UNKNOWN
        return DIFFERENCE if self.contradicting else SUCCESS


def agreement(files: Files, run: Run, output: Output, every: bool, chosen: set[str]) -> int:
    """Lists contradictions inside pictures, in some labels; or also differences of form."""
    counts = _Counts()
    table = table_of(output, "picture, label, kind, detail", STANDARDS)
    for picture in _with_sidecars(files, run) if run.sidecars else pictures(files, run):
        known = _count(counts, picture, chosen)
        listed = [one for one in known if one.is_real or every]
        if table:
            _print_rows(table, picture, listed)
        elif not output.json:
            _print_conflicts(picture, listed)
        elif known or is_open(picture) or picture.damage or files.files_from:  # of a list each name has an answer
            print_object("conflicts", "picture", _members(picture, known))
    if output.json:
        print_object("conflicts", "summary", vars(counts))
    elif not table:
        print_lines(_summary(counts, every))
    return counts.status


def _with_sidecars(files: Files, run: Run) -> Iterator[Picture]:
    """The pictures, which are indexed with the XMP files beside them."""
    names = named(files)
    refuse_for_catalogues(files, run, names)
    with catalogue_of_pictures(names, run) as catalogue:
        yield from of_catalogue(catalogue)


def _count(counts: _Counts, picture: Picture, chosen: set[str]) -> list[Conflict]:
    """The conflicts of a picture in some labels, which are counted."""
    counted = [one for one in picture.conflicts if one.label in chosen]
    counts.left_out.update(one.label for one in picture.conflicts if one.is_real and one.label not in chosen)
    counts.pictures += not picture._problem
    counts.not_wholly_read += is_open(picture)
    counts.sidecars += any(one.block.endswith(SIDECAR) for one in picture._labelled.texts)
    counts.in_several_standards += bool(conflicts(picture._labelled.texts, picture._labelled.located))
    real = [one.label for one in counted if one.is_real]
    counts.contradicting += bool(real)
    counts.differing_in_form += bool(counted) and not real
    counts.labels.update(real)
    counts.kinds.update({one.kind for one in counted if not one.is_real})
    return counted


def _print_rows(table: Table, picture: Picture, conflicts: Sequence[Conflict]) -> None:
    """A row for each label; one for what was not read, since a picture without a row would seem to have no contradiction."""
    for conflict in conflicts:
        table.row(picture.path, conflict.label, conflict.kind, conflict.detail, *_texts(conflict))
    if picture._problem:
        table.row(picture.path, None, "not read", f"{picture._problem}: {picture._detail}")
    parts = [", ".join(unread(picture, not_read(picture)))] * bool(not_read(picture))
    for what in (*refused(picture), *parts, *picture_cut(picture)):
        table.row(picture.path, None, "not read", what)


def _unread(picture: Picture) -> list[str]:
    """What is left of a damaged file, and fields that are too many. Other parts, which each raw picture may have, are counted at the end."""
    left = damage(picture.not_read)
    return [", ".join([*(unread(picture, left) if left else []), *picture.too_many])] if left or picture.too_many else []


def _texts(conflict: Conflict) -> list[Cell]:
    texts = grouped((it.standard, it.line + f" ({it.block})" * bool(it.block)) for it in conflict.texts)
    return ["; ".join(texts.get(standard, [])) for standard in STANDARDS]


def _members(picture: Picture, conflicts: Sequence[Conflict]) -> Members:
    rows = [{"label": one.label, "kind": one.kind, "detail": one.detail, "texts": list(map(text_members, one.texts))} for one in conflicts]
    return {**members(picture), "conflicts": rows}


# Lines


def _print_conflicts(picture: Picture, conflicts: Sequence[Conflict]) -> None:
    name = shown_path(picture.path)
    print_lines([name] * bool(conflicts))
    for conflict in conflicts:
        print_lines(_conflict_lines(conflict))
    if picture._problem:
        print_line(f"{name}: {picture._problem}: {picture._detail}")
    print_lines(f"{name}: not wholly read: {what}" for what in _unread(picture))
    print_lines(f"{name}: {what}" for what in picture_cut(picture))


def _conflict_lines(conflict: Conflict) -> Iterator[str]:
    """A label, and below it the texts with their fields."""
    yield f"  {conflict.label}" + (f": {conflict.detail}" if conflict.detail else "")
    every = together(conflict.texts)
    names = list(map(origins, every))
    width = max(map(len, names))
    for name, text in zip(names, map(escaped, tell_apart([ours[0].line for ours in every]))):
        short = text if len(text) <= LONGEST else f"{text[: LONGEST - 10]}.. ({len(text):,} characters)"
        yield f"    {name:<{width}}  {short}"


def _summary(counts: _Counts, every: bool) -> Iterator[str]:
    yield f"{pictures_in_words(counts.pictures)} read, {counts.in_several_standards:,} of them with a label in more than one of Exif, IPTC and XMP"
    if counts.sidecars:
        yield f"{pictures_in_words(counts.sidecars)} with an XMP sidecar, whose texts are compared with those of the picture"
    if counts.contradicting:
        yield f"{pictures_in_words(counts.contradicting)} with a contradiction ({_listed(counts.labels)})"
    if counts.differing_in_form:
        kinds = Counter({kind.text: number for kind, number in counts.kinds.items()})
        yield f"{pictures_in_words(counts.differing_in_form)} with differences of form alone" + ("" if every else ", which --all lists")
        yield f"differences of form: {_listed(kinds)}"
    if counts.left_out:
        yield f"left out though they contradict: {_listed(counts.left_out)}"
    if counts.not_wholly_read:
        yield f"{pictures_in_words(counts.not_wholly_read)} not wholly read: a block is refused, unreadable or has too many fields, or the file is damaged or isn't wholly read (explain)"


def _listed(counts: "Counter[str]") -> str:
    return ", ".join(f"{word} {number:,}" for word, number in counts.most_common())
