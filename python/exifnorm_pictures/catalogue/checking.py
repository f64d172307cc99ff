"""What breaks a museum's rules, by the texts of a catalogue: SQLite finds the pictures of each rule, and orders what was found."""

from __future__ import annotations

import os
import re
from dataclasses import replace
from itertools import groupby
from typing import Iterator, NamedTuple, Sequence

from ..fields.choosing import stands_for
from ..fields.questions import Condition, compose, fields_in, is_field
from ..fields.labels import DAMAGE, DATED, POSITION, UNCLEAR_POSITION
from ..fields.names import group_name
from ..fields.rules import AFTER, AGREE, BEFORE, EQUAL, LENGTH, LIKE, NEEDS, NEVER, VALUES, Rule
from ..model.records import Row, has, has_short
from ..model.texts import Members, pictures_in_words, whole_path
from .asking import IN_SCOPE, add_functions, forms_of_word, has_text, parts_of, pattern_of, put_wanted, unread
from .kept_texts import DATE as FIELD_DATE, EACH, SHOWN, Report, add_fields, ambiguous_in, make_ready, say_nothing
from .store import Catalogue, root_of_row
from .texts import texts_of

_TEXTS = f"""SELECT p.path, p.root, t.text FROM texts t JOIN pictures p ON p.id = t.picture
    WHERE t.label = ? AND {{}} AND {IN_SCOPE}"""
_COMPARISONS = {AFTER: ">", BEFORE: "<", EQUAL: "=", VALUES: "is"}  # of questions


class Broken(NamedTuple):
    """A picture that breaks a rule."""

    path: bytes
    number: int  # of the rule
    label: str
    text: str | None  # the one that the rule doesn't allow; None: there is none, and it needs one
    damage: str = ""  # where the file is cut off or damaged


class Checked:
    """The result of checking a catalogue's pictures by some rules. It is kept in a temporary table, however many pictures break a rule."""

    def __init__(self, catalogue: Catalogue, rules: Sequence[Rule], report: Report = say_nothing, only: str | None = None) -> None:
        """`only`: a table of the paths of the pictures that are checked."""
        make_ready(catalogue, report)
        self._places = add_fields(catalogue, fields_in(label for rule in rules for label in rule.labels), report)
        self._catalogue = catalogue
        self.rules = rules
        self._scope = f"{IN_SCOPE} AND p.path IN {only}" if only else IN_SCOPE
        add_functions(catalogue)
        self._allowed: dict[Rule, int] = {}  # the numbers of the texts that rules allow
        catalogue.execute("CREATE TEMP TABLE broken (path BLOB, number INTEGER, label TEXT, text TEXT)")
        for number, rule in enumerate(rules):
            if rule.kind == VALUES:
                self._allowed[rule] = put_wanted(catalogue, rule.values)
            for label in rule.labels if rule.kind != AGREE else ():
                self._put((*row, number, label) for row in self._rows(rule, label))
        self._put(self._disagreeing())
        if only:
            catalogue.execute(f"DELETE FROM temp.broken WHERE path NOT IN {only}")
        self._put_not_known()

    def _put(self, rows: Iterator[tuple[bytes, str | None, int, str]]) -> None:
        self._catalogue.execute_for(rows, "INSERT INTO temp.broken (path, text, number, label) VALUES (?, ?, ?, ?)")

    def _disagreeing(self) -> Iterator[tuple[bytes, str | None, int, str]]:
        """The pictures that break a rule by texts that differ between Exif, IPTC and XMP."""
        rules = [(number, rule) for number, rule in enumerate(self.rules) if rule.kind == AGREE]
        for picture in self._catalogue.pictures() if rules else ():
            if picture.problem:
                continue
            below = _below(picture.path, picture.root)
            about = [(number, rule.labels) for number, rule in rules if rule.is_about(below)]
            texts = texts_of(self._catalogue.blocks_with_fields(picture))
            for one in texts.conflicts():
                if one.is_real:
                    yield from ((picture.path, one.line, number, one.label) for number, labels in about if one.label in labels)

    def _rows(self, rule: Rule, label: str) -> Iterator[tuple[bytes, str | None]]:
        """The pictures that break a rule by one label, each with the text that does."""
        for query, values in self._queries(rule, label):
            for path, root, text in self._catalogue.rows(query, values):
                has(bytes, path, root)
                if text is not None:
                    has_text(text)
                if rule.is_about(_below(path, root)):
                    yield path, text

    def _queries(self, rule: Rule, label: str) -> Iterator[tuple[str, Row]]:
        """The pictures that break a rule in SQL, with the text that does, and its values. A date that no calendar has breaks each rule."""
        if rule.kind == NEEDS:
            # a picture that was not wholly read may have the text
            query = f"SELECT p.path, p.root, NULL FROM pictures p WHERE {IN_SCOPE} AND NOT {unread([label])}"
            yield f"{query} AND p.id NOT IN (SELECT picture FROM texts WHERE label = ?)", (label,)
        has_dates = rule.kind != NEVER and self._is_date(rule, label)
        if has_dates:
            dated = FIELD_DATE + label if is_field(label) else label
            yield _TEXTS.format("is_impossible(t.text)"), (dated,)
        if rule.kind != NEEDS:
            test, given = self._test(rule, label)
            test = f"({test}) AND NOT is_impossible(t.text)" if has_dates else test
            yield _TEXTS.format(test), (self._label_of(rule, label), *given)

    def _is_date(self, rule: Rule, label: str) -> bool:
        """Whether a rule is about dates: by its words, or as its label has nothing else."""
        names = [group_name(*place) for place in self._places.get(label, ())]
        dated = bool(names) and all(re.search("date", name, re.I) for name in names)
        return dated or label in DATED or rule.kind in (AFTER, BEFORE)

    def _label_of(self, rule: Rule, label: str) -> str:
        """The label of the texts that a rule is about: of a field those that `show` prints, or its dates."""
        return label if not is_field(label) else (FIELD_DATE if rule.kind in (AFTER, BEFORE) else SHOWN) + label

    def _test(self, rule: Rule, label: str) -> tuple[str, Row]:
        """What a text has to be in SQL to break a rule, and its values."""
        if rule.kind == NEVER:
            return "1", ()
        value = rule.values[0]
        if rule.kind == LIKE:
            return "composed(t.text) NOT GLOB ?", (pattern_of(compose(value)),)
        if rule.kind == LENGTH:
            return "length(composed(t.text)) > ?", (int(value),)
        condition = Condition(label, _COMPARISONS[rule.kind], value)
        if rule.kind in (AFTER, BEFORE):
            (part,) = parts_of(condition, self._label_of(rule, label))
            return part
        return self._unlike(condition, self._allowed.get(rule, 0))

    def _unlike(self, condition: Condition, allowed: int) -> tuple[str, Row]:
        """That a text doesn't compare as a condition has it, in none of the forms of its value."""
        tests, values = [], []  # type: list[str], list[object]
        labels = forms_of_word(condition.label)
        for label in labels:
            for part in parts_of(condition, label, allowed):
                tests.append(f"f.label = ? AND {part.sql}")
                values += [label, *part.values]
        same = "f.long IN (0, 1) AND f.picture = t.picture AND "
        same += f"f.number / {EACH} = t.number / {EACH}" if is_field(condition.label) else "f.number = t.number"
        fits = f"SELECT 1 FROM texts f WHERE f.label IN ({', '.join('?' * len(labels))}) AND {same}"
        return f"NOT EXISTS ({fits} AND ({' OR '.join(tests)}))", (*labels, *values)

    def broken(self, by_picture: bool = False) -> Iterator[Broken]:
        """What breaks a rule, by rules or by pictures."""
        order = "path, number, rowid" if by_picture else "number, path, rowid"
        of_file = "(SELECT damage FROM pictures p WHERE p.path = b.path)"
        yield from self._catalogue.rows(f"SELECT path, number, label, text, {of_file} FROM temp.broken b ORDER BY {order}", (), _broken)

    def members(self, broken: Broken) -> Members:
        """What breaks a rule, as keys of a JSON object."""
        rule = self.rules[broken.number]
        return {"line": rule.line, "rule": rule.text, "label": broken.label, "text": broken.text}

    def rules_broken(self) -> int:
        """How many rules are broken."""
        return self._catalogue.number_of("SELECT count(DISTINCT number) FROM temp.broken")

    def pictures_broken(self, number: int | None = None) -> int:
        """How many pictures break a rule, or the one with this number."""
        query = "SELECT count(DISTINCT path) FROM temp.broken WHERE ?1 IS NULL OR number = ?1"
        return self._catalogue.number_of(query, (number,))

    def pictures(self) -> int:
        """How many pictures were checked."""
        return self._catalogue.number_of(f"SELECT count(*) FROM pictures p WHERE {self._scope}")

    def _put_not_known(self) -> None:
        """Finds the pictures of which it isn't known whether they break further rules."""
        self._catalogue.execute("CREATE INDEX temp.broken_by_path ON broken (path, number)")
        self._catalogue.execute("CREATE TEMP TABLE unknown (path BLOB PRIMARY KEY) WITHOUT ROWID")
        for label in dict.fromkeys(label for rule in self.rules for label in rule.labels):
            self._catalogue.execute_for(((path,) for path in self._may_break(label)), "INSERT OR IGNORE INTO temp.unknown VALUES (?)")

    def _may_break(self, label: str) -> Iterator[bytes]:
        """The pictures that may have a text of a label, or a further one, and then may break a rule that they don't break by what was read."""
        rules = [(number, rule) for number, rule in enumerate(self.rules) if label in rule.labels]
        with_text = "SELECT 1 FROM texts t WHERE t.label = ? AND t.long IN (0, 1) AND t.picture = p.id"
        query = f"SELECT p.path, p.root, EXISTS ({with_text}) FROM pictures p WHERE {self._scope} AND {unread([label])}"
        for path, root, has_one in self._catalogue.rows(query, (label,)):
            has(bytes, path, root)
            below = _below(path, root)
            if any(
                not (rule.kind == NEEDS and has_one) and rule.is_about(below) and not self._breaks(path, number) for number, rule in rules
            ):
                yield path

    def _breaks(self, path: bytes, number: int) -> bool:
        query = "SELECT EXISTS (SELECT 1 FROM temp.broken WHERE path = ? AND number = ?)"
        return bool(self._catalogue.number_of(query, (path, number)))

    def not_known(self) -> int:
        """Of how many it isn't known whether they break further rules."""
        return self._catalogue.number_of("SELECT count(*) FROM temp.unknown")

    def unknown(self) -> str:
        """A sentence about these pictures, with the reasons; empty if there are none. They are more than those of which a part was not read."""
        labels = {label for rule in self.rules for label in rule.labels}
        of_picture = ", or its picture was not read for damage, as index --pixels does" * (DAMAGE in labels)
        why = f"may break more rules: a block is refused or unreadable, or a part was not read{of_picture}"
        if POSITION in labels and self._catalogue.number_of("SELECT count(*) FROM texts WHERE label = ?", (UNCLEAR_POSITION,)):
            why += ", or a latitude or a longitude makes no position, as without a direction or the other one"
        return f"{pictures_in_words(self.not_known())} {why}" if self.not_known() else ""

    def paths_not_known(self) -> Iterator[bytes]:
        """These pictures, by path."""
        yield from self._catalogue.rows("SELECT path FROM temp.unknown ORDER BY path", (), root_of_row)

    def notes(self) -> list[str]:
        """The rules whose folders have no picture, and the names that several fields have, each in a sentence."""
        notes = []
        for rule, inside in self.about_nothing():
            folders = self._catalogue.roots()
            below = whole_path(folders[0]) if len(folders) == 1 else "the folders that were indexed"
            notes.append(f"line {rule.line}: no picture lies in {' or '.join(inside)} below {below}")
        return notes + [stands_for(*it) for it in ambiguous_in(self._places).items()]

    def about_nothing(self) -> list[tuple[Rule, list[str]]]:
        """The rules with folders that have no picture, and these folders: a folder may be mistyped."""
        left = [(rule, folder, replace(rule, inside=(folder,))) for rule in self.rules for folder in rule.inside]
        for path, root in self._catalogue.rows(f"SELECT p.path, p.root FROM pictures p WHERE {IN_SCOPE}") if left else ():
            has(bytes, path, root)
            left = [one for one in left if not one[2].is_about(_below(path, root))]
            if not left:
                break
        return [(rule, [one[1] for one in of_rule]) for rule, of_rule in groupby(left, lambda one: one[0])]


def _below(path: bytes, root: bytes) -> str:
    """A path below the folder that was indexed, with undecodable bytes as `os.fsdecode` has them."""
    return os.fsdecode(path[len(root) :].lstrip(b"/") if path.startswith(root.rstrip(b"/") + b"/") else os.path.basename(path))


def _broken(row: tuple[bytes, int, str, str | None, str]) -> Broken:
    has(bytes, row[0])
    has_short(str, row[4])
    return Broken(*row)
