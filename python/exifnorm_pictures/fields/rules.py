"""A museum's own rules about captions, names, keywords and rights, a line each, as in `EXAMPLES`.

A label is one of `show --captions`, or the name of a field as `show` or ExifTool has it (IPTC:ExpirationDate). A rule but `needs` is about every text
that is there. `is`, `one of` and `from` compare exactly, but for how accents are composed, and `=` without capitals, as in questions. `like` is
exact, too, and has the wildcards * and ?, and # for a digit. A date that no calendar has breaks each rule about dates. A folder with a slash
inside lies at the top of what was indexed, and any other one anywhere below it.
`agree` is about what Exif, IPTC and XMP of a picture have of a label.
"""

from __future__ import annotations

import contextlib
import fnmatch
import os
import re
from dataclasses import dataclass
from typing import Iterable, NoReturn, Sequence

from ..model.errors import WrongUse
from . import dates
from .labels import DATED, LABELS, POSITION, fields_by_label, label_of
from .questions import WrongQuestion, checked_value, exact_value, given_label, nearest
from .tokens import EXACT, MOST_WORDS, Mistake, Reader, Token, Words, WordsOf, tokens_of

EXAMPLES = """every picture needs creator, credit, copyright    # a comment
copyright is "Riverside Museum"
credit one of "Riverside Museum", "Public domain"
title like "####.##*" in scans/
keywords from words.txt
position, serial never in web/ except web/press/
caption at most 2000 characters
date created not after today
city = Zürich
labels agree except keywords
title, caption agree
"""
NEEDS, VALUES, EQUAL, LIKE, NEVER = "needs values equal like never".split()
LENGTH, AFTER, BEFORE = "length", "after", "before"
AGREE = "agree"
COMPARED = (*(it.word for it in LABELS), POSITION)  # labels of which Exif, IPTC and XMP of a picture may disagree
_PREDICATES = {  # by their words
    ("needs",): NEEDS,
    ("is",): VALUES,
    ("one", "of"): VALUES,
    ("from",): VALUES,
    ("=",): EQUAL,
    ("like",): LIKE,
    ("never",): NEVER,
    ("at", "most"): LENGTH,
    ("not", "after"): AFTER,
    ("not", "before"): BEFORE,
    ("agree",): AGREE,
}
_PLACES = ("in", "except")
# What may be meant, and the words in place of it
_OTHER_WORDS = """
is                     : equals must should are be
like "*..*"            matches match has contains contain with
not after              before until < <=
not before             after since > >=
never                  forbidden no none without not
at most .. characters  max maximum up shorter
a comma                and or & ;
every picture needs    need require requires required have
"""
_MEANT = {word: line[:23].rstrip() for line in _OTHER_WORDS.strip().splitlines() for word in line[23:].split()}
MOST_RULES = 1000
LONGEST_LINE = 100_000  # characters
_MOST_MISTAKES = 20  # that are listed
_LONGEST_NAME = 100  # characters of a wrong name that are shown


class WrongRules(WrongUse):
    """Rules that can't be understood: a line for each mistake."""


@dataclass(frozen=True)
class Rule:
    """A rule: for pictures in some folders, what it asks of the texts of some labels."""

    line: int
    text: str  # as it was written
    kind: str
    labels: Words
    values: tuple[
        str, ...
    ] = ()  # of VALUES all that are allowed; the text of EQUAL, the pattern of LIKE, the number of LENGTH, the date of AFTER and BEFORE
    inside: Words = ()
    outside: Words = ()

    def is_about(self, path: str) -> bool:
        """Whether it is about a picture with this path below the folder that was indexed.

        >>> Rule(1, "", NEVER, ("serial",), (), ("web/",), ("web/press/",)).is_about("2024/web/a.jpg")
        True
        """
        return (not self.inside or _lies_in(path, self.inside)) and not _lies_in(path, self.outside)


def _lies_in(path: str, folders: Iterable[str]) -> bool:
    names = path.split("/")[:-1]
    for folder in folders:
        parts = folder.strip("/").split("/")
        for start in range(1 if len(parts) > 1 or folder.startswith("/") else len(names)):
            if len(names) >= start + len(parts) and all(map(fnmatch.fnmatchcase, names[start:], parts)):
                return True
    return False


def rules_of(text: str, words_of: WordsOf) -> list[Rule]:
    """The rules of a file; `words_of` reads a file of words. Raises `WrongRules`, with a line for each mistake.

    >>> [rule.kind for rule in rules_of("every picture needs credit\\ncredit is 'Museum'", lambda name: [])]
    ['needs', 'values']
    """
    rules = []
    mistakes = []
    words = 0
    for number, line in enumerate(text.splitlines(), 1):
        try:
            rule = _rule(number, line, words_of)
        except Mistake as mistake:
            mistakes += [f"line {number}: {mistake.why}", *mistake.shown_in(line)]
            if len(mistakes) < 3 * _MOST_MISTAKES:
                continue
            raise WrongRules(*mistakes, "the lines below were not looked at") from None
        if rule:
            rules.append(rule)
            words += len(rule.values)
        if len(rules) > MOST_RULES or words > MOST_WORDS:
            raise WrongRules(f"at most {MOST_RULES:,} rules are checked, which together allow at most {MOST_WORDS:,} texts")
    if mistakes:
        raise WrongRules(*mistakes)
    return rules


def _rule(number: int, line: str, words_of: WordsOf) -> Rule | None:
    """The rule of a line, if it has one. Raises `Mistake`."""
    if len(line) > LONGEST_LINE:
        raise Mistake(f"a line has at most {LONGEST_LINE:,} characters; a file of words, after from, may have more", 0, 1)
    tokens = tokens_of(line, has_comments=True)
    return _Reader(line, tokens, words_of).read(number) if tokens else None


_ENDS = (",", *_PLACES)
_VALUE = "expected: a text, in quotes if it has a comma, in or except"


class _Reader(Reader):
    """Reads the rule of a line."""

    def read(self, number: int) -> Rule:
        """The whole rule."""
        if self._takes("every", "picture"):
            if not self._takes("needs"):
                self._fail("expected: needs, as in `every picture needs credit`")
            kind, labels, values = NEEDS, self._labels(), ()  # type: tuple[str, Words, Words]
        elif self._takes("labels", "agree"):
            left_out = self._left_out()
            kind, labels, values = AGREE, tuple(it for it in COMPARED if it not in left_out), ()
        else:
            labels = self._labels()
            kind, values = self._predicate(labels)
        inside, outside = self._places()
        written = self._text[self._tokens[0].start : self._tokens[-1].end]
        return Rule(number, written, kind, labels, values, inside, outside)

    def _left_out(self) -> Sequence[str]:
        """The labels after `labels agree except`, where folders may be, too, which have a slash."""
        at = self._at
        if self._takes("except") and "/" not in self._up_to(lambda: self._next.word in _ENDS).text:
            self._at = at + 1
            return self._compared(self._labels())
        self._at = at
        return ()

    def _labels(self) -> Words:
        """Labels up to a predicate, a place or the end."""
        labels = [self._label()]
        while self._takes(","):
            labels.append(self._label())
        return tuple(labels)

    def _label(self) -> str:
        first = self._at
        given = self._up_to(lambda: self._next.word in _ENDS or bool(self._predicate_words()))
        tokens = self._tokens[first : self._at]
        if not tokens:
            self._fail("expected: a label, such as credit")
        name = " ".join(given.text.split())
        label = label_of(name)
        if label is not None:
            return label
        with contextlib.suppress(WrongQuestion):
            if not any(it.startswith(f"{name.casefold()} ") for it in fields_by_label()):  # as date, which is a field of few pictures
                return given_label(name)
        self._fail_at_label(name[:_LONGEST_NAME], tokens)

    def _fail_at_label(self, name: str, tokens: Sequence[Token]) -> NoReturn:
        """Says what is wrong with words that are no label, and what may be meant."""
        if tokens[0].word in ("every", "each", "all", "any") and len(tokens) > 1 and tokens[1].word in ("picture", "pictures"):
            self._fail("expected: every picture needs, as in `every picture needs credit`", *tokens[:3])
        for at, token in enumerate(tokens[1:], 1):
            if token.word in _MEANT and label_of(" ".join(before.text for before in tokens[:at])):
                self._fail(f"{token.text!r} is no word of a rule (perhaps {_MEANT[token.word]} is meant)", token)
        self._fail(f"{name!r} is no label and no field{nearest(name)}", *tokens)

    def _predicate_words(self) -> Words:
        """The words of the predicate that is next; empty if none is."""
        return next((words for words in _PREDICATES if self._follows(*words)), ())

    def _predicate(self, labels: Words) -> tuple[str, Words]:
        words = self._predicate_words()
        if not words:
            known = (" ".join(words) for words in _PREDICATES if words != ("needs",))
            self._fail(f"expected: {', '.join(known)}")
        self._takes(*words)
        kind = _PREDICATES[words]
        if kind == NEEDS:
            self._fail("only `every picture` needs something: every picture needs " + ", ".join(labels), *self._tokens[:1])
        return kind, self._values(words, kind, labels)

    def _values(self, words: Words, kind: str, labels: Words) -> Words:
        if kind in (NEVER, AGREE):
            return self._compared(labels)[:0] if kind == AGREE else ()
        if kind == LENGTH:
            return (self._length(),)
        if kind in (AFTER, BEFORE):
            return (self._date(labels),)
        is_comment = "#" in self._text[self._tokens[-1].end :]
        expected = _VALUE + ". # begins a comment: put a text that has it in quotes" * is_comment
        if words in EXACT:
            return tuple(exact_value(labels[0], it) for it in self._texts(words, _ENDS, expected))
        value = self._value(_ENDS, expected)
        try:
            return tuple(checked_value(label, words[0], value) for label in labels)[:1]
        except ValueError as error:
            self._fail(str(error), value)

    def _compared(self, labels: Words) -> Words:
        """These labels, all of which have to be among those that Exif, IPTC and XMP may have."""
        if others := [label for label in labels if label not in COMPARED]:
            self._fail(f"{others[0]} is none of the labels that are compared: {', '.join(COMPARED)}", *self._tokens[:1])
        return labels

    def _length(self) -> str:
        number = self._next
        if not re.fullmatch(r"[1-9][0-9]{0,6}", number.word):
            self._fail("expected: a number, as in at most 2000 characters")
        self._at += 1
        if self._next.word not in ("characters", "character"):
            self._fail("expected: characters, as in at most 2000 characters")
        self._at += 1
        return number.text

    def _date(self, labels: Sequence[str]) -> str:
        for label in labels:
            if label not in DATED and label in fields_by_label():
                self._fail(f"only {', '.join(DATED)} and fields are compared with a date", *self._tokens[:1])
        given = self._up_to(lambda: self._next.word in _PLACES)
        day = dates.asked_date(given.text)
        if not day:
            self._fail(f"expected: {dates.EXPECTED}", given)
        return day

    def _places(self) -> tuple[Words, Words]:
        folders: dict[str, list[str]] = {word: [] for word in _PLACES}
        while not self._is_at_end:
            word = self._next.word
            if word not in _PLACES:
                is_further = word == "or" or self._next.is_quoted
                several = '. Several texts: one of "a", "b"' * is_further
                self._fail(f"expected: in or except and a folder, or the end of the line{several}")
            self._at += 1
            of_word = folders[word]
            of_word.append(self._folder())
            while self._takes(","):
                of_word.append(self._folder())
        return tuple(folders["in"]), tuple(folders["except"])

    def _folder(self) -> str:
        """A folder, whose name has spaces only in quotes."""
        end = self._next.end
        folder = self._up_to(lambda: self._next.word == "," or self._next.end > end and self._next.start > self._tokens[self._at - 1].end)
        if not folder.text.strip("/"):
            self._fail("expected: a folder, such as scans/", folder)
        return os.path.normpath(folder.text) + "/"
