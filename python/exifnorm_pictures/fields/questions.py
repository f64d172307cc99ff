"""Questions about labelled texts, as somebody types them: `keywords = clay and not (creator like "Otto*" or without credit)`.

    question    alternative { "or" alternative }
    alternative factor { "and" factor }
    factor      "not" factor | "(" question ")" | ("with" | "without") label | label comparison value
    comparison  "=" | "!=" | "has" | "like" | "<" | "<=" | ">" | ">=" | "is" | "one of" | "from"

A value with `and`, `or`, `not`, brackets or quotes in it is written in quotes. Capitals don't matter in any of the words. A value of a field may be
as `show`, ExifTool or exiv2 print it; a date is also `today`, `today + 30 days`, or `impossible`. `is`, `one of` (several texts with commas) and
`from` (a file of them) take no other text for the same, but for how accents are composed.
"""

from __future__ import annotations

import difflib
import re
import unicodedata
from dataclasses import dataclass
from typing import Callable, Iterable, Iterator, Sequence, Union

from ..model.errors import WrongUse
from ..model.texts import safe
from . import dates
from .choosing import hint, is_known
from .forms import clock_of, number_of
from .labels import CODED, DAMAGE, DATED, POSITION, fields_by_label, label_of
from .places import place_of
from .tokens import EXACT, Mistake, Reader, Token, Words, WordsOf, tokens_of

# Texts as people compare them: capitals, decomposed letters and spaces don't tell two texts apart.


def folded(text: str) -> str:
    """A text in which equal texts are alike: without capitals, with composed letters, single spaces between words and none around them.

    Letters are folded by the canonical caseless matching of Unicode, section 3.13.

    >>> folded(" Otto  WEISS "), folded("Otto Weiß"), folded("Zu\u0308rich") == folded("Z\u00fcrich")
    ('otto weiss', 'otto weiss', True)
    """
    if text.isascii():
        return " ".join(text.lower().split())
    decomposed = unicodedata.normalize("NFD", unicodedata.normalize("NFD", text).casefold())
    return " ".join(unicodedata.normalize("NFC", decomposed).split())


def compose(text: str) -> str:
    """A text with composed letters, by which the very same texts are alike.

    >>> compose("Zu\u0308rich") == "Z\u00fcrich", compose("Weiß") == compose("Weiss")
    (True, False)
    """
    return unicodedata.normalize("NFC", text)


def bare(text: str) -> str:
    """A text without what spellings of one name differ in: capitals, accents, spaces and punctuation. Of signs alone, the text as it is.

    >>> bare("Müller, Anna"), bare("muller anna"), bare("--")
    ('mulleranna', 'mulleranna', '--')
    """
    if text.isascii():
        return _OTHERS.sub("", text.lower()) or folded(text)
    compared = folded(text)
    if compared.isascii():
        return _OTHERS.sub("", compared) or compared
    return "".join(character for character in unicodedata.normalize("NFKD", compared) if character.isalnum()) or compared


_OTHERS = re.compile("[^a-z0-9]+")


COMPARISONS = ("=", "!=", "has", "like", "<", "<=", ">", ">=", "is", "one of", "from")
ORDERED = ("<", "<=", ">", ">=")
_SIGNS = ("=", "!=", *ORDERED)
_SIGNS_SHOWN = ", ".join(COMPARISONS)
_AFTER_LABEL = f"expected: {_SIGNS_SHOWN} and a value after {{0}}, or `with {{0}}`"
DEEPEST = 20  # brackets and `not` inside each other, each of which takes places in the stack of SQLite's parser, of which it has 100
LONGEST = 4000  # characters of a question
LONGEST_PATTERN = 1000  # characters of `like`, with which SQLite may compare at each place of a text
MOST = 400  # conditions, of which SQLite makes one expression


class WrongQuestion(WrongUse):
    """A question that can't be understood. Its lines show where."""


class Unsure(str):
    """A name that is no label and of no field by the standards, as one of a namespace that nobody has heard of: pictures may have it."""

    why: WrongQuestion  # if none has


@dataclass(frozen=True)
class With:
    """Pictures with a text of this label."""

    label: str


@dataclass(frozen=True)
class Condition:
    """Pictures of which a text of this label compares so. `!=` is `Not` of `=`; `is`, `one of` and `from` are `is`."""

    label: str
    comparison: str
    value: str
    others: Words = ()  # further texts of `is`, of which one is enough


@dataclass(frozen=True)
class Not:
    """All other pictures."""

    question: "Question"


@dataclass(frozen=True)
class All:
    """Pictures for which each of these holds."""

    questions: tuple["Question", ...]


@dataclass(frozen=True)
class Any:
    """Pictures for which one of these holds."""

    questions: tuple["Question", ...]


Question = Union[With, Condition, Not, All, Any]


def labels_of(question: Question) -> list[str]:
    """The labels of a question, in its order, each once.

    >>> labels_of(question_of("without credit and creator = Anna or credit = x"))
    ['credit', 'creator']
    """
    return list(dict.fromkeys(leaf.label for leaf in _leaves(question)))


def _leaves(question: Question) -> Iterator[With | Condition]:
    """What a question asks of single labels."""
    if isinstance(question, (With, Condition)):
        yield question
    else:
        for part in (question.question,) if isinstance(question, Not) else question.questions:
            yield from _leaves(part)


def conditions_of(question: Question) -> list[Condition]:
    """The comparisons of a question."""
    return [leaf for leaf in _leaves(question) if isinstance(leaf, Condition)]


def all_of(questions: Sequence[Question]) -> Question:
    """The question whether each of some holds. Raises `WrongQuestion` if they have too many conditions together."""
    if sum(1 for question in questions for _ in _leaves(question)) > MOST:
        raise WrongQuestion(f"a question has at most {MOST} conditions, all options together")
    return questions[0] if len(questions) == 1 else All(tuple(questions))


def question_of(text: str, words_of: WordsOf = lambda name: []) -> Question:
    """What a text asks; `words_of` reads a file of words. Raises `WrongQuestion`.

    >>> question_of("keywords = clay or without credit")
    Any(questions=(Condition(label='keywords', comparison='=', value='clay', others=()), Not(question=With(label='credit'))))
    >>> question_of("credit one of Museum, 'Public domain'").others
    ('Public domain',)
    """
    if len(text) > LONGEST:
        raise WrongQuestion(f"a question has at most {LONGEST:,} characters; of a long text give its beginning: LABEL like 'Once upon*'")
    _check_text(text)
    try:
        return _Reader(text, tokens_of(text), words_of).read()
    except Mistake as mistake:
        raise WrongQuestion(mistake.why, *mistake.shown_in(text)) from None


def given_label(text: str) -> str:
    """The label or the field that somebody names. Raises `WrongQuestion` with the nearest one.

    >>> given_label("Date-Created"), given_label("FNumber")
    ('date created', 'FNumber')
    """
    _check_text(text)
    label = _label_or_field(text.strip())
    return _unsure(text.strip(), f"{text!r} is no label and no field") if label is None else label


def _unsure(text: str, why: str, *lines: str) -> Unsure:
    """A name that is no known one. Raises `WrongQuestion` if it can be none, or looks like one that is mistyped."""
    near = nearest(text)
    problem = WrongQuestion(why + (near or f". The labels are {', '.join((*fields_by_label(), DAMAGE))}"), *lines)
    if near or not re.fullmatch(r"[A-Za-z_][\w:.-]*", text):
        raise problem
    label = Unsure(text)
    label.why = problem
    return label


def _check_text(text: str) -> None:
    """Raises `WrongQuestion` for bytes of an argument that are no UTF-8, which no text of a catalogue has."""
    if not text.isascii() and re.search("[\ud800-\udfff]", text):
        raise WrongQuestion(f"{safe(text)} is no text in UTF-8")


def _label_or_field(text: str) -> str | None:
    """A label, damage, or the name of a field as --only takes it; None if no field is named so."""
    label = DAMAGE if text.casefold() == DAMAGE else label_of(text)
    if label is None and text and not text.isspace():
        return text if is_known(text) else None
    return label


def fields_in(words: Iterable[str]) -> list[str]:
    """Those of some words that are fields or damage and no labels, each once."""
    labels = fields_by_label()
    return [word for word in dict.fromkeys(words) if word not in labels]


def nearest(name: str) -> str:
    """The label or the field that may be meant, in parentheses: a label that begins so, one with nearly these letters, one that stands for a field
    of this name, or a field. Empty if there is none.

    >>> nearest("creatr"), nearest("license end"), nearest("x")
    (' (perhaps creator is meant)', ' (perhaps LicenseEndDate is meant)', '')
    """
    folded, by_label = name.casefold(), fields_by_label()
    labels = [*by_label, DAMAGE]
    near = [label for label in labels if len(name) > 2 and label.startswith(folded)] or difflib.get_close_matches(folded, labels, 1, 0.6)
    near += [label for label, fields in by_label.items() if any(folded in it.casefold().split(":") for it in fields)]
    return f" (perhaps {near[0]} is meant)" if near else hint(name)


_ENDS = ("and", "or", "(", ")")


class _Reader(Reader):
    """Reads a question from its tokens."""

    _depth = 0

    def read(self) -> Question:
        """The whole question."""
        if self._is_at_end:
            self._fail("the question is empty")
        question = self._read_any()
        if not self._is_at_end:
            self._fail("expected: and, or" + "; there is no bracket to close" * self._follows(")"))
        return question

    def _read_any(self) -> Question:
        return self._read_joined("or", Any, lambda: self._read_joined("and", All, self._read_factor))

    def _read_joined(self, word: str, joined: "type[All | Any]", read: Callable[[], Question]) -> Question:
        questions = [read()]
        while self._takes(word):
            questions.append(read())
        return questions[0] if len(questions) == 1 else joined(tuple(questions))

    def _read_factor(self) -> Question:
        self._depth += 1
        if self._depth > DEEPEST:
            self._fail("too many brackets inside each other")
        if self._takes("not"):
            question: Question = Not(self._read_factor())
        elif self._takes("("):
            question = self._read_any()
            if not self._takes(")"):
                self._fail("expected: )")
        elif self._takes("with"):
            question = With(self._read_label())
        elif self._takes("without"):
            question = Not(With(self._read_label()))
        else:
            question = self._read_comparison()
        self._depth -= 1
        return question

    def _comparison(self) -> Words:
        """The words of the comparison that is next; empty if none is."""
        return next((it for it in _BY_WORDS if self._follows(*it)), ())

    def _read_label(self) -> str:
        """The label up to a comparison, a word that joins, or the end."""
        first = self._at
        whole = self._up_to(lambda: self._next.word in _ENDS or bool(self._comparison()))
        tokens = self._tokens[first : self._at]
        if not tokens:
            self._fail("expected: a label, such as keywords")
        label = _label_or_field(whole.text)
        if label is not None:
            return label
        for number in range(len(tokens) - 1, 0, -1):  # what follows a label is no comparison then
            label = _label_or_field(self._text[tokens[0].start : tokens[number - 1].end])
            if label is not None:
                self._fail(_AFTER_LABEL.format(label), tokens[number])
        shown = Mistake("", whole.start, whole.end).shown_in(self._text)
        return _unsure(whole.text, f"{whole.text!r} is no label and no field", *shown)

    def _read_comparison(self) -> Question:
        label = self._read_label()
        words = self._comparison()
        if not words:
            self._fail(_AFTER_LABEL.format(label))
        self._takes(*words)
        if words in EXACT:
            values = [exact_value(label, text) for text in self._texts(words, _ENDS, _VALUE)]
            return Condition(label, "is", values[0], tuple(values[1:]))
        if self._next.word in _SIGNS:  # as in == and <>, which other programs have
            self._fail(f"expected: a value. The comparisons are {_SIGNS_SHOWN}; put a value that begins like that in quotes")
        value = self._value(_ENDS, _VALUE)
        try:
            text = checked_value(label, words[0], value)
        except ValueError as error:
            self._fail(str(error), value)
        if words[0] == "!=":
            return Not(Condition(label, "=", text))
        return Condition(label, words[0], text)


_BY_WORDS = tuple(tuple(it.split()) for it in COMPARISONS)
_VALUE = "expected: a value; in quotes if it has brackets, and, or"


def checked_value(label: str, comparison: str, value: Token) -> str:
    """A value as texts of a label are kept. Raises `ValueError` for one with which none of them can be compared."""
    _check_form(comparison, value)
    if comparison in ("has", "like"):
        return value.text
    if label in DATED:
        return _date(comparison, value.text)
    if comparison in ORDERED:
        _check_ordered(label, value.text)
        return value.text
    if label == POSITION and place_of(value.text) is None:
        raise ValueError("expected: a latitude and a longitude, such as 46.5, -7.2 or 46.5° N, 7.2° W")
    return exact_value(label, value.text)


def _check_form(comparison: str, value: Token) -> None:
    """Raises `ValueError` for a pattern that is too long, and for one where none is meant."""
    if comparison == "like" and len(value.text) > LONGEST_PATTERN:
        raise ValueError(f"a pattern has at most {LONGEST_PATTERN:,} characters")
    if comparison in ("=", "!=", "has") and "*" in value.text and not value.is_quoted:
        raise ValueError("* is a wildcard only after like; put a text that has this character in quotes")


def is_field(word: str) -> bool:
    """Whether a word of a question stands for fields, whose texts are made for it."""
    return word not in fields_by_label() and word != DAMAGE


def _check_ordered(label: str, text: str) -> None:
    """Raises `ValueError` for what is no number, nor of a field a date or a time."""
    is_of_field = is_field(label)
    if not (has_order(text) if is_of_field else re.fullmatch(r"[+-]?\d+(\.\d+)?", text)):
        raise ValueError("expected: a number" + f", or {dates.EXPECTED}" * is_of_field)


def has_order(text: str) -> bool:
    """Whether a text is a number, a date or a time, which come one after the other."""
    return bool(number_of(text) or dates.asked_date(text) or clock_of(text))


def _date(comparison: str, text: str) -> str:
    """The same of a date, which pictures may have that none of the calendar is."""
    is_equal = comparison in ("=", "!=")
    day = dates.asked_date(text)
    if not day and is_equal and (re.search(r"\d", text) or dates.is_asked_impossible(text)):
        day = dates.plain_date(text) or text
    if not day:
        raise ValueError(f"expected: {dates.EXPECTED}")
    return day


def exact_value(label: str, text: str) -> str:
    """A text as those of a label are kept: a place in degrees, and a code without its URI.

    >>> exact_value("position", "46.5° N, 7.2° W"), exact_value("creator", "Anna")
    ('46.500000, -7.200000', 'Anna')
    """
    if label in CODED:
        return text.rstrip("/").rpartition("/")[2]
    place = place_of(text) if label == POSITION else None
    return place.text if place else text
