"""Questions about the texts of a catalogue's pictures, answered by SQLite.

Of a picture that was not wholly read, a text that isn't there may be in the part that wasn't read. So a question has three answers for it:
it fits, it doesn't, or that is not known. SQLite finds the pictures of each condition, and their numbers are joined as sets of bits: of those
that fit surely, and of those that may.
"""

from __future__ import annotations

import functools
from dataclasses import replace
from itertools import groupby, repeat
from operator import and_, itemgetter, or_
from typing import Callable, Iterable, Iterator, NamedTuple, Optional, Sequence

from ..fields.questions import (
    ORDERED,
    All,
    Any,
    Condition,
    Not,
    Question,
    With,
    WrongQuestion,
    bare,
    compose,
    conditions_of,
    fields_in,
    folded,
    has_order,
    is_field,
    labels_of,
)
from ..fields.forms import clock_of, number_of, words_of
from ..fields.choosing import kinds_of
from ..fields.dates import EXPECTED, asked_date, is_asked_impossible, is_impossible, plain_date
from ..fields.labels import DAMAGE, DATED, POSITION, UNCLEAR_POSITION, fields_by_label, is_in_maker_notes
from ..fields.listing import LONGEST_TEXT
from ..model.records import Row, has, has_short
from ..model.errors import Damaged
from ..model.found import EXIF, IPTC, XMP
from ..model.numbers import Numbers
from ..model.problems import NOT_THERE, Problem
from ..model.texts import Word, unescaped
from .kept_texts import DATE as FIELD_DATE, NUMBER, OTHER, SHOWN, Report, add_fields, make_ready, say_nothing
from .store import HEAD, NOT_WHOLE, Catalogue, root_of_row

_WHOLE = "ifnull(folded, lower(text))"  # a long text as it is compared; of a short one it is the head
_LAST = "\U0010ffff"  # sorts after each other character

# Files that are no pictures, or that are gone, are none of the pictures that a question is about
LEFT_OUT = (Problem.NO_PICTURE, *NOT_THERE)
_LEFT_OUT = f"SELECT id FROM pictures WHERE ({NOT_WHOLE}) AND problem IN ({', '.join(repr(str(word)) for word in LEFT_OUT)})"
IN_SCOPE = f"p.id NOT IN ({_LEFT_OUT})"
_SINCE = "SELECT p.id FROM pictures p WHERE p.run IN (SELECT id FROM runs WHERE started >= ?)"
_AT_ONCE = 1000  # rows that are read together
_SHARE = 20  # of all pictures, from which on it costs less to go through the paths of all than to sort those of the ones that fit


class Unread(Word):
    """What makes it unknown whether a picture has a text."""

    queries: tuple[str, ...]  # for the numbers of such pictures

    # nobody has read its picture, or none of its format is read, so that nobody knows whether it is damaged
    PICTURE = ("picture", ("SELECT id FROM pictures WHERE damage = '' AND ifnull(coded_picture, '') = ''",))
    # a part of the file was not read, or it has texts that aren't kept
    PARTS = (
        "parts",
        (
            f"SELECT id FROM pictures WHERE ({NOT_WHOLE}) AND (problem IS NOT NULL OR other_not_read IS NOT '')",
            "SELECT picture FROM texts WHERE label = ''",
        ),
    )
    # its block of Exif, which may have such a text, was refused
    EXIF = (EXIF, (f"SELECT id FROM pictures WHERE ({NOT_WHOLE}) AND exif IS NULL AND exif_repaired IS NULL",))
    IPTC = (IPTC, (f"SELECT id FROM pictures WHERE ({NOT_WHOLE}) AND iptc IS NULL",))
    XMP = (XMP, (f"SELECT id FROM pictures WHERE ({NOT_WHOLE}) AND xmp IS NULL",))
    # it has a latitude and a longitude that make no position, and that other programs may show
    POSITION = ("position", (f"SELECT picture FROM texts WHERE label = '{UNCLEAR_POSITION}'",))
    # of which ExifTool wasn't asked, and which may have a serial number or an owner
    MAKER_NOTE = ("MakerNote", ("SELECT id FROM pictures WHERE maker_notes != '' AND id NOT IN (SELECT picture FROM maker_notes)",))


def _reasons(labels: Sequence[str]) -> list[Unread]:
    """What can make it unknown whether a picture has a text of some labels."""
    kinds = {kind for label in labels if label != DAMAGE for name in fields_by_label().get(label, (label,)) for kind in kinds_of(name)}
    reasons = [Unread.PICTURE] * (DAMAGE in labels) + [Unread.PARTS] * bool(kinds)
    reasons += [reason for reason in (Unread.EXIF, Unread.IPTC, Unread.XMP) if str(reason) in kinds]
    reasons += [Unread.POSITION] * (POSITION in labels)
    return reasons + [Unread.MAKER_NOTE] * any(map(is_in_maker_notes, labels))


def unread(labels: Sequence[str]) -> str:
    """The pictures of which it isn't known whether they have a text of some labels, in SQL."""
    return f"p.id IN ({' UNION ALL '.join(query for reason in _reasons(labels) for query in reason.queries)})"


class Part(NamedTuple):
    """A condition of SQL, and its values."""

    sql: str
    values: Row = ()


class _Sets(NamedTuple):
    """The pictures that fit surely, and those that may fit."""

    sure: Numbers
    may: Numbers


class _Finder:
    """Finds the pictures that fit a question, as sets of their numbers."""

    def __init__(self, catalogue: Catalogue) -> None:
        self._catalogue = catalogue
        self._unread: dict[Unread, Numbers] = {}

    def of(self, question: Question) -> _Sets:
        """The pictures that fit."""
        if isinstance(question, Not):
            sets = self.of(question.question)
            return _Sets(~sets.may, ~sets.sure)
        if isinstance(question, (All, Any)):
            joined = and_ if isinstance(question, All) else or_
            parts = map(self.of, dict.fromkeys(question.questions))  # one after the other, so that few sets are in memory
            return functools.reduce(lambda one, other: _Sets(*map(joined, one, other)), parts)
        sure = self.with_label(question.label) if isinstance(question, With) else self._with_texts(question)
        return _Sets(sure, sure | self.unread([question.label]))

    def with_label(self, label: str) -> Numbers:
        """The pictures with a text of a label. Its texts are in the order of their pictures, so that DISTINCT keeps nothing."""
        query = "SELECT DISTINCT picture FROM texts WHERE label = ? AND long = "
        return self._catalogue.numbers(query + "0", (label,)) | self._catalogue.numbers(query + "1", (label,))

    def unread(self, labels: Sequence[str]) -> Numbers:
        """The pictures of which it isn't known whether they have a text of some labels."""
        return functools.reduce(or_, map(self.unread_by, _reasons(labels)))

    def unread_by(self, reason: Unread) -> Numbers:
        """The pictures of which it isn't known by one reason."""
        if reason not in self._unread:
            self._unread[reason] = functools.reduce(or_, map(self._catalogue.numbers, reason.queries))
        return self._unread[reason]

    def _with_texts(self, question: Condition) -> Numbers:
        """The pictures with a text that compares so; or that is equal to it as it is printed: control characters are escaped, and a list is
        joined."""
        if question.comparison != "=":
            return self._with_text(question)
        numbers = Numbers()
        for value in dict.fromkeys((question.value, unescaped(question.value))):
            numbers |= self._with_text(replace(question, value=value))
            texts = dict.fromkeys(value.split("; "))
            if len(texts) > 1:
                numbers |= functools.reduce(and_, (self._with_text(replace(question, value=text)) for text in texts))
        return numbers

    def _with_text(self, question: Condition) -> Numbers:
        """The pictures with a text that compares so."""
        numbers = Numbers()
        known = put_wanted(self._catalogue, [question.value, *question.others]) if question.comparison == "is" else 0
        for table in self._catalogue.all_texts:
            for label in forms_of_word(question.label):
                if question.comparison in ("has", "like"):
                    value, is_pattern = folded(question.value), question.comparison == "like"
                    test, value = ("{} GLOB ?2", pattern_of(value)) if is_pattern else ("instr({}, ?2)", value)
                    numbers |= self._short(table, label, test.format("head"), value)
                    parts = [Part(f"long = 1 AND {test.format(_WHOLE)}", (value,))]
                else:
                    parts = parts_of(question, label, known)
                for part in parts:
                    query = f"SELECT picture FROM {table} WHERE label = ? AND {part.sql}"
                    numbers |= self._catalogue.numbers(query, (label, *part.values))
        return numbers

    def _short(self, table: str, label: str, test: str, value: str) -> Numbers:
        """The pictures with a short text that passes a test. If few texts differ, each is tested once, by steps in the index of texts, and not
        once for each picture that has it."""
        numbers, passing = Numbers(), []
        for count, (head, passes) in enumerate(self._catalogue.rows(_DIFFERENT.format(table=table, test=test), (label, value))):
            if count == _FEW:
                query = f"SELECT picture FROM {table} WHERE label = ? AND long = 0 AND {test}"
                return self._catalogue.numbers(query, (label, value))
            passing += [head] * bool(passes)
        for head in passing:
            numbers |= self._catalogue.numbers(f"SELECT picture FROM {table} WHERE label = ? AND long = 0 AND head = ?", (label, head))
        return numbers


_FEW = 10_000  # texts that differ. A step to the next one that does takes as long as five of the others
_DIFFERENT = """WITH RECURSIVE heads (head) AS (
    SELECT min(head) FROM {table} WHERE label = ?1 AND long = 0
    UNION ALL
    SELECT (SELECT min(head) FROM {table} WHERE label = ?1 AND long = 0 AND head > heads.head) FROM heads WHERE head IS NOT NULL
) SELECT head, {test} FROM heads WHERE head IS NOT NULL"""


def pattern_of(text: str) -> str:
    """A pattern of `like` as SQLite's GLOB has it: # is a digit.

    >>> pattern_of("19##*[a]")
    '19[0-9][0-9]*[[]a]'
    """
    return text.replace("[", "[[]").replace("#", "[0-9]")


def forms_of_word(word: str) -> list[str]:
    """The labels that have the texts of a word in all their forms."""
    return [before + word for before in ("", SHOWN, OTHER, NUMBER, FIELD_DATE)] if is_field(word) else [word]


def put_wanted(catalogue: Catalogue, texts: Iterable[str]) -> int:
    """Keeps the texts of `is`, composed and with NUL as texts are kept, for a condition that has the returned number."""
    composed = {compose(text).replace("\0", "\\x00") for text in texts}
    catalogue.execute(_WANTED)
    number = catalogue.number_of("SELECT ifnull(max(number), 0) + 1 FROM temp.wanted")
    catalogue.execute_for(((number, text, folded(text)[:HEAD]) for text in composed), "INSERT INTO temp.wanted VALUES (?, ?, ?)")
    return number


_WANTED = """CREATE TEMP TABLE IF NOT EXISTS wanted
    (number INTEGER, text TEXT, head TEXT, PRIMARY KEY (number, text)) WITHOUT ROWID"""


def parts_of(question: Condition, label: str, known: int = 0) -> list[Part]:
    """The texts of a comparison, as conditions that the index can answer; one of them has to hold. `known` is the number of the texts of `is`."""
    if question.comparison == "is":
        return [] if label.startswith((NUMBER, FIELD_DATE)) and is_field(question.label) else _wanted(known)
    value = folded(question.value)
    if question.label in DATED and is_asked_impossible(value):
        return [_NEVER]
    if question.label in DATED and question.comparison in _DATES and plain_date(question.value):
        return [part._replace(sql=f"{part.sql} AND {_YEAR}") for part in _DATES[question.comparison](value)]
    if is_field(question.label):
        return _compared_field(question, label)
    if question.comparison == "=":
        return _equal(value)
    number = f"CAST(head AS REAL) {question.comparison} ?"
    return [Part(f"long = 0 AND {number} AND head GLOB '[-+0-9]*' AND head NOT GLOB '?*[^0-9.]*'", (float(value),))]


def _wanted(number: int) -> list[Part]:
    """The very texts with this number."""
    heads = "head IN (SELECT w.head FROM temp.wanted w WHERE w.number = ?)"
    same = "composed(text) IN (SELECT w.text FROM temp.wanted w WHERE w.number = ?)"
    return [Part(f"long = {long} AND {heads} AND {same}", (number, number)) for long in (0, 1)]


_YEAR, _CLOCK = "head GLOB '[0-9][0-9][0-9][0-9]*'", "head GLOB '[0-9][0-9]:*'"


def _compared_field(question: Condition, label: str) -> list[Part]:
    """The same of a field: numbers with numbers, dates with dates, times with times, and if they are to be equal also texts with texts."""
    value = question.value
    if label.startswith(FIELD_DATE):
        return _compared_date(question.comparison, value)
    number = number_of(value) if label.startswith(NUMBER) else None
    if number:
        if question.comparison == "=":
            return [Part("CAST(head AS REAL) BETWEEN ? AND ?", (number.value - number.last, number.value + number.last))]
        return [Part(f"CAST(head AS REAL) {question.comparison} ?", (number.value,))]
    return _equal(folded(value)) if question.comparison == "=" else []


def _compared_date(comparison: str, value: str) -> list[Part]:
    """The same of the dates and the times of a field."""
    if is_asked_impossible(value):
        return [_NEVER] if comparison == "=" else []
    parts = []
    for asked, like in ((asked_date(value), _YEAR), (clock_of(value), _CLOCK)):
        for part in _DATES[comparison](folded(asked)) if asked else ():
            parts.append(part._replace(sql=f"{part.sql} AND {like}"))
    return parts


_NEVER = Part("long = 0 AND is_impossible(text)")  # dates that no calendar has


def add_functions(catalogue: Catalogue) -> None:
    """Adds the functions of conditions to SQLite. A damaged catalogue has cells that are no texts."""
    for name, test in (("composed", compose), ("is_impossible", is_impossible)):
        given = functools.partial(_of_text, test)
        catalogue.base.create_function(name, 1, given, deterministic=True)


def _of_text(function: Callable[[str], str | bool], text: object) -> str | bool | None:
    return function(text) if isinstance(text, str) else None


def _equal(value: str) -> list[Part]:
    if len(value) < HEAD:
        return [Part("long = 0 AND head = ?", (value,))]
    return [Part(f"long = 1 AND head = ? AND {_WHOLE} = ?", (value[:HEAD], value))]


def _within(value: str) -> list[Part]:
    return [Part("long = 0 AND head >= ? AND head < ?", (value, value + _LAST))]


def _before(value: str) -> list[Part]:
    # a date that is known less exactly, as 1950 for 1950-03, is neither before nor after it
    return [Part("long = 0 AND head < ? AND substr(?, 1, length(head)) != head", (value, value))]


def _after(value: str) -> list[Part]:
    return [Part("long = 0 AND head > ?", (value + _LAST,))]


# Dates are compared as far as the given one goes: 1950-03-21 is in 1950, and not after it
_DATES: dict[str, Callable[[str], list[Part]]] = {
    "=": _within,
    "<": _before,
    "<=": lambda value: [*_before(value), *_within(value)],
    ">": _after,
    ">=": lambda value: [*_within(value), *_after(value)],
}


# Whether a picture has a text of a field that is no number and no date
_FREE = """SELECT EXISTS (SELECT 1 FROM texts t WHERE t.label = ?1
    AND NOT EXISTS (SELECT 1 FROM texts n WHERE n.label IN (?2, ?3) AND n.picture = t.picture))"""
_EXAMPLES = "SELECT text FROM texts WHERE label = ? GROUP BY text ORDER BY count(*) DESC, text LIMIT 3"


class Fitting(NamedTuple):
    """A picture that fits."""

    id: int
    path: bytes
    damage: str  # where its file is cut off or damaged; empty: nowhere, or not known


def _fitting(row: tuple[int, bytes, str]) -> Fitting:
    _, path, damage = row
    if type(path) is not bytes or damage != "":
        has(bytes, path)
        has_short(str, damage)
    return Fitting._make(row)


def has_text(text: object) -> None:
    """Raises `Damaged` if a value is no text, or longer than any that a catalogue keeps."""
    if type(text) is not str:
        has(str, text)
    elif len(text) > LONGEST_TEXT:
        raise Damaged("a text is too long")


def _text(row: tuple[str]) -> str:
    has_text(row[0])
    return row[0]


def _counted(row: tuple[str, int, str]) -> tuple[str, int, str]:
    has_text(row[0])
    return row


# How many pictures have a text of a label: a short one, or else a long one
_HAVING = (
    "SELECT count(DISTINCT picture) FROM texts WHERE label = ?1 AND long = 0 AND {}",
    "SELECT count(DISTINCT picture) FROM texts t WHERE label = ?1 AND long = 1 AND {}"
    " AND NOT EXISTS (SELECT 1 FROM texts s WHERE s.label = ?1 AND s.long = 0 AND s.picture = t.picture)",
)
_WITH_TEXT = "SELECT 1 FROM texts t WHERE t.label = ? AND t.long IN (0, 1) AND t.picture = p.id"
_COUNTED = (
    "DROP TABLE IF EXISTS temp.counted",
    "DROP TABLE IF EXISTS temp.alike",
    "CREATE TEMP TABLE counted (text TEXT, pictures INTEGER, bare TEXT)",
    "CREATE TEMP TABLE alike (bare TEXT PRIMARY KEY, pictures INTEGER, text TEXT) WITHOUT ROWID",
)
# Spellings of one name are looked for by the index alone, which most texts that differ need no more than
_ALIKE = (
    "CREATE INDEX temp.counted_by_bare ON counted (bare)",
    "INSERT INTO temp.alike SELECT bare, sum(pictures), min(text) FROM temp.counted"
    " WHERE bare IN (SELECT bare FROM temp.counted GROUP BY bare HAVING count(*) > 1) GROUP BY bare",
)
_FREQUENT = (
    "SELECT c.text, c.pictures, c.bare FROM temp.counted c LEFT JOIN temp.alike a ON a.bare = c.bare"
    " WHERE c.pictures > 1 OR a.bare IS NOT NULL"
    " ORDER BY ifnull(a.pictures, c.pictures) DESC, ifnull(a.text, c.text), c.pictures DESC, c.text"
)
# What one picture alone has follows, as many texts of a museum's objects do
_SINGLE = "SELECT text, pictures, bare FROM temp.counted WHERE pictures = 1 AND bare NOT IN (SELECT bare FROM temp.alike) ORDER BY text"


Texts = Sequence[Optional[tuple[str, ...]]]  # of a picture, for each of some labels; None: it isn't known whether it has one
# A row without a text for a picture that has none
_SHOWN = "SELECT place, number, text FROM temp.shown LEFT JOIN {} t ON t.label = ?1 AND long IN (0, 1) AND t.picture = shown.picture"


def _numbered_text(row: tuple[int, int | None, str]) -> tuple[int, int | None, str]:
    if row[1] is not None:
        has_text(row[2])
    return row


class Answer:
    """The answer of a catalogue to a question; without one, all pictures fit."""

    def __init__(
        self,
        catalogue: Catalogue,
        question: Question | None,
        since: str | None = None,
        report: Report = say_nothing,
        shown: Sequence[str] = (),
        in_words: bool = False,
    ) -> None:
        """It is about all pictures, or those that were new or changed in a run that began at `since`, in UTC, or later. `shown` are further
        labels and fields whose texts are asked for later, those of fields in the words of `show` or as `exiftool -n` has them."""
        make_ready(catalogue, report)
        add_functions(catalogue)
        self._catalogue, self._in_words = catalogue, in_words
        self.labels = labels_of(question) if question else []  # that are asked for
        self.places = add_fields(catalogue, fields_in([*self.labels, *shown]), report)
        self._finder = _Finder(catalogue)
        self._total = catalogue.count()
        self._scope = ~catalogue.numbers(_LEFT_OUT)
        if since is not None:
            self._scope &= catalogue.numbers(_SINCE, (since,))
        self._has_table = False
        self._lacking: dict[str, Numbers] = {}
        sets = self._finder.of(question) if question else _Sets(self._scope, self._scope)
        self._sure, self._may = sets.sure & self._scope, sets.may & self._scope
        for condition in conditions_of(question) if question else ():
            self._refuse_impossible(condition)

    def _refuse_impossible(self, condition: Condition) -> None:
        """Raises `WrongQuestion` if no text of a field can ever compare so, or is such a date."""
        word, value, finder = condition.label, condition.value, self._finder
        is_equal = condition.comparison == "="
        if word in DATED and is_equal and not plain_date(value) and not finder.of(condition).may:
            raise WrongQuestion(f"the {word} of no picture is {value!r}; expected: {EXPECTED}")
        is_one = condition.comparison in ("=", "is", *ORDERED) and not condition.others  # of several one may well be right
        if is_one and self.places.get(word) and not has_order(value) and not finder.of(condition).sure:
            self._refuse_unlike(word, value)

    def _refuse_unlike(self, word: str, value: str) -> None:
        """Raises `WrongQuestion` if a field is a number or a date in each picture, and a value, which is neither, no word for a number."""
        words = {number: names for place in sorted(self.places[word]) for number, names in words_of(*place).items()}
        is_word = any(folded(value) == folded(name) for names in words.values() for name in names)
        if is_word or self._catalogue.number_of(_FREE, (SHOWN + word, NUMBER + word, FIELD_DATE + word)):
            return
        known = [f"{number} {names[0]}" for number, names in words.items()]
        examples = [repr(row[0]) for row in self._catalogue.rows(_EXAMPLES, (SHOWN + word,))]
        others = f"it is one of {'; '.join(known)}" if known else f"pictures have {', '.join(examples)}"
        raise WrongQuestion(f"{word} is never {value!r}: {others}")

    def count(self) -> int:
        """How many pictures the question is about."""
        return self._scope.count(self._total)

    def not_known(self) -> int:
        """Of how many pictures it isn't known whether they fit, because they were not wholly read."""
        return self._not_known().count(self._total)

    def paths_not_known(self, label: str | None = None) -> Iterator[bytes]:
        """These pictures by path; or of those that fit, the ones of which it isn't known whether they have a text of a label."""
        self._put("not_known", self._not_known() if label is None else self._lacking_of(label))
        query = "SELECT path FROM temp.not_known n JOIN pictures p ON p.id = n.picture ORDER BY path"
        yield from self._catalogue.rows(query, (), root_of_row)

    def _not_known(self) -> Numbers:
        return self._finder.unread(self.labels) & self._may & ~self._sure if self.labels else Numbers()

    def why_not_known(self, label: str | None = None) -> list[Unread]:
        """Why it isn't known of some pictures whether they fit; or of those that fit, whether they have a text of a label."""
        if label is None:
            numbers, labels = self._not_known(), self.labels
        else:
            numbers, labels = self._lacking_of(label), [label]
        return [reason for reason in _reasons(labels) if self._finder.unread_by(reason) & numbers]

    def lacking(self, labels: Sequence[str]) -> int:
        """Of how many pictures that fit it isn't known whether they have a text of one of some labels, of which they have none that was read."""
        return functools.reduce(or_, map(self._lacking_of, labels), Numbers()).count(self._total)

    def _lacking_of(self, label: str) -> Numbers:
        """The pictures of `lacking` by one label."""
        if label not in self._lacking:
            query = f"SELECT p.id FROM pictures p WHERE {unread([label])} AND NOT EXISTS ({_WITH_TEXT})"
            self._lacking[label] = self._sure & self._catalogue.numbers(query, (label,))
        return self._lacking[label]

    def having(self, label: str) -> tuple[int, int, int]:
        """Of the pictures that fit: how many have a text of a label, how many have none, and of how many that isn't known."""
        fits = self._of_fitting()
        having = sum(self._catalogue.number_of(query.format(fits), (label,)) for query in _HAVING)
        not_known = self.lacking([label])
        return having, self.fitting() - having - not_known, not_known

    def fitting(self) -> int:
        """How many pictures fit."""
        return self._sure.count(self._total)

    def damaged(self) -> int:
        """How many of them are cut off or damaged."""
        return self._damaged().count(self._total)

    def _damaged(self) -> Numbers:
        rows = self._few() or "pictures p NOT INDEXED"
        return self._sure & self._catalogue.numbers(f"SELECT p.id FROM {rows} WHERE p.damage != ''")

    def _few(self) -> str:
        """The pictures that fit, in SQL, if they are few, so that each row is read by its number."""
        if self._sure.is_rest or self.fitting() * _SHARE > self._total:
            return ""
        return f"{self._table()} f CROSS JOIN pictures p ON p.id = f.picture"

    def _table(self) -> str:
        """A temporary table of the pictures that fit, or if all others do, of those that don't."""
        if not self._has_table:
            self._put("asked", ~self._sure if self._sure.is_rest else self._sure)
            self._has_table = True
        return "temp.asked"

    def _put(self, name: str, numbers: Numbers) -> None:
        """Makes a temporary table of numbers."""
        self._catalogue.execute(f"DROP TABLE IF EXISTS temp.{name}")
        self._catalogue.execute(f"CREATE TEMP TABLE {name} (picture INTEGER PRIMARY KEY)")
        self._catalogue.execute_for(((number,) for number in numbers), f"INSERT INTO temp.{name} VALUES (?)")

    def pictures(self, labels: Sequence[str] = ()) -> Iterator[tuple[Fitting, Texts]]:
        """The pictures that fit, by path, each with its texts for some labels."""
        damaged = self._damaged()
        for rows in self._rows():
            for (number, path), texts in zip(rows, self._texts_in_order(rows, labels)):
                if number in damaged:
                    query = "SELECT id, path, damage FROM pictures WHERE id = ?"
                    yield from ((fitting, texts) for fitting in self._catalogue.rows(query, (number,), _fitting))
                else:
                    yield Fitting(number, path, ""), texts

    def _texts_in_order(self, rows: Sequence[tuple[int, bytes]], labels: Sequence[str]) -> Iterator[Texts]:
        """The texts of some pictures, in their order. A query of each label has those of all these pictures, of which one is in memory."""
        if not labels:
            return repeat(())
        self._catalogue.execute("CREATE TEMP TABLE IF NOT EXISTS shown (place INTEGER PRIMARY KEY, picture INTEGER)")
        self._catalogue.execute("DELETE FROM temp.shown")  # it can't be dropped while pictures are read
        self._catalogue.execute_for(((number,) for number, _ in rows), "INSERT INTO temp.shown (picture) VALUES (?)")
        return zip(*(self._shown_texts(label, rows) for label in labels))

    def _shown_texts(self, label: str, pictures: Sequence[tuple[int, bytes]]) -> Iterator[tuple[str, ...] | None]:
        """The texts of a label of each picture in the table of those that are shown next."""
        query = " UNION ALL ".join(_SHOWN.format(table) for table in self._catalogue.all_texts)
        rows = self._catalogue.rows(f"{query} ORDER BY place, number", (self._printed(label),), _numbered_text)
        for (picture, _), (_, of_picture) in zip(pictures, groupby(rows, key=itemgetter(0))):
            yield self._or_not_known(picture, label, [text for _, number, text in of_picture if number is not None])

    def _printed(self, label: str) -> str:
        """The label of the texts that are printed for a label or a field."""
        return SHOWN + label if self._in_words and is_field(label) else label

    def _or_not_known(self, number: int, label: str, texts: Sequence[str]) -> tuple[str, ...] | None:
        return None if not texts and number in self._lacking_of(label) else tuple(texts)

    def paths(self) -> Iterator[list[bytes]]:
        """The paths of the pictures that fit, in their order, some at once."""
        yield from ([path for _, path in rows] for rows in self._rows())

    def _rows(self) -> Iterator[list[tuple[int, bytes]]]:
        """The number and the path of each picture that fits, by path, some at once.

        An index has the paths of all pictures in their order, so that no row is read. If few pictures fit, their paths are sorted.
        """
        few = self._few()
        cursor = self._catalogue.execute(f"SELECT p.id, p.path FROM {few or 'pictures p'} ORDER BY p.path")
        while True:
            with self._catalogue.guarded():
                rows = cursor.fetchmany(_AT_ONCE)
                if not {bytes}.issuperset(type(path) for _, path in rows):
                    has(bytes, *(path for _, path in rows))
            if not rows:
                break
            yield rows if few else self._sure.chosen(rows)

    def may_have(self, number: int, label: str) -> bool:
        """Whether a picture, by its number, may have a further text of a label, because it was not wholly read."""
        return number in self._finder.unread([label])

    def texts_of(self, number: int, labels: Sequence[str]) -> Texts:
        """The texts of a picture, by its number, for some labels."""
        query = "SELECT text FROM texts WHERE label = ? AND long IN (0, 1) AND picture = ? ORDER BY number"
        return [
            self._or_not_known(number, label, list(self._catalogue.rows(query, (self._printed(label), number), _text))) for label in labels
        ]

    def _of_fitting(self) -> str:
        """The texts of the pictures that fit, in SQL. If all do, no picture is looked up."""
        if self._sure.is_rest and not ~self._sure:
            return "TRUE"
        return f"picture {'NOT ' * self._sure.is_rest}IN (SELECT picture FROM {self._table()})"

    def counted(self, label: str) -> "Iterator[tuple[str, int, str]]":
        """The texts of a label with the number of pictures that have each, the most frequent first, and beside it those that are spelled
        otherwise; and what is common to these."""
        self._catalogue.base.create_function("bare", 1, bare, deterministic=True)
        fits = self._of_fitting()
        counted = "picture" if label in fields_by_label() else "DISTINCT picture"  # a field may have a text twice
        for statement in _COUNTED:
            self._catalogue.execute(statement)
        for kind in ("long = 0", "long = 1"):  # an index has short texts in their order
            self._catalogue.execute(
                f"INSERT INTO temp.counted SELECT text, count({counted}), bare(text) FROM texts"
                f" WHERE label = ? AND {kind} AND {fits} GROUP BY head, text",
                (self._printed(label),),
            )
        for statement in _ALIKE:
            self._catalogue.execute(statement)
        yield from self._catalogue.rows(_FREQUENT, (), _counted)
        yield from self._catalogue.rows(_SINGLE, (), _counted)
