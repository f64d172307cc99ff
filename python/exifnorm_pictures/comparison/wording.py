"""A field that differs, in words."""

from __future__ import annotations

import re
import unicodedata
from itertools import compress, count

from exifnorm._hints import Any, NamedTuple, Optional, Sequence

from ..fields.field import Field
from ..fields.listing import LONGEST_BYTES, OCTETS, counted_type, digest_of, order_of, shortened
from ..fields.names import group_name, group_of
from ..fields.plain_texts import without_nul
from ..fields.plain_values import in_line, plain
from ..model.texts import grouped
from ..model.xmp_values import Long

# The fields that differ between two blocks, with their values, and which of them are equal numbers that are only written otherwise.

SideTexts = tuple[Optional[str], Optional[str]]  # of a value before and after
NUMBERS = "BYTE SHORT LONG WHOLE SSHORT SLONG RATIONAL SRATIONAL".split()


class FieldDifference(NamedTuple):
    """A field that only one block has, or that has other values in the two."""

    directory: str
    tag: str
    before: tuple[Field, ...]  # several of a repeated DataSet, none if there is no such field
    after: tuple[Field, ...]
    block: str = ""  # of which block; empty for the first one of its kind
    part: str = ""  # the whole block or directory, such as `IPTC`, that came or went with this field; empty if both pictures have it
    note: str = ""  # what is printed in place of the values

    @property
    def name(self) -> str:
        """The name that is printed: `IFD0:Artist`."""
        return group_name(self.directory, self.tag) + (f" ({self.block})" if self.block else "")

    @property
    def sign(self) -> str:
        """`+` for a field that came, `-` for one that went, and `~` for one that changed."""
        if self.note or (self.before and self.after):
            return "~"
        return "+" if self.after else "-"

    @property
    def is_equal_number(self) -> bool:
        """Whether both have equal numbers, or the same bytes with another type."""
        pairs = [*zip(self.before, self.after)] if len(self.before) == len(self.after) and not self.note else []
        return bool(pairs) and all(one.count == other.count and equal_form(one) == equal_form(other) for one, other in pairs)


Differences = Sequence[FieldDifference]


def exact_side(fields: Sequence[Field]) -> str | None:
    """The exact values of a field with their types; None without any.

    >>> exact_side([Field("main", "013b", "ASCII", 5, b"Otto\\0")])
    'ascii[5] "Otto"'
    """
    return ", ".join(f"{counted_type(it)} {shortened(it.exact)}" for it in fields) if fields else None


def bare(fields: Sequence[Field]) -> str | None:
    """The exact values of a field, with their types unless they are texts; None without any."""
    texts = ("ASCII", "octets", "text", "URI")
    return ", ".join(shortened(it.exact) if it.type in texts else exact_side([it]) or "" for it in fields) if fields else None


def equal_form(field: Field) -> tuple[object, ...]:
    """What is equal for fields that differ only in their form: numbers by value, and bytes whatever their type is.

    >>> equal_form(Field("exif", "829a", "RATIONAL", 1, ((10, 80000),))) == equal_form(Field("exif", "829a", "RATIONAL", 1, ((1, 8000),)))
    True
    >>> equal_form(Field("exif", "a300", "BYTE", 1, b"\\3")) == equal_form(Field("exif", "a300", "UNDEFINED", 1, b"\\3"))
    True
    """
    if field.type in OCTETS:
        return ("octets", field.count, _octets_form(field.content))
    if field.type not in NUMBERS or isinstance(field.content, Long):
        return (field.type, field.count, field.content)
    return tuple(map(_plain_number, field.content))


def _octets_form(value: Any) -> object:
    """Bytes or their digest, the same whether they are kept whole or not."""
    if isinstance(value, Long):
        return value.digest
    return value if len(value) <= LONGEST_BYTES else digest_of(value)


def _plain_number(value: Any) -> object:
    """A number by its value, and a fraction with the denominator 0 by its sign."""
    from fractions import Fraction  # which takes long to import

    if isinstance(value, int):
        return Fraction(value)
    above, below = value
    return Fraction(above, below) if below else ("no number", (above > 0) - (above < 0))


def differences(before: Sequence[Field], after: Sequence[Field]) -> list[FieldDifference]:
    """The fields that differ, in the order of a listing; values of a repeated DataSet are compared as one list.

    >>> [it.name for it in differences([Field("main", "010f", "ASCII", 2, b"a\\0")], [Field("main", "010f", "ASCII", 2, b"b\\0")])]
    ['IFD0:Make']
    """
    first, second = (grouped(((it.directory, it.tag), it) for it in side) for side in (before, after))
    directories = {where for where, _ in first} & {where for where, _ in second}
    found = []
    for key in sorted({*first, *second}, key=order_of):
        old, new = tuple(first.get(key, ())), tuple(second.get(key, ()))
        if old != new:
            part = "" if key[0] in directories else group_of(key[0])
            found.append(FieldDifference(*key, old, new, part=part))
    return found


NONE = "(none)"  # in place of a value that isn't there


def sides(difference: FieldDifference, exactly: bool = False) -> SideTexts:
    """Both values of a field in one line: plain, or exact if that is asked for or if both look alike. None where there is no such field.

    >>> sides(FieldDifference("main", "0112", (), (Field("main", "0112", "SHORT", 1, (6,)),)))
    (None, 'turn 90° clockwise to view')
    """
    texts = [", ".join(map(in_line, one)) if one else None for one in (difference.before, difference.after)]
    if exactly or texts[0] == texts[1]:
        return exact_side(difference.before), exact_side(difference.after)
    return told_apart(texts[0], texts[1])


def told_apart(before: str | None, after: str | None) -> SideTexts:
    """Two texts that differ. Of those that look alike, as letters with accents of their own do, the numbers of the characters that don't show.

    >>> told_apart("Z\u00fcrich", "Zu\u0308rich"), told_apart("a b", "a\u00a0b"), told_apart("Otto", "Otto ")
    (('Zürich', 'Zu<U+0308>rich'), ('a b', 'a<U+00A0>b'), ('Otto', 'Otto<U+0020>'))
    """
    if before is None or after is None:
        return before, after
    first, second = tell_apart([before, after])
    return first, second


def moved(old: str, new: str) -> str:
    """Two shown names of a file, told apart.

    >>> moved("Zu\u0308rich", "Z\u00fcrich"), moved("a.jpg", "b.jpg")
    ('Zu<U+0308>rich to Zürich', 'a.jpg to b.jpg')
    """
    return " to ".join(tell_apart([old, new]))


def tell_apart(texts: Sequence[str]) -> list[str]:
    """Any number of texts in this way."""
    shown = list(texts)
    for hidden in (_HIDDEN, _NOT_ASCII):
        if len(set(map(look, shown))) == len(set(texts)):
            break
        shown = [re.sub(hidden, _number, text) for text in texts]
    return shown


# Expressions for characters, which take long to compile, and few runs need. Characters that don't show, such as a space at the end, or that show as a part of another one
_ACCENTS = "\u0300-\u036f\u1ab0-\u1aff\u1dc0-\u1dff\u20d0-\u20ff\ufe20-\ufe2f"
_BLANKS = "\0-\x1f\x7f-\xa0\u1680\u2000-\u200a\u2028\u2029\u202f\u205f\u2800\u3000"
# By Unicode's property Default_Ignorable_Code_Point, and its marks of annotations
_IGNORED = (
    "\xad\u034f\u061c\u115f\u1160\u17b4\u17b5\u180b-\u180f\u200b-\u200f\u202a-\u202e\u2060-\u206f\u3164\ufe00-\ufe0f\ufeff\uffa0\ufff0-\ufffb"
    "\U0001bca0-\U0001bca3\U0001d173-\U0001d17a\U000e0000-\U000e0fff"
)
_HIDDEN, _NOT_ASCII = rf"[{_ACCENTS}{_BLANKS}{_IGNORED}]|^ | \Z| (?= )", "[^\x00-\x7f]"


def look(text: str) -> str:
    """Equal of texts that look alike."""
    if not text.isascii() or not text.isprintable():
        text = re.sub(f"[{_BLANKS}]", " ", re.sub(f"[{_IGNORED}]", "", unicodedata.normalize("NFC", text)))
    return " ".join(text.split())


def numbered(text: str) -> str:
    """A text with the numbers of the characters that don't show.

    >>> numbered("a\u00a0b "), numbered("Zu\u0308rich")
    ('a<U+00A0>b<U+0020>', 'Zu<U+0308>rich')
    """
    return re.sub(_HIDDEN, _number, text)


def _number(character: "re.Match[str]") -> str:
    return f"<U+{ord(character[0]):04X}>"


def plain_sides(difference: FieldDifference) -> SideTexts:
    """Both values as they are, without quotes and escapes, for tables and programs; exact if both look alike.

    >>> plain_sides(FieldDifference("main", "013b", (), (Field("main", "013b", "ASCII", 5, b"Otto\\0"),)))
    (None, 'Otto')
    """
    values = ["; ".join(without_nul(plain(it)) for it in one) if one else None for one in (difference.before, difference.after)]
    if values[0] == values[1]:
        return exact_side(difference.before), exact_side(difference.after)
    return told_apart(values[0], values[1])


def line_of(difference: FieldDifference, exactly: bool = False) -> str:
    """A field that differs, in a line: `~ IFD0:Artist: "A" -> "B"`, `+` for a field that came, and `-` for one that went."""
    if difference.note:
        return f"~ {difference.name}: {difference.note}"
    name = f"{difference.name} {tag_of(difference)}".rstrip() if exactly else difference.name
    return f"{difference.sign} {name}: {' -> '.join(one for one in sides(difference, exactly) if one is not None)}"


def tag_of(difference: FieldDifference) -> str:
    """The number of a field's tag or DataSet, where it isn't its name."""
    if difference.directory == "xmp" or difference.tag in difference.name:
        return ""
    return difference.tag if ":" in difference.tag else f"0x{difference.tag}" if len(difference.tag) == 4 else ""


# The words that changed between two texts.

# Scripts without blanks between words have a word for each character
_NO_BLANKS = "\u0e00-\u0eff\u1000-\u109f\u1780-\u17ff\u3040-\u30ff\u3400-\u4dbf\u4e00-\u9fff\uf900-\ufaff\U00020000-\U0003ffff"
_WORD = rf"(?s)\s+|[^\W{_NO_BLANKS}]+|."
STEPS = 1_000_000  # of comparing two words with each other, for all texts of a picture: a stranger's may have millions of words
KEPT, OUT, IN = "=", "-", "+"


class Step(NamedTuple):
    """Words that were kept, taken out (`-`) or put in (`+`)."""

    sign: str
    text: str


class Piece(NamedTuple):
    """A piece of a text, and whether the other text doesn't have it."""

    text: str
    is_changed: bool


Pieces = tuple[Piece, ...]


def _common(words: Sequence[str], others: Sequence[str]) -> int:
    """How many words two texts have in common at their beginning."""
    return next(compress(count(), map(str.__ne__, words, others)), min(len(words), len(others)))


def _joined(steps: Sequence[Step]) -> list[Step]:
    """The steps without empty ones, and with those joined that follow each other. Blanks and signs between two words that changed count as changed."""
    joined: list[Step] = []
    out, put = "", ""
    left = [it for it in steps if it.text]
    for at, step in enumerate([*left, Step(KEPT, "")]):
        is_between = 0 < at < len(left) - 1 and step.sign == KEPT and not any(map(str.isalnum, step.text))
        if step.sign != KEPT or is_between:
            out += step.text * (step.sign != IN)
            put += step.text * (step.sign != OUT)
            continue
        joined += [it for it in (Step(OUT, out), Step(IN, put), step) if it.text]
        out, put = "", ""
    return joined


class Marker:
    """Marks the words of texts for a limited number of steps; then only common beginnings and ends aren't marked."""

    def __init__(self, steps: int = STEPS) -> None:
        self.steps = steps

    def script(self, before: str, after: str) -> list[Step]:
        """How one text becomes the other one, word by word.

        >>> Marker().script("a bowl, 1820", "a bowl, 1280")
        [Step(sign='=', text='a bowl, '), Step(sign='-', text='1820'), Step(sign='+', text='1280')]
        """
        words, others = re.findall(_WORD, before), re.findall(_WORD, after)
        start = _common(words, others)
        ends = _common(words[start:][::-1], others[start:][::-1])
        first, second = words[start : len(words) - ends], others[start : len(others) - ends]
        self.steps -= len(first) * len(second)
        codes = [("replace", 0, len(first), 0, len(second))]
        if self.steps >= 0 and first and second:
            import difflib

            codes = difflib.SequenceMatcher(None, first, second, False).get_opcodes()
        steps = [Step(KEPT, "".join(words[:start]))]
        for word, begin, end, other_begin, other_end in codes:
            out, put = "".join(first[begin:end]), "".join(second[other_begin:other_end])
            steps += [Step(KEPT, out)] if word == "equal" else [Step(OUT, out), Step(IN, put)]
        return _joined([*steps, Step(KEPT, "".join(words[len(words) - ends :]))])

    def marked(self, before: str | None, after: str | None) -> tuple[Pieces | None, Pieces | None]:
        """Both texts in pieces; None for a text that isn't there.

        >>> Marker().marked("a bowl, 1820", "a bowl, 1280")[1]
        (Piece(text='a bowl, ', is_changed=False), Piece(text='1280', is_changed=True))
        """
        if before is None or after is None:
            return (None if before is None else (Piece(before, False),)), (None if after is None else (Piece(after, False),))
        steps = self.script(before, after)
        first, second = (tuple(Piece(it.text, it.sign != KEPT) for it in steps if it.sign in (KEPT, sign)) for sign in (OUT, IN))
        return first, second
