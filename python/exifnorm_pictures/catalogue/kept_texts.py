"""The texts of a catalogue's pictures by label. The first question derives them from the fields that the catalogue has, and keeps them in it;
later questions add those of pictures that are new since. So `index` and `catalogue merge` do nothing for them.

A picture that is put into a catalogue gets a greater number than all before it, so one number tells which pictures have their texts.
"""

from __future__ import annotations

import os
from contextlib import suppress
from decimal import Decimal
from functools import partial
from itertools import chain
from typing import Any, Callable, Iterator, Mapping, Optional, Sequence

from ..fields.character_sets import in_found_set
from ..fields.choosing import Choice, ambiguous
from ..fields.dates import plain_date
from ..fields.field import Field
from ..fields.field_names import has_members, members_of
from ..fields.questions import Unsure, folded
from ..fields.forms import Forms, forms_of, number_of
from ..fields.labels import CODED, DAMAGE, DATED, OF_FIELDS, POSITION, UNCLEAR_POSITION, has_long
from ..fields.listing import LONGEST_TEXT, is_rest
from ..fields.names import group_name
from ..fields.block_fields import BlockFields
from ..fields.places import further_places, has_angles, is_angle, position_of, signed_degrees
from ..fields.plain_numbers import iptc_time
from ..fields.plain_texts import decoded
from ..fields.plain_values import plain
from ..fields.typed import typed
from ..model.found import NAMES
from ..model.records import PictureRecord, Row
from ..model.xmp_values import texts_in
from .store import HEAD, Catalogue, NoCatalogue, is_left_open, put_text, roll_back, texts_table
from .texts import PictureTexts, texts_of

# A text of a picture as questions compare it: its label, which is empty if some texts are too many or too long to be kept, the text, its
# beginning in small letters, composed, with single spaces, and all of it so; None: the beginning is all, or SQLite's `lower` gives it
KeptText = tuple[str, str, str, Optional[str]]


def kept_text(label: str, text: str) -> KeptText:
    """A text as a catalogue keeps it. NUL, at which many functions of SQLite end a text, is as an export has it.

    >>> kept_text("creator", "Otto  Wei\u00df")
    ('creator', 'Otto  Weiß', 'otto weiss', None)
    """
    text = text.replace("\0", "\\x00")
    compared = folded(text)
    is_derived = len(compared) < HEAD or (text.isascii() and compared == text.lower())
    return label, text, compared[:HEAD], None if is_derived else compared


MORE = ("", "", "", None)  # in place of texts that aren't kept
_MOST_CHARACTERS = 1 << 20  # of the texts of a picture


def rows_of(blocks: Sequence[BlockFields], maker_notes: Mapping[str, str] = {}) -> tuple[KeptText, ...]:
    """The texts of a picture by its blocks, each with its fields, and by what ExifTool reads of its MakerNotes: a text that several fields
    have once.

    A camera's own caption is none of the picture's. The position is in degrees, north and east positive. `MORE` stands for texts that are
    too many or too long.
    """
    known: dict[tuple[str, str], KeptText] = {}
    left = _MOST_CHARACTERS
    labelled = texts_of(blocks)
    fields = [field for _, of_block in blocks for field in of_block]
    has_more = bool(labelled.missing) or any(
        is_rest(it.directory, it.tag) or ((it.directory, it.tag) in _OF_FIELDS and has_long(it)) for it in fields
    )
    for label, text in chain(_texts(labelled, fields), _of_maker_notes(maker_notes)):
        if not text or (label, text) in known:
            continue
        left -= len(text)
        if left < 0 or len(text) > LONGEST_TEXT:
            has_more = True
            break
        known[label, text] = kept_text(label, text)
    return (*known.values(), MORE) if has_more else tuple(known.values())


def _texts(labelled: PictureTexts, fields: Sequence[Field]) -> Iterator[tuple[str, str]]:
    for texts in labelled.texts:
        if not texts.is_own:
            yield from ((texts.label, text) for text in texts.texts)
    place = position_of(fields)
    if place:
        yield POSITION, place.text
    further, is_unclear = further_places(fields)
    yield from ((POSITION, one.text) for one in further)
    if is_unclear or (not place and has_angles(fields)):
        yield UNCLEAR_POSITION, "?"
    for field in fields:
        label = _OF_FIELDS.get((field.directory, field.tag))
        if label:
            yield from ((label, _in_form(text, label, field, fields)) for text in _of_field(field))


def _in_form(text: str, label: str, field: Field, fields: Sequence[Field]) -> str:
    """A text of a label of fields: a date with its time, and of an address its end."""
    if label in DATED:
        clock = next((iptc_time(it) for it in fields if it.directory == "iptc" and it.tag == _CLOCKS.get(field.tag)), "")
        return f"{plain_date(text) or text} {clock or ''}".rstrip()
    return text.rstrip("/").rpartition("/")[2] if label in CODED else text


def _of_maker_notes(values: Mapping[str, str]) -> Iterator[tuple[str, str]]:
    """Serial numbers and owners, of which ExifTool's names for all makers end alike: `Canon:SerialNumber`, `Canon:OwnerName`."""
    for name, text in values.items():
        for end, label in (("SerialNumber", "serial"), ("OwnerName", "owner")):
            if name.endswith(end):
                yield label, text.strip()


_OF_FIELDS = {place: label for label, places in OF_FIELDS.items() for place in places}
_CLOCKS = {"2:30": "2:35", "2:37": "2:38"}  # of the dates of IPTC


def _of_field(field: Field) -> Iterator[str]:
    if isinstance(field.content, bytes):
        yield decoded(field.content)[0].strip(" \0")
    elif field.directory == "xmp" and isinstance(field.content, tuple):
        yield from (text.strip() for value in field.content for text in texts_in(value))  # type: ignore[arg-type]


Report = Callable[[int, int], None]  # of how many pictures the texts were added, and how many had none
Rows = Callable[[Catalogue, int], Iterator[Row]]  # the texts of a picture, by its number

AT_ONCE = 1000  # pictures of a transaction
_OTHERS = "temp.other_texts"
_WRITERS = 0o222  # the rights to write to a file


def say_nothing(_added: int, _due: int) -> None:
    """Reports nothing."""


def keep(name: str, report: Report = say_nothing) -> None:
    """Adds the texts that a catalogue lacks, and closes one that a killed run has left open. It does nothing if the catalogue can't be written,
    or another run writes to it."""
    roll_back(name, adds=True)
    with Catalogue(name) as catalogue:
        due = lacking(catalogue)
    if not (due or is_left_open(name)) or not os.stat(name).st_mode & _WRITERS:
        return
    with suppress(NoCatalogue, OSError), Catalogue(name, adds=True) as catalogue:
        done = 0
        while done < due:
            with catalogue.transaction():
                numbers = _add(catalogue, "main.texts", catalogue.without_texts(), 0, _rows)  # another run may have added some meanwhile
                if not numbers:
                    break
                catalogue.set_prepared(numbers[-1])
            done += len(numbers)
            report(done, due)


def lacking(catalogue: Catalogue) -> int:
    """How many pictures have no texts yet."""
    return catalogue.number_of(f"SELECT count(*) FROM ({catalogue.without_texts()})")


def make_ready(catalogue: Catalogue, report: Report = say_nothing) -> None:
    """Makes the name `texts` stand for the texts of all pictures: if the catalogue lacks some, these are in a temporary table."""
    due = lacking(catalogue)
    with catalogue.guarded():
        make_table(catalogue, _OTHERS)
        show_as_texts(catalogue, [*catalogue.texts, *[_OTHERS] * bool(due)])
    fill(catalogue, _OTHERS, catalogue.without_texts(), due, _rows, report)


def make_table(catalogue: Catalogue, table: str) -> None:
    """Makes an empty temporary table of texts, with the index of short ones that a catalogue has. The name `texts` stands for nothing then."""
    index = f"CREATE INDEX {table}_short ON {table.rpartition('.')[2]} (label, head, text) WHERE long = 0"
    for statement in ("DROP VIEW IF EXISTS temp.texts", f"DROP TABLE IF EXISTS {table}", texts_table(table), index):
        catalogue.base.execute(statement)


def fill(catalogue: Catalogue, table: str, pictures: str, due: int, rows: Rows, report: Report) -> None:
    """Adds the texts of so many pictures, of which a query has the numbers, to a table."""
    done, last = 0, 0
    while done < due:
        numbers = _add(catalogue, table, pictures, last, rows)
        done, last = done + len(numbers), numbers[-1]
        report(done, due)


def show_as_texts(catalogue: Catalogue, tables: Sequence[str]) -> None:
    """Makes the name `texts` stand for all rows of some tables."""
    catalogue.all_texts = tuple(tables)
    if len(tables) > 1:
        catalogue.base.execute(f"CREATE TEMP VIEW texts AS {' UNION ALL '.join(f'SELECT * FROM {table}' for table in tables)}")


def _add(catalogue: Catalogue, table: str, pictures: str, after: int, rows: Rows) -> list[int]:
    """Adds the texts of some pictures to a table: of the next ones after a number. Returns their numbers."""
    query = f"SELECT id FROM ({pictures}) WHERE id > ? ORDER BY id LIMIT ?"
    numbers = [row[0] for row in catalogue.rows(query, (after, AT_ONCE))]
    catalogue.execute_for((row for number in numbers for row in rows(catalogue, number)), put_text(table))
    return numbers


def _rows(catalogue: Catalogue, number: int) -> Iterator[Row]:
    """The texts of a picture as rows."""
    picture = PictureRecord(number)
    blocks = catalogue.blocks_with_fields(picture)
    reading = None
    if any(block.note is not None for block, _ in blocks):
        from ..judge.maker_notes import unpacked_reading  # which takes long to import

        reading = catalogue.maker_notes(picture, unpacked_reading)
    yield from ((number, at, *text) for at, text in enumerate(rows_of(blocks, reading.values if reading else {})))


# The texts of fields that have no label, for a question about them: of all pictures, in one pass over the fields that the catalogue has.
# What is damaged of a file, which is no field, is a text, too.
#
# A field has its values as `exiftool -n` has them by its word as a label, and its other forms by the labels of `SHOWN`, `OTHER`, `NUMBER` and `DATE`.

_FIELDS = "temp.field_texts"
_TIME = ("gps", "0007")
_NUMBERS = (("exif", "9101"), ("exif", "a300"), ("exif", "a301"))  # of type UNDEFINED, and numbers by the standard
# Logarithms to the base 2 (APEX), whose units are powers of this exponent: seconds, and f-numbers
_EXPONENTS = {
    **dict.fromkeys(("9201", "exif:ShutterSpeedValue"), -1.0),
    **dict.fromkeys(("9202", "9205", "exif:ApertureValue", "exif:MaxApertureValue"), 0.5),
}
_GREATEST = 100  # of the logarithm of a time that ExifTool reads; others are 0 seconds


SHOWN, OTHER, NUMBER, DATE = "show ", "other ", "number ", "date "  # before the word of a field: labels of its forms
EACH = 1_000_000  # numbers of texts for each value of a field
Places = dict[str, set[tuple[str, str]]]  # the fields that some words stand for, by their directories and tags


def add_fields(catalogue: Catalogue, words: Sequence[str], report: Report = say_nothing) -> Places:
    """Makes the name `texts` stand for the texts of these fields, too, each with its word as a label. The texts by label are ready. Of damage
    the fields of no picture are read. Returns the fields that were seen. Raises `WrongQuestion` for a name that may be one, if no picture has
    it."""
    if not words:
        return {}
    base = catalogue.base
    with catalogue.guarded():
        make_table(catalogue, _FIELDS)
        show_as_texts(catalogue, [*(it for it in catalogue.all_texts if it != _FIELDS), _FIELDS])
    if DAMAGE in words:
        with catalogue.guarded():
            damaged = catalogue.rows("SELECT id, damage FROM pictures WHERE damage != ''")
            base.executemany(put_text(_FIELDS), ((number, 0, *kept_text(DAMAGE, text)) for number, text in damaged))
    choices = [(word, Choice(only=[word])) for word in words if word != DAMAGE]
    seen: Places = {word: set() for word, _ in choices}
    if choices:
        due = catalogue.count()
        fill(catalogue, _FIELDS, "SELECT id FROM pictures", due, partial(_rows_of_fields, choices, seen), report)
    for word, _ in choices:
        if isinstance(word, Unsure) and not seen[word]:
            raise word.why
    return seen


def ambiguous_in(places: Places) -> dict[str, list[str]]:
    """The names that several fields have, with the names of these."""
    return ambiguous({word: [group_name(*it) for it in of_word] for word, of_word in places.items()})


def _rows_of_fields(choices: Sequence[tuple[str, Choice]], seen: Places, catalogue: Catalogue, number: int) -> Iterator[Row]:
    """The texts of a picture as rows. Of fields with the same texts one counts; a field may have a text twice, as 16 bits for each colour."""
    blocks = catalogue.blocks_with_fields(PictureRecord(number))
    lists = {id(fields): fields for _, fields in blocks}  # pages of a TIFF may share one
    in_sets = {key: in_found_set(fields, lists.values()) for key, fields in lists.items()}
    for word, choice in choices:
        values: dict[tuple[str, ...], list[Forms]] = {}
        for block, fields in blocks:
            name = "" if block.name == NAMES[block.kind] else block.name
            for field in _chosen(choice, in_sets[id(fields)], name):
                texts = tuple(texts_of_field(field, fields))
                if texts not in values:
                    values[texts] = forms_of(field, texts)
                seen[word].add((field.directory, field.tag))
        for first, forms in enumerate(chain.from_iterable(values.values())):
            for label, of_label in _by_label(forms):
                for at, text in enumerate(of_label):
                    yield (number, first * EACH + at, *kept_text(label + word, text))


def _by_label(forms: Forms) -> list[tuple[str, Sequence[str]]]:
    """The forms of a value, by the labels that they have before the word."""
    numbers = [repr(it.value) for it in map(number_of, forms.numbers) if it]
    return [("", forms.texts), (SHOWN, forms.shown), (OTHER, forms.others), (DATE, forms.dates), (NUMBER, numbers)]


def _chosen(choice: Choice, fields: Sequence[Field], block: str) -> list[Field]:
    """The fields of a block that a word stands for, or else the members of structures."""
    chosen = [it for it in choice.of(fields, block) if not is_rest(it.directory, it.tag)]
    return chosen or choice.of([one for it in fields if it.directory == "xmp" and has_members(it) for one in members_of(it)], block)


def texts_of_field(field: Field, fields: Sequence[Field] = ()) -> list[str]:
    """The values of a field as texts: numbers as `exiftool -n` has them, and what is no text or number in plain words. An angle of GPS is one
    number, with the sign that another of the fields of its block gives it; an APEX value is in seconds, or an f-number.

    >>> texts_of_field(Field("exif", "829a", "RATIONAL", 1, ((10, 1250),))), texts_of_field(Field("main", "013b", "ASCII", 5, b"Otto\\0"))
    (['0.008'], ['Otto'])
    >>> parts = ((12, 1), (30, 1), (0, 1))
    >>> texts_of_field(Field("gps", "0002", "RATIONAL", 3, parts)), texts_of_field(Field("gps", "0007", "RATIONAL", 3, parts))
    (['12.5'], ['12:30:00'])
    """
    if is_angle(field):
        angle = signed_degrees(field, fields)
        return [plain(field) if angle is None else _text(float(f"{float(angle):.15g}"))]
    if (field.directory, field.tag) == _TIME:
        return [plain(field).removesuffix(" UTC")]
    if (field.directory, field.tag) in _NUMBERS and isinstance(field.content, bytes):
        return list(map(str, field.content)) or [plain(field)]
    values = list(_members(typed(field)))
    if field.tag in _EXPONENTS and field.directory in ("main", "exif", "xmp"):
        values = [_power(value, _EXPONENTS[field.tag]) for value in values]
    known = [text for text in map(_text, values) if text and len(text) <= LONGEST_TEXT]
    return known if known and not any(isinstance(value, dict) for value in values) else [plain(field)[:LONGEST_TEXT]]


def _power(logarithm: Any, exponent: float) -> Any:
    """The seconds or the f-number of a logarithm; `Inf` for a greater one than a computer's numbers, as ExifTool has it."""
    if not isinstance(logarithm, (int, float)):
        return logarithm
    if exponent < 0 and abs(logarithm) >= _GREATEST:
        return 0
    try:
        return float(f"{2 ** (logarithm * exponent):.15g}")
    except OverflowError:
        return "Inf"


def _members(value: Any) -> Iterator[Any]:
    """The members of a list, of lists in it too; of a text with its language the text."""
    if isinstance(value, list):
        for member in value:
            yield from _members(member)
    else:
        yield value["text"] if isinstance(value, dict) and "text" in value else value


def _text(value: Any) -> str:
    if isinstance(value, float):
        return format(Decimal(repr(value)).normalize(), "f")
    return "" if value is None else str(value).strip()
