"""The fields that count, as the options --ignore, --only and --equal-numbers have them; and what is printed about those that don't."""

from __future__ import annotations

from exifnorm._hints import TYPE_CHECKING, Iterable, Iterator, Sequence

from ..fields.choosing import Choice, UnknownField, hint
from ..fields.field import Field
from ..model.found import other_name
from ..model.texts import escaped, reason
from .options import Fields
from .names import text_of, words_in

if TYPE_CHECKING:
    from ..catalogue.store import Catalogue


def choice_of(fields: Fields) -> Choice:
    """The choice of a command line. Raises `UnknownField`."""
    return Choice(list(_named(fields.ignore)), list(_named(fields.only)), fields.equal_numbers)


def choice_for(fields: Fields, *catalogues: Catalogue) -> Choice:
    """The same, once it is known which words fit no field of these catalogues. Raises `UnknownField`."""
    choice = choice_of(fields)
    refuse_unknown(choice, listings_of(*catalogues))
    note_absent(choice, *catalogues)
    return choice


def _named(words: Sequence[str]) -> Iterator[str]:
    """The words, and those of each file that is given as @FILE: one in each line. A line that begins with # is a comment."""
    for word in words:
        if not word.startswith("@"):
            yield word
            continue
        try:
            with open(word[1:], "rb") as file:  # the user's own, which may be a pipe
                yield from words_in(text_of(file, word[1:]), word[1:])
        except OSError as error:
            raise UnknownField(f"{escaped(word[1:])}: {reason(error)}") from None


Listed = tuple[str, Sequence[Field]]  # the fields of a block, with its name if it isn't the first one of its kind


def refuse_unknown(choice: Choice, listings: Iterable[Listed]) -> None:
    """Raises `UnknownField` if a name is no field's by the standards, and none of these fields has it either."""
    if not choice.unknown():
        return
    for block, fields in listings:
        choice.see(fields, block)
        if not choice.unknown():
            return
    wrong = choice.unknown()
    if wrong:
        raise UnknownField("; ".join(f"no field is named {escaped(it)}{hint(it)}" for it in wrong))


def listings_of(*catalogues: Catalogue) -> Iterator[Listed]:
    """The fields of each block of some catalogues."""
    from ..fields.packing import unpacked  # which takes long to import

    for catalogue in catalogues:
        for _, blocks in catalogue.packed_fields("name"):
            for name, packed in blocks:
                if packed:
                    with catalogue.guarded():
                        fields = unpacked(packed)
                    yield other_name(name), fields


def note_absent(choice: Choice, *catalogues: Catalogue) -> None:
    """Notes which words fit no field of all pictures, for the answer: that none changed means nothing then; and how many MakerNotes may have
    what is asked for."""
    for block, fields in listings_of(*catalogues) if choice.unseen_words() else ():
        choice.see(fields, block)
        if not choice.unseen_words():
            break
    choice.absent = choice.unseen_words()
    choice.maker_notes = max(one.with_maker_note() for one in catalogues) if choice.asks_for_private else 0
