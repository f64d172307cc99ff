"""The properties of a packet as fields with values."""

from __future__ import annotations

import hashlib

from exifnorm._library import library
from exifnorm._properties import _HEAD, _TAIL

from ..model.budgets import Budget
from ..model.texts import grouped
from ..model.xmp_names import short_name
from ..model.xmp_values import Array, LongStructure, Structure, XmpValue, exact, texts_in
from ..xmp.reading import SMALL, of_form
from ..xmp.tree import MEMBER, Literal, Node, Statement, Statements, Uri, Value, key_of, unique
from .field import Field
from .listing import DIGITS

WHERE = "xmp"
LONGEST_STRUCTURE = 400  # characters of the exact form of a value without texts that is kept whole


def fields_of_statements(statements: Statements) -> list[Field]:
    """A field for each property, by its name.

    >>> fields_of_statements((Statement("http://purl.org/dc/elements/1.1/format", Literal("image/jpeg")),))
    [Field(name='XMP-dc:format', text='image/jpeg')]
    """
    by_property = grouped((short_name(predicate), value) for predicate, value in unique(statements))
    return [_field(name, values) for name, values in sorted(by_property.items())]


def packed_packet(packet: bytes, budget: Budget) -> tuple[str, bytes] | None:
    """The digest of a packet's statements and its packed fields by the extension module; None if that isn't there, or leaves the packet to
    Python."""
    is_small = budget.small_packets and len(packet) <= SMALL
    made = is_small and library().xmp_packed(packet, hashlib.sha256, short_name, line_of)
    if not made:
        return None
    budget.small_packets -= 1
    return made  # type: ignore[no-any-return]


def line_of(octets: bytes) -> bytes:
    """The packed field of one property of a form."""
    from .packing import packed  # which takes long to import

    return packed(fields_of_statements(of_form(_HEAD.encode() + octets + _TAIL.encode())))[0][1:-1]


def _field(name: str, values: list[Value]) -> Field:
    kept = tuple([_kept(value) for value in values])
    first = kept[0]
    word, number = (first.kind, len(first.members)) if isinstance(first, Array) else _form(values[0])
    return Field(WHERE, name, word, number if len(values) == 1 else len(values), kept)


def _form(value: Value) -> tuple[str, int]:
    """A word for the form of a value, and the number of its members."""
    if isinstance(value, Node):
        statements = unique(value.statements)
        members = sum(MEMBER.match(it.predicate) is not None for it in statements)
        return (value.container, members) if value.container else ("structure", len(statements))
    return ("text" if isinstance(value, Literal) else "URI"), 1


def _kept(value: Value) -> XmpValue:
    """A value; of a long structure, which has no text that a reader shows, also its beginning and a digest."""
    kept = _value(value)
    if isinstance(value, Node) and not texts_in(kept):
        text = exact(kept)
        if len(text) > LONGEST_STRUCTURE:
            return LongStructure(hashlib.sha256(key_of(value).encode("utf-8", "surrogatepass")).hexdigest()[:DIGITS], text[:60], kept)
    return kept


def _value(value: Value) -> XmpValue:
    if isinstance(value, (Literal, Uri)):
        return value
    statements = unique(value.statements)
    word = value.container
    members = [it for it in statements if word and MEMBER.match(it.predicate)]
    if word and len(members) + 1 == len(statements):  # nothing but its type
        members.sort(key=lambda it: (len(it.predicate), it.predicate))
        return Array(word, tuple([_value(it.value) for it in members]))
    named = [(short_name(it.predicate), _value(it.value)) for it in statements]
    is_each_once = len(dict(named)) == len(named)
    named.sort(key=lambda it: f"{it[0]}={'' if is_each_once else exact(it[1])}")
    return Structure(tuple(named))
