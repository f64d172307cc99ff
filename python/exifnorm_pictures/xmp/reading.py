"""A packet read as its statements, with the extended XMP that belongs to it."""

from __future__ import annotations

import hashlib
from itertools import chain

from exifnorm._hints import Mapping
from exifnorm import XmpRefused
from exifnorm._properties import Makers, made_of_form
from exifnorm._xmp import form_of

from ..model.budgets import Budget
from .tree import CONTAINERS, RDF, TYPE, Literal, Node, Statement, Statements, Uri, refuse_if, spend

NOTE = "http://ns.adobe.com/xmp/note/HasExtendedXMP"


SMALL = 1 << 16  # bytes of a packet that needs no count


class Extensions:
    """The extended XMP of a picture by its digest. Each is read once, however many packets name it."""

    __slots__ = ("data", "budget", "_parsed")

    def __init__(self, data: Mapping[str, bytes], budget: Budget | None = None) -> None:
        self.data, self.budget = data, budget or Budget()
        self._parsed: dict[str, Statements] = {}

    def statements(self, name: str) -> Statements:
        """The statements of one. Raises `Unreadable`."""
        refuse_if(name not in self.data, "ExtensionMissing")
        data = self.data[name]
        spend(data, self.budget)
        if name not in self._parsed:
            digest = hashlib.md5(data, usedforsecurity=False).hexdigest()
            refuse_if(digest.upper() != name, "ExtensionDamaged")
            self._parsed[name] = _parsed(data)
        return self._parsed[name]


def statements(packet: bytes, extensions: Extensions, used: set[str]) -> Statements:
    """The statements of a packet with the extended XMP of its picture; the digests in use go to `used`.

    Raises `Unreadable`.

    >>> rdf = b"<r:RDF xmlns:r='http://www.w3.org/1999/02/22-rdf-syntax-ns#' xmlns:d='http://d/'>"
    >>> statements(rdf + b"<r:Description r:about='' d:a='1'/></r:RDF>", Extensions({}), set())
    (Statement(predicate='http://d/a', value=Literal(text='1', language='', datatype='')),)
    """
    if len(packet) <= SMALL and extensions.budget.small_packets:
        extensions.budget.small_packets -= 1
    else:
        spend(packet, extensions.budget)
    parsed = _parsed(packet)
    notes = [it.value for it in parsed if it.predicate == NOTE]
    # the digests of the extended XMP that the packet refers to
    wanted = dict.fromkeys(it.text.upper() for it in notes if isinstance(it, Literal))
    if not wanted:
        return parsed
    used.update(wanted)
    return (*(it for it in parsed if it.predicate != NOTE), *chain.from_iterable(map(extensions.statements, wanted)))


def _parsed(packet: bytes) -> Statements:
    try:
        return of_form(form_of(packet, sort=False))
    except XmpRefused:
        from . import reader  # which imports a parser of XML, and few packets are rare

        return reader.statements(packet)


_TYPES = {word: Statement(TYPE, Uri(uri)) for uri, word in CONTAINERS.items()}


def of_form(form: bytes) -> Statements:
    """The statements of a form of the library, which has those of a packet in a usual form of RDF/XML, as XMP writers use them (XMP part 1, 7).
    The members of a Bag are in the packet's order."""
    return tuple(made_of_form(form, _STATEMENTS))


_STATEMENTS = Makers(
    Literal,
    Uri,
    lambda kind, members: Node((_TYPES[kind], *[Statement(f"{RDF}_{number}", it) for number, it in enumerate(members, 1)])),
    Node,
    lambda namespace, name, value: Statement(namespace + name, value),
)
