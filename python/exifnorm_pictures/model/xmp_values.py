"""Values of XMP: texts with their languages, URIs, lists and structures, in a form that is equal exactly for values that mean the same."""

from __future__ import annotations

import re
from operator import itemgetter

from exifnorm._hints import Any, Iterator, NamedTuple, Sequence, Union

from .texts import escaped, quoted

VALUE = "rdf:value"  # the text itself, in a structure with what qualifies it


class Literal(NamedTuple):
    """A text with its language and its type, either of which may be empty."""

    text: str
    language: str = ""
    datatype: str = ""


class Uri(NamedTuple):
    """A name in the form of a URI."""

    uri: str


class Array(NamedTuple):
    """A list in the order of the file, with its kind: `Alt`, `Bag` or `Seq`. A Bag is equal to one with the same members in another order."""

    kind: str
    members: "tuple[XmpValue, ...]"

    def __eq__(self, other: object) -> bool:
        if not isinstance(other, Array):
            return False
        if self.kind != "Bag" or other.kind != "Bag":
            return self.kind == other.kind and self.members == other.members
        return sorted(map(identity, self.members)) == sorted(map(identity, other.members))

    def __ne__(self, other: object) -> bool:
        return not self == other

    def __hash__(self) -> int:
        return hash((self.kind, frozenset(self.members)))

    def ordered(self) -> "list[XmpValue]":
        """The members, those of a Bag in an order that doesn't depend on the file's."""
        return sorted(self.members, key=identity) if self.kind == "Bag" else list(self.members)


class Structure(NamedTuple):
    """Fields by their names, sorted: a structure, or a text with what qualifies it."""

    members: "tuple[tuple[str, XmpValue], ...]"


class Long(NamedTuple):
    """In place of a value that is too long to be kept."""

    digest: str  # the first digits of its SHA-256
    begins: str | bytes  # the beginning of numbers and of XMP as they are printed exactly, or of bytes


class LongStructure(Long):
    """A long structure that was read just now, as what a catalogue keeps of it, to which it is equal, with the structure itself."""

    value: "XmpValue"

    def __new__(cls, digest: str, begins: str | bytes, value: "XmpValue") -> "LongStructure":
        structure = super().__new__(cls, digest, begins)
        structure.value = value
        return structure

    def __getnewargs__(self) -> tuple[Any, ...]:  # by which it is pickled
        return (*self, self.value)


XmpValue = Union[Literal, Uri, Array, Structure, Long]


def identity(value: XmpValue) -> str:
    """A text that is equal exactly for values that mean the same."""
    return _identity(value, "" if isinstance(value, Literal) else exact(value))


def _identity(value: XmpValue, printed: str) -> str:
    """The same of a value whose exact form is known."""
    if isinstance(value, Literal):
        return f'"{len(value.language)}:{value.language}{len(value.datatype)}:{value.datatype}{value.text}'
    return printed if isinstance(value, Uri) else "_" + printed


def exact(value: XmpValue) -> str:
    """A value as it is printed exactly.

    >>> exact(Array("Alt", (Literal("Vase", "x-default"), Literal("Krug", "de"))))
    'Alt["Vase"@x-default, "Krug"@de]'
    """
    if isinstance(value, Literal):
        return (
            quoted(value.text)
            + (f"@{escaped(value.language)}" if value.language else "")
            + (f"^^{escaped(value.datatype)}" if value.datatype else "")
        )
    if isinstance(value, Uri):
        return f"<{escaped(value.uri)}>"
    if isinstance(value, Array):
        printed = [(exact(it), it) for it in value.members]  # each once: Bags may be nested
        if value.kind == "Bag":
            printed.sort(key=lambda it: _identity(it[1], it[0]))
        return f"{value.kind}[{', '.join(text for text, _ in printed)}]"
    if isinstance(value, Long):
        return f"{value.begins!s}.. sha256:{value.digest}"
    return "{" + ", ".join(f"{escaped(name)}={exact(one)}" for name, one in value.members) + "}"


def texts_in(value: XmpValue) -> tuple[str, ...]:
    """The texts of a value: of a list all, of alternatives the default one. A structure has none, unless it is a text with qualifiers.

    >>> texts_in(Array("Alt", (Literal("Krug", "de"), Literal("Vase", "x-default")))), texts_in(Structure((("stEvt:action", Literal("saved")),)))
    (('Vase',), ())
    """
    if isinstance(value, (Literal, Uri)):
        return (value[0],)
    if isinstance(value, Long):
        return ()
    members = _chosen(value) if isinstance(value, Array) else _qualified(value)
    return tuple(text for it in members for text in texts_in(it))


def _chosen(array: Array) -> Sequence[XmpValue]:
    """The members of a list; of alternatives the default one."""
    if array.kind != "Alt":
        return array.members
    every = [it for it in array.members if isinstance(it, Literal)]
    return ([it for it in every if it.language.lower() == "x-default"] or every)[:1]


def _qualified(structure: Structure) -> Sequence[XmpValue]:
    """The members of a list that has qualifiers, or the text that has some; none of another
    structure."""
    matches = [(re.match(r"rdf:_([0-9]+)\Z", name), it) for name, it in structure.members]
    numbered = [(int(match[1]), it) for match, it in matches if match]
    if numbered:
        return [it for _, it in sorted(numbered, key=itemgetter(0))]
    return [it for name, it in structure.members if name == VALUE and isinstance(it, Literal)]


def simple_texts(value: XmpValue) -> Iterator[tuple[str, str]]:
    """The texts of a value or of a list of such, each with its language. Raises `ValueError` for a structure, a text with a datatype, and a long value."""
    if isinstance(value, Literal) and not value.datatype:
        yield value.text, value.language
    elif isinstance(value, Uri):
        yield value.uri, ""
    elif isinstance(value, Array):
        for member in value.ordered():
            yield from simple_texts(member)
    else:
        raise ValueError
