"""The statements of a packet as a tree, without the form in which they are written; why one can't be read, and what its file may cost."""

from __future__ import annotations

import hashlib
import re

from exifnorm._hints import NamedTuple, Union

from ..model.budgets import LANGUAGE, LIMITS, NAMESPACE, NESTED, PACKET_BYTES, XMP_ATTRIBUTES, XMP_BYTES, XMP_TAGS, Budget, TooLong, TooMuch
from ..model.xmp_values import Literal as Literal, Uri as Uri

RDF = "http://www.w3.org/1999/02/22-rdf-syntax-ns#"
TYPE = RDF + "type"
PICTURE = "this:base"  # the URI of the picture, in a packet that gives it no name
CONTAINERS = {RDF + "Bag": "Bag", RDF + "Seq": "Seq", RDF + "Alt": "Alt"}
MEMBER = re.compile(re.escape(RDF) + r"_([0-9]+)\Z")


class Node(NamedTuple):
    """A value with statements of its own: a structure, an array, or a text with qualifiers."""

    statements: "tuple[Statement, ...]"

    @property
    def container(self) -> str:
        """`Bag`, `Seq` or `Alt`, or nothing."""
        types = {value for predicate, value in self.statements if predicate == TYPE and not isinstance(value, Node)}
        first = next(iter(types), None)
        return CONTAINERS.get(first.uri, "") if len(types) == 1 and isinstance(first, Uri) else ""


Value = Union[Literal, Uri, Node]


class Statement(NamedTuple):
    """A predicate and its value."""

    predicate: str
    value: Value


Statements = tuple[Statement, ...]


def key_of(value: Value) -> str:
    """A text that is equal for two values exactly if they mean the same; long values are compared by SHA-256.

    >>> key_of(Literal("Z", "de")), key_of(Uri("http://x/"))
    ('"2:de0:Z', '<http://x/')
    """
    if isinstance(value, Literal):
        return f'"{len(value.language)}:{value.language}{len(value.datatype)}:{value.datatype}{value.text}'
    if isinstance(value, Uri):
        return "<" + value.uri
    return "_" + digest_of_statements(value.statements, value.container == "Bag")


def unique(statements: Statements) -> "list[Statement]":
    """Each statement once: a statement about a name or a text is the same each time it is made. Nodes have no name, and stay.

    >>> len(unique((Statement("a", Literal("1")), Statement("a", Literal("1")), Statement("a", Node(())), Statement("a", Node(())))))
    3
    """
    return [
        *dict.fromkeys(it for it in statements if not isinstance(it.value, Node)),
        *(it for it in statements if isinstance(it.value, Node)),
    ]


def digest_of_statements(statements: Statements, is_bag: bool = False) -> str:
    """A digest that is equal for the same statements in any order.

    >>> first, second = Statement("a", Literal("1")), Statement("b", Literal("2"))
    >>> digest_of_statements((first, second)) == digest_of_statements((second, first)), digest_of_statements((first,)) == digest_of_statements((second,))
    (True, False)
    """
    lines = []
    distinct = unique(statements)
    many = len({predicate for predicate, _ in distinct}) < len(distinct)
    counts: dict[str, int] = {}
    for predicate, value in distinct:
        word = "member" if is_bag and MEMBER.match(predicate) else predicate
        if many and predicate != TYPE:  # XMP allows a property once; of several, readers take the first or the last, so their order counts
            number = counts[predicate] = counts.get(predicate, 0) + 1
            word += f" {number}" if number > 1 else ""
        lines.append(f"{len(word)}:{word}{key_of(value)}")
    octets = [line.encode("utf-8", "surrogatepass") for line in sorted(lines)]
    return hashlib.sha256(b"".join([b"%d:%b" % (len(it), it) for it in octets])).hexdigest()


# Why a packet can't be read, and what its file may cost

CAUSES = {
    "TooLong": f"The packet has more than {PACKET_BYTES:,} bytes, or the packets of its file together have more than"
    f" {LIMITS[XMP_BYTES]:,} bytes, {LIMITS[XMP_TAGS]:,} tags or {LIMITS[XMP_ATTRIBUTES]:,} attributes.",
    "LongNamespace": f"A namespace of the packet has more than {NAMESPACE} characters.",
    "LongLanguage": f"A language of the packet (xml:lang) has more than {LANGUAGE} characters.",
    "NotText": "The packet is no text in UTF-8, UTF-16 or UTF-32, or declares another encoding.",
    "DocumentType": "The packet has a document type declaration, which XMP does not allow.",
    "NotWellFormed": "The packet is not well-formed XML.",
    "NoRDF": "The packet is not x:xmpmeta around one rdf:RDF, nor rdf:RDF by itself.",
    "TooDeep": f"More than {NESTED} elements are nested in one another.",
    "RareForm": "The packet has a form of RDF/XML that writers of XMP don't use, or breaks its rules, and isn't read: such as rdf:nodeID,"
    " rdf:datatype, or rdf:parseType Literal.",
    "SeveralSubjects": "The packet makes statements about several subjects.",
    "Repeated": "A property stands twice with different values, which XMP does not allow, and their order isn't known.",
    "ExtensionMissing": "The packet names extended XMP that is not there.",
    "ExtensionNotNamed": "There is extended XMP that no packet names.",
    "ExtensionDamaged": "The extended XMP is not the one that the packet names, by its MD5.",
}


class Unreadable(ValueError):
    """A packet that has no statements to compare; `cause` is one of `CAUSES`."""

    def __init__(self, cause: str) -> None:
        super().__init__(f"{cause}: {CAUSES[cause]}")
        self.cause = cause


def refuse_if(is_so: object, cause: str = "RareForm") -> None:
    """Raises `Unreadable` for this cause."""
    if is_so:
        raise Unreadable(cause)


def spend(packet: bytes, budget: Budget) -> None:
    """Counts a packet before it is parsed: each tag has `<`, and each attribute `=`. Raises `Unreadable`, and `TooLong` for the file."""
    refuse_if(len(packet) > PACKET_BYTES, "TooLong")
    budget.check_time()
    try:
        budget.spend(XMP_BYTES, len(packet))
        budget.spend(XMP_TAGS, packet.count(b"<"))
        budget.spend(XMP_ATTRIBUTES, packet.count(b"="))
    except TooLong:
        raise
    except TooMuch:
        raise Unreadable("TooLong") from None
