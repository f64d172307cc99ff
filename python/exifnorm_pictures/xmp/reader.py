"""The packets that the library leaves to others: in other encodings, with other names, or in a few forms of RDF/XML that it calls rare.

Forms that no writer of XMP uses are not read: they are unreadable on every machine alike, by the cause `RareForm`.
"""

from __future__ import annotations

import functools
import re
from xml.etree import ElementTree

from ..model.budgets import CACHED, LANGUAGE, NAMESPACE, NESTED
from ..model.xmp_encodings import encoding_of
from .tree import MEMBER, PICTURE, RDF, TYPE, Literal, Node, Statement, Statements, Unreadable, Uri, Value, key_of, refuse_if


# The element rdf:RDF of a packet, after a check for parts that a packet must not have.

_OUTER = ("{adobe:ns:meta/}xmpmeta", "{adobe:ns:meta/}xapmeta")
_RDF = f"{{{RDF}}}RDF"
_DECLARATION = re.compile(r"""<\?xml\s[^>]*?\?>\s*""")
_ENCODING = re.compile(r"""encoding\s*=\s*["']\s*(utf-?(8|16|16-?le|16-?be|32|32-?le|32-?be))\s*["']""", re.I)


class _Builder(ElementTree.TreeBuilder):
    """Elements, whose names have their namespaces. Raises `Unreadable` before many names have a long one."""

    def start_ns(self, prefix: str, uri: str) -> None:
        refuse_if(len(uri) > NAMESPACE, "LongNamespace")


def rdf_of(packet: bytes) -> ElementTree.Element:
    """The packet's rdf:RDF element. Raises `Unreadable`.

    >>> rdf_of(b"<x:xmpmeta xmlns:x='adobe:ns:meta/'/>")
    Traceback (most recent call last):
    exifnorm_pictures.xmp.tree.Unreadable: NoRDF: The packet is not x:xmpmeta around one rdf:RDF, nor rdf:RDF by itself.
    """
    text = _text(packet)
    refuse_if("<!DOCTYPE" in text, "DocumentType")
    try:
        root = ElementTree.fromstring(text, ElementTree.XMLParser(target=_Builder()))
    except Unreadable:
        raise
    except (ElementTree.ParseError, ValueError):
        raise Unreadable("NotWellFormed") from None
    if packet.count(b"<") > NESTED:  # fewer can't be nested too deep
        _check_depth(root)
    if root.tag in _OUTER:
        inner = list(root)
        if len(inner) == 1 and not (root.text or "").strip() and not (inner[0].tail or "").strip():
            root = inner[0]
    refuse_if(root.tag != _RDF, "NoRDF")
    root.tail = None
    return root


def _text(packet: bytes) -> str:
    """The text of a packet without the bytes around its XML."""
    try:
        text = packet.decode(encoding_of(packet)).lstrip("\ufeff\0 \t\r\n").rstrip("\0 \t\r\n")
    except UnicodeDecodeError:
        raise Unreadable("NotText") from None
    declared = _DECLARATION.match(text) if text.startswith("<?xml") else None
    if declared:
        refuse_if("encoding" in declared[0] and not _ENCODING.search(declared[0]), "NotText")
        text = text[declared.end() :]
    return text


def _check_depth(root: ElementTree.Element) -> None:
    row = [root]
    for _ in range(NESTED):
        row = [child for it in row for child in it]
        if not row:
            return
    raise Unreadable("TooDeep")


_R = f"{{{RDF}}}"
_XML = "{http://www.w3.org/XML/1998/namespace}"
_LANG = _XML + "lang"
_ABOUT, _RESOURCE, _PARSE_TYPE, _LI, _VALUE = _R + "about", _R + "resource", _R + "parseType", _R + "li", _R + "value"
_DESCRIPTION = _R + "Description"
_NODES = (_DESCRIPTION, _R + "Bag", _R + "Seq", _R + "Alt")
_PLAIN = re.compile(re.escape(_R) + r"(?:value|type)\Z")  # names of RDF that are ordinary properties
_NOT_IN_URI = re.compile(r"[\s<>\"{|\\^`]")
_ABSOLUTE = re.compile(r"[A-Za-z][A-Za-z0-9+.-]*:[^\s<>\"{}|\\^`]*\Z")


_LANGUAGE = re.compile(r"[A-Za-z0-9_-]*\Z")  # of RFC 5646, and those of programs that write `en_US` as other programs name a locale


def statements(packet: bytes) -> Statements:
    """The statements of a packet. Raises `Unreadable`.

    >>> rdf = "<r:RDF xmlns:r='http://www.w3.org/1999/02/22-rdf-syntax-ns#' xmlns:d='http://d/'><r:Description d:a='1'/></r:RDF>"
    >>> statements(rdf.encode("utf-16"))
    (Statement(predicate='http://d/a', value=Literal(text='1', language='', datatype='')),)
    """
    return of_root(rdf_of(packet))


def of_root(root: ElementTree.Element) -> Statements:
    """The statements of an rdf:RDF element. Raises `Unreadable`."""
    refuse_if(set(root.attrib) - {_LANG} or _says(root.text))
    every = []
    inner: list[Statements] = []
    subjects = set()
    for node in root:
        refuse_if(node.tag != _DESCRIPTION or _says(node.tail))
        subjects.add(node.get(_ABOUT, node.get("about", "")))
        every += _node(node, _language(root, ""), inner)
    refuse_if(len(subjects - {""}) > 1, "SeveralSubjects")
    if inner:
        every += [it for some in inner for it in some]
        check_repeated(tuple(every))  # in RDF the statements about one subject have no order, wherever they stand
    return tuple(every)


def _says(text: "str | None") -> bool:
    return bool(text) and not text.isspace()  # type: ignore[union-attr]


def _language(element: ElementTree.Element, outer: str) -> str:
    """The language of an element's texts, which it has from the elements around it unless it has its own."""
    language = element.get(_LANG)
    if language is None:
        return outer
    refuse_if(len(language) > LANGUAGE, "LongLanguage")
    refuse_if(not _LANGUAGE.match(language))
    return language.lower()


def _uri(name: str) -> str:
    """The URI of an element or attribute."""
    return _made_uri(name) if len(name) > CACHED else _cached_uri(name)


def _made_uri(name: str) -> str:
    space, _, local = name[1:].partition("}")
    is_of_rdf = name.startswith(_R) and not _PLAIN.match(name)
    refuse_if(name[:1] != "{" or name.startswith(_XML) or is_of_rdf or _NOT_IN_URI.search(name[1:]))
    return space + local


_cached_uri = functools.lru_cache(maxsize=4096)(_made_uri)


def _node(node: ElementTree.Element, language: str, inner: list[Statements]) -> list[Statement]:
    """The statements of a node element: its type, its attributes, and its property elements. Those about the picture in a value go to `inner`."""
    refuse_if(node.tag not in _NODES or _says(node.text))
    language = _language(node, language)
    statements = []
    if node.tag != _DESCRIPTION:
        statements.append(Statement(TYPE, Uri(RDF + node.tag[len(_R) :])))
    for name, text in node.attrib.items():
        if name == _R + "type":
            statements.append(Statement(TYPE, _resource(text)))
        elif name not in (_LANG, _ABOUT, "about"):
            statements.append(Statement(_uri(name), Literal(text, language)))
    return statements + _properties(node, language, inner)


def _properties(node: ElementTree.Element, language: str, inner: list[Statements]) -> list[Statement]:
    statements = []
    number = 0
    for element in node:
        refuse_if(_says(element.tail))
        if element.tag == _LI:
            number += 1
            predicate = f"{RDF}_{number}"
        else:
            predicate = _uri(element.tag)
        refuse_if(MEMBER.match(predicate) and element.tag != _LI)
        statements.append(Statement(predicate, _value(element, _language(element, language), inner)))
    return statements


def _resource(uri: str) -> Uri:
    refuse_if(not _ABSOLUTE.match(uri))
    return Uri(uri)


def _value(element: ElementTree.Element, language: str, inner: list[Statements]) -> Value:
    """The value of a property element."""
    own = {name: text for name, text in element.attrib.items() if name != _LANG}
    if not own:
        return _content(element, language, inner)
    if own == {_PARSE_TYPE: "Resource"}:
        refuse_if(_says(element.text))
        return Node(tuple(_properties(element, language, inner)))
    refuse_if(len(element) or _says(element.text))
    if list(own) == [_RESOURCE]:
        return _resource(own[_RESOURCE])
    return _by_attributes(own, language)


def _content(element: ElementTree.Element, language: str, inner: list[Statements]) -> Value:
    if not len(element):
        return Literal(element.text or "", language)
    node = element[0]
    refuse_if(len(element) > 1 or _says(element.text) or _says(node.tail) or "about" in node.attrib)
    if _ABOUT not in node.attrib:
        return Node(tuple(_node(node, language, inner)))
    refuse_if(node.tag != _DESCRIPTION or node.attrib[_ABOUT])
    # IDimager writes this, and RDF/XML (2.2) makes statements about the picture of it.
    inner.append(tuple(_node(node, language, inner)))
    return Uri(PICTURE)


def _by_attributes(own: dict[str, str], language: str) -> Node:
    """The attributes of a property element without content are a node of their own."""
    refuse_if(any(name.startswith(_R) and name != _VALUE for name in own))
    return Node(tuple(Statement(_uri(name), Literal(text, language)) for name, text in own.items()))


def check_repeated(statements: Statements) -> None:
    """Raises `Unreadable` if a property stands twice with different values: their order decides which one a reader shows, and isn't known."""
    seen: dict[str, Value] = {}
    for predicate, value in statements:
        other = seen.setdefault(predicate, value)
        refuse_if(other is not value and predicate != TYPE and other != value and key_of(other) != key_of(value), "Repeated")
        if isinstance(value, Node):
            check_repeated(value.statements)
