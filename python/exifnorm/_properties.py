"""Properties from the normal form of a packet of XMP (docs/FORMAT.md, section 10): it has one way of writing, and needs no checks."""

from __future__ import annotations

import functools
import re

from ._hints import TYPE_CHECKING, Any, Callable, List, Tuple
from ._named import NamedTuple
from ._words import documented

if TYPE_CHECKING:
    from ._aliases import XmpValue
else:
    XmpValue = Any


@documented
class XmpText(NamedTuple):
    """A text of XMP.

    - `text`: the text
    - `language`: its language in small letters, as "x-default" or "de-at"; empty if it has none
    """

    text: str
    language: str = ""


@documented
class XmpResource(NamedTuple):
    """A resource of XMP.

    - `uri`: its URI
    """

    uri: str


@documented
class XmpContainer(NamedTuple):
    """A container of XMP.

    - `kind`: "Bag", whose members have no order; "Seq", whose members have one; "Alt", whose members are alternatives, as a text
      in several languages
    - `members`: its values
    """

    kind: str
    members: "Tuple[XmpValue, ...]"


@documented
class XmpStructure(NamedTuple):
    """A structure of XMP, or a text with qualifiers, of which the property `value` of RDF is the text.

    - `properties`: its properties
    """

    properties: "Tuple[XmpProperty, ...]"


@documented
class XmpProperty(NamedTuple):
    """A property of a packet of XMP, or of a structure in it.

    - `namespace`: the URI of its namespace. One that ends with a letter or a digit is without these, which begin the name
    - `name`: its name in the namespace
    - `value`: its value: `XmpText`, `XmpResource`, `XmpContainer` or `XmpStructure`

    >>> XmpProperty("http://purl.org/dc/elements/1.1/", "format", XmpText("image/jpeg"))
    XmpProperty(namespace='http://purl.org/dc/elements/1.1/', name='format', value=XmpText(text='image/jpeg', language=''))
    """

    namespace: str
    name: str
    value: XmpValue


_HEAD = (
    '<x:xmpmeta xmlns:x="adobe:ns:meta/"><rdf:RDF xmlns:rdf="http://www.w3.org/1999/02/22-rdf-syntax-ns#"><rdf:Description rdf:about="">'
)
_TAIL = "</rdf:Description></rdf:RDF></x:xmpmeta>"
_ITEM = (
    '<(?:p:([^ ]*) xmlns:p="([^"]*)"|rdf:li)'  # of a property its name and its namespace, or a member of a container
    '(?: rdf:resource="([^"]*)"/>| rdf:parseType="(Resource)">|(?: xml:lang="([^"]*)")?>(?:<rdf:(Bag|Seq|Alt)>|([^<]*)</[^>]*>))'
    "|</(?:rdf:(?:Bag|Seq|Alt)></)?[^>]*>"  # the end of a structure or a container
)


def _decoded(octets: str) -> str:
    """A text as the form has it, without its references."""
    if "&" not in octets:
        return octets
    return octets.replace("&lt;", "<").replace("&gt;", ">").replace("&#13;", "\r").replace("&amp;", "&")


class Makers(NamedTuple):
    """What is made of each part of a form, of what is in it."""

    text: Callable[[str, str], Any]
    resource: Callable[[str], Any]
    container: Callable[[str, Tuple[Any, ...]], Any]
    structure: Callable[[Tuple[Any, ...]], Any]
    named: Callable[[str, str, Any], Any]


PROPERTIES = Makers(XmpText, XmpResource, XmpContainer, XmpStructure, XmpProperty)


@functools.lru_cache(maxsize=None)
def _items() -> "re.Pattern[str]":
    """The parts of a form, by an expression that is compiled when it is first needed: that takes longer than to import the package."""
    return re.compile(_ITEM)


def made_of_form(form: bytes, make: Makers) -> List[Any]:
    """The properties of a normal form, as they are made of it.

    >>> made_of_form((_HEAD + '<p:a xmlns:p="http://d/" xml:lang="de">Krug &amp;amp;</p:a>' + _TAIL).encode(), PROPERTIES)
    [XmpProperty(namespace='http://d/', name='a', value=XmpText(text='Krug &amp;', language='de'))]
    """
    octets = form.decode("utf-8")
    inside: List[Any] = []  # what the innermost structure or container has
    outside: List[Tuple[Any, ...]] = []  # of each that is open the name, the namespace and the kind, and what was read around it
    for item in _items().finditer(octets, len(_HEAD), len(octets) - len(_TAIL)):
        name, space, uri, structure, language, kind, text = item.groups()
        if text is not None:
            value = make.text(_decoded(text), language or "")
        elif uri is not None:
            value = make.resource(_decoded(uri))
        elif structure or kind:
            outside.append((name, space, kind, inside))
            inside = []
            continue
        else:
            name, space, kind, around = outside.pop()
            value = make.container(kind, tuple(inside)) if kind else make.structure(tuple(inside))
            inside = around
        inside.append(value if name is None else make.named(space, name, value))
    return inside
