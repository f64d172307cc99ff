"""The normal form of a packet of XMP, and its properties."""

from __future__ import annotations

from ._calls import _copied
from ._errors import XmpRefused
from ._hints import TYPE_CHECKING, List
from ._library import Status, library
from ._properties import PROPERTIES, XmpProperty, made_of_form

if TYPE_CHECKING:
    from ._aliases import Octets


def xmp_normal(packet: Octets) -> bytes:
    """The packet's normal form: a packet of the same properties, in one order and one way of writing. Two packets with equal forms have
    the same properties, with the same values and languages. Prefixes, the order of properties, whether one is an attribute or an element,
    white space between elements, comments, `rdf:about`, `x:xmptk` and the padding make no difference; neither does the order in an
    `rdf:Bag`. Extended XMP is a packet of its own.

    Raises XmpRefused if the packet is wrong, or in a rare form of RDF/XML; MemoryError and LibraryMissing. It is proved that the form is
    that of what the packet means, that it is a packet which means the same, and that a wrong packet has no meaning. It is also proved that
    each packet with a meaning has a form, if it is within the limits that docs/FORMAT.md names.

    >>> rdf = "<r:RDF xmlns:r='http://www.w3.org/1999/02/22-rdf-syntax-ns#' xmlns:d='http://d/'><r:Description {}</r:RDF>"
    >>> first = rdf.format("d:a='Vase'/>").encode()
    >>> second = rdf.format("><d:a>Vase</d:a></r:Description>").encode()
    >>> xmp_normal(first) == xmp_normal(second)
    True
    >>> xmp_normal(first)[131:-40]
    b'<p:a xmlns:p="http://d/">Vase</p:a>'
    """
    return form_of(packet, sort=True)


def form_of(packet: Octets, *, sort: bool) -> bytes:
    """The packet's normal form, or its form for showing, in which the members of a Bag are in the packet's order."""
    octets = packet if type(packet) is bytes else _copied(packet)
    form = library().xmp_normalise(octets) if sort else library().xmp_unsorted(octets)
    if not isinstance(form, tuple):
        return form
    status, cause, place = form
    if status == Status.NO_MEMORY:
        raise MemoryError
    if status in (Status.REFUSED, Status.RARE):
        raise XmpRefused(library().cause_name(cause), place, octets)
    raise AssertionError(f"libexifnorm answered the status {status}")


def xmp_properties(packet: Octets, *, sort: bool = True) -> List[XmpProperty]:
    """The packet's properties, in the order of its normal form. Two packets have equal properties exactly if their forms are equal. So the
    members of a Bag, which have no order, are sorted; those of a Seq and an Alt are in their order.

    `sort=False` leaves the members of a Bag in the packet's order, in which programs show keywords. Don't compare these properties: two
    packets that mean the same may have their members in different orders.

    Raises what `xmp_normal` raises. It is proved that the form that is read, in either order, means what the packet means. What is read of
    it, and that `sort=False` gives the packet's order, is tested.

    >>> rdf = "<r:RDF xmlns:r='http://www.w3.org/1999/02/22-rdf-syntax-ns#' xmlns:d='http://d/'><r:Description {}</r:RDF>"
    >>> packet = rdf.format("d:a='Vase'><d:b><r:Bag><r:li>urn</r:li><r:li>bowl</r:li></r:Bag></d:b></r:Description>").encode()
    >>> for namespace, name, value in xmp_properties(packet):
    ...     print(namespace, name, value)
    http://d/ a XmpText(text='Vase', language='')
    http://d/ b XmpContainer(kind='Bag', members=(XmpText(text='bowl', language=''), XmpText(text='urn', language='')))
    >>> [member.text for member in xmp_properties(packet, sort=False)[1].value.members]
    ['urn', 'bowl']
    """
    return made_of_form(form_of(packet, sort=sort), PROPERTIES)
