"""The properties of a packet of XMP with the members of each Bag in the packet's order, compared with its normal form and with expat's reading."""

from xml.etree import ElementTree

import pytest

import exifnorm
from exifnorm._library import library
from hypothesis import given, settings
from hypothesis import strategies as st
from made_files import xmp
from packets import packets
from test_xmp_normal import RDF, REFUSED, form_of

XML = "{http://www.w3.org/XML/1998/namespace}"
NO_VALUES = {RDF + "about", "about", RDF + "parseType", XML + "lang"}  # attributes whose values no property has


def unsorted_of(packet):
    """The properties in the packet's order, or the refusal."""
    try:
        return exifnorm.xmp_properties(packet, sort=False)
    except exifnorm.XmpRefused as refusal:
        return refusal


def with_sorted_bags(value):
    """A value, or properties, with the members of each Bag in one order."""
    if isinstance(value, exifnorm.XmpContainer):
        members = [with_sorted_bags(it) for it in value.members]
        return value.kind, sorted(members, key=repr) if value.kind == "Bag" else members
    if isinstance(value, exifnorm.XmpStructure):
        return with_sorted_bags(value.properties)
    if isinstance(value, (list, tuple)) and not isinstance(value, (exifnorm.XmpText, exifnorm.XmpResource)):
        return [(it.namespace, it.name, with_sorted_bags(it.value)) for it in value]
    return type(value).__name__, value


def texts_of(value):
    """The texts in a value that are more than white space, sorted: they tell one member of a Bag from another."""
    if isinstance(value, (exifnorm.XmpText, exifnorm.XmpResource)):
        return [value[0]] if value[0].strip() else []
    inside = value.members if isinstance(value, exifnorm.XmpContainer) else [it.value for it in value.properties]
    return sorted(text for it in inside for text in texts_of(it))


def bags_of(value):
    """Of each Bag in a value the texts of its members, in their order."""
    if isinstance(value, (exifnorm.XmpText, exifnorm.XmpResource)):
        return []
    inside = value.members if isinstance(value, exifnorm.XmpContainer) else [it.value for it in value.properties]
    bags = [[texts_of(it) for it in inside]] if isinstance(value, exifnorm.XmpContainer) and value.kind == "Bag" else []
    return bags + [bag for it in inside for bag in bags_of(it)]


def texts_in(element):
    """The same of an element of the packet, as expat reads it."""
    texts = [value for it in element.iter() for name, value in it.items() if name not in NO_VALUES]
    texts += [it.text or "" for it in element.iter() if not len(it)]
    return sorted(it for it in texts if it.strip())


def bags_in(packet):
    root = ElementTree.fromstring(packet.strip(b"\0 \t\r\n\xef\xbb\xbf"))
    return [[texts_in(it) for it in bag] for bag in root.iter(RDF + "Bag")]


def check(packet):
    """What holds of each packet."""
    form, properties = form_of(packet), unsorted_of(packet)
    if isinstance(form, exifnorm.XmpRefused):
        assert (str(properties), properties.is_rare) == (str(form), form.is_rare)
        return
    unsorted = library().xmp_unsorted(packet)
    assert exifnorm.xmp_normal(unsorted) == form and library().xmp_unsorted(unsorted) == unsorted
    assert with_sorted_bags(properties) == with_sorted_bags(exifnorm.xmp_properties(packet))
    assert sorted(bags_of(exifnorm.XmpStructure(tuple(properties)))) == sorted(bags_in(packet))


@settings(max_examples=400)
@given(packets())
def test_packets(packet):
    check(packet)


MEMBERS = [
    "<rdf:li>{}</rdf:li>",
    "<rdf:li rdf:resource='u:{}'/>",
    "<rdf:li dc:b='{}' dc:a='1'/>",
    "<rdf:li rdf:parseType='Resource'><dc:c>{}</dc:c><dc:b>2</dc:b></rdf:li>",
    "<rdf:li><rdf:Bag><rdf:li>{}</rdf:li><rdf:li>1</rdf:li></rdf:Bag></rdf:li>",
    "<rdf:li><rdf:Seq><rdf:li>{}</rdf:li><rdf:li>1</rdf:li></rdf:Seq></rdf:li>",
]


@settings(max_examples=200)
@given(st.lists(st.lists(st.tuples(st.sampled_from(MEMBERS), st.text("abc", max_size=2)), max_size=6), max_size=3))
def test_bags(bags):
    """Of each kind of member, some of them equal."""
    inside = ["".join(member.format(text) for member, text in bag) for bag in bags]
    check(xmp("".join(f"<dc:p{number}><rdf:Bag>{it}</rdf:Bag></dc:p{number}>" for number, it in enumerate(inside))))


def test_keywords_are_in_their_order():
    """Those of a Seq and an Alt are so in both ways; properties are in the order of the normal form in both."""
    items = "".join(f"<rdf:li>{it}</rdf:li>" for it in ("urn", "bowl", "urn", "Vase"))
    packet = xmp("".join(f"<dc:{name}><rdf:{name}>{items}</rdf:{name}></dc:{name}>" for name in ("Seq", "Bag", "Alt")))
    for sort in (True, False):
        found = {it.name: [member.text for member in it.value.members] for it in exifnorm.xmp_properties(packet, sort=sort)}
        assert list(found) == ["Alt", "Bag", "Seq"]
        assert found["Bag"] == (["Vase", "bowl", "urn", "urn"] if sort else ["urn", "bowl", "urn", "Vase"])
        assert found["Alt"] == found["Seq"] == ["urn", "bowl", "urn", "Vase"]


@pytest.mark.parametrize("cause", REFUSED)
def test_each_refusal(cause):
    check(REFUSED[cause][0])
