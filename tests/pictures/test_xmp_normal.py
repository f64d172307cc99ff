"""The library's normal form of a packet of XMP: compared with the Python reader, which has its XML from expat, and with rdflib."""

import itertools
import random
import re
from pathlib import Path
from xml.etree import ElementTree

import pytest

import by_rdflib
import exifnorm
from exifnorm_pictures import xmp as reading
from exifnorm_pictures.xmp import reader
from exifnorm_pictures.xmp.reader import rdf_of
from exifnorm_pictures.xmp.reading import form_of as form_by_library, of_form
from exifnorm_pictures.xmp.tree import Node, Uri
from hypothesis import given, settings, strategies as st
from made_files import xmp
from packets import PACKET, packets
from studio import needs

RDF = "{http://www.w3.org/1999/02/22-rdf-syntax-ns#}"
TOP = Path(__file__).resolve().parents[2]
SAMPLES, FORMAT = TOP / "samples", TOP / "docs" / "FORMAT.md"


def said(packet):
    """The digest of a packet's statements by the Python reader, or None if it is unreadable."""
    try:
        return reading.digest_of_statements(reader.statements(packet))
    except reading.Unreadable:
        return None


def form_of(packet):
    """The normal form, or the cause of the refusal."""
    try:
        return exifnorm.xmp_normal(packet)
    except exifnorm.XmpRefused as refusal:
        return refusal


def check(packet):
    """What holds of each packet."""
    form, digest = form_of(packet), said(packet)
    if isinstance(form, exifnorm.XmpRefused):
        assert 0 <= form.offset <= max(len(packet), exifnorm.LIMIT), "the fault is outside of the packet"
        assert form.is_rare or digest is None, f"refused, and the Python reader reads it: {form}"
        return form
    if b"<!DOCTYPE" not in packet:  # the Python reader refuses it in a comment or a text, too
        assert digest is not None, "accepted, and the Python reader refuses it"
        assert said(form) == digest, "the form makes other statements than the packet"
        in_library = listed(of_form(form_by_library(packet, sort=False)))
        assert in_library == listed(
            reader.statements(packet)
        ), "exifnorm-pictures reads other statements by the library, or another order of a Bag"
    assert exifnorm.xmp_normal(form) == form, "the form is not its own normal form"
    check_properties(form)
    return form


def listed(statements):
    """Statements in the order of their predicates, each with its value: members of an array are in their order."""
    return sorted((it.predicate, listed(it.value.statements) if isinstance(it.value, Node) else it.value) for it in statements)


def check_properties(form):
    """The properties of a form are those that the Python reader finds in it, in the order of the form."""
    properties = [(it.namespace + it.name, value_of(it.value)) for it in exifnorm.xmp_properties(form)]
    assert properties == [(it.predicate, read_value_of(it.value)) for it in reader.statements(form)]


def value_of(value):
    """A value of a property, with the word for its kind."""
    if isinstance(value, exifnorm.XmpContainer):
        return value.kind, [value_of(it) for it in value.members]
    if isinstance(value, exifnorm.XmpStructure):
        return "structure", [(it.namespace + it.name, value_of(it.value)) for it in value.properties]
    return ("resource", value.uri) if isinstance(value, exifnorm.XmpResource) else ("text", value.text, value.language)


def read_value_of(value):
    """The same of a value that the Python reader found."""
    if isinstance(value, Node) and value.container:
        return value.container, [read_value_of(it.value) for it in value.statements[1:]]
    if isinstance(value, Node):
        return "structure", [(it.predicate, read_value_of(it.value)) for it in value.statements]
    return ("resource", value.uri) if isinstance(value, Uri) else ("text", value.text, value.language)


def test_packets_of_the_samples():
    whole = re.compile(rb"<x:xmpmeta\b.*?</x:xmpmeta>", re.S)
    found = {it for path in SAMPLES.glob("*/*/*") for it in whole.findall(path.read_bytes())}
    assert len(found) > 3, "the samples have packets"
    assert [it for it in found if isinstance(check(it), exifnorm.XmpRefused)] == []


def test_usual_packets_are_read_by_the_library(monkeypatch):
    """Without it each packet would still be read, in twice the time and after a parser of XML was imported."""
    monkeypatch.delattr(reader, "statements")
    assert reading.statements(PACKET.encode(), reading.Extensions({}), set())


@settings(max_examples=400)
@given(packets())
def test_agrees_with_the_python_reader(packet):
    check(packet)


@settings(max_examples=150)
@given(st.lists(packets(), min_size=2, max_size=4))
def test_equal_forms_are_equal_statements(some):
    read = [(form, said(it)) for it in {*some, PACKET.encode()} if isinstance(form := form_of(it), bytes)]
    for (form, digest), (other, other_digest) in itertools.combinations(read, 2):
        assert (form == other) == (digest == other_digest)


@needs("rdflib")
@settings(max_examples=60)
@given(packets())
def test_agrees_with_rdflib(packet):
    form = form_of(packet)
    if isinstance(form, bytes):
        one, other = (reading.digest_of_statements(by_rdflib.statements(rdf_of(it))) for it in (packet, form))
        assert one == other


def shuffled(element, draw):
    """The same element with its properties and the members of its bags in another order, and some attributes as elements."""
    for child in element:
        shuffled(child, draw)
    if element.tag == RDF + "Bag" or any(
        child.tag == RDF + "Description" or "}" in child.tag and not child.tag.startswith(RDF) for child in element
    ):
        element[:] = draw.sample(list(element), len(element))
    if element.tag == RDF + "Description":
        for name in draw.sample(list(element.attrib), draw.randrange(len(element.attrib) + 1)):
            if not name.startswith(RDF) and name.startswith("{http"):
                ElementTree.SubElement(element, name).text = element.attrib.pop(name)


@pytest.mark.parametrize("seed", range(20))
def test_another_writer(seed):
    """Another writer has other prefixes, another order, and elements in place of attributes."""
    root = ElementTree.fromstring(PACKET.split("?>", 1)[1].rsplit("<?", 1)[0])
    shuffled(root, random.Random(seed))
    assert exifnorm.xmp_normal(ElementTree.tostring(root)) == exifnorm.xmp_normal(PACKET.encode())


def test_spelling():
    """The octets of a form, written by hand: properties by their octets, a language in lower case, four octets as references."""
    packet = xmp("<dc:format xml:lang='DE'>a&#38;b&gt;&#xD;<![CDATA[<]]></dc:format><dc:b rdf:resource='x:&amp;'/><dc:a xmp:z='1'/>")
    inside = (
        '<p:a xmlns:p="http://purl.org/dc/elements/1.1/" rdf:parseType="Resource"><p:z xmlns:p="http://ns.adobe.com/xap/1.0/">1</p:z></p:a>'
        '<p:b xmlns:p="http://purl.org/dc/elements/1.1/" rdf:resource="x:&amp;"/>'
        '<p:format xmlns:p="http://purl.org/dc/elements/1.1/" xml:lang="de">a&amp;b&gt;&#13;&lt;</p:format>'
    )
    head = '<x:xmpmeta xmlns:x="adobe:ns:meta/"><rdf:RDF xmlns:rdf="http://www.w3.org/1999/02/22-rdf-syntax-ns#"><rdf:Description rdf:about="">'
    assert exifnorm.xmp_normal(packet).decode() == head + inside + "</rdf:Description></rdf:RDF></x:xmpmeta>"


@pytest.mark.parametrize("attributes", ["rdf:value='v' xmp:q='w'", "xmp:q='w' rdf:value='v'"])
def test_a_text_with_qualifiers_may_be_attributes(attributes):
    """RDF/XML, 7.2.21: of a property without content too."""
    form = check(xmp("<dc:a rdf:parseType='Resource'><rdf:value>v</rdf:value><xmp:q>w</xmp:q></dc:a>"))
    assert check(xmp(f"<dc:a {attributes}/>")) == check(xmp(f"<dc:a><rdf:Description {attributes}/></dc:a>")) == form


LI = "<rdf:li>{}</rdf:li>"


LONGEST = b"http://" + b"q" * 248 + b"/"
"""A namespace of 256 octets. A longer one is rare, because each property of a form repeats it."""


def long_form():
    """A packet of 600 kB whose form repeats a namespace of 256 octets sixty thousand times."""
    packet = xmp("".join(f"<q:a{it}/>" for it in range(60000)))
    return packet.replace(b"xmlns:dc=", b"xmlns:q='" + LONGEST + b"' xmlns:dc=", 1)


DEEP = xmp("<dc:a rdf:parseType='Resource'>" * 96 + "<dc:a dc:b=''/>" + "</dc:a>" * 96)
"""100 elements in one another, of which the innermost one has an attribute."""

REFUSED = {
    "XmpBadCharacter": (b"<a>\xff</a>", 3),
    "XmpBadMarkup": (b"<a><b x=1/></a>", 3),
    "XmpBadReference": (b"<a>&nbsp;</a>", 3),
    "XmpDocumentType": (b"<!DOCTYPE a><a/>", 0),
    "XmpOtherEnd": (b"\0 <a></b>", 5),
    "XmpAttributeTwice": (b"<a b='' b=''/>", 0),
    "XmpBadPrefix": (b"<a><q:b/></a>", 3),
    "XmpNoRoot": (b"<a/><b/>", 4),
    "XmpTooDeep": (b"<a>" * 101 + b"</a>" * 101, 300),
    "XmpNoRdf": (b"<a/>", 0),
    "XmpSeveralSubjects": (xmp("</rdf:Description><rdf:Description rdf:about='u:2'>").replace(b"rdf:about=''", b"rdf:about='u:1'"), None),
    "XmpRareEncoding": ("<a/>".encode("utf-16"), 0),
    "XmpRareName": ("<a é=''/>".encode(), 0),
    "XmpRareNamespace": (b"<q:a xmlns:q='abc'/>", 0),
    "XmpRareCount": (b"<a " + b" ".join(b"b%d=''" % it for it in range(257)) + b"/>", 0),
    "XmpRareElement": (xmp("<dc:a><dc:b/></dc:a>"), None),
    "XmpRareAttribute": (xmp("<dc:a rdf:parseType='Literal'/>"), None),
    "XmpRareText": (xmp("text"), None),
    "XmpRareLanguage": (xmp("<dc:a xml:lang='no language'/>"), None),
    "XmpRareResource": (xmp("<dc:a rdf:resource='relative'/>"), None),
    "XmpRareRepeated": (xmp("<dc:a>1</dc:a><dc:a>2</dc:a>"), None),
    "XmpRareLength": (long_form(), exifnorm.LIMIT),
    "XmpRareDepth": (DEEP, DEEP.rindex(b"<dc:a ")),
    "XmpTooLong": (b" " * (exifnorm.LIMIT + 1), exifnorm.LIMIT),
}


@pytest.mark.parametrize("cause", REFUSED)
def test_each_cause(cause):
    packet, offset = REFUSED[cause]
    refusal = check(packet)
    assert isinstance(refusal, exifnorm.XmpRefused), "accepted"
    assert refusal.cause == cause and refusal.sentence and refusal.remedy
    assert offset in (None, refusal.offset)


def bare(inside, attributes=""):
    """A packet with two elements and two declarations around its properties."""
    space = RDF.strip("{}")
    return f"<r:RDF xmlns:r='{space}' xmlns:d='urn:d#'><r:Description {attributes}>{inside}</r:Description></r:RDF>".encode()


def nested(count):
    """So many properties in one another."""
    return "<d:a r:parseType='Resource'>" * (count - 1) + "<d:a>1</d:a>" + "</d:a>" * (count - 1)


def declared(first, count):
    return " ".join(f"xmlns:n{it}='urn:n{it}#'" for it in range(first, first + count))


FORM_OF_NO_TEXT = len(exifnorm.xmp_normal(bare("<d:a></d:a>")))
# Each limit in the words of docs/FORMAT.md, packets that have as much of it as is asked for, and the cause of one that has too much
LIMITS = {
    "in UTF-8 of at most N bytes": (lambda most: bare("").ljust(most), "XmpTooLong"),
    "and with at most N elements": (
        lambda most: b"<x:xmpmeta xmlns:x='adobe:ns:meta/'>" + bare(nested(most - 3)) + b"</x:xmpmeta>",
        "XmpTooDeep",
    ),
    "more than N attributes": (
        lambda most: bare("", declared(0, 100) + "".join(f" d:a{it}='1'" for it in range(most - 100))),
        "XmpRareCount",
    ),
    "more than N elements and declarations": (
        lambda most: bare(f"<d:a {declared(200, most - 205)}>1</d:a>", declared(0, 200)),
        "XmpRareCount",
    ),
    "a namespace of more than N bytes": (lambda most: bare("<n:a/>", f"xmlns:n='{'urn:':n<{most - 1}}#'"), "XmpRareNamespace"),
    "a language of more than N bytes": (
        lambda most: bare(f"<d:a xml:lang='{('en' + '-abcdefg' * most)[:most]}'>1</d:a>"),
        "XmpRareLanguage",
    ),
    "a form of more than N bytes": (lambda most: bare(f"<d:a>{'t' * (most - FORM_OF_NO_TEXT)}</d:a>"), "XmpRareLength"),
    "or with more than N elements": (lambda most: bare(nested(most - 3)), "XmpRareDepth"),
}


def limit_of(words):
    section = FORMAT.read_text(encoding="utf-8").split("## 10.")[1].split("## 11.")[0]
    [most] = re.findall(words.replace("N", "([0-9,]+)"), section)
    return int(most.replace(",", ""))


@pytest.mark.parametrize("words", LIMITS)
def test_each_limit(words):
    """A packet at a limit has a form, and one over it a cause."""
    make, cause = LIMITS[words]
    most = limit_of(words)
    form = form_of(make(most))
    assert isinstance(form, bytes), f"refused at the limit of {most}: {form}"
    over = form_of(make(most + 1))
    assert isinstance(over, exifnorm.XmpRefused) and over.cause == cause, f"over the limit of {most}: {over}"


OF_BOTH = {
    "and with at most N elements": "TooDeep",
    "a namespace of more than N bytes": "LongNamespace",
    "a language of more than N bytes": "LongLanguage",
}


@pytest.mark.parametrize("words", OF_BOTH)
def test_limits_of_both_readers(words):
    """What the library reads at a limit, the Python reader reads too, and it names this limit over it."""
    (make, _), most = LIMITS[words], limit_of(words)
    assert reader.statements(make(most))
    with pytest.raises(reading.Unreadable, match=OF_BOTH[words]):
        reader.statements(make(most + 1))


@pytest.mark.parametrize("zeros", range(6))
def test_zeros_may_begin_a_packet_in_another_encoding(zeros):
    """XML 1.0, F.1: one zero before a `<` is UTF-16, and three are UTF-32."""
    found = form_of(bytes(zeros) + bare("<d:a>1</d:a>"))
    assert found.cause == "XmpRareEncoding" if zeros in (1, 3) else found == form_of(bare("<d:a>1</d:a>"))


def test_only_rdf_names_the_subject():
    """RDF/XML, 6.1.4 and 7.2.11: `xml:about` is no rdf:about. An `about` without a prefix is one, in old packets."""
    for about in ("xml:about='u:2'", "xmp:about='u:2'"):
        packet = xmp("").replace(b"rdf:about=''", f"rdf:about='u:1' {about}".encode())
        found = check(packet)
        assert b"u:2" in found if about.startswith("xmp") else found.cause == "XmpRareAttribute"
    packet = xmp("</rdf:Description><rdf:Description about='u:2'>").replace(b"rdf:about=''", b"rdf:about='u:1'")
    assert check(packet).cause == "XmpSeveralSubjects"


@pytest.mark.parametrize("before", [b"", b"<?xml version='1.0'?>", b" \xef\xbb\xbf<?xml version='1.0'?><!-- c -->"])
def test_attributes_are_not_compared_with_all_others_before_they_are_counted(before):
    """By pairs these would take hours."""
    packet = before + b"<a " + b" ".join(b"b%d=''" % it for it in range(200_000)) + b"/>"
    assert check(packet).cause == "XmpRareCount"


@pytest.mark.parametrize("count, cause", [(256, "XmpAttributeTwice"), (257, "XmpRareCount")])
def test_attributes_are_counted_wherever_their_tag_stands(count, cause):
    """They are the shortest, and all have one name, which would be the fault if they were not counted first."""
    tag = b"<a" + b" b=''" * count + b"/>"
    assert {form_of(b"<!--" + b"c" * shift + b"-->" + tag).cause for shift in range(1300)} == {cause}


def test_padding_and_marks_mean_nothing():
    packet = xmp(f"<dc:a>1</dc:a><dc:b><rdf:Bag>{LI.format(2)}</rdf:Bag></dc:b>")
    mixed = b" \xef\xbb\xbf\n\xef\xbb\xbf\0<?xml version='1.0'?>" + packet
    for other in (b"\xef\xbb\xbf" + packet, b"\0 \n" + packet + b"\0\0", mixed, bytearray(packet), memoryview(packet)):
        assert exifnorm.xmp_normal(other) == exifnorm.xmp_normal(packet)


@pytest.mark.parametrize("before", [b"\xbb", b"\xef\xbb", b" \xbf"])
def test_a_part_of_an_order_mark_is_no_padding(before):
    assert check(before + xmp("<dc:a>1</dc:a>")).cause == "XmpBadCharacter"
