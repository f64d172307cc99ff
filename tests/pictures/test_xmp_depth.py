"""A form is a packet that the library accepts, and its own form: of packets whose forms are as deep or as long as may be."""

import re
from xml.etree import ElementTree
from xml.parsers import expat

import by_rdflib
import exifnorm
import pytest
from exifnorm_pictures import xmp as reading
from exifnorm_pictures.xmp.reader import rdf_of
from hypothesis import given, settings, strategies as st
from made_files import SPACES
from studio import needs
from test_xmp_normal import check, form_of

MOST = 100  # elements in one another
RDF = "http://www.w3.org/1999/02/22-rdf-syntax-ns# "
META = "adobe:ns:meta/ xmpmeta"
NO_PROPERTIES = {RDF + "parseType", RDF + "resource", RDF + "about", "http://www.w3.org/XML/1998/namespace lang"}

STEPS = (
    "<dc:a rdf:parseType='Resource'>",
    "<dc:a><rdf:Description>",
    "<dc:a><rdf:Description dc:z='1'>",
    "<dc:k>sibling</dc:k><dc:a rdf:parseType='Resource'>",
    "<dc:a><rdf:Bag><rdf:li rdf:parseType='Resource'>",
    "<dc:a><rdf:Seq><rdf:li>1</rdf:li><rdf:li><rdf:Description>",
    "<dc:a><rdf:Alt><rdf:li><rdf:Bag><rdf:li><rdf:Seq><rdf:li><rdf:Description>",
)
"""From properties to the properties inside them."""

ENDS = (
    "",
    "<dc:b>text</dc:b>",
    "<dc:b xml:lang='de'>text</dc:b>",
    "<dc:b dc:c='1'/>",
    "<dc:b dc:c='1' dc:d='2'></dc:b>",
    "<dc:b rdf:value='1' dc:c='1'/>",
    "<dc:b rdf:resource='u:1'/>",
    "<dc:b rdf:parseType='Resource'/>",
    "<dc:b rdf:parseType='Resource'><rdf:value>v</rdf:value><dc:q>w</dc:q></dc:b>",
    "<dc:b><rdf:Description/></dc:b>",
    "<dc:b><rdf:Description dc:c='1'/></dc:b>",
    "<dc:b><rdf:Description rdf:value='1' dc:c='1'/></dc:b>",
    "<dc:b><rdf:Bag/></dc:b>",
    "<dc:b><rdf:Bag><rdf:li/></rdf:Bag></dc:b>",
    "<dc:b><rdf:Alt><rdf:li dc:c='1'/></rdf:Alt></dc:b>",
    "<dc:b><rdf:Seq><rdf:li rdf:resource='u:1'/></rdf:Seq></dc:b>",
)


def ends_of(opened):
    """The end tags of the elements that are open at the end of some tags."""
    names = []
    for end, name, alone in re.findall(r"<(/?)([\w:]+)[^<>]*?(/?)>", opened):
        if end:
            names.pop()
        elif not alone:
            names.append(name)
    return "".join(f"</{it}>" for it in reversed(names))


def packet_of(root, inside):
    """A packet with x:xmpmeta as root, or rdf:RDF."""
    opened = f"{root}<rdf:RDF {SPACES}><rdf:Description>{inside}"
    return (opened + ends_of(opened)).encode()


def depth_of(packet):
    """The number of elements in one another."""

    def depth(element):
        return 1 + max(map(depth, element), default=0)

    return depth(ElementTree.fromstring(packet))


def first_too_deep(packet):
    """The offset of the first tag that gives the form an element inside too many others, or None: by expat, and FORMAT 10."""
    found, open_depths = [], []
    parser = expat.ParserCreate(namespace_separator=" ")

    def begin(name, attributes):
        around = open_depths[-1] if open_depths else 0
        depth = {META: 1, RDF + "RDF": 2}.get(name, around + 1)
        if name == RDF + "Description" and around != 2:
            depth = around  # the form writes a structure without it
        open_depths.append(depth)
        if depth + any(it not in NO_PROPERTIES for it in attributes) > MOST:
            found.append(parser.CurrentByteIndex)

    parser.StartElementHandler = begin
    parser.EndElementHandler = lambda name: open_depths.pop()
    parser.Parse(packet, True)
    return min(found, default=None)


def check_depth(packet):
    """A packet is refused exactly if it or its form is too deep. Returns the form, or None."""
    answer = check(packet)
    if depth_of(packet) > MOST:
        assert answer.cause == "XmpTooDeep"
    elif (offset := first_too_deep(packet)) is not None:
        assert (answer.cause, answer.offset, answer.is_rare) == ("XmpRareDepth", offset, True)
    else:
        assert depth_of(answer) <= MOST
        return answer
    return None


@st.composite
def deep_packets(draw):
    """A packet with about as many elements in one another as may be."""
    root = draw(st.sampled_from(("", "<x:xmpmeta xmlns:x='adobe:ns:meta/'>")))
    inside, most = "", draw(st.integers(88, 101))
    few = draw(st.lists(st.sampled_from(STEPS), min_size=1, max_size=4))
    while depth_of(packet_of(root, inside)) < most:
        for step in few:
            inside += step
    while depth_of(packet_of(root, inside)) > most:
        inside = inside[: inside.rindex("<dc:a")]
    return packet_of(root, inside + draw(st.sampled_from(ENDS)))


@settings(max_examples=300)
@given(deep_packets())
def test_the_form_of_a_deep_packet_is_accepted_or_the_packet_is_refused(packet):
    check_depth(packet)


@pytest.mark.parametrize("root", ["", "<x:xmpmeta xmlns:x='adobe:ns:meta/'>"], ids=["rdf", "meta"])
@pytest.mark.parametrize("end", ENDS)
def test_the_deepest_form(root, end):
    """With one structure more each packet is refused, and none before its form has 100 elements in one another."""
    forms = [check_depth(packet_of(root, STEPS[0] * count + end)) for count in range(91, 101)]
    deepest = max(depth_of(it) for it in forms if it)
    assert deepest == (MOST - 1 if end == "<dc:b><rdf:Description/></dc:b>" and root else MOST)
    assert [it is None for it in forms] == sorted(it is None for it in forms)


@needs("rdflib")
@pytest.mark.parametrize("end", ENDS)
def test_rdflib_reads_the_deepest_forms(end):
    for step in STEPS:
        packets = (packet_of("", step * count + end) for count in range(10, 101))
        packet, form = [(it, form) for it in packets if isinstance(form := form_of(it), bytes)][-1]
        one, other = (reading.digest_of_statements(by_rdflib.statements(rdf_of(it))) for it in (packet, form))
        assert one == other


def test_elements_beside_one_another_are_not_counted():
    form = check_depth(
        packet_of("", "<dc:a><rdf:Bag>" + "<rdf:li dc:c='1'/>" * 300 + "</rdf:Bag></dc:a>" + "".join(f"<dc:b{it}/>" for it in range(300)))
    )
    assert depth_of(form) == 7


SHORT = (
    "<r:RDF xmlns:r='http://www.w3.org/1999/02/22-rdf-syntax-ns#' xmlns:d='http://d/'><r:Description><d:a>{}</d:a></r:Description></r:RDF>"
)
"""A packet that is shorter than its form."""


@pytest.mark.parametrize("text", ["a", ">", "&#13;", "é"])
def test_the_longest_form(text):
    """A form of as many bytes as may be is accepted, and its own form; with one more the packet is refused."""

    def packet(count, more):
        return SHORT.format(text * count + "b" * more).encode()

    around = len(exifnorm.xmp_normal(packet(0, 0)))
    count, more = divmod(exifnorm.LIMIT - around, len(exifnorm.xmp_normal(packet(1, 0))) - around)
    form = exifnorm.xmp_normal(packet(count, more))
    assert len(form) == exifnorm.LIMIT
    assert exifnorm.xmp_normal(form) == form
    refusal = form_of(packet(count, more + 1))
    assert (refusal.cause, refusal.offset) == ("XmpRareLength", exifnorm.LIMIT)
