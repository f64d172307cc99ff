"""Packets of XMP for hypothesis: all forms that writers use, some that they don't, and damaged ones."""

import re

from hypothesis import strategies as st
from made_files import SPACES

PACKET = (
    f"<?xpacket begin='\ufeff' id='W5M0MpCehiHzreSzNTczkc9d'?><x:xmpmeta xmlns:x='adobe:ns:meta/' x:xmptk='t'><rdf:RDF {SPACES}>"
    "<rdf:Description rdf:about='' xmp:Rating='3' xmp:Label='a&amp;b'><dc:title><rdf:Alt><rdf:li xml:lang='x-default'>Hello</rdf:li>"
    "<rdf:li xml:lang='de'>Hallo</rdf:li></rdf:Alt></dc:title><dc:subject><rdf:Bag><rdf:li>a</rdf:li><rdf:li>b</rdf:li><rdf:li>a</rdf:li>"
    "</rdf:Bag></dc:subject><dc:creator><rdf:Seq><rdf:li>x</rdf:li><rdf:li>y</rdf:li></rdf:Seq></dc:creator><xmp:r rdf:parseType='Resource'>"
    "<xmp:a>1</xmp:a><xmp:b><rdf:Bag><rdf:li rdf:parseType='Resource'><rdf:value>v</rdf:value><xmp:q>w</xmp:q></rdf:li></rdf:Bag></xmp:b>"
    "</xmp:r><xmp:u rdf:resource='http://e/x'/><xmp:s xmp:a='1' xmp:b='2'/><xmp:d><rdf:Description xmp:a='7'/></xmp:d>"
    "<dc:format>image/jpeg</dc:format></rdf:Description></rdf:RDF></x:xmpmeta><?xpacket end='w'?>  "
)
_ATTRIBUTES = (
    "rdf:about='u:1'",
    "rdf:about=''",
    "xml:lang='fr'",
    "xml:lang='!'",
    "rdf:parseType='Resource'",
    "rdf:parseType='Literal'",
    "rdf:ID='i'",
    "rdf:resource='http://q/'",
    "rdf:nodeID='n'",
    "rdf:datatype='http://www.w3.org/2001/XMLSchema#integer'",
    "xmp:c='3'",
    "rdf:value='v'",
    "about='z'",
    "rdf:type='http://t/'",
    "rdf:bagID='b'",
    "xml:base='http://b/'",
)
_CONTENTS = (
    "<dc:x>01</dc:x>",
    "<dc:x/>",
    "text",
    "<!--c-->",
    "<![CDATA[q]]>",
    "<rdf:value>r</rdf:value>",
    "<rdf:_3>k</rdf:_3>",
    "&#10;",
    " ",
    "<rdf:Description rdf:about=''/>",
    "<dc:y><rdf:Bag/></dc:y>",
    "<rdf:type rdf:resource='http://t2/'/>",
    "<rdf:li>z</rdf:li>",
)
_NAMES = ("rdf:Bag", "rdf:Seq", "rdf:li", "dc:title", "xmp:a", "xmp:z", "rdf:Description", "xmp:d")


def _chosen(draw, some, other):
    return draw(st.sampled_from(some)) if some else other


def _with_attribute(packet, draw):
    at = _chosen(draw, [it.end() for it in re.finditer(r"<[a-zA-Z]+:\w+", packet)], 0)
    return f"{packet[:at]} {draw(st.sampled_from(_ATTRIBUTES))}{packet[at:]}"


def _with_content(packet, draw):
    at = _chosen(draw, [it.end() for it in re.finditer(">", packet)], 0)
    return packet[:at] + draw(st.sampled_from(_CONTENTS)) + packet[at:]


def _renamed(packet, draw):
    found = _chosen(draw, re.findall(r"<((?:rdf|dc|xmp):\w+)", packet), "x")
    name = draw(st.sampled_from(_NAMES))
    return packet.replace(f"<{found}", f"<{name}").replace(f"</{found}", f"</{name}")


def _repeated_or_gone(packet, draw):
    it = _chosen(draw, [*re.finditer(r"<(\w+:\w+)[^<>]*>[^<>]*</\1>", packet)], None)
    return packet if it is None else packet[: it.start()] + it[0] * draw(st.sampled_from((0, 2))) + packet[it.end() :]


def _damaged(packet, draw):
    at = draw(st.integers(0, len(packet) - 1))
    return packet[:at] + draw(st.sampled_from("<>/'\"ab \0\x01&;:=")) + packet[at + draw(st.integers(0, 1)) :]


_WAYS = (_with_attribute, _with_attribute, _with_content, _with_content, _renamed, _repeated_or_gone, _damaged)


@st.composite
def packets(draw):
    """A packet that is changed in up to three places."""
    packet = PACKET
    for change in draw(st.lists(st.sampled_from(_WAYS), max_size=3)):
        packet = change(packet, draw)
    return packet.encode("utf-8", "replace")
