"""Packets of XMP in all forms that are read, in rare ones, and with faults, for a fuzzer to begin with."""

from __future__ import annotations

from typing import List

SPACES = "xmlns:r='http://www.w3.org/1999/02/22-rdf-syntax-ns#' xmlns:d='http://d/'"
VALUES = (
    "<d:a>Vase</d:a>",
    "<d:a xml:lang='de'>Krug &amp; <![CDATA[<Vase>]]>&#x20AC;&#13;</d:a>",
    "<d:a r:resource='http://e/x?y=z'/>",
    "<d:a d:e='2' d:d='1'/>",
    "<d:a r:parseType='Resource'><d:c>3</d:c><d:b>4</d:b></d:a>",
    "<d:a><r:Description d:b='1'><d:a>5</d:a></r:Description></d:a>",
    "<d:a r:parseType='Resource'><r:value>v</r:value><d:q>w</d:q></d:a>",
    "<d:a r:value='v' d:q='w'/>",
    "<d:b><r:Bag><r:li>urn</r:li><r:li>bowl</r:li><r:li>urn</r:li></r:Bag></d:b>",
    "<d:b><r:Seq><r:li r:resource='u:1'/><r:li r:parseType='Resource'><d:a>1</d:a></r:li></r:Seq></d:b>",
    "<d:b><r:Alt><r:li xml:lang='x-default'>a</r:li><r:li xml:lang='fr'>b</r:li></r:Alt></d:b>",
    "<d:b><r:Bag/></d:b>",
    "<c:a xmlns:c='http://c/'>\n 1 </c:a><d:a/>",
    "<a xmlns='http://e/#'>1</a><b xmlns='http://e/#x'>2</b>",
    "<!-- c --><?p i?><d:a>1</d:a>\n<d:b>2</d:b><d:c>3</d:c><d:d>4</d:d><d:e>5</d:e>",
)
RARE = (
    "<d:a><d:b/></d:a>",
    "<d:a r:parseType='Literal'><x/></d:a>",
    "<d:a r:ID='i'>1</d:a>",
    "<d:a r:datatype='http://t/'>1</d:a>",
    "<d:a xml:lang='!'>1</d:a>",
    "<d:a r:resource='relative'/>",
    "<d:a>1</d:a><d:a>2</d:a>",
    "text<d:a>1</d:a>",
    "<d:\u00e9>1</d:\u00e9>",
    "<c:a xmlns:c='\u00e9'>1</c:a>",
    "<r:type r:resource='http://t/'/>",
)
WRONG = (
    "<d:a></d:b>",
    "<d:a>&amp</d:a>",
    "<d:a d:b='1' d:b='2'/>",
    "<c:a>1</c:a>",
    "<d:a>\x01</d:a>",
    "<d:a",
    "<d:a>" * 110 + "</d:a>" * 110,
)


def packet_of(properties: str, about: str = "") -> str:
    return f"<r:RDF {SPACES}><r:Description r:about='{about}'>{properties}</r:Description></r:RDF>"


def _whole_packets() -> List[str]:
    """Packets with what is around the properties."""
    description = "<r:Description r:about='{}' d:{}='1'/>"
    two = f"<r:RDF {SPACES}>{description.format('u:1', 'a')}{description.format('{}', 'b')}</r:RDF>"
    meta = f"<x:xmpmeta xmlns:x='adobe:ns:meta/' x:xmptk='t'>{packet_of(VALUES[0])}</x:xmpmeta>"
    return [
        f"\ufeff<?xpacket begin='\ufeff' id='W5M0MpCehiHzreSzNTczkc9d'?>{meta}\n<?xpacket end='w'?>  \n",
        f"<?xml version='1.0' encoding='UTF-8' standalone='yes'?>{meta}",
        two.format("u:1"),
        two.format(""),
        two.format("u:2"),
        f"<!DOCTYPE x>{meta}",
        "<a/>",
        meta + "<b/>",
        f"<r:RDF {SPACES} xml:lang='de'><r:Description><d:a>1</d:a><d:b xml:lang=''>2</d:b></r:Description></r:RDF>",
    ]


def small_packets() -> List[bytes]:
    """All of them."""
    texts = [*map(packet_of, (*VALUES, *RARE, *WRONG, "".join(VALUES[1:2] + VALUES[9:10]))), *_whole_packets()]
    return [*(it.encode() for it in texts), texts[0].encode("utf-16")]
