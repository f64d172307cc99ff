"""The built program on packets of XMP: `show` and `captions` print them, and the other commands refuse them."""

from __future__ import annotations

import json
import subprocess
from pathlib import Path
from typing import Dict, Iterator, List
from xml.etree import ElementTree

import exifnorm
import pytest
from allocations import every, problems_without_memory
from cases import Case
from exifnorm_pictures.fields.names import group_name
from exifnorm_pictures.model import xmp_names
from exifnorm_pictures.model.xmp_names import short_name
from hypothesis import given, settings
from judging import problems_of_case
from made_files import SPACES, xmp
from packets import PACKET, packets
from program import CLOSED_PIPE, run
from small_packets import small_packets
from studio import needs
from test_xmp_normal import REFUSED

RDF = "{http://www.w3.org/1999/02/22-rdf-syntax-ns#}"
RESOURCE, LANGUAGE = f"{RDF}resource", "{http://www.w3.org/XML/1998/namespace}lang"
RARE = " (rare: another reader may read the packet, as that of exifnorm-pictures)"
COMMANDS = ("show", "captions")
SPELLED = xmp(
    "<dc:title><rdf:Alt><rdf:li xml:lang='x-default'>Krug &amp; Co</rdf:li><rdf:li xml:lang='de-AT'>Plutzer</rdf:li></rdf:Alt></dc:title>"
    "<dc:subject><rdf:Bag><rdf:li>b</rdf:li><rdf:li>a\\</rdf:li></rdf:Bag></dc:subject><dc:format>Zürich&#13;&#10;&lt;i&gt;</dc:format>"
    "<xmp:u rdf:resource='http://e/x?a=1&amp;b=2'/><xmp:s rdf:parseType='Resource'><rdf:value>v</rdf:value><xmp:q/></xmp:s><dc:e><rdf:Seq/></dc:e>"
    "<z:own xmlns:z='http://z/'/>"
)
LINES = [
    "xmp",
    "XMP-dc:e Seq:",
    r"XMP-dc:format text: Z\c3\bcrich\0d\0a<i>",
    "XMP:<http://z/own> text:",
    "XMP-xmp:s structure:",
    ". XMP-xmp:q text:",
    ". XMP-rdf:value text: v",
    "XMP-dc:subject Bag:",
    r". text: a\5c",
    ". text: b",
    "XMP-dc:title Alt:",
    ". text x-default: Krug & Co",
    ". text de-at: Plutzer",
    "XMP-xmp:u URI: http://e/x?a=1&b=2",
]
CAPTIONS = ["xmp", "title x-default: Krug & Co", "title de-at: Plutzer", r"keyword: a\5c", "keyword: b"]
# What IPTC and XMP have for one label, by the IPTC Photo Metadata Standard, in the order of the lines
LABELS = {
    "title": "dc:title",
    "caption": "dc:description",
    "headline": "photoshop:Headline",
    "credit": "photoshop:Credit",
    "source": "photoshop:Source",
    "copyright": "dc:rights",
    "byline": "dc:creator",
    "byline-title": "photoshop:AuthorsPosition",
    "keyword": "dc:subject",
    "inventory": "photoshop:TransmissionReference",
}


def output(program: Path, command: str, packet: bytes) -> List[str]:
    """The lines of a run that succeeds."""
    outcome = run(program, Case("", words=[command, "a"], files={"a": packet}))
    assert (outcome.status, outcome.errors, outcome.output[-1:]) == (0, b"", b"\n"), outcome
    return outcome.output.decode("ascii").split("\n")[:-1]


def fixed(lines: List[str]) -> bytes:
    return "".join([f"{it}\n" for it in lines]).encode()


def escaped(text: str) -> str:
    """The text as the listings print it.

    >>> escaped("é\\\\a")
    '\\\\c3\\\\a9\\\\5ca'
    """
    return "".join([chr(it) if 32 <= it < 127 and it != 92 else f"\\{it:02x}" for it in text.encode()])


def name_of(tag: str) -> str:
    return group_name("xmp", short_name(tag[1:].replace("}", "", 1)))


def lines_of(element: ElementTree.Element, depth: int) -> Iterator[str]:
    """The lines of a property or a member of a normal form, by an XML parser."""
    dots = ". " * depth + ("" if element.tag == f"{RDF}li" else f"{name_of(element.tag)} ")
    children = list(element)
    if RESOURCE in element.attrib:
        yield f"{dots}URI: {escaped(element.get(RESOURCE, ''))}"
    elif f"{RDF}parseType" in element.attrib:
        yield f"{dots}structure:"
    elif children:
        yield f"{dots}{children[0].tag[len(RDF):]}:"
        children = list(children[0])
    else:
        language = f" {element.attrib[LANGUAGE]}" if LANGUAGE in element.attrib else ""
        value = f" {escaped(element.text)}" if element.text else ""
        yield f"{dots}text{language}:{value}"
    for child in children:
        yield from lines_of(child, depth + 1)


def listing(packet: bytes) -> List[str]:
    """The listing of a packet, from its normal form by an XML parser."""
    description = ElementTree.fromstring(exifnorm.xmp_normal(packet))[0][0]
    return ["xmp", *(line for it in description for line in lines_of(it, 0))]


def test_show(program):
    assert output(program, "show", SPELLED) == LINES


def test_captions(program):
    assert output(program, "captions", SPELLED) == CAPTIONS


def expected(packet: bytes) -> Case:
    """What `show` prints of a packet, or the line of its refusal."""
    case = Case("", words=["show", "a"], files={"a": packet})
    try:
        case.output = fixed(listing(packet))
    except exifnorm.XmpRefused as refusal:
        rare = RARE * refusal.is_rare
        case.status, case.output = 2, fixed([f"refused: {refusal.cause} at {refusal.offset}{rare}"])
    return case


@pytest.mark.parametrize("packet", small_packets())
def test_show_of_small_packets(program, packet):
    assert problems_of_case(program, expected(packet)) == []


@given(packets())
@settings(max_examples=60)
def test_show_of_generated_packets(program, packet):
    if packet.lstrip(b"\0 \t\r\n\xef\xbb\xbf")[:1] == b"<":
        assert problems_of_case(program, expected(packet)) == []


@pytest.mark.parametrize("before", [b"\0\0", b"\xef\xbb\xbf", b" \t\r\n", b"\xef\xbb\xbf\0 "])
def test_what_may_come_before(program, before):
    assert output(program, "show", before + SPELLED + b" \0\n") == LINES


def labelled(inside: str) -> bytes:
    spaces = "xmlns:photoshop='http://ns.adobe.com/photoshop/1.0/'"
    return xmp(inside, spaces)


def test_each_label(program):
    """Every property that stands for a DataSet has its line, in the order of those of IPTC."""
    texts = "".join([f"<{name}>{word}!</{name}>" for word, name in LABELS.items()])
    assert output(program, "captions", labelled(texts)) == ["xmp", *(f"{word}: {word}!" for word in LABELS)]


@needs("exiftool")
def test_the_labels_of_another_program(program, folder):
    """The properties are those that ExifTool names so, and IPTC's DataSets of the same labels are those of its guidelines."""
    file = Path(folder, "a.xmp")
    file.write_bytes(labelled("".join([f"<{name}>{word}!</{name}>" for word, name in LABELS.items()])))
    (found,) = json.loads(subprocess.run(["exiftool", "-j", "-G1", file], check=True, stdout=subprocess.PIPE).stdout)
    texts: Dict[str, str] = {str(value[0] if isinstance(value, list) else value): key for key, value in found.items()}
    names = {
        f"{word}!": f"XMP-{name.split(':')[0]}:{name.split(':')[1][0].upper()}{name.split(':')[1][1:]}" for word, name in LABELS.items()
    }
    assert {text: texts.get(text) for text in names} == names
    lines = output(program, "show", file.read_bytes())
    assert sorted(lines[1:]) == sorted(f"XMP-{name} text: {word}!" for word, name in LABELS.items())


@pytest.mark.parametrize(
    "inside, lines",
    [
        ("<dc:title>a</dc:title><xmp:x><rdf:Bag><rdf:li>b</rdf:li></rdf:Bag></xmp:x>", ["title: a"]),
        # a text with qualifiers: its text alone
        ("<dc:title rdf:parseType='Resource'><rdf:value>a</rdf:value><xmp:q>b</xmp:q></dc:title>", ["title: a"]),
        # a qualifier with members, and one that is a structure with a text of its own, before the text and after it
        (
            "<dc:title rdf:parseType='Resource'><rdf:value>a</rdf:value><xmp:q><rdf:Bag><rdf:li>b</rdf:li></rdf:Bag></xmp:q>"
            "<dc:a rdf:parseType='Resource'><rdf:value>c</rdf:value></dc:a></dc:title>",
            ["title: a"],
        ),
        (
            "<dc:subject><rdf:Bag><rdf:li rdf:parseType='Resource'><rdf:value>a</rdf:value><xmp:q rdf:parseType='Resource'>"
            "<rdf:value>c</rdf:value></xmp:q></rdf:li><rdf:li>b</rdf:li></rdf:Bag></dc:subject><dc:rights>r</dc:rights>",
            ["copyright: r", "keyword: a", "keyword: b"],
        ),
        ("<xmp:s rdf:parseType='Resource'><dc:title>a</dc:title></xmp:s>", []),
        ("<dc:source>a</dc:source><xmp:title>b</xmp:title>", []),
        ("<dc:rights rdf:resource='http://e/'/><dc:title/>", ["title: ", "copyright: http://e/"]),
    ],
)
def test_which_texts_are_captions(program, inside, lines):
    assert output(program, "captions", xmp(inside)) == ["xmp", *lines]


@pytest.mark.parametrize("cause", REFUSED)
@pytest.mark.parametrize("command", COMMANDS)
def test_each_cause(program, command, cause):
    packet, _ = REFUSED[cause]
    if cause == "XmpTooLong":
        packet = b"<" + packet
    with pytest.raises(exifnorm.XmpRefused) as caught:
        exifnorm.xmp_normal(packet)
    line = f"refused: {cause} at {caught.value.offset}{RARE * ('Rare' in cause)}\n"
    assert problems_of_case(program, Case("", words=[command, "a"], files={"a": packet}, status=2, output=line.encode())) == []


@pytest.mark.parametrize(
    "file", [b"", b" ", b"\0\0", b"\xef\xbb\xbf", b" a<", b"\xff\xd8\xff\xe1", b"\xff", b"II", b"MM\0<", b"\xfe", b"\x89PNG"]
)
@pytest.mark.parametrize("command", COMMANDS)
def test_other_files_are_no_packets(program, command, file):
    """They are refused as blocks, as `check` refuses them."""
    refused = run(program, Case("", words=["check", "a"], files={"a": file}))
    assert refused.status == 2 and b"Xmp" not in refused.output
    case = Case("", words=[command, "a"], files={"a": file}, status=2, output=refused.output)
    assert problems_of_case(program, case) == []


def test_other_commands_refuse_packets(program):
    line = b"refused: UnknownKind at 0"
    files = {"a": SPELLED, "b": SPELLED}
    cases = [
        Case("", words=["check", "a"], files=files, status=2, output=line + b"\n"),
        Case("", words=["compare", "a", "b"], files=files, status=2, output=line + b" in file 1\n"),
        Case("", words=["normalise", "a", "OUT"], files=files, status=2, output=line + b"\n", left={"OUT": b""}),
        Case("", input=SPELLED, status=2, output=line + b"\n"),
    ]
    assert [problems_of_case(program, it) for it in cases] == [[]] * 4


@pytest.mark.parametrize("command", COMMANDS)
def test_without_each_allocation(program, refuse, command):
    lines = {"show": LINES, "captions": CAPTIONS}[command]
    case = Case("", words=[command, "a"], files={"a": SPELLED}, output=fixed(lines))
    assert problems_without_memory(program, refuse, case, every()) == []
    case = Case("", words=[command, "a"], files={"a": b"<a><b>" + b"c" * 9000}, status=2, output=b"refused: XmpBadMarkup at 9006\n")
    assert problems_without_memory(program, refuse, case, every()) == []


@pytest.mark.parametrize("device", ["/dev/full", CLOSED_PIPE])
@pytest.mark.parametrize("packet", [SPELLED, b"<a/>", REFUSED["XmpRareText"][0]])
@pytest.mark.parametrize("command", COMMANDS)
def test_output_that_takes_nothing(program, command, packet, device):
    case = Case("", words=[command, "a"], files={"a": packet}, output_to=device, status=4)
    assert problems_of_case(program, case) == []


def nested(depth: int, inside: str) -> bytes:
    return xmp("<xmp:a rdf:parseType='Resource'>" * depth + inside + "</xmp:a>" * depth)


def test_deep_and_long_packets(program):
    """A line has two characters for each part around it, whatever their names, so that a listing is no longer than its form allows."""
    deep = output(program, "show", nested(90, "<xmp:b>c</xmp:b>"))
    assert deep == ["xmp", *(". " * n + "XMP-xmp:a structure:" for n in range(90)), ". " * 90 + "XMP-xmp:b text: c"]
    wide = output(program, "show", xmp("".join([f"<xmp:p{n:06}>c</xmp:p{n:06}>" for n in range(50_000)])))
    assert wide == ["xmp", *(f"XMP-xmp:p{n:06} text: c" for n in range(50_000))]
    text = "é" * 1_000_000
    assert output(program, "captions", xmp(f"<dc:title>{text}</dc:title>")) == ["xmp", "title: " + r"\c3\a9" * 1_000_000]


def test_names_of_usual_prefixes(program):
    """Each namespace with a usual prefix has it, and one that only begins so has none."""
    for space, prefix in xmp_names._SPACES.items():
        packet = PACKET[: PACKET.index("<x:xmpmeta")] + (
            f"<rdf:RDF {SPACES}><rdf:Description rdf:about='' xmlns:q='{space}' xmlns:r='{space}more/'><q:a/><r:a/></rdf:Description></rdf:RDF>"
        )
        if prefix == "rdf":
            continue
        assert sorted(output(program, "show", packet.encode())[1:]) == sorted([f"XMP-{prefix}:a text:", f"XMP:<{space}more/a> text:"])
