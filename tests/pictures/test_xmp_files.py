"""Each packet that the library accepts is read from a file NAME.xmp, whatever precedes its first element and whatever its prefixes are."""

import json
import re

import pytest

import exifnorm
from exifnorm_pictures.extract import readers
from exifnorm_pictures.model.xmp_encodings import begins_packet
from exifnorm_pictures.extract.formats.streams import HEAD
from exifnorm_pictures.model.budgets import PACKET_BYTES
from exifnorm_pictures.model.found import LeftToOthers
from exifnorm_pictures.refusals import causes, mend
from exifnorm_pictures.xmp import CAUSES
from hypothesis import example, given, settings, strategies as st
from made_blocks import BLOCKS
from made_boxes import box, jp2
from made_files import app1, app1_xmp, jpeg
from packets import packets
from studio import SMALL_JPEG, put

NS = "http://www.w3.org/1999/02/22-rdf-syntax-ns#"
DEFAULT = f"<RDF xmlns='{NS}' xmlns:d='urn:d#'><Description d:a='1'/></RDF>".encode()
BARE = f"<r:RDF xmlns:r='{NS}' xmlns:d='urn:d#'><r:Description r:about='' d:a='Bowl'/></r:RDF>".encode()
LONG = b"<!--" + b"- " * HEAD + b"-->"

_MARKS = st.sampled_from([b"\xef\xbb\xbf", b"\0", b" ", b"\r\n", b"\t\n"])
_DECLARATIONS = st.sampled_from([b"", b"<?xml version='1.0'?>", b'<?xml  version="1.0" encoding = "UTF-8" standalone="no" ?>\n'])
_BEFORE = st.sampled_from(
    [b"", b"\n ", b"<!---->", b"<!-- <svg> ?> - a -->", b"<?a?>", b"<?a b='<c>' -- ??>", b'<?xpacket begin="" id="a"?>', LONG, b" " * HEAD]
)
_PREFIXES = st.sampled_from(["rdf", "r", "_", "A-1.b", "RDF", "xmpmeta", "p" * 3000])
# The outermost element: without a wrapper, with one of either name, with one whose prefix differs
_WRAPPERS = st.sampled_from(["", "x:xmpmeta", "x:xapmeta", "a:xmpmeta"])


@st.composite
def files(draw):
    """A packet of `packets`, with another beginning, other prefixes and other quotation marks."""
    text = draw(packets()).decode()
    inner = re.search(r"(<rdf:RDF.*</rdf:RDF>)", text, re.S)
    text = re.sub(r"\brdf(?=[:=])", draw(_PREFIXES), inner[1] if inner else text)
    wrapper = draw(_WRAPPERS)
    if wrapper:
        text = f"<{wrapper} xmlns:{wrapper[0]}='adobe:ns:meta/'>{text}</{wrapper}>"
    if draw(st.booleans()) and '"' not in text:
        text = text.replace("'", '"')
    before = b"".join([*draw(st.lists(_MARKS, max_size=3)), draw(_DECLARATIONS), *draw(st.lists(_BEFORE, max_size=3))])
    return before + text.encode() + draw(st.sampled_from([b"", b" \0\n", b"<!-- end -->", b"<?xpacket end='w'?>"]))


def is_accepted(packet):
    try:
        exifnorm.xmp_normal(packet)
    except exifnorm.XmpRefused:
        return False
    return True


@settings(max_examples=300)
@given(files())
@example(DEFAULT)
@example(b"\0" + BARE)
@example(b"\0\0\0" + BARE)
@example(b"\0\xef\xbb\xbf \xef\xbb\xbf" + LONG + BARE)
def test_what_the_library_accepts_is_read(packet):
    if is_accepted(packet):
        pictures = [exifnorm.read_bytes(it, name=name) for it, name in ((packet, "a.xmp"), (b"\n" + packet, "b.XMP"))]
        assert [(it.type, it.refusals, it.not_read) for it in pictures] == [("XMP", (), ())] * 2
        assert exifnorm.compare(*pictures).same is True


ENCODINGS = ("utf-16-le", "utf-16-be", "utf-32-le", "utf-32-be")  # of a packet, beside UTF-8 (XMP part 1, 7.1)


@pytest.mark.parametrize("encoding", ENCODINGS)
@given(files())
@example(DEFAULT)
@example(b"<?xpacket begin='\xef\xbb\xbf' id='a'?>" + BARE)
def test_it_is_read_in_each_encoding(encoding, packet):
    """With a byte order mark, and without one if its first character shows what it is in (XML 1.0, F.1)."""
    text = packet.decode().lstrip("\ufeff\0 \t\r\n")
    if is_accepted(packet):
        expected = exifnorm.read_bytes(packet, name="a.xmp")
        for other in ("\ufeff" + text, "\ufeff \ufeff\n" + text, text):
            read = exifnorm.read_bytes(other.encode(encoding), name="b.xmp")
            assert (read.type, read.refusals, read.not_read) == ("XMP", (), ())
            assert exifnorm.compare(read, expected).same is True


def test_the_law_is_about_most_packets():
    """The library accepts many of those that are generated."""
    kept = []
    settings(max_examples=100, database=None)(given(files())(lambda packet: kept.append(is_accepted(packet))))()
    assert sum(kept) > len(kept) / 4


@pytest.mark.parametrize("packet", [DEFAULT, BARE, b"\xef\xbb\xbf\n<?xml version='1.0'?><!-- a -->" + BARE, LONG + BARE], ids=range(4))
def test_commands_read_a_file(packet, called, folder):
    put(
        folder,
        {
            **{name: octets for name, octets in (("a.xmp", packet), ("b.XMP", packet + b"\n"))},
            "other.xmp": packet.replace(b"urn:d#", b"urn:e#"),
        },
    )
    status, printed, _ = called("show", "a.xmp", "--json")
    assert (status, json.loads(printed)["blocks"][0]["status"]) == (0, "accepted")
    assert called("explain", "a.xmp")[:2] == (0, "XMP: ok\n")
    assert [called("compare", "a.xmp", it)[0] for it in ("b.XMP", "other.xmp")] == [0, 1]
    assert called("index", ".", "--catalogue", "c", "--quiet")[:2] == (0, "3 accepted\n")


@pytest.mark.parametrize(
    "packet", [b"<a:RDF xmlns:a='urn:a'/>", b"<!DOCTYPE a [<!ENTITY b 'c'>]>" + BARE, BARE[:-1], BARE.replace(b"urn:d#", b"d" * 257)]
)
def test_a_refused_packet_is_explained(packet, called, folder):
    (folder / "a.xmp").write_bytes(packet)
    status, printed, _ = called("explain", "a.xmp")
    assert (status, printed[:16]) == (2, "XMP: unreadable:"), printed


LINES = BARE.replace(b" d:a='Bowl'/>", b">\n<d:a>Bowl</d:a>\n<d:b>Urn</d:b></r:Description>\n")
FAULTS = {
    b"& ": "NotWellFormed",
    b"&a;": "NotWellFormed",
    b"\x0b": "NotWellFormed",
    b"<": "NotWellFormed",
    b"</e>": "NotWellFormed",
    b"\xe9": "NotText",
}


@pytest.mark.parametrize("where", [b"Bowl", b"Urn"])
@pytest.mark.parametrize("fault", FAULTS)
def test_explain_shows_where_a_text_is_damaged(fault, where, called, folder, tried):
    """By its byte, its line, and the bytes around it, which show an archivist the caption that a program has damaged."""
    at = LINES.index(where)
    (folder / "a.xmp").write_bytes(LINES[:at] + fault + LINES[at:])
    _, printed, _ = called("explain", "a.xmp")
    places = re.findall(r"^  At (\d+), in line (\d+): [a-z].*\.$", printed, re.M)
    assert places == [(str(at), "2" if where == b"Bowl" else "3")] or (fault == b"<" and places[0][0] == str(at + 1)), printed
    block = json.loads(called("explain", "a.xmp", "--json")[1])
    assert block["cause"] == FAULTS[fault] and [f"  {it}" for it in block["here"]] == re.findall("^  At .*", printed, re.M)
    assert f"^^ {places[0][0]}" in "".join(block["bytes"]) and all(f"    {it}\n" in printed for it in block["bytes"])


@pytest.mark.parametrize("packet", [LINES[:-20].decode().encode("utf-16"), BARE.replace(b"RDF", b"RDG")], ids=["in UTF-16", "no RDF"])
def test_no_place_is_named_that_may_be_another(packet, called, folder, tried):
    (folder / "a.xmp").write_bytes(
        b"<x:xmpmeta xmlns:x='adobe:ns:meta/'>" * (packet[:1] == b"<") + packet + b"</x:xmpmeta>" * (packet[:1] == b"<")
    )
    block = json.loads(called("explain", "a.xmp", "--json")[1].splitlines()[0])
    assert block["cause"] in ("NotWellFormed", "NoRDF") and (block["here"], block["bytes"]) == ([], [])


def test_words_are_about_the_file(called, folder, tried):
    """An XMP file is no picture."""
    (folder / "a.xmp").write_bytes(BARE[:-1])
    printed = called("explain", "a.xmp")[1]
    assert "was tried on this file" in printed and "this picture" not in printed


LONG_LANGUAGE = BARE.replace(b"r:about=''", b"xml:lang='en-" + b"-".join([b"a" * 8] * 12) + b"'")
OVER_LIMITS = {
    "LongNamespace": BARE.replace(b"urn:d#", b"d" * 100_000),
    "LongLanguage": LONG_LANGUAGE.replace(b"d:a='Bowl'/>", b"><d:a>Bowl</d:a></r:Description>"),
    "TooLong": BARE.replace(b"<r:D", b"<!--" + b"=" * 100_000 + b"--><r:D").replace(b"d:a=", b"r:ID='a' d:a="),
    "TooDeep": BARE.replace(b"<r:D", b"<r:D>" * 100 + b"<r:D").replace(b"/></", b"/>" + b"</r:D>" * 100 + b"</"),
}


def test_the_causes_of_limits():
    """`explain` tries nothing where one of these is the cause, which say how much is too much."""
    assert {cause for cause, words in CAUSES.items() if "ore than" in words} == set(causes.OVER_LIMITS) == set(OVER_LIMITS)


@pytest.fixture
def tried(monkeypatch):
    """Once for each picture on which the steps of `mend` are tried, in place of trying them."""
    tried = []
    monkeypatch.setattr(mend, "attempt", lambda *_: tried.append(True) or (mend.Mended(mend.Remedy.NONE, {}), None))
    return tried


@pytest.mark.parametrize("cause", OVER_LIMITS)
def test_nothing_is_tried_on_a_packet_over_a_limit(cause, called, folder, tried):
    """Another program may take as long as it is allowed. Of another refused packet `explain` shows what helps."""
    (folder / "a.xmp").write_bytes(OVER_LIMITS[cause])
    status, printed, _ = called("explain", "a.xmp")
    assert (status, printed.splitlines()[0], tried) == (2, f"XMP: unreadable: {cause}", []), printed
    assert called("explain", "a.xmp", "--json")[0] == 2 and not tried
    (folder / "a.xmp").write_bytes(BARE[:-1])
    assert called("explain", "a.xmp")[0] == 2 and tried


SEGMENTS = (app1(BLOCKS["Unsorted"]), app1_xmp(OVER_LIMITS["TooDeep"]))


@pytest.mark.parametrize("options", [[], ["--json"]])
@pytest.mark.parametrize("segments", [SEGMENTS, SEGMENTS[::-1]], ids=["before", "after"])
def test_nothing_is_tried_on_another_block_of_its_picture(segments, options, called, tried):
    """The steps of `mend` are tried on whole pictures."""
    status, printed, _ = called("explain", "a.jpg", *options, a=jpeg(*segments))
    assert (status, "Unsorted" in printed, "TooDeep" in printed, tried) == (2, True, True, []), printed


NO_PACKETS = [
    b"",
    b"text",
    b"<svg/>",
    b"<RDFS/>",
    b"<a:RDF:b>",
    b"<!DOCTYPE a><svg>",
    b"<!DOCTYPE a [<!ENTITY r 'RDF'>]>&r;",
    b"<!-- a -><RDF >",
    b"\xff\xfe<\0r\0",
    *("<svg>\ufeff".encode(it) for it in ENCODINGS),
    b"<?xpackets ?><svg>",
    b"</RDF>",
    b"<>",
    b"< RDF>",
]


@pytest.mark.parametrize("octets", NO_PACKETS)
def test_what_begins_otherwise(octets):
    assert not begins_packet(octets + b" " * bool(octets))


@given(files(), st.integers(0, 300))
def test_a_beginning_that_is_cut(packet, at):
    """It isn't known or what the whole file is: its first bytes decide only when the rest can't change it."""
    assert begins_packet(packet[:at]) in (None, begins_packet(packet))


@pytest.mark.parametrize("encoding", ENCODINGS)
@given(files(), st.integers(0, 300))
def test_a_beginning_that_is_cut_in_each_encoding(encoding, packet, at):
    octets = b"".join([it.encode(encoding) for it in ("\ufeff", "<!-- \U0001f3fa -->", packet.decode())])
    assert begins_packet(octets[: at + 4]) in (None, begins_packet(packet))


@pytest.mark.parametrize("at", [12, 25, len(b"<?xpacket begin='\xef\xbb\xbf' id='W5M0MpCehiHzreSzNTczkc9d'?>\n")])
@pytest.mark.parametrize("encoding", ["utf-8", *ENCODINGS])
def test_a_packet_that_is_cut_in_its_wrapper_is_one(at, encoding, called, folder):
    """No other file begins so: it isn't left to programs that may find no picture in it, or several packets."""
    (folder / "a.xmp").write_bytes("<?xpacket begin='\ufeff' id='W5M0MpCehiHzreSzNTczkc9d'?>\n"[:at].encode(encoding))
    assert called("show", "a.xmp")[:2] == (2, "XMP: unreadable: NotWellFormed\n")


def test_only_as_much_is_read_as_is_needed(monkeypatch):
    """A file that begins as something else is looked at in its first bytes, which are in memory, and a beginning without an end up to a limit."""
    read = []
    monkeypatch.setattr(readers, "read_at", lambda stream, at, length: read.append(length) or stream[at : at + length])
    monkeypatch.setattr(readers, "size_of", len)
    for octets, expected in ((b"<svg>", [HEAD]), (b"<!DOCTYPE a><svg>", [HEAD]), (b"<!--", [HEAD, PACKET_BYTES])):
        with pytest.raises(LeftToOthers):
            readers.read_packet(octets + b" " * (2 * PACKET_BYTES))
        assert read == expected, octets
        read.clear()


def test_an_xmp_file_has_no_picture(called, folder):
    """Other bytes with the same meaning are no news: nothing of such a file isn't compared."""
    put(folder, {"p/a.xmp": BARE, "q/a.xmp": BARE + b" ", "a.jpg": SMALL_JPEG})
    for other in ("q/a.xmp", "a.jpg"):
        assert "an XMP file has no picture" in called("compare", "p/a.xmp", other)[1]
    run = ("nightly", "p", "--catalogue", "c", "--pixels")
    assert called(*run)[0] == 1 and called(*run)[:2] == (0, "")
    put(folder, {"p/a.xmp": BARE + b"  "})
    assert called(*run)[:2] == (0, "")


DOCUMENT_TYPE = b"<!DOCTYPE a>" + BARE
REMEDIES = {"DocumentType": (DOCUMENT_TYPE, True), "NotWellFormed": (BARE[:-1], False)}  # whether the one of the cause is kept


@pytest.mark.parametrize("cause", REMEDIES)
def test_a_remedy_that_was_not_tried_is_kept(cause, called, folder, monkeypatch):
    """That no step of `mend` helps says nothing of another remedy."""
    packet, is_kept = REMEDIES[cause]
    monkeypatch.setattr(mend, "attempt", lambda *_: (mend.Mended(mend.Remedy.NONE, {}), None))
    (folder / "a.xmp").write_bytes(packet)
    printed = called("explain", "a.xmp")[1]
    assert (cause in printed, causes.XMP_REMEDIES[cause] in printed) == (True, is_kept), printed
    remedy = json.loads(called("explain", "a.xmp", "--json")[1].splitlines()[0])["remedy"]
    assert (remedy == causes.XMP_REMEDIES[cause]) == is_kept


SLOW = {
    "marks": b"\xef\xbb\xbf \0",
    "instructions": b"<?a?>",
    "comments": b"<!---->",
    "an instruction": b"<?a?",
    "a comment": b"<!--->",
    "a name": b"a",
    "a prefix": b"a:",
    "elements": b"<",
    "document types": b"<!DOCTYPE[]>",
    "a document type": b"<!DOCTYPE[",
    "its end": b"] ",
}


MUCH = 1 << 21


@pytest.mark.timeout(600)
@pytest.mark.parametrize("piece", SLOW.values(), ids=SLOW)
@pytest.mark.parametrize("first", [b"", b"<", b"<?", b"<!--", b"<!DOCTYPE["])
def test_a_beginning_is_looked_at_once(first, piece):
    """What looks at each byte a fixed number of times ends at once, and what is quadratic takes hours: no counter sees inside of an expression."""
    begins_packet((first + piece * MUCH)[:MUCH])


def test_boxes():
    """A box xml of JPEG 2000 has a packet with any prefix, also a damaged one that has its wrapper alone, or other XML."""
    for xml, kinds in (
        (BARE, ["xmp"]),
        (LONG + BARE, ["xmp"]),
        (b"<?xpacket begin='' id='W5M0MpCehiHzreSzNTczkc9d'?>\n", ["xmp"]),
        (b"<gml/>", []),
    ):
        picture = exifnorm.read_bytes(jp2(box(b"xml ", xml)), name="a.jp2")
        assert ([it.kind for it in picture.blocks], bool(picture.not_read)) == (kinds, not kinds)
