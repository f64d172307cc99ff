"""XMP: which packets mean the same, compared with rdflib on random packets, and packets that mean harm."""

import hashlib
import os
import re
import subprocess
import sys
import unittest
from xml.etree import ElementTree

import by_rdflib
from exifnorm_pictures.fields import xmp_properties as properties
from exifnorm_pictures.xmp import CAUSES, reader, tree
from exifnorm_pictures.xmp.reader import rdf_of
from exifnorm_pictures.xmp.tree import Unreadable
from hypothesis import assume, given, settings
from made_files import SPACES, title, xmp
from packets import packets
from studio import TESTS_PATH, needs
from exifnorm_pictures import xmp as reading

RDF = "http://www.w3.org/1999/02/22-rdf-syntax-ns#"

LI = "<rdf:li>{}</rdf:li>"


def said(packet, extensions=None):
    return reading.digest_of_statements(reading.statements(packet, reading.Extensions(extensions or {}), set()))


def cause(packet, extensions=None):
    try:
        reading.statements(packet, reading.Extensions(extensions or {}), set())
    except reading.Unreadable as why:
        return why.cause
    return None


def array(kind, *members):
    return xmp(f"<dc:subject><rdf:{kind}>{''.join(LI.format(it) for it in members)}</rdf:{kind}></dc:subject>")


class Packets(unittest.TestCase):
    def test_what_means_nothing(self):
        base = title("one")
        bare = f"<rdf:RDF {SPACES}><rdf:Description><dc:format>one</dc:format></rdf:Description></rdf:RDF>"
        other_prefix = bare.replace("dc:", "q:").replace(":dc=", ":q=")
        for packet in (
            base + b"   \n" * 500 + b"\0",
            xmp("", "dc:format='one'"),
            xmp("<dc:format>one</dc:format>", outer="x:xmptk='XMP Core 6'"),
            xmp("\n  <!-- a comment --><dc:format>one</dc:format>\n"),
            xmp("<dc:format>one</dc:format><dc:format>one</dc:format>"),
            bare.encode(),
            other_prefix.encode(),
            bare.replace("Description>", "Description rdf:about='uuid:1'>", 1).encode(),
            bare.encode("utf-16"),
            bare.encode("utf-16-be"),
            bare.encode("utf-32"),
            b"\xef\xbb\xbf" + bare.encode(),
            b"<?xml version='1.0' encoding='UTF-8'?>" + bare.encode(),
            b"<?xml\nversion='1.0'\tencoding='utf-8' ?>\n" + bare.encode(),
            b"<?xml\tversion='1.0' encoding='UTF-16'?>".decode().encode("utf-16") + bare.encode("utf-16-le"),
        ):
            self.assertEqual(said(packet), said(base), packet)
        self.assertEqual(said(array("Bag", "a", "b", "b")), said(array("Bag", "b", "a", "b")))
        spelled = [xmp(f"<dc:format xml:lang='{it}'>one</dc:format>") for it in ("en-gb", "en-GB", "EN-GB")]  # RFC 5646, 2.1.1
        self.assertEqual(len({said(it) for it in spelled}), 1)
        self.assertEqual(said(xmp("", "dc:format='one' xml:lang='en'")), said(xmp("<dc:format xml:lang='en'>one</dc:format>")))
        one = xmp("<xmp:s><rdf:Description xmp:a='1' xmp:b='2'/></xmp:s>")
        for inside in ("<xmp:s rdf:parseType='Resource'><xmp:b>2</xmp:b><xmp:a>1</xmp:a></xmp:s>", "<xmp:s xmp:a='1' xmp:b='2'/>"):
            self.assertEqual(said(xmp(inside)), said(one))

    def test_descriptions_of_one_subject(self):
        """Several descriptions in a packet are of the same picture, named or not (XMP part 1, 7.4); with two names they are of two."""
        both = said(xmp("<dc:title>two</dc:title><dc:format>one</dc:format>"))
        none, one, other = " rdf:about=''", " rdf:about='u:1'", " rdf:about='u:2'"
        for first, second, expected in (
            (one, "", both),
            ("", one, both),
            (none, one, both),
            (one, one, both),
            ("", "", both),
            (one, other, None),
        ):
            packet = (
                f"<rdf:RDF {SPACES}><rdf:Description{first}><dc:format>one</dc:format></rdf:Description>"
                f"<rdf:Description{second}><dc:title>two</dc:title></rdf:Description></rdf:RDF>"
            ).encode()
            self.assertEqual((cause(packet), expected and said(packet)), (None, expected) if expected else ("SeveralSubjects", None))

    def test_what_means_something(self):
        packets_ = [
            title("one"),
            title("One"),
            title(" one"),
            xmp("<dc:title>one</dc:title>"),
            xmp("<xmp:format>one</xmp:format>"),
            xmp("<dc:format xml:lang='en'>one</dc:format>"),
            xmp("<dc:format rdf:resource='http://one/'/>"),
            xmp(""),
            xmp("<dc:format>one</dc:format><dc:format>two</dc:format>"),
            xmp("<dc:format>one</dc:format>", "xmp:ModifyDate='2026'"),
            array("Bag", "a", "b"),
            array("Bag", "a", "b", "b"),
            array("Seq", "a", "b"),
            array("Seq", "b", "a"),
            array("Alt", "a", "b"),
            xmp("<xmp:s xmp:a='1' xmp:b='2'/>"),
            xmp("<xmp:s xmp:a='12'/>"),
            xmp("<xmp:s xmp:a='1'/><xmp:s xmp:b='2'/>"),
            xmp("<xmp:s xmp:a='1'/><xmp:s xmp:a='1'/>"),
            xmp("<xmp:s xmp:a='1'/>"),
            xmp("<dc:title rdf:parseType='Resource'><rdf:value>one</rdf:value><xmp:q>1</xmp:q></dc:title>"),
            xmp("<dc:title rdf:parseType='Resource'><rdf:value>one</rdf:value><xmp:q>2</xmp:q></dc:title>"),
        ]
        self.assertEqual(len({said(it) for it in packets_}), len(packets_))

    def test_forms_that_no_writer_uses_are_not_read(self):
        """On every machine alike, by one cause."""
        for inside in (
            "<xmp:d><rdf:Description rdf:about='http://x/' xmp:a='7'/></xmp:d>",
            "<xmp:d><rdf:Seq rdf:about=''/></xmp:d>",
            "<xmp:d><rdf:Description about='' xmp:a='7'/></xmp:d>",
            "<xmp:d rdf:nodeID='n'/>",
            "<xmp:d rdf:parseType='Literal'><a/></xmp:d>",
            "</rdf:Description><dc:Image rdf:about=''/><rdf:Description>",
            "<xmp:d rdf:datatype='http://t/'>1</xmp:d>",
            "text",
            "<xmp:d rdf:resource='relative'/>",
            "<xmp:d><rdf:Description/>text</xmp:d>",
            *(
                f"<xmp:d rdf:resource='{it}'/>"
                for it in ("http://x/ y", "http://x/&lt;y&gt;", "http://x/\\", "http://x/^", "1:x", "-a:x", ":x", "a_b:x", "")
            ),
            *(f"<xmp:d xml:lang='{it}'>1</xmp:d>" for it in ("!", "en us", "en-&#x202e;", "d\u00e9")),
            *(
                f"<xmp:d rdf:{it} xmp:a='1'/>"
                for it in ("ID='i'", "nodeID='n'", "type='http://t/'", "resource='http://x/'", "parseType='Resource'")
            ),
            "<rdf:_1>1</rdf:_1>",
            "<q:d xmlns:q='http://x/ y'>1</q:d>",
            "<q:d xmlns:q='http://x/^'>1</q:d>",
            "<d>1</d>",
            "<dc:format>one</dc:format>text",
            "<xmp:d><rdf:Bag><rdf:li>1</rdf:li>text</rdf:Bag></xmp:d>",
        ):
            self.assertEqual(cause(xmp(inside)), "RareForm", inside)
        for attribute, inside in (
            ("xml:base='http://b/'", "<rdf:Description/>"),
            ("", "text<rdf:Description/>"),
            ("", "<rdf:Description/>text"),
            ("", "<dc:a/>"),
        ):
            self.assertEqual(cause(f"<rdf:RDF {SPACES} {attribute}>{inside}</rdf:RDF>".encode()), "RareForm", (attribute, inside))

    def test_usual_forms_are_read_by_the_reader_in_python(self):
        """URIs (RFC 3986, 3 and 4.3) and languages (RFC 5646, 2.1) of any kind, in the nodes that writers use. Some write a language as other
        programs name a locale."""

        def value(inside):
            (found,) = reader.statements(xmp(inside))
            return found.value

        for uri in ("http://x/", "HTTP://x/%20?a=b#c", "urn:uuid:1-2", "a1+.-b:", "mailto:a@b"):
            self.assertEqual(value(f"<xmp:d rdf:resource='{uri}'/>"), tree.Uri(uri))
        for language in ("", "x-default", "i-klingon", "a", "de", "DE-de-1996", "zh-Hant", "abcdefgh-12345678", "en_US", "123"):
            self.assertEqual(value(f"<xmp:d xml:lang='{language}'>1</xmp:d>"), tree.Literal("1", language.lower()))
        for kind in ("Bag", "Seq", "Alt"):
            expected = [tree.Statement(tree.TYPE, tree.Uri(tree.RDF + kind)), tree.Statement(tree.RDF + "_1", tree.Literal("1"))]
            self.assertEqual(value(f"<xmp:d>\n <rdf:{kind}> <rdf:li>1</rdf:li>\t</rdf:{kind}>\n</xmp:d>"), tree.Node(tuple(expected)))
        (typed,) = value("<xmp:d><rdf:Description rdf:type='http://t/'/></xmp:d>").statements
        self.assertEqual(typed, tree.Statement(tree.TYPE, tree.Uri("http://t/")))  # RDF/XML, 7.2.11: the URI of a type
        inner = "<rdf:Description xml:lang='de'><xmp:a xml:lang=''>1</xmp:a><xmp:b>2</xmp:b></rdf:Description>"
        (one, two) = value(f"<xmp:d xml:lang='en'>{inner}</xmp:d>").statements
        self.assertEqual((one.value, two.value), (tree.Literal("1"), tree.Literal("2", "de")))

    def test_how_long_a_packet_may_be(self):
        """By the text of the cause, bytes and tags up to these numbers are read."""
        with_tags = [xmp(f"<dc:format><![CDATA[{'<' * (400_000 - title('one').count(b'<') - 1 + more)}]]></dc:format>") for more in (0, 1)]
        self.assertEqual([it.count(b"<") for it in with_tags], [400_000, 400_001])
        with_bytes = [title("one").ljust((16 << 20) + more) for more in (0, 1)]
        self.assertEqual([cause(it) for it in (*with_tags, *with_bytes)], [None, "TooLong"] * 2)

    def test_how_deep_elements_may_be_nested(self):
        """Arrays in arrays: 100 elements that are nested in one another are read, 102 are not."""

        def nested(elements):
            arrays = (elements - 4) // 2  # four elements are around the first array
            return xmp("<dc:subject>" + "<rdf:Bag><rdf:li>" * arrays + "a" + "</rdf:li></rdf:Bag>" * arrays + "</dc:subject>")

        self.assertEqual([cause(nested(it)) for it in (6, 98, 100)], [None, None, None])
        self.assertEqual([cause(nested(it)) for it in (102, 104, 400)], ["TooDeep"] * 3)

    def test_digests_that_catalogues_keep(self):
        """Each version has to find the same digest, so that a catalogue of an earlier one stays right."""

        def digest(*lines):
            return hashlib.sha256("".join(f"{len(it)}:{it}" for it in sorted(lines)).encode()).hexdigest()

        def line(name, value):
            return f"{len(name)}:{name}{value}"

        rdf, dc = "http://www.w3.org/1999/02/22-rdf-syntax-ns#", "http://purl.org/dc/elements/1.1/"
        bag = digest(line(f"{rdf}type", f"<{rdf}Bag"), line("member", '"0:0:a'), line("member", '"2:de0:b'))
        packet = xmp(
            "<dc:format>one</dc:format><dc:subject><rdf:Bag><rdf:li>a</rdf:li><rdf:li xml:lang='de'>b</rdf:li></rdf:Bag></dc:subject>"
        )
        self.assertEqual(said(packet), digest(line(f"{dc}format", '"0:0:one'), line(f"{dc}subject", f"_{bag}")))

    def test_extended(self):
        more = xmp("<dc:title>two</dc:title>")
        name = hashlib.md5(more).hexdigest().upper()
        asking = xmp("<dc:format>one</dc:format>", f"note:HasExtendedXMP='{name}'")
        both = xmp("<dc:title>two</dc:title><dc:format>one</dc:format>")
        self.assertEqual(said(asking, {name: more}), said(both))
        self.assertEqual(
            said(asking.replace(name.encode(), name.lower().encode()), {name: more}), said(both)
        )  # RFC 4648, 8: in letters of either kind
        self.assertEqual(cause(asking), "ExtensionMissing")
        self.assertEqual(cause(asking, {name: more + b" "}), "ExtensionDamaged")


class Harm(unittest.TestCase):
    """Packets that would cost memory, time or files are unreadable; none of them is expanded."""

    def test_causes(self):
        entities = "<!DOCTYPE x [<!ENTITY a 'aaaaaaaaaa'>" + "".join(f"<!ENTITY b{it} '&a;&a;&a;'>" for it in range(9)) + "]>"
        file_ = "<!DOCTYPE x [<!ENTITY a SYSTEM 'file:///etc/hostname'>]>"
        bare = f"<rdf:RDF {SPACES}><rdf:Description><dc:format>&a;</dc:format></rdf:Description></rdf:RDF>"
        deep = "<xmp:a rdf:parseType='Resource'>" * 200 + "</xmp:a>" * 200
        expected = {
            entities + bare: "DocumentType",
            file_ + bare: "DocumentType",
            bare: "NotWellFormed",
            "<x:y": "NotWellFormed",
            "": "NotWellFormed",
            "<a/>": "NoRDF",
            f"<x:xmpmeta xmlns:x='adobe:ns:meta/'><rdf:RDF {SPACES}/><rdf:RDF {SPACES}/></x:xmpmeta>": "NoRDF",
            xmp(deep).decode(): "TooDeep",
            "<a>" * 500_001: "TooLong",
            " " * (16 << 20) + "<a/>": "TooLong",
            "<?xml version='1.0' encoding='cp037'?>" + bare: "NotText",
            "<?xml\nversion='1.0' encoding='cp037'?>" + bare: "NotText",
            f"<rdf:RDF {SPACES}><rdf:Description rdf:about='a:1'/><rdf:Description rdf:about='a:2'/></rdf:RDF>": "SeveralSubjects",
        }
        for packet, why in expected.items():
            self.assertEqual(cause(packet.encode()), why, packet[:100])
        self.assertEqual(cause(b"<a>\xff</a>"), "NotText")

    def test_many_levels_do_not_exhaust_the_stack(self):
        self.assertEqual(cause(b"<a>" * 399_999), "NotWellFormed")
        self.assertEqual(cause(b"<a>" * 200_000 + b"</a>" * 200_000), "TooDeep")

    @settings(max_examples=300)
    @given(packets())
    def test_damaged_packets_have_a_result(self, packet):
        self.assertIn(cause(packet), (None, *CAUSES))

    def test_nothing_is_fetched(self):
        """The readers open no file and no connection, for any packet."""
        call = (
            "import sys; opened = []; sys.addaudithook(lambda name, it: opened.append(name) if name in"
            " ('socket.connect', 'socket.getaddrinfo', 'urllib.Request') or name == 'open' and 'etc' in str(it[0]) else None);"
            "from test_xmp import cause; from made_files import xmp, SPACES;"
            "cause(xmp(\"<dc:format rdf:resource='http://localhost:1/'/><dc:x rdf:datatype='http://localhost:1/'>1</dc:x>\"));"
            "cause(b\"<!DOCTYPE x SYSTEM 'http://localhost:1/'><x/>\"); cause(b\"<!DOCTYPE x [<!ENTITY a SYSTEM '/etc/hostname'>]><x>&a;</x>\");"
            "print(opened)"
        )
        done = subprocess.run([sys.executable, "-c", call], capture_output=True, env={**os.environ, "PYTHONPATH": TESTS_PATH})
        self.assertEqual((done.stdout, done.stderr), (b"[]\n", b""))


def canonical(root):
    """rdflib's own canonical form. All subjects at the top are the picture, and each member of a Bag hangs on a node without number."""
    from rdflib import BNode, Graph, URIRef
    from rdflib.compare import to_canonical_graph

    graph = Graph().parse(data=ElementTree.tostring(root), format="xml", publicID="this:base")
    inner = {it for it in graph.objects() if isinstance(it, BNode)}
    bags = set(graph.subjects(URIRef(RDF + "type"), URIRef(RDF + "Bag")))
    one = Graph()
    for subject, predicate, value in graph:
        subject = subject if subject in inner else URIRef("this:file")
        if subject in bags and re.fullmatch(re.escape(RDF) + "_[0-9]+", predicate):
            node = BNode()
            one.add((subject, URIRef("this:member"), node))
            subject, predicate = node, URIRef("this:is")
        one.add((subject, predicate, value))
    return sorted(map(repr, to_canonical_graph(one)))


@needs("rdflib")
class BesideRdflib(unittest.TestCase):
    """The reader in Python finds what rdflib finds, and two packets mean the same if rdflib's canonical graphs are equal."""

    def read(self, call, packet):
        """A result: the root, the digest of the statements or the cause of failure, and the fields."""
        try:
            root = rdf_of(packet)
            found = call(root)
            reader.check_repeated(found)  # of a property that is repeated with other values rdflib doesn't keep the order
            return root, tree.digest_of_statements(found), properties.fields_of_statements(found)
        except Unreadable as why:
            return None, why.cause, []

    @settings(max_examples=1000)
    @given(packets())
    def test_statements(self, packet):
        own = self.read(reader.of_root, packet)
        if own[1] != "RareForm":
            self.assertEqual(own[1:], self.read(by_rdflib.statements, packet)[1:])

    def test_statements_about_the_picture_in_a_value(self):
        """As IDimager writes the steps of a history. With one step all are read, with two none: both say when the picture was changed."""
        step = "<rdf:li xml:lang='en'><rdf:Description rdf:about='' xmp:when='{}'><xmp:by>a</xmp:by></rdf:Description></rdf:li>"
        for steps, due in (("1", None), ("11", None), ("12", "Repeated")):
            packet = xmp(f"<xmp:History><rdf:Seq>{''.join(map(step.format, steps))}</rdf:Seq></xmp:History>", "xmp:Rating='1'")
            own, other = (self.read(call, packet) for call in (reader.of_root, by_rdflib.statements))
            self.assertEqual((own[1:], cause(packet)), (other[1:], due))

    @settings(max_examples=60)
    @given(packets(), packets())
    def test_meanings(self, one, other):
        first, second = (self.read(by_rdflib.statements, it) for it in (one, other))
        assume(first[2] and second[2])
        self.assertEqual(first[1] == second[1], canonical(first[0]) == canonical(second[0]))

    def test_packets_of_each_sort(self):
        """There are packets that are read, that aren't, and that are damaged; or else the tests above show nothing."""
        seen = set()

        @given(packets())
        def look(packet):
            own = self.read(reader.of_root, packet)
            seen.add("read" if own[2] else own[1])

        look()
        self.assertLessEqual({"read", "RareForm", "NotWellFormed"}, seen)
