"""exifnorm_fields.h and exifnorm_names.h: the fields of normal forms in C, against the independent reader, the package and ExifTool."""

import json
import math
import re
import struct
import subprocess

import names
import pytest

import exifnorm
from commands import TOP, run, text_of
from compiling import C99, HEADERS, HERE, STRICT, need
from exifnorm._causes import CAUSE_WORDS
from exifnorm._jpeg import CAUSES
from exifnorm_pictures.fields.names import TABLES, group_of, plain_name
from judged import NAMES, all_judged
from made_files import app1_xmp, xmp
from small_packets import small_packets

SAMPLES = sorted(TOP.glob("samples/*/*/*.jpg"))
SANITIZED = ["-g", "-fsanitize=address,undefined", "-fno-sanitize-recover=all"]
COMPILERS = [["cc", "-std=c99"], ["clang", "-std=c99"], ["c++", "-std=c++11", "-x", "c++"], ["clang++", "-std=c++11", "-x", "c++"]]
PAGE = text_of("docs", "exifnorm-fields.3")


def write_forms(path, forms):
    path.write_bytes(b"".join(struct.pack("<I", len(form)) + form for form in forms))
    return path


@pytest.fixture(scope="module")
def program(session_folder):
    run(*C99, HERE / "fields.c", "-o", session_folder / "fields")
    return session_folder / "fields"


@pytest.fixture(scope="module")
def sanitized(session_folder):
    run(*C99, *SANITIZED, HERE / "fields.c", "-o", session_folder / "sanitized fields")
    return session_folder / "sanitized fields"


def examples_of_the_page():
    text = PAGE.partition(".SH EXAMPLES\n")[2].partition(".SH ")[0].replace("\\-", "-").replace("\\e", "\\")
    return re.findall(r"(?s)\.nf\n(.*?)\.fi\n", text)


@pytest.fixture(scope="module")
def examples(session_folder, archive):
    """The programs of exifnorm-fields(3)."""
    programs = []
    for number, text in enumerate(examples_of_the_page()):
        program = session_folder / f"example {number}"
        program.with_suffix(".c").write_text(text, encoding="ascii")
        run(*C99, program.with_suffix(".c"), archive, "-o", program)
        programs.append(program)
    return programs


@pytest.fixture
def example(examples):
    """The program that prints texts of Exif and IPTC."""
    return examples[0]


# ---- the fields


SIZES = {"SHORT": 2, "LONG": 4, "WHOLE": 4, "RATIONAL": 8, "SSHORT": 2, "SLONG": 4, "SRATIONAL": 8, "FLOAT": 4, "DOUBLE": 8}


def lines_of_listing(listing):
    """The lines that fields.c prints for the fields of a listing (docs/FORMAT.md, "Listing")."""
    directory = "iptc"
    for line in listing.splitlines():
        if re.fullmatch(r"\[\w+\]", line):
            directory = line[1:-1]
        elif re.match(r"\w+ \w+ \d+:|\d+:\d+ \d+:|jpeg|strip ", line):
            head, _, elements = line.partition(": ") if ": " in line else (line[:-1], "", "")
            *words, count = head.split()
            size = int(count) * SIZES.get(words[-1], 1)
            where = "iptc" if ":" in words[0] else directory
            yield f"{where} {' '.join(words)} {count}:{' ' * bool(elements)}{elements} ({size})".replace(" WHOLE ", " LONG ")


@pytest.mark.parametrize("are_large", [False, True], ids=["small", "large"])
def test_fields_are_those_of_the_independent_reader(program, folder, are_large):
    blocks = [it for it in all_judged(are_large) if it.form is not None]
    printed = run(program, "print", write_forms(folder / "forms", [it.form for it in blocks]))
    expected = [[*lines_of_listing(it.listing), "whole"] for it in blocks]
    assert printed.splitlines() == [line for lines in expected for line in lines]
    assert sum(map(len, expected)) > 2 * len(blocks), "most blocks have fields"


def lines_of_field(field):
    """The lines that fields.c prints for a field of the package; strips are a field each in C."""
    if field.type == "STRIPS":
        return [f"thumb strip {len(it)}:{' ' * bool(it)}{it.hex()} ({len(it)})" for it in field.values]
    if field.type in ("RATIONAL", "SRATIONAL"):
        words = [f"{it.numerator}/{it.denominator}" for it in field.values]
    elif isinstance(field.values, bytes):
        words = [field.values.hex()] * bool(field.values)
    else:
        words = [f"{it:0{2 * SIZES[field.type]}x}" if field.type in ("FLOAT", "DOUBLE") else str(it) for it in field.values]
    kind = {"DATASET": f"{field.tag // 256}:{field.tag % 256}", "JPEG": "jpeg"}.get(field.type, f"{field.tag:04x} {field.type}")
    size = len(field.values) * SIZES.get(field.type, 1)
    return [" ".join([f"{field.directory} {kind} {len(field.values)}:", *words, f"({size})"]).replace(" WHOLE ", " LONG ")]


# ---- bytes that are no form


ENTRY = ">HHLL"


def form_of(*entries, behind=b"", following=0):
    """A form with a main directory of these entries."""
    table = struct.pack(">H", len(entries)) + b"".join(struct.pack(ENTRY, *it) for it in entries) + struct.pack(">L", following)
    return b"MM\0*" + struct.pack(">L", 8) + table + behind


# where the first placed value begins behind a table of one entry, or of two
ONE, TWO = 26, 38
NO_FORMS = {
    "no byte": (b"", 0),
    "other bytes": (b"II*\0\x08\0\0\0", 0),
    "a directory without entries": (form_of(), 0),
    "more entries than bytes": (form_of((0x10F, 2, 1, 0))[:9] + b"\2" + form_of((0x10F, 2, 1, 0))[10:], 0),
    "an unknown type": (form_of((0x10E, 1, 1, 0), (0x10F, 13, 1, 0)), 1),
    "a number of a type that only fields of this header have": (form_of((0x10F, 256, 1, 0)), 0),
    "descending tags": (form_of((0x10F, 2, 1, 0), (0x10E, 2, 1, 0)), 1),
    "a tag twice": (form_of((0x10F, 2, 1, 0), (0x10F, 2, 1, 0)), 1),
    "a value behind the end": (form_of((0x10F, 2, 8, ONE), behind=b"abc\0"), 0),
    "a count of which the size has more than 32 bits": (form_of((0x10F, 5, 0x20000001, ONE), behind=bytes(8)), 0),
    "a value before the others": (form_of((0x10F, 2, 5, 8), behind=bytes(6)), 0),
    "two values in the same bytes": (form_of((0x10E, 2, 6, TWO), (0x10F, 2, 6, TWO), behind=bytes(6)), 1),
    "a value without its padding": (form_of((0x10F, 2, 5, ONE), behind=bytes(5)), 0),
    "a pointer of another type": (form_of((0x8769, 1, 1, ONE), behind=form_of((0x9003, 2, 1, 0))[8:]), 0),
    "a pointer of another count": (form_of((0x8769, 4, 0, ONE), behind=form_of((0x9003, 2, 1, 0))[8:]), 0),
    "a pointer to itself": (form_of((0x8769, 4, 1, 8)), 0),
    "a pointer to nothing": (form_of((0x8825, 4, 1, 0)), 0),
    "a thumbnail directory that is the main one": (form_of((0x10F, 2, 1, 0), following=8), 1),
    "a directory after that of the thumbnail": (form_of((0x10F, 2, 1, 0), following=ONE, behind=form_of((1, 1, 1, 0), following=8)[8:]), 1),
    "a JPEG without a length": (form_of((0x10F, 2, 1, 0), following=ONE, behind=form_of((0x201, 4, 1, 44))[8:]), 1),
    "a JPEG without an offset": (form_of((0x10F, 2, 1, 0), following=ONE, behind=form_of((0x202, 4, 1, 9))[8:]), 1),
    "a JPEG behind the end": (form_of((0x10F, 2, 1, 0), following=ONE, behind=form_of((0x201, 4, 1, 56), (0x202, 4, 1, 9))[8:]), 1),
    "strips without lengths": (form_of((0x10F, 2, 1, 0), following=ONE, behind=form_of((0x111, 4, 1, 44))[8:]), 1),
    "fewer lengths than strips": (
        form_of(
            (0x10F, 2, 1, 0), following=ONE, behind=form_of((0x111, 4, 2, 56), (0x117, 4, 1, 0), behind=struct.pack(">2L", 64, 64))[8:]
        ),
        1,
    ),
    "lists of strips of another type": (
        form_of(
            (0x10F, 2, 1, 0),
            following=ONE,
            behind=form_of((0x111, 3, 3, 56), (0x117, 3, 3, 62), behind=struct.pack(">LHLH", 68, 0, 0, 0))[8:],
        ),
        1,
    ),
    "a DataSet behind the end": (bytes.fromhex("1C0219 0001 61 1C0219 0002 61"), 1),
    "a DataSet whose length has three octets": (bytes.fromhex("1C0219 8003 000001 61"), 0),
    "something between DataSets": (bytes.fromhex("1C0219 0001 61 00 1C0219 0001 61"), 1),
}


DATASET = b"\x1c\2\x19\0\1a"
PLAIN = [(7, DATASET + b"\x1c\2"), (7, b"text here!"), (7, b"\x1c\2\x19\0\2a"), (7, b""), (2, DATASET), (1, DATASET)]


@pytest.mark.parametrize("number, octets", [(7, DATASET), *PLAIN], ids=repr)
def test_a_value_that_is_no_record_is_a_field(sanitized, folder, number, octets):
    """0x83BB is a field with any other bytes (docs/FORMAT.md, "Caption record"), also if they begin with a DataSet. A normal form has a
    record as UNDEFINED alone."""
    form = form_of((0x83BB, number, len(octets), ONE), behind=octets + b"\0" * (len(octets) % 2))
    (line, end) = run(sanitized, "print", write_forms(folder / "form", [form])).splitlines()
    expected = (
        "iptc 2:25 1: 61 (1)" if (number, octets) == (7, DATASET) else rf"main 83bb \w+ {len(octets)}:( {octets.hex()})? \({len(octets)}\)"
    )
    assert line == expected or re.fullmatch(expected, line)
    assert end == "whole"


# ---- values


VALUES = {
    ("BYTE", 1): ("B", [0, 1, 255]),
    ("SBYTE", 6): ("b", [0, -1, -128, 127]),
    ("SHORT", 3): ("H", [0, 1, 0x8000, 0xFFFF]),
    ("SSHORT", 8): ("h", [0, -1, -0x8000, 0x7FFF]),
    ("LONG", 4): ("L", [0, 1, 0x80000000, 0xFFFFFFFF]),
    ("SLONG", 9): ("l", [0, -1, -0x80000000, 0x7FFFFFFF]),
    ("FLOAT", 11): ("f", [0.0, 1.5, -0.1, math.inf]),
    ("DOUBLE", 12): ("d", [0.0, 1.5, -0.1, -math.inf]),
}
FRACTIONS = {("RATIONAL", 5): ("2L", [(46, 1), (1, 3), (0xFFFFFFFF, 0xFFFFFFFE), (0, 0), (5, 0)])}
FRACTIONS[("SRATIONAL", 10)] = ("2l", [(-46, 1), (1, -3), (-0x80000000, 0x7FFFFFFF), (-1, 0)])


def numbers_of(program, path, number, octets, count):
    inline = int.from_bytes(octets.ljust(4, b"\0"), "big")
    form = form_of((0x9999, number, count, ONE if len(octets) > 4 else inline), behind=octets if len(octets) > 4 else b"")
    lines = [it for it in run(program, "numbers", write_forms(path, [form])).splitlines() if not it.startswith("text")]
    assert lines[count].split()[2:] == ["-", "-", "-"], "an element behind the last one"
    return [tuple(it.split()[2:]) for it in lines[:count]]


@pytest.mark.parametrize("name, number", VALUES)
def test_numbers(sanitized, folder, name, number):
    letter, values = VALUES[name, number]
    packed = [struct.pack(f">{letter}", it) for it in values]
    found = numbers_of(sanitized, folder / "form", number, b"".join(packed), len(values))
    exact = [struct.unpack(f">{letter}", it)[0] for it in packed]
    assert [(float(number), fraction) for _, fraction, number in found] == [(it, "-") for it in exact]
    assert [integer for integer, _, _ in found] == ["-" if letter in "fd" else str(it) for it in exact]


@pytest.mark.parametrize("name, number", FRACTIONS)
def test_fractions(sanitized, folder, name, number):
    letters, values = FRACTIONS[name, number]
    found = numbers_of(sanitized, folder / "form", number, b"".join(struct.pack(f">{letters}", *it) for it in values), len(values))
    assert [it[:2] for it in found] == [("-", f"{it[0]}/{it[1]}") for it in values]
    assert [it[2] == "-" for it in found] == [it[1] == 0 for it in values], "there is no number where the denominator is 0"
    assert [float(it[2]) for it in found if it[2] != "-"] == [it[0] / it[1] for it in values if it[1]]


@pytest.mark.parametrize("number", [2, 7, 129])
def test_other_types_have_no_numbers(sanitized, folder, number):
    assert numbers_of(sanitized, folder / "form", number, b"1\x002", 3) == [("-", "-", "-")] * 3


def text_form(number, octets):
    where = int.from_bytes(octets.ljust(4, b"\0"), "big") if len(octets) <= 4 else ONE
    return form_of((0x10E, number, len(octets), where), behind=octets + b"\0" * (len(octets) % 2) if len(octets) > 4 else b"")


TEXTS = [(text_form(2, octets), size) for octets, size in ((b"Vase\0", 4), (b"one\0two\0", 3), (b"no end", 6), (b"", 0), (b"\0\0", 0))]
TEXTS += [(text_form(129, b"Z\xc3\xbcrich\0"), 7), (text_form(7, b"text"), 0)]
# those of DataSets have no zeros at the end
TEXTS += [(b"\x1c\2\x19" + struct.pack(">H", len(it)) + it, size) for it, size in ((b"a\0b", 3), (b"a\0\0", 1), (b"\0", 0), (b"", 0))]


@pytest.mark.parametrize("form, size", TEXTS)
def test_texts_end_before_the_first_zero(sanitized, folder, form, size):
    assert f"text {size}" in run(sanitized, "numbers", write_forms(folder / "form", [form])).splitlines()


# ---- properties of XMP


KINDS = {1: exifnorm.XmpText, 2: exifnorm.XmpResource, 3: exifnorm.XmpStructure, 4: "Bag", 5: "Seq", 6: "Alt"}
HEAD = '<x:xmpmeta xmlns:x="adobe:ns:meta/"><rdf:RDF xmlns:rdf="http://www.w3.org/1999/02/22-rdf-syntax-ns#"><rdf:Description rdf:about="">'
TAIL = "</rdf:Description></rdf:RDF></x:xmpmeta>"


def rows_of(value, depth=0, namespace="", name=""):
    """A row for a value of the package, and for each one inside it, as the header finds them."""
    kind = getattr(value, "kind", type(value))
    text = getattr(value, "text", getattr(value, "uri", ""))
    yield depth, kind, namespace, name, getattr(value, "language", ""), text
    for member in getattr(value, "members", ()):
        yield from rows_of(member, depth + 1)
    for inner in getattr(value, "properties", ()):
        yield from rows_of(inner.value, depth + 1, inner.namespace, inner.name)


def rows_of_line(line):
    depth, kind, *words = line.split(" ")[:6]
    return (int(depth), KINDS[int(kind)], *(bytes.fromhex(it).decode() for it in words))


def accepted_packets():
    for packet in [*small_packets(), *packets_of_samples()]:
        try:
            yield packet, exifnorm.xmp_normal(packet)
        except exifnorm.XmpRefused:
            continue


def packets_of_samples():
    whole = re.compile(rb"<x:xmpmeta\b.*?</x:xmpmeta>", re.S)
    return [it for path in sorted(TOP.glob("samples/*/*/*")) for it in whole.findall(path.read_bytes())]


def test_properties_are_those_of_the_package(way, sanitized, folder):
    accepted = list(accepted_packets())
    assert len(accepted) > 20
    printed = run(sanitized, "xmp", write_forms(folder / "forms", [form for _, form in accepted])).splitlines()
    expected = []
    for packet, _ in accepted:
        for it in exifnorm.xmp_properties(packet):
            expected += rows_of(it.value, 0, it.namespace, it.name)
        expected.append("whole")
    assert [it if it in ("whole", "cut") else rows_of_line(it) for it in printed] == expected
    assert {it[1] for it in expected if it != "whole"} == set(KINDS.values()), "each kind is there"


def forms_of(command):
    return [it.form for it in all_judged(False) if it.form] if command == "print" else [form for _, form in accepted_packets()]


@pytest.mark.parametrize("command, of, count", [("change", "print", 40), ("alter", "xmp", 400)])
def test_no_byte_outside_is_read(way, sanitized, folder, command, of, count):
    """Of forms that are changed and cut: each value is in the bytes, all together have no more bytes, and the walk ends."""
    shown = run(sanitized, command, write_forms(folder / "forms", forms_of(of)), count)
    assert re.fullmatch(r"[1-9]\d{3,} fields\n", shown)


@pytest.mark.parametrize("command, behind", [("print", b"\0"), ("xmp", b" ")])
def test_beginnings_of_forms_are_not_whole(way, sanitized, folder, command, behind):
    """Their fields are the first ones of the form."""
    form = max((it for it in forms_of(command) if command == "xmp" or it[:1] == b"M" and len(it) < 900), key=len)
    forms = [form, *(form[:length] for length in range(len(form))), form + behind]
    printed = run(sanitized, command, write_forms(folder / "forms", forms))
    whole, *rest = [it.splitlines() for it in re.findall(r"(?:[^wc].*\n)*(?:whole|cut)\n", printed)]
    assert len(rest) == len(forms) - 1 and whole[-1] == "whole" and len(whole) > 5
    for lines in rest:
        assert lines == [*whole[: len(lines) - 1], "cut"]


def item(name, rest):
    """A property with what follows its namespace."""
    return f'<p:{name} xmlns:p="http://d/"{rest}</p:{name}>'


A, BAG, STRUCTURE = item("a", ">1"), "><rdf:Bag>{}</rdf:Bag>", ' rdf:parseType="Resource">'
DEEP = f'<p:b xmlns:p="http://d/"{STRUCTURE}'
# what is between the head and the tail of a form, and how many properties are read before the fault
NO_PROPERTIES = {
    "something before them": (f" {A}", 0),
    "something between them": (f"{A} {A}", 1),
    "another prefix": (f'{A}<d:a xmlns:d="http://d/">1</d:a>', 1),
    "no name": (item("", ">1"), 0),
    "no namespace": (f"{A}<p:b>1</p:b>", 1),
    "the beginning of a tag in a namespace": ('<p:a xmlns:p="http://d/<b">1</p:a>', 0),
    "the end of a tag in a namespace": ('<p:a xmlns:p="http://d/b>">1</p:a>', 0),
    "a namespace without an end": ('<p:a xmlns:p="http://d/>1</p:a>', 0),
    "another end tag": (item("b", ">1").replace("</p:b", "</p:c"), 0),
    "the beginning of an end tag": (item("ab", ">1").replace("</p:ab", "</p:a"), 0),
    "a longer end tag": (item("a", ">1").replace("</p:a", "</p:ab"), 0),
    "an end tag alone": (f"{A}</p:a>", 1),
    "another end tag of a structure": (f"{DEEP}{A}</p:a>", 2),
    "a structure without an end": (f"{DEEP}{A}", 2),
    "an end tag before another property": (f"{DEEP}</{A}</p:b>", 1),
    "another container": (item("b", "><rdf:List></rdf:List>"), 0),
    "another end of a container": (item("b", "><rdf:Bag></rdf:Seq>"), 1),
    "a container without an end": (item("b", "><rdf:Bag><rdf:li>1</rdf:li>"), 2),
    "something after a container": (item("b", BAG.format("") + " "), 1),
    "a property in a container": (item("b", BAG.format(A)), 1),
    "a member that is in no container": (f"{A}<rdf:li>1</rdf:li>", 1),
    "a Bag with a language": (item("b", ' xml:lang="de"' + BAG.format("")), 0),
    "a Seq with a language": (item("b", ' xml:lang="de"' + BAG.format("").replace("Bag", "Seq")), 0),
    "an Alt with a language": (item("b", ' xml:lang="de"' + BAG.format("").replace("Bag", "Alt")), 0),
    "a property in a text": (item("b", f">1{A}"), 0),
    "an octet in a text that a form has as a reference": (item("b", ">1>2"), 0),
    "a resource with an end tag": (item("b", ' rdf:resource="x:y"/>'), 1),
    "a hundred structures": (DEEP * 100 + "</p:b>" * 100, 99),
}
NO_XMP_FORMS = {
    **{name: (HEAD + inside + TAIL, count) for name, (inside, count) in NO_PROPERTIES.items()},
    "no byte": ("", 0),
    "another packet": (f"<x:xmpmeta xmlns:x='adobe:ns:meta/'>{HEAD[36:]}{TAIL}", 0),
    "something after the end": (f"{HEAD}{A}{TAIL}\n", 1),
}


ALL_NO_FORMS = {name: ("print", *row) for name, row in NO_FORMS.items()}
ALL_NO_FORMS.update({f"{name} of XMP": ("xmp", form.encode(), count) for name, (form, count) in NO_XMP_FORMS.items()})


@pytest.mark.parametrize("command, form, count", ALL_NO_FORMS.values(), ids=ALL_NO_FORMS)
def test_what_is_no_form_has_the_fields_before_the_fault(sanitized, folder, command, form, count):
    *lines, end = run(sanitized, command, write_forms(folder / "form", [form])).splitlines()
    assert (len(lines), end) == (count, "cut")


def test_the_deepest_structures(way, sanitized, folder):
    """As many as a form may have inside one another."""
    deep = b"<d:a r:parseType='Resource'>" * 95 + b"<d:b d:c='1'/>" + b"</d:a>" * 95
    packet = small_packets()[0].replace(b"<d:a>Vase</d:a>", deep)
    form = exifnorm.xmp_normal(packet)
    *lines, end = run(sanitized, "xmp", write_forms(folder / "form", [form])).splitlines()
    assert [rows_of_line(it)[0] for it in lines] == [*range(97)] and end == "whole"
    (found,) = exifnorm.xmp_properties(packet)
    assert [it[0] for it in rows_of(found.value)] == [*range(97)]


IS = """
#include <exifnorm_fields.h>
static int is(const char *space, const char *name, const char *other_space, const char *other) {
    struct exifnorm_xmp_property property;
    memset(&property, 0, sizeof property);
    property.space.start = (const unsigned char *)space;
    property.space.size = strlen(space);
    property.name.start = (const unsigned char *)name;
    property.name.size = strlen(name);
    return exifnorm_xmp_is(&property, other_space, other);
}
int main(void) {
    return !is("http://d/", "ab", "http://d/", "ab") || !is("http://d/", "xab", "http://d/x", "ab") || is("http://d/", "ab", "http://d/", "a") ||
           is("http://d/", "ab", "http://d/", "abc") || is("http://d/", "ab", "http://e/", "ab") || is("http://d/", "ab", "http://d/", "aB") ||
           is("http://d/", "ab", "", "") || is("", "", "", "") || !is("u:\\xc3", "a", "u:\\xc3", "a");
}
"""


CUT = """
#include <exifnorm_fields.h>
int main(void) {
    static const unsigned char whole[] = "a&amp;&lt;&gt;&#13;&#1;";
    struct exifnorm_xmp_property property;
    unsigned char text[sizeof whole];
    memset(&property, 0, sizeof property);
    property.value.start = whole;
    property.value.size = 5;
    if (exifnorm_xmp_text(&property, text, sizeof text) != 5 || memcmp(text, "a&amp", 5) != 0)
        return 1;
    property.value.size = sizeof whole - 1;
    return exifnorm_xmp_text(&property, text, sizeof text) != 9 || memcmp(text, "a&<>\\r&#1;", 9) != 0;
}
"""


EXAMPLE = """
#include <exifnorm_fields.h>
static size_t printed;
static void print(const char *format, int size, const char *text) {
    (void)format, (void)text;
    printed = (size_t)size;
}
#define printf print
int main(void) {
    static const unsigned char form[] = %s;
    size_t written = sizeof form - 1;
    %s
    return printed != %d;
}
"""


LONG = """
#include <exifnorm_fields.h>
int main(void) {
    static unsigned char form[EXIFNORM_LIMIT + 1] = {0x1C};
    struct exifnorm_fields all;
    struct exifnorm_field field;
    exifnorm_fields_start(&all, form, sizeof form);
    return exifnorm_fields_next(&all, &field) || exifnorm_fields_whole(&all);
}
"""


def example_of_xmp(size):
    """The example of the header, of a text of so many bytes: its room is 1,000, and it prints no more."""
    text = (HEADERS / "exifnorm_fields.h").read_text(encoding="ascii")
    lines = text.partition("exifnorm_xmp_normalise writes\n *\n")[2].partition(" *\n")[0]
    form = HEAD + f'<p:format xmlns:p="http://purl.org/dc/elements/1.1/">{"x" * size}</p:format>' + TAIL
    return EXAMPLE % (json.dumps(form), lines.replace("\n *", "\n")[2:], min(size, 1000))


PROGRAMS = {
    "names are compared with their namespaces": IS,
    "a reference that is cut or in no form is a text": CUT,
    "more bytes than a form has are none": LONG,
    **{f"an example of {size} bytes": example_of_xmp(size) for size in (0, 999, 1000, 1001, 3000)},
}


@pytest.mark.parametrize("name", PROGRAMS)
def test_programs_end_well(folder, name):
    (folder / "it.c").write_text(PROGRAMS[name], encoding="ascii")
    run(*C99, *SANITIZED, folder / "it.c", "-o", folder / "it")
    run(folder / "it")


# ---- names and texts


PRINTS = r"""
#include <exifnorm_names.h>
#include <stdio.h>
int main(void) {
    struct exifnorm_field field = {0, 0, EXIFNORM_TYPE_BYTE, 0, NULL, 0};
    for (field.directory = 0; field.directory < 7; field.directory++)
        for (field.tag = 0; field.tag < 0x10000; field.tag++)
            if (exifnorm_field_name(&field))
                printf("name %s:%s %x\n", exifnorm_field_group(&field), exifnorm_field_name(&field), (unsigned)field.tag);
    field.directory = EXIFNORM_DIRECTORY_THUMBNAIL;
    for (field.type = EXIFNORM_TYPE_JPEG; field.type <= EXIFNORM_TYPE_STRIP; field.type++)
        printf("picture %s\n", exifnorm_field_name(&field));
    for (uint32_t i = 0; i < 300; i++)
        printf("status %u %s\ncause %u %s\n", (unsigned)i, exifnorm_status_text(i), (unsigned)i, exifnorm_cause_text(i));
    return 0;
}
"""


@pytest.mark.parametrize("compiler", COMPILERS, ids=lambda it: it[0])
def test_names_and_texts(folder, compiler):
    need(compiler[0])
    text_of_header = (HEADERS / "exifnorm.h").read_text(encoding="utf-8")
    (folder / "prints.c").write_text(PRINTS, encoding="ascii")
    run(*compiler, *STRICT, *SANITIZED, folder / "prints.c", "-o", folder / "prints")
    lines = run(folder / "prints").splitlines()
    expected = {
        f"name {group_of(where)}:{plain_name(where, key)} {names.tag_of(key):x}"
        for where, tables in TABLES.items()
        for it in tables
        for key in it
    }
    assert {it for it in lines if it.startswith("name ")} == expected
    assert [it for it in lines if it.startswith("picture ")] == ["picture ThumbnailImage", "picture ThumbnailTIFF"]
    xmp = {names.name_of_cause(it): number for it, number in re.findall(r"EXIFNORM_(XMP_\w+) = (\d+)", text_of_header)}
    expected_causes = {**dict(enumerate(NAMES, 1)), **CAUSES, **{int(number): name for name, number in xmp.items()}}
    causes = dict(re.findall(r"^cause (\d+) (.+)$", "\n".join(lines), re.M))
    assert causes == {str(number): CAUSE_WORDS[name][0] for number, name in expected_causes.items()}
    statuses = re.search(r"/\* The statuses. \*/\nenum {(.*?)};", text_of_header, re.S)[1]
    assert re.findall(r"^status (\d+) .+$", "\n".join(lines), re.M) == re.findall(r" = (\d+)", statuses)


@pytest.mark.parametrize("compiler", COMPILERS, ids=lambda it: it[0])
def test_every_warning_is_an_error_of_the_headers(folder, compiler):
    """Each header can be the first one, included twice, and nothing of it used."""
    need(compiler[0])
    for name in ("exifnorm.h", "exifnorm_fields.h", "exifnorm_names.h"):
        (folder / "unused.c").write_text(f"#include <{name}>\n#include <{name}>\nint main(void) {{ return 0; }}\n", encoding="ascii")
        run(
            *compiler,
            *STRICT,
            "-Wundef",
            "-Wshadow",
            "-Wconversion",
            "-Wsign-conversion",
            "-Wcast-qual",
            folder / "unused.c",
            "-o",
            folder / "unused",
        )


# ---- the program of the manual page


LABELS = {
    "title": ["IPTC:ObjectName"],
    "caption": ["IPTC:Caption-Abstract", "IFD0:ImageDescription"],
    "creator": ["IPTC:By-line", "IFD0:Artist"],
    "keyword": ["IPTC:Keywords"],
    "date": ["ExifIFD:DateTimeOriginal"],
    "latitude": ["GPS:GPSLatitude"],
    "longitude": ["GPS:GPSLongitude"],
}


def by_exiftool(path):
    """What the example prints of a picture, by ExifTool."""
    words = ["exiftool", "-j", "-G1", "-n", "-c", "%.6f"]
    (found,) = json.loads(subprocess.run([*words, path], check=True, capture_output=True).stdout)
    lines = []
    for label, tags in LABELS.items():
        for tag in tags:
            values = found.get(tag, [])
            for value in values if isinstance(values, list) else [values]:
                is_degrees = label.endswith("itude")
                lines.append(f"{label}: {value:.6f} {found[f'{tag}Ref']}" if is_degrees else f"{label}: {value}")
    return sorted(lines)


def test_the_example_prints_what_exiftool_prints(example, folder):
    """Of the samples, and of a position and other texts."""
    need("exiftool")
    position = ["-GPSLatitude=48.8583701", "-GPSLatitudeRef=S", "-GPSLongitude=2.2944813", "-GPSLongitudeRef=W"]
    words = ["-IFD0:ImageDescription=Zürich", "-IPTC:Caption-Abstract=Zürich", "-codedcharacterset=utf8", "-Keywords=a", "-Keywords=b"]
    run("exiftool", "-q", *position, *words, "-o", folder / "made.jpg", TOP / "samples" / "before" / "ceramics" / "2003-12-bowl.jpg")
    for path in (folder / "made.jpg", *SAMPLES):
        printed = subprocess.run([example], stdin=path.open("rb"), check=True, capture_output=True).stdout.decode().splitlines()
        is_refused = path.name == "IMG_20240502.jpg"  # whose GPS directory is empty
        assert sorted(printed) == (["not read: A directory has no entry."] if is_refused else by_exiftool(path)), path


def test_the_example_refuses_what_is_no_jpeg(example):
    ran = subprocess.run([example], input=b"text", capture_output=True, check=False)
    assert (ran.returncode, ran.stdout) == (1, b"not read: The bytes don't begin as a JPEG does, with FF D8.\n")


OF_XMP = {"title": "XMP-dc:Title", "description": "XMP-dc:Description", "creator": "XMP-dc:Creator", "subject": "XMP-dc:Subject"}


def of_xmp_by_exiftool(path):
    """What the example prints of XMP, by ExifTool: the languages of a text are tags such as Title-de."""
    (found,) = json.loads(subprocess.run(["exiftool", "-j", "-G1", "-XMP-dc:all", path], check=True, capture_output=True).stdout)
    lines = []
    for tag, values in found.items():
        for name in (label for label, start in OF_XMP.items() if tag.partition("-de")[0] == start):
            lines += [f"{name}: {value}" for value in (values if isinstance(values, list) else [values])]
    return lines


def test_the_example_prints_the_xmp_of_a_picture_and_of_a_sidecar(examples, folder):
    """Keywords are in the order of the packet, and each text without its qualifiers."""
    need("exiftool")
    words = ["-XMP-dc:Title=Bowl <1> & lid", "-XMP-dc:Title-de=Schüssel", "-XMP-dc:Description=Glazed"]
    words += [f"-XMP-dc:{it}" for it in ("Creator=Zoe", "Creator=Ada", "Subject=urn", "Subject=bowl", "Format=image/jpeg")]
    run("exiftool", "-q", *words, "-o", folder / "made.jpg", TOP / "samples" / "before" / "ceramics" / "2003-12-bowl.jpg")
    run("exiftool", "-q", "-o", folder / "made.xmp", "-tagsfromfile", folder / "made.jpg", "-xmp:all")
    for path in (folder / "made.jpg", folder / "made.xmp"):
        printed = subprocess.run([examples[1]], stdin=path.open("rb"), check=True, capture_output=True).stdout.decode().splitlines()
        assert sorted(printed) == sorted(of_xmp_by_exiftool(path)), path.name
        assert [it for it in printed if it.startswith("subject")] == ["subject: urn", "subject: bowl"], path.name
        assert {"title: Bowl <1> & lid", "title: Schüssel", "creator: Ada"} <= {*printed}
    qualified = "<rdf:li rdf:parseType='Resource'><rdf:value>Ada</rdf:value><dc:title>Painter</dc:title></rdf:li>"
    (folder / "qualified.xmp").write_bytes(xmp(f"<dc:creator><rdf:Seq>{qualified}</rdf:Seq></dc:creator>"))
    printed = subprocess.run([examples[1]], stdin=(folder / "qualified.xmp").open("rb"), check=True, capture_output=True).stdout
    assert printed == b"creator: Ada\n"


@pytest.mark.parametrize(
    "octets, status, said",
    [
        (b"\xff\xd8\xff\xd9", 0, ""),
        (b"\xff\xd8", 1, "not read: The JPEG ends inside its head, before the first scan.\n"),
        (b"\xff\xd8" + 2 * app1_xmp(xmp("")) + b"\xff\xd9", 1, f"not read: {names.STATUSES['NOT_READ']}\n"),
        (xmp("text"), 1, "not read: The packet has text between elements.\n"),
        (b"", 1, "not read: The packet is not one XML element: it is empty, or has text or elements beside the root.\n"),
    ],
    ids=["no packet", "cut", "two packets", "rare", "empty"],
)
def test_the_example_says_why_xmp_is_not_read(examples, octets, status, said):
    ran = subprocess.run([examples[1]], input=octets, capture_output=True, check=False)
    assert (ran.returncode, ran.stdout.decode()) == (status, said)


def test_a_status_of_one_input_has_words_for_one():
    """A call for one block, packet or picture may return it, so its sentence can't be of two alone."""
    calls = re.findall(
        r"/\*((?:(?!\*/)[\s\S])*)\*/\nuint32_t exifnorm_\w+\(([^;]*)\);", (HEADERS / "exifnorm.h").read_text(encoding="utf-8")
    )
    statuses = {it for text, inputs in calls if "second" not in inputs for it in re.findall(r"^ \*   ([A-Z_]+)  ", text, re.M)}
    assert {"REFUSED", "NOT_READ", "RARE"} <= statuses and "SECOND_REFUSED" not in statuses
    assert [it for it in statuses if re.match("Two |The second", names.STATUSES[it])] == []
