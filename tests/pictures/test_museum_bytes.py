"""What each byte of a file of each format says: which blocks, parts and damage are found when it is another one, and whether the coded picture and
the rest of the file stay the same. The bytes that say the same are in one line of a golden file."""

import functools
import io
import itertools
import re
import zlib
from unittest import mock

import packets
import pytest
from made_blocks import ASCII, BLOCKS, LONG, SHORT, UNDEFINED, segment
from made_files import A, K, T, Placed, app1, app1_xmp, app13, chunk, extension, jpeg, page, png, png_xmp, profile, raf, tiff, webp, xmp
from made_raw import inner
from meanings import BYTE, RATIONAL, Exif, Layout, Record, Value, laid
from studio import SMALL_JPEG
from test_other_places import PLACES
from test_parts import FILES, JUMBF, RESOURCES, WHOLE_FILES

from exifnorm_pictures import xmp as reading
from exifnorm_pictures.extract import coded_picture, readers
from exifnorm_pictures.fields.listing import exact
from exifnorm_pictures.fields.block_fields import fields_of
from exifnorm_pictures.fields.xmp_properties import fields_of_statements
from exifnorm_pictures.judge import judge
from exifnorm_pictures.model import rest
from exifnorm_pictures.model.budgets import Budget, TooMuch
from exifnorm_pictures.model.found import EXIF, IPTC, Broken, LeftToOthers
from exifnorm_pictures.refusals import explain

LONG_PACKET = xmp("<dc:source>Salt</dc:source>" * 3)
PIECES, NAME = extension(LONG_PACKET, size=200)
MARKED = xmp("", f"note:HasExtendedXMP='{NAME}'")
RESTS = (
    *((0xE0, b"JFXX\0\x10"), (0xE2, b"ICC_PROFILE\0\1\1"), (0xE3, b"Meta\0\0II*\0"), (0xE4, b"Salt\0one"), (0xEA, b"Salt\0two")),
    *(
        (0xEB, b"JP\0\1"),
        (0xED, b"Adobe_CM\0\1"),
        (0xED, b"none"),
        (0xEE, b"Adobe\0d\0\0\0\0\1"),
        (0xEF, b"Q"),
        (0xFE, b"by Anna"),
        (0xE1, b"none"),
    ),
)
OTHER_POINTERS = ((0x0190, LONG, 8), (0x8290, LONG, 8), (0xC68C, UNDEFINED, b"original"), (0xA010, LONG, 8))
MORE = {
    "a JPEG with extended XMP": jpeg(app1_xmp(MARKED), *PIECES),
    "a JPEG whose extended XMP has a hole": jpeg(app1_xmp(MARKED), PIECES[0], *PIECES[2:]),
    "segments that are rest": jpeg(*(segment(marker, head + b"text") for marker, head in RESTS)),
    "a segment behind the first scan": jpeg()[:-2] + app1(A) + app13(RESOURCES)[:40] + b"\xff\xd9" + b"video",
    "a WebP of unknown chunks": webp((b"VP8L", b"\x2f\0\0\0\x10"), (b"EXIF", b"Exif\0\0" + A), (b"XMP\0", T), (b"SALT", b"one")),
    "a TIFF of SubIFDs": tiff(
        page((0x014A, LONG, page((0x013B, ASCII, b"Anna\0")))), page((0x8769, LONG, [(0x927C, UNDEFINED, b"a note")])), behind=b"x"
    ),
    "a TIFF of other pointers": tiff(page(*OTHER_POINTERS, (0x0201, LONG, Placed(b"thumb")), (0x0202, LONG, 5)), more=b"between"),
    "a RAF of several": raf(inner(b"Anna"), directory=b"\0\0\0\1\1\0\0\4\0\0\0\7", gap=4, behind=b"video"),
    **{f"a JPEG, {name}": jpeg(*make(b"abc")) for name, make in PLACES.items()},
}
with mock.patch.object(zlib, "compress", functools.partial(zlib.compress, level=0)):  # as each zlib writes it
    MORE["a PNG"] = png(
        *(chunk(b"eXIf", A), png_xmp(T), profile(b"8bim", RESOURCES), chunk(b"tEXt", b"Title\0one"), chunk(b"caBX", JUMBF)), behind=b"video"
    )
    MORE["profiles of a PNG"] = png(
        *(profile(b"exif", b"Exif\0\0" + A), profile(b"iptc", K), profile(b"xmp", T), profile(b"icc", b"abc"), png_xmp(T, True)),
        *(chunk(b"iCCP", b"x\0\0abc"), chunk(b"tIME", bytes(7)), chunk(b"zxIf", A), chunk(b"iTXt", b"a\0\0\0\0\0b")),
        chunk(b"tEXt", b"Raw profile type APP1\0\ngeneric profile\n%8d\n%s\n" % (len(A) + 6, (b"Exif\0\0" + A).hex().encode())),
    )
ALIKE = {f"a raw {it}" for it in ("cr2", "nef", "pef")}  # whose structure others have
EVERY = {name: it for name, it in {**FILES, **WHOLE_FILES, **MORE}.items() if name not in ALIKE}


def found_in(octets, name, whole=False):
    """The blocks and the parts that the reader of a file finds, or why there are none."""
    if (reader := readers.reader_of(octets[: readers.HEAD], name)) is None:
        return ["another format"]
    try:
        found = reader(io.BytesIO(octets), whole)
    except (Broken, LeftToOthers, TooMuch) as why:
        return [f"{type(why).__name__}: {why}"]
    blocks = [f"{it.name} of {len(it.data)} bytes, {it.where}" for it in found.blocks]
    parts = [f"{it.what}{'' if it.digest else ' (no digest)'}" for it in found.not_read]
    rests = [f"{name} {length}" for name, length in found.rest.items()]
    more = [word for word, is_so in (("more", found.has_more), ("digest of IPTC", found.iptc_digest)) if is_so]
    return [readers.type_of(found, name), *blocks, *parts, *rests, *more, *filter(None, (found.damage, found.problem))]


def coded(octets, name):
    """The coded picture, by the digest, the rest and the damage of a file."""
    return coded_picture.of_stream(io.BytesIO(octets), Budget(), name)


def changes(octets, name, before, picture):
    """What is found no longer, by its number among what is found in the whole file, and what is found instead; and how the coded picture and the
    rest differ."""
    after, now = found_in(octets, name), coded(octets, name)
    lost, new = [number for number, it in enumerate(before) if it not in after], [it for it in after if it not in before]
    words = [f"-{ranges(lost)}"] * bool(lost) + [f"+{it}" for it in new] + ["in another order"] * (not lost and not new and before != after)
    if now.digest != picture.digest:
        words.append(f"{'another' if now.digest else 'no'} picture {now.damage}".rstrip())
    return "; ".join([*words, *(rest.changes(picture.beside, now.beside) if now.digest and picture.digest else [])]) or "nothing"


def ranges(places):
    """Numbers in few words.

    >>> ranges([1, 2, 3, 7])
    '1-3 7'
    """
    groups = [[at for _, at in group] for _, group in itertools.groupby(enumerate(places), lambda it: it[1] - it[0])]
    return " ".join(str(it[0]) if len(it) == 1 else f"{it[0]}-{it[-1]}" for it in groups)


def plain_bytes(octets):
    """Where the text of a packet is, whose bytes say nothing of the file, but for its first and last ones; and a picture that other files have."""
    found = set()
    for packet in (T, LONG_PACKET, SMALL_JPEG[2:])[: 2 + (octets in MORE.values())]:
        at = octets.find(packet)
        while at >= 0:
            found.update(range(at + 20, at + len(packet) - 4))
            at = octets.find(packet, at + 1)
    return found


@pytest.mark.parametrize("kind", EVERY)
def test_what_each_byte_says(kind, golden):
    octets, name = EVERY[kind], b"a." + kind.rpartition(" ")[2].encode()
    before, picture, passed_over = found_in(octets, name), coded(octets, name), plain_bytes(octets)
    lines = [f"{number}. {it}" for number, it in enumerate(before)]
    lines += [f"with --whole: {'; '.join(found_in(octets, name, True))}", f"beside: {picture.beside!r} {picture.damage}".rstrip()]
    for word, made in (("the next number", lambda octet: octet + 1 & 255), ("another one", lambda octet: octet ^ 0xFF)):
        places = {}
        for at in sorted({*range(len(octets))} - passed_over):
            changed = octets[:at] + bytes([made(octets[at])]) + octets[at + 1 :]
            places.setdefault(changes(changed, name, before, picture), []).append(at)
        lines += [f"[{word}]", *(f"{ranges(some)}: {said}" for said, some in places.items())]
    golden(f"museum/bytes/{kind}.txt", "\n".join(lines) + "\n")


# ---- blocks

MOVED = Value(SHORT, [1])
CAMERA = Exif(
    {0x010F: Value(ASCII, b"Leica\0"), 0x0112: MOVED, 0x8298: Value(ASCII, b"Museum\0Salt\0")},
    {0x829A: Value(RATIONAL, [(1, 125)]), 0x9003: Value(ASCII, b"2025:03:31 14:30:00\0"), 0x927C: Value(UNDEFINED, b"a note")},
    {0x0001: Value(ASCII, b"R98\0")},
    {0x0000: Value(BYTE, b"\2\3\0\0"), 0x0002: Value(RATIONAL, [(51, 1), (30, 1), (0, 1)])},
    {0x0103: Value(SHORT, [6])},
    b"\xff\xd8thumbnail\xff\xd9",
)
STRIPS = Exif({0x010F: Value(ASCII, b"Leica\0")}, thumb={0x0103: MOVED}, strips=[b"one", b"two."], record=Record([(2, 25, b"salt")]))
OF_IPTC = Record([(1, 90, b"\x1b%G"), (2, 25, b"one"), (2, 80, b"Anna"), (2, 25, b"two"), (2, 85, b"Editor")])
BLOCKS_OF = {
    "Exif of a camera": laid(CAMERA, Layout("<")),
    "Exif of a camera in another order": laid(CAMERA, Layout(">", shuffled=True, gap=3)),
    "Exif of strips": laid(STRIPS, Layout(">")),
    "Exif with a word before it": b"Exif\0\0" + laid(Exif({0x010F: Value(ASCII, b"Leica\0")}), Layout("<")),
    "IPTC": OF_IPTC.spelled(zeros=2),
    "IPTC of extended lengths": OF_IPTC.spelled(extended=3),
    **{f"Exif refused by {cause}": it for cause, it in BLOCKS.items() if len(it) < 200 and it[:1] in b"IM"},
}


def of_block(block, numbers):
    """What is said of a block, with the repair of a refused one and the fields by their types. Without `numbers` those of bytes are left out."""
    kind = IPTC if block.startswith(b"\x1c") else EXIF
    judged = judge.judge(kind, block)
    said = explain.explain(kind, block).here if not judged.is_accepted else []
    repaired = [f"{it.what}{', loses ' * bool(it.loses)}{it.loses}" for it in judged.steps]
    fields = [f"{it.directory} {it.name} {it.type}[{it.count}]" for it in fields_of(judged)]
    return [it if numbers else re.sub(r"\d+", "N", it) for it in (judged.line, *said, *repaired)] + fields


@pytest.mark.parametrize("kind", BLOCKS_OF)
def test_what_each_byte_of_a_block_says(kind, golden):
    """Only of short blocks with the numbers of bytes."""
    block, numbers = BLOCKS_OF[kind], "refused" in kind
    before = of_block(block, numbers)
    lines = [f"{number}. {it}" for number, it in enumerate(before)]
    for word, made in (("the next number", lambda octet: octet + 1 & 255), ("another one", lambda octet: octet ^ 0xFF)):
        places = {}
        for at in range(len(block)):
            after = of_block(block[:at] + bytes([made(block[at])]) + block[at + 1 :], numbers)
            lost, new = [number for number, it in enumerate(before) if it not in after], [it for it in after if it not in before]
            places.setdefault("; ".join([f"-{ranges(lost)}"] * bool(lost) + [f"+{it}" for it in new]) or "nothing", []).append(at)
        lines += [f"[{word}]", *(f"{ranges(some)}: {said}" for said, some in places.items())]
    golden(f"museum/bytes/{kind}.txt", "\n".join(lines) + "\n")


# ---- packets

FORMS = xmp(
    "\n<dc:title><rdf:Alt><rdf:li xml:lang='x-default'>Vase</rdf:li><rdf:li xml:lang='de'>Krug</rdf:li></rdf:Alt></dc:title>"
    "<dc:subject><rdf:Bag><rdf:li>b</rdf:li><rdf:li>a</rdf:li></rdf:Bag></dc:subject><xmp:u rdf:resource='http://e/x'/>"
    "<xmp:r rdf:parseType='Resource'><xmp:a>1</xmp:a><xmp:b><rdf:Seq><rdf:li rdf:parseType='Resource'><rdf:value>v</rdf:value>"
    "<xmp:q>w</xmp:q></rdf:li></rdf:Seq></xmp:b></xmp:r><xmp:s xmp:a='1' xmp:c='2'/><xmp:d><rdf:Description xmp:a='7'/></xmp:d>",
    "xmp:Rating='3'",
).decode()
INSERTED = [f" {it}" for it in packets._ATTRIBUTES] + [" xml:lang='en-us-" + "x" * 90 + "'", " xmlns:q='" + "u" * 300 + "'", " q='1'"]
CONTENT = [*packets._CONTENTS, "<rdf:Bag/>", "<q/>", "<xmp:a/>", "<xmp:z><xmp:y>1</xmp:y></xmp:z>", "<dc:a xml:lang='fr'/>", "\0"]


def of_packet(packet):
    """The properties of a packet exactly, or why it can't be read."""
    try:
        statements = reading.statements(packet, reading.Extensions({}), set())
    except reading.Unreadable as why:
        return why.cause
    return f"{reading.digest_of_statements(statements)[:12]} " + "; ".join(
        f"{it.tag} {it.type}[{it.count}] {exact(it)}" for it in fields_of_statements(statements)
    )


def test_what_each_form_of_a_packet_says(golden):
    """Attributes and contents at each place of a packet, in UTF-8 and in UTF-16, which another reader reads: both say the same."""
    starts = [it.end() for it in re.finditer(r"<[a-zA-Z]+:\w+", FORMS)]
    made = [(at, text) for at in starts for text in INSERTED] + [(it.end(), text) for it in re.finditer(">", FORMS) for text in CONTENT]
    said = {}
    for at, text in [(0, ""), *made]:
        packet = FORMS[:at] + text + FORMS[at:]
        plain, wide = of_packet(packet.encode()), of_packet(packet.encode("utf-16"))
        assert plain == wide, (text, at)
        said.setdefault(plain, {}).setdefault(text, []).append(at)
    lines = [f"{what}\n" + "".join(f"    {text!r:.60}: {ranges(places)}\n" for text, places in by.items()) for what, by in said.items()]
    golden("museum/packets.txt", "".join(lines))
