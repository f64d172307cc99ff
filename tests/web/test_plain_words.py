"""The page's words for fields are those of exifnorm_pictures, for generated fields of each tag and type, and properties of each form."""

import hashlib
import json
import shutil
from random import Random

import pytest

import exifnorm
from commands import TOP
from exifnorm_pictures import xmp
from exifnorm_pictures.comparison.wording import told_apart
from exifnorm_pictures.fields import names, plain_values
from exifnorm_pictures.fields.listing import shortened
from exifnorm_pictures.judge.judge import fields_of_form
from exifnorm_pictures.fields.xmp_properties import fields_of_statements
from exifnorm_pictures.model.xmp_names import _SPACES
from exifnorm_pictures.model.xmp_values import texts_in
from kinds import small_kinds
from meanings import ASCII, NOT_PLAIN, RATIONAL, TYPES, UNDEFINED, Exif, Layout, Value, laid
from packets import PACKET
from small_packets import small_packets
from test_javascript import properties

HERE = TOP / "tests" / "web"
SEED, BLOCKS, PACKETS = 5, 300, 400
RDF = "http://www.w3.org/1999/02/22-rdf-syntax-ns#"
TEXTS = [
    "",
    "Vase",
    "Köln am Rhein",
    "日本の花瓶",
    "a\tb\nc",
    "x\x1b[31m",
    "2003:05:24 22:21:01",
    "  :  :     :  :  ",
    "2008-07-31T10:38+02:00",
    "0231",
    "N",
    "W",
    "w",
    "West",
    "south",
    "K",
    "20030524",
    "00000000",
    "120000+0100",
    "constructor",
    " padded  ",
    "\u202eexe",
    "x" * 500,
    "\ufeffbom",
]
OCTETS = [
    b"",
    b"\0",
    b"\1",
    b"\2\3\0\0",
    b"\x81\x8d\xff",
    b"Z\xfcrich",
    b"\x1b%G",
    bytes(range(40)),
    b"\xff" * 33,
    b"A" * 1700,
    b"0220",
    b"\0\2",
    "\ufeffBowl\0".encode("utf-16-le"),
    b"B\0\0\xd8o\0",
    b"B\0\0\xdc",
]
COMMENTS = [
    b"ASCII\0\0\0Vase  ",
    b"UNICODE\0" + "Zürich".encode("utf-16-be"),
    b"UNICODE\0" + "Zürich".encode("utf-16-le"),
    b"\0" * 20,
    b"JIS\0\0\0\0\0" + "日本".encode("iso2022_jp"),
    b"\0" * 8 + b"Z\xfcrich\0",
    b"ASCII\0\0\0\xff",
    b"\0" * 8 + b"\x81",
    b"WRONG\0\0\0abc",
    b"ASCII\0\0\0" + b"long " * 20 + b"\0rest",
    b"UNICODE\0" + b"\0" * 9,
    b"ASCII   Vase",
    b"UNICODE " + "Zürich".encode("utf-16-le"),
    b"JIS     " + "日本".encode("iso2022_jp"),
    b" " * 8 + b"Vase",
    b"ASCII\0\0\0Z\xfcrich\0rest",
    b"Z\xfcrich am See\0\0",
    b"A bowl of clay\0rest",
    b"Vase\0rest",
    b"Z\xfc",
    b"\xd0\xe0\xf0 a",
    b"Z\x81rich",
]
# accents, blanks and characters that don't show
LETTERS = (
    "ae\u0308\u00e4\u212b\u00c5\u20dd \t\n\x85\u00a0\u1680\u2003\u2028\u2800\u3000\u00ad\u034f\u061c\u115f\u17b4\u180e\u200b\u202e\u2064\u3164\ufe0f\ufff9\ufffc\uffa0"
    "\U0001bca0\U0001d173\U000e0041"
)
NUMBERS = [0, 1, 2, 3, 5, 6, 10, 13, 25, 60, 100, 125, 255, 1000, 1250, 3600, 65535, 1 << 20, (1 << 31) - 1, (1 << 32) - 1]


def elements_of(form, chance):
    """Elements of a type: texts and bytes of many kinds, and numbers of which some are halves of a last decimal place."""
    _, size, letter, numbers = TYPES[form]
    if not letter:
        texts = [text.encode() + b"\0" * chance.randrange(2) for text in TEXTS] + OCTETS + COMMENTS
        return chance.choice(texts) if chance.random() < 0.8 else chance.randbytes(chance.randrange(60))
    least, bits = (-(1 << 8 * size // numbers - 1), 8 * size // numbers) if letter.islower() else (0, 8 * size // numbers)

    def number():
        found = chance.choice([chance.choice(NUMBERS), chance.randrange(200), chance.randrange(1 << 32)])
        return max(least, min((1 << bits) + least - 1, -found if least and chance.random() < 0.3 else found))

    count = chance.choice([1, 1, 1, 2, 3, 3, 4, 4, 6, 7, 30, 0])
    if numbers == 2:
        halves = [(2 * chance.randrange(500) + 1, chance.choice([2, 4, 8, 16, 20, 40, 200])) for _ in range(count)]
        return halves if chance.random() < 0.3 else [(number(), number()) for _ in range(count)]
    return [number() for _ in range(count)]


def directory(where, chance):
    """A directory with some of its known tags, and unknown ones, each with a value of any type."""
    known = [int(key, 16) for table in names.TABLES[where] for key in table]
    tags = {*chance.sample(known, min(len(known), 25)), chance.randrange(0xFE00, 0xFFFF)} - NOT_PLAIN - {0x83BB}
    ruled = {int(key, 16) for rules in (plain_values._EXIF, plain_values._GPS) for key in rules if ":" not in key}
    likely = {RATIONAL: 4, ASCII: 3, UNDEFINED: 3}
    found = {}
    for tag in tags | ({*chance.sample(sorted(ruled & {*known}), 5)} if len(ruled & {*known}) > 4 else set()):
        form = chance.choice([*TYPES, *(kind for kind, times in likely.items() for _ in range(times))])
        found[tag] = Value(form, elements_of(form, chance))
    return found


def exif_block(chance):
    places = {
        where: directory(where, chance) for where in ("main", "exif", "gps", "interop", "thumb") if where == "main" or chance.random() < 0.7
    }
    if "interop" in places and "exif" not in places:
        del places["interop"]
    return laid(Exif(**places), Layout(chance.choice("<>"), shuffled=True))


def record_block(chance):
    keys = [tuple(map(int, key.split(":"))) for table in names.TABLES["iptc"] for key in table]
    octets = [*(text.encode() for text in TEXTS), *OCTETS]
    datasets = [(*chance.choice(keys), chance.choice(octets)) for _ in range(30)]
    return b"".join(b"\x1c" + bytes(name) + len(data).to_bytes(2, "big") + data for *name, data in datasets)


# of XMP: some texts are in another order by the units of UTF-16, or as elements of a form, than by their characters
XMP_TEXTS = [
    *TEXTS,
    "a & b",
    "\U0001f3fa vase",
    "\ufb01gure",
    '\\ "quoted"',
    "\xad\u3000",
    "<b>",
    "a" * 70_000,
    "\t" * 33_000,
    "x" * 20_000,
]
LANGUAGES = ["", "", "x-default", "de", "en-us", "X-Default"]
SPACES = [*_SPACES, "http://e/x/", "http://purl.org/dc/elements/1.1/title/", "u:no-slash", "http://e/#"]
LOCALS = ["title", "a", "value", "Z-1", "b.c", "subject", "_x"]


def escaped_text(text):
    for character, word in (("&", "&amp;"), ("<", "&lt;"), ("\r", "&#13;")):
        text = text.replace(character, word)
    return "".join(character for character in text if character in "\t\n" or character >= " ")


def value(chance, depth):
    """What is behind the name of an element: a value of XMP, and the end of its tag."""
    kind = chance.choice(["text"] * 5 + ["resource"] + ["list", "structure"] * (3 if depth < 4 else 0))
    if kind == "text":
        text = chance.choice(XMP_TEXTS if depth == 0 or chance.random() < 0.02 else XMP_TEXTS[:-3])
        language = chance.choice(LANGUAGES)
        return (f" xml:lang='{language}'" if language else "") + f">{escaped_text(text)}"
    if kind == "resource":
        return f" r:resource='{chance.choice(['http://e/?a&amp;b', 'u:1', 'u:' + 'x' * 90])}'>"
    if kind == "structure":
        return f" r:parseType='Resource'>{several(chance, depth + 1)}"
    container = chance.choice(["Alt", "Bag", "Bag", "Seq"])
    members = "".join(f"<r:li{value(chance, depth + 1)}</r:li>" for _ in range(chance.choice([0, 1, 2, 3, 12])))
    return f"><r:{container}>{members}</r:{container}>"


def several(chance, depth):
    """Properties with different names."""
    pairs = {
        (chance.choice(SPACES[:-4] if chance.random() < 0.7 else SPACES), chance.choice(LOCALS)) for _ in range(chance.choice([1, 2, 4]))
    }
    pairs = sorted({space + local: (space, local) for space, local in pairs if space != RDF or local == "value"}.values())
    return "".join(f"<n:{local} xmlns:n='{space}'{value(chance, depth)}</n:{local}>" for space, local in pairs)


def packets():
    """Packets with values of each form, one in another."""
    chance = Random(SEED)
    made = [f"<r:RDF xmlns:r='{RDF}'><r:Description>{several(chance, 0)}</r:Description></r:RDF>".encode() for _ in range(PACKETS)]
    found = [*made, *small_packets(), PACKET.encode()]
    return [packet for packet in found if is_accepted(exifnorm.xmp_normal, packet)]


def is_accepted(call, octets):
    try:
        return bool(call(octets))
    except (exifnorm.Refused, exifnorm.XmpRefused):
        return False


def described(packet):
    """The properties as exifnorm_pictures has them. The form has the members of a Bag in another order than the packet."""
    for field in fields_of_statements(xmp.statements(exifnorm.xmp_normal(packet), xmp.Extensions({}), set())):
        yield [field.name, field.text, shortened(field.exact), [text for one in field.content for text in texts_in(one)]]


@pytest.fixture(scope="module")
def blocks(library):
    chance = Random(SEED)
    made = [maker(chance) for _ in range(BLOCKS) for maker in (exif_block, record_block)]
    samples = [data for path in sorted(TOP.glob("samples/*/*/*.jpg")) for _, data in exifnorm.jpeg_blocks(path.read_bytes())]
    found = [*made, *samples, *(block for kind in small_kinds() for block in kind.blocks)]
    return [block for block in found if is_accepted(exifnorm.kind, block)]


def test_names_and_values(blocks, node, module, folder, checks):
    shutil.copyfile(HERE / "plain.mjs", module / "plain.mjs")
    (folder / "listings").write_text(json.dumps([exifnorm.show(block) for block in blocks]), encoding="ascii")
    of_xmp = packets()
    (folder / "properties").write_text(json.dumps([properties(packet) for packet in of_xmp]), encoding="ascii")
    pairs = [["".join(chance.choices(LETTERS, k=chance.randrange(5))) for _ in range(2)] for chance in [Random(SEED)] for _ in range(3000)]
    pairs += [["Otto", f"Otto{letter}"] for letter in LETTERS] + [["M\u00fcnchen", "Mu\u0308nchen"]]
    (folder / "pairs").write_text(json.dumps(pairs), encoding="ascii")
    answer = json.loads(node("plain.mjs", *(folder / it for it in ("listings", "properties", "pairs")), folder=module))
    for pair, found in zip(pairs, answer["apart"]):
        checks.equal(ascii(pair), found, [*told_apart(*pair)])
    checks.check("there are pairs that look alike", sum(map(list.__ne__, pairs, answer["apart"])) > 500)
    for packet, found in zip(of_xmp, answer["properties"]):
        for row, due in zip(found, sorted(described(packet))):
            checks.equal(packet[:300], row, due)
        checks.equal(packet[:300], len(found), len([*described(packet)]))
    checks.check("there are many properties", sum(map(len, answer["properties"])) > 800)
    count = 0
    for block, found in zip(blocks, answer["fields"]):
        expected = [(field, [field.name, field.text]) for field in fields_of_form(exifnorm.normal(block))]
        assert len(found) == len(expected)
        for row, (field, due) in zip(found, expected):
            count += 1
            if row != due:
                checks.equal(str(field)[:300], row, due)
    checks.check("there are many fields", count > 10_000, count)
    sizes = [0, 1, 55, 56, 63, 64, 65, 119, 120, 1000]
    octets = [bytes(7 * number % 256 for number in range(size)) for size in sizes]
    due = [[hashlib.sha256(data).hexdigest(), hashlib.md5(data, usedforsecurity=False).hexdigest().upper()] for data in octets]
    checks.equal("SHA-256 and MD5", answer["digests"], due)
