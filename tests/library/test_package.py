"""The package exifnorm: the exact result of each public call, by ctypes and by the extension module.

The blocks were written by other tools, or come from meanings.py; reading.py judges them without the library.
"""

import array
import ctypes
import doctest
import functools
import gc
import hashlib
import importlib
import json
import mmap
import os
import pickle
import pkgutil
import subprocess
import sys
import tracemalloc
import warnings
from concurrent.futures import ThreadPoolExecutor

import pytest

import exifnorm
from exifnorm import blocks, pictures
import made_by_tools
from exifnorm import BlockCaption, BlockField, _calls, _library, _listings
from kinds import small_kinds
from meanings import ASCII, LABELS, LIMIT, LONG, SHORT, Exif, Layout, Record, Value, laid
from reading import said
from jpeg_made import COMMENT, LITTLE, PICTURE, VASE, exif, packet, picture, resource
from small_blocks import CAPTION, LOOP, OF_BLOCK, ONE, long_form, normal, outcome
from small_packets import small_packets

pytestmark = pytest.mark.usefixtures("way")


def named(it):
    """The id of a parameter."""
    return getattr(it, "__name__", None) or getattr(it, "tool", None)


# ---- results


@pytest.mark.parametrize("made", made_by_tools.ALL, ids=lambda it: f"{it.tool}, {it.kind}")
def test_blocks_of_tools(made):
    meaning = said(made.block)
    form = meaning.normal()
    assert exifnorm.kind(made.block) == made.kind
    assert exifnorm.normal(made.block) == form and type(exifnorm.normal(made.block)) is bytes
    assert exifnorm.digest(made.block) == hashlib.sha256(form).hexdigest()
    assert exifnorm.show(made.block) == meaning.listing()
    assert exifnorm.captions(made.block) == [BlockCaption(*it) for it in made.captions]
    assert exifnorm.same(made.block, form) is True
    assert exifnorm.same(form, ONE) is False
    found = exifnorm.fields(made.block)
    assert found == [BlockField(*it) for it in made.fields] and type(found) is list
    ratios = [it for field in found if field.type.endswith("RATIONAL") for it in field.values]
    assert {type(it) for it in found} | {type(it) for it in ratios} <= {BlockField, exifnorm.Ratio}


@pytest.mark.parametrize("call", OF_BLOCK, ids=named)
def test_refusals_of_tools(call):
    assert outcome(call, made_by_tools.PIEXIF_REFUSED) == ("Refused", *made_by_tools.PIEXIF_FAULT, None)


@pytest.mark.parametrize("call", OF_BLOCK, ids=named)
def test_a_jpeg_is_no_block(call):
    """Whoever passes a whole picture learns which call takes the blocks out of it."""
    for jpeg in (b"\xff\xd8\xff\xe0\0\x10JFIF", bytearray(b"\xff\xd8\xff\xd9")):
        with pytest.raises(exifnorm.Refused, match="UnknownKind at 0.*jpeg_blocks") as raised:
            call(jpeg)
        again = pickle.loads(pickle.dumps(raised.value))
        assert "JPEG" in again.sentence and "jpeg_blocks" in again.remedy and str(again) == str(raised.value)
    with pytest.raises(exifnorm.Refused) as raised:
        call(b"\xff\xd8")
    assert str(raised.value).startswith("UnknownKind at 0") and "JPEG" not in str(raised.value)


NO_PACKETS = {
    b"\xff\xd8\xff\xe0\0\x10JFIF": ("JPEG", "jpeg_xmp"),
    b"Exif\0\0" + ONE: ("Exif", "exifnorm.normal"),
    ONE: ("Exif", "exifnorm.normal"),
    b"II*\0\x08\0\0\0" + ONE[8:]: ("Exif", "exifnorm.normal"),
    CAPTION: ("IPTC", "exifnorm.normal"),
    b"http://ns.adobe.com/xap/1.0/\0" + small_packets()[0]: ("segment", "first 29"),
}


@pytest.mark.parametrize("octets", NO_PACKETS, ids=[f"{it[:6]!r}" for it in NO_PACKETS])
def test_what_is_no_packet_says_what_it_is(octets):
    """Whoever passes something else than a packet learns what it is, and what to do."""
    word, remedy = NO_PACKETS[octets]
    for call in (exifnorm.xmp_normal, exifnorm.xmp_properties):
        with pytest.raises(exifnorm.XmpRefused, match=word) as raised:
            call(bytearray(octets))
        again = pickle.loads(pickle.dumps(raised.value))
        assert word in again.sentence and remedy in again.remedy and str(again) == str(raised.value)
    if word == "segment":
        assert exifnorm.xmp_normal(octets[29:]), "the remedy helps"
    with pytest.raises(exifnorm.XmpRefused) as other:
        exifnorm.xmp_normal(b"\x89PNG" + octets)
    assert str(other.value) == "XmpBadCharacter at 0" and "packet" in other.value.sentence


TEXT, LANGUAGE, MEMBERS = exifnorm.XmpText, "de-at", (exifnorm.XmpText("b"), exifnorm.XmpText("a"))
PROPERTIES = {
    "d:a='&amp;lt; &#13;'>": ("a", TEXT("&lt; \r")),
    f"><d:a xml:lang='{LANGUAGE.upper()}'>&gt;&#x20AC;</d:a>": ("a", TEXT(">\u20ac", LANGUAGE)),
    "><d:a r:resource='u:1?a&amp;b'/>": ("a", exifnorm.XmpResource("u:1?a&b")),
    "><d:a><r:Seq><r:li>b</r:li><r:li>a</r:li></r:Seq></d:a>": ("a", exifnorm.XmpContainer("Seq", MEMBERS)),
    "><d:a><r:Alt><r:li>b</r:li><r:li>a</r:li></r:Alt></d:a>": ("a", exifnorm.XmpContainer("Alt", MEMBERS)),
    "><d:a><r:Bag><r:li>b</r:li><r:li>a</r:li></r:Bag></d:a>": ("a", exifnorm.XmpContainer("Bag", MEMBERS[::-1])),
    "><d:a><r:Bag/></d:a>": ("a", exifnorm.XmpContainer("Bag", ())),
    "><d:a r:parseType='Resource'/>": ("a", exifnorm.XmpStructure(())),
    "><d:a d:c='1' d:b='2'/>": (
        "a",
        exifnorm.XmpStructure((exifnorm.XmpProperty("http://d/", "b", TEXT("2")), exifnorm.XmpProperty("http://d/", "c", TEXT("1")))),
    ),
    "><d:a><r:Bag><r:li d:b='2'/><r:li/></r:Bag></d:a>": (
        "a",
        exifnorm.XmpContainer("Bag", (exifnorm.XmpStructure((exifnorm.XmpProperty("http://d/", "b", TEXT("2")),)), TEXT(""))),
    ),
}


@pytest.mark.parametrize("written", PROPERTIES)
def test_properties_of_a_packet(written):
    name, value = PROPERTIES[written]
    spaces = "xmlns:r='http://www.w3.org/1999/02/22-rdf-syntax-ns#' xmlns:d='http://d/' xmlns:e='http://e/e'"
    packet = f"<r:RDF {spaces}><r:Description {written}<e:f>last</e:f></r:Description></r:RDF>".encode()
    for it in (packet, memoryview(packet), exifnorm.xmp_normal(packet)):
        found = exifnorm.xmp_properties(it)
        assert found == [("http://d/", name, value), ("http://e/", "ef", TEXT("last"))] and type(found) is list
        assert type(found[0].value) is type(value), "two kinds of value are equal as tuples"
    (unsorted, _) = exifnorm.xmp_properties(packet, sort=False)
    assert unsorted.value == (exifnorm.XmpContainer("Bag", MEMBERS) if "<r:li>b</r:li><r:li>a</r:li></r:Bag>" in written else value)
    assert exifnorm.xmp_properties(f"<r:RDF {spaces}/>".encode()) == []


def test_older_words_are_still_understood():
    """Programs compare with them. A warning names the new word."""
    (block,) = exifnorm.jpeg_blocks(b"\xff\xd8\xff\xed\0\x22Photoshop 3.0\x008BIM\4\4\0\0\0\0\0\6\x1c\2\x78\0\1a\xff\xd9")
    (field,) = exifnorm.fields(block.data)
    for word, old in ((block.kind, "iim"), (exifnorm.kind(block.data), "iim"), (field.directory, "record")):
        with warnings.catch_warnings():
            warnings.simplefilter("error")
            again = pickle.loads(pickle.dumps(word))
            assert (
                word == again == "iptc"
                and {word: 1}["iptc"] == 1
                and json.dumps(word) == '"iptc"'
                and word != "exif"
                and str(word) == "iptc"
            )
        for found in (word, again):
            with pytest.warns(DeprecationWarning, match="is 'iptc' now"):
                assert found == old
            with pytest.warns(DeprecationWarning):
                assert not found != old
    refusal = exifnorm.Refused("Overlap", 3)
    with pytest.warns(DeprecationWarning, match="offset"):
        assert refusal.offset == refusal.place == 3


OF_XMP = [exifnorm.XmpText, exifnorm.XmpResource, exifnorm.XmpContainer, exifnorm.XmpStructure, exifnorm.XmpProperty]


def in_iptc_tag(form, octets):
    """A block with these bytes in the tag of an IPTC record."""
    return laid(Exif({0x83BB: Value(form, octets)}), Layout(">"))


# tags that have a role in some directories only
EVERYWHERE = {
    0x0100: Value(LONG, [7]),
    0xA002: Value(LONG, [8]),
    0xA003: Value(LONG, [9]),
    0x0116: Value(SHORT, [9]),
    0x83BB: Value(7, CAPTION),
}
STRIPS = "4d4d002a 00000008 0001 0112 0003 00000001 00010000 0000001a 0004 0111 0003 00000002 00500053 0117 0003 00000002 00030001"
STRIPS += "0201 0004 00000001 00000054 0202 0004 00000001 00000002 00000000 414243 58 ffd8"
OF_FIELDS = {
    **{kind.name: kind.blocks for kind in small_kinds()},
    "one tag in five directories": [laid(Exif(*(dict(EVERYWHERE) for _ in range(5))), Layout("<"))],
    "nearly a record": [
        in_iptc_tag(*it) for it in ((7, b"\x1c\x02\x78\x00\x09Vase"), (2, CAPTION), (7, b""), (7, ONE), (1, b"\x1c"), (1, CAPTION + b"\0"))
    ],
    "a long record": [Record([(2, 120, bytes(40_000)), (2, 25, b"")]).spelled()],
    "a thumbnail with a JPEG and strips": [bytes.fromhex(STRIPS)],
}


@pytest.mark.parametrize("blocks", OF_FIELDS.values(), ids=OF_FIELDS)
def test_fields_of_each_kind(blocks):
    """The fields from the form are those of the listing, by the independent reader."""
    for block in blocks:
        meaning = said(block)
        assert exifnorm.fields(block) == _listings.fields_of_listing(meaning.listing())
        assert exifnorm.normal(block) == meaning.normal()


def test_forms_that_are_too_long():
    block = long_form()
    assert exifnorm.kind(block) == "exif"
    assert outcome(exifnorm.normal, block) == ("NormalTooLong",)
    assert outcome(exifnorm.digest, block) == ("NormalTooLong",)
    assert exifnorm.fields(block) == [BlockField("main", 0x0116, "WHOLE", (*range(1000), *bytes(LIMIT // 4)))]
    assert exifnorm.captions(block) == []
    assert exifnorm.same(block, block) is True


@pytest.mark.parametrize("as_given", [bytes, bytearray])
def test_blocks_about_the_limit(as_given):
    for head in (b"", b"Exif\0\0"):
        assert exifnorm.kind(as_given(head + ONE + bytes(LIMIT - len(ONE)))) == "exif"
        assert outcome(exifnorm.kind, as_given(head + ONE + bytes(LIMIT - len(ONE) + 1))) == ("Refused", "TooLong", LIMIT, None)
    too_long = as_given(bytes(LIMIT + 1000))
    assert outcome(exifnorm.same, ONE, too_long) == ("Refused", "TooLong", LIMIT, 2)
    assert outcome(exifnorm.same, too_long, LOOP) == ("Refused", "TooLong", LIMIT, 1)


# ---- captions


@pytest.mark.parametrize("repeats", [1, 2])
def test_each_caption_is_returned_once(repeats):
    labels = {number: label for _, them in LABELS for number, label in them.items()}
    datasets = [(2, number, label.encode()) for number, label in reversed(list(labels.items()))]
    found = [(it.label, it.data) for it in exifnorm.captions(Record(datasets * repeats).spelled())]
    assert {it: found.count(it) for it in found} == {(label, label.encode()): repeats for label in labels.values()}


TEXTS = {0x010E: Value(2, b"d\xc3\xa9\0"), 0x013B: Value(129, b"\xc3\xa9\0"), 0x8298: Value(2, b"no zero")}
IN_UTF_8 = Record([(1, 90, b"\x1b%G"), (2, 120, b"\xc3\xa9"), (2, 5, b"\xff")])
OF_A_THUMBNAIL = Exif({0x013B: Value(2, b"\xc3\xa9\0")}, thumb={0x013B: Value(129, b"\xc3\xa9\0")})


def of_caption(octets, text=None):
    """A record with a caption, and what is returned of it."""
    return Record([(2, 120, octets)]).spelled(), [BlockCaption("caption", octets, text)]


IN_ORDER = [
    BlockCaption("description", b"d\xc3\xa9\0", None),
    BlockCaption("artist", b"\xc3\xa9\0", "é"),
    BlockCaption("copyright", b"no zero", "no zero"),
    BlockCaption("title", b"\xff", None),
    BlockCaption("caption", b"\xc3\xa9", "é"),
]
OF_CAPTIONS = {
    "texts and a record": (laid(Exif(TEXTS, record=IN_UTF_8), Layout("<")), IN_ORDER),
    "no character set": of_caption(b"\xc3\xbc"),
    "ASCII in no character set": of_caption(b"plain"),
    "a wrong octet in UTF-8": (
        Record([(1, 90, b"\x1b%G"), (2, 5, b"\xc3A")]).spelled(),
        [BlockCaption("title", b"\xc3A", None)],
    ),
    "a text with two zeros, of which it loses one": (
        laid(Exif({0x013B: Value(2, b"two\0\0")}), Layout("<")),
        [BlockCaption("artist", b"two\0\0", "two\0")],
    ),
    "a thumbnail's text of another type": (laid(OF_A_THUMBNAIL, Layout("<")), [BlockCaption("artist", b"\xc3\xa9\0", None)]),
    **{repr(it): of_caption(it) for it in (bytes(range(256)), b"charset: a: b", b"", b"\\0a\n")},
    # each byte that is not printable takes three: the library is asked again, with more bytes
    **{f"{count} zeros": of_caption(bytes(count)) for count in (1, 1000, 24_000, 60_000)},
}


@pytest.mark.parametrize("block, expected", OF_CAPTIONS.values(), ids=OF_CAPTIONS)
def test_captions(block, expected):
    assert exifnorm.captions(block) == expected


# ---- digests


@pytest.mark.parametrize("algorithm", ["sha256", "md5", "sha1", "sha512", "sha3_256", "blake2b"])
def test_digests(algorithm):
    expected = hashlib.new(algorithm, CAPTION).hexdigest()
    assert exifnorm.digest(CAPTION, algorithm) == exifnorm.digest(CAPTION, algorithm=algorithm) == expected


@pytest.mark.parametrize("algorithm", ["no such", "shake_128", "shake_256"])
def test_digests_without_a_length(algorithm):
    with pytest.raises(ValueError, match=algorithm):
        exifnorm.digest(CAPTION, algorithm)


# ---- arguments


class Own(bytes):
    """A subclass of bytes that lies about its length."""

    def __len__(self):
        return 3


def mapped(block):
    it = mmap.mmap(-1, len(block))
    it[:] = block
    return it


WAYS = {
    "bytearray": bytearray,
    "memoryview": lambda block: memoryview(b"xx" + block + b"yy")[2:-2],
    "memoryview of numbers": lambda block: memoryview(array.array("H", block)),
    "memoryview of rows": lambda block: memoryview(block).cast("B", (2, len(block) // 2)),
    "array": lambda block: array.array("H", block),
    "mmap": mapped,
    "subclass of bytes": Own,
    "ctypes": lambda block: (ctypes.c_char * len(block)).from_buffer_copy(block),
}


def with_other(call, other):
    """A call for two inputs, with another one behind what it is given, and before it."""
    return [lambda it: call(it, other), lambda it: call(other, it)]


SAMES = exifnorm.jpeg_same, exifnorm.jpeg_same_blocks
OF_PICTURE = [exifnorm.jpeg_parts, exifnorm.jpeg_blocks, exifnorm.jpeg_unread, exifnorm.jpeg_xmp]
OF_PICTURE += [it for call in SAMES for it in with_other(call, PICTURE)]
# What each call for bytes is given: something that it reads, and something that it refuses, each of an even number of bytes.
GIVEN = {
    **dict.fromkeys([*OF_BLOCK, *with_other(exifnorm.same, ONE)], (ONE, LOOP)),
    **dict.fromkeys(OF_PICTURE, (PICTURE, picture(exif(ONE), picture(), end=b""))),
    exifnorm.photoshop_resources: (resource(0x0404, CAPTION + b"9"), b"none"),
    **dict.fromkeys([exifnorm.xmp_normal, exifnorm.xmp_properties], (VASE.ljust(400), b"<a/>")),
}


@pytest.mark.parametrize("given", WAYS.values(), ids=WAYS)
def test_ways_to_give_bytes(given):
    """Any object with contiguous bytes."""
    for call, them in GIVEN.items():
        for octets in them:
            assert repr(outcome(call, given(octets))) == repr(outcome(call, octets))


@pytest.mark.parametrize("given", [bytes, bytearray, memoryview])
def test_a_picture_may_be_longer_than_any_block(given):
    long, other = given(PICTURE + bytes(LIMIT)), picture(exif(LITTLE), end=b"")
    for call in OF_PICTURE:
        assert call(long) == call(PICTURE)
    for call in SAMES:
        assert outcome(call, other, long) == outcome(call, other, PICTURE)


def test_an_object_can_be_changed_after_a_call():
    """Also after a call that fails: nothing holds its bytes."""
    for block in (bytearray(ONE), bytearray(LOOP), bytearray(long_form()), bytearray(LIMIT + 1000)):
        for call in OF_BLOCK if len(block) < 1000 else (exifnorm.normal,):
            outcome(call, block)
            outcome(exifnorm.same, block, block)
            block.append(0)  # raises BufferError if a view of it is left
            block.pop()


@pytest.mark.parametrize("wrong", [None, 5, "MM", 1.5, [77, 77], {}, bytes], ids=repr)
def test_what_are_no_bytes(wrong):
    for call in GIVEN:
        assert outcome(call, wrong)[0] == "TypeError"


def test_an_open_file_is_told_what_to_do():
    for call in (exifnorm.normal, exifnorm.fields, exifnorm.jpeg_blocks):
        with open("/dev/null", "rb") as file, pytest.raises(TypeError, match="read"):
            call(file)


@pytest.mark.parametrize("name", ["kind", "normal", "digest", "show", "fields", "captions"])
def test_arguments_of_a_call(name):
    """One block, by its place or by its name, also before the library is loaded."""
    call = getattr(exifnorm, name)
    for _ in range(2):
        assert call(block=ONE) == call(ONE)
    for arguments, named in (((), {}), ((), {"other": ONE}), ((ONE,), {"block": ONE}), ((ONE,), {"other": ONE}), ((ONE, "md5", ONE), {})):
        with pytest.raises(TypeError):
            call(*arguments, **named)


def test_bytes_that_are_not_contiguous():
    assert {outcome(call, memoryview(octets)[::2])[0] for call, (octets, _) in GIVEN.items()} == {"BufferError"}


@pytest.mark.parametrize("empty", [b"", bytearray(), memoryview(b""), array.array("B")], ids=lambda it: type(it).__name__)
def test_blocks_of_no_bytes(empty, watch):
    """The library gets no null pointer: watched.c ends the process at one."""
    assert {outcome(call, empty) for call in OF_BLOCK} == {("Refused", "UnknownKind", 0, None)}
    assert outcome(exifnorm.same, empty, ONE) == ("Refused", "UnknownKind", 0, 1)
    assert outcome(exifnorm.same, ONE, empty) == ("Refused", "UnknownKind", 0, 2)


# ---- exceptions, objects and examples


@pytest.mark.parametrize(
    "first, second, expected",
    [
        (LOOP, ONE, ("Loop", 22, 1, "Loop at 22 in block 1")),
        (ONE, LOOP, ("Loop", 22, 2, "Loop at 22 in block 2")),
        (LOOP, CAPTION[:3], ("Loop", 22, 1, "Loop at 22 in block 1")),
        (CAPTION, CAPTION[:3], ("DataSetCut", 0, 2, "DataSetCut at 0 in block 2")),
    ],
)
def test_refusals_of_two_blocks(first, second, expected):
    with pytest.raises(exifnorm.Refused) as raised:
        exifnorm.same(first, second)
    why = raised.value
    assert (why.cause, why.offset, why.side, str(why)) == expected
    again = pickle.loads(pickle.dumps(why))
    assert (again.cause, again.offset, again.side, str(again)) == expected, "pickled"


def test_place_of_a_fault_after_six_bytes():
    with pytest.raises(exifnorm.Refused) as raised:
        exifnorm.kind(b"Exif\0\0" + LOOP)
    assert (raised.value.offset, str(raised.value)) == (22, "Loop at 22")


def test_classes_of_exceptions():
    assert issubclass(exifnorm.Refused, ValueError) and issubclass(exifnorm.NormalTooLong, ValueError)
    assert issubclass(exifnorm.LibraryMissing, OSError)


def test_objects_are_pickled_and_can_not_be_changed():
    field, caption = exifnorm.fields(ONE)[0], BlockCaption("title", b"T", None)
    for it, name in ((field, "tag"), (caption, "label"), (exifnorm.Ratio(1, 0), "numerator")):
        assert pickle.loads(pickle.dumps(it)) == it and hash(it) == hash(pickle.loads(pickle.dumps(it)))
        with pytest.raises(AttributeError):
            setattr(it, name, 1)


def test_calls_are_pickled():
    """Each of them, so that another process can make it."""
    for call in (exifnorm.kind, exifnorm.normal, exifnorm.digest, exifnorm.same, exifnorm.show, exifnorm.fields, exifnorm.captions):
        assert pickle.loads(pickle.dumps(call)) is call


MODULES = [
    exifnorm,
    *(
        importlib.import_module(f"exifnorm.{it.name}")
        for it in pkgutil.iter_modules(exifnorm.__path__)
        if it.name not in ("_native", "_in_c")
    ),
]


@pytest.mark.parametrize("module", MODULES, ids=named)
def test_examples(module):
    found = doctest.testmod(module)
    assert found.attempted and not found.failed


def test_public_names_are_exported():
    assert not {*blocks.__all__} & {*pictures.__all__}, "a name has two meanings"
    for module in (blocks, pictures):
        assert all(getattr(exifnorm, name) is getattr(module, name) for name in module.__all__)
    for module in (exifnorm, blocks, pictures):
        assert [name for name in dir(module) if not name.startswith("_")] == sorted(module.__all__)
        assert {*module.__all__} <= {*vars(module)}, "a name is looked for once"
        with pytest.raises(AttributeError, match=f"^module '{module.__name__}' has no attribute 'nothing'$"):
            module.nothing


def fresh(code):
    """What a new process prints."""
    environment = dict(os.environ, PYTHONPATH=os.pathsep.join(sys.path))
    return subprocess.run([sys.executable, "-S", "-c", code], stdout=subprocess.PIPE, text=True, check=True, env=environment).stdout


def test_a_program_waits_for_no_more_than_it_needs():
    """An import alone loads none of Python's modules, and a call for blocks none of those for pictures."""
    loaded = "import sys; own = {*sys.modules}; import exifnorm; %s; print(*{*sys.modules} - own)"
    assert not [it for it in fresh(loaded % "0").split() if not it.startswith("exifnorm") or it == "exifnorm._calls"]
    assert not [it for it in fresh(loaded % "exifnorm.LIMIT").split() if it == "ctypes"]
    assert "exifnorm._calls" in fresh(loaded % "exifnorm.kind").split()


def test_blocks_need_nothing_of_pictures():
    code = (
        "import sys, exifnorm; exifnorm.kind(b'\\x1c\\x02\\x78\\0\\4Vase'); print([it for it in sys.modules if 'exifnorm_pictures' in it])"
    )
    assert fresh(code) == "[]\n"


def test_version(version):
    assert exifnorm.version() == version


# ---- what the calls cost


ODD = laid(Exif({0x9999: Value(7, bytes(99_999))}), Layout("<"))
SPACES = f"xmlns:r='http://www.w3.org/1999/02/22-rdf-syntax-ns#' xmlns:n='http://{'n' * 240}/'"
NAMES = " ".join(f"n:a{it}='1'" for it in range(100))  # the form has their namespace a hundred times
LONG_NAMES = f"<r:RDF {SPACES}><r:Description {NAMES}/></r:RDF>".encode()
ATTRIBUTES = " ".join(f"e:Name{it}='0'" for it in range(40))  # as Lightroom writes its settings: the form is almost twice as long
SETTINGS = f"<r:RDF {SPACES.split()[0]} xmlns:e='http://e/'><r:Description {ATTRIBUTES}/></r:RDF>".encode()
MANY = picture(COMMENT * 1000)
BY_CALL = {
    "kind": ({"check": 1}, exifnorm.kind, ONE),
    "kind of a refused block": ({"check": 1, "cause_name": 1}, exifnorm.kind, LOOP),
    "normal": ({"normalise": 1}, normal, ONE),
    "normal of a bytearray": ({"normalise": 1}, normal, bytearray(ONE)),
    "normal of a large block": ({"normalise": 1}, normal, laid(Exif({0x9999: Value(7, bytes(100_000))}), Layout("<"))),
    "normal of a block with a byte less than its form": ({"normalise": 1}, normal, ODD),
    "normal of a refused block": ({"normalise": 1, "cause_name": 1}, normal, LOOP),
    "digest": ({"normalise": 1}, exifnorm.digest, ONE),
    "same": ({"compare": 1}, exifnorm.same, ONE, CAPTION),
    "show": ({"show": 1}, exifnorm.show, ONE),
    "show of a large block": ({"show": 1}, exifnorm.show, laid(Exif({0x9999: Value(7, bytes(100_000))}), Layout("<"))),
    "captions": ({"captions": 1}, exifnorm.captions, CAPTION),
    "captions that are longer than expected": ({"captions": 2}, exifnorm.captions, Record([(2, 120, bytes(60_000))]).spelled()),
    **{
        f"normal of {count:,} numbers in twice as many bytes": (
            {"normalise": calls},
            exifnorm.normal,
            laid(Exif({0x0116: Value(SHORT, [1] * count)}), Layout("<")),
        )
        for count, calls in ((500, 1), (40_000, 2))
    },
    "fields": ({"normalise": 1}, exifnorm.fields, ONE),
    "fields of a form that is too long": ({"normalise": 1, "show": 1}, lambda: exifnorm.fields(long_form())),
    "fields with a record": ({"normalise": 1, "check": 1}, exifnorm.fields, laid(Exif({}, record=Record([(2, 5, b"T")])), Layout(">"))),
    "xmp_normal": ({"xmp_normalise": 1}, exifnorm.xmp_normal, small_packets()[0]),
    "xmp_normal of many attributes": ({"xmp_normalise": 1}, exifnorm.xmp_normal, SETTINGS),
    "xmp_normal of a form that is longer than expected": ({"xmp_normalise": 2}, exifnorm.xmp_normal, LONG_NAMES),
    "xmp_normal of a refused packet": ({"xmp_normalise": 1, "cause_name": 1}, exifnorm.xmp_normal, b"<a/>"),
    "xmp_properties": ({"xmp_normalise": 1}, exifnorm.xmp_properties, small_packets()[0]),
    "xmp_properties that are not sorted": ({"xmp_unsorted": 1}, functools.partial(exifnorm.xmp_properties, sort=False), small_packets()[0]),
    "version": ({"version": 1}, exifnorm.version),
    "jpeg_parts": ({"jpeg_parts": 1}, exifnorm.jpeg_parts, PICTURE),
    "jpeg_parts of many": ({"jpeg_parts": 2}, exifnorm.jpeg_parts, MANY),
    "jpeg_parts of too many": ({"jpeg_parts": 1}, exifnorm.jpeg_parts, MANY, 999),
    "jpeg_blocks": ({"jpeg_blocks": 1, "photoshop_resources": 1}, exifnorm.jpeg_blocks, PICTURE),
    "jpeg_blocks of Exif alone": ({"jpeg_blocks": 1}, exifnorm.jpeg_blocks, picture(exif(ONE))),
    "jpeg_blocks of a refused head": ({"jpeg_blocks": 1, "jpeg_parts": 1}, exifnorm.jpeg_blocks, picture(end=b"x")),
    "photoshop_resources": ({"photoshop_resources": 1}, exifnorm.photoshop_resources, b""),
    "jpeg_unread": ({"jpeg_unread": 1}, exifnorm.jpeg_unread, PICTURE),
    "jpeg_same": ({"jpeg_same": 1}, exifnorm.jpeg_same, PICTURE, PICTURE),
    "jpeg_same_blocks": ({"jpeg_same_blocks": 1}, exifnorm.jpeg_same_blocks, PICTURE, PICTURE),
    **{
        f"jpeg_xmp of {name}": ({"jpeg_xmp": 1}, exifnorm.jpeg_xmp, octets)
        for name, octets in {"a packet": PICTURE, "none": picture(), "two": picture(2 * packet(VASE)), "no head": b""}.items()
    },
}


@pytest.mark.parametrize("row", BY_CALL.values(), ids=BY_CALL)
def test_calls_of_the_library(watch, row):
    """Each call of the package calls the library once, where that is enough."""
    expected, call, *arguments = row
    assert watch.of(call, *arguments) == expected


# What no library of this version answers: a status, a cause or a number of rows.
WRONG_ANSWERS = {
    "jpeg_parts": ([(7, 0, 0, b""), (5, 0, 3, b""), (4, 0, 0, b"")], lambda: exifnorm.jpeg_parts(PICTURE, 3)),
    "jpeg_xmp": ([(it, 0, 0) for it in (1, 3, 4, 5, 6, 8, 9)], lambda: exifnorm.jpeg_xmp(PICTURE)),
    "jpeg_unread": ([(it, 0, 0) for it in (1, 5, 7, 9)], lambda: exifnorm.jpeg_unread(PICTURE)),
    **{call.__name__: ([(3, 0, 0, 0, 0), (9, 0, 0, 0, 0)], functools.partial(call, PICTURE, PICTURE)) for call in SAMES},
}


@pytest.mark.parametrize("name", WRONG_ANSWERS)
def test_a_library_that_answers_otherwise(name, monkeypatch):
    answers, call = WRONG_ANSWERS[name]
    for answer in answers:
        monkeypatch.setattr(_library.library(), name, lambda *_, it=answer: it)
        assert outcome(call)[0] == "AssertionError"


@pytest.mark.parametrize("call", SAMES, ids=named)
def test_failures_of_a_comparison(call, monkeypatch):
    monkeypatch.setattr(_library.library(), call.__name__, lambda *_: (4, 0, 0, 0, 0))
    assert outcome(call, PICTURE, PICTURE)[0] == "MemoryError"
    monkeypatch.setattr(_library.library(), call.__name__, lambda *_: (6, 105, 0, 0, 0))
    with pytest.raises(exifnorm.PictureRefused, match=r"^JpegTooLong at 0 in the head, picture 2$"):
        call(PICTURE, PICTURE)


@pytest.mark.parametrize(
    "missing, arguments",
    [("jpeg_xmp", [PICTURE]), ("xmp_unsorted", [VASE]), ("jpeg_same", [PICTURE, PICTURE])],
    ids=["jpeg_xmp", "xmp_unsorted", "jpeg_same"],
)
def test_an_older_library_lacks_one_call(missing, arguments, shared, monkeypatch):
    """All others are there. An older one has the comparison of blocks by the name of that with XMP, and it is never taken for it."""
    of_blocks, plain = "exifnorm_jpeg_same_blocks", ctypes.CDLL

    class Older:
        def __init__(self, place):
            self.library = plain(place)

        def __getattr__(self, name):
            if name == (of_blocks if missing == "jpeg_same" else f"exifnorm_{missing}"):
                raise AttributeError(name)
            return getattr(self.library, of_blocks if (missing, name) == ("jpeg_same", "exifnorm_jpeg_same") else name)

    monkeypatch.setattr(_library.ctypes, "CDLL", Older)
    older = _library.Library(str(shared))
    assert older.version() and older.jpeg_unread(picture()) == ()
    assert older.jpeg_same_blocks(picture(exif(ONE)), picture(exif(LITTLE))) == 1
    with pytest.raises(exifnorm.LibraryMissing, match="XMP" if missing == "jpeg_same" else f"exifnorm_{missing}"):
        getattr(older, missing)(*arguments)


def test_the_library_is_loaded_once(shared, monkeypatch):
    opened, plain = [], ctypes.CDLL
    _library.library.cache_clear()
    monkeypatch.setattr(_library.ctypes, "CDLL", lambda place: opened.append(place) or plain(place))
    for _ in range(10):
        exifnorm.kind(ONE), exifnorm.normal(ONE), exifnorm.fields(ONE), exifnorm.version()
    assert opened == [str(shared)]


def peak(call, *arguments):
    """The most bytes that Python allocates during a call."""
    call(*arguments)
    gc.collect()
    tracemalloc.start()
    try:
        before = tracemalloc.get_traced_memory()[0]
        call(*arguments)
        return tracemalloc.get_traced_memory()[1] - before
    finally:
        tracemalloc.stop()


@pytest.fixture(scope="module")
def large():
    """A block of 4 MB."""
    return laid(Exif({0x9999: Value(7, bytes(4_000_000))}), Layout("<"))


def with_six_bytes(block):
    return b"Exif\0\0" + block


@pytest.mark.parametrize("as_given, copies", [(bytes, 0), (bytearray, 1), (memoryview, 1), (with_six_bytes, 0)])
def test_memory_of_a_large_block(large, way, as_given, copies):
    """Bytes are not copied, and other objects once. The extension module writes a form into the object that is returned."""
    block, size = as_given(large), len(large)
    assert peak(exifnorm.kind, block) < copies * size + 10_000
    assert peak(exifnorm.same, block, block) < 2 * copies * size + 10_000
    assert size < peak(exifnorm.normal, block) < (copies + (1 if way == "extension" else 2)) * size + 10_000


def test_memory_of_what_is_too_long():
    """However long an object is, no more of it is copied than the longest block has."""
    for block in (bytearray(4 * LIMIT), memoryview(bytearray(4 * LIMIT)).cast("Q")):
        assert peak(outcome, exifnorm.kind, block) < LIMIT + 100_000


def test_a_form_has_its_own_bytes_alone(large):
    exifnorm.normal(large)
    tracemalloc.start()
    try:
        form = exifnorm.normal(large)
        assert len(form) <= tracemalloc.get_traced_memory()[0] < len(form) + 10_000
    finally:
        tracemalloc.stop()


# ---- threads


@pytest.mark.parametrize("call", [exifnorm.kind, normal, exifnorm.show, _calls.captions_text, lambda it: exifnorm.same(it, it)])
def test_calls_at_once(watch, monkeypatch, call):
    """A call for a long block doesn't block other threads: sixteen of them are inside the library at the same time."""
    block = laid(Exif({0x010E: Value(ASCII, b"A" * 20_000)}), Layout("<"))
    expected = call(block)
    monkeypatch.setenv("MEET", "16")
    with ThreadPoolExecutor(16) as pool:
        assert list(pool.map(lambda _: call(block), range(16))) == [expected] * 16
    assert watch.inside.value == 16
