"""Single functions at their limits, which no picture of the other tests reaches: what is called, and what it returns; and the examples in all
modules."""

import contextlib
import doctest
import hashlib
import importlib
import io
import pkgutil
import os
import re
import shutil
import sqlite3
import subprocess
import sys
import tempfile
import unittest
from types import SimpleNamespace
from unittest import mock

import pytest
from exact_fields import field
from hypothesis import given, strategies, strategies as st
from made_files import xmp as packet_of
from studio import TOP, WithPictures, name_of, needs, put, read, run, tool, write

import exifnorm_pictures
from exifnorm_pictures import xmp
from exifnorm_pictures.catalogue.store import BLOCK_COLUMNS, PICTURE_COLUMNS, Catalogue, NoCatalogue
from exifnorm_pictures.cli import main, names, output, parser
from exifnorm_pictures.cli.commands import nightly, report, same
from exifnorm_pictures.cli.options import Files
from exifnorm_pictures.comparison import wording
from exifnorm_pictures.extract import exiftool, programs
from exifnorm_pictures.fields import listing, names as field_names, plain_texts, xmp_properties
from exifnorm_pictures.fields.field import Field
from exifnorm_pictures.files import session, signals
from exifnorm_pictures.files.session import Session
from exifnorm_pictures.judge import judge
from exifnorm_pictures.model import records, texts, verdicts, xmp_names as short_names
from exifnorm_pictures.model.errors import Damaged
from exifnorm_pictures.model.found import EXIF, NotRead
from exifnorm_pictures.model.numbers import Numbers
from exifnorm_pictures.model.problems import TEXTS
from exifnorm_pictures.model.records import BlockRecord, PictureRecord, Side, Stamp
from exifnorm_pictures.model.tables import block_of_row
from exifnorm_pictures.model.verdicts import Verdict
from exifnorm_pictures.refusals import mend
from exifnorm_pictures.scan import index, moved, walk, workers
from exifnorm_pictures.scan.walk import FoundFile


MODULES = [it.name for it in pkgutil.walk_packages(exifnorm_pictures.__path__, "exifnorm_pictures.") if not it.name.endswith("__main__")]


@pytest.mark.parametrize("name", MODULES)
def test_examples_in_a_module(name):
    module = importlib.import_module(name)
    assert doctest.testmod(module).failed == 0
    assert [word for word in getattr(module, "__all__", ()) if not hasattr(module, word)] == []


def digits(octets, count=32):
    return hashlib.sha256(octets).hexdigest()[:count]


def failed(call, *arguments):
    """The name of an exception, and its text."""
    with pytest.raises(Exception) as raised:
        call(*arguments)
    return type(raised.value).__name__, str(raised.value)


# ---- values in a line


def exact(octets, where="exif", key="9999"):
    return listing.exact(Field(where, key, "octets" if where == "thumb" else "UNDEFINED", len(octets), octets))


def numbers(text):
    return listing.exact(field("main", "0102", "SHORT", len(text.split()), text))


MANY, WIDE, ASCII = bytes(range(200, 233)), "a\u00fc".encode("utf-16-le"), b"ASCII\0\0\0GPS"
OCTETS = {
    b"": '""',
    b"\0": '""',
    b"abc": '"abc"',
    b"abc\0": '"abc"',
    b"abc\0\0": "0x6162630000",
    b'a"b\\': r'"a\"b\\"',
    b"a\n\t\r": '"a\\n\\t\\r"',
    b"a\x1b": "0x611b",
    b"\xc3\xbc": '"\u00fc"',
    b"\xfc": "0xfc",
    b"x" * 400: f'"{"x" * 400}"',
    b"x" * 401: f"0x{'78' * 8}.. sha256:{digits(b'x' * 401)}",
    ("\u00fc" * 400).encode(): f'"{chr(0xFC) * 400}"',
    MANY[:32]: f"0x{MANY[:32].hex()}",
    MANY: f"0x{MANY[:8].hex()}.. sha256:{digits(MANY)}",
    MANY[:32] + b"\0": f"0x{MANY[:8].hex()}.. sha256:{digits(MANY[:32] + bytes(1))}",
    chr(0x10000).encode() * 400: f'"{chr(0x10000) * 400}"',
}
IN_OTHER_FORMS = [
    (WIDE, "main", "9c9b", 'utf-16 "a\u00fc"'),
    (WIDE + b"\0\0", "main", "9c9f", 'utf-16 "a\u00fc"'),
    (b'a\0"\0\\\0\n\0', "main", "9c9c", 'utf-16 "a\\"\\\\\\n"'),
    (WIDE, "exif", "9c9b", "0x6100fc00"),
    (WIDE, "main", "9ca0", "0x6100fc00"),
    (b"a\0b", "main", "9c9d", "0x610062"),
    (b"\0\0", "main", "9c9e", "0x0000"),
    (b"\1\0", "main", "9c9e", "0x0100"),
    (b"a\0" * 400, "main", "9c9e", f'utf-16 "{"a" * 400}"'),
    (b"a\0" * 40_000, "main", "9c9e", f"0x{'6100' * 4}.. sha256:{digits(bytes([97, 0]) * 40_000)}"),
    (b"ASCII\0\0\0", "exif", "9286", 'ascii ""'),
    (b"ASCII\0\0\0a\0", "exif", "9286", "0x4153434949000000" "6100"),
    (b"ASCII\0\0 a", "exif", "9286", "0x41534349490000" "2061"),
    (b"UNICODE\0a", "exif", "9286", "0x554e49434f444500" "61"),
    # UserComment, GPSProcessingMethod and GPSAreaInformation alone begin with a character set (CIPA DC-008, 4.6.6 and 4.6.7)
    *((ASCII, where, key, 'ascii "GPS"') for where, key in (("exif", "9286"), ("gps", "001b"), ("gps", "001c"))),
    *((ASCII, where, key, f"0x{ASCII.hex()}") for where, key in (("exif", "001b"), ("gps", "001d"))),
    (b"abc", "thumb", "jpeg", f"sha256:{digits(b'abc')}"),
]
LONG_NUMBERS = "1 " * 79 + "123"
LINES = [
    *((exact, (octets,), text) for octets, text in OCTETS.items()),
    *((exact, tuple(arguments), text) for *arguments, text in IN_OTHER_FORMS),
    *((numbers, (it,), it) for it in ("1", "1 " * 79 + "12")),
    (numbers, (LONG_NUMBERS,), f"{'1 ' * 30}.. sha256:{digits(LONG_NUMBERS.encode())}"),
    (listing.shortened, (f"0x00.. sha256:{digits(b'abc')}",), f"0x00.. sha256:{digits(b'abc', 12)}"),
    (listing.shortened, ("sha256:0123456789ab",), "sha256:0123456789ab"),
    # Windows-1252 has signs where Latin-1 has control characters, and five bytes without one (RFC 1345 and Unicode's table CP1252)
    *(
        (plain_texts.decoded, (octets,), (text, "character set guessed: Windows-1252"))
        for octets, text in ((b"\x80\x93a\x94\x9f", "€“a”Ÿ"), (b"\xe9\x81\x8d\x8f\x90\x9d", "é\\x81\\x8d\\x8f\\x90\\x9d"), (b"\xff\0", "ÿ"))
    ),
    (
        texts.escaped,
        ("\ud800\x7f\x85\u2028\U000e0001\udc80\udcff\ud7ff\\\r\n\t",),
        "\\ud800\\x7f\\u0085\\u2028\\U000e0001\\x80\\xff\\ud7ff\\\\\\r\\n\\t",
    ),
    (texts.reason, (OSError(2, "No Such File"),), "no such file"),
    (texts.reason, (OSError(),), "oserror"),
    (texts.reason, (PermissionError(),), "permissionerror"),
    (texts.path_members, ("\u00fc\n".encode(),), {"path": "\u00fc\n"}),
    (texts.path_members, (b"\xfc",), {"path": "\\xfc", "path_hex": "fc"}),
]


# ---- XMP


def of_xmp(inside, attributes=""):
    found = xmp.statements(packet_of(inside, attributes), xmp.Extensions({}), set())
    return [(it.tag, it.type, it.count, listing.exact(it)) for it in xmp_properties.fields_of_statements(found)]


def text_of_xmp(inside, attributes=""):
    return of_xmp(inside, attributes)[0][3]


def listed(kind, name, *more):
    return f"<dc:{name}><rdf:{kind}>{''.join(f'<rdf:li{it}</rdf:li>' for it in more)}</rdf:{kind}></dc:{name}>"


TWO, LONG_TEXT = (">b", " xml:lang='DE'>a"), "x" * 65_535
HISTORY = "<dc:a rdf:parseType='Resource'>" + "".join(f"<dc:{it}>{it * 200}</dc:{it}>" for it in "ab") + "</dc:a>"
OF_XMP = [
    (
        of_xmp,
        (listed("Bag", "subject", *TWO) + listed("Seq", "creator", *TWO) + listed("Alt", "title", *TWO),),
        [(f"dc:{name}", kind, 2, f'{kind}["b", "a"@de]') for name, kind in (("creator", "Seq"), ("subject", "Bag"), ("title", "Alt"))],
    ),
    (
        of_xmp,
        ("<xmp:x rdf:resource='http://a/'/><xmp:y rdf:parseType='Resource'><dc:b>1</dc:b><dc:a>2\"</dc:a></xmp:y>", "xmp:z='&#10;'"),
        [("xmp:x", "URI", 1, "<http://a/>"), ("xmp:y", "structure", 2, '{dc:a="2\\"", dc:b="1"}'), ("xmp:z", "text", 1, '"\\n"')],
    ),
    (of_xmp, ("<dc:a>2</dc:a><dc:a>1</dc:a><dc:a>1</dc:a>",), [("dc:a", "text", 2, '"2", "1"')]),  # in their order
    (text_of_xmp, ("", "dc:a='" + "x" * 65_534 + "'"), f'"{"x" * 65_534}"'),
    (text_of_xmp, ("", f"dc:a='{LONG_TEXT}'"), f'"{LONG_TEXT[:59]}.. sha256:' + digits(f'"0:0:{LONG_TEXT}'.encode())),
    (lambda: text_of_xmp(HISTORY)[:60], (), '{dc:a="' + "a" * 53),
    (lambda: len(text_of_xmp(HISTORY)) < 120, (), True),
    (text_of_xmp, (listed("Seq", "a", *(f">{it}" for it in range(11))),), "Seq[" + ", ".join(f'"{it}"' for it in range(11)) + "]"),
]


# ---- results in words


def sentence(found, parts=()):
    return verdicts.sentence_of_verdicts([Verdict(*it) for it in zip(("exif", "iptc", "xmp"), *zip(*found))], parts)


def result(found, parts=()):
    return verdicts.result_of([Verdict(*it) for it in found], parts)


def block(name, status="accepted", text="d", octets="o", kind="exif"):
    return SimpleNamespace(kind=kind, name=name, status=status, digest=text, octets=octets, meaning=text)


def block_record(status, cause, place):
    return BlockRecord("exif", "Exif", "somewhere", "own", status, None, cause, place, 9, "0" * 64)


def line_of(status, cause, place):
    it = block_record(status, cause, place)
    return it.refusal, it.line


def marks(*four):
    names_ = ("st_size", "st_mtime_ns", "st_ctime_ns", "st_ino", "st_dev")
    return tuple(Stamp.of(SimpleNamespace(**dict(zip(names_, (*four, 9))))))[:4]


SAME, OTHER, REFUSED, UNREADABLE = ("exif", "same"), ("exif", "different"), ("iptc", "refused"), ("xmp", "unreadable")
REFUSED_SAME, UNREADABLE_SAME = (*REFUSED, True), (*UNREADABLE, True)
KNOWN, OTHER_PART, UNKNOWN = NotRead("b", "1"), NotRead("a", "2"), NotRead("c", "")
BOTH = [block("Exif"), block("second Exif", text="e", octets="p")]
OCTETS_OF_BOTH = hashlib.sha256(b"Exif: o\nsecond Exif: p").hexdigest()
LEAST, GREATEST = -(1 << 63), (1 << 63) - 1
# a group of one picture
ODD = SimpleNamespace(is_odd=True, names=[b"x.jpg"], words=lambda is_whole=True: ["title: [-one-]{+two+}"])
LONG = SimpleNamespace(is_odd=True, names=[b"x.jpg"], words=lambda is_whole=True: [f"title: {'a' * 60 * is_whole}[-one-]{{+two+}}"])
CLOSED = PictureRecord.of(b"/a\n/b", b"", problem="Unreadable", detail="permission denied")
NOT_MADE = (block_record("failed", "OutOfMemory", None), block_record("too long", "NormalTooLong", None))
IN_ORDER = "main 010f, exif 9003, gps 0001, thumb 0112, thumb ffff, thumb jpeg, thumb strip, iptc 2:5, iptc 2:25".split(", ")


def names_in_order(fields):
    return [f"{it.directory} {it.tag}" for it in wording.differences([], [Field(*it.split(), "SHORT", 1, (1,)) for it in fields])]


RESULTS = [
    (names_in_order, (IN_ORDER[::-1],), IN_ORDER),  # a thumbnail is after its fields
    (sentence, ([("same", True), ("same", False), ("same", False)],), "Exif, IPTC and XMP are the same"),
    (sentence, ([("same", True), ("different", False), ("same", False)],), "Exif and XMP are the same, IPTC is different"),
    (
        sentence,
        ([("refused", True), ("refused", False), ("unreadable", False)],),
        "IPTC is refused, Exif is refused, the same bytes, XMP is unreadable",
    ),
    (
        sentence,
        ([("refused", True), ("refused", True), ("unreadable", True)],),
        "Exif and IPTC are refused, the same bytes, XMP is unreadable, the same bytes",
    ),
    (sentence, ([("absent", False)] * 3, ("a", "b")), "no Exif and no IPTC and no XMP; not wholly read: a, b"),
    (result, ([SAME],), "same"),
    (result, ([],), "same"),
    (result, ([SAME], ("a",)), "not wholly read"),
    (result, ([SAME, OTHER, REFUSED], ("a",)), "different"),
    (result, ([SAME, REFUSED, UNREADABLE], ("a",)), "refused"),
    (result, ([SAME, UNREADABLE, REFUSED_SAME], ("a",)), "unreadable"),
    (result, ([SAME, REFUSED_SAME, UNREADABLE_SAME], ("a",)), "not wholly read"),
    (result, ([SAME, REFUSED_SAME, UNREADABLE_SAME],), "refused, the same bytes"),
    (result, ([SAME, UNREADABLE_SAME],), "unreadable, the same bytes"),
    (records.side_of, ([],), Side("absent", "", "")),
    (records.side_of, ([block("Exif")],), Side("accepted", "d", "o")),
    (
        records.side_of,
        ([block("second Exif")],),
        Side("accepted", hashlib.sha256(b"second Exif: d").hexdigest(), digits(b"second Exif: o", 64)),
    ),
    (records.side_of, ([block("Exif", "refused", None)],), Side("refused", "", "o")),
    (records.side_of, ([block("XMP", "too long", None, kind="xmp")],), Side("unreadable", "", "o")),
    (records.side_of, (BOTH,), Side("accepted", hashlib.sha256(b"Exif: d\nsecond Exif: e").hexdigest(), OCTETS_OF_BOTH)),
    (records.side_of, ([BOTH[0], block("second Exif", "failed", None, "p")],), Side("refused", "", OCTETS_OF_BOTH)),
    (verdicts.left_open, ([KNOWN], [KNOWN]), []),
    (verdicts.left_open, ([KNOWN, KNOWN], [KNOWN]), ["b"]),
    (verdicts.left_open, ([KNOWN, OTHER_PART], [OTHER_PART, KNOWN]), []),
    (verdicts.left_open, ([UNKNOWN], [UNKNOWN]), ["c"]),
    (verdicts.left_open, ([KNOWN, UNKNOWN], [OTHER_PART]), ["a", "b", "c"]),
    (verdicts.left_open, ([NotRead("b", "3")], [KNOWN]), ["b"]),
    (moved.content_key, (["a", "", ""], "", 1), ("a", "", "", "", 1)),
    (moved.content_key, (["", "", ""], "", 1), None),
    (moved.content_key, (["a", "", ""], None, 1), None),
    (moved.content_key, (["a", "", ""], "p", None), None),
    (moved.content_key, (["", "", "a"], "p", 0), ("", "", "a", "p", 0)),
    # of 64 bits with a sign
    (marks, (1, 2, 3, 4), (1, 2, 3, 4)),
    (marks, (0, LEAST, GREATEST, GREATEST + 1), (0, LEAST, GREATEST, LEAST)),
    (marks, (0, LEAST - 1, 0, 0), (0, GREATEST, 0, 0)),
    (marks, (0, LEAST - 1, GREATEST, (1 << 64) - 1), (0, GREATEST, GREATEST, -1)),
    # the last column is as `exifnorm check` prints it (docs/FORMAT.md, section 8); a byte offset may be 0
    (line_of, ("accepted", None, None), ("None", "ok exif")),
    (line_of, ("refused", "Overlap", 34), ("Overlap at 34", "refused: Overlap at 34")),
    (line_of, ("refused", "UnknownKind", 0), ("UnknownKind at 0", "refused: UnknownKind at 0")),
    (line_of, ("unreadable", "NoRDF", None), ("NoRDF", "unreadable: NoRDF")),
    (line_of, ("too long", "NormalTooLong", None), ("NormalTooLong", "refused: NormalTooLong")),
    (line_of, ("failed", "OutOfMemory", None), ("OutOfMemory", "failed: OutOfMemory")),
    (lambda: PictureRecord.of(b"/a", b"/").state, (), "no block"),
    (
        output.record_lines,
        (PictureRecord.of(b"/a", b"/", blocks=NOT_MADE),),
        ["/a: Exif: failed: OutOfMemory", "/a: Exif: too long: NormalTooLong"],
    ),
    (output.closed_folder, (CLOSED,), ["the folder /a\\n/b can't be read: permission denied"]),
    (output.closed_folder, (CLOSED._replace(root=b"/a"),), []),  # a file that can't be read has its own row
    # a page begins with its type, in letters of either kind (HTML, 13.1.1)
    *((report._is_page, (it,), True) for it in (b"<!DOCTYPE html>", b"<!doctype HTML>")),
    *((report._is_page, (it,), False) for it in (b"<!DOCTYPE htm", b" <!DOCTYPE html>", b"")),
    # the pictures of a night that changed like no other: 20 have their values, below a head and an empty line
    (lambda groups: list(nightly.letter("a", [], [], groups)), ([ODD] * 20,), ["a", "", *["  x.jpg title: [-one-]{+two+}"] * 20]),
    (lambda groups: len([*nightly.letter("a", [], [], groups)]), ([ODD] * 21,), 22),
    # an edit in a long text: a line has room for what was edited, and not for the text around it
    (lambda groups: list(nightly.letter("a", [], [], groups))[2:], ([LONG],), ["  x.jpg title: [-one-]{+two+}"]),
]


# ---- arguments


def refused(call):
    """The last line that is printed about refused arguments, and the command."""
    with contextlib.redirect_stderr(io.StringIO()) as printed, pytest.raises(SystemExit) as ended:
        call()
    assert ended.value.code == 3
    return printed.getvalue()


def refused_words(*words):
    usage, last = re.fullmatch(r"(?s)usage: (exifnorm-pictures[ \w]*).*\n(.*)\n", refused(lambda: parser.parsed(words))).groups()
    assert last.partition(":")[0] == usage.strip(), "the usage is that of the command"
    return last.partition(": ")[2]


def words_given(text, *wanted):
    found = vars(parser.parsed(text.split()))
    assert found["command"] == name_of(text)
    return [found[it] for it in wanted]


def names_given(text):
    found = vars(parser.parsed(text.split()))
    assert found["command"] == name_of(text)
    return [found[it] for it in ("picture", "out", "source") if found.get(it) is not None] + found.get("names", [])


EMPTY = "a name is empty"
ARGUMENTS = [
    (refused_words, ("changed", "a", "b", "--jobs", "0"), "argument --jobs: 0 is less than 1"),
    (refused_words, ("changed", "a", "b", "--jobs=-1"), "argument --jobs: -1 is less than 1"),
    *((refused_words, ("changed", "a", "b", "--jobs", it), f"argument --jobs: {it} is no whole number") for it in ("two", "1.5")),
    *(
        (refused_words, ("mend", "a", "b", "--limit", it), f"argument --limit: {it} is no number of seconds")
        for it in ("0", "x", "1e6", "nan")
    ),
    (refused_words, ("mend", "a", ""), f"argument OUT: {EMPTY}"),
    (refused_words, ("changed", "", "b"), f"argument BEFORE: {EMPTY}"),
    (refused_words, ("changed", "a", "b\0"), f"argument AFTER: {EMPTY}"),
    (refused_words, ("show", ""), f"argument PICTURE: {EMPTY}"),
    (refused_words, ("catalogue", "merge", "", "--catalogue", "c"), f"argument CATALOGUE: {EMPTY}"),
    (refused_words, ("index", "", "--catalogue", "c"), f"argument CATALOGUE or FOLDER: {EMPTY}"),
    (refused_words, ("nightly", ""), f"argument CATALOGUE or FOLDER: {EMPTY}"),
    (refused_words, ("verify", "c", ""), f"argument FOLDER: {EMPTY}"),
    *((refused_words, ("index", f"--{it}", ""), f"argument --{it}: {EMPTY}") for it in ("catalogue", "keep-old", "shards")),
    *((refused_words, ("report", f"--{it}", ""), f"argument --{it}: {EMPTY}") for it in ("rules", "since", "html")),
    (refused_words, ("same", ""), f"argument CATALOGUE: {EMPTY}"),
    (refused_words, ("catalogue", "merge", "a", "--catalogue", ""), f"argument --catalogue: {EMPTY}"),
    *(
        (refused_words, tuple(words.split()), message)
        for words, message in (
            ("show a --nonsense", "there is no option --nonsense"),
            ("show a --json b --nonsense", "there is no option --nonsense"),
            ("compare a --json b c", "unrecognized arguments: c"),
            ("show a --csv b --json", "argument --json: not allowed with argument --csv"),
            ("show a -0", "argument -0/--null: not allowed without argument --files-from"),
            ("list c --null --json", "argument --json: not allowed with argument -0/--null"),
            ("--nonsense show a", "there is no option --nonsense"),
            ("help statuse", "there is no command statuse; did you mean help statuses?"),
            ("help rhymes", "there is no command rhymes; --help lists them"),
        )
    ),
    (words_given, ("changed a b", "limit", "jobs"), [60.0, 0]),
    (words_given, ("changed a b --limit 0.5 --jobs 3", "limit", "jobs"), [0.5, 3]),
    (words_given, ("mend a b --limit 999999", "limit"), [999999.0]),
    # words that are no option: the beginning of one, the value of one, and what follows --
    (words_given, ("list c --col title", "columns"), ["title"]),
    (words_given, ("list c --where=--x", "where"), [["--x"]]),
    (words_given, ("show -- --x", "names"), [["--x"]]),
    # an option between names
    (names_given, ("show a --json b",), ["a", "b"]),
    (names_given, ("show a --limit 3 b --json c",), ["a", "b", "c"]),
    (names_given, ("show -- -a --json",), ["-a", "--json"]),
    (names_given, ("show a --json -- -b",), ["a", "-b"]),
    (names_given, ("mend a --json b",), ["a", "b"]),
    (names_given, ("index a --catalogue c b",), ["a", "b"]),
    (lambda: refused(lambda: names.named(Files("show"))).splitlines()[-1], (), "exifnorm-pictures show: give at least one name"),
    (failed, (names.named, Files("show", names=["a\0b"])), ("BadList", "a name contains a NUL")),
]


# ---- what ExifTool answers

NOT_UNDERSTOOD = "ExifTool's answer isn't understood: "
ANSWERS = {
    "it is no JSON": (b"[{]", b"[" * 100_000),
    "it isn't one object for each file": (b"{}", b"[]", b"[{},{}]", b'["a"]'),
    "it is about another file": (b"[{}]", b'[{"SourceFile": "b"}]'),
    "a value is neither a text nor a number": (b'[{"SourceFile": "a", "b": []}]', b'[{"SourceFile": "a", "b": null}]'),
}
HOW = {"stdout": subprocess.PIPE, "stderr": subprocess.PIPE, "bufsize": 0, "cwd": "/", "start_new_session": True, "env": ("C", True)}


def started(**more):
    """How a program is started, but for what happens just before it begins."""
    with mock.patch.object(subprocess, "Popen", lambda _, **how: how):
        how = programs.start(["a", "b"], "/", **more)
    assert how.pop("preexec_fn")
    return {**how, "env": (how["env"]["LC_ALL"], "PATH" in how["env"])}


OF_EXIFTOOL = [
    *((failed, (exiftool._members, octets, [b"a"]), ("Failed", NOT_UNDERSTOOD + why)) for why, them in ANSWERS.items() for octets in them),
    *((failed, (exiftool.octets, f"base64:{it}"), ("Failed", f"{NOT_UNDERSTOOD}a block is no base64")) for it in ("abc", "ab=!", "HA*I=")),
    (
        exiftool._members,
        (b'[{"SourceFile": "a", "b": 1, "c": "d", "e": 0.50}]', [b"a"]),
        [{"b": "1", "c": "d", "e": "0.50"}],
    ),
    (exiftool._members, (b" \n", [b"a", b"b"]), [{}, {}]),
    (exiftool.octets, ("base64:YWI=",), b"ab"),
    (exiftool.octets, ("text:base64:",), b"base64:"),
    (exiftool.octets, ("a\ud800",), b"a\xed\xa0\x80"),
    (exiftool.values, ({"EXIF:Make": "a", "Copy1:EXIF:Make": "b", "Makes": "c", "Make": "d"}, "Make"), ["a", "b", "d"]),
    *(
        (
            lambda program: str(programs.Missing(program)),
            (program,),
            f"{program} isn't installed, and without it no block of this picture can be extracted. In Debian: apt-get install {package}",
        )
        for program, package in (("exiftool", "libimage-exiftool-perl"), ("exiv2", "exiv2"), ("another", "another"))
    ),
    (failed, (records.has, int, 1, "a"), ("Damaged", "'a' is a value of another type")),
    # in a session of its own, in the C locale, with pipes for both outputs
    (started, (), {**HOW, "stdin": subprocess.DEVNULL}),
    (lambda: started(is_asked=True), (), {**HOW, "stdin": subprocess.PIPE}),
]


# ---- the remedies of `mend`, with the arguments that docs/REFUSALS.md shows


def programs_of(step, *ends, has_exiv2=True):
    """What a remedy calls, if its programs end with these statuses and outputs, and its result."""
    left, calls = list(ends), []

    def run(words, _):
        calls.append(" ".join(words))
        return programs.Done(*left.pop(0))

    with mock.patch.multiple(programs, run=run, needed=lambda it: it, is_there=lambda it: has_exiv2 and it == "exiv2"):
        result = step(Session(), "p")
    assert not left, "fewer programs are called"
    return calls, result


NONE, FAILS, EVERY = (0, b""), (1, b""), (0, b"PageName : a\nDocumentName : b\nHostComputer : c\n")
TOOL = "exiftool -config  -q -q -m"
ASKING, RECORD = f"{TOOL} -s -IFD0:PageName -IFD0:DocumentName -IFD0:HostComputer p", f"{TOOL} -b -IPTC p"
WITH, WITHOUT = (f"{TOOL} -overwrite_original -IFD0:PageName={text} p" for text in ("zz", ""))
OF_RECORD = [
    f"{TOOL} -overwrite_original -IFD0:PageName={text} -IPTC:SubjectReference{sign}=exifnorm:01000000:mend p"
    for text, sign in (("zz", "+"), ("", "-"))
]
BY_EXIV2 = ["exiv2 -q -Q m -M set Exif.Image.PageName Ascii zz p", "exiv2 -q -Q m -M del Exif.Image.PageName p"]
REBUILD = f"{TOOL} -overwrite_original -all= -tagsfromfile @ -all:all -unsafe p"
PRINTED = (
    f"{TOOL} -a -u -s -G1 -x System:all -x File:all -x Composite:all -x ExifTool:all -x JFIF:all -all -all# p",
    b"[IFD0] Make      : A  b\n\n[IFD0] Make : A b\n[IFD1] ThumbnailOffset : 8\n[IFD1] Thumb : (Binary data 9 bytes, use -b option to extract)\n"
    b"[M] Start Of : 1\n[M] Started : \xff\n[E] Padding : 1\n[P] IPTCDigest : 0\n[IFD0] Flash : ",
    {"[IFD0] Make : A b": 2, "[IFD1] Thumb : (Binary data 9 bytes)": 1, "[M] Started : \\xff": 1, "[IFD0] Flash : Fired (1)": 1},
)
OF_MEND = [
    (programs_of, (mend._touch, NONE, NONE, NONE, NONE), ([ASKING, RECORD, WITH, WITHOUT], True)),
    (programs_of, (mend._touch, NONE, (0, b"\x1c\2\0\0\2\0\4"), NONE, NONE), ([ASKING, RECORD, *OF_RECORD], True)),
    (programs_of, (mend._touch, NONE, NONE, FAILS), ([ASKING, RECORD, WITH], False)),
    (programs_of, (mend._touch, NONE, NONE, NONE, FAILS), ([ASKING, RECORD, WITH, WITHOUT], False)),
    (programs_of, (mend._touch, EVERY), ([ASKING], False)),
    (programs_of, (mend._by_exiv2, NONE, NONE, NONE), ([ASKING, *BY_EXIV2], True)),
    (programs_of, (mend._by_exiv2, NONE, FAILS), ([ASKING, BY_EXIV2[0]], False)),
    (programs_of, (mend._by_exiv2, NONE, NONE, FAILS), ([ASKING, *BY_EXIV2], False)),
    (lambda: programs_of(mend._by_exiv2, NONE, has_exiv2=False), (), ([ASKING], False)),
    (programs_of, (mend._by_exiv2, EVERY), ([ASKING], False)),
    *((programs_of, (mend._rebuild, end), ([REBUILD], end == NONE)) for end in (NONE, FAILS)),
    *(
        (programs_of, (mend._free_field, (0, printed)), ([ASKING], field_name))
        for printed, field_name in (
            (b"DocumentName : PageName\n", "PageName"),
            (b"PageName  : x\n", "DocumentName"),
            (b"PageName: x\nDocumentName:y\n", "HostComputer"),
            (b"\xff : x\nPageName : HostComputer", "DocumentName"),
        )
    ),
    (programs_of, (mend._printed, (0, PRINTED[1] + b"Fired\n" + PRINTED[1] + b"1\n")), ([PRINTED[0]], PRINTED[2])),
    # ExifTool and exiv2 look at endings of names, so these are kept if they are short and plain
    *(
        (texts.ending_of, (name,), ending)
        for name, ending in (
            (b"b.Jp2", ".Jp2"),
            (b"b", ""),
            (b"b.abcdefgh", ".abcdefgh"),
            (b"b.abcdefghi", ""),
            (b"b.a-b", ""),
            ("b.\u00e9".encode(), ""),
            (b"b.c.d", ".d"),
            (b"b.jpg\n", ""),
        )
    ),
]


ROWS = [*LINES, *OF_XMP, *RESULTS, *ARGUMENTS, *OF_EXIFTOOL, *OF_MEND]


@pytest.mark.parametrize("call, arguments, expected", ROWS, ids=[f"{it[0].__name__}-{number}" for number, it in enumerate(ROWS)])
def test_what_it_returns(call, arguments, expected):
    assert call(*arguments) == expected


@pytest.mark.parametrize(
    "words, meant",
    [
        ("lst c", "list"),
        ("help chek", "check"),
        ("changd", "changed"),
        ("nothing", None),
        ("s", None),
        ("list c --wihtout credit", "--without"),
        ("list c --where=x --collumns=title", "--columns"),
        ("catalogue export --quite", "--quiet"),
        ("list c --recursive", None),
        ("--vershion", "--version"),
    ],
)
def test_a_mistyped_word_is_answered_by_the_nearest_one(words, meant):
    """Also where argparse would first say what else is missing; a word that is like none is answered by none."""
    answer = refused_words(*words.split())
    assert re.match("there is no (command|option) ", answer)
    assert re.findall(r"did you mean (\S+)\?", answer) == [meant] * bool(meant)


def of_kind(kind, count, text):
    return field("xmp" if kind in ("text", "URI", "Bag", "structure") else "main", "dc:a", kind, count, text)


@pytest.mark.parametrize(
    "fields, text",
    [
        ([of_kind("ASCII", 2, '"a"')], '"a"'),
        ([of_kind("octets", 1, '"a"'), of_kind("octets", 1, '"b"')], '"a", "b"'),
        ([of_kind("text", 1, '"a"')], '"a"'),
        ([of_kind("URI", 1, "<http://a/>")], "<http://a/>"),
        ([of_kind("SHORT", 2, "1 2")], "short[2] 1 2"),
        ([of_kind("Bag", 1, 'Bag["a"]')], 'bag[1] Bag["a"]'),
        ([of_kind("structure", 1, '{dc:a="1"}')], 'structure[1] {dc:a="1"}'),
        ([of_kind("UNDEFINED", 99, f"0x00.. sha256:{digits(b'abc')}")], f"undefined[99] 0x00.. sha256:{digits(b'abc', 12)}"),
    ],
)
def test_values_in_a_list_of_changes(fields, text):
    """The values of a repeated field are one list; numbers have their type, and texts don't."""
    assert wording.bare(fields) == text
    (came,), (went,) = wording.differences([], fields), wording.differences(fields, [])
    assert (came.before, list(came.after), came.sign) == ((), fields, "+")
    assert (list(went.before), went.after, went.sign) == (fields, (), "-")
    assert wording.differences(fields, fields) == []


@pytest.mark.parametrize("octets, by_nul, expected", [(b"a\n\nb", False, [b"a", b"b"]), (b"a\nb\0\0c", True, [b"a\nb", b"c"])])
def test_names_from_standard_input(octets, by_nul, expected):
    with mock.patch("sys.stdin", io.TextIOWrapper(io.BytesIO(octets))):
        assert list(walk.names_in_list("-", by_nul)) == expected


def test_standard_input_that_is_closed():
    with mock.patch("sys.stdin", None):
        assert failed(list, walk.names_in_list("-", False)) == ("BadList", "standard input is closed")


@pytest.mark.parametrize("name, line", parser.WENT.items())
def test_a_command_that_went_names_the_one_to_use(name, line):
    """Which is a line that is accepted, with a name in place of each word in capitals."""
    for words in ([name, "a", "b"], [name, "--help"], ["help", name]):
        assert f"exifnorm-pictures {line}\n" in refused(lambda: parser.parsed(words)), words
    assert vars(parser.parsed(line.replace(" ..", "").split()))["command"] == name_of(line)


@pytest.mark.parametrize("name, words", parser.OPTIONS_WENT.items())
def test_an_option_that_went_names_one_that_the_named_commands_have(name, words):
    commands = parser.parsers()[1]
    assert f"--{name}{words}\n" in refused(lambda: parser.parsed(["show", f"--{name}", "a"]))
    named = [it for it in commands if it in re.findall(r"\w+", words)] or ["changed"]
    for option in re.findall(r"--[\w-]+", words):
        assert all(option in commands[it]._option_string_actions for it in named), option


# ---- Single functions of exifnorm_pictures: at limits, orders and names that no picture of the other tests reaches.

# Names of the standards that ExifTool doesn't use: by TIFF 6.0, CIPA DC-008 and IPTC-NAA IIM 4.2.
STANDARD = {
    "main": "00fe NewSubfileType 00ff SubfileType 0101 ImageLength 0107 Threshholding 0132 DateTime 014a SubIFDs 0201 JPEGInterchangeFormat "
    "0202 JPEGInterchangeFormatLength 02bc XMP 83bb IPTC 8649 PhotoshopResources 8769 ExifIFDPointer 8773 ICCProfile "
    "8825 GPSInfoIFDPointer c4a5 PrintImageMatching",
    "exif": "8827 PhotographicSensitivity 8828 OECF 9004 DateTimeDigitized 9204 ExposureBiasValue 927c MakerNote 9400 Temperature "
    "a002 PixelXDimension a003 PixelYDimension a005 InteroperabilityIFDPointer a405 FocalLengthIn35mmFilm a430 CameraOwnerName "
    "a431 BodySerialNumber a432 LensSpecification a436 ImageTitle a437 Photographer a438 ImageEditor a439 CameraFirmware "
    "a43a RAWDevelopingSoftware a43b ImageEditingSoftware a43c MetadataEditingSoftware a461 SourceImageNumberOfCompositeImage "
    "a462 SourceExposureTimesOfCompositeImage",
    "gps": "",
    "interop": "0001 InteroperabilityIndex 0002 InteroperabilityVersion 1002 RelatedImageLength",
    "iptc": "1:0 ModelVersion 1:22 FileFormatVersion 1:100 UNO 2:0 RecordVersion 2:20 SupplementalCategory 2:200 ObjectDataPreviewFileFormat "
    "2:201 ObjectDataPreviewFileFormatVersion 2:202 ObjectDataPreviewData",
}
# The field_names of ExifTool's tables with these tags, and what is before the number of a tag there.
GROUPS = {
    "Exif::Main": ("main", "exif", "interop"),
    "GPS::Main": ("gps",),
    "IPTC::EnvelopeRecord": ("1",),
    "IPTC::ApplicationRecord": ("2",),
}
# A tag of each namespace that ExifTool writes; and those that it doesn't write, by XMP part 1 (8) and 3 (1.1.3.1), and by exiv2's table.
IN_SPACES = """dc:Title xmp:Label xmpRights:Marked=true xmpMM:DocumentID xmpBJ:JobRefName xmpTPg:NPages=1 xmpMM:DerivedFromDocumentID xmpMM:HistoryAction
xmpTPg:MaxPageSizeW=1 xmpMM:VersionsVersion mwg-rs:RegionAreaX=1 xmpDM:Album pdf:Keywords photoshop:City crs:Version lr:HierarchicalSubject
exif:UserComment aux:Lens tiff:Make exifEX:LensMake iptcCore:Location iptcExt:Event plus:ImageCreatorName mwg-kw:HierarchicalKeywords1
digiKam:TagsList GPano:StitchingSoftware GCamera:BurstID""".split()
OTHER_SPACES = {
    "xmpG": "http://ns.adobe.com/xap/1.0/g/",
    "xmpGImg": "http://ns.adobe.com/xap/1.0/g/img/",
    "xmpNote": "http://ns.adobe.com/xmp/note/",
    "xmpidq": "http://ns.adobe.com/xmp/Identifier/qual/1.0/",
    "MicrosoftPhoto": "http://ns.microsoft.com/photo/1.0/",
}


class Prefixes(WithPictures):
    @needs("exiftool")
    def test_each_prefix_is_exiftools_or_the_standards(self):
        words = [f"-XMP-{it}" if "=" in it else f"-XMP-{it}=a" for it in IN_SPACES]
        tool(self.folder, "exiftool", "-config", "", "-q", "-q", "-m", *words, "a.xmp")
        written = dict(re.findall(r"xmlns:([\w-]+)='([^']+)'", read(self.path("a.xmp")).decode()))
        self.assertEqual(written.pop("x"), "adobe:ns:meta/")
        self.assertEqual({prefix: uri for uri, prefix in short_names._SPACES.items()}, {**written, **OTHER_SPACES})


class Names(unittest.TestCase):
    @needs("exiftool")
    def test_each_name_is_exiftools_or_the_standards(self):
        known = {}
        for group in ("EXIF", "GPS", "IPTC"):
            listed = tool(TOP, "exiftool", "-listx", f"-{group}:All").decode()
            for table, body in re.findall(r"<table name='([^']+)'.*?>(.*?)</table>", listed, re.S):
                for number, name in re.findall(r"<tag id='(\d+)' name='([^']+)'", body):
                    for where in GROUPS.get(table, ()):
                        key = ("iptc", f"{where}:{number}") if where.isdigit() else (where, f"{int(number):04x}")
                        known.setdefault(key, set()).add(name.replace("-", "").lower())
        for where, own in (
            ("main", field_names._TIFF),
            ("exif", field_names._EXIF),
            ("gps", field_names._GPS),
            ("interop", field_names._INTEROP),
            ("iptc", field_names._IIM),
        ):
            words = STANDARD[where].split()
            standard = dict(zip(words[0::2], words[1::2]))
            for key, name in own.items():
                if key in standard:
                    self.assertEqual(name, standard.pop(key), (where, key))
                else:
                    self.assertIn(name.replace("-", "").lower(), known.get((where, key), ()), (where, key))
            self.assertEqual(standard, {}, where)


class Indexed(WithPictures):
    def test_files_of_the_catalogue(self):
        """SQLite's documentation of temporary files field_names these three endings."""
        os.symlink(self.folder, self.path("link"))
        for name in (self.path("c"), self.path("link", "c")):
            expected = {os.fsencode(self.path("c") + it) for it in ("", "-wal", "-shm", "-journal")}
            self.assertLessEqual(expected, set(index._own_files(name)))

    def test_names_at_the_ends_of_the_alphabet(self):
        """Each of them is below its folder, and no name of the folders beside it."""
        field_names = [b"\x01", b" ", b"~", b"\x7f", "é".encode(), b"\xff", b"z/\xff"]
        with Catalogue(self.path("c"), make=True) as made:
            run = made.begin_run("2000-01-01T00:00:00Z")
            made.put(run, [PictureRecord.of(b"/a/" + it, b"/a", problem="NoPicture") for it in field_names])
            made.put(
                run, [PictureRecord.of(it, b"/", problem="NoPicture") for it in (b"/a", b"/a0", b"/a!/b", b"/a0/b", b"/ab/c", b"/\xff")]
            )
            self.assertEqual([path for _, path, _ in made.below(b"/a")], sorted(b"/a/" + it for it in field_names))

    def test_slow_pictures_are_committed_one_by_one(self):
        put(self.folder, {f"p/{name}": b"" for name in ("a", "b", "c")})
        with Catalogue(self.path("c"), make=True) as made:

            def looked(found, _):
                for number, it in enumerate(found):
                    self.assertEqual(made.base.execute("SELECT count(*) FROM pictures").fetchone(), (number,))
                    yield PictureRecord.of(it.path, it.root, it.stamp, problem="NoPicture")

            with mock.patch.object(index, "LONGEST_WAIT", -1):
                index.index(index.IndexOptions([os.fsencode(self.path("p"))], quiet=True, look=looked), made)


class Extracted(WithPictures):
    def test_a_form_that_is_too_long(self):
        with mock.patch.object(judge.exifnorm, "normal", mock.Mock(side_effect=judge.exifnorm.NormalTooLong)):
            found = judge.judge("exif", b"abc")
        self.assertEqual((found.status, found.digest, found.cause, found.place, found.length), ("too long", None, "NormalTooLong", None, 3))

    def test_an_output_without_end(self):
        with mock.patch.object(programs, "OUTPUT", 100_000):
            with self.assertRaisesRegex(programs.Failed, "^yes wrote more than 100,000 bytes about one file$"):
                programs.run([shutil.which("yes")], 10.0)
        with mock.patch.object(programs, "OUTPUT", 100):
            self.assertEqual(programs.run(["head", "-c", "100", "/dev/zero"], 10.0).stdout, bytes(100))
            with self.assertRaisesRegex(programs.Failed, "^head wrote more than 100 bytes about one file$"):
                programs.run(["head", "-c", "101", "/dev/zero"], 10.0)


class Ended(unittest.TestCase):
    def test_each_failure_has_its_line_and_status(self):
        for why, status, line in (
            (MemoryError(), 4, "out of memory"),
            (KeyboardInterrupt(), 130, "stopped"),
            (walk.BadList("a list"), 3, "a list"),
            (NoCatalogue("a catalogue"), 4, "a catalogue"),
            (programs.Failed("a program"), 4, "a program"),
            (OSError(28, "No space left on device", "a"), 4, "a: no space left on device"),
            (PermissionError(13, "Permission denied", b"/a\xff"), 4, "/a\\xff: permission denied"),
            (sqlite3.OperationalError("disk I/O error"), 4, "disk I/O error"),
        ):
            lines = []
            with mock.patch.object(same, "run", side_effect=why), mock.patch.object(main.signals, "say", lines.append):
                self.assertEqual((main._run(["same", "c"]), lines), (status, [f"exifnorm-pictures: {line}"]))


# ---- Single values: those of another type in a catalogue, and folders at an end.

# The columns of each table that are read, and a value of another type in SQL for each type of a column, as SQLite keeps it there.
COLUMNS = {"pictures": PICTURE_COLUMNS, "blocks": BLOCK_COLUMNS, "not_read": "what, digest"}
WRONG = {"BLOB": ("'a'", "7"), "TEXT": ("x'00'",), "INTEGER": ("'a'", "x'00'", "1.5")}
MEANT = {"'a'": "a", "7": 7, "x'00'": b"\0", "1.5": 1.5}


class RowsOfCatalogues(WithPictures):
    def catalogue(self, *names, name="c"):
        made = Catalogue(self.path(name), make=True)
        self.addCleanup(made.close)
        block = BlockRecord(EXIF, "Exif", "somewhere", "own", "refused", None, "Overlap", 34, 100, "0" * 64)
        made.put(
            made.begin_run("2000-01-01T00:00:00Z"),
            [PictureRecord.of(it, b"/", Stamp(1, 2, 3, 4), "JPEG", blocks=(block,), unread=(NotRead("a part", "1" * 64),)) for it in names],
        )
        return made

    def test_values_of_another_type(self):
        """In each column: the catalogue is damaged, and the message has the value."""
        made = self.catalogue(b"/p")

        def read():
            for it in made.pictures():
                made.not_read_of(it)
            return list(made.rows(f"SELECT {BLOCK_COLUMNS} FROM blocks", (), block_of_row))

        self.assertEqual([it.refusal for it in read()], ["Overlap at 34"])
        types = {(table, row[1]): row[2] for table in COLUMNS for row in made.base.execute(f"PRAGMA table_info({table})")}
        wrong = [
            (table, column, value)
            for table, columns in COLUMNS.items()
            for column in columns.split(", ")
            if column != "id"
            for value in WRONG[types[table, column]]
        ]
        for table, column, value in wrong:
            made.base.execute("BEGIN")
            made.base.execute(f"UPDATE {table} SET {column} = {value}")
            with self.assertRaises(NoCatalogue, msg=(table, column, value)) as raised:
                read()
            self.assertIsInstance(raised.exception.__cause__, Damaged)
            self.assertIn(repr(MEANT[value]), str(raised.exception), (table, column))
            made.base.execute("ROLLBACK")
        self.assertEqual([it.refusal for it in read()], ["Overlap at 34"])

    def test_what_is_below_the_root(self):
        """Each path but the root itself, also if a folder is given with a slash at its end."""
        paths = [b"/\x01", b"/a", b"/a/b", b"/a/b/c", b"/a0", b"/\xff"]
        made = self.catalogue(*paths)
        for folder, expected in ((b"/", paths), (b"//", paths), (b"/a", [b"/a/b", b"/a/b/c"]), (b"/a/", [b"/a/b", b"/a/b/c"])):
            self.assertEqual([path for _, path, _ in made.below(folder)], expected, folder)


class LookedAtAgain(unittest.TestCase):
    def test_problems_that_may_be_solved(self):
        """Although a file is the same: those of the system, and those of a program that was installed since."""
        others = {"Vanished", "Moved", "LinkToNothing", "NotAFile", "Unreadable", "ToolFailed", "TooSlow", "InternalError"}
        for there, expected in (((), others), (("exiftool",), others | {"NeedsExifTool"}), (("exiv2",), others | {"NeedsExiv2"})):
            with mock.patch.object(index.programs, "is_there", there.__contains__):
                found = {it for it in (None, *TEXTS) if index._worth_another(it)}
            self.assertEqual(found, expected, there)


class Processors(unittest.TestCase):
    def test_how_many_processes_look_at_pictures(self):
        """As many as there are processors that this process may use, or as many as are asked for."""
        with mock.patch.object(os, "sched_getaffinity", lambda number: set(range(7)) if number == 0 else set()):
            self.assertEqual([walk.How(jobs).processes for jobs in (0, 1, 3, 100)], [7, 1, 3, 100])

    def test_processes_are_killed(self):
        """By SIGKILL, which none can ignore; where there never were several, multiprocessing isn't imported."""
        children = [mock.Mock(), mock.Mock()]
        with mock.patch.dict(sys.modules, {"multiprocessing": mock.Mock(active_children=lambda: children)}):
            signals.end_children()
        self.assertEqual([it.mock_calls for it in children], [[mock.call.kill()]] * 2)
        with mock.patch.dict(sys.modules):
            sys.modules.pop("multiprocessing", None)
            signals.end_children()
            self.assertNotIn("multiprocessing", sys.modules)


class Closed(WithPictures):
    def by_itself(self, text):
        """What a Python program prints, in this folder."""
        done = run([sys.executable, "-c", text], self.folder)
        self.assertEqual((done.returncode, done.stderr), (0, b""))
        return done.stdout.decode().splitlines()

    def test_signals_that_are_ignored(self):
        """nohup ignores SIGHUP for a command (POSIX): it stays ignored."""
        for ignored in ("SIGHUP", "SIGTERM"):
            text = (
                "import signal\nfrom exifnorm_pictures.files import signals as ends\n"
                f"for it in ends.SIGNALS: signal.signal(it, signal.SIG_IGN if it.name == '{ignored}' else signal.SIG_DFL)\n"
                "ends.heed_signals()\nprint(*[it.name for it in ends.SIGNALS if signal.getsignal(it) == signal.SIG_IGN])\n"
                "print(*[it.name for it in ends.SIGNALS if signal.getsignal(it) == signal.SIG_DFL])"
            )
            self.assertEqual(self.by_itself(text), [ignored, ""])


# ---- Small functions at their limits: how values are shown, how results are put into words, and how work is divided.


class Work(WithPictures):
    """How work is divided, and what a process makes of its part."""

    def test_processes_begin_while_signals_are_held(self):
        """The first task starts them: one that starts later could miss a signal, or get one that it doesn't handle."""
        steps = []

        @contextlib.contextmanager
        def held():
            steps.append("held")
            yield {1}
            steps.append("released")

        def made(*words, **more):
            steps.append((words, more.pop("mp_context").get_start_method(), more))
            return SimpleNamespace(submit=steps.append)

        how = walk.How()
        with mock.patch.object(workers.signals, "signals_held", held), mock.patch.object(workers, "ProcessPoolExecutor", made):
            workers._pool(how, 3)
        self.assertEqual(
            steps, ["held", ((3,), "fork", {"initializer": workers._begin, "initargs": (how, os.getpid(), {1})}), os.getpid, "released"]
        )

    def test_a_part_that_takes_long(self):
        found = [FoundFile(b"/%d" % it, b"/", None) for it in range(4)]
        times = iter([0.0, 1.9, 2.0, 2.1])
        with mock.patch.object(
            workers, "_look", lambda it, how: PictureRecord.of(it.path, it.root, problem="NoPicture" if how.whole else "Vanished")
        ), mock.patch.object(workers.time, "monotonic", lambda: next(times)):
            few = workers.look_at_some(workers.Task(found, self.path("rows")), walk.How(whole=True))
            times = iter([0.0, 1.9, 2.0, 2.1])
            with mock.patch.object(workers, "SHORT", 3):
                it = workers.look_at_some(workers.Task(found, self.path("rows")), walk.How(whole=True))
        self.assertEqual((it.file, it.states, it.lines, it.unread, it.left), (self.path("rows"), {"NoPicture": 3}, [], [], found[3:]))
        self.assertEqual(([one.path for one in few.entries], few.left), ([b"/0", b"/1", b"/2"], found[3:]))


class Walked(WithPictures):
    """The files of a command."""

    def test_files_and_links(self):
        """A link to a file is that file; a link to a folder isn't followed; a link to nothing has no marks."""
        for name in ("d/b/1", "d/.a/2", "d/3", "other/4"):
            os.makedirs(os.path.dirname(self.path(name)), exist_ok=True)
            write(self.path(name), name.encode())
        for name, to in (("d/file", "3"), ("d/folder", "../other"), ("d/none", "nothing"), ("d/self", "self")):
            os.symlink(to, self.path(name))
        unlisted = []
        names = [os.fsencode(self.path(it)) for it in ("d", "other/4", "nothing", "d/none", "d/3/x", "d/folder", "d/b/../3")]
        found = list(walk.below(names, unlisted.append, [names[1], os.fsencode(self.path("d", "b", "1"))]))
        size = {"d/3": 3, "d/file": 3, "d/.a/2": 6, "d/folder/4": 7}
        expected = [
            ("d/3", "d"),
            ("d/file", "d"),
            ("d/none", "d"),
            ("d/self", "d"),
            ("d/.a/2", "d"),
            ("d/none", "d"),
            ("d/folder/4", "d/folder"),
            ("d/3", "d"),
        ]
        self.assertEqual(
            [
                (
                    os.path.relpath(os.fsdecode(it.path), self.folder),
                    os.path.relpath(os.fsdecode(it.root), self.folder),
                    it.stamp and it.stamp.size,
                )
                for it in found
            ],
            [(name, root, size.get(name)) for name, root in expected],
        )
        self.assertEqual(found[0].stamp, Stamp.of(os.stat(self.path("d", "3"))))
        self.assertEqual(unlisted, [walk.Unlisted(names[2], "no such file or directory"), walk.Unlisted(names[4], "not a directory")])


class Sessions(WithPictures):
    """What ExifTool is asked."""

    def test_its_arguments(self):
        calls, lines = [], []

        def start(words, folder, is_asked):
            calls.append((words, folder, is_asked))
            return SimpleNamespace(poll=lambda: None)

        answers = [
            b'[{"SourceFile": "/a/b.jpg", "EXIF": "x"}]\n{done 1}\n',
            b"{done 2}\n",
            b'[{"SourceFile": "./link.Jpg"}]{done 3}\n',
        ]
        with mock.patch.multiple(
            programs,
            start=start,
            needed=lambda it: it,
            write=lambda _, octets, __: lines.append(octets),
            read_until=lambda _, complete, __: self.complete(answers.pop(0), complete),
        ):
            it = exiftool.Process(self.folder, 60.0)
            self.assertEqual(it.ask([b"/a/b.jpg"], ("-EXIF:Exif", "-XMP"), exiftool._OPTIONS), [{"EXIF": "x"}])
            self.assertEqual(it.ask([b"/a/c"], (), exiftool._OPTIONS), [{}])
            self.assertEqual(it.ask([b"/a/ d.Jpg"], (), exiftool._OPTIONS), [{}])
        self.assertEqual(calls, [(["exiftool", "-config", "", "-stay_open", "True", "-@", "-"], self.folder, True)])
        common = [b"-q", b"-q", b"-m", b"-json", b"-a", b"-G4", b"-b", b"-api", b"Filter=s/^(base64|text):/text:$1:/"]
        self.assertEqual(
            [it.split(b"\n") for it in lines],
            [
                [*common, b"-EXIF:Exif", b"-XMP", b"/a/b.jpg", b"-echo3", b"{done 1}", b"-execute", b""],
                [*common, b"/a/c", b"-echo3", b"{done 2}", b"-execute", b""],
                [*common, b"./link.Jpg", b"-echo3", b"{done 3}", b"-execute", b""],
            ],
        )

    def complete(self, octets, complete):
        """An output, which is complete with its last byte and not before."""
        self.assertEqual([complete(bytearray(octets[:-1])), complete(bytearray(octets))], [False, True])
        return octets

    def test_names_that_exiftool_could_misread(self):
        with mock.patch.multiple(programs, start=lambda *_, **__: None, needed=lambda it: it):
            it = exiftool.Process(self.folder, 60.0)
        for path in (b"/a/b.jpg", b"/A_z0-9./+,@%~()="):
            self.assertEqual((it._handed_over(path, 0), os.listdir(self.folder)), (path, []))
        for path, link in (
            (b"/a b.jpg", "link.jpg"),
            (b"/a#", "link"),
            ("/\u00fc.x".encode(), "link.x"),
            (b"/a\n.tif", "link.tif"),
            (b"/a .abcdefgh", "link.abcdefgh"),
            (b"/a .abcdefghi", "link"),
            (b"/*.jpg\n", "link"),
            (b"/\xff.A1", "link.A1"),
        ):
            self.assertEqual(it._handed_over(path, 0), b"./" + link.encode())
            self.assertEqual(os.readlink(os.fsencode(self.path(link))), path)
            self.assertEqual(it._handed_over(path, 0), b"./" + link.encode(), "the link is made again")
        with mock.patch.object(os, "getcwdb", lambda: b"/x"):  # names are relative to this process's folder, and not to ExifTool's
            self.assertEqual(it._handed_over(b"a/../b.jpg", 0), b"/x/b.jpg")
            self.assertEqual(it._handed_over(b"-c d.jpg", 0), b"./link.jpg")
            self.assertEqual(it._handed_over(b"-c d.jpg", 1), b"./link1.jpg")
        self.assertEqual(os.readlink(os.fsencode(self.path("link.jpg"))), b"/x/-c d.jpg")

    def test_one_exiftool_for_many_files(self):
        """It is started for the first, and again only after it ended or failed; then it is closed."""
        with session.Session(room=self.folder) as own, mock.patch.object(exiftool, "Process") as made:
            here, counts = made.return_value, lambda: (made.call_count, made.return_value.close.call_count)
            here.process.poll.return_value = None
            self.assertEqual([exiftool.ask(own, it, ()) for it in (b"a", b"b", b"c")], [here.ask.return_value[0]] * 3)
            self.assertEqual((made.call_args, counts()), (mock.call(own.folder(), own.seconds), (1, 0)))
            here.process.poll.return_value = 1
            exiftool.ask(own, b"d", ())
            self.assertEqual(counts(), (2, 1))
            here.process.poll.return_value, here.ask.side_effect = None, programs.Failed("it ended")
            self.assertRaises(programs.Failed, exiftool.ask, own, b"e", ())
            self.assertEqual((counts(), own.tool), ((2, 2), None))
            own.close_tool()
            self.assertEqual(counts(), (2, 2))


# ---- Sets of numbers of rows, compared with Python's sets.

NUMBERS = strategies.sets(strategies.integers(-3000, 5000) | strategies.integers(-(1 << 62), 1 << 62), max_size=30)
ALL = range(-3000, 5000, 7)


def members(numbers, others):
    return {number for number in {*ALL, *others} if number in numbers}


@given(NUMBERS, NUMBERS, strategies.booleans(), strategies.booleans())
def test_sets(first, second, is_first_rest, is_second_rest):
    """Each is some numbers, or all but these."""
    every = {*ALL, *first, *second}
    numbers, sets = [], []
    for given_, is_rest in ((first, is_first_rest), (second, is_second_rest)):
        ours = Numbers((number,) for number in given_)
        assert sorted(ours) == sorted(given_) and ours.count(0) == len(given_) and bool(ours) == bool(given_)
        numbers.append(~ours if is_rest else ours)
        sets.append(every - given_ if is_rest else given_)
    for ours, its in (
        (numbers[0], sets[0]),
        (numbers[0] & numbers[1], sets[0] & sets[1]),
        (numbers[0] | numbers[1], sets[0] | sets[1]),
        (numbers[0] & ~numbers[1], sets[0] - sets[1]),
    ):
        assert members(ours, every) == its
        assert ours.count(len(every)) == len(its)
        assert {number for number, _ in ours.chosen([(number, "") for number in every])} == its
        assert bool(ours) or not its


def test_all_but_none():
    assert not Numbers() and not ~~Numbers() and ~Numbers() and not Numbers() & ~Numbers()
    assert not Numbers([(1,)]) & ~Numbers([(1,)])


# ---- Names of files in one line: no character controls a terminal, and different names are different.

# Pieces that could be taken for one another: bytes that are no UTF-8, characters with their numbers, what they are escaped as, controls of the
# writing direction, and whatever else a name can have
BYTES = st.integers(0x80, 0xFF).map(lambda it: bytes([it]))
CHARACTERS = st.one_of(st.integers(0x7F, 0x100), st.integers(0x2000, 0x206F), st.sampled_from([0x61C, 0xFEFF, 0xE0001, 0x10FFFF])).map(chr)
ESCAPED = st.sampled_from(
    ["\\", "\\\\", "\\x", "\\x85", "\\u", "\\u0085", "\\U", "\\U000e0001", "\\n", "\n", "\r", "\t", "\x1b", "n", "85", "u0085"]
)
PIECES = st.one_of(BYTES, st.one_of(CHARACTERS, ESCAPED, st.text(max_size=3)).map(lambda it: it.encode("utf-8", "surrogatepass")))
NAMES = st.lists(PIECES, max_size=4).map(b"".join)


@given(NAMES)
def test_one_printable_line(name):
    assert texts.shown_path(name).isprintable()


@given(NAMES, NAMES)
def test_different_names_are_different(one, other):
    assert (texts.shown_path(one) == texts.shown_path(other)) is (one == other)


@given(NAMES)
def test_the_name_can_be_read_back(name):
    assert os.fsencode(read_back(texts.shown_path(name))) == name


def read_back(shown):
    """The text of a shown name, with each byte as Python has it in names."""
    text, at = "", 0
    while at < len(shown):
        if shown[at] != "\\":
            text, at = text + shown[at], at + 1
            continue
        mark = shown[at + 1]
        digits = {"x": 2, "u": 4, "U": 8}.get(mark, 0)
        if digits:
            number = int(shown[at + 2 : at + 2 + digits], 16)
            text += chr(number + 0xDC00 if mark == "x" and number > 0x7F else number)
        else:
            text += {"n": "\n", "r": "\r", "t": "\t", "\\": "\\"}[mark]
        at += 2 + digits
    return text


def test_controls_are_escaped():
    """Those of Unicode's categories Cc, Cf, Zl and Zp, and spaces other than U+0020."""
    for character in "\0\x1b\x7f\x85\xa0\xad\u061c\u200b\u202e\u2028\u2029\u2066\u3000\ufeff\U000e0001":
        assert character not in texts.shown_path(character.encode())
        assert texts.shown_path(character.encode()).startswith("\\")


WORDS = st.sampled_from(["a", "b", "ccccc", "..", ".", "", "-a", ".h", "a.b", "a.."])


@given(st.sampled_from(["", "a", "a/b/ccccc"]), st.lists(WORDS, min_size=1, max_size=7), st.booleans())
def test_a_path_from_the_current_folder(here, words, is_near):
    """It leads where the path leads, and is no longer than the shortest one."""
    with tempfile.TemporaryDirectory() as top, pytest.MonkeyPatch.context() as patch:
        os.makedirs(os.path.join(top, here), exist_ok=True)
        patch.chdir(os.path.join(top, here))
        name = "/".join([top if is_near else "/b", *words])
        shown = texts.near(name)
        assert os.path.abspath(shown) == os.path.abspath(name)
        assert len(shown) <= len("./") + min(map(len, (os.path.relpath(name), os.path.abspath(name))))
        assert not shown.startswith("-") and (len(shown) < len(name) or shown == name)
