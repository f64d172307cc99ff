"""--json: each line of each command has the shape that the installed JSON Schema has and docs/JSON.md describes, and typed values."""

import copy
import json
import re
from pathlib import Path

import exifnorm_pictures
import jsonschema
import pytest
from exact_fields import field
from made_files import data_set, jpeg, with_record, with_texts, xmp
from studio import TOP

from exifnorm_pictures.cli import main, parser
from exifnorm_pictures.fields.typed import typed

SCHEMA = json.loads(Path(exifnorm_pictures.__path__[0], "output.schema.json").read_text(encoding="utf-8"))


def closed(schema):
    """The schema, in which no object may have a further key: one that a command adds has to be described."""
    if isinstance(schema, list):
        return [closed(it) for it in schema]
    if not isinstance(schema, dict):
        return schema
    more = {"additionalProperties": False} if "properties" in schema and "additionalProperties" not in schema else {}
    return {**{name: closed(it) for name, it in schema.items()}, **more}


VALIDATOR = jsonschema.Draft202012Validator(closed(SCHEMA))


@pytest.fixture
def objects(folder, capsys, monkeypatch):
    """The objects that a command prints, all of them checked by the schema."""
    monkeypatch.chdir(folder)

    def call(*words):
        words = [it.replace("@", str(folder)) for it in words]
        capsys.readouterr()
        main._run([*words, "--json"])
        found = [json.loads(it, parse_constant=pytest.fail) for it in capsys.readouterr().out.splitlines()]
        for it in found:
            VALIDATOR.validate(it)
        return found

    return call


# Values


@pytest.mark.parametrize(
    "kind, count, shown, value",
    [
        ("SHORT", 3, "8 8 8", [8, 8, 8]),
        ("SHORT", 0, "", []),
        ("SRATIONAL", 1, "-1/3", -1 / 3),
        ("RATIONAL", 1, "1/0", None),
        ("RATIONAL", 2, "4/2 0/0", [2, None]),
        ("FLOAT", 1, "40490fdb", 3.1415927410125732),
        ("DOUBLE", 1, "4000000000000000", 2.0),
        ("FLOAT", 2, "7fc00000 00000000", [None, 0.0]),
        ("ASCII", 1, '""', ""),
        ("ASCII", 9, r'"a\"\\n\n"', 'a"\\n\n'),
        ("UNDEFINED", 2, "0x00ff", {"hex": "00ff"}),
        ("BYTE", 1, '"A"', 65),
        ("BYTE", 4, "0x02030000", [2, 3, 0, 0]),
        ("SBYTE", 1, "0xff", -1),
        ("UNDEFINED", 4, '"0230"', {"hex": "30323330"}),
        ("ASCII", 4, "0x616263fc", "abcü"),
        ("UNDEFINED", 5000, "0x0011223344556677.. sha256:" + "ab" * 16, {"sha256": "ab" * 16, "count": 5000}),
        ("SHORT", 500, "1 2 3.. sha256:" + "cd" * 16, {"sha256": "cd" * 16, "count": 500}),
    ],
)
def test_typed_values(kind, count, shown, value):
    assert typed(field("main", "0100", kind, count, shown)) == value


@pytest.mark.parametrize(
    "kind, count, shown, value",
    [
        ("text", 1, '"Vase"', "Vase"),
        ("URI", 1, "<http://x/>", "http://x/"),
        ("text", 2, '"a", "b"', ["a", "b"]),
        ("text", 1, '"Vase"@de', [{"text": "Vase", "language": "de"}]),
        ("text", 2, '"Vase", "Krug"@de', [{"text": "Vase", "language": None}, {"text": "Krug", "language": "de"}]),
        ("Bag", 1, 'Bag["a"]', ["a"]),
        ("Bag", 0, "Bag[]", []),
        ("Alt", 2, 'Alt["Vase"@x-default, "Krug"@de]', [{"text": "Vase", "language": "x-default"}, {"text": "Krug", "language": "de"}]),
        ("structure", 1, '{stEvt:action="saved"}', {"stEvt:action": "saved"}),
        ("structure", 0, "{}", {}),
        ("structure", 1, '{dc:title=Alt["Vase"@de]}', {"dc:title": [{"text": "Vase", "language": "de"}]}),
        ("structure", 2, '{tiff:Orientation="6", tiff:Orientation="left"}', {"tiff:Orientation": [6, "left"]}),
        ("Seq", 2, 'Seq[{xmp:Rating="3"}, "b"]', [{"xmp:Rating": 3}, "b"]),
        ("Seq", 2, 'Seq[Seq["a", "b"], "c"]', [["a", "b"], "c"]),
        ("structure", 9, "{stEvt:action=.. sha256:" + "ab" * 16, {"sha256": "ab" * 16, "count": 9}),
        ("text", 1, '"it ends with sha256:' + "ab" * 16 + '"', "it ends with sha256:" + "ab" * 16),
    ],
)
def test_typed_values_of_xmp(kind, count, shown, value):
    assert typed(field("xmp", "dc:title", kind, count, shown)) == value


@pytest.mark.parametrize(
    "name, text, value",
    [
        ("tiff:Orientation", "6", 6),
        ("tiff:Orientation", "left", "left"),
        ("xmp:Rating", "3", 3),
        ("xmp:Rating", "3.5", 3.5),
        ("exif:ExposureTime", "1/8", 0.125),
        ("exif:ExposureTime", "1/0", None),
        ("exif:GPSLatitude", "48,7.5S", -48.125),
        ("exif:GPSLongitude", "11,30,36E", 11.51),
        ("xmpRights:Marked", "True", True),
        ("xmp:CreateDate", "2019-03-12", "2019-03-12"),
        ("dc:source", "6", "6"),
    ],
)
def test_types_of_xmp(name, text, value):
    """By the type that the standard gives to a property; dates are texts, as those of Exif are."""
    assert json.dumps(typed(field("xmp", name, "text", 1, f'"{text}"'))) == json.dumps(value)


def test_a_structure_too_long_for_a_text_is_a_digest(objects, folder):
    for length, keys in ((65_000, {"dc:source"}), (66_000, {"sha256", "count"})):
        structure = f"<dc:relation rdf:parseType='Resource'><dc:source>{'a' * length}</dc:source></dc:relation>"
        (folder / "a.xmp").write_bytes(xmp(structure))
        (field,) = objects("show", "@/a.xmp")[0]["blocks"][0]["fields"]
        assert set(field["value"]) == keys


def test_long_texts_are_whole(objects, folder):
    """In the order of a DataSet that is repeated, and in any character set; other long values are digests."""
    texts = [b"a" * 500, b"b", "ü".encode() * 300, b"\xfc" * 500]
    record = with_record(*(data_set(25, it) for it in texts))
    (folder / "a.jpg").write_bytes(jpeg(with_texts(description=b"x" * 900), record))
    (found,) = objects("show", "@/a.jpg")
    values = [(it["name"], it["value"]) for block in found["blocks"] for it in block["fields"]]
    assert values == [
        ("IFD0:ImageDescription", "x" * 900),
        *(("IPTC:Keywords", it) for it in ("a" * 500, "b", "ü" * 300, "ü" * 500)),
    ]


# The schema and its description


def test_the_schema_is_one_and_finds_mistakes(objects):
    jsonschema.Draft202012Validator.check_schema(SCHEMA)
    Path("bare.jpg").write_bytes(jpeg())
    (good,) = objects("show", "bare.jpg")
    for change in ({"path": 1}, {"record": "group"}, {"schema": "exifnorm-pictures/show/2"}, {"blocks": [{}]}, {"more": 1}):
        assert not VALIDATOR.is_valid({**copy.deepcopy(good), **change}), change


SHAPES = {
    "show": ("show", "captions"),
    "check": ("check", "conflicts"),
    "changed": ("changed", "history"),
}  # by command; of others its last word


@pytest.mark.parametrize("command", parser.parsers()[1])
def test_each_object_of_each_command(command):
    """Those of the golden files of the museum, which `test_museum.py` compares with what is printed. A new command, record or key fails this until
    the schema has it, and each record of the schema is there."""
    text = (Path(__file__).parent / "golden" / "museum" / f"{command.replace(' ', '-')}.txt").read_text(encoding="utf-8")
    objects = [json.loads(line, parse_constant=pytest.fail) for line in text.split("\n") if line.startswith('{"schema"')]
    for it in objects:
        VALIDATOR.validate(it)
    shapes = SHAPES.get(command, command.split()[-1:])
    assert {f"{it['schema'].split('/')[1]}-{it['record']}" for it in objects} == {
        it for it in SCHEMA["$defs"] if it.split("-")[0] in shapes
    }


def keys(schema):
    if isinstance(schema, dict):
        yield from schema.get("properties", {})
        for it in schema.values():
            yield from keys(it)
    elif isinstance(schema, list):
        for it in schema:
            yield from keys(it)


def test_the_page_has_the_keys_of_the_schema():
    page = (Path(TOP) / "docs" / "JSON.md").read_text(encoding="utf-8")
    described = set(re.findall(r"[\w]+", " ".join(re.findall(r"`([^`]*)`", page))))
    assert set(keys(SCHEMA)) - described == set()
