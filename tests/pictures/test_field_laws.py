"""Laws of fields with values, over generated blocks of every type and character set.

Two fields are equal exactly if their normal forms are; what a catalogue keeps and reads again is the value, and whatever is made of it is
the same; and the form of JSON's value follows from the type and the tag. The normal forms are those of `meanings.py`, and not the library's.
"""

import json
import pickle
import re
from random import Random

import exifnorm
import pytest
from hypothesis import given, strategies as st
from made_files import xmp
from meanings import ASCII, BYTE, LONG, RATIONAL, SBYTE, SHORT, TYPES, UNDEFINED, UTF8, Exif, Layout, Record, Value, laid

from exifnorm_pictures import xmp as statements_of
from exifnorm_pictures.fields import labels, plain_values, typed, xmp_properties
from exifnorm_pictures.judge import judge
from exifnorm_pictures.fields.listing import exact, kept_value
from exifnorm_pictures.fields.packing import packed, unpacked
from exifnorm_pictures.model.xmp_values import Long

SETS = ("ascii", "utf-8", "latin-1", "cp1252", "utf-16-le", "utf-16-be", "shift_jis", "koi8-r", "mac_roman", "iso2022_jp")
TEXTS = st.text(st.sampled_from("aZ 9éßŁ東д☃\0\n\t\\\"'\x1b\u202e😀"), max_size=12)
CODED = st.builds(lambda text, name, end: text.encode(name, "replace") + end, TEXTS, st.sampled_from(SETS), st.sampled_from([b"", b"\0"]))
LONG_ONES = st.builds(
    lambda piece, length: (piece * length)[:length],
    st.sampled_from([b"a", "é".encode(), "東".encode(), b"\xff", b"\0", b"ab "]),
    st.sampled_from([31, 32, 33, 400, 401, 1601, 65_536, 65_537, 70_000]),
)
MARKED = st.builds(lambda mark, text: mark + text, st.sampled_from([b"ASCII\0\0\0", b"UNICODE\0", b"JIS\0\0\0\0\0", bytes(8)]), CODED)
OCTETS = st.one_of(st.binary(min_size=1, max_size=10), CODED, MARKED, LONG_ONES).filter(bool)


def value_of_type(form):
    """The values of a type."""
    _, size, letter, numbers = TYPES[form]
    if not letter:
        return st.builds(Value, st.just(form), OCTETS)
    bits = 8 * size // numbers
    whole = st.integers(-(1 << bits - 1), (1 << bits - 1) - 1) if letter.islower() else st.integers(0, (1 << bits) - 1)
    element = st.tuples(whole, whole | st.just(0)) if numbers == 2 else whole
    return st.builds(Value, st.just(form), st.lists(element, min_size=1, max_size=4) | st.lists(element, min_size=60, max_size=60))


VALUES = st.one_of(*map(value_of_type, TYPES))
MAIN_TAGS = st.sampled_from([0x0100, 0x010E, 0x010F, 0x0112, 0x0132, 0x013B, 0x8298, 0x9C9B, 0x9C9E, 0xC000])
EXIF_TAGS = st.sampled_from([0x829A, 0x9000, 0x9003, 0x9286, 0x927C, 0xA002, 0xA300, 0xA430])
GPS_TAGS = st.sampled_from([0x0001, 0x0002, 0x0005, 0x001B, 0x001D])
DATA_SETS = st.tuples(st.sampled_from([1, 2, 3]), st.sampled_from([0, 5, 20, 25, 55, 60, 80, 90, 120, 202]), CODED | LONG_ONES)


def directory(tags):
    return st.dictionaries(tags, VALUES, min_size=1, max_size=3)


BLOCKS = st.builds(
    Exif,
    main=directory(MAIN_TAGS),
    exif=st.none() | directory(EXIF_TAGS),
    gps=st.none() | directory(GPS_TAGS),
    record=st.none() | st.builds(Record, st.lists(DATA_SETS, min_size=1, max_size=4)),
)


@st.composite
def two_blocks(draw):
    """Two meanings: the same, one in which a value is another, or any two."""
    one = draw(BLOCKS)
    way = draw(st.sampled_from(["same", "value", "other"]))
    if way == "other":
        return one, draw(BLOCKS)
    main = dict(one.main)
    if way == "value":
        tag = draw(st.sampled_from(sorted(main)))
        main[tag] = draw(value_of_type(main[tag].form) | VALUES)
    return one, Exif(main, one.exif, None, one.gps, record=one.record)


def fields_of(meaning, order="<"):
    return judge.fields_of_form(exifnorm.normal(laid(meaning, Layout(order, chance=Random(1), shuffled=True, gap=4))))


@given(two_blocks())
def test_fields_are_equal_exactly_if_normal_forms_are(pair):
    one, other = pair
    is_same = one.normal() == other.normal()
    first, second = fields_of(one, "<"), fields_of(other, ">")
    assert (first == second) is is_same
    kept = [unpacked(packed(fields)[0]) for fields in (first, second)]
    assert (kept[0] == kept[1]) is is_same, "also those of a catalogue"
    assert all(hash(a) == hash(b) for a, b in zip(first, second) if a == b)


@given(BLOCKS)
def test_a_field_does_not_change_and_is_no_tuple(meaning):
    for field in fields_of(meaning):
        other = pickle.loads(pickle.dumps(field))
        assert (other, hash(other), made_of(other), other.block) == (field, hash(field), made_of(field), field.block)
        for name in ("directory", "tag", "type", "count", "content", "value", "name", "block"):
            with pytest.raises(AttributeError):
                setattr(field, name, "other")
        with pytest.raises(AttributeError):
            del field.content
        assert not hasattr(field, "__len__") and not hasattr(field, "__getitem__") and field == other


def made_of(field):
    """All that is made of a field, for people and for programs."""
    return exact(field), typed.typed(field), plain_values.plain(field)


@given(BLOCKS)
def test_what_is_kept_is_the_value(meaning):
    fields = fields_of(meaning)
    again = unpacked(packed(fields)[0])
    assert again == [field._with_content(kept_value(field)) for field in fields]
    whole = [(one, other) for one, other in zip(fields, again) if not isinstance(other.content, Long)]
    assert all(
        one == other and repr(typed.value_of(one)) == repr(typed.value_of(other)) and typed.raw(one) == typed.raw(other)
        for one, other in whole
    )
    assert [made_of(field) for field in fields if not isinstance(kept_value(field), Long)] == [made_of(other) for _, other in whole]
    assert [exact(field) for field in fields] == [exact(field) for field in again]
    assert unpacked(packed(again)[0]) == again
    if len(whole) == len(fields):
        assert list(labels.of_block(again)) == list(labels.of_block(fields))


@given(BLOCKS)
def test_raw_bytes_are_those_of_the_normal_form(meaning):
    normal = exifnorm.normal(laid(meaning, Layout("<", chance=Random(1))))
    sizes = {**dict.fromkeys(("SHORT", "SSHORT"), 2), **dict.fromkeys(("LONG", "SLONG", "FLOAT", "WHOLE"), 4)}
    sizes.update(dict.fromkeys(("RATIONAL", "SRATIONAL", "DOUBLE"), 8))
    for field in judge.fields_of_form(normal):
        assert field.raw in normal and len(field.raw) == field.count * sizes.get(field.type, 1), field


@given(BLOCKS)
def test_what_is_made_together_is_what_is_made_one_by_one(meaning):
    """An export asks for both texts of a value together, and for a number only of fields that may be one."""
    fields = fields_of(meaning)
    for field in (*fields, *unpacked(packed(fields)[0])):
        value = typed.typed(field)
        assert plain_values.plain_and_exact(field) == (plain_values.plain(field), exact(field)), field
        assert typed.number_of(field) == (value if isinstance(value, (int, float)) else None), (field, value)


FORMS = {ASCII: str, UTF8: str, BYTE: int, SBYTE: int, SHORT: int, LONG: int, UNDEFINED: dict, RATIONAL: (int, float, type(None))}
COMMENT, VERSION = 0x9286, 0x9000  # UNDEFINED, and texts by CIPA DC-008 4.6


@given(st.sampled_from(sorted(FORMS)).flatmap(value_of_type), st.sampled_from([0x829A, 0x9000, 0x9003, 0x9286, 0x927C, 0xA300, 0xA430]))
def test_the_form_of_json_follows_from_the_type_and_the_tag(value, tag):
    """And never from the content: a byte that happens to be a letter is a number."""
    field = next(it for it in fields_of(Exif({0x0112: Value(SHORT, [1])}, {tag: value})) if it.tag == f"{tag:04x}")
    found = typed.typed(field)
    json.dumps(found, allow_nan=False)
    if isinstance(kept_value(field), Long):
        assert set(found) == {"sha256", "count"}
    elif (tag == COMMENT and TYPES[value.form][2] == "") or (tag == VERSION and value.form == UNDEFINED):
        assert isinstance(found, str)
    elif FORMS[value.form] in (str, dict) or value.count == 1:
        assert isinstance(found, FORMS[value.form]), (field, found)
    else:
        assert isinstance(found, list) and all(isinstance(it, FORMS[value.form]) for it in found)


# XMP

WORDS = st.text(st.sampled_from("ab é東<&\"' "), max_size=6)
SIMPLE = WORDS.map(lambda text: ("text", text))
LISTS = st.tuples(st.sampled_from(["Bag", "Seq"]), st.lists(WORDS, max_size=4).map(tuple))
ALTERNATIVES = st.tuples(
    st.just("Alt"),
    st.lists(st.tuples(st.sampled_from(["x-default", "de", "en-GB"]), WORDS), min_size=1, max_size=3, unique_by=lambda it: it[0]).map(
        tuple
    ),
)
STRUCTURES = st.tuples(
    st.just("structure"), st.dictionaries(st.sampled_from(["source", "format"]), WORDS, min_size=1).map(lambda it: tuple(it.items()))
)
PROPERTIES = st.dictionaries(
    st.sampled_from(["title", "subject", "creator", "source"]), st.one_of(SIMPLE, LISTS, ALTERNATIVES, STRUCTURES), min_size=1
)


def escaped(text):
    return text.replace("&", "&amp;").replace("<", "&lt;")


def element(name, value):
    kind, members = value
    if kind == "text":
        return f"<dc:{name}>{escaped(members)}</dc:{name}>"
    if kind == "structure":
        inside = "".join(f"<dc:{key}>{escaped(text)}</dc:{key}>" for key, text in members)
        return f"<dc:{name} rdf:parseType='Resource'>{inside}</dc:{name}>"
    items = [(f" xml:lang='{it[0]}'", it[1]) if kind == "Alt" else ("", it) for it in members]
    inside = "".join(f"<rdf:li{attribute}>{escaped(text)}</rdf:li>" for attribute, text in items)
    return f"<dc:{name}><rdf:{kind}>{inside}</rdf:{kind}></dc:{name}>"


def meaning_of(properties):
    """A text that is equal for properties that mean the same by XMP part 1, 6.3: a Bag has no order, and neither have properties and fields."""
    return sorted(
        (name, kind, sorted(members) if kind in ("Bag", "structure") else members) for name, (kind, members) in properties.items()
    )


def packet(properties, chance):
    items = list(properties.items())
    chance.shuffle(items)
    shuffled = {
        name: (kind, tuple(chance.sample(members, len(members))) if kind in ("Bag", "structure") else members)
        for name, (kind, members) in items
    }
    return xmp("".join(element(name, value) for name, value in shuffled.items()))


@given(PROPERTIES, st.none() | PROPERTIES, st.builds(Random, st.integers(0, 1000)))
def test_fields_of_xmp_are_equal_exactly_if_they_mean_the_same(one, other, chance):
    other = one if other is None else other
    is_same = meaning_of(one) == meaning_of(other)
    found = [statements_of.statements(packet(it, chance), statements_of.Extensions({}), set()) for it in (one, other)]
    assert (statements_of.digest_of_statements(found[0]) == statements_of.digest_of_statements(found[1])) is is_same
    fields = [xmp_properties.fields_of_statements(it) for it in found]
    assert (fields[0] == fields[1]) is is_same
    again = [unpacked(packed(it)[0]) for it in fields]
    assert again == fields
    assert [list(map(made_of, it)) for it in again] == [list(map(made_of, it)) for it in fields]


@given(PROPERTIES, st.builds(Random, st.integers(0, 1000)))
def test_a_qualifier_of_a_list_takes_no_text_away(properties, chance):
    """As ExifTool reads both. Another property of the node of a list is about the whole list (XMP part 1, 6.4)."""
    plain = packet(properties, chance)
    both = [
        statements_of.statements(it, statements_of.Extensions({}), set())
        for it in (plain, re.sub(rb"<rdf:(Bag|Seq)>", rb"<rdf:\1 xmp:q='1'>", plain))
    ]
    texts = [[(it.field, it.texts) for it in labels.of_block(xmp_properties.fields_of_statements(it))] for it in both]
    assert texts[0] == texts[1]
