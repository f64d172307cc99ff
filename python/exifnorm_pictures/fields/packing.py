"""Fields with their values as JSON, for a catalogue.

A field is the list `[directory, key, type, elements, value]`, in which the value is by the type:

- bytes: a text if they are one in UTF-8 that can be printed, perhaps with a NUL at its end, which the number of elements shows;
  otherwise a list of their hexadecimal digits
- numbers: one number, or a list of them; of fractions a list of their two numbers each
- XMP: a list of its values. A text is a text, or a list of it, its language and its datatype; a URI `{"uri": ..}`; a list
  `{"Alt": [..]}`; and a structure `{"fields": [[name, value], ..]}`
- a value that is too long: its digest and its beginning, `["..", ".."]`, in XMP `{"sha256": "..", "begins": ".."}`
"""

from __future__ import annotations

import hashlib
import json
import re
import zlib
from typing import Any, Callable, Iterable, Iterator, Optional, Sequence

from ..model.errors import Damaged
from ..model.budgets import FIELD_BYTES, KEPT_BYTES, LINES_BYTES, NESTED
from ..model.xmp_values import Array, Literal, Long, Structure, Uri, XmpValue
from .field import Content, Field
from .listing import MAKER_NOTE, OCTETS, digest_of, kept_property, kept_value, plain_text

# The packed fields of all blocks of a picture as few bytes: a picture often has a text in several blocks, so they are compressed together,
# those of each block in a line.

_SHORTEST = 200  # characters that compression makes longer, or hardly shorter
_SHORT = 600  # characters for which codes of their own take longer than they spare bytes
_MIDDLE = 4096  # characters that are compressed with small buffers
_LEVEL = 3  # of zlib: 6 takes twice as long for texts, and makes them 4 % shorter
_USUAL = (  # what short ones are compressed with as if it stood before them; the most frequent last
    b'["exif","0132","ASCII",20,"20["exif","927c","UNDEFINED",,["exif","a002","LONG",1,["exif","829a","RATIONAL",1,[1,'
    b'["main","010f","ASCII",6,"Canon["main","0112","SHORT",1,1],["xmp","photoshop:","xmp:CreateDate","text",1,["'
    b'["xmp","dc:title","Alt",1,[{"Alt":[["","x-default"]]}]],["xmp","dc:subject","Bag",["iptc","2:120","octets",["iptc","2:25","octets",'
)
# zlib's default buffers are made for long texts, and to make and clear them takes longer than compressing a short one
_FOR_SHORT = zlib.compressobj(_LEVEL, zlib.DEFLATED, 12, 5, zlib.Z_FIXED, _USUAL)
_FOR_MIDDLE = zlib.compressobj(_LEVEL, zlib.DEFLATED, 12, 5, zlib.Z_DEFAULT_STRATEGY, _USUAL)


def is_short(octets: bytes) -> bool:
    """Whether packed fields are few bytes, such as the result of `left_out`."""
    return len(octets) <= _SHORTEST


_Cells = list[Optional[bytes]]


def joined(texts: Sequence[bytes | None]) -> _Cells:
    """What a catalogue keeps of the packed fields of a picture's blocks, by block: all of them with the first block that has fields.

    >>> joined([None, b"[7]", None, b"[8]"])
    [None, b'[7]\\n\\n[8]', None, None]
    """
    cells: _Cells = [None] * len(texts)
    for first, text in enumerate(texts):
        if text:
            cells[first] = _compressed(b"\n".join([text or b"" for text in texts[first:]]))
            break
    return cells


def parted(cells: Iterable[bytes | None]) -> _Cells:
    """The packed fields of a picture's blocks, from the result of `joined`. Raises `Damaged`, also if they are more than `index` keeps.

    >>> parted(joined([None, b"[7]", None, b"[8]", None])), parted(joined([b"[7]" * 999, b"[8]"])) == [b"[7]" * 999, b"[8]"]
    ([None, b'[7]', None, b'[8]', None], True)
    """
    texts = []
    following: Iterator[bytes] = iter(())
    left = KEPT_BYTES
    for cell in cells:
        if cell is not None:
            following = iter(_lines(cell))
        text = next(following, b"")
        left -= len(text) if len(text) > _SHORTEST else 0
        if left < 0:
            raise Damaged("the fields of a picture are too long")
        texts.append(text or None)
    if next(following, None) is not None:
        raise Damaged("fields of no block")
    return texts


def _lines(cell: bytes) -> list[bytes]:
    """The lines that are kept with a block. No compressed text begins with a bracket (RFC 1950, 2.2)."""
    if not isinstance(cell, bytes):
        raise Damaged(f"{cell!r:.200} is a value of another type")
    try:
        if cell[:1] == b"[":
            return cell.split(b"\n")
        opening = zlib.decompressobj(zdict=_USUAL)
        text = opening.decompress(cell, LINES_BYTES)
    except zlib.error as error:
        raise Damaged(f"fields that can't be read: {error}") from error
    if opening.unconsumed_tail:
        raise Damaged("the fields of a picture are too long")
    if not opening.eof:
        raise Damaged("fields that are cut off")
    return text.split(b"\n")


def _compressed(text: bytes) -> bytes:
    if len(text) <= _SHORTEST:
        return text
    compressing = _FOR_SHORT.copy() if len(text) <= _SHORT else _FOR_MIDDLE.copy() if len(text) <= _MIDDLE else zlib.compressobj(_LEVEL)
    return compressing.compress(text) + compressing.flush()


_NOTE = f'["{MAKER_NOTE[0]}","{MAKER_NOTE[1]}",'  # as the MakerNote begins

_quoted: Callable[[str], str] = json.encoder.encode_basestring_ascii  # type: ignore[attr-defined]  # typeshed lacks it


def packed(fields: Sequence[Field]) -> tuple[bytes, str | None]:
    """The fields of a block as JSON, and a digest of all but the MakerNote; None without one.

    >>> packed([Field("main", "010f", "ASCII", 4, b"abc\\0")])[0]
    b'[["main","010f","ASCII",4,"abc"]]'
    """
    lines = [_json_of_field(*field._identity) for field in fields]
    text = f"[{','.join(lines)}]"
    octets = text.encode("ascii")
    if len(octets) > FIELD_BYTES:
        octets = left_out(octets, len(lines))
    if _NOTE not in text:  # in a value a quote has a backslash before it
        return octets, None
    others = [line for line in lines if not line.startswith(_NOTE)]
    return octets, hashlib.blake2b(",".join(others).encode("ascii"), digest_size=32).hexdigest()


def left_out(octets: bytes, count: int = 0) -> bytes:
    """In place of the packed fields of a block, where these are too many bytes: their digest."""
    return packed([Field("", "", "", count, Long(digest_of(octets), "too many to be kept"))])[0]


def _json_of_field(directory: str, tag: str, kind: str, count: int, content: Content) -> str:
    of_kind = _json_of_octets if kind in OCTETS else _json_of_others
    value = of_kind(directory, tag, kind, count, content)
    key = _quoted(tag) if directory == "xmp" else f'"{tag}"'  # others are numbers
    return f'["{directory}",{key},"{kind}",{count},{value}]'


def _json_of_octets(directory: str, tag: str, kind: str, count: int, content: Content) -> str:
    value = kept_value(Field(directory, tag, kind, count, content))
    if isinstance(value, bytes):
        text = plain_text(value)
        return _quoted(text) if text is not None else f'["{value.hex()}"]'
    assert isinstance(value, Long) and isinstance(value.begins, bytes)
    return f'["{value.digest}","{value.begins.hex()}"]'


def _json_of_others(directory: str, tag: str, kind: str, count: int, content: Any) -> str:
    value: Any = content
    if directory == "xmp" and not isinstance(value, Long):
        return f"[{','.join([_json_of_property(kept_property(one)) for one in value])}]"
    value = kept_value(Field(directory, tag, kind, count, content))
    if isinstance(value, Long):
        return f'["{value.digest}",{_quoted(str(value.begins))}]'
    if kind in ("RATIONAL", "SRATIONAL"):
        return f"[{','.join(['%d,%d' % one for one in value])}]"
    return str(value[0]) if len(value) == 1 else f"[{','.join(map(str, value))}]"


def _json_of_property(value: XmpValue) -> str:
    if isinstance(value, Literal):
        if not value.language and not value.datatype:
            return _quoted(value.text)
        return f"[{_quoted(value.text)},{_quoted(value.language)}" + (f",{_quoted(value.datatype)}]" if value.datatype else "]")
    if isinstance(value, Uri):
        return f'{{"uri":{_quoted(value.uri)}}}'
    if isinstance(value, Array):
        return f'{{"{value.kind}":[{",".join(map(_json_of_property, value.members))}]}}'
    if isinstance(value, Long):
        return f'{{"sha256":"{value.digest}","begins":{_quoted(str(value.begins))}}}'
    return f'{{"fields":[{",".join([f"[{_quoted(name)},{_json_of_property(one)}]" for name, one in value.members])}]}}'


# And back. A catalogue may be damaged or a stranger's, so nothing is taken on trust.


def unpacked(octets: bytes) -> list[Field]:
    """The fields from the result of `packed`. Raises `Damaged`.

    >>> unpacked(packed([Field("main", "010f", "ASCII", 4, b"abc\\0")])[0])
    [Field(name='IFD0:Make', text='abc')]
    """
    if len(octets) > FIELD_BYTES:
        raise Damaged("the fields of a block are too long")
    try:
        rows = json.loads(octets.decode("ascii"))
        if not isinstance(rows, list) or set(map(type, rows)) - {list} or set(map(len, rows)) - {len(_TYPES) + 1}:
            raise Damaged("a list of fields has something else")
        wheres, keys, kinds, counts, values = zip(*rows) if rows else ((),) * 5
        if any(set(map(type, cells)) - {kind} for cells, kind in zip((wheres, keys, kinds, counts), _TYPES)):
            raise Damaged("a list of fields has something else")
        return list(map(Field, wheres, keys, kinds, counts, map(_value, wheres, kinds, counts, values)))
    except (ValueError, TypeError, RecursionError) as error:
        raise Damaged(f"fields that can't be read: {error}") from error


_FIELD, _PROPERTY = '["', '["xmp","'  # as a field of a block begins, and one of a packet


def divided(octets: bytes) -> tuple[str, list[str]]:
    """How each field of a block begins in the result of `packed`, and the rest of each up to its last bracket. If each of these is a field by
    itself, as `field_of` finds, then they are those of the block. Otherwise some value has what is between two fields.

    >>> divided(b'[["iptc","2:5","octets",1,"a"],["iptc","2:25","octets",1,"b"]]')
    ('["', ['iptc","2:5","octets",1,"a"', 'iptc","2:25","octets",1,"b"'])
    """
    text = octets.decode("latin-1")
    begin = _PROPERTY if text.startswith(_PROPERTY, 1) else _FIELD
    if len(octets) > FIELD_BYTES or not text.startswith(f"[{begin}") or not text.endswith("]]"):
        return begin, [text]
    return begin, text[1 + len(begin) : -2].split(f"],{begin}")


def field_of(begin: str, rest: str) -> Field:
    """The field of a part of the result of `divided`. Raises `Damaged`.

    >>> field_of('["', 'iptc","2:5","octets",1,"a"')
    Field(name='IPTC:ObjectName', text='a')
    """
    text = f"{begin}{rest}]"
    try:
        (where, key, kind, count, value), end = _decoded(text)
        if end < len(text) or not text.isascii() or [type(where), type(key), type(kind), type(count)] != _TYPES:
            raise Damaged("a field has something else")
        return Field(where, key, kind, count, _value(where, kind, count, value))
    except (ValueError, TypeError, RecursionError) as error:
        raise Damaged(f"a field that can't be read: {error}") from error


# A text in JSON that has neither a quote nor a backslash
_BARE = {
    _FIELD: re.compile(r'(\w+)","([ !#-\[\]-~]+)","(ASCII|octets)",(0|[1-9]\d{0,8}),"([ !#-\[\]-~]*)"', re.A),
    _PROPERTY: re.compile(r'()([ !#-\[\]-~]+)","(text)",(1),\["([ !#-\[\]-~]*)"\]'),
}


def text_of(begin: str, rest: str) -> tuple[Field, str] | None:
    """The field of such a part, and its text, if it is one of ASCII that JSON has as it is. None of another one.

    >>> text_of('["', 'iptc","2:5","octets",1,"a"'), text_of('["xmp","', r'dc:title","text",1,["\\n"]')
    ((Field(name='IPTC:ObjectName', text='a'), 'a'), None)
    """
    match = _BARE[begin].fullmatch(rest)
    if match is None:
        return None
    directory, tag, kind, count, text = match.groups()
    content = _octets(int(count), text) if directory else (Literal(text),)
    return Field(directory or "xmp", tag, kind, int(count), content), text


_decoded = json.JSONDecoder().raw_decode  # which looks for nothing after a value


_TYPES = [str, str, str, int]
_RANGES = {
    "SHORT": range(1 << 16),
    **dict.fromkeys(("LONG", "WHOLE", "RATIONAL", "FLOAT"), range(1 << 32)),
    "SSHORT": range(-(1 << 15), 1 << 15),
    **dict.fromkeys(("SLONG", "SRATIONAL"), range(-(1 << 31), 1 << 31)),
    "DOUBLE": range(1 << 64),
}


def _value(where: str, kind: str, count: int, value: Any) -> Content:
    """A value. Raises `ValueError` and `TypeError` for anything else."""
    if kind in OCTETS:
        return _octets(count, value)
    if where == "xmp":
        return tuple([_property(it) for it in _list(value)])
    numbers = [value] if isinstance(value, int) else _list(value)
    if len(numbers) == 2 and isinstance(numbers[0], str):
        return Long(*map(_text, numbers))
    return _numbers(kind, numbers)


def _numbers(kind: str, numbers: list[Any]) -> Content:
    if kind not in _RANGES or not all(type(it) is int and it in _RANGES[kind] for it in numbers):
        raise ValueError("something else than the numbers of a type")
    if kind not in ("RATIONAL", "SRATIONAL"):
        return tuple(numbers)
    if len(numbers) % 2:
        raise ValueError("half a fraction")
    return tuple(zip(numbers[0::2], numbers[1::2]))


def _octets(count: int, value: Any) -> Content:
    if isinstance(value, str):
        text = value.encode("utf-8")
        return text if len(text) >= count else text + b"\0"
    if len(value) == 1:
        return bytes.fromhex(value[0])
    digest, begins = value
    return Long(_text(digest), bytes.fromhex(begins))


def _property(value: Any, depth: int = 0) -> XmpValue:
    if not isinstance(value, dict):
        return Literal(*map(_text, [value] if isinstance(value, str) else _list(value)))
    if depth > NESTED:
        raise ValueError("a value that is nested too deep")
    (word, *more), (first, *others) = value, value.values()
    if word == "fields":
        return Structure(tuple([(_text(name), _property(member, depth + 1)) for name, member in first]))
    if word == "uri":
        return Uri(_text(first))
    if word == "sha256":
        return Long(_text(first), _text(*others))
    if word not in ("Alt", "Bag", "Seq") or more:
        raise ValueError("a value of another form")
    return Array(word, tuple([_property(member, depth + 1) for member in _list(first)]))


def _text(value: Any) -> str:
    if not isinstance(value, str):
        raise ValueError("something else than a text")
    return value


def _list(value: Any) -> list[Any]:
    if not isinstance(value, list):
        raise ValueError("something else than a list")
    return value
