"""Fields for tests, each by its exact value as `show --exact` prints it."""

import re

from exifnorm import Ratio

from exifnorm_pictures.fields.field import Field
from exifnorm_pictures.fields.listing import OCTETS
from exifnorm_pictures.model.xmp_values import Array, Literal, Long, Uri, Structure

_ESCAPE = re.compile(r"\\(n|r|t|\\|\"|x[0-9a-f]{2}|u[0-9a-f]{4}|U[0-9a-f]{8})")
_SHORT = {"n": "\n", "r": "\r", "t": "\t", "\\": "\\", '"': '"'}
_TEXT = re.compile(r'"((?:[^"\\]|\\.)*)"(?:@([A-Za-z0-9-]+))?')


def unescaped(text):
    return _ESCAPE.sub(lambda it: _SHORT.get(it[1]) or chr(int(it[1][1:], 16)), text)


def field(where, key, kind, count, exact):
    """A field with a value that is printed so."""
    return Field(where, key, kind, count, _value(where, kind, count, exact))


def _value(where, kind, count, exact):
    short = re.fullmatch(r"(.*?)(?:\.\. )?sha256:([0-9a-f]+)", exact)
    if short and where != "xmp":
        begins = bytes.fromhex(short[1][2:]) if short[1].startswith("0x") else b"" if not short[1] and kind in OCTETS else short[1]
        return Long(short[2], begins)
    if where == "xmp" and kind not in OCTETS and not re.fullmatch(r"[-0-9/ ]+", exact):
        return _values_of_xmp(exact)
    if kind in OCTETS:
        return _octets(kind, count, exact)
    if "RATIONAL" in kind:
        return tuple(Ratio(*map(int, it.split("/"))) for it in exact.split())
    return tuple(int(it, 16 if kind in ("FLOAT", "DOUBLE") else 10) for it in exact.split())


def _octets(kind, count, exact):
    for mark, before, charset in (('"', b"", "utf-8"), ('ascii "', b"ASCII\0\0\0", "utf-8"), ('utf-16 "', b"", "utf-16-le")):
        if exact.startswith(mark) and exact.endswith('"') and len(exact) > len(mark):
            return before + unescaped(exact[len(mark) : -1]).encode(charset)
    return bytes.fromhex(exact[2:]) if re.fullmatch("0x(?:[0-9a-f]{2})*", exact) else exact.encode()


def _values_of_xmp(exact):
    found, rest = [], exact
    while rest:
        value, rest = _one(rest)
        found.append(value)
        rest = rest[2:] if rest.startswith(", ") else rest
    return tuple(found)


def _one(text):
    if match := _TEXT.match(text):
        return Literal(unescaped(match[1]), match[2] or ""), text[match.end() :]
    if match := re.match("<([^>]*)>", text):
        return Uri(match[1]), text[match.end() :]
    if match := re.match(r"([^\"<{]*)\.\. sha256:([0-9a-f]+)", text) or re.match(r"(.*?)\.\. sha256:([0-9a-f]+)", text):
        return Long(match[2], match[1]), text[match.end() :]
    is_list, members = text[0] != "{", []
    kind, text = (text[:3], text[4:]) if is_list else ("", text[1:])
    while text[0] not in "]}":
        name, text = ("", text) if is_list else text.split("=", 1)
        value, text = _one(text)
        members.append(value if is_list else (name, value))
        text = text[2:] if text.startswith(", ") else text
    return (Array(kind, tuple(members)) if is_list else Structure(tuple(members))), text[1:]
