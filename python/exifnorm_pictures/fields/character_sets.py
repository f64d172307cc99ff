"""The character set of texts that declare none, where other parts of their picture show it."""

from __future__ import annotations

from itertools import chain, islice
from typing import Container, Iterable

from ..model.xmp_values import texts_in
from .field import Field
from .listing import is_comment
from .plain_texts import CHARACTER_SETS, InSet, guess_of, guessed, text_of

_SOFTWARE = ("0131", "xmp:CreatorTool")
_PRINT_SETTINGS = "Photoshop resource 03e9"  # of a Macintosh alone
_SIGNED = b"Photoshop\xa8"  # with the sign ® after it, as only a Macintosh has it
_TRIED, _BEGIN = 100, 24  # texts of a block, and characters of a text, which IPTC may have cut


def in_found_set(fields: list[Field], blocks: Iterable[list[Field]], rest: Container[str] = ()) -> list[Field]:
    """The fields of a block of a picture with these blocks and other parts. Their texts are in the set in which one of them is a text that the
    picture has elsewhere, or else in that of a Macintosh, if a program wrote them there.

    >>> artist, author = Field("main", "013b", "ASCII", 7, b"Krop\\xe1\\xe8\\0"), Field("iptc", "2:80", "octets", 8, "Kropáč".encode())
    >>> in_found_set([artist], [[author]])[0].text, in_found_set([artist], [], [_PRINT_SETTINGS])[0].text
    ('Kropáč', 'Krop·Ë')
    """
    unclear = [it.content for it in islice(filter(_is_unclear, fields), _TRIED) if isinstance(it.content, bytes)]
    if not unclear:
        return fields
    every = list(chain.from_iterable(blocks))
    found = _shown(unclear, every) + ["mac_roman"] * _is_of_macintosh(unclear, every, rest)
    return [it._with_content(_in_set(it.content, found[0])) if _is_unclear(it) else it for it in fields] if found else fields


def _shown(unclear: list[bytes], every: list[Field]) -> list[str]:
    """The sets in which a text is one that the picture has elsewhere."""
    known = {part for it in every for text in _texts(it) for part in (text, text[:_BEGIN]) if not part.isascii()}
    return [
        name for name in CHARACTER_SETS for octets in unclear for text in [guessed(_in_set(octets, name))] if known & {text, text[:_BEGIN]}
    ]


def _is_of_macintosh(unclear: list[bytes], every: list[Field], rest: Container[str]) -> bool:
    return (
        _PRINT_SETTINGS in rest
        or any(_SIGNED in it for it in unclear)
        or any(text.endswith("Macintosh") for it in every if it.tag in _SOFTWARE for text in _texts(it))
    )


def _is_unclear(field: Field) -> bool:
    octets = field.content
    return isinstance(octets, bytes) and not octets.isascii() and not is_comment(field) and guess_of(field).endswith("Windows-1252")


def _in_set(octets: object, name: str) -> bytes:
    text: InSet = InSet(octets)  # type: ignore[call-overload]
    text.charset = name
    return text


def _texts(field: Field) -> Iterable[str]:
    """The texts of a field whose character set is known."""
    if field.directory != "xmp":
        return [(text_of(field) or "").rstrip()]
    return [text.rstrip() for value in field.content if isinstance(field.content, tuple) for text in texts_in(value)]  # type: ignore
