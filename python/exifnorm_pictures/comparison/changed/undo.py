"""Arguments for `exiftool -@` that put the earlier texts of labels back.

ExifTool writes the pictures; this program never does.
"""

from __future__ import annotations

import re
from typing import Sequence

from ...fields import labels
from ...fields.field import Field
from ...fields.plain_texts import is_utf8, text_of_comment
from ...model.xmp_values import Array, Long, simple_texts
from ..wording import Differences, FieldDifference

# Before the texts whose earlier bytes are UTF-8, and before those in Windows-1252. IPTC that
# declares UTF-8 is written so, whatever is asked for.
_CHARSETS = {True: ["-charset", "iptc=UTF8"], False: ["-charset", "exif=Latin"]}
_DECLARED = ("iptc", "1:90")
_ENCODED = ("9286", *labels.WINDOWS)  # which ExifTool encodes as their tags need it
# Labels of numbers, and of codes that ExifTool may not know
_LEFT = (labels.POSITION, "serial", "owner", labels.DATA_MINING)
_LIMITS = {it.iptc: it.limit for it in labels.LABELS if it.limit}
_DAY = r"\d{4}(-\d\d(-\d\d(T\d\d:\d\d(:\d\d(\.\d+)?)?(Z|[+-]\d\d:\d\d)?)?)?)?"
_ANY = "[^\0\ufffd]*"  # without what stands for a character that isn't known
_DATES = {"iptc": r"\d{8}|\d{6}[+-]\d{4}", "xmp": _DAY, "exif": _ANY, "main": _ANY}


def arguments(place: bytes, changes: Differences) -> tuple[list[bytes], list[str]]:
    """The lines that put the earlier texts of a picture back, and the fields that they leave.

    >>> before, after = (Field("main", "013b", "ASCII", 5, it) for it in (b"Otto\\0", b"Anna\\0"))
    >>> arguments(b"a.jpg", [FieldDifference("main", "013b", (before,), (after,))])[0][3:]
    [b'-IFD0:Artist#=Otto', b'./a.jpg', b'-execute']
    """
    by_charset: dict[bool, list[str]] = {True: [], False: []}
    left = []
    for change in changes:
        label = _label(change)
        if not label and change[:2] != _DECLARED:
            continue
        # ExifTool has no argument for a field of a further block, or of a namespace without a prefix
        is_left = bool(change.block) or label in _LEFT or change.name.startswith("XMP:")
        words = None if is_left or set(b"\r\n") & set(place) else _words(change)
        if words is None:
            left.append(change.name)
        else:
            by_charset[all(map(_is_utf8, change.before))] += words
    name = b"./" * (not place.startswith(b"/")) + place  # which is no option
    lines = []
    for is_utf8_, words in by_charset.items():
        lines += [*map(str.encode, ("-E", *_CHARSETS[is_utf8_], *words)), name, b"-execute"] * bool(words)
    return lines, left


def _label(change: FieldDifference) -> str:
    """The label of a field, also of one in a directory or a block where few programs have it."""
    named = labels.label_of_fields().get(change.name.partition(" (")[0])
    return named or labels.LABELLED.get(change[:2]) or ""


def _is_utf8(field: Field) -> bool:
    octets = b"" if field.tag in _ENCODED else field.content
    return not isinstance(octets, bytes) or is_utf8(octets)


def _words(change: FieldDifference) -> list[str] | None:
    """The arguments for a field; None if ExifTool can't write its earlier texts."""
    try:
        texts = [one for it in change.before for one in _texts(it)]
    except ValueError:  # also of bytes in no character set
        return None
    form = _DATES[change.directory] if _label(change) in labels.DATED else _ANY
    if not _can_be_written(texts, form):
        return None
    name = re.sub("^XMP-Iptc4xmp(Core|Ext):", r"XMP-iptc\1:", change.name)
    words = [f"-{name}="] * (not texts or any(language for _, language in texts))
    dashes = 2 * (form == _DAY)  # ExifTool has colons in dates
    return words + [_assigned(name, text.replace("-", ":", dashes), it) for text, it in texts]


def _can_be_written(texts: Sequence[tuple[str, str]], form: str) -> bool:
    """Whether ExifTool writes all of these texts as they are, and nothing else."""
    if len(texts) > 1 and not all(text for text, _ in texts):
        return False
    # a language is a stranger's word, and would be a part of an argument
    forms = (re.compile(form), re.compile("[A-Za-z0-9-]*"))
    return all(it.fullmatch(word) for pair in texts for it, word in zip(forms, pair))


def _assigned(name: str, text: str, language: str) -> str:
    """An argument, in which the entities of HTML stand for what a line can't have."""
    escaped = re.sub(r"[&\x00-\x1f\x7f]|^[ -/:-@]", lambda it: f"&#{ord(it[0])};", text)
    of_language = f"-{language}" * (language.lower() not in ("", "x-default"))
    return f"-{name}{of_language}" + (f"#={escaped}" if text else "^=")


def _texts(field: Field) -> list[tuple[str, str]]:
    """The texts of a field in their order, each with its language. Raises `ValueError` for those
    that aren't kept, are longer than IPTC allows, or are in no known character set."""
    content = field.content
    if isinstance(content, Long):
        raise ValueError
    if field.directory == "xmp":
        values = [it._replace(kind="Seq") if isinstance(it, Array) else it for it in content]
        return [one for it in values for one in simple_texts(it)]  # type: ignore[arg-type]
    if not isinstance(content, bytes) or len(content) > _LIMITS.get(field.tag, len(content)):
        raise ValueError
    if (field.directory, field.tag) == _DECLARED:
        return [({b"\x1b%G": "UTF8"}.get(content, "\0"), "")]
    return [(_text(field, content), "")]


def _text(field: Field, octets: bytes) -> str:
    """The text of Exif or IPTC; with a NUL if it can't be written."""
    if field.tag == "9286":
        return text_of_comment(field) or "\0" * bool(octets)
    charset = "utf-8" if is_utf8(octets) else "cp1252"
    text = octets.decode("utf-16-le" if field.tag in _ENCODED else charset).rstrip("\0")
    # the second text of a Copyright is on a line of its own in ExifTool
    return text if field.tag != "8298" else text.replace("\n", "\0")
