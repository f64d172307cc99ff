"""Values of fields as they are printed exactly, and how much of a long value is kept."""

from __future__ import annotations

import hashlib
import re

from exifnorm._hints import Iterable, Iterator, Sequence

from ..model import xmp_values
from ..model.budgets import SHOWN_CHARACTERS, SHOWN_FIELDS
from ..model.texts import quoted
from .field import Content, Field, Ratio
from .names import group_of, plain_name

LONGEST_TEXT = 65_536  # bytes of a text that is kept whole
LONGEST_OTHER_TEXT = 400  # characters of bytes that happen to be a text, in a field of no texts
LONGEST_BYTES = 32  # other bytes that are kept
LONGEST_NUMBERS = 160  # characters of numbers that are kept
_BEGINS = 60  # characters that are kept of the beginning
DIGITS = 32  # hexadecimal digits of SHA-256 that identify a value that isn't kept whole

OCTETS = set("BYTE ASCII SBYTE UNDEFINED UTF8 octets".split())
WIDE_TEXTS = set("9c9b 9c9c 9c9d 9c9e 9c9f".split())  # of Windows: UTF-16, least significant byte first
_OTHER_DATASETS = {"2:125", "2:202"}  # pictures
DATASET_DATES = "1:70 2:30 2:37 2:47 2:55 2:62".split()
DATASET_TIMES = "1:80 2:35 2:38 2:60 2:63".split()
DATASET_NUMBERS = ("1:0", "1:20", "1:22", "2:0")
_GPS_COMMENTS = {"001b", "001c"}
MARKED = {"9286"} | _GPS_COMMENTS | WIDE_TEXTS  # tags of texts that aren't bare ones

MAKER_NOTE = ("exif", "927c")


def is_rest(where: str, key: str) -> bool:
    """Whether a field stands for others, of which there are more than are kept."""
    return not where or (where, key) == ("iptc", "more")


def rest_of(fields: Sequence[Field]) -> str:
    """Which fields of a block aren't among these, because it has more than are kept; empty if all are. The last one stands for them."""
    if not fields or not is_rest(fields[-1].directory, fields[-1].tag):
        return ""
    return f" after the first {len(fields) - 1:,}" if len(fields) > 1 else ", which are too many for the catalogue"


def is_comment(field: Field) -> bool:
    """Whether a field has eight bytes for a character set, and then its text (CIPA DC-008 4.6.6)."""
    return field.tag == "9286" or (field.directory == "gps" and field.tag in _GPS_COMMENTS)


def is_wide_text(field: Field) -> bool:
    """Whether a field is a text of Windows."""
    return field.directory == "main" and field.tag in WIDE_TEXTS


def is_text(field: Field) -> bool:
    """Whether a field of bytes is a text by its type or its standard, whatever bytes it has."""
    if field.directory == "iptc":
        return field.tag[:2] in ("1:", "2:") and field.tag not in _OTHER_DATASETS
    return field.type in ("ASCII", "UTF8") or is_comment(field) or is_wide_text(field)


# Long values


def digest_of(octets: bytes) -> str:
    """What identifies a value that isn't kept whole."""
    return hashlib.sha256(octets).hexdigest()[:DIGITS]


def kept_value(field: Field) -> Content:
    """The value of a field, or if it is too long to be kept, its digest and its beginning.

    >>> kept_value(Field("exif", "927c", "UNDEFINED", 40, bytes(40)))
    Long(digest='2c34ce1df23b838c5abf2a7f6437cca3', begins=b'\\x00\\x00\\x00\\x00\\x00\\x00\\x00\\x00')
    """
    value = field.content
    if isinstance(value, bytes):
        if field.directory == "thumb" and field.type == "octets":
            return xmp_values.Long(digest_of(value), b"")
        return value if len(value) <= LONGEST_BYTES or not _is_long(field, value) else xmp_values.Long(digest_of(value), value[:8])
    if isinstance(value, xmp_values.Long):
        return value
    if field.directory == "xmp":
        return tuple([kept_property(one) for one in value])  # type: ignore[arg-type]
    text = numbers_text(field.type, value)  # type: ignore[arg-type]
    return value if len(text) <= LONGEST_NUMBERS else xmp_values.Long(digest_of(text.encode()), text[:_BEGINS])


def _is_long(field: Field, octets: bytes) -> bool:
    if is_text(field):
        return len(octets) > LONGEST_TEXT
    return len(octets) > 4 * LONGEST_OTHER_TEXT or len(plain_text(octets) or " " * 999) > LONGEST_OTHER_TEXT


def kept_property(value: xmp_values.XmpValue) -> xmp_values.XmpValue:
    """A value of XMP, or if it is too long to be kept, its digest and its beginning."""
    if isinstance(value, xmp_values.Literal) and len(value.text) < LONGEST_TEXT // 4:
        return value
    if isinstance(value, xmp_values.Literal) and len(value.text) > LONGEST_TEXT:  # which needn't be printed whole
        text = xmp_values.exact(xmp_values.Literal(value.text[:_BEGINS]))
    else:
        text = xmp_values.exact(value)
        if len(text.encode("utf-8", "surrogatepass")) <= LONGEST_TEXT or isinstance(value, xmp_values.Long):
            return value
    return xmp_values.Long(digest_of(xmp_values.identity(value).encode("utf-8", "surrogatepass")), text[:_BEGINS])


# Exact values


def exact(field: Field) -> str:
    """The value of a field as it is printed exactly; of one that is too long to be kept, its beginning and its digest.

    >>> exact(Field("main", "013b", "ASCII", 5, b"Otto\\0")), exact(Field("exif", "829a", "RATIONAL", 1, ((10, 1250),)))
    ('"Otto"', '10/1250')
    """
    value = kept_value(field)
    if isinstance(value, bytes):
        return _exact_octets(field, value)
    if isinstance(value, xmp_values.Long):
        return _exact_long(field, value)
    if field.directory == "xmp":
        return ", ".join(map(xmp_values.exact, value))  # type: ignore[arg-type]
    return numbers_text(field.type, value)  # type: ignore[arg-type]


def _exact_long(field: Field, value: xmp_values.Long) -> str:
    if not field.directory:
        return f"{value.begins!s}; sha256:{value.digest}"
    begins = f"0x{value.begins.hex()}" if value.begins and isinstance(value.begins, bytes) else str(value.begins or "")
    return f"{begins}.. sha256:{value.digest}" if begins else f"sha256:{value.digest}"


def _exact_octets(field: Field, octets: bytes) -> str:
    marked = marked_text(field, octets)
    if marked:
        return marked[0] + quoted(marked[1])
    return f"0x{octets.hex()}" if len(octets) <= LONGEST_BYTES else f"0x{octets[:8].hex()}.. sha256:{digest_of(octets)}"


def numbers_text(kind: str, values: "tuple[int, ...] | tuple[Ratio, ...]") -> str:
    """Numbers as a listing has them (docs/FORMAT.md, "Listing")."""
    if kind in ("RATIONAL", "SRATIONAL"):
        return " ".join("%d/%d" % one for one in values)  # type: ignore[str-format]
    if kind in ("FLOAT", "DOUBLE"):
        return " ".join(f"{one:0{8 if kind == 'FLOAT' else 16}x}" for one in values)
    return " ".join(map(str, values))


def marked_text(field: Field, octets: bytes) -> tuple[str, str] | None:
    """Bytes as a text that can be printed, without the NUL at its end, and a mark for its form; None if they are none."""
    if field.tag in MARKED:
        if is_wide_text(field) and (text := _wide_text(octets)) is not None:
            return "utf-16 ", text
        if is_comment(field) and octets[:8] == b"ASCII\0\0\0" and (text := _printable(octets[8:])) is not None:
            return "ascii ", text
    plain = plain_text(octets)
    return None if plain is None else ("", plain)


def plain_text(octets: bytes) -> str | None:
    """Bytes as a text of UTF-8, all of it printable or the end of a line, without the NUL at its end. None if they are none."""
    return _printable(octets[:-1] if octets.endswith(b"\0") else octets)


def _printable(octets: bytes) -> str | None:
    try:
        return printable(octets.decode("utf-8"))
    except UnicodeDecodeError:
        return None


def printable(text: str) -> str | None:
    """A text of which each character can be printed, or is the end of a line or a tab; None of another one."""
    return text if text.isprintable() or text.translate(_LINES).isprintable() else None


_LINES = dict.fromkeys(map(ord, "\n\r\t"))  # leaves these out


def _wide_text(octets: bytes) -> str | None:
    """A text of UTF-16 that encodes to these bytes."""
    try:
        text = octets.decode("utf-16-le")
    except UnicodeDecodeError:
        return None
    bare = text[:-1] if text.endswith("\0") else text
    return bare if bare and all(it.isprintable() or it in "\n\r\t" for it in bare) else None


def shortened(text: str) -> str:
    """An exact value with the first twelve digits of its digest: short enough for a line, long enough to distinguish two."""
    return re.sub(r"sha256:([0-9a-f]{12})[0-9a-f]+$", r"sha256:\1", text) if "sha256:" in text else text


def readable(fields: Iterable[Field], kind: str) -> Iterator[str]:
    """The lines of an exact listing: a line for each directory, and one for each field below it."""
    yield f"{kind}:"
    where = None
    for field in fields:
        if field.directory != where:
            where = field.directory
            yield f"  [{group_of(field.directory)}]"
        name = plain_name(field.directory, field.tag)
        if where == "xmp":
            yield f"    {name:<35} {field.type:<14} {shortened(exact(field))}"
            continue
        yield f"    {field.tag:<6} {name:<28} {counted_type(field):<14} {shortened(exact(field))}".rstrip()


def counted_type(field: Field) -> str:
    """The type of a field and the number of its elements: `short[1]`; bytes of IPTC and of a thumbnail have no type."""
    return f"{'bytes' if field.type == 'octets' else field.type.lower()}[{field.count}]"


_PLACES = "main exif interop gps thumb iptc xmp".split()


def order_of(key: tuple[str, str]) -> tuple[int, tuple[int, ...], str]:
    """The place of a field, by its directory and tag, in an ordered list."""
    where, tag = key
    number: tuple[int, ...]
    if where == "xmp":
        number = ()
    elif re.fullmatch("[0-9]{1,5}:[0-9]{1,5}", tag):
        number = tuple(int(it) for it in tag.split(":"))
    else:
        number = (int(tag, 16),) if re.fullmatch("[0-9a-f]{4}", tag) else (1 << 16,)  # a thumbnail, after all tags
    return (_PLACES.index(where) if where in _PLACES else len(_PLACES), number, tag)


# How much of a picture, or of two, a command prints. Pages can share a block of many fields, so that a small file has millions.

LIMITS = f"{SHOWN_FIELDS:,} values or {SHOWN_CHARACTERS >> 20} MB"
_HASHED = 8  # bytes that are hashed in the time in which a character is printed


class Shown:
    """What is still printed."""

    def __init__(self) -> None:
        self._values, self._characters = SHOWN_FIELDS, SHOWN_CHARACTERS

    @property
    def is_full(self) -> bool:
        """Whether nothing further is printed."""
        return self._values <= 0 or self._characters <= 0

    def add(self, values: int, characters: int) -> None:
        """Counts what is printed."""
        self._values -= values
        self._characters -= characters

    def add_fields(self, fields: Iterable[Field], characters: int) -> None:
        """Counts fields, which are printed in so many characters: of XMP the members of each list, and bytes of which a digest is printed."""
        for field in fields:
            self.add(max(1, field.count) if field.directory == "xmp" else 1, 0)
            characters += len(field.content) // _HASHED if isinstance(field.content, bytes) else 0
        self.add(0, characters)
