"""Texts of fields as a person reads them: those of Exif and IPTC, comments with a character set in front, and those of XMP."""

from __future__ import annotations

from exifnorm._hints import Callable

from ..model.texts import quoted
from ..model.xmp_values import Long, simple_texts
from .field import Field
from .listing import DATASET_NUMBERS, exact, is_comment, is_text, is_wide_text, kept_value, marked_text, printable, shortened

EMPTY = "(empty)"
# Character sets that are tried on bytes outside ASCII. One is taken only if it gives exactly the text of another field.
CHARACTER_SETS = dict(
    row.split(" ", 1)
    for row in (
        "utf-8 UTF-8; cp1252 Windows-1252; mac_roman Mac Roman; cp437 DOS 437; cp850 DOS 850; cp1250 Windows-1250; iso8859_2 Latin-2;"
        " mac_latin2 Mac Central European; cp1251 Windows-1251; koi8_r KOI8-R; cp1253 Windows-1253; cp1254 Windows-1254; cp1257 Windows-1257;"
        " iso8859_15 Latin-9; shift_jis Shift JIS; euc_jp EUC-JP; gb18030 GB 18030; big5 Big5; euc_kr EUC-KR"
    ).split("; ")
)


class InSet(bytes):
    """A text whose character set isn't declared, but known by other parts of its picture."""

    charset = "cp1252"  # where nothing shows another one


def text_of(field: Field) -> str | None:
    """The text of a field whose bytes can be printed as one; None if they can't.

    >>> text_of(Field("main", "013b", "ASCII", 5, b"Otto\\0")), text_of(Field("exif", "927c", "UNDEFINED", 2, b"\\xff\\0"))
    ('Otto', None)
    """
    value = kept_value(field)
    marked = marked_text(field, value) if isinstance(value, bytes) else None
    return None if not marked else marked[1]


def is_utf8(octets: bytes) -> bool:
    """Whether the bytes are UTF-8."""
    try:
        octets.decode("utf-8")
    except UnicodeDecodeError:
        return False
    return True


def guessed(octets: bytes, filling: bytes = b"\0 ") -> str:
    """A text whose character set isn't declared, without the filling at its end: UTF-8 if it can be, otherwise that of `InSet`.

    >>> guessed(b"Z\\xfcrich\\0"), guessed(b"Z\\xc3\\xbcrich")
    ('Zürich', 'Zürich')
    """
    bare = octets.rstrip(filling)
    return bare.decode("utf-8" if is_utf8(bare) else charset_of(octets), "backslashreplace")


def charset_of(octets: bytes) -> str:
    """The character set of a text that isn't UTF-8."""
    return octets.charset if isinstance(octets, InSet) else InSet.charset


# CIPA DC-008 (Exif 2.32), 4.6.6: eight bytes in front of a comment name its character set. Some programs fill them with blanks.
_CHARACTER_SETS = ("ASCII", "UNICODE", "JIS", "")
_HEAD = 8


def comment(octets: bytes) -> str | None:
    """The text of a UserComment, up to its end; empty if there is none, None if it is in no known character set.

    The byte order of a Unicode text isn't declared: the one that gives fewer characters beyond Latin is taken. Text that isn't ASCII after
    `ASCII` is that of a program that wrote its own character set, as it is where none is declared.

    >>> comment(b"ASCII\\0\\0\\0Vase  "), comment(b"UNICODE\\0" + "Zürich".encode("utf-16-be")), comment(b"\\0" * 20)
    ('Vase', 'Zürich', '')
    >>> comment("Low light".encode("utf-16-le"))
    'Low light'
    >>> comment(b"ASCII   Z\\xfcrich"), comment(b"Z\\xfcrich"), comment(b"\\xff\\xfe\\xfd")
    ('Zürich', 'Zürich', None)
    """
    name, rest = _character_set(octets), octets[_HEAD:]
    if not octets.strip(b"\0 ") or (name is not None and not rest.strip(b"\0 ")):
        return ""
    if name is None:
        bare = _bare_comment(octets)
        return wide_comment(octets) if bare is None else bare
    if name == "UNICODE":
        both = [utf_16(rest, it) for it in ("utf-16-be", "utf-16-le")]
        return min(both, key=lambda it: sum(ord(one) > 0x2FF for one in it)).lstrip(_MARK).partition("\0")[0].rstrip()
    text = rest.partition(b"\0")[0]
    try:
        return text.decode("iso2022_jp" if name == "JIS" else "utf-8" if is_utf8(text) else "cp1252").rstrip()
    except UnicodeDecodeError:
        return None


def utf_16(octets: bytes, order: str = "utf-16-le", errors: str = "replace") -> str:
    """A text in UTF-16, without the last byte if they are odd."""
    return octets[: len(octets) & ~1].decode(order, errors)


def _character_set(octets: bytes) -> str | None:
    """The character set that is named in front of a comment, empty for an unknown one; None if nothing like that is there."""
    name = octets[:_HEAD].rstrip(b"\0 ").decode("latin-1")
    return name if len(octets) >= _HEAD and name in _CHARACTER_SETS else None


def _bare_comment(octets: bytes) -> str | None:
    """The text of a comment without a character set in front: UTF-8, or Windows-1252 if most of its bytes are ASCII. Bytes that aren't text may
    begin like a short one."""
    bare, _, rest = octets.partition(b"\0")
    is_known = is_utf8(bare) or 2 * sum(octet < 0x80 for octet in bare) > len(bare)
    if not is_known or (len(bare) < _HEAD and rest.strip(b"\0 ")):
        return None
    try:
        text = printable(bare.decode("utf-8" if is_utf8(bare) else "cp1252"))
    except UnicodeDecodeError:
        return None
    return None if text is None else text.rstrip()


_MARK = "\ufeff"  # of the byte order


def wide_comment(octets: bytes) -> str | None:
    """The text of a comment in UTF-16 in front of which no character set is named: it can be printed, and most of it is Latin. None of any other."""
    for order in ("utf-16-le", "utf-16-be"):
        try:
            text = printable(utf_16(octets, order, "strict").lstrip(_MARK).rstrip("\0 "))
        except UnicodeDecodeError:
            continue
        if text and 2 * sum(ord(one) < 0x250 for one in text) > len(text):
            return text
    return None


def without_nul(text: str) -> str:
    """A text in which the end of a line stands for NULs: databases and XML refuse them.

    >>> without_nul("Lena Brandt\\0Riverside Museum"), without_nul("Lena\\0\\0 ")
    ('Lena Brandt\\nRiverside Museum', 'Lena')
    """
    return text if "\0" not in text else "\n".join(it for it in text.split("\0") if it.strip())


def guess_of(field: Field) -> str:
    """How the character set of a text of Exif or IPTC was found if it isn't declared, or isn't the declared one; empty otherwise.

    >>> guess_of(Field("main", "013b", "ASCII", 7, b"Z\\xfcrich\\0")), guess_of(Field("main", "013b", "ASCII", 5, b"Otto\\0"))
    ('character set guessed: Windows-1252', '')
    """
    octets = field.content
    if not isinstance(octets, bytes) or not is_text(field) or is_wide_text(field) or field.tag in _NO_TEXTS:
        return ""
    if is_comment(field) and (known := _guess_of_comment(field, octets)) is not None:
        return known
    return "" if octets.isascii() else decoded(octets, field.type == "UTF8" or field._declares_utf8)[1]


def _guess_of_comment(field: Field, octets: bytes) -> str | None:
    """The same of a comment; None if it was found as that of another text is."""
    name = _character_set(octets)
    if name is None and field.type not in ("ASCII", "UTF8") and wide_comment(octets) == comment(octets) is not None:
        return "character set guessed: UTF-16"
    return "" if name in ("UNICODE", "JIS") or text_of_comment(field) is None else None


_NO_TEXTS = (*DATASET_NUMBERS, "1:90")


def decoded(octets: bytes, declares_utf8: bool = False) -> tuple[str, str]:
    """The text of some bytes, and how its character set was found if it isn't declared, or isn't the declared one.

    >>> decoded(b"Vase"), decoded(b"Z\\xfcrich"), decoded(b"Z\\xc3\\xbcrich", True)
    (('Vase', ''), ('Zürich', 'character set guessed: Windows-1252'), ('Zürich', ''))
    """
    text = guessed(octets, b"\0")
    if is_utf8(octets):
        return text, "" if octets.isascii() or declares_utf8 else "character set guessed: UTF-8"
    remark = "declared as UTF-8, which it isn't" if declares_utf8 else "character set guessed"
    return text, f"{remark}: {CHARACTER_SETS[charset_of(octets)]}"


def text_of_comment(field: Field) -> str | None:
    """The text of a UserComment; of one that is a text by its type all that is in front of a NUL, unless a character set is there."""
    octets = field.content
    if not isinstance(octets, bytes):
        return None
    if field.type in ("ASCII", "UTF8") and _character_set(octets) is None:
        return guessed(octets.partition(b"\0")[0])
    return comment(octets)


def plain_comment(field: Field) -> str | None:
    """The text of a comment for people; None if it is in no known character set."""
    text = text_of_comment(field)
    return None if text is None else text or EMPTY


# XMP


def xmp_texts(field: Field) -> list[tuple[str, str]] | None:
    """The texts of a simple value or of a list of such, each with its language. None for a structure, or a value that isn't kept whole."""
    if isinstance(field.content, Long):
        return None
    try:
        return [one for value in field.content for one in simple_texts(value)]  # type: ignore[arg-type]
    except ValueError:
        return None


def plain_xmp(field: Field, between: str = "; ", shown: Callable[[str], str] = str) -> str:
    """The texts of a property, each with its language unless x-default is the only one.

    >>> from ..model.xmp_values import Array, Literal
    >>> title = Field("xmp", "dc:title", "Alt", 2, (Array("Alt", (Literal("Vase", "x-default"), Literal("Krug", "de"))),))
    >>> plain_xmp(title), plain_xmp(title, ", ", quoted)
    ('Vase (x-default); Krug (de)', '"Vase" (x-default), "Krug" (de)')
    """
    texts = xmp_texts(field)
    if texts is None:
        return shortened(exact(field))
    shows_language = not {language for _, language in texts if language} <= {"x-default"}
    return between.join(shown(text) + (f" ({language})" if shows_language and language else "") for text, language in texts) or EMPTY
