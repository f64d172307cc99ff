"""A field of Exif, IPTC or XMP: what its block has, and what this is for programs and for people."""

from __future__ import annotations

from exifnorm._hints import TYPE_CHECKING, Any, ClassVar, NoReturn, Union

from ..model.found import EXIF, NAMES
from ..model.xmp_values import Long, XmpValue
from .names import exact_key, group_name

if TYPE_CHECKING:
    from .typed import Value

Ratio = tuple[int, int]  # numerator and denominator; `exifnorm.Ratio` is one too, whose package loads the library
Content = Union[bytes, tuple[int, ...], tuple[Ratio, ...], tuple[XmpValue, ...], Long]
Identity = tuple[str, str, str, int, Content]  # the directory, the tag, the type, the number of elements, and the content


class Field:
    """A field of a picture, which doesn't change. Fields are equal if they mean the same: the directory, the key, the type and the value.

    The type of `value` follows from the field, and never from what it has in a picture:

    - texts of Exif, IPTC and XMP: str
    - dates and times of Exif and IPTC: datetime, date or time; a str if one has another form than its standard's
    - SHORT, LONG, BYTE and their signed ones: int
    - RATIONAL and SRATIONAL: Fraction; None if the denominator is 0
    - FLOAT and DOUBLE: float
    - UNDEFINED, the MakerNote and the thumbnail: bytes
    - properties of XMP that are no texts by their standard, such as xmp:Rating, exif:ExposureTime and xmp:CreateDate: int for Integer, float for
      Real, Fraction for Rational, bool for Boolean, datetime or date for Date, float for the degrees of GPSCoordinate; a str if one has another
      form, and of a date without its day
    - several elements, or a list of XMP: a tuple of these; of alternatives in XMP the default one, see `languages`
    - a structure of XMP: a dict of its fields, by names such as "stRef:documentID"
    """

    __slots__ = {
        "directory": 'The directory: "main", "exif", "interop", "gps", "thumb", "iptc" or "xmp".',
        "tag": 'The tag as four hexadecimal digits, the DataSet or the property: "013b", "2:25", "dc:title".',
        "type": 'The type of the standard: "ASCII", "RATIONAL" ..; "octets" in IPTC; "text", "URI", "Alt", "Bag", "Seq" or "structure" in XMP.',
        "count": "The number of elements: of a text and of IPTC the bytes, of a list of XMP its members.",
        "content": (
            "What the block has: bytes of the types of one byte, otherwise a tuple. Its elements are numbers; of RATIONAL and SRATIONAL pairs,"
            " numerator and denominator; of FLOAT and DOUBLE bit patterns; of XMP values with their languages, of which there is one but for"
            " rare RDF. Of a value that a catalogue doesn't keep, its digest and its beginning."
        ),
        "_block": None,
    }
    directory: str
    tag: str
    type: str
    count: int
    content: Content
    _block: str
    _declares_utf8: ClassVar[bool] = False  # whether its record does

    def __init__(self, directory: str, tag: str, type: str, count: int, content: Content, block: str = "") -> None:
        _set_directory(self, directory)
        _set_tag(self, tag)
        _set_type(self, type)
        _set_count(self, count)
        _set_content(self, content)
        _set_block(self, block)

    def __setattr__(self, name: str, value: object = None) -> NoReturn:
        raise AttributeError(f"a field doesn't change: {name}")

    __delattr__ = __setattr__

    def __reduce__(self) -> tuple[Any, ...]:
        return type(self), (*self._identity, self._block)

    def __eq__(self, other: object) -> bool:
        if not isinstance(other, Field):
            return NotImplemented
        return self._identity == other._identity

    def __hash__(self) -> int:
        return hash(self._identity)

    def __repr__(self) -> str:
        return f"Field(name={self.name!r}, text={self.text!r})"

    @property
    def _identity(self) -> Identity:
        """What two fields share exactly if they mean the same."""
        return self.directory, self.tag, self.type, self.count, self.content

    def _with_content(self, content: Content) -> "Field":
        """The same field with another content."""
        return type(self)(*self._identity[:4], content, self._block)

    def _in_block(self, name: str) -> "Field":
        """The same field in the block of this name."""
        return self if name == self.block else type(self)(*self._identity, name)

    @property
    def block(self) -> str:
        """The block: "Exif", "IPTC", "XMP", "second Exif", "Exif of page 2"."""
        return self._block or NAMES.get(self.directory, NAMES[EXIF])

    @property
    def name(self) -> str:
        """The name with its group, as ExifTool has it: "IFD0:Artist", "IPTC:Keywords", "XMP-dc:title"."""
        return group_name(self.directory, self.tag)

    @property
    def key(self) -> str:
        """What identifies the field in its directory: "0x013b", "2:25", "dc:title"."""
        return exact_key(self.directory, self.tag)

    # Made when they are asked for, by modules that import this one

    @property
    def value(self) -> Value:
        """The value as an object of Python."""
        from .typed import value_of

        return value_of(self)

    @property
    def json(self) -> Any:
        """The value as `show --json` prints it, of what JSON has: a fraction is divided, and bytes are {"hex": "00ff"} (docs/JSON.md)."""
        from .plain_texts import without_nul
        from .typed import typed

        value = typed(self)
        return without_nul(value) if isinstance(value, str) else value

    @property
    def languages(self) -> dict[str, str]:
        """Of alternatives in XMP the texts by their languages, as {"x-default": "Vase", "de": "Krug"}; empty for other fields."""
        from .typed import languages_of

        return languages_of(self)

    @property
    def text(self) -> str:
        """The value in plain words: "1/60 s"."""
        from .plain_texts import without_nul
        from .plain_values import plain

        return without_nul(plain(self))

    @property
    def guess(self) -> str:
        """How the character set of a text was found if it isn't declared, as in a caption: "character set guessed: Windows-1252". Empty otherwise."""
        from .plain_texts import guess_of

        return guess_of(self)

    @property
    def exact(self) -> str:
        """The value as `show --exact` prints it: "10/600". Of a long value that is no text, its beginning and its SHA-256."""
        from .listing import exact

        return exact(self)

    @property
    def raw(self) -> bytes:
        """The bytes of the value, most significant byte first; empty in XMP."""
        from .typed import raw

        return raw(self) or b""


class DeclaredField(Field):
    """A DataSet of a record that declares its texts as UTF-8 (1:90)."""

    __slots__ = ()
    _declares_utf8 = True


# By which a new field gets its attributes, in half the time of object.__setattr__
_set_directory, _set_tag, _set_type, _set_count, _set_content, _set_block = (vars(Field)[name].__set__ for name in Field.__slots__)
