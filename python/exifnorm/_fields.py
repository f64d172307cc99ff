"""Objects for a block and its meaning."""

from __future__ import annotations

from ._hints import TYPE_CHECKING, Any
from ._named import NamedTuple
from ._words import documented

if TYPE_CHECKING:
    from ._aliases import Values
else:
    Values = Any


@documented
class Ratio(NamedTuple):
    """A fraction as it is in the block: it isn't reduced.

    - `numerator`: the number above
    - `denominator`: the number below, which may be 0
    """

    numerator: int
    denominator: int


@documented
class BlockField(NamedTuple):
    """A field of a directory, a DataSet, or a part of the thumbnail.

    - `directory`: "main", "exif", "interop", "gps" or "thumb"; of a DataSet "iptc"
    - `tag`: the tag. Of a DataSet it is 256 times the record number plus the DataSet number, so 2:120 has 0x0278. Of the thumbnail's JPEG
      it is 0x0201 and of its strips 0x0111, the tags of their offsets in a block
    - `type`: the type's name, such as "ASCII" or "RATIONAL"; "WHOLE" if SHORT and LONG mean the same; "DATASET", "JPEG" or "STRIPS"
    - `values`: the bytes of BYTE, ASCII, SBYTE, UNDEFINED, UTF8, DATASET and JPEG. Of SHORT, LONG, WHOLE, SSHORT and SLONG a tuple of
      numbers; of RATIONAL and SRATIONAL a tuple of `Ratio`; of FLOAT and DOUBLE a tuple of bit patterns, as numbers
      (`struct.unpack(">f", pattern.to_bytes(4, "big"))` converts one); of STRIPS the bytes of each

    `exifnorm.read` returns fields with names and with values of Python.

    >>> BlockField("main", 0x0112, "SHORT", (6,))
    BlockField(directory='main', tag=274, type='SHORT', values=(6,))
    """

    directory: str
    tag: int
    type: str
    values: Values
