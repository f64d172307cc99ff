"""The types of the values of TIFF, by their numbers (TIFF 6.0, section 2; TIFF Technical Note 1; LibTIFF, "BigTIFF Design"; Exif 3.0).

The package exifnorm, which is installed without this one too, has a table of its own: of the types of normal forms, by the names in them.
"""

from __future__ import annotations


from exifnorm._named import NamedTuple

HEADS = (b"II*\0", b"MM\0*")  # how a file begins that isn't a BigTIFF, and a block
SHORT, LONG, SSHORT, SLONG, IFD = 3, 4, 8, 9, 13
LONG8, SLONG8, IFD8 = 16, 17, 18


class Type(NamedTuple):
    """A type: its name, the bytes of an element, and the code of `struct` for a number of it; none of those that no structure has."""

    name: str
    size: int
    code: str = ""


EXIF = {  # those of a block
    int(number): Type(name, int(size), *code)
    for row in """
1 BYTE 1, 2 ASCII 1, 3 SHORT 2 H, 4 LONG 4 I, 5 RATIONAL 8, 6 SBYTE 1, 7 UNDEFINED 1, 8 SSHORT 2, 9 SLONG 4 i, 10 SRATIONAL 8,
11 FLOAT 4, 12 DOUBLE 8, 129 UTF-8 1
""".split(
        ","
    )
    for number, name, size, *code in [row.split()]
}
TIFF = {**EXIF, IFD: Type("IFD", 4, "I")}
BIG_TIFF = {**TIFF, LONG8: Type("LONG8", 8, "Q"), SLONG8: Type("SLONG8", 8, "q"), IFD8: Type("IFD8", 8, "Q")}
