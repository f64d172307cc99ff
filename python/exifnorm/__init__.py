"""Reads the metadata of pictures, and compares them by what they mean.

    >>> import exifnorm
    >>> bowl = exifnorm.read("samples/before/ceramics/2003-12-bowl.jpg")  # doctest: +SKIP
    >>> bowl["IFD0:Model"], bowl.texts("keywords")  # doctest: +SKIP
    ('Canon EOS 5D Mark II', ('bowl', 'celadon'))

`read`, `read_bytes`, `read_all`, `compare` and `Reader` are about whole pictures; `exifnorm.pictures` has them too. What
follows is about single blocks, which `exifnorm.blocks` has too: the meaning of a block, its normal form, and whether two mean the same.

A block is an Exif block, perhaps after the six bytes ``Exif\\0\\0`` that precede it in a JPEG file, or a block of IPTC-NAA IIM
DataSets. `jpeg_blocks` takes the blocks out of a JPEG's bytes, and `jpeg_xmp` the packet of XMP; `jpeg_same` compares the Exif, IPTC and XMP
of two. `xmp_normal` returns the normal form of a packet, and `xmp_properties` its properties. No
picture file is opened. Two blocks have the same normal form, byte for byte, exactly if they mean the same. A block that breaks the
rules raises `Refused`, with the first fault and its byte offset; it is never repaired.

A block is best given as bytes. A bytearray, a memoryview, an mmap, or any other object with contiguous bytes is copied first; one
whose bytes are apart, as `memoryview(block)[::2]`, raises BufferError. Calls can run in several threads at once.

    >>> import exifnorm
    >>> block = bytes.fromhex("4d4d002a00000008 0001 0112 0003 00000001 00060000 00000000")
    >>> exifnorm.kind(block)
    'exif'
    >>> turned = bytes.fromhex("49492a0008000000 0100 1201 0300 01000000 06000000 00000000")
    >>> exifnorm.same(block, turned), exifnorm.normal(turned) == block
    (True, True)
    >>> exifnorm.fields(block)
    [BlockField(directory='main', tag=274, type='SHORT', values=(6,))]

The functions call the library libexifnorm. Of its answers these are proved: whether two blocks of Exif or IPTC mean the same, whether two
JPEGs have the same Exif, IPTC and XMP (`jpeg_same`), that the normal form of a packet of XMP is that of what the packet means, and that a
packet with a meaning has a form, within the limits of `xmp_normal`. The Python code that makes these calls, and objects of what they return,
is tested.
"""

from . import blocks as blocks, pictures as pictures
from ._late import late

TYPE_CHECKING = False  # that of `typing`, which takes long to import
if TYPE_CHECKING:
    from .blocks import *  # noqa: F401
    from .pictures import *  # noqa: F401

__version__ = "1.0.0"

__all__ = ["blocks", "pictures"]
__all__ += blocks.__all__
__all__ += pictures.__all__

if not TYPE_CHECKING:  # a type checker would take any name for one of these
    __getattr__, __dir__ = late(globals(), lambda name: f"exifnorm.{'pictures' if name in pictures.__all__ else 'blocks'}")
