"""What several types have in common, for annotations.

    >>> bytearray in Octets.__args__
    True
"""

from __future__ import annotations

from mmap import mmap
from typing import Tuple, Union

from ._fields import Ratio
from ._properties import XmpContainer, XmpResource, XmpStructure, XmpText

Octets = Union[bytes, bytearray, memoryview, mmap]
"""A block's bytes. Any other object with contiguous bytes works too, such as an array."""

Values = Union[bytes, Tuple[int, ...], Tuple[Ratio, ...], Tuple[bytes, ...]]
XmpValue = Union[XmpText, XmpResource, XmpContainer, XmpStructure]
