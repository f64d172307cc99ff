"""The fields of a block, as objects."""

from __future__ import annotations

from typing import List

from ._aliases import Octets
from ._calls import normal, show
from ._errors import NormalTooLong
from ._fields import BlockField
from ._forms import fields_of_form
from ._listings import fields_of_listing


def fields(block: Octets) -> List[BlockField]:
    """The fields of the block, in the order of `show`: those of each directory by ascending tag, the DataSets of its caption
    record after those of the main directory, and the thumbnail's JPEG and strips after those of the thumbnail. A directory
    without fields is left out. Raises what `show` raises.

    >>> from exifnorm import fields
    >>> block = bytes.fromhex("4d4d002a00000008 0002 010e 0002 00000005 00000026 011a 0005 00000001 0000002c 00000000"
    ...     "5661736500 00 00000048 00000001")
    >>> for field in fields(block):
    ...     print(field.directory, hex(field.tag), field.type, field.values)
    main 0x10e ASCII b'Vase\\x00'
    main 0x11a RATIONAL (Ratio(numerator=72, denominator=1),)
    """
    try:
        form = normal(block)
    except NormalTooLong:
        return fields_of_listing(show(block))
    return fields_of_form(form)
