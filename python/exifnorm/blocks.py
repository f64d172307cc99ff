"""The calls for single blocks of metadata, and for the bytes of a JPEG: `help(exifnorm)` has an example of each kind.

    >>> from exifnorm import blocks
    >>> blocks.kind(b"\\x1c\\x02\\x78\\x00\\x04Vase")
    'iptc'

The calls for whole pictures, such as `exifnorm.read`, are in `exifnorm.pictures`.
"""

from ._late import late

TYPE_CHECKING = False  # that of `typing`, which takes long to import
if TYPE_CHECKING:
    from ._aliases import Octets, Values, XmpValue
    from ._calls import digest, embeddable, kind, normal, same, show, version
    from ._captions import BlockCaption, captions
    from ._errors import LIMIT, HeadRefused, LibraryMissing, NormalTooLong, PictureRefused, Refused, TooMany, XmpNotRead, XmpRefused
    from ._fields import BlockField, Ratio
    from ._jpeg import (
        JpegBlock,
        JpegPart,
        NotRead,
        Resource,
        Unread,
        jpeg_blocks,
        jpeg_parts,
        jpeg_same,
        jpeg_same_blocks,
        jpeg_unread,
        jpeg_xmp,
        photoshop_resources,
    )
    from ._library import Status
    from ._properties import XmpContainer, XmpProperty, XmpResource, XmpStructure, XmpText
    from ._reading import fields
    from ._xmp import xmp_normal, xmp_properties

__all__ = [
    "BlockCaption",
    "BlockField",
    "HeadRefused",
    "JpegBlock",
    "JpegPart",
    "LIMIT",
    "LibraryMissing",
    "NormalTooLong",
    "NotRead",
    "Octets",
    "PictureRefused",
    "Ratio",
    "Refused",
    "Resource",
    "Status",
    "TooMany",
    "Unread",
    "Values",
    "XmpContainer",
    "XmpNotRead",
    "XmpProperty",
    "XmpRefused",
    "XmpResource",
    "XmpStructure",
    "XmpText",
    "XmpValue",
    "captions",
    "digest",
    "embeddable",
    "fields",
    "jpeg_blocks",
    "jpeg_parts",
    "jpeg_same",
    "jpeg_same_blocks",
    "jpeg_unread",
    "jpeg_xmp",
    "kind",
    "normal",
    "photoshop_resources",
    "same",
    "show",
    "version",
    "xmp_normal",
    "xmp_properties",
]

_MODULES = "_errors _library _calls _fields _jpeg _reading _captions _properties _xmp".split()  # each after those whose names it takes

if not TYPE_CHECKING:  # a type checker would take any name for one of these

    def _module_of(name):
        """The module that defines a name."""
        from importlib import import_module

        if name in ("Octets", "Values", "XmpValue"):  # for annotations alone, so few programs need them
            return "exifnorm._aliases"
        return next(it for it in (f"exifnorm.{one}" for one in _MODULES) if hasattr(import_module(it), name))

    __getattr__, __dir__ = late(globals(), _module_of)
