"""Short names of XMP properties, by the prefixes that the standards and ExifTool use."""

from __future__ import annotations

import functools

from .budgets import CACHED

_SPACES = dict(
    line.split()
    for line in """
http://purl.org/dc/elements/1.1/ dc
http://ns.adobe.com/xap/1.0/ xmp
http://ns.adobe.com/xap/1.0/rights/ xmpRights
http://ns.adobe.com/xap/1.0/mm/ xmpMM
http://ns.adobe.com/xap/1.0/bj/ xmpBJ
http://ns.adobe.com/xap/1.0/t/pg/ xmpTPg
http://ns.adobe.com/xap/1.0/g/ xmpG
http://ns.adobe.com/xap/1.0/g/img/ xmpGImg
http://ns.adobe.com/xap/1.0/sType/ResourceRef# stRef
http://ns.adobe.com/xap/1.0/sType/ResourceEvent# stEvt
http://ns.adobe.com/xap/1.0/sType/Dimensions# stDim
http://ns.adobe.com/xap/1.0/sType/Job# stJob
http://ns.adobe.com/xap/1.0/sType/Version# stVer
http://ns.adobe.com/xmp/sType/Area# stArea
http://ns.adobe.com/xmp/Identifier/qual/1.0/ xmpidq
http://ns.adobe.com/xmp/1.0/DynamicMedia/ xmpDM
http://ns.adobe.com/xmp/note/ xmpNote
http://ns.adobe.com/pdf/1.3/ pdf
http://ns.adobe.com/photoshop/1.0/ photoshop
http://ns.adobe.com/camera-raw-settings/1.0/ crs
http://ns.adobe.com/lightroom/1.0/ lr
http://ns.adobe.com/exif/1.0/ exif
http://ns.adobe.com/exif/1.0/aux/ aux
http://ns.adobe.com/tiff/1.0/ tiff
http://cipa.jp/exif/1.0/ exifEX
http://iptc.org/std/Iptc4xmpCore/1.0/xmlns/ Iptc4xmpCore
http://iptc.org/std/Iptc4xmpExt/2008-02-29/ Iptc4xmpExt
http://ns.useplus.org/ldf/xmp/1.0/ plus
http://www.metadataworkinggroup.com/schemas/regions/ mwg-rs
http://www.metadataworkinggroup.com/schemas/keywords/ mwg-kw
http://www.digikam.org/ns/1.0/ digiKam
http://ns.microsoft.com/photo/1.0/ MicrosoftPhoto
http://ns.google.com/photos/1.0/panorama/ GPano
http://ns.google.com/photos/1.0/camera/ GCamera
http://www.w3.org/1999/02/22-rdf-syntax-ns# rdf
""".strip().splitlines()
)
PREFIXES = tuple(_SPACES.values())


def short_name(uri: str) -> str:
    """The name of a property with a usual prefix; its URI in angle brackets if its namespace has none.

    >>> short_name("http://purl.org/dc/elements/1.1/title"), short_name("http://x/title")
    ('dc:title', '<http://x/title>')
    """
    return _made_name(uri) if len(uri) > CACHED else _cached_name(uri)


def _made_name(uri: str) -> str:
    at = max(uri.rfind("/"), uri.rfind("#")) + 1
    prefix = _SPACES.get(uri[:at])
    return f"{prefix}:{uri[at:]}" if prefix and uri[at:] else f"<{uri}>"


_cached_name = functools.lru_cache(maxsize=4096)(_made_name)
