"""Photoshop's image resources, in APP13 segments, in the TIFF tag 8649 and in profiles of PNG files.

A resource is a signature of four letters, a number, a name padded to an even length, the length of its data, and the data padded to
an even length (Adobe Photoshop File Formats Specification, "Image Resource Blocks").
"""

from __future__ import annotations

from itertools import chain

from exifnorm._hints import Iterator, Sequence

import exifnorm

from ...model.budgets import LIMITS, RESOURCES, TooMuch
from ...model.found import EXIF, FEW, IPTC, SIX, XMP, Blocks
from .streams import METADATA, REST, STRUCTURE, Joined, Part, Range

HEAD = b"Photoshop 3.0\0"
SIGNATURES = frozenset(b"8BIM PHUT AgHg DCSR MeSa".split())  # Photoshop, PhotoDeluxe, Lightroom, and two that are not documented

_KINDS = {0x0404: IPTC, 0x0422: EXIF, 0x0424: XMP}
_MORE_EXIF = 0x0423
_SUM = 0x0425  # MD5 of the record for which Photoshop wrote the packet of XMP
KEPT = (*_KINDS, _MORE_EXIF, _SUM)  # the resources that are looked at: nothing but its number says that another one has no metadata
_CLASSES = {**dict.fromkeys(_KINDS, METADATA), _SUM: STRUCTURE}
_HEAD = 12  # bytes of a resource without a name before its data
_NAMES = {
    0x03ED: "resolution",
    0x03F0: "caption",
    0x0408: "guides",
    0x0409: "thumbnail",
    0x040A: "copyright flag",
    0x040B: "URL",
    0x040C: "thumbnail",
    0x040F: "colour profile",
    0x041A: "slices",
    _MORE_EXIF: "Exif",
    **dict.fromkeys(range(0x07D0, 0x0BB7), "path"),
    0x0BB7: "name of the clipping path",
}


def name_of(number: int) -> str:
    """The name of a resource.

    >>> name_of(0x07D0)
    'Photoshop resource 07d0 (path)'
    """
    return f"Photoshop resource {number:04x}" + (f" ({_NAMES[number]})" if number in _NAMES else "")


def resources(data: bytes, most: int = LIMITS[RESOURCES]) -> tuple[list[exifnorm.Resource], bytes]:
    """The resources, and the bytes after the last whole one, without zeros. Raises `TooMuch` for more than `most`.

    >>> resources(b"8BIM" + b"\\x04\\x04" + b"\\0\\0" + b"\\0\\0\\0\\x03" + b"abc\\0")
    ([Resource(number=1028, start=12, size=3)], b'')
    """
    try:
        rows = exifnorm.photoshop_resources(data, most)
    except exifnorm.TooMany:
        raise TooMuch(f"more than {most:,} {RESOURCES}") from None
    rest = data[rows[-1].start + rows[-1].size + rows[-1].size % 2 :] if rows else data
    return rows, rest if rest.strip(b"\0") else b""


def add_resources(blocks: Blocks, runs: Sequence[tuple[str, bytes]], part: str = "") -> None:
    """Adds the blocks in some runs of resources, each run with its position. A resource that continues in the next run is joined, as
    exiv2 does."""
    most, of = LIMITS[RESOURCES] * blocks.budget.times, f" of {part}" * bool(part)
    if len(runs) > 1 and any(resources(data, most)[1] for _, data in runs[:-1]):
        runs = [(runs[0][0], b"".join(data for _, data in runs))]
    for where, data in runs:
        rows, rest = resources(data, most)
        if len(rows) > FEW:
            blocks.budget.spend(RESOURCES, len(rows))
        for number, start, size in rows:
            if number in KEPT:
                add_one(blocks, number, data[start : start + size], where, part)
            else:
                blocks.pass_over(name_of(number) + of, size)
        if rest:
            blocks.leave(f"bytes behind the Photoshop resources in the {where}", rest)


def add_one(blocks: Blocks, number: int, data: bytes, where: str, part: str = "") -> None:
    """Adds the block of a resource that is kept, or names it."""
    place = f"Photoshop resource {number:04x} in the {where}"
    kind = _KINDS.get(number)
    if not data and kind == IPTC:  # which counts as none (docs/FORMAT.md, 9)
        return
    if number == _SUM:
        blocks.iptc_digest = blocks.iptc_digest or data[:16]
    elif kind is None:
        blocks.leave(place, data)
    else:
        blocks.add(kind, data.removeprefix(SIX) if kind == EXIF else data, place, part)


def parts(runs: Sequence[Sequence[Range]], data: Sequence[bytes], most: int = LIMITS[RESOURCES]) -> Iterator[Part]:
    """The parts of some runs of resources, each run with its ranges in the file and its bytes. Raises `TooMuch`."""
    if len(runs) > 1 and any(resources(it, most)[1] for it in data[:-1]):
        runs, data = [list(chain.from_iterable(runs))], [b"".join(data)]
    for ranges, octets in zip(runs, data):
        joined = Joined(ranges)
        for kind, first, last, name in _parts(octets, most):
            yield from (Part(kind, *it, name) for it in joined.placed(first, last))


def _parts(octets: bytes, most: int) -> Iterator[Part]:
    """The parts of one run, whose places count from its start."""
    rows, rest = resources(octets, most)
    at = 0
    for number, start, size in rows:
        kind, name = _CLASSES.get(number, REST), name_of(number)
        has_name = kind == REST or start - at > _HEAD  # of its own, which is no structure
        end = start + size
        yield Part(REST, at, start, name) if has_name else Part(STRUCTURE, at, start)
        yield Part(kind, start, end, name * (kind == REST))
        yield Part(STRUCTURE, end, min(end + size % 2, len(octets)))
        at = end + size % 2
    yield Part(REST, at, len(octets), "bytes behind the Photoshop resources") if rest else Part(STRUCTURE, at, len(octets))


def has_rest(data: bytes) -> bool:
    """Whether some resources have more than metadata. Raises `TooMuch`."""
    return any(it.kind == REST for it in parts([[(0, len(data))]], [data]))
