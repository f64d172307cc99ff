"""Pairs of JPEGs whose heads are odd: blocks, packets and segments that few programs write, in any number and order, and further pictures behind
the head. The second of a pair is the first one with its parts in another order, with one of them changed, taken away or added, or the same."""

from random import Random
from typing import List, Tuple

from made_blocks import ASCII, BLOCKS, LONG, UNDEFINED, segment
from made_files import app1, app1_xmp, app13, exif, extension, iim, jpeg, mpf, resource, small_tiff, title, xmp
from studio import SMALL_JPEG
from test_trailers import foto_station

MARKS = (b"XMP\0://ns.adobe.com/xap/1.0/\0", b"http://ns.adobe.com/xap/2.0/\0")
NAMES = ("Anna", "Otto", "Ida", "Зоя")
MAKERS = ((0xE2, b"FPXR\0"), (0xE3, b"Meta\0\0"), (0xE4, b""), (0xE5, b"RMETA\0"), (0xEC, b"Ducky\0"), (0xED, b"unknown"), (0xEF, b"Q\0"))
ALIKE = ((0xE0, b"JFXX\0"), (0xE2, b"ICC_PROFILE\0\1\1"), (0xEB, b"JP"), (0xED, b"Adobe_CM"), (0xEE, b"Adobe"), (0xFE, b"comment"))


def noted(name: bytes, gap: bytes, moved: int) -> bytes:
    """A block with a MakerNote, and bytes behind it that no field has."""
    note = (0x8769, LONG, [(0x927C, UNDEFINED, b"Note\0\0\0\1" + name)])
    return small_tiff((0x010F, ASCII, b"Leica\0" + bytes(moved)), note) + gap


def extended(text: str, chance: Random) -> bytes:
    pieces, digest = extension(xmp(f"<dc:format>{text}</dc:format>"), chance.choice((40, 400)))
    wrong = digest if chance.random() < 0.8 else "A" * 32
    return app1_xmp(xmp(f"<note:HasExtendedXMP>{wrong}</note:HasExtendedXMP>")) + b"".join(pieces)


def part(chance: Random) -> bytes:
    """A part of a head."""
    name = chance.choice(NAMES)
    octets, block = name.encode(), exif(name.encode())
    marker, head = chance.choice(MAKERS)
    without, begins = chance.choice(ALIKE)
    known = [value for value in BLOCKS.values() if len(value) < 2000]
    makers: List = [
        lambda: app1(block),
        lambda: app1(noted(octets, chance.choice((b"", b"gap", b"pag")), chance.choice((0, 2)))),
        lambda: app1(small_tiff((0x010F, ASCII, octets + b"\0"), (0x8290, LONG, 8))),
        lambda: app1(chance.choice(known)),
        lambda: segment(0xE1, chance.choice((b"Exif\0\1", b"exif\0\0", b"12Exif\0\0")) + block),
        lambda: app13(resource(0x0404, iim(octets))),
        lambda: app13(resource(0x0404, iim(octets)), resource(0x0422, block)),
        lambda: app13(resource(0x0424, title(name))),
        lambda: segment(0xED, b"Adobe_Photoshop2.5:" + bytes(8) + resource(0x0404, iim(octets))),
        lambda: app1_xmp(title(name)),
        lambda: app1_xmp(title(name).decode().encode("utf-16-le")),
        lambda: app1_xmp(xmp("text")),
        lambda: segment(0xE1, chance.choice(MARKS) + title(name)),
        lambda: extended(name, chance),
        lambda: segment(marker, head + octets),
        lambda: segment(without, begins + octets),
    ]
    return chance.choice(makers)()


def head(parts: List[bytes], further: List[bytes], order: str) -> bytes:
    return mpf(b"".join(parts), *(jpeg(it) for it in further), order=order) if further else jpeg(*parts)


def pair(chance: Random) -> Tuple[bytes, bytes]:
    parts = [part(chance) for _ in range(chance.choice((0, 1, 1, 2, 2, 3)))]
    further = [part(chance) for _ in range(chance.choice((0, 0, 0, 1, 2)))]
    others, behind = list(parts), list(further)
    change = chance.choice(("nothing", "order", "another", "more", "less", "behind"))
    if change == "order":
        chance.shuffle(others)
    elif change == "another" and others:
        others[chance.randrange(len(others))] = part(chance)
    elif change == "more":
        others.insert(chance.randrange(len(others) + 1), part(chance))
    elif change == "less" and others:
        del others[chance.randrange(len(others))]
    elif behind:
        behind[chance.randrange(len(behind))] = part(chance)
    return head(parts, further, ">"), head(others, behind, chance.choice("<>"))


def pairs_behind() -> List[Tuple[bytes, bytes]]:
    """Of other pixels, with Exif and without; of a trailer of more than a megabyte whose IPTC is at its beginning; and of a block by an unknown
    mark before a further picture."""
    other = SMALL_JPEG[:-3] + bytes([SMALL_JPEG[-3] ^ 1]) + SMALL_JPEG[-2:]
    pixels = [tuple(jpeg(*some, base=base) for base in (SMALL_JPEG, other)) for some in ((), (app1(exif(b"Anna")),))]
    block, further = exif(b"Ida"), [app13(resource(0x0404, iim(b"Ida")))]
    marked = tuple(head([it], further, ">") for it in (app1(block), segment(0xE1, b"Exif\0\1" + block)))
    return [*pixels, marked, tuple(jpeg(behind=foto_station((1, iim(it)), (2, bytes(3 << 19)))) for it in (b"Anna", b"Otto"))]


def pairs_of_xmp() -> List[Tuple[bytes, bytes]]:
    """Of packets in places that few programs read: which one is the first depends on the order in a head, and one is in resources of a picture
    behind it."""
    packet, other = app1_xmp(title("Anna")), segment(0xE1, MARKS[0] + title("Otto"))
    marked = (app1_xmp(title("Otto")), segment(0xE1, MARKS[0] + title("Anna")))
    resources = [app13(resource(0x0424, title(name))) for name in NAMES[:2]]
    behind = [tuple(head([], [b"".join(it)], ">") for it in ((packet, other), (other, packet)))]
    return [
        (jpeg(packet, other), jpeg(other, packet)),
        (jpeg(packet, other), jpeg(*marked)),
        *behind,
        tuple(head([], [it], ">") for it in resources),
    ]
