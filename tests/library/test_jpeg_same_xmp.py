"""exifnorm_jpeg_same and XMP: pictures whose packets are known, and pairs that are made by chance, which are never called the same where
`exifnorm-pictures compare` or ExifTool shows a difference."""

import itertools

import pytest

import exifnorm
import jpegs
from changed import changed
from exifnorm import NotRead, Unread
from small_blocks import CAPTION, ONE
from small_packets import small_packets
from jpeg_made import COMMENT, END, EXTENSION, LITTLE, SPACES, VASE, exif, extended, iptc, packet, photoshop, picture, resource, segment
from jpeg_made import XMP as MARK
from test_jpeg_same import NOT_ALL, UPRIGHT, URN, name, see


__all__ = ["name", "see"]  # fixtures

VASE_AS_ELEMENT = b"<?xpacket begin=''?><r:RDF " + SPACES + b"><r:Description><d:source>Vase</d:source></r:Description></r:RDF>  "
BOWL = VASE.replace(b"Vase", b"Bowl")
EMPTY = b"<r:RDF " + SPACES + b"/>"
RARE = VASE.replace(b"d:source='Vase'/>", b"><d:source r:ID='i'>Vase</d:source></r:Description>")
WRONG = VASE[:-1]


def of_resource(data):
    return photoshop(resource(0x0424, data))


def at(octets, data):
    """That the picture has these bytes, which aren't read."""
    return Unread(False, octets.index(data))


SAME = {
    "an attribute and an element": (picture(packet(VASE)), picture(packet(VASE_AS_ELEMENT))),
    "beside Exif and IPTC": (
        picture(exif(ONE), packet(VASE), iptc(CAPTION)),
        picture(iptc(CAPTION), packet(VASE_AS_ELEMENT), exif(LITTLE)),
    ),
    "packets without a property": (picture(packet(EMPTY)), picture(packet(EMPTY.replace(b"/>", b"><r:Description/></r:RDF>")))),
    "XMP after the head": (picture(end=b"\xff\xd9" + packet(VASE)), picture()),
    "an empty resource of XMP": (picture(of_resource(b"")), picture()),
    "APP1 of another kind": (picture(segment(0xE1, b"FLIR\0" + bytes(60))), picture()),
    "a sign of XMP in another segment": (picture(segment(0xE2, b"<?xpacket"), segment(0xFE, b"http")), picture()),
    "a sign of XMP that is cut": (
        picture(segment(0xE1, b"htt"), segment(0xE1, b"XMP"), segment(0xE1, b"x<?xpacke"), segment(0xE1, b"<exif")),
        picture(),
    ),
}
DIFFERENT = {
    "another value": (picture(packet(VASE)), picture(packet(BOWL))),
    "one has no packet": (picture(packet(VASE)), picture()),
    "one has a packet without a property": (picture(packet(EMPTY)), picture()),
    "beside equal Exif": (picture(exif(ONE), packet(VASE)), picture(exif(LITTLE), packet(BOWL))),
    "beside a place of Exif that isn't read": (picture(segment(0xED, b"x"), packet(VASE)), picture(packet(BOWL))),
    "Exif that differs, and XMP that isn't read": (picture(exif(ONE), packet(RARE)), picture(exif(UPRIGHT), packet(WRONG))),
}
EXTRA = {
    "a rare packet": (picture(packet(RARE)), RARE),
    "a wrong packet": (picture(packet(WRONG)), WRONG),
    "a packet of no bytes": (picture(COMMENT, packet(b"")), b"\xff\xd9"),
    "a second packet": (picture(packet(VASE), packet(BOWL)), BOWL),
    "one packet twice": (picture(packet(VASE), COMMENT, packet(VASE_AS_ELEMENT)), VASE_AS_ELEMENT),
    "a wrong packet before another": (picture(packet(WRONG), packet(BOWL)), BOWL),
    "extended XMP without its packet": (picture(extended(BOWL)), b"0123456789ABCDEF"),
    "XMP in a resource": (picture(of_resource(VASE)), VASE),
    "XMP in a resource beside a packet": (picture(packet(BOWL), of_resource(VASE)), VASE),
    "XMP in a resource of another signature": (picture(photoshop(resource(0x0424, VASE, b"MeSa"))), VASE),
    "APP1 that begins with http": (picture(segment(0xE1, b"http://x/\0" + VASE)), b"http://x/"),
    "APP1 that begins with XMP": (picture(segment(0xE1, b"XMP\0" + VASE)), b"XMP\0"),
    "APP1 with an instruction of XMP": (picture(segment(0xE1, b"any<?xpacket")), b"any"),
    "APP1 with the prefix exif": (picture(segment(0xE1, b"any<exif:")), b"any"),
}


@pytest.mark.parametrize("name", ["jpeg_same"], indirect=True)
@pytest.mark.parametrize("first, second", SAME.values(), ids=SAME)
def test_the_same(see, first, second):
    for pair in ((first, second), (second, first), (first, first)):
        see(*pair, True)


@pytest.mark.parametrize("name", ["jpeg_same"], indirect=True)
@pytest.mark.parametrize("first, second", DIFFERENT.values(), ids=DIFFERENT)
def test_different(see, first, second):
    see(first, second, False)
    see(second, first, False)


BEHIND_DAMAGE = picture(photoshop(resource(0x03ED, bytes(16)) + b"\1" + resource(0x0424, VASE)))
MAY_HAVE_XMP = {**NOT_ALL, "XMP behind damage": (BEHIND_DAMAGE, picture(), (False, BEHIND_DAMAGE.index(b"\x018BIM")))}


@pytest.mark.parametrize("name", ["jpeg_same"], indirect=True)
@pytest.mark.parametrize("some, all_read, place", MAY_HAVE_XMP.values(), ids=MAY_HAVE_XMP)
def test_xmp_that_only_one_has_may_be_in_a_place_of_the_other(see, some, all_read, place):
    """Whatever stands there. If the one with the place has more, they are different."""
    some_more, more = (it.replace(END, packet(VASE) + END) for it in (some, all_read))
    see(some, more, NotRead(1, Unread(*place)))
    see(more, some, NotRead(2, Unread(*place)))
    see(some_more, all_read, False)
    see(all_read, some_more, False)


@pytest.mark.parametrize("name", ["jpeg_same"], indirect=True)
def test_which_place_is_named(see):
    """A place of Exif and IPTC comes before one of XMP, that of another mark before a packet, and the first picture before the second."""
    exif_like, like_xmp = segment(0xED, b"x"), segment(0xE1, b"XMP\0x")
    everything = picture(packet(RARE), like_xmp, exif_like)
    see(everything, picture(), NotRead(1, Unread(False, everything.index(b"x\xff\xd9"))))
    both = picture(packet(RARE), like_xmp)
    see(both, picture(), NotRead(1, at(both, b"XMP\0")))
    see(picture(packet(RARE)), picture(exif_like), NotRead(1, at(picture(packet(RARE)), RARE)))
    see(picture(exif_like), picture(packet(RARE)), NotRead(1, Unread(False, 6)))
    see(picture(packet(VASE)), everything, NotRead(2, Unread(False, everything.index(b"x\xff\xd9"))))
    in_two = picture(photoshop(resource(0x0424, VASE)[:9]), photoshop(resource(0x0424, VASE)[9:]))
    see(picture(), in_two, NotRead(2, Unread(True, 12)))


def test_only_blocks_are_compared_without_xmp(way):
    for some, _ in (*DIFFERENT.values(), *EXTRA.values()):
        assert exifnorm.jpeg_same_blocks(some, some) is True or exifnorm.jpeg_unread(some)
    assert exifnorm.jpeg_same_blocks(*DIFFERENT["another value"]) is exifnorm.jpeg_same_blocks(*DIFFERENT["one has no packet"]) is True


# ---- pairs that are made by chance

PACKETS = [*small_packets(), VASE, VASE_AS_ELEMENT, BOWL, EMPTY, RARE, WRONG]
PACKETS = [it for it in PACKETS if len(it) < 60_000]
HEAD = len(photoshop(b""))  # what precedes the first resource in a segment


def perhaps(chance, octets):
    """The same bytes, or changed ones."""
    return octets if chance.randrange(3) else changed(octets, chance)


def damaged(chance, octets):
    """The same segment of resources, or with another octet before the data of the first one."""
    place = HEAD + chance.randrange(12)
    octet = octets[place] ^ chance.choice((0, 1, 4, 64))
    return octets[:place] + bytes((octet,)) + octets[place + 1 :]


def made_piece(chance):
    data = perhaps(chance, chance.choice(PACKETS))
    way = chance.randrange(24)
    if way < 16:
        return packet(data)
    if way < 18:
        return extended(data)
    if way < 20:
        return damaged(chance, of_resource(data))
    if way == 20:
        return segment(0xE1, perhaps(chance, MARK) + data)
    if way == 21:
        return segment(0xE1, chance.choice((b"XMP\0", b"http", b"", EXTENSION)) + data)
    return chance.choice((exif(ONE), exif(LITTLE), iptc(CAPTION), iptc(URN), COMMENT))


def made(chance):
    return [made_piece(chance) for _ in range(chance.choice((1, 1, 1, 1, 1, 2, 2, 3)))]


def pair_of_packets(chance):
    pieces = made(chance)
    return picture(*pieces), picture(*varied(chance, pieces))


def varied(chance, pieces):
    """The same pieces in another order, or with another one, or with one more or less."""
    other, way = list(pieces), chance.randrange(6)
    if way == 0:
        chance.shuffle(other)
    elif way == 1:
        other[chance.randrange(len(other))] = made_piece(chance)
    elif way == 2:
        other.append(made_piece(chance))
    elif way == 3:
        other = [perhaps(chance, piece) for piece in other]
    elif way == 4:
        other.pop()
    return other


def has_unknown(octets):
    """Whether the picture has an APP1 segment in which neither the library nor ExifTool reads anything. The command names each."""
    segments = [octets[start : start + size] for marker, kind, _, start, size in jpegs.parts(octets)[0] if marker == 0xE1 and not kind]
    return any(data and not jpegs.SEEMS_XMP.search(data) for data in segments)


def judged(first, second):
    """What `exifnorm-pictures compare` says: `True` only of the same metadata; None if it can't read one of the two."""
    try:
        pair = [exifnorm.read_bytes(it) for it in (first, second)]
    except (exifnorm.NoPicture, exifnorm.NotReadable):
        return None
    return exifnorm.compare(*pair).same


def test_each_packet_beside_each(way):
    """Packets in all forms: the same exactly if the command finds the same, where both are read."""
    met = set()
    for one, other in itertools.combinations_with_replacement(PACKETS, 2):
        first, second = picture(packet(one)), picture(packet(other))
        found = exifnorm.jpeg_same(first, second)
        if isinstance(found, bool):
            assert found is judged(first, second), (one, other)
        met.add(found if isinstance(found, bool) else "not read")
    assert met == {True, False, "not read"}
