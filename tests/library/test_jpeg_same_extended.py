"""exifnorm_jpeg_same and extended XMP (XMP part 3, 1.1.3.1): pictures whose properties are known, and pairs that are made by chance, beside
`exifnorm-pictures compare`."""

import hashlib
from collections import Counter
from random import Random

import pytest

import exifnorm
from commands import run
from compiling import need
from exifnorm import NotRead, Unread
from small_blocks import CAPTION, ONE
from jpeg_made import COMMENT, EXTENSION, SCAN, exif, iptc, packet, picture, segment
from test_jpeg_same import name, pair_of_blocks, see
from test_jpeg_same_xmp import BOWL, EXTRA, has_unknown, judged, pair_of_packets

__all__ = ["name", "see"]  # fixtures
PAIRS = 400

SPACES = (
    b"xmlns:r='http://www.w3.org/1999/02/22-rdf-syntax-ns#' xmlns:d='http://purl.org/dc/elements/1.1/' "
    b"xmlns:n='http://ns.adobe.com/xmp/note/' xmlns:x='http://x.org/'"
)
NO_NAME = b"0123456789ABCDEF" * 2


def rdf(*properties):
    return b"<r:RDF " + SPACES + b"><r:Description>" + b"".join(properties) + b"</r:Description></r:RDF>"


def name_of(octets):
    return hashlib.md5(octets, usedforsecurity=False).hexdigest().upper().encode("ascii")


def pointer(named):
    return b"<n:HasExtendedXMP>" + named + b"</n:HasExtendedXMP>"


def piece(named, total, offset, text):
    return segment(0xE1, EXTENSION + named + total.to_bytes(4, "big") + offset.to_bytes(4, "big") + text)


def pieces_of(octets, *ends, named=None):
    """The pieces of extended XMP, cut at these offsets."""
    edges = [0, *ends, len(octets)]
    return [piece(named or name_of(octets), len(octets), start, octets[start:end]) for start, end in zip(edges, edges[1:])]


def whole(octets, *properties, named=None):
    """A packet of some properties that names the extended XMP."""
    return packet(rdf(*properties, pointer(named or name_of(octets))))


TITLE, SOURCE, OTHER = b"<d:format>a</d:format>", b"<d:source>Vase</d:source>", b"<d:source>Bowl</d:source>"
BAG = b"<d:subject><r:Bag><r:li>b</r:li><r:li>a</r:li></r:Bag></d:subject>"
SAME_BAG = b"<d:subject><r:Bag><r:li>a</r:li><r:li>b</r:li></r:Bag></d:subject>"
LONG = b"<d:rights>" + b"All rights. " * 8_000 + b"</d:rights>"
MORE = rdf(SOURCE, BAG)
ONE_PIECE = [whole(MORE, TITLE), *pieces_of(MORE)]
IN_ONE_PACKET = picture(packet(rdf(TITLE, SOURCE, BAG)))
LONGER = rdf(LONG, BAG)
CUTS = range(60_000, len(LONGER), 60_000)
SAME = {
    "all in one packet": picture(*ONE_PIECE),
    "extended XMP before its packet": picture(*reversed(ONE_PIECE)),
    "other things between": picture(ONE_PIECE[0], COMMENT, iptc(b""), ONE_PIECE[1]),
    "three pieces": picture(whole(MORE, TITLE), *pieces_of(MORE, 1, 100)),
    "three pieces in another order": picture(*pieces_of(MORE, 1, 100)[::-1], whole(MORE, TITLE)),
    "a piece of one octet": picture(whole(MORE, TITLE), *pieces_of(MORE, len(MORE) - 1)),
    "each octet by itself": picture(whole(MORE, TITLE), *pieces_of(MORE, *range(1, len(MORE)))),
    "other properties extended": picture(whole(rdf(TITLE, SAME_BAG), SOURCE), *pieces_of(rdf(TITLE, SAME_BAG), 77)),
    "all properties extended": picture(whole(rdf(SAME_BAG, SOURCE, TITLE)), *pieces_of(rdf(SAME_BAG, SOURCE, TITLE))),
    "no property extended": picture(whole(rdf(), BAG, SOURCE, TITLE), *pieces_of(rdf())),
    "the name as an attribute": picture(
        packet(rdf(TITLE).replace(b"Description>", b"Description n:HasExtendedXMP='" + name_of(MORE) + b"'>", 1)), *pieces_of(MORE)
    ),
    "the name before the other properties": picture(packet(rdf(pointer(name_of(MORE)), TITLE)), *pieces_of(MORE)),
}


@pytest.mark.parametrize("name", ["jpeg_same"], indirect=True)
@pytest.mark.parametrize("some", SAME.values(), ids=SAME)
def test_the_same(see, some):
    assert judged(some, IN_ONE_PACKET) is True
    for pair in ((some, IN_ONE_PACKET), (IN_ONE_PACKET, some), (some, some), (some, SAME["three pieces"])):
        see(*pair, True)
    for other in (picture(), picture(packet(rdf(TITLE))), picture(packet(MORE)), picture(packet(rdf(TITLE, OTHER, BAG)))):
        see(some, other, False)
        see(other, some, False)
    see(some, picture(*ONE_PIECE, exif(ONE)), False)


@pytest.mark.parametrize("name", ["jpeg_same"], indirect=True)
def test_more_than_one_segment_has_room_for(see):
    first = picture(whole(LONGER, TITLE), *pieces_of(LONGER, *CUTS))
    turned = rdf(SAME_BAG, LONG)
    second = picture(*pieces_of(turned, 30_000, 60_001, 90_000)[::-1], whole(turned, TITLE))
    assert judged(first, second) is True
    see(first, second, True)
    other = LONGER.replace(b"All rights. </", b"All right.  </")
    see(first, picture(whole(other, TITLE), *pieces_of(other, *CUTS)), False)


@pytest.mark.parametrize("name", ["jpeg_same"], indirect=True)
def test_as_exiftool_writes_it(see, folder):
    """It puts what is too long for the packet into extended XMP."""
    need("exiftool")
    file, text = folder / "a.jpg", folder / "a.txt"
    file.write_bytes(picture(COMMENT, end=SCAN + b"\xff\xd9"))
    text.write_bytes(b"All rights. " * 8_000)
    run("exiftool", "-config", "", "-q", f"-XMP-dc:Rights<={text}", "-XMP-dc:Format=a", "-XMP-dc:Subject=b", "-XMP-dc:Subject=a", file)
    written = file.read_bytes()
    assert written.count(EXTENSION) == 2
    rights = b"<d:rights><r:Alt><r:li xml:lang='x-default'>" + text.read_bytes() + b"</r:li></r:Alt></d:rights>"
    for extension, kept in ((rdf(rights), [TITLE, BAG]), (rdf(rights, SAME_BAG, TITLE), [])):
        see(written, picture(whole(extension, *kept), *pieces_of(extension, *CUTS)), True)
        see(written, picture(whole(extension, *kept, SOURCE), *pieces_of(extension, *CUTS)), False)


# ---- extended XMP that isn't read

A, B, C = pieces_of(MORE, 50, 100)
NAMED, LENGTH, OTHER_MORE = name_of(MORE), len(MORE), rdf(OTHER)
NESTED = b"<x:s r:parseType='Resource'>" + pointer(NAMED) + b"</x:s>"
WITH_POINTER = rdf(SOURCE, pointer(NAMED))
LEFT = {
    "without a packet": (picture(A, B, C), None),
    "a name that isn't the MD5": (picture(whole(MORE, TITLE, named=NO_NAME), *pieces_of(MORE, named=NO_NAME)), None),
    "an octet that has changed": (picture(*ONE_PIECE).replace(b"Vase", b"Urn "), None),
    "a name in small letters": (picture(whole(MORE, named=NAMED.lower()), *pieces_of(MORE, named=NAMED.lower())), None),
    "pieces with the name in small letters": (picture(whole(MORE), *pieces_of(MORE, named=NAMED.lower())), None),
    "a name that is too long": (picture(whole(MORE, named=NAMED + b"A"), A, B, C), None),
    "no name": (picture(packet(rdf(pointer(b""))), A, B, C), None),
    "another name": (picture(whole(OTHER_MORE), A, B, C), None),
    "a packet without a name": (picture(packet(rdf(TITLE)), A, B, C), None),
    "the name of one piece differs": (picture(whole(MORE), A, B, *pieces_of(MORE, 50, 100, named=NO_NAME)[2:]), None),
    "another extension beside it": (picture(*ONE_PIECE, *pieces_of(OTHER_MORE)), None),
    "the first piece is missing": (picture(whole(MORE), B, C), None),
    "the last piece is missing": (picture(whole(MORE), A, B), None),
    "one between is missing": (picture(whole(MORE), A, C), None),
    "a piece twice": (picture(whole(MORE), A, B, B, C), None),
    "all pieces twice": (picture(whole(MORE), A, B, C, A, B, C), None),
    "pieces that overlap": (picture(whole(MORE), A, piece(NAMED, LENGTH, 49, MORE[49:100]), C), None),
    "pieces inside others": (picture(*ONE_PIECE, piece(NAMED, LENGTH, 9, MORE[9:10])), None),
    "a piece of no octets at the start": (picture(piece(NAMED, LENGTH, 0, b""), *ONE_PIECE), None),
    "a piece of no octets between": (picture(whole(MORE), A, piece(NAMED, LENGTH, 50, b""), B, C), None),
    "a piece of no octets at the end": (picture(*ONE_PIECE, piece(NAMED, LENGTH, LENGTH, b"")), None),
    "a piece after the end": (picture(*ONE_PIECE, piece(NAMED, LENGTH, LENGTH + 1, b"a")), None),
    "another full length": (picture(whole(MORE), piece(NAMED, LENGTH + 1, 0, MORE)), None),
    "a full length of four gigabytes": (picture(whole(MORE), piece(NAMED, 0xFFFFFFFF, 0, MORE)), None),
    "an offset of four gigabytes": (picture(*ONE_PIECE, piece(NAMED, LENGTH, 0xFFFFFFFF, b"a")), None),
    "another full length in one piece": (picture(whole(MORE), A, B, piece(NAMED, LENGTH + 1, 100, MORE[100:])), None),
    "another full length in the first piece": (picture(whole(MORE), piece(NAMED, LENGTH - 1, 0, MORE[:50]), B, C), None),
    "a piece without its offset": (picture(*ONE_PIECE, segment(0xE1, EXTENSION + NAMED + bytes(7))), None),
    "no octets at all": (picture(whole(b""), piece(name_of(b""), 0, 0, b"")), None),
    "an extension that is wrong": (picture(whole(MORE[:-1]), *pieces_of(MORE[:-1])), None),
    "an extension that is rare": (picture(whole(rdf(TITLE, TITLE)), *pieces_of(rdf(TITLE, TITLE))), None),
    "a packet that is wrong": (picture(packet(rdf(pointer(NAMED))[:-1]), A, B, C), None),
    "a property in both": (picture(whole(MORE, OTHER), A, B, C), None),
    "an equal property in both": (picture(whole(MORE, SOURCE), A, B, C), None),
    "the name twice": (picture(packet(rdf(pointer(NAMED), pointer(NAMED))), A, B, C), None),
    "a second name that isn't there": (picture(packet(rdf(pointer(NAMED), pointer(NO_NAME))), A, B, C), None),
    "the name in a structure": (picture(packet(rdf(NESTED)), A, B, C), None),
    "the name in a structure, and at the top": (picture(packet(rdf(NESTED, pointer(NAMED))), A, B, C), None),
    "the name in a list": (picture(packet(rdf(b"<x:l><r:Bag><r:li>" + NAMED + b"</r:li></r:Bag></x:l>")), A, B, C), None),
    "the name with a language": (picture(packet(rdf(pointer(NAMED).replace(b"XMP>", b"XMP xml:lang='en'>", 1))), A, B, C), None),
    "the name as a resource": (picture(packet(rdf(b"<n:HasExtendedXMP r:resource='" + NAMED + b"'/>")), A, B, C), None),
    "the name in another namespace": (picture(packet(rdf(pointer(NAMED).replace(b"n:", b"x:"))), A, B, C), None),
    "a name in the extension": (picture(whole(WITH_POINTER), *pieces_of(WITH_POINTER)), None),
    "two packets": (picture(*ONE_PIECE, whole(MORE, TITLE)), None),
    "a second packet before the pieces": (picture(whole(MORE), packet(rdf(TITLE)), A, B, C), rdf(TITLE)),
    "extended XMP that is missing": (picture(whole(MORE, TITLE)), rdf(TITLE, pointer(NAMED))),
    "no extended XMP for a name in a structure": (picture(packet(rdf(NESTED))), rdf(NESTED)),
    "no extended XMP for a name with a language": (
        picture(packet(rdf(b"<n:HasExtendedXMP xml:lang='en'>a</n:HasExtendedXMP>"))),
        rdf(b"<n:HasExtendedXMP xml:lang='en'>a</n:HasExtendedXMP>"),
    ),
}


@pytest.mark.parametrize("name", ["jpeg_same"], indirect=True)
@pytest.mark.parametrize("some, data", [*LEFT.values(), *EXTRA.values()], ids=[*LEFT, *EXTRA])
def test_not_read(see, some, data):
    """It is neither the same nor different, whatever the other picture has, unless Exif or IPTC differ."""
    start = some.index(EXTENSION) + len(EXTENSION) if data is None else some.index(data)
    place = Unread(False, start)
    see(some, some, NotRead(1, place))
    for other in (picture(), picture(packet(BOWL)), IN_ONE_PACKET, picture(*ONE_PIECE)):
        see(some, other, NotRead(1, place))
        see(other, some, NotRead(2, place))
    see(some, picture(exif(ONE)), False)


# ---- pairs that are made by chance

VALUES = [b"a", b"b", b"", b"&lt;&#13;", b"<r:Bag><r:li>a</r:li><r:li>b</r:li></r:Bag>", b"<r:Bag><r:li>b</r:li><r:li>a</r:li></r:Bag>"]
VALUES += [b"<r:Seq><r:li>b</r:li><r:li>a</r:li></r:Seq>", b"<r:Alt><r:li xml:lang='de'>b</r:li></r:Alt>"]
NAMES = [b"d:a", b"d:b", b"x:a", b"x:c", b"n:a"]


def element(chance, label):
    value = chance.choice(VALUES)
    if chance.randrange(8) == 0:
        return b"<" + label + b" r:parseType='Resource'><x:f>" + value + b"</x:f></" + label + b">"
    return b"<" + label + b">" + value + b"</" + label + b">"


def made(chance):
    """Properties of a picture."""
    return [element(chance, label) for label in chance.sample(NAMES, chance.randrange(1, 5))]


def spoilt(chance, properties, extension, pieces):
    """A packet and pieces of which something is changed."""
    way, named = chance.randrange(12), name_of(extension)
    if way == 0:
        pieces.pop(chance.randrange(len(pieces)))
    elif way == 1:
        pieces.append(chance.choice(pieces))
    elif way == 2:
        pieces.append(piece(named, len(extension), chance.randrange(len(extension) + 2), extension[: chance.randrange(3)]))
    elif way == 3:
        place = chance.randrange(len(pieces))
        octets = bytearray(pieces[place])
        octets[chance.randrange(4, len(octets))] ^= 1 << chance.randrange(8)
        pieces[place] = bytes(octets)
    elif way == 4:
        properties.append(chance.choice((pointer(named), pointer(NO_NAME), element(chance, b"d:a"), NESTED)))
    elif way == 5:
        properties[:] = [it for it in properties if it != pointer(named)]
    elif way == 6:
        properties[:] = [it.replace(named, chance.choice((named.lower(), NO_NAME, b""))) for it in properties]
    elif way == 7:
        pieces.append(packet(rdf(TITLE)))


def with_extension(chance, properties):
    """The segments of a packet of some properties, of which it has some in extended XMP."""
    properties = chance.sample(properties, len(properties))
    count = chance.randrange(len(properties) + 1)
    extension, kept = rdf(*properties[:count]) + b" " * chance.randrange(3), properties[count:]
    cuts = sorted(chance.sample(range(1, len(extension)), chance.randrange(4)))
    pieces = pieces_of(extension, *cuts)
    kept.insert(chance.randrange(len(kept) + 1), pointer(name_of(extension)))
    if chance.randrange(4) == 0:
        spoilt(chance, kept, extension, pieces)
    segments = [packet(rdf(*kept)), *pieces]
    chance.shuffle(segments)
    return segments


def segments_of(chance, properties):
    if chance.randrange(4) == 0:
        return [packet(rdf(*chance.sample(properties, len(properties))))]
    return with_extension(chance, properties)


def pair_of_extensions(chance):
    properties = made(chance)
    others = properties if chance.randrange(2) else made(chance)
    return picture(*segments_of(chance, properties)), picture(*segments_of(chance, others))


@pytest.mark.parametrize("pair_of", [pair_of_blocks, pair_of_packets, pair_of_extensions])
@pytest.mark.parametrize("seed", range(4))
def test_never_the_same_where_the_command_does_not_say_so(way, seed, pair_of):
    """Nor different: the answer is the command's, which reads more places, or none."""
    chance, met = Random(seed), Counter()
    for pair in (pair_of(chance) for _ in range(PAIRS)):
        try:
            found = exifnorm.jpeg_same(*pair)
        except exifnorm.PictureRefused:
            continue
        if any(map(has_unknown, pair)):
            continue
        is_read = isinstance(found, bool)
        assert not is_read or judged(*pair) in (found, None), tuple(it.hex() for it in pair)
        met[found if is_read else "not read"] += 1
    assert min(met[it] for it in (True, False, "not read")) > PAIRS // 40, met


def test_the_same_in_other_pieces_and_orders(way):
    """The same properties are the same in any packet and extension."""
    chance = Random(5)
    for _ in range(PAIRS):
        properties = made(chance)
        count = chance.randrange(len(properties) + 1)
        extension = rdf(*properties[:count])
        cuts = sorted(chance.sample(range(1, len(extension)), chance.randrange(6)))
        segments = [whole(extension, *properties[count:]), *pieces_of(extension, *cuts), iptc(CAPTION), exif(ONE)]
        chance.shuffle(segments)
        plain = picture(packet(rdf(*chance.sample(properties, len(properties)))), exif(ONE), iptc(CAPTION))
        assert exifnorm.jpeg_same(picture(*segments), plain) is True, picture(*segments).hex()
