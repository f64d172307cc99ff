"""exifnorm.jpeg_same and exifnorm.jpeg_same_blocks, by ctypes and by the extension module: pictures whose blocks are known, and each kind of fault
on either side. test_jpeg_same_xmp.py is about XMP, test_jpeg_same_extended.py compares pairs that are made by chance, and the laws in fuzz/
are about the same calls from C."""

import pickle

import pytest

import exifnorm
import jpegs
from changed import changed
from exifnorm import NotRead, PictureRefused, Unread
from jpeg_made import COMMENT, END, EXIF, LITTLE, SCAN, XMP, exif, iptc, photoshop, picture, resource, segment
from kinds import small_kinds
from small_blocks import CAPTION, LOOP, ONE

UPRIGHT = bytes.fromhex("4d4d002a00000008 0001 0112 0003 00000001 00010000 00000000")
LONG_CAPTION = b"\x1c\x02\x78\x80\x04\0\0\0\x04Vase\0"  # means what CAPTION means
URN = b"\x1c\x02\x78\x00\x03Urn"


@pytest.fixture(params=["jpeg_same_blocks", "jpeg_same"])
def name(request):
    """The name of the call: of the one without XMP, or of the one with it."""
    return request.param


@pytest.fixture
def see(name, way):
    """Sees that the call gives the expected result: whether two pictures are the same, the place that isn't read, or the fault."""
    call = getattr(exifnorm, name)

    def check(first, second, expected):
        if isinstance(expected, (bool, NotRead)):
            assert type(found := call(first, second)) is type(expected) and found == expected
            return
        with pytest.raises(PictureRefused) as raised:
            call(first, second)
        it = raised.value
        assert (it.cause, it.offset, it.side, it.kind, it.index) == expected
        again = pickle.loads(pickle.dumps(it))
        assert (again.args, str(again), again.kind, again.index) == (it.args, str(it), *expected[3:]), "pickled"

    return check


def test_what_is_not_read_has_no_truth_value(see, name):
    with pytest.raises(TypeError, match="JPEG 1 has a part at 6 that"):
        bool(getattr(exifnorm, name)(*NOT_ALL["APP1 with another mark"][:2]))


# ---- pictures whose blocks are known

SAME = {
    "no metadata": (picture(), picture(COMMENT, end=SCAN + b"data" + END)),
    "both byte orders": (picture(exif(ONE)), picture(exif(LITTLE))),
    "a resource in another form": (picture(iptc(CAPTION)), picture(iptc(LONG_CAPTION))),
    "both kinds, in either order": (picture(exif(ONE), iptc(CAPTION)), picture(iptc(LONG_CAPTION), COMMENT, exif(LITTLE))),
    "a block in three pieces": (picture(exif(ONE[:9]), exif(ONE[9:20]), exif(ONE[20:])), picture(exif(LITTLE))),
    "resources in two pieces": (
        picture(photoshop(resource(0x0404, CAPTION)[:13]), photoshop(resource(0x0404, CAPTION)[13:])),
        picture(iptc(CAPTION)),
    ),
    "two blocks of each kind": (
        picture(exif(ONE), exif(UPRIGHT), photoshop(resource(0x0404, CAPTION) + resource(0x0404, URN))),
        picture(exif(LITTLE), iptc(LONG_CAPTION), exif(UPRIGHT), COMMENT, iptc(URN)),
    ),
    "an empty resource is no block": (picture(iptc(b"")), picture()),
    "zeros after the resources": (picture(photoshop(resource(0x0404, CAPTION) + bytes(5))), picture(iptc(CAPTION))),
    "empty resources that aren't read": (picture(photoshop(resource(0x0422, b"") + resource(0x0404, b"", b"AgHg"))), picture()),
    "an empty APP13, and APP1 without the word": (picture(segment(0xED, b""), segment(0xE1, b"Exif\0")), picture()),
    "APP13 with a colour model": (picture(segment(0xED, b"Adobe_CM\0\2"), segment(0xED, b"Adobe_CM")), picture()),
    "what is behind the head": (picture(end=SCAN + exif(ONE)), picture(end=SCAN)),
    "IPTC in a trailer": (picture(end=END + b"AXS!" + CAPTION), picture()),
    "IPTC in a second APP13": (picture(photoshop(resource(0x03ED, bytes(16))), COMMENT, iptc(CAPTION)), picture(iptc(LONG_CAPTION))),
    "IPTC after an empty one": (picture(iptc(b""), COMMENT, iptc(CAPTION)), picture(iptc(LONG_CAPTION))),
}
DIFFERENT = {
    "another value": (picture(exif(ONE)), picture(exif(UPRIGHT))),
    "another caption": (picture(iptc(CAPTION)), picture(iptc(URN))),
    "only one has Exif": (picture(exif(ONE), iptc(CAPTION)), picture(iptc(CAPTION))),
    "only one has IPTC": (picture(exif(ONE), iptc(CAPTION)), picture(exif(ONE))),
    "a block more": (picture(exif(ONE), exif(ONE)), picture(exif(ONE))),
    "a caption more": (picture(iptc(CAPTION), COMMENT, iptc(CAPTION)), picture(iptc(CAPTION))),
    "another order of blocks": (picture(exif(ONE), exif(UPRIGHT)), picture(exif(UPRIGHT), exif(ONE))),
    "the second of two": (picture(exif(ONE), exif(ONE)), picture(exif(ONE), exif(UPRIGHT))),
}
# A picture, another one that is the same as far as it is read, and the place in the first that isn't read.
NOT_ALL = {
    "APP1 with another mark": (picture(segment(0xE1, b"Exif\0\xff" + ONE)), picture(), (False, 6)),
    "APP1 in capitals": (picture(COMMENT, segment(0xE1, b"EXIF\0\0" + ONE)), picture(), (False, 6 + len(COMMENT))),
    "APP1 after four bytes": (picture(exif(ONE), segment(0xE1, b"abcdExif\0\0" + ONE)), picture(exif(LITTLE)), (False, 6 + len(exif(ONE)))),
    "APP13 with another mark": (picture(segment(0xED, b"Adobe_Photoshop2.5:" + CAPTION)), picture(), (False, 6)),
    "APP13 with a part of the colour model's mark": (picture(segment(0xED, b"Adobe_C")), picture(), (False, 6)),
    "APP1 with the colour model's mark": (picture(segment(0xE1, b"Adobe_CM\0\2"), segment(0xED, b"x")), picture(), (False, 20)),
    "Exif of Photoshop": (picture(photoshop(resource(0x0422, ONE))), picture(), (False, 6 + 14 + 12)),
    "IPTC by another signature": (picture(photoshop(resource(0x0404, CAPTION, b"AgHg"))), picture(iptc(CAPTION)), (False, 6 + 14 + 12)),
    "what follows the last resource": (
        picture(photoshop(resource(0x0404, CAPTION) + b"8BIM")),
        picture(iptc(CAPTION)),
        (False, 20 + 12 + len(CAPTION) + 1),
    ),
    "a resource in two pieces": (
        picture(photoshop(b"8BIM\4\x22"), photoshop(resource(0x0422, ONE)[6:])),
        picture(),
        (True, 12),
    ),
}
# Each with a picture that is whole: the fault's cause and offset, the kind of the block, and how many of its kind are before it.
FAULTS = {
    "no picture": (b"\x89PNG", ("JpegNoStart", 0, "", 0)),
    "no bytes": (b"", ("JpegNoStart", 0, "", 0)),
    "a cut head": (picture(exif(ONE), end=b"")[:-1], ("JpegCut", 2, "", 0)),
    "another byte": (picture(COMMENT, end=b"x"), ("JpegNoMarker", 2 + len(COMMENT), "", 0)),
    "a short length": (picture(COMMENT, end=b"\xff\xe1\0\1"), ("JpegLength", 2 + len(COMMENT), "", 0)),
    "Exif": (picture(exif(LOOP)), ("Loop", 22, "exif", 0)),
    "Exif without a byte": (picture(exif(b"")), ("UnknownKind", 0, "exif", 0)),
    "a second mark of Exif": (picture(exif(EXIF + ONE)), ("UnknownKind", 0, "exif", 0)),
    "DataSets where Exif belongs": (picture(exif(CAPTION)), ("UnknownKind", 0, "exif", 0)),
    "Exif where DataSets belong": (picture(iptc(ONE)), ("NoMarker", 0, "iptc", 0)),
    "the third block": (picture(exif(ONE), exif(LITTLE), exif(LOOP)), ("Loop", 22, "exif", 2)),
    "IPTC": (picture(exif(ONE), iptc(CAPTION[:-1])), ("DataSetCut", 0, "iptc", 0)),
    "the second IPTC": (picture(iptc(CAPTION), COMMENT, iptc(URN + URN[:-1])), ("DataSetCut", len(URN), "iptc", 1)),
    "Exif before IPTC": (picture(iptc(CAPTION[:-1]), exif(LOOP)), ("Loop", 22, "exif", 0)),
    "a head before its blocks": (picture(exif(LOOP), end=b"x"), ("JpegNoMarker", 2 + len(exif(LOOP)), "", 0)),
}


@pytest.mark.parametrize("first, second", SAME.values(), ids=SAME)
def test_the_same(see, first, second):
    for pair in ((first, second), (second, first), (first, first), (second, second)):
        see(*pair, True)


@pytest.mark.parametrize("some, all_read, place", NOT_ALL.values(), ids=NOT_ALL)
def test_the_same_as_far_as_it_is_read(see, some, all_read, place):
    """The first picture's place comes before that of the second."""
    for pair, side in (((some, all_read), 1), ((all_read, some), 2), ((some, some), 1)):
        see(*pair, NotRead(side, Unread(*place)))
    assert exifnorm.jpeg_unread(some) == place and exifnorm.jpeg_unread(all_read) is None
    # A block that both have is different; one that only the other has may be in the place.
    other = picture(exif(UPRIGHT), iptc(URN))
    see(some, other, False if exifnorm.jpeg_blocks(some) else NotRead(1, Unread(*place)))


@pytest.mark.parametrize("first, second", DIFFERENT.values(), ids=DIFFERENT)
def test_different(see, first, second):
    see(first, second, False)
    see(second, first, False)


@pytest.mark.parametrize("broken, fault", FAULTS.values(), ids=FAULTS)
def test_faults(see, broken, fault):
    """The first fault: of the first head, of the second head, of a block of the first picture, of the second."""
    cause, place, kind, index = fault
    whole, refused, headless = picture(exif(ONE)), picture(exif(b"MM\0\x2a\0\0")), b"\xff\xd8"
    see(broken, whole, (cause, place, 1, kind, index))
    see(whole, broken, (cause, place, 2, kind, index))
    see(broken, broken, (cause, place, 1, kind, index))
    see(headless, broken, ("JpegCut", 2, 1, "", 0))
    see(broken, headless, (cause, place, 1, kind, index) if not kind else ("JpegCut", 2, 2, "", 0))
    see(refused, broken, (cause, place, 2, kind, index) if not kind else ("HeaderCut", 6, 1, "exif", 0))


# ---- pairs that are made by chance

KNOWN = [block for kind in small_kinds() for block in kind.blocks if len(block) < 3000]
EXIFS = [it for it in KNOWN if it[:1] != b"\x1c"] + [ONE, LITTLE, UPRIGHT] * 20 + [LOOP, b""]
RECORDS = [it for it in KNOWN if it[:1] == b"\x1c"] + [CAPTION, LONG_CAPTION, URN] * 20 + [b"", CAPTION[:-1]]


def made_resource(chance):
    number, signature = chance.choice((0x0404, 0x0404, 0x0404, 0x0422)), chance.choice((b"8BIM",) * 9 + jpegs.SIGNATURES)
    return resource(number, chance.choice(RECORDS), signature)


def made(chance):
    """A picture with up to four pieces."""
    pieces = []
    for _ in range(chance.randint(0, 4)):
        way = chance.randrange(8)
        if way < 3:
            block = chance.choice(EXIFS)
            at = chance.randrange(4, len(block)) if way == 2 and len(block) > 4 else len(block)
            pieces += [exif(block[:at])] + ([exif(block[at:])] if at < len(block) else [])
        elif way < 6:
            data = b"".join(made_resource(chance) for _ in range(chance.randint(1, 2))) + chance.choice((b"", b"", b"\0\0", b"\0x"))
            at = chance.randrange(len(data)) if way == 5 else len(data)
            pieces += [photoshop(data[:at])] + ([photoshop(data[at:])] if at < len(data) else [])
        else:
            pieces.append(chance.choice((COMMENT, segment(0xE1, XMP + b"<x/>"), segment(0xE1, b"EXIF\0\0" + ONE))))
    return picture(*pieces, end=chance.choice((END, SCAN + b"data" + END, END, b"")))


def pair_of_blocks(chance):
    first = made(chance)
    second = first if chance.randrange(2) else made(chance)
    return tuple(changed(it, chance) if chance.randrange(5) == 0 else it for it in (first, second))
