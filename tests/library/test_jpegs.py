"""The calls for the head of a JPEG, by ctypes and by the extension module: its parts, its blocks and its packet of XMP, beside a walk in Python
over segments and resources. The laws in fuzz/ are about the same calls from C."""

import pickle
import subprocess

import pytest
from hypothesis import HealthCheck, given, settings
from hypothesis import strategies as st

import exifnorm
import jpegs
from commands import TOP
from compiling import need
from exifnorm import HeadRefused, JpegBlock, JpegPart, Resource, TooMany, XmpNotRead
from jpeg_made import (
    COMMENT,
    END,
    EXIF,
    EXTENSION,
    LITTLE,
    PHOTOSHOP,
    PICTURE,
    SCAN,
    START,
    VASE,
    exif,
    extended,
    packet,
    photoshop,
    picture,
)
from jpeg_made import XMP as MARK, resource, segment
from small_blocks import CAPTION, ONE, outcome

pytestmark = pytest.mark.usefixtures("way")
URN, BIG, OF_LITTLE = VASE.replace(b"Vase", b"Urn"), b"MM\0*", b"II*\0"


def found_in(octets, most=None):
    """The parts and the fault, in the form of `jpegs.parts`."""
    try:
        return [tuple(it) for it in exifnorm.jpeg_parts(octets, most)], None
    except HeadRefused as why:
        return [tuple(it) for it in why.parts], (why.cause, why.offset)


def packet_of(octets):
    """The packet, None, or the name of the exception with its first values."""
    found = outcome(exifnorm.jpeg_xmp, octets)
    return found[:3] if isinstance(found, tuple) else found


def packet_by_the_walk(octets):
    """The same by the walk over segments."""
    parts, fault = jpegs.parts(octets)
    if fault:
        return "HeadRefused", *fault
    of_xmp = [(kind, start, size) for _, kind, _, start, size in parts if kind in ("xmp", "extended xmp")]
    left = [start for number, (kind, start, _) in enumerate(of_xmp) if number or kind != "xmp"]
    if left:
        return "XmpNotRead", left[0]
    return octets[of_xmp[0][1] :][: of_xmp[0][2]] if of_xmp else None


def alone(marker, at):
    return marker, "", False, at, 0


# What follows the start mark, each with its parts, and its fault or None.
HEADS = {
    "nothing": (b"", [], ("JpegCut", 2)),
    "the end": (END, [alone(0xD9, 4)], None),
    "the end, and more": (END + b"more", [alone(0xD9, 4)], None),
    "a scan": (segment(0xDA, b"scan") + b"data", [(0xDA, "", False, 6, 4)], None),
    "fill bytes": (b"\xff" * 5 + END, [alone(0xD9, 9)], None),
    "fill bytes alone": (b"\xff\xff\xff", [], ("JpegCut", 2)),
    "a last FF": (segment(0xFE, b"") + b"\xff", [(0xFE, "", False, 6, 0)], ("JpegCut", 6)),
    "a last byte": (segment(0xFE, b"") + b"x", [(0xFE, "", False, 6, 0)], ("JpegNoMarker", 6)),
    "fill bytes before a fault": (END[:1] * 4 + b"\0", [], ("JpegNoMarker", 2)),
    "0 after FF": (b"\xff\0" + END, [], ("JpegNoMarker", 2)),
    "markers that stand alone": (
        b"\xff\x01\xff\xd0\xff\xd7\xff\xd8" + END,
        [alone(it, at) for it, at in zip((1, 208, 215, 216, 217), (4, 6, 8, 10, 12))],
        None,
    ),
    "a marker with a segment, cut": (b"\xff\xe1", [], ("JpegCut", 2)),
    "a length, cut": (b"\xff\xe1\0", [], ("JpegCut", 2)),
    "a length of 0": (b"\xff\xe1\0\0", [], ("JpegLength", 2)),
    "a length of 1": (b"\xff\xe1\0\1" + END, [], ("JpegLength", 2)),
    "a length of 2": (b"\xff\xe1\0\2" + END, [(0xE1, "", False, 6, 0), alone(0xD9, 8)], None),
    "data, cut": (b"\xff\xc0\0\5ab", [], ("JpegCut", 2)),
    "the longest segment": (segment(0xE5, bytes(65_533)) + END, [(0xE5, "", False, 6, 65_533), alone(0xD9, 65_541)], None),
    "Exif": (segment(0xE1, EXIF + BIG) + END, [(0xE1, "exif", True, 12, 4), alone(0xD9, 18)], None),
    "Exif without a header": (segment(0xE1, EXIF) + END, [(0xE1, "exif", True, 12, 0), alone(0xD9, 14)], None),
    "Exif that goes on": (
        segment(0xE1, EXIF + OF_LITTLE) + segment(0xE1, EXIF + b"on") + segment(0xE1, EXIF + BIG) + END,
        [(0xE1, "exif", True, 12, 4), (0xE1, "exif", False, 26, 2), (0xE1, "exif", True, 38, 4), alone(0xD9, 44)],
        None,
    ),
    "Exif that a comment ends": (
        segment(0xE1, EXIF + OF_LITTLE) + segment(0xFE, b"") + segment(0xE1, EXIF + b"on") + END,
        [(0xE1, "exif", True, 12, 4), (0xFE, "", False, 20, 0), (0xE1, "exif", True, 30, 2), alone(0xD9, 34)],
        None,
    ),
    "Exif at another marker": (segment(0xE2, EXIF + BIG) + END, [(0xE2, "", False, 6, 10), alone(0xD9, 18)], None),
    "Exif whose mark is cut": (segment(0xE1, EXIF[:-1]) + END, [(0xE1, "", False, 6, 5), alone(0xD9, 13)], None),
    "Photoshop that goes on": (
        segment(0xED, PHOTOSHOP + b"8B") + segment(0xED, PHOTOSHOP + b"IM") + segment(0xE1, PHOTOSHOP) + END,
        [(0xED, "photoshop", True, 20, 2), (0xED, "photoshop", False, 40, 2), (0xE1, "", False, 46, 14), alone(0xD9, 62)],
        None,
    ),
    "XMP and extended XMP": (
        segment(0xE1, MARK + b"<x/>") + segment(0xE1, EXTENSION + bytes(40)) + segment(0xE1, EXTENSION) + END,
        [(0xE1, "xmp", True, 35, 4), (0xE1, "extended xmp", True, 78, 40), (0xE1, "extended xmp", True, 157, 0), alone(0xD9, 159)],
        None,
    ),
}


@pytest.mark.parametrize("following, parts, fault", HEADS.values(), ids=HEADS)
def test_heads(following, parts, fault):
    assert found_in(START + following) == jpegs.parts(START + following) == (parts, fault)


@pytest.mark.parametrize("octets", [b"", b"\xff", b"\x89PNG", *(START + following for following, _, fault in HEADS.values() if fault)])
def test_heads_that_are_refused(octets):
    parts, (cause, place) = jpegs.parts(octets)
    for call in (exifnorm.jpeg_parts, exifnorm.jpeg_blocks):
        with pytest.raises(exifnorm.Refused) as raised:
            call(octets)
        why = raised.value
        assert (type(why), why.cause, why.offset, why.side, list(why.parts)) == (HeadRefused, cause, place, None, parts)
        assert str(why) == f"{cause} at {place}"
        again = pickle.loads(pickle.dumps(why))
        assert (again.args, again.cause, again.offset, again.side, again.parts) == (why.args, cause, place, None, why.parts), "pickled"


ONLY, LONGEST = packet(VASE), packet(b"x" * (65_533 - len(MARK)))
CASES = {
    "no segment": (picture(), None),
    "one packet": (picture(ONLY), VASE),
    "after Exif and a comment": (picture(exif(ONE), COMMENT, ONLY, exif(ONE)), VASE),
    "with bytes FF before its marker": (picture(b"\xff\xff\xff", ONLY), VASE),
    "no byte": (picture(packet(b"")), b""),
    "the longest": (picture(LONGEST), LONGEST[4 + len(MARK) :]),
    "the mark twice": (picture(packet(MARK + VASE)), MARK + VASE),
    "another marker": (picture(segment(0xE2, MARK + VASE), segment(0xED, MARK + VASE)), None),
    "the mark without its zero": (picture(segment(0xE1, MARK[:-1] + VASE)), None),
    "the mark in capitals": (picture(segment(0xE1, MARK.upper() + VASE)), None),
    "a byte before the mark": (picture(segment(0xE1, b"\0" + MARK + VASE)), None),
    "after the header of a scan": (picture(SCAN, ONLY), None),
    "after the end": (picture(exif(ONE)) + ONLY, None),
    "in a comment": (picture(segment(0xFE, MARK + VASE)), None),
    "two packets": (picture(ONLY, packet(URN)), ("XmpNotRead", 2 + len(ONLY) + 4 + len(MARK))),
    "one packet twice": (picture(ONLY, COMMENT, ONLY), ("XmpNotRead", 2 + len(ONLY + COMMENT) + 4 + len(MARK))),
    "three packets": (picture(ONLY, ONLY, ONLY), ("XmpNotRead", 2 + len(ONLY) + 4 + len(MARK))),
    "extended XMP behind": (picture(ONLY, extended(URN)), ("XmpNotRead", 2 + len(ONLY) + 4 + len(EXTENSION))),
    "extended XMP before": (picture(extended(URN), ONLY), ("XmpNotRead", 2 + 4 + len(EXTENSION))),
    "extended XMP alone": (picture(exif(ONE), extended(URN)), ("XmpNotRead", 2 + len(exif(ONE)) + 4 + len(EXTENSION))),
    "a mark of extended XMP and no more": (picture(ONLY, segment(0xE1, EXTENSION)), ("XmpNotRead", 2 + len(ONLY) + 4 + len(EXTENSION))),
    "no start": (ONLY, ("HeadRefused", "JpegNoStart", 0)),
    "no bytes": (b"", ("HeadRefused", "JpegNoStart", 0)),
    "no marker after the packet": (picture(ONLY, b"\0"), ("HeadRefused", "JpegNoMarker", 2 + len(ONLY))),
    "a length below two": (picture(ONLY, b"\xff\xe1\0\1"), ("HeadRefused", "JpegLength", 2 + len(ONLY))),
    "a cut after the packet": (picture(ONLY, end=b""), ("HeadRefused", "JpegCut", 2 + len(ONLY))),
    "a cut in the packet": (picture(ONLY, end=b"")[:-1], ("HeadRefused", "JpegCut", 2)),
}


@pytest.mark.parametrize("octets, expected", CASES.values(), ids=CASES)
def test_packets(octets, expected):
    assert packet_of(octets) == packet_by_the_walk(octets) == expected


def test_packets_beside_exiftool(folder):
    need("exiftool")
    for number, (octets, expected) in enumerate(CASES.values()):
        if expected and isinstance(expected, bytes):
            (folder / f"{number}.jpg").write_bytes(octets)
    for file in (*folder.iterdir(), *(TOP / "samples").glob("*/*/*.jpg")):
        packet = exifnorm.jpeg_xmp(file.read_bytes()) or b""
        assert subprocess.check_output(["exiftool", "-config", "", "-b", "-xmp", file]) == packet, file


def test_what_is_not_read_is_an_error_that_can_be_pickled():
    with pytest.raises(ValueError, match="a second packet of XMP or extended XMP at 68 is not read") as raised:
        exifnorm.jpeg_xmp(picture(packet(b""), packet(b"")))
    again = pickle.loads(pickle.dumps(raised.value))
    assert type(again) is XmpNotRead and again.offset == raised.value.offset and str(again) == str(raised.value)


SEGMENTS = st.one_of(
    st.builds(segment, st.sampled_from([0xE1, 0xED, 0xE0, 0xC0, 0xDA, 0xFE]), st.binary(max_size=12)),
    st.builds(
        lambda mark, more: segment(mark[0], mark[1] + more),
        st.sampled_from(jpegs.MARKS),
        st.sampled_from([b"", ONE, LITTLE, b"MM\0+", b"II"]),
    ),
    st.builds(lambda marker: bytes((0xFF, marker)), st.integers(0, 255)),
    st.sampled_from([b"\xff", b"\0", exif(b"goes on"), photoshop(b"goes on"), packet(VASE), segment(0xE1, MARK[:-1])]),
)
ONE_WAY = settings(suppress_health_check=[HealthCheck.function_scoped_fixture])  # the way of calling is the same for all examples


@ONE_WAY
@given(st.builds(picture, st.lists(SEGMENTS, max_size=8).map(b"".join), end=st.sampled_from([b"", END, SCAN + b"more"])))
def test_any_head_and_its_first_bytes(octets):
    for length in range(len(octets) + 1):
        assert found_in(octets[:length]) == jpegs.parts(octets[:length])
        assert packet_of(octets[:length]) == packet_by_the_walk(octets[:length])


@pytest.mark.parametrize("behind", [b"", bytes(4), b"8BI", b"8BIM\4\4\0\0\0\0\0", b"8BIM\4\4\0\0\0\0\0\x09data", b"9BIM\4\4\0\0\0\0\0\0"])
def test_resources(behind):
    """Of each signature; and what follows the last one, which is none, or is cut."""
    data = [b"", b"odd", bytes(70_000), b"even", b"x"]
    octets = b"".join(resource(1028 + at, it, sign, b"n" * 63 * at) for at, (it, sign) in enumerate(zip(data, jpegs.SIGNATURES)))
    found = [(it.number, octets[it.start : it.start + it.size]) for it in exifnorm.photoshop_resources(octets + behind)]
    assert found == [*enumerate(data, 1028)] == jpegs.resources(octets + behind)[0]
    assert len(exifnorm.photoshop_resources(octets[:-1])) == len(data), "the byte after the last one may be missing"


def test_types_of_results():
    (part, *_) = exifnorm.jpeg_parts(PICTURE)
    assert (type(part), type(part.begins), part) == (JpegPart, bool, JpegPart(0xE1, "exif", True, 12, len(ONE)))
    (one,) = exifnorm.photoshop_resources(resource(0x0404, CAPTION))
    assert (type(one), one) == (Resource, Resource(0x0404, 12, len(CAPTION)))
    block = exifnorm.jpeg_blocks(PICTURE)[0]
    assert (type(block), type(block.data), block) == (JpegBlock, bytes, JpegBlock("exif", ONE))


@pytest.mark.parametrize(
    "pieces, blocks",
    [
        ([], []),
        ([exif(ONE), photoshop(resource(0x0404, CAPTION))], [("exif", ONE), ("iptc", CAPTION)]),
        ([photoshop(resource(0x0404, CAPTION)), exif(ONE)], [("iptc", CAPTION), ("exif", ONE)]),
        ([exif(ONE[:9]), exif(ONE[9:20]), exif(ONE[20:])], [("exif", ONE)]),
        ([exif(ONE), exif(LITTLE)], [("exif", ONE), ("exif", LITTLE)]),
        ([exif(ONE), COMMENT, exif(b"apart")], [("exif", ONE), ("exif", b"apart")]),
        ([exif(b"")], [("exif", b"")]),
        ([photoshop(resource(0x0404, CAPTION)[:13]), photoshop(resource(0x0404, CAPTION)[13:])], [("iptc", CAPTION)]),
        (
            [photoshop(resource(0x0404, b"") + resource(0x0404, CAPTION) + resource(0x0404, b"\x1c"))],
            [("iptc", CAPTION), ("iptc", b"\x1c")],
        ),
        ([photoshop(resource(0x0422, ONE) + resource(0x0424, b"<x/>"))], []),
        ([photoshop(resource(0x0404, CAPTION) + b"rest" + resource(0x0404, CAPTION))], [("iptc", CAPTION)]),
        ([segment(0xE1, b"http://ns.adobe.com/xap/1.0/\0<x/>"), segment(0xE1, b"EXIF\0\0" + ONE)], []),
    ],
)
def test_blocks(pieces, blocks):
    assert exifnorm.jpeg_blocks(START + b"".join(pieces) + END) == blocks
    assert (
        exifnorm.jpeg_blocks(START + b"".join(pieces) + segment(0xDA, b"scan") + exif(ONE)) == blocks
    ), "what is behind the head is not read"


OPEN = exif(b"goes on")


@pytest.mark.parametrize(
    "octets, blocks",
    [
        (START + b"x", []),
        (START + exif(ONE) + b"x", [("exif", ONE)]),
        (START + exif(ONE), []),
        (START + exif(ONE) + b"\xff\xe1\0\1", [("exif", ONE)]),
        (START + exif(ONE) + b"\xff\xff\xed", [("exif", ONE)]),
        (START + exif(ONE) + exif(LITTLE)[:-1], [("exif", ONE)]),
        (START + exif(ONE) + OPEN[:-1], []),
        (START + exif(ONE) + OPEN[:6], []),
        (START + exif(ONE) + segment(0xE1, b"http:")[:-1], [("exif", ONE)]),
        (START + exif(ONE) + OPEN + b"x", [("exif", ONE + b"goes on")]),
        (START + exif(ONE) + COMMENT + exif(LITTLE), [("exif", ONE)]),
        (START + photoshop(resource(0x0404, CAPTION)), [("iptc", CAPTION)]),
        (START + photoshop(resource(0x0404, CAPTION)[:-2]) + b"x", []),
    ],
)
def test_blocks_before_a_fault(octets, blocks):
    with pytest.raises(HeadRefused) as raised:
        exifnorm.jpeg_blocks(octets)
    assert list(raised.value.blocks) == blocks
    assert pickle.loads(pickle.dumps(raised.value)).blocks == raised.value.blocks


def test_numbers_of_parts_and_resources():
    """More than fit into the first buffer, and no more than are allowed."""
    for count in (0, 1, 63, 64, 65, 1000):
        head, them = START + b"\xff\x01" * count + END, resource(0x0404, b"abc") * count
        assert len(exifnorm.jpeg_parts(head)) == len(exifnorm.jpeg_parts(head, count + 1)) == count + 1
        assert len(exifnorm.jpeg_parts(head, most=1 << 62)) == len(exifnorm.jpeg_parts(head, most=1 << 80)) == count + 1
        assert len(exifnorm.photoshop_resources(them)) == len(exifnorm.photoshop_resources(them, count)) == count
        for call, octets, least in ((exifnorm.jpeg_parts, head, count + 1), (exifnorm.photoshop_resources, them, count)):
            for most in {least - 1, 0, -1} if least else ():
                assert outcome(call, octets, most) == ("TooMany", most), (call, most)
    for most in (1.5, "3", b"3"):
        for call in (exifnorm.jpeg_parts, exifnorm.photoshop_resources):
            assert outcome(call, START + END, most)[0] == "TypeError", (call, most)
    with pytest.raises(HeadRefused) as raised:  # a fault after many parts, and one after too many
        exifnorm.jpeg_parts(START + COMMENT * 1000 + b"x")
    assert len(raised.value.parts) == 1000
    assert outcome(exifnorm.jpeg_parts, START + COMMENT * 1000 + b"x", 999) == ("TooMany", 999)
    assert str(pickle.loads(pickle.dumps(TooMany(7)))) == "more than 7"
