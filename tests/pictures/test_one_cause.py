"""One block has one cause, whichever call is asked: the library's for pictures, Python's, and each command."""

import json
import random
import sqlite3

import exifnorm
import pytest
from made_blocks import BLOCKS, MAKE, block
from made_files import app1, app13, iim, jpeg, png, chunk, resource

from exifnorm import pictures

RECORD = iim(b"one") + iim(b"two")
BEGINNINGS = (b"\x1c", b"\x1c\x02", b"\xeb\x01Z", b"II*\0", b"MM\0*", b"Exif\0\0", b"8BIM", b"<?xpacket", b"text:", b"\0\0", b"\x1d", b"II")
PLACES = {
    "iptc": lambda data: jpeg(app13(resource(0x0404, data))),
    "exif": lambda data: jpeg(app1(data)),
}


def junk(rng):
    """Bytes that begin as some block, or as none; the rest is drawn, or that of a block."""
    whole = rng.choice((RECORD, block([MAKE]), *BLOCKS.values()))[:60_000]
    if rng.random() < 0.4:
        octets = bytearray(whole)
        for _ in range(rng.randrange(3)):
            octets[rng.randrange(len(octets))] = rng.randrange(256)
        return bytes(octets[: rng.randrange(1, len(octets) + 1)])
    return rng.choice(BEGINNINGS) + rng.choice((rng.randbytes(rng.randrange(40)), whole[rng.randrange(5) :]))


def by_the_library(picture):
    try:
        exifnorm.jpeg_same(picture, picture)
    except exifnorm.PictureRefused as refused:
        return refused.cause, refused.offset
    return None, None


def by_commands(called, picture):
    """The cause and the byte of the only block, as each command has it; `()` of one that says nothing of it."""
    called("index", "a.jpg", "--catalogue", "c", "--quiet", "--again", "--jobs", "1", a=picture)
    with sqlite3.connect("c") as base:
        yield "index", base.execute("SELECT cause, place FROM blocks").fetchone()
    for command in ("show", "show --captions", "check"):
        for member in json.loads(called(*command.split(), "a.jpg", "--json")[1].splitlines()[0]).get("blocks", ()):
            yield command, (member["cause"], member["offset"])
    explained = json.loads(called("explain", "a.jpg", "--json")[1])
    yield "explain", (explained.get("cause"), explained.get("offset"))


@pytest.mark.parametrize("place", PLACES)
@pytest.mark.parametrize("seed", range(3))
def test_each_call_has_the_same_cause(place, seed, called, monkeypatch, folder):
    monkeypatch.setenv("PATH", str(folder))
    rng = random.Random(f"{place} {seed}")
    for _ in range(12):
        data = junk(rng)
        picture = PLACES[place](data)
        read = pictures.read_bytes(picture)
        if not read.blocks:  # such as a record of zeros, which says nothing
            continue
        cause, offset = by_the_library(picture)
        refusals = [(it.cause, it.offset) for it in read.refusals]
        assert refusals == [(cause, offset)] * bool(cause), data
        for command, answer in by_commands(called, picture):
            assert answer == (cause, offset), (command, data)
        if place == "exif":  # the library knows no other place of Exif
            for other in (png(chunk(b"eXIf", data)), jpeg(app13(resource(0x0422, data)))):
                assert [(it.cause, it.offset) for it in pictures.read_bytes(other).refusals] == refusals, data


def test_what_is_asked_without_a_picture():
    """A call that finds out the kind of a block has one further cause: that of bytes of no kind (exifnorm(3))."""
    rng = random.Random(1)
    for _ in range(300):
        data = junk(rng)
        if data.startswith(b"Exif\0\0"):  # which a block by itself may have in front
            continue
        try:
            exifnorm.normal(data)
            alone = None, None
        except exifnorm.Refused as refused:
            alone = refused.cause, refused.offset
        kind = "iptc" if data.startswith(b"\x1c") else "exif"
        read = pictures.read_bytes(PLACES[kind](data))
        if read.blocks:
            assert by_the_library(PLACES[kind](data)) == alone, data
        if alone[0] == "UnknownKind" and pictures.read_bytes(PLACES["iptc"](data)).blocks:
            assert by_the_library(PLACES["iptc"](data)) == ("NoMarker", 0), data
