"""The blocks in trailers behind a JPEG and a PSD, against those that ExifTool hands over of the same files."""

import io
import itertools
import json
import os
import struct
import subprocess

import pytest
from all_readers import stream_of
from made_files import app1, app13, exif, iim, jpeg, resource, title
from made_more_files import psd
from studio import needs, put

from exifnorm_pictures.extract.exiftool import octets as decoded
from exifnorm_pictures.extract.formats import jpeg as jpegs, psd as psds
from exifnorm_pictures.extract.formats.streams import File
from exifnorm_pictures.model.budgets import Budget, TooMuch
from exifnorm_pictures.model.found import IPTC

A, PACKET = exif(b"Abc"), title("a packet")
START = len(jpeg(app1(A)))  # of what follows the picture


def foto_station(*records):
    """Records with the number of their kind (1: IPTC) as ExifTool's FotoStation.pm reads them."""
    return b"".join(data + struct.pack(">HII", number, len(data) + 10, 0xA1B2C3D4) for number, data in records)


def photo_mechanic(data):
    """DataSets, as PhotoMechanic.pm reads them: Photo Mechanic pads them with zeros."""
    return data + struct.pack(">I8s", len(data), b"cbipcbbl")


def canon(*parts, less=0):
    """Parts of Canon's recipes, as CanonVRD.pm reads them: fff6 is XMP."""
    body = b"".join(struct.pack(">II", 0xFFFF0000 + number, len(data)) + data for number, data in parts)
    length = struct.pack(">I", len(body) - less)
    mark = b"CANON OPTIONAL DATA\0"
    return mark + b"\0\1\0\0" + length + body + mark + length + bytes(38) + b"\xff\xd9"


def afcp(at, *parts, mark=b"AXS!"):
    """Parts with their names, as AFCP.pm reads them. The offsets count from the file's beginning."""
    order = ">" if mark == b"AXS!" else "<"
    head, entries, body = struct.pack(f"{order}HHI", 1, len(parts), 0), b"", b""
    for name, data in parts:
        entries += struct.pack(f"{order}4sII", name, len(data), at + 12 + 12 * len(parts) + len(body))
        body += data
    return mark + head + entries + body + mark + struct.pack(f"{order}II", at, 0)


def samsung(*parts):
    """Named parts and their directory, as Samsung.pm reads them."""
    blocks = [struct.pack("<HHI", 0, 0x0A01, len(name)) + name + data for name, data in parts]
    ends = list(itertools.accumulate(len(it) for it in reversed(blocks)))[::-1]
    entries = b"".join(struct.pack("<HHII", 0, 0x0A01, end, len(it)) for end, it in zip(ends, blocks))
    directory = b"SEFH" + struct.pack("<II", 101, len(blocks)) + entries
    return b"".join(blocks) + directory + struct.pack("<I4s", len(directory), b"SEFT")


def sounds(number):
    """Parts of sounds behind their directory."""
    return samsung((b"SoundShot_000", bytes(99))) + struct.pack("<4s5I4s", b"QDIO", 101, 1, 0, 0, 20, b"QDIO") * number + b"BS"


RECORD = iim(b"Vase")
ONE = {
    "FotoStation": foto_station((1, RECORD)),
    "FotoStation with a preview": foto_station((1, RECORD), (2, bytes(44)), (4, jpeg(app13(resource(0x404, iim(b"not mine")))))),
    "FotoStation twice": foto_station((1, RECORD), (1, iim(b"Urn"))),
    "PhotoMechanic": photo_mechanic(b"\x1c\x02\xdd\0\4\0\0\0\1"),
    "PhotoMechanic with zeros": photo_mechanic(b"\x1c\x02\xdd\0\4\0\0\0\1".ljust(2048, b"\0")),
    "Canon": canon((0xF4, bytes(700)), (0xF6, PACKET)),
    "Canon with long recipes": canon((0xF6, PACKET), (0xF4, bytes(70_000))),
    "Canon without a packet": canon((0xF4, bytes(700))),
    "AFCP": afcp(START, (b"IPTC", RECORD), (b"TEXT", b"a text")),
    "AFCP of Intel": afcp(START, (b"Nail", bytes(99)), (b"IPTC", RECORD), mark=b"AXS*"),
    "Samsung": samsung((b"Image_UTC_Data", b"1575396000000"), (b"MotionPhoto_Data", b"\0\0\0\x18ftypmp42" + bytes(99))),
    "Samsung and a sound": sounds(1),
    "an empty record": foto_station((1, b"")),
}
SEVERAL = {
    "two": photo_mechanic(b"\x1c\x02\xdd\0\4\0\0\0\1") + foto_station((1, RECORD)),
    "three": canon((0xF6, PACKET)) + foto_station((1, RECORD)) + photo_mechanic(b"\x1c\x02\xdd\0\4\0\0\0\1"),
    "Samsung first": samsung((b"a", b"b")) + foto_station((1, RECORD)),
    "Samsung last": foto_station((1, RECORD)) + samsung((b"a", b"b")),
    "a zero before": b"\0" + foto_station((1, RECORD), (2, bytes(44))),
    "zeros before": bytes(99) + canon((0xF6, PACKET)),
    "a zero before AFCP": b"\0" + afcp(START + 1, (b"IPTC", RECORD)),
    "AFCP and another": afcp(START, (b"IPTC", RECORD)) + canon((0xF6, PACKET)),
}
LEFT = {  # to ExifTool, as before: they don't fill what follows the picture, or they don't fit
    "a byte before": b"x" + ONE["FotoStation"],
    "zeros and a byte before": bytes(8) + b"x" + bytes(8) + ONE["Canon"],
    "an unknown one before": b"some bytes" + ONE["PhotoMechanic"],
    "longer than the rest": photo_mechanic(RECORD)[:-12] + struct.pack(">I8s", len(RECORD) + 1, b"cbipcbbl"),
    "longer than the file": RECORD + struct.pack(">I8s", 1 << 30, b"cbipcbbl"),
    "a record without its end": RECORD + struct.pack(">HII", 1, 9, 0xA1B2C3D4),
    "a directory elsewhere": afcp(START + 1, (b"IPTC", RECORD)),
    "a part behind the directory's end": afcp(START, (b"IPTC", RECORD)).replace(struct.pack(">I", len(RECORD)), struct.pack(">I", 99)),
    "Canon's header elsewhere": b"\0" * 8 + canon((0xF6, PACKET), less=8),
    "Canon's part too long": canon((0xF6, PACKET)).replace(struct.pack(">I", len(PACKET)), struct.pack(">I", len(PACKET) + 1)),
    "Canon's part too short": canon((0xF6, PACKET)).replace(struct.pack(">I", len(PACKET)), struct.pack(">I", len(PACKET) - 1)),
}


def blocks_of(found):
    return sorted((it.kind, it.data) for it in found.blocks if it.where == "trailer")


def by_exiftool(path):
    """The IPTC and XMP blocks of a file without others."""
    words = ["exiftool", "-config", "", "-m", "-q", "-q", "-j", "-a", "-G4", "-b", "-IPTC:IPTC", "-XMP:XMP", str(path)]
    (answer,) = json.loads(subprocess.run(words, capture_output=True, check=False).stdout)
    named = [(name.rpartition(":")[2].lower(), value) for name, value in answer.items() if name != "SourceFile"]
    return sorted((kind, decoded(value)) for kind, value in named)


@needs("exiftool")
@pytest.mark.parametrize("name", [*ONE, *SEVERAL])
def test_they_have_the_blocks_that_exiftool_finds(name, folder):
    """Without it; and the trailer is a part that is compared by its bytes."""
    behind = {**ONE, **SEVERAL}[name]
    octets = jpeg(app1(A), behind=behind)
    (folder / "a.jpg").write_bytes(octets)
    for whole in (False, True):
        found = jpegs.read(io.BytesIO(octets), whole)
        assert (blocks_of(found), found.has_more) == (by_exiftool(folder / "a.jpg"), False)
        assert [it.what.endswith(f"trailer of {len(behind):,} bytes") for it in found.not_read] == [True]


@needs("exiftool")
@pytest.mark.parametrize("name", ["FotoStation", "PhotoMechanic", "Canon"])
def test_those_behind_a_psd(name, folder):
    octets = psd(behind=ONE[name])
    (folder / "a.psd").write_bytes(octets)
    found = psds.read(io.BytesIO(octets))
    assert (blocks_of(found), found.has_more) == (by_exiftool(folder / "a.psd"), False)


def test_a_block_that_the_picture_has_too_is_read_once():
    found = jpegs.read(io.BytesIO(jpeg(app13(resource(0x404, RECORD)), behind=foto_station((1, RECORD), (1, iim(b"Urn"))))))
    assert blocks_of(found) == [(IPTC, iim(b"Urn"))]


@pytest.mark.parametrize("name", LEFT)
def test_others_are_left_to_exiftool(name):
    """None of their blocks is taken: a part of a chain might be another program's."""
    found = jpegs.read(io.BytesIO(jpeg(app1(A), behind=LEFT[name])))
    assert (blocks_of(found), found.has_more, len(found.not_read)) == ([], True, 1)


def test_samsung_s_that_does_not_fit_has_no_blocks():
    for behind in (ONE["FotoStation"] + b"x" + samsung((b"a", b"b")), samsung(), ONE["FotoStation"] + b"\0\0SEFT"):
        found = jpegs.read(io.BytesIO(jpeg(app1(A), behind=behind)))
        assert (blocks_of(found), found.has_more, len(found.not_read)) == ([], False, 1)


@pytest.mark.parametrize("behind", [b"x", foto_station((1, RECORD))])
def test_zeros_without_number(behind, folder):
    """A file with holes may have thousands of millions of zeros: to read them would go over a limit."""
    for name, octets, reader in (("a.jpg", jpeg(app1(A)), jpegs), ("a.psd", psd(), psds)):
        (folder / name).write_bytes(octets)
        with open(folder / name, "rb+") as file:
            file.seek(5 << 30)
            file.write(behind)
        stream = File(os.open(folder / name, os.O_RDONLY), (5 << 30) + len(behind), Budget())
        found = reader.read(stream)
        stream.close()
        assert (blocks_of(found), bool(found.not_read)) == ([], True), name


@pytest.mark.parametrize("many", [lambda number: foto_station((2, b"")) * number, lambda number: canon(*[(0xF4, b"")] * number), sounds])
def test_trailers_without_number(many):
    """A file may have millions of empty records."""
    found = jpegs.read(stream_of(jpeg(app1(A), behind=many(9000))))
    assert (blocks_of(found), found.has_more) == ([], False)
    with pytest.raises(TooMuch):
        jpegs.read(stream_of(jpeg(app1(A), behind=many(11_000))))


@pytest.mark.parametrize("length", [700, 70_000, 300_000])
def test_pictures_with_other_recipes_are_not_the_same(length, called, folder):
    """Canon's trailer ends with the bytes of an end mark, behind which the last 64 KiB may look like picture data."""
    put(
        folder,
        {
            f"{name}.jpg": jpeg(app1(A), behind=canon((0xF6, title(text)), (0xF4, bytes(length))))
            for name, text in (("a", "one"), ("b", "two"))
        },
    )
    status, printed, _ = called("compare", "a.jpg", "b.jpg")
    assert status == 1 and "dc:format" in printed
