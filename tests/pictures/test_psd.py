"""PSD and PSB: the blocks, what is left, what is broken, and pairs that are the same or never are.

The files are made here by Adobe's specification, so what is in them is known; ExifTool and exiv2 read the same of them.
"""

import os

import pytest
from all_readers import Format, blocks_of, check_limit, stream_of
from beside import blocks_of_exiftool, makers_of_exiv2
from made_files import T_OTHERWISE, exif, iim, jpeg, app1, resource, title, turned
from made_more_files import named, psd
from pairs import DIFFERENT, SAME, UNDECIDED
from studio import needs, put

from exifnorm_pictures.extract import extraction
from exifnorm_pictures.extract.formats import psd as psd_
from exifnorm_pictures.model import budgets

A, B, K, L, T, U = exif(b"Abc"), exif(b"Xyz"), iim(b"one"), iim(b"four"), title("one"), title("two")
E, I, X = resource(0x0422, A), resource(0x0404, K), resource(0x0424, T)
OTHER = resource(0x040C, b"thumbnail")
ALL = [("exif", "Exif", A), ("iptc", "IPTC", K), ("xmp", "XMP", T)]
ROWS = [b"a" * number for number in range(9)]  # of three channels
FOTOSTATION = bytes.fromhex("000100000010a1b2c3d4")[-10:]

READ = {
    "all": (psd(OTHER, E, I, OTHER, X), ALL),
    "PSB": (psd(E, I, X, version=2), ALL),
    "nothing": (psd(), []),
    "other resources": (psd(OTHER), []),
    "Exif before the block": (psd(resource(0x0422, b"Exif\0\0" + A)), ALL[:1]),
    "names": (psd(named(E, b"x"), named(OTHER, b"xy"), named(I, b"x" * 255), named(X, b"")), ALL),
    "other signatures": (psd(resource(0x0422, A, b"PHUT"), resource(0x0404, K, b"AgHg"), resource(0x0424, T, b"MeSa")), ALL),
    "an odd length": (psd(resource(0x0404, L), E), [("exif", "Exif", A), ("iptc", "IPTC", L)]),
    "twice": (psd(I, resource(0x0404, L), E), [("exif", "Exif", A), ("iptc", "IPTC", K), ("iptc", "second IPTC", L)]),
    "colours": (psd(E, I, X, colours=bytes(range(256)) * 3), ALL),
    "rows": (psd(E, I, X, compression=1, rows=ROWS), ALL),
    "rows of a PSB": (psd(E, I, X, version=2, compression=1, rows=ROWS), ALL),
    "bits": (psd(E, I, X, depth=1, size=(9, 3)), ALL),
    "ZIP": (psd(E, I, X, compression=2, rows=[b"zip"]), ALL),
    "a short picture": (psd(E, I, X)[:-1], ALL),
    "zeros": (psd(E, I, X, behind=bytes(9)), ALL),
}
LEFT = {
    "layers": (psd(E, I, X, layers=b"text"), [("Photoshop's layers", b"text")]),
    "layers of a PSB": (psd(E, I, X, layers=b"text", version=2), [("Photoshop's layers", b"text")]),
    "empty layers": (psd(E, I, X, layers=bytes(4)), []),
    "more Exif": (psd(E, I, resource(0x0423, A), X), [("Photoshop resource 0423 in the image resources", A)]),
    "no resource": (
        psd(E, I, X, b"8BIN" + bytes(8) + b"more"),
        [("bytes behind the Photoshop resources in the image resources", b"8BIN" + bytes(8) + b"more")],
    ),
    "a long resource": (
        psd(E, I, X, b"8BIM\4\4\0\0\0\0\0\1"),
        [("bytes behind the Photoshop resources in the image resources", b"8BIM\4\4\0\0\0\0\0\1")],
    ),
    "a trailer": (psd(E, I, X, behind=b"more"), [("trailer of 4 bytes", b"more")]),
    "a trailer after rows": (psd(E, I, X, compression=1, rows=ROWS, behind=b"m"), [("trailer of 1 byte", b"m")]),
    "a trailer after rows of a PSB": (psd(E, I, X, version=2, compression=1, rows=ROWS, behind=b"m"), [("trailer of 1 byte", b"m")]),
    "a trailer after bits": (psd(E, I, X, depth=1, size=(9, 3), behind=b"m"), [("trailer of 1 byte", b"m")]),
    "a trailer that is known": (psd(E, I, X, behind=FOTOSTATION), [("FotoStation trailer of 10 bytes", FOTOSTATION)]),
    "a known trailer after ZIP": (psd(E, I, X, compression=3, rows=[b"zip"], behind=FOTOSTATION), [("FotoStation trailer", None)]),
    "a known trailer of a short picture": (psd(E, I, X, size=(99, 99))[:-9000] + FOTOSTATION, [("FotoStation trailer", None)]),
    "a known trailer after too many rows": (
        psd(E, I, X, size=(1, 400_000), compression=1, rows=[b""], behind=FOTOSTATION),
        [("FotoStation trailer", None)],
    ),
}
START = psd(E, I, X)
BROKEN = {
    "version 3": (psd(E, version=3), "the file has another version than Photoshop's 1 and 2"),
    "other bytes in front": (START[:11] + b"\1" + START[12:], "the file has another version than Photoshop's 1 and 2"),
    "the head": (START[:25], "the file ends inside the 26 bytes at 0"),
    "colours": (psd(colours=bytes(100))[:60], "the file ends inside its colour table"),
    "resources": (START[:60], "the file ends inside its image resources"),
    "layers": (psd(layers=b"x" * 999)[:80], "the file ends inside its layers"),
    "no picture": (psd(size=(0, 0))[:-1], "the file ends inside the 2 bytes at 38"),
}


@needs("exiftool")
def test_exiftools_blocks(tmp_path):
    """ExifTool takes the same blocks out of each of these files, byte for byte."""
    put(tmp_path, {f"{name}.psd": octets for name, (octets, _) in READ.items()})
    found = blocks_of_exiftool(tmp_path)
    for name, (_, blocks) in READ.items():
        if name == "other signatures":
            continue  # of which exiv2 reads more
        assert sorted((kind, data.removeprefix(b"Exif\0\0")) for kind, data in found[f"{name}.psd"]) == sorted(
            (kind, data) for kind, _, data in blocks
        ), name


@needs("exiv2")
def test_exiv2(tmp_path):
    names = [name for name, (_, blocks) in READ.items() if ALL[0] in blocks and "PSB" not in name and name != "Exif before the block"]
    put(tmp_path, {name: READ[name][0] for name in names})
    assert makers_of_exiv2(tmp_path) == {it: ["Abc"] for it in names}


def test_a_picture_without_metadata(tmp_path):
    (tmp_path / "a").write_bytes(psd(OTHER))
    found = extraction.blocks_of_file(os.fsencode(tmp_path / "a"))
    assert (found.problem, found.blocks, found.not_read) == (None, [], [])


def test_layers_past_4_gb(tmp_path):
    """A sparse PSB. So many bytes have no digest, so that it is never the same as another."""
    made, length = psd(E, I, X, version=2), 5 << 30
    at = len(made) - 18 - 2  # of the length of the layers, before a picture of 18 bytes
    with open(tmp_path / "a.psb", "wb") as file:
        file.write(made[: at - 8] + length.to_bytes(8, "big") + b"layers")
        file.seek(at + length)
        file.write(made[at:])
    found = extraction.blocks_of_file(os.fsencode(tmp_path / "a.psb"))
    assert sorted(blocks_of(found)) == ALL
    assert [tuple(it) for it in found.not_read] == [("Photoshop's layers", "")]


@pytest.mark.parametrize("what, spent", [(budgets.RESOURCES, 5), (budgets.RESOURCE_BYTES, len(A + K + T))])
def test_limits(what, spent):
    check_limit(psd_.read, READ["all"][0], what, spent)


def test_other_resources_are_not_read():
    """The thumbnail and the like, of which there may be many megabytes."""
    stream = stream_of(psd(resource(0x040C, bytes(1 << 20)), E))
    psd_.read(stream)
    assert sum(min(call.args[0], 1 << 20) for call in stream.read.call_args_list) < 2000


WHOLE = psd(OTHER, E, I, X, resource(0x0423, B), layers=b"layers", compression=1, rows=ROWS, behind=b"more")


PAIRS = {
    "in another order": (
        psd(E, I, X),
        psd(resource(0x0424, T_OTHERWISE), OTHER, named(I, b"n"), resource(0x0422, turned(A)), version=2),
        SAME,
    ),
    "beside a JPEG": (psd(E), jpeg(app1(A)), SAME),
    "other pixels": (psd(E), psd(E, compression=1, rows=ROWS), SAME),
    "the same layers": (psd(E, OTHER, layers=b"text"), psd(E, layers=b"text"), SAME),
    "other layers": (psd(E, layers=b"text"), psd(E, layers=b"TEXT"), UNDECIDED),
    "other IPTC": (psd(E, I), psd(E, resource(0x0404, L)), DIFFERENT),
    "other Exif": (psd(E), psd(resource(0x0422, B)), DIFFERENT),
    "other XMP": (psd(X), psd(resource(0x0424, U)), DIFFERENT),
    "no metadata": (psd(), psd(OTHER), SAME),
    "other resource 0423": (psd(E, resource(0x0423, A)), psd(E, resource(0x0423, B)), UNDECIDED),
    "another trailer": (psd(E, behind=b"a"), psd(E, behind=b"b"), UNDECIDED),
    "a known trailer that isn't found": (
        psd(E, compression=2, rows=[], behind=FOTOSTATION),
        psd(OTHER, E, compression=2, rows=[], behind=FOTOSTATION),
        UNDECIDED,
    ),
}


FORMAT = Format(
    read=psd_.read,
    type=lambda name: "PSB" if "PSB" in name else "PSD",
    blocks=READ,
    left=LEFT,
    kept=ALL,
    broken=BROKEN,
    pairs=PAIRS,
    whole=WHOLE,
    is_of=lambda it, octets: it in octets,
    short=WHOLE,
    count=200,
    least=10,
)
