"""GIF: the blocks, what is left, what is broken, and pairs that are the same or never are. ExifTool reads the same XMP of the made files."""

import io

from all_readers import Format, blocks_of, check_limit
from beside import blocks_of_exiftool, is_of
from made_files import T_OTHERWISE, app1_xmp, app13, exif, iim, jpeg, resource, title
from made_more_files import application, blocks_of_data, gif, gif_xmp
from pairs import DIFFERENT, SAME, UNDECIDED
from studio import needs, put

from exifnorm_pictures.extract.formats import gif as gif_
from exifnorm_pictures.model import budgets

A, K, L, T, U = exif(b"Abc"), iim(b"one"), iim(b"k" * 600), title("one"), title("two")
X, I = gif_xmp(T), application(b"MGKIPTC0000", K)
R = application(b"MGK8BIM0000", resource(0x0404, K) + resource(0x0422, A) + resource(0x0424, T))
BOTH = [("iptc", "IPTC", K), ("xmp", "XMP", T)]
COMMENT, CONTROL, TEXT = b"\x21\xfe" + blocks_of_data(b"comment"), b"\x21\xf9\x04\0\0\0\0\0", b"\x21\x01" + blocks_of_data(bytes(12))
LOOP = application(b"NETSCAPE2.0", b"\1\0\0")

READ = {
    "XMP": (gif(X), BOTH[1:]),
    "both": (gif(I, X), BOTH),
    "IPTC in many blocks": (gif(application(b"MGKIPTC0000", L)), [("iptc", "IPTC", L)]),
    "IPTC in short blocks": (gif(application(b"MGKIPTC0000", L, 7)), [("iptc", "IPTC", L)]),
    "resources": (gif(R), [("exif", "Exif", A), *BOTH]),
    "twice": (gif(X, gif_xmp(U)), [*BOTH[1:], ("xmp", "second XMP", U)]),
    "XMP in blocks": (gif(application(b"XMP DataXMP", T)), BOTH[1:]),
    "a long packet": (gif(gif_xmp(T + b" " * 20_000)), [("xmp", "XMP", T + b" " * 20_000)]),
    "other extensions": (gif(COMMENT, LOOP, CONTROL, X, TEXT, application(b"ICCRGBG1012", b"profile")), BOTH[1:]),
    "no colours": (gif(X, colours=0), BOTH[1:]),
    "many colours": (gif(X, colours=8, own_colours=8), BOTH[1:]),
    "images": (gif(CONTROL, images=3, own_colours=2)[:-1] + X + gif(images=2)[19:], BOTH[1:]),
    "87a": (gif(X, version=b"87a"), BOTH[1:]),
    "nothing": (gif(), []),
}
LEFT = {
    "another application": (gif(application(b"ABC 1.0", b"data"), X), [("application extension ABC 1.0", b"\x07ABC 1.0\4data\0")]),
    "an application without a text": (gif(application(b"\0\1", b"data"), X), [("application extension 0001", b"\2\0\1\4data\0")]),
    "another extension": (gif(b"\x21\xab" + blocks_of_data(b"data"), X), [("extension ab", b"\4data\0")]),
    "a resource": (
        gif(X, application(b"MGK8BIM0000", resource(0x0423, A))),
        [(f"Photoshop resource 0423 in the application extension at {19 + len(X)}", A)],
    ),
    "a trailer": (gif(X, behind=b"trailer"), [("trailer of 7 bytes", b"trailer")]),
    "zeros": (gif(X, behind=bytes(7)), []),
}
BROKEN = {
    "the head": (gif()[:12], "the file ends inside the 13 bytes at 0"),
    "the colours": (gif()[:15], "the file ends without its end mark"),
    "an image": (gif()[:25], "the file ends inside the 9 bytes at 20"),
    "no end": (gif()[:-1], "the file ends without its end mark"),
    "an extension": (gif(X)[:40], "the file ends inside the 60 bytes at 34"),
    "no block": (gif(b"x"), "no block at 19"),
}


def test_where_a_piece_of_the_file_ends():
    """The file is read in pieces of 8,192 bytes: wherever one ends, the blocks are the same."""
    for before in range(8192 - 60, 8192 + 20, 3):
        octets = gif(b"\x21\xfe" + blocks_of_data(bytes(before), 1 + before % 200), I, X)
        assert blocks_of(gif_.read(io.BytesIO(octets))) == BOTH


@needs("exiftool")
def test_exiftools_blocks(tmp_path):
    """ExifTool takes the same XMP out of each of these files, byte for byte; it reads no IPTC and no second packet."""
    names = [it for it in READ if it not in ("twice", "XMP in blocks", "resources")]
    put(tmp_path, {f"{name}.gif": READ[name][0] for name in names})
    found = blocks_of_exiftool(tmp_path)
    for name in names:
        assert found[f"{name}.gif"] == [(kind, data.rstrip(b" ")) for kind, _, data in READ[name][1] if kind == "xmp"], name


def test_limits():
    for what, spent in ((budgets.EXTENSIONS, 4), (budgets.BLOCK_BYTES, len(K) + len(T))):
        check_limit(gif_.read, gif(I, COMMENT, application(b"XMP DataXMP", T)), what, spent)


WHOLE = gif(COMMENT, I, CONTROL, R, X, application(b"ABC 1.0", b"data"), images=2, behind=b"more")


PAIRS = {
    "in another place": (gif(I, X), gif(COMMENT, gif_xmp(T_OTHERWISE), LOOP, application(b"MGKIPTC0000", K, 3), images=2), SAME),
    "beside a JPEG": (gif(I, X), jpeg(app13(resource(0x0404, K)), app1_xmp(T)), SAME),
    "other XMP": (gif(X), gif(gif_xmp(U)), DIFFERENT),
    "other IPTC": (gif(I), gif(application(b"MGKIPTC0000", L)), DIFFERENT),
    "no IPTC": (gif(I), gif(), DIFFERENT),
    "another comment": (gif(X, COMMENT), gif(X), SAME),
    "another application": (gif(application(b"ABC", b"1")), gif(application(b"ABC", b"2")), UNDECIDED),
    "another trailer": (gif(behind=b"1"), gif(behind=b"2"), UNDECIDED),
}


FORMAT = Format(
    read=gif_.read,
    type=lambda name: "GIF",
    blocks=READ,
    left=LEFT,
    kept=BOTH[1:],
    broken=BROKEN,
    pairs=PAIRS,
    whole=WHOLE,
    is_of=lambda it, octets: is_of(it, octets, 40),
    short=gif(COMMENT, X, LOOP, images=20, colours=4),
    count=300,
    least=20,
)
