"""Where other programs read Exif and IPTC in the head of a JPEG: pairs that differ in one place alone, by ExifTool and exiv2, beside the library.
docs/FORMAT.md, section 9, lists the places."""

import os
import subprocess

import pytest
from made_files import app1, app13, exif, iim, jpeg, resource, segment
from studio import needs

import exifnorm


def caption(text, signature=b"8BIM"):
    return resource(0x0404, iim(text), signature)


def damaged(text, at, octet):
    octets = bytearray(caption(text))
    octets[at] = octet
    return app13(bytes(octets))


# For each place the segments with a text there.
PLACES = {
    "APP1": lambda text: [app1(exif(text))],
    "APP1, after another block": lambda text: [app1(exif(b"xyz")), app1(exif(text))],
    "APP1 with FF after the word": lambda text: [segment(0xE1, b"Exif\0\xff" + exif(text))],
    "APP1 in capitals": lambda text: [segment(0xE1, b"EXIF\0\0" + exif(text))],
    **{f"APP1 after {n} bytes": lambda text, n=n: [segment(0xE1, bytes(n) + b"Exif\0\0" + exif(text))] for n in (1, 2, 3, 4, 5)},
    "APP3": lambda text: [segment(0xE3, b"Exif\0\0" + exif(text))],
    "in FF F0": lambda text: [segment(0xF0, b"Exif\0\0" + exif(text))],
    "resource 0422": lambda text: [app13(resource(0x0422, exif(text)))],
    "APP13": lambda text: [app13(caption(text))],
    "the second of two resources": lambda text: [app13(caption(b"x") + caption(text))],
    "two APP13 with another segment between": lambda text: [
        app13(caption(text)[:20]),
        segment(0xE2, b"x"),
        segment(0xED, b"Photoshop 3.0\0" + caption(text)[20:]),
    ],
    **{f"IPTC by {it.decode()}": lambda text, it=it: [app13(caption(text, it))] for it in (b"AgHg", b"DCSR", b"PHUT", b"MeSa", b"8B64")},
    "a mark of an older Photoshop": lambda text: [segment(0xED, b"Adobe_Photoshop2.5:" + caption(text))],
    "a mark with two zeros": lambda text: [segment(0xED, b"Photoshop 3.0\0\0" + caption(text))],
    "IPTC without a mark": lambda text: [segment(0xED, iim(text))],
    "after a first APP13 that ends with zeros": lambda text: [app13(caption(b"x") + bytes(4)), app13(caption(text))],
    "a length one too large": lambda text: [damaged(text, 11, len(iim(text)) + 2)],
    "a wrong letter": lambda text: [damaged(text, 0, ord("9"))],
    "after bytes that are no resource": lambda text: [app13(caption(b"x") + b"none" + caption(text))],
}
TOOLS = {
    "exiftool": ["-a", "-G1", "-s", "-EXIF:all", "-IPTC:all"],
    "exiv2": ["-q", "-Pkt"],
}


def shown(name, path):
    """What a program shows of Exif and IPTC."""
    words = [name, *TOOLS[name], path]
    return subprocess.run(words, capture_output=True, check=False).stdout.replace(os.fsencode(path), b"")


@needs("exiftool", "exiv2")
@pytest.mark.parametrize("segments", PLACES.values(), ids=PLACES)
def test_what_others_show_to_differ_is_not_the_same(folder, segments):
    """Nor is it the same as a picture without it."""
    paths = []
    for name, octets in (("one.jpg", jpeg(*segments(b"Ann"))), ("other.jpg", jpeg(*segments(b"Ott"))), ("none.jpg", jpeg())):
        (folder / name).write_bytes(octets)
        paths.append(folder / name)
    for first, second in ((paths[0], paths[1]), (paths[0], paths[2])):
        found = exifnorm.jpeg_same(first.read_bytes(), second.read_bytes())
        for name in TOOLS:
            assert shown(name, first) == shown(name, second) or found is not True, f"{name} shows a difference"
