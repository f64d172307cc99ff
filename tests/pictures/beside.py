"""What other programs read of made files, beside our readers; and files with changed bytes."""

import base64
import io
import json
import os
import random
import subprocess

from hypothesis import strategies as st
from studio import run

from exifnorm_pictures.extract import readers
from exifnorm_pictures.model.found import Broken, LeftToOthers

_KINDS = {"EXIF": "exif", "IPTC": "iptc", "XMP": "xmp"}


def blocks_of_exiftool(folder):
    """The kind and the bytes of the blocks of the main picture that ExifTool takes out of each file of a folder."""
    words = ("-q", "-q", "-m", "-json", "-a", "-G3:4", "-b", "-EXIF:Exif", "-IPTC:IPTC", "-XMP:XMP", ".")
    found = {}
    for it in json.loads(run(["exiftool", "-config", "", *words], folder).stdout):
        name = os.path.basename(it.pop("SourceFile"))
        found[name] = [(_KINDS[tag.rpartition(":")[2]], _bytes(value)) for tag, value in it.items() if not tag.startswith("Doc")]
    return found


def _bytes(value):
    return base64.b64decode(value[7:]) if value.startswith("base64:") else value.encode()


def makers_of_exiv2(folder):
    """The camera's makers that exiv2 reads in the Exif of each file of a folder."""
    found = {}
    for name in sorted(os.listdir(folder)):
        done = run(["exiv2", "-q", "-K", "Exif.Image.Make", "-Pv", name], folder)
        found[name] = done.stdout.decode().split()
    return found


def tags_of_exiftool(folder):
    """The tags of Exif, IPTC and XMP that ExifTool shows of each file of a folder."""
    options = ["-ext", "*", "-q", "-q", "-m", "-json", "-a", "-G1:4", "-n", "-b", *(f"-{it}:all" for it in ("EXIF", "IPTC", "XMP")), "."]
    done = subprocess.run(["exiftool", "-config", "", *options], cwd=folder, capture_output=True, check=False)
    return {os.path.basename(it.pop("SourceFile")): it for it in json.loads(done.stdout)}


def seen(octets):
    """What the reader of a file finds in it; nothing if no reader can read it."""
    read = readers.reader_of(octets[: readers.HEAD], b"")
    try:
        found = read(io.BytesIO(octets), False) if read else None
    except (Broken, LeftToOthers):
        found = None
    if found is None:
        return None
    return [(it.kind, it.name, it.data) for it in found.blocks], [tuple(it) for it in found.not_read]


def hidden_by_one_byte(octets, folder, number):
    """The tags of Exif, IPTC and XMP that ExifTool shows otherwise after one byte was changed, where our reader finds the same; and the
    number of such files."""
    chance, base = random.Random(number), seen(octets)
    (folder / "base").write_bytes(octets)
    for _ in range(number):
        at = chance.randrange(len(octets))
        other = octets[:at] + bytes([octets[at] ^ chance.randrange(1, 256)]) + octets[at + 1 :]
        if seen(other) == base:
            (folder / f"{at:06}").write_bytes(other)
    tags = tags_of_exiftool(folder)
    whole = tags.pop("base")
    return {(name, tag) for name, it in tags.items() for tag in {**it, **whole} if it.get(tag) != whole.get(tag)}, len(tags)


@st.composite
def changed(draw, octets):
    """A copy of a file in which a few numbers are others, or bytes are lost, doubled or put elsewhere."""
    made = bytearray(octets)
    for _ in range(draw(st.integers(1, 3))):
        at = draw(st.integers(0, max(len(made) - 1, 0)))
        length = draw(st.sampled_from((1, 1, 2, 4, 8, 40)))
        number = draw(
            st.one_of(st.sampled_from((0, 1, 7, 8, 0x7FFFFFFF, 0xFFFFFFFF)), st.integers(0, len(made) + 8), st.just(len(made) - at))
        )
        action = draw(st.sampled_from(("number", "number", "byte", "lost", "doubled", "cut", "moved")))
        if action == "number":
            made[at : at + 4] = number.to_bytes(4, "big")
        elif action == "byte":
            made[at : at + 1] = bytes([number & 0xFF])
        elif action == "lost":
            del made[at : at + length]
        elif action == "doubled":
            made[at:at] = made[at : at + length]
        elif action == "cut":
            del made[at:]
        else:
            made[at : at + length] = made[number : number + length]
    return bytes(made)


def is_of(data, octets, joins):
    """Whether some bytes are in others, in one piece or joined from a few."""
    if data in octets:
        return True
    if not joins:
        return False
    low, high = 0, len(data)
    while low < high:
        middle = (low + high + 1) // 2
        low, high = (middle, high) if data[:middle] in octets else (low, middle - 1)
    return low > 0 and is_of(data[low:], octets, joins - 1)
