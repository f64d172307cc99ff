"""Makes small pictures by Pillow, in a process of its own with little memory and time: what a stranger's picture does to Pillow costs its tile.

It reads requests from standard input and writes answers to standard output, each with its length in front. A request is a letter, the path of a
picture, NUL, and perhaps the thumbnail that it has. An answer is the Orientation as a byte, or a JPEG, or empty.
"""

from __future__ import annotations

import io
import os
import resource
import struct
import sys
from typing import Any, BinaryIO, Sequence

LARGEST = 10_000  # bytes of a small picture
ORIENTATION, EMBEDDED, WHOLE = b"o", b"e", b"w"  # what is asked: the Orientation, or a small picture, first from one of these
# What Pillow reads by itself: for EPS it would start Ghostscript, which runs what a picture says
_FORMATS = "JPEG MPO PNG GIF BMP DIB PPM TIFF WEBP AVIF JPEG2000 PSD ICO TGA PCX".split()
SECONDS, MEMORY = 10, 256 << 20  # that one picture may take
_WIDEST = (300, 220, 150, 100)  # points, each smaller than the one before, until a picture is small enough
_TAG = 0x0112  # Orientation


def _answer(image_module: Any, asked: bytes, path: bytes, embedded: bytes) -> bytes:
    """The Orientation of a picture, or a small picture, the right way up."""
    with open(path, "rb") as file:
        turned = _orientation(image_module, file)
        if asked == ORIENTATION:
            return bytes([turned])
        sources = [io.BytesIO(embedded)] * bool(embedded) + [file]
        for source in reversed(sources) if asked == WHOLE else sources:
            source.seek(0)
            octets = _shrunk(image_module, source, turned)
            if octets:
                return octets
    return b""


def _formats(image_module: Any) -> Sequence[str]:
    """Those of `_FORMATS` that this Pillow has."""
    return [it for it in _FORMATS if it in image_module.OPEN]


def _orientation(image_module: Any, file: BinaryIO) -> int:
    try:
        turned = int(image_module.open(file, formats=_formats(image_module)).getexif().get(_TAG, 1))
    except Exception:  # Pillow raises many kinds
        return 1
    return turned if turned in range(1, 9) else 1


def _shrunk(image_module: Any, source: Any, orientation: int) -> bytes | None:
    # FLIP_LEFT_RIGHT, ROTATE_180, FLIP_TOP_BOTTOM, TRANSPOSE, ROTATE_270, TRANSVERSE, ROTATE_90
    turns = dict(zip(range(2, 9), (0, 3, 1, 5, 4, 6, 2)))
    try:
        picture = image_module.open(source, formats=_formats(image_module))
        picture.draft("RGB", (_WIDEST[0], _WIDEST[0]))
        picture.thumbnail((_WIDEST[0], _WIDEST[0]))
        if picture.mode in ("RGBA", "LA", "P", "PA"):  # on white, where it can be seen through
            picture = picture.convert("RGBA")
            white = image_module.new("RGBA", picture.size, "white")
            white.alpha_composite(picture)
            picture = white
        if picture.mode.startswith("I;16") or picture.mode in ("I", "F"):
            picture = picture.convert("F").point(lambda value: value / 256)
        picture = picture.convert("RGB")
        if orientation in turns:
            picture = picture.transpose(turns[orientation])
        for widest in _WIDEST:
            picture.thumbnail((widest, widest))
            thumbnail = io.BytesIO()
            picture.save(thumbnail, "JPEG", quality=72, optimize=True)
            if thumbnail.tell() <= LARGEST:
                return thumbnail.getvalue()
    except Exception:  # Pillow raises many kinds, also when it is out of memory
        return None
    return None


def _limit_time() -> None:
    """The process ends if it takes longer from now on."""
    used = resource.getrusage(resource.RUSAGE_SELF)
    end = int(used.ru_utime + used.ru_stime) + 1 + SECONDS
    resource.setrlimit(resource.RLIMIT_CPU, (end, resource.getrlimit(resource.RLIMIT_CPU)[1]))


def main() -> None:
    from PIL import Image, ImageFile

    ImageFile.LOAD_TRUNCATED_IMAGES = True  # of a file that is cut off what is left
    Image.init()
    resource.setrlimit(resource.RLIMIT_AS, (MEMORY, MEMORY))
    resource.setrlimit(resource.RLIMIT_CORE, (0, 0))
    requests, answers = sys.stdin.buffer, open(os.dup(1), "wb")
    os.dup2(os.open(os.devnull, os.O_WRONLY), 1)  # whatever else is printed is no answer
    while len(head := requests.read(4)) == 4:
        request, _, embedded = requests.read(struct.unpack(">I", head)[0]).partition(b"\0")
        _limit_time()
        try:
            octets = _answer(Image, request[:1], request[1:], embedded)
        except OSError:
            octets = b""
        answers.write(struct.pack(">I", len(octets)) + octets)
        answers.flush()


if __name__ == "__main__":
    sys.path.pop(0)  # the folder of this file, whose modules are none of Python's
    main()
