#!/usr/bin/env python3
"""Makes large JPEG files like those of cameras, for `run.py --folder`: each has the Exif of a camera with its MakerNote, a thumbnail, IPTC and
XMP as a program for photographs writes them, and picture data of some megabytes.

  bench/pictures/cameras.py HEADS FOLDER [--pictures N] [--size PIXELS]

HEADS is a folder of small JPEG files of cameras, such as t/images in the sources of ExifTool (`apt-get source libimage-exiftool-perl`). Of these
are taken that have at least 30 fields of Exif in one segment, in turns. ImageMagick's convert makes the picture, which is the same in all, and
ExifTool adds what the camera didn't write.
"""

import argparse
import json
import struct
import subprocess
from pathlib import Path
from typing import Iterator, List, Tuple

EXIFTOOL = ("exiftool", "-config", "", "-q", "-q", "-m")
LEAST = 30  # fields of Exif
SAYS = "A street with a market and a harbour behind it, seen from the tower in the evening, number {}"
TEXTS = """
XMP-dc:Title=Harbour {0}; XMP-dc:Description={1}; XMP-dc:Creator=Anna; XMP-dc:Rights=(c) City Museum; XMP-dc:Subject=harbour; XMP-dc:Subject=evening;
XMP-dc:Subject=number {0}; XMP-photoshop:City=Hamburg; XMP-photoshop:Country=Germany; XMP-photoshop:DateCreated=2024:05:02 08:12:33;
XMP-xmp:CreatorTool=Adobe Photoshop Lightroom Classic 9.2; XMP-xmp:Rating=3; XMP-xmp:ModifyDate=2024:05:03 10:11:12; XMP-xmpMM:DocumentID=xmp.did:{0};
XMP-xmpMM:InstanceID=xmp.iid:{0}; XMP-xmpMM:OriginalDocumentID=5F3C{0}; XMP-xmpMM:HistoryAction=derived; XMP-xmpMM:HistoryAction=saved;
XMP-xmpMM:HistoryWhen=2024:05:03 10:11:12; XMP-crs:Version=12.2; XMP-crs:ProcessVersion=11.0; XMP-crs:WhiteBalance=As Shot; XMP-crs:Tint=+6;
XMP-crs:ColorTemperature=5200; XMP-crs:Exposure2012=+0.35; XMP-crs:Contrast2012=+12; XMP-crs:Highlights2012=-40; XMP-crs:Shadows2012=+25;
XMP-crs:Whites2012=+8; XMP-crs:Blacks2012=-12; XMP-crs:Clarity2012=+10; XMP-crs:Saturation=+4; XMP-crs:Vibrance=+15; XMP-crs:Sharpness=40;
XMP-crs:LuminanceSmoothing=10; XMP-crs:HasSettings=True; CodedCharacterSet=UTF8; IPTC:ObjectName=Harbour {0}; IPTC:Caption-Abstract={1};
IPTC:By-line=Anna; IPTC:CopyrightNotice=(c) City Museum; IPTC:Keywords=harbour; IPTC:Keywords=evening; IPTC:Keywords=number {0}; IPTC:City=Hamburg;
IPTC:Country-PrimaryLocationName=Germany; IPTC:DateCreated=2024:05:02; IPTC:TimeCreated=08:12:33+00:00
"""


def parted(picture: bytes) -> Tuple[List[bytes], bytes]:
    """The segments of a JPEG before its first scan, and the rest."""
    at, segments = 2, []
    while picture[at : at + 1] == b"\xff" and picture[at + 1] != 0xDA:
        length = 2 + struct.unpack(">H", picture[at + 2 : at + 4])[0]
        segments.append(picture[at : at + length])
        at += length
    return segments, picture[at:]


def heads(folder: Path) -> Iterator[Tuple[str, bytes]]:
    """The name of each file whose Exif is in one segment and has enough fields, and this segment."""
    for path in sorted(folder.glob("*.jpg")):
        exif = [it for it in parted(path.read_bytes())[0] if it[:2] == b"\xff\xe1" and it[4:10] == b"Exif\0\0"]
        shown = subprocess.run([*EXIFTOOL, "-j", "-EXIF:all", path], capture_output=True, text=True, check=False).stdout
        if len(exif) == 1 and shown and len(json.loads(shown)[0]) >= LEAST:
            yield path.stem, exif[0]


def main() -> None:
    """Makes the files."""
    words = argparse.ArgumentParser(description=__doc__, formatter_class=argparse.RawDescriptionHelpFormatter)
    words.add_argument("heads", type=Path)
    words.add_argument("folder", type=Path)
    words.add_argument("--pictures", type=int, default=60)
    words.add_argument("--size", default="3600x2700")
    asked = words.parse_args()
    asked.folder.mkdir()
    scan, small = asked.folder / "scan", asked.folder / "thumbnail"
    drawn = ["convert", "-size", asked.size, "-seed", "1", "plasma:fractal", "-attenuate", "0.4", "+noise", "Gaussian", "-quality", "90"]
    subprocess.run([*drawn, "-strip", f"jpeg:{scan}"], check=True)
    subprocess.run(["convert", f"jpeg:{scan}", "-resize", "160x120", "-quality", "75", f"jpeg:{small}"], check=True)
    segments, rest = parted(scan.read_bytes())
    picture = b"".join(it for it in segments if not 0xE0 <= it[1] <= 0xEF) + rest
    cameras = list(heads(asked.heads))
    for number in range(asked.pictures):
        name, exif = cameras[number % len(cameras)]
        path = asked.folder / f"{number:06}-{name}.jpg"
        path.write_bytes(b"\xff\xd8" + exif + picture)
        texts = ["-" + it.strip() for it in TEXTS.format(number, SAYS.format(number)).split(";")]
        subprocess.run([*EXIFTOOL, "-overwrite_original", f"-ThumbnailImage<={small}", *texts, path], check=True)
    scan.unlink()
    small.unlink()


if __name__ == "__main__":
    main()
