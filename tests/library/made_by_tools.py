"""Blocks that other tools wrote, the commands that wrote them, and the values that they were given."""

from dataclasses import dataclass, field
from typing import List, Optional, Tuple


@dataclass
class Made:
    """A block, and its content as the package's objects show it, without their classes."""

    tool: str
    block: bytes
    kind: str = "exif"
    fields: List[tuple] = field(default_factory=list)
    captions: List[Tuple[str, bytes, Optional[str]]] = field(default_factory=list)


# piexif.dump({"0th": {256: 4000, 258: (8, 8, 8), 271: b"Maker", 274: 6, 282: (72, 1), 315: b"Lee", 532: ((0, 1), (255, 1))},
#     "1st": {259: 6, 282: (72, 1)}, "thumbnail": a JPEG of 15 bytes})
PIEXIF = Made(
    "piexif 1.1.3",
    bytes.fromhex(
        "4578696600004d4d002a000000080007010000040000000100000fa0010200030000000300000062010f0002000000060000006801120003"
        "0000000100060000011a0005000000010000006e013b0002000000044c656500021400050000000200000076000000860008000800084d61"
        "6b65720000000048000000010000000000000001000000ff000000010004010300030000000100060000011a000500000001000000bc0201"
        "000400000001000000c402020004000000010000000f000000000000004800000001ffd8ffdb00040102ffda000209ffd9"
    ),
    fields=[
        ("main", 0x0100, "WHOLE", (4000,)),
        ("main", 0x0102, "SHORT", (8, 8, 8)),
        ("main", 0x010F, "ASCII", b"Maker\0"),
        ("main", 0x0112, "SHORT", (6,)),
        ("main", 0x011A, "RATIONAL", ((72, 1),)),
        ("main", 0x013B, "ASCII", b"Lee\0"),
        ("main", 0x0214, "RATIONAL", ((0, 1), (255, 1))),
        ("thumb", 0x0103, "SHORT", (6,)),
        ("thumb", 0x011A, "RATIONAL", ((72, 1),)),
        ("thumb", 0x0201, "JPEG", bytes.fromhex("ffd8ffdb00040102ffda000209ffd9")),
    ],
    captions=[("artist", b"Lee\0", "Lee")],
)

# piexif.dump({
#     "0th": {256: 4000, 271: b"Maker", 274: 6, 282: (72, 1), 315: b"Lee"},
#     "Exif": {33434: (1, 60), 34855: (100, 200), 36864: b"0231", 37380: (-1, 3), 37500: b"note of a maker", 40963: 70000},
#     "GPS": {0: (2, 3, 0, 0), 1: b"N", 2: ((52, 1), (22, 1), (1, 7))},
#     "1st": {259: 6, 282: (72, 1)}, "thumbnail": a JPEG of 15 bytes})
# piexif leaves out the four bytes after the entries of the Exif directory, so that its table and its first value share them. The
# entry of that value is the first of the directory, at 114.
PIEXIF_REFUSED = bytes.fromhex(
    "4578696600004d4d002a000000080007010000040000000100000fa0010f00020000000600000062011200030000000100060000011a0005"
    "0000000100000068013b0002000000044c6565008769000400000001000000708825000400000001000000d9000001174d616b6572000000"
    "0048000000010006829a000500000001000000ba8827000300000002006400c89000000700000004303233319204000a00000001000000c2"
    "927c00070000000f000000caa00300040000000100011170000000010000003cffffffff000000036e6f7465206f662061206d616b657200"
    "0300000001000000040203000000010002000000024e0000000002000500000003000000ff00000034000000010000001600000001000000"
    "01000000070004010300030000000100060000011a0005000000010000014d02010004000000010000015502020004000000010000000f00"
    "0000000000004800000001ffd8ffdb00040102ffda000209ffd9"
)
PIEXIF_FAULT = ("Overlap", 114)

# exiftool -o made.exif -Artist='J. Doe' -ImageDescription=Zürich -ExposureTime=1/60 -UserComment=hi -GPSAltitude=12.5
#     -GPSAltitudeRef=0 -Make=M -DateTimeOriginal='2009:07:08 10:11:12'
# which adds the tags that Exif asks for
EXIFTOOL = Made(
    "ExifTool 12.57",
    bytes.fromhex(
        "4d4d002a00000010457869664d6574610009010e00020000000800000082010f0002000000024d000000011a0005000000010000008a011b"
        "00050000000100000092012800030000000100020000013b0002000000070000009a02130003000000010001000087690004000000010000"
        "00a2882500040000000100000122000000005ac3bc7269636800000000480000000100000048000000014a2e20446f6500000007829a0005"
        "00000001000000fc900000070000000430323332900300020000001400000104910100070000000401020300928600070000000a00000118"
        "a00000070000000430313030a001000300000001ffff000000000000000000010000003c323030393a30373a30382031303a31313a313200"
        "41534349490000006869000300000001000000040203000000050001000000010000000000060005000000010000014c0000000000000019"
        "00000002"
    ),
    fields=[
        ("main", 0x010E, "ASCII", b"Z\xc3\xbcrich\0"),
        ("main", 0x010F, "ASCII", b"M\0"),
        ("main", 0x011A, "RATIONAL", ((72, 1),)),
        ("main", 0x011B, "RATIONAL", ((72, 1),)),
        ("main", 0x0128, "SHORT", (2,)),
        ("main", 0x013B, "ASCII", b"J. Doe\0"),
        ("main", 0x0213, "SHORT", (1,)),
        ("exif", 0x829A, "RATIONAL", ((1, 60),)),
        ("exif", 0x9000, "UNDEFINED", b"0232"),
        ("exif", 0x9003, "ASCII", b"2009:07:08 10:11:12\0"),
        ("exif", 0x9101, "UNDEFINED", b"\1\2\3\0"),
        ("exif", 0x9286, "UNDEFINED", b"ASCII\0\0\0hi"),
        ("exif", 0xA000, "UNDEFINED", b"0100"),
        ("exif", 0xA001, "SHORT", (65535,)),
        ("gps", 0x0000, "BYTE", b"\2\3\0\0"),
        ("gps", 0x0005, "BYTE", b"\0"),
        ("gps", 0x0006, "RATIONAL", ((25, 2),)),
    ],
    # a text of type ASCII that isn't ASCII
    captions=[("description", b"Z\xc3\xbcrich\0", None), ("artist", b"J. Doe\0", "J. Doe")],
)

# exiv2 -M'set Exif.Image.Copyright Ascii (c) nobody' -M'set Exif.Image.Orientation Short 8'
#     -M'set Exif.Photo.FNumber Rational 28/10' -M'set Exif.Photo.ShutterSpeedValue SRational -7/2'
#     -M'set Exif.Photo.PixelXDimension Long 16' -M'set Exif.GPSInfo.GPSLatitudeRef Ascii S'
#     -M'set Exif.Photo.LensSpecification Rational 24/1 70/1 28/10 0/0' made.jpg
EXIV2 = Made(
    "exiv2 0.27.6",
    bytes.fromhex(
        "49492a00080000000400120103000100000008000000988202000b0000003e00000069870400010000004a0000002588040001000000b000"
        "000000000000286329206e6f626f6479000004009d820500010000008000000001920a00010000008800000002a004000100000010000000"
        "32a405000400000090000000000000001c0000000a000000f9ffffff02000000180000000100000046000000010000001c0000000a000000"
        "0000000000000000010001000200020000005300000000000000"
    ),
    fields=[
        ("main", 0x0112, "SHORT", (8,)),
        ("main", 0x8298, "ASCII", b"(c) nobody\0"),
        ("exif", 0x829D, "RATIONAL", ((28, 10),)),
        ("exif", 0x9201, "SRATIONAL", ((-7, 2),)),
        ("exif", 0xA002, "WHOLE", (16,)),
        ("exif", 0xA432, "RATIONAL", ((24, 1), (70, 1), (28, 10), (0, 0))),
        ("gps", 0x0001, "ASCII", b"S\0"),
    ],
    captions=[("copyright", b"(c) nobody\0", "(c) nobody")],
)

# exiftool -IPTC:Caption-Abstract=Vase -IPTC:Keywords=a -IPTC:Keywords=b -IPTC:ObjectName=T made.jpg
EXIFTOOL_RECORD = Made(
    "ExifTool 12.57",
    bytes.fromhex("1c02050001541c02190001611c02190001621c02780004566173651c020000020004"),
    kind="iptc",
    fields=[
        ("iptc", 0x0200, "DATASET", b"\0\4"),
        ("iptc", 0x0205, "DATASET", b"T"),
        ("iptc", 0x0219, "DATASET", b"a"),
        ("iptc", 0x0219, "DATASET", b"b"),
        ("iptc", 0x0278, "DATASET", b"Vase"),
    ],
    captions=[("title", b"T", None), ("caption", b"Vase", None), ("keyword", b"a", None), ("keyword", b"b", None)],
)

# exiv2 -M'set Iptc.Envelope.CharacterSet String ESC %G' -M'add Iptc.Application2.Caption String Zürich'
#     -M'add Iptc.Application2.Keywords String clay' -M'add Iptc.Application2.Keywords String urn'
#     -M'set Iptc.Application2.Byline String Lee' made.jpg
EXIV2_RECORD = Made(
    "exiv2 0.27.6",
    bytes.fromhex("1c015a00031b25471c027800075ac3bc726963681c02190004636c61791c0219000375726e1c025000034c6565"),
    kind="iptc",
    fields=[
        ("iptc", 0x015A, "DATASET", b"\x1b%G"),
        ("iptc", 0x0219, "DATASET", b"clay"),
        ("iptc", 0x0219, "DATASET", b"urn"),
        ("iptc", 0x0250, "DATASET", b"Lee"),
        ("iptc", 0x0278, "DATASET", b"Z\xc3\xbcrich"),
    ],
    captions=[
        ("caption", b"Z\xc3\xbcrich", "Zürich"),
        ("byline", b"Lee", "Lee"),
        ("keyword", b"clay", "clay"),
        ("keyword", b"urn", "urn"),
    ],
)

ALL = [PIEXIF, EXIFTOOL, EXIV2, EXIFTOOL_RECORD, EXIV2_RECORD]
