"""What exifnorm-pictures must find in the head of a JPEG (CIPA DC-008 4.7; XMP part 3, 1.1.3), by a walk in Python without the library."""

import re
import struct

from jpegs import SOS, Fault, resources, segments
from made_files import EXTENSION_HEAD, RESOURCES_HEAD, SIX, XMP_HEAD

from exifnorm_pictures.model.found import EXIF, IPTC, XMP, Blocks, FoundBlock, ordinal

TIFF = (b"II*\0", b"MM\0*")
OLD_HEAD = b"Adobe_Photoshop2.5:"
EXIF_LIKE = re.compile(rb".{0,4}?Exif\0.", re.I | re.S)
XMP_LIKE = re.compile(rb"(?:http|XMP\0).{0,60}?(<(?:\?xpacket|x:xmpmeta|rdf:RDF)\b.*)", re.S)
META = (b"Meta\0\0", b"META\0\0", b"Exif\0\0")
NOT_COMPARED = ((0, b"JFIF\0"), (0, b"JFXX\0"), (2, b"ICC_PROFILE\0"), (11, b"JP"), (13, b"Adobe_CM"), (14, b"Adobe"))
RESOURCES = {0x0404: IPTC, 0x0422: EXIF, 0x0424: XMP}
FAULTS = {"JpegNoMarker": "no marker", "JpegLength": "no segment", "JpegCut": "the file ends inside the segment"}


class Walk:
    """The head of the picture that begins at an offset: its blocks and what is left, the offset after it, and its fault."""

    def __init__(self, octets, start=0, part=""):
        self.blocks, self.part, self.of = Blocks(type="JPEG"), part, f" of {part}" if part else ""
        self.has_scan, self.end, self.fault, self.indexes = False, start + 2, "", []
        self.exif, self.runs, self.extended = [], [], {}  # the position and the pieces of each block
        last = None
        try:
            for marker, at, self.end, data in segments(octets, start):
                self.has_scan = marker == SOS
                last = self.segment(marker, at, data, last)
        except Fault as why:
            cause, part, at = why.args
            if (cause, part) != ("JpegCut", len(octets)):  # a file may end after a whole segment
                self.fault = f"{FAULTS[cause]} at {at}"
        self.put_together()

    def leave(self, what, data):
        self.blocks.leave(what + self.of, data)

    def segment(self, marker, at, data, last):
        """Adds what a segment has. Returns its kind, if the next one may continue it."""
        if marker == 0xE1:
            return self.app1(f"APP1 segment at {at}", data, last)
        if marker == 0xED:
            return self.app13(f"APP13 segment at {at}", data, last)
        if marker == 0xE2 and data.startswith(b"MPF\0"):
            self.indexes.append((at + 8, data[4:]))
        elif marker == 0xE3 and data.startswith(META):
            self.leave("APP3 segment Meta", data)
        elif 0xE0 <= marker <= 0xEF and not self.is_not_compared(marker, data):
            word = bytes(it for it in data.split(b"\0")[0][:12] if 32 < it < 127).decode("ascii")
            self.leave(f"APP{marker - 0xE0} segment {word}".rstrip(), data)
        return None

    @staticmethod
    def is_not_compared(marker, data):
        return any(marker == 0xE0 + number and data.startswith(head) for number, head in NOT_COMPARED)

    def app1(self, place, data, last):
        if data.startswith(SIX):
            if last == SIX and data[6:10] not in TIFF:
                self.exif[-1][1].append(data[6:])
            else:
                self.exif.append((place, [data[6:]]))
            return SIX
        if data.startswith(XMP_HEAD):
            self.blocks.add(XMP, data[len(XMP_HEAD) :], place, self.part)
        elif data.startswith(EXTENSION_HEAD):
            self.piece(place, data)
        elif like := EXIF_LIKE.match(data):
            self.exif.append((place, [data[like.end() :]]))
        elif like := XMP_LIKE.match(data):
            self.blocks.add(XMP, data[like.start(1) :], place, self.part)
        else:
            self.leave("APP1 segment of an unknown kind", data)
        return None

    def app13(self, place, data, last):
        if data.startswith(RESOURCES_HEAD):
            if last == RESOURCES_HEAD:
                self.runs[-1][1].append(data[len(RESOURCES_HEAD) :])
            else:
                self.runs.append((place, [data[len(RESOURCES_HEAD) :]]))
            return RESOURCES_HEAD
        if data.startswith(OLD_HEAD):
            self.runs.append((place, [data[27:]]))
        elif not self.is_not_compared(0xED, data):
            self.leave("APP13 segment of an unknown kind", data)
        return None

    def piece(self, place, data):
        """A piece of extended XMP: 32 letters of a name, the length of the whole, and the offset of the piece."""
        inside = data[len(EXTENSION_HEAD) :]
        if len(inside) >= 40:
            name, (total, offset) = inside[:32], struct.unpack_from(">II", inside, 32)
            known = self.extended.setdefault(name, (total, place, {}))
            if known[0] == total and offset not in known[2]:
                known[2][offset] = inside[40:]
                return
        self.leave("piece of extended XMP that does not fit the others", data)

    def put_together(self):
        for place, pieces in self.exif:
            self.blocks.add(EXIF, b"".join(pieces), place, self.part)
        self.put_resources([(place, b"".join(pieces)) for place, pieces in self.runs])
        for number, (name, (total, place, pieces)) in enumerate(self.extended.items(), 1):
            title = ("extended XMP" if number == 1 else f"{ordinal(number)} extended XMP") + self.of
            offsets, data = sorted(pieces), b"".join(pieces[it] for it in sorted(pieces))
            if offsets == [0, *(it + len(pieces[it]) for it in offsets[:-1])] and len(data) == total:
                self.blocks.blocks.append(FoundBlock(XMP, data, title, place, extends=name.decode("latin-1").upper()))
            else:
                self.blocks.leave(f"{title}, of which pieces are missing or overlap", data)

    def put_resources(self, runs):
        """A resource that continues in the next run is joined."""
        if any(resources(data)[1].strip(b"\0") for _, data in runs[:-1]):
            runs = [(runs[0][0], b"".join(data for _, data in runs))]
        for where, data in runs:
            found, rest = resources(data)
            for number, inside in found:
                place = f"Photoshop resource {number:04x} in the {where}"
                if number == 0x0404 and not inside:
                    continue
                if number in RESOURCES:
                    bare = inside[6:] if number == 0x0422 and inside.startswith(SIX) else inside
                    self.blocks.add(RESOURCES[number], bare, place, self.part)
                elif number == 0x0423:
                    self.blocks.leave(place, inside)
            if rest.strip(b"\0"):
                self.blocks.leave(f"bytes behind the Photoshop resources in the {where}", rest)
