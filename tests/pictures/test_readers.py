"""What the readers of picture formats find: beside ExifTool and exiv2, behind the end of a picture, and of damaged files."""

import hashlib
import io
import os
import re
import struct
import sys
import unittest
import zlib
from collections import Counter
from unittest import mock

from hypothesis import given, settings, strategies as st
from in_memory import Counting, found_in, reader_of
from made_blocks import ASCII, LONG, segment
from made_files import (
    A,
    B,
    K,
    T,
    Placed,
    app1,
    app13,
    app1_xmp,
    chunk,
    extension,
    jpeg,
    mpf,
    page,
    png,
    png_xmp,
    profile,
    resource,
    tiff,
    webp,
    xmp,
)
from made_raw import arw, camera_profile, dng, rw2, sony, whole_raf
from studio import SMALL_JPEG, WithPictures, interpreter_with, needs, put, read, run, tool, write

from exifnorm_pictures.extract.formats import jpeg as jpeg_
from exifnorm_pictures.model import budgets
from exifnorm_pictures.model.found import Broken, LeftToOthers
from exifnorm_pictures.extract import extraction

MIN = b"\xff\xd8\xff\xda\0\2\xff\xd9"  # a JPEG of one scan without data


def left(*parts):
    """Parts that were not read, each with the digest of its bytes."""
    return [(what, hashlib.sha256(data).hexdigest()) for what, data in parts]


class Readers(unittest.TestCase):
    maxDiff = None

    def seen(self, octets, blocks, parts=(), whole=False):
        """Compares what is found in a file: (kind, name, position, bytes) of each block, and (part, bytes) of what isn't read."""
        found = found_in(octets, whole)
        self.assertEqual([(it.kind, it.name, it.where, it.data) for it in found.blocks], list(blocks))
        self.assertEqual([tuple(it) for it in found.not_read], left(*parts))
        self.assertEqual(
            (found.problem, found.detail, found.extractor, {it.extractor for it in found.blocks} | {"own"}), (None, "", "own", {"own"})
        )
        return found

    def test_after_a_jpeg(self):
        end = len(SMALL_JPEG)
        afcp, vrd = b"AXS!12345678", b"CANON OPTIONAL DATA\0" + bytes(44)
        for behind, what, more in (
            (b"\0\0abc", "trailer of 5 bytes", False),
            (bytes(1000) + MIN, "trailer of 1,008 bytes", False),
            (bytes(9) + MIN, "second picture of 17 bytes", False),
            (b"x" + afcp, "AFCP trailer of 13 bytes", True),
            (b"AXS*\n2345678", "AFCP trailer of 12 bytes", True),
            (b"\xa1\xb2\xc3\xd4", "FotoStation trailer of 4 bytes", True),
            (b"cbipcbbl", "PhotoMechanic trailer of 8 bytes", True),
            (b"\0\0QDIOBS", "Samsung trailer of 8 bytes", False),
            (b"\0\0SEFT", "Samsung trailer of 6 bytes", False),
            (b"zmie~\0\0\6" + b"1234" + b"\x10\4", "MIE trailer of 14 bytes", True),
            (b"zmie~\0\0\n" + b"12345678" + b"\x18\x08", "MIE trailer of 18 bytes", True),
            (vrd, "Canon VRD trailer of 64 bytes", True),
            (vrd[:-2] + b"x", "trailer of 63 bytes", False),
            (b"zmie~\0\0\7" + b"1234" + b"\x10\4", "trailer of 14 bytes", False),
            (b"\0QDIOBS", "trailer of 7 bytes", False),
        ):
            found = self.seen(SMALL_JPEG + behind, [], [(what, behind)])
            self.assertEqual(found.has_more, more, what)
        self.seen(SMALL_JPEG + bytes(100), [])
        self.seen(SMALL_JPEG[:-2] + b"rest", [])
        late, other = app1(A), app13(resource(0x0404, K))
        octets = SMALL_JPEG[:-2] + late + segment(0xDB, b"table") + b"\xff\x00\xff\xd0" + other + b"\xff\xd9after"
        self.seen(
            octets,
            [],
            [
                ("metadata segment behind the first scan", late),
                ("metadata segment behind the first scan", other),
                ("trailer of 5 bytes", b"after"),
            ],
        )
        self.seen(octets[: end - 2 + 10], [], [("metadata segment behind the first scan", late[:10])])

    def test_bytes_after_a_picture(self):
        """More than may be read have no digest, so the file is the same as no other."""
        for octets in (SMALL_JPEG, png(), webp((b"EXIF", A)), tiff(page())):
            with mock.patch.object(budgets, "UNREAD_BYTES", 300_000):  # of a JPEG from the scan on
                self.assertTrue(found_in(octets + b"x" * 299_000).not_read[0].digest)
                (part,) = found_in(octets + b"x" * 300_001).not_read
                self.assertEqual(part.digest, "", part.what)

    def test_texts_of_a_png(self):
        head = b"Raw profile type iptc\0"
        digits = zlib.compress(b"\niptc\n       3\n1c0219\n")
        for data, why in (
            (b"XML:com.adobe.xmp\0\0", "its fields are cut"),
            (b"XML:com.adobe.xmp\0\0\0en\0title", "its fields are cut"),
            (b"XML:com.adobe.xmp\0\1\1\0\0" + zlib.compress(T), "its compression is not known"),
            (b"XML:com.adobe.xmp\0\1\0\0\0no data", "its compressed data is damaged"),
            (b"XML:com.adobe.xmp\0\1\0\0\0" + zlib.compress(T)[:-1], "its compressed data is cut"),
        ):
            self.seen(png(chunk(b"iTXt", data)), [], [(f"text chunk that cannot be read ({why})", data)])
        for text, why in (
            (b"\1" + digits, "its compression is not known"),
            (b"\0" + digits[:-5], "its compressed data is cut"),
            (b"\0" + zlib.compress(b"\niptc\n"), "its profile has no length"),
            (b"\0" + zlib.compress(b"\niptc\nabc\n1c"), "its profile has no length"),
            (b"\0" + zlib.compress(b"\niptc\n00000000001\n1c"), "its profile has no length"),
            (b"\0" + zlib.compress(b"\niptc\n1\n1x"), "its profile has other characters than hexadecimal digits"),
            (b"\0" + zlib.compress(b"\niptc\n2\n1c"), "its profile has another length than it says"),
            (b"\0" + zlib.compress(b"\niptc\n1"), "its profile has another length than it says"),
        ):
            self.seen(png(chunk(b"zTXt", head + text)), [], [(f"text chunk that cannot be read ({why})", head + text)])
        self.seen(
            png(chunk(b"zTXt", head + b"\0" + zlib.compress(b"  \niptc\n0000000003 1c\n02 19"))),
            [("iptc", "IPTC", "zTXt chunk at 33", b"\x1c\2\x19")],
        )


# ---- The readers of picture formats: beside ExifTool and exiv2 on files of real tools, and on damaged files and files that mean harm.


def named(blocks):
    return [(it.kind, it.name, it.data) for it in blocks.blocks]


class Found(unittest.TestCase):
    """Each block has its name and its bytes, in the order of the file."""

    def test_where_the_first_bytes_of_the_file_end(self):
        """65,536 bytes are read at first: wherever they end, the segments are the same, and so is what is too short."""
        for before in range(65_536 - 60, 65_536 + 8):
            filled = jpeg(segment(0xFE, bytes(30_000)), segment(0xFE, bytes(before - 2 - 4 - 30_000 - 4)), app1(A), app1_xmp(T))
            self.assertEqual(sorted(named(found_in(filled))), [("exif", "Exif", A), ("xmp", "XMP", T)], before)
            for length in (before - 1, before + 1, before + 2, before + 3, before + 20):
                with self.assertRaises(Broken, msg=(before, length)):
                    found_in(filled[:length])
            self.assertEqual(named(found_in(filled[:before])), [])


@needs("exiftool")
class BesideOthers(WithPictures):
    """The same bytes as ExifTool's and exiv2's, on files that ImageMagick, Pillow and ExifTool wrote."""

    FIELDS = ("-Make=Leica", "-Artist=Zürich", "-UserComment=a comment", "-GPSLatitude=47.5", "-GPSLatitudeRef=N")

    def real(self, name):
        tool(self.folder, "convert", "-size", "40x30", "plasma:tomato-steelblue", name)
        more = [] if name.endswith("webp") else ["-IPTC:Keywords=one", "-IPTC:Caption-Abstract=Zürich"]
        tool(self.folder, "exiftool", "-config", "", "-q", "-q", "-m", "-overwrite_original", *self.FIELDS, *more, "-XMP:Title=Title", name)
        return self.path(name)

    def block(self, tag, path):
        return tool(self.folder, "exiftool", "-config", "", "-q", "-q", "-b", tag, path)

    @needs("convert")
    def test_exiftools_blocks(self):
        for name in ("a.jpg", "a.png", "a.webp"):
            with self.subTest(name):
                path = self.real(name)
                found = found_in(read(path))
                self.assertEqual(found.not_read, [])
                for tag, kind in (("-EXIF:Exif", "exif"), ("-IPTC:IPTC", "iptc"), ("-XMP:XMP", "xmp")):
                    if kind == "iptc" and name == "a.webp":
                        continue
                    blocks = found.of_kind(kind)
                    self.assertEqual([it.data for it in blocks], [self.block(tag, path)], kind)

    @needs("convert", "PIL")
    def test_pillows_files(self):
        call = (
            "from PIL import Image; it = Image.new('RGB', (8, 8)); e = it.getexif(); e[0x10f] = 'Leica'; e[0x131] = 'Pillow';"
            "[it.save('p.' + name, exif=e) for name in ('jpg', 'png', 'webp')]; open('expected', 'wb').write(e.tobytes()[6:])"
        )
        tool(self.folder, interpreter_with("PIL"), "-c", call)
        for name in ("jpg", "png", "webp"):
            found = found_in(read(self.path("p." + name)))
            self.assertEqual(named(found), [("exif", "Exif", read(self.path("expected")))], name)

    @needs("convert")
    def test_exiftool_reads_the_same_in_a_page(self):
        """ExifTool prints the same tags of a page that was extracted as of the page in its file."""
        one, two = self.real("a.tif"), self.real("b.tif")
        tool(self.folder, "exiftool", "-config", "", "-q", "-overwrite_original", "-Make=Other", "-GPSLatitude=12", two)
        tool(self.folder, "convert", one, two, "both.tif")
        for name in ("a.tif", "both.tif"):
            found = found_in(read(self.path(name)))
            self.assertEqual(found.not_read, [])
            for number, it in enumerate(found.of_kind("exif")):
                write(self.path("page.tif"), it.data)
                expected = self.printed(self.path(name), f"IFD{number}")
                self.assertEqual(self.printed(self.path("page.tif"), "IFD0"), expected)
                self.assertGreater(len(expected), 8)

    def printed(self, path, group):
        more = ["-ExifIFD:all", "-GPS:all"] if group == "IFD0" else []
        said = tool(self.folder, "exiftool", "-config", "", "-a", "-u", "-D", "-G1", "-s", f"-{group}:all", *more, path).decode(
            "utf-8", "replace"
        )
        left_out = {0x111, 0x117, 0x144, 0x145}
        lines = (re.match(r"\[(\w+)\] +(\d+) (\w+) *: (.*)", line) for line in said.splitlines())
        return sorted((it[2], it[3], it[4]) for it in lines if it and int(it[2]) not in left_out)


def bases():
    """A file of each format with a block of each kind."""
    pieces, name = extension(xmp("<dc:title>two</dc:title>"))
    asking = xmp("", f"note:HasExtendedXMP='{name}'")
    # the segments of a split block are shorter here than programs make them
    first = app1(A) + app13(resource(0x404, K), resource(0x422, B)) + app1_xmp(asking) + b"".join(pieces) + app1(B) + app1(b"goes on")
    return [
        mpf(first, jpeg(app1(B), behind=bytes(3))) + b"trailer",
        png(chunk(b"eXIf", A), profile(b"iptc", resource(0x404, K)), png_xmp(T), png_xmp(T, True), behind=b"trailer"),
        webp((b"VP8X", bytes(10)), (b"EXIF", b"Exif\0\0" + A), (b"XMP ", T), behind=b"trailer"),
        tiff(
            page(
                (0x02BC, 1, T),
                (0x83BB, 7, K),
                (0x014A, LONG, page((0x010F, ASCII, b"below it\0"))),
                (0x8769, LONG, [(0x9286, 7, b"a comment")]),
            ),
            page((0x8649, 1, resource(0x404, K))),
            order="<",
            behind=b"trailer",
        ),
    ]


MARKS = st.lists(st.sampled_from((0xFF, 0xD8, 0xE1, 0xED, 0xD9)), min_size=1, max_size=6).map(bytes)
WAYS = ("byte", "number", "gone", "twice", "marks") * 3 + ("cut",)


@st.composite
def damaged(draw, octets):
    """A file with one or two faults: bytes that are other ones, a piece that is gone, twice there or elsewhere, and its end cut off."""
    made = bytearray(octets)
    for way in draw(st.lists(st.sampled_from(WAYS), min_size=1, max_size=2)):
        at = draw(st.integers(0, len(made) - 1)) if made else 0
        if way == "byte" and made:
            made[at] = draw(st.one_of(st.sampled_from((0, 1, 0x7F, 0x80, 0xFF)), st.integers(0, 255)))
        elif way == "number":
            other = draw(st.integers(0, len(octets)))
            made[at : at + 4] = draw(st.sampled_from((bytes(4), b"\xff" * 4, struct.pack(">I", other), struct.pack("<I", at))))
        elif way == "gone":
            del made[at : at + draw(st.integers(1, 30))]
        elif way == "twice":
            made[at:at] = made[at : at + draw(st.integers(1, 60))]
        elif way == "marks":
            made[at:at] = draw(MARKS)
        else:
            del made[at:]
    return bytes(made) if made[:3] == octets[:3] else octets[:12] + bytes(made[12:])


def with_what_is_packed(octets):
    """The bytes of a file, and those that its compressed or hexadecimal parts encode."""
    found = [octets]
    for at in (it.start() for it in re.finditer(rb"\x78[\x01\x5e\x9c\xda]", octets)):
        opened = zlib.decompressobj()
        try:
            found.append(opened.decompress(octets[at:]))
        except zlib.error:
            continue
    for text in list(found):
        digits = b"".join(re.findall(rb"[0-9a-f]{2}", b"".join(text.split(None, 2)[2:]).replace(b"\n", b"")))
        found.append(bytes.fromhex(digits.decode()))
    return found


def is_made_of(data, sources):
    """Whether bytes are pieces of the sources one after another: few pieces, so that not any bytes would pass."""
    pieces = 0
    while data:
        length = len(data)
        while length and not any(data[:length] in it for it in sources):
            length = length * 3 // 4
        if not length or pieces > 60:
            return False
        data = data[length:]
        pieces += 1
    return True


class Damaged(unittest.TestCase):
    """A result or `Broken`, only bytes that are in the file, and few reads."""

    def test_each_format(self):
        jpeg_, png_, webp_, tiff_ = bases()
        raw = dng(b"Anna", (0xC6F5, LONG, Placed(camera_profile()))), arw(private=sony((0x7310, 7, b"levels of A")))
        others = rw2(b"Anna", (0x0120, 7, b"II*\0CameraIFD")), whole_raf()
        for base, number in (*((it, 1000) for it in (jpeg_, png_, webp_, tiff_)), *((it, 400) for it in (*raw, *others))):
            with self.subTest(base[:12]):
                self.see_that_each_has_a_result(base, number)

    def see_that_each_has_a_result(self, base, number):
        results = Counter()

        @settings(max_examples=number)
        @given(damaged(base), st.booleans())
        def look(octets, whole):
            stream = Counting(octets)
            try:
                found = reader_of(octets)(stream, whole)
            except (Broken, LeftToOthers):
                found = None
            results["broken" if found is None else "read"] += 1
            self.assertLess(stream.octets, 12 * len(octets) + 4096)
            self.assertLess(stream.calls, 4 * len(octets) + 64)
            if found is not None:
                self.check(octets, found)

        look()
        self.assertGreater(min(results["broken"], results["read"]), 50, results)

    def check(self, octets, found):
        sources = None
        for it in found.blocks:
            data = it.data
            if data in octets:
                continue
            if found.type in ("TIFF", "DNG", "CR2", "ORF", "RW2", "RAF") and it.kind == "exif" and "segment" not in it.where:
                self.check_page(octets, data)
                continue
            sources = sources or with_what_is_packed(octets)
            self.assertTrue(is_made_of(data, sources), (it, octets))

    def check_page(self, octets, data):
        """The entries of a page, but for their offsets, and its values are in the file."""
        order = "<" if data[:2] == b"II" else ">"
        tables, last = [8], 8
        for at in tables:
            (count,) = struct.unpack_from(order + "H", data, at)
            last = max(last, at + 6 + 12 * count)
            for place in range(at + 2, at + 2 + 12 * count, 12):
                tag, kind, number, below = struct.unpack_from(order + "HHII", data, place)
                self.assertIn(data[place : place + 8], octets)
                if tag in (0x8769, 0x8825, 0xA005) and (kind, number) == (4, 1) and below < len(data):
                    tables.append(below)
        self.assertTrue(is_made_of(data[last:], [octets]), octets)

    def test_which_tails_are_read_from_their_end(self):
        """Those with the marks and tables that may be between scans (T.81, Table B.1 and B.2.1), and with no other marker. A trailer is known by
        the last 64 bytes, which are read once more."""
        plain = set()
        for marker in range(0xC0, 0xFF):
            octets = bytes(70_000) + b"\xff" + bytes([marker]) + b"\0\4ab" + bytes(100) + b"\xff\xd9"
            stream = Counting(octets)
            jpeg_.tail(stream, 0, len(octets), False)
            plain |= {marker} if stream.octets <= 65_537 + 64 else set()
        self.assertEqual(plain, {0xC4, 0xCC, 0xDA, 0xDB, 0xDD, *range(0xD0, 0xD8)})  # DHT, DAC, SOS, DQT, DRI, RST


class Markers(unittest.TestCase):
    # bytes that mean something after a scan, and FF twice as often
    TABLE = bytes((255, 255, 0xD9, 0xE1, 0, 1, 2, 3, 0xD8, 0xDA, 16)[it % 11] for it in range(256))
    OCTETS = st.binary(max_size=60).map(lambda it: it.translate(Markers.TABLE))

    @settings(max_examples=1000)
    @given(st.sampled_from((4, 7, 64, jpeg_.CHUNK)), OCTETS, st.integers(0))
    def test_markers_beside_a_plain_search(self, size, octets, at):
        at %= len(octets) + 1
        with mock.patch.object(jpeg_, "CHUNK", size):
            markers = jpeg_.Markers(io.BytesIO(octets), at, len(octets))
            self.assertEqual(jpeg_._scanned(markers)[:3], plain_search(octets, at))


def plain_search(octets, at):
    places = []
    while mark := re.compile(rb"\xff[\x01-\xcf\xd8-\xfe]").search(octets, at):
        at, marker = mark.end(), octets[mark.end() - 1]
        if marker == 0xD9:
            return places, at, True
        if marker >= 0xC0 and marker != 0xD8:
            length = max(int.from_bytes(octets[at : at + 2], "big"), 2)
            if marker in (0xE1, 0xED):
                places.append((at - 2, length + 2))
            at += length
    return places, len(octets), False


class Harm(unittest.TestCase):
    """Files made to cost time or memory: what is read of them is counted."""

    def setUp(self):
        clock = mock.patch.object(budgets, "SECONDS", 3600.0)  # a slow machine comes first to that limit
        clock.start()
        self.addCleanup(clock.stop)

    def broken(self, octets, most=None):
        stream = Counting(octets)
        with self.assertRaises(Broken) as caught:
            reader_of(octets)(stream, True)
        self.assertLess(stream.octets, (most or 4 * len(octets)) + 4096)
        return str(caught.exception)

    def too_much(self, octets, what, most=None):
        """The limit ends the reading of a file, and no other program reads it."""
        stream = Counting(octets)
        with self.assertRaisesRegex(budgets.TooMuch, f"^more than [0-9,]+ {what}$"):
            reader_of(octets)(stream, True)
        self.assertLess(stream.octets, (most or 4 * len(octets)) + 4096)

    def test_many_markers(self):
        self.too_much(b"\xff\xd8" + b"\xff\xfe\0\2" * 100_001, budgets.SEGMENTS)
        self.too_much(b"\xff\xd8" + b"\xff\x01" * 100_001, budgets.SEGMENTS)
        self.too_much(b"\xff\xd8" + b"\xff\xe1\0\2" * 20_000 + b"\xff\xd9", budgets.NOT_READ)
        self.broken(b"\xff\xd8" + b"\xff" * 200_000)
        with mock.patch.dict(budgets.LIMITS, {budgets.SEGMENT_BYTES: 100_000}):
            self.too_much(b"\xff\xd8" + b"\xff" * 200_000, budgets.SEGMENT_BYTES)
        many = SMALL_JPEG[:-2] + b"\xff\xc0\0\2" * 200_000
        stream = Counting(many)
        self.assertEqual(reader_of(many)(stream, True).blocks, [])
        self.assertLess(stream.octets, 3 * len(many))
        self.too_much(SMALL_JPEG[:-2] + b"\xff\xe1\0\2" * 1001, "metadata segments after the first scan")


class Opened(WithPictures):
    def test_what_is_no_file(self):
        """A pipe is not opened, which would wait for its other end; a link to nothing has vanished."""
        os.mkfifo(self.path("pipe"))
        os.symlink("nothing", self.path("link"))
        for name, problem in (("pipe", "NotAFile"), ("link", "LinkToNothing"), (".", "NotAFile")):
            self.assertEqual(extraction.blocks_of_file(os.fsencode(self.path(name))).problem, problem)
        text = "os.open = None\nprint(*(extraction.blocks_of_file(it).problem for it in (b'pipe', b'link', b'.')))"
        self.assertEqual(self.by_itself(text), ["NotAFile", "LinkToNothing", "NotAFile"])

    def by_itself(self, text):
        """The output of a Python program about this folder, which must end: after 30 seconds of processor time it is ended."""
        begin = "import os, resource, sys\nresource.setrlimit(resource.RLIMIT_CPU, (30, 30))\nfrom exifnorm_pictures.extract import extraction\n"
        done = run([sys.executable, "-c", begin + text], self.folder)
        self.assertEqual(done.returncode, 0, done.stderr)
        return done.stdout.decode().split()

    def test_a_file_that_becomes_a_pipe(self):
        """It was a regular file a moment ago. It is not waited for, and is closed again."""
        write(self.path("a.jpg"), SMALL_JPEG)
        os.mkfifo(self.path("pipe"))
        text = (
            "opened, before = os.open, len(os.listdir('/proc/self/fd'))\nos.open = lambda path, *more: opened('pipe', *more)\n"
            "print(extraction.blocks_of_file(b'a.jpg').problem, len(os.listdir('/proc/self/fd')) - before)"
        )
        self.assertEqual(self.by_itself(text), ["NotAFile", "0"])

    def test_a_file_that_becomes_shorter(self):
        write(self.path("a.jpg"), jpeg(app1(A), base=SMALL_JPEG[:-2] + b"\x11" * 400_000 + SMALL_JPEG[-2:]))
        text = "from exifnorm_pictures.extract.formats.streams import File\nfrom exifnorm_pictures.files.opening import opened\n"
        text += "file = File(*opened(b'a.jpg'))\nos.truncate('a.jpg', 100_000)\nfile.seek(90_000)\nprint(len(file.read(50_000)), file.size)"
        self.assertEqual(self.by_itself(text), ["10000", str(len(jpeg(app1(A))) + 400_000)])

    def test_each_file_is_closed(self):
        """Pictures, what is broken, what is no picture, and what is no file."""
        put(
            self.folder,
            {
                name: octets
                for name, octets in (("a.jpg", jpeg(app1(A))), ("b.png", png()), ("c.jpg", jpeg(app1(A))[:30]), ("d.txt", b"no picture"))
            },
        )
        os.mkfifo(self.path("pipe"))
        text = (
            "extraction.by_others = lambda *_: extraction.Blocks()\n"
            "def count(): return len(os.listdir('/proc/self/fd'))\n"
            "before = count()\nfor name in os.listdir(b'.'): extraction.blocks_of_file(name)\nprint(count() - before)"
        )
        self.assertEqual(self.by_itself(text), ["0"])
