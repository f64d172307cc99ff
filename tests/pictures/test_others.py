"""What is made of the output of ExifTool and exiv2, without running them."""

import hashlib
import io
import os
import unittest
from unittest import mock

from made_files import app1, app13
from studio import WithPictures, write

from exifnorm_pictures.extract import exiftool, programs, readers
from exifnorm_pictures.extract.formats import tiff
from exifnorm_pictures.files.session import Session
from exifnorm_pictures.model.found import Blocks, NotRead
from exifnorm_pictures.model.problems import TEXTS

ASKED = ("-EXIF:Exif", "-IPTC:IPTC", "-XMP:XMP", "-FileType#", "-MIMEType#", "-Error#")
# Files in the structure of TIFF, by ExifTool's list of file types
RAW = "TIFF DNG NEF NRW CR2 ARW ARQ SR2 SRF SRW ORF PEF RW2 RWL 3FR IIQ ERF MEF MOS DCR KDC K25 GPR FFF RAW".split()


def seen(blocks):
    return [(it.kind, it.name, it.data, it.where, it.extractor) for it in blocks.blocks]


class Answers(unittest.TestCase):
    maxDiff = None

    def test_blocks(self):
        found = exiftool._blocks(
            {"EXIF": "base64:TU0=", "IPTC": "abc", "Copy1:IPTC": "def", "XMP": "<x>", "FileType": "PSD", "MIMEType": "image/vnd"}
        )
        self.assertEqual(
            seen(found),
            [
                ("exif", "Exif", b"MM", "PSD file", "exiftool"),
                ("iptc", "IPTC", b"abc", "PSD file", "exiftool"),
                ("iptc", "second IPTC", b"def", "PSD file", "exiftool"),
                ("xmp", "XMP", b"<x>", "PSD file", "exiftool"),
            ],
        )
        self.assertEqual((found.type, found.extractor, found.problem, found.not_read), ("PSD", "exiftool", None, []))

    def test_without_blocks(self):
        several = TEXTS["SeveralBlocks"]
        for answer, expected in (
            ({"FileType": "GIF", "MIMEType": "image/gif"}, ("GIF", None, "")),
            ({"FileType": "TXT", "MIMEType": "text/plain"}, ("TXT", "NoPicture", "TXT (text/plain)")),
            ({"FileType": "TXT", "MIMEType": "text/image/"}, ("TXT", "NoPicture", "TXT (text/image/)")),
            ({"Error": "File is empty"}, ("", "NoPicture", "File is empty")),
            ({}, ("", "NoPicture", "the file is no picture that ExifTool knows")),
            ({"Error": "Error opening file"}, ("", "Unreadable", "Error opening file")),
            ({"Error": "Unknown Error opening"}, ("", "NoPicture", "Unknown Error opening")),
            ({"FileType": "TXT", "MIMEType": "text/plain", "Error": "odd"}, ("TXT", "NoPicture", "odd")),
            *(({"FileType": it, "MIMEType": "image/x", "EXIF": "MM"}, (it, "SeveralBlocks", several)) for it in ("CR3", "CRX", "CRM")),
        ):
            found = exiftool._blocks(answer)
            self.assertEqual((found.type, found.problem, found.detail, found.blocks, found.extractor), (*expected, [], "exiftool"), answer)
        found = exiftool._blocks({"FileType": "PDF", "MIMEType": "application/pdf", "XMP": "<x>"})
        self.assertEqual((found.problem, len(found.blocks)), (None, 1))

    def test_names_of_raw_pictures(self):
        """Those that only other programs read, in letters of either kind. Other files in the structure of TIFF are read here."""
        for it in RAW[1:]:
            for name in (it, it.lower()):
                is_left = it not in ("DNG", "NEF", "CR2", "ARW", "SRW", "ORF", "PEF", "RW2")
                read = readers.reader_of(b"II*\0" + bytes(12), f"/a.b/c.{name}".encode())
                self.assertEqual((read is None, read is tiff.read), (is_left, not is_left), name)
                self.assertIs(readers.reader_of(b"II*\0" + bytes(12), f"/a.b/c.{name[:-1]}".encode()), tiff.read)
        for name, head, expected in ((b"c.nef", b"GIF8", None), (b"c.rwl", b"IIU\0", tiff.read), (b"c.nef", b"MM\0+", tiff.read_big)):
            self.assertIs(readers.reader_of(head + bytes(12), name), expected, name)


class Files(WithPictures):
    """A file that has no reader here, or that is broken."""

    maxDiff = None

    def read(self, answers, octets=b"abc", whole=False, why="", has_exiv2=True, run=None):
        """The result for a file of which ExifTool prints these objects, and what is asked."""
        self.asked, answers = [], list(answers)
        os.makedirs(self.path("room"), exist_ok=True)

        def ask(_, path, words):
            self.asked.append((path, words))
            return answers.pop(0)

        with mock.patch.object(exiftool, "ask", ask), mock.patch.multiple(
            programs, is_there=lambda it: has_exiv2 and it == "exiv2", needed=lambda it: f"/bin/{it}", run=run or self.fail
        ):
            self.session = Session(room=self.path("room"))
            return exiftool.by_others(self.session, b"a.x", io.BytesIO(octets), whole, why)

    def test_what_is_not_extracted(self):
        answer = {"FileType": "GIF", "MIMEType": "image/gif", "XMP": "<x>"}
        digest = hashlib.sha256(b"abc").hexdigest()
        what = "what ExifTool does not extract from this GIF file"
        for most, whole, why, expected in (
            (3, False, "", (what, digest)),
            (2, False, "", (what, "")),
            (2, True, "", (what, digest)),
            (3, False, "broken: no marker at 2", (f"{what} (broken: no marker at 2)", digest)),
        ):
            with mock.patch.object(exiftool, "WHOLE_FILE", most):
                found = self.read([answer], whole=whole, why=why)
            self.assertEqual(([tuple(it) for it in found.not_read], self.asked), ([expected], [(b"a.x", ASKED)]))
            self.assertEqual(seen(found), [("xmp", "XMP", b"<x>", "GIF file", "exiftool")])
        found = self.read([{"FileType": "TXT", "MIMEType": "text/plain"}])
        self.assertEqual((found.problem, found.not_read), ("NoPicture", []))
        self.assertEqual(exiftool.WHOLE_FILE, 16 << 20)

    def test_raw_pictures(self):
        """exiv2 extracts their Exif block into a file of its own form."""
        calls = []

        def run(words, _, folder):
            calls.append((words, folder, os.readlink(words[-1]), os.listdir(folder)))
            write(os.path.join(folder, "picture.exv"), b"\xff\1Exiv2" + app1(b"MM*") + app13(b"other") + b"\xff\xd9")

        for kind in RAW:
            calls.clear()
            found = self.read([{"FileType": kind, "MIMEType": "image/x"}], run=run)
            folder = os.path.join(self.session.folder(), "exiv2")
            link = os.path.join(folder, f"picture.{kind.lower()}")
            self.assertEqual(
                calls, [(["/bin/exiv2", "-q", "-ee", "-l", folder, link], folder, os.path.abspath("a.x"), [os.path.basename(link)])]
            )
            self.assertEqual(self.asked, [(b"a.x", ASKED)])
            self.assertEqual(seen(found), [("exif", "Exif", b"MM*", f"{kind} file", "exiv2")])
            self.assertEqual((found.extractor, found.problem, len(found.not_read)), ("exiftool", None, 1))
        self.assertEqual(exiftool._TIFF_TYPES, set(RAW))
        found = self.read([{"FileType": "NEF", "MIMEType": "image/x", "EXIF": "II*"}])
        self.assertEqual(seen(found), [("exif", "Exif", b"II*", "NEF file", "exiftool")])

    def test_raw_pictures_without_a_block(self):
        answer = {"FileType": "NEF", "MIMEType": "image/x"}
        failed = ("ToolFailed", "exiv2 extracted no Exif block from this file", [])
        found = self.read([answer], run=lambda *_: None)
        self.assertEqual((found.problem, found.detail, found.blocks), failed)
        for octets in (b"", b"\xff\1Exiv2", b"\xff\1Exiv2" + app13(b"other") + b"\xff\xd9", b"\xff\1Exiv2\xff\xe1\xff\xffExif\0\0MM"):
            found = self.read([answer], run=lambda words, _, folder: write(os.path.join(folder, "picture.exv"), octets))
            self.assertEqual((found.problem, found.detail, found.blocks), failed, octets)
        found = self.read([answer], has_exiv2=False)
        self.assertEqual((found.problem, found.detail, found.blocks), ("NeedsExiv2", TEXTS["NeedsExiv2"], []))

    def test_trailers(self):
        """What ExifTool finds and the file's reader didn't; an Exif block of a trailer is none of the picture."""
        answer = {"EXIF": "MM", "IPTC": "known", "Copy1:IPTC": "new", "XMP": "<x>"}

        def added(ask):
            blocks = Blocks(type="JPEG")
            blocks.add("iptc", b"known", "APP13 segment at 2")
            with mock.patch.object(exiftool, "ask", ask):
                exiftool.add_trailers(Session(), blocks, b"a.jpg")
            return blocks

        calls = []
        blocks = added(lambda _, *words: calls.append(words) or answer)
        self.assertEqual(calls, [(b"a.jpg", ASKED)])
        self.assertEqual(
            seen(blocks),
            [
                ("iptc", "IPTC", b"known", "APP13 segment at 2", "own"),
                ("iptc", "IPTC of trailer", b"new", "trailer", "exiftool"),
                ("xmp", "XMP of trailer", b"<x>", "trailer", "exiftool"),
            ],
        )
        self.assertEqual((blocks.extractor, blocks.not_read), ("exiftool", []))
        blocks = added(lambda *_: {"IPTC": "known"})
        self.assertEqual((blocks.extractor, len(blocks.blocks)), ("own", 1))
        for why in (programs.Missing("exiftool"), programs.Failed("exiftool took longer than 1 seconds")):
            blocks = added(mock.Mock(side_effect=why))
            self.assertEqual(
                (blocks.not_read, len(blocks.blocks)), ([NotRead("blocks of the trailer, for which ExifTool is needed", "")], 1)
            )
