"""XMP files: by themselves, and with --sidecars as blocks of the pictures beside which they are.

Which file belongs to which picture is what the manuals of darktable (NAME.EXT.xmp, NAME_01.EXT.xmp for a duplicate) and of Adobe Bridge
(NAME.xmp of raw pictures) say.
"""

import itertools
import json
import os

import pytest
from made_files import A, app1, app1_xmp, jpeg, title, xmp
from studio import SMALL_JPEG, put, sql_rows, write

from exifnorm_pictures.extract import sidecars
from exifnorm_pictures.model.budgets import LIMITS, PACKET_BYTES, XMP_BYTES
from exifnorm_pictures.model.found import Blocks

ONE, OTHER = title("one"), title("two")
PICTURE = jpeg(app1(A))

FOLDERS = [
    ("a.jpg a.jpg.xmp", {"a.jpg": ["a.jpg.xmp"]}),
    ("a.jpg a.xmp", {"a.jpg": ["a.xmp"]}),
    ("A.JPG a.jpg.XMP", {"A.JPG": ["a.jpg.XMP"]}),
    ("a.jpg a.png a.xmp", {"a.jpg": ["a.xmp"], "a.png": ["a.xmp"]}),
    ("a.jpg a.nef a.xmp", {"a.nef": ["a.xmp"]}),
    ("a.jpg a.CR3 a.dng a.xmp", {"a.CR3": ["a.xmp"], "a.dng": ["a.xmp"]}),
    ("a.jpg a.nef a.jpg.xmp a.nef.xmp", {"a.jpg": ["a.jpg.xmp"], "a.nef": ["a.nef.xmp"]}),
    ("a.jpg a.png a.jpg.xmp", {"a.jpg": ["a.jpg.xmp"]}),
    ("a.jpg a.jpg.xmp a.xmp", {"a.jpg": ["a.jpg.xmp", "a.xmp"]}),
    ("a.jpg a_01.jpg.xmp a_02.jpg.xmp", {"a.jpg": ["a_01.jpg.xmp", "a_02.jpg.xmp"]}),
    ("a.jpg a_01.jpg a_01.jpg.xmp", {"a_01.jpg": ["a_01.jpg.xmp"]}),
    ("a.jpg a_01.xmp", {}),
    ("a.b.jpg a.xmp a.b.xmp", {"a.b.jpg": ["a.b.xmp"]}),
    ("a.txt a.xmp", {}),
    ("a.txt a.txt.xmp", {}),
    ("a.mp4 a.xmp", {}),
    ("b.jpg a.xmp a.jpg.xmp", {}),
    ("a a.xmp", {}),
    ("a.xmp a.xmp.xmp", {}),
    (".xmp .jpg", {".jpg": [".xmp"]}),
]


@pytest.mark.parametrize("names, expected", FOLDERS, ids=[it for it, _ in FOLDERS])
def test_which_picture_has_which_sidecars(names, expected):
    folder = sidecars.Folder(os.fsencode(it) for it in names.split())
    found = {it: [os.fsdecode(one.file) for one in folder.of(os.fsencode(it))] for it in names.split()}
    assert {name: files for name, files in found.items() if files} == expected
    assert {os.fsdecode(it) for it in folder.files} == {one for files in expected.values() for one in files}


@pytest.mark.parametrize("is_racy", [True, False])
def test_a_sidecar_that_may_be_edited_again(folder, is_racy):
    """By its times, where an edit could leave them: it gets a mark that differs, so the next run reads it again, and it is still recognised."""
    put(folder, {"a.jpg": PICTURE, "a.jpg.xmp": ONE})
    path, now, asked = os.fsencode(folder / "a.jpg"), os.stat(folder / "a.jpg.xmp"), []
    own = sidecars.Folder([b"a.jpg", b"a.jpg.xmp"]).of(b"a.jpg")
    found = sidecars.marks(path, own, lambda *times: asked.append(times) or is_racy)
    assert asked == [(now.st_mtime_ns, now.st_ctime_ns)]
    assert (found != sidecars.marks(path, own)) is is_racy
    assert sidecars.Folders().is_marked_as(path, found)


@pytest.mark.parametrize("octets", [b"", b"<svg/>", b"no XML", b"<?" * 1000, b"<!--" * 500, ONE.decode().encode("utf-16")])
def test_a_file_that_does_not_begin_like_a_packet(octets, folder, called_lines):
    """It is left to ExifTool, and never the same as another with other bytes."""
    put(folder / "b", {"a.xmp": octets})
    put(folder / "a", {"a.xmp": octets + b" "})
    assert called_lines("changed", "b", "a", "--no-programs")[0] != 0


@pytest.fixture
def results(changes):
    """Runs `changed`: its status, and the result of each picture that isn't the same."""

    def call(*words):
        status, found = changes(*words)
        return status, {path: it["result"] for path, it in found.items()}

    return call


EQUAL = {"x.jpg": PICTURE, "y.jpg": PICTURE, "x.jpg.xmp": ONE, "y.xmp": ONE}
LOST = 1, {"y.jpg": "different"}
# What two folders have in place of these files, None for one that isn't there, and the answer
OTHERWISE = {
    "the same": ({}, {}, (0, {})),
    "other bytes of the same meaning": (
        {},
        {"x.jpg.xmp": ONE.replace(b"?xpacket begin", b"?xpacket  begin") + b" " * 20},
        (0, {}),
    ),
    "a lost sidecar": ({}, {"y.xmp": None}, LOST),
    "a new sidecar": ({"y.xmp": None}, {}, LOST),
    "a sidecar is no embedded packet": ({"y.jpg": jpeg(app1(A), app1_xmp(ONE)), "y.xmp": None}, {}, LOST),
    "what is no XMP": ({"y.xmp": b"<x:xmpmetab"}, {"y.xmp": b"<x:xmpmetaa"}, (2, {"y.jpg": "unreadable"})),
    # of a file that is no picture its bytes can be compared, and those of its sidecar
    "no picture": ({"y.jpg": b"<html>"}, {"y.jpg": b"<html>"}, (0, {})),
    "no picture, and another sidecar": (
        {"y.jpg": b"<html>"},
        {"y.jpg": b"<html>", "y.xmp": OTHER},
        (1, {"y.jpg": "no picture, different bytes"}),
    ),
}


def put_equal(folder, before={}, after={}):
    """Two folders whose pictures are equal, but for what each has otherwise."""
    for side, others in (("b", before), ("a", after)):
        put(folder / side, {name: it for name, it in {**EQUAL, **others}.items() if it is not None})


@pytest.mark.parametrize("name", OTHERWISE)
def test_two_folders(name, folder, results):
    *sides, expected = OTHERWISE[name]
    put_equal(folder, *sides)
    assert results("b", "a", "--sidecars") == expected


class TestCatalogue:
    """A catalogue goes on as it was begun."""

    @pytest.fixture(autouse=True)
    def catalogue(self, folder, called_lines):
        put(folder / "p", {"x.jpg": PICTURE, "y.jpg": PICTURE, "x.jpg.xmp": ONE, "y.xmp": ONE, "z.xmp": ONE})
        self.folder = folder
        assert called_lines("index", "p", "--catalogue", "c", "--sidecars", "--quiet")[:2] == (0, ["3 accepted"])

    def groups(self, called_lines):
        lines = called_lines("same", "c", "--json")[1]
        return [
            [os.path.basename(it["path"]) for it in group["pictures"]]
            for group in map(json.loads, lines)
            if "pictures" in group and "number" in group
        ]

    def edit(self, name, octets):
        """Edits a file so that it keeps its size and its time of modification."""
        now = os.stat(self.folder / "p" / name)
        write(self.folder / "p" / name, octets)
        os.utime(self.folder / "p" / name, ns=(now.st_atime_ns, now.st_mtime_ns))

    def test_a_picture_that_is_named_has_its_sidecar(self, called_lines):
        assert called_lines("index", "p/x.jpg", "--catalogue", "d", "--sidecars", "--quiet")[0] == 0
        assert sql_rows(self.folder / "d", "SELECT name FROM blocks") == [("Exif",), ("XMP sidecar",)]

    def test_a_file_by_itself_that_becomes_a_sidecar(self, called_lines):
        write(self.folder / "p" / "z.jpg", PICTURE)
        assert called_lines("index", "p", "--catalogue", "c", "--quiet")[1] == ["2 unchanged, 1 accepted"]
        assert self.groups(called_lines) == [["x.jpg", "y.jpg", "z.jpg"]]
        os.remove(self.folder / "p" / "z.jpg")
        assert called_lines("index", "p", "--catalogue", "c", "--quiet")[1][-1] == "2 unchanged, 1 accepted, 1 gone since an earlier run"

    def test_catalogues_that_are_not_alike(self, called_lines):
        """With sidecars and without: no answer, rather than one that is wrong."""
        assert called_lines("index", "p", "--catalogue", "plain", "--quiet")[1] == ["5 accepted"]
        for words, status in (
            (("index", "p", "--catalogue", "plain", "--sidecars"), 3),
            (("changed", "plain", "c"), 4),
            (("changed", "c", "plain"), 4),
            (("report", "c", "--since", "plain", "--html", "page"), 4),
            (("catalogue", "merge", "plain", "--catalogue", "c"), 4),
            (("catalogue", "merge", "c", "--catalogue", "plain"), 4),
            (("catalogue", "merge", "plain", "c", "--catalogue", "both"), 4),
            (("catalogue", "merge", "c", "plain", "--catalogue", "both"), 4),
        ):
            found = called_lines(*words)
            assert found[0] == status and "sidecars" in found[2] and "Traceback" not in found[2], (words, found)
        assert not (self.folder / "both").exists()
        assert called_lines("catalogue", "merge", "c", "--catalogue", "both")[0] == 0
        assert called_lines("changed", "both", "c")[0] == 0
        assert called_lines("changed", "p", "c")[0] == 0, "a folder is read as the catalogue was"
        assert called_lines("catalogue", "forget", "plain", "p")[0] == 0
        assert (
            called_lines("catalogue", "merge", "c", "--catalogue", "plain")[0] == 0
        ), "a catalogue without pictures takes those of either kind"


def test_the_bytes_of_all_sidecars_are_limited(tmp_path):
    """64 MB of XMP for a picture, and 16 MB for a packet, however many files folder are."""
    put(
        tmp_path,
        {
            "big.xmp": b"<" * PACKET_BYTES,
            "too-big.xmp": b"<" * (PACKET_BYTES + 1),
        },
    )
    blocks = Blocks()
    many = [sidecars.Sidecar(f"XMP sidecar of version {it}", b"big.xmp") for it in range(10)]
    sidecars.add(blocks, bytes(tmp_path / "a.jpg"), [sidecars.Sidecar("XMP sidecar", b"too-big.xmp"), *many])
    most = LIMITS[XMP_BYTES] // PACKET_BYTES
    assert (len(blocks.blocks), len(blocks.not_read)) == (most, 11 - most)
    assert not any(it.digest for it in blocks.not_read)


def test_a_picture_with_more_sidecars_than_are_read_is_never_the_same(called, folder):
    put(folder, {name: SMALL_JPEG for name in ("abcdefg.jpg", "other.jpg")})
    names = itertools.islice(itertools.product(*({one, one.upper()} for one in sorted("abcdefg"))), sidecars.MOST + 1)
    for it in names:
        (folder / f"{''.join(it)}.xmp").write_bytes(ONE)
    status, printed, _ = called("index", ".", "--sidecars", "--catalogue", "c", "--quiet")
    assert status == 0
    assert sql_rows(folder / "c", "SELECT what FROM not_read") == [("1 further XMP sidecar",)]
    assert sql_rows(folder / "c", "SELECT not_read FROM pictures WHERE CAST(path AS TEXT) LIKE '%abcdefg.jpg'")[0] == (None,)


def test_a_picture_whose_title_is_beside_it_is_listed_with_a_note(called, folder):
    """Without --sidecars the title of the XMP file is none of the picture's. Nothing is said where there are no such files, or they count."""
    titled = xmp("<dc:title><rdf:Alt><rdf:li xml:lang='x-default'>Bowl</rdf:li></rdf:Alt></dc:title>")
    put(folder, {"p/a.jpg": PICTURE, "p/a.xmp": titled, "q/a.jpg": PICTURE, "rules": b"every picture needs title\n"})
    asked = (("list", "{}", "--without", "title"), ("check", "--rules", "rules", "{}"))
    others = (("check", "{}"), ("index", "{}", "--catalogue", "{}.c"))
    for name, *line in (*asked, *others):
        for place, more, is_noted in (("p", [], True), ("p", ["--sidecars"], False), ("q", [], False)):
            for old in folder.glob("*.c"):
                old.unlink()
            _, printed, messages = called(name, *(it.format(place) for it in line), *more)
            assert ("1 XMP file counts as a file of its own" in printed + messages) == is_noted, (name, place, more)
            assert (name, *line) in others or ("a.jpg" in printed) == (not more), printed
