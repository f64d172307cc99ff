"""What `mend` copies: what it costs for files with holes, that the copy is what was judged, and that it stays in its folder."""

import io
import json
import os

import pytest
from made_blocks import BLOCKS, segment, with_exif
from made_files import app1, app13, exif, jpeg
from studio import SMALL_JPEG, needs, put
from test_parts import JUMBF, PATH, parts_of
from test_repairs import REFUSED

from exifnorm_pictures.extract.extraction import blocks_of_file
from exifnorm_pictures.extract.formats import streams
from exifnorm_pictures.files import opening
from exifnorm_pictures.judge.judge import judge_all
from exifnorm_pictures.model import budgets
from exifnorm_pictures.refusals import mend

GOOD, BAD = SMALL_JPEG, with_exif(SMALL_JPEG, REFUSED["unsorted"])
HOLE = 64 << 20


@pytest.fixture
def without_programs(folder, monkeypatch):
    monkeypatch.setenv("PATH", str(folder))


def disk(path):
    """Bytes that a file has on the disk."""
    return os.stat(path).st_blocks * 512


@pytest.fixture
def holes(folder):
    """A file system that keeps holes."""
    with open(folder / "holes", "wb") as file:
        file.truncate(HOLE)
    if disk(folder / "holes") > 1 << 20:
        pytest.skip("the file system has no holes")


@pytest.mark.parametrize("octets, length", [(GOOD, 1 << 40), (BAD, HOLE)], ids=["plain", "repaired"])
def test_holes_stay_holes(called, folder, holes, without_programs, octets, length):
    (folder / "a.jpg").write_bytes(octets)
    os.truncate(folder / "a.jpg", length)
    with open(folder / "a.jpg", "r+b") as file:
        file.seek(length - 3)
        file.write(b"end")
    assert called("mend", "a.jpg", "b.jpg")[0] in (0, 2)  # what is behind the picture isn't always read
    assert os.path.getsize(folder / "b.jpg") == length and disk(folder / "b.jpg") < 1 << 20
    with open(folder / "b.jpg", "rb") as copy:
        copy.seek(length - 3)
        assert copy.read() == b"end"


@pytest.mark.parametrize("ranges", [[], [(0, 10)], [(5000, 9000)], [(0, 4096), (1 << 20, (3 << 20) + 5)]])
@pytest.mark.parametrize("known", [True, False])
def test_a_copy_has_the_bytes(folder, ranges, known, monkeypatch):
    """Wherever the file has holes, and also where the file system doesn't say where."""
    with open(folder / "a", "wb") as file:
        file.truncate(4 << 20)
        for first, last in ranges:
            file.seek(first)
            file.write(os.urandom(last - first))
    if not known:
        monkeypatch.setattr(os, "lseek", lambda *_: (_ for _ in ()).throw(OSError(22, "EINVAL")))
    with open(folder / "a", "rb") as source, open(folder / "b", "wb") as target:
        opening.copy(source.fileno(), target.fileno())
    assert (folder / "b").read_bytes() == (folder / "a").read_bytes()


def test_a_file_that_becomes_shorter(folder):
    """It isn't filled with zeros."""
    (folder / "a").write_bytes(bytes(100))
    for known in (200, 5000):
        with open(folder / "a", "rb") as source, open(folder / "b", "wb") as target, pytest.raises(OSError, match="shorter"):
            opening.copy_range(source.fileno(), 0, known, target.fileno(), 0)


def test_too_long_to_be_mended(called, folder, holes):
    """No remedy is tried, and nothing is written. A plain copy has no limit."""
    (folder / "a.jpg").write_bytes(BAD)
    os.truncate(folder / "a.jpg", budgets.MENDED_BYTES + 1)
    status, printed, _ = called("mend", "a.jpg", "b.jpg", "--json")
    assert status == 2 and '"problem": "TooMuch"' in printed and not (folder / "b.jpg").exists()


@pytest.mark.parametrize("second", [BAD, b"no picture", GOOD[: len(GOOD) // 2]], ids=["refused", "no picture", "cut"])
def test_a_picture_that_is_exchanged_meanwhile(called, folder, without_programs, monkeypatch, second):
    """What it was exchanged for was judged by nobody, so that there is no copy."""
    attempt = mend.attempt

    def exchanged(*arguments):
        found = attempt(*arguments)
        (folder / "a.jpg").write_bytes(second)
        return found

    (folder / "a.jpg").write_bytes(GOOD)
    monkeypatch.setattr(mend, "attempt", exchanged)
    status, printed, _ = called("mend", "a.jpg", "b.jpg", "--json")
    assert status in (2, 4) and '"problem"' in printed and not (folder / "b.jpg").exists()


@pytest.mark.parametrize("target, status", [("../outside", 4), ("{}/outside", 4), ("other", 0), (".", 0)])
def test_links_in_the_folder_of_copies(called, folder, without_programs, target, status):
    """Nothing is written, and no folder is made, where a link leads out of it. A link inside it is followed."""
    for name in ("p/deep", "outside", "out/other"):
        os.makedirs(folder / name)
    (folder / "p" / "deep" / "a.jpg").write_bytes(BAD)
    os.symlink(target.format(folder), folder / "out" / "p")
    (folder / "list").write_text("p/deep/a.jpg\n")
    ended, _, _ = called("mend", "--files-from", "list", "out")
    assert ended == status
    assert not os.listdir(folder / "outside")
    assert os.path.exists(folder / "out" / "p" / "deep" / "a.jpg") == (status == 0)


@pytest.mark.parametrize("out, status", [("new", 0), ("new/", 0), ("new/below", 3), ("file", 3), ("nothing", 3), ("file/below", 3)])
def test_a_new_folder_of_copies(called, folder, without_programs, out, status):
    """It is made, as the folder of a report is, but not in a folder that isn't there, as of a disk that isn't mounted."""
    put(folder, {"p/a.jpg": BAD, "file": b""})
    os.symlink("nowhere", folder / "nothing")
    called("index", "p", "--catalogue", "c", "--quiet")
    if status:
        with pytest.raises(SystemExit) as refused:
            called("mend", "c", out)
        assert refused.value.code == status
    else:
        assert called("mend", "c", out)[0] == 0 and os.listdir(folder / out) == ["a.jpg"]
    assert (folder / "new").exists() == (status == 0) and (folder / "file").read_bytes() == b"" and not (folder / "nowhere").exists()


# ---- `mend` of many pictures, by a list or by a catalogue: the copies, and the counts at the end.

PICTURES = {
    "one/unsorted.jpg": jpeg(app1(REFUSED["unsorted"])),
    "one/shared.jpg": jpeg(app1(REFUSED["shared"])),
    "two/lossy.jpg": jpeg(app1(BLOCKS["Doubled"])),
    "two/accepted.jpg": jpeg(app1(exif(b"abc"))),
    "none.jpg": b"\xff\xd8" + app1(b"II*\0\xff\xff\0\0") + b"no marker" * 9,  # which no program writes to
}


@pytest.fixture
def archive(folder):
    for name, octets in PICTURES.items():
        os.makedirs(folder / "p" / os.path.dirname(name), exist_ok=True)
        put(folder / "p" / os.path.dirname(name), {os.path.basename(name): octets})
    os.mkdir(folder / "out")
    return folder


def copies(folder):
    """The names of the copies, each of which has accepted blocks alone."""
    found = sorted(os.path.relpath(os.path.join(at, name), folder) for at, _, names in os.walk(folder) for name in names)
    for name in found:
        blocks = blocks_of_file(os.fsencode(folder / name))
        assert all(it.is_accepted for it in judge_all(blocks)), name
    return found


@needs("exiftool")
def test_those_of_a_catalogue(archive, called_lines):
    """Its refused pictures, under their names below the folder that was indexed. Originals stay as they are."""
    called_lines("index", "p", "--catalogue", "c", "--quiet")
    status, lines, _ = called_lines("mend", "c", "out")
    assert (
        status == 2
        and lines[-1]
        == "4 pictures: 2 mended without loss, 1 with values lost or changed, 1 not mended; 1 cut off or damaged, which no copy mends"
    ), lines
    assert copies(archive / "out") == ["one/shared.jpg", "one/unsorted.jpg", "two/lossy.jpg"]
    assert all((archive / "p" / name).read_bytes() == octets for name, octets in PICTURES.items())


def test_one_folder_is_given(archive, called):
    called("index", "p", "--catalogue", "c", "--quiet")
    for words in ((), ("out", "out")):
        with pytest.raises(SystemExit) as ended:
            called("mend", "c", *words)
        assert ended.value.code == 3
    assert called("mend", "absent", "out")[0] == 4


@needs("exiftool")
def test_explain_recommends_what_helps(archive, called_lines):
    """`mend` for each picture of which it makes a copy, and for no other one."""
    for name in PICTURES:
        status, lines, _ = called_lines("explain", f"p/{name}")
        made = called_lines("mend", f"p/{name}", "out/copy.jpg", "--json")[1]
        helps = json.loads(made[0])["step"] not in ("none", "copy")
        text = "\n".join(lines)
        assert ("Tried: mend makes a copy" in text) == helps, (name, text)
        assert ("Remedy: none is known" in text) == (name == "none.jpg"), (name, text)
        if os.path.exists(archive / "out" / "copy.jpg"):
            os.remove(archive / "out" / "copy.jpg")


# ---- `mend` keeps each part of a file that is no metadata, byte for byte, or says that it is lost.

LOST_PARTS = b"MM\0*\0\0\0\x08\0\x20" + bytes.fromhex("010f 0002 00000004 41626300 0112 0003 00000001 00060000 0128 0003 00000001 00020000")
BEHIND = {
    "a video": jpeg(app1(LOST_PARTS), behind=b"\0\0\0\x18ftypmp42" + bytes(12) + b"video"),
    "a second picture": jpeg(app1(LOST_PARTS), behind=SMALL_JPEG),
    "unknown segments": jpeg(app1(LOST_PARTS), segment(0xE4, b"OURS\0abc"), segment(0xE5, b"Museum")),
    "content credentials": jpeg(app1(LOST_PARTS), segment(0xEB, JUMBF)),
    "a path": jpeg(app1(LOST_PARTS), app13(PATH)),
}


@needs("exiftool")
@pytest.mark.parametrize("name", BEHIND)
def test_mend_keeps_each_other_part(name, folder, called):
    """Or there is no copy. A repair that makes fields readable again is better than another remedy that leaves them out."""
    put(folder, {"a.jpg": BEHIND[name]})
    status, printed, _ = called("mend", "a.jpg", "b.jpg", "--lossless", "--json")
    rests = [streams.digests(io.BytesIO(it), parts_of(it)) for it in (BEHIND[name], (folder / "b.jpg").read_bytes())]
    assert (status, json.loads(printed)["step"]) == (0, "repair") and rests[0] == rests[1]
    assert called("show", "b.jpg")[1].count("Make") == 1
