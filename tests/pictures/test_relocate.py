"""`relocate`: a catalogue of pictures that are elsewhere now, without reading them again."""

import json
import os
import shutil

import pytest
from made_files import app1, exif, jpeg, title
from studio import put
from exifnorm_pictures.scan import relocating

FILES = {f"{name}.jpg": jpeg(app1(exif(name.encode() * 3))) for name in ("a", "b", "c")}
AGES = 1_500_000_000


def aged(folder):
    """Gives all files times of long ago, so that no edit can be hidden in the tick of a clock."""
    for top, _, names in os.walk(folder):
        for name in names:
            os.utime(os.path.join(top, name), (AGES, AGES))


@pytest.fixture
def archive(folder, called):
    put(folder / "p", {**FILES, "monday/d.jpg": jpeg(app1(exif(b"ddd")))})
    aged(folder / "p")
    called("index", "p", "--catalogue", "c", "--quiet")
    return folder / "p"


@pytest.fixture
def summary(called):
    def of(*words):
        status, printed, _ = called("catalogue", "relocate", *words, "--json")
        found = json.loads(printed)
        return status, (found["as_before"], found["changed"], found["absent"])

    return of


def test_a_copy_is_not_read_again(archive, folder, called, summary, monkeypatch):
    """Its inodes are others. Once the copy is older than a tick of the clock, nothing of it is read."""
    monkeypatch.setattr(relocating, "COARSE", 0)
    shutil.copytree(archive, folder / "q")
    assert summary("c", "p", "q") == (0, (4, 0, 0))
    status, printed, _ = called("index", "q", "--catalogue", "c")
    assert status == 0 and "4 unchanged" in printed and "accepted" not in printed
    listed = called("list", "c")[1]
    assert "\nq/monday/d.jpg\n" in listed and "p/" not in listed


def test_a_fresh_copy_is_looked_at(archive, folder, called, summary):
    """A file that was copied just now can be changed again without other times."""
    shutil.copytree(archive, folder / "q")
    assert summary("c", "p", "q") == (0, (4, 0, 0))
    (folder / "q/a.jpg").write_bytes(FILES["a.jpg"].replace(b"aaa", b"xyz"))
    os.utime(folder / "q/a.jpg", (AGES, AGES))
    assert "4 accepted" in called("index", "q", "--catalogue", "c")[1]


def test_changed_and_absent_files(archive, folder, called, summary):
    shutil.copytree(archive, folder / "q")
    (folder / "q/a.jpg").write_bytes(FILES["a.jpg"] + b"x")
    os.remove(folder / "q/b.jpg")
    assert summary("c", "p", "q") == (1, (2, 1, 1))
    printed = called("index", "q", "--catalogue", "c")[1]
    assert "q/b.jpg: " in printed


def test_a_picture_that_was_gone_before_is_not_missed(archive, folder, called, summary):
    (archive / "a.jpg").unlink()
    called("index", "p", "--catalogue", "c", "--quiet")
    shutil.copytree(archive, folder / "q")
    assert summary("c", "p", "q") == (0, (3, 0, 0))


def test_a_folder_below_the_archive(archive, folder, called, summary):
    (archive / "monday").rename(archive / "tuesday")
    assert summary("c", "p/monday", "p/tuesday") == (0, (1, 0, 0))
    assert "3 unchanged" in called("index", "p", "--catalogue", "c")[1] and "p/tuesday/d.jpg" in called("list", "c")[1]


@pytest.mark.parametrize(
    "name, octets, counts, read",
    [
        ("nothing", None, (4, 0, 0), 0),
        ("a.jpg.xmp", title("other"), (3, 1, 0), 1),  # edited
        ("b.xmp", None, (3, 1, 0), 1),  # removed
        ("c.jpg.xmp", title("new"), (4, 0, 0), 1),  # which the catalogue doesn't know
    ],
)
def test_sidecars(name, octets, counts, read, archive, folder, called, summary, monkeypatch):
    """A picture whose sidecars are the same isn't read again; one with another sidecar is."""
    monkeypatch.setattr(relocating, "COARSE", 0)
    put(archive, {"a.jpg.xmp": title("a"), "b.xmp": title("b"), "monday/d.jpg.xmp": title("d")})
    aged(archive)
    called("index", "p", "--catalogue", "s", "--sidecars", "--quiet")
    shutil.copytree(archive, folder / "q")
    if octets:
        put(folder / "q", {name: octets})
    elif (folder / "q" / name).exists():
        os.remove(folder / "q" / name)
    assert summary("s", "p", "q") == (int(counts[1] > 0), counts)
    status, lines, _ = called("index", "q", "--catalogue", "s", "--json")
    found = json.loads(lines.splitlines()[-1])["counts"]
    assert (found["unchanged"], sum(found.values())) == (4 - read, 4)


def test_pictures_that_were_indexed_there_before_are_one(archive, folder, called, summary):
    """Who has indexed the new place already has each picture twice: `relocate` leaves one."""
    shutil.copytree(archive, folder / "q")
    called("index", "q", "--catalogue", "c", "--quiet")
    assert json.loads(called("list", "c", "--json")[1].splitlines()[-1])["pictures"] == 8
    assert summary("c", "p", "q")[0] == 0
    assert json.loads(called("list", "c", "--json")[1].splitlines()[-1])["pictures"] == 4
