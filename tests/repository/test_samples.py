"""The sample pictures: made by samples/make.py, and what ExifTool reads in them."""

import json
import subprocess
from pathlib import Path

import pytest

TOP = Path(__file__).resolve().parents[2]


SAMPLES = TOP / "samples"
PYTHON = "/usr/bin/python3"
LAYOUT = {"ExifByteOrder", "ThumbnailOffset", "CurrentIPTCDigest", "XMPToolkit"}  # how bytes are arranged, and who arranged them


def files(folder):
    return {
        str(it.relative_to(folder)): it.read_bytes() for half in ("before", "after") for it in (folder / half).rglob("*") if it.is_file()
    }


def tags(name):
    """What ExifTool reads in a picture, without what describes the file and its arrangement."""
    words = ["exiftool", "-config", "", "-j", "-a", "-G0", "-b", "-n", SAMPLES / name]
    found = json.loads(subprocess.run(words, stdout=subprocess.PIPE, check=True).stdout)[0]
    kept = ((key.partition(":"), value) for key, value in found.items())
    return {key: value for (group, _, key), value in kept if group in ("EXIF", "IPTC", "XMP") and key not in LAYOUT}


def test_each_run_makes_the_committed_bytes(tmp_path):
    subprocess.run(
        [PYTHON, SAMPLES / "make.py", tmp_path], check=True, env={"PATH": "/usr/bin:/bin", "PYTHONDONTWRITEBYTECODE": "1"}, cwd="/"
    )
    assert files(tmp_path) == files(SAMPLES)


@pytest.mark.parametrize(
    "name, changed",
    [
        ("ceramics/1998-7-vase.jpg", set()),
        ("textiles/2011-2-sash.webp", set()),
        ("ceramics/2003-12-bowl.jpg", {"Copyright", "Caption-Abstract"}),
        ("paintings/1974-31-portrait.tif", {"Title"}),
    ],
)
def test_exiftool_reads_the_edits_and_no_others(name, changed):
    """The edited pictures differ in these tags. The rewritten ones differ in their bytes, and in no tag."""
    before, after = tags(f"before/{name}"), tags(f"after/{name}")
    assert {it for it in {*before, *after} if before.get(it) != after.get(it)} == changed
    assert (SAMPLES / "before" / name).read_bytes() != (SAMPLES / "after" / name).read_bytes()
    assert len(before) > 10


def test_the_others_have_equal_bytes():
    for before, after in (
        ("prints/1931-4-plan.png", "prints/1931-4-plan.png"),
        ("arrivals/IMG_20240502.jpg", "arrivals/IMG_20240502.jpg"),
        ("arrivals/DSC_0042.jpg", "ceramics/2024-3-tile.jpg"),
    ):
        assert (SAMPLES / "before" / before).read_bytes() == (SAMPLES / "after" / after).read_bytes()


def test_exiv2_reads_each_block():
    """A second reader: it finds fields in each block, also in the refused one, and reports no error."""
    for name in files(SAMPLES):
        ran = subprocess.run(
            ["exiv2", "-pa", SAMPLES / name], stdout=subprocess.PIPE, stderr=subprocess.PIPE, encoding="utf-8", errors="replace"
        )
        kinds = {line.partition(".")[0] for line in ran.stdout.splitlines()}
        wanted = {"Exif"} | ({"Iptc", "Xmp"} if "vase" in name or "portrait" in name else {"Iptc"} if "bowl" in name else set())
        assert kinds >= wanted and "Error" not in ran.stderr, (name, ran)
