"""Pairs whose relation is known by how they were made: an edit of metadata by ExifTool or exiv2, one of the picture by ImageMagick or Pillow, or
both. `changed --pixels` and `compare` name each of them, and neither calls two such pictures the same."""

import io
import json
import random

from made_files import app1, exif, jpeg
from studio import needs, put, tool

EXIFTOOL = ("exiftool", "-q", "-m", "-overwrite_original")
# What is done to the metadata, and whether they then say something else
METADATA = {
    "nothing": ((), False),
    "added and removed": (((*EXIFTOOL, "-XMP-xmp:Nickname=x"), (*EXIFTOOL, "-XMP-xmp:Nickname=")), False),
    "rating": (((*EXIFTOOL, "-XMP-xmp:Rating=3"),), True),
    "city": ((("exiv2", "-q", "-M", "set Iptc.Application2.City String Bern"),), True),
    "orientation": (((*EXIFTOOL, "-n", "-Orientation=6"),), True),
    "all removed": (((*EXIFTOOL, "-all="),), True),
    "exiv2 removes": ((("exiv2", "-q", "rm"),), True),
}
# What is done to the picture, and what it then is
PICTURE = {
    "nothing": "the same",
    "another": "other",
    "smaller": "other",
    "saved again": "other",
    "cut": "damaged",
    "one pixel": "other",
}


def picture_of(edit):
    """The bytes of a JPEG with one field, whose picture is edited."""
    from PIL import Image

    rng = random.Random(1)
    image = Image.frombytes("RGB", (48, 32), bytes(rng.randrange(256) for _ in range(48 * 32 * 3)))
    if edit == "another":
        image = image.transpose(Image.FLIP_LEFT_RIGHT)
    elif edit == "smaller":
        image = image.resize((24, 16))
    elif edit == "one pixel":
        image.putpixel((3, 3), (255, 0, 255) if image.getpixel((3, 3))[0] < 128 else (0, 255, 0))
    file = io.BytesIO()
    image.save(file, "JPEG", quality=40 if edit == "saved again" else 95)
    return jpeg(app1(exif(b"abc")), base=file.getvalue())


@needs("exiftool", "exiv2", "PIL")
def test_each_pair(folder, called, checks):
    pairs = {f"{number}.jpg": (metadata, edit) for number, (metadata, edit) in enumerate((a, b) for a in METADATA for b in PICTURE)}
    put(folder / "before", {name: picture_of("nothing") for name in pairs})
    put(folder / "after", {name: picture_of(edit) for name, (_, edit) in pairs.items()})
    for name, (metadata, edit) in pairs.items():
        for *words, last in METADATA[metadata][0]:
            tool(folder, *words, last, f"after/{name}")
        if edit == "cut":  # after the edit, since no program writes to a picture that is cut
            whole = (folder / "after" / name).read_bytes()
            (folder / "after" / name).write_bytes(whole[:-20])
    status, printed, _ = called("changed", "before", "after", "--pixels", "--all", "--json", "--no-programs")
    found = {it["path"]: it for it in map(json.loads, printed.splitlines()) if "path" in it}
    assert status == 2 and found.keys() == pairs.keys()  # of a picture that is cut, and not edited otherwise, no difference is known
    for name, (metadata, edit) in pairs.items():
        one, is_edited, expected = found[name], METADATA[metadata][1], PICTURE[edit]
        if (metadata, edit) == ("all removed", "nothing"):
            expected = "the same but for other parts"  # ExifTool removes JFIF, too
        differs = "different" in one["kinds"].values()
        checks.equal(f"{metadata}, {edit}: metadata", differs, is_edited)
        checks.equal(f"{metadata}, {edit}: picture", one["coded_picture"], expected)
        checks.equal(f"{metadata}, {edit}: same", one["result"] == "same", not is_edited and expected == "the same")
        status, printed, _ = called("compare", f"before/{name}", f"after/{name}", "--json", "--no-programs")
        other = json.loads(printed.splitlines()[-1])
        if not other["identical_files"]:
            checks.equal(f"{metadata}, {edit}: compare", (other["result"], other["coded_picture"]), (one["result"], one["coded_picture"]))
        is_open = expected == "damaged" and not is_edited
        checks.equal(f"{metadata}, {edit}: status", status, 2 if is_open else int(is_edited or expected != "the same"))
