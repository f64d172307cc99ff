"""A program as users write it, which mypy checks with --strict: two pictures are read, printed and compared."""

from __future__ import annotations

import gzip
import io
import sys
import tempfile
import zipfile
from datetime import datetime
from fractions import Fraction
from typing import Iterator, Optional, Tuple

import exifnorm
from exifnorm import pictures
from exifnorm import blocks


def described(picture: pictures.Picture) -> str:
    """The camera, the exposure and the year."""
    time, iso, when = picture["ExifIFD:ExposureTime"], picture.get("ISO"), picture["DateTimeOriginal"]
    assert isinstance(time, Fraction) and isinstance(iso, int) and isinstance(when, datetime)
    speed: Optional[int] = picture.get("ISO", type=int)
    camera: str = picture.get("Model", "", type=str)
    assert speed == iso and camera == picture["Model"] and dict(picture) == dict(picture.items()) and len(picture)
    taken: Optional[datetime] = picture.taken
    assert taken == when and picture.position is None
    return f"{picture.find('model')[0].text} {time} {iso} {when.year}"


def main(before: str, after: str) -> None:
    """Prints five lines."""
    picture: exifnorm.Picture = exifnorm.read(before)
    is_same: Optional[bool] = picture.same_as(pictures.read(before))
    assert is_same and blocks.kind(picture.blocks[0].data) == "exif"
    with exifnorm.Reader(programs=False, seconds=30, most=1 << 20) as reader:
        assert reader.read(before, name="a.jpg").same_as(picture)
    print(described(picture))
    keywords: Tuple[str, ...] = picture.texts("keywords")
    print(f"{'; '.join(picture.texts('title'))}: {', '.join(keywords)}")
    comparison = pictures.compare(picture, after)
    same: Optional[bool] = comparison.same
    proved: Optional[str] = comparison.proved
    with_xmp: Optional[str] = comparison.proved_with_xmp
    assert proved == ("same" if same else "different") and with_xmp in (proved, "different")
    print(comparison.result if same else f"{comparison.result}: {', '.join(it.name for it in comparison.differences)}")
    print(*(type(found).__name__ for _, found in pictures.read_all([before, after], jobs=2)))
    print(*models_in_archive(before))


def models_in_archive(path: str) -> Iterator[str]:
    """The camera of a member of an archive; file objects of other kinds are taken, too."""
    archive = io.BytesIO()
    with zipfile.ZipFile(archive, "w") as whole:
        whole.write(path, "bowl.jpg")
    with zipfile.ZipFile(archive) as whole, whole.open("bowl.jpg") as member:
        yield f"bowl.jpg: {pictures.read(member).find('Model')[0].text}"
    with open(path, "rb", buffering=0) as raw, tempfile.SpooledTemporaryFile() as copy:
        data = raw.readall()
        raw.seek(0), copy.write(data), copy.seek(0)
        with gzip.open(io.BytesIO(gzip.compress(data))) as packed:
            keys = {pictures.read(raw).meaning, pictures.read(copy).meaning, pictures.read(packed).meaning}
    assert len(keys) == 1 and None not in keys


if __name__ == "__main__":
    main(*sys.argv[1:])
