"""The part of a JPEG picture after its first scan, which is read in pieces."""

import io

import pytest
from made_blocks import segment

from exifnorm_pictures.extract.formats import jpeg


@pytest.mark.parametrize("size", range(2, 9))
@pytest.mark.parametrize("before", range(8))
def test_what_is_found_does_not_depend_on_where_a_piece_ends(monkeypatch: pytest.MonkeyPatch, size: int, before: int) -> None:
    monkeypatch.setattr(jpeg, "CHUNK", size)
    skipped, part = segment(0xC4, b"\xff\xd9" * 4), segment(0xE1, b"\xff\xd9")
    octets = bytes(before) + skipped + part + b"\xff\xd9"
    found = jpeg.tail(io.BytesIO(octets), 0, len(octets), whole=True)
    assert found == ([(before + len(skipped), len(part))], len(octets), True, True)
