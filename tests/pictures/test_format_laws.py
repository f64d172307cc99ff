"""What every picture format keeps to, by the files of its own module: the blocks that are found, the parts that are left and named, the reasons of
broken files, pairs that are the same or never are, and files with changed bytes."""

import io

import pytest
import test_cr3
import test_gif
import test_heif
import test_jp2
import test_jxl
import test_psd
from all_readers import blocks_in, blocks_of, check_broken, check_left
from beside import changed, hidden_by_one_byte
from hypothesis import given
from pairs import DIFFERENT
from studio import needs

FORMATS = {it.__name__[5:]: it.FORMAT for it in (test_cr3, test_gif, test_heif, test_jp2, test_jxl, test_psd)}


def of_each(which):
    """The files of all formats as parameters of a test: the format, a name, and what it has."""
    rows = [(kind, name, row) for kind, it in FORMATS.items() for name, row in getattr(it, which).items()]
    return pytest.mark.parametrize("kind, name, row", rows, ids=[f"{kind}-{name}" for kind, name, _ in rows])


@of_each("blocks")
def test_blocks(kind, name, row):
    octets, blocks = row
    found = FORMATS[kind].read(io.BytesIO(octets))
    assert sorted(blocks_of(found)) == sorted(blocks)
    assert (found.not_read, found.type, found.has_more) == ([], FORMATS[kind].type(name), False)


@of_each("left")
def test_what_is_left(kind, name, row):
    octets, parts = row
    found = FORMATS[kind].read(io.BytesIO(octets))
    check_left(found, parts)
    assert sorted(blocks_of(found)) == sorted(FORMATS[kind].kept), name
    assert found.has_more == ("FotoStation" in str(parts)), "ExifTool may find blocks in a trailer that it knows"


@of_each("broken")
def test_broken(kind, name, row):
    check_broken(FORMATS[kind].read, *row)


@of_each("pairs")
def test_pair(kind, name, row, compared):
    before, after, status = row
    assert compared(before, after)[0] == status, name


@of_each("pairs")
def test_a_file_is_never_different_from_itself(kind, name, row, compared):
    assert compared(row[1], row[1])[0] != DIFFERENT, name


@pytest.mark.parametrize("kind", FORMATS)
def test_changed_files(kind):
    """Blocks of bytes of the file, or a reason."""
    it = FORMATS[kind]

    @given(changed(it.whole))
    def look(octets):
        for block in blocks_in(it.read, octets):
            assert it.is_of(block, octets), block

    look()


@needs("exiftool")
@pytest.mark.parametrize("kind", FORMATS)
def test_one_changed_byte(kind, tmp_path):
    it = FORMATS[kind]
    hidden, number = hidden_by_one_byte(it.short, tmp_path, it.count)
    assert not hidden and number > it.least
