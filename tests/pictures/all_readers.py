"""What a reader of any format keeps to: what it finds and leaves, its limits, and that each block has bytes of the file."""

import hashlib
import io
from typing import Any, Callable, NamedTuple
from unittest import mock

import pytest

from exifnorm_pictures.model import budgets
from exifnorm_pictures.model.found import Broken, LeftToOthers


class Format(NamedTuple):
    """What the laws of all formats are asked of one: files by their names, each with what it has."""

    read: Callable[..., Any]
    type: Callable[[str], str]  # by the name of a file
    blocks: Any  # the files without a part that isn't read, each with its blocks
    left: Any  # files with such parts, each with these
    kept: Any  # the blocks of these files
    broken: Any  # files that are refused, each with the reason
    pairs: Any  # two files, and the status of their comparison
    whole: bytes  # a file with all that is read
    is_of: Callable[[Any, bytes], bool]  # whether a block is made of a file's bytes
    short: bytes  # a file for each byte of which ExifTool is asked
    count: int  # how many of its bytes are changed
    least: int  # the fewest of these changes that leave two files the same


def stream_of(octets):
    """A stream with a budget of its own."""
    return mock.Mock(wraps=io.BytesIO(octets), budget=budgets.Budget())


def blocks_of(found):
    """The kind, the name and the bytes of each block."""
    return [(it.kind, it.name, it.data) for it in found.blocks]


def check_left(found, parts):
    """These parts were not read, each with the digest of its bytes, or without one if they are None."""
    expected = [(what, "" if data is None else hashlib.sha256(data).hexdigest()) for what, data in parts]
    assert [tuple(it) for it in found.not_read] == expected


def check_broken(read, octets, why):
    """A file is refused for this reason."""
    with pytest.raises(Broken) as caught:
        read(io.BytesIO(octets))
    assert str(caught.value) == why


def check_limit(read, octets, what, spent=None):
    """A file that needs just as much as a limit allows is read, and with one less it is not. `spent` is what the file needs, if that is known."""
    stream = stream_of(octets)
    found = read(stream).blocks
    needed = budgets.LIMITS[what] - stream.budget.left[what]
    assert needed and spent in (needed, None), (what, needed)
    with mock.patch.dict(budgets.LIMITS, {what: needed}):
        assert read(stream_of(octets)).blocks == found
    with mock.patch.dict(budgets.LIMITS, {what: needed - 1}):
        with pytest.raises(budgets.TooMuch, match=f"more than {needed - 1} {what}"):
            read(stream_of(octets))


def blocks_in(read, octets):
    """The blocks that a reader finds in a file with changed bytes; none where it gives a reason."""
    try:
        return [it.data for it in read(io.BytesIO(octets)).blocks]
    except (Broken, LeftToOthers, budgets.TooMuch):
        return []
