"""A packet that many pages of a TIFF share is read once by each command, however many pages there are."""

import json

import pytest
from attacks import sharing
from made_files import iim, title, xmp

from exifnorm_pictures.comparison.changed import states
from exifnorm_pictures.judge import judge

COMMANDS = (
    ["index", "a.tif", "--catalogue", "c", "--quiet", "--jobs", "1"],
    ["show", "a.tif"],
    ["show", "a.tif", "--json"],
    ["show", "a.tif", "--csv"],
    ["show", "--captions", "a.tif"],
    ["check", "a.tif"],
    ["explain", "a.tif"],
    ["compare", "a.tif", "b.tif"],
)


@pytest.mark.parametrize("words", COMMANDS, ids=" ".join)
def test_a_packet_of_many_pages(words, called, folder, monkeypatch):
    counts = {}
    for pages in (20, 40):
        octets = sharing(xmp(title("one")), pages, 0x02BC, 1)
        (folder / "a.tif").write_bytes(octets)
        (folder / "b.tif").write_bytes(octets)
        reads = []
        statements = judge.xmp.statements
        with monkeypatch.context() as patched:
            patched.setattr(judge.xmp, "statements", lambda *of: (reads.append(1), statements(*of))[1])
            assert called(*words)[0] in (0, 1, 2)
        counts[pages] = len(reads)
    assert counts[20] == counts[40] > 0, counts


@pytest.mark.parametrize("most, is_different", ((1000, False), (8, True)))
def test_pages_that_are_not_compared_are_not_called_the_same(most, is_different, called, folder, monkeypatch):
    """All pages differ in what doesn't count. If those after a limit weren't compared by field, nobody knows that of them."""
    monkeypatch.setattr(states, "COMPARED_FIELDS", most)
    for name, mark in (("a.tif", b"a"), ("b.tif", b"b")):
        (folder / name).write_bytes(sharing(iim(mark) + iim(b"pot"), 9, 0x83BB, 1))
    status, printed, _ = called("compare", "a.tif", "b.tif", "--ignore", "keywords", "--json")
    assert (status, json.loads(printed)["result"] == "different") == (int(is_different), is_different), printed


def test_what_is_left_out_of_shared_lists_is_said(called, folder):
    """Each page has as many keywords as are shown of a picture, or nearly."""
    for name, mark in (("a.tif", b"a"), ("b.tif", b"b")):
        (folder / name).write_bytes(sharing(b"".join(iim(b"%s%d" % (mark, it)) for it in range(30_000)), 9, 0x83BB, 1))
    compared = json.loads(called("compare", "a.tif", "b.tif", "--json")[1])
    assert len(compared["fields"]) < 9 and compared["fields"][-1]["note"]
    status, printed, _ = called("show", "--captions", "a.tif", "--json")
    read = json.loads(printed)
    assert (status, len(read["captions"]), read["has_more_captions"]) == (2, 2, True)
    (folder / "c.tif").write_bytes(sharing(iim(b"pot"), 9, 0x83BB, 1))
    status, printed, _ = called("show", "--captions", "c.tif", "--json")
    assert (status, json.loads(printed)["has_more_captions"]) == (0, False)
