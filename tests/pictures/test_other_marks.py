"""The same metadata under a mark that other programs read too, names that look alike, and files that systems write."""

import json
import random

import pytest
from made_blocks import segment
from made_files import app1, app1_xmp, app13, exif, iim, jpeg, resource, title
from studio import put

A, T, K = exif(b"abc"), title("one"), iim(b"one")
XMP_MARKS = (b"XMP\0://ns.adobe.com/xap/1.0/\0", b"http://ns.adobe.com/xap/2.0/\0")
EMPTY = resource(0x0404, b"") + resource(0x0404, K)
# Two pictures of the same metadata under other marks, of which the proved comparison reads only one
MARKS = {
    "Exif by another mark": (jpeg(app1(A)), jpeg(segment(0xE1, b"Exif\0\1" + A)), "not wholly read"),
    "Exif in small letters": (jpeg(app1(A)), jpeg(segment(0xE1, b"exif\0\0" + A)), "not wholly read"),
    "Exif behind four bytes": (jpeg(app1(A)), jpeg(segment(0xE1, b"1234Exif\0\0" + A)), "not wholly read"),
    "Exif of Photoshop": (jpeg(app1(A)), jpeg(app13(resource(0x0422, A))), "not wholly read"),
    "XMP by another mark": (jpeg(app1_xmp(T)), jpeg(segment(0xE1, XMP_MARKS[0] + T)), "same"),
    "XMP of another version": (jpeg(app1_xmp(T)), jpeg(segment(0xE1, XMP_MARKS[1] + T)), "same"),
    "an empty resource before": (jpeg(app13(resource(0x0404, K))), jpeg(app13(EMPTY)), "same"),
}


@pytest.mark.parametrize("name", MARKS)
def test_the_same_metadata_under_another_mark(name, folder, called):
    put(folder, dict(zip(("a.jpg", "b.jpg"), MARKS[name])))
    status, printed, _ = called("compare", "a.jpg", "b.jpg", "--json")
    found = json.loads(printed)
    assert (status, found["result"], found["proved"]) == (0, "same", MARKS[name][2])


def test_a_name_that_looks_as_before(folder, called):
    """As macOS and other systems write it: the two are one name."""
    old, new = "Mu\u0308ller.jpg", "M\u00fcller.jpg"
    put(folder / "a", {old: jpeg(app1(A)), "b.jpg": jpeg(app1_xmp(T))})
    put(folder / "b", {new: jpeg(app1(A)), "b.jpg": jpeg(app1_xmp(T))})
    assert "none changed" in called("changed", "a", "b")[1]
    called("nightly", "a", "--catalogue", "n")
    (folder / "a" / old).rename(folder / "a" / new)
    assert called("nightly", "a", "--catalogue", "n")[:2] == (0, "")
    put(folder / "c", {old: jpeg(app1(exif(b"xyz"))), "b.jpg": jpeg(app1_xmp(T))})
    records = [json.loads(it) for it in called("changed", "a", "c", "--json")[1].splitlines()]
    assert [(it["result"], it["moved_to"]) for it in records if it["record"] == "picture"] == [("different", None)]


PARTS = (
    *(segment(0xE1, mark + A) for mark in (b"Exif\0\0", b"Exif\0\1", b"exif\0\0", b"1234Exif\0\0")),
    *(segment(0xE1, mark + T) for mark in (b"http://ns.adobe.com/xap/1.0/\0", *XMP_MARKS)),
    *(app13(it) for it in (resource(0x0404, K), EMPTY, resource(0x0404, b""), resource(0x0422, A), resource(0x0424, T))),
    *(app1(exif(b"xyz")), app1_xmp(title("two")), segment(0xED, b"Adobe_Photoshop2.5:12345678" + resource(0x0404, K))),
    *(segment(0xED, b"other"), segment(0xE2, b"MPF\0MM\0*" + bytes(4)), app1(b"no header"), segment(0xFE, b"comment"), b"\xff\xff"),
)


@pytest.mark.parametrize("seed", range(4))
def test_the_answers_for_odd_heads_agree(seed, folder, called):
    """What is proved and what is tested never contradict each other, whatever is in two heads."""
    chance = random.Random(seed)
    for _ in range(25):
        first = chance.choices(PARTS, k=chance.randint(1, 4))
        second = chance.choices(first, k=len(first)) if chance.random() < 0.5 else chance.sample(first, len(first))
        second[chance.randrange(len(second))] = chance.choice(PARTS)
        put(folder, {"a.jpg": jpeg(*first), "b.jpg": jpeg(*second)})
        status, printed, messages = called("compare", "a.jpg", "b.jpg", "--json", "--no-programs")
        assert status != 4, (first, second, messages)
        found = json.loads(printed)
        results = {it: found["kinds"][it] for it in ("exif", "iptc")}
        are_same = set(results.values()) <= {"same", "absent"}
        if found["proved"] in ("same", "different"):
            assert (found["proved"] == "same") == are_same, (first, second, found)


def test_files_of_systems_are_no_pictures(folder, called):
    files = {"a.jpg": jpeg(app1(A)), ".DS_Store": b"abc", "Thumbs.db": b"abc", "._a.jpg": b"abc"}
    put(folder / "p", files)
    put(folder / "q", {"a.jpg": files["a.jpg"], "._b.jpg": files["a.jpg"]})
    printed = called("changed", "p", "q")[1]
    assert "1 same\n" in printed and "._b.jpg" in printed and not any(it in printed for it in (".DS_Store", "Thumbs.db", "._a.jpg"))
