"""The file, the picture and its metadata are three answers: what `changed`, `compare` and `report` say where the coded picture is another one."""

import json

import pytest
from made_files import A, B, app1, jpeg, png, segment
from made_more_files import gif
from studio import SMALL_JPEG, put

OTHER = SMALL_JPEG.replace(b"\xff\xdb\0\x43\0", b"\xff\xdb\0\x43\1", 1)  # another table of quantization
MASTER, EDITED, REPLACED, BOTH = jpeg(app1(A)), jpeg(app1(B)), jpeg(app1(A), base=OTHER), jpeg(app1(B), base=OTHER)
CUT = MASTER[:-20]

# before, after; the result without and with --pixels, the coded picture, and the statuses
CASES = {
    "the same": (MASTER, MASTER, "same", "same", "the same", 0, 0),
    "captioned": (MASTER, EDITED, "different", "different", "the same", 1, 1),
    "replaced": (MASTER, REPLACED, "same", "other picture, the same metadata", "other", 0, 1),
    "replaced and captioned": (MASTER, BOTH, "different", "different", "other", 1, 1),
    "cut": (MASTER, CUT, "damaged", "damaged", "damaged", 2, 2),
    "mended": (CUT, MASTER, "damaged before", "damaged before", "damaged before", 2, 2),
    "cut and captioned": (MASTER, EDITED[:-20], "damaged and different", "damaged and different", "damaged", 1, 1),
    "cut before too": (CUT, CUT, "same", "same", "damaged before and after", 0, 0),
    "another format": (gif(), gif() + b"", "same", "same", "the same", 0, 0),
}


@pytest.mark.parametrize("name", CASES)
def test_changed(name, folder, called):
    before, after, without, result, coded, *statuses = CASES[name]
    put(folder / "a", {"x.jpg": before})
    put(folder / "b", {"x.jpg": after})
    is_damaged = coded.startswith("damaged")  # which is known without --pixels, too
    for words, expected, picture, status in (
        ([], without, coded if is_damaged else "not compared", statuses[0]),
        (["--pixels"], result, coded, statuses[1]),
    ):
        found, printed, _ = called("changed", "a", "b", "--all", "--json", "--no-programs", *words)
        (it, *_, summary) = map(json.loads, printed.splitlines())
        assert (found, it["result"], it["coded_picture"]) == (status, expected, picture), it["note"]
        assert summary["coded_pictures"] == {picture: 1}
        text = called("changed", "a", "b", "--no-programs", *words)[1]
        assert ("Only metadata was compared: --pixels" in text) == (not words and not is_damaged) and (f"1 {coded}." in text) == bool(
            words or is_damaged
        ), text
        assert ("none changed" in text) == (status == 0)
    found, printed, _ = called("compare", "a/x.jpg", "b/x.jpg", "--json", "--no-programs")
    it = json.loads(printed)
    assert (found, it["result"]) == (statuses[1], result) and it["coded_picture"] in (coded, "the same")


def test_what_was_asked_is_not_advised(folder, called):
    """The data of two formats are never compared."""
    put(folder / "a", {"x": MASTER})
    put(folder / "b", {"x": png()})
    for words in ([], ["--pixels"]):
        text = called("changed", "a", "b", "--no-programs", *words)[1]
        assert ("--pixels compares" in text, "two formats" in text) == (not words, bool(words)), text


PARTS = (segment(0xE2, b"ICC_PROFILE\0\1\1other colours"), segment(0xFE, b"a comment"))


@pytest.mark.parametrize("part", PARTS, ids=["profile", "comment"])
def test_a_picture_that_lost_its_profile_or_comment(folder, called, part):
    """Its pixels may look otherwise, so it is never only counted as the same."""
    put(folder / "a", {"x.jpg": MASTER[:2] + part + MASTER[2:], "y.jpg": MASTER})
    put(folder / "b", {"x.jpg": MASTER, "y.jpg": MASTER})
    expected = {"the same": 1, "the same but for other parts": 1}
    printed = called("changed", "a", "b", "--pixels")[1]
    assert f"The coded pictures: {', '.join(f'{count} {it}' for it, count in expected.items())}." in printed
    *pictures, summary = map(json.loads, called("changed", "a", "b", "--pixels", "--all", "--json")[1].splitlines())
    assert summary["coded_pictures"] == expected and sorted(it["coded_picture"] for it in pictures) == sorted(expected)
    for words in (["--each"], ["--csv"], ["--json"]):
        printed = called("changed", "a", "b", "--pixels", *words)[1]
        assert "x.jpg" in printed and "y.jpg" not in printed, words


def test_only_some_fields(folder, called):
    """Whoever asks for fields alone isn't told of pictures, and the answer says so."""
    put(folder, {"a.jpg": MASTER, "b.jpg": REPLACED})
    status, printed, _ = called("compare", "a.jpg", "b.jpg", "--only", "IFD0:Make")
    assert status == 0 and "Only these fields were compared." in printed
    assert called("compare", "a.jpg", "b.jpg", "--ignore", "IFD0:Make")[0] == 1
