"""Parts of a picture that were not read are named once for people, and one by one for programs."""

import json
import re

import pytest
from made_files import A, app1, app1_xmp, jpeg, title, webp
from studio import needs, put
from test_cuts import FILES
from test_pairs import reached

from exifnorm import pictures

MANY = webp((b"EXIF", A), *[(b"ABCD", b"what it is")] * 1200)
PHRASE = "chunk of an unknown kind (1,200 times)"


def test_many_parts_of_a_group(folder, called):
    put(folder, {name: MANY for name in ("a.webp", "b.webp")})
    called("index", ".", "--catalogue", "c", "--quiet")
    printed = called("same", "c")[1]
    assert PHRASE in printed
    assert len(printed) < 2000


PARTS = {
    "a.webp": MANY,
    "trailer.jpg": jpeg(app1(A), behind=b"a trailer"),
    "app3.jpg": jpeg(app1(A), b"\xff\xe3\0\x0aMeta\0\0ab"),
    "cut.jpg": jpeg(app1(A))[:-300],
    "note.jpg": next(it for it in reached() if "JPEG" in it.name).before,
}


TITLED = title("Bowl")
HIDDEN = {
    "behind garbage.jpg": jpeg(app1(A), b"\0\0garbage", app1_xmp(TITLED)),
    "trailer.jpg": jpeg(app1(A), behind=app1_xmp(TITLED)),
    "drawing.svg": b"<svg xmlns='http://www.w3.org/2000/svg' width='5' height='5'><metadata>" + TITLED + b"</metadata></svg>",
    "only a MakerNote reaches.jpg": PARTS["note.jpg"],
    "whole.jpg": jpeg(app1(A), app1_xmp(TITLED)),
}


# A whole file of each format, and bytes behind it in which anything may be
BEHIND = {f"behind {name}": octets + b"\0\0\0\x20abcd" + TITLED[:60] for name, (octets, _) in FILES.items()}


@needs("exiftool")
@pytest.mark.parametrize("name", {**HIDDEN, **BEHIND})
def test_a_text_may_be_where_nobody_read(name, folder, called):
    """Each command that prints texts says so by its status where `list` says that the picture may fit, of files and of a catalogue."""
    put(folder, {f"p/{name}": {**HIDDEN, **BEHIND}[name], "rules": b"title at most 2000 characters\n"})
    called("index", "p", "--catalogue", "c", "--quiet")
    may_fit = json.loads(called("list", "c", "--where", "title = Bowl and title = Vase", "--json")[1].splitlines()[-1])["not_known"]
    assert may_fit == any("MakerNote" not in part for part in pictures.read(folder / "p" / name).not_read)
    assert may_fit == (name not in ("only a MakerNote reaches.jpg", "whole.jpg")) or name in BEHIND
    for source in (f"p/{name}", "p", "c"):
        for words in ([], ["--csv"], ["--json"]):
            assert called("show", "--captions", source, *words)[0] == 2 * may_fit, (source, words)
            status, printed, _ = called("check", source, *words)
            assert status == 2 * may_fit and (
                "not read" in printed or "not wholly read" in printed or not may_fit or words == ["--json"]
            ), printed
            if source != f"p/{name}":
                status, printed, messages = called("list", source, "--columns", "title", *words)
                assert status == 2 * may_fit and bool(re.search('not known: |"title": null', messages + printed)) == bool(may_fit), printed
                assert called("list", source, "--count", "title", *words)[0] == 2 * may_fit
                assert called("check", "--rules", "rules", source, *words)[0] == 2 * may_fit


@pytest.mark.parametrize("name", {**HIDDEN, **BEHIND})
@pytest.mark.parametrize(
    "words", [("show",), ("show", "--exact"), ("show", "--csv"), ("show", "--json"), ("explain",), ("explain", "--json")]
)
def test_a_block_may_be_where_nobody_read(words, name, folder, called):
    put(folder, {name: {**HIDDEN, **BEHIND}[name]})
    assert called(*words, name)[0] == 2 * bool(pictures.read(folder / name).not_read)


# ---- Files that are no pictures, which every archive has beside its pictures, are never counted as pictures.

PICTURE = jpeg(app1(A))


@pytest.fixture
def archive(folder):
    """Two states of a folder with a picture twice, and with texts, two of which are equal."""
    for side, changed in (("b", b"one line"), ("a", b"another line")):
        put(
            folder,
            {
                f"{side}/{name}": octets
                for name, octets in (
                    ("1.jpg", PICTURE),
                    ("2.jpg", PICTURE),
                    ("1.txt", b"a text"),
                    ("2.txt", b"a text"),
                    ("3.txt", b"a text"),
                    ("4.txt", changed),
                )
            },
        )
    return folder


@needs("exiftool")
def test_groups_of_files_come_last(archive, called_lines):
    """Though more files are equal than pictures."""
    called_lines("index", "b", "--catalogue", "c", "--quiet")
    status, lines, _ = called_lines("same", "c")
    heads = [it.partition(":")[0] for it in lines if it and not it.startswith(" ")]
    assert (status, heads[:3]) == (0, ["2 pictures", "3 files", "1 group of 2 pictures, and 1 group of 3 files that are no pictures"])
    *found, summary = map(json.loads, called_lines("same", "c", "--json")[1])
    assert [len(it["pictures"]) for it in found] == [2, 3]
    assert (summary["groups"], summary["pictures"]) == (2, 5)
