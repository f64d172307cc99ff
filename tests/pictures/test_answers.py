"""What commands say besides their answers: each note, each folder that can't be read, each kind that is refused; and the forms of answers."""

import os

import pytest
from made_files import A, app1, jpeg
from studio import put


NOTED = {
    ("index", "p", "--catalogue", "d", "--exclude", "x", "--exclude", "y"): ["--exclude x fits no", "--exclude y fits no"],
    ("index", "p", "--shards", "s", "--exclude", "x", "--exclude", "y", "--whole"): [
        "--exclude x fits no",
        "--exclude y fits no",
        "--whole",
    ],
    ("list", "s", "--with", "title"): ["gone.catalogue", "other.catalogue"],
    ("nightly", "p", "--catalogue", "n", "--exclude", "x", "--exclude", "y"): ["--exclude x fits no", "--exclude y fits no"],
}


@pytest.mark.parametrize("words", NOTED, ids=lambda words: words[0] + " " + words[2])
def test_each_of_several_notes(words, folder, called):
    put(folder, {"p/1/a.jpg": jpeg(app1(A))})
    called("index", "p", "--shards", "s", "--quiet")
    if words[0] == "list":
        with open(folder / "s/catalogues", "a", encoding="utf-8") as catalogues:
            catalogues.write("gone.catalogue\n")
        called("index", "p", "--catalogue", "s/other.catalogue", "--quiet")
    notes = [it for it in called(*words)[2].splitlines() if it.startswith("exifnorm-pictures: note: ")]
    assert len(notes) == len(NOTED[words]) and all(any(it in note for note in notes) for it in NOTED[words]), notes


CLOSED = {
    ("index", "p", "--catalogue", "c"): 2,
    ("index", "p", "--shards", "s"): 2,
    ("nightly", "p", "--catalogue", "n"): 2,
    ("verify", "c"): 4,
    ("show", "--captions", "p"): 2,
    ("show", "--captions", "p", "--csv"): 2,
    ("check", "p"): 2,
    ("check", "p", "--json"): 2,
    ("list", "p"): 4,
    ("check", "--rules", "rules", "p"): 4,
    ("changed", "p", "q"): 4,
    ("changed", "q", "p"): 4,
    ("changed", "c", "p"): 4,
}


@pytest.mark.parametrize("words", CLOSED, ids=" ".join)
def test_a_folder_that_can_not_be_read(words, folder, called, monkeypatch):
    """It is named, and its pictures are neither gone nor like what was asked."""
    put(
        folder,
        {"p/a.jpg": jpeg(app1(A)), "p/closed/b.jpg": jpeg(app1(A)), "q/a.jpg": jpeg(app1(A)), "rules": b"caption at most 9 characters\n"},
    )
    for first in (("index", "p", "--catalogue", "c", "--pixels"), ("index", "p", "--shards", "s"), ("nightly", "p", "--catalogue", "n")):
        called(*first)
    whole = os.scandir

    def scandir(path):
        if not isinstance(path, int) and os.path.basename(os.fsencode(path)) == b"closed":
            raise PermissionError(13, "Permission denied", path)
        return whole(path)

    monkeypatch.setattr(os, "scandir", scandir)
    status, printed, messages = called(*words)
    assert (status, "closed" in printed + messages) == (CLOSED[words], True), printed + messages
    assert "b.jpg" not in printed


@pytest.mark.parametrize("files", [{}, {"p/note.txt": b"no picture"}], ids=["nothing", "a text"])
@pytest.mark.parametrize(
    "words",
    [
        ("list", "p"),
        ("check", "--rules", "rules", "p"),
        ("changed", "p", "q"),
        ("changed", "q", "p"),
        ("show", "--captions", "p"),
        ("check", "p"),
    ],
    ids=" ".join,
)
def test_a_folder_without_a_picture(words, files, folder, called):
    """A disk that isn't mounted seems to keep every rule."""
    put(folder, {**files, "q/a.jpg": jpeg(app1(A)), "rules": b"caption at most 9 characters\n"})
    (folder / "p").mkdir(exist_ok=True)
    assert "note: no picture is below p: is its disk mounted?" in called(*words)[2]
    assert "is its disk" not in called(*(word.replace("p", "q") if word == "p" else word for word in words))[2]
