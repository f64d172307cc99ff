"""The groups of `same`: whoever keeps any one picture of each group loses no metadata, whatever links, copies and gaps a folder has."""

import contextlib
import io
import json
import os
import shutil


import hypothesis
import hypothesis.strategies as st
import pytest
from exifnorm_pictures.cli import main
from made_blocks import ASCII, BLOCKS, LONG, MAKE, UNDEFINED, block, entry, table
from made_files import app1, app1_xmp, exif, jpeg, page, tiff, title, turned
from studio import needs, put

A, B = exif(b"abc"), exif(b"xyz")
UNSORTED = block([entry(0x0110, ASCII, 4, int.from_bytes(b"mod\0", "big")), MAKE])
SORTED = block([MAKE, entry(0x0110, ASCII, 4, int.from_bytes(b"mod\0", "big"))])


def with_short_note(moved=0, behind=b""):
    """A picture whose MakerNote leads to nothing: its bytes are the same wherever it is. Filling may follow."""
    start = 38 + 18 + 6 + moved
    note = table([entry(0x0009, ASCII, 4, int.from_bytes(b"Ann\0", "big"))])
    octets = block([entry(0x010F, ASCII, 6, 38 + 18), entry(0x8769, LONG, 1, 38)]) + table([entry(0x927C, UNDEFINED, len(note), start)])
    return jpeg(app1(octets + b"Canon\0" + bytes(moved) + note + behind))


# Files by what they say: those with one letter mean the same in other bytes
FILES = {
    "a1": jpeg(app1(A)),
    "a2": jpeg(app1(turned(A))),
    "a3": jpeg(app1(A + b"\0\0")),
    "b1": jpeg(app1(B)),
    "c1": jpeg(app1(UNSORTED)),
    "c2": jpeg(app1(SORTED)),
    "c3": jpeg(app1(UNSORTED + b"\0\0")),
    "d1": jpeg(app1(A), app1_xmp(title("one"))),
    "e1": jpeg(app1(A), app1_xmp(title("two"))),
    "f1": jpeg(app1_xmp(b"<x")),
    "g1": jpeg(app1(A), behind=b"one"),
    "h1": jpeg(app1(A), behind=b"two"),
    "i1": jpeg(app1(BLOCKS["Doubled"])),
    "j1": with_short_note(),
    "j2": with_short_note(behind=b"\0"),
    "k1": with_short_note(64),
}
CONTENT = {octets: name[0] for name, octets in FILES.items()}
# Files of which XMP or all blocks may be lost with the end, one that is compared after a repair and has a part that isn't read, and two with a part
# of which no digest is known, which are the same as those with the same bytes alone
OPEN = {
    "l1": FILES["d1"][: FILES["d1"].index(b"http://ns.adobe.com")],
    "l2": FILES["a1"][:40],
    "m1": jpeg(app1(UNSORTED), behind=b"one"),
    "n1": tiff(page((0x0190, LONG, 8))),  # a pointer that isn't followed
    "o1": tiff(page((0x0190, LONG, 9))),
}


@pytest.fixture
def asked(folder, monkeypatch, capsys):
    """Runs exifnorm-pictures in this process and in a folder of its own; returns its objects, and checks the status."""
    monkeypatch.chdir(folder)

    def call(*words, status=0):
        capsys.readouterr()
        assert main._run([*words, "--json"]) == status
        return [json.loads(it) for it in capsys.readouterr().out.splitlines()]

    return call


def names_of(paths):
    return [os.path.basename(it["path"]) for it in paths]


def contents(top):
    """What is said below a folder."""
    found = set()
    for folder, _, names in os.walk(top):
        for name in names:
            path = os.path.join(folder, name)
            if os.path.isfile(path):
                with open(path, "rb") as file:
                    found.add(CONTENT[file.read()])
    return found


def indexed(asked, *folders):
    asked("index", *folders, "--catalogue", "c", "--quiet")


KINDS = st.sampled_from(("copy", "copy", "hard link", "symbolic link"))
AFTERWARDS = st.sampled_from(("stays", "stays", "stays", "goes", "changes"))


@hypothesis.settings(max_examples=60)  # each makes a folder, and two runs
@hypothesis.given(
    st.lists(st.tuples(st.sampled_from(sorted(FILES)), KINDS, AFTERWARDS), min_size=2, max_size=9),
    st.booleans(),
    st.booleans(),
    st.randoms(use_true_random=False),
)
def test_whoever_keeps_one_of_each_group_loses_nothing(tmp_path_factory, files, through_a_link, by_keep, random):
    """Any one of each group in turn, or with `by_keep` all but those that aren't to be kept, at once."""
    folder = str(tmp_path_factory.mktemp("groups"))
    here = os.getcwd()
    os.chdir(folder)
    try:
        os.makedirs("p/sub")
        make_files(files)
        os.symlink("p", "linked")
        printed("index", "p", *(["linked"] if through_a_link else []), "--catalogue", "c", "--quiet", "--pixels")
        for number, (name, _, afterwards) in enumerate(files):
            change_file(number, name, afterwards)
        before = contents("p")
        *groups, _ = map(json.loads, printed("same", "c", "--json", most=2))
        assert all([it["keep"] for it in group["pictures"]].count(True) == 1 for group in groups)
        for group in groups:
            kept = next(it["path"] for it in group["pictures"] if it["keep"]) if by_keep else random.choice(group["pictures"])["path"]
            for it in group["pictures"]:
                if it["path"] != kept and os.path.lexists(it["path"]):
                    os.remove(it["path"])
        assert contents("p") == before
    finally:
        os.chdir(here)
        shutil.rmtree(folder)


def printed(*words, most=0):
    with contextlib.redirect_stdout(io.StringIO()) as lines:
        assert main._run(words) <= most
    return lines.getvalue().splitlines()


def place(number):
    return f"p/sub/{number}.jpg" if number % 3 == 2 else f"p/{number}.jpg"


def make_files(files):
    """Each file in turn: with its bytes, or a link to the file before it, whose name it then gets."""
    for number, (name, kind, _) in enumerate(files):
        if kind == "copy" or number == 0:
            with open(place(number), "wb") as file:
                file.write(FILES[name])
        elif kind == "hard link":
            os.link(os.path.realpath(place(number - 1)), place(number))
        else:
            os.symlink(os.path.abspath(place(number - 1)), place(number))


def change_file(number, name, afterwards):
    """What happens after the run: a file goes, or another one takes its name."""
    if afterwards == "goes" and os.path.lexists(place(number)):
        os.remove(place(number))
    elif afterwards == "changes" and os.path.isfile(place(number)):
        other = FILES["b1" if name != "b1" else "a1"]
        with open(place(number) + ".new", "wb") as file:
            file.write(other)
        os.replace(place(number) + ".new", place(number))


@pytest.mark.parametrize(
    "one, other, basis, status",
    [
        ("a1", "a2", "meaning", 0),
        ("a1", "b1", None, 0),
        ("c1", "b1", None, 0),
        ("c1", "c2", "repair", 2),
        ("c1", "c3", "repair", 2),
        ("d1", "e1", None, 0),
        ("g1", "h1", None, 2),
        ("g1", "a1", None, 2),
        ("g1", "b1", None, 0),
        ("i1", "a1", None, 2),
        ("f1", "f1", "bytes", 2),
        ("i1", "i1", "bytes", 2),
        ("l1", "d1", None, 2),
        ("l2", "a1", None, 2),
        ("m1", "c1", None, 2),
        ("m1", "b1", None, 0),
        ("n1", "n1", "bytes", 2),
        ("n1", "o1", None, 2),
    ],
)
def test_what_a_group_rests_on(asked, folder, one, other, basis, status):
    """The status is 2 also where nobody knows whether the pictures are the same."""
    put(folder, {f"p/{name}.jpg": octets for name, octets in zip("12", map({**FILES, **OPEN}.__getitem__, (one, other)))})
    indexed(asked, "p")
    *found, _ = asked("same", "c", status=status)
    assert [it["basis"] for it in found] == ([basis] if basis else [])
    assert all(it["wholly_read"] is (basis == "meaning") for it in found)


def test_a_picture_that_was_not_read_may_be_the_same(asked, called, folder):
    put(
        folder,
        {f"p/{name}": octets for name, octets in {"a.jpg": FILES["a1"], "b.dng": b"II*\0\xff\xff\xff\xff", "c.txt": b"text"}.items()},
    )
    called("index", "p", "--catalogue", "c", "--quiet", "--pixels")
    for words in ([], ["--kind", "iptc"], ["--kind", "pixels"]):
        assert asked("same", "c", *words, status=2)[-1]["undecided"] == 1, words
    (folder / "p/b.dng").unlink()
    called("index", "p", "--catalogue", "c", "--quiet")
    assert asked("same", "c")[-1]["undecided"] == 0, "a text is no picture, and the other one is gone"


def test_a_later_group_has_one_of_each_earlier_one(asked, folder):
    (folder / "p").mkdir()
    for name in ("c1", "c2", "c3"):
        put(folder, {f"p/{name}-{number}.jpg": FILES[name] for number in "12"})
    indexed(asked, "p")
    *found, _ = asked("same", "c", status=2)
    (repair,) = [it for it in found if it["basis"] == "repair"]
    assert names_of(repair["pictures"]) == ["c1-1.jpg", "c2-1.jpg", "c3-1.jpg"]
    assert [it["others"] for it in repair["pictures"]] == [1, 1, 1]


def test_names_of_one_file_are_links(asked, folder):
    (folder / "p/sub").mkdir(parents=True)
    (folder / "p/a.jpg").write_bytes(FILES["a1"])
    os.link(folder / "p/a.jpg", folder / "p/b.jpg")
    os.symlink("a.jpg", folder / "p/c.jpg")
    os.symlink("p", folder / "linked")
    asked("index", "p", "linked", "--catalogue", "c", "--quiet")
    assert asked("same", "c")[:-1] == [], "it is one file"
    (folder / "p/sub/copy.jpg").write_bytes(FILES["a1"])
    indexed(asked, "p", "linked")
    (group, _) = asked("same", "c")
    how = {os.path.relpath(it["path"], folder): it["how"] for it in group["links"]}
    assert group["count"] == 2
    assert "hard link" in how["p/b.jpg"] and "symbolic link" in how["p/c.jpg"]
    assert "deletes the picture" in how["linked/a.jpg"] and "deletes the picture" in how["linked/sub/copy.jpg"]


def test_beside_a_table_the_status_2_has_a_reason(called, folder):
    """A refused block may have what is asked for."""
    put(folder, {f"p/{name}.jpg": octets for name, octets in {"a": jpeg(app1(exif(b"abc"))), "b": jpeg(app1(BLOCKS["Doubled"]))}.items()})
    called("index", "p", "--catalogue", "c", "--quiet")
    status, printed, _ = called("same", "c", "--only", "creator")
    assert status == 2
    (reason,) = [line for line in printed.splitlines() if line.startswith("1 picture ")]
    assert called("same", "c", "--only", "creator", "--csv")[::2] == (2, f"exifnorm-pictures: note: {reason}\n")


# Canon's MakerNote is a directory whose offsets count from the header; 0009 is OwnerName


def with_note(owner, moved=0, wrong=False):
    """A picture whose MakerNote has an owner's name of seven letters, and lies further behind; with `wrong` its offset stays as it was."""
    make = entry(0x010F, ASCII, 6, 38 + 18)
    start = 38 + 18 + 6 + moved
    offset = 38 + 18 + 6 + 18 if wrong else start + 18
    note = table([entry(0x0009, ASCII, 8, offset)]) + owner + b"\0"
    octets = (
        block([make, entry(0x8769, LONG, 1, 38)]) + table([entry(0x927C, UNDEFINED, len(note), start)]) + b"Canon\0" + bytes(moved) + note
    )
    return jpeg(app1(octets))


@needs("exiftool")
def test_what_exiftool_reads_is_kept(asked, folder):
    """With --maker-notes a comparison needs no earlier file; without, it says that it isn't known."""
    put(folder, {"p/a.jpg": with_note(b"Annette")})
    for name, more in (("without", []), ("with", ["--maker-notes"])):
        asked("index", "p", "--catalogue", name, "--quiet", *more)
    (folder / "p/a.jpg").write_bytes(with_note(b"Annette", 64))
    asked("index", "p", "--catalogue", "now", "--quiet")
    assert asked("changed", "with", "now", status=2)[0]["result"] == "the same but for a MakerNote that moved"
    (found, *_) = asked("changed", "without", "now", status=1)
    assert "the earlier picture" in found["fields"][0]["note"]


def test_a_file_system_that_is_mounted_at_another_place(asked, folder):
    """Its pictures have moved; those of another folder that isn't there are only not there."""
    for name in ("disk", "other"):
        put(folder, {f"{name}/a.jpg": FILES["a1"], f"{name}/plain.jpg": jpeg()})
    indexed(asked, "disk", "other")
    (folder / "disk").rename(folder / "place")
    (folder / "other").rename(folder / "away")
    *found, counts = asked("index", "place", "--catalogue", "c", "--quiet")
    moved = {os.path.relpath(it["path"], folder): os.path.relpath(it["detail"][3:], folder) for it in found if it.get("problem") == "Moved"}
    assert moved == {"disk/a.jpg": "place/a.jpg", "disk/plain.jpg": "place/plain.jpg"}
    (folder / "away").rename(folder / "other")
    assert asked("index", "other", "--catalogue", "c", "--quiet")[-1]["counts"] == {"unchanged": 2}
    (group, _) = asked("same", "c")
    assert sorted(os.path.relpath(it["path"], folder) for it in group["pictures"]) == ["other/a.jpg", "place/a.jpg"]
