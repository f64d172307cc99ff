"""`history`: what changed in one picture from catalogue to catalogue, also if it moved."""

import json
import os
import shutil

import pytest
from made_files import app13, jpeg, resource
from studio import SMALL_JPEG, put
from test_list import record
from exifnorm_pictures.scan import index

OTHER_PICTURE = SMALL_JPEG.replace(b"\xff\xdb\0\x43\0", b"\xff\xdb\0\x43\1", 1)  # with another table of quantization
OTHER = jpeg(app13(resource(0x0404, record([("title", "Bowl")]))))


def vase(title, creator="Anna"):
    return jpeg(app13(resource(0x0404, record([("title", title), ("creator", creator)]))))


@pytest.fixture
def nights(folder, called, monkeypatch):
    """Five nights: a picture as it came, the same, with another title, moved, and gone."""

    def night(number):
        monkeypatch.setattr(index, "_now", lambda: f"2026-03-0{number}T02:00:00Z")
        called("index", "p", "--catalogue", "now", "--quiet", *(["--keep-old", f"{number - 1}"] if number > 1 else []))

    put(folder / "p", {"in/a.jpg": vase("Vase"), "in/b.jpg": OTHER})
    night(1)
    night(2)
    (folder / "p/in/a.jpg").write_bytes(vase("Vase with two bands"))
    night(3)
    os.mkdir(folder / "p/kept")
    os.rename(folder / "p/in/a.jpg", folder / "p/kept/a.jpg")
    night(4)
    os.remove(folder / "p/kept/a.jpg")
    night(5)
    return ["now", "2", "4", "1", "3"]  # in no order


@pytest.fixture
def states(called):
    def of(picture, *catalogues):
        status, printed, _ = called("changed", "--picture", picture, *catalogues, "--json")
        return status, [json.loads(it) for it in printed.splitlines()]

    return of


@pytest.mark.parametrize(
    "name", ["p/in/a.jpg", "p/kept/a.jpg", "in/a.jpg", "kept/a.jpg", "./in/a.jpg", "kept//./a.jpg", "./p/in/../kept/a.jpg"]
)
def test_each_night(folder, nights, states, name):
    """By each of the names that the picture had, also as `changed` prints it."""
    status, found = states(name, *nights)
    assert [it["catalogue"] for it in found] == ["1", "2", "3", "4", "now"] and status == 1
    places = [it["picture"] and it["picture"]["path"].partition("/p/")[2] for it in found]
    assert places == ["in/a.jpg", "in/a.jpg", "in/a.jpg", "kept/a.jpg", None]
    assert [found[number]["result"] for number in (0, 2, 3)] == [None, "different", "moved"]
    assert not found[1]["fields"] and found[1]["result"] in ("same", "the same file")
    (field,) = found[2]["fields"]
    assert (field["name"], field["before"]["plain"], field["after"]["plain"]) == ("IPTC:ObjectName", "Vase", "Vase with two bands")


def test_a_picture_that_came_later(folder, nights, states, called):
    put(folder / "p", {"new.jpg": vase("New")})
    called("index", "p", "--catalogue", "last", "--quiet")
    _, found = states("p/new.jpg", "1", "last")
    assert [it["picture"] is None for it in found] == [True, False] and found[1]["result"] is None


@pytest.mark.parametrize("words, is_told", (((), True), (("--pixels",), False)))
@pytest.mark.parametrize("name", ("p/in/a.jpg", "p/out/a2.jpg"))
def test_moved_and_edited_in_one_night(words, is_told, name, folder, called, states, monkeypatch):
    """Without digests of the coded pictures nobody knows whether it is another one: the note says so. With them it is found."""
    put(folder / "p", {"in/a.jpg": vase("Vase"), "in/b.jpg": jpeg(base=OTHER_PICTURE)})
    for number in (1, 2):
        monkeypatch.setattr(index, "_now", lambda day=number: f"2026-03-0{day}T02:00:00Z")
        called("index", "p", "--catalogue", str(number), "--quiet", *words)
        if number == 1:
            os.remove(folder / "p/in/a.jpg")
            put(folder / "p", {"out/a2.jpg": vase("Vase with two bands")})
    _, found = states(name, "1", "2")
    absent = [it for it in found if it["picture"] is None]
    assert [bool(it["note"] and "--pixels" in it["note"]) for it in absent] == [True] * is_told, found


def test_a_new_picture_is_new(folder, called, states, monkeypatch):
    """If no other picture is gone in that night, it had no other name."""
    put(folder / "p", {"in/b.jpg": OTHER})
    for number in (1, 2):
        monkeypatch.setattr(index, "_now", lambda day=number: f"2026-03-0{day}T02:00:00Z")
        called("index", "p", "--catalogue", str(number), "--quiet")
        put(folder / "p", {"out/a2.jpg": vase("Vase")})
    status, found = states("p/out/a2.jpg", "1", "2")
    assert [(it["picture"] is None, it["note"]) for it in found] == [(True, None), (False, None)] and status == 0


@pytest.fixture
def indexed(folder, called, monkeypatch):
    """Catalogues of nights, each with these pictures alone."""

    def of(*nights):
        for number, pictures in enumerate(nights, 1):
            monkeypatch.setattr(index, "_now", lambda day=number: f"2026-03-0{day}T02:00:00Z")
            shutil.rmtree(folder / "p", ignore_errors=True)
            put(folder / "p", pictures)
            called("index", "p", "--catalogue", str(number), "--quiet")
        return [str(number) for number in range(1, len(nights) + 1)]

    return of


@pytest.fixture
def away(indexed):
    """Three nights: a picture, another one in its stead, and the first again."""
    return indexed({"press/vase.jpg": vase("Vase")}, {"press/new.jpg": OTHER}, {"press/vase.jpg": vase("Vase")})


def test_a_picture_that_was_away(away, states, called):
    """What a catalogue says of a picture is the same, whichever newer catalogues are asked, too."""
    _, found = states("p/press/vase.jpg", *away)
    assert [it["picture"] and it["picture"]["path"].rpartition("/")[2] for it in found] == ["vase.jpg", None, "vase.jpg"]
    assert states("p/press/vase.jpg", *away[:2])[1] == found[:2]
    _, printed, _ = called("changed", "--picture", "p/press/vase.jpg", *away)
    assert printed.count("first seen") == 1


def test_an_open_state_is_not_decided(away, called):
    """Status 2 of the manual: something can't be decided, here whether the new picture is the one that is gone."""
    assert (
        called("changed", "--picture", "p/press/vase.jpg", *away)[0]
        == called("changed", "--picture", "p/press/vase.jpg", *away[:2])[0]
        == 2
    )


@pytest.mark.parametrize("nights", ("VKV", "VK-V", "V-V", "V--V", "VO-V", "VKOV", "VEV"))
def test_newer_catalogues_change_no_place(nights, indexed, states):
    """Where a picture is, is known of the catalogues up to one; that it comes back under its old name later doesn't change it."""
    pictures = {
        "V": {"in/a.jpg": vase("Vase")},
        "K": {"kept/a.jpg": vase("Vase")},
        "O": {"in/b.jpg": OTHER},
        "-": {},
        "E": {"a.jpg": vase("Bowl")},
    }
    names = indexed(*({**pictures[night], "x.jpg": jpeg(base=OTHER_PICTURE)} for night in nights))
    places = [it["picture"] and it["picture"]["path"] for it in states("p/in/a.jpg", *names)[1]]
    for count in range(2, len(names)):
        assert [it["picture"] and it["picture"]["path"] for it in states("p/in/a.jpg", *names[:count])[1]] == places[:count]
