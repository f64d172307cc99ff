"""Who may read and write what a command writes: nobody who may not do so with what it was made from, or with what it replaces."""

import itertools
import os
import subprocess

import pytest
from made_blocks import MAKE, block, with_exif
from studio import SMALL_JPEG, put

from exifnorm_pictures.files import atomic

pytestmark = pytest.mark.skipif(os.geteuid() != 0, reason="only root can be another user for a moment")

PICTURE = with_exif(SMALL_JPEG, block([MAKE]))
OWNER, GROUP = 4000, 4100
USERS = {"its owner": (OWNER, 4999), "its group": (4001, GROUP), "another": (4002, 4102), "the named user": (4003, 4103)}
MODES = (0o600, 0o640, 0o644, 0o604, 0o666, 0o400, 0o4755, 0o6777, 0o2640)


def allowed(path):
    """Each user with what he may do with a file, as the kernel decides it."""
    found = set()
    for name, (user, group) in USERS.items():
        for right, test in (("read", "-r"), ("write", "-w"), ("run", "-x")):
            call = ["setpriv", f"--reuid={user}", f"--regid={group}", "--clear-groups", "test", test, path]
            if subprocess.run(call).returncode == 0:
                found.add((name, right))
    return found


def made(path, octets, mode, acl=""):
    """A file of another user and group."""
    path.write_bytes(octets)
    os.chown(path, OWNER, GROUP)
    os.chmod(path, mode)
    if acl:
        subprocess.run(["setfacl", "-m", acl, path], check=True)
    return path


ACLS = ("", "u:4003:rw", "u:4003:r,g::-", "g:4103:rw,m:r")


@pytest.mark.parametrize("mode, acl", [*itertools.product(MODES, ACLS[:1]), *itertools.product(MODES[:3], ACLS[1:])], ids=repr)
def test_a_copy_of_mend_allows_nobody_more_than_its_picture(called, folder, mode, acl):
    picture = made(folder / "a.jpg", PICTURE, mode, acl)
    assert called("mend", "a.jpg", "b.jpg")[0] == 0
    assert allowed(folder / "b.jpg") <= allowed(picture)
    assert not (folder / "b.jpg").stat().st_mode & 0o7000, "it changes the user or the group of who runs it"


@pytest.mark.parametrize("mode", MODES[:5], ids=oct)
def test_a_copy_of_another_group_allows_its_members_no_more_than_all(folder, mode, monkeypatch):
    """As for a user who may not give the copy the picture's group."""
    picture = made(folder / "a.jpg", PICTURE, mode)
    monkeypatch.setattr(os, "fchown", lambda *_: (_ for _ in ()).throw(PermissionError()))
    with open(folder / "b.jpg", "wb") as copy:
        atomic.give(copy.fileno(), atomic.rights_of(picture))
    os.chown(folder / "b.jpg", -1, 4102)  # the group of the user "another"
    assert {it for it in allowed(folder / "b.jpg") if it[0] == "another"} <= allowed(picture)


WRITING = {
    "catalogue export": ("catalogue", "export", "c", "out"),
    "report": ("report", "c", "--html", "out"),
    "index --keep-old": ("index", "p", "--catalogue", "c", "--keep-old", "out", "--quiet"),
    "catalogue merge": ("catalogue", "merge", "--catalogue", "out", "c"),
}


@pytest.fixture
def catalogue(called, folder):
    put(folder, {"p/a.jpg": PICTURE})
    assert called("index", "p", "--catalogue", "c", "--quiet")[0] == 0
    return folder / "c"


@pytest.mark.parametrize("words", WRITING.values(), ids=WRITING)
@pytest.mark.parametrize("mode", (0o600, 0o640, 0o644), ids=oct)
def test_a_new_file_allows_nobody_more_than_its_catalogue(called, catalogue, folder, words, mode):
    os.chown(catalogue, OWNER, GROUP)
    catalogue.chmod(mode)
    assert called(*words)[0] == 0
    assert allowed(folder / "out") <= allowed(catalogue)


@pytest.mark.parametrize("words", list(WRITING.values())[:3], ids=list(WRITING)[:3])
@pytest.mark.parametrize("mode, acl", [(0o600, ""), (0o640, ""), (0o600, "u:4003:r")], ids=repr)
def test_a_replaced_file_keeps_its_rights(called, catalogue, folder, words, mode, acl):
    assert called(*words)[0] == 0
    os.chown(folder / "out", OWNER, GROUP)
    (folder / "out").chmod(mode)
    if acl:
        subprocess.run(["setfacl", "-m", acl, folder / "out"], check=True)
    before = allowed(folder / "out")
    assert called(*words)[0] == 0
    assert allowed(folder / "out") == before


def test_a_replaced_file_takes_no_list_from_its_folder(called, catalogue, folder):
    (folder / "out").touch()
    assert called(*WRITING["catalogue export"])[0] == 0
    (folder / "out").chmod(0o640)
    subprocess.run(["setfacl", "-d", "-m", "u:4003:rwx", folder], check=True)
    assert called(*WRITING["catalogue export"])[0] == 0
    assert ("the named user", "read") not in allowed(folder / "out")


@pytest.mark.parametrize("umask", (0o022, 0o077), ids=oct)
def test_what_umask_gives(called, folder, umask):
    """To a catalogue, a list of digests and a spreadsheet."""
    pytest.importorskip("xlsxwriter")
    put(folder, {"p/a.jpg": PICTURE})
    before = os.umask(umask)
    try:
        assert called("index", "p", "--catalogue", "c", "--quiet", "--pixels")[0] == 0
        assert called("verify", "c", "--evidence", "sums", "--quiet", "--jobs", "1")[0] == 0
        assert called("show", "p/a.jpg", "--xlsx", "table.xlsx")[0] == 0
    finally:
        os.umask(before)
    assert {(folder / name).stat().st_mode & 0o777 for name in ("c", "sums", "table.xlsx")} == {0o666 & ~umask}
