"""Catalogues on network shares, which Linux names in its list of mounts: a write-ahead log doesn't work there."""

import os

import pytest

from exifnorm_pictures.catalogue.store import Catalogue
from exifnorm_pictures.catalogue import store

# Lines as Linux writes them (proc(5)), with and without the optional words before the hyphen
LOCAL = "25 1 0:9999 / /a\\040disk rw,relatime - ext4 /dev/sda1 rw\n"
SHARE = "36 25 0:9998 / /a\\040share\\040-\\040nfs rw,relatime shared:1 master:2 - nfs4 server:/export rw,addr=192.0.2.1\n"


@pytest.fixture
def listed(folder, monkeypatch):
    """Makes a list of mounts in which the file system of the test's folder is one of some kind."""

    def make(kind, words="shared:1 "):
        device = os.stat(folder).st_dev
        line = f"99 1 {os.major(device)}:{os.minor(device)} /export /mnt rw {words}- {kind} server:/export rw\n"
        (folder / "mounts").write_text(LOCAL + SHARE + line)
        monkeypatch.setattr(store, "MOUNTS", str(folder / "mounts"))

    return make


def journal_of(path):
    """How a catalogue that is written to keeps what it may have to undo, and whether it has a log."""
    with Catalogue(str(path), make=True) as catalogue:
        catalogue.begin_run("2024-05-02T08:12:33")
        found = catalogue.base.execute("PRAGMA journal_mode").fetchone()[0], os.path.exists(f"{path}-wal")
    assert not os.path.exists(f"{path}-wal") and not os.path.exists(f"{path}-journal")
    return found


@pytest.mark.parametrize("kind", ["nfs", "nfs4", "cifs", "smb3", "9p", "virtiofs", "vboxsf", "ceph", "fuse.sshfs", "fuse.rclone"])
@pytest.mark.parametrize("words", ["", "shared:1 ", "shared:1 master:2 "])
def test_a_share(folder, listed, kind, words):
    listed(kind, words)
    assert journal_of(folder / "c") == ("delete", False)


@pytest.mark.parametrize("kind", ["ext4", "xfs", "btrfs", "zfs", "tmpfs", "overlay", "fuseblk", "vfat"])
def test_a_disk(folder, listed, kind):
    listed(kind)
    assert journal_of(folder / "c") == ("wal", True)


def test_a_link_to_a_share(folder, listed):
    """The folder counts in which the catalogue is, not the one with the link."""
    (folder / "c").symlink_to("/proc/nothing")
    listed("nfs4")
    assert not store.is_on_network(str(folder / "c"))
    assert store.is_on_network(str(folder / "other"))


@pytest.mark.parametrize("text", ["", "\n", "no list\n", "36 25\n"])
def test_what_is_no_list(folder, monkeypatch, text):
    (folder / "mounts").write_text(text)
    for name in ("mounts", "nothing"):
        monkeypatch.setattr(store, "MOUNTS", str(folder / name))
        assert journal_of(folder / "c") == ("wal", True)


def test_a_catalogue_with_a_log(folder, listed):
    """One that was copied to a share while it had a log loses nothing."""
    with Catalogue(str(folder / "c"), make=True) as catalogue:
        catalogue.begin_run("2024-05-02T08:12:33")
        for name in ("c", "c-wal"):
            (folder / f"copied-{name}").write_bytes((folder / name).read_bytes())
    os.rename(folder / "copied-c", folder / "d")
    os.rename(folder / "copied-c-wal", folder / "d-wal")
    listed("nfs4")
    assert journal_of(folder / "d") == ("delete", False)
    with Catalogue(str(folder / "d")) as catalogue:
        assert [it for it, in catalogue.rows("SELECT started FROM runs")] == ["2024-05-02T08:12:33"] * 2
