"""`verify`: files read again, against a catalogue of index --pixels. What happens to a file is done by other programs, or byte by byte."""

import hashlib
import itertools
import json
import os
import re
import shutil
import subprocess
import sys

import pytest
from bag_reader import faults_of_bag
from made_blocks import segment
from made_files import A, B, app1, jpeg, title
from made_more_files import gif
from studio import SMALL_JPEG, Studio, needs, put, run, sql_rows

from exifnorm_pictures.catalogue import store
from exifnorm_pictures.files import opening
from exifnorm_pictures.scan import index as scan_index, looking
from exifnorm_pictures.comparison import verified as verified_
from exifnorm_pictures.model.records import Stamp

PICTURE, CAPTIONED = jpeg(app1(A)), jpeg(app1(B))
OTHER = jpeg(app1(A), base=SMALL_JPEG.replace(b"\xff\xdb\0\x43\0", b"\xff\xdb\0\x43\1", 1))
OLD = 1_000_000_000 * 10**9  # nanoseconds


def aged(path):
    os.utime(path, ns=(OLD, OLD))


@pytest.fixture
def archive(folder, called):
    """An archive that was indexed, with files of 2001."""
    put(folder / "p", {"a.jpg": PICTURE, "b.jpg": PICTURE + b"trailer", "c.gif": gif(), "d.txt": b"no picture"})
    for name in os.listdir(folder / "p"):
        aged(folder / "p" / name)
    called("index", "p", "--catalogue", "c", "--pixels", "--quiet")
    return folder / "p"


@pytest.fixture
def verified(called):
    """Runs `verify`: its status, and the state of each file that isn't as it was."""

    def call(*words):
        status, printed, messages = called("verify", "c", "--json", *words)
        objects = [json.loads(it) for it in printed.splitlines()]
        return status, {os.path.basename(it["path"]): (it["state"], it["note"]) for it in objects[:-1]}, objects[-1:] or messages

    return call


def written(path, octets, keeps_time=False):
    path.write_bytes(octets)
    if keeps_time:
        aged(path)


SAME_TIME = "size and time are as before"
# What happens to a.jpg, its state, and the status
HAPPENS = {
    "nothing": (lambda it: None, None, 0),
    "touched": (lambda it: os.utime(it), None, 0),
    "copied back": (lambda it: (shutil.copy(it, "t"), shutil.copy("t", it)), None, 0),
    "captioned": (lambda it: written(it, CAPTIONED), ("captioned", None), 0),
    "captioned, with its time": (lambda it: written(it, CAPTIONED, True), ("captioned", None), 0),
    "written again": (lambda it: written(it, jpeg(app1(A + b"\0\0"))), ("written again", None), 0),
    "with a comment": (lambda it: written(it, jpeg(app1(A), segment(0xFE, b"by Anna"))), ("other parts", "comment added"), 1),
    "replaced": (lambda it: written(it, OTHER), ("other picture", None), 1),
    "rotted": (lambda it: written(it, OTHER, True), ("DAMAGED", SAME_TIME), 1),
    "cut": (lambda it: written(it, PICTURE[:-20]), ("cut off", "the file ends before the end mark of its picture"), 1),
    "empty": (lambda it: written(it, b""), ("other file", None), 1),
    "gone": (lambda it: it.unlink(), ("missing", None), 1),
    "moved": (lambda it: it.rename(it.parent / "z.jpg"), ("moved", None), 0),
    "moved and captioned": (lambda it: (it.unlink(), written(it.parent / "z.jpg", CAPTIONED)), ("moved", "captioned, too"), 0),
}

# The words of --list
LISTS = {
    "damaged": {"DAMAGED", "cut off"},
    "missing": {"missing"},
    "other": {"other picture", "other file", "other parts"},
    "captioned": {"captioned", "written again"},
    "moved": {"moved"},
    "unknown": {"can't be read", "without a digest"},
}


@pytest.mark.parametrize("name", HAPPENS)
def test_what_happens_to_a_picture(name, archive, verified):
    happens, state, status = HAPPENS[name]
    happens(archive / "a.jpg")
    if name in ("gone", "moved", "moved and captioned"):  # b.jpg has the same picture
        (archive / "b.jpg").write_bytes(b"text")
        status = 1
    found, states, (summary,) = verified()
    listed = {word: verified("--list", word)[1] for word in LISTS}
    assert {word: dict(of_word) for word, of_word in listed.items()} == {
        word: {name: it for name, it in states.items() if it[0] in of_word} for word, of_word in LISTS.items()
    }
    states.pop("b.jpg", None)
    assert (found, states) == (status, {"a.jpg": state} if state else {})
    assert summary["new"] == 0


def test_a_missing_picture_that_is_there_elsewhere(archive, called, verified):
    (archive / "a.jpg").unlink()
    status, states, _ = verified()
    assert (status, states) == (1, {"a.jpg": ("missing", "the same picture is")})
    assert "a.jpg (the same picture is p/b.jpg)" in called("verify", "c")[1]


def test_metadata_that_rotted(archive, verified, monkeypatch):
    """Bytes that differ while the inode's time stayed are no edit, even if the picture is the same."""
    before = os.stat(archive / "a.jpg")
    with open(archive / "a.jpg", "r+b") as file:
        file.seek(PICTURE.index(b"Abc"))
        octet = file.read(1)
        file.seek(-1, 1)
        file.write(bytes([octet[0] ^ 1]))
    of = Stamp.of
    monkeypatch.setattr(Stamp, "of", lambda it: of(before) if it.st_ino == before.st_ino else of(it))
    status, states, _ = verified()
    assert status == 1 and states == {"a.jpg": ("DAMAGED", "in its metadata")}


def test_evidence(archive, called):
    """sha256sum reads it, also of names with a line end, a backslash and no UTF-8, and it replaces no file."""
    for name in (b"line\nend.jpg", b"back\\slash.jpg", b"\xff.jpg", b" blank .jpg"):
        with open(os.path.join(os.fsencode(archive), name), "wb") as file:
            file.write(PICTURE + name)
    called("index", "p", "--catalogue", "c", "--pixels", "--quiet")
    assert called("verify", "c", "--evidence", "e")[0] == 0
    checked = subprocess.run(["sha256sum", "-c", "e"], capture_output=True)
    assert checked.returncode == 0 and checked.stdout.count(b": OK") == 8, checked
    (archive / "a.jpg").write_bytes(b"x")
    assert subprocess.run(["sha256sum", "--quiet", "-c", "e"], capture_output=True).returncode == 1
    status, printed, messages = called("verify", "c", "--evidence", "e")
    assert (status, printed) == (4, "") and "e isn't written: it is there already" in messages


NAMES = ["a,b.jpg", "q\"uo'te.jpg", " blank .jpg", "50%0A.jpg", "back\\slash.jpg", "b\u00fcro.jpg", "-n.jpg", "# x.jpg", "sub/a.jpg"]


def named(archive, called, *more):
    """An archive with odd names, each with other bytes, and its catalogue."""
    put(archive, {name: PICTURE + name.encode("utf-8", "surrogateescape") for name in [*NAMES, *more]})
    called("index", "p", "--catalogue", "c", "--pixels", "--quiet")


@needs("hashdeep")
def test_evidence_for_hashdeep(archive, called):
    """hashdeep knows each file of it, also one whose name is no UTF-8, and each that has changed since."""
    named(archive, called, "\udcff.jpg")
    assert called("verify", "c", "--evidence", "e", "--form", "hashdeep")[0] == 0
    audit = ["hashdeep", "-r", "-a", "-v", "-k", "e", str(archive)]
    result = subprocess.run(audit, capture_output=True, text=True)
    assert result.returncode == 0 and f"Files matched: {len(NAMES) + 5}\n" in result.stdout, result
    (archive / "sub" / "a.jpg").write_bytes(b"x")
    assert "Known files not found: 1" in subprocess.run(audit, capture_output=True, text=True).stdout
    (archive / "line\nend.jpg").write_bytes(PICTURE)
    called("index", "p", "--catalogue", "c", "--quiet")
    status, printed, messages = called("verify", "c", "--evidence", "f", "--form", "hashdeep")
    assert (status, printed) == (4, "") and "line ends" in messages and not os.path.exists("f")


# Names with the characters that a manifest has in a code of their own, with such codes, and with what a line of a manifest begins with
IN_BAGS = (
    "line\nend\r.jpg",
    "end\r\n",
    "100%.jpg",
    "100%0A.jpg",
    "%25%0d",
    " before",
    "after ",
    "*star",
    "tab\tin",
    "a\\b",
    "ä",
    "a\u0308",
)


def test_evidence_as_a_manifest_of_a_bag(archive, called):
    """As RFC 8493 has it, by a reader that shares nothing with it. verify --bag reads it, too."""
    bag = archive.parent / "bag"
    bag.mkdir()
    archive.rename(bag / "data")
    put(bag / "data", {name: PICTURE + name.encode() for name in [*NAMES, *IN_BAGS, *(f"sub/{name}" for name in IN_BAGS)]})
    called("index", "bag/data", "--catalogue", "d", "--pixels", "--quiet")
    assert called("verify", "d", "--evidence", "bag/manifest-sha256.txt", "--form", "bagit")[0] == 0
    (bag / "bagit.txt").write_bytes(b"BagIt-Version: 1.0\nTag-File-Character-Encoding: UTF-8\n")
    assert faults_of_bag(bag) == []
    assert called("verify", "--bag", "bag")[0] == 0
    for name, octets in (("100%0A.jpg", b"x"), ("new", b"")):
        (bag / "data" / name).write_bytes(octets)
        assert [name in it for it in faults_of_bag(bag)] == [True] and called("verify", "--bag", "bag")[0] == 1
        called("index", "bag/data", "--catalogue", "d", "--quiet")
        (bag / "manifest-sha256.txt").unlink()
        assert called("verify", "d", "--evidence", "bag/manifest-sha256.txt", "--form", "bagit")[0] == 0
        assert faults_of_bag(bag) == []
    status, printed, messages = called("verify", "d", "--evidence", "e", "--form", "bagit")
    assert (status, printed) == (4, "") and "beside the manifest" in messages and not os.path.exists("e")


SIDECAR, EDITED = title("Vase"), title("Bowl")
# What happens to the sidecar of a.jpg, its state, and the status
HAPPENS_BESIDE = {
    "nothing": (lambda it: None, None, 0),
    "touched": (lambda it: os.utime(it), None, 0),
    "edited": (lambda it: written(it, EDITED), ("captioned", None), 0),
    "rotted": (lambda it: written(it, SIDECAR.replace(b"Vase", b"Vasd"), True), ("DAMAGED", SAME_TIME), 1),
    "cut": (lambda it: written(it, SIDECAR[:-20]), ("cut off", "its XMP can't be read"), 1),
    "gone": (lambda it: it.unlink(), ("missing", None), 1),
    "moved": (lambda it: it.rename(it.parent / "other.xmp"), ("moved", None), 0),
}


@pytest.mark.parametrize("name", HAPPENS_BESIDE)
def test_what_happens_to_a_sidecar(name, folder, called, verified):
    """It is a file of its own, also if two pictures have it, and its picture is as it was."""
    happens, state, status = HAPPENS_BESIDE[name]
    put(folder / "p", {"a.jpg": PICTURE, "a.png": b"", "a.xmp": SIDECAR, "b.jpg": CAPTIONED, "b.jpg.xmp": title("b")})
    for path in (folder / "p").iterdir():
        aged(path)
    called("index", "p", "--catalogue", "c", "--pixels", "--sidecars", "--quiet")
    happens(folder / "p" / "a.xmp")
    found, states, (summary,) = verified("--evidence", "e")
    assert (found, states) == (status, {"a.xmp": state} if state else {})
    assert (summary["new"], summary["files"]) == (0, 5 - (name == "gone"))
    assert subprocess.run(["sha256sum", "--quiet", "-c", "e"]).returncode == 0


# How often files are read


@pytest.fixture
def reads(monkeypatch):
    """The bytes that are read of each file, by its name: of those that are opened as `opening` opens files."""
    counts = {}
    opened = opening.opened

    def counting(path):
        number, size = opened(path)
        counts[os.path.basename(os.fsdecode(path))] = counts.get(os.path.basename(os.fsdecode(path)), 0) + size
        return number, size

    monkeypatch.setattr(opening, "opened", counting)
    return counts


@pytest.mark.parametrize("jobs", ["1", "3"])
def test_a_file_as_it_was_is_read_once(jobs, archive, verified, reads, monkeypatch):
    """And nobody looks into it. One with other bytes is looked into."""
    looked = []
    look = looking.look
    monkeypatch.setattr(looking, "look", lambda file, *more: looked.append(os.path.basename(file.path)) or look(file, *more))
    assert verified("--jobs", jobs)[0] == 0
    sizes = {name: os.path.getsize(archive / name) for name in ("a.jpg", "b.jpg", "c.gif", "d.txt")}
    assert ({name: reads[name] for name in sizes}, looked) == (sizes, [])
    written(archive / "a.jpg", CAPTIONED)
    assert verified("--jobs", jobs)[:2] == (0, {"a.jpg": ("captioned", None)}) and looked == [b"a.jpg"]


def test_bytes_of_a_file_as_it_was(folder, indexed):
    """By the system's own count, of one thread, whose calls stand in one line each: each byte once, in few calls."""
    size = 3_000_000
    indexed({f"{number}.jpg": PICTURE + bytes([number]) * size for number in range(3)}, "--pixels")
    words = ["strace", "-ff", "-y", "-e", "trace=read,pread64,readv,mmap", "-o", "trace", sys.executable, "-m", "exifnorm_pictures"]
    ran = subprocess.run([*words, "verify", "c", "--jobs", "1", "--quiet"], cwd=folder, capture_output=True, env=Studio.environment())
    assert ran.returncode == 0, ran.stderr
    traces = [
        it.read_text(encoding="utf-8", errors="replace") for it in folder.glob("trace.*")
    ]  # of each process, so that no line is divided
    calls = [line for text in traces for line in text.splitlines() if f"{folder}/p/" in line]
    read = [int(it[1]) for it in (re.search(r"= (\d+)$", line) for line in calls) if it]
    assert sum(read) == 3 * (size + len(PICTURE)) and len(read) <= 3 * (size // 1_000_000 + 3)


def test_a_run_that_was_stopped(archive, called, verified, reads, monkeypatch):
    """What it has read isn't read again, unless it was written to since; the state goes with the run that ends."""
    monkeypatch.setattr(scan_index, "BATCH", 1)
    digest = verified_.digest

    def stops(path, *more):
        if path.endswith(b"c.gif"):
            raise KeyboardInterrupt
        return digest(path, *more)

    monkeypatch.setattr(verified_, "digest", stops)
    status, _, messages = called("verify", "c", "--state", "s", "--jobs", "1")
    assert status == 130 and "goes on from there" in messages and os.listdir("s") == ["verified.catalogue"]
    monkeypatch.setattr(verified_, "digest", digest)
    written(archive / "b.jpg", OTHER)
    reads.clear()
    status, states, (summary,) = verified("--state", "s")
    assert (status, states, summary["earlier"]) == (1, {"b.jpg": ("other picture", None)}, 1)
    assert "a.jpg" not in reads and reads["c.gif"] == os.path.getsize(archive / "c.gif") and not os.path.exists("s")


@pytest.mark.parametrize("words", [(), ("--json",), ("--list", "damaged")], ids=" ".join)
def test_a_run_whose_answer_did_not_get_out(words, archive, called, verified):
    """Its state stays until the answer is written, and not only in a buffer."""
    line = f'exec exifnorm-pictures verify c --state s {" ".join(words)} > /dev/full'
    found = run(["sh", "-c", line], archive.parent)
    assert found.returncode == 4 and b"standard output" in found.stderr
    status, _, (summary,) = verified("--state", "s")
    assert status == 0 and summary["earlier"] == summary["files"] > 0 and not os.path.exists("s")


def test_a_run_that_failed_at_its_end(archive, called, verified):
    """Its evidence can't be written, and what it has read isn't read again."""
    assert called("verify", "c", "--state", "s", "--evidence", "e", "--form", "bagit")[0] == 4
    status, _, (summary,) = verified("--state", "s")
    assert status == 0 and summary["earlier"] > 0 and not os.path.exists("s")


@pytest.mark.parametrize("name", ["c", "p"])
def test_a_state_that_is_somebodys(name, archive, called):
    """No file and no folder of anybody else is taken for a state."""
    before = os.listdir(archive), (archive.parent / "c").read_bytes()
    status, _, messages = called("verify", "c", "--state", name)
    assert status == 4 and name in messages
    assert before == (os.listdir(archive), (archive.parent / "c").read_bytes())


# Bags, as RFC 8493 has them


def bagged(folder, files):
    """A bag, whose manifest is made by sha256sum but for the names with the characters that are percent-encoded."""
    put(os.fsencode(folder), {b"data/" + name: octets for name, octets in files.items()})
    encoded = {name: name.replace(b"%", b"%25").replace(b"\n", b"%0A").replace(b"\r", b"%0D") for name in files}
    lines = [hashlib.sha256(octets).hexdigest().encode() + b"  data/" + encoded[name] for name, octets in files.items()]
    (folder / "manifest-sha256.txt").write_bytes(b"\n".join(lines) + b"\n")


BAG = {b"a.jpg": PICTURE, b"sub/100%\n.jpg": CAPTIONED, b"\xff.txt": b"text", b"sub/ b .jpg": OTHER}


def test_a_bag(folder, called):
    bagged(folder / "bag", BAG)

    def verified():
        status, printed, _ = called("verify", "--bag", "bag", "--json")
        *files, summary = map(json.loads, printed.splitlines())
        return status, {os.path.basename(it["path"]): it["state"] for it in files}, summary["new"]

    assert verified() == (0, {}, 0)
    put(folder / "bag", {"data/a.jpg": CAPTIONED, "data/sub/ b .jpg": OTHER[:-20], "data/new.jpg": PICTURE})
    os.rename(folder / "bag/data/sub/100%\n.jpg", folder / "bag/data/moved.jpg")
    os.remove(os.fsencode(folder) + b"/bag/data/\xff.txt")
    states = {"a.jpg": "other bytes", " b .jpg": "cut off", "100%\n.jpg": "moved", r"\xff.txt": "missing"}
    assert verified() == (1, states, 1)
    bagged(folder / "more", {b"a.jpg": PICTURE})
    put(folder / "more", {"data/b.jpg": PICTURE})
    assert called("verify", "--bag", "more")[0] == 1  # a bag has nothing that its manifest doesn't have


@pytest.mark.parametrize("end", ["", "\n"])
def test_a_manifest_that_lost_lines(end, folder, called):
    """As on a full disk: whichever lines are left, none or some, the bag isn't verified."""
    files = [b"a.jpg", b".hidden", b"d.txt", b"sub/b.jpg"]
    bagged(folder / "bag", {name: PICTURE + name for name in files})
    manifest = folder / "bag/manifest-sha256.txt"
    lines = manifest.read_text().splitlines()
    assert called("verify", "--bag", "bag")[0] == 0 and len(lines) == len(files)
    for chosen in itertools.product((False, True), repeat=len(lines)):
        left = [line for line, is_left in zip(lines, chosen) if is_left]
        manifest.write_text("\n".join(left) + end * bool(left))
        status, printed, _ = called("verify", "--bag", "bag")
        assert status == (not all(chosen)), (left, printed)
    for length in range(len("\n".join(lines)) - len(lines[-1]), len("\n".join(lines)), 7):
        manifest.write_text("\n".join(lines)[:length])
        assert called("verify", "--bag", "bag")[0] in (1, 3)
    shutil.rmtree(folder / "bag/data")
    manifest.write_text("")
    assert called("verify", "--bag", "bag")[0] == 3
    (folder / "bag/data").mkdir()
    assert called("verify", "--bag", "bag")[0] == 3


def test_a_manifest_of_many_files_is_no_list_in_memory(folder, called, monkeypatch):
    """A stranger's manifest can have millions of lines."""
    bagged(folder / "bag", {b"a.jpg": PICTURE})
    with open(folder / "bag/manifest-sha256.txt", "ab") as manifest:
        manifest.writelines(b"%064x  data/%d\n" % (it, it) for it in range(2500))
    put_rows, most = store.put_rows, []
    monkeypatch.setattr(store, "put_rows", lambda *of: (most.append(len(of[3])), put_rows(*of))[1])
    status, printed, _ = called("verify", "--bag", "bag", "--json")
    assert status == 1 and json.loads(printed.splitlines()[-1])["counts"] == {"as they were": 1, "missing": 2500} and max(most) <= 1000


def test_a_hole_of_terabytes(archive, called, verified):
    """A file of a few kB isn't hashed for an hour: it has no digest, and is never the same file as another."""
    os.truncate(archive / "a.jpg", 2 << 40)
    (archive / "e.jpg").write_bytes(PICTURE)
    os.truncate(archive / "e.jpg", 2 << 40)
    states = verified()[1]
    assert states["a.jpg"][0] == "can't be read" and "b.jpg" not in states
    assert called("index", "p", "--catalogue", "new", "--pixels", "--quiet")[0] == 0
    assert sql_rows("new", "SELECT count(*) FROM pictures WHERE sha256 = ''") == [(2,)]
    assert "identical" not in called("compare", "p/a.jpg", "p/e.jpg")[1]
    assert '"keep": false' not in called("same", "new", "--json")[1]


@pytest.mark.parametrize("words", ([], ["p"], ["--json"], ["--evidence", "e"]))
def test_where_there_is_no_file_nothing_is_verified(words, folder, called):
    """Status 0 would say that all is well."""
    (folder / "p").mkdir()
    called("index", "p", "--catalogue", "c", "--pixels", "--quiet")
    status, printed, messages = called("verify", "c", *words)
    assert (status, printed) == (3, "") and "nothing is verified" in messages and not (folder / "e").exists()
    put(folder / "p", {"new.jpg": PICTURE})
    assert called("verify", "c", "p")[0] == 0  # a file that is there is read
