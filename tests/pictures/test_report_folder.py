"""A report as a folder of pages: all pictures are there, on pages of a limited length, and the folder is replaced whole or not at all."""

import errno
import fcntl
import os
import re
import shutil
import signal
import stat
from hashlib import sha256
from html import unescape
from pathlib import Path
from typing import Any, Callable, Dict, Iterator, List, Set
from unittest import mock
from urllib.parse import unquote_to_bytes

import pytest
from made_blocks import BLOCKS, MAKE, MODEL, block, with_exif
from studio import SMALL_JPEG, put
from test_report import Text

from exifnorm_pictures.comparison.wording import Marker
from exifnorm_pictures.files import atomic, folders

NAMES = [b"a b.jpg", b"per%cent?#.jpg", b"latin\xff.jpg", b"line\nend.jpg", b"<b onclick=alert(1)>&amp;.jpg", b"quote'\".jpg", b"-dash.jpg"]
Called = Callable[..., Any]


def picture(make: bytes) -> bytes:
    return with_exif(SMALL_JPEG, block([MAKE[:-4] + make[:3] + b"\0", MODEL]))


def pages_of(folder: Path) -> Dict[str, str]:
    return {it.name: it.read_text(encoding="utf-8") for it in folder.glob("*.html")}


def files_of(links: List[str], folder: Path) -> Set[bytes]:
    """The files beside the report, or beside its folder, to which some links lead."""
    names = [unquote_to_bytes(it.partition("./")[2]) for it in links if it.startswith(("./", "../"))]
    return {os.path.join(os.fsencode(folder), it) for it in names}


@pytest.fixture
def archive(folder: Path, called: Called) -> Path:
    """Folders of 450, 30 and a few pictures, of which 230 changed in their own way and 210 in the same, 205 are refused, and 225 are the same."""
    files = {f"many/{number:03}.jpg": picture(b"%03d" % number) for number in range(240)}
    files.update({f"many/same{number:03}.jpg": picture(b"Old") for number in range(210)})
    files.update({f"some/{number:03}.jpg": picture(b"abc") for number in range(30)})
    files.update({f"refused/{number:03}.jpg": with_exif(SMALL_JPEG, BLOCKS["Overlap"]) for number in range(205)})
    put(str(folder / "p"), files)
    called("index", "p", "--catalogue", "old", "--quiet")
    put(str(folder / "p"), {f"many/{number:03}.jpg": picture(b"%03d" % (999 - number)) for number in range(230)})
    put(str(folder / "p"), {f"many/same{number:03}.jpg": picture(b"New") for number in range(210)})
    called("index", "p", "--catalogue", "c", "--quiet")
    return folder


def test_every_picture_is_there_on_pages_of_at_most_200(archive: Path, called: Called) -> None:
    status, printed, messages = called("report", "c", "--since", "old", "--html", "report/")
    assert (status, printed, messages) == (0, "", "")
    pages = pages_of(archive / "report")
    texts = {name: Text(page) for name, page in pages.items()}
    assert [(name, it.wrong) for name, it in texts.items() if [one for one in it.wrong if not one[2:] or not is_page(one[2])]] == []
    everything = {os.fsencode(path) for path in (archive / "p").rglob("*.jpg")}
    linked: Dict[str, Set[bytes]] = {}
    for name, text in texts.items():
        linked.setdefault(re.sub(r"-\d+\.html", "", name), set()).update(files_of(text.links, archive))
        assert len(files_of(text.links, archive)) <= 200, f"{name} has more pictures than a page should"
    assert linked["folders"] == everything
    full = [
        len(files_of(texts[f"folders-{number}.html"].links, archive))
        for number in range(1, len(texts))
        if f"folders-{number}.html" in texts
    ]
    assert all(sum(two) > 200 for two in zip(full, full[1:])), f"pages of {full} pictures might be fewer"
    assert len(linked["changed"]) == 440 and len(linked["refused"]) == 205 and len(linked["same"]) >= 240
    values = "".join(page for name, page in pages.items() if name.startswith("changed-"))
    assert [it for it in range(230) if f">{999 - it:03}</ins>" not in values] == [], "values that no page has"


def is_page(address: str) -> bool:
    """Whether an address is that of a page or a small picture of the same folder."""
    return re.fullmatch(r"[a-z]+(-\d+)?\.html(#[a-z]+(-\d+|-title)?)?|small-[0-9a-f]{64}-[1-8]\.jpg", address) is not None


def test_each_link_leads_to_a_page_and_a_place_of_the_report(archive: Path, called: Called) -> None:
    called("report", "c", "--since", "old", "--html", "report/")
    pages = pages_of(archive / "report")
    reached = {"index.html"}
    for name, page in pages.items():
        for link in Text(page).links:
            if not link.startswith("../"):
                target, _, place = link.partition("#")
                reached.add(target or name)
                assert not place or place.startswith("find=") or f'id="{place}"' in pages[target or name], f"{link} in {name} leads nowhere"
    assert reached == set(pages)


def test_hostile_names_are_linked_and_escaped(folder: Path, called: Called) -> None:
    (folder / "p").mkdir()
    for name in NAMES:
        (folder / "p" / os.fsdecode(name)).write_bytes(picture(b"abc"))
    called("index", "p", "--catalogue", "c", "--quiet")
    for words, head in (([], b"/"), (["--link-to", "https://dam.example/x/{path}?n={name}"], b"")):
        called("report", "c", "--html", "page.html", *words)
        page = (folder / "page.html").read_text(encoding="utf-8")
        assert "<b onclick" not in page and "\\nend.jpg" in page and "latin\\xff.jpg" in page
        links = [unescape(it) for it in re.findall(r'<a [^>]*href="([^"]*)"', page) if not it.startswith("#")]
        if words:
            assert {unquote_to_bytes(it.partition("/x/")[2].partition("?n=")[0]) for it in links} == set(NAMES)
            assert {unquote_to_bytes(it.partition("?n=")[2]) for it in links} == set(NAMES)
        else:
            assert {os.path.basename(it) for it in files_of(links, folder)} == set(NAMES)


@pytest.mark.parametrize("address", ["javascript:alert(1)//{path}", "https://dam.example/", "dam.example/{path}", "data:text/html,{path}"])
def test_an_address_that_is_none_of_a_picture(address: str, folder: Path, called: Called) -> None:
    put(str(folder), {"p/a.jpg": picture(b"abc")})
    called("index", "p", "--catalogue", "c", "--quiet")
    status, _, messages = called("report", "c", "--html", "page.html", "--link-to", address)
    assert status == 3 and "--link-to" in messages and not (folder / "page.html").exists()


def test_a_large_archive_is_no_single_page(folder: Path, called: Called, monkeypatch: pytest.MonkeyPatch) -> None:
    put(str(folder), {f"p/{number}.jpg": picture(b"abc") for number in range(4)})
    called("index", "p", "--catalogue", "c", "--quiet")
    for name, most in (("MOST_OF_A_PAGE", 3), ("MOST_BYTES", 100)):
        with monkeypatch.context() as patched:
            patched.setattr(f"exifnorm_pictures.report.book.{name}", most)
            status, _, messages = called("report", "c", "--html", "page.html")
            assert status == 3 and "--html NAME/" in messages and not (folder / "page.html").exists()
            assert called("report", "c", "--html", "report/")[0] == 0


def test_progress_counts_each_picture_when_it_is_first_shown(archive: Path, called: Called, monkeypatch: pytest.MonkeyPatch) -> None:
    """Not only when the last list shows all: to make the small pictures of the lists before takes the time."""
    counts: List[int] = []
    before: List[int] = []
    written = folders.NewFolder.write

    def write(folder: folders.NewFolder, name: str, octets: bytes) -> None:
        if name == "folders-1.html":
            before.append(counts[-2])
        written(folder, name, octets)

    monkeypatch.setattr("exifnorm_pictures.scan.progress.Progress.done", lambda _, count: counts.append(count))
    monkeypatch.setattr(folders.NewFolder, "write", write)
    assert called("report", "c", "--since", "old", "--html", "report/")[0] == 0
    total = len(list((archive / "p").rglob("*.jpg")))
    assert counts == sorted(counts) and counts[-1] == total and before[0] >= 440


# The folder


@pytest.fixture
def small(folder: Path, called: Called) -> Path:
    put(str(folder), {"p/a.jpg": picture(b"abc")})
    called("index", "p", "--catalogue", "c", "--quiet")
    return folder


def tree(folder: Path) -> Dict[str, bytes]:
    return {str(it.relative_to(folder)): it.read_bytes() for it in folder.rglob("*") if it.is_file()}


def test_an_earlier_report_is_replaced(small: Path, called: Called) -> None:
    for title in ("One", "Two"):
        assert called("report", "c", "--html", "report/", "--title", title)[0] == 0
    (small / "report" / "index.html").rename(small / "kept.html")
    assert called("report", "c", "--html", "report", "--title", "Three")[0] == 0, "a folder needs no slash"
    assert "<h1>Three</h1>" in pages_of(small / "report")["index.html"]
    assert sorted(it.name for it in small.iterdir()) == ["c", "kept.html", "p", "report"]
    (small / "empty").mkdir()
    assert called("report", "c", "--html", "empty")[0] == 0


LISTED = ("notes.txt", "notes.html", "mine/notes.html", "link.html", "index.html")  # that a list has, and that no report has written


@pytest.mark.parametrize("what", ["a file", "a folder of others", "a note in a report", "a folder in a report", "the pictures", *LISTED])
def test_nothing_else_is_replaced(what: str, small: Path, called: Called) -> None:
    out = small / ("p" if what == "the pictures" else "out")
    if what == "a file":
        out.write_text("mine")
    elif what == "a folder of others":
        put(str(out), {"index.html": b"<!DOCTYPE html>mine"})
    elif what in LISTED:
        called("report", "c", "--html", "out/")
        (out / what).parent.mkdir(exist_ok=True)
        if what == "link.html":
            (out / what).symlink_to("index.html")
        else:
            (out / what).write_bytes(b"<!DOCTYPE html>mine")
        with (out / "exifnorm-report").open("a") as lists:
            lists.write(
                f"{what}\n{sha256((out / 'index.html').read_bytes()).hexdigest()}  {os.path.dirname(what) or what}\n"
                * (what != "index.html")
            )
    elif "report" in what:
        called("report", "c", "--html", "out/")
        put(str(out), {"notes.txt" if "note" in what else "mine/notes.txt": b"mine"})
    before = tree(small)
    status, _, messages = called("report", "c", "--html", f"{out}/")
    assert status == 4 and "isn't written" in messages and len(messages.splitlines()) == 1
    assert tree(small) == before, "something was written"


@pytest.mark.parametrize("error", [OSError(errno.ENOSPC, "full"), OSError(errno.EACCES, "no"), KeyboardInterrupt()])
@pytest.mark.parametrize("call", ["tempfile.mkdtemp", "os.fsync", "os.rename", "ctypes.get_errno"])
def test_a_run_that_fails_says_so_and_leaves_the_earlier_report(
    call: str, error: BaseException, small: Path, called: Called, monkeypatch: pytest.MonkeyPatch
) -> None:
    """Where names can be exchanged at once, and where they can't."""
    called("report", "c", "--html", "report/", "--title", "One")
    before = tree(small)
    with monkeypatch.context() as patched:
        if call == "ctypes.get_errno":
            patched.setattr("ctypes.CDLL", lambda *_, **__: mock.Mock(renameat2=lambda *_: -1))
            patched.setattr(call, lambda: getattr(error, "errno", errno.EIO))
        else:
            patched.setattr(folders, "_exchange", lambda *_: False)
            patched.setattr(call, mock.Mock(side_effect=error))
        status, _, messages = called("report", "c", "--html", "report/", "--title", "Two")
    assert tree(small) == before and status in (4, 130)
    assert status == 130 or "isn't written" in messages and len(messages.splitlines()) == 1


def flock_of_nfs(file: Any, how: int) -> None:
    """Another machine sees the lock of a file, which is open to be written; not that of a folder."""
    number = file if isinstance(file, int) else file.fileno()
    if how & fcntl.LOCK_EX and fcntl.fcntl(number, fcntl.F_GETFL) & os.O_ACCMODE == os.O_RDONLY:
        raise OSError(errno.EBADF, "Bad file descriptor")
    if not stat.S_ISDIR(os.fstat(number).st_mode):
        LOCKS(number, how)


LOCKS = fcntl.flock


@pytest.mark.parametrize("flock", [LOCKS, flock_of_nfs], ids=["here", "on a share"])
def test_what_a_killed_run_left_is_removed_by_the_next_one(
    flock: Any, small: Path, called: Called, monkeypatch: pytest.MonkeyPatch
) -> None:
    """And no folder of a run that lives, and none with files that no report has."""
    monkeypatch.setattr(fcntl, "flock", flock)

    def killed() -> None:
        child = os.fork()
        if not child:
            monkeypatch.setattr(folders, "_put", lambda *_: os.kill(os.getpid(), signal.SIGKILL))
            called("report", "c", "--html", "report/")
            os._exit(0)
        assert os.WTERMSIG(os.waitpid(child, 0)[1]) == signal.SIGKILL

    def left() -> List[str]:
        return sorted(it.name for it in small.iterdir() if it.name.startswith(".exifnorm-"))

    killed()
    assert len(left()) == 1
    put(str(small / left()[0]), {f"small-{number:064x}-1.jpg": b"x" for number in range(2_500)})
    shutil.copytree(small / left()[0], small / ".exifnorm-abcd_123.part")
    (small / ".exifnorm-abcd_123.part" / "mine.txt").write_text("mine")
    with folders.replaced(os.fsencode(small / "other"), "exifnorm-report", ["c"]) as living:
        living.write("index.html", b"<!DOCTYPE html>")
        assert called("report", "c", "--html", "report/")[0] == 0
        assert left() == sorted([".exifnorm-abcd_123.part", os.path.basename(os.fsdecode(living.path))])
    killed()
    assert called("report", "c", "--html", "report/")[0] == 0
    assert left() == [".exifnorm-abcd_123.part"] and pages_of(small / "other").keys() == {"index.html"}


def test_a_run_that_begins_while_another_one_looks_keeps_its_folder(small: Path, monkeypatch: pytest.MonkeyPatch) -> None:
    """It makes and locks its list once the other has seen that the folder has none."""
    begun, locks, scan = small / ".exifnorm-abcd_123.part", [], os.scandir
    begun.mkdir()

    def scandir(folder: Any) -> Any:
        entries = scan(folder)
        if isinstance(folder, int) and not locks:
            locks.append(atomic.locked(os.open(begun / "exifnorm-report", os.O_RDWR | os.O_CREAT)))
        return entries

    monkeypatch.setattr(os, "scandir", scandir)
    with folders.replaced(os.fsencode(small / "other"), "exifnorm-report", ["c"]):
        assert os.listdir(begun) == ["exifnorm-report"]
    os.close(locks[0])


def test_a_share_whose_locks_reach_no_other_machine(small: Path, called: Called, monkeypatch: pytest.MonkeyPatch) -> None:
    """A run there takes what one that lives has not written yet for that of a killed one: that run says so, and what it was to replace stays."""
    monkeypatch.setattr(fcntl, "flock", lambda *_: None)
    monkeypatch.delattr(os, "O_TMPFILE")
    assert called("report", "c", "--html", "report/")[0] == called("report", "c", "--html", "page.html")[0] == 0
    before = tree(small)

    def write(file: Any) -> None:
        file.write(b"<!DOCTYPE html>")
        assert called("report", "c", "--html", "other.html")[0] == 0

    with pytest.raises(atomic.NotReplaced):
        atomic.replace(os.fsencode(small / "page.html"), write, lambda _: True)
    with pytest.raises(atomic.NotReplaced), folders.replaced(os.fsencode(small / "report"), "exifnorm-report", ["c"]) as living:
        assert called("report", "c", "--html", "other/")[0] == 0
        living.write("index.html", b"<!DOCTYPE html>")
    assert {name: it for name, it in tree(small).items() if not name.startswith("other")} == before


@pytest.mark.parametrize("nameless", [True, False])
def test_what_a_killed_run_left_of_one_page_is_removed_by_the_next_one(
    nameless: bool, small: Path, called: Called, monkeypatch: pytest.MonkeyPatch
) -> None:
    """On file systems with and without files that have no name. No file of a run that lives, no link or folder, none of another user, and none with another name."""
    if not nameless:
        monkeypatch.delattr(os, "O_TMPFILE")

    def killed() -> None:
        child = os.fork()
        if not child:
            with mock.patch.object(os, "replace", lambda *_: os.kill(os.getpid(), signal.SIGKILL)):
                called("report", "c", "--html", "page.html")
            os._exit(0)
        assert os.WTERMSIG(os.waitpid(child, 0)[1]) == signal.SIGKILL

    def left() -> Set[str]:
        return {it.name for it in small.glob(".*") if it.name not in others}

    others = {
        ".exifnorm-0123456789ab-01234567.part",  # the sum is another one
        ".exifnorm-0123456789ab-notes.part",
        ".exifnorm-0123456789ab-0623c932.part.html",
        folder := ".exifnorm-0123456789ae-98475c91.part",
        link := ".exifnorm-0123456789ab-0623c932.part",
    }
    put(str(small), {"mine.html": b"<!doctype html>", **{name: b"mine" for name in others - {folder, link}}})
    (small / folder).mkdir()
    (small / link).symlink_to(small / "mine.html")
    if os.geteuid() == 0:
        others.add(another := ".exifnorm-0123456789ad-ef406c07.part")
        (small / another).write_bytes(b"")
        os.chown(small / another, 1, 1)
    killed()
    assert len(left()) == 1, "a killed run leaves a file, or this test shows nothing"
    (dead,) = left()

    def write(file: Any) -> None:
        file.write(b"<!DOCTYPE html>")
        file.flush()
        living.update(left() - {dead})
        assert called("report", "c", "--html", "page.html")[0] == 0
        assert left() == living

    living: Set[str] = set()
    atomic.replace(os.fsencode(small / "other.html"), write, lambda head: head.lower().startswith(b"<!doctype html"))
    assert len(living) == (not nameless) and left() == set() and (small / "other.html").read_bytes() == b"<!DOCTYPE html>"
    assert {it.name for it in small.glob(".*")} == others and (small / "mine.html").exists()


def test_what_is_put_into_the_earlier_folder_meanwhile_stays(small: Path, called: Called, monkeypatch: pytest.MonkeyPatch) -> None:
    """Also at the last moment, when the names are exchanged: then it stays in the folder that is left."""
    assert called("report", "c", "--html", "report/", "--title", "One")[0] == 0
    written = folders.NewFolder.write
    note = small / "report" / "note.txt"

    def write(folder: folders.NewFolder, *words: Any) -> None:
        written(folder, *words)
        note.write_text("mine")

    with monkeypatch.context() as patched:
        patched.setattr(folders.NewFolder, "write", write)
        status, _, messages = called("report", "c", "--html", "report/")
        assert status == 4 and "note.txt" in messages and note.read_text() == "mine"
    note.unlink()
    exchanged = folders._put

    def put_late(*paths: bytes) -> None:
        note.write_text("mine")
        exchanged(*paths)

    monkeypatch.setattr(folders, "_put", put_late)
    assert called("report", "c", "--html", "report/", "--title", "Two")[0] == 0
    (left,) = small.glob(".exifnorm-*.part")
    assert "<h1>Two</h1>" in pages_of(small / "report")["index.html"] and [it.name for it in left.iterdir()] == ["note.txt"]


def test_without_an_exchange_of_names(small: Path, called: Called, monkeypatch: pytest.MonkeyPatch) -> None:
    """As on file systems that have none."""
    monkeypatch.setattr(folders, "_exchange", lambda *_: False)
    for title in ("One", "Two"):
        assert called("report", "c", "--html", "report/", "--title", title)[0] == 0
    assert "<h1>Two</h1>" in pages_of(small / "report")["index.html"]
    assert sorted(it.name for it in small.iterdir()) == ["c", "p", "report"]


def test_an_exchange_is_one_step(small: Path, called: Called, monkeypatch: pytest.MonkeyPatch) -> None:
    """The name always leads to a whole report: the old one isn't moved aside first."""
    called("report", "c", "--html", "report/", "--title", "One")
    monkeypatch.setattr(os, "rename", mock.Mock(side_effect=AssertionError("renamed")))
    assert called("report", "c", "--html", "report/", "--title", "Two")[0] == 0


@pytest.mark.parametrize("mode", [0o600, 0o640, 0o644], ids=oct)
def test_a_new_folder_allows_what_its_catalogue_does(mode: int, small: Path, called: Called) -> None:
    (small / "c").chmod(mode)
    called("report", "c", "--html", "report/")
    out = small / "report"
    assert {it.stat().st_mode & 0o777 for it in out.iterdir()} == {mode}
    assert out.stat().st_mode & 0o777 == mode | 0o100 | (mode & 0o044) >> 2
    out.chmod(0o711)
    for name in out.iterdir():
        name.chmod(0o604)
    called("report", "c", "--html", "report/")
    assert out.stat().st_mode & 0o777 == 0o711 and {it.stat().st_mode & 0o777 for it in out.iterdir()} == {0o604}


# Before and after


@pytest.mark.parametrize("is_replaced", [False, True])
def test_another_picture_is_shown_beside_the_earlier_one(is_replaced: bool, folder: Path, called: Called) -> None:
    """Two copies, or a file that was replaced, of which the tile says so."""
    one = with_exif(SMALL_JPEG, block([MAKE]))
    sides = ["x", "x"] if is_replaced else ["x", "y"]
    for side, octets, catalogue in zip(sides, (one, one[:-3] + bytes([one[-3] ^ 1]) + one[-2:]), ("old", "c")):
        put(str(folder), {f"{side}/a.jpg": octets})
        called("index", side, "--catalogue", catalogue, "--pixels", "--quiet")
    called("report", "c", "--since", "old", "--html", "page.html")
    (pair,) = re.findall(r'<ul class="small pair">(.*?)</ul>', (folder / "page.html").read_text(encoding="utf-8"), re.S)
    before, after = pair.split("<li>")[1:]
    assert [os.path.dirname(it) for it in files_of(re.findall('<a href="([^"]*)"', before), folder)] == [os.fsencode(folder / "x")] * (
        not is_replaced
    )
    assert ("<svg" in before, "the earlier file is gone" in before) == (not is_replaced, is_replaced)
    assert files_of(re.findall('<a href="([^"]*)"', after), folder) == {os.fsencode(folder / sides[1] / "a.jpg")} and "<svg" in after


def test_a_picture_has_each_tag_once(folder: Path, called: Called) -> None:
    """Also one that is cut off without a block, which its state and a list show."""
    put(str(folder), {"p/1.jpg": picture(b"new"), "p/2.jpg": SMALL_JPEG[:12], "p/3.jpg": with_exif(SMALL_JPEG, BLOCKS["Overlap"])})
    called("index", "p", "--catalogue", "c", "--pixels", "--quiet")
    called("report", "c", "--html", "page.html")
    page = (folder / "page.html").read_text(encoding="utf-8").rpartition('id="folders-')[2]
    tags = {}
    for item in re.findall(r"<li>(.*?)</li>", page, re.S):
        tags[re.findall(r"(\d)\.jpg", item)[-1]] = re.findall(r'class="tag[^"]*"[^>]*>([^<]*)<', item)
    assert tags["2"] and tags["3"] and all(len(it) == len(set(it)) for it in tags.values()), tags


# Words


def texts(pieces: Any) -> Iterator[str]:
    return (it.text for it in pieces)


@pytest.mark.parametrize(
    "before, after, gone, new",
    [
        ("Bowl, celadon, 1820", "Bowl, celadon, 1280", ["1820"], ["1280"]),
        ("Portrait of a woman", "Portrait of Anna Wirth", ["a woman"], ["Anna Wirth"]),
        ("one two three", "one three", ["two "], []),
        ("", "new", [], ["new"]),
        ("same", "same", [], []),
    ],
)
def test_the_words_that_changed(before: str, after: str, gone: List[str], new: List[str]) -> None:
    first, second = Marker().marked(before, after)
    assert ("".join(texts(first)), "".join(texts(second))) == (before, after), "a text isn't whole"
    assert [it.text for it in first or () if it.is_changed] == gone and [it.text for it in second or () if it.is_changed] == new


def test_long_texts_cost_a_limited_number_of_steps(monkeypatch: pytest.MonkeyPatch) -> None:
    """A stranger's picture may have a text of 65,536 words, and thousands of fields."""
    compared = 0

    def matcher(_: object, before: List[str], after: List[str], __: bool) -> Any:
        nonlocal compared
        compared += len(before) * len(after)
        return mock.Mock(get_opcodes=list)

    monkeypatch.setattr("difflib.SequenceMatcher", matcher)
    marker = Marker()
    for number in range(50):
        marker.marked("a " * 400 + str(number), "b " * 400)
    first, second = marker.marked("x " + "a " * 30_000 + "y", "x " + "b " * 30_000 + "y")
    assert compared <= 1_000_000 and "".join(texts(first)) == "x " + "a " * 30_000 + "y"
    assert [it.is_changed for it in second or ()] == [False, True, False]
