"""The small pictures of a report: one for each picture that Pillow reads, the right way up, at most 10 kB; a hostile one costs its tile alone."""

import base64
import contextlib
import io
import os
import re
import struct
from pathlib import Path
from typing import Any, Callable, Dict, Iterator, List, Sequence
from unittest import mock

import pytest
from made_files import app1
from studio import SMALL_JPEG, needs, put, tool

from exifnorm_pictures.extract import exiftool, programs
from exifnorm_pictures.files import session
from exifnorm_pictures.model.found import Blocks
from exifnorm_pictures.report import shrinking, small_pictures

Image = pytest.importorskip("PIL.Image")
LARGEST = 10_000
RED, BLUE = (255, 0, 0), (0, 0, 255)
Called = Callable[..., Any]


@pytest.fixture
def shrinker() -> Iterator[small_pictures.Shrinker]:
    with contextlib.closing(small_pictures.Shrinker()) as process:
        yield process


def small(paths: Sequence[bytes], shrinker: small_pictures.Shrinker) -> Dict[bytes, str]:
    """The addresses of the small pictures of some files, on one page."""
    kept = small_pictures.InPage()
    pictures = small_pictures.SmallPictures([], kept)
    pictures._shrinker = shrinker
    return {path: data_of(kept, address) for path, address in pictures.of(paths).items()}


def half_red(size: Any = (800, 400), mode: str = "RGB") -> Any:
    """A picture whose upper half is red, and its lower half blue."""
    picture = Image.new("RGB", size, BLUE)
    picture.paste(RED, (0, 0, size[0], size[1] // 2))
    return picture.convert(mode)


def saved(picture: Any, path: Path, **words: Any) -> bytes:
    picture.save(path, **words)
    return os.fsencode(path)


def data_of(kept: small_pictures.InPage, address: str) -> str:
    """The data of a small picture, to which its address leads."""
    return next(it.data for it in kept.symbols if f"#{it.name}" == address)


def shown(uris: Dict[bytes, str], path: bytes) -> Any:
    octets = base64.b64decode(uris[path].partition("base64,")[2])
    assert len(octets) <= LARGEST, f"{len(octets)} bytes are more than a tile should have"
    return Image.open(io.BytesIO(octets))


def is_red(colour: Any) -> bool:
    return bool(colour[0] > 150 > colour[2])


@pytest.mark.parametrize(
    "name, mode",
    [("a.jpg", "RGB"), ("a.png", "RGBA"), ("a.png", "P"), ("a.tif", "CMYK"), ("a.tif", "L"), ("a.webp", "RGB"), ("a.gif", "P")],
)
def test_each_format_has_one(name: str, mode: str, tmp_path: Path, shrinker: small_pictures.Shrinker) -> None:
    path = saved(half_red(mode=mode), tmp_path / name)
    picture = shown(small([path], shrinker), path)
    assert max(picture.size) <= 300 and abs(picture.size[0] / picture.size[1] - 2) < 0.05
    if mode != "L":
        assert is_red(picture.getpixel((picture.width // 2, 5))) and not is_red(picture.getpixel((picture.width // 2, picture.height - 5)))


def test_of_a_file_that_is_cut_off_there_is_what_is_left(tmp_path: Path, shrinker: small_pictures.Shrinker) -> None:
    path = saved(half_red((1600, 1600)), tmp_path / "a.jpg")
    (tmp_path / "a.jpg").write_bytes((tmp_path / "a.jpg").read_bytes()[: os.path.getsize(path) * 6 // 10])
    picture = shown(small([path], shrinker), path)
    assert is_red(picture.getpixel((100, 20))) and not is_red(picture.getpixel((100, 280)))


def test_noise_is_small_too(tmp_path: Path, shrinker: small_pictures.Shrinker) -> None:
    path = saved(Image.frombytes("RGB", (900, 600), os.urandom(900 * 600 * 3)), tmp_path / "noise.png")
    shown(small([path], shrinker), path)


# CIPA DC-008, 4.6.5: where the stored first row and first column are shown
ORIENTATIONS = {1: "top", 2: "top", 3: "bottom", 4: "bottom", 5: "left", 6: "right", 7: "right", 8: "left"}


@pytest.mark.parametrize("orientation, side", ORIENTATIONS.items())
@pytest.mark.parametrize("with_thumbnail", [False, True])
def test_it_is_the_right_way_up(
    orientation: int, side: str, with_thumbnail: bool, tmp_path: Path, shrinker: small_pictures.Shrinker
) -> None:
    exif = Image.Exif()
    exif[0x0112] = orientation
    path = saved(half_red(), tmp_path / "a.jpg", exif=exif)
    embedded = io.BytesIO()
    half_red((160, 80)).save(embedded, "JPEG")
    octets = shrinker.small(path, embedded.getvalue() if with_thumbnail else b"")
    assert shrinker.orientation(path) == orientation
    picture = Image.open(io.BytesIO(octets))
    width, height = picture.size
    points = {"top": (width // 2, 3), "bottom": (width // 2, height - 4), "left": (3, height // 2), "right": (width - 4, height // 2)}
    opposite = {"top": "bottom", "bottom": "top", "left": "right", "right": "left"}[side]
    assert [is_red(picture.getpixel(points[it])) for it in (side, opposite)] == [True, False]
    assert (width > height) == (orientation < 5)


def test_hostile_pictures_cost_their_tile(tmp_path: Path, shrinker: small_pictures.Shrinker) -> None:
    """A picture of 400 megapixels in 400 kB, one that is cut, and texts; those before and after them have their tiles."""
    files = {
        "1.jpg": saved(half_red(), tmp_path / "1.jpg"),
        "bomb.png": saved(Image.new("1", (20_000, 20_000)), tmp_path / "bomb.png"),
        "2.jpg": saved(half_red(), tmp_path / "2.jpg"),
    }
    for name, octets in {"text": b"text", "cut.jpg": SMALL_JPEG[:30], "none": b""}.items():
        (tmp_path / name).write_bytes(octets)
        files[name] = os.fsencode(tmp_path / name)
    os.mkfifo(tmp_path / "pipe")
    files.update({"pipe": os.fsencode(tmp_path / "pipe"), "gone": b"/no such file", "3.jpg": saved(half_red(), tmp_path / "3.jpg")})
    uris = small([*files.values()], shrinker)
    assert {name for name, path in files.items() if path in uris} - {"bomb.png"} == {"1.jpg", "2.jpg", "3.jpg"}


EPS = b"%!PS-Adobe-3.0 EPSF-3.0\n%%BoundingBox: 0 0 9 9\n%%EndComments\n0 0 1 setrgbcolor 0 0 9 9 rectfill showpage\n%%EOF\n"
WMF = b"\xd7\xcd\xc6\x9a\0\0" + struct.pack("<4hHI", 0, 0, 9, 9, 72, 0) + b"\0\0\1\0\x09\0\0\x03" + bytes(10)


@pytest.mark.parametrize("octets", [EPS, WMF, b"\xc5\xd0\xd3\xc6" + struct.pack("<2I", 30, len(EPS)) + bytes(18) + EPS])
def test_no_program_is_run(octets: bytes, tmp_path: Path, shrinker: small_pictures.Shrinker, monkeypatch: pytest.MonkeyPatch) -> None:
    """For EPS Pillow runs Ghostscript, which runs what the file says."""
    (tmp_path / "gs").write_text(f"#!/bin/sh\n: > {tmp_path}/taken\nhead -c 2000000000 /dev/zero\n")
    (tmp_path / "gs").chmod(0o755)
    monkeypatch.setenv("PATH", f"{tmp_path}:{os.environ['PATH']}")
    (tmp_path / "a.eps").write_bytes(octets)
    paths = [os.fsencode(tmp_path / "a.eps"), saved(half_red(), tmp_path / "b.jpg")]
    assert [*small(paths, shrinker)] == paths[1:]
    assert not (tmp_path / "taken").exists()


@pytest.mark.parametrize(
    "what",
    ["os.write(1, bytes([255] * 999))", "os.system('echo abcdefgh')", "os.abort()", "bytearray(400 << 20)", "[0 for _ in iter(int, 1)]"],
)
def test_what_ends_the_process_costs_a_tile(
    what: str, tmp_path: Path, shrinker: small_pictures.Shrinker, monkeypatch: pytest.MonkeyPatch
) -> None:
    """As a fault of Pillow may: it prints something, ends, asks for more memory than it may have, or doesn't end."""
    source = Path(shrinking.__file__).read_text(encoding="utf-8")
    faulty = source.replace(
        '    with open(path, "rb") as file:', f'    if b"bad" in path:\n        import os; {what}\n    with open(path, "rb") as file:'
    )
    assert faulty != source
    (tmp_path / "shrinking.py").write_text(faulty.replace("SECONDS, MEMORY = 10,", "SECONDS, MEMORY = 0,"))
    monkeypatch.setattr(shrinking, "__file__", str(tmp_path / "shrinking.py"))
    paths = [saved(half_red((800, height)), tmp_path / name) for name, height in (("1.jpg", 400), ("bad.jpg", 410), ("2.jpg", 420))]
    made = [*small(paths, shrinker)]
    assert made == (paths if "abcdefgh" in what or "255" in what else [paths[0], paths[2]])  # what is printed changes nothing


def test_without_pillow_there_are_thumbnails(tmp_path: Path) -> None:
    shrinker = small_pictures.Shrinker()
    shrinker.is_there = False
    exif = Image.Exif()
    path = saved(half_red(), tmp_path / "a.jpg", exif=exif)
    assert small([path], shrinker) == {}
    sample = os.fsencode(Path(__file__).resolve().parents[2] / "samples/before/ceramics/1998-7-vase.jpg")
    assert shown(small([sample], shrinker), sample).size[0] <= 300


# Each is made once for one coded picture, and kept


@pytest.fixture
def made(monkeypatch: pytest.MonkeyPatch) -> List[str]:
    """The names of the files that are decoded."""
    names: List[str] = []
    small = small_pictures.Shrinker.small

    def counted(shrinker: small_pictures.Shrinker, path: bytes, *words: Any) -> bytes:
        names.append(os.path.basename(os.fsdecode(path)))
        return small(shrinker, path, *words)

    monkeypatch.setattr(small_pictures.Shrinker, "small", counted)
    return names


def captioned(picture: Any, path: Path, text: str, orientation: int = 1) -> None:
    exif = Image.Exif()
    exif[0x010E], exif[0x0112] = text, orientation
    path.parent.mkdir(exist_ok=True)
    saved(picture, path, exif=exif)


def kept(report: Path) -> List[str]:
    return sorted(it.name for it in report.glob("*.jpg"))


def sources(report: Path) -> List[str]:
    """The small pictures that the pages show."""
    pages = "".join(it.read_text(encoding="utf-8") for it in report.glob("*.html"))
    return re.findall(r'<img src="([^"]*)"', pages)


@pytest.mark.parametrize("words", [[], ["--pixels"]])
@pytest.mark.parametrize("ending, copies", [("jpg", 1), ("gif", 20)])
def test_copies_are_decoded_once_and_a_second_report_decodes_nothing(
    words: List[str], ending: str, copies: int, folder: Path, called: Called, made: List[str]
) -> None:
    """20 copies, of JPEGs each with its own caption, are one small picture; one that is turned is another one, as is a new picture."""
    for number in range(20):
        captioned(half_red(), folder / "p" / f"{number}.{ending}", str(number // copies))
    captioned(half_red(), folder / "p" / "turned.jpg", "turned", 6)
    called("index", "p", "--catalogue", "c", "--quiet", *words)
    assert called("report", "c", "--html", "report/")[0] == 0
    assert len(made) == 2 and len(kept(folder / "report")) == 2, "made more than once"
    assert len(sources(folder / "report")) >= 21 and set(sources(folder / "report")) == set(kept(folder / "report"))
    before = {it: (folder / "report" / it).read_bytes() for it in kept(folder / "report")}
    made.clear()
    assert called("report", "c", "--html", "report/")[0] == 0
    assert made == [] and {it: (folder / "report" / it).read_bytes() for it in kept(folder / "report")} == before
    captioned(half_red((600, 400)), folder / "p" / "new.jpg", "new")
    (folder / "p" / "turned.jpg").unlink()
    called("index", "p", "--catalogue", "c", "--quiet", *words)
    assert called("report", "c", "--html", "report/")[0] == 0
    assert made == ["new.jpg"] and len(kept(folder / "report")) == 2, "one that no page shows is kept"


def test_one_page_decodes_each_picture_once(folder: Path, called: Called, made: List[str]) -> None:
    """Though it is in several lists, and though another one can't be decoded."""
    for number in range(3):
        captioned(half_red(), folder / "p" / f"{number}.jpg", "the same")
    (folder / "p" / "cut.jpg").write_bytes(SMALL_JPEG[:30])
    called("index", "p", "--catalogue", "c", "--quiet")
    called("report", "c", "--html", "page.html")
    assert sorted(made) == ["0.jpg", "cut.jpg"]
    assert (folder / "page.html").read_text(encoding="utf-8").count('<image href="data:') == 1


def test_the_earlier_picture_of_a_file_that_was_replaced(folder: Path, called: Called) -> None:
    """It is in the report that is replaced, from which the new one takes it. The thumbnail within, which shows the earlier picture still, is
    shown on neither side."""
    thumbnail = io.BytesIO()
    half_red((160, 80)).save(thumbnail, "JPEG")
    path = folder / "p" / "a.jpg"
    path.parent.mkdir()
    for name, picture in (("old", half_red()), ("c", Image.new("RGB", (800, 400), BLUE))):
        plain = io.BytesIO()
        picture.save(plain, "JPEG")
        path.write_bytes(plain.getvalue()[:2] + app1(with_thumbnail(thumbnail.getvalue())) + plain.getvalue()[2:])
        assert small_pictures.thumbnail_of(os.fsencode(path)) == thumbnail.getvalue()
        called("index", "p", "--catalogue", name, "--quiet", "--pixels")
        words = ["--since", "old"] if name == "c" else []
        assert called("report", name, *words, "--html", "report/")[0] == 0
    page = (folder / "report" / "index.html").read_text(encoding="utf-8")
    before, after = re.findall(r'<li>(?:<a[^>]*>)?<img src="([^"]*)" alt="">(?:before|after)', page)
    shades = [is_red(Image.open(folder / "report" / it).getpixel((100, 20))) for it in (before, after)]
    assert shades == [True, False]
    assert "the earlier file is gone" not in page and "as the last report kept it" in page


def test_a_file_that_changed_since_it_was_indexed_is_shown_as_it_is(folder: Path, called: Called) -> None:
    """The catalogue has the digest of what it was, and a small picture of that is kept."""
    path = folder / "p" / "a.png"
    path.parent.mkdir()
    saved(half_red(), path)
    called("index", "p", "--catalogue", "c", "--quiet", "--pixels")
    called("report", "c", "--html", "report/")
    saved(Image.new("RGB", (800, 400), BLUE), path)
    called("report", "c", "--html", "report/")
    (name,) = kept(folder / "report")
    assert not is_red(Image.open(folder / "report" / name).getpixel((100, 20)))


def test_long_files_that_begin_alike_are_two(tmp_path: Path, shrinker: small_pictures.Shrinker, monkeypatch: pytest.MonkeyPatch) -> None:
    """Of a format without a digest of the coded picture. Only the beginning of a very long file is read for one."""
    monkeypatch.setattr(small_pictures, "_PIECE", 100)
    monkeypatch.setattr(small_pictures, "_MOST_PIECES", 2)
    lower = half_red().transpose(Image.Transpose.FLIP_TOP_BOTTOM)
    lower.paste(BLUE, (0, 396, 800, 400))  # as of the other, which a BMP begins with
    paths = [saved(picture, tmp_path / name) for name, picture in (("a.bmp", half_red()), ("b.bmp", lower))]
    assert len({Path(os.fsdecode(it)).read_bytes()[:200] for it in paths}) == 1
    uris = small(paths, shrinker)
    assert [is_red(shown(uris, it).getpixel((100, 20))) for it in paths] == [True, False]


def with_thumbnail(octets: bytes) -> bytes:
    """An Exif block with a thumbnail (CIPA DC-008, 4.5.5)."""
    entries = [(0x0103, 3, 1, 6), (0x0201, 4, 1, 68), (0x0202, 4, 1, len(octets))]
    first = struct.pack("<HHHIII", 1, 0x0112, 3, 1, 1, 26)
    second = struct.pack("<H", 3) + b"".join(struct.pack("<HHII", *it) for it in entries) + bytes(4)
    return b"II*\0\x08\0\0\0" + first + second + octets


@pytest.mark.parametrize("what", ["no links", "a folder", "a link", "too long", "empty"])
def test_what_is_taken_of_an_earlier_report(
    what: str, folder: Path, called: Called, made: List[str], monkeypatch: pytest.MonkeyPatch
) -> None:
    """A small file, by another way if there are no links; nothing else that has its name, and nothing where that leads to."""
    captioned(half_red(), folder / "p" / "a.jpg", "a")
    called("index", "p", "--catalogue", "c", "--quiet")
    called("report", "c", "--html", "report/")
    (name,) = kept(folder / "report")
    octets = (folder / "report" / name).read_bytes()
    (folder / "other.jpg").write_bytes(b"other")
    (folder / "report" / name).unlink()
    if what == "a folder":
        (folder / "report" / name).mkdir()
    elif what == "a link":
        (folder / "report" / name).symlink_to(folder / "other.jpg")
    else:
        (folder / "report" / name).write_bytes({"no links": octets, "too long": b"x" * 10_001, "empty": b""}[what])
    if what == "no links":
        monkeypatch.setattr(os, "link", mock.Mock(side_effect=PermissionError))
    made.clear()
    status, _, messages = called("report", "c", "--html", "report/")
    if what in ("a folder", "a link"):
        assert status == 4 and name in messages and (folder / "report" / name).exists(), "something else is replaced"
    else:
        assert (folder / "report" / name).read_bytes() == octets and made == ["a.jpg"] * (what != "no links")
    assert (folder / "other.jpg").read_bytes() == b"other"


# HEIC and AVIF, made by heif-enc of libheif


def made_heif(folder: Path, ending: str, *words: str) -> Path:
    """A picture whose upper half is red, and perhaps others after it."""
    half_red((320, 160)).save(folder / "half.png")
    Image.new("RGB", (320, 160), BLUE).save(folder / "blue.png")
    tool(str(folder), "heif-enc", "-q", "60", "half.png", *words, "-o", f"half.{ending}")
    return folder / f"half.{ending}"


@needs("heif-enc")
@pytest.mark.parametrize("ending, words", [("heic", ()), ("avif", ("-A",)), ("heic", ("blue.png",) * 11)])
def test_heic_and_avif_have_one(ending: str, words: Sequence[str], tmp_path: Path, monkeypatch: pytest.MonkeyPatch) -> None:
    monkeypatch.setattr(shrinking, "SECONDS", 600.0)  # of a clock, which a busy machine needs
    path = os.fsencode(made_heif(tmp_path, ending, *words))
    with session.Session(60.0, room=str(tmp_path)) as ours:
        kept = small_pictures.InPage()
        with contextlib.closing(small_pictures.SmallPictures([], kept, ours)) as pictures:
            address = data_of(kept, pictures.of([path])[path])
        assert os.listdir(ours.folder()) == []
    picture = Image.open(io.BytesIO(base64.b64decode(address.partition(",")[2])))
    width, height = picture.size
    top, bottom = picture.getpixel((width // 2, height // 5)), picture.getpixel((width // 2, height * 4 // 5))
    assert picture.size == (300, 150) and top[0] > 200 > 60 > top[2] and bottom[2] > 200 > 60 > bottom[0]


@needs("heif-enc")
def test_a_heic_that_is_damaged_or_slow_costs_its_tile(tmp_path: Path, monkeypatch: pytest.MonkeyPatch) -> None:
    whole = made_heif(tmp_path, "heic")
    octets = whole.read_bytes()
    files = {"cut.heic": octets[: len(octets) // 2], "empty.heic": octets[:12], "zeros.heic": octets[:40] + bytes(len(octets) - 40)}
    put(tmp_path, files)
    with session.Session(60.0, room=str(tmp_path)) as ours:
        with contextlib.closing(small_pictures.SmallPictures([], small_pictures.InPage(), ours)) as pictures:
            found = pictures.of([os.fsencode(tmp_path / name) for name in files])
            assert {path for path in found if not path.endswith(b"cut.heic")} == set()
        monkeypatch.setattr(shrinking, "SECONDS", 0.0)
        with contextlib.closing(small_pictures.SmallPictures([], small_pictures.InPage(), ours)) as pictures:
            assert pictures.of([os.fsencode(whole)]) == {}
        assert os.listdir(ours.folder()) == []


STARTED = {
    "exiftool": lambda ours: exiftool.ask(ours, b"a.heic", ()),
    "exiv2": lambda ours: exiftool._add_by_exiv2(ours, Blocks(type="NRW"), b"a.heic"),
    "heif-convert": lambda ours: small_pictures.as_jpeg(b"a.heic", ours),
}


@pytest.mark.parametrize("name", STARTED)
def test_a_program_has_limits(name: str, tmp_path: Path, monkeypatch: pytest.MonkeyPatch) -> None:
    """At most 1 GiB of addresses, plain words, and a session of its own, in which it is ended with what it has started."""
    script = f"#!/bin/sh\necho $(ulimit -v) $LC_ALL $(cut -d' ' -f 1,6 /proc/$$/stat) >{tmp_path}/told\n"
    put(tmp_path, {f"bin/{name}": script.encode(), "a.heic": b"\0\0\0\x18ftypheic"})
    os.chmod(tmp_path / "bin" / name, 0o755)
    monkeypatch.setenv("PATH", f"{tmp_path}/bin:{os.environ['PATH']}")
    monkeypatch.chdir(tmp_path)
    with session.Session(60.0, room=str(tmp_path)) as ours, contextlib.suppress(programs.Failed):
        STARTED[name](ours)
    addresses, locale, process, its_session = (tmp_path / "told").read_text().split()
    assert int(addresses) <= 1 << 20 and locale == "C" and process == its_session
