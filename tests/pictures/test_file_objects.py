"""Pictures that are read from file objects: in place, or from a copy of one that can't seek. What a path gives is what they must give."""

import bz2
import gzip
import io
import itertools
import lzma
import os
import struct
import tempfile
import tracemalloc
import zipfile
from pathlib import Path

import pytest
from made_blocks import BLOCKS, with_exif
from made_boxes import Item, heif, item_exif
from made_files import app1, exif, jpeg, png
from studio import SMALL_JPEG, TOP, needs
from test_api import FORMATS

from exifnorm import pictures
from exifnorm_pictures.extract.file_objects import PIECES
from exifnorm_pictures.model.budgets import BYTES_READ, COPIED_BYTES, LIMITS

BOWL = Path(TOP) / "samples/before/ceramics/2003-12-bowl.jpg"
HOLE = 8 << 30


class Counted:
    """A file object that counts what is read of it, and returns at most so many bytes at once."""

    def __init__(self, file, most=1 << 40):
        self.file, self.most, self.octets = file, most, 0
        self.seek, self.tell = file.seek, file.tell

    def read(self, length=-1):
        data = self.file.read(min(length, self.most) if length >= 0 else -1)
        self.octets += len(data)
        return data


class Unseekable:
    """The body of a request."""

    def __init__(self, data):
        self.read = io.BytesIO(data).read


def facts(picture):
    return picture.type, picture.meaning, picture.not_read, tuple(picture.fields), picture.captions, picture.refusals


@pytest.fixture
def temporary(tmp_path, monkeypatch):
    """The folder of temporary files, in which none may be left."""
    folder = tmp_path / "temporary"
    folder.mkdir()
    monkeypatch.setattr(tempfile, "tempdir", str(folder))
    yield folder
    assert not list(folder.iterdir())


LARGE = {
    "jpg": (jpeg(app1(exif(b"Anna")))[:-2], HOLE, b"\xff\xd9"),
    "heic": (heif(Item(b"Exif", item_exif(exif(b"Anna")), b"", ())), 0, (1).to_bytes(4, "big") + b"free" + (16 + HOLE).to_bytes(8, "big")),
}


@pytest.mark.parametrize("ending", LARGE)
def test_little_of_a_large_file_is_read(ending, tmp_path):
    before, hole, after = LARGE[ending]
    with open(tmp_path / f"a.{ending}", "w+b") as file:
        file.write(before)
        file.seek(hole, os.SEEK_CUR)
        file.write(after)
        file.truncate(file.tell() + HOLE - hole)
        file.seek(0)
        counted = Counted(file)
        tracemalloc.start()
        picture = pictures.read(counted)
        peak = tracemalloc.get_traced_memory()[1]
        tracemalloc.stop()
    assert "Anna" in [it.value for it in picture.fields] and os.path.getsize(tmp_path / f"a.{ending}") > HOLE
    assert counted.octets < 1 << 20 and peak < 4 << 20


@pytest.mark.parametrize("ending", FORMATS)
def test_as_many_bytes_are_read_as_of_a_path(ending, tmp_path, monkeypatch):
    """Also if they come a few at a time. The file object is then where it was."""
    path = tmp_path / f"a.{ending}"
    path.write_bytes(FORMATS[ending])
    octets, pread = [], os.pread

    def counted(*words):
        octets.append(pread(*words))
        return octets[-1]

    monkeypatch.setattr(os, "pread", counted)
    expected = facts(pictures.read(path))
    with open(path, "rb") as file:
        for most in (1 << 40, 7):
            objects = Counted(file, most)
            objects.name = path.name
            assert facts(pictures.read(objects)) == expected
            assert objects.octets == sum(map(len, octets)) and file.tell() == 0


def test_a_picture_inside_a_file(tmp_path):
    """It begins where the file object is, and this is where it is in the end."""
    with open(tmp_path / "several", "w+b") as file:
        file.write(b"a header" + BOWL.read_bytes())
        file.seek(8)
        assert facts(pictures.read(file)) == facts(pictures.read(BOWL)) == facts(pictures.read(file))
        assert file.tell() == 8
        assert pictures.compare(file, BOWL).result == "same" and file.tell() == 8
        file.seek(0, os.SEEK_END)
        with pytest.raises((pictures.NoPicture, pictures.NotReadable)):
            pictures.read(file)


def opened(way, folder):
    """The bowl in a compressed file."""
    data, path = BOWL.read_bytes(), folder / "compressed"
    if way == "zip":
        with zipfile.ZipFile(path, "w", zipfile.ZIP_DEFLATED) as archive:
            archive.writestr("bowl.jpg", data)
        return zipfile.ZipFile(path).open("bowl.jpg")
    maker = {"gzip": gzip, "bz2": bz2, "lzma": lzma}[way]
    with maker.open(path, "wb") as file:
        file.write(data)
    return maker.open(path)


@pytest.mark.parametrize("way", ["zip", "gzip", "bz2", "lzma"])
def test_a_compressed_file_is_decompressed_once(way, tmp_path, temporary, monkeypatch):
    with opened(way, tmp_path) as file:
        monkeypatch.setattr(type(file), "seek", None)
        assert facts(pictures.read(file)) == facts(pictures.read(BOWL))


@needs("exiftool")
@pytest.mark.parametrize("source", [io.BytesIO, Unseekable])
def test_exiftool_gets_a_copy(source, temporary):
    """Of a damaged picture ExifTool reads what it can; the end of the name must be the same."""
    data = BOWL.read_bytes()[:900]
    path = temporary.parent / "a.jpg"
    path.write_bytes(data)
    expected = pictures.read(path)
    assert "broken" in str(expected.not_read)
    objects = source(data)
    objects.name = "a.jpg"
    assert facts(pictures.read(objects)) == facts(expected)


@needs("exiftool")
@pytest.mark.parametrize("times, whole", [(1, False), (64, True)])
def test_a_copy_has_a_limit(times, whole, temporary, monkeypatch):
    data = BOWL.read_bytes()
    monkeypatch.setitem(LIMITS, COPIED_BYTES, len(data) // times + 1)
    assert facts(pictures.read(Unseekable(data), whole=whole)) == facts(pictures.read(BOWL, whole=whole))
    monkeypatch.setitem(LIMITS, COPIED_BYTES, len(data) // times - 1)
    for source in (Unseekable(data), io.BytesIO(b"no picture" + data)):
        with pytest.raises(pictures.NotReadable, match="bytes of a temporary copy") as error:
            pictures.read(source, whole=whole)
        assert error.value.problem == "TooMuch"
    assert pictures.read(io.BytesIO(data), whole=whole).meaning


# ---- File objects that lie: each call returns or raises what no file does. `read` and `compare` raise what docs/PYTHON.md lists, and end.

PICTURES = {
    "jpg": jpeg(app1(exif(b"Abc"))),
    "cut.jpg": jpeg(app1(exif(b"Abc")))[:300],  # which ExifTool reads, from a copy
    "png": png(),
    "refused.jpg": with_exif(SMALL_JPEG, BLOCKS["Doubled"]),
    "nothing": b"",
}
RAISED = (OSError, pictures.NoPicture, pictures.NotReadable, TypeError)
READS = 20_000  # calls of a file object, of which none of these pictures needs as many


class Liar(io.BytesIO):
    """A file object with one call that lies, from the second time on, so that it passes for a file at first."""

    def __init__(self, octets, call, lie, name):
        super().__init__(octets)
        self.call, self.lie, self.name = call, lie, name
        self.calls, self.octets, self.has_lied = 0, 0, False

    def _answer(self, call, answer, *words):
        self.calls += 1
        assert self.calls < READS, "it is asked without end"
        if call != self.call or self.calls < 3:
            return answer
        self.has_lied = True
        return self.lie(answer, *words) if callable(self.lie) else self.lie

    def read(self, length=-1):
        data = self._answer("read", super().read(length), length)
        self.octets += len(data) if isinstance(data, (bytes, bytearray)) else 0
        return data

    def tell(self):
        return self._answer("tell", super().tell())

    def seek(self, at, whence=os.SEEK_SET):
        if self.call == "seek" and self.lie == "stays":
            return self._answer("", super().tell())
        return self._answer("seek", super().seek(at, whence))

    def seekable(self):
        return self._answer("seekable", True)


def raising(error):
    def fails(*_):
        raise error

    return fails


def released(data, _):
    view = memoryview(data)
    view.release()
    return view


def strided(data, _):
    wide = bytearray(2 * len(data))
    wide[::2] = data
    return memoryview(wide)[::2]


class Odd(bytes):
    __bytes__ = __len__ = raising(KeyError("x"))


class OddNumber(int):
    __le__ = __lt__ = __add__ = __sub__ = __repr__ = __int__ = raising(KeyError("x"))


class OddName(str):
    __bool__ = __len__ = __str__ = raising(KeyError("x"))


ERRORS = {
    raising(it): it for it in (ValueError("closed"), KeyError("x"), io.UnsupportedOperation("seek"), RuntimeError("\x1b[2J"), EOFError())
}
LIES = {
    "read": [
        *ERRORS,
        "text",
        7,
        [b"a"],
        bytearray(b"abc"),
        memoryview(b"abc"),
        released,
        strided,
        Odd(b"abc"),
        None,
        lambda data, _: data + b"more",
        lambda data, _: data[:1],
    ],
    "tell": [*ERRORS, -1, 1 << 70, 1 << 60, 10_000_000, "7", None, 0.5, OddNumber(7)],
    "seek": [*ERRORS, "stays", None, -1],
    "seekable": [*ERRORS, False, None, "no"],
}
EACH = [(call, number) for call, lies in LIES.items() for number in range(len(lies))]


@pytest.mark.parametrize("call, number", EACH)
@pytest.mark.parametrize("name", PICTURES)
def test_a_call_that_lies(name, call, number, tmp_path, monkeypatch):
    """What `read` raises is an error of the caller's own, and never taken for the end of the file."""
    monkeypatch.setattr(tempfile, "tempdir", str(tmp_path))
    monkeypatch.setenv("PATH", str(tmp_path))  # ExifTool takes long, and gets what is copied
    for ask in (pictures.read, lambda file: pictures.compare(file, PICTURE)):
        file, due, raised = Liar(PICTURES[name], call, LIES[call][number], name), [*ERRORS.values()][number : number + 1], None
        try:
            ask(file)
        except RAISED as error:
            assert "internal" not in str(error) and "\n" not in str(error), repr(error)
            raised = error
        assert not (due and call == "read" and file.has_lied) or {raised, getattr(raised, "__cause__", None)} & {*due}
        assert not list(tmp_path.iterdir())


def test_a_file_object_that_has_nothing_yet():
    with pytest.raises(BlockingIOError):
        pictures.read(Liar(PICTURES["jpg"], "read", None, "a.jpg"))


PICTURE = pictures.read_bytes(PICTURES["jpg"])
ODD = [None, True, b"", "text", -1, 1 << 70, float("nan"), [], {}, object(), OddName("x"), OddNumber(7), Odd(b"a"), type, *ERRORS]
CALLS = ("read", "tell", "seek", "seekable", "readable", "fileno", "close", "name", "mode", "closed", "__iter__", "readinto")


@pytest.mark.parametrize("number", range(len(ODD)))
@pytest.mark.parametrize("call", CALLS)
def test_anything_from_any_call(call, number, monkeypatch, tmp_path):
    """As an attribute, and as what a call returns or raises."""
    monkeypatch.setattr(tempfile, "tempdir", str(tmp_path))
    lie = ODD[number]
    answers = lie if callable(lie) and lie is not type else lambda *_: lie
    for attribute in (lie, answers, property(answers)):
        made = type("Odd", (io.BytesIO,), {call: attribute})
        with pictures.Reader(programs=False) as reader:
            for ask in (reader.read, lambda file: pictures.compare(file, PICTURE)):
                try:
                    ask(made(PICTURES["jpg"]))
                except RAISED as error:
                    assert "internal" not in str(error) and "\n" not in str(error), repr(error)


@pytest.mark.parametrize("error", [ValueError("closed"), KeyError("x"), struct.error("7"), OSError(5, "no"), AttributeError("y")], ids=repr)
@pytest.mark.parametrize("call", ["read", "name", "fileno"])
def test_a_call_that_raises_at_once(call, error):
    """Also where it is only asked whether it is a file object."""

    def fails(*_):
        raise error

    made = type("Raising", (io.BytesIO,), {call: property(fails) if call == "name" else fails})
    for ask in (pictures.read, lambda file: pictures.compare(file, PICTURE)):
        try:
            assert ask(made(PICTURES["jpg"])) and call != "read"
        except TypeError:  # a comparison has no truth value
            assert call != "read"
        except OSError as raised:
            assert call != "fileno" and (raised is error or raised.__cause__ is error)


def test_a_name_that_raises():
    with pytest.raises(OSError):
        pictures.read(Liar(PICTURES["jpg"], "", None, OddName("x.jpg")))


@pytest.mark.parametrize("path", ["\ud800.jpg", "a\0b", "", "/" * 5000, b"\0"])
def test_a_path_that_no_file_has(path):
    with pytest.raises(OSError):
        pictures.read(path)


def test_bytes_that_are_apart():
    view = strided(PICTURES["jpg"], 0)
    assert facts(pictures.read_bytes(view)) == facts(pictures.read(Liar(PICTURES["jpg"], "read", strided, "x"))) == facts(PICTURE)


@pytest.mark.parametrize("name", ["\ud800.jpg", "\udfff", "\udc7f.xmp", "a\udcff.jpg", "\0.jpg", "", 7, b"\xff.jpg", None, "/" * 5000])
def test_any_name(name):
    assert facts(pictures.read(Liar(PICTURES["jpg"], "", None, name))) == facts(PICTURE)
    assert facts(pictures.read_bytes(PICTURES["jpg"], name=name if isinstance(name, str) else "")) == facts(PICTURE)


class Endless(io.BytesIO):
    """One of so many bytes by its places, and of bytes without end by what it reads."""

    def __init__(self, octets, length, most, seeks):
        super().__init__(octets)
        self.length, self.most, self.seeks, self.reads = length, most, seeks, 0

    def read(self, length=-1):
        self.reads += 1
        data = super().read(min(length, self.most))
        return data or bytes(min(length, self.most))

    def seekable(self):
        return self.seeks

    def seek(self, at, whence=os.SEEK_SET):
        return super().seek(at if whence == os.SEEK_SET else self.length)


@pytest.mark.parametrize("name", PICTURES)
@pytest.mark.parametrize("length", [1000, 1 << 61])
@pytest.mark.parametrize("seeks", [True, False])
def test_one_that_never_ends(name, length, seeks, tmp_path, monkeypatch):
    """What is copied of it is at most its length, and at most the limit."""
    monkeypatch.setattr(tempfile, "tempdir", str(tmp_path))
    monkeypatch.setenv("PATH", str(tmp_path))
    for limit in (COPIED_BYTES, BYTES_READ):
        monkeypatch.setitem(LIMITS, limit, 1 << 20)
    file = Endless(PICTURES[name], length, 1 << 20, seeks)
    try:
        pictures.read(file)
    except RAISED as error:
        assert "internal" not in str(error), repr(error)
    assert file.reads < READS


def test_the_clock_is_looked_at_between_small_pieces(monkeypatch):
    """One that returns a byte at a time is read as long as the picture's clock runs, and no longer."""
    ticks = itertools.count()
    monkeypatch.setattr("exifnorm_pictures.model.budgets.time.thread_time", lambda: next(ticks) / 5)
    file = Endless(PICTURES["jpg"], 1 << 30, 1, True)
    with pytest.raises(pictures.NotReadable, match="seconds of a processor"):
        pictures.read(file)
    assert file.reads < 100 * PIECES


def test_a_file_object_that_tells_the_truth():
    for name, octets in PICTURES.items():
        if name != "nothing":
            assert facts(pictures.read(Liar(octets, "", None, name))) == facts(pictures.read_bytes(octets, name=name))
