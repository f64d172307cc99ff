"""A `Reader`: several pictures with the same limits, and without other programs if asked."""

import io
import json
import os
import subprocess
import sys
import time
from concurrent.futures import ThreadPoolExecutor
from pathlib import Path
from types import SimpleNamespace

import pytest
from made_museum import first_night
from studio import TOP, needs, put
from test_api import BEFORE, BOWL, FORMATS, Unseekable, facts

from exifnorm import pictures
from exifnorm_pictures.files import session
from exifnorm_pictures.model import budgets

# Each event by which Python starts a process
WATCHED = """
import json, sys
events = []
STARTS = ("subprocess.", "os.system", "os.exec", "os.fork", "os.posix_spawn", "os.spawn", "pty.")
sys.addaudithook(lambda event, words: events.append(str(words and words[0])) if event.startswith(STARTS) else None)
from exifnorm import pictures
results = []
with pictures.Reader(programs=sys.argv[1] == "with") as reader:
    for path in sys.argv[2:]:
        del events[:]
        try:
            result = "Picture" if reader.read(path).fields else ""
        except (pictures.NoPicture, pictures.NotReadable) as error:
            result = getattr(error, "problem", type(error).__name__)
        results.append([result, events[:]])
print(json.dumps(results))
"""
JUNK = {
    "text.jpg": b"hello " * 1000,
    "empty.jpg": b"",
    "djvu.jpg": b"AT&TFORM\0\0\0\x20DJVUINFO\0\0\0\x0a" + bytes(40),
    "cut.jpg": FORMATS["jpg"][:40],
    "head.jpg": b"\xff\xd8\xff\xe0\0",
    "cut.png": FORMATS["png"][:40],
    "head.tif": b"II*\0\x08\0\0\0\xff\xff",
    "a.mrw": b"\0MRM\0\0\0\x10" + bytes(100),
    "a.crw": b"II\x1a\0\0\0HEAPCCDR" + bytes(100),
    "film.crm": b"\0\0\0\x18ftypcrx \0\0\0\1crx isom" + bytes(100),
    "trailer.jpg": FORMATS["jpg"] + b"\xff\xd9" + bytes(100) + b"AXS!" + bytes(8),
    "no.xmp": b"this is no packet",
    "a.pdf": b"%PDF-1.4\n" + bytes(100),
    "a.pl": b"#!/usr/bin/perl\nsystem('true')\n",
}


def watched(tmp_path, programs, files):
    """What a reader finds in some files, and how many processes it started for each."""
    put(tmp_path, files)
    words = [sys.executable, "-c", WATCHED, programs, *(str(tmp_path / name) for name in files)]
    done = subprocess.run(words, stdout=subprocess.PIPE, text=True, check=True, env={**os.environ, "PYTHONPATH": f"{TOP}/python"})
    return dict(zip(files, json.loads(done.stdout)))


def test_without_programs_none_is_started(tmp_path):
    pieces = {
        f"{ending}-{length}.{ending}": data[:length]
        for ending, data in FORMATS.items()
        for length in (3, 20, len(data) // 2, len(data) - 1)
    }
    whole = {f"whole.{ending}": data for ending, data in FORMATS.items()}
    found = watched(tmp_path, "without", {**JUNK, **pieces, **whole})
    assert not [name for name, (_, started) in found.items() if started]
    assert {result for result, _ in found.values()} <= {"Picture", "NoPicture", "NeedsExifTool", "BigTIFF"}
    assert not [name for name in whole if found[name][0] != "Picture"]
    assert found["text.jpg"][0] == found["empty.jpg"][0] == found["djvu.jpg"][0] == "NoPicture"
    assert found["head.jpg"][0] == "NeedsExifTool"


def test_without_programs_none_is_started_for_a_museum(tmp_path):
    """Its pictures as they are, cut in two, and with the endings of raw pictures, which exiv2 reads."""
    made = [(name[-9:].replace("/", "-"), data) for name, data in first_night().items() if isinstance(data, bytes)]
    files = {f"{number}-{name}": data for number, (name, data) in enumerate(made)}
    files.update({f"cut-{name}": data[: len(data) // 2] for name, data in files.items()})
    files.update({f"{number}.{ending}": data for number, (_, data) in enumerate(made) for ending in ("crw", "mrw")})
    assert len(files) > 500 and not [name for name, (_, started) in watched(tmp_path, "without", files).items() if started]


@needs("exiftool")
def test_one_program_reads_many_files(tmp_path):
    found = watched(tmp_path, "with", JUNK)
    assert [it.rpartition("/")[2] for _, started in found.values() for it in started].count("exiftool") == 1


def test_a_trailer_that_is_left_without_programs_is_named(tmp_path):
    read = []
    for programs in (False, True):
        with pictures.Reader(programs=programs) as reader:
            read.append(reader.read(BEFORE / BOWL))
    assert facts(read[0]) == facts(read[1]) and read[0].is_whole


class Slow(io.BytesIO):
    """A body that comes slowly, by the clock of the test."""

    now = 0.0

    def read(self, length=-1):
        Slow.now += 0.03 if length else 0
        return super().read(min(length, 1000) if length > 0 else length)


def slow_body(data):
    body = Unseekable(b"", "")
    body.stream = Slow(data)
    return body


@pytest.mark.parametrize("source", [Slow, slow_body])
def test_a_limit_of_time(source, monkeypatch):
    clock = SimpleNamespace(monotonic=lambda: Slow.now, thread_time=time.thread_time)
    for module in (budgets, session):
        monkeypatch.setattr(module, "time", clock)
    with pictures.Reader(programs=False, seconds=0.1) as reader:
        with pytest.raises(pictures.NotReadable, match="more than 0.1 seconds") as raised:
            reader.read(source(FORMATS["jpg"] + bytes(100_000)))
        assert raised.value.problem == "TooMuch"
        picture = reader.read(BEFORE / BOWL)
        Slow.now += 0.15
        assert list(picture.fields) and picture.meaning and reader.read(BEFORE / BOWL) is not None  # the time is that of each picture


@needs("exiftool")
def test_a_program_that_takes_too_long():
    with pictures.Reader(seconds=0.02) as reader, pytest.raises(pictures.NotReadable) as raised:
        reader.read_bytes(JUNK["djvu.jpg"])
    assert raised.value.problem in ("TooSlow", "TooMuch")  # on a busy machine the time is over before ExifTool is asked


@pytest.mark.parametrize("kind", ["path", "file", "bytes", "body"])
def test_a_limit_of_size(kind, tmp_path):
    data = FORMATS["jpg"]
    (tmp_path / "a.jpg").write_bytes(data)

    def read(reader):
        if kind == "bytes":
            return reader.read_bytes(data)
        return reader.read({"path": tmp_path / "a.jpg", "file": io.BytesIO(data), "body": Unseekable(data, "")}[kind])

    with pictures.Reader(most=len(data)) as reader:
        assert read(reader).type == "JPEG"
    with pictures.Reader(most=len(data) - 1) as reader, pytest.raises(
        pictures.NotReadable, match=f"more than {len(data) - 1:,} bytes"
    ) as raised:
        read(reader)
    assert raised.value.problem == "TooMuch"


def test_a_name_tells_the_ending(tmp_path):
    packet = FORMATS["xmp"]
    (tmp_path / "upload-7").write_bytes(b" " + packet)
    with pictures.Reader(programs=False) as reader:
        for source in (tmp_path / "upload-7", io.BytesIO(b" " + packet)):
            picture = reader.read(source, name="a.xmp")
            assert (picture.type, picture.name) == ("XMP", "a.xmp") and picture.meaning
        assert reader.read_bytes(b" " + packet, name="a.xmp").meaning == picture.meaning
    assert pictures.read(tmp_path / "upload-7", name="a.xmp").meaning == picture.meaning
    assert pictures.compare(pictures.read(BEFORE / BOWL, name="b"), BEFORE / BOWL).result == "same"


def test_threads_share_a_reader():
    with pictures.Reader() as reader, ThreadPoolExecutor(4) as pool:
        assert {it.texts("title") for it in pool.map(reader.read, [BEFORE / BOWL] * 40)} == {("2003.12",)}


def test_wrong_use():
    for wrong in ({"seconds": 0}, {"seconds": float("nan")}, {"most": -1}):
        with pytest.raises(ValueError, match="above 0"):
            pictures.Reader(**wrong)
    reader = pictures.Reader()
    child = os.fork()
    if not child:
        try:
            reader.read(BEFORE / BOWL)
        except ValueError:
            os._exit(7)
        os._exit(0)
    assert os.waitstatus_to_exitcode(os.waitpid(child, 0)[1]) == 7
    reader.close()
    with pytest.raises(ValueError, match="closed"):
        reader.read(Path(BEFORE / BOWL))
