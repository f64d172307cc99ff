"""What the extension module makes for catalogues is what Python makes where the module isn't there, or leaves it to Python."""

import hashlib
import os
import random

import pytest

import exifnorm
import made_by_tools
from changed import changed
from exifnorm import _library
from exifnorm_pictures.files.session import Session
from exifnorm_pictures.model.records import PictureRecord, Stamp
from exifnorm_pictures.scan import looking
from exifnorm_pictures.scan.walk import FoundFile, How
from jpeg_made import COMMENT, EXTENSION, PICTURE, SCAN, exif, iptc, packet, photoshop, picture, resource, segment
from meanings import ASCII, SHORT, UNDEFINED, Exif, Layout, Record, Value, laid
from small_blocks import CAPTION, ONE, outcome
from small_packets import small_packets

BEHIND = SCAN + b"data\xff\x00data\xff\xd9"
NUMBERS = [*range(2000)]
FIELDS = {
    0x010E: Value(ASCII, "Krüge \u2028 \U0001f3fa".encode() + b"\0"),
    0x010F: Value(ASCII, b'a "b" \\ \x1b\0'),
    0x0110: Value(UNDEFINED, b"text of a field that has no text, longer than a few bytes"),
    0x0111: Value(UNDEFINED, bytes(range(200))),
    0x0116: Value(SHORT, NUMBERS[:6]),
    0x0117: Value(SHORT, NUMBERS),
    0x9286: Value(UNDEFINED, b"ASCII\0\0\0" + b"Vase" * 500),
}
BLOCKS = [ONE, laid(Exif(FIELDS), Layout(">")), *(made.block for made in made_by_tools.ALL if made.block[:1] != b"\x1c")]
RECORDS = [CAPTION, Record([(2, 120, bytes(40_000)), (1, 90, b"\x1b%G"), (2, 25, "Krüge".encode()), (9, 1, b"\xff" * 40)]).spelled()]
PACKETS = [*small_packets(), small_packets()[0].replace(b"Vase", b"Vase " * 2000)]
# A block with a MakerNote, with one in its entry, and with bytes that only the MakerNote can reach
HEAD = bytes.fromhex("4d4d002a00000008 0001 8769 0004 00000001 0000001a 00000000 0001 927c 0007")
NOTED = HEAD + bytes.fromhex("00000008 0000002c 00000000") + b"notenote"
NOTES = [NOTED, HEAD + bytes.fromhex("00000004 6e6f7465 00000000"), NOTED + b"more"]
PICTURES = [
    PICTURE,
    *(picture(exif(block), end=BEHIND) for block in NOTES),
    picture(COMMENT, end=BEHIND),
    *(picture(exif(block), packet(PACKETS[0]), iptc(RECORDS[0]), end=BEHIND) for block in BLOCKS if len(block) < 60_000),
    picture(exif(ONE), end=SCAN + b"data" * 20_000 + b"\xff\xd9"),
    picture(exif(ONE), end=SCAN + b"data" * 20_000 + b"\xff\xd9behind"),
    picture(exif(ONE), end=SCAN + b"data" * 20_000),
    *(picture(iptc(record), end=BEHIND) for record in RECORDS),
    *(picture(packet(one), end=BEHIND) for one in PACKETS),
    picture(exif(ONE), exif(ONE), end=BEHIND),
    picture(packet(PACKETS[0]), packet(PACKETS[1]), end=BEHIND),
    picture(segment(0xE1, EXTENSION + bytes(60)), end=BEHIND),
    picture(segment(0xE2, b"ICC_PROFILE\0"), segment(0xE2, b"MPF\0"), segment(0xE0, b"JFIF\0"), end=BEHIND),
    picture(segment(0xE0, b"JFIF\0"), segment(0xEE, b"Adobe"), exif(b""), iptc(b""), end=BEHIND),
    *(picture(photoshop(resource(number, ONE) + resource(0x0404, CAPTION) + b"\0\0"), end=BEHIND) for number in range(0x0421, 0x0427)),
    picture(photoshop(resource(0x0404, CAPTION) + b"more"), end=BEHIND),
    picture(*[b"\xff\x01"] * 70, exif(ONE), end=BEHIND),
    picture(exif(ONE), end=SCAN + b"data\xff\xdbdata\xff\xd9"),
    picture(exif(ONE), end=SCAN + b"data\xff\xd9behind"),
]


def found_file(folder, octets):
    """A file of these bytes as the walk over a folder finds it."""
    path = folder / "a.jpg"
    path.write_bytes(octets)
    os.utime(path, (1e9, 1e9))
    return FoundFile(os.fsencode(path), os.fsencode(folder), Stamp.at(os.fsencode(path)))


@pytest.fixture
def both(native, shared, monkeypatch, folder):
    """What a catalogue keeps of a picture by the module, and by Python alone."""
    _library.library()  # which stays for other tests, without the module
    monkeypatch.setattr(_library, "_native", native)
    library = _library.Library(str(shared))
    monkeypatch.setattr(looking, "FINE", 0)  # a file is looked at in the tick in which it is written
    made = {name: getattr(library, name) for name in ("packed", "xmp_packed", "jpeg_record")}
    for module in ("scan.looking", "judge.judge", "fields.xmp_properties"):
        monkeypatch.setattr(f"exifnorm_pictures.{module}.library", lambda: library)

    def results(octets):
        file = found_file(folder, octets)
        for name, function in made.items():
            setattr(library, name, function)
        by_module = outcome(look, file)
        for name in made:
            setattr(library, name, _library._left)
        return by_module, outcome(look, file)

    return results


def look(file):
    with Session(programs=False) as session:
        return looking.look(file, How(), session)


@pytest.mark.parametrize("number", range(len(PICTURES)))
def test_pictures(both, number):
    """Also with changed bytes."""
    chance = random.Random(number)
    for octets in [PICTURES[number], *(changed(PICTURES[number], chance) for _ in range(40))]:
        by_module, by_python = both(octets)
        assert by_module == by_python, octets.hex()[:2000]


WINDOW = 65_536  # of a long picture so many bytes are read at its end
ENDS = [b"\xff\xd9", b"\xff\xd9", b"\xff\xd9" + bytes(9), b"\xff", b"CANON OPTIONAL DATA\0" + bytes(42) + b"\xff\xd9"]


def long_picture(chance):
    """A picture of which the module reads the end alone: with two or three bytes near the place where that begins, and some end."""
    data, end = bytearray(b"da\xff\0" * 20_000), chance.choice(ENDS)
    at = len(data) + len(end) - WINDOW - chance.randint(0, 6)
    mark = bytes(chance.choice((0, 0x01, 0xC4, 0xD0, 0xD9, 0xE1, 0xFE, 0xFF)) for _ in range(chance.choice((1, 2))))
    data[at : at + 8] = bytes(4) + b"\xff" + mark + b"\0"
    return picture(exif(ONE), end=SCAN + bytes(data) + end)


def test_long_pictures(both):
    chance = random.Random(1)
    for _ in range(400):
        octets = long_picture(chance)
        by_module, by_python = both(octets)
        assert by_module == by_python, octets[-WINDOW - 8 :][:16].hex() + " .. " + octets[-70:].hex()


USUAL = [
    picture(COMMENT, packet(PACKETS[0]), exif(ONE), iptc(CAPTION), end=BEHIND),
    picture(exif(ONE), end=SCAN + bytes(200_000) + b"\xff\xd9"),
    picture(exif(ONE), end=SCAN + b"data" + SCAN + b"data\xff\xd9"),
    picture(exif(NOTED), packet(PACKETS[0]), end=BEHIND),
]


@pytest.fixture
def loaded(native, shared, monkeypatch):
    """A library whose calls are those of the module."""
    monkeypatch.setattr(_library, "_native", native)
    return _library.Library(str(shared))


def record_of(library, file, path=None, stamp=None):
    made = library.jpeg_record(path or file.path, file.root, stamp or file.stamp, file.stamp, looking._USUAL)
    if isinstance(made, int):
        os.close(made)
    return made


def test_usual_pictures_are_not_left(loaded, folder):
    """The module makes all of a picture as programs write it."""
    for octets in USUAL:
        assert isinstance(record_of(loaded, found_file(folder, octets)), PictureRecord), octets[:1000].hex()
    forms = [form for form in map(loaded.normalise, BLOCKS + RECORDS) if isinstance(form, bytes)]
    assert len(forms) > 4 and all(loaded.packed(form, hashlib.sha256) for form in forms)
    assert sum(loaded.xmp_packed(it, hashlib.sha256, str, lambda octets: b"[]") is not None for it in PACKETS) > 10


def test_fields_are_packed_for_a_catalogue_alone(loaded, monkeypatch, folder):
    """A program that reads a picture doesn't wait for what a catalogue keeps."""
    called = []
    for module in ("scan.looking", "judge.judge", "fields.xmp_properties"):
        monkeypatch.setattr(f"exifnorm_pictures.{module}.library", lambda: loaded)
    for name in ("packed", "xmp_packed", "jpeg_record"):
        monkeypatch.setattr(loaded, name, lambda *_, name=name: called.append(name))
    file = found_file(folder, USUAL[0])
    assert exifnorm.read(file.path).is_whole and exifnorm.compare(file.path, file.path).same and called == []
    assert look(file).exif and called[0] == "jpeg_record"


def test_no_file_of_a_record_stays_open(loaded, folder):
    """Of another file the number stays open, by which Python reads it; none of a name that leads to no file."""
    file, opened = found_file(folder, USUAL[0]), len(os.listdir("/proc/self/fd"))
    assert isinstance(record_of(loaded, file), PictureRecord)
    assert len(os.listdir("/proc/self/fd")) == opened
    os.mkfifo(folder / "pipe")
    for path in (folder / "none", folder, folder / "pipe"):
        assert record_of(loaded, file, os.fsencode(path)) is None
    assert record_of(loaded, file, file.path + b"\0") is None
    left = found_file(folder, USUAL[0][:-2])
    number = loaded.jpeg_record(left.path, left.root, left.stamp, left.stamp, looking._USUAL)
    assert os.pread(number, 9, 0) == USUAL[0][:9]
    os.close(number)


def test_a_file_that_changes_is_left(loaded, folder):
    """One that is written to, or another one, between the walk and the look, and one that changes while it is read."""
    file = found_file(folder, USUAL[0])
    for at in range(5):
        other = file.stamp._replace(**{Stamp._fields[at]: file.stamp[at] + 1})
        assert isinstance(record_of(loaded, file, stamp=other), int)
    end = looking._USUAL[-2]

    def written_to(*about):
        os.utime(file.path, (1, 1))
        return end(*about)

    file = found_file(folder, USUAL[1])
    changing = (*looking._USUAL[:-2], written_to, looking._USUAL[-1])
    number = loaded.jpeg_record(file.path, file.root, file.stamp, file.stamp, changing)
    assert isinstance(number, int)
    os.close(number)


def test_what_fails_is_left(loaded, folder):
    """Python meets it, too, and says what it is. A signal isn't met again."""
    file = found_file(folder, USUAL[1])

    def failing(error):
        def fail(*_):
            raise error

        return fail

    number = loaded.jpeg_record(file.path, file.root, file.stamp, file.stamp, (*looking._USUAL[:-2], failing(ValueError), None))
    os.close(number)
    with pytest.raises(KeyboardInterrupt):
        loaded.jpeg_record(file.path, file.root, file.stamp, file.stamp, (*looking._USUAL[:-2], failing(KeyboardInterrupt), None))


WRONG = [
    ("packed", (ONE,)),
    ("packed", ("", hashlib.sha256)),
    ("packed", (BLOCKS[1], None)),
    ("packed", (BLOCKS[1], lambda octets: 5)),
    ("xmp_packed", (PACKETS[0], None, str, bytes)),
    ("xmp_packed", (PACKETS[0], hashlib.sha256, None, bytes)),
    ("xmp_packed", (PACKETS[4], hashlib.sha256, str, lambda octets: 5)),
    ("jpeg_record", (b"/", b"/")),
    ("jpeg_record", ("/", b"/", (0,) * 5, (0,) * 5, looking._USUAL)),
    ("jpeg_record", (b"/", b"/", (0,), (0,) * 5, looking._USUAL)),
    ("jpeg_record", (b"/", b"/", (0,) * 5, (0,), looking._USUAL)),
    ("jpeg_record", (b"/", b"/", ("",) * 5, (0,) * 5, looking._USUAL)),
    ("jpeg_record", (b"/", b"/", (0,) * 5, (0,) * 5, looking._USUAL[:-1])),
    ("jpeg_record", (b"/", b"/", (0,) * 5, (0,) * 5, ((), (), *looking._USUAL[2:]))),
]


@pytest.mark.parametrize("name, arguments", WRONG)
def test_wrong_arguments(native, shared, monkeypatch, name, arguments):
    monkeypatch.setattr(_library, "_native", native)
    call = getattr(_library.Library(str(shared)), name)
    assert outcome(call, *arguments)[0] in ("TypeError", "AttributeError", "SystemError", "IndexError"), arguments
