"""What the Python API says of each picture of the museum: the picture, its blocks, and each field once; and what single calls return and raise."""

import io
import os
import pathlib
import re
import warnings

import exifnorm
import made_values
import pytest
from exifnorm import pictures
from exifnorm_pictures.fields.labels import LABEL_WORDS
from studio import needs

pytestmark = pytest.mark.xdist_group("museum")

# Pictures that the calls are about, and bytes
GIVEN = {
    "bare": "one/states/bare.jpg",
    "both": "one/contradictions/creator.jpg",
    "bowl": "one/work/retitled.jpg",
    "place": "one/contradictions/place.jpg",
    "refused": "one/refused/Loop.jpg",
    "vase": "archive/work/retitled.jpg",
}
DATA = {"bowl_data": "one/work/retitled.jpg", "data": "one/work/touched.jpg", "packet": "one/sidecars/raw.xmp"}
# What is called, with what `exifnorm.pictures` has and with the pictures of GIVEN
CALLS = """
    read("one/desk")
    read("archive/nowhere.jpg")
    read("archive/nul\\0.jpg")
    read("archive/\\ud800.jpg")
    read(b"archive/work/touched.jpg")
    read("archive/states/notes.txt")
    read("archive/states/cut-in-its-head.jpg").damage
    read("archive/states/letter.jpg", name="letter.png")
    read(5)
    read(io.StringIO("II"))
    read(io.BytesIO(data))
    read(io.BytesIO(data), name="upload.jpg")
    read(open("archive/work/touched.jpg", "rb"))
    read(open("archive/sidecars/raw.xmp", "rb")).type
    read(io.BytesIO(packet)).type
    [read_bytes(blank + packet).type for blank in (b"\\xef\\xbb\\xbf", b" \\t\\r\\n")]
    read_bytes(b"!" + packet)
    read("edits/alike/empty-at-end.webp", whole=True).not_read
    Reader(programs=False).read("edits/alike/0.heic")
    Reader(programs=False).read("edits/alike/3.heic")
    read(io.BytesIO(packet), name="raw.XMP").type
    read(io.BytesIO(packet), name="\\ud800\\udcff.xmp").path
    read_bytes(data)
    read_bytes(data, name="upload.jpg").path
    read_bytes(bytearray(data)) == read_bytes(memoryview(data))
    read_bytes("text")
    read_bytes(b"")
    [*read_all("one")]
    [*read_all([], jobs=0)]
    [(name, str(it)) for name, it in read_all(["archive/nowhere.jpg", "archive/states/letter.jpg"], jobs=1)]
    [(name, it.type) for name, it in read_all(["archive/work/touched.jpg", "archive/work/pages.tif"] * 20, jobs=2)][38:]
    [str(it) for _, it in read_all(["archive/nowhere.jpg", "archive/states/letter.jpg", "archive/states/films.mp4"], jobs=2)]
    Reader(seconds=0)
    Reader(most=-1)
    Reader(most=0).read_bytes(b"II")
    Reader(most=len(data)).read_bytes(data)
    Reader(most=len(data) - 1).read_bytes(data)
    Reader(most=len(data) - 1).read("archive/work/touched.jpg")
    Reader(programs=False).read("archive/formats/webp.webp").names
    Reader(programs=False).read("archive/states/cut-in-its-head.jpg").damage
    Reader(programs=False).read("archive/states/films.mp4")
    Reader(whole=True).read("archive/states/trailer.jpg").not_read
    read("archive/states/trailer.jpg", whole=True).not_read
    read_bytes(data + b"unknown bytes", whole=True).not_read
    closed.read_bytes(data)
    bowl["IFD0:Artist"], bowl["artist"], bowl["dc:creator"], bowl["Exif.Image.Artist"]
    bowl["Artst"]
    bowl[0]
    bowl["x" * 200]
    "IFD0:Artist" in bowl, "XMP-dc:CREATOR" in bowl, "EXIF:Artist" in bowl, "Make2" in bowl, 0 in bowl
    bowl.find("keywords")
    bowl.find("FNumber")
    bowl.find(5)
    bowl.get("Make2"), bowl.get("Make2", 5), bowl.get("Make", type=int), bowl.get("Make", 5, type=int), bowl.get("Make", type=str)
    place.get("GPSLatitude")
    len(bowl), len(bare), bool(bare), [*bowl] == [*bowl.names], {bowl: 1}[bowl], bowl == read("one/work/retitled.jpg")
    [bowl.texts(label) for label in LABELS]
    [place.texts(label) for label in LABELS]
    bowl.texts("Keywords"), bowl.texts("date-created"), both.texts("title"), both.texts("creator")
    bowl.texts("titel")
    bowl.texts("")
    bowl.texts("x" * 200)
    bowl.texts(5)
    [clock.texts("date created") for clock in clocks]
    [clock.taken for clock in clocks]
    bowl.same_as(vase), bowl.same_as(read("one/work/retitled.jpg")), bowl.same_as(refused), refused.same_as(refused), bare.same_as(bare)
    bowl.meaning == read("one/work/retitled.jpg").meaning, refused.meaning, bare.meaning
    bowl.json == read_bytes(open("one/work/retitled.jpg", "rb").read(), name="one/work/retitled.jpg").json
    [*refused.json], [*refused.json["blocks"][0]]
    refused.refusals
    read("one/refused/Doubled.jpg").blocks[0].repair, read("one/refused/Doubled.jpg").blocks[0].loses
    [it.block for it in read("archive/states/two-blocks.jpg").fields]
    compare(bowl, vase)
    [str(it) for it in compare(bowl, vase).differences]
    bool(compare(bowl, vase))
    compare("one/copies/first.jpg", "one/copies/again.jpg")
    compare(data[:10], data[:10])
    compare(io.BytesIO(data), io.BytesIO(data))
    compare(io.BytesIO(data), io.BytesIO(bowl_data))
    compare(read_bytes(data), read_bytes(data))
    compare("one/copies/order.jpg", "one/copies/other-order.jpg")
    compare("one/work/gets-cut.jpg", "archive/work/gets-cut.jpg")
    compare("one/states/rots.jpg", "archive/states/rots.jpg")
    compare("one/states/trailer.jpg", "archive/states/trailer.jpg")
    compare("one/work/pages.tif", "archive/work/pages.tif")
    compare("one/refused/Loop.jpg", "one/refused/Loop.jpg")
    compare("one/refused/Loop.jpg", "one/work/touched.jpg").note
    compare("one/notes/note.jpg", "one/notes/moved.jpg")
    compare("one/notes/note.jpg", "one/notes/moved.jpg", ask_exiftool=True)
    compare(read("one/notes/note.jpg"), read_bytes(open("one/notes/moved.jpg", "rb").read()), ask_exiftool=True).result
    compare("one/nowhere.jpg", bowl)
    [str(it) for it in compare("one/notes/note.jpg", "one/notes/owner.jpg").differences]
    [str(it) for it in compare("edits/before/clock.jpg", "edits/after/clock.jpg").differences]
"""


def shortened(value):
    """A value in a line; of a long one its beginning and its length."""
    text = ascii(value)
    return text if len(text) < 120 else f"{text[:60]}.. ({len(text)})"


def lines_of_picture(picture, known):
    """What is known of a picture, where it is something, and its captions that no earlier one has."""
    yield f"  {picture!r}"
    for name in ("too_many", "damage", "not_known", "is_whole", "meaning", "position", "taken", "conflicts"):
        if value := getattr(picture, name):
            yield f"  {name}: {shortened(value)}"
    for label in LABEL_WORDS:
        if texts := picture.texts(label):
            yield f"  {label}: {shortened(texts)}"
    for it in picture.captions:
        caption = (*it[:6], *it[7:])  # without the block
        if caption not in known:
            known.add(caption)
            yield f"  caption: {shortened(caption)}"


def lines_of_block(block):
    """What is known of a block."""
    yield f"  {block!r} {block.kind} by {block.extractor}, {len(block.data)} bytes, {(block.digest or '')[:12]}"
    for it in (block.refusal, *block.repair, *block.loses):
        if it:
            yield f"    {it}"


def line_of_field(field):
    """All forms of a field."""
    forms = (field.value, field.json, field.text, field.exact, field.raw.hex(), field.languages, field.guess)
    return f"  {field.block}: {field.name} {field.key} {field.type}[{field.count}] {' | '.join(map(shortened, forms))}"


def said(path, known):
    """The lines of a picture; a field that an earlier one had is left out."""
    try:
        picture = exifnorm.read(path)
    except (exifnorm.NoPicture, exifnorm.NotReadable, OSError) as why:
        return [f"  {type(why).__name__}: {why}"]
    lines = [*lines_of_picture(picture, known)]
    for block in picture.blocks:
        lines += lines_of_block(block)
        for field in block.fields:
            if field not in known:
                known.add(field)
                lines.append(line_of_field(field))
    return lines


@needs("exiftool")
@pytest.mark.parametrize("top", ["archive", "edits/after", "values"])
def test_what_the_api_says(top, museum, golden):
    """In the order of names. What is named by a path on this machine isn't there."""
    if top == "values":
        (museum / top).mkdir()
        (museum / top / "pages.tif").write_bytes(made_values.pages())
    known, lines = set(), []
    for path in sorted(it for it in (museum / top).rglob("*") if not it.is_dir()):
        lines += [ascii(os.path.relpath(path, museum)), *said(path, known)]
    golden(f"museum/api-{top.replace('/', '-')}.txt", "\n".join(lines).replace(str(museum), "F") + "\n")


def answered(call, given):
    """What a call returns, warns of and raises."""
    with warnings.catch_warnings(record=True) as warned:
        warnings.simplefilter("always", UserWarning)
        try:
            returned = re.sub(r"\b([0-9a-f]{8})[0-9a-f]{56}\b", r"\1..", repr(eval(call, given)))
        except Exception as why:
            returned = f"{type(why).__name__}: {why}"
    return [f">>> {call}", *(f"{it.category.__name__}: {it.message}" for it in warned), returned, ""]


@needs("exiftool", "exiv2")
def test_what_calls_return(museum, golden):
    with pictures.Reader() as closed:
        given = {name: closed.read(path) for name, path in GIVEN.items()}
    given.update({name: pathlib.Path(path).read_bytes() for name, path in DATA.items()})
    given.update({name: getattr(pictures, name) for name in pictures.__all__}, io=io, LABELS=LABEL_WORDS, closed=closed)
    given.update(clocks=[pictures.read(it) for it in sorted(museum.glob("archive/clocks/*"))])
    lines = [line for call in CALLS.strip().splitlines() for line in answered(call.strip(), given)]
    golden("museum/api-calls.txt", "\n".join(lines).replace(str(museum), "F"))
