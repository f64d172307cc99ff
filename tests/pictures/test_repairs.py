"""Repairs of refused Exif blocks, against ExifTool: what is the same after repair has the same values for it."""

import json
import os
import re
import struct
import subprocess

import pytest
from exifnorm_pictures.cli import main
from exifnorm_pictures.judge import judge, repairs
from exifnorm_pictures.fields.listing import exact
from exifnorm_pictures.files.session import Session
from exifnorm_pictures.model import steps
from exifnorm_pictures.model.found import EXIF, FoundBlock
from exifnorm_pictures.refusals import mend
from made_blocks import ASCII, BLOCKS, LONG, MAKE, SHORT, entry, table
from made_files import app1, chunk, exif, jpeg, png, webp
from studio import needs, put

RATIONAL = 5
# Numbers that say where something is, which a repair may move
PLACES = ("ThumbnailOffset", "PreviewImageStart", "OtherImageStart", "StripOffsets")


def camera(order=">", shared=False, unsorted=False, doubled=False, cut=False, empty=False):
    """A block as a camera writes it, with each directory, and with these faults."""
    short = (lambda number: number << 16) if order == ">" else (lambda number: number)
    pack = lambda *rows: struct.pack(order + "H", len(rows)) + b"".join(struct.pack(order + "HHII", *it) for it in rows)
    main_rows = [
        (0x010F, ASCII, 6, 300),
        (0x0110, ASCII, 8, 306),
        (0x0112, SHORT, 1, short(6)),
        (0x011A, RATIONAL, 1, 320),
        (0x011B, RATIONAL, 1, 320 if shared else 328),
        (0x8769, LONG, 1, 140),
        (0x8825, LONG, 1, 220),
    ]
    if doubled:
        main_rows.insert(3, main_rows[2])
    if unsorted:
        main_rows[0], main_rows[1] = main_rows[1], main_rows[0]
    exif_rows = [(0x829A, RATIONAL, 1, 336), (0x9003, ASCII, 20, 344), (0x9204, 10, 1, 364)]
    gps_rows = [] if empty else [(0x0001, ASCII, 2, struct.unpack(order + "I", b"N\0\0\0")[0]), (0x0002, RATIONAL, 3, 372)]
    made = bytearray(400)
    made[:8] = (b"MM\0*" if order == ">" else b"II*\0") + struct.pack(order + "I", 8)
    for at, rows in ((8, main_rows), (140, exif_rows), (220, gps_rows)):
        made[at : at + len(pack(*rows))] = pack(*rows)
    for at, octets in ((300, b"Maker\0"), (306, b"Model 7\0"), (344, b"2024:05:02 08:12:33\0")):
        made[at : at + len(octets)] = octets
    for at in (320, 328, 336, 364, 372, 380, 388):
        struct.pack_into(order + "II", made, at, 720 if at < 336 else at, 10)  # both resolutions are equal
    return bytes(made[: 396 if cut else 400])


REFUSED = {
    "unsorted": camera(unsorted=True),
    "shared": camera(shared=True),
    "doubled": camera(doubled=True),
    "empty": camera(empty=True),
    "little": camera("<", unsorted=True, shared=True),
    "all": camera(unsorted=True, shared=True, doubled=True),
    "at the end": camera().replace(struct.pack(">HI", RATIONAL, 1) + b"\0\0\1\x40", struct.pack(">HII", RATIONAL, 1, 94)),
}


def values_of(folder, blocks):
    """What ExifTool reads of some blocks, without places."""
    put(folder, {f"{number:04}.jpg": jpeg(app1(octets)) for number, octets in enumerate(blocks)})
    names = [f"{number:04}.jpg" for number in range(len(blocks))]
    left_out = [word for group in ("File", "System", "ExifTool", "Composite") for word in ("-x", f"{group}:all")]
    words = ["exiftool", "-config", "", *"-q -q -m -json -a -u -n -G1:4 -b".split(), *left_out, *names]
    done = subprocess.run(words, cwd=folder, capture_output=True, timeout=600)
    found = json.loads(done.stdout)
    assert [it.pop("SourceFile") for it in found] == names
    return [
        {(re.sub(r"Copy\d+:", "", key), str(value)) for key, value in it.items() if key.rpartition(":")[2] not in PLACES} for it in found
    ]


def fields_of(made):
    return [(it.directory, it.tag, exact(it)) for it in judge.fields_of_form(made.form)]


def lossless(block):
    """The repaired form of a block, if it is refused and the repair loses nothing."""
    made = repairs.repaired(block)
    return made if made and made.steps and not steps.loses(made.steps) else None


@needs("exiftool")
@pytest.mark.parametrize("name", REFUSED)
def test_a_repaired_block_says_what_the_refused_one_said(folder, name):
    made = lossless(REFUSED[name])
    assert made is not None
    before, after = values_of(folder, [REFUSED[name], made.block])
    assert before == after and ("IFD0:Model", "Model 7") in after


@needs("exiftool")
def test_equal_repairs_have_equal_values(folder):
    """Each bit of the refused blocks is turned: where the repaired form stays equal, ExifTool reads the same as before."""
    pairs = []
    for block in REFUSED.values():
        form = lossless(block).form
        for bit in range(8 * 8, 8 * len(block), 5):
            turned = bytearray(block)
            turned[bit // 8] ^= 1 << bit % 8
            made = lossless(bytes(turned))
            if made and made.form == form:
                pairs.append((block, bytes(turned)))
    assert len(pairs) >= 300
    pairs = pairs[:: len(pairs) // 150]
    found = values_of(folder, [it for pair in pairs for it in pair])
    wrong = [number for number in range(len(pairs)) if found[2 * number] != found[2 * number + 1]]
    assert not wrong, [found[2 * number : 2 * number + 2] for number in wrong[:3]]


def test_each_cause(golden):
    """The steps of the smallest block that has the cause, what they lose, and what is read then: in golden/repairs.txt."""
    lines = []
    for cause, block in BLOCKS.items():
        made = repairs.repaired(block)
        lines.append(f"{cause}:{'' if made else ' no repair is known'}")
        lines += [f"  {it.what}{' (loses ' + it.loses + ')' if it.loses else ''}" for it in (made.steps if made else ())]
        lines += [f"    {where}:{key} {shown}" for where, key, shown in (fields_of(made) if made else ())]
    golden("repairs.txt", "\n".join(lines) + "\n")


def outside(what):
    """A block that must grow to be accepted, since two texts are one; what lies behind its end would be found in what is appended."""
    rows, following, image = [entry(tag, ASCII, 8, 84) for tag in (0x010F, 0x0110)], 0, b""
    if what == "a value":
        rows.append(entry(0x0131, ASCII, 8, 94))
    elif what == "a directory":
        rows.append(entry(0x8769, LONG, 1, 92))
    elif what == "a thumbnail":
        following, image = 40, table([entry(0x0201, LONG, 1, 92), entry(0x0202, LONG, 1, 30)])
    made = (b"MM\0*\0\0\0\x08" + table(rows, following)).ljust(40, b"\0") + image
    return made.ljust(84, b"\0") + b"one text\xff\xd8"


@pytest.mark.parametrize("what", ["a value", "a thumbnail", "a directory"])
def test_nothing_is_read_of_what_is_appended(what):
    assert lossless(outside("nothing")) is not None
    made = repairs.repaired(outside(what))
    assert made is not None and steps.loses(made.steps), made
    found = [(key, shown) for _, key, shown in fields_of(made)]
    assert found[:2] == [("010f", '"one text"'), ("0110", '"one text"')]
    assert [key for key, _ in found[2:]] == (["jpeg"] if what == "a thumbnail" else [])


def read_by(block):
    """The entries of each directory with their values, read by TIFF 6.0: without pointers, and as far as they are in the block."""
    order = "<" if block[:2] == b"II" else ">"
    found, waiting = set(), [("main", struct.unpack_from(order + "I", block, 4)[0])]
    for name, at in waiting:
        count = struct.unpack_from(order + "H", block, at)[0] if at + 2 <= len(block) else 0
        for place in range(at + 2, min(at + 2 + 12 * count, len(block) - 11), 12):
            tag, kind, elements, last = struct.unpack_from(order + "HHII", block, place)
            size = {1: 1, 2: 1, 3: 2, 4: 4, 5: 8, 6: 1, 7: 1, 8: 2, 9: 4, 10: 8, 11: 4, 12: 8, 129: 1}.get(kind, 0) * elements
            start = last if size > 4 else place + 8
            if tag in (0x8769, 0x8825, 0xA005):
                waiting += [(f"{name} {tag}", last)] if len(waiting) < 9 else []
            else:
                found.add((name, tag, elements, block[start : start + size]))
    return found


@pytest.mark.parametrize("name", REFUSED)
def test_no_value_is_made_up(name):
    """Blocks with a wrong bit in a directory, some of them cut too: whatever a repair leaves was in the block before it."""
    block, looked_at = REFUSED[name], 0
    for bit in range(8 * 10, 8 * 260):
        turned = bytearray(block)
        turned[bit // 8] ^= 1 << bit % 8
        for refused in (bytes(turned), bytes(turned[:390])) if bit % 4 == 0 else (bytes(turned),):
            made = repairs.repaired(refused)
            if made and not any("read as LONG" in it.what for it in made.steps):
                looked_at += 1
                assert read_by(made.block) <= read_by(refused), (bit, made.steps)
    assert looked_at > 500


def test_a_thumbnail_that_a_step_would_change():
    """It lies in the main directory, whose entries are sorted before it is copied."""
    rows = [entry(0x0110, ASCII, 4, b"Xyz\0"), entry(0x010F, ASCII, 4, b"Abc\0")]
    image = [entry(0x0201, LONG, 1, 10), entry(0x0202, LONG, 1, 24)]
    made = repairs.repaired(b"MM\0*\0\0\0\x08" + table(rows, 38) + table(image))
    assert "the thumbnail" in steps.loses(made.steps)
    assert [key for _, key, _ in fields_of(made)] == ["010f", "0110"]


@pytest.mark.parametrize("tag, name", [(0xA005, "Interoperability directory"), (None, "thumbnail directory")])
def test_a_directory_that_cannot_be_one(tag, name):
    """Its pointer leads into other bytes. The rest of the block is read, but for an entry of a type that there isn't."""
    made_up = table([entry(it, 77, 1, 0) for it in range(1, 200)])
    rows = [entry(0x9000, 7, 4, b"0232"), entry(0x9001, 77, 1, 0), *([entry(tag, LONG, 1, 92)] if tag else [])]
    main = table([MAKE, entry(0x8769, LONG, 1, 38)], 0 if tag else 92)
    made = repairs.repaired((b"MM\0*\0\0\0\x08" + main + table(rows)).ljust(92, b"\0") + made_up)
    assert sorted(it.loses for it in made.steps) == ["a directory", "a value"] and name in steps.words(made.steps)
    assert [key for _, key, _ in fields_of(made)] == ["010f", "9000"]


def test_which_repairs_make_pictures_the_same(folder, capsys, monkeypatch):
    """Those that lose nothing; an edit is named, and one that loses something makes nothing the same."""
    monkeypatch.chdir(folder)
    plain = camera()
    edited = plain.replace(b"Model 7", b"Model 8")
    lossy = BLOCKS["Doubled"]
    for name, before, after, result, status in (
        ("same", REFUSED["all"], plain, "the same after repair", 2),
        ("both", REFUSED["unsorted"], REFUSED["little"], "the same after repair", 2),
        ("edited", REFUSED["all"], edited, "different after repair", 1),
        ("lossy", lossy, exif(b"Abc"), "refused", 2),
        ("itself", lossy, lossy, "refused, the same bytes", 0),
    ):
        for side, octets in (("before", before), ("after", after)):
            put(folder, {f"{name}/{side}/a.jpg": jpeg(app1(octets))})
        capsys.readouterr()
        assert main._run(["changed", f"{name}/before", f"{name}/after", "--json", "--all", "--no-programs"]) == status, name
        found = json.loads(capsys.readouterr().out.splitlines()[0])
        assert found["result"] == result
        if name == "edited":
            assert [it["name"] for it in found["fields"]] == ["IFD0:Model"]


@pytest.mark.parametrize(
    "kind, holder",
    [
        ("JPEG", lambda it: jpeg(app1(it), behind=b"rest")),
        ("PNG", lambda it: png(chunk(b"eXIf", it))),
        ("WEBP", lambda it: webp((b"EXIF", it))),
    ],
)
@pytest.mark.parametrize("name", ["unsorted", "shared", "all"])
@pytest.mark.parametrize("piece", (1, 1000, 1 << 20))
def test_the_rest_of_a_repaired_file_stays(kind, holder, name, piece, folder, monkeypatch):
    """Also where the block becomes longer, and wherever a piece that is read of the file ends."""
    monkeypatch.setattr(mend, "_PIECE", piece)
    made = repairs.repaired(REFUSED[name])
    (folder / "a").write_bytes(holder(REFUSED[name]))
    with open(folder / "a", "rb") as picture, open(folder / "b", "wb") as copy:
        changes, done = mend.changes(picture, kind, [FoundBlock(EXIF, REFUSED[name], "Exif", "")])
        mend.write(picture, changes, copy)
    assert (folder / "b").read_bytes() == holder(made.block) and done == made.steps


def test_a_block_that_is_not_found_once_is_not_replaced(folder):
    block = REFUSED["unsorted"]
    found = [FoundBlock(EXIF, block, "Exif", "")]
    far = jpeg(app1(block), *[app1(bytes(60_000))] * 40, app1(block))  # more than one piece lies between
    for kind, octets in (("JPEG", jpeg(app1(block), app1(block))), ("JPEG", far), ("JPEG", jpeg()), ("TIFF", jpeg(app1(block)))):
        (folder / "a").write_bytes(octets)
        with open(folder / "a", "rb") as picture:
            assert mend.changes(picture, kind, found) is None


@needs("exiftool")
def test_mend_compares_exact_numbers(folder):
    """Fractions that ExifTool rounds to the same text are other values."""
    listed = []
    for fraction in ((173, 32), (27, 5)):
        octets = (
            b"MM\0*\0\0\0\x08"
            + table([entry(0x8769, LONG, 1, 26)])
            + table([entry(0x920A, RATIONAL, 1, 44)])
            + struct.pack(">II", *fraction)
        )
        (folder / "a.jpg").write_bytes(jpeg(app1(octets)))
        listed += [it for it in mend._printed(Session(), str(folder / "a.jpg")) if "FocalLength" in it]
    assert listed == ["[ExifIFD] FocalLength : 5.4 mm (5.40625)", "[ExifIFD] FocalLength : 5.4 mm (5.4)"]
    lines = [b"A : a", b"B : b", b"A : 1"]
    assert mend._with_numbers(lines) == lines and mend._with_numbers([*lines, b"C : b"]) == [
        *lines,
        b"C : b",
    ], "values that aren't in pairs"


def _with(octets, at, value):
    return octets[:at] + value + octets[at + len(value) :]


POINTERS = {"ExifIFD": 70, "GPS": 82}  # where the entries that lead to these directories of `camera` begin
LOSING = {
    "outside": lambda block, at: _with(block, at + 8, b"\xf0\0\0\0"),
    "two elements": lambda block, at: _with(block, at + 4, b"\0\0\0\2"),
    "too many entries": lambda block, at: _with(block, {70: 140, 82: 220}[at], b"\xf0\0"),
    "a text": lambda block, at: _with(block, at + 2, b"\0\2"),
}


@pytest.mark.parametrize("group", POINTERS)
@pytest.mark.parametrize("fault", LOSING)
@pytest.mark.parametrize("refused_first", (True, False))
def test_what_a_repair_lost_is_neither_added_nor_removed(folder, capsys, monkeypatch, group, fault, refused_first):
    """An edit beside it is named, and nothing is called unchanged."""
    monkeypatch.chdir(folder)
    broken, whole = LOSING[fault](camera(), POINTERS[group]), camera().replace(b"Model 7", b"Model 8")
    made = repairs.repaired(broken)
    assert made and steps.lost_fields(made.steps), made
    for name, octets in zip(("a.jpg", "b.jpg") if refused_first else ("b.jpg", "a.jpg"), (broken, whole)):
        (folder / name).write_bytes(jpeg(app1(octets)))
        os.makedirs(name[0])
        (folder / name[0] / "p.jpg").write_bytes(jpeg(app1(octets)))
    assert main._run(["compare", "a.jpg", "b.jpg", "--json", "--no-programs"]) == 2
    found = json.loads(capsys.readouterr().out.splitlines()[0])
    assert not [it["name"] for it in found["fields"] if not it["before"] or not it["after"]], found["fields"]
    if fault != "too many entries":  # these spoil other directories
        assert [it["name"] for it in found["fields"]] == ["IFD0:Model"], found["fields"]
        assert re.search(rf"\d+ fields of {group} that one picture has: the repair of the other one may have lost them", found["note"])
    assert main._run(["changed", "a", "b", "--no-programs"]) == 2
    printed = capsys.readouterr().out
    assert printed.startswith("1 picture compared: 1 not wholly compared.") and "added" not in printed and "removed" not in printed
