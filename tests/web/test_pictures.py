"""`read` and `compare` of the JavaScript module: laws over pairs of pictures whose relation is known by how they were made, over odd heads beside
exifnorm_pictures, and over made and damaged files of each format."""

import hashlib
import json
import shutil
import zlib
from collections import Counter
from datetime import date, time
from fractions import Fraction
from itertools import permutations, product
from pathlib import Path
from random import Random

import guard
import pytest
from changed import changed
from commands import TOP, run
from packets import PACKET
from small_packets import small_packets
from made_museum import first_night, put, second_night
from pairs import DIFFERENT, SAME, UNDECIDED

import exifnorm
from exifnorm_pictures.comparison import two_pictures
from exifnorm_pictures.comparison.changed.edits import PROGRAMS, edits_of
import made_files as made
import odd_dates
import odd_heads
from made_blocks import ASCII
from test_jpeg_same import exif, iptc, picture
from test_own_texts import OF_CAMERAS, OWN, PEOPLE
from test_page import xmp_pictures
from test_plain_words import exif_block, record_block
import test_bigtiff as big
import test_pairs as never
import test_raw as raw
import test_trailers as trailers

HERE = Path(__file__).resolve().parent
pytestmark = pytest.mark.xdist_group("web")
MAKERS = (never.parts, never.reached, never.pointers, never.segments, never.texts, never.damages, big.pairs)
OF_RAW = (raw.of_damaged_entries, raw.everywhere, raw.of_dng, raw.of_sony, raw.of_panasonic, raw.of_fujifilm)
ODD, DATED, DAMAGED, HOSTILE, MADE = 300, 600, 200, 120, 45
SEEN = ("states/", "rare/", "contradictions/", "notes/", "refused/")  # pictures that the worker is asked for
NO_METADATA = 9  # beside the statuses of a pair


@pytest.fixture(scope="module")
def answers(module, session_folder):
    """What the module answers to lists of one picture, or of two, by their bytes."""
    shutil.copyfile(HERE / "pictures.mjs", module / "pictures.mjs")
    folder = session_folder / "of-pictures"
    folder.mkdir()

    return lambda *lists: answered(lists, folder, module, "pictures.mjs")


@pytest.fixture(scope="module")
def worker(module):
    """The folder of the module, with the scripts of the page's worker."""
    for name in ("edits.js", "worker.js"):
        text = (TOP / "page" / name).read_text(encoding="utf-8")
        (module / name).write_text(text.replace("../javascript/", "./"), encoding="utf-8")
    shutil.copyfile(HERE / "worker.mjs", module / "worker.mjs")
    return module


def answered(lists, folder, module, *program):
    """What a program of node answers to the files with these bytes, whose names are in the lines of a file."""
    lines = []
    for octets in lists:
        names = [folder / hashlib.sha256(it).hexdigest() for it in octets]
        for name, it in zip(names, octets):
            name.write_bytes(it)
        lines.append(json.dumps([*map(str, names)]))
    (folder / "asked").write_text("\n".join(lines), encoding="ascii")
    return [json.loads(line) for line in run("node", *program, folder / "asked", folder=module).splitlines()]


def is_true_of(status, found):
    """Whether an answer is allowed for a pair: `same` only of those that are known to be, `different` never of those, and what isn't decided has
    a reason that is named. Of no metadata nothing else is said, whatever the pixels."""
    if found["verdict"] in ("same", "no metadata"):
        return status == (SAME if found["verdict"] == "same" else NO_METADATA)
    return status not in (SAME, NO_METADATA) if found["verdict"] == "different" else bool(found["named"])


def test_pairs_whose_relation_is_known(answers, checks, record_property):
    pairs = [it for make in (*MAKERS, *OF_RAW) for it in make()]
    counts = Counter()
    for pair, found in zip(pairs, answers(*((it.before, it.after) for it in pairs))):
        status = status_of(pair.before, pair.after) if found["verdict"] == "no metadata" else pair.status
        checks.check(f"{pair.name}: {found}", is_true_of(status, found))
        counts[status, found["verdict"]] += 1
    record_property("verdicts", {f"{status}: {verdict}": count for (status, verdict), count in sorted(counts.items())})
    checks.check(f"nobody knows: {counts}", not counts[UNDECIDED, "different"])
    checks.check(f"pairs are decided: {counts}", counts[SAME, "same"] > 25 and counts[DIFFERENT, "different"] > 10)


def status_of(first, second):
    """What the program says of the metadata of two pictures in memory."""
    pictures = [exifnorm.read_bytes(it) for it in (first, second)]
    found = exifnorm.compare(*pictures)
    is_same = found.same or found.result == "other picture, the same metadata"
    if is_same and not any(it.blocks for it in pictures):
        return NO_METADATA
    return SAME if is_same else UNDECIDED if found.same is None else DIFFERENT


def of_odd_heads():
    chance = Random(5)
    behind = [made.jpeg(made.app1(trailers.A)) + it for it in (*trailers.ONE.values(), *trailers.SEVERAL.values())]
    return [*zip(behind, behind[1:]), *odd_heads.pairs_of_xmp(), *odd_heads.pairs_behind(), *(odd_heads.pair(chance) for _ in range(ODD))]


def of_hostile_packets():
    """Packets with mistakes by chance."""
    chance, some = Random(3), [PACKET.encode(), *(packet for packet in small_packets() if len(packet) < 5000)]
    for _ in range(HOSTILE):
        packet = chance.choice(some)
        other = chance.choice([packet + b" ", changed(packet, chance), chance.choice(some), PACKET.encode()])
        yield tuple(made.jpeg(made.app1_xmp(it)) for it in (chance.choice([packet, packet, changed(packet, chance)]), other))


def of_hostile_pictures():
    """The samples with mistakes by chance in their heads."""
    chance, samples = Random(3), [path.read_bytes() for path in sorted((TOP / "samples").glob("*/*/*.jpg"))]
    for _ in range(HOSTILE):
        original = chance.choice(samples)
        yield tuple(chance.choice([original, changed(original[:3000], chance) + original[3000:], chance.choice(samples)]) for _ in range(2))


@pytest.mark.parametrize("make", [of_odd_heads, of_hostile_packets, of_hostile_pictures, lambda: permutations(xmp_pictures(), 2)])
def test_pairs_are_answered_as_by_exifnorm_pictures(answers, checks, make):
    """The module says `same` only where the program does, `different` never there, and otherwise it names why."""
    pairs, counts = [*make()], Counter()
    for number, (pair, found) in enumerate(zip(pairs, answers(*pairs))):
        status = status_of(*pair)
        checks.check(f"{number}: {status} {found}", is_true_of(status, found))
        counts[found["verdict"]] += 1
    checks.check(f"each is there: {counts}", min(counts[it] for it in ("same", "different", "not wholly read")) >= 2)


OF_A_LONG_FILE = """const { compare } = require("./exifnorm.cjs"), head = Buffer.from(process.argv[1], "hex"), end = Buffer.from("a1b2c3d4", "hex"), size = 2 ** 26 + 4096;
let asked = 0;
const part = (start, stop) => {
  const bytes = new Uint8Array(stop - start);
  for (const [at, some] of [[0, head], [size - 4, end]]) for (let i = Math.max(at, start); i < Math.min(at + some.length, stop); i++) bytes[i - start] = some[i - at];
  asked += bytes.length;
  return bytes;
};
const { verdict, notRead } = compare({ size, part }, { size, part });
console.log(JSON.stringify([verdict, notRead.map(({ what }) => what), asked < 2e6]));"""


def test_a_trailer_that_is_longer_than_is_compared(node, module):
    """It is named, and not asked for."""
    said = node("-e", OF_A_LONG_FILE, made.jpeg(made.app1(trailers.A)).hex(), folder=module)
    assert json.loads(said) == ["not wholly read", ["FotoStation trailer"] * 2, True]


def blocks_of(octets, name):
    """The kind and the digest of each block that the program finds; none of what it can't read."""
    try:
        found = exifnorm.read_bytes(octets, name=name).blocks
    except (exifnorm.NoPicture, exifnorm.NotReadable):
        return []
    return sorted([it.kind, hashlib.sha256(it.data).hexdigest()] for it in found)


# ---- fields, captions and refusals


def for_json(value):
    """A value as JavaScript has it: fractions as numbers, dates as texts, bytes in digits."""
    if isinstance(value, (list, tuple)):
        return [for_json(it) for it in value]
    if isinstance(value, dict):
        return {name: for_json(it) for name, it in value.items()}
    if isinstance(value, (bytes, bytearray)):
        return bytes(value).hex()
    if isinstance(value, Fraction):
        return float(value)
    return value.isoformat() if isinstance(value, (date, time)) else value


def fields_of(picture):
    """The value and the text of each field by its name: of the first block that has it, and that isn't refused."""
    first, values, refused = {}, {}, {it.block for it in picture.refusals}
    for field in picture.fields:
        if field.block not in refused and first.setdefault(field.name, field.block) == field.block:
            values.setdefault(field.name, []).append((for_json(field.value), field.text))
    for name, several in values.items():
        alone = [value for value, _ in several]
        text = "; ".join(text for _, text in several)
        yield name, (alone[0] if len(alone) == 1 else alone, text)


def captions_of(picture):
    """The texts by label, without those that a camera or a program writes."""
    found = {}
    for caption in picture.captions:
        if not caption.is_own:
            found.setdefault(caption.label, set()).update(filter(None, caption.texts))
    return {label: texts for label, texts in found.items() if texts}


def own_text(text, make, model, has_second):
    """A picture of a camera, with a caption in Exif and in IPTC. Some have a block without a camera before it, and a preview of another one."""
    fields = [(tag, ASCII, it.encode() + b"\0") for tag, it in ((0x010E, text), (0x010F, make), (0x0110, model))]
    block = made.tiff(fields, [(0x0110, ASCII, b"preview\0")] if has_second else [])
    other = [made.app1(made.small_tiff((0x0131, ASCII, b"GIMP\0")))] * has_second
    return made.jpeg(*other, made.app1(block), made.with_record(made.data_set(120, text.encode())))


def made_pictures():
    """The samples, those of a museum on two nights, odd dates, texts of cameras, odd heads, and damaged files."""
    chance = Random(13)
    some = [(it.name, it.read_bytes()) for it in TOP.glob("samples/*/*/*") if it.is_file()]
    for night in (first_night(), second_night()):
        some += [(name, it) for name, it in night.items() if isinstance(it, bytes) and it]
    some += [("dated", odd_dates.dated(chance)) for _ in range(DATED)]
    texts = [*((text, "Apple", "iPhone 12") for text in OWN + PEOPLE), *OF_CAMERAS]
    some += [("own.jpg", own_text(*it, has_second)) for it, has_second in product(texts, (False, True))]
    some += [("odd.jpg", odd_heads.pair(chance)[0]) for _ in range(ODD)]
    of_formats = [it for it in some if it[0].startswith(("formats/", "states/", "rare/", "notes/", "sidecars/"))]
    return some + [(f"damaged/{name}", changed(it, chance)) for name, it in (chance.choice(of_formats) for _ in range(DAMAGED))]


def test_fields_are_those_of_exifnorm_pictures(answers, checks):
    """Names, values and texts of fields, captions, times and refusals, of all pictures of which both read the same blocks; of XMP, if all is
    read. Where blocks differ, the module names why."""
    some, equal = sorted(made_pictures()), 0
    for (name, octets), found in zip(some, answers(*([octets] for _, octets in some))):
        is_equal = sorted(found["blocks"]) == blocks_of(octets, name)
        checks.check(f"{name}: {found['named']}", is_equal or bool(found["named"]) and name != "dated")
        if not is_equal or not found["blocks"] or name.startswith("damaged/"):
            continue
        name = f"{name} {hashlib.sha256(octets).hexdigest()[:8]}"
        picture = exifnorm.read_bytes(octets, name=name.split(" ")[0])
        refused = [[it.block, it.cause, it.offset] for it in picture.refusals]
        is_xmp = [it for it in refused if "XMP" in it[0]] or any("XMP" in it for it in found["notRead"])
        checks.equal(name, *([it for it in those if "XMP" not in it[0]] for those in (found["refused"], refused)))
        # JavaScript knows no set that only other parts of a picture show
        if name.startswith("sets/"):
            continue
        both = {it: [found["fields"][it], text] for it, text in found["texts"].items()}
        due = {it: [*about] for it, about in fields_of(picture)}
        texts = {label: {it["text"] for it in those} for label, those in found["captions"].items()}
        if not is_xmp:
            checks.equal(f"{name}: fields", both, due)
        if not is_xmp and not refused:
            checks.equal(f"{name}: captions", texts, captions_of(picture))
            checks.equal(f"{name}: taken", found["taken"], picture.taken and picture.taken.isoformat())
        equal += not is_xmp and not refused
    checks.check(f"many are compared: {equal} of {len(some)}", 3 * equal > len(some))


def test_what_is_said_of_the_museum(answers, worker, golden, folder, checks):
    """Of each picture what `read` says beside fields and captions, and how it compares with that of the second night, or with the next one; and
    what the page's worker says of both. A picture that the museum has got since counts from the next --update on."""
    first, second = first_night(), second_night()
    names = [name for name, it in first.items() if isinstance(it, bytes) and it]
    nights = [(first[it], second.get(it, first[it]), first[other]) for it, other in zip(names, names[1:])]
    asked = [(first[it],) for it in names] + [(one, other if other != one else following) for one, other, following in nights]
    of_worker = [it for name, it in zip([*names, *names], asked) if name.startswith(SEEN)]
    beside = ("format", "position", "refusals", "notRead")
    said = [it.get("answer") or {word: it[word] for word in beside} for it in answers(*asked)]
    for file, lists, rows in (("answers", asked, said), ("worker", of_worker, answered(of_worker, folder, worker, "worker.mjs"))):
        keys = [hashlib.sha256(b"".join(it)).hexdigest()[:16] for it in lists]
        lines = {key: json.dumps(row) for key, row in zip(keys, rows)}
        if golden.is_update:
            golden(f"{file}.txt", "".join(f"{key} {line}\n" for key, line in lines.items()))
        due = dict(it.split(" ", 1) for it in (golden.folder / f"{file}.txt").read_text(encoding="utf-8").splitlines())
        for key in lines.keys() & due.keys():
            checks.equal(f"{file} {key}", lines[key], due[key])
        checks.check(f"most are there: {file}", 4 * len(lines.keys() & due.keys()) > 3 * len(due))


COMMANDS = """
0 contradictions/creator.jpg
0 texts/controls.jpg
2 refused/Doubled.jpg
2 formats/psd.psd
0 states/bare.jpg
0 states/trailer.jpg
0 copies/first.jpg copies/again.jpg
1 contradictions/creator.jpg contradictions/place.jpg
1 texts/controls.jpg texts/written.jpg
1 copies/first.jpg contradictions/south.jpg
2 refused/Doubled.jpg refused/NoMarker.jpg
2 states/trailer.jpg formats/gif.gif
2 states/bare.jpg states/bare.jpg
2 states/none.jpg
2 states/bare.jpg states
0 --help
0 -h
0 --version
2
2 copies/first.jpg copies/again.jpg copies/first.jpg
""".strip().splitlines()


def test_the_command(module, folder, golden):
    """What `npx exifnorm` prints, and its status."""
    put(str(folder), {name: it for name, it in first_night().items() if name in " ".join(COMMANDS)})
    said = []
    for status, *words in map(str.split, COMMANDS):
        said += [f"$ exifnorm {' '.join(words)} # {status}", run("node", module / "cli.js", *words, folder=folder, status=int(status))]
    golden("cli.txt", "\n".join(said).replace(guard.MARK, ""))


# ---- texts and further pictures


def test_packets_in_utf_16(answers):
    """A sidecar, and a packet in a JPEG, say what they say in UTF-8."""
    packet = made.title("Ваза").decode()
    wide = [start + packet.encode(name) for start, name in ((b"\xff\xfe", "utf-16-le"), (b"", "utf-16-be"))]
    pairs = [(packet.encode(), it) for it in wide] + [(made.jpeg(made.app1_xmp(packet.encode())), made.jpeg(made.app1_xmp(wide[0])))]
    assert [it["verdict"] for it in answers(*pairs)] == ["same"] * 3
    assert answers([wide[0]])[0]["texts"]["XMP-dc:format"] == "Ваза"


def test_pictures_behind_the_head(answers):
    """They are read if they are there; of the first bytes alone it is said that they aren't."""
    both = [made.mpf(made.app1(made.exif(b"abc")), made.jpeg(made.app1(made.exif(it)))) for it in (b"one", b"two")]
    head = both[0][: both[0].index(b"\xff\xd9") + 2]
    (other, same, part), (alone,) = answers(both, [both[0], both[0]], [head, both[0]]), answers([both[0]])
    assert (other["verdict"], same["verdict"], part["verdict"]) == ("different", "same", "different")
    assert (
        other["names"] == ["IFD0:Make (Exif of MPF picture 2)"]
        and not same["named"]
        and not same["proved"]
        and any("behind the bytes" in it for it in part["named"])
    )
    assert len(alone["blocks"]) == 2


# ---- edits


EDITS = """import { readFileSync } from "node:fs"; import { Engine } from "./engine.js"; import { headOfFile, verdict } from "./head.js";
import { listsOf } from "./rows.js"; import { editsOf } from "./edits.js";
const engine = new Engine(new WebAssembly.Module(readFileSync("exifnorm.wasm")));
const headOf = (bytes) => headOfFile(engine, { size: bytes.length, part: (start, end) => bytes.subarray(start, end) });
for (const line of readFileSync(process.argv[1], "ascii").split("\\n")) {
  const heads = JSON.parse(line).map((name) => headOf(new Uint8Array(readFileSync(name)))), isDifferent = verdict(engine, ...heads) === "different";
  const rows = isDifferent ? listsOf(engine, heads).flatMap((list) => list.rows).filter(({ isEqual, isOpen }) => !isEqual && !isOpen) : [];
  console.log(JSON.stringify([isDifferent, editsOf(rows).map(({ name, note }) => [name, note]), rows.map(({ name }) => name).sort()]));
}"""


def edits_by_program(first, second):
    """The names and the notes of the edits; those of programs count only if there are no others."""
    records = [exifnorm.read_bytes(it)._record for it in (first, second)]
    edits = [*edits_of(two_pictures.compare(*records, None).compared.changes).values()]
    return sorted([it.name, it.note] for it in edits if it.name != PROGRAMS or len(edits) == 1)


def edited_pairs():
    """Pictures of a museum on two nights, and each beside the next one."""
    first, second = first_night(), second_night()
    kept = [
        name for name, it in first.items() if isinstance(it, bytes) and name.startswith(("texts/", "contradictions/", "work/", "formats/"))
    ]
    pairs = [(first[name], second[name]) for name in kept if name in second] + [
        (first[one], first[other]) for one, other in zip(kept, kept[1:])
    ]
    return [pair for pair in pairs if pair[0] != pair[1]]


def of_blocks():
    """Their blocks have fields of each directory, tag and type."""
    chance = Random(3)
    for number in range(MADE):
        first, second = ([exif_block(chance), record_block(chance)] for _ in range(2))
        second = [first[0], second[1]] if number % 3 == 0 else [second[0], first[1]] if number % 3 == 1 else second
        yield tuple(picture(exif(block), iptc(record)) for block, record in (first, second))


def test_edits_are_those_of_exifnorm_pictures(worker, folder, checks):
    """With the same fields that differ, of made blocks."""
    made_blocks, pairs = [*of_blocks()], edited_pairs()
    found = answered(made_blocks + pairs, folder, worker, "--input-type=module", "-e", EDITS)
    for number, (pair, (is_different, edits, fields)) in enumerate(zip(made_blocks + pairs, found)):
        if is_different and number < MADE:
            differences = exifnorm.compare(*map(exifnorm.read_bytes, pair)).differences
            checks.equal(number, fields, sorted(it.name for it in differences))
        elif is_different:
            checks.equal(number, sorted(edits), edits_by_program(*pair))
    checks.check("pairs were edited", sum(is_different for is_different, *_ in found[MADE:]) > 30)


# ---- compressed texts


INFLATE = """import { readFileSync } from "node:fs"; import { createHash } from "node:crypto"; import { inflated } from "./inflate.js";
const { sizes, most } = JSON.parse(process.argv[2]), octets = new Uint8Array(readFileSync(process.argv[1]));
let end = 0;
console.log(JSON.stringify(sizes.map((size) => {
  const found = inflated(octets.subarray(end, (end += size)), most);
  return found && createHash("sha256").update(found).digest("hex");
})));"""


def streams():
    """Compressed bytes of each kind of block, and damaged and cut ones."""
    chance = Random(3)
    contents = [
        b"",
        b"a" * 3000,
        chance.randbytes(2000),
        bytes(chance.choice(b"abcd") for _ in range(5000)),
        b"".join(b"%d " % it for it in range(900)),
    ]
    for content in contents:
        for level in (0, 1, 6, 9):
            for strategy in (zlib.Z_DEFAULT_STRATEGY, zlib.Z_HUFFMAN_ONLY, zlib.Z_FIXED):
                coder = zlib.compressobj(level, strategy=strategy)
                whole = coder.compress(content) + coder.flush()
                yield whole
                yield from (changed(whole, chance) for _ in range(6))


def test_what_is_inflated_is_what_zlib_inflates(node, module, folder):
    some = [*streams()]
    (folder / "streams").write_bytes(b"".join(some))
    asked = json.dumps({"sizes": [len(it) for it in some], "most": 1 << 20})
    found = json.loads(node("--input-type=module", "-e", INFLATE, folder / "streams", asked, folder=module))
    due = []
    for stream in some:
        opened = zlib.decompressobj()
        try:
            content = opened.decompress(stream)
            due.append(hashlib.sha256(content).hexdigest() if opened.eof else None)
        except zlib.error:
            due.append(None)
    assert found == due and None in due


def test_long_texts_end_at_a_limit(answers):
    """Compressed ones of more bytes than any block has."""
    long = made.packed_zeros(64)
    profile, packet = (
        made.png(made.chunk(kind, word + b"\0" + head + long))
        for kind, word, head in ((b"iCCP", b"a", b"\0"), (b"zTXt", b"XML:com.adobe.xmp", b"\0"))
    )
    assert [it["named"] for it in answers([profile], [packet])] == [[], ["text chunk that can't be read"]]
