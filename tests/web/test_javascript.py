"""The JavaScript module in node and in Chromium: each answer is that of the native library, which other tests judge."""

import hashlib
import json
import re
import shutil
from pathlib import Path
from random import Random

import guard
import npm
import pytest

import exifnorm
import made_files as made
from changed import changed
from commands import TOP, run
from judged import LARGE, blocks_of_cases
from kinds import small_kinds
from packets import PACKET
from small_blocks import long_form
from small_packets import small_packets
from test_jpeg_same import exif, iptc, picture
from test_jpeg_same_extended import LEFT, SAME as EXTENDED
from jpeg_made import packet as xmp_segment

HERE = Path(__file__).resolve().parent
pytestmark = pytest.mark.xdist_group("web")
SEED = 7
MOST_WASM = 252_000
RUSSIAN = "Ваза с двумя полосами".encode()  # the caption of the package's first example


def digest(octets):
    return hashlib.sha256(octets).hexdigest()


def digests(blocks):
    return [[str(kind), digest(data)] for kind, data in blocks]


RDF = "{http://www.w3.org/1999/02/22-rdf-syntax-ns#}"


def of_value(value):
    """A value of XMP, or a property, as JavaScript has it."""
    if isinstance(value, exifnorm.XmpContainer):
        return {"kind": value.kind, "members": [*map(of_value, value.members)]}
    if isinstance(value, exifnorm.XmpStructure):
        return {"kind": "structure", "properties": [*map(of_value, value.properties)]}
    if isinstance(value, exifnorm.XmpProperty):
        return {**value._asdict(), "value": of_value(value.value)}
    return {"kind": "resource" if isinstance(value, exifnorm.XmpResource) else "text", **value._asdict()}


def properties(packet):
    return [*map(of_value, exifnorm.xmp_properties(packet))]


CALLS = {
    "check": lambda block: str(exifnorm.kind(block)),
    "normalise": lambda block: digest(exifnorm.normal(block)),
    "show": lambda block: digest(exifnorm.show(block).encode()),
    "captions": lambda block: digest(exifnorm._calls.captions_text(block).encode()),
    "same": exifnorm.same,
    "jpegParts": lambda bytes_: [list(part) for part in exifnorm.jpeg_parts(bytes_)],
    "jpegBlocks": lambda bytes_: digests(exifnorm.jpeg_blocks(bytes_)),
    "jpegUnread": lambda bytes_: exifnorm.jpeg_unread(bytes_) and list(exifnorm.jpeg_unread(bytes_)),
    "jpegSame": exifnorm.jpeg_same,
    "jpegSameBlocks": exifnorm.jpeg_same_blocks,
    "jpegXmp": lambda bytes_: digest(found) if (found := exifnorm.jpeg_xmp(bytes_)) is not None else None,
    "photoshopResources": lambda bytes_: [list(resource) for resource in exifnorm.photoshop_resources(bytes_)],
    "xmpCheck": lambda packet: exifnorm.xmp_normal(packet) and None,
    "xmpNormalise": lambda packet: digest(exifnorm.xmp_normal(packet)),
    "xmpUnsorted": lambda packet: digest(exifnorm._xmp.form_of(packet, sort=False)),
    "xmpProperties": properties,
}
OF_BLOCK, OF_BLOCKS = ("check", "normalise", "show", "captions"), ("same",)
OF_PICTURE, OF_PICTURES = ("jpegParts", "jpegBlocks", "jpegUnread", "jpegXmp"), ("jpegSame", "jpegSameBlocks")
OF_PACKET = ("xmpCheck", "xmpNormalise", "xmpUnsorted", "xmpProperties")


def native(name, blocks):
    """What the native library answers, as answers.mjs writes it."""
    try:
        answer = CALLS[name](*blocks)
        return ["NotRead", answer.side, *answer.unread] if isinstance(answer, exifnorm.NotRead) else answer
    except exifnorm.HeadRefused as why:
        return ["HeadRefused", str(why), [list(part) for part in why.parts], digests(why.blocks)]
    except exifnorm.XmpNotRead as why:
        return ["XmpNotRead", str(why)]
    except exifnorm.XmpRefused as why:
        return ["XmpRefused", f"{why.cause} at {why.offset}", why.is_rare]
    except (exifnorm.Refused, exifnorm.NormalTooLong) as why:
        return [type(why).__name__, str(why)]


def pictures(blocks):
    """JPEGs with the blocks of cases, the sample pictures, and those with mistakes by chance."""
    chance = Random(SEED)
    samples = [path.read_bytes() for path in sorted(TOP.glob("samples/*/*/*.jpg"))]
    small = [block for block in blocks if len(block) < 30_000]
    found = [picture(exif(block), iptc(other)) for block, other in zip(small, reversed(small))]
    found += [picture(xmp_segment(it)) for it in small_packets()] + [picture(xmp_segment(b"<x/>"), xmp_segment(b"<x/>"))]
    found += [*EXTENDED.values(), *(some for some, _ in LEFT.values())]
    return samples + found + [changed(chance.choice(samples)[:20_000], chance) for _ in range(300)]


def packets():
    """Packets of XMP in all forms, those of the sample pictures, nested ones, and those with mistakes by chance."""
    chance, small = Random(SEED), [*small_packets(), PACKET.encode()]
    whole = re.compile(rb"<x:xmpmeta\b.*?</x:xmpmeta>", re.S)
    samples = [packet for path in sorted(TOP.glob("samples/*/*/*")) for packet in whole.findall(path.read_bytes())]
    nested = [small[0].replace(b"<d:a>Vase", b"<d:b r:parseType='Resource'>" * depth + b"<d:a>Vase") for depth in (50, 96, 97, 98)]
    nested = [packet.replace(b"</d:a>", b"</d:a>" + b"</d:b>" * packet.count(b"<d:b")) for packet in nested]
    return small + samples + nested + [changed(chance.choice(small), chance) for _ in range(600)] + [b" " * (exifnorm.LIMIT + 1)]


READ = """import { readFileSync } from "node:fs"; import { read } from "./node.js";
console.log(JSON.stringify(process.argv.slice(1).map((name) => read(readFileSync(name)))));"""


@pytest.fixture(scope="module")
def requests(library):
    """The blocks, and the requests by their numbers: each block and picture, and each with the one before it and with itself."""
    blocks = [*dict.fromkeys([*blocks_of_cases(), *(block for kind in small_kinds() for block in kind.blocks)])]
    blocks = [block for block in blocks if len(block) < LARGE or len(block) > 1 << 24] + [long_form()]
    heads, of_xmp = [*dict.fromkeys(pictures(blocks))], [*dict.fromkeys(packets())]
    asked, start = [], 0
    for some, single, double in ((blocks, OF_BLOCK, OF_BLOCKS), (heads, OF_PICTURE, OF_PICTURES), (of_xmp, OF_PACKET, ())):
        count = len(some)
        for number in range(start, start + count):
            asked += [(call, number) for call in single]
            asked += [(call, number, other) for call in double for other in (number, start + (number + 1 - start) % count)]
        start += count
    resources = [number for number, block in enumerate(blocks) if block[:4] == b"8BIM"]
    return blocks + heads + of_xmp, asked + [("photoshopResources", number) for number in [*resources, 0]]


@pytest.fixture(scope="module")
def served(module, requests, session_folder):
    """A folder with the module, the blocks and the requests."""
    folder = session_folder / "served"
    shutil.copytree(module, folder)
    shutil.copyfile(HERE / "answers.mjs", folder / "answers.mjs")
    blocks, asked = requests
    (folder / "blocks").write_bytes(b"".join(blocks))
    (folder / "requests.json").write_text(json.dumps({"sizes": [len(block) for block in blocks], "requests": asked}), encoding="ascii")
    (folder / "empty.html").write_text("<!DOCTYPE html><title>answers</title>", encoding="ascii")
    return folder


@pytest.fixture(scope="module")
def expected(requests):
    blocks, asked = requests
    return [native(name, [blocks[number] for number in numbers]) for name, *numbers in asked]


def test_each_answer_in_node(node, served, requests, expected, checks):
    (blocks, asked), answers = requests, json.loads(node("answers.mjs", folder=served))
    assert len(answers) == len(expected)
    for (name, *numbers), answer, due in zip(asked, answers, expected):
        if answer != due:
            checks.equal(f"{name} of {[blocks[number][:60].hex() for number in numbers]}", answer, due)
    checks.check("each request was answered", len(answers) > 1000)


def test_engine(node, module, session_folder):
    """The rest of the module's behaviour: errors, memory, the heap, and a module that traps (engine.test.mjs)."""
    shutil.copyfile(HERE / "engine.test.mjs", module / "engine.test.mjs")
    run("wasm-as", HERE / "trap.wat", "-o", module / "trap.wasm")
    said = node("--test", "--test-reporter=tap", "engine.test.mjs", folder=module)
    assert "# fail 0" in said and "# pass 0" not in said, said


@pytest.mark.skipif(not shutil.which("tsc"), reason="tsc (package node-typescript) is not installed")
def test_the_declared_types_are_those_of_the_module(module):
    """By how each call is used."""
    shutil.copyfile(HERE / "client.mts", module / "client.mts")
    run("tsc", "--noEmit", "--strict", "--target", "es2022", "--module", "node16", "--lib", "es2022,dom", "client.mts", folder=module)


def test_a_blob_is_read_no_further_than_needed(node, module):
    """Of a large file the parts that the answer needs; the answer is that of the bytes, also where the parts are far from each other."""
    file, behind = TOP / "samples" / "before" / "prints" / "1931-4-plan.png", (TOP / "samples" / "before" / "ceramics" / "2003-12-bowl.jpg")
    print_of_parts = """const { readFileSync } = require("node:fs"), { compare, read } = require("./exifnorm.cjs");
    const size = 300e6, end = readFileSync(process.argv[1]), [png, jpeg] = process.argv.slice(2).map((name) => readFileSync(name));
    const octets = new Map(), blobOf = (head, tail) => {
      const blob = new Blob([head]), asked = [];
      Object.defineProperty(blob, "size", { value: size });
      blob.slice = (start, stop) => {
        const part = new Uint8Array(stop - start);
        asked.push(part.length);
        for (const [at, some] of [[0, head], [size - tail.length, tail]]) {
          for (let i = Math.max(at, start); i < Math.min(at + some.length, stop); i++) part[i - start] = some[i - at];
        }
        return new Blob([part]);
      };
      octets.set(blob, asked);
      return blob;
    };
    (async () => {
      const tiff = end, of = (bytes, tail = new Uint8Array(0)) => blobOf(new Uint8Array(bytes), tail);
      const one = of(jpeg), other = of(tiff.subarray(0, 8), tiff), answers = [await read(one), await read(other)];
      const asked = [one, other].map((blob) => octets.get(blob).reduce((sum, count) => sum + count, 0));
      const same = await compare(of(jpeg), jpeg), whole = await read(new Blob([png]));
      console.log(JSON.stringify([answers.map(({ texts }) => texts), asked, same.verdict, JSON.stringify(whole) === JSON.stringify(read(png)), read(jpeg).texts]));
    })();"""
    far = bytearray(made.small_tiff((0x010F, 2, b"Leica\0")))
    directory = int.from_bytes(far[4:8], "little")
    size = 300_000_000
    value = int.from_bytes(far[directory + 10 : directory + 14], "little")
    far[4:8] = (size - len(far) + directory).to_bytes(4, "little")
    far[directory + 10 : directory + 14] = (size - len(far) + value).to_bytes(4, "little")
    (module / "far.tif").write_bytes(far)
    texts, asked, verdict, is_equal, due = json.loads(node("-e", print_of_parts, module / "far.tif", file, behind, folder=module))
    assert texts == [due, {"IFD0:Make": "Leica"}] and verdict == "same" and is_equal
    assert max(asked) < 1 << 20, "of 300 MB"


def test_two_blocks_are_not_compared_as_pictures(node, module):
    """An old call would get an object, which is true."""
    blocks = [made.iim(b"one"), made.exif(b"abc"), made.iim(b"one")]
    print_of_calls = """const { compare } = require("./exifnorm.cjs"), blocks = process.argv.slice(1).map((hex) => new Uint8Array(Buffer.from(hex, "hex")));
    for (const other of blocks.slice(1)) try { compare(blocks[0], other); console.log("compared"); } catch (error) { console.log(error.name, error.message); }"""
    said = node("-e", print_of_calls, *(block.hex() for block in blocks), folder=module)
    assert said == "TypeError compare takes two pictures; `same` compares two blocks\n" * 2


def test_import_and_require_have_the_same_classes(node, module):
    program = """import { createRequire } from "node:module"; import * as imported from "exifnorm"; import * as engine from "exifnorm/engine.js";
    const required = createRequire(import.meta.url)("exifnorm"), names = Object.keys(required);
    console.log(names.length > 25 && names.every((name) => required[name] === imported[name] && (!(name in engine) || engine[name] === imported[name])));"""
    (module / "both.mjs").write_text(program, encoding="utf-8")
    assert node("both.mjs", folder=module) == "true\n"


EVERY = ("__proto__", "constructor", "toString", "hasOwnProperty", "valueOf")  # names that each object of JavaScript has
COUNTS = """const there = (it) => Object.getOwnPropertyNames(it.prototype).length;
console.log(JSON.stringify([there(Object), there(Array), ({}).Vase ?? null]));"""


def test_names_that_each_object_has(node, module, folder):
    """As names of properties, of members and of namespaces: each is there as others are, and no other object has them."""
    files = []
    for number, space in enumerate(("http://d/", *EVERY)):
        members = "".join(f"<d:{name}>Vase</d:{name}>" for name in EVERY)
        texts = "".join(f"<d:{name}s>Vase</d:{name}s><d:{name} r:parseType='Resource'>{members}</d:{name}>" for name in EVERY)
        packet = f"<r:RDF xmlns:r='{RDF[1:-1]}' xmlns:d='{space}'><r:Description>{texts}</r:Description></r:RDF>"
        files.append(folder / f"{number}.jpg")
        files[-1].write_bytes(picture(xmp_segment(packet.encode())))
    found, plain = map(json.loads, node("--input-type=module", "-e", f"{READ}\n{COUNTS}", *files, folder=module).splitlines())
    assert plain == json.loads(node("-e", COUNTS))
    due = {it.name for it in exifnorm.read(files[0]).fields}
    assert {*found[0]["fields"]} == {*found[0]["texts"]} == due and len(due) == 2 * len(EVERY)


def test_the_module_imports_nothing_and_is_small(wasm, node):
    octets = (wasm / "exifnorm.wasm").read_bytes()
    assert len(octets) < MOST_WASM or guard.MARK.encode() in octets, "one without proofs has checks in their place"
    script = "const module = new WebAssembly.Module(require('fs').readFileSync(process.argv[1])); console.log(WebAssembly.Module.imports(module).length)"
    assert node("-e", script, wasm / "exifnorm.wasm") == "0\n"


def test_the_package_for_npm(wasm, node, folder):
    """The archive is unpacked as npm does it."""
    packed = folder / "exifnorm-1.0.0.tgz"
    octets = npm.archive((wasm / "exifnorm.wasm").read_bytes(), "1.0.0", 1)
    assert octets == npm.archive((wasm / "exifnorm.wasm").read_bytes(), "1.0.0", 1), "the same arguments make the same bytes"
    packed.write_bytes(octets)
    user = folder / "user"
    user.mkdir()
    (user / "node_modules").mkdir()
    shutil.unpack_archive(packed, user / "node_modules")
    (user / "node_modules" / "package").rename(user / "node_modules" / "exifnorm")
    readme = (TOP / "javascript" / "README.md").read_text(encoding="utf-8")
    for name in ("before", "after"):
        shutil.copyfile(TOP / "samples" / name / "ceramics" / "2003-12-bowl.jpg", user / f"{name}.jpg")
    packet = exifnorm.jpeg_xmp((TOP / "samples" / "before" / "ceramics" / "1998-7-vase.jpg").read_bytes())
    (user / "vase.jpg").write_bytes(
        picture(iptc(b"\x1c\1\x5a\0\3\x1b%G\x1c\2\x78" + len(RUSSIAN).to_bytes(2, "big") + RUSSIAN), xmp_segment(packet))
    )
    said = []
    for example in re.findall(r"(?s)```js\n(.*?)```", readme):
        (user / "example.mjs").write_text(example, encoding="utf-8")
        said.append(node("example.mjs", folder=user))
        required = re.sub(r'import (\{[^}]*\}) from ("[^"]*");', r"const \1 = require(\2);", example)
        (user / "example.cjs").write_text(required, encoding="utf-8")
        assert node("example.cjs", folder=user) == said[-1]
    assert "different true\n" in said[0] and "IPTC:Caption-Abstract: Bowl, celadon glaze, 1820 -> Bowl, celadon glaze, 1280\n" in said[0]
    assert said[0].startswith(RUSSIAN.decode() + "\n")
    title = '{"kind":"Alt","members":[{"kind":"text","text":"Vase with two bands","language":"x-default"}]}'
    assert f"http://purl.org/dc/elements/1.1/title {title}\n" in said[1] and "wrong" not in said[1]
