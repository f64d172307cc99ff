// The behaviour of engine.js besides its answers: test_javascript.py runs it in the folder of the module.
import assert from "node:assert/strict";
import { readFileSync } from "node:fs";
import { test } from "node:test";
import * as exifnorm from "exifnorm";
import { Engine, load } from "exifnorm/engine.js";

const bytes = (hex) => new Uint8Array(Buffer.from(hex.replaceAll(" ", ""), "hex"));
const compiled = (name) => new WebAssembly.Module(readFileSync(new URL(name, import.meta.url)));
const WASM = compiled("./exifnorm.wasm"), PAGE = 65536;
const ONE = bytes("4d4d002a00000008 0001 0112 0003 00000001 00060000 00000000");

/** A block whose normal form is longer than LIMIT: numbers of RowsPerStrip take two bytes here, and four in the form. */
function longForm() {
  const count = exifnorm.LIMIT / 4, block = new Uint8Array(26 + 2 * count);
  block.set(bytes("4d4d002a00000008 0001 0116 0003 00000000 0000001a 00000000"));
  new DataView(block.buffer).setUint32(14, count);
  return block;
}

test("errors have a cause, an offset, and what else belongs to them", () => {
  assert.throws(() => exifnorm.check(bytes("")), { name: "Refused", cause: "UnknownKind", offset: 0, place: 0, side: null });
  assert.throws(() => exifnorm.same(ONE, ONE.subarray(0, 25)), { cause: "DirectoryOutside", offset: 8 - 4, side: 2 });
  assert.throws(() => exifnorm.jpegBlocks(bytes("ffd8 fffe0004 4142 ffe1")), (error) => {
    assert.ok(error instanceof exifnorm.HeadRefused && error instanceof exifnorm.Refused);
    assert.deepEqual([error.cause, error.offset, error.parts.map(({ marker }) => marker), error.blocks], ["JpegCut", 8, [0xfe], []]);
    return true;
  });
  const cut = bytes("ffd8 ffe1000c 457869660000 4d4d002a ffe1000a 457869660000 0008 ffdb");
  const blocks = [{ kind: "exif", data: bytes("4d4d002a 0008") }];
  assert.throws(() => exifnorm.jpegBlocks(cut), { name: "HeadRefused", cause: "JpegCut", offset: 28, blocks });
  assert.throws(() => exifnorm.jpegParts(cut), { name: "HeadRefused", blocks: [] });
  const broken = bytes("ffd8 ffe1000a 457869660000 4d4d ffd9");
  assert.throws(() => exifnorm.jpegSame(bytes("ffd8 ffd9"), broken), {
    name: "PictureRefused", cause: "HeaderCut", offset: 2, side: 2, kind: "exif", index: 0,
  });
  const more = bytes("ffd8 ffe1000a 457869660001 4d4d ffd9");
  assert.throws(() => exifnorm.jpegSame(bytes("ffd8 ffd9"), more), { name: "NotRead", side: 2, unread: { joined: false, start: 6 } });
  assert.throws(() => exifnorm.jpegSameBlocks(bytes("ffd8 ffd9"), more), { name: "NotRead", side: 2 });
  const segment = `ffe10022 ${Buffer.from("http://ns.adobe.com/xap/1.0/\0<x/").toString("hex")}`, [one, two] = [1, 2].map((count) => bytes(`ffd8 ${segment.repeat(count)} ffd9`));
  assert.throws(() => exifnorm.jpegXmp(two), { name: "XmpNotRead", offset: 71 });
  assert.throws(() => exifnorm.jpegXmp(ONE), { name: "HeadRefused", cause: "JpegNoStart" });
  assert.deepEqual([exifnorm.jpegXmp(one), exifnorm.jpegXmp(bytes("ffd8 ffd9"))], [encoded("<x/"), null]);
  assert.throws(() => exifnorm.jpegSame(one, one), { name: "NotRead", side: 1, unread: { joined: false, start: 35 } });
  assert.equal(exifnorm.jpegSameBlocks(one, two), true);
  assert.throws(() => exifnorm.jpegParts(bytes("ffd8 ff01 ff01 ffd9"), 2), { name: "TooMany", most: 2 });
  assert.equal(exifnorm.jpegParts(bytes("ffd8 ff01 ff01 ffd9"), 3).length, 3);
});

test("each call says what it takes", () => {
  const calls = Object.entries(exifnorm).filter(([name]) => /^[a-z]/.test(name) && !["load", "version", "ready"].includes(name));
  assert.ok(calls.length > 10);
  for (const [name, call] of calls)
    for (const wrong of ["text", null, undefined, [1, 2], new Uint16Array(2), new ArrayBuffer(2)])
      assert.throws(() => call(wrong, wrong), { name: "TypeError", message: /^exifnorm takes a (?:picture as a )?Uint8Array/ }, name);
});

const RDF = "http://www.w3.org/1999/02/22-rdf-syntax-ns#", encoded = (text) => new TextEncoder().encode(text);
const packet = (inside) => encoded(`<r:RDF xmlns:r='${RDF}' xmlns:d='http://d/'><r:Description>${inside}</r:Description></r:RDF>`);

test("a packet of XMP is wrong, or in a rare form", () => {
  for (const call of [exifnorm.xmpCheck, exifnorm.xmpNormalise]) {
    const wrong = { name: "XmpRefused", cause: "XmpOtherEnd", offset: 6, side: null, isRare: false };
    assert.throws(() => call(encoded("<a><b></a>")), wrong);
    assert.throws(() => call(packet("text")), { cause: "XmpRareText", isRare: true });
    assert.throws(() => call(packet("text")), (error) => error instanceof exifnorm.XmpRefused && error instanceof exifnorm.Refused);
    assert.throws(() => call(new Uint8Array(exifnorm.LIMIT + 1)), { cause: "XmpTooLong", offset: exifnorm.LIMIT });
  }
  assert.equal(exifnorm.xmpCheck(packet("<d:a>Vase</d:a>")), undefined);
});

test("the properties of a form", () => {
  const list = "<r:li r:resource='u:?a&amp;b'/><r:li r:parseType='Resource'><d:c/><r:value>v</r:value></r:li>";
  const inside = `<d:a xml:lang='DE'>&#38;lt;\r&#13;</d:a><d:b><r:Alt>${list}</r:Alt></d:b>`;
  const text = (value, language = "") => ({ kind: "text", text: value, language });
  const structure = [{ namespace: "http://d/", name: "c", value: text("") }, { namespace: RDF, name: "value", value: text("v") }];
  const members = [{ kind: "resource", uri: "u:?a&b" }, { kind: "structure", properties: structure }];
  assert.deepEqual(exifnorm.xmpProperties(exifnorm.xmpNormalise(packet(inside))), [
    { namespace: "http://d/", name: "a", value: text("&lt;\n\r", "de") },
    { namespace: "http://d/", name: "b", value: { kind: "Alt", members } },
  ]);
  assert.deepEqual(exifnorm.xmpProperties(exifnorm.xmpNormalise(packet(""))), []);
  const bag = packet("<d:a><r:Bag><r:li>urn</r:li><r:li>bowl</r:li></r:Bag></d:a>");
  const keywords = (form) => exifnorm.xmpProperties(form)[0].value.members.map((member) => member.text);
  assert.deepEqual([keywords(exifnorm.xmpNormalise(bag)), keywords(exifnorm.xmpUnsorted(bag))], [["bowl", "urn"], ["urn", "bowl"]]);
});

test("what is no form has no properties", () => {
  const inside = "<d:a xml:lang='de'>1</d:a><d:b><r:Bag><r:li>2</r:li></r:Bag></d:b><d:c r:resource='u:1'/><d:d d:e='3'/>";
  const form = exifnorm.xmpNormalise(packet(inside)), text = new TextDecoder().decode(form), end = "</rdf:Description>";
  const fails = (bytes) => assert.throws(() => exifnorm.xmpProperties(bytes), SyntaxError);
  for (let size = 0; size < form.length; size++) fails(form.subarray(0, size));
  for (const other of [packet("<d:a>1</d:a>"), encoded(`${text} `), Uint8Array.from(form, (octet) => octet | 0x80)]) fails(other);
  for (const other of [encoded(`\ufeff${text}`), form.map((octet, i) => i === text.indexOf(">1<") + 1 ? 0xff : octet)]) fails(other);
  for (const other of ["</p:q>", "", " </p:a>x"]) fails(encoded(text.replace("</p:a>", other)));
  const nested = '<p:a xmlns:p="http://d/" rdf:parseType="Resource">'.repeat(100_000) + "</p:a>".repeat(100_000);
  fails(encoded(text.replace(end, nested + end)));
});

test("a result is a copy, and an argument stays as it is", () => {
  const block = ONE.slice(), form = exifnorm.normalise(block);
  exifnorm.normalise(bytes("1c0278 0004 56617365"));
  assert.deepEqual(form, ONE);
  assert.deepEqual(block, ONE);
  assert.equal(form.buffer.byteLength, ONE.length);
});

test("a form that is too long is an error, and its memory is not kept", () => {
  const engine = new Engine(WASM), block = longForm();
  assert.equal(engine.check(block), "exif");
  assert.throws(() => engine.normalise(block), { name: "NormalTooLong" });
  assert.equal(engine.compare(block, block), true);
  assert.throws(() => engine.check(new Uint8Array(1 << 27)), { cause: "TooLong", offset: exifnorm.LIMIT });
  assert.ok(engine.memory <= 1 << 26, `${engine.memory} bytes`);
  assert.equal(engine.check(ONE), "exif");
});

test("more calls need no more memory, and leave nothing", () => {
  const engine = new Engine(WASM), picture = bytes("ffd8 ffe1000c 457869660000 4d4d002a ffd9");
  engine.normalise(ONE);
  engine.xmpNormalise(packet("<d:a>Vase</d:a>"));
  const memory = engine.memory;
  for (let count = 0; count < 5000; count++) {
    engine.normalise(ONE);
    assert.throws(() => engine.check(ONE.subarray(0, count % ONE.length)), exifnorm.Refused);
    engine.jpegParts(picture);
    engine.xmpNormalise(packet("<d:a>Vase</d:a>"));
    assert.throws(() => engine.xmpCheck(packet("text")), exifnorm.XmpRefused);
  }
  assert.equal(engine.memory, memory);
  assert.equal(engine.allocations, 0);
});

test("the module is given as bytes, compiled, or as a response", async () => {
  const octets = readFileSync(new URL("./exifnorm.wasm", import.meta.url));
  for (const source of [octets, WASM, Promise.resolve(WASM), new Response(octets), Promise.resolve(new Response(octets))]) {
    assert.equal((await load(source)).check(ONE), "exif");
  }
  await assert.rejects(load(bytes("0061736d 02000000")), WebAssembly.CompileError);
});

test("after a trap the next call works, and an unknown answer is none", () => {
  const engine = new Engine(compiled("./trap.wasm"));
  assert.equal(engine.check(bytes("00")), "exif");
  assert.throws(() => engine.check(bytes("01")), /exifnorm stopped/);
  assert.equal(engine.check(bytes("00")), "exif");
  assert.equal(engine.allocations, 0);
  assert.throws(() => engine.check(bytes("02")), /status 9/);
  assert.throws(() => engine.jpegSame(ONE, ONE), /answer 2/);
});

test("memory that isn't there is an error, and the next call works", () => {
  const { memory, exifnorm_malloc: malloc } = new WebAssembly.Instance(WASM).exports;
  for (const size of [1n << 40n, (1n << 64n) - 1n, 0xf0000000n, 0xefffffffn]) assert.equal(malloc(size), 0n, `${size} bytes`);
  assert.ok(malloc(64n) > 0n && memory.buffer.byteLength < 1 << 22);
  const engine = new Engine(WASM), picture = { length: 2 ** 40 };
  Object.setPrototypeOf(picture, Uint8Array.prototype); // it has no bytes, so none of them is read before memory is asked for
  Object.defineProperty(picture, "length", { value: 2 ** 40 });
  assert.throws(() => engine.jpegParts(picture), { name: "OutOfMemory" });
  assert.equal(engine.check(ONE), "exif");
});

test("the deepest calls need less than half of the stack", () => {
  const STACK = 327_680, inner = "<d:b r:parseType='Resource'>".repeat(95) + "<d:a d:b='1'/>" + "</d:b>".repeat(95);
  const most = packet(`${inner}<d:c>${"<!-- c -->".repeat(9)}</d:c><d:d ${Array.from({ length: 250 }, (_, i) => `d:b${i}=''`).join(" ")}/>`);
  for (const [name, bytes] of [["exifnorm_check", ONE], ["exifnorm_xmp_check", most]]) {
    const { exports } = new WebAssembly.Instance(WASM);
    const [start, answer] = [bytes.length, 64].map((size) => exports.exifnorm_malloc(BigInt(size)));
    new Uint8Array(exports.memory.buffer).set(bytes, Number(start));
    new Uint8Array(exports.memory.buffer).fill(0xaa, 0, STACK - 64);
    assert.equal(exports[name](start, BigInt(bytes.length), answer, answer + 32n), 0); // a further argument is ignored
    const used = STACK - new Uint8Array(exports.memory.buffer).findIndex((octet) => octet !== 0xaa);
    assert.ok(used > 100 && used < STACK / 2, `${name}: ${used} bytes`);
  }
});

test("the heap frees and grows: nothing overlaps, and its memory is in proportion", () => {
  const { memory, exifnorm_malloc: malloc, exifnorm_free: free, exifnorm_allocations: allocations } = new WebAssembly.Instance(WASM).exports;
  const chunks = [];
  let octets = new Uint8Array(memory.buffer), seed = 7, most = 0, size = 0;
  const random = (below) => (seed = (Math.imul(seed, 1103515245) + 12345) & 0x7fffffff) % below;
  const take = () => {
    const chunk = { size: 1 + random(1 << random(17)), mark: random(256) };
    chunk.start = Number(malloc(BigInt(chunk.size)));
    assert.ok(chunk.start > 0 && chunk.start % 16 === 0);
    if (octets.buffer !== memory.buffer) octets = new Uint8Array(memory.buffer);
    octets.fill(chunk.mark, chunk.start, chunk.start + chunk.size);
    chunks.push(chunk);
    most = Math.max(most, (size += chunk.size));
  };
  const giveBack = () => {
    const [chunk] = chunks.splice(random(chunks.length), 1);
    assert.ok(octets.subarray(chunk.start, chunk.start + chunk.size).every((byte) => byte === chunk.mark), "another chunk is there");
    free(BigInt(chunk.start));
    size -= chunk.size;
  };
  for (let turn = 0; turn < 20_000; turn++) (chunks.length && (random(2) || size > 1 << 21) ? giveBack : take)();
  assert.equal(Number(allocations()), chunks.length);
  assert.ok(memory.buffer.byteLength < 4 * most + 32 * PAGE, `${memory.buffer.byteLength} bytes for ${most}`);
  while (chunks.length) giveBack();
  const whole = memory.buffer.byteLength, start = malloc(BigInt(whole - (5 << 18)));
  assert.ok(start > 0n && memory.buffer.byteLength === whole, "an empty heap is whole again");
});
