/**
 * What an engine finds in the head of a picture: its blocks, its packets of XMP with their properties, and what isn't read; and how two
 * heads compare.
 * @module
 */
import { HeadRefused, NormalTooLong, NotRead, PictureRefused, Refused, TooMany } from "./engine.js";
import { readFormat } from "./formats.js";
import { besides, resourcesOf, trailerOf, unknownIn } from "./jpeg.js";
import { md5 } from "./md5.js";
import { notesOf } from "./notes.js";
import { Broken, left } from "./parts.js";
import { sha256 } from "./sha256.js";
import tables from "./tables.js";
import { inUtf8, xmpProperties } from "./xmp.js";
import { inOrder } from "./xmp_values.js";

const MOST_PARTS = tables.limits.segments;
const FIRST_READ = 1 << 18, MOST_READ = 1 << 26; // bytes
const MOST_FORMS = 1 << 25; // bytes of the forms of all XMP in a head: of a packet and the longest extended XMP there are fewer
export const KINDS = ["exif", "iptc", "xmp"];
export const KIND_NAMES = { exif: "Exif", iptc: "IPTC", xmp: "XMP" };
const ORDINALS = ["first", "second", "third", "fourth", "fifth", "sixth", "seventh", "eighth", "ninth"];
const DATA_SET = 0x1c;
const NOTE = "http://ns.adobe.com/xmp/note/HasExtendedXMP", NAME = 32, BEFORE = 40; // bytes of a piece: its packet's name; all before its text

const areEqual = (first, second) => first.length === second.length && first.every((octet, i) => octet === second[i]);

// ---- reading

/** The forms of a head's XMP are too long together. That of a packet of 60 kB may have 16 MB, since each property repeats its namespace. */
class TooMuchXmp extends Error {}

/** The cause of a block that doesn't begin as its place in the picture shows that it must; empty if it does. */
function misplaced(kind, data) {
  if (!data.length || (data[0] === DATA_SET) === (kind === "iptc")) return "";
  return kind === "iptc" ? "NoMarker" : "UnknownKind";
}

/** A block or a packet with its refusal, if it is refused; and with the form of a packet. A packet in a rare form has a refusal, too. */
function judged(engine, one) {
  const block = { part: "", note: null, refusal: null, ...one }, { kind, data } = block;
  try {
    if (kind === "xmp") return { ...block, form: engine.xmpNormalise(inUtf8(data)) };
    const cause = misplaced(kind, data);
    if (cause) return { ...block, refusal: { cause, offset: 0, isRare: false } };
    engine.check(data);
    return block;
  } catch (error) {
    if (!(error instanceof Refused)) throw error;
    return { ...block, refusal: { cause: error.cause, offset: error.offset, isRare: error.isRare ?? false } };
  }
}

/** Pieces of extended XMP as one text, if they are whole and have the name; otherwise null. */
function textOfPieces(name, pieces) {
  const whole = new Uint8Array(pieces.reduce((size, { data }) => size + data.length, 0));
  let end = 0;
  for (const { total, offset, data } of pieces.sort((first, second) => first.offset - second.offset)) {
    if (offset !== end || total !== whole.length) return null;
    whole.set(data, offset);
    end += data.length;
  }
  return md5(whole) === name ? whole : null;
}

/** The properties of extended XMP by the name that its packet has for it, null in place of those that can't be read. */
function extensionsOf(segments, judge) {
  const found = new Map();
  for (const octets of segments) {
    const name = String.fromCharCode(...octets.subarray(0, NAME)).toUpperCase();
    const view = new DataView(octets.buffer, octets.byteOffset, octets.length), isPiece = octets.length >= BEFORE;
    const [total, offset] = isPiece ? [view.getUint32(NAME), view.getUint32(NAME + 4)] : [-1, -1];
    if (!found.has(name)) found.set(name, []);
    found.get(name).push({ total, offset, data: octets.subarray(BEFORE) });
  }
  return new Map([...found].map(([name, pieces]) => {
    const data = textOfPieces(name, pieces), form = data && judge({ kind: "xmp", data }).form;
    return [name, form ? xmpProperties(form) : null];
  }));
}

/**
 * Gives each packet its properties, with those of its extended XMP, which belongs to the first packet of the picture itself that names it: many
 * packets with one extension would take memory for all of them. Returns whether all extended XMP is read, and none is missing.
 */
function extend(packets, segments, judge) {
  const extensions = extensionsOf(segments, judge), used = new Set(), isNote = ({ namespace, name }) => namespace + name === NOTE;
  let areRead = true;
  for (const packet of packets.filter(({ form }) => form)) {
    packet.properties = xmpProperties(packet.form);
    const names = packet.properties.filter(isNote).map(({ value }) => value.text?.toUpperCase() ?? "");
    const added = names.map((name) => packet.part || used.has(name) ? null : extensions.get(name)), all = [...packet.properties.filter((one) => !isNote(one)), ...added.flat()];
    if (!names.length) continue;
    if (added.every(Boolean) && new Set(all.map(({ namespace, name }) => namespace + name)).size === all.length) packet.properties = all;
    else areRead = false;
    if (!packet.part) for (const name of names) used.add(name);
  }
  for (const packet of packets.filter(({ form }) => form)) {
    const keyed = packet.properties.map((property) => [property.namespace + property.name, property]);
    packet.meaning = JSON.stringify(keyed.sort(([first], [second]) => inOrder(first, second)));
  }
  return areRead && [...extensions.keys()].every((name) => used.has(name));
}

/** What of the Exif blocks only a MakerNote can reach; the blocks learn where their MakerNotes are. */
function reached(blocks) {
  const notRead = [];
  for (const block of blocks.filter(({ kind, refusal }) => kind === "exif" && !refusal)) {
    const found = notesOf(block.data, block.name);
    block.note ??= found.note;
    notRead.push(...found.notRead);
  }
  return notRead;
}

/** Blocks with their refusals and numbers, in the order of their kinds; and the judge of further packets. */
function judgedAll(engine, some) {
  let room = MOST_FORMS;
  const judge = (one) => {
    const block = judged(engine, one);
    room -= block.form?.length ?? 0;
    if (room < 0) throw new TooMuchXmp();
    return block;
  };
  const blocks = some.map(judge);
  for (const kind of KINDS) blocks.filter((block) => block.kind === kind).forEach((block, index) => { block.index = index; });
  const counts = new Map();
  for (const block of blocks) {
    const name = KIND_NAMES[block.kind] + (block.part && ` of ${block.part}`), count = (counts.get(name) ?? 0) + 1;
    counts.set(name, count);
    block.name = count === 1 ? name : `${ORDINALS[count - 1] ?? `${count}th`} ${name}`;
  }
  return [blocks.sort((first, second) => KINDS.indexOf(first.kind) - KINDS.indexOf(second.kind)), judge];
}

/** The head of a JPEG. XMP that isn't read is in `further` by its kind, and in `others` segments that may have XMP in another way. */
function jpegHead(engine, bytes, source) {
  const parts = engine.jpegParts(bytes, MOST_PARTS), dataOf = ({ start, size }) => bytes.subarray(start, start + size);
  const packets = parts.filter(({ kind }) => kind === "xmp").map((part) => ({ kind: "xmp", data: dataOf(part) }));
  const more = besides(engine, parts, bytes, source), trailers = trailerOf(parts, source), [blocks, judge] = judgedAll(engine, [...engine.jpegBlocks(bytes, MOST_PARTS), ...packets, ...more.blocks]);
  const pieces = parts.filter(({ kind }) => kind === "extended xmp").map(dataOf), inResources = resourcesOf(engine, parts, dataOf);
  const extended = extend(blocks.filter(({ kind }) => kind === "xmp"), pieces, judge) ? [] : [new Uint8Array(0), ...pieces]; // also if it is missing
  const others = unknownIn(parts, bytes);
  const resources = inResources.hasXmp ? parts.filter(({ kind }) => kind === "photoshop").map(dataOf) : [];
  return { format: "JPEG", bytes, blocks, pieces, further: { extended, resources }, others, unread: engine.jpegUnread(bytes), digest: inResources.digest, notRead: [...more.notRead, ...trailers, ...inResources.notRead, ...reached(blocks)] };
}

const NOTHING = { bytes: null, blocks: [], pieces: [], further: { extended: [], resources: [] }, others: [], unread: null, digest: "", notRead: [] };

/** Why a picture can't be read. */
export const problem = (name, more = {}) => ({ ...NOTHING, format: more.format ?? "", problem: { name, ...more } });

/** The head of a picture in another format, or why there is none; null if its format isn't known. */
function otherHead(engine, source) {
  try {
    const found = readFormat(engine, source);
    if (!found?.blocks) return problem(source.size ? "format" : "empty", { format: found?.format ?? "" });
    const [blocks] = judgedAll(engine, found.blocks), { format, notRead, digest = "" } = found;
    const areRead = extend(blocks.filter(({ kind }) => kind === "xmp"), [], null);
    return { ...NOTHING, format, blocks, digest, notRead: [...notRead, ...reached(blocks)], further: { extended: areRead ? [] : [new Uint8Array(0)], resources: [] } };
  } catch (error) {
    if (error instanceof Broken) return problem("broken", { format: error.format, why: error.message });
    throw error;
  }
}

/** The head of a picture of which `bytes` are the first; or why nothing was read, as `problem`. */
function headOf(engine, bytes, source) {
  try {
    return jpegHead(engine, bytes, source);
  } catch (error) {
    if (error instanceof TooMany) return problem("many");
    if (error instanceof TooMuchXmp) return problem("xmp");
    if (!(error instanceof HeadRefused)) throw error;
    if (error.cause !== "JpegNoStart") return problem("head", { format: "JPEG", cause: error.cause, offset: error.offset });
  }
  try {
    return otherHead(engine, source);
  } catch (error) {
    if (error instanceof TooMany) return problem("many");
    if (error instanceof TooMuchXmp) return problem("xmp");
    throw error;
  }
}

/**
 * The head of a file, which has its `size`, and its parts by `part(start, end)`. Of a JPEG more is asked for until the head is whole, so that a
 * large file costs what its head does.
 */
export function headOfFile(engine, source) {
  for (let size = FIRST_READ; ; size *= 4) {
    const head = headOf(engine, source.part(0, Math.min(size, source.size)), source);
    if (head.problem?.cause !== "JpegCut" || size >= source.size) return head;
    if (size >= MOST_READ) return problem("long");
  }
}

// ---- verdicts

const byName = (blocks) => new Map(blocks.map((block) => [block.name, block]));
const haveSameNames = (first, second) => first.size === second.size && [...first.keys()].every((name) => second.has(name));
const packetsOf = ({ blocks }) => blocks.filter(({ kind }) => kind === "xmp");
const areSameBytes = (first, second) => first.length === second.length && first.every((octets, i) => areEqual(octets, second[i]));

/** The XMP of a head that isn't read, in other places than its packets. */
const furtherOf = ({ further: { extended, resources } }) => [...extended, ...resources];

/** Whether all XMP of a head is read. */
export const isXmpRead = (head) => !head.problem && !furtherOf(head).length && packetsOf(head).every(({ refusal }) => !refusal);

/** Whether the XMP of two heads has the same bytes, whatever they mean. */
export function haveSameXmpBytes([first, second]) {
  const octetsOf = (head) => [packetsOf(head).map(({ data }) => data), head.pieces, head.further.resources, head.others];
  return !!second && octetsOf(first).every((some, kind) => areSameBytes(some, octetsOf(second)[kind]));
}

const ofKind = ({ blocks }, kind) => blocks.filter((block) => block.kind === kind);

/** Whether a block of a kind that only the other head shows may be in a part that isn't read of one that shows none, and that the other one lacks. */
export function mayHide(kind, head, other) {
  const mayHave = ({ what, key }) => tables.mayHave.some(([words, kinds]) => what.includes(words) && kinds.includes(kind)) && !(key && other.notRead.some((one) => one.key === key));
  if (head.notRead.some(mayHave) || kind !== "xmp" && head.unread) return true;
  return kind === "xmp" && head.others.some((octets) => !other.others.some((one) => areEqual(octets, one)));
}

/** Whether one of two heads has a block of a kind which the other one is known not to have. */
const doesOneLack = (kind, [first, second]) => [[first, second], [second, first]].some(([head, other]) => {
  const names = byName(ofKind(head, kind));
  return ofKind(other, kind).some(({ name }) => !names.has(name)) && !mayHide(kind, head, other);
});

/**
 * The verdict on the XMP of two heads: `same`, `different`, and `unread` if it isn't known, because a packet has no normal form, or there is
 * XMP that isn't read. Of such pictures a difference is known if packets differ that have forms, and what isn't read is the same.
 */
function xmpVerdict(heads) {
  const [first, second] = heads.map((head) => byName(packetsOf(head))), areAlike = haveSameNames(first, second), areRead = heads.every(isXmpRead) && areSameBytes(...heads.map(({ others }) => others));
  const isOther = ({ name, meaning }) => meaning && second.get(name)?.meaning && meaning !== second.get(name).meaning;
  if (areRead) return [...first.values()].some(isOther) || doesOneLack("xmp", heads) ? "different" : areAlike ? "same" : "unread";
  return areAlike && areSameBytes(...heads.map(furtherOf)) && [...first.values()].some(isOther) ? "different" : "unread";
}

/**
 * How the blocks of Exif and IPTC of two heads compare, pair by pair: `different` if two that have a meaning differ, or there are more of a kind
 * in one head, and `refused` if that isn't known because a block is.
 */
function blocksVerdict(engine, first, second) {
  let isRefused = false;
  for (const kind of ["exif", "iptc"]) {
    const [ones, others] = [first, second].map((head) => byName(ofKind(head, kind))), areValid = [...ones.values(), ...others.values()].every(({ refusal }) => !refusal);
    if (areValid && doesOneLack(kind, [first, second])) return "different";
    isRefused ||= !areValid;
    const pairs = [...ones.values()].map((one) => [one, others.get(one.name)]).filter(([one, other]) => other && !one.refusal && !other.refusal);
    if (pairs.some(([one, other]) => !engine.compare(one.data, other.data))) return "different";
  }
  return isRefused ? "refused" : "same";
}

/** Whether what isn't read of two heads may differ: a part whose bytes aren't known, or that isn't in both. */
function mayLeftDiffer(first, second) {
  const keys = [first, second].map(({ notRead }) => notRead.map(({ what, key }) => key && `${key} ${what}`).sort());
  return keys[0].length !== keys[1].length || keys[0].some((key, i) => !key || key !== keys[1][i]);
}

const notesIn = ({ blocks }) => blocks.filter(({ kind, note }) => kind === "exif" && note !== null);

/** Why the MakerNotes of two heads may mean something else, although their bytes are equal; empty if they can't. */
export function noteDoubt([first, second]) {
  const [ones, others] = [first, second].map(notesIn), placesOf = (blocks) => blocks.map(({ name, note }) => `${name} ${note}`).join();
  if (!ones.length || !others.length) return "";
  if (placesOf(ones) !== placesOf(others)) return "a MakerNote that has moved";
  return ones.some(({ data }, i) => !areEqual(data, others[i].data)) ? "a MakerNote in a block that was written anew" : "";
}

/** Whether two heads may differ in what isn't read, other than XMP. */
const isOpen = (first, second) => Boolean(first.unread || second.unread || mayLeftDiffer(first, second) || noteDoubt([first, second]));

/**
 * The verdict on two heads, which is the engine's for Exif and IPTC: `same` if nothing else is there that could differ, and `none` if neither
 * has anything; `partly` if what is read is the same, but their XMP isn't read, one has more that other programs may read, or nothing is read;
 * `different`, also if a block of another pair is refused; `refused`, and `unread`.
 */
export function verdict(engine, first, second) {
  if (first.problem || second.problem) return "unread";
  const xmp = xmpVerdict([first, second]), areHeads = first.bytes && second.bytes;
  let found = areHeads && ![first, second].some(({ blocks }) => blocks.some(({ part }) => part)) ? "" : blocksVerdict(engine, first, second), isPartly = xmp !== "same" || isOpen(first, second);
  try {
    if (areHeads && found !== "different") found = engine.jpegSameBlocks(first.bytes, second.bytes) ? found || "same" : "different";
  } catch (error) {
    if (!(error instanceof NotRead || error instanceof PictureRefused)) throw error;
    found = error instanceof NotRead ? found || "same" : blocksVerdict(engine, first, second);
    isPartly = true;
  }
  if (found === "different" || xmp === "different") return "different";
  if (found === "refused" || isPartly) return found === "refused" ? "refused" : "partly";
  if (first.blocks.length || second.blocks.length) return "same";
  return [first, second].some(({ notRead, others }) => notRead.length || others.length) ? "partly" : "none";
}

/** The same for one picture. */
export function single(head) {
  return head.problem ? "unread" : head.blocks.some(({ refusal }) => refusal && !refusal.isRare) ? "refused" : "valid";
}

/** Whether Exif and IPTC of two heads have the same bytes. */
export function haveSameBytes([first, second]) {
  const blocksOf = ({ blocks }) => blocks.filter(({ kind }) => kind !== "xmp");
  const areKinds = !!second && blocksOf(first).every(({ kind }, i) => kind === blocksOf(second)[i]?.kind);
  return areKinds && areSameBytes(...[first, second].map((head) => blocksOf(head).map(({ data }) => data)));
}

/** What is known of the XMP of two heads, or of one. */
export function xmpOf(heads) {
  const found = heads.some(({ problem: why }) => why) ? "unread" : heads.length === 2 ? xmpVerdict(heads) : isXmpRead(heads[0]) ? "same" : "unread";
  return { verdict: found, sameBytes: haveSameXmpBytes(heads) };
}

/** What identifies the metadata of a picture that may have been moved; empty if it has none, or not all of it is read. */
export function identity(engine, head) {
  if (head.problem || head.unread || head.notRead.some(({ key }) => !key) || !head.blocks.length || head.blocks.some(({ kind, refusal }) => refusal && kind !== "xmp")) return "";
  try {
    const meant = ({ kind, data, meaning, note }) => kind !== "xmp" ? note === null ? engine.normalise(data) : data : meaning ? new TextEncoder().encode(meaning) : data;
    const forms = head.blocks.map((block) => `${block.name} ${sha256(meant(block))}`);
    return [...forms, ...[...furtherOf(head), ...head.others].map(sha256), ...head.notRead.map(({ key }) => key)].join(" ");
  } catch (error) {
    if (error instanceof NormalTooLong) return "";
    throw error;
  }
}
