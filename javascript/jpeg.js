/**
 * What the head of a JPEG has beside the blocks that the engine finds: segments of makers, which aren't read, and the pictures behind it that an
 * index leads to (CIPA DC-007), as a camera writes them for small screens.
 * @module
 */
import { HeadRefused } from "./engine.js";
import { Broken, MOST_DIGESTED, Parts, bareExif, digestIn, latin, left, startsWith } from "./parts.js";
import tables from "./tables.js";

const MOST_PARTS = tables.limits.segments, MOST_HEAD = 1 << 22, LAST = 64;
const TRAILERS = tables.trailers.map(([sign, name]) => [new RegExp(sign, "s"), name]);
const XMP_RESOURCE = 0x0424, APP0 = 0xe0, APP1 = 0xe1, APP2 = 0xe2, APP3 = 0xe3, APP13 = 0xed, APP15 = 0xef;
const INDEX = [0x4d, 0x50, 0x46, 0], ENTRIES = 0xb002, ENTRY = 16; // of an index: its mark, the tag of its list, and the bytes for each picture
const { notCompared: WITHOUT, sizes: SIZES } = tables; // segments without Exif, IPTC and XMP: their markers, and how they begin

/** The trailer at the end of a file, as a list. Where it begins isn't known, so all that follows the head is compared with it. */
export function trailerOf(parts, source) {
  const last = latin(source.part(Math.max(0, source.size - LAST), source.size)), [, name] = TRAILERS.find(([sign]) => sign.test(last)) ?? [];
  const start = Math.min(parts.at(-1).start + parts.at(-1).size, source.size);
  return name ? [left(`${name} trailer`, source.size - start > MOST_DIGESTED ? null : source.part(start, source.size))] : [];
}

/** The name of a segment of an application. */
function nameOf(marker, start) {
  if (marker === APP3 && /^(?:M(?:eta|ETA)|Exif)\0\0/.test(start)) return "APP3 segment Meta";
  const name = `APP${marker - APP0} segment`, word = start.slice(0, 12).split("\0")[0].replace(/[^!-~]/g, "");
  return marker === APP13 ? `${name} of an unknown kind` : `${name} ${word}`.trim();
}

/** The segments that aren't read, of which the engine doesn't say it by itself. */
function segmentsIn(parts, bytes, of) {
  const notRead = [];
  for (const { marker, kind, start, size } of parts) {
    if (kind || marker < APP0 || marker > APP15 || marker === APP1) continue;
    const data = bytes.subarray(start, start + size), begins = latin(data.subarray(0, 24));
    if (WITHOUT.some(([number, start]) => marker === number && begins.startsWith(start)) || marker === APP2 && startsWith(data, INDEX)) continue;
    notRead.push(left(nameOf(marker, begins) + of, data));
  }
  return notRead;
}

/** The segments APP1 of an unknown kind, each after the number of packets before it: a program that reads it as XMP has them in this order. */
export function unknownIn(parts, bytes) {
  let packets = 0;
  return parts.flatMap(({ kind, marker, start, size }) => {
    packets += kind === "xmp";
    return kind || marker !== APP1 ? [] : [Uint8Array.from([packets, ...bytes.subarray(start, start + size)])];
  });
}

/** Where the further pictures of an index begin, whose own offsets count from `base`. */
function placesIn(data, base) {
  const view = new DataView(data.buffer, data.byteOffset, data.length), isLittle = data[0] === 0x49, wrong = () => new Broken("an index of pictures that can't be read");
  if (!/^(?:II\*\0|MM\0\*)/.test(latin(data.subarray(0, 4))) || data.length < 10) throw wrong();
  const at = view.getUint32(4, isLittle), count = at + 2 <= data.length ? view.getUint16(at, isLittle) : 0;
  if (at + 2 + 12 * count > data.length) throw wrong();
  for (let place = at + 2; place < at + 2 + 12 * count; place += 12) {
    if (view.getUint16(place, isLittle) !== ENTRIES) continue;
    const size = (SIZES[view.getUint16(place + 2, isLittle)] ?? 0) * view.getUint32(place + 4, isLittle), start = view.getUint32(place + 8, isLittle);
    if (size % ENTRY || start + size > data.length) throw wrong();
    const entries = Array.from({ length: size / ENTRY }, (_, i) => [view.getUint32(start + ENTRY * i + 8, isLittle), view.getUint32(start + ENTRY * i + 4, isLittle)]);
    return entries.filter(([offset]) => offset).map(([offset, length]) => [base + offset, length]);
  }
  throw wrong();
}

/** The head of a further picture: as many of its bytes as that needs. */
function headAt(engine, file, start, end) {
  for (let size = 1 << 16; ; size *= 4) {
    const bytes = file.at(start, Math.min(start + size, end)).slice();
    try {
      return [bytes, engine.jpegParts(bytes, MOST_PARTS)];
    } catch (error) {
      if (!(error instanceof HeadRefused)) throw error;
      if (error.cause !== "JpegCut" || start + size >= end || size > MOST_HEAD) throw new Broken(`no picture at ${start}`);
    }
  }
}

/**
 * Of Photoshop's resources in a head whether they have XMP, which other programs read, the bytes behind the last whole one of each run, and the
 * digest of IPTC that Photoshop noted.
 */
export function resourcesOf(engine, parts, dataOf) {
  const runs = [], notRead = [];
  let hasXmp = false, digest = "";
  for (const part of parts.filter(({ kind }) => kind === "photoshop")) {
    if (part.begins) runs.push([]);
    runs.at(-1).push(dataOf(part));
  }
  for (const run of runs) {
    const whole = new Uint8Array(run.reduce((size, data) => size + data.length, 0));
    let end = 0;
    for (const data of run) whole.set(data, (end += data.length) - data.length);
    const found = engine.photoshopResources(whole, tables.limits.Photoshop_resources), last = found.at(-1);
    const rest = whole.slice(last ? last.start + last.size + last.size % 2 : 0);
    hasXmp ||= found.some(({ number, size }) => number === XMP_RESOURCE && size > 0);
    digest ||= digestIn(found, whole);
    if (rest.some(Boolean)) notRead.push(left("bytes behind the Photoshop resources", rest));
  }
  return { hasXmp, notRead, digest };
}

/** The blocks of a further picture, and what of it isn't read. */
function further(engine, file, start, end, part) {
  const [bytes, parts] = headAt(engine, file, start, end), of = ` of ${part}`, dataOf = (one) => bytes.subarray(one.start, one.start + one.size);
  const blocks = engine.jpegBlocks(bytes, MOST_PARTS).map((block) => ({ ...block, data: bareExif(block.data), part }));
  blocks.push(...parts.filter(({ kind }) => kind === "xmp").map((one) => ({ kind: "xmp", data: dataOf(one), part })));
  const pieces = parts.filter(({ kind }) => kind === "extended xmp").map((one) => left(`extended XMP${of}`, dataOf(one)));
  const unknown = unknownIn(parts, bytes).map((octets) => left(`APP1 segment of an unknown kind${of}`, octets)), resources = resourcesOf(engine, parts, dataOf);
  const more = [resources.hasXmp && `XMP in Photoshop's resources${of}`, engine.jpegUnread(bytes) && `more metadata${of}`].filter(Boolean).map((what) => left(what));
  return { blocks, notRead: [...pieces, ...unknown, ...segmentsIn(parts, bytes, of), ...resources.notRead, ...more] };
}

/** What is beside the blocks of a head: the blocks of further pictures, and what isn't read. `source` is the file. */
export function besides(engine, parts, bytes, source) {
  const found = { blocks: [], notRead: segmentsIn(parts, bytes, "") }, indexes = parts.filter(({ kind, marker, start }) => !kind && marker === APP2 && startsWith(bytes.subarray(start, start + 4), INDEX));
  if (!indexes.length) return found;
  try {
    const file = new Parts(source), places = indexes.flatMap(({ start, size }) => placesIn(bytes.slice(start + 4, start + size), start + 4));
    const starts = [...new Set(places.map(([start]) => start))].sort((one, other) => one - other);
    if (places.some(([start, length]) => start + length > source.size)) throw new Broken("pictures behind the bytes that are there, to which the head leads");
    starts.forEach((start, i) => {
      const { blocks, notRead } = further(engine, file, start, starts[i + 1] ?? source.size, `MPF picture ${i + 2}`);
      found.blocks.push(...blocks);
      found.notRead.push(...notRead);
    });
  } catch (error) {
    if (!(error instanceof Broken)) throw error;
    found.notRead.push(left(error.message));
  }
  return found;
}
