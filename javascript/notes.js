/**
 * What an Exif block has beside its fields: where its MakerNote is, and bytes that no field covers, though a MakerNote or another private pointer
 * may lead there (exifnorm_pictures' structure.py, whose parts are the same).
 * @module
 */
import { left } from "./parts.js";
import tables from "./tables.js";

const HEADER = 8, MAKER_NOTE = 0x927c;
const { private: PRIVATE, links: LINKS, sizes: SIZES } = tables;
const PICTURES = [[0x0201, 0x0202], [0x0111, 0x0117]]; // where a thumbnail's JPEG or its strips are, and their lengths

/** The directories of a block that has a meaning, each with its entries. */
function directoriesOf(block) {
  const view = new DataView(block.buffer, block.byteOffset, block.length), isLittle = block[0] === 0x49, found = [];
  const waiting = block.length >= HEADER ? [["main", view.getUint32(4, isLittle)]] : [], seen = new Set();
  const valueOf = (at, type) => type === 3 || type === 8 ? view.getUint16(at, isLittle) : view.getUint32(at, isLittle);
  while (waiting.length) {
    const [name, at] = waiting.pop();
    if (seen.has(at) || at < HEADER || at + 2 > block.length) continue;
    const count = view.getUint16(at, isLittle), end = at + 2 + 12 * count, entries = [];
    seen.add(at);
    if (end + 4 > block.length) continue;
    for (let place = at + 2; place < end; place += 12) {
      const [tag, type, elements] = [view.getUint16(place, isLittle), view.getUint16(place + 2, isLittle), view.getUint32(place + 4, isLittle)];
      entries.push({ tag, type, elements, size: (SIZES[type] ?? 0) * elements, place: place + 8, last: view.getUint32(place + 8, isLittle), value: valueOf(place + 8, type) });
    }
    found.push({ name, at, end: end + 4, entries });
    if (name === "main" && view.getUint32(end, isLittle)) waiting.push(["thumb", view.getUint32(end, isLittle)]);
    for (const { tag, elements, value } of entries) if (LINKS[name]?.[tag] && elements === 1) waiting.push([LINKS[name][tag], value]);
  }
  return { directories: found, view, isLittle };
}

/** The ranges of a thumbnail's JPEG and of its strips. */
function picturesOf({ entries }, view, isLittle) {
  const numbers = (tag) => {
    const entry = entries.find((one) => one.tag === tag), size = SIZES[entry?.type], start = entry?.size > 4 ? entry.last : entry?.place;
    if (![3, 4].includes(entry?.type) || start + entry.size > view.byteLength) return [];
    return Array.from({ length: entry.elements }, (_, i) => size === 2 ? view.getUint16(start + 2 * i, isLittle) : view.getUint32(start + 4 * i, isLittle));
  };
  return PICTURES.flatMap(([starts, sizes]) => {
    const lengths = numbers(sizes);
    return numbers(starts).slice(0, lengths.length).map((start, i) => [start, start + lengths[i]]);
  });
}

/** The bytes between some ranges, each with its offset, without the zeros around it. */
export function gapsOf(block, ranges) {
  const gaps = [];
  let reached = 0;
  for (const [start, end] of [...ranges.sort(([one], [other]) => one - other), [block.length, block.length]]) {
    let [from, to] = [reached, Math.min(start, block.length)];
    while (from < to && !block[from]) from++;
    while (to > from && !block[to - 1]) to--;
    if (to > from) gaps.push([from, block.subarray(from, to)]);
    reached = Math.max(reached, end);
  }
  return gaps;
}

/** The bytes by which gaps are found again: with their offsets from a place on. */
export function placed(gaps, first) {
  const encoder = new TextEncoder(), pieces = gaps.flatMap(([at, octets]) => [encoder.encode(`${at - first} ${octets.length} `), octets]);
  const whole = new Uint8Array(pieces.reduce((size, { length }) => size + length, 0));
  let end = 0;
  for (const piece of pieces) whole.set(piece, (end += piece.length) - piece.length);
  return whole;
}

/** The offset of the MakerNote of a valid block, null without one; and what of the block is reached by private pointers alone, as a list. */
export function notesOf(block, name) {
  const { directories, view, isLittle } = directoriesOf(block), ranges = [[0, HEADER]], leads = new Set();
  let note = null;
  for (const directory of directories) {
    ranges.push([directory.at, directory.end]);
    for (const { tag, size, last } of directory.entries) {
      if (size > 4 && !LINKS[directory.name]?.[tag]) ranges.push([last, last + size]);
      if (Object.hasOwn(PRIVATE, tag)) leads.add(PRIVATE[tag]);
      if (tag === MAKER_NOTE && directory.name === "exif" && size > 4) note = last;
    }
    if (directory.name === "thumb") ranges.push(...picturesOf(directory, view, isLittle));
  }
  const gaps = leads.size ? gapsOf(block, ranges) : [], by = [...leads].join(" and ");
  if (!gaps.length) return { note, notRead: [] };
  const count = gaps.reduce((sum, [, octets]) => sum + octets.filter(Boolean).length, 0), first = by === PRIVATE[MAKER_NOTE] && note !== null ? note : 0;
  const what = `${count.toLocaleString("en")} byte${count === 1 ? "" : "s"} that only ${by} can reach`;
  return { note, notRead: [left(what + (name === "Exif" ? "" : ` (${name})`), placed(gaps, first))] };
}
