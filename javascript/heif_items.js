/** The items of a HEIF file: what its boxes say of each picture and of each block (ISO/IEC 14496-12, 8.11; ISO/IEC 23008-12). @module */
import { Broken } from "./parts.js";
import tables from "./tables.js";

/** The boxes from an offset to another. */
export function* boxes(parts, start, end) {
  for (let at = start, count = 0; at < end; count++) {
    if (count > tables.limits.boxes || at + 8 > end) throw new Broken(`no box at ${at}`);
    const short = parts.number(at, 4), head = short === 1 ? 16 : 8, size = short === 1 ? parts.number(at + 8, 8) : short === 0 ? end - at : short;
    if (size < head || at + size > end) throw new Broken(`the box at ${at} is longer than what it is in`);
    yield { kind: parts.text(at + 4, 4), start: at + head, end: at + size };
    at += size;
  }
}

/** The numbers and texts of a box, one after another. */
export class Fields {
  constructor(parts, { start, end, kind }) {
    Object.assign(this, { parts, at: start, end, kind });
    this.version = this.number(1);
    this.number(3);
  }

  number(length) {
    if (this.at + length > this.end) throw new Broken(`the ${this.kind} box is cut`);
    this.at += length;
    return length ? this.parts.number(this.at - length, length) : 0;
  }

  text() {
    let text = "", octet;
    while ((octet = this.number(1))) text += String.fromCharCode(octet);
    return text;
  }
}

export function itemOf(parts, box) {
  const fields = new Fields(parts, box);
  if (fields.version !== 2 && fields.version !== 3) throw new Broken(`an item of version ${fields.version}`);
  const number = fields.number(fields.version === 2 ? 2 : 4), isProtected = fields.number(2) !== 0, kind = parts.text(fields.at, 4);
  fields.number(4);
  if (kind !== "mime") return { number, kind, isProtected, type: "" };
  fields.text(); // its name
  const type = fields.text();
  return { number, kind, isProtected, type, encoding: fields.at < box.end ? fields.text() : "" };
}

/** Where each item is, by its number. */
export function placesOf(parts, box) {
  const fields = new Fields(parts, box), { version } = fields, sizes = fields.number(2), long = version === 2 ? 4 : 2, places = new Map();
  const [offset, length, base, index] = [sizes >> 12, sizes >> 8 & 15, sizes >> 4 & 15, version ? sizes & 15 : 0];
  for (let left = fields.number(long); left; left--) {
    const number = fields.number(long), method = version ? fields.number(2) & 15 : 0, isElsewhere = fields.number(2) !== 0, start = fields.number(base);
    const extents = [];
    for (let more = fields.number(2); more; more--) {
      fields.number(index);
      const from = start + fields.number(offset);
      extents.push([from, from + fields.number(length)]);
    }
    if (places.has(number)) throw new Broken(`item ${number} has no certain place`);
    places.set(number, { method, isElsewhere: isElsewhere || !length, extents });
  }
  return places;
}

/** What the references between items say: which items an item describes; and the tiles, auxiliary pictures and thumbnails. */
export function referencesOf(parts, box) {
  const found = { cdsc: [], dimg: [], auxl: [], thmb: [] };
  if (!box) return found;
  const head = new Fields(parts, box), size = head.version ? 4 : 2;
  for (const { kind, start, end } of boxes(parts, head.at, box.end)) {
    const count = parts.number(start + size, 2);
    if (start + size * (count + 1) + 2 > end) throw new Broken(`the ${kind} box is cut`);
    if (Object.hasOwn(found, kind)) found[kind].push([parts.number(start, size), Array.from({ length: count }, (_, i) => parts.number(start + size + 2 + size * i, size))]);
  }
  return found;
}

/** The name of the picture that an item describes; none for the main one, and where no picture is named. */
export function partOf(number, items, primary, { cdsc, dimg, auxl, thmb }) {
  const described = [...new Set(cdsc.filter(([from]) => from === number).flatMap(([, to]) => to))], names = new Map(), tiles = dimg.flatMap(([, to]) => to);
  if (!described.length || primary === null || described.includes(primary)) return "";
  for (const [word, list] of [["auxiliary picture", auxl], ["thumbnail", thmb]]) [...new Set(list.map(([from]) => from))].forEach((one, i) => names.set(one, `${word} ${i + 1}`));
  const others = items.filter(({ number: one, kind }) => tables.items.includes(kind) && !names.has(one) && (one === primary || !tiles.includes(one)));
  others.forEach(({ number: one }, i) => names.set(one, `picture ${i + 1}`));
  return described.map((one) => names.get(one) ?? `item ${one}`).join(" and ");
}
