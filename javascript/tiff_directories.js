/** The directories of a TIFF file, and one of them as an Exif block by itself. @module */
import { Broken } from "./parts.js";
import tables from "./tables.js";

const LONG = 4, IFD = 13;
const SIZES = tables.sizes, NUMBERS = { 3: 2, 4: 4, 13: 4 }, MOST_STRIPS = 100_000;
const MOST_BLOCK = 1 << 24, NOWHERE = 0xffffffff;

/** The directories of a file, each read once. */
export class Directories {
  #taken = [[0, 8]];
  ranges = [[0, 8]]; // of the file, to which directories lead
  isWhole = true; // whether all of these are known

  constructor(parts) {
    this.parts = parts;
    this.isLittle = parts.text(0, 2) === "II";
    this.first = this.number(4, 4);
  }

  number(at, length) {
    return this.parts.number(at, length, this.isLittle);
  }

  read(at) {
    const count = at < 8 ? 0 : this.number(at, 2), end = at + 6 + 12 * count;
    if (at < 8 || this.#taken.some(([start, stop]) => at < stop && start < end)) throw new Broken(`the directory at ${at} shares bytes with another one`);
    if (this.#taken.push([at, end]) > tables.limits.directories) throw new Broken("it has more directories than are read here");
    const entries = Array.from({ length: count }, (_, i) => {
      const start = at + 2 + 12 * i, type = this.number(start + 2, 2), elements = this.number(start + 4, 4);
      return { tag: this.number(start, 2), type, elements, size: (SIZES[type] ?? 0) * elements, last: this.parts.at(start + 8, start + 12).slice(), value: this.number(start + 8, 4) };
    });
    const directory = { at, entries, following: this.number(end - 4, 4) };
    this.#reach(directory, end);
    return directory;
  }

  /** Notes where a directory, its values and its pixels are. */
  #reach({ at, entries }, end) {
    this.ranges.push([at, end], ...entries.map((entry) => this.placeOf(entry)).filter(Boolean));
    for (const [starts, sizes] of tables.ofPixels) {
      const pair = [starts, sizes].map((tag) => entries.find((entry) => entry.tag === tag)).filter(Boolean);
      if (!pair.length || pair[0].tag !== starts) continue;
      const isKnown = pair.length === 2 && pair[0].elements === pair[1].elements && pair[0].elements <= MOST_STRIPS && pair.every((entry) => this.isList(entry));
      if (!isKnown) {
        this.isWhole = false;
        continue;
      }
      const [places, lengths] = pair.map((entry) => this.numbersOf(entry));
      this.ranges.push(...places.map((place, i) => [place, place + lengths[i]]));
    }
  }

  /** Where a value is that isn't in its entry; null if the file doesn't have all of it. */
  placeOf({ size, value }) {
    return size > 4 && value >= 8 && value + size <= this.parts.size ? [value, value + size] : null;
  }

  /** Whether the file ends inside a value, or before it. */
  isCut({ size, value }) {
    return size > 4 && value + size > this.parts.size;
  }

  bytesOf(entry) {
    const place = this.placeOf(entry);
    return entry.size <= 4 ? entry.last.subarray(0, entry.size) : place ? this.parts.at(...place).slice() : new Uint8Array(0);
  }

  /** Whether a value is a whole list of numbers. */
  isList(entry) {
    return Object.hasOwn(NUMBERS, entry.type) && (entry.size <= 4 || !!this.placeOf(entry));
  }

  numbersOf(entry) {
    const size = NUMBERS[entry.type], bytes = this.bytesOf(entry);
    if (!this.isList(entry)) throw new Broken(`the list of tag ${entry.tag.toString(16).padStart(4, "0")} isn't whole`);
    const view = new DataView(bytes.buffer, bytes.byteOffset, bytes.length);
    return Array.from({ length: entry.elements }, (_, i) => size === 2 ? view.getUint16(2 * i, this.isLittle) : view.getUint32(4 * i, this.isLittle));
  }

  table(entries, pointers) {
    const below = new Map();
    for (const entry of entries) {
      this.hasCut ||= this.isCut(entry);
      if (!Object.hasOwn(pointers, entry.tag) || ![LONG, IFD].includes(entry.type) || entry.elements !== 1 || below.has(entry.tag)) continue;
      below.set(entry.tag, this.table(this.read(entry.value).entries, pointers[entry.tag]));
    }
    return { entries, below };
  }

  /** The block of a table: the tables first, then the values, of which those that share bytes in the file share them in the block. */
  block(table) {
    const tables = [table], ranges = [], starts = new Map();
    for (const one of tables) tables.push(...one.below.values());
    for (const place of tables.flatMap(({ entries }) => entries.map((entry) => this.placeOf(entry)).filter(Boolean)).sort(([a, b], [c, d]) => a - c || b - d)) {
      const last = ranges.at(-1);
      if (last && place[0] < last[1]) last[1] = Math.max(last[1], place[1]); else ranges.push([...place]);
    }
    let length = 8;
    for (const one of tables) {
      starts.set(one, length);
      length += 6 + 12 * one.entries.length;
    }
    for (const range of ranges) {
      range.push(length);
      length += range[1] - range[0];
    }
    if (length > MOST_BLOCK) throw new Broken("a directory has more than 16,777,216 bytes of values");
    const block = new Uint8Array(length), view = new DataView(block.buffer), little = this.isLittle;
    block.set(little ? [0x49, 0x49, 42, 0] : [0x4d, 0x4d, 0, 42]);
    view.setUint32(4, 8, little);
    for (const one of tables) {
      const start = starts.get(one);
      view.setUint16(start, one.entries.length, little);
      one.entries.forEach((entry, i) => {
        const at = start + 2 + 12 * i, isPointer = one.below.has(entry.tag), range = entry.size > 4 && this.placeOf(entry) && ranges.findLast(([from]) => from <= entry.value);
        view.setUint16(at, entry.tag, little);
        view.setUint16(at + 2, isPointer ? LONG : entry.type, little);
        view.setUint32(at + 4, entry.elements, little);
        if (isPointer) view.setUint32(at + 8, starts.get(one.below.get(entry.tag)), little);
        else if (entry.size <= 4) block.set(entry.last, at + 8);
        else view.setUint32(at + 8, range ? range[2] + entry.value - range[0] : NOWHERE, little);
      });
    }
    for (const [start, end, at] of ranges) block.set(this.parts.at(start, end), at);
    return block;
  }
}
