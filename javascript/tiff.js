/**
 * TIFF and DNG: each page and each SubIFD as an Exif block by itself, without what leads to pixels, and without values that are blocks of their
 * own (exifnorm_pictures' tiff.py and tiff_block.py, whose blocks are the same).
 * @module
 */
import { gapsOf, placed } from "./notes.js";
import { inResources, left } from "./parts.js";
import tables from "./tables.js";
import { Directories } from "./tiff_directories.js";

const LONG = 4, PIXELS = tables.pixels, SUB_IFDS = 0x014a;
const XMP = 0x02bc, IPTC = 0x83bb, PHOTOSHOP = 0x8649, LAYERS = 0x935c, DNG_VERSION = 0xc612, MAKER_NOTE = 0x927c;
const { otherPointers: OTHERS } = tables; // that aren't followed
const SONY = 0xc634, ORIGINAL = 0xc68c, PROFILES = 0xc6f5, SAMSUNG = 0xa010; // private entries, of which no value counts
const MOST_BETWEEN = 1 << 24;

/** Whether an entry leads to what isn't read, and is no field by its value. In a DNG Sony's tag has a value. */
const isPrivate = ({ tag, size }) => tag === PROFILES || tag === SAMSUNG || tag === SONY && size === 4 || tag === ORIGINAL && size > 4;

/** The bytes between all that directories lead to, which a MakerNote may use, as a list: with their offsets from the only MakerNote on. */
function between({ ranges, parts }, notes) {
  const merged = [];
  for (const [start, end] of ranges.sort(([one], [other]) => one - other)) {
    if (merged.length && start <= merged.at(-1)[1]) merged.at(-1)[1] = Math.max(end, merged.at(-1)[1]); else merged.push([start, end]);
  }
  const holes = merged.slice(1).map(([start], i) => [merged[i][1], Math.min(start, parts.size)]).filter(([start, end]) => start < end);
  if (holes.reduce((sum, [start, end]) => sum + end - start, 0) > MOST_BETWEEN) return [left("bytes that the MakerNote may lead to")];
  const gaps = holes.flatMap(([start, end]) => gapsOf(parts.at(start, end).slice(), []).map(([at, octets]) => [start + at, octets]));
  return gaps.length ? [left("bytes that only the MakerNote can reach", placed(gaps, notes.size === 1 ? [...notes][0] : 0))] : [];
}

export function readTiff(parts, engine) {
  const directories = new Directories(parts), found = { blocks: [], notRead: [] }, waiting = [], notes = new Set();
  const take = ({ entries }, part, page) => {
    const add = (...blocks) => found.blocks.push(...blocks.map((block) => ({ ...block, part })));
    const kept = entries.filter((entry) => {
      const data = [XMP, IPTC, PHOTOSHOP].includes(entry.tag) ? directories.bytesOf(entry) : [];
      if (entry.tag === DNG_VERSION) found.format = "DNG";
      if (entry.tag === SUB_IFDS) waiting.push(...directories.numbersOf(entry).map((at, i) => [at, `SubIFD ${i + 1} of ${page}`, 1]));
      else if (entry.tag === XMP && data.length) add({ kind: "xmp", data });
      else if (entry.tag === IPTC && data[0] === 0x1c) add({ kind: "iptc", data });
      else if (entry.tag === IPTC && entry.type === LONG && data[3] === 0x1c) add({ kind: "iptc", data: data.map((_, i) => data[i ^ 3]) });
      else if (entry.tag === PHOTOSHOP && data.length) {
        const inside = inResources(engine, data);
        add(...inside.blocks);
        found.notRead.push(...inside.notRead);
        found.digest ||= inside.digest;
      } else if (entry.tag === LAYERS && entry.size > 4) found.notRead.push(left("Photoshop's layers", directories.placeOf(entry) && parts.short(...directories.placeOf(entry))));
      else if (isPrivate(entry)) found.notRead.push(left(`what tag ${entry.tag.toString(16)} leads to`, entry.tag === ORIGINAL ? directories.bytesOf(entry) : null));
      else if (!PIXELS.includes(entry.tag)) {
        if (OTHERS[entry.tag]) found.notRead.push(left(OTHERS[entry.tag]));
        return true;
      }
      return false;
    });
    if (!kept.length) return;
    const table = directories.table(kept, tables.pointers);
    const note = table.below.get(0x8769)?.entries.find(({ tag, size }) => tag === MAKER_NOTE && size > 4)?.value ?? null;
    if (note !== null) notes.add(note);
    add({ kind: "exif", data: directories.block(table), note });
  };
  for (let at = directories.first, number = 1; at || number === 1; number++) {
    const page = directories.read(at), name = `page ${number}`;
    take(page, number === 1 ? "" : name, name);
    while (waiting.length) {
      const [place, sub, count] = waiting.shift(), inner = directories.read(place), part = count === 1 ? sub : `${sub}, directory ${count}`;
      take(inner, part, part);
      if (inner.following) waiting.unshift([inner.following, sub, count + 1]);
    }
    at = page.following;
  }
  if (notes.size) found.notRead.push(...between(directories, notes));
  if (directories.hasCut) found.notRead.push(left("the rest of a damaged file, which ends inside a value"));
  if (directories.isWhole) found.notRead.push(...parts.behind(directories.ranges.reduce((most, [, end]) => Math.max(most, end), 0)));
  return found;
}
