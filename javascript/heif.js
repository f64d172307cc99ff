/** HEIF, HEIC and AVIF: the Exif and XMP items of the pictures (ISO/IEC 14496-12, 8.11; ISO/IEC 23008-12, Annex A). @module */
import { Fields, boxes, itemOf, partOf, placesOf, referencesOf } from "./heif_items.js";
import { bareExif, Broken, left, startsWith } from "./parts.js";
import tables from "./tables.js";

const XMP_UUID = [0xbe, 0x7a, 0xcf, 0xcb, 0x97, 0xa9, 0x42, 0xe8, 0x9c, 0x71, 0x99, 0x94, 0x91, 0xe3, 0xaf, 0xac];

/** The bytes of an item; null if it is in another file, or made of other items. */
function dataOf(parts, place, idat) {
  if (!place || place.isElsewhere || place.method > 1 || place.method === 1 && !idat) return null;
  const [start, end] = place.method ? [idat.start, idat.end] : [0, parts.size], size = place.extents.reduce((sum, [from, to]) => sum + to - from, 0);
  if (place.extents.some(([, to]) => start + to > end)) throw new Broken("the file ends inside an item");
  if (size > tables.limits.bytes_of_boxes) throw new Broken("an item is longer than is read here");
  const data = new Uint8Array(size);
  let at = 0;
  for (const [from, to] of place.extents) data.set(parts.at(start + from, start + to), (at += to - from) - (to - from));
  return data;
}

/** The block in an Exif item: a number, so many other bytes, and the block; null if the number leads out of it. */
function exifIn(data) {
  if (startsWith(data, [0x4d, 0x4d, 0, 42]) || startsWith(data, [0x49, 0x49, 42, 0]) || bareExif(data) !== data) return bareExif(data);
  const start = data.length < 4 ? Infinity : 4 + new DataView(data.buffer, data.byteOffset).getUint32(0);
  return start <= data.length ? data.subarray(start) : null;
}

export function readHeif(parts) {
  const blocks = [], notRead = [];
  const top = [...boxes(parts, 0, parts.size)], metas = top.filter(({ kind }) => kind === "meta");
  if (metas.length > 1) throw new Broken("the file has two meta boxes");
  for (const { kind, start, end } of top.slice(1).filter(({ kind: one }) => one !== "meta" && !tables.boxes.includes(one))) { // the first one is ftyp
    const isXmp = kind === "uuid" && end - start >= 16 && startsWith(parts.at(start, start + 16), XMP_UUID);
    if (isXmp) blocks.push({ kind: "xmp", data: parts.at(start + 16, end).slice() }); else notRead.push(left(`${kind} box`, parts.short(start, end)));
  }
  if (!metas.length) return { blocks, notRead };
  const inside = [...boxes(parts, metas[0].start + 4, metas[0].end)], of = (kind) => inside.find((box) => box.kind === kind);
  notRead.push(...inside.filter(({ kind }) => !tables.boxesInMeta.includes(kind)).map(({ kind, start, end }) => left(`${kind} box in meta`, parts.short(start, end))));
  if (!of("iinf") || !of("iloc")) return { blocks, notRead };
  const list = new Fields(parts, of("iinf"));
  list.number(list.version ? 4 : 2);
  const places = placesOf(parts, of("iloc")), items = [...boxes(parts, list.at, list.end)].map((box) => itemOf(parts, box)), references = referencesOf(parts, of("iref"));
  const main = of("pitm") ? new Fields(parts, of("pitm")) : null, primary = main ? main.number(main.version ? 4 : 2) : null;
  for (const { number, kind, isProtected, type, encoding } of items.filter((item) => !tables.items.includes(item.kind))) {
    const part = partOf(number, items, primary, references);
    const data = isProtected ? null : dataOf(parts, places.get(number), of("idat")), exif = kind === "Exif" && data ? exifIn(data) : null;
    if (exif) blocks.push({ kind: "exif", data: exif, part });
    else if (type === "application/rdf+xml" && !encoding && data) blocks.push({ kind: "xmp", data, part });
    else if (!data || data.length) notRead.push(left(`${kind} item ${type}`.trim(), data));
  }
  return { blocks, notRead };
}
