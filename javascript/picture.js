/** A picture as one object, and what differs between two. @module */
import { headOfFile, noteDoubt, verdict } from "./head.js";
import { NotRead, Refused } from "./engine.js";
import { nameOf } from "./listing.js";
import { md5 } from "./md5.js";
import { Broken } from "./parts.js";
import { byPlace, cameraOf, captionsOf, firstFields, isValid, pairsOf, plainOf, rowsOf, valuesOf } from "./rows.js";
import tables from "./tables.js";
import { dateOf, isoDate, valueOf } from "./values.js";
import { inUtf8, xmpProperties } from "./xmp.js";
import { plainXmp, shownName } from "./xmp_values.js";

const PROBLEMS = {
  format: "a format that isn't read", empty: "an empty file", many: "a head with too many segments", xmp: "a head with too much XMP", unreadable: "a file that can't be read", long: "a head that is too long",
};

// ---- values of XMP

const RATIONAL = /^([+-]?\d{1,300})\/([+-]?\d{1,300})$/, COORDINATE = /^(\d{1,3}),(\d{1,2}(?:\.\d{1,20})?)(?:,(\d{1,2}(?:\.\d{1,20})?))?([NSEW])$/;

const integer = (text) => /^[+-]?\d{1,300}$/.test(text) ? Number(text) : text;
function rational(text) {
  const match = RATIONAL.exec(text);
  return match ? Number(match[2]) ? match[1] / match[2] : null : text;
}
function coordinate(text) {
  const [, degrees, minutes, seconds = 0, letter] = COORDINATE.exec(text) ?? [];
  return letter ? (Number(degrees) + minutes / 60 + seconds / 3600) * ("SW".includes(letter) ? -1 : 1) : text;
}
const MADE = {
  Integer: integer, Rational: rational, Coordinate: coordinate, Number: (text) => integer(text) === text ? rational(text) : integer(text),
  Real: (text) => /^[+-]?(?:\d{1,300}(?:\.\d{0,300})?|\.\d{1,300})$/.test(text) ? Number(text) : text,
  Boolean: (text) => ({ True: true, False: false })[text] ?? text,
  Date: (text) => isoDate(text) ?? text,
};

/** The value of a property: by the type that its standard gives it, otherwise a text; of alternatives the default one; an array; or an object. */
function xmpValue(key, value) {
  const { kind, text, language, uri, members, properties } = value, inner = (some) => xmpValue(key, some);
  if (kind === "text") return language ? text : (MADE[tables.types?.[key]] ?? String)(text);
  if (kind === "resource") return uri;
  if (kind === "structure") return Object.fromEntries(properties.map(({ namespace, name, value: member }) => [nameOfMember(namespace, name), xmpValue(nameOfMember(namespace, name), member)]));
  if (kind !== "Alt") return members.map(inner);
  const chosen = members.find((member) => member.language === "x-default") ?? members[0];
  return chosen ? inner(chosen) : [];
}

const nameOfMember = (namespace, name) => Object.hasOwn(tables.spaces, namespace) ? `${tables.spaces[namespace]}:${name}` : `<${namespace}${name}>`;

// ---- where and when

/** The degrees of a value of GPS, with its direction. */
function degrees(values, letter) {
  if (!Array.isArray(values) || values.length !== 3 || values.includes(null) || typeof letter !== "string") return null;
  const sign = { N: 1, E: 1, S: -1, W: -1 }[letter[0]?.toUpperCase()];
  return sign ? sign * (values[0] + values[1] / 60 + values[2] / 3600) : null;
}

function positionOf(fields) {
  let latitude = degrees(fields["GPS:GPSLatitude"], fields["GPS:GPSLatitudeRef"]), longitude = degrees(fields["GPS:GPSLongitude"], fields["GPS:GPSLongitudeRef"]);
  let altitude = fields["GPS:GPSAltitude"], below = fields["GPS:GPSAltitudeRef"];
  if (latitude === null || longitude === null) {
    [latitude, longitude, altitude, below] = ["Latitude", "Longitude", "Altitude", "AltitudeRef"].map((name) => fields[`XMP-exif:GPS${name}`]);
  }
  if (typeof latitude !== "number" || typeof longitude !== "number" || Math.abs(latitude) > 90 || Math.abs(longitude) > 180) return null;
  return { latitude, longitude, altitude: typeof altitude === "number" ? Number(below) === 1 ? -altitude : altitude : null };
}

/** The date of a property, as ISO 8601 has it; null of one that has none. */
function dateOfProperty(key, { kind, language, text }) {
  return kind === "text" && !language && tables.types[key] === "Date" ? isoDate(text) : null;
}

/** Whether a program that doesn't write XMP has changed the IPTC since Photoshop noted its digest. */
function isIptcChanged({ blocks, digest }) {
  const records = blocks.filter(({ kind }) => kind === "iptc");
  const record = records.find(({ isResource }) => isResource) ?? records[0];
  return Boolean(digest && record) && md5(record.data) !== digest;
}

/** When a picture was taken, as ISO 8601 has it, by its fields and those that are dates: in Exif, or else in XMP or IPTC. */
function takenOf(fields, dates, isChanged) {
  const texts = ["SubSecTimeOriginal", "OffsetTimeOriginal"].map((name) => fields[`ExifIFD:${name}`]);
  const [part, zone] = texts.map((text) => typeof text === "string" ? text.trim() : "");
  const when = dates["ExifIFD:DateTimeOriginal"], ends = [`.${part}${zone}`, `.${part}`, zone, ""];
  const ofExif = ends.map((end) => isoDate(when + end)).find(Boolean);
  const ofXmp = ["exif:DateTimeOriginal", "photoshop:DateCreated"].map((key) => dates[`XMP-${key}`]);
  const [day, clock] = ["DateCreated", "TimeCreated"].map((name) => dates[`IPTC:${name}`]);
  const ofIptc = day && clock && `${day}T${clock}`, others = isChanged ? [ofIptc, ...ofXmp] : [...ofXmp, ofIptc];
  return [ofExif, ...others].find((date) => date?.includes("T")) ?? null;
}

// ---- one picture

/** Why a head can't be read. */
const problemText = ({ problem: { name, cause, offset, why }, format }) =>
  name === "head" ? `a damaged JPEG: ${cause} at ${offset}` : name === "broken" ? `a damaged ${format}: ${why}` : name === "format" && format ? `the format ${format} isn't read` : PROBLEMS[name];

/** What of a head isn't read, by name. */
export function notReadOf(head) {
  if (head.problem) return [problemText(head)];
  const rare = head.blocks.filter(({ refusal }) => refusal?.isRare).map(({ refusal }) => `a packet of XMP in a rare form (${refusal.cause} at ${refusal.offset})`);
  const more = [
    head.unread && `more metadata at ${head.unread.start}`, head.further.extended.length && "extended XMP, missing or not joined to a packet",
    head.further.resources.length && "XMP in Photoshop's resources", head.others.length && "a segment APP1 of an unknown kind",
  ];
  return [...rare, ...more.filter(Boolean), ...head.notRead.map(({ what }) => what)];
}

/** Why blocks have no meaning. */
export const refusalsOf = ({ blocks }) => blocks.filter(({ refusal }) => refusal && !refusal.isRare).map(({ kind, name, refusal: { cause, offset } }) => {
  const [sentence, , remedy] = tables.causes[cause] ?? tables.packets[cause] ?? ["", "", ""];
  return { block: name, kind, cause, offset, sentence, remedy };
});

/** The captions of a head by label: each text once, with the names of the fields that have it. */
function allCaptions(engine, head) {
  const captions = Object.create(null), camera = cameraOf(engine, head);
  for (const block of head.blocks) {
    for (const { label, text, name } of captionsOf(engine, block, camera)) {
      const all = captions[label] ??= [], same = all.find((one) => one.text === text);
      if (!same) all.push({ text, fields: [name] }); else if (!same.fields.includes(name)) same.fields.push(name);
    }
  }
  return { ...captions };
}

/** The values of a packet by their keys, with the members of each Bag in the order of the packet, if it has them all without extended XMP. */
function inPacketOrder(engine, block) {
  const values = valuesOf(block), shown = valuesOf({ ...block, properties: xmpProperties(engine.xmpUnsorted(inUtf8(block.data))) });
  return [...values].map(([key, value]) => [key, value, shown.get(key) ?? value]);
}

/** The picture of a head. */
function ofHead(engine, head) {
  const [fields, texts, dates] = [0, 1, 2].map(() => Object.create(null));
  const set = (name, value, text, date) => {
    if (name in fields) return; // of an earlier block
    fields[name] = value;
    texts[name] = text;
    dates[name] = date;
  };
  for (const block of head.blocks.filter(isValid)) {
    if (block.kind === "xmp") {
      for (const [key, value, shown] of inPacketOrder(engine, block)) set(shownName(key), xmpValue(key, shown), plainXmp(value), dateOfProperty(key, value));
    } else {
      for (const group of byPlace(firstFields(engine, block)).values()) {
        const value = group.length > 1 ? group.map(valueOf) : valueOf(group[0]);
        set(nameOf(group[0]), value, plainOf(group), dateOf(group[0]));
      }
    }
  }
  const blocks = head.blocks.map(({ kind, name, data }) => ({ kind, name, data: data.slice() }));
  const taken = takenOf(fields, dates, isIptcChanged(head)), refusals = refusalsOf(head);
  return {
    format: head.format, fields: { ...fields }, texts: { ...texts }, captions: allCaptions(engine, head), taken,
    position: positionOf(fields), blocks, refusals, notRead: notReadOf(head),
  };
}

// ---- where the bytes are

const MOST_PIECES = 4096; // of a Blob

/** A part of a Blob is asked for that isn't there yet. */
class Missing extends Error {
  constructor(start, end) {
    super(`the bytes from ${start} to ${end}`);
    Object.assign(this, { start, end });
  }
}

const isBlob = (picture) => typeof Blob !== "undefined" && picture instanceof Blob;

/** A picture as a source of its bytes. */
function sourceOf(picture) {
  if (picture instanceof Uint8Array) {
    const bytes = new Uint8Array(picture.buffer, picture.byteOffset, picture.length); // a Buffer of node has another `slice`
    return { size: bytes.length, part: (start, end) => bytes.subarray(start, end) };
  }
  if (Number.isSafeInteger(picture?.size) && typeof picture.part === "function") return picture;
  throw new TypeError("exifnorm takes a picture as a Uint8Array, a Blob, or an object with `size` and `part`");
}

/** The head of a Blob, of which no more is read than that takes: reading begins anew with each part that it lacked. */
async function headOfBlob(engine, blob) {
  const pieces = [], part = (start, end) => {
    const piece = pieces.find(([from, bytes]) => from <= start && end <= from + bytes.length);
    if (!piece && pieces.length === MOST_PIECES) throw new Broken("it has more parts than are read here");
    if (!piece) throw new Missing(start, end);
    return piece[1].subarray(start - piece[0], end - piece[0]);
  };
  for (;;) {
    try {
      return headOfFile(engine, { size: blob.size, part });
    } catch (error) {
      if (!(error instanceof Missing)) throw error;
      const bytes = new Uint8Array(await blob.slice(error.start, error.end).arrayBuffer());
      if (bytes.length < error.end - error.start) throw new Error("the file has changed while it was read");
      pieces.push([error.start, bytes]);
    }
  }
}

/** What is made of the heads of some pictures: a promise of it if one is a Blob. */
function withHeads(engine, pictures, then) {
  const heads = pictures.map((picture) => isBlob(picture) ? headOfBlob(engine, picture) : headOfFile(engine, sourceOf(picture)));
  return pictures.some(isBlob) ? Promise.all(heads).then(then) : then(heads);
}

/** A picture of its bytes, or of the first of them. */
export const pictureOf = (engine, picture) => withHeads(engine, [picture], ([head]) => ofHead(engine, head));

// ---- two pictures

/** Whether the verdict is that of calls which are proved: of two JPEGs without extended XMP, and if they are the same, with nothing beside it. */
function isProved(engine, heads, found) {
  const isAll = ({ blocks, notRead }) => !notRead.length && !blocks.some(({ part }) => part);
  if (!heads.every((head) => head.bytes && !head.pieces.length && (found === "different" || ["same", "none"].includes(found) && isAll(head)))) return false;
  try {
    return engine.jpegSame(...heads.map(({ bytes }) => bytes)) === (found !== "different");
  } catch (error) {
    if (error instanceof NotRead || error.name === "PictureRefused") return false;
    throw error;
  }
}

/** Whether bytes are a block by itself, and no picture: of Exif one without pixels. */
function isBlock(engine, bytes) {
  if (!(bytes instanceof Uint8Array)) return false;
  try {
    return engine.check(bytes) === "iptc" || !/^(?:0111|0144|014a) /m.test(engine.show(bytes).split(/^\[(?!main)/m)[0]);
  } catch (error) {
    if (error instanceof Refused) return false;
    throw error;
  }
}

/** Whether two pictures have the same metadata, and the fields that differ. */
export function comparisonOf(engine, first, second) {
  if (isBlock(engine, first) && isBlock(engine, second)) throw new TypeError("compare takes two pictures; `same` compares two blocks");
  return withHeads(engine, [first, second], (heads) => comparisonOfHeads(engine, heads));
}

function comparisonOfHeads(engine, heads) {
  const found = verdict(engine, ...heads);
  const rows = pairsOf(heads).flatMap((pair) => rowsOf(engine, ...pair).rows).filter((row) => !row.isEqual && !row.isOpen);
  const differences = found !== "different" ? [] : rows.map(({ name, label, cells }) => {
    const [before, after] = cells.map((cell) => cell && cell.text + (cell.exact ? ` (${cell.exact})` : ""));
    return { name, label: label ?? null, before, after };
  });
  const doubt = found === "partly" ? noteDoubt(heads) : "";
  const ofSides = (list) => heads.flatMap((head, i) => list(head).map((one) => ({ side: i + 1, ...one })));
  return {
    verdict: tables.results[found][0], sentence: tables.results[found][1] || "Different metadata.", differences, proved: isProved(engine, heads, found),
    refusals: ofSides((head) => refusalsOf(head)), notRead: [...ofSides((head) => notReadOf(head).map((what) => ({ what }))), ...doubt ? [{ side: 2, what: doubt }] : []],
  };
}
